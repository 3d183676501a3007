"""The log of a gate's run: what scripts/gate-times writes, and the tables that it prints of it."""
import json
import statistics
from collections import defaultdict
from pathlib import Path
from typing import Any, Dict, Iterator, List, Tuple

from crates import uses

TOP = Path(__file__).resolve().parents[1]
KINDS = ("proof", "tests", "edits", "other")
# One object of the log. The first is of the whole run; the others are of processes and of tests.
Line = Dict[str, Any]
# A crate, and which of its proofs.
Stage = Tuple[str, str]


def minutes(seconds: float) -> str:
    """Returns seconds as minutes, with one decimal."""
    return f"{seconds / 60:.1f}"


def crate_table(runs: List[Line]) -> Iterator[str]:
    """Yields a table of processor minutes: a row for each crate, largest first, and the sums."""
    spent: Dict[str, Dict[str, float]] = defaultdict(lambda: defaultdict(float))
    for run in runs:
        spent[run["crate"]][run["kind"]] += run["seconds"]
    by_crate = sorted(spent.items(), key=lambda row: -sum(row[1].values()))
    sums = {kind: sum(of_kind[kind] for _, of_kind in by_crate) for kind in KINDS}
    yield "| crate | proof | tests | edits | other | together |"
    yield "|---|---|---|---|---|---|"
    for name, of_kind in [*((f"`{name}`", of_kind) for name, of_kind in by_crate), ("all", sums)]:
        cells = [minutes(of_kind[kind]) for kind in KINDS]
        together = minutes(sum(of_kind[kind] for kind in KINDS))
        yield f"| {name} | {' | '.join(cells)} | {together} |"


def edit_costs(runs: List[Line]) -> Iterator[str]:
    """Yields the costs of the checks of edits: each crate's first, those between, and its last."""
    by_crate = defaultdict(list)
    for run in runs:
        if run["kind"] == "edits":
            by_crate[run["crate"]].append(run)
    parts: Dict[str, List[float]] = {"first": [], "others": [], "last": []}
    for some in by_crate.values():
        seconds = [run["seconds"] for run in sorted(some, key=lambda run: float(run["begin"]))]
        parts["first"] += seconds[:1]
        parts["last"] += seconds[1:][-1:]
        parts["others"] += seconds[1:-1]
    for name, seconds in parts.items():
        if seconds:
            median = statistics.median(seconds)
            span = f"{min(seconds):.0f} to {max(seconds):.0f} processor seconds"
            yield f"- {name}: {len(seconds)}, {span}, median {median:.0f}"


def stages_of(runs: List[Line]) -> Dict[Stage, Line]:
    """Returns each stage of a crate, from the start of its first process to the last end."""
    stages: Dict[Stage, Line] = {}
    for run in runs:
        stage = stages.setdefault((run["crate"], run["kind"]), dict(run))
        stage["begin"] = min(stage["begin"], run["begin"])
        stage["end"] = max(stage["end"], run["end"])
    return {key: stage for key, stage in stages.items() if key[1] != "other"}


def last_chain(runs: List[Line]) -> Iterator[Tuple[Stage, Line]]:
    """Yields the stages that decided the end, the last first: each waited for the next one."""
    stages = stages_of(runs)

    def end(stage: Stage) -> float:
        return float(stages[stage]["end"])

    key = max(stages, key=end) if stages else None
    while key:
        yield key, stages[key]
        crate, kind = key
        waits = [(name, "proof") for name in uses().get(crate, [])]
        if kind == "edits":
            waits = [(crate, "proof"), (crate, "tests")]
        known = [stage for stage in waits if stage in stages]
        key = max(known, key=end) if known else None


def test_table(tests: List[Line]) -> Iterator[str]:
    """Yields a table of the tests of tests/run: a row for each, the largest first, and the sums."""
    yield "| check | from minute | seconds | processor seconds |"
    yield "|---|---|---|---|"
    for line in sorted(tests, key=lambda line: -float(line["processor"])):
        figures = f"{line['seconds']:.0f} | {line['processor']:.0f}"
        yield f"| `{line['check']}` | {minutes(line['begin'])} | {figures} |"
    start = min(line["begin"] for line in tests)
    end = max(line["begin"] + line["seconds"] for line in tests)
    seconds, processor = (sum(line[key] for line in tests) for key in ("seconds", "processor"))
    yield f"| all | {minutes(start)} to {minutes(end)} | {seconds:.0f} | {processor:.0f} |"


def summary(whole: Line) -> str:
    """Returns a sentence about the whole run."""
    status = whole["status"]
    how = "had not ended" if status is None else f"ended with status {status}"
    return (
        f"`{whole['command']}` {how} after {minutes(whole['end'])} minutes on "
        f"{whole['processors']} processors; it took {minutes(whole['seconds'])} processor minutes."
    )


def report(log: Path) -> Iterator[str]:
    """Yields the lines of the report on a log."""
    whole, *lines = map(json.loads, log.read_text().splitlines())
    runs = [line for line in lines if "crate" in line]
    tests = [line for line in lines if "check" in line]
    yield from ("", summary(whole), "", "Processor minutes:", "")
    yield from crate_table(runs)
    yield from ("", "Checks of edits:", "")
    yield from edit_costs(runs)
    yield from ("", "The chain that ended last, from its end:", "")
    for (crate, kind), stage in last_chain(runs):
        times = f"from minute {minutes(stage['begin'])} to {minutes(stage['end'])}"
        yield f"- {kind} of `{crate}`, {times}"
    if tests:
        yield from ("", "The project's own checks, side by side:", "")
        yield from test_table(tests)
