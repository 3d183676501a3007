"""The numbers of the charts, which --save of bench/run writes and bench/plot draws.

The file is a list of series in JSON. A series has the date, the machine and the command of its
rows. A row has what was measured, the dictionary, the program, and numbers named by their units.
"""
import argparse
import datetime
import json
import os
import re
import shlex
import sys
from pathlib import Path
from typing import Any, Dict, List, Sequence, Tuple

Row = Dict[str, Any]
Series = Dict[str, Any]

# What a row has in common with those that it replaces: all but its numbers.
Key = Tuple[str, str, str]
# The rows that this process has measured.
MEASURED: Dict[Key, Row] = {}
CACHE = Path("/sys/devices/system/cpu/cpu0/cache/index2/size")


def note(what: str, dictionary: str, program: str, **numbers: float) -> None:
    """Keeps a row for `save`."""
    row: Row = {"what": what, "dictionary": dictionary, "program": program}
    row.update((unit, round(number, 4)) for unit, number in numbers.items())
    MEASURED[key_of(row)] = row


def key_of(row: Row) -> Key:
    return row["what"], row["dictionary"], row["program"]


def this_machine() -> str:
    """Returns a description of the processors of this machine."""
    text = Path("/proc/cpuinfo").read_text()
    model = re.search(r"^model name\s*: (.*)$", text, re.M)
    cache = f", {CACHE.read_text().strip()} of second-level cache each" if CACHE.exists() else ""
    virtual = "virtual, " if re.search(r"^flags.*\bhypervisor\b", text, re.M) else ""
    return f"{virtual}{os.cpu_count()} cores of {model[1] if model else 'an unknown kind'}{cache}"


def text_of(measured: Sequence[Series]) -> str:
    """Returns the text of a file of series, which has a line for each row."""
    texts = []
    for series in measured:
        head = {name: value for name, value in series.items() if name != "rows"}
        lines = [f"{json.dumps(name)}: {json.dumps(value)}," for name, value in head.items()]
        rows = ",\n      ".join(map(json.dumps, series["rows"]))
        texts.append("\n    ".join(["  {", *lines, f'"rows": [\n      {rows}']) + "\n    ]\n  }")
    return "[\n" + ",\n".join(texts) + "\n]\n"


def save(path: Path) -> None:
    """Writes what this process has measured to a file, in place of earlier rows of the same."""
    if not MEASURED:
        return
    earlier: List[Series] = json.loads(path.read_text()) if path.exists() else []
    for series in earlier:
        series["rows"] = [row for row in series["rows"] if key_of(row) not in MEASURED]
    new = {
        "date": datetime.date.today().isoformat(),
        "machine": this_machine(),
        "command": shlex.join(["bench/run", *sys.argv[1:]]),
        "rows": [*MEASURED.values()],
    }
    path.write_text(text_of([*(series for series in earlier if series["rows"]), new]))


def add_save_option(parser: argparse.ArgumentParser) -> None:
    parser.add_argument(
        "--save",
        type=Path,
        metavar="FILE",
        help="also write the numbers of the charts, in place of those that the file has",
    )
