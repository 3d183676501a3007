"""Verdicts of the prover on mutants of a crate, by checks of a copy with their changes.

A mutant of a function is

- rejected if a goal of the function fails. A goal without an answer fails if no tactic proves it,
  unless an answer is for a goal that is gone and may be this one under another name. A goal with
  an answer fails if the answer no longer proves it, though all that the answer names exists, and
  no tactic proves it without the answer.
- 'proof broke' if the function is not proved and no goal fails. Then only something is gone that
  was written by hand: a name in an answer, its goal, a lemma, an invariant, or the proof of a
  whole function, which follows its code. This says nothing of the contract.
- accepted if the function is proved, once each broken answer is taken out.

A goal that fails need not be false: an answer whose names now mean other steps, or a new path
through the body that needs an answer of its own, counts against the mutant. So a verdict names
the goals.
"""
import shutil
import subprocess
import tempfile
from pathlib import Path
from typing import Any, Collection, Dict, List, Optional, Sequence, Tuple, Union

from edits import Mutant, Place, Texts, all_changed
from reports import JUDGED, Broken, Report, broken_answers, failed_goals, is_file, reports, without

# A check's words on a function that is proved, and on one that is not because of what it calls.
PROVED, CALLS = "proved", "no proof: it calls"
# Verdicts on a mutant. A text of another form says why there is none.
REJECTED, BROKE, ACCEPTED = "rejected", "proof broke", "accepted"
# How many names a verdict has at most.
NAMED = 3
# A verdict; the mutant with fewer answers, to be tried again; or None if nothing is known.
Judgment = Union[str, Mutant, None]


def listed(names: Collection[str]) -> str:
    """Returns the first of some names, and how many more there are."""
    more = f" and {len(names) - NAMED} more" if len(names) > NAMED else ""
    return ", ".join(list(names)[:NAMED]) + more


class Crate:
    """A crate whose mutants are checked in a copy that keeps the results of earlier checks."""

    def __init__(self, rtlib: Any, crate: Any, room: Path) -> None:
        self.rtlib, self.crate, self.room = rtlib, crate, room
        self.name: str = crate.name
        self.folder = Path(crate.folder)
        # The functions, as the prover names them.
        self.symbols: List[str] = []
        # The broken answers that were found, of each mutant and file of answers.
        self.broken: Dict[Tuple[str, str], Broken] = {}
        kept = self.folder / "out" / "incremental"
        if kept.is_dir():
            shutil.copytree(kept, self.room / "kept")

    def check(self, texts: Texts, symbols: Sequence[str] = ()) -> Tuple[int, str]:
        """Checks the crate with these texts in place of its own, and returns status and output.

        Checks the functions of these names, or all if there is none.
        """
        with tempfile.TemporaryDirectory(dir=self.room) as copy:
            for part in self.rtlib.PARTS:
                if (self.folder / part).is_dir():
                    shutil.copytree(self.folder / part, Path(copy) / part)
            for path, text in texts.items():
                (Path(copy) / path).write_text(text)
            only = [word for symbol in symbols for word in ("--only", symbol)]
            words = self.crate.words(["--jobs", "1", *only], keeps=False)
            kept = ["--incremental", str(self.room / "kept")]
            done = subprocess.run(
                [*self.rtlib.guarded(), self.rtlib.RATTLE, "check", *words, *kept],
                cwd=copy,
                stdin=subprocess.DEVNULL,
                stdout=subprocess.PIPE,
                stderr=subprocess.STDOUT,
                text=True,
                errors="replace",
            )
            return done.returncode, done.stdout

    def prepare(self) -> bool:
        """Checks the unchanged crate and keeps its functions' names. Returns if it is proved."""
        status, output = self.check({})
        self.symbols = [found[1] for found in map(JUDGED.match, output.splitlines()) if found]
        return status == 0

    def symbols_of(self, place: Optional[Place]) -> List[str]:
        """Returns the names that the prover may give a function and its closures (`fn::NAME::`)."""
        if place is None:
            return []
        files = Path(place.path).with_suffix("").parts[1:]
        modules = [self.name, *(part for part in files if part not in ("lib", "main", "mod"))]
        module = "::".join(modules) + "::"
        found = []
        for symbol in self.symbols:
            parts = symbol.removeprefix(module).split("::")
            is_itself = parts[-1] == place.name and len(parts) < 3
            is_within = parts[0] == "fn" and place.name in parts[1:3]
            if symbol.startswith(module) and (is_itself or is_within):
                found.append(symbol)
        # A method in another file than its type has the name of the type's file.
        others = [symbol for symbol in self.symbols if symbol.endswith(f"::{place.name}")]
        return found or (others if len(others) == 1 else [])

    def judge_together(self, mutants: Sequence[Mutant]) -> Dict[str, Judgment]:
        """Judges mutants of different functions by one check."""
        symbols = [symbol for mutant in mutants for symbol in self.symbols_of(mutant.place)]
        found = reports(self.check(all_changed(self.folder, mutants), symbols)[1])
        judgments: Dict[str, Judgment] = {}
        for mutant in mutants:
            names = [name for name in self.symbols_of(mutant.place) if name in found]
            judgments[mutant.name] = self.judgment(mutant, [found[name] for name in names])
        return judgments

    def judgment(self, mutant: Mutant, found: Sequence[Report]) -> Judgment:
        """Judges a mutant by what a check printed about the functions that it may change."""
        unproved = [report for report in found if not report.words.startswith((PROVED, CALLS))]
        if not unproved:
            is_proved = found and all(report.words.startswith(PROVED) for report in found)
            return ACCEPTED if is_proved else None
        fewer: Texts = {}
        failed: List[str] = []
        why: List[str] = []
        for report in unproved:
            text = self.answers(mutant, report)
            broken = broken_answers(report, text)
            # The answers that were taken out before stay known.
            known = self.broken.setdefault((mutant.name, report.answers), {})
            known.update(broken)
            failed += failed_goals(report, known)
            why += [f"{name} {reason}" for name, reason in known.items()]
            if broken and not any(map(is_file, known)):
                fewer[report.answers] = without(text, broken)
        if failed:
            return f"{REJECTED}: {listed(failed)}"
        if fewer:
            return mutant._replace(texts={**mutant.texts, **fewer})
        return f"{BROKE}: {listed(why)}" if why else None

    def answers(self, mutant: Mutant, report: Report) -> str:
        """Returns the text of a function's answers, or an empty one if it has none."""
        path = self.folder / report.answers
        return mutant.texts.get(report.answers) or (path.read_text() if path.is_file() else "")

    def judge_alone(self, mutant: Mutant) -> str:
        """Returns the verdict of checks of the whole crate, or why there is none."""
        status, output = self.check(mutant.texts)
        lines = output.rstrip().splitlines() or [""]
        if status == 0:
            return ACCEPTED
        if status == 1 and lines[-1].startswith("logic=not-proved"):
            judgment = self.judgment(mutant, [*reports(output).values()])
            if isinstance(judgment, Mutant):
                return self.judge_alone(judgment)
            return judgment or f"{BROKE}: no function's own proof"
        reason = next((line for line in lines if "error" in line), lines[0])
        return f"it did not reach the prover: {reason[:200]}"
