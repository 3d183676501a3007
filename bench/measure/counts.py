"""Instructions, cache misses and mispredicted branches, which valgrind counts and simulates.

They are the same whatever else the machine does.
"""
import re
import subprocess
import sys
import tempfile
from pathlib import Path
from typing import NamedTuple, Sequence, Tuple

from compare_with_mecab.dictionaries import Command
from measure.runs import NO_TEXT

# The simulated caches: bytes, ways, and bytes of a line. The first level has one for instructions
# and one for data.
FIRST_LEVEL = [f"--{kind}1=32768,8,64" for kind in "ID"]
CACHES = ["--cache-sim=yes", "--branch-sim=yes", *FIRST_LEVEL, "--LL=1048576,16,64"]


class Counts(NamedTuple):
    """What valgrind counts of a run, in millions.

    `missed_first` are reads and writes that missed the first-level cache of 32 KiB, and
    `missed_second` those that missed the second-level cache of 1 MiB too.
    """

    instructions: float
    missed_first: float
    missed_second: float
    mispredicted: float


def counts_of_text(command: Command, text: Path) -> Counts:
    """Returns the counts of a run over the text, minus those of the run over no text."""
    whole, load = counts_of(command, text), counts_of(command, NO_TEXT)
    return Counts(*(one - other for one, other in zip(whole, load)))


def counts_of(command: Command, text: Path) -> Counts:
    """Returns the counts of one run."""
    report = run_counted(command, text, "/dev/null", CACHES)
    names, numbers = (
        re.findall(rb"%s *: (.*)" % word, report)[-1].split() for word in (b"Events", b"Collected")
    )
    of = {name.decode(): int(number) / 1e6 for name, number in zip(names, numbers)}
    first, second = of["D1mr"] + of["D1mw"], of["DLmr"] + of["DLmw"]
    return Counts(of["Ir"], first, second, of["Bcm"] + of["Bim"])


def instructions_of_text(command: Command, text: Path) -> float:
    """Returns the millions of instructions of a run over the text, minus those over no text."""
    return (instructions(command, text) - instructions(command, NO_TEXT)) / 1e6


def instructions(command: Command, text: Path) -> int:
    """Returns the instructions of one run."""
    return collected(run_counted(command, text, "/dev/null"))


def instructions_in(command: Command, text: Path, library: str) -> Tuple[int, int]:
    """Returns the instructions of one run, and those that are in the library's own code."""
    with tempfile.NamedTemporaryFile() as counts:
        report = run_counted(command, text, counts.name)
        words = ["callgrind_annotate", "--threshold=100", counts.name]
        printed = subprocess.run(words, stdout=subprocess.PIPE, check=True, text=True).stdout
    rows = [row for row in printed.splitlines() if row.endswith(f"{library}]")]
    own = sum(int(row.split(maxsplit=1)[0].replace(",", "")) for row in rows)
    return collected(report), own


def collected(report: bytes) -> int:
    """Returns the instructions that a report of valgrind's has."""
    return int(re.findall(rb"Collected : (\d+)", report)[-1])


def run_counted(command: Command, text: Path, out: str, simulated: Sequence[str] = ()) -> bytes:
    """Runs a command under valgrind, which writes its counts to `out`, and returns its report."""
    words = ["valgrind", "--tool=callgrind", "--trace-children=yes", f"--callgrind-out-file={out}"]
    with open(text, "rb") as reading:
        done = subprocess.run(
            [*words, *simulated, *map(str, command)],
            stdin=reading,
            stdout=subprocess.DEVNULL,
            stderr=subprocess.PIPE,
        )
    if done.returncode != 0 or b"Collected : " not in done.stderr:
        sys.exit(f"valgrind {command[0]} ended with status {done.returncode}")
    return done.stderr
