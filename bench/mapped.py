"""The search over a mapped image, beside one that is copied into memory with --copy.

PREFIX is where `packaging/install PREFIX` installed pjseg, which runs on one thread over
the Japanese manual pages (Debian: manpages-ja), repeated until they have --megabytes. A copied
image has huge pages if the kernel gives them. The row `without huge pages` turns them off by
PR_SET_THP_DISABLE (prctl(2)).

All take turns, --rounds times, over the text and over no text. A row has the CPU seconds of the
search, which is the least of the runs over the text without the least of those over no text, its
ratio to the mapped image, and the median of the ratios of each round.
"""
import argparse
import statistics
import sys
import tempfile
from pathlib import Path
from typing import List

from compare_with_mecab.dictionaries import Command
from measure.host import Host
from measure.rows import MB
from measure.runs import Runs, with_loads
from measure.texts import japanese, written

# Turns huge pages off (41: PR_SET_THP_DISABLE), and runs a command.
SCRIPT = """import ctypes, os, sys
ctypes.CDLL(None).prctl(41, 1, 0, 0, 0)
os.execv(sys.argv[1], sys.argv[1:])
"""
NAMES = ("mapped", "copied", "copied, without huge pages")


def add_options(parser: argparse.ArgumentParser) -> None:
    parser.add_argument("--megabytes", type=int, default=35, metavar="N", help="of text (35)")
    parser.add_argument(
        "--rounds", type=int, default=5, metavar="N", help="how often each runs (5)"
    )
    parser.add_argument("prefix", type=Path, metavar="PREFIX")
    parser.add_argument("images", type=Path, nargs="+", metavar="IMAGE")


def commands_of(prefix: Path, image: Path) -> List[Command]:
    """Returns the commands of NAMES."""
    mapped: Command = [prefix / "bin" / "pjseg", "-j", "1", "-d", image]
    copied: Command = [*mapped, "--copy"]
    return [mapped, copied, [sys.executable, "-c", SCRIPT, *copied]]


def search_of(load: Runs, run: Runs) -> float:
    """Returns the least CPU seconds of the search alone."""
    return run.cpu - load.cpu


def print_rows(image: Path, loads: List[Runs], runs: List[Runs]) -> None:
    mapped = search_of(loads[0], runs[0])
    for name, load, run in zip(NAMES, loads, runs):
        each = zip(run.each_cpu, load.each_cpu, runs[0].each_cpu, loads[0].each_cpu)
        in_rounds = statistics.median((a - b) / (c - d) for a, b, c, d in each)
        seconds = search_of(load, run)
        print(
            f"{image.stem:10} {name:28} {seconds:8.3f} s {seconds / mapped:6.3f} {in_rounds:6.3f}"
        )


def run(options: argparse.Namespace) -> int:
    text = japanese(options.megabytes * MB)
    with tempfile.TemporaryDirectory() as folder:
        path = written(Path(folder), "text", text)
        for image in options.images:
            with Host():
                rows = with_loads(commands_of(options.prefix, image), options.rounds, path)
                print_rows(image, *rows)
    return 0
