"""Counts the allocations of a lattice that is used again.

Over 2,000 times `z`, tests of search_tests search one lattice once, one twice, and two once each.
Tests of text_tests segment one line and two. The second search of a lattice may allocate at most
MOST times, and less often than the search of a second lattice; so may the second line of a text.
"""
import sys
import tempfile
from pathlib import Path

from support.heap import TestProgram

MOST = 100
TESTS = {
    ("search_tests", "tests::of_lattice::growths"): ["one_call", "two_calls", "two_lattices"],
    ("text_tests", "tests::of_segmenter::growths"): ["one_line", "two_lines"],
}


def allocations_of(crate: str, module: str, tests: list[str]) -> dict[str, int]:
    """Returns how often each of these tests allocates."""
    with tempfile.TemporaryDirectory() as folder:
        program = TestProgram(Path(folder), crate)
        return {test: program.run(f"{module}::{test}").counts.allocations for test in tests}


def check_reused_memory() -> None:
    """Ends this script if a lattice or a segmenter does not reuse its memory."""
    counts: dict[str, int] = {}
    for (crate, module), tests in TESTS.items():
        counts.update(allocations_of(crate, module, tests))
    call = counts["two_calls"] - counts["one_call"]
    lattice = counts["two_lattices"] - counts["one_call"]
    line = counts["two_lines"] - counts["one_line"]
    print(
        f"segmenter: a second lattice allocates {lattice} times, "
        f"a second call on one {call} times, a second line {line} times"
    )
    for what, count in (("call", call), ("line", line)):
        if count > MOST:
            sys.exit(f"segmenter: the second {what} allocates {count} times, more than {MOST}")
        if count >= lattice:
            sys.exit(f"segmenter: the second {what} allocates as often as a second lattice")
