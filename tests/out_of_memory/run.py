#!/usr/bin/env python3
"""Makes each allocation fail in turn, and checks that out of memory is an ordinary error.

    tests/out_of_memory/run.py [PART..]

Without PART it runs all of them:

    crates          tests of the crates, each of which catches the failure itself
    reused_memory   counts the allocations of a lattice that is used again
    programs        runs of dictc and jseg

A run with ample memory counts the allocations of a test or a program. Then there is one run for
each allocation, in which that one fails (tests/support/counting_heap.c).

Needs: gcc, the test programs that `rt test` or `rt ci` leaves in crates/*/out, and dictc and jseg,
which `rt run` leaves there.
"""
import argparse
import sys
from pathlib import Path

sys.dont_write_bytecode = True
sys.path.insert(0, str(Path(__file__).resolve().parents[1]))
from out_of_memory.crate_tests import check_crates  # noqa: E402
from out_of_memory.programs import check_programs  # noqa: E402
from out_of_memory.reused_memory import check_reused_memory  # noqa: E402

PARTS = {
    "crates": check_crates,
    "reused_memory": check_reused_memory,
    "programs": check_programs,
}


def main() -> None:
    parser = argparse.ArgumentParser(
        description=__doc__, formatter_class=argparse.RawDescriptionHelpFormatter
    )
    parser.add_argument("parts", nargs="*", metavar="PART", help=", ".join(PARTS))
    names = parser.parse_args().parts or list(PARTS)
    for name in names:
        if name not in PARTS:
            parser.error(f"{name} is none of {', '.join(PARTS)}")
    for name in names:
        PARTS[name]()


if __name__ == "__main__":
    main()
