#!/usr/bin/env python3
"""Compares pjseg with jseg: the same bytes, the same error and the same status.

    tests/pjseg/run.py [--built] [--program PROGRAM]

Both run over generated text of several megabytes: with 1 to 8 threads in several formats; with
images that have another checksum; with invalid lines in each piece of the text; over texts that end
in one way or another; and with standard streams that fail after some bytes. Then follows what jseg
doesn't have: an input that stays open after an error, a reader that leaves, memory that doesn't
grow with the text or its output, each allocation that fails in turn, threads that can't be created,
valgrind, ThreadSanitizer, terminals, the command line and the manual page. `tests/cli/run.py
--pjseg` runs the cases of jseg.

With --built the archive in crates/capi/out is used; dictc and jseg are those in crates/*/out.
With --program nothing is built, that program is tested, and ThreadSanitizer is left out. Needs gcc
and valgrind; if one is missing the status is 77, and nothing was run.
"""
import argparse
import sys
import tempfile
from pathlib import Path

sys.dont_write_bytecode = True
sys.path.insert(0, str(Path(__file__).resolve().parents[1]))
from pjseg import checks, resource_checks  # noqa: E402
from pjseg.cases.comparisons import made_up  # noqa: E402
from pjseg.setup import Setup  # noqa: E402
from support.running import end_left_out, missing_of, program  # noqa: E402


def parse_options() -> argparse.Namespace:
    parser = argparse.ArgumentParser(
        description=__doc__, formatter_class=argparse.RawDescriptionHelpFormatter
    )
    built = "use the archive in crates/capi/out"
    parser.add_argument("--built", action="store_true", help=built)
    parser.add_argument("--program", type=Path, help="test this program")
    parser.add_argument("--dictc", type=Path, default=program("dictc"))
    parser.add_argument("--jseg", type=Path, default=program("jseg"))
    return parser.parse_args()


def main() -> None:
    options = parse_options()
    missing = missing_of(["gcc", "valgrind"])
    if missing:
        end_left_out(f"{' and '.join(missing)} is missing")
    with tempfile.TemporaryDirectory() as folder:
        setup = Setup(
            Path(folder), options.dictc, options.jseg, options.program, is_built=options.built
        )
        text = made_up(5_000_000)
        checks.check_command_lines(setup)
        checks.check_cases_of_jseg(setup)
        checks.check_formats(setup, text)
        checks.check_images(setup, text)
        checks.check_streams(setup, text)
        checks.check_open_input(setup, text)
        checks.check_leaving_reader(setup, text)
        resource_checks.check_memory(setup, text)
        checks.check_long_outputs(setup)
        checks.check_terminals(setup)
        resource_checks.check_out_of_memory(setup, text)
        resource_checks.check_threads(setup, text)
        if options.program is None:
            resource_checks.check_races(setup, text)


if __name__ == "__main__":
    main()
