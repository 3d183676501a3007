#!/usr/bin/env python3
"""Runs the built programs as users do, by the test cases of tests/cli/cases.

A case gives arguments, files and standard input. Standard output, standard error, the exit status
and the files that are left have to be as it says. An error is one write.

Each run has a directory of its own, with the sources of the sample in `a`, images of them, and what
its case adds. If this script is root, the programs run as nobody, so that they can't read what
nobody may not read. The status is 1 if a run is not as its case says, or if no case reports an
error code of the programs that is not named in NOT_RUN.

With --linked it runs the programs as they are installed: linked with the heap of capi/heap.c by
packaging/build-programs.

With --pjseg it runs the cases of `jseg -d` and `jseg --sample` alone, by a pjseg in place
of jseg, with one thread and with three. An image takes the place of the sample.

Needs gcc, and crates/dictc/out/dictc and crates/jseg/out/jseg, which `rt run` in their directories
builds. If one is missing the status is 2.
"""
import argparse
import os
import re
import subprocess
import sys
import tempfile
from pathlib import Path
from typing import Iterator, List, Set

sys.dont_write_bytecode = True
sys.path.insert(0, str(Path(__file__).resolve().parents[1]))
from cli.case_runner import CaseRunner  # noqa: E402
from cli.cases import CASES  # noqa: E402
from cli.cases.error_codes import program_codes  # noqa: E402
from cli.interactive import interactive_failures  # noqa: E402
from cli.pjseg_cases import pjseg_cases  # noqa: E402
from cli.programs import Programs  # noqa: E402
from support.running import TOP, program  # noqa: E402

# Codes that no case reports, and why.
NOT_RUN = {
    "I2 ArrayFull": "2^30 cells are 8 gigabytes of memory",
    "G5 InputTooLong": "2^40 reads take weeks",
}


def codes_of_cases() -> Set[str]:
    """Returns the codes that cases report, each with its name."""
    errors = [case.err for case in CASES if isinstance(case.err, str)]
    pattern = r"(?:^|: )([A-Z]\d \w+|Memory$)"
    return {found for line in errors for found in re.findall(pattern, line)}


def code_failures() -> Iterator[str]:
    """Yields what is wrong with the codes that cases report."""
    reported, existing = codes_of_cases(), program_codes()
    for code in sorted(existing - reported - NOT_RUN.keys()):
        yield f"no case reports {code}"
    for code in sorted(NOT_RUN.keys() & reported):
        yield f"{code} is reported, but NOT_RUN names it"
    for code in sorted((reported | NOT_RUN.keys()) - existing):
        yield f"no program has the error {code}"


def parse_options() -> argparse.Namespace:
    parser = argparse.ArgumentParser(
        description=__doc__, formatter_class=argparse.RawDescriptionHelpFormatter
    )
    only = "run the cases whose name or command contains WORD"
    parser.add_argument("--only", metavar="WORD", default="", help=only)
    parser.add_argument("--dictc", type=Path, default=program("dictc"))
    parser.add_argument("--jseg", type=Path, default=program("jseg"))
    linked = "link dictc and jseg as they are installed, and run these"
    parser.add_argument("--linked", action="store_true", help=linked)
    of_pjseg = "run the cases of `jseg -d` and `--sample` by this program"
    parser.add_argument("--pjseg", type=Path, metavar="PROGRAM", help=of_pjseg)
    return parser.parse_args()


def link(options: argparse.Namespace, prefix: Path) -> None:
    """Builds dictc and jseg by packaging/build-programs, and takes these."""
    done = subprocess.run(
        [TOP / "packaging" / "build-programs", prefix],
        env={**os.environ, "DESTDIR": ""},
        stderr=subprocess.PIPE,
        text=True,
    )
    if done.returncode != 0:
        sys.exit(done.stderr)
    options.dictc, options.jseg = prefix / "bin" / "dictc", prefix / "bin" / "jseg"


def run_cases(options: argparse.Namespace, folder: Path) -> List[str]:
    """Runs the cases, prints how many, and returns the failures."""
    if options.linked:
        link(options, folder / "linked")
    failures: List[str] = []
    if not options.pjseg:
        failures += [*code_failures(), *interactive_failures(options.jseg)]
    runner = CaseRunner(folder, Programs(folder, [options.dictc, options.pjseg or options.jseg]))
    runner.prepare()
    cases = pjseg_cases() if options.pjseg else CASES
    cases = [case for case in cases if options.only in f"{case.name} {case.command}"]
    for case in cases:
        for failure in runner.failures(case):
            failures.append(f"{case.name}: `{case.command[:200]}` {failure}")
    for code, reason in [] if options.pjseg else NOT_RUN.items():
        print(f"not run: {code}, because {reason}")
    print(f"cli: {len(cases)} cases, {len(failures)} failures")
    return failures


def main() -> int:
    options = parse_options()
    paths = (options.dictc, options.pjseg or options.jseg)
    missing = [str(path) for path in paths if not path.exists()]
    if missing:
        how = "`rt run` in the crate's directory builds it"
        print(f"nothing was run: {' and '.join(missing)} not built; {how}", file=sys.stderr)
        return 2
    os.umask(0o022)
    with tempfile.TemporaryDirectory() as folder:
        os.chmod(folder, 0o755)
        failures = run_cases(options, Path(folder))
    print(*failures, sep="\n", end="\n" if failures else "", file=sys.stderr)
    return 1 if failures else 0


if __name__ == "__main__":
    sys.exit(main())
