#!/usr/bin/env python3
"""Compares each place that has the version of the project with scripts/version.

    tests/packaging/versions.py

The sources themselves are read, so that a build can't fill them in.
"""
import argparse
import re
import subprocess
import sys
from pathlib import Path
from typing import Iterator, NamedTuple

TOP = Path(__file__).resolve().parents[2]


class Case(NamedTuple):
    """A file, and a pattern of the line that has the version or its number."""

    name: str
    file: str
    pattern: str
    # Whether the line has the number of the header: 10,000, 100 and 1 times the three parts.
    is_number: bool = False


CASES = (
    Case("header", "capi/include/kumquatsieve.h", r'^#define KUMQUATSIEVE_VERSION "(.*)"$'),
    Case(
        "number of the header",
        "capi/include/kumquatsieve.h",
        r"^#define KUMQUATSIEVE_VERSION_NUMBER (\d+)$",
        is_number=True,
    ),
    Case(
        "number of the library",
        "crates/capi/src/version.rt",
        r"^pub const VERSION_NUMBER: u32 = ([\d_]+);$",
        is_number=True,
    ),
    Case("Python module", "python/kumquatsieve/__init__.py", r'^__version__ = "(.*)"$'),
    Case("importer", "importer/kumquatsieve_import/__init__.py", r'^__version__ = "(.*)"$'),
    Case("latest release of the changelog", "CHANGELOG.md", r"^## \[?(\d+\.\d+\.\d+)\]?.*$"),
)


def number_of(version: str) -> str:
    """Returns the number of a version, as the header counts it."""
    first, second, third = map(int, version.split("."))
    return str(10_000 * first + 100 * second + third)


def errors(version: str) -> Iterator[str]:
    """Yields a message for each place that lacks the version, or has another one."""
    for case in CASES:
        expected = number_of(version) if case.is_number else version
        found = re.search(case.pattern, (TOP / case.file).read_text(), re.M)
        if found is None:
            yield f"{case.name}: {case.file} has no line that matches {case.pattern}"
        elif found[1].replace("_", "") != expected:
            yield f"{case.name}: {case.file} has {found[1]}, and the programs have {expected}"


def main() -> int:
    arguments = argparse.ArgumentParser(
        description=__doc__, formatter_class=argparse.RawDescriptionHelpFormatter
    )
    arguments.parse_args()
    printed = subprocess.run([TOP / "scripts" / "version"], check=True, stdout=subprocess.PIPE)
    found = list(errors(printed.stdout.decode().strip()))
    for error in found:
        print(f"versions: {error}", file=sys.stderr)
    print(f"{len(CASES)} cases of versions, {len(found)} errors")
    return 1 if found else 0


if __name__ == "__main__":
    sys.exit(main())
