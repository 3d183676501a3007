#!/usr/bin/env python3
"""Runs kumquatsieve-import by test cases: what it prints and rejects, and what it writes.

The cases are about sources and user dictionaries in each encoding, the names of fields, image
directories, file modes, the system's errors, imports that are killed or run at once, tests of
images and their records, terminals, and errors from outside at each step of an import. What is
printed and the status have to be as the case says, and the image has to be that of the same sources
in UTF-8. After an error from outside, the old image is there, or the new one, and no other file is
left.

Needs crates/dictc/out/dictc and crates/jseg/out/jseg, which `rt run` in their directories builds;
if one is missing the status is 2. localedef makes locales (Debian: locales); without it only C is
tested. Cases that need another user or a file system of their own are left out if this process may
not have them. Without strace, or where it may not be used, the table of injected errors is left
out, and the status is 77 if all else is well.
"""
import argparse
import os
import resource
import shutil
import sys
import tempfile
from pathlib import Path
from typing import Any, Iterator, List, Optional, Protocol, Sequence, Tuple

sys.dont_write_bytecode = True
sys.path.insert(0, str(Path(__file__).resolve().parents[1]))
from importer.cases import (  # noqa: E402
    encodings,
    fields,
    file_modes,
    image_dirs,
    injection,
    installing,
    locales,
    package,
    progress,
    records,
    rejections,
    reports,
    system_errors,
    user_dictionaries,
)
from importer.cases.common import PROGRAMS, install  # noqa: E402
from support.running import LEFT_OUT, leave_out  # noqa: E402


class Subject(Protocol):
    """A module of cases. Each has a type of cases of its own, which only it uses."""

    @property
    def CASES(self) -> Sequence[Any]:
        ...

    def failures(self, case: Any, programs: Path, work: Path) -> Iterator[str]:
        ...


SUBJECTS: Sequence[Subject] = (
    reports,
    rejections,
    encodings,
    fields,
    image_dirs,
    locales,
    file_modes,
    installing,
    system_errors,
    records,
    progress,
    user_dictionaries,
    package,
)


def case_failures(subject: Subject, programs: Path, folder: Path) -> Iterator[str]:
    """Runs the cases of a subject, each in a new directory, and yields what differs from them."""
    for case in subject.CASES:
        work = folder / "work"
        yield from (f"{case.name}: {failure}" for failure in subject.failures(case, programs, work))
        shutil.rmtree(work)


def outside_failures(kind: injection.Kind, programs: Path, folder: Path) -> Iterator[str]:
    """Yields what is wrong after errors from outside that need no strace."""
    for number in injection.SIGNALS:
        for failure in injection.check_signal(number, kind, programs, folder):
            yield f"{number.name} while dictc writes: {failure}"
    yield from output_failures(kind, programs, folder)
    for failure in injection.check_closed_streams(kind, programs, folder):
        yield f"standard error closed: {failure}"
    for failure in injection.check_stop(kind, programs, folder):
        yield f"stopped while a pipe is full: {failure}"
    for megabytes in injection.MEGABYTES:
        for failure in injection.check_memory(megabytes, kind, programs, folder):
            yield f"{megabytes} MB: {failure}"


def output_failures(kind: injection.Kind, programs: Path, folder: Path) -> Iterator[str]:
    """Yields what is wrong after errors of standard output."""
    reading, writing = os.pipe()
    os.close(reading)
    with open("/dev/full", "wb") as full, open(writing, "wb") as unread:
        for name, target in (("full", full), ("unread", unread), ("closed", None)):
            for failure in injection.check_output(name, target, kind, programs, folder):
                yield f"standard output, {name}: {failure}"


def check_outside(programs: Path, folder: Path) -> Tuple[List[Optional[int]], List[str]]:
    """Returns how many errors strace injected into each kind of import, and all failures.

    The number is None if strace can't be used.
    """
    counts: List[Optional[int]] = []
    failures: List[str] = []
    for kind in injection.kinds(programs, folder):
        own = folder / kind.name
        own.mkdir()
        found = list(outside_failures(kind, programs, own))
        count, injected = injection.check_table(kind, programs, own)
        counts.append(count)
        failures += [f"{kind.name}: {failure}" for failure in found + injected]
    return counts, failures


def main() -> int:
    arguments = argparse.ArgumentParser(
        description=__doc__, formatter_class=argparse.RawDescriptionHelpFormatter
    )
    arguments.parse_args()
    missing = [str(path) for path in PROGRAMS if not path.exists()]
    if missing:
        print(f"importer: {' and '.join(missing)} not built: nothing was run", file=sys.stderr)
        return 2
    # SIGQUIT would write a core file.
    resource.setrlimit(resource.RLIMIT_CORE, (0, 0))
    # An image that others may write gets no record.
    os.umask(0o022)
    with tempfile.TemporaryDirectory() as name:
        folder = Path(name)
        programs = install(folder)
        failures = [failure for one in SUBJECTS for failure in case_failures(one, programs, folder)]
        counts, more = check_outside(programs, folder)
    failures += more
    print(*failures, sep="\n", end="\n" if failures else "", file=sys.stderr)
    cases, injected = sum(len(one.CASES) for one in SUBJECTS), sum(filter(None, counts))
    print(f"importer: {cases} cases, {injected} injected errors, {len(failures)} failures")
    if None in counts:
        leave_out("injected errors: strace is missing or may not be used")
    return 1 if failures else LEFT_OUT if None in counts else 0


if __name__ == "__main__":
    sys.exit(main())
