"""Files that can't be read or written: the system's reason is printed, and nothing is left.

That includes the files that dictc reads.
"""
import os
import resource
import subprocess
from pathlib import Path
from typing import Iterator, List, NamedTuple, Optional, Sequence, Tuple

from .common import FILES, NAME, NOBODY, compiled, lay

# A file system with less room than the image of the sample needs, in a name space of its own.
SMALL = """mount -t tmpfs -o size=8k tmpfs small || exit 77
"$@"
status=$?
ls -A small
exit $status
"""
FULL_TMPFS = ("unshare", "-m", "sh", "-c", SMALL, "sh")
NO_ROOM = "No space left on device"
MANY = "Too many open files"


class Case(NamedTuple):
    """A run that fails: its arguments and its error."""

    name: str
    arguments: Tuple[str, ...]
    err: str
    # The command before the program.
    before: Tuple[str, ...] = ()
    # Kinds of limits of `resource`, with their values.
    limits: Tuple[Tuple[int, int], ...] = ()
    # Whether another user runs it.
    is_other: bool = False


FILE_SIZE = ((resource.RLIMIT_FSIZE, 4096),)
DENIED = "Permission denied"


def user_arguments(system: str) -> Tuple[str, ...]:
    return ("--user", system, "--out", "new.img", "dic/lexicon.csv")


def with_open_files(number: int) -> Case:
    limits = ((resource.RLIMIT_NOFILE, number),)
    return Case(f"{number} open files", ("dic", "new.img"), MANY, limits=limits)


CASES = [
    Case("a full file system", ("dic", "small/i.img"), f"small/i.img: {NO_ROOM}", FULL_TMPFS),
    Case("a full file system, and --", ("--", "dic", "small/-"), f"small/-: {NO_ROOM}", FULL_TMPFS),
    Case("a limit on files", ("dic", "new.img"), "new.img: File too large", limits=FILE_SIZE),
    Case(
        "a limit on files, of a user dictionary",
        user_arguments("sys.img"),
        "new.img: File too large",
        limits=FILE_SIZE,
    ),
    Case("a full device", ("dic", "/dev/full"), f"/dev/full: {NO_ROOM}"),
    Case(
        "no permission to write", ("dic", "closed/i.img"), f"HERE/closed: {DENIED}", is_other=True
    ),
    Case(
        "none to read",
        user_arguments("closed/sys.img"),
        f"closed/sys.img: {DENIED}",
        is_other=True,
    ),
    Case("a folder", user_arguments("./closed"), "./closed: Is a directory"),
    *map(with_open_files, range(5, 12)),
]


def can_run(is_other: bool, before: Sequence[str]) -> bool:
    """Returns whether this process may run as another user, and the command before a program."""
    if is_other and os.geteuid() != 0:
        return False
    if not before:
        return True
    try:
        command = [*before[:2], "mount", "-t", "tmpfs", "tmpfs", "/mnt"]
        return subprocess.run(command, capture_output=True).returncode == 0
    except FileNotFoundError:
        return False


def prepare(work: Path, programs: Path) -> None:
    lay(str(work / "dic"), FILES)
    image = compiled(programs, work / "system", FILES, ["lexicon.csv"])
    (work / "sys.img").write_bytes(image)
    for name in ("small", "closed"):
        (work / name).mkdir()
    (work / "closed" / "sys.img").write_bytes(image)
    (work / "closed" / "sys.img").chmod(0o600)
    work.parent.chmod(0o755)


def run(case: Case, programs: Path, work: Path) -> "subprocess.CompletedProcess[str]":
    user = NOBODY if case.is_other else None
    if case.is_other:
        os.chown(work, NOBODY, NOBODY)

    def set_limits() -> None:
        for kind, limit in case.limits:
            resource.setrlimit(kind, (limit, limit))

    groups: Optional[List[int]] = [] if case.is_other else None
    return subprocess.run(
        [*case.before, str(programs / NAME), *case.arguments],
        cwd=work,
        capture_output=True,
        text=True,
        preexec_fn=set_limits,
        user=user,
        group=user,
        extra_groups=groups,
    )


def is_reported(case: Case, done: "subprocess.CompletedProcess[str]", work: Path) -> bool:
    """Returns whether a run ended with its error. Python itself may need more files, too."""
    if case.err == MANY:
        is_own = done.stderr.startswith(f"{NAME}: ")
        return done.returncode == 0 or MANY in done.stderr or not is_own
    err = f"{NAME}: {case.err}\n".replace("HERE", str(work))
    return (done.stderr, done.returncode) == (err, 3)


def failures(case: Case, programs: Path, work: Path) -> Iterator[str]:
    """Runs a case in the directory `work`, and yields what differs from it."""
    prepare(work, programs)
    if not can_run(case.is_other, case.before):
        return
    before = {path.name for path in work.iterdir()}
    done = run(case, programs, work)
    if not is_reported(case, done, work):
        yield f"status {done.returncode}, {done.stderr!r}, expected 3, {case.err!r}"
    left, out = {path.name for path in work.iterdir()} - before - {"new.img"}, done.stdout
    if left or ".kumquatsieve" in out or "i.img" in out or "\n-" in out:
        yield f"leaves {sorted(left)}, and prints {out!r}"
