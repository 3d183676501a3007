"""The path of an image that is named by its dictionary alone.

jseg and kumquatsieve-import find it there by its name.
"""
import os
import shutil
import stat
import subprocess
from pathlib import Path
from typing import Iterator, List, Mapping, NamedTuple, Optional, Sequence

from support.running import SAMPLE

from .common import FILES, NAME, NOBODY, lay

WORDS = "すもも もも \nもも もも \n"
SYSTEM = "PREFIX/var/lib/kumquatsieve"
OWN = f"image directory: this user's own, because {SYSTEM} is not writable"
ALL = "image directory: the system's, for all users"
# How long a command may take, which would wait for ever if it opened a FIFO.
SECONDS = 120


class Case(NamedTuple):
    """A run. In its variables HERE is its directory. If it is rejected, `err` is the error."""

    name: str
    variables: Mapping[str, str]
    # Whether the system's directory can be written.
    is_open: bool
    # The directory of the image, and what is reported about it.
    image_dir: str
    message: str = ""
    err: str = ""
    # Whether the system's directory exists.
    exists: bool = True
    umask: int = 0o077
    # The path of a FIFO, which is no image. It is made before the import.
    fifo: str = ""


DATA, HOME = {"XDG_DATA_HOME": "HERE/data"}, {"HOME": "HERE/home"}
CASES = [
    Case("the system's", {**DATA, **HOME}, True, SYSTEM, ALL),
    Case("the system's, which is not there", {**DATA, **HOME}, True, SYSTEM, ALL, exists=False),
    Case("the system's, of who has no home", {}, True, SYSTEM, ALL),
    Case(
        "the system's, after a FIFO of the same name",
        {**DATA, **HOME},
        True,
        SYSTEM,
        ALL,
        fifo="data/kumquatsieve/dic.img",
    ),
    Case("the user's data", {**DATA, **HOME}, False, "HERE/data/kumquatsieve", OWN),
    Case("the user's home", HOME, False, "HERE/home/.local/share/kumquatsieve", OWN),
    Case("the user's data, of a group", DATA, False, "HERE/data/kumquatsieve", OWN, umask=0o002),
    Case(
        "relative data",
        {"XDG_DATA_HOME": "data", **HOME},
        False,
        "HERE/home/.local/share/kumquatsieve",
        OWN,
    ),
    Case("no home", {"HOME": "home"}, False, "", err=f"{SYSTEM}: Permission denied"),
]


def located(text: str, programs: Path, work: Path) -> str:
    return text.replace("PREFIX", str(programs.parent)).replace("HERE", str(work))


def run(
    programs: Path, work: Path, case: Case, command: Sequence[str], text: str = ""
) -> "subprocess.CompletedProcess[str]":
    """Runs a command as a user who may not write the system's directory, unless that is open."""
    user = NOBODY if os.geteuid() == 0 and not case.is_open else None
    environment = {
        "PATH": os.environ["PATH"],
        **{name: located(value, programs, work) for name, value in case.variables.items()},
    }
    groups: Optional[List[int]] = None if user is None else []
    return subprocess.run(
        command,
        cwd=work,
        env=environment,
        input=text,
        capture_output=True,
        text=True,
        user=user,
        group=user,
        extra_groups=groups,
        umask=case.umask,
        timeout=SECONDS,
    )


def prepare(case: Case, programs: Path, work: Path) -> None:
    lay(str(work / "dic"), FILES)
    if case.fifo:
        (work / case.fifo).parent.mkdir(parents=True)
        os.mkfifo(work / case.fifo)
    work.parent.chmod(0o755)
    system = programs.parent / "var" / "lib" / "kumquatsieve"
    if case.exists:
        system.mkdir(parents=True)
        system.chmod(0o755 if case.is_open else 0o555)
    for path in [work, *work.rglob("*")] if os.geteuid() == 0 else []:
        os.chown(path, NOBODY, NOBODY)


def failures(case: Case, programs: Path, work: Path) -> Iterator[str]:
    """Runs a case in the directory `work`, and yields what differs from it."""
    prepare(case, programs, work)
    done = run(programs, work, case, [str(programs / NAME), "dic"])
    if case.err:
        expected = f"{NAME}: {located(case.err, programs, work)}\n"
        if (done.stderr, done.returncode) != (expected, 3):
            yield f"status {done.returncode}, {done.stderr!r}, expected 3, {expected!r}"
    else:
        yield from image_failures(case, programs, work, done)
    shutil.rmtree(programs.parent / "var", ignore_errors=True)


def image_failures(
    case: Case, programs: Path, work: Path, done: "subprocess.CompletedProcess[str]"
) -> Iterator[str]:
    """Yields what is wrong with an import, and with the image that it installed."""
    image_dir = located(case.image_dir, programs, work)
    found = [
        line
        for line in done.stdout.splitlines()
        if line.startswith(("image: ", "image directory: "))
    ]
    message = located(case.message, programs, work)
    is_reported = len(found) == 2 and found[0].startswith(f"image: {image_dir}/dic.img, ")
    if done.returncode != 0 or not is_reported or found[1] != message:
        yield f"status {done.returncode}, {done.stdout!r}, {done.stderr!r}, expected {image_dir}"
        return
    modes = [stat.S_IMODE(os.stat(path).st_mode) for path in (image_dir, f"{image_dir}/dic.img")]
    if modes != [0o755, 0o644 if case.is_open or case.umask == 0o002 else 0o600]:
        yield f"makes {image_dir} and its image with modes {' and '.join(map(oct, modes))}"
    is_tested = f"tested: {image_dir}/dic.img\n" in done.stdout
    if not is_tested or not os.path.exists(f"{image_dir}/dic.tested"):
        yield f"prints {done.stdout!r}, and leaves {os.listdir(image_dir)}"
    command = [str(programs / "jseg"), "-d", "dic", "-O", "wakati"]
    segmented = run(programs, work, case, command, (SAMPLE / "text.txt").read_text())
    if segmented.stdout != WORDS:
        yield f"jseg -d dic prints {segmented.stdout!r}, {segmented.stderr!r}"
    again = run(programs, work, case, [str(programs / NAME), "--test", "dic"])
    if again.stdout != f"tested: {image_dir}/dic.img\n":
        yield f"--test dic prints {again.stdout!r}, {again.stderr!r}"
