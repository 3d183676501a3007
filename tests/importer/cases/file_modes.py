"""Who may read what an import writes, with a umask that lets nobody else read it, or a group only.

All users may read what is written to the system's image directory.
"""
import os
import shutil
import stat
import subprocess
from pathlib import Path
from typing import Iterator, NamedTuple, Optional, Tuple

from .common import FILES, NAME, compiled, lay

SYSTEM = "PREFIX/var/lib/kumquatsieve"
SETTINGS = {"dicrc": b"; f[0]: pos\n; f[1]: reading\n", "pos-id.def": "名詞 1\n".encode()}
ENDINGS = ("img", "dicrc", "pos-id.def", "fields")


class Case(NamedTuple):
    """Arguments, in which PREFIX is that of the programs; a umask; and files with their mode."""

    name: str
    arguments: Tuple[str, ...]
    umask: int
    made: Tuple[str, ...]
    mode: int


def of_folder(name: str, image: str, umask: int, mode: int, to: Optional[str] = None) -> Case:
    """Returns an import of a directory. `to` is the image that is written if `image` is a link."""
    stem = (to or image).removesuffix(".img")
    return Case(name, ("dic", image), umask, tuple(f"{stem}.{ending}" for ending in ENDINGS), mode)


def of_user(name: str, image: str, umask: int, mode: int) -> Case:
    return Case(
        name, ("--user", "sys.img", "--out", image, "dic/lexicon.csv"), umask, (image,), mode
    )


CASES = [
    of_folder("the system's folder, nobody else", f"{SYSTEM}/a.img", 0o077, 0o644),
    of_folder("the system's folder, a group", f"{SYSTEM}/a.img", 0o027, 0o644),
    of_folder("the system's folder, by a link", "link.img", 0o077, 0o644, to=f"{SYSTEM}/old.img"),
    of_folder("an old image, which all may read", f"{SYSTEM}/old.img", 0o077, 0o644),
    of_folder("another folder, nobody else", "a.img", 0o077, 0o600),
    of_folder("another folder, a group", "a.img", 0o027, 0o640),
    of_user("a user's in the system's folder", f"{SYSTEM}/a.img", 0o077, 0o644),
    of_user("a user's in another folder", "a.img", 0o077, 0o600),
]


def failures(case: Case, programs: Path, work: Path) -> Iterator[str]:
    """Runs a case in the directory `work`, and yields what differs from it."""
    prefix = programs.parent
    lay(str(work / "dic"), {**FILES, **SETTINGS})
    (work / "sys.img").write_bytes(compiled(programs, work / "system", FILES, ["lexicon.csv"]))
    system = prefix / "var" / "lib" / "kumquatsieve"
    system.mkdir(parents=True)
    (system / "old.img").write_bytes(b"old")
    (system / "old.img").chmod(0o644)
    (work / "link.img").symlink_to(system / "old.img")
    arguments = [word.replace("PREFIX", str(prefix)) for word in case.arguments]
    done = subprocess.run(
        [programs / NAME, *arguments],
        cwd=work,
        capture_output=True,
        text=True,
        umask=case.umask,
    )
    if done.returncode != 0:
        yield f"status {done.returncode}, {done.stderr!r}"
    for name in case.made:
        path = os.path.join(work, name.replace("PREFIX", str(prefix)))
        mode = stat.S_IMODE(os.stat(path).st_mode) if os.path.exists(path) else None
        if mode != case.mode:
            yield f"{name} has the mode {mode and oct(mode)}"
    shutil.rmtree(prefix / "var")
