"""Imports that are killed while they put files in place, and two imports to one name at once.

A reader uses only the settings of the image beside them.
"""
import fcntl
import os
import signal
import subprocess
import sys
from pathlib import Path
from typing import Callable, Dict, Iterator, List, Mapping, NamedTuple, Tuple

from .common import FILES, NAME, headed, lay

# Runs a program, which is killed before it has renamed or removed so many files NAME.*.
KILLED = """
import os, runpy, signal, sys
before, name = int(sys.argv[1]), os.fsencode(sys.argv[2])

def counted(real):
    def call(*paths, **named):
        global before
        if os.path.basename(os.fsencode(paths[-1])).startswith(name):
            if before == 0:
                os.kill(os.getpid(), signal.SIGKILL)
            before -= 1
        return real(*paths, **named)
    return call

os.replace, os.unlink = counted(os.replace), counted(os.unlink)
del sys.argv[:3]
runpy.run_path(sys.argv[0], run_name="__main__")
"""
ENDINGS = ("dicrc", "pos-id.def", "fields")
ROUNDS = 4
# An import is killed before each of so many moves.
MOVES = 6
SETTINGS: Dict[str, Dict[str, bytes]] = {
    "a": {"dicrc": b"; f[0]: pos\n; f[1]: reading\n", "pos-id.def": b"A 1\n"},
    "b": {"dicrc": b"; f[0]: kind\n; f[1]: sound\n", "pos-id.def": b"B 1\n"},
    "bare": {},
}
FIELDS = {"a": b"pos\nreading\n", "b": b"kind\nsound\n"}


Check = Callable[[Path, Path], Iterator[str]]


class Case(NamedTuple):
    """A check, which yields what is wrong."""

    name: str
    check: Check


def command(programs: Path, dictionary: str, *options: str) -> List[str]:
    return [str(programs / NAME), *options, dictionary, "new.img"]


def prepare(programs: Path, work: Path) -> Dict[str, bytes]:
    """Makes directories of sources whose images and settings differ, and returns their images."""
    images = {}
    for name, settings in SETTINGS.items():
        lay(str(work / name), {**FILES, "own.csv": f"{name},1,1,5,X,X\n".encode(), **settings})
        subprocess.run(command(programs, name), cwd=work, capture_output=True, check=True)
        images[name] = (work / "new.img").read_bytes()
        remove(work)
    return images


def remove(work: Path) -> None:
    for ending in ("img", "tested", *ENDINGS):
        (work / f"new.{ending}").unlink(missing_ok=True)


def made(images: Mapping[str, bytes], name: str) -> Dict[str, bytes]:
    """Returns the settings that belong beside the image of a dictionary."""
    texts = dict(SETTINGS[name])
    if name in FIELDS:
        texts["fields"] = FIELDS[name]
    return {ending: headed(images[name], text) for ending, text in texts.items()}


def used(work: Path) -> Tuple[bytes, Dict[str, bytes]]:
    """Returns the image, and the settings that a reader uses: with its checksum, or with none."""
    image = (work / "new.img").read_bytes()
    found = {ending: work / f"new.{ending}" for ending in ENDINGS}
    texts = {ending: path.read_bytes() for ending, path in found.items() if path.exists()}
    line = headed(image, b"")
    return image, {
        ending: text
        for ending, text in texts.items()
        if text.startswith(line) or not text.startswith(b"; image-sha256 ")
    }


def check_killed(programs: Path, work: Path, old: str, new: str) -> Iterator[str]:
    """Kills an import of one dictionary over another one before each of its moves."""
    images = prepare(programs, work)
    for before in range(MOVES):
        (work / "new.img").write_bytes(images[old])
        olds = made(images, old) or dict.fromkeys(ENDINGS, b"old")
        for ending, text in olds.items():
            (work / f"new.{ending}").write_bytes(text)
        killed = [sys.executable, "-c", KILLED, str(before), "new.", *command(programs, new)]
        # A killed import leaves its directory for temporary files.
        environment = {**os.environ, "TMPDIR": str(work.parent)}
        done = subprocess.run(killed, cwd=work, env=environment, capture_output=True)
        image, settings = used(work)
        expected = olds if image == images[old] else made(images, new)
        if image not in (images[old], images[new]) or not settings.items() <= expected.items():
            beside = old if image == images[old] else new
            yield f"killed before move {before}: {settings} beside the image of {beside}"
        if done.returncode not in (0, -signal.SIGKILL):
            yield f"killed before move {before}: status {done.returncode}, {done.stderr!r}"
        yield from check_next(programs, work, images, new)


def check_next(programs: Path, work: Path, images: Mapping[str, bytes], name: str) -> Iterator[str]:
    """The next import has to put everything in place."""
    subprocess.run(command(programs, name), cwd=work, capture_output=True, check=True)
    if used(work) != (images[name], made(images, name)):
        yield f"the import after it leaves {used(work)[1]}"
    remove(work)


def check_two(programs: Path, work: Path) -> Iterator[str]:
    """Runs two imports to one name at once. All files at the end are of one of them."""
    images = prepare(programs, work)
    for turn in range(ROUNDS):
        runs = [command(programs, name) for name in "ab"]
        children = [subprocess.Popen(run, cwd=work, stdout=subprocess.DEVNULL) for run in runs]
        statuses = [child.wait() for child in children]
        image, settings = used(work)
        name = "a" if image == images["a"] else "b"
        if statuses != [0, 0] or image != images[name] or settings != made(images, name):
            yield f"round {turn}: statuses {statuses}, and {settings} beside the image of {name}"


def check_waiting(programs: Path, work: Path) -> Iterator[str]:
    """An import waits while another process holds the lock, and logs that. A signal ends it."""
    images = prepare(programs, work)
    folder = os.open(work, os.O_RDONLY)
    fcntl.flock(folder, fcntl.LOCK_EX)
    for number in (None, signal.SIGTERM):
        verbose, nowhere = command(programs, "a", "-v"), subprocess.DEVNULL
        child = subprocess.Popen(verbose, cwd=work, stdout=nowhere, stderr=subprocess.PIPE)
        assert child.stderr
        logged = next((line for line in child.stderr if b" s: waiting for another" in line), None)
        if logged is None or (work / "new.img").exists():
            yield f"logs {logged!r}, or has put its image in place before"
        if number is None:
            fcntl.flock(folder, fcntl.LOCK_UN)
        else:
            child.send_signal(number)
        child.stderr.read()
        if child.wait() != (0 if number is None else -number):
            yield f"ends with status {child.returncode}"
        if number is None and used(work) != (images["a"], made(images, "a")):
            yield f"leaves {used(work)[1]}"
        fcntl.flock(folder, fcntl.LOCK_EX)
        remove(work)
    os.close(folder)
    left = sorted(path.name for path in work.iterdir())
    if left != sorted(SETTINGS):
        yield f"leaves {left}"


def killed(old: str, new: str) -> Check:
    return lambda programs, work: check_killed(programs, work, old, new)


CASES = [
    Case("killed over another import's", killed("a", "b")),
    Case("killed over settings of an older version", killed("bare", "a")),
    Case("killed while it removes settings", killed("a", "bare")),
    Case("two at once", check_two),
    Case("waiting", check_waiting),
]


def failures(case: Case, programs: Path, work: Path) -> Iterator[str]:
    work.mkdir()
    yield from case.check(programs, work)
