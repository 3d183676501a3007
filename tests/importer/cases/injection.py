"""Errors from outside during an import: signals, full devices, and memory that runs out.

Afterwards the old image and its settings are as they were, or all the new ones are there, and no
other file is left. There are two kinds of imports: of a directory, and of the lexicons of a user
dictionary.

strace injects them: each signal at each call that makes, renames, writes or removes a file or
starts a process, and a full device where the call can fail so. If strace can't be used, that table
is left out. Signals while dictc writes are tested without it.
"""
import fcntl
import hashlib
import os
import re
import resource
import shutil
import signal
import subprocess
import sys
import termios
import time
from concurrent.futures import ThreadPoolExecutor
from pathlib import Path
from typing import (
    IO,
    Any,
    Callable,
    Dict,
    Iterator,
    List,
    Mapping,
    NamedTuple,
    Optional,
    Set,
    Tuple,
)

from .common import FILES, NAME, Files, compiled, headed, in_code, lay
from .records import text_of

SIGNALS = (signal.SIGHUP, signal.SIGINT, signal.SIGQUIT, signal.SIGTERM)
# Calls that fail on a full device, and other calls.
MAKING = (
    *("mkdir", "mkdirat", "mknod", "mknodat", "symlink", "symlinkat", "link", "linkat"),
    *("rename", "renameat", "renameat2", "chmod", "fchmod", "fchmodat", "write", "fsync"),
)
OTHERS = ("unlink", "unlinkat", "rmdir", "pipe2", "vfork", "clone", "clone3", "close", "openat")
DICRC = b"; f[0]: pos\n; f[1]: reading\n"
SOURCES = in_code(
    "euc_jp", a_csv="ん,1,1,5,X,ん\n".encode("euc_jp") * 2 + b"\xa4,1,1,5,X,X\n", dicrc=DICRC
)
SOURCES["pos-id.def"] = "名詞 1\n".encode("euc_jp")
# One is converted to UTF-8, and one is read in place.
LEXICONS = {"a.csv": "ん,1,1,5,X,ん\n".encode("euc_jp") * 2, "b.csv": b"A,1,1,5,X,A\n"}
# The limits on memory, from less than Python needs to start to more than an import needs.
MEGABYTES = (12, 24, 32, 40, 48, 64, 96, 160)
# A lexicon whose image is larger than a pipe, and fcntl's command that sets the size of a pipe.
MANY = "ん,1,1,5,名詞,ん\n".encode("euc_jp") * 10_000
SET_PIPE_SIZE = 1031
# A dictc that is slow between a file that it writes and its end.
SLOW = """#!/bin/sh
while [ "$1" != --out ]; do shift; done
echo new > "$2.$$.0.new"
echo > "$STARTED"
exec sleep 20
"""


class Kind(NamedTuple):
    """A kind of import: its arguments, and the files of the directory dic.

    `old` and `new` have the settings beside the image before and after it.
    """

    name: str
    arguments: Tuple[str, ...]
    sources: Files
    old: Dict[str, bytes]
    new: Dict[str, bytes]


def kinds(programs: Path, folder: Path) -> Tuple[Kind, Kind]:
    """Returns the imports of a directory, and of lexicons for the dictionary of the sample."""
    old = {"old.dicrc": b"old", "old.fields": b"old"}
    new = {
        "old.dicrc": DICRC,
        "old.pos-id.def": "名詞 1\n".encode(),
        "old.fields": b"pos\nreading\n",
    }
    system = compiled(programs, folder / "system", FILES, ["lexicon.csv"])
    lexicons = (f"dic/{name}" for name in LEXICONS)
    arguments = ("--user", "dic/sys.img", "--out", "old.img", *lexicons)
    return (
        Kind("folder", ("dic", "old.img"), SOURCES, old, new),
        Kind("user", arguments, {**LEXICONS, "sys.img": system}, {}, {}),
    )


class Injection(NamedTuple):
    """What happens at call number `when` of a kind in each process: a signal, or an error."""

    call: str
    when: int
    signal: Optional[signal.Signals]

    def option(self) -> str:
        """Returns the option of strace."""
        what = f"signal={self.signal.name}" if self.signal else "error=ENOSPC"
        return f"{self.call}:{what}:when={self.when}"


def prepare(kind: Kind, work: Path) -> None:
    lay(str(work / "dic"), kind.sources)
    (work / "tmp").mkdir()
    for name, data in {**kind.old, "old.img": b"old", "old.tested": b"old"}.items():
        (work / name).write_bytes(data)


def command(kind: Kind, programs: Path) -> List[str]:
    return [sys.executable, str(programs / NAME), *kind.arguments]


def environment(work: Path, **others: str) -> Dict[str, str]:
    return {**os.environ, "TMPDIR": str(work / "tmp"), **others}


def is_image(data: bytes) -> bool:
    """Returns whether `data` is a whole image: it ends with the checksum of the other bytes."""
    return hashlib.sha256(data[:-32]).digest() == data[-32:]


def state_of(kind: Kind, work: Path) -> str:
    """Returns whether all files are `old` or `new`, or a description of what is wrong."""
    found = {
        path.name: path.read_bytes() if path.is_file() else None
        for path in [*work.iterdir(), *(work / "tmp").iterdir()]
    }
    rest = {name: data for name, data in found.items() if name not in ("dic", "tmp")}
    image, record = rest.pop("old.img", None), rest.pop("old.tested", None)
    if rest == kind.old and image == b"old" and record == b"old":
        return "old"
    new = {name: headed(image or b"", text) for name, text in kind.new.items()}
    is_valid = record is None or record.decode() == text_of(work / "old.img")
    if rest == new and image is not None and is_image(image) and is_valid:
        return "new"
    return f"{sorted(found)}, {rest}, an image of {len(image or b'')} bytes"


def failures_after(kind: Kind, status: int, work: Path) -> Iterator[str]:
    """Yields what a run with this status shouldn't leave."""
    state = state_of(kind, work)
    if {path.name: path.read_bytes() for path in (work / "dic").iterdir()} != kind.sources:
        yield "the sources are changed"
    if state not in ("old", "new") or (status == 0 and state == "old"):
        yield f"status {status} leaves {state}"


def traced_calls(kind: Kind, programs: Path, work: Path) -> Optional[Mapping[str, Set[int]]]:
    """Returns the numbers of each kind of call in a run, or None if strace can't be used.

    The calls are counted in each process.
    """
    prepare(kind, work)
    trace = work.parent / "trace"
    names = ",".join(f"?{name}" for name in MAKING + OTHERS)
    tracing = ["strace", "-f", "-qq", "-o", str(trace), "-e", f"trace={names}"]
    try:
        done = subprocess.run(
            [*tracing, *command(kind, programs)],
            cwd=work,
            env=environment(work),
            capture_output=True,
        )
    except FileNotFoundError:
        return None
    lines = trace.read_text(errors="replace").splitlines() if done.returncode == 0 else []
    counts: Dict[Tuple[str, str], int] = {}
    found: Dict[str, Set[int]] = {}
    for line in lines:
        called = re.match(r"(\d+) +(\w+)\((.*)", line)
        if called:
            key = called[1], called[2]
            counts[key] = counts.get(key, 0) + 1
            # Files that Python opens and closes when it starts are no steps.
            if called[2] not in ("openat", "close") or "O_CREAT" in called[3]:
                found.setdefault(called[2], set()).add(counts[key])
    return found or None


def injections(calls: Mapping[str, Set[int]]) -> Iterator[Injection]:
    for name, numbers in sorted(calls.items()):
        for when in sorted(numbers):
            yield from (Injection(name, when, number) for number in SIGNALS)
            if name in MAKING or name == "openat":
                yield Injection(name, when, None)


def failures_of(injection: Injection, kind: Kind, programs: Path, folder: Path) -> List[str]:
    """Returns what is wrong after an injection."""
    option = injection.option()
    work = folder / option.replace(":", "-")
    prepare(kind, work)
    tracing = ["-e", f"trace={injection.call}", "-e", f"inject={option}"]
    strace = ["strace", "-f", "-qq", "-o", "/dev/null", *tracing, *command(kind, programs)]
    done = subprocess.run(strace, cwd=work, env=environment(work), capture_output=True)
    found = [f"{option}: {failure}" for failure in failures_after(kind, done.returncode, work)]
    if b"Traceback" in done.stderr:
        found.append(f"{option}: prints {done.stderr.decode(errors='replace')}")
    shutil.rmtree(work)
    return found


def check_table(kind: Kind, programs: Path, folder: Path) -> Tuple[Optional[int], List[str]]:
    """Returns how many errors were injected, None if strace can't be used; and the failures."""
    (folder / "first").mkdir()
    calls = traced_calls(kind, programs, folder / "first" / "work")
    if calls is None:
        return None, []
    table = list(injections(calls))
    with ThreadPoolExecutor(min(4, os.cpu_count() or 1)) as pool:
        found = pool.map(lambda one: failures_of(one, kind, programs, folder), table)
        failures = [failure for some in found for failure in some]
    return len(table), failures


def check_signal(number: signal.Signals, kind: Kind, programs: Path, folder: Path) -> Iterator[str]:
    """A signal while dictc writes, without strace, ends the process."""
    work, slow = folder / number.name, folder / f"{number.name}.slow" / "bin"
    prepare(kind, work)
    for name in ("bin", "lib"):
        shutil.copytree(programs.parent / name, slow.parent / name)
    (slow / "dictc").write_text(SLOW)
    started = folder / f"{number.name}.started"

    def listen() -> None:
        # A caller in the background ignores some signals, and so would the import.
        signal.signal(number, signal.SIG_DFL)

    child = subprocess.Popen(
        command(kind, slow),
        cwd=work,
        env=environment(work, STARTED=str(started)),
        stdout=subprocess.DEVNULL,
        preexec_fn=listen,
    )
    while not started.exists() and child.poll() is None:
        time.sleep(0.01)
    child.send_signal(number)
    if child.wait() != -number:
        yield f"status {child.returncode}"
    if state_of(kind, work) != "old":
        yield f"leaves {state_of(kind, work)}"


def run(
    kind: Kind, programs: Path, work: Path, **options: Any
) -> "subprocess.CompletedProcess[bytes]":
    """Runs an import, with options of `subprocess.run`."""
    return subprocess.run(command(kind, programs), cwd=work, env=environment(work), **options)


def check_output(
    name: str, target: Optional[IO[bytes]], kind: Kind, programs: Path, folder: Path
) -> Iterator[str]:
    """Standard output is `target`, which fails; or it is closed if that is None."""
    work = folder / name
    prepare(kind, work)

    def close() -> None:
        os.close(1)

    set_up: Optional[Callable[[], None]] = close if target is None else None
    done = run(kind, programs, work, stdout=target, stderr=subprocess.PIPE, preexec_fn=set_up)
    if done.returncode != 3 or not done.stderr.startswith(f"{NAME}: standard output: ".encode()):
        yield f"status {done.returncode}, {done.stderr!r}"
    if state_of(kind, work) != "old":
        yield f"leaves {state_of(kind, work)}"


def check_closed_streams(kind: Kind, programs: Path, folder: Path) -> Iterator[str]:
    """Standard input and standard error are closed: no file that is made gets their descriptors."""
    work = folder / "without-error"
    prepare(kind, work)

    def close() -> None:
        os.close(0)
        os.close(2)

    nowhere = subprocess.DEVNULL
    done = run(kind, programs, work, stdout=nowhere, stderr=nowhere, preexec_fn=close)
    if done.returncode != 0 or state_of(kind, work) != "new":
        yield f"status {done.returncode} leaves {state_of(kind, work)}"


def check_memory(megabytes: int, kind: Kind, programs: Path, folder: Path) -> Iterator[str]:
    """With a limit on memory, Python, the import or dictc runs out of it, or the image is made."""
    work = folder / f"memory-{megabytes}"
    prepare(kind, work)
    (work / "dic" / "a.csv").write_bytes("ん,1,1,5,名詞,ん\n".encode("euc_jp") * 400_000)

    def set_limit() -> None:
        resource.setrlimit(resource.RLIMIT_AS, (megabytes << 20, megabytes << 20))

    done = run(kind, programs, work, capture_output=True, preexec_fn=set_limit)
    if state_of(kind, work) != ("new" if done.returncode == 0 else "old"):
        yield f"status {done.returncode} leaves {state_of(kind, work)}"
    if done.stderr.startswith(f"{NAME}: ".encode()) and done.returncode not in (0, 4):
        yield f"status {done.returncode}, {done.stderr!r}"


def unread_bytes(pipe: IO[bytes]) -> int:
    """Returns how many bytes are in a pipe."""
    return int.from_bytes(fcntl.ioctl(pipe, termios.FIONREAD, bytes(4)), sys.byteorder)


def check_stop(kind: Kind, programs: Path, folder: Path) -> Iterator[str]:
    """The image is written to a pipe that is smaller than it.

    The import is stopped while it waits for the reader, and continued. The whole image arrives.
    """
    work = folder / "stopped"
    prepare(kind, work)
    (work / "dic" / "a.csv").write_bytes(MANY)
    (work / "old.img").unlink()
    os.mkfifo(work / "old.img")
    with open(os.open(work / "old.img", os.O_RDONLY | os.O_NONBLOCK), "rb") as pipe:
        size = fcntl.fcntl(pipe, SET_PIPE_SIZE, 1)
        child = subprocess.Popen(
            command(kind, programs), cwd=work, env=environment(work), stdout=subprocess.DEVNULL
        )
        while unread_bytes(pipe) < size and child.poll() is None:
            time.sleep(0.01)
        child.send_signal(signal.SIGSTOP)
        os.waitpid(child.pid, os.WUNTRACED)
        child.send_signal(signal.SIGCONT)
        os.set_blocking(pipe.fileno(), True)
        image = pipe.read()
    if child.wait() != 0 or len(image) <= size or not is_image(image):
        what = "an image" if is_image(image) else "no image"
        yield f"status {child.returncode}, {len(image)} bytes arrive, which are {what}"
