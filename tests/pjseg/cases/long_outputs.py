"""Measures the memory of pjseg, also over lines whose output is much longer than they are."""

import resource
import subprocess
import sys
import zlib
from pathlib import Path
from typing import Iterator, NamedTuple, Sequence

# A word whose feature is long, and one whose feature is not.
LEXICON = f"あ,1,1,-10000,{'x' * 4000}\nい,1,1,-10000,short\n"
LINE_LONG, LINE_SHORT = "あ\n".encode(), "い\n".encode()
PIECE = 1 << 20
# Bytes of address space. The output of the first piece of TEXT alone is longer.
LIMIT = 1_000_000_000
SECONDS = 300


def mixed(size: int, each: int) -> bytes:
    """Returns lines of about `size` bytes, of which one in `each` has the long feature."""
    return (LINE_LONG + LINE_SHORT * (each - 1)) * (size // (each * len(LINE_LONG)))


TEXT = LINE_LONG * (PIECE // len(LINE_LONG) + 1) + mixed(3 * PIECE, 8)
# For a program that is slowed down. The output of a piece is longer than what a thread keeps.
SHORTER = mixed(4 * PIECE, 30)

# The bytes of a thread: a piece of the text and a read, what it keeps of the output, and about the
# output of a group of lines. The rest is the program and a small dictionary.
OF_A_THREAD = PIECE + (1 << 16) + (16 << 20) + (4 << 20)
OF_THE_REST = 30_000_000
PEAK = """
import resource, subprocess, sys
subprocess.run(sys.argv[1:], stdout=subprocess.DEVNULL, stderr=subprocess.DEVNULL)
print(resource.getrusage(resource.RUSAGE_CHILDREN).ru_maxrss)
"""


def most_memory(threads: int) -> int:
    """Returns the greatest memory that a run may have, in kB."""
    return (threads * OF_A_THREAD + OF_THE_REST) // 1024


def peak(words: Sequence[object], text: Path) -> int:
    """Returns the greatest memory of a run, in kB.

    A small process starts it, because the memory of a process that forks counts for its child.
    """
    with open(text, "rb") as reading:
        command = [sys.executable, "-I", "-c", PEAK, *map(str, words)]
        return int(
            subprocess.run(command, stdin=reading, stdout=subprocess.PIPE, check=True).stdout
        )


class Printed(NamedTuple):
    """The length and checksum of a run's output, its status, and its standard error."""

    length: int
    checksum: int
    status: int
    errors: bytes


def limit_memory() -> None:
    resource.setrlimit(resource.RLIMIT_AS, (LIMIT, LIMIT))


def printed(words: Sequence[object], text: Path, is_limited: bool = False) -> Printed:
    """Runs a program over a text. Its output is not kept."""
    length = checksum = 0
    with open(text, "rb") as reading, subprocess.Popen(
        [str(word) for word in words],
        stdin=reading,
        stdout=subprocess.PIPE,
        stderr=subprocess.PIPE,
        preexec_fn=limit_memory if is_limited else None,
    ) as process:
        assert process.stdout and process.stderr
        while data := process.stdout.read(1 << 20):
            length += len(data)
            checksum = zlib.crc32(data, checksum)
        errors = process.stderr.read()
        status = process.wait(SECONDS)
    return Printed(length, checksum, status, errors)


def failures(pjseg: Path, jseg: Path, image: Path, text: Path) -> Iterator[str]:
    """Yields what differs from jseg, with one thread and with several, under a limit on memory."""
    text.write_bytes(TEXT)
    expected = printed([jseg, "-d", image], text)
    if expected.status != 0 or expected.length < LIMIT:
        yield f"jseg prints too little: {expected}"
    for jobs in (1, 4):
        found = printed([pjseg, "-d", image, "-j", jobs], text, is_limited=True)
        if found != expected:
            yield f"long outputs, {jobs} threads: {found}, and jseg: {expected}"
