"""The standard streams of a run: inputs that fail or are slow, and outputs that are kept."""
import fcntl
import os
import select
import socket
import subprocess
import sys
import tempfile
import termios
import threading
import time
import tty
from contextlib import suppress
from pathlib import Path
from typing import IO, Any, Callable, List, Optional, Tuple

# Lexicons that are too large: a line, and how often it is written. The first has one entry more
# than a dictionary may have, the second one entry whose feature has 2^32 bytes.
LONG = {"entries": (b"a,0,0,0,\n", 2**28 + 1), "feature": (b"a,0,0,0,", 2**29 + 1)}
# How many lines are written at a time.
AT_ONCE = 2**16

# Returns what was written to standard error, one string for each write. It is called after the
# other end was closed.
Messages = Callable[[], List[str]]


def failing_input(text: bytes) -> int:
    """Returns a terminal from which `text` is read, and then a read fails."""
    ours, theirs = os.openpty()
    tty.setraw(theirs)
    os.write(theirs, text)
    os.close(theirs)
    return ours


def reset_input(text: bytes) -> int:
    """Returns a connection that was reset after `text`, if that is not empty, was sent.

    The read after the text fails, and the next ones find the end.
    """
    ours, theirs = socket.socketpair()
    theirs.sendall(text)
    ours.send(b"unread")
    theirs.close()
    return ours.detach()


def feed(writer: int, line: bytes, count: int) -> None:
    """Writes a line `count` times, as long as it is read."""
    with suppress(BrokenPipeError), open(writer, "wb", buffering=0) as pipe:
        for _ in range(count // AT_ONCE):
            pipe.write(line * AT_ONCE)
        pipe.write(line * (count % AT_ONCE))


def feed_slowly(writer: int, text: bytes) -> None:
    """Writes the first half of a text, and the second half two seconds after that was read."""
    half = len(text) // 2
    with suppress(BrokenPipeError), open(writer, "wb", buffering=0) as pipe:
        pipe.write(text[:half])
        while is_unread(pipe):
            time.sleep(0.01)
        time.sleep(2.2)
        pipe.write(text[half:])


def is_unread(pipe: IO[bytes]) -> bool:
    """Returns whether a pipe has bytes that may still be read."""
    ends = select.poll()
    ends.register(pipe, 0)
    waiting = int.from_bytes(fcntl.ioctl(pipe, termios.FIONREAD, bytes(4)), sys.byteorder)
    return waiting > 0 and not ends.poll(0)


def fed_input(user: Optional[int], feeding: Callable[..., None], *arguments: Any) -> int:
    """Returns a pipe that a thread writes to. `user` may open it by its path, too."""
    ours, theirs = os.pipe()
    if user is not None:
        os.fchown(ours, user, user)
    threading.Thread(target=feeding, args=(theirs, *arguments), daemon=True).start()
    return ours


def file_of(text: bytes) -> int:
    """Returns a regular file with a text, at its start. It has no name."""
    file = os.open(tempfile.gettempdir(), os.O_RDWR | os.O_TMPFILE)
    os.write(file, text)
    os.lseek(file, 0, os.SEEK_SET)
    return file


def input_of(kind: str, text: bytes, folder: Path, user: Optional[int]) -> int:
    """Returns standard input: a descriptor, or PIPE. The kinds are those of `Conditions.stdin`."""
    if kind == "failing":
        return failing_input(text)
    if kind == "reset":
        return reset_input(text)
    if kind in LONG:
        return fed_input(user, feed, *LONG[kind])
    if kind == "slow":
        return fed_input(user, feed_slowly, text)
    if kind == "file":
        return file_of(text)
    return os.open(folder, os.O_RDONLY) if kind == "directory" else subprocess.PIPE


def output_of(kind: str) -> int:
    """Returns standard output: a descriptor, or PIPE. A file is read through its descriptor."""
    if kind == "unread":
        reader, writer = os.pipe()
        os.close(reader)
        return writer
    if kind == "file":
        return os.open(tempfile.gettempdir(), os.O_RDWR | os.O_TMPFILE)
    return os.open("/dev/full", os.O_WRONLY) if kind == "full" else subprocess.PIPE


def read_messages(reader: socket.socket) -> List[str]:
    """Returns what was written to a socket, one string for each write."""
    reader.setblocking(False)
    found: List[str] = []
    while True:
        try:
            message = reader.recv(1 << 20)
        except BlockingIOError:
            return found
        if not message:
            return found
        found.append(message.decode())


def read_terminal(terminal: int) -> List[str]:
    """Returns what was written to the other end of a terminal, which is closed."""
    found = b""
    with suppress(OSError):
        while data := os.read(terminal, 1 << 16):
            found += data
    os.close(terminal)
    return [found.decode()] if found else []


def error_output(kind: str) -> Tuple[int, Messages]:
    """Returns standard error, and the function that returns what was written to it."""
    if kind == "terminal":
        ours, theirs = os.openpty()
        tty.setraw(theirs)
        return theirs, lambda: read_terminal(ours)
    reader, writer = socket.socketpair(socket.AF_UNIX, socket.SOCK_SEQPACKET)
    if kind == "full":
        writer.close()
        return os.open("/dev/full", os.O_WRONLY), lambda: read_messages(reader)
    return writer.detach(), lambda: read_messages(reader)
