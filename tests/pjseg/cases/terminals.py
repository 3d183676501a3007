"""What pjseg prints on a terminal: warnings about the text, and its progress."""

import os
import re
import select
import subprocess
import threading
import time
import tty
from contextlib import suppress
from pathlib import Path
from typing import IO, Iterator, NamedTuple, Sequence, Union

NAME = "pjseg"
MARK = b"\xef\xbb\xbf"
ERASED = "\x1b[K"
LINE = "すもも\n".encode()
MANY = LINE * 250_000  # several pieces
MARKED = (
    f"{NAME}: warning: the text begins with a byte order mark (U+FEFF); it is segmented as text\n"
)
EXPLAINED = f"{NAME}: 'jseg --explain G3' explains this error\n"
ERROR = f"{NAME}: line 2: G3 NotUtf8\n{EXPLAINED}"
SECONDS = 300


def returned(line: int) -> str:
    return f"{NAME}: warning: line {line} ends with a carriage return; it is segmented as text\n"


# (what, text, what is printed on a terminal)
WARNINGS = [
    ("a text", LINE * 2, ""),
    ("an empty text", b"", ""),
    ("a byte order mark", MARK + LINE, MARKED),
    ("a byte order mark alone", MARK, MARKED),
    ("a byte order mark in line 2", LINE + MARK + LINE, ""),
    ("a byte order mark of an invalid line", MARK + b"\xff\n", ERROR.replace("line 2", "line 1")),
    ("a carriage return", b"\r\n", returned(1)),
    ("carriage returns", b"a\nb\r\nc\r\n", returned(2)),
    ("carriage returns in lines", b"a\rb\n\rc\n", ""),
    ("a carriage return in a line, then at its end", b"a\rb\r\n", returned(1)),
    ("a carriage return without a line feed", b"a\nb\r", returned(2)),
    ("both", MARK + b"a\r\n", MARKED + returned(1)),
    ("carriage returns in a later piece", MANY + b"a\r\n" * 2 + MANY, returned(250_001)),
    ("a carriage return before an error", b"a\r\n\xff\n", returned(1) + ERROR),
    ("a carriage return of an invalid line", b"a\n\xff\r\n", ERROR),
    ("a carriage return after an error", b"a\n\xff\na\r\n", ERROR),
]


class Shown(NamedTuple):
    """The status of a run, and its standard error."""

    status: int
    errors: str

    def __str__(self) -> str:
        return f"status {self.status}, {self.errors[:300]!r}"


def read_all(reader: int, is_late: bool = False) -> bytes:
    """Returns what is written to the other end of a pipe or a terminal until that is closed.

    If `is_late`, it is read more than two seconds after the first bytes were written.
    """
    found = []
    if is_late:
        select.select([reader], [], [])
        time.sleep(2.2)
    with suppress(OSError):
        while data := os.read(reader, 1 << 16):
            found.append(data)
    os.close(reader)
    return b"".join(found)


def on_terminal(
    words: Sequence[object], text: Union[Path, IO[bytes]], is_late: bool = False
) -> Shown:
    """Runs a program with a terminal as standard error. Its output is read late if `is_late`.

    `text` is the file of a text, or a pipe.
    """
    ours, theirs = os.openpty()
    tty.setraw(theirs)
    output, writer = os.pipe()
    with open(text, "rb") if isinstance(text, Path) else text as reading:
        command = [str(word) for word in words]
        process = subprocess.Popen(command, stdin=reading, stdout=writer, stderr=theirs)
    os.close(theirs)
    os.close(writer)
    draining = threading.Thread(target=read_all, args=(output, is_late))
    draining.start()
    errors = read_all(ours).decode()
    draining.join()
    return Shown(process.wait(SECONDS), errors)


def beside_output(words: Sequence[object], text: Path) -> Shown:
    """Runs a program with one terminal as output and standard error, which is read late."""
    ours, theirs = os.openpty()
    tty.setraw(theirs)
    with open(text, "rb") as reading:
        command = [str(word) for word in words]
        process = subprocess.Popen(command, stdin=reading, stdout=theirs, stderr=theirs)
    os.close(theirs)
    errors = read_all(ours, is_late=True).decode()
    return Shown(process.wait(SECONDS), errors)


def read_by_program(words: Sequence[object], text: Path, is_late: bool = False) -> str:
    """Returns what a run prints on standard error, which is a pipe, as its output is."""
    with open(text, "rb") as reading:
        process = subprocess.Popen(
            [str(word) for word in words],
            stdin=reading,
            stdout=subprocess.PIPE,
            stderr=subprocess.PIPE,
        )
    assert process.stdout and process.stderr
    draining = threading.Thread(target=read_all, args=(os.dup(process.stdout.fileno()), is_late))
    draining.start()
    errors = process.stderr.read().decode()
    draining.join()
    process.stdout.close()
    process.stderr.close()
    process.wait(SECONDS)
    return errors


def warnings_in(errors: str) -> list[str]:
    return [line for line in errors.splitlines() if "warning" in line]


def warning_failures(words: Sequence[object], path: Path) -> Iterator[str]:
    """Yields the warnings that differ from the table: on a terminal, in a pipe, and with -v."""
    for what, text, expected in WARNINGS:
        path.write_bytes(text)
        for jobs in ("1", "4"):
            command = [*words, "-j", jobs]
            shown = on_terminal(command, path)
            if shown != (int("NotUtf8" in expected), expected):
                yield f"{what}, {jobs} threads, on a terminal: {shown}, expected {expected!r}"
            errors = read_by_program([*command, "-v"], path)
            if warnings_in(errors) != warnings_in(expected):
                yield f"{what}, {jobs} threads, -v: {errors[:300]!r}, expected {expected!r}"
        if warnings_in(read_by_program(words, path)):
            yield f"{what}: warned of without -v"


def is_progress(errors: str, size: int, end: str) -> bool:
    """Returns whether progress was printed and erased, before `end`."""
    line = rf"\rsegmented [0-9]+ of {size} bytes, [0-9]+ %, [0-9]+\.[0-9] MB/s\x1b\[K"
    return re.fullmatch(rf"({line})+\r\x1b\[K{re.escape(end)}", errors) is not None


def slow_pipe(text: Path) -> IO[bytes]:
    """Returns a pipe from which the text is read twice, with more than two seconds between."""
    process = subprocess.Popen(
        ["sh", "-c", 'cat "$1"; sleep 2.2; cat "$1"', "sh", text], stdout=subprocess.PIPE
    )
    assert process.stdout
    return process.stdout


def progress_failures(words: Sequence[object], path: Path) -> Iterator[str]:
    """Yields what is wrong with the progress of a text that takes more than two seconds.

    It takes that long because its output is read late.
    """
    for jobs in ("1", "4"):
        command = [*words, "-j", jobs]
        path.write_bytes(MANY)
        shown = on_terminal(command, path, is_late=True)
        if shown.status != 0 or not is_progress(shown.errors, len(MANY), ""):
            yield f"progress, {jobs} threads: {shown}"
        if errors := read_by_program(command, path, is_late=True):
            yield f"progress, {jobs} threads, in a pipe: {errors[:300]!r}"
        shown = beside_output([*command, "-F", "", "-E", "%%"], path)
        if shown != (0, "%" * MANY.count(10)):
            yield f"progress, {jobs} threads, beside an output on a terminal: {shown}"
        if (shown := on_terminal(command, slow_pipe(path))) != (0, ""):
            yield f"progress, {jobs} threads, of a pipe: {shown}"
        path.write_bytes(MANY + b"\xff\n")
        shown = on_terminal(command, path, is_late=True)
        end = ERROR.replace("line 2", f"line {MANY.count(10) + 1}")
        if shown.status != 1 or not is_progress(shown.errors, len(MANY) + 2, end):
            yield f"progress before an error, {jobs} threads: {shown}"
