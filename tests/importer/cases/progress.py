"""What a terminal shows during an import: a status line that is redrawn each second, and then the
report, or a summary of it."""
import fcntl
import os
import pty
import re
import select
import shutil
import struct
import subprocess
import termios
import unicodedata
from pathlib import Path
from typing import Iterator, List, NamedTuple, Optional, Tuple

from .common import FILES, NAME, lay, without_numbers

# A dictc that starts to work only when a pipe is written to.
SLOW = """#!/bin/sh
read -r line < {pipe}
exec {dictc} "$@"
"""
SHOWN = re.compile(r"\rkumquatsieve-import: (\d+) s: ([^\r\n]*)\x1b\[K")
LONG = "辞書" * 20
COLUMNS = 60
# How long anything is waited for, in seconds. It takes much less.
PATIENCE = 60
REPORT = (
    f"sources: {LONG}",
    "encoding: UTF-8",
    "fields: not named: there is no dicrc",
    "3 entries, 0 skipped",
    "image: new.img, 0 bytes, 0 s",
    "tested: new.img",
    "0 lines left out",
)
SUMMARY = ("kumquatsieve-import: 0 s: new.img: 3 entries, 0 skipped, 0 bytes",)


class Case(NamedTuple):
    """A run with standard error on a terminal."""

    name: str
    arguments: Tuple[str, ...]
    # Whether standard output is the terminal, too.
    has_report: bool
    # The lines that the terminal shows at the end, with 0 for numbers; none to compare nothing.
    end: Tuple[str, ...]
    has_status_line: bool = True


CASES = [
    Case("all on the terminal", (LONG, "new.img"), True, REPORT),
    Case("the report elsewhere", (LONG, "new.img"), False, SUMMARY),
    Case("with -v", ("-v", LONG, "new.img"), False, (), False),
]


def screen(text: str) -> List[str]:
    """Returns the lines that a terminal shows after `text` was written to it.

    The text has no other control characters than those below.
    """
    lines = [""]
    for part in re.findall(r"\x1b\[K|\r\n|\r|\n|[^\r\n\x1b]+", text):
        if part == "\r":
            lines[-1] = ""
        elif part in ("\r\n", "\n"):
            lines.append("")
        elif part != "\x1b[K":
            lines[-1] += part
    return lines


def width(text: str) -> int:
    return sum(2 if unicodedata.east_asian_width(character) in "WF" else 1 for character in text)


def prepare(programs: Path, work: Path) -> None:
    lay(str(work / LONG), FILES)
    pipe, dictc = work.parent / "pipe", programs / "dictc"
    for name in ("bin", "lib"):
        shutil.copytree(programs.parent / name, work.parent / "slow" / name)
    os.mkfifo(pipe)
    (work.parent / "slow" / "bin" / "dictc").write_text(SLOW.format(pipe=pipe, dictc=dictc))


def read_more(terminal: int) -> Optional[bytes]:
    """Returns what is written to the terminal next; None at its end, or if nothing comes."""
    if not select.select([terminal], [], [], PATIENCE)[0]:
        return None
    try:
        return os.read(terminal, 65536) or None
    except OSError:
        return None


def read_all(case: Case, child: "subprocess.Popen[bytes]", terminal: int, pipe: Path) -> str:
    """Returns all that is written to the terminal.

    dictc goes on after the status line has shown three numbers of seconds.
    """
    written, released = b"", not case.has_status_line
    if released:
        pipe.write_text("go\n")
    while (more := read_more(terminal)) is not None:
        written += more
        seconds = {found[1] for found in SHOWN.finditer(written.decode(errors="replace"))}
        if not released and len(seconds) >= 3:
            released = True
            pipe.write_text("go\n")
    if not released:
        child.kill()
    return written.decode(errors="replace")


def failures(case: Case, programs: Path, work: Path) -> Iterator[str]:
    """Runs a case in the directory `work`, and yields what differs from it."""
    try:
        terminal, end = pty.openpty()
    except OSError:
        lay(str(work), {})
        return
    prepare(programs, work)
    fcntl.ioctl(end, termios.TIOCSWINSZ, struct.pack("4H", 25, COLUMNS, 0, 0))
    command = [str(work.parent / "slow" / "bin" / NAME), *case.arguments]
    out = end if case.has_report else subprocess.DEVNULL
    child = subprocess.Popen(command, cwd=work, stdout=out, stderr=end)
    os.close(end)
    written = read_all(case, child, terminal, work.parent / "pipe")
    status = child.wait()
    os.close(terminal)
    lines = tuple(without_numbers(line) for line in screen(written) if line)
    if status != 0 or (case.end and lines != case.end):
        yield f"status {status}, and {lines} on the terminal, expected {case.end}"
    if not case.has_status_line and (
        "\x1b" in written or not all(" s: " in line for line in lines)
    ):
        yield f"writes {written!r}"
    too_wide = [found[0] for found in SHOWN.finditer(written) if width(found[0][1:-3]) >= COLUMNS]
    if too_wide:
        yield f"writes lines of {COLUMNS} columns or more: {too_wide}"
    shutil.rmtree(work.parent / "slow")
    (work.parent / "pipe").unlink()
