"""What an import prints: its report on standard output; progress and errors on standard error.

With -v, each step is a line. Without it, a terminal shows one status line, which is redrawn at each
step and as the seconds pass. The line is erased before anything else is printed, and at the end.
"""
import os
import time
from typing import Optional

from .errors import Path, file_error, printable

PROGRAM = "kumquatsieve-import"
# Seconds between two progress messages of one step.
INTERVAL = 2.0
# Seconds for which the status line of a terminal stays before it is redrawn.
REDRAW_INTERVAL = 0.25
# Erases a terminal from the cursor to the end of the line.
ERASE = "\x1b[K"


def write_text(descriptor: int, text: str) -> None:
    """Writes all of `text`."""
    data = text.encode()
    while data:
        data = data[os.write(descriptor, data) :]


def write_line(descriptor: int, line: str) -> None:
    write_text(descriptor, f"{line}\n")


class Reporter:
    """Prints the report, and with -v or on a terminal also the steps and their progress."""

    def __init__(self) -> None:
        self.start = time.monotonic()
        self.is_verbose = False
        self.has_status_line = is_terminal(2)
        self.logs_steps = self.has_status_line
        self.left_out_lines = 0
        # When progress was last logged, in seconds since the start.
        self.logged_at = 0.0
        # The text of the status line, None if there is none, and when it was drawn.
        self.step: Optional[str] = None
        self.drawn_at = 0.0

    def seconds(self) -> float:
        """Returns the seconds since the start of the import."""
        return time.monotonic() - self.start

    def set_verbose(self) -> None:
        """Logs each step in a line of its own, for the option -v."""
        self.is_verbose = self.logs_steps = True
        self.has_status_line = False

    def report(self, line: str) -> None:
        """Prints a line on standard output."""
        self.erase()
        try:
            write_line(1, line)
        except OSError as error:
            raise file_error("standard output", error) from error

    def report_left_out(self, path: Path, line: int, why: str) -> None:
        """Reports and counts a line of a source that is left out."""
        self.left_out_lines += 1
        self.report(f"left out: {printable(path)}:{line}: {why}")

    def log(self, text: str) -> None:
        """Prints a line on standard error. An error of that write can't be reported anywhere."""
        self.erase()
        try:
            write_line(2, f"{PROGRAM}: {text}")
        except OSError:
            pass

    def start_step(self, text: str) -> None:
        """Draws a step that starts now. With -v, a step is logged when it is done."""
        if self.has_status_line:
            self.draw(text)

    def log_step(self, text: str) -> None:
        """Logs a step that is done, or draws it."""
        if self.has_status_line:
            self.draw(text)
        elif self.logs_steps:
            self.log(f"{self.seconds():.2f} s: {text}")

    def log_progress(self, step: str, done: int, size: int) -> None:
        """Logs that `done` of `size` bytes of a step are done, at most once in INTERVAL.

        With -v, the end of the step is logged too. The status line is redrawn once in
        REDRAW_INTERVAL.
        """
        if self.has_status_line:
            if self.is_due():
                self.draw(f"{done * 100 // size} %: {step}" if size else step)
            return
        is_due = self.seconds() - self.logged_at >= INTERVAL or (self.is_verbose and done >= size)
        if self.logs_steps and is_due:
            self.logged_at = self.seconds()
            self.log_step(f"{step}: {done} of {size} bytes")

    def tick(self) -> None:
        """Redraws the seconds of the status line while something else works."""
        if self.has_status_line and self.step is not None and self.is_due():
            self.draw(self.step)

    def is_due(self) -> bool:
        """Returns whether the status line may be redrawn."""
        return self.seconds() - self.drawn_at >= REDRAW_INTERVAL

    def draw(self, text: str) -> None:
        """Draws the status line."""
        self.step, self.drawn_at = text, self.seconds()
        line = fitting(f"{PROGRAM}: {self.seconds():.0f} s: {text}", columns())
        try:
            write_text(2, f"\r{line}{ERASE}")
        except OSError:
            pass

    def erase(self) -> None:
        """Erases the status line. Its text is drawn again when it is due."""
        if self.has_status_line and self.drawn_at:
            self.drawn_at = 0.0
            try:
                write_text(2, f"\r{ERASE}")
            except OSError:
                pass

    def print_summary(self, text: str) -> None:
        """Prints the last line on a terminal whose user doesn't see standard output."""
        self.step = None
        if self.has_status_line and not is_terminal(1):
            self.log(f"{self.seconds():.0f} s: {text}")


def is_terminal(descriptor: int) -> bool:
    try:
        return os.isatty(descriptor)
    except OSError:
        return False


def columns() -> int:
    """Returns the width of the terminal of standard error, in columns."""
    try:
        return os.get_terminal_size(2).columns or 80
    except OSError:
        return 80


def fitting(text: str, width: int) -> str:
    """Returns the longest prefix of `text` with less than `width` columns.

    Kana and kanji are two columns wide.
    """
    # Only a terminal needs the table of widths.
    import unicodedata

    for at, character in enumerate(text):
        width -= 2 if unicodedata.east_asian_width(character) in "WF" else 1
        if width < 1:
            return text[:at]
    return text
