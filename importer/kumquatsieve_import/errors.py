"""Errors that end an import, each with its exit status, and paths as messages print them."""
import os
from contextlib import contextmanager
from typing import Iterator, Union

# Exit statuses, as dictc and jseg have them.
INVALID, USAGE, FILE, MEMORY = 1, 2, 3, 4

Path = Union[str, bytes]


class Error(Exception):
    """An error that is reported in one line. `status` is the exit status that it ends with."""

    def __init__(self, status: int, text: str) -> None:
        super().__init__(text)
        self.status = status


class Interrupted(BaseException):
    """Signal `number` arrived."""

    def __init__(self, number: int) -> None:
        super().__init__(number)
        self.number = number


def escaped(character: str) -> str:
    """Returns a control character as dictc and jseg print it."""
    named = {"\n": "\\n", "\r": "\\r", "\t": "\\t"}
    return named.get(character, f"\\u{{{ord(character):x}}}")


def as_bytes(path: Path) -> bytes:
    """Returns the bytes of a path or an argument.

    In a string, a surrogate represents each byte that is not UTF-8.
    """
    return path if isinstance(path, bytes) else path.encode("utf-8", "surrogateescape")


def printable(path: Path) -> str:
    """Returns a path or an argument as one line of UTF-8.

    Control characters and bytes that are not UTF-8 are escaped.
    """
    text = as_bytes(path).decode("utf-8", "backslashreplace")
    return "".join(escaped(one) if ord(one) < 32 or 127 <= ord(one) < 160 else one for one in text)


def reason_of(error: OSError) -> str:
    """Returns the system's reason for an error."""
    return os.strerror(error.errno) if error.errno else str(error)


def file_error(path: Path, error: OSError) -> Error:
    """Returns the error of the file at `path`, with the system's reason."""
    return Error(FILE, f"{printable(path)}: {reason_of(error)}")


@contextmanager
def errors_of(path: Path) -> Iterator[None]:
    """Reports an `OSError` of the body as an error of the file at `path`."""
    try:
        yield
    except OSError as error:
        raise file_error(path, error) from error
