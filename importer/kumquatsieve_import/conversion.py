"""Converts sources to UTF-8, in a directory of their own. A file in UTF-8 is read in place."""
import os
import re
from typing import Callable, Iterator, List, Tuple

from .encodings import UTF_8, Encoding
from .errors import errors_of, printable
from .progress import Reporter
from .sources import Source

# The byte order mark of UTF-8.
MARK = b"\xef\xbb\xbf"
# A field of a line with the comma after it, as MeCab and dictc parse it: blanks before a field are
# skipped, and after the quotes of a field the text up to the comma is dropped.
FIELD = rb'[ \t]*(?:"(?:[^"\n]|"")*"(?!")[^,\n]*|(?![ \t"])[^,\n]*),'
# A surface that is not empty. dictc skips and counts a line whose surface is empty.
SURFACE = rb'[ \t]*(?:"(?:[^"\n]|"")+"(?!")[^,\n]*|(?![ \t",])[^,\n]+),'
EMPTY = rb'[ \t]*(?:"[ \t]*"(?!")[^,\n]*)?,'
# A line of a lexicon of which an id or the cost is empty.
UNNUMBERED = re.compile(rb"(?m)^" + SURFACE + rb"(?:" + FIELD + rb"){0,2}?" + EMPTY)
# Each such line contains one of these.
EMPTY_FIELDS = (b",,", b", ", b",\t", b',"')
NO_NUMBER = "an id or the cost is empty"

# The number of a line that is left out, and the reason.
LeftOut = Tuple[int, str]
# Takes the path of a source, the number of a line that is left out, and the reason.
LeaveOut = Callable[[bytes, int, str], None]


def decode_chunk(chunk: bytes, first: int, encoding: Encoding, left_out: List[LeftOut]) -> bytes:
    """Returns a chunk in UTF-8. `first` is the number of its first line.

    A line that is not in the encoding is emptied, so that the other lines keep their numbers.
    """
    try:
        text = encoding.decode(chunk)
        return chunk if encoding is UTF_8 else text.encode()
    except ValueError:
        lines = chunk.split(b"\n")
    for at, line in enumerate(lines):
        try:
            lines[at] = encoding.decode(line).encode()
        except ValueError:
            lines[at] = b""
            left_out.append((first + at, f"not {encoding.name}"))
    return b"\n".join(lines)


def empty_unnumbered(chunk: bytes, first: int, left_out: List[LeftOut]) -> bytes:
    """Returns a chunk of a lexicon in which each line without an id or a cost is emptied."""
    if not any(field in chunk for field in EMPTY_FIELDS):
        return chunk
    kept, at, number = [], 0, first
    for found in UNNUMBERED.finditer(chunk):
        kept.append(chunk[at : found.start()])
        number += chunk.count(b"\n", at, found.start())
        left_out.append((number, NO_NUMBER))
        end = chunk.find(b"\n", found.end())
        at = end if end >= 0 else len(chunk)
    kept.append(chunk[at:])
    return b"".join(kept)


def converted(source: Source, encoding: Encoding) -> Iterator[Tuple[bytes, bytes, List[LeftOut]]]:
    """Yields each chunk of a source, the chunk in UTF-8, and its lines that are left out.

    matrix.def is not decoded: its numbers are the same in each encoding.
    """
    is_matrix = source.name == b"matrix.def"
    for number, chunk in source.chunks():
        text: bytes = chunk
        lines: List[LeftOut] = []
        if number == 1 and chunk.startswith(MARK) and (encoding is UTF_8 or is_matrix):
            text = chunk[len(MARK) :]
        if not is_matrix:
            text = decode_chunk(text, number, encoding, lines)
        if source.is_lexicon():
            text = empty_unnumbered(text, number, lines)
        yield chunk, text, sorted(lines)


def is_unchanged(source: Source, encoding: Encoding, reporter: Reporter) -> bool:
    """Returns whether a source can be read in place. Of matrix.def only the start decides that."""
    if source.name == b"matrix.def":
        with errors_of(source.path), open(source.path, "rb") as file:
            return file.read(len(MARK)) != MARK
    done = 0
    for chunk, text, _ in converted(source, encoding):
        if chunk != text:
            return False
        done += len(chunk)
        reporter.log_progress(f"checking {printable(source.path)}", done, source.size)
    return True


def write_converted(
    source: Source, encoding: Encoding, target: bytes, reporter: Reporter, leave_out: LeaveOut
) -> None:
    """Writes a source in UTF-8 to `target`. Calls `leave_out` for each line that is left out."""
    done = 0
    with errors_of(target), open(target, "wb", buffering=0) as file:
        for chunk, text, lines in converted(source, encoding):
            for line, why in lines:
                leave_out(source.path, line, why)
            rest = memoryview(text)
            while rest:
                rest = rest[file.write(rest) :]
            done += len(chunk)
            reporter.log_progress(
                f"converting {printable(source.path)} to UTF-8", done, source.size
            )


def make_utf_8(
    source: Source, encoding: Encoding, target: bytes, reporter: Reporter, leave_out: LeaveOut
) -> None:
    """Makes `target` a copy of the source in UTF-8, or a link to a source that needs no change."""
    if is_unchanged(source, encoding, reporter):
        with errors_of(target):
            os.symlink(os.path.abspath(source.path), target)
    else:
        write_converted(source, encoding, target, reporter, leave_out)
