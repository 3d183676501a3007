"""The lines of texts, of files and of iterables, and their results."""
import io

from ._core import plain
from ._errors import NOT_UTF8, KumquatsieveError, error_of

# How many bytes or characters are read and segmented at once.
BATCH = 1_000_000
LINE_FEED, MARK = {str: "\n", bytes: b"\n"}, {str: "\ufffd", bytes: "\ufffd".encode()}


class Lines:
    """An iterator over the results of each line of a source. `replaced` is how many U+FFFD have
    replaced what is not UTF-8 so far."""

    def __init__(self, segmenter, source, errors, is_wakati):
        if errors not in (None, "strict", "replace"):
            raise ValueError(f"errors must be replace or strict, not {errors!r}")
        if isinstance(source, (str, bytes, bytearray, memoryview)):
            source = file_of(plain(source))
        elif not hasattr(source, "read") and not hasattr(source, "__iter__"):
            kind = type(source).__name__
            raise TypeError(f"a source must be a text, an open file or lines, not {kind}")
        self.replaced, self._is_strict = 0, (errors or segmenter.errors) == "strict"
        self._results = self._run(segmenter, source, is_wakati)

    def __iter__(self):
        return self._results

    def __next__(self):
        return next(self._results)

    def _run(self, segmenter, source, is_wakati):
        """Yields the words of each line if `is_wakati` is None, else its surfaces or its output."""
        if is_wakati is not None and hasattr(source, "read"):
            for text in self._batches(source):
                yield from segmenter._print_lines(text, is_wakati)
            return
        if not hasattr(source, "__iter__"):
            source = (line for piece in pieces(source) for line in file_of(piece))
        call = segmenter.words if is_wakati is None else segmenter.parse
        for text in self._texts(source, 1):
            yield " ".join(segmenter.wakati(text)) if is_wakati else call(text)

    def _batches(self, file):
        number = 1
        for piece in pieces(file):
            try:
                text = self._text(piece, number)
            except KumquatsieveError:
                # The lines before the invalid one precede its error.
                yield from self._texts(file_of(piece), number)
            yield text
            number += piece.count(LINE_FEED[type(piece)])

    def _texts(self, items, first):
        return (self._text(item, number) for number, item in enumerate(items, first))

    def _text(self, item, number):
        """Returns line `number` as a text without surrogates."""
        text = plain(item)
        if text is None:
            kind = type(item).__name__
            raise TypeError(f"line {number}: a line must be a str or bytes, not {kind}")
        is_str = isinstance(text, str)
        try:
            return (text.encode(), text)[1] if is_str else text.decode()
        except UnicodeError as error:
            if self._is_strict:
                at = error.start if is_str else len(text[: error.start].decode())
                raise error_of(NOT_UTF8, 0, at, 0, "the line is not UTF-8", number) from None
        # Two halves of a pair become their character.
        data = text.encode("utf-16", "surrogatepass") if is_str else text
        mended = data.decode("utf-16" if is_str else "utf-8", "replace")
        self.replaced += mended.count(MARK[str]) - text.count(MARK[type(text)])
        return mended


def pieces(file):
    """Yields the lines of a file, about a megabyte at a time. Each result of a read is searched
    once, so a file may be read by the byte."""
    held, kind = [], None
    while True:
        part = file.read(BATCH)
        if part is None:
            raise BlockingIOError("the file has nothing to read now")
        text = plain(part)
        if text is not None and not text:
            break
        if not isinstance(text, kind or (str, bytes)):
            wanted = kind.__name__ if kind else "str or bytes"
            raise TypeError(f"a file's read() must return {wanted}, not {type(part).__name__}")
        kind = type(text)
        end = text.rfind(LINE_FEED[kind]) + 1
        if end:
            yield kind().join([*held, text[:end]])
            held, text = [], text[end:]
        held.append(text)
    if any(held):
        yield kind().join(held)


def file_of(text):
    """Returns a file of a text, whose lines end with line feeds alone."""
    return io.StringIO(text, newline="\n") if isinstance(text, str) else io.BytesIO(text)
