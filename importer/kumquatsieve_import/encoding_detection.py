"""Finds the encoding of the sources, from all files together.

Only lines with more than ASCII, or with an escape character, are evidence. If all of these lines
are in one encoding only, it is that one. If they are in several, as with a few characters, dicrc
decides. If they are in none, it is the encoding of by far most lines, and the other lines are left
out. Anything else is rejected, and so is what could only be guessed: half-width kana for most of a
text, as CP932 decodes EUC-JP, and escape sequences of ISO-2022-JP.
"""
import re
from typing import Dict, Iterator, Optional, Sequence, Tuple

from .encodings import CHOICES, CP932, EUC_JIS_2004, EUC_JP, ISO_2022_JP, UTF_8, Encoding
from .errors import INVALID, Error, printable
from .progress import Reporter
from .sources import Source

ESCAPE = b"\x1b"
ISO_2022_ESCAPE = re.compile(rb"\x1b[$(]")
LONG_CHARACTER = re.compile(rb"[\xe0-\xf4]")
HALF_WIDTH = re.compile("[\uff61-\uff9f]")
# An encoding is dropped if more lines than this, and more than half of all, are not in it.
ENOUGH = 100
# The nearest encoding has to leave out this many times fewer lines than the next one.
MARGIN = 4
AMBIGUOUS = "the encoding is ambiguous, choose one with --encoding"

# A line, and its place in its chunk, counted from 0.
NumberedLine = Tuple[int, bytes]


class Candidate:
    """An encoding, and how the lines so far fit it."""

    def __init__(self, encoding: Encoding) -> None:
        self.encoding = encoding
        # How many lines of each file are not in the encoding, and the first of all.
        self.misfits: Dict[bytes, int] = {}
        self.first: Optional[Tuple[bytes, int]] = None
        self.is_dropped = False
        # Of CP932: how many characters there are beyond ASCII, and how many are half-width kana.
        self.characters = 0
        self.half_width = 0
        # Of UTF-8: whether there is a character of three bytes or more.
        self.has_long = False

    def misfit_count(self) -> int:
        return sum(self.misfits.values())

    def is_likely(self) -> bool:
        """Returns whether it isn't CP932 with half-width kana for most characters."""
        return self.encoding is not CP932 or self.half_width * 2 <= self.characters

    def fits(self) -> bool:
        return not self.misfits and self.is_likely()

    def try_text(self, data: bytes) -> bool:
        """Returns whether a text is in the encoding, and counts its characters if so."""
        try:
            text = self.encoding.decode(data)
        except ValueError:
            return False
        if self.encoding is CP932:
            self.characters += sum(map(len, re.findall("[^\x00-\x7f]+", text)))
            self.half_width += len(HALF_WIDTH.findall(text))
        if self.encoding is UTF_8 and not self.has_long:
            self.has_long = LONG_CHARACTER.search(data) is not None
        return True

    def examine(
        self, source: Source, number: int, chunk: bytes, evidence: Sequence[NumberedLine]
    ) -> None:
        """Counts the lines of `evidence` that are not in the encoding.

        `number` is the number of the chunk's first line in the source.
        """
        if self.is_dropped or self.try_text(chunk):
            return
        for at, line in evidence:
            if not self.try_text(line):
                self.first = self.first or (source.path, number + at)
                self.misfits[source.path] = self.misfits.get(source.path, 0) + 1

    def summary(self) -> str:
        """Returns how the sources fit, for a message."""
        if self.first is None:
            verdict = "fits" if self.is_likely() else "would give half-width kana"
            return f"{self.encoding.name} {verdict}"
        path, line = self.first
        return f"{self.encoding.name} first fails at {printable(path)}:{line}"


class Detection:
    """The candidates, and the evidence of all sources so far."""

    def __init__(self, encodings: Sequence[Encoding]) -> None:
        self.candidates = [Candidate(encoding) for encoding in encodings]
        # The number of lines with evidence in each file.
        self.lines: Dict[bytes, int] = {}
        # The first line with an escape sequence of ISO-2022-JP.
        self.escape: Optional[Tuple[bytes, int]] = None

    def examine(self, source: Source) -> Iterator[int]:
        """Examines a file, and yields the size of each chunk."""
        for number, chunk in source.chunks():
            if not chunk.isascii() or ESCAPE in chunk:
                self.examine_chunk(source, number, chunk)
            yield len(chunk)

    def examine_chunk(self, source: Source, number: int, chunk: bytes) -> None:
        lines = enumerate(chunk.split(b"\n"))
        evidence = [(at, line) for at, line in lines if not line.isascii() or ESCAPE in line]
        self.lines[source.path] = self.lines.get(source.path, 0) + len(evidence)
        if self.escape is None and ISO_2022_ESCAPE.search(chunk):
            escapes = (at for at, line in evidence if ISO_2022_ESCAPE.search(line))
            self.escape = next(((source.path, number + at) for at in escapes), None)
        for candidate in self.candidates:
            candidate.examine(source, number, chunk, evidence)
        self.drop_misfits()

    def drop_misfits(self) -> None:
        """Drops each encoding that most lines are not in, unless it is the only one."""
        seen = sum(self.lines.values())
        for candidate in self.candidates if len(self.candidates) > 1 else ():
            count = candidate.misfit_count()
            if count > ENOUGH and count * 2 > seen:
                candidate.is_dropped = True

    def decide(self, in_dicrc: Optional[Encoding]) -> Optional[Candidate]:
        """Returns the encoding that the evidence and dicrc decide on, or None."""
        fitting = [
            one
            for one in self.candidates
            if one.fits() and (one.encoding is not EUC_JIS_2004 or in_dicrc is EUC_JIS_2004)
        ]
        long = [one for one in fitting if one.encoding is UTF_8 and one.has_long]
        named = [one for one in fitting if one.encoding is in_dicrc]
        if long or named:
            chosen = {id(one): one for one in long + named}
            return next(iter(chosen.values())) if len(chosen) == 1 else None
        if fitting:
            return fitting[0] if len(fitting) == 1 else None
        return self.nearest(in_dicrc)

    def nearest(self, in_dicrc: Optional[Encoding]) -> Optional[Candidate]:
        """Returns the encoding of by far most lines, or None if there is none."""
        seen = sum(self.lines.values())
        near = [
            one
            for one in self.candidates
            if one.is_likely() and not one.is_dropped and one.misfit_count() * 2 < seen
        ]
        named = [one for one in near if one.encoding is in_dicrc]
        if named:
            return named[0]
        counts = {one.encoding: one.misfit_count() for one in near}
        if counts.get(EUC_JIS_2004, 0) < counts.get(EUC_JP, 0):
            return None
        near = [one for one in near if one.encoding is not EUC_JIS_2004]
        near.sort(key=Candidate.misfit_count)
        if not near:
            return None
        is_clear = len(near) == 1 or near[0].misfit_count() * MARGIN <= near[1].misfit_count()
        return near[0] if is_clear else None

    def check_files(self, chosen: Candidate) -> None:
        """Rejects a file of which at least half the lines are not in the encoding of the others."""
        for path, count in chosen.misfits.items():
            if count * 2 >= self.lines[path]:
                raise Error(
                    INVALID,
                    f"{printable(path)}: {count} of {self.lines[path]} non-ASCII lines "
                    f"are not {chosen.encoding.name}: all files must have the same encoding, "
                    f"which --encoding can set to {CHOICES}",
                )

    def choose(self, in_dicrc: Optional[Encoding], folder: bytes) -> Candidate:
        """Returns the encoding of the sources. `folder` is the path that an error names."""
        if self.escape and in_dicrc is not ISO_2022_JP:
            path, line = self.escape
            raise Error(
                INVALID,
                f"{printable(path)}:{line} has an escape sequence of ISO-2022-JP: "
                "use --encoding iso-2022-jp, or the encoding that the file has",
            )
        if not self.lines:
            return self.candidates[0]
        if self.escape:
            return self.candidates[-1]
        chosen = self.decide(in_dicrc)
        if chosen is None:
            summaries = "; ".join(one.summary() for one in self.candidates)
            raise Error(INVALID, f"{printable(folder)}: {AMBIGUOUS}: {summaries}")
        return chosen


def find_encoding(
    sources: Sequence[Source],
    given: Optional[Encoding],
    in_dicrc: Optional[Encoding],
    folder: bytes,
    reporter: Reporter,
) -> Encoding:
    """Returns the encoding of the sources: the one that --encoding gives, or the one found.

    Rejects a file in another encoding either way. `folder` is the path that an error names.
    """
    encodings = [given] if given else [UTF_8, EUC_JP, EUC_JIS_2004, CP932]
    if not given and in_dicrc is ISO_2022_JP:
        encodings.append(ISO_2022_JP)
    detection = Detection(encodings)
    size, done = sum(source.size for source in sources), 0
    for source in sources:
        for count in detection.examine(source):
            done += count
            reporter.log_progress("detecting the encoding", done, size)
    chosen = detection.candidates[0] if given else detection.choose(in_dicrc, folder)
    detection.check_files(chosen)
    return chosen.encoding
