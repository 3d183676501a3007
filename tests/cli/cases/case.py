"""A test case of the programs: what a run finds, its command, and what it must do."""
import os
import re
from pathlib import Path
from typing import Callable, Mapping, NamedTuple, Sequence, Union

from support.running import SAMPLE

MATRIX, CHARS, UNK, LEXICON = (
    (SAMPLE / name).read_bytes() for name in ("matrix.def", "char.def", "unk.def", "lexicon.csv")
)

# The commands that compile the sources in the directory a, and a user dictionary, to new.img.
DEFINITIONS = "--matrix a/matrix.def --char a/char.def --unk a/unk.def"
SYSTEM = f"dictc system {DEFINITIONS} --out new.img"
USER = "dictc user --dic sys.img --out new.img"

# Erases a terminal from the cursor to the end of the line.
ERASED = "\x1b[K"


class Anything:
    """A file whose bytes a case does not give."""


ANY = Anything()


class RecordOf(NamedTuple):
    """The record of the tests of an image, as kumquatsieve-import writes it, with `old` replaced by
    `new`."""

    image: str
    old: str = ""
    new: str = ""

    def text(self, folder: Path) -> str:
        status = (folder / self.image).stat()
        second = 1_000_000_000
        lines = (
            "kumquatsieve-tested 1",
            f"device {os.major(status.st_dev)}:{os.minor(status.st_dev)}",
            f"inode {status.st_ino}",
            f"size {status.st_size}",
            f"mtime {status.st_mtime_ns // second}.{status.st_mtime_ns % second:09}",
            f"ctime {status.st_ctime_ns // second}.{status.st_ctime_ns % second:09}",
            f"sha256 {'0' * 64}",
        )
        return "".join(f"{line}\n" for line in lines).replace(self.old, self.new, 1)


class Has(NamedTuple):
    """Matches a text that starts with `start`, contains `words` and contains none of `lacks`."""

    start: str
    words: Sequence[str] = ()
    lacks: Sequence[str] = ()

    def fits(self, text: str) -> bool:
        return (
            text.startswith(self.start)
            and all(word in text for word in self.words)
            and not any(word in text for word in self.lacks)
        )

    def changed(self, change: Callable[[str], str]) -> "Has":
        """Returns the matcher with each of its texts changed."""
        words, lacks = tuple(map(change, self.words)), tuple(map(change, self.lacks))
        return type(self)(change(self.start), words, lacks)


class Exactly(Has):
    """Matches the text `start` alone, of any number of lines."""

    def fits(self, text: str) -> bool:
        return text == self.start


class Erased(Has):
    """Matches the progress line `start`, which is printed, erased and followed by the words.

    On a slow host the line is printed more than once, and lines with other numbers may come first.
    """

    def fits(self, text: str) -> bool:
        first, *lines = text.split("\r")
        if len(lines) < 2 or first or lines[-1] != ERASED + "".join(self.words):
            return False
        expected = without_numbers(self.start)
        return lines[-2] == self.start and all(
            without_numbers(line) == expected for line in lines[:-1]
        )


def without_numbers(line: str) -> str:
    return re.sub("[0-9]+", "0", line)


# What a run finds at a path: bytes, or that many bytes of 0; None for nothing, a Path for a link,
# {} for a directory.
Found = Union[bytes, int, None, Path, Mapping[str, bytes], RecordOf]
# What a run leaves at a path: bytes, the name of a file with the same bytes, ANY, or None.
Left = Union[bytes, str, None, Anything]
Files = Mapping[str, Found]
Changes = Mapping[str, Left]
# The text of standard output.
Expected = Union[str, bytes, Has]


class Conditions(NamedTuple):
    """What a run meets besides its arguments, its files and its text."""

    # text; file: a regular file with the text; directory; closed; failing: the reads after the text
    # fail; reset: the read after the text alone fails; slow: the second half of the text comes
    # after two seconds; entries: a lexicon of one entry more than a dictionary may have; feature: a
    # lexicon with a feature that is too long.
    stdin: str = "text"
    # kept; file; full; closed; unread: a pipe without a reader.
    stdout: str = "kept"
    # kept; full; terminal, whose text is kept too.
    stderr: str = "kept"
    # The size of the largest file in bytes, above which a write fails. 0: no limit.
    max_file: int = 0
    # Whether a larger file kills the run.
    killed: bool = False
    # The address space that it may allocate, in bytes. 0: no limit.
    memory: int = 0
    # The call of the C library that fails: rename, fsync, write, interrupted write (the first one
    # alone) or fchmod; or slow read: the second read of a file takes more than two seconds.
    fails: str = ""
    # Whether its large blocks of memory repeat, so that they take few bytes.
    repeats: bool = False
    # The seconds after which it has failed.
    seconds: int = 60
    # A file that exists; {pid} in its name is the number of the process.
    existing: str = ""
    # Environment variables; HERE is the directory that it runs in.
    variables: Mapping[str, str] = {}


class Case(NamedTuple):
    """A run in a new directory.

    The directory `a` in it has the sources of the sample, sys.img is their image, user.img and
    second.img are images of user dictionaries for it, and user.csv is the lexicon of the first.

    The programs are installed to PREFIX, and as bare-jseg to PREFIX/bare, which has no images. In
    PREFIX, the images `both` and `made` were made at run time, and `installed` came with the
    programs, beside a `both` that is damaged. In commands, and in texts that are printed, HERE is
    the directory of the run.
    """

    name: str
    # The program and its arguments, quoted for a shell.
    command: str
    # Standard input and standard output.
    text: Union[str, bytes] = ""
    out: Expected = ""
    # Standard error: one line after the program's name and `: `, or a matcher of all of it.
    err: Union[str, Has] = ""
    status: int = 0
    # What the directory has besides, by paths.
    files: Files = {}
    # What the run changes, by paths.
    changes: Changes = {}
    # The permissions of files, which are the same after the run.
    modes: Mapping[str, int] = {}
    # A second command. It gets the text, and its output follows.
    second: str = ""
    conditions: Conditions = Conditions()
