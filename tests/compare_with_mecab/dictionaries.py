"""Dictionaries that dictc and mecab-dict-index compile from the same sources."""
import os
import shutil
import sys
from pathlib import Path
from typing import Iterable, NamedTuple, Optional, Union

from support.running import program

Command = list[Union[str, Path]]
# Debian's folders of sources and its names of them: mecab-ipadic, mecab-jumandic-utf8,
# mecab-naist-jdic and unidic-mecab.
DICTIONARIES = Path("/usr/share/mecab/dic")
NAMES = ["ipadic", "juman", "naist-jdic", "unidic"]
ENCODINGS = ["utf-8", "euc_jp", "cp932"]
DEFINITIONS = ["matrix.def", "char.def", "unk.def"]
MECAB_DEFINITIONS = DEFINITIONS + [
    "left-id.def",
    "right-id.def",
    "pos-id.def",
    "rewrite.def",
    "feature.def",
]
DICRC = "cost-factor = 800\nbos-feature = BOS/EOS\neval-size = 8\nunk-eval-size = 4\n"
WAKATI = ["-O", "wakati"]


class Programs(NamedTuple):
    """The programs that compile dictionaries and segment texts."""

    dictc: Path = program("dictc")
    jseg: Path = program("jseg")
    mecab: str = "mecab"
    mecab_dict_index: str = "/usr/lib/mecab/mecab-dict-index"


class Pair(NamedTuple):
    """A command of this repository, and the command of MeCab's that does the same work."""

    ours: Command
    theirs: Command


class Sources:
    """The sources of a dictionary in UTF-8, for both compilers.

    `ours` is a folder as dictc reads it. `theirs` has the lexicons joined into one, in byte order
    of their names, because mecab-dict-index reads them in the order of the directory. `image` is
    the path of the image that dictc compiles, and `mecab` the folder of MeCab's dictionary.
    """

    def __init__(self, source: Path, folder: Path) -> None:
        self.ours, self.theirs = folder / "sources", folder / "joined"
        self.mecab, self.image = folder / "mecab", folder / "system.img"
        for made in (self.ours, self.theirs, self.mecab):
            made.mkdir()
        self.lexicons = self._write_lexicons(source)
        for name in MECAB_DEFINITIONS:
            if (source / name).exists():
                write_in_utf8(source / name, self.theirs / name)
        for name in DEFINITIONS:
            os.link(self.theirs / name, self.ours / name)
        for target in (self.theirs, self.mecab):
            (target / "dicrc").write_text(DICRC)

    def _write_lexicons(self, source: Path) -> list[Path]:
        """Writes each lexicon for dictc and all of them joined, and returns the former."""
        names = sorted((path.name for path in source.glob("*.csv")), key=os.fsencode)
        lexicons = [self.ours / name for name in names]
        with open(self.theirs / "all.csv", "wb") as joined:
            for path in lexicons:
                write_in_utf8(source / path.name, path)
                joined.write(path.read_bytes())
        return lexicons

    def compilers(self, programs: Programs) -> Pair:
        """Returns the commands that compile the dictionary."""
        ours: Command = [programs.dictc, "system"]
        for name in DEFINITIONS:
            ours += ["--" + name.removesuffix(".def"), self.ours / name]
        ours += ["--out", self.image, *self.lexicons]
        theirs: Command = [programs.mecab_dict_index, "-d", self.theirs, "-o", self.mecab]
        return Pair(ours, [*theirs, *"-f UTF-8 -t UTF-8 -c UTF-8".split()])

    def segmenters(self, programs: Programs, options: Iterable[str]) -> Pair:
        """Returns the commands that segment standard input with these options."""
        ours: Command = [programs.jseg, "-d", self.image, *options]
        theirs: Command = [programs.mecab, "-r", "/dev/null", "-d", self.mecab, "-b", "1100000"]
        return Pair(ours, [*theirs, *options])

    def surfaces(self) -> list[str]:
        """Returns the surfaces that are written without quotes."""
        lines = (line for path in self.lexicons for line in path.read_text().split("\n"))
        found = [line.split(",", 1)[0] for line in lines]
        return [surface for surface in found if surface and '"' not in surface]


def folder_of(name: str) -> Optional[Path]:
    """Returns the folder of a dictionary's sources, or None if it is not installed.

    `name` is a path, or one of NAMES.
    """
    folders = [Path(name)]
    if "/" not in name:
        folders = [DICTIONARIES / name, *sorted(DICTIONARIES.glob(f"{name}-*"))]
    return next((folder for folder in folders if (folder / "matrix.def").exists()), None)


def write_in_utf8(source: Path, target: Path) -> None:
    """Writes the text of `source` to `target` in UTF-8.

    Its encoding is the first of ENCODINGS in which it is valid. If there is none, lines that are
    not UTF-8 are left out, and their number is printed. If these are most lines, this script ends.
    """
    if any(is_converted(source, target, encoding) for encoding in ENCODINGS):
        return
    lines = source.read_bytes().splitlines(keepends=True)
    kept = [line for line in lines if decoded(line) is not None]
    if len(kept) * 2 < len(lines):
        sys.exit(f"{source}: none of {', '.join(ENCODINGS)}")
    target.write_bytes(b"".join(kept))
    print(f"{source}: {len(lines) - len(kept)} lines that are not UTF-8 are left out", flush=True)


def is_converted(source: Path, target: Path, encoding: str) -> bool:
    """Writes `source` to `target` in UTF-8. Returns False if it is not valid in `encoding`."""
    try:
        with open(source, encoding=encoding, newline="") as reading, open(
            target, "w", encoding="utf-8", newline=""
        ) as writing:
            shutil.copyfileobj(reading, writing, 2**20)
        return True
    except UnicodeDecodeError:
        return False


def decoded(line: bytes) -> Optional[str]:
    """Returns the characters of a line, or None if it is not UTF-8."""
    try:
        return line.decode()
    except UnicodeDecodeError:
        return None
