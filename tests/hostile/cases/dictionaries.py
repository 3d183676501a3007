"""System dictionaries, compiled from sources that a case writes."""
from pathlib import Path
from typing import NamedTuple, Union

from support.running import run

# A run of KATAKANA or KANJI is unknown words of one character each if it is longer than the
# grouping.
CATEGORIES = """\
DEFAULT 0 1 0
SPACE 0 1 0
KATAKANA 1 1 0
ALPHA 0 0 1
HIRAGANA 1 0 15
KANJI 1 1 0
OTHER 0 1 0
"""
MAPPINGS = """\
0x0020 SPACE
0x0061..0x007A ALPHA
0x3041..0x309F HIRAGANA
0x30A1..0x30FF KATAKANA
0x4E00..0x9FFF KANJI
"""
NAMES = ("DEFAULT", "SPACE", "KATAKANA", "ALPHA", "HIRAGANA", "KANJI", "OTHER")


class Sources(NamedTuple):
    """The sources of a system dictionary.

    By default connections cost 0, there are ids below 2, and each category has one unknown entry,
    which costs 1,000.
    """

    lexicon: str
    matrix: str = "2 2\n"
    char: str = CATEGORIES + MAPPINGS
    unk: str = "".join(f"{name},1,1,1000,x\n" for name in NAMES)

    def compiled(self, dictc: Path, folder: Path) -> Path:
        """Compiles the sources in a new folder and returns the path of the image."""
        folder.mkdir(parents=True)
        sources = {"matrix": self.matrix, "char": self.char, "unk": self.unk}
        for name, text in {**sources, "lexicon": self.lexicon}.items():
            (folder / f"{name}.def").write_text(text)
        command: list[Union[str, Path]] = [dictc, "system"]
        for name in sources:
            command += [f"--{name}", folder / f"{name}.def"]
        image = folder / "system.img"
        run([*command, "--out", image, folder / "lexicon.def"])
        return image
