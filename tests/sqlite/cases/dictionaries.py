"""Dictionaries as images, and as MeCab compiles them from the same sources."""
import os
import subprocess
import sys
from pathlib import Path
from typing import NamedTuple, Optional

from compare_with_mecab.dictionaries import DICRC, Programs, Sources, folder_of
from support.running import IMPORTER, program, run

# The numbers of the fields with the base form, from 0, and Debian's packages of the sources.
BASE_FIELDS = {"ipadic": 6, "naist-jdic": 6, "juman": 4, "unidic": 10}
PACKAGES = {
    "ipadic": "mecab-ipadic",
    "naist-jdic": "mecab-naist-jdic",
    "juman": "mecab-jumandic-utf8",
    "unidic": "unidic-mecab",
}
# The import of UniDic takes over a minute, so it is compared only if its image is given.
UNIDIC_HELP = "also compare with UniDic; its import takes over a minute, so IMAGE is given"
# Debian's package has UniDic compiled. Its one lexicon is in UTF-8, so this is what MeCab makes of
# the sources here, in 80 s.
COMPILED = {"unidic": Path("/var/lib/mecab/dic/unidic")}
COMPILED_FILES = ("char.bin", "matrix.bin", "sys.dic", "unk.dic")


class Dictionary(NamedTuple):
    """An image, and the folder of MeCab's dictionary. `base_field` is the number of a field."""

    name: str
    image: Path
    mecab: Path
    base_field: int

    def command(self) -> list[str]:
        """Returns the command of MeCab."""
        return ["mecab", "-r", "/dev/null", "-d", str(self.mecab), "-b", "1100000"]


def link_compiled(compiled: Path, folder: Path) -> Path:
    """Links a compiled dictionary into a new folder. Its own dicrc would set an output format."""
    folder.mkdir()
    for name in COMPILED_FILES:
        (folder / name).symlink_to(compiled / name)
    (folder / "dicrc").write_text(DICRC)
    return folder


def compile_by_mecab(name: str, source: Path, folder: Path) -> Path:
    """Returns the folder of MeCab's dictionary."""
    compiled = COMPILED.get(name)
    if compiled and all((compiled / file).exists() for file in COMPILED_FILES):
        return link_compiled(compiled, folder / "compiled")
    sources = Sources(source, folder)
    run(sources.compilers(Programs()).theirs, stderr=subprocess.DEVNULL)
    return sources.mecab


def make_dictionary(name: str, folder: Path) -> Optional[Dictionary]:
    """Makes an image and MeCab's dictionary. Returns None if the sources are not installed.

    An image that is in the folder is taken.
    """
    source = folder_of(name)
    if source is None:
        return None
    own, image = folder / f"mecab-{name}", folder / f"{name}.img"
    own.mkdir()
    if not image.exists():
        path = f"{program('dictc').parent}:{program('jseg').parent}:{os.environ['PATH']}"
        environment = {**os.environ, "PATH": path}
        run([IMPORTER, source, image], stderr=subprocess.DEVNULL, env=environment)
    return Dictionary(name, image, compile_by_mecab(name, source, own), BASE_FIELDS[name])


def chosen_names(unidic: Optional[Path], folder: Path) -> list[str]:
    """Returns the names of the dictionaries that are compared. Links UniDic's image, if given."""
    if unidic:
        (folder / "unidic.img").symlink_to(unidic.resolve())
    else:
        print("unidic is only compared with --unidic IMAGE", file=sys.stderr, flush=True)
    return [name for name in PACKAGES if unidic or name != "unidic"]
