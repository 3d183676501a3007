"""Dictionaries that both compile, and the options that choose and compile them."""
import argparse
import tempfile
from pathlib import Path
from typing import Callable, NamedTuple

from compare_with_mecab.dictionaries import NAMES, WAKATI, Pair, Programs, Sources, folder_of
from measure.host import Host
from measure.rows import MB
from measure.runs import in_turn
from measure.texts import japanese, written

# The output formats whose search is measured, by their options.
FORMATS: dict[str, list[str]] = {"wakati": WAKATI, "default": []}
# The option without which jseg and pjseg test the checksum of an image.
SKIP = "--skip-digest"


class Compared(NamedTuple):
    """A dictionary that is measured: its sources, in a folder for everything that is made of it."""

    name: str
    sources: Sources
    folder: Path
    options: argparse.Namespace

    @property
    def programs(self) -> Programs:
        return programs_of(self.options)

    def compile(self) -> None:
        """Compiles it by both programs, unless they did."""
        if not self.sources.image.exists():
            in_turn(self.sources.compilers(self.programs), 1)

    def segmenters(self, words: list[str]) -> Pair:
        """Returns the commands of jseg and mecab, with the same output options."""
        return self.sources.segmenters(self.programs, words)

    def text(self, size: int) -> Path:
        """Writes a text of `size` bytes and returns its path."""
        return written(self.folder, "text", japanese(size))


def programs_of(options: argparse.Namespace) -> Programs:
    return Programs(options.dictc, options.jseg, options.mecab, options.mecab_dict_index)


def add_program_options(parser: argparse.ArgumentParser) -> None:
    """Adds the options of each benchmark that runs dictc, jseg and MeCab's programs."""
    programs = Programs()
    parser.add_argument(
        "--rounds", type=int, default=5, metavar="N", help="how often each command is run"
    )
    parser.add_argument("--dictc", type=Path, default=programs.dictc)
    parser.add_argument("--jseg", type=Path, default=programs.jseg)
    parser.add_argument("--mecab", default=programs.mecab)
    parser.add_argument("--mecab-dict-index", default=programs.mecab_dict_index)


def add_names(parser: argparse.ArgumentParser) -> None:
    parser.add_argument(
        "names",
        nargs="*",
        default=NAMES,
        metavar="NAME",
        help=f"folders of sources, or Debian's: {', '.join(NAMES)}",
    )


def add_text_options(parser: argparse.ArgumentParser) -> None:
    parser.add_argument(
        "--bytes", type=int, default=5 * MB, metavar="N", help="the length of the text"
    )


def measure_each(options: argparse.Namespace, measure: Callable[[Compared], None]) -> int:
    """Calls `measure` with each dictionary, and prints what the host did meanwhile.

    A dictionary that is not installed is reported as left out.
    """
    for name in options.names:
        source = folder_of(name)
        if source is None:
            print(f"\n{name}: left out, not installed")
            continue
        with tempfile.TemporaryDirectory() as folder, Host():
            measure(Compared(name, Sources(source, Path(folder)), Path(folder), options))
    return 0
