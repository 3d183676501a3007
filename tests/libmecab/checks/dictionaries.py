"""Debian's Juman and NAIST: each format of their dicrc, and each field of each node."""
import re
from pathlib import Path
from typing import Callable

from compare_with_mecab.dictionaries import Programs, Sources, folder_of, write_in_utf8
from libmecab.checks.common import INDEX
from libmecab.checks.context import Context
from support.running import run

NAMES = ("juman", "naist-jdic")


def compile_for_both(source: Path, folder: Path) -> None:
    """Compiles MeCab's dictionary and our image from the same sources in the same order.

    The settings of the sources are stored next to both. They are compiled once for each folder.
    """
    if folder.exists():
        return
    folder.mkdir()
    sources = Sources(source, folder)
    for command in sources.compilers(Programs(mecab_dict_index=str(INDEX))):
        run(command)
    write_in_utf8(source / "dicrc", sources.mecab / "dicrc")
    write_in_utf8(source / "dicrc", sources.image.with_suffix(".dicrc"))
    if (source / "pos-id.def").exists():
        write_in_utf8(source / "pos-id.def", sources.image.with_suffix(".pos-id.def"))


def compiled_dictionary(context: Context, name: str, source: Path) -> Path:
    """Returns the dictionary of these sources, as the context's library reads it."""
    folder = context.folder / name
    compile_for_both(source, folder)
    return folder / ("system.img" if context.is_ours else "mecab")


def is_installed(name: str) -> bool:
    """Returns whether a dictionary's sources and MeCab's compiler are installed."""
    return folder_of(name) is not None and INDEX.exists()


def installed_folder(name: str) -> Path:
    """Returns the folder of a dictionary's sources, which are installed."""
    folder = folder_of(name)
    assert folder is not None, name
    return folder


def output_over(name: str) -> Callable[[Context], bytes]:
    """Returns a client: the program mecab over a dictionary, and each field of each node."""

    def output(context: Context) -> bytes:
        few = context.first_lines(3000)
        dictionary = compiled_dictionary(context, name, installed_folder(name))
        dicrc = dictionary.with_name("system.dicrc").read_text()
        types = re.findall(r"^node-format-(\w+)", dicrc, re.MULTILINE)
        formats: list[list[str]] = [[], *([f"-O{each}"] for each in types)]
        outputs = [context.run(["mecab", "-d", dictionary, *words, few]) for words in formats]
        fields = context.run([context.client("node_fields.c"), dictionary, few])
        return b"".join(outputs) + fields

    return output
