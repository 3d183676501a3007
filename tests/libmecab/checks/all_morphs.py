"""The whole lattice: each of its nodes, and what the program mecab prints of all nodes.

The dictionary is IPADIC. It is compiled for both libraries from the same sources in the same order,
because that is the order of the words of one surface.
"""
from pathlib import Path

from libmecab.checks.context import Context
from libmecab.checks.dictionaries import compiled_dictionary, installed_folder

ITEMS = "%pb%m %pi %h %phl %phr %t %s %c %pw %pc %pC %pn %ps %pe %H\\n"
OPTIONS: list[list[str]] = [
    [],
    ["-Owakati"],
    ["-Onone"],
    ["-Ochasen"],
    ["-N1"],
    ["-x", "x,y"],
    ["-F", ITEMS, "-E", "%pi\\n"],
]
# What IPADIC's char.def has as blanks, and can end a line. If only blanks are left, MeCab prints a
# node of a blank after the sentence.
BLANKS = " \t\v\f\r\u00d0"


def ipadic(context: Context) -> Path:
    """Returns IPADIC, as the context's library reads it."""
    return compiled_dictionary(context, "ipadic-for-both", installed_folder("ipadic"))


def without_last_blanks(lines: Path, folder: Path) -> Path:
    """Returns the path of a file of the lines without the blanks at their ends."""
    path = folder / "lines-without-last-blanks"
    kept = [f"{line.rstrip(BLANKS)}\n" for line in lines.read_text().split("\n")[:-1]]
    path.write_text("".join(kept))
    return path


def lattice_output(context: Context, *users: str) -> bytes:
    """Returns the lattices of the lines. `users` are user dictionaries, divided by commas."""
    return context.run([context.client("lattices.c"), ipadic(context), context.lines, *users])


def all_morphs_output(context: Context) -> bytes:
    """Returns what `mecab -a` prints by each row of options."""
    few, dictionary = without_last_blanks(context.lines, context.folder), ipadic(context)
    outputs = [context.run(["mecab", "-a", "-d", dictionary, *words, few]) for words in OPTIONS]
    return b"".join(outputs)
