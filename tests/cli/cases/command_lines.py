"""Command lines: help, and command lines that are rejected."""
import re
from pathlib import Path

from .case import DEFINITIONS, LEXICON, SYSTEM, USER, Case, Files, Has


class Helped(Has):
    """Matches a help that starts with a text, and has one after each option and subcommand."""

    def fits(self, text: str) -> bool:
        lines = re.findall("^ {2,}.*", text, re.M)
        are_helped = all(re.search(r"\S {2,}[A-Z]", line) for line in lines)
        return super().fits(text) and are_helped and not text.startswith(("\n", "Usage: "))


# (command, what the text contains)
HELP = [
    ("dictc --help", ("system", "user")),
    ("dictc -h", ("system", "user")),
    (
        "dictc system --help",
        ("--matrix <FILE>", "--char <FILE>", "--unk <FILE>", "--out <IMG>", "<LEX>..."),
    ),
    ("dictc user --help", ("--dic <IMG>", "--out <IMG>", "<LEX>...")),
    ("dictc ids --help", ("--dic <IMG>", "-u <IMG>", "<FEATURE>")),
    (
        "jseg --help",
        (
            "-d <IMG>",
            "-u <IMG>",
            "--sources <DIR>",
            "--sample",
            "-M <N>",
            "-O <NAME>",
            "-F <",
            "-U <",
            "-B <",
            "-E <",
            "--lattice <FORM>",
            "--within <N>",
            "--why",
        ),
    ),
    ("jseg -d none.img --help", ("--sources <DIR>",)),
]

WRONG = [
    # (what, command)
    ("no subcommand", "dictc"),
    ("another subcommand", "dictc delete"),
    ("an option of none", "dictc --out new.img a/lexicon.csv"),
    ("no matrix", f"{SYSTEM.replace('--matrix a/matrix.def', '')} a/lexicon.csv"),
    ("no categories", f"{SYSTEM.replace('--char a/char.def', '')} a/lexicon.csv"),
    ("no unknown words", f"{SYSTEM.replace('--unk a/unk.def', '')} a/lexicon.csv"),
    ("no image to write", f"dictc system {DEFINITIONS} a/lexicon.csv"),
    ("no lexicon", SYSTEM),
    ("a system for a system", f"{SYSTEM} --dic sys.img a/lexicon.csv"),
    ("an option twice", f"{SYSTEM} --out other.img a/lexicon.csv"),
    ("a value that is missing", f"{SYSTEM} a/lexicon.csv --unk"),
    ("a user for no system", "dictc user --out new.img user.csv"),
    ("a user without an image", "dictc user --dic sys.img user.csv"),
    ("a user without a lexicon", USER),
    ("a user with a matrix", f"{USER} --matrix a/matrix.def user.csv"),
    ("ids of no image", "dictc ids 名詞"),
    ("ids of no part of speech", "dictc ids --dic sys.img"),
    ("ids of two parts of speech", "dictc ids --dic sys.img 名詞 動詞"),
    ("no dictionary", "jseg"),
    ("options alone", "jseg -O wakati -M 3"),
    ("an image and the sample", "jseg -d sys.img --sample"),
    ("an image and sources", "jseg -d sys.img --sources a"),
    ("sources and the sample", "jseg --sources a --sample"),
    ("a user alone", "jseg -u user.img"),
    ("a user of the sample", "jseg --sample -u user.img"),
    ("a user of sources", "jseg --sources a -u user.img"),
    ("two images", "jseg -d sys.img -d sys.img"),
    ("sources twice", "jseg --sources a --sources a"),
    ("the sample twice", "jseg --sample --sample"),
    ("a format twice", "jseg --sample -F a -F b"),
    ("another output", "jseg --sample -O yomi"),
    ("outputs twice", "jseg --sample -O wakati -O wakati"),
    ("grouping above 1,000", "jseg --sample -M 1001"),
    ("grouping below 0", "jseg --sample -M -1"),
    ("grouping of no number", "jseg --sample -M x"),
    ("grouping twice", "jseg --sample -M 1 -M 1"),
    ("a word", "jseg --sample text"),
    ("an unknown option", "jseg --sample --simple"),
    ("no image's name", "jseg -d"),
]

# What is missing. (command, what is printed)
MISSING = [
    ("dictc", "a subcommand is required: 'dictc system', 'dictc user' or 'dictc ids'"),
    ("jseg", "a dictionary is required: -d IMG, --sources DIR or --sample"),
    ("jseg --sample --within 5", "--within N requires --lattice FORM"),
]

# Control characters of an argument are escaped. (command, how the message starts)
CONTROLS = [
    ("jseg '--x\x1b[2J'", r"unexpected argument '--x\u{1b}[2J' found"),
    ("jseg '--a\nb' -d sys.img", r"unexpected argument '--a\nb' found"),
    ("jseg '-\x7f'", r"unexpected argument '-\u{7f}' found"),
    ("jseg --sample -M '\r7'", r"invalid value '\r7' for '-M <N>': "),
    ("jseg --sample -M '7\n'", r"invalid value '7\n' for '-M <N>': "),
    ("jseg --explain 'L4\n\x9b'", r"no error has the code or name 'L4\n\u{9b}'"),
    ("dictc 'sys\ttem'", r"unrecognized subcommand 'sys\ttem'"),
    ("dictc system '--mat\nrix' a/matrix.def", r"unexpected argument '--mat\nrix' found"),
]

# The name of a file that starts as an option does. (command, the name)
DASHES = [
    (f"{SYSTEM} -x.csv", "-x.csv"),
    (f"{SYSTEM} a/lexicon.csv -v.csv", "-v.csv"),
    (f"{SYSTEM} --lexicon.csv", "--lexicon.csv"),
    (f"{SYSTEM} '-\x1b.csv'", r"-\u{1b}.csv"),
    (f"dictc system {DEFINITIONS} --out -new a/lexicon.csv", "-new"),
    ("dictc user --out new.img user.csv --dic -sys.img", "-sys.img"),
    ("jseg -d -x.img", "-x.img"),
    ("jseg -d sys.img -u -x", "-x"),
    ("jseg --sources -a", "-a"),
]

# An image that would replace a file that is read. Nothing is lost.
SPARE: Files = {"spare.csv": LEXICON, "link.img": Path("sys.img"), "link": Path("a")}
INPUTS = [
    # (command, the path that is printed)
    ("dictc user --dic sys.img --out sys.img user.csv", "sys.img"),
    ("dictc user --dic sys.img --out user.csv user.csv", "user.csv"),
    ("dictc user --dic sys.img --out spare.csv user.csv spare.csv", "spare.csv"),
    ("dictc user --dic sys.img --out ./sys.img user.csv", "./sys.img"),
    ("dictc user --dic ./a/../sys.img --out sys.img user.csv", "sys.img"),
    ("dictc user --dic sys.img --out link.img user.csv", "link.img"),
    ("dictc user --dic link.img --out sys.img user.csv", "sys.img"),
    ("dictc user --dic none.img --out none.img user.csv", "none.img"),
    (f"dictc system {DEFINITIONS} --out a/matrix.def a/lexicon.csv", "a/matrix.def"),
    (f"dictc system {DEFINITIONS} --out a/char.def a/lexicon.csv", "a/char.def"),
    (f"dictc system {DEFINITIONS} --out a/unk.def a/lexicon.csv", "a/unk.def"),
    (
        f"dictc system {DEFINITIONS} --out link/lexicon.csv spare.csv a/lexicon.csv",
        "link/lexicon.csv",
    ),
]


def dash_case(command: str, name: str) -> Case:
    """Returns a run that prints how to give the name of a file."""
    tip = f"tip: for the file '{name}' write './{name}'"
    return Case(
        f"{name} as a file", command, "も\n", err=Has(f"{command.split()[0]}: ", (tip,)), status=2
    )


CASES = [
    *(Case(command, command, out=Helped("", ("Usage: ", *texts))) for command, texts in HELP),
    *(
        Case(what, command, "も\n", err=Has(f"{command.split()[0]}: "), status=2)
        for what, command in WRONG
    ),
    *(
        Case(
            f"{message}, {command.split()[0]}",
            command,
            "も\n",
            err=Has(f"{command.split()[0]}: {message}"),
            status=2,
        )
        for command, message in CONTROLS
    ),
    *(
        Case(
            f"{command}: {message}",
            command,
            "も\n",
            err=Has(f"{command.split()[0]}: {message}\n"),
            status=2,
        )
        for command, message in MISSING
    ),
    *(dash_case(*row) for row in DASHES),
    Case(
        "the tip is right",
        f"{SYSTEM} ./-x.csv",
        out="3 entries, 0 skipped\n",
        files={"-x.csv": LEXICON},
        changes={"new.img": "sys.img"},
    ),
    Case(
        "an argument that is not UTF-8",
        "jseg --sample -F \udcff",
        err="an argument is not UTF-8",
        status=2,
    ),
    Case(
        "a path that is not UTF-8", f"{SYSTEM} \udcff.csv", err="an argument is not UTF-8", status=2
    ),
    *(
        Case(
            command,
            command,
            err=f"--out would overwrite an input file: {message}",
            status=2,
            files=SPARE,
        )
        for command, message in INPUTS
    ),
]
