"""Reasons beside an error: why an image can't be written, and which field of a line has no number.

They are printed on a terminal and with -v alone.
"""
from typing import Iterator, List, Tuple

from .case import ANY, SYSTEM, UNK, USER, Case, Conditions, Exactly, Files, Has
from .hints import explain_hint

ON_TERMINAL = Conditions(stderr="terminal")

# Paths at which no image can be written. (path, what is there, the reason)
UNWRITTEN: List[Tuple[str, Files, str]] = [
    ("none/new.img", {}, "No such file or directory"),
    ("folder", {"folder": {}}, "Is a directory"),
    ("/dev/full", {}, "No space left on device"),
]


def unwritten(out: str, files: Files, why: str) -> Iterator[Case]:
    """Yields the runs with -v, on a terminal, and read by a program."""
    command, error = f"{SYSTEM} a/lexicon.csv".replace("new.img", out), f"{out}: F1 File"
    lines = f"dictc: {out}: {why}\ndictc: {error}\n"
    name, shown = f"{out} is not written", Has("dictc: ", (lines,))
    yield Case(f"{name}, with -v", f"{command} -v", err=shown, status=3, files=files)
    yield Case(
        f"{name}, on a terminal",
        command,
        err=Exactly(lines + explain_hint("dictc", "F1")),
        status=3,
        files=files,
        conditions=ON_TERMINAL,
    )
    yield Case(name, command, err=error, status=3, files=files)


ID, COST = "an integer from 0 to 65535", "an integer from -32768 to 32767"
# Lexicons with a field that has no number. (lexicon, line, field, its text as printed, its range)
NUMBERS = [
    (b"a,65536,1,5,X\n", 1, "2 (left id)", "65536", ID),
    (b"\na,1,-1,5,X\n", 2, "3 (right id)", "-1", ID),
    (b"a,1,1,12x,X\n", 1, "4 (word cost)", "12x", COST),
    (b"a,1,1,,X\r\n", 1, "4 (word cost)", "", COST),
    (b"a,1,1,-32769,X\n", 1, "4 (word cost)", "-32769", COST),
    (b'a,1,1,"1,\x01",X\n', 1, "4 (word cost)", r"1,\u{1}", COST),
    (b"a,1,1," + "も".encode() * 41 + b",X\n", 1, "4 (word cost)", "も" * 40 + "..", COST),
]


def number_line(path: str, line: int, field: str, text: str, wanted: str) -> str:
    """Returns the line that is printed for a field."""
    return f"dictc: {path}:{line}: field {field} is '{text}', not {wanted}\n"


def no_number(data: bytes, line: int, field: str, text: str, wanted: str) -> Iterator[Case]:
    """Yields the runs of a system and of a user dictionary."""
    files, error = {"bad.csv": data}, f"dictc: bad.csv:{line}: S3 BadNumber\n"
    lines = number_line("bad.csv", line, field, text, wanted) + error
    for command in (SYSTEM, USER):
        name, command = f"field {field} is '{text}': {command}", f"{command} bad.csv"
        shown = Has("dictc: ", (lines,))
        yield Case(f"{name}, with -v", f"{command} -v", err=shown, status=1, files=files)
        yield Case(
            f"{name}, on a terminal",
            command,
            err=Exactly(lines + explain_hint("dictc", "S3")),
            status=1,
            files=files,
            conditions=ON_TERMINAL,
        )


# Lexicons of one surface. (how many entries, the warning with -v)
REPEATED = [
    (1_000, ""),
    (1_001, "dictc: warning: 1001 entries have the surface 'も'\n"),
]


def repeated(count: int, line: str) -> Iterator[Case]:
    """Yields the runs of a system and of a user dictionary."""
    files: Files = {"many.csv": "も,1,1,1,X\n".encode() * count}
    err = Has("dictc: ", (line,)) if line else Has("dictc: ", (), ("warning",))
    for command in (SYSTEM, USER):
        name = f"{count} entries of one surface: {command}"
        command = f"{command} -v many.csv"
        yield Case(name, command, out=Has(""), err=err, files=files, changes={"new.img": ANY})


CASES = [
    *(run for row in UNWRITTEN for run in unwritten(*row)),
    *(run for row in NUMBERS for run in no_number(*row)),
    Case(
        "no number in unk.def",
        f"{SYSTEM} -v a/lexicon.csv",
        err=Has(
            "dictc: ",
            (
                number_line("a/unk.def", 7, "4 (word cost)", "40000", COST)
                + "dictc: a/unk.def:7: S3 BadNumber\n",
            ),
        ),
        status=1,
        files={"a/unk.def": UNK + b"KANJI,1,1,40000,X\n"},
    ),
    *(run for row in REPEATED for run in repeated(*row)),
]
