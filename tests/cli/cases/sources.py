"""Sources that are rejected."""
from typing import Iterator, Sequence, Tuple

from .case import CHARS, LEXICON, SYSTEM, UNK, USER, Case, Conditions, Exactly, Files

MANY = b"".join(b"CATEGORY%d 0 0 0\n" % i for i in range(13))
LONG = b"z" * 65_536 + b",1,1,1,X\n"

DEFINITIONS = [
    # (file, its bytes, the line that is printed, error)
    ("matrix.def", b"", 0, "M1 BadHeader"),
    ("matrix.def", b"\n0 2\n", 2, "M1 BadHeader"),
    ("matrix.def", b"2 2\n0 0 40000\n", 2, "M2 BadRow"),
    ("matrix.def", b"2 2\n0 0 1\n2 0 1\n", 3, "M3 PairOutside"),
    ("matrix.def", b"65535 65535\n", 1, "M4 TooLarge"),
    ("char.def", CHARS.replace(b"KANJI 0 0 2", b"KANJI 0 0 16"), 5, "C1 BadLine"),
    ("char.def", CHARS + b"0x9FFF..0x4E00 KANJI\n", 13, "C2 BadRange"),
    ("char.def", CHARS + b"0x110000 KANJI\n", 13, "C2 BadRange"),
    ("char.def", CHARS + b"KANJI 0 0 2\n", 13, "C3 Twice"),
    ("char.def", CHARS + b"0x3007 OTHER\n", 13, "C4 NoSuchCategory"),
    ("char.def", CHARS + MANY, 25, "C5 TooMany"),
    ("char.def", CHARS.replace(b"DEFAULT 0 1 0\n", b""), 0, "C6 NoDefault"),
    ("char.def", CHARS.replace(b"SPACE 0 1 0\n", b""), 0, "C7 NoSpace"),
    ("unk.def", UNK + b"OTHER,1,1,1000,X\n", 7, "U1 NoSuchCategory"),
    ("unk.def", UNK.replace("KANJI,1,1,1000,未知\n".encode(), b""), 0, "U2 MissingCategory 4"),
    ("unk.def", UNK + b"KANJI,1,1,\xff\n", 7, "S1 NotUtf8"),
    ("unk.def", UNK + b"KANJI,1,1\n", 7, "S2 TooFewFields"),
    ("unk.def", UNK + b"KANJI,1,1,40000,X\n", 7, "S3 BadNumber"),
    ("unk.def", UNK + b"KANJI,2,1,1000,X\n", 7, "I1 IdOutside"),
]

LEXICONS = [
    # (its bytes, the line that is printed, error)
    (LEXICON + b"\xff,1,1,1,X\n", 4, "S1 NotUtf8"),
    (b'"ab,1,1,10,X\n', 1, "S2 TooFewFields"),
    (LEXICON + b"a,1,1,-32769,X\n", 4, "S3 BadNumber"),
    (b"\n" + LONG, 2, "S4 SurfaceTooLong"),
    (LEXICON + b"a,2,1,20,X\n", 4, "I1 IdOutside"),
]


def invalid_definition(file: str, data: bytes, line: int, error: str) -> Iterator[Case]:
    """Yields the runs of both programs over an invalid file of the directory a."""
    files = {f"a/{file}": data}
    err = f"a/{file}:{line}: {error}"
    yield Case(
        f"{error} in {file}, dictc", f"{SYSTEM} a/lexicon.csv", err=err, status=1, files=files
    )
    yield Case(
        f"{error} in {file}, jseg", "jseg --sources a", "も\n", err=err, status=1, files=files
    )


def invalid_lexicon(data: bytes, line: int, error: str) -> Iterator[Case]:
    """Yields the runs over an invalid lexicon: of the directory a, a second one, and a user's."""
    yield from invalid_definition("lexicon.csv", data, line, error)
    files = {"bad.csv": data}
    err = f"bad.csv:{line}: {error}"
    yield Case(
        f"{error} in a second lexicon",
        f"{SYSTEM} a/lexicon.csv bad.csv",
        err=err,
        status=1,
        files=files,
    )
    yield Case(f"{error} of a user", f"{USER} bad.csv", err=err, status=1, files=files)


CASES = [
    *(run for row in DEFINITIONS for run in invalid_definition(*row)),
    *(run for row in LEXICONS for run in invalid_lexicon(*row)),
    Case(
        "a matrix.def that never ends",
        f"{SYSTEM.replace('a/matrix.def', '/dev/zero')} a/lexicon.csv",
        err="/dev/zero:1: M1 BadHeader",
        status=1,
    ),
]

# With --all-faults: the errors of each file, first of its lines and then of its ids. Nothing is
# written.
INVALID = "も,1,1,20,助詞\na,1,1\r\n\nb,1,1,x,X\n\tc,2,1,5,\x01\n".encode() + b"\xff,1,1,1,X"
ERRORS = [
    # (line, error, the text of the line as it is printed)
    (2, "S2 TooFewFields", "a,1,1"),
    (4, "S3 BadNumber", "b,1,1,x,X"),
    (6, "S1 NotUtf8", "\ufffd,1,1,1,X"),
    (5, "I1 IdOutside", "\\tc,2,1,5,\\u{1}"),
]
LONG_LINE = "も" * 300
TWENTY = b"".join(b"%d,1,1\n" % number for number in range(25))
MORE = "dictc: 20 errors were reported; there may be more\n"


def printed_errors(path: str, errors: Sequence[Tuple[int, str, str]]) -> str:
    """Returns the lines that are printed for the errors of a file."""
    return "".join(f"dictc: {path}:{line}: {error}\n  {text}\n" for line, error, text in errors)


def all_errors(what: str, command: str, err: str, files: Files) -> Case:
    """Returns a run with --all-faults, which writes no image."""
    name, command = f"all faults: {what}", f"{command} --all-faults"
    return Case(name, command, err=Exactly(err), status=1, files=files)


TWO = {"bad.csv": INVALID, "other.csv": b"c,1,1\n"}
CASES += [
    all_errors(
        "of a system", f"{SYSTEM} a/lexicon.csv bad.csv", printed_errors("bad.csv", ERRORS), TWO
    ),
    all_errors("of a user", f"{USER} bad.csv", printed_errors("bad.csv", ERRORS), TWO),
    all_errors(
        "of two files",
        f"{USER} bad.csv other.csv",
        printed_errors("bad.csv", ERRORS)
        + printed_errors("other.csv", [(1, "S2 TooFewFields", "c,1,1")]),
        TWO,
    ),
    all_errors(
        "one",
        f"{USER} other.csv",
        printed_errors("other.csv", [(1, "S2 TooFewFields", "c,1,1")]),
        TWO,
    ),
    all_errors(
        "a long line",
        f"{USER} long.csv",
        printed_errors("long.csv", [(1, "S2 TooFewFields", LONG_LINE[:200] + "..")]),
        {"long.csv": LONG_LINE.encode()},
    ),
    all_errors(
        "20 of 25",
        f"{USER} many.csv",
        printed_errors("many.csv", [(n + 1, "S2 TooFewFields", f"{n},1,1") for n in range(20)])
        + MORE,
        {"many.csv": TWENTY},
    ),
    all_errors(
        "no line of a lexicon",
        f"{SYSTEM} bad.csv",
        "dictc: a/unk.def:7: S2 TooFewFields\n",
        {**TWO, "a/unk.def": UNK + b"KANJI,1,1\n"},
    ),
    Case(
        "all faults: none",
        f"{SYSTEM} --all-faults a/lexicon.csv",
        out="3 entries, 0 skipped\n",
        changes={"new.img": "sys.img"},
    ),
]

# What is reported first.
BAD_CHARS = {"a/char.def": CHARS + b"0x3007 OTHER\n", "a/unk.def": b"X", "a/lexicon.csv": b"X"}
BAD_UNK = {"a/unk.def": UNK + b"X", "a/lexicon.csv": b"X"}
BAD_IDS = {"a/unk.def": UNK + b"KANJI,2,1,1000,X\nKANJI,1,1,x,X\n", "a/lexicon.csv": b"X"}
C4, S2, S3 = (
    "a/char.def:13: C4 NoSuchCategory",
    "a/unk.def:7: S2 TooFewFields",
    "a/unk.def:8: S3 BadNumber",
)
CASES += [
    Case("char.def before unk.def", f"{SYSTEM} a/lexicon.csv", err=C4, status=1, files=BAD_CHARS),
    Case("unk.def before the lexicon", "jseg --sources a", err=S2, status=1, files=BAD_UNK),
    Case("lines before ids", f"{SYSTEM} a/lexicon.csv", err=S3, status=1, files=BAD_IDS),
]

# 2^28 entries are 15 GB. These are equal, so that blocks of memory that repeat hold them.
MANY_ENTRIES = Conditions(stdin="entries", repeats=True, seconds=600)
CASES.append(
    Case(
        "too many entries",
        f"{SYSTEM} /dev/stdin",
        err="/dev/stdin:268435457: S5 TooMany",
        status=1,
        conditions=MANY_ENTRIES,
    )
)

# A line of 4 GB, which repeats too. Its feature has one byte more than all features of an image may
# have.
LONG_FEATURE = Conditions(stdin="feature", repeats=True, seconds=600)
CASES.append(
    Case(
        "features too large",
        f"{SYSTEM} /dev/stdin",
        err="I3 FeaturesTooLarge",
        status=1,
        conditions=LONG_FEATURE,
    )
)
