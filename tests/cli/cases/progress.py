"""What the programs print of their work: the steps with -v, and on a terminal what takes long."""
import struct
from typing import Iterator, List, Tuple, Union

from .case import (
    ANY,
    ERASED,
    LEXICON,
    MATRIX,
    SYSTEM,
    USER,
    Case,
    Changes,
    Conditions,
    Erased,
    Exactly,
    Files,
    Has,
)
from .hints import MARK, explain_hint
from .images import LAYOUT_2, LAYOUT_3, UNTESTED, changed, with_digest
from .texts import MO

LINE = "3 entries, 0 skipped\n"
COMPILED: Changes = {"new.img": "sys.img"}
ANY_IMAGE: Changes = {"new.img": ANY}
NOTE = "dictc: warning: mark.csv: the file starts with a byte order mark, which counts as text\n"
READING = Erased(f"reading /dev/stdin: {len(MATRIX)} bytes{ERASED}")
MARKED: Files = {"mark.csv": MARK + LEXICON}
FROM_INPUT = f"{SYSTEM.replace('a/matrix.def', '/dev/stdin')} a/lexicon.csv"
# What is printed on a terminal only: a byte order mark; and a file that takes more than two
# seconds, whose line is erased afterwards. (what, command, files, changes, where standard
# error goes, standard error, conditions)
ON_TERMINAL: List[Tuple[str, str, Files, Changes, str, Has, Conditions]] = [
    (
        "a mark before a lexicon,",
        f"{SYSTEM} mark.csv",
        MARKED,
        ANY_IMAGE,
        "on a terminal",
        Exactly(NOTE),
        Conditions(stderr="terminal"),
    ),
    (
        "a mark before a user's lexicon,",
        f"{USER} mark.csv",
        MARKED,
        ANY_IMAGE,
        "on a terminal",
        Exactly(NOTE),
        Conditions(stderr="terminal"),
    ),
    (
        "a mark before a lexicon,",
        f"{SYSTEM} mark.csv",
        MARKED,
        ANY_IMAGE,
        "read by a program",
        Exactly(""),
        Conditions(),
    ),
    (
        "a slow matrix.def",
        FROM_INPUT,
        {},
        COMPILED,
        "on a terminal",
        READING,
        Conditions(stdin="slow", stderr="terminal"),
    ),
    (
        "a slow matrix.def",
        FROM_INPUT,
        {},
        COMPILED,
        "read by a program",
        Exactly(""),
        Conditions(stdin="slow"),
    ),
]

# Images that take long to load. The checksum is computed meanwhile.
# (what, command, how it is slow, the image on standard input, files, output, the line that is
# erased, the error, whose code is explained on a terminal; or none)
LONG = with_digest(changed(LAYOUT_2, (96, struct.pack("<Q", 70_000))) + b"X" * 69_999)
FROM_PIPE = f"reading /dev/stdin: {len(LAYOUT_3)} bytes{ERASED}"
FROM_FILE = f"reading long.img: {len(LONG)} of {len(LONG)} bytes{ERASED}"
BY_PIPE, BY_FILE = Conditions(stdin="slow"), Conditions(fails="slow read")
SLOW_LOADS: List[Tuple[str, str, Conditions, Union[str, bytes], Files, str, str, str]] = [
    ("an image", "jseg -d sys.img -u /dev/stdin", BY_PIPE, LAYOUT_3, {}, "", FROM_PIPE, ""),
    (
        "an image with another digest",
        "jseg -d sys.img -u /dev/stdin",
        BY_PIPE,
        UNTESTED["digest.img"],
        {},
        "",
        FROM_PIPE,
        "/dev/stdin: L8 Digest",
    ),
    (
        "an image that is not tested",
        "jseg -d sys.img --skip-digest -u /dev/stdin",
        BY_PIPE,
        UNTESTED["digest.img"],
        {},
        "",
        FROM_PIPE,
        "",
    ),
    (
        "an image of a lexicon's",
        USER.replace("sys.img", "/dev/stdin") + " user.csv",
        BY_PIPE,
        LAYOUT_3,
        {},
        "",
        FROM_PIPE,
        "/dev/stdin: O1 NotSystem",
    ),
    (
        "an image of dictc ids",
        "dictc ids --dic /dev/stdin X",
        BY_PIPE,
        LAYOUT_3,
        {},
        "",
        FROM_PIPE,
        "/dev/stdin: O1 NotSystem",
    ),
    (
        "a long image",
        USER.replace("sys.img", "long.img") + " user.csv",
        BY_FILE,
        "",
        {"long.img": LONG},
        "",
        FROM_FILE,
        "long.img: O1 NotSystem",
    ),
]

# The longest surface, with -v only. (command, files, the line; none if there is no entry)
LONGEST: List[Tuple[str, Files, str]] = [
    (f"{SYSTEM} a/lexicon.csv", {}, "9 bytes, in line 1 of a/lexicon.csv"),
    (f"{USER} user.csv", {}, "6 bytes, in line 1 of user.csv"),
    (f"{USER} user.csv a/lexicon.csv", {}, "9 bytes, in line 1 of a/lexicon.csv"),
    (
        f"{USER} user.csv equal.csv",
        {"equal.csv": b"\nab,1,1,1,\nabcdef,1,1,1,\n"},
        "6 bytes, in line 1 of user.csv",
    ),
    (
        f"{USER} equal.csv user.csv",
        {"equal.csv": b"\nab,1,1,1,\nabcdef,1,1,1,\n"},
        "6 bytes, in line 3 of equal.csv",
    ),
    (
        f"{USER} quoted.csv",
        {"quoted.csv": b'"a"",""b",1,1,1,X\na,1,1,1,\n'},
        "5 bytes, in line 1 of quoted.csv",
    ),
    (f"{USER} skipped.csv", {"skipped.csv": b",1,1,1,X\n\n"}, ""),
]

STEPS = [
    "read connection costs: 2 right ids, 2 left ids",
    "read 6 character categories",
    "read unknown words",
    "3 entries after reading a/lexicon.csv",
]
SHARES = [
    "connection costs: 8 bytes",
    "categories of code points: ",
    "keys: ",
    "group index: ",
    "tokens: ",
    "features: ",
]


def slow_load(
    what: str,
    command: str,
    how: Conditions,
    text: Union[str, bytes],
    files: Files,
    out: str,
    line: str,
    error: str,
) -> Iterator[Case]:
    """Yields the runs of a slow load on a terminal, and read by a program."""
    program, end = command.split()[0], ""
    if error:
        end = f"{program}: {error}\n{explain_hint(program, error.split()[1])}"
    status = 1 if error else 0
    name, how_shown = f"{what} that comes slowly, on a terminal", how._replace(stderr="terminal")
    yield Case(name, command, text, out, Erased(line, (end,)), status, files, conditions=how_shown)
    name = f"{what} that comes slowly, read by a program"
    yield Case(name, command, text, out, error, status, files, conditions=how)


def longest(command: str, files: Files, line: str) -> Iterator[Case]:
    """Yields the runs that print the longest surface with -v, and nothing without it."""
    err = Has("dictc: ", ("compiled ",), ("longest",))
    if line:
        err = Has("dictc: ", (f" s: longest surface: {line}\n",))
    out = Has("", (" entries, ", " skipped\n"))
    name = f"longest surface: {command}"
    yield Case(name, f"{command} -v", out=out, err=err, files=files, changes=ANY_IMAGE)
    name, terminal = f"longest surface, without -v: {command}", Conditions(stderr="terminal")
    yield Case(name, command, out=out, files=files, changes=ANY_IMAGE, conditions=terminal)


CASES = [
    Case(
        "a mark before a lexicon",
        f"{SYSTEM} -v mark.csv",
        out=LINE,
        err=Has("", ("mark.csv: the file starts with a byte order mark",)),
        files={"mark.csv": MARK + LEXICON},
        changes=ANY_IMAGE,
    ),
    *(
        Case(
            f"{what} {where}",
            command,
            MATRIX,
            out=LINE,
            err=err,
            files=files,
            changes=changes,
            conditions=conditions,
        )
        for what, command, files, changes, where, err, conditions in ON_TERMINAL
    ),
    *(run for row in SLOW_LOADS for run in slow_load(*row)),
    Case(
        "nothing to report, on a terminal",
        f"{SYSTEM} a/lexicon.csv",
        out=LINE,
        changes=COMPILED,
        conditions=Conditions(stderr="terminal"),
    ),
    Case(
        "what dictc does",
        f"{SYSTEM} -v a/lexicon.csv",
        out=LINE,
        err=Has(
            "dictc: ",
            (
                "read a/matrix.def: ",
                "compiling 1 lexicons",
                *STEPS,
                "sorted 3 entries",
                "compiled 3 entries",
                "wrote new.img: ",
                *SHARES,
            ),
        ),
        changes=COMPILED,
    ),
    Case(
        "what dictc does for a user",
        f"{USER} -v user.csv",
        out="1 entries, 0 skipped\n",
        err=Has(
            "dictc: ",
            (
                "loaded sys.img",
                "read user.csv: ",
                "1 entries after reading user.csv",
                "sorted 1 entries",
                "wrote new.img: ",
            ),
        ),
        changes={"new.img": "user.img"},
    ),
    *(run for row in LONGEST for run in longest(*row)),
    Case(
        "what jseg does",
        "jseg -d sys.img -v",
        "も\n",
        MO,
        err=Has("jseg: ", ("loaded sys.img", "segmented 1 lines")),
    ),
]
