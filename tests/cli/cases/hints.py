"""Hints beside an error: why a file can't be read, which option is wrong, and what explains it.

They are printed on a terminal and with -v alone.
"""
from pathlib import Path
from typing import Iterator, List, Tuple

from .case import LEXICON, MATRIX, SYSTEM, USER, Case, Conditions, Exactly, Found, Has
from .sources import ERRORS as LEXICON_ERRORS
from .sources import TWO, printed_errors

MARK = b"\xef\xbb\xbf"
DENIED = 0o000
LONG_NAME = "n" * 256
# The line of an entry whose word cost is no number, and what is printed after it.
NO_NUMBER = "  b,1,1,x,X\n"
NUMBER = "dictc: bad.csv:4: field 4 (word cost) is 'x', not an integer from -32768 to 32767\n"

# Why a file can't be read. (command, path, what is there, why)
WHY: List[Tuple[str, str, Found, str]] = [
    ("jseg -d none.img -v", "none.img", None, "no such file or directory"),
    ("jseg -v -d sys.img -u none.img", "none.img", None, "no such file or directory"),
    ("jseg -d folder -v", "folder", {}, "is a directory"),
    ("jseg --sources a -v", "a/unk.def", None, "no such file or directory"),
    (f"{SYSTEM} -v none.csv", "none.csv", None, "no such file or directory"),
    (f"{SYSTEM} -v folder", "folder", {}, "is a directory"),
    (
        "dictc user -v --dic none.img --out new.img user.csv",
        "none.img",
        None,
        "no such file or directory",
    ),
    ("jseg -v -d memory", "memory", Path("/proc/self/mem"), "a read failed"),
    ("jseg -v -d loop", "loop", Path("loop"), "Too many levels of symbolic links"),
]

NOT_THERE = "{program}: none.img: no such file or directory\n"
CONVERTER = (
    "{program}: kumquatsieve-import converts sources that are not UTF-8: "
    "pass it their directory, or lexicons with --user\n"
)
EUC = {"euc.csv": LEXICON.decode().encode("euc_jp")}
# Hints beside an error. (command, the lines before the error, the error, its code, the status)
ERRORS = [
    ("jseg -d ./none.img", NOT_THERE.replace("none", "./none"), "./none.img: F1 File", "F1", 3),
    (
        "dictc ids --dic ./none.img x",
        NOT_THERE.replace("none", "./none"),
        "./none.img: F1 File",
        "F1",
        3,
    ),
    (f"{SYSTEM} euc.csv", CONVERTER, "euc.csv:1: S1 NotUtf8", "S1", 1),
    (f"{USER} euc.csv", CONVERTER, "euc.csv:1: S1 NotUtf8", "S1", 1),
    ("jseg -d text", "", "text: L1 Truncated", "L1", 1),
    (
        "jseg --sample -F %m%q",
        "{program}: the error is in the format of -F\n{program}: %m%q\n{program}:   ^\n",
        "P2 BadItem 2",
        "P2",
        2,
    ),
    (
        "jseg --sample -U 'すa\t%q'",
        "{program}: the error is in the format of -U\n{program}: すa\\t%q\n{program}:      ^\n",
        "P2 BadItem 5",
        "P2",
        2,
    ),
    (
        "jseg --sample -E '\\x'",
        "{program}: the error is in the format of -E\n{program}: \\x\n{program}: ^\n",
        "P1 BadEscape 0",
        "P1",
        2,
    ),
]


def explain_hint(program: str, code: str) -> str:
    """Returns the line that names `--explain`."""
    return f"{program}: '{program} --explain {code}' explains this error\n"


def with_hints(command: str, before: str, error: str, code: str, status: int) -> Iterator[Case]:
    """Yields the runs with standard error on a terminal, and read by a program."""
    program = command.split()[0]
    lines = before.replace("{program}", program) + f"{program}: {error}\n"
    files = {**EUC, "text": b"no image"}
    yield Case(
        f"{command}, on a terminal",
        command,
        err=Exactly(lines + explain_hint(program, code)),
        status=status,
        files=files,
        conditions=Conditions(stderr="terminal"),
    )
    yield Case(f"{command}, read by a program", command, err=error, status=status, files=files)


def all_hints(command: str) -> Iterator[Case]:
    """Yields the runs with --all-faults, after whose errors each code's hint is printed once."""
    codes = [error.split()[0] for _, error, _ in LEXICON_ERRORS]
    hints = CONVERTER.format(program="dictc")
    hints += "".join(explain_hint("dictc", code) for code in codes)
    command = f"{command} --all-faults bad.csv other.csv"
    errors = printed_errors("bad.csv", LEXICON_ERRORS).replace(NO_NUMBER, NO_NUMBER + NUMBER)
    errors += printed_errors("other.csv", [(1, "S2 TooFewFields", "c,1,1")])
    yield Case(
        f"hints after all errors: {command}",
        command,
        err=Exactly(errors + hints),
        status=1,
        files=TWO,
        conditions=Conditions(stderr="terminal"),
    )
    yield Case(
        f"hints after all errors, with -v: {command}",
        f"{command} -v",
        err=Has("dictc: ", (errors + hints,)),
        status=1,
        files=TWO,
    )


CASES = [
    *(
        Case(
            f"{command}: {why}",
            command,
            err=Has("", (f": {path}: {why}\n", f": {path}: F1 File\n")),
            status=3,
            files={path: there},
        )
        for command, path, there, why in WHY
    ),
    Case(
        "a name that is too long",
        f"jseg -v -d {LONG_NAME}",
        err=Has("", (f": {LONG_NAME}: File name too long\n", f": {LONG_NAME}: F1 File\n")),
        status=3,
    ),
    Case(
        "no permission",
        "jseg -d sys.img -v",
        err=Has("", ("sys.img: permission denied\n",)),
        status=3,
        modes={"sys.img": DENIED},
    ),
    Case(
        "a name that is not UTF-8",
        "jseg --sources a -v",
        err=Has("", ("a: a file name in this directory is not UTF-8\n",)),
        status=3,
        files={"a/\udcff": b""},
    ),
    *(run for row in ERRORS for run in with_hints(*row)),
    *(
        Case(
            f"which option: {option}",
            f"jseg --sample -v {option} %q",
            err=Has("", (f"the format of {option}\n", "P2 BadItem 0\n")),
            status=2,
        )
        for option in ("-F", "-U", "-B", "-E")
    ),
    Case(
        "a mark before matrix.def",
        "jseg --sources a -v",
        err=Has(
            "",
            (
                "a/matrix.def: the file starts with a byte order mark",
                "a/matrix.def:1: M1 BadHeader",
            ),
        ),
        status=1,
        files={"a/matrix.def": MARK + MATRIX},
    ),
    *(run for command in (SYSTEM, USER) for run in all_hints(command)),
]
