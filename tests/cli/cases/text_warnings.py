"""What jseg prints of a text besides its words: warnings, and how much of it was segmented."""
from typing import Iterator, List, Tuple, Union

from .case import ERASED, Case, Conditions, Erased, Exactly, Has
from .hints import MARK
from .texts import MO

MARK_LINE = (
    "jseg: warning: the text begins with a byte order mark (U+FEFF); it is segmented as text\n"
)
RETURN_LINE = "jseg: warning: line {} ends with a carriage return; it is segmented as text\n"
# (what, text, the warnings)
WARNINGS: List[Tuple[str, Union[str, bytes], str]] = [
    ("an empty text", "", ""),
    ("a byte order mark", MARK + b"\n", MARK_LINE),
    ("a byte order mark alone", MARK, MARK_LINE),
    ("a byte order mark in line 2", b"\n" + MARK + b"\n", ""),
    ("two bytes of a mark", "\ufebf\n", ""),
    ("CR LF twice", "\n\r\n\r\n", RETURN_LINE.format(2)),
    ("CR at the end of the text", "\n\n\r", RETURN_LINE.format(3)),
    ("CR within a line", "\ra\r\ra\n", ""),
    ("CR within a line, then at its end", "a\rb\r\n", RETURN_LINE.format(1)),
    ("a byte order mark and CR", MARK + b"\r\n", MARK_LINE + RETURN_LINE.format(1)),
]
TERMINAL = Conditions(stderr="terminal")
# A text whose second half comes later: in the middle of a mark, and between CR and LF.
HALVES = [
    ("a mark of two reads", MARK + b"\n", MARK_LINE),
    ("CR LF of two reads", b"\n\n\r\na\n", RETURN_LINE.format(3)),
]

SIZE = len("も\n".encode())
SEGMENTED = Erased(f"segmented {SIZE} of {SIZE} bytes, 100 %, 0.0 MB/s{ERASED}")
FILE = Conditions(stdin="file", fails="slow read")


def warned(what: str, text: Union[str, bytes], lines: str) -> Iterator[Case]:
    """Yields runs on a terminal, with -v, and read by a program."""
    out, steps = Has(""), Has("jseg: ", tuple(lines.splitlines()))
    for command in ("jseg --sample", "jseg -d sys.img", "jseg --sources a"):
        name, shown = f"{what}, {command}", Exactly(lines)
        yield Case(f"{name}, on a terminal", command, text, out, shown, conditions=TERMINAL)
        yield Case(f"{name}, with -v", f"{command} -v", text, out, steps)
        yield Case(f"{name}, read by a program", command, text, out)


CASES = [
    *(run for row in WARNINGS for run in warned(*row)),
    *(
        Case(
            f"{what}, on a terminal",
            "jseg --sample",
            text,
            Has(""),
            Exactly(lines),
            conditions=Conditions(stdin="slow", stderr="terminal"),
        )
        for what, text, lines in HALVES
    ),
    Case(
        "a text that comes slowly, on a terminal",
        "jseg --sample",
        "も\n",
        MO,
        SEGMENTED,
        conditions=FILE._replace(stderr="terminal"),
    ),
    Case(
        "a text that comes slowly, read by a program", "jseg --sample", "も\n", MO, conditions=FILE
    ),
]
