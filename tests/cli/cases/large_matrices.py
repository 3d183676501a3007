"""Texts that are segmented by a dictionary whose connection costs are too many to be copied.

The costs that the start of a text needs are cached.
"""
from typing import Any

from .case import ANY, SYSTEM, Has, Case, Conditions
from .texts import MO, SUMOMO

# 2,900 right ids and as many left ids are more than 2^23 pairs.
MATRIX = {"a/matrix.def": b"2900 2900\n0 0 0\n0 1 10\n1 0 5\n1 1 7\n"}
COMPILED = "3 entries, 0 skipped\n"

# The start of a text is examined if the first read returns 32,768 bytes, which are 2,048 of these
# lines.
LINE = "すもももも\n"
TEXTS = [
    ("no text", "", ""),
    ("a short text", "も\n", MO),
    ("a text that is too short by a line", LINE * 2_047, SUMOMO * 2_047),
    ("a text that is just long enough", LINE * 2_048, SUMOMO * 2_048),
    ("a text of three reads", LINE * 9_000, SUMOMO * 9_000),
    (
        "ids that its start has not",
        "x" * 9 + "\n" * 70_000 + LINE,
        "x" * 9 + "\t未知\n" + "EOS\n" * 70_000 + SUMOMO,
    ),
    ("a text of blanks", " " * 70_000 + "\n", "EOS\n"),
]


def large_case(what: str, text: str, out: str, by: str = "jseg -d new.img", **others: Any) -> Case:
    """Returns a run of dictc, and then one of jseg. `others` are fields of the case."""
    return Case(
        f"far costs: {what}",
        f"{SYSTEM} a/lexicon.csv",
        text,
        COMPILED + out,
        files=MATRIX,
        changes={"new.img": ANY},
        second=by,
        **others,
    )


def from_jseg(error: str) -> Has:
    """Matches an error of jseg, which is not the first program of the case."""
    return Has(f"jseg: {error}")


CASES = [
    *(large_case(*row) for row in TEXTS),
    large_case(
        "what a path costs", LINE * 5_000, "152\n" * 5_000, r"jseg -d new.img -F '' -E '%pc\n'"
    ),
    large_case(
        "a first read that fails",
        "",
        "",
        err=from_jseg("line 1: G1 Read"),
        status=3,
        conditions=Conditions(stdin="directory"),
    ),
    large_case(
        "a first read that fails, and a second that ends",
        "",
        "",
        err=from_jseg("line 1: G1 Read"),
        status=3,
        conditions=Conditions(stdin="reset"),
    ),
    large_case(
        "a later read that fails",
        "も\nす",
        MO,
        err=from_jseg("line 2: G1 Read"),
        status=3,
        conditions=Conditions(stdin="failing"),
    ),
    *(
        large_case(
            f"only the second read fails, of {lines} lines",
            LINE * lines,
            SUMOMO * lines,
            err=from_jseg(f"line {lines + 1}: G1 Read"),
            status=3,
            conditions=Conditions(stdin="reset"),
        )
        for lines in (1, 2_100)
    ),
    large_case(
        "a user that does not fit",
        LINE * 5_000,
        "",
        "jseg -d new.img -u user.img",
        err=from_jseg("user.img: O3 OtherSizes 0"),
        status=1,
    ),
]
