"""`jseg --why`: the best path of each line, and the rival of each word."""
from typing import Iterator, List, Tuple

from .lattices import BAD, FIELDS, LEXICON, TWICE
from .case import Case, Conditions, Files, Has
from .streams import DEVICES, FAILING

HEADING = "path\tstart\tsurface\tconnection\tcost\ttotal\tlost\tfeature\n"


def table(*rows: str) -> str:
    return HEADING + "".join(f"{row}\n" for row in rows) + "\n"


def best(start: int, surface: str, connection: int, cost: int, total: int, feature: str) -> str:
    return f"best\t{start}\t{surface}\t{connection}\t{cost}\t{total}\t\t{feature}"


def rival(
    start: int, surface: str, connection: int, cost: int, total: int, lost: int, feature: str
) -> str:
    return f"rival\t{start}\t{surface}\t{connection}\t{cost}\t{total}\t{lost}\t{feature}"


def eos(start: int, connection: int, total: int) -> str:
    return best(start, "EOS", connection, 0, total, "")


# The connection costs are 10 from BOS to a word, 7 from word to word, 5 from a word to EOS, and 0
# from BOS to EOS.
SUMOMO = [
    best(0, "すもも", 10, 100, 110, "名詞,すもも"),
    best(9, "もも", 7, 30, 147, "名詞,もも"),
    rival(9, "も", 7, 20, 137, 17, "助詞,も"),
    rival(12, "も", 7, 20, 164, 17, "助詞,も"),
    eos(15, 5, 152),
]
MO = [best(0, "も", 10, 20, 30, "助詞,も"), eos(3, 5, 35)]
EQUAL = rival(0, "もも", 10, 47, 57, 0, "三")
TABLES: List[Tuple[str, str, str, List[str], Files]] = [
    # (what, options, line, rows, files)
    ("a line", "--sample", "すもももも", SUMOMO, {}),
    ("a line", "-d sys.img", "すもももも", SUMOMO, {}),
    ("a line", "--sources a", "すもももも", SUMOMO, {}),
    ("no word", "--sample", "", [eos(0, 0, 0)], {}),
    ("blanks alone", "--sample", "  ", [eos(2, 0, 0)], {}),
    (
        "blanks before a word and after it",
        "--sample",
        " も ",
        [best(1, "も", 10, 20, 30, "助詞,も"), eos(5, 5, 35)],
        {},
    ),
    (
        "a word of a user",
        "-d sys.img -u user.img",
        "もも",
        [
            best(0, "もも", 10, 1, 11, "名詞,ユーザ"),
            rival(0, "も", 10, 20, 30, 46, "助詞,も"),
            rival(3, "も", 7, 20, 57, 46, "助詞,も"),
            eos(6, 5, 16),
        ],
        {},
    ),
    (
        "rivals of the same cost",
        "--sources a",
        "もも",
        [best(0, "も", 10, 20, 30, "一"), EQUAL, best(3, "も", 7, 20, 57, "一"), EQUAL, eos(6, 5, 62)],
        TWICE,
    ),
    (
        "an unknown word",
        "--sample",
        "もz",
        [MO[0], best(3, "z", 7, 1000, 1037, "未知"), eos(4, 5, 1042)],
        {},
    ),
    (
        "a tab and a backslash",
        "--sample",
        "\t\\",
        [best(0, r"\t\\", 10, 1000, 1010, "未知"), eos(2, 5, 1015)],
        {},
    ),
    (
        "a carriage return",
        "--sample",
        "\r",
        [best(0, r"\r", 10, 1000, 1010, "未知"), eos(1, 5, 1015)],
        {},
    ),
    (
        "a backslash in a feature",
        "--sources a",
        "も",
        [best(0, "も", 10, 20, 30, '"名詞 ""も""",も\\\\'), eos(3, 5, 35)],
        FIELDS,
    ),
]

# A line with two paths that have only their ends in common: x ab ab .. ab y, and xa ba .. ba by. Of
# the 41 words of the second path, each rival has the one in the place of the word, and at most 32
# before it and after it.
TWO_WAYS = {
    LEXICON: "".join(
        f"{word},1,1,{cost},{word}\n"
        for cost, command in ((1, ("x", "ab", "y")), (2, ("xa", "ba", "by")))
        for word in command
    ).encode()
}
FIRST = [("x", 0), *(("ab", 1 + 2 * i) for i in range(40)), ("y", 81)]
SECOND = ["xa", *["ba"] * 39, "by"]
GAP = "rival\t\t...\t\t\t\t33\t"


def rivals_at(taken: int) -> List[str]:
    """Returns the rows of the second path around its word number `taken`."""
    first, end = max(taken - 32, 0), min(taken + 33, 41)
    command = [
        rival(2 * i, SECOND[i], 7 if i else 10, 2, 12 + 9 * i, 33, SECOND[i])
        for i in range(first, end)
    ]
    return [*([GAP] if first else []), *command, *([GAP] if end < 41 else [])]


def long_rows() -> Iterator[str]:
    for i, (word, start) in enumerate(FIRST):
        yield best(start, word, 7 if i else 10, 1, 11 + 8 * i, word)
        yield from rivals_at(start // 2)
    yield eos(82, 5, 344)


ONE = table(*MO)
CONFLICTS = [
    "-O wakati",
    "-F %m",
    "-U %m",
    "-B x",
    "-E x",
    "--lattice tsv",
    "--lattice dot --within 5",
    "--within 5",
]
WRONG = [
    # (what, command)
    ("why twice", "jseg --sample --why --why"),
    ("why with a value", "jseg --sample --why=tsv"),
    ("why of nothing", "jseg --why"),
    ("a list of images and why", "jseg --dictionaries --why"),
    *((f"why and {command}", f"jseg --sample --why {command}") for command in CONFLICTS),
    *((f"{command} and why", f"jseg {command} --why -d sys.img") for command in CONFLICTS),
]

CASES = [
    *(
        Case(
            f"why, {what}, {command}",
            f"jseg --why {command}",
            f"{line}\n",
            table(*rows),
            files=files,
        )
        for what, command, line, rows, files in TABLES
    ),
    Case(
        "why, words that are left out",
        "jseg --sources a --why",
        f"x{'ab' * 40}y\n",
        table(*long_rows()),
        files=TWO_WAYS,
    ),
    Case("why, three lines", "jseg --sample --why", "も\n\nも", ONE + table(eos(0, 0, 0)) + ONE),
    Case("why, no text", "jseg --sample --why"),
    Case("why, before a bad line", "jseg --sample --why", BAD, ONE, "line 2: G3 NotUtf8", 1),
    Case(
        "why, before a bad line, an image",
        "jseg -d sys.img --why",
        BAD,
        ONE,
        "line 2: G3 NotUtf8",
        1,
    ),
    Case(
        "why, before input that fails",
        "jseg --sample --why",
        "も\nす",
        ONE,
        "line 2: G1 Read",
        3,
        conditions=FAILING,
    ),
    *(
        Case(
            f"why, output {what}",
            "jseg --sample --why",
            "も\n",
            err="G2 Write 0",
            status=3,
            conditions=conditions,
        )
        for what, conditions in DEVICES
    ),
    Case(
        "why, a table of 5 bytes",
        "jseg --sample --why",
        "も\n",
        "path\t",
        "G2 Write 5",
        3,
        conditions=Conditions(stdout="file", max_file=5),
    ),
    Case(
        "why, sources at fault",
        "jseg --sources a --why",
        "も\n",
        err="a/lexicon.csv:1: S3 BadNumber",
        status=1,
        files={LEXICON: b"x,1,1,x,\n"},
    ),
    Case(
        "why, no sources",
        "jseg --sources none --why",
        "も\n",
        err="none/matrix.def: F1 File",
        status=3,
    ),
    *(
        Case(f"rejected: {what}", command, "も\n", err=Has("jseg: "), status=2)
        for what, command in WRONG
    ),
]
