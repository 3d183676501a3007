"""`jseg --lattice`: lattices as tables, and as graphs for Graphviz."""
from typing import List, Tuple

from .case import Case, Conditions, Files, Has
from .streams import DEVICES, FAILING

LEXICON = "a/lexicon.csv"
HEADING = (
    "place\tstart\tend\tsurface\tleft\tright\tcost\tknown\tdictionary\ttoken\t"
    "total\tthrough\tlost\tbest\tfeature\n"
)
PLUMS, PLUM, BEST = (
    "すもも\t1\t1\t100\tknown\t0\t0\t110\t152\t0\t*\t名詞,すもも",
    "もも\t1\t1\t30\tknown\t0\t2",
    "0\t*\t名詞,もも",
)

# The rows of a table, one a node. The connection costs are 10 from BOS to a word, 7 from word to
# word, and 5 from a word to EOS.
SUMOMO = [
    f"0\t0\t9\t{PLUMS}",
    "9\t9\t12\tも\t1\t1\t20\tknown\t0\t1\t137\t169\t17\t\t助詞,も",
    f"9\t9\t15\t{PLUM}\t147\t152\t{BEST}",
    "12\t12\t15\tも\t1\t1\t20\tknown\t0\t1\t164\t169\t17\t\t助詞,も",
]
MO = "0\t0\t3\tも\t1\t1\t20\tknown\t0\t1\t30\t35\t0\t*\t助詞,も"
TWICE = {LEXICON: "も,1,1,20,一\nも,1,1,20,二\nもも,1,1,47,三\n".encode()}
FIELDS = {LEXICON: 'も,1,1,20,"名詞 ""も""",も\\\n'.encode()}
USER = "もも\t1\t1\t1\tknown\t1\t0"
NO_FILES: Files = {}
# Without grouping there are two words, at 10 + 1000 and 1010 + 7 + 1000; the path costs 2017 + 5.
LETTERS = [
    f"{place}\t{place}\t{place + 1}\tz\t1\t1\t1000\tunknown\t\t5\t{total}\t2022\t0\t*\t未知"
    for place, total in ((0, 1010), (1, 2017))
]
TABLES: List[Tuple[str, str, str, List[str], Files]] = [
    # (what, options, line, rows, files)
    ("all nodes", "--sample", "すもももも", SUMOMO, {}),
    ("all nodes", "-d sys.img", "すもももも", SUMOMO, {}),
    ("all nodes", "--sources a", "すもももも", SUMOMO, {}),
    ("what lost by 17", "--sample --within 17", "すもももも", SUMOMO, {}),
    ("what lost by 16 at most", "--sample --within 16", "すもももも", [SUMOMO[0], SUMOMO[2]], {}),
    ("the best path alone", "-d sys.img --within 0", "すもももも", [SUMOMO[0], SUMOMO[2]], {}),
    ("no word", "--sample", "", [], {}),
    ("blanks alone", "--sample", "  ", [], {}),
    (
        "blanks before a word and after it",
        "--sample",
        " も ",
        ["0\t1\t4\tも\t1\t1\t20\tknown\t0\t1\t30\t35\t0\t*\t助詞,も"],
        {},
    ),
    (
        "a word of a user",
        "-d sys.img -u user.img",
        "もも",
        [
            "0\t0\t3\tも\t1\t1\t20\tknown\t0\t1\t30\t62\t46\t\t助詞,も",
            "0\t0\t6\tもも\t1\t1\t30\tknown\t0\t2\t40\t45\t29\t\t名詞,もも",
            f"0\t0\t6\t{USER}\t11\t16\t0\t*\t名詞,ユーザ",
            "3\t3\t6\tも\t1\t1\t20\tknown\t0\t1\t57\t62\t46\t\t助詞,も",
        ],
        {},
    ),
    (
        "words at one cost",
        "--sources a",
        "もも",
        [
            "0\t0\t3\tも\t1\t1\t20\tknown\t0\t0\t30\t62\t0\t*\t一",
            "0\t0\t3\tも\t1\t1\t20\tknown\t0\t1\t30\t62\t0\t\t二",
            "0\t0\t6\tもも\t1\t1\t47\tknown\t0\t2\t57\t62\t0\t\t三",
            "3\t3\t6\tも\t1\t1\t20\tknown\t0\t0\t57\t62\t0\t*\t一",
            "3\t3\t6\tも\t1\t1\t20\tknown\t0\t1\t57\t62\t0\t\t二",
        ],
        TWICE,
    ),
    (
        "an unknown word",
        "--sample",
        "もz",
        [
            MO.replace("\t35\t", "\t1042\t"),
            "3\t3\t4\tz\t1\t1\t1000\tunknown\t\t5\t1037\t1042\t0\t*\t未知",
        ],
        {},
    ),
    *(
        ("words without grouping", f"{command} -M 0", "zz", LETTERS, NO_FILES)
        for command in ("--sample", "-d sys.img", "--sources a")
    ),
    (
        "a tab and a backslash",
        "--sample",
        "\t\\",
        ["0\t0\t2\t\\t\\\\\t1\t1\t1000\tunknown\t\t3\t1010\t1015\t0\t*\t未知"],
        {},
    ),
    (
        "a carriage return",
        "--sample",
        "\r",
        ["0\t0\t1\t\\r\t1\t1\t1000\tunknown\t\t3\t1010\t1015\t0\t*\t未知"],
        {},
    ),
    (
        "a backslash in a feature",
        "--sources a",
        "も",
        ['0\t0\t3\tも\t1\t1\t20\tknown\t0\t0\t30\t35\t0\t*\t"名詞 ""も""",も\\\\'],
        FIELDS,
    ),
]

BEST_BOX, BEST_EDGE = ", color=red, penwidth=2", " [color=red, penwidth=2]"


def graph(label: str, *lines: str) -> str:
    return "".join(
        f"{line}\n"
        for line in (
            "digraph {",
            "  rankdir=LR;",
            f'  label="{label}";',
            "  node [shape=circle];",
            *lines,
            "}",
        )
    )


def word(number: int, start: int, end: int, label: str, best: bool = True) -> str:
    """Returns the lines of the box of a node and of its edges."""
    box, edge = (BEST_BOX, BEST_EDGE) if best else ("", "")
    return f'  w{number} [shape=box{box}, label="{label}"];\n  {start} -> w{number} -> {end}{edge};'


FIRST = word(0, 0, 9, r"すもも\n名詞\ncost 100\ntotal 110\nlost 0")
SECOND = word(1, 9, 12, r"も\n助詞\ncost 20\ntotal 137\nlost 17", False)
THIRD = word(2, 9, 15, r"もも\n名詞\ncost 30\ntotal 147\nlost 0")
FOURTH = word(3, 12, 15, r"も\n助詞\ncost 20\ntotal 164\nlost 17", False)
UNKNOWN = r"\n未知\ncost 1000\ntotal 1010\nlost 0"
QUOTED = word(0, 0, 3, r"も\n名詞 \"も\"\ncost 20\ntotal 30\nlost 0")
CONTROLS, C1, NONE = (
    r"\\u{0}\\u{1f}\\u{7f}",
    "\\\\u{80}\\\\u{9f}\xa0",
    "\\\\u{fffe}\\\\u{ffff}\ufffd",
)
ODD = {LEXICON: "も,1,1,20,\ufffe\x1b\uffff\u0085\uffe6¢\n".encode()}
IN_FEATURE = word(
    0, 0, 3, "も\\n\\\\u{fffe}\\\\u{1b}\\\\u{ffff}\\\\u{85}\uffe6¢\\ncost 20\\ntotal 30\\nlost 0"
)
GRAPHS: List[Tuple[str, str, str, str, Files]] = [
    # (what, options, line, graph, files)
    ("all nodes", "--sample", "すもももも", graph("すもももも", FIRST, SECOND, THIRD, FOURTH), {}),
    ("all nodes", "-d sys.img", "すもももも", graph("すもももも", FIRST, SECOND, THIRD, FOURTH), {}),
    ("all nodes", "--sources a", "すもももも", graph("すもももも", FIRST, SECOND, THIRD, FOURTH), {}),
    ("what lost by 16 at most", "--sample --within 16", "すもももも", graph("すもももも", FIRST, THIRD), {}),
    ("no word", "--sample", "", graph(""), {}),
    (
        "a quote, an ampersand and a backslash",
        "--sample",
        '"&\\',
        graph(r"\"&amp;\\", word(0, 0, 3, r"\"&amp;\\" + UNKNOWN)),
        {},
    ),
    (
        "control characters",
        "--sample",
        "\0\x1f\x7f",
        graph(CONTROLS, word(0, 0, 3, CONTROLS + UNKNOWN)),
        {},
    ),
    (
        "controls of two bytes",
        "--sample",
        "\x80\x9f\xa0",
        graph(C1, word(0, 0, 6, C1 + UNKNOWN)),
        {},
    ),
    (
        "no characters",
        "--sample",
        "\ufffe\uffff\ufffd",
        graph(NONE, word(0, 0, 9, NONE + UNKNOWN)),
        {},
    ),
    ("no character in a feature", "--sources a", "も", graph("も", IN_FEATURE), ODD),
    ("a field with quotes", "--sources a", "も", graph("も", QUOTED), FIELDS),
]


def table(*rows: str) -> str:
    return HEADING + "".join(f"{row}\n" for row in rows) + "\n"


ONE = table(MO)
BAD = b"\xe3\x82\x82\n\xff\n\xe3\x82\x82\n"
FORMS = ["--lattice tsv", "--lattice dot"]
CONFLICTS = ["-O wakati", "-F %m", "-U %m", "-B x", "-E x"]
WRONG = [
    # (what, command)
    ("no form", "jseg --sample --lattice"),
    ("another form", "jseg --sample --lattice svg"),
    ("a form twice", "jseg --sample --lattice tsv --lattice dot"),
    ("a bound without a form", "jseg --sample --within 5"),
    ("a bound below 0", "jseg --sample --lattice dot --within -1"),
    ("a bound of no number", "jseg --sample --lattice dot --within x"),
    ("a bound above 2 ^ 63", "jseg --sample --lattice dot --within 9223372036854775808"),
    ("a list of images", "jseg --dictionaries --lattice tsv"),
    ("a list of images within a bound", "jseg --dictionaries --within 5"),
    *((f"a form and {command}", f"jseg --sample --lattice tsv {command}") for command in CONFLICTS),
]

CASES = [
    *(
        Case(
            f"a table of {what}, {command}",
            f"jseg --lattice tsv {command}",
            f"{line}\n",
            table(*rows),
            files=files,
        )
        for what, command, line, rows, files in TABLES
    ),
    *(
        Case(
            f"a graph of {what}, {command}",
            f"jseg --lattice dot {command}",
            f"{line}\n",
            text,
            files=files,
        )
        for what, command, line, text, files in GRAPHS
    ),
    Case("two tables", "jseg --sample --lattice tsv", "も\n\nも", ONE + table() + ONE),
    Case("two graphs", "jseg --sample --lattice dot --within 0", "\n\n", graph("") + graph("")),
    *(Case(f"no text, {form}", f"jseg --sample {form}") for form in FORMS),
    Case(
        "a table before a bad line",
        "jseg --sample --lattice tsv",
        BAD,
        ONE,
        "line 2: G3 NotUtf8",
        1,
    ),
    Case(
        "a table before a bad line, an image",
        "jseg -d sys.img --lattice tsv",
        BAD,
        ONE,
        "line 2: G3 NotUtf8",
        1,
    ),
    Case(
        "a table before input that fails",
        "jseg --sample --lattice tsv",
        "も\nす",
        ONE,
        "line 2: G1 Read",
        3,
        conditions=FAILING,
    ),
    *(
        Case(
            f"{form}, output {what}",
            f"jseg --sample {form}",
            "も\n",
            err="G2 Write 0",
            status=3,
            conditions=conditions,
        )
        for form in FORMS
        for what, conditions in DEVICES
    ),
    Case(
        "a table of 5 bytes",
        "jseg --sample --lattice tsv",
        "も\n",
        "place",
        "G2 Write 5",
        3,
        conditions=Conditions(stdout="file", max_file=5),
    ),
    Case(
        "a lattice of sources at fault",
        "jseg --sources a --lattice tsv",
        "も\n",
        err="a/lexicon.csv:1: S3 BadNumber",
        status=1,
        files={LEXICON: b"x,1,1,x,\n"},
    ),
    Case(
        "a lattice of no sources",
        "jseg --sources none --lattice dot",
        "も\n",
        err="none/matrix.def: F1 File",
        status=3,
    ),
    *(
        Case(f"rejected: {what}", command, "も\n", err=Has("jseg: "), status=2)
        for what, command in WRONG
    ),
]
