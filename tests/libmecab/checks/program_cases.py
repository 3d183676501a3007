"""What the program mecab does over the sample's dictionary."""
from dataclasses import dataclass, field
from typing import Union

from libmecab.checks.common import FIELDS

MOMO, SUMOMO = "もも\t名詞,もも\nEOS\n".encode(), "すもも\t名詞,すもも\nもも\t名詞,もも\nEOS\n".encode()
LONG, LONG_WORDS = ("もも" * 2_000 + "\n").encode(), ("もも " * 2_000 + "\n").encode()
NOT_UTF8 = "もも".encode() + b"\xff\n" + "もも\n".encode() + b"\xff\xff\n"
# Blanks that are longer than a node's length can be, and longer than a line of the library.
BLANKS, MORE_BLANKS = b" " * 66_000, b" " * 1_100_000
NEXT, NEXT_WORDS = "もも\n".encode(), "もも \n".encode()
# A word in surrogate pairs that is longer than a node's length can be, and its parts of 10,922
# characters at most. 25 unknown characters are a group at the end of each.
FIRST, PAIR, GROUP, PART = b"\xed\xa1\xa7\xed\xb8\xbd", b"\xed\xa1\x82\xed\xbe\xb7", 25, 10_922
LONG_WORD = FIRST + PAIR * 11_999
LONG_WORD_PARTS = (PAIR + b" ") * (PART - GROUP) + PAIR * GROUP + b" "
LONG_WORD_PARTS += (PAIR + b" ") * (12_000 - PART - GROUP) + PAIR * GROUP + b" "
LONG_WORD_PARTS = LONG_WORD_PARTS.replace(PAIR, FIRST, 1)
ONE_ODD = ("mecab: 1 bytes in 1 lines are not UTF-8",)
LAST = FIELDS - 1
LAST_FIELDS = ["-F", rf"%m %f[62] %f[63] %f[64] %f[{LAST}]|%f[{FIELDS}]|\n", "-U", r"%m\n"]
LAST_PRINTED = f"広 f62 f63 f64 f{LAST}||\n".encode()
ALL_MORPHS = "すもも もも も も \n".encode()
EMPTY_BOS = ("mecab: bos-feature is undefined in dicrc\n",)


@dataclass
class Case:
    """A run of the program mecab: its arguments, files and input, and what comes of them.

    In arguments, files and errors, HERE is the folder of the files. Standard error has one line for
    each text of `errors`, which is a part of it. `written` are files that the program writes.
    """

    what: str
    arguments: list[str] = field(default_factory=list)
    files: dict[str, Union[str, bytes]] = field(default_factory=dict)
    input: bytes = b""
    output: bytes = b""
    errors: tuple[str, ...] = ()
    status: int = 0
    written: dict[str, bytes] = field(default_factory=dict)


CASES = [
    Case("standard input", input="すもももも\n".encode(), output=SUMOMO),
    Case("`-` is standard input", ["-"], input="すもももも\n".encode(), output=SUMOMO),
    Case("the last line has no line feed", input="もも\nもも".encode(), output=MOMO + MOMO),
    Case(
        "each of two files",
        ["HERE/a", "HERE/b"],
        {"a": "もも\n", "b": "すもももも\n"},
        output=MOMO + SUMOMO,
    ),
    Case(
        "a missing file, after another one",
        ["HERE/a", "HERE/b"],
        {"a": "もも\n"},
        output=MOMO,
        errors=("mecab: HERE/b: No such file",),
        status=1,
    ),
    Case("a folder", ["HERE"], errors=("mecab: line 1: Is a directory\n",), status=1),
    Case("-o", ["-o", "HERE/out", "HERE/a"], {"a": "もも\n"}, written={"out": MOMO}),
    Case(
        "-o in a missing folder",
        ["-o", "HERE/b/out", "HERE/a"],
        {"a": "もも\n"},
        errors=("mecab: HERE/b/out: No such file",),
        status=1,
    ),
    Case(
        "-o on a full device",
        ["-o", "/dev/full"],
        input="もも\n".encode(),
        errors=("mecab: line 2: a write failed: No space left",),
        status=1,
    ),
    Case("a line of 12,000 bytes is one sentence", ["-Owakati"], input=LONG, output=LONG_WORDS),
    Case("so it is with a small -b", ["-Owakati", "-b", "10"], input=LONG, output=LONG_WORDS),
    Case(
        "U+0000 ends no line",
        ["-F%m|", "-E\\n"],
        input="もも\0もも\n".encode(),
        output="もも|\0|もも|\n".encode(),
    ),
    Case(
        "-M up to 1,000",
        ["-Owakati", "-M", "1000"],
        input="もも\n".encode(),
        output="もも \n".encode(),
    ),
    Case(
        "-M above 1,000",
        ["-M", "2000"],
        input="もも\n".encode(),
        errors=("mecab: max-grouping-size: K4 BadGrouping\n",),
        status=1,
    ),
    Case("-N 0", ["-N0"], errors=("mecab: invalid N value\n",), status=1),
    Case("-N 2", ["-N2"], errors=("mecab: N-best is not supported",), status=1),
    Case("-P", ["-P"], errors=("mecab: -P is not supported",), status=1),
    Case("-p", ["-p"], errors=("mecab: partial parsing is not supported",), status=1),
    Case(
        "-a",
        ["-a", "-F%pb%m|", "-E\\n"],
        input="すもももも\n".encode(),
        output="*すもも|*もも| も| も|\n".encode(),
    ),
    Case(
        "-a of bytes that are not UTF-8",
        ["-a", "-F%pb%m|", "-U%pb%m|", "-E\\n"],
        input="もも".encode() + b"\xff" + "もも\n".encode(),
        output="*もも| も| も|*".encode() + b"\xff" + "|*もも| も| も|\n".encode(),
        errors=("mecab: 1 bytes in 1 lines are not UTF-8",),
    ),
    Case("an unknown option", ["--nosuch"], errors=("mecab: --nosuch is not supported",), status=1),
    Case("-v", ["-v"], output=b"mecab of 0.996\n\n"),
    Case(
        "bytes that are not UTF-8 are reported once",
        ["-Owakati", "HERE/a", "HERE/b"],
        {"a": NOT_UTF8, "b": NOT_UTF8},
        output=("もも ".encode() + b"\xff \n" + "もも \n".encode() + b"\xff\xff \n") * 2,
        errors=("mecab: 6 bytes in 4 lines are not UTF-8, and were segmented as U+FFFD\n",),
    ),
    Case(
        "66,000 blanks before a byte that is not UTF-8",
        ["-Owakati"],
        input=BLANKS + b"a\xff\n" + NEXT,
        output=b"a \xff \n" + NEXT_WORDS,
        errors=ONE_ODD,
    ),
    Case(
        "66,000 blanks before a word that is printed from its node",
        ["-Owakati", "-x", "u"],
        input=BLANKS + NEXT + NEXT,
        output=NEXT_WORDS + NEXT_WORDS,
    ),
    Case(
        "66,000 blanks, and where a node starts",
        ["-xu", "-F", r"%ps %pl %pL\n"],
        input=BLANKS + NEXT,
        output=b"66000 6 65535\nEOS\n",
    ),
    Case(
        "66,000 blanks with -a",
        ["-a", "-Owakati"],
        input=BLANKS + "すもももも\n".encode() + NEXT,
        output=ALL_MORPHS + "もも も も \n".encode(),
    ),
    Case(
        "1.1 MB of blanks",
        ["-Owakati"],
        input=MORE_BLANKS + b"\n" + NEXT,
        output=b"\n" + NEXT_WORDS,
    ),
    Case(
        "1.1 MB of blanks before a word",
        ["-Owakati"],
        input=MORE_BLANKS + NEXT + NEXT,
        output=NEXT_WORDS + NEXT_WORDS,
    ),
    Case(
        "the cost after 1.1 MB of blanks",
        ["-F", r"%pc\n", "-E", r"%pc\n"],
        input=MORE_BLANKS + NEXT,
        output=b"40\n45\n",
    ),
    Case(
        "a word of 72,000 bytes",
        ["-Owakati"],
        input=LONG_WORD + b"\n" + NEXT,
        output=LONG_WORD_PARTS + b"\n" + NEXT_WORDS,
    ),
    Case(
        "each field of a long feature",
        LAST_FIELDS,
        input="広\n広".encode() + b"\xff\n",
        output=LAST_PRINTED + b"EOS\n" + LAST_PRINTED + b"\xff\nEOS\n",
        errors=ONE_ODD,
    ),
    Case(
        "what follows `--` is ignored",
        ["HERE/a", "--", "HERE/b", "-Owakati"],
        {"a": "もも\n", "b": "すもも\n"},
        output=MOMO,
    ),
    Case("a file after `--` is not opened", ["--", "HERE/nosuch"], input=NEXT, output=MOMO),
    Case(
        "a number that ends in a blank",
        ["-rHERE/rc", "-Owakati"],
        {"rc": "all-morphs = 1 \n"},
        "すもももも\n".encode(),
        ALL_MORPHS,
    ),
    Case(
        "a number that ends in CR",
        ["-rHERE/rc", "-Owakati"],
        {"rc": "all-morphs = 1\r\n"},
        "すもももも\n".encode(),
        ALL_MORPHS,
    ),
    Case(
        "a number that ends in a letter",
        ["-rHERE/rc", "-Owakati"],
        {"rc": "all-morphs = 1x\n"},
        NEXT,
        NEXT_WORDS,
    ),
    Case(
        "a type that ends in CR",
        ["-rHERE/rc"],
        {"rc": "output-format-type = wakati\r\n"},
        errors=("mecab: unknown format type [wakati\r]\n",),
        status=1,
    ),
    Case(
        "a line of CR",
        ["-rHERE/rc"],
        {"rc": "\r\n"},
        errors=("mecab: HERE/rc: line 1: no `=` in \r\n",),
        status=1,
    ),
    Case(
        "a feature that ends in a blank",
        ["-rHERE/rc", "-B[%H]", "-E\\n"],
        {"rc": "bos-feature = B \n"},
        b"\n",
        b"[B ]\n",
    ),
    Case(
        "an empty bos-feature", ["-rHERE/rc"], {"rc": "bos-feature =\n"}, errors=EMPTY_BOS, status=1
    ),
    Case(
        "a bos-feature of blanks",
        ["-rHERE/rc"],
        {"rc": "bos-feature = \r\n"},
        errors=EMPTY_BOS,
        status=1,
    ),
]
