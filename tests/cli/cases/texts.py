"""Texts that are segmented, by dictionary and by options; texts and formats that are rejected."""
from typing import Iterator

from .case import ANY, CHARS, DEFINITIONS, MATRIX, SYSTEM, UNK, USER, Case, Files

SUMOMO = "すもも\t名詞,すもも\nもも\t名詞,もも\nEOS\n"
MO = "も\t助詞,も\nEOS\n"

DICTIONARIES = [
    Case("the sample", "jseg --sample", "すもももも\n", SUMOMO),
    Case("an image", "jseg -d sys.img", "すもももも\n", SUMOMO),
    Case("sources", "jseg --sources a", "すもももも\n", SUMOMO),
    Case("a path with a slash after it", "jseg --sources ./a/", "すもももも\n", SUMOMO),
    Case("a user", "jseg -d sys.img -u user.img", "もも\n", "もも\t名詞,ユーザ\nEOS\n"),
    Case("two users", "jseg -d sys.img -u user.img -u second.img", "もも\n", "もも\t名詞,ユーザ\nEOS\n"),
    Case(
        "in the other order",
        "jseg -u second.img -d sys.img -u user.img",
        "もも\n",
        "もも\t名詞,二番\nEOS\n",
    ),
]

NO_LEXICON = {"a/lexicon.csv": None}
THREE = {
    "a/b.csv": b"a,1,1,10,second\n",
    "a/B.csv": b"a,1,1,10,first\n",
    "a/é.csv": b"a,1,1,10,third\n",
}
NOT_READ: Files = {
    "a/dicrc": b"x",
    "a/lexicon.csv.bak": b"x",
    "a/left-id.def": b"x",
    "a/csv": b"x",
    "a/folder": {},
}
DIRECTORIES = [
    Case("no .csv", "jseg --sources a", "も\n", "も\t未知\nEOS\n", files=NO_LEXICON),
    Case("in byte order of the names", "jseg --sources a", "a\n", "a\tfirst\nEOS\n", files=THREE),
    Case(
        "a name of .csv alone",
        "jseg --sources a",
        "a\n",
        "a\tX\nEOS\n",
        files={"a/.csv": b"a,1,1,10,X\n"},
    ),
    Case("files that are not read", "jseg --sources a", "すもももも\n", SUMOMO, files=NOT_READ),
]

# Sources that are compiled. The segmentation of a text shows what was compiled.
SEGMENT = r"jseg -d new.img -F '%m %H;' -E '%pc\n'"
OTHERS = {
    "matrix": MATRIX.replace(b"0 1 10", b"0 1 11"),
    "char": CHARS + b"0x3000 SPACE\n",
    "unk": UNK.replace("ALPHA,1,1,1000,未知".encode(), b"ALPHA,1,1,500,U"),
    "x.csv": b"a,1,1,10,X\n",
    "y.csv": b"a,1,1,10,Y\n",
    "-z.csv": b"a,1,1,10,Z\n",
    "skipped.csv": "\n,1,1,5,X\n,x,y,z,w\nも,1,1,20,Y\r\n".encode(),
    "lexicon_lines.csv": "\n,1,1,5,X\nも,1,1,20,Y\r\n".encode(),
    "quoted.csv": b'"a,b",1,1,10,X\n"a""b",1,1,10,Y',
    "none.csv": b"",
    "none.def": b"",
}
ALL = f"{SYSTEM} a/lexicon.csv"
WITH = SYSTEM.replace(" a/", "=a/").replace(" new", "=new")
COMPILED = [
    # (what, command, text, output of dictc, output of jseg with the new image)
    ("the sample", ALL, "すもももも", "3 entries, 0 skipped", "すもも 名詞,すもも;もも 名詞,もも;152"),
    (
        "options after operands",
        f"dictc system a/lexicon.csv {DEFINITIONS} --out new.img",
        "も",
        "3 entries, 0 skipped",
        "も 助詞,も;35",
    ),
    ("options with =", f"{WITH} a/lexicon.csv", "も", "3 entries, 0 skipped", "も 助詞,も;35"),
    (
        "another matrix",
        ALL.replace("a/matrix.def", "matrix"),
        "もも",
        "3 entries, 0 skipped",
        "もも 名詞,もも;46",
    ),
    (
        "other categories",
        ALL.replace("a/char.def", "char"),
        "　すもも　",
        "3 entries, 0 skipped",
        "すもも 名詞,すもも;115",
    ),
    (
        "other unknown words",
        ALL.replace("a/unk.def", "unk"),
        "z",
        "3 entries, 0 skipped",
        "z U;515",
    ),
    ("two lexicons", f"{SYSTEM} x.csv y.csv", "a", "2 entries, 0 skipped", "a X;25"),
    ("in the other order", f"{SYSTEM} y.csv x.csv", "a", "2 entries, 0 skipped", "a Y;25"),
    ("a path with a hyphen", f"{SYSTEM} -- -z.csv", "a", "1 entries, 0 skipped", "a Z;25"),
    ("skipped lines", f"{SYSTEM} skipped.csv", "も", "1 entries, 2 skipped", "も Y;35"),
    ("lexicon_lines", f"{SYSTEM} lexicon_lines.csv", "も", "1 entries, 1 skipped", "も Y;35"),
    ("quoted surfaces", f"{SYSTEM} quoted.csv", 'a,ba"b', "2 entries, 0 skipped", 'a,b X;a"b Y;42'),
    ("no entry", f"{SYSTEM} none.csv", "も", "0 entries, 0 skipped", "も 未知;1015"),
]
USERS = [
    ("a user", f"{USER} user.csv", "もも", "1 entries, 0 skipped", "もも 名詞,ユーザ;16"),
    ("a user with two lexicons", f"{USER} user.csv y.csv", "a", "2 entries, 0 skipped", "a Y;25"),
    ("a user with a skipped line", f"{USER} skipped.csv", "も", "1 entries, 2 skipped", "も 助詞,も;35"),
]


def compiled(what: str, command: str, text: str, line: str, out: str, by: str = SEGMENT) -> Case:
    """Returns a run of dictc, and then one of jseg with the new image."""
    return Case(
        f"compiled: {what}",
        command,
        f"{text}\n",
        f"{line}\n{out}\n",
        files=OTHERS,
        changes={"new.img": ANY},
        second=by,
    )


# The options of segmentation and output.
LONG = 1_048_576
OPTIONS = [
    # (options, text, output)
    (r"-F '%m/%f[0]/%c/%pn/%pc\s' -E '%pc\n'", "すもももも", "すもも/名詞/100/110/110 もも/名詞/30/37/147 152\n"),
    (
        r"-F '%M|%ps|%pe|%pl|%pL|%pS;' -E '%L\n'",
        " すもも  もも ",
        " すもも|1|10|9|10| ;  もも|12|18|6|8|  ;19\n",
    ),
    (r"-B '[%S]' -F '%m/' -E '%L|%pc\n'", "すもも", "[すもも]すもも/9|115\n"),
    (r"-F '%phl,%phr,%pC;'", "すもももも", "1,1,10;1,1,7;EOS\n"),
    (r"-F '%m:%s\s'", "もz", "も:0 z:1 EOS\n"),
    (r"-F '%f[9]|%f[0]|%%\s'", "z", "|未知|% EOS\n"),
    (r"-F '%m;%S;%L\n'", "も", "も;も;3\nEOS\n"),
    (r"-F '%t%H\n'", "アz", "3未知\n2未知\nEOS\n"),
    (r"-U '<%m>\n'", "もz", "も\t助詞,も\n<z>\nEOS\n"),
    (r"-F '%m\s' -U '<%m>\s'", "もz", "も <z> EOS\n"),
    (r"-B '%S|%L|%%\n'", "も", "も|3|%\nも\t助詞,も\nEOS\n"),
    (r"-E '%S|%L|%%|%pc\n'", "も", "も\t助詞,も\nも|3|%|35\n"),
    (r"-F '' -E '-%pc\n'", "も", "-35\n"),
    (r"-F '-%m' -E '\0\a\b\t\n\v\f\r\s\\'", "も", "-も\0\a\b\t\n\v\f\r \\"),
    (r"-F%m -E\\n", "も", "も\n"),
    ("-O wakati", " すもも  もも ", "すもも もも \n"),
    ("-O wakati -F %q -U %q -B %q -E %q", "もz", "も z \n"),
    (r"-F '' -E '%pc\n'", "z" * 25, "1015\n"),
    (r"-F '' -E '%pc\n'", "z" * 26, "2022\n"),
    (r"-M 25 -F '' -E '%pc\n'", "z" * 26, "1015\n"),
    (r"-M 25 -F '' -E '%pc\n'", "z" * 27, "2022\n"),
    (r"-M 24 -F '' -E '%pc\n'", "z" * 26, "2022\n"),
    (r"-M 0 -F '' -E '%pc\n'", "zz", "2022\n"),
    ("-M0 -O wakati", "アイ", "ア イ \n"),
    (r"-M 1000 -F '' -E '%pc\n'", "z" * 1001, "1015\n"),
    (r"-F '' -E '%pc\n'", "z" * LONG, "1055891872\n"),
]


def with_options(options: str, text: str, out: str) -> Iterator[Case]:
    """Yields the runs with the sample, with an image and with sources."""
    for by in ("--sample", "-d sys.img", "--sources a"):
        yield Case(f"{options} {by}, {text[:30]}", f"jseg {by} {options}", f"{text}\n", out)


TEXTS = [
    Case("no text", "jseg --sample"),
    Case("an empty line", "jseg --sample", "\n", "EOS\n"),
    Case("blanks alone", "jseg --sample", "   \n", "EOS\n"),
    Case("a line without its end", "jseg --sample", "も\nも", MO + MO),
    Case("a carriage return", "jseg --sample -O wakati", "も\r\n", "も \r \n"),
    Case("a character after U+FFFF", "jseg --sample -O wakati", "𠮷野\n", "𠮷 野 \n"),
    Case(
        "not UTF-8",
        "jseg --sample",
        b"\xe3\x82\x82\n\xff\n\xe3\x82\x82\n",
        MO,
        "line 2: G3 NotUtf8",
        1,
    ),
    Case(
        "not UTF-8 at the end",
        "jseg --sample",
        b"\xe3\x82\x82\n\xe3\x82",
        MO,
        "line 2: G3 NotUtf8",
        1,
    ),
    Case(
        "a line that is too long",
        "jseg --sample",
        "も\n" + "z" * (LONG + 1),
        MO,
        "line 2: G4 TooLong",
        1,
    ),
    Case(
        "too long before not UTF-8",
        "jseg --sample",
        b"\xff" + b"z" * LONG,
        "",
        "line 1: G4 TooLong",
        1,
    ),
]

# (options, error)
FORMATS = [
    (r"-F 'a\'", "P1 BadEscape 1"),
    (r"-F '\q'", "P1 BadEscape 0"),
    (r"-F '%f[9]|%f[0]|%%\s%q'", "P2 BadItem 16"),
    ("-F 'ab%'", "P2 BadItem 2"),
    ("-F '%f[65536]'", "P3 BadIndex 0"),
    ("-F '%f[1,2]'", "P3 BadIndex 0"),
    ("-F '%m%f'", "P3 BadIndex 2"),
    ("-F 'も%f[x]'", "P3 BadIndex 3"),
    ("-U '%q'", "P2 BadItem 0"),
    ("-B '%pc'", "P2 BadItem 0"),
    ("-E ' %m'", "P2 BadItem 1"),
    (r"-E '\' -B ' \q' -U '  %q' -F '   %f'", "P3 BadIndex 3"),
    (r"-E '\' -B ' \q' -U '  %q'", "P2 BadItem 2"),
    (r"-E '\' -B ' \q'", "P1 BadEscape 1"),
]

CASES = [
    *DICTIONARIES,
    *DIRECTORIES,
    *(compiled(*row) for row in COMPILED),
    *(compiled(*row, by=SEGMENT.replace("new.img", "sys.img -u new.img")) for row in USERS),
    *(run for row in OPTIONS for run in with_options(*row)),
    *TEXTS,
    *(
        Case(f"{options}: {fault}", f"jseg --sample {options}", "も\n", err=fault, status=2)
        for options, fault in FORMATS
    ),
    Case("a format before an image", "jseg -d none.img -F %q", err="P2 BadItem 0", status=2),
]
