"""Sources in each encoding, and sources whose encoding can't be found.

The image is the same as that of the sources in UTF-8.
"""
import os
import subprocess
from pathlib import Path
from typing import Dict, Iterator, List, NamedTuple, Tuple

from .common import FILES, NAME, Arguments, Files, Name, compiled, files_of, in_code, lay


class Case(NamedTuple):
    """A directory of sources, the encoding that is reported, and its lexicons in UTF-8.

    If it is rejected, `err` is the error.
    """

    name: str
    files: Files
    encoding: str = ""
    utf_8: Files = {}
    left_out: Tuple[str, ...] = ()
    err: str = ""
    options: Arguments = ()


def utf_8(**others: str) -> Dict[str, bytes]:
    return files_of({name: text.encode() for name, text in others.items()})


def plain(**others: bytes) -> Dict[str, bytes]:
    """Returns definitions of ASCII only, and other files."""
    definitions = {
        name: data.decode().replace("未知", "X").encode()
        for name, data in FILES.items()
        if not name.endswith(".csv")
    }
    return {**definitions, **files_of(others)}


def charset(name: str, key: str = "config-charset") -> bytes:
    return f"cost-factor = 800\n{key} = {name}\n".encode()


def choice(*summaries: str) -> str:
    return "dic: the encoding is ambiguous, choose one with --encoding: " + "; ".join(summaries)


def all_fail(at: str) -> List[str]:
    return [f"{name} first fails at dic/{at}" for name in ("UTF-8", "EUC-JP", "EUC-JIS-2004")]


WORDS = FILES["lexicon.csv"].decode()
N = "ん,1,1,5,X\n"
ALPHA = b"\xce\xb1,1,1,5,X\n"
KANA = b"\xb1,1,1,5,X\n"
MIDDLE = b"\xe4\xb8\xad\xe4\xb8\xad,1,1,5,X\n"
ONE = b"\xad\xa1,1,1,5,X\n"
EUC_BROKEN = b"\xa4,1,1,5,X\n"
ISO = {name: data.decode().encode("iso2022_jp") for name, data in FILES.items()}
ESCAPED = (
    "has an escape sequence of ISO-2022-JP: "
    "use --encoding iso-2022-jp, or the encoding that the file has"
)
MIXED = (
    "all files must have the same encoding, which --encoding can set to "
    "utf-8, euc-jp, euc-jis-2004, cp932 or iso-2022-jp"
)
ANY = ("UTF-8 fits", "EUC-JP fits", "EUC-JIS-2004 fits", "CP932 would give half-width kana")
CASES: List[Case] = [
    Case("UTF-8", FILES, "UTF-8"),
    Case("EUC-JP", in_code("euc_jp"), "EUC-JP"),
    Case("CP932", in_code("cp932"), "CP932"),
    Case("ASCII", plain(a_csv=b"A,1,1,5,X\n"), "UTF-8", utf_8(a_csv="A,1,1,5,X\n")),
    Case("UTF-8 whatever dicrc says", {**FILES, "dicrc": charset("EUC-JP")}, "UTF-8"),
    Case("EUC-JP whatever dicrc says", {**in_code("euc_jp"), "dicrc": charset("utf8")}, "EUC-JP"),
    # NEC's characters, and others that one encoding alone has at their position
    Case("NEC's in EUC-JP", in_code("euc_jp", a_csv=ONE), "EUC-JP", utf_8(a_csv="①,1,1,5,X\n")),
    Case(
        "NEC's that JIS X 0213 lacks",
        in_code("euc_jp", a_csv=b"\xad\xf0,1,1,5,X\n"),
        "EUC-JP",
        utf_8(a_csv="≒,1,1,5,X\n"),
    ),
    Case(
        "NEC's in CP932",
        in_code("cp932", a_csv=b"\x87\x40,1,1,5,X\n"),
        "CP932",
        utf_8(a_csv="①,1,1,5,X\n"),
    ),
    Case(
        "the tilde of JIS X 0212",
        in_code("euc_jp", a_csv=b"\x8f\xa2\xb7,1,1,5,X\n"),
        "EUC-JP",
        utf_8(a_csv="～,1,1,5,X\n"),
    ),
    Case(
        "JIS X 0213",
        in_code("euc_jp", a_csv=b"\xcf\xd4,1,1,5,X\n" * 2 + WORDS.encode("euc_jp")),
        err=choice(
            "UTF-8 first fails at dic/unk.def:1",
            "EUC-JP first fails at dic/a.csv:1",
            "EUC-JIS-2004 fits",
            "CP932 first fails at dic/a.csv:3",
        ),
    ),
    Case(
        "JIS X 0213 named",
        in_code("euc_jp", a_csv=b"\xcf\xd4,1,1,5,X\n"),
        "EUC-JIS-2004",
        utf_8(a_csv="𠮟,1,1,5,X\n"),
        options=("--encoding", "euc-jis-2004"),
    ),
    Case(
        "JIS X 0213 in dicrc",
        in_code("euc_jp", a_csv=b"\xcf\xd4,1,1,5,X\n", dicrc=b"config-charset=EUC-JISX0213\n"),
        "EUC-JIS-2004",
        utf_8(a_csv="𠮟,1,1,5,X\n"),
    ),
    # half-width kana
    Case(
        "half-width kana in EUC-JP",
        in_code("euc_jp", a_csv=b"\x8e\xb1,1,1,5,X\n"),
        "EUC-JP",
        utf_8(a_csv="ｱ,1,1,5,X\n"),
    ),
    Case(
        "half-width kana in CP932",
        in_code("cp932", a_csv=KANA),
        "CP932",
        utf_8(a_csv="ｱ,1,1,5,X\n"),
    ),
    Case(
        "half-width kana alone",
        plain(a_csv=KANA),
        err=choice(*all_fail("a.csv:1"), "CP932 would give half-width kana"),
    ),
    Case(
        "half-width kana named",
        plain(a_csv=KANA),
        "CP932",
        utf_8(a_csv="ｱ,1,1,5,X\n"),
        options=("--encoding", "shift_jis"),
    ),
    # a character or two, of several codes
    Case("alpha or another", plain(a_csv=ALPHA), err=choice(*ANY)),
    Case(
        "alpha named",
        plain(a_csv=ALPHA),
        "UTF-8",
        utf_8(a_csv="α,1,1,5,X\n"),
        options=("--encoding", "utf-8"),
    ),
    Case(
        "dicrc tells",
        {**plain(a_csv=ALPHA), "dicrc": charset("EUC-JP")},
        "EUC-JP",
        utf_8(a_csv="留,1,1,5,X\n"),
    ),
    Case(
        "dicrc tells of lexicons",
        {**plain(a_csv=ALPHA), "dicrc": charset("utf-8") + charset("eucjp", "dictionary-charset")},
        "EUC-JP",
        utf_8(a_csv="留,1,1,5,X\n"),
    ),
    Case(
        "dicrc tells of another",
        {**plain(a_csv=ALPHA), "dicrc": charset("UTF-16")},
        err=choice(*ANY),
    ),
    Case(
        "dicrc and the text differ",
        {**plain(a_csv=MIDDLE), "dicrc": charset("EUC-JP")},
        err=choice("UTF-8 fits", "EUC-JP fits", "EUC-JIS-2004 fits", "CP932 fits"),
    ),
    Case("three bytes of UTF-8", plain(a_csv=MIDDLE), "UTF-8", utf_8(a_csv="中中,1,1,5,X\n")),
    # lines that are in no code, and files that are in another one
    Case(
        "a broken line of EUC-JP",
        in_code("euc_jp", a_csv=EUC_BROKEN + b"A,1,1,5,X\n" + "ん,1,1,5,X\n".encode("euc_jp") * 2),
        "EUC-JP",
        utf_8(a_csv="A,1,1,5,X\n" + "ん,1,1,5,X\n" * 2),
        ("a.csv:1: not EUC-JP",),
    ),
    Case(
        "a broken comment",
        {**FILES, "char.def": b"# \xff\n" + "# あ\n".encode() * 2 + FILES["char.def"]},
        "UTF-8",
        {},
        ("char.def:1: not UTF-8",),
    ),
    Case(
        "a file in another code",
        {**in_code("euc_jp"), "user.csv": "ん,1,1,5,X\n".encode()},
        err=f"dic/user.csv: 1 of 1 non-ASCII lines are not EUC-JP: {MIXED}",
    ),
    Case(
        "a large file in another code",
        in_code("euc_jp", A_csv=N.encode() * 200, z_csv=N.encode("euc_jp") * 1000),
        err=choice(
            "UTF-8 first fails at dic/unk.def:1",
            *(f"{name} first fails at dic/A.csv:1" for name in ("EUC-JP", "EUC-JIS-2004", "CP932")),
        ),
    ),
    Case(
        "the wrong code named",
        FILES,
        err=f"dic/unk.def: 6 of 6 non-ASCII lines are not EUC-JP: {MIXED}",
        options=("--encoding", "euc"),
    ),
    Case(
        "UTF-16",
        {
            name: data if name == "matrix.def" else data.decode().encode("utf-16")
            for name, data in FILES.items()
        },
        err=choice(*all_fail("char.def:1"), "CP932 first fails at dic/char.def:1"),
    ),
    # escape sequences
    Case("ISO-2022-JP", ISO, err=f"dic/unk.def:1 {ESCAPED}"),
    Case("ISO-2022-JP named", ISO, "ISO-2022-JP", options=("--encoding", "iso-2022-jp")),
    Case("ISO-2022-JP in dicrc", {**ISO, "dicrc": charset("ISO-2022-JP")}, "ISO-2022-JP"),
    Case(
        "ISO-2022-JP among others",
        {**FILES, "user.csv": "ん,1,1,5,X\n".encode("iso2022_jp")},
        err=f"dic/user.csv:1 {ESCAPED}",
    ),
    Case(
        "another escape",
        {**FILES, "user.csv": b"\x1b[m,1,1,5,X\n"},
        "UTF-8",
        utf_8(user_csv="\x1b[m,1,1,5,X\n"),
    ),
    # the order of files: of two equal entries the first one is printed
    Case(
        "byte order",
        {
            **plain(),
            "B.csv": b"A,1,1,5,first\n",
            "a.csv": b"A,1,1,5,second\n",
            ".csv": b"A,1,1,9,third\n",
        },
        "UTF-8",
        {".csv": b"A,1,1,9,third\n", "B.csv": b"A,1,1,5,first\n", "a.csv": b"A,1,1,5,second\n"},
    ),
]


def sources_of(case: Case) -> Tuple[Files, List[Name]]:
    """Returns the sources of a case in UTF-8, and its lexicons in their order."""
    own = FILES if "lexicon.csv" in case.files else plain()
    kept = {name: data for name, data in own.items() if is_kept(name, case)}
    files = {**kept, **case.utf_8}
    return files, sorted(filter(is_lexicon, files), key=os.fsencode)


def is_lexicon(name: Name) -> bool:
    return os.fsencode(name).endswith(b".csv")


def is_kept(name: Name, case: Case) -> bool:
    return not is_lexicon(name) or name in case.files


def failures(case: Case, programs: Path, work: Path) -> Iterator[str]:
    """Runs a case in the directory `work`, and yields what differs from it."""
    lay(str(work / "dic"), case.files)
    done = subprocess.run(
        [str(programs / NAME), *case.options, "dic", "new.img"],
        cwd=work,
        capture_output=True,
        text=True,
    )
    if case.err:
        found = done.stderr, done.returncode
        if found != (f"{NAME}: {case.err}\n", 1) or (work / "new.img").exists():
            yield f"status {done.returncode}, {done.stderr!r}, expected 1, {case.err!r}"
        return
    if done.returncode != 0 or f"encoding: {case.encoding}\n" not in done.stdout:
        yield f"status {done.returncode}, {done.stdout!r}, {done.stderr!r}"
        return
    yield from left_out_failures(case, done.stdout)
    if (work / "new.img").read_bytes() != compiled(programs, work / "expected", *sources_of(case)):
        yield "makes another image than dictc from the sources in UTF-8"


def left_out_failures(case: Case, out: str) -> Iterator[str]:
    """Yields what is wrong with the lines that are left out."""
    left_out = [
        line.removeprefix("left out: dic/")
        for line in out.splitlines()
        if line.startswith("left out: ")
    ]
    if left_out != list(case.left_out) or not out.endswith(f"\n{len(left_out)} lines left out\n"):
        yield f"leaves out {left_out}, expected {list(case.left_out)}"
