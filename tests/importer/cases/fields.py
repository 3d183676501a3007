"""The names of a feature's fields, which are written beside the image, or why none are."""
import subprocess
from pathlib import Path
from typing import Dict, Iterator, List, Mapping, NamedTuple, Optional

from .common import NAME, headed, in_code, lay

# The fields in the documents of each dictionary.
IPADIC = "pos1 pos2 pos3 pos4 conjugation_type conjugation_form base_form reading pronunciation"
NAIST = f"{IPADIC} spelling_variants compound"
JUMAN = "pos1 pos2 conjugation_type conjugation_form base_form reading semantic_information"
UNIDIC = (
    "pos1 pos2 pos3 pos4 cType cForm lForm lemma orth pron orthBase pronBase goshu "
    "iType iForm fType fForm"
)
UNIDIC_ACCENTS = f"{UNIDIC} kana kanaBase form formBase iConType fConType aType aConType aModType"
UNKNOWN = "not named: dicrc belongs to no dictionary whose field names are known"


class Case(NamedTuple):
    """A dicrc and lexicons, what is reported, and the names that are written; None for no file."""

    name: str
    dicrc: Optional[str]
    lexicons: Mapping[str, str]
    message: str
    names: Optional[str] = None
    encoding: str = "utf-8"


def dicrc(bos: int, yomi: str = "") -> str:
    """Returns the settings of a dictionary whose `bos-feature` has `bos` fields."""
    return f"; a comment\ncost-factor = 800\nbos-feature = BOS/EOS{',*' * (bos - 1)}\n" + (
        f"node-format-yomi = {yomi}\n" if yomi else ""
    )


def entries(*counts: int) -> str:
    """Returns a lexicon whose entries have these numbers of fields."""
    return "".join(f"ん,1,1,5,{','.join(['X'] * count)}\n" for count in counts)


def listing(names: str) -> str:
    """Returns a dicrc as UniDic has it since version 2.2."""
    return (
        "; List of features\n"
        + "".join(f"; f[{number}]:  {name}\n" for number, name in enumerate(names.split()))
        + dicrc(17)
    )


LIKE_IPADIC = dicrc(9, "%pS%f[7]")
QUOTED = 'ん,1,1,5,"a,b"\n"a,b", 1 ,1,5, "a""b,",\n" ","1",1,5,a"b,"c\n'
CASES: List[Case] = [
    Case("IPADIC", LIKE_IPADIC, {"a.csv": entries(9, 9)}, "9, with the names of IPADIC", IPADIC),
    Case(
        "IPADIC in EUC-JP",
        LIKE_IPADIC,
        {"a.csv": entries(9, 9)},
        "9, with the names of IPADIC",
        IPADIC,
        "euc_jp",
    ),
    Case("NAIST", LIKE_IPADIC, {"a.csv": entries(11)}, "11, with the names of NAIST", NAIST),
    Case(
        "Juman",
        dicrc(7, "%pS%f[5]"),
        {"a.csv": entries(7), "b.csv": entries(7)},
        "7, with the names of Juman",
        JUMAN,
    ),
    Case("UniDic", dicrc(17), {"a.csv": entries(17)}, "17, with the names of UniDic", UNIDIC),
    Case(
        "UniDic with accents",
        dicrc(17),
        {"a.csv": entries(26)},
        "26, with the names of UniDic",
        UNIDIC_ACCENTS,
    ),
    Case(
        "a list",
        listing("pos1 lemma kana"),
        {"a.csv": entries(3)},
        "3, with the names in dicrc",
        "pos1 lemma kana",
    ),
    Case(
        "a list for another number",
        listing("pos1 lemma"),
        {"a.csv": entries(3)},
        "not named: each entry has 3, but dicrc belongs to a dictionary with 2",
    ),
    Case("a list without a beginning", "; f[1]: lemma\n", {"a.csv": entries(2)}, UNKNOWN),
    Case("a list of one name", listing("pos1 pos1"), {"a.csv": entries(2)}, UNKNOWN),
    Case("a list of what is no name", listing("pos1 品詞-2"), {"a.csv": entries(2)}, UNKNOWN),
    Case(
        "quotes",
        listing("a b"),
        {"a.csv": QUOTED.replace('"a,b"\n', '"a,b",\n', 1)},
        "2, with the names in dicrc",
        "a b",
    ),
    Case(
        "quotes apart",
        listing("a b"),
        {"a.csv": QUOTED},
        "not named: dic/a.csv:1 has 1, and dic/a.csv:2 has 2",
    ),
    Case(
        "blank lines",
        listing("a b"),
        {"a.csv": "\n \t\n\r\n" + entries(2).replace("\n", "\r\n")},
        "2, with the names in dicrc",
        "a b",
    ),
    Case(
        "no line feed",
        listing("a b"),
        {"a.csv": entries(2)[:-1]},
        "2, with the names in dicrc",
        "a b",
    ),
    Case("no dicrc", None, {"a.csv": entries(9)}, "not named: there is no dicrc"),
    Case("another dicrc", dicrc(8), {"a.csv": entries(9)}, UNKNOWN),
    Case("another reading", dicrc(9, "%pS%f[8]"), {"a.csv": entries(9)}, UNKNOWN),
    Case("no reading", dicrc(9), {"a.csv": entries(9)}, UNKNOWN),
    Case(
        "another number",
        LIKE_IPADIC,
        {"a.csv": entries(10)},
        "not named: each entry has 10, but dicrc belongs to a dictionary with 9 or 11",
    ),
    Case(
        "two numbers in a file",
        LIKE_IPADIC,
        {"a.csv": entries(9, 9, 10)},
        "not named: dic/a.csv:1 has 9, and dic/a.csv:3 has 10",
    ),
    Case(
        "two numbers in two files",
        LIKE_IPADIC,
        {"b.csv": entries(8), "a.csv": entries(9)},
        "not named: dic/a.csv:1 has 9, and dic/b.csv:1 has 8",
    ),
    Case("no entry", LIKE_IPADIC, {"a.csv": "\n"}, "not named: there are no entries"),
]


def sources_of(case: Case) -> Dict[str, bytes]:
    """Returns the definitions of the sample with the dicrc and lexicons of a case."""
    files = {name: data for name, data in in_code(case.encoding).items() if name != "lexicon.csv"}
    for name, text in case.lexicons.items():
        files[name] = text.encode(case.encoding)
    if case.dicrc is not None:
        files["dicrc"] = case.dicrc.encode(case.encoding)
    return files


def failures(case: Case, programs: Path, work: Path) -> Iterator[str]:
    """Runs a case, and yields what differs. The names of another dictionary are there before."""
    lay(str(work / "dic"), sources_of(case))
    names = work / "new.fields"
    names.write_text("old")
    command = [str(programs / NAME), "dic", "new.img"]
    done = subprocess.run(command, cwd=work, capture_output=True, text=True)
    found = [
        line
        for line in done.stdout.splitlines()
        if line.startswith(("fields: ", "written beside it: "))
    ]
    expected = [f"fields: {case.message}"]
    expected += ["written beside it: new.fields"] if case.names else []
    if done.returncode != 0 or found != expected:
        yield f"status {done.returncode}, {done.stdout!r}, {done.stderr!r}, expected {expected}"
    written = names.read_bytes() if names.exists() else None
    if written != (expected_file(case, work) if case.names else None):
        yield f"writes {written!r}, expected {case.names!r}"


def expected_file(case: Case, work: Path) -> bytes:
    text = "".join(f"{name}\n" for name in (case.names or "").split())
    return headed((work / "new.img").read_bytes(), text.encode())
