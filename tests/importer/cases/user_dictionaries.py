"""Lexicons of a user dictionary, in each encoding.

The image is the same as that of the lexicons in UTF-8.
"""
import os
import subprocess
from pathlib import Path
from typing import Iterator, List, Mapping, NamedTuple

from .common import FILES, MARK, NAME, Arguments, Files, Name, compiled, lay, without_numbers

USAGE = (
    "usage: kumquatsieve-import [-v] [--encoding NAME] [--] DIR|ipadic|juman|naist|unidic [IMG], "
    "or kumquatsieve-import [-v] [--encoding NAME] --user DIC --out IMG [--] LEX.., "
    "or kumquatsieve-import [-v] --test [--] IMG.."
)
USAGE_ERROR = f"a user dictionary requires --user, --out and a lexicon; {USAGE}"
WORD = "ん,1,1,5,助詞\n"
OTHER = "すもも,1,1,5,名詞\n"
OPTIONS = ("--user", "sys.img", "--out", "new.img")


class Case(NamedTuple):
    """A run over lexicons, in byte order of their names; its encoding, or its error and status."""

    name: str
    lexicons: Files
    encoding: str = ""
    # The lexicons in UTF-8.
    utf_8: Mapping[str, str] = {}
    err: str = ""
    status: int = 0
    options: Arguments = OPTIONS
    arguments: Arguments = ()


def in_encoding(name: str) -> Arguments:
    """Returns options that name the encoding."""
    return (*OPTIONS, "--encoding", name)


def rejected(
    name: str, lexicons: Files, err: str, status: int, *options: Name, arguments: Arguments = ()
) -> Case:
    return Case(
        name, lexicons, err=err, status=status, options=options or OPTIONS, arguments=arguments
    )


def not_found(name: str, *hints: str) -> Case:
    """Returns a run for a system dictionary that is not found.

    An import makes a file or directory with some of these names for itself.
    """
    messages = f"{name}: no such file or directory", f"{name}: F1 File", *hints
    err = f"\n{NAME}: ".join(messages)
    return rejected(f"no dictionary {name}", ONE, err, 3, "--user", name, "--out", "new.img")


SEARCHED = ("HOME/kumquatsieve", "PREFIX/var/lib/kumquatsieve", "PREFIX/share/kumquatsieve")
HINTS = (*(f"searched {folder}" for folder in SEARCHED), "available images: here")
ONE = {"a.csv": WORD.encode()}
BROKEN = {"a.csv": WORD.encode("euc_jp") * 2 + b"\xff,1,1,5,X\n"}
CHOICE = (
    "a.csv: the encoding is ambiguous, choose one with --encoding: "
    "UTF-8 fits; EUC-JP fits; EUC-JIS-2004 fits; CP932 would give half-width kana"
)
CASES = [
    Case("UTF-8", ONE, "UTF-8", {"a.csv": WORD}),
    Case("EUC-JP", {"a.csv": WORD.encode("euc_jp")}, "EUC-JP", {"a.csv": WORD}),
    Case(
        "EUC-JP named",
        {"a.csv": WORD.encode("euc_jp")},
        "EUC-JP",
        {"a.csv": WORD},
        options=in_encoding("euc-jp"),
    ),
    Case(
        "Shift_JIS named",
        {"a.csv": WORD.encode("cp932")},
        "CP932",
        {"a.csv": WORD},
        options=in_encoding("shift_jis"),
    ),
    Case(
        "two lexicons",
        {"a.csv": WORD.encode("cp932"), "b": OTHER.encode("cp932")},
        "CP932",
        {"a.csv": WORD, "b": OTHER},
    ),
    Case("a mark", {"a.csv": MARK + WORD.encode()}, "UTF-8", {"a.csv": WORD}),
    Case("a name of any bytes", {b"\xff\n.csv": WORD.encode()}, "UTF-8", {"a.csv": WORD}),
    Case(
        "options after operands",
        ONE,
        "UTF-8",
        {"a.csv": WORD},
        options=(),
        arguments=("a.csv", *OPTIONS),
    ),
    rejected("a broken line", BROKEN, "a.csv:3: not EUC-JP", 1, *in_encoding("euc-jp")),
    rejected(
        "no numbers",
        {"a.csv": b"a,,,,X\n"},
        "a.csv:1: field 2 (left id) is '', not an integer from 0 to 65535\n"
        f"{NAME}: a.csv:1: S3 BadNumber",
        1,
    ),
    rejected("alpha or another", {"a.csv": b"\xce\xb1,1,1,5,X\n"}, CHOICE, 1),
    rejected(
        "the image is a lexicon",
        ONE,
        "a.csv would overwrite an input file: a.csv",
        2,
        "--user",
        "sys.img",
        "--out",
        "a.csv",
    ),
    rejected(
        "the image is the system's",
        ONE,
        "link.img would overwrite an input file: sys.img",
        2,
        "--user",
        "sys.img",
        "--out",
        "link.img",
    ),
    rejected(
        "the system's by its name",
        ONE,
        "sys.img would overwrite an input file: HOME/kumquatsieve/here.img",
        2,
        "--user",
        "here",
        "--out",
        "sys.img",
    ),
    rejected(
        "the image is a folder",
        ONE,
        "folder: is a directory",
        3,
        "--user",
        "sys.img",
        "--out",
        "folder",
    ),
    rejected("a slash", ONE, "new/ is not a file name", 3, "--user", "sys.img", "--out", "new/"),
    rejected("no file", {}, "none.csv: No such file or directory", 3, arguments=("none.csv",)),
    rejected("no image", ONE, "text: L2 BadMagic", 1, "--user", "text", "--out", "new.img"),
    rejected(
        "no image of a name of any bytes",
        ONE,
        "an argument is not UTF-8",
        2,
        "--user",
        b"none\xff.img",
        "--out",
        "new.img",
    ),
    *(not_found(name, *HINTS) for name in ("none", "new", "image", "empty", "000000.csv")),
    *(not_found(name) for name in ("./none", "./new", "../000000.csv", "../image")),
    rejected("no lexicon", {}, USAGE_ERROR, 2),
    rejected("no place", ONE, USAGE_ERROR, 2, "--user", "sys.img"),
    rejected("no system dictionary", ONE, USAGE_ERROR, 2, "--out", "new.img"),
]


def image_of(programs: Path, work: Path, utf_8: Mapping[str, str]) -> bytes:
    """Returns the image that dictc compiles from lexicons in UTF-8."""
    lay(str(work / "expected"), {name: text.encode() for name, text in utf_8.items()})
    system = ["--dic", str(work / "sys.img"), "--out", "expected.img"]
    command = [str(programs / "dictc"), "user", *system, *sorted(utf_8)]
    subprocess.run(command, cwd=work / "expected", check=True, stdout=subprocess.DEVNULL)
    return (work / "expected" / "expected.img").read_bytes()


def prepare(case: Case, programs: Path, work: Path) -> None:
    lay(str(work), case.lexicons)
    (work / "sys.img").write_bytes(compiled(programs, work / "system", FILES, ["lexicon.csv"]))
    (work / "link.img").symlink_to("sys.img")
    (work / "text").write_text("no image" * 100)
    (work / "folder").mkdir()
    (work / "home" / "kumquatsieve").mkdir(parents=True)
    os.link(work / "sys.img", work / "home" / "kumquatsieve" / "here.img")


def located(case: Case, programs: Path, work: Path) -> str:
    """Returns standard error with the directories of this run."""
    if not case.err:
        return ""
    err = case.err.replace("HOME", str(work / "home"))
    return f"{NAME}: {err}\n".replace("PREFIX", str(programs.parent))


def failures(case: Case, programs: Path, work: Path) -> Iterator[str]:
    """Runs a case in the directory `work`, and yields what differs from it."""
    prepare(case, programs, work)
    before = {path.name for path in work.iterdir()}
    lexicons = case.arguments or tuple(sorted(case.lexicons, key=os.fsencode))
    command: List[Name] = [str(programs / NAME), *case.options, *lexicons]
    environment = {**os.environ, "XDG_DATA_HOME": str(work / "home")}
    done = subprocess.run(command, cwd=work, env=environment, capture_output=True, text=True)
    err = located(case, programs, work)
    if (done.stderr, done.returncode) != (err, case.status):
        yield f"status {done.returncode}, {done.stderr!r}, expected {case.status}, {err!r}"
    left = {path.name for path in work.iterdir()} - before
    if left != (set() if case.status else {"new.img", "new.tested"}):
        yield f"leaves {sorted(left)}"
    if case.status or "new.img" not in left:
        return
    counts = f"encoding: {case.encoding}\n{len(case.utf_8)} entries, 0 skipped\n"
    expected = f"{counts}image: new.img, 0 bytes, 0 s\ntested: new.img\n"
    if without_numbers(done.stdout) != expected:
        yield f"prints {done.stdout!r}"
    if (work / "new.img").read_bytes() != image_of(programs, work, case.utf_8):
        yield "makes another image than dictc from the lexicons in UTF-8"
