"""What an import prints."""
import os
import subprocess
from pathlib import Path
from typing import Dict, Iterator, List, NamedTuple, Optional, Sequence, Tuple

from support.running import SAMPLE

from .common import FILES, MARK, NAME, Arguments, Files, Name, in_code, lay, without_numbers

WORDS = "すもも もも \nもも もも \n"


HELP = """\
Compiles the sources of a MeCab dictionary, or the lexicons of a user dictionary, to an image

Usage: kumquatsieve-import [OPTIONS] DIR|ipadic|juman|naist|unidic [IMG]
       kumquatsieve-import [OPTIONS] --user <DIC> --out <IMG> LEX..
       kumquatsieve-import [-v] --test IMG..

Arguments:
  DIR                Directory of MeCab sources
  ipadic|..|unidic   Sources of this dictionary, as installed by a Debian package
  IMG                Image to write [default: installed by name]; with --test, images to verify
  LEX                Lexicon of a user dictionary

Options:
  --encoding <NAME>  Encoding of the sources: utf-8, euc-jp, euc-jis-2004, cp932 or iso-2022-jp
                     [default: detected from the sources]
  --user <DIC>       Compile a user dictionary for this system dictionary, given by path or name
  --out <IMG>        Image of the user dictionary to write
  --test             Verify images completely, and record in NAME.tested that they passed
  -v, --verbose      Print each step to standard error
  -h, --help         Print help
"""


class Case(NamedTuple):
    """A run with `files` in the directory `dic`. In `out`, seconds and sizes are 0.

    `modules` are those that Python lacks.
    """

    name: str
    files: Files
    out: str = ""
    err: str = ""
    status: int = 0
    arguments: Arguments = ("dic", "new.img")
    modules: Tuple[str, ...] = ()


NO_DICRC = "fields: not named: there is no dicrc"
OTHER_DICRC = "fields: not named: dicrc belongs to no dictionary whose field names are known"


def imported(
    encoding: str = "UTF-8",
    entries: int = 3,
    others: str = "",
    left_out: Sequence[str] = (),
    skipped: int = 0,
    kept: str = "",
    removed: str = "",
    image: str = "new.img",
    fields: str = NO_DICRC,
    tested: str = "tested: {image}\n",
) -> str:
    """Returns the report of an import."""
    beside = [
        *([f"kept beside it: {kept}"] if kept else []),
        *([f"removed beside it: {removed}"] if removed else []),
    ]
    unread = [f"not read: {others}"] if others else []
    named = [fields] if fields else []
    lines = [
        "sources: dic",
        f"encoding: {encoding}",
        *unread,
        *(f"left out: dic/{one}" for one in left_out),
        *named,
    ]
    end = [f"{entries} entries, {skipped} skipped", f"image: {image}, 0 bytes, 0 s", *beside]
    last = f"{tested.format(image=image)}{len(left_out)} lines left out"
    return "\n".join([*lines, *end, last, ""])


BEGUN = "sources: dic\nencoding: UTF-8\n"
NO_NUMBERS = 'もも,,,,名詞,ユーザ\n"a,b",1,1,,記号\nん,1,1,5,助詞\n\nす,1, ,5,X\n'.encode()
EMPTY = "an id or the cost is empty"
NUMBERS_LEFT_OUT = [f"user.csv:{line}: {EMPTY}" for line in (1, 2, 5)]
NOTHING = b',,,,X\n "" ,,,,X\n'
QUOTED_COMMAS = b' "a,,c",1,1,5,X\n\t"a"",,",1,1,5,X\n"a"b,1,1,5,X\na,"1" x, 1,5,X\n'
QUOTED_EMPTY = b'"a,b" ,1,1,,X\n "a","",1,5,X\na,"1",1," "x,X\n'
QUOTED_LEFT = [f"user.csv:{line}: {EMPTY}" for line in (1, 2, 3)]
BAD_LINES = b"\x80\xff,1,1,5,X\n" + FILES["lexicon.csv"]
SETTINGS = {"dicrc": b"bos-feature = X\n", "pos-id.def": "名詞 1\n".encode()}
MISNUMBERED = b"a,,,,X\n\n\xff\na,1,1,5,X\nb,1,1,x,X\n" + "ん,1,1,5,X\n".encode() * 4
MISNUMBERED_LEFT_OUT = f"left out: dic/user.csv:1: {EMPTY}\nleft out: dic/user.csv:3: not UTF-8\n"
LONG = "x" * 251 + ".img"
TOO_LONG = "because its name beside the image would be too long"
UNKEPT = f"not kept: dicrc, {TOO_LONG}\nnot kept: fields, {TOO_LONG}"
UNRECORDED = "tested, not recorded: {image}: File name too long\n"
CASES: List[Case] = [
    Case("UTF-8", FILES, imported()),
    Case("a slash", FILES, imported(), arguments=("dic/", "new.img")),
    Case("marks", {name: MARK + data for name, data in FILES.items()}, imported()),
    Case(
        "options after operands",
        FILES,
        imported(),
        arguments=("dic", "new.img", "--encoding", "utf-8"),
    ),
    Case(
        "an option with =",
        in_code("euc_jp"),
        imported("EUC-JP"),
        arguments=("--encoding=EUC_JP", "dic", "new.img"),
    ),
    Case("after --", FILES, imported(), arguments=("--", "dic", "new.img")),
    Case(
        "other files",
        {**FILES, "feature.def": b"", "left-id.def": b"\x80"},
        imported(others="feature.def left-id.def"),
    ),
    Case(
        "settings",
        {**FILES, **SETTINGS},
        imported(kept="new.dicrc new.pos-id.def", fields=OTHER_DICRC),
    ),
    Case(
        "no numbers",
        {**FILES, "user.csv": NO_NUMBERS},
        imported(entries=4, left_out=NUMBERS_LEFT_OUT),
    ),
    Case(
        "a bad line",
        {**FILES, "lexicon.csv": BAD_LINES},
        imported(left_out=["lexicon.csv:1: not UTF-8"]),
    ),
    # MeCab's rule for fields: blanks before quotes are skipped, and text after the quotes is
    # dropped.
    Case("empty between quotes", {**FILES, "user.csv": QUOTED_COMMAS}, imported(entries=7)),
    Case("empty after quotes", {**FILES, "user.csv": QUOTED_EMPTY}, imported(left_out=QUOTED_LEFT)),
    Case("an empty surface", {**FILES, "user.csv": b",1,1,5,X\n"}, imported(skipped=1)),
    Case("an empty surface and numbers", {**FILES, "user.csv": NOTHING}, imported(skipped=2)),
    Case("a hidden lexicon", {**FILES, ".csv": "ん,1,1,5,X\n".encode()}, imported(entries=4)),
    Case(
        "a name of any bytes", {**FILES, b"\xff\n.csv": "ん,1,1,5,X\n".encode()}, imported(entries=4)
    ),
    Case("other names of any bytes", {**FILES, b"\xff\x1b": b""}, imported(others=r"\xff\u{1b}")),
    Case("no line feed", {**FILES, "user.csv": "ん,1,1,5,X".encode()}, imported(entries=4)),
    Case(
        "the line of an error",
        {**FILES, "user.csv": MISNUMBERED},
        f"{BEGUN}{MISNUMBERED_LEFT_OUT}{NO_DICRC}\n",
        "dic/user.csv:5: field 4 (word cost) is 'x', not an integer from -32768 to 32767\n"
        f"{NAME}: dic/user.csv:5: S3 BadNumber",
        1,
    ),
    Case(
        "an image of any bytes", FILES, imported(image=r"\xff.img"), arguments=("dic", b"\xff.img")
    ),
    Case(
        "a device",
        FILES,
        imported(image="/dev/null", fields="", tested=""),
        arguments=("dic", "/dev/null"),
    ),
    Case(
        "a long name",
        {**FILES, "dicrc": b"\n"},
        imported(image=LONG, fields=UNKEPT, tested=UNRECORDED),
        arguments=("dic", LONG),
    ),
    Case(
        "old settings",
        {**FILES, "dicrc": b"\n"},
        imported(
            kept="old.dicrc",
            removed="old.pos-id.def old.fields",
            image="old.img",
            fields=OTHER_DICRC,
        ),
        arguments=("dic", "old.img"),
    ),
    Case("help", {}, HELP, arguments=("--help",)),
    Case("help before others", {}, HELP, arguments=("dic", "-h", "--test")),
]


def contents(folder: Path) -> Dict[bytes, Optional[bytes]]:
    """Returns the bytes of each file of a directory, and None for what is no file."""
    found: Dict[bytes, Optional[bytes]] = {}
    for name in os.listdir(os.fsencode(folder)):
        path = os.path.join(os.fsencode(folder), name)
        found[name] = None
        if os.path.isfile(path):
            with open(path, "rb") as file:
                found[name] = file.read()
    return found


def prepare(case: Case, work: Path) -> None:
    lay(str(work / "dic"), case.files)
    if "unk.def" in case.files:
        (work / "link.img").symlink_to("dic/unk.def")
        os.link(work / "dic" / "unk.def", work / "hard.img")
        (work / "a.img").write_bytes(b"")
    for name in ("old.dicrc", "old.pos-id.def", "old.fields"):
        (work / name).write_text("old")
    (work / "held.fields").mkdir()
    (work / "lacking").mkdir()
    for module in case.modules:
        (work / "lacking" / f"{module}.py").write_text("raise ImportError")


def failures(case: Case, programs: Path, work: Path) -> Iterator[str]:
    """Runs a case in the directory `work`, and yields what differs from it."""
    prepare(case, work)
    before = contents(work / "dic")
    environment = {**os.environ, "PYTHONPATH": str(work / "lacking")}
    command: List[Name] = [str(programs / NAME), *case.arguments]
    done = subprocess.run(command, cwd=work, env=environment, capture_output=True)
    out = without_numbers(done.stdout.decode())
    if (out, done.returncode) != (case.out, case.status):
        yield f"prints {out!r}, status {done.returncode}, expected {case.out!r}, {case.status}"
    err = f"{NAME}: {case.err}\n".replace("{work}", str(work)) if case.err else ""
    if done.stderr.decode() != err:
        yield f"standard error is {done.stderr.decode()!r}, expected {err!r}"
    if contents(work / "dic") != before:
        yield "changes the directory that is read"
    if case.status == 0 and case.files and "/dev/null" not in case.arguments:
        images = (word for word in map(os.fsencode, case.arguments) if word.endswith(b".img"))
        yield from segmentation_failures(programs, work, next(images))


def segmentation_failures(programs: Path, work: Path, image: bytes) -> Iterator[str]:
    """Yields what is wrong with the words of the sample's text by the image."""
    made = os.path.join(os.fsencode(work), image)
    if not os.path.exists(made):
        yield "makes no image"
        return
    os.rename(made, os.fsencode(work / "segment.img"))
    command = [str(programs / "jseg"), "-d", "segment.img", "-O", "wakati"]
    text = (SAMPLE / "text.txt").read_bytes()
    done = subprocess.run(command, cwd=work, input=text, capture_output=True)
    if done.stdout.decode() != WORDS:
        yield f"the words of the sample's text are {done.stdout.decode()!r}"
