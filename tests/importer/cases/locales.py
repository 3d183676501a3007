"""Paths in UTF-8 and of any bytes, in locales of other encodings. Their bytes are not changed."""
import os
import subprocess
from pathlib import Path
from typing import Dict, Iterator, List, NamedTuple, Tuple

from .common import FILES
from .common import NAME as PROGRAM
from .common import Name, lay
from .user_dictionaries import USAGE

# The name of a locale, its definition, and its encoding.
LOCALES = (("ja_JP.EUC-JP", "ja_JP", "EUC-JP"), ("en_US.ISO-8859-1", "en_US", "ISO-8859-1"))
NAME = "日本語の辞書".encode()
WORD = "ん,1,1,5,X\n".encode()
NO_OPTION = (
    "is not an option, or its value is missing; write a file name that starts with - after --"
)
REJECTED = b"--" + NAME + f" {NO_OPTION}; {USAGE}".encode()
CHOICES = b" is not supported; choose utf-8, euc-jp, euc-jis-2004, cp932 or iso-2022-jp"
PLAIN = {"LC_ALL": "C", "PYTHONUTF8": "0", "PYTHONCOERCECLOCALE": "0"}


class Case(NamedTuple):
    """A run in each of the locales: the arguments, the name of the image, and the error."""

    name: str
    arguments: Tuple[Name, ...]
    image: bytes = b""
    err: bytes = b""
    status: int = 0


CASES = [
    Case("a folder and an image", (NAME, NAME + b".img"), NAME + b".img"),
    Case("any bytes", (NAME, b"\xff\xa4.img"), b"\xff\xa4.img"),
    Case("an option's value", ("--encoding=utf-8", NAME, b"new.img"), b"new.img"),
    Case("no folder", (NAME + b"s", b"new.img"), err=NAME + b"s is not a directory", status=3),
    Case("an option", (b"--" + NAME,), err=REJECTED, status=2),
    Case("no encoding", (b"--encoding", NAME), err=b"--encoding " + NAME + CHOICES, status=2),
]


def made(locale: Tuple[str, str, str], folder: Path) -> bool:
    """Makes a locale in the directory, and returns whether that succeeded."""
    name, definition, encoding = locale
    command = ["localedef", "-i", definition, "-f", encoding, str(folder / name)]
    try:
        return subprocess.run(command, capture_output=True).returncode == 0
    except FileNotFoundError:
        return False


def failures(case: Case, programs: Path, work: Path) -> Iterator[str]:
    """Runs a case in each locale that can be made here, and in C. Yields what differs from it."""
    lay(os.path.join(os.fsencode(work), NAME), {**FILES, b"\xff.csv": WORD})
    locales = work.parent / "locales"
    locales.mkdir(exist_ok=True)
    for locale in LOCALES:
        if (locales / locale[0]).exists() or made(locale, locales):
            yield from failures_in(
                {"LC_ALL": locale[0], "LOCPATH": str(locales)}, case, programs, work
            )
    yield from failures_in(PLAIN, case, programs, work)


def failures_in(variables: Dict[str, str], case: Case, programs: Path, work: Path) -> Iterator[str]:
    command: List[Name] = [str(programs / PROGRAM), *case.arguments]
    environment = {**os.environ, **variables}
    done = subprocess.run(command, cwd=work, env=environment, capture_output=True)
    locale, err = variables["LC_ALL"], b""
    if case.err:
        err = b"kumquatsieve-import: " + case.err + b"\n"
    if (done.stderr, done.returncode) != (err, case.status):
        yield f"{locale}: status {done.returncode}, {done.stderr!r}, expected {err!r}"
    image = os.path.join(os.fsencode(work), case.image)
    if case.image and not os.path.exists(image):
        yield f"{locale}: makes {os.listdir(os.fsencode(work))!r}"
    elif case.image:
        os.unlink(image)
