"""What an import rejects, and with which status."""
import os
from typing import List

from .common import FILES, Files
from .reports import Case, failures
from .user_dictionaries import USAGE

NAMES = "utf-8, euc-jp, euc-jis-2004, cp932 or iso-2022-jp"
USAGE_ERROR = f"a directory of sources and the image to write are required; {USAGE}"
NO_CONVERTER = (
    "this Python cannot convert euc_jp: "
    "a part of its library is missing (Debian: apt install python3)"
)
ONLY_FOLDER = "so it is not a directory of sources"


def no_option(word: str) -> str:
    why = f"{word} is not an option, or its value is missing"
    return f"{why}; write a file name that starts with - after --; {USAGE}"


def rejected(name: str, files: Files, err: str, status: int, *arguments: str) -> Case:
    return Case(name, files, "", err, status, arguments or ("dic", "new.img"))


def with_folder(name: str) -> Files:
    return {**FILES, name: os.mkdir}


def with_pipe(name: str) -> Files:
    return {**FILES, name: os.mkfifo}


def link_to_nothing(path: bytes) -> None:
    os.symlink("nothing", path)


def with_link(name: str) -> Files:
    return {**FILES, name: link_to_nothing}


def without(missing: str) -> Files:
    return {name: data for name, data in FILES.items() if name != missing}


CASES: List[Case] = [
    rejected(
        "fields are a folder", FILES, "{work}/held.fields: is a directory", 3, "dic", "held.img"
    ),
    rejected("no folder", {}, "none is not a directory", 3, "none", "new.img"),
    rejected("no sources", {"sys.dic": b""}, f"dic has no matrix.def, {ONLY_FOLDER}", 3),
    rejected(
        "no unk.def",
        without("unk.def"),
        f"dic has no unk.def, {ONLY_FOLDER}",
        3,
    ),
    rejected(
        "no lexicon",
        without("lexicon.csv"),
        "dic has no .csv file",
        3,
    ),
    rejected("a folder", with_folder("x.csv"), "dic/x.csv: is a directory", 3),
    rejected("a pipe", with_pipe("x.csv"), "dic/x.csv: is a pipe or a device, not a file", 3),
    rejected(
        "a link to nothing",
        with_link("x.csv"),
        "dic/x.csv: is a link to nothing, which does not exist",
        3,
    ),
    rejected(
        "an image's folder",
        FILES,
        "{work}/none: No such file or directory",
        3,
        "dic",
        "none/new.img",
    ),
    rejected("the image is a folder", FILES, "dic: is a directory", 3, "dic", "dic"),
    rejected("a slash after a folder", FILES, "dic/: is a directory", 3, "dic", "dic/"),
    rejected("a slash after the image", FILES, "new/ is not a file name", 3, "dic", "new/"),
    rejected("a slash after a file", FILES, "a.img/ is not a file name", 3, "dic", "a.img/"),
    rejected("a dot after the image", FILES, "new/. is not a file name", 3, "dic", "new/."),
    rejected(
        "no image",
        FILES,
        "the image to write is missing: kumquatsieve-import ./dic IMG",
        2,
        "./dic",
    ),
    rejected(
        "the image is a source",
        FILES,
        "dic/unk.def would overwrite a source file: dic/unk.def",
        2,
        "dic",
        "dic/unk.def",
    ),
    rejected(
        "by another path",
        FILES,
        "dic/../dic/unk.def would overwrite a source file: dic/unk.def",
        2,
        "dic",
        "dic/../dic/unk.def",
    ),
    rejected(
        "by a link",
        FILES,
        "link.img would overwrite a source file: dic/unk.def",
        2,
        "dic",
        "link.img",
    ),
    rejected(
        "by another name",
        FILES,
        "hard.img would overwrite a source file: dic/unk.def",
        2,
        "dic",
        "hard.img",
    ),
    rejected(
        "another file",
        {**FILES, "notes": b"x"},
        "dic/notes would overwrite a source file: dic/notes",
        2,
        "dic",
        "dic/notes",
    ),
    rejected("no converter", FILES, NO_CONVERTER, 3)._replace(modules=("_codecs_jp",)),
    rejected("no words", {}, USAGE_ERROR, 2, ""),
    rejected("three words", {}, USAGE_ERROR, 2, "dic", "new.img", "more"),
    rejected("an option", {}, no_option("--output"), 2, "--output", "new.img"),
    rejected(
        "an option of control characters", {}, no_option(r"--\u{1b}\n"), 2, "--\x1b\n", "new.img"
    ),
    rejected("no value", {}, no_option("--encoding"), 2, "dic", "--encoding"),
    rejected(
        "no encoding",
        {},
        f"--encoding latin-1 is not supported; choose {NAMES}",
        2,
        "--encoding",
        "latin-1",
        "dic",
        "new.img",
    ),
]

# Each case is run as the cases of reports.py are.
__all__ = ["CASES", "failures"]
