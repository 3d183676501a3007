"""Files and directories that are read, and files that are written whole or not at all."""
from pathlib import Path
from typing import List, Tuple

from .case import ANY, SYSTEM, USER, Case, Changes, Conditions, Files, Found

MADE = {"new.img": "sys.img"}
LINE = "3 entries, 0 skipped\n"
OLD = {"new.img": b"old"}
ALL = f"{SYSTEM} a/lexicon.csv"
DENIED = 0o000
NO_LISTING = 0o311
# The longest name of a file.
LONGEST = "n" * 255


def to(path: str) -> str:
    """Returns the command that compiles the sample to a path."""
    return ALL.replace("new.img", path)


# What can't be read. (what, command, the path that is printed, what is there)
READ: List[Tuple[str, str, str, Found]] = [
    ("no matrix.def", ALL, "a/matrix.def", None),
    ("no char.def", ALL, "a/char.def", None),
    ("no unk.def", ALL, "a/unk.def", None),
    ("no lexicon", ALL, "a/lexicon.csv", None),
    ("no second lexicon", f"{ALL} none.csv", "none.csv", None),
    ("no system", "dictc user --dic none.img --out new.img user.csv", "none.img", None),
    ("no lexicon of a user", f"{USER} none.csv", "none.csv", None),
    ("a folder for a lexicon", f"{ALL} folder", "folder", {}),
    ("no image", "jseg -d none.img -u none.too", "none.img", None),
    ("no user's image", "jseg -d sys.img -u user.img -u none.img", "none.img", None),
    ("a folder for an image", "jseg -d folder", "folder", {}),
    ("no directory", "jseg --sources none", "none/matrix.def", None),
    ("no matrix.def in it", "jseg --sources a", "a/matrix.def", None),
    ("no char.def in it", "jseg --sources a", "a/char.def", None),
    ("no unk.def in it", "jseg --sources a", "a/unk.def", None),
    ("a folder of a lexicon's name", "jseg --sources a", "a/x.csv", {}),
    ("a link to nothing", "jseg --sources a", "a/x.csv", Path("none")),
]
NOT_UTF8 = [{"a/\udcff": b""}, {"a/\udcff.csv": b""}]

# What a user may not read. (command, the path that is printed, its mode)
DENIED_PATHS = [
    (ALL, "a/matrix.def", DENIED),
    (ALL, "a/lexicon.csv", DENIED),
    ("jseg -d sys.img", "sys.img", DENIED),
    ("jseg -d sys.img -u user.img", "user.img", DENIED),
    ("jseg --sources a", "a/unk.def", DENIED),
    ("jseg --sources a", "a/lexicon.csv", DENIED),
    ("jseg --sources a", "a", NO_LISTING),
]

# The path to which the image is written. (what, command, files before, files after)
LINKED: Files = {"link": Path("folder/new.img"), "folder": {}, "folder/new.img": b"old"}
WRITTEN: List[Tuple[str, str, Files, Changes]] = [
    ("a new file", ALL, {}, MADE),
    ("in place of an old one", ALL, OLD, MADE),
    ("by a link", to("link"), LINKED, {"folder/new.img": "sys.img"}),
    ("by a name of 255 bytes", to(LONGEST), {}, {LONGEST: "sys.img"}),
    (
        "in place of the one of that name",
        to(f"a/{LONGEST}"),
        {f"a/{LONGEST}": b"old"},
        {f"a/{LONGEST}": "sys.img"},
    ),
    ("in place of a link to nothing", ALL, {"new.img": Path("none")}, MADE),
    ("a device", to("/dev/null"), {}, {}),
]
NOT_WRITTEN: List[Tuple[str, Files]] = [
    # (the path, what else there is)
    ("none/new.img", {}),
    ("folder", {"folder": {}}),
    ("/dev/full", {}),
]

# Why a file is not written. The image of the sample has more than 1,000 bytes.
SMALL = 1_000
FAILING = [
    # (what, conditions)
    ("too large a file", Conditions(max_file=SMALL)),
    ("a full device", Conditions(fails="write")),
    ("not synced", Conditions(fails="fsync")),
    ("a rejected rename", Conditions(fails="rename")),
    ("an interrupted write", Conditions(fails="interrupted write")),
]
BESIDE = ".kumquatsieve.{pid}.0.new"
MADE_BESIDE: Changes = {"new.img": "sys.img", BESIDE: b"of a killed run"}

# Control characters of a path are escaped. (path, as it is printed)
CONTROLS = [
    ("a\nb", r"a\nb"),
    ("\r\t", r"\r\t"),
    ("\x1b[31mred", r"\u{1b}[31mred"),
    ("\x7f\x85", r"\u{7f}\u{85}"),
    ("tab\\t", r"tab\t"),
    ("も é", "も é"),
]


def quoted(path: str) -> str:
    return f"'{path}'"


CASES = [
    *(
        Case(what, command, "も\n", err=f"{printed}: F1 File", status=3, files={printed: there})
        for what, command, printed, there in READ
    ),
    *(
        Case(
            "a name that is not UTF-8", "jseg --sources a", err="a: F1 File", status=3, files=files
        )
        for files in NOT_UTF8
    ),
    *(
        Case(
            f"{printed} is rejected, {command}",
            command,
            err=f"{printed}: F1 File",
            status=3,
            modes={printed: mode},
        )
        for command, printed, mode in DENIED_PATHS
    ),
    Case(
        "files before the directory",
        "jseg --sources a",
        err="a/unk.def: F1 File",
        status=3,
        modes={"a/unk.def": DENIED, "a": NO_LISTING},
    ),
    *(
        Case(what, command, out=LINE, files=files, changes=left)
        for what, command, files, left in WRITTEN
    ),
    *(
        Case(f"not written: {path}", to(path), err=f"{path}: F1 File", status=3, files=files)
        for path, files in NOT_WRITTEN
    ),
    Case(
        "a folder that is not written",
        to("b/new.img"),
        err="b/new.img: F1 File",
        status=3,
        files={"b": {}},
        modes={"b": 0o555},
    ),
    *(
        Case(
            f"{what}, in place of an old image",
            ALL,
            err="new.img: F1 File",
            status=3,
            files=OLD,
            conditions=conditions,
        )
        for what, conditions in FAILING
    ),
    *(
        Case(f"{what}, a new image", ALL, err="new.img: F1 File", status=3, conditions=conditions)
        for what, conditions in FAILING
    ),
    *(
        Case(
            f"{what}, by a link",
            to("link"),
            err="link: F1 File",
            status=3,
            files=LINKED,
            conditions=conditions,
        )
        for what, conditions in FAILING
    ),
    Case(
        "a mode that can't be kept",
        ALL,
        err="new.img: F1 File",
        status=3,
        files=OLD,
        conditions=Conditions(fails="fchmod"),
    ),
    Case(
        "rejected sources",
        f"{ALL} user.csv",
        err="user.csv:1: S2 TooFewFields",
        status=1,
        files={**OLD, "user.csv": b"X"},
    ),
    Case(
        "killed while it writes",
        ALL,
        status=-25,
        files=OLD,
        changes={BESIDE: ANY},
        conditions=Conditions(max_file=SMALL, killed=True),
    ),
    Case(
        "the name of a killed run",
        ALL,
        out=LINE,
        files=OLD,
        changes=MADE_BESIDE,
        conditions=Conditions(existing=BESIDE),
    ),
    *(
        Case(
            f"mode {mode:o} is kept",
            ALL,
            out=LINE,
            files=OLD,
            changes=MADE,
            modes={"new.img": mode},
        )
        for mode in (0o600, 0o444, 0o664, 0o777)
    ),
    *(
        Case(
            f"a path with controls, {printed}",
            f"jseg -d {quoted(path)}",
            err=f"{printed}: F1 File",
            status=3,
        )
        for path, printed in CONTROLS
    ),
]
