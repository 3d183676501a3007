"""Images by their names: the search path, the message about a name that is not found, and
`--dictionaries`."""
from pathlib import Path
from typing import Dict, List, Mapping, Sequence, Tuple

from .images import LAYOUT_1, LAYOUT_2, LAYOUT_3, UNTESTED, changed
from .case import Case, Conditions, Files, Found, Has
from .streams import DEVICES
from .texts import MO

Variables = Mapping[str, str]
DATA, HOME, RELATIVE = (
    {name: value}
    for name, value in (
        ("XDG_DATA_HOME", "HERE/data"),
        ("HOME", "HERE/home"),
        ("XDG_DATA_HOME", "data"),
    )
)
OF_HOME = "home/.local/share/kumquatsieve"
WORD = "もも\tX\nEOS\n"
SIZE = 9535
SYSTEMS = (
    f"both\t{SIZE}\t3\tPREFIX/var/lib/kumquatsieve/both.img\n"
    f"made\t{SIZE}\t3\tPREFIX/var/lib/kumquatsieve/made.img\n"
    "both\t6\tL1 Truncated\tPREFIX/share/kumquatsieve/both.img\n"
    f"installed\t{SIZE}\t3\tPREFIX/share/kumquatsieve/installed.img\n"
)


def images_in(image_dir: str, **images: Found) -> Files:
    """Returns images in a directory of the run, and its parents."""
    parts = image_dir.split("/")
    folders: Dict[str, Found] = {"/".join(parts[: number + 1]): {} for number in range(len(parts))}
    return {**folders, **{f"{image_dir}/{name}.img": image for name, image in images.items()}}


def user_images(**images: Found) -> Files:
    """Returns images in the directory of the user's data."""
    return images_in("data/kumquatsieve", **images)


# (what, command, text, output, variables, files)
FOUND: List[Tuple[str, str, str, str, Variables, Files]] = [
    ("what came with the program", "jseg -d installed", "も\n", MO, {}, {}),
    ("what was made on the system", "jseg -d made", "も\n", MO, {}, {}),
    ("what was made before what came with it", "jseg -d both", "も\n", MO, {}, {}),
    (
        "a user's of the user's data",
        "jseg -d made -u words",
        "もも\n",
        WORD,
        DATA,
        user_images(words=LAYOUT_1),
    ),
    (
        "a user's of the user's home",
        "jseg -d made -u words",
        "もも\n",
        WORD,
        HOME,
        images_in(OF_HOME, words=LAYOUT_1),
    ),
    (
        "of the home, beside relative data",
        "jseg -d made -u words",
        "もも\n",
        WORD,
        {**HOME, **RELATIVE},
        images_in(OF_HOME, words=LAYOUT_1),
    ),
    ("a folder of its name", "jseg -d installed", "も\n", MO, {}, {"installed": {}}),
    (
        "a folder in the user's data",
        "jseg -d installed",
        "も\n",
        MO,
        DATA,
        {**user_images(), "data/kumquatsieve/installed.img": {}},
    ),
    (
        "a device in the user's data",
        "jseg -d installed",
        "も\n",
        MO,
        DATA,
        {**user_images(), "data/kumquatsieve/installed.img": Path("/dev/null")},
    ),
]

# (what, command, error, status, variables, files)
REJECTED: List[Tuple[str, str, str, int, Variables, Files]] = [
    (
        "the user's data before the system",
        "jseg -d made",
        "HERE/data/kumquatsieve/made.img: O1 NotSystem",
        1,
        DATA,
        user_images(made=LAYOUT_1),
    ),
    (
        "the user's data before the home",
        "jseg -d x",
        "HERE/data/kumquatsieve/x.img: L1 Truncated",
        1,
        {**DATA, **HOME},
        {**user_images(x=b""), **images_in(OF_HOME, x=LAYOUT_1)},
    ),
    ("data that are relative", "jseg -d x", "x: F1 File", 3, RELATIVE, user_images(x=LAYOUT_1)),
    (
        "a home that is not looked at",
        "jseg -d x",
        "x: F1 File",
        3,
        {**DATA, **HOME},
        images_in(OF_HOME, x=LAYOUT_1),
    ),
    (
        "a file before an image of its name",
        "jseg -d installed",
        "installed: L1 Truncated",
        1,
        {},
        {"installed": LAYOUT_1[:100]},
    ),
    ("a path of its name", "jseg -d ./installed", "./installed: F1 File", 3, {}, {}),
    ("a name with its ending", "jseg -d installed.img", "installed.img: F1 File", 3, {}, {}),
    (
        "no name",
        "jseg -d ''",
        ": F1 File",
        3,
        DATA,
        {**user_images(), "data/kumquatsieve/.img": LAYOUT_1},
    ),
    ("a user's that is nowhere", "jseg -d made -u x", "x: F1 File", 3, {}, {}),
    (
        "a system that is nowhere",
        "dictc user --dic x --out new.img user.csv",
        "x: F1 File",
        3,
        {},
        {},
    ),
    (
        "a system's that would be lost",
        "dictc user --dic made --out PREFIX/var/lib/kumquatsieve/made.img user.csv",
        "--out would overwrite an input file: PREFIX/var/lib/kumquatsieve/made.img",
        2,
        {},
        {},
    ),
]

SEARCHED_DIRS = (
    "searched PREFIX/var/lib/kumquatsieve\n"
    "jseg: searched PREFIX/share/kumquatsieve\n"
    "jseg: available images: "
)
THERE = f"jseg: {SEARCHED_DIRS}both, installed, made\n"
NOWHERE = "jseg: x: no such file or directory\njseg: x: F1 File\n"
MANY = {f"{number:02}": b"" for number in range(19)}


def searched(
    command: str,
    lines: str,
    variables: Variables = {},
    files: Files = {},
    lacks: Sequence[str] = (),
) -> Case:
    """Returns a run with a name that is not found. `lines` are the last lines of standard error."""
    return Case(
        f"the directories that were searched: {command}",
        command,
        err=Has("", (lines,), lacks),
        status=3,
        files=files,
        conditions=Conditions(variables=variables),
    )


SEARCHED = [
    searched("jseg -v -d x", NOWHERE + THERE),
    searched("jseg -d made -v -u x", NOWHERE + THERE),
    searched(
        "dictc user -v --dic x --out new.img user.csv", (NOWHERE + THERE).replace("jseg", "dictc")
    ),
    searched("jseg -v -d x", f"{NOWHERE}jseg: searched HERE/data/kumquatsieve\n{THERE}", DATA),
    searched("jseg -v -d x", f"{NOWHERE}jseg: searched HERE/{OF_HOME}\n{THERE}", HOME),
    searched(
        "jseg -v -d x",
        f"{NOWHERE}jseg: searched HERE/data/kumquatsieve\n"
        f"jseg: {SEARCHED_DIRS}{', '.join(MANY)}, a and 3 more\n",
        DATA,
        user_images(**MANY, a=b""),
    ),
    searched(
        "jseg -v -d x", f"jseg: x: is a directory\njseg: x: F1 File\n{THERE}", files={"x": {}}
    ),
    searched(
        "jseg -v -d ./x", NOWHERE.replace("x:", "./x:"), lacks=("searched", "available images")
    ),
    searched(
        "jseg -v --sources x",
        "jseg: x/matrix.def: no such file or directory\njseg: x/matrix.def: F1 File\n",
        lacks=("searched", "available images"),
    ),
    searched(
        "bare-jseg -v -d x",
        f"{NOWHERE}jseg: {SEARCHED_DIRS}none; install one with kumquatsieve-import\n".replace(
            "PREFIX", "PREFIX/bare"
        ),
    ),
    searched(
        "jseg -d x", "jseg: x: F1 File\n", lacks=("searched", "available images", "no such file")
    ),
    Case(
        "the directories that were searched, on a terminal",
        "jseg -d x",
        err=Has(NOWHERE + THERE, (" --explain F1' ",)),
        status=3,
        conditions=Conditions(stderr="terminal"),
    ),
]

BAD = changed(LAYOUT_1, (112, b"\1"))
NAMED: Dict[str, Found] = {
    **user_images(a=BAD, B=LAYOUT_1, digest=UNTESTED["digest.img"]),
    "data/kumquatsieve/é.img": LAYOUT_3,
    "data/kumquatsieve/x\ty.img": LAYOUT_2,
    "data/kumquatsieve/folder.img": {},
    "data/kumquatsieve/device.img": Path("/dev/null"),
    "data/kumquatsieve/.img": LAYOUT_1,
    "data/kumquatsieve/a.dicrc": b"",
    "data/kumquatsieve/\udcff.img": b"",
}
ROWS_OF_NAMED = [
    # (name, bytes, entries or error)
    ("B", 137, "1"),
    ("a", 137, "L4 BadSection 6"),
    ("digest", 961, "1"),
    (r"x\ty", 929, "1"),
    ("é", 961, "1"),
]


def listed(rows: Sequence[Tuple[str, int, str]]) -> str:
    """Returns the lines of images in the directory of the user's data."""
    return "".join(
        f"{name}\t{size}\t{entries}\tHERE/data/kumquatsieve/{name}.img\n"
        for name, size, entries in rows
    )


LISTED = [
    Case("the images of the system", "jseg --dictionaries", out=SYSTEMS),
    Case(
        "those of the user too",
        "jseg --dictionaries",
        out=listed(ROWS_OF_NAMED) + SYSTEMS,
        files=NAMED,
        conditions=Conditions(variables=DATA),
    ),
    Case(
        "one that stands twice",
        "jseg --dictionaries",
        out=listed([("made", 137, "1")]) + SYSTEMS,
        files=user_images(made=LAYOUT_1),
        conditions=Conditions(variables=DATA),
    ),
    Case(
        "one that can't be read",
        "jseg --dictionaries",
        out=listed([("a", 137, "F1 File")]) + SYSTEMS,
        files=user_images(a=LAYOUT_1),
        modes={"data/kumquatsieve/a.img": 0o000},
        conditions=Conditions(variables=DATA),
    ),
    Case(
        "a folder that can't be read",
        "jseg --dictionaries",
        out=SYSTEMS,
        files=user_images(a=LAYOUT_1),
        modes={"data/kumquatsieve": 0o000},
        conditions=Conditions(variables=DATA),
    ),
    Case("no images", "bare-jseg --dictionaries"),
    Case(
        "what is loaded",
        "jseg -v --dictionaries",
        out=SYSTEMS,
        err=Has(
            "jseg: ",
            tuple(
                f"s: loaded PREFIX/{path}.img\n"
                for path in (
                    "var/lib/kumquatsieve/both",
                    "var/lib/kumquatsieve/made",
                    "share/kumquatsieve/installed",
                )
            ),
            ("share/kumquatsieve/both",),
        ),
    ),
    *(
        Case(
            f"a list, {what}",
            "jseg --dictionaries",
            err="F2 Output",
            status=3,
            conditions=conditions,
        )
        for what, conditions in DEVICES
    ),
    Case("a list of nothing, full", "bare-jseg --dictionaries", conditions=DEVICES[0][1]),
]

CASES = [
    *(
        Case(what, command, text, out, files=files, conditions=Conditions(variables=variables))
        for what, command, text, out, variables, files in FOUND
    ),
    *(
        Case(
            what,
            command,
            err=err,
            status=status,
            files=files,
            conditions=Conditions(variables=variables),
        )
        for what, command, err, status, variables, files in REJECTED
    ),
    Case(
        "a user dictionary for an image by its name",
        "dictc user --dic made --out new.img user.csv",
        out="1 entries, 0 skipped\n",
        changes={"new.img": "user.img"},
    ),
    *SEARCHED,
    *LISTED,
]
