"""Images in the image directories, by their names and by those of MeCab's dictionaries."""
from libmecab.checks.settings_case import Case

B = {"MECABRC": "HERE/rc"}
DATA, RELATIVE = {"XDG_DATA_HOME": "HERE/data"}, {"XDG_DATA_HOME": "data"}
SEARCHED = "no such image; searched OWN/, MADE/, SHARED/; available images:"
HINT = "(F1 File); compile an image with kumquatsieve-import\n"
CASES = [
    Case(
        "an image by its name", ["-d", "own"], installed=("SHARED/own.img",), image="SHARED/own.img"
    ),
    Case("a name of no image", ["-d", "own"], error=f"own: {SEARCHED} none {HINT}"),
    Case(
        "the directories that were searched",
        ["-d", "own"],
        installed=("MADE/b.img", "SHARED/b.img", "OWN/a.img"),
        error=f"own: {SEARCHED} a, b {HINT}",
    ),
    Case(
        "a user dictionary of a name that no image has",
        ["-d", "HERE/a.img", "-u", "own"],
        error=f"own: {SEARCHED} none {HINT}",
    ),
    Case(
        "a pipe is no image",
        ["-d", "own"],
        installed=("SHARED/x.img",),
        pipes=("MADE/own.img", "OWN/y.img"),
        error=f"own: {SEARCHED} x {HINT}",
    ),
    Case(
        "an image after a pipe of its name",
        ["-d", "own"],
        installed=("SHARED/own.img",),
        pipes=("MADE/own.img",),
        image="SHARED/own.img",
    ),
    Case(
        "a pipe by its path",
        ["-d", "HERE/pipe.img"],
        pipes=("HERE/pipe.img",),
        error="pipe.img: not a regular file",
    ),
    Case(
        "an image in XDG_DATA_HOME",
        ["-d", "x"],
        {},
        DATA,
        installed=("HERE/data/kumquatsieve/x.img", "OWN/x.img", "MADE/x.img"),
        image="data/kumquatsieve/x.img",
    ),
    Case(
        "an image in HOME, as XDG_DATA_HOME is relative",
        ["-d", "x"],
        {},
        RELATIVE,
        installed=("OWN/x.img", "MADE/x.img", "SHARED/x.img"),
        image="OWN/x.img",
    ),
    Case(
        "an image directory that is not searched",
        ["-d", "x"],
        {},
        DATA,
        installed=("OWN/x.img",),
        error="x: no such image; ",
    ),
    Case(
        "an image that was compiled on the machine",
        ["-d", "x"],
        installed=("MADE/x.img", "SHARED/x.img"),
        image="MADE/x.img",
    ),
    Case(
        "an image by its name in the variable",
        [],
        {},
        {"KUMQUATSIEVE_DICTIONARY": "x"},
        installed=("MADE/x.img",),
        image="MADE/x.img",
    ),
    Case(
        "the user's image before the machine's",
        [],
        installed=("OWN/kumquatsieve.img", "MADE/kumquatsieve.img"),
        image="OWN/kumquatsieve.img",
    ),
    Case(
        "the machine's image",
        [],
        installed=("SHARED/kumquatsieve.img",),
        image="SHARED/kumquatsieve.img",
    ),
    Case(
        "the machine's image after MECABRC's file",
        [],
        {"rc": "dicdir=HERE/b.img\n"},
        B,
        installed=("SHARED/kumquatsieve.img",),
        image="b.img",
    ),
    Case(
        "a compiled folder of MeCab's",
        ["-d", "HERE/ipadic-utf8"],
        {"ipadic-utf8/sys.dic": ""},
        installed=("SHARED/ipadic.img",),
        image="SHARED/ipadic.img",
    ),
    Case(
        "a folder of MeCab's sources",
        ["-d", "HERE/naist-jdic"],
        {"naist-jdic/matrix.def": ""},
        installed=("SHARED/naist.img",),
        image="SHARED/naist.img",
    ),
    Case(
        "a file's folder of MeCab's",
        ["-r", "HERE/rc"],
        {"rc": "dicdir = HERE/ipadic-utf8/\n", "ipadic-utf8/sys.dic": ""},
        installed=("SHARED/ipadic.img",),
        image="SHARED/ipadic.img",
    ),
    Case(
        "a link to a folder of MeCab's",
        ["-d", "HERE/debian"],
        {"juman-utf8/sys.dic": ""},
        links={"debian": "juman-utf8"},
        installed=("SHARED/juman.img",),
        image="SHARED/juman.img",
    ),
]
