"""Settings of the program mecab: options, files and variables that name a dictionary."""
from libmecab.checks.settings_case import Case

A, B = {"KUMQUATSIEVE_DICTIONARY": "HERE/a.img"}, {"MECABRC": "HERE/rc"}
OF_C = {"home/.mecabrc": "dicdir = HERE/c.img\n"}
# A name of 254 bytes.
LONGEST = f"{'x' * 250}.img"
OWN_STAMP, OTHER_STAMP = "; image-sha256 SUM\n", f"; image-sha256 {'0' * 64}\n"
CASES = [
    Case(
        "-d before everything else",
        ["-d", "HERE/b.img", "-r", "HERE/rc"],
        {"rc": "dicdir = HERE/c.img\n"},
        A,
        image="b.img",
    ),
    Case(
        "the file of -r before the variable",
        ["-r", "HERE/rc"],
        {"rc": "; of MeCab\n\ndicdir = HERE/c.img\n"},
        A,
        image="c.img",
    ),
    Case("the variable before the user's own file", [], OF_C, A, image="a.img"),
    Case(
        "the user's own file before MECABRC's",
        [],
        {**OF_C, "rc": "dicdir = HERE/b.img\n"},
        B,
        image="c.img",
    ),
    Case("MECABRC's file", [], {"rc": "dicdir=HERE/b.img\n"}, B, image="b.img"),
    Case(
        "$(rcpath)",
        ["-r", "HERE/folder/rc"],
        {"folder/rc": "dicdir = $(rcpath)/../b.img\n"},
        image="b.img",
    ),
    Case("a folder with an image", ["-d", "HERE/with"], image="with/kumquatsieve.img"),
    Case(
        "a folder of sources without one",
        ["-d", "HERE/juman"],
        {"juman/matrix.def": ""},
        error="compile its sources with `kumquatsieve-import juman`",
    ),
    Case(
        "a compiled folder without one",
        ["-d", "HERE/own-utf8"],
        {"own-utf8/sys.dic": ""},
        error="kumquatsieve-import SOURCES",
    ),
    Case("an image with another checksum", ["-d", "HERE/damaged.img"], image="damaged.img"),
    Case(
        "an image without its last byte", ["-d", "HERE/short.img"], error="short.img: L1 Truncated"
    ),
    Case("a missing image", ["-d", "HERE/d.img"], error="d.img: cannot be opened"),
    Case("a missing file of -r", ["-r", "HERE/rc"], {}, A, error="rc: No such file or directory"),
    Case("a missing file of MECABRC", [], {}, {**A, **B}, error="rc: No such file or directory"),
    Case(
        "a line without =",
        ["-r", "HERE/rc"],
        {"rc": "dicdir = HERE/b.img\nwakati\n"},
        error="rc: line 2: no `=` in wakati",
    ),
    Case(
        "a dicrc without =",
        ["-d", "HERE/a.img"],
        {"a.dicrc": "cost-factor 800\n"},
        error="a.dicrc: line 1: no `=`",
    ),
    Case(
        "a pos-id.def without a number",
        ["-d", "HERE/a.img"],
        {"a.dicrc": "", "a.pos-id.def": "* 1\n名詞 x\n"},
        error="a.pos-id.def: line 2: ",
    ),
    Case(
        "a user dictionary of MeCab's",
        ["-d", "HERE/a.img", "-u", "USER"],
        error="user.dic is a MeCab dictionary, not an image: compile ",
    ),
    Case(
        "a dicrc that is a link to itself",
        ["-d", "HERE/a.img"],
        links={"a.dicrc": "a.dicrc"},
        error="a.dicrc: Too many levels of symbolic links",
    ),
    Case(
        "a dicrc that is a link to nothing",
        ["-d", "HERE/a.img"],
        links={"a.dicrc": "b.dicrc"},
        error="a.dicrc: No such file or directory",
    ),
    Case(
        "a dicrc that is a folder",
        ["-d", "HERE/a.img"],
        {"a.dicrc/file": ""},
        error="a.dicrc: line 1: Is a directory",
    ),
    Case("no dicrc can be beside a name of 254 bytes", ["-d", f"HERE/{LONGEST}"], image=LONGEST),
    Case(
        "user dictionaries of a file",
        ["-r", "HERE/rc"],
        {"rc": "dicdir = HERE/b.img\nuserdic = HERE/user.img,HERE/more.img\n"},
        image="b.img",
        users=("user.img", "more.img"),
    ),
    Case(
        "-u before a file's",
        ["-r", "HERE/rc", "-u", "HERE/more.img"],
        {"rc": "dicdir = HERE/b.img\nuserdic = HERE/user.img\n"},
        image="b.img",
        users=("more.img",),
    ),
    Case(
        "a missing user dictionary of a file",
        ["-r", "HERE/rc"],
        {"rc": "dicdir = HERE/b.img\nuserdic = HERE/d.img\n"},
        error="d.img: cannot be opened",
    ),
    Case(
        "settings that are for the image",
        ["-d", "HERE/a.img"],
        {"a.dicrc": OWN_STAMP + "x\n"},
        error="a.dicrc: line 2: no `=` in x",
    ),
    Case(
        "settings for another image",
        ["-d", "HERE/a.img"],
        {"a.dicrc": OTHER_STAMP + "x\n"},
        image="a.img",
    ),
    Case(
        "nor are rules read then",
        ["-d", "HERE/a.img"],
        {"a.dicrc": OTHER_STAMP, "a.pos-id.def": "x\n"},
        image="a.img",
    ),
    Case(
        "a second line names no image",
        ["-d", "HERE/a.img"],
        {"a.dicrc": f";\n{OTHER_STAMP}x\n"},
        error="a.dicrc: line 3: no `=`",
    ),
    Case(
        "more than a checksum names no image",
        ["-d", "HERE/a.img"],
        {"a.dicrc": OTHER_STAMP.replace("0\n", "00\nx\n")},
        error="a.dicrc: line 2: no `=`",
    ),
    Case(
        "a file of MeCab's is for any image",
        ["-r", "HERE/rc"],
        {"rc": OTHER_STAMP + "dicdir = HERE/b.img\n"},
        image="b.img",
    ),
    Case(
        "rules that are for the image",
        ["-d", "HERE/a.img"],
        {"a.dicrc": "", "a.pos-id.def": OWN_STAMP + "* 1\n名詞 x\n"},
        error="a.pos-id.def: line 3: ",
    ),
    Case(
        "rules for another image",
        ["-d", "HERE/a.img"],
        {"a.dicrc": "", "a.pos-id.def": OTHER_STAMP + "名詞 x\n"},
        image="a.img",
    ),
    Case(
        "blanks in a list of user dictionaries",
        ["-r", "HERE/rc"],
        {"rc": 'dicdir = HERE/b.img\nuserdic = HERE/user.img, "HERE/more.img",\n'},
        image="b.img",
        users=("user.img", "more.img"),
    ),
    Case(
        "a blank after a user dictionary",
        ["-r", "HERE/rc"],
        {"rc": "dicdir = HERE/b.img\nuserdic = HERE/user.img \n"},
        error="user.img : cannot be opened",
    ),
    Case(
        "CR after a dictionary",
        ["-r", "HERE/rc"],
        {"rc": "dicdir = HERE/b.img\r\n"},
        error="b.img\r: cannot be opened",
    ),
    Case(
        "partial parsing in a file",
        ["-r", "HERE/rc"],
        {"rc": "dicdir = HERE/b.img\npartial = 1\n"},
        error="partial parsing is not supported",
    ),
]
