"""`dictc ids`: the ids and word costs of the entries of a part of speech."""
from .images import LAYOUT_1, OTHER_SIZES
from .case import Exactly, Has, Case, Conditions

HEADING = "left\tright\tentries\tleast\tlower_quartile\tmedian\tupper_quartile\tgreatest\n"
IDS = "dictc ids --dic sys.img"
NOUNS = HEADING + "1\t1\t2\t30\t30\t100\t100\t100\n"
WITH_USER = HEADING + "1\t1\t3\t1\t1\t30\t100\t100\n"
NONE = "no entry matches '動詞'\n"

FOUND = [
    # (command, output)
    (f"{IDS} 名詞", NOUNS),
    (f"{IDS} 名詞,もも", HEADING + "1\t1\t1\t30\t30\t30\t30\t30\n"),
    (f"{IDS} '*,もも'", HEADING + "1\t1\t1\t30\t30\t30\t30\t30\n"),
    (f"{IDS} ''", HEADING + "1\t1\t3\t20\t20\t30\t100\t100\n"),
    (f"{IDS} 未知", HEADING),
    (f"{IDS} 名", HEADING),
    (f"{IDS} -u user.img 名詞", WITH_USER),
    (f"{IDS} --skip-digest -u user.img -u user.img 名詞,ユーザ", HEADING + "1\t1\t2\t1\t1\t1\t1\t1\n"),
]

CASES = [
    *(Case(command, command, out=out) for command, out in FOUND),
    Case(
        "no entry, with -v",
        f"{IDS} -v 動詞",
        out=HEADING,
        err=Has("dictc: ", ("loaded sys.img", NONE)),
    ),
    Case(
        "no entry, on a terminal",
        f"{IDS} 動詞",
        out=HEADING,
        err=Exactly(f"dictc: {NONE}"),
        conditions=Conditions(stderr="terminal"),
    ),
    Case("ids of a user's", "dictc ids --dic user.img 名詞", err="user.img: O1 NotSystem", status=1),
    Case(
        "ids of a system's as a user's",
        f"{IDS} -u user.img -u sys.img 名詞",
        err="sys.img: O2 NotUser 1",
        status=1,
    ),
    Case(
        "ids of other sizes",
        f"{IDS} -u other.img 名詞",
        err="other.img: O3 OtherSizes 0",
        status=1,
        files=OTHER_SIZES,
    ),
    Case(
        "ids of layout 1",
        f"{IDS} -u 1.img X",
        out=HEADING + "1\t1\t1\t1\t1\t1\t1\t1\n",
        files={"1.img": LAYOUT_1},
    ),
    Case("ids of no image", "dictc ids --dic none.img 名詞", err="none.img: F1 File", status=3),
    Case(
        "ids of a damaged image",
        "dictc ids --dic bad.img 名詞",
        err="bad.img: L1 Truncated",
        status=1,
        files={"bad.img": LAYOUT_1[:100]},
    ),
    Case(
        "ids that can't be printed",
        f"{IDS} 名詞",
        err="F2 Output",
        status=3,
        conditions=Conditions(stdout="full"),
    ),
]
