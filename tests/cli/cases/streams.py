"""Standard streams that fail, and memory that runs out."""
from .case import SYSTEM, Case, Conditions
from .texts import MO, SUMOMO

ALL = f"{SYSTEM} a/lexicon.csv"
MADE = {"new.img": "sys.img"}
LARGE = {"a/matrix.def": b"32767 32767\n"}
FAILING, RESET = Conditions(stdin="failing"), Conditions(stdin="reset")
MEMORY = Conditions(memory=512 << 20)
FULL, CLOSED, UNREAD = (Conditions(stdout=stdout) for stdout in ("full", "closed", "unread"))
INTERRUPTED = Conditions(stdout="file", fails="interrupted write")
DEVICES = [("full", FULL), ("closed", CLOSED), ("unread", UNREAD)]
SEGMENTING = ["jseg --sample", "jseg -d sys.img"]
HELP = ["dictc --help", "dictc system --help", "dictc user --help", "jseg --help"]

CASES = [
    Case(
        "input that is a directory",
        "jseg --sample",
        err="line 1: G1 Read",
        status=3,
        conditions=Conditions(stdin="directory"),
    ),
    Case(
        "input that is closed",
        "jseg --sample",
        err="line 1: G1 Read",
        status=3,
        conditions=Conditions(stdin="closed"),
    ),
    Case("input that fails", "jseg --sample", "も\nす", MO, "line 2: G1 Read", 3, conditions=FAILING),
    Case(
        "input that fails, an image",
        "jseg -d sys.img",
        "も\nも\nす",
        MO + MO,
        "line 3: G1 Read",
        3,
        conditions=FAILING,
    ),
    *(
        Case(
            f"{command}, of input whose first read fails",
            command,
            err="line 1: G1 Read",
            status=3,
            conditions=RESET,
        )
        for command in SEGMENTING
    ),
    *(
        Case(
            f"{command}, of input whose second read alone fails",
            command,
            "も\nも\n",
            MO + MO,
            "line 3: G1 Read",
            3,
            conditions=RESET,
        )
        for command in SEGMENTING
    ),
    *(
        Case(
            f"output {what}",
            "jseg --sample",
            "すもももも\n",
            err="G2 Write 0",
            status=3,
            conditions=conditions,
        )
        for what, conditions in DEVICES
    ),
    *(
        Case(
            f"output {what}, an image",
            "jseg -d sys.img",
            "すもももも\n",
            err="G2 Write 0",
            status=3,
            conditions=conditions,
        )
        for what, conditions in DEVICES
    ),
    Case(
        "output of 5 bytes",
        "jseg --sample",
        "すもももも\n",
        b"\xe3\x81\x99\xe3\x82",
        "G2 Write 5",
        3,
        conditions=Conditions(stdout="file", max_file=5),
    ),
    Case(
        "output of 52 bytes",
        "jseg --sample",
        "すもももも\n",
        SUMOMO,
        conditions=Conditions(stdout="file", max_file=52),
    ),
    *(
        Case(
            f"{command}, interrupted",
            command,
            "すもももも\n",
            err="G2 Write 0",
            status=3,
            conditions=INTERRUPTED,
        )
        for command in SEGMENTING
    ),
    *(
        Case(f"{command}, interrupted", command, err="F2 Output", status=3, conditions=INTERRUPTED)
        for command in HELP
    ),
    Case("nothing to write", "jseg --sample", conditions=FULL),
    *(
        Case(
            f"what was compiled, {what}",
            ALL,
            err="F2 Output",
            status=3,
            changes=MADE,
            conditions=conditions,
        )
        for what, conditions in DEVICES
    ),
    *(
        Case(f"{command}, {what}", command, err="F2 Output", status=3, conditions=conditions)
        for command in HELP
        for what, conditions in DEVICES
    ),
    Case(
        "no error can be printed",
        "jseg -d none.img",
        status=3,
        conditions=Conditions(stderr="full"),
    ),
    Case("no usage error can be printed", "jseg", status=2, conditions=Conditions(stderr="full")),
    Case(
        "no memory to compile",
        ALL,
        err="Memory",
        status=4,
        files={**LARGE, "new.img": b"old"},
        conditions=MEMORY,
    ),
    Case(
        "no memory for sources",
        "jseg --sources a",
        "も\n",
        err="Memory",
        status=4,
        files=LARGE,
        conditions=MEMORY,
    ),
]
