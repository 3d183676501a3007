"""Records of tested images: jseg skips the checksum of an image that has a valid one."""
from typing import List, Tuple

from .case import Case, Conditions, Found, RecordOf
from .image_dirs import DATA, Variables, user_images
from .images import UNTESTED

IMAGE, RECORD = "data/kumquatsieve/digest.img", "data/kumquatsieve/digest.tested"
NOT_HASHED, HASHED = ("a\tX\nEOS\n", "", 0), ("", f"HERE/{IMAGE}: L8 Digest", 1)

# A user dictionary with another checksum, and a record. (what, its name, the record, variables,
# output, error and status)
RECORDS: List[Tuple[str, str, Found, Variables, Tuple[str, str, int]]] = [
    ("with a record", "digest", RecordOf(IMAGE), {}, NOT_HASHED),
    ("without one", "digest", b"", {}, HASHED),
    ("with records distrusted", "digest", RecordOf(IMAGE), {"KUMQUATSIEVE_TRUST": "never"}, HASHED),
    ("with that of a later version", "digest", RecordOf(IMAGE, "tested 1", "tested 2"), {}, HASHED),
    ("with that of another device", "digest", RecordOf(IMAGE, "device ", "device 9"), {}, HASHED),
    ("with that of another inode", "digest", RecordOf(IMAGE, "inode ", "inode 9"), {}, HASHED),
    ("with that of another length", "digest", RecordOf(IMAGE, "size ", "size 9"), {}, HASHED),
    ("with that of another mtime", "digest", RecordOf(IMAGE, "mtime ", "mtime 9"), {}, HASHED),
    ("with that of another ctime", "digest", RecordOf(IMAGE, "ctime ", "ctime 9"), {}, HASHED),
    ("with one without its checksum", "digest", RecordOf(IMAGE, "0" * 64, ""), {}, HASHED),
    ("with one that goes on", "digest", RecordOf(IMAGE, "0\n", "0\n\n"), {}, HASHED),
    ("with a record of CR LF", "digest", RecordOf(IMAGE, "1\n", "1\r\n"), {}, HASHED),
    ("by its path", f"HERE/{IMAGE}", RecordOf(IMAGE), {}, NOT_HASHED),
    ("by another path", IMAGE, RecordOf(IMAGE), {}, ("", f"{IMAGE}: L8 Digest", 1)),
]


def recorded(
    what: str, name: str, record: Found, variables: Variables, outcome: Tuple[str, str, int]
) -> Case:
    out, err, status = outcome
    files = {**user_images(digest=UNTESTED["digest.img"]), RECORD: record}
    command = f"jseg -d made -u {name}"
    return Case(
        f"a wrong digest {what}",
        command,
        "a\n",
        out,
        err,
        status,
        files,
        conditions=Conditions(variables={**DATA, **variables}),
    )


CASES = [recorded(*row) for row in RECORDS]
