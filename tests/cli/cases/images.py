"""Images that are loaded, and images that are rejected."""
import hashlib
import struct
from typing import Iterator, Mapping, Tuple

from .case import USER, Case

HEADER = "4d4a444943540d0a 01000000 01000000 02000000 02000000 00000000 01000000 01000000 00000000"
TAIL = "00000000 01000000  0100 0100 0100 0000 00000000 01000000  58"
LENGTHS = struct.pack("<8Q", 0, 0, 0, 0, 8, 8, 16, 1)

# The user image of the line `もも,1,1,1,X` in layout 1: 137 bytes.
LAYOUT_1 = bytes.fromhex(HEADER) + LENGTHS + bytes.fromhex("0600 e38282e38282" + TAIL)


def changed(image: bytes, *changes: Tuple[int, bytes]) -> bytes:
    """Returns an image with other bytes. A change is an offset and the bytes from there on."""
    other = bytearray(image)
    for offset, data in changes:
        other[offset : offset + len(data)] = data
    return bytes(other)


def cells(used: Mapping[int, Tuple[int, int]]) -> bytes:
    """Returns a section of 100 cells, with BASE and CHECK of those that are used."""
    return b"".join(struct.pack("<2i", *used.get(number, (0, -1))) for number in range(100))


# The user image of the line `a,1,1,1,X` in layout 2: 929 bytes.
LAYOUT_2 = changed(LAYOUT_1[:104], (8, b"\2"), (72, struct.pack("<Q", 800)))
LAYOUT_2 += cells({0: (1, -2), 1: (-1, 99), 99: (1, 0)}) + bytes.fromhex(TAIL)


def with_digest(image: bytes) -> bytes:
    """Returns an image of layout 2 as layout 3, which ends with the SHA-256 of the other bytes."""
    image = changed(image, (8, b"\3"))
    return image + hashlib.sha256(image).digest()


LAYOUT_3 = with_digest(LAYOUT_2)

REJECTED = [
    # (image, error)
    (LAYOUT_1[:136], "L1 Truncated"),
    (LAYOUT_3[:960], "L1 Truncated"),
    (b"", "L1 Truncated"),
    (changed(LAYOUT_1, (0, b"\0")), "L2 BadMagic"),
    (changed(LAYOUT_1, (8, b"\x09")), "L3 BadLayout 9"),
    (changed(LAYOUT_1, (12, b"\2")), "L4 BadSection 0"),
    (changed(LAYOUT_1, (112, b"\1")), "L4 BadSection 6"),
    (changed(LAYOUT_2, (108, struct.pack("<i", 0))), "L4 BadSection 5"),
    (LAYOUT_1 + b"\0", "L4 BadSection 9"),
    (changed(LAYOUT_1, (104, b"\0")), "L5 BadKey 0"),
    (changed(LAYOUT_2, (104 + 8 * 99, struct.pack("<2i", 1, 99))), "L5 BadKey 0"),
    (changed(LAYOUT_1, (120, b"\2")), "L6 BadToken 0"),
    (with_digest(changed(LAYOUT_2, (914, b"\2"))), "L6 BadToken 0"),
    (changed(LAYOUT_1, (136, b"\x80")), "L7 BadText 0"),
    (changed(LAYOUT_3, (960, bytes([LAYOUT_3[960] ^ 1]))), "L8 Digest"),
    (changed(LAYOUT_3, (928, b"Y")), "L8 Digest"),
]


def rejected(image: bytes, error: str) -> Iterator[Case]:
    """Yields the runs that reject an image: as a system and as a user dictionary of jseg, and as
    the system dictionary for which dictc compiles."""
    files = {"bad.img": image}
    err = f"bad.img: {error}"
    yield Case(f"{error}, -d", "jseg -d bad.img", "も\n", err=err, status=1, files=files)
    yield Case(
        f"{error}, -u",
        "jseg -d sys.img -u user.img -u bad.img",
        "も\n",
        err=err,
        status=1,
        files=files,
    )
    yield Case(
        f"{error}, --dic",
        "dictc user --dic bad.img --out new.img user.csv",
        err=err,
        status=1,
        files=files,
    )
    if error != "L8 Digest":
        yield Case(
            f"{error}, --skip-digest",
            "jseg --skip-digest -d bad.img",
            "も\n",
            err=err,
            status=1,
            files=files,
        )


# Images that are valid except for their checksum: one has another checksum, and the other another
# feature.
UNTESTED = {
    "digest.img": changed(LAYOUT_3, (960, bytes([LAYOUT_3[960] ^ 1]))),
    "feature.img": changed(LAYOUT_3, (928, b"Y")),
}
BAD_MAGIC = {"bad.img": changed(LAYOUT_1, (0, b"\0"))}
OTHER_SIZES = {"other.img": changed(LAYOUT_1, (20, b"\3"))}
ENDLESS = [
    "jseg -d /dev/zero",
    "jseg -d sys.img -u /dev/zero",
    "dictc user --dic /dev/zero --out new.img user.csv",
]
OLDER = {"1.img": LAYOUT_1, "2.img": LAYOUT_2, "3.img": LAYOUT_3}

CASES = [run for row in REJECTED for run in rejected(*row)] + [
    Case("layout 1", "jseg -d sys.img -u 1.img", "もも\n", "もも\tX\nEOS\n", files=OLDER),
    Case("layout 2", "jseg -d sys.img -u 2.img", "a\n", "a\tX\nEOS\n", files=OLDER),
    Case("layout 3", "jseg -d sys.img -u 3.img", "a\n", "a\tX\nEOS\n", files=OLDER),
    Case(
        "layout 1 as the system's",
        "jseg -d 1.img",
        "もも\n",
        err="1.img: O1 NotSystem",
        status=1,
        files=OLDER,
    ),
    Case(
        "another digest",
        "jseg -d sys.img --skip-digest -u digest.img",
        "a\n",
        "a\tX\nEOS\n",
        files=UNTESTED,
    ),
    Case(
        "a feature under an old digest",
        "jseg -d sys.img --skip-digest -u feature.img",
        "a\n",
        "a\tY\nEOS\n",
        files=UNTESTED,
    ),
    *(
        Case(f"no end, {command}", command, "も\n", err="/dev/zero: L2 BadMagic", status=1)
        for command in ENDLESS
    ),
    Case(
        "dictc skips it too",
        "dictc user --skip-digest --dic digest.img --out new.img user.csv",
        err="digest.img: O1 NotSystem",
        status=1,
        files=UNTESTED,
    ),
    Case(
        "a user's as the system's",
        "jseg -d user.img",
        "も\n",
        err="user.img: O1 NotSystem",
        status=1,
    ),
    Case(
        "for a user's",
        "dictc user --dic user.img --out new.img user.csv",
        err="user.img: O1 NotSystem",
        status=1,
    ),
    Case(
        "the system's as a user's",
        "jseg -d sys.img -u sys.img",
        "も\n",
        err="sys.img: O2 NotUser 0",
        status=1,
    ),
    Case(
        "a second one",
        "jseg -d sys.img -u user.img -u sys.img",
        err="sys.img: O2 NotUser 1",
        status=1,
    ),
    Case(
        "for other sizes",
        "jseg -d sys.img -u other.img",
        err="other.img: O3 OtherSizes 0",
        status=1,
        files=OTHER_SIZES,
    ),
    Case(
        "an invalid image before a missing one",
        "jseg -d sys.img -u bad.img -u none.img",
        "も\n",
        err="bad.img: L2 BadMagic",
        status=1,
        files=BAD_MAGIC,
    ),
    Case(
        "a missing image before an invalid one",
        "jseg -d sys.img -u none.img -u bad.img",
        "も\n",
        err="none.img: F1 File",
        status=3,
        files=BAD_MAGIC,
    ),
    Case("O1 before O2", "jseg -d user.img -u sys.img", err="user.img: O1 NotSystem", status=1),
    Case(
        "O2 before O3",
        "jseg -d sys.img -u sys.img -u other.img",
        err="sys.img: O2 NotUser 0",
        status=1,
        files=OTHER_SIZES,
    ),
    Case(
        "a lexicon is read before O1",
        f"{USER.replace('sys', 'user')} none.csv",
        err="none.csv: F1 File",
        status=3,
    ),
]
