"""The directory of one case of trust_cases.py, with an image and a record of its test."""
import hashlib
import os
import shutil
import struct
from pathlib import Path
from typing import Optional

from cli.cases.images import LAYOUT_1, LAYOUT_2, changed, with_digest

# User images that break a rule: the text of the first token is not UTF-8.
BAD_USER = with_digest(changed(LAYOUT_2, (928, b"\x80")))
BAD_USER_1, BAD_USER_2 = changed(LAYOUT_1, (136, b"\x80")), changed(LAYOUT_2, (928, b"\x80"))
# The header of an image: the layout, the lengths of the sections, and the end.
LAYOUT_AT, LENGTHS_AT, HEADER_BYTES = 8, 40, 104


def bad_system(image: bytes) -> bytes:
    """Returns the sample's image with a text of 4 GB in its first token; the SHA-256 is right."""
    lengths = struct.unpack("<8Q", image[LENGTHS_AT:HEADER_BYTES])
    token = HEADER_BYTES + sum(lengths[:6])
    body = changed(image[:-32], (token + 12, b"\xff\xff\xff\xff"))
    return body + hashlib.sha256(body).digest()


def bad_system_2(image: bytes) -> bytes:
    """Returns `bad_system` as if it were of layout 2, which has other character categories."""
    return changed(bad_system(image), (LAYOUT_AT, b"\2"))[:-32]


def record_of(image: Path) -> str:
    """Returns the text of a valid record of an image."""
    status = image.stat()
    times = (status.st_mtime_ns, status.st_ctime_ns)
    mtime, ctime = (f"{ns // 10**9}.{ns % 10**9:09}" for ns in times)
    return (
        "kumquatsieve-tested 1\n"
        f"device {os.major(status.st_dev)}:{os.minor(status.st_dev)}\n"
        f"inode {status.st_ino}\nsize {status.st_size}\nmtime {mtime}\nctime {ctime}\n"
        f"sha256 {hashlib.sha256(image.read_bytes()).hexdigest()}\n"
    )


class CaseDir:
    """The directory of a case, and how the image in it is opened.

    The image is opened by `path`, in the directory `cwd`, with the argument `how`, by the command
    `prefix`, and with `variables` added to the environment.
    """

    def __init__(self, directory: Path, image: bytes) -> None:
        self.directory = directory
        self.bytes = image
        self.image = directory / "x.img"
        self.record = directory / "x.tested"
        self.path = str(self.image)
        self.cwd: Optional[Path] = None
        self.how = 0
        self.prefix: list[str] = []
        self.variables: dict[str, str] = {}
        directory.mkdir(mode=0o755)
        self.write_image()

    def write_image(self) -> None:
        """Writes the image, which only its owner may write."""
        self.image.write_bytes(self.bytes)
        self.image.chmod(0o644)

    def write_record(self) -> None:
        """Writes a valid record of the image."""
        self.record.write_text(record_of(self.image))
        self.record.chmod(0o644)

    def other(self) -> Path:
        """Returns another directory, next to this one."""
        made = self.directory.with_suffix(".other")
        made.mkdir(exist_ok=True)
        return made

    def copy(self, to: Path) -> None:
        """Copies the image with its times."""
        shutil.copy2(self.image, to)

    def read_by(self, *options: str) -> None:
        """Opens the image as another user, by these options of setpriv."""
        self.prefix = ["setpriv", *options, "--clear-groups"]
