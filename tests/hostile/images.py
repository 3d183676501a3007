#!/usr/bin/env python3
"""Measures the loading of hostile images, beside an honest one of the same size.

Three images of user dictionaries are valid, with their checksums. `jseg -d SYSTEM -u IMAGE` loads
each of them over an empty text:

    honest       keys of two to four characters, and short features
    stem         keys with one stem of 60,000 bytes: a test that follows each key by itself reads
                 the stem for each
    overlapping  features that overlap, each over nearly the whole section: a test that reads each
                 by itself reads it each time

Other files are no images, and each runs beside a small one with the same error. Their first bytes
and their length show what they are, so `jseg -d` rejects them before it reads the other bytes. A
run may use 1 GiB of memory, and a quarter of it with --quick:

    zeros        6 GiB without a byte on the disk
    longer       an image with as many bytes after it
    shorter      as long, and the header of an image gives 1 GiB more
    device       /dev/zero, which does not end
    pipe         an image with zeros without end after it

A first run looks up the last key of each image. Then each is loaded in turn with the honest one,
`--rounds` times, and the least processor times count. The status is 1 if an image is rejected or
does not have its key, and if a hostile one takes more than three times the honest one's time unless
it is in KNOWN. It is also 1 if one in KNOWN does not, so that KNOWN stays true. With --quick the
images are small, and six times are allowed; an image in KNOWN that meets its bound is only
reported.

Needs: dictc and jseg in crates/*/out. The status is 2 if one is missing.
"""
import argparse
import os
import subprocess
import sys
import tempfile
from pathlib import Path
from typing import Union

sys.dont_write_bytecode = True
sys.path.insert(0, str(Path(__file__).resolve().parents[1]))
from hostile.cases.dictionaries import Sources  # noqa: E402
from hostile.cases.measuring import MARKS, Case, Option, Run  # noqa: E402
from hostile.cases.measuring import parsed_options, status_of  # noqa: E402
from hostile.cases.user_images import (  # noqa: E402
    Image,
    honest,
    overlapping,
    stem,
    with_longer_section,
)
from support.running import Words  # noqa: E402

# Images that take more than three times as long, and why.
KNOWN: dict[str, str] = {}
SPARSE_BYTES, MORE_BYTES = 6 << 30, 1 << 30
MEMORY, QUICK_MEMORY = 1 << 30, 1 << 28


def error_of(command: Words, image: Image) -> str:
    """Returns why an image does not make its word one known word, or "" if it does."""
    text = f"{image.word}\n".encode()
    done = subprocess.run([*command, *MARKS], input=text, capture_output=True)
    if done.returncode != 0:
        return f"is rejected with status {done.returncode}: {done.stderr.decode().strip()}"
    if done.stdout != b"w\n":
        return "does not have its last key"
    return ""


def load_of(options: argparse.Namespace, folder: Path, system: Path, image: Image) -> Run:
    """Returns the run that loads an image. Ends this script if the image lacks its key."""
    path = folder / f"{image.name}.img"
    path.write_bytes(image.data)
    command = [options.jseg, "-d", system, "-u", path]
    error = error_of(command, image)
    if error:
        sys.exit(f"{image.name} {error}")
    return Run(command)


def loads(options: argparse.Namespace, folder: Path) -> list[Case]:
    """Returns the cases of images that are loaded."""
    system = Sources("z,1,1,1,x\n").compiled(options.dictc, folder / "system")
    honest_load = load_of(options, folder, system, honest(options.size))
    cases = []
    for image in (stem(options.size), overlapping(options.size)):
        load = load_of(options, folder, system, image)
        size = f"{len(image.data)} bytes, {image.surfaces} surfaces"
        cases.append(Case(image.name, size, honest_load, load))
    return cases


class Rejected:
    """Makes runs that reject what they load."""

    def __init__(self, options: argparse.Namespace, folder: Path) -> None:
        self.jseg = options.jseg
        self.memory = QUICK_MEMORY if options.quick else MEMORY
        self.folder = folder

    def run(self, command: Words, error: str) -> Run:
        """Returns a run that ends with status 1 and this error."""
        message = f": {error}\n".encode()
        return Run(command, statuses=(1,), error=message, memory=self.memory)

    def file(self, name: str, data: bytes, length: int, error: str) -> Run:
        """Returns the run over a new file of `data`, with zeros up to a length of `length` bytes.

        The zeros take no room on the disk.
        """
        path = self.folder / f"{name}.img"
        path.write_bytes(data)
        os.truncate(path, length)
        return self.path(path, error)

    def path(self, path: Union[str, Path], error: str) -> Run:
        """Returns the run over a path."""
        return self.run([self.jseg, "-d", path], error)

    def pipe(self, image: Path, more: Union[str, Path], error: str) -> Run:
        """Returns the run over a pipe of an image and of another file after it."""
        script = 'exec "$0" -d <(exec cat "$1" "$2")'
        return self.run(["bash", "-c", script, self.jseg, image, more], error)


def rejected(options: argparse.Namespace, folder: Path) -> list[Case]:
    """Returns the cases of files that are rejected for their first bytes and their length."""
    make = Rejected(options, folder)
    image = honest(10_000).data
    whole, byte = folder / "whole.img", folder / "byte"
    whole.write_bytes(image)
    byte.write_bytes(b"\0")
    length, sparse = len(image), SPARSE_BYTES
    header = with_longer_section(image, sparse + MORE_BYTES - length)
    magic, section, truncated = "L2 BadMagic", "L4 BadSection 9", "L1 Truncated"
    zeros = make.file("small", b"", 1 << 20, magic)
    size = f"{sparse >> 30} GiB"
    return [
        # (name, size, a small file, the hostile file)
        Case("zeros", size, zeros, make.file("zeros", b"", sparse, magic)),
        Case(
            "longer",
            size,
            make.file("one-more", image, length + 1, section),
            make.file("longer", image, sparse, section),
        ),
        Case(
            "shorter",
            size,
            make.file("one-less", image, length - 1, truncated),
            make.file("shorter", header, sparse, truncated),
        ),
        Case("device", "no end", zeros, make.path("/dev/zero", magic)),
        Case(
            "pipe",
            "no end",
            make.pipe(whole, byte, section),
            make.pipe(whole, "/dev/zero", section),
        ),
    ]


def main() -> int:
    size = Option(10_000_000, 1_000_000, "about the bytes of each image")
    options = parsed_options(__doc__, 5, ["dictc", "jseg"], size=size)
    with tempfile.TemporaryDirectory() as made:
        folder = Path(made)
        return status_of([*loads(options, folder), *rejected(options, folder)], KNOWN, options)


if __name__ == "__main__":
    sys.exit(main())
