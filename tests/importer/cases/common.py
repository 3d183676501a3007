"""What the test cases share: the installed program, directories of files, and images to compare."""
import os
import re
import shutil
import subprocess
from pathlib import Path
from typing import Any, Callable, Dict, Mapping, Sequence, Tuple, Union

from support.running import IMPORTER, SAMPLE, TOP, program

FILES = {
    path.name: path.read_bytes() for path in SAMPLE.iterdir() if path.suffix in (".def", ".csv")
}
PROGRAMS = [program(name) for name in ("dictc", "jseg")]
NAME = "kumquatsieve-import"
# The byte order mark of UTF-8.
MARK = b"\xef\xbb\xbf"
NOBODY = 65534

# A file name or an argument, which may be any bytes.
Name = Union[str, bytes]
Arguments = Tuple[Name, ...]
# What is at each name of a directory: bytes, or a function that makes something at the path. A
# name is a string or bytes; a Mapping is invariant in its keys, so that their type is Any here.
Files = Mapping[Any, Union[bytes, Callable[[bytes], None]]]


def files_of(others: Mapping[str, bytes]) -> Dict[str, bytes]:
    """Returns files by their names. A keyword has `_` for the point of a name."""
    return {".".join(name.rsplit("_", 1)): data for name, data in others.items()}


def in_code(code: str, **others: bytes) -> Dict[str, bytes]:
    """Returns the sources of the sample in an encoding, and other files."""
    sources = {name: data.decode().encode(code) for name, data in FILES.items()}
    return {**sources, **files_of(others)}


def install(folder: Path) -> Path:
    """Installs the program beside dictc and jseg, and returns their directory."""
    (folder / "bin").mkdir()
    for path in [*PROGRAMS, IMPORTER]:
        shutil.copy(path, folder / "bin")
    modules = folder / "lib" / "kumquatsieve" / "kumquatsieve_import"
    shutil.copytree(TOP / "importer" / "kumquatsieve_import", modules)
    return folder / "bin"


def headed(image: bytes, text: bytes) -> bytes:
    """Returns a settings file beside an image. It starts with the image's checksum."""
    return b"; image-sha256 " + image[-32:].hex().encode() + b"\n" + text


def lay(folder: Name, files: Files) -> None:
    """Makes a directory with files."""
    os.makedirs(folder)
    for name, data in files.items():
        path = os.path.join(os.fsencode(folder), os.fsencode(name))
        if isinstance(data, bytes):
            with open(path, "wb") as file:
                file.write(data)
        else:
            data(path)


def compiled(programs: Path, folder: Path, files: Files, lexicons: Sequence[Name]) -> bytes:
    """Returns the image that dictc compiles from sources in UTF-8, with lexicons in this order."""
    lay(str(folder), files)
    definitions = [
        word for name in ("matrix", "char", "unk") for word in (f"--{name}", f"{name}.def")
    ]
    command = [str(programs / "dictc"), "system", *definitions, "--out", "expected.img"]
    subprocess.run([*command, *lexicons], cwd=folder, check=True, stdout=subprocess.DEVNULL)
    return (folder / "expected.img").read_bytes()


def without_numbers(text: str) -> str:
    """Returns what is printed with 0 for each size and each number of seconds."""
    return re.sub(r"\d+ (bytes|s)\b", r"0 \1", text)
