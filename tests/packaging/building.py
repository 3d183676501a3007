"""Building by packaging/ in an environment of its own, and reading what was built."""
import os
import re
import subprocess
import sys
from pathlib import Path
from typing import Dict, Iterable, List, NamedTuple, NoReturn, Union

from support.running import TOP, program

BUILD_LIBRARY, BUILD_PROGRAMS, INSTALL = (
    TOP / "packaging" / name for name in ("build-library", "build-programs", "install")
)
LIBRARIES = ("lib/libkumquatsieve.so.1", "lib/kumquatsieve/mecab/libmecab.so.2")
PROGRAMS = ("dictc", "jseg")
# Whether the objects are there that programs are linked from. `rt ci` leaves none of a crate that
# passed in an earlier run.
HAS_OBJECTS = all(program(name).with_suffix(".o").is_file() for name in PROGRAMS)
# The variables of the environment that name tools, and the tools.
TOOLS = {"CC": "gcc", "CXX": "g++", "AR": "ar", "LD": "ld", "OBJCOPY": "objcopy", "STRIP": "strip"}
FLAGS = {
    "CPPFLAGS": "-DOWN_CPPFLAGS",
    "CFLAGS": "-O1 -DOWN_CFLAGS",
    "CXXFLAGS": "-O1 -DOWN_CXXFLAGS",
    "LDFLAGS": "-Wl,--build-id=0x6b756d71",
}

Words = Iterable[Union[str, Path]]


class Done(NamedTuple):
    """The status of a command, and what it printed, errors included."""

    status: int
    printed: str


def fail(why: str) -> NoReturn:
    sys.exit(f"builds: {why}")


def run(words: Words, folder: Path, **variables: str) -> Done:
    """Runs a command in a folder. Of its environment no tool or flag comes from this script's."""
    unset = (*TOOLS, *FLAGS, "DESTDIR")
    kept = {name: value for name, value in os.environ.items() if name not in unset}
    done = subprocess.run(
        [str(word) for word in words],
        cwd=folder,
        env={**kept, **variables},
        stdout=subprocess.PIPE,
        stderr=subprocess.STDOUT,
        text=True,
    )
    return Done(done.returncode, done.stdout)


def expect_success(what: str, done: Done) -> None:
    if done.status != 0:
        fail(f"{what}: status {done.status}\n{done.printed}")


def build_libraries(folder: Path, **variables: str) -> List[Path]:
    """Builds both libraries and returns their paths."""
    words: Words = [BUILD_LIBRARY, "--built", "--mecab", folder / "prefix"]
    expect_success("build-library --mecab", run(words, folder, **variables))
    return [folder / "prefix" / name for name in LIBRARIES]


def link_programs(folder: Path, **variables: str) -> List[Path]:
    """Links the programs and returns their paths. There are none without their objects."""
    if not HAS_OBJECTS:
        return []
    words = [BUILD_PROGRAMS, folder / "prefix"]
    expect_success("build-programs", run(words, folder, **variables))
    return [folder / "prefix" / "bin" / name for name in PROGRAMS]


def read_elf(file: Path, *words: str) -> str:
    """Returns what readelf prints of a file."""
    command = ["readelf", "-W", *words, str(file)]
    return subprocess.run(command, stdout=subprocess.PIPE, text=True, check=True).stdout


def hardening(file: Path) -> Dict[str, bool]:
    """Returns the properties that each library and program must have."""
    dynamic, segments = read_elf(file, "-d"), read_elf(file, "-l")
    return {
        "all relocations at the start": "BIND_NOW" in dynamic or "NOW" in dynamic,
        "read-only relocations": "GNU_RELRO" in segments,
        "no executable stack": re.search(r"GNU_STACK .* RW +0x", segments) is not None,
        "no writable text": "TEXTREL" not in dynamic,
    }


def expect_properties(file: Path, properties: Dict[str, bool]) -> None:
    for name, is_there in properties.items():
        if not is_there:
            fail(f"{file.name} lacks this property: {name}")
