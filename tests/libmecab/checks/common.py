"""What the checks of tests/libmecab/run.py share: paths, programs, and the library under test."""
import os
import shutil
import subprocess
import sys
from pathlib import Path
from typing import NoReturn, Union

from support.running import SAMPLE, TOP, program, run

CLIENTS = TOP / "tests" / "libmecab" / "clients"
# Python and MeCab as Debian installs them.
PYTHON = "/usr/bin/python3"
COMPILED = Path("/var/lib/mecab/dic/ipadic-utf8")
HEADER = Path("/usr/include/mecab.h")
IPADIC, INDEX = Path("/usr/share/mecab/dic/ipadic"), Path("/usr/lib/mecab/mecab-dict-index")
VALGRIND = ["valgrind", "-q", "--leak-check=full", "--error-exitcode=9"]
WARNINGS = ["-O1", "-g", "-Wall", "-Wextra", "-Wpedantic", "-Werror"]

# What the sample's image has after its lexicon: a word with U+0000, one whose feature has so many
# fields, and two of 12,000 characters past U+FFFF, of which the second one costs more than its
# halves. In surrogate pairs of six bytes these are longer than the length of a node can be.
# (clients/odd_texts.c)
LONG_WORD, HALF, FIELDS = "𩸽" + "𠮷" * 11_999, "𩹉" + "𠮷" * 5_999, 70
MORE_ENTRIES = (
    # (surface, word cost, feature)
    ("空", -1000, "名詞,\0空"),
    ("広", 0, ",".join(f"f{i}" for i in range(FIELDS))),
    (LONG_WORD, 1, "名詞,長い"),
    (HALF, -20_000, "名詞,深い"),
    (2 * HALF, 100, "名詞,深い"),
)

Command = list[Union[str, Path]]
Environment = dict[str, str]


def report(text: str) -> None:
    """Prints what a check found."""
    print(f"libmecab: {text}", flush=True)


def fail(text: str) -> NoReturn:
    """Ends this script with an error."""
    sys.exit(f"libmecab: {text}")


def works(*command: str) -> bool:
    """Returns whether a program is installed and ends well."""
    if shutil.which(command[0]) is None:
        return False
    return subprocess.run(command, capture_output=True).returncode == 0


def compiled(source: Path, folder: Path, *flags: Union[str, Path]) -> Path:
    """Compiles a client in C, or in C++ if its name ends in .cc, and returns its path."""
    client = folder / source.name.replace(".", "-")
    compiler = ["g++", "-std=c++17"] if source.suffix == ".cc" else ["gcc", "-std=gnu11"]
    run([*compiler, *WARNINGS, source, *flags, "-pthread", "-o", client])
    return client


def sample_image(folder: Path, name: str, lexicon: str) -> Path:
    """Compiles the sample with another lexicon, and returns the path of the image."""
    image, source = folder / f"{name}.img", folder / f"{name}.csv"
    source.write_text(lexicon)
    command: Command = [program("dictc"), "system"]
    for kind in ("matrix", "char", "unk"):
        command += [f"--{kind}", SAMPLE / f"{kind}.def"]
    run([*command, "--out", image, source])
    return image


def first_lines(lines: Path, count: int, folder: Path) -> Path:
    """Returns the path of a file of the first lines of another one."""
    path = folder / f"first-{count}"
    path.write_bytes(b"".join(lines.read_bytes().splitlines(keepends=True)[:count]))
    return path


class Built:
    """The library under test: `library` is libmecab.so.2 below `prefix`, and files go to `folder`.

    `environment` is one in which a program finds the library.
    """

    def __init__(self, folder: Path, prefix: Path) -> None:
        self.folder, self.prefix = folder, prefix
        self.library = prefix / "lib" / "kumquatsieve" / "mecab" / "libmecab.so.2"
        self.environment = {**os.environ, "LD_LIBRARY_PATH": str(self.library.parent)}

    def client(self, name: str) -> Path:
        """Compiles a program of clients/ over the library, and returns its path."""
        return compiled(CLIENTS / name, self.folder, self.library)

    def with_layer(self, name: str, *flags: str) -> Path:
        """Compiles a program of clients/ together with the sources of the library.

        `flags` hold for both.
        """
        client = self.folder / f"with-layer-{Path(name).stem}"
        include = f"-I{self.prefix / 'include'}"
        command: Command = ["gcc", "-std=gnu11", *WARNINGS, *flags, include, "-pthread"]
        command += [CLIENTS / name, *sorted((TOP / "libmecab").glob("*.c"))]
        run([*command, self.prefix / "lib" / "libkumquatsieve.a", "-ldl", "-o", client])
        return client

    def show(self, command: Command) -> None:
        """Runs a client over the library, and prints what it prints."""
        print(run(command, env=self.environment).decode(), end="", flush=True)
