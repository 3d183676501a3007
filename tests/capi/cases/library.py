"""The library as it is installed in a folder, and the programs that are built over it."""
import os
from pathlib import Path
from typing import Any, Union

from support.running import TOP, Words, run

C = TOP / "tests" / "capi" / "c"
FLAGS = ["-std=c11", "-O2", "-g", "-Wall", "-Wextra", "-Werror"]
VALGRIND = ["valgrind", "-q", "--leak-check=full", "--show-leak-kinds=all", "--error-exitcode=9"]
VALGRIND += ["--child-silent-after-fork=yes"]
HELGRIND = ["valgrind", "-q", "--tool=helgrind", "--error-exitcode=9"]
# Flags of gcc that choose how a program opens images: from bytes in memory, or by their paths with
# these flags of the library.
COPIES, FILES = (), ("-DFLAGS=0",)
WHOLE_FILES = ("-DFLAGS=KUMQUATSIEVE_TEST_DIGEST",)
READ_FILES = ("-DFLAGS=KUMQUATSIEVE_COPY|KUMQUATSIEVE_TEST_DIGEST",)
# Flags of gcc for ThreadSanitizer, by which the C code of the library is built for it too.
THREAD_SANITIZER = "-O1 -g -fsanitize=thread"
# The number of children that a program with this argument forks while its threads run.
FORKS = "200"


def report(text: str) -> None:
    """Prints what a check found."""
    print(f"library: {text}", flush=True)


def show(command: Words, **more: Any) -> None:
    """Runs a test program, and prints what it prints."""
    report(run(command, **more).decode().rstrip("\n"))


def show_threads(command: Words) -> None:
    """Runs a test program with threads under helgrind, and with forks within a minute."""
    show([*HELGRIND, *command])
    show(["timeout", "60", *command, FORKS])


class Library:
    """The library, installed in `folder`. `options` are those of packaging/build-library."""

    def __init__(self, folder: Path, options: list[str], flags: str = "") -> None:
        self.folder = folder
        self.prefix = folder / "prefix"
        self.flags = flags.split()
        variables = {**os.environ, "CFLAGS": flags} if flags else None
        run([TOP / "packaging/build-library", *options, self.prefix], env=variables)
        self.archive = self.prefix / "lib" / "libkumquatsieve.a"
        self.shared = self.prefix / "lib" / "libkumquatsieve.so.1"

    def compiled(self, source: Path, *flags: str) -> Path:
        """Compiles a program over the archive and returns its path."""
        definitions = "".join(flag for flag in flags if flag.startswith("-D"))
        program = self.folder / (source.stem + "".join(filter(str.isalnum, definitions)))
        include = f"-I{self.prefix / 'include'}"
        command: list[Union[str, Path]] = ["gcc", *FLAGS, include, source, self.archive]
        run([*command, "-pthread", *self.flags, *flags, "-o", program])
        return program

    def test(self, name: str, *flags: str) -> Path:
        """Compiles a program of tests/capi/c and returns its path."""
        return self.compiled(C / f"{name}.c", *flags)

    def exports(self) -> list[str]:
        """Returns the names that the shared library exports."""
        lines = run(["nm", "-D", "--defined-only", self.shared]).decode().splitlines()
        return sorted(line.split()[-1] for line in lines)

    def archived(self) -> list[str]:
        """Returns the names that the archive defines for programs that are linked with it."""
        lines = run(["nm", "--extern-only", "--defined-only", self.archive]).decode().splitlines()
        return sorted(line.split()[-1] for line in lines if len(line.split()) == 3)
