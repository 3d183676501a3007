#!/usr/bin/env python3
"""Builds the library, links the programs and installs all, with various options and environments.

    tests/packaging/builds.py --built

The archive and the objects of the programs are those in crates/*/out.

- Both shared libraries are stripped and hardened, by the flags that are the defaults.
- The programs are hardened too, need the C library alone and have the heap of capi.
- The compilers, flags and tools of the environment are used.
- A relative PREFIX is made absolute, below DESTDIR, for all that is installed.
- Under any umask all users may read what is installed.
- Invalid options and missing tools are rejected, and then nothing is installed.

Needs: gcc, g++, binutils and libmecab-dev. If one is missing the status is 77.
"""
import argparse
import os
import re
import sys
import tempfile
from pathlib import Path
from typing import Dict, List, NamedTuple, Tuple

sys.dont_write_bytecode = True
sys.path[:0] = [str(Path(__file__).resolve().parents[up]) for up in (0, 1)]
from building import (  # noqa: E402
    BUILD_LIBRARY,
    BUILD_PROGRAMS,
    FLAGS,
    HAS_OBJECTS,
    INSTALL,
    TOOLS,
    Words,
    build_libraries,
    expect_properties,
    expect_success,
    fail,
    hardening,
    link_programs,
    read_elf,
    run,
)
from support.running import LEFT_OUT, TOP, end_left_out, leave_out, missing_of  # noqa: E402

NEEDS = ("gcc", "g++", "ar", "ld", "objcopy", "strip", "readelf")
MECAB_HEADER = Path("/usr/include/mecab.h")
# The heap of the programs, which is compiled where they are linked from their objects.
HEAP = TOP / "capi/heap.c"
# A compiler whose objects are for another machine when a script tests whether they can be linked.
OTHER_MACHINE = """#!/bin/sh
case "$*" in
-dumpmachine) echo other-linux-gnu ;;
*empty.c*) exec gcc -m32 "$@" ;;
*) exec gcc "$@" ;;
esac
"""
# A tool that logs its arguments.
LOGGED = """#!/bin/sh
echo "{name} $*" >> {log}
exec {tool} "$@"
"""
# Files that packaging/install installs with --mecab and --libdir lib/own.
INSTALLED = (
    "bin/jseg",
    "bin/pjseg",
    "include/kumquatsieve.h",
    "lib/own/libkumquatsieve.a",
    "lib/own/kumquatsieve/mecab/libmecab.so.2",
)


class Rejected(NamedTuple):
    """A command that must fail: its arguments and variables, its status, and a part of its output.

    `prefix` is whether the folder to install to follows the arguments.
    """

    name: str
    command: Path
    arguments: List[str]
    prefix: bool
    variables: Dict[str, str]
    status: int
    message: str


def script(path: Path, text: str) -> str:
    """Writes an executable script and returns its path."""
    path.write_text(text)
    path.chmod(0o755)
    return str(path)


def check_libraries(folder: Path) -> None:
    """Checks that both libraries are stripped and hardened, and how the C of libmecab is."""
    for library in build_libraries(folder):
        properties = {**hardening(library), "no symbols": ".symtab" not in read_elf(library, "-S")}
        if library.name.startswith("libmecab"):
            symbols = read_elf(library, "--dyn-syms")
            properties["guarded stacks"] = "__stack_chk_fail" in symbols
            copies = symbols.replace("__stack_chk_fail", "")
            properties["guarded copies"] = "_chk@" in copies
        expect_properties(library, properties)


def check_programs(folder: Path) -> None:
    """Checks that the programs are hardened, run at any address, and ask for huge pages."""
    for program in link_programs(folder):
        needed = re.findall(r"NEEDED.*\[(.*)\]", read_elf(program, "-d"))
        properties = {
            **hardening(program),
            "any address": re.search(r"Type: +DYN", read_elf(program, "-h")) is not None,
            "the C library alone": needed == ["libc.so.6"],
            "huge pages": " madvise@" in read_elf(program, "--dyn-syms"),
        }
        expect_properties(program, properties)


def check_unstripped(folder: Path) -> None:
    for library in build_libraries(folder, STRIP=":"):
        if ".symtab" not in read_elf(library, "-S"):
            fail(f"{library.name}: STRIP=: takes the symbols out")


def check_environment(folder: Path) -> None:
    """Checks that the compilers, tools and flags are those of the environment."""
    log = folder / "log"
    tools = {
        name: script(folder / f"own-{tool}", LOGGED.format(name=name, log=log, tool=tool))
        for name, tool in TOOLS.items()
    }
    files = link_programs(folder, **tools, **FLAGS) + build_libraries(folder, **tools, **FLAGS)
    lines = log.read_text().splitlines()
    for source in sources():
        check_compiled(source, lines)
    for name in TOOLS:
        if not any(line.startswith(f"{name} ") for line in lines):
            fail(f"{name} of the environment is not used")
    for file in files:
        if "6b756d71" not in read_elf(file, "-n"):
            fail(f"{file.name} is not linked with LDFLAGS of the environment")


def sources() -> List[Path]:
    """Returns the sources in C and C++ of the libraries, and the heap if programs are linked."""
    folders = (TOP / "capi", TOP / "libmecab")
    files = [path for kind in ("*.c", "*.cc") for folder in folders for path in folder.rglob(kind)]
    return [path for path in files if HAS_OBJECTS or path != HEAP]


def check_compiled(source: Path, lines: List[str]) -> None:
    """Checks that a file is compiled by the compiler and the flags of the environment."""
    name, flags = ("CXX", "CXXFLAGS") if source.suffix == ".cc" else ("CC", "CFLAGS")
    words = (str(source), f"-DOWN_{flags}", "-DOWN_CPPFLAGS")
    compiled = [line for line in lines if line.startswith(f"{name} ")]
    if not any(all(word in line for word in words) for line in compiled):
        fail(f"{source.name} is not compiled by {name} and the flags of the environment")


def check_relative(folder: Path) -> None:
    """Checks that all files are below DESTDIR at the absolute path of a relative prefix."""
    top, at = folder / "top", folder / "at"
    at.mkdir()
    options = ["--built", "--mecab", "--libdir", "lib/own", "--python", "modules"]
    done = run([INSTALL, *options, "rel"], at, DESTDIR=str(top))
    expect_success("install with a relative prefix", done)
    below = Path(f"{top}{at}")
    for name in INSTALLED:
        if not (below / "rel" / name).is_file():
            fail(f"a relative prefix: {name} is not below DESTDIR")
    if not (below / "modules/kumquatsieve/__init__.py").is_file() or os.listdir(at):
        fail("a relative folder of modules is not below DESTDIR")
    files = [path for path in top.rglob("*") if path.is_file()]
    stray = [path for path in files if below not in path.parents]
    if stray:
        fail(f"a relative prefix: {stray[0]} is installed elsewhere")
    check_relative_texts(at, below / "rel")


def check_relative_texts(at: Path, prefix: Path) -> None:
    """Checks the prefix in the settings for pkg-config and in mecab-config."""
    own = "lib/own/kumquatsieve/mecab"
    settings = (prefix / "lib/own/pkgconfig/kumquatsieve.pc").read_text()
    config = (prefix / own / "mecab-config").read_text()
    if not settings.startswith(f"prefix={at}/rel\nlibdir=${{prefix}}/lib/own\n"):
        fail("a relative prefix: kumquatsieve.pc names another one")
    if f'"-L{at}/rel/{own} -lmecab' not in config:
        fail("a relative prefix: mecab-config names another one")


def check_umask(folder: Path) -> None:
    """Checks that all users may read, enter and run what is installed under a strict umask."""
    tops = folder / "modules", folder / "prefix"
    install: Words = [INSTALL, "--built", "--mecab", "--python", *tops]
    done = run(["sh", "-c", 'umask 077 && exec "$@"', "sh", *install], folder)
    expect_success("install under a umask of 077", done)
    for path in [*tops, *(path for top in tops for path in top.rglob("*"))]:
        is_run = path.is_dir() or path.parent.name == "bin" or path.name == "mecab-config"
        needed, mode = 0o005 if is_run else 0o004, path.stat().st_mode & 0o777
        if mode & needed != needed:
            name = path.relative_to(folder)
            fail(f"install under a umask of 077: {name} has the mode {mode:o}")


def rejected_cases(folder: Path) -> List[Rejected]:
    other = script(folder / "other-gcc", OTHER_MACHINE)
    library, built = BUILD_LIBRARY, ["--built"]
    usage, programs_usage = (f"usage: packaging/{path.name}" for path in (library, BUILD_PROGRAMS))
    machine = "made the library for another machine than other-linux-gnu"
    missing = {"CC": "no-such-gcc -m64"}
    tool = {"OBJCOPY": "no-such-objcopy"}
    # fmt: off
    return [
        Rejected("a compiler for another machine", library, built, True, {"CC": other}, 1, machine),
        Rejected("a missing compiler", library, built, True, missing, 1, "there is no no-such-gcc"),
        Rejected("a missing tool", library, built, True, tool, 1, "there is no no-such-objcopy"),
        Rejected("an unknown option", library, ["--built", "--own"], False, {}, 2, usage),
        Rejected("--libdir alone", library, ["--built", "--libdir"], False, {}, 2, usage),
        Rejected("programs, a missing compiler", BUILD_PROGRAMS, [], True, {"CC": "no-such-gcc"}, 1,
                 "there is no no-such-gcc"),
        Rejected("programs, an unknown option", BUILD_PROGRAMS, ["--own"], False, {}, 2,
                 programs_usage),
    ]
    # fmt: on


def check_rejected(folder: Path) -> None:
    """Checks that each case is reported, and that nothing is installed."""
    prefix = folder / "prefix"
    for case in rejected_cases(folder):
        words: Words = [case.command, *case.arguments, *([prefix] if case.prefix else [])]
        done = run(words, folder, **case.variables)
        if done.status != case.status or case.message not in done.printed or prefix.exists():
            fail(f"{case.name}: status {done.status}\n{done.printed}")


CASES = (
    ("both libraries are stripped and hardened", check_libraries),
    ("the programs are hardened, and ask for huge pages", check_programs),
    ("STRIP=: leaves the symbols in", check_unstripped),
    ("compilers, flags and tools are the environment's", check_environment),
    ("a relative prefix and DESTDIR", check_relative),
    ("under a umask of 077 all users may read and run what is installed", check_umask),
    ("invalid options and missing tools are rejected", check_rejected),
)


def missing() -> Tuple[str, ...]:
    header = () if MECAB_HEADER.exists() else (str(MECAB_HEADER),)
    return (*missing_of(NEEDS), *header)


def main() -> int:
    arguments = argparse.ArgumentParser(
        description=__doc__, formatter_class=argparse.RawDescriptionHelpFormatter
    )
    built = "take the archive and the objects in crates/*/out"
    arguments.add_argument("--built", action="store_true", required=True, help=built)
    arguments.parse_args()
    if missing():
        end_left_out(f"{missing()[0]} is missing")
    with tempfile.TemporaryDirectory() as made:
        for number, (name, check) in enumerate(CASES):
            if check is check_programs and not HAS_OBJECTS:
                continue
            folder = Path(made, str(number))
            folder.mkdir()
            check(folder)
            print(f"builds: {name}", flush=True)
    if HAS_OBJECTS:
        return 0
    leave_out("how the programs are linked: their objects are missing")
    return LEFT_OUT


sys.exit(main())
