"""The library for C, the Python module and libmecab over the library, which segment in process.

Each way to use them is compared with jseg, or with MeCab's own library or module.
"""
import shutil
import subprocess
import sys
from pathlib import Path
from typing import Callable

from compare_with_mecab.dictionaries import WAKATI, Command
from measure.compared import Compared
from measure.python_module import module_folder
from measure.rows import WAYS, print_ways
from measure.runs import with_loads, without
from support.running import ARCHIVE, TOP, Words, run

CLIENTS = TOP / "bench" / "clients"
PYTHON = "/usr/bin/python3"

# A function that returns the command of a way.
Commands = Callable[[str], Command]

# Each way with the one that it is compared with. The names with MeCab or without a program are
# those of clients/lines.py.
LIBRARY_WAYS = [
    ("C, default", "jseg, default"),
    ("C, wakati", "jseg, wakati"),
    ("parse", "MeCab: parse"),
    ("parse, wakati", "MeCab: parse, wakati"),
    ("parse_lines", "MeCab: parse"),
    ("wakati", "MeCab: wakati"),
    ("wakati_lines", "MeCab: parse, wakati"),
    ("words", "MeCab: parseToNode"),
]
# The ways of clients/nodes.c, which reads the nodes of libmecab.
NODE_WAYS = [("nodes, lattice", "MeCab: nodes, lattice"), ("nodes, tonode", "MeCab: nodes, tonode")]


def can_measure_library(nodes: bool) -> bool:
    """Returns whether what the library needs is there. Reports what is left out if it is not."""
    if ARCHIVE.exists() and shutil.which("gcc") and (nodes or has_mecab_module()):
        return True
    print(f"\nlibrary: left out: {ARCHIVE.relative_to(TOP)}, gcc or python3-mecab is missing")
    return False


def has_mecab_module() -> bool:
    words = [PYTHON, "-c", "import MeCab"]
    return subprocess.run(words, stderr=subprocess.DEVNULL).returncode == 0


def can_measure_nodes() -> bool:
    return Path("/usr/include/mecab.h").exists() and shutil.which("g++") is not None


def ways(nodes: bool) -> list[tuple[str, str]]:
    """Returns the ways that are measured: those of nodes alone, or all."""
    return [*([] if nodes else LIBRARY_WAYS), *(NODE_WAYS if can_measure_nodes() else [])]


def check_nodes(commands: Commands, text: Path) -> None:
    """Checks that both libraries have the same nodes of a text, in each field that is read."""
    if not can_measure_nodes():
        print("nodes of libmecab: left out: g++ or libmecab-dev is missing")
        return
    sums = {way: printed_of(commands(way), text) for pair in NODE_WAYS for way in pair}
    if len(set(sums.values())) != 1:
        sys.exit(f"the libraries have different nodes: {sums}")


def printed_of(command: Command, text: Path) -> bytes:
    with open(text, "rb") as reading:
        words = list(map(str, command))
        return subprocess.run(words, stdin=reading, stdout=subprocess.PIPE, check=True).stdout


def build_nodes(compared: Compared) -> None:
    """Builds the program that reads nodes, and copies MeCab's settings to our image.

    With the settings both libraries know the ids of the parts of speech.
    """
    source, program = CLIENTS / "nodes.c", compared.folder / "nodes"
    run(["gcc", "-std=gnu11", "-O2", source, "-lmecab", "-o", program])
    sources = compared.sources
    for name in ("dicrc", "pos-id.def"):
        if (sources.theirs / name).exists():
            shutil.copy(sources.theirs / name, sources.image.with_suffix(f".{name}"))


def build_library(compared: Compared) -> Path:
    """Builds the libraries, the program that segments lines, and the one that reads nodes.

    Returns the prefix of the libraries.
    """
    prefix, nodes = compared.folder / "prefix", ["--mecab"] if can_measure_nodes() else []
    words: Words = [TOP / "packaging/build-library", "--built", *nodes, prefix]
    run(words, stderr=subprocess.DEVNULL)
    archive, client = prefix / "lib" / "libkumquatsieve.a", CLIENTS / "lines.c"
    run(["gcc", "-O2", f"-I{prefix / 'include'}", client, archive, "-o", compared.folder / "lines"])
    if nodes:
        build_nodes(compared)
    return prefix


def way_commands(compared: Compared) -> Commands:
    """Builds what the ways need, and returns the function that returns the command of a way."""
    prefix, folder, sources = build_library(compared), compared.folder, compared.sources
    module: Command = [
        "env",
        f"PYTHONPATH={module_folder(folder)}",
        "PYTHONDONTWRITEBYTECODE=1",
        PYTHON,
        CLIENTS / "lines.py",
    ]
    own_libmecab = f"LD_LIBRARY_PATH={prefix / 'lib' / 'kumquatsieve' / 'mecab'}"

    def command(way: str) -> Command:
        program, _, kind = way.partition(", ")
        wakati = kind == "wakati"
        if program == "jseg":
            jseg = compared.programs.jseg
            return [jseg, "-d", sources.image, *(WAKATI if wakati else [])]
        if program == "C":
            return [folder / "lines", sources.image, *(["wakati"] if wakati else [])]
        if program == "MeCab: nodes":
            return [folder / "nodes", kind, sources.mecab]
        if program == "nodes":
            return ["env", own_libmecab, folder / "nodes", kind, sources.image]
        return [*module, way, sources.mecab if "MeCab" in way else sources.image]

    return command


def measure_library(compared: Compared) -> None:
    """Measures each way in turn with what it is compared with. The load is measured apart."""
    nodes, text = compared.options.nodes, compared.text(compared.options.bytes)
    if not can_measure_library(nodes):
        return
    commands = way_commands(compared)
    check_nodes(commands, text)
    names = list(dict.fromkeys(name for pair in ways(nodes) for name in pair))
    both = with_loads([commands(name) for name in names], compared.options.rounds, text)
    load, whole = (dict(zip(names, runs)) for runs in both)
    print("\nin process, without the load:", WAYS.format(theirs="jseg's or MeCab's"))
    for ours, theirs in ways(nodes):
        print_ways(ours, *(without(whole[name], load[name]) for name in (ours, theirs)))
