"""MeCab's tools, which the library passes on to MeCab's library.

What they print and write is the same over both. Without MeCab's library each of them is rejected.
"""
import os
import shutil
import subprocess
from pathlib import Path
from typing import NamedTuple

from libmecab.checks.common import CLIENTS, VALGRIND, Built, Command, Environment
from libmecab.checks.common import compiled, fail, report
from support.running import SAMPLE

NAMES = (
    "mecab_dict_index",
    "mecab_dict_gen",
    "mecab_cost_train",
    "mecab_system_eval",
    "mecab_test_gen",
)
ANSWERS = "すもも\t名詞,すもも\nもも\t名詞,もも\nEOS\n"
CALLS = [
    ["mecab_dict_index", "-d", "sources", "-o", "compiled", "-f", "UTF-8", "-t", "UTF-8"],
    ["mecab_test_gen", "answers"],
    ["mecab_system_eval", "-l", "0", "answers", "answers"],
    *([name, "-h"] for name in NAMES),
]


class Results(NamedTuple):
    """The status and the output of each call, and the files that the compiler writes."""

    calls: list[tuple[int, bytes]]
    files: dict[str, bytes]


def write_sources(folder: Path) -> None:
    """Writes the sample's sources, with the files that MeCab's compiler needs."""
    shutil.copytree(SAMPLE, folder)
    (folder / "dicrc").write_text("cost-factor = 800\nbos-feature = BOS/EOS\n")
    for name in ("left-id.def", "right-id.def"):
        (folder / name).write_text("0 BOS/EOS\n1 名詞\n")


def results_of(folder: Path, command: Command, environment: Environment) -> Results:
    """Makes each of CALLS in a new folder, and returns what comes of them.

    Two of the tools only print their help.
    """
    folder.mkdir()
    write_sources(folder / "sources")
    (folder / "answers").write_text(ANSWERS)
    (folder / "compiled").mkdir()
    calls = []
    for words in CALLS:
        done = subprocess.run([*command, *words], cwd=folder, capture_output=True, env=environment)
        calls.append((done.returncode, done.stdout))
    return Results(
        calls, {path.name: path.read_bytes() for path in (folder / "compiled").iterdir()}
    )


def check_without_mecab(built: Built) -> None:
    """Each tool is rejected if MeCab's library is missing."""
    program = built.with_layer("programs.c", '-DMECAB_LIBRARY="/nowhere/libmecab.so.2"')
    for name in NAMES:
        done = subprocess.run([program, name, "-h"], capture_output=True, text=True)
        result = (done.returncode, done.stdout, done.stderr)
        if result != (1, "", f"{name} is not supported by libmecab over Kumquatsieve\n"):
            fail(f"{name} without MeCab's library: {result}")


def check_tools(built: Built) -> None:
    """Compares the tools over both libraries."""
    theirs = compiled(CLIENTS / "programs.c", built.folder, "-lmecab")
    expected = results_of(built.folder / "tools-of-mecab", [theirs], dict(os.environ))
    if not expected.files.get("sys.dic"):
        fail("MeCab's compiler writes no sys.dic")
    command: Command = [*VALGRIND, built.client("programs.c")]
    if results_of(built.folder / "tools-of-ours", command, built.environment) != expected:
        fail("MeCab's tools print or write other bytes over this library")
    check_without_mecab(built)
    report(f"{len(NAMES)} tools of MeCab's are passed on, or rejected without MeCab's library")
