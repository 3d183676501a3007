"""Runs dictc and jseg with each allocation failing in turn.

A run whose allocation fails ends with status 4 and prints `dictc: Memory` or `jseg: Memory` on
standard error. Files are as before, and what jseg printed is a prefix of the whole output. Or the
run does with less memory than it asked for, as lists can, and ends like one with ample memory.
"""
import os
import shutil
import subprocess
import sys
import tempfile
from pathlib import Path
from typing import NamedTuple

from support.heap import Heap
from support.running import SAMPLE, program, run

TEXT = "すもももも\nab\nも\n".encode()
SECONDS = 60
SOURCES = ["--matrix", "matrix.def", "--char", "char.def", "--unk", "unk.def"]
SYSTEM = ["system", *SOURCES, "--out", "out.img", "lexicon.csv"]
USER = ["user", "--dic", "system.img", "--out", "out.img", "user.csv"]
IMAGES = ["-d", "system.img", "-u", "user.img"]
# What the output file has before a run.
OLD = b"the bytes of an older image"
CASES = [
    # (program, arguments)
    ("dictc", SYSTEM),
    ("dictc", USER),
    ("jseg", ["--sample"]),
    ("jseg", [*IMAGES, "-F", "%m\\t%f[0]\\n", "-E", "%pc\\n"]),
    ("jseg", ["-d", "system", "-u", "user", "-O", "wakati"]),
    ("jseg", ["--dictionaries"]),
    ("jseg", ["--sample", "--lattice", "dot"]),
    ("jseg", [*IMAGES, "--lattice", "tsv", "--within", "100"]),
    ("jseg", [*IMAGES, "--why"]),
]


class Result(NamedTuple):
    """How a run ended, what it printed, and the files in its folder."""

    status: int
    output: bytes
    errors: bytes
    files: dict[str, bytes]


class Runner:
    """Runs programs over a counting heap in a folder, with the user's data in another one."""

    def __init__(self, top: Path) -> None:
        self.folder, self.data = top / "runs", top / "data"
        self.heap = Heap(top)
        self.folder.mkdir()
        (self.data / "kumquatsieve").mkdir(parents=True)
        self._compile_images()

    def _compile_images(self) -> None:
        """Compiles system.img and user.img, and copies them to the user's image directory."""
        for name in ("matrix.def", "char.def", "unk.def", "lexicon.csv"):
            shutil.copy(SAMPLE / name, self.folder)
        (self.folder / "user.csv").write_text("もも,1,1,1,名詞,ユーザ\n")
        for name, arguments in (("system.img", SYSTEM), ("user.img", USER)):
            run([program("dictc"), *arguments], cwd=self.folder)
            (self.folder / "out.img").rename(self.folder / name)
            shutil.copy(self.folder / name, self.data / "kumquatsieve")

    def run(self, name: str, arguments: list[str], failing: int = 0) -> Result:
        """Runs a program. Allocation number `failing`, from 1, fails; at 0 none does."""
        (self.folder / "out.img").write_bytes(OLD)
        variables = {**os.environ, "XDG_DATA_HOME": str(self.data)}
        done = subprocess.run(
            [program(name), *arguments],
            input=TEXT,
            env=self.heap.environment(failing or None, variables),
            cwd=self.folder,
            capture_output=True,
            timeout=SECONDS,
        )
        files = {path.name: path.read_bytes() for path in self.folder.iterdir()}
        return Result(done.returncode, done.stdout, done.stderr, files)


def is_out_of_memory(name: str, result: Result, whole: Result) -> bool:
    """Returns whether a run reports that it is out of memory, with the files as they were."""
    return (
        result.status == 4
        and result.errors == f"{name}: Memory\n".encode()
        and result.files == {**whole.files, "out.img": OLD}
        and whole.output.startswith(result.output)
    )


def check_case(runner: Runner, name: str, arguments: list[str]) -> None:
    """Makes each allocation of a run fail in turn."""
    what = f"{name} {' '.join(arguments)}"
    whole = runner.run(name, arguments)
    if whole.status != 0 or whole.errors:
        sys.exit(f"{what}: status {whole.status}: {whole.errors.decode()}")
    count, did_without = runner.heap.counts().allocations, 0
    for failing in range(1, count + 1):
        result = runner.run(name, arguments, failing)
        if result == whole:
            did_without += 1
        elif not is_out_of_memory(name, result, whole):
            sys.exit(
                f"{what}: allocation {failing} fails: status {result.status}: "
                f"{result.errors.decode()}{sorted(result.files)}"
            )
    if did_without == count:
        sys.exit(f"{what}: reports no failed allocation")
    print(f"{what}: {count} allocations failed in turn, {did_without} of which it did without")


def check_programs() -> None:
    """Checks each of CASES."""
    for name in ("dictc", "jseg"):
        if not program(name).exists():
            sys.exit(f"{program(name)} is missing: run `rt run` in crates/{name} first")
    with tempfile.TemporaryDirectory() as top:
        runner = Runner(Path(top))
        for name, arguments in CASES:
            check_case(runner, name, arguments)
    print(f"{len(CASES)} cases: runs of dictc and jseg", flush=True)
