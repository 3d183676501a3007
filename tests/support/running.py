"""What the test runners share: where things are, running a program, and parts that are left out."""
import os
import shutil
import subprocess
import sys
from pathlib import Path
from typing import Any, NoReturn, Sequence, Union

TOP = Path(__file__).resolve().parents[2]
SUPPORT = TOP / "tests" / "support"
SAMPLE = TOP / "examples" / "sample"
IMPORTER = TOP / "importer" / "kumquatsieve-import"
# The static library that `rt lib` or scripts/build-archive leaves.
ARCHIVE = TOP / "crates" / "capi" / "out" / "libcapi.a"
# The exit status of a test that was left out, in whole or in part, because a program is missing.
LEFT_OUT = 77

Words = Sequence[Union[str, Path]]


def program(name: str) -> Path:
    """Returns the path of a program of this repository, `dictc` or `jseg`, that `rt` built."""
    return TOP / "crates" / name / "out" / name


def run(command: Words, text: bytes = b"", **more: Any) -> bytes:
    """Runs a command with `text` as its input and returns what it prints.

    Ends this script with a message if the exit status is not 0.
    """
    words = [str(word) for word in command]
    done = subprocess.run(words, input=text, stdout=subprocess.PIPE, **more)
    if done.returncode != 0:
        sys.exit(f"{Path(sys.argv[0]).name}: {' '.join(words)}: status {done.returncode}")
    return bytes(done.stdout)


def missing_of(names: Sequence[str]) -> list[str]:
    """Returns the names of programs that are not installed."""
    return [name for name in names if shutil.which(name) is None]


def leave_out(part: str) -> None:
    """Reports a part that was left out, also in the file that the variable LEFT_OUT names."""
    print(f"left out: {part}", file=sys.stderr, flush=True)
    if os.environ.get("LEFT_OUT"):
        with open(os.environ["LEFT_OUT"], "a") as file:
            print(part, file=file)


def end_left_out(why: str) -> NoReturn:
    """Ends this script as left out: nothing was tested."""
    print(f"{Path(sys.argv[0]).name}: {why}: nothing was tested", file=sys.stderr)
    sys.exit(LEFT_OUT)


def preloadable(name: str, folder: Path) -> Path:
    """Compiles NAME.c of tests/support to a library for LD_PRELOAD in `folder`."""
    library = folder / f"{name}.so"
    if not library.exists():
        flags = ["-std=c11", "-O2", "-shared", "-fPIC", "-Wall", "-Wextra"]
        run(["gcc", *flags, SUPPORT / f"{name}.c", "-o", library, "-ldl"])
    return library
