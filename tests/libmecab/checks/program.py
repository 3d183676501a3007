"""Runs the program mecab over the sample's dictionary: the cases of program_cases.py, and out of
memory."""
import subprocess
from pathlib import Path

from libmecab.checks.common import VALGRIND, Built, Command, fail, report
from libmecab.checks.program_cases import CASES, Case
from support.heap import Heap
from support.running import run

# More allocations than the program makes.
MANY = 10_000
OUT_OF_MEMORY = ("mecab: line 1: out of memory\n", "mecab: line 2: out of memory\n")


def check_case(built: Built, case: Case, command: Command, folder: Path) -> None:
    """Checks what the program prints, writes and returns."""
    folder.mkdir()
    for name, content in case.files.items():
        data = content if isinstance(content, bytes) else content.encode()
        (folder / name).write_bytes(data)
    words = [word.replace("HERE", str(folder)) for word in case.arguments]
    done = subprocess.run(
        [*command, *words], input=case.input, capture_output=True, env=built.environment
    )
    errors, expected = done.stderr.decode(), [
        text.replace("HERE", str(folder)) for text in case.errors
    ]
    has_errors = all(text in errors for text in expected) and errors.count("\n") == len(expected)
    paths = {name: folder / name for name in case.written}
    written = {name: path.read_bytes() for name, path in paths.items() if path.exists()}
    result = (done.returncode, done.stdout, written)
    if result != (case.status, case.output, case.written) or not has_errors:
        fail(f"{case.what}: status {done.returncode}, {done.stdout[:200]!r}, {errors}")


def check_program(built: Built, image: Path) -> None:
    """Checks each of CASES, under valgrind."""
    command: Command = [*VALGRIND, built.client("programs.c"), "mecab_do", "-r", "/dev/null"]
    for number, case in enumerate(CASES):
        check_case(built, case, [*command, "-d", image], built.folder / f"program-{number}")
    report(f"{len(CASES)} cases of the program mecab")


def check_program_out_of_memory(built: Built, image: Path) -> None:
    """Each allocation of the program fails in turn.

    It prints an error with the number of the line, or does without and prints everything.
    """
    text = built.folder / "two-lines"
    text.write_text(f"もも\n{'もも' * 40_000}\n")
    command: Command = ["mecab", "-r", "/dev/null", "-d", image, "-Owakati", text]
    whole, heap = run(command, env=built.environment), Heap(built.folder)
    found: set[str] = set()
    for number in range(1, MANY):
        environment = heap.environment(number, built.environment)
        done = subprocess.run(command, env=environment, capture_output=True)
        if heap.counts().failed == 0:
            break
        errors = done.stderr.decode()
        found.add(errors)
        is_error = done.returncode == 1 and errors.startswith("mecab: ")
        if not is_error and (done.returncode, done.stdout, errors) != (0, whole, ""):
            fail(f"mecab, allocation {number} fails: status {done.returncode}, {errors}")
    for error in OUT_OF_MEMORY:
        if error not in found:
            fail(f"mecab: no failed allocation prints {error}")
    report(f"{number - 1} allocations of the program mecab, each of which failed in turn")
