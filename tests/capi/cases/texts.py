"""Compares what programs over the library print for a text with what jseg prints."""
import random
import subprocess
import sys
from pathlib import Path
from typing import Union

from capi.cases.library import COPIES, FILES, VALGRIND, Library, report
from support.running import TOP, program, run

LETTERS = "すもうち東京都a1 　。𠮷\t"
C = TOP / "examples" / "c"
# What the examples are compiled with.
EXAMPLE = ("-D_POSIX_C_SOURCE=200809L", "-Wpedantic")
# The most lines of an example.
LINES = {"words": 40, "threads": 40, "text": 40, "index": 90}
WORD_FORMAT = ["-F", "%m\\t%H\\n", "-U", "%m\\t%H\\n", "-E", ""]
# A text with bytes that are not UTF-8, and the tokens of the engine for it.
ODD = b"\xe3\x82\x82\xff\nz"
TOKENS = "0\t3\tも\n3\t4\t\udcff\n5\t6\tz\n"


def random_lines(count: int) -> bytes:
    """Returns `count` lines of words and characters of the sample, always the same."""
    choose = random.Random(1)
    return "".join(
        "".join(choose.choices(LETTERS, k=choose.randrange(60))) + "\n" for _ in range(count)
    ).encode()


def compare(what: str, expected: bytes, printed: bytes) -> None:
    """Ends this script if another program does not print what jseg printed."""
    if not expected:
        sys.exit("library: jseg prints nothing for an empty text")
    if expected != printed:
        sys.exit(f"library: {what} differs from jseg")
    report(f"{what}: the same {len(printed)} bytes as jseg")


def check_text(library: Library, image: Path, text: bytes) -> None:
    """Segments a text by jseg, and in C by four threads."""
    lines = library.folder / "lines"
    lines.write_bytes(text)
    expected = run([program("jseg"), "-d", image], text)
    for what, way in {"copied": COPIES, "mapped": FILES}.items():
        compare(f"4 threads, {what}", expected, run([library.test("threads", *way), image, lines]))


def example(library: Library, name: str) -> Path:
    """Compiles an example, which is short, and returns the path of the program."""
    source = C / f"{name}.c"
    length = len(source.read_text().splitlines())
    if length >= LINES[name]:
        sys.exit(f"library: {source} has {length} lines")
    return library.compiled(source, *EXAMPLE)


def check_examples(library: Library, image: Path) -> None:
    """Runs the examples under valgrind, and compares their outputs with those of jseg."""
    words, threads, text, index = programs = [example(library, name) for name in LINES]
    line = "すももももz東京都"
    expected = run([program("jseg"), "-d", image, *WORD_FORMAT], line.encode())
    compare("words.c", expected, run([*VALGRIND, words, image, line]))
    wakati = run([program("jseg"), "-d", image, "-O", "wakati"], line.encode())
    compare("threads.c", 3 * wakati, run([*VALGRIND, threads, image, line, line, line]))
    lines = random_lines(300)
    file = library.folder / "example.txt"
    file.write_bytes(lines)
    surfaces = run([program("jseg"), "-d", image, "-F", "%m\\n", "-U", "%m\\n", "-E", ""], lines)
    printed = run([*VALGRIND, text, image, file]).splitlines(True)
    compare("text.c", surfaces, b"".join(row.split(b"\t", 1)[1] for row in printed))
    tokens = run([*VALGRIND, index, image], ODD)
    compare("index.c", TOKENS.encode(errors="surrogateescape"), tokens)
    check_errors(programs)


def check_errors(programs: list[Path]) -> None:
    """Each example shows the message of an error, and fails."""
    for name, argument in zip(programs, ("x", "x", "/dev/null", "")):
        command: list[Union[str, Path]] = [name, "no-such-name", *([argument] if argument else [])]
        done = subprocess.run(command, stdin=subprocess.DEVNULL, capture_output=True)
        if done.returncode != 1 or b"no-such-name: no such image; " not in done.stderr:
            sys.exit(f"library: {name}: status {done.returncode}: {done.stderr.decode()}")
