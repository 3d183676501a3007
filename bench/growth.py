"""Lines and texts that grow, and inputs that are hard: nanoseconds a byte, seconds, and memory.

Ours alone is measured, so the last column has the spread of its own elapsed seconds. If the search
is linear, the time a byte does not depend on the length. Lines and texts are segmented with the
dictionary NAME. The hard inputs are segmented with dictionaries that are made for them.
"""
import argparse
import subprocess
import tempfile
from pathlib import Path
from typing import NamedTuple

from compare_with_mecab.dictionaries import WAKATI, Command
from measure.compared import Compared, add_program_options, measure_each
from measure.host import Host
from measure.rows import MB, print_own
from measure.runs import NO_TEXT, in_turn, with_loads, without
from measure.texts import japanese, written
from support.running import SAMPLE


class HardInput(NamedTuple):
    """A text, and the lexicon of the dictionary that segments it."""

    name: str
    lexicon: str
    text: bytes


HARD_INPUTS = [
    HardInput("1 MiB of z", "", b"z" * 2**20),
    HardInput("65,600 entries of a", "a,1,1,10,X\n" * 65_600, b"aaa\n"),
    HardInput(
        "a to a 1,024 times",
        "".join("a" * n + ",1,1,10,X\n" for n in range(1, 1025)),
        b"a" * 4096,
    ),
]


def add_options(parser: argparse.ArgumentParser) -> None:
    add_program_options(parser)
    parser.add_argument(
        "names", nargs="?", default="ipadic", metavar="NAME", help="the dictionary (ipadic)"
    )


def measure_lengths(compared: Compared) -> None:
    """Measures lines, and then texts, of more and more bytes."""
    connected = japanese(8 * MB).replace(b"\n", b"").decode()
    print(
        "\nours alone: nanoseconds a byte without the load, memory, and spread, "
        "of texts of 4 MB in lines of so many bytes"
    )
    for kilobytes in (1, 16, 256, 1000):
        lines = in_lines_of(connected, 1024 * kilobytes)
        measure_length(f"{kilobytes} KiB", compared, written(compared.folder, "lines", lines))
    print("of texts of so many bytes")
    for megabytes in (1, 4, 16, 64):
        measure_length(f"{megabytes} MB", compared, compared.text(megabytes * MB))


def in_lines_of(text: str, size: int) -> bytes:
    """Returns about 4 MB of a Japanese text, in lines of at most `size` bytes."""
    count = size // 3
    return "\n".join(text[i : i + count] for i in range(0, 4 * MB // 3, count)).encode() + b"\n"


def measure_length(label: str, compared: Compared, text: Path) -> None:
    command: Command = [compared.programs.jseg, "-d", compared.sources.image, *WAKATI]
    (load,), (run,) = with_loads([command], compared.options.rounds, text)
    alone = without(run, load)
    per_byte = alone.least / text.stat().st_size * 1e9
    print(f"{label:>26} {per_byte:9.1f} {run.memory / MB:9.1f} MB {alone.certainty()}")


def compiler(options: argparse.Namespace, matrix: Path, image: Path, lexicon: Path) -> Command:
    """Returns the command that compiles a lexicon with the sample's definitions and a matrix."""
    definitions: Command = ["--char", SAMPLE / "char.def", "--unk", SAMPLE / "unk.def"]
    return [options.dictc, "system", "--matrix", matrix, *definitions, "--out", image, lexicon]


def measure_hard_inputs(options: argparse.Namespace) -> None:
    print("\nours alone: seconds, least, median and of the CPU, MB of memory, and spread")
    with tempfile.TemporaryDirectory() as name, Host():
        folder = Path(name)
        image, lexicon = folder / "hard.img", folder / "a.csv"
        for hard in HARD_INPUTS:
            lexicon.write_text(hard.lexicon)
            command = compiler(options, SAMPLE / "matrix.def", image, lexicon)
            subprocess.run([str(word) for word in command], check=True, stdout=subprocess.DEVNULL)
            text = written(folder, "text", hard.text)
            measure_alone(hard.name, [options.jseg, "-d", image], options, text)
        matrix = written(folder, "large.def", b"32768 32768\n0 0 1\n")
        command = compiler(options, matrix, folder / "large.img", lexicon)
        measure_alone("a matrix of 32,768", command, options, NO_TEXT)


def measure_alone(label: str, command: Command, options: argparse.Namespace, text: Path) -> None:
    (runs,) = in_turn([command], options.rounds, text)
    print_own(label, runs)


def run(options: argparse.Namespace) -> int:
    options.names = [options.names]

    def measure(compared: Compared) -> None:
        compared.compile()
        measure_lengths(compared)

    status = measure_each(options, measure)
    measure_hard_inputs(options)
    return status
