"""Hostile sources of a system dictionary: matrix.def and char.def."""
import argparse
from pathlib import Path
from typing import Iterator, NamedTuple, Optional

from hostile.cases.dictionaries import CATEGORIES, Sources
from hostile.cases.measuring import MEMORY, Case, Run

# Bytes of memory in which dictc reads short rows, however many. It holds a long row whole, in a
# buffer that doubles.
ROW_MEMORY = 16 << 20
BUFFER_GROWTH = 2
ONE_ENTRY = b"1 entries, 0 skipped\n"


class LongRow(NamedTuple):
    """A row of matrix.def: its start, a piece that is repeated, its end, and whether it is M2."""

    start: bytes
    piece: bytes
    end: bytes
    is_rejected: bool


LONG_ROWS = {
    "blanks": LongRow(b"1 1 12", b" ", b"", False),
    "zeros": LongRow(b"1 1 ", b"0", b"12", False),
    "digits": LongRow(b"1 1 ", b"1", b"", True),
    "words": LongRow(b"1 1 ", b"1 ", b"", True),
}


class Compiler:
    """Compiles a dictionary of one entry in a folder, with one of its sources replaced."""

    def __init__(self, options: argparse.Namespace, folder: Path) -> None:
        self.dictc, self.folder = options.dictc, folder
        Sources("z,1,1,1,x\n").compiled(self.dictc, folder)

    def run(
        self, kind: str, source: Path, memory: int = MEMORY, error: Optional[bytes] = None
    ) -> Run:
        """Returns the run with `source` as its source of this kind.

        With `error` the run fails, and these are the last bytes on standard error.
        """
        sources = {name: self.folder / f"{name}.def" for name in ("matrix", "char", "unk")}
        sources[kind] = source
        command = [self.dictc, "system"]
        for name, path in sources.items():
            command += [f"--{name}", path]
        command += ["--out", source.with_suffix(".img"), self.folder / "lexicon.def"]
        if error is None:
            return Run(command, printed=ONE_ENTRY, memory=memory)
        return Run(command, statuses=(1,), error=error, memory=memory)


def one_line(options: argparse.Namespace, folder: Path) -> Iterator[Case]:
    """Each matrix.def whose bytes are all on one line, which is no header, beside one of rows."""
    compiler = Compiler(options, folder / "one line")
    honest = folder / "rows.def"
    honest.write_text("2 2\n" + "1 1 12\n" * (options.bytes // 7))
    for name, piece in {"a line": "1 1 1 1 ", "a zero": "0" * 8}.items():
        hostile = folder / f"{name}.def"
        hostile.write_text(piece * (options.bytes // 8))
        yield Case(
            f"matrix.def of {name}",
            f"{options.bytes} bytes",
            compiler.run("matrix", honest),
            compiler.run("matrix", hostile, error=b":1: M1 BadHeader\n"),
        )


def write_long(path: Path, start: bytes, piece: bytes, count: int, end: bytes = b"") -> None:
    """Writes a text with about `count` bytes of a piece that is repeated."""
    block = piece * 2**16
    with path.open("wb") as file:
        file.write(start)
        for _ in range(count // len(block)):
            file.write(block)
        file.write(end)


def long_rows(options: argparse.Namespace, folder: Path) -> Iterator[Case]:
    """A long row, beside short rows of as many bytes, which don't fit into the memory of their run.

    The long row fits into its own, but a second buffer of its size does not.
    """
    compiler = Compiler(options, folder / "long rows")
    rows = folder / "long rows" / "rows.def"
    write_long(rows, b"2 2\n", b"1 1 12\n", options.row)
    honest = compiler.run("matrix", rows, ROW_MEMORY)
    for name, row in LONG_ROWS.items():
        path = rows.with_name(f"{name}.def")
        write_long(path, b"2 2\n" + row.start, row.piece, options.row, row.end)
        error = b":2: M2 BadRow\n" if row.is_rejected else None
        memory = ROW_MEMORY + BUFFER_GROWTH * options.row
        hostile = compiler.run("matrix", path, memory, error)
        yield Case(f"a row of {name}", f"{options.row} bytes", honest, hostile)


def nested_mappings(options: argparse.Namespace, folder: Path) -> Case:
    """A char.def of which each range contains the next one, beside one of single characters.

    A function that calls itself for each range would run out of stack.
    """
    compiler = Compiler(options, folder / "mappings")

    def run(name: str, points: Iterator[str]) -> Run:
        mappings = "".join(
            f"{point} {('KANJI', 'OTHER')[i % 2]}\n" for i, point in enumerate(points)
        )
        source = folder / "mappings" / f"{name}.def"
        source.write_text(CATEGORIES + mappings)
        return compiler.run("char", source)

    count = options.mappings
    honest = run("single", (f"0x{0x10000 + i:X}" for i in range(count)))
    hostile = run("nested", (f"0x{i:X}..0x{0x10FFFF - i:X}" for i in range(count)))
    return Case("nested mappings", f"{count} lines", honest, hostile)
