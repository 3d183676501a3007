#!/usr/bin/env python3
"""Segments a corpus with one jseg and with GNU parallel over blocks of lines, and compares.

    tests/cli/parallel.py [--image IMG] [--pjseg PROGRAM] [--mecab DIR] [--megabytes N] [--block N]
                          [--rounds N] [TEXT..]

The outputs have to be the same, byte for byte; the status is 1 if one differs. The speeds are
printed.

The corpus is made of the texts, repeated until it has N megabytes, without lines that are not
UTF-8. The default texts are the Japanese manual pages (Debian: manpages-ja). The default dictionary
is the sample. With --image and --pjseg it is also segmented by a pjseg, on as many threads
as there are jobs. With --mecab it is also segmented by MeCab with the dictionary in DIR, which has
to be compiled from the same sources.

The commands take turns, N times. A row has the least seconds over the corpus, and over no text. The
difference is the search, beside which is its ratio to the search of one jseg.

Needs crates/jseg/out/jseg, which `rt run` in its directory builds; if it is missing the status is
2. And parallel (Debian: parallel); without it no job is compared, and the status is 77.
"""
import argparse
import gzip
import os
import shutil
import subprocess
import sys
import tempfile
import time
from pathlib import Path
from typing import Dict, Iterator, List, Sequence, Tuple

sys.dont_write_bytecode = True
sys.path.insert(0, str(Path(__file__).resolve().parents[1]))
from support.running import LEFT_OUT, SAMPLE, Words, program  # noqa: E402

JSEG = program("jseg")
MANUAL_PAGES = Path("/usr/share/man/ja")
CORES = range(1, 5)
# Longer lines are an error of jseg, in bytes.
LINE_MAX = 1 << 20


def is_text(line: bytes) -> bool:
    try:
        line.decode()
    except UnicodeDecodeError:
        return False
    return len(line) < LINE_MAX


def corpus(texts: Sequence[Path], size: int) -> bytes:
    """Returns the lines of the texts, repeated to about `size` bytes."""
    if texts:
        text = b"".join(path.read_bytes() for path in texts)
    elif MANUAL_PAGES.exists():
        pages = sorted(path for path in MANUAL_PAGES.glob("man*/*.gz") if path.is_file())
        text = b"".join(gzip.decompress(path.read_bytes()) for path in pages)
    else:
        text = (SAMPLE / "text.txt").read_bytes()
    text = b"".join(line for line in text.splitlines(keepends=True) if is_text(line))
    text = text if text.endswith(b"\n") else text + b"\n"
    return text * max(1, round(size / len(text)))


def seconds_of(command: Words, source: Path, target: Path) -> float:
    with open(source, "rb") as reading, open(target, "wb") as writing:
        start = time.monotonic()
        subprocess.run(command, stdin=reading, stdout=writing, check=True)
        return time.monotonic() - start


class Times:
    """The least seconds of a command over the corpus, and over no text, which loads only."""

    def __init__(self) -> None:
        self.run = self.load = float("inf")

    def add(self, command: Words, source: Path, target: Path) -> None:
        self.load = min(self.load, seconds_of(command, Path(os.devnull), target))
        self.run = min(self.run, seconds_of(command, source, target))

    def search(self) -> float:
        return self.run - self.load


def print_table(times: Dict[str, Times], size: float) -> None:
    """Prints a row for each command, the first of which is one jseg. `size` is in megabytes."""
    print("| how | seconds | of these without a text | search, beside one `jseg` | MB/s |")
    print("|---|---|---|---|---|")
    one = next(iter(times.values())).search()
    for name, row in times.items():
        ratio = f"{row.search() / one:.2f}" if one > 0 else "none"
        print(f"| {name} | {row.run:.2f} | {row.load:.2f} | {ratio} | {size / row.run:.1f} |")


def commands(options: argparse.Namespace) -> Iterator[Tuple[str, List[str]]]:
    """Yields each command after its name in the table. The first is one jseg."""
    words = [*(["-d", str(options.image)] if options.image else ["--sample"]), "-O", "wakati"]
    yield "one `jseg`", [str(JSEG), *words]
    if options.mecab:
        mecab = ["mecab", "-r", "/dev/null", "-b", "1100000", "-d", str(options.mecab)]
        yield "MeCab", [*mecab, "-O", "wakati"]
    for cores in CORES if options.pjseg else ():
        yield f"`pjseg -j {cores}`", [str(options.pjseg), "-j", str(cores), *words]
    for cores in CORES if shutil.which("parallel") else ():
        jobs = ["parallel", "--will-cite", "--pipe", "-k", "--block", options.block]
        yield f"`parallel --pipe -k -j {cores}`", [*jobs, "-j", str(cores), str(JSEG), *words]


def compare(options: argparse.Namespace, folder: Path) -> bool:
    """Runs the commands in turns, and prints the table. Returns whether all outputs agree."""
    source, one, other = (folder / name for name in ("corpus", "one", "other"))
    source.write_bytes(corpus(options.texts, options.megabytes * 1_000_000))
    times = {name: Times() for name, _ in commands(options)}
    for name, command in [row for _ in range(options.rounds) for row in commands(options)]:
        target = other if one.exists() else one
        times[name].add(command, source, target)
        if subprocess.run(["cmp", one, target]).returncode:
            print(f"parallel: the output of {name} differs", file=sys.stderr)
            return False
    size = source.stat().st_size / 1e6
    print_table(times, size)
    how = f"{size:.0f} MB of text, blocks of {options.block}, {os.cpu_count()} cores"
    print(f"{how}: the outputs of {len(times)} commands are the same, byte for byte")
    return True


def parse_options() -> argparse.Namespace:
    parser = argparse.ArgumentParser(
        description=__doc__, formatter_class=argparse.RawDescriptionHelpFormatter
    )
    parser.add_argument("--image", type=Path)
    parser.add_argument("--pjseg", type=Path, metavar="PROGRAM")
    parser.add_argument("--mecab", type=Path, metavar="DIR")
    parser.add_argument("--rounds", type=int, default=1, metavar="N")
    parser.add_argument("--megabytes", type=int, default=40, metavar="N")
    parser.add_argument("--block", default="2M", metavar="N")
    parser.add_argument("texts", nargs="*", type=Path)
    options = parser.parse_args()
    if options.pjseg and not options.image:
        parser.error("--pjseg needs --image")
    return options


def main() -> int:
    options = parse_options()
    has_parallel = shutil.which("parallel") is not None
    if not JSEG.exists():
        print(f"parallel: {JSEG} is not built: nothing was compared", file=sys.stderr)
        return 2
    if not options.pjseg and not has_parallel:
        print("parallel: GNU parallel is missing: nothing was compared", file=sys.stderr)
        return LEFT_OUT
    with tempfile.TemporaryDirectory() as folder:
        if not compare(options, Path(folder)):
            return 1
    if not has_parallel:
        print("parallel: GNU parallel is missing: no job was compared", file=sys.stderr)
        return LEFT_OUT
    return 0


if __name__ == "__main__":
    sys.exit(main())
