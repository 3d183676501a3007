"""`wakati_lines` of the Python module in several threads, beside one thread.

Each thread segments a part of the text, with a share of one Segmenter. The text consists of the
files, repeated until it has so many megabytes; lines that are not UTF-8 are left out. Without a
file it consists of the Japanese manual pages (Debian: manpages-ja). Without an image it is
segmented with the sample's. One thread and several take turns, --rounds times. A row has the least
and the median of the elapsed seconds, the least of the CPU seconds, the ratio of the least elapsed
seconds to those of one thread, and the spread of the elapsed seconds, from the least to the most,
in parts of the least. After the rows follows what else the machine did. If a spread is above a
tenth, or other work took more than a twentieth of the processors, the ratio is called uncertain.

The status is 1 if the lines differ, or if the ratio is above --most: 0.4 is what four threads on
four idle processors take at most. With --most the status is 77 if the ratio is uncertain, because
nothing was decided then.

With --instructions the instructions of one thread over 1 MB are counted instead, by valgrind, and
those of them that are in the library's own code. Other threads run during these, and none runs
during the rest, which are Python's. The counts are the same whatever else the machine does.

The module is in the folder that KUMQUATSIEVE_MODULE names. Without the variable it is built from
crates/capi/out/libcapi.a, which needs gcc and python3-dev. The sample's image needs
crates/dictc/out/dictc, and instructions need valgrind. If one is missing the status is 77, and
nothing was measured.
"""
import argparse
import shutil
import statistics
import subprocess
import sys
import tempfile
import time
from collections import deque
from concurrent.futures import ThreadPoolExecutor
from pathlib import Path
from typing import TYPE_CHECKING, Callable, Iterator, List, NamedTuple, Sequence, TypeVar

from compare_with_mecab.dictionaries import Command
from compare_with_mecab.texts import common_lines, manual_pages
from measure.counts import instructions_in
from measure.host import Host
from measure.python_module import end_unmeasured, use_module
from measure.rows import MB
from measure.runs import CERTAIN, NO_TEXT
from measure.texts import whole_lines, written
from support.running import LEFT_OUT, SAMPLE, TOP, program

if TYPE_CHECKING:
    from kumquatsieve import Segmenter

T = TypeVar("T")

# The largest share of the processors that other work takes while a ratio is certain.
QUIET = 0.05


class Seconds(NamedTuple):
    """What one run took: elapsed seconds, and the CPU seconds of all threads."""

    elapsed: float
    cpu: float


def corpus(texts: Sequence[Path], size: int) -> bytes:
    """Returns about `size` bytes: the lines of the texts that are UTF-8, repeated."""
    given = b"".join(path.read_bytes() for path in texts)
    lines = given or manual_pages() or (SAMPLE / "text.txt").read_bytes()
    lines = common_lines(lines).rstrip(b"\n") + b"\n"
    return lines * max(1, round(size / len(lines)))


def parts_of(text: bytes, count: int) -> List[bytes]:
    """Splits a text into `count` parts of about the same length, which end at line ends."""
    ends = [text.find(b"\n", len(text) * number // count) + 1 for number in range(1, count)]
    return [text[start:end] for start, end in zip([0, *ends], [*ends, len(text)])]


def sample_image(folder: Path) -> Path:
    dictc = program("dictc")
    if not dictc.exists():
        end_unmeasured(dictc)
    image, words = folder / "sample.img", [str(dictc), "system"]
    for name in ("matrix", "char", "unk"):
        words += [f"--{name}", str(SAMPLE / f"{name}.def")]
    words += ["--out", str(image), str(SAMPLE / "lexicon.csv")]
    subprocess.run(words, check=True, stdout=subprocess.DEVNULL)
    return image


def in_threads(
    segmenter: "Segmenter", parts: List[bytes], count: int, take: Callable[[Iterator[str]], T]
) -> List[T]:
    """Segments each part by one of `count` threads, and returns what `take` makes of its lines."""
    with ThreadPoolExecutor(count) as threads:
        return list(threads.map(lambda part: take(segmenter.share().wakati_lines(part)), parts))


def time_threads(segmenter: "Segmenter", parts: List[bytes], count: int) -> Seconds:
    start, used = time.monotonic(), time.process_time()
    in_threads(segmenter, parts, count, deque[str](maxlen=0).extend)
    return Seconds(time.monotonic() - start, time.process_time() - used)


def spread_of(runs: Sequence[Seconds]) -> float:
    """Returns the range of the elapsed seconds, in parts of the least."""
    elapsed = [run.elapsed for run in runs]
    return (max(elapsed) - min(elapsed)) / min(elapsed)


def print_row(count: int, runs: Sequence[Seconds], one: float, size: float) -> float:
    """Prints the row of `count` threads, and returns its ratio to the seconds of one thread.

    `size` is the length of the text in MB.
    """
    elapsed, cpu = [run.elapsed for run in runs], min(run.cpu for run in runs)
    least, ratio = min(elapsed), min(elapsed) / one
    seconds = f"{least:.2f} s | {statistics.median(elapsed):.2f} s | {cpu:.2f} s"
    print(f"| {count} | {seconds} | {size / least:.1f} | {ratio:.2f} | {spread_of(runs):.2f} |")
    return ratio


def measure(segmenter: "Segmenter", text: bytes, options: argparse.Namespace) -> int:
    """Measures one thread and several in turn, and returns the status."""
    parts = parts_of(text, options.threads)
    several, alone = (in_threads(segmenter, parts, n, list[str]) for n in (options.threads, 1))
    if several != alone:
        print("bench/run threads: the lines differ from those of one thread", file=sys.stderr)
        return 1
    runs: dict[int, list[Seconds]] = {1: [], options.threads: []}
    with Host() as host:
        for count in list(runs) * options.rounds:
            runs[count].append(time_threads(segmenter, parts, count))
    print(
        "| threads | least | median | CPU | MB/s | to one | spread |\n|---|---|---|---|---|---|---|"
    )
    one = min(run.elapsed for run in runs[1])
    ratio = [print_row(count, each, one, len(text) / MB) for count, each in runs.items()][-1]
    print(f"{len(text) / MB:.0f} MB of text in {options.threads} parts")
    if options.rounds < 2 or max(map(spread_of, runs.values())) > CERTAIN or host.other > QUIET:
        print(f"the ratio {ratio:.2f} is uncertain: it decides nothing")
        return LEFT_OUT if options.most else 0
    return 1 if options.most and ratio > options.most else 0


def count_instructions(image: Path, text: bytes, threads: int, folder: Path) -> int:
    """Prints which part of the instructions of one thread is Python's own."""
    if not shutil.which("valgrind"):
        end_unmeasured("valgrind")
    path = written(folder, "text", text)
    lines = TOP / "bench" / "clients" / "lines.py"
    command: Command = [sys.executable, lines, "wakati_lines", image]
    library = "_core.abi3.so"
    runs, loads = (instructions_in(command, read, library) for read in (path, NO_TEXT))
    whole, own = (run - load for run, load in zip(runs, loads))
    alone = 1 - own / whole
    print(
        f"{len(text) / MB:.1f} MB of text: {whole / 1e6:.1f} million instructions without the "
        f"load, of which the library's are {own / 1e6:.1f}"
    )
    print(
        f"Python's own are {alone:.3f} of all: by this count {threads} threads take at least "
        f"{max(alone, 1 / threads):.3f} of the time of one"
    )
    return 0


def add_options(parser: argparse.ArgumentParser) -> None:
    parser.add_argument("--image", type=Path)
    parser.add_argument("--threads", type=int, default=4, metavar="N")
    parser.add_argument("--megabytes", type=int, default=20, metavar="N")
    parser.add_argument("--rounds", type=int, default=5, metavar="N")
    parser.add_argument(
        "--most",
        type=float,
        metavar="RATIO",
        help="the most that several threads may take, in parts of the seconds of one",
    )
    parser.add_argument(
        "--instructions",
        action="store_true",
        help="count the instructions of one thread, and measure nothing else",
    )
    parser.add_argument("texts", nargs="*", type=Path, metavar="TEXT")


def run(options: argparse.Namespace) -> int:
    with tempfile.TemporaryDirectory() as name:
        folder = Path(name)
        use_module(folder)
        image = options.image or sample_image(folder)
        if options.instructions:
            text = whole_lines(corpus(options.texts, MB), MB)
            return count_instructions(image, text, options.threads, folder)
        from kumquatsieve import Segmenter

        return measure(Segmenter(image), corpus(options.texts, options.megabytes * MB), options)
