"""Segments a file of many lines on the workers of dask.distributed, and writes what `jseg` prints.

    python3 segment.py IMAGE [--scheduler ADDRESS | --workers N] [--format wakati] [--part BYTES] \\
        TEXT WORDS

Each worker reads its parts of TEXT by itself, so the file must have this path on each of their
machines, and the dictionary must be installed there. An invalid line ends the run with its number
in the file, after the lines before it were written.
"""
import argparse
import sys
from collections import deque
from typing import Deque, Iterator, List, Optional, TextIO, Tuple

from distributed import Client, Future
from kumquatsieve import KumquatsieveError, Segmenter


# A part of a file, of whole lines: the path, the first byte, and the byte after the last one.
Part = Tuple[str, int, int]


def read(part: Part) -> bytes:
    path, start, end = part
    with open(path, "rb") as file:
        file.seek(start)
        return file.read(end - start)


def parts_of(path: str, size: int) -> Iterator[Part]:
    """Splits a file into parts of about `size` bytes that end at line ends."""
    with open(path, "rb") as file:
        start, whole = 0, file.seek(0, 2)
        while start < whole:
            file.seek(start + size - 1)
            file.readline()
            end = min(file.tell(), whole)
            yield path, start, end
            start = end


def segment(segmenter: Segmenter, part: Part) -> Tuple[str, Optional[KumquatsieveError]]:
    """Returns the text of a part's lines up to an error, and the error.

    The Segmenter comes pickled, and its worker loads the dictionary once.
    """
    printed: List[str] = []
    try:
        for text in segmenter.parse_lines(read(part), errors="strict"):
            printed.append(text)
    except KumquatsieveError as error:
        return "".join(printed), error
    return "".join(printed), None


def line_of(part: Part, error: KumquatsieveError) -> int:
    """Returns the number in the file of the invalid line."""
    path, start, _ = part
    lines = 0
    with open(path, "rb") as file:
        while file.tell() < start:
            lines += file.read(min(start - file.tell(), 1_000_000)).count(b"\n")
    return lines + (error.line or 0)


def segment_all(client: Client, segmenter: Segmenter, parts: Iterator[Part], words: str) -> None:
    """Writes the text of all parts, in order.

    No more of them are segmented at once than keep the workers busy.
    """
    most = 2 * sum(client.nthreads().values())
    waiting: Deque[Tuple[Part, Future]] = deque()
    with open(words, "w", encoding="utf-8", newline="\n") as out:
        for part in parts:
            if len(waiting) >= most:
                write_first(waiting, out)
            waiting.append((part, client.submit(segment, segmenter, part, pure=False)))
        while waiting:
            write_first(waiting, out)


def write_first(waiting: Deque[Tuple[Part, Future]], out: TextIO) -> None:
    part, future = waiting.popleft()
    printed, error = future.result()
    out.write(printed)
    if error is not None:
        sys.exit(f"{part[0]}: line {line_of(part, error)}: {error.message} ({error.code})")


def main() -> None:
    options = argparse.ArgumentParser(
        description=__doc__, formatter_class=argparse.RawDescriptionHelpFormatter
    )
    options.add_argument("image", metavar="IMAGE", help="an image, by its path or its name")
    options.add_argument(
        "--scheduler", help="of a running cluster; without it one is started on this machine"
    )
    options.add_argument("--workers", type=int, default=4, help="of the cluster that is started")
    options.add_argument("--format", choices=["wakati"])
    options.add_argument(
        "--part", type=int, default=10_000_000, help="how many bytes a worker segments at once"
    )
    options.add_argument("text", metavar="TEXT", help="the file to segment")
    options.add_argument("words", metavar="WORDS", help="the file to write")
    arguments = options.parse_args()
    here = {"n_workers": arguments.workers, "threads_per_worker": 1, "dashboard_address": None}
    segmenter = Segmenter(arguments.image, format=arguments.format)
    cluster = {"address": arguments.scheduler} if arguments.scheduler else here
    with Client(**cluster) as client:
        segment_all(client, segmenter, parts_of(arguments.text, arguments.part), arguments.words)


if __name__ == "__main__":
    try:
        main()
    except (OSError, KumquatsieveError) as error:
        sys.exit(f"segment.py: {error}")
