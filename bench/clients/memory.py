"""Loads an image, segments a line, prints its process number, and waits until its input ends.

    memory.py LOAD IMAGE

LOAD is one of `LOADS`.
"""
import os
import sys
from typing import Callable, Optional

from kumquatsieve import Segmenter

LINE = "もも"


def read(path: str) -> bytes:
    with open(path, "rb") as file:
        return file.read()


def forked(path: str) -> Segmenter:
    """Returns a Segmenter with which a child of this process segments too. The child waits as
    well."""
    segmenter = Segmenter(path)
    if os.fork() == 0:
        segmenter.wakati(LINE)
    return segmenter


LOADS: dict[str, Callable[[str], Optional[Segmenter]]] = {
    "path": Segmenter,
    "path, test_digest": lambda path: Segmenter(path, test_digest=True),
    "bytes": lambda path: Segmenter(read(path)),
    "forked": forked,
    "nothing": lambda path: None,
}


def main() -> None:
    load, path = sys.argv[1:]
    segmenter = LOADS[load](path)
    if segmenter:
        segmenter.wakati(LINE)
    print(os.getpid(), flush=True)
    sys.stdin.read()
    os._exit(0)


main()
