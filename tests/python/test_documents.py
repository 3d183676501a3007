"""Runs the blocks of docs/PYTHON.md that are neither a program nor a session, and checks results.

`tests/docs/run.py` runs the others.
"""
import multiprocessing
import re
from pathlib import Path

import pytest

from kumquatsieve import Segmenter

DOCUMENT = Path(__file__).resolve().parents[2] / "docs" / "PYTHON.md"
BLOCKS = re.findall(r"^```python\n(.*?)^```$", DOCUMENT.read_text(encoding="utf-8"), re.M | re.S)
LINES = ["もも", "", "すもももも"]
TEXT = "".join(line + "\n" for line in LINES)
JOINED = ["もも", "", "すもも もも"]


def corpus(folder):
    (folder / "corpus.txt").write_bytes(TEXT.encode() + b"\xff\n")
    return {}


# For each block, by a text that only it has: the names it is given, and the checks of what it
# reaches at `...`, of its output, of its names and of its folder.
ROWS = {
    "corpus.txt": (
        corpus,
        lambda given, seen, folder: (seen, given["print"].printed),
        (JOINED + ["\ufffd"], (1, "characters were replaced")),
    ),
    "multiprocessing.Pool": (
        lambda folder: {"multiprocessing": multiprocessing, "lines": LINES},
        lambda given, seen, folder: seen,
        [line.split() for line in JOINED],
    ),
}


class Printer:
    """A replacement for `print`."""

    printed = None

    def __call__(self, *words):
        self.printed = words


def test_each_block_is_that_of_a_row():
    assert sorted(mark for mark in ROWS for block in BLOCKS if mark in block) == sorted(ROWS)
    assert len(BLOCKS) == len(ROWS)


@pytest.mark.parametrize("mark", ROWS)
def test_a_block_has_its_documented_result(system, tmp_path, monkeypatch, mark):
    (block,) = (block for block in BLOCKS if mark in block)
    given_in, look, wanted = ROWS[mark]
    monkeypatch.chdir(tmp_path)
    seen = []
    given = {
        "segmenter": Segmenter(system),
        "print": Printer(),
        "see": seen.append,
        **given_in(tmp_path),
    }
    what = "line" if "for line" in block else "words"
    exec(block.replace("...", f"see({what})"), given)
    assert look(given, seen, tmp_path) == wanted
