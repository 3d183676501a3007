"""Segments Japanese text into words, with the proved library of Kumquatsieve.

    from kumquatsieve import Segmenter

    for word in Segmenter("ipadic")("すもももももももものうち"):
        print(word.surface, word.pos, word.base_form)

docs/PYTHON.md describes each class and call.
"""
import sys

if "t" in sys.abiflags:
    raise ImportError("kumquatsieve needs a Python with a lock (GIL): this one is free-threaded")

from ._core import Node, Word  # noqa: E402 (after the test for what it needs)
from ._errors import KumquatsieveError  # noqa: E402
from ._segmenter import Dictionary, Lines, Segmenter, dictionaries  # noqa: E402
from ._words import Words  # noqa: E402

__version__ = "0.1.0"
NOW = [Dictionary, KumquatsieveError, Lines, Node, Segmenter, Word, Words, dictionaries]
# Most programs don't name these, and `collections` takes longer to import than the rest.
LATER = ["Format", "ImageInfo", "Lattice", "Rival"]
__all__ = sorted([*(one.__name__ for one in NOW), *LATER])


def __getattr__(name):
    if name not in LATER:
        raise AttributeError(f"module {__name__!r} has no attribute {name!r}")
    from . import _lattice

    return getattr(_lattice, name)


def __dir__():
    return sorted({*globals(), *__all__})
