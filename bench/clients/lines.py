"""Segments the lines of standard input by one way of a module, and prints nothing.

    lines.py WAY DICTIONARY

WAY is one of `WAYS`. All lines are read before.
"""
import sys
from typing import TYPE_CHECKING, Any, Callable, Iterator

if TYPE_CHECKING:
    from kumquatsieve import Segmenter

# A function that segments a line, or a text.
Segment = Callable[[str], object]


def mecab(dictionary: str, output: str = "") -> Any:
    """Returns a tagger of MeCab's module, which has no types."""
    import MeCab

    return MeCab.Tagger(f"-r /dev/null -d {dictionary}{output}")


def segmenter_of(dictionary: str, format: "str | None" = None) -> "Segmenter":
    from kumquatsieve import Segmenter

    return Segmenter(dictionary, format=format)


def over_nodes(tagger: Any) -> Segment:
    """Returns a function that reads the surface and the feature of each node of a line."""

    def walk(line: str) -> None:
        node = tagger.parseToNode(line)
        while node:
            node.surface, node.feature
            node = node.next

    return walk


def over_words(segmenter: "Segmenter") -> Segment:
    """Returns a function that reads the surface and the feature of each word of a line."""

    def walk(line: str) -> None:
        for word in segmenter(line):
            word.surface, word.feature

    return walk


def split(tagger: Any) -> Segment:
    """Returns a function that splits a tagger's text of a line into surfaces."""
    return lambda line: tagger.parse(line).split()


def each(segment: Segment) -> Segment:
    """Returns a function that calls `segment` with each line of a text."""

    def run(text: str) -> None:
        for line in text.split("\n")[:-1]:
            segment(line)

    return run


def all_of(segment: Callable[[str], Iterator[str]]) -> Segment:
    """Returns a function that calls `segment` with a text, and consumes its items."""

    def run(text: str) -> None:
        for _ in segment(text):
            pass

    return run


# The functions that open a dictionary, and return the function that segments a text.
WAYS: dict[str, Callable[[str], Segment]] = {
    "parse": lambda dictionary: each(segmenter_of(dictionary).parse),
    "parse, wakati": lambda dictionary: each(segmenter_of(dictionary, "wakati").parse),
    "parse_lines": lambda dictionary: all_of(segmenter_of(dictionary).parse_lines),
    "wakati": lambda dictionary: each(segmenter_of(dictionary).wakati),
    "wakati_lines": lambda dictionary: all_of(segmenter_of(dictionary).wakati_lines),
    "words": lambda dictionary: each(over_words(segmenter_of(dictionary))),
    "MeCab: parse": lambda dictionary: each(mecab(dictionary).parse),
    "MeCab: parse, wakati": lambda dictionary: each(mecab(dictionary, " -O wakati").parse),
    "MeCab: wakati": lambda dictionary: each(split(mecab(dictionary, " -O wakati"))),
    "MeCab: parseToNode": lambda dictionary: each(over_nodes(mecab(dictionary))),
}


def main() -> None:
    way, dictionary = sys.argv[1:]
    WAYS[way](dictionary)(sys.stdin.buffer.read().decode())


main()
