"""Measures calls of both Python modules over the lines of standard input, in turn.

    python.py ROUNDS NAME MECAB IMAGE [limits]

MECAB is a folder of MeCab's, and IMAGE an image of the same dictionary. Prints a row for each call.
"""
import statistics
import sys
import time
from typing import Any, Callable, Dict, List, Tuple

import MeCab
from kumquatsieve import Segmenter

Call = Callable[[List[str]], List[Any]]
# The numbers of the part of speech and of the base form among the fields.
FIELDS = {"ipadic": (0, 6), "unidic": (0, 10)}


def nodes_of(tagger: Any, line: str) -> List[Any]:
    """Returns the nodes of a line as the users of MeCab's module do."""
    found, node = [], tagger.parseToNode(line).next
    while node.next:
        found.append(node)
        node = node.next
    return found


def base_of(feature: str, pos: int, base: int) -> Tuple[str, str]:
    fields = feature.split(",")
    return fields[pos], fields[base] if len(fields) > base else "*"


def calls(name: str, mecab: str, image: str) -> Dict[str, Tuple[Call, Call, float]]:
    """Returns MeCab's call and ours by what they return, and the limit of the ratio."""
    tagger = MeCab.Tagger(f"-r /dev/null -d {mecab}")
    wakati = MeCab.Tagger(f"-r /dev/null -d {mecab} -O wakati")
    segmenter, (pos, base) = Segmenter(image), FIELDS[name]
    return {
        "surfaces": (
            lambda lines: [wakati.parse(line).split() for line in lines],
            lambda lines: [segmenter.wakati(line) for line in lines],
            0.6,
        ),
        "features": (
            lambda lines: [
                [(node.surface, node.feature) for node in nodes_of(tagger, line)] for line in lines
            ],
            lambda lines: [
                [(word.surface, word.feature) for word in segmenter(line)] for line in lines
            ],
            0.5,
        ),
        "part of speech, base form": (
            lambda lines: [
                [base_of(node.feature, pos, base) for node in nodes_of(tagger, line)]
                for line in lines
            ],
            lambda lines: [
                [(word.pos, word.base_form or "*") for word in segmenter(line)] for line in lines
            ],
            0.5,
        ),
        "all lines at once": (
            lambda lines: [wakati.parse(line).rstrip(" \n") for line in lines],
            lambda lines: list(segmenter.wakati_lines("\n".join(lines))),
            0.5,
        ),
    }


def time_of(call: Call, lines: List[str]) -> float:
    """Returns the microseconds of the CPU that a line takes."""
    start = time.process_time()
    call(lines)
    return (time.process_time() - start) / len(lines) * 1e6


def main() -> int:
    rounds, name, mecab, image, *limits = sys.argv[1:]
    lines, failed = sys.stdin.buffer.read().decode().split("\n"), False
    for what, (theirs, ours, limit) in calls(name, mecab, image).items():
        pairs = zip(lines, theirs(lines), ours(lines))
        different = [line for line, one, other in pairs if one != other]
        if len(different) > len(lines) // 100:
            sys.exit(f"{name}, {what}: other results for {len(different)} lines: {different[0]}")
        times = [(time_of(theirs, lines), time_of(ours, lines)) for _ in range(int(rounds))]
        columns = [value for each in zip(*times) for value in (min(each), statistics.median(each))]
        ratio = columns[3] / columns[1]
        failed |= ratio > limit
        figures = " | ".join(f"{value:.1f}" for value in columns)
        print(f"| {name} | {what} | {figures} | {ratio:.2f} |", flush=True)
    return int(bool(limits) and failed)


sys.exit(main())
