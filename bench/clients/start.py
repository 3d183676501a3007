"""Segments the line on standard input, and prints its words and how long that took.

    start.py mecab|ours DICTIONARY

The last line that it prints is a list in JSON: the elapsed seconds and the CPU seconds, from before
the import of the module to the first words. Then it waits until standard input ends. It imports
nothing that the modules import too, so that their imports count.
"""
import sys
import time

TYPE_CHECKING = False
if TYPE_CHECKING:
    from typing import Callable


def segmenter_of(module: str, dictionary: str) -> "Callable[[str], str]":
    """Opens a dictionary, and returns the function that segments a line with it."""
    if module == "mecab":
        import MeCab

        tagger = MeCab.Tagger(f"-r /dev/null -d {dictionary} -O wakati")
        return lambda line: str(tagger.parse(line)).strip()
    from kumquatsieve import Segmenter

    segmenter = Segmenter(dictionary)
    return lambda line: " ".join(segmenter.wakati(line))


def main() -> None:
    module, dictionary = sys.argv[1:]
    line = sys.stdin.readline().rstrip("\n")
    elapsed, cpu = time.perf_counter(), time.process_time()
    segment = segmenter_of(module, dictionary)
    words = segment(line)
    taken = [time.perf_counter() - elapsed, time.process_time() - cpu]
    print(f"{words}\n{taken}", flush=True)
    sys.stdin.read()


main()
