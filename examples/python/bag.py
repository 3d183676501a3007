"""Counts the words of files with dask, in several processes: bag.py IMAGE FILE.."""
import sys

from dask.bag.text import read_text

from kumquatsieve import Segmenter

if __name__ == "__main__":
    image, *paths = sys.argv[1:]
    # A process that gets the segmenter opens its dictionary once, and shares its memory.
    lines = read_text(paths, encoding="utf-8")
    counts = lines.map(Segmenter(image).wakati).flatten().frequencies()
    for word, count in sorted(counts.compute(scheduler="processes")):
        print(count, word)
