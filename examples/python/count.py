"""Counts the nouns of a text, and prints the most frequent ones."""
import argparse
import sys
from collections import Counter

from kumquatsieve import KumquatsieveError, Segmenter

options = argparse.ArgumentParser(description=__doc__)
options.add_argument("image", metavar="IMAGE", help="an image, by its path or its name")
options.add_argument("text", metavar="TEXT", help="a file in UTF-8")
arguments = options.parse_args()
counts: Counter[str] = Counter()
try:
    with Segmenter(arguments.image) as segmenter, open(arguments.text, "rb") as text:
        for words in segmenter.lines(text):
            counts.update(word.base_or_surface for word in words if word.pos == "名詞")
except (OSError, KumquatsieveError) as error:
    sys.exit(f"count.py: {error}")
for surface, count in counts.most_common(10):
    print(count, surface)
