"""Segments texts, four at once, and writes the words of TEXT to TEXT.words."""
import argparse
import sys
from concurrent.futures import ThreadPoolExecutor

from kumquatsieve import KumquatsieveError, Segmenter

options = argparse.ArgumentParser(description=__doc__)
options.add_argument("image", metavar="IMAGE", help="an image, by its path or its name")
options.add_argument("texts", metavar="TEXT", nargs="+", help="a file")
arguments = options.parse_args()
try:
    segmenter = Segmenter(arguments.image)

    def segment(path: str) -> None:
        with open(path, "rb") as text, open(path + ".words", "wb") as words:
            lines = segmenter.wakati_lines(text)
            words.writelines(line.encode() + b"\n" for line in lines)
        print(f"{path}: {lines.replaced} characters were replaced\n", end="")

    list(ThreadPoolExecutor(4).map(segment, arguments.texts))
except (OSError, KumquatsieveError) as error:
    sys.exit(f"files.py: {error}")
