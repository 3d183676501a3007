"""Segments each line of standard input, and prints its words as jseg does."""
import argparse
import sys

from kumquatsieve import KumquatsieveError, Segmenter

options = argparse.ArgumentParser(description=__doc__)
options.add_argument("image", metavar="IMAGE", help="an image, by its path or its name")
options.add_argument("format", nargs="?", choices=["wakati"], help="words joined by blanks")
arguments = options.parse_args()
try:
    segmenter = Segmenter(arguments.image, format=arguments.format)
    texts = segmenter.parse_lines(sys.stdin.buffer)
    sys.stdout.buffer.writelines(text.encode() for text in texts)
except (OSError, KumquatsieveError) as error:
    sys.exit(f"segment.py: {error}")
