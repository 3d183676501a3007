"""Segments a text, and prints each word with its feature."""
import argparse
import sys

from kumquatsieve import KumquatsieveError, Segmenter

options = argparse.ArgumentParser(description=__doc__)
options.add_argument("image", metavar="IMAGE", help="an image, by its path or its name")
options.add_argument("text", metavar="TEXT")
arguments = options.parse_args()
try:
    for word in Segmenter(arguments.image)(arguments.text):
        print(word.surface, word.feature, sep="\t")
except (OSError, KumquatsieveError) as error:
    sys.exit(f"words.py: {error}")
