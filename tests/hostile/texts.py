#!/usr/bin/env python3
"""Measures the segmentation of hostile texts, beside honest ones of the same size.

Most of them are hostile over a dictionary that is compiled for them:

    blanks                   words end at 4,096 positions of one run of blanks, beside a line of
                             words
    left ids of a surface    each entry of one surface has its own left id, beside as many surfaces
    entries of a surface     a surface has 1,000 entries with the same ids, beside one; in 512 MiB
                             of memory
    unknown entries          a category of LENGTH 15 has many unknown entries, beside one that the
                             text does not have; 0.3 s in all
    quotes in a feature      a field of quotes precedes the one that is printed, beside short
                             features
    commas in a feature      the last field that can be printed is, beside short features
    grouping over ranges     characters above U+FFFF, with -M 1000 beside -M 24
    grouping of katakana     characters below U+FFFF, with -M 1000 beside -M 24
    grouping after blanks    blanks go on to a run of kanji at each second position, with -M 1000
                             beside -M 24
    a stem at each position  a long surface starts at each position and ends at none, beside one
                             that starts at none

Each is run `--rounds` times, in turn with the honest one, and the least processor times count. A
slow case is smaller than it was meant to be, and its line says by how much. The status is 1 if a
run fails or prints something else than expected, and if it takes more than three times the honest
one's time, or than the seconds of its case, unless it is in KNOWN. It is also 1 if one in KNOWN
does not, so that KNOWN stays true. With --quick the inputs are small, and six times are allowed;
an input in KNOWN that meets its bound is only reported.

Needs: dictc and jseg in crates/*/out. The status is 2 if one is missing.
"""
import sys
import tempfile
from pathlib import Path

sys.dont_write_bytecode = True
sys.path.insert(0, str(Path(__file__).resolve().parents[1]))
from hostile.cases.measuring import parsed_options, status_of  # noqa: E402
from hostile.cases.texts import Builder, cases  # noqa: E402

# Texts that take more than three times as long, and why.
KNOWN = {
    "a stem at each position": "each position is looked up as far as a key leads",
}


def main() -> int:
    options = parsed_options(__doc__, 3, ["dictc", "jseg"])
    with tempfile.TemporaryDirectory() as folder:
        return status_of(cases(Builder(options, Path(folder))), KNOWN, options)


if __name__ == "__main__":
    sys.exit(main())
