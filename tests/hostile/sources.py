#!/usr/bin/env python3
"""Measures the compilation of hostile sources, beside honest ones of the same size:

    colliding features    lines whose features have one hash in the kit's `FoldHasher`, which the
                          kit's maps use by default, beside as many lines with other features; the
                          surfaces and the lengths are the same
    matrix.def of a line  numbers without a line feed, beside rows
    matrix.def of a zero  zeros without a line feed, beside rows
    a row of blanks       a row with blanks after it and no line feed, in 16 MiB of memory and twice
                          its length, beside rows in 16 MiB
    a row of zeros        a row with zeros before its cost, in as much memory
    a row of digits       a row whose cost has digits without end, which is rejected, in as much
                          memory
    a row of words        a row of numbers without end, which is rejected, in as much memory
    nested mappings       a char.def of ranges that contain each other, beside one of single
                          characters, both of 500,000 lines

Each is compiled `--rounds` times, in turn with the honest one, and the least processor times count.
The status is 1 if a compilation fails that should not, or does not fail that should. It is also 1
if a hostile one takes more than three times the honest one's time and is not in KNOWN, and if one
in KNOWN does not, so that KNOWN stays true. With --quick the inputs are small, and six times are
allowed; an input in KNOWN that meets its bound is only reported.

Needs: dictc in crates/dictc/out. The status is 2 if it is missing.
"""
import sys
import tempfile
from pathlib import Path

sys.dont_write_bytecode = True
sys.path.insert(0, str(Path(__file__).resolve().parents[1]))
from hostile.cases.collisions import colliding_features  # noqa: E402
from hostile.cases.definitions import long_rows, nested_mappings, one_line  # noqa: E402
from hostile.cases.measuring import Option, parsed_options, status_of  # noqa: E402

# Sources that take more than three times as long, and why.
KNOWN: dict[str, str] = {}
SIZES = {
    "lines": Option(131_072, 16_384, "the lines of each lexicon"),
    "bytes": Option(20_000_000, 4_000_000, "the bytes of each matrix.def"),
    "row": Option(1_000_000_000, 20_000_000, "the bytes of a row"),
    "mappings": Option(500_000, 500_000, "the lines of each char.def"),
}


def main() -> int:
    options = parsed_options(__doc__, 3, ["dictc"], **SIZES)
    with tempfile.TemporaryDirectory() as made:
        folder = Path(made)
        cases = [
            colliding_features(options, folder),
            *one_line(options, folder),
            *long_rows(options, folder),
            nested_mappings(options, folder),
        ]
        return status_of(cases, KNOWN, options)


if __name__ == "__main__":
    sys.exit(main())
