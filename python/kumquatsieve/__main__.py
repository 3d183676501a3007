"""Segments the lines of standard input or of files."""
import argparse
import os
import sys

from . import KumquatsieveError, Segmenter, __version__


def main():
    parser = argparse.ArgumentParser("python -m kumquatsieve", description=__doc__)
    parser.add_argument("-d", metavar="DICTIONARY", help="an image, by its path or its name")
    parser.add_argument("-u", metavar="USER", action="append", default=[], help="a user's image")
    parser.add_argument("-O", choices=["wakati"], help="print the surfaces alone")
    parser.add_argument("-V", "--version", action="version", version=__version__)
    parser.add_argument("files", metavar="FILE", nargs="*", help="texts in UTF-8")
    options = parser.parse_args()
    sys.stdout.reconfigure(encoding="utf-8")
    try:
        segmenter = Segmenter(options.d, options.u, format=options.O)
        for name in options.files or [sys.stdin.fileno()]:
            with open(name, "rb", closefd=name in options.files) as file:
                typed = file.isatty()
                for output in segmenter.parse_lines(iter(file.readline, b"") if typed else file):
                    print(output, end="", flush=typed)
        sys.stdout.flush()
    except BrokenPipeError:
        # The reader of the output wants no more.
        os.dup2(os.open(os.devnull, os.O_WRONLY), sys.stdout.fileno())
    except KeyboardInterrupt:
        return 130
    except (KumquatsieveError, OSError) as error:
        return f"kumquatsieve: {error}"


if __name__ == "__main__":
    sys.exit(main())
