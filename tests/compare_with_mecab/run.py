#!/usr/bin/env python3
"""Compares what dictc and jseg print with what MeCab 0.996 prints, over whole dictionaries.

Each dictionary's sources are converted to UTF-8 and compiled twice: by `dictc system`, and by
`mecab-dict-index` with the lexicons joined in the same order. Then `jseg -d` and `mecab` segment
the same texts and random lines: in the default format, with the cost of each path, and with
`-O wakati`. The first output line that differs ends the run.

A line of a text is left out unless both programs read it alike: it is UTF-8 without U+0000 and
U+FFFF, and has at most 65,535 bytes. Without a text, the Japanese manual pages are segmented
(Debian: manpages-ja).

Needs: dictc and jseg in crates/*/out, mecab and mecab-dict-index (Debian: mecab, mecab-utils), and
at least one dictionary (mecab-ipadic, mecab-jumandic-utf8, mecab-naist-jdic, unidic-mecab). The
status is 77 if one of these is missing, or if a text is empty. bench/run compares the speed.
"""
import argparse
import itertools
import subprocess
import sys
import tempfile
from pathlib import Path
from typing import IO, Iterable, Optional

sys.dont_write_bytecode = True
sys.path.insert(0, str(Path(__file__).resolve().parents[1]))
from compare_with_mecab.dictionaries import (  # noqa: E402
    NAMES,
    WAKATI,
    Command,
    Pair,
    Programs,
    Sources,
    folder_of,
)
from compare_with_mecab.texts import common_lines, manual_pages, random_text  # noqa: E402
from support.running import end_left_out, missing_of, run  # noqa: E402

FORMATS: dict[str, list[str]] = {
    "default": [],
    "with costs": ["-E", r"EOS\t%pc\n"],
    "wakati": WAKATI,
}


def output_of(command: Command, text: bytes) -> IO[bytes]:
    """Returns a file of what a command prints for `text`.

    Input and output are files, so that no pipe slows the command.
    """
    words = [str(word) for word in command]
    writing = tempfile.TemporaryFile()
    with tempfile.TemporaryFile() as reading:
        reading.write(text)
        reading.seek(0)
        status = subprocess.run(words, stdin=reading, stdout=writing).returncode
    if status != 0:
        sys.exit(f"{words[0]} ended with status {status}")
    writing.seek(0)
    return writing


def first_difference(ours: Iterable[bytes], theirs: Iterable[bytes]) -> Optional[str]:
    """Returns the number and texts of the first line that differs, or None if there is none."""
    lines = itertools.zip_longest(ours, theirs, fillvalue=b"")
    for number, (our_line, their_line) in enumerate(lines, 1):
        if our_line != their_line:
            return f"output line {number}: {our_line!r} and not {their_line!r}"
    return None


def compare(what: str, text: bytes, pair: Pair) -> None:
    """Compares the output of two commands for `text`. Ends this script if they differ."""
    with output_of(pair.ours, text) as ours, output_of(pair.theirs, text) as theirs:
        difference = first_difference(ours, theirs)
        size = ours.tell()
    if difference:
        sys.exit(f"{what}: {difference}")
    if size == 0:
        end_left_out(f"{what}: nothing was printed")
    lines = text.count(b"\n") + (not text.endswith(b"\n"))
    print(
        f"{what}: {lines} lines, {len(text)} bytes of text, {size} bytes of output: the same",
        flush=True,
    )


def compare_dictionary(
    name: str, source: Path, texts: dict[str, bytes], options: argparse.Namespace
) -> None:
    """Compares each text, and random lines, in each format over one dictionary."""
    programs = programs_of(options)
    with tempfile.TemporaryDirectory() as folder:
        sources = Sources(source, Path(folder))
        for command in sources.compilers(programs):
            run(command)
        lines = random_text(options.random, options.seed, sources.surfaces())
        for of, text in {"random lines": lines, **texts}.items():
            for format_name, arguments in FORMATS.items():
                commands = sources.segmenters(programs, arguments)
                compare(f"{name}, {of}, {format_name}", text, commands)


def programs_of(options: argparse.Namespace) -> Programs:
    """Returns the programs that the command line names."""
    return Programs(options.dictc, options.jseg, options.mecab, options.mecab_dict_index)


def parsed_options() -> argparse.Namespace:
    """Returns the options of the command line."""
    parser = argparse.ArgumentParser(
        description=__doc__, formatter_class=argparse.RawDescriptionHelpFormatter
    )
    parser.add_argument(
        "--dictionary",
        action="append",
        metavar="NAME",
        help=f"a folder, or one of {', '.join(NAMES)}; repeat it for more",
    )
    parser.add_argument(
        "--random", type=int, default=20_000, metavar="N", help="the number of random lines"
    )
    parser.add_argument("--seed", type=int, default=1, help="the seed of the random lines")
    defaults = Programs()
    parser.add_argument("--dictc", type=Path, default=defaults.dictc)
    parser.add_argument("--jseg", type=Path, default=defaults.jseg)
    parser.add_argument("--mecab", default=defaults.mecab)
    parser.add_argument("--mecab-dict-index", default=defaults.mecab_dict_index)
    parser.add_argument("texts", nargs="*", type=Path, help="UTF-8 texts")
    return parser.parse_args()


def texts_of(paths: list[Path]) -> dict[str, bytes]:
    """Returns the lines of each text that are compared, by the names of the texts."""
    texts = {path.name: path.read_bytes() for path in paths} or {"manual pages": manual_pages()}
    texts = {name: common_lines(text) for name, text in texts.items()}
    for name, text in texts.items():
        if not text:
            end_left_out(f"{name}: an empty text")
    return texts


def main() -> None:
    options = parsed_options()
    missing = missing_of([str(program) for program in programs_of(options)])
    if missing:
        end_left_out(f"{' and '.join(missing)} missing")
    texts = texts_of(options.texts)
    found = {name: folder_of(name) for name in options.dictionary or NAMES}
    for name, source in found.items():
        if source is None:
            print(f"{name}: left out, not installed", flush=True)
        else:
            compare_dictionary(name, source, texts, options)
    if not any(found.values()):
        end_left_out("no dictionary is installed")


if __name__ == "__main__":
    main()
