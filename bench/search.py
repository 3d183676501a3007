"""The search for words by jseg and by mecab: loads, whole runs, the search alone, and memory.

Each dictionary's sources are converted to UTF-8 and compiled by both. Ours and MeCab's run in turn,
--rounds times. A row has the least and the median of the elapsed seconds, the least of the CPU
seconds, and the ratios of ours to MeCab's: those of the least ones, and the median of those of each
round, in CPU seconds. A host that is slow for some minutes is slow for both runs of a round, so
that median differs less from hour to hour than the least of a few runs. The last column is the
spread of MeCab's elapsed seconds, from the least to the most, in parts of the least. Above a tenth
the row is called uncertain. At the end of each dictionary follows what the host did meanwhile: its
load, what other work took of the processors, and what other machines took of them (steal).

The search alone is the run over the text without the run over no text, which takes its turn beside
it. Neither tests the image's checksum, because that takes longer than the search of a short text,
and not always as long. Loads and whole runs are measured with that test and without it.

One of these options measures something else instead:

    --slices         jseg, and the builds of it that --program names, in slices: a program that
                     waits for its text gets a quarter of a megabyte after another. The least CPU
                     seconds of all rounds count for each slice. So a host that is slow for some
                     tenths of a second changes little, and the load is no part of the search. A
                     whole run is the least of the load, of each slice and of the end. A row has the
                     seconds, the ratio, and the ratio by every other round, from the first on and
                     from the second on. If these two differ by more than a twentieth the row is
                     called uncertain.
    --program PROGRAM
                     pjseg on one thread, in turn with jseg and mecab, without the test of the
                     checksum. It may be given more than once. A program whose name starts with jseg
                     is another build of jseg.
    --library        the library for C in turn with jseg, the Python module in turn with MeCab's,
                     and libmecab over this library in turn with MeCab's own
    --nodes          libmecab alone: one program over both libraries reads the fields of each node
                     of each line, and has to read the same
    --instructions   the instructions of loads and of the search over 1 MB of text, and the cache
                     misses and mispredicted branches of the search, as valgrind simulates them.
                     They are the same whatever else the machine does. With --library or --nodes
                     those of the library.

Needs: dictc and jseg in crates/*/out, mecab, mecab-dict-index, time, the Japanese manual pages and
a quiet machine; for the library gcc, python3-mecab and crates/capi/out/libcapi.a; for nodes
g++ and libmecab-dev; for instructions valgrind. A dictionary that is not installed is reported as
left out, and so is the library.
"""
import argparse
from pathlib import Path
from typing import Callable

from compare_with_mecab.dictionaries import Command
from measure.builds import measure_builds, thread_options
from measure.compared import (
    FORMATS,
    SKIP,
    Compared,
    add_names,
    add_program_options,
    add_text_options,
    measure_each,
)
from measure.instructions import measure_instructions, measure_library_instructions
from measure.library import measure_library
from measure.rows import TIMES, print_memory, print_times
from measure.runs import in_turn, with_loads, without
from measure.saved import add_save_option
from measure.slices import measure_slices

HELP = "measure this instead: see above"


def add_options(parser: argparse.ArgumentParser) -> None:
    add_program_options(parser)
    add_text_options(parser)
    for name in ("--slices", "--library", "--nodes", "--instructions"):
        parser.add_argument(name, action="store_true", help=HELP)
    parser.add_argument(
        "--program", action="append", default=[], type=Path, metavar="PROGRAM", help=HELP
    )
    add_save_option(parser)
    add_names(parser)


def load_commands(compared: Compared) -> list[Command]:
    """Returns our load with the test of the checksum and without it, and MeCab's load."""
    ours, theirs = compared.segmenters([])
    return [ours, [*ours, SKIP], theirs]


def measure_search(compared: Compared) -> None:
    """Loads, whole runs, the search alone and memory of a compiled dictionary."""
    rounds, text = compared.options.rounds, compared.text(compared.options.bytes)
    print(f"\n{compared.name}: {TIMES}")
    tested, untested, theirs = in_turn(load_commands(compared), rounds)
    print_times("load", tested, theirs)
    print_times("load, --skip-digest", untested, theirs)
    for label, words in FORMATS.items():
        our_command, their_command = compared.segmenters(words)
        commands = [our_command, [*our_command, SKIP], their_command]
        loads, (tested, untested, theirs) = with_loads(commands, rounds, text)
        print_times(f"whole run, {label}", tested, theirs)
        print_times("  with --skip-digest", untested, theirs)
        alone = without(untested, loads[1])
        print_times(f"search alone, {label}", alone, without(theirs, loads[2]))
        image = tested.memory / compared.sources.image.stat().st_size
        print_memory(f"memory, {label}", tested, theirs, f"{image:.2f} of the image")


def chosen(options: argparse.Namespace) -> Callable[[Compared], None]:
    """Returns what the options choose to measure."""
    if options.instructions:
        return measure_library_instructions if options.library else measure_instructions
    if options.slices:
        return measure_slices
    if options.program:
        return measure_builds
    return measure_library if options.library else measure_search


def run(options: argparse.Namespace) -> int:
    options.library |= options.nodes
    if options.slices and options.rounds < 2:
        options.error("--slices needs two rounds at least")
    if options.slices and any(map(thread_options, options.program)):
        options.error(
            "--slices is for builds of jseg, whose names start so: "
            "pjseg may wait for more text before it segments"
        )
    if options.save and not options.slices:
        options.error("--save needs --slices: it keeps no other numbers")
    measure = chosen(options)

    def compile_and_measure(compared: Compared) -> None:
        compared.compile()
        measure(compared)

    return measure_each(options, compile_and_measure)
