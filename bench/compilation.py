"""The compilation of dictionaries by dictc and by mecab-dict-index: seconds and peak memory.

Each dictionary's sources are converted to UTF-8. Both programs run in turn, --rounds times.
"""
import argparse

from measure.compared import Compared, add_names, add_program_options, measure_each
from measure.rows import TIMES, print_memory, print_times
from measure.runs import in_turn


def add_options(parser: argparse.ArgumentParser) -> None:
    add_program_options(parser)
    add_compilations(parser)
    add_names(parser)


def add_compilations(parser: argparse.ArgumentParser) -> None:
    parser.add_argument(
        "--compilations",
        type=int,
        metavar="N",
        help="how often the dictionaries are compiled (as often as --rounds)",
    )


def measure_compilation(compared: Compared) -> None:
    options = compared.options
    print(f"\n{compared.name}: {TIMES}")
    commands = compared.sources.compilers(compared.programs)
    ours, theirs = in_turn(commands, options.compilations or options.rounds)
    print_times("compilation", ours, theirs)
    print_memory("  its memory", ours, theirs)


def run(options: argparse.Namespace) -> int:
    return measure_each(options, measure_compilation)
