"""All that compile, search, search --library and growth measure, one after another.

The columns are explained by the help of those subcommands. The lines and texts that grow are
segmented with the first dictionary.
"""
import argparse

from compilation import add_compilations, measure_compilation
from growth import measure_hard_inputs, measure_lengths
from measure.compared import (
    Compared,
    add_names,
    add_program_options,
    add_text_options,
    measure_each,
)
from measure.library import measure_library
from search import measure_search


def add_options(parser: argparse.ArgumentParser) -> None:
    add_program_options(parser)
    add_compilations(parser)
    add_text_options(parser)
    parser.add_argument(
        "--dictionaries",
        action="store_true",
        help="measure the dictionaries alone, and not what grows or what is hard",
    )
    add_names(parser)


def run(options: argparse.Namespace) -> int:
    options.nodes = False

    def measure(compared: Compared) -> None:
        measure_compilation(compared)
        measure_search(compared)
        measure_library(compared)
        if compared.name == options.names[0] and not options.dictionaries:
            measure_lengths(compared)

    status = measure_each(options, measure)
    if not options.dictionaries:
        measure_hard_inputs(options)
    return status
