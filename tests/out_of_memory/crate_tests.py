"""Tests of the crates in which each allocation fails in turn.

A test catches the failure itself, and prints the line `refused` on standard error if it did. A run
without that line did with less memory than it asked for, which none of these tests may do.
"""
import sys
import tempfile
from pathlib import Path
from typing import NamedTuple, Optional

from support.heap import TestProgram


class Module(NamedTuple):
    """Tests of a module of a crate. With `empty`, each run also frees every block.

    The blocks that the test `empty` of this module leaves, which does nothing, don't count.
    """

    crate: str
    path: str
    tests: list[str]
    empty: Optional[str] = None


MODULES = [
    Module(
        "source_tests",
        "of_cells",
        [
            "failed_allocation_is_retried",
            "failed_growth_keeps_the_cells",
            "blocks_are_given_back",
        ],
        empty="no_cells",
    ),
    Module("source_tests", "of_double_array::growing", ["failed_growth_keeps_the_cells"]),
    Module(
        "source_tests",
        "of_double_array::grown_cells",
        ["failed_growth_keeps_the_cells"],
    ),
    Module(
        "source_tests",
        "of_lex_source::out_of_memory",
        [
            "failed_allocation_adds_no_records",
            "invalid_lexicon_out_of_memory",
            "long_surface_out_of_memory",
            "failed_allocation_adds_no_entries",
            "field_out_of_memory",
            "failed_allocation_keeps_the_text_before",
        ],
    ),
    Module(
        "source_tests",
        "of_matrix_def::out_of_memory",
        [
            "matrix_out_of_memory",
            "matrix_in_halves_out_of_memory",
            "invalid_matrix_out_of_memory",
        ],
    ),
    Module(
        "source_tests",
        "of_char_def::out_of_memory",
        ["tables_out_of_memory", "chars_out_of_memory", "invalid_chars_out_of_memory"],
    ),
    Module(
        "dictionary_tests",
        "of_dict_compile::out_of_memory",
        ["system_dictionary_out_of_memory", "user_dictionary_out_of_memory"],
    ),
    Module(
        "dictionary_tests",
        "of_dict_image::out_of_memory",
        ["user_images_out_of_memory"],
    ),
    Module("search_tests", "of_word_lookup::out_of_memory", ["words_out_of_memory"]),
    Module("search_tests", "of_lattice::out_of_memory", ["search_out_of_memory"]),
    Module("text_tests", "of_out_format::out_of_memory", ["formats_out_of_memory"]),
    Module(
        "text_tests",
        "of_segmenter::out_of_memory",
        ["runs_out_of_memory", "sources_out_of_memory"],
    ),
]


def check_test(program: TestProgram, test: str, unfreed: Optional[int]) -> int:
    """Makes each allocation of a test fail in turn, and returns how many there are."""
    count = program.run(test, unfreed=unfreed).counts.allocations
    if count == 0:
        sys.exit(f"{test}: allocates nothing")
    for number in range(1, count + 1):
        if not program.run(test, number, unfreed).caught:
            sys.exit(f"{test}: does not report that allocation {number} of {count} failed")
    return count


def check_crates() -> None:
    """Runs each test of MODULES."""
    for module in MODULES:
        with tempfile.TemporaryDirectory() as folder:
            program = TestProgram(Path(folder), module.crate)
            prefix, unfreed = f"tests::{module.path}::", None
            if module.empty:
                unfreed = program.run(prefix + module.empty).counts.unfreed
            for name in module.tests:
                count = check_test(program, prefix + name, unfreed)
                print(f"{module.crate} {prefix}{name}: {count} allocations failed in turn")
    print(
        f"{sum(len(module.tests) for module in MODULES)} cases: tests of the crates",
        flush=True,
    )
