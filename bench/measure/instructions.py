"""Rows of instructions: of loads and the search, and of the library."""
from measure.compared import FORMATS, SKIP, Compared
from measure.counts import counts_of_text, instructions, instructions_of_text
from measure.library import can_measure_library, check_nodes, way_commands, ways
from measure.rows import MB
from measure.runs import NO_TEXT


def print_counts(label: str, ours: float, theirs: float) -> None:
    print(f"{label:26} {ours:9.2f} {theirs:9.2f} {ours / theirs:6.3f}")


def measure_instructions(compared: Compared) -> None:
    """Counts the instructions of loads, and the search over 1 MB of text."""
    text = compared.text(MB)
    print(
        f"\n{compared.name}: millions of instructions, misses of a simulated cache and "
        "mispredicted branches; ours, MeCab's, and their ratio"
    )
    ours, theirs = compared.segmenters([])
    commands = (ours, [*ours, SKIP], theirs)
    tested, untested, mecab = (instructions(command, NO_TEXT) / 1e6 for command in commands)
    print_counts("load", tested, mecab)
    print_counts("load, --skip-digest", untested, mecab)
    for label, words in FORMATS.items():
        own, other = (counts_of_text(command, text) for command in compared.segmenters(words))
        print_counts(f"search over 1 MB, {label}", own.instructions, other.instructions)
        print_counts("  first-level misses", own.missed_first, other.missed_first)
        print_counts("  second-level misses", own.missed_second, other.missed_second)
        print_counts("  mispredicted branches", own.mispredicted, other.mispredicted)


def measure_library_instructions(compared: Compared) -> None:
    """Counts the instructions of each way to use the library, over 1 MB of text."""
    nodes = compared.options.nodes
    if not can_measure_library(nodes):
        return
    commands, text = way_commands(compared), compared.text(MB)
    print(
        f"\n{compared.name}: millions of instructions in process over 1 MB, without the load; "
        "ours, then jseg's or MeCab's, and their ratio"
    )
    check_nodes(commands, text)
    for ours, theirs in ways(nodes):
        own, other = (instructions_of_text(commands(way), text) for way in (ours, theirs))
        print(f"{ours:26} {own:9.1f} {other:9.1f} {own / other:6.3f}")
