#!/usr/bin/env python3
"""Checks `jseg --lattice tsv` and `jseg --why` against a list of all paths, by brute force:

    tests/cli/all_paths.py

The words at each position are computed here from the source files: those of the lexicon, and
unknown words by the categories of char.def. All chains of words from the start of a text are
listed; a chain that reaches the end is a path. Then

- a word is in the lattice if and only if a chain has it;
- its total is the least cost of the chains up to it, and its `through` the least cost of its paths;
- the best path has the least cost of all paths;
- a word of it lost to its rival by the cost that the best path without the word's boundaries has
  more, and it has no rival if there is no such path.

The texts are all of up to five characters, over two small dictionaries: the sample, and one in
which many paths have the same cost. The status is 1 if jseg prints anything else.

Needs crates/jseg/out/jseg, which `rt run` in its directory builds. If it is missing the status is
77, and nothing was checked.
"""
import argparse
import itertools
import sys
import tempfile
from pathlib import Path
from typing import Dict, Iterator, List, NamedTuple, Optional, Sequence, Set, Tuple

sys.dont_write_bytecode = True
sys.path.insert(0, str(Path(__file__).resolve().parents[1]))
from support.running import SAMPLE, end_left_out, program, run  # noqa: E402

JSEG = program("jseg")
# The greatest number of characters after the first that are grouped to an unknown word.
GROUPING = 24
# A dictionary in which many paths have the same cost.
TIES = {
    "matrix.def": "2 2\n0 0 0\n0 1 1\n1 0 1\n1 1 0\n",
    "char.def": "DEFAULT 0 1 0\nSPACE 0 1 0\nLATIN 1 0 2\n0x0020 SPACE\n0x0061..0x007A LATIN\n",
    "unk.def": "DEFAULT,1,1,9,?\nSPACE,1,1,9,?\nLATIN,1,1,3,x\nLATIN,1,1,2,y\n",
    "lexicon.csv": "a,1,1,1,A\nb,1,1,1,B\nab,1,1,2,AB\nba,1,1,2,BA\naba,1,1,3,ABA\nbb,0,1,1,BB\n",
}
# The characters of the texts, by dictionary.
CHARACTERS = {"the sample": "すもa ー", "ties": "ab z"}

# A row of a table of jseg.
Row = List[str]


class Word(NamedTuple):
    """A word of a text. `place`, `start` and `end` are counted in characters."""

    place: int
    start: int
    end: int
    left: int
    right: int
    cost: int
    known: str
    feature: str


class Entry(NamedTuple):
    """A line of a lexicon or of unk.def."""

    surface: str
    left: int
    right: int
    cost: int
    feature: str


class Category(NamedTuple):
    """INVOKE, GROUP and LENGTH of char.def."""

    invoke: bool
    group: bool
    length: int


Chain = Tuple[Word, ...]


def read_entries(path: Path) -> List[Entry]:
    rows = [line.split(",", 4) for line in path.read_text().splitlines()]
    return [
        Entry(surface, int(left), int(right), int(cost), feature)
        for surface, left, right, cost, feature in rows
    ]


class Sources:
    """The tables of a directory of sources. Each character has one category."""

    def __init__(self, folder: Path) -> None:
        rows = [line.split() for line in (folder / "matrix.def").read_text().splitlines()[1:]]
        self.connection = {(int(right), int(left)): int(cost) for right, left, cost in rows}
        self.categories: Dict[str, Category] = {}
        self.ranges: List[Tuple[int, int, str]] = []
        for line in (folder / "char.def").read_text().splitlines():
            self.read_char_line(line.split())
        self.unknown = read_entries(folder / "unk.def")
        self.lexicon = read_entries(folder / "lexicon.csv")

    def read_char_line(self, fields: Sequence[str]) -> None:
        first, *rest = fields
        if first.startswith("0x"):
            low, _, high = first.partition("..")
            self.ranges.append((int(low, 16), int(high or low, 16), rest[0]))
        else:
            self.categories[first] = Category(rest[0] == "1", rest[1] == "1", int(rest[2]))

    def category_of(self, char: str) -> str:
        for low, high, name in self.ranges:
            if low <= ord(char) <= high:
                return name
        return "DEFAULT"

    def words_at(self, text: str, place: int) -> List[Word]:
        """Returns all words at a position: after blanks, the known words and the unknown ones."""
        start = place
        while start < len(text) and self.category_of(text[start]) == "SPACE":
            start += 1
        if start == len(text):
            return []
        known = [
            Word(place, start, start + len(one.surface), *one[1:4], "known", one.feature)
            for one in self.lexicon
            if text.startswith(one.surface, start)
        ]
        name = self.category_of(text[start])
        return known + [
            Word(place, start, start + count, *one[1:4], "unknown", one.feature)
            for count in self.unknown_lengths(text[start:], bool(known))
            for one in self.unknown
            if one.surface == name
        ]

    def unknown_lengths(self, text: str, is_known: bool) -> List[int]:
        """Returns the lengths of the unknown words at the start of `text`, in characters."""
        name = self.category_of(text[0])
        category = self.categories[name]
        if is_known and not category.invoke:
            return []
        run = len(list(itertools.takewhile(lambda char: self.category_of(char) == name, text)))
        grouped = [run] if category.group and run - 1 <= GROUPING else []
        longest = min(category.length, run - 1 if category.group else run)
        return grouped + list(range(1, longest + 1)) or ([] if is_known else [1])

    def chains(self, text: str, before: Chain = ()) -> Iterator[Tuple[Chain, bool]]:
        """Yields all chains of words that start with `before`, and whether each is a path."""
        words = self.words_at(text, before[-1].end if before else 0)
        yield before, not words
        for word in words:
            yield from self.chains(text, (*before, word))

    def cost(self, chain: Chain, is_path: bool) -> int:
        rights = [0, *(word.right for word in chain)]
        lefts = [*(word.left for word in chain), *([0] if is_path else [])]
        connections = sum(self.connection[pair] for pair in zip(rights, lefts))
        return connections + sum(word.cost for word in chain)


class Paths:
    """All chains and paths of a text: the costs of each word, and of each path."""

    def __init__(self, sources: Sources, text: str) -> None:
        self.totals: Dict[Word, int] = {}
        self.through: Dict[Word, int] = {}
        # The cost of each path, and the place and end of each of its words.
        self.paths: List[Tuple[int, Set[Tuple[int, int]]]] = []
        for chain, is_path in sources.chains(text):
            if chain:
                cost = sources.cost(chain, False)
                self.totals[chain[-1]] = min(self.totals.get(chain[-1], cost), cost)
            if is_path:
                self.add_path(chain, sources.cost(chain, True))

    def add_path(self, chain: Chain, cost: int) -> None:
        self.paths.append((cost, {(word.place, word.end) for word in chain}))
        for word in chain:
            self.through[word] = min(self.through.get(word, cost), cost)

    def lattice(self) -> Dict[Word, Tuple[int, Optional[int]]]:
        """Returns the words of the lattice, each with its total and its `through`."""
        return {word: (total, self.through.get(word)) for word, total in self.totals.items()}

    def best(self) -> int:
        return min(cost for cost, _ in self.paths)

    def rival(self, word: Word) -> Optional[int]:
        """Returns how much more the best path without the boundaries of a word costs, or None."""
        boundaries = word.place, word.end
        costs = [cost for cost, words in self.paths if boundaries not in words]
        return min(costs) - self.best() if costs else None


def tables_of(folder: Path, lines: Sequence[str], *options: str) -> List[List[Row]]:
    """Returns the tables that jseg prints for the lines, without their headings."""
    text = "".join(f"{line}\n" for line in lines).encode()
    tables = (
        run([JSEG, "--sources", folder, *options], text).decode().removesuffix("\n\n").split("\n\n")
    )
    return [[row.split("\t") for row in table.split("\n")[1:]] for table in tables]


def node_of(text: str, row: Row) -> Tuple[Word, Tuple[int, Optional[int]]]:
    """Returns a row of a lattice as a word, with its total and its `through`."""
    at = {len(text[:count].encode()): count for count in range(len(text) + 1)}
    place, start, end, _, left, right, cost, known, _, _, total, through, _, _, feature = row
    bounds = at[int(place)], at[int(start)], at[int(end)]
    word = Word(*bounds, int(left), int(right), int(cost), known, feature)
    return word, (int(total), int(through) if through else None)


def losses_of(rows: Sequence[Row]) -> List[Set[int]]:
    """Returns the losses in the rows of each rival, for each word of the best path."""
    losses: List[Set[int]] = []
    for row in rows:
        if row[0] == "best":
            losses.append(set())
        else:
            losses[-1].add(int(row[6]))
    return losses


def failures_of(
    sources: Sources, text: str, nodes: Sequence[Row], why: Sequence[Row]
) -> Iterator[str]:
    """Yields what is wrong with the tables of one text."""
    paths = Paths(sources, text)
    found = dict(node_of(text, row) for row in nodes)
    if found != paths.lattice() or len(nodes) != len(found):
        yield f"the lattice is {found}, expected {paths.lattice()}"
    if int(why[-1][5]) != paths.best():
        yield f"the best path costs {why[-1][5]}, expected {paths.best()}"
    best = [node_of(text, row)[0] for row in nodes if row[13] == "*"]
    losses = losses_of(why[:-1])
    if len(losses) != len(best):
        yield f"the best path has {len(losses)} words, and the lattice marks {len(best)}"
    for word, loss in zip(best, losses):
        rival = paths.rival(word)
        if loss != ({rival} if rival is not None else set()):
            yield f"{word} lost by {loss}, expected {rival}"


def check(name: str, folder: Path) -> int:
    """Checks all texts over one dictionary, and returns the number of failures."""
    sources = Sources(folder)
    lines = [
        "".join(chars)
        for count in range(1, 6)
        for chars in itertools.product(CHARACTERS[name], repeat=count)
    ]
    lattices = tables_of(folder, lines, "--lattice", "tsv")
    explanations = tables_of(folder, lines, "--why")
    if not len(lines) == len(lattices) == len(explanations):
        sys.exit(f"all_paths: {len(lines)} lines have {len(lattices)} tables")
    failures = 0
    for text, nodes, why in zip(lines, lattices, explanations):
        for failure in failures_of(sources, text, [row for row in nodes if len(row) > 1], why):
            failures += 1
            print(f"all_paths: {name}: {text!r}: {failure}", file=sys.stderr)
    print(f"all_paths: {name}: {len(lines)} cases, {failures} failures")
    return failures


def main() -> int:
    arguments = argparse.ArgumentParser(
        description=__doc__, formatter_class=argparse.RawDescriptionHelpFormatter
    )
    arguments.parse_args()
    if not JSEG.exists():
        end_left_out(f"{JSEG} is missing")
    with tempfile.TemporaryDirectory() as folder:
        for file, text in TIES.items():
            (Path(folder) / file).write_text(text)
        return 1 if check("the sample", SAMPLE) + check("ties", Path(folder)) else 0


if __name__ == "__main__":
    sys.exit(main())
