#!/usr/bin/env python3
"""Checks what `jseg --why` prints over IPADIC, by its lattices, its words and matrix.def.

The lines are made up of surfaces of IPADIC. For each line:

- The words of the rows `best` are the words that jseg prints.
- The rival of a word lost by the least that any word in its place lost. A word has no rival if no
  path has such a word.
- The rows of a rival are consecutive nodes of the lattice that are not on the best path. One of
  them takes the place of the word. Unless a row `...` stands for further nodes, they start and end
  where words of the best path do.
- Each connection cost is the one of matrix.def. Each total is the total before it, the connection
  cost and the word cost. With the rest of its path, the last total of a rival is the cost of the
  best path and what the rival lost.

The status is 1 if a line is otherwise.

Needs crates/dictc/out/dictc and crates/jseg/out/jseg, which `rt run` in their directories builds,
and the sources of IPADIC (Debian: mecab-ipadic). If one is missing the status is 77, and nothing
was checked.
"""
import argparse
import itertools
import os
import random
import subprocess
import sys
import tempfile
from pathlib import Path
from typing import Callable, Dict, Iterator, List, NamedTuple, Optional, Sequence, Union

sys.dont_write_bytecode = True
sys.path.insert(0, str(Path(__file__).resolve().parents[1]))
from cli.tables import Gap, Node, Row, read_node, read_row  # noqa: E402
from support.running import IMPORTER, end_left_out, program, run  # noqa: E402

DICTC, JSEG = program("dictc"), program("jseg")
SOURCES = Path("/usr/share/mecab/dic/ipadic")
OTHERS = [" ", "\t", "\\", "EOS", "ABC", "123", "…", "𠮷", "%"]

# Returns the connection cost by right id and left id.
ConnectionCost = Callable[[int, int], int]


def read_connections() -> ConnectionCost:
    with open(SOURCES / "matrix.def") as lines:
        _, lefts = map(int, next(lines).split())
        costs = [int(line.split()[2]) for line in lines]
    return lambda right, left: costs[right * lefts + left]


def output_of(image: Path, text: str, *options: str) -> str:
    return run([JSEG, "-d", image, "--skip-digest", *options], text.encode()).decode()


def tables_of(text: str, heading: str) -> Iterator[List[str]]:
    """Yields the rows of each table, without its heading, which has to start with `heading`."""
    for table in text.removesuffix("\n\n").split("\n\n"):
        first, *rows = table.split("\n")
        if not first.startswith(heading):
            sys.exit(f"explanations: a table starts with {first!r}")
        yield rows


class Explained(NamedTuple):
    """A row of the best path, with the rows of its rival."""

    row: Row
    rival: List[Union[Row, Gap]]


def read_explanation(rows: Sequence[str]) -> List[Explained]:
    found: List[Explained] = []
    for row in map(read_row, rows):
        if row.path == "best" and isinstance(row, Row):
            found.append(Explained(row, []))
        else:
            found[-1].rival.append(row)
    return found


class Walk:
    """The state after the rows so far: the end of the last word, its right id, and the total."""

    def __init__(self, end: int = 0, right: int = 0, total: int = 0) -> None:
        self.end, self.right, self.total = end, right, total

    def check_next(self, row: Row, node: Node, cost_of: ConnectionCost) -> Iterator[str]:
        """Yields what is wrong with the next row, and takes it."""
        if node.place != self.end:
            yield f"{row} does not start where the word before it ends"
        yield from self.check_costs(row, node.left, cost_of)
        self.end, self.right, self.total = node.end, node.right, row.total

    def check_costs(self, row: Row, left: int, cost_of: ConnectionCost) -> Iterator[str]:
        if row.connection != cost_of(self.right, left):
            yield f"the connection of {row} is {cost_of(self.right, left)}"
        if row.total != self.total + row.connection + row.cost:
            yield f"the total of {row} is not {self.total} and its costs"


class Line:
    """A line of text, with what jseg prints of it."""

    def __init__(
        self, text: str, explanation: List[Explained], nodes: List[Node], wakati: str
    ) -> None:
        self.text, self.nodes, self.wakati = text, nodes, wakati
        *self.words, self.eos = explanation
        self.best = [node for node in nodes if node.is_best]
        self.total = self.eos.row.total

    def failures(self, cost_of: ConnectionCost) -> Iterator[str]:
        yield from self.best_failures(cost_of)
        if self.eos.rival:
            yield f"EOS has a rival: {self.eos.rival}"
        for explained, word in zip(self.words, self.best):
            yield from self.rival_failures(explained.rival, word, cost_of)

    def best_failures(self, cost_of: ConnectionCost) -> Iterator[str]:
        """Yields what is wrong with the best path."""
        rows = [explained.row for explained in self.words]
        if "".join(f"{row.surface} " for row in rows) != self.wakati:
            yield f"the best path is {rows}, and -O wakati prints {self.wakati!r}"
        is_best = all(row.is_of(node) for row, node in zip(rows, self.best))
        if len(rows) != len(self.best) or not is_best:
            yield f"the best path is {rows}, and in the lattice it is {self.best}"
            return
        walk = Walk()
        for row, node in zip(rows, self.best):
            yield from walk.check_next(row, node, cost_of)
        eos = self.eos.row
        yield from walk.check_costs(eos, 0, cost_of)
        expected = len(self.text.encode()), "EOS", 0, None, ""
        if (eos.start, eos.surface, eos.cost, eos.lost, eos.feature) != expected:
            yield f"the last row is {eos}"

    def least_loss(self, word: Node) -> Optional[int]:
        """Returns the least that a node in the place of a word lost, or None if there is none."""
        costs = [
            node.through
            for node in self.nodes
            if node.through is not None and node.takes_place_of(word)
        ]
        return min(costs) - self.total if costs else None

    def node_of(self, row: Row) -> Optional[Node]:
        """Returns the node of a rival's row, or None."""
        for node in self.nodes:
            if row.is_of(node) and node.through is not None and not node.is_best:
                return node
        return None

    def walks(self) -> Dict[int, Walk]:
        """Returns the state at each position at which a rival may leave the best path."""
        return {0: Walk()} | {
            node.end: Walk(node.end, node.right, node.total) for node in self.best
        }

    def rival_failures(
        self, rows: Sequence[Union[Row, Gap]], word: Node, cost_of: ConnectionCost
    ) -> Iterator[str]:
        """Yields what is wrong with the rival of a word of the best path."""
        lost = self.least_loss(word)
        if {row.lost for row in rows} != ({lost} if lost is not None else set()):
            yield f"{word} has {rows}, and the least that a rival lost by is {lost}"
        words = [row for row in rows if isinstance(row, Row)]
        if not words or lost is None:
            return
        found = [self.node_of(row) for row in words]
        nodes = [node for node in found if node is not None]
        if len(nodes) < len(found) or not any(node.takes_place_of(word) for node in nodes):
            yield f"{rows} are no nodes of the lattice in the place of {word}"
            return
        walk = self.walks().get(nodes[0].place)
        if rows[0] is not words[0]:
            walk = None
        elif walk is None:
            yield f"{rows[0]} does not start where a word of the best path ends"
        for row, node in zip(words, nodes):
            yield from walk.check_next(row, node, cost_of) if walk else ()
            walk = walk or Walk(node.end, node.right, row.total)
        yield from self.end_failures(words[-1], nodes[-1], lost, rows[-1] is words[-1])

    def end_failures(self, row: Row, node: Node, lost: int, is_end: bool) -> Iterator[str]:
        """Yields what is wrong with the last word of a rival, which ends it if `is_end`."""
        assert node.through is not None
        last = row.total + node.through - node.total
        if last != self.total + lost:
            yield f"{row} leads to {last}, and the rival costs {self.total + lost}"
        ends = {0, *(one.place for one in self.best), self.best[-1].end}
        if is_end and node.end not in ends:
            yield f"{row} does not end where a word of the best path starts"


def made_up(count: int) -> Iterator[str]:
    """Yields lines of IPADIC's surfaces, and of what it has no word for."""
    surfaces = [
        line.split(",")[0]
        for path in sorted(SOURCES.glob("*.csv"))
        for line in path.read_text("euc_jp").splitlines()
    ]
    choice = random.Random(1)
    for length in itertools.islice(itertools.cycle(range(13)), count):
        yield "".join(
            choice.choice(OTHERS if choice.random() < 0.1 else surfaces) for _ in range(length)
        )


def read_lines(image: Path, count: int) -> Iterator[Line]:
    texts = list(made_up(count))
    text = "".join(f"{line}\n" for line in texts)
    rows = list(tables_of(output_of(image, text, "--why"), "path\t"))
    nodes = list(tables_of(output_of(image, text, "--lattice", "tsv"), "place\t"))
    wakati = output_of(image, text, "-O", "wakati").splitlines()
    if not len(texts) == len(rows) == len(nodes) == len(wakati):
        sys.exit(f"explanations: {len(texts)} lines have {len(rows)} and {len(nodes)} tables")
    for line, row, node, words in zip(texts, rows, nodes, wakati):
        yield Line(line, read_explanation(row), list(map(read_node, node)), words)


def check(image: Path, count: int) -> int:
    """Checks `count` lines, and returns the exit status."""
    cost_of = read_connections()
    checked = failures = 0
    for line in read_lines(image, count):
        checked += 1
        for failure in line.failures(cost_of):
            failures += 1
            print(f"explanations: {line.text!r}: {failure}", file=sys.stderr)
    print(f"explanations: {checked} cases, {failures} failures")
    return 1 if failures else 0


def main() -> int:
    parser = argparse.ArgumentParser(
        description=__doc__, formatter_class=argparse.RawDescriptionHelpFormatter
    )
    lines = "how many lines are checked (500)"
    parser.add_argument("--lines", type=int, default=500, metavar="N", help=lines)
    count: int = parser.parse_args().lines
    missing = [str(path) for path in (DICTC, JSEG, SOURCES / "matrix.def") if not path.exists()]
    if missing:
        end_left_out(f"{' and '.join(missing)} is missing")
    os.environ["PATH"] = f"{DICTC.parent}:{os.environ['PATH']}"
    with tempfile.TemporaryDirectory() as folder:
        image = Path(folder) / "ipadic.img"
        run([IMPORTER, "ipadic", image], stderr=subprocess.DEVNULL)
        return check(image, count)


if __name__ == "__main__":
    sys.exit(main())
