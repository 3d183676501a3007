"""Reads the tables of `jseg --lattice tsv` and `jseg --why`."""
from typing import NamedTuple, Optional, Union

ESCAPES = {"t": "\t", "n": "\n", "r": "\r", "\\": "\\"}


def unescaped(cell: str) -> str:
    """Returns the text of a cell."""
    out, rest = [], iter(cell)
    for char in rest:
        out.append(ESCAPES[next(rest)] if char == "\\" else char)
    return "".join(out)


def optional_int(cell: str) -> Optional[int]:
    return int(cell) if cell else None


class Node(NamedTuple):
    """A row of a lattice. `through` is None if no path has the node."""

    place: int
    start: int
    end: int
    left: int
    right: int
    cost: int
    total: int
    through: Optional[int]
    is_best: bool
    feature: str

    def takes_place_of(self, other: "Node") -> bool:
        """Returns whether the node covers the place of another one, with other boundaries."""
        is_other = (self.place, self.end) != (other.place, other.end)
        return self.place <= other.place < self.end and is_other


def read_node(row: str) -> Node:
    cells = row.split("\t")
    place, start, end, _, left, right, cost, _, _, _, total, through, _, best, feature = cells
    return Node(
        int(place),
        int(start),
        int(end),
        int(left),
        int(right),
        int(cost),
        int(total),
        optional_int(through),
        best == "*",
        feature,
    )


class Row(NamedTuple):
    """A row of --why that has costs."""

    path: str
    start: int
    surface: str
    connection: int
    cost: int
    total: int
    lost: Optional[int]
    feature: str

    def is_of(self, node: Node) -> bool:
        """Returns whether the row has this node."""
        end = self.start + len(self.surface.encode())
        own = self.start, end, self.cost, self.feature
        return own == (node.start, node.end, node.cost, node.feature)


class Gap(NamedTuple):
    """A row `...` of --why, in the place of rows that are left out."""

    path: str
    lost: Optional[int]


def read_row(row: str) -> Union[Row, Gap]:
    path, start, surface, connection, cost, total, lost, feature = row.split("\t")
    if not cost:
        return Gap(path, optional_int(lost))
    numbers = int(connection), int(cost), int(total)
    return Row(path, int(start), unescaped(surface), *numbers, optional_int(lost), feature)
