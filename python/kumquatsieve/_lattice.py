"""The lattice of a line: each word that some path from its start reaches, and its drawings."""
import os
from collections import namedtuple
from heapq import heappop, heappush
from html import escape

from ._words import Words, shown, table_of

Format = namedtuple("Format", "node unk bos eos", defaults=(None, None, "", "EOS\\n"))
Format.__doc__ = """A format: MeCab's items for a known word, for an unknown word (`node` if it is
None), before the first word, and after the last one. None is MeCab's default."""
Rival = namedtuple("Rival", "word node lost")
Rival.__doc__ = """A word of the best path, and its rival: the node that lost by least, of those
that cover the start of the word and have other boundaries. They are None if there is no rival."""
NUMBERS = "entries unknown_entries surfaces left_ids right_ids"
ImageInfo = namedtuple("ImageInfo", f"path size sha256 layout is_user {NUMBERS} categories fields")

HEAD = ["surface", "feature", "best", "cost", "total", "through", "lost"]
EXPLAINED = ["path", "start", "surface", "feature", "connection", "cost", "total", "lost"]
# What drawings have for characters. Graphviz reads escapes and the entities of HTML.
UNSHOWN = (*range(0x20), *range(0x7F, 0xA0), *range(0xD800, 0xE000), 0xFFFE, 0xFFFF)
CODES = {number: f"\\u{{{number:x}}}" for number in UNSHOWN}
ESCAPES = {number: "\\" + code for number, code in CODES.items()}
ESCAPES |= str.maketrans({'"': '\\"', "\\": "\\\\", "&": "&amp;"})
# Points of a character, of a row, of a box's height, before and after a box, and above the rows.
COLUMN, ROW, HEIGHT, GAP, TOP = 64, 68, 52, 13, 24
STYLE = "text{font:9px sans-serif;text-anchor:middle;fill:currentColor}rect+text{font-size:12px}"
STYLE += "rect,line{fill:none;stroke:currentColor}.best{stroke:#d00;stroke-width:2}"
# Where the connection costs of an image start, and the bytes of its SHA-256. (docs/FORMAT.md)
COSTS, SHA256 = 104, 32


class Lattice:
    """The lattice of a line. `nodes` are sorted by position, and those of a position in the order
    that decides ties. A notebook shows a drawing of those that lost by little."""

    def __init__(self, nodes, total, text, dictionary=None):
        self.nodes, self.total, self.text, self.dictionary = nodes, total, text, dictionary

    @property
    def best(self):
        """The nodes of the best path, which are the words of the line."""
        words = Words(node for node in self.nodes if node.best)
        words.total = self.total
        return words

    def rivals(self):
        """Returns for each word of the best path the node of the best path without its boundaries,
        which is the one that lost by least of those that cover the start of the word."""
        words, heap, rivals = [node for node in self.nodes if node.best], [], []
        boundaries = {(word.byte_place, word.byte_end) for word in words}
        rest = [(node.byte_place, node.byte_end, node.lost, node) for node in self.nodes[::-1]]
        for word in words:
            while rest and rest[-1][0] <= word.byte_place:
                place, end, lost, node = rest.pop()
                if lost is not None and (place, end) not in boundaries:
                    # The first one of nodes that lost by as much precedes the others.
                    heappush(heap, (lost, -len(rest), end, node))
            while heap and heap[0][2] <= word.byte_place:
                heappop(heap)
            lost, _, _, node = heap[0] if heap else [None] * 4
            rivals.append(Rival(word, node, lost))
        return rivals

    def explain(self):
        """Returns a table of the words of the best path, each with its rival."""
        table, before = [EXPLAINED], 0
        for word, rival, lost in self.rivals():
            rows = [("best", word, word.total - before - word.cost, ""), ("rival", rival, "", lost)]
            for path, n, cost, lost in rows if rival else rows[:1]:
                table.append([path, n.start, n.surface, n.feature, cost, n.cost, n.total, lost])
            before = word.total
        end = ["best", len(self.text), "EOS", "", self.total - before, 0, self.total, ""]
        return shown([*table, end], 4) + "\n"

    def to_dot(self, within=None):
        """Returns a graph for Graphviz of the nodes that lost by at most `within`, as `jseg
        --lattice dot` prints it: positions in bytes, and words between two of them."""
        label = self.text.translate(ESCAPES)
        dot = f'digraph {{\n  rankdir=LR;\n  label="{label}";\n  node [shape=circle];\n'
        for number, node in enumerate(self.nodes):
            if within is None or node.lost is not None and node.lost <= within:
                red = ", color=red, penwidth=2" if node.best else ""
                lost = "no path" if node.lost is None else f"lost {node.lost}"
                texts = (text.translate(ESCAPES) for text in (node.surface, node.fields[0]))
                label = "\\n".join([*texts, f"cost {node.cost}", f"total {node.total}", lost])
                dot += f'  w{number} [shape=box{red}, label="{label}"];\n'
                edge = f" [{red[2:]}]" if red else ""
                dot += f"  {node.byte_place} -> w{number} -> {node.byte_end}{edge};\n"
        return dot + "}\n"

    def to_svg(self, within=3000, most=60):
        """Returns a drawing of the nodes that lost by at most `within`, and of at most `most`."""

        def text(x, y, label):
            return f"<text x='{x:g}' y='{y:g}'>{escape(str(label).translate(CODES))}</text>"

        near = sorted((n for n in self.nodes if n.lost is not None), key=lambda n: n.lost)[:most]
        near = [node for node in near if within is None or node.lost <= within]
        nodes = [node for node in self.nodes if node.best or node in near]
        rows, ends = {}, [0]
        for node in nodes:
            # The best path has row 0. Another node has the first row in which it overlaps none.
            free = [row for row in range(1, len(ends)) if ends[row] <= node.place]
            rows[node] = 0 if node.best else [*free, len(ends)][0]
            ends[rows[node] : rows[node] + 1] = [node.end]
        svg = [text(COLUMN * at, 10, at) for at in range(1, len(self.text))]
        pairs = [(a, b) for a in nodes for b in nodes if a.byte_end == b.byte_place]
        for (one, other), cost in zip(pairs, self._connection_costs(pairs)):
            left, right = COLUMN * one.end - GAP, COLUMN * other.start + GAP
            up, down = (TOP + ROW * rows[node] + HEIGHT // 2 for node in (one, other))
            best = " class='best'" if one.best and other.best else ""
            svg.append(f"<line{best} x1='{left}' y1='{up}' x2='{right}' y2='{down}'/>")
            # With one more part than rows, no two lines have their costs in the same place.
            part = len(ends) + 1
            svg.append(text(left + (right - left) / part, up + (down - up) / part - 3, cost))
        for node in nodes:
            left, right, top = COLUMN * node.start, COLUMN * node.end, TOP + ROW * rows[node]
            best, lost = (" class='best'", []) if node.best else ("", [f"+{node.lost}"])
            box = f"x='{left + GAP}' y='{top}' width='{right - left - 2 * GAP}' height='{HEIGHT}'"
            title = escape(repr(node).translate(CODES))
            svg.append(f"<g><title>{title}</title><rect{best} {box} rx='4'/>")
            for row, label in enumerate([node.surface, node.fields[0], node.cost, *lost]):
                svg.append(text((left + right) / 2, top + 14 + 11 * row, label))
            svg.append("</g>")
        width, height = COLUMN * max(len(self.text), 1), TOP + ROW * len(ends)
        size = f'width="{width}" height="{height}" viewBox="0 0 {width} {height}"'
        head = f'<svg xmlns="http://www.w3.org/2000/svg" {size}><style>{STYLE}</style>'
        return "".join([head, *svg, "</svg>"])

    _repr_svg_ = to_svg

    def __repr__(self):
        return shown(table_of(self.nodes, HEAD), 4)

    def _connection_costs(self, pairs):
        """Returns the connection costs of nodes: those in the file of the image, if it is still the
        one that was opened, else on the best path what their totals differ by."""
        costs = [b.total - a.total - b.cost if a.best and b.best else "" for a, b in pairs]
        system = self.dictionary and self.dictionary.images[0]
        try:
            with open(system and system.path or "", "rb") as file:
                file.seek(-SHA256, os.SEEK_END)
                for at, (one, other) in enumerate(pairs if file.read() == system.sha256 else ()):
                    file.seek(COSTS + 2 * (one.right_id * system.left_ids + other.left_id))
                    costs[at] = int.from_bytes(file.read(2), "little", signed=True)
        except OSError:
            pass
        return costs
