"""Lattices: nodes computed by hand and compared with all paths, rivals, and output."""
import pickle
import random
import shutil
import subprocess
import sys
import tracemalloc
from collections import namedtuple
from pathlib import Path
from xml.etree import ElementTree

import pytest

from kumquatsieve import Dictionary, KumquatsieveError, Lattice, Node, Segmenter

JSEG = Path(__file__).resolve().parents[2] / "crates" / "jseg" / "out" / "jseg"
LINE = "すもももも"
BLANK = "もも "
# The nodes of lines with the sample's dictionary, in their order, computed by hand: surface, start
# and end in characters, word cost, forward cost, the least cost of a path with the node, and
# whether it is on the best path. A connection costs 10 after BOS, 5 before EOS and 7 between words.
NODES = {
    "": [],
    "  ": [],
    LINE: [
        ("すもも", 0, 3, 100, 110, 152, True),
        ("も", 3, 4, 20, 137, 169, False),
        ("もも", 3, 5, 30, 147, 152, True),
        ("も", 4, 5, 20, 164, 169, False),
    ],
    # zz is one word of its category.
    "も zz": [("も", 0, 1, 20, 30, 1042, True), ("zz", 2, 4, 1000, 1037, 1042, True)],
    # Kanji are words of one and of two characters.
    "桃太郎も": [
        ("桃", 0, 1, 1000, 1010, 2049, False),
        ("桃太", 0, 2, 1000, 1010, 2049, True),
        ("太", 1, 2, 1000, 2017, 3056, False),
        ("太郎", 1, 3, 1000, 2017, 2049, False),
        ("郎", 2, 3, 1000, 2017, 2049, True),
        ("も", 3, 4, 20, 2044, 2049, True),
    ],
}
# With an entry of もも and a blank, of cost 500. A node that ends before the blank is on no path.
DEAD = [
    ("も", 0, 1, 20, 30, None, False),
    ("もも", 0, 2, 30, 40, None, False),
    (BLANK, 0, 3, 500, 510, 515, True),
    ("も", 1, 2, 20, 57, None, False),
]
# For each word of the best path: the node with the least loss among those at its position with
# other boundaries, and the loss.
RIVALS = {
    LINE: [("すもも", None, None), ("もも", "も", 17)],
    "桃太郎も": [("桃太", "桃", 0), ("郎", "太郎", 0), ("も", None, None)],
    "": [],
}
SMALL = [
    "も",
    "もも",
    "ももも",
    "すもも",
    LINE,
    LINE + "もも",
    "すも",
    "す zもも",
    "桃太郎",
    "太郎も 桃 ",
    "カカもカ",
    "カカカカ",
    "zz桃zすもも",
    "　も",
]

# The sample's sources, from which all paths are listed.
ENTRIES = {"すもも": 100, "も": 20, "もも": 30}
# INVOKE, GROUP and LENGTH of the categories of the characters in the small texts.
KINDS = {"z": (1, 1, 0), "カ": (1, 1, 2), "桃太郎": (0, 0, 2), "すも": (0, 1, 2), "　": (0, 1, 0)}


def kind_of(sign):
    return next(kind for kind in KINDS if sign in kind)


def ends_at(text, start):
    """Returns the ends of the words that start at `start`, each with its cost."""
    known = {
        start + len(surface): cost
        for surface, cost in ENTRIES.items()
        if text.startswith(surface, start)
    }
    invoke, group, length = KINDS[kind_of(text[start])]
    run = start + 1
    while run < len(text) and text[run] in kind_of(text[start]):
        run += 1
    ends = {run} if group else set()
    ends |= {end for end in range(start + 1, run + 1) if end - start <= length}
    unknown = ends or {start + 1} if invoke or not known else set()
    return [*known.items(), *((end, 1000) for end in unknown)]


def paths_of(text, place=0):
    """Returns all paths of a text from a position on: the starts, ends and costs of their words."""
    start = place
    while start < len(text) and text[start] == " ":
        start += 1
    if start == len(text):
        return [[]]
    return [
        [(start, end, cost), *rest]
        for end, cost in ends_at(text, start)
        for rest in paths_of(text, end)
    ]


def cost_of(path):
    return 10 + sum(cost for _, _, cost in path) + 7 * (len(path) - 1) + 5


def listed(text):
    """Returns the nodes of all paths of a text, with their forward costs and the least costs of
    paths with them."""
    found = {}
    for path in paths_of(text):
        for number, word in enumerate(path):
            up_to = cost_of(path[: number + 1]) - 5
            total, through = found.get(word, (up_to, cost_of(path)))
            found[word] = min(total, up_to), min(through, cost_of(path))
    return found


def rows(lattice):
    return [
        (node.surface, node.start, node.end, node.cost, node.total, node.through, node.best)
        for node in lattice.nodes
    ]


def rivals(lattice):
    return [
        (rival.word.surface, rival.node and rival.node.surface, rival.lost)
        for rival in lattice.rivals()
    ]


def boundaries_of(path):
    """Returns the boundaries of each word of a path: its start, with the blanks before it, and its
    end."""
    ends = [end for _, end, _ in path]
    return set(zip([0, *ends], ends))


@pytest.fixture(scope="module")
def dead(system, images):
    """Returns a lattice with nodes that are on no path."""
    return Segmenter(system, [images / "blank.img"]).lattice(BLANK)


@pytest.mark.parametrize("line", NODES)
def test_the_nodes_worked_by_hand(system, line):
    lattice = Segmenter(system).lattice(line)
    assert rows(lattice) == NODES[line]
    assert [node.lost for node in lattice.nodes] == [
        node.through - lattice.total for node in lattice.nodes
    ]


def test_nodes_that_no_path_has(dead):
    assert rows(dead) == DEAD
    assert [node.lost for node in dead.nodes] == [None, None, 0, None]
    assert rivals(dead) == [(BLANK, None, None)]


@pytest.mark.parametrize("text", SMALL)
def test_the_nodes_are_those_of_a_list_of_all_paths(system, text):
    lattice = Segmenter(system).lattice(text)
    found = {
        (node.start, node.end, node.cost): (node.total, node.through) for node in lattice.nodes
    }
    assert found == listed(text) and len(found) == len(lattice.nodes)
    assert lattice.total == min(map(cost_of, paths_of(text)))
    assert [node.byte_place for node in lattice.nodes] == sorted(
        node.byte_place for node in lattice.nodes
    )


@pytest.mark.parametrize("text", SMALL)
def test_rivals_are_those_of_a_list_of_all_paths(system, text):
    """Rivals are the least costs of the paths that have no word with the same boundaries.

    A word's boundaries are its start, with the blanks before it, and its end.
    """
    paths, place = paths_of(text), 0
    for word, node, lost in Segmenter(system).lattice(text).rivals():
        others = [cost_of(path) for path in paths if (place, word.end) not in boundaries_of(path)]
        assert lost == (min(others) - min(map(cost_of, paths)) if others else None)
        assert (node is None) == (lost is None)
        place = word.end


@pytest.mark.parametrize("line", RIVALS)
def test_rivals_worked_by_hand(system, line):
    assert rivals(Segmenter(system).lattice(line)) == RIVALS[line]


class MadeUp:
    """A node that counts how often its attributes are read."""

    read_count = 0

    def __init__(self, place, end, lost):
        self.all = {"byte_place": place, "byte_end": end, "lost": lost, "best": lost == 0}

    def __getattr__(self, name):
        MadeUp.read_count += 1
        return self.all[name]


def rival_of(word, nodes):
    """Returns the first node of least loss among those that cover the start of a word and have
    other boundaries."""
    place, end = word.byte_place, word.byte_end
    on_paths = [node for node in nodes if node.lost is not None]
    covering = [node for node in on_paths if node.byte_place <= place < node.byte_end]
    others = [node for node in covering if (node.byte_place, node.byte_end) != (place, end)]
    return min(others, key=lambda node: node.lost, default=None)


def test_rivals_of_nodes_that_are_made_up():
    """Many nodes have equal losses or are on no path, over words of any length."""
    choose = random.Random(1)
    for _ in range(300):
        ends = sorted({*choose.choices(range(1, 12), k=5), 12})
        nodes = [MadeUp(place, end, 0) for place, end in zip([0, *ends], ends)]
        for _ in range(choose.randrange(40)):
            place = choose.randrange(12)
            end = choose.randrange(place, 12) + 1
            nodes.append(MadeUp(place, end, choose.choice([None, 1, 2, 3])))
        nodes.sort(key=lambda node: node.byte_place)
        found = Lattice(nodes, 0, "").rivals()
        assert [rival.word for rival in found] == [node for node in nodes if node.best]
        for word, node, lost in found:
            assert node is rival_of(word, nodes) and lost == (node.lost if node else None)


def test_rivals_of_many_nodes_take_few_steps():
    """The nodes are all words of a line of 150 characters. The best path has one word for each
    character."""
    ends = range(1, 151)
    spans = [(place, end) for place in range(150) for end in ends if end > place]
    nodes = [MadeUp(place, end, end - place - 1) for place, end in spans]
    steps = []
    for size in (75, 150):
        some = [node for node in nodes if node.byte_end <= size]
        MadeUp.read_count, lines = 0, 0

        def trace(frame, event, _):
            nonlocal lines
            lines += event == "line"
            return trace if frame.f_code is Lattice.rivals.__code__ else None

        sys.settrace(trace)
        try:
            rivals = Lattice(some, 0, "").rivals()
        finally:
            sys.settrace(None)
        assert MadeUp.read_count < 6 * len(some)
        steps.append(lines / len(some))
    assert steps[1] < 1.1 * steps[0] < 10
    found = [(rival.word.byte_place, rival.node.byte_place, rival.lost) for rival in rivals]
    assert found == [(0, 0, 1), *((at, at - 1, 1) for at in ends[:-1])]


@pytest.mark.parametrize("line", NODES)
def test_the_best_nodes_are_the_words_of_the_line(system, line):
    segmenter = Segmenter(system)
    words, best = segmenter.words(line), segmenter.lattice(line).best
    assert (best, best.total) == (words, words.total)
    assert [word.total for word in best] == [word.total for word in words]
    assert repr(best) == repr(words)


def test_a_node_has_the_attributes_of_a_word(system, user):
    """Its word is a user's, the system's or an unknown one, and fields have names."""
    nodes = Segmenter(system, [user], fields=["pos", "reading"]).lattice(" すもももも桃").nodes
    found = [
        (
            node.dictionary,
            not node.is_unknown,
            node.feature,
            node.pos,
            node.reading,
            node.byte_place,
            node.byte_start,
            node.byte_end,
        )
        for node in nodes
    ]
    assert found == [
        (0, True, "名詞,すもも", "名詞", "すもも", 0, 1, 10),
        (1, True, "名詞,すもももも", "名詞", "すもももも", 0, 1, 16),
        (0, True, "助詞,も", "助詞", "も", 10, 10, 13),
        (0, True, "名詞,もも", "名詞", "もも", 10, 10, 16),
        (0, True, "助詞,も", "助詞", "も", 13, 13, 16),
        (0, False, "未知", "未知", None, 16, 16, 19),
    ]
    assert {node.left_id for node in nodes} == {node.right_id for node in nodes} == {1}
    assert [node.category for node in nodes] == [5, 5, 5, 5, 5, 4]


@pytest.mark.parametrize("name", ["through", "lost", "best", "byte_place"])
def test_a_field_may_not_have_a_nodes_name(system, name):
    with pytest.raises(ValueError, match=name):
        Segmenter(system, fields=[name])


def test_many_nodes(system):
    """Each copy of the line has the same four nodes. A connection of two copies costs 7, where BOS
    and EOS cost 15."""
    found = rows(Segmenter(system).lattice(LINE * 2000))
    assert len(found) == 8000
    for number, (surface, start, end, cost, total, through, best) in enumerate(found):
        copy, row = divmod(number, 4)
        first = NODES[LINE][row]
        assert (surface, start - 5 * copy, end - 5 * copy, cost, best) == (*first[:4], first[6])
        assert (total, through) == (first[4] + 144 * copy, first[5] + 144 * 1999)


def test_a_line_feed_in_a_feature(odd):
    assert [node.feature for node in Segmenter(odd).lattice("もも").nodes] == [
        "助詞,も",
        "名詞\nもも",
        "助詞,も",
    ]


def test_nodes_are_light_and_are_pickled(system):
    nodes = Segmenter(system).lattice(LINE).nodes
    assert not hasattr(nodes[0], "__dict__") and sys.getsizeof(nodes[0]) <= 120
    again = pickle.loads(pickle.dumps(nodes))
    assert again == nodes and [(node.lost, node.end) for node in again] == [
        (node.lost, node.end) for node in nodes
    ]


def test_nodes_have_all_their_numbers_in_them(system):
    """A lattice of 80,000 nodes takes less than 250 bytes for each, with its surface."""
    segmenter = Segmenter(system)
    segmenter.lattice(LINE)
    tracemalloc.start()
    try:
        nodes = segmenter.lattice(LINE * 20_000).nodes
        size = tracemalloc.get_traced_memory()[0]
    finally:
        tracemalloc.stop()
    assert len(nodes) == 80_000 and size < 250 * len(nodes)


def test_what_a_node_shows(system, dead):
    first, other, *_ = Segmenter(system).lattice(LINE).nodes
    assert repr(first) == "<Node すもも 名詞,すもも 0:3 cost 100 best>"
    assert repr(other) == "<Node も 助詞,も 3:4 cost 20 lost by 17>"
    assert repr(dead.nodes[0]) == "<Node も 助詞,も 0:1 cost 20 no path has it>"
    assert isinstance(first, Node)


def test_a_table(system):
    assert repr(Segmenter(system).lattice(LINE)).splitlines() == [
        "surface  feature      best  cost  total  through  lost",
        "すもも   名詞,すもも  *      100    110      152     0",
        "も       助詞,も              20    137      169    17",
        "もも     名詞,もも    *       30    147      152     0",
        "も       助詞,も              20    164      169    17",
    ]


GRAPH = """digraph {
  rankdir=LR;
  label="すもももも";
  node [shape=circle];
  w0 [shape=box, color=red, penwidth=2, label="すもも\\n名詞\\ncost 100\\ntotal 110\\nlost 0"];
  0 -> w0 -> 9 [color=red, penwidth=2];
  w1 [shape=box, label="も\\n助詞\\ncost 20\\ntotal 137\\nlost 17"];
  9 -> w1 -> 12;
  w2 [shape=box, color=red, penwidth=2, label="もも\\n名詞\\ncost 30\\ntotal 147\\nlost 0"];
  9 -> w2 -> 15 [color=red, penwidth=2];
  w3 [shape=box, label="も\\n助詞\\ncost 20\\ntotal 164\\nlost 17"];
  12 -> w3 -> 15;
}
"""


def test_a_graph(system):
    """The output is that of `jseg --lattice dot`."""
    lattice = Segmenter(system).lattice(LINE)
    assert lattice.to_dot() == lattice.to_dot(17) == GRAPH
    near = "".join(
        line for line in GRAPH.splitlines(keepends=True) if "w1" not in line and "w3" not in line
    )
    assert lattice.to_dot(16) == lattice.to_dot(0) == near
    assert (
        Segmenter(system).lattice("").to_dot()
        == GRAPH[: GRAPH.index("  w0")].replace(LINE, "") + "}\n"
    )


def test_graphs_are_those_of_jseg(system):
    if not JSEG.exists():
        pytest.skip(f"{JSEG} is not built")
    lines = [*SMALL, "", *(sign for sign, _ in ESCAPES)]
    for within in (None, 0, 2000):
        words = [
            JSEG,
            "-d",
            system,
            "--lattice",
            "dot",
            *([] if within is None else ["--within", str(within)]),
        ]
        printed = subprocess.run(
            words,
            input="".join(f"{line}\n" for line in lines).encode(),
            stdout=subprocess.PIPE,
            check=True,
        ).stdout
        assert printed.decode() == "".join(
            Segmenter(system).lattice(line).to_dot(within) for line in lines
        )


def test_a_graph_of_what_no_path_has(dead):
    assert (
        '  w0 [shape=box, label="も\\n助詞\\ncost 20\\ntotal 30\\nno path"];\n  0 -> w0 -> 3;\n'
        in dead.to_dot()
    )
    assert "no path" not in dead.to_dot(10**6)
    assert parsed(dead) == parsed(dead, None) == ([*"12", "もも ", "名詞", "500"], 0, 1)


# A character of a line, and its form in a label.
ESCAPES = [
    ('"', '\\"'),
    ("\\", "\\\\"),
    ("&", "&amp;"),
    ("<", "<"),
    ("\0", "\\\\u{0}"),
    ("\t", "\\\\u{9}"),
    ("\x1b", "\\\\u{1b}"),
    ("\x7f", "\\\\u{7f}"),
    ("\x80", "\\\\u{80}"),
    ("\x9f", "\\\\u{9f}"),
    ("\xa0", "\xa0"),
    ("\ufffd", "\ufffd"),
    ("\ufffe", "\\\\u{fffe}"),
    ("\uffff", "\\\\u{ffff}"),
    ("\u3000", "\u3000"),
    ("𠮷", "𠮷"),
]


@pytest.mark.parametrize("sign, escaped", ESCAPES)
def test_escapes_of_a_graph(system, sign, escaped):
    graph = Segmenter(system).lattice(sign).to_dot()
    assert f'label="{escaped}";\n' in graph and f'label="{escaped}\\n未知\\ncost 1000\\n' in graph


def test_graphviz_reads_each_escape(system):
    if not shutil.which("dot"):
        pytest.skip("Graphviz's dot is not there")
    signs = ["&quot;", "\\", "&amp;", "&lt;", "\\u{9}", "\\u{1b}", "\u3000", "𠮷"]
    texts = [f">{sign}</text>" for sign in signs]
    graphs = [Segmenter(system).lattice(sign).to_dot() for sign, _ in ESCAPES]
    drawn = subprocess.run(
        ["dot", "-Tsvg"], input="".join(graphs).encode(), stdout=subprocess.PIPE, check=True
    )
    svg = drawn.stdout.decode()
    assert svg.count("<svg") == len(ESCAPES) and [text for text in texts if text not in svg] == []


# All control characters except the line feed, and the characters that XML does not allow.
UNSHOWN = [*range(10), *range(11, 32), *range(0x7F, 0xA0), 0xFFFE, 0xFFFF]
CONTROLS = "".join(map(chr, UNSHOWN))
CODES = "".join(f"\\u{{{number:x}}}" for number in UNSHOWN)


SVG = "{http://www.w3.org/2000/svg}"


def parsed(lattice, *how):
    """Returns the texts of a drawing, and the numbers of its lines and boxes."""
    drawn = ElementTree.fromstring(lattice.to_svg(*how))
    texts = [text.text for text in drawn.iter(f"{SVG}text")]
    return texts, len(list(drawn.iter(f"{SVG}line"))), len(list(drawn.iter(f"{SVG}rect")))


def test_what_is_drawn_is_well_formed_xml(system, marked):
    """A line or a feature may contain any characters."""
    texts = parsed(Segmenter(system).lattice(CONTROLS))[0]
    assert [
        code
        for code in CODES.split("\\")[1:]
        if not any(f"\\{code}" in text for text in texts if text)
    ] == []
    assert "\\u{ffff}詞" in parsed(Segmenter(marked).lattice("もも"))[0]
    assert "\\u{d800}" in parsed(Segmenter(system).lattice("\ud800"))[0]
    assert parsed(Segmenter(system).lattice("")) == ([], 0, 0)


def test_what_is_drawn(system):
    """Positions are in characters. The costs of nodes and of connections are those of NODES. The
    nodes of the best path have no loss."""
    texts, lines, boxes = parsed(Segmenter(system).lattice(LINE))
    assert texts[:4] == ["1", "2", "3", "4"] and (lines, boxes) == (3, 4)
    assert texts[4:7] == ["7", "7", "7"]
    assert texts[7:] == [
        *("すもも", "名詞", "100"),
        *("も", "助詞", "20", "+17"),
        *("もも", "名詞", "30"),
        *("も", "助詞", "20", "+17"),
    ]
    assert parsed(Segmenter(system).lattice(LINE), 16)[1:] == (1, 2)
    assert parsed(Segmenter(system).lattice(LINE), 17, 1)[1:] == (1, 2)
    assert Segmenter(system).lattice(LINE)._repr_svg_() == Segmenter(system).lattice(LINE).to_svg()


def test_texts_of_a_drawing_have_places_of_their_own(system):
    """Also the costs of connections whose lines cross."""
    drawn = ElementTree.fromstring(Segmenter(system).lattice("ももももももももももすもも").to_svg())
    places = [(text.get("x"), text.get("y")) for text in drawn.iter(f"{SVG}text")]
    assert len(places) == len({*places}) > 40


def test_costs_of_lines_that_cross_have_places_of_their_own():
    """Two words end, and three start, at character 2."""
    names = "start end best place byte_place byte_end lost surface fields cost total"
    Drawn = namedtuple("Drawn", names)
    spans = [(0, 2, True), (0, 2, False), (2, 4, True), (2, 3, False), (2, 4, False)]
    nodes = [Drawn(a, b, best, a, a, b, 0, "もも", ("名詞",), 1, 0) for a, b, best in spans]
    drawn = ElementTree.fromstring(Lattice(nodes, 0, "もももも").to_svg())
    places = [(text.get("x"), text.get("y")) for text in drawn.iter(f"{SVG}text")]
    assert len(places) == len({*places})


def test_connection_costs_of_a_drawing_are_those_of_the_image(system, tmp_path):
    """Without the file of the image, those of the best path are drawn alone."""
    image = shutil.copy(system, tmp_path / "image.img")
    lattice = Segmenter(image).lattice(LINE)
    in_memory = Segmenter(Path(system).read_bytes()).lattice(LINE)
    assert [text for text in parsed(lattice)[0] if text == "7"] == ["7"] * 3
    Path(image).unlink()
    for one in (lattice, in_memory):
        assert sorted(map(str, parsed(one)[0][4:7])) == ["7", "None", "None"]


def test_a_drawing_of_a_long_line_is_narrow(system):
    """It has at most 60 nodes besides the best path, and 64 points for a character."""
    lattice = Segmenter(system).lattice(LINE * 100)
    assert parsed(lattice)[2] <= 200 + 60
    assert f'width="{64 * 500}"' in lattice.to_svg()


def test_a_notebook_shows_a_drawing(system):
    """A table beside it would be shown in its place."""
    lattice = Segmenter(system).lattice("すもも<b>")
    texts = parsed(lattice)[0]
    assert ElementTree.fromstring(lattice._repr_svg_()).tag == f"{SVG}svg"
    assert {"すもも", "<", "b", ">"} <= {*texts} and not hasattr(lattice, "_repr_html_")


def test_an_explanation(system, dead):
    assert Segmenter(system).explain(LINE).splitlines() == [
        "path   start  surface  feature      connection  cost  total  lost",
        "best   0      すもも   名詞,すもも          10   100    110",
        "best   3      もも     名詞,もも             7    30    147",
        "rival  3      も       助詞,も                    20    137    17",
        "best   5      EOS                            5     0    152",
    ]
    assert dead.explain().count("best") == 2 and "rival" not in dead.explain()


@pytest.mark.parametrize("call", ["lattice", "explain"])
def test_a_lattice_is_of_one_line(system, call):
    run = getattr(Segmenter(system), call)
    assert repr(run(LINE + "\r\n")) == repr(run(LINE + "\n")) == repr(run(LINE))
    with pytest.raises(ValueError, match="several lines at character 3"):
        run("すもも\nもも")
    with pytest.raises(KumquatsieveError, match="; words, .* take a line of any length$") as error:
        run("z" * (2**20 + 1))
    assert (error.value.code, error.value.position) == ("G4", 2**20 + 1)


def test_a_lattice_of_surrogates(system):
    """Two halves of a pair are the node of their character. Offsets are those of the text."""
    nodes = Segmenter(system).lattice("\ud842\udfb7も\ud800").nodes
    assert [(node.surface, node.start, node.end, node.place) for node in nodes] == [
        ("\ud842\udfb7", 0, 2, 0),
        ("も", 2, 3, 2),
        ("\ud800", 3, 4, 3),
    ]
    with pytest.raises(ValueError, match="surrogate"):
        Segmenter(system, errors="strict").lattice("\ud842\udfb7")


def test_entries_of_a_surface(system, user):
    dictionary = Dictionary(system, [user])
    found = dictionary.lookup("すもももも")
    assert [(word.surface, word.dictionary, word.cost) for word in found] == [("すもももも", 1, -30000)]
    assert dictionary.lookup("すも") == []
    known = [word for word in dictionary.lookup("すもももも", prefixes=True) if not word.is_unknown]
    assert {word.surface for word in known} == {"すもも", "すもももも"}
    assert all(word.start == 0 for word in known)


@pytest.mark.parametrize("name", [name for name in dir(Node) if not name.startswith("_")])
def test_no_attribute_of_a_node_is_the_name_of_a_field(system, name):
    with pytest.raises(ValueError, match="can't be the name of field 0"):
        Segmenter(system, fields=[name])
