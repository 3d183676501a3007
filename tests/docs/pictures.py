#!/usr/bin/env python3
"""Draws the pictures of the documents, or checks that they are up to date:

    tests/docs/pictures.py             compares docs/pictures with new drawings
    tests/docs/pictures.py --write     writes docs/pictures anew

The charts are those of bench/plot, and are compared byte for byte. The other pictures are graphs,
NAME.dot, and their drawings by Graphviz, NAME.svg: the crates of scripts/draw-crates, and lattices
of a line over IPADIC, with the entries of docs/DICTIONARIES.md or without. Graphs are compared byte
for byte, and of their drawings the words and edges, because versions of Graphviz place words
differently. The status is 1 if a picture differs, or if a file is none of these pictures.

The Python module is in the folder that KUMQUATSIEVE_MODULE names. Without the variable it is built
from crates/capi/out/libcapi.a. All graphs need Graphviz's dot, and the lattices also
crates/dictc/out/dictc, gcc, the headers of Python, and IPADIC's sources (Debian: graphviz,
python3-dev, mecab-ipadic). If one of these
is missing, what needs it is left out, and the status is 77 unless another picture differs.
"""
import argparse
import os
import re
import subprocess
import sys
import tempfile
from pathlib import Path
from typing import Dict, Iterator, List, NamedTuple

sys.dont_write_bytecode = True
sys.path.insert(0, str(Path(__file__).resolve().parents[1]))
from support.running import (  # noqa: E402
    ARCHIVE,
    IMPORTER,
    LEFT_OUT,
    TOP,
    Words,
    leave_out,
    missing_of,
    program,
    run,
)

sys.path.insert(0, str(TOP / "python"))

PICTURES = TOP / "docs" / "pictures"
DOCUMENT = TOP / "docs" / "DICTIONARIES.md"
DICTC = program("dictc")
SOURCES = Path("/usr/share/mecab/dic/ipadic/matrix.def")
MODULE = "KUMQUATSIEVE_MODULE"
# The entries of the document, as its commands have them.
ENTRY = re.compile(r"^\$ echo '([^']*,1285,1285,[^']*)' >>? own\.csv$", re.M)

# A lattice is drawn close together, because its numbers have to be legible at the width of a page.
FONT = ["-Gfontname=sans-serif", "-Nfontname=sans-serif"]
CLOSE = ["-Granksep=0.2", "-Gnodesep=0.12", "-Nwidth=0.2", "-Nheight=0.2", "-Nmargin=0.07,0.04"]
# The colors of a drawing on a dark page, which Graphviz has no option for.
STYLE = """<style>
@media (prefers-color-scheme: dark) {
  [fill="white"] { fill: #0d1117 }
  [stroke="black"] { stroke: #e6edf3 }
  [fill="black"], text { fill: #e6edf3 }
  [stroke="red"] { stroke: #ff7b72 }
  [fill="red"] { fill: #ff7b72 }
}
</style>
"""


class Lattice(NamedTuple):
    """The lattice of a line with the first `entries` entries of the document.

    It has the nodes that lost by at most `within`.
    """

    name: str
    entries: int
    line: str = "外国人参政権を考える"
    within: int = 4000


LATTICES = [Lattice("lattice_before", 0), Lattice("lattice_after", 2)]


def missing() -> List[str]:
    """Returns the programs and files that lattices need and that are missing."""
    library = [] if MODULE in os.environ else [ARCHIVE]
    files = [str(path) for path in [DICTC, SOURCES, *library] if not path.exists()]
    return [*missing_of(["dot", "gcc"]), *files]


def draw_charts() -> Dict[str, str]:
    """Returns the drawing of each chart by the name of its file."""
    with tempfile.TemporaryDirectory() as folder:
        run([TOP / "bench" / "plot", folder])
        return {path.name: path.read_text() for path in sorted(Path(folder).iterdir())}


def run_silently(words: Words) -> None:
    silent = subprocess.DEVNULL
    subprocess.run([str(word) for word in words], check=True, stdout=silent, stderr=silent)


def prepare(folder: Path) -> Path:
    """Builds the module and compiles IPADIC. Returns the path of its image."""
    os.environ["PATH"] = f"{DICTC.parent}:{os.environ['PATH']}"
    if MODULE not in os.environ:
        run_silently([TOP / "packaging/build-module", "--built", folder / "module"])
    sys.path.insert(0, os.environ.get(MODULE, str(folder / "module")))
    run_silently([IMPORTER, "ipadic", folder / "ipadic.img"])
    return folder / "ipadic.img"


def graph_of(picture: Lattice, image: Path, folder: Path) -> str:
    """Returns the graph of a lattice, in Graphviz's language."""
    # It is built by now.
    from kumquatsieve import Segmenter

    entries = ENTRY.findall(DOCUMENT.read_text())[: picture.entries]
    if len(entries) != picture.entries:
        sys.exit(
            f"pictures: {DOCUMENT} has {len(entries)} entries, and {picture.name} needs "
            f"{picture.entries}"
        )
    users = []
    if entries:
        (folder / "own.csv").write_text("".join(f"{entry}\n" for entry in entries))
        words: Words = [DICTC, "user", "--dic", image, "--out", folder / "own.img"]
        run_silently([*words, folder / "own.csv"])
        users = [folder / "own.img"]
    return Segmenter(image, users).lattice(picture.line).to_dot(picture.within)


def lattice_graphs() -> Dict[str, str]:
    """Returns the graph of each lattice by its name."""
    with tempfile.TemporaryDirectory() as name:
        image = prepare(Path(name))
        return {picture.name: graph_of(picture, image, Path(name)) for picture in LATTICES}


def drawing_of(name: str, graph: str) -> str:
    """Draws the graph of a picture by Graphviz, without the comments that name its version."""
    options = FONT if name == "crates" else [*FONT, *CLOSE]
    svg = run(["dot", "-Tsvg", *options], graph.encode()).decode()
    return re.sub(r"<!--.*?-->\n", "", svg, flags=re.S).replace("<g ", f"{STYLE}<g ", 1)


def words_of(svg: str) -> List[str]:
    """Returns the words of a drawing, and its edges by the names of their ends."""
    return sorted(re.findall(r"(?<=>)[^<>\n]+(?=</text>)|(?<=<title>)\S+&gt;\S+(?=</title>)", svg))


def out_of_date(path: Path) -> str:
    return f"{path.relative_to(TOP)} is out of date: tests/docs/pictures.py --write"


def graph_differences(name: str, graph: str) -> Iterator[str]:
    """Yields a message for each file of a graph that is missing or out of date."""
    dot, svg = (PICTURES / f"{name}.{suffix}" for suffix in ("dot", "svg"))
    is_current = {
        dot: dot.exists() and dot.read_text() == graph,
        svg: svg.exists() and words_of(svg.read_text()) == words_of(drawing_of(name, graph)),
    }
    yield from (out_of_date(path) for path, current in is_current.items() if not current)


def chart_differences(charts: Dict[str, str]) -> Iterator[str]:
    """Yields a message for each chart that is missing or out of date."""
    for name, drawing in charts.items():
        path = PICTURES / name
        if not path.exists() or path.read_text() != drawing:
            yield out_of_date(path)


def strays(charts: Dict[str, str]) -> Iterator[str]:
    """Yields a message for each file of the pictures that nothing here draws."""
    graphs = ["crates", *(picture.name for picture in LATTICES)]
    drawn = {f"{name}.{suffix}" for name in graphs for suffix in ("dot", "svg")}
    for path in sorted(PICTURES.iterdir()):
        if path.name not in drawn.union(charts):
            yield f"{path.relative_to(TOP)} is drawn by nothing"


def write(graphs: Dict[str, str], charts: Dict[str, str]) -> None:
    PICTURES.mkdir(exist_ok=True)
    for name, graph in graphs.items():
        (PICTURES / f"{name}.dot").write_text(graph)
        (PICTURES / f"{name}.svg").write_text(drawing_of(name, graph))
    for name, drawing in charts.items():
        (PICTURES / name).write_text(drawing)


def graphs_by_name(lacking: List[str]) -> Dict[str, str]:
    """Returns the graphs that can be drawn without what is lacking. Reports the others."""
    if "dot" in lacking:
        leave_out("the graphs: dot missing")
        return {}
    graphs = {"crates": run([TOP / "scripts" / "draw-crates"]).decode()}
    if lacking:
        leave_out(f"the lattices: {' and '.join(lacking)} missing")
        return graphs
    return {**graphs, **lattice_graphs()}


def main() -> int:
    arguments = argparse.ArgumentParser(
        description=__doc__, formatter_class=argparse.RawDescriptionHelpFormatter
    )
    arguments.add_argument("--write", action="store_true", help="write the graphs and drawings")
    is_written = arguments.parse_args().write
    lacking = missing()
    charts, graphs = draw_charts(), graphs_by_name(lacking)
    if is_written:
        write(graphs, charts)
    found = [text for name, graph in graphs.items() for text in graph_differences(name, graph)]
    found += [*chart_differences(charts), *strays(charts)]
    for difference in found:
        print(difference, file=sys.stderr)
    print(f"{len(charts) + len(graphs)} pictures, {len(found)} differences")
    return 1 if found else LEFT_OUT if lacking else 0


sys.exit(main())
