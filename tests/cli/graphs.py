#!/usr/bin/env python3
"""Has Graphviz draw what `jseg --lattice dot` prints, for lines with all of ASCII and others.

In each drawing, the label of the graph is the line. The boxes have the words of the table that
`jseg --lattice tsv` prints, in its order: surface, first field, word cost, total, and by how much
the word lost. Control characters, U+FFFE and U+FFFF are drawn as their code points. The status is 1
if a drawing differs.

Needs crates/jseg/out/jseg, which `rt run` in its directory builds, and Graphviz's dot. If dot is
missing the status is 77, and nothing was run.
"""
import argparse
import shutil
import subprocess
import sys
import xml.etree.ElementTree as xml
from pathlib import Path
from typing import Iterator, List, Tuple

sys.dont_write_bytecode = True
sys.path.insert(0, str(Path(__file__).resolve().parents[1]))
from cli.tables import unescaped  # noqa: E402
from support.running import end_left_out, program, run  # noqa: E402

JSEG = program("jseg")
SVG = "{http://www.w3.org/2000/svg}"
# What a drawing in SVG can't contain.
BY_CODE = {code: rf"\u{{{code:x}}}" for code in (*range(32), *range(0x7F, 0xA0), 0xFFFE, 0xFFFF)}
ASCII = "".join(map(chr, range(128))).replace("\n", "")
# What has a meaning in the language of dot, in its labels or in HTML.
SPECIAL = (
    '\\"',
    '"\\',
    "\\n",
    "\\N",
    "\\G",
    "\\\\",
    "&amp;",
    "&#12354;",
    "<b>も</b>",
    "]; x [",
    "%",
)
LINES = [
    "すもももも",
    "",
    ASCII,
    *ASCII,
    *(f"も{special}も" for special in SPECIAL),
    " も  も ",
    "𠮷野ア\u0300é",
    "".join(map(chr, (*range(0x80, 0xA0), *range(0xA1, 0x100)))),
    "も\ufffdも\ufffeも\uffffも",
    "\ufffe",
    "\uffff\x80",
]


def printed(form: str, line: str) -> bytes:
    """Returns the lattice of a line that jseg prints."""
    return run([JSEG, "--sample", "--lattice", form], f"{line}\n".encode())


def as_drawn(text: str) -> str:
    return text.translate(BY_CODE)


def expected_boxes(line: str) -> Iterator[List[str]]:
    """Yields the texts of each box, from the table of a line.

    The features of the sample have no quotes.
    """
    heading, *rows = printed("tsv", line).decode().removesuffix("\n\n").split("\n")
    for row in rows:
        cells = dict(zip(heading.split("\t"), row.split("\t")))
        field = unescaped(cells["feature"]).split(",")[0]
        yield [
            as_drawn(unescaped(cells["surface"])),
            field,
            f"cost {cells['cost']}",
            f"total {cells['total']}",
            f"lost {cells['lost']}",
        ]


def texts_in(group: xml.Element) -> List[str]:
    """Returns the texts of a part of a drawing, with plain blanks for those that don't break."""
    return ["".join(text.itertext()).replace("\u00a0", " ") for text in group.findall(f"{SVG}text")]


def title_of(group: xml.Element) -> str:
    title = group.find(f"{SVG}title")
    assert title is not None and title.text is not None
    return title.text


def drawn(line: str) -> Tuple[List[str], List[List[str]]]:
    """Returns the texts of a line's graph, and those of its boxes."""
    done = subprocess.run(["dot", "-Tsvg"], input=printed("dot", line), capture_output=True)
    if done.returncode != 0 or done.stderr:
        sys.exit(f"graphs: dot can't read the graph of {line!r}: {done.stderr.decode()}")
    graph = xml.fromstring(done.stdout).find(f"{SVG}g")
    assert graph is not None
    nodes = graph.findall(f"{SVG}g[@class='node']")
    boxes = [node for node in nodes if title_of(node).startswith("w")]
    boxes.sort(key=lambda box: int(title_of(box)[1:]))
    return texts_in(graph), [texts_in(box) for box in boxes]


def failures_of(line: str) -> Iterator[str]:
    """Yields what is wrong with the drawing of a line."""
    label, boxes = drawn(line)
    if label != ([as_drawn(line)] if line else []):
        yield f"the label of the graph of {line!r} is {label!r}"
    expected = list(expected_boxes(line))
    if boxes != expected:
        yield f"the boxes of {line!r} are {boxes!r}, expected {expected!r}"


def main() -> int:
    arguments = argparse.ArgumentParser(
        description=__doc__, formatter_class=argparse.RawDescriptionHelpFormatter
    )
    arguments.parse_args()
    if not shutil.which("dot"):
        end_left_out("Graphviz's dot is missing")
    if not JSEG.exists():
        sys.exit(f"graphs: {JSEG} is missing: run `rt run` in crates/jseg")
    failures = [failure for line in LINES for failure in failures_of(line)]
    print(*failures, sep="\n", end="\n" if failures else "")
    print(f"graphs: {len(LINES)} cases, {len(failures)} failures")
    return 1 if failures else 0


if __name__ == "__main__":
    sys.exit(main())
