#!/usr/bin/env python3
"""Compares what docs/GUARANTEES.md quotes of contracts with the sources.

A block that starts with ```rust and the path of a file has lines of this file. A list item that
starts with the name of a definition, as a link to its file, has the comment of the definition.

The status is 1 if a quotation differs from its file, or if there is none.
"""
import argparse
import re
import sys
from pathlib import Path
from typing import List, NamedTuple

TOP = Path(__file__).resolve().parents[2]
DOCUMENT = TOP / "docs" / "GUARANTEES.md"
# The path of the file and the lines of a block.
BLOCK = re.compile(r"^```rust (\S+)\n(.*?)^```$", re.M | re.S)
# The definition, the path of its file and the comment of an item.
ITEM = re.compile(r"^- \[`(\w+)`\]\(\.\./(\S+\.antt)\): (.*\n(?:  .*\n)*)", re.M)


class Quotation(NamedTuple):
    """What the document quotes, and what the file has there."""

    name: str
    quoted: str
    source: str


def comment_of(definition: str, source: str) -> str:
    """Returns the comment of a definition as one line, or an empty text if there is none."""
    name = rf"(?:abbrev |unfoldable )?pub (?:record )?{definition}\b"
    found = re.search(rf"^((?:-- .*\n)+){name}", source, re.M)
    return " ".join(line[3:].strip() for line in found[1].splitlines()) if found else ""


def quotations(text: str) -> List[Quotation]:
    """Returns the quotations of a document."""
    found = []
    for path, lines in BLOCK.findall(text):
        is_there = f"\n{lines}" in (TOP / path).read_text()
        found.append(Quotation(path, lines, lines if is_there else ""))
    for name, path, comment in ITEM.findall(text):
        source = comment_of(name, (TOP / path).read_text())
        found.append(Quotation(f"{path}, {name}", " ".join(comment.split()), source))
    return found


def main() -> int:
    arguments = argparse.ArgumentParser(
        description=__doc__, formatter_class=argparse.RawDescriptionHelpFormatter
    )
    arguments.parse_args()
    found = quotations(DOCUMENT.read_text())
    different = [one for one in found if one.quoted != one.source]
    for one in different:
        print(f"{DOCUMENT.name}: {one.name} hasn't the text\n{one.quoted}", file=sys.stderr)
    print(f"{len(found)} quotations compared, {len(different)} differences")
    return 1 if different or not found else 0


sys.exit(main())
