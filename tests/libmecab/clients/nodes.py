"""Prints each line of a file by a tagger of MeCab's Python module, as text and as nodes:
nodes.py LINES"""
import sys
from typing import Any

import MeCab


def fields(node: Any) -> str:
    """Returns the fields of a node, of MeCab's class without types."""
    numbers = [
        node.length,
        node.rlength,
        node.lcAttr,
        node.rcAttr,
        node.stat,
        node.char_type,
        node.isbest,
        node.wcost,
        node.cost,
    ]
    return "\t".join([node.surface, node.feature, *map(str, numbers)])


def main() -> None:
    tagger = MeCab.Tagger("")
    wakati = MeCab.Tagger("-Owakati")
    with open(sys.argv[1], encoding="utf-8", newline="\n") as lines:
        for line in lines:
            text = line.rstrip("\n")
            print(tagger.parse(text), wakati.parse(text), sep="", end="")
            node = tagger.parseToNode(text)
            while node:
                print(fields(node))
                node = node.next


main()
