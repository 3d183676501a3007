"""A user's script, which `mypy --strict` accepts. Nothing runs it."""
from pathlib import Path
from typing import Iterator, List, Optional, Tuple

from kumquatsieve import Dictionary, Format, ImageInfo, KumquatsieveError, Lattice, Lines
from kumquatsieve import Node, Rival, Segmenter, Word, Words, dictionaries

installed: List[Tuple[str, str]] = list(dictionaries().items())
dictionary = Dictionary("ipadic", [Path("user.img")], fields=["pos", None], test_digest=True)
image: ImageInfo = dictionary.images[0]
categories: Tuple[str, ...] = image.categories
path: Optional[str] = image.path
is_user: bool = image.is_user
entries: Words = dictionary.lookup("もも", prefixes=True)


class Own(Segmenter):
    label = "own"


with Own(dictionary, grouping=3, format=Format("%m ", eos="\\n"), errors="strict") as segmenter:
    label: str = segmenter.label
    words: Words = segmenter("もも")
    word: Word = words[0]
    total: int = words.total
    text: str = word.surface + word.feature + word.base_or_surface
    base: Optional[str] = word.base_form or word.reading or word.pos
    other: Optional[str] = word.orthBase
    fields: Tuple[str, ...] = word.fields
    span: Tuple[int, int, int, int] = word.start, word.end, word.byte_start, word.byte_end
    known: bool = not word.is_unknown
    surfaces: List[str] = segmenter.wakati("もも")
    printed: str = segmenter.parse("もも") + segmenter.explain("もも")
    lattice: Lattice = segmenter.lattice("もも")
    node: Node = lattice.nodes[0]
    rivals: List[Rival] = lattice.rivals()
    lost: Optional[int] = node.lost
    drawn: str = lattice.to_dot(3) + lattice.to_svg(within=3, most=9)
    with open("text", "rb") as file:
        lines: Lines[Words] = segmenter.lines(file)
        joined: Iterator[str] = iter(segmenter.wakati_lines(["もも"], errors="replace"))
        replaced: int = lines.replaced
try:
    segmenter.words("\ud800")
except KumquatsieveError as error:
    code: str = error.code
    place: Tuple[Optional[int], Optional[int]] = error.position, error.line
