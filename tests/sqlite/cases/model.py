"""What the index and its queries have to be, from MeCab's words.

Nothing here comes from the extension: words are those of MeCab, options are applied as
docs/SEARCH.md says, and phrases are compared token by token.
"""
import bisect
import csv
import unicodedata
from typing import Iterator, NamedTuple, Optional, Sequence

from sqlite.cases.tokenizer import Token
from support.running import run

# MeCab's items for the start and the end of a word in bytes, and its feature.
NODE = "%ps\t%pe\t%H\n"
# Characters that NFKC_Casefold removes (Default_Ignorable_Code_Point), of those that texts have.
IGNORED = {*"\u00ad\u034f\u061c\u115f\u1160\u17b4\u17b5\u3164\ufeff\uffa0"}
IGNORED |= {
    chr(code)
    for first, last in ((0x180B, 0x180F), (0x200B, 0x200F), (0x202A, 0x202E))
    for code in range(first, last + 1)
}
IGNORED |= {
    chr(code)
    for first, last in ((0x2060, 0x206F), (0xFE00, 0xFE0F), (0xE0000, 0xE0FFF))
    for code in range(first, last + 1)
}


class Word(NamedTuple):
    """A word of MeCab's. Offsets are in bytes."""

    start: int
    end: int
    feature: str


class Options(NamedTuple):
    """The options of the tokenizer that change tokens, and the field with the base form."""

    stops: tuple[str, ...] = ()
    base: str = "off"
    folds: bool = False
    base_field: int = 6

    def arguments(self) -> list[str]:
        """Returns the arguments of the tokenizer."""
        stops = ["stop", ",".join(stop.replace(",", "-") for stop in self.stops)]
        fold = ["fold", "on"] if self.folds else []
        return [*(stops if self.stops else []), "base", self.base, *fold]

    def sql(self) -> str:
        """Returns the arguments as `tokenize` takes them."""
        return " ".join(f"'{word}'" for word in self.arguments())


def mecab_words(command: Sequence[str], lines: Sequence[bytes]) -> list[list[Word]]:
    """Returns MeCab's words of each line."""
    text = b"".join(line + b"\n" for line in lines)
    printed = run([*command, "-F", NODE, "-U", NODE, "-E", "EOS\n"], text).decode()
    found: list[list[Word]] = [[]]
    for row in printed.split("\n")[:-1]:
        if row == "EOS":
            found.append([])
        else:
            start, end, feature = row.split("\t", 2)
            found[-1].append(Word(int(start), int(end), feature))
    assert len(found) == len(lines) + 1, (len(found), len(lines))
    return found[:-1]


def folded(text: bytes) -> bytes:
    """Returns NFKC_Casefold of a text, by Python's tables. Leaves a text that is not UTF-8."""
    try:
        characters = text.decode()
    except UnicodeDecodeError:
        return text
    before = ""
    while characters != before:
        before = characters
        kept = "".join(character for character in characters if character not in IGNORED)
        characters = unicodedata.normalize("NFKC", kept.casefold())
    return characters.encode() or text


def base_form(feature: str, number: int) -> Optional[bytes]:
    """Returns the base form in a feature, or None."""
    fields = next(csv.reader([feature]))
    text = fields[number] if len(fields) > number else "*"
    return None if text in ("*", "") else text.encode()


def tokens_of(line: bytes, words: Sequence[Word], options: Options) -> Iterator[Token]:
    """Yields the tokens of a line as a document."""
    for word in words:
        if word.feature.startswith(options.stops or ("\0",)):
            continue
        surface, base = line[word.start : word.end], None
        if options.base != "off":
            base = base_form(word.feature, options.base_field)
        if options.folds:
            surface, base = folded(surface), base and folded(base)
        if options.base == "only":
            yield Token(base or surface, word.start, word.end)
            continue
        yield Token(surface, word.start, word.end)
        if base and base != surface:
            yield Token(base, word.start, word.end, True)


class Document:
    """A text with its tokens by position: the terms of each position, and its bytes."""

    def __init__(self, text: bytes, tokens: Sequence[Token]) -> None:
        self.text = text
        self.terms: list[list[bytes]] = []
        self.spans: list[tuple[int, int]] = []
        for token in tokens:
            if token.is_colocated:
                self.terms[-1].append(token.text)
            else:
                self.terms.append([token.text])
                self.spans.append((token.start, token.end))

    def has(self, at: int, term: bytes, is_prefix: bool) -> bool:
        """Returns whether there is such a term at a position."""
        terms = self.terms[at] if at < len(self.terms) else []
        return any(other.startswith(term) for other in terms) if is_prefix else term in terms

    def highlighted(self, starts: Sequence[int], size: int) -> bytes:
        """Returns the text with `[` and `]` around matches of `size` tokens.

        Matches that share a token are joined.
        """
        ranges: list[list[int]] = []
        for start in starts:
            if ranges and start <= ranges[-1][1]:
                ranges[-1][1] = start + size - 1
            else:
                ranges.append([start, start + size - 1])
        found, at = b"", 0
        for first, last in ranges:
            start, end = self.spans[first][0], self.spans[last][1]
            found += self.text[at:start] + b"[" + self.text[start:end] + b"]"
            at = end
        return found + self.text[at:]


class Index:
    """The documents in which terms appear, by position."""

    def __init__(self, documents: Sequence[Document]) -> None:
        self.documents = documents
        self.places: dict[bytes, list[tuple[int, int]]] = {}
        for row, document in enumerate(documents):
            for at, terms in enumerate(document.terms):
                for term in terms:
                    self.places.setdefault(term, []).append((row, at))
        self.terms = sorted(self.places)

    def starting_with(self, prefix: bytes) -> Iterator[bytes]:
        """Yields the terms that start with a prefix."""
        for number in range(bisect.bisect_left(self.terms, prefix), len(self.terms)):
            if not self.terms[number].startswith(prefix):
                return
            yield self.terms[number]

    def matches(self, phrase: Sequence[bytes], is_prefix: bool) -> dict[int, list[int]]:
        """Returns the positions at which a phrase matches, by document."""
        found: dict[int, set[int]] = {}
        last = len(phrase) - 1
        first = self.starting_with(phrase[0]) if is_prefix and last == 0 else phrase[:1]
        for row, at in (place for term in first for place in self.places.get(term, [])):
            rest = range(1, len(phrase))
            document = self.documents[row]
            if all(document.has(at + i, phrase[i], is_prefix and i == last) for i in rest):
                found.setdefault(row, set()).add(at)
        return {row: sorted(found[row]) for row in sorted(found)}
