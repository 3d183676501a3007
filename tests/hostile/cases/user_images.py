"""Images of user dictionaries, written byte by byte as docs/FORMAT.md says.

The cells of the double array are placed here, and not by the proved code.
"""
import hashlib
import random
import struct
import sys
from array import array
from typing import Iterable, NamedTuple, Sequence

# The numbers of right and left ids of the system dictionary.
SIZES = (2, 2)
STEM_BYTES = 60_000
CELL_BYTES, TOKEN_BYTES = 8, 16
LETTERS = "0123456789ABCDEFGHIJKLMNOPQRSTUVWXYZabcdefghijklmnopqrstuvwxyz"
# The offset of the length of section 1 in the header.
FIRST_LENGTH = 40
# After so many bases in vain, the next search starts after them.
MANY_TRIES = 16
# A state's steps: from the code of a byte to a state, and from code 0 to the number of the key.
Trie = list[dict[int, int]]


class Image(NamedTuple):
    """An image of a user dictionary, with the number of its surfaces and one of them."""

    name: str
    data: bytes
    surfaces: int
    word: str


class Cells:
    """A double array of the keys of a trie."""

    def __init__(self, children: Trie) -> None:
        room = 2 * sum(map(len, children)) + 1000
        self.first_free = 257
        self.taken = bytearray(room)
        self.base = array("i", bytes(4 * room))
        self.check = array("i", [-1]) * room
        self.taken[0] = 1
        self.check[0] = -2
        self._place_all(children)

    def _place_all(self, children: Trie) -> None:
        """Gives each state a base at which the cells of its children are free."""
        cell_of = [0] * len(children)
        for state, steps in enumerate(children):
            codes = sorted(steps)
            base = self._free_base(codes)
            self.base[cell_of[state]] = base
            for code in codes:
                self.taken[base + code] = 1
                self.check[base + code] = cell_of[state]
                if code == 0:
                    self.base[base] = -(steps[code] + 1)
                else:
                    cell_of[steps[code]] = base + code

    def _free_base(self, codes: Sequence[int]) -> int:
        """Returns the first base, from `first_free` on, at which all codes are free."""
        tried = 0
        free = self.first_free = self.taken.index(0, self.first_free)
        while any(self.taken[free - codes[0] + code] for code in codes):
            free = self.taken.index(0, free + 1)
            tried += 1
        if tried > MANY_TRIES:
            self.first_free = free
        return free - codes[0]

    def section(self) -> bytes:
        """Returns the bytes of the cells, up to the last one that is used."""
        count = self.taken.rindex(1) + 1
        numbers = array("i", bytes(2 * 4 * count))
        numbers[0::2] = self.base[:count]
        numbers[1::2] = self.check[:count]
        if sys.byteorder == "big":
            numbers.byteswap()
        return numbers.tobytes()


def trie_of(stem: bytes, tails: Iterable[bytes]) -> Trie:
    """Returns the trie of the keys that are the stem with a tail. A state precedes its children."""
    children: Trie = [{byte + 1: state} for state, byte in enumerate(stem, 1)] + [{}]
    for number, tail in enumerate(tails):
        state = len(stem)
        for byte in tail:
            steps = children[state]
            if byte + 1 not in steps:
                steps[byte + 1] = len(children)
                children.append({})
            state = steps[byte + 1]
        children[state][0] = number
    return children


def image_of(
    cells: bytes,
    first_tokens: Sequence[int],
    tokens: Sequence[tuple[int, int]],
    features: bytes,
) -> bytes:
    """Returns the bytes of an image of these sections, with its SHA-256.

    A token is the start and the length of its feature, in bytes.
    """
    index = struct.pack(f"<{len(first_tokens)}I", *first_tokens)
    records = b"".join(struct.pack("<HHhHII", 1, 1, 1, 0, *token) for token in tokens)
    sections = [b"", b"", b"", b"", cells, index, records, features]
    numbers = (3, 1, *SIZES, 0, len(first_tokens) - 1, len(tokens), 0)
    header = b"MJDICT\r\n" + struct.pack("<8I8Q", *numbers, *map(len, sections))
    data = header + b"".join(sections)
    return data + hashlib.sha256(data).digest()


def with_longer_section(image: bytes, length: int) -> bytes:
    """Returns an image whose header gives section 1 `length` more bytes."""
    (old,) = struct.unpack_from("<Q", image, FIRST_LENGTH)
    return image[:FIRST_LENGTH] + struct.pack("<Q", old + length) + image[FIRST_LENGTH + 8 :]


def with_keys(name: str, stem: str, tails: Iterable[str]) -> Image:
    """Returns the image of the keys that are the stem with a tail.

    Each has one token and a feature of 13 bytes.
    """
    tails = sorted(tails)
    features = "名詞,一般".encode() * 1000
    tokens = [(13 * (i % 1000), 13) for i in range(len(tails))]
    trie = trie_of(stem.encode(), [tail.encode() for tail in tails])
    data = image_of(Cells(trie).section(), range(len(tails) + 1), tokens, features)
    return Image(name, data, len(tails), stem + tails[-1])


def honest(size: int) -> Image:
    """Returns an image of keys of two to four characters."""
    choose = random.Random(1)
    letters = [chr(code) for code in [*range(0x3041, 0x3097), *range(0x4E00, 0x5200)]]
    keys = {"".join(choose.choices(letters, k=choose.randint(2, 4))) for _ in range(size // 61)}
    return with_keys("honest", "", keys)


def stem(size: int) -> Image:
    """Returns an image of keys that are one stem with three or four letters after it.

    The first character of the stem occurs in it once.
    """
    text = "語" + "あ" * (STEM_BYTES // 3 - 1)
    count = (size - STEM_BYTES * CELL_BYTES) // 36
    return with_keys("stem", text, [in_letters(len(LETTERS) ** 3 + i) for i in range(count)])


def in_letters(number: int) -> str:
    """Returns a number in base 62."""
    digits = []
    while number:
        number, digit = divmod(number, len(LETTERS))
        digits.append(LETTERS[digit])
    return "".join(reversed(digits))


def overlapping(size: int) -> Image:
    """Returns an image of one key whose features overlap.

    Half of the bytes are tokens and half are features. Among each million tokens, no two have the
    same feature.
    """
    features = "詞".encode() * (size // 6)
    tokens = [
        (3 * (i % 1000), len(features) - 3 * (i % 1000) - 3 * (i // 1000 % 1000))
        for i in range(size // 2 // TOKEN_BYTES)
    ]
    cells = Cells(trie_of(b"", ["語".encode()])).section()
    return Image("overlapping", image_of(cells, [0, len(tokens)], tokens, features), 1, "語")
