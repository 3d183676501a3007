"""Texts that both programs segment: the Japanese manual pages, and random lines."""
import gzip
import random
from pathlib import Path

from compare_with_mecab.dictionaries import decoded

# Debian: manpages-ja.
MANUAL_PAGES = Path("/usr/share/man/ja")
# MeCab's nodes count the bytes of a line in 16 bits.
LONGEST = 65_535
RANGES = [
    range(0x20, 0x7F),
    range(0x3041, 0x3097),
    range(0x30A1, 0x30FD),
    range(0x4E00, 0x4F00),
    range(0x1F600, 0x1F610),
]
CHARACTERS = [chr(code) for codes in RANGES for code in codes] + list("\t\u3000、。〇ー𠮷éαА")


def manual_pages() -> bytes:
    """Returns the Japanese manual pages, and b"" if they are not installed."""
    pages = sorted(MANUAL_PAGES.glob("man*/*.gz"))
    return b"".join(gzip.decompress(page.read_bytes()) for page in pages if page.is_file())


def common_lines(text: bytes) -> bytes:
    """Returns the lines that both programs read alike."""
    return b"\n".join(line for line in text.split(b"\n") if is_common(line))


def is_common(line: bytes) -> bool:
    """Returns whether a line is short enough, and UTF-8 without U+0000 and U+FFFF."""
    characters = decoded(line)
    if characters is None or len(line) > LONGEST:
        return False
    return "\0" not in characters and "\uffff" not in characters


def random_text(count: int, seed: int, surfaces: list[str]) -> bytes:
    """Returns `count` lines of surfaces and characters. They are the same for the same seed."""
    choose = random.Random(seed)
    return "".join(random_line(choose, surfaces) + "\n" for _ in range(count)).encode()


def random_line(choose: random.Random, surfaces: list[str]) -> str:
    """Returns characters, surfaces, surfaces between blanks, or surfaces and runs of characters."""
    kind = choose.randrange(4)
    if kind == 0:
        return "".join(choose.choices(CHARACTERS, k=choose.randrange(60)))
    if kind == 1:
        return "".join(choose.choices(surfaces, k=choose.randrange(15)))
    if kind == 2:
        return " ".join(choose.choices(surfaces, k=choose.randrange(8)))
    return "".join(
        choose.choice(surfaces) + choose.choice(CHARACTERS) * choose.randrange(30)
        for _ in range(choose.randrange(9))
    )
