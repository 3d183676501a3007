"""Features that have one hash in the kit's `FoldHasher`."""
import argparse
import random
import string
import sys
from pathlib import Path

from hostile.cases.dictionaries import Sources
from hostile.cases.measuring import Case, Run

# The hasher's first state, and its multiplier.
START = 0x243F_6A88_85A3_08D3
MULTIPLIER = 0x9E37_79B9_7F4A_7C15
WORD = 2**64 - 1
LETTERS = (string.ascii_letters + string.digits).encode()
# The bytes of a feature.
LENGTH = 48


def folded(a: int, b: int) -> int:
    """Returns the exclusive or of the two halves of a product."""
    product = a * b
    return product & WORD ^ product >> 64


def halves(text: bytes) -> tuple[int, int]:
    """Returns the two numbers of 16 bytes."""
    return int.from_bytes(text[:8], "little"), int.from_bytes(text[8:16], "little")


def collider(choose: random.Random) -> bytes:
    """Returns 24 letters and digits after which the hash does not depend on the next 8 bytes.

    The last 8 of them take the state to 0, so that the product is 0 whatever follows.
    """
    while True:
        prefix = bytes(choose.choices(LETTERS, k=16))
        first, second = halves(prefix)
        state = folded(first ^ (START + LENGTH), second ^ MULTIPLIER).to_bytes(8, "little")
        if all(byte in LETTERS for byte in state):
            return prefix + state


def hash_of(text: bytes) -> int:
    """Returns the hash of a text whose length is a multiple of 16 bytes."""
    state = START + len(text)
    for start in range(0, len(text), 16):
        first, second = halves(text[start : start + 16])
        state = folded(first ^ state, second ^ MULTIPLIER)
    return state


def eight_letters(number: int) -> bytes:
    """Returns a number in base 16, in letters, with the last digit first."""
    return "".join(string.ascii_lowercase[number >> 4 * i & 15] for i in range(8)).encode()


def features(prefix: bytes, count: int) -> list[bytes]:
    """Returns `count` features of 48 bytes with this prefix."""
    return [prefix + eight_letters(i) + b"x" * 16 for i in range(count)]


def lexicon(texts: list[bytes]) -> bytes:
    """Returns a lexicon with an entry for each feature."""
    lines = enumerate(texts)
    return b"".join(b"%s,1,1,1,%s\n" % (eight_letters(i), text) for i, text in lines)


def colliding_features(options: argparse.Namespace, folder: Path) -> Case:
    """Lexicons of features that collide, and of as many others."""
    choose, count = random.Random(1), options.lines
    hostile = features(collider(choose), count)
    honest = features(bytes(choose.choices(LETTERS, k=24)), count)
    if len(set(map(hash_of, hostile))) != 1 or len(set(map(hash_of, honest))) != count:
        sys.exit("the features do not collide as they should")
    system = Sources("z,1,1,1,x\n").compiled(options.dictc, folder / "system")

    def run(name: str, texts: list[bytes]) -> Run:
        source = folder / f"{name}.csv"
        source.write_bytes(lexicon(texts))
        image = folder / f"{name}.img"
        command = [options.dictc, "user", "--dic", system, "--out", image, source]
        return Run(command, printed=b"%d entries, 0 skipped\n" % count)

    honest_run, hostile_run = run("free", honest), run("colliding", hostile)
    return Case("colliding features", f"{count} lines", honest_run, hostile_run)
