"""What the tests of packages share: the sample's line, and how a difference ends them."""
import sys
from typing import NoReturn

from root import Root

LINE = "すもももも\n"
PRINTED = "すもも\t名詞,すもも\nもも\t名詞,もも\nEOS\n"
WAKATI = "すもも もも \n"
# Where images are installed, and the sample's image, as paths in the root folder.
IMAGES = "/var/lib/kumquatsieve"
IMAGE = f"{IMAGES}/sample.img"


def fail(why: str) -> NoReturn:
    sys.exit(f"package: {why}")


def expect(what: str, expected: object, got: object) -> None:
    """Ends this script if `got` is not `expected`."""
    if expected != got:
        fail(f"{what}: {got!r}, and not {expected!r}")


def printed(root: Root, *words: str) -> str:
    """Returns what a command prints in a root folder, without the last line feed."""
    return root.run(*words).strip()
