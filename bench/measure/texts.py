"""The texts that are segmented."""
import sys
from pathlib import Path

from compare_with_mecab.texts import common_lines, manual_pages


def japanese(size: int) -> bytes:
    """Returns the first `size` bytes, in whole lines, of the Japanese manual pages.

    If the pages are shorter they are repeated.
    """
    pages = common_lines(manual_pages())
    if not pages:
        sys.exit("no Japanese manual pages (Debian: manpages-ja)")
    return whole_lines(pages * (size // len(pages) + 1), size)


def whole_lines(text: bytes, size: int) -> bytes:
    """Returns the lines that lie within the first `size` bytes of a text."""
    return text[: text.rfind(b"\n", 0, size) + 1]


def written(folder: Path, name: str, text: bytes) -> Path:
    """Writes a file and returns its path."""
    path = folder / name
    path.write_bytes(text)
    return path
