"""Checks of documents: the length of lines, and that each path and heading they name exists."""
import re
from functools import lru_cache
from pathlib import Path
from typing import FrozenSet, Iterator, Sequence, Tuple

from repository import DOCUMENT, TOP, files, kind

COLUMNS = 100
LINK = re.compile(r"\]\(([^)\s]+)\)")
# A word that is written like a path. The character before it shows that it is no part of a longer
# one.
WORD = re.compile(r"(?<![\w./$~<{-])(\.?\w[\w.-]*/[\w./*-]*[\w*/])")
# A word with one of these suffixes is a path of a file, in whichever folder.
SOURCE = (".py", ".rt", ".antt", ".md", ".c", ".h", ".edit", ".in")
# A folder that was moved, so that a path in it is an old one.
MOVED = "tools"
# A part of a path that is a placeholder for any name.
PLACEHOLDER = re.compile(r"^[A-Z_]+(?=$|\.(?!md))")


def prose(path: Path) -> Iterator[Tuple[int, str]]:
    """Yields the lines of a document that can be wrapped, with their numbers.

    Tables, code and lines with a link can't: code shows commands and output as they are.
    """
    in_code = False
    for number, line in enumerate((TOP / path).read_text().splitlines(), 1):
        is_fence = line.lstrip().startswith("```")
        in_code ^= is_fence
        has_link = "](" in line or "://" in line
        if not (in_code or is_fence or has_link or line.startswith(("|", "    "))):
            yield number, line


def long_lines(paths: Sequence[Path]) -> Iterator[str]:
    """Yields each line of more than 100 characters; of documents, of their prose."""
    for path in paths:
        lines = enumerate((TOP / path).read_text().splitlines(), 1)
        for number, line in prose(path) if kind(path) == DOCUMENT else lines:
            if len(line) > COLUMNS:
                yield f"{path}:{number}: {len(line)} characters, and not at most {COLUMNS}"


@lru_cache(maxsize=None)
def tracked() -> FrozenSet[str]:
    """Returns the paths of all files of the repository and of the folders that have them."""
    paths = files()
    return frozenset(str(it) for path in paths for it in (path, *path.parents))


@lru_cache(maxsize=None)
def anchors(path: Path) -> FrozenSet[str]:
    """Returns the anchors of a document's headings, as they are made on the web."""
    headings = re.findall(r"^#+ (.*)$", path.read_text(), re.M)
    bare = (re.sub(r"[^\w\- ]", "", heading.lower()) for heading in headings)
    return frozenset(heading.strip().replace(" ", "-") for heading in bare)


def leads(link: str, document: Path) -> bool:
    """Returns whether a document's link leads to a file, and to its heading if it names one."""
    name, _, anchor = link.partition("#")
    path = (document.parent / name) if name else document
    return path.exists() and (not anchor or anchor in anchors(path))


def is_path(word: str) -> bool:
    """Returns whether a word is meant as a path of a file or folder of this repository."""
    first = word.partition("/")[0]
    is_known = first in tracked() or first == MOVED
    return (is_known or word.endswith(SOURCE)) and "out" not in word.split("/")


def exists(word: str) -> bool:
    """Returns whether a path leads to a file, from the top or from within some folder.

    A `*` and a part in capitals, as in crates/NAME/src, stand for any name. A module may lack its
    suffix, and a file of a crate the folder src.
    """
    parts = [PLACEHOLDER.sub("*", part) for part in word.rstrip("/").split("/")]
    first, *others = [re.escape(part).replace(r"\*", "[^/]*") for part in parts]
    below = f"(?:/src)?/{'/'.join(others)}" if others else ""
    ending = re.compile(rf"(?:.*/)?{first}{below}(?:\.antt|\.rt|\.py)?")
    return any(map(ending.fullmatch, tracked()))


def broken_paths(paths: Sequence[Path]) -> Iterator[str]:
    """Yields each link and each path in documents that leads nowhere."""
    for path in paths:
        for number, line in enumerate((TOP / path).read_text().splitlines(), 1):
            for link in LINK.findall(line):
                if not link.startswith(("http:", "https:")) and not leads(link, TOP / path):
                    yield f"{path}:{number}: the link {link} leads nowhere"
            for word in WORD.findall(LINK.sub("", line)):
                if is_path(word) and not exists(word):
                    yield f"{path}:{number}: there is no {word}"
