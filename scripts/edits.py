"""Mutants as they are stored: edits of the files of a crate, each of which makes a body wrong."""
import os
import re
from pathlib import Path
from typing import Dict, List, NamedTuple, Optional, Sequence, Tuple

TOP = Path(__file__).resolve().parents[1]
# The head of a function, as rt fmt lays it out.
HEAD = re.compile(
    r"^( *)(?:pub(?:\([a-z]+\))? )?(?:(?:const|unsafe|final|extern \"C\") )*fn (\w+)", re.M
)
# The texts of files that an edit changes, by their paths in the crate.
Texts = Dict[str, str]


class Place(NamedTuple):
    """A function: its file, its name, and the line on which it starts."""

    path: str
    name: str
    line: int


class Mutant(NamedTuple):
    """A mutant of a crate."""

    name: str
    # The files that it changes, with the change.
    texts: Texts
    # The function that has all its changes, but those of proofs, if there is one.
    place: Optional[Place]


def crates_with_mutants() -> List[str]:
    """Returns the names of the crates that have mutants, sorted."""
    return sorted(folder.parent.name for folder in TOP.glob("crates/*/mutants"))


def replaced(text: str, old: str, line: str) -> str:
    """Returns `text` with `old`, which it has once, replaced by the text of a `new:` line."""
    return text.replace(old, line.removeprefix("new:").removeprefix(" "))


def applied(crate: Path, edit: Path) -> Tuple[Texts, str]:
    """Returns the texts of the files that an edit changes, and why it can't be applied.

    The reason is empty if it can be. Each `old:` text has to be in its file once.
    """
    path, old, is_whole = "", "", False
    texts: Texts = {}
    for line in edit.read_text().splitlines():
        if line.startswith("file: "):
            path = line.removeprefix("file: ").strip()
            if not (crate / path).is_file():
                return texts, f"there is no file {path}"
            texts.setdefault(path, (crate / path).read_text())
        elif line.startswith("old: "):
            old, is_whole = line.removeprefix("old: "), False
        elif line.startswith("new:"):
            if not path or not old:
                return texts, "a 'new:' line is before any 'file:' or 'old:' line"
            count = texts[path].count(old)
            if count != 1:
                return texts, f"an 'old:' text is in {path} {count} times, and not once"
            texts[path] = replaced(texts[path], old, line)
            old, is_whole = "", True
    return texts, "" if is_whole else "it has no 'old:' and 'new:' pair"


def read_all(names: Sequence[str]) -> int:
    """Reads each mutant of these crates, and returns how many can't be applied."""
    unread, count = 0, 0
    for name in names:
        crate = TOP / "crates" / name
        for edit in sorted((crate / "mutants").iterdir()):
            is_named = edit.suffix == ".edit"
            why = applied(crate, edit)[1] if is_named else "its name does not end in .edit"
            count += 1
            if why:
                unread += 1
                print(f"mutants: {name}/{edit.name}: {why}")
    print(f"mutants: {count} of {len(names)} crates were read, {unread} can't be applied")
    return unread


def span(old: str, new: str) -> Tuple[int, int, str]:
    """Returns the start and the end of the part of `old` that was changed, and its replacement in
    `new`."""
    start = len(os.path.commonprefix([old, new]))
    same = len(os.path.commonprefix([old[start:][::-1], new[start:][::-1]]))
    return start, len(old) - same, new[start : len(new) - same]


def place_of(crate: Path, texts: Texts) -> Optional[Place]:
    """Returns the innermost function that has all changes but those of proofs, or None if there is
    none."""
    code = [(path, text) for path, text in texts.items() if not path.startswith("proofs/")]
    if len(code) != 1:
        return None
    ((path, new),) = code
    old, found = (crate / path).read_text(), None
    start, end, _ = span(old, new)
    for head in HEAD.finditer(old):
        closed = re.compile(rf"^{head[1]}}}$", re.M).search(old, head.end())
        if head.start() <= start and closed and end <= closed.start():
            found = Place(path, head[2], old.count("\n", 0, head.start()))
    return found


def mutant_of(crate: Path, edit: Path) -> Tuple[Mutant, str]:
    """Returns the mutant that an edit stores, and why it can't be applied, as `applied` does."""
    texts, why = applied(crate, edit)
    return Mutant(edit.stem, texts, None if why else place_of(crate, texts)), why


def all_changed(crate: Path, mutants: Sequence[Mutant]) -> Texts:
    """Returns the texts of a crate's files with the changes of mutants of different functions."""
    texts = {}
    for path in {path for mutant in mutants for path in mutant.texts}:
        text = (crate / path).read_text()
        spans = [span(text, mutant.texts[path]) for mutant in mutants if path in mutant.texts]
        for start, end, new in sorted(spans, reverse=True):
            text = text[:start] + new + text[end:]
        texts[path] = text
    return texts
