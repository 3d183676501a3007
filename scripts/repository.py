"""The files of the repository, by what they are written in."""
import subprocess
from pathlib import Path
from typing import Dict, List, Sequence

TOP = Path(__file__).resolve().parents[1]
PYTHON, SHELL, C, DOCUMENT, MANUAL, RATTLE, OTHER = (
    "Python", "shell", "C", "document", "manual page", "Rattle", "other",
)  # fmt: skip
BY_SUFFIX = {
    ".py": PYTHON, ".pyi": PYTHON, ".sh": SHELL, ".bash": SHELL,
    ".c": C, ".h": C, ".cc": C, ".cpp": C, ".hpp": C,
    ".md": DOCUMENT, ".1": MANUAL, ".5": MANUAL, ".8": MANUAL, ".rt": RATTLE, ".antt": RATTLE,
}  # fmt: skip
BY_INTERPRETER = {"python3": PYTHON, "python": PYTHON, "bash": SHELL, "sh": SHELL}


def files(paths: Sequence[Path] = ()) -> List[Path]:
    """Returns the files that git tracks or would add, all of them or those at and below `paths`.

    Links are left out. The paths start at the top of the repository, which is the working folder.
    """
    command = ["git", "ls-files", "-z", "--cached", "--others", "--exclude-standard", "--"]
    listed = subprocess.run(
        [*command, *map(str, paths)], cwd=TOP, check=True, stdout=subprocess.PIPE
    )
    names = dict.fromkeys(listed.stdout.decode().split("\0"))
    found = [Path(name) for name in names if name]
    return [path for path in found if (TOP / path).is_file() and not (TOP / path).is_symlink()]


def kind(path: Path) -> str:
    """Returns what a file is written in, by its suffix or the interpreter of its first line."""
    if path.suffix in BY_SUFFIX:
        return BY_SUFFIX[path.suffix]
    with open(TOP / path, "rb") as file:
        first = file.readline(100)
    if not first.startswith(b"#!"):
        return OTHER
    return BY_INTERPRETER.get(first.decode(errors="replace").replace("/", " ").split()[-1], OTHER)


def by_kind(paths: Sequence[Path]) -> Dict[str, List[Path]]:
    """Returns the files of each kind; a kind of which there is no file has an empty list."""
    kinds: Dict[str, List[Path]] = {
        name: [] for name in (PYTHON, SHELL, C, DOCUMENT, MANUAL, RATTLE, OTHER)
    }
    for path in paths:
        kinds[kind(path)].append(path)
    return kinds
