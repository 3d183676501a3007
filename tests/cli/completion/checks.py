"""Compares what bash and zsh complete with the cases."""
import shutil
import tempfile
from pathlib import Path
from typing import Callable, Dict, Iterator, List, Sequence, Set, Tuple

from .cases import CASES, COMMAND, IMAGES, LINES
from .shells import FILE, FOLDER, complete_by_bash, complete_by_zsh, has_terminals, line_after_tab

Complete = Callable[[Sequence[str], Path], Set[str]]
PROGRAMS = ("jseg", "dictc", "pjseg", "kumquatsieve-import")


def shells() -> Dict[str, Complete]:
    """Returns the shells that can be tested here. zsh needs a terminal."""
    found: Dict[str, Complete] = {"bash": complete_by_bash}
    if shutil.which("zsh") and has_terminals():
        found["zsh"] = complete_by_zsh
    return found


def failures(help_cases: Sequence[Tuple[str, Set[str]]]) -> Tuple[List[str], str]:
    """Returns what is completed otherwise than the cases say, and a summary.

    `help_cases` has a command line and what the help of that program lists, for each program. The
    cases of this folder follow.
    """
    tested, cases = shells(), [*help_cases, *CASES]
    lines = LINES if has_terminals() else []
    with tempfile.TemporaryDirectory() as name:
        prefix = Path(name)
        folder = make_folder(prefix)
        found = [
            failure
            for line, expected in cases
            for shell, complete in tested.items()
            for failure in case_failures(shell, complete, line, set(expected), prefix)
        ]
        found += line_failures(tested, lines, folder, f"{prefix}/bin/jseg -d ")
        if (folder / "ran").exists():
            found.append(f"the name {COMMAND!r} was run")
    left_out = "" if "zsh" in tested else ", and not by zsh, because it or a terminal is missing"
    count = len(cases) + len(lines)
    return found, f"{count} command lines completed by {' and by '.join(tested)}{left_out}"


def case_failures(
    shell: str, complete: Complete, line: str, expected: Set[str], prefix: Path
) -> Iterator[str]:
    """Yields each word after `line` that is completed and shouldn't be, or the other way round."""
    words = line.replace("PREFIX", str(prefix)).split(" ")
    if shell == "bash":
        expected -= {COMMAND}
    found = {word.replace(str(prefix), "PREFIX") for word in complete(words, prefix / "here")}
    for word in sorted(found ^ expected):
        what = "not completed" if word in expected else "completed"
        yield f"{shell}, after {line!r}: {word!r} is {what}"


def line_failures(
    tested: Dict[str, Complete], lines: Sequence[Tuple[str, str, str]], folder: Path, command: str
) -> Iterator[str]:
    """Yields what TAB makes of a command line otherwise than the table says."""
    for typed, *words in lines:
        for shell, word in zip(("bash", "zsh"), words):
            if shell not in tested:
                continue
            found = line_after_tab(shell, command + typed, folder)
            if found != command + word:
                yield f"{shell}, TAB after {typed!r}: {found!r}, expected {command + word!r}"


def make_folder(prefix: Path) -> Path:
    """Makes a directory with a file and a directory, and what is installed beside it."""
    images = (f"{folder}/{name}.img" for name, folder in IMAGES.items())
    programs = (f"bin/{program}" for program in PROGRAMS)
    for path in (*programs, *images, f"here/{FILE}"):
        (prefix / path).parent.mkdir(parents=True, exist_ok=True)
        (prefix / path).touch(0o755)
    (prefix / "here" / FOLDER).mkdir()
    return prefix / "here"
