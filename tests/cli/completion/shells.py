"""Asks bash and zsh what they complete with the files of completions/.

The shells run in a directory that has one file and one directory.
"""
import os
import pty
import subprocess
import sys
from pathlib import Path
from typing import Dict, Sequence, Set

from support.running import TOP

HERE = Path(__file__).resolve().parent
COMPLETIONS = TOP / "completions"
FILE, FOLDER = "a-file", "a-folder"
# Calls the function that completes a command line. It calls `compopt`, which only readline has; its
# options are printed after the completions.
COMPLETE_BY_BASH = r"""
. "$1"
shift
options=()
compopt() { options+=("$2"); }
COMP_WORDS=("$@")
COMP_CWORD=$(($# - 1))
function=$(complete -p "${1##*/}") && function=${function##*-F } && ${function%% *}
printf '%s\n' "${COMPREPLY[@]}" "compopt ${options[*]}"
"""
# What readline adds by these options: to nothing that was found, and to all.
IF_NOTHING_FOUND = {"default": {FILE, FOLDER}, "dirnames": {FOLDER}}
ALWAYS = {"plusdirs": {FOLDER}}
# The shells, without the user's own startup files.
INTERACTIVE = {"bash": ["bash", "--norc", "--noprofile", "-i"], "zsh": ["zsh", "-f", "-i"]}


def environment() -> Dict[str, str]:
    """Returns the environment without the directory of the user's images."""
    return {name: value for name, value in os.environ.items() if name != "XDG_DATA_HOME"}


def complete_by_bash(words: Sequence[str], folder: Path) -> Set[str]:
    """Returns what bash completes the last of `words` to."""
    script = COMPLETIONS / "kumquatsieve.bash"
    done = subprocess.run(
        ["bash", "--norc", "-c", COMPLETE_BY_BASH, "bash", script, *words],
        capture_output=True,
        text=True,
        cwd=folder,
        env={**environment(), "HOME": str(folder.parent)},
    )
    if done.returncode != 0 or done.stderr:
        sys.exit(f"bash can't complete {' '.join(words)}: {done.stderr}")
    *found, options = filter(None, done.stdout.split("\n"))
    added = ALWAYS if found else {**ALWAYS, **IF_NOTHING_FOUND}
    nothing: Set[str] = set()
    return set(found).union(*(added.get(option, nothing) for option in options.split()[1:]))


def has_terminals() -> bool:
    """Returns whether the machine has a terminal for a program that needs one."""
    try:
        for end in pty.openpty():
            os.close(end)
    except OSError:
        return False
    return True


def complete_by_zsh(words: Sequence[str], folder: Path) -> Set[str]:
    """Returns what zsh completes the last of `words` to."""
    return set(filter(None, result_of_keys("zsh", " ".join(words) + "\x18", folder).split("\n")))


def line_after_tab(shell: str, line: str, folder: Path) -> str:
    """Returns the command line of a shell after `line` and TAB were typed."""
    return result_of_keys(shell, f"{line}\t\x01", folder)


def result_of_keys(shell: str, keys: str, folder: Path) -> str:
    """Types keys into a shell on a terminal, and returns what it writes to the file $RESULT."""
    result = folder.parent / "result"
    process, terminal = pty.fork()
    if process == 0:
        os.chdir(folder)
        variables = {
            "RESULT": str(result),
            "COMPLETIONS": str(COMPLETIONS),
            "HOME": str(folder.parent),
            "INPUTRC": "/dev/null",
            "TERM": "dumb",
        }
        os.execvpe(shell, INTERACTIVE[shell], {**environment(), **variables})
    os.write(terminal, f". {HERE}/interactive.{shell}\n{keys}".encode())
    printed = read_terminal(terminal)
    os.waitpid(process, 0)
    os.close(terminal)
    if not result.exists():
        sys.exit(f"{shell} can't complete {keys!r}: {printed.decode(errors='replace')}")
    written = result.read_text()
    result.unlink()
    return written


def read_terminal(terminal: int) -> bytes:
    """Returns what is printed on a terminal until its program ends."""
    printed = b""
    try:
        while more := os.read(terminal, 4096):
            printed += more
    except OSError:
        pass
    return printed
