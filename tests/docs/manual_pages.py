#!/usr/bin/env python3
"""Checks the manual pages, and what bash and zsh complete.

mandoc's lint has to accept each page without a message. The page of each program has to name
exactly the options that the program's `--help` names, with those of its subcommands. That of
pjseg is compared by `tests/pjseg/run.py`.

What bash and zsh complete is checked with the tables of tests/cli/completion: the options and
subcommands that `--help` lists, and no others, and the values of each argument. For
pjseg the options are those of the page. On a terminal, names of images are put into a
line so that the shell reads them as names. The status is 1 if one differs.

Needs: crates/dictc/out/dictc and crates/jseg/out/jseg, which `rt run` in their folders leaves,
mandoc and zsh (Debian: mandoc, zsh). Without the programs the status is 2. Without mandoc or zsh
that part is reported as left out, and the status is 77.
"""
import argparse
import re
import shutil
import subprocess
import sys
from pathlib import Path
from typing import Iterator, List, Set, Tuple

sys.dont_write_bytecode = True
TESTS = Path(__file__).resolve().parents[1]
sys.path[:0] = [str(TESTS), str(TESTS.parent / "importer")]
from cli.completion.checks import failures as completion_differences  # noqa: E402
from support.running import IMPORTER, LEFT_OUT, TOP, leave_out, program  # noqa: E402

PAGES = sorted((TOP / "man").glob("*.[15]"))
# The arguments with which each program prints a help.
HELPS = {
    "dictc": [["--help"], ["system", "--help"], ["user", "--help"], ["ids", "--help"]],
    "jseg": [["--help"]],
    IMPORTER.name: [["--help"]],
}
# Its options are those of its page, since it is not built here.
NOT_BUILT = "pjseg"


def lint_messages() -> Iterator[str]:
    """Yields what mandoc reports of the pages.

    mandoc searches for referenced pages among the installed ones. Those of this repository exist.
    """
    words = ["mandoc", "-T", "lint", "-W", "all", *map(str, PAGES)]
    done = subprocess.run(words, capture_output=True, text=True)
    own = {f"{page.stem} {page.suffix[1:]}" for page in PAGES}
    for line in (done.stdout + done.stderr).splitlines():
        missing = re.search(r"referenced manual not found: Xr (\S+ \d)", line)
        if not (missing and missing[1] in own):
            yield line


def path_of(name: str) -> Path:
    return IMPORTER if name == IMPORTER.name else program(name)


def help_of(name: str, arguments: List[str]) -> str:
    words = [str(path_of(name)), *arguments]
    return subprocess.run(words, capture_output=True, text=True, check=True).stdout


def options_in(text: str) -> Set[str]:
    """Returns the options that a help names: a short one, a long one, or both in a line."""
    lines = re.findall(r"^ +(-.*)$", text, re.M)
    return {name for line in lines for name in re.split(r" {2,}| \[?<", line)[0].split(", ")}


def subcommands_in(text: str) -> Set[str]:
    commands = re.search(r"^Commands:\n((?: .*\n)+)", text, re.M)
    return set(re.findall(r"^ {2}(\w+)", commands[1], re.M)) if commands else set()


def options_of_help(name: str) -> Set[str]:
    texts = [help_of(name, arguments) for arguments in HELPS[name]]
    return {option for text in texts for option in options_in(text)}


def options_of_page(name: str) -> Set[str]:
    """Returns the options that the list of options of a page names."""
    found = set()
    for line in (TOP / "man" / f"{name}.1").read_text().splitlines():
        if line.startswith(".It Fl "):
            names = re.sub(r" (?:Op )?Ar .*", "", line.removeprefix(".It Fl ")).split(" , ")
            found |= {"-" + name for name in names}
    return found


def completions() -> List[Tuple[str, Set[str]]]:
    """Returns command lines, each with the words that have to complete it."""
    found = [(f"{NOT_BUILT} -", options_of_page(NOT_BUILT))]
    for name, helps in HELPS.items():
        for *subcommand, _ in helps:
            words, text = " ".join([name, *subcommand]), help_of(name, [*subcommand, "--help"])
            found.append((f"{words} -", options_in(text)))
            if subcommands_in(text):
                found.append((f"{words} ", subcommands_in(text)))
    return found


def option_differences() -> Iterator[str]:
    """Yields the options that a page has and the help hasn't, or the other way round."""
    for name in HELPS:
        helped, in_page = options_of_help(name), options_of_page(name)
        yield from (f"{name}.1 has no {option}" for option in sorted(helped - in_page))
        yield from (f"{name} --help has no {option}" for option in sorted(in_page - helped))


def main() -> int:
    arguments = argparse.ArgumentParser(
        description=__doc__, formatter_class=argparse.RawDescriptionHelpFormatter
    )
    arguments.parse_args()
    missing = [name for name in HELPS if not path_of(name).exists()]
    if missing:
        print(f"manual: {' and '.join(missing)} not built: nothing was compared", file=sys.stderr)
        return 2
    differences = list(option_differences())
    not_completed, summary = completion_differences(completions())
    print(summary)
    differences += not_completed
    lacking = [name for name in ("mandoc", "zsh") if not shutil.which(name)]
    if "mandoc" not in lacking:
        differences += lint_messages()
    linted = "not linted" if "mandoc" in lacking else "linted"
    print(
        f"{len(PAGES)} pages {linted}, the options of {len(HELPS)} programs compared, "
        f"{len(differences)} differences"
    )
    for name in lacking:
        leave_out(f"{name} is missing")
    for difference in differences:
        print(difference, file=sys.stderr)
    return 1 if differences else LEFT_OUT if lacking else 0


sys.exit(main())
