#!/usr/bin/env python3
"""Tests the rules of scripts/lint, scripts/wrap, scripts/mutants and tests/run, and the options of
the scripts.

    tests/scripts/run.py
"""
import argparse
import importlib.machinery
import importlib.util
import os
import subprocess
import sys
import tempfile
from pathlib import Path
from types import ModuleType, SimpleNamespace
from typing import Iterator, List, Sequence, Tuple

TOP = Path(__file__).resolve().parents[2]
sys.dont_write_bytecode = True
sys.path[:0] = [str(TOP / "scripts"), str(TOP / "tests")]
from documents import exists, is_path, leads  # noqa: E402 (after the paths that lead to them)
from edits import Mutant, Texts, mutant_of  # noqa: E402
from reports import without  # noqa: E402
from scripts.recorded_checks import RECORDED  # noqa: E402
from subjects import complaint  # noqa: E402
from support.reported_cases import reported_cases  # noqa: E402
from verdicts import Crate  # noqa: E402

# A subject of a commit, and whether it is good.
SUBJECTS = (
    ("scripts/lint: Check paths in documents", True),
    ("Describe each folder", True),
    ("README: Bring back a row", True),
    ("cells: Pass the length", True),
    ("cells: Passed the length", False),
    ("cells: passes the length", False),
    ("cells: Checks the length", False),
    ("cells: Checking the length", False),
    ("cells: grow", False),
    ("Merge branch 'main' of /work/main", False),
    ("cells: " + "A" * 65, True),
    ("cells: " + "A" * 66, False),
    ("", False),
)
# Answers of which the second one is removed: what is imported for them, and what is left of that.
PLACES = (
    ("f.Goals as goal", "f.Goals as goal"),
    ("f.Goals.{then-a, else-a}", "f.Goals.{then-a}"),
    ("f.Goals.{else-a, else-a-via-b+c}", ""),
    ("Lemmas.{more, fewer}", "Lemmas.{more, fewer}"),
)
# A word of a document, whether it is a path of this repository, and if so whether that exists.
PATHS = (
    ("tests/run", True, True),
    ("tests/nothing", True, False),
    ("tests/*/run.py", True, True),
    ("tests/*/nothing.py", True, False),
    ("tests/", True, True),
    ("tools/prove", True, False),
    ("crates/NAME/src", True, True),
    ("crates/NAME/nothing", True, False),
    ("crates/cells/src/lib", True, True),
    ("cells/lib.rt", True, True),
    ("cells/nothing.rt", True, False),
    ("crates/cells/out/rlib", False, False),
    ("and/or", False, False),
    ("text/plain", False, False),
)
# A link in a document of docs, and whether it leads to a file and a heading.
LINKS = (
    ("CLI.md", True),
    ("NOTHING.md", False),
    ("../README.md", True),
    ("ARCHITECTURE.md#the-tree", True),
    ("ARCHITECTURE.md#no-such-heading", False),
    ("#the-tree", True),
    ("#no-such-heading", False),
)
# The output of a test, and the cases that it reports.
OUTPUTS = (
    ("12 rows of the program\n", 12),
    ("431 runs, 0 faults\n1,200 cases\n", 1631),
    ("176 passed in 3.2 s\n", 176),
    ("3 of 12 rows\n", 0),
    ("100 imports, 20 injected faults, 0 faults\n", 120),
    ("image 1.2 cases\n", 0),
    ("no count\n", 0),
)
# Names of tests, a command that tests/run then has, and whether it has it.
CHOSEN = (
    ((), "scripts/build-archive", True),
    (("capi",), "tests/capi/run.py --built", True),
    (("capi",), "scripts/build-archive", False),
    (("capi",), "packaging/package --built PACKAGES", False),
    (("scripts/build-archive", "capi"), "scripts/build-archive", True),
    (("tests/packaging/lint PACKAGES/*.deb",), "packaging/package --built PACKAGES", True),
    (("tests/packaging/lint PACKAGES/*.deb",), "packaging/wheel --built PACKAGES", False),
    (("tests/packaging/wheel PACKAGES/*.whl",), "packaging/wheel --built PACKAGES", True),
)
# The files of a crate.
FILES = {"src/lib.rt": "fn f() {\n    1\n}\n\nfn g() {\n    2\n}\n", "proofs/f/A.antt": "c.one\n"}
# A mutant of that crate, and the function that it changes.
MUTANTS = (
    ("file: src/lib.rt\nold: 1\nnew: 3\n", "f"),
    ("file: src/lib.rt\nold: 1\nnew: 3\nfile: proofs/f/A.antt\nold: one\nnew: three\n", "f"),
    ("file: src/lib.rt\nold: 1\nnew: 3\nold: 2\nnew: 4\n", ""),
    ("file: proofs/f/A.antt\nold: one\nnew: three\n", ""),
)
LONG = "word " * 19 + "words"
# Lines of Markdown, and the same wrapped.
MARKDOWN = (
    (["short"], ["short"]),
    ([f"{LONG} end"], [LONG, "end"]),
    ([f"- {LONG} end"], [f"- {LONG[:-6]}", "  words end"]),
    ([f"1. {LONG} end"], [f"1. {LONG[:-6]}", "   words end"]),
    ([f"{LONG} `a b` - end"], [LONG, "`a b` - end"]),
    ([f"{LONG[:-3]} `a b` end"], [LONG[:-3], "`a b` end"]),
    ([f"# {LONG} end"], [f"# {LONG} end"]),
    ([f"| {LONG} end |"], [f"| {LONG} end |"]),
    (["```", f"{LONG} end", "```"], ["```", f"{LONG} end", "```"]),
    (["", f"    {LONG} end"], ["", f"    {LONG} end"]),
)
# The suffixes of what dpkg runs.
MAINTAINER = (".postinst", ".prerm", ".postrm")
# The scripts, each of which has --help and rejects an unknown option.
SCRIPTS = (
    *(
        str(path.relative_to(TOP))
        for folder in ("scripts", "bench", "tests", "packaging")
        for path in sorted((TOP / folder).rglob("*"))
        if path.is_file() and os.access(path, os.X_OK) and path.suffix not in MAINTAINER
    ),
    ".ci/run",
)
# The options, and the status of a script that gets one.
OPTIONS = (("--help", 0), ("--no-such-option", 2))
# The scripts, with each option. Some reject a file or a command that is not there, and those of
# packaging a second word.
RUNS = (
    *((name, *option) for name in SCRIPTS for option in OPTIONS),
    *((f"scripts/{name}", "no-such-file", 2) for name in ("counts", "gate-times", "wrap")),
    ("scripts/test", "no-such-word", 2),
    *((name, "no-such-file another", 2) for name in SCRIPTS if name.startswith("packaging/")),
)


def script(path: str) -> ModuleType:
    """Returns a script without a suffix as a module."""
    name = path.replace("/", "_")
    loader = importlib.machinery.SourceFileLoader(name, str(TOP / path))
    spec = importlib.util.spec_from_loader(name, loader)
    assert spec is not None
    module = importlib.util.module_from_spec(spec)
    loader.exec_module(module)
    return module


def errors_of_rules() -> Iterator[str]:
    """Yields a message for each case of a rule that fails."""
    for subject, is_good in SUBJECTS:
        if (not complaint(subject)) != is_good:
            yield f"subject '{subject}': '{complaint(subject)}'"
    for word, is_meant, is_there in PATHS:
        if is_path(word) != is_meant or (is_meant and exists(word) != is_there):
            yield f"path {word}"
    for link, does_lead in LINKS:
        if leads(link, TOP / "docs" / "ARCHITECTURE.md") != does_lead:
            yield f"link {link}"
    for output, count in OUTPUTS:
        if reported_cases(output) != count:
            yield f"output {output!r}: {reported_cases(output)} cases"
    chosen_checks = script("tests/run").chosen_checks
    for names, command, is_chosen in CHOSEN:
        if (command in {check.words for check in chosen_checks(names)}) != is_chosen:
            yield f"tests/run {' '.join(names)}: {command}"
    wrapped = script("scripts/wrap").wrapped
    for lines, expected in MARKDOWN:
        if list(wrapped(lines))[:-1] != expected:
            yield f"Markdown {lines}: {list(wrapped(lines))}"


class RecordedCrate(Crate):
    """A crate whose checks print what was recorded."""

    def __init__(self, folder: Path, outputs: Sequence[str]) -> None:
        super().__init__(None, SimpleNamespace(name="work", folder=folder), folder)
        self.outputs: List[str] = [*outputs]

    def check(self, texts: Texts, symbols: Sequence[str] = ()) -> Tuple[int, str]:
        output = self.outputs.pop(0)
        return 1 if output else 0, output


def errors_of_verdicts() -> Iterator[str]:
    """Yields a message for each recorded check of a mutant that leads to another verdict."""
    with tempfile.TemporaryDirectory() as folder:
        answers = Path(folder) / "proofs" / "f" / "Answers.antt"
        answers.parent.mkdir(parents=True)
        for recorded in RECORDED:
            answers.write_text(recorded.answers)
            crate = RecordedCrate(Path(folder), recorded.outputs)
            verdict = crate.judge_alone(Mutant("mutant", {}, None))
            if verdict != recorded.verdict or crate.outputs:
                yield f"verdict, {recorded.what}: {verdict}"


def errors_of_answers() -> Iterator[str]:
    """Yields a message for each import that is not left as it should be without an answer."""
    first = "pub returns : goal.returns\nreturns c = elim c.branch [ then-a w ↦ more w ]\n"
    second = "pub returns-2 : goal.returns-2\nreturns-2 c = elim c.branch [ else-a w ↦ fewer w ]\n"
    for given, left in PLACES:
        found = without(f"use Work.{given}\n\n{first}\n{second}", ["returns-2"])
        if found != (f"use Work.{left}\n" if left else "") + f"\n{first}\n":
            yield f"imports without an answer, {given}: {found!r}"


def errors_of_places() -> Iterator[str]:
    """Yields a message for each mutant of which another function is found."""
    with tempfile.TemporaryDirectory() as folder:
        edit = Path(folder) / "mutant.edit"
        for path, text in FILES.items():
            (Path(folder) / path).parent.mkdir(parents=True, exist_ok=True)
            (Path(folder) / path).write_text(text)
        for change, name in MUTANTS:
            edit.write_text(change)
            mutant, why = mutant_of(Path(folder), edit)
            if why or (mutant.place.name if mutant.place else "") != name:
                yield f"mutant {change!r}: {mutant.place}, '{why}'"


def errors_of_options() -> Iterator[str]:
    """Yields a message for each script that lacks --help or takes unknown words."""
    for name, option, expected in RUNS:
        words = [str(TOP / name), *option.split()]
        done = subprocess.run(words, stdin=subprocess.DEVNULL, capture_output=True)
        output = done.stderr if expected else done.stdout
        has_usage = b"usage: " in output.lower() or b"    " + name.encode() in output
        if done.returncode != expected or not has_usage:
            yield f"{name} {option}: status {done.returncode}, {output[:200]!r}"


def main() -> int:
    arguments = argparse.ArgumentParser(
        description=__doc__, formatter_class=argparse.RawDescriptionHelpFormatter
    )
    arguments.parse_args()
    found = [
        *errors_of_rules(),
        *errors_of_verdicts(),
        *errors_of_answers(),
        *errors_of_places(),
        *errors_of_options(),
    ]
    for error in found:
        print(f"scripts: {error}", file=sys.stderr)
    tables = (SUBJECTS, PATHS, LINKS, OUTPUTS, CHOSEN, MARKDOWN, RECORDED, PLACES, MUTANTS, RUNS)
    print(f"{sum(map(len, tables))} cases of scripts, {len(found)} errors")
    return 1 if found else 0


if __name__ == "__main__":
    sys.exit(main())
