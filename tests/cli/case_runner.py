"""Runs test cases in directories of their own, and compares each run with its case."""
import os
import shutil
import sys
from pathlib import Path
from typing import Dict, Iterator, Mapping, Union

from support.running import SAMPLE

from .cases.case import ANY, Case, Changes, Conditions, Expected, Files, Has, RecordOf
from .programs import Outcome, Programs

DEFINITIONS = ["matrix.def", "char.def", "unk.def"]
USERS = {"user": "もも,1,1,1,名詞,ユーザ\n", "second": "もも,1,1,1,名詞,二番\n"}

# What is at each path of a directory: the bytes of a file, the target of a link, or {} for a
# directory.
Contents = Dict[str, object]


def as_bytes(text: Union[str, bytes]) -> bytes:
    return text.encode() if isinstance(text, str) else text


def add_files(folder: Path, files: Files) -> None:
    """Makes the files, links and directories of a case, and removes what it lacks."""
    for name, found in files.items():
        path = folder / name
        if found is None:
            path.unlink(missing_ok=True)
        elif isinstance(found, bytes):
            path.write_bytes(found)
        elif isinstance(found, int):
            path.touch()
            os.truncate(path, found)
        elif isinstance(found, Path):
            path.symlink_to(found)
        elif not isinstance(found, RecordOf):
            path.mkdir()


def write_records(folder: Path, files: Files) -> None:
    """Writes the records of images. A later change of an image's owner would make them stale."""
    for name, found in files.items():
        if isinstance(found, RecordOf):
            (folder / name).write_text(found.text(folder))


def contents(folder: Path) -> Contents:
    """Returns what is in a directory."""
    found: Contents = {}
    for path in folder.rglob("*"):
        name = str(path.relative_to(folder))
        if path.is_symlink():
            found[name] = Path(os.readlink(path))
        else:
            found[name] = {} if path.is_dir() else path.read_bytes()
    return found


def with_changes(before: Contents, changes: Changes, pid: int, start: Path) -> Contents:
    """Returns what has to be there after a run. `start` has the files that changes name."""
    after = dict(before)
    for name, left in changes.items():
        after[name.format(pid=pid)] = (start / left).read_bytes() if isinstance(left, str) else left
    return {name: left for name, left in after.items() if left is not None}


def is_same(expected: Contents, found: Contents) -> bool:
    return expected.keys() == found.keys() and all(
        left is ANY or left == found[name] for name, left in expected.items()
    )


def is_error(case: Case, outcome: Outcome) -> bool:
    """Returns whether standard error is as the case says. An error is one write."""
    if isinstance(case.err, Has):
        return case.err.fits("".join(outcome.messages))
    program = case.command.split()[0]
    return outcome.messages == ([f"{program}: {case.err}\n"] if case.err else [])


def is_output(case: Case, out: bytes) -> bool:
    """Returns whether standard output is as the case says, unless it isn't kept."""
    if case.conditions.stdout not in ("kept", "file"):
        return True
    return case.out.fits(out.decode()) if isinstance(case.out, Has) else as_bytes(case.out) == out


class CaseRunner:
    """Runs cases. Each directory is a copy of `start`, which has what every run finds."""

    def __init__(self, folder: Path, programs: Programs) -> None:
        self.folder, self.programs, self.start = folder / "run", programs, folder / "start"

    def prepare(self) -> None:
        """Makes the directory `start`, and the images that are installed."""
        (self.start / "a").mkdir(parents=True)
        for name in [*DEFINITIONS, "lexicon.csv"]:
            shutil.copy(SAMPLE / name, self.start / "a")
        for name, lexicon in USERS.items():
            (self.start / f"{name}.csv").write_text(lexicon)
        options = " ".join(f"--{name.removesuffix('.def')} a/{name}" for name in DEFINITIONS)
        system = f"dictc system {options} --out sys.img a/lexicon.csv"
        self.compile(system, "3 entries, 0 skipped\n")
        for name in USERS:
            user = f"dictc user --dic sys.img --out {name}.img {name}.csv"
            self.compile(user, "1 entries, 0 skipped\n")
        (self.start / "second.csv").unlink()
        self.install(self.programs.system_dir, "both", "made")
        self.install(self.programs.shared_dir, "both", "installed")
        (self.programs.shared_dir / "both.img").write_bytes(b"MJDICT")

    def install(self, image_dir: Path, *names: str) -> None:
        image_dir.mkdir(parents=True)
        for name in names:
            shutil.copy(self.start / "sys.img", image_dir / f"{name}.img")

    def compile(self, command: str, line: str) -> None:
        self.own(self.start)
        outcome = self.programs.run(command, b"", self.start, Conditions())
        if (outcome.status, outcome.out, outcome.messages) != (0, line.encode(), []):
            sys.exit(f"{command}: {outcome}")

    def own(self, folder: Path) -> None:
        """Gives a directory to the user that the programs run as."""
        if self.programs.user is not None:
            for path in [folder, *folder.rglob("*")]:
                os.chown(path, self.programs.user, self.programs.user, follow_symlinks=False)

    def set_modes(self, modes: Mapping[str, int]) -> None:
        for name, mode in modes.items():
            (self.folder / name).chmod(mode)

    def failures(self, case: Case) -> Iterator[str]:
        """Runs a case, and yields what is not as it says."""
        shutil.copytree(self.start, self.folder)
        add_files(self.folder, case.files)
        self.own(self.folder)
        write_records(self.folder, case.files)
        before = contents(self.folder)
        self.set_modes(case.modes)
        case = case._replace(out=self.in_place(case.out), err=self.text_in_place(case.err))
        outcome = self.outcome(case)
        modes = {name: (self.folder / name).stat().st_mode & 0o7777 for name in case.modes}
        self.set_modes(dict.fromkeys(case.modes, 0o755))
        expected = with_changes(before, case.changes, outcome.pid, self.start)
        found = contents(self.folder)
        shutil.rmtree(self.folder)
        if outcome.status != case.status:
            yield f"status {outcome.status}, expected {case.status}"
        if not is_output(case, outcome.out):
            yield f"prints {outcome.out[:300]!r}, expected {case.out!r}"
        if not is_error(case, outcome):
            yield f"standard error is {outcome.messages!r}, expected {case.err!r}"
        if not is_same(expected, found):
            changed = [name for name in found if found[name] != before.get(name)]
            yield f"leaves {sorted(found)} with {changed} changed"
        if modes != case.modes:
            yield f"leaves the modes {modes}"

    def in_place(self, text: Expected) -> Expected:
        return text if isinstance(text, bytes) else self.text_in_place(text)

    def text_in_place(self, text: Union[str, Has]) -> Union[str, Has]:
        """Returns a text, or a matcher, with the directories of this run."""
        return text.changed(self.located) if isinstance(text, Has) else self.located(text)

    def located(self, text: str) -> str:
        return text.replace("PREFIX", str(self.programs.prefix)).replace("HERE", str(self.folder))

    def outcome(self, case: Case) -> Outcome:
        """Runs the command of a case, and the second one if there is one."""
        command, text, conditions = self.located(case.command), as_bytes(case.text), case.conditions
        if not case.second:
            return self.programs.run(command, text, self.folder, conditions)
        first = self.programs.run(command, b"", self.folder, conditions)
        second = self.programs.run(case.second, text, self.folder, conditions)
        return Outcome(
            first.out + second.out,
            first.messages + second.messages,
            first.status or second.status,
            first.pid,
        )
