"""A root folder made of Debian packages that are installed here, and of what they depend on.

dpkg treats it as a system with these packages: it checks dependencies there, runs the scripts of
packages, and triggers ldconfig.
"""
import os
import re
import shutil
import subprocess
import sys
from pathlib import Path
from typing import Dict, Iterable, List, NamedTuple, Optional, Set, Union

INFO = Path("/var/lib/dpkg/info")
# Links of the root folder to folders of /usr, on a system whose /usr is merged.
MERGED = ("bin", "sbin", "lib", "lib64")
UNNEEDED = ("/usr/share/doc", "/usr/share/man", "/usr/share/locale", "/usr/share/info")
FOLDERS = (
    "tmp",
    "dev",
    "etc/alternatives",
    "var/log",
    "var/lib/dpkg/info",
    "var/lib/dpkg/updates",
    "var/lib/dpkg/triggers",
)
FILES = (
    "dev/null",
    "var/lib/dpkg/status",
    "var/lib/dpkg/available",
    "var/lib/dpkg/triggers/File",
)
# What dpkg, ldconfig and update-alternatives write by themselves.
OWN = ("var/lib/dpkg/", "var/log/", "var/cache/", "etc/ld.so.cache", "tmp/", "dev/")
ENVIRONMENT = {"PATH": "/usr/sbin:/usr/bin:/sbin:/bin", "LC_ALL": "C.UTF-8"}
QUERY = (
    "${Package}\t${binary:Package}\t${db:Status-Abbrev}\t${Provides}\t${Pre-Depends}, ${Depends}\n"
)

# Each path of a root folder, with the size of a file, or the target of a link.
State = Dict[str, Union[int, str]]


class Installed(NamedTuple):
    """The packages that are installed here.

    `full_names` has the name by which dpkg keeps the files of a package, by the names of packages
    and by those that they provide. `needs` has the alternatives of each dependency.
    """

    full_names: Dict[str, str]
    needs: Dict[str, List[List[str]]]


def query(form: str) -> List[str]:
    """Returns the lines that dpkg-query prints in a format."""
    words = ["dpkg-query", "-W", "-f", form]
    return subprocess.run(words, capture_output=True, text=True, check=True).stdout.splitlines()


def names_in(field: str, separator: str) -> List[str]:
    """Returns the names of packages in a field, without their versions and architectures."""
    return [re.split(r"[ (:]", one.strip())[0] for one in field.split(separator) if one.strip()]


def installed() -> Installed:
    found = Installed({}, {})
    for line in query(QUERY):
        name, full_name, status, provided, depends = line.split("\t")
        if not status.startswith("ii") or name in found.needs:
            continue
        needs = [names_in(one, "|") for one in depends.split(",") if one.strip()]
        found.needs[name] = needs
        found.full_names[name] = full_name
        for other in names_in(provided, ","):
            found.full_names.setdefault(other, full_name)
    return found


def essential() -> List[str]:
    """Returns the packages that every Debian has."""
    lines = query("${Package}\t${Essential}\n")
    return [line.partition("\t")[0] for line in lines if line.endswith("\tyes")]


def with_needs(names: Iterable[str], there: Installed) -> Optional[Set[str]]:
    """Returns packages with all that they depend on, or None if one is not installed."""
    found: Set[str] = set()
    remaining = list(names)
    while remaining:
        name = remaining.pop()
        if name not in there.full_names:
            return None
        real = there.full_names[name].partition(":")[0]
        if real in found:
            continue
        found.add(real)
        for choices in there.needs[real]:
            known = [choice for choice in choices if choice in there.full_names]
            remaining.append(known[0] if known else choices[0])
    return found


class Root:
    """A root folder, in which commands run by chroot."""

    def __init__(self, folder: Path) -> None:
        self.folder = folder
        self.there = installed()
        self.names: Set[str] = set()
        for name in MERGED:
            if Path("/", name).is_symlink():
                (folder / "usr" / name).mkdir(parents=True)
                (folder / name).symlink_to(os.readlink(f"/{name}"))
        for name in FOLDERS:
            (folder / name).mkdir(parents=True)
        for name in FILES:
            (folder / name).touch()
        (folder / "var/lib/dpkg/triggers/ldconfig").write_text("libc-bin\n")
        shutil.copy(INFO / "format", folder / "var/lib/dpkg/info")

    def add(self, *names: str) -> bool:
        """Copies installed packages with all that they depend on.

        Returns False if one is not installed here.
        """
        found = with_needs(names, self.there)
        if found is None:
            return False
        for name in sorted(found - self.names):
            self._copy(self.there.full_names[name])
        self.names |= found
        self.run("ldconfig")
        return True

    def _copy(self, full_name: str) -> None:
        """Copies the files of a package, and what dpkg knows of it."""
        self._copy_files(full_name)
        for path in INFO.glob(f"{full_name}.*"):
            shutil.copy(path, self.folder / "var/lib/dpkg/info")
        words = ["dpkg-query", "-s", full_name]
        entry = subprocess.run(words, capture_output=True, text=True, check=True).stdout
        with open(self.folder / "var/lib/dpkg/status", "a") as status:
            status.write(entry.rstrip("\n") + "\n\n")

    def _copy_files(self, full_name: str) -> None:
        listed = (INFO / f"{full_name}.list").read_text().splitlines()
        paths = [path for path in listed if path != "/." and not path.startswith(UNNEEDED)]
        paths = [path for path in paths if os.path.lexists(path)]
        packing = ["tar", "-C", "/", "--no-recursion", "-cf", "-", "-T", "-"]
        unpacking = ["tar", "-C", str(self.folder), "--keep-directory-symlink", "-xf", "-"]
        packed = subprocess.Popen(packing, stdin=subprocess.PIPE, stdout=subprocess.PIPE)
        assert packed.stdin and packed.stdout
        unpacked = subprocess.Popen(unpacking, stdin=packed.stdout)
        packed.stdout.close()
        packed.stdin.write("".join(f".{path}\n" for path in paths).encode())
        packed.stdin.close()
        if unpacked.wait() != 0 or packed.wait() != 0:
            sys.exit(f"root: {full_name} can't be copied")

    def dpkg(self, *words: Union[str, Path]) -> "subprocess.CompletedProcess[bytes]":
        """Runs dpkg for this root folder. Its output and errors are in `stdout`."""
        return subprocess.run(
            ["dpkg", f"--root={self.folder}", *map(str, words)],
            env=ENVIRONMENT,
            stdout=subprocess.PIPE,
            stderr=subprocess.STDOUT,
        )

    def run(self, *words: str, text: str = "", **variables: str) -> str:
        """Runs a command in this root folder and returns what it prints.

        `text` is its input. This script ends if the command fails.
        """
        done = subprocess.run(
            ["chroot", str(self.folder), *words],
            input=text.encode(),
            stdout=subprocess.PIPE,
            stderr=subprocess.STDOUT,
            env={**ENVIRONMENT, **variables},
        )
        printed = done.stdout.decode(errors="replace")
        if done.returncode != 0:
            sys.exit(f"root: {' '.join(words)}: status {done.returncode}\n{printed}")
        return printed

    def fails(self, *words: str) -> "subprocess.CompletedProcess[str]":
        """Runs a command that may fail in this root folder."""
        return subprocess.run(["chroot", str(self.folder), *words], capture_output=True, text=True)

    def state(self) -> State:
        """Returns all paths.

        Those that dpkg and others write by themselves are left out, and so are the files that
        Python compiles of its own modules when it runs.
        """
        found: State = {}
        for folder, folders, names in os.walk(self.folder):
            for name in folders + names:
                path = Path(folder, name)
                relative = str(path.relative_to(self.folder))
                if (relative + "/").startswith(OWN):
                    continue
                if "__pycache__" in relative and "kumquatsieve" not in relative:
                    continue
                found[relative] = state_of(path)
        return found


def state_of(path: Path) -> Union[int, str]:
    """Returns the target of a link, the size of a file, or 0 for a folder."""
    if path.is_symlink():
        return os.readlink(path)
    return 0 if path.is_dir() else path.stat().st_size
