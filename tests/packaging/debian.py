#!/usr/bin/env python3
"""Installs Debian packages into a clean root folder, uses them there, and removes them.

    tests/packaging/debian.py PACKAGE..

The packages are those of packaging/package. The root folder is made of the packages that every
Debian has, of others that are installed here, and of what they depend on (root.py), so dpkg checks
dependencies. In it dictc compiles the sample, jseg and pjseg segment a line, the example
in C is compiled and run, the example in Python is run, and MeCab's own program runs over both
libraries, as update-alternatives chooses. So do a program that opens libmecab.so by its name, and a
program of another user. Databases of SQLite and PostgreSQL have the extensions.

The installation changes no file that was there. The purge of kumquatsieve removes what was imported
by name, and leaves what a user added, and MeCab's own library is chosen again. After the purge of
all packages each other file is as before. A package that can't be checked here is reported as left
out, and the status is 77. Needs: dpkg, and the right to change the root folder.
"""
import argparse
import os
import shutil
import subprocess
import sys
import tempfile
from pathlib import Path
from typing import Callable, Dict, List, NamedTuple, Optional, Sequence, Tuple

sys.dont_write_bytecode = True
sys.path[:0] = [str(Path(__file__).resolve().parents[up]) for up in (0, 1)]
from checking import IMAGE, IMAGES, expect, fail  # noqa: E402
from debian_libmecab import CHOSEN, MECAB, check_libmecab, library_of  # noqa: E402
from debian_postgresql import check_postgresql  # noqa: E402
from debian_programs import check_c, check_programs, check_python  # noqa: E402
from debian_sqlite import check_sqlite  # noqa: E402
from root import Root, State, essential  # noqa: E402
from support.running import LEFT_OUT, end_left_out, leave_out  # noqa: E402


class Case(NamedTuple):
    """How a package is checked: which packages must be installed too, and the check.

    The check of kumquatsieve-libmecab returns the file of MeCab's own library.
    """

    needs: Tuple[str, ...]
    check: Optional[Callable[[Root], Optional[str]]]


CASES: Dict[str, Case] = {
    "kumquatsieve": Case(("python3",), check_programs),
    "libkumquatsieve1": Case((), None),
    "libkumquatsieve-dev": Case(("gcc", "libc6-dev", "pkg-config"), check_c),
    "python3-kumquatsieve": Case(("python3",), check_python),
    "kumquatsieve-sqlite": Case(("sqlite3", "libutf8proc2"), check_sqlite),
    "postgresql-15-kumquatsieve": Case(("postgresql-15",), check_postgresql),
    "kumquatsieve-libmecab": Case(("libmecab2", "mecab", "mecab-utils"), check_libmecab),
}


# The package of the programs, and the one that depends on it.
WITH_PROGRAMS = ("python3-kumquatsieve", "kumquatsieve")


def name_of(package: str) -> str:
    """Returns the name of a package, or an empty text if the file is not a package."""
    words = ["dpkg-deb", "-f", package, "Package"]
    return subprocess.run(words, capture_output=True, text=True, check=False).stdout.strip()


def prepare(root: Root, packages: Sequence[str]) -> Dict[str, str]:
    """Returns the files of the packages that can be checked, by their names."""
    if not essential() or not root.add(*essential()):
        end_left_out("this is no Debian")
    given = {name_of(package): package for package in packages}
    chosen = {}
    for name, case in CASES.items():
        if name not in given:
            leave_out(f"{name}: no package is given")
        elif not root.add(*case.needs):
            leave_out(f"{name}: one of {', '.join(case.needs)} is not installed here")
        else:
            chosen[name] = given[name]
    if "kumquatsieve-libmecab" in chosen and not root.add("libmecab-dev"):
        print("package: libmecab-dev is not installed here: libmecab.so is searched without it")
    return chosen


def check_unchanged(what: str, after: State, before: State) -> None:
    paths = sorted(before.keys() | after.keys())
    changed = [path for path in paths if before.get(path) != after.get(path)]
    if changed:
        fail(f"after {what} these differ: {' '.join(changed)}")


def install(root: Root, packages: Sequence[str], before: State) -> None:
    """Installs packages, which changes no other file."""
    done = root.dpkg("--install", *packages)
    if done.returncode != 0:
        fail(f"dpkg --install\n{done.stdout.decode()}")
    after = root.state()
    check_unchanged(
        "the installation", {path: after[path] for path in before if path in after}, before
    )


def purge(root: Root, names: Sequence[str]) -> None:
    done = root.dpkg("--purge", *names)
    if done.returncode != 0:
        fail(f"dpkg --purge\n{done.stdout.decode()}")


def purge_programs(root: Root, names: Sequence[str], theirs: Optional[str]) -> None:
    """Purges kumquatsieve, and what depends on it, while our libmecab is chosen.

    MeCab's programs run over MeCab's own library then, whose file is `theirs`.
    """
    images = root.folder / IMAGES[1:]
    if not (images / "unidic.img").exists():
        fail("kumquatsieve-import unidic: no image of that name")
    root.run("cp", IMAGE, CHOSEN)
    purge(root, names)
    expect("what remains in the folder of images", ["sample.img"], os.listdir(images))
    shutil.rmtree(images)
    if theirs:
        expect("libmecab.so.2 without images", theirs, library_of(root, MECAB))


def remove(root: Root, names: Sequence[str], before: State, theirs: Optional[str]) -> None:
    """Purges all packages. If our libmecab was chosen, MeCab's own is used again."""
    programs = [name for name in names if name in WITH_PROGRAMS]
    if "kumquatsieve" in programs:
        purge_programs(root, programs, theirs)
    others = [name for name in names if name not in programs]
    if others:
        purge(root, others)
    shutil.rmtree(root.folder / "sources", ignore_errors=True)
    if theirs:
        expect("libmecab.so.2 after the removal", theirs, library_of(root, MECAB))
    check_unchanged("the removal", root.state(), before)
    print(f"package: removed, and each of {len(before)} files and folders is as before")


def check(root: Root, packages: Sequence[str]) -> int:
    """Installs, checks and removes packages. Returns how many were checked."""
    chosen = prepare(root, packages)
    if not chosen:
        end_left_out("none of the packages can be checked")
    before = root.state()
    install(root, list(chosen.values()), before)
    theirs = None
    for name in chosen:
        check_installed = CASES[name].check
        theirs = check_installed(root) if check_installed else None
        works = ", and works" if check_installed else ""
        print(f"package: {name}: installed{works}", flush=True)
    remove(root, list(chosen), before, theirs)
    return len(chosen)


def main() -> int:
    arguments = argparse.ArgumentParser(
        description=__doc__, formatter_class=argparse.RawDescriptionHelpFormatter
    )
    arguments.add_argument("packages", nargs="+", metavar="PACKAGE")
    packages: List[str] = arguments.parse_args().packages
    if shutil.which("dpkg") is None:
        end_left_out("dpkg is missing")
    for package in packages:
        if not name_of(package):
            arguments.error(f"{package} is not a package")
    words = ["chroot", "/", "true"]
    if subprocess.run(words, stderr=subprocess.DEVNULL).returncode != 0:
        end_left_out("the root folder may not be changed here")
    with tempfile.TemporaryDirectory() as folder:
        # A program of another user runs in it too.
        os.chmod(folder, 0o755)
        count = check(Root(Path(folder)), packages)
    return 0 if count == len(CASES) else LEFT_OUT


sys.exit(main())
