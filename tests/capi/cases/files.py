"""Checks the calls that open image files."""
import os
import shutil
import sys
import tempfile
from pathlib import Path

from capi.cases.library import VALGRIND, Library, report, show, show_threads
from support.running import TOP, Words, run

# A file system in memory, which differs from the temporary folder's.
MEMORY = Path("/dev/shm")
CHANGING = [f"-Wl,--wrap={call}" for call in ("mmap", "syscall", "read")]
# What a line of trust.py starts with that names a part which was not tested.
LEFT_OUT_MARK = "left out: "


def show_in_folders(command: Words, folders: list[Path]) -> None:
    """Runs a test program in a new folder below each of these."""
    for folder in folders:
        with tempfile.TemporaryDirectory(dir=folder) as own:
            show([*command, own])


def check_opening(library: Library, system: Path, user: Path) -> None:
    """Checks which files are rejected, how long files stay mapped, and files that change."""
    disk = [library.folder]
    folders = disk + [MEMORY] if os.access(MEMORY, os.W_OK) else disk
    images = [system, user]
    show_in_folders([*VALGRIND, library.test("opening_files"), *images], disk)
    show_in_folders([*VALGRIND, library.test("mapped_files"), *images], folders)
    changing = library.test("changing_files", *CHANGING)
    show_in_folders([*VALGRIND, changing, *images], disk)
    with tempfile.TemporaryDirectory(dir=library.folder) as own:
        show([changing, *images, own, "plain"])


def check_threads(library: Library, system: Path, user: Path) -> None:
    """Checks threads that open the same files, and the shared library that is unloaded."""
    threads = [library.test("opening_threads"), system, user]
    show([*VALGRIND, *threads])
    show_threads(threads)
    show([library.test("dlclose", "-ldl"), library.shared, system])


def check_records(library: Library, system: Path) -> list[str]:
    """Checks which records are trusted. Returns what could not be tested here."""
    program = library.test("open_code", "-Wl,--wrap=openat")
    trust = TOP / "tests" / "capi" / "cases" / "trust.py"
    lines = run([sys.executable, trust, program, system]).decode().splitlines()
    for line in lines:
        report(line)
    return [line[len(LEFT_OUT_MARK) :] for line in lines if line.startswith(LEFT_OUT_MARK)]


def check_files(library: Library, system: Path, user: Path) -> list[str]:
    """Checks all of these, with copies of the images that no other check changes.

    Returns what could not be tested here.
    """
    own = library.folder / "files"
    own.mkdir()
    system, user = (Path(shutil.copy(image, own)) for image in (system, user))
    check_opening(library, system, user)
    check_threads(library, system, user)
    return check_records(library, system)
