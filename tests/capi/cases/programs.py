"""Runs the programs of tests/capi/c that test the calls, each under valgrind."""
import re
import sys
import tempfile
from pathlib import Path
from typing import NamedTuple, Sequence

from capi.cases.images import large_image, named_image, quoted_image, user_image
from capi.cases.library import COPIES, FILES, READ_FILES, THREAD_SANITIZER, VALGRIND, WHOLE_FILES
from capi.cases.library import Library, report, show, show_threads
from cli.cases.images import OTHER_SIZES, REJECTED
from support.running import run

HUGE_PAGES = Path("/sys/kernel/mm/transparent_hugepage/enabled")
ALLOCATIONS = "malloc calloc realloc strdup free mmap mremap munmap".split()
WRAPPED = [f"-Wl,--wrap={call}" for call in ALLOCATIONS]


class Test(NamedTuple):
    """A program, the user dictionaries of cases/images.py that it gets after the system's image,
    how it loads images, and flags of gcc."""

    name: str
    users: Sequence[str]
    ways: Sequence[Sequence[str]] = (COPIES, FILES)
    flags: Sequence[str] = ()


TESTS = [
    Test("dictionaries", ["user"]),
    Test("layout", ["layout"]),
    Test("out_of_memory", ["user"], [COPIES], WRAPPED),
    Test("lines", [], [COPIES, WHOLE_FILES]),
    Test("text", [], [COPIES]),
    Test("settings", ["momo", "momo_b"], [COPIES, WHOLE_FILES]),
    Test("nodes", ["blank"], [COPIES, WHOLE_FILES]),
]
# The programs whose threads use the library at once.
THREADED = ("dictionaries", "opening_threads")


def check_programs(library: Library, system: Path) -> None:
    """Runs each program of TESTS, with no error and no block left under valgrind."""
    for test in TESTS:
        images = [user_image(system, name) for name in test.users]
        for way in test.ways:
            program = library.test(test.name, *way, *test.flags)
            show([*VALGRIND, program, system, *images])
    for way in (COPIES, FILES):
        show_threads([library.test("dictionaries", *way), system, user_image(system, "user")])
    runs = sum(len(test.ways) for test in TESTS)
    report(f"{runs} cases: no error and no block left under valgrind, and no race under helgrind")


def check_calls(library: Library, system: Path) -> None:
    """Makes each call with each code and each NULL, and checks the errors and the fields."""
    user, nothing = user_image(system, "user"), library.folder / "nothing.img"
    for way in (COPIES, FILES):
        show([*VALGRIND, library.test("calls", *way), system, user, nothing])
    with tempfile.TemporaryDirectory(dir=library.folder) as own:
        show([*VALGRIND, library.test("image_errors"), system, user, own])
    show([*VALGRIND, library.test("errors"), system])
    quoted, momo = quoted_image(library.folder), user_image(system, "momo")
    for way in (COPIES, FILES):
        show([*VALGRIND, library.test("fields", *way), quoted, momo, named_image(quoted)])


def check_races(folder: Path, options: list[str], system: Path, user: Path) -> list[str]:
    """Runs the threads with ThreadSanitizer. Returns what could not be tested here."""
    folder.mkdir()
    library = Library(folder, options, THREAD_SANITIZER)
    for name in THREADED:
        program = library.test(name, *FILES)
        tested = run([program, system, user], env={"TSAN_OPTIONS": "halt_on_error=1"})
        report(f"no race by ThreadSanitizer: {tested.decode().strip()}")
    return []


def check_rejected_images(library: Library, system: Path) -> None:
    """Each image that jseg rejects is rejected in C with the same error.

    An image of other sizes is valid, so as the system's it is an image of a user.
    """
    rows = [(image, error, error) for image, error in REJECTED]
    rows += [(image, "O1 NotSystem", "O3 OtherSizes 0") for image in OTHER_SIZES.values()]
    paths = [library.folder / f"rejected{number}.img" for number in range(len(rows))]
    for path, (image, _, _) in zip(paths, rows):
        path.write_bytes(image)
    expected = [error for _, *errors in rows for error in errors]
    for way in (COPIES, WHOLE_FILES, READ_FILES):
        program = library.test("rejected_images", *way)
        errors = run([*VALGRIND, program, system, *paths]).decode().splitlines()
        if errors != expected:
            sys.exit(f"library: rejected images, {' '.join(way)}: {errors}, expected {expected}")
    report(f"{len(rows)} images are rejected in C as by jseg: copied, mapped and read")


def check_huge_pages(library: Library, system: Path) -> list[str]:
    """Only the memory of a large image is in huge pages. Returns what could not be tested here."""
    if not HUGE_PAGES.exists():
        return ["huge pages, which the kernel does not have"]
    program = library.test("huge_pages", "-Wl,--wrap=madvise")
    sizes = run([program, system, large_image(system)]).decode().rstrip("\n")
    report(
        f"huge pages are requested only for a large image; in them, by each way to load it: {sizes}"
    )
    if all(int(kilobytes) > 0 for kilobytes in re.findall("([0-9]+) of", sizes)):
        return []
    return [f"huge pages: the kernel gives none: {HUGE_PAGES} is {HUGE_PAGES.read_text().strip()}"]
