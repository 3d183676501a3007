#!/usr/bin/env python3
"""Tests the C library as it is installed.

- The exports, the version and the codes are those of the header (cases/header.py), which compiles
  as C99, C11 and C++17 by gcc and clang (cases/standards.py).
- The programs in c/ make each call with each code, each NULL and each allocation that fails, also
  with the images that tests/cli/run.py rejects. They load images from memory and open them by their
  paths, under valgrind (cases/programs.py).
- Files of each kind are opened, files that change meanwhile, and files with records that are
  trusted or not (cases/files.py, cases/trust.py).
- Installed images are found by their names (cases/image_dirs.py).
- Threads open and use dictionaries under helgrind, and with ThreadSanitizer.
- The examples print the same as jseg, and so do four threads (cases/texts.py).
- The memory of a large image that is copied is in huge pages, if the kernel has them.

What can't be tested here, for instance because it needs root, is reported as left out, and the
status is 77 at the end.

The library is the one that `packaging/build-library` installs, and dictc and jseg are those in
crates/*/out. Needs: gcc, valgrind. If one is missing, the status is 77, and nothing was tested.
"""
import argparse
import sys
import tempfile
from pathlib import Path

sys.dont_write_bytecode = True
sys.path.insert(0, str(Path(__file__).resolve().parents[1]))
from capi.cases.files import check_files  # noqa: E402
from capi.cases.header import check_codes, check_exports, check_page, check_version  # noqa: E402
from capi.cases.image_dirs import check_image_dirs  # noqa: E402
from capi.cases.images import system_image, user_image  # noqa: E402
from capi.cases.library import Library  # noqa: E402
from capi.cases.programs import (  # noqa: E402
    check_calls,
    check_huge_pages,
    check_programs,
    check_races,
    check_rejected_images,
)
from capi.cases.standards import check_standards  # noqa: E402
from capi.cases.texts import check_examples, check_text, random_lines  # noqa: E402
from support.running import LEFT_OUT, end_left_out, leave_out, missing_of  # noqa: E402


def parsed_options() -> argparse.Namespace:
    """Returns the options of the command line."""
    parser = argparse.ArgumentParser(
        description=__doc__, formatter_class=argparse.RawDescriptionHelpFormatter
    )
    parser.add_argument(
        "--built", action="store_true", help="use the archive in crates/capi/out as it is"
    )
    return parser.parse_args()


def check_all(library: Library, built: list[str]) -> list[str]:
    """Runs all checks. Returns what could not be tested here."""
    check_version()
    check_codes(library)
    check_exports(library)
    check_page()
    system = system_image(library.folder)
    user = user_image(system, "user")
    check_calls(library, system)
    check_programs(library, system)
    check_rejected_images(library, system)
    missing = check_standards(library) + check_files(library, system, user)
    missing += check_image_dirs(library) + check_huge_pages(library, system)
    missing += check_races(library.folder / "races", built, system, user)
    check_examples(library, system)
    check_text(library, system, random_lines(10_000))
    return missing


def main() -> None:
    options = parsed_options()
    missing_programs = missing_of(["gcc", "valgrind"])
    if missing_programs:
        end_left_out(f"{' and '.join(missing_programs)} missing")
    built = ["--built"] if options.built else []
    with tempfile.TemporaryDirectory() as folder:
        library = Library(Path(folder), built)
        missing = check_all(library, built)
    for part in missing:
        leave_out(part)
    if missing:
        sys.exit(LEFT_OUT)


if __name__ == "__main__":
    main()
