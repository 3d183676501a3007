#!/usr/bin/env python3
"""Tests the extension of SQLite, as it is installed, over SQLite's own library.

- It exports sqlite3_kumquatsieve_init alone, and gcc and clang have no warning (cases/building.py).
- Options, their errors, the functions, another dictionary, damage, unloading (cases/calls.py).
- Tokens and their offsets, terms, phrases, prefixes and highlights of 20,000 lines are those that
  MeCab's words give with IPADIC, and those of 2,000 lines with NAIST, Juman and, with --unidic,
  UniDic (cases/texts.py, cases/model.py).
- Texts of any bytes, folds, and megabytes (cases/odd_texts.py).
- Under valgrind, with AddressSanitizer and ThreadSanitizer, and with each allocation that fails in
  turn (cases/memory.py).

dictc is the one in crates/dictc/out. Needs: gcc, and the packages sqlite3, libsqlite3-dev and
libutf8proc-dev. Without one the status is 77, and nothing was tested. Parts that need clang,
valgrind, MeCab or IPADIC are reported as left out, and the status is 77 at the end.
"""
import argparse
import sys
import tempfile
from pathlib import Path
from typing import Optional

sys.dont_write_bytecode = True
sys.path.insert(0, str(Path(__file__).resolve().parents[1]))
from sqlite.cases.building import (  # noqa: E402
    check_compilers,
    check_exports,
    extension_in,
    installed,
    missing_packages,
    small_images,
)
from sqlite.cases.calls import (  # noqa: E402
    check_damage,
    check_errors,
    check_functions,
    check_other_dictionary,
    check_tokens,
    check_unloading,
)
from sqlite.cases.dictionaries import (  # noqa: E402
    PACKAGES,
    UNIDIC_HELP,
    chosen_names,
    make_dictionary,
)
from sqlite.cases.memory import check_heap, check_sanitizers, check_valgrind  # noqa: E402
from sqlite.cases.odd_texts import (  # noqa: E402
    check_any_bytes,
    check_folds,
    check_long_texts,
    check_utf16,
)
from sqlite.cases.texts import check_texts, sample_lines  # noqa: E402
from support.running import LEFT_OUT, end_left_out, leave_out, missing_of  # noqa: E402


def check_small(extension: Path, folder: Path) -> None:
    """Runs the checks that need only small images."""
    images = small_images(folder)
    check_errors(extension, images)
    check_tokens(extension, images)
    check_functions(extension, images)
    check_other_dictionary(extension, images, folder)
    check_damage(extension, images, folder)
    check_unloading(extension, images)
    check_any_bytes(extension, images)
    check_utf16(extension, images)
    check_folds(extension, images)
    check_long_texts(extension, images)


def check_all(folder: Path, built: bool, unidic: Optional[Path]) -> list[str]:
    """Runs all checks. Returns what was left out."""
    prefix = installed(folder, built)
    extension = extension_in(prefix)
    check_exports(extension)
    left_out = check_compilers(prefix)
    check_small(extension, folder)
    left_out += check_valgrind(extension, folder)
    check_heap(extension, folder)
    check_sanitizers(folder)
    return left_out + check_dictionaries(extension, folder, unidic)


def check_dictionaries(extension: Path, folder: Path, unidic: Optional[Path]) -> list[str]:
    """Compares lines over each dictionary. Returns what was left out."""
    lacking = missing_of(["mecab"]) + ([] if sample_lines() else ["manpages-ja"])
    if lacking:
        return [f"lines as by MeCab: {' and '.join(lacking)} missing"]
    left_out = []
    for name in chosen_names(unidic, folder):
        dictionary = make_dictionary(name, folder)
        if dictionary is None:
            left_out.append(f"lines as by MeCab, {name}: {PACKAGES[name]} missing")
        else:
            check_texts(extension, dictionary)
            dictionary.image.unlink()
    return left_out


def main() -> None:
    parser = argparse.ArgumentParser(
        description=__doc__, formatter_class=argparse.RawDescriptionHelpFormatter
    )
    parser.add_argument(
        "--built", action="store_true", help="use the archive in crates/capi/out as it is"
    )
    parser.add_argument("--unidic", type=Path, metavar="IMAGE", help=UNIDIC_HELP)
    options = parser.parse_args()
    missing = missing_packages()
    if missing:
        end_left_out(f"{' and '.join(missing)} missing")
    with tempfile.TemporaryDirectory() as folder:
        left_out = check_all(Path(folder), options.built, options.unidic)
    for part in left_out:
        leave_out(part)
    if left_out:
        sys.exit(LEFT_OUT)


if __name__ == "__main__":
    main()
