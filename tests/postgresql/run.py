#!/usr/bin/env python3
"""Tests the extension for PostgreSQL 15 with a server of its own.

- It compiles without a warning by gcc and clang, exports what PostgreSQL calls only, and has the
  library linked in (builds.py).
- PostgreSQL's regression tests: the files in integrations/postgresql/sql (`make installcheck`).
- Tokens, vectors and queries of 20,000 lines, and of texts of several lines, equal those over
  MeCab's library, with which the same extension is linked (over_mecab.c, comparison.py). The tokens
  of each line are the line, byte for byte. A tenth of them is compared with NAIST, Juman and, with
  --unidic, UniDic too.
- User dictionaries, settings of files, databases and users, errors, other encodings, cancelled
  queries, memory, dumps and updates (behavior.py).
- No error of memory under valgrind, and none of AddressSanitizer or UndefinedBehaviorSanitizer
  (sanitizers.py).

The dictionary is Debian's mecab-ipadic, by kumquatsieve-import. The server runs on a socket in a
temporary folder, as the user `postgres` if this script runs as root. dictc and jseg are those in
crates/*/out.

Needs: postgresql-15, postgresql-server-dev-15, mecab-ipadic, gcc, make and pkg-config. If one is
missing the status is 77, and nothing was tested. The comparison needs libmecab-dev and mecab-utils,
and mecab-naist-jdic, mecab-jumandic-utf8 and unidic-mecab. Parts whose package is missing are
reported as left out.
"""
import argparse
import os
import shutil
import sys
import tempfile
from pathlib import Path
from typing import Dict, List, Optional, Tuple

sys.dont_write_bytecode = True
sys.path.insert(0, str(Path(__file__).resolve().parents[1]))
from compare_with_mecab.dictionaries import DICTIONARIES, Programs, Sources  # noqa: E402
from compare_with_mecab.dictionaries import folder_of  # noqa: E402
from compare_with_mecab.texts import MANUAL_PAGES  # noqa: E402
from postgresql import behavior, builds, comparison, memory, sanitizers  # noqa: E402
from postgresql.behavior import Images  # noqa: E402
from postgresql.server import Server, missing  # noqa: E402
from sqlite.cases.dictionaries import (  # noqa: E402
    PACKAGES,
    UNIDIC_HELP,
    Dictionary,
    chosen_names,
    make_dictionary,
)
from support.running import IMPORTER, LEFT_OUT, SAMPLE, TOP  # noqa: E402
from support.running import end_left_out, leave_out, program, run  # noqa: E402

IPADIC = DICTIONARIES / "ipadic"
MECAB_HEADER = Path("/usr/include/mecab.h")
# How many cases there are, and what is wrong.
Result = Tuple[int, List[str]]
# The words of the user dictionary, as nouns of IPADIC.
USER_WORDS = "C++,1285,1285,-9000,名詞,一般,*,*,*,*,C++,*,*\n" \
    "くまきゅう,1285,1285,-9000,名詞,一般,*,*,*,*,くまきゅう,*,*\n"  # fmt: skip


def parsed_options() -> argparse.Namespace:
    """Returns the options of the command line."""
    parser = argparse.ArgumentParser(
        description=__doc__, formatter_class=argparse.RawDescriptionHelpFormatter
    )
    parser.add_argument(
        "--built", action="store_true", help="use the archive in crates/capi/out as it is"
    )
    parser.add_argument("--unidic", type=Path, metavar="IMAGE", help=UNIDIC_HELP)
    parser.add_argument("--lines", type=int, default=20_000, help="the number of lines")
    return parser.parse_args()


def make_images(folder: Path) -> Images:
    """Imports IPADIC and a user dictionary, and compiles the sample."""
    images = Images(folder / "ipadic.img", folder / "sample" / "sample.img", folder / "user.img")
    lexicon = folder / "user.csv"
    lexicon.write_text(USER_WORDS)
    images.sample.parent.mkdir()
    run([IMPORTER, IPADIC, images.ipadic])
    run([IMPORTER, "--user", images.ipadic, "--out", images.user, lexicon])
    run([IMPORTER, SAMPLE, images.sample])
    return images


def absent_parts() -> Dict[str, str]:
    """Returns what is not installed, and what is left out without it."""
    parts = {
        "clang": (bool(shutil.which("clang")), "the build by clang"),
        "mecab": (
            MECAB_HEADER.exists() and Path(Programs().mecab_dict_index).exists(),
            "libmecab-dev or mecab-utils is missing: the comparison with MeCab",
        ),
        "valgrind": (bool(shutil.which("valgrind")), "valgrind is missing: its test of memory"),
        "libasan": (bool(sanitizers.sanitizer_library()), "libasan is missing: the sanitizers"),
        "manpages-ja": (MANUAL_PAGES.exists(), "manpages-ja is missing: lines that are not random"),
    }
    for name in PACKAGES:
        parts[name] = (
            folder_of(name) is not None,
            f"{PACKAGES[name]} is missing: the comparison with {name}",
        )
    return {name: what for name, (is_there, what) in parts.items() if not is_there}


def make_dictionaries(folder: Path, images: Images, unidic: Optional[Path]) -> List[Dictionary]:
    """Returns the dictionaries that are compared, of which IPADIC is the first."""
    folder.mkdir()
    (folder / "ipadic.img").symlink_to(images.ipadic)
    made = [make_dictionary(name, folder) for name in chosen_names(unidic, folder)]
    return [dictionary for dictionary in made if dictionary]


def check(folder: Path, options: argparse.Namespace, absent: Dict[str, str]) -> Result:
    """Runs all checks but those of absent parts."""
    prefix = folder / "prefix"
    images_folder = folder / "share" / "kumquatsieve"
    images_folder.mkdir(parents=True)
    run([TOP / "packaging/build-library", *(["--built"] if options.built else []), prefix])
    os.environ["PKG_CONFIG_PATH"] = str(prefix / "lib" / "pkgconfig")
    images = make_images(images_folder)
    server = Server(folder / "server", {"XDG_DATA_HOME": str(folder / "share")})
    server.install()
    compilers = [name for name in ("gcc", "clang") if name not in absent]
    count = builds.check_compilers(folder, compilers)
    wrong = builds.check_exports(server.sources / "kumquatsieve.so") + builds.check_sizes()
    with server:
        server.sql("CREATE EXTENSION kumquatsieve")
        wrong += server.installcheck()
        count += len(list((server.sources / "sql").glob("*.sql")))
        (folder / "sources").mkdir()
        sources = Sources(IPADIC, folder / "sources")
        comparison.fill(server, comparison.texts(sources, options.lines))
        cases, found = behavior.check(server, images, behavior.CASES + memory.CASES)
        count, wrong = count + cases, wrong + found
        if "valgrind" not in absent:
            cases, found = sanitizers.check_valgrind(server, images)
            count, wrong = count + cases, wrong + found
        if "mecab" not in absent:
            dictionaries = make_dictionaries(folder / "dictionaries", images, options.unidic)
            cases, found = comparison.compare(server, dictionaries, prefix / "include")
            count, wrong = count + cases, wrong + found
        if "libasan" not in absent:
            cases, found = sanitizers.check_sanitizers(server, images, folder)
            count, wrong = count + cases, wrong + found
    return count, wrong


def main() -> int:
    options = parsed_options()
    needed = missing() or (None if (IPADIC / "matrix.def").exists() else "mecab-ipadic is missing")
    if needed:
        end_left_out(needed)
    absent = absent_parts()
    folders = {program(name).parent for name in ("dictc", "jseg")}
    os.environ["PATH"] = ":".join([*map(str, folders), os.environ["PATH"]])
    with tempfile.TemporaryDirectory() as folder:
        Path(folder).chmod(0o755)
        count, wrong = check(Path(folder), options, absent)
    for message in wrong:
        print(f"postgresql: {message}", file=sys.stderr)
    for part in absent.values():
        leave_out(part)
    print(f"postgresql: {count} cases, {len(wrong)} failed")
    return 1 if wrong else LEFT_OUT if absent else 0


if __name__ == "__main__":
    sys.exit(main())
