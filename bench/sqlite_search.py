"""SQLite's full-text search with the extension, beside the same tokenizer over MeCab's library.

IPADIC has a table: the CPU time to insert --lines lines of the Japanese manual pages into an empty
index of FTS5 in memory, the size of the index after `optimize`, and the median time of 100 queries
for words of the lines. The indexes have no content. Beside them are FTS5's tokenizers `unicode61`,
which splits at blanks and punctuation, and `trigram`, which finds parts of at least three
characters. `with options` has stop words, base forms and folding.

The least time of --rounds rounds counts, in which all take turns. A query's rows are those of all
100. The image is imported for the run, unless --image names it. Needs: what tests/sqlite/run.py
needs, libmecab-dev, and Debian's mecab-ipadic and mecab-ipadic-utf8.
"""
import argparse
import os
import random
import statistics
import subprocess
import sys
import tempfile
import time
from pathlib import Path
from typing import List, NamedTuple, Union

from measure.rows import MB
from measure.saved import add_save_option, note
from start import DICTIONARIES, MECAB, SOURCES

from compare_with_mecab.texts import common_lines, manual_pages
from sqlite.cases.building import SOURCES as EXTENSION
from sqlite.cases.building import missing_packages
from sqlite.cases.database import Database
from support.running import IMPORTER, LEFT_OUT, TOP, program
from support.running import run as run_command

SHIM = TOP / "tests" / "postgresql" / "over_mecab.c"
OPTIONS = "stop '助詞,助動詞,記号' base only fold on"
QUERIES = 100


class Side(NamedTuple):
    """A tokenizer with its options, and the extension that has it."""

    name: str
    extension: Path
    tokenize: str


class Result(NamedTuple):
    """Seconds of CPU time to build an index, its size in bytes, milliseconds of a query, rows."""

    build: float
    size: int
    query: float
    rows: int


def measure_once(side: Side, lines: List[bytes], words: List[bytes]) -> Result:
    """Builds an index, and queries it for each word."""
    with Database(side.extension) as database:
        database.run("ATTACH ':memory:' AS texts")
        database.run("CREATE TABLE texts.lines(line)")
        for line in lines:
            database.run("INSERT INTO lines VALUES(?1)", line)
        database.run(
            f'CREATE VIRTUAL TABLE t USING fts5(a, content="", tokenize="{side.tokenize}")'
        )
        start = time.process_time()
        database.run("INSERT INTO t SELECT line FROM lines")
        build = time.process_time() - start
        database.run("INSERT INTO t(t) VALUES('optimize')")
        pages, size = (
            database.value(f"PRAGMA main.{name}") for name in ("page_count", "page_size")
        )
        times, rows = [], 0
        for word in words:
            start = time.perf_counter()
            count = database.value("SELECT count(*) FROM t(?1)", b'"' + word + b'"')
            times.append(time.perf_counter() - start)
            rows += count if isinstance(count, int) else 0
        assert isinstance(pages, int) and isinstance(size, int)
        return Result(build, pages * size, 1000 * statistics.median(times), rows)


def chosen_words(extension: Path, image: Path, lines: List[bytes]) -> List[bytes]:
    """Returns nouns of at least three characters, always the same."""
    sql = "SELECT surface FROM kumquatsieve_words(?1, ?2) WHERE feature LIKE '名詞,一般%'"
    with Database(extension) as database:
        found = {row[0] for row in database.rows(sql, str(image), b"\n".join(lines))}
    words = sorted(word for word in found if isinstance(word, bytes) and len(word.decode()) >= 3)
    return random.Random(1).sample(words, min(QUERIES, len(words)))


def built_extensions(folder: Path) -> List[Path]:
    """Builds the extension over the library, and over MeCab's library."""
    prefix = folder / "prefix"
    run_command([TOP / "packaging/build-library", "--built", prefix], stderr=subprocess.DEVNULL)
    run_command([TOP / "packaging/build-sqlite", prefix], stderr=subprocess.DEVNULL)
    (folder / "over_mecab").mkdir()
    other = folder / "over_mecab" / "kumquatsieve.so"
    command: List[Union[str, Path]] = ["gcc", "-std=gnu11", "-O2", "-fPIC", "-shared"]
    command += ["-fvisibility=hidden", f"-I{prefix / 'include'}", SHIM, *EXTENSION]
    run_command([*command, "-lmecab", "-lutf8proc", "-Wl,-Bsymbolic", "-o", other])
    return [prefix / "lib" / "sqlite3" / "kumquatsieve.so", other]


def print_table(sides: List[Side], results: List[List[Result]]) -> None:
    print("\n| index, ipadic | s | MB | ms of a query | rows |\n|---|---|---|---|---|")
    for side, found in zip(sides, results):
        build, query = min(one.build for one in found), min(one.query for one in found)
        size, rows = found[0].size / MB, found[0].rows
        print(f"| {side.name} | {build:.2f} | {size:.1f} | {query:.3f} | {rows} |")
        note("sqlite index", "ipadic", side.name, build=build, megabytes=size, search=query)


def add_options(parser: argparse.ArgumentParser) -> None:
    parser.add_argument("--lines", type=int, default=20_000, metavar="N")
    parser.add_argument("--rounds", type=int, default=5, metavar="N")
    parser.add_argument("--image", type=Path, metavar="IMAGE")
    add_save_option(parser)


def missing_for_measuring(compiled: Path, sources: Path) -> List[str]:
    """Returns what has to be installed before anything can be measured."""
    needed = [compiled, sources, Path("/usr/include/mecab.h")]
    return missing_packages() + [str(path) for path in needed if not path.exists()]


def sides_of(folder: Path, image: Path, compiled: Path) -> List[Side]:
    """Builds both extensions. Returns the tokenizers, of which the first is ours."""
    ours, theirs = built_extensions(folder)
    own, other = (f"kumquatsieve dict '{path}'" for path in (image, compiled))
    return [
        Side("ours", ours, own),
        Side("over libmecab", theirs, other),
        Side("ours, with options", ours, f"{own} {OPTIONS}"),
        Side("over libmecab, with options", theirs, f"{other} {OPTIONS}"),
        Side("`unicode61`", ours, "unicode61"),
        Side("`trigram`", ours, "trigram"),
    ]


def run(options: argparse.Namespace) -> int:
    compiled, sources = MECAB / DICTIONARIES["ipadic"][0], SOURCES / DICTIONARIES["ipadic"][1]
    missing = missing_for_measuring(compiled, sources)
    if missing:
        names = " and ".join(missing)
        print(f"bench/run sqlite: {names} missing: nothing was measured", file=sys.stderr)
        return LEFT_OUT
    folders = {program(name).parent for name in ("dictc", "jseg")}
    os.environ["PATH"] = ":".join([*map(str, folders), os.environ["PATH"]])
    lines = [line for line in common_lines(manual_pages()).split(b"\n") if line][: options.lines]
    with tempfile.TemporaryDirectory() as made:
        folder = Path(made)
        image = options.image or folder / "ipadic.img"
        if options.image is None:
            run_command([IMPORTER, sources, image], stdout=subprocess.DEVNULL)
        sides = sides_of(folder, image, compiled)
        words = chosen_words(sides[0].extension, image, lines)
        results: List[List[Result]] = [[] for _ in sides]
        for _ in range(options.rounds):
            for side, found in zip(sides, results):
                found.append(measure_once(side, lines, words))
        print_table(sides, results)
    return 0
