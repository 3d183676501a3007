"""PostgreSQL's full-text search with the extension, beside the same extension over MeCab's library.

Each dictionary that is installed has three tables, in milliseconds and MB (1,000,000 bytes):

- an index of --lines lines of the Japanese manual pages: the time of CREATE INDEX (GIN), the size
  of the index, and the median time of 100 queries for words of the lines. Beside it are
  PostgreSQL's configuration `simple`, whose parser splits at blanks, and pg_trgm, which finds the
  words by LIKE.
- the first query of a connection: the least and the median of --rounds connections. `preloaded` is
  a server that has the extension in shared_preload_libraries.
- the memory of --connections connections that have segmented 200 lines, over that of as many that
  have used `simple`: the sum of their Pss, in which a page that n processes share counts as 1/n,
  and the sum of what is private to them.

The least time of --rounds rounds counts, in which all take turns. Each server is one of
tests/postgresql, on a socket in a temporary folder. The images are NAME.img of the folder that
--images names, or are imported for the run.

Needs: what tests/postgresql/run.py needs, and Debian's compiled mecab-ipadic-utf8 or unidic-mecab.
"""
import argparse
import os
import re
import statistics
import subprocess
import sys
import tempfile
from pathlib import Path
from typing import Dict, Iterator, List, NamedTuple, Optional

from measure.rows import MB
from measure.saved import add_save_option, note
from start import DICTIONARIES, MECAB, SOURCES, memory_of

from compare_with_mecab.texts import common_lines, manual_pages
from postgresql.comparison import fill, install_over_mecab
from postgresql.server import Server, missing
from support.running import IMPORTER, LEFT_OUT, TOP, program
from support.running import run as run_command

# The number of the field with the base form, for the extension over MeCab's library.
BASE_FIELDS = {"ipadic": "6", "unidic": "10"}
TIME = re.compile(r"^Time: ([\d.]+) ms", re.M)
QUERIES = 100
SENTENCE = "東京大学へ行った。"
# Words of the lines, for which queries search.
WORDS = f"""SELECT word FROM ts_stat('SELECT to_tsvector(''japanese'', line) FROM lines')
    WHERE ndoc BETWEEN 3 AND 300 AND word ~ '^[ぁ-んァ-ヶー一-龠]{{2,}}$'
    ORDER BY md5(word) LIMIT {QUERIES}"""


class Side(NamedTuple):
    """A server, and what is indexed and searched in it. `{}` in a condition is the word."""

    name: str
    server: Server
    settings: str
    indexed: str
    condition: str


def text_side(name: str, server: Server, settings: str, configuration: str) -> Side:
    vector = f"to_tsvector('{configuration}', line)"
    condition = f"{vector} @@ plainto_tsquery('{configuration}', '{{}}')"
    return Side(name, server, settings, f"gin ({vector})", condition)


def times(side: Side, text: str) -> List[float]:
    """Returns the milliseconds of each command of SQL."""
    done = side.server.psql(f"{side.settings};\n\\timing on\n{text}")
    if done.returncode != 0:
        sys.exit(f"bench/run postgresql: {side.name}: {done.stderr}")
    return [float(found) for found in TIME.findall(done.stdout)]


def measure_indexes(name: str, sides: List[Side], rounds: int) -> None:
    """Prints the times and the sizes of indexes, and the times of queries."""
    words = sides[0].server.sql(f"{sides[0].settings}; {WORDS}").split()
    builds: Dict[str, List[float]] = {side.name: [] for side in sides}
    searches: Dict[str, List[float]] = {side.name: [] for side in sides}
    sizes = {}
    for _ in range(rounds):
        for side in sides:
            text = f"VACUUM ANALYZE lines;\nCREATE INDEX searched ON lines USING {side.indexed};\n"
            builds[side.name].append(times(side, text)[-1])
            sizes[side.name] = int(side.server.sql("SELECT pg_relation_size('searched')"))
            queries = [f"SELECT count(*) FROM lines WHERE {side.condition.format(word)};\n"
                       for word in words]  # fmt: skip
            # The first query of a connection loads the dictionary.
            text = "SET enable_seqscan = off;\n" + queries[0] + "".join(queries)
            searches[side.name].append(statistics.median(times(side, text)[2:]))
            side.server.sql("DROP INDEX searched")
    print(f"\n| index, {name} | ms | MB | ms of a query |\n|---|---|---|---|")
    for side in sides:
        build, search = min(builds[side.name]), min(searches[side.name])
        size = sizes[side.name] / MB
        print(f"| {side.name} | {build:.0f} | {size:.1f} | {search:.2f} |")
        note("postgresql index", name, side.name, build=build, megabytes=size, search=search)


def measure_connections(name: str, sides: List[Side], rounds: int) -> None:
    """Prints the times of the first queries of connections."""
    found: Dict[str, List[float]] = {side.name: [] for side in sides}
    for _ in range(rounds):
        for side in sides:
            query = f"SELECT {side.condition.format(SENTENCE)} FROM (VALUES ('{SENTENCE}')) t(line)"
            found[side.name].append(times(side, query + ";\n")[-1])
    print(f"\n| first query, {name} | ms, least | median |\n|---|---|---|")
    for side in sides:
        least, median = min(found[side.name]), statistics.median(found[side.name])
        print(f"| {side.name} | {least:.1f} | {median:.1f} |")
        note("postgresql first query", name, side.name, least=least, median=median)


def memory_together(side: Side, count: int) -> Iterator[float]:
    """Yields the MB of `count` connections that have parsed lines: all, and the private ones."""
    words = ["psql", "-X", "-q", "-A", "-t"]
    vector = side.condition.split(" @@ ")[0]
    query = (
        f"{side.settings};\nSELECT sum(length({vector})) FROM (SELECT line FROM lines LIMIT 200) t"
    )
    running = [
        subprocess.Popen(
            words,
            env=side.server.environment,
            stdin=subprocess.PIPE,
            stdout=subprocess.PIPE,
            text=True,
        )
        for _ in range(count)
    ]
    pids = []
    for process in running:
        assert process.stdin and process.stdout
        process.stdin.write(f"{query};\nSELECT 'pid ' || pg_backend_pid();\n")
        process.stdin.flush()
        line = process.stdout.readline()
        while not line.startswith("pid "):
            line = process.stdout.readline()
        pids.append(int(line.split()[1]))
    for fields in (["Pss"], ["Private_Clean", "Private_Dirty"]):
        yield sum(memory_of(pid, fields) for pid in pids) / MB
    for process in running:
        process.communicate()


def measure_memory(name: str, sides: List[Side], count: int) -> None:
    """Prints the memory of connections, over that of the last side's."""
    found = {side.name: list(memory_together(side, count)) for side in sides}
    base = found[sides[-1].name]
    print(f"\n| MB of {count} connections, {name} | Pss | private |\n|---|---|---|")
    for side in sides[:-1]:
        pss, private = (one - other for one, other in zip(found[side.name], base))
        print(f"| {side.name} | {pss:.1f} | {private:.1f} |")
        note("postgresql memory", name, side.name, megabytes=pss, private=private)


def make_image(name: str, folder: Path) -> Optional[Path]:
    """Returns the path of a dictionary's image, or None if the dictionary is not installed."""
    compiled, sources = DICTIONARIES[name]
    if not (MECAB / compiled / "sys.dic").exists() or not (SOURCES / sources).exists():
        print(f"bench/run postgresql: {name} is not installed, and left out", file=sys.stderr)
        return None
    image = folder / f"{name}.img"
    if not image.exists():
        run_command([IMPORTER, SOURCES / sources, image])
    return image


def start_servers(folder: Path) -> List[Server]:
    """Returns a server with the extension, one over MeCab's library, and one that preloads."""
    prefix = folder / "prefix"
    run_command([TOP / "packaging/build-library", "--built", prefix], stderr=subprocess.DEVNULL)
    os.environ["PKG_CONFIG_PATH"] = str(prefix / "lib" / "pkgconfig")
    servers = []
    for name in ("ours", "theirs", "preloaded"):
        (folder / name).mkdir()
        servers.append(Server(folder / name))
    servers[0].install()
    servers[2].install()
    install_over_mecab(servers[1], prefix / "include")
    return servers


def measure(name: str, image: Path, servers: List[Server], options: argparse.Namespace) -> None:
    """Measures a dictionary."""
    ours, theirs, preloaded = servers
    preloaded.restart(kumquatsieve__dictionary=str(image), shared_preload_libraries="kumquatsieve")
    theirs.environment["KUMQUATSIEVE_BASE_FIELD"] = BASE_FIELDS[name]
    theirs.restart()
    set_to, unset = "SET kumquatsieve.dictionary = '{}'".format, "RESET jit"
    own = text_side("ours", ours, set_to(image), "japanese")
    mecab = set_to(MECAB / DICTIONARIES[name][0])
    other = text_side("over libmecab", theirs, mecab, "japanese")
    early = text_side("ours, preloaded", preloaded, unset, "japanese")
    simple = text_side("`simple`", ours, unset, "simple")
    trigrams = Side("pg_trgm", ours, unset, "gin (line gin_trgm_ops)", "line LIKE '%{}%'")
    measure_indexes(name, [own, other, simple, trigrams], options.rounds)
    measure_connections(name, [own, early, other, simple], options.rounds)
    measure_memory(name, [own, early, other, simple], options.connections)


def add_options(parser: argparse.ArgumentParser) -> None:
    parser.add_argument("--lines", type=int, default=20_000, metavar="N")
    parser.add_argument("--rounds", type=int, default=5, metavar="N")
    parser.add_argument("--connections", type=int, default=8, metavar="N")
    parser.add_argument("--images", type=Path, metavar="FOLDER")
    parser.add_argument("dictionaries", nargs="*", metavar="NAME", default=list(DICTIONARIES))
    add_save_option(parser)


def run(options: argparse.Namespace) -> int:
    needed = missing()
    if needed:
        print(f"bench/run postgresql: {needed}: nothing was measured", file=sys.stderr)
        return LEFT_OUT
    folders = {program(name).parent for name in ("dictc", "jseg")}
    os.environ["PATH"] = ":".join([*map(str, folders), os.environ["PATH"]])
    lines = common_lines(manual_pages()).decode().split("\n")[: options.lines]
    measured = 0
    with tempfile.TemporaryDirectory() as made:
        folder = Path(made)
        folder.chmod(0o755)
        servers = start_servers(folder)
        with servers[0], servers[1], servers[2]:
            for server in servers:
                server.sql("CREATE EXTENSION kumquatsieve; CREATE EXTENSION pg_trgm")
                fill(server, lines)
            for name in options.dictionaries:
                image = make_image(name, Path(options.images or folder).resolve())
                if image is not None:
                    measure(name, image, servers, options)
                    measured += 1
    return 0 if measured else LEFT_OUT
