"""What the extension does in a server: settings, errors, memory, cancelled queries and dumps."""
import shutil
import subprocess
import sys
import time
from pathlib import Path
from typing import Callable, Iterator, List, NamedTuple, Sequence, Tuple

from postgresql.server import INSTALLED, Server
from support.running import run

SENTENCE = "東京大学へ行った。"
VECTOR = "'東京大学':1 '行く':3"
QUERY = f"SELECT to_tsvector('japanese', '{SENTENCE}')"
# A text of one line, and how long its cancelled query may take.
LONG = "repeat('すもももももももものうち。', 3000000)"
CANCEL_SECONDS = 10
RELOAD_SECONDS = 10
CONNECTIONS = 8
# The memory of the process, as its own query reads it.
MEMORY = """SELECT substring(pg_read_file('/proc/self/status') FROM '{}:\\s+(\\d+)')"""


class Images(NamedTuple):
    """Paths of images: two system dictionaries, and a user dictionary for the first."""

    ipadic: Path
    sample: Path
    user: Path


# Yields what is wrong.
Case = Callable[[Server, Images], Iterator[str]]


def expect(what: str, found: str, *wanted: str) -> Iterator[str]:
    """Yields a message for each text that a result lacks."""
    for text in wanted:
        if text not in found:
            yield f"{what}: '{text}' is not in '{found.strip()}'"


def user_dictionaries(server: Server, images: Images) -> Iterator[str]:
    """Words of a user dictionary are tokens, also those of ASCII characters."""
    texts = "to_tsvector('japanese', 'C++とc++20でくまきゅうを書く')"
    yield from expect("no user dictionary", server.sql(f"SELECT {texts}"), "'c':1", "'書く':")
    found = server.sql(
        f"SET kumquatsieve.user_dictionaries = '{images.user}'; SELECT {texts};"
        "SELECT is_user, entries FROM kumquatsieve_dictionary_info()"
    )
    yield from expect("user dictionary", found, "'c++':1", "'くまきゅう':", "t|2")
    error = server.error(
        f"LOAD 'kumquatsieve'; SET kumquatsieve.dictionary = '{images.sample}';"
        f"SET kumquatsieve.user_dictionaries = '{images.user}'"
    )
    yield from expect("another system dictionary", error, "O3 OtherSizes", "HINT:")


def settings_of_databases(server: Server, images: Images) -> Iterator[str]:
    """A dictionary of a database is that of all its users, and another one is an error."""
    info = "SELECT sha256 FROM kumquatsieve_dictionary_info()"
    wanted = server.sql(info).strip()
    server.sql(f"ALTER DATABASE test SET kumquatsieve.expected_sha256 = '{wanted}'; CREATE ROLE u")
    yield from expect("the same dictionary", server.sql(f"SET ROLE u; {QUERY}"), VECTOR)
    server.sql(f"ALTER DATABASE test SET kumquatsieve.dictionary = '{images.sample}'")
    for role in ("postgres", "u"):
        error = server.error(f"SET ROLE {role}; {QUERY}")
        yield from expect("another dictionary", error, "not the one that is expected", "HINT:")
    other = server.sql(f"SET ROLE u; {info}").strip()
    yield from expect("the expected checksum", server.error(QUERY), f"is {wanted}", other)
    server.sql("ALTER DATABASE test RESET ALL")


def indexes_of_databases(server: Server, images: Images) -> Iterator[str]:
    """An index of another dictionary rejects queries and rows, as docs/SEARCH.md describes."""
    lasting = (
        "SELECT format('ALTER DATABASE test SET kumquatsieve.expected_sha256 = %L',"
        " string_agg(sha256, ',' ORDER BY number)) FROM kumquatsieve_dictionary_info() \\gexec"
    )
    query = "SELECT body FROM indexed WHERE to_tsvector('japanese', body) @@ plainto_tsquery("
    query += "'japanese', '行く')"
    server.sql(f"{lasting}\nCREATE TABLE indexed (body text); INSERT INTO indexed VALUES"
               f" ('{SENTENCE}'); CREATE INDEX ON indexed USING gin (to_tsvector('japanese',"
               " body))")  # fmt: skip
    yield from expect("its dictionary", server.sql(query), SENTENCE)
    server.sql(f"ALTER DATABASE test SET kumquatsieve.dictionary = '{images.sample}'")
    for sql in (query, "INSERT INTO indexed VALUES ('犬')"):
        yield from expect(sql, server.error(sql), "not the one that is expected", "HINT:")
    yield from expect("its rows", server.sql("SELECT body FROM indexed"), SENTENCE)
    server.sql("ALTER DATABASE test RESET kumquatsieve.dictionary")
    yield from expect("its dictionary again", server.sql(query), SENTENCE)
    server.sql(f"ALTER DATABASE test SET kumquatsieve.user_dictionaries = '{images.user}'")
    yield from expect("a user dictionary", server.error(query), "not the one that is expected")
    server.sql("DROP TABLE indexed; ALTER DATABASE test RESET ALL")


def unknown_name(images: Images) -> str:
    """Returns the detail and the hint of the name no_such_image, which no image has."""
    own, prefix = images.ipadic.parent, images.ipadic.parents[2] / "prefix"
    return (
        f"DETAIL:  no_such_image: no such image; searched {own}, {prefix}/var/lib/kumquatsieve, "
        f"{prefix}/share/kumquatsieve; available images: ipadic, user (F1 File).\n"
        "HINT:  Name an image that kumquatsieve-import has installed, or the path of an image.\n"
    )


def placeholders(server: Server, images: Images) -> Iterator[str]:
    """A setting that was made before the library was loaded is reported when it is used."""
    error = server.error(f"SET kumquatsieve.dictionary = 'no_such_image'; {QUERY}")
    yield from expect("before the library", error, "could not open", unknown_name(images))
    found = server.psql(
        f"CREATE ROLE reader; SET ROLE reader; SET kumquatsieve.dictionary = 'x'; {QUERY}"
    )
    yield from expect("without the right", found.stdout, VECTOR)
    yield from expect("without the right", found.stderr, "permission denied")


def configuration_file(server: Server, images: Images) -> Iterator[str]:
    """An invalid dictionary in the configuration file is an error of each use."""
    server.restart(kumquatsieve__dictionary="no_such_image")
    yield from expect("configuration file", server.error(QUERY), "no_such_image", "HINT:")
    server.restart(shared_preload_libraries="kumquatsieve")
    yield from expect("preloaded", server.log(), "WARNING:  could not open the dictionary")
    yield from expect("preloaded", server.error(QUERY), "no_such_image", "HINT:")
    server.restart(kumquatsieve__dictionary=str(images.ipadic))
    found = server.sql(
        f"{QUERY}; SELECT pg_read_file('/proc/' || pid || '/maps') FROM "
        "(SELECT split_part(pg_read_file('postmaster.pid'), E'\\n', 1) AS pid) of"
    )
    yield from expect("preloaded", found, VECTOR, str(images.ipadic))
    error = server.error("ALTER SYSTEM SET kumquatsieve.dictionary = 'no_such_image'")
    yield from expect("ALTER SYSTEM", error, "invalid value", "no_such_image")
    yield from removed_images(server, images)
    server.restart(shared_preload_libraries="", kumquatsieve__dictionary=str(images.ipadic))


def removed_images(server: Server, images: Images) -> Iterator[str]:
    """No other dictionary replaces one that is gone, also in a server that preloads one."""
    gone = server.folder / "gone.img"
    shutil.copy(images.ipadic, gone)
    server.sql(f"ALTER DATABASE test SET kumquatsieve.dictionary = '{gone}'")
    gone.unlink()
    yield from expect("image of a database", server.error(QUERY), "could not open", "gone.img")
    server.sql("ALTER DATABASE test RESET ALL")
    server.configure(kumquatsieve__dictionary="no_such_image")
    server.command(["pg_ctl", "reload", "-D", server.data])
    end = time.monotonic() + RELOAD_SECONDS
    while server.sql("SHOW kumquatsieve.dictionary") != "no_such_image\n":
        if time.monotonic() > end:
            yield "reloaded: the setting is not accepted"
            return
        time.sleep(0.1)
    yield from expect("reloaded", server.error(QUERY), "could not open", "no_such_image")


def damaged_images(server: Server, images: Images) -> Iterator[str]:
    """Images that are cut off, and those of other users' files, are errors."""
    cut = server.folder / "cut.img"
    cut.write_bytes(images.sample.read_bytes()[:-100])
    error = server.error(f"LOAD 'kumquatsieve'; SET kumquatsieve.dictionary = '{cut}'")
    yield from expect("damaged image", error, "L1 Truncated", "HINT:  Copy the image again")
    cut.chmod(0)
    error = server.error(f"LOAD 'kumquatsieve'; SET kumquatsieve.dictionary = '{cut}'")
    yield from expect("unreadable image", error, "Permission denied", "HINT:  Let the user that")


def encodings(server: Server, _: Images) -> Iterator[str]:
    """Databases with other encodings are rejected, by the script and by the library."""
    options = "LC_COLLATE 'C' LC_CTYPE 'C' TEMPLATE template0"
    for encoding in ("EUC_JP", "SQL_ASCII"):
        name = f"other_{encoding.lower()}"
        server.sql(f"CREATE DATABASE {name} ENCODING '{encoding}' {options}")
        error = server.error("CREATE EXTENSION kumquatsieve", name)
        yield from expect(encoding, error, "the encoding UTF8", encoding, "HINT:  Create a")
        error = server.error(
            "CREATE FUNCTION info() RETURNS SETOF record LANGUAGE C AS '$libdir/kumquatsieve',"
            "'dictionary_info'; SELECT info()",
            name,
        )
        yield from expect(encoding, error, "the encoding UTF8", encoding, "HINT:  Create a")


def cancelled(server: Server, _: Images) -> Iterator[str]:
    """A query of a long text ends when it is cancelled, and the process goes on."""
    start = time.monotonic()
    text = f"SET statement_timeout = '300ms'; SELECT to_tsvector('japanese', {LONG})"
    found = server.psql(f"{text};\n{QUERY}", "-v", "ON_ERROR_STOP=0")
    yield from expect("cancelled", found.stderr, "canceling statement due to statement timeout")
    yield from expect("after that", found.stdout, VECTOR)
    if time.monotonic() - start > CANCEL_SECONDS:
        yield f"cancelled: after {time.monotonic() - start:.0f} s"


def connections(server: Server, _: Images) -> Iterator[str]:
    """Several connections at a time have the same results."""
    words = [
        "psql",
        "-X",
        "-q",
        "-A",
        "-t",
        "-c",
        "SELECT sum(hashtext(to_tsvector('japanese', "
        "line)::text)) FROM (SELECT line FROM lines ORDER BY number LIMIT 3000) AS texts",
    ]
    running = [
        subprocess.Popen(words, env=server.environment, stdout=subprocess.PIPE)
        for _ in range(CONNECTIONS)
    ]
    found = {one.communicate()[0] for one in running}
    if len(found) != 1 or found == {b""}:
        yield f"{CONNECTIONS} connections have {len(found)} results"


def parallel_workers(server: Server, images: Images) -> Iterator[str]:
    """Workers of a parallel query have the dictionary of the session."""
    query = "SELECT sum(hashtext(to_tsvector('japanese', line)::text)) FROM lines"
    settings = (
        "SET max_parallel_workers_per_gather = {}; SET min_parallel_table_scan_size = 0;"
        f" SET parallel_setup_cost = 0; SET kumquatsieve.dictionary = '{images.ipadic}';"
    )
    parallel = settings.format(2)
    yield from expect("plan", server.sql(f"{parallel} EXPLAIN {query}"), "Workers Planned: 2")
    found = server.sql(f"{parallel} {query}")
    yield from expect("parallel query", found, server.sql(f"{settings.format(0)} {query}"))


def dumps(server: Server, _: Images) -> Iterator[str]:
    """A database with the extension, a configuration and an index can be dumped and restored."""
    server.sql(
        "CREATE TEXT SEARCH CONFIGURATION ours (COPY = japanese);"
        "CREATE TABLE kept (body text, words tsvector GENERATED ALWAYS AS"
        " (to_tsvector('ours', body)) STORED);"
        f"INSERT INTO kept VALUES ('{SENTENCE}'); CREATE INDEX ON kept USING gin (words);"
        "CREATE DATABASE restored TEMPLATE template0;"
    )
    dump = run([INSTALLED / "bin" / "pg_dump", "-t", "kept", "-e", "kumquatsieve"],
               env=server.environment).decode()  # fmt: skip
    server.sql("CREATE EXTENSION kumquatsieve; CREATE TEXT SEARCH CONFIGURATION ours (COPY ="
               " japanese)", "restored")  # fmt: skip
    server.sql(dump, "restored")
    yield from expect("restored", server.sql("SELECT words FROM kept", "restored"), VECTOR)


def objects(server: Server, database: str) -> List[str]:
    """Returns the objects of the extension."""
    return server.sql(
        "SELECT pg_describe_object(classid, objid, 0) FROM pg_depend JOIN pg_extension ext"
        " ON refobjid = ext.oid WHERE deptype = 'e' AND extname = 'kumquatsieve' ORDER BY 1",
        database,
    ).splitlines()


def updates(server: Server, _: Images) -> Iterator[str]:
    """An update from each older version gives the objects of a new installation."""
    newest = objects(server, "test")
    versions = server.sql(
        "SELECT version FROM pg_available_extension_versions WHERE name = 'kumquatsieve'"
    ).split()
    for version in versions:
        name = f"version_{version.replace('.', '_')}"
        server.sql(f"CREATE DATABASE {name} TEMPLATE template0")
        server.sql(f"CREATE EXTENSION kumquatsieve VERSION '{version}'", name)
        server.sql("ALTER EXTENSION kumquatsieve UPDATE", name)
        if objects(server, name) != newest:
            yield f"an update from {version} gives other objects"
        yield from expect(f"version {version}", server.sql(QUERY, name), VECTOR)
        server.sql("DROP EXTENSION kumquatsieve", name)
        if objects(server, name):
            yield f"version {version} leaves objects behind"


CASES = (
    user_dictionaries, settings_of_databases, indexes_of_databases, placeholders, damaged_images,
    encodings, cancelled, connections, parallel_workers, dumps, updates, configuration_file,
)  # fmt: skip


def check(server: Server, images: Images, cases: Sequence[Case]) -> Tuple[int, List[str]]:
    """Returns how many cases there are, and what is wrong."""
    wrong: List[str] = []
    for case in cases:
        found = list(case(server, images))
        wrong += [f"{case.__name__}: {message}" for message in found]
        print(f"postgresql: {case.__name__}", file=sys.stderr, flush=True)
    return len(cases), wrong
