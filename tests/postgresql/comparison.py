"""The extension over the library beside the extension over MeCab's library, on the same lines."""
import sys
from itertools import zip_longest
from pathlib import Path
from typing import List, Sequence, Tuple

from compare_with_mecab.dictionaries import Sources
from compare_with_mecab.texts import common_lines, manual_pages, random_text
from postgresql.server import Server
from sqlite.cases.dictionaries import Dictionary
from support.running import run

SHIM = Path(__file__).resolve().parent / "over_mecab.c"
SEED = 75
# Over other dictionaries than the first, each tenth text is compared.
EACH = 10
# So many lines are also a text of several lines.
TOGETHER = 50
# What is compared, for each text.
QUERIES = {
    "tokens": """SELECT string_agg(tokid || ' ' || token, ', ' ORDER BY place)
        FROM ts_parse('kumquatsieve', line) WITH ORDINALITY parsed(tokid, token, place)""",
    "vectors": "SELECT to_tsvector('japanese', line)",
    "queries": "SELECT plainto_tsquery('japanese', left(line, 40))",
}
# The regression tests in which no word is looked up and no output names an image.
WITHOUT_LOOKUPS = ("parser", "configuration")
# The text of all tokens of a headline is the line, byte for byte.
HEADLINES = """SELECT count(*) FROM lines WHERE {} AND line <> ts_headline(
    'japanese', line, 'x'::tsquery, 'HighlightAll=true, StartSel="", StopSel=""')"""


def texts(sources: Sources, count: int) -> List[str]:
    """Returns `count` lines, and then texts of several of these lines.

    Three quarters are lines of the Japanese manual pages, if these are installed. The others are
    random.
    """
    pages = common_lines(manual_pages()).decode().split("\n")[: count * 3 // 4]
    more = random_text(count - len(pages), SEED, sources.surfaces()).decode()
    lines = pages + more.split("\n")[: count - len(pages)]
    starts = range(0, count, TOGETHER)
    return lines + ["\n".join(lines[start : start + TOGETHER]) for start in starts]


def escaped(line: str) -> str:
    """Returns a line as COPY reads it."""
    for character, escape in (("\\", "\\\\"), ("\t", "\\t"), ("\r", "\\r"), ("\n", "\\n")):
        line = line.replace(character, escape)
    return line


def fill(server: Server, lines: List[str]) -> None:
    """Makes the table `lines`."""
    server.sql("CREATE TABLE lines (number integer GENERATED ALWAYS AS IDENTITY, line text)")
    rows = "".join(escaped(line) + "\n" for line in lines)
    done = server.psql(rows, "-c", "COPY lines (line) FROM STDIN")
    if done.returncode != 0:
        sys.exit(f"comparison: {done.stderr}")


def results(server: Server, dictionary: Path, which: str) -> List[List[str]]:
    """Returns the results of each query for each line that meets a condition."""
    found = []
    for query in QUERIES.values():
        text = (
            f"SET kumquatsieve.dictionary = '{dictionary}';"
            f"COPY (SELECT ({query}) FROM lines WHERE {which} ORDER BY number) TO STDOUT"
        )
        found.append(server.sql(text).split("\n"))
    return found


def install_over_mecab(server: Server, include: Path) -> None:
    """Installs the extension over MeCab's library instead of the one that is installed."""
    made = server.folder / "over_mecab.o"
    flags = ["-O2", "-fPIC", "-Wall", "-Wextra", "-Werror", f"-I{include}"]
    run(["gcc", *flags, "-c", SHIM, "-o", made])
    server.install(f"LIBRARY={made} -lmecab")


def differences(
    name: str, ours: Sequence[Sequence[str]], theirs: Sequence[Sequence[str]]
) -> List[str]:
    """Returns how the results of the queries differ."""
    wrong = []
    for query, one, other in zip(QUERIES, ours, theirs):
        differ = [pair for pair in zip_longest(one, other) if pair[0] != pair[1]]
        if differ:
            wrong.append(f"{name}, {query}: {len(differ)} texts differ, such as {differ[0]}")
    return wrong


def compare(
    server: Server, dictionaries: Sequence[Dictionary], include: Path
) -> Tuple[int, List[str]]:
    """Returns how many texts are compared, and the differences."""
    wrong, ours, count = [], [], 0
    conditions = ["true"] + [f"number % {EACH} = 0" for _ in dictionaries[1:]]
    for one, which in zip(dictionaries, conditions):
        set_to = f"SET kumquatsieve.dictionary = '{one.image}'"
        if server.sql(f"{set_to}; {HEADLINES.format(which)}") != "0\n":
            wrong.append(f"{one.name}: the tokens of a line are not its text")
        ours.append(results(server, one.image, which))
    install_over_mecab(server, include)
    for one, which, own in zip(dictionaries, conditions, ours):
        server.environment["KUMQUATSIEVE_BASE_FIELD"] = str(one.base_field)
        server.restart()
        wrong += differences(one.name, own, results(server, one.mecab, which))
        texts_of_one = len(own[0]) - 1
        print(f"postgresql: {one.name}: {texts_of_one} texts", file=sys.stderr, flush=True)
        count += texts_of_one
    del server.environment["KUMQUATSIEVE_BASE_FIELD"]
    server.restart(kumquatsieve__dictionary=str(dictionaries[0].mecab))
    wrong += [f"over MeCab: {message}" for message in server.installcheck(*WITHOUT_LOOKUPS)]
    return count, wrong
