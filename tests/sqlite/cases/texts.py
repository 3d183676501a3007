"""Compares the index with MeCab's words: tokens, offsets, terms, queries and highlights."""
import random
from collections import Counter
from pathlib import Path
from typing import Sequence

from compare_with_mecab.texts import common_lines, manual_pages
from sqlite.cases.building import expect, report
from sqlite.cases.database import Database, Value, create_index
from sqlite.cases.dictionaries import Dictionary
from sqlite.cases.model import Document, Index, Options, Word, mecab_words, tokens_of
from sqlite.cases.tokenizer import PREFIX, QUERY, Token, Tokenizer

# How many lines are compared over IPADIC, and over each other dictionary.
LINES, LINES_OF_OTHERS = 20_000, 2_000
STOPS = ("助詞", "助動詞", "記号", "補助記号", "特殊", "名詞,非自立")
SETTINGS = [
    Options(),
    Options(STOPS, "colocated", True),
    Options(STOPS[:1], "only"),
    Options((), "colocated"),
]
# Rows have so many lines, so that most have several.
LINES_OF_ROWS = (1, 2, 7)
QUERIES = 250


def sample_lines() -> list[bytes]:
    """Returns lines of the Japanese manual pages, always the same."""
    lines = [line for line in common_lines(manual_pages()).split(b"\n") if line]
    return random.Random(1).sample(lines, min(LINES, len(lines)))


def rows_of(lines: Sequence[bytes], words: Sequence[list[Word]]) -> list[tuple[bytes, list[Word]]]:
    """Joins lines to the texts of rows, whose words have offsets in the text."""
    rows: list[tuple[bytes, list[Word]]] = []
    at = 0
    while at < len(lines):
        count = LINES_OF_ROWS[len(rows) % len(LINES_OF_ROWS)]
        text, joined = b"", list[Word]()
        for line, line_words in zip(lines[at : at + count], words[at : at + count]):
            start = len(text)
            joined += [
                word._replace(start=word.start + start, end=word.end + start) for word in line_words
            ]
            text += line + b"\n"
        rows.append((text, joined))
        at += count
    return rows


def check_words(
    database: Database, dictionary: Dictionary, rows: Sequence[tuple[bytes, list[Word]]]
) -> None:
    """kumquatsieve_words has MeCab's words with their features and offsets."""
    sql = 'SELECT surface, feature, start, "end" FROM kumquatsieve_words(?1, ?2)'
    count = 0
    for text, words in rows:
        wanted = [
            (text[word.start : word.end], word.feature.encode(), word.start, word.end)
            for word in words
        ]
        expect("words", wanted, database.rows(sql, str(dictionary.image), text))
        count += len(words)
    report(f"{dictionary.name}: kumquatsieve_words has {count} words of {len(rows)} texts as MeCab")


def check_terms(database: Database, documents: Sequence[list[Token]]) -> None:
    """fts5vocab lists each term of each position, and no other."""
    wanted: Counter[tuple[Value, ...]] = Counter()
    for row, tokens in enumerate(documents, 1):
        position = -1
        for token in tokens:
            position += not token.is_colocated
            wanted[token.text, row, position] += 1
    database.run("CREATE VIRTUAL TABLE v USING fts5vocab(t, instance)")
    found = Counter(database.rows("SELECT term, doc, offset FROM v"))
    expect("terms that differ", [], list((wanted - found) + (found - wanted))[:5])
    database.run("INSERT INTO t(t) VALUES('integrity-check')")


def queries_of(rows: Sequence[tuple[bytes, list[Word]]], choose: random.Random) -> list[bytes]:
    """Returns parts of the texts: words in a row, and stretches that cut words."""
    found: list[bytes] = []
    while len(found) < QUERIES:
        text, words = choose.choice(rows)
        if not words:
            continue
        first = choose.randrange(len(words))
        some = words[first : first + choose.choice((1, 1, 2, 3, 5))]
        part = text[some[0].start : some[-1].end]
        if choose.random() < 0.4:
            characters = part.decode()
            part = characters[: choose.randint(1, len(characters))].encode()
        found.append(part)
    return found


def check_queries(
    database: Database, tokenizer: Tokenizer, index: Index, queries: Sequence[bytes]
) -> int:
    """Phrases and prefixes find the rows that the model finds, and mark the same bytes."""
    count = 0
    sql = "SELECT rowid, highlight(t, 0, '[', ']') FROM t WHERE t MATCH ?1 ORDER BY rowid"
    for number, query in enumerate(queries):
        is_prefix = number % 2 == 1
        flags = QUERY | PREFIX if is_prefix else QUERY
        phrase = [token.text for token in tokenizer.tokens(query, flags)]
        matches = index.matches(phrase, is_prefix) if phrase else {}
        wanted = [
            (row + 1, index.documents[row].highlighted(starts, len(phrase)))
            for row, starts in matches.items()
        ]
        quoted = b'"' + query.replace(b'"', b'""') + b'"' + (b" *" if is_prefix else b"")
        found = database.rows(sql, quoted)
        if wanted != found:
            expect(f"rows of {quoted.decode()}", len(wanted), len(found))
            expect(quoted.decode(), *next(pair for pair in zip(wanted, found) if len({*pair}) > 1))
        count += len(wanted)
    return count


def check_setting(
    extension: Path,
    dictionary: Dictionary,
    options: Options,
    rows: Sequence[tuple[bytes, list[Word]]],
) -> None:
    """Indexes the texts with these options, and compares everything with the model."""
    image = dictionary.image
    with Database(extension) as database:
        arguments = ["dict", str(image), *options.arguments()]
        tokenizer = Tokenizer(database, arguments)
        create_index(database, f"dict '{image}' {options.sql()}", "prefix='1 2'")
        database.run("BEGIN")
        documents = []
        for text, words in rows:
            tokens = list(tokens_of(text, words, options))
            expect("tokens", tokens, tokenizer.tokens(text))
            documents.append(tokens)
            database.run("INSERT INTO t VALUES(?1)", text)
        database.run("COMMIT")
        check_terms(database, documents)
        index = Index([Document(text, tokens) for (text, _), tokens in zip(rows, documents)])
        queries = queries_of(rows, random.Random(2))
        found = check_queries(database, tokenizer, index, queries)
        tokenizer.close()
        count = sum(map(len, documents))
    report(
        f"{dictionary.name}, {' '.join(options.arguments())}: {count} tokens with their offsets "
        f"as by MeCab, {len(queries)} queries with {found} rows"
    )


def check_texts(extension: Path, dictionary: Dictionary) -> None:
    """Compares lines of the manual pages. Over other dictionaries than IPADIC they are fewer."""
    lines, settings = sample_lines(), SETTINGS
    if dictionary.name != "ipadic":
        lines, settings = lines[:LINES_OF_OTHERS], SETTINGS[1:3]
    rows = rows_of(lines, mecab_words(dictionary.command(), lines))
    with Database(extension) as database:
        check_words(database, dictionary, rows)
    for options in settings:
        base_field = dictionary.base_field
        check_setting(extension, dictionary, options._replace(base_field=base_field), rows)
