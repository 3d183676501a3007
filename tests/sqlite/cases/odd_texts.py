"""Texts of any bytes and sizes: invalid UTF-8, NUL, long lines, megabytes."""
import random
from pathlib import Path

from sqlite.cases.building import Images, expect, report
from sqlite.cases.database import Database, create_index
from sqlite.cases.model import folded
from sqlite.cases.tokenizer import Tokenizer

# Pieces of the texts: words, blanks, and bytes that are no UTF-8.
PIECES = [
    *(piece.encode() for piece in "犬 は 走っ た 。 ＤＯＧ a Ｂ ㈱ ｶﾞ ß ① é 葛󠄀 𠮷 　".split(" ")),
    b" ",
    b"\n",
    b"\r\n",
    b"\t",
    b"\0",
    b"\xff",
    b"\xe3\x81",
    b"\xc0\x80",
    b"\xed\xa0\x80",
    b"\xed\xa1\x82\xed\xbe\xb7",
    b"\xf4\x90\x80\x80",
]
COUNT = 3_000
# Surfaces, and how they are folded: by UAX 44 and UAX 15.
FOLDS = [
    ("ＡＢＣ", "abc"),
    ("ｽﾓﾓ", "スモモ"),
    ("ｶﾞ", "ガ"),
    ("㈱", "(株)"),
    ("①", "1"),
    ("Straße", "strasse"),
    ("ﬁ", "fi"),
    ("ΑΣς", "ασσ"),
    ("é", "é"),
    ("㍿", "株式会社"),
    ("葛\U000e0100", "葛"),
    ("İ", "i̇"),
    ("ﷺ", "صلى الله عليه وسلم"),
    ("ABC", "abc"),
    ("\u200b", "\u200b"),
    ("日本", "日本"),
]
LONG = 1_300_000
# How much more memory there may be after such a line, in KiB. Its search takes 70,000.
MEMORY_MOST = 10_000


def random_text(choose: random.Random) -> bytes:
    return b"".join(choose.choices(PIECES, k=choose.randrange(40)))


def check_any_bytes(extension: Path, images: Images) -> None:
    """Tokens are stretches of the text, in order, and an index of any bytes is sound.

    The words of a text with invalid bytes are those of the text in which U+FFFD replaces each.
    """
    choose = random.Random(3)
    with Database(extension) as database:
        create_index(database, f"dict '{images.system}' fold on base colocated")
        create_index(database, f"dict '{images.system}'", name="plain")
        tokenizer = Tokenizer(database, ["dict", str(images.system)])
        for number in range(COUNT):
            text = random_text(choose)
            at = 0
            for token in tokenizer.tokens(text):
                expect("a token", text[token.start : token.end], token.text)
                if not at <= token.start < token.end <= len(text):
                    expect(f"offsets in {text!r}", "in order", token)
                between = text[at : token.start]
                expect(f"between words of {text!r}", b"", between.strip(b" \t\n\0"))
                at = token.end
            for table in ("t", "plain"):
                database.run(f"INSERT INTO {table}(rowid, a) VALUES(?1, ?2)", number + 1, text)
            sql = "SELECT highlight(plain, 0, '', '') FROM plain('犬') WHERE rowid = ?1"
            found = database.rows(sql, number + 1)
            if "犬".encode() in text and b"\0" not in text:
                expect(f"highlight of {text!r}", [(text,)], found)
        for table in ("t", "plain"):
            database.run(f"INSERT INTO {table}({table}) VALUES('integrity-check')")
            database.run(f"INSERT INTO {table}({table}) VALUES('rebuild')")
            database.run(f"DELETE FROM {table} WHERE rowid % 2")
            database.run(f"INSERT INTO {table}({table}) VALUES('integrity-check')")
        tokenizer.close()
    report(f"{COUNT} texts of any bytes")


def check_utf16(extension: Path, images: Images) -> None:
    """A database in UTF-16 has the same words, offsets in UTF-8, and highlights."""
    text, sql = "犬は\0走った", "SELECT * FROM kumquatsieve_words(?1, ?2)"
    found = []
    for encoding in ("UTF-8", "UTF-16"):
        with Database(extension) as database:
            database.run(f"PRAGMA encoding = '{encoding}'")
            create_index(database, f"dict '{images.system}' base only")
            database.run("INSERT INTO t VALUES(?1), ('𠮷は走った')", text)
            rows = database.rows("SELECT rowid, highlight(t, 0, '[', ']') FROM t('走る')")
            words = database.rows(sql, str(images.system), text)
            found.append((rows, words, database.value("SELECT kumquatsieve_dictionary(?1)",
                                                      str(images.system))))  # fmt: skip
    expect("UTF-16", *found)
    expect("rows", [1, 2], [row[0] for row in found[0][0]])
    report("a database in UTF-16")


def check_folds(extension: Path, images: Images) -> None:
    """Tokens are folded, and are found by each form."""
    with Database(extension) as database:
        tokenizer = Tokenizer(database, ["dict", str(images.sample), "fold", "on"])
        create_index(database, f"dict '{images.sample}' fold on")
        for surface, wanted in FOLDS:
            expect(f"the model of {surface}", wanted.encode(), folded(surface.encode()))
            tokens = tokenizer.tokens(surface.encode())
            whole = b"".join(token.text for token in tokens)
            if len(tokens) == 1:
                expect(f"fold of {surface}", wanted.encode(), whole)
            parts = [folded(surface.encode()[token.start : token.end]) for token in tokens]
            expect(f"folds of {surface}", parts, [token.text for token in tokens])
        database.run("INSERT INTO t VALUES('ＡＢＣ は ｽﾓﾓ')")
        for query in ("abc", "ＡＢＣ", "aBc", "スモモ", "ｽﾓﾓ"):
            expect(query, 1, database.value("SELECT count(*) FROM t(?1)", query))
        found = database.value("SELECT highlight(t, 0, '[', ']') FROM t('abc')")
        expect("a highlight", "[ＡＢＣ] は ｽﾓﾓ".encode(), found)
        tokenizer.close()
    report(f"{len(FOLDS)} folds")


def anonymous_memory() -> int:
    """Returns the anonymous memory of this process in KiB."""
    status = Path("/proc/self/status").read_text()
    return int(status.split("RssAnon:")[1].split()[0])


def check_freed_memory(tokenizer: Tokenizer) -> None:
    """A long line leaves no memory, also if its first token ends the call."""
    text, before = "犬は走った。".encode() * (LONG // 18), anonymous_memory()
    expect("a call that ends", 99, tokenizer.stopped(text, 0)[0])
    grown = anonymous_memory() - before
    if grown > MEMORY_MOST:
        expect("KiB after a long line", MEMORY_MOST, grown)


def check_long_texts(extension: Path, images: Images) -> None:
    """Lines of more than a mebibyte, and many lines, have their offsets and are found."""
    unit = "犬は走った。".encode()
    with Database(extension) as database:
        create_index(database, f"dict '{images.system}' base only")
        tokenizer = Tokenizer(database, ["dict", str(images.system)])
        check_freed_memory(tokenizer)
        for what, text in (
            ("one line", unit * (LONG // len(unit))),
            ("lines", (unit + b"\n") * 50_000),
        ):
            size = len(unit) + text.count(b"\n", 0, len(unit) + 1)
            tokens = tokenizer.tokens(text)
            expect(f"tokens of {what}", 5 * (len(text) // size), len(tokens))
            for number, token in enumerate(tokens[::5]):
                expect(
                    f"an offset of {what}",
                    (number * size, number * size + 3),
                    (token.start, token.end),
                )
            database.run("DELETE FROM t")
            database.run("INSERT INTO t VALUES(?1)", text)
            expect(what, 1, database.value("SELECT count(*) FROM t('\"犬は走る\"')"))
            sql = "SELECT count(*) FROM kumquatsieve_words(?1, ?2)"
            expect(f"words of {what}", len(tokens), database.value(sql, str(images.system), text))
        database.run("INSERT INTO t VALUES(?1)", unit * 500 + b"ab" + unit * 500)
        found = database.value("SELECT snippet(t, 0, '[', ']', '', 3) FROM t('ab')")
        expect("a snippet", "。[ab]犬".encode(), found)
        tokenizer.close()
    report("texts of a megabyte")
