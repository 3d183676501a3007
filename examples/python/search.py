"""Searches texts with SQLite: search.py EXTENSION IMAGE QUERY < TEXTS

EXTENSION is the path of the loadable extension of integrations/sqlite."""
import sqlite3
import sys

extension, image, query = sys.argv[1:]
connection = sqlite3.connect(":memory:")
connection.enable_load_extension(True)
connection.load_extension(extension)
quoted = image.replace("'", "''").replace('"', '""')
tokenizer = f"kumquatsieve dict '{quoted}'"
connection.execute(f'CREATE VIRTUAL TABLE texts USING fts5(text, tokenize = "{tokenizer}")')
connection.executemany("INSERT INTO texts VALUES (?)", ([line] for line in sys.stdin))
found = "SELECT highlight(texts, 0, '[', ']') FROM texts WHERE texts MATCH ? ORDER BY rank"
for (text,) in connection.execute(found, [query]):
    print(text, end="")
