"""Checks of kumquatsieve-sqlite as installed."""
from checking import LINE, expect
from root import Root

SCRIPT = f"""\
CREATE VIRTUAL TABLE t USING fts5(a, tokenize='kumquatsieve dict sample');
INSERT INTO t VALUES('{LINE.strip()}');
SELECT highlight(t, 0, '[', ']') FROM t('もも');
"""


def check_sqlite(root: Root) -> None:
    """Loads the extension, and makes an index over the sample's image."""
    extension = next((root.folder / "usr/lib").glob("*/sqlite3/kumquatsieve.so"))
    load = f".load /{extension.relative_to(root.folder).with_suffix('')}\n"
    expect("SQLite", "すもも[もも]\n", root.run("sqlite3", text=load + SCRIPT, HOME="/tmp"))
