"""Options and their errors, the functions, and what happens with another dictionary."""
import os
import shutil
from pathlib import Path

from sqlite.cases.building import LEXICON, Images, compiled, expect, report
from sqlite.cases.database import Database, create_index
from sqlite.cases.tokenizer import DOCUMENT, QUERY, Token, Tokenizer

UNKNOWN = (
    "kumquatsieve: unknown option '{}'; the options are dict, users, stop, base, fold, digest "
)
UNKNOWN += "and expect"
NO_IMAGE = "kumquatsieve: nowhere: no such image; searched DIRECTORIES; "
NO_IMAGE += "available images: a, b, c (F1 File). "
NO_IMAGE += "Install the image with kumquatsieve-import, or correct the path."
NO_NAMES = "kumquatsieve: option base needs the names of the fields of 'SAMPLE', which "
NO_NAMES += "kumquatsieve-import writes"
NOT_SYSTEM = "kumquatsieve: USER: not a system dictionary (O1 NotSystem). "
NOT_SYSTEM += "Give a system dictionary first, and the user dictionary after it."
NOT_USER = "kumquatsieve: SAMPLE: not a user dictionary (O2 NotUser). "
NOT_USER += "Compile the lexicon with dictc user."
FTS5_ERROR = "error in tokenizer constructor"
# Options, and the text of kumquatsieve_error(). IMAGE, USER and SAMPLE are images, and DIRECTORIES
# are the image directories.
ERRORS = [
    ("dict nowhere", NO_IMAGE),
    ("dict IMAGE weight 2", UNKNOWN.format("weight")),
    ("dict IMAGE weight", UNKNOWN.format("weight")),
    ("dict IMAGE base", "kumquatsieve: option 'base' has no value"),
    (
        "dict IMAGE base lemma",
        "kumquatsieve: option base takes off, colocated or only, not 'lemma'",
    ),
    ("dict IMAGE fold yes", "kumquatsieve: option fold takes off or on, not 'yes'"),
    ("dict IMAGE digest no", "kumquatsieve: option digest takes skip or test, not 'no'"),
    ("dict USER", NOT_SYSTEM),
    ("dict IMAGE users SAMPLE", NOT_USER),
    ("dict IMAGE users 'USER,nowhere'", NO_IMAGE),
    ("dict SAMPLE base only", NO_NAMES),
]
# Options, a text, and its tokens as a document with offsets: the text of each, start, end, and `=`
# if it has the position of the one before.
TOKENS = [
    ("", "犬は走った。", "犬 0 3, は 3 6, 走っ 6 12, た 12 15, 。 15 18"),
    ("base only", "走った", "走る 0 6, た 6 9"),
    ("base colocated", "走った", "走っ 0 6, 走る= 0 6, た 6 9"),
    ("BASE Colocated", "犬は犬", "犬 0 3, は 3 6, 犬 6 9"),
    ("base only stop '助,記号'", "犬は走った。", "犬 0 3, 走る 6 12"),
    ("stop 助詞 stop 動詞 stop ''", "犬は走った。", "犬 0 3, た 12 15, 。 15 18"),
    ("stop '名詞-一般'", "犬は走る", "は 3 6, 走る 6 12"),
    ("stop '名詞-固有'", "犬は走る", "犬 0 3, は 3 6, 走る 6 12"),
    ("stop ',,'", "犬", "犬 0 3"),
    ("", "犬 、 犬\n\n犬", "犬 0 3, 、 4 7, 犬 8 11, 犬 13 16"),
    ("fold on", "ＤＯＧ", "dog 0 9"),
    ("fold on base colocated", "ＤＯＧ", "dog 0 9"),
    ("base colocated", "ＤＯＧ", "ＤＯＧ 0 9, dog= 0 9"),
    ("users 'USER'", "犬は走る", "犬は走る 0 12"),
    ("users 'USER' stop '名詞-固有名詞'", "犬は走る", ""),
    ("base only", "犬猫", "犬 0 3, 猫 3 6"),
]


def named(text: str, images: Images) -> str:
    """Returns a text with the paths of the images, and of the image directories."""
    for name, path in (("IMAGE", images.system), ("USER", images.user), ("SAMPLE", images.sample)):
        text = text.replace(name, str(path))
    return text.replace("DIRECTORIES", ", ".join(map(str, images.directories)))


def check_errors(extension: Path, images: Images) -> None:
    """Each error has its text, in its own connection only, and no table is left."""
    with Database(extension) as database, Database(extension) as other:
        expect("no error", None, database.value("SELECT kumquatsieve_error()"))
        for options, wanted in ERRORS:
            quoted = named(options, images).replace("'", "")
            words = " ".join(f"'{word}'" for word in quoted.split())
            sql = f'CREATE VIRTUAL TABLE t USING fts5(a, tokenize="kumquatsieve {words}")'
            expect(options, FTS5_ERROR, database.fails(sql))
            expect(options, named(wanted, images), database.last_error())
        expect("tables", 0, database.value("SELECT count(*) FROM sqlite_schema"))
        expect("another connection", None, other.value("SELECT kumquatsieve_error()"))
    report(f"{len(ERRORS)} errors of options")


def shown(tokens: list[Token]) -> str:
    """Returns tokens as they are written in TOKENS."""
    return ", ".join(
        f"{token.text.decode()}{'=' if token.is_colocated else ''} {token.start} {token.end}"
        for token in tokens
    )


def check_tokens(extension: Path, images: Images) -> None:
    """The tokens of texts are those of the options."""
    with Database(extension) as database:
        for options, text, wanted in TOKENS:
            words = [word.strip("'") for word in named(options, images).split()]
            tokenizer = Tokenizer(database, ["dict", str(images.system), *words])
            found = tokenizer.tokens(text.encode(), DOCUMENT)
            expect(f"{options}: {text}", wanted, shown(found))
            queried = [token for token in found if not token.is_colocated]
            expect(f"{options}: query {text}", queried, tokenizer.tokens(text.encode(), QUERY))
            expect("tokens of no text", [], tokenizer.tokens(b""))
            tokenizer.close()
        check_callbacks(database, images)
    report(f"{len(TOKENS)} tables of tokens")


def check_callbacks(database: Database, images: Images) -> None:
    """The result of the callback is returned at once, and a call within a call is rejected."""
    tokenizer = Tokenizer(database, ["dict", str(images.system), "base", "colocated"])
    text = "走った犬\n走る".encode()
    count = len(tokenizer.tokens(text))
    for stop in range(count):
        code, found = tokenizer.stopped(text, stop)
        expect(f"token {stop} stops", (99, stop + 1), (code, len(found)))
    expect("a call within a call", 21, tokenizer.nested(text))
    expect("after it", count, len(tokenizer.tokens(text)))
    tokenizer.close()


def check_functions(extension: Path, images: Images) -> None:
    """kumquatsieve_words and kumquatsieve_dictionary give what the images have."""
    text = "犬は\n\n 走った"
    rows = [
        ("犬", "名詞,一般,犬", 0, 3, 10),
        ("は", "助詞,係助詞,は", 3, 6, 10),
        ("走っ", "動詞,自立,走る", 9, 15, 10),
        ("た", "助動詞,*,た", 15, 18, 10),
    ]
    wanted = [(row[0].encode(), row[1].encode(), *row[2:]) for row in rows]
    system, users = str(images.system), f"{images.system},{images.user}"
    with Database(extension) as database:
        sql = "SELECT * FROM kumquatsieve_words(?1, ?2)"
        expect("words", wanted, database.rows(sql, system, text))
        expect(
            "row numbers",
            [(0,), (3,), (9,), (15,)],
            database.rows("SELECT rowid FROM kumquatsieve_words(?1, ?2)", system, text),
        )
        for nothing in ("", None, "\n \n"):
            expect(f"words of {nothing!r}", [], database.rows(sql, system, nothing))
        by_users = database.rows("SELECT surface FROM kumquatsieve_words(?1, ?2)", users, "犬は走る")
        expect("words by a user dictionary", [("犬は走る".encode(),)], by_users)
        check_arguments(database, system)
        check_joins(database, system, users)
        check_fingerprints(database, images)
        expect(
            "one argument",
            "kumquatsieve_words takes dictionaries and a text",
            database.fails("SELECT * FROM kumquatsieve_words('x')"),
        )
        error = named(NO_IMAGE, images)
        expect("words of no image", error, database.fails(sql, "nowhere", "犬"))
        expect(
            "a table of words",
            "no such module: kumquatsieve_words",
            database.fails("CREATE VIRTUAL TABLE w USING kumquatsieve_words"),
        )
    report("kumquatsieve_words and kumquatsieve_dictionary")


def check_arguments(database: Database, system: str) -> None:
    """The arguments are columns, which other conditions of a statement may name."""
    sql = "SELECT DISTINCT dictionary, text FROM kumquatsieve_words(?1, ?2)"
    found = database.rows(sql, system, "犬は")
    expect("arguments", [(system.encode(), "犬は".encode())], found)
    for condition, wanted in (("?2", 2), ("'犬'", 0)):
        sql = f"SELECT count(*) FROM kumquatsieve_words(?1, ?2) WHERE text = {condition}"
        expect(f"text = {condition}", wanted, database.value(sql, system, "犬は"))


def check_joins(database: Database, system: str, users: str) -> None:
    """The function is evaluated for each row of a join, in either order, and with other images."""
    database.run("CREATE TABLE texts(id INTEGER PRIMARY KEY, dictionary, text)")
    for dictionary in (system, users, system):
        insert = "INSERT INTO texts(dictionary, text) VALUES(?1, '犬は走る')"
        database.run(insert, dictionary)
    sql = "SELECT id, count(*) FROM {} WHERE {} GROUP BY id ORDER BY id"
    tables, where = "texts, kumquatsieve_words AS w", "w.dictionary = texts.dictionary"
    for joined in (tables, "kumquatsieve_words AS w, texts"):
        found = database.rows(sql.format(joined, f"{where} AND w.text = texts.text"))
        expect(joined, [(1, 3), (2, 1), (3, 3)], found)
    database.run(
        "CREATE VIEW words AS SELECT w.surface FROM texts, "
        "kumquatsieve_words(texts.dictionary, texts.text) AS w"
    )
    expect("a view", 7, database.value("SELECT count(*) FROM words"))


def check_fingerprints(database: Database, images: Images) -> None:
    """A fingerprint has the SHA-256 at the end of each image, and the lines of its lexicon."""
    sums = [path.read_bytes()[-32:].hex() for path in (images.system, images.user)]
    wanted = f"{sums[0]} 8,{sums[1]} 1".encode()
    sql = "SELECT kumquatsieve_dictionary(?1)"
    expect("a fingerprint", wanted, database.value(sql, f"{images.system},{images.user}"))
    expect("one image", wanted.split(b",")[0], database.value(sql, str(images.system)))
    expect("no image", named(NO_IMAGE, images), database.fails(sql, "nowhere"))
    expect("its text", named(NO_IMAGE, images), database.last_error())


def check_other_dictionary(extension: Path, images: Images, folder: Path) -> None:
    """An index of another dictionary rejects queries and rows; it can be read and dropped."""
    image, file = folder / "changing.img", folder / "changing.db"
    shutil.copy(images.system, image)
    with Database(extension, str(file)) as database:
        value = database.value("SELECT kumquatsieve_dictionary(?1)", str(image))
        assert isinstance(value, bytes)
        create_index(database, f"dict '{image}' expect '{value.decode()}'")
        database.run("INSERT INTO t VALUES('犬は走る')")
        expect("a query", 1, database.value("SELECT count(*) FROM t('走る')"))
    compiled(LEXICON.replace("走る,1,1,10", "走る,1,1,11"), "changing", folder)
    with Database(extension, str(file)) as database:
        changed = database.value("SELECT kumquatsieve_dictionary(?1)", str(image))
        expect("another fingerprint", True, changed not in (None, value))
        for sql in ("SELECT * FROM t('走る')", "INSERT INTO t VALUES('犬')"):
            expect(sql, "SQL logic error", database.fails(sql))
            other = f"'{image}' is not the dictionary of the index, which expects {value.decode()}"
            if other not in database.last_error():
                expect(sql, other, database.last_error())
        expect("a row", [("犬は走る".encode(),)], database.rows("SELECT a FROM t"))
        database.run("DROP TABLE t")
    file.unlink()
    report("an index of another dictionary is detected")


def check_damage(extension: Path, images: Images, folder: Path) -> None:
    """With `digest test` an image whose SHA-256 does not match is rejected."""
    image = folder / "damaged.img"
    with open(image, "wb") as damaged:
        whole = bytearray(images.system.read_bytes())
        whole[-1] ^= 1
        damaged.write(whole)
    with Database(extension) as database:
        create_index(database, f"dict '{image}' digest skip")
        database.run("DROP TABLE t")
        arguments = f"dict '{image}' digest test"
        sql = f'CREATE VIRTUAL TABLE t USING fts5(a, tokenize="kumquatsieve {arguments}")'
        expect("digest test", FTS5_ERROR, database.fails(sql))
        if "(L8 Digest)" not in database.last_error():
            expect("digest test", "L8", database.last_error())
    report("a damaged image is rejected")


def check_unloading(extension: Path, images: Images) -> None:
    """SQLite unloads the extension with the last connection, and images are unmapped.

    Loading it again, also by SQL, changes nothing.
    """

    def is_mapped(path: Path) -> bool:
        return str(path) in Path("/proc/self/maps").read_text()

    for _ in range(20):
        with Database(extension) as database, Database(extension) as other:
            create_index(database, f"dict '{images.system}'")
            error = database.fails("SELECT kumquatsieve_dictionary('nowhere')")
            expect("no image", named(NO_IMAGE, images), error)
            database.load(extension)
            database.run("SELECT load_extension(?1)", str(extension))
            expect("an error before", named(NO_IMAGE, images), database.last_error())
            database.run("INSERT INTO t VALUES('犬は走った')")
            expect("a query", 1, database.value("SELECT count(*) FROM t('犬')"))
            other.rows("SELECT * FROM kumquatsieve_words(?1, '犬')", str(images.system))
            expect("mapped", (True, True), (is_mapped(extension), is_mapped(images.system)))
        expect(
            "mapped after closing", (False, False), (is_mapped(extension), is_mapped(images.system))
        )
        # No function of the extension is called by a fork.
        child = os.fork()
        if child == 0:
            os._exit(0)
        expect("a fork after that", (child, 0), os.waitpid(child, 0))
    report("unloaded with the last connection")
