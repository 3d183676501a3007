"""SQLite's own library with the extension, by ctypes. Not every Python can load extensions."""
import ctypes
import ctypes.util
from pathlib import Path
from typing import Any, Optional, Sequence, Union

Value = Union[None, int, bytes]
Argument = Union[None, int, str, bytes]
OK, ROW, DONE = 0, 100, 101
INTEGER, FLOAT, TEXT, BLOB = 1, 2, 3, 4
# SQLite copies the bytes of an argument.
TRANSIENT = ctypes.c_void_p(-1)


class SqlError(Exception):
    """An error of SQLite, with its message."""


def load_sqlite() -> Optional[ctypes.CDLL]:
    """Returns SQLite's library with the types of its calls, or None if it is not installed."""
    name = ctypes.util.find_library("sqlite3")
    if name is None:
        return None
    library = ctypes.CDLL(name)
    pointer, text = ctypes.c_void_p, ctypes.c_char_p
    for call, result, arguments in (
        ("open_v2", ctypes.c_int, [text, pointer, ctypes.c_int, text]),
        ("close", ctypes.c_int, [pointer]),
        ("errmsg", text, [pointer]),
        ("enable_load_extension", ctypes.c_int, [pointer, ctypes.c_int]),
        ("load_extension", ctypes.c_int, [pointer, text, text, pointer]),
        ("prepare_v2", ctypes.c_int, [pointer, text, ctypes.c_int, pointer, pointer]),
        ("step", ctypes.c_int, [pointer]),
        ("finalize", ctypes.c_int, [pointer]),
        ("bind_null", ctypes.c_int, [pointer, ctypes.c_int]),
        ("bind_int64", ctypes.c_int, [pointer, ctypes.c_int, ctypes.c_int64]),
        ("bind_text", ctypes.c_int, [pointer, ctypes.c_int, text, ctypes.c_int, pointer]),
        ("bind_blob", ctypes.c_int, [pointer, ctypes.c_int, text, ctypes.c_int, pointer]),
        ("bind_pointer", ctypes.c_int, [pointer, ctypes.c_int, pointer, text, pointer]),
        ("column_count", ctypes.c_int, [pointer]),
        ("column_type", ctypes.c_int, [pointer, ctypes.c_int]),
        ("column_int64", ctypes.c_int64, [pointer, ctypes.c_int]),
        ("column_blob", pointer, [pointer, ctypes.c_int]),
        ("column_text", pointer, [pointer, ctypes.c_int]),
        ("column_bytes", ctypes.c_int, [pointer, ctypes.c_int]),
    ):
        function = getattr(library, f"sqlite3_{call}")
        function.restype, function.argtypes = result, arguments
    return library


class Database:
    """A connection. `extension` is loaded, unless it is None."""

    def __init__(self, extension: Optional[Path], path: str = ":memory:") -> None:
        library = load_sqlite()
        assert library is not None
        self.library: ctypes.CDLL = library
        self.handle = ctypes.c_void_p()
        self._check(library.sqlite3_open_v2(path.encode(), ctypes.byref(self.handle), 6, None))
        self._check(library.sqlite3_enable_load_extension(self.handle, 1))
        if extension is not None:
            self.load(extension)

    def load(self, extension: Path) -> None:
        loaded = self.library.sqlite3_load_extension(self.handle, bytes(extension), None, None)
        self._check(loaded)

    def _check(self, code: int) -> None:
        if code not in (OK, ROW, DONE):
            raise SqlError(self.library.sqlite3_errmsg(self.handle).decode())

    def close(self) -> None:
        self._check(self.library.sqlite3_close(self.handle))
        self.handle = ctypes.c_void_p()

    def __enter__(self) -> "Database":
        return self

    def __exit__(self, *_: Any) -> None:
        self.close()

    def _bind(self, statement: ctypes.c_void_p, number: int, value: Argument) -> None:
        if value is None:
            code = self.library.sqlite3_bind_null(statement, number)
        elif isinstance(value, int):
            code = self.library.sqlite3_bind_int64(statement, number, value)
        else:
            # Bytes are bound as a text too: a column of a table may have any bytes.
            text = value.encode() if isinstance(value, str) else value
            bind = self.library.sqlite3_bind_text
            code = bind(statement, number, text, len(text), TRANSIENT)
        self._check(code)

    def _value(self, statement: ctypes.c_void_p, column: int) -> Value:
        kind = self.library.sqlite3_column_type(statement, column)
        if kind == INTEGER:
            return int(self.library.sqlite3_column_int64(statement, column))
        if kind not in (FLOAT, TEXT, BLOB):
            return None
        # The text of a database in UTF-16 is converted.
        is_text = kind == TEXT
        read = self.library.sqlite3_column_text if is_text else self.library.sqlite3_column_blob
        start = read(statement, column)
        length = self.library.sqlite3_column_bytes(statement, column)
        return ctypes.string_at(start, length) if length else b""

    def rows(self, sql: str, *arguments: Argument) -> list[tuple[Value, ...]]:
        """Runs a statement, and returns its rows. Texts are bytes."""
        statement = ctypes.c_void_p()
        prepare = self.library.sqlite3_prepare_v2
        self._check(prepare(self.handle, sql.encode(), -1, ctypes.byref(statement), None))
        try:
            for number, value in enumerate(arguments, 1):
                self._bind(statement, number, value)
            found = []
            columns = range(self.library.sqlite3_column_count(statement))
            while (code := self.library.sqlite3_step(statement)) == ROW:
                found.append(tuple(self._value(statement, column) for column in columns))
            self._check(code)
            return found
        finally:
            self.library.sqlite3_finalize(statement)

    def run(self, sql: str, *arguments: Argument) -> None:
        self.rows(sql, *arguments)

    def value(self, sql: str, *arguments: Argument) -> Value:
        """Returns the first value of the first row."""
        return self.rows(sql, *arguments)[0][0]

    def fails(self, sql: str, *arguments: Argument) -> str:
        """Returns the message of a statement that fails, or an empty text if it doesn't."""
        try:
            self.rows(sql, *arguments)
        except SqlError as error:
            return str(error)
        return ""

    def last_error(self) -> str:
        """Returns the text of kumquatsieve_error()."""
        text = self.value("SELECT kumquatsieve_error()")
        return text.decode() if isinstance(text, bytes) else ""

    def bind_pointer(self, sql: str, pointer: Any, kind: str) -> None:
        """Runs a statement whose argument is a pointer of a kind."""
        statement = ctypes.c_void_p()
        prepare = self.library.sqlite3_prepare_v2
        self._check(prepare(self.handle, sql.encode(), -1, ctypes.byref(statement), None))
        # SQLite keeps the pointer to the kind.
        self.kind = ctypes.create_string_buffer(kind.encode())
        self._check(self.library.sqlite3_bind_pointer(statement, 1, pointer, self.kind, None))
        self._check(self.library.sqlite3_step(statement))
        self.library.sqlite3_finalize(statement)


def create_index(database: Database, options: str, *more: str, name: str = "t") -> None:
    """Creates a table with one column `a` and these options of the tokenizer."""
    parts: Sequence[str] = ["a", f'tokenize="kumquatsieve {options}"', *more]
    database.run(f"CREATE VIRTUAL TABLE {name} USING fts5({', '.join(parts)})")
