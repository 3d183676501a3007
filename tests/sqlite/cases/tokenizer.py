"""The tokenizer as FTS5 calls it, by ctypes."""
import ctypes
from typing import NamedTuple, Sequence

from sqlite.cases.database import Database

QUERY, PREFIX, DOCUMENT = 1, 2, 4
COLOCATED = 1

TakeToken = ctypes.CFUNCTYPE(
    ctypes.c_int,
    ctypes.c_void_p,
    ctypes.c_int,
    ctypes.c_void_p,
    ctypes.c_int,
    ctypes.c_int,
    ctypes.c_int,
)
Create = ctypes.CFUNCTYPE(
    ctypes.c_int, ctypes.c_void_p, ctypes.c_void_p, ctypes.c_int, ctypes.c_void_p
)
Delete = ctypes.CFUNCTYPE(None, ctypes.c_void_p)
Tokenize = ctypes.CFUNCTYPE(
    ctypes.c_int,
    ctypes.c_void_p,
    ctypes.c_void_p,
    ctypes.c_int,
    ctypes.c_char_p,
    ctypes.c_int,
    TakeToken,
)


class Calls(ctypes.Structure):
    """fts5_tokenizer."""

    _fields_ = [("create", Create), ("delete", Delete), ("tokenize", Tokenize)]


Find = ctypes.CFUNCTYPE(
    ctypes.c_int, ctypes.c_void_p, ctypes.c_char_p, ctypes.c_void_p, ctypes.c_void_p
)


class Interface(ctypes.Structure):
    """The start of fts5_api."""

    _fields_ = [("version", ctypes.c_int), ("create_tokenizer", ctypes.c_void_p), ("find", Find)]


class Token(NamedTuple):
    """A token. `is_colocated` is whether it has the position of the token before it."""

    text: bytes
    start: int
    end: int
    is_colocated: bool = False


class Tokenizer:
    """A tokenizer with these arguments."""

    def __init__(self, database: Database, arguments: Sequence[str]) -> None:
        interface = ctypes.POINTER(Interface)()
        database.bind_pointer("SELECT fts5(?1)", ctypes.byref(interface), "fts5_api_ptr")
        self.calls, held = Calls(), ctypes.c_void_p()
        find = interface.contents.find
        found = find(interface, b"kumquatsieve", ctypes.byref(held), ctypes.byref(self.calls))
        assert found == 0
        texts = (ctypes.c_char_p * len(arguments))(*(word.encode() for word in arguments))
        self.made = ctypes.c_void_p()
        code = self.calls.create(held, texts, len(arguments), ctypes.byref(self.made))
        assert code == 0, database.last_error()

    def close(self) -> None:
        self.calls.delete(self.made)

    def tokens(self, text: bytes, flags: int = DOCUMENT) -> list[Token]:
        """Returns the tokens of a text."""
        code, found = self.stopped(text, -1, flags)
        assert code == 0, code
        return found

    def stopped(self, text: bytes, stop: int, flags: int = DOCUMENT) -> tuple[int, list[Token]]:
        """Tokenizes a text. The callback for token number `stop` returns 99. Returns the result."""
        found: list[Token] = []

        def take(_: object, kind: int, at: int, length: int, start: int, end: int) -> int:
            token = ctypes.string_at(at, length)
            found.append(Token(token, start, end, bool(kind & COLOCATED)))
            return 99 if len(found) - 1 == stop else 0

        taken = TakeToken(take)
        code = self.calls.tokenize(self.made, None, flags, text, len(text), taken)
        return code, found

    def nested(self, text: bytes) -> int:
        """Returns the result of a call from within the callback."""
        inner: list[int] = []

        def nothing(*_: object) -> int:
            return 0

        def take(*_: object) -> int:
            call = self.calls.tokenize
            inner.append(call(self.made, None, DOCUMENT, text, len(text), TakeToken(nothing)))
            return 0

        assert self.calls.tokenize(self.made, None, DOCUMENT, text, len(text), TakeToken(take)) == 0
        return inner[0]
