"""Types of the module."""
import mmap
import os
from types import TracebackType
from typing import IO, Any, Dict, Generic, Iterable, Iterator, List, NamedTuple, Optional, Sequence
from typing import Tuple, Type, TypeVar, Union

__all__ = [
    "Dictionary",
    "Format",
    "ImageInfo",
    "KumquatsieveError",
    "Lattice",
    "Lines",
    "Node",
    "Rival",
    "Segmenter",
    "Word",
    "Words",
    "dictionaries",
]
__version__: str

_T = TypeVar("_T")
_Self = TypeVar("_Self", bound="Segmenter")
_Text = Union[str, bytes, bytearray, memoryview, mmap.mmap]
_Image = Union[str, "os.PathLike[str]", bytes, bytearray, memoryview, mmap.mmap]
_Source = Union[_Text, IO[str], IO[bytes], Iterable[Union[str, bytes]]]

def dictionaries() -> Dict[str, str]: ...

class KumquatsieveError(Exception):
    code: str
    message: str
    position: Optional[int]
    number: int
    image: int
    line: Optional[int]
    advice: Optional[str]
    filename: Optional[str]
    def __init__(
        self,
        message: str,
        code: int,
        position: Optional[int] = ...,
        number: int = ...,
        image: int = ...,
        line: Optional[int] = ...,
    ) -> None: ...
    @property
    def explanation(self) -> str: ...

class Word:
    @property
    def surface(self) -> str: ...
    @property
    def feature(self) -> str: ...
    @property
    def fields(self) -> Tuple[str, ...]: ...
    @property
    def is_unknown(self) -> bool: ...
    @property
    def base_or_surface(self) -> str: ...
    @property
    def start(self) -> int: ...
    @property
    def end(self) -> int: ...
    @property
    def byte_start(self) -> int: ...
    @property
    def byte_end(self) -> int: ...
    @property
    def cost(self) -> int: ...
    @property
    def total(self) -> int: ...
    @property
    def left_id(self) -> int: ...
    @property
    def right_id(self) -> int: ...
    @property
    def token(self) -> int: ...
    @property
    def dictionary(self) -> int: ...
    @property
    def category(self) -> int: ...
    # The named fields of the dictionary.
    def __getattr__(self, name: str) -> Optional[str]: ...

class Node(Word):
    @property
    def place(self) -> int: ...
    @property
    def byte_place(self) -> int: ...
    @property
    def best(self) -> bool: ...
    @property
    def through(self) -> Optional[int]: ...
    @property
    def lost(self) -> Optional[int]: ...

class Words(List[Word]):
    total: int

class Format(NamedTuple):
    node: Optional[str] = ...
    unk: Optional[str] = ...
    bos: Optional[str] = ...
    eos: Optional[str] = ...

class Rival(NamedTuple):
    word: Node
    node: Optional[Node]
    lost: Optional[int]

class ImageInfo(NamedTuple):
    path: Optional[str]
    size: int
    sha256: bytes
    layout: int
    is_user: bool
    entries: int
    unknown_entries: int
    surfaces: int
    left_ids: int
    right_ids: int
    categories: Tuple[str, ...]
    fields: Tuple[Optional[str], ...]

class Lattice:
    nodes: List[Node]
    total: int
    text: str
    dictionary: Optional[Dictionary]
    def __init__(
        self, nodes: List[Node], total: int, text: str, dictionary: Optional[Dictionary] = ...
    ) -> None: ...
    @property
    def best(self) -> Words: ...
    def rivals(self) -> List[Rival]: ...
    def explain(self) -> str: ...
    def to_dot(self, within: Optional[int] = ...) -> str: ...
    def to_svg(self, within: Optional[int] = ..., most: int = ...) -> str: ...

class Lines(Generic[_T]):
    replaced: int
    def __init__(
        self,
        segmenter: Segmenter,
        source: _Source,
        errors: Optional[str],
        is_wakati: Optional[bool],
    ) -> None: ...
    def __iter__(self) -> Iterator[_T]: ...
    def __next__(self) -> _T: ...

class Dictionary:
    def __new__(
        cls,
        name: Optional[_Image] = ...,
        users: Iterable[_Image] = ...,
        *,
        fields: Optional[Sequence[Optional[str]]] = ...,
        test_digest: bool = ...,
    ) -> Dictionary: ...
    @property
    def field_names(self) -> Tuple[Optional[str], ...]: ...
    @property
    def images(self) -> List[ImageInfo]: ...
    def lookup(self, surface: str, *, prefixes: bool = ...) -> Words: ...
    def __copy__(self) -> Dictionary: ...
    def __deepcopy__(self, memo: Any, /) -> Dictionary: ...

class Segmenter:
    def __new__(
        cls: Type[_Self],
        dictionary: Union[None, _Image, Dictionary] = ...,
        users: Iterable[_Image] = ...,
        *,
        grouping: int = ...,
        format: Union[None, str, Format, Tuple[Optional[str], ...]] = ...,
        errors: str = ...,
        fields: Optional[Sequence[Optional[str]]] = ...,
        test_digest: bool = ...,
    ) -> _Self: ...
    @property
    def dictionary(self) -> Dictionary: ...
    @property
    def grouping(self) -> int: ...
    @property
    def errors(self) -> str: ...
    @property
    def closed(self) -> bool: ...
    def __call__(self, text: str, /) -> Words: ...
    def words(self, text: str, /) -> Words: ...
    def wakati(self, text: str, /) -> List[str]: ...
    def parse(self, text: str, /) -> str: ...
    def lattice(self, line: str, /) -> Lattice: ...
    def explain(self, line: str) -> str: ...
    def lines(self, source: _Source, errors: Optional[str] = ...) -> Lines[Words]: ...
    def wakati_lines(self, source: _Source, errors: Optional[str] = ...) -> Lines[str]: ...
    def parse_lines(self, source: _Source, errors: Optional[str] = ...) -> Lines[str]: ...
    def share(self: _Self) -> _Self: ...
    def close(self) -> None: ...
    def __enter__(self: _Self) -> _Self: ...
    def __exit__(
        self,
        kind: Optional[Type[BaseException]],
        error: Optional[BaseException],
        trace: Optional[TracebackType],
    ) -> None: ...
