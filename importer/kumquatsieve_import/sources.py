"""The directory of sources: its files, and the encoding that its dicrc names."""
import os
import re
import stat
from typing import Iterator, List, NamedTuple, Optional, Tuple

from .encodings import Encoding, encoding_named
from .errors import FILE, Error, errors_of, printable

DEFINITIONS = (b"matrix.def", b"char.def", b"unk.def")
DICRC = b"dicrc"
SETTINGS = (DICRC, b"pos-id.def")
# Where Debian's packages install sources, and the package of each dictionary.
DEBIAN = b"/usr/share/mecab/dic"
PACKAGES = {
    b"ipadic": "mecab-ipadic",
    b"juman": "mecab-jumandic-utf8",
    b"naist-jdic": "mecab-naist-jdic-eucjp",
    b"unidic": "unidic-mecab",
}
# A chunk has about this many bytes. It ends at the end of a line.
CHUNK = 1 << 22


class Source(NamedTuple):
    """A file that is read. `size` is in bytes."""

    path: bytes
    name: bytes
    size: int

    def is_lexicon(self) -> bool:
        return self.name.endswith(b".csv")

    def chunks(self) -> Iterator[Tuple[int, bytes]]:
        """Yields the lines of the file, many at a time, each time after the first one's number."""
        with errors_of(self.path), open(self.path, "rb", buffering=0) as file:
            number, rest = 1, []
            while block := file.read(CHUNK):
                end = block.rfind(b"\n") + 1
                rest.append(block[:end] if end else block)
                if end:
                    chunk = b"".join(rest)
                    yield number, chunk
                    number += chunk.count(b"\n")
                    rest = [block[end:]]
            if any(rest):
                yield number, b"".join(rest)


class Folder(NamedTuple):
    """The files of a directory of sources. Each kind is in byte order of the names."""

    path: bytes
    definitions: List[Source]
    lexicons: List[Source]
    settings: List[Source]
    others: List[bytes]

    def all_names(self) -> List[bytes]:
        sources = [*self.definitions, *self.lexicons, *self.settings]
        return [source.name for source in sources] + self.others


def debian_folder(name: bytes) -> bytes:
    """Returns the directory of a dictionary's sources that a Debian package installed."""
    with errors_of(DEBIAN):
        names = sorted(os.listdir(DEBIAN)) if os.path.isdir(DEBIAN) else []
    for found in [name, *(one for one in names if one.startswith(name + b"-"))]:
        if os.path.isfile(os.path.join(DEBIAN, found, b"matrix.def")):
            return os.path.join(DEBIAN, found)
    missing = f"no sources of {printable(name)} in {printable(DEBIAN)}"
    raise Error(FILE, f"{missing}: apt install {PACKAGES[name]}")


def source_at(folder: bytes, name: bytes) -> Source:
    """Returns a file of a directory.

    Rejects what is not a regular file: a read of a pipe, for one, may wait forever or never end.
    """
    path = os.path.join(folder, name)
    with errors_of(path):
        if os.path.islink(path) and not os.path.exists(path):
            target = printable(os.readlink(path))
            message = f"{printable(path)}: is a link to {target}, which does not exist"
            raise Error(FILE, message)
        status = os.stat(path)
    if not stat.S_ISREG(status.st_mode):
        is_folder = stat.S_ISDIR(status.st_mode)
        kind = "a directory" if is_folder else "a pipe or a device, not a file"
        raise Error(FILE, f"{printable(path)}: is {kind}")
    if not os.access(path, os.R_OK):
        raise Error(FILE, f"{printable(path)}: permission denied")
    return Source(path, name, status.st_size)


def read_folder(path: bytes) -> Folder:
    """Lists a directory of sources. Hidden files count, as for `jseg --sources`."""
    if not os.path.isdir(path):
        raise Error(FILE, f"{printable(path)} is not a directory")
    with errors_of(path):
        names = sorted(os.listdir(path))
    for name in DEFINITIONS:
        if name not in names:
            missing = f"{printable(path)} has no {name.decode()}"
            raise Error(FILE, f"{missing}, so it is not a directory of sources")
    lexicons = [name for name in names if name.endswith(b".csv")]
    if not lexicons:
        raise Error(FILE, f"{printable(path)} has no .csv file")
    settings = [name for name in names if name in SETTINGS]
    definitions, others = list(DEFINITIONS), {*names} - {*DEFINITIONS, *lexicons, *settings}
    kinds = [[source_at(path, name) for name in kind] for kind in (definitions, lexicons, settings)]
    return Folder(path, kinds[0], kinds[1], kinds[2], sorted(others))


def encoding_in_dicrc(folder: Folder) -> Optional[Encoding]:
    """Returns the encoding that dicrc names, or None if it names none that is known.

    The encoding of the lexicons comes before the one of the definitions.
    """
    for source in folder.settings:
        if source.name == DICRC:
            with errors_of(source.path), open(source.path, "rb") as file:
                text = file.read()
            for key in (rb"dictionary-charset", rb"config-charset"):
                found = re.search(rb"(?m)^[ \t]*" + key + rb"[ \t]*=[ \t]*([A-Za-z0-9_-]+)", text)
                if found and encoding_named(found[1].decode()):
                    return encoding_named(found[1].decode())
    return None
