"""Dictionaries and segmenters."""
import os
from operator import index

from . import _core
from ._core import plain
from ._errors import KumquatsieveError
from ._lines import Lines

# The texts of formats, as those of a Format.
FORMATS = {None: (None, None, None, None), "wakati": ("%m ", None, None, "\\n")}
# Dictionaries that were unpickled. A worker that gets a segmenter with each task keeps its own.
KEPT = {}


class Dictionary(_core.Dictionary):
    """A system dictionary and user dictionaries, which any number of segmenters share. Each is the
    path of an image, the bare name of an installed image, or bytes. docs/PYTHON.md has the rest."""

    def __new__(cls, name=None, users=(), *, fields=None, test_digest=False):
        if any(isinstance(one, os.PathLike) or plain(one) is not None for one in (users, fields)):
            raise TypeError("users must be a list of images, and fields a list of names")
        fields = None if fields is None else tuple(field or None for field in fields)
        names, origin = [name, *users], ()
        images = [*map(plain, names)]
        if bytes in map(type, images):
            images = [a if type(a) is bytes else bytes_of(b) for a, b in zip(images, names)]
        else:
            images = [None if name is None else os.fsencode(name), *map(os.fsencode, names[1:])]
            origin = (*map(lasting, names), fields, bool(test_digest))
        try:
            self = super().__new__(cls, tuple(images), not origin, test_digest, fields, origin)
        except KumquatsieveError as error:
            if origin:
                advise(error, names[error.image])
            raise
        if origin and fields is None and not any(self.field_names):
            test_names(self, origin[0])
        return self

    def __reduce__(self):
        if not self._origin:
            raise TypeError("a dictionary of bytes can't be pickled: open it by a path or a name")
        return opened_again, (type(self), self._origin)

    def __repr__(self):
        system, *users = self.images
        more = f" and {len(users)} users'" if users else ""
        return f"<Dictionary {system.path or 'in memory'}{more}, {system.entries:,} entries>"


class Segmenter(_core.Segmenter):
    """Segments texts. It is cheap, and any number of threads may call it at once. `dictionary` is a
    Dictionary, or what is given to one with `users`, `fields` and `test_digest`. `format` is that
    of `parse`: "wakati", a Format, or None for MeCab's. docs/PYTHON.md has the rest."""

    def __new__(
        cls, dictionary=None, users=(), *, grouping=24, format=None, errors="replace", **kw
    ):
        if not isinstance(dictionary, Dictionary):
            dictionary = Dictionary(dictionary, users, **kw)
        elif users or kw:
            raise TypeError("a Dictionary has its users, fields and test_digest already")
        if errors not in ("replace", "strict"):
            raise ValueError(f"errors must be replace or strict, not {errors!r}")
        if index(grouping) not in range(2**32):
            raise ValueError(f"grouping must be 0 to 1,000, not {grouping}")
        texts = FORMATS.get(format, format) if isinstance(format, (str, type(None))) else format
        return super().__new__(cls, dictionary, texts, grouping, errors == "strict")

    def explain(self, line):
        """Returns a table of the best path of a line, with the nearest rival of each word."""
        return self.lattice(line).explain()

    def lines(self, source, errors=None):
        """Returns an iterator over the words of each line of a text, an open file or an iterable of
        texts, as soon as the line is there. `errors` is the segmenter's by default."""
        return Lines(self, source, errors, None)

    def wakati_lines(self, source, errors=None):
        """Returns an iterator over the surfaces of each line, joined by blanks, by the megabyte."""
        return Lines(self, source, errors, True)

    def parse_lines(self, source, errors=None):
        """Returns an iterator over the output of each line. Files are read by the megabyte."""
        return Lines(self, source, errors, False)

    def __reduce__(self):
        given = type(self), self.dictionary, self._format, self.grouping, self.errors == "strict"
        return _core.Segmenter.__new__, given, self.__dict__

    def __repr__(self):
        return "<Segmenter, closed>" if self.closed else f"<Segmenter over {self.dictionary!r}>"


def opened_again(kind, origin):
    name, *users, fields, test_digest = origin
    KEPT[origin] = kind(name, users, fields=fields, test_digest=test_digest)
    return KEPT[origin]


def dictionaries():
    """Returns the paths of the system dictionaries that are installed, by their names."""
    return {os.path.basename(path)[:-4]: path for path in _core.images() if _core.is_system(path)}


def lasting(image):
    """Returns the name of an installed image, or a path that holds in every folder."""
    name = image if image is None else os.fsdecode(image)
    return os.path.abspath(name) if name and ("/" in name or os.path.isfile(name)) else name


def bytes_of(image):
    """Returns the bytes of an image that has a name, since another one is in memory."""
    name = Dictionary().images[0].path if image is None else lasting(image)
    paths = {os.path.basename(path): path for path in _core.images()}
    with open(paths.get(f"{name}.img", name), "rb") as file:
        return file.read()


def advise(error, image):
    """Adds to the error of an open what to do, and the name of the image."""
    name = "" if image is None else os.fsdecode(image)
    what, is_unknown, _ = error.message.partition("; searched ")
    if os.path.isdir(name):
        error.advice = f"an image is a file; `kumquatsieve-import {name} IMG` compiles sources"
    elif isinstance(error, FileNotFoundError) and (is_unknown or image is None):
        names = ", ".join(os.path.basename(path)[:-4] for path in _core.images()) or "none"
        error.advice = f"searched {', '.join(_core.directories())}; available images: {names}"
        if is_unknown:
            # The message may have been cut off.
            error.message = f"{what} (F1 File)"
            error.advice += "; compile an image with kumquatsieve-import"
    error.filename = name or None


def test_names(dictionary, name):
    """Raises an error if the file of field names beside the first image names no field."""
    image = name if name and "/" in name else dictionary.images[0].path
    path = os.path.realpath(image).removesuffix(".img") + ".fields"
    if os.path.isfile(path) and os.access(path, os.R_OK):
        with open(path, "rb") as file:
            words = file.read().removeprefix(b"\xef\xbb\xbf").split()
        if words in ([], [b";", b"image-sha256", dictionary.images[0].sha256.hex().encode()]):
            raise ValueError(f"{path}: it names no field")
