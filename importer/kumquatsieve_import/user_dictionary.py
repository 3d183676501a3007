"""Imports the lexicons of a user dictionary for a system dictionary.

They are read strictly: a line that is not in the encoding is an error.
"""
import os
from typing import Dict, NoReturn

from .command_line import Choices
from .compilation import NEW, Compilation, ImageFile, dictc_next_to, make_image_pipe
from .conversion import make_utf_8
from .encoding_detection import find_encoding
from .encodings import Encoding
from .errors import INVALID, Error, errors_of, printable
from .image_dirs import find_image, let_all_read
from .image_tests import test_new
from .installing import Destination
from .progress import Reporter
from .resources import Resources
from .sources import Source, source_at

# The name of the system dictionary beside the lexicons.
SYSTEM = b"system.img"
# dictc runs in an empty directory below them, so that it finds none of them by the bare name of a
# dictionary.
EMPTY, ABOVE = b"empty", b"../"


def lexicon_at(path: bytes) -> Source:
    """Returns a lexicon. It has no name, so that dictc rejects its lines without numbers."""
    return Source(path, b"", source_at(b"", path).size)


def reject_line(path: bytes, line: int, why: str) -> NoReturn:
    raise Error(INVALID, f"{printable(path)}:{line}: {why}")


class UserImport:
    """One import of lexicons: its inputs, and the path of its image.

    `own` is the directory of this program.
    """

    def __init__(
        self, choices: Choices, own: bytes, resources: Resources, reporter: Reporter
    ) -> None:
        assert choices.image is not None
        self.choices, self.resources, self.reporter = choices, resources, reporter
        self.lexicons = list(map(lexicon_at, choices.lexicons))
        self.own, self.dictc = own, dictc_next_to(own)
        self.prefix = os.path.dirname(own)
        self.system = find_image(choices.name, self.prefix)
        self.destination = Destination(choices.image)
        read = [*choices.lexicons, *([self.system] if self.system else [])]
        self.destination.check_targets_of_files(read)

    def run(self) -> None:
        let_all_read(self.destination.image, self.prefix)
        is_device = self.destination.is_device()
        staging = self.resources.new_folder(None if is_device else self.destination.folder)
        work = self.resources.new_folder()
        given, first = self.choices.encoding, self.choices.lexicons[0]
        encoding = find_encoding(self.lexicons, given, None, first, self.reporter)
        self.reporter.report(f"encoding: {encoding.name}")
        counts = self.compile(self.convert(encoding, work), work, staging)
        new = os.path.join(staging, NEW)
        size = os.path.getsize(new)
        self.destination.install(new, {}, self.resources, self.reporter)
        self.report_end(counts, size)

    def convert(self, encoding: Encoding, work: bytes) -> Dict[bytes, bytes]:
        """Converts the lexicons, and returns their paths by their names for dictc."""
        names = {
            ABOVE + b"%06d.csv" % number: lexicon.path
            for number, lexicon in enumerate(self.lexicons)
        }
        empty = os.path.join(work, EMPTY)
        with errors_of(work):
            os.mkdir(empty)
        for name, lexicon in zip(names, self.lexicons):
            make_utf_8(lexicon, encoding, os.path.join(empty, name), self.reporter, reject_line)
        return names

    def compile(self, names: Dict[bytes, bytes], work: bytes, staging: bytes) -> str:
        """Runs dictc, and returns the counts that it prints.

        If there is no such system dictionary, dictc finds none either, and reports its name.
        """
        new, system = ABOVE + make_image_pipe(work), self.system_for_dictc(work)
        named = self.destination.named
        image = ImageFile(staging, work, named, self.resources)
        compilation = Compilation({**names, new: named, system: self.choices.name}, self.reporter)
        command = [self.dictc, b"user", b"-v", b"--dic=" + system, b"--out", new, *names]
        return compilation.run(command, os.path.join(work, EMPTY), self.resources, image)

    def system_for_dictc(self, work: bytes) -> bytes:
        """Returns the argument of dictc that names the system dictionary.

        A bare name that is not found stays as it is, because dictc reports where it searched.
        """
        if self.system:
            with errors_of(work):
                os.symlink(os.path.abspath(self.system), os.path.join(work, SYSTEM))
            return ABOVE + SYSTEM
        name = self.choices.name
        return os.path.abspath(name) if b"/" in name else name

    def report_end(self, counts: str, size: int) -> None:
        """Reports the image, tests it, and reports that."""
        reporter, named = self.reporter, printable(self.destination.named)
        reporter.report(counts)
        reporter.report(f"image: {named}, {size} bytes, {reporter.seconds():.0f} s")
        test_new(self.destination, self.own, self.resources, reporter)
        reporter.print_summary(f"{named}: {counts}, {size} bytes")
