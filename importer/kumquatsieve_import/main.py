"""The import of a directory of sources, step by step, and the program around it."""
import os
import signal
import sys
from typing import Dict, List, NoReturn, Optional, Sequence

from .command_line import DEBIAN_NAMES, HELP, Choices, parse_arguments, utf_8_arguments
from .compilation import NEW, Compilation, ImageFile, dictc_next_to, make_image_pipe
from .conversion import make_utf_8, write_converted
from .encoding_detection import find_encoding
from .encodings import Encoding, missing_converter
from .errors import FILE, MEMORY, Error, Interrupted, printable, reason_of
from .fields import FIELDS, find_names, write_names
from .image_dirs import ImageDir, image_dir_for, let_all_read, let_none_write
from .image_tests import test_all, test_new
from .installing import TESTED, Destination
from .progress import Reporter
from .resources import Resources, Signals
from .sources import DICRC, SETTINGS, Source, debian_folder, encoding_in_dicrc, read_folder
from .user_dictionary import UserImport

# The new file of each settings file, by the name in the sources; None if there is none.
Settings = Dict[bytes, Optional[bytes]]


class Import:
    """One import of a directory: its inputs, and the path of its image.

    `own` is the directory of this program.
    """

    def __init__(
        self, choices: Choices, own: bytes, resources: Resources, reporter: Reporter
    ) -> None:
        self.choices, self.own, self.resources, self.reporter = choices, own, resources, reporter
        if choices.is_debian():
            self.folder = read_folder(debian_folder(DEBIAN_NAMES[choices.name]))
        else:
            self.folder = read_folder(choices.name.rstrip(b"/") or b"/")
        self.dictc = dictc_next_to(own)
        self.prefix = os.path.dirname(own)
        # The directory that the image is installed to, if the command line has no path for it.
        self.image_dir: Optional[ImageDir] = None
        image = choices.image
        if image is None:
            self.image_dir = image_dir_for(self.prefix)
            image = os.path.join(self.image_dir.path, choices.name + b".img")
        self.destination = Destination(image)
        self.destination.check_targets_of_sources(self.folder, [*SETTINGS, FIELDS, TESTED])

    def run(self) -> None:
        let_all_read(self.destination.image, self.prefix)
        if self.image_dir is not None:
            let_none_write()
            self.resources.make_parents(self.image_dir.path)
        is_device = self.destination.is_device()
        staging = self.resources.new_folder(None if is_device else self.destination.folder)
        work = self.resources.new_folder()
        encoding = self.report_sources()
        names = self.convert(encoding, work)
        settings = self.convert_settings(encoding, staging)
        if not is_device:
            settings[FIELDS] = self.name_fields(names, settings[DICRC], work, staging)
        counts = self.compile(names, work, staging)
        new = os.path.join(staging, NEW)
        size = os.path.getsize(new)
        removed = self.destination.install(new, settings, self.resources, self.reporter)
        self.report_end(counts, size, settings, removed)

    def report_sources(self) -> Encoding:
        """Reports the sources, and finds and reports their encoding."""
        folder, reporter = self.folder, self.reporter
        reporter.report(f"sources: {printable(folder.path)}")
        read = [*folder.definitions[1:], *folder.lexicons, *folder.settings]
        in_dicrc = encoding_in_dicrc(folder)
        encoding = find_encoding(read, self.choices.encoding, in_dicrc, folder.path, reporter)
        reporter.report(f"encoding: {encoding.name}")
        if folder.others:
            reporter.report(f"not read: {' '.join(map(printable, folder.others))}")
        return encoding

    def convert(self, encoding: Encoding, work: bytes) -> Dict[bytes, bytes]:
        """Converts the sources, and returns their paths by their names for dictc.

        These names are UTF-8, whatever the names of the sources are.
        """
        names = {source.name: source for source in self.folder.definitions}
        names.update(
            {b"%06d.csv" % number: source for number, source in enumerate(self.folder.lexicons)}
        )
        leave_out = self.reporter.report_left_out
        for name, source in names.items():
            make_utf_8(source, encoding, os.path.join(work, name), self.reporter, leave_out)
        return {name: source.path for name, source in names.items()}

    def convert_settings(self, encoding: Encoding, staging: bytes) -> Settings:
        """Converts the settings files."""
        found: Settings = {name: None for name in SETTINGS}
        leave_out = self.reporter.report_left_out
        for source in [] if self.destination.is_device() else self.folder.settings:
            if self.is_kept(source.name):
                target = os.path.join(staging, source.name)
                found[source.name] = target
                write_converted(source, encoding, target, self.reporter, leave_out)
        return found

    def name_fields(
        self, names: Dict[bytes, bytes], dicrc: Optional[bytes], work: bytes, staging: bytes
    ) -> Optional[bytes]:
        """Writes the file of the fields' names, from sources in UTF-8.

        Returns None if the names are not known, or can't be kept beside the image.
        """
        if not self.is_kept(FIELDS):
            return None
        lexicons = []
        for name, path in names.items():
            if name.endswith(b".csv"):
                made = os.path.join(work, name)
                lexicons.append((path, Source(made, made, os.path.getsize(made))))
        found = find_names(dicrc, lexicons, self.reporter)
        self.reporter.report(f"fields: {found.message}")
        if not found.names:
            return None
        write_names(found.names, os.path.join(staging, FIELDS))
        return os.path.join(staging, FIELDS)

    def is_kept(self, name: bytes) -> bool:
        """Returns whether a file of this name can be kept beside the image, and reports if not."""
        if self.destination.companion_path(name) is None:
            why = "because its name beside the image would be too long"
            self.reporter.report(f"not kept: {printable(name)}, {why}")
            return False
        return True

    def compile(self, names: Dict[bytes, bytes], work: bytes, staging: bytes) -> str:
        """Runs dictc, and returns the counts that it prints."""
        new = make_image_pipe(work)
        image = ImageFile(staging, work, self.destination.named, self.resources)
        files = [b"matrix.def", b"--char", b"char.def", b"--unk", b"unk.def", b"--out", new]
        lexicons = [name for name in names if name.endswith(b".csv")]
        compilation = Compilation({**names, new: self.destination.named}, self.reporter)
        command = [self.dictc, b"system", b"-v", b"--matrix", *files, *lexicons]
        return compilation.run(command, work, self.resources, image)

    def report_end(
        self, counts: str, size: int, settings: Settings, removed: Sequence[bytes]
    ) -> None:
        """Reports the image and the files beside it, tests the image, and reports that."""
        reporter, named = self.reporter, printable(self.destination.named)
        reporter.report(counts)
        reporter.report(f"image: {named}, {size} bytes, {reporter.seconds():.0f} s")
        if self.image_dir is not None:
            reporter.report(self.image_dir.message)
        kept: List[bytes] = []
        written: List[bytes] = []
        for name, path in settings.items():
            target = self.destination.companion_path(name) if path else None
            if target is not None:
                (written if name == FIELDS else kept).append(target)
        for what, paths in (("kept", kept), ("written", written), ("removed", removed)):
            if paths:
                files = " ".join(printable(os.path.basename(path)) for path in paths)
                reporter.report(f"{what} beside it: {files}")
        test_new(self.destination, self.own, self.resources, reporter)
        reporter.report(f"{reporter.left_out_lines} lines left out")
        reporter.print_summary(f"{named}: {counts}, {size} bytes")


def run_command(arguments: List[str], own: bytes, resources: Resources, reporter: Reporter) -> int:
    """Runs the command of a command line. Returns 0, or raises an error."""
    choices = parse_arguments(utf_8_arguments(arguments))
    if choices.is_verbose:
        reporter.set_verbose()
    if choices.wants_help:
        reporter.report(HELP.rstrip("\n"))
        return 0
    if choices.images:
        return test_all(choices.images, own, resources, reporter)
    missing = missing_converter()
    if missing:
        raise Error(
            FILE,
            f"this Python cannot convert {missing}: "
            "a part of its library is missing (Debian: apt install python3)",
        )
    if choices.lexicons:
        UserImport(choices, own, resources, reporter).run()
    else:
        Import(choices, own, resources, reporter).run()
    return 0


def status_of_command(
    arguments: List[str], own: bytes, resources: Resources, reporter: Reporter
) -> int:
    """Runs the command of a command line, and reports its error. Returns the exit status."""
    try:
        return run_command(arguments, own, resources, reporter)
    except Error as error:
        reporter.log(str(error))
        return error.status
    except OSError as error:
        reporter.log(f"{printable(error.filename or 'a file')}: {reason_of(error)}")
        return FILE
    except MemoryError:
        reporter.log("out of memory")
        return MEMORY


def fill_streams() -> None:
    """Opens a standard stream that is closed, as a file that can't be written.

    So no file that is made gets its descriptor.
    """
    for descriptor in (0, 1, 2):
        try:
            os.fstat(descriptor)
        except OSError:
            os.open(os.devnull, os.O_RDONLY)


def main() -> NoReturn:
    """Runs the program by the command line of this process, as a console script."""
    run(sys.argv[1:], os.fsencode(os.path.dirname(os.path.realpath(sys.argv[0]))))


def run(arguments: List[str], own: bytes) -> NoReturn:
    """Runs the program, and ends this process. Nothing of an import is left but the image.

    `own` is the directory of this program. A signal ends the process as it would without a handler.
    """
    fill_streams()
    signals = Signals()
    resources, reporter = Resources(signals), Reporter()
    signals.listen()
    status = FILE
    try:
        try:
            status = status_of_command(arguments, own, resources, reporter)
        finally:
            resources.clean()
            reporter.erase()
    except Interrupted as interrupted:
        resources.clean()
        reporter.erase()
        signal.signal(interrupted.number, signal.SIG_DFL)
        os.kill(os.getpid(), interrupted.number)
    sys.exit(status)
