"""Puts an image, and the settings files beside it, in place.

All of them are renamed at the end. A lock keeps other imports out of the directory meanwhile, and
an error undoes what was done. Each settings file starts with the checksum of its image, so that no
reader uses it with another image if the import is killed in between.
"""
import os
import shutil
import stat
from typing import BinaryIO, Dict, List, Optional, Sequence, Tuple

from .errors import FILE, USAGE, Error, errors_of, printable
from .locking import locked
from .progress import Reporter
from .resources import Resources
from .sources import Folder

ENDING = b".img"
# The start of the first line of a settings file.
CHECKSUM_LINE = b"; image-sha256 "
# The size of the checksum at the end of an image, in bytes.
CHECKSUM = 32
# The ending of the record of an image that passed its tests.
TESTED = b"tested"
# The length of the longest file name, in bytes.
NAME_MAX = 255
# The number of bytes that are copied to a device at a time.
CHUNK = 1 << 16

# A new file, or None to remove the old one, and the path that it gets.
Move = Tuple[Optional[bytes], bytes]


def stem_of(image: bytes) -> bytes:
    """Returns the path of an image without `.img`. The files beside it add their own endings."""
    return image[: -len(ENDING)] if image.endswith(ENDING) else image


def record_of(image: bytes) -> bytes:
    """Returns the path of the record of an image that passed its tests."""
    return stem_of(image) + b"." + TESTED


class Destination:
    """The path of the new image.

    If it is a link, the file that it leads to is replaced; a link to nothing is replaced itself.
    """

    def __init__(self, image: bytes) -> None:
        # The path as the command line has it, and the file that is written.
        self.named = image
        self.image = os.path.realpath(image) if os.path.exists(image) else os.path.abspath(image)
        self.folder = os.path.dirname(self.image)
        self.stem = stem_of(self.image)

    def is_device(self) -> bool:
        """Returns whether the image is written to a device or a pipe, with nothing beside it."""
        return os.path.exists(self.image) and not os.path.isfile(self.image)

    def companion_path(self, name: bytes) -> Optional[bytes]:
        """Returns the path of a file beside the image, as NAME.dicrc of NAME.img.

        Returns None if its name would be too long.
        """
        path = self.stem + b"." + name
        return path if len(os.path.basename(path)) <= NAME_MAX else None

    def check_file(self) -> None:
        """Rejects a directory, and a path that only a directory can have."""
        if os.path.isdir(self.image):
            raise Error(FILE, f"{printable(self.named)}: is a directory")
        if os.path.basename(self.named) in (b"", b".", b".."):
            raise Error(FILE, f"{printable(self.named)} is not a file name")

    def check_targets_of_sources(self, folder: Folder, settings: Sequence[bytes]) -> None:
        """Rejects a path of the image or of its settings that is a directory or a source.

        A source is recognized by whichever name it has.
        """
        self.check_file()
        targets = [self.named]
        if not self.is_device():
            targets += filter(None, map(self.companion_path, settings))
        for target in targets:
            if os.path.isdir(target):
                raise Error(FILE, f"{printable(target)}: is a directory")
            for path in (os.path.join(folder.path, name) for name in folder.all_names()):
                if is_same(path, target):
                    message = f"would overwrite a source file: {printable(path)}"
                    raise Error(USAGE, f"{printable(target)} {message}")

    def check_targets_of_files(self, paths: Sequence[bytes]) -> None:
        """Rejects a path of the image that is a directory or one of `paths`, which are read."""
        self.check_file()
        record = self.companion_path(TESTED)
        if record and os.path.isdir(record):
            raise Error(FILE, f"{printable(record)}: is a directory")
        for path in paths:
            if is_same(path, self.named):
                message = f"would overwrite an input file: {printable(path)}"
                raise Error(USAGE, f"{printable(self.named)} {message}")

    def install(
        self,
        new: bytes,
        settings: Dict[bytes, Optional[bytes]],
        resources: Resources,
        reporter: Reporter,
    ) -> List[bytes]:
        """Puts the new image and its settings in place, and returns the settings it removed.

        `settings` has the path of each new settings file, or None for one that is removed. The
        image comes last: settings without a checksum, as an older version wrote them, are gone by
        then, so that no reader takes them for those of the new image.
        """
        if self.is_device():
            self.write_device(new)
            return []
        moves: List[Move] = []
        for name, path in settings.items():
            target = self.companion_path(name)
            if target is not None:
                moves.append((path, target))
        write_checksums(new, [path for path, _ in moves if path])
        record = self.companion_path(TESTED)
        with locked(self.folder, reporter), resources.signals.held():
            removed = [target for path, target in moves if path is None and os.path.lexists(target)]
            moves += [(None, record)] if record else []
            replace_all(moves, new, self.image, resources.folders[0])
        return removed

    def write_device(self, new: bytes) -> None:
        with errors_of(self.image), open(new, "rb") as file:
            with open(self.image, "wb", buffering=0) as device:
                copy_all(file, device.fileno())


def write_checksums(image: bytes, paths: Sequence[bytes]) -> None:
    """Starts each settings file with the checksum of the image, and syncs it."""
    with errors_of(image), open(image, "rb") as file:
        file.seek(-CHECKSUM, os.SEEK_END)
        line = CHECKSUM_LINE + file.read().hex().encode() + b"\n"
    for path in paths:
        with errors_of(path), open(path, "r+b") as file:
            text = file.read()
            if text.startswith(CHECKSUM_LINE):
                text = text.partition(b"\n")[2]
            file.seek(0)
            file.truncate()
            file.write(line + text)
            file.flush()
            os.fsync(file)


def copy_all(file: BinaryIO, device: int) -> None:
    """Writes all of a file to the descriptor of a device.

    A write may be partial, as to a pipe if its writer is stopped and continued.
    """
    while chunk := file.read(CHUNK):
        rest = memoryview(chunk)
        while rest:
            rest = rest[os.write(device, rest) :]


def is_same(path: bytes, other: bytes) -> bool:
    """Returns whether two paths lead to one file, or are the same path."""
    try:
        return os.path.abspath(path) == os.path.abspath(other) or os.path.samefile(path, other)
    except OSError:
        return False


def replace_all(moves: Sequence[Move], image: bytes, target: bytes, folder: bytes) -> None:
    """Makes all moves, and then moves `image` to `target`. An error undoes all of them.

    Old files are kept in `folder` meanwhile. The old image gets no second name, which would change
    its ctime: after the last move nothing can fail.
    """
    done: List[Move] = []
    try:
        for number, (new, path) in enumerate(moves):
            with errors_of(path):
                old = keep(path, os.path.join(folder, b"old.%d" % number))
                if new is None and old is None:
                    continue
                done.append((old, path))
                replace(new, path)
        with errors_of(target):
            replace(image, target)
    except Error:
        for old, path in reversed(done):
            replace(old, path)
        raise


def keep(target: bytes, name: bytes) -> Optional[bytes]:
    """Gives an old file another name, so that it can be put back. Returns None if there is none."""
    if not os.path.lexists(target):
        return None
    try:
        os.link(target, name, follow_symlinks=False)
    except OSError:
        shutil.copy2(target, name, follow_symlinks=False)
    return name


def replace(new: Optional[bytes], target: bytes) -> None:
    """Moves a file to `target`, with the mode of the old file; or removes the old file."""
    if new is None:
        if os.path.lexists(target):
            os.unlink(target)
        return
    if os.path.isfile(target) and not os.path.islink(target):
        os.chmod(new, stat.S_IMODE(os.stat(target).st_mode))
    os.replace(new, target)
