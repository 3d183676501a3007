"""The record of an image that passed its tests: NAME.tested beside NAME.img.

The record names one file by its device, inode, size and times. The C library loads that file
without the tests. A later write to the file changes its ctime, which makes the record stale.
"""
import os
from contextlib import contextmanager
from typing import Iterator, Optional, Tuple

from .resources import PREFIX, Signals

# Nanoseconds in a second.
SECOND = 1_000_000_000


def record_text(image: os.stat_result, checksum: str) -> bytes:
    """Returns the record of an image. The C library builds the same text and compares it."""
    mtime, ctime = divmod(image.st_mtime_ns, SECOND), divmod(image.st_ctime_ns, SECOND)
    lines = (
        "kumquatsieve-tested 1",
        f"device {os.major(image.st_dev)}:{os.minor(image.st_dev)}",
        f"inode {image.st_ino}",
        f"size {image.st_size}",
        f"mtime {mtime[0]}.{mtime[1]:09d}",
        f"ctime {ctime[0]}.{ctime[1]:09d}",
        f"sha256 {checksum}",
    )
    return "".join(f"{line}\n" for line in lines).encode()


class RecordFolder:
    """The directory in which the record of an image is written. It is opened once."""

    def __init__(self, path: bytes, signals: Signals) -> None:
        self.path, self.signals = path, signals
        self.descriptor: Optional[int] = None

    def open(self) -> os.stat_result:
        """Opens the directory, and returns its status."""
        self.descriptor = os.open(self.path, os.O_RDONLY | os.O_DIRECTORY | os.O_CLOEXEC)
        return os.fstat(self.descriptor)

    def close(self) -> None:
        if self.descriptor is not None:
            os.close(self.descriptor)

    def stat(self, name: bytes) -> os.stat_result:
        return os.stat(name, dir_fd=self.descriptor, follow_symlinks=False)

    @contextmanager
    def new_file(self) -> Iterator[Tuple[bytes, int]]:
        """Makes a file, and yields its name and its descriptor.

        It is removed after the body, unless it was renamed. Signals are held back meanwhile.
        """
        name = b"." + PREFIX + os.urandom(8).hex().encode()
        flags = os.O_WRONLY | os.O_CREAT | os.O_EXCL | os.O_NOFOLLOW | os.O_CLOEXEC
        with self.signals.held():
            file = os.open(name, flags, 0o600, dir_fd=self.descriptor)
            try:
                yield name, file
            finally:
                os.close(file)
                self.remove(name)

    def remove(self, name: bytes) -> None:
        """Removes a file, if there is one."""
        try:
            os.unlink(name, dir_fd=self.descriptor)
        except FileNotFoundError:
            pass

    def write(self, name: bytes, text: bytes) -> None:
        """Writes a file that all users may read, in place of one with this name."""
        with self.new_file() as (new, file):
            while text:
                text = text[os.write(file, text) :]
            os.fchmod(file, 0o644)
            os.fsync(file)
            os.rename(new, name, src_dir_fd=self.descriptor, dst_dir_fd=self.descriptor)

    def current_time(self) -> int:
        """Returns the ctime, in nanoseconds, of a file that is made now."""
        with self.new_file() as (_, file):
            return os.fstat(file).st_ctime_ns
