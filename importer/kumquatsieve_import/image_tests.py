"""Tests whole images by a run of jseg, and writes the records of those that passed."""
import errno
import os
import re
import stat
import time
from typing import Callable, NamedTuple, Optional, Sequence, Tuple

from .compilation import lines_of, program_next_to, status_of
from .errors import FILE, INVALID, Error, errors_of, printable
from .image_dirs import find_image, search_hint
from .installing import Destination, record_of
from .locking import locked
from .progress import Reporter
from .records import SECOND, RecordFolder, record_text
from .resources import Resources

MAGIC = b"MJDICT\r\n"
# The layouts of images without a checksum.
OLD_LAYOUTS = (1, 2)
MESSAGE = re.compile(r"jseg: (.*)")
# What jseg prints of the image of a user dictionary that passed all tests.
USER_DICTIONARY = re.compile(r"jseg: .*: O1 NotSystem")
# The permission of users besides the owner to write.
OTHERS_WRITE = stat.S_IWGRP | stat.S_IWOTH
# Errors because of which this user can't have a record there. They don't fail an import.
EXPECTED = (errno.EACCES, errno.EPERM, errno.EROFS, errno.ENAMETOOLONG)
# The longest wait in nanoseconds until the clock has passed the image's times.
PATIENCE = 5 * SECOND
# Seconds after which the system's clock for the times of files has a new value.
PAUSE = 0.02
CHUNK = 1 << 20
CHANGED = "changed or replaced during the tests"


class Unrecorded(NamedTuple):
    """Why there is no record, and the exit status of that, which is 0 if it is no error."""

    reason: str
    status: int = 0


class Tools(NamedTuple):
    """What every test uses. `jseg` is the path of the program."""

    jseg: bytes
    resources: Resources
    reporter: Reporter


def identity_of(image: os.stat_result) -> Tuple[int, ...]:
    """Returns the fields that change when a file is written, moved or replaced."""
    return image.st_dev, image.st_ino, image.st_size, image.st_mtime_ns, image.st_ctime_ns


class Image:
    """An image that is tested: an open file, and its directory, which is opened for a record."""

    def __init__(self, path: bytes, file: int, tools: Tools) -> None:
        self.path, self.file, self.tools = path, file, tools
        self.before = os.fstat(file)
        self.folder = RecordFolder(os.path.dirname(path) or b".", tools.resources.signals)
        self.name = os.path.basename(path)

    def obstacle(self) -> Optional[str]:
        """Returns why such an image gets no record. Opens the directory and returns None if none.

        The file and its directory may be written by their owner only.
        """
        if os.path.islink(self.path):
            return f"is a link to {printable(os.readlink(self.path))}"
        if not stat.S_ISREG(self.before.st_mode):
            return "is not a regular file"
        if self.before.st_mode & OTHERS_WRITE:
            return "its group or all users can write to it (chmod go-w)"
        head = os.pread(self.file, 12, 0)
        layout = int.from_bytes(head[8:], "little")
        if head.startswith(MAGIC) and layout in OLD_LAYOUTS:
            return f"its layout {layout} has no checksum"
        if self.folder.open().st_mode & OTHERS_WRITE:
            return "its group or all users can write to its directory (chmod go-w)"
        return None

    def wait_for_clock(self) -> Optional[str]:
        """Waits until a write to the image would give it a later ctime. Returns why that fails.

        A file system may keep times in whole seconds; then two seconds have to pass.
        """
        latest = max(self.before.st_mtime_ns, self.before.st_ctime_ns)
        while True:
            time.sleep(PAUSE)
            now = self.folder.current_time()
            needed = latest + (2 * SECOND if now % SECOND == 0 else 1)
            if now >= needed:
                return None
            if needed - now > PATIENCE:
                return "its change time is in the future"
            self.tools.reporter.tick()

    def unrecordable(self) -> Optional[str]:
        return self.obstacle() or self.wait_for_clock()

    def checksum(self) -> str:
        """Returns the SHA-256 of the whole file."""
        # The module takes megabytes, which an import needs before that.
        import hashlib

        done, state, step = 0, hashlib.sha256(), f"testing {printable(self.path)}"
        while chunk := os.pread(self.file, CHUNK, done):
            state.update(chunk)
            done += len(chunk)
            self.tools.reporter.log_progress(step, done, self.before.st_size)
        return state.hexdigest()

    def check(self, is_hashed: bool) -> str:
        """Runs all tests, by a jseg that loads this very file. Returns its SHA-256 if `is_hashed`.

        jseg reports O1 for the image of a user dictionary, after that passed all its tests.
        """
        name = f"/proc/self/fd/{self.file}"
        with errors_of(os.path.dirname(name).encode()):
            os.stat(name)
        jseg, tick = self.tools.jseg, self.tools.reporter.tick
        with errors_of(jseg):
            command = [jseg, b"-d", name.encode()]
            child = self.tools.resources.start(command, b"/", (self.file,))
        assert child.stderr
        with errors_of(self.path):
            checksum = self.checksum() if is_hashed else ""
            lines = [line.decode("utf-8", "replace") for line in lines_of(child.stderr, tick)]
        status, last = status_of(child, "jseg"), lines[-1] if lines else ""
        if status and not USER_DICTIONARY.fullmatch(last):
            found = MESSAGE.fullmatch(last)
            text = found[1] if found else f"jseg: status {status}"
            raise Error(status, text.replace(name, printable(self.path), 1))
        return checksum

    def is_unchanged(self, current: os.stat_result) -> bool:
        """Returns whether the file is as it was before the tests.

        `current` is the status of the file that has the image's name now.
        """
        after = {identity_of(os.fstat(self.file)), identity_of(current)}
        return after == {identity_of(self.before)}

    def record(self, checksum: str) -> Optional[str]:
        """Writes the record. Returns why it isn't written."""
        with locked(self.folder.path, self.tools.reporter):
            if not self.is_unchanged(self.folder.stat(self.name)):
                return CHANGED
            self.folder.write(record_of(self.name), record_text(self.before, checksum))
        return None

    def remove_record(self) -> None:
        """Removes the old record of an image that gets none now.

        If another import has replaced the image meanwhile, the record is that import's and stays.
        A user who may not remove a record may not write one either.
        """
        try:
            with locked(self.folder.path, self.tools.reporter):
                if self.is_unchanged(os.lstat(self.path)):
                    os.unlink(record_of(self.path))
        except OSError:
            pass


def attempt(step: Callable[[], Optional[str]]) -> Optional[Unrecorded]:
    """Returns why a step of the recording fails: what it returns, or the system's reason."""
    try:
        why = step()
        return None if why is None else Unrecorded(why)
    except OSError as error:
        status = 0 if error.errno in EXPECTED else FILE
        return Unrecorded(os.strerror(error.errno or 0), status)


def test_image(path: bytes, tools: Tools) -> Optional[Unrecorded]:
    """Tests the image at a path, and records that it passed. Returns why there is no record.

    A test that fails is an error. An old record is removed if no new one is written.
    """
    with errors_of(path):
        opened = open(path, "rb", buffering=0)
    with opened as file:
        image = Image(path, file.fileno(), tools)
        tools.reporter.start_step(f"testing {printable(path)}")
        try:
            why = test_and_record(image)
        except Error as error:
            if error.status == INVALID:
                image.remove_record()
            raise
        finally:
            image.folder.close()
        if why is not None and why.reason != CHANGED:
            image.remove_record()
    return why


def test_and_record(image: Image) -> Optional[Unrecorded]:
    why = attempt(image.unrecordable)
    checksum = image.check(is_hashed=why is None)
    return why or attempt(lambda: image.record(checksum))


def report_tested(path: bytes, why: Optional[Unrecorded], reporter: Reporter) -> None:
    """Reports an image that passed all tests."""
    if why is None:
        reporter.report(f"tested: {printable(path)}")
    else:
        reporter.report(f"tested, not recorded: {printable(path)}: {why.reason}")


def test_new(
    destination: Destination, own: bytes, resources: Resources, reporter: Reporter
) -> None:
    """Tests an image that was just installed, and reports whether that is recorded.

    The import goes on if the image can't be tested or recorded. `own` is the directory of this
    program, where jseg is.
    """
    if destination.is_device():
        return
    named = printable(destination.named)
    try:
        tools = Tools(program_next_to(own, b"jseg"), resources, reporter)
        why = test_image(destination.image, tools)
        report_tested(destination.named, why, reporter)
    except Error as error:
        if error.status == INVALID:
            raise
        reporter.report(f"not tested: {named}: {error}")
    except MemoryError:
        reporter.report(f"not tested: {named}: out of memory")


def check_found(path: bytes, prefix: bytes) -> None:
    """Rejects a bare name that no image has. The error lists the directories that were searched."""
    if b"/" not in path and not os.path.lexists(path):
        missing = f"{printable(path)}: {os.strerror(errno.ENOENT)}"
        raise Error(FILE, f"{missing}; {search_hint(prefix)}")


def test_all(names: Sequence[bytes], own: bytes, resources: Resources, reporter: Reporter) -> int:
    """Tests images, each by its path or its bare name. Returns the status of the first error."""
    tools, status = Tools(program_next_to(own, b"jseg"), resources, reporter), 0
    prefix = os.path.dirname(own)
    for name in names:
        path = find_image(name, prefix) or name
        try:
            check_found(path, prefix)
            why = test_image(path, tools)
            status = status or (why.status if why else 0)
        except Error as error:
            reporter.log(str(error))
            status = status or error.status
        else:
            report_tested(path, why, reporter)
    return status
