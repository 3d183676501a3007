"""Runs dictc over the sources in UTF-8, and reports its messages with the paths of the sources."""
import io
import os
import re
import selectors
import shutil
import stat
import subprocess
from typing import IO, Any, Callable, Dict, Iterator, List, Optional, Sequence, Tuple

from .errors import FILE, MEMORY, Error, as_bytes, errors_of, file_error, printable, reason_of
from .progress import Reporter
from .resources import Resources

# A progress message of `dictc -v`.
STEP = re.compile(r"dictc: \d+\.\d+ s: (.*)")
MESSAGE = re.compile(r"dictc: (.*)")
# The hint that dictc prints after an error with -v.
HINT = re.compile(r"dictc: 'dictc --explain .*")
# The error of a file that dictc can't read or write.
NO_FILE = re.compile(r"dictc: (.*): F1 File")
# The name of the pipe to which dictc writes the image. This program writes the file, so that it
# knows why a write fails.
NEW = b"image"
# The number of bytes that are read at a time, and the number that are written before a sync: to
# sync all of them at once could take long.
CHUNK = 1 << 20
SYNC_INTERVAL = 8 << 20
# Seconds without output of a process after which progress is shown.
IDLE = 1.0


def program_next_to(own: bytes, name: bytes) -> bytes:
    """Returns the path of a program in the directory `own`, or else the one on the PATH."""
    path = os.path.join(own, name)
    found = path if os.access(path, os.X_OK) else shutil.which(name)
    if found is None:
        message = f"{printable(name)} is neither in {printable(own)} nor on the PATH"
        raise Error(FILE, message)
    return os.path.abspath(found)


def dictc_next_to(own: bytes) -> bytes:
    return program_next_to(own, b"dictc")


def make_image_pipe(work: bytes) -> bytes:
    """Makes the pipe for the new image in `work`, and returns its name."""
    with errors_of(work):
        os.mkfifo(os.path.join(work, NEW))
    return NEW


def lines_of(
    pipe: IO[bytes],
    wait: Callable[[], None],
    other: Optional[io.FileIO] = None,
    take: Callable[[], bool] = bool,
) -> Iterator[bytes]:
    """Yields the lines of a pipe. Calls `wait` if none comes for IDLE seconds.

    If the file `other` has bytes, `take` reads them, and returns whether there may be more.
    """
    with selectors.DefaultSelector() as selector:
        selector.register(pipe, selectors.EVENT_READ)
        if other is not None:
            selector.register(other, selectors.EVENT_READ)
        rest = b""
        while True:
            ready = [key.fileobj for key, _ in selector.select(IDLE)]
            if other is not None and other in ready and not take():
                selector.unregister(other)
            if not ready:
                wait()
            if pipe not in ready:
                continue
            data = os.read(pipe.fileno(), 1 << 16)
            *lines, rest = (rest + data).split(b"\n")
            yield from lines
            if not data:
                break
    if rest:
        yield rest


def positions_of(process: int, paths: Dict[bytes, int]) -> Iterator[Tuple[bytes, int]]:
    """Yields those of `paths` that a process has open, each with its position in the file.

    Yields nothing if the system has no /proc.
    """
    folder = f"/proc/{process}"
    try:
        for number in os.listdir(f"{folder}/fd"):
            path = os.readlink(os.fsencode(f"{folder}/fd/{number}"))
            if path in paths:
                with open(f"{folder}/fdinfo/{number}", encoding="ascii") as file:
                    yield path, int(file.readline().split()[1])
    except (OSError, ValueError, IndexError):
        return


def error_of_reading(path: bytes) -> Optional[OSError]:
    """Reads a file or directory to its end, and returns the error of that, or None."""
    if not os.path.lexists(path):
        return None
    try:
        if stat.S_IFMT(os.stat(path).st_mode) in (stat.S_IFREG, stat.S_IFDIR):
            with open(path, "rb", buffering=0) as file:
                while file.read(CHUNK):
                    pass
    except OSError as error:
        return error
    return None


def open_without_writer(path: Any, flags: int) -> int:
    """Opens the reading end of a pipe without waiting for its writer. (An `opener` of `open`.)"""
    return os.open(path, flags | os.O_NONBLOCK)


class ImageFile:
    """The file of the new image in `folder`, filled from the pipe in `work`.

    `named` is the path that errors name.
    """

    def __init__(self, folder: bytes, work: bytes, named: bytes, resources: Resources) -> None:
        self.named = named
        with errors_of(named):
            self.file = resources.keep(open(os.path.join(folder, NEW), "xb", buffering=0))
        # The number of bytes since the last sync.
        self.unsynced = 0
        with errors_of(work):
            path = os.path.join(work, NEW)
            self.pipe = resources.keep(open(path, "rb", buffering=0, opener=open_without_writer))

    def take(self) -> bool:
        """Writes the bytes that are in the pipe. Returns whether there may be more."""
        try:
            rest = memoryview(os.read(self.pipe.fileno(), 1 << 16))
        except BlockingIOError:
            return True
        is_more = len(rest) > 0
        with errors_of(self.named):
            while rest:
                count = self.file.write(rest)
                rest, self.unsynced = rest[count:], self.unsynced + count
            if self.unsynced >= SYNC_INTERVAL:
                os.fsync(self.file)
                self.unsynced = 0
        return is_more

    def finish(self) -> None:
        """Writes the remaining bytes of the pipe, whose writer has ended, and syncs the file."""
        while self.take():
            pass
        with errors_of(self.named):
            os.fsync(self.file)
            self.file.close()


def status_of(child: "subprocess.Popen[bytes]", program: str) -> int:
    """Returns the exit status of a process. It is an error if a signal ended it."""
    status = child.wait()
    if status < 0:
        message = f"{program} was killed by signal {-status}"
        raise Error(MEMORY if status == -9 else FILE, message)
    return status


class Compilation:
    """A run of dictc in a directory that has the sources by other names, which are UTF-8.

    `names` has the path of each source by that name. dictc would reject arguments that are not
    UTF-8.
    """

    def __init__(self, names: Dict[bytes, bytes], reporter: Reporter) -> None:
        self.names = {
            name.decode("utf-8", "backslashreplace"): printable(path)
            for name, path in names.items()
        }
        self.sizes = {
            os.path.realpath(path): os.path.getsize(path)
            for path in names.values()
            if os.path.isfile(path)
        }
        self.pattern = re.compile("(?<![^ ])(" + "|".join(map(re.escape, self.names)) + ")(?=:|$)")
        self.reporter = reporter

    def with_paths(self, text: str) -> str:
        """Returns a message of dictc with the paths of the sources."""
        return self.pattern.sub(lambda found: self.names[found[1]], text)

    def log_position(self, process: int) -> None:
        """Logs how much dictc has read of a large source, such as matrix.def."""
        for path, at in positions_of(process, self.sizes) if self.reporter.logs_steps else ():
            self.reporter.log_progress(f"dictc is reading {printable(path)}", at, self.sizes[path])
        self.reporter.tick()

    def watch(self, child: "subprocess.Popen[bytes]", image: ImageFile, folder: bytes) -> List[str]:
        """Logs the steps of dictc. Returns its other messages, of which the last is its error."""

        def wait() -> None:
            self.log_position(child.pid)

        def take() -> bool:
            self.reporter.tick()
            return image.take()

        messages = []
        assert child.stderr
        for line in lines_of(child.stderr, wait, image.pipe, take):
            text = line.decode("utf-8", "backslashreplace")
            step = STEP.fullmatch(text)
            if step:
                self.reporter.log_step(self.with_paths(step[1]))
            elif self.reporter.logs_steps or not HINT.fullmatch(text):
                self.check_read(text, folder)
                message = MESSAGE.fullmatch(text)
                messages.append(self.with_paths(message[1] if message else text))
        return messages

    def check_read(self, text: str, folder: bytes) -> None:
        """Raises the system's error in place of dictc's, if a read of that file fails here too."""
        found = NO_FILE.fullmatch(text)
        if found and found[1] in self.names:
            error = error_of_reading(os.path.join(folder, as_bytes(found[1])))
            if error is not None:
                raise file_error(as_bytes(self.names[found[1]]), error) from error

    def run(
        self, command: Sequence[bytes], folder: bytes, resources: Resources, image: ImageFile
    ) -> str:
        """Runs dictc, and returns the counts that it prints. An error of dictc ends the import."""
        try:
            child = resources.start(command, folder)
        except OSError as error:
            raise Error(FILE, f"{printable(command[0])}: {reason_of(error)}") from error
        assert child.stdout
        self.reporter.start_step("starting dictc")
        messages = self.watch(child, image, folder)
        counts = child.stdout.read().decode().rstrip("\n")
        status = status_of(child, "dictc")
        if status:
            for line in messages[:-1]:
                self.reporter.log(line)
            message = messages[-1] if messages else f"dictc exited with status {status}"
            raise Error(status, message)
        image.finish()
        return counts
