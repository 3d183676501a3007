"""What an import makes for itself: directories and a process. All of it is removed at the end."""
import io
import os
import shutil
import signal
import subprocess
import tempfile
from contextlib import contextmanager
from types import FrameType
from typing import Iterator, List, Optional, Sequence, Tuple

from .errors import FILE, Error, Interrupted, errors_of

SIGNALS = (signal.SIGHUP, signal.SIGINT, signal.SIGQUIT, signal.SIGTERM)
PREFIX = b"kumquatsieve-import."


class Signals:
    """Ends the import at the first signal. While signals are held back, it ends when they are not.

    A signal that was ignored before stays ignored.
    """

    def __init__(self) -> None:
        self.is_held = False
        self.pending: Optional[int] = None

    def listen(self) -> None:
        for number in SIGNALS:
            if signal.getsignal(number) is not signal.SIG_IGN:
                signal.signal(number, self.handle)

    def handle(self, number: int, _: Optional[FrameType]) -> None:
        if self.is_held:
            self.pending = self.pending or number
            return
        self.is_held = True
        raise Interrupted(number)

    def hold(self) -> None:
        """Holds signals back for good."""
        self.is_held = True

    @contextmanager
    def held(self) -> Iterator[None]:
        """Holds signals back during the body, and then raises the first that arrived."""
        self.is_held = True
        try:
            yield
        finally:
            self.is_held = False
        if self.pending:
            self.is_held = True
            raise Interrupted(self.pending)


def temporary_folder() -> bytes:
    """Returns the system's directory for temporary files."""
    try:
        return os.fsencode(tempfile.gettempdir())
    except FileNotFoundError as error:
        message = "no directory for temporary files is writable; set TMPDIR to one"
        raise Error(FILE, message) from error


class Resources:
    """The directories, files and process of one import."""

    def __init__(self, signals: Signals) -> None:
        self.signals = signals
        # The temporary directories, of which the first holds old files while others replace them.
        self.folders: List[bytes] = []
        # The directories that were made for an image, which stay if the image does.
        self.parents: List[bytes] = []
        self.child: Optional[subprocess.Popen[bytes]] = None
        self.files: List[io.FileIO] = []

    def keep(self, file: io.FileIO) -> io.FileIO:
        """Closes the file at the end, so that a descriptor is free to remove directories with."""
        self.files.append(file)
        return file

    def new_folder(self, folder: Optional[bytes] = None) -> bytes:
        """Makes a temporary directory in `folder`, or in the system's directory for them."""
        with self.signals.held():
            parent = folder if folder is not None else temporary_folder()
            prefix = b"." + PREFIX if folder is not None else PREFIX
            with errors_of(parent):
                self.folders.append(tempfile.mkdtemp(prefix=prefix, dir=parent))
        return self.folders[-1]

    def make_parents(self, folder: bytes) -> None:
        """Creates a directory that all may read, and its parents. Directories that stay empty are
        removed at the end."""
        missing = []
        while not os.path.isdir(folder):
            missing.append(folder)
            folder = os.path.dirname(folder)
        for path in reversed(missing):
            with errors_of(path), self.signals.held():
                os.mkdir(path)
                self.parents.append(path)
                if path == missing[0]:
                    os.chmod(path, 0o755)

    def start(
        self, command: Sequence[bytes], folder: bytes, files: Tuple[int, ...] = ()
    ) -> "subprocess.Popen[bytes]":
        """Starts a process in `folder`, with pipes for its output and errors and with open `files`.

        It ignores the signals that this process ignores. So a write to a file that is full fails.
        """
        self.stop()
        with self.signals.held():
            self.child = subprocess.Popen(
                command,
                cwd=folder,
                stdin=subprocess.DEVNULL,
                stdout=subprocess.PIPE,
                stderr=subprocess.PIPE,
                restore_signals=False,
                pass_fds=files,
            )
        return self.child

    def stop(self) -> None:
        """Ends the process if it still runs."""
        if self.child is not None and self.child.poll() is None:
            self.child.kill()
            self.child.wait()

    def clean(self) -> None:
        """Removes everything. It may be called again if a signal interrupted it."""
        self.signals.hold()
        self.stop()
        for file in self.files:
            file.close()
        for folder in self.folders:
            shutil.rmtree(folder, ignore_errors=True)
        for path in reversed(self.parents):
            try:
                os.rmdir(path)
            except OSError:
                pass
