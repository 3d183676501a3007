"""The lock of a directory. One import or test holds it while it puts files in place there.

It is the system's own lock of the directory (flock): it is no file, and it ends with the process.
"""
import fcntl
import os
import time
from contextlib import contextmanager
from typing import Iterator, Optional

from .errors import printable, reason_of
from .progress import INTERVAL, Reporter

# Seconds between two attempts.
PAUSE = 0.05


@contextmanager
def locked(folder: bytes, reporter: Reporter) -> Iterator[None]:
    """Holds the lock of a directory. Goes on with a message if the system has no lock for it."""
    descriptor = open_folder(folder, reporter)
    try:
        if descriptor is not None:
            wait_for_lock(descriptor, folder, reporter)
        yield
    finally:
        if descriptor is not None:
            os.close(descriptor)


def open_folder(folder: bytes, reporter: Reporter) -> Optional[int]:
    try:
        return os.open(folder, os.O_RDONLY | os.O_DIRECTORY)
    except OSError as error:
        log_missing(folder, error, reporter)
    return None


def wait_for_lock(descriptor: int, folder: bytes, reporter: Reporter) -> None:
    """Takes the lock once no other process holds it. Logs what it waits for after INTERVAL."""
    start, is_logged = time.monotonic(), False
    while True:
        try:
            fcntl.flock(descriptor, fcntl.LOCK_EX | fcntl.LOCK_NB)
            return
        except BlockingIOError:
            if not is_logged and time.monotonic() - start >= INTERVAL:
                reporter.log_step(f"waiting for another import to {printable(folder)}")
                is_logged = True
            time.sleep(PAUSE)
        except OSError as error:
            log_missing(folder, error, reporter)
            return


def log_missing(folder: bytes, error: OSError, reporter: Reporter) -> None:
    message = f"no lock against concurrent imports: {reason_of(error)}"
    reporter.log(f"{printable(folder)}: {message}")
