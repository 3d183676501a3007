"""The directories of images, where programs find an image by its name.

An image that is named by its dictionary alone is installed to the system's directory if that can be
written, and else to the user's own.
"""
import os
from typing import List, NamedTuple, Optional

from .errors import printable

FOLDER = b"kumquatsieve"
ENDING = b".img"
# How many names of images an error lists at most.
NAMES_MAX = 20


class ImageDir(NamedTuple):
    """A directory of images, and the line that reports which one it is."""

    path: bytes
    message: str


def system_dir(prefix: bytes) -> bytes:
    """Returns the system's directory of images that are made at run time.

    It is below /var if `prefix` is /usr, and else below the prefix.
    """
    return os.path.join(b"/" if prefix == b"/usr" else prefix, b"var", b"lib", FOLDER)


def user_dir() -> Optional[bytes]:
    """Returns the user's directory of images, or None if no variable names it.

    The rule is the XDG Base Directory Specification's: a relative XDG_DATA_HOME is ignored.
    """
    data, home = (os.environb.get(name, b"") for name in (b"XDG_DATA_HOME", b"HOME"))
    if os.path.isabs(data):
        return os.path.join(data, FOLDER)
    return os.path.join(home, b".local", b"share", FOLDER) if os.path.isabs(home) else None


def image_dir_for(prefix: bytes) -> ImageDir:
    """Returns the directory of the images that a program of this prefix makes."""
    system, user = system_dir(prefix), user_dir()
    if user is None or may_write(system):
        return ImageDir(system, "image directory: the system's, for all users")
    message = f"image directory: this user's own, because {printable(system)} is not writable"
    return ImageDir(user, message)


def find_image(name: bytes, prefix: bytes) -> Optional[bytes]:
    """Returns the path of the image that an argument of the programs names, or None.

    A bare name that is not a file is searched for in the image directories, among regular files.
    """
    if b"/" in name or is_file(name):
        return name if os.path.lexists(name) else None
    for folder in image_dirs(prefix):
        path = os.path.join(folder, name + ENDING)
        if os.path.isfile(path):
            return path
    return None


def image_dirs(prefix: bytes) -> List[bytes]:
    """Returns the image directories in the order in which they are searched."""
    own = user_dir()
    shared = [system_dir(prefix), os.path.join(prefix, b"share", FOLDER)]
    return shared if own is None else [own, *shared]


def search_hint(prefix: bytes) -> str:
    """Returns the directories that are searched for an image, and the names of the images there."""
    folders = image_dirs(prefix)
    names = sorted({name for folder in folders for name in image_names(folder)})
    listed = ", ".join(map(printable, names[:NAMES_MAX])) or "none"
    more = f" and {len(names) - NAMES_MAX} more" if len(names) > NAMES_MAX else ""
    return f"searched {', '.join(map(printable, folders))}; available images: {listed}{more}"


def image_names(folder: bytes) -> List[bytes]:
    """Returns the names of the images in a directory; none if it can't be read."""
    try:
        files = os.listdir(folder)
    except OSError:
        return []
    images = [file for file in files if file.endswith(ENDING) and file != ENDING]
    return [file[: -len(ENDING)] for file in images if os.path.isfile(os.path.join(folder, file))]


def is_file(path: bytes) -> bool:
    """Returns whether there is anything but a directory at `path`."""
    return os.path.exists(path) and not os.path.isdir(path)


def may_write(folder: bytes) -> bool:
    """Returns whether this user can write a file to `folder`, which is made if it is missing."""
    while not os.path.lexists(folder):
        folder = os.path.dirname(folder)
    return os.geteuid() == 0 or (os.path.isdir(folder) and os.access(folder, os.W_OK | os.X_OK))


def let_all_read(image: bytes, prefix: bytes) -> None:
    """Sets the umask so that all users may read what is written to the system's directory."""
    if os.path.realpath(os.path.dirname(image)) == os.path.realpath(system_dir(prefix)):
        os.umask(0o022)


def let_none_write() -> None:
    """Sets the umask so that only this user may write an image, which would get no record else."""
    os.umask(os.umask(0o077) | 0o022)
