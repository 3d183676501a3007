"""Changes of a case, made before or after the record of its image is written."""
import os
import shutil
import socket
import subprocess
from pathlib import Path
from typing import Callable

from capi.cases.case_dir import CaseDir

Change = Callable[[CaseDir], object]


def no_change(case: CaseDir) -> None:
    """Changes nothing."""


def both(*changes: Change) -> Change:
    """Makes changes one after the other."""
    return lambda case: [change(case) for change in changes]


# The image.


def changed_back(case: CaseDir) -> None:
    """Writes another byte into the image, and sets its time back."""
    status = case.image.stat()
    with case.image.open("r+b") as file:
        file.seek(-1, os.SEEK_END)
        file.write(b"X")
    os.utime(case.image, ns=(status.st_atime_ns, status.st_mtime_ns))


def restored(case: CaseDir) -> None:
    """Restores the image and its record from a copy with their times."""
    for file in (case.image, case.record):
        shutil.copy2(file, case.other())
        file.unlink()
        shutil.copy2(case.other() / file.name, file)


def created_anew(case: CaseDir) -> None:
    """Deletes the image and writes it again with its time.

    On most file systems the new file has the same inode.
    """
    status = case.image.stat()
    case.image.unlink()
    case.image.write_bytes(case.bytes)
    os.utime(case.image, ns=(status.st_atime_ns, status.st_mtime_ns))


def replaced(case: CaseDir) -> None:
    """Replaces the image by a copy with its times."""
    case.copy(case.directory / "new.img")
    os.replace(case.directory / "new.img", case.image)


def touched(case: CaseDir) -> None:
    """Sets the times of the image to now."""
    os.utime(case.image)


def of_1969(case: CaseDir) -> None:
    """Sets the time of the image to 1 ns before 1970."""
    os.utime(case.image, ns=(0, -1))


# Names of the image and of the record.


def copied_elsewhere(case: CaseDir) -> None:
    """Copies the image and its record to another directory, and opens that image."""
    shutil.copytree(case.directory, case.other(), dirs_exist_ok=True)
    case.path = str(case.other() / "x.img")


def linked_hard(case: CaseDir) -> None:
    """Gives the image and its record names in another directory too, and opens that image."""
    for file in (case.image, case.record):
        os.link(file, case.other() / file.name)
    case.path = str(case.other() / "x.img")


def linked(case: CaseDir) -> None:
    """Opens a link to the image that has a record of its own name."""
    (case.directory / "link.img").symlink_to("x.img")
    shutil.copy2(case.record, case.directory / "link.tested")
    case.path = str(case.directory / "link.img")


def linked_from_elsewhere(case: CaseDir) -> None:
    """Opens a link to the image in another directory, with a copy of the record there."""
    (case.other() / "x.img").symlink_to(case.image)
    shutil.copy2(case.record, case.other())
    case.path = str(case.other() / "x.img")


def by_linked_directory(case: CaseDir) -> None:
    """Opens the image through a link to its directory."""
    link = case.directory.with_suffix(".link")
    link.symlink_to(case.directory)
    case.path = str(link / "x.img")


def swapped(case: CaseDir) -> None:
    """Moves the record to a directory that takes the place of the first one during the call."""
    os.rename(case.record, case.other() / "x.tested")
    case.variables["SWAP"] = f"{case.directory}:{case.other()}"


def named(image: str, record: str) -> Change:
    """Gives the image and the record other names."""

    def change(case: CaseDir) -> None:
        case.image.rename(case.directory / image)
        case.image, case.record = case.directory / image, case.directory / record
        case.path = str(case.image)

    return change


def long_name(case: CaseDir) -> None:
    """Gives the image a name so long that no record, with three bytes more, can have it."""
    case.record.unlink()
    named("x" * 251 + ".img", "")(case)


def path(text: str) -> Change:
    """Opens the image by a path that is relative to the directory."""

    def change(case: CaseDir) -> None:
        case.cwd, case.path = case.directory, text

    return change


# The record.


def no_record(case: CaseDir) -> None:
    """Deletes the record."""
    case.record.unlink()


def text(change: Callable[[str], str]) -> Change:
    """Writes another text into the record, whose characters are bytes."""
    return lambda case: case.record.write_bytes(change(case.record.read_text()).encode("latin-1"))


def exchanged(old: str, new: str) -> Change:
    """Replaces the first `old` of the record by `new`."""

    def exchange(before: str) -> str:
        assert old in before, (old, before)
        return before.replace(old, new, 1)

    return text(exchange)


def digits(change: Callable[[str], str]) -> Change:
    """Changes the 64 digits of the SHA-256 at the end of the record, before the line feed."""
    return text(lambda before: before[:-65] + change(before[-65:-1]) + "\n")


def record_by(make: Callable[[Path], object]) -> Change:
    """Replaces the record by something that `make` makes of its path."""

    def change(case: CaseDir) -> None:
        case.record.unlink()
        make(case.record)

    return change


def record_elsewhere(case: CaseDir) -> None:
    """Moves the record to another directory, and links to it."""
    case.record.rename(case.other() / "x.tested")
    case.record.symlink_to(case.other() / "x.tested")


def made_socket(at: Path) -> None:
    """Makes a socket."""
    with socket.socket(socket.AF_UNIX) as end:
        end.bind(str(at))


def made_device(at: Path) -> None:
    """Makes the device /dev/zero under another name."""
    os.mknod(at, 0o20644, os.makedev(1, 5))


# Modes, owners and readers. `name` is `image`, `record` or `directory`.


def mode(name: str, bits: int) -> Change:
    """Sets a file mode."""
    return lambda case: getattr(case, name).chmod(bits)


def owner(name: str, user: int) -> Change:
    """Sets the owner and the group."""
    return lambda case: os.chown(getattr(case, name), user, user)


def reader(user: int) -> Change:
    """Opens the image as this user."""
    return lambda case: case.read_by(f"--reuid={user}", f"--regid={user}")


def effective_root(user: int) -> Change:
    """Opens the image with another real user."""
    return lambda case: case.read_by(f"--ruid={user}", "--euid=0")


def setting(value: str) -> Change:
    """Sets the variable KUMQUATSIEVE_TRUST."""
    return lambda case: case.variables.update(KUMQUATSIEVE_TRUST=value)


def how(bits: int) -> Change:
    """Opens the image with this argument `how`."""
    return lambda case: setattr(case, "how", bits)


# File systems.


def mount(*words: object) -> None:
    """Runs mount(8)."""
    subprocess.run(["mount", *map(str, words)], check=True)


def mounted(kind: str, options: str) -> Change:
    """Mounts another file system on the directory, with the image in it."""

    def change(case: CaseDir) -> None:
        mount("-t", kind, "-o", options, kind, case.directory)
        case.write_image()

    return change


def remounted(options: str) -> Change:
    """Mounts the directory on itself with options."""

    def change(case: CaseDir) -> None:
        mount("--bind", case.directory, case.directory)
        mount("-o", f"remount,bind,{options}", case.directory)

    return change


def overlaid(case: CaseDir) -> None:
    """Mounts an overlay file system on the directory, with the image in the lower layer."""
    parts = case.other()
    mount("-t", "tmpfs", "-o", "mode=755", "tmpfs", parts)
    for name in ("lower", "upper", "work"):
        (parts / name).mkdir()
    case.copy(parts / "lower" / "x.img")
    options = f"lowerdir={parts}/lower,upperdir={parts}/upper,workdir={parts}/work"
    mount("-t", "overlay", "-o", options, "overlay", case.directory)


def bound(name: str, kind: str, options: str) -> Change:
    """Mounts a copy of the image or the record, from another file system, on its name."""

    def change(case: CaseDir) -> None:
        file: Path = getattr(case, name)
        mount("-t", kind, "-o", options, kind, case.other())
        shutil.copy2(file, case.other() / file.name)
        mount("--bind", case.other() / file.name, file)

    return change


def mounted_under(directory: Path) -> bool:
    """Unmounts the last mount in or next to a directory. Returns False if there is none."""
    with open("/proc/self/mountinfo") as mounts:
        found = [line.split()[4] for line in mounts if line.split()[4].startswith(str(directory))]
    if found:
        subprocess.run(["umount", "-l", found[-1]], check=True)
    return bool(found)
