"""Checks of kumquatsieve-libmecab as installed: which libmecab programs get, and the switch."""
import shutil
from pathlib import Path
from typing import NamedTuple

from checking import IMAGE, IMAGES, LINE, PRINTED, expect, fail, printed
from root import Root

SWITCH = "kumquatsieve-libmecab"
MECAB = "/usr/bin/mecab"
# The images that programs of MeCab get without a setting.
CHOSEN = f"{IMAGES}/kumquatsieve.img"
SHARED = "/usr/share/kumquatsieve/kumquatsieve.img"


class Libraries(NamedTuple):
    """The files of libmecab.so.2: MeCab's own, and ours."""

    theirs: str
    ours: str


def file_of(root: Root, name: str, listing: str) -> str:
    """Returns the file of a library, by what ldd prints."""
    found = [line.split()[2] for line in listing.splitlines() if line.split()[0] == name]
    if not found:
        fail(f"{name} is not found: {listing}")
    return printed(root, "readlink", "-f", *found)


def library_of(root: Root, program: str) -> str:
    """Returns the file that a program gets for libmecab.so.2."""
    return file_of(root, "libmecab.so.2", root.run("ldd", program))


def opened_library(root: Root) -> str:
    """Returns the file that a program gets if it opens libmecab.so.

    The loader searches for a preloaded library in the same way.
    """
    return file_of(root, "libmecab.so", root.run("ldd", "/bin/true", LD_PRELOAD="libmecab.so"))


def check_libmecab(root: Root) -> str:
    """Checks that nothing changes before a user chooses, and that the choice stays.

    Our library is chosen at the end. Returns the file of MeCab's own.
    """
    selections = root.run("update-alternatives", "--get-selections").split()
    name = [word for word in selections if word.startswith("libmecab.so.2-")][0]
    folder = Path("/usr/lib", name.removeprefix("libmecab.so.2-"))
    theirs = printed(root, "readlink", "-f", str(folder / "libmecab.so.2"))
    libraries = Libraries(theirs, str(folder / "kumquatsieve" / "mecab" / "libmecab.so.2"))
    expect("libmecab.so.2 as installed", theirs, library_of(root, MECAB))
    expect("libmecab.so as installed", theirs, opened_library(root))
    check_choice(root, name, libraries)
    root.run("update-alternatives", "--auto", name)
    expect("libmecab.so.2 after --auto", theirs, library_of(root, MECAB))
    expect("libmecab.so after --auto", theirs, opened_library(root))
    check_switch(root, libraries)
    check_readers(root, libraries)
    root.run("update-alternatives", "--set", name, libraries.ours)
    return theirs


def check_choice(root: Root, name: str, libraries: Libraries) -> None:
    """Chooses our library, which stays chosen when ldconfig runs, and uses it."""
    root.run("update-alternatives", "--set", name, libraries.ours)
    expect("libmecab.so as chosen", libraries.ours, opened_library(root))
    root.run("ldconfig")
    expect("libmecab.so.2 as chosen", libraries.ours, library_of(root, MECAB))
    expect("libmecab.so after ldconfig", libraries.ours, opened_library(root))
    by_variable = root.run("mecab", text=LINE, KUMQUATSIEVE_DICTIONARY=IMAGE)
    expect("mecab over it", PRINTED, by_variable)
    check_system_settings(root)
    check_mecab_tools(root)


def check_system_settings(root: Root) -> None:
    """Checks that a program gets the image that /etc/mecabrc names, unless another is nearer."""
    settings = root.folder / "etc/mecabrc"
    before = settings.read_bytes()
    settings.write_text(f"dicdir = {IMAGE}\n")
    expect("mecab by /etc/mecabrc", PRINTED, root.run("mecab", text=LINE))
    settings.write_bytes(before)


def check_mecab_tools(root: Root) -> None:
    """Checks that MeCab's own library compiles MeCab's dictionaries, whichever is chosen.

    Debian's packages of dictionaries compile them when they are installed.
    """
    sources = root.folder / "sources"
    (sources / "dicrc").write_text("cost-factor = 800\nbos-feature = BOS/EOS\n")
    (sources / "left-id.def").write_text("0 BOS/EOS\n1 名詞\n")
    shutil.copy(sources / "left-id.def", sources / "right-id.def")
    root.run("mkdir", "-p", "/tmp/compiled")
    command = "/usr/lib/mecab/mecab-dict-index -d /sources -o /tmp/compiled -f UTF-8 -t UTF-8"
    root.run(*command.split())
    if not (root.folder / "tmp/compiled/sys.dic").exists():
        fail("mecab-dict-index over libmecab.so.2 as chosen: no sys.dic")


def check_switch(root: Root, libraries: Libraries) -> None:
    """Checks that the switch is rejected without an image, and needs no variable with one."""
    rejected = root.fails(SWITCH, "on")
    if rejected.returncode != 3 or f"kumquatsieve-import ipadic {CHOSEN}" not in rejected.stderr:
        status = f"status {rejected.returncode}, {rejected.stderr!r}"
        fail(f"{SWITCH} on without an image: {status}")
    for image in (CHOSEN, SHARED):
        root.run("mkdir", "-p", str(Path(image).parent))
        root.run("cp", IMAGE, image)
        root.run(SWITCH, "on")
        on = f"after `on` with {image}"
        expect(f"libmecab.so.2 {on}", libraries.ours, printed(root, SWITCH, "status"))
        expect(f"mecab {on}", PRINTED, root.run("mecab", text=LINE))
        root.run(SWITCH, "off")
        expect("libmecab.so.2 after `off`", libraries.theirs, printed(root, SWITCH, "status"))
        root.run("rm", image)
    root.run("rmdir", str(Path(SHARED).parent))


def check_readers(root: Root, libraries: Libraries) -> None:
    """Checks the two commands that switch a machine, under a umask that lets nobody else read.

    A program of another user has the dictionary then. The switch is rejected, with the command that
    helps, while there is a file that not every user can read.
    """
    (root.folder / "sources/dicrc").write_text("cost-factor = 800\n")
    (root.folder / "sources/pos-id.def").write_text("名詞 1\n")
    root.run("sh", "-c", f"umask 077 && kumquatsieve-import /sources {CHOSEN}")
    stem = CHOSEN.removesuffix(".img")
    for path, mode, letter in (
        (CHOSEN, 0o600, "r"),
        (f"{stem}.dicrc", 0o640, "r"),
        (f"{stem}.pos-id.def", 0o600, "r"),
        (IMAGES, 0o750, "x"),
    ):
        check_unreadable(root, libraries, path, mode, letter)
    root.run(SWITCH, "on")
    expect("libmecab.so.2 after `on`", libraries.ours, printed(root, SWITCH, "status"))
    other_user = "setpriv --reuid=65534 --regid=65534 --clear-groups mecab".split()
    expect("mecab of another user", PRINTED, root.run(*other_user, text=LINE))
    root.run(SWITCH, "off")
    suffixes = ("dicrc", "pos-id.def", "tested")
    root.run("rm", "-f", CHOSEN, *(f"{stem}.{suffix}" for suffix in suffixes))


def check_unreadable(root: Root, libraries: Libraries, path: str, mode: int, letter: str) -> None:
    """Checks the switch while a file or folder has a mode that lacks a right for all users."""
    file = root.folder / path[1:]
    before = file.stat().st_mode
    file.chmod(mode)
    rejected = root.fails(SWITCH, "on")
    message = f": chmod a+{letter} {path}\n"
    if rejected.returncode != 1 or not rejected.stderr.endswith(message):
        status = f"status {rejected.returncode}, {rejected.stderr!r}"
        fail(f"{SWITCH} on with {path} of mode {mode:o}: {status}")
    status = printed(root, SWITCH, "status")
    expect("libmecab.so.2 after a rejected `on`", libraries.theirs, status)
    file.chmod(before)
