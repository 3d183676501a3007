"""Checks the calls that find installed images."""
import os
import shutil
import subprocess
import sys
from pathlib import Path

from capi.cases.library import VALGRIND, Library, report, show
from support.heap import Heap
from support.running import LEFT_OUT, TOP, run

OWN, MADE = "data/kumquatsieve", "prefix/var/lib/kumquatsieve"
SHARED = "prefix/share/kumquatsieve"
# The images of each directory, and other files: more images than a list of names has room for at
# first.
IMAGES: dict[str, list[str]] = {
    OWN: ["own", "all", "a b.c"],
    MADE: ["made", "all", "both", "here", "fifo", "folder", "broken", *"0123456789"],
    SHARED: ["shared", "all", "both", "own", "made", "あ"],
}
FILES = ["here", "text", f"{OWN}/.img", f"{OWN}/other.txt"]
FOLDERS = ["folder", f"{OWN}/directory.img"]
PIPES = ["fifo", f"{MADE}/pipe.img"]
LINKS = {f"{OWN}/link.img": "own.img", f"{SHARED}/lost.img": "nowhere", "broken": "nowhere"}
OWN_NAMES = ["a b.c", "all", "link", "own"]
# The image directories below the prefix for which the library was built.
INSTALLED = ("var/lib/kumquatsieve", "share/kumquatsieve")
# The sources of the calls that find images.
FILES_OF_CALLS = "image_dirs installed errors files reading mapping".split()
SOURCES = [TOP / "capi" / "src" / f"{name}.c" for name in FILES_OF_CALLS]
# The status of image_memory if a call was out of memory.
OUT_OF_MEMORY = 3
NOBODY = 65534


def make_files(folder: Path) -> None:
    """Creates the files among which names are searched."""
    for path in (*IMAGES, *FOLDERS):
        (folder / path).mkdir(parents=True, exist_ok=True)
    images = [f"{path}/{name}.img" for path, names in IMAGES.items() for name in names]
    for path in (*images, *FILES):
        (folder / path).touch()
    for path in PIPES:
        os.mkfifo(folder / path)
    for path, target in LINKS.items():
        (folder / path).symlink_to(target)


def marked(*texts: object) -> str:
    """Returns what a call writes, with a mark in place of each zero byte."""
    return "".join(f"{text}|" for text in texts)


def check_memory(library: Library, folder: Path) -> None:
    """Makes each allocation fail in turn. The call that asked for it is out of memory.

    No block is left that a run with ample memory frees.
    """
    directories = [folder / "data" / "kumquatsieve", *map(library.prefix.joinpath, INSTALLED)]
    images = [folder / "data" / "kumquatsieve" / f"{name}.img" for name in OWN_NAMES]
    found = [marked(images[0]), marked(*directories), marked(*images)]
    program = library.test("image_memory")
    command = [str(program), OWN_NAMES[0], *found]
    heap = Heap(library.folder)
    variables = {**os.environ, "XDG_DATA_HOME": str(folder / "data")}
    run(command, env=heap.environment(None, variables), cwd=folder)
    ample = heap.counts()
    for number in range(1, ample.allocations + 1):
        environment = heap.environment(number, variables)
        status = subprocess.run(command, env=environment, cwd=folder).returncode
        if (status, heap.counts().unfreed) != (OUT_OF_MEMORY, ample.unfreed):
            sys.exit(f"library: image_memory, allocation {number} fails: {status}, {heap.counts()}")
    report(f"images are found: {ample.allocations} allocations failed in turn")


def check_prefix(library: Library) -> None:
    """An installation that was moved, with its jseg, finds its own images."""
    moved = library.folder / "moved"
    (moved / "lib" / "deep").mkdir(parents=True)
    (moved / "bin").mkdir()
    shared = shutil.copy(library.shared, moved / "lib" / "deep")
    code = (
        "import ctypes, sys; out = ctypes.create_string_buffer(4096); size = ctypes.c_size_t(); "
        "ctypes.CDLL(sys.argv[1]).kumquatsieve_list_directories(out, 4096, ctypes.byref(size), 0); "
        "print(out.raw[:size.value].decode().split(chr(0))[-3])"
    )
    environment = {"PATH": os.environ["PATH"]}
    for prefix in (library.prefix, moved):
        if prefix == moved:
            (moved / "bin" / "jseg").touch(mode=0o755)
        found = run([sys.executable, "-c", code, shared], env=environment).decode().strip()
        if found != str(prefix / INSTALLED[0]):
            sys.exit(f"library: images are looked for in {found}, not below {prefix}")
    report("a library that was moved finds the images beside its jseg")


def check_rights(library: Library) -> list[str]:
    """Runs a program as another user by its file's mode. Returns what could not be tested here."""
    missing = ["the environment of a setuid program, which needs root and a file system for it"]
    program = library.test("image_rights")
    if os.geteuid() != 0:
        return missing
    raised = shutil.copy(program, library.folder / "raised")
    os.chown(raised, NOBODY, NOBODY)
    raised.chmod(0o4755)
    variables = {"XDG_DATA_HOME": "/d", "HOME": "/h", "KUMQUATSIEVE_DICTIONARY": "/d/x.img"}
    status = subprocess.run([raised], env=variables).returncode
    if status == LEFT_OUT:
        return missing
    if status != 0:
        sys.exit(f"library: image_rights: status {status}")
    report("a setuid program ignores the variables of image directories")
    return []


def check_image_dirs(library: Library) -> list[str]:
    """Makes all of these checks. Returns what could not be tested here."""
    folder = library.folder / "installed"
    make_files(folder)
    program = library.folder / "image_dirs"
    sources = [TOP / "tests" / "capi" / "c" / "image_dirs.c", *SOURCES]
    include = f"-I{TOP / 'capi' / 'include'}"
    run(["gcc", "-std=gnu11", "-g", include, "-I", TOP / "capi/src", *sources, "-o", program])
    show([*VALGRIND, program, folder], cwd=folder)
    check_prefix(library)
    check_memory(library, folder)
    return check_rights(library)
