"""Tests of whole images, and records of those that passed: what is printed and written."""
import hashlib
import os
import shutil
import subprocess
from pathlib import Path
from typing import Any, Callable, Iterator, List, NamedTuple, Optional, Sequence, Tuple

from cli.cases.images import LAYOUT_1, LAYOUT_2, LAYOUT_3, changed, with_digest

from .common import FILES, NAME, NOBODY, compiled, lay
from .system_errors import can_run
from .user_dictionaries import USAGE

USAGE_ERROR = f"--test requires images, and excludes all options except -v; {USAGE}"
OTHERS = "its group or all users can write"
# A jseg that changes an image after the tests.
LATE = """#!/bin/sh
"$JSEG" "$@"
status=$?
{change}
exit $status
"""
CHANGED = "changed or replaced during the tests"
LONG = "x" * 251 + ".img"
HOME = "home/kumquatsieve"


def in_space(script: str) -> Tuple[str, ...]:
    """Returns a command that runs a program in a name space of its own, after a script."""
    return ("unshare", "-m", "sh", "-c", f'{script} || exit 77\nexec "$@"', "sh")


# A file system with room for the image only, and a /proc without processes.
FULL = in_space("mount -t tmpfs -o size=12k,mode=755 tmpfs small && cp a.img small")
NO_PROC = in_space("mount -t tmpfs tmpfs /proc")


# Changes the directory of a run.
Change = Callable[[Path], None]


class Case(NamedTuple):
    """A run of `kumquatsieve-import --test` over images, or of `arguments`.

    `out` and `err` are what is printed, and `recorded` has the images with a record afterwards.
    `change` prepares the directory, `late` is run after the tests, and `before` is the command
    before the program.
    """

    name: str
    images: Tuple[str, ...] = ("a.img",)
    out: Tuple[str, ...] = ()
    err: Tuple[str, ...] = ()
    status: int = 0
    recorded: Tuple[str, ...] = ()
    change: Optional[Change] = None
    late: str = ""
    before: Tuple[str, ...] = ()
    arguments: Tuple[str, ...] = ()
    is_other: bool = False


def passed(name: str, *images: str, **others: Any) -> Case:
    return Case(name, images, tuple(f"tested: {one}" for one in images), recorded=images, **others)


def unrecorded(
    name: str, image: str, why: str, change: Optional[Change] = None, **others: Any
) -> Case:
    return Case(name, (image,), (f"tested, not recorded: {image}: {why}",), change=change, **others)


def failed(name: str, image: str, error: str, change: Optional[Change] = None) -> Case:
    return Case(name, (image,), err=(f"{image}: {error}",), status=1, change=change)


def imported(
    name: str,
    out: Tuple[str, ...],
    arguments: Tuple[str, ...] = ("dic", "new.img"),
    **others: Any,
) -> Case:
    """Returns an import, of which the lines about the tests are compared."""
    return Case(name, arguments=arguments, out=out, **others)


def moded(path: str, mode: int) -> Change:
    """Gives a file of the directory a mode, or the directory itself."""
    return lambda work: (work / path).chmod(mode)


def written(name: str, data: bytes) -> Change:
    def write(work: Path) -> None:
        (work / name).write_bytes(data)

    return write


def copied(name: str) -> Change:
    def copy(work: Path) -> None:
        (work / name).parent.mkdir(exist_ok=True)
        shutil.copy(work / "a.img", work / name)

    return copy


def dated(work: Path) -> None:
    """Sets the time of an image to 2096."""
    os.utime(work / "a.img", (4e9, 4e9))


def open_to_all(work: Path) -> None:
    (work / "dir").mkdir()
    (work / "dir").chmod(0o777)


def damaged(work: Path) -> None:
    """Writes an image of another feature with the same checksum, and an old record."""
    (work / "a.img").write_bytes(changed(LAYOUT_3, (len(LAYOUT_3) - 33, b"Y")))
    (work / "a.tested").write_text("old")


BY_ALL = f"{OTHERS} to it (chmod go-w)"
IN_FOLDER = f"{OTHERS} to its directory (chmod go-w)"
NO_FD = "/proc/self/fd: No such file or directory"
NONE = (
    "none: No such file or directory; searched HOME, PREFIX/var/lib/kumquatsieve, "
    "PREFIX/share/kumquatsieve; available images: mine"
)
BAD_ID = "L6 BadToken 0"
BAD_1, BAD_3 = changed(LAYOUT_1, (120, b"\2")), with_digest(changed(LAYOUT_2, (914, b"\2")))
OLD = written("new.tested", b"old")
OF_USER = ("--user", "a.img", "--out", "new.img", "dic/lexicon.csv")
CASES = [
    # what passes
    passed("a system image", "a.img"),
    passed("a user image", "user.img"),
    passed("an image without the ending", "plain"),
    passed("three", "a.img", "user.img", "plain"),
    passed("twice", "a.img", "a.img"),
    passed("an old record", "a.img", change=written("a.tested", b"old")),
    passed("a path", "dir/a.img", change=copied("dir/a.img")),
    Case("a bare name", ("mine",), ("tested: HOME/mine.img",), recorded=(f"{HOME}/mine.img",)),
    # what has no record
    unrecorded("a link", "link.img", "is a link to a.img"),
    unrecorded("all may write it", "a.img", BY_ALL, moded("a.img", 0o666)),
    unrecorded("its group may write it", "a.img", BY_ALL, moded("a.img", 0o664)),
    unrecorded("all may write its folder", "a.img", IN_FOLDER, moded(".", 0o777)),
    unrecorded("layout 1", "1.img", "its layout 1 has no checksum"),
    unrecorded("layout 2", "2.img", "its layout 2 has no checksum"),
    unrecorded("the future", "a.img", "its change time is in the future", dated),
    unrecorded("a long name", LONG, "File name too long", copied(LONG)),
    unrecorded("another user's", "a.img", "Permission denied", is_other=True),
    unrecorded("no room", "small/a.img", "No space left on device", status=3, before=FULL),
    unrecorded("written meanwhile", "a.img", CHANGED, late="touch a.img"),
    unrecorded("replaced meanwhile", "a.img", CHANGED, late="cp a.img b.img; mv b.img a.img"),
    # what fails a test
    failed("a changed byte", "a.img", "L8 Digest", damaged),
    failed("layout 1, an id", "1.img", BAD_ID, written("1.img", BAD_1)),
    failed("layout 3, an id", "user.img", BAD_ID, written("user.img", BAD_3)),
    failed("no image", "text", "L1 Truncated"),
    failed("a device", "/dev/null", "L1 Truncated"),
    Case(
        "two fail",
        ("text", "none", "a.img"),
        ("tested: a.img",),
        ("text: L1 Truncated", NONE),
        1,
        ("a.img",),
    ),
    Case("a folder", ("dic",), err=("dic: Is a directory",), status=3),
    Case("no /proc", err=(NO_FD,), status=3, before=NO_PROC),
    Case("no images", (), err=(USAGE_ERROR,), status=2),
    Case("another option", ("a.img", "--encoding", "utf-8"), err=(USAGE_ERROR,), status=2),
    # imports
    imported("an import", ("tested: new.img",), recorded=("new.img",)),
    imported("over an old record", ("tested: new.img",), recorded=("new.img",), change=OLD),
    imported("by a link", ("tested: link.img",), ("dic", "link.img"), recorded=("a.img",)),
    imported("a user's import", ("tested: new.img",), OF_USER, recorded=("new.img",)),
    imported("to a device", (), ("dic", "/dev/null")),
    imported(
        "to an open folder",
        (f"tested, not recorded: dir/new.img: {IN_FOLDER}",),
        ("dic", "dir/new.img"),
        change=open_to_all,
    ),
    imported("without /proc", (f"not tested: new.img: {NO_FD}",), before=NO_PROC),
]


def seconds(nanoseconds: int) -> str:
    return f"{nanoseconds // 10**9}.{nanoseconds % 10**9:09d}"


def text_of(path: Path) -> str:
    """Returns the record that an image should have, as the documents describe it."""
    status = os.stat(path)
    return "\n".join(
        [
            "kumquatsieve-tested 1",
            f"device {os.major(status.st_dev)}:{os.minor(status.st_dev)}",
            f"inode {status.st_ino}",
            f"size {status.st_size}",
            f"mtime {seconds(status.st_mtime_ns)}",
            f"ctime {seconds(status.st_ctime_ns)}",
            f"sha256 {hashlib.sha256(path.read_bytes()).hexdigest()}",
            "",
        ]
    )


def prepare(case: Case, programs: Path, work: Path) -> None:
    image = compiled(programs, work / "system", FILES, ["lexicon.csv"])
    shutil.rmtree(work / "system")
    lay(str(work / "dic"), FILES)
    files = {"a.img": image, "plain": image, "text": b"text"}
    files.update({"1.img": LAYOUT_1, "2.img": LAYOUT_2, "user.img": LAYOUT_3})
    for name, data in files.items():
        (work / name).write_bytes(data)
    (work / "link.img").symlink_to("a.img")
    (work / "small").mkdir()
    (work / HOME).mkdir(parents=True)
    shutil.copy(work / "a.img", work / HOME / "mine.img")
    if case.change:
        case.change(work)
    work.parent.chmod(0o755)


def importer(case: Case, programs: Path, work: Path) -> Path:
    """Returns the program. If there is `late`, its jseg changes the image after the tests."""
    if not case.late:
        return programs / NAME
    for name in ("bin", "lib"):
        shutil.copytree(programs.parent / name, work.parent / "late" / name, dirs_exist_ok=True)
    jseg = work.parent / "late" / "bin" / "jseg"
    jseg.write_text(LATE.replace("{change}", f"cd {work}; {case.late}"))
    return jseg.parent / NAME


def record_path(image: Path) -> Path:
    return image.with_name(image.name.removesuffix(".img") + ".tested")


def failures(case: Case, programs: Path, work: Path) -> Iterator[str]:
    """Runs a case in the directory `work`, and yields what differs from it."""
    prepare(case, programs, work)
    if not can_run(case.is_other, case.before):
        return
    environment = {
        **os.environ,
        "XDG_DATA_HOME": str(work / "home"),
        "JSEG": str(programs / "jseg"),
    }
    arguments = case.arguments or ("--test", *case.images)
    command = [*case.before, str(importer(case, programs, work)), *arguments]
    user = NOBODY if case.is_other else None
    groups: Optional[List[int]] = [] if case.is_other else None
    done = subprocess.run(
        command,
        cwd=work,
        env=environment,
        capture_output=True,
        text=True,
        user=user,
        group=user,
        extra_groups=groups,
    )
    yield from printed_failures(case, done, programs, work)
    records = {path: path.read_text() for path in work.rglob("*.tested")}
    expected = {record_path(work / image): text_of(work / image) for image in case.recorded}
    if records != expected:
        yield f"records {records}, expected {expected}"
    if {path.stat().st_mode & 0o7777 for path in records} - {0o644}:
        yield "makes records of other modes"
    left = [path.name for path in work.rglob(".*")]
    if left:
        yield f"leaves {left}"
    shutil.rmtree(work.parent / "late", ignore_errors=True)


def located(lines: Sequence[str], programs: Path, work: Path) -> Tuple[str, ...]:
    """Returns expected lines with the directories of this run."""
    named = (line.replace("HOME", str(work / HOME)) for line in lines)
    return tuple(line.replace("PREFIX", str(programs.parent)) for line in named)


def printed_failures(
    case: Case, done: "subprocess.CompletedProcess[str]", programs: Path, work: Path
) -> Iterator[str]:
    """Yields what is wrong with the lines about tests, with the errors, and with the status."""
    out = tuple(line for line in done.stdout.splitlines() if "tested" in line.split(":")[0])
    err = tuple(line.removeprefix(f"{NAME}: ") for line in done.stderr.splitlines())
    expected = located(case.out, programs, work), located(case.err, programs, work), case.status
    if (out, err, done.returncode) != expected:
        yield f"prints {out}, {err}, status {done.returncode}, expected {expected}"
