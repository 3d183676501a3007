"""Image files, which the library maps: what processes share, what stays mapped, and files that
can't be opened."""
import errno
import os
import shutil
import signal
import subprocess
import sys
import threading
from pathlib import Path

import pytest
from conftest import with_feature

from kumquatsieve import KumquatsieveError, Segmenter

LINE = "すもももも"
WORDS = ["すもも", "もも"]
FEATURE = "名詞,もも"
OTHER = "動詞,もも"
PROCESSES = 4
# A process that opens an image, reports that, and then reports by how much its private memory has
# grown.
OPENS = """
import sys
from kumquatsieve import Segmenter

def private():
    with open("/proc/self/smaps_rollup") as rollup:
        return sum(1024 * int(line.split()[1]) for line in rollup if line.startswith("Private_"))

first, image = sys.argv[1:]
assert Segmenter(first).wakati("すもももも") == ["すもも", "もも"]
before = private()
segmenter = Segmenter(image)
assert segmenter.wakati("w4999w1") == ["w4999", "w1"]
print("open", flush=True)
sys.stdin.readline()
print(private() - before, flush=True)
sys.stdin.readline()
"""


@pytest.fixture
def image(system, tmp_path):
    """Returns a copy of the sample's image that no other test uses."""
    return shutil.copy(system, tmp_path / "image.img")


@pytest.fixture(scope="session")
def large(images):
    """Returns an image of 5,000 entries, w0 to w4999, with features of 1,000 bytes."""
    return str(images / "large.img")


def mappings(path):
    """Returns how often this process has mapped a file."""
    with open("/proc/self/maps", encoding="utf-8", errors="surrogateescape") as maps:
        return sum(line.rstrip("\n").endswith(str(path)) for line in maps)


def feature_of(segmenter):
    return segmenter.words("もも")[0].feature


def test_processes_share_the_memory_of_an_image(system, large):
    if not os.path.exists("/proc/self/smaps_rollup"):
        pytest.skip("this kernel has no smaps_rollup")
    words = [sys.executable, "-c", OPENS, system, large]
    pipes = {"stdin": subprocess.PIPE, "stdout": subprocess.PIPE, "text": True}
    processes = [subprocess.Popen(words, **pipes) for _ in range(PROCESSES)]
    try:
        assert [process.stdout.readline() for process in processes] == ["open\n"] * PROCESSES
        for process in processes:
            process.stdin.write("\n")
            process.stdin.flush()
        grown = [int(process.stdout.readline()) for process in processes]
    finally:
        for process in processes:
            process.communicate("\n")
    assert os.path.getsize(large) > 5_000_000 and max(grown) < os.path.getsize(large) // 2


# A process that opens an image with different user images, and reports by how much its private
# memory has grown.
OPENS_MANY = (
    OPENS[: OPENS.index("first, image")]
    + """
image, *users = sys.argv[1:]
kept = [Segmenter(image)]
assert kept[0].wakati("w4999w1") == ["w4999", "w1"]
before = private()
kept += [Segmenter(image, users[:count]) for count in range(1, len(users) + 1)]
assert [one.wakati("w4999w1") for one in kept] == [["w4999", "w1"]] * len(kept)
print(private() - before)
"""
)


def test_different_users_share_the_memory_of_an_image(large, user):
    """The image has more than 5 MB. Eight more dictionaries with it take less than half of that."""
    if not os.path.exists("/proc/self/smaps_rollup"):
        pytest.skip("this kernel has no smaps_rollup")
    words = [sys.executable, "-c", OPENS_MANY, large, *([user] * 8)]
    done = subprocess.run(words, stdout=subprocess.PIPE, check=True)
    assert os.path.getsize(large) > 5_000_000 and int(done.stdout) < os.path.getsize(large) // 2


def test_a_thousand_opens_and_closes_leave_no_mapping(image):
    for _ in range(1000):
        with Segmenter(image) as segmenter:
            assert segmenter.wakati(LINE) == WORDS
    assert mappings(image) == 0


def test_a_process_maps_a_file_once_until_its_last_segmenter_ends(image, user):
    """It is mapped once for the same images, whatever names they are opened by."""
    first, second = Segmenter(image), Segmenter(os.path.relpath(image))
    assert mappings(image) == 1
    first.close()
    second.close()
    assert mappings(image) == 0
    first, second = Segmenter(image, [user]), Segmenter(image, [Path(user)], grouping=3)
    third = second.share()
    assert mappings(image) == mappings(user) == 1
    first.close()
    second.close()
    assert mappings(image) == 1 and third.wakati(LINE) == [LINE]
    del third
    assert mappings(image) == mappings(user) == 0


def test_dictionaries_with_different_users_map_the_system_image_once(image, user, tmp_path):
    other = shutil.copy(user, tmp_path / "other.img")
    plain, first, second = (Segmenter(image, users) for users in ([], [user], [user, other]))
    assert mappings(image) == mappings(user) == mappings(other) == 1
    plain.close()
    first.close()
    assert mappings(image) == mappings(user) == 1 and second.wakati(LINE) == [LINE]
    second.close()
    assert mappings(image) == mappings(user) == mappings(other) == 0


def test_what_is_rejected_is_not_mapped(image, user, damaged):
    for rejected, how in ((user, {}), (damaged, {"test_digest": True})):
        with pytest.raises(KumquatsieveError):
            Segmenter(rejected, **how)
        assert mappings(rejected) == 0
    with pytest.raises(KumquatsieveError):
        Segmenter(image, [image])
    assert mappings(image) == 0


def test_threads_open_and_close_at_once(image, user):
    done = []

    def work():
        for _ in range(100):
            with Segmenter(image, [user]) as segmenter:
                done.append(segmenter.wakati(LINE))

    threads = [threading.Thread(target=work) for _ in range(PROCESSES)]
    for thread in threads:
        thread.start()
    for thread in threads:
        thread.join()
    assert done == [[LINE]] * 100 * PROCESSES
    assert mappings(image) == mappings(user) == 0


def test_a_file_that_is_replaced_stays_as_it_was_for_those_that_have_it(image, tmp_path):
    first = Segmenter(image)
    os.replace(with_feature(image, OTHER, tmp_path / "new.img"), image)
    second = Segmenter(image)
    assert [feature_of(one) for one in (first, first.share(), second)] == [FEATURE, FEATURE, OTHER]
    os.unlink(image)
    assert feature_of(second) == OTHER


# A path under a folder, and the error of opening it.
PATHS = [
    ("there.img", FileNotFoundError, errno.ENOENT),
    ("folder", IsADirectoryError, errno.EISDIR),
    ("image.img/x", NotADirectoryError, errno.ENOTDIR),
    ("loop", OSError, errno.ELOOP),
    ("n" * 300, OSError, errno.ENAMETOOLONG),
    ("unreadable.img", PermissionError, errno.EACCES),
]


@pytest.mark.parametrize("name, kind, number", PATHS)
def test_a_file_that_cannot_be_opened(image, tmp_path, name, kind, number):
    if kind is PermissionError and os.geteuid() == 0:
        pytest.skip("root may read each file")
    (tmp_path / "folder").mkdir()
    (tmp_path / "loop").symlink_to("loop")
    Path(shutil.copy(image, tmp_path / "unreadable.img")).chmod(0)
    path = os.path.join(tmp_path, name)
    in_memory = Path(image).read_bytes()
    for images in ((path, []), (Path(path), []), (image, [path]), (in_memory, [path])):
        with pytest.raises(OSError) as error:
            Segmenter(*images)
        assert isinstance(error.value, kind) and error.value.errno == number
        assert str(error.value.filename) == path and error.value.strerror == os.strerror(number)
    assert mappings(image) == 0


def test_a_path_with_a_null_character(image):
    for images in ((f"{image}\0", []), (Path(image).read_bytes(), [f"{image}\0"])):
        with pytest.raises(ValueError, match="null"):
            Segmenter(*images)


class Interrupt(BaseException):
    """Raised by a signal handler."""


@pytest.fixture
def handled():
    """Sets a handler for an alarm that comes soon."""
    before = signal.getsignal(signal.SIGALRM)

    def handle(handler):
        signal.signal(signal.SIGALRM, handler)
        signal.setitimer(signal.ITIMER_REAL, 0.1, 0.1)

    yield handle
    signal.setitimer(signal.ITIMER_REAL, 0)
    signal.signal(signal.SIGALRM, before)


@pytest.mark.parametrize("as_user", [False, True])
def test_what_a_handler_raises_ends_an_open_that_waits(system, tmp_path, handled, as_user):
    """Opening waits for a pipe without a writer until the handler raises, as Ctrl-C does."""
    os.mkfifo(tmp_path / "pipe.img")

    def stop(*_):
        raise Interrupt

    handled(stop)
    with pytest.raises(Interrupt):
        Segmenter(*((system, [tmp_path / "pipe.img"]) if as_user else (tmp_path / "pipe.img",)))


def test_an_open_that_waits_goes_on_after_a_handler(system, tmp_path, handled):
    os.mkfifo(tmp_path / "pipe.img")
    writers = []

    def write(*_):
        signal.setitimer(signal.ITIMER_REAL, 0)
        writers.append(subprocess.Popen(["cp", system, tmp_path / "pipe.img"]))

    handled(write)
    assert Segmenter(tmp_path / "pipe.img").wakati(LINE) == WORDS
    assert [writer.wait() for writer in writers] == [0]
