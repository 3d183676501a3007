"""Images by path, by name, in memory, and without an argument."""
import array
import mmap
import os
import pickle
import shutil
import signal
import sys
from pathlib import Path

import pytest

import kumquatsieve
from kumquatsieve import Dictionary, KumquatsieveError, Segmenter, _core

LINE = "すもももも"
WORDS = ["すもも", "もも"]
HINT = "compile an image with kumquatsieve-import"
WAIT = 60


def mapped(path, access):
    with open(path, "rb") as file:
        return mmap.mmap(file.fileno(), 0, access=access)


def read(path):
    return Path(path).read_bytes()


class LongBytes(bytes):
    """Bytes whose methods lie."""

    def __len__(self):
        return 1 << 40

    def __bytes__(self):
        return self

    def __getitem__(self, _):
        return self


class LongArray(bytearray):
    """A bytearray whose methods lie."""

    __len__, __getitem__ = LongBytes.__len__, LongBytes.__getitem__


class LongNumbers(array.array):
    """Numbers whose methods lie."""

    __len__, __getitem__ = LongBytes.__len__, LongBytes.__getitem__


# Arguments of Segmenter, made from the path of an image.
FORMS = {
    "str": str,
    "Path": Path,
    "bytes": read,
    "bytearray": lambda path: bytearray(read(path)),
    "memoryview": lambda path: memoryview(read(path)),
    "memoryview of a bytearray": lambda path: memoryview(bytearray(read(path))),
    "every second byte": lambda path: memoryview(
        bytes(twice for byte in read(path) for twice in (byte, 0))
    )[::2],
    "array": lambda path: array.array("B", read(path)),
    "bytes with another length": lambda path: LongBytes(read(path)),
    "bytearray with another length": lambda path: LongArray(read(path)),
    "array with another length": lambda path: LongNumbers("B", read(path)),
    "rows of one byte": lambda path: memoryview(read(path)).cast("B", [len(read(path)), 1]),
    "mmap to read": lambda path: mapped(path, mmap.ACCESS_READ),
    "mmap to copy": lambda path: mapped(path, mmap.ACCESS_COPY),
}


@pytest.fixture
def installed(tmp_path, monkeypatch):
    """Returns the user's image directory, which is empty. No other directory has images. The
    current folder is another one."""
    own, here = tmp_path / "data" / "kumquatsieve", tmp_path / "here"
    for folder in (own, here):
        folder.mkdir(parents=True)
    monkeypatch.delenv("KUMQUATSIEVE_DICTIONARY", raising=False)
    monkeypatch.setenv("XDG_DATA_HOME", str(tmp_path / "data"))
    monkeypatch.chdir(here)
    if any([*Path(folder).glob("*.img")] for folder in _core.directories() if Path(folder) != own):
        pytest.skip("images are installed for the prefix of this module")
    return own


@pytest.mark.parametrize("form", FORMS)
def test_an_image_has_many_forms(system, user, form):
    assert Segmenter(FORMS[form](system)).wakati(LINE) == WORDS
    assert Segmenter(FORMS[form](system), [FORMS[form](user)]).wakati(LINE) == [LINE]


def test_a_mapping_may_be_closed_after_the_load(system):
    image = mapped(system, mmap.ACCESS_COPY)
    segmenter = Segmenter(image)
    image.close()
    assert segmenter.wakati(LINE) == WORDS


def test_an_image_in_memory_is_copied(system):
    image = bytearray(read(system))
    segmenter = Segmenter(image)
    image[:] = bytes(len(image))
    image.clear()
    assert segmenter.wakati(LINE) == WORDS


def test_images_in_memory_and_in_files(system, user):
    assert Segmenter(read(system), [user]).wakati(LINE) == [LINE]
    assert Segmenter(system, [read(user)]).wakati(LINE) == [LINE]


@pytest.mark.parametrize("cut_off", [1, -1])
def test_a_buffer_may_have_another_size_each_time(system, cut_off):
    if sys.version_info < (3, 12):
        pytest.skip("no class has a buffer of its own before Python 3.12")

    class Buffer:
        given = 0

        def __buffer__(self, _):
            self.given += 1
            return memoryview(bytearray(read(system) + bytes(9 + cut_off * self.given)))

    with pytest.raises(KumquatsieveError, match="L"):
        Segmenter(Buffer())


@pytest.mark.parametrize("image", [1.5, 7, ["a"], object()])
def test_what_is_no_image_is_named(image):
    with pytest.raises(TypeError, match=f"not {type(image).__name__}"):
        Segmenter(image)


@pytest.mark.parametrize(
    "form", [str, Path, read, FORMS["bytearray"], FORMS["memoryview"], FORMS["mmap to read"]]
)
def test_users_are_a_list(system, user, form):
    with pytest.raises(TypeError, match="users must be a list of images"):
        Segmenter(system, form(user))


@pytest.mark.parametrize("image", [b"", bytearray(), memoryview(b"")])
def test_an_empty_image_is_rejected(image):
    with pytest.raises(KumquatsieveError, match="L1"):
        Segmenter(image)


def test_an_empty_file_is_rejected(tmp_path):
    (tmp_path / "empty.img").touch()
    with pytest.raises(KumquatsieveError, match="L1"):
        Segmenter(tmp_path / "empty.img")


@pytest.mark.parametrize("form", [str, read])
@pytest.mark.parametrize("names", [("damaged", "user"), ("system", "damaged_user")])
def test_another_digest_is_rejected_where_it_is_tested(request, names, form):
    image, user = (form(request.getfixturevalue(name)) for name in names)
    with pytest.raises(KumquatsieveError, match="L8"):
        Segmenter(image, [user], test_digest=True)
    assert Segmenter(image, [user]).wakati(LINE) == [LINE]


@pytest.mark.parametrize("test_digest", [False, True])
def test_all_else_is_tested_in_each_case(system, user, tmp_path, test_digest):
    path = tmp_path / "image.img"
    whole = read(system)
    for image, fault in ((whole[:-1], "L1"), (b"x" + whole[1:], "L2"), (read(user), "O1")):
        path.write_bytes(image)
        for form in (image, path):
            with pytest.raises(KumquatsieveError, match=fault):
                Segmenter(form, test_digest=test_digest)


def test_a_pipe_is_read(system):
    """A pipe can't be mapped, such as `<(zstd -dc image.zst)` of a shell."""
    out, into = os.pipe()
    if os.fork() == 0:
        with open(into, "wb") as file:
            file.write(read(system))
        os._exit(0)
    os.close(into)
    assert Segmenter(f"/dev/fd/{out}").wakati(LINE) == WORDS
    os.close(out)
    os.wait()


def test_a_bare_name_is_that_of_an_installed_image(system, user, installed):
    shutil.copy(system, installed / "sample.img")
    shutil.copy(user, installed / "words.img")
    assert Segmenter("sample").wakati(LINE) == WORDS
    assert Segmenter("sample", ["words"]).wakati(LINE) == [LINE]
    again = pickle.dumps(Segmenter("sample", ["words"]))
    assert str(installed).encode() not in again
    assert pickle.loads(again).wakati(LINE) == [LINE]


def test_a_file_of_a_bare_name_comes_first_and_a_folder_does_not(system, user, installed):
    shutil.copy(system, installed / "sample.img")
    Path("sample").mkdir()
    assert Segmenter("sample").wakati(LINE) == WORDS
    Path("sample").rmdir()
    shutil.copy(user, "sample")
    with pytest.raises(KumquatsieveError, match="O1"):
        Segmenter("sample")


@pytest.mark.parametrize("name", ["./sample", "sample.img", ""])
def test_no_other_name_is_looked_up(system, installed, name):
    shutil.copy(system, installed / "sample.img")
    with pytest.raises(FileNotFoundError) as error:
        Segmenter(name)
    assert ("searched" in str(error.value)) == (name == "sample.img")


def searched(names):
    """Returns what an error lists: the directories, and the names of all images there."""
    return f"searched {', '.join(_core.directories())}; available images: {names}"


def unknown(names):
    """Returns the error of the name `ipadic`."""
    return f"ipadic: no such image (F1 File); {searched(names)}; {HINT}"


def test_a_name_that_is_not_installed_lists_those_that_are(system, user, installed):
    with pytest.raises(FileNotFoundError) as error:
        Segmenter("ipadic")
    assert str(error.value) == unknown("none")
    for name in ("unidic", "sample"):
        shutil.copy(system, installed / f"{name}.img")
    shutil.copy(user, installed / "words.img")
    (installed / "broken.img").write_bytes(b"MJDICT")
    (installed / "folder.img").mkdir()
    for images in (["ipadic"], ["sample", ["ipadic"]]):
        with pytest.raises(FileNotFoundError) as error:
            Segmenter(*images)
        assert str(error.value) == unknown("broken, sample, unidic, words")
    assert kumquatsieve.dictionaries() == {
        name: str(installed / f"{name}.img") for name in ("sample", "unidic")
    }


def test_names_may_have_any_bytes(installed):
    (installed / "\udcff.img").touch()
    for name in ("ipadic", "\udcfe", "./\udcfe"):
        with pytest.raises(FileNotFoundError, match="F1 File"):
            Segmenter(name)


class TooLong(BaseException):
    """Raised if a call waits forever."""


@pytest.fixture
def not_for_ever():
    """Ends a test that waits forever."""

    def stop(*_):
        raise TooLong

    before = signal.signal(signal.SIGALRM, stop)
    signal.alarm(WAIT)
    yield
    signal.alarm(0)
    signal.signal(signal.SIGALRM, before)


def test_only_regular_files_are_images_that_are_installed(system, installed, not_for_ever):
    """Links to regular files are too. Opening does not wait for a pipe without a writer."""
    shutil.copy(system, installed / "kept")
    (installed / "sample.img").symlink_to("kept")
    os.mkfifo(installed / "pipe.img")
    (installed / "zero.img").symlink_to("/dev/zero")
    assert kumquatsieve.dictionaries() == {"sample": str(installed / "sample.img")}
    assert Segmenter().wakati(LINE) == WORDS
    for name in ("pipe", "zero"):
        with pytest.raises(FileNotFoundError, match=f"{name}: .*available images: sample;"):
            Segmenter(name)


def test_without_a_name_the_only_one_is_taken(system, user, installed):
    with pytest.raises(FileNotFoundError, match=f"no dictionary is installed; {HINT}"):
        Segmenter()
    shutil.copy(system, installed / "sample.img")
    shutil.copy(user, installed / "words.img")
    assert Segmenter(users=["words"]).wakati(LINE) == [LINE]
    shutil.copy(system, installed / "unidic.img")
    with pytest.raises(
        FileNotFoundError, match="several .*available images: sample, unidic, words$"
    ):
        Segmenter()


@pytest.mark.parametrize("form", ["name", "path", "folder"])
def test_without_a_name_the_variable_is_obeyed(system, installed, monkeypatch, form):
    for name in ("sample", "kumquatsieve"):
        shutil.copy(system, installed / f"{name}.img")
    named = {"name": "sample", "path": str(installed / "sample.img"), "folder": str(installed)}
    monkeypatch.setenv("KUMQUATSIEVE_DICTIONARY", named[form])
    assert Segmenter().wakati(LINE) == WORDS


# XDG_DATA_HOME, HOME, and the user's image directory.
OWN = [
    ("/d", "/home/a", "/d/kumquatsieve"),
    ("/d", None, "/d/kumquatsieve"),
    ("d", "/home/a", "/home/a/.local/share/kumquatsieve"),
    ("", "/home/a", "/home/a/.local/share/kumquatsieve"),
    (None, "/home/a", "/home/a/.local/share/kumquatsieve"),
    (None, "a", None),
    (None, None, None),
]


@pytest.mark.parametrize("data, home, own", OWN)
def test_the_users_image_directory_comes_first(monkeypatch, data, home, own):
    for name, value in (("XDG_DATA_HOME", data), ("HOME", home)):
        if value is None:
            monkeypatch.delenv(name, raising=False)
        else:
            monkeypatch.setenv(name, value)
    folders = _core.directories()
    assert folders[: len(folders) - 2] == ([own] if own else [])
    assert [folder.endswith("/kumquatsieve") for folder in folders[-2:]] == [True, True]


def test_a_name_is_that_of_the_first_directory(system, user, installed):
    """An image that is broken there hides another one of its name."""
    own = installed / "sample.img"
    shutil.copy(system, own)
    assert kumquatsieve.dictionaries() == {"sample": str(own)}
    own.write_bytes(b"x")
    assert kumquatsieve.dictionaries() == {}
    with pytest.raises(KumquatsieveError, match="L1"):
        Segmenter("sample")


@pytest.fixture
def directories(installed):
    """Returns the image directories in their order: the user's, that of images made at run time,
    and that of packages. All are empty."""
    own, *others = map(Path, _core.directories())
    made = [one for folder in others for one in [folder, *folder.parents] if not one.exists()]
    try:
        for folder in others:
            folder.mkdir(parents=True, exist_ok=True)
    except OSError:
        pytest.skip(f"the image directories can't be made: {others}")
    if any(any(folder.iterdir()) for folder in others):
        pytest.skip(f"an image directory is not empty: {others}")
    assert own == installed and len(others) == 2
    yield [own, *others]
    for folder in others:
        for image in folder.iterdir():
            image.unlink()
    for folder in sorted(set(made), reverse=True):
        folder.rmdir()


def test_the_first_directory_that_has_a_name_wins(system, user, directories):
    own, written, shared = directories
    shutil.copy(system, shared / "sample.img")
    assert kumquatsieve.dictionaries() == {"sample": str(shared / "sample.img")}
    shutil.copy(system, written / "sample.img")
    assert kumquatsieve.dictionaries() == {"sample": str(written / "sample.img")}
    shutil.copy(system, own / "sample.img")
    shutil.copy(user, shared / "words.img")
    assert kumquatsieve.dictionaries() == {"sample": str(own / "sample.img")}
    for users in (["words"], [read(user)], ["words", read(user)]):
        assert Segmenter("sample", users).wakati(LINE) == [LINE]
    (own / "sample.img").write_bytes(b"x")
    assert kumquatsieve.dictionaries() == {}
    for users in ([], [read(user)]):
        with pytest.raises(KumquatsieveError, match="L1"):
            Segmenter("sample", users)
    (own / "sample.img").unlink()
    for path in (written / "sample.img", shared / "sample.img"):
        assert Dictionary("sample").images[0].path == str(path)
        assert Dictionary().images[0].path == str(path)
        path.unlink()
    with pytest.raises(FileNotFoundError):
        Segmenter("sample")


def test_a_bare_name_beside_bytes_is_that_of_an_installed_image(system, user, installed):
    """A file of the name in the current folder precedes it, and no name is the only image."""
    shutil.copy(system, installed / "sample.img")
    assert Segmenter("sample", [read(user)]).wakati(LINE) == [LINE]
    assert Segmenter(users=[read(user)]).wakati(LINE) == [LINE]
    shutil.copy(user, installed / "words.img")
    assert Segmenter(read(system), ["words"]).wakati(LINE) == [LINE]
    shutil.copy(user, "sample")
    with pytest.raises(KumquatsieveError, match="O1"):
        Segmenter("sample", [read(user)])
    with pytest.raises(FileNotFoundError):
        Segmenter("./none", [read(user)])


def test_what_is_known_of_images(system, user):
    dictionary = Dictionary(system, [user])
    first, second = dictionary.images
    assert (first.path, first.entries, first.surfaces) == (system, 3, 3)
    assert (second.path, second.entries) == (user, 1)
    assert first.is_user is False and second.is_user is True
    assert (first.size, first.sha256) == (os.path.getsize(system), read(system)[-32:])
    assert (first.left_ids, first.right_ids, first.layout) == (2, 2, 3)
    assert "DEFAULT" in first.categories and second.categories == ()
    assert repr(dictionary) == f"<Dictionary {system} and 1 users', 3 entries>"
    assert repr(Segmenter(dictionary)) == f"<Segmenter over {dictionary!r}>"
    assert Dictionary(read(system)).images[0].path is None
