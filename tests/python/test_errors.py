"""A KumquatsieveError is an exception that names what to do, and can be pickled."""
import copy
import multiprocessing
import os
import pickle
import subprocess
import sys

import pytest

from kumquatsieve import Format, KumquatsieveError, Segmenter
from kumquatsieve._errors import error_of

MEMORY, FILE = 1, 0x4601
# What the library reports, the class of Python's, the attributes of the error, and its text.
ERRORS = [
    ((0x4C01, 0, -1, 0, "x (L1)"), ValueError, ("L1", None, 0, 0, None), "x (L1)"),
    ((0x4C04, 5, -1, 2, "x (L4)"), ValueError, ("L4", None, 5, 2, None), "x (L4)"),
    ((0x5002, 0, 1, 0, "x (P2)"), ValueError, ("P2", 1, 0, 0, None), "x (P2) at character 1"),
    ((0x4B0A, 0, -1, 0, "x (K10)"), ValueError, ("K10", None, 0, 0, None), "x (K10)"),
    ((MEMORY, 0, -1, 0, "out of memory"), MemoryError, ("M1", None, 0, 0, None), "out of memory"),
    ((FILE, 2, -1, 1, "x"), FileNotFoundError, ("F1", None, 2, 1, None), "x"),
    ((FILE, 13, -1, 0, "x"), PermissionError, ("F1", None, 13, 0, None), "x"),
    ((FILE, 21, -1, 0, "x"), IsADirectoryError, ("F1", None, 21, 0, None), "x"),
    ((FILE, 20, -1, 0, "x"), NotADirectoryError, ("F1", None, 20, 0, None), "x"),
    ((FILE, 40, -1, 0, "x"), OSError, ("F1", None, 40, 0, None), "x"),
]
# What to do, as the library's explanation of the code says (capi/src/explanations.c).
CURES = {
    "L1": "Copy the image again, or compile it again with dictc or kumquatsieve-import.",
    "L4": "Copy the image again, or compile it again with dictc or kumquatsieve-import.",
    "P2": "Write %% for a percent sign. jseg(1) lists the items.",
    "K10": "kumquatsieve_dictionary_info has the names. kumquatsieve_field takes a number.",
    "M1": "Raise the limit (ulimit -v), or use a machine with more memory.",
    "F1": "Install the image with kumquatsieve-import, or correct the path.",
}
WAIT = 60


def parts_of(error):
    return error.code, error.position, error.number, error.image, error.line


def rejected(image):
    Segmenter(image, errors="strict").words("a\ud800")


def again(error):
    """Returns an error after a pickle, after a copy, and after a deep copy."""
    return [pickle.loads(pickle.dumps(error)), copy.copy(error), copy.deepcopy(error)]


@pytest.mark.parametrize("given, kind, parts, message", ERRORS)
def test_the_message_and_the_position_of_an_error(given, kind, parts, message):
    error = error_of(*given)
    assert isinstance(error, (KumquatsieveError,)) and isinstance(error, kind)
    message = f"{message}; {CURES[error.code]}"
    for one in (error, *again(error)):
        assert (type(one), parts_of(one), str(one)) == (type(error), parts, message)
    assert (error.message, error.filename) == (given[4], None)
    if kind is OSError:
        assert (error.errno, error.strerror) == (given[1], os.strerror(given[1]))


def test_a_line_is_counted_from_1():
    error = KumquatsieveError("invalid", 0x4703, 2, line=7)
    for one in (error, *again(error)):
        assert str(one).startswith("line 7: invalid at character 2; ")


@pytest.mark.parametrize("code", ["G3", "K1", "L2", "O1", "O2", "O3", "F1", "P1"])
def test_an_explanation_is_that_of_the_programs(code):
    """Its first line has the letter, the number and the name of the code."""
    error = KumquatsieveError("", 256 * ord(code[0]) + int(code[1:]))
    assert error.code == code and error.explanation.startswith(code)
    assert len(error.explanation.splitlines()) > 1


@pytest.mark.parametrize("start", ["fork", "spawn"])
def test_an_error_in_a_worker_comes_to_whoever_waits(system, start):
    with multiprocessing.get_context(start).Pool(1) as pool:
        with pytest.raises(KumquatsieveError) as error:
            pool.apply_async(rejected, (system,)).get(WAIT)
    assert (error.value.code, error.value.position) == ("G3", 1)
    assert str(error.value).startswith("the text has half of a surrogate pair at character 1; ")


# What is given as an image, made in a folder, and what the error says.
GIVEN = [
    ("a text", lambda path: path.write_text("すもも,1,1,1,x\n"), "L[12] .*|kumquatsieve-import"),
    ("a folder", lambda path: path.mkdir(), "an image is a file"),
    (
        "a folder of MeCab's",
        lambda path: (path.mkdir(), (path / "sys.dic").touch()),
        "kumquatsieve-import .*image.img IMG. compiles",
    ),
]


@pytest.mark.parametrize("what, make, message", GIVEN)
def test_what_is_no_image_is_named_with_what_to_do(tmp_path, what, make, message):
    path = tmp_path / "image.img"
    make(path)
    with pytest.raises(KumquatsieveError, match=message) as error:
        Segmenter(path)
    assert str(path) in str(error.value)
    for one in (error.value, *again(error.value)):
        assert (type(one), str(one)) == (type(error.value), str(error.value))
        assert str(one.filename) == str(path)


@pytest.mark.parametrize(
    "text, code, position", [("も\\q", "P1", 1), ("もも%F", "P2", 2), ("も%f[0,1]", "P3", 1)]
)
def test_a_format_that_is_invalid(system, text, code, position):
    """The error names the text. Its position counts characters."""
    formats = [Format(text), Format("%m", unk=text)]
    formats += [] if code == "P3" else [Format("%m", bos=text), Format("%m", eos=text)]
    for format in formats:
        with pytest.raises(ValueError, match=code) as error:
            Segmenter(system, format=format)
        assert (error.value.code, error.value.position) == (code, position)


def test_out_of_memory_is_a_memory_error(system):
    """The memory of a process is limited. A short line is segmented after that."""
    code = """
import resource, sys
from kumquatsieve import KumquatsieveError, Segmenter
segmenter = Segmenter(sys.argv[1])
used = int(open("/proc/self/statm").read().split()[0]) * resource.getpagesize()
resource.setrlimit(resource.RLIMIT_AS, (used + 40_000_000, used + 40_000_000))
for call in (segmenter.words, segmenter.wakati, segmenter.parse):
    try:
        call("z" * 1_000_000)
    except MemoryError as error:
        print(isinstance(error, KumquatsieveError), segmenter.wakati("もも"))
"""
    done = subprocess.run([sys.executable, "-c", code, system], capture_output=True, text=True)
    assert (done.stdout, done.returncode) == ("True ['もも']\n" * 3, 0), done.stderr
