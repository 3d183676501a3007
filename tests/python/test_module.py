"""The module itself: its version, its exports, and the search for the library."""
import importlib.metadata
import inspect
import os
import re
import shutil
import subprocess
import sys
from pathlib import Path

import pytest

import kumquatsieve
from kumquatsieve import _core

TOP = Path(__file__).resolve().parents[2]


def test_the_version_is_that_of_the_programs():
    shared = (TOP / "crates" / "messages" / "src" / "shared.rt").read_text()
    assert re.search(r'VERSION: &str = "([0-9.]*)', shared)[1] == kumquatsieve.__version__


def test_what_is_installed_has_the_same_version():
    """A module that packaging/build-module built has no installed version to compare."""
    if not [*Path(kumquatsieve.__file__).parents[1].glob("kumquatsieve-*.dist-info")]:
        pytest.skip("the module is not installed")
    assert importlib.metadata.version("kumquatsieve") == kumquatsieve.__version__


def test_each_exported_name_is_there_and_has_a_docstring():
    for name in kumquatsieve.__all__:
        assert getattr(kumquatsieve, name).__doc__


def test_each_call_has_a_signature_and_a_docstring():
    """Editors and `help` show them. mypy compares them with the stubs."""
    for kind in (kumquatsieve.Dictionary, kumquatsieve.Lattice, kumquatsieve.Segmenter):
        calls = [call for name, call in inspect.getmembers(kind, callable) if name[0] != "_"]
        assert calls and all(inspect.signature(call) and call.__doc__ for call in calls)
    assert str(inspect.signature(kumquatsieve.Segmenter.words)) == "(self, text, /)"


# Modules that take longer to import than a checked image takes to load.
SLOW = {"collections", "enum", "functools", "html", "mmap", "re", "shutil", "threading", "typing"}
# Prints which of them a program imports that segments one line.
ONE_LINE = """
import sys
before = set(sys.modules)
from kumquatsieve import Segmenter
assert [word.surface for word in Segmenter(sys.argv[1]).words("もも")] == ["もも"]
print(*sorted(set(sys.modules) - before))
"""


def test_a_program_that_segments_one_line_imports_no_slow_module(system):
    words = [sys.executable, "-c", ONE_LINE, system]
    done = subprocess.run(words, capture_output=True, text=True, check=True)
    assert SLOW.isdisjoint(done.stdout.split())


def test_all_names_are_listed_before_they_are_imported():
    code = "import kumquatsieve; print({*kumquatsieve.__all__} <= {*dir(kumquatsieve)})"
    done = subprocess.run([sys.executable, "-c", code], capture_output=True, text=True, check=True)
    assert done.stdout == "True\n"


def test_a_name_that_the_module_does_not_have():
    with pytest.raises(AttributeError, match="module 'kumquatsieve' has no attribute 'Tagger'"):
        kumquatsieve.Tagger
    with pytest.raises(ImportError):
        from kumquatsieve import Tagger  # noqa: F401


def test_the_extension_is_of_the_stable_abi():
    assert _core.__file__.endswith(".abi3.so")
    first, second, third = map(int, kumquatsieve.__version__.split("."))
    assert _core.VERSION == 10_000 * first + 100 * second + third


def test_the_extension_exports_its_entry_point_alone():
    """So another copy of the library in the process, as in libmecab.so.2, is not mixed with it."""
    if not shutil.which("objdump"):
        pytest.skip("objdump is not there")
    words = ["objdump", "-T", _core.__file__]
    listed = subprocess.run(words, capture_output=True, text=True, check=True).stdout
    defined = [
        line.split() for line in listed.splitlines() if " g " in line and "*UND*" not in line
    ]
    assert [row[-1] for row in defined] == ["PyInit__core"]
    needed = subprocess.run(["objdump", "-p", _core.__file__], capture_output=True, text=True)
    libraries = re.findall(r"NEEDED +(\S+)", needed.stdout)
    assert [name for name in libraries if not name.startswith(("libc.so", "ld-linux"))] == []


@pytest.mark.parametrize(
    "flags, message",
    [("", ""), ("d", ""), ("t", "this one is free-threaded"), ("td", "this one is free-threaded")],
)
def test_a_free_threaded_python_is_rejected(flags, message):
    """Whether its lock is on or not, because it does not load modules of the stable ABI."""
    code = f"import sys; sys.abiflags = {flags!r}; import kumquatsieve"
    done = subprocess.run([sys.executable, "-c", code], capture_output=True, text=True)
    assert (done.returncode, message in done.stderr) == (1 if message else 0, True)


# How mypy treats the modules of the package, whose types are in the stub.
UNTYPED = """
[mypy]
[mypy-kumquatsieve._errors,kumquatsieve._lattice,kumquatsieve._lines,kumquatsieve._segmenter]
ignore_errors = True
[mypy-kumquatsieve._words,kumquatsieve.__main__]
ignore_errors = True
[mypy-kumquatsieve._core]
ignore_missing_imports = True
"""
# What a stub does not have: the modules, and the names that attributes have.
OWN = r"""
kumquatsieve\._.*
kumquatsieve\.Word\.__getattr__
"""


def test_types_are_the_stubs(tmp_path):
    """A user's script passes mypy, and the stubs have each name with its parameters."""
    try:
        import mypy  # noqa: F401
    except ImportError:
        pytest.skip("mypy is not there")
    folder = str(Path(kumquatsieve.__file__).parents[1])
    # mypy finds a module that is installed, and rejects the folder of such modules in MYPYPATH.
    is_installed = os.path.basename(folder) == "site-packages"
    environment = {**os.environ, "MYPYPATH": "" if is_installed else folder, "PYTHONPATH": folder}
    script = Path(__file__).with_name("typed.py")
    (tmp_path / "settings").write_text(UNTYPED)
    (tmp_path / "own").write_text(OWN)
    settings = ["--mypy-config-file", str(tmp_path / "settings"), "--allowlist"]
    settings += [str(tmp_path / "own"), "--ignore-unused-allowlist"]
    for words in (["mypy", "--strict", str(script)], ["mypy.stubtest", "kumquatsieve", *settings]):
        run = [sys.executable, "-m", *words]
        done = subprocess.run(run, capture_output=True, text=True, env=environment)
        assert done.returncode == 0, done.stdout + done.stderr


def test_objects_are_made_by_a_segmenter_alone():
    for kind in (kumquatsieve.Word, kumquatsieve.Node):
        with pytest.raises(TypeError):
            kind()
        with pytest.raises(TypeError):
            object.__new__(kind)
        with pytest.raises(TypeError):
            type("Own", (kind,), {})()
    for wrong in ((), (1,), ((), 0, 0, None, ()), (("x",), 0, False, None, ())):
        with pytest.raises((TypeError, ValueError)):
            _core.Dictionary(*wrong)
        with pytest.raises((TypeError, ValueError)):
            _core.Segmenter(*wrong)
        with pytest.raises((TypeError, ValueError)):
            _core.restore(*wrong)


MAIN = [
    ([], "すもももも\nもも", "すもも\t名詞,すもも\nもも\t名詞,もも\nEOS\nもも\t名詞,もも\nEOS\n"),
    (["-O", "wakati"], "すもももも\n\n", "すもも もも \n\n"),
    (["-u", "USER"], "すもももも\n", "すもももも\t名詞,すもももも\nEOS\n"),
    (["-O", "wakati", "text", "text"], "", "もも \nもも \n"),
]


@pytest.mark.parametrize("words, text, printed", MAIN)
def test_the_module_segments_standard_input(system, user, tmp_path, words, text, printed):
    (tmp_path / "text").write_text("もも\n", encoding="utf-8")
    words = [user if word == "USER" else word for word in words]
    run = [sys.executable, "-m", "kumquatsieve", "-d", system, *words]
    done = subprocess.run(run, input=text.encode(), capture_output=True, cwd=tmp_path)
    assert (done.stdout.decode(), done.stderr, done.returncode) == (printed, b"", 0)


def test_the_output_of_a_line_that_is_typed_comes_before_the_next_line(system):
    """Input and output are a terminal, which shows what is typed."""
    own, terminal = os.openpty()
    run = [sys.executable, "-m", "kumquatsieve", "-d", system, "-O", "wakati"]
    pipes = {"stdin": terminal, "stdout": terminal, "stderr": terminal}
    with subprocess.Popen(run, **pipes) as process:
        os.close(terminal)
        try:
            for _ in range(3):
                os.write(own, "すもももも\n".encode())
                shown = b""
                while not shown.endswith("すもも もも \r\n".encode()):
                    shown += os.read(own, 1000)
            os.write(own, b"\x04")
            assert process.wait(60) == 0
        finally:
            process.kill()
            os.close(own)


def test_the_output_is_utf_8_in_each_locale(system):
    run = [sys.executable, "-m", "kumquatsieve", "-d", system, "-O", "wakati"]
    environment = {**os.environ, "LC_ALL": "C", "PYTHONUTF8": "0", "PYTHONIOENCODING": "ascii"}
    text = "もも\n".encode() + b"\xff\n"
    done = subprocess.run(run, input=text, capture_output=True, env=environment)
    assert (done.stdout.decode(), done.stderr) == ("もも \n\ufffd \n", b"")


def test_what_the_module_can_not_do_is_one_line(system, tmp_path):
    for words in (["-d", "there.img"], ["-d", system, "there"], ["-d", "/"]):
        run = [sys.executable, "-m", "kumquatsieve", *words]
        done = subprocess.run(run, input=b"", capture_output=True, cwd=tmp_path)
        assert (done.stdout, done.returncode) == (b"", 1)
        assert done.stderr.startswith(b"kumquatsieve: ") and done.stderr.count(b"\n") == 1


def test_a_reader_that_ends_early_is_no_error(system):
    run = f"yes もも | '{sys.executable}' -m kumquatsieve -d '{system}' | head -n 1"
    done = subprocess.run(["bash", "-c", run], capture_output=True, text=True)
    assert (done.stdout, done.stderr) == ("もも\t名詞,もも\n", "")
