"""The programs of examples/python: what they print, and what they report. tests/capi tests those in
C, and tests/python/dask_clusters that of examples/dask."""
import os
import subprocess
import sys
from importlib.util import find_spec
from pathlib import Path

import pytest

EXAMPLES = Path(__file__).resolve().parents[2] / "examples"
TEXT = "すもももも\nもも\n"
WORDS = "すもも\t名詞,すもも\nもも\t名詞,もも\n"
PRINTED = WORDS + "EOS\nもも\t名詞,もも\nEOS\n"
USAGE = "usage: "
TABLE = 'number,text\n1,もも\n2,\n3,すもももも\n4,"もも\nすもも"\n'
WITH_WORDS = 'number,text,words\n1,もも,もも\n2,,\n3,すもももも,すもも もも\n4,"もも\nすもも",もも すもも\n'
# A program, its arguments after the image, its status, its output, and its error message.
ROWS = [
    ("words", ["すもももも"], 0, WORDS, ""),
    ("words", ["もも" * 150], 0, "もも\t名詞,もも\n" * 150, ""),
    ("words", ["も\nzz"], 0, "も\t助詞,も\nzz\t未知\n", ""),
    ("words", [], 2, "", USAGE),
    ("words", ["すもも", "もも"], 2, "", USAGE),
    ("segment", [], 0, PRINTED, ""),
    ("segment", ["wakati"], 0, "すもも もも \nもも \n", ""),
    ("segment", ["chasen"], 2, "", USAGE),
    ("segment", ["wakati", "text"], 2, "", USAGE),
    ("count", ["text"], 0, "2 もも\n1 すもも\n", ""),
    ("count", [], 2, "", USAGE),
    ("count", ["there"], 1, "", "count.py: [Errno 2] No such file or directory: 'there'\n"),
    ("files", ["text"], 0, "text: 0 characters were replaced\n", ""),
    ("files", [], 2, "", USAGE),
    ("files", ["text", "there"], 1, None, "files.py: [Errno 2]"),
    ("column", ["table.csv", "text"], 0, WITH_WORDS, ""),
    ("bag", ["text", "text"], 0, "2 すもも\n4 もも\n", ""),
    ("processes", [], 0, "すもも もも\nもも\n", ""),
    ("processes", ["fork"], 0, "すもも もも\nもも\n", ""),
    ("processes", ["spawn"], 0, "すもも もも\nもも\n", ""),
    (
        "vectorize",
        ["text", "text"],
        0,
        "text {'すもも': 1, 'もも': 2}\n" * 2,
        "",
    ),
    (
        "spacy_tokenizer",
        ["すもも zz"],
        0,
        "[('すもも', '名詞', 'すもも'), ('zz', '未知', 'zz')]\n",
        "",
    ),
    ("spacy_tokenizer", ["もも "], 0, "[('もも', '名詞', 'もも')]\n", ""),
    ("spacy_tokenizer", [""], 0, "[]\n", ""),
]
# The modules that a program needs.
NEEDED = {"column": "pandas", "bag": "dask.bag", "vectorize": "sklearn"}
# A stand-in for spaCy, used if it is not installed: the files of the package, by their names. A Doc
# has a text for each word, and whether a blank follows it.
SPACY = {
    "__init__.py": """
class Language:
    def __init__(self):
        self.vocab, self.tokenizer = object(), None

    def __call__(self, text):
        doc = self.tokenizer(text)
        assert doc.vocab is self.vocab and doc.text == text
        return doc


def blank(name, config):
    assert name == "ja" and config["nlp"]["tokenizer"] == {"@tokenizers": "spacy.Tokenizer.v1"}
    return Language()
""",
    "tokens.py": """
from types import SimpleNamespace


class Doc(list):
    def __init__(self, vocab, words, spaces, tags, lemmas):
        assert len(words) == len(spaces) == len(tags) == len(lemmas) and all(words)
        assert {type(one) for one in spaces} <= {bool}
        assert {type(one) for one in [*words, *tags, *lemmas]} <= {str}
        self.vocab = vocab
        self.text = "".join(word + " " * space for word, space in zip(words, spaces))
        for text, tag, lemma in zip(words, tags, lemmas):
            self.append(SimpleNamespace(text=text, tag_=tag, lemma_=lemma))
""",
}
# Programs that report images that can't be opened, and their arguments after the image.
REPORTING = {"words": ["もも"], "segment": [], "count": ["text"], "files": ["text"]}
# Such images, and the errors.
IMAGES = [("./there.img", "there.img"), ("./empty.img", "L1"), ("./user.img", "O1")]
# The path of SQLite's loadable extension, with which search.py is tested.
EXTENSION = "KUMQUATSIEVE_SQLITE"


@pytest.fixture
def run(tmp_path, user):
    """Runs a program in a folder with a text and a table to read, and two files that are no images
    of a system dictionary."""
    (tmp_path / "text").write_text(TEXT, encoding="utf-8")
    (tmp_path / "table.csv").write_text(TABLE, encoding="utf-8")
    (tmp_path / "empty.img").touch()
    (tmp_path / "user.img").write_bytes(Path(user).read_bytes())
    environment = {**os.environ, "PYTHONUTF8": "1"}
    if find_spec("spacy") is None:
        (tmp_path / "modules" / "spacy").mkdir(parents=True)
        for name, text in SPACY.items():
            (tmp_path / "modules" / "spacy" / name).write_text(text)
        paths = [str(tmp_path / "modules"), os.environ.get("PYTHONPATH", "")]
        environment["PYTHONPATH"] = os.pathsep.join(filter(None, paths))

    def run(name, words):
        command = [sys.executable, EXAMPLES / "python" / f"{name}.py", *words]
        with open(tmp_path / "text", "rb") as text:
            done = subprocess.run(
                command,
                cwd=tmp_path,
                stdin=text,
                capture_output=True,
                encoding="utf-8",
                env=environment,
            )
        return done.returncode, done.stdout, done.stderr

    return run


@pytest.mark.parametrize("name, words, status, printed, message", ROWS)
def test_an_example(run, system, name, words, status, printed, message):
    if name in NEEDED:
        pytest.importorskip(NEEDED[name])
    found, out, error = run(name, [system, *words])
    assert found == status and printed in (None, out), error
    assert message in error if message else error == ""
    assert "Traceback" not in error


@pytest.mark.parametrize("name", REPORTING)
def test_an_example_without_an_image(run, name):
    status, out, error = run(name, [])
    assert (status, out) == (2, "") and error.startswith(USAGE)
    for image, why in IMAGES:
        status, out, error = run(name, [image, *REPORTING[name]])
        assert (status, out) == (1, "") and why in error and error.count("\n") == 1, error


def test_what_files_writes(run, system, tmp_path):
    assert run("files", [system, "text", "table.csv"])[0] == 0
    assert (tmp_path / "text.words").read_text(encoding="utf-8") == "すもも もも\nもも\n"


def test_a_search_with_sqlite(run, system, tmp_path):
    if EXTENSION not in os.environ:
        pytest.skip(f"{EXTENSION} does not name the extension of integrations/sqlite")
    assert run("search", [os.environ[EXTENSION], system, "すもも"]) == (0, "[すもも]もも\n", "")
    odd = tmp_path / """its' "image" ''.img"""
    odd.write_bytes(Path(system).read_bytes())
    assert run("search", [os.environ[EXTENSION], odd, "もも"])[:2] == (0, "[もも]\nすもも[もも]\n")


def test_each_example_has_a_row():
    files = {path.stem: path for path in (EXAMPLES / "python").glob("*.py")}
    assert sorted(files) == sorted({*(row[0] for row in ROWS), "search"})
    assert max(len(path.read_text().splitlines()) for path in files.values()) <= 25


def test_the_example_for_dask_without_arguments(tmp_path):
    pytest.importorskip("distributed")
    command = [sys.executable, EXAMPLES / "dask" / "segment.py"]
    done = subprocess.run(command, cwd=tmp_path, capture_output=True, text=True)
    assert done.returncode == 2 and done.stderr.startswith(USAGE) and "IMAGE" in done.stderr
