#!/usr/bin/env python3
"""Tests libmecab over Kumquatsieve, which `packaging/build-library --mecab` builds.

- Programs in C and C++ make each call of MeCab's header and of its classes over the sample, and
  segment odd texts, under valgrind (checks/calls.py). Others fork while images are loaded, and
  replace an image, also while it is opened. Each allocation fails in turn. One tagger runs in four
  threads under helgrind and ThreadSanitizer.
- Tables of cases show what the program mecab prints (checks/program_cases.py), and which images it
  opens (checks/settings_cases.py, checks/image_search_cases.py).
- MeCab's tools are passed on (checks/tools.py).
- Debian's clients of MeCab's library, and programs in clients/, run over Debian's library and over
  this one, and must print the same (checks/clients.py): the program mecab with many options, C,
  C++, Perl, Python, Ruby, Java, sylph-searcher, and Groonga.

The dictionary is Debian's mecab-ipadic, which kumquatsieve-import imports for this library with its
dicrc and pos-id.def. The lines are those of the Japanese manual pages (Debian: manpages-ja).

Needs: mecab, mecab-ipadic-utf8, libmecab-dev, gcc, g++ and valgrind; --install installs them and
all clients by apt-get. A client that is missing is reported as left out, and the status is 77 after
all other checks. It is 77 at once if something else that is needed is missing.
"""
import argparse
import os
import sys
import tempfile
from pathlib import Path

sys.dont_write_bytecode = True
sys.path.insert(0, str(Path(__file__).resolve().parents[1]))
from compare_with_mecab.texts import common_lines, manual_pages  # noqa: E402
from libmecab.checks import calls  # noqa: E402
from libmecab.checks.clients import Client, clients  # noqa: E402
from libmecab.checks.common import COMPILED, HEADER, IPADIC, Built, Environment  # noqa: E402
from libmecab.checks.common import fail, report  # noqa: E402
from libmecab.checks.context import Context  # noqa: E402
from libmecab.checks.exports import check_exports, check_linking  # noqa: E402
from libmecab.checks.program import check_program, check_program_out_of_memory  # noqa: E402
from libmecab.checks.settings import check_settings  # noqa: E402
from libmecab.checks.tools import check_tools  # noqa: E402
from support.running import LEFT_OUT, TOP, end_left_out, leave_out, missing_of, run  # noqa: E402

PACKAGES = (
    "mecab mecab-ipadic mecab-ipadic-utf8 libmecab-dev manpages-ja libtext-mecab-perl"
    " python3-mecab ruby-mecab groonga-bin groonga-tokenizer-mecab libmecab-java libmecab-jni"
    " default-jdk-headless libmecab-perl mecab-utils mecab-jumandic-utf8 mecab-naist-jdic"
    " sylph-searcher postgresql"
).split()
# A longer line than this is left out of the text.
LONGEST = 4096


def parsed_options() -> argparse.Namespace:
    """Returns the options of the command line."""
    parser = argparse.ArgumentParser(
        description=__doc__, formatter_class=argparse.RawDescriptionHelpFormatter
    )
    parser.add_argument(
        "--install", action="store_true", help="install what is needed first, by apt-get"
    )
    parser.add_argument(
        "--built", action="store_true", help="use the archive in crates/capi/out as it is"
    )
    parser.add_argument("--lines", type=int, default=10_000, help="the number of lines")
    return parser.parse_args()


def check_installed() -> None:
    """Ends this script if something is missing that all checks need."""
    if not (IPADIC / "matrix.def").exists() or not COMPILED.exists() or not HEADER.exists():
        end_left_out("mecab-ipadic, mecab-ipadic-utf8 or libmecab-dev is missing")
    missing = missing_of(["gcc", "g++", "valgrind", "mecab"])
    if missing:
        end_left_out(f"{' and '.join(missing)} missing")


def environments(built: Built) -> tuple[Environment, Environment]:
    """Returns the environments in which a client finds Debian's library, and ours."""
    dictionary, home = built.folder / "dictionary", built.folder / "home"
    dictionary.mkdir()
    home.mkdir()
    importer = built.prefix / "bin" / "kumquatsieve-import"
    run([importer, IPADIC, dictionary / "kumquatsieve.img"])
    for name in ("dicrc", "pos-id.def"):
        if not (dictionary / f"kumquatsieve.{name}").is_file():
            fail(f"kumquatsieve-import stores no {name} next to the image")
    settings = built.folder / "mecabrc"
    settings.write_text(f"dicdir = {COMPILED}\n")
    theirs = {**os.environ, "HOME": str(home), "MECABRC": str(settings)}
    ours = {**built.environment, "HOME": str(home), "KUMQUATSIEVE_DICTIONARY": str(dictionary)}
    return theirs, ours


def lines_file(folder: Path, count: int) -> Path:
    """Returns the path of a file of lines of the Japanese manual pages."""
    lines = common_lines(manual_pages()).splitlines()
    lines = [line for line in lines if line.strip() and len(line) < LONGEST][:count]
    if not lines:
        end_left_out("no Japanese manual pages (Debian: manpages-ja)")
    path = folder / "lines"
    path.write_bytes(b"\n".join(lines) + b"\n")
    return path


def check_library(built: Built) -> None:
    """Checks the library over the sample."""
    check_exports(built)
    image = calls.check_calls(built)
    calls.check_replaced_image(built)
    calls.check_out_of_memory(built, image)
    calls.check_forks(built, image)
    calls.check_changing_image(built)
    check_program(built, image)
    check_program_out_of_memory(built, image)
    check_tools(built)
    check_settings(built, image)
    check_linking(built)


def check_client(client: Client, theirs: Context, ours: Context) -> None:
    """Compares what a client prints over both libraries."""
    expected = client.output(theirs)
    if not expected or expected != client.output(ours):
        fail(f"{client.name} prints other bytes over this library")
    report(f"{client.name}: the same {len(expected)} bytes over both libraries")


def check_all(folder: Path, options: argparse.Namespace, installed: list[Client]) -> None:
    """Builds the library and runs all checks."""
    built = Built(folder, folder / "prefix")
    how = ["--built"] if options.built else []
    run([TOP / "packaging/install", *how, "--mecab", built.prefix])
    theirs, ours = environments(built)
    check_library(built)
    lines = lines_file(folder, options.lines)
    calls.check_threads(built, lines, ours["KUMQUATSIEVE_DICTIONARY"])
    for client in installed:
        check_client(client, Context(lines, theirs, folder), Context(lines, ours, folder))
    report(f"{len(installed)} cases: clients of MeCab's library")


def main() -> None:
    options = parsed_options()
    if options.install:
        run(["apt-get", "install", "-y", "-qq", *PACKAGES])
    check_installed()
    installed = [client for client in clients() if client.is_installed]
    missing = [client.name for client in clients() if not client.is_installed]
    with tempfile.TemporaryDirectory() as folder:
        check_all(Path(folder), options, installed)
    for name in missing:
        leave_out(name)
    if missing:
        sys.exit(LEFT_OUT)


if __name__ == "__main__":
    main()
