#!/usr/bin/env python3
"""Runs the commands that the documents show, and compares what they print.

A block that starts with ```console has commands, each after `$ `, and after each what it prints,
standard output and standard error together. bash runs them one after the other in a folder that has
the sample's files. dictc, jseg and kumquatsieve-import are installed in a folder of the path, and
so are the library and pjseg. Seconds, and the path of that folder, are replaced before
the comparison, and /usr/local in a command is that folder.

A word after `console` names what a block needs: `rt`, `mecab`, `parallel`, `groonga` with its
tokenizer, the Debian sources `ipadic`, or the `library`, which is gcc, pkg-config and
crates/capi/out/libcapi.a. If that is missing the block is left out. Such a block is reported and
does not count as run, and the status is 77. A command goes on after a backslash, and after
`<< 'END'` up to the line END.

A block that starts with ```sql and `postgresql` is run by psql in the database `texts` of a server
with the extension (tests/postgresql), and one with `sqlite` by sqlite3. Its lines after `-- ` are
what it prints.

A block that starts with ```python and has `>>>` is a session of Python, which doctest runs in that
folder. The words after `python` are what it needs. A block that starts with ```c or ```python and
the path of a file must have the text of the file. Other blocks are not run here:
tests/python/test_documents.py runs those of Python in docs/PYTHON.md.

Needs: crates/dictc/out/dictc and crates/jseg/out/jseg, which `rt run` in their folders leaves.
Without them the status is 2. The status is 1 if a command prints something else.
"""
import argparse
import os
import re
import shutil
import subprocess
import sys
import tempfile
from contextlib import ExitStack
from pathlib import Path
from typing import Dict, Iterator, List, NamedTuple, Optional, Sequence, Tuple, Union

sys.dont_write_bytecode = True
sys.path.insert(0, str(Path(__file__).resolve().parents[1]))
from postgresql.server import Server  # noqa: E402
from postgresql.server import missing as missing_for_server  # noqa: E402
from support.running import (  # noqa: E402
    ARCHIVE,
    IMPORTER,
    LEFT_OUT,
    SAMPLE,
    TOP,
    Words,
    leave_out,
    missing_of,
    program,
    run,
)

NAMES = ["CLI", "FROM_MECAB", "DICTIONARIES", "LARGE_CORPORA", "C_API", "PYTHON", "SEARCH"]
DOCUMENTS = ["README.md", "python/README.md", *(f"docs/{name}.md" for name in NAMES)]
PROGRAMS = [program(name) for name in ("dictc", "jseg")]
IPADIC = Path("/usr/share/mecab/dic/ipadic/matrix.def")
BLOCK = re.compile(r"^```(console|python|sql) *(.*?)\n(.*?)^```$", re.M | re.S)
FILE = re.compile(r"^```(?:c|python) (\S+/\S+)\n(.*?)^```$", re.M | re.S)
# The client of the database that a block of SQL needs.
SQL_CLIENTS = {
    "postgresql": "psql -X -q -A -t -v ON_ERROR_STOP=1 texts",
    "sqlite": "sqlite3 -bail texts.db",
}
SQLITE_HEADERS = ("sqlite3ext.h", "utf8proc.h")
SQL_RESULT = "-- "
GROONGA = Path("/usr/lib/x86_64-linux-gnu/groonga/plugins/tokenizers/mecab.so")
# The folders of this repository whose paths the commands name.
LINKED = ["packaging", "scripts", "tests", "crates", "examples"]

# A command, and what it prints.
Command = Tuple[str, str]


class Block(NamedTuple):
    """A block of a document: its file and line, what it needs, and its commands.

    A session of Python is one command.
    """

    name: str
    needs: List[str]
    commands: List[Command]


def commands_in(text: str) -> List[Command]:
    """Returns each command with the lines after it."""
    found: List[Command] = []
    continues, has_input = False, False
    for line in text.splitlines(keepends=True):
        if continues or has_input:
            found[-1] = found[-1][0] + line, ""
        elif line.startswith("$ "):
            found.append((line[2:], ""))
        else:
            found[-1] = found[-1][0], found[-1][1] + line
        continues = (continues or line.startswith("$ ")) and line.endswith("\\\n")
        has_input = (has_input or "<< 'END'" in line) and line != "END\n"
    return found


def sql_in(text: str, needs: Sequence[str]) -> Command:
    """Returns the command that runs SQL, and the output that its comments show."""
    client = next(client for need, client in SQL_CLIENTS.items() if need in needs)
    lines = [line for line in text.splitlines(keepends=True) if line.startswith(SQL_RESULT)]
    shown = "".join(line.removeprefix(SQL_RESULT) for line in lines)
    return f"{client} << 'END'\n{text}END\n", shown


def session_of(text: str) -> Command:
    """Returns the command that runs a session of Python. It prints nothing."""
    return f"python3 -m doctest /dev/stdin << 'END'\n{text}END\n", ""


def blocks() -> Iterator[Block]:
    """Yields the blocks of all documents that are run."""
    for document in DOCUMENTS:
        text = (TOP / document).read_text()
        for found in BLOCK.finditer(text):
            kind, needs, shown = found.groups()
            name = f"{document}:{text.count(chr(10), 0, found.start()) + 1}"
            if kind == "console":
                yield Block(name, needs.split(), commands_in(shown))
            elif kind == "sql":
                yield Block(name, needs.split(), [sql_in(shown, needs.split())])
            elif shown.startswith(">>>"):
                yield Block(name, needs.split(), [session_of(shown)])


def is_there(need: str) -> bool:
    """Returns whether something that a block needs is installed or built."""
    if need == "ipadic":
        return IPADIC.exists()
    if need == "postgresql":
        return ARCHIVE.exists() and missing_for_server() is None
    if need == "sqlite":
        headers = all(Path("/usr/include", name).exists() for name in SQLITE_HEADERS)
        return ARCHIVE.exists() and headers and not missing_of(["gcc", "sqlite3"])
    if need == "groonga":
        is_built = ARCHIVE.exists() and Path("/usr/include/mecab.h").exists()
        return is_built and GROONGA.exists() and not missing_of(["groonga", "g++"])
    if need == "library":
        return ARCHIVE.exists() and not missing_of(["gcc", "pkg-config"])
    return not missing_of([need])


def file_differences() -> Iterator[str]:
    """Yields a message for each block that differs from the file that it names."""
    for document in DOCUMENTS:
        for path, text in FILE.findall((TOP / document).read_text()):
            if (TOP / path).read_text() != text:
                yield f"{document}: {path} has another text"


def prepare(folder: Path) -> Tuple[Path, Path]:
    """Installs the programs. Returns the prefix, and the folder in which commands run."""
    prefix, work = folder / "usr", folder / "work"
    (prefix / "bin").mkdir(parents=True)
    for path in [*PROGRAMS, IMPORTER]:
        shutil.copy(path, prefix / "bin")
    modules = "kumquatsieve_import"
    shutil.copytree(IMPORTER.parent / modules, prefix / "lib" / "kumquatsieve" / modules)
    if is_there("library"):
        mecab = ["--mecab"] if is_there("groonga") else []
        words: Words = [TOP / "packaging/build-library", "--built", *mecab, prefix]
        run(words, stderr=subprocess.DEVNULL)
        to: List[Union[str, Path]] = ["--prefix", str(prefix), prefix / "python"]
        run([TOP / "packaging/build-module", "--built", *to], stderr=subprocess.DEVNULL)
        run([TOP / "packaging/build-pjseg", prefix], stderr=subprocess.DEVNULL)
    if is_there("sqlite"):
        run([TOP / "packaging/build-sqlite", prefix], stderr=subprocess.DEVNULL)
    shutil.copytree(SAMPLE, work)
    for name in LINKED:
        (work / name).symlink_to(TOP / name)
    return prefix, work


def start_server(prefix: Path, folder: Path) -> Server:
    """Returns a server with the extension, which finds the images of the prefix."""
    share = folder / "share"
    share.mkdir()
    (share / "kumquatsieve").symlink_to(prefix / "var" / "lib" / "kumquatsieve")
    server = Server(folder / "server", {"XDG_DATA_HOME": str(share)})
    server.install(f"PKG_CONFIG=env PKG_CONFIG_PATH={prefix / 'lib' / 'pkgconfig'} pkg-config")
    return server


def environment_of(prefix: Path, block: Block, server: Optional[Server]) -> Dict[str, str]:
    """Returns the environment of the commands, in which what is installed is found."""
    libraries = [prefix / "lib"]
    extra = {}
    if "groonga" in block.needs:
        libraries.insert(0, prefix / "lib" / "kumquatsieve" / "mecab")
        extra["KUMQUATSIEVE_DICTIONARY"] = "ipadic"
    if server:
        extra.update((name, server.environment[name]) for name in ("PGHOST", "PGUSER"))
    return {
        **os.environ,
        "PKG_CONFIG_PATH": str(prefix / "lib" / "pkgconfig"),
        "LD_LIBRARY_PATH": ":".join(map(str, libraries)),
        "PYTHONPATH": str(prefix / "python"),
        "PYTHONDONTWRITEBYTECODE": "1",
        "PATH": f"{prefix / 'bin'}:{os.environ['PATH']}",
        "LC_ALL": "C.UTF-8",
        **extra,
    }


def comparable(text: str, prefix: Path) -> str:
    """Replaces what differs from run to run: seconds, and the prefix."""
    return re.sub(r"\b\d+(\.\d+)? s\b", "0 s", text.replace(str(prefix), "/usr/local"))


def differences(block: Block, prefix: Path, work: Path, server: Optional[Server]) -> Iterator[str]:
    """Runs the commands of a block, and yields a message for each that prints something else."""
    for command, shown in block.commands:
        done = subprocess.run(
            ["bash", "-c", command.replace("/usr/local", str(prefix))],
            cwd=work,
            env=environment_of(prefix, block, server),
            stdout=subprocess.PIPE,
            stderr=subprocess.STDOUT,
        )
        printed = done.stdout.decode(errors="replace")
        if comparable(printed, prefix) != comparable(shown, prefix):
            yield f"{block.name}: `{command.strip()}` prints\n{printed}and not\n{shown}"


def check_blocks(without: Sequence[str]) -> Tuple[int, int, List[str]]:
    """Runs all blocks. Returns how many were run and left out, and the differences."""
    count, left_out = 0, 0
    found: List[str] = []
    with tempfile.TemporaryDirectory() as folder, ExitStack() as ends:
        # A server runs as another user, who has to find its files.
        os.chmod(folder, 0o755)
        prefix, work = prepare(Path(folder))
        server = None
        for block in blocks():
            missing = [need for need in block.needs if need in without or not is_there(need)]
            if missing:
                left_out += 1
                leave_out(f"{block.name}: {' and '.join(missing)} missing")
                continue
            if "postgresql" in block.needs and server is None:
                server = ends.enter_context(start_server(prefix, Path(folder)))
                server.sql("CREATE DATABASE texts TEMPLATE template0 ENCODING 'UTF8'")
            count += 1
            found += differences(block, prefix, work, server)
    return count, left_out, found


def main() -> int:
    parser = argparse.ArgumentParser(
        description=__doc__, formatter_class=argparse.RawDescriptionHelpFormatter
    )
    parser.add_argument(
        "--without",
        action="append",
        default=[],
        metavar="WORD",
        help="leave out the blocks that need this",
    )
    without = parser.parse_args().without
    missing = [str(path) for path in PROGRAMS if not path.exists()]
    if missing:
        print(f"docs: {' and '.join(missing)} not built: nothing was run", file=sys.stderr)
        return 2
    count, left_out, found = check_blocks(without)
    found += file_differences()
    for difference in found:
        print(difference, file=sys.stderr)
    print(f"{count} blocks run, {left_out} left out, {len(found)} differences")
    return 1 if found else LEFT_OUT if left_out else 0


sys.exit(main())
