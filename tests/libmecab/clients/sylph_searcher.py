"""Imports mails into a database by sylph-searcher, which segments them by MeCab's library:
sylph_searcher.py LINES

The bodies are the lines of the file. It prints the indexes. The database server is started for
this, and no other machine reaches it.
"""
import os
import pwd
import subprocess
import sys
import tempfile
import time
from contextlib import contextmanager
from pathlib import Path
from typing import Any, Callable, Iterator, Sequence, Union

SERVER = max(Path("/usr/lib/postgresql").glob("*/bin"), default=Path("/nowhere"))
TABLES = Path("/usr/share/sylph-searcher/sql/create.sql")
QUERY = "SELECT hdr_subject, body_index FROM msginfo ORDER BY hdr_msgid"
MAIL_LINES = 20
# The server does not run as root.
USER = "postgres" if os.geteuid() == 0 else pwd.getpwuid(os.geteuid()).pw_name
SERVER_USER = USER if os.geteuid() == 0 else None
HEAD = """From: a@example.org
To: b@example.org
Subject: {0}
Message-ID: <{0}@example.org>
Date: Thu, 1 Jan 2026 00:00:00 +0000
MIME-Version: 1.0
Content-Type: text/plain; charset="UTF-8"
Content-Transfer-Encoding: 8bit

"""
# Tenths of a second until the server must respond.
TRIES = 300
Words = Sequence[Union[str, Path]]


def write_mails(lines: list[str], folder: Path) -> None:
    """Writes mails of MAIL_LINES lines each."""
    folder.mkdir()
    for number, start in enumerate(range(0, len(lines), MAIL_LINES), 1):
        body = "\n".join(lines[start : start + MAIL_LINES])
        (folder / str(number)).write_text(f"{HEAD.format(number)}{body}\n")


def run(command: Words, **more: Any) -> bytes:
    """Runs a command and returns what it prints. Ends this script if it fails."""
    words = [str(word) for word in command]
    done = subprocess.run(words, stdout=subprocess.PIPE, stderr=subprocess.DEVNULL, **more)
    if done.returncode != 0:
        sys.exit(f"sylph_searcher: {command[0]}: status {done.returncode}")
    return bytes(done.stdout)


@contextmanager
def server(folder: Path) -> Iterator[Callable[[Words], bytes]]:
    """Runs a server with an empty database `letters` in the folder.

    Yields a function that runs psql with some arguments.
    """
    sockets, data = folder / "sockets", folder / "data"
    for made in (sockets, data):
        made.mkdir()
        os.chown(made, pwd.getpwnam(USER).pw_uid, -1)
    locale = ["-A", "trust", "-E", "UTF-8", "--locale=C.UTF-8", "-N"]
    run([SERVER / "initdb", "-D", data, *locale], cwd="/", user=SERVER_USER)
    words = [SERVER / "postgres", "-D", data, "-k", sockets, "-c", "listen_addresses=", "-F"]
    command = [str(word) for word in words]
    process = subprocess.Popen(command, cwd="/", stderr=subprocess.DEVNULL, user=SERVER_USER)
    connection: Words = ["-h", sockets, "-U", USER]
    try:
        wait_for(sockets)
        run([SERVER / "createdb", *connection, "letters"])
        psql: Words = [SERVER / "psql", "-q", *connection, "-At"]
        yield lambda arguments: run([*psql, *arguments, "letters"])
    finally:
        process.terminate()
        process.wait()


def wait_for(sockets: Path) -> None:
    """Waits until the server responds."""
    for _ in range(TRIES):
        if subprocess.run([SERVER / "pg_isready", "-q", "-h", sockets]).returncode == 0:
            return
        time.sleep(0.1)
    sys.exit("sylph_searcher: the server does not respond")


def print_indexes(folder: Path) -> None:
    """Imports the mails and prints their indexes."""
    with server(folder) as psql:
        psql(["-f", TABLES])
        words: Words = ["-d", "letters", "-h", folder / "sockets", "-U", USER]
        mails: Words = ["--mecab-encoding", "UTF-8", folder / "letters"]
        run(["syldbimport", *words, *mails], env={**os.environ, "HOME": str(folder)})
        sys.stdout.buffer.write(psql(["-c", QUERY]))


def main() -> None:
    lines = Path(sys.argv[1]).read_text().splitlines()
    with tempfile.TemporaryDirectory() as made:
        folder = Path(made)
        folder.chmod(0o755)
        write_mails(lines, folder / "letters")
        print_indexes(folder)


main()
