"""A PostgreSQL server in a temporary folder, with an extension that is built for it.

The server's programs are copied, and its other files are linked, because PostgreSQL 15 searches for
extensions beside its programs only. So nothing is installed on the system. If the user is root the
server runs as the user `postgres`.
"""
import os
import pwd
import shutil
import subprocess
import sys
from pathlib import Path
from types import TracebackType
from typing import Any, Dict, List, Optional, Sequence, Type

from support.running import TOP, run

EXTENSION = TOP / "integrations" / "postgresql"
INSTALLED = Path("/usr/lib/postgresql/15")
SHARED = Path("/usr/share/postgresql/15")
PG_CONFIG = INSTALLED / "bin" / "pg_config"
PGXS = INSTALLED / "lib" / "pgxs" / "src" / "makefiles" / "pgxs.mk"
COPIED = ("postgres", "initdb", "pg_ctl")
# The folders of SHARED into which extensions install files.
OWN_FOLDERS = ("extension", "tsearch_data")
SETTINGS = {
    "listen_addresses": "",
    "fsync": "off",
    "full_page_writes": "off",
    "shared_buffers": "64MB",
    "max_wal_size": "512MB",
    "autovacuum": "off",
    "jit": "off",
}


def missing() -> Optional[str]:
    """Returns what is not installed of what a server and the extension need, or None."""
    for path, package in ((INSTALLED / "bin" / "postgres", ""), (PGXS, "server-dev-")):
        if not path.exists():
            return f"postgresql-{package}15 is missing"
    needed = [name for name in ("gcc", "make", "pkg-config", "psql") if not shutil.which(name)]
    return f"{' and '.join(needed)} missing" if needed else None


def account() -> Dict[str, Any]:
    """Returns the arguments with which subprocess runs a program as an unprivileged user."""
    if os.geteuid() != 0:
        return {}
    found = pwd.getpwnam("postgres")
    return {"user": found.pw_uid, "group": found.pw_gid, "extra_groups": []}


class Server:
    """A server of its own, with a database `test`. `folder` is one that all users may read."""

    def __init__(self, folder: Path, environment: Optional[Dict[str, str]] = None) -> None:
        self.folder, self.data, self.sockets = folder, folder / "data", folder / "sockets"
        self.bin, self.sources = folder / str(INSTALLED)[1:] / "bin", folder / "sources"
        self.environment = {
            **{name: value for name, value in os.environ.items() if not name.startswith("PG")},
            "PGHOST": str(self.sockets),
            "PGUSER": "postgres",
            "PGDATABASE": "test",
            "PSQLRC": "/dev/null",
            "LC_ALL": "C.UTF-8",
            "HOME": str(folder / "home"),
            "TMPDIR": str(folder / "home"),
            **(environment or {}),
        }
        for path in (self.data, self.sockets, folder / "home"):
            path.mkdir(parents=True)
            if account():
                os.chown(path, account()["user"], account()["group"])
        self._link_files()

    def _link_files(self) -> None:
        """Copies the programs that search for files, and links the files."""
        self.bin.mkdir(parents=True)
        for name in COPIED:
            shutil.copy(INSTALLED / "bin" / name, self.bin)
        libraries, shared = self.bin.parent / "lib", self.folder / str(SHARED)[1:]
        for source, target in ((INSTALLED / "lib", libraries), (SHARED, shared)):
            target.mkdir(parents=True)
            for path in source.iterdir():
                if path.name not in OWN_FOLDERS:
                    (target / path.name).symlink_to(path)
        for name in OWN_FOLDERS:
            (shared / name).mkdir()
            for path in (SHARED / name).iterdir():
                if not path.name.startswith("kumquatsieve"):
                    (shared / name / path.name).symlink_to(path)

    def install(self, *settings: str) -> None:
        """Builds the extension, and installs it for this server. `settings` are those of make."""
        sources = self.sources
        if sources.exists():
            shutil.rmtree(sources)
        shutil.copytree(EXTENSION, sources, ignore=shutil.ignore_patterns("*.o", "*.so"))
        words = ["make", "-s", "-C", str(sources), f"PG_CONFIG={PG_CONFIG}", *settings]
        run([*words, "all", "install", f"DESTDIR={self.folder}"])

    def __enter__(self) -> "Server":
        command = ["initdb", "-D", self.data, "-U", "postgres", "-A", "trust", "-E", "UTF8"]
        self.command([*command, "--locale=C.UTF-8", "--no-sync", "--no-instructions"])
        self.configure(**SETTINGS, unix_socket_directories=str(self.sockets))
        self.start()
        self.sql("CREATE DATABASE test TEMPLATE template0 ENCODING 'UTF8'", "postgres")
        return self

    def __exit__(
        self,
        kind: Optional[Type[BaseException]],
        error: Optional[BaseException],
        trace: Optional[TracebackType],
    ) -> None:
        self.stop("immediate")

    def command(self, words: Sequence[object]) -> None:
        """Runs one of the server's programs. Ends this script with its output if it fails."""
        program = [str(self.bin / str(words[0])), *map(str, words[1:])]
        output = self.folder / "home" / "output"
        with open(output, "wb") as file:
            done = subprocess.run(
                program,
                cwd=self.data,
                env=self.environment,
                stdin=subprocess.DEVNULL,
                stdout=file,
                stderr=subprocess.STDOUT,
                **account(),
            )
        if done.returncode != 0:
            print(output.read_text(errors="replace"), self.log(), file=sys.stderr)
            sys.exit(f"server: {' '.join(program)}: status {done.returncode}")

    def start(self) -> None:
        """Starts the server, and waits until it takes connections."""
        self.command(["pg_ctl", "start", "-w", "-D", self.data, "-l", self.data / "log"])

    def stop(self, mode: str = "fast") -> None:
        self.command(["pg_ctl", "stop", "-m", mode, "-D", self.data])

    def single(self, text: str, prefix: Sequence[str]) -> "subprocess.CompletedProcess[str]":
        """Runs SQL in a backend without a server, as the argument of another command.

        The server must not run. A statement ends with a semicolon and an empty line.
        """
        words = [*prefix, str(self.bin / "postgres"), "--single", "-D", str(self.data), "-j"]
        return subprocess.run(
            [*words, "test"],
            input=text,
            cwd=self.data,
            env=self.environment,
            stdout=subprocess.PIPE,
            stderr=subprocess.PIPE,
            text=True,
            **account(),
        )

    def log(self) -> str:
        """Returns what the server has logged."""
        path = self.data / "log"
        return path.read_text(errors="replace") if path.exists() else ""

    def installcheck(self, *tests: str) -> List[str]:
        """Runs all or some of PostgreSQL's tests of the extension. Returns what differs."""
        options = f"--load-extension=kumquatsieve --encoding=UTF8 --host={self.sockets}"
        for path in (self.sources, *self.sources.rglob("*")):
            if account():
                os.chown(path, account()["user"], account()["group"])
        chosen = [f"REGRESS={' '.join(tests)}"] if tests else []
        done = subprocess.run(
            ["make", "-s", "-C", str(self.sources), "installcheck", f"PG_CONFIG={PG_CONFIG}",
             f"REGRESS_OPTS={options} --user=postgres", *chosen],
            env=self.environment,
            stdout=subprocess.PIPE,
            stderr=subprocess.STDOUT,
            **account(),
        )  # fmt: skip
        if done.returncode == 0:
            return []
        differences = self.sources / "regression.diffs"
        shown = differences.read_bytes() if differences.exists() else done.stdout
        return [f"regression tests: {shown.decode(errors='replace')}"]

    def psql(self, text: str, *options: str) -> "subprocess.CompletedProcess[str]":
        """Runs SQL in a connection of its own. Each command of the text is a transaction.

        With the option `-c` the command is its value, and `text` is what the command reads.
        """
        return subprocess.run(
            ["psql", "-X", "-q", "-A", "-t", "-v", "ON_ERROR_STOP=1", *options],
            input=text,
            env=self.environment,
            stdout=subprocess.PIPE,
            stderr=subprocess.PIPE,
            text=True,
        )

    def sql(self, text: str, database: str = "test") -> str:
        """Runs SQL, and returns what it prints. Ends this script if it fails."""
        done = self.psql(text, "-d", database)
        if done.returncode != 0:
            sys.exit(f"server: {done.stderr}\n{text[:2000]}")
        return done.stdout

    def error(self, text: str, database: str = "test") -> str:
        """Runs SQL that has to fail, and returns its message with detail and hint."""
        done = self.psql(text, "-d", database)
        if done.returncode == 0:
            sys.exit(f"server: no error: {text}\n{done.stdout}")
        return done.stderr

    def configure(self, **settings: str) -> None:
        """Adds settings to the configuration file. A double underscore in a name is a dot."""
        with open(self.data / "postgresql.conf", "a") as file:
            file.writelines(f"{n.replace('__', '.')} = '{v}'\n" for n, v in settings.items())

    def restart(self, **settings: str) -> None:
        """Starts the server again, with more settings."""
        self.configure(**settings)
        self.stop()
        self.start()
