"""A client's view of the run: lines to segment, and an environment that leads to a library."""
from pathlib import Path
from typing import Callable, NamedTuple

from libmecab.checks.common import CLIENTS, COMPILED, Command, Environment, compiled, first_lines
from support.running import run


class Context(NamedTuple):
    """The lines that a client segments, its environment, and a folder for files.

    The environment leads to MeCab's library, or to ours if it names a dictionary for it.
    """

    lines: Path
    environment: Environment
    folder: Path

    @property
    def is_ours(self) -> bool:
        """Whether the library is ours."""
        return "KUMQUATSIEVE_DICTIONARY" in self.environment

    @property
    def dictionary(self) -> Path:
        """IPADIC, as the library reads it."""
        return Path(self.environment.get("KUMQUATSIEVE_DICTIONARY", COMPILED))

    def first_lines(self, count: int) -> Path:
        """Returns the path of a file of the first lines."""
        return first_lines(self.lines, count, self.folder)

    def run(self, command: Command, text: bytes = b"") -> bytes:
        """Runs a command in the environment, and returns what it prints."""
        return run(command, text, env=self.environment)

    def client(self, name: str) -> Path:
        """Compiles a program of clients/ and returns its path. It is linked with `-lmecab`."""
        return compiled(CLIENTS / name, self.folder, "-lmecab")


# What a client prints.
Output = Callable[[Context], bytes]
