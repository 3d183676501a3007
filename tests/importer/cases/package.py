"""The version of the package, which has to be the one that the programs print."""
import subprocess
from pathlib import Path
from typing import Iterator, NamedTuple

from support.running import IMPORTER


class Case(NamedTuple):
    """A program whose version is compared."""

    name: str


CASES = [Case("dictc"), Case("jseg")]


def failures(case: Case, programs: Path, work: Path) -> Iterator[str]:
    """Compares the version of kumquatsieve_import with the one that a program prints."""
    work.mkdir()
    module = (IMPORTER.parent / "kumquatsieve_import" / "__init__.py").read_text()
    own = module.partition('__version__ = "')[2].partition('"')[0]
    command = [str(programs / case.name), "--version"]
    printed = subprocess.run(command, capture_output=True, text=True).stdout
    if not own or not printed.startswith(f"{case.name} {own}\n"):
        yield f"prints {printed!r}, and the package has version {own!r}"
