"""The Python module, for a benchmark in a process of its own."""
import os
import subprocess
import sys
from pathlib import Path
from typing import NoReturn, Union

from support.running import ARCHIVE, LEFT_OUT, TOP, Words

# A folder that packaging/build-module filled, instead of a new one.
MODULE = "KUMQUATSIEVE_MODULE"


def end_unmeasured(missing: Union[str, Path]) -> NoReturn:
    """Ends this script as left out, because a program or a file is missing."""
    print(f"bench/run: {missing} is missing: nothing was measured", file=sys.stderr)
    sys.exit(LEFT_OUT)


def module_folder(folder: Path) -> Path:
    """Returns the folder of the module, which is built in `folder` unless the variable names it."""
    if MODULE in os.environ:
        return Path(os.environ[MODULE])
    if not ARCHIVE.exists():
        end_unmeasured(ARCHIVE)
    words: Words = [TOP / "packaging/build-module", "--built", folder / "module"]
    built = subprocess.run(words, stdout=subprocess.DEVNULL, stderr=subprocess.DEVNULL)
    if built.returncode == LEFT_OUT:
        end_unmeasured("gcc, or Python.h (Debian: python3-dev),")
    built.check_returncode()
    return folder / "module"


def use_module(folder: Path) -> None:
    """Lets this process and those that it starts import the module here."""
    built = module_folder(folder)
    os.environ[MODULE] = os.environ["PYTHONPATH"] = str(built)
    os.environ["PYTHONDONTWRITEBYTECODE"] = "1"
    sys.path.insert(0, str(built))
