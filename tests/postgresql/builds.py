"""How the extension is built: without warnings, with hidden symbols, and with the library in it."""
import re
import shutil
from pathlib import Path
from typing import List, Sequence

from postgresql.server import EXTENSION, PG_CONFIG
from support.running import run

# The options of PostgreSQL's own build that clang does not know.
CLANG = "-Wno-unknown-warning-option -Wno-ignored-optimization-argument"
FLAGS = {"gcc": "-Werror", "clang": f"-Werror {CLANG}"}
EXPORTED = re.compile(r"Pg_magic_func|_PG_init|pg_finfo_\w+|(parser|base|stop|dictionary)_\w+")
LINES_MOST, FILE_MOST = 500, 300


def line_count(path: Path) -> int:
    """Returns how many lines a file has, with blank ones and comments, as `wc -l` does."""
    return path.read_text().count("\n")


def check_compilers(folder: Path, compilers: Sequence[str]) -> int:
    """Compiles the extension with each compiler, as the Makefile does, without a warning."""
    for compiler in compilers:
        sources = folder / compiler
        shutil.copytree(EXTENSION, sources, ignore=shutil.ignore_patterns("*.o", "*.so"))
        words = ["make", "-s", "-C", str(sources), f"PG_CONFIG={PG_CONFIG}", f"CC={compiler}"]
        run([*words, f"COPT={FLAGS[compiler]}"])
    return len(compilers)


def check_exports(library: Path) -> List[str]:
    """Returns what is wrong with the symbols of the extension, and with what it needs."""
    exported = run(["nm", "-D", "--defined-only", library]).decode().split("\n")
    names = [line.split()[-1] for line in exported if line]
    wrong = [f"{name} is exported" for name in names if not EXPORTED.fullmatch(name)]
    undefined = run(["nm", "-D", "--undefined-only", library]).decode().split("\n")
    wrong += [f"{line.strip()} is not linked in" for line in undefined if "kumquatsieve" in line]
    dynamic = run(["readelf", "-d", library]).decode()
    needed = re.findall(r"\(NEEDED\).*\[(.*)\]", dynamic)
    wrong += [f"{name} is needed" for name in needed if not name.startswith(("libc.", "ld-"))]
    return wrong + ([] if "SYMBOLIC" in dynamic else ["it is not linked with -Bsymbolic"])


def check_lines(files: Sequence[Path]) -> List[str]:
    """Returns which files of an extension are too long, and whether all of them are together."""
    wrong = [f"{path} is long" for path in files if line_count(path) > FILE_MOST]
    total = sum(line_count(path) for path in files)
    return wrong + ([f"{total} lines of C"] if total > LINES_MOST else [])


def check_sizes() -> List[str]:
    return check_lines(sorted(EXTENSION.glob("src/*.[ch]")))
