"""The extension as packaging/build-sqlite builds it, the test programs, and the images."""
import os
import sys
from pathlib import Path
from typing import NamedTuple, Sequence, Union

from postgresql.builds import check_lines
from sqlite.cases.database import load_sqlite
from support.running import SAMPLE, TOP, missing_of, program, run

C = Path(__file__).resolve().parents[1] / "c"
EXTENSION = TOP / "integrations" / "sqlite"
SOURCES = sorted(EXTENSION.glob("*.c"))
FLAGS = ["-std=gnu11", "-O1", "-g", "-Wall", "-Wextra", "-Werror"]
COMPILERS = ("gcc", "clang")
HEADERS = {"libsqlite3-dev": "sqlite3ext.h", "libutf8proc-dev": "utf8proc.h"}
# A lexicon with forms of a verb, a quoted comma, and a symbol, and the names of its fields.
LEXICON = """\
走る,1,1,10,動詞,自立,走る
走っ,1,1,10,動詞,自立,走る
た,1,1,10,助動詞,*,た
犬,1,1,10,名詞,一般,犬
ＤＯＧ,1,1,10,名詞,一般,dog
は,1,1,10,助詞,係助詞,は
。,1,1,10,記号,句点,。
、,1,1,10,"記号,読点",*,*
"""
NAMES = "pos1\npos2\nbase_form\n"
# A user dictionary for it.
USER_LEXICON = "犬は走る,1,1,-9000,名詞,固有名詞,犬は走る\n"


class Images(NamedTuple):
    """The images of LEXICON, of USER_LEXICON, and of the sample, which has no names of fields.

    The image directories have images with the names a, b and c.
    """

    system: Path
    user: Path
    sample: Path
    directories: Sequence[Path]


def missing_packages() -> list[str]:
    """Returns what has to be installed before anything can be built and loaded."""
    missing = missing_of(["gcc", "sqlite3"])
    missing += [
        name for name, header in HEADERS.items() if not Path("/usr/include", header).exists()
    ]
    return missing + ([] if load_sqlite() else ["libsqlite3-0"])


def report(text: str) -> None:
    """Prints what a check found."""
    print(f"sqlite: {text}", flush=True)


def expect(what: str, wanted: object, found: object) -> None:
    """Ends this script if a result is another one."""
    if wanted != found:
        sys.exit(f"sqlite: {what}: {found!r}, expected {wanted!r}")


def installed(folder: Path, built: bool, flags: str = "") -> Path:
    """Installs the library, for which flags replace those of gcc, and returns the prefix."""
    prefix = folder / "prefix"
    variables = {**os.environ, "CFLAGS": flags, "STRIP": ":"} if flags else None
    options = ["--built"] if built else []
    run([TOP / "packaging/build-library", *options, prefix], env=variables)
    return prefix


def extension_in(prefix: Path) -> Path:
    """Installs the extension, and returns its path."""
    run([TOP / "packaging/build-sqlite", prefix])
    return prefix / "lib" / "sqlite3" / "kumquatsieve.so"


def check_exports(extension: Path) -> None:
    """The extension exports one call, and needs the C library and utf8proc alone."""
    lines = run(["nm", "-D", "--defined-only", extension]).decode().splitlines()
    expect("exports", ["sqlite3_kumquatsieve_init"], [line.split()[-1] for line in lines])
    read = run(["readelf", "-d", extension]).decode().splitlines()
    needed = sorted(line.split("[")[1] for line in read if "(NEEDED)" in line)
    expect("libraries", ["libc.so.6]", "libutf8proc.so.2]"], needed)


def check_compilers(prefix: Path) -> list[str]:
    """Compiles each file with each compiler, which reports nothing. Returns what is missing."""
    missing = missing_of(COMPILERS)
    expect("sizes", [], check_lines([*SOURCES, *EXTENSION.glob("*.h")]))
    for compiler in {*COMPILERS} - {*missing}:
        for source in SOURCES:
            command: list[Union[str, Path]] = [compiler, *FLAGS, "-Wpedantic", "-fsyntax-only"]
            run([*command, f"-I{prefix / 'include'}", source])
    report(f"{len(SOURCES)} files: no warning of {len(COMPILERS) - len(missing)} compilers")
    return [f"{compiler} missing" for compiler in missing]


def static_program(name: str, prefix: Path, flags: Sequence[str] = ()) -> Path:
    """Compiles a program of c/ with the extension and the library in it, and returns its path."""
    path = prefix / f"{name}_static"
    command: list[Union[str, Path]] = ["gcc", *FLAGS, *flags, "-DSQLITE_CORE"]
    command += [f"-I{prefix / 'include'}", C / f"{name}.c", *SOURCES]
    run(
        [
            *command,
            prefix / "lib/libkumquatsieve.a",
            "-lsqlite3",
            "-lutf8proc",
            "-pthread",
            "-o",
            path,
        ]
    )
    return path


def loading_program(folder: Path) -> Path:
    """Compiles c/statements.c, which loads the extension, and returns its path."""
    path = folder / "statements"
    run(["gcc", *FLAGS, C / "statements.c", "-lsqlite3", "-o", path])
    return path


def compiled(lexicon: str, name: str, folder: Path) -> Path:
    """Compiles a lexicon with the other files of the sample, and returns the path of the image."""
    source, image = folder / f"{name}.csv", folder / f"{name}.img"
    source.write_text(lexicon)
    command: list[Union[str, Path]] = [program("dictc"), "system", "--out", image]
    for part in ("matrix", "char", "unk"):
        command += [f"--{part}", SAMPLE / f"{part}.def"]
    run([*command, source])
    return image


def image_directories(folder: Path) -> list[Path]:
    """Creates the image directories that the extension searches, with an image in each."""
    os.environ["XDG_DATA_HOME"] = str(folder / "data")
    parents = (folder / "data", folder / "prefix" / "var" / "lib", folder / "prefix" / "share")
    directories = [parent / "kumquatsieve" for parent in parents]
    for directory, name in zip(directories, "cab"):
        directory.mkdir(parents=True, exist_ok=True)
        (directory / f"{name}.img").touch()
    return directories


def small_images(folder: Path) -> Images:
    """Compiles the images, and creates the image directories."""
    system = compiled(LEXICON, "small", folder)
    checksum = system.read_bytes()[-32:].hex()
    system.with_suffix(".fields").write_text(f"; image-sha256 {checksum}\n{NAMES}")
    lexicon, user = folder / "user.csv", folder / "user.img"
    lexicon.write_text(USER_LEXICON)
    run([program("dictc"), "user", "--dic", system, "--out", user, lexicon])
    sample = compiled((SAMPLE / "lexicon.csv").read_text(), "sample", folder)
    return Images(system, user, sample, image_directories(folder))
