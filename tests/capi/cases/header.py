"""Compares the header with the library: its calls, its version and its error codes."""
import ctypes
import re
import sys
from typing import Iterator

from capi.cases.library import Library, report
from support.running import TOP, program, run

HEADER = TOP / "capi" / "include" / "kumquatsieve.h"
SHARED = TOP / "crates" / "messages" / "src" / "shared.rt"
# The code of an allocation failure, whose text has no letter and number.
MEMORY = 1
MOST_LINES = 300


def only_match(pattern: str, text: str) -> str:
    """Returns the first group of a pattern that the text has."""
    found = re.search(pattern, text)
    if not found:
        sys.exit(f"library: nothing matches {pattern}")
    return found.group(1)


def declared() -> list[str]:
    """Returns the calls that the header declares."""
    types = r"(?:uint32_t |void |const char \*|kumquatsieve_dictionary \*)"
    return sorted(re.findall(rf"^{types}(kumquatsieve_\w+)\(", HEADER.read_text(), re.MULTILINE))


def check_exports(library: Library) -> None:
    """The shared library and the archive define the calls of the header, and nothing else."""
    for what, names in (("exports", library.exports()), ("archive", library.archived())):
        if names != declared():
            sys.exit(f"library: {what} {names}, and the header declares {declared()}")


def check_version() -> None:
    """The header's version is the programs' version."""
    header = HEADER.read_text()
    text = only_match(r'#define KUMQUATSIEVE_VERSION "([0-9.]+)"', header)
    number = int(only_match("#define KUMQUATSIEVE_VERSION_NUMBER ([0-9]+)", header))
    version = only_match(r'VERSION: &str = "([0-9.]+)', SHARED.read_text())
    first, second, third = map(int, version.split("."))
    if text != version or number != 10_000 * first + 100 * second + third:
        sys.exit(f"library: the header's version is {text}, {number}; the programs have {version}")


def library_codes(library: Library) -> Iterator[tuple[int, str]]:
    """Returns each code of two bytes that the library explains, with the first line of that."""
    explain = ctypes.CDLL(str(library.shared)).kumquatsieve_explain
    explain.restype = ctypes.c_char_p
    for code in range(2**16):
        text = explain(ctypes.c_uint32(code))
        if text:
            yield code, text.decode().split("\n")[0]


def header_codes() -> dict[int, str]:
    """Returns the codes of the header with their texts, such as 0x4c01: `L1 Truncated`.

    The letter and the number are the comment of a constant, and the name is the constant's.
    """
    pattern = r"KUMQUATSIEVE_([A-Z0-9_]+) = (0x[0-9a-f]{4}|1)\b,? +/\* ([A-Z][0-9]+\b)?"
    codes = {}
    for name, number, letter in re.findall(pattern, HEADER.read_text()):
        if name == "SKIP_DIGEST":
            continue
        words = "".join(word.capitalize() for word in name.split("_"))
        codes[int(number, 0)] = f"{letter} {words}".strip()
    return codes


def check_codes(library: Library) -> None:
    """The header has each code that the library explains and no other, named as jseg names it."""
    named, texts = header_codes(), dict(library_codes(library))
    for code in sorted(named.keys() | texts.keys()):
        if named.get(code) != texts.get(code):
            sys.exit(
                f"library: code {code:#06x} is {named.get(code)} in the header, "
                f"and {texts.get(code)} in the library"
            )
        if code != MEMORY and texts[code].split()[0] != f"{chr(code >> 8)}{code & 0xff}":
            sys.exit(f"library: code {code:#06x} is not the code of {texts[code]}")
        letter = texts[code].split()[0]
        heading = run([program("jseg"), "--explain", letter]).decode().split("\n")[0]
        if heading != texts[code]:
            sys.exit(f"library: {texts[code]} is {heading} in jseg")
    report(f"{len(texts)} codes: the header and jseg name them as the library does")


def check_page() -> None:
    """The header is a page of at most 300 lines, with a comment before each call."""
    lines = HEADER.read_text().splitlines()
    if len(lines) > MOST_LINES:
        sys.exit(f"library: the header has {len(lines)} lines")
    for call in declared():
        number = next(i for i, line in enumerate(lines) if f"{call}(" in line and line[0] != " ")
        if not lines[number - 1].endswith("*/"):
            sys.exit(f"library: {call} has no comment")
