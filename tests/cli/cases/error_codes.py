"""The error codes of the programs."""
import re

from support.running import TOP

SOURCES = TOP / "crates" / "mj_model" / "src"

# The codes of the C library's calls, which no program reports.
LIBRARY_CODES = (
    "K1 LineFeed",
    "K2 NothingSegmented",
    "K3 Shared",
    "K4 BadGrouping",
    "K5 EmptySegmenter",
    "K6 FullSegmenter",
    "K7 ShortBuffer",
    "K8 NoWord",
    "K9 BadArgument",
    "K10 NoField",
)


def program_codes() -> set[str]:
    """Returns the code and name of each error that the programs report."""
    found = {"F1 File", "F2 Output"}
    for path in SOURCES.glob("*.rt"):
        pairs = re.findall(r'\("([A-Z]\d)", "(\w+)"\)', path.read_text())
        found |= {" ".join(pair) for pair in pairs}
    return found | {"Memory"}
