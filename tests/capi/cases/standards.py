"""Checks that C and C++ compile the installed header, and calls of it, without a warning."""
import shutil

from capi.cases.library import Library, report
from support.running import run

FLAGS = ["-Wall", "-Wextra", "-Wpedantic", "-Werror", "-fsyntax-only"]
# The language and the compilers for each standard.
STANDARDS = {
    "c99": ("c", ("gcc", "clang")),
    "c11": ("c", ("gcc", "clang")),
    "c++17": ("c++", ("g++", "clang++")),
}
SOURCE = b"""#include <kumquatsieve.h>
int main(void) {
    kumquatsieve_dictionary *dictionary = NULL;
    kumquatsieve_segmenter segmenter = KUMQUATSIEVE_EMPTY;
    kumquatsieve_error error;
    uint32_t flags = KUMQUATSIEVE_TEST_DIGEST | KUMQUATSIEVE_COPY;
    uint32_t code = kumquatsieve_dictionary_open(&dictionary, "x", NULL, 0, flags, &error);
    kumquatsieve_segmenter_close(&segmenter);
    return code == KUMQUATSIEVE_OK && kumquatsieve_shrink(&segmenter, NULL) == error.code;
}
"""


def check_standards(library: Library) -> list[str]:
    """Compiles the header by each standard. Returns what could not be tested here."""
    missing = []
    for standard, (language, compilers) in STANDARDS.items():
        for compiler in compilers:
            if shutil.which(compiler) is None:
                missing.append(f"the header in {standard} by {compiler}")
                continue
            include = f"-I{library.prefix / 'include'}"
            run([compiler, f"-std={standard}", *FLAGS, include, "-x", language, "-"], SOURCE)
            report(f"the header compiles as {standard} by {compiler} without a warning")
    return missing
