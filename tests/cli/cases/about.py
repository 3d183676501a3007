"""`--version` and `--explain`: what the programs print about themselves and their errors."""
from typing import Iterator, Sequence, Tuple

from .case import Case, Has
from .error_codes import LIBRARY_CODES, program_codes

VERSION = "0.1.0\nimage layouts read: 1, 2, 3; written: 3\n"
PROGRAMS = "dictc", "jseg"


def explain_commands(program: str) -> Iterator[Tuple[str, str, Sequence[str]]]:
    """Yields a command, how its output starts, and what it contains.

    The commands have codes in lower case, names, names of several errors, and no code at all.
    """
    yield f"{program} --explain g3", "G3 NotUtf8\nMeaning: ", ()
    yield f"{program} --explain l4", "L4 BadSection\nMeaning: ", ()
    yield f"{program} --explain k7", "K7 ShortBuffer\nMeaning: ", ()
    yield f"{program} --explain=Memory", "Memory\nMeaning: ", ()
    yield f"{program} --explain BADSECTION", "L4 BadSection\nMeaning: ", ()
    yield f"{program} --explain nosuchcategory", "C4 NoSuchCategory\nMeaning: ", (
        "\n\nU1 NoSuchCategory\nMeaning: ",
    )
    yield f"{program} --explain notutf8", "S1 NotUtf8\nMeaning: ", ()
    yield f"{program} --explain NotUtf8", "S1 NotUtf8\nMeaning: ", ("\n\nG3 NotUtf8\nMeaning: ",)
    yield f"{program} --explain", "", (
        "\nL4 BadSection\n",
        "\nG3 NotUtf8\nG4 TooLong\n",
        *(f"{code}\n" for code in sorted(program_codes())),
        *(f"{code}\n" for code in LIBRARY_CODES),
    )


def explained(code: str) -> Iterator[Case]:
    """Yields the runs of both programs that explain a code."""
    for program in PROGRAMS:
        command = f"{program} --explain {code.split()[0]}"
        out = Has(f"{code}\nMeaning: ", ("\nUsual cause: ", "\nWhat to do: "))
        yield Case(command, command, out=out)


CASES = [
    *(
        Case(f"{name} {option}", f"{name} {option}", out=f"{name} {VERSION}")
        for name in PROGRAMS
        for option in ("--version", "-V")
    ),
    *(run for code in sorted(program_codes()) for run in explained(code)),
    *(run for code in LIBRARY_CODES for run in explained(code)),
    *(
        Case(command, command, out=Has(start, words))
        for program in PROGRAMS
        for command, start, words in explain_commands(program)
    ),
    *(
        Case(
            f"{program} --explain X9",
            f"{program} --explain X9",
            err=Has(f"{program}: no error has the code or name 'X9'"),
            status=2,
        )
        for program in PROGRAMS
    ),
]
