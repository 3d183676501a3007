"""The cases of jseg that pjseg has to meet too, as command lines of pjseg."""
from typing import List, Union

from .cases import CASES
from .cases.case import Case, Has, RecordOf

PJSEG = "pjseg"
# Options that pjseg doesn't have.
JSEG_ONLY = {"--help", "--lattice", "--within", "--why"}


def renamed(text: str) -> str:
    """Returns a text with the name of pjseg, except in the hint that jseg explains a code."""
    return text.replace("jseg", PJSEG).replace(f"'{PJSEG} --explain", "'jseg --explain")


def of_pjseg(case: Case, threads: int) -> Case:
    """Returns a case of jseg as one of pjseg, which tests checksums as jseg does."""
    options = set(case.command.split())
    command = case.command
    if not {"-d", "-u"} & options:
        command = command.replace("--sample", "-d sys.img")
    tested = "" if "--skip-digest" in options else " --test-digest"
    command = renamed(command).replace(PJSEG, f"{PJSEG} -j {threads}{tested}", 1)
    err: Union[str, Has] = case.err
    if isinstance(err, Has):
        err = err.changed(renamed)
    return case._replace(name=f"{case.name}, {threads} threads", command=command, err=err)


def is_shared(case: Case) -> bool:
    """Returns whether pjseg has to meet a case: one over an image or the sample.

    jseg alone has explanations, hints that name its other options, the progress of a load, and
    records instead of the checksum.
    """
    options, expected = set(case.command.split()), str(case.err)
    return (
        case.command.startswith("jseg ")
        and bool({"-d", "--sample"} & options)
        and not JSEG_ONLY & options
        and not any(option in expected for option in JSEG_ONLY)
        and "comes slowly, on a terminal" not in case.name
        and not any(isinstance(found, RecordOf) for found in case.files.values())
    )


def pjseg_cases() -> List[Case]:
    shared = [case for case in CASES if is_shared(case)]
    return [of_pjseg(case, threads) for threads in (1, 3) for case in shared]
