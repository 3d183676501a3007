"""Measures hostile inputs beside honest ones of the same size, and checks their ratios."""
import argparse
import os
import resource
import signal
import subprocess
import sys
import tempfile
from pathlib import Path
from typing import IO, Mapping, NamedTuple, Optional, Sequence

from support.running import Words, program

# How many times the honest input's processor time a hostile one may take. Small inputs have a
# larger bound, because their times differ by half from machine to machine and from minute to
# minute. What grows faster than its input is far above both.
MOST = 3
QUICK_MOST = 6
# The first round alone decides if the hostile input takes more seconds than this and more than
# CLEARLY times its bound.
CLEAR_SECONDS, CLEARLY = 0.2, 4
# Seconds of processor time after which a run is stopped.
LONGEST = 120
# Bytes of memory of a run, unless it has its own limit.
MEMORY = 4 << 30
# Rounds of small inputs. Other work disturbs short runs most.
QUICK_ROUNDS = 10
# Options of jseg that print one letter for each word: w if it is known, and u if it is unknown.
MARKS = ["-F", "w", "-U", "u", "-E", "\\n"]


class Run(NamedTuple):
    """A command with a text as its input, and what is expected of it.

    It ends with one of `statuses`, prints `printed` unless that is None, and the last bytes on
    standard error are `error`. `memory` is the limit of its address space in bytes.
    """

    command: Words
    text: bytes = b""
    statuses: Sequence[int] = (0,)
    printed: Optional[bytes] = None
    error: bytes = b""
    memory: int = MEMORY


class Case(NamedTuple):
    """A hostile input beside an honest one.

    `size` describes both, and how they differ from the size that was meant. `seconds` bounds the
    processor time of the hostile input. Without it, the bound is a multiple of the honest one's.
    """

    name: str
    size: str
    honest: Run
    hostile: Run
    seconds: Optional[float] = None

    def bound(self, honest: float, most: int) -> float:
        """Returns the processor time in seconds that the hostile input may take."""
        return most * honest if self.seconds is None else self.seconds

    def bound_text(self, most: int) -> str:
        return f"{most} times" if self.seconds is None else f"{self.seconds} s"


class Option(NamedTuple):
    """An option that sets a size: its default, its value with --quick, and its help."""

    default: int
    quick: int
    help: str


def seconds_of(what: str, run: Run) -> float:
    """Runs a command and returns its processor time, also if it was stopped for it.

    Ends this script if the command does not end or print as expected.
    """

    def set_limits() -> None:
        resource.setrlimit(resource.RLIMIT_CPU, (LONGEST, LONGEST + 1))
        resource.setrlimit(resource.RLIMIT_AS, (run.memory, run.memory))

    words = [str(word) for word in run.command]
    with tempfile.TemporaryFile() as text, tempfile.TemporaryFile() as printed:
        with tempfile.TemporaryFile() as errors:
            text.write(run.text)
            text.seek(0)
            process = subprocess.Popen(
                words, stdin=text, stdout=printed, stderr=errors, preexec_fn=set_limits
            )
            _, wait_status, usage = os.wait4(process.pid, 0)
            process.returncode = os.waitstatus_to_exitcode(wait_status)
            if process.returncode != -signal.SIGXCPU:
                check_run(what, run, process.returncode, printed, errors)
    seconds: float = usage.ru_utime + usage.ru_stime
    return seconds


def check_run(what: str, run: Run, status: int, printed: IO[bytes], errors: IO[bytes]) -> None:
    """Ends this script if a command did not end or print as expected."""
    printed.seek(0)
    errors.seek(0)
    if status not in run.statuses:
        message = errors.read(1000).decode(errors="replace").strip()
        sys.exit(f"{what}: status {status}: {message}")
    if run.printed is not None and printed.read() != run.printed:
        sys.exit(f"{what}: prints something else than expected")
    error = errors.read()
    if not error.endswith(run.error):
        message = error[:1000].decode(errors="replace").strip()
        sys.exit(f"{what}: prints {message}, expected {run.error.decode().strip()}")


def times_of(case: Case, rounds: int, most: int) -> tuple[float, float]:
    """Returns the least times of the honest and the hostile input, which run in turn.

    One round is enough if it misses the bound clearly. If the bound is missed after all rounds,
    they are run once more, because other work may have taken the processor from one of both.
    """
    honest, hostile = float("inf"), float("inf")
    for number in range(2 * rounds):
        honest = min(honest, seconds_of(f"{case.name}, honest", case.honest))
        hostile = min(hostile, seconds_of(f"{case.name}, hostile", case.hostile))
        bound = case.bound(honest, most)
        if number == 0 and hostile > max(CLEAR_SECONDS, CLEARLY * bound):
            break
        if number + 1 >= rounds and hostile <= bound:
            break
    return honest, hostile


def error_of(case: Case, known: Mapping[str, str], most: int, rounds: int, quick: bool) -> str:
    """Measures a case, prints its line, and returns what is wrong, or "".

    It is an error to miss the bound, and also to meet it if `known` has the case. Small inputs may
    meet it, because what takes long may not show there.
    """
    honest, hostile = times_of(case, rounds, most)
    is_met = hostile <= case.bound(honest, most)
    bound = f"{case.bound_text(most)}, {'met' if is_met else 'not met'}"
    times = f"{honest:7.3f} s {hostile:7.3f} s {hostile / honest:8.2f}"
    print(f"{case.name:28} {times}  {bound:16} {case.size}", flush=True)
    if case.name in known:
        if not is_met:
            print(f"    known: {known[case.name]}")
        elif quick:
            print("    known, and met at this size")
        else:
            return f"{case.name}: meets its bound now: remove it from KNOWN"
    elif not is_met:
        honest_one = "" if case.seconds else " the honest input's time"
        return f"{case.name}: takes more than {case.bound_text(most)}{honest_one}"
    return ""


def status_of(cases: Sequence[Case], known: Mapping[str, str], options: argparse.Namespace) -> int:
    """Measures each case and returns the exit status: 1 if there is an error, and 0 otherwise.

    `known` has the names of cases that miss their bounds, with the reasons.
    """
    print(f"{'case':28} {'honest':>9} {'hostile':>9} {'ratio':>8}  {'bound':16} size")
    most = QUICK_MOST if options.quick else MOST
    names = {case.name for case in cases}
    errors = [f"KNOWN has no case {name}" for name in known if name not in names]
    errors += [error_of(case, known, most, options.rounds, options.quick) for case in cases]
    print(f"{len(cases)} cases of hostile inputs")
    errors = [error for error in errors if error]
    for error in errors:
        print(error, file=sys.stderr)
    return 1 if errors else 0


def parsed_options(
    description: Optional[str], rounds: int, programs: Sequence[str], **sizes: Option
) -> argparse.Namespace:
    """Returns the options of the command line: --rounds, --quick, programs and sizes.

    Ends this script with status 2 if one of the programs is missing.
    """
    parser = argparse.ArgumentParser(
        description=description, formatter_class=argparse.RawDescriptionHelpFormatter
    )
    parser.add_argument(
        "--rounds",
        type=int,
        metavar="N",
        help=f"the runs of each input; {rounds}, and {QUICK_ROUNDS} with --quick",
    )
    parser.add_argument(
        "--quick", action="store_true", help="small inputs, which show the ratios too"
    )
    for name in programs:
        parser.add_argument(f"--{name}", type=Path, default=program(name))
    for name, size in sizes.items():
        parser.add_argument(f"--{name}", type=int, metavar="N", help=size.help)
    options = parser.parse_args()
    options.rounds = options.rounds or (QUICK_ROUNDS if options.quick else rounds)
    for name, size in sizes.items():
        if getattr(options, name) is None:
            setattr(options, name, size.quick if options.quick else size.default)
    check_programs([getattr(options, name) for name in programs])
    return options


def check_programs(paths: Sequence[Path]) -> None:
    """Ends this script with status 2 if a program is missing."""
    missing = " and ".join(str(path) for path in paths if not path.exists())
    if missing:
        message = f"{missing} missing: run `rt run` in the crate's folder; nothing was measured"
        print(message, file=sys.stderr)
        sys.exit(2)
