"""Runs of programs over a text: their seconds and their memory."""
import math
import os
import statistics
import subprocess
import sys
import tempfile
import time
from pathlib import Path
from typing import NamedTuple, Sequence, Tuple

from compare_with_mecab.dictionaries import Command

TIME = "/usr/bin/time"
NO_TEXT = Path(os.devnull)
# The largest spread of a row that is not called uncertain.
CERTAIN = 0.1


class Run(NamedTuple):
    """One run: elapsed seconds, CPU seconds, the user's share of them, and peak memory in bytes."""

    elapsed: float
    cpu: float
    user: float
    memory: int


class Runs(NamedTuple):
    """All runs of one command.

    `least` and `median` are elapsed seconds, `cpu` and `user` the least CPU seconds, and `memory`
    the most bytes. `each` and `each_cpu` have the seconds of each run.
    """

    least: float
    median: float
    cpu: float
    user: float
    memory: int
    each: list[float]
    each_cpu: list[float]

    def spread(self) -> float:
        """Returns the range of the elapsed seconds, in parts of the least.

        It is infinite for one run, and if nothing is left after the load is subtracted.
        """
        least = min(self.each)
        return (max(self.each) - least) / least if least > 0 and len(self.each) > 1 else math.inf

    def certainty(self) -> str:
        """Returns the last column of a row."""
        return f"{self.spread():7.2f}" + (" uncertain" if self.spread() > CERTAIN else "")


def run_once(command: Command, text: Path) -> Run:
    """Runs a command over the text in a file, and discards what it prints."""
    with tempfile.NamedTemporaryFile() as report, open(text, "rb") as reading:
        words = [TIME, "-f", "%M", "-o", report.name, *map(str, command)]
        start = time.monotonic()
        process = subprocess.Popen(words, stdin=reading, stdout=subprocess.DEVNULL)
        _, status, used = os.wait4(process.pid, 0)
        elapsed = time.monotonic() - start
        process.returncode = os.waitstatus_to_exitcode(status)
        if process.returncode != 0:
            sys.exit(f"{command[0]} ended with status {process.returncode}")
        memory = int(report.read()) * 1024
        return Run(elapsed, used.ru_utime + used.ru_stime, used.ru_utime, memory)


def in_turn(commands: Sequence[Command], rounds: int, text: Path = NO_TEXT) -> list[Runs]:
    """Runs each command `rounds` times, in turn."""
    return runs_in_turn([(command, text) for command in commands], rounds)


def with_loads(
    commands: Sequence[Command], rounds: int, text: Path
) -> Tuple[list[Runs], list[Runs]]:
    """Runs each command over no text and over a text, all in turn.

    Returns the loads and the runs, so that a load is subtracted from the run of the same round.
    """
    both = [(command, read) for read in (NO_TEXT, text) for command in commands]
    found = runs_in_turn(both, rounds)
    return found[: len(commands)], found[len(commands) :]


def runs_in_turn(pairs: Sequence[Tuple[Command, Path]], rounds: int) -> list[Runs]:
    """Runs each command over its text `rounds` times, in turn."""
    rows = [[run_once(command, text) for command, text in pairs] for _ in range(rounds)]
    return [
        Runs(
            min(run.elapsed for run in runs),
            statistics.median(run.elapsed for run in runs),
            min(run.cpu for run in runs),
            min(run.user for run in runs),
            max(run.memory for run in runs),
            [run.elapsed for run in runs],
            [run.cpu for run in runs],
        )
        for runs in zip(*rows)
    ]


def without(run: Runs, load: Runs) -> Runs:
    """Subtracts from each run the load of the same round."""
    return Runs(
        run.least - load.least,
        run.median - load.median,
        run.cpu - load.cpu,
        run.user - load.user,
        run.memory,
        [whole - part for whole, part in zip(run.each, load.each)],
        [whole - part for whole, part in zip(run.each_cpu, load.each_cpu)],
    )
