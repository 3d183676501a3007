"""Rows that compare runs of ours with runs of MeCab's."""
import math
import statistics

from measure.runs import Runs

MB = 1_000_000
# The columns of `print_times` and of `print_ways`.
TIMES = (
    "seconds, least, median and of the CPU; ours, then MeCab's; ratios, and in each round; spread"
)
WAYS = (
    "seconds, least, median, of the CPU and of the user; ours, then {theirs}; "
    "ratios of all but the median, and in each round; spread"
)


def ratio_of_rounds(ours: Runs, theirs: Runs) -> float:
    """Returns the median of the ratios of each round, in CPU seconds."""
    ratios = [our / their for our, their in zip(ours.each_cpu, theirs.each_cpu) if their > 0]
    return statistics.median(ratios or [math.inf])


def print_times(label: str, ours: Runs, theirs: Runs) -> None:
    """Prints a row with the columns TIMES."""
    numbers = " ".join(
        f"{run.least:9.3f} {run.median:9.3f} {run.cpu:9.3f}" for run in (ours, theirs)
    )
    ratios = f"{ours.least / theirs.least:6.2f} {ours.cpu / theirs.cpu:6.2f}"
    print(
        f"{label:26} {numbers} {ratios} {ratio_of_rounds(ours, theirs):6.2f} {theirs.certainty()}"
    )


def print_ways(label: str, ours: Runs, theirs: Runs) -> None:
    """Prints a row with the columns WAYS."""
    numbers = " ".join(
        f"{run.least:9.3f} {run.median:9.3f} {run.cpu:9.3f} {run.user:9.3f}"
        for run in (ours, theirs)
    )
    pairs = (ours.least, theirs.least), (ours.cpu, theirs.cpu), (ours.user, theirs.user)
    ratios = " ".join(f"{one / other:6.2f}" for one, other in pairs)
    print(
        f"{label:26} {numbers} {ratios} {ratio_of_rounds(ours, theirs):6.2f} {theirs.certainty()}"
    )


def print_memory(label: str, ours: Runs, theirs: Runs, note: str = "") -> None:
    """Prints the peak memory of both, in MB, and their ratio."""
    ratio = ours.memory / theirs.memory
    print(
        f"{label:26} {ours.memory / MB:9.1f} {'':19} {theirs.memory / MB:9.1f} {'MB':>19} "
        f"{ratio:6.2f} {note}"
    )


def print_own(label: str, run: Runs) -> None:
    """Prints a row of ours alone: seconds, least, median and of the CPU, and MB of memory."""
    numbers = f"{run.least:9.3f} {run.median:9.3f} {run.cpu:9.3f} {run.memory / MB:9.1f}"
    print(f"{label:26} {numbers} MB {run.certainty()}")
