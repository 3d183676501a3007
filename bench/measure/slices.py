"""Searches and whole runs in slices: a program that waits for its text gets one slice at a time."""
import fcntl
import os
import struct
import subprocess
import sys
import termios
import time
from pathlib import Path
from typing import NamedTuple, NoReturn, Sequence

from compare_with_mecab.dictionaries import Command
from measure.builds import build_commands, with_digest
from measure.compared import FORMATS, Compared
from measure.saved import note
from measure.texts import japanese

# About how many bytes a slice has, which take some hundredths of a second.
SIZE = 250_000
# How many seconds a program may take until it reads again.
TIMEOUT = 120
# How /proc/PID/syscall starts while read (0) or readv (19) waits for standard input, on x86-64.
WAITS = {("0", "0x0"), ("19", "0x0")}
# The last bits of the number of a process's CPU clock, which Linux makes of the process's number.
CPU_CLOCK = 2
COLUMNS = (
    "CPU seconds, ours and MeCab's; ratio, and by every other round, from the first and the "
    "second on"
)
# By how much the last two ratios differ in a row that is not called uncertain.
CERTAIN = 0.05


class FedProgram:
    """A program that reads standard input and whose output is discarded.

    It works only while it is fed. `load` is the CPU time until it first waits for its text.
    """

    def __init__(self, command: Command) -> None:
        self.command = list(map(str, command))
        self.process = subprocess.Popen(
            self.command, stdin=subprocess.PIPE, stdout=subprocess.DEVNULL, bufsize=0
        )
        assert self.process.stdin
        self.stdin = self.process.stdin
        self.clock = ~self.process.pid << 3 | CPU_CLOCK
        self.wait_until_it_reads()
        self.load = time.clock_gettime(self.clock)

    def feed(self, text: bytes) -> float:
        """Feeds it whole lines, and returns the CPU seconds that it takes to process them."""
        before = time.clock_gettime(self.clock)
        try:
            while text:
                text = text[self.stdin.write(text) :]
        except BrokenPipeError:
            self.fail()
        self.wait_until_it_reads()
        return time.clock_gettime(self.clock) - before

    def wait_until_it_reads(self) -> None:
        """Waits until it has read all that it was fed, and waits for more."""
        end = time.monotonic() + TIMEOUT
        while not self.waits():
            if time.monotonic() > end or self.process.poll() is not None:
                self.fail()
            time.sleep(0.001)

    def waits(self) -> bool:
        unread = struct.unpack("i", fcntl.ioctl(self.stdin, termios.FIONREAD, bytes(4)))[0]
        if unread:
            return False
        return tuple(Path(f"/proc/{self.process.pid}/syscall").read_text().split()[:2]) in WAITS

    def fail(self) -> NoReturn:
        sys.exit(f"{self.command[0]} does not read on")

    def end(self) -> float:
        """Ends its input, and returns the CPU seconds that it takes to end."""
        before = time.clock_gettime(self.clock)
        self.stdin.close()
        _, status, used = os.wait4(self.process.pid, 0)
        self.process.returncode = os.waitstatus_to_exitcode(status)
        if self.process.returncode != 0:
            sys.exit(f"{self.command[0]} ended with status {self.process.returncode}")
        return float(used.ru_utime + used.ru_stime - before)


class Rounds(NamedTuple):
    """The CPU seconds of a program in each round, for each of some parts of its run."""

    rounds: list[list[float]]

    def least(self, rounds: slice = slice(None)) -> float:
        """Returns the sum of all parts, each in the round in which it took the least."""
        return sum(map(min, zip(*self.rounds[rounds])))

    def ratios_to(self, theirs: "Rounds") -> list[float]:
        """Returns the ratios by all rounds, and by every other one from the first and second on."""
        return [
            self.least(rounds) / theirs.least(rounds)
            for rounds in (slice(None), slice(0, None, 2), slice(1, None, 2))
        ]

    def search(self) -> "Rounds":
        """Returns the parts of a whole run without the first, the load, and the last, the end."""
        return Rounds([parts[1:-1] for parts in self.rounds])


def runs_in_slices(commands: Sequence[Command], rounds: int, text: bytes) -> list[Rounds]:
    """Measures whole runs: the load, each slice of the text, and the end.

    In each round each command is started once, and another one comes first.
    """
    slices = slices_of(text)
    found: list[list[list[float]]] = [[] for _ in commands]
    for first in range(rounds):
        for number in range(len(commands)):
            turn = (first + number) % len(commands)
            found[turn].append(parts_of_run(commands[turn], slices))
    return [Rounds(parts) for parts in found]


def parts_of_run(command: Command, slices: Sequence[bytes]) -> list[float]:
    fed = FedProgram(command)
    return [fed.load, *(fed.feed(piece) for piece in slices), fed.end()]


def slices_of(text: bytes, size: int = SIZE) -> list[bytes]:
    """Splits a text into pieces of about `size` bytes, each of whole lines."""
    slices = []
    while text:
        end = text.find(b"\n", size - 1) + 1 or len(text)
        slices.append(text[:end])
        text = text[end:]
    return slices


def measure_slices(compared: Compared) -> None:
    """Measures the search and whole runs of each build of jseg, in turn with mecab."""
    text = japanese(compared.options.bytes)
    for label, words in FORMATS.items():
        commands = build_commands(compared, words)
        tested = with_digest(commands)
        print(f"\n{compared.name}, {label}, in slices: {COLUMNS}")
        both = [*tested.values(), *commands.values()]
        found = runs_in_slices(both, compared.options.rounds, text)
        whole, (*skipped, theirs) = found[: len(tested)], found[len(tested) :]
        for name, one, skips in zip(tested, whole, skipped):
            print_slices(f"search, {name}", skips.search(), theirs.search())
            note_search(f"search, {label}", compared.name, name, skips.search(), theirs.search())
            print_slices(f"whole run, {name}", one, theirs)
            print_slices("the same, --skip-digest", skips, theirs)


def is_certain(ratios: Sequence[float]) -> bool:
    """Returns whether the ratios of the odd and of the even rounds differ little."""
    return max(ratios[1:]) <= min(ratios[1:]) * (1 + CERTAIN)


def print_slices(label: str, ours: Rounds, theirs: Rounds) -> None:
    """Prints a row with the columns COLUMNS."""
    ratios = ours.ratios_to(theirs)
    certain = is_certain(ratios)
    numbers = " ".join(f"{ratio:6.3f}" for ratio in ratios)
    seconds = f"{ours.least():9.3f} {theirs.least():9.3f}"
    print(f"{label:26} {seconds} {numbers} {'' if certain else ' uncertain'}")


def note_search(what: str, dictionary: str, name: str, ours: Rounds, theirs: Rounds) -> None:
    """Keeps the seconds of a search for the charts, and whether their ratio is uncertain."""
    ratios = ours.ratios_to(theirs)
    uncertain = {} if is_certain(ratios) else {"uncertain": 1}
    note(what, dictionary, name, seconds=ours.least(), ratio=ratios[0], **uncertain)
    note(what, dictionary, "mecab", seconds=theirs.least())
