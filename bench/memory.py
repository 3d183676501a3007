"""The memory of Python processes that load an image: at the peak, and after the load.

A row has the MB (1,000,000 bytes) of a process: the most that it had at once (VmHWM of
/proc/PID/status); the most that only it can have and that the system can't drop (RssAnon, read over
and over); and what it has after the load (Pss of /proc/PID/smaps_rollup, in which a page that n
processes share counts as 1/n). The pages of a mapped file count in the first and not in the second:
the system drops them if it needs memory, and all processes share them. The last rows have the sum
of the Pss of two processes: two that load the image each by itself, and one with its own child.

The most of --rounds runs counts. The module is in the folder that KUMQUATSIEVE_MODULE names.
Without the variable it is built from crates/capi/out/libcapi.a, which needs gcc and python3-dev. If
that is missing the status is 77, and nothing was measured.
"""
import argparse
import os
import re
import subprocess
import sys
import tempfile
import time
from pathlib import Path
from typing import Tuple

from measure.python_module import use_module
from measure.rows import MB
from support.running import TOP

CLIENT = TOP / "bench" / "clients" / "memory.py"
# How many seconds lie between two reads of RssAnon.
INTERVAL = 0.002
# What a process loads, as the client names it.
LOADS = ["nothing", "bytes", "path", "path, test_digest"]
FORKED = "forked"


def memory_of(pid: int, name: str, field: str) -> int:
    """Returns the bytes that a field of a file in /proc/PID has, and 0 if the process has ended."""
    try:
        text = Path("/proc", str(pid), name).read_text()
    except OSError:
        return 0
    found = re.search(rf"^{field}:\s+(\d+) kB$", text, re.M)
    return int(found[1]) * 1024 if found else 0


class Process:
    """A process that has loaded an image, with its children.

    `peak` and `own` are the bytes that it had at most: all, and those that only it can have.
    """

    def __init__(self, load: str, image: Path) -> None:
        words = [sys.executable, str(CLIENT), load, str(image)]
        self.process = subprocess.Popen(words, stdin=subprocess.PIPE, stdout=subprocess.PIPE)
        assert self.process.stdin and self.process.stdout
        self.stdin, self.stdout = self.process.stdin, self.process.stdout
        self.own = 0
        self.pids: list[int] = []
        os.set_blocking(self.stdout.fileno(), False)
        while len(self.pids) < (2 if load == FORKED else 1):
            self.read()
        self.peak = memory_of(self.process.pid, "status", "VmHWM")

    def read(self) -> None:
        """Reads its memory once, and the numbers of the processes that have loaded the image."""
        if self.process.poll() is not None:
            sys.exit(f"bench/run memory: the process ended with status {self.process.returncode}")
        self.own = max(self.own, memory_of(self.process.pid, "status", "RssAnon"))
        self.pids += map(int, (self.stdout.read() or b"").split())
        time.sleep(INTERVAL)

    def __enter__(self) -> "Process":
        return self

    def __exit__(self, *_: object) -> None:
        self.stdin.close()
        self.stdout.close()
        self.process.wait()


def shared_by(*processes: Process) -> int:
    """Returns the bytes of all processes together. A page that they share counts once."""
    pids = [pid for process in processes for pid in process.pids]
    return sum(memory_of(pid, "smaps_rollup", "Pss") for pid in pids)


def memory_alone(load: str, image: Path) -> Tuple[int, int, int]:
    """Returns the peak of a process, what only it can have, and what it has after the load."""
    with Process(load, image) as process:
        return process.peak, process.own, shared_by(process)


def add_options(parser: argparse.ArgumentParser) -> None:
    parser.add_argument("--rounds", type=int, default=3, metavar="N")
    parser.add_argument("image", type=Path, metavar="IMG")


def run(options: argparse.Namespace) -> int:
    image: Path = options.image
    with tempfile.TemporaryDirectory() as folder:
        use_module(Path(folder))
        print(f"the image has {image.stat().st_size / MB:.1f} MB")
        print("| image given as | peak | its own | after the load |\n|---|---|---|---|")
        for load in LOADS:
            runs = [memory_alone(load, image) for _ in range(options.rounds)]
            print(f"| {load} | {' | '.join(f'{max(row) / MB:.1f}' for row in zip(*runs))} |")
        with Process("path", image) as one, Process("path", image) as other:
            both = shared_by(one, other) / MB
        print(f"two processes that load it by its path: {both:.1f} MB in all")
        with Process(FORKED, image) as process:
            both = shared_by(process) / MB
        print(f"one that loads it, and a child of its own: {both:.1f} MB in all")
    return 0
