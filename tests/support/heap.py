"""A heap that counts allocations, preloaded into a program, and can make one of them fail."""
import os
import subprocess
import sys
from pathlib import Path
from typing import Mapping, NamedTuple, Optional

from .running import TOP, preloadable

# How long one test may run.
SECONDS = 60


class Counts(NamedTuple):
    """What one run asked of the heap. `blocks` were handed out, `freed` were given back."""

    allocations: int
    failed: int
    blocks: int
    freed: int

    @property
    def unfreed(self) -> int:
        return self.blocks - self.freed


class Heap:
    """The heap of counting_heap.c, built in `folder`."""

    def __init__(self, folder: Path) -> None:
        self.library = preloadable("counting_heap", folder)
        self.report = folder / "counts"

    def environment(
        self, failing: Optional[int] = None, base: Mapping[str, str] = os.environ
    ) -> dict[str, str]:
        """Returns `base` with this heap in it. Allocation number `failing`, from 1, fails."""
        self.report.unlink(missing_ok=True)
        variables = {**base, "LD_PRELOAD": str(self.library), "HEAP_REPORT": str(self.report)}
        variables.pop("FAIL_ALLOCATION", None)
        return variables if failing is None else {**variables, "FAIL_ALLOCATION": str(failing)}

    def has_counts(self) -> bool:
        """Returns whether a program has ended since `environment` was called."""
        return self.report.exists()

    def counts(self) -> Counts:
        """Returns the counts of the program that ended last."""
        words = self.report.read_text().split()
        return Counts(**dict(zip(words[::2], map(int, words[1::2]))))


class TestRun(NamedTuple):
    """One run of a test. `caught` is how often it caught that an allocation failed."""

    counts: Counts
    caught: int


class TestProgram:
    """The tests of a crate, as `rt test` or `rt ci` builds them, over a counting heap."""

    def __init__(self, folder: Path, crate: str) -> None:
        self.heap = Heap(folder)
        self.path = TOP / "crates" / crate / "out" / f"{crate}_tests"
        if not self.path.exists():
            sys.exit(f"{self.path} is missing: run `rt test` in crates/{crate} first")

    def run(
        self, test: str, failing: Optional[int] = None, unfreed: Optional[int] = None
    ) -> TestRun:
        """Runs a test, given by its full name, and checks that it ends well.

        Ends this script if the test fails, if allocation `failing` isn't reached, or if another
        number of blocks than `unfreed` isn't freed. A test prints the line `refused` on standard
        error where it catches that an allocation failed.
        """
        memory = f"allocation {failing} fails" if failing else "no allocation fails"
        done = subprocess.run(
            [self.path, test],
            env=self.heap.environment(failing),
            capture_output=True,
            text=True,
            timeout=SECONDS,
        )
        if done.returncode != 0 or not self.heap.has_counts():
            sys.exit(f"{test}, {memory}: status {done.returncode}\n{done.stdout}{done.stderr}")
        counts, caught = self.heap.counts(), done.stderr.splitlines().count("refused")
        if counts.failed != (1 if failing else 0):
            sys.exit(f"{test}, {memory}: {counts.failed} allocations failed")
        if caught > counts.failed:
            sys.exit(f"{test}, {memory}: caught {caught} times")
        if unfreed is not None and counts.unfreed != unfreed:
            sys.exit(f"{test}, {memory}: {counts.unfreed} blocks are not freed, expected {unfreed}")
        return TestRun(counts, caught)
