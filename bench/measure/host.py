"""What else the machine does while something is measured."""
import os
import resource
import time
from pathlib import Path
from typing import NamedTuple


class Reading(NamedTuple):
    """The clocks of the machine at one moment, in seconds, and its load of the last minute.

    `own` is the CPU time of this process and its children, `busy` that of all processes, and
    `stolen` the time that other machines of the same host took.
    """

    elapsed: float
    own: float
    busy: float
    stolen: float
    load: str


def read_clocks() -> Reading:
    """Returns the clocks of the machine as they are now."""
    ticks = Path("/proc/stat").read_text().split("\n")[0].split()[1:9]
    seconds = [int(word) / os.sysconf("SC_CLK_TCK") for word in ticks]
    user, nice, system, _, _, interrupts, soft_interrupts, stolen = seconds
    used = [resource.getrusage(who) for who in (resource.RUSAGE_SELF, resource.RUSAGE_CHILDREN)]
    return Reading(
        time.monotonic(),
        sum(one.ru_utime + one.ru_stime for one in used),
        user + nice + system + interrupts + soft_interrupts,
        stolen,
        Path("/proc/loadavg").read_text().split()[0],
    )


class Host:
    """A context that prints at its end what other work the machine did meanwhile.

    `other` is the share of all processors that other work and other machines took.
    """

    def __init__(self) -> None:
        self.other = 0.0

    def __enter__(self) -> "Host":
        self.before = read_clocks()
        return self

    def __exit__(self, kind: object, *_: object) -> None:
        if kind is None:
            self.report(read_clocks())

    def report(self, after: Reading) -> None:
        before, processors = self.before, os.cpu_count() or 1
        elapsed = after.elapsed - before.elapsed
        stolen = after.stolen - before.stolen
        other = max(after.busy - before.busy - (after.own - before.own), 0)
        whole = elapsed * processors
        self.other = (other + stolen) / whole
        print(
            f"the host in {elapsed:.0f} s: load {before.load} before, {after.load} after, "
            f"of {processors} processors; other work took {other / whole:.1%} of them, "
            f"steal {stolen / whole:.1%}"
        )
