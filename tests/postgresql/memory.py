"""What memory a process of the server takes, as its own query reads it."""
import re
from typing import Iterator

from postgresql.behavior import QUERY, VECTOR, Images, expect
from postgresql.server import Server

MEMORY = """SELECT substring(pg_read_file('/proc/self/status') FROM '{}:\\s+(\\d+)')"""
# How much anonymous memory a process may have after a line of 1 MiB, in KiB.
MEMORY_MOST = 40_000
# A line of 1 MiB, and how much more address space there is when it is too little, in bytes.
LINE = "left(repeat('すもももももももものうち。', 40000), 349000)"
ROOM = 60_000_000
# How much the peak may grow for each byte of a text. to_tsvector takes 5.
BYTES_MOST = 8


def memory_after_long_lines(server: Server, _: Images) -> Iterator[str]:
    """A line of 1 MiB leaves no memory in the process, also if its query is cancelled."""
    parsed = f"SELECT length(to_tsvector('japanese', {LINE}))"
    stopped = "SET statement_timeout = '500ms'; SELECT to_tsvector('japanese', "
    stopped += "repeat('すもももももももものうち。', 500000))"
    for what, text in (("parsed", parsed), ("cancelled", stopped)):
        found = server.psql(
            f"{QUERY}; {text};\nRESET statement_timeout; {MEMORY.format('RssAnon')}",
            "-v",
            "ON_ERROR_STOP=0",
        )
        if ("canceling statement" in found.stderr) != (what == "cancelled"):
            yield f"{what}: {found.stderr}"
        memory = int(found.stdout.split()[-1])
        if memory > MEMORY_MOST:
            yield f"a long line that is {what} leaves {memory} KiB"


def memory_that_runs_out(server: Server, _: Images) -> Iterator[str]:
    """A line for which memory runs out is an error, and leaves none in the process.

    A backend without a server has a limit. The server is stopped meanwhile.
    """
    size, anonymous = MEMORY.format("VmSize"), MEMORY.format("RssAnon")
    queries = [QUERY, f"SELECT to_tsvector('japanese', {LINE})", QUERY, anonymous]
    server.stop()
    first = server.single(f"{QUERY};\n\n{size};\n\n", ["env"]).stdout
    limit = 1024 * int(re.findall(r'"(\d+)"', first)[-1]) + ROOM
    found = server.single("".join(f"{one};\n\n" for one in queries), ["prlimit", f"--as={limit}"])
    server.start()
    yield from expect("a limit", found.stderr, "out of memory", "HINT:  Raise the limit")
    if found.stdout.count(f'"{VECTOR}"') != 2:
        yield f"a limit: {found.stdout}"
    memory = int(re.findall(r'"(\d+)"', found.stdout)[-1])
    if memory > MEMORY_MOST:
        yield f"a line for which memory runs out leaves {memory} KiB"


def memory_of_dropped_words(server: Server, _: Images) -> Iterator[str]:
    """Dropped words use no memory besides what to_tsvector allocates for a text."""
    line, count = "するするする\\n", 200_000
    peaks = []
    for times in (1, count):
        text = f"SELECT length(to_tsvector('japanese', repeat(E'{line}', {times})))"
        found = server.sql(f"{QUERY}; {text}; {MEMORY.format('VmHWM')}")
        peaks.append(int(found.split()[-1]))
    grown = (peaks[1] - peaks[0]) * 1024 / (count * len(line.encode()))
    if grown > BYTES_MOST:
        yield f"{grown:.1f} bytes for each byte of a text whose words are dropped"


CASES = (memory_after_long_lines, memory_that_runs_out, memory_of_dropped_words)
