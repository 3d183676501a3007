"""Programs as in MeCab's documents, in C and C++.

What prints the best path prints the same over both libraries. What prints several paths is rejected
over ours, with an error that names N-best.
"""
import subprocess

from libmecab.checks.common import fail
from libmecab.checks.context import Context

SOURCES = ("example.c", "example.cc")
# The number of paths that each part of the programs prints.
PARTS = {"tagger": 1, "lattice": 1, "tagger-nbest": 3, "lattice-nbest": 3}
REJECTED = "refused: N-best is not supported by libmecab over Kumquatsieve\n"


def is_right(paths: int, is_ours: bool, status: int, printed: str) -> bool:
    """Returns whether a part ends as it should. Of several paths ours prints one at most."""
    if not is_ours or paths == 1:
        return status == 0 and "refused" not in printed
    return status == 1 and printed.endswith(REJECTED) and printed.count("EOS\n") == 1


def example_output(context: Context) -> bytes:
    """Returns what the parts with one path print."""
    outputs = []
    for source in SOURCES:
        program = context.client(source)
        for part, paths in PARTS.items():
            done = subprocess.run(
                [program, context.dictionary, part],
                stdout=subprocess.PIPE,
                stderr=subprocess.STDOUT,
                env=context.environment,
            )
            if not is_right(paths, context.is_ours, done.returncode, done.stdout.decode()):
                fail(f"{source} {part}: status {done.returncode}, {done.stdout.decode()}")
            outputs += [done.stdout] if paths == 1 else []
    return b"".join(outputs)
