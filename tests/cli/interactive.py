"""Runs jseg as an editor does that keeps it running: each line is printed before the next one is
written."""
import os
import select
import subprocess
from contextlib import suppress
from pathlib import Path
from typing import IO, Iterator

PLUM, PLUMS = "もも\t名詞,もも\nEOS\n", "すもも\t名詞,すもも\nEOS\n"
# How long an output may take.
SECONDS = 20

# What is written, and what has to be printed before more is written.
TURNS = [
    ("もも\n", PLUM),
    ("すもも\nもも\n", PLUMS + PLUM),
    ("す", ""),
    ("もも\nもも", PLUMS),
    ("\n\n", PLUM + "EOS\n"),
]


def read_exactly(pipe: IO[bytes], count: int) -> bytes:
    """Reads `count` bytes of a pipe, or as many as come within SECONDS."""
    found = b""
    while len(found) < count and select.select([pipe], [], [], SECONDS)[0]:
        more = os.read(pipe.fileno(), count - len(found))
        if not more:
            break
        found += more
    return found


def interactive_failures(program: Path) -> Iterator[str]:
    """Yields what is wrong with the outputs."""
    command = f"{program.name} --sample"
    with subprocess.Popen(
        [program, "--sample"], stdin=subprocess.PIPE, stdout=subprocess.PIPE, bufsize=0
    ) as process:
        assert process.stdin and process.stdout
        for text, expected in TURNS:
            with suppress(BrokenPipeError):
                process.stdin.write(text.encode())
            found = read_exactly(process.stdout, len(expected.encode()))
            if found != expected.encode():
                yield f"{command}: after {text!r} prints {found!r}, expected {expected!r}"
        process.stdin.close()
        rest = process.stdout.read()
        if rest or process.wait(SECONDS) != 0:
            yield f"{command}: prints {rest!r} at its end, status {process.returncode}"
