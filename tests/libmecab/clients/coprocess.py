"""Writes lines to the program mecab, each after the output for the one before: coprocess.py

Then it closes the pipe and prints what came. It is an error if an output takes ten seconds.
"""
import os
import select
import subprocess
import sys
from typing import IO, Optional

LINES = ["すもももももももものうち", "", "東京都に住む", "a b"]
SECONDS = 10


def read_result(pipe: IO[bytes]) -> Optional[bytes]:
    """Returns what comes until EOS, or None if it takes too long or the pipe is closed."""
    text = b""
    while not text.endswith(b"EOS\n"):
        if not select.select([pipe], [], [], SECONDS)[0]:
            return None
        piece = os.read(pipe.fileno(), 65536)
        if not piece:
            return None
        text += piece
    return text


def main() -> None:
    mecab = subprocess.Popen(["mecab"], stdin=subprocess.PIPE, stdout=subprocess.PIPE)
    assert mecab.stdin and mecab.stdout
    for line in LINES:
        mecab.stdin.write(line.encode() + b"\n")
        mecab.stdin.flush()
        text = read_result(mecab.stdout)
        if text is None:
            mecab.kill()
            sys.exit(f"no response to {line!r}")
        sys.stdout.buffer.write(text)
    mecab.stdin.write("終わり".encode())
    mecab.stdin.close()
    sys.stdout.buffer.write(mecab.stdout.read())
    print("status", mecab.wait())


main()
