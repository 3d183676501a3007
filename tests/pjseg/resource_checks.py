"""Checks of pjseg's memory and threads: bounds, allocations that fail, valgrind, and races."""
import os
import subprocess

from support.running import Words, run

from .cases import long_outputs
from .cases.command_lines import NAME
from .checks import report
from .setup import SECONDS, Setup, fail

VALGRIND = ["valgrind", "-q", "--leak-check=full", "--show-leak-kinds=all", "--error-exitcode=9"]


def lines_within(text: bytes, size: int) -> bytes:
    """Returns the first lines of a text, of at most `size` bytes, without the last line feed."""
    return text[:size].rsplit(b"\n", 1)[0]


def check_memory(setup: Setup, text: bytes) -> None:
    """A longer text needs no more memory, once it has more pieces than threads.

    A line of 200 MB, which is too long, doesn't either.
    """
    peaks = {}
    for what, more in (
        ("15 MB", text * 3),
        ("60 MB", text * 12),
        ("a line of 200 MB", b"a" * 200_000_000),
    ):
        command = [setup.pjseg, "-d", setup.image, "-j", "6"]
        peaks[what] = long_outputs.peak(command, setup.write_text(more))
    most = long_outputs.most_memory(6)
    found = ", ".join(f"{kilobytes} kB for {what}" for what, kilobytes in peaks.items())
    if max(peaks.values()) > most:
        fail(f"memory of 6 threads: {found}, expected at most {most} kB")
    report(f"memory of 6 threads: {found}")


def check_out_of_memory(setup: Setup, text: bytes) -> None:
    """Each allocation fails in turn.

    A run ends with Memory, after lines of the output; or it goes on with less memory.
    """
    short, failed = lines_within(text, 3 << 19), 0
    for jobs in ("1", "3"):
        command: Words = [setup.pjseg, "-d", "system", "-u", "user", "-F", "%m\t%H\\n", "-j", jobs]
        environment = setup.heap.environment(base=setup.with_names)
        expected = run(command, short, env=environment)
        for number in range(1, setup.heap.counts().allocations + 1):
            done = subprocess.run(
                command,
                input=short,
                capture_output=True,
                env=setup.heap.environment(number, setup.with_names),
                timeout=SECONDS,
            )
            if (done.returncode, done.stdout, done.stderr) == (0, expected, b""):
                continue
            failed += 1
            if not is_out_of_memory(done, expected):
                fail(
                    f"allocation {number} fails, {jobs} threads: {done.returncode}, {done.stderr!r}"
                )
    report(f"{failed} allocations that fail end a run with Memory")


def is_out_of_memory(done: "subprocess.CompletedProcess[bytes]", expected: bytes) -> bool:
    """Returns whether a run ended with Memory after lines of the expected output."""
    has_lines = expected.startswith(done.stdout) and done.stdout[-4:] in (b"", b"EOS\n")
    return done.returncode == 4 and done.stderr == f"{NAME}: Memory\n".encode() and has_lines


def check_fewer_threads(setup: Setup, text: bytes) -> None:
    """If some threads can't be created, fewer are used, which -v prints."""
    failing = {"LD_PRELOAD": str(setup.failing), "FAIL": "pthread_create", "FAIL_AFTER": "2"}
    command: Words = [setup.pjseg, "-d", setup.image, "-j", "8", "-v"]
    done = subprocess.run(command, input=text, capture_output=True, env={**os.environ, **failing})
    expected = run([setup.jseg, "-d", setup.image], text)
    if done.stdout != expected or b" 3 of 8 threads\n" not in done.stderr:
        fail(f"with 3 of 8 threads: {done.stderr!r}")


def check_valgrind(setup: Setup, text: bytes) -> None:
    """valgrind finds no error and no leak, also if the image is not found."""
    expected = run([setup.jseg, "-d", setup.image], text)
    for jobs in ("1", "4"):
        command: Words = [*VALGRIND, setup.pjseg, "-d", setup.image, "-u", setup.user, "-j", jobs]
        if run(command, text) == expected:
            fail("the user dictionary changes nothing")
    missing = [*VALGRIND, str(setup.pjseg), "-v", "-d", "nowhere"]
    done = subprocess.run(missing, capture_output=True, env=setup.with_names)
    has_names = b"available images: " in done.stderr and b"system, user" in done.stderr
    if done.returncode != 3 or not has_names:
        fail(f"an image that is not found: status {done.returncode}, {done.stderr!r}")


def check_threads(setup: Setup, text: bytes) -> None:
    check_fewer_threads(setup, text)
    check_valgrind(setup, lines_within(text, 5 << 19))
    report("fewer threads are used if some can't be created; valgrind finds no error and no leak")


def check_races(setup: Setup, text: bytes) -> None:
    """ThreadSanitizer finds no race, also if threads wait because they may keep no more output."""
    sanitized = setup.build_sanitized()
    variables = {**os.environ, "TSAN_OPTIONS": "exitcode=9"}
    short = lines_within(text, 5 << 19)
    for image, lines in ((setup.image, short), (setup.long, long_outputs.SHORTER)):
        expected = run([setup.jseg, "-d", image], lines)
        if run([sanitized, "-d", image, "-j", "4"], lines, env=variables) != expected:
            fail("another output with ThreadSanitizer")
    report("ThreadSanitizer: no race of 4 threads")
