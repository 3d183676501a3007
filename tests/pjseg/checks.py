"""Compares pjseg with jseg, and checks inputs that stay open, readers that leave and terminals."""
import re
import subprocess
import threading
from typing import IO, List, Tuple

from support.running import TOP, Words, run

from .cases import command_lines, comparisons, long_outputs, terminals
from .cases.command_lines import NAME
from .setup import SECONDS, Setup, fail


def report(line: str) -> None:
    print(f"pjseg: {line}", flush=True)


def fail_if(failures: List[str]) -> None:
    if failures:
        fail("\n".join(failures))


def check_formats(setup: Setup, text: bytes) -> None:
    path = setup.write_text(text)
    for case in comparisons.FORMATS:
        outcome = setup.compare(case, path, comparisons.JOBS)
        if outcome.status != 0 or outcome.errors or not outcome.out:
            fail(f"{case.what}: {outcome}")
        size, most = len(outcome.out), comparisons.JOBS[-1]
        report(f"{case.what}: {size} bytes with 1 to {most} threads, as of jseg")


def check_images(setup: Setup, text: bytes) -> None:
    path = setup.write_text(text)
    for case in comparisons.IMAGES:
        setup.compare(case, path, (1, 4))
    report(f"{len(comparisons.IMAGES)} cases of images are accepted or rejected as by jseg")


def check_streams(setup: Setup, text: bytes) -> None:
    """Compares over each text, and with standard streams that fail over the long text."""
    for case in comparisons.TEXTS:
        setup.compare(case, setup.write_text(case.text), (1, 2, 4))
    path = setup.write_text(text)
    for case in (*comparisons.INPUTS, *comparisons.OUTPUTS):
        setup.compare(case, path, (1, 4))
    inputs, outputs = len(comparisons.INPUTS), len(comparisons.OUTPUTS)
    texts = len(comparisons.TEXTS)
    report(f"{texts} cases of texts, {inputs} of inputs and {outputs} of outputs end as with jseg")


def feed(pipe: IO[bytes], text: bytes) -> None:
    try:
        pipe.write(text)
        pipe.flush()
    except BrokenPipeError:
        pass


def keep_output(pipe: IO[bytes], written: List[bytes]) -> None:
    written.append(pipe.read())


def run_with_open_input(command: Words, text: bytes) -> Tuple[int, bytes, bytes]:
    """Runs a program whose input stays open after `text`. Returns status, output and errors."""
    pipe = subprocess.PIPE
    written: List[bytes] = []
    process = subprocess.Popen(command, stdin=pipe, stdout=pipe, stderr=pipe)
    stdin, stdout, stderr = process.stdin, process.stdout, process.stderr
    assert stdin and stdout and stderr
    feeding = threading.Thread(target=feed, args=(stdin, text))
    reading = threading.Thread(target=keep_output, args=(stdout, written))
    feeding.start()
    reading.start()
    try:
        process.wait(SECONDS)
    except subprocess.TimeoutExpired:
        process.kill()
    reading.join()
    feeding.join()
    errors = stderr.read()
    for end in (stdin, stdout, stderr):
        try:
            end.close()
        except BrokenPipeError:
            pass
    return process.returncode, written[0], errors


def check_open_input(setup: Setup, text: bytes) -> None:
    """An error ends a run whose input stays open, also if another thread waits for that."""
    piece = text[: comparisons.PIECE]
    invalid = piece.rsplit(b"\n", 1)[0] + b"\n\xff\n" + piece
    line = invalid.count(b"\n", 0, invalid.index(b"\xff")) + 1
    expected = subprocess.run(
        [setup.jseg, "-d", setup.image],
        input=invalid,
        stdout=subprocess.PIPE,
        stderr=subprocess.DEVNULL,
    ).stdout
    for jobs in ("1", "4"):
        command: Words = [setup.pjseg, "-d", setup.image, "-j", jobs]
        status, out, errors = run_with_open_input(command, invalid)
        if (status, errors.decode()) != (1, f"{NAME}: line {line}: G3 NotUtf8\n"):
            fail(f"an error before an open input, {jobs} threads: status {status}, {errors!r}")
        if out != expected:
            sizes = f"{len(out)} bytes, and jseg: {len(expected)}"
            fail(f"an error before an open input, {jobs} threads: {sizes}")
    report("an error ends a run whose input stays open")


def check_leaving_reader(setup: Setup, text: bytes) -> None:
    """A reader that ends, as head does, ends the run.

    The number of bytes that were written is reported, and the reader has the start of the output.
    """
    path, least = setup.write_text(text), 100_000
    expected = run([setup.jseg, "-d", setup.image], text)
    for jobs in ("1", "4"):
        with open(path, "rb") as reading:
            process = subprocess.Popen(
                [setup.pjseg, "-d", setup.image, "-j", jobs],
                stdin=reading,
                stdout=subprocess.PIPE,
                stderr=subprocess.PIPE,
            )
        assert process.stdout and process.stderr
        start = process.stdout.read(least)
        process.stdout.close()
        errors = process.stderr.read().decode()
        process.stderr.close()
        status = process.wait(SECONDS)
        found = re.fullmatch(f"{NAME}: G2 Write ([0-9]+)\n", errors)
        is_count = found is not None and least <= int(found[1]) < len(expected)
        if status != 3 or not is_count or start != expected[:least]:
            fail(f"a reader that leaves, {jobs} threads: status {status}, {errors!r}")
    report("a reader that leaves ends a run")


def check_long_outputs(setup: Setup) -> None:
    path = setup.folder / "text"
    fail_if(list(long_outputs.failures(setup.pjseg, setup.jseg, setup.long, path)))
    report("lines with a long output have a bounded memory, with 1 and 4 threads")


def check_terminals(setup: Setup) -> None:
    command, path = [setup.pjseg, "-d", setup.image], setup.folder / "text"
    fail_if(list(terminals.warning_failures(command, path)))
    fail_if(list(terminals.progress_failures(command, path)))
    report("warnings and progress are printed on a terminal, and nowhere else")


def check_command_lines(setup: Setup) -> None:
    fail_if(list(command_lines.failures(setup.pjseg, TOP / "man" / f"{NAME}.1")))
    report(f"{len(command_lines.WRONG)} cases of command lines are rejected")


def check_cases_of_jseg(setup: Setup) -> None:
    run([TOP / "tests" / "cli" / "run.py", "--dictc", setup.dictc, "--pjseg", setup.pjseg])
