"""Command lines of pjseg: those that are rejected, --version, and the list of options."""
import re
import shlex
import subprocess
from pathlib import Path
from typing import Iterator, Set

NAME = "pjseg"
WRONG = [
    # (arguments, how the message starts after the program's name)
    ("", "-d IMG is required"),
    ("-j", "a value is required for '-j <N>'"),
    ("-j 0", "invalid value '0' for '-j <N>': 0 is not in 1..=1000"),
    ("-j 1001", "invalid value '1001' for '-j <N>': 1001 is not in 1..=1000"),
    ("-j 99999999999999999999", "invalid value '99999999999999999999' for '-j <N>'"),
    ("-j two", "invalid value 'two' for '-j <N>': not a number"),
    ("-j= -d none", "invalid value '' for '-j <N>': not a number"),
    ("-j -1", "a value is required for '-j <N>'"),
    ("-j 2 -j 2", "the argument '-j <N>' cannot be used multiple times"),
    ("-vv", "the argument '-v' cannot be used multiple times"),
    (
        "--skip-digest -d none --skip-digest",
        "the argument '--skip-digest' cannot be used multiple times",
    ),
    ("--skip-digest", "-d IMG is required"),
    ("--test-digest --copy", "-d IMG is required"),
    (
        "--test-digest -d none --test-digest",
        "the argument '--test-digest' cannot be used multiple times",
    ),
    ("--copy -d none --copy", "the argument '--copy' cannot be used multiple times"),
    (
        "--skip-digest --test-digest",
        "the argument '--test-digest' cannot be used with '--skip-digest'",
    ),
    (
        "--test-digest -d none --skip-digest",
        "the argument '--test-digest' cannot be used with '--skip-digest'",
    ),
    ("--test-digest=yes", "unexpected argument '--test-digest=yes' found"),
    ("--copy=yes", "unexpected argument '--copy=yes' found"),
    ("--skip-digest=yes", "unexpected argument '--skip-digest=yes' found"),
    ("--skip-digests", "unexpected argument '--skip-digests' found"),
    ("-q", "unexpected argument '-q' found"),
    ("-vq", "unexpected argument '-vq' found"),
    ("--jobs 2", "unexpected argument '--jobs' found"),
    ("--nbests 2", "unexpected argument '--nbests' found"),
    ("--", "-d IMG is required"),
    ("-x UNK", "-x is not supported"),
    ("-vN2", "-N is not supported"),
    ("--nbest 2", "-N is not supported"),
    ("--output=out.txt", "-o is not supported"),
    ("--node-format=%m", "--node-format is not supported: use -F FORMAT"),
    ("--sources a", "--sources is not supported"),
    ("--sources=a", "--sources is not supported"),
    ("--sample", "--sample is not supported"),
    ("--explain L4", "--explain is not supported"),
    ("--dictionaries", "--dictionaries is not supported"),
    ("--lattice tsv", "--lattice is not supported: jseg --lattice prints the lattice of each line"),
    ("--within 5", "--within is not supported: it is an option of jseg --lattice"),
    ("--why", "--why is not supported: jseg --why explains the segmentation of each line"),
    ("'--x\x1b[2J\ny'", r"unexpected argument '--x\u{1b}[2J\ny' found"),
    ("-\x7f", r"unexpected argument '-\u{7f}' found"),
    ("-j '2\r'", r"invalid value '2\r' for '-j <N>': not a number"),
    ("-M '\x9b1'", r"invalid value '\u{9b}1' for '-M <N>': not a number"),
    (
        "-d -x.img",
        "a value is required for '-d <IMG>' but none was supplied"
        "\n\n"
        "  tip: for the file '-x.img' write './-x.img'",
    ),
    (
        "-u '-\x07'",
        r"a value is required for '-u <IMG>' but none was supplied"
        "\n\n"
        r"  tip: for the file '-\u{7}' write './-\u{7}'",
    ),
    ("-M -x.img", "a value is required for '-M <N>' but none was supplied\n\nFor more"),
    ("-d none text.txt", "the text is read from standard input"),
    ("-d none -- text.txt", "the text is read from standard input"),
]


def failures(program: Path, page: Path) -> Iterator[str]:
    """Yields what is wrong with rejected command lines, with --version, and with the options that
    --help and the manual page list."""
    for arguments, start in WRONG:
        command = [str(program), *shlex.split(arguments)]
        done = subprocess.run(command, capture_output=True, text=True)
        if done.returncode != 2 or done.stdout or not done.stderr.startswith(f"{NAME}: {start}"):
            yield f"{arguments!r}: status {done.returncode}, {done.stderr!r}"
    version = subprocess.run([program, "--version"], capture_output=True, text=True)
    if not re.fullmatch(rf"{NAME} [0-9.]+\nimage layouts read: 1, 2, 3\n", version.stdout):
        yield f"--version: {version.stdout!r}"
    in_help, in_page = options_of_help(program), options_of_page(page)
    if in_help != in_page:
        yield f"--help lists {sorted(in_help)}, and the manual page {sorted(in_page)}"


def options_of_help(program: Path) -> Set[str]:
    text = subprocess.run([program, "--help"], capture_output=True, text=True, check=True).stdout
    found = re.findall(r"^ +(-[\w-]+(?:, -[\w-]+)?)", text, re.M)
    return {name for names in found for name in names.split(", ")}


def options_of_page(page: Path) -> Set[str]:
    lines = (
        line.removeprefix(".It Fl ")
        for line in page.read_text().splitlines()
        if line.startswith(".It Fl ")
    )
    return {"-" + name for line in lines for name in re.sub(r" Ar .*", "", line).split(" , ")}
