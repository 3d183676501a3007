"""What a process takes before its first words, beside MeCab: time and memory.

PREFIX is where `packaging/install --mecab --python FOLDER PREFIX` installed everything. The images
are NAME.img of the folder that --images names. Those that are missing are made with
kumquatsieve-import, without --images in a temporary folder in the user's home directory. Nobody
else may write into the folder, so that the records of the images' tests count.

The first table has the milliseconds of one process that segments one line, from start to end: the
elapsed time and the CPU time, the least of --rounds (default 21), and the median of the elapsed
time. Ours and MeCab's take turns. `record` trusts the record of the image's tests, `rules` has no
record, so the rules of the format are tested, and `digest` tests the SHA-256 too. The rows
`in Python` are measured within the process, from the import of the module to the first words.

The second table has the memory of --processes (default 1 4 8) processes that run at the same time
and have segmented a line: the sum of their Pss, in which a page that n processes share counts as
1/n in each, and the sum of what is private to them.

Needs: Debian's mecab, python3-mecab, mecab-ipadic-utf8 and unidic-mecab. A dictionary that is not
installed is reported as left out. Without any of them the status is 77, and nothing was measured.
"""
import argparse
import json
import os
import re
import statistics
import subprocess
import sys
import tempfile
import time
from pathlib import Path
from typing import Dict, List, NamedTuple, Optional, Sequence, Tuple

from measure.rows import MB
from measure.saved import add_save_option, note
from support.running import LEFT_OUT, TOP

CLIENT = TOP / "bench" / "clients" / "start.py"
MECAB = Path("/var/lib/mecab/dic")
SOURCES = Path("/usr/share/mecab/dic")
# The dictionaries' folders of MECAB and of SOURCES, by the names of their images.
DICTIONARIES = {"ipadic": ("ipadic-utf8", "ipadic"), "unidic": ("unidic", "unidic")}
LINE = "すもももももももものうち\n".encode()


class Program(NamedTuple):
    """A command that reads a line, and the variables that its environment has in addition."""

    name: str
    words: Sequence[str]
    extra: Dict[str, str]

    def start(self) -> "subprocess.Popen[bytes]":
        return subprocess.Popen(
            self.words,
            env={**os.environ, **self.extra},
            stdin=subprocess.PIPE,
            stdout=subprocess.PIPE,
        )


class Run(NamedTuple):
    """One run, in seconds: elapsed, and of the CPU."""

    elapsed: float
    cpu: float


NEVER = {"KUMQUATSIEVE_TRUST": "never"}
Group = Tuple[Program, ...]


def programs_of(prefix: Path, python: Path, image: Path, mecab: Path) -> List[Group]:
    """Returns the programs in groups whose members take turns, MeCab's first in each."""
    theirs = Program("mecab", ["mecab", "-d", str(mecab)], {})
    pjseg = [f"{prefix}/bin/pjseg", "-d", str(image)]
    ours = ["mecab", "-r", "/dev/null", "-d", str(image)]
    own_libmecab = {"LD_LIBRARY_PATH": f"{prefix}/lib/kumquatsieve/mecab"}
    return [
        (
            theirs,
            Program("pjseg, record", pjseg, {}),
            Program("pjseg, rules", pjseg, NEVER),
            Program("pjseg, digest", [*pjseg, "--test-digest"], {}),
        ),
        (
            theirs._replace(name="mecab over MeCab's libmecab"),
            Program("mecab over our libmecab, record", ours, own_libmecab),
            Program("mecab over our libmecab, rules", ours, {**own_libmecab, **NEVER}),
        ),
        python_programs(prefix, python, image, mecab),
    ]


def python_programs(prefix: Path, python: Path, image: Path, mecab: Path) -> Group:
    client = ["/usr/bin/python3", str(CLIENT)]
    module = {
        "PYTHONPATH": str(python),
        # The first run writes the module's compiled files, as an installation does.
        "PYTHONDONTWRITEBYTECODE": "",
    }
    ours = [*client, "ours", str(image)]
    return (
        Program("in Python: MeCab", [*client, "mecab", str(mecab)], {}),
        Program("in Python: ours, record", ours, module),
        Program("in Python: ours, rules", ours, {**module, **NEVER}),
    )


def run_once(program: Program) -> Run:
    """Runs one process, which has to print something and to end with status 0."""
    start = time.perf_counter()
    process = program.start()
    assert process.stdin and process.stdout
    process.stdin.write(LINE)
    process.stdin.close()
    printed = process.stdout.read()
    _, status, used = os.wait4(process.pid, 0)
    elapsed = time.perf_counter() - start
    process.returncode = os.waitstatus_to_exitcode(status)
    process.stdout.close()
    if process.returncode != 0 or not printed:
        sys.exit(f"bench/run start: {program.name} ended with status {process.returncode}")
    if program.name.startswith("in Python"):
        return Run(*json.loads(printed.splitlines()[-1]))
    return Run(elapsed, used.ru_utime + used.ru_stime)


def measure_starts(name: str, groups: List[Group], rounds: int) -> None:
    print(f"\n| start, {name} | ms, least | median | of the CPU, least |\n|---|---|---|---|")
    for group in groups:
        runs: Dict[str, List[Run]] = {program.name: [] for program in group}
        for _ in range(rounds):
            for program in group:
                runs[program.name].append(run_once(program))
        for label, each in runs.items():
            elapsed = [one.elapsed * 1000 for one in each]
            cpu = min(one.cpu for one in each) * 1000
            least, median = min(elapsed), statistics.median(elapsed)
            print(f"| {label} | {least:.1f} | {median:.1f} | {cpu:.1f} |")
            note("start", name, label, milliseconds=least, median=median, cpu=cpu)


def memory_of(pid: int, fields: Sequence[str]) -> int:
    """Returns the bytes of the pages of these kinds that a process has."""
    text = Path("/proc", str(pid), "smaps_rollup").read_text()
    found = [re.findall(rf"^{name}:\s+(\d+) kB$", text, re.M) for name in fields]
    return sum(int(number) for numbers in found for number in numbers) * 1024


def memory_together(program: Program, count: int) -> Tuple[float, float]:
    """Returns the MB of `count` processes that have segmented a line: all, and the private ones."""
    running = [program.start() for _ in range(count)]
    for process in running:
        assert process.stdin and process.stdout
        process.stdin.write(LINE)
        process.stdin.flush()
        process.stdout.readline()
    shared = sum(memory_of(process.pid, ["Pss"]) for process in running)
    private = sum(memory_of(process.pid, ["Private_Clean", "Private_Dirty"]) for process in running)
    for process in running:
        process.kill()
        process.communicate()
    return shared / MB, private / MB


def measure_memory(name: str, groups: List[Group], counts: Sequence[int]) -> None:
    columns = " | ".join(f"{count}: Pss | private" for count in counts)
    print(f"\n| MB of processes, {name} | {columns} |\n|{'---|' * (1 + 2 * len(counts))}")
    # pjseg, of the first group, waits for a megabyte or the end of its text, and has threads in
    # place of processes.
    for program in (program for group in groups[1:] for program in group):
        found = [memory_together(program, count) for count in counts]
        print(f"| {program.name} | {' | '.join(f'{pss:.1f} | {own:.1f}' for pss, own in found)} |")
        for count, (pss, own) in zip(counts, found):
            note(f"memory of {count}", name, program.name, megabytes=pss, private=own)


def image_of(name: str, folder: Path, prefix: Path) -> Optional[Path]:
    """Returns the path of a dictionary's image, which is made if it is missing.

    Reports the dictionary as left out if it is not installed, and returns None.
    """
    compiled, sources = DICTIONARIES[name]
    if not (MECAB / compiled / "sys.dic").exists() or not (SOURCES / sources).exists():
        print(f"bench/run start: {name} is not installed, and left out", file=sys.stderr)
        return None
    image = folder / f"{name}.img"
    if not image.exists():
        command = [f"{prefix}/bin/kumquatsieve-import", name, str(image)]
        subprocess.run(command, check=True, stdout=subprocess.DEVNULL)
    return image


def add_options(parser: argparse.ArgumentParser) -> None:
    parser.add_argument("--rounds", type=int, default=21, metavar="N")
    parser.add_argument("--processes", type=int, nargs="+", default=[1, 4, 8], metavar="N")
    parser.add_argument("--images", type=Path, metavar="FOLDER")
    parser.add_argument("--python", type=Path, required=True, metavar="FOLDER")
    parser.add_argument("prefix", type=Path, metavar="PREFIX")
    add_save_option(parser)


def run(options: argparse.Namespace) -> int:
    prefix, measured = options.prefix.resolve(), 0
    with tempfile.TemporaryDirectory(dir=Path.home()) as made:
        folder = Path(options.images or made).resolve()
        for name, (compiled, _) in DICTIONARIES.items():
            image = image_of(name, folder, prefix)
            if image is None:
                continue
            groups = programs_of(prefix, options.python.resolve(), image, MECAB / compiled)
            measure_starts(name, groups, options.rounds)
            measure_memory(name, groups, options.processes)
            measured += 1
    return 0 if measured else LEFT_OUT
