"""pjseg on one thread, and other builds of jseg, in turn with jseg and mecab."""
from pathlib import Path

from compare_with_mecab.dictionaries import Command
from measure.compared import FORMATS, SKIP, Compared
from measure.rows import WAYS, print_ways
from measure.runs import with_loads, without


def build_commands(compared: Compared, words: list[str]) -> dict[str, Command]:
    """Returns the commands to compare: each program of --program, then jseg, and mecab as the last.

    The programs are named by their file names and their numbers in the command line. Ours don't
    test the checksum of the image.
    """
    ours, theirs = compared.segmenters(words)
    common = [*ours[1:], SKIP]
    builds: dict[str, Command] = {
        f"{program.name} {number}": [program, *thread_options(program), *common]
        for number, program in enumerate(compared.options.program, 1)
    }
    return {**builds, "jseg": [ours[0], *common], "mecab": theirs}


def with_digest(commands: dict[str, Command]) -> dict[str, Command]:
    """Returns the commands of ours, with the test of the checksum."""
    return {
        name: [word for word in command if word != SKIP]
        for name, command in commands.items()
        if SKIP in command
    }


def thread_options(program: Path) -> list[str]:
    """Returns the option for one thread, which builds of jseg, such as jseg-before, don't have."""
    return [] if program.name.startswith("jseg") else ["-j", "1"]


def measure_builds(compared: Compared) -> None:
    """Measures the loads and the search of each program of --program, and of jseg."""
    options, text = compared.options, compared.text(compared.options.bytes)
    for label, words in FORMATS.items():
        commands = build_commands(compared, words)
        loads, runs = with_loads(list(commands.values()), options.rounds, text)
        print(f"\n{compared.name}, {label}:", WAYS.format(theirs="MeCab's"))
        for name, load, run in zip(list(commands)[:-1], loads, runs):
            numbers = f"{load.least:9.3f} {load.median:9.3f} {load.cpu:9.3f} {load.user:9.3f}"
            print(f"{'load, ' + name:26} {numbers}")
            print_ways(f"search, {name}", without(run, load), without(runs[-1], loads[-1]))
