"""What the charts of the documents show, by the installed programs: for bench/plot.

First what `search --slices` measures with each dictionary, then what `start` measures. --save
bench/measured.json keeps the numbers, and `bench/plot docs/pictures` draws them. PREFIX is where
`packaging/install --mecab --python FOLDER PREFIX` installed everything.
"""
import argparse
from pathlib import Path
from types import ModuleType
from typing import Sequence

import search
import start
from measure.saved import add_save_option


def add_options(parser: argparse.ArgumentParser) -> None:
    parser.add_argument(
        "--rounds", type=int, default=20, metavar="N", help="how often each command is run"
    )
    parser.add_argument("--python", type=Path, required=True, metavar="FOLDER")
    parser.add_argument("prefix", type=Path, metavar="PREFIX")
    add_save_option(parser)


def run_module(module: ModuleType, words: Sequence[object]) -> int:
    """Runs another subcommand with these options and arguments."""
    parser = argparse.ArgumentParser()
    module.add_options(parser)
    return int(module.run(parser.parse_args([str(word) for word in words])))


def run(options: argparse.Namespace) -> int:
    programs = [f"--{name}={options.prefix}/bin/{name}" for name in ("dictc", "jseg")]
    rounds = f"--rounds={options.rounds}"
    run_module(search, ["--slices", rounds, *programs])
    return run_module(start, [rounds, f"--python={options.python}", options.prefix])
