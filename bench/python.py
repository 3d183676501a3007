"""The Python module beside MeCab's (Debian: python3-mecab), in microseconds of the CPU a line.

    bench/run python [OPTIONS]        bench/run --python is the same

A row has the least and the median of what a line takes with MeCab's module and with ours, and the
ratio of the medians. The first rows make a call for each line: its surfaces; its words with their
features; with the part of speech and the base form of each. The last row segments all lines at
once. Both modules run in one process that alternates between them: --rounds times (default 9), each
over --lines lines (default 2,000) of the Japanese manual pages (Debian: manpages-ja), of 10 to 60
characters. The results of both modules are compared first.

The dictionaries are Debian's (mecab-ipadic-utf8, unidic-mecab). Images are IPADIC and UniDic in the
folder that --images names, else they are made with kumquatsieve-import in a temporary folder, which
needs crates/dictc/out/dictc. A dictionary that is missing is named as left out. The module is in
the folder that KUMQUATSIEVE_MODULE names. Without the variable it is built from
crates/capi/out/libcapi.a, which needs gcc and python3-dev. The Python is the first of python3 and
/usr/bin/python3 that has MeCab. Without one the status is 77. With --most the status is 1 if a
ratio is above its limit: 0.6 for the surfaces, 0.5 for the others.
"""
import argparse
import os
import subprocess
import sys
import tempfile
from pathlib import Path
from typing import Dict, Iterator, List, Optional

from measure.python_module import MODULE, end_unmeasured, module_folder
from measure.texts import japanese
from support.running import LEFT_OUT, TOP, Words

CLIENT = TOP / "bench" / "clients" / "python.py"
MECAB, SOURCES = Path("/var/lib/mecab/dic"), Path("/usr/share/mecab/dic")
# MeCab's folders, and the names of the sources and of the images.
DICTIONARIES: Dict[str, str] = {"ipadic-utf8": "ipadic", "unidic": "unidic"}
LEAST, MOST = 10, 60


def python_with_mecab() -> Optional[str]:
    for python in ("python3", "/usr/bin/python3"):
        if (
            subprocess.run([python, "-c", "import MeCab"], stderr=subprocess.DEVNULL).returncode
            == 0
        ):
            return python
    return None


def lines_of(count: int) -> List[str]:
    """Returns lines of the manual pages, spread over all of them."""
    lines = [line.strip() for line in japanese(4_000_000).decode().splitlines()]
    fit = [line for line in lines if LEAST <= len(line) <= MOST]
    return fit[:: max(1, len(fit) // count)][:count]


def images(folder: Path, given: Optional[Path]) -> Iterator[List[str]]:
    """Yields the name, MeCab's folder and the image of each dictionary that is there."""
    dictc = TOP / "crates" / "dictc" / "out"
    environment = {**os.environ, "PATH": f"{dictc}:{os.environ['PATH']}"}
    for name, own in DICTIONARIES.items():
        image = (given or folder) / f"{own}.img"
        if not image.exists() and (SOURCES / own).exists():
            words: Words = [TOP / "importer" / "kumquatsieve-import", own, image]
            subprocess.run(words, env=environment, capture_output=True)
        if image.exists() and (MECAB / name).exists():
            yield [own, str(MECAB / name), str(image)]
        else:
            print(f"bench/run: {own} is left out: it is not installed", file=sys.stderr)


def add_options(parser: argparse.ArgumentParser) -> None:
    parser.add_argument("--images", type=Path, metavar="FOLDER")
    parser.add_argument("--rounds", type=int, default=9, metavar="N")
    parser.add_argument("--lines", type=int, default=2000, metavar="N")
    parser.add_argument("--most", action="store_true", help="test the limits")


def run(options: argparse.Namespace) -> int:
    python = python_with_mecab()
    if python is None:
        end_unmeasured("MeCab of Python (Debian: python3-mecab)")
    with tempfile.TemporaryDirectory() as folder:
        environment = {**os.environ, "PYTHONPATH": str(module_folder(Path(folder)))}
        environment.pop(MODULE, None)
        text = "\n".join(lines_of(options.lines)).encode()
        print("| dictionary | call | MeCab: least | median | ours: least | median | ratio |")
        print("|---|---|---|---|---|---|---|", flush=True)
        found, failed = list(images(Path(folder), options.images)), 0
        for words in found:
            limits = ["limits"] if options.most else []
            command = [python, str(CLIENT), str(options.rounds), *words, *limits]
            failed |= subprocess.run(command, input=text, env=environment).returncode
        return failed if found else LEFT_OUT
