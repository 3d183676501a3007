"""The crates of the repository, and which of them each uses, as crates.txt lists them."""
from pathlib import Path
from typing import Dict, List

TOP = Path(__file__).resolve().parents[1]


def uses() -> Dict[str, List[str]]:
    """Returns for each crate of crates.txt the crates of the repository that it uses."""
    lines = [
        line.partition("#")[0].partition(":")
        for line in (TOP / "crates.txt").read_text().splitlines()
    ]
    named = {head.split()[0]: rest.split() for head, colon, rest in lines if colon}
    return {name: [other for other in others if other in named] for name, others in named.items()}
