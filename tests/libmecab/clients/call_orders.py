"""Calls MeCab's Python module in other orders than in its examples: call_orders.py DICTIONARY

It prints what the classes of the C++ interface return.
"""
import sys
from typing import Any

import MeCab

OPTIONS = f"-r /dev/null -d {sys.argv[1]}"
FORMATS = ("", "-Owakati", "-F%m,%h,%F-[0,1],%ps,%pb -U<%m> -B[%f[0] -E]%ps")
REQUESTS = ("", "-C", "-m", "-l0", "-l1", "-l2", "-N1", "-t0.5 -c7")
# MeCab's MECAB_ONE_BEST and MECAB_ALLOCATE_SENTENCE.
ONE_BEST, ALLOCATE_SENTENCE = 1, 64


def print_path(lattice: Any) -> None:
    """Prints the best path of a lattice."""
    node = lattice.bos_node()
    while node:
        print(node.surface, node.feature, node.stat, node.cost)
        node = node.next
    print(lattice.eos_node().stat, lattice.what())


def print_lattices(model: Any, tagger: Any) -> Any:
    """Prints a lattice before and after it is parsed, and returns it."""
    lattice = model.createLattice()
    lattice.set_sentence("すもももも x")
    print(
        tagger.parse(lattice),
        lattice.toString(),
        lattice.size(),
        lattice.sentence(),
        lattice.is_available(),
    )
    print(lattice.has_request_type(1), lattice.request_type(), lattice.theta(), lattice.Z())
    print_path(lattice)
    return lattice


def print_information(model: Any) -> None:
    """Prints the dictionary and the versions."""
    information = model.dictionary_info()
    print(
        information.charset,
        information.size,
        information.type,
        MeCab.VERSION,
        MeCab.Tagger.version(),
        MeCab.Model.version(),
    )


def print_wakati(tagger: Any, own: Any) -> None:
    """Prints sentences by a tagger of -Owakati, and a lattice that no model has made."""
    wakati = MeCab.Tagger(OPTIONS + " -Owakati")
    print(
        wakati.parse("すもも もも"),
        wakati.partial(),
        wakati.all_morphs(),
        wakati.lattice_level(),
        wakati.theta(),
    )
    wakati.set_request_type(ONE_BEST | ALLOCATE_SENTENCE)
    print(wakati.request_type(), wakati.parse("すもも もも"), tagger.what())
    own.set_sentence("もも")
    print(wakati.parse(own), own.toString())


def print_rejected() -> None:
    """Prints which options are rejected."""
    for make, options in ((MeCab.Tagger, "--nosuch"), (MeCab.Model, "-d /nowhere")):
        try:
            make(options)
        except RuntimeError:
            print(options, "is rejected")


def print_requests() -> None:
    """Prints the requests of taggers and lattices by options, and after a level was set."""
    for more in REQUESTS:
        tagger, model = MeCab.Tagger(f"{OPTIONS} {more}"), MeCab.Model(f"{OPTIONS} {more}")
        print(
            more,
            tagger.request_type(),
            model.createTagger().request_type(),
            model.createLattice().request_type(),
            tagger.theta(),
        )
        for level in (1, 2, 0):
            tagger.set_lattice_level(level)
            print(tagger.lattice_level(), tagger.request_type())


def print_nodes(tagger: Any) -> None:
    """Prints nodes in a tagger's format."""
    node = tagger.parseToNode("すもも  x")
    while node:
        print([tagger.formatNode(node)])
        node = node.next


def main() -> None:
    model = MeCab.Model(OPTIONS)
    tagger, own = model.createTagger(), MeCab.Lattice()
    lattice = print_lattices(model, tagger)
    print_information(model)
    print_wakati(tagger, own)
    print_rejected()
    print_requests()
    for more in FORMATS:
        print_nodes(MeCab.Tagger(f"{OPTIONS} {more}"))
    lattice.clear()
    print(lattice.is_available(), lattice.size(), tagger.parse(lattice))


main()
