"""Several threads call one segmenter, each with a native segmenter of its own."""
import contextvars
import random
import sys
import threading
from concurrent.futures import ThreadPoolExecutor

import pytest

from kumquatsieve import Format, KumquatsieveError, Segmenter

THREADS = 4
LETTERS = "すもうち東京都a1 　。𠮷\t"
CALLS = {
    "segment": lambda segmenter, line: [
        (word.surface, word.feature, word.start, word.total) for word in segmenter.words(line)
    ],
    "wakati": Segmenter.wakati,
    "lattice": lambda segmenter, line: [
        (node.surface, node.feature, node.end, node.through)
        for node in segmenter.lattice(line).nodes
    ],
    "parse": Segmenter.parse,
    "fields": lambda segmenter, line: [
        (word.pos, word.fields, word.base_or_surface) for word in segmenter(line)
    ],
    "explain": Segmenter.explain,
    "lines": lambda segmenter, line: [words.total for words in segmenter.lines([line] * 3)],
    "wakati_lines": lambda segmenter, line: list(segmenter.wakati_lines([line] * 3)),
    "parse_lines": lambda segmenter, line: list(segmenter.parse_lines([line] * 3)),
}


@pytest.fixture
def often():
    """Makes threads take turns as often as possible."""
    before = sys.getswitchinterval()
    sys.setswitchinterval(1e-6)
    yield
    sys.setswitchinterval(before)


@pytest.fixture(scope="module")
def made_up():
    choose = random.Random(1)
    return ["".join(choose.choices(LETTERS, k=choose.randrange(60))) for _ in range(300)]


def test_threads_get_what_one_gets(system, user, made_up, often):
    segmenter = Segmenter(system, [user], format=Format("%m,", eos="."))
    tasks = [(call, line) for line in made_up for call in CALLS]
    random.Random(2).shuffle(tasks)
    alone = [CALLS[call](segmenter, line) for call, line in tasks]
    with ThreadPoolExecutor(THREADS) as threads:
        assert list(threads.map(lambda task: CALLS[task[0]](segmenter, task[1]), tasks)) == alone


@pytest.mark.parametrize("call", [Segmenter.wakati_lines, Segmenter.parse_lines])
def test_threads_with_shares_segment_the_parts_of_a_text(system, made_up, often, call):
    segmenter, parts = Segmenter(system), [
        "".join(line + "\n" for line in made_up[part::THREADS]) * 20 for part in range(THREADS)
    ]
    with ThreadPoolExecutor(THREADS) as threads:
        results = list(threads.map(lambda part: list(call(segmenter.share(), part)), parts))
    assert [result for part in results for result in part] == list(call(segmenter, "".join(parts)))


def test_segmenters_of_a_dictionary_have_groupings_of_their_own(system, often):
    first, found = Segmenter(system), {}

    def segment(grouping):
        segmenter = Segmenter(first.dictionary, grouping=grouping)
        found[grouping] = [segmenter.wakati("abcdefgh") for _ in range(2000)]

    threads = [threading.Thread(target=segment, args=[grouping]) for grouping in (0, 3, 24)]
    for thread in threads:
        thread.start()
    for thread in threads:
        thread.join()
    for grouping, words in found.items():
        alone = Segmenter(system, grouping=grouping)
        assert words == [alone.wakati("abcdefgh")] * 2000 and alone.grouping == grouping
    assert len({tuple(words[0]) for words in found.values()}) == 3


def test_threads_that_open_at_once_get_whole_dictionaries(system, often):
    """Another thread may run while the names of the fields are read."""
    names = ["pos", "base_form", *(f"field{number}" for number in range(300))]

    def open_and_use(_):
        segmenter = Segmenter(system, fields=names)
        return segmenter("もも")[0].base_form, segmenter("zz")[0].base_or_surface

    with ThreadPoolExecutor(THREADS) as threads:
        assert {*threads.map(open_and_use, range(2000))} == {("もも", "zz")}


@pytest.mark.parametrize("name", ["lines", "wakati_lines", "parse_lines"])
def test_a_source_sees_the_context_of_the_thread_that_reads(system, often, name):
    """A source may read variables of the context (contextvars), whoever made the iterator."""
    segmenter, variable, found = Segmenter(system), contextvars.ContextVar("variable"), {}

    def source():
        while True:
            yield variable.get()

    def read_context(text):
        variable.set(text)
        wanted = next(getattr(segmenter, name)([text]))
        results = getattr(segmenter, name)(source())
        found[text] = all(next(results) == wanted for _ in range(500)), variable.get()

    texts = ["もも", "すもも", "zz", "もも zz"]
    threads = [threading.Thread(target=read_context, args=[text]) for text in texts]
    for thread in threads:
        thread.start()
    for thread in threads:
        thread.join()
    assert found == {text: (True, text) for text in texts} and variable.get(None) is None


@pytest.mark.parametrize("grouping", [-1, 2**32, 2**64])
def test_a_grouping_that_is_no_number_of_the_library(system, grouping):
    with pytest.raises(ValueError, match="grouping"):
        Segmenter(system, grouping=grouping)


@pytest.mark.parametrize("grouping", [2.0, "3", None])
def test_a_grouping_that_is_no_number(system, grouping):
    with pytest.raises(TypeError, match="integer"):
        Segmenter(system, grouping=grouping)


def test_a_grouping_may_be_any_kind_of_integer(system):
    """An integer of numpy is an example."""

    class Three:
        def __index__(self):
            return 3

    assert Segmenter(system, grouping=Three()).wakati("abcdefgh") == Segmenter(
        system, grouping=3
    ).wakati("abcdefgh")


def test_a_grouping_that_is_too_large(system):
    with pytest.raises(KumquatsieveError, match="K4") as error:
        Segmenter(system, grouping=1001)
    assert isinstance(error.value, ValueError)
    with pytest.raises(AttributeError):
        Segmenter(system).grouping = 3


def test_a_generator_may_be_called_by_other_threads_in_turn(system):
    results, found = Segmenter(system).lines(["もも"] * THREADS), []
    for _ in range(THREADS):
        thread = threading.Thread(target=lambda: found.append(next(results)[0].surface))
        thread.start()
        thread.join()
    assert found == ["もも"] * THREADS
