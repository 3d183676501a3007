"""Each call over images that are invalid, over random lines and over long ones."""
import random
import subprocess
import sys
import threading
from pathlib import Path

import pytest

from kumquatsieve import Format, KumquatsieveError, Segmenter

TESTS = Path(__file__).resolve().parents[1]
sys.path.insert(0, str(TESTS))
from cli.cases.images import OTHER_SIZES, REJECTED, UNTESTED  # noqa: E402 (after its folder)

JSEG = TESTS.parent / "crates" / "jseg" / "out" / "jseg"
LINE = "すもももも"
LETTERS = "すもうち東京都a1 　。𠮷\t"


@pytest.fixture(scope="module")
def lines():
    choose = random.Random(1)
    return ["".join(choose.choices(LETTERS, k=choose.randrange(60))) for _ in range(10_000)]


@pytest.mark.parametrize("format, option", [(None, []), ("wakati", ["-O", "wakati"])])
@pytest.mark.parametrize("names", [["system"], ["system", "user"]])
def test_outputs_are_those_of_jseg(request, lines, format, option, names):
    """Ten thousand lines, as one text, each for itself, and as a file."""
    if not JSEG.exists():
        pytest.skip(f"{JSEG} is not built")
    system, *users = (request.getfixturevalue(name) for name in names)
    words = [JSEG, "-d", system, *(word for user in users for word in ("-u", user)), *option]
    text = "".join(f"{line}\n" for line in lines)
    printed = subprocess.run(words, input=text.encode(), stdout=subprocess.PIPE, check=True)
    segmenter = Segmenter(system, users, format=format)
    whole = printed.stdout.decode()
    assert segmenter.parse(text) == whole
    assert "".join(map(segmenter.parse, lines)) == whole
    assert "".join(segmenter.parse_lines(text.encode())) == whole
    if format == "wakati":
        joined = [line.rstrip(" ") for line in whole.split("\n")[:-1]]
        assert list(segmenter.wakati_lines(text)) == joined
        assert [" ".join(segmenter.wakati(line)) for line in lines] == joined
        assert [
            " ".join(word.surface for word in words) for words in segmenter.lines(lines)
        ] == joined
    else:
        rows = [f"{word.surface}\t{word.feature}" for word in segmenter.words(text)]
        assert rows == [row for row in whole.split("\n") if row not in ("EOS", "")]


def test_words_are_those_of_their_lines(system, lines):
    """The entries that were kept are those of the words, whatever came before."""
    segmenter, text = Segmenter(system), "\n".join(lines)
    fresh = [word for line in lines[:500] for word in Segmenter(system).words(line)]
    found = segmenter.words(text)
    for one, other in zip(found, fresh):
        assert (one.surface, one.feature, one.fields) == (
            other.surface,
            other.feature,
            other.fields,
        )
        assert (one.cost, one.left_id, one.token) == (other.cost, other.left_id, other.token)
    for word in found:
        assert word.surface == text[word.start : word.end]
    assert found.total == sum(words.total for words in segmenter.lines(lines))


def test_more_entries_than_are_kept(images):
    """Every entry has its own feature, also after others have replaced it."""
    segmenter = Segmenter(images / "large.img")
    for _ in range(2):
        for number in range(5000):
            (word,) = segmenter.words(f"w{number}")
            assert word.feature == f"{number:01000}"


def test_a_long_line(system):
    segmenter = Segmenter(system)
    assert segmenter.wakati(LINE * 20_000) == [LINE[:3], LINE[3:]] * 20_000
    words = segmenter.words(LINE * 20_000)
    assert len(words) == 40_000 and words[-1].end == 100_000 and words[-1].byte_end == 300_000


def opening(image, users, test_digest):
    with pytest.raises(KumquatsieveError) as error:
        Segmenter(image, users, test_digest=test_digest)
    return error.value


@pytest.mark.parametrize("number", range(len(REJECTED)), ids=[text for _, text in REJECTED])
def test_an_image_that_is_invalid(system, number):
    """Each image that `tests/cli/run.py` rejects, as the system's and a user's. The SHA-256 is
    tested only if the caller requests it."""
    image, text = REJECTED[number]
    code, _, *numbers = text.split()
    for tested in [True] if code == "L8" else [False, True]:
        for error in (opening(image, [], tested), opening(system, [image], tested)):
            assert error.code == code and isinstance(error, ValueError)
            assert not numbers or error.number == int(numbers[0])


@pytest.mark.parametrize("name", OTHER_SIZES)
def test_an_image_for_another_system_dictionary(system, user, name):
    error = opening(Path(system).read_bytes(), [Path(user).read_bytes(), OTHER_SIZES[name]], False)
    assert (error.code, error.image) == ("O3", 2)


@pytest.mark.parametrize("name, feature", [("digest.img", "X"), ("feature.img", "Y")])
def test_a_wrong_digest_is_not_tested(system, name, feature):
    segmenter = Segmenter(system, [UNTESTED[name]])
    for one in (segmenter, segmenter.share()):
        assert [(word.surface, word.feature) for word in one.words("a")] == [("a", feature)]


@pytest.mark.parametrize(
    "format, printed",
    [
        (None, "すもも\t名詞,すもも\nもも\t名詞,もも\nEOS\n"),
        (Format("%m/%f[0] ", eos="\\n"), "すもも/名詞 もも/名詞 \n"),
        (Format("%m", unk="", bos="[", eos="]"), "[すもももも]"),
        (Format("%m\0", eos=""), None),
    ],
)
def test_formats(system, format, printed):
    if printed is None:
        with pytest.raises(ValueError, match="null"):
            Segmenter(system, format=format)
    else:
        assert Segmenter(system, format=format).parse(LINE) == printed


def test_shares_in_threads(system, user):
    first, wrong = Segmenter(system, [user]), []
    shares = [first.share() for _ in range(4)]
    assert shares[0].parse(LINE) == "すもももも\t名詞,すもももも\nEOS\n"

    def segment(one):
        wrong.extend(words for _ in range(500) for words in [one.wakati(LINE)] if words != [LINE])

    threads = [threading.Thread(target=segment, args=[one]) for one in [*shares, shares[0]]]
    for thread in threads:
        thread.start()
    first.close()
    for thread in threads:
        thread.join()
    assert wrong == [] and shares[0].wakati(LINE) == [LINE]
