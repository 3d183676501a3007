"""Line ends are dropped, and line feeds are no words."""
from collections import UserString

import pytest

from kumquatsieve import Format, Segmenter

WORDS = ["すもも", "もも"]
PRINTED = "すもも\t名詞,すもも\nもも\t名詞,もも\nEOS\n"
# A line, and its surfaces.
ENDS = [
    ("すもももも", WORDS),
    ("すもももも\n", WORDS),
    ("すもももも\r\n", WORDS),
    ("", []),
    ("\n", []),
    ("\r\n", []),
    ("すもももも \n", WORDS),
]
# Texts of several lines, and their words.
MORE = [
    ("すもも\nもも", WORDS),
    ("すもも\nもも\n", WORDS),
    ("すもも\n\n", ["すもも"]),
    ("\nすもも", ["すもも"]),
    ("すもも\r\n\r\n", ["すもも"]),
    ("\n\n", []),
    ("す\nもも", ["す", "もも"]),
    ("\0\nもも\n\0", ["\0", "もも", "\0"]),
]
# A line, and the characters of it that are kept.
KEPT = [
    ("すもも\r", "すもも\r"),
    ("すもも\r\r\n", "すもも\r"),
    ("すもも\u2028", "すもも\u2028"),
    ("すもも\x0b", "すもも\x0b"),
    ("すもも\x85\n", "すもも\x85"),
]


class Encodes:
    """A class with a method of str, such as a tag of HTML."""

    def encode(self, *_):
        return b"a"


class Own(str):
    """A caller's own subclass of str, with methods of its own."""

    def encode(self, *_):
        return b"other"

    def __contains__(self, _):
        return False


NO_LINES = [None, 1.5, b"a", ["a"], UserString("a"), Encodes()]

FORMAT = Format("%m/", eos="")

CALLS = [
    lambda segmenter, line: [word.surface for word in segmenter.words(line)],
    lambda segmenter, line: [node.surface for node in segmenter.lattice(line).best],
    Segmenter.wakati,
    lambda segmenter, line: Segmenter(segmenter.dictionary, format=FORMAT)
    .parse(line)
    .split("/")[:-1],
    lambda segmenter, line: [
        word for all in segmenter.wakati_lines(line) for word in all.split(" ") if word
    ],
]


@pytest.fixture(scope="module")
def segmenter(system):
    return Segmenter(system)


@pytest.mark.parametrize("call", CALLS)
@pytest.mark.parametrize("line, words", ENDS)
def test_a_lines_own_end_is_dropped(segmenter, call, line, words):
    assert call(segmenter, line) == words


@pytest.mark.parametrize("call", [CALLS[0], *CALLS[2:]])
@pytest.mark.parametrize("text, words", MORE)
def test_several_lines_give_their_words(segmenter, call, text, words):
    assert call(segmenter, text) == words


@pytest.mark.parametrize("text", [text for text, _ in [*ENDS, *MORE, *KEPT]])
def test_offsets_count_in_the_text_of_the_caller(segmenter, text):
    for whole in (text, text * 3, f"𠮷\n{text}"):
        for word in segmenter(whole):
            assert word.surface == whole[word.start : word.end]
            assert word.surface.encode() == whole.encode()[word.byte_start : word.byte_end]


@pytest.mark.parametrize("line, words", ENDS)
def test_a_text_without_a_line_is_an_empty_line(segmenter, line, words):
    """As in MeCab, the output of an empty text is EOS."""
    printed = segmenter.parse(line)
    assert printed.endswith("EOS\n") and printed.count("EOS") == 1
    assert printed.count("\n") == 1 + len(words)


@pytest.mark.parametrize("call", CALLS)
@pytest.mark.parametrize("line, kept", KEPT)
def test_other_characters_are_kept(segmenter, call, line, kept):
    assert "".join(call(segmenter, line)) == kept


@pytest.mark.parametrize("call", CALLS)
def test_a_kind_of_str_is_its_text(segmenter, call):
    assert call(segmenter, Own("すもももも\n")) == WORDS
    assert (
        list(segmenter.wakati_lines([Own("すもももも\n")]))
        == list(segmenter.wakati_lines(Own("すもももも")))
        == [" ".join(WORDS)]
    )


@pytest.mark.parametrize("call", CALLS[:-1])
@pytest.mark.parametrize("line", NO_LINES)
def test_what_is_no_text_is_named(segmenter, call, line):
    with pytest.raises(TypeError, match=f"a text must be a str, not {type(line).__name__}"):
        call(segmenter, line)


def test_the_lines_of_a_file_are_segmented_as_they_come(segmenter, tmp_path):
    path = tmp_path / "text"
    path.write_bytes("すもももも\r\n\nもも".encode())
    for newline in (None, "", "\n"):
        with open(path, encoding="utf-8", newline=newline) as file:
            assert [segmenter.wakati(line) for line in file] == [WORDS, [], ["もも"]]
    assert segmenter.parse("すもももも\n") == PRINTED
