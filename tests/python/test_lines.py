"""Many lines, of texts, of files or of iterables, segmented at once or as they are read."""
import array
import io
import mmap
import os
import pickle
import re
import sys
from pathlib import Path

import pytest

from kumquatsieve import Format, KumquatsieveError, Segmenter, _lines

LINES = ["すもももも", "", " すもももも  zz", "もも"]
TEXT = "".join(line + "\n" for line in LINES)
SURFACES = [["すもも", "もも"], [], ["すもも", "もも", "zz"], ["もも"]]
JOINED = ["すもも もも", "", "すもも もも zz", "もも"]
PRINTED = [
    "すもも\t名詞,すもも\nもも\t名詞,もも\nEOS\n",
    "EOS\n",
    "すもも\t名詞,すもも\nもも\t名詞,もも\nzz\t未知\nEOS\n",
    "もも\t名詞,もも\nEOS\n",
]


def mapped(text):
    with open(os.memfd_create("text"), "w+b") as file:
        file.write(text)
        file.flush()
        return mmap.mmap(file.fileno(), 0)


SOURCES = {
    "str": lambda text: text,
    "bytes": str.encode,
    "bytearray": lambda text: bytearray(text.encode()),
    "memoryview": lambda text: memoryview(text.encode()),
    "mmap": lambda text: mapped(text.encode()),
    "a file of text": io.StringIO,
    "a file of bytes": lambda text: io.BytesIO(text.encode()),
    "lines": lambda text: text.split("\n")[:-1],
    "lines with their ends": lambda text: text.splitlines(keepends=True),
    "a generator of bytes": lambda text: (line for line in text.encode().splitlines(keepends=True)),
}
WAYS = {
    "lines": (
        lambda segmenter, source, **how: [
            [word.surface for word in words] for words in segmenter.lines(source, **how)
        ],
        SURFACES,
    ),
    "wakati_lines": (
        lambda segmenter, source, **how: list(segmenter.wakati_lines(source, **how)),
        JOINED,
    ),
    "parse_lines": (
        lambda segmenter, source, **how: list(segmenter.parse_lines(source, **how)),
        PRINTED,
    ),
}
BEGIN = {
    "lines": Segmenter.lines,
    "wakati_lines": Segmenter.wakati_lines,
    "parse_lines": Segmenter.parse_lines,
}
# Bytes that are not UTF-8. Their text is that of Python's decoder.
BAD = [
    b"\xff",
    b"\xe3\x81",
    b"a\xc0\xafb",
    b"\xed\xa0\x80",
    b"\xf0\x9f\x8d",
    b"\xef\xbf\xbd\xff\xef\xbf\xbd",
    b"\x80\x80",
]


@pytest.fixture(scope="module")
def segmenter(system):
    return Segmenter(system)


@pytest.mark.parametrize("batch", [1, 2, 7, 1_000_000])
@pytest.mark.parametrize("source", SOURCES)
@pytest.mark.parametrize("way", WAYS)
def test_each_source_gives_its_lines(segmenter, monkeypatch, way, source, batch):
    monkeypatch.setattr(_lines, "BATCH", batch)
    call, wanted = WAYS[way]
    assert call(segmenter, SOURCES[source](TEXT)) == wanted


# Texts without a line feed at the end, with carriage returns, with characters that end no line, and
# without a line.
ENDS = [
    ("もも", ["もも"]),
    ("もも\r\nもも\r\n", ["もも", "もも"]),
    ("もも\r", ["もも \r"]),
    ("\n\n", ["", ""]),
    ("", []),
    ("も\u2028も", ["も \u2028 も"]),
]


@pytest.mark.parametrize("source", ["str", "bytes", "a file of bytes"])
@pytest.mark.parametrize("text, joined", ENDS)
def test_ends_of_lines(segmenter, source, text, joined):
    assert list(segmenter.wakati_lines(SOURCES[source](text))) == joined
    assert [
        " ".join(word.surface for word in words) for words in segmenter.lines(SOURCES[source](text))
    ] == joined


@pytest.mark.parametrize("way", WAYS)
@pytest.mark.parametrize("source", ["str", "a file of bytes", "lines"])
def test_a_line_of_any_length(segmenter, way, source):
    """It is segmented in parts of at most a mebibyte, which join without a gap."""
    long = "z" * (2**21 + 5) + "もも"
    results = list(BEGIN[way](segmenter, SOURCES[source](f"もも\n{long}\nもも\n")))
    assert len(results) == 3 and results[0] == results[2]
    call, _ = WAYS[way]
    assert call(segmenter, [long])[0] == call(segmenter, f"{long}\n")[0]
    text = f"もも\n{long}\nもも\n"
    words = segmenter.words(text)
    assert "".join(word.surface for word in words[1:-1]) == long
    assert all(text[word.start : word.end] == word.surface for word in words)
    gaps = [two.start - one.end for one, two in zip(words, words[1:])]
    assert (gaps[0], gaps[-1], set(gaps[1:-1])) == (1, 1, {0})


@pytest.mark.parametrize("batch", [3, 1_000_000])
@pytest.mark.parametrize("way", WAYS)
@pytest.mark.parametrize("bad", BAD)
def test_what_is_no_utf_8_is_rejected_or_replaced(segmenter, monkeypatch, way, bad, batch):
    monkeypatch.setattr(_lines, "BATCH", batch)
    text, call = b"a\n" + bad + b"\nb\n", BEGIN[way]
    results = call(segmenter, io.BytesIO(text), errors="strict")
    next(results)
    with pytest.raises(ValueError, match="line 2: .*not UTF-8") as error:
        next(results)
    assert (error.value.code, error.value.line) == ("G3", 2)
    assert error.value.position == (1 if bad[:1] in (b"a", b"\xef") else 0)
    with pytest.raises(StopIteration):
        next(results)
    mended = text.decode("utf-8", "replace")
    for errors in (None, "replace"):
        results = call(segmenter, io.BytesIO(text), errors=errors)
        assert list(results) == list(call(segmenter, mended))
        assert results.replaced == mended.count("\ufffd") - text.count("\ufffd".encode())


@pytest.mark.parametrize("source", [lambda text: text, io.StringIO, lambda text: [text]])
@pytest.mark.parametrize("way", WAYS)
def test_half_of_a_pair_is_rejected_or_replaced(segmenter, way, source):
    with pytest.raises(ValueError, match="line 1: ") as error:
        next(BEGIN[way](segmenter, source("a\udc80b\ud800"), errors="strict"))
    assert error.value.position == 1
    results = BEGIN[way](segmenter, source("a\udc80b\ud800"))
    assert list(results) == list(BEGIN[way](segmenter, "a\ufffdb\ufffd"))
    assert results.replaced == 2
    results = BEGIN[way](segmenter, source("\ud842\udfb7"))
    assert list(results) == list(BEGIN[way](segmenter, "𠮷")) and results.replaced == 0


@pytest.mark.parametrize("way", WAYS)
def test_errors_is_the_segmenters_by_default(system, way):
    with pytest.raises(ValueError, match="line 1"):
        next(BEGIN[way](Segmenter(system, errors="strict"), b"\xff"))


@pytest.mark.parametrize("way", WAYS)
def test_errors_has_two_values(segmenter, way):
    with pytest.raises(ValueError, match="replace or strict, not 'ignore'"):
        BEGIN[way](segmenter, TEXT, errors="ignore")


@pytest.mark.parametrize("bad", [None, float("nan"), 3, ["もも"]])
@pytest.mark.parametrize("way", WAYS)
def test_what_is_no_line_is_named(segmenter, way, bad):
    """An example is a missing value in a column of pandas."""
    results = BEGIN[way](segmenter, ["もも", bad, "もも"])
    next(results)
    with pytest.raises(
        TypeError, match=f"line 2: a line must be a str or bytes, not {type(bad).__name__}"
    ):
        next(results)


@pytest.mark.parametrize("source", [None, 3, Path("text.txt"), object()])
@pytest.mark.parametrize("way", WAYS)
def test_what_is_no_source_is_named_at_once(segmenter, way, source):
    with pytest.raises(
        TypeError,
        match=f"a source must be a text, an open file or lines, not {type(source).__name__}",
    ):
        BEGIN[way](segmenter, source)


class LongBytes(bytes):
    """Bytes whose methods lie."""

    def __len__(self):
        return 1 << 40

    def __bytes__(self):
        return self

    def __getitem__(self, _):
        return self

    split = replace = endswith = decode = None


class LongArray(bytearray):
    """A bytearray whose methods lie."""

    __len__, __getitem__ = LongBytes.__len__, LongBytes.__getitem__
    split = replace = endswith = decode = None


class LongText(str):
    """A str whose methods lie."""

    __len__, __getitem__, __str__ = LongBytes.__len__, LongBytes.__getitem__, LongBytes.__bytes__
    split = replace = endswith = encode = None


class LongNumbers(array.array):
    """Numbers whose methods lie."""

    __len__, __getitem__ = LongBytes.__len__, LongBytes.__getitem__


LYING = {
    "bytes": LongBytes(TEXT.encode()),
    "bytearray": LongArray(TEXT.encode()),
    "str": LongText(TEXT),
    "lines of bytes": [LongBytes(line.encode()) for line in LINES],
    "lines of bytearrays": [LongArray(line.encode() + b"\n") for line in LINES],
    "lines of str": [LongText(line + "\n") for line in LINES],
    "nine times five bytes": memoryview(TEXT.encode()).cast("B", [9, 5]),
    "every second byte": memoryview(b"".join(b"%c\n" % byte for byte in TEXT.encode()))[::2],
}
READ = [
    LongBytes,
    LongArray,
    lambda data: LongText(data.decode()),
    memoryview,
    lambda data: LongNumbers("B", data),
]


class Reads:
    """A file of which each read returns the next one of some things, and then nothing."""

    def __init__(self, *things):
        self.things = list(things)

    def read(self, _):
        return self.things.pop(0) if self.things else b""


@pytest.mark.parametrize("batch", [6, 1_000_000])
@pytest.mark.parametrize("what", LYING)
@pytest.mark.parametrize("way", WAYS)
def test_a_source_is_what_it_has_and_not_what_it_says(segmenter, monkeypatch, way, what, batch):
    """C must not rely on the length that an object reports."""
    monkeypatch.setattr(_lines, "BATCH", batch)
    call, wanted = WAYS[way]
    for how in ({}, {"errors": "replace"}, {"errors": "strict"}):
        assert call(segmenter, LYING[what], **how) == wanted


@pytest.mark.parametrize("kind", READ)
@pytest.mark.parametrize("way", WAYS)
def test_what_is_read_is_what_it_has_and_not_what_it_says(segmenter, way, kind):
    call, wanted = WAYS[way]
    assert call(segmenter, Reads(*(kind(line.encode() + b"\n") for line in LINES))) == wanted


@pytest.mark.parametrize(
    "bad", [5, 0, 10**12, True, 1.5, [b"a"], object(), array.array("I", [5])]
)
@pytest.mark.parametrize("way", WAYS)
def test_what_a_read_may_not_return_is_named(segmenter, way, bad):
    """A number is not bytes, although `bytes` accepts it."""
    results = BEGIN[way](segmenter, Reads(b"ab\n", bad))
    if way == "lines":
        next(results)
    with pytest.raises(TypeError, match=f"must return bytes, not {type(bad).__name__}"):
        list(results)
    with pytest.raises(TypeError, match=f"must return str or bytes, not {type(bad).__name__}"):
        next(BEGIN[way](segmenter, Reads(bad)))


@pytest.mark.parametrize("first, second, last", [("ab\n", b"ab\n", b""), (b"ab\n", "ab\n", "")])
@pytest.mark.parametrize("way", WAYS)
def test_a_file_is_of_text_or_of_bytes(segmenter, way, first, second, last):
    results = BEGIN[way](segmenter, Reads(first, second))
    next(results)
    with pytest.raises(
        TypeError, match=f"must return {type(first).__name__}, not {type(second).__name__}"
    ):
        next(results)
    assert len(list(BEGIN[way](segmenter, Reads(first, last, first)))) == 1


class OneByOne:
    """A file of which each read returns one byte or one character."""

    def __init__(self, text):
        self.text, self.at = text, 0

    def read(self, _):
        self.at += 1
        return self.text[self.at - 1 : self.at]


@pytest.mark.parametrize("text", [TEXT, TEXT.encode(), TEXT[:-1].encode()])
@pytest.mark.parametrize("way", WAYS)
def test_a_file_may_give_a_byte_at_a_time(segmenter, way, text):
    call, wanted = WAYS[way]
    assert call(segmenter, OneByOne(text)) == wanted


def work_of(file):
    """Returns how many bytes, characters and items the values have that `pieces` sets its variables
    to while it reads a file, and what it yields."""
    work, seen, code = 0, {}, _lines.pieces.__code__

    def trace(frame, *_):
        nonlocal work
        if frame.f_code is not code:
            return None
        for name, value in frame.f_locals.items():
            if isinstance(value, (str, bytes, list)) and seen.get(name) is not value:
                work += len(value)
            seen[name] = value
        return trace

    sys.settrace(trace)
    try:
        pieces = list(_lines.pieces(file))
    finally:
        sys.settrace(None)
    return pieces, work


@pytest.mark.parametrize("sign", [b"z", "z", "も"])
def test_a_byte_of_a_long_line_takes_as_many_steps_as_one_of_a_short_line(sign):
    """The time of a line is not the square of its length: what was read before is not copied at
    each read."""
    file = OneByOne(sign * 20_000)
    pieces, work = work_of(file)
    assert pieces == [sign * 20_000] and file.at == 20_001
    assert work <= 4 * 20_000


@pytest.mark.parametrize("bad", [5, 0, 10**12, True, 1.5, [b"a"], object()])
@pytest.mark.parametrize("way", WAYS)
def test_what_an_iterable_may_not_give_is_named(segmenter, way, bad):
    """A number is not bytes, although `bytes` accepts it."""
    results = BEGIN[way](segmenter, [b"ab\n", bad])
    next(results)
    with pytest.raises(TypeError, match=f"line 2: .* not {type(bad).__name__}"):
        next(results)


@pytest.mark.parametrize("way", WAYS)
def test_lines_may_be_of_text_and_of_bytes(segmenter, way):
    first, second = BEGIN[way](segmenter, ["もも", "もも\r\n".encode()])
    assert first == second


@pytest.mark.parametrize("line", [b"ab", None, 5, bytearray(b"ab")])
@pytest.mark.parametrize("call", ["words", "__call__", "wakati", "parse", "lattice"])
def test_a_line_is_a_text(segmenter, call, line):
    with pytest.raises(TypeError, match=f"a text must be a str, not {type(line).__name__}"):
        getattr(segmenter, call)(line)


@pytest.mark.parametrize("way", WAYS)
def test_an_exception_of_the_source_follows_the_lines_before_it(segmenter, way):
    def source():
        yield from LINES[:2]
        raise OSError("the source's")

    results = BEGIN[way](segmenter, source())
    assert len([next(results), next(results)]) == 2
    with pytest.raises(OSError, match="the source's"):
        next(results)
    with pytest.raises(StopIteration):
        next(results)


CHANGES = [
    bytearray.clear,
    lambda text: text.extend(text),
    bytearray.pop,
    lambda text: text.__setitem__(slice(None), b"\xff" * len(text)),
]


@pytest.mark.parametrize("change", CHANGES)
@pytest.mark.parametrize("way", WAYS)
def test_a_text_that_changes_is_the_text_of_the_call(segmenter, monkeypatch, way, change):
    monkeypatch.setattr(_lines, "BATCH", 8)
    call, wanted = WAYS[way]
    for kind in (bytearray, lambda text: memoryview(bytearray(text))):
        text = kind(TEXT.encode())
        results, changed = BEGIN[way](segmenter, text), getattr(text, "obj", text)
        first = next(results)
        if isinstance(text, memoryview):
            text.release()
        change(changed)
        rest = WAYS[way][0](segmenter, TEXT)
        assert [first, *results] == [*BEGIN[way](segmenter, TEXT)] and rest == wanted
        assert results.replaced == 0


@pytest.mark.parametrize("way", WAYS)
def test_a_text_may_change_while_it_is_read(segmenter, way):
    """The items of an iterable, too, are those of the moment when they come."""

    def source():
        line = bytearray()
        for text in LINES:
            line[:] = text.encode()
            yield line

    call, wanted = WAYS[way]
    assert call(segmenter, source()) == wanted


def test_a_reader_without_bytes_now(segmenter):
    class Waiting(io.RawIOBase):
        def read(self, *_):
            return None

    with pytest.raises(BlockingIOError):
        next(segmenter.wakati_lines(Waiting()))


@pytest.mark.parametrize("way", WAYS)
def test_an_item_of_several_lines_is_one_result(segmenter, way):
    """So a list of documents gives as many results."""
    items = ["もも", "もも\nすもも\r\n\nもも", "", "\n", "もも\n"]
    wanted = {
        "lines": [["もも"], ["もも", "すもも", "もも"], [], [], ["もも"]],
        "wakati_lines": ["もも", "もも すもも もも", "", "", "もも"],
        "parse_lines": [segmenter.parse(item) for item in items],
    }
    assert WAYS[way][0](segmenter, items) == wanted[way]
    assert WAYS[way][0](segmenter, [item.encode() for item in items]) == wanted[way]


def test_lines_come_as_soon_as_they_are_there(segmenter):
    """Each result is returned before the next line is read, as a terminal needs."""
    read_lines = []

    def source():
        for line in LINES:
            read_lines.append(line)
            yield line

    for number, _ in enumerate(segmenter.lines(source()), 1):
        assert len(read_lines) == number


@pytest.mark.parametrize("way", WAYS)
def test_nothing_is_held_between_two_lines(system, monkeypatch, way):
    """A caller may close the segmenter within the loop. The next iteration raises the error."""
    monkeypatch.setattr(_lines, "BATCH", 1)
    segmenter = Segmenter(system)
    results = BEGIN[way](segmenter, ["もも"] * 2)
    next(results)
    segmenter.close()
    with pytest.raises(ValueError, match="closed"):
        for _ in results:
            pass


FORMATS = [
    (None, PRINTED[0]),
    ("wakati", "すもも もも \n"),
    (Format("%m/%f[0] ", eos="\\n"), "すもも/名詞 もも/名詞 \n"),
    (Format("%m", unk="", bos="[", eos="]"), "[すもももも]"),
    (("%m,", None, "", ""), "すもも,もも,"),
    (("%m,", None, None, None), "すもも,もも,EOS\n"),
    (Format("%m", "?", "\\n", "."), "\nすもももも."),
]


@pytest.mark.parametrize("format, printed", FORMATS)
def test_the_segmenters_format(system, format, printed):
    first = Segmenter(system, format=format)
    for segmenter in (first, first.share(), pickle.loads(pickle.dumps(first))):
        assert segmenter.wakati("すもももも\n") == ["すもも", "もも"]
        assert segmenter.parse("すもももも\n") == printed
        assert list(segmenter.parse_lines("すもももも\nすもももも")) == [printed, printed]
        assert Segmenter(segmenter.dictionary, format=Format("%m", eos="")).parse("もも") == "もも"


# The options of the format for one call, and the output.
PARTS = [
    ({}, PRINTED[0]),
    ({"eos": ""}, PRINTED[0][:-4]),
    ({"bos": "[", "eos": "]"}, "[" + PRINTED[0][:-4] + "]"),
    ({"node": "%m,", "unk": "?"}, "すもも,もも,EOS\n"),
    ({"node": ""}, "EOS\n"),
]


@pytest.mark.parametrize("parts, printed", PARTS)
def test_each_part_of_a_format_is_obeyed(system, parts, printed):
    assert Segmenter(system, format=Format(**parts)).parse("すもももも") == printed


def test_a_part_for_unknown_words_alone(system):
    segmenter = Segmenter(system, format=Format(unk="?", eos=""))
    assert segmenter.parse("もも zz") == "もも\t名詞,もも\n?"


def test_formats_are_rejected_when_the_segmenter_is_made(system):
    with pytest.raises(KumquatsieveError, match="P2"):
        Segmenter(system, format=Format("%m", eos=".%q"))
    for format in ("chasen", 3, ("%m", "%m"), b"wakati"):
        with pytest.raises(ValueError, match=f"{re.escape(repr(format))} is not a format"):
            Segmenter(system, format=format)
    for format in (Format(3), Format("%m", bos=1.5), Format("%m", eos=b"")):
        with pytest.raises(
            TypeError, match="a text of a format must be a str or None, not (int|float|bytes)"
        ):
            Segmenter(system, format=format)


def test_many_lines_are_what_one_line_gives(segmenter):
    """The text has more than a megabyte, so that it is read in parts."""
    lines = [line * (number % 5) for number in range(30_000) for line in LINES]
    text = "\n".join(lines) + "\n"
    assert len(text.encode()) > 2_000_000
    assert list(segmenter.wakati_lines(text)) == [
        " ".join(segmenter.wakati(line)) for line in lines
    ]
    assert "".join(segmenter.parse_lines(io.StringIO(text))) == "".join(map(segmenter.parse, lines))
