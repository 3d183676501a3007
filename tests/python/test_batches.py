"""Many lines, about a megabyte of which is segmented by one call of the extension."""
import io
import tracemalloc

import pytest

from kumquatsieve import Format, KumquatsieveError, Segmenter, _lines

LONGEST = 2**20
# Lines with each kind of line end, and with characters of one, three and four bytes. The last one
# has no line feed.
MIXED = "もも\r\nすもももも\r\n\r\n𠮷\n\r\r\nもも\r"
JOINED = ["もも", "すもも もも", "", "𠮷", "\r", "もも \r"]
WAYS = [Segmenter.wakati_lines, Segmenter.parse_lines]
KINDS = [
    str.encode,
    lambda text: text,
    lambda text: io.BytesIO(text.encode()),
    lambda text: io.StringIO(text, newline=""),
]


@pytest.fixture(scope="module")
def segmenter(system):
    return Segmenter(system)


@pytest.mark.parametrize("kind", KINDS)
def test_a_text_may_be_in_any_batches(segmenter, monkeypatch, kind):
    printed = list(segmenter.parse_lines(MIXED))
    for batch in range(1, len(MIXED.encode()) + 1):
        monkeypatch.setattr(_lines, "BATCH", batch)
        assert list(segmenter.wakati_lines(kind(MIXED))) == JOINED, batch
        assert list(segmenter.parse_lines(kind(MIXED))) == printed, batch


# A label, the text, the number of the line that is rejected, and the error.
REJECTED = [
    ("no text in line 3", "もも\nもも\n".encode() + b"\xff\nab\n", 3, "G3"),
    ("a half character before a line feed", "もも\nもも\n".encode() + b"a\xe3\x82\nab\n", 3, "G3"),
    ("a half character at the end", "もも\nもも\n".encode() + b"a\xe3\x82", 3, "G3"),
    ("a line feed within a character", b"ab\n\xe3\x82\n\x82\n", 2, "G3"),
    ("no text after a long line", b"z" * (LONGEST + 1) + b"\n\xff\n", 2, "G3"),
    ("no text in a long line", b"ab\n" + b"z" * (LONGEST + 1) + b"\xff\n", 2, "G3"),
    ("line 301", b"ab\n" * 300 + b"\xff\n" + b"ab\n" * 300 + b"\xff\n", 301, "G3"),
]


@pytest.mark.parametrize("way", [*WAYS, Segmenter.lines])
@pytest.mark.parametrize("what, text, line, code", REJECTED, ids=[row[0] for row in REJECTED])
def test_an_error_has_its_line_in_the_whole_text(
    segmenter, monkeypatch, way, what, text, line, code
):
    for batch in (64, 1000, 1_000_000):
        monkeypatch.setattr(_lines, "BATCH", batch)
        results, before = way(segmenter, io.BytesIO(text), errors="strict"), 0
        with pytest.raises(KumquatsieveError) as error:
            for _ in results:
                before += 1
        assert (error.value.line, error.value.code, before) == (line, code, line - 1), batch


def test_the_longest_line_that_is_one_part(segmenter):
    for more in (-1, 0, 1, LONGEST):
        for end in ("", "\n", "\r\n"):
            (line,) = segmenter.wakati_lines("z" * (LONGEST + more) + end)
            assert line.replace(" ", "") == "z" * (LONGEST + more)


# Bytes that are not UTF-8, and their replacement.
REPLACED = [
    (b"ab\ncd\n\xff\n", "ab\ncd\n\ufffd\n", 1),
    (b"ab\n\xe3\x82\n\xf0\x9f\x8d\n\x80\x80", "ab\n\ufffd\n\ufffd\n\ufffd\ufffd", 4),
    ("\ufffd\n".encode() + b"\xff\n", "\ufffd\n\ufffd\n", 1),
    (b"ab\r\n\xe3\x82\r\ncd", "ab\n\ufffd\ncd", 1),
]


@pytest.mark.parametrize("way", WAYS)
@pytest.mark.parametrize("text, mended, count", REPLACED)
def test_what_is_no_text_is_replaced_and_counted(segmenter, monkeypatch, way, text, mended, count):
    wanted = list(way(segmenter, mended))
    for batch in range(1, len(text) + 1):
        monkeypatch.setattr(_lines, "BATCH", batch)
        results = way(segmenter, io.BytesIO(text), errors="replace")
        assert (list(results), results.replaced) == (wanted, count), batch


MARK = "\uffff"
MARKED_FORMATS = [
    None,
    "wakati",
    Format(MARK),
    Format("%m" + MARK),
    Format("%m", bos=MARK),
    Format("%m", eos=MARK),
    Format("", eos=""),
]
MARKED_TEXTS = ["もも\nすもももも\n", f"もも\n{MARK}\n\n{MARK * 2}もも", "\n\n", ""]


@pytest.mark.parametrize("format", MARKED_FORMATS)
@pytest.mark.parametrize("text", MARKED_TEXTS)
def test_outputs_may_have_any_character(system, odd, marked, format, text):
    for image in (system, odd, marked):
        segmenter = Segmenter(image, format=format)
        assert list(segmenter.parse_lines(text)) == [
            segmenter.parse(line) for line in text.splitlines()
        ]


def test_an_error_after_a_mark_has_its_line(segmenter):
    results = segmenter.parse_lines(f"もも\n{MARK}\n".encode() + b"\xff\n", errors="strict")
    assert len([next(results), next(results)]) == 2
    with pytest.raises(KumquatsieveError, match="line 3: .*G3|line 3: .*UTF-8"):
        next(results)


class Counted(Segmenter):
    """A segmenter that counts the characters of each call for many lines."""

    def _print_lines(self, text, is_wakati):
        self.calls.append(len(text))
        return super()._print_lines(text, is_wakati)


@pytest.mark.parametrize("way", WAYS)
def test_a_megabyte_is_one_call(system, way):
    """No calls are made for single lines."""
    segmenter = Counted(system)
    segmenter.calls = []
    assert len(list(way(segmenter, io.BytesIO(b"ab\n" * 500_000)))) == 500_000
    assert segmenter.calls == [999_999, 500_001]


@pytest.mark.parametrize("way", WAYS)
def test_an_error_follows_the_lines_of_the_batches_before_it(system, monkeypatch, way):
    class Failing(Counted):
        def _print_lines(self, text, is_wakati):
            if self.calls:
                raise MemoryError
            return super()._print_lines(text, is_wakati)

    monkeypatch.setattr(_lines, "BATCH", 1)
    segmenter = Failing(system)
    segmenter.calls = []
    results = way(segmenter, "もも\nもも\nもも\n")
    assert next(results)
    with pytest.raises(MemoryError):
        next(results)


def test_an_output_may_be_long(segmenter):
    """It has more than 200 MB, as one text and as the texts of lines."""
    format = Format("もも" * 20_000, bos="<", eos=">\\n")
    other = Segmenter(segmenter.dictionary, format=format)
    for output in (other.parse("すももももすもも" * 200), *other.parse_lines("すもももも\n" * 3)):
        assert output.startswith("<もも") and output.endswith("もも>\n")
        assert output.count("も") % 40_000 == 0


class Endless(io.RawIOBase):
    """A file that never ends, which counts the bytes that were read."""

    given = 0

    def read(self, size):
        self.given += size
        return (b"ab\n" * size)[:size]


@pytest.mark.parametrize("way", WAYS)
def test_a_batch_is_read_where_it_is_wanted(segmenter, monkeypatch, way):
    monkeypatch.setattr(_lines, "BATCH", 3000)
    file = Endless()
    for number, _ in zip(range(10_000), way(segmenter, file)):
        assert file.given <= 3 * number + 3000


@pytest.mark.parametrize("way", WAYS)
def test_memory_does_not_grow_with_the_text(segmenter, monkeypatch, way):
    monkeypatch.setattr(_lines, "BATCH", 30_000)
    peaks = []
    for lines in (30_000, 300_000):
        tracemalloc.start()
        for _ in zip(range(lines), way(segmenter, Endless())):
            pass
        peaks.append(tracemalloc.get_traced_memory()[1])
        tracemalloc.stop()
    assert peaks[1] < 1.2 * peaks[0]
