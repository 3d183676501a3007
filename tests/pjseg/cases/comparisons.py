"""What pjseg is compared with jseg on: formats, images, texts, and standard streams that fail."""
import os
import random
import resource
from contextlib import contextmanager
from pathlib import Path
from typing import BinaryIO, Callable, ContextManager, Iterator, Mapping, NamedTuple, Tuple

JOBS = range(1, 9)
LETTERS = "すもうち東京都a1 　。𠮷\t"
# The size of the pieces that a text is divided into, in bytes.
PIECE = 1 << 20
# The size of the longest line, in bytes.
LINE_MAX = 1_048_576


def made_up(size: int) -> bytes:
    """Returns lines of about `size` bytes in all."""
    choose = random.Random(1)
    lines = (
        "".join(choose.choices(LETTERS, k=choose.randrange(60))) + "\n" for _ in range(size // 70)
    )
    return "".join(lines).encode()


@contextmanager
def kept(folder: Path) -> Iterator[BinaryIO]:
    """Opens a file whose bytes are compared."""
    with open(folder / "written", "w+b") as file:
        yield file


@contextmanager
def full(_: Path) -> Iterator[BinaryIO]:
    with open("/dev/full", "wb") as file:
        yield file


@contextmanager
def unread(_: Path) -> Iterator[BinaryIO]:
    """Opens a pipe without a reader."""
    reader, writer = os.pipe()
    os.close(reader)
    with open(writer, "wb") as file:
        yield file


class Case(NamedTuple):
    """What both programs are run on, and how jseg has to end.

    Images have the names of `Setup.images`, also in `options`.
    """

    what: str
    options: Tuple[str, ...] = ()
    text: bytes = b""
    # The environment variables of the library whose calls fail.
    failing: Mapping[str, str] = {}
    # Opens standard output.
    output: Callable[[Path], ContextManager[BinaryIO]] = kept
    status: int = 0
    # The image of -d.
    image: str = "SYSTEM"
    # What the error contains.
    error: str = ""
    # The size of the largest output in bytes, above which a write fails. 0: no limit.
    max_file: int = 0
    # The standard streams that are closed.
    closed: Tuple[int, ...] = ()
    # Whether standard input is a directory.
    is_directory: bool = False
    # Options of pjseg alone, and of jseg alone.
    pjseg: Tuple[str, ...] = ()
    jseg: Tuple[str, ...] = ()

    def set_up(self) -> None:
        """Prepares the process before the program starts."""
        if self.max_file:
            resource.setrlimit(resource.RLIMIT_FSIZE, (self.max_file, self.max_file))
        for stream in self.closed:
            os.close(stream)

    def written(self, file: BinaryIO) -> bytes:
        return os.pread(file.fileno(), 1 << 30, 0) if self.output is kept else b""


ALL_ITEMS = (
    "-F",
    "%m\\t%M|%H|%f[0]|%c|%s|%phl|%phr|%pC|%pn|%pc|%ps|%pe|%t\\n",
    "-B",
    "%S|%L\\n",
    "-E",
    "%pc%%\\n",
)

FORMATS = [
    Case("default format"),
    Case("wakati", ("-O", "wakati")),
    Case("all items", ALL_ITEMS),
    Case("unknown words of their own", ("-F", "%m/", "-U", "<%m>/", "-E", "\\n")),
    Case("ungrouped unknown words", ("-M", "0", "-O", "wakati")),
    Case("a user dictionary", ("-u", "USER")),
]

# A damaged image has another last byte, which is one of its checksum. pjseg tests checksums with
# --test-digest, and jseg without --skip-digest.
TESTED = ("--test-digest",)
UNTESTED = ("--skip-digest",)
IMAGES = [
    Case("another digest", image="DAMAGED", pjseg=TESTED, status=1, error="L8 Digest"),
    Case(
        "another digest, a user's",
        ("-u", "DAMAGED USER"),
        pjseg=TESTED,
        status=1,
        error="L8 Digest",
    ),
    Case("other digests", ("-u", "DAMAGED USER"), image="DAMAGED", jseg=UNTESTED),
    Case(
        "other digests, without their test",
        ("--skip-digest", "-u", "DAMAGED USER"),
        image="DAMAGED",
    ),
    Case("the digests", ("-u", "USER"), pjseg=TESTED),
    Case("the digests, without their test", ("-u", "USER", "--skip-digest")),
    Case("images that are copied", ("-u", "USER"), pjseg=("--copy",)),
    Case(
        "another digest that is copied",
        image="DAMAGED",
        pjseg=("--copy", "--test-digest"),
        status=1,
        error="L8 Digest",
    ),
    Case(
        "another digest that is copied, without the test",
        image="DAMAGED",
        pjseg=("--copy",),
        jseg=UNTESTED,
    ),
    Case(
        "another digest after what is no user dictionary",
        ("-u", "SYSTEM", "-u", "DAMAGED USER"),
        pjseg=TESTED,
        status=1,
        error="L8 Digest",
    ),
    Case(
        "no user dictionary, without the test",
        ("-u", "SYSTEM", "-u", "DAMAGED USER", "--skip-digest"),
        status=1,
        error="O2 NotUser 0",
    ),
    Case(
        "no user dictionary, with neither test",
        ("-u", "SYSTEM", "-u", "DAMAGED USER"),
        jseg=UNTESTED,
        status=1,
        error="O2 NotUser 0",
    ),
]

TEXT = made_up(4_000_000)


def with_line(line: bytes, at: int) -> bytes:
    """Returns the text with another line, after the line that has byte `at`."""
    end = TEXT.index(b"\n", at) + 1
    return TEXT[:end] + line + b"\n" + TEXT[end:]


LONG, LONGER = b"a" * LINE_MAX, b"a" * (LINE_MAX + 1)
PLACES = [0, 700_000, PIECE - 100, PIECE + 100, 2 * PIECE, 3 * PIECE, 3 * PIECE + 500_000]

TEXTS = [
    Case("empty", text=b""),
    Case("a line feed", text=b"\n"),
    Case("a line without a line feed", text="すもも".encode()),
    Case("no line feed at the end", text=TEXT[:-1]),
    Case("line feeds", text=b"\n" * 3_000_000),
    Case("blank lines", text=b" \t \n" * 700_000),
    Case("carriage returns", text="すもも\r\n".encode() * 300_000),
    Case("the longest line", text=LONG),
    Case("the longest lines", text=(LONG + b"\n") * 3),
    Case("the longest lines, no line feed at the end", text=(LONG + b"\n") * 2 + LONG),
    Case(
        "a piece and a byte",
        text=TEXT[: TEXT.index(b"\n", PIECE - 200) + 1].ljust(PIECE, b"a") + b"\n",
    ),
    Case(
        "a piece, then a line",
        text=TEXT[: TEXT.index(b"\n", PIECE - 200) + 1].ljust(PIECE - 1, b"a") + b"\nb",
    ),
    Case("a bad line alone", status=1, text=b"\xff"),
    Case("a bad line at the end", status=1, text=TEXT + b"a\xff"),
    Case("a line too long at the end", status=1, text=TEXT + LONGER),
    Case("a line without end", status=1, text=b"a" * 5_000_000),
    Case(
        "too long and bad", status=1, text=TEXT[:PIECE] + b"\n" + b"\xff" * (LINE_MAX + 1) + b"\n"
    ),
    Case("bad, then too long", status=1, text=with_line(b"\xff\n" + LONGER, PIECE)),
    Case("too long, then bad", status=1, text=with_line(LONGER + b"\n\xff", PIECE)),
    Case(
        "an open line too long after a bad one",
        status=1,
        text=TEXT[: PIECE // 2] + b"\xff\n" + LONGER,
    ),
    Case(
        "bad lines in several pieces",
        status=1,
        text=with_line(b"\xff", PIECE + 5).replace(TEXT[-200:], TEXT[-200:] + b"\xff\n"),
    ),
    Case("a zero byte", text=with_line(b"\0", PIECE)),
    *(
        Case(f"a bad line after byte {at}", status=1, text=with_line("すもも".encode()[:-1], at))
        for at in PLACES
    ),
    *(
        Case(f"a line too long after byte {at}", status=1, text=with_line(LONGER, at))
        for at in PLACES
    ),
    *(Case(f"the longest line after byte {at}", text=with_line(LONG, at)) for at in PLACES),
]

READS = [0, 1, 7, 15, 16, 17, 40, 60]

INPUTS = [
    *(
        Case(
            f"a read fails after {reads}",
            status=3,
            failing={"FAIL": "read", "FAIL_AFTER": str(reads)},
        )
        for reads in READS
    ),
    Case("input that is closed", status=3, closed=(0,)),
    Case("input that is a directory", status=3, is_directory=True),
]

OUTPUTS = [
    Case("output that is full", status=3, output=full),
    Case("output that is closed", status=3, closed=(1,)),
    Case("output that nobody reads", status=3, output=unread),
    *(
        Case(f"output of {limit} bytes", status=3, max_file=limit)
        for limit in (1, 5, 65_536, 1_000_000, 7_654_321)
    ),
]
