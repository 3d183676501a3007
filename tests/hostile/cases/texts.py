"""Texts, and dictionaries that make them hostile."""
import argparse
from pathlib import Path
from typing import NamedTuple, Sequence

from hostile.cases.dictionaries import CATEGORIES, MAPPINGS, NAMES, Sources
from hostile.cases.measuring import MARKS, MEMORY, Case, Run

# The number of characters of the longest unknown word of HIRAGANA.
LONGEST_UNKNOWN = 15
# Seconds of processor time of a text of many unknown words, with the start of jseg and the load.
UNKNOWN_SECONDS = 0.3
# The same of a text of a surface with many entries, each of which is read at each position.
ENTRIES_SECONDS = 10
# The fields of a feature, and the number of the last one that can be printed.
COMMAS = 65_540
LAST_FIELD = 65_535
# A run of kanji after blanks is this long: longer than a grouping of 1,000.
KANJI_RUN = 1026


class Sizes(NamedTuple):
    """The sizes of the inputs, in characters unless the name has another unit."""

    line_bytes: int = 2**20
    blank_words: int = 4096
    entries: int = 4_000
    unknown_entries: int = 4_000
    quotes: int = 100_000
    words: int = 10_000
    surface_words: int = 100_000
    ranges: int = 20_000
    above: int = 260_000
    stem: int = 8_000
    stem_line: int = 2**17


# Sizes that show the same ratios within seconds.
QUICK = Sizes(
    line_bytes=2**18,
    entries=1_500,
    words=1_000,
    surface_words=30_000,
    above=30_000,
    stem=2_000,
    stem_line=2**15,
)


class Builder:
    """Compiles dictionaries, each in a folder of its own, and makes runs of jseg over them."""

    def __init__(self, options: argparse.Namespace, folder: Path) -> None:
        self.options = options
        self.folder = folder
        self.sizes = QUICK if options.quick else Sizes()
        self.count = 0

    def image(self, sources: Sources) -> Path:
        """Returns the image of a new dictionary."""
        self.count += 1
        return sources.compiled(self.options.dictc, self.folder / str(self.count))

    def run(self, image: Path, words: Sequence[str], text: str, printed: str) -> Run:
        """Returns a run over a line of text, which prints another line."""
        command = [self.options.jseg, "-d", image, *words]
        return Run(command, f"{text}\n".encode(), printed=f"{printed}\n".encode())


def blanks(builder: Builder) -> Case:
    """Words end at many positions of one run of blanks, which goes to the end of the line."""
    length = builder.sizes.line_bytes
    lexicon = "".join(
        f"a{' ' * count},1,1,{1 + count},x\n" for count in range(builder.sizes.blank_words)
    )
    image = builder.image(Sources(lexicon))
    honest = builder.run(image, MARKS, "a " * (length // 2), "w" * (length // 2))
    hostile = builder.run(image, MARKS, "a" + " " * (length - 1), "w")
    return Case("blanks", f"a line of {length // 1024} KiB", honest, hostile)


def left_ids(builder: Builder) -> Case:
    """Each entry of one surface has its own left id.

    A search that compares each predecessor for each left id makes as many comparisons as the
    product of both. In the honest input each entry has its own surface.
    """
    count = builder.sizes.entries
    matrix = f"2 {count + 1}\n"
    surfaces = [chr(0x4E00 + i) for i in range(count)]
    own = "".join(f"{surface},{i},1,0,x\n" for i, surface in enumerate(surfaces, 1))
    same = "".join(f"あ,{i},1,0,x\n" for i in range(1, count + 1))
    honest, hostile = builder.image(Sources(own, matrix)), builder.image(Sources(same, matrix))
    return Case(
        "left ids of a surface",
        f"{count} entries of 16,000; 120 bytes of text",
        builder.run(honest, MARKS, "".join(surfaces[:40]), "w" * 40),
        builder.run(hostile, MARKS, "あ" * 40, "w" * 40),
    )


def many_entries(builder: Builder) -> Case:
    """A surface has 1,000 entries with the same ids, of which one can be on a best path.

    A search with a node for each takes 24 bytes for each at each position: 2.4 GB. In the honest
    input the surface has one entry.
    """
    text = "あ" * builder.sizes.surface_words

    def run(count: int, memory: int) -> Run:
        lexicon = "".join(f"あ,1,1,{count - i},x\n" for i in range(count))
        made = builder.run(builder.image(Sources(lexicon)), MARKS, text, "w" * len(text))
        return made._replace(memory=memory)

    size = f"1,000 entries; {len(text.encode()) // 1024} KiB of あ"
    honest, hostile = run(1, MEMORY), run(1_000, 512 << 20)
    return Case("entries of a surface", size, honest, hostile, ENTRIES_SECONDS)


def unknown_entries(builder: Builder) -> Case:
    """Each unknown word of 1 to 15 characters has many entries, and each of them is a node.

    In the honest input, a category that the text does not have has the entries. The bound is in
    seconds: there are as many nodes as that, and a short text must not take long for them.
    """
    count = builder.sizes.unknown_entries

    def run(category: str) -> Run:
        unk = "".join(f"{category},{i},1,1,x\n" for i in range(1, count + 1))
        unk += "".join(f"{name},1,1,1,x\n" for name in NAMES)
        image = builder.image(Sources("z,1,1,1,x\n", f"2 {count + 1}\n", unk=unk))
        return builder.run(image, MARKS, "あ" * 30, "u" * (30 // LONGEST_UNKNOWN))

    size = f"{count} entries, of LENGTH {LONGEST_UNKNOWN}; 90 bytes of text"
    honest, hostile = run("KATAKANA"), run("HIRAGANA")
    return Case("unknown entries", size, honest, hostile, seconds=UNKNOWN_SECONDS)


class Feature(NamedTuple):
    """A long feature, the number of a field that is printed, and the text of that field."""

    text: str
    field: int
    printed: str


def with_feature(builder: Builder, name: str, size: str, feature: Feature) -> Case:
    """A late field of one long feature is printed for each word.

    The honest input has as many bytes of features, of eight short fields each.
    """
    short = "0,1,2,3,4,5,6,seven"
    count = len(feature.text) // len(f"b0000,1,1,1,{short}\n")
    others = "".join(f"b{i:04},1,1,1,{short}\n" for i in range(count))
    honest = builder.image(Sources(f"a,1,1,1,{short}\n{others}"))
    hostile = builder.image(Sources(f"a,1,1,1,{feature.text}\n"))
    words, times = ["-F", f"%f[{feature.field}]", "-E", "\\n"], builder.sizes.words
    short_printed = "seven" if feature.field == 7 else ""
    return Case(
        name,
        f"{size}; {times} bytes of text",
        builder.run(honest, words, "a" * times, short_printed * times),
        builder.run(hostile, words, "a" * times, feature.printed * times),
    )


def quotes(builder: Builder) -> Case:
    """A field of doubled quotes precedes the one that is printed."""
    count = builder.sizes.quotes
    text = '0,"' + '""' * (count // 2) + '",2,3,4,5,6,late'
    size = f"{count} bytes of quotes, of 1 MB"
    return with_feature(builder, "quotes in a feature", size, Feature(text, 7, "late"))


def commas(builder: Builder) -> Case:
    """The last field that can be printed is printed."""
    text = "," * LAST_FIELD + "late" + "," * (COMMAS - LAST_FIELD)
    feature = Feature(text, LAST_FIELD, "late")
    return with_feature(builder, "commas in a feature", f"{COMMAS} commas", feature)


class Grouped(NamedTuple):
    """A text of unknown characters of one category, and what the dictionary has for it.

    `mappings` are lines of char.def. `before` precedes the text and is one word of `lexicon`.
    """

    text: str
    mappings: str = ""
    lexicon: str = "z,1,1,1,x\n"
    before: str = ""


def grouping(builder: Builder, name: str, size: str, grouped: Grouped) -> Case:
    """A run of one category, which may be grouped up to 1,000 characters, beside the usual 24.

    Each character of the text is a word, except for the last ones: they are one word, because
    they are few enough.
    """
    image = builder.image(Sources(grouped.lexicon, char=CATEGORIES + MAPPINGS + grouped.mappings))
    first = "w" if grouped.before else ""

    def run(most: int) -> Run:
        printed = first + "u" * (len(grouped.text) - most)
        text = grouped.before + grouped.text
        return builder.run(image, [*MARKS, "-M", str(most)], text, printed)

    return Case(name, f"{size}; -M 1000 beside -M 24", run(24), run(1000))


def ranges(builder: Builder) -> Case:
    """The categories of characters above U+FFFF are looked up among many ranges.

    Neighboring ranges differ in their second category.
    """
    kinds = ("KANJI", "KANJI OTHER")
    count, length = builder.sizes.ranges, builder.sizes.above
    mappings = "".join(
        f"0x{low:X}..0x{low + 1:X} {kinds[i % 2]}\n"
        for i, low in enumerate(range(0x20000, 0x20000 + 2 * count, 2))
    )
    text = "".join(chr(0x20000 + i % (2 * count)) for i in range(length))
    size = f"{length} characters above U+FFFF in {count} ranges"
    return grouping(builder, "grouping over ranges", size, Grouped(text, mappings))


def katakana(builder: Builder) -> Case:
    """A run of katakana, whose categories are looked up in a table."""
    length = builder.sizes.line_bytes
    text = Grouped("ア" * (length // 3))
    return grouping(builder, "grouping of katakana", f"{length // 1024} KiB of ア", text)


def after_blanks(builder: Builder) -> Case:
    """At each second position blanks go on to a run of kanji, and between them none do.

    So two runs are looked up in turn.
    """
    kanji = "亜" * KANJI_RUN
    count = (builder.sizes.line_bytes - len(kanji.encode())) // 6
    size = f"{count} blanks that are katakana, with ア between, and {len(kanji):,} kanji"
    text = Grouped(
        kanji,
        "0x3000 SPACE KATAKANA\n",
        "ア,1,1,1000,x\nア\u3000,1,1,1000,x\n",
        "ア\u3000" * count,
    )
    return grouping(builder, "grouping after blanks", size, text)


def stem(builder: Builder) -> Case:
    """A long surface starts at each position and ends at none.

    A lookup at each position reads all of it. The honest surface differs in its first letter.
    """
    length, text = builder.sizes.stem, "a" * builder.sizes.stem_line

    def run(surface: str) -> Run:
        image = builder.image(Sources(f"{surface},1,1,1,x\n"))
        return builder.run(image, MARKS, text, "u" * len(text))

    size = f"a surface of {length} bytes; {len(text) // 1024} KiB of a, of 1 MiB"
    honest, hostile = run("b" + "a" * (length - 1)), run("a" * (length - 1) + "b")
    return Case("a stem at each position", size, honest, hostile)


CASES = (
    blanks,
    left_ids,
    many_entries,
    unknown_entries,
    quotes,
    commas,
    ranges,
    katakana,
    after_blanks,
    stem,
)


def cases(builder: Builder) -> list[Case]:
    """Returns the cases of hostile texts."""
    return [make(builder) for make in CASES]
