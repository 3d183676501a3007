"""The names of the fields of a feature, in their order.

The sources have no file for them. UniDic's dicrc lists them in comments since version 2.2. Other
dictionaries are recognized by the fields that their dicrc uses, and by the number of fields of each
entry; their names are those of the dictionaries' documentation. If neither gives the names, none
are written, and the reason is reported.
"""
import re
from typing import Dict, List, NamedTuple, Optional, Sequence, Tuple

from .errors import errors_of, printable
from .progress import Reporter
from .sources import Source

# The ending of the file of the names beside an image. It has one name a line.
FIELDS = b"fields"
# A line of the list in the dicrc of UniDic.
LISTED = re.compile(r"[;#][ \t]*f\[(\d+)\]:[ \t]*(\S+)[ \t]*")
PRINTED = re.compile(r"%f\[(\d+)\]")
# A field in quotes, which may contain commas, with the blanks before it.
QUOTED = re.compile(rb'(?<![^,])[ \t]*"(?:[^"]|"")*"?[^,]*')
# The number of fields before the feature: the surface, two ids and the word cost.
BEFORE_FEATURE = 4

# 品詞, 品詞細分類1 to 3, 活用型, 活用形, 原形, 読み, 発音
IPADIC = (
    "pos1 pos2 pos3 pos4 conjugation_type conjugation_form base_form reading pronunciation".split()
)
# and 表記ゆれ, 複合語
NAIST = [*IPADIC, "spelling_variants", "compound"]
# 品詞, 品詞細分類, 活用型, 活用形, 原形, 読み, 意味情報
JUMAN = "pos1 pos2 conjugation_type conjugation_form base_form reading semantic_information".split()
# UniDic 2.1.2, and what it has with kana and accents
UNIDIC = (
    "pos1 pos2 pos3 pos4 cType cForm lForm lemma orth pron orthBase pronBase goshu "
    "iType iForm fType fForm"
).split()
UNIDIC_ACCENTS = [
    *UNIDIC,
    *"kana kanaBase form formBase iConType fConType aType aConType aModType".split(),
]


class Known(NamedTuple):
    """A dictionary whose field names are known.

    `origin` ends the message about the names. `bos_count` is the number of fields of `bos-feature`,
    and `reading` the field that `-Oyomi` prints.
    """

    origin: str
    bos_count: int
    reading: Optional[int]
    names: Sequence[str]


KNOWN = (
    Known("of IPADIC", 9, 7, IPADIC),
    Known("of NAIST", 9, 7, NAIST),
    Known("of Juman", 7, 5, JUMAN),
    Known("of UniDic", 17, None, UNIDIC),
    Known("of UniDic", 17, None, UNIDIC_ACCENTS),
)


class FieldNames(NamedTuple):
    """The names of the fields, empty if they are not known, and the message that is reported."""

    names: Sequence[str]
    message: str


def not_named(why: str) -> FieldNames:
    return FieldNames([], f"not named: {why}")


def settings_of(dicrc: str) -> Dict[str, str]:
    """Returns the settings of a dicrc by their keys."""
    pairs = [
        line.split("=", 1)
        for line in dicrc.splitlines()
        if "=" in line and not line.startswith((";", "#"))
    ]
    return {key.strip(): value.strip() for key, value in pairs}


def listed_names(dicrc: str) -> Optional[List[str]]:
    """Returns the names that a dicrc lists, or None if it has no list.

    The result is empty if the list doesn't give each field a name of its own, from field 0 on.
    """
    found = [match.groups() for match in map(LISTED.fullmatch, dicrc.splitlines()) if match]
    if not found:
        return None
    names = [name for _, name in found]
    is_complete = [int(number) for number, _ in found] == list(range(len(found)))
    is_valid = is_complete and len(set(names)) == len(names) and all(map(is_name, names))
    return names if is_valid else []


def is_name(name: str) -> bool:
    """Returns whether a name can be an attribute in Python."""
    return name.isidentifier() and not name.startswith("_")


def candidates_for(dicrc: str) -> List[Known]:
    """Returns the dictionaries that may have this dicrc: the one it lists, or the known ones."""
    names = listed_names(dicrc)
    if names is not None:
        return [Known("in dicrc", 0, None, names)] if names else []
    settings = settings_of(dicrc)
    bos_count = len(settings["bos-feature"].split(",")) if "bos-feature" in settings else 0
    printed = [int(number) for number in PRINTED.findall(settings.get("node-format-yomi", ""))]
    return [
        one
        for one in KNOWN
        if bos_count == one.bos_count and printed == ([] if one.reading is None else [one.reading])
    ]


def field_count(line: bytes) -> int:
    """Returns the number of fields of a line's feature.

    It is 0 if the line has too few fields for an entry. dictc rejects such a line unless it is
    blank.
    """
    plain = QUOTED.sub(b"", line) if b'"' in line else line
    return max(0, plain.count(b",") + 1 - BEFORE_FEATURE)


def field_counts(lexicons: Sequence[Tuple[bytes, Source]], reporter: Reporter) -> Dict[int, str]:
    """Returns the field counts of the entries, each with the path and line of its first entry.

    Stops at the second count. A lexicon comes with the path that messages print.
    """
    places: Dict[int, str] = {}
    for path, lexicon in lexicons:
        done = 0
        for number, chunk in lexicon.chunks():
            counts = list(map(field_count, chunk.split(b"\n")))
            for count in dict.fromkeys(counts):
                if count and count not in places:
                    places[count] = f"{printable(path)}:{number + counts.index(count)}"
            if len(places) > 1:
                return dict(list(places.items())[:2])
            done += len(chunk)
            step = f"counting the fields of {printable(path)}"
            reporter.log_progress(step, done, lexicon.size)
    return places


def find_names(
    dicrc: Optional[bytes], lexicons: Sequence[Tuple[bytes, Source]], reporter: Reporter
) -> FieldNames:
    """Finds the names of the fields of lexicons. `dicrc` is a path, or None if there is no dicrc.

    All files are in UTF-8. Each lexicon comes with the path that messages print.
    """
    if dicrc is None:
        return not_named("there is no dicrc")
    with errors_of(dicrc), open(dicrc, encoding="utf-8") as file:
        candidates = candidates_for(file.read())
    if not candidates:
        return not_named("dicrc belongs to no dictionary whose field names are known")
    places = field_counts(lexicons, reporter)
    if len(places) != 1:
        counts = ", and ".join(f"{place} has {count}" for count, place in places.items())
        return not_named(counts or "there are no entries")
    (count,) = places
    for one in candidates:
        if len(one.names) == count:
            return FieldNames(one.names, f"{count}, with the names {one.origin}")
    expected = " or ".join(str(len(one.names)) for one in candidates)
    return not_named(f"each entry has {count}, but dicrc belongs to a dictionary with {expected}")


def write_names(names: Sequence[str], target: bytes) -> None:
    with errors_of(target), open(target, "w", encoding="utf-8") as file:
        file.writelines(f"{name}\n" for name in names)
