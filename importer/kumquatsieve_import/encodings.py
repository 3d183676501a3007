"""The encodings that sources may be in.

Each one decodes strictly, and raises a ValueError for text that is not in it.
"""
import codecs
import re
from typing import Callable, NamedTuple, Optional, Tuple


class Encoding(NamedTuple):
    """An encoding, with the name that is printed."""

    name: str
    decode: Callable[[bytes], str]


# What Python's cp932 decodes single bytes to that have no meaning there.
MEANINGLESS = re.compile("[\x80\uf8f0-\uf8f3]")
# The tilde of JIS X 0212. iconv, and so MeCab, decodes it to the full-width one.
TILDE = b"\x8f\xa2\xb7"
NEC_LEAD = 0xAD


def nec_character(error: UnicodeError) -> Tuple[str, int]:
    """Decodes a character of NEC's row 13, such as CIRCLED DIGIT ONE, and returns its end.

    Vendors' EUC-JP has these characters, JIS X 0208 does not, and CP932 has them elsewhere.
    """
    assert isinstance(error, UnicodeDecodeError)
    pair = error.object[error.start : error.start + 2]
    if len(pair) < 2 or pair[0] != NEC_LEAD or pair[1] < 0xA1:
        raise error
    return bytes([0x87, pair[1] - 0x61 + (pair[1] >= 0xE0)]).decode("cp932"), error.start + 2


codecs.register_error("kumquatsieve-nec", nec_character)


def decode_euc_jp(data: bytes) -> str:
    return "～".join(part.decode("euc_jp", "kumquatsieve-nec") for part in data.split(TILDE))


def decode_cp932(data: bytes) -> str:
    text = data.decode("cp932")
    if MEANINGLESS.search(text):
        raise ValueError
    return text


UTF_8 = Encoding("UTF-8", lambda data: data.decode("utf-8"))
EUC_JP = Encoding("EUC-JP", decode_euc_jp)
EUC_JIS_2004 = Encoding("EUC-JIS-2004", lambda data: data.decode("euc_jis_2004"))
CP932 = Encoding("CP932", decode_cp932)
ISO_2022_JP = Encoding("ISO-2022-JP", lambda data: data.decode("iso2022_jp"))
# The names that MeCab and others have for each encoding, without hyphens and underscores.
NAMES = {
    UTF_8: ("utf8",),
    EUC_JP: ("eucjp", "euc", "ujis", "eucjpms", "cp51932"),
    EUC_JIS_2004: ("eucjis2004", "eucjisx0213"),
    CP932: ("cp932", "ms932", "windows31j", "sjis", "shiftjis"),
    ISO_2022_JP: ("iso2022jp", "jis"),
}
CHOICES = "utf-8, euc-jp, euc-jis-2004, cp932 or iso-2022-jp"


def encoding_named(name: str) -> Optional[Encoding]:
    """Returns the encoding of a name, or None if no encoding has it."""
    bare = name.lower().replace("-", "").replace("_", "")
    return next((encoding for encoding, names in NAMES.items() if bare in names), None)


def missing_converter() -> Optional[str]:
    """Returns the name of a codec that this Python lacks, or None.

    A Python without its whole standard library lacks some.
    """
    for name in ("utf_8", "euc_jp", "euc_jis_2004", "cp932", "iso2022_jp"):
        try:
            codecs.lookup(name)
        except LookupError:
            return name
    return None
