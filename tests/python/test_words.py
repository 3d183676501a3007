"""Words, their attributes, and how they are shown."""
import copy
import hashlib
import os
import pickle
import shutil
import sys
from pathlib import Path

import pytest
from conftest import with_feature

from kumquatsieve import Dictionary, Format, KumquatsieveError, Segmenter, Word

LINE = " すもももも  zz𠮷"
# The words of that line over the sample's sources, which are small enough to add the costs by hand.
ATTRIBUTES = {
    "surface": ["すもも", "もも", "zz", "𠮷"],
    "feature": ["名詞,すもも", "名詞,もも", "未知", "未知"],
    "fields": [("名詞", "すもも"), ("名詞", "もも"), ("未知",), ("未知",)],
    "start": [1, 4, 8, 10],
    "end": [4, 6, 10, 11],
    "byte_start": [1, 10, 18, 20],
    "byte_end": [10, 16, 20, 24],
    "left_id": [1, 1, 1, 1],
    "right_id": [1, 1, 1, 1],
    "cost": [100, 30, 1000, 1000],
    "total": [110, 147, 1154, 2161],
    "is_unknown": [False, False, True, True],
    "pos": ["名詞", "名詞", "未知", "未知"],
    "base_or_surface": ["すもも", "もも", "zz", "𠮷"],
    "dictionary": [0, 0, 0, 0],
    "category": [5, 5, 2, 0],
}
NAMED = {"pos": ["名詞", "名詞", "未知", "未知"], "reading": ["すもも", "もも", None, None]}
# Features, and their fields as MeCab's %f prints them.
FEATURES = [
    ("い", 'x,"a,b",c', ["x", "a,b", "c"]),
    ("ろ", 'x,"a""b",c', ["x", 'a"b', "c"]),
    ("は", 'x, a,\tb, "c"', ["x", "a", "b", "c"]),
    ("に", 'x,"a"z,b', ["x", "a", "b"]),
    ("ほ", 'x,"a', ["x", "a"]),
    ("へ", 'x,"",b', ["x", "", "b"]),
    ("と", 'x,"a"",b', ["x", 'a",b']),
    ("ち", 'x, "a" ,b', ["x", "a", "b"]),
    ("り", 'x,a"b,c', ["x", 'a"b', "c"]),
    ("る", 'x,"a,b""', ["x", 'a,b"']),
]
# The last field may be empty, because a comma separates two fields.
FEATURES += [
    ("を", "", [""]),
    ("わ", "x", ["x"]),
    ("か", "x,", ["x", ""]),
    ("よ", "x,,", ["x", "", ""]),
    ("た", '"",', ["", ""]),
    ("れ", "x, ", ["x", ""]),
    ("そ", " x,y", ["x", "y"]),
    ("つ", "x ,y", ["x ", "y"]),
    ("ね", 'a b,"c d"e', ["a b", "c d"]),
]
BAD_NAMES = [
    ["pos", "pos"],
    ["pos", "cost"],
    ["pos", "surface"],
    ["pos", "_x"],
    ["pos", "1"],
    ["pos reading"],
    ["pos,reading"],
]
# The names of a dictionary's fields, and the number of the field for each common name.
UNIDIC = ["cType", "cForm", "lForm", "lemma", "pron", "orthBase", "kana"]
COMMON = [
    (["pos1", "base_form", "reading"], {"lemma": 1, "base_form": 1, "reading": 2}),
    (
        UNIDIC,
        {
            "pos": 0,
            "conjugation_type": 0,
            "conjugation_form": 1,
            "reading": 2,
            "lemma": 3,
            "pronunciation": 4,
            "base_form": 5,
            "lForm": 2,
        },
    ),
    (["lemma", "lForm", "base_form", "reading"], {"lemma": 0, "base_form": 2, "reading": 3}),
    (["pos1", "lemma"], {"lemma": 1}),
]
NOT_COMMON = ["conjugation_type", "reading", "base_form"]
# An image, a link to it or none, the files of field names beside it, and the names of the fields,
# as kumquatsieve-import writes them.
BESIDE = [
    ("kept/a.img", "a.img", {"kept/a.fields": "there"}, ("there",)),
    ("kept/a.img", "a.img", {"a.fields": "here"}, ()),
    (
        "kept/a.img",
        "b.img",
        {"kept/a.fields": "there", "b.fields": "here", "kept/b.fields": "other"},
        ("there",),
    ),
    ("kept/a.img", "a", {"kept/a.fields": "there"}, ("there",)),
    ("unidic.v2", None, {"unidic.fields": "first", "unidic.v2.fields": "second"}, ("second",)),
    ("unidic.v2", None, {"unidic.fields": "first"}, ()),
    ("unidic.v2.img", None, {"unidic.fields": "first", "unidic.v2.fields": "second"}, ("second",)),
    ("a.img.old", None, {"a.fields": "first", "a.img.old.fields": "second"}, ("second",)),
    (".img", None, {".fields": "names"}, ("names",)),
    # The longest file name. There can be no file of field names for it.
    ("a" * 251 + ".img", None, {}, ()),
]


@pytest.fixture(scope="module")
def named(system, tmp_path_factory):
    """Returns the sample's image with a file of field names."""
    image = Path(shutil.copy(system, tmp_path_factory.mktemp("named") / "sample.img"))
    image.with_suffix(".fields").write_text("pos\nreading\n")
    return image


@pytest.mark.parametrize("name", ATTRIBUTES)
def test_attributes(system, name):
    assert [getattr(word, name) for word in Segmenter(system).words(LINE)] == ATTRIBUTES[name]


def test_a_users_word_names_its_dictionary(system, user):
    (word,) = Segmenter(system, [user]).words("すもももも")
    assert (word.dictionary, word.token, word.cost, word.is_unknown) == (1, 0, -30000, False)


def test_a_words_token_is_that_of_its_surface(system):
    first, second, third = Segmenter(system).words("すもも もも すもも")
    assert first.token == third.token != second.token


def test_the_total_is_that_of_the_path(system):
    segmenter = Segmenter(system)
    assert [segmenter.words(line).total for line in ("", "すもも", LINE)] == [0, 115, 2166]


def test_a_line_feed_in_a_feature(odd):
    words = Segmenter(odd).words("すもももも")
    assert [(word.surface, word.feature, word.total) for word in words] == [
        ("すもも", "名詞,すもも", 110),
        ("もも", "名詞\nもも", 147),
    ]
    assert "名詞\\nもも" in repr(words)


@pytest.mark.parametrize("line, feature, fields", FEATURES)
def test_a_feature_is_split_as_mecab_does(images, line, feature, fields):
    dictionary = Dictionary(images / "quoted.img")
    (word,) = Segmenter(dictionary).words(line)
    assert (word.feature, word.fields) == (feature, tuple(fields))
    formats = [Format(f"%f[{number}]", eos="") for number in range(len(fields))]
    assert [Segmenter(dictionary, format=format).parse(line) for format in formats] == fields


@pytest.mark.parametrize("name", NAMED)
def test_fields_by_their_names(named, name):
    segmenter = Segmenter(named)
    assert segmenter.dictionary.field_names == ("pos", "reading")
    for one in (segmenter, segmenter.share(), pickle.loads(pickle.dumps(segmenter))):
        assert [getattr(word, name) for word in one.words(LINE)] == NAMED[name]
    assert name in dir(segmenter.words(LINE)[0])


# Another feature of もも, of 13 bytes, and its second and third field as `base_form` and `reading`.
NO_FIELD = [
    ("名詞,*,abcd", None, "abcd"),
    ('名詞,"*",ab', None, "ab"),
    ("名詞,ab,*,c", "ab", None),
    ("名詞,**,+,c", "**", "+"),
    ("名詞,,abcde", "", "abcde"),
    ("名詞,abcdef", "abcdef", None),
]


@pytest.mark.parametrize("feature, base_form, reading", NO_FIELD)
def test_a_field_that_is_not_there_is_none(system, tmp_path, feature, base_form, reading):
    """A field that the dictionary gives as an asterisk is None too, as in MeCab's dictionaries."""
    image = with_feature(system, feature, tmp_path / "image.img")
    (word,) = Segmenter(image, fields=["pos", "base_form", "reading"]).words("もも")
    assert (word.feature, word.base_form, word.reading) == (feature, base_form, reading)


@pytest.mark.parametrize("feature", ["未,*,", 'x,"*",', "名詞", "x,*y,*"])
def test_the_base_form_of_an_unknown_word_is_none(system, tmp_path, feature):
    """Whether its field is absent or an asterisk. So unknown words are no equal terms."""
    image = with_feature(system, feature, tmp_path / "image.img", "未知")
    dictionary = Dictionary(image, fields=["pos", "base_form", "reading"])
    words = Segmenter(dictionary).words("zz 𠮷もも")
    assert [word.is_unknown for word in words] == [True, True, False]
    base = "*y" if "y" in feature else None
    assert [word.base_form for word in words] == [base, base, "もも"]
    assert [word.reading for word in words] == ["" if feature[-1] == "," else None] * 2 + [None]
    assert [word.base_or_surface for word in words] == [base or "zz", base or "𠮷", "もも"]
    assert dir(words[0]) == dir(words[2])


@pytest.mark.parametrize("text", ["\nreading\n", "\ufeff\r\nreading\r\n", "\nreading"])
def test_fields_without_a_name(system, tmp_path, text):
    image = Path(shutil.copy(system, tmp_path / "sample.img"))
    image.with_suffix(".fields").write_bytes(text.encode())
    segmenter = Segmenter(image)
    names = segmenter.dictionary.field_names
    assert (names, segmenter.words(LINE)[0].reading) == ((None, "reading"), "すもも")


@pytest.mark.parametrize("image, link, files, fields", BESIDE)
def test_the_file_of_names_is_that_of_the_import(system, tmp_path, image, link, files, fields):
    (tmp_path / "kept").mkdir()
    shutil.copy(system, tmp_path / image)
    if link:
        (tmp_path / link).symlink_to(image)
    for name, text in files.items():
        (tmp_path / name).write_text(f"{text}\n")
    assert Dictionary(tmp_path / (link or image)).field_names == fields


def checksum_of(image):
    """Returns the SHA-256 of an image without its last 32 bytes, which are the checksum itself."""
    return hashlib.sha256(Path(image).read_bytes()[:-32]).hexdigest()


# The first line of a file of field names, made from the image's checksum, and the fields that
# Segmenter has.
FIRST = [
    (lambda checksum: f"; image-sha256 {checksum}\n", ("pos", "reading")),
    (lambda checksum: f"; image-sha256 {checksum}\r\n", ("pos", "reading")),
    (lambda checksum: f"; image-sha256 {checksum[1:]}{checksum[0]}\n", ()),
    (lambda checksum: f"; image-sha256 {checksum[:-1]}\n", ()),
    (lambda checksum: f"; image-sha256 {checksum.upper()}\n", ()),
    (lambda checksum: f"; image-sha256 {checksum} \n", ()),
    (lambda checksum: "; image-sha256 \n", ()),
    (lambda checksum: "", ("pos", "reading")),
]


@pytest.mark.parametrize("first, fields", FIRST)
def test_names_of_another_image_are_ignored(system, tmp_path, first, fields):
    image = Path(shutil.copy(system, tmp_path / "kept.img"))
    (tmp_path / "link.img").symlink_to("kept.img")
    text = first(checksum_of(system)) + "pos\nreading\n"
    image.with_suffix(".fields").write_bytes(text.encode())
    for path in (image, tmp_path / "link.img"):
        segmenter = Segmenter(path)
        assert segmenter.dictionary.field_names == fields
        assert pickle.loads(pickle.dumps(segmenter)).dictionary.field_names == fields
    (word,) = Segmenter(image).words("もも")
    assert [getattr(word, name) for name in fields] == ["名詞", "もも"][: len(fields)]


def test_names_go_with_the_image(system, images, tmp_path):
    """An image that replaces another one has no field names until it has a file of its own."""
    image = Path(shutil.copy(system, tmp_path / "sample.img"))
    names = image.with_suffix(".fields")
    names.write_text(f"; image-sha256 {checksum_of(image)}\npos\n")
    assert Dictionary(image).field_names == ("pos",)
    os.replace(shutil.copy(images / "quoted.img", tmp_path / "new"), image)
    assert Dictionary(image).field_names == ()
    names.write_text(f"; image-sha256 {checksum_of(image)}\nkind\n")
    assert Dictionary(image).field_names == ("kind",)


def test_names_beside_what_has_no_checksum(system, tmp_path):
    """A shorter file is not an image, which is reported."""
    text = f"; image-sha256 {checksum_of(system)}\npos\n"
    (tmp_path / "short.fields").write_text(text)
    (tmp_path / "short.img").write_bytes(b"MJDICT")
    with pytest.raises(KumquatsieveError, match="L1 Truncated"):
        Segmenter(tmp_path / "short.img")


def test_names_by_hand(named, system):
    """They replace those beside the image, apply to an image in memory too, and are pickled."""
    for image in (named, system, Path(system).read_bytes()):
        segmenter = Segmenter(image, fields=[None, "yomi"])
        assert segmenter.dictionary.field_names == (None, "yomi")
        assert [word.yomi for word in segmenter.words(LINE)] == NAMED["reading"]
    again = pickle.loads(pickle.dumps(Segmenter(named, fields=["", "yomi"])))
    assert (again.dictionary.field_names, again.words(LINE)[1].yomi) == ((None, "yomi"), "もも")
    assert Dictionary(named, fields=[]).field_names == ()


@pytest.mark.parametrize("names, numbers", COMMON)
def test_common_names(system, tmp_path, names, numbers):
    image = with_feature(
        system, "0,1,2,3,4,5,6"[: 2 * len(names) - 1].ljust(13, ","), tmp_path / "i"
    )
    dictionary = Dictionary(image, fields=names)
    assert dictionary.field_names == tuple(names)
    (word,) = Segmenter(dictionary).words("もも")
    assert {name: int(getattr(word, name)) for name in numbers} == numbers


@pytest.mark.parametrize("name", NOT_COMMON)
def test_a_common_name_that_no_field_has(system, name):
    with pytest.raises(AttributeError, match=f"{name} is no attribute .* pos, pos1, lemma"):
        getattr(Segmenter(system, fields=["pos1", "lemma"]).words("もも")[0], name)


def test_what_no_word_has_is_named(named, system):
    with pytest.raises(AttributeError, match="lemma is no attribute .* are pos, reading"):
        Segmenter(named).words(LINE)[0].lemma
    with pytest.raises(AttributeError, match="lemma is no attribute .* are pos"):
        Segmenter(system).words(LINE)[0].lemma
    with pytest.raises(AttributeError):
        Segmenter(system).words(LINE)[0]._lemma
    with pytest.raises(AttributeError):
        Segmenter(named).words(LINE)[0].surfaces = "x"


@pytest.mark.parametrize("names", BAD_NAMES)
def test_names_that_fields_cannot_have(system, tmp_path, names):
    image = Path(shutil.copy(system, tmp_path / "sample.img"))
    image.with_suffix(".fields").write_text("".join(f"{name}\n" for name in names))
    with pytest.raises(ValueError, match="fields: .* field [01]$"):
        Segmenter(image)
    with pytest.raises(ValueError, match="fields: .* field [01]$"):
        Segmenter(system, fields=names)


@pytest.mark.parametrize("text", ["", "\n\n", "\ufeff\r\n"])
@pytest.mark.parametrize("first", ["", "; image-sha256 {}\n"])
def test_a_file_without_names_is_rejected(system, tmp_path, monkeypatch, first, text):
    image = Path(shutil.copy(system, tmp_path / "sample.img"))
    (tmp_path / "link.img").symlink_to("sample.img")
    text = (
        first.format(checksum_of(system)) + text
        if text[:1] != "\ufeff"
        else "\ufeff" + first.format(checksum_of(system)) + text[1:]
    )
    image.with_suffix(".fields").write_text(text)
    monkeypatch.chdir(tmp_path)
    for path in (image, "sample.img", tmp_path / "link.img"):
        with pytest.raises(ValueError, match="sample.fields: it names no field"):
            Segmenter(path)
    assert Dictionary(image, fields=["pos"]).field_names == ("pos",)
    assert Dictionary(image.read_bytes()).field_names == ()


@pytest.mark.parametrize("fields", ["pos", b"pos", [1], 7])
def test_names_are_a_list_of_texts(system, fields):
    with pytest.raises(TypeError):
        Segmenter(system, fields=fields)


def test_words_are_values(named):
    segmenter = Segmenter(named)
    words, again = segmenter.words(LINE), segmenter.words(LINE)
    assert words == again and hash(words[0]) == hash(again[0])
    assert words[0] != words[1] and words[0] != "すもも"
    assert len({*words, *again}) == 4
    for one in (pickle.loads(pickle.dumps(words)), copy.copy(words), copy.deepcopy(words)):
        assert (one, one.total) == (words, words.total)
        assert [word.reading for word in one] == NAMED["reading"]
    assert pickle.loads(pickle.dumps(words[1])).start == 4


def test_a_word_is_light(system):
    word = Segmenter(system).words("すもも")[0]
    assert isinstance(word, Word) and not hasattr(word, "__dict__")
    assert sys.getsizeof(word) <= 80


def test_what_a_word_shows(system):
    words = Segmenter(system).words(LINE)
    assert repr(words[1]) == "<Word もも 名詞,もも 4:6 cost 30>"
    assert repr(words[2]) == "<Word zz 未知 8:10 cost 1000 unknown>"


def test_a_table_of_words(named):
    assert repr(Segmenter(named).words(LINE)).splitlines() == [
        "surface  reading  feature      cost  total",
        "すもも   すもも   名詞,すもも   100    110",
        "もも     もも     名詞,もも      30    147",
        "zz                未知         1000   1154",
        "𠮷                未知         1000   2161",
    ]


def test_a_table_has_the_reading_of_the_word_as_it_stands(system):
    words = Segmenter(system, fields=["lForm", "kana"]).words("すもも")
    assert repr(words).splitlines()[0] == "surface  kana    feature      cost  total"


def test_a_table_without_readings(system):
    assert repr(Segmenter(system).words("もも")).splitlines() == [
        "surface  feature    cost  total",
        "もも     名詞,もも    30     40",
    ]
    assert repr(Segmenter(system).words("")) == "surface  feature  cost  total"


def test_a_table_of_html(named):
    html = Segmenter(named).words("すもも<b>")._repr_html_()
    assert html.startswith("<table><tr><th>surface</th><th>reading</th>")
    assert "<tr><td>すもも</td><td>すもも</td><td>名詞,すもも</td><td>100</td><td>110</td></tr>" in html
    assert "&lt;" in html and "<b>" not in html
