"""UniDic's output formats: the settings of Debian's unidic-mecab 3.1.1 and a small dictionary."""
from pathlib import Path

from libmecab.checks.context import Context
from libmecab.checks.dictionaries import compiled_dictionary

# The columns after the costs, in UniDic's order. Words and costs are invented.
FIELDS = (
    "pos1 pos2 pos3 pos4 cType cForm lForm lemma orth pron orthBase pronBase goshu iType iForm"
    " fType fForm iConType fConType lType kana kanaBase form formBase aType aConType aModType lid"
    " lemma_id"
).split()
QUOTED = {13, 14, 15, 16, 17, 18, 24, 25, 26}
ALL_FIELDS = ",".join(f'"%f[{i}]"' if i in QUOTED else f"%f[{i}]" for i in range(len(FIELDS)))
NAMED_FIELDS = [rf"\t{name}:%f[{i}]" for i, name in enumerate(FIELDS)]
DICRC = rf"""; List of features
; f[0]:  pos1

cost-factor = 700
bos-feature = BOS/EOS,*,*,*,*,*,*,*,*,*,*,*,*,*,*,*,*
eval-size = 10
unk-eval-size = 4
config-charset = utf8

output-format-type = unidic22

node-format-unidic22 = %m\t{ALL_FIELDS}\n
unk-format-unidic22 = %m\t%f[0],%f[1],%f[2],%f[3],%f[4],%f[5]\n
bos-format-unidic22 =
eos-format-unidic22 = EOS\n

node-format-verbose = surface:%m{"".join(NAMED_FIELDS)}\n
unk-format-verbose = surface:%m{"".join(NAMED_FIELDS[:6])}\n
bos-format-verbose =
eos-format-verbose = EOS\n

node-format-chamame = \t%m\t%f[9]\t%f[6]\t%f[7]\t%F-[0,1,2,3]\t%f[4]\t%f[5]\t%f[23]\t%f[12]\n\n
unk-format-chamame = \t%m\t\t\t%m\t未知語\t\t\t\t\n
bos-format-chamame = B
eos-format-chamame =
"""
TYPES = ("unidic22", "verbose", "chamame")
LEXICON = '''\
東京,1,1,-800,名詞,固有名詞,地名,一般,*,*,トウキョウ,トウキョウ,東京,トーキョー,東京,トーキョー,固,*,*,*,*,*,*,地名,トウキョウ,トウキョウ,トウキョウ,トウキョウ,0,*,*,11,1
都,1,1,900,名詞,普通名詞,一般,*,*,*,ト,都,都,ト,都,ト,漢,*,*,*,*,*,*,体,ト,ト,ト,ト,1,C3,*,12,2
もも,1,1,6100,名詞,普通名詞,一般,*,*,*,モモ,桃,もも,モモ,もも,モモ,和,*,*,*,*,*,*,体,モモ,モモ,モモ,モモ,0,C3,*,13,3
すもも,1,1,7100,名詞,普通名詞,一般,*,*,*,スモモ,李,すもも,スモモ,すもも,スモモ,和,*,*,*,*,*,*,体,スモモ,スモモ,スモモ,スモモ,0,C2,*,14,4
本,1,1,2500,名詞,普通名詞,助数詞可能,*,*,*,ホン,本,本,ホン,本,ホン,漢,ホ促,基本形,*,*,B1S6SjShS,*,体,ホン,ホン,ホン,ホン,1,C3,*,15,5
の,2,2,-300,助詞,格助詞,*,*,*,*,ノ,の,の,ノ,の,ノ,和,*,*,*,*,*,*,格助,ノ,ノ,ノ,ノ,*,名詞%F1,*,21,6
の,2,3,2100,助詞,準体助詞,*,*,*,*,ノ,の,の,ノ,の,ノ,和,*,*,*,*,*,*,準助,ノ,ノ,ノ,ノ,*,"動詞%F2@0,形容詞%F2@-1",*,22,7
も,2,2,900,助詞,係助詞,*,*,*,*,モ,も,も,モ,も,モ,和,*,*,*,*,*,*,係助,モ,モ,モ,モ,*,"動詞%F2@-1,形容詞%F4@-2,名詞%F1",*,23,8
を,2,2,-900,助詞,格助詞,*,*,*,*,ヲ,を,を,オ,を,オ,和,*,*,*,*,*,*,格助,ヲ,ヲ,ヲ,ヲ,*,"動詞%F2@0,名詞%F1,形容詞%F2@-1",*,24,9
する,3,3,1200,動詞,非自立可能,*,*,サ行変格,終止形-一般,スル,為る,する,スル,する,スル,和,*,*,*,*,*,*,用,スル,スル,スル,スル,0,C5,*,31,10
住む,3,3,5500,動詞,一般,*,*,五段-マ行,終止形-一般,スム,住む,住む,スム,住む,スム,和,*,*,*,*,*,*,用,スム,スム,スム,スム,1,C1,*,32,11
"引用,""の""",1,1,100,名詞,普通名詞,サ変可能,*,*,*,インヨウ,"引用,""の""",引用,インヨー,引用,インヨー,漢,*,*,*,*,*,*,体,インヨウ,インヨウ,インヨウ,インヨウ,0,C2,*,16,12
'''
CHARACTERS = """\
DEFAULT 0 1 0
SPACE 0 1 0
KANJI 0 0 2
SYMBOL 1 1 0
ALPHA 1 1 0
HIRAGANA 0 1 2
KATAKANA 1 1 2
0x0020 SPACE
0x0009 SPACE
0x0021..0x0040 SYMBOL
0x0041..0x007A ALPHA
0x3041..0x309F HIRAGANA
0x30A1..0x30FF KATAKANA
0x4E00..0x9FA5 KANJI
"""
UNKNOWN = """\
DEFAULT,1,1,4000,補助記号,一般,*,*,*,*
SPACE,1,1,0,空白,*,*,*,*,*
KANJI,1,1,6000,名詞,普通名詞,一般,*,*,*
SYMBOL,1,1,3000,補助記号,一般,*,*,*,*
ALPHA,1,1,5000,名詞,普通名詞,一般,*,*,*
HIRAGANA,2,2,9000,感動詞,一般,*,*,*,*
KATAKANA,1,1,5500,名詞,固有名詞,一般,*,*,*
KATAKANA,1,1,5400,名詞,普通名詞,一般,*,*,*
"""
SENTENCES = 'すもももももももの本\n東京都に住む\n 引用,"の"を する \nカタカナとabcと漢字。\n\n'
IDS = 4


def costs() -> str:
    """Returns a matrix.def in which paths with the same words have different costs."""
    lines = [
        f"{right} {left} {(37 * right + 101 * left) % 700 - 300}"
        for right in range(IDS)
        for left in range(IDS)
    ]
    return "\n".join([f"{IDS} {IDS}", *lines, ""])


def write_sources(folder: Path) -> None:
    """Writes the sources of the dictionary, and its dicrc, in a new folder."""
    folder.mkdir()
    names = enumerate(("BOS/EOS", "名詞", "助詞", "動詞"))
    ids = "".join(f"{number} {name},*,*,*,*,*\n" for number, name in names)
    files = {
        "lex.csv": LEXICON,
        "char.def": CHARACTERS,
        "unk.def": UNKNOWN,
        "matrix.def": costs(),
        "left-id.def": ids,
        "right-id.def": ids,
        "dicrc": DICRC,
    }
    for name, text in files.items():
        (folder / name).write_text(text)


def unidic_output(context: Context) -> bytes:
    """Returns what the program mecab and two clients in C print in each format."""
    sources, sentences = context.folder / "unidic-sources", context.folder / "unidic-sentences"
    if not sources.exists():
        write_sources(sources)
        sentences.write_bytes(SENTENCES.encode() + context.first_lines(1000).read_bytes())
    dictionary = compiled_dictionary(context, "unidic", sources)
    endings, fields = context.client("endings.c"), context.client("node_fields.c")
    formats: list[list[str]] = [[], *([f"-O{kind}"] for kind in TYPES), ["-N1"]]
    outputs = [context.run(["mecab", "-d", dictionary, *words, sentences]) for words in formats]
    outputs += [context.run([endings, dictionary, kind, sentences]) for kind in TYPES]
    return b"".join(outputs) + context.run([fields, dictionary, sentences])
