"""Options of MeCab's programs, and misspelled ones: the messages name what to write instead."""
from typing import List

from .case import MATRIX, Case, Files, Has

# Misspelled options and names. (command, the similar one that is printed)
NEAR = [
    ("dictc systm", "'system'"),
    ("dictc system --matrx a/matrix.def", "'--matrix'"),
    ("dictc user --dict sys.img", "'--dic'"),
    ("jseg --sourcs a", "'--sources'"),
    ("jseg --simple", "'--sample'"),
    ("jseg --explian L4", "'--explain'"),
]

# The formats of MeCab's -Ochasen. (docs/FROM_MECAB.md)
CHASEN = (
    "for IPADIC use -F '%m\\t%f[7]\\t%f[6]\\t%f[0]-%f[1]-%f[2]-%f[3]\\t%f[4]\\t%f[5]\\n'"
    " -U '%m\\t%m\\t%m\\t%f[0]-%f[1]-%f[2]-%f[3]\\t\\t\\n'\n"
)

# Options of mecab. (command, what the message contains)
OF_MECAB = [
    ("jseg sys.img text.txt", "jseg -d IMG < FILE"),
    ("jseg -d sys.img text.txt", "jseg -d IMG < FILE"),
    ("jseg --sample text.txt", "jseg -d IMG < FILE"),
    ("jseg -Ochasen", CHASEN),
    ("jseg -d sys.img -O yomi", "-F '%pS%f[7]' -U '%M' -E '\\n'"),
    ("jseg -d sys.img -O simple", "-F '%m\\t%f[0]-%f[1]-%f[2]-%f[3]\\n'"),
    ("jseg -d sys.img -O chasen", "-O chasen is not supported: "),
    ("jseg -d sys.img -O dump", "dicrc"),
    ("jseg -d sys.img -O dump", "run 'mecab -d IMG -O NAME'"),
    ("jseg -N 2", "-N is not supported"),
    ("jseg -d sys.img -N2", "-N is not supported"),
    ("jseg -d sys.img -b 1000000", "-b is not needed"),
    ("jseg -d sys.img -o out.txt", "> FILE"),
    ("jseg -r mecabrc -d sys.img", "dicrc"),
    ("jseg -d sys.img -a", "-a is not supported"),
    ("jseg --nbest=2 -d sys.img", "-N is not supported"),
    ("jseg --dicdir=sys", "use -d IMG"),
    ("jseg sys.img text", "jseg -d IMG < FILE"),
    ("jseg -d sys.img text", "jseg -d IMG < FILE"),
    ("jseg -d sys.img -Ochasen", "for IPADIC use -F"),
    ("jseg -d sys.img -Osimple", "for IPADIC use -F"),
    ("jseg -d sys.img -O dump", "-O supports only wakati"),
    ("jseg -N2", "remove the option"),
    ("jseg -d sys.img -N 2 -b 100000", "remove the option"),
    ("jseg -d sys.img -b 100000", "1,048,576"),
    ("jseg --input-buffer-size=9", "1,048,576"),
    ("jseg --output=o -d sys.img", "> FILE"),
    ("jseg -r /dev/null -d sys.img", "dicrc"),
    ("jseg --rcfile=r -d sys.img", "dicrc"),
    ("jseg -d sys.img -a", "-a is not supported: use --lattice tsv"),
    ("jseg -d sys.img --all-morphs", "-a is not supported: use --lattice tsv"),
    ("jseg -d sys.img -l 2", "-l is not supported"),
    ("jseg -m -d sys.img", "-m is not supported: jseg computes no probabilities"),
    ("jseg -t 0.75 -d sys.img", "-t is not supported"),
    ("jseg -c 700 -d sys.img", "-c is not supported"),
    ("jseg -p -d sys.img", "-p is not supported"),
    ("jseg -d sys.img -S x", "-S is not supported"),
    ("jseg -d sys.img -x unknown", "-x is not supported: use -U with a format"),
    ("jseg -D -d sys.img", "-D is not supported: -v prints what is loaded"),
    ("jseg -P", "-P is not supported: --help lists"),
    ("jseg -C -d sys.img", "-C is not needed"),
    ("jseg --dicdir=/d", "--dicdir is not supported: use -d IMG"),
    ("jseg --userdic u.dic", "--userdic is not supported: use -u IMG"),
    ("jseg --output-format-type=w", "use -O wakati"),
    ("jseg --max-grouping-size=9", "use -M N"),
    ("jseg --node-format=%m", "use -F FORMAT"),
    ("jseg --unk-format=%m", "use -U FORMAT"),
    ("jseg --bos-format=%m", "use -B FORMAT"),
    ("jseg --eos-format=%m", "use -E FORMAT"),
]
# Options of mecab-dict-index. (command, what the message contains)
OF_MECAB_DICT_INDEX = [
    ("dictc -d dic -u user.dic user.csv", "use 'dictc user --dic IMG --out USERIMG LEX..'"),
    ("dictc -d dic -u user.dic -f euc-jp -t utf-8 user.csv", "-u is not supported: "),
    ("dictc --userdic=user.dic user.csv", "-u is not supported: "),
    ("dictc -d dic -o out -f euc-jp -t utf-8", "use 'kumquatsieve-import DIR IMG'"),
    ("dictc --dicdir=dic", "-d is not supported: "),
    ("dictc -o out", "use --out IMG"),
    ("dictc -f euc-jp -t utf-8", "kumquatsieve-import --encoding NAME DIR IMG"),
    ("dictc -t utf-8", "-t is not supported: images are always in UTF-8"),
    ("dictc user -d sys.img --out new.img user.csv", "-d is not supported: use --dic IMG"),
    ("dictc user --dic sys.img -o new.img user.csv", "-o is not supported: use --out IMG"),
    ("dictc user --dic sys.img -u new.img user.csv", "-u is not supported: use --out IMG"),
    (
        "dictc user -f euc-jp --dic sys.img --out new.img user.csv",
        "-f is not supported: dictc reads only UTF-8",
    ),
    ("dictc system -d dic --out new.img", "--matrix FILE --char FILE --unk FILE"),
    ("dictc ids -d sys.img X", "-d is not supported: use --dic IMG"),
    ("dictc -d DIR -u user.dic user.csv", "use 'dictc user --dic IMG --out USERIMG LEX..'"),
    (
        "dictc -d DIR -f euc-jp -t utf-8 -u user.dic user.csv",
        "use 'dictc user --dic IMG --out USERIMG LEX..'",
    ),
    ("dictc --userdic=u.dic u.csv", "use 'dictc user --dic IMG --out USERIMG LEX..'"),
    ("dictc system -u u.dic", "use 'dictc user --dic IMG --out USERIMG LEX..'"),
    ("dictc -d DIR", "use 'kumquatsieve-import DIR IMG'"),
    ("dictc -d DIR -o OUT -f euc-jp -t utf-8", "use 'kumquatsieve-import DIR IMG'"),
    ("dictc --dicdir DIR", "use 'kumquatsieve-import DIR IMG'"),
    ("dictc -o OUT", "-o is not supported: use --out IMG"),
    ("dictc user --dic s -o o a", "-o is not supported: use --out IMG"),
    ("dictc system --outdir=o a", "-o is not supported: use --out IMG"),
    ("dictc -f euc-jp", "'kumquatsieve-import --encoding NAME DIR IMG'"),
    (
        "dictc user --dictionary-charset=euc-jp --dic s --out o a",
        "'kumquatsieve-import --encoding NAME DIR IMG'",
    ),
    ("dictc --charset=utf-8", "-t is not supported: images are always in UTF-8"),
    ("dictc user --dic s --out o -t utf-8 a", "-t is not supported: images are always in UTF-8"),
    ("dictc user -d s.img --out o a", "-d is not supported: use --dic IMG"),
    ("dictc user --out o a --dicdir=s", "-d is not supported: use --dic IMG"),
    ("dictc ids -d s 名詞", "-d is not supported: use --dic IMG"),
    ("dictc user --dic s -u o a", "-u is not supported: use --out IMG"),
    ("dictc system -d DIR --out o", "-d is not supported: use --matrix FILE"),
    # No hint is for these.
    ("dictc -s", "unexpected argument '-s' found"),
    ("dictc user --dic s a --out -o", "write './-o'"),
    ("dictc user --dic s --out -o -d a", "write './-o'"),
    ("dictc user --dic s --out o -uo a", "unexpected argument '-u' found"),
    ("dictc --outdi o", "--outdi"),
]

# MeCab's dictionaries, compiled and as sources.
DICTIONARIES: List[Files] = [
    {"dic": {}, "dic/sys.dic": b"x"},
    {"dic": {}, "dic/matrix.def": MATRIX},
]

CASES = [
    *(
        Case(command, command, err=Has(f"{command.split()[0]}: ", (similar,)), status=2)
        for command, similar in NEAR
    ),
    *(
        Case(command, command, "も\n", err=Has("jseg: ", (message,)), status=2)
        for command, message in OF_MECAB
    ),
    Case(
        "the program's name is printed once",
        "jseg sys.img text.txt",
        "も\n",
        err=Has("jseg: the text is read from standard input, so run ", (), ("jseg: jseg",)),
        status=2,
    ),
    *(
        Case(command, command, err=Has("dictc: ", (message,)), status=2)
        for command, message in OF_MECAB_DICT_INDEX
    ),
    Case(
        "an unknown option",
        "jseg -q",
        err=Has("jseg: unexpected argument '-q' found\n\nUsage: "),
        status=2,
    ),
    *(
        Case(
            f"MeCab's, {files}",
            "jseg -d dic",
            err=Has("jseg: dic is a MeCab dictionary, not an image"),
            status=2,
            files=files,
        )
        for files in DICTIONARIES
    ),
]
