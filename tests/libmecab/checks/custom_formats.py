"""Formats of a dicrc that no dictionary of Debian's has: of BOS, EOS and the end of all paths."""
import shutil
from pathlib import Path

from libmecab.checks.common import Command
from libmecab.checks.context import Context

# `chamame` is UniDic's, with the fields that IPADIC has. It is the default format of this dicrc.
DICRC = r"""; a dicrc of no dictionary
cost-factor = 800
bos-feature = BOS/EOS,*,*,*,*,*,*,*,*
eval-size = 8
unk-eval-size = 4
config-charset = UTF-8
output-format-type = chamame

node-format-chamame = \t%m\t%f[7]\t%f[6]\t%m\t%F-[0,1,2,3]\t%f[4]\t%f[5]\n
unk-format-chamame  = \t%m\t\t\t%m\tUNK\t\t\n
bos-format-chamame  = B
eos-format-chamame  =

node-format-ends = %m/%h/%f[0]\s
bos-format-ends  = <%f[0] %L %pl %ps>
eos-format-ends  = <%f[0] %S %pc>\n
eon-format-ends  = <%s %L %ps %m>\n

node-format-words = %m\n
"""
TYPES = ("chamame", "ends", "words")
OPTIONS: list[list[str]] = [[], ["-N1"], ["-E", "own"]]


def with_formats(context: Context) -> Path:
    """Returns a folder with IPADIC and this dicrc, as the context's library reads it."""
    folder = context.folder / f"custom-formats-{'ours' if context.is_ours else 'theirs'}"
    if not folder.exists():
        shutil.copytree(context.dictionary, folder)
        (folder / ("kumquatsieve.dicrc" if context.is_ours else "dicrc")).write_text(DICRC)
    return folder


def custom_format_output(context: Context) -> bytes:
    """Returns what the program mecab and a client in C print in each format."""
    few, dictionary = context.first_lines(1000), with_formats(context)
    mecab: Command = ["mecab", "-d", dictionary]
    endings = context.client("endings.c")
    outputs = [context.run([*mecab, few])]
    for kind in TYPES:
        for options in OPTIONS:
            outputs.append(context.run([*mecab, "-O", kind, *options, few]))
        outputs.append(context.run([endings, dictionary, kind, few]))
    return b"".join(outputs)
