"""Lines of a mecabrc: values with blanks around them, and lines that both libraries reject."""
import re
import subprocess

from libmecab.checks.all_morphs import ipadic, without_last_blanks
from libmecab.checks.common import Command
from libmecab.checks.context import Context

OWN = "output-format-type = own\n"
# A number may end in blanks. MeCab keeps the blanks at the end of a text.
LINES = (
    *(f"all-morphs ={value}\n" for value in (" 1", "1 ", "1\r", "\t1\t", "1\v\f", "01", "+1")),
    *(f"all-morphs ={value}\n" for value in ("2", "true", "1x", "1 1", "")),
    *(f"allocate-sentence = {value}\n" for value in ("1 ", "1\r")),
    *(f"bos-feature = {value}\n" for value in ("B", "B ", "B\r", '"B"', "", " ", "\r")),
    *(f"unk-feature = {value}\n" for value in ("U", "U ", "U\r", "", "\r")),
    *(f"output-format-type = {value}\n" for value in ("wakati", "wakati ", "wakati\r", "none")),
    *(f"output-format-type = {value}\n" for value in ("none ", "", " ", "\r")),
    *(f"node-format-own = {value}\n{OWN}" for value in ("%m,", "%m, ", "%m,\r", "", "\r")),
    "all-morphs\t= 1\n",
    " all-morphs = 1\n",
    "all-morphs = 1",
    "all-morphs = 1\nall-morphs = 0\n",
    "= 1\n",
    "\n; a line\n# another one\r\n\n",
    "\r\n",
    " \n",
    " ; x\n",
    " ; x = 1\n",
    "x\n",
)
PRINTED = ["-B", r"[%H]\n"]


def is_rejected(printed: bytes, errors: bytes) -> bool:
    """Returns whether a line is rejected.

    Our library prints an error on standard error, and MeCab a place in its sources on standard
    output.
    """
    return errors != b"" or re.match(rb"\w+\.cpp\(\d+\) \[", printed) is not None


def mecabrc_output(context: Context) -> bytes:
    """Returns what the program mecab prints with each line, or that the line is rejected."""
    few = without_last_blanks(context.first_lines(20), context.folder)
    settings, outputs = context.folder / "mecabrc-line", []
    command: Command = ["mecab", "-r", settings, "-d", ipadic(context), *PRINTED, few]
    for text in LINES:
        settings.write_bytes(text.encode())
        done = subprocess.run(command, capture_output=True, env=context.environment)
        rejected = is_rejected(done.stdout, done.stderr)
        outputs.append(f"{text!r}\n".encode() + (b"rejected\n" if rejected else done.stdout))
    return b"".join(outputs)
