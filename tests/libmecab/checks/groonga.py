"""Groonga, whose table of lines is indexed by TokenMecab and searched."""
import json
import tempfile
from pathlib import Path

from libmecab.checks.common import CLIENTS, PYTHON, works
from libmecab.checks.context import Context

TOKENIZER = Path("/usr/lib/x86_64-linux-gnu/groonga/plugins/tokenizers/mecab.so")
SELECT = "select Lines --match_columns text --query_flags NONE --query {} --limit 1000"


def is_installed() -> bool:
    """Returns whether Groonga and its tokenizer are installed."""
    return works("groonga", "--version") and TOKENIZER.exists()


def quoted(text: str) -> str:
    """Returns a text as an argument of a Groonga command."""
    return json.dumps(text, ensure_ascii=False)


def new_database(context: Context) -> Path:
    """Returns a path at which Groonga can make a database."""
    return Path(tempfile.mkdtemp(dir=context.folder)) / "db"


def groonga_output(context: Context) -> bytes:
    """Returns the tokens of each line, and the lines that have each tenth line's first word."""
    texts = context.lines.read_text().splitlines()[:1000]
    rows = json.dumps([{"text": text} for text in texts], ensure_ascii=False)
    words = [word for text in texts[::10] for word in text.split()[:1]]
    commands = [(CLIENTS / "tokens.grn").read_text(), f"load --table Lines\n{rows}\n"]
    commands += [f"tokenize TokenMecab {quoted(text)} NormalizerAuto\n" for text in texts]
    commands += [f"{SELECT.format(quoted(word))} --output_columns _id\n" for word in words]
    text = "".join(commands).encode()
    responses = context.run(["groonga", "-n", new_database(context)], text).decode().splitlines()
    # The first item of a response has its times.
    bodies = [json.dumps(json.loads(response)[1:], ensure_ascii=False) for response in responses]
    return "\n".join(bodies).encode()


def groonga_server_output(context: Context) -> bytes:
    """Returns the responses of a server with four threads to four clients."""
    script = CLIENTS / "groonga_server.py"
    return context.run([PYTHON, script, context.lines, new_database(context)])
