"""The clients of MeCab's library, and what each prints."""
import shutil
import subprocess
from pathlib import Path
from typing import NamedTuple

from libmecab.checks import dictionaries, groonga
from libmecab.checks.all_morphs import all_morphs_output, lattice_output
from libmecab.checks.common import CLIENTS, INDEX, IPADIC, PYTHON, Command, fail, works
from libmecab.checks.context import Context, Output
from libmecab.checks.custom_formats import custom_format_output
from libmecab.checks.examples import example_output
from libmecab.checks.mecabrc_lines import mecabrc_output
from libmecab.checks.unidic import unidic_output
from libmecab.checks.users import fields_with_users, lattices_with_users
from support.running import run

JAR = Path("/usr/share/java/MeCab-0.996.jar")
POSTGRESQL = Path("/usr/lib/postgresql")
WORD_ITEMS = (
    "%m %M %H %h %phl %phr %t %s %c %pw %pb %pl %pL %ps %pe %pC %pn %pc %L %P %pP %pA %pB %%\\n"
)
END_ITEMS = "%L %S %pc %h %m %H %t %s %ps %pe %pl %pL %pb %f[0] %f[0,1] %pn %pC\\n"
OPTIONS = [
    ["-Ochasen"],
    ["-Ochasen2"],
    ["-Oyomi"],
    ["-Osimple"],
    ["-Owakati"],
    ["-Onone"],
    ["-F", WORD_ITEMS, "-E", END_ITEMS, "-B", "%L %m %H %f[0]\\n"],
    ["-F", r"%F-[0,1,2,3]|%F\t[0,3]|%f[6,]|%f[,1]|%FH[0,1]|%f[]|%F,[0,5,1]\n"],
    ["-F", r"%M|%pS|%m\n", "-U", r"%F:[0,1]%M|%pS|%m\n"],
    ["-x", "x,y"],
    ["-x", "x,y", "-F", r"%m %H %h %f[0]\n", "-U", r"%m %H\n"],
    ["-m"],
    ["-l1"],
    ["-l", "2"],
    ["-N1"],
    ["-N", "1", "-S", "x"],
    ["-M0"],
    ["-M3", "-Osimple"],
    ["-C"],
    ["-c5", "-t0.1"],
    ["-r", "SETTINGS"],
    ["-r", "SETTINGS", "-Owakati"],
    ["-F", r"\a\b\t\v\f\r\s\\%m\n"],
]


class Client(NamedTuple):
    """A client, whether it is installed, and what it prints."""

    name: str
    is_installed: bool
    output: Output


def options_output(context: Context) -> bytes:
    """Returns what the program mecab prints with each row of OPTIONS."""
    outputs = []
    settings = context.folder / "settings"
    formats = "output-format-type = own\nnode-format-own = [%m]\neos-format-own=\\n\n"
    settings.write_text(f"; settings\n\ndicdir = {context.dictionary}\n{formats}")
    for options in OPTIONS:
        words = [word.replace("SETTINGS", str(settings)) for word in options]
        command: Command = ["mecab", *words, context.lines]
        done = subprocess.run(command, capture_output=True, env=context.environment)
        if done.returncode != 0:
            fail(f"mecab {' '.join(words)}: status {done.returncode}")
        outputs.append(" ".join(options).encode() + b"\n" + done.stdout)
    return b"".join(outputs)


def mecab_output(context: Context) -> bytes:
    """Returns what the program mecab prints, also with -Owakati."""
    wakati = context.run(["mecab", "-Owakati", context.lines])
    return context.run(["mecab", context.lines]) + wakati


def c_output(context: Context, name: str, *words: Path) -> bytes:
    """Returns what a program of clients/ in C prints over IPADIC."""
    return context.run([context.client(name), context.dictionary, *words])


def python_output(context: Context) -> bytes:
    """Returns what Python's module MeCab prints, also for calls in other orders."""
    nodes = context.run([PYTHON, CLIENTS / "nodes.py", context.lines])
    return nodes + context.run([PYTHON, CLIENTS / "call_orders.py", context.dictionary])


def java_output(context: Context) -> bytes:
    """Returns what one tagger in four threads of Java prints."""
    few, folder = context.first_lines(500), context.folder
    source = CLIENTS / "OneTagger.java"
    run(["javac", "-encoding", "UTF-8", "-cp", JAR, "-d", folder, source])
    command: Command = ["java", "-Djava.library.path=/usr/lib/jni", "-cp", f"{JAR}:{folder}"]
    return context.run([*command, "OneTagger", context.dictionary, few])


def script_output(context: Context, language: str, name: str, *words: Path) -> bytes:
    """Returns what a script of clients/ prints."""
    return context.run([language, CLIENTS / name, *words])


def c_clients() -> list[Client]:
    """Returns the clients in C and C++, and the program mecab."""
    mecab, index = works("mecab", "--version"), INDEX.exists()
    sources = index and IPADIC.exists()
    over = [
        Client(
            f"{name}: its formats, and each field of each node",
            dictionaries.is_installed(name),
            dictionaries.output_over(name),
        )
        for name in dictionaries.NAMES
    ]
    return [
        Client("C in other orders", True, lambda it: c_output(it, "call_orders.c")),
        Client(
            "C in four threads of one tagger",
            True,
            lambda it: c_output(it, "one_tagger.c", it.first_lines(2000)),
        ),
        Client("C in 200 forks under load", True, lambda it: c_output(it, "forks.c")),
        Client("mecab", mecab, mecab_output),
        Client(
            "C, each field of each node", True, lambda it: c_output(it, "node_fields.c", it.lines)
        ),
        Client("C, each field of each node, with user dictionaries", sources, fields_with_users),
        Client("C, the whole lattice", sources, lattice_output),
        Client("C, the whole lattice, with user dictionaries", sources, lattices_with_users),
        Client("mecab with all morphs", sources and mecab, all_morphs_output),
        *over,
        Client("mecab with options and formats", mecab, options_output),
        Client("lines of a mecabrc", sources, mecabrc_output),
        Client("formats of a dicrc of no dictionary", mecab, custom_format_output),
        Client("UniDic's formats", index and mecab, unidic_output),
        Client("C and C++ as in MeCab's documents", True, example_output),
    ]


def other_clients() -> list[Client]:
    """Returns the clients in other languages, and those that segment for a database."""
    has_postgresql = any(POSTGRESQL.glob("*/bin/initdb"))
    return [
        Client(
            "mecab as a coprocess",
            works("mecab", "--version"),
            lambda it: script_output(it, PYTHON, "coprocess.py"),
        ),
        Client(
            "Text::MeCab",
            works("perl", "-MText::MeCab", "-e", "1"),
            lambda it: script_output(it, "perl", "nodes.pl", it.lines),
        ),
        Client(
            "MeCab.pm",
            works("perl", "-MMeCab", "-e", "1"),
            lambda it: script_output(it, "perl", "lattice.pl", it.first_lines(2000)),
        ),
        Client("python3-mecab", works(PYTHON, "-c", "import MeCab"), python_output),
        Client("libmecab-java", JAR.exists() and works("javac", "-version"), java_output),
        Client(
            "ruby-mecab",
            works("ruby", "-e", 'require "MeCab"'),
            lambda it: script_output(it, "ruby", "nodes.rb", it.lines),
        ),
        Client(
            "sylph-searcher",
            shutil.which("syldbimport") is not None and has_postgresql,
            lambda it: script_output(it, PYTHON, "sylph_searcher.py", it.first_lines(1000)),
        ),
        Client("groonga", groonga.is_installed(), groonga.groonga_output),
        Client(
            "a Groonga server with four threads and four clients",
            groonga.is_installed(),
            groonga.groonga_server_output,
        ),
    ]


def clients() -> list[Client]:
    """Returns all clients."""
    return [*c_clients(), *other_clients()]
