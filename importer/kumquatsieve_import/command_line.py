"""The command line."""
import os
import sys
from typing import Dict, List, NamedTuple, Optional, Sequence, Tuple

from .encodings import CHOICES, Encoding, encoding_named
from .errors import USAGE as USAGE_ERROR
from .errors import Error, as_bytes, printable

USAGE = (
    "usage: kumquatsieve-import [-v] [--encoding NAME] [--] DIR|ipadic|juman|naist|unidic [IMG], "
    "or kumquatsieve-import [-v] [--encoding NAME] --user DIC --out IMG [--] LEX.., "
    "or kumquatsieve-import [-v] --test [--] IMG.."
)
HELP = """\
Compiles the sources of a MeCab dictionary, or the lexicons of a user dictionary, to an image

Usage: kumquatsieve-import [OPTIONS] DIR|ipadic|juman|naist|unidic [IMG]
       kumquatsieve-import [OPTIONS] --user <DIC> --out <IMG> LEX..
       kumquatsieve-import [-v] --test IMG..

Arguments:
  DIR                Directory of MeCab sources
  ipadic|..|unidic   Sources of this dictionary, as installed by a Debian package
  IMG                Image to write [default: installed by name]; with --test, images to verify
  LEX                Lexicon of a user dictionary

Options:
  --encoding <NAME>  Encoding of the sources: utf-8, euc-jp, euc-jis-2004, cp932 or iso-2022-jp
                     [default: detected from the sources]
  --user <DIC>       Compile a user dictionary for this system dictionary, given by path or name
  --out <IMG>        Image of the user dictionary to write
  --test             Verify images completely, and record in NAME.tested that they passed
  -v, --verbose      Print each step to standard error
  -h, --help         Print help
"""
# The options with a value.
VALUED = ("--encoding", "--user", "--out")
# The names of dictionaries that Debian packages, each with the name of its directory.
DEBIAN_NAMES = {
    b"ipadic": b"ipadic",
    b"juman": b"juman",
    b"naist": b"naist-jdic",
    b"unidic": b"unidic",
}


class Choices(NamedTuple):
    """The options and arguments of a command line.

    `name` is the directory of sources, or the name of a dictionary that Debian packages. Without
    the path `image`, the image is installed by that name. If there are `lexicons`, they are
    compiled for the system dictionary `name`. If there are `images`, they are tested.
    """

    name: bytes
    image: Optional[bytes]
    encoding: Optional[Encoding]
    is_verbose: bool
    wants_help: bool
    lexicons: Tuple[bytes, ...] = ()
    images: Tuple[bytes, ...] = ()

    def is_debian(self) -> bool:
        return self.name in DEBIAN_NAMES


def usage_error(why: str) -> Error:
    return Error(USAGE_ERROR, f"{why}; {USAGE}")


def argument_bytes(arguments: List[str]) -> List[bytes]:
    """Returns the bytes of this process's last arguments, from which Python made `arguments`."""
    try:
        with open("/proc/self/cmdline", "rb") as file:
            found = file.read().split(b"\0")[:-1]
    except OSError:
        found = []
    if len(found) > len(arguments):
        return found[len(found) - len(arguments) :]
    try:
        return list(map(os.fsencode, arguments))
    except UnicodeEncodeError as error:
        why = "an argument cannot be decoded in this locale: set LC_ALL to C.UTF-8"
        raise Error(USAGE_ERROR, why) from error


def utf_8_arguments(arguments: List[str]) -> List[str]:
    """Returns the arguments decoded as UTF-8, with a surrogate for each byte that is not UTF-8.

    Python decodes them by the locale. In ja_JP.EUC-JP, for one, it can't encode its own decoding
    of a path in UTF-8.
    """
    if sys.getfilesystemencoding() == "utf-8":
        return arguments
    return [argument.decode("utf-8", "surrogateescape") for argument in argument_bytes(arguments)]


def parse_encoding(name: str) -> Encoding:
    found = encoding_named(name)
    if found is None:
        message = f"--encoding {printable(name)} is not supported; choose {CHOICES}"
        raise Error(USAGE_ERROR, message)
    return found


class Options:
    """The options and operands of a command line. An option may come anywhere before `--`."""

    def __init__(self) -> None:
        self.operands: List[bytes] = []
        self.values: Dict[str, str] = {}
        self.is_verbose = self.is_test = self.wants_help = False

    def parse(self, arguments: Sequence[str]) -> None:
        """Parses arguments up to a `--help`, after which nothing matters."""
        rest = list(arguments)
        while rest and not self.wants_help:
            argument = rest.pop(0)
            if argument == "--":
                self.operands += map(as_bytes, rest)
                return
            if argument.startswith("-"):
                self.parse_option(argument, rest)
            else:
                self.operands.append(as_bytes(argument))

    def parse_option(self, argument: str, rest: List[str]) -> None:
        """Parses an option, whose value may be the first of the remaining arguments."""
        name, equals, value = argument.partition("=")
        if argument in ("-h", "--help"):
            self.wants_help = True
        elif argument in ("-v", "--verbose"):
            self.is_verbose = True
        elif argument == "--test":
            self.is_test = True
        elif name in VALUED and (equals or rest):
            self.values[name] = value if equals else rest.pop(0)
        else:
            raise usage_error(
                f"{printable(argument)} is not an option, or its value is missing; "
                "write a file name that starts with - after --"
            )


def parse_arguments(arguments: Sequence[str]) -> Choices:
    """Returns the choices of a command line."""
    options = Options()
    options.parse(arguments)
    if options.wants_help:
        return Choices(b"", None, None, False, True)
    named = options.values.get("--encoding")
    encoding = parse_encoding(named) if named is not None else None
    if options.is_test:
        return choose_test(options)
    if "--user" in options.values or "--out" in options.values:
        return choose_user_import(options, encoding)
    return choose_import(options, encoding)


def choose_test(options: Options) -> Choices:
    images = options.operands
    if not images or b"" in images or options.values:
        raise usage_error("--test requires images, and excludes all options except -v")
    return Choices(b"", None, None, options.is_verbose, False, images=tuple(images))


def choose_user_import(options: Options, encoding: Optional[Encoding]) -> Choices:
    name, image = (as_bytes(options.values.get(one, "")) for one in ("--user", "--out"))
    lexicons = options.operands
    if not name or not image or not lexicons or b"" in lexicons:
        raise usage_error("a user dictionary requires --user, --out and a lexicon")
    return Choices(name, image, encoding, options.is_verbose, False, tuple(lexicons))


def choose_import(options: Options, encoding: Optional[Encoding]) -> Choices:
    names = options.operands
    if not 1 <= len(names) <= 2 or b"" in names:
        raise usage_error("a directory of sources and the image to write are required")
    name, image = names[0], names[1] if len(names) == 2 else None
    if image is None and (b"/" in name or name.startswith(b".")):
        message = f"the image to write is missing: kumquatsieve-import {printable(name)} IMG"
        raise Error(USAGE_ERROR, message)
    return Choices(name, image, encoding, options.is_verbose, False)
