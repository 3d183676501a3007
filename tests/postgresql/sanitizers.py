"""The extension in a backend without a server: under valgrind, and with sanitizers.

Neither knows the blocks that PostgreSQL's palloc takes from larger ones. Leaks are those that
valgrind finds.
"""
import os
import re
from pathlib import Path
from typing import List, Sequence, Tuple

from postgresql.behavior import Images, expect
from postgresql.server import Server
from support.running import TOP, run

SANITIZERS = "-fsanitize=address,undefined -fno-sanitize-recover=all"
NO_CATALOGS = Path(__file__).resolve().parent / "no_catalogs.c"
VALGRIND = ["valgrind", "--leak-check=full", "--show-leak-kinds=definite", "--num-callers=40"]
VALGRIND += ["--fullpath-after="]
# Lines are many for valgrind.
LINES = """\
SELECT count(*) FROM lines WHERE number % 10 = 0 AND to_tsvector('japanese', line) IS NOT NULL
SELECT count(*) FROM lines WHERE number % 10 = 0 AND line <> ts_headline('japanese', line, 'x')
"""
# Statements over the images IPADIC, SAMPLE and USER. Statements that start with `!` have to fail.
STATEMENTS = """\
LOAD 'kumquatsieve'
!SET kumquatsieve.dictionary = 'no_such_image'
!SET kumquatsieve.user_dictionaries = '"'
SET kumquatsieve.dictionary = 'SAMPLE'
!SELECT to_tsvector('japanese', 'すもも')
SET kumquatsieve.dictionary = 'IPADIC'
SELECT to_tsvector('japanese', E'東京大学へ行った。\\nLinux 6.1、ＬＩＮＵＸとﾃﾞｰﾀﾍﾞｰｽ㍿')
SELECT ts_headline('japanese', 'C++を使うfoo@example.com', to_tsquery('japanese', '使う'))
SELECT string_agg(token, '|') FROM ts_debug('japanese', '京都　の 3.14')
SELECT ts_lexize('japanese_base', '走っ'), ts_lexize('japanese_stop', '走っ')
SELECT length(to_tsvector('japanese', repeat('すもももももももものうち。', 2500)))
SET kumquatsieve.user_dictionaries = 'USER'
SELECT to_tsvector('japanese', 'C++とくまきゅう')
CREATE TEXT SEARCH DICTIONARY nameless (TEMPLATE = kumquatsieve_base, Field = 'none')
!SELECT ts_lexize('nameless', '東京')
DROP TEXT SEARCH DICTIONARY nameless
SELECT count(*) FROM kumquatsieve_dictionary_info()
SET kumquatsieve.expected_sha256 = '00'
!SELECT to_tsvector('japanese', 'すもも')
"""
# What they print. The sample's fields have no names.
PRINTED = ("'linux':6,9", "<b>使う</b>", "京都|　|の| |3.14", "{走る}", "'くまきゅう':", 'count = "2"')


def sanitizer_library() -> str:
    """Returns the path of AddressSanitizer's library, or an empty text."""
    path = run(["gcc", "-print-file-name=libasan.so"]).decode().strip()
    return path if Path(path).is_absolute() else ""


def check_statements(
    server: Server, images: Images, text: str, prefix: Sequence[str]
) -> Tuple[int, List[str]]:
    """Runs statements in a backend. Returns how many there are, and what is wrong."""
    text = text.replace("IPADIC", str(images.ipadic)).replace("USER", str(images.user))
    statements = text.replace("SAMPLE", str(images.sample)).splitlines()
    done = server.single(
        "".join(f"{statement.lstrip('!')};\n\n" for statement in statements), prefix
    )
    wrong = list(expect(prefix[0], done.stdout, *PRINTED))
    failures = sum(" ERROR: " in line for line in done.stderr.splitlines())
    if failures != sum(statement.startswith("!") for statement in statements):
        wrong.append(f"{prefix[0]}: {failures} statements fail: {done.stderr}")
    if done.returncode != 0:
        wrong.append(f"{prefix[0]}: status {done.returncode}: {done.stderr}")
    return len(statements), wrong


def valgrind_errors(log: str) -> List[str]:
    """Returns the errors and leaks in whose calls the extension or the library is.

    PostgreSQL has others, such as gaps in what it writes to its log.
    """
    text = re.sub(r"^==\d+== ?", "", log, flags=re.M)
    if "ERROR SUMMARY:" not in text:
        return [text]
    blocks = text.partition("\n\n")[2].split("\n\n")
    return [block for block in blocks if "/sources/src/" in block or "kumquatsieve" in block]


def check_valgrind(server: Server, images: Images) -> Tuple[int, List[str]]:
    """Runs STATEMENTS under valgrind. The server is stopped meanwhile."""
    log = server.folder / "home" / "valgrind"
    server.stop()
    count, wrong = check_statements(server, images, STATEMENTS, [*VALGRIND, f"--log-file={log}"])
    server.start()
    found = log.read_text() if log.exists() else "it has written no log"
    return count, wrong + [f"valgrind: {error}" for error in valgrind_errors(found)]


def install_sanitized(server: Server, prefix: Path) -> None:
    """Installs the extension with the C code of the library, both with sanitizers."""
    variables = {**os.environ, "CFLAGS": f"-O1 -g {SANITIZERS}", "STRIP": ":"}
    run([TOP / "packaging/build-library", "--built", prefix], env=variables)
    library = f"LIBRARY={prefix / 'lib' / 'libkumquatsieve.a'} {SANITIZERS}"
    server.install(library, f"COPT=-O1 {SANITIZERS} -I{prefix / 'include'}", "PKG_CONFIG=true")


def check_sanitizers(server: Server, images: Images, folder: Path) -> Tuple[int, List[str]]:
    """Runs STATEMENTS and LINES with sanitizers. The server is stopped meanwhile."""
    preloaded, log = folder / "no_catalogs.so", server.folder / "home" / "sanitizer"
    install_sanitized(server, folder / "sanitized")
    run(["gcc", "-shared", "-fPIC", NO_CATALOGS, "-o", preloaded])
    prefix = ["env", f"LD_PRELOAD={sanitizer_library()} {preloaded}"]
    prefix += [f"ASAN_OPTIONS=detect_leaks=0:log_path={log}", f"UBSAN_OPTIONS=log_path={log}"]
    server.stop()
    text = STATEMENTS.replace("SET kumquatsieve.expected", f"{LINES}SET kumquatsieve.expected")
    count, wrong = check_statements(server, images, text, prefix)
    server.start()
    reports = [path.read_text(errors="replace") for path in log.parent.glob(f"{log.name}*")]
    return count, wrong + [f"sanitizers: {report}" for report in reports]
