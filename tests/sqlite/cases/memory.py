"""Runs c/statements.c and c/threads.c: valgrind, sanitizers, and allocations that fail."""
import copy
import subprocess
import sys
from concurrent.futures import ThreadPoolExecutor
from pathlib import Path

from sqlite.cases.building import (
    Images,
    expect,
    installed,
    loading_program,
    report,
    small_images,
    static_program,
)
from support.heap import Counts, Heap
from support.running import missing_of, run

VALGRIND = ["valgrind", "-q", "--leak-check=full", "--show-leak-kinds=all", "--error-exitcode=9"]
HELGRIND = ["valgrind", "-q", "--tool=helgrind", "--error-exitcode=9"]
ADDRESS = "-O1 -g -fsanitize=address,undefined -fno-sanitize-recover=all"
THREAD = "-O1 -g -fsanitize=thread"
# Statements over the images SYS and USER. `!` is before one that fails.
STATEMENTS = """\
!CREATE VIRTUAL TABLE t USING fts5(a, tokenize="kumquatsieve dict nowhere")
!CREATE VIRTUAL TABLE t USING fts5(a, tokenize="kumquatsieve dict 'SYS' base x")
SELECT length(kumquatsieve_error()) > 10
CREATE VIRTUAL TABLE t USING fts5(a, tokenize="OPTIONS")
INSERT INTO t VALUES('犬は走る。ＤＯＧ は走った' || char(10) || '㈱ｽﾓﾓ、犬'), (CAST(x'e78aac00ff' AS TEXT))
INSERT INTO t VALUES(replace(hex(zeroblob(500)), '0', '走った犬'))
SELECT highlight(t, 0, '[', ']') FROM t('dog 走る')
SELECT count(*) FROM t('"犬 走" *')
SELECT length(kumquatsieve_dictionary('SYS,USER'))
!SELECT kumquatsieve_dictionary('nowhere')
SELECT surface, feature, start, "end", cost FROM kumquatsieve_words('SYS', '犬は走った')
SELECT count(*) FROM (VALUES('犬'),('走る')) AS v, kumquatsieve_words('SYS', v.column1)
!SELECT * FROM kumquatsieve_words('nowhere', '犬')
CREATE VIRTUAL TABLE o USING fts5(a, tokenize="kumquatsieve dict 'SYS' expect x")
!INSERT INTO o VALUES('犬')
DROP TABLE o
DROP TABLE t
"""
OPTIONS = "kumquatsieve dict 'SYS' users 'USER' stop '助詞' base colocated fold on"
THREADED = "kumquatsieve dict 'SYS' base colocated fold on stop 助詞"
# Allocations that fail are tried in so many processes at once.
PROCESSES = 2


def write_statements(folder: Path, images: Images) -> Path:
    text = STATEMENTS.replace("OPTIONS", OPTIONS)
    text = text.replace("SYS", str(images.system)).replace("USER", str(images.user))
    path = folder / "statements.sql"
    path.write_text(text)
    return path


def check_valgrind(extension: Path, folder: Path) -> list[str]:
    """No error, and no block that is not freed, under valgrind."""
    if missing_of(["valgrind"]):
        return ["valgrind missing"]
    images = small_images(folder)
    statements = write_statements(folder, images)
    run([*VALGRIND, loading_program(folder), statements, extension])
    report("statements: no error under valgrind")
    return []


def run_with_heap(shared: Heap, command: list[str], failing: int) -> Counts:
    """Runs the program, in which an allocation fails if `failing` is not 0."""
    heap = copy.copy(shared)
    heap.report = shared.report.with_name(f"counts{failing}")
    variables = heap.environment(failing or None)
    done = subprocess.run(command, env=variables, capture_output=True, timeout=60)
    if done.returncode != 0 or not heap.has_counts():
        text = (done.stdout + done.stderr).decode(errors="replace")
        sys.exit(f"sqlite: allocation {failing} fails: status {done.returncode}\n{text}")
    counts = heap.counts()
    heap.report.unlink()
    return counts


def check_heap(extension: Path, folder: Path) -> None:
    """Each allocation fails in turn, and nothing else fails for that.

    The extension is linked in, and no block is left. It is loaded too, also by SQL: nothing that it
    registered may be called after a failure. The loader leaves blocks of its own then.
    """
    linked = static_program("statements", folder / "prefix")
    statements = write_statements(folder, small_images(folder))
    allocations, left = check_allocations(folder / "linked", [str(linked), str(statements)])
    expect("blocks that were left", 0, left)
    nothing = folder / "nothing.sql"
    nothing.write_text("SELECT 1\nSELECT kumquatsieve_error()\n")
    program = str(loading_program(folder))
    more, _ = check_allocations(folder / "loaded", [program, str(nothing), str(extension)])
    by_sql = folder / "by_sql.sql"
    load = f"SELECT load_extension('{extension}')\n"
    by_sql.write_text(load + load + nothing.read_text())
    again, _ = check_allocations(folder / "by_sql", [program, str(by_sql), "-"])
    report(
        f"{allocations} allocations that fail in turn, {more} of loading, {again} of that by SQL"
    )


def check_allocations(own: Path, command: list[str]) -> tuple[int, int]:
    """Runs a program in which each allocation fails in turn.

    Returns how many there are, and how many blocks were left at most.
    """
    own.mkdir()
    heap = Heap(own)
    count = run_with_heap(heap, command, 0).allocations
    with ThreadPoolExecutor(PROCESSES) as pool:
        runs = pool.map(lambda failing: run_with_heap(heap, command, failing), range(count + 1))
        return count, max(counts.unfreed for counts in runs)


def check_sanitizers(folder: Path) -> None:
    """The extension with the C code of the library, with AddressSanitizer and ThreadSanitizer."""
    images = small_images(folder)
    statements = write_statements(folder, images)
    for name, flags in (("address", ADDRESS), ("thread", THREAD)):
        (folder / name).mkdir()
        prefix = installed(folder / name, True, flags)
        run([static_program("statements", prefix, flags.split()), statements])
        lines = folder / "lines"
        lines.write_text("".join(f"犬{'は' * (i % 3)}走っ{'た' * (i % 5)}ＤＯＧ\n" for i in range(100)))
        tokenize = THREADED.replace("SYS", str(images.system))
        counts = run([static_program("threads", prefix, flags.split()), lines, tokenize]).split()
        expect("queries without rows", 0, counts.count(b"0"))
        report(f"statements and threads: no error with -fsanitize={name}")
