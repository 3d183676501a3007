"""What the library exports, and how programs find it."""
import re
import shutil

from libmecab.checks.common import CLIENTS, HEADER, PYTHON, Built, compiled, fail, report
from support.running import TOP, run

OPEN = "import ctypes; ctypes.CDLL('libmecab.so'); print(open('/proc/self/maps').read())"


def check_exports(built: Built) -> None:
    """The library exports each call of MeCab's header, and docs/LIBMECAB.md names each.

    It exports no other name of that form.
    """
    declared = set(re.findall(r"\b(mecab_\w+) *\(", HEADER.read_text()))
    lines = run(["nm", "-D", "--defined-only", built.library]).decode().splitlines()
    exported = {line.split()[-1] for line in lines}
    named = set(re.findall(r"`(mecab_\w+)", (TOP / "docs" / "LIBMECAB.md").read_text()))
    for what, found in (
        ("exports", {name for name in exported if name.startswith("mecab_")}),
        ("docs/LIBMECAB.md", named),
    ):
        if found != declared:
            fail(f"{what}: {' '.join(sorted(found ^ declared))}")
    report(f"{len(declared)} calls of MeCab's header are exported, and named in docs/LIBMECAB.md")


def check_linking(built: Built) -> None:
    """Programs find the library by its name, by pkg-config and by mecab-config."""
    folder = built.library.parent
    environment = {**built.environment, "PKG_CONFIG_PATH": str(folder / "pkgconfig")}
    if str(built.library) not in run([PYTHON, "-c", OPEN], env=environment).decode():
        fail("libmecab.so is another library by its name")
    linked = [run([folder / "mecab-config", "--libs"], env=environment).decode().split()]
    if shutil.which("pkg-config"):
        linked.append(run(["pkg-config", "--libs", "mecab"], env=environment).decode().split())
    for words in linked:
        program = compiled(CLIENTS / "node_fields.c", built.folder, *words)
        if str(built.library) not in run(["ldd", program], env=environment).decode():
            fail(f"{' '.join(words)} links another library")
    report("the library is found by its name, by mecab-config and by pkg-config")
