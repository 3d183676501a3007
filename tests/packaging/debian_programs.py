"""Checks of kumquatsieve, libkumquatsieve-dev and python3-kumquatsieve as installed."""
import shutil
import subprocess
from contextlib import contextmanager
from typing import Iterator

from checking import IMAGE, IMAGES, LINE, PRINTED, WAKATI, expect
from root import Root
from support.running import SAMPLE

WITH_USER = "すもも ももも \n"
# Where kumquatsieve-import finds the sources of a dictionary by the name `unidic`.
UNIDIC = "usr/share/mecab/dic/unidic"
PROGRAMS = ("jseg", "dictc", "pjseg", "kumquatsieve-import")


def check_programs(root: Root) -> None:
    """Compiles and imports the sample, and segments a line, also with a user dictionary."""
    shutil.copytree(SAMPLE, root.folder / "sources")
    definitions = []
    for name in ("matrix", "char", "unk"):
        definitions += [f"--{name}", f"/sources/{name}.def"]
    root.run("dictc", "system", *definitions, "--out", IMAGE, "/sources/lexicon.csv")
    for program in ("jseg", "pjseg"):
        expect(program, WAKATI, root.run(program, "-d", IMAGE, "-O", "wakati", text=LINE))
    (root.folder / "sources" / "user").write_text("ももも,1,1,1,名詞,ももも\n")
    root.run("dictc", "user", "--dic", IMAGE, "--out", "/tmp/user.img", "/sources/user")
    options = ["-d", IMAGE, "-u", "/tmp/user.img", "-O", "wakati"]
    expect("jseg -u", WITH_USER, root.run("jseg", *options, text="すももももも\n"))
    root.run("kumquatsieve-import", "/sources", "/tmp/imported.img")
    imported = root.run("jseg", "-d", "/tmp/imported.img", text=LINE)
    expect("jseg with the imported image", PRINTED, imported)
    with proc_mounted(root) as has_proc:
        check_names(root, has_proc)
    check_completion(root)


def check_completion(root: Root) -> None:
    """Checks that bash and zsh find the completions of each program.

    bash finds them by the name of the program, and zsh by the first line of a file.
    """
    for name in PROGRAMS:
        script = f"/usr/share/bash-completion/completions/{name}"
        root.run("bash", "-c", f". {script} && complete -p {name}")
    file = root.folder / "usr/share/zsh/vendor-completions/_kumquatsieve"
    expect("what zsh completes", " ".join(("#compdef", *PROGRAMS)), file.read_text().split("\n")[0])


@contextmanager
def proc_mounted(root: Root) -> Iterator[bool]:
    """Mounts /proc in a root folder, and yields whether it could.

    Without /proc no image is tested. If it can't be mounted, it has the link by which jseg finds
    its prefix.
    """
    proc = root.folder / "proc"
    proc.mkdir(exist_ok=True)
    words = ["mount", "-t", "proc", "proc", str(proc)]
    mounted = subprocess.run(words, stderr=subprocess.DEVNULL).returncode == 0
    if not mounted:
        (proc / "self").mkdir()
        (proc / "self/exe").symlink_to("/usr/bin/jseg")
    try:
        yield mounted
    finally:
        if mounted:
            subprocess.run(["umount", "-l", str(proc)], check=True)
        else:
            shutil.rmtree(proc / "self")


def check_names(root: Root, has_proc: bool) -> None:
    """Checks images by their names: an installed one, and one that is imported."""
    expect("jseg -d sample", PRINTED, root.run("jseg", "-d", "sample", text=LINE))
    size = (root.folder / IMAGE[1:]).stat().st_size
    listed = root.run("jseg", "--dictionaries")
    expect("jseg --dictionaries", f"sample\t{size}\t3\t{IMAGE}\n", listed)
    folder = root.folder / UNIDIC
    made = [parent for parent in folder.parents if not parent.exists()]
    shutil.copytree(SAMPLE, folder)
    (folder / "dicrc").write_text("; f[0]: pos\n; f[1]: reading\n")
    reported = root.run("kumquatsieve-import", "unidic")
    expect("the names of fields", True, "written beside it: unidic.fields\n" in reported)
    record = root.folder / IMAGES[1:] / "unidic.tested"
    is_recorded = f"tested: {IMAGES}/unidic.img\n" in reported and record.exists()
    expect("whether the image is tested and recorded", has_proc, is_recorded)
    # The purge has to remove it in any case.
    record.touch()
    expect("jseg -d unidic", PRINTED, root.run("jseg", "-d", "unidic", text=LINE))
    shutil.rmtree(folder)
    for parent in made:
        parent.rmdir()


def check_c(root: Root) -> None:
    """Compiles and runs the example in C, with the shared library and with the archive."""
    source = "/usr/share/doc/libkumquatsieve-dev/examples/words.c"
    flags = root.run("pkg-config", "--cflags", "--libs", "kumquatsieve").split()
    words = PRINTED.removesuffix("EOS\n")
    root.run("gcc", source, *flags, "-o", "/tmp/words")
    expect("the example in C", words, root.run("/tmp/words", IMAGE, LINE.rstrip("\n")))
    root.run("gcc", source, "-l:libkumquatsieve.a", "-o", "/tmp/words")
    printed = root.run("/tmp/words", "sample", LINE.rstrip("\n"))
    expect("the example in C with the archive", words, printed)


def check_python(root: Root) -> None:
    """Runs the example in Python, and compares the versions of the module and of its metadata."""
    example = "/usr/share/doc/python3-kumquatsieve/examples/segment.py"
    expect("the example in Python", PRINTED, root.run("python3", example, IMAGE, text=LINE))
    code = (
        "import importlib.metadata, kumquatsieve; "
        "print(importlib.metadata.version('kumquatsieve') == kumquatsieve.__version__)"
    )
    expect("the version of the dist-info", "True\n", root.run("python3", "-c", code))
