"""The calls of the library: under valgrind and sanitizers, with forks, and out of memory."""
import re
import shutil
import subprocess
from pathlib import Path

from libmecab.checks.common import CLIENTS, HEADER, MORE_ENTRIES, VALGRIND, Built
from libmecab.checks.common import fail, first_lines, report, sample_image
from support.heap import Heap
from support.running import SAMPLE, run

# The programs that run over the sample.
OVER_THE_SAMPLE = ("calls.c", "classes.cc", "sharing.c", "odd_texts.c")
HELGRIND = ["valgrind", "-q", "--tool=helgrind", "--error-exitcode=9"]
# More allocations than a program makes.
MANY = 10_000


def sample_lexicon() -> str:
    """Returns the lexicon of the sample."""
    return (SAMPLE / "lexicon.csv").read_text()


def check_coverage() -> None:
    """Each call of MeCab's header, and each function of its classes, is in a program."""
    pattern = r"^ *(?:virtual|static|MECAB_DLL_EXTERN)\b[^;(~]*?\b(\w+) *\("
    declared = set(re.findall(pattern, HEADER.read_text(), re.MULTILINE))
    text = "".join((CLIENTS / name).read_text() for name in (*OVER_THE_SAMPLE, "programs.c"))
    missing = [name for name in sorted(declared) if not re.search(rf"\b{name}\b", text)]
    if missing:
        fail(f"called by no program: {' '.join(missing)}")


def check_calls(built: Built) -> Path:
    """Makes each call, calls each function of the classes, and segments odd texts.

    There is no error and no block left under valgrind. Returns the path of the sample's image.
    """
    entries = [f"{surface},1,1,{cost},{feature}\n" for surface, cost, feature in MORE_ENTRIES]
    image = sample_image(built.folder, "sample", sample_lexicon() + "".join(entries))
    check_coverage()
    for source in OVER_THE_SAMPLE:
        built.show([*VALGRIND, built.client(source), image])
    return image


def check_replaced_image(built: Built) -> None:
    """A file replaces an image that is loaded."""
    other = sample_lexicon().replace("名詞,もも", "記号,もも")
    images = (
        sample_image(built.folder, "first", sample_lexicon()),
        sample_image(built.folder, "second", other),
    )
    built.show([*VALGRIND, built.client("replaced_image.c"), *images])


def check_changing_image(built: Built) -> None:
    """Another image, for which the settings are, replaces an image while it is opened."""
    image = sample_image(built.folder, "changing", sample_lexicon())
    entry = "空,1,1,-1000,記号,空\n"
    other = sample_image(built.folder, "changing-other", sample_lexicon() + entry)
    checksum = other.read_bytes()[-32:].hex()
    settings = f"; image-sha256 {checksum}\nbos-feature = OTHER\n"
    image.with_suffix(".dicrc").write_text(settings)
    flags = ["-fsanitize=address", "-Wl,--wrap=kumquatsieve_dictionary_open"]
    program = built.with_layer("changing_image.c", *flags)
    print(run([program, image, other]).decode(), end="", flush=True)


def check_out_of_memory(built: Built, image: Path) -> None:
    """Each allocation fails in turn. The call reports it or does without, and nothing crashes."""
    image.with_suffix(".dicrc").write_text("bos-feature = B,*\nnode-format-x = %m %F-[0,1] %h\\n\n")
    image.with_suffix(".pos-id.def").write_text("名詞 3\n* 4\n")
    program, heap = built.client("out_of_memory.c"), Heap(built.folder)
    count = 0
    for options in ("-C", "-Ox"):
        for number in range(1, MANY):
            environment = heap.environment(number, built.environment)
            done = subprocess.run([program, image, options], env=environment, capture_output=True)
            if heap.counts().failed == 0:
                break
            if done.returncode not in (0, 1):
                fail(f"{options}, allocation {number} fails: status {done.returncode}")
            count += 1
    report(f"{count} allocations, each of which failed in turn: none ends the program")


def check_forks(built: Built, image: Path) -> None:
    """Forks while threads load and free images: no child inherits a lock, and no thread hangs."""
    copies = [built.folder / "one.img", built.folder / "other.img"]
    for copy in copies:
        shutil.copyfile(image, copy)
    printed = run([built.client("forks.c"), image, *copies], env=built.environment).decode()
    if printed != "2000 of 2000 children answered\n":
        fail(f"forks while images are loaded: {printed}")
    report(f"forks while images are loaded by turns: {printed.rstrip()}")


def check_threads(built: Built, lines: Path, dictionary: str) -> None:
    """One tagger runs in four threads, without a race.

    Helgrind takes an atomic read for a plain one. So the entries of the lines are cached before the
    threads start. Under ThreadSanitizer, which knows atomic reads, the threads cache them.
    """
    program = built.client("one_tagger.c")
    few = first_lines(lines, 20, built.folder)
    run([*HELGRIND, program, dictionary, few, "met"], env=built.environment)
    program = built.with_layer("one_tagger.c", "-fsanitize=thread")
    run([program, dictionary, first_lines(lines, 1000, built.folder)])
    report("one tagger in four threads: no race")
