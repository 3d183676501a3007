"""The programs that are compared, and what they are run on."""
import os
import shutil
import subprocess
import sys
from pathlib import Path
from typing import Dict, Iterable, List, NamedTuple, NoReturn, Optional, Sequence, Union

from support.heap import Heap
from support.running import SAMPLE, TOP, preloadable, run

from .cases import long_outputs
from .cases.command_lines import NAME
from .cases.comparisons import Case

USER = "すもももも,1,1,-30000,名詞,すもももも\n"
# How long one run may take.
SECONDS = 300

Arguments = List[Union[str, Path]]


def fail(why: str) -> NoReturn:
    sys.exit(f"pjseg: {why}")


class Outcome(NamedTuple):
    """The status and output of a run, and its standard error without the program's name."""

    status: int
    out: bytes
    errors: bytes

    def __str__(self) -> str:
        return f"status {self.status}, {len(self.out)} bytes, {self.errors!r}"


class Setup:
    """A directory with the programs, the images and the libraries that are preloaded.

    If `program` is None, pjseg is built, over the archive of an earlier build if `is_built`.
    """

    def __init__(
        self, folder: Path, dictc: Path, jseg: Path, program: Optional[Path], is_built: bool
    ) -> None:
        self.folder, self.dictc, self.jseg = folder, dictc, jseg
        self.pjseg = program or self.build(is_built)
        self.image = self.compile("system", (SAMPLE / "lexicon.csv").read_text())
        self.long = self.compile("long", long_outputs.LEXICON)
        self.user = self.compile_user()
        self.images = {
            "SYSTEM": self.image,
            "USER": self.user,
            "DAMAGED": self.damaged(self.image),
            "DAMAGED USER": self.damaged(self.user),
        }
        self.failing, self.heap = preloadable("failing_calls", folder), Heap(folder)
        self.with_names = self.install_images()

    def compile(self, name: str, lexicon: str) -> Path:
        """Compiles a lexicon with the other sources of the sample, and returns the image."""
        source, image = self.folder / f"{name}.csv", self.folder / f"{name}.img"
        source.write_text(lexicon)
        command: Arguments = [self.dictc, "system", "--out", image]
        for definitions in ("matrix", "char", "unk"):
            command += [f"--{definitions}", SAMPLE / f"{definitions}.def"]
        run([*command, source])
        return image

    def compile_user(self) -> Path:
        source, image = self.folder / "user.csv", self.folder / "user.img"
        source.write_text(USER)
        run([self.dictc, "user", "--dic", self.image, "--out", image, source])
        return image

    def install_images(self) -> Dict[str, str]:
        """Returns an environment in which the images have the names `system` and `user`."""
        data = self.folder / "data"
        (data / "kumquatsieve").mkdir(parents=True)
        for image in (self.image, self.user):
            shutil.copy(image, data / "kumquatsieve")
        return {**os.environ, "XDG_DATA_HOME": str(data)}

    def damaged(self, image: Path) -> Path:
        """Copies an image with another last byte, which is one of its checksum."""
        *prefix, last = image.read_bytes()
        path = self.folder / f"damaged-{image.name}"
        path.write_bytes(bytes([*prefix, last ^ 1]))
        return path

    def build(self, is_built: bool) -> Path:
        """Builds the library and pjseg, and returns the program."""
        prefix = self.folder / "prefix"
        built = ["--built"] if is_built else []
        run([TOP / "packaging" / "build-library", *built, prefix])
        run([TOP / "packaging" / "build-pjseg", prefix])
        return prefix / "bin" / NAME

    def build_sanitized(self) -> Path:
        """Builds the program with ThreadSanitizer."""
        prefix = self.folder / "sanitized"
        shutil.copytree(self.folder / "prefix", prefix)
        flags = {"CFLAGS": "-O1 -g -fsanitize=thread", "CPPFLAGS": ""}
        run([TOP / "packaging" / "build-pjseg", prefix], env={**os.environ, **flags})
        return prefix / "bin" / NAME

    def write_text(self, text: bytes) -> Path:
        """Writes the text of a run to a file, in place of an earlier one."""
        path = self.folder / "text"
        path.write_bytes(text)
        return path

    def outcome(self, command: Sequence[Union[str, Path]], case: Case, text: Path) -> Outcome:
        """Runs a command under the conditions of a case."""
        variables = {**os.environ, **case.failing}
        if case.failing:
            variables["LD_PRELOAD"] = str(self.failing)
        stdin = self.folder if case.is_directory else text
        source = os.open(stdin, os.O_RDONLY)
        with case.output(self.folder) as writing:
            done = subprocess.run(
                command,
                stdin=source,
                stdout=writing,
                stderr=subprocess.PIPE,
                env=variables,
                preexec_fn=case.set_up,
                restore_signals=not case.max_file,
                timeout=SECONDS,
            )
            os.close(source)
            errors = done.stderr.replace(Path(command[0]).name.encode(), b"", 1)
            return Outcome(done.returncode, case.written(writing), errors)

    def compare(self, case: Case, text: Path, jobs: Iterable[int]) -> Outcome:
        """Checks that pjseg ends as jseg does, with each number of threads. Returns how."""
        arguments: Arguments = ["-d", self.images[case.image]]
        arguments += [self.images.get(option, option) for option in case.options]
        expected = self.outcome([self.jseg, *case.jseg, *arguments], case, text)
        for count in jobs:
            command: Arguments = [self.pjseg, "-j", str(count), *case.pjseg, *arguments]
            found = self.outcome(command, case, text)
            if found != expected:
                fail(f"{case.what}, {count} threads: {found}, and jseg: {expected}")
        if expected.status != case.status or case.error.encode() not in expected.errors:
            fail(f"{case.what}: jseg: {expected}, expected status {case.status}, {case.error!r}")
        return expected
