"""Which images the program mecab opens, and which settings it rejects."""
import os
import shutil
import subprocess
from pathlib import Path

from libmecab.checks import image_search_cases
from libmecab.checks.common import INDEX, IPADIC, Built, fail, report
from libmecab.checks.settings_case import Case
from libmecab.checks.settings_cases import CASES, LONGEST
from support.running import program, run

# A program that waits for a pipe is stopped after these seconds.
SECONDS = 60
USER_ENTRY = "ももも,{0},{0},1,名詞,ももも\n"
# The bytes of the checksum at the end of an image.
CHECKSUM_BYTES = 32
VARIABLES = ("MECABRC", "KUMQUATSIEVE_DICTIONARY", "XDG_DATA_HOME")
DIRECTORIES = ("OWN/", "MADE/", "SHARED/")


def compile_users(folder: Path, sample: Path) -> None:
    """Compiles a user dictionary of one word by MeCab, and one for the sample by dictc."""
    source = folder / "user.csv"
    source.write_text(USER_ENTRY.format(1285))
    run([INDEX, "-d", IPADIC, "-u", folder / "user.dic", "-f", "UTF-8", "-t", "UTF-8", source])
    source = folder / "settings-user.csv"
    source.write_text(USER_ENTRY.format(1))
    image = source.with_suffix(".img")
    run([program("dictc"), "user", "--dic", sample, "--out", image, source])


class CaseFolder:
    """The folder of a case, with its images and files."""

    def __init__(self, built: Built, sample: Path, case: Case, number: int) -> None:
        self.built, self.sample, self.case = built, sample, case
        self.folder = built.folder / f"settings-{number}"

    def expanded(self, text: str) -> str:
        """Returns a text of the case with the paths of this folder."""
        directories = {
            "OWN": self.folder / "home" / ".local" / "share",
            "MADE": self.built.prefix / "var" / "lib",
            "SHARED": self.built.prefix / "share",
        }
        for name, directory in directories.items():
            for end in ",;":
                text = text.replace(f"{name}/{end}", f"{directory}/kumquatsieve{end}")
            text = text.replace(f"{name}/", f"{directory}/kumquatsieve/")
        text = text.replace("HERE", str(self.folder))
        return text.replace("USER", str(self.built.folder / "user.dic"))

    def images(self) -> dict[str, bytes]:
        """Returns the images in the folder, by their paths."""
        whole = self.sample.read_bytes()
        user = self.sample.with_name("settings-user.img").read_bytes()
        names = ("a.img", "b.img", "c.img", LONGEST, "with/kumquatsieve.img")
        return {
            **dict.fromkeys(names, whole),
            **dict.fromkeys(("user.img", "more.img"), user),
            "damaged.img": whole[:-1] + bytes([whole[-1] ^ 1]),
            "short.img": whole[:-1],
        }

    def write_files(self) -> None:
        """Writes the images, the files and the links of the case."""
        checksum = self.sample.read_bytes()[-CHECKSUM_BYTES:].hex()
        files = self.images()
        for name, text in self.case.files.items():
            files[name] = self.expanded(text).replace("SUM", checksum).encode()
        for name, data in files.items():
            path = self.folder / name
            path.parent.mkdir(parents=True, exist_ok=True)
            path.write_bytes(data)
        for name, target in self.case.links.items():
            (self.folder / name).symlink_to(target)

    def environment(self) -> dict[str, str]:
        """Returns the environment of the program."""
        inherited = {name: value for name, value in os.environ.items() if name not in VARIABLES}
        added = {name: self.expanded(value) for name, value in self.case.environment.items()}
        library = str(self.built.library.parent)
        return {**inherited, "HOME": str(self.folder / "home"), "LD_LIBRARY_PATH": library, **added}

    def run(self) -> "subprocess.CompletedProcess[str]":
        """Runs the program, with the installed images and pipes of the case meanwhile."""
        installed = [Path(self.expanded(name)) for name in self.case.installed]
        pipes = [Path(self.expanded(name)) for name in self.case.pipes]
        for path in installed + pipes:
            path.parent.mkdir(parents=True, exist_ok=True)
        for path in installed:
            shutil.copyfile(self.sample, path)
        for path in pipes:
            os.mkfifo(path)
        command = ["mecab", "-D", *map(self.expanded, self.case.options)]
        # Not as text, which would read a carriage return as a line end.
        done = subprocess.run(command, capture_output=True, env=self.environment(), timeout=SECONDS)
        for path in installed + pipes:
            path.unlink()
        out, error = done.stdout.decode(), done.stderr.decode()
        return subprocess.CompletedProcess(command, done.returncode, out, error)

    def expected_images(self) -> list[str]:
        """Returns the paths of the images that the program opens."""
        return [
            self.expanded(name if name.startswith(DIRECTORIES) else f"HERE/{name}")
            for name in (self.case.image, *self.case.users)
        ]

    def is_right(self, done: "subprocess.CompletedProcess[str]") -> bool:
        """Returns whether the program opens these images, or prints the error."""
        if not self.case.image:
            error = self.expanded(self.case.error)
            return done.returncode == 1 and not done.stdout and error in done.stderr
        lines = done.stdout.replace("folder/../", "").splitlines()
        images = [
            line.removeprefix("filename:\t") for line in lines if line.startswith("filename:")
        ]
        return done.returncode == 0 and images == self.expected_images()


def check_settings(built: Built, sample: Path) -> None:
    """Checks each case."""
    compile_users(built.folder, sample)
    cases = [*CASES, *image_search_cases.CASES]
    for number, case in enumerate(cases):
        folder = CaseFolder(built, sample, case, number)
        folder.write_files()
        done = folder.run()
        if not folder.is_right(done):
            fail(f"{case.what}: status {done.returncode}, {done.stdout}{done.stderr}")
    report(f"{len(cases)} cases of settings, which lead to their images or are rejected")
