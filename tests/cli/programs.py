"""Runs the programs, each in a process of its own, under the conditions of a case."""
import os
import resource
import shlex
import shutil
import subprocess
from pathlib import Path
from typing import Callable, Dict, List, NamedTuple, Optional, Sequence

from support.running import preloadable

from .cases.case import Conditions
from .process_streams import error_output, input_of, output_of

NOBODY = 65534


class Outcome(NamedTuple):
    """What a run printed, its exit status, and the number of its process.

    `messages` has what was written to standard error, one string for each write.
    """

    out: bytes
    messages: List[str]
    status: int
    pid: int


def setup_of(conditions: Conditions) -> Callable[[], None]:
    """Returns what is called in the process before the program starts."""

    def set_up() -> None:
        if conditions.existing:
            Path(conditions.existing.format(pid=os.getpid())).write_bytes(b"of a killed run")
        if conditions.max_file:
            limit = conditions.max_file, conditions.max_file
            resource.setrlimit(resource.RLIMIT_FSIZE, limit)
        if conditions.memory:
            limit = conditions.memory, conditions.memory
            resource.setrlimit(resource.RLIMIT_AS, limit)
        if conditions.stdin == "closed":
            os.close(0)
        if conditions.stdout == "closed":
            os.close(1)

    return set_up


class Programs:
    """The programs, installed to `prefix`, and the libraries that are preloaded into them.

    `bare-` before a name is the program in PREFIX/bare, which has no images. If this process is
    root, the programs run as nobody.
    """

    def __init__(self, prefix: Path, paths: Sequence[Path]) -> None:
        self.prefix = prefix
        self.paths: Dict[str, str] = {}
        for kind, folder in (("", prefix), ("bare-", prefix / "bare")):
            (folder / "bin").mkdir(parents=True)
            for path in paths:
                self.paths[kind + path.name] = shutil.copy(path, folder / "bin")
        # The directories of images that were made at run time, and that came with the programs.
        self.system_dir = prefix / "var" / "lib" / "kumquatsieve"
        self.shared_dir = prefix / "share" / "kumquatsieve"
        self.failing = preloadable("failing_calls", prefix)
        self.repeating = preloadable("repeating_heap", prefix)
        self.user: Optional[int] = NOBODY if os.geteuid() == 0 else None

    def environment(self, folder: Path, conditions: Conditions) -> Dict[str, str]:
        """Returns all environment variables of a run in `folder`."""
        variables = {
            name: value.replace("HERE", str(folder)) for name, value in conditions.variables.items()
        }
        if conditions.fails:
            return {"LD_PRELOAD": str(self.failing), "FAIL": conditions.fails, **variables}
        if conditions.repeats:
            return {"LD_PRELOAD": str(self.repeating), **variables}
        return variables

    def run(self, command: str, text: bytes, folder: Path, conditions: Conditions) -> Outcome:
        """Runs a command, quoted for a shell, in `folder` with `text` as its standard input."""
        name, *arguments = shlex.split(command)
        stdin = input_of(conditions.stdin, text, folder, self.user)
        stdout = output_of(conditions.stdout)
        stderr, messages = error_output(conditions.stderr)
        process = subprocess.Popen(
            [self.paths[name], *arguments],
            stdin=stdin,
            stdout=stdout,
            stderr=stderr,
            cwd=folder,
            env=self.environment(folder, conditions),
            user=self.user,
            group=self.user,
            extra_groups=None if self.user is None else [],
            restore_signals=conditions.killed or not conditions.max_file,
            preexec_fn=setup_of(conditions),
        )
        given = text if stdin == subprocess.PIPE else None
        out = process.communicate(given, conditions.seconds)[0] or b""
        if conditions.stdout == "file":
            out = os.pread(stdout, 1 << 20, 0)
        for end in (stdin, stdout, stderr):
            if end >= 0:
                os.close(end)
        return Outcome(out, messages(), process.returncode, process.pid)
