#!/usr/bin/env python3
"""Checks which records of tested images are trusted.

OPEN_CODE is tests/capi/c/open_code.c as a program, and SYSTEM.img the sample's image. Each case of
trust_cases.py has its own directory with an image and a valid record, before or after which
something is changed. The image breaks a rule, because its first token has a text of 4 GB. So it is
accepted if the record is trusted, and rejected with L7 otherwise.

As root, all cases run in their own mount namespace. What can't be tested here is printed on a line
that starts with `left out: `.
"""
import argparse
import os
import shutil
import subprocess
import sys
import tempfile
from pathlib import Path

sys.dont_write_bytecode = True
sys.path.insert(0, str(Path(__file__).resolve().parents[2]))
from capi.cases.case_dir import BAD_USER, BAD_USER_1, BAD_USER_2, CaseDir  # noqa: E402
from capi.cases.case_dir import bad_system, bad_system_2  # noqa: E402
from capi.cases.changes import mount, mounted_under  # noqa: E402
from capi.cases.trust_cases import OF_ANYONE, OF_ROOT, Case  # noqa: E402
from support.running import run  # noqa: E402

# Error codes: KUMQUATSIEVE_OK, L7 BadText and L4 BadSection.
ACCEPTED, BAD_TEXT, BAD_SECTION = 0, 0x4C07, 0x4C04
# File systems on which records are trusted.
LOCAL = "ext2 ext3 ext4 xfs btrfs tmpfs overlay f2fs zfs squashfs erofs".split()
IN_NAMESPACE = "TRUST_IN_NAMESPACE"
SECONDS = 60


def open_code(program: Path, case: CaseDir, *system: Path) -> int:
    """Returns the code of opening an image; a user's is opened after the system's."""
    printed = run(
        [*case.prefix, program, str(case.how), case.path, *system],
        env={**os.environ, **case.variables},
        cwd=case.cwd,
        timeout=SECONDS,
    )
    return int(printed.split()[0], 0)


def check(what: str, code: int, expected: int) -> None:
    """Ends this script if an image is opened with another code than expected."""
    if code != expected:
        sys.exit(f"trust: {what}: {code:#x}, expected {expected:#x}")


def check_case(case: Case, directory: CaseDir, program: Path) -> None:
    """Checks whether the record of a case is trusted."""
    try:
        case.before(directory)
        directory.write_record()
        case.after(directory)
        code = open_code(program, directory)
    finally:
        while mounted_under(directory.directory):
            continue
    check(case.what, code, ACCEPTED if case.is_trusted else BAD_TEXT)


def check_other_images(system: Path, folder: Path, program: Path) -> int:
    """Checks user images and images of older layouts, each with a valid record.

    Returns the number of cases.
    """
    older = bad_system_2(system.read_bytes())
    rows: list[tuple[str, bytes, list[Path], int]] = [
        # (what, the image, the system's image, the code)
        ("a user's", BAD_USER, [system], ACCEPTED),
        ("a user's of layout 1", BAD_USER_1, [system], BAD_TEXT),
        ("a user's of layout 2", BAD_USER_2, [system], BAD_TEXT),
        ("a system's of layout 2", older, [], BAD_SECTION),
    ]
    for number, (what, image, systems, expected) in enumerate(rows):
        case = CaseDir(folder / f"other{number}", image)
        case.write_record()
        check(what, open_code(program, case, *systems), expected)
    return len(rows)


def can_trust(folder: Path, is_root: bool) -> bool:
    """Returns whether records in a folder can be trusted. If not, root mounts a file system."""
    words = ["findmnt", "-no", "FSTYPE,OPTIONS", "-T", str(folder)]
    found = subprocess.run(words, stdout=subprocess.PIPE, text=True).stdout.split()
    if found and found[0] in LOCAL and "nosuid" not in found[1].split(","):
        return True
    if is_root:
        mount("-t", "tmpfs", "-o", "mode=755", "tmpfs", folder)
    return is_root


def enter_namespace() -> bool:
    """Enters a mount namespace of its own, and returns whether this script may mount there."""
    if os.environ.get(IN_NAMESPACE):
        return True
    if os.geteuid() != 0 or subprocess.run(["unshare", "-m", "true"]).returncode != 0:
        return False
    os.environ[IN_NAMESPACE] = "1"
    os.execvp("unshare", ["unshare", "-m", sys.executable, *sys.argv])


def check_all(folder: Path, program: Path, system: Path, is_root: bool) -> None:
    """Checks all cases that can be tested here."""
    image = bad_system(system.read_bytes())
    cases = [*OF_ANYONE, *(OF_ROOT if is_root else [])]
    for number, case in enumerate(cases):
        check_case(case, CaseDir(folder / f"case{number}.", image), program)
    count = len(cases) + check_other_images(system, folder, program)
    print(f"{count} cases of records, which are trusted or not as the rules require")
    if not is_root:
        print("left out: records of other users and file systems, which need root")


def main() -> None:
    parser = argparse.ArgumentParser(
        description=__doc__, formatter_class=argparse.RawDescriptionHelpFormatter
    )
    parser.add_argument("open_code", type=Path, metavar="OPEN_CODE")
    parser.add_argument("system", type=Path, metavar="SYSTEM.img")
    options = parser.parse_args()
    is_root = enter_namespace()
    os.umask(0o022)
    with tempfile.TemporaryDirectory() as name:
        folder = Path(name).resolve()
        folder.chmod(0o755)
        if not can_trust(folder, is_root):
            print("left out: records, because the temporary folder is on another file system")
            return
        program = Path(shutil.copy(options.open_code, folder))
        check_all(folder, program, options.system.resolve(), is_root)
        while mounted_under(folder):
            continue


if __name__ == "__main__":
    main()
