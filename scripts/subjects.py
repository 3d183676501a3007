"""The rule for subjects of commits: short, imperative, and no merge of a branch by its name."""
import re
import subprocess
from typing import Iterator

from repository import TOP

CHARACTERS = 72
# The words before the colon: a crate, a document or a folder, or several of them.
SCOPE = re.compile(r"^[^:]{1,40}: ")
# Words that end like a participle or a third person and are imperatives all the same.
IMPERATIVES = {"Bring", "Embed", "Feed", "Focus", "Need", "Proceed", "Seed", "Shed", "Speed"}


def is_imperative(word: str) -> bool:
    """Returns whether a word may be the first of a subject, as far as its form shows."""
    if word in IMPERATIVES:
        return True
    return word[:1].isupper() and re.search(r"(ed|ing|[^s]s)$", word) is None


def complaint(subject: str) -> str:
    """Returns what is wrong with a subject, or an empty text."""
    if len(subject) > CHARACTERS:
        return f"has {len(subject)} characters, and not at most {CHARACTERS}"
    if re.match(r"Merge (branch|remote)", subject):
        return "names a branch"
    if not is_imperative((SCOPE.sub("", subject).split() or [""])[0]):
        return "does not start with an imperative, capitalised and after a 'scope: ' if it has one"
    return ""


def poor_subjects() -> Iterator[str]:
    """Yields each commit that the default branch of origin lacks and whose subject is poor.

    Yields nothing in a repository without a branch origin/HEAD.
    """
    log = ["git", "log", "--format=%h %s", "origin/HEAD..HEAD"]
    listed = subprocess.run(
        log, cwd=TOP, stdout=subprocess.PIPE, stderr=subprocess.DEVNULL, text=True
    )
    for line in listed.stdout.splitlines():
        commit, _, subject = line.partition(" ")
        if complaint(subject):
            yield f"commit {commit}: '{subject}' {complaint(subject)}"
