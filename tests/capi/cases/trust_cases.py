"""Cases of records: changes before and after a valid record is written, and whether it is trusted.

docs/C_API.md has the rules.
"""
import os
from typing import NamedTuple

from capi.cases.changes import (
    Change,
    both,
    bound,
    by_linked_directory,
    changed_back,
    copied_elsewhere,
    created_anew,
    digits,
    effective_root,
    exchanged,
    how,
    linked,
    linked_from_elsewhere,
    linked_hard,
    long_name,
    made_device,
    made_socket,
    mode,
    mounted,
    named,
    no_change,
    no_record,
    of_1969,
    overlaid,
    owner,
    path,
    reader,
    record_by,
    record_elsewhere,
    remounted,
    replaced,
    restored,
    setting,
    swapped,
    text,
    touched,
)

# KUMQUATSIEVE_TEST_DIGEST and KUMQUATSIEVE_COPY of the header.
TEST_DIGEST, COPY = 2, 4
# Users that own files or read them. They need not exist.
READER, STRANGER = 12345, 12346


class Case(NamedTuple):
    """A case, and whether the record is trusted after the changes."""

    what: str
    is_trusted: bool
    before: Change = no_change
    after: Change = no_change


def all_of(user: int) -> Change:
    """Gives the directory and the image to a user. The record is written later."""
    return both(owner("directory", user), owner("image", user))


# fmt: off
WAYS = [
    Case("a valid record", True),
    Case("an image without .img", True, named("x.dic", "x.dic.tested")),
    Case("an image .img", True, named(".img", ".img.tested")),
    Case("an image x.img.img", True, named("x.img.img", "x.img.tested")),
    Case("x.img.tested beside x.img", False, named("x.img", "x.img.tested")),
    Case("a long name", False, after=long_name),
    Case("a name alone", True, after=path("x.img")),
    Case("./ before it", True, after=path("./x.img")),
    Case("two slashes", True, after=path(".//x.img")),
    Case("through a linked directory", True, after=by_linked_directory),
    Case("a time before 1970", True, of_1969),
    Case("tested with its checksum", False, after=how(TEST_DIGEST)),
    Case("copied", False, after=how(COPY)),
    Case("no record", False, after=no_record),
    Case("KUMQUATSIEVE_TRUST=never", False, after=setting("never")),
    Case("KUMQUATSIEVE_TRUST=", True, after=setting("")),
    Case("KUMQUATSIEVE_TRUST=always", True, after=setting("always")),
    Case("both read-only", True, mode("image", 0o444), mode("record", 0o444)),
    Case("a directory with setgid", True, mode("directory", 0o2755)),
]
IMAGES = [
    Case("copied elsewhere with its record", False, after=copied_elsewhere),
    Case("restored with its record", False, after=restored),
    Case("changed in place, its time set back", False, after=changed_back),
    Case("touched", False, after=touched),
    Case("of another mode", False, after=mode("image", 0o600)),
    Case("replaced by a copy", False, after=replaced),
    Case("deleted and created anew", False, after=created_anew),
    Case("a link", False, after=linked),
    Case("a link from elsewhere", False, after=linked_from_elsewhere),
    Case("a hard link elsewhere", False, after=linked_hard),
    Case("the directory is swapped", False, after=swapped),
]
TEXTS = [
    Case("version 2", False, after=exchanged("tested 1", "tested 2")),
    Case("version 10", False, after=exchanged("tested 1", "tested 10")),
    Case("no first line", False, after=exchanged("kumquatsieve-tested 1\n", "")),
    Case("an empty record", False, after=text(lambda all_of_it: "")),
    Case("half a record", False, after=text(lambda it: it[: len(it) // 2])),
    Case("no line feed at the end", False, after=text(lambda it: it[:-1])),
    Case("CR LF", False, after=text(lambda it: it.replace("\n", "\r\n"))),
    Case("CR LF at the end", False, after=text(lambda it: it[:-1] + "\r\n")),
    Case("CR at the end", False, after=text(lambda it: it[:-1] + "\r")),
    Case("a line more", False, after=text(lambda it: it + "more\n")),
    Case("a line feed more", False, after=text(lambda it: it + "\n")),
    Case("a zero byte more", False, after=text(lambda it: it + "\0")),
    Case("a megabyte more", False, after=text(lambda it: it + "0" * 2**20)),
    Case("a blank before it", False, after=text(lambda it: " " + it)),
    Case("a byte order mark", False, after=text(lambda it: "\xef\xbb\xbf" + it)),
    Case("two blanks", False, after=exchanged("inode ", "inode  ")),
    Case("a tab", False, after=exchanged("inode ", "inode\t")),
    Case("a leading zero", False, after=exchanged("inode ", "inode 0")),
    Case("a sign", False, after=exchanged("size ", "size +")),
    Case("another device", False, after=exchanged("device ", "device 1")),
    Case("another inode", False, after=exchanged("inode ", "inode 1")),
    Case("another size", False, after=exchanged("size ", "size 1")),
    Case("another mtime", False, after=exchanged("mtime ", "mtime 1")),
    Case("another ctime", False, after=exchanged("ctime ", "ctime 1")),
    Case("lines exchanged", False, after=exchanged("mtime", "ctime")),
    Case("a checksum in capitals", False, after=digits(lambda it: it[1:].upper() + "A")),
    Case("63 digits", False, after=digits(lambda it: it[1:])),
    Case("65 digits", False, after=digits(lambda it: it + "0")),
    Case("no digit", False, after=digits(lambda it: "")),
    Case("another letter", False, after=digits(lambda it: it[1:] + "g")),
    Case("a zero byte for a digit", False, after=digits(lambda it: it[1:] + "\0")),
    Case("a blank for a digit", False, after=digits(lambda it: it[1:] + " ")),
]
RECORDS = [
    Case("the record is a link", False, after=record_elsewhere),
    Case("the record is a link to nothing", False, after=record_by(lambda at: at.symlink_to("z"))),
    Case("the record is a pipe", False, after=record_by(os.mkfifo)),
    Case("the record is a directory", False, after=record_by(os.mkdir)),
    Case("the record is a socket", False, after=record_by(made_socket)),
]
MODES = [
    Case("an image that its group may write", False, mode("image", 0o664)),
    Case("an image that others may write", False, mode("image", 0o646)),
    Case("a record that its group may write", False, after=mode("record", 0o664)),
    Case("a record that others may write", False, after=mode("record", 0o646)),
    Case("a directory that its group may write", False, mode("directory", 0o775)),
    Case("a directory that others may write", False, mode("directory", 0o757)),
    Case("a directory as /tmp", False, mode("directory", 0o1777)),
]
READS = reader(READER)
OWNERS = [
    Case("all are the reader's", True, all_of(READER), both(owner("record", READER), READS)),
    Case("all are root's, a user reads", True, after=READS),
    Case("only the record is the reader's", True, after=both(owner("record", READER), READS)),
    Case("a stranger's image", False, owner("image", STRANGER)),
    Case("a stranger's record", False, after=owner("record", STRANGER)),
    Case("a stranger's directory", False, owner("directory", STRANGER)),
    Case("a user reads a stranger's image", False, owner("image", STRANGER), READS),
    Case("a user, a stranger's record", False, after=both(owner("record", STRANGER), READS)),
    Case("a user, a stranger's directory", False, owner("directory", STRANGER), READS),
    Case("all are a user's, root reads", False, all_of(READER), owner("record", READER)),
    Case("the image is the real user's", False, owner("image", READER), effective_root(READER)),
    Case("a record that can't be read", False, after=both(mode("record", 0o600), READS)),
    Case("a directory that can't be listed", True, after=both(mode("directory", 0o711), READS)),
    Case("the record is a device", False, after=record_by(made_device)),
]
MOUNTS = [
    Case("tmpfs", True, mounted("tmpfs", "mode=755")),
    Case("tmpfs, nosuid", False, mounted("tmpfs", "mode=755,nosuid")),
    Case("ramfs, which isn't on the list", False, mounted("ramfs", "mode=755")),
    Case("overlayfs", True, overlaid),
    Case("mounted nosuid", False, after=remounted("nosuid")),
    Case("mounted read-only", True, after=remounted("ro")),
    Case("the image on ramfs", False, bound("image", "ramfs", "mode=755")),
    Case("the record on ramfs", False, after=bound("record", "ramfs", "mode=755")),
    Case("the image on tmpfs, nosuid", False, bound("image", "tmpfs", "mode=755,nosuid")),
    Case("the record on tmpfs, nosuid", False, after=bound("record", "tmpfs", "mode=755,nosuid")),
    Case("the image on tmpfs", True, bound("image", "tmpfs", "mode=755")),
]
# fmt: on
OF_ANYONE = [*WAYS, *IMAGES, *TEXTS, *RECORDS, *MODES]
OF_ROOT = [*OWNERS, *MOUNTS]
