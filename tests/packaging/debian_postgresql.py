"""Checks of postgresql-15-kumquatsieve as installed."""
import os
import shutil

from checking import IMAGES, LINE, fail
from root import Root

PROGRAMS = "/usr/lib/postgresql/15/bin"
# A user that may own a server's data, and the names by which the server finds the user.
USER = 65534
ACCOUNT = f"postgres:x:{USER}:{USER}::/tmp:/bin/sh\n"
DATA = "/tmp/data"
# The fields of the sample's features.
FIELDS = "pos\nbase_form\n"
SCRIPT = f"CREATE EXTENSION kumquatsieve;\nSELECT to_tsvector('japanese', '{LINE.strip()}');\n"
VECTOR = "'すもも':1 'もも':2"


def check_postgresql(root: Root) -> None:
    """Makes a database with the extension, whose dictionary is the sample's image."""
    accounts, fields = root.folder / "etc/passwd", root.folder / IMAGES[1:] / "sample.fields"
    data, had_accounts = root.folder / DATA[1:], accounts.exists()
    before = accounts.read_text() if had_accounts else ""
    accounts.write_text(ACCOUNT)
    fields.write_text(FIELDS)
    data.mkdir()
    os.chown(data, USER, USER)
    # In the root folder it is a file.
    (root.folder / "dev/null").chmod(0o666)
    user = ["setpriv", f"--reuid={USER}", f"--regid={USER}", "--clear-groups"]
    options = ["-D", DATA, "-U", "postgres", "-E", "UTF8", "--locale=C.UTF-8", "-N"]
    root.run(*user, f"{PROGRAMS}/initdb", *options)
    server = [f"{PROGRAMS}/postgres", "--single", "-D", DATA]
    setting = ["-c", "kumquatsieve.dictionary=sample"]
    printed = root.run(
        *user, *server, *setting, "-j", "postgres", text=SCRIPT.replace("\n", "\n\n")
    )
    if VECTOR not in printed:
        fail(f"PostgreSQL: {VECTOR} is not in\n{printed}")
    shutil.rmtree(data)
    fields.unlink()
    if had_accounts:
        accounts.write_text(before)
    else:
        accounts.unlink()
