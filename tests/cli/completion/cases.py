"""What bash and zsh have to complete, and nothing else."""
from typing import Dict, Set

from cli.cases.error_codes import LIBRARY_CODES, program_codes
from kumquatsieve_import.command_line import DEBIAN_NAMES
from kumquatsieve_import.encodings import CHOICES

from .shells import FILE, FOLDER

FILES, FOLDERS = {FILE, FOLDER}, {FOLDER}
NOTHING: Set[str] = set()
CODES = {code.split()[0] for code in (*LIBRARY_CODES, *program_codes())}
ENCODINGS = set(CHOICES.replace(" or ", ", ").split(", "))
DEBIAN = {name.decode() for name in DEBIAN_NAMES}
# An image whose name is a command to a shell. bash completes it after an opening quote alone.
COMMAND = "$(touch ran) b"
# The images in the image directories. The programs are in PREFIX/bin, and PREFIX is also the user's
# home.
IMAGES: Dict[str, str] = {
    "own": ".local/share/kumquatsieve",
    "ipadic": "var/lib/kumquatsieve",
    "shared": "share/kumquatsieve",
    "two words": "share/kumquatsieve",
    COMMAND: "share/kumquatsieve",
}
NAMES = set(IMAGES)

# (command line up to the word that is completed, the completions)
CASES = [
    *(
        (f"PREFIX/bin/{words} ", NAMES | FILES)
        for words in (
            "jseg -d",
            "jseg -u",
            "dictc user --dic",
            "pjseg -d",
            "pjseg -u",
        )
    ),
    ("PREFIX/bin/kumquatsieve-import --user ", NAMES | FILES),
    *((f"PREFIX/bin/dictc ids {option} ", NAMES | FILES) for option in ("--dic", "-u")),
    ("PREFIX/bin/jseg -d i", {"ipadic"}),
    ("PREFIX/bin/jseg -d a-f", FILES),
    ("PREFIX/bin/jseg -u o", {"own"}),
    ("PREFIX/bin/dictc user --dic sh", {"shared"}),
    ("jseg --sources ", FOLDERS),
    ("jseg -O ", {"wakati"}),
    ("jseg --lattice ", {"tsv", "dot"}),
    ("pjseg -O ", {"wakati"}),
    ("jseg --explain ", CODES),
    *((f"jseg {option} -", NOTHING) for option in ("-M", "-F", "-U", "-B", "-E", "--within")),
    *((f"pjseg {option} -", NOTHING) for option in ("-j", "-M", "-F", "-U", "-B", "-E")),
    ("dictc help ", {"system", "user", "ids"}),
    ("dictc --explain ", CODES),
    *((f"dictc system {option} ", FILES) for option in ("--matrix", "--char", "--unk", "--out")),
    ("dictc user --out ", FILES),
    ("dictc ids ", NOTHING),
    ("dictc system ", FILES),
    ("dictc user a ", FILES),
    ("kumquatsieve-import ", DEBIAN | FOLDERS),
    ("kumquatsieve-import -v ipadic ", FILES),
    ("kumquatsieve-import --encoding ", ENCODINGS),
    ("kumquatsieve-import --user a --out ", FILES),
    *(
        (f"PREFIX/bin/kumquatsieve-import --test {words}", NAMES | FILES)
        for words in ("", "a-file ")
    ),
    ("kumquatsieve-import --user a --out b ", FILES),
]

# (the start of the name of an image, the word after TAB in bash, and in zsh)
LINES = [
    ("tw", r"two\ words ", r"two\ words "),
    (r"two\ w", r"two\ words ", r"two\ words "),
    ("'tw", "'two words' ", "'two words' "),
    ('"tw', '"two words" ', '"two words" '),
    (r"\$", r"\$", r"\$\(touch\ ran\)\ b "),
    ("'$", f"'{COMMAND}' ", f"'{COMMAND}' "),
    ('"$', rf'"\{COMMAND}" ', '"$'),
]
