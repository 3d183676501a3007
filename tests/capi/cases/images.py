"""Images that the checks load: of the sample, of user dictionaries, and of unusual sizes."""
from pathlib import Path
from typing import Union

from support.running import SAMPLE, program, run

# The lexicons of user dictionaries for the sample, by their names.
LEXICONS = {
    "user": "すもももも,1,1,-30000,名詞,すもももも\n",
    "momo": "もも,1,1,1,名詞,ユーザ\n",
    "momo_b": "もも,1,1,1,名詞,B\n",
    # A word that ends with a blank.
    "blank": "もも ,1,1,50,名詞,空白\n",
    # A third word whose fields differ, so that no two of them can be exchanged.
    "layout": "あ,1,1,0,名詞\nい,1,1,0,名詞\nすもももも,0,1,-30000,名詞,すもももも\n",
}
# The lexicon of an image with quoted fields, and the names of the fields of a copy of it.
QUOTED = """\
すもも,1,1,100,名詞,"す,も",,*
も,1,1,20, 助詞,も,
もも,1,1,30,名詞,"a""b"x, 後
"""
NAMES = "pos1\n\ncType\r\northBase\n"
# Context ids of a matrix of 35 MB, which is above the threshold of huge pages.
LARGE = 4200


SYSTEM_COMMAND: list[Union[str, Path]] = [program("dictc"), "system"]
SYSTEM_COMMAND += ["--char", SAMPLE / "char.def", "--unk", SAMPLE / "unk.def"]


def system_image(folder: Path, name: str = "system", matrix: Path = SAMPLE / "matrix.def") -> Path:
    """Compiles the sample, with this matrix.def, and returns the path of the image."""
    image = folder / f"{name}.img"
    run([*SYSTEM_COMMAND, "--matrix", matrix, "--out", image, SAMPLE / "lexicon.csv"])
    return image


def user_image(system: Path, name: str) -> Path:
    """Compiles a lexicon of LEXICONS and returns the path of the image, in the system's folder."""
    lexicon, image = system.parent / f"{name}.csv", system.parent / f"{name}.img"
    lexicon.write_text(LEXICONS[name])
    run([program("dictc"), "user", "--dic", system, "--out", image, lexicon])
    return image


def quoted_image(folder: Path) -> Path:
    """Compiles QUOTED and returns the path of the image, which has a file of names of another."""
    lexicon, image = folder / "quoted.csv", folder / "quoted.img"
    lexicon.write_text(QUOTED)
    run([*SYSTEM_COMMAND, "--matrix", SAMPLE / "matrix.def", "--out", image, lexicon])
    image.with_suffix(".fields").write_text(f"; image-sha256 {'0' * 64}\n{NAMES}")
    return image


def named_image(image: Path) -> Path:
    """Returns the path of a link to a copy of an image with a file of the names of its fields."""
    copy, link = image.with_name("named.img"), image.with_name("link.img")
    copy.write_bytes(image.read_bytes())
    line = f"; image-sha256 {image.read_bytes()[-32:].hex()}\n"
    copy.with_suffix(".fields").write_bytes(("\ufeff" + line + NAMES).encode())
    if not link.exists():
        link.symlink_to(copy.name)
    return link


def large_image(system: Path) -> Path:
    """Returns the path of the sample's image with so many connection costs that it is large."""
    matrix = system.parent / "large.def"
    _, _, costs = (SAMPLE / "matrix.def").read_text().partition("\n")
    matrix.write_text(f"{LARGE} {LARGE}\n{costs}")
    return system_image(system.parent, "large", matrix)
