"""A case of the settings of the program mecab."""
from dataclasses import dataclass, field


@dataclass
class Case:
    """What names a dictionary, and the images that the program opens or its error.

    In texts, HERE is the folder of the case, MADE and SHARED the image directories of the library's
    prefix, OWN the user's, and USER a user dictionary that MeCab has compiled. In a file, SUM is
    the checksum of the images. The folder has these images:

    - a.img, b.img, c.img, with/kumquatsieve.img: the sample;
    - user.img and more.img: user dictionaries for it;
    - damaged.img: another checksum than that of its bytes; short.img: without its last byte;
    - one whose name has 254 bytes.
    """

    what: str
    options: list[str] = field(default_factory=list)
    files: dict[str, str] = field(default_factory=dict)
    environment: dict[str, str] = field(default_factory=dict)
    # The system image that the program opens, or "" if it fails with this part of its error.
    image: str = ""
    error: str = ""
    users: tuple[str, ...] = ()
    links: dict[str, str] = field(default_factory=dict)
    # Copies of the sample and named pipes, with their directories.
    installed: tuple[str, ...] = ()
    pipes: tuple[str, ...] = ()
