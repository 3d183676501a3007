"""The images of the tests, compiled from the sample by `tests/python/run` into a folder that a
variable names."""
import hashlib
import os
from pathlib import Path

import pytest

IMAGES = "KUMQUATSIEVE_TEST_IMAGES"


@pytest.fixture(scope="session")
def images() -> Path:
    if IMAGES not in os.environ:
        pytest.exit(f"{IMAGES} names no folder: run tests/python/run", 2)
    return Path(os.environ[IMAGES])


@pytest.fixture(scope="session")
def system(images: Path) -> str:
    """Returns the sample's image."""
    return str(images / "system.img")


@pytest.fixture(scope="session")
def user(images: Path) -> str:
    """Returns the image of a user dictionary for the sample, whose only word is すもももも."""
    return str(images / "user.img")


def with_feature(system: str, feature: str, path: Path, of: str = "名詞,もも") -> str:
    """Writes the sample's image with `feature` in place of another one, that of もも by default, and
    with a matching checksum.

    `feature` must have as many bytes as the old feature.
    """
    image = Path(system).read_bytes()[:-32].replace(of.encode(), feature.encode())
    path.write_bytes(image + hashlib.sha256(image).digest())
    return str(path)


def with_another_digest(image: str, path: Path) -> str:
    """Writes an image with another last byte, so that its checksum does not match."""
    *front, last = Path(image).read_bytes()
    path.write_bytes(bytes([*front, last ^ 1]))
    return str(path)


@pytest.fixture(scope="session")
def damaged(system: str, tmp_path_factory: pytest.TempPathFactory) -> str:
    """Returns the sample's image with a wrong checksum."""
    return with_another_digest(system, tmp_path_factory.mktemp("damaged") / "damaged.img")


@pytest.fixture(scope="session")
def damaged_user(user: str, tmp_path_factory: pytest.TempPathFactory) -> str:
    """Returns the image of the user dictionary with a wrong checksum."""
    return with_another_digest(user, tmp_path_factory.mktemp("damaged") / "user.img")


@pytest.fixture(scope="session")
def odd(system: str, tmp_path_factory: pytest.TempPathFactory) -> str:
    """Returns the sample's image with a line feed in a feature, which no source can contain."""
    return with_feature(system, "名詞\nもも", tmp_path_factory.mktemp("odd") / "odd.img")


@pytest.fixture(scope="session")
def marked(system: str, tmp_path_factory: pytest.TempPathFactory) -> str:
    """Returns the sample's image with U+FFFF in a feature."""
    return with_feature(system, "\uffff詞,もも", tmp_path_factory.mktemp("marked") / "marked.img")
