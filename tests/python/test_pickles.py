"""Segmenters that are pickled for other processes."""
import copy
import multiprocessing
import os
import pickle
import shutil

import pytest

from kumquatsieve import Dictionary, Format, Segmenter

LINE = "すもももも"
WAIT = 60


def segment(segmenter):
    """Runs as a task of a worker. Closes the segmenter.

    Returns the words, the process id, and the identity of the dictionary.
    """
    dictionary = id(segmenter.dictionary)
    with segmenter:
        return segmenter.wakati(LINE), os.getpid(), dictionary


class Named(Segmenter):
    """A caller's own subclass of Segmenter."""

    name = ""


@pytest.mark.parametrize("start", ["fork", "spawn", "forkserver"])
def test_a_process_loads_once_for_all_tasks_and_not_at_all_after_a_fork(system, user, start):
    segmenter = Segmenter(system, [user])
    with multiprocessing.get_context(start).Pool(2) as pool:
        done = pool.map_async(segment, [segmenter] * 20, chunksize=1).get(WAIT)
    assert [words for words, _, _ in done] == [[LINE]] * 20
    dictionaries = {(process, dictionary) for _, process, dictionary in done}
    assert len(dictionaries) == len({process for process, _ in dictionaries})
    if start == "fork":
        assert {dictionary for _, dictionary in dictionaries} == {id(segmenter.dictionary)}


def test_a_method_of_a_segmenter_is_a_task(system):
    with multiprocessing.get_context("spawn").Pool(1) as pool:
        assert pool.map_async(Segmenter(system).wakati, [LINE, ""]).get(WAIT) == [["すもも", "もも"], []]


def test_a_pickled_segmenter_is_what_it_was_made_of(system, user):
    first = Named(system, iter([user]), grouping=3, format=Format("%m,"), errors="strict")
    first.name = "a name"
    second = pickle.loads(pickle.dumps(first))
    first.close()
    assert (type(second), second.name, second.wakati(LINE)) == (Named, "a name", [LINE])
    assert second.wakati("abcdefgh") == Segmenter(system, grouping=3).wakati("abcdefgh")
    assert (second.parse(LINE), second.grouping, second.errors) == (f"{LINE},EOS\n", 3, "strict")


def test_what_is_made_of_a_segmenter_tests_as_that_did(system, damaged, damaged_user, tmp_path):
    """If a file is damaged meanwhile, only those that check the checksum report it."""
    path = shutil.copy(system, tmp_path / "image.img")
    tested, untested = Segmenter(path, test_digest=True), Segmenter(damaged, [damaged_user])
    pickled = [pickle.dumps(one) for one in (tested, copy.copy(tested), tested.share())]
    with multiprocessing.get_context("spawn").Pool(1) as pool:
        assert pool.map_async(segment, [untested, untested.share()]).get(WAIT)[0][0] == [LINE]
    again = pickle.dumps(untested)
    untested.close()
    assert pickle.loads(again).wakati(LINE) == [LINE]
    tested.close()
    os.replace(shutil.copy(damaged, tmp_path / "new.img"), path)
    assert pickle.loads(pickle.dumps(Segmenter(path))).wakati(LINE) == ["すもも", "もも"]
    for one in pickled:
        with pytest.raises(Exception, match="L8"):
            pickle.loads(one)


def test_a_path_is_the_same_from_another_folder(system, tmp_path, monkeypatch):
    monkeypatch.chdir(os.path.dirname(system))
    pickled = pickle.dumps(Segmenter(os.path.basename(system)))
    monkeypatch.chdir(tmp_path)
    assert pickle.loads(pickled).wakati(LINE) == ["すもも", "もも"]


def test_another_file_of_the_same_path_is_loaded_anew(system, user, tmp_path):
    words = tmp_path / "user.img"
    shutil.copy(user, words)
    pickled = pickle.dumps(Segmenter(system, [words]))
    assert pickle.loads(pickled).wakati(LINE) == [LINE]
    os.replace(shutil.copy(system, tmp_path / "new.img"), words)
    with pytest.raises(Exception, match="O2"):
        pickle.loads(pickled)
    words.unlink()
    with pytest.raises(FileNotFoundError):
        pickle.loads(pickled)


def test_bytes_are_not_pickled(system):
    with open(system, "rb") as file:
        image = file.read()
    for one in (Segmenter(image), Dictionary(image)):
        with pytest.raises(TypeError, match="path"):
            pickle.dumps(one)


def test_what_is_closed_is_not_pickled(system):
    segmenter = Segmenter(system)
    segmenter.close()
    with pytest.raises(ValueError, match="closed"):
        pickle.dumps(segmenter)
