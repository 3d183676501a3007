"""Closing, copying and forking while threads segment; subinterpreters, garbage and the end."""
import copy
import gc
import os
import shutil
import signal
import subprocess
import sys
import threading
import time
import weakref
from functools import partial
from importlib.util import find_spec
from operator import itemgetter, methodcaller
from typing import List

import pytest

from kumquatsieve import Dictionary, Format, KumquatsieveError, Segmenter

LINE = "すもももも"
WORDS = ["すもも", "もも"]
# A line that takes long enough to segment that other calls can come in between.
LONG = "z" * 1_000_000
WAIT = 60

CALLS = {
    "segment": lambda segmenter: segmenter.words(LINE),
    "wakati": lambda segmenter: segmenter.wakati(LINE),
    "lattice": lambda segmenter: segmenter.lattice(LINE),
    "parse": lambda segmenter: segmenter.parse(LINE),
    "call": lambda segmenter: segmenter(LINE),
    "lines": lambda segmenter: next(segmenter.lines(LINE)),
    "wakati_lines": lambda segmenter: next(segmenter.wakati_lines(LINE)),
    "dictionary": lambda segmenter: segmenter.dictionary,
    "share": lambda segmenter: segmenter.share(),
    "copy": copy.copy,
}


def started(call):
    """Starts a thread that makes a call, and waits until the call has started."""
    thread = threading.Thread(target=call)
    thread.start()
    time.sleep(0.02)
    return thread


@pytest.mark.parametrize("call", CALLS)
def test_what_is_closed_reports_that(system, call):
    segmenter = Segmenter(system)
    segmenter.close()
    segmenter.close()
    with pytest.raises(ValueError, match="the segmenter is closed"):
        CALLS[call](segmenter)


def test_with_closes(system):
    with Segmenter(system) as segmenter:
        assert segmenter.wakati(LINE) == WORDS
    with pytest.raises(ValueError, match="closed"):
        segmenter.wakati(LINE)


def test_with_closes_where_a_fault_leaves_it(system):
    with pytest.raises(KumquatsieveError):
        with Segmenter(system, errors="strict") as segmenter:
            segmenter.words("a\ud800")
    with pytest.raises(ValueError, match="closed"):
        segmenter.wakati(LINE)


@pytest.mark.parametrize("call", [Segmenter.wakati, Segmenter.wakati_lines, Segmenter.parse_lines])
def test_calls_that_run_end_as_usual_after_a_close(system, call):
    """`close` does not wait for them."""
    segmenter, done = Segmenter(system, format=Format("%m", eos="")), []
    threads = [
        started(lambda: done.append("".join(call(segmenter, LONG)).replace(" ", "")))
        for _ in range(2)
    ]
    segmenter.close()
    assert done == [] and segmenter.closed
    for thread in threads:
        thread.join(WAIT)
    assert done == [LONG, LONG]
    with pytest.raises(ValueError, match="closed"):
        list(call(segmenter, LINE))


MANY_LINES, ONE_LINE = (LINE + "\n") * 400_000, LINE * 60_000


def turns_during(call):
    """Returns how often another thread, which wants to run all the time, runs during a call.

    No step in Python is between the call and the counts before and after it, so the thread runs
    only if the call itself releases the lock of Python.
    """
    turns, over = [], threading.Event()

    def take_turns():
        while not over.wait(0.001):
            turns.append(None)

    thread = started(take_turns)
    try:
        before, _, after = map(methodcaller("__call__"), (turns.__len__, call, turns.__len__))
    finally:
        over.set()
        thread.join(WAIT)
    return after - before


@pytest.mark.parametrize(
    "name, text",
    [("words", MANY_LINES), ("wakati", MANY_LINES), ("parse", MANY_LINES), ("lattice", ONE_LINE)],
)
def test_other_threads_run_during_a_call_over_a_long_text(system, monkeypatch, name, text):
    """Also if each line is too short to release the lock of Python for it.

    On a busy machine the other thread may not run in time, so the call is repeated.
    """
    # The class of lattices is in Python, so other threads run while an object of it is made.
    monkeypatch.setattr("kumquatsieve._lattice.Lattice", itemgetter)
    call = partial(getattr(Segmenter(system), name), text)
    assert any(turns_during(call) > 0 for _ in range(50))


def test_two_threads_close_at_once(system):
    segmenter = Segmenter(system)
    threads = [
        started(call) for call in (lambda: segmenter.wakati(LONG), segmenter.close, segmenter.close)
    ]
    for thread in threads:
        thread.join(WAIT)
    assert not any(thread.is_alive() for thread in threads)


def test_closing_under_load_ends_each_thread(system):
    segmenter, found = Segmenter(system), []

    def segment():
        try:
            while segmenter.wakati(LINE) == WORDS:
                pass
        except ValueError as error:
            found.append(str(error))

    threads = [started(segment) for _ in range(4)]
    segmenter.close()
    for thread in threads:
        thread.join(WAIT)
    assert found == ["the segmenter is closed"] * 4


def resident():
    """Returns the bytes of memory that this process has."""
    with open("/proc/self/statm") as file:
        return int(file.read().split()[1]) * os.sysconf("SC_PAGESIZE")


def test_closing_while_segmenting_frees_all_memory(system):
    """Segmenting this line takes more than 100 MB."""
    sizes = []
    for _ in range(8):
        segmenter = Segmenter(system)
        thread = started(lambda: segmenter.wakati(LONG))
        segmenter.close()
        thread.join(WAIT)
        sizes.append(resident())
    assert sizes[-1] - sizes[1] < 100_000_000


def test_a_long_line_leaves_no_memory_allocated(system):
    """Segmenting this line takes more than 100 MB, which the segmenter does not keep."""
    segmenter = Segmenter(system)
    before = resident()
    for call in (segmenter.words, segmenter.wakati, segmenter.parse):
        call(LONG)
    assert resident() - before < 60_000_000
    assert segmenter.wakati(LINE) == WORDS


def test_a_handler_of_signals_may_close_and_segment(system):
    segmenter, found = Segmenter(system), []

    def handle(*_):
        found.append(segmenter.wakati(LINE))
        segmenter.close()

    before = signal.signal(signal.SIGALRM, handle)
    try:
        signal.setitimer(signal.ITIMER_REAL, 0.01)
        with pytest.raises(ValueError, match="closed"):
            while True:
                segmenter.wakati(LINE)
    finally:
        signal.signal(signal.SIGALRM, before)
    assert found == [WORDS]


@pytest.mark.parametrize("again", [Segmenter.share, copy.copy, copy.deepcopy])
def test_a_copy_shares_the_dictionaries_and_is_closed_by_itself(system, user, again):
    first = Segmenter(system, [user], grouping=3)
    second = again(first)
    first.close()
    assert second.wakati(LINE) == [LINE]
    assert second.wakati("abcdefgh") == Segmenter(system, grouping=3).wakati("abcdefgh")


def test_what_nobody_has_any_more_is_given_back(system):
    segmenter = Segmenter(system)
    segmenter.wakati(LINE)
    gone = weakref.ref(segmenter)
    del segmenter
    assert gone() is None


class Linked(Segmenter):
    """A caller's own subclass, whose objects may be in a cycle."""


def test_a_cycle_is_collected(system):
    segmenter = Linked(system)
    words = segmenter.words(LINE)
    segmenter.own, segmenter.words_of_it = segmenter, words
    gone = weakref.ref(segmenter)
    del segmenter
    gc.collect()
    assert gone() is None and words[0].fields == ("名詞", "すもも")


class LinkedDictionary(Dictionary):
    """One whose objects may be in a cycle, through a segmenter that has one."""


class LinkedFormat(Format):
    """A format that may be in a cycle too."""


def test_a_cycle_through_what_a_segmenter_has_is_collected(system):
    plain, own, format = Dictionary(system), LinkedDictionary(system), LinkedFormat("%m")
    plain.segmenter, own.segmenter = Segmenter(plain), Segmenter(own)
    format.segmenter = Segmenter(system, format=format)
    gone = [weakref.ref(one.segmenter) for one in (plain, own, format)]
    del plain, own, format
    gc.collect()
    assert [one() for one in gone] == [None] * 3


def test_objects_share_a_dictionary(system, user):
    """The same images by the same names are one object, as long as somebody has it."""
    one = Segmenter(system, [user])
    assert Segmenter(system, [user], grouping=3).dictionary is one.dictionary
    assert Segmenter(system).dictionary is not one.dictionary
    assert Dictionary(system, [user], fields=["kind"]) is not one.dictionary
    assert Dictionary(system, [user]) is copy.deepcopy(one.dictionary) is one.dictionary


class Freeing(str):
    """A text whose comparison frees dictionaries, as another thread may do meanwhile."""

    held: List[Dictionary] = []
    __hash__ = str.__hash__

    def __eq__(self, other):
        self.held.clear()
        return False


def test_a_comparison_of_names_may_free_dictionaries(system):
    """Names are compared with those of the dictionaries that were opened before."""
    for _ in range(50):
        Freeing.held += [Dictionary(system, fields=[Freeing("pos")]) for _ in range(9)]
        assert len(Dictionary(system, fields=[Freeing("pos")]).field_names) == 1


def test_words_outlive_everything(system):
    words = Segmenter(system, fields=["pos", "base_form"]).words("すもも zz")
    gc.collect()
    assert [(word.base_form, word.fields[0]) for word in words] == [("すもも", "名詞"), (None, "未知")]
    assert repr(words[0]) == "<Word すもも 名詞,すもも 0:3 cost 100>"


def test_what_nobody_has_any_more_gives_all_memory_back(system):
    """Segmenting this line takes more than 100 MB, and a traceback may have the last reference."""
    sizes = []
    for _ in range(6):
        assert Segmenter(system).wakati(LONG)
        with pytest.raises(KumquatsieveError):
            Segmenter(system, errors="strict").wakati(LONG + "\ud800")
        sizes.append(resident())
    assert sizes[-1] - sizes[1] < 100_000_000


def status_of(child):
    """Returns the exit code of a child, or None if it hangs."""
    end = time.monotonic() + WAIT
    while time.monotonic() < end:
        pid, status = os.waitpid(child, os.WNOHANG)
        if pid:
            return os.waitstatus_to_exitcode(status)
        time.sleep(0.01)
    os.kill(child, signal.SIGKILL)
    os.waitpid(child, 0)
    return None


def in_child(call):
    """Returns the exit code of a forked child that makes a call. It is 0 if the call returns."""
    child = os.fork()
    if child == 0:
        try:
            call()
            os._exit(0)
        finally:
            os._exit(1)
    return status_of(child)


def test_a_fork_while_segmenting_leaves_a_child_that_segments_and_closes(system):
    segmenter = Segmenter(system)
    threads = [
        started(lambda call=call: list(call(segmenter, LONG)))
        for call in (Segmenter.wakati, Segmenter.wakati_lines, Segmenter.parse_lines)
    ]

    def segment_and_close():
        assert segmenter.wakati(LINE) == WORDS
        assert list(segmenter.share().wakati_lines(LINE)) == [" ".join(WORDS)]
        segmenter.close()

    assert in_child(segment_and_close) == 0
    assert segmenter.wakati(LINE) == WORDS
    for thread in threads:
        thread.join(WAIT)


def test_forks_under_load(system):
    """Threads take and return handles all the time, and close copies, while the process forks."""
    segmenter, over = Segmenter(system), threading.Event()

    def work():
        while not over.is_set():
            with copy.copy(segmenter) as other:
                assert segmenter.wakati(LINE) == other.wakati(LINE) == WORDS

    threads = [started(work) for _ in range(3)]
    try:
        assert [in_child(lambda: CALLS["wakati"](segmenter)) for _ in range(40)] == [0] * 40
    finally:
        over.set()
    for thread in threads:
        thread.join(WAIT)


def test_a_child_forked_in_a_call_of_its_own_thread(system):
    """A signal handler forks while its thread is about to segment."""
    segmenter, found = Segmenter(system), []
    before = signal.signal(
        signal.SIGALRM, lambda *_: found.append(in_child(lambda: CALLS["segment"](segmenter)))
    )
    try:
        signal.setitimer(signal.ITIMER_REAL, 0.01)
        while not found:
            segmenter.wakati(LINE)
    finally:
        signal.signal(signal.SIGALRM, before)
    assert found == [0]


# Programs that end in another way than by returning.
ENDS = {
    "a thread that still segments": """
import threading
threading.Thread(target=segmenter.wakati, args=["z" * 4_000_000], daemon=True).start()
""",
    "a call at exit": """
import atexit
atexit.register(lambda: print(segmenter.wakati("もも")))
""",
    "a finalizer": """
class Last:
    def __del__(self, segmenter=segmenter):
        print(segmenter.wakati("もも"))
last = Last()
last.cycle = last
""",
    "a finalizer of a global": """
import builtins
class Last:
    def __init__(self): self.segmenter = segmenter
    def __del__(self): print(self.segmenter.wakati("もも"))
builtins.last = Last()
""",
    "words in a cycle": """
words = segmenter.words("もも zz")
words.append(words)
""",
    "a module that is imported again": """
import sys
for name in [name for name in sys.modules if name.startswith("kumquatsieve")]:
    del sys.modules[name]
import kumquatsieve as other
words = segmenter.words("もも")
assert other.Word is not type(words[0]) and other.Segmenter(sys.argv[1]).wakati("もも") == ["もも"]
del segmenter
print(words[0].fields and [words[0].surface])
""",
}


@pytest.mark.parametrize("how", ENDS)
def test_a_program_ends_well(system, how):
    code = "import sys, kumquatsieve\nsegmenter = kumquatsieve.Segmenter(sys.argv[1])\n" + ENDS[how]
    words = [sys.executable, "-X", "dev", "-c", code, system]
    environment = {**os.environ, "PYTHONMALLOC": "debug", "PYTHONUTF8": "1"}
    done = subprocess.run(words, capture_output=True, text=True, env=environment)
    printed = "['もも']\n" if "print" in ENDS[how] else ""
    assert (done.returncode, done.stdout, done.stderr) == (0, printed, "")


# What each of many interpreters runs, and the programs that start them. An interpreter has a lock
# (GIL) of its own, or shares that of the first one, which all do before Python 3.12.
CREATE = """
try:
    import _interpreters as interpreters
except ImportError:
    import _xxsubinterpreters as interpreters
def create(is_own):
    if interpreters.__name__ == "_interpreters":
        return interpreters.create("isolated" if is_own else "legacy")
    return interpreters.create(isolated=is_own)
"""
IN_EACH = """
from kumquatsieve import Segmenter, Word
segmenter = Segmenter(image)
for _ in range(1000):
    words = segmenter.words("すもももも")
    assert [word.fields for word in words] == [("名詞", "すもも"), ("名詞", "もも")]
    assert isinstance(words[0], Word)
"""
INTERPRETERS = """
import sys
import threading
code = f"image = {sys.argv[1]!r}; import sys; sys.path[:] = {sys.path!r}" + sys.argv[2]
def run():
    for _ in range(5):
        number = create(False)
        assert interpreters.run_string(number, code) is None
        interpreters.destroy(number)
exec(code)
threads = [threading.Thread(target=run) for _ in range(3)]
for thread in threads: thread.start()
for thread in threads: thread.join()
exec(code)
print("done")
"""
OWN_LOCK = """
import sys
number = create(True)
interpreters.run_string(number, f"import sys; sys.path[:] = {sys.path!r}" + '''
try:
    import kumquatsieve
except ImportError as error:
    print(error, flush=True)
''')
"""


def run_interpreters(code, *words):
    if not any(map(find_spec, ("_interpreters", "_xxsubinterpreters"))):
        pytest.skip("this Python starts no other interpreters")
    words = [sys.executable, "-W", "ignore", "-c", CREATE + code, *words]
    done = subprocess.run(words, capture_output=True, text=True)
    assert (done.returncode, done.stderr) == (0, "")
    return done.stdout


def test_each_interpreter_has_a_module_of_its_own(system):
    assert run_interpreters(INTERPRETERS, system, IN_EACH) == "done\n"


@pytest.mark.skipif(sys.version_info < (3, 12), reason="interpreters share a lock before 3.12")
def test_an_interpreter_with_a_lock_of_its_own_is_rejected():
    assert "does not support loading in subinterpreters" in run_interpreters(OWN_LOCK)


# What runs under valgrind: each call, over texts of each kind, errors, pickles, and a close while
# threads segment.
EACH_CALL = """
import copy, pickle, sys, threading
from kumquatsieve import Dictionary, Format, KumquatsieveError, Segmenter
system, user = sys.argv[1:]
image, long = open(system, "rb").read(), "もも" * 400
texts = ["すもももも zz", "", "\\n\\r\\n", "a\\ud800b\\ud842\\udfb7", "もも\\n" * 9, long]
for images in ((system,), (system, [user]), (image, [user])):
    segmenter = Segmenter(*images, fields=["pos", "base_form"], format=Format("%m,%H\\n"))
    for text in texts:
        words = segmenter(text)
        assert pickle.loads(pickle.dumps(words)) == words and len({*words}) <= len(words)
        [(word.pos, word.base_or_surface, word.fields, repr(word), word.cost) for word in words]
        segmenter.wakati(text), segmenter.parse(text), dir(words[0]) if words else None
        for call in (segmenter.lines, segmenter.wakati_lines, segmenter.parse_lines):
            list(call([text])), list(call(text))
        lattice = segmenter.lattice(text.split("\\n")[0][:9])
        lattice.rivals(), lattice.explain(), lattice.to_dot(), lattice.to_svg()
        assert pickle.loads(pickle.dumps(lattice.nodes)) == lattice.nodes
        segmenter.dictionary.lookup(text[:9], prefixes=True), repr(segmenter.dictionary)
    copy.deepcopy(segmenter).share().close()
    list(segmenter.wakati_lines(b"\\xff\\n" * 99))
calls = [
    lambda: segmenter("a")[0].x,
    lambda: Segmenter(system, format=Format("%q")),
    lambda: Segmenter(system, format=Format("%m\\0")),
    lambda: Segmenter(image[:99]),
    lambda: Segmenter(user),
    lambda: Segmenter("/none"),
    lambda: segmenter(5),
    lambda: segmenter(x=5),
    lambda: Segmenter(system, errors="strict")("\\ud800"),
    lambda: segmenter.lattice("a\\nb"),
    lambda: Segmenter(system, fields=["cost"]),
    lambda: Segmenter(system, grouping=1001),
]
for call in calls:
    try:
        call()
    except (KumquatsieveError, AttributeError, TypeError, ValueError) as error:
        str(error), pickle.dumps(error)
    else:
        raise SystemExit("no error")
threads = [threading.Thread(target=segmenter.wakati, args=[long]) for _ in range(3)]
[thread.start() for thread in threads]
segmenter.close()
[thread.join() for thread in threads]
print("done")
"""


def test_valgrind_finds_no_error(system, user):
    """Without Python's own allocator, so that each use of memory is checked."""
    if not shutil.which("valgrind"):
        pytest.skip("valgrind is not there")
    words = ["valgrind", "-q", "--error-exitcode=9", sys.executable, "-c", EACH_CALL, system, user]
    environment = {**os.environ, "PYTHONMALLOC": "malloc", "PYTHONUTF8": "1"}
    done = subprocess.run(words, capture_output=True, text=True, env=environment, timeout=600)
    assert (done.returncode, done.stdout) == (0, "done\n"), done.stderr


FLAT = """
import sys
from kumquatsieve import Segmenter
def size():
    with open("/proc/self/statm") as file:
        return 4096 * int(file.read().split()[1])
segmenter = Segmenter(sys.argv[1])
def work(calls):
    for _ in range(calls):
        words = segmenter.words("すもももも zz\\nもも")
        words[1].fields, words[0].pos, segmenter.wakati("すもももも")
        segmenter.parse("\\ud800もも")
work(20_000)
before = size()
work(330_000)
print(size() - before)
"""


def test_a_million_calls_leave_memory_as_it_was(system):
    done = subprocess.run([sys.executable, "-c", FLAT, system], capture_output=True, text=True)
    assert int(done.stdout) < 1_000_000, done.stderr
