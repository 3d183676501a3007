"""Exceptions raised by signal handlers at any step, as by Ctrl-C."""
import contextvars
import os
import random
import signal
import sys
import threading
import weakref
from itertools import count

import pytest

import kumquatsieve
from kumquatsieve import Format, Segmenter

LINE = "すもももも" * 90
WAIT = 60
TIMES = 2000

CALLS = {
    "segment": lambda segmenter: [
        (word.surface, word.feature, word.total) for word in segmenter.words(LINE)
    ],
    "wakati": lambda segmenter: segmenter.wakati(LINE),
    "lattice": lambda segmenter: [
        (node.surface, node.feature, node.through) for node in segmenter.lattice(LINE[:5]).nodes
    ],
    "parse": lambda segmenter: segmenter.parse(LINE),
    "explain": lambda segmenter: segmenter.explain(LINE[:5]),
    "lines": lambda segmenter: [len(words) for words in segmenter.lines([LINE, LINE])],
    "wakati_lines": lambda segmenter: list(segmenter.wakati_lines(LINE)),
    "parse_lines": lambda segmenter: list(segmenter.parse_lines(LINE)),
}
# The files with the steps of a call in Python.
FILES = {
    os.path.join(os.path.dirname(kumquatsieve.__file__), name)
    for name in ("_segmenter.py", "_lines.py", "_lattice.py", "_words.py", "_errors.py")
}


class Interrupt(BaseException):
    """Raised by a signal handler."""


@pytest.fixture(scope="module")
def first(system):
    return Segmenter(system, format=Format("%m,", eos="."))


@pytest.fixture(scope="module")
def results(first):
    return {name: call(first) for name, call in CALLS.items()}


def interrupted(call, step):
    """Raises before a step of a call in Python. Returns what the call raised, or None if it has
    fewer steps."""
    steps = 0

    def trace(frame, event, _):
        nonlocal steps
        if frame.f_code.co_filename not in FILES:
            return None
        frame.f_trace_opcodes = True
        steps += event == "opcode"
        if steps == step:
            raise Interrupt
        return trace

    sys.settrace(trace)
    try:
        call()
    except Interrupt as error:
        return error
    finally:
        sys.settrace(None)
    return None


def interrupt(call, times):
    """Repeats a call until a timer has interrupted it `times` times."""
    choose = random.Random(1)

    def stop(*_):
        raise Interrupt

    before = signal.signal(signal.SIGALRM, stop)
    try:
        for _ in range(times):
            try:
                signal.setitimer(signal.ITIMER_REAL, choose.uniform(1e-6, 5e-4))
                while True:
                    call()
            except Interrupt:
                pass
    finally:
        signal.signal(signal.SIGALRM, before)


def is_closed_by_another_thread(segmenter):
    thread = threading.Thread(target=segmenter.close, daemon=True)
    thread.start()
    thread.join(WAIT)
    return not thread.is_alive()


@pytest.mark.parametrize("name", CALLS)
def test_an_exception_before_any_step_leaves_nothing_open(first, results, name):
    """The calls after it return what they always return, and `close` ends."""
    call, other = CALLS[name], "wakati" if name == "segment" else "segment"
    for step in count(1):
        segmenter = first.share()
        new = interrupted(lambda: call(segmenter), step)
        assert call(segmenter) == results[name], step
        assert CALLS[other](segmenter) == results[other], step
        used = interrupted(lambda: call(segmenter), step)
        assert CALLS[other](segmenter) == results[other], step
        assert is_closed_by_another_thread(segmenter), step
        if new is used is None:
            break


@pytest.mark.parametrize("name", CALLS)
def test_a_timer_that_raises_leaves_nothing_open(first, results, name):
    segmenter = first.share()
    interrupt(lambda: CALLS[name](segmenter), TIMES)
    for other, wanted in results.items():
        assert CALLS[other](segmenter) == wanted
    assert is_closed_by_another_thread(segmenter)


def test_a_timer_that_raises_in_short_calls_leaves_nothing_open(first):
    segmenter, wanted = first.share(), first.wakati("もも")
    interrupt(lambda: segmenter.wakati("もも"), 5 * TIMES)
    assert segmenter.wakati("もも") == wanted
    assert is_closed_by_another_thread(segmenter)


def test_a_timer_ends_a_call_over_a_long_text(first):
    """Signals are checked between the lines. The segmenter is as before."""
    text = "すもももも\n" * 1_000_000

    def stop(*_):
        raise Interrupt

    before = signal.signal(signal.SIGALRM, stop)
    try:
        for call in (first.words, first.wakati, first.parse):
            with pytest.raises(Interrupt):
                signal.setitimer(signal.ITIMER_REAL, 0.1)
                call(text)
    finally:
        signal.signal(signal.SIGALRM, before)
    assert first.wakati("すもももも") == ["すもも", "もも"]


@pytest.mark.parametrize("name", ["lines", "wakati_lines", "lattice"])
def test_an_exception_that_is_kept_keeps_nothing_waiting(first, results, name):
    """Its frames have the segmenter, and what the call had."""
    kept = []
    for step in count(1):
        segmenter = first.share()
        kept.append(interrupted(lambda: CALLS[name](segmenter), step))
        assert is_closed_by_another_thread(segmenter), step
        if kept[-1] is None:
            break
    assert len(kept) > 10 and CALLS[name](first) == results[name]


def test_no_exception_is_lost_where_a_segmenter_ends(first, monkeypatch):
    """An exception in a Python destructor would be lost, and the library's memory not freed."""
    lost = []
    monkeypatch.setattr(sys, "unraisablehook", lost.append)

    def end():
        assert not lost
        first.share().wakati("もも")

    interrupt(end, 3 * TIMES)
    assert not lost


def test_the_callers_context_is_seen_by_a_handler(first):
    variable, seen = contextvars.ContextVar("variable"), []
    variable.set("the caller's")
    before = signal.signal(signal.SIGALRM, lambda *_: seen.append(variable.get(None)))
    try:
        while len(seen) < 50:
            signal.setitimer(signal.ITIMER_REAL, 1e-4)
            for _ in range(20):
                first.wakati(LINE)
    finally:
        signal.setitimer(signal.ITIMER_REAL, 0)
        signal.signal(signal.SIGALRM, before)
    assert set(seen) == {"the caller's"}


def test_a_callers_context_is_not_kept(first):
    """The value of a context variable is freed with the caller's context, though the handle
    remains."""

    class Thing:
        pass

    variable = contextvars.ContextVar("variable")

    def call():
        thing = Thing()
        variable.set(thing)
        first.wakati("もも")
        return weakref.ref(thing)

    gone = contextvars.copy_context().run(call)
    assert gone() is None
