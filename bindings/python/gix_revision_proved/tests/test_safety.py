"""Nothing that a program does with a history corrupts memory, and no number is cut."""

from __future__ import annotations

import copy
import gc
import os
import pickle
import signal
import threading
import unittest

from gix_revision_proved import History, Kind, Names, Span, UnknownCode
from gix_revision_proved._errors import answered

from .test_calls import criss_cross, id_of


def long_history(count: int) -> tuple[History, list[str]]:
    """Returns a history in which each commit has the two before it as its parents, and the ids."""
    history, ids = History(), [f"{k * 2654435761 % 2**160:040x}" for k in range(count)]
    for k in range(count):
        history.insert(ids[k], ids[max(0, k - 2) : k], k)
    return history, ids


class Safety(unittest.TestCase):
    def test_threads(self) -> None:
        history, ids = long_history(3000)
        failed: list[object] = []

        def ask(start: int) -> None:
            for k in range(60):
                one, other = ids[(start * 7919 + k * 611) % 3000], ids[(start * 91 + k * 7) % 3000]
                bases = history.merge_bases(one, [other])
                if bases != [min(one, other, key=ids.index)]:
                    failed.append((one, other, bases))

        threads = [threading.Thread(target=ask, args=(k,)) for k in range(8)]
        for thread in threads:
            thread.start()
        for thread in threads:
            thread.join()
        self.assertEqual(failed, [])

    def test_close_waits_for_calls(self) -> None:
        history, ids = long_history(3000)
        said: list[str] = []

        def ask() -> None:
            try:
                while True:
                    history.ahead_behind(ids[-1], ids[0])
            except ValueError as error:
                said.append(str(error))

        threads = [threading.Thread(target=ask) for _ in range(4)]
        for thread in threads:
            thread.start()
        history.close()
        for thread in threads:
            thread.join()
        self.assertEqual(said, ["the history is closed"] * 4)

    @unittest.skipUnless(hasattr(signal, "setitimer"), "there are no timers")
    def test_signal_handlers_cannot_enter_a_call(self) -> None:
        history, ids = long_history(2000)
        seen: list[object] = []

        def on_alarm(*_: object) -> None:
            try:
                seen.append(history.is_ancestor(ids[0], ids[-1]))
            except RuntimeError as error:
                seen.append(str(error))

        before = signal.signal(signal.SIGALRM, on_alarm)
        try:
            signal.setitimer(signal.ITIMER_REAL, 0.001, 0.001)
            for _ in range(200):
                self.assertEqual(history.ahead_behind(ids[-1], ids[0]), (1999, 0))
        finally:
            signal.setitimer(signal.ITIMER_REAL, 0)
            signal.signal(signal.SIGALRM, before)
        self.assertLessEqual(set(map(str, seen)), {"True", "the history is in use by this thread"})
        self.assertTrue(history.is_ancestor(ids[0], ids[-1]))

    def test_no_copies(self) -> None:
        with criss_cross() as history:
            for thing in (history, Names([(id_of(0x11), "v1")])):
                for copied in (copy.copy, copy.deepcopy, pickle.dumps):
                    with self.assertRaises(TypeError):
                        copied(thing)
            self.assertTrue(history.is_ancestor(id_of(0x11), id_of(0x55)))

    def test_numbers_out_of_range(self) -> None:
        with criss_cross() as history:
            span = Span(Kind.INCLUDE, id_of(0x55), id_of(0x55))
            calls = [
                lambda: history.insert(id_of(0x66), [], 2**63),
                lambda: history.insert(id_of(0x66), [], -(2**63) - 1),
                lambda: history.insert(id_of(0x66), [], 6, 2**32),
                lambda: history.insert(id_of(0x66), [], 6, -1),
                lambda: history.describe(id_of(0x55), [], candidates=-1),
                lambda: history.describe(id_of(0x55), [], digits=2**64),
                lambda: history.resolve("55555", 2**63),
                lambda: history.resolve("55555", 0, -(2**31) - 1),
                lambda: history.count(span._replace(kind=-1)),
                lambda: history.count(span._replace(kind=2**32)),
                lambda: history.missing(page=2**64),
            ]
            for k, call in enumerate(calls):
                with self.subTest(k), self.assertRaises(OverflowError):
                    call()
            history.insert(id_of(0x66), [], 2**63 - 1, 2**32 - 1)
            history.insert(id_of(0x77), [], -(2**63), 0)
            for number in (1.5, "1", None):
                with self.assertRaises(TypeError):
                    history.insert(id_of(0x88), [], number)
            self.assertEqual(list(history.missing()), [])

    def test_pages_of_no_length(self) -> None:
        with criss_cross() as history:
            span = Span(Kind.INCLUDE, id_of(0x55), id_of(0x55))
            for page in (0, -1):
                with self.assertRaises(ValueError):
                    history.missing(page)
                with self.assertRaises(ValueError):
                    history.list(span, page)

    def test_what_is_read_may_go(self) -> None:
        file = bytearray(b"no commit-graph")
        with self.assertRaises(Exception):
            History.open(file)
        file.clear()
        history = criss_cross()
        names = Names((id_of(0x11), bytes(f"v{k}", "ascii")) for k in range(100))
        gc.collect()
        described = history.describe(id_of(0x44), names)
        self.assertEqual(described and described.text, b"v0-3-g4444444")
        history.__init__()  # type: ignore[misc]
        self.assertFalse(history.is_ancestor(id_of(0x11), id_of(0x11)))

    def test_codes_of_a_later_library(self) -> None:
        for code in (2, 99, -3, -1000):
            with self.assertRaises(UnknownCode) as refused:
                answered(code)
            self.assertEqual(refused.exception.code, code)

    @unittest.skipUnless(hasattr(os, "fork"), "there is no fork")
    def test_a_child_has_its_own_history(self) -> None:
        history = criss_cross()
        child = os.fork()
        if child == 0:
            os._exit(0 if history.merge_bases(id_of(0x44), [id_of(0x55)]) else 1)
        self.assertEqual(os.waitpid(child, 0)[1], 0)
        history.close()
