"""All ways in which calls of one collator can meet, for ten seconds in all, or for as many as UCA_STRESS_SECONDS says.

Each key and each comparison has to be that of a collator which one thread used alone.
"""
import asyncio
import contextlib
import os
import random
import signal
import sys
import threading
import time
import unittest
import warnings
from concurrent.futures import ThreadPoolExecutor

import uca
from test_uca import BOOK, DATA, TABLE, WITHOUT_LOCK, ran

SECONDS = float(os.environ.get("UCA_STRESS_SECONDS") or 10)
THREADS = 8


class Wanted:
    """The keys, ranges and comparisons of some texts, by a collator of its own."""

    def __init__(self, texts, book=None):
        self.texts, self.book = texts, book
        with uca.Collator(TABLE, DATA, book=book) as alone:
            self.keys = {it: alone.key(it) for it in texts}
            self.ranges = {it: alone.range(it) for it in texts}
            self.comparisons = {(left, right): alone.compare(left, right) for left in texts for right in texts}

    def is_same(self, collator, chosen):
        """One key, one comparison and one range of chosen texts, and with a book the whole key of a compact one."""
        left, right = chosen.choice(self.texts), chosen.choice(self.texts)
        if self.book and collator.compact(collator.expand(self.keys[right])) != self.keys[right]:
            return False
        if collator.key_beginning(right, 20) != self.keys[right][:20] or collator.order(left, right) != self.comparisons[left, right].order:
            return False
        return (collator.key(left), collator.compare(left, right), collator.range(right)) == (self.keys[left], self.comparisons[left, right], self.ranges[right])


SHORT = Wanted(["a", "b", "A", "\u00e1", "a b", "", "ab", "ba"])
GROWING_COMPACT = Wanted([letter * 3**power for power in range(9) for letter in ("\u00e1", "a b")], BOOK)
GROWING = Wanted([letter * 3**power for power in range(9) for letter in ("a", "b\u0301", "\u4e00")])


@contextlib.contextmanager
def threads(work):
    """Does the work, which takes a number, in threads that begin together. An error of one is raised at the end."""
    begin = threading.Barrier(THREADS)

    def begin_work(number):
        begin.wait()
        work(number)

    with ThreadPoolExecutor(THREADS) as pool:
        begun = [pool.submit(begin_work, it) for it in range(THREADS)]
        yield
        for it in begun:
            it.result()


class Stress(unittest.TestCase):
    CASES = 10

    def setUp(self):
        self.stop = time.monotonic() + SECONDS / self.CASES
        self.calls, self.wrong = 0, 0
        self.addCleanup(sys.setswitchinterval, sys.getswitchinterval())

    def tearDown(self):
        self.assertEqual(self.wrong, 0)
        self.assertGreater(self.calls, 0)

    def rounds(self):
        """One round, and as many more as there is time for."""
        yield
        while time.monotonic() < self.stop:
            yield

    def try_once(self, wanted, collator, chosen):
        is_same = wanted.is_same(collator, chosen)
        self.calls += 1  # a lost addition does not matter
        if not is_same:
            self.wrong = 1

    def share(self, wanted):
        """Threads share a new collator, again and again."""
        for _ in self.rounds():
            round_stop = min(self.stop, time.monotonic() + 0.1)
            with uca.Collator(TABLE, DATA, book=wanted.book) as collator:

                def work(number):
                    chosen = random.Random(number)
                    self.try_once(wanted, collator, chosen)
                    while time.monotonic() < round_stop:
                        self.try_once(wanted, collator, chosen)

                with threads(work):
                    pass

    def test_short_texts(self):
        self.share(SHORT)

    def test_short_texts_in_quick_turns(self):
        sys.setswitchinterval(1e-6)
        self.share(SHORT)

    def test_growing_texts_in_quick_turns(self):
        sys.setswitchinterval(1e-6)
        self.share(GROWING)

    def test_compact_keys_in_quick_turns(self):
        sys.setswitchinterval(1e-6)
        self.share(GROWING_COMPACT)

    def test_shared_tables(self):
        """Each thread has a collator of its own over one table, opens more of it, and closes them while others work."""
        sys.setswitchinterval(1e-6)
        for _ in self.rounds():
            first = uca.Collator(TABLE, DATA)
            own = [first.share() for _ in range(THREADS)]
            first.close()

            def work(number):
                chosen = random.Random(number)
                for _ in range(50):
                    with own[number].share() as other:
                        self.try_once(GROWING, own[number], chosen)
                        self.try_once(SHORT, other, chosen)
                own[number].close()

            with threads(work):
                pass

    def test_handler_of_a_signal(self):
        with uca.Collator(TABLE, DATA) as collator:
            chosen = random.Random(1)

            def handle(*_):
                self.try_once(GROWING, collator, chosen)
                if time.monotonic() < self.stop:
                    signal.setitimer(signal.ITIMER_REAL, 1e-5)

            signal.signal(signal.SIGALRM, handle)
            signal.setitimer(signal.ITIMER_REAL, 1e-5)
            try:
                for _ in self.rounds():
                    self.try_once(SHORT, collator, chosen)
            finally:
                signal.setitimer(signal.ITIMER_REAL, 0)
                signal.signal(signal.SIGALRM, lambda *_: None)  # one may still come

    def test_asyncio(self):
        sys.setswitchinterval(1e-6)
        chosen = random.Random(1)

        async def share():
            loop = asyncio.get_running_loop()
            for _ in self.rounds():
                with uca.Collator(TABLE, DATA) as collator:
                    await asyncio.gather(*(loop.run_in_executor(None, self.try_once, GROWING, collator, chosen) for _ in range(100)))

        asyncio.run(share())

    def test_closed_meanwhile(self):
        for _ in self.rounds():
            collator = uca.Collator(TABLE, DATA)

            def work(number):
                chosen = random.Random(number)
                with contextlib.suppress(uca.ClosedError):
                    for _ in range(200):
                        self.try_once(GROWING, collator, chosen)
                    collator.close()
                    self.try_once(GROWING, collator, chosen)
                    self.wrong = 1

            with threads(work):
                pass

    def test_forks(self):
        def use_in_child(collator):
            status = 1
            signal.signal(signal.SIGALRM, signal.SIG_DFL)
            signal.alarm(30)  # ends a child that waits forever
            try:
                status = int(not all(GROWING.is_same(collator, random.Random(it)) for it in range(20)))
                collator.close()
            finally:
                os._exit(status)

        with uca.Collator(TABLE, DATA) as collator:

            def work(number):
                chosen = random.Random(number)
                for _ in self.rounds():
                    self.try_once(GROWING, collator, chosen)

            with threads(work), warnings.catch_warnings():
                warnings.simplefilter("ignore", DeprecationWarning)  # a fork of a process with threads
                for _ in self.rounds():
                    number = os.fork()
                    if number == 0:
                        use_in_child(collator)
                    if os.waitpid(number, 0)[1]:
                        self.wrong = 1

    def test_without_the_interpreter_lock(self):
        run = ran(WITHOUT_LOCK + SOME_CASES, UCA_STRESS_SECONDS=str(SECONDS / self.CASES))
        self.assertEqual((run.returncode, run.stdout), (0, b"6 run\n"), run.stderr.decode())
        self.calls = 1


SOME_CASES = """
import unittest
import test_stress

names = ["test_growing_texts_in_quick_turns", "test_compact_keys_in_quick_turns", "test_shared_tables", "test_handler_of_a_signal"]
names += ["test_closed_meanwhile", "test_forks"]
test_stress.Stress.CASES = len(names)
result = unittest.TextTestRunner().run(unittest.TestSuite(map(test_stress.Stress, names)))
print(f"{result.testsRun} run" if result.wasSuccessful() else "failed")
"""


if __name__ == "__main__":
    unittest.main()
