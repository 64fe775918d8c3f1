"""How late this machine wakes a process that sleeps, and tests that are tried again."""

import mmap
import os
import signal
import struct
import time

from wire import Final


class Lateness:
    """The lateness of this machine, measured by a process of its own, which no test delays. Programs that keep time drop what a late machine takes from
    them. A test that fails then shows the machine, and not the product."""

    STALL = 0.03  # seconds

    def __init__(self):
        self.shared = mmap.mmap(-1, 8)
        tests = os.getpid()
        self.watcher = os.fork()
        if self.watcher == 0:
            self.watch(tests)

    def watch(self, tests):
        """Sleeps, and counts how often it woke too late. It ends with the tests."""
        signal.signal(signal.SIGTERM, signal.SIG_DFL)
        signal.signal(signal.SIGINT, signal.SIG_IGN)
        stalls = 0
        while os.getppid() == tests:
            begins = time.monotonic()
            time.sleep(0.005)
            if time.monotonic() - begins - 0.005 > self.STALL:
                stalls += 1
                struct.pack_into("=q", self.shared, 0, stalls)
        os._exit(0)

    def stalls(self):
        """The number of stalls since the beginning."""
        return struct.unpack_from("=q", self.shared)[0]

    def end(self):
        os.kill(self.watcher, signal.SIGTERM)
        os.waitpid(self.watcher, 0)


class Tries:
    """The tests of a run. `once` of a test tries it, and raises what is wrong; `begin` is called before each try, and returns what removes all that the try
    has made if it fails.

    A test that fails while the machine stalls is tried again at once, at most twice. One that fails otherwise, or each of these times, is tried again
    when all others have run; more than two of these fail the run. A `Final` fault is a failure at once."""

    LATE, AGAIN = 2, 2

    def __init__(self, lateness):
        self.lateness, self.count, self.wrong, self.failed = lateness, 0, 0, []

    def run(self, name, once, begin=lambda: lambda: None):
        self.count += 1
        fault = self.fault(name, once, begin)
        if isinstance(fault, Final):
            self.fail(name, fault)
        elif fault is not None:
            print(f"AGAIN {name}: {text_of(fault)} (it is tried again after the others)", flush=True)
            self.failed.append((name, once, begin))

    def fault(self, name, once, begin):
        """What is wrong in a test, None if it passes."""
        for left in reversed(range(self.LATE + 1)):
            before, clean = self.lateness.stalls(), begin()
            try:
                once()
                return None
            except Exception as fault:
                clean()
                stalls = self.lateness.stalls() - before
                if stalls == 0 or left == 0 or isinstance(fault, Final):
                    return fault
                print(f"LATE {name}: {text_of(fault)}; meanwhile the machine woke a sleeping process more than {self.lateness.STALL * 1000:.0f} ms too late, {stalls} times: "
                      "tried again", flush=True)

    def fail(self, name, fault):
        self.wrong += 1
        print(f"WRONG {name}: {text_of(fault)}", flush=True)

    def end(self):
        """Tries again, one by one, what has failed. Returns a text that counts the tests, and whether the run has failed."""
        if len(self.failed) > self.AGAIN:
            print(f"WRONG {', '.join(name for name, *_ in self.failed)}: {len(self.failed)} tests have failed, and at most {self.AGAIN} of a run are tried again", flush=True)
            self.wrong += len(self.failed)
            self.failed = []
        again = len(self.failed)
        for name, once, begin in self.failed:
            fault = self.fault(name, once, begin)
            if fault is not None:
                again -= 1
                self.fail(name, fault)
        return f"{self.count - self.wrong} passed, {self.wrong} failed" + (f"; {again} of them passed at the second try" if again else ""), self.wrong > 0


def text_of(fault):
    return f"{type(fault).__name__}: {fault}"
