"""What the programs over a plant have in common: where its lines come from, and the lines that they print themselves."""

from __future__ import annotations

import collections
import os
import threading
import time
from typing import Callable, Deque, FrozenSet, Optional, Tuple, Union

from .commands import ASKING, Commands
from .kept import Kept
from .plants import Follower
from .process import Connection, Socket, not_listening
from .state import PlantState

AGAIN = 1.0  # seconds after which a socket that is gone is tried again
LOOKS = 0.1  # seconds after which an end that was asked for is seen
KEPT = 100  # lines that wait until they are written
UNKNOWN = 69  # the status after the end of a controller that ran already


class Log:
    """Lines of a program, on standard error, or with `tell` on standard output. A thread writes them: a terminal that is stopped or a disk that is
    full stops nothing else. What waits beyond `KEPT` lines is dropped, the oldest first."""

    def __init__(self, name: str) -> None:
        self.name = name
        self._lines: Deque[Tuple[int, str]] = collections.deque(maxlen=KEPT)
        self._news = threading.Condition()
        self._is_idle = True
        threading.Thread(target=self._write, name="nandutable log", daemon=True).start()

    def __call__(self, text: str) -> None:
        self._put(2, f"{self.name}: {text}\n")

    def tell(self, text: str) -> None:
        """Prints a line on standard output."""
        self._put(1, f"{text}\n")

    def pass_on(self, text: str) -> None:
        """Prints a line of another program."""
        self._put(2, f"{text}\n")

    def _put(self, descriptor: int, text: str) -> None:
        with self._news:
            self._lines.append((descriptor, text))
            self._is_idle = False
            self._news.notify_all()

    def _write(self) -> None:
        while True:
            with self._news:
                self._is_idle = not self._lines
                self._news.notify_all()
                self._news.wait_for(lambda: self._lines)
                descriptor, text = self._lines.popleft()
            try:
                os.write(descriptor, text.encode("utf-8", "replace"))
            except OSError:
                pass

    def close(self, seconds: float = 1.0) -> None:
        """Waits until all is written, but not for ever."""
        with self._news:
            self._news.wait_for(lambda: self._is_idle, seconds)


class Source:
    """Where the lines come from: a controller that runs already, whose socket `path` is opened again when it was lost, or one that `begin` starts: a
    connection to it, or one that is `Kept`. `may` are the lines that may be sent to it (commands.py). `state` stays the same."""

    def __init__(self, path: Optional[str], begin: "Callable[[], Union[Connection, Kept]]", log: Log, may: FrozenSet[str] = ASKING) -> None:
        self.path, self.begin, self.log, self.may = path, begin, log, may
        self.state = PlantState()
        self.follower: Optional[Follower] = None
        self.is_over = False  # set by a handler of signals, so it is no lock
        self.is_left = False
        self._told = ""

    def commands(self) -> Optional[Commands]:
        """The commands of the controller that runs, or None."""
        follower = self.follower
        return follower.commands if follower is not None and not follower.ended.is_set() else None

    def end(self, *_: object) -> None:
        """Ends `run`. It is also the handler of a signal."""
        self.is_over = True

    def leave(self) -> None:
        """Ends `run`, and not a controller that is kept."""
        self.is_left = True
        self.is_over = True

    def run(self) -> int:
        """Follows the controller until `is_over` is set or, if it was started here, until it ends. Returns the status. Raises what `begin`
        raises."""
        if self.path is None:
            begun = self.begin()
            return self._follow_kept(begun) if isinstance(begun, Kept) else self._follow(begun)
        while not self.is_over:
            try:
                connection = Socket(self.path)
            except OSError as fault:
                reason = not_listening(self.path, fault)
                self.state.end(reason)
                self._tell(reason)
            else:
                self._tell(f"connected to the controller at {self.path}")
                self._follow(connection)
                if not self.is_over:
                    self._tell(connection.reason())
            self._pause()
        return 0

    def _follow_kept(self, kept: Kept) -> int:
        """Follows it until it ends, also over several connections. It ends with this program in order, and goes on if this one fails."""
        self._tell(f"{'uses the controller that runs already, process' if kept.was_found else 'started the controller, process'} {kept.pid}, at {kept.path}")
        while not self.is_over and not kept.has_ended(LOOKS):
            try:
                connection = kept.connect()
            except OSError:
                continue  # it does not listen yet
            self._follow(connection)
        if self.is_left and not kept.has_ended():
            self._tell(f"the controller goes on, process {kept.pid}, at {kept.path}: the same command uses it again, and `kill {kept.pid}` ends it")
            return 0
        has_ended = kept.has_ended()
        kept.end()
        if has_ended:
            reason = kept.reason()
            self.state.end(reason)
            self._tell(reason)
        status = (kept.status or 0) if has_ended and not kept.was_found else UNKNOWN if has_ended else 0
        return status if status >= 0 else 128 - status

    def _pause(self) -> None:
        ends = time.monotonic() + AGAIN
        while not self.is_over and time.monotonic() < ends:
            time.sleep(LOOKS)

    def _follow(self, connection: Connection) -> int:
        self.follower = Follower(connection, self.state, may=self.may)
        self.follower.start()
        while not self.follower.ended.wait(LOOKS) and not self.is_over:
            pass
        has_ended = self.follower.ended.is_set() and self.path is None
        connection.close()
        self.follower.join()
        if has_ended:
            self._tell(connection.reason())
        status = (connection.status or 0) if has_ended else 0
        return status if status >= 0 else 128 - status  # as a shell says that a signal has ended it

    def _tell(self, text: str) -> None:
        """Logs a text once."""
        if text != self._told:
            self._told = text
            self.log(text)
