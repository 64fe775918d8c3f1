"""The controller as a process, or as the socket of one that runs already, and the queue of its lines.

A `Connection` has a thread that reads each line as soon as it is there, so the controller never waits for a reader (it would not wait anyway:
it would drop lines). What waits to be fetched is bounded:

- of each signal only the newest line is kept, in the place of the older one;
- of all other lines at most `most` are kept; if more wait, the oldest is dropped.

`merged` counts the signal lines that a newer one replaced, `dropped` the other lines that were dropped.
"""

from __future__ import annotations

import collections
import os
import selectors
import signal
import socket
import subprocess
import threading
import time
from typing import Deque, Dict, IO, Iterator, List, Optional, Sequence, Tuple

from .errors import Busy, Gone
from .lines import CAUSES, signal_name

MOST = 10000  # other lines that wait
WRITTEN = 65536  # octets that wait until the controller reads them
FAULTS = 20  # lines of standard error that are kept
LONGEST = 65536  # octets of a line; the controller prints at most 4,096


class Queue:
    """The lines that wait, with the rule above."""

    def __init__(self, most: int = MOST) -> None:
        self.most = most
        self.merged = self.dropped = 0
        self._others = 0
        self._number = 0
        self._waiting: "collections.OrderedDict[object, str]" = collections.OrderedDict()
        self._news = threading.Condition()
        self._ended = False

    def put(self, line: str) -> None:
        name = signal_name(line)
        with self._news:
            if name is not None:
                self.merged += name in self._waiting
                self._waiting[name] = line
            else:
                self._number += 1
                self._waiting[self._number] = line
                self._others += 1
                if self._others > self.most:
                    self._drop()
            self._news.notify()

    def _drop(self) -> None:
        """Drops the oldest line that is not a signal's."""
        for key in self._waiting:
            if isinstance(key, int):
                del self._waiting[key]
                self._others -= 1
                self.dropped += 1
                return

    def end(self) -> None:
        """No line follows."""
        with self._news:
            self._ended = True
            self._news.notify_all()

    def get(self, timeout: Optional[float] = None) -> Optional[str]:
        """Returns the next line, or None: no line came within `timeout` seconds, or none follows (`ended`)."""
        with self._news:
            self._news.wait_for(lambda: self._waiting or self._ended, timeout)
            if not self._waiting:
                return None
            key, line = self._waiting.popitem(last=False)
            self._others -= isinstance(key, int)
            return line

    def __len__(self) -> int:
        return len(self._waiting)

    @property
    def ended(self) -> bool:
        """Whether each line was read, and no more follow."""
        with self._news:
            return self._ended and not self._waiting


class Connection:
    """What a `Process` and a `Socket` have in common. Its methods may be called by any thread."""

    def __init__(self, most: int = MOST) -> None:
        self.queue = Queue(most)
        self.faults: Deque[str] = collections.deque(maxlen=FAULTS)  # lines of standard error
        self._outgoing = bytearray()
        self._lock = threading.Lock()
        self._wake, self._woken = socket.socketpair()
        self._wake.setblocking(False)
        self._woken.setblocking(False)
        self._closing = False
        self._thread = threading.Thread(target=self._run, name="nandutable lines", daemon=True)
        self._opened = threading.Event()
        self._fault: Optional[BaseException] = None

    # -- what a kind of connection supplies

    def _open(self) -> Tuple[int, int, Optional[int]]:
        """Opens it. Returns the descriptors to read from, to write to, and of standard error. Runs in the thread."""
        raise NotImplementedError

    def _shut(self) -> None:
        """Runs in the thread, after the last line."""
        raise NotImplementedError

    def reason(self) -> str:
        """Why the connection has ended, in words."""
        raise NotImplementedError

    # -- for its user

    def send(self, line: str) -> None:
        """Sends a line. Returns at once. Raises `Busy` if the controller does not read, and `Gone` if it has ended."""
        octets = line.encode() + b"\n"
        if b"\n" in octets[:-1] or b"\0" in octets:
            raise ValueError("a line has no line feed and no zero in it")
        with self._lock:
            if self.gone:
                raise self._gone()
            if len(self._outgoing) + len(octets) > WRITTEN:
                raise Busy("the controller does not read its lines")
            self._outgoing += octets
        self._notify()

    def get(self, timeout: Optional[float] = None) -> Optional[str]:
        """Returns the next line, or None: nothing came within `timeout` seconds, or no line follows (`ended`)."""
        return self.queue.get(timeout)

    def __iter__(self) -> Iterator[str]:
        """Each line, until the controller has ended."""
        while not self.ended:
            line = self.get(1)
            if line is not None:
                yield line

    @property
    def ended(self) -> bool:
        """Whether the controller has ended or closed its socket, and each of its lines was read."""
        return self.queue.ended

    @property
    def gone(self) -> bool:
        """Whether the controller has ended or closed its socket. Lines may still wait."""
        return self.queue._ended

    def close(self, timeout: float = 10) -> None:
        """Ends the connection."""
        raise NotImplementedError

    def __enter__(self) -> "Connection":
        return self

    def __exit__(self, *_: object) -> None:
        self.close()

    # -- the thread

    def _start(self) -> None:
        self._thread.start()
        self._opened.wait()
        if self._fault is not None:
            raise self._fault

    def _gone(self) -> Gone:
        return Gone(self.reason(), self.status)

    @property
    def status(self) -> Optional[int]:
        """The exit status of the process, None while it runs, and for a socket."""
        return None

    def _notify(self) -> None:
        try:
            self._wake.send(b"\0")
        except OSError:
            pass  # it is full, so the thread wakes anyway; or closed

    def _run(self) -> None:
        try:
            given, taken, faults = self._open()
        except BaseException as fault:  # is raised again by the caller
            self._fault = fault
            self.queue.end()
            self._opened.set()
            return
        self._opened.set()
        try:
            _Pump(self, given, taken, faults).run()
        finally:
            self._shut()
            self.queue.end()


class _Pump:
    """Moves octets between a connection and its descriptors."""

    def __init__(self, owner: Connection, given: int, taken: int, faults: Optional[int]) -> None:
        self.owner, self.given, self.taken, self.faults = owner, given, taken, faults
        self.rest: Dict[int, bytearray] = {given: bytearray()}
        self.selector = selectors.DefaultSelector()
        self.selector.register(given, selectors.EVENT_READ)
        self.selector.register(owner._woken, selectors.EVENT_READ)
        if faults is not None:
            self.rest[faults] = bytearray()
            self.selector.register(faults, selectors.EVENT_READ)
        for descriptor in {given, taken, *(() if faults is None else (faults,))}:
            os.set_blocking(descriptor, False)
        self.writes = True

    def run(self) -> None:
        """Returns when the controller has closed its output, or its user has closed the connection."""
        with self.selector:
            while not self.owner._closing and self.given in self.selector.get_map():
                for key, events in self.selector.select():
                    if key.fileobj is self.owner._woken:
                        self._drain()
                    elif events & selectors.EVENT_READ:
                        self._read(key.fd)
                self._write()
        self._read_faults()

    def _read_faults(self) -> None:
        """What the controller has written on standard error before its end."""
        if self.faults is not None:
            os.set_blocking(self.faults, True)
            while octets := os.read(self.faults, 65536):
                self._take(self.faults, octets)

    def _drain(self) -> None:
        try:
            while self.owner._woken.recv(4096):
                pass
        except OSError:
            pass

    def _read(self, descriptor: int) -> None:
        """Reads what is there."""
        try:
            octets = os.read(descriptor, 65536)
        except BlockingIOError:
            return
        except OSError:
            octets = b""
        if octets:
            self._take(descriptor, octets)
        else:
            self.selector.unregister(descriptor)

    def _take(self, descriptor: int, octets: bytes) -> None:
        """Parts octets into lines."""
        rest = self.rest[descriptor]
        rest += octets
        *lines, last = rest.split(b"\n")
        self.rest[descriptor] = last[:LONGEST]
        for line in lines:
            text = line.decode("utf-8", "replace")
            if descriptor == self.given:
                self.owner.queue.put(text)
            else:
                self.owner.faults.append(text)

    def _write(self) -> None:
        """Writes what waits, as far as possible, and says whether to wake for more."""
        owner = self.owner
        with owner._lock:
            while self.writes and owner._outgoing:
                try:
                    done = os.write(self.taken, bytes(owner._outgoing[:4096]))
                except BlockingIOError:
                    break
                except OSError:
                    self.writes = False  # it does not read any more; what it still prints is read
                    break
                del owner._outgoing[:done]
            if not self.writes:
                owner._outgoing.clear()
            wants = self.writes and bool(owner._outgoing)
        self._want(wants)

    def _want(self, wants: bool) -> None:
        events = selectors.EVENT_WRITE if wants else 0
        if self.taken == self.given:
            if self.given in self.selector.get_map():
                self.selector.modify(self.given, selectors.EVENT_READ | events)
        elif wants and self.taken not in self.selector.get_map():
            self.selector.register(self.taken, events)
        elif not wants and self.taken in self.selector.get_map():
            self.selector.unregister(self.taken)


class Process(Connection):
    """A controller that this program starts, with its words: `Process(["nandutable-controller", "eth2", "flow.json", "--signals"])`.

    It is ended by `close`, by the end of a `with`, and when this program ends in whatever way: the controller has the option
    --end-with-input, and releases its relations. Raises OSError if there is no such program."""

    def __init__(self, words: Sequence[str], most: int = MOST) -> None:
        super().__init__(most)
        self.words: List[str] = list(words)
        self._process: "Optional[subprocess.Popen[bytes]]" = None
        self._start()

    def _open(self) -> Tuple[int, int, Optional[int]]:
        self._process = subprocess.Popen(self.words, stdin=subprocess.PIPE, stdout=subprocess.PIPE, stderr=subprocess.PIPE,
                                         start_new_session=True, env={**os.environ, "LC_ALL": "C"})
        return tuple(_number(stream) for stream in (self._process.stdout, self._process.stdin, self._process.stderr))  # type: ignore[return-value]

    def _shut(self) -> None:
        assert self._process is not None
        self._process.wait()
        for stream in (self._process.stdin, self._process.stdout, self._process.stderr):
            if stream is not None:
                try:
                    stream.close()
                except OSError:
                    pass

    @property
    def pid(self) -> int:
        """The number of the process."""
        assert self._process is not None
        return self._process.pid

    @property
    def status(self) -> Optional[int]:
        """The exit status, None while it runs. The statuses are in docs/CONTROLLER.md."""
        return None if self._process is None else self._process.poll()

    def reason(self) -> str:
        """The last line of its standard error if it did not start, otherwise its status in words."""
        status = self.status
        if status is None:
            return "the controller runs"
        if status >= 64 and self.faults:
            return self.faults[-1]
        if status < 0:
            return f"the controller was ended by signal {-status}"
        return f"the controller has ended with status {status}" + (f": {CAUSES[status]}" if status in CAUSES else "")

    def close(self, timeout: float = 10) -> None:
        """Ends the controller: it releases its relations. After `timeout` seconds it is ended without that."""
        assert self._process is not None
        for number in (signal.SIGTERM, signal.SIGTERM, signal.SIGKILL):
            if self._process.poll() is None:
                self._process.send_signal(number)
            if self._ends_within(timeout if number != signal.SIGKILL else 10):
                break
        self._thread.join(10)

    def _ends_within(self, seconds: float) -> bool:
        try:
            assert self._process is not None
            self._process.wait(seconds)
        except subprocess.TimeoutExpired:
            return False
        return True


class Socket(Connection):
    """The socket of a controller that runs already (its option --socket), such as /run/nandutable-controller/eth2/lines. The controller goes on
    when the connection is closed. Raises OSError if nobody listens there."""

    def __init__(self, path: str, most: int = MOST) -> None:
        super().__init__(most)
        self.path = path
        self._socket = socket.socket(socket.AF_UNIX)
        try:
            self._socket.connect(path)
        except OSError:
            self._socket.close()
            raise
        self._start()

    def _open(self) -> Tuple[int, int, Optional[int]]:
        return self._socket.fileno(), self._socket.fileno(), None

    def _shut(self) -> None:
        self._socket.close()

    def reason(self) -> str:
        """That the other end has closed the socket."""
        return f"the controller has closed its socket {self.path}"

    def close(self, timeout: float = 10) -> None:
        """Closes the socket. The controller goes on."""
        self._closing = True
        self._notify()
        self._thread.join(timeout)


def not_listening(path: str, fault: OSError) -> str:
    """Why a socket cannot be opened: a controller may listen at one that this user may not use."""
    if isinstance(fault, PermissionError):
        return f"this user may not use the socket {path}: run this as the user who started the controller, or start that with --socket-group"
    return f"no controller listens at {path}: {fault.strerror or fault}"


def wait_for_socket(path: str, timeout: float = 10, most: int = MOST) -> Socket:
    """Opens a socket as soon as somebody listens there. Raises OSError after `timeout` seconds."""
    ends = time.monotonic() + timeout
    while True:
        try:
            return Socket(path, most)
        except OSError as fault:
            if time.monotonic() >= ends or isinstance(fault, PermissionError):
                raise
            time.sleep(0.05)


def _number(stream: Optional[IO[bytes]]) -> int:
    assert stream is not None
    return stream.fileno()
