"""A controller that a program starts, and that goes on when this program dies in whatever way.

So nothing of it leads to its starter: it has a session of its own, a socket for its lines, and a standard error on which it never waits (a pipe
that does not block; without a reader its messages are lost). A program that starts later for the same plans finds it at its socket.

    kept = begin(["flow.json"], "eth2", ["--retry", "5"])
    ..
    kept.end()
"""

from __future__ import annotations

import collections
import contextlib
import os
import select
import signal
import socket
import stat
import struct
import subprocess
import tempfile
import threading
from typing import Callable, Deque, List, Optional, Sequence

from .errors import NotStarted
from .lines import CAUSES
from .plants import program
from .process import FAULTS, LONGEST, Socket

NO_FOLDER, IN_USE = 73, 75
FOLDER = "nandutable"


def folder() -> str:
    """A folder of this user alone for the sockets: below RUNTIME_DIRECTORY of a unit, /run, XDG_RUNTIME_DIR, or the folder for temporary files.
    Raises NotStarted."""
    above = os.environ.get("RUNTIME_DIRECTORY", "").partition(":")[0] or ("/run" if os.geteuid() == 0 else os.environ.get("XDG_RUNTIME_DIR"))
    path = os.path.join(above, FOLDER) if above else os.path.join(tempfile.gettempdir(), f"{FOLDER}-{os.geteuid()}")
    try:
        os.makedirs(path, 0o700, exist_ok=True)
        found = os.lstat(path)
    except OSError as fault:
        raise NotStarted(f"no folder for the controller's socket: {path}: {fault.strerror}; name the socket: -- --socket PATH", NO_FOLDER) from None
    if not stat.S_ISDIR(found.st_mode) or found.st_uid != os.geteuid() or found.st_mode & 0o022:
        raise NotStarted(f"{path} is not a folder of this user alone; name the socket: -- --socket PATH", NO_FOLDER)
    return path


def socket_of(interface: str) -> str:
    """The path of the socket of the controller on an interface. Interfaces of several network namespaces may have one name."""
    namespace = os.stat("/proc/self/ns/net").st_ino
    return os.path.join(folder(), f"{interface.replace('/', '_')}-{namespace}")


def own_socket(words: Sequence[str]) -> Optional[str]:
    """The socket that the controller's own words name, or None."""
    for at, word in enumerate(words):
        if word == "--socket" and at + 1 < len(words):
            return words[at + 1]
        if word.startswith("--socket="):
            return word.partition("=")[2]
    return None


class Kept:
    """The controller: started here, or found. `path` is its socket."""

    def __init__(self, path: str, pid: int, process: "Optional[subprocess.Popen[bytes]]" = None) -> None:
        self.path, self.pid = path, pid
        self.faults: Deque[str] = collections.deque(maxlen=FAULTS)
        self._process = process
        self.has_read = threading.Event()  # its standard error, to the end
        # A number of a process may be that of another one later; a descriptor of it is not.
        self._descriptor = os.pidfd_open(pid)

    @property
    def was_found(self) -> bool:
        """Whether it ran already."""
        return self._process is None

    def has_ended(self, within: float = 0) -> bool:
        """Whether it has ended, or does so within that many seconds."""
        poll = select.poll()
        poll.register(self._descriptor, select.POLLIN)
        return bool(poll.poll(within * 1000))

    @property
    def status(self) -> Optional[int]:
        """Its exit status. None while it runs, and if it was found: only the one who started it gets that."""
        return None if self._process is None else self._process.poll()

    def reason(self) -> str:
        """Why it has ended, in words."""
        if self._process is None:
            return f"the controller has ended, which ran already (process {self.pid})"
        status = self._process.wait()
        self.has_read.wait(1)
        if status >= 64 and self.faults:
            return self.faults[-1].partition(": ")[2] or self.faults[-1]
        if status < 0:
            return f"the controller was ended by signal {-status}"
        return f"the controller has ended with status {status}" + (f": {CAUSES[status]}" if status in CAUSES else "")

    def connect(self) -> Socket:
        """Opens its socket. Raises OSError if it does not listen."""
        return _Socket(self)

    def end(self, timeout: float = 10) -> None:
        """Ends it: it releases its relations. After `timeout` seconds it is ended without that."""
        for number in (signal.SIGTERM, signal.SIGTERM, signal.SIGKILL):
            if not self.has_ended():
                with contextlib.suppress(ProcessLookupError):
                    signal.pidfd_send_signal(self._descriptor, number)
            if self.has_ended(timeout):
                break
        if self._process is not None:
            self._process.wait()


class _Socket(Socket):
    """A connection that knows why the controller has ended."""

    def __init__(self, kept: Kept) -> None:
        self._kept = kept
        super().__init__(kept.path)

    def reason(self) -> str:
        return self._kept.reason() if self._kept.has_ended(1) else super().reason()


def begin(plans: Sequence[str], interface: str, options: Sequence[str] = (), on_fault: Callable[[str], None] = lambda _: None) -> Kept:
    """Finds the controller of these plans on an interface, or starts it with its signals. `options` are more of its words; with --socket among
    them that one is its socket. `on_fault` is called with each line of its standard error. Raises NotStarted: no such program, or a controller of
    other plans runs."""
    own = own_socket(options)
    path = os.path.abspath(own if own is not None else socket_of(interface))
    more = [*options, *(() if own is not None else ("--socket", path))]
    names = [interface, *(os.path.abspath(plan) for plan in plans)]
    found = _find(path, names)
    return found if found is not None else _start([program(), *names, "--signals=only", "--times", *more], path, on_fault)


def _find(path: str, names: List[str]) -> Optional[Kept]:
    """The controller that listens there, or None. Raises NotStarted if it is that of other plans."""
    with socket.socket(socket.AF_UNIX) as link:
        try:
            link.connect(path)
        except OSError:
            return None
        pid = struct.unpack("3i", link.getsockopt(socket.SOL_SOCKET, socket.SO_PEERCRED, 12))[0]
        kept = Kept(path, pid)
        try:
            with open(f"/proc/{pid}/cmdline", "rb") as file:
                words = [os.fsdecode(word) for word in file.read().split(b"\0")[1:-1]]
        except OSError:
            return kept
    own = words[:next((at for at, word in enumerate(words) if word.startswith("-")), len(words))]
    if own != names:
        raise NotStarted(f"a controller runs already with other plans, and listens at {path}: {' '.join(own)}. End it by `kill {pid}`, or use it by --socket {path}", IN_USE)
    return kept


def _start(words: List[str], path: str, on_fault: Callable[[str], None]) -> Kept:
    ours, theirs = os.pipe()
    os.set_blocking(theirs, False)
    try:
        process = subprocess.Popen(words, stdin=subprocess.DEVNULL, stdout=subprocess.DEVNULL, stderr=theirs, start_new_session=True,
                                   env={**os.environ, "LC_ALL": "C"})
    except OSError as fault:
        os.close(ours)
        raise NotStarted(f"{words[0]}: {fault.strerror}") from None
    finally:
        os.close(theirs)
    kept = Kept(path, process.pid, process)
    threading.Thread(target=_listen, args=(ours, kept, on_fault), name="nandutable controller's messages", daemon=True).start()
    return kept


def _listen(descriptor: int, kept: Kept, on_fault: Callable[[str], None]) -> None:
    """Reads its standard error until it ends."""
    rest = b""
    while octets := os.read(descriptor, 65536):
        *lines, rest = (rest + octets).split(b"\n")
        rest = rest[:LONGEST]
        for line in lines:
            text = line.decode("utf-8", "replace")
            kept.faults.append(text)
            on_fault(text)
    os.close(descriptor)
    kept.has_read.set()
