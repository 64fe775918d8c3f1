"""Commands to the controller, each with its answer. A command that is refused raises `errors.Refused` with the controller's own reason.

A `Commands` belongs to the connection of a `Plant`. Its methods may be called by any thread but the one that takes lines; they wait for the
answer, which the controller sends at once (a record: as soon as the device answers).
"""

from __future__ import annotations

import contextlib
import re
import threading
import time
from typing import Callable, Dict, FrozenSet, Iterator, List, Optional, Tuple, Union

from . import lines, values
from .errors import Busy, Gone, Lost, NoSuchName, NotExchanging, Refused, TimedOut
from .lines import Line
from .process import Connection
from .state import Plain, PlantState

ANSWER = 5.0  # seconds within which the controller answers
DEVICE = 30.0  # seconds within which a device answers to a read or a write of a record
UNITS_A_SECOND = 32000

# The lines that only ask, and those by which an output is set too. Others release a relation, write records, or set octets.
ASKING = frozenset(("stations", "names", "modules", "get", "statistics", "read", "diagnosis"))
SETTING = ASKING | {"set"}

# What a name can be: STATION.SIGNAL. The controller answers to another one, but not by this name.
_NAME = re.compile(r"[A-Za-z0-9_.-]{1,305}")

_NO_DATA = "no data is exchanged"
_HAS_NO_PLACE = "waits for its answer"


class _Waiter:
    """Lines that a caller waits for."""

    def __init__(self, wants: Callable[[Line], bool], keeps: Callable[[Line], bool]) -> None:
        self.wants, self.keeps = wants, keeps
        self.kept: List[Line] = []
        self.found: Optional[Line] = None
        self.is_over = threading.Event()

    def take(self, line: Line) -> None:
        if self.found is not None:
            return
        if self.keeps(line):
            self.kept.append(line)
        if self.wants(line):
            self.found = line
            self.is_over.set()


def _refusal(reason: str) -> Refused:
    return NotExchanging(reason) if reason.startswith(_NO_DATA) else Refused(reason)


def _is_no_line(line: Line) -> bool:
    return isinstance(line, lines.Wrong) and line.reason.startswith("no such line")


def _is_fence(line: Line, fence: str) -> bool:
    """Whether this is the answer to the question for a name that no signal has. A controller without signals has no such question."""
    return (isinstance(line, lines.GetRefused) and line.name == fence) or _is_no_line(line)


def _nothing(_: Line) -> bool:
    return False


class Commands:
    """What the controller can be asked for. `several` says whether it has several stations: then a line for one has its name in front. `may` are
    the first words of the lines that may be sent, such as `SETTING`; None: all."""

    def __init__(self, connection: Connection, state: PlantState, several: Callable[[], bool] = lambda: False, may: Optional[FrozenSet[str]] = None) -> None:
        self.connection, self.state, self.several, self.may = connection, state, several, may
        self._turn = threading.Lock()  # one command waits for its first answer at a time
        self._lock = threading.Lock()
        self._waiters: List[_Waiter] = []
        self._fences = 0
        self._accesses: Dict[str, threading.Lock] = {}  # of each station, one read or write of a record at a time
        self._is_gone = False

    # -- for the thread that takes lines

    def take(self, line: Line) -> None:
        """Hands in a line, which may be an answer."""
        with self._lock:
            for waiter in self._waiters:
                waiter.take(line)

    def end(self) -> None:
        """No line follows: who waits gets `Gone`."""
        with self._lock:
            self._is_gone = True
            for waiter in self._waiters:
                waiter.is_over.set()

    # -- asking

    @contextlib.contextmanager
    def _waiting(self, wants: Callable[[Line], bool], keeps: Callable[[Line], bool] = _nothing) -> Iterator[_Waiter]:
        waiter = _Waiter(wants, keeps)
        with self._lock:
            if self._is_gone:
                waiter.is_over.set()
            self._waiters.append(waiter)
        try:
            yield waiter
        finally:
            with self._lock:
                self._waiters.remove(waiter)

    def _wait(self, waiter: _Waiter, what: str, timeout: float) -> Line:
        waiter.is_over.wait(timeout)
        if waiter.found is not None:
            return waiter.found
        if self._is_gone:
            raise Gone(self.connection.reason(), self.connection.status)
        raise TimedOut(f"no answer to '{what}' within {timeout:g} s")

    def _send(self, text: str) -> None:
        """Sends a line, if this program may."""
        words = text.split(" ", 2)
        verb = words[1] if self.several() and len(words) > 1 and words[0] in self.state.station_names() else words[0]
        if self.may is not None and verb not in self.may:
            raise Refused(f"this program does not send '{verb}'")
        self.connection.send(text)

    @contextlib.contextmanager
    def _in_turn(self, what: str, timeout: float) -> Iterator[None]:
        """Waits until the commands before have their answers."""
        if not self._turn.acquire(timeout=max(timeout, 0)):
            raise Busy(f"the controller did not answer to other lines within {timeout:g} s, so '{what}' was not sent")
        try:
            yield
        finally:
            self._turn.release()

    def _ask(self, text: str, wants: Callable[[Line], bool], timeout: float = ANSWER, keeps: Callable[[Line], bool] = _nothing) -> _Waiter:
        """Sends a line and waits for its answer."""
        with self._in_turn(text, timeout), self._waiting(lambda line: isinstance(line, lines.Wrong) or wants(line), keeps) as waiter:
            self._send(text)
            found = self._wait(waiter, text, timeout)
            if isinstance(found, lines.Wrong):
                raise _refusal(found.reason)
            return waiter

    def _of(self, station: str, text: str) -> str:
        """A line for a station."""
        if station not in self.state.station_names():
            raise NoSuchName(f"there is no station {station!r}; there are {', '.join(self.state.station_names()) or 'none'}")
        return f"{station} {text}" if self.several() else text

    def fenced(self, text: str, timeout: float = ANSWER, after: Callable[[], None] = lambda: None) -> None:
        """Sends a line whose answer has no end of its own, waits for the answer, and calls `after` before any other line is sent. The controller
        answers each line in its turn, so the answer is complete when a question for a name that no signal has is refused."""
        with self._in_turn(text, timeout):
            self._fences += 1
            fence = f"-{self._fences}"
            with self._waiting(lambda line: _is_fence(line, fence), lambda line: isinstance(line, lines.Wrong) and not _is_no_line(line)) as waiter:
                self._send(text)
                self.connection.send(f"get {fence}")
                self._wait(waiter, text, timeout)
            for line in waiter.kept:
                if isinstance(line, lines.Wrong):
                    raise _refusal(line.reason)
            after()

    # -- signals

    def set(self, name: str, value: Union[values.Value, "Raw"], timeout: float = ANSWER) -> None:
        """Sets an output by its full name, STATION.SIGNAL. Returns when the controller has it; it goes out with the next cyclic frame. Raises
        `Refused` with the reason: the range of the type, an input, no such signal; `NotExchanging` if no data is exchanged with the station.
        A refused value is not kept. `sent` waits for the frame."""
        text = value.text if isinstance(value, Raw) else values.encode(value)
        if not text or any(letter in name for letter in " \t\r\n") or not name:
            raise Refused("a name has no blanks, and a value is not empty")
        if not _NAME.fullmatch(name):
            raise Refused("there is no such signal; names lists them")

        def is_answer(line: Line) -> bool:
            return (isinstance(line, lines.SetDone) and line.name in (name, self.full_name(name))) or (isinstance(line, lines.SetRefused) and line.name == name)
        found = self._ask(f"set {name} {text}", is_answer, timeout).found
        if isinstance(found, lines.SetRefused):
            raise _refusal(found.reason)

    def sent(self, station: str, timeout: float = ANSWER) -> None:
        """Returns when a cyclic frame with the outputs that the controller has now was sent to the station. The controller sends one in each interval, so
        a whole interval of its time passes. Raises `NotExchanging` if data is no longer exchanged, and `TimedOut`: the interface takes no frames."""
        found = self.state.station(station)
        since = found["since"] if found is not None and found["state"] == "exchanging" else None
        units = -(-((found["interval_us"] or 0) + 1) * 4 // 125) if found is not None else 0  # of 31.25 us, rounded up
        ends = time.monotonic() + timeout + 4 * units / UNITS_A_SECOND
        passed, not_sent = self._time_and_loss()
        while True:
            now, lost = self._time_and_loss()
            found = self.state.station(station)
            if since is None or found is None or (found["state"], found["since"]) != ("exchanging", since):
                raise NotExchanging(f"{_NO_DATA} with {station} any more; whether a frame with the value was sent is not known")
            if lost != not_sent:
                passed, not_sent = now, lost  # that frame was lost, so another one is waited for
            elif now - passed > units:
                return
            if time.monotonic() > ends:
                raise TimedOut(f"no frame with the value was sent to {station} within {timeout:g} s")
            time.sleep(0.002)

    def _time_and_loss(self) -> Tuple[int, int]:
        """The units of time that the controller has counted, and the frames that its interface did not take."""
        kept = self._ask("statistics", lambda line: isinstance(line, lines.Count) and line.what == "lines lost", keeps=lambda line: isinstance(line, (lines.Times, lines.Frames))).kept
        return (sum(line.units - line.forgotten for line in kept if isinstance(line, lines.Times)), sum(line.not_sent for line in kept if isinstance(line, lines.Frames)))

    def full_name(self, name: str) -> str:
        """STATION.SIGNAL. With one station a name may be SIGNAL alone."""
        names = self.state.station_names()
        return f"{names[0]}.{name}" if "." not in name and len(names) == 1 else name

    def get(self, name: str, timeout: float = ANSWER) -> lines.Signal:
        """The line of a signal as the controller has it now. The state has it too, without asking."""
        full = self.full_name(name)
        if not _NAME.fullmatch(name):
            raise NoSuchName(f"{name}: there is no such signal; names lists them")

        def is_answer(line: Line) -> bool:
            return (isinstance(line, lines.Signal) and line.name == full) or (isinstance(line, lines.GetRefused) and line.name == name)
        found = self._ask(f"get {name}", is_answer, timeout).found
        if isinstance(found, lines.GetRefused):
            raise NoSuchName(f"{name}: {found.reason}")
        assert isinstance(found, lines.Signal)
        return found

    def refresh(self, timeout: float = ANSWER) -> None:
        """Asks for everything: stations, names, values, statistics. The state has all of it then."""
        self.stations(timeout)
        self._ask("names", lambda line: isinstance(line, lines.Names), timeout)
        self.modules(timeout)
        self._ask("get *", lambda line: isinstance(line, lines.Got), timeout)
        self.statistics(timeout)

    def stations(self, timeout: float = ANSWER) -> None:
        """Asks for the link, the neighbour and the stations. The state has them then."""
        self._ask("stations", lambda line: isinstance(line, lines.Stations), timeout)

    def modules(self, timeout: float = ANSWER) -> None:
        """Asks for the names of modules and submodules. The state has them then. A controller of an older build has no such line."""
        try:
            self._ask("modules", lambda line: isinstance(line, lines.Modules), timeout)
        except Refused as fault:
            if not str(fault).startswith("no such line"):
                raise

    def statistics(self, timeout: float = ANSWER) -> None:
        """Asks for the counts: frames received and lost, interval and jitter of each station. The state has them then."""
        self._ask("statistics", lambda line: isinstance(line, lines.Count) and line.what == "lines lost", timeout)

    # -- records

    def read(self, station: str, slot: int, subslot: int, index: int, timeout: float = DEVICE) -> bytes:
        """Reads a record while data is exchanged. Raises `Refused` with the PNIOStatus in words, `NotExchanging`, and `Lost` if the relation ends
        before the answer."""
        found = self._access(station, "read", f"{slot} {subslot} {index}", f"read {slot} {subslot} {index}", timeout)
        assert isinstance(found, lines.Record)
        return found.octets

    def write(self, station: str, slot: int, subslot: int, index: int, octets: bytes, timeout: float = DEVICE) -> None:
        """Writes a record of at most 1,308 octets, as `read`."""
        self._access(station, "write", f"{slot} {subslot} {index}", f"write {slot} {subslot} {index} {octets.hex() or '-'}", timeout)

    def _access(self, station: str, verb: str, place: str, text: str, timeout: float) -> Line:
        line = self._of(station, text)
        ends = time.monotonic() + timeout
        with self._lock:
            own = self._accesses.setdefault(station, threading.Lock())
        if not own.acquire(timeout=max(timeout, 0)):
            raise TimedOut(f"another record of {station} was read or written for {timeout:g} s")
        try:
            return self._access_once(station, verb, place, line, ends)
        finally:
            own.release()

    def _access_once(self, station: str, verb: str, place: str, text: str, ends: float) -> Line:
        """Sends the line, again if another program's read or write waits for its answer, and waits for the record."""
        numbers = tuple(int(number) for number in place.split())

        def is_answer(line: Line) -> bool:
            if line.station not in (station, None):
                return False
            if isinstance(line, lines.AccessRefused):
                return line.verb == verb and (line.slot, line.subslot, line.index) == numbers
            is_other = isinstance(line, lines.Record) != (verb == "read")
            return isinstance(line, (lines.Record, lines.Written)) and not is_other and (line.slot, line.subslot, line.index) == numbers
        with self._waiting(is_answer) as waiter:
            while True:
                try:
                    self._ask(text, lambda line: isinstance(line, lines.State), min(ANSWER, max(0.1, ends - time.monotonic())))
                    break
                except Refused as fault:
                    if _HAS_NO_PLACE not in str(fault) or time.monotonic() > ends:
                        raise
                    time.sleep(0.02)
            found = self._wait(waiter, text, max(0.0, ends - time.monotonic()))
        if isinstance(found, lines.AccessRefused):
            if "dropped" in found.text:
                raise Lost(found.reason)
            raise Refused(found.reason)
        return found

    # -- the rest

    def diagnosis(self, station: str, timeout: float = ANSWER) -> List[Plain]:
        """The diagnoses that alarms of this relation have reported, as in the state."""
        self.fenced(self._of(station, "diagnosis reported"), timeout, lambda: self.state.diagnosis_listed(station))
        found = self.state.station(station)
        return list(found["diagnosis"]) if found is not None else []

    def give(self, station: str, slot: int, subslot: int, octets: bytes, timeout: float = ANSWER) -> None:
        """Sets the output of a submodule by its octets."""
        self._ask(self._of(station, f"give {slot} {subslot} {octets.hex()}"), lambda line: isinstance(line, lines.State), timeout)

    def status(self, station: str, slot: int, subslot: int, good: bool, timeout: float = ANSWER) -> None:
        """Says whether an output is good: its IOPS."""
        self._ask(self._of(station, f"status {slot} {subslot} {'good' if good else 'bad'}"), lambda line: isinstance(line, lines.State), timeout)

    def restart(self, station: str) -> None:
        """Releases the relation of a station and starts it again, with all its parameters. Returns at once."""
        self.fenced(self._of(station, "restart"))

    def stop(self, station: str) -> None:
        """Releases the relation of a station; `restart` starts it again. The controller of one station ends then."""
        text = self._of(station, "stop")
        if self.several():
            self.fenced(text)
        else:
            self._send(text)


class Raw:
    """A value for `Commands.set` as the text of the line, such as Raw("0x0f")."""

    def __init__(self, text: str) -> None:
        if not text.strip() or "\n" in text:
            raise ValueError("a value is not empty and has no line feed")
        self.text = text
