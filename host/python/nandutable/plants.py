"""A plant: a controller, its lines, the picture of them, and the commands to it, with the stations and signals by their names."""

from __future__ import annotations

import collections
import difflib
import os
import shutil
import threading
import time
from dataclasses import dataclass
from typing import Any, Callable, Deque, Dict, FrozenSet, Iterator, List, Optional, Sequence, Tuple, TypeVar, Union

from . import lines
from .commands import Commands, Raw
from .errors import BadQuality, Error, Gone, Lost, NoSuchName, NotStarted, Refused, TimedOut
from .lines import Line, Reader
from .ports import PORT_DATA, PORT_SUBSLOT, REAL_DATA
from .process import Connection, Process, Socket, not_listening, wait_for_socket
from .state import Plain, PlantState
from .values import Value, decode, encode

STATISTICS = 1.0  # seconds from one question for the statistics to the next
NEIGHBOURS = 10.0  # the same for the ports of a station
PAUSE = 0.1  # seconds after a question that was not answered
PORTS = 5.0  # seconds within which a station answers to that
READY = 30.0  # seconds within which each station exchanges data
LISTENING = 3.0  # seconds within which a controller opens its socket
SETTLE = 1.0  # seconds within which a device says that its data are good, after the exchange has begun
LISTED = 10  # names in a message
ALARMS = 1000  # alarms of a station that wait until they are fetched

Found = TypeVar("Found")


class Follower:
    """Takes the lines of a connection into a `PlantState`, and keeps it up to date: it asks for the statistics each second, for the ports of each
    station that exchanges data each 10 seconds (`neighbours`; None: never), and for the diagnoses after an alarm. `state` and `commands` are for
    the user; `on_line` is called with each line, by the thread that takes them, and must return at once. `may` are the lines that it may send, as
    `Commands` has them."""

    def __init__(self, connection: Connection, state: Optional[PlantState] = None, on_line: Optional[Callable[[Line], None]] = None,
                 neighbours: Optional[float] = NEIGHBOURS, may: Optional[FrozenSet[str]] = None) -> None:
        self.connection, self.neighbours = connection, neighbours
        self.state = state if state is not None else PlantState()
        self.reader = Reader()
        self.commands = Commands(connection, self.state, lambda: self.reader.only is None, may)
        self.ended = threading.Event()
        self.asked = threading.Event()  # the first questions were answered, or the controller has ended
        self.news = threading.Condition()  # notified after each line
        self._on_line = on_line
        self._wants_diagnosis: "set[str]" = set()
        self._nudge = threading.Event()  # there is something to ask at once
        self._wants_stations = False
        self._statistics_at = 0.0
        self._ports_at: Dict[str, float] = {}
        self._threads = [threading.Thread(target=work, name=name, daemon=True) for work, name in
                         ((self._take_lines, "nandutable state"), (self._ask_around, "nandutable questions"))]

    def start(self) -> None:
        """Begins to take lines."""
        self.state.begin()
        for thread in self._threads:
            thread.start()

    def join(self, timeout: float = 10) -> None:
        """Waits until the last line was read."""
        self.ended.wait(timeout)

    def _take_lines(self) -> None:
        try:
            for text in self.connection:
                self._take(self.reader.read(text))
        finally:
            self.state.end(self.connection.reason())
            self.commands.end()
            self.ended.set()
            self.asked.set()
            self._nudge.set()
            with self.news:
                self.news.notify_all()

    def _take(self, line: Line) -> None:
        self.state.take(line)
        self.commands.take(line)
        is_new = isinstance(line, lines.State) and line.state == "exchanging"
        if line.station is not None and (isinstance(line, lines.Alarm) or is_new):
            self._wants_diagnosis.add(line.station)
        self._wants_stations = self._wants_stations or is_new
        if self._wants_stations or self._wants_diagnosis:
            self._nudge.set()
        if self._on_line is not None:
            self._on_line(line)
        with self.news:
            self.news.notify_all()

    def _ask_around(self) -> None:
        while not self.asked.is_set():
            try:
                self.commands.refresh()
                self.asked.set()
            except Refused:
                self.asked.set()  # it has no signals: it runs without --signals
            except Error:
                self.ended.wait(STATISTICS)
        while not self.ended.is_set():
            try:
                self._ask_once()
            except Error:
                self.ended.wait(PAUSE)  # the controller has ended, or is too busy: the next time
            self._nudge.wait(STATISTICS)

    def _ask_once(self) -> None:
        self._nudge.clear()
        if self._wants_stations:
            self._wants_stations = False
            self.commands.stations()
        while self._wants_diagnosis:
            station = self._wants_diagnosis.pop()
            self.commands.diagnosis(station)
        if time.monotonic() >= self._statistics_at:
            self._statistics_at = time.monotonic() + STATISTICS
            self.commands.statistics()
        for station in self.state.station_names() if self.neighbours is not None else ():
            found = self.state.station(station)
            if found is not None and found["state"] == "exchanging" and time.monotonic() >= self._ports_at.get(station, 0):
                self._ports_at[station] = time.monotonic() + (self.neighbours or 0)
                self._ask_ports(station)

    def _ask_ports(self, station: str) -> None:
        """Reads the ports: PDRealData, or from a station that has no such record PDPortDataReal."""
        try:
            self.commands.read(station, 0, 1, REAL_DATA, PORTS)
        except Refused:
            self.commands.read(station, 0, PORT_SUBSLOT, PORT_DATA, PORTS)


# ---- Stations and signals


@dataclass(frozen=True)
class Reading:
    """A signal: its value, whether it is good, and when it changed last, in seconds since 1970; its unit, its text of the GSDML file, its type and
    its direction, input or output."""

    name: str
    value: Optional[Value]
    good: bool
    time: Optional[float]
    unit: str
    text: str
    type: str
    direction: str

    def __str__(self) -> str:
        """The value as in the line `set`, with its unit."""
        value = "-" if self.value is None else encode(self.value)
        return f"{self.name} = {value}{' ' + self.unit if self.unit else ''}{'' if self.good else ' (bad)'}"


@dataclass(frozen=True)
class Diagnosis:
    """A diagnosis of a submodule or of a channel (32768: the submodule itself), and its error in words."""

    slot: int
    subslot: int
    channel: int
    error: int
    text: str


def _reading(signal: Plain) -> Reading:
    kind = str(signal["type"])
    value = decode(kind, signal["raw"]) if signal["raw"] is not None and signal["type"] is not None else None
    return Reading(signal["name"], value, signal["good"], signal["time"], signal["unit"], signal["text"], kind, signal["direction"])


def _others(name: str, names: List[str]) -> str:
    """The names that are like a name, or else the first ones; empty without names."""
    near = difflib.get_close_matches(name, names, 3)
    if near:
        return f"; the nearest: {', '.join(near)}"
    return f"; there are {', '.join(names[:LISTED])}{' and others' if len(names) > LISTED else ''}" if names else ""


class Station:
    """A station. Its signals are attributes: `station.slot2_flow` is the value of an input or an output, `station.slot4_valves = 165` sets an output. A signal
    that has the name of a method is `station["read"]`."""

    _plant: "Plant"
    name: str

    def __init__(self, plant: "Plant", name: str) -> None:
        object.__setattr__(self, "_plant", plant)
        object.__setattr__(self, "name", name)

    # -- signals

    def __getitem__(self, signal: str) -> Value:
        """The value of a signal. Raises `BadQuality` if it is not good; `signal` has it then too."""
        found = self.signal(signal)
        if not found.good or found.value is None:
            raise BadQuality(f"{found.name} is not good: {self._why_bad()}")
        return found.value

    def __setitem__(self, signal: str, value: Union[Value, Raw]) -> None:
        """Sets an output. Raises `Refused` with the reason of the controller."""
        try:
            self._plant.commands.set(f"{self.name}.{signal}", value)
        except Refused:
            self.signal(signal)  # raises NoSuchName, with the nearest names, if that is the reason
            raise

    def __getattr__(self, signal: str) -> Value:
        if signal.startswith("_"):
            raise AttributeError(signal)
        return self[signal]

    def __setattr__(self, signal: str, value: Union[Value, Raw]) -> None:
        self[signal] = value

    def __iter__(self) -> Iterator[Reading]:
        """Each signal, in the order of the plan."""
        return iter([self.signal(name) for name in self.signals])

    def __repr__(self) -> str:
        return f"<station {self.name!r}, {self.state}>"

    @property
    def signals(self) -> List[str]:
        """The names of its signals, without that of the station."""
        front = f"{self.name}."
        return [name[len(front):] for name in self._plant.state.signal_names() if name.rpartition(".")[0] == self.name]

    def signal(self, signal: str) -> Reading:
        """A signal with its quality, time, unit, text, type and direction."""
        found = self._plant.state.signal(f"{self.name}.{signal}")
        if found is None or found["type"] is None:
            raise NoSuchName(f"{self.name} has no signal {signal!r}{_others(signal, self.signals) or '; it has none (the controller takes --signals)'}")
        return _reading(found)

    def _why_bad(self) -> str:
        return "the device says that its data are bad" if self.state == "exchanging" else self._ended() or f"no data is exchanged, the state is {self.state}"

    # -- its state

    @property
    def state(self) -> str:
        """One of `lines.STATES`: data is exchanged in `exchanging` alone."""
        return str(self.info["state"])

    @property
    def info(self) -> Plain:
        """What is known of it: state, since, mac, address, cause of the last end, ports with their neighbours, frames, interval, diagnosis. The keys
        are in `nandutable.state`."""
        found = self._plant.state.station(self.name)
        return found if found is not None else {"state": "ended", "cause": None, "diagnosis": []}

    @property
    def diagnosis(self) -> List[Diagnosis]:
        """The diagnoses that its alarms have reported in this relation."""
        return [Diagnosis(**one) for one in self.info["diagnosis"]]

    def _ended(self) -> Optional[str]:
        """Why it exchanges no data and will not start again by itself, or None."""
        info = self.info
        if info["state"] != "ended" or (self._plant.retries and self._plant.running):
            return None
        cause = info["cause"]
        return f"{self.name} has ended: {cause['text']}" if cause is not None else f"{self.name} has ended"

    # -- waiting

    def wait_state(self, state: str = "exchanging", timeout: Optional[float] = None) -> None:
        """Waits until it has this state."""
        self._plant.wait(lambda: self.state == state or None, timeout, f"{self.name} is not {state}, but {self.state}", self if state != "ended" else None)

    def wait_until(self, signal: str, condition: Callable[[Any], bool], timeout: Optional[float] = None) -> Value:
        """Waits until the signal is good and the condition holds for its value, and returns the value. The present value counts too. A value that
        is replaced before this program runs again is not seen."""
        self.signal(signal)

        def value() -> Optional[Tuple[Value]]:
            found = self.signal(signal)
            return (found.value,) if found.good and found.value is not None and condition(found.value) else None
        return self._plant.wait(value, timeout, f"{self.name}.{signal} is {self.signal(signal).value!r}", self)[0]

    def wait_change(self, signal: str, timeout: Optional[float] = None) -> Value:
        """Waits until the value of the signal is another one than now and good, and returns it."""
        before = self.signal(signal)

        def value() -> Optional[Tuple[Value]]:
            found = self.signal(signal)
            return (found.value,) if found.good and found.value is not None and (found.value != before.value or not before.good) else None
        return self._plant.wait(value, timeout, f"{self.name}.{signal} does not change", self)[0]

    def wait_alarm(self, timeout: Optional[float] = None) -> lines.Alarm:
        """Waits for the next alarm. Alarms that came since the start, or since the last call, are returned first, in their order; at most 1,000
        wait, and the oldest is dropped then."""
        return self._plant.wait(lambda: self._plant.take_alarm(self.name), timeout, f"{self.name} sends no alarm", self)

    def wait_diagnosis(self, timeout: Optional[float] = None) -> List[Diagnosis]:
        """Waits until the list of its diagnoses is another one than now, and returns it."""
        before = self.diagnosis

        def diagnosis() -> Optional[List[Diagnosis]]:
            now = self.diagnosis
            return now if now != before else None
        return self._plant.wait(diagnosis, timeout, f"the diagnosis of {self.name} does not change", self)

    # -- records and the relation

    def read(self, slot: int, subslot: int, index: int, timeout: float = 30) -> bytes:
        """Reads a record while data is exchanged, such as read(0, 1, 0xAFF0) for I&M0."""
        return self._plant.commands.read(self.name, slot, subslot, index, timeout)

    def write(self, slot: int, subslot: int, index: int, octets: bytes, timeout: float = 30) -> None:
        """Writes a record of at most 1,308 octets while data is exchanged."""
        self._plant.commands.write(self.name, slot, subslot, index, octets, timeout)

    def restart(self, timeout: Optional[float] = READY) -> None:
        """Releases the relation, starts it again with all its parameters, and waits until data is exchanged."""
        since = self.info["since"]
        self._plant.commands.restart(self.name)
        self._plant.wait(lambda: (self.state == "exchanging" and self.info["since"] != since) or None, timeout, f"{self.name} is {self.state}")


class Plant:
    """The stations of a controller, by their names: `plant["flow-7"]`. See the function `plant`."""

    def __init__(self, connection: Connection, ready: Optional[float] = READY, retries: bool = False) -> None:
        self.connection = connection
        self.retries = retries
        self.state = PlantState()
        self._alarms: Dict[str, Deque[Tuple[int, lines.Alarm]]] = {}  # of each station, with a number that rises
        self._alarm_count = 0
        self._follower = Follower(connection, self.state, self._hear)
        self.commands = self._follower.commands
        self._follower.start()
        try:
            self._wait_ready(ready)
        except BaseException:
            self.close()
            raise

    def _hear(self, line: Line) -> None:
        if isinstance(line, lines.Alarm) and line.station is not None:
            self._alarm_count += 1
            self._alarms.setdefault(line.station, collections.deque(maxlen=ALARMS)).append((self._alarm_count, line))

    def take_alarm(self, station: str) -> Optional[lines.Alarm]:
        """The oldest alarm of a station that was not fetched, or None."""
        waiting = self._alarms.get(station)
        return waiting.popleft()[1] if waiting else None

    def _take_any_alarm(self) -> Optional[lines.Alarm]:
        """The oldest alarm that was not fetched, of any station."""
        first = min(((waiting[0][0], name) for name, waiting in list(self._alarms.items()) if waiting), default=None)
        return None if first is None else self.take_alarm(first[1])

    # -- the start

    def _wait_ready(self, ready: Optional[float]) -> None:
        self._follower.asked.wait(READY)
        self._raise_if_gone()
        if ready is None:
            return
        ends = time.monotonic() + ready
        for station in self:
            try:
                station.wait_state("exchanging", max(0.0, ends - time.monotonic()))
            except TimedOut:
                waiting = station.info["waiting"]
                raise TimedOut(f"{station.name} does not exchange data within {ready:g} s: {waiting or 'the state is ' + station.state}") from None
        try:
            self.wait(lambda: all(reading.good for station in self for reading in station) or None, SETTLE, "")
        except TimedOut:
            pass  # the device says that data are bad

    def _raise_if_gone(self) -> None:
        if self.running:
            return
        status = self.connection.status
        kind = NotStarted if status is not None and status >= 64 else Gone
        causes = [found["cause"]["text"] for name in self.state.station_names() if (found := self.state.station(name)) is not None and found["cause"] is not None]
        raise kind(causes[0] if causes and kind is Gone else self.connection.reason(), status)

    # -- stations

    def __getitem__(self, name: str) -> Station:
        if name not in self.state.station_names():
            raise NoSuchName(f"there is no station {name!r}{_others(name, self.state.station_names()) or '; there is none'}")
        return Station(self, name)

    def __iter__(self) -> Iterator[Station]:
        return iter([Station(self, name) for name in self.state.station_names()])

    def __len__(self) -> int:
        return len(self.state.station_names())

    def __contains__(self, name: object) -> bool:
        return name in self.state.station_names()

    # -- waiting

    @property
    def running(self) -> bool:
        """Whether the controller runs, and the connection to it exists."""
        return not self._follower.ended.is_set()

    def wait(self, find: Callable[[], Optional[Found]], timeout: Optional[float], otherwise: str, station: Optional[Station] = None) -> Found:
        """Waits until `find` returns something else than None, and returns it; it is called after each line of the controller. Raises `TimedOut`
        with the text `otherwise`, `Gone` if the controller ends, and `Lost` if the relation of the station ends and nothing starts it again."""
        ends = None if timeout is None else time.monotonic() + timeout
        with self._follower.news:
            while True:
                found = find()
                if found is not None:
                    return found
                self._raise_if_gone()
                lost = None if station is None else station._ended()
                if lost is not None:
                    raise Lost(lost)
                left = None if ends is None else ends - time.monotonic()
                if left is not None and left <= 0:
                    raise TimedOut(f"{otherwise} (within {timeout:g} s)")
                self._follower.news.wait(left)

    def wait_alarm(self, timeout: Optional[float] = None) -> lines.Alarm:
        """The next alarm of any station, as `Station.wait_alarm`."""
        return self.wait(self._take_any_alarm, timeout, "no alarm comes")

    # -- the end

    def close(self) -> None:
        """Ends the controller, which releases its relations; a controller that was not started here goes on."""
        self.connection.close()
        self._follower.join()

    def __enter__(self) -> "Plant":
        return self

    def __exit__(self, *_: object) -> None:
        self.close()


# ---- Opening a plant

def program(name: str = "nandutable-controller") -> str:
    """The path of the controller: NANDUTABLE_CONTROLLER if it is set, else the one of the PATH, or of the folder where it is built or installed."""
    set_one = os.environ.get("NANDUTABLE_CONTROLLER")
    if set_one:
        return set_one
    found = shutil.which(name)
    here = os.path.dirname(os.path.realpath(__file__))
    others = [os.path.join(here, "..", "..", "build", name), f"/usr/local/sbin/{name}", f"/usr/sbin/{name}"]
    return found if found is not None else next((path for path in others if os.access(path, os.X_OK)), name)


def plant(*plans: str, interface: Optional[str] = None, socket: Optional[str] = None, ready: Optional[float] = READY, retry: Optional[int] = None,
          options: Sequence[str] = (), controller: Optional[str] = None, prefix: Sequence[str] = ()) -> Plant:
    """Opens a plant: starts a controller for these plans on a network interface, or uses the one that runs already at a socket.

        with nandutable.plant("flow.json", interface="eth2") as plant:
            print(plant["flow-7"].slot2_flow)

        with nandutable.plant(socket="/run/nandutable-controller/eth2/lines") as plant:

    Returns when each station exchanges data. Raises `TimedOut` after `ready` seconds, with what the controller waits for; with ready=None it does
    not wait. With `retry` a relation that has ended is started again after that many seconds. `options` are more words for the controller, such as
    ("--deadband", "slot2_flow=0.5"), `controller` is its path, and `prefix` are words in front of it. Starting a controller takes the capability
    CAP_NET_RAW, using a socket takes only the right to open it."""
    if (socket is None) == (interface is None) or (socket is None) == (not plans):
        raise ValueError("name plans and an interface, or a socket alone")
    if socket is not None:
        return Plant(_listening(socket), ready, retries=True)
    assert interface is not None
    more = () if retry is None else ("--retry", str(retry))
    return Plant(start(plans, interface, (*more, *options), controller, prefix), ready, retries=retry is not None)


def _listening(path: str) -> Socket:
    """The socket of a controller, which may be about to start."""
    try:
        return wait_for_socket(path, LISTENING)
    except OSError as fault:
        raise NotStarted(not_listening(path, fault)) from None


def start(plans: Sequence[str], interface: str, options: Sequence[str] = (), controller: Optional[str] = None,
          prefix: Sequence[str] = ()) -> Process:
    """Starts a controller for these plans with its signals. `options` are more of its words; `prefix` are words in front, such as
    ("ip", "netns", "exec", "office")."""
    words = [*prefix, controller or program(), interface, *plans, "--signals", "--times", "--end-with-input", *options]
    try:
        return Process(words)
    except OSError as fault:
        raise NotStarted(f"{words[0]}: {fault.strerror}") from None
