"""The bridge: what changes in a `PlantState` goes to the broker, and what the broker sends to `.../set` goes to the controller as commands.

A thread does all that is of MQTT, and another one asks the controller, one `set` after the other. Neither is waited for by the thread that
reads the controller's lines.

    bridge = Bridge(state, lambda: commands, Address("localhost"), Topics("nandutable"))
    bridge.start()
    ..
    bridge.stop()
"""

from __future__ import annotations

import queue
import threading
import time
from typing import Any, Callable, Dict, NamedTuple, Optional, Protocol, Union

from nandutable.commands import Commands, Raw
from nandutable.errors import Busy, Error, Gone, NotExchanging, Refused, TimedOut
from nandutable.state import PlantState

from . import topics as form
from .broker import Address, Broker
from .topics import BadValue, Plain, Topics

BEAT = 10.0  # seconds from one payload of the bridge's own state and of the statistics to the next
MOST_SETS = 100  # sets that wait for the controller
LATE = 2.0  # seconds after which a set that waits is refused: what it was meant for may be over
FAULTS = 10  # of this program that are logged
KNOWN_WITHIN = 10.0  # seconds after which the bridge is online, also if not each signal has a value yet


class Source(Protocol):
    """The commands of the controller that runs now, or None."""

    def __call__(self) -> Optional[Commands]:
        ...


class Asked(NamedTuple):
    """A set that was accepted from the broker."""

    name: str
    text: str
    identifier: Any
    at: float


class Rate:
    """At most that many per second, in bursts of at most that many."""

    def __init__(self, most: int, clock: Callable[[], float] = time.monotonic) -> None:
        self.most, self.clock = most, clock
        self._left, self._at = float(most), clock()

    def take(self) -> bool:
        """Whether there is room for one more."""
        now = self.clock()
        self._left = min(float(self.most), self._left + (now - self._at) * self.most)
        self._at = now
        if self._left < 1:
            return False
        self._left -= 1
        return True


def code_of(fault: Union[Error, ValueError]) -> str:
    """The word for a reason in an answer. Its text is the controller's."""
    if isinstance(fault, NotExchanging):
        return "no_relation"
    if isinstance(fault, Gone):
        return "no_controller"
    if isinstance(fault, TimedOut):
        return "no_answer"
    if isinstance(fault, Busy):
        return "busy"
    text = str(fault)
    return "unknown" if "no such signal" in text else "input" if text == "it is an input" else "value"


class Bridge:
    """See above. `on_state` is called with each text for the log."""

    def __init__(self, state: PlantState, commands: Source, address: Address, topics: Topics, sets_a_second: int = 100, is_read_only: bool = False,
                 on_state: Callable[[str], None] = lambda text: None) -> None:
        self.state, self.commands, self.topics, self._on_state = state, commands, topics, on_state
        self.broker = Broker(address, (topics.bridge, form.payload({"state": "offline"})), None if is_read_only else topics.sets, self._on_message, on_state)
        self.changes = state.subscribe(notify=self.broker.wake)
        self.sets = self.refused = self.faults = 0
        self._rate = Rate(sets_a_second)
        self._asked: "queue.Queue[Asked]" = queue.Queue(MOST_SETS)
        self._answers: "queue.SimpleQueue[tuple[Asked, Optional[Error]]]" = queue.SimpleQueue()
        self._beats_at = 0.0
        self._slow: Dict[str, bytes] = {}  # the newest statistics, which wait for the next beat
        self._began = time.monotonic()
        self._is_known = self._is_over = False
        self.ended = threading.Event()  # also if it fails: `fault` says why then
        self.fault: Optional[Exception] = None
        self._threads = [threading.Thread(target=work, name=name, daemon=True) for work, name in ((self._run, "nandutable mqtt"), (self._ask, "nandutable sets"))]

    def start(self) -> None:
        """Begins."""
        for thread in self._threads:
            thread.start()

    def stop(self, timeout: float = 5.0) -> None:
        """Publishes what waits and that the bridge is offline, and ends the connection."""
        self._is_over = True
        self.broker.wake()
        self._threads[0].join(timeout)
        self.state.unsubscribe(self.changes)

    # -- from the plant to the broker

    def _run(self) -> None:
        try:
            self._work()
        except Exception as fault:  # the program ends then, and says why
            self.fault = fault
        finally:
            self.ended.set()

    def _work(self) -> None:
        self._take_all(self.state.snapshot())
        while not self._is_over:
            self.broker.turn(max(0.0, self._beats_at - time.monotonic()))
            self._take_changes()
            self._take_answers()
            if time.monotonic() >= self._beats_at:
                self._beat()
        self._take_changes()
        self._take_answers()
        self.broker.close(form.payload({"state": "offline", "time": time.time()}))

    def _take_all(self, snapshot: Plain) -> None:
        self._put_controller(snapshot["controller"])
        for station in snapshot["stations"].values():
            self._put_station(station)
        for signal in snapshot["signals"].values():
            self._put_signal(signal)

    def _take_changes(self) -> None:
        for change in self.changes.take(0):
            if change.kind == "signal":
                self._put_signal(change.data)
            elif change.kind == "station":
                self._put_station(change.data)
            elif change.kind == "controller":
                self._put_controller(change.data)
            else:
                self.broker.say(*form.of_event(self.topics, change.kind, change.data))

    def _put_signal(self, signal: Plain) -> None:
        for topic, payload in form.of_signal(self.topics, signal):
            self.broker.put(topic, payload)

    def _put_station(self, station: Plain) -> None:
        for message in form.of_station(self.topics, station):
            self._put_part(*message)

    def _put_controller(self, controller: Plain) -> None:
        for message in form.of_controller(self.topics, controller):
            self._put_part(*message)

    def _put_part(self, topic: str, payload: bytes) -> None:
        """Statistics change each second, and are published with the next beat."""
        if topic.endswith(f"/_{form.STATISTICS}") and topic in self.broker.retained:
            self._slow[topic] = payload
        else:
            self.broker.put(topic, payload)

    def _beat(self) -> None:
        """Publishes the statistics, and that the bridge is online."""
        for message in self._slow.items():
            self.broker.put(*message)
        self._slow.clear()
        is_known = self._knows_all()
        # Until the plant is known, the broker may have values of an earlier bridge.
        self._beats_at = time.monotonic() + (BEAT if is_known else 0.1)
        counts = {"published": self.broker.published, "replaced": self.changes.merged + self.broker.replaced, "dropped": self.changes.dropped + self.broker.dropped,
                  "connections": self.broker.connections, "sets": self.sets, "sets_refused": self.refused, "faults": self.faults}
        self.broker.put(self.topics.bridge, form.payload({"state": "online", "time": time.time(), **counts} if is_known else {"state": "starting"}))

    def _knows_all(self) -> bool:
        """Whether each signal has had a value since the start, or time is up. It stays so."""
        if not self._is_known:
            signals = self.state.snapshot()["signals"].values()
            is_whole = bool(signals) and all(signal["raw"] is not None for signal in signals)
            is_late = self.commands() is not None and time.monotonic() - self._began > KNOWN_WITHIN
            if is_late and not signals:
                self._on_state("the controller names no signal: it must run with --signals")
            self._is_known = is_whole or is_late
        return self._is_known

    # -- from the broker to the plant

    def _on_message(self, topic: str, payload: bytes, is_retained: bool) -> None:
        try:
            name = self.topics.name_of_set(topic)
            if name is not None and payload:  # an empty payload is how a retained message is removed
                self._take_set(name, payload, is_retained)
        except Exception as fault:
            self._dropped(f"a message for {topic!r:.200}", fault)

    def _dropped(self, what: str, fault: Exception) -> None:
        """A fault of this program may cost a message, and never the connection or the bridge."""
        self.faults += 1
        if self.faults <= FAULTS:
            self._on_state(f"a fault of this program: {what} was dropped: {type(fault).__name__}: {fault}")

    def _take_set(self, name: str, payload: bytes, is_retained: bool) -> None:
        self.sets += 1
        identifier = None
        try:
            if is_retained:
                raise _No("retained", "a retained set is ignored: it would be done again at each start of the bridge")
            if not self._rate.take():
                raise _No("busy", f"more than {self._rate.most} sets a second")
            value, identifier = form.read_set(payload)
            self._asked.put_nowait(self._judged(name, value, identifier))
        except _No as no:
            self._answer(name, identifier, no.code, str(no))
        except BadValue as fault:
            self._answer(name, identifier, "value", str(fault))
        except queue.Full:
            self._answer(name, identifier, "busy", f"{MOST_SETS} sets wait for the controller")

    def _judged(self, name: str, value: Any, identifier: Any) -> Asked:
        signal = self.state.signal(name)
        if signal is None:
            raise _No("unknown", "there is no such signal")
        if self.commands() is None:
            raise _No("no_controller", "the controller does not run")
        if signal["type"] is None:
            raise _No("no_controller", "the type of the signal is not known yet")
        return Asked(name, form.text_of(signal["type"], value), identifier, time.monotonic())

    def _ask(self) -> None:
        """Asks the controller, one set after the other."""
        while True:
            asked = self._asked.get()
            self._answers.put((asked, self._fault_of(asked)))
            self.broker.wake()

    def _fault_of(self, asked: Asked) -> Optional[Error]:
        """Asks the controller. Returns why it refuses, None if it has the value."""
        commands = self.commands()
        if commands is None:
            return Gone("the controller does not run")
        if time.monotonic() - asked.at > LATE:
            return Busy(f"the controller had other sets to do for more than {LATE:g} s")
        try:
            commands.set(asked.name, Raw(asked.text))
        except Error as fault:
            return fault
        except Exception as fault:
            self._dropped(f"a set of {asked.name}", fault)
            return Refused(f"a fault of the bridge: {type(fault).__name__}")
        return None

    def _take_answers(self) -> None:
        while not self._answers.empty():
            asked, fault = self._answers.get()
            if fault is None:
                self._answer(asked.name, asked.identifier, None, "")
            else:
                self._answer(asked.name, asked.identifier, code_of(fault), str(fault))

    def _answer(self, name: str, identifier: Any, code: Optional[str], reason: str) -> None:
        self.refused += code is not None
        told: Plain = {"ok": code is None, "time": time.time()}
        if code is not None:
            told.update(code=code, reason=reason)
        if identifier is not None:
            told["id"] = identifier
        self.broker.answer(self.topics.signal(name, form.ANSWER), form.payload(told))


class _No(Exception):
    """A set that is refused before the controller is asked."""

    def __init__(self, code: str, reason: str) -> None:
        super().__init__(reason)
        self.code = code
