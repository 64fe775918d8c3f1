"""A bounded picture of the plant, made of the controller's lines.

`PlantState.take` takes each `lines.Line`. `snapshot()` is the picture as plain values for JSON. `subscribe()` gives what changes from then on.
The picture has as many entries as the plant has stations and signals; alarms and messages are the newest ones, `most` of each. Its methods
may be called by any thread.

The snapshot (times are seconds since 1970; what is not known yet is null):

    {"time": .., "controller": {"running": true, "interface": "eth2", "mac": "..", "link": true, "link_reason": "", "neighbour": {"mac", "port",
                    "chassis"} or null, "ended": null or the reason in words, "frames": {"received", "sent", "not_sent", "missed"} or null,
                    "stalls": 0, "lines_lost": 0, "seconds": ..},
     "stations": {NAME: {"name", "state", "since", "mac", "address", "interval_us", "cause": null or {"number", "text", "time"},
                    "waiting": null or words, "modules": [{"slot", "subslot" (null: the module), "text"}], "ports": [{"name", "slot", "subslot", "peers": [{"port", "station", "mac"}]}], "received", "lost",
                    "interval": {"p50", "p99", "max"} or null, "jitter": the same,
                    "diagnosis": [{"slot", "subslot", "channel", "error", "text"}], "diagnosis_left_out": 0}},
     "signals": {STATION.SIGNAL: {"name", "station", "signal", "value", "raw", "good", "time", "type", "unit", "text", "direction", "slot",
                    "subslot", "octet", "bit", "length"}},
     "alarms": [{"number", "time", "station", "type", "slot", "subslot", "specifier", "octets", "priority", "text"}], oldest first,
     "messages": [{"number", "time", "station", "kind", "text"}], oldest first; kind is warning, stall, ended, refused or link,
     "alarms_dropped": 0, "messages_dropped": 0}

`value` is as `values.plain` makes it; `raw` is the text of the line. `good` is false while nothing is known of a signal.
"""

from __future__ import annotations

import collections
import threading
import time
from dataclasses import dataclass
from typing import Any, Callable, Deque, Dict, List, Optional, Tuple, Type

from . import lines, values
from .ports import PORT_DATA, REAL_DATA, read_ports

Plain = Dict[str, Any]

MOST = 200  # alarms, and messages, that are kept
MODULES = 10000  # names of modules and submodules of a station
DIAGNOSES = 1000  # of a station; the controller lists at most 256
WAITING = 1000  # alarms and messages that wait for a subscriber


@dataclass(frozen=True)
class Change:
    """A part of the picture that has changed. `kind` is controller, station, signal, alarm or message; `key` is the name of the station or of the
    signal, or the number of the alarm or message; `data` is the part as in the snapshot."""

    kind: str
    key: str
    data: Plain


class Changes:
    """What a subscriber has not fetched yet. Of the controller, each station and each signal only the newest is kept; of alarms and messages at most
    `most`: if more wait, the oldest is dropped, and `dropped` counts it. `notify` is called, without arguments and by the thread that takes
    lines, when there is something after there was nothing; it must return at once."""

    def __init__(self, most: int = WAITING, notify: Optional[Callable[[], None]] = None) -> None:
        self.most, self.notify = most, notify
        self.merged = self.dropped = 0
        self._parts: "collections.OrderedDict[Tuple[str, str], Change]" = collections.OrderedDict()
        self._events: Deque[Change] = collections.deque()
        self._news = threading.Condition()

    def put(self, change: Change) -> None:
        with self._news:
            was_empty = not self._parts and not self._events
            if change.kind in ("alarm", "message"):
                self._events.append(change)
                if len(self._events) > self.most:
                    self._events.popleft()
                    self.dropped += 1
            else:
                self.merged += (change.kind, change.key) in self._parts
                self._parts[change.kind, change.key] = change
            self._news.notify_all()
        if was_empty and self.notify is not None:
            try:
                self.notify()
            except Exception:  # its program is ending: the lines are still read for the others
                self.notify = None

    def take(self, timeout: Optional[float] = 0) -> List[Change]:
        """Returns all that waits, and an empty list if nothing comes within `timeout` seconds (None: without a limit)."""
        with self._news:
            self._news.wait_for(lambda: self._parts or self._events, timeout)
            taken = [*self._parts.values(), *self._events]
            self._parts.clear()
            self._events.clear()
            return taken


def _station(name: str) -> Plain:
    return {"name": name, "state": None, "since": None, "mac": None, "address": None, "interval_us": None, "cause": None, "waiting": None, "modules": [], "ports": [],
            "received": 0, "lost": 0, "interval": None, "jitter": None, "diagnosis": [], "diagnosis_left_out": 0}


def _signal(name: str) -> Plain:
    station, _, signal = name.rpartition(".")
    return {"name": name, "station": station, "signal": signal, "value": None, "raw": None, "good": False, "time": None, "type": None, "unit": "",
            "text": "", "direction": None, "slot": None, "subslot": None, "octet": None, "bit": None, "length": None}


class PlantState:
    """The picture."""

    def __init__(self, most: int = MOST, clock: Callable[[], float] = time.time) -> None:
        self.most, self.clock = most, clock
        self._lock = threading.RLock()
        self._controller: Plain = {"running": True, "interface": None, "mac": None, "link": True, "link_reason": "", "neighbour": None, "ended": None,
                                   "frames": None, "stalls": 0, "lines_lost": 0, "seconds": None}
        self._stations: Dict[str, Plain] = {}
        self._signals: Dict[str, Plain] = {}
        self._alarms: Deque[Plain] = collections.deque(maxlen=most)
        self._messages: Deque[Plain] = collections.deque(maxlen=most)
        self._dropped = {"alarm": 0, "message": 0}
        self._numbers = {"alarm": 0, "message": 0}
        self._listed: Dict[str, List[Plain]] = {}  # a list of diagnoses that is being read
        self._subscribers: List[Changes] = []
        self._takers: Dict[Type[lines.Line], Callable[[Any, float], None]] = {
            lines.Signal: self._take_signal, lines.Name: self._take_name, lines.Module: self._take_module, lines.Introduced: self._take_introduced, lines.Station: self._take_station,
            lines.State: self._take_state, lines.Ended: self._take_ended, lines.Alarm: self._take_alarm, lines.Diagnosis: self._take_diagnosis,
            lines.NoDiagnosis: self._take_no_diagnosis, lines.DiagnosisLeftOut: self._take_left_out, lines.Record: self._take_record,
            lines.RecordRefused: self._take_refused, lines.Link: self._take_link, lines.Neighbour: self._take_neighbour,
            lines.Waiting: self._take_waiting, lines.Warned: self._take_warned, lines.Stalled: self._take_stalled, lines.Seconds: self._take_seconds,
            lines.Frames: self._take_frames, lines.Cyclic: self._take_cyclic, lines.Interval: self._take_interval, lines.Jitter: self._take_jitter,
            lines.Times: self._take_times, lines.Count: self._take_count}

    # -- for its users

    def take(self, line: lines.Line) -> None:
        """Takes a line into the picture. A line that says nothing about it is ignored."""
        taker = self._takers.get(type(line))
        if taker is not None:
            with self._lock:
                taker(line, self.clock())

    def end(self, reason: str) -> None:
        """The controller has ended, or the connection to it: nothing is exchanged, and each signal is bad."""
        with self._lock:
            now = self.clock()
            if not self._controller["running"]:
                return
            self._controller.update(running=False, ended=reason)
            for station in self._stations.values():
                if station["state"] != "ended":
                    station.update(state="ended", since=now, waiting=None, cause={"number": None, "text": reason, "time": now})
                    self._changed("station", station["name"], station)
            for signal in self._signals.values():
                if signal["good"]:
                    signal.update(good=False, time=now)
                    self._changed("signal", signal["name"], signal)
            self._message("ended", None, reason, now)
            self._changed("controller", "", self._controller)

    def begin(self) -> None:
        """The controller runs again after an `end`."""
        with self._lock:
            self._controller.update(running=True, ended=None)
            self._changed("controller", "", self._controller)

    def snapshot(self) -> Plain:
        """The picture, as a copy of its own."""
        with self._lock:
            return {"time": self.clock(), "controller": _copy(self._controller), "stations": _copy(self._stations), "signals": _copy(self._signals),
                    "alarms": _copy(list(self._alarms)), "messages": _copy(list(self._messages)), "alarms_dropped": self._dropped["alarm"],
                    "messages_dropped": self._dropped["message"]}

    def subscribe(self, most: int = WAITING, notify: Optional[Callable[[], None]] = None) -> Changes:
        """What changes from now on. Take the snapshot after it, so that nothing is missed."""
        changes = Changes(most, notify)
        with self._lock:
            self._subscribers.append(changes)
        return changes

    def unsubscribe(self, changes: Changes) -> None:
        with self._lock:
            if changes in self._subscribers:
                self._subscribers.remove(changes)

    def station(self, name: str) -> Optional[Plain]:
        """A station of the snapshot, or None."""
        with self._lock:
            found = self._stations.get(name)
            return None if found is None else dict(_copy(found))

    def signal(self, name: str) -> Optional[Plain]:
        """A signal of the snapshot, or None."""
        with self._lock:
            found = self._signals.get(name)
            return None if found is None else dict(_copy(found))

    def station_names(self) -> List[str]:
        """The names of the stations, in the order of the plans."""
        with self._lock:
            return list(self._stations)

    def signal_names(self) -> List[str]:
        """The names of the signals, in the order of `names`."""
        with self._lock:
            return list(self._signals)

    # -- changes

    def _changed(self, kind: str, key: str, data: Plain) -> None:
        if self._subscribers:
            change = Change(kind, key, _copy(data))
            for subscriber in self._subscribers:
                subscriber.put(change)

    def _event(self, kind: str, kept: Deque[Plain], data: Plain) -> None:
        self._numbers[kind] += 1
        self._dropped[kind] += len(kept) == kept.maxlen
        data = {"number": self._numbers[kind], **data}
        kept.append(data)
        self._changed(kind, str(data["number"]), data)

    def _message(self, kind: str, station: Optional[str], text: str, now: float) -> None:
        self._event("message", self._messages, {"time": now, "station": station, "kind": kind, "text": text})

    def _of(self, line: lines.Line) -> Optional[Plain]:
        """The station of a line."""
        if line.station is None:
            return None
        return self._stations.setdefault(line.station, _station(line.station))

    def _update(self, line: lines.Line, **parts: Any) -> None:
        """Changes parts of the line's station."""
        station = self._of(line)
        if station is not None and any(station[key] != value for key, value in parts.items()):
            station.update(parts)
            self._changed("station", station["name"], station)

    def _update_controller(self, **parts: Any) -> None:
        if any(self._controller[key] != value for key, value in parts.items()):
            self._controller.update(parts)
            self._changed("controller", "", self._controller)

    # -- lines

    def _take_signal(self, line: lines.Signal, now: float) -> None:
        signal = self._signals.setdefault(line.name, _signal(line.name))
        at = line.time if line.time is not None else now
        if line.raw == signal["raw"] and line.good == signal["good"]:
            return  # an answer to `get`, which says nothing new
        signal.update(raw=line.raw, value=_value(signal["type"], line.raw), good=line.good, time=at)
        self._changed("signal", line.name, signal)

    def _take_name(self, line: lines.Name, _: float) -> None:
        signal = self._signals.setdefault(line.name, _signal(line.name))
        self._of(line)
        told = {"type": line.type, "unit": line.unit, "text": line.label, "direction": line.direction, "slot": line.slot, "subslot": line.subslot,
                "octet": line.octet, "bit": line.bit, "length": line.length}
        if any(signal[key] != value for key, value in told.items()):
            signal.update(told)
            if signal["raw"] is not None:
                signal["value"] = _value(line.type, signal["raw"])
            self._changed("signal", line.name, signal)

    def _take_module(self, line: lines.Module, _: float) -> None:
        station = self._of(line)
        assert station is not None
        told = {"slot": line.slot, "subslot": line.subslot, "text": line.label}
        others = [one for one in station["modules"] if (one["slot"], one["subslot"]) != (line.slot, line.subslot)]
        if told not in station["modules"] and len(others) < MODULES:
            self._update(line, modules=[*others, told])

    def _take_introduced(self, line: lines.Introduced, _: float) -> None:
        self._update_controller(interface=line.interface, mac=line.mac)
        self._update(line, interval_us=line.interval_us)

    def _take_station(self, line: lines.Station, now: float) -> None:
        station = self._of(line)
        assert station is not None
        parts: Plain = {"mac": line.mac, "address": line.address, "interval_us": line.interval_us}
        if station["state"] != line.state:
            parts.update(state=line.state, since=now)
        if line.cause is not None and station["cause"] is None:
            parts.update(cause={"number": line.cause, "text": lines.CAUSES.get(line.cause, ""), "time": now})
        self._update(line, **parts)

    def _take_state(self, line: lines.State, now: float) -> None:
        station = self._of(line)
        if station is None or station["state"] == line.state:
            return  # an answer to another line
        if line.state == "exchanging" or station["state"] == "exchanging":
            self._listed.pop(station["name"], None)
            station.update(diagnosis=[], diagnosis_left_out=0)
        self._update(line, state=line.state, since=now, waiting=None)

    def _take_ended(self, line: lines.Ended, now: float) -> None:
        cause = {"number": line.cause, "text": line.reason, "time": now}
        self._update(line, state="ended", since=now, waiting=None, cause=cause, diagnosis=[], diagnosis_left_out=0)
        self._message("ended", line.station, line.reason, now)

    def _take_alarm(self, line: lines.Alarm, now: float) -> None:
        self._event("alarm", self._alarms, {"time": now, "station": line.station, "type": line.type, "slot": line.slot, "subslot": line.subslot,
                                            "specifier": line.specifier, "octets": line.octets.hex(), "priority": line.priority, "text": line.words})

    def _take_diagnosis(self, line: lines.Diagnosis, _: float) -> None:
        listed = self._listed.setdefault(line.station or "", [])
        if len(listed) < DIAGNOSES:
            listed.append({"slot": line.slot, "subslot": line.subslot, "channel": line.channel, "error": line.error, "text": line.words})

    def diagnosis_listed(self, station: str) -> None:
        """The list of diagnoses of a station is complete: the lines since the last call are the list. `Commands.diagnosis` calls it."""
        with self._lock:
            found = self._stations.get(station)
            if found is not None:
                listed = self._listed.pop(station, [])
                if found["diagnosis"] != listed:
                    found["diagnosis"] = listed
                    self._changed("station", station, found)

    def _take_no_diagnosis(self, line: lines.NoDiagnosis, _: float) -> None:
        self._listed.pop(line.station or "", None)
        self._update(line, diagnosis=[], diagnosis_left_out=0)

    def _take_left_out(self, line: lines.DiagnosisLeftOut, _: float) -> None:
        self._update(line, diagnosis_left_out=line.count)

    def _take_record(self, line: lines.Record, _: float) -> None:
        if line.index not in (REAL_DATA, PORT_DATA):
            return
        try:
            ports = read_ports(line.octets)
        except ValueError:
            return
        self._update(line, ports=[{"name": port.name, "slot": port.slot, "subslot": port.subslot, "peers": [
            {"port": peer.port, "station": peer.station, "mac": peer.mac} for peer in port.peers]} for port in ports])

    def _take_refused(self, line: lines.RecordRefused, now: float) -> None:
        self._message("refused", line.station, line.reason, now)

    def _take_link(self, line: lines.Link, now: float) -> None:
        if line.up != self._controller["link"]:
            self._message("link", None, "link up" if line.up else f"link down ({line.reason})", now)
        self._update_controller(link=line.up, link_reason=line.reason)

    def _take_neighbour(self, line: lines.Neighbour, _: float) -> None:
        neighbour = None if line.mac is None else {"mac": line.mac, "port": line.port, "chassis": line.chassis}
        self._update_controller(neighbour=neighbour)

    def _take_waiting(self, line: lines.Waiting, _: float) -> None:
        self._update(line, waiting=line.reason)

    def _take_warned(self, line: lines.Warned, now: float) -> None:
        self._message("warning", line.station, line.reason, now)

    def _take_stalled(self, line: lines.Stalled, now: float) -> None:
        self._message("stall", None, line.reason, now)

    def _take_seconds(self, line: lines.Seconds, _: float) -> None:
        self._controller["seconds"] = line.seconds  # it always changes, so it is no change

    def _take_frames(self, line: lines.Frames, _: float) -> None:
        self._update_controller(frames={"received": line.received, "sent": line.sent, "not_sent": line.not_sent, "missed": line.missed})

    def _take_cyclic(self, line: lines.Cyclic, _: float) -> None:
        self._update(line, received=line.received, lost=line.lost)

    def _take_interval(self, line: lines.Interval, _: float) -> None:
        self._update(line, interval={"p50": line.p50, "p99": line.p99, "max": line.most})

    def _take_jitter(self, line: lines.Jitter, _: float) -> None:
        self._update(line, jitter={"p50": line.p50, "p99": line.p99, "max": line.most})

    def _take_times(self, line: lines.Times, _: float) -> None:
        self._update_controller(stalls=line.stalls)

    def _take_count(self, line: lines.Count, _: float) -> None:
        if line.what == "lines lost":
            self._update_controller(lines_lost=line.count)


def _value(kind: Optional[str], raw: str) -> Any:
    """The value for JSON; while the type is not known, the text itself."""
    if kind is None:
        return raw
    try:
        return values.plain(values.decode(kind, raw))
    except ValueError:
        return raw


def _copy(data: Any) -> Any:
    """A copy of plain values: what a reader gets does not change."""
    if isinstance(data, dict):
        return {key: _copy(value) for key, value in data.items()}
    if isinstance(data, list):
        return [_copy(value) for value in data]
    return data
