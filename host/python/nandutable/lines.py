"""The lines that nandutable-controller prints, as values.

`Reader.read` makes a `Line` of each line. Which line it is, is said by its class; a line that is not known here is an `Unknown`, and never an
error. The grammar is in docs/LINES.md.

    >>> Reader().read("pump-1.level = 12 good")
    Signal(text='pump-1.level = 12 good', station='pump-1', name='pump-1.level', raw='12', good=True, time=None)
"""

from __future__ import annotations

import re
from dataclasses import dataclass, replace
from typing import Callable, Dict, List, Optional, Tuple

STATES = ("looking", "addressing", "connecting", "writing", "ending", "waiting", "exchanging", "ended")

# What is known of a submodule of the plan.
PLACES = ("there", "differs", "gone", "wrong", "plugged", "ending", "refused")

# The causes of the line `ended`. The exit status of the controller is one of these too.
CAUSES = {
    1: "the station is of another VendorID or DeviceID than the plan says",
    2: "the device refused a request",
    3: "what is plugged in the device is not what the plan expects",
    4: "no cyclic frame of the device came within the data hold time",
    5: "the device ended the relation",
    6: "the device did not acknowledge an alarm's AlarmAck",
    7: "stopped",
    8: "no progress within the patience",
}


@dataclass(frozen=True)
class Line:
    """A line as it was printed, without the line feed, and the name of the station that it is about. The name is None if the line is about the
    controller, or if there is one station alone and its name is not known yet."""

    text: str
    station: Optional[str]


# ---- Signals


@dataclass(frozen=True)
class Signal(Line):
    """`STATION.SIGNAL = VALUE good|bad [TIME]`. `name` is STATION.SIGNAL, `raw` is VALUE as printed (`values.decode` makes a value of it), `time`
    is in seconds since 1970, or None without --times."""

    name: str
    raw: str
    good: bool
    time: Optional[float]


@dataclass(frozen=True)
class SetDone(Line):
    """`ok set STATION.SIGNAL`: the output has the value."""

    name: str


@dataclass(frozen=True)
class SetRefused(Line):
    """`refused set NAME: TEXT`: nothing has changed. `name` is the one that was asked for."""

    name: str
    reason: str


@dataclass(frozen=True)
class GetRefused(Line):
    """`refused get NAME: TEXT`: there is no such signal."""

    name: str
    reason: str


@dataclass(frozen=True)
class Name(Line):
    """`name STATION.SIGNAL input|output TYPE LENGTH SLOT SUBSLOT OCTET BIT UNIT TEXT`. In `type` the blanks of GSDML's name are blanks again.
    `bit` is None if the signal has whole octets. `label` is the text of the GSDML file."""

    name: str
    direction: str
    type: str
    length: int
    slot: int
    subslot: int
    octet: int
    bit: Optional[int]
    unit: str
    label: str


@dataclass(frozen=True)
class Names(Line):
    """`names N`: the end of the answer to `names`."""

    count: int


@dataclass(frozen=True)
class Got(Line):
    """`got N`: the end of the answer to `get *`."""

    count: int


@dataclass(frozen=True)
class Module(Line):
    """`module STATION SLOT SUBSLOT|- "TEXT"`: the name of a module by its catalogue, or of one of its submodules. Without `subslot` it is the name of the module."""

    slot: int
    subslot: Optional[int]
    label: str


@dataclass(frozen=True)
class Modules(Line):
    """`modules N`: the end of the answer to `modules`."""

    count: int


# ---- Stations


@dataclass(frozen=True)
class Introduced(Line):
    """`controller MAC on IFACE, for the station 'STATION', interval N us`, once for each plan."""

    mac: str
    interface: str
    interval_us: int


@dataclass(frozen=True)
class Station(Line):
    """`station NAME MAC ADDRESS INTERVAL STATE [CAUSE]`: a line of the answer to `stations`. `mac` is None if the station was not found yet, `cause`
    is None unless the state is ended."""

    mac: Optional[str]
    address: str
    interval_us: int
    state: str
    cause: Optional[int]


@dataclass(frozen=True)
class Stations(Line):
    """`stations N`: the end of the answer to `stations`."""

    count: int


@dataclass(frozen=True)
class State(Line):
    """`state STATE`: one of STATES."""

    state: str


@dataclass(frozen=True)
class Ended(Line):
    """`ended N: TEXT`: the relation has ended."""

    cause: int
    reason: str


@dataclass(frozen=True)
class Octets(Line):
    """`input SLOT SUBSLOT HEX`, or `give SLOT SUBSLOT HEX` of the answer to `show`. `what` is the first word."""

    what: str
    slot: int
    subslot: int
    octets: bytes


@dataclass(frozen=True)
class Provider(Line):
    """`provider SLOT SUBSLOT IOPS run|stop`."""

    slot: int
    subslot: int
    iops: int
    runs: bool


@dataclass(frozen=True)
class Submodule(Line):
    """`submodule SLOT SUBSLOT WORD`. `known` is one of `PLACES`."""

    slot: int
    subslot: int
    known: str


@dataclass(frozen=True)
class Alarm(Line):
    """`alarm TYPE SLOT SUBSLOT SPECIFIER HEX (TEXT)`. `priority` is low or high; `words` are the rest of TEXT: the type in words, the structure and
    the channels of a diagnosis."""

    type: int
    slot: int
    subslot: int
    specifier: int
    octets: bytes
    priority: str
    words: str


@dataclass(frozen=True)
class RecordRefused(Line):
    """`refused record SLOT SUBSLOT INDEX: TEXT`: the device refused a record of the plan, and the controller goes on."""

    slot: int
    subslot: int
    index: int
    reason: str


# ---- Diagnosis


@dataclass(frozen=True)
class Diagnosis(Line):
    """`diagnosis SLOT SUBSLOT CHANNEL ERROR (TEXT)`. Channel 32768 is the submodule itself."""

    slot: int
    subslot: int
    channel: int
    error: int
    words: str


@dataclass(frozen=True)
class NoDiagnosis(Line):
    """`diagnosis -`: the list is empty."""


@dataclass(frozen=True)
class DiagnosisLeftOut(Line):
    """`diagnosis left out N: ..`: as many found no room in the list."""

    count: int


@dataclass(frozen=True)
class DiagnosisOnly(Line):
    """`diagnosis only in the alarms: ..` or `.. the record: ..`. `where` is alarms or record."""

    where: str
    slot: int
    subslot: int
    channel: int
    error: int
    words: str


@dataclass(frozen=True)
class DiagnosisCompared(Line):
    """`diagnosis 0xE00C the same|different: N by alarms, N in the record[, N of another structure]`."""

    index: int
    same: bool
    by_alarms: int
    in_record: int
    others: int


@dataclass(frozen=True)
class DiagnosisRefused(Line):
    """`diagnosis 0xE00C refused: STATUS`, or `.. not compared: TEXT`."""

    index: int
    reason: str


# ---- Records


@dataclass(frozen=True)
class Record(Line):
    """`read SLOT SUBSLOT INDEX HEX`: the record that was asked for."""

    slot: int
    subslot: int
    index: int
    octets: bytes


@dataclass(frozen=True)
class Written(Line):
    """`write SLOT SUBSLOT INDEX done`."""

    slot: int
    subslot: int
    index: int


@dataclass(frozen=True)
class AccessRefused(Line):
    """`read|write SLOT SUBSLOT INDEX refused: STATUS`, or `.. dropped: TEXT` if the relation has ended. `verb` is read or write."""

    verb: str
    slot: int
    subslot: int
    index: int
    reason: str


# ---- The controller and its wire


@dataclass(frozen=True)
class Link(Line):
    """`link up`, or `link down (TEXT)`."""

    up: bool
    reason: str


@dataclass(frozen=True)
class Neighbour(Line):
    """`neighbour MAC port 'PORT' of 'CHASSIS'`, the station at the other end of the controller's cable. For `neighbour -` all three are None."""

    mac: Optional[str]
    port: Optional[str]
    chassis: Optional[str]


@dataclass(frozen=True)
class Waiting(Line):
    """`waiting N s: TEXT`."""

    seconds: int
    reason: str


@dataclass(frozen=True)
class Warned(Line):
    """`warning: TEXT`."""

    reason: str


@dataclass(frozen=True)
class Stalled(Line):
    """`stall: TEXT`."""

    reason: str


@dataclass(frozen=True)
class Wrong(Line):
    """`wrong: TEXT`: the answer to a line that is not accepted."""

    reason: str


# ---- Statistics


@dataclass(frozen=True)
class Seconds(Line):
    """`statistics seconds N`: since the start."""

    seconds: int


@dataclass(frozen=True)
class Frames(Line):
    """`frames received N sent N not-sent N missed N`."""

    received: int
    sent: int
    not_sent: int
    missed: int


@dataclass(frozen=True)
class Cyclic(Line):
    """`cyclic received N lost N`: the cyclic frames of the station. Lost are the gaps of its CycleCounter."""

    received: int
    lost: int


@dataclass(frozen=True)
class Interval(Line):
    """`interval count N p50 N p99 N max N us`: from one cyclic frame to the next, in microseconds."""

    count: int
    p50: int
    p99: int
    most: int


@dataclass(frozen=True)
class Jitter(Line):
    """`jitter p50 N p99 N max N us`."""

    p50: int
    p99: int
    most: int


@dataclass(frozen=True)
class Times(Line):
    """`time units N forgotten N stalls N most-at-once N`."""

    units: int
    forgotten: int
    stalls: int
    most_at_once: int


@dataclass(frozen=True)
class Count(Line):
    """Another count of the statistics: `frames for no station N`, `wakes N`, `neighbours not reported N`, `lines lost N`. `what` is the text in
    front of the number. `lines lost` is the last line of the statistics of all stations."""

    what: str
    count: int


@dataclass(frozen=True)
class Status(Line):
    """`status TEXT` of the answer to `show`."""

    words: str


@dataclass(frozen=True)
class Unknown(Line):
    """A line of another form."""


# ---- Reading

Maker = Callable[["re.Match[str]", str, Optional[str]], Line]

_MAC = r"((?:[0-9a-f]{2}:){5}[0-9a-f]{2})"
_PLACE = r"(\d+) (\d+) (\d+)"
_HEX = r"((?:[0-9a-f]{2})+|-)"
_QUOTED = r'"((?:[^"\\]|\\.)*)"'
_VALUE = re.compile(r"(\S+) = (.*) (good|bad)(?: (\d+\.\d+))?")


def _octets(text: str) -> bytes:
    return b"" if text == "-" else bytes.fromhex(text)


def _unquoted(text: str) -> str:
    return re.sub(r"\\(.)", r"\1", text)


def station_of(name: str) -> str:
    """The station of a full name: the part in front of the last dot."""
    return name.rpartition(".")[0]


def _name(found: "re.Match[str]", text: str, _: Optional[str]) -> Line:
    name, direction, kind, *numbers, bit, unit, label = found.groups()
    length, slot, subslot, octet = (int(number) for number in numbers)
    # Of GSDML's types only those of a time of day or a difference have blanks; others have an underscore of their own.
    kind = kind.replace("_", " ") if "_with" in kind else kind
    return Name(text, station_of(name), name, direction, kind, length, slot, subslot, octet, None if bit == "-" else int(bit),
                _unquoted(unit), _unquoted(label))


def _alarm(found: "re.Match[str]", text: str, station: Optional[str]) -> Line:
    kind, slot, subslot, specifier = (int(number) for number in found.groups()[:4])
    return Alarm(text, station, kind, slot, subslot, specifier, _octets(found[5]), found[6], found[7])


def _access_refused(found: "re.Match[str]", text: str, station: Optional[str]) -> Line:
    return AccessRefused(text, station, found[1], int(found[2]), int(found[3]), int(found[4]), found[5])


def _numbers(kind: Callable[..., Line]) -> Maker:
    """Makes a line of numbers alone."""
    return lambda found, text, station: kind(text, station, *(int(number) for number in found.groups()))


def _words(kind: Callable[..., Line], numbers: int = 0) -> Maker:
    """Makes a line of numbers, and words after them."""
    return lambda found, text, station: kind(text, station, *(int(one) for one in found.groups()[:numbers]), *found.groups()[numbers:])


# Of each first word, the forms of its lines.
_FORMS: Tuple[Tuple[str, str, Maker], ...] = (
    ("ok", r"ok set (\S+)", lambda found, text, _: SetDone(text, station_of(found[1]), found[1])),
    ("refused", r"refused set (.*?): (.*)", lambda found, text, _: SetRefused(text, station_of(found[1]) or None, found[1], found[2])),
    ("refused", r"refused get (.*?): (.*)", lambda found, text, _: GetRefused(text, station_of(found[1]) or None, found[1], found[2])),
    ("refused", rf"refused record {_PLACE}: (.*)", _words(RecordRefused, 3)),
    ("name", rf"name (\S+) (input|output) (\S+) (\d+) (\d+) (\d+) (\d+) (\d|-) {_QUOTED} {_QUOTED}", _name),
    ("names", r"names (\d+)", _numbers(Names)),
    ("module", rf"module (\S+) (\d+) (\d+|-) {_QUOTED}",
     lambda found, text, _: Module(text, found[1], int(found[2]), None if found[3] == "-" else int(found[3]), _unquoted(found[4]))),
    ("modules", r"modules (\d+)", _numbers(Modules)),
    ("got", r"got (\d+)", _numbers(Got)),
    ("controller", rf"controller {_MAC} on (\S+), for the station '(\S+)', interval (\d+) us",
     lambda found, text, _: Introduced(text, found[3], found[1], found[2], int(found[4]))),
    ("station", rf"station (\S+) (?:{_MAC}|-) ([0-9.]+) (\d+) (?:({'|'.join(STATES[:-1])})|(ended) (\d+))",
     lambda found, text, _: Station(text, found[1], found[2], found[3], int(found[4]), found[5] or found[6], int(found[7]) if found[7] else None)),
    ("stations", r"stations (\d+)", _numbers(Stations)),
    ("state", rf"state ({'|'.join(STATES)})", _words(State)),
    ("ended", r"ended (\d+): (.*)", _words(Ended, 1)),
    ("input", r"(input) (\d+) (\d+) ((?:[0-9a-f]{2})*)", lambda found, text, station: Octets(text, station, found[1], int(found[2]), int(found[3]), _octets(found[4]))),
    ("give", r"(give) (\d+) (\d+) ((?:[0-9a-f]{2})*)", lambda found, text, station: Octets(text, station, found[1], int(found[2]), int(found[3]), _octets(found[4]))),
    ("provider", r"provider (\d+) (\d+) ([0-9a-f]{2}) (run|stop)",
     lambda found, text, station: Provider(text, station, int(found[1]), int(found[2]), int(found[3], 16), found[4] == "run")),
    ("submodule", rf"submodule (\d+) (\d+) ({'|'.join(PLACES)})", _words(Submodule, 2)),
    ("alarm", rf"alarm (\d+) (\d+) (\d+) (\d+) {_HEX} \((low|high) priority, (.*)\)", _alarm),
    ("diagnosis", r"diagnosis -", _numbers(NoDiagnosis)),
    ("diagnosis", r"diagnosis (\d+) (\d+) (\d+) (\d+) \((.*)\)", _words(Diagnosis, 4)),
    ("diagnosis", r"diagnosis left out (\d+)(?:: .*)?", _numbers(DiagnosisLeftOut)),
    ("diagnosis", r"diagnosis only in the (alarms|record): (\d+) (\d+) (\d+) (\d+) \((.*)\)",
     lambda found, text, station: DiagnosisOnly(text, station, found[1], int(found[2]), int(found[3]), int(found[4]), int(found[5]), found[6])),
    ("diagnosis", r"diagnosis 0x([0-9A-F]{4}) (the same|different): (\d+) by alarms, (\d+) in the record(?:, (\d+) of another structure)?",
     lambda found, text, station: DiagnosisCompared(text, station, int(found[1], 16), found[2] == "the same", int(found[3]), int(found[4]), int(found[5] or 0))),
    ("diagnosis", r"diagnosis 0x([0-9A-F]{4}) (?:refused|not compared): (.*)", lambda found, text, station: DiagnosisRefused(text, station, int(found[1], 16), found[2])),
    ("read", rf"(read) {_PLACE} (?:refused|dropped): (.*)", _access_refused),
    ("read", rf"read {_PLACE} {_HEX}", lambda found, text, station: Record(text, station, int(found[1]), int(found[2]), int(found[3]), _octets(found[4]))),
    ("write", rf"(write) {_PLACE} (?:refused|dropped): (.*)", _access_refused),
    ("write", rf"write {_PLACE} done", _numbers(Written)),
    ("link", r"link up", lambda _, text, station: Link(text, station, True, "")),
    ("link", r"link down \((.*)\)", lambda found, text, station: Link(text, station, False, found[1])),
    ("neighbour", r"neighbour -", lambda _, text, station: Neighbour(text, station, None, None, None)),
    ("neighbour", rf"neighbour {_MAC} port '(.*)' of '(.*)'", _words(Neighbour)),
    ("waiting", r"waiting (\d+) s: (.*)", _words(Waiting, 1)),
    ("warning:", r"warning: (.*)", _words(Warned)),
    ("stall:", r"stall: (.*)", _words(Stalled)),
    ("wrong:", r"wrong: (.*)", _words(Wrong)),
    ("statistics", r"statistics seconds (\d+)", _numbers(Seconds)),
    ("frames", r"frames received (\d+) sent (\d+) not-sent (\d+) missed (\d+)", _numbers(Frames)),
    ("frames", r"(frames for no station) (\d+)", lambda found, text, station: Count(text, station, found[1], int(found[2]))),
    ("cyclic", r"cyclic received (\d+) lost (\d+)", _numbers(Cyclic)),
    ("interval", r"interval count (\d+) p50 (\d+) p99 (\d+) max (\d+) us", _numbers(Interval)),
    ("jitter", r"jitter p50 (\d+) p99 (\d+) max (\d+) us", _numbers(Jitter)),
    ("time", r"time units (\d+) forgotten (\d+) stalls (\d+) most-at-once (\d+)", _numbers(Times)),
    ("wakes", r"(wakes) (\d+)", lambda found, text, station: Count(text, station, found[1], int(found[2]))),
    ("neighbours", r"(neighbours not reported) (\d+)", lambda found, text, station: Count(text, station, found[1], int(found[2]))),
    ("lines", r"(lines lost) (\d+)", lambda found, text, station: Count(text, station, found[1], int(found[2]))),
    ("status", r"status (\S+ \S+ \| \d+ frames \| .*)", _words(Status)),
)

_BY_WORD: Dict[str, List[Tuple["re.Pattern[str]", Maker]]] = {}
for _word, _form, _maker in _FORMS:
    _BY_WORD.setdefault(_word, []).append((re.compile(_form, re.DOTALL), _maker))

# Lines of the interface: they are never about a station, also if it is the only one.
_OF_ALL = (Names, Got, Modules, Stations, Link, Neighbour, Stalled, Wrong, Seconds, Frames, Times, Count)


def signal_name(text: str) -> Optional[str]:
    """The name of a signal's line, or None: it is another line. It is the only one whose second word is `=`."""
    first, blank, rest = text.partition(" ")
    return first if blank and rest.startswith("= ") and "." in first else None


def _known(text: str, whole: str, station: Optional[str]) -> Optional[Line]:
    for form, make in _BY_WORD.get(text.partition(" ")[0], ()):
        found = form.fullmatch(text)
        if found is not None:
            try:
                return make(found, whole, station)
            except ValueError:  # a number of thousands of digits
                return None
    return None


class Reader:
    """Makes values of lines. With several plans the name of a station is in front of a line; with one plan it is not, and the reader learns
    the name from the line `controller ..` or from the answer to `stations`. `only` is that name."""

    def __init__(self, only: Optional[str] = None) -> None:
        self.only = only
        self._listed: Optional[str] = None  # the last station of the answer to `stations`

    def read(self, text: str) -> Line:
        """Returns the line as a value. A line feed at its end is ignored."""
        text = text.rstrip("\r\n")
        if signal_name(text) is not None:
            found = _VALUE.fullmatch(text)
            if found is not None:
                return Signal(text, station_of(found[1]), found[1], found[2], found[3] == "good", float(found[4]) if found[4] else None)
        line = _known(text, text, self.only)
        if line is not None:
            return self._without_name(line)
        station, _, rest = text.partition(" ")
        line = _known(rest, text, station) if rest else None
        return line if line is not None else Unknown(text, None)

    def _without_name(self, line: Line) -> Line:
        """A line that has no station's name in front."""
        if isinstance(line, Introduced):
            self.only = line.station
        elif isinstance(line, Station):
            self._listed = line.station
        elif isinstance(line, Stations):
            self.only = self._listed if line.count == 1 else None
        return replace(line, station=None) if isinstance(line, _OF_ALL) else line
