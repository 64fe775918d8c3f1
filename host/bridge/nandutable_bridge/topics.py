"""Topics and payloads: what the bridge publishes and accepts, as docs/BRIDGE.md lists them.

A station's name has no capitals and no underscore, and a signal's name begins with a letter. So a level that begins with an underscore is
neither.
"""

from __future__ import annotations

import json
import re
from typing import Any, Dict, List, Optional, Tuple

Plain = Dict[str, Any]

LONGEST_PREFIX = 200
LONGEST_NAME = 400  # octets of a station's name and a signal's name are fewer
SETTABLE = re.compile(r"""([!"$-*,\-.0-~]+)/([!"$-*,\-0-~]+)/set""")  # no blank, no +, # or /, and only ASCII, as all names are
SET, ANSWER, ABOUT = "set", "answer", "about"
STATISTICS = "statistics"


class BadPrefix(ValueError):
    """The text cannot be the begin of a topic."""


HALF = re.compile("[\ud800-\udfff]")  # of a surrogate pair, which JSON can have and UTF-8 cannot


def payload(data: Any) -> bytes:
    """The octets of a payload: JSON in one line, in UTF-8."""
    return json.dumps(data, ensure_ascii=False, allow_nan=False, separators=(", ", ": ")).encode("utf-8", "replace")


def some_of(data: Plain, *keys: str) -> Plain:
    return {key: data[key] for key in keys}


class Topics:
    """The topics below a prefix."""

    def __init__(self, prefix: str) -> None:
        if not prefix or HALF.search(prefix) or len(prefix.encode()) > LONGEST_PREFIX or prefix.startswith("$") or re.search(r"[+#\x00-\x1f\x7f]", prefix) or "" in prefix.split("/"):
            raise BadPrefix(f"a prefix is 1 to {LONGEST_PREFIX} octets without + and #, does not begin with $, and has no empty level: {prefix!r}")
        self.prefix = prefix
        self.bridge = f"{prefix}/_bridge"
        self.controller = f"{prefix}/_controller"
        self.sets = f"{prefix}/+/+/{SET}"  # the filter of the topics that the bridge subscribes to

    def station(self, name: Optional[str], part: str) -> str:
        """A topic about a station, or about the controller if no station is named."""
        return f"{self.prefix}/{name}/_{part}" if name is not None else f"{self.prefix}/_{part}"

    def signal(self, name: str, *part: str) -> str:
        """A topic of a signal by its full name, STATION.SIGNAL."""
        station, _, signal = name.rpartition(".")
        return "/".join((self.prefix, station, signal, *part))

    def name_of_set(self, topic: str) -> Optional[str]:
        """The full name of the signal of a topic `PREFIX/STATION/SIGNAL/set`. None for another topic. The name of a signal has no dot, so that no
        topic names a signal of another station."""
        if not topic.startswith(self.prefix + "/"):
            return None
        found = SETTABLE.fullmatch(topic[len(self.prefix) + 1:])
        return f"{found[1]}.{found[2]}" if found is not None and len(found[0]) < LONGEST_NAME else None


# ---- What is published

Message = Tuple[str, bytes]


def of_signal(topics: Topics, signal: Plain) -> List[Message]:
    """The value of a signal, and what it is. A signal without a value yet has only the second."""
    found = []
    if signal["raw"] is not None:
        value = {"value": signal["value"], "quality": "good" if signal["good"] else "bad", "time": signal["time"]}
        found.append((topics.signal(signal["name"]), payload(value)))
    if signal["type"] is not None:
        about = some_of(signal, "direction", "type", "unit", "text", "slot", "subslot", "octet", "bit", "length")
        found.append((topics.signal(signal["name"], ABOUT), payload(about)))
    return found


def of_station(topics: Topics, station: Plain) -> List[Message]:
    """What is known of a station, by what changes together."""
    name = station["name"]
    parts = {"state": some_of(station, "state", "since", "mac", "address", "interval_us", "cause", "waiting"),
             "diagnosis": {"diagnosis": station["diagnosis"], "left_out": station["diagnosis_left_out"]},
             "ports": station["ports"],
             STATISTICS: some_of(station, "received", "lost", "interval", "jitter")}
    return [(topics.station(name, part), payload(data)) for part, data in parts.items()]


def of_controller(topics: Topics, controller: Plain) -> List[Message]:
    """The controller, and its counts."""
    parts = {"controller": some_of(controller, "running", "ended", "interface", "mac", "link", "link_reason", "neighbour"),
             STATISTICS: some_of(controller, "frames", "stalls", "lines_lost", "seconds")}
    return [(topics.station(None, part), payload(data)) for part, data in parts.items()]


def of_event(topics: Topics, kind: str, event: Plain) -> Message:
    """An alarm or a message of the controller."""
    data = {key: value for key, value in event.items() if key not in ("number", "station")}
    return topics.station(event["station"], kind), payload(data)


# ---- What is accepted

class Number(str):
    """A number of JSON as it is written: the controller reads it, and refuses what its type does not take."""


class BadValue(ValueError):
    """A payload of `set` that is not of its form, or that the signal's type cannot have."""


LONGEST_PAYLOAD = 8192
LONGEST_ID = 128
TEXTS = ("VisibleString", "UnicodeString8")
INTEGER = re.compile(r"(Unsigned|Integer)(8|16|32|64)|[NEX][24]|C4|X4|T[24]|R2|D2|Unipolar2\.16")
WORD = re.compile(r"[0-9A-Za-z.+-]{1,3000}")


def _no_constant(text: str) -> Any:
    raise BadValue(f"{text} is not JSON; write \"nan\", \"inf\" or \"-inf\" in quotes")


def _each_once(pairs: List[Tuple[str, Any]]) -> Plain:
    if len({key for key, _ in pairs}) != len(pairs):
        raise BadValue("a key is there twice")
    return dict(pairs)


def read_set(octets: bytes) -> Tuple[Any, Any]:
    """The value and the id of a payload of `set`: a value alone, or an object with value, and if wanted status and id. Raises BadValue."""
    if len(octets) > LONGEST_PAYLOAD:
        raise BadValue(f"it has more than {LONGEST_PAYLOAD} octets")
    try:
        read = json.loads(octets.decode(), parse_int=Number, parse_float=Number, parse_constant=_no_constant, object_pairs_hook=_each_once)
    except (UnicodeDecodeError, json.JSONDecodeError, RecursionError):
        raise BadValue("it is not JSON: 12.5, true, \"text\", or {\"value\": 12.5, \"id\": \"any\"}") from None
    if not isinstance(read, dict):
        return read, None
    told = _id(read.pop("id", None))
    if "value" not in read or not set(read) <= {"value", "status"}:
        raise BadValue("an object has the key value, and status and id if wanted, and no other")
    return (read if "status" in read else read["value"]), told


def _id(given: Any) -> Any:
    if isinstance(given, str) and HALF.search(given):
        raise BadValue("id has half of a surrogate pair")
    if given is None or isinstance(given, str) and not isinstance(given, Number) and len(given) <= LONGEST_ID:
        return given
    if isinstance(given, Number) and re.fullmatch(r"-?[0-9]{1,18}", given):
        return int(given)
    raise BadValue(f"id is a whole number, or a text of at most {LONGEST_ID} characters")


def text_of(kind: str, value: Any) -> str:
    """A value of JSON as the controller's line `set` has it, for a signal of this type. The controller checks it against the type. Raises
    BadValue if it cannot be written for the type at all."""
    if isinstance(value, dict):
        if "+" not in kind:
            raise BadValue(f"{kind} has no status")
        if set(value) != {"value", "status"}:
            raise BadValue(f'{kind} takes {{"value": .., "status": ..}}')
        first, _, last = kind.partition("+")
        return f"{text_of(first, value['value'])}+{text_of(last, value['status'])}"
    if isinstance(value, bool):
        if kind != "Boolean":
            raise BadValue(f"{kind} is not a Boolean")
        return "true" if value else "false"
    if isinstance(value, Number):
        return _number(kind, value)
    if isinstance(value, str):
        return _text(kind, value)
    raise BadValue("a value is a number, true, false or a text")


def _number(kind: str, value: Number) -> str:
    if kind in TEXTS or kind.startswith("OctetString") and "+" not in kind:
        raise BadValue(f"{kind} takes a text in quotes")
    whole = re.fullmatch(r"(-?[0-9]+)\.0+", value)
    return whole[1] if whole and INTEGER.fullmatch(kind) else str(value)


def _text(kind: str, value: str) -> str:
    if HALF.search(value):
        raise BadValue("a text has no half of a surrogate pair")
    if kind in TEXTS:
        if re.search(r"[\x00-\x1f\x7f]", value):
            raise BadValue(f"{kind} takes no control characters")
        return '"' + re.sub(r'(["\\])', r"\\\1", value) + '"'
    if not WORD.fullmatch(value):
        raise BadValue(f"{kind} takes no such text: {value[:40]!r}")
    return value
