"""Values of signals: from the text of a line to a value of Python, and back.

| type | value |
|---|---|
| Boolean, and each signal with a bit | bool |
| Unsigned8 to Unsigned64, Integer8 to Integer64, N2, N4, E2, X2, C4, X4, T2, T4, R2, D2, Unipolar2.16 | int: the number of the octets |
| Float32, Float64 | float |
| VisibleString, UnicodeString8 | str; bytes if the octets are no such text |
| Float32+Unsigned8, Float32+Status8, Unsigned8+Unsigned8, OctetString2+Unsigned8 | WithStatus |
| OctetString and each other type | bytes |
"""

from __future__ import annotations

import math
import re
from dataclasses import dataclass
from typing import Any, Optional, Union


@dataclass(frozen=True)
class WithStatus:
    """A value and the octet of its status."""

    value: Union[int, float, bytes]
    status: int


Value = Union[bool, int, float, str, bytes, WithStatus]

_WHOLE = {"Integer8", "Integer16", "Integer32", "Integer64", "Unsigned8", "Unsigned16", "Unsigned32", "Unsigned64", "N2", "N4", "E2", "X2", "C4", "X4",
          "T2", "T4", "R2", "D2", "Unipolar2.16"}
_FLOATS = {"Float32", "Float64"}
_TEXTS = {"VisibleString", "UnicodeString8"}
_WITH_STATUS = {"Float32+Unsigned8": "Float32", "Float32+Status8": "Float32", "Unsigned8+Unsigned8": "Unsigned8", "OctetString2+Unsigned8": "OctetString"}


def decode(kind: str, raw: str) -> Value:
    """The value of a printed text, of a signal of this type (a signal with a bit has the type Boolean). Raises ValueError if the text is not of
    the type."""
    if kind == "Boolean":
        if raw not in ("true", "false"):
            raise ValueError(f"{raw!r} is not a Boolean")
        return raw == "true"
    if kind in _WHOLE:
        return int(raw)
    if kind in _FLOATS:
        return float(raw)
    if kind in _TEXTS and raw.startswith('"'):
        return re.sub(r"\\(.)", r"\1", raw[1:-1])
    if kind in _WITH_STATUS:
        value, _, status = raw.rpartition("+")
        inner = decode(_WITH_STATUS[kind], value)
        assert isinstance(inner, (int, float, bytes))
        return WithStatus(inner, int(status))
    return bytes.fromhex(raw)


def encode(value: Value) -> str:
    """The text of a value for `set`."""
    if isinstance(value, bool):
        return "true" if value else "false"
    if isinstance(value, int):
        return str(int(value))
    if isinstance(value, float):
        return repr(float(value))
    if isinstance(value, WithStatus):
        return f"{encode(value.value)}+{value.status}"
    if isinstance(value, str):
        return '"' + re.sub(r'(["\\])', r"\\\1", value) + '"'
    return bytes(value).hex()


def plain(value: Optional[Value]) -> Any:
    """The value as JSON has it: octets in hex, a float that is no number as "nan", "inf" or "-inf", a value with a status as an object."""
    if isinstance(value, WithStatus):
        return {"value": plain(value.value), "status": value.status}
    if isinstance(value, bytes):
        return value.hex()
    if isinstance(value, float) and not math.isfinite(value):
        return "nan" if math.isnan(value) else "inf" if value > 0 else "-inf"
    return value
