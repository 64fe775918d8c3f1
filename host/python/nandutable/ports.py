"""The ports of a station and their neighbours, as its record PDRealData (0xF841) or PDPortDataReal (0x802A) has them (IEC 61158-6-10)."""

from __future__ import annotations

import struct
from dataclasses import dataclass
from typing import List, Tuple

REAL_DATA = 0xF841  # at slot 0, subslot 1
PORT_DATA = 0x802A  # at slot 0, subslot 0x8001
PORT_SUBSLOT = 0x8001

_MULTIPLE, _PORT = 0x0400, 0x020F  # block types
_AFTER_NAMES = 12  # LineDelay, the MAC address, padding


@dataclass(frozen=True)
class Peer:
    """A neighbour at a port: the name of its port, its own name, and the MAC address of its port."""

    port: str
    station: str
    mac: str


@dataclass(frozen=True)
class Port:
    """A port of a station, such as port-001, and its neighbours: none, one, or several."""

    slot: int
    subslot: int
    name: str
    peers: Tuple[Peer, ...]


def read_ports(octets: bytes) -> List[Port]:
    """The ports of a record. Raises ValueError if a block is not whole."""
    return _blocks(octets, is_inner=False)


def _blocks(octets: bytes, is_inner: bool) -> List[Port]:
    """Fewer octets than a header at the end are padding."""
    ports: List[Port] = []
    at = 0
    while at + 6 <= len(octets):
        kind, length = struct.unpack_from(">HH", octets, at)
        block = octets[at:at + 4 + length]
        if length < 2 or len(block) < 4 + length or (kind == _MULTIPLE and (is_inner or len(block) < 16)):
            raise ValueError("a block is not whole")
        if kind == _MULTIPLE:
            ports += _blocks(block[16:], is_inner=True)
        elif kind == _PORT:
            ports.append(_port(block))
        at += len(block)
    return ports


def _name(block: bytes, at: int) -> Tuple[str, int]:
    """The name at a place, and the place after it."""
    if at >= len(block) or at + 1 + block[at] > len(block):
        raise ValueError("a name is not whole")
    ends = at + 1 + block[at]
    return "".join(chr(octet) if 0x20 <= octet < 0x7F else "." for octet in block[at + 1:ends]), ends


def _port(block: bytes) -> Port:
    if len(block) < 14:
        raise ValueError("a block is not whole")
    slot, subslot = struct.unpack_from(">HH", block, 8)
    name, at = _name(block, 12)
    if at >= len(block):
        raise ValueError("a block is not whole")
    count, at = block[at], -(-(at + 1) // 4) * 4
    peers: List[Peer] = []
    for _ in range(count):
        port, at = _name(block, at)
        station, at = _name(block, at)
        at = -(-at // 4) * 4 + _AFTER_NAMES
        if at > len(block):
            raise ValueError("a neighbour is not whole")
        peers.append(Peer(port, station, block[at - 8:at - 2].hex(":")))
    return Port(slot, subslot, name, tuple(peers))
