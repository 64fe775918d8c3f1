"""Calls of the endpoint mapper (The Open Group C706), and a ping of its RPC, without any library: requests by a tool, and the parts of their answers."""

import struct
import uuid

MAPPER = uuid.UUID("e1af8308-5d1f-11c9-91a4-08002b14a0fa")
DEVICE_INTERFACE = uuid.UUID("dea00001-6c97-11d1-8271-00a02442df7d")
PORT = 34964
REQUEST, PING, RESPONSE, NOCALL, REJECT = 0, 1, 2, 5, 6
LOOKUP, HANDLE_FREE = 2, 4
NO_ENTRY, NO_OPERATION, NO_INTERFACE = 0x16C9A0D6, 0x1C010002, 0x1C010003
NO_HANDLE = bytes(20)


def packet(kind, interface, version, sequence, operation, body=b"", is_little=True, activity=7):
    """A packet of a call: its header of 80 octets, and its body."""
    order = "<" if is_little else ">"
    names = [name.bytes_le if is_little else name.bytes for name in (uuid.UUID(int=0), interface, uuid.UUID(int=activity))]
    head = struct.pack("BBBB3sB", 4, kind, 0x20, 0, bytes((0x10 if is_little else 0, 0, 0)), 0) + b"".join(names)
    return head + struct.pack(order + "IIIHHHHHBB", 0, version, sequence, operation, 0xFFFF, 0xFFFF, len(body), 0, 0, 0) + body


def lookup(sequence, handle=NO_HANDLE, inquiry=0, most=1, is_little=True):
    """A lookup without an object and without an interface."""
    order = "<" if is_little else ">"
    body = struct.pack(order + "IIII", inquiry, 0, 0, 1) + handle + struct.pack(order + "I", most)
    return packet(REQUEST, MAPPER, 3, sequence, LOOKUP, body, is_little)


def read(octets):
    """The kind, the sequence, the operation and the body of a packet that came."""
    order = "<" if octets[4] & 0x10 else ">"
    sequence, operation = struct.unpack_from(order + "I", octets, 64)[0], struct.unpack_from(order + "H", octets, 68)[0]
    length, = struct.unpack_from(order + "H", octets, 74)
    return octets[1], sequence, operation, octets[80:80 + length]


def entry(body, is_little=True):
    """What the answer to a lookup says: its handle, how many entries, the status, the object, the annotation and the tower."""
    order = "<" if is_little else ">"
    handle, (count, _, _, actual) = body[:20], struct.unpack_from(order + "IIII", body, 20)
    status, = struct.unpack_from(order + "I", body, len(body) - 4)
    if actual == 0:
        return handle, count, status, None, None, None
    name = uuid.UUID(bytes_le=body[36:52]) if is_little else uuid.UUID(bytes=body[36:52])
    annotation, (length,) = body[64:128], struct.unpack_from(order + "I", body, 128)
    return handle, count, status, name, annotation, body[136:136 + length]
