"""Frames of calls for what is measured, made here from RFC 768 and 791, C706 and IEC 61158-6-10, and not by what is measured."""

import struct

DEVICE, TOOL = bytes.fromhex("020000000001"), bytes.fromhex("020000000002")
DEVICE_IP, TOOL_IP = bytes((192, 168, 0, 2)), bytes((192, 168, 0, 1))
RPC_PORT = 34964
OBJECT = bytes.fromhex("dea000006c9711d18271000104560123")
DEVICE_INTERFACE = bytes.fromhex("dea000016c9711d1827100a02442df7d")
MAPPER = bytes.fromhex("e1af83085d1f11c991a408002b14a0fa")
ACTIVITY = bytes(16 * (7,))

# A permanent Set of the suite 192.168.0.2 255.255.255.0, an Identify of all, and an ARP request for that address.
SET_SUITE = "frame 0200000000010200000000028892fefd040000000002000000120102000e0001c0a80002ffffff0000000000\n"
IDENTIFY = "frame 010ecf0000000200000000028892fefe05000000000100010004ffff0000\n"
ARP = "frame ffffffffffff02000000000208060001080006040001020000000002c0a80001000000000000c0a80002\n"


def checksum(octets):
    """The ones' complement of the ones' complement sum (RFC 1071)."""
    octets += bytes(len(octets) % 2)
    total = sum(struct.unpack(f">{len(octets) // 2}H", octets))
    while total > 0xFFFF:
        total = (total & 0xFFFF) + (total >> 16)
    return 0xFFFF - total


def datagram(port, body):
    """A frame to a port of the device, with both checksums."""
    length = 8 + len(body)
    sum_of = TOOL_IP + DEVICE_IP + struct.pack(">HHHHHH", 17, length, RPC_PORT, port, length, 0) + body
    segment = struct.pack(">HHHH", RPC_PORT, port, length, checksum(sum_of) or 0xFFFF) + body
    front, behind = struct.pack(">HHHHBB", 0x4500, 20 + length, 0, 0x4000, 64, 17), TOOL_IP + DEVICE_IP
    return DEVICE + TOOL + b"\x08\0" + front + struct.pack(">H", checksum(front + behind)) + behind + segment


def echo(data):
    """A line with an echo request (RFC 792)."""
    message = struct.pack(">HHH", 0, 1, 1) + data
    message = b"\x08\0" + struct.pack(">H", checksum(b"\x08\0" + message)) + message[2:]
    front, behind = struct.pack(">HHHHBB", 0x4500, 20 + len(message), 0, 0, 64, 1), TOOL_IP + DEVICE_IP
    frame = DEVICE + TOOL + b"\x08\0" + front + struct.pack(">H", checksum(front + behind)) + behind + message
    return f"frame {frame.hex()}\n"


def lookup():
    """A line with a lookup of all entries at the endpoint mapper (C706, appendix O)."""
    body = struct.pack(">III", 0, 0, 0) + struct.pack(">I20sI", 1, bytes(20), 1)
    header = struct.pack(">BBBB4x16s16s16sIIIHHHHHBB", 4, 0, 0x20, 0, bytes(16), MAPPER, ACTIVITY, 0, 3, 1, 2, 0xFFFF, 0xFFFF, len(body), 0, 0, 0)
    return f"frame {datagram(RPC_PORT, header + body).hex()}\n"


def pdu(kind, activity, sequence, operation, first, blocks, port):
    """A line with a call (0) or a response (2) of these blocks. `first` is the word in front of their lengths."""
    body = struct.pack(">5I", first, len(blocks), 1372, 0, len(blocks)) + blocks
    header = struct.pack(">BBBB4x16s16s16sIIIHHHHHBB", 4, kind, 0x20, 0, OBJECT, DEVICE_INTERFACE, activity, 0, 1, sequence, operation,
                         0xFFFF, 0xFFFF, len(body), 0, 0, 0)
    return f"frame {datagram(port, header + body).hex()}\n"


def call(sequence, operation, blocks, port=RPC_PORT):
    """A line with a call of these blocks."""
    return pdu(0, ACTIVITY, sequence, operation, 1372, blocks, port)


def read_implicit(sequence, port=RPC_PORT):
    """A line with a Read Implicit of I&M0 at slot 0, subslot 1."""
    return call(sequence, 5, struct.pack(">HHHH16sIHHHHI24x", 9, 60, 0x0100, 0, bytes(16), 0, 0, 1, 0, 0xAFF0, 4096), port)


# What a controller expects: the slot and the ident number of each module, and of each of its submodules the subslot, the ident
# number and the octets of input and output. First the demo device as it is; then 64 modules, ten of them with a submodule.
THREE = [(0, 1, [(1, 1, 0, 0), (0x8000, 2, 0, 0), (0x8001, 3, 0, 0)]), (1, 16, [(1, 16, 2, 0)]), (2, 32, [(1, 32, 0, 2)])]
SIXTY_FOUR = [(slot, 7, [(1, 7, 0, 0)] if slot < 10 else []) for slot in range(64)]
AR = bytes(16 * (0x11,))


def block(kind, fields):
    """A block of version 1.0."""
    return struct.pack(">HHBB", kind, len(fields) + 2, 1, 0) + fields


# SendClockFactor, ReductionRatio and DataHoldFactor: an interval of 1 ms, of which three may be silent.
TIMING = (32, 1, 3)


def iocr(kind, frame_id, lists, timing):
    """An IOCRBlockReq: its data objects, and its IOCSs, each by slot, subslot and octets, one after another."""
    offset, places = 0, b""
    for found in lists:
        places += struct.pack(">H", len(found))
        for slot, subslot, octets in found:
            places += struct.pack(">HHH", slot, subslot, offset)
            offset += octets
    factor, ratio, hold = timing
    head = struct.pack(">HHHIHHHHHHIHHH6xHI", kind, kind, 0x8892, 1, max(40, offset), frame_id, factor, ratio, 1, 0, 0xFFFFFFFF, 3,
                       hold, 0xC000, 1, 0)
    return block(0x0102, head + places)


def expected(modules):
    """One ExpectedSubmoduleBlockReq of these modules."""
    fields = struct.pack(">H", len(modules))
    for slot, ident, submodules in modules:
        fields += struct.pack(">IHIHH", 0, slot, ident, 0, len(submodules))
        for subslot, number, came, sent in submodules:
            kind = 2 if sent else 1 if came else 0
            fields += struct.pack(">HIHHHBB", subslot, number, kind, kind or 1, came + sent, 1, 1)
    return block(0x0104, fields)


def connect(sequence, modules, timing=TIMING):
    """A line with a Connect; its controller may be silent for 100 seconds."""
    relation = block(0x0101, struct.pack(">H16sH6s16sIHHH", 1, AR, 1, TOOL, OBJECT, 0x11, 1000, 0x8892, 3) + b"plc")
    alarms = block(0x0103, struct.pack(">HHIHHHHHH", 1, 0x8892, 0, 1, 3, 1, 200, 0xC000, 0xA000))
    parts = [(slot, subslot, came, sent) for slot, _, submodules in modules for subslot, _, came, sent in submodules]
    data = ([(slot, subslot, came + 1) for slot, subslot, came, sent in parts if came or not sent],
            [(slot, subslot, sent + 1) for slot, subslot, _, sent in parts if sent])
    status = [[(slot, subslot, 1) for slot, subslot, _ in listed] for listed in data]
    inputs, outputs = iocr(1, 0xC001, (data[0], status[1]), timing), iocr(2, 0xFFFF, (data[1], status[0]), timing)
    return call(sequence, 0, relation + inputs + outputs + alarms + expected(modules))


def control(sequence, kind, command):
    """A line with PrmEnd (0x0110, 1) or Release (0x0114, 4)."""
    return call(sequence, 1 if kind == 0x0114 else 4, block(kind, struct.pack(">2x16sH2xHH", AR, 1, command, 0)))


def write_date(sequence):
    """A line with a Write of I&M2."""
    head = block(0x0008, struct.pack(">H16sIHH2xHI24x", sequence, AR, 0, 0, 1, 0xAFF2, 22))
    return call(sequence, 3, head + block(0x0022, b"2024-05-06 07:%02d" % (sequence % 60)))


def ready():
    """A line with the positive answer to ApplicationReady, a call of the activity of the ARUUID."""
    return pdu(2, AR, 0, 4, 0, block(0x8112, struct.pack(">2x16sH2xHH", AR, 1, 8, 0)), RPC_PORT)
