"""Settings of a device over the wire: commands that change them, and what Identify and Read Implicit say of them."""

import os
import random
import string
import struct
import sys

TOP = os.path.dirname(os.path.dirname(os.path.dirname(os.path.realpath(__file__))))
sys.path.insert(0, os.path.join(TOP, "bench", "figures"))
sys.dont_write_bytecode = True
import calls  # noqa: E402

DEVICE, TOOL = calls.DEVICE, calls.TOOL
GROUP = bytes.fromhex("010ecf000000")
# I&M1 to I&M4: the octets of each, and what it is before somebody writes it.
LENGTHS = {1: 54, 2: 16, 3: 54, 4: 54}
BLANK = {1: b" " * 54, 2: b" " * 16, 3: b" " * 54, 4: bytes(54)}
ACCESS_POINT = [(0, 1, [(1, 1, 0, 0), (0x8000, 2, 0, 0), (0x8001, 3, 0, 0)])]


def factory():
    """The settings of a new device."""
    return {"name": b"", "suite": bytes(12), **BLANK}


def dcp(xid, frame_id, service, blocks, to):
    body = b"".join(struct.pack(">BBH", *kind, len(value)) + value + bytes(len(value) % 2) for kind, value in blocks)
    return (to + TOOL + b"\x88\x92" + struct.pack(">HBBIHH", frame_id, service, 0, xid, 1 if frame_id == 0xFEFE else 0, len(body)) + body).ljust(60, b"\0")


def blocks_of(came):
    """The blocks of an answer of DCP."""
    found, at = {}, 26
    end = at + struct.unpack_from(">H", came, 24)[0]
    while at + 4 <= end:
        option, suboption, length = struct.unpack_from(">BBH", came, at)
        found[option, suboption] = came[at + 4:at + 4 + length]
        at += 4 + length + length % 2
    return found


def identify(board, xid):
    """The name and the address of the device."""
    came = board.ask(dcp(xid, 0xFEFE, 5, [((0xFF, 0xFF), b"")], GROUP), lambda came: came[12:22] == b"\x88\x92\xfe\xff\5\1" + struct.pack(">I", xid))
    blocks = blocks_of(came)
    return blocks[2, 2][2:] if (2, 2) in blocks else b"", blocks[1, 2][2:]


class Name:
    """A permanent Set of a name."""

    def __init__(self, rng):
        self.value = (f"v{rng.randrange(1000)}-" + "".join(rng.choices(string.ascii_lowercase, k=rng.randrange(1, 50)))).encode()

    def frame(self, number):
        return dcp(number, 0xFEFD, 4, [((2, 2), b"\0\1" + self.value)], DEVICE)

    def applied(self, settings):
        return {**settings, "name": self.value}


class Suite(Name):
    """A permanent Set of an address, a mask and a gateway."""

    def __init__(self, rng):
        self.value = bytes((192, 168, 0, rng.randrange(2, 255), 255, 255, 255, 0, *rng.choice(((0, 0, 0, 0), (192, 168, 0, 1)))))

    def frame(self, number):
        return dcp(number, 0xFEFD, 4, [((1, 2), b"\0\1" + self.value)], DEVICE)

    def applied(self, settings):
        return {**settings, "suite": self.value}


class Reset:
    """A FactoryReset."""

    def __init__(self, _):
        pass

    def frame(self, number):
        return dcp(number, 0xFEFD, 4, [((5, 5), b"\0\0")], DEVICE)

    def applied(self, settings):
        return factory()


class Text:
    """A Write of an I&M record, in a relation that exists."""

    def __init__(self, rng):
        self.which = rng.randrange(1, 5)
        letters = bytes(rng.choices(string.ascii_letters.encode(), k=LENGTHS[self.which]))
        dates = b"20%02d-%02d-%02d %02d:%02d" % (rng.randrange(100), rng.randrange(1, 13), rng.randrange(1, 29), rng.randrange(24), rng.randrange(60))
        self.value = dates if self.which == 2 else letters

    def frame(self, number):
        head = calls.block(0x0008, struct.pack(">H16sIHH2xHI24x", number, calls.AR, 0, 0, 1, 0xAFF0 + self.which, len(self.value) + 6))
        return octets_of(calls.call(number, 3, head + calls.block(0x0020 + self.which, self.value)))

    def applied(self, settings):
        return {**settings, self.which: self.value}


def octets_of(line):
    """The frame in a line of a script."""
    return bytes.fromhex(line.split()[1])


def answered(came):
    """The number of the command that a frame answers, and whether the answer is positive; None for other frames."""
    if came[12:18] == b"\x88\x92\xfe\xfd\4\1" and came[:6] == TOOL:
        return struct.unpack_from(">I", came, 18)[0], blocks_of(came)[5, 4][2] == 0
    number = response(came)
    return None if number is None else (number, came[122:126] == bytes(4))


def response(came):
    """The number of the call that a frame answers, or None."""
    is_response = came[12:14] == b"\x08\x00" and came[23] == 17 and came[:6] == TOOL and came[43] & 0xFF == 2
    return struct.unpack_from("<I" if came[46] & 0x10 else ">I", came, 42 + 64)[0] if is_response else None


def use_address(suite, rng):
    """Calls go to this address, as an activity of its own: the sequence of the one before was perhaps not answered."""
    calls.DEVICE_IP, calls.ACTIVITY, calls.AR = suite[:4], rng.randbytes(16), rng.randbytes(16)


def connect(board, number):
    came = board.ask(octets_of(calls.connect(number, ACCESS_POINT)), lambda came: response(came) == number, again=1)
    if came[122:126] != bytes(4):
        raise AssertionError(f"the Connect was refused: {came[122:126].hex()}")


def read_text(board, number, which):
    """What an I&M record has."""
    blocks = struct.pack(">HHHH16sIHHHHI24x", 9, 60, 0x0100, 0, bytes(16), 0, 0, 1, 0, 0xAFF0 + which, 4096)
    came = board.ask(octets_of(calls.call(number, 5, blocks)), lambda came: response(came) == number, again=1)
    if came[122:126] != bytes(4):
        raise AssertionError(f"the Read of I&M{which} was refused: {came[122:126].hex()}")
    return came[212:212 + LENGTHS[which]]
