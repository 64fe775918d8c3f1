"""Stations at the end d0 of a wire that answer what a test tells them to answer, and nothing else; a partner also exchanges data. An opener at the
end c0 calls a device as a controller does. Their frames are made here."""

import os
import struct
import threading
import time

from wire import DEVICE, TOP, block, drain

ZEROS = bytes(4)
CONNECT, WRITE, READ, PRM_END, RELEASE, READY = 0x0101, 0x0008, 0x0009, 0x0110, 0x0114, 0x0112
PLUG_PRM_END, PLUG_READY = 0x0111, 0x0113
FAULT, REJECT = 3, 6  # packet types of DCE/RPC
RPC_AT, BLOCKS_AT = 42, 142  # after Ethernet, IPv4 and UDP; and after the header of DCE/RPC and the sizes of the arguments


def mac_of(number):
    return bytes((2, 0, 0, 0, 1, number))


def address_of(text):
    return bytes(map(int, text.split(".")))


def arp(operation, sender, sender_address, target, target_address, to=None):
    head = (to or target) + sender + struct.pack(">HHHBBH", 0x0806, 1, 0x0800, 6, 4, operation)
    return (head + sender + sender_address + target + target_address).ljust(60, b"\0")


def internet(sender, target, payload):
    """An IPv4 packet with a datagram from port 34964 to the same port."""
    def packet(checksum):
        return struct.pack(">BBHHHBBH4s4s", 0x45, 0, 28 + len(payload), 0, 0x4000, 64, 17, checksum, sender, target)
    return packet(folded(packet(0))) + struct.pack(">HHHH", 34964, 34964, 8 + len(payload), 0) + payload


def folded(octets):
    """The checksum of the Internet (RFC 1071), by its complement to 65,535."""
    total = sum(struct.unpack(f">{len(octets) // 2}H", octets))
    while total >> 16:
        total = (total & 0xFFFF) + (total >> 16)
    return total ^ 0xFFFF


def echo(sender, target, kind, rest):
    """An IPv4 packet with a message of ICMP: an echo request (8) or reply (0), with the octets after its checksum, an even number of them."""
    def packet(checksum):
        return struct.pack(">BBHHHBBH4s4s", 0x45, 0, 24 + len(rest), 0x1234, 0x4000, 64, 1, checksum, sender, target)
    message = struct.pack(">BBH", kind, 0, folded(struct.pack(">BBH", kind, 0, 0) + rest)) + rest
    return packet(folded(packet(0))) + message


def block_of(kind, fields):
    return struct.pack(">HHBB", kind, 2 + len(fields), 1, 0) + fields


class Station(threading.Thread):
    """A station. What it answers may be changed while it runs.

    `silences`: how many calls of a kind it does not answer, before it answers them.
    `identifies`: how often it answers an Identify for its name; `is_careless`: for another name too. `sets`: the BlockError of its answer to a
    Set, None for no answer. `arp`: the address for which it answers ARP, or None. `calls`: the PNIOStatus of its answer to a call, by the type of
    the first block, or for a Write by that type and the index; no answer if it has no entry. `rejects`: a packet type (FAULT, REJECT) and the octets
    with which it answers such a call instead. `place`: its name by its place (AliasName), or None; `is_coy`: it does not tell its name; `late`: for how many
    seconds it keeps its answer to an Identify. `differs`: the ModuleState and the SubmoduleState of slot 1 subslot 1 in its answer to the Connect, or
    None. `reference`: its LocalAlarmReference."""

    def __init__(self, wire, number, name="pump-1", identity=(291, 1110), suite=bytes(12), identifies=1, is_careless=False, sets=None, arp=None,
                 calls=None, rejects=None, differs=None, reference=1, place=None, is_coy=False, late=0):
        super().__init__(daemon=True)
        self.link, self.mac = wire.socket("d0"), mac_of(number)
        self.name_of_station, self.identity, self.suite = name.encode(), identity, suite
        self.identifies, self.is_careless, self.sets, self.arp, self.calls = identifies, is_careless, sets, arp, calls or {}
        self.rejects, self.differs, self.reference = rejects or {}, differs, reference
        self.place, self.is_coy, self.late = place.encode() if place else None, is_coy, late
        self.kept = []  # answers to an Identify that it keeps: when each is sent, and what it answers
        self.is_answered = False  # whether it answered an Identify
        self.silences = {}
        self.kinds = []  # of each call that came
        self.named = []  # each name that came in a Set
        self.is_over = False
        self.start()

    def __enter__(self):
        return self

    def __exit__(self, *_):
        self.is_over = True
        self.join()
        self.link.close()

    def run(self):
        self.link.settimeout(0.02)
        while not self.is_over:
            self.tick()
            while self.kept and self.kept[0][0] <= time.monotonic():
                self.identified(*self.kept.pop(0)[1])
            try:
                came = self.link.recv(2048)
                self.hear(came)
            except TimeoutError:
                continue
            except OSError:  # the link is down
                time.sleep(0.02)

    def tick(self):
        """What it sends by itself."""

    def send(self, octets):
        self.link.send(octets.ljust(60, b"\0"))

    def hear(self, came):
        kind, to_me = came[12:14], came[:6] == self.mac
        if kind == b"\x08\x06" and self.arp and came[20:22] == b"\0\1" and came[38:42] == self.arp:
            self.send(arp(2, self.mac, self.arp, came[22:28], came[28:32]))
        elif kind == b"\x88\x92" and came[14:17] == b"\xfe\xfe\5":
            self.identify(came)
        elif kind == b"\x88\x92" and to_me and came[14:18] == b"\xfe\xfd\4\0" and self.sets is not None:
            self.set(came)
        elif kind == b"\x08\0" and to_me and came[RPC_AT + 1] == 0:
            self.call(came)

    def dcp(self, came, frame_id, service, blocks):
        self.send(came[6:12] + self.mac + struct.pack(">HHBB", 0x8892, frame_id, service, 1) + came[18:22] + struct.pack(">HH", 0, len(blocks)) + blocks)

    def identify(self, came):
        length = struct.unpack_from(">H", came, 28)[0]
        if came[26:28] == b"\2\2" and came[30:30 + length] != self.name_of_station and not self.is_careless:
            return
        if came[26:28] == b"\2\6" and came[30:30 + length] != self.place:
            return
        blocks = (b"" if self.is_coy else block(2, 2, b"\0\0" + self.name_of_station)) + block(2, 3, b"\0\0" + struct.pack(">HH", *self.identity)) + block(1, 2, b"\0\1" + self.suite)
        if self.late:
            self.kept.append((time.monotonic() + self.late, (came, blocks)))
        else:
            self.identified(came, blocks)

    def identified(self, came, blocks):
        self.is_answered = True
        for _ in range(self.identifies):
            self.dcp(came, 0xFEFF, 5, blocks)

    def set(self, came):
        if self.sets == 0 and came[26:28] == b"\1\2":
            self.suite = came[32:44]
        if came[26:28] == b"\2\2":
            self.named.append(came[32:30 + struct.unpack_from(">H", came, 28)[0]].decode())
            self.name_of_station = self.named[-1].encode() if self.sets == 0 else self.name_of_station
        self.dcp(came, 0xFEFD, 4, block(5, 4, came[26:28] + bytes((self.sets,))))

    def call(self, came):
        kind = struct.unpack_from(">H", came, BLOCKS_AT)[0]
        index = int.from_bytes(came[BLOCKS_AT + 34:BLOCKS_AT + 36], "big")  # of a Write
        self.kinds.append(kind)
        status = self.calls.get((kind, index), self.calls.get(kind))
        if self.silences.get(kind):
            self.silences[kind] -= 1
        elif kind in self.rejects:
            self.respond(came, *self.rejects[kind])
        elif status is not None:
            blocks = self.blocks_to(kind, came) if status == ZEROS else b""
            order = "<" if came[RPC_AT + 4] >> 4 == 1 else ">"
            self.respond(came, 2, struct.pack(order + "5I", int.from_bytes(status, "big"), len(blocks), len(blocks), 0, len(blocks)) + blocks)

    def respond(self, came, packet_type, body):
        """Answers a call by a packet of this type, in the order of octets of the call."""
        head = bytearray(came[RPC_AT:RPC_AT + 80])
        head[1:3] = bytes((packet_type, 0x0A if packet_type == 2 else 0x08))
        head[74:76] = struct.pack("<H" if head[4] >> 4 == 1 else ">H", len(body))
        self.send(came[6:12] + self.mac + b"\x08\0" + internet(came[30:34], came[26:30], bytes(head) + body))

    def blocks_to(self, kind, came):
        """The blocks of a positive answer."""
        return self.connected(came) if kind == CONNECT else block_of(kind | 0x8000, came[BLOCKS_AT + 6:BLOCKS_AT + 32])

    def connected(self, came):
        """The blocks of a positive answer to a Connect."""
        ar = came[BLOCKS_AT + 6:BLOCKS_AT + 26]  # ARType, ARUUID and SessionKey
        return (block_of(0x8101, ar + self.mac + b"\x88\x92") + block_of(0x8102, struct.pack(">HHH", 1, 1, 0xC001)) +
                block_of(0x8102, struct.pack(">HHH", 2, 2, 0xC000)) + block_of(0x8103, struct.pack(">HHH", 1, self.reference, 200)) +
                (block_of(0x8104, struct.pack(">HIHHIHHHIH", 1, 0, 1, 1, 0x110, self.differs[0], 1, 1, 0x110, self.differs[1])) if self.differs else b""))


def place_of(came):
    """Slot, subslot and index of a Read or a Write."""
    slot, subslot, _, index = struct.unpack_from(">4H", came, BLOCKS_AT + 28)
    return slot, subslot, index


class End:
    """The alarms of one priority of a partner."""

    def __init__(self, is_low):
        self.name, self.frame_id, self.tag = ("low", 0xFE01, 0xA000) if is_low else ("high", 0xFC01, 0xC000)
        self.block = 2 if is_low else 1
        self.sent, self.taken = 0xFFFE, 0xFFFE  # before the first
        self.acked = []  # the number of each ACK that came
        self.acknowledged = []  # of each AlarmAck: block, AlarmType, slot, subslot, AlarmSpecifier, PNIOStatus


class Partner(Station):
    """A station that also exchanges data, as the demo station does: two octets of input in slot 1, two of output in slot 2. It raises alarms, and
    keeps records: `records` by slot, subslot and index. `is_mute`: it answers no call."""

    def __init__(self, wire, number, *words, **more):
        self.ends = {"high": End(False), "low": End(True)}
        self.records, self.asked, self.is_mute = {}, [], False
        self.ar, self.controller, self.value, self.counter, self.next_at = None, None, bytes(2), 0, 0.0
        super().__init__(wire, number, *words, **{"sets": 0, "calls": {kind: ZEROS for kind in (CONNECT, WRITE, READ, PRM_END, RELEASE)}, **more})

    def tick(self):
        now = time.monotonic()
        if self.ar is None or now < self.next_at:
            return
        self.next_at, self.counter = now + 0.008, (self.counter + 256) % 65536
        data = b"\x80" * 3 + self.value + b"\x80\x80"
        self.real_time(0xC000, 0xC001, data.ljust(40, b"\0") + struct.pack(">HBB", self.counter, 0x35, 0))

    def real_time(self, tag, frame_id, octets):
        self.send(self.controller[:6] + self.mac + struct.pack(">HHHH", 0x8100, tag, 0x8892, frame_id) + octets)

    def hear(self, came):
        number = int.from_bytes(came[14:16], "big") if came[12:14] == b"\x88\x92" else 0
        end = {0xFC01: self.ends["high"], 0xFE01: self.ends["low"]}.get(number)
        if end is not None and came[:6] == self.mac:
            self.hear_alarm(end, came[16:])
        else:
            super().hear(came)

    def call(self, came):
        kind = struct.unpack_from(">H", came, BLOCKS_AT)[0]
        self.asked.append(kind)
        if self.is_mute:
            return
        if kind == WRITE:
            length = struct.unpack_from(">I", came, BLOCKS_AT + 36)[0]
            self.records[place_of(came)] = came[BLOCKS_AT + 64:BLOCKS_AT + 64 + length]
        elif kind == READ:
            self.calls[READ] = ZEROS if place_of(came) in self.records else b"\xde\x80\xb0\0"
        elif kind == CONNECT:
            self.connect(came)
        elif kind == RELEASE and not self.silences.get(kind):
            self.ar = None
        super().call(came)
        if kind == PRM_END:
            self.call_ready()

    def blocks_to(self, kind, came):
        if kind != READ:
            return super().blocks_to(kind, came)
        record = self.records[place_of(came)]
        return block_of(0x8009, came[BLOCKS_AT + 6:BLOCKS_AT + 36] + struct.pack(">I", len(record)) + bytes(24)) + record

    def connect(self, came):
        """Keeps what the Connect says: the ARUUID and the SessionKey, the other end, and its LocalAlarmReference."""
        at, end = BLOCKS_AT, BLOCKS_AT + int.from_bytes(came[BLOCKS_AT - 16:BLOCKS_AT - 12], "big")
        while at < min(end, len(came)):
            kind, length = struct.unpack_from(">HH", came, at)
            if kind == 0x0101:
                self.object = came[at + 32:at + 48]
            elif kind == 0x0103:
                self.other_reference = struct.unpack_from(">H", came, at + 18)[0]
            at += 4 + length
        self.ends = {"high": End(False), "low": End(True)}
        self.controller = came[6:12] + came[26:30] + came[30:34]  # its MAC and address, and this station's address
        self.ar = came[BLOCKS_AT + 8:BLOCKS_AT + 26]

    def call_ready(self):
        """Calls ApplicationReady."""
        block = block_of(READY, bytes(2) + self.ar[:16] + self.ar[16:] + struct.pack(">HHH", 0, 2, 0))
        body = struct.pack(">5I", len(block), len(block), len(block), 0, len(block)) + block
        head = (bytes.fromhex("04002000" "00000000") + self.object + bytes.fromhex("dea000026c9711d1827100a02442df7d") + b"\x5e" * 16 +
                struct.pack(">IIIHHHHHBB", 0, 1, 0, 4, 0xFFFF, 0xFFFF, len(body), 0, 0, 0))
        self.send(self.controller[:6] + self.mac + b"\x08\0" + internet(self.controller[10:14], self.controller[6:10], head + body))

    # ---- alarms

    def pdu(self, end, kind, body=b""):
        head = struct.pack(">HHBBHHH", self.other_reference, self.reference, 0x10 | kind, 0x11 if kind == 1 else 1, end.sent, end.taken, len(body))
        self.real_time(end.tag, end.frame_id, head + body)

    def raises(self, name, alarm_type, slot, subslot, specifier, octets, idents=(16, 16), is_again=False):
        """Sends an alarm of this priority: `octets` follow the specifier."""
        end = self.ends[name]
        if not is_again:
            end.sent = 0xFFFF if end.sent == 0xFFFE else (end.sent + 1) % 32768
        self.pdu(end, 1, block_of(end.block, struct.pack(">HIHHIIH", alarm_type, 0, slot, subslot, *idents, specifier) + octets))

    def hear_alarm(self, end, octets):
        destination, source, kind, _, number, acked, _ = struct.unpack_from(">HHBBHHH", octets)
        if (destination, source) != (self.reference, self.other_reference):
            end.acked.append(f"a PDU from {source} to {destination}")
        elif kind & 15 == 3:
            end.acked.append(acked)
        elif kind & 15 == 1:
            block, alarm_type, _, slot, subslot, specifier, status = struct.unpack_from(">H4xHIHHHI", octets, 12)
            if number != end.taken:
                end.acknowledged.append((block, alarm_type, slot, subslot, specifier, status))
            end.taken = number
            self.pdu(end, 3)


# ---- who calls a device

def scapys_connect():
    """The blocks of the Connect that Scapy built for the demo station."""
    with open(os.path.join(TOP, "examples", "exchange.txt"), encoding="ascii") as script:
        frames = [line.split()[1] for line in script if line.startswith("frame ")]
    return next(bytes.fromhex(frame)[RPC_AT + 100:] for frame in frames if frame[24:28] == "0800")


def chosen_in(blocks):
    """What the answer to a Connect chooses: the FrameID of outputs, and the endpoint of the device's alarms."""
    frame_id = endpoint = None
    while len(blocks) >= 4:
        kind, length = struct.unpack_from(">HH", blocks)
        if kind == 0x8102 and struct.unpack_from(">H", blocks, 6)[0] == 2:
            frame_id = struct.unpack_from(">H", blocks, 10)[0]
        if kind == 0x8103:
            endpoint = struct.unpack_from(">H", blocks, 8)[0]
        blocks = blocks[4 + length:]
    return frame_id, endpoint


def texts(number, count):
    """That many records of I&M2 and I&M3 in turn, each with a text of its own: slot, subslot, index and octets."""
    return [(0, 1, 0xAFF2 + at % 2, block_of(0x22 + at % 2, f"{number} {at}".encode().ljust((16, 54)[at % 2]))) for at in range(count)]


def arguments(blocks, most=None):
    """Blocks after the sizes of the arguments of a call."""
    return struct.pack(">5I", most or len(blocks), len(blocks), most or len(blocks), 0, len(blocks)) + blocks


class Opener:
    """Calls the demo station at d0 from c0, as a controller does: from this MAC address and this IP address, with the CMInitiatorMacAdd `initiator`,
    which is that MAC address if it has no name. `seconds`: the activity timeout of its relation."""

    # In the first block of a Connect: the ARUUID, CMInitiatorMacAdd, CMInitiatorActivityTimeoutFactor.
    AR_AT, INITIATOR_AT, TIMEOUT_AT = 8, 26, 52

    def __init__(self, wire, mac, address="192.168.0.1", initiator=None, seconds=60):
        self.link, self.mac, self.address = wire.socket(), mac, address_of(address)
        self.initiator, self.seconds = initiator or mac, seconds
        self.ar, self.activity, self.sequence = os.urandom(16), os.urandom(16), 0
        self.interface = bytes.fromhex("dea000016c9711d1827100a02442df7d")

    def close(self):
        self.link.close()

    def send(self, operation, body, pieces=1):
        """Sends a call, in that many fragments."""
        size = -(-len(body) // pieces)
        for number in range(pieces):
            part = body[number * size:(number + 1) * size]
            flags = 0x20 | (0 if pieces == 1 else 0x0E if number == pieces - 1 else 0x0C)
            head = bytes((4, 0, flags, 0, 0, 0, 0, 0)) + bytes.fromhex("dea000006c9711d18271000104560123") + self.interface + self.activity
            head += struct.pack(">IIIHHHHHBB", 0, 1, self.sequence, operation, 0xFFFF, 0xFFFF, len(part), number, 0, 0)
            self.link.send((DEVICE + self.mac + b"\x08\0" + internet(self.address, address_of("192.168.0.2"), head + part)).ljust(60, b"\0"))
        self.sequence += 1

    def call(self, operation, body, pieces=1, seconds=1.0):
        """The PNIOStatus of the response and its blocks; None without a response."""
        drain(self.link)
        self.send(operation, body, pieces)
        ends = time.monotonic() + seconds
        while (left := ends - time.monotonic()) > 0:
            self.link.settimeout(left)
            try:
                came = self.link.recv(2048)
            except TimeoutError:
                return None
            if came[:6] == self.mac and came[12:14] == b"\x08\0" and came[RPC_AT + 1] == 2 and came[RPC_AT + 40:RPC_AT + 56] == self.activity:
                return came[RPC_AT + 80:RPC_AT + 84], came[BLOCKS_AT:]
        return None

    def blocks_of_connect(self):
        blocks = bytearray(scapys_connect())
        blocks[self.AR_AT:self.AR_AT + 16] = self.ar
        blocks[self.INITIATOR_AT:self.INITIATOR_AT + 6] = self.initiator
        blocks[self.TIMEOUT_AT:self.TIMEOUT_AT + 2] = struct.pack(">H", self.seconds * 10)
        return blocks

    def connect(self, pieces=1):
        return self.call(0, arguments(bytes(self.blocks_of_connect()), 4096), pieces)

    def header(self, slot, subslot, index, length, api=0):
        return block_of(8, struct.pack(">H16sIHHHHI24s", self.sequence, self.ar, api, slot, subslot, 0, index, length, bytes(24)))

    def write(self, records, pieces=1, seconds=1.0):
        """Writes one record, or several as a list: each is its slot, subslot, index and octets."""
        blocks = b"".join(self.header(slot, subslot, index, len(octets)) + octets.ljust(-(-len(octets) // 4) * 4, b"\0")
                          for slot, subslot, index, octets in records)
        if len(records) == 1:
            blocks = blocks[:64 + len(records[0][3])]
        else:
            blocks = self.header(0xFFFF, 0xFFFF, 0xE040, len(blocks), 0xFFFFFFFF) + blocks
        return self.call(3, arguments(blocks), pieces, seconds)

    def read_implicit(self, index, ar):
        """Sends a Read Implicit at slot 0, subslot 1, that names a relation, and waits for no answer."""
        self.send(5, arguments(block_of(9, struct.pack(">H16sIHHHHI24s", 1, ar, 0, 0, 1, 0, index, 4096, bytes(24))), 4096))

    def release(self):
        return self.call(1, arguments(block_of(RELEASE, bytes(2) + self.ar + struct.pack(">4H", 1, 0, 4, 0))))


class Parametrizer(Opener, threading.Thread):
    """A controller that exchanges data with the demo station, each 8 ms, and acknowledges its alarms of low priority. For each plug that is reported
    it writes `records` of its place, ends its parameters, and answers ApplicationReady with `status`."""

    OUTPUT_FRAME, COUNTER_STEP = 40, 256
    # In an IOCRBlockReq: ReductionRatio, WatchdogFactor and DataHoldFactor.
    RATIO_AT, FACTORS_AT = 22, 32

    def __init__(self, wire, mac):
        Opener.__init__(self, wire, mac)
        threading.Thread.__init__(self, daemon=True)
        self.records, self.status, self.value = {}, ZEROS, bytes(2)
        self.alarms, self.inputs, self.answers = [], b"", []
        self.sent, self.counter, self.is_over = 0xFFFE, 0, False

    def blocks_of_connect(self):
        blocks = bytearray(super().blocks_of_connect())
        for at in range(len(blocks) - 4):
            if blocks[at:at + 6] == b"\1\2\0\x50\1\0":
                struct.pack_into(">H", blocks, at + self.RATIO_AT, 8)
                struct.pack_into(">HH", blocks, at + self.FACTORS_AT, 240, 240)
        return blocks

    def starts(self, ready):
        """Opens the relation, and exchanges data once the device is ready: `ready` is called when its parameters have ended."""
        status, blocks = self.connect()
        self.frame_id, self.endpoint = chosen_in(blocks)
        assert status == ZEROS, status
        assert self.call(4, arguments(block_of(PRM_END, bytes(2) + self.ar + struct.pack(">4H", 1, 0, 1, 0))))[0] == ZEROS
        ready()
        self.start()

    def stops(self):
        self.is_over = True
        self.join()
        self.link.close()

    def run(self):
        next_at = time.monotonic()
        while not self.is_over:
            try:
                if time.monotonic() >= next_at:
                    next_at += 0.008
                    self.give()
                self.link.settimeout(max(0.0005, next_at - time.monotonic()))
                self.hear(self.link.recv(2048))
            except OSError:  # nothing came, or the link is down
                continue

    def give(self):
        self.counter = (self.counter + self.COUNTER_STEP) % 65536
        data = (self.value + 5 * b"\x80").ljust(self.OUTPUT_FRAME, b"\0")
        self.real_time(0xC000, self.frame_id, data + struct.pack(">HBB", self.counter, 0x35, 0))

    def real_time(self, tag, frame_id, octets):
        self.link.send((DEVICE + self.mac + struct.pack(">HHHH", 0x8100, tag, 0x8892, frame_id) + octets).ljust(60, b"\0"))

    def hear(self, came):
        if came[:6] != self.mac:
            return
        if came[12:16] == b"\x88\x92\xc0\1":  # the kernel took the tag out
            self.inputs = came[16:23]
        elif came[12:16] == b"\x88\x92\xfe\1" and came[20] & 15 == 1:
            self.hear_alarm(came[16:])
        elif came[12:14] == b"\x08\0" and came[RPC_AT + 1] == 0:
            self.hear_ready(came)
        elif came[12:14] == b"\x08\0" and came[RPC_AT + 1] == 2:
            self.answers.append(came[RPC_AT + 80:RPC_AT + 84])

    def pdu(self, kind, accepted, body=b""):
        head = struct.pack(">HHBBHHH", self.endpoint, 1, 0x10 | kind, 0x11 if kind == 1 else 1, self.sent, accepted, len(body))
        self.real_time(0xA000, 0xFE01, head + body)

    def hear_alarm(self, octets):
        """An alarm: AlarmType, slot, subslot, AlarmSpecifier."""
        number = struct.unpack_from(">H", octets, 6)[0]
        alarm_type, slot, subslot, specifier = struct.unpack_from(">H4xHH8xH", octets, 18)
        self.pdu(3, number)
        if self.alarms and self.alarms[-1][0] == number:
            return
        self.alarms.append((number, alarm_type, slot, subslot, specifier))
        self.sent = 0xFFFF if self.sent == 0xFFFE else (self.sent + 1) % 32768
        self.pdu(1, number, block_of(0x8002, struct.pack(">HIHHHI", alarm_type, 0, slot, subslot, specifier, 0)))
        if alarm_type == 4:
            self.parametrizes(slot, subslot, specifier % 2048)

    def parametrizes(self, slot, subslot, number):
        for index, octets in self.records.get((slot, subslot), ()):
            self.send(3, arguments(self.header(slot, subslot, index, len(octets)) + octets))
        self.send(4, arguments(block_of(PLUG_PRM_END, bytes(2) + self.ar + struct.pack(">4H", 1, number, 1, 0))))

    def hear_ready(self, came):
        """ApplicationReady, of the start-up or of a plug."""
        block, fields = struct.unpack_from(">H", came, BLOCKS_AT)[0], came[BLOCKS_AT + 6:BLOCKS_AT + 28]
        status = ZEROS if block == READY else self.status
        blocks = block_of(block | 0x8000, fields + struct.pack(">HH", 8, 0)) if status == ZEROS else b""
        head, order = bytearray(came[RPC_AT:RPC_AT + 80]), "<" if came[RPC_AT + 4] >> 4 == 1 else ">"
        body = struct.pack(order + "5I", int.from_bytes(status, "big"), len(blocks), len(blocks), 0, len(blocks)) + blocks
        head[1:3], head[74:76] = bytes((2, 0x0A)), struct.pack(order + "H", len(body))
        self.link.send((DEVICE + self.mac + b"\x08\0" + internet(self.address, address_of("192.168.0.2"), bytes(head) + body)).ljust(60, b"\0"))
