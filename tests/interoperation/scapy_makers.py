#!/usr/bin/python3
"""Frames of stations of other makers for the controller of this repository, and what it has to send: Scapy's own layers build both, and no
encoder of this repository takes part. Where Scapy has no layer (a ModuleDiffBlock, blocks of other types), the octets are put together
here by the fields of IEC 61158-6-10.

    tests/interoperation/scapy_makers.py            prints the scenarios, as tests/ends/src/makers.txt has them
    tests/interoperation/scapy_makers.py --check    status 1 where that file differs

A line `scenario NAME` begins with a new controller. `in HEX` is a frame that it receives, `tick N` that many units; each `out HEX` below
is a frame that it has to send for that, and it sends no other. `pass N` is that many units too, but its cyclic frames are not listed.
`state`, `deviates`, `refusal`, `refused` (number and status of a record), `alarm` and `answer` are what it then tells, and
`diagnoses LEFT_OUT SLOT SUBSLOT CHANNEL ERROR, ..` what it lists of the station's diagnosis, and how many more found no room;
`place SLOT SUBSLOT WORD` what it knows of a place of its plan (`-` for nothing);
`report PRIORITY ..` its last alarm of a priority: the SendSeqNum, AlarmType, API, slot, subslot, both idents, AlarmSpecifier and
UserStructureIdentifier in decimal (`-` for none), and the data in hex. `read SLOT SUBSLOT INDEX`, `write SLOT SUBSLOT INDEX HEX` and `stop`
are requests of its application, and `number N` is what the library for C then returns: 0, 8 for a record that is too long, or 26 where no
request can be made. `run N HEX` is N intervals, after each of which this cyclic frame comes, with the next CycleCounter; the
frames of outputs are not compared. `catalogue JSON` begins the scenario anew with another plan than that of the demo station.

Needs Scapy (Debian: apt-get install python3-scapy; 2.5.0 was used).
"""

import json
import os
import struct
import sys

sys.path.insert(0, os.path.join(os.path.dirname(os.path.realpath(__file__)), "..", "..", "ci"))
from program import answer_help, refuse

if __name__ == "__main__":
    answer_help(__doc__, sys.argv[1:])  # which needs no Scapy

import scapy_exchange as exchange
import scapy_relation as relation
import scapy_station as station
from scapy_calls import BIG, DEVICE, LITTLE
from scapy_exchange import ACK, DATA, ERR, NACK, NONE_SENT, NONE_TAKEN, TOOL
from scapy_relation import AR, PRM_END
from scapy_station import Plan, padded, response
from scapy.compat import raw
from scapy.contrib.pnio import ProfinetIO
from scapy.contrib.pnio_rpc import (
    Alarm_High, Alarm_Low, AlarmCRBlockRes, AlarmItem, AlarmNotification_High, AlarmNotification_Low, ARBlockRes, DiagnosisItem,
    IOCRBlockRes, IODControlRes, IODReadRes, IODWriteRes, MaintenanceItem, PNIOServiceReqPDU)
from scapy.layers.dcerpc import DceRpc4
from scapy.layers.inet import IP, UDP
from scapy.layers.l2 import Ether
from scapy.packet import Raw

WANTED = os.path.join(relation.TOP, "tests", "ends", "src", "makers.txt")
PLAN = Plan(32, 1, 3, ())
CONNECT, END = station.requests(PLAN)
SUITE = bytes((192, 168, 0, 2, 255, 255, 255, 0, 0, 0, 0, 0))
# Other makers choose other numbers: FrameID of outputs, alarm endpoint, MaxAlarmDataLength.
OUTPUT, REFERENCE, LONGEST = 0x8123, 7, 1432


def block(kind, octets, version=0x0100):
    """A block of any type and version."""
    return Raw(struct.pack(">HHH", kind, len(octets) + 2, version) + octets)


def diff(*modules):
    """A ModuleDiffBlock: slot, ident, state of each module, and subslot, ident, state of its submodules."""
    octets = struct.pack(">HIH", 1, 0, len(modules))
    for slot, ident, state, submodules in modules:
        octets += struct.pack(">HIHH", slot, ident, state, len(submodules))
        octets += b"".join(struct.pack(">HIH", *submodule) for submodule in submodules)
    return block(0x8104, octets)


SERVER = block(0x8106, struct.pack(">H", 7) + b"pump-1\0" + bytes(1))


def blocks(reference=REFERENCE, longest=LONGEST, output=OUTPUT, before=(), behind=()):
    """The blocks of a positive answer to Connect; outputs come first."""
    return [
        *before,
        ARBlockRes(ARUUID=AR, SessionKey=1, CMResponderMacAdd=DEVICE, CMResponderUDPRTPort=0x8892),
        IOCRBlockRes(IOCRType=2, IOCRReference=2, FrameID=output), IOCRBlockRes(IOCRType=1, IOCRReference=1, FrameID=0xC001),
        AlarmCRBlockRes(LocalAlarmReference=reference, MaxAlarmDataLength=longest), *behind]


def release(sequence):
    return station.release(sequence)


def ended(asked, endian=LITTLE):
    """The answer to PrmEnd."""
    return response(asked, [IODControlRes(block_type=PRM_END + 0x8000, ARUUID=AR, SessionKey=1)], endian=endian)


def ready(port, *behind):
    """ApplicationReady from any port, with blocks behind its own."""
    call = relation.the_ready()
    call[UDP].sport = port
    call[PNIOServiceReqPDU].blocks.extend(behind)
    return Ether(raw(call))


def ready_answer(call):
    """What the controller answers to it."""
    answer = relation.ready_answer(Ether(raw(relation.the_ready())), BIG)
    answer[UDP].dport = call[UDP].sport
    answer[UDP].chksum = None
    return answer


def alarm_pdu(source, kind, sent, taken, destination, origin, body=b""):
    """An alarm PDU between these endpoints."""
    header = Alarm_High(AlarmDstEndpoint=destination, AlarmSrcEndpoint=origin, PDUTypeType=1, PDUTypeVersion=kind,
                        AddFlags=0x11 if kind == DATA else 1, SendSeqNum=sent, AckSeqNum=taken, VarPartLen=len(raw(body)))
    return exchange.head(source) / ProfinetIO(frameID=0xFC01) / header / Raw(raw(body))


def low_pdu(source, kind, sent, taken, body=b"", priority=5, frame_id=0xFE01):
    """The same of low priority, between the endpoint 7 of a station and the controller's."""
    destination, origin = (1, REFERENCE) if source == DEVICE else (REFERENCE, 1)
    header = Alarm_Low(AlarmDstEndpoint=destination, AlarmSrcEndpoint=origin, PDUTypeType=1, PDUTypeVersion=kind,
                       AddFlags=0x11 if kind == DATA else 1, SendSeqNum=sent, AckSeqNum=taken, VarPartLen=len(raw(body)))
    return exchange.head(source, priority) / ProfinetIO(frameID=frame_id) / header / Raw(raw(body))


def high_pdu(source, kind, sent, taken, body=b""):
    """The same of high priority."""
    destination, origin = (1, REFERENCE) if source == DEVICE else (REFERENCE, 1)
    return alarm_pdu(source, kind, sent, taken, destination, origin, body)


def alarm(layer, kind, specifier, *items, slot=1, ident=16):
    """The block of an alarm of any type, with these items."""
    return layer(AlarmType=kind, SlotNumber=slot, SubslotNumber=1, ModuleIdentNumber=ident, SubmoduleIdentNUmber=ident + 1,
                 AlarmSpecifier=specifier, AlarmPayload=list(items))


class LowAlarmAck(exchange.AlarmAck):
    """The AlarmAck of low priority."""
    block_type = 0x8002


def acked(layer, kind, specifier, slot=1):
    """The AlarmAck of an alarm."""
    return layer(AlarmType=kind, SlotNumber=slot, SubslotNumber=1, AlarmSpecifier=specifier)


class Scenarios:
    def __init__(self):
        self.lines = []

    def begin(self, name, *comment):
        self.lines += ["", *(f"# {line}" for line in comment), f"scenario {name}"]
        self.hear(station.identified(suite=SUITE), CONNECT)
        self.state("connecting")

    def hear(self, packet, *sent):
        self.lines += [f"in {padded(packet).hex()}", *(f"out {padded(frame).hex()}" for frame in sent)]

    def asks(self, line, *sent):
        """What the application asks, and what the controller then has to send."""
        self.lines += [line, "number 0", *(f"out {padded(frame).hex()}" for frame in sent)]

    def stops(self, *sent):
        """The application stops it."""
        self.lines += ["stop", *(f"out {padded(frame).hex()}" for frame in sent)]

    def asks_in_vain(self, line, number):
        """What the application asks, and cannot have now."""
        self.lines += [line, f"number {number}"]

    def runs(self, intervals):
        self.lines.append(f"run {intervals} {padded(INPUT).hex()}")

    def outputs_alone(self, *others):
        """Of the frames of outputs none is compared."""
        self.lines += ["outputs", *others]

    def state(self, *words):
        self.lines.append(" ".join(("state", *words)))

    def tells(self, word):
        self.lines.append(word)

    def passes(self, units, *sent):
        """That number of units; cyclic frames are not listed."""
        self.lines += [f"pass {units}", *(f"out {padded(frame).hex()}" for frame in sent)]

    def reports(self, priority, *words):
        self.lines.append(" ".join(("report", priority, *(str(word) for word in words))))

    def connected(self, *words, **named):
        self.hear(response(CONNECT, blocks(*words, **named), endian=LITTLE), END)
        self.state("ending")

    def dropped(self, found, endian=LITTLE):
        self.hear(response(CONNECT, found, endian=endian))
        self.state("connecting")

    def started(self, port=49153, *behind):
        self.hear(ended(END))
        self.state("waiting")
        call = ready(port, *behind)
        self.hear(call, ready_answer(call))
        self.state("exchanging")


def answers(say):
    """Answers to a Connect."""
    say.begin("a-whole-start-up", "Little-endian, outputs first, endpoint 7, 1,432 octets, and the name of the station in a block of its own.")
    say.connected(behind=(SERVER,))
    say.tells("deviates no")
    say.started()

    say.begin("other-blocks", "Blocks of other types are skipped at any place, whatever their version and their content.")
    say.connected(before=(block(0x8107, bytes(4), 0x0205), SERVER), behind=(block(0x7F00, b""), block(0x0101, b"\1")))
    say.started(34964, block(0xF001, bytes(9)), Raw(b"\1\2\3"))

    say.begin("a-block-past-the-end", "One that runs past the end makes the answer unread, and so do octets that are no whole block.")
    cut = raw(SERVER)[:-1]
    say.dropped(blocks(behind=(Raw(cut),)))
    say.dropped(blocks(behind=(Raw(b"\x81\x06\0"),)))
    say.connected()

    say.begin("lengths", "MaxAlarmDataLength is 200 to 1,432, and AlarmCRBlockRes has version 1.0 and 8 octets.")
    for longest in (0, 199, 1433, 65535):
        say.dropped(blocks(longest=longest))
    whole = raw(AlarmCRBlockRes(LocalAlarmReference=7, MaxAlarmDataLength=200))
    for bent in (whole[:4] + b"\2" + whole[5:], whole[:5] + b"\1" + whole[6:], whole[:3] + b"\x0a" + whole[4:] + bytes(2)):
        say.dropped(blocks()[:-1] + [Raw(bent)])
    say.dropped(blocks()[:-1])
    say.connected(longest=200)

    say.begin("the-first-of-a-kind", "Of a FrameID of outputs and of an endpoint that are given twice the first counts.")
    say.connected(behind=(IOCRBlockRes(IOCRType=2, IOCRReference=2, FrameID=0x8124), AlarmCRBlockRes(LocalAlarmReference=9, MaxAlarmDataLength=200)))
    say.started()
    say.lines.append(f"tick 32")
    frame = padded(exchange.outputs(bytes(2), 32, False, frame_id=OUTPUT))
    say.lines.append(f"out {frame.hex()}")


def alarms(say):
    """Alarms of a station whose endpoint is 7."""
    say.begin("an-alarm-from-endpoint-7", "The ACK and the AlarmAck go to endpoint 7.")
    say.connected()
    say.started()
    note = exchange.notification(1, 16, 5, b"\xab\xcd")
    ack = exchange.AlarmAck(AlarmType=2, SlotNumber=1, SubslotNumber=1, AlarmSpecifier=5)
    for origin in (1, 6, 8, 0):
        say.hear(alarm_pdu(DEVICE, DATA, 0xFFFF, 0xFFFE, 1, origin, note))
        say.tells("alarm -")
    say.hear(alarm_pdu(DEVICE, DATA, 0xFFFF, 0xFFFE, 7, 7, note))
    say.tells("alarm -")
    say.hear(alarm_pdu(DEVICE, DATA, 0xFFFF, 0xFFFE, 1, 7, note), alarm_pdu(TOOL, ACK, 0xFFFF, 0xFFFF, 7, 1),
             alarm_pdu(TOOL, DATA, 0xFFFF, 0xFFFF, 7, 1, ack))
    say.tells("alarm 2 1 1 5 abcd")
    say.state("exchanging")
    # The ACK of another endpoint is not one: the AlarmAck is sent again.
    say.hear(alarm_pdu(DEVICE, ACK, 0xFFFF, 0xFFFF, 1, 1))
    say.hear(alarm_pdu(DEVICE, ACK, 0xFFFF, 0xFFFF, 1, 7))


DIAGNOSIS = DiagnosisItem(UserStructureIdentifier=0x8000, ChannelNumber=3, ChannelProperties=0x0800, ChannelErrorType=1)
APPEARS = alarm(AlarmNotification_Low, 1, 0xA800, DIAGNOSIS)
PROCESS = alarm(AlarmNotification_High, 2, 5, AlarmItem(UserStructureIdentifier=1, load=Raw(b"\xab\xcd")))


def take_low(say, number, taken, block, kind, specifier, slot=1, source=low_pdu):
    """An alarm of low priority under this number, of which the controller has confirmed as many as it was sent."""
    say.hear(source(DEVICE, DATA, number, taken, block), low_pdu(TOOL, ACK, taken if taken != NONE_TAKEN else NONE_SENT, number),
             low_pdu(TOOL, DATA, number, number, acked(LowAlarmAck, kind, specifier, slot)))


def take_high(say, number, taken, block, kind, specifier, slot=1, source=high_pdu):
    """The same of high priority."""
    say.hear(source(DEVICE, DATA, number, taken, block), high_pdu(TOOL, ACK, taken if taken != NONE_TAKEN else NONE_SENT, number),
             high_pdu(TOOL, DATA, number, number, acked(exchange.AlarmAck, kind, specifier, slot)))


def priorities(say):
    """Alarms of both priorities, of any type and with any UserStructureIdentifier."""
    say.begin("alarms-of-both-priorities", "Each priority has its FrameID, its tag, its block types and its numbers.")
    say.connected()
    say.started()
    say.reports("high", "-")
    say.reports("low", "-")
    take_low(say, 0xFFFF, NONE_TAKEN, APPEARS, 1, 0xA800)
    say.reports("low", 65535, 1, 0, 1, 1, 16, 17, 0xA800, 0x8000, "000308000001")
    say.reports("high", "-")
    say.tells("alarm -")
    take_high(say, 0xFFFF, NONE_TAKEN, PROCESS, 2, 5)
    say.reports("high", 65535, 2, 0, 1, 1, 16, 17, 5, 1, "abcd")
    say.reports("low", 65535, 1, 0, 1, 1, 16, 17, 0xA800, 0x8000, "000308000001")
    # A repeat gets its ACK again, and is not told twice; an unexpected number gets a NACK.
    say.hear(low_pdu(DEVICE, DATA, 0xFFFF, NONE_TAKEN, APPEARS), low_pdu(TOOL, ACK, 0xFFFF, 0xFFFF))
    say.hear(low_pdu(DEVICE, DATA, 5, NONE_TAKEN, APPEARS), low_pdu(TOOL, NACK, 0xFFFF, 0xFFFF))
    say.hear(high_pdu(DEVICE, DATA, 0xFFFF, NONE_TAKEN, PROCESS), high_pdu(TOOL, ACK, 0xFFFF, 0xFFFF))
    # One that is equal to the one before it has another number.
    take_low(say, 0, 0xFFFF, APPEARS, 1, 0xA800)
    say.reports("low", 0, 1, 0, 1, 1, 16, 17, 0xA800, 0x8000, "000308000001")
    # Pull, with neither UserStructureIdentifier nor data; plug; return of submodule; maintenance, of any FrameID.
    take_high(say, 0, 0xFFFF, alarm(AlarmNotification_High, 3, 6, slot=2, ident=32), 3, 6, 2)
    say.reports("high", 0, 3, 0, 2, 1, 32, 33, 6, "-", "-")
    say.tells("alarm 3 2 1 6 ")
    take_low(say, 1, 0, alarm(AlarmNotification_Low, 4, 1, slot=2, ident=32), 4, 1, 2, source=lambda *words: low_pdu(*words, frame_id=0xFC01, priority=6))
    say.reports("low", 1, 4, 0, 2, 1, 32, 33, 1, "-", "-")
    take_high(say, 1, 0, alarm(AlarmNotification_High, 0x0B, 7), 0x0B, 7, source=lambda *words: low_pdu(*words))
    say.reports("high", 1, 11, 0, 1, 1, 16, 17, 7, "-", "-")
    maintenance = MaintenanceItem(UserStructureIdentifier=0x8100, block_type=0x0F00, MaintenanceStatus=1)
    take_low(say, 2, 1, alarm(AlarmNotification_Low, 1, 2, maintenance), 1, 2)
    say.reports("low", 2, 1, 0, 1, 1, 16, 17, 2, 0x8100, raw(maintenance)[2:].hex())
    take_low(say, 3, 2, alarm(AlarmNotification_Low, 0x0C, 0, AlarmItem(UserStructureIdentifier=0x7FFF)), 0x0C, 0)
    say.reports("low", 3, 12, 0, 1, 1, 16, 17, 0, 0x7FFF, "-")
    # A block that ends in its UserStructureIdentifier, one of version 1.1, and one of another type are no alarms.
    whole = raw(alarm(AlarmNotification_Low, 1, 3))
    for bent in (whole[:3] + b"\x17" + whole[4:] + b"\0", whole[:5] + b"\1" + whole[6:], b"\0\3" + whole[2:], whole[:-1]):
        say.hear(low_pdu(DEVICE, DATA, 4, 3, Raw(bent)))
    say.reports("low", 3, 12, 0, 1, 1, 16, 17, 0, 0x7FFF, "-")
    # The numbers of an ERR of the station are not looked at.
    say.hear(low_pdu(DEVICE, ERR, 9, 9, Raw(b"\xcf\x81\xfd\x0d")))
    say.state("ended", "5")

    say.begin("both-alarm-acks-are-repeated", "Each until its own ACK: under 0xFE01 that of low priority, once an AlarmAck of low priority was sent.")
    say.connected()
    say.hear(ended(END))
    take_high(say, 0xFFFF, NONE_TAKEN, PROCESS, 2, 5)
    take_low(say, 0xFFFF, NONE_TAKEN, APPEARS, 1, 0xA800)
    high, low = (high_pdu(TOOL, DATA, 0xFFFF, 0xFFFF, acked(exchange.AlarmAck, 2, 5)), low_pdu(TOOL, DATA, 0xFFFF, 0xFFFF, acked(LowAlarmAck, 1, 0xA800)))
    say.passes(3199)
    say.passes(1, high, low)
    say.hear(low_pdu(DEVICE, ACK, 0xFFFF, 0xFFFF))
    say.passes(3200, high)
    say.hear(low_pdu(DEVICE, ACK, 0xFFFF, 0xFFFF))
    say.passes(3200, high)
    say.hear(high_pdu(DEVICE, ACK, 0xFFFF, 0xFFFF))
    say.passes(6400)
    say.state("waiting")

    say.begin("an-ack-of-high-priority-under-fe01", "Before an AlarmAck of low priority was sent an ACK under either FrameID is of high priority.")
    say.connected()
    say.hear(ended(END))
    take_high(say, 0xFFFF, NONE_TAKEN, PROCESS, 2, 5)
    say.hear(low_pdu(DEVICE, ACK, 0xFFFF, 0xFFFF))
    say.passes(12800)
    say.state("waiting")

    say.begin("repeats-of-low-priority-are-spent", "The relation ends by an ERR, which has the numbers of high priority.")
    say.connected()
    say.hear(ended(END))
    take_low(say, 0xFFFF, NONE_TAKEN, APPEARS, 1, 0xA800)
    low = low_pdu(TOOL, DATA, 0xFFFF, 0xFFFF, acked(LowAlarmAck, 1, 0xA800))
    for _ in range(3):
        say.passes(3200, low)
    say.passes(3199)
    say.passes(1, low_pdu(TOOL, ERR, NONE_SENT, NONE_TAKEN, Raw(b"\xcf\x81\xfd\x0d")))
    say.state("ended", "6")


# What a ModuleDiffBlock may say, and whether the relation then stands.
DIFFS = [
    ("a-diagnosis", "A diagnosis alone: proper module, proper submodule, bit 6.", True, ((1, 16, 2, ((1, 16, 0x8040),)),)),
    ("a-substitute", "A substitute, with requests for maintenance (bits 4 and 5) and advice (bits 0 to 2).", True,
     ((1, 17, 3, ((1, 17, 0x8800 | 0x37),)), (2, 32, 2, ()))),
    ("no-module", "No module: ModuleState 0.", False, ((1, 0, 0, ((1, 0, 0x9800),)),)),
    ("a-wrong-module", "A wrong module: ModuleState 1.", False, ((1, 17, 1, ()),)),
    ("module-state-4", "ModuleState 4.", False, ((1, 17, 4, ()),)),
    ("a-wrong-submodule", "IdentInfo 2 beside a diagnosis.", False, ((1, 16, 2, ((1, 17, 0x9000 | 0x40),)),)),
    ("no-submodule", "IdentInfo 3.", False, ((1, 16, 2, ((1, 0, 0x9800),)),)),
    ("ident-info-9", "IdentInfo 9: its highest bit counts.", False, ((1, 16, 2, ((1, 16, 0xC800),)),)),
    ("superordinated", "ARInfo 1: superordinated controller.", False, ((1, 16, 2, ((1, 16, 0x8080),)),)),
    ("locked", "ARInfo 2: locked by another controller.", False, ((1, 16, 2, ((1, 16, 0x8100),)),)),
    ("ar-info-8", "ARInfo 8: its highest bit counts.", False, ((1, 16, 2, ((1, 16, 0x8400),)),)),
    ("no-format-indicator", "Bit 15 is clear: the old form.", False, ((1, 16, 2, ((1, 16, 0x0040),)),)),
    ("the-last-of-many", "Of three modules the last submodule is a wrong one.", False,
     ((0, 1, 2, ((1, 1, 0x8040), (0x8000, 2, 0x8000))), (1, 16, 2, ((1, 16, 0x8000),)), (2, 32, 2, ((1, 33, 0x9000),)))),
]


class Told:
    """Alarms of a station, one after the other, and the list that the controller has to keep of them."""

    def __init__(self, say):
        self.say = say
        self.is_listed = True  # whether the list is compared after each alarm
        self.next = {"low": 0xFFFF, "high": 0xFFFF}
        self.last = {"low": NONE_TAKEN, "high": NONE_TAKEN}

    def alarm(self, kind, items, *found, priority="low", slot=1, left_out=0):
        """An alarm of this type with these items, after which the list is this one: slot, subslot, channel and error of each."""
        number, taken = self.next[priority], self.last[priority]
        layer, take = (AlarmNotification_Low, take_low) if priority == "low" else (AlarmNotification_High, take_high)
        take(self.say, number, taken, alarm(layer, kind, 0xA800, *items, slot=slot), kind, 0xA800, slot)
        if self.is_listed:
            self.say.tells(listed(found, left_out))
        self.before = taken
        self.last[priority], self.next[priority] = number, (number + 1) & 0x7FFF if number != 0xFFFF else 0

    def changes(self, specifier, channel, error, *found, kind=None, slot=1, left_out=0):
        """An alarm of a channel with this Specifier."""
        kind = kind if kind is not None else (1 if specifier == 1 else 0x0C)
        self.alarm(kind, [channel_item(specifier, channel, error)], *found, slot=slot, left_out=left_out)


def channel_item(specifier, channel, error, more=0):
    """ChannelDiagnosis. `more` are further bits of ChannelProperties."""
    return DiagnosisItem(UserStructureIdentifier=0x8000, ChannelNumber=channel, ChannelProperties=specifier << 11 | more, ChannelErrorType=error)


def listed(found, left_out=0):
    return f"diagnoses {left_out} " + (", ".join(" ".join(str(number) for number in one) for one in found) or "-")


def diagnoses(say):
    """What the controller knows of a station's diagnosis."""
    say.begin("diagnoses-of-alarms", "Specifier 1 adds a diagnosis, 2 and 3 take it away, 0 takes away all of its channel.")
    say.connected()
    say.started()
    say.tells(listed(()))
    told = Told(say)
    one, two, three, other = (1, 1, 3, 1), (1, 1, 3, 6), (1, 1, 4, 1), (2, 1, 3, 1)
    told.changes(1, 3, 1, one)
    told.changes(1, 3, 6, one, two)
    told.changes(1, 4, 1, one, two, three)
    told.changes(1, 3, 1, one, two, three, other, slot=2)
    # One that exists stays where it is; one that does not exist is not taken away, nor one of another channel or error.
    told.changes(1, 3, 1, one, two, three, other)
    told.changes(2, 5, 1, one, two, three, other)
    told.changes(2, 4, 6, one, two, three, other)
    told.changes(3, 4, 1, one, two, three, other, slot=2)
    told.changes(3, 3, 1, two, three, other)
    told.changes(1, 3, 1, two, three, other, one)
    told.changes(0, 3, 9, three, other)
    told.changes(2, 4, 1, other)
    # The type and the other bits of ChannelProperties are not looked at; the whole submodule is a channel like the others.
    told.changes(1, 0x8000, 0x8001, other, (1, 1, 0x8000, 0x8001), kind=0x0C)
    told.alarm(1, [channel_item(1, 7, 0xFFFF, more=0xE7FF)], other, (1, 1, 0x8000, 0x8001), (1, 1, 7, 0xFFFF))
    told.changes(2, 0x8000, 0x8001, other, (1, 1, 7, 0xFFFF), kind=1)
    # Both priorities count.
    told.alarm(0x0C, [channel_item(2, 7, 0xFFFF)], other, priority="high")
    # No other alarm does: of another type, with another structure, with more than one channel, with fewer octets, or with none.
    for kind in (2, 6, 0x0B):
        told.alarm(kind, [channel_item(0, 3, 1)], other, slot=2)
    told.alarm(0x0C, [AlarmItem(UserStructureIdentifier=0x7FFF, load=Raw(raw(channel_item(0, 3, 1))[2:]))], other, slot=2)
    told.alarm(0x0C, [AlarmItem(UserStructureIdentifier=0x8000, load=Raw(raw(channel_item(0, 3, 1))[2:] * 2))], other, slot=2)
    told.alarm(0x0C, [AlarmItem(UserStructureIdentifier=0x8000, load=Raw(raw(channel_item(0, 3, 1))[2:7]))], other, slot=2)
    told.alarm(0x0C, [AlarmItem(UserStructureIdentifier=0x8000)], other, slot=2)
    told.alarm(0x0C, [], other, slot=2)
    # A repeat gets its ACK again and changes nothing.
    told.changes(2, 3, 1, slot=2)
    say.hear(low_pdu(DEVICE, DATA, told.last["low"], told.before, alarm(AlarmNotification_Low, 1, 0xA800, channel_item(1, 8, 1))),
             low_pdu(TOOL, ACK, told.last["low"], told.last["low"]))
    say.tells(listed(()))
    # It ends with the relation.
    told.changes(1, 3, 1, one)
    say.hear(low_pdu(DEVICE, ERR, 9, 9, Raw(b"\xcf\x81\xfd\x0d")))
    say.state("ended", "5")
    say.tells(listed(()))

    say.begin("more-diagnoses-than-room", "The list has room for 256: further ones are counted, and the others stay.")
    say.connected()
    say.started()
    told = Told(say)
    told.is_listed = False
    for channel in range(255):
        told.changes(1, channel, 1)
    told.is_listed = True
    found = [(1, 1, channel, 1) for channel in range(256)]
    told.changes(1, 255, 1, *found)
    told.changes(1, 256, 1, *found, left_out=1)
    told.is_listed = False
    told.changes(1, 255, 1)
    told.changes(1, 256, 1)
    told.changes(2, 256, 1)
    told.is_listed = True
    told.changes(2, 0, 1, *found[1:], left_out=2)
    told.changes(1, 256, 1, *found[1:], (1, 1, 256, 1), left_out=2)


def differences(say):
    for name, comment, stands, modules in DIFFS:
        say.begin(name, comment)
        if stands:
            say.connected(behind=(diff(*modules),))
            say.tells("deviates yes")
            say.started()
        else:
            say.hear(response(CONNECT, blocks(behind=(diff(*modules),)), endian=LITTLE), release(1))
            say.state("ended", "3")
            say.tells("deviates no")
    say.begin("two-blocks", "Of two ModuleDiffBlocks the second has a wrong module.")
    say.hear(response(CONNECT, blocks(before=(diff((1, 16, 2, ((1, 16, 0x8040),))),), behind=(diff((2, 33, 1, ())),))), release(1))
    say.state("ended", "3")


REJECT, FAULT, WORKING, NOCALL = 6, 3, 4, 5
# Statuses of DCE RPC: operation out of range, unknown interface, and one of PROFINET.
NO_OPERATION, NO_INTERFACE, BUSY = 0x1C010002, 0x1C010003, 0xDB814004


def packet(asked, kind, body=b"", endian=BIG, sequence=None, activity=None, flags=0x08, **bent):
    """A packet of another type in answer to a call."""
    call = Ether(raw(asked))[DceRpc4]
    return Ether(dst=TOOL, src=DEVICE) / IP(src=station.DEVICE_IP, dst=station.TOOL_IP, id=0, flags="DF") / UDP(sport=34964, dport=34964) / DceRpc4(
        ptype=kind, flags1=flags, endian=endian, object=call.object, if_id=relation.DEVICE_INTERFACE, act_id=activity or call.act_id,
        seqnum=call.seqnum if sequence is None else sequence, opnum=call.opnum, **bent) / Raw(body)


def word(status, endian):
    return status.to_bytes(4, "big" if endian == BIG else "little")


def refusals(say):
    """Rejects and faults, and packets that refuse nothing."""
    for name, kind, endian, status in (("a-fault-to-connect", FAULT, LITTLE, NO_OPERATION), ("a-reject-to-connect", REJECT, BIG, NO_INTERFACE)):
        say.begin(name, "What is not one does not count: another number or activity, a short body, a fragment, no known representation,",
                  "working and nocall.")
        say.tells("refusal -")
        body = word(status, endian)
        for other in (packet(CONNECT, kind, body, endian, sequence=1), packet(CONNECT, kind, body, endian, activity=relation.OTHER_ACTIVITY),
                      packet(CONNECT, kind, body[:3], endian), packet(CONNECT, kind, b"", endian), packet(CONNECT, kind, body, endian, flags=0x0C),
                      packet(CONNECT, WORKING, b"", endian), packet(CONNECT, NOCALL, b"", endian), packet(CONNECT, 1, body, endian),
                      packet(CONNECT, 0x16, body, endian), packet(CONNECT, kind, body, endian, fragnum=1),
                      packet(CONNECT, kind, body, endian, auth_proto=1)):
            say.hear(other)
            say.state("connecting")
        say.tells("refusal -")
        say.hear(packet(CONNECT, kind, body + bytes(8), endian))
        say.state("ended", "2")
        say.tells(f"refusal {status:08x}")
        say.hear(packet(CONNECT, kind, word(BUSY, endian), endian))
        say.tells(f"refusal {status:08x}")

    say.begin("a-fault-to-prm-end", "A fault to the request before it does not count.")
    say.connected()
    say.hear(packet(CONNECT, FAULT, word(BUSY, BIG)))
    say.state("ending")
    say.hear(packet(END, FAULT, word(BUSY, LITTLE), LITTLE))
    say.state("ended", "2")
    say.tells(f"refusal {BUSY:08x}")

    say.begin("a-status-to-connect", "The PNIOStatus of a response is told too.")
    say.hear(response(CONNECT, [], status=BUSY, endian=LITTLE))
    say.state("ended", "2")
    say.tells(f"refusal {BUSY:08x}")

    say.begin("a-reject-to-release", "A reject is an answer to a Release, which is then not sent again.")
    wrong = diff((1, 17, 1, ()))
    say.hear(response(CONNECT, blocks(behind=(wrong,)), endian=LITTLE), release(1))
    say.state("ended", "3")
    say.lines.append("tick 32000")
    say.lines.append(f"out {padded(release(1)).hex()}")
    say.hear(packet(release(1), WORKING))
    say.hear(packet(release(1), REJECT, word(NO_INTERFACE, BIG)))
    say.lines.append("tick 64000")
    say.state("ended", "3")
    say.tells("refusal -")

    say.begin("a-fault-while-exchanging", "No request waits: it changes nothing.")
    say.connected()
    say.started()
    for sequence in range(4):
        say.hear(packet(END, FAULT, word(BUSY, BIG), sequence=sequence))
    say.state("exchanging")
    say.tells("refusal -")


def asks_read(sequence, slot, subslot, index):
    """The Read that the controller has to send: for as many octets as a frame can bring."""
    return relation.read(relation.ACTIVITY, sequence, index, BIG, most=1308, slot=slot, subslot=subslot)


def asks_write(sequence, slot, subslot, index, octets):
    """The Write that it has to send."""
    return relation.write(relation.ACTIVITY, sequence, octets, BIG, index=index, slot=slot, subslot=subslot)


def read_record(octets, count=None, **named):
    """The block of the answer to a Read, and the record after it."""
    return IODReadRes(ARUUID=AR, recordDataLength=len(octets) if count is None else count, **named) / Raw(octets)


def written(**named):
    """The block of the answer to a Write."""
    return IODWriteRes(ARUUID=AR, **named)


INPUT = exchange.inputs(b"\x12\x34", 0)


# What the library for C returns for a request that cannot be made now, and for a record that is too long.
BUSY_NOW, TOO_LONG = 26, 8


def requests(say):
    """Records that the application reads and writes while data is exchanged."""
    say.begin("requests", "One at a time, each with the next number of a call. A Release has the next one.")
    say.tells("can no")
    say.asks_in_vain("read 1 1 5", BUSY_NOW)
    say.connected()
    say.asks_in_vain("write 1 1 5 aa", BUSY_NOW)
    say.hear(ended(END))
    say.asks_in_vain("read 1 1 5", BUSY_NOW)
    call = ready(49153)
    say.hear(call, ready_answer(call))
    say.state("exchanging")
    say.tells("answer -")
    say.tells("can yes")
    first = asks_read(2, 1, 1, 0x8028)
    say.asks(f"read 1 1 {0x8028}", first)
    say.tells("can no")
    say.asks_in_vain("read 1 1 6", BUSY_NOW)
    say.asks_in_vain("write 2 1 33 aa", BUSY_NOW)
    say.asks_in_vain(f"write 2 1 33 {bytes(1309).hex()}", TOO_LONG)
    for other in (response(first, [read_record(b"\1")], sequence=1), response(first, [read_record(b"\1")], sequence=3),
                  response(first, [read_record(b"\1")], activity=relation.OTHER_ACTIVITY), response(first, [written()]), response(first, []),
                  packet(first, WORKING), packet(first, NOCALL), packet(first, FAULT, word(BUSY, BIG), sequence=1),
                  packet(first, REJECT, word(BUSY, BIG), activity=relation.OTHER_ACTIVITY)):
        say.hear(other)
        say.tells("answer -")
    say.hear(response(first, [read_record(b"\xca\xfe\0\1")], endian=LITTLE))
    say.tells(f"answer read 1 1 {0x8028} 2 00000000 cafe0001")
    say.tells("refusal -")
    say.hear(response(first, [read_record(b"\1")]))
    say.hear(packet(first, FAULT, word(BUSY, BIG)))
    say.tells(f"answer read 1 1 {0x8028} 2 00000000 cafe0001")
    say.tells("can yes")
    say.asks("write 2 1 33 0102030405", asks_write(3, 2, 1, 33, bytes((1, 2, 3, 4, 5))))
    say.tells("answer -")
    say.hear(response(asks_write(3, 2, 1, 33, b""), [written()], endian=LITTLE))
    say.tells("answer write 2 1 33 3 00000000 -")
    say.asks("write 2 1 33 -", asks_write(4, 2, 1, 33, b""))
    say.hear(response(asks_write(4, 2, 1, 33, b""), [], status=0xDF80B500))
    say.tells("answer write 2 1 33 4 df80b500 -")
    say.tells("refusal df80b500")
    say.state("exchanging")
    for sequence, kind, endian in ((5, FAULT, LITTLE), (6, REJECT, BIG)):
        asked = asks_read(sequence, 15, 65535, 65535)
        say.asks("read 15 65535 65535", asked)
        say.hear(packet(asked, kind, word(NO_OPERATION + sequence, endian), endian))
        say.tells(f"answer read 15 65535 65535 {sequence} {NO_OPERATION + sequence:08x} -")
        say.tells(f"refusal {NO_OPERATION + sequence:08x}")
        say.state("exchanging")
    for sequence, count, octets, came in ((7, 3, b"\1\2\3\4\5", "010203"), (8, 9, b"\1\2", "0102"), (9, 0, b"", "-"),
                                          (10, 1308, bytes(range(256)) * 5 + bytes(28), (bytes(range(256)) * 5 + bytes(28)).hex())):
        asked = asks_read(sequence, 0, 1, 0xAFF0)
        say.asks(f"read 0 1 {0xAFF0}", asked)
        say.hear(response(asked, [read_record(octets, count)]))
        say.tells(f"answer read 0 1 {0xAFF0} {sequence} 00000000 {came}")
    say.stops(release(11))
    say.state("ended", "7")
    say.tells("can no")
    say.asks_in_vain("read 1 1 5", BUSY_NOW)
    say.tells(f"answer read 0 1 {0xAFF0} 10 00000000 {came}")

    say.begin("a-request-again", "It is sent again each second, counted from its sending, with the octets of a whole frame, and no more once it is answered.")
    say.connected()
    say.started()
    record = bytes(n * 7 % 256 for n in range(1308))
    asked = asks_write(2, 1, 1, 32, record)
    say.lines.append("tick 7")
    say.asks_in_vain(f"write 1 1 32 {record.hex()}00", TOO_LONG)
    say.asks(f"write 1 1 32 {record.hex()}", asked)
    say.runs(999)
    say.lines.append("tick 31")
    say.outputs_alone()
    say.lines.append("tick 1")
    say.lines.append(f"out {padded(asked).hex()}")
    say.runs(999)
    say.lines.append("tick 32")
    say.outputs_alone(f"out {padded(asked).hex()}")
    say.hear(response(asks_write(2, 1, 1, 32, b""), [written()]))
    say.tells("answer write 1 1 32 2 00000000 -")
    say.runs(1001)
    say.state("exchanging")

    say.begin("a-request-that-is-dropped", "The relation ends before its answer: it is not sent again, and its answer does not count.")
    say.connected()
    say.started()
    asked = asks_read(2, 1, 1, 7)
    say.asks("read 1 1 7", asked)
    say.stops(release(3))
    say.hear(response(asked, [read_record(b"\1")]))
    say.tells("answer -")
    say.lines.append("tick 32000")
    say.lines.append(f"out {padded(release(3)).hex()}")
    say.hear(response(release(3), []))
    say.lines.append("tick 64000")
    say.state("ended", "7")
# The status of a Write that is refused (ErrorDecode PNIORW, access, of a conflict), and another one.
CONFLICT, NO_STATION = 0xDF80B200, 0xDF80B000
WRITES = Plan(32, 1, 3, ((1, 0x20, bytes.fromhex("0102030405")), (1, 0x20, bytes.fromhex("0607080900")), (2, 0x21, b"\xaa")))


def refused_records(say):
    """Records that the device refuses, with each value of the key."""
    connect, *writes, end = station.requests(WRITES)

    def begin(name, goes_on, *comment):
        whole = json.loads(station.catalogue(WRITES))
        if goes_on is not None:
            whole["Project"]["ContinueOnRefusedRecord"] = goes_on
        say.lines += ["", *(f"# {line}" for line in comment), f"scenario {name}", f"catalogue {json.dumps(whole, separators=(',', ':'))}"]
        say.hear(station.identified(suite=SUITE), connect)
        say.hear(response(connect, blocks(), endian=LITTLE), writes[0])
        say.state("writing")
        say.tells("refused -")

    def accepts(place, following):
        say.hear(station.answered(writes[place], LITTLE), following)

    def refuses(place, status, *following, endian=LITTLE):
        say.hear(response(writes[place], [], status=status, endian=endian), *following)
        say.tells(f"refused {place} {status:08x}")
        say.tells(f"refusal {status:08x}")

    begin("goes-on-behind-a-record", True, "The first and the last of three records are refused: the next request goes out for each, and each is told.")
    refuses(0, CONFLICT, writes[1])
    say.state("writing")
    # A repeated response to the first record, and one to the third, do not count for the second.
    say.hear(response(writes[0], [], status=NO_STATION, endian=LITTLE))
    say.hear(response(writes[2], [], status=NO_STATION, endian=LITTLE))
    say.tells(f"refused 0 {CONFLICT:08x}")
    accepts(1, writes[2])
    say.tells(f"refused 0 {CONFLICT:08x}")
    refuses(2, NO_STATION, end, endian=BIG)
    say.state("ending")
    say.hear(ended(end))
    say.state("waiting")
    call = ready(49153)
    say.hear(call, ready_answer(call))
    say.state("exchanging")
    say.tells(f"refused 2 {NO_STATION:08x}")

    begin("goes-on-behind-all-records", True, "All records are refused.")
    for place, following in enumerate((writes[1], writes[2], end)):
        refuses(place, CONFLICT + place, following)
    say.state("ending")

    for name, goes_on in (("ends-without-the-key", None), ("ends-where-the-key-is-false", False)):
        begin(name, goes_on, "A refused record ends the controller, and is told.")
        accepts(0, writes[1])
        say.tells("refused -")
        refuses(1, CONFLICT)
        say.state("ended", "2")

    begin("only-a-status-of-a-record", True, "A fault is no status of a record: it ends the controller.")
    say.hear(packet(writes[0], FAULT, word(BUSY, LITTLE), LITTLE))
    say.state("ended", "2")
    say.tells("refused -")
    say.tells(f"refusal {BUSY:08x}")

    begin("only-records-may-be-refused", True, "A PrmEnd that is refused ends the controller.")
    accepts(0, writes[1])
    accepts(1, writes[2])
    refuses(2, CONFLICT, end)
    say.hear(response(end, [], status=BUSY, endian=LITTLE))
    say.state("ended", "2")
    say.tells(f"refused 2 {CONFLICT:08x}")
    say.tells(f"refusal {BUSY:08x}")


# AlarmTypes: pull, plug, plug of a wrong submodule, pull of a module.
PULL, PLUG, WRONG, PULL_MODULE = 3, 4, 0x0A, 0x1F
# PrmEnd and ApplicationReady after a plug.
PLUG_END, PLUG_READY = 0x0111, 0x0113


class Plugs:
    """A station with two places that have records, whose submodules are pulled and plugged while data is exchanged."""

    def __init__(self, say, name, *comment, key=True, goes_on=None, differs=()):
        self.say = say
        self.connect, *self.writes, self.end = station.requests(WRITES)
        whole = json.loads(station.catalogue(WRITES))
        whole["Project"].update({name: value for name, value in (("ContinueOnRefusedRecord", goes_on), ("ParametersAfterPlug", key)) if value is not None})
        say.lines += ["", *(f"# {line}" for line in comment), f"scenario {name}", f"catalogue {json.dumps(whole, separators=(',', ':'))}"]
        say.hear(station.identified(suite=SUITE), self.connect)
        self.known(1, 1, "-")
        say.hear(response(self.connect, blocks(behind=differs), endian=LITTLE), self.writes[0])
        for place, following in enumerate((self.writes[1], self.writes[2], self.end)):
            say.hear(station.answered(self.writes[place], LITTLE), following)
        say.hear(ended(self.end))
        self.number, self.last = {"low": 0xFFFF, "high": 0xFFFF}, {"low": NONE_TAKEN, "high": NONE_TAKEN}
        # The number of the next call: the Connect, three records and PrmEnd are before it.
        self.sequence, self.asked = 5, None

    def starts(self):
        call = ready(49153)
        self.say.hear(call, ready_answer(call))
        self.say.state("exchanging")
        return self

    def known(self, slot, subslot, word):
        """What the controller knows of a place."""
        self.say.tells(f"place {slot} {subslot} {word}")

    def tells(self, kind, specifier, *sent, slot=1, subslot=1, priority="low", api=0):
        """An alarm of a submodule, and what is sent after its ACK and its AlarmAck, which the station acknowledges."""
        number, taken = self.number[priority], self.last[priority]
        source, layer, ack = ((low_pdu, AlarmNotification_Low, LowAlarmAck) if priority == "low" else
                              (high_pdu, AlarmNotification_High, exchange.AlarmAck))
        block = layer(AlarmType=kind, API=api, SlotNumber=slot, SubslotNumber=subslot, ModuleIdentNumber=16, SubmoduleIdentNUmber=16,
                      AlarmSpecifier=specifier, AlarmPayload=[])
        answer = ack(AlarmType=kind, API=api, SlotNumber=slot, SubslotNumber=subslot, AlarmSpecifier=specifier)
        self.again = source(DEVICE, DATA, number, taken, block), source(TOOL, ACK, number, number)
        self.hears(self.again[0], source(TOOL, ACK, taken if taken != NONE_TAKEN else NONE_SENT, number),
                   source(TOOL, DATA, number, number, answer), *sent, behind=2)
        self.say.hear(source(DEVICE, ACK, number, number))
        self.last[priority], self.number[priority] = number, (number + 1) & 0x7FFF if number != 0xFFFF else 0

    def asks(self, place):
        """The next Write of a record of the plan, which the controller has to send."""
        slot, index, octets = WRITES.records[place]
        self.sequence += 1
        return asks_write(self.sequence - 1, slot, 1, index, octets)

    def hears(self, packet, *sent, behind=0):
        """A frame comes, and these are sent, the first `behind` of them in any case. The last one of the others waits for its answer from now on."""
        self.say.hear(packet, *sent)
        self.asked = sent[-1] if len(sent) > behind else self.asked

    def ends(self, number):
        """The PrmEnd after the plug with this number, which it has to send."""
        call = relation.control(relation.ACTIVITY, self.sequence, PLUG_END, BIG, command="ControlCommand_PrmEnd")
        call[PNIOServiceReqPDU].blocks[0].AlarmSequenceNumber = number
        self.sequence += 1
        return Ether(raw(call))

    def accepts(self, *following, asked=None):
        """The station accepts what was asked."""
        asked = asked or self.asked
        block = asked[PNIOServiceReqPDU].blocks[0]
        answer = written() if block.block_type == 8 else IODControlRes(
            block_type=PLUG_END + 0x8000, ARUUID=AR, SessionKey=1, AlarmSequenceNumber=block.AlarmSequenceNumber)
        self.hears(response(asked, [answer], endian=LITTLE), *following)

    def refuses(self, status, *following):
        self.hears(response(self.asked, [], status=status, endian=LITTLE), *following)
        self.say.tells(f"refusal {status:08x}")

    def ready(self, number, *following, is_answered=True, sequence=1, **bent):
        """The station's ApplicationReady for the plug with this number."""
        call = relation.the_ready(**{name: bent.pop(name) for name in ("ar", "session") if name in bent})
        block = call[PNIOServiceReqPDU].blocks[0]
        block.block_type, block.AlarmSequenceNumber = PLUG_READY, number
        for name, value in bent.items():
            setattr(block, name, value)
        call[DceRpc4].seqnum = sequence
        call = Ether(raw(call))
        answer = relation.ready_answer(call, BIG, sequence=sequence)
        answer[station.PNIOServiceResPDU].blocks[0].AlarmSequenceNumber = number
        self.hears(call, *([answer] if is_answered else []), *following, behind=1)


def plugs(say):
    """Submodules that are pulled and plugged again."""
    on = Plugs(say, "a-plug", "The records of the plan are written again, one after the other, then PrmEnd is sent, and ApplicationReady answered.").starts()
    for place in ((0, 1, "there"), (0, 0x8001, "there"), (1, 1, "there"), (2, 1, "there"), (1, 2, "-"), (3, 1, "-")):
        on.known(*place)
    on.tells(PULL, 0xB000)
    on.known(1, 1, "gone")
    on.known(2, 1, "there")
    on.tells(PLUG, 0x8801, on.asks(0))
    on.known(1, 1, "plugged")
    say.tells("can no")
    say.asks_in_vain("read 1 1 5", BUSY_NOW)
    # A repeat of the alarm changes nothing, nor do answers to other calls.
    say.hear(*on.again)
    say.hear(response(on.asked, [written()], sequence=4))
    say.hear(response(on.asked, [written()], activity=relation.OTHER_ACTIVITY))
    on.ready(1, is_answered=False)
    on.accepts(on.asks(1))
    on.known(1, 1, "plugged")
    on.accepts(on.ends(1))
    on.known(1, 1, "ending")
    say.tells("can no")
    on.accepts()
    on.known(1, 1, "ending")
    say.tells("can yes")
    # Of another number, another relation, another SessionKey or another command it does not count.
    on.ready(0, is_answered=False)
    on.ready(2, is_answered=False)
    on.ready(1, is_answered=False, session=2)
    on.ready(1, is_answered=False, ar=relation.ACTIVITY)
    on.ready(1, is_answered=False, ControlCommand_ApplicationReady=0, ControlCommand_PrmEnd=1)
    on.ready(1, is_answered=False, block_length=29)
    on.known(1, 1, "ending")
    on.ready(1)
    on.known(1, 1, "there")
    # Its answer was lost: it is answered again.
    on.ready(1, sequence=2)
    on.known(1, 1, "there")
    say.state("exchanging")
    say.tells("refusal -")
    say.asks("read 1 1 5", asks_read(on.sequence, 1, 1, 5))

    for key in (None, False):
        on = Plugs(say, f"a-plug-{'without-the-key' if key is None else 'with-the-key-false'}", "Nothing is written, and no ApplicationReady of a plug is answered.", key=key).starts()
        on.tells(PLUG, 0x8801)
        on.known(1, 1, "plugged")
        on.ready(1, is_answered=False)
        on.tells(PULL, 2, priority="high")
        on.known(1, 1, "gone")
        say.tells("can yes")

    on = Plugs(say, "two-plugs", "One place has its turn at a time, in the order of the plugs; the next one begins with the answer to PrmEnd.").starts()
    on.tells(PLUG, 1, on.asks(2), slot=2)
    on.tells(PLUG, 2)
    on.known(1, 1, "plugged")
    on.accepts(on.ends(1))
    ended_first = on.asked
    on.accepts(on.asks(0))
    on.known(2, 1, "ending")
    on.known(1, 1, "plugged")
    on.ready(1)
    on.known(2, 1, "there")
    on.accepts(on.asks(1))
    on.accepts(on.ends(2))
    # ApplicationReady comes before the answer to PrmEnd, which is over then: it is not sent again, and its late answer is dropped.
    on.tells(PLUG, 3, slot=2)
    on.ready(2, on.asks(2))
    on.known(1, 1, "there")
    on.known(2, 1, "plugged")
    on.accepts(asked=ended_first)
    on.accepts(on.ends(3))
    say.runs(999)
    say.lines.append("tick 31")
    say.outputs_alone()
    say.lines.append("tick 1")
    say.outputs_alone(f"out {padded(on.asked).hex()}")
    on.refuses(BUSY)
    on.known(2, 1, "refused")
    on.ready(3, is_answered=False)
    say.state("exchanging")

    on = Plugs(say, "a-turn-that-is-dropped", "A further alarm of the place drops what is left of its turn. The request that was sent is sent again until its answer.").starts()
    on.tells(PLUG, 1, on.asks(0))
    on.tells(PULL, 2)
    on.known(1, 1, "gone")
    say.runs(999)
    say.lines.append("tick 31")
    say.outputs_alone()
    say.lines.append("tick 1")
    say.outputs_alone(f"out {padded(on.asked).hex()}")
    on.tells(PLUG, 3)
    on.known(1, 1, "plugged")
    on.accepts(on.asks(0))
    on.tells(PLUG, 4, slot=2)
    on.tells(PLUG, 5)
    # The place waits after the others now.
    on.accepts(on.asks(2))
    on.accepts(on.ends(4))
    on.tells(WRONG, 6, slot=2)
    on.known(2, 1, "wrong")
    on.ready(4, is_answered=False)
    on.accepts(on.asks(0))
    on.tells(PULL_MODULE, 7, subslot=0)
    on.known(1, 1, "gone")
    on.refuses(CONFLICT)
    on.known(1, 1, "gone")
    say.tells("can yes")
    say.state("exchanging")

    for goes_on in (None, True):
        on = Plugs(say, f"a-refused-record-after-a-plug{'-goes-on' if goes_on else ''}", "Nothing ends by it.", goes_on=goes_on).starts()
        on.tells(PLUG, 1, on.asks(0))
        on.tells(PLUG, 2, slot=2)
        on.refuses(CONFLICT, on.asks(1 if goes_on else 2))
        say.tells(f"refused 0 {CONFLICT:08x}")
        on.known(1, 1, "plugged" if goes_on else "refused")
        # A reject or a fault is no status of a record: its place is refused in any case.
        fault = packet(on.asked, FAULT, word(NO_OPERATION, LITTLE), LITTLE)
        say.hear(packet(on.asked, FAULT, word(NO_OPERATION, LITTLE), LITTLE, sequence=4))
        say.hear(packet(on.asked, WORKING))
        on.hears(fault, *([on.asks(2)] if goes_on else []))
        say.tells(f"refusal {NO_OPERATION:08x}")
        on.known(1 if goes_on else 2, 1, "refused")
        if goes_on:
            on.accepts(on.ends(2))
            say.hear(packet(on.asked, REJECT, word(NO_INTERFACE, BIG)))
            on.known(2, 1, "refused")
        say.tells("can yes")
        say.state("exchanging")

    on = Plugs(say, "a-plug-before-the-exchange", "Data exchange begins by the answer to ApplicationReady alone; the turn of the place begins at the end of a second.")
    on.tells(PLUG, 1)
    on.known(1, 1, "plugged")
    on.starts()
    say.tells("can yes")
    say.runs(999)
    say.lines.append("tick 31")
    say.outputs_alone()
    on.asked = on.asks(0)
    say.lines.append("tick 1")
    say.outputs_alone(f"out {padded(on.asked).hex()}")
    say.tells("can no")
    on.accepts(on.asks(1))
    say.state("exchanging")

    on = Plugs(say, "a-plug-beside-a-request", "The turn waits for the answer to the application's request.").starts()
    asked = asks_read(on.sequence, 0, 1, 0xAFF0)
    say.asks(f"read 0 1 {0xAFF0}", asked)
    on.sequence += 1
    on.tells(PLUG, 1)
    on.hears(response(asked, [read_record(b"\1\2")]), on.asks(0))
    say.tells(f"answer read 0 1 {0xAFF0} 5 00000000 0102")
    on.accepts(on.asks(1))
    say.stops(release(on.sequence))
    on.known(1, 1, "-")
    on.accepts()

    on = Plugs(say, "what-alarms-tell-of-places", "Pulls of both kinds and priorities, of other APIs and of other places; and the diagnoses of what was pulled.",
               differs=(diff((2, 32, 3, ((1, 32, 0x8800),)),),)).starts()
    on.known(2, 1, "differs")
    on.known(1, 1, "there")
    on.tells(PULL, 1, api=1)
    on.tells(2, 2)
    on.tells(PLUG, 3, subslot=2)
    on.tells(PLUG, 4, slot=3)
    on.known(1, 1, "there")
    told = Told(say)
    told.next, told.last = on.number, on.last
    told.changes(1, 3, 1, (1, 1, 3, 1))
    told.changes(1, 4, 1, (1, 1, 3, 1), (2, 1, 4, 1), slot=2)
    on.tells(PULL, 5, subslot=2, priority="high")
    say.tells(listed(((1, 1, 3, 1), (2, 1, 4, 1))))
    on.tells(PULL, 6, subslot=0, priority="high")
    on.known(1, 1, "gone")
    say.tells(listed(((2, 1, 4, 1),)))
    on.tells(PULL_MODULE, 7, slot=2, subslot=9)
    on.known(2, 1, "gone")
    say.tells(listed(()))
    on.tells(WRONG, 8, slot=2)
    on.known(2, 1, "wrong")
    on.tells(0x0B, 9, slot=2)
    on.known(2, 1, "wrong")
    say.hear(low_pdu(DEVICE, ERR, 9, 9, Raw(b"\xcf\x81\xfd\x0d")))
    say.state("ended", "5")
    on.known(2, 1, "-")


def scenarios():
    say = Scenarios()
    answers(say)
    alarms(say)
    priorities(say)
    diagnoses(say)
    differences(say)
    refusals(say)
    requests(say)
    refused_records(say)
    plugs(say)
    first = ["# Stations of other makers: what each sends, and what the controller has to do.",
             "# `tests/interoperation/scapy_makers.py` printed this: all frames are those that Scapy builds."]
    return "\n".join(first + say.lines) + "\n"


def main(words):
    if words not in ([], ["--check"]):
        return refuse(words)
    text = scenarios()
    if words == ["--check"]:
        with open(WANTED, encoding="utf-8") as file:
            return 0 if file.read() == text else 1
    print(text, end="")
    return 0


if __name__ == "__main__":
    sys.exit(main(sys.argv[1:]))
