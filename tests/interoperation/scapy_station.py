#!/usr/bin/python3
"""Is a station to the controller of this repository: Scapy's own layers of DCP, DCE/RPC, cyclic data and alarms read each frame that the
controller sends and build each frame that it gets. No encoder of this repository takes part, and none of its devices.

The controller is the program of lines `table_controller`. It is brought from looking for its station to the exchange of data, with two
records, over a network that also brings frames that do not belong there. Then both exchange for 1,000 intervals over a network that
loses, repeats and reorders the frames of both ends as a seed says. What the controller has to send, and which inputs and which alarm it
must show, is computed here by the rules of IEC 61158-6-10; each frame is compared octet by octet with the one that Scapy builds. In
the end the station falls silent, and the controller ends the relation; another start-up ends at each refusal.

    tests/interoperation/scapy_station.py [SEED]                asks the program, which `rt run` in crates/table_controller makes, judges
                                                                what it prints, and says what was asserted; status 1 where a line differs
    tests/interoperation/scapy_station.py --tried FILE [SEED]   asks this program in its place
    tests/interoperation/scapy_station.py --output FILE [SEED]  judges what was printed somewhere else
    tests/interoperation/scapy_station.py --script [SEED]       prints all lines, as crates/table_controller/stdin has them
    tests/interoperation/scapy_station.py --wanted [SEED]       prints what the controller has to print for them, as stdout there has it

Needs Scapy (Debian: apt-get install python3-scapy; 2.5.0 was used).
"""

import collections
import functools
import json
import os
import random
import subprocess
import sys

sys.path.insert(0, os.path.join(os.path.dirname(os.path.realpath(__file__)), "..", "..", "ci"))
from program import answer_help, refuse

if __name__ == "__main__":
    answer_help(__doc__, sys.argv[1:])  # which needs no Scapy

import scapy_calls as calls
import scapy_exchange as exchange
import scapy_relation as relation
from scapy_calls import BIG, DEVICE, DEVICE_IP, TOOL, TOOL_IP, same
from scapy_exchange import (
    ACK, AGAIN, DATA, ERR, HOLD, INTERVAL, MOST_AGAIN, NACK, NONE_SENT, NONE_TAKEN, Network, Relation, Station, following, inputs, outputs,
    pdu)
from scapy_relation import ACTIVITY, AR, CONTROL, ENDS, INITIATOR, PRM_END, READY, STATION
from scapy.compat import raw
from scapy.contrib.pnio import ProfinetIO
from scapy.contrib.pnio_dcp import ProfinetDCP
from scapy.contrib.pnio_rpc import (
    Alarm_High, AlarmCRBlockRes, ARBlockRes, Block, BlockHeader, IOCRBlockRes, IODControlReq, IODControlRes, IODWriteRes,
    PNIOServiceReqPDU, PNIOServiceResPDU)
from scapy.layers.dcerpc import DceRpc4
from scapy.layers.inet import IP, UDP
from scapy.layers.l2 import Ether
from scapy.packet import Raw

# Octets after the data of an answer to the Set, and after that of an ERR, that only fill the frame up, or the last block.
ADDRESSED_PADDING, ERR_PADDING = 60 - 14 - 2 - 10 - 7, 24

PROGRAM = os.path.join(relation.TOP, "crates", "table_controller", "out", "table_controller")
SEED = 14
INTERVALS = 1000
RESEND = 32_000
NAME = b"pump-1"
RECORDS = ((1, 0x20, bytes.fromhex("0102030405")), (2, 0x21, b"\xaa"))

# What differs from plan to plan: SendClockFactor, ReductionRatio and DataHoldFactor, and which records are written.
Plan = collections.namedtuple("Plan", ("clock", "ratio", "hold", "records"))
PLAN = Plan(32, 1, 3, RECORDS)
CATALOGUE = (
    '{"DeviceIdentity":{"VendorID":291,"DeviceID":1110},"DeviceAccessPointItem":{"ModuleIdentNumber":1,"PhysicalSlots":[0,1,2,3],'
    '"DNS_CompatibleName":"pn-demo","MinDeviceInterval":32,"VirtualSubmoduleItem":[{"Subslot":1,"SubmoduleIdentNumber":1},'
    '{"Subslot":32768,"SubmoduleIdentNumber":2},{"Subslot":32769,"SubmoduleIdentNumber":3}],"ModuleItemRef":'
    '[{"ModuleItemTarget":"IN2","AllowedInSlots":[1,2,3]},{"ModuleItemTarget":"OUT2","AllowedInSlots":[1,2,3]}]},"ModuleItem":'
    '[{"ID":"IN2","ModuleIdentNumber":16,"VirtualSubmoduleItem":[{"Subslot":1,"SubmoduleIdentNumber":16,"IOData":{"Input":'
    '[{"DataType":"Unsigned16"}]},"ParameterRecordDataItem":[{"Index":32,"Length":5}]}]},{"ID":"OUT2","ModuleIdentNumber":32,'
    '"VirtualSubmoduleItem":[{"Subslot":1,"SubmoduleIdentNumber":32,"IOData":{"Output":[{"DataType":"Unsigned16"}]},'
    '"ParameterRecordDataItem":[{"Index":33,"Length":1}]}]}],"Project":{"NameOfStation":"pump-1","IPAddress":"192.168.0.2",'
    '"SubnetMask":"255.255.255.0","Gateway":"0.0.0.0","Controller":{"NameOfStation":"plc","MAC":"02-00-00-00-00-02",'
    '"IPAddress":"192.168.0.1"},"SendClockFactor":32,"ReductionRatio":1,"DataHoldFactor":3,"Slots":[{"Slot":1,'
    '"ModuleItemTarget":"IN2","Records":[{"Subslot":1,"Index":32,"Data":"0102030405"}]},{"Slot":2,"ModuleItemTarget":"OUT2",'
    '"Records":[{"Subslot":1,"Index":33,"Data":"aa"}]}]}}')


def catalogue(plan):
    """The catalogue of a plan."""
    whole = json.loads(CATALOGUE)
    whole["Project"].update(SendClockFactor=plan.clock, ReductionRatio=plan.ratio, DataHoldFactor=plan.hold)
    for place in whole["Project"]["Slots"]:
        place["Records"] = [{"Subslot": 1, "Index": index, "Data": octets.hex()} for slot, index, octets in plan.records if slot == place["Slot"]]
    return json.dumps(whole, separators=(",", ":"))


def padded(packet):
    """The octets of a packet, filled up to a frame."""
    octets = raw(packet)
    return octets + bytes(max(0, 60 - len(octets)))


def once(build):
    """A builder that has Scapy build the packet of the same words once."""
    @functools.lru_cache(maxsize=None)
    def built(*words, **named):
        return Raw(padded(build(*words, **named)))
    return built


class Script:
    """What is said to the controller, and what it has to print for that."""

    def __init__(self):
        self.said, self.wanted, self.frames = [], [], 0

    def step(self, line, sent, state):
        self.said.append(line)
        self.wanted += [f"out {octets.hex()}" for octets in sent] + [f"state {state}"]
        self.frames += len(sent)

    def ask(self, line, answer):
        self.said.append(line)
        self.wanted.append(answer)


# ---- what the controller has to ask, as Scapy builds it

@once
def identify():
    return exchange.identify(1, option=2, sub_option=2, dcp_block_length=6, dcp_data_length=10, name_of_station="pump-1")


@once
def address():
    return Ether(dst=DEVICE, src=TOOL) / ProfinetIO(frameID=0xFEFD) / ProfinetDCP(
        service_id=4, service_type=0, xid=2, option=1, sub_option=2, dcp_block_length=14, dcp_data_length=18, block_qualifier=0,
        ip=DEVICE_IP, netmask="255.255.255.0", gateway="0.0.0.0")


@functools.lru_cache(maxsize=None)
def requests(plan=PLAN):
    """The calls of the start-up, in order."""
    connect = relation.connect(ACTIVITY, 0, BIG)
    for iocr in connect[PNIOServiceReqPDU].blocks[1:3]:
        iocr.SendClockFactor, iocr.ReductionRatio, iocr.WatchdogFactor, iocr.DataHoldFactor = plan.clock, plan.ratio, plan.hold, plan.hold
    writes = [relation.write(ACTIVITY, number + 1, octets, BIG, index=index, slot=slot)
              for number, (slot, index, octets) in enumerate(plan.records)]
    calls_in_order = [connect, *writes, relation.control(ACTIVITY, len(plan.records) + 1, PRM_END, BIG)]
    return [Raw(padded(call)) for call in calls_in_order]


@once
def release(sequence):
    return relation.control(ACTIVITY, sequence, ENDS, BIG)


# ---- what the station answers

def block(option, suboption, octets):
    return bytes((option, suboption)) + len(octets).to_bytes(2, "big") + octets + bytes(len(octets) % 2)


def dcp_answer(frame_id, service, xid, blocks, kind=1):
    """An answer of DCP: Scapy's layers for the header, and blocks of bare octets."""
    header = ProfinetDCP(service_id=service, service_type=kind, xid=xid, reserved=0, dcp_data_length=len(blocks))
    octets = raw(header)[:10]
    return Ether(dst=TOOL, src=DEVICE) / ProfinetIO(frameID=frame_id) / Raw(octets + blocks)


@once
def identified(xid=1, name=NAME, vendor=0x0123, device=0x0456, suite=bytes(12)):
    blocks = block(2, 1, b"\0\0other-maker") + block(2, 2, b"\0\0" + name)
    blocks += block(2, 3, b"\0\0" + vendor.to_bytes(2, "big") + device.to_bytes(2, "big")) + block(2, 4, b"\0\0\1\0")
    return dcp_answer(0xFEFF, 5, xid, blocks + block(1, 2, b"\0\1" + suite))


@once
def addressed(xid=2, error=0, kind=1):
    return dcp_answer(0xFEFD, 4, xid, block(5, 4, bytes((1, 2, error))), kind)


def response(asked, blocks, status=0, sequence=None, activity=None, endian=BIG):
    """The response to a call, as another maker's station sends it."""
    call = Ether(raw(asked))[DceRpc4]
    packet = IP(src=DEVICE_IP, dst=TOOL_IP, id=0, flags="DF") / UDP(sport=calls.PORT, dport=calls.PORT) / DceRpc4(
        ptype=2, flags1=0x0A, endian=endian, object=call.object, if_id=calls.DEVICE_INTERFACE, act_id=activity or call.act_id,
        seqnum=call.seqnum if sequence is None else sequence, opnum=call.opnum)
    most = Ether(raw(asked))[PNIOServiceReqPDU].args_max
    return Ether(dst=TOOL, src=DEVICE) / packet / PNIOServiceResPDU(status=status, max_count=most, blocks=[] if status else blocks)


def connected():
    return [
        ARBlockRes(ARUUID=AR, SessionKey=1, CMResponderMacAdd=DEVICE, CMResponderUDPRTPort=0x8892),
        IOCRBlockRes(IOCRType=1, IOCRReference=1, FrameID=0xC001), IOCRBlockRes(IOCRType=2, IOCRReference=2, FrameID=0xC000),
        AlarmCRBlockRes(LocalAlarmReference=1, MaxAlarmDataLength=200)]


def answered(asked, endian=BIG):
    """The positive answer to each call of a start-up."""
    return answered_once(raw(asked), endian)


@once
def answered_once(asked, endian):
    return answer_to(asked, endian)


def answer_to(asked, endian=BIG):
    first = Ether(asked)[PNIOServiceReqPDU].blocks[0]
    kind = first.block_type
    if kind == 0x0101:
        blocks = connected()
    elif kind == 0x0008:
        blocks = [IODWriteRes(seqNum=first.seqNum, ARUUID=first.ARUUID, slotNumber=first.slotNumber, subslotNumber=first.subslotNumber,
                              index=first.index, recordDataLength=first.recordDataLength)]
    else:
        blocks = [IODControlRes(block_type=kind + 0x8000, ARUUID=first.ARUUID, SessionKey=first.SessionKey)]
    return response(asked, blocks, endian=endian)


the_ready = once(relation.the_ready)


@functools.lru_cache(maxsize=None)
def ready_answer():
    return padded(relation.ready_answer(Ether(raw(relation.the_ready())), BIG))


# ---- what the controller has to do

@functools.lru_cache(maxsize=None)
def outputs_of(value, is_good):
    """A cyclic frame of the controller in two parts, between which its CycleCounter is."""
    octets = padded(outputs(value, 0, is_good))
    return octets[:60], octets[62:]


def outputs_at(value, is_good, counter):
    front, behind = outputs_of(value, is_good)
    return front + counter.to_bytes(2, "big") + behind


class Expected:
    """What a controller has to send, and to show, by what came to it and by time."""

    def __init__(self, plan):
        self.interval, self.most = plan.clock * plan.ratio, plan.clock * plan.ratio * plan.hold
        self.units, self.asked, self.waited, self.state = 0, padded(identify()), 0, "looking"
        self.link, self.since, self.hold, self.came, self.input = False, 0, None, None, bytes(2)
        self.value, self.is_good = bytes(2), False
        self.sent, self.taken, self.ack, self.ack_since, self.repeats, self.alarm = NONE_SENT, NONE_TAKEN, None, None, 0, None

    def ask(self, packet, state):
        """This is asked now, and again each second."""
        self.asked, self.waited, self.state = packet and padded(packet), 0, state
        return [self.asked] if packet else []

    def over(self, cause, reason=None):
        """The controller ends, and the relation with it."""
        told = [padded(pdu(TOOL, ERR, self.sent, self.taken, Raw(bytes((0xCF, 0x81, 0xFD, reason)))))] if reason else []
        self.asked, self.link, self.hold, self.input, self.state = None, False, None, bytes(2), f"ended {cause}"
        return told

    def acknowledged(self):
        return padded(pdu(TOOL, DATA, self.sent, self.taken, self.ack))

    def tick(self):
        """A unit: data hold, the AlarmAck again or no more, the request again, and outputs."""
        self.units = (self.units + 1) % 65536
        due = []
        if self.link:
            self.since += 1
            if self.hold is not None:
                self.hold -= 1
                if self.hold == 0:
                    return self.over(4, 5)
            if self.ack_since is not None:
                self.ack_since += 1
                if self.ack_since == AGAIN:
                    if self.repeats == MOST_AGAIN:
                        return self.over(6, 13)
                    self.ack_since, self.repeats = 0, self.repeats + 1
                    due.append(self.acknowledged())
        if self.asked is not None:
            self.waited += 1
            if self.waited == RESEND:
                self.waited = 0
                due.append(self.asked)
        if self.link and self.since % self.interval == 0:
            due.append(outputs_at(self.value, self.is_good, self.units))
        return due

    def quiet(self, most):
        """How many units bring nothing but their own count."""
        ahead = [most] if self.asked is None else [RESEND - self.waited - 1, most]
        if self.link:
            ahead.append(self.interval - self.since % self.interval - 1)
            ahead += [] if self.hold is None else [self.hold - 1]
            ahead += [] if self.ack_since is None else [AGAIN - self.ack_since - 1]
        return min(ahead)

    def wait(self, units):
        """So many units that bring nothing."""
        self.units = (self.units + units) % 65536
        self.waited += 0 if self.asked is None else units
        if self.link:
            self.since += units
            self.hold = None if self.hold is None else self.hold - units
            self.ack_since = None if self.ack_since is None else self.ack_since + units

    def ticks(self, units):
        """So many units."""
        due = []
        while units > 0:
            ahead = self.quiet(units - 1)
            self.wait(ahead)
            due += self.tick()
            units -= ahead + 1
        return due

    def hear_cyclic(self, octets):
        """A cyclic frame of the station, as it came."""
        body = octets[20:]
        if not self.link or octets[:12] != bytes.fromhex("020000000002020000000001") or octets[18:20] != b"\xc0\x01" or len(body) < 44:
            return []
        counter, status, transfer = int.from_bytes(body[40:42], "big"), body[42], body[43]
        newer = self.came is None or 1 <= (counter - self.came) % 65536 <= 61440
        if not status & 4 or transfer or not newer:
            return []
        self.came, self.input = counter, body[3:5] if body[5] == 0x80 else bytes(2)
        self.hold = None if self.hold is None else self.most
        return []

    def hear_alarm(self, octets):
        """An alarm frame of the station."""
        told, behind = Alarm_High(octets[20:]), octets[32:]
        if not self.link or octets[:12] != bytes.fromhex("020000000002020000000001"):
            return []
        if (told.AlarmDstEndpoint, told.AlarmSrcEndpoint) != (1, 1):
            return []
        if told.PDUTypeVersion == ERR:
            return self.over(5)
        if told.PDUTypeVersion == ACK and self.ack is not None and told.AckSeqNum == self.sent:
            self.ack_since = None
        if told.PDUTypeVersion != DATA:
            return []
        if told.SendSeqNum != following(self.taken):
            return [padded(pdu(TOOL, ACK if told.SendSeqNum == self.taken else NACK, self.sent, self.taken))]
        self.taken = told.SendSeqNum
        first = padded(pdu(TOOL, ACK, self.sent, self.taken))
        self.sent = NONE_SENT if self.ack is None else following(self.sent)
        block = behind[:told.VarPartLen]
        slot, subslot, specifier = (int.from_bytes(block[at:at + 2], "big") for at in (12, 14, 24))
        self.ack = exchange.AlarmAck(SlotNumber=slot, SubslotNumber=subslot, AlarmSpecifier=specifier)
        self.alarm = f"alarm 2 {slot} {subslot} {specifier} {block[28:].hex() or '-'}"
        self.ack_since, self.repeats = 0, 0
        return [first, self.acknowledged()]

    def give(self, slot, subslot, value):
        if (slot, subslot) == (2, 1) and len(value) == 2:
            self.value, self.is_good = value, True


class Talk:
    """A conversation with one controller: each line, and what has to come of it."""

    def __init__(self, script, plan=PLAN):
        self.script, self.expected = script, Expected(plan)
        script.step(f"start {AR} {ACTIVITY} {catalogue(plan)}", [self.expected.asked], "looking")

    def step(self, line, wanted):
        """A line, and the frames that have to be sent for it."""
        for octets in wanted:
            is_read(octets)
        self.script.step(line, wanted, self.expected.state)
        return wanted

    def frame(self, packet, wanted=()):
        """A frame of the station."""
        return self.step(f"frame {padded(packet).hex()}", list(wanted))

    def drops(self, *packets):
        """Frames for which nothing is sent."""
        for packet in packets:
            self.frame(packet)

    def octets(self, octets, wanted):
        return self.step(f"frame {octets.hex()}", list(wanted))

    def tick(self, units):
        return self.step(f"tick {units}", self.expected.ticks(units))

    def give(self, slot, subslot, value):
        self.expected.give(slot, subslot, value)
        self.step(f"give {slot} {subslot} {value.hex()}", [])

    def stop(self, wanted=()):
        self.step("stop", list(wanted))

    def shows(self, state):
        same("the state that is computed", self.expected.state, state)

    def show(self):
        """The input and the last alarm."""
        self.script.ask("value 1 1", f"value {self.expected.input.hex()}")
        self.script.ask("alarm", self.expected.alarm or "alarm none")

    def show_places(self):
        """That an input without octets exists, that an output does not, and the ARUUID."""
        for line, answer in (("value 0 1", "-"), ("value 0 32769", "-"), ("value 2 1", "none"), ("value 1 2", "none"), ("value 9 1", "none")):
            self.script.ask(line, f"value {answer}")
        self.script.ask("ar", f"ar {AR.hex}")

    def cut(self, packet, padding=0):
        """Each shorter form of a frame that is wanted now, up to what is padding: none of them says anything."""
        octets = raw(packet)
        for size in range(1, len(octets) - padding):
            self.octets(octets[:size], [])

    def answer(self, packet, request, state):
        """An answer by which the controller asks something else, or nothing."""
        self.frame(packet, self.expected.ask(request, state))


@functools.lru_cache(maxsize=None)
def is_read(octets):
    """Asserts that Scapy reads a call and that lengths and checksums are those that it computes."""
    if octets[12:14] == b"\x08\0":
        packet = Ether(octets)
        same("lengths and checksums as Scapy computes them", octets, calls.recomputed(packet))
        same("the port", packet[UDP].dport if packet[DceRpc4].ptype == 0 else calls.PORT, calls.PORT)


def bent_answers(asked):
    """Answers to this call that do not belong there: of another number, another activity, to another station, address or port, cut."""
    return [Raw(octets) for octets in bent_once(raw(asked))]


@functools.lru_cache(maxsize=None)
def bent_once(asked):
    good, other_station, other_address, other_port = (answer_to(asked) for _ in range(4))
    number = Ether(asked)[DceRpc4].seqnum
    other_station[Ether].dst = "02:00:00:00:00:03"
    other_address[IP].dst = "192.168.0.9"
    other_port[UDP].dport = 34965
    blocks = good[PNIOServiceResPDU].blocks
    return [raw(packet) for packet in (
        response(asked, blocks, sequence=number + 1), response(asked, blocks, activity=relation.OTHER_ACTIVITY), other_station, other_address,
        other_port, Raw(raw(good)[:-1]), identified(), addressed(), Raw(asked))]


def started(talk, with_noise=True):
    """From looking for the station to the exchange of data."""
    calls_in_order = requests()
    if with_noise:
        talk.show_places()
        talk.tick(RESEND - 1)
        talk.tick(1)
        talk.cut(identified())
        talk.drops(identified(xid=2), identified(name=b"pump-2"), addressed(), addressed(xid=1), calls_in_order[0], Raw(b"\0" * 13))
    talk.answer(identified(), address(), "addressing")
    if with_noise:
        talk.cut(addressed(), ADDRESSED_PADDING)
        talk.drops(identified(), addressed(xid=3))
        talk.tick(RESEND)
    talk.answer(addressed(), calls_in_order[0], "connecting")
    states = ["writing"] * len(RECORDS) + ["ending"]
    for number, asked in enumerate(calls_in_order):
        if with_noise:
            talk.drops(*bent_answers(asked))
            talk.cut(answered(asked, number % 2))
            if number == 0:
                talk.drops(response(asked, connected()[1:]), inputs(b"\1\2", 1), the_ready())
        if number + 1 < len(calls_in_order):
            if number == 0:
                talk.expected.link = True
            talk.answer(answered(asked, number % 2), calls_in_order[number + 1], states[number])
            if with_noise:
                talk.drops(answered(asked))
                talk.tick(33)
    if with_noise:
        talk.tick(RESEND)
        talk.answer(answered(calls_in_order[-1], 1), None, "waiting")
        talk.drops(answered(calls_in_order[-1]), the_ready(relation.OTHER_AR), the_ready(session=2))
        talk.give(2, 1, b"\1\2\3")
        talk.give(1, 1, b"\1\2")
        talk.cut(the_ready())
        talk.tick(40)
    talk.expected.state, talk.expected.asked, talk.expected.hold = "exchanging", None, HOLD
    answer = ready_answer()
    talk.frame(the_ready(), [answer])
    if with_noise:
        talk.tick(7)
        talk.frame(the_ready(), [answer])
        talk.drops(identified(), addressed(), answered(calls_in_order[-1]))
        talk.cut(Raw(raw(inputs(b"\1\2", 1))))
        alarm = pdu(DEVICE, DATA, NONE_SENT, NONE_TAKEN, exchange.notification(1, 16, 0, b"\1\2"))
        talk.cut(Raw(raw(alarm)))
        talk.cut(pdu(DEVICE, ERR, NONE_SENT, NONE_TAKEN, Raw(b"\xCF\x81\xFD\x0D")), ERR_PADDING)
        talk.show()
        talk.show_places()
    return answer


class Exchange:
    """The intervals of a relation over a network that loses, repeats and reorders."""

    def __init__(self, talk, seed):
        self.talk, self.rng = talk, random.Random(seed)
        self.network, self.station = Network(self.rng), Station()
        self.station.link = Relation(False)
        self.station.link.hold = HOLD
        self.frames, self.forced, self.raised, self.cyclic = 0, 0, 0, 0

    def brought(self, sent, now):
        """What the controller sent goes to the network. The last repeat of an AlarmAck arrives."""
        for octets in sent:
            self.network.send("station", octets, now, self.talk.expected.repeats >= 2)

    def hand(self, octets, now):
        """A frame of the station arrives at the controller."""
        expected = self.talk.expected
        is_alarm = octets[16:20] in (bytes.fromhex("8892fc01"), bytes.fromhex("8892fe01"))
        self.brought(self.talk.octets(octets, expected.hear_alarm(octets) if is_alarm else expected.hear_cyclic(octets)), now)
        self.frames += 1

    def bent(self):
        """A frame that does not belong to the exchange, though its values are new."""
        elsewhere, strange = self.newest(), self.newest()
        elsewhere[Ether].dst, strange[Ether].src = "02:00:00:00:00:03", "02:00:00:00:00:04"
        counter = (self.station.units + 500) % 65536
        return self.rng.choice([
            raw(elsewhere), raw(strange), raw(inputs(b"\7\7", counter))[:-self.rng.randrange(1, 20)],
            raw(exchange.cyclic(DEVICE, [Raw(b"\0" * 40)], counter, frame_id=0xC002)),
            raw(exchange.cyclic(DEVICE, [Raw(b"\0" * 40)], counter, status=0x31)),
            raw(exchange.cyclic(DEVICE, [Raw(b"\0" * 40)], counter, transfer=1)),
            padded(pdu(DEVICE, ACK, 0, 0, endpoint=2)), padded(pdu(DEVICE, ACK, 0, 0x7FFF)), padded(pdu(DEVICE, NACK, 0, 0)),
            padded(pdu(DEVICE, ERR, 0, 0, Raw(b"\xCF\x81\xFD\x0D"), endpoint=2)), padded(identified()), padded(addressed())])

    def newest(self):
        return inputs(self.station.link.value, self.station.units % 65536)

    def tick(self, units, now):
        """Time goes by at both ends. A frame of the station arrives before the controller would take it for silent."""
        if units == 0:
            return
        if self.talk.expected.hold <= units:
            self.forced += 1
            self.hand(raw(exchange.inputs(self.station.link.value, (self.talk.expected.came + 1) % 65536)), now)
        for _ in range(units):
            self.station.link.hold = 1_000_000  # the station does not end it
            for packet in self.station.tick():
                alarm = self.station.link.alarm
                self.network.send("controller", padded(packet), now, alarm is not None and alarm.repeats >= 2)
        self.brought(self.talk.tick(units), now)

    def interval(self, now):
        rng, talk, link = self.rng, self.talk, self.station.link
        if rng.random() < 0.3:
            talk.give(*rng.choices(((2, 1), (1, 1), (2, 2)), (8, 1, 1))[0], rng.randbytes(2 if rng.random() < 0.9 else 3))
        if rng.random() < 0.3:
            link.value = rng.randbytes(2)
        if rng.random() < 0.15:
            sent, _ = self.station.raises(rng.randrange(1, 3), rng.randbytes(rng.choice((1, 2, 31, 32))))
            self.raised += len(sent)
            for packet in sent:
                self.network.send("controller", padded(packet), now)
        came = self.network.due("controller", now)
        if rng.random() < 0.2:
            came.insert(rng.randrange(len(came) + 1), self.bent())
        part, first = rng.randrange(len(came) + 1), rng.randrange(INTERVAL)
        for octets in came[:part]:
            self.hand(octets, now)
        self.tick(first, now)
        for octets in came[part:]:
            self.hand(octets, now)
        self.tick(INTERVAL - first, now)
        talk.show()
        for octets in self.network.due("station", now):
            sent, _ = self.station.hear(Ether(octets))
            for packet in sent:
                self.network.send("controller", padded(packet), now, talk.expected.repeats >= 2)


def kept_up(talk, seed):
    """1,000 intervals, and then the station is silent."""
    talk.give(2, 1, b"\xaa\x55")
    run = Exchange(talk, seed)
    run.hand(raw(inputs(b"\x12\x34", 0xFFF0)), 0)
    run.station.link.value = b"\x12\x34"
    for now in range(INTERVALS):
        run.interval(now)
    talk.tick(talk.expected.hold - 1)
    talk.shows("exchanging")
    talk.tick(1)
    talk.shows("ended 4")
    talk.show()
    talk.drops(identified(), addressed(), inputs(b"\1\2", 5), the_ready(), pdu(DEVICE, DATA, 0, 0, b""))
    talk.stop()
    talk.tick(RESEND + 1)
    return run


def again_as_release(talk, sequence, cause):
    """The Release is sent again each second until it is answered, whatever the answer says."""
    talk.tick(RESEND)
    talk.drops(response(release(sequence), [], sequence=sequence + 1))
    talk.expected.asked = None
    talk.drops(response(release(sequence), [], status=0xDC814005))
    talk.tick(RESEND)
    talk.shows(f"ended {cause}")


def endings(script):
    """Another start-up for each way to end."""
    connect, first, *_, end = requests()
    for vendor, device in ((0x0124, 0x0456), (0x0123, 0x0457)):
        talk = Talk(script)
        talk.expected.over(1)
        talk.drops(identified(vendor=vendor, device=device))
        talk.tick(RESEND)
    for refused in (addressed(error=6), addressed(kind=5), addressed(error=3)):
        talk = Talk(script)
        talk.answer(identified(), address(), "addressing")
        talk.expected.over(2)
        talk.drops(refused)
    talk = Talk(script)
    suite = bytes((192, 168, 0, 2, 255, 255, 255, 0, 0, 0, 0, 0))
    talk.answer(identified(suite=suite), connect, "connecting")
    talk.expected.over(2)
    talk.drops(response(connect, [], status=0xDB814004))
    talk = Talk(script)
    talk.answer(identified(suite=suite), connect, "connecting")
    talk.expected.over(3)
    differs = Block(block_type=0x8104, load=relation.DIFFERENCE)
    talk.answer(response(connect, connected() + [differs]), release(1), "ended 3")
    again_as_release(talk, 1, 3)
    talk = Talk(script)
    started(talk, False)
    talk.expected.over(5)
    talk.drops(pdu(DEVICE, ERR, NONE_SENT, NONE_TAKEN, Raw(b"\xCF\x81\xFD\x0D")))
    talk.tick(RESEND)
    talk = Talk(script)
    started(talk, False)
    alarm = padded(pdu(DEVICE, DATA, NONE_SENT, NONE_TAKEN, exchange.notification(1, 16, 7, b"\xab")))
    talk.octets(alarm, talk.expected.hear_alarm(alarm))
    for number in range(4 * AGAIN // INTERVAL):
        octets = raw(inputs(b"\0\1", number))
        talk.octets(octets, talk.expected.hear_cyclic(octets))
        talk.tick(INTERVAL)
    talk.shows("ended 6")
    talk.show()
    for begun in (False, True):
        talk = Talk(script)
        if begun:
            started(talk, False)
        else:
            talk.answer(identified(suite=suite), connect, "connecting")
        sequence = len(RECORDS) + 2 if begun else 1
        talk.expected.over(7)
        talk.stop(talk.expected.ask(release(sequence), "ended 7"))
        again_as_release(talk, sequence, 7)
    for answers in ([], [identified()]):
        talk = Talk(script)
        for answer in answers:
            talk.answer(answer, address(), "addressing")
        talk.expected.over(7)
        talk.stop()
        talk.tick(RESEND)


def judged(wanted, printed):
    """Asserts that each line is the one that has to be printed."""
    for number, (line, came) in enumerate(zip(wanted, printed), 1):
        same(f"line {number}", came, line)
    same("lines", len(printed), len(wanted))


def words_of(words, most):
    """The flag, what it takes, and at most this many numbers; or None."""
    flag = words[0] if words and words[0] in ("--script", "--wanted", "--output", "--tried") else None
    takes = flag in ("--output", "--tried")
    rest = words[(flag is not None) + takes:]
    if takes and len(words) < 2 or len(rest) > most or not all(word.isdigit() for word in rest):
        return None
    return flag, words[1] if takes else None, [int(word) for word in rest]


def done(script, flag, what, says):
    """Prints the lines, or judges what was printed for them, and says what was reached."""
    if flag in ("--script", "--wanted"):
        print("\n".join(script.said if flag == "--script" else script.wanted))
        return 0
    if flag == "--output":
        with open(what, encoding="ascii") as file:
            printed = file.read()
    else:
        program = what or PROGRAM
        if not os.path.exists(program):
            print(f"{os.path.basename(sys.argv[0])}: there is no program {program}: `rt run` in crates/table_controller makes it", file=sys.stderr)
            return 1
        text = ("\n".join(script.said) + "\n").encode()
        printed = subprocess.run([program], input=text, stdout=subprocess.PIPE, check=True).stdout.decode()
    try:
        judged(script.wanted, printed.splitlines())
    except AssertionError as differs:
        print(f"differs: {differs}")
        return 1
    print(says)
    return 0


def main(words):
    asked = words_of(words, 1)
    if asked is None:
        return refuse(words)
    flag, what, numbers = asked
    script = Script()
    talk = Talk(script)
    started(talk)
    run = kept_up(talk, *numbers or [SEED])
    endings(script)
    counts = run.network.counts
    return done(script, flag, what,
                f"{len(script.said)} lines, {script.frames} frames of the controller as Scapy builds them, {run.frames} frames handed to it"
                f" in {INTERVALS} intervals, {run.raised} alarms raised, {counts['lost']} frames lost, {counts['repeated']} repeated,"
                f" {counts['later']} late, {calls.asserted} values asserted")


if __name__ == "__main__":
    sys.exit(main(sys.argv[1:]))
