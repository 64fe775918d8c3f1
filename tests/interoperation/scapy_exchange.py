#!/usr/bin/python3
"""Keeps an exchange up with the program as another maker's controller would: Scapy's own layers of DCP, DCE/RPC, cyclic data and
alarms build each frame that comes in and each frame that has to be sent. No encoder of this repository takes part.

First the whole start-up of examples/exchange.txt, from Identify to a release. Then another relation is kept up for 1,000 intervals over
a network that loses, repeats and reorders frames of both ends as a seed says, with frames that do not belong there among them. What
the device must do with each of them is computed here by the rules of IEC 61158-6-10; what it did is read with Scapy and handed to the
controller in the order in which the network brought it. In the end the controller falls silent. A last relation is one in which a
module differs.

    tests/interoperation/scapy_exchange.py [SEED]                runs the lines by ./pnscript and says what was asserted; status 1 where one differs
    tests/interoperation/scapy_exchange.py --script              prints examples/exchange.txt, whose lines come first
    tests/interoperation/scapy_exchange.py --script SEED         prints all lines of a seed
    tests/interoperation/scapy_exchange.py --clean SEED          prints them without the frames that do not belong there, for tests/interoperation/wireshark.sh
    tests/interoperation/scapy_exchange.py --output FILE [SEED]  judges what was printed for them somewhere else

Needs Scapy (Debian: apt-get install python3-scapy; 2.5.0 was used) and a program, or `rt` to run the sources with.
"""

import os
import random
import subprocess
import sys

sys.path.insert(0, os.path.join(os.path.dirname(os.path.realpath(__file__)), "..", "..", "ci"))
from program import answer_help, refuse

if __name__ == "__main__":
    answer_help(__doc__, sys.argv[1:])  # which needs no Scapy

import scapy_calls as calls
import scapy_relation as relation
from scapy_calls import BIG, DEVICE, IM2, IM3, LITTLE, TOOL, TOP, fields, has_record, read_set, same
from scapy_relation import (
    ACTIVITY, ANOTHER, AR, DATE, DIFFERENCE, ENDS, INITIATOR, OTHER_AR, PRM_END, SUITE, frames, has_lines, is_connected, is_controlled,
    is_ready, is_written, parted, sent_in)
from scapy.compat import raw
from scapy.config import conf
from scapy.contrib.pnio import PNIORealTime_IOxS, PNIORealTimeCyclicPDU, ProfinetIO
from scapy.contrib.pnio_dcp import ProfinetDCP
from scapy.contrib.pnio_rpc import (
    Alarm_High, Alarm_Low, AlarmItem, AlarmNotification_High, Block, BlockHeader, IM2Block, IM3Block)
from scapy.fields import ShortField, XIntField, XShortField
from scapy.layers.l2 import Dot1Q, Ether
from scapy.packet import Raw, bind_layers

EXAMPLE = os.path.join(TOP, "examples", "exchange.txt")
SEED = 14
INTERVALS = 1000

# Units of 31.25 us: of an interval, of the silence that ends the exchange, and until an alarm is sent again.
INTERVAL, HOLD, AGAIN = 32, 3 * 32, 3200
MOST_AGAIN = 3

# The numbers before the first of what was sent, and of what was accepted.
NONE_SENT, NONE_TAKEN = 0xFFFF, 0xFFFE

# PDUType. Of its octet the low half is the type and the high one the version 1; Scapy 2.5.0 names them the other way round.
DATA, NACK, ACK, ERR = 1, 2, 3, 4

INPUT_ID, OUTPUT_ID = 0xC001, 0xC000
VALID = 0x35

bind_layers(Dot1Q, ProfinetIO, type=0x8892)

TWO_OCTETS = PNIORealTimeCyclicPDU.build_fixed_len_raw_type(2)
conf.contribs["PNIO_RTC"][(DEVICE, TOOL, INPUT_ID)] = 3 * [PNIORealTime_IOxS] + [TWO_OCTETS] + 2 * [PNIORealTime_IOxS]
conf.contribs["PNIO_RTC"][(TOOL, DEVICE, OUTPUT_ID)] = [TWO_OCTETS] + 5 * [PNIORealTime_IOxS]


class AlarmAck(Block):
    """The block by which the controller's application acknowledges an alarm."""
    fields_desc = [
        BlockHeader, ShortField("AlarmType", 2), XIntField("API", 0), ShortField("SlotNumber", 0), ShortField("SubslotNumber", 0),
        XShortField("AlarmSpecifier", 0), XIntField("PNIOStatus", 0)]
    block_type = 0x8001


def head(source, priority=6):
    """The link layer of a frame between the two, with its tag."""
    return Ether(dst=TOOL if source == DEVICE else DEVICE, src=source) / Dot1Q(prio=priority, vlan=0, type=0x8892)


def cyclic(source, items, counter, frame_id=None, status=VALID, transfer=0):
    """A cyclic frame of forty octets: values and statuses, each a Packet, followed by zeros."""
    known = INPUT_ID if source == DEVICE else OUTPUT_ID
    octets = sum(len(raw(item)) for item in items)
    return head(source) / ProfinetIO(frameID=known if frame_id is None else frame_id) / PNIORealTimeCyclicPDU(
        data=items, padding=bytes(40 - octets), cycleCounter=counter, dataStatus=status, transferStatus=transfer)


def good(is_good=True):
    """An IOPS or an IOCS."""
    return PNIORealTime_IOxS(dataState=int(is_good))


def inputs(value, counter, is_first_of_two=False):
    """What the device sends. If a module of another kind is expected in slot 2 and one in slot 3, both are reported as bad."""
    if is_first_of_two:
        return cyclic(DEVICE, [good(), good(), good(), Raw(value), good(), good(False), good(False)], counter)
    return cyclic(DEVICE, [good(), good(), good(), Raw(value), good(), good()], counter)


def outputs(value, counter, is_good=True, **bent):
    """What the controller sends."""
    return cyclic(TOOL, [Raw(value), good(is_good), good(), good(), good(), good()], counter, **bent)


def pdu(source, kind, sent, taken, body=b"", endpoint=1):
    """An alarm PDU."""
    layer, priority, frame_id = (Alarm_Low, 5, 0xFE01) if kind == ERR else (Alarm_High, 6, 0xFC01)
    header = layer(AlarmDstEndpoint=endpoint, AlarmSrcEndpoint=1, PDUTypeType=1, PDUTypeVersion=kind, AddFlags=0x11 if kind == DATA else 1,
                   SendSeqNum=sent, AckSeqNum=taken, VarPartLen=len(raw(body)))
    packet = head(source, priority) / ProfinetIO(frameID=frame_id) / header / Raw(raw(body))
    return packet / Raw(bytes(max(0, 60 - len(raw(packet)))))


def notification(slot, ident, specifier, octets):
    """The block of a process alarm of subslot 1."""
    return AlarmNotification_High(
        AlarmType=2, SlotNumber=slot, SubslotNumber=1, ModuleIdentNumber=ident, SubmoduleIdentNUmber=ident, AlarmSpecifier=specifier,
        AlarmPayload=[AlarmItem(UserStructureIdentifier=1, load=Raw(octets))])


def following(number):
    """The number of the data after that of this number."""
    return {NONE_TAKEN: 0xFFFF, 0xFFFF: 0}.get(number, (number + 1) % 0x8000)


class Alarm:
    """The pending alarm: its place, what was raised, and until when it is sent again."""

    def __init__(self, slot, ident, specifier, octets):
        self.slot, self.specifier = slot, specifier
        self.block = notification(slot, ident, specifier, octets)
        self.waits, self.since, self.repeats = True, 0, 0


class Relation:
    """What a relation keeps from its Connect on."""

    def __init__(self, differs):
        self.differs = differs
        self.since, self.hold, self.value, self.taken_frame = 0, None, bytes(2), None
        self.output, self.alarm, self.raised = bytes(2), None, []
        self.sent, self.taken = NONE_SENT, NONE_TAKEN


class Station:
    """What a device has to do. Each call gives the packets that it sends, and those that are no frames of time a note too."""

    def __init__(self):
        self.units, self.link = 0, None

    def tick(self):
        self.units += 1
        link = self.link
        if link is None:
            return []
        link.since += 1
        if link.hold is not None:
            link.hold -= 1
            if link.hold == 0:
                return [self.abort(5)]
        due = []
        if link.alarm and link.alarm.waits:
            link.alarm.since += 1
            if link.alarm.since == AGAIN:
                if link.alarm.repeats == MOST_AGAIN:
                    return [self.abort(13)]
                link.alarm.since, link.alarm.repeats = 0, link.alarm.repeats + 1
                due.append(self.notified())
        if link.since % INTERVAL == 0:
            due.append(inputs(link.value, self.units % 65536, link.differs))
        return due

    def abort(self, reason):
        link, self.link = self.link, None
        return pdu(DEVICE, ERR, link.sent, link.taken, Raw(bytes((0xCF, 0x81, 0xFD, reason))))

    def notified(self):
        return pdu(DEVICE, DATA, self.link.sent, self.link.taken, self.link.alarm.block)

    def give(self, slot, subslot, value):
        if self.link is None or (slot, subslot) != (1, 1) or len(value) != 2:
            return "refused"
        self.link.value = value
        return "done"

    def raises(self, slot, octets):
        """An alarm of subslot 1 of a module of slot 1 or 2."""
        link = self.link
        if link is None or link.hold is None or link.alarm or len(octets) > 32 or slot not in (1, 2):
            return [], "refused"
        link.sent = NONE_SENT if not link.raised else following(link.sent)
        link.alarm = Alarm(slot, 16 * slot, len(link.raised) % 2048, octets)
        link.raised.append(octets)
        return [self.notified()], "done"

    def hear(self, packet):
        """A cyclic or an alarm frame, as Scapy reads it."""
        link, octets = self.link, raw(packet)
        if packet[Ether].dst != DEVICE:
            return [], "not-mine"
        is_mine = link is not None and packet[Ether].src == TOOL
        if packet[ProfinetIO].frameID in (0xFC01, 0xFE01):
            told = Alarm_High(octets[20:])
            if not is_mine or (told.AlarmDstEndpoint, told.AlarmSrcEndpoint) != (1, 1):
                return [], "no-relation"
            return self.told(told, octets[32:])
        if not is_mine or packet[ProfinetIO].frameID != OUTPUT_ID:
            return [], "no-relation"
        if len(octets) - 20 < 44:
            return [], "fault"
        body = packet[PNIORealTimeCyclicPDU]
        newer = link.taken_frame is None or 1 <= (body.cycleCounter - link.taken_frame) % 65536 <= 61440
        if not int(body.dataStatus) & 4 or body.transferStatus or not newer:
            return [], "stale-cycle"
        link.taken_frame = body.cycleCounter
        link.output = octets[20:22] if octets[22] == 0x80 else bytes(2)
        link.hold = None if link.hold is None else HOLD
        return [], "done"

    def told(self, told, behind):
        link = self.link
        if told.PDUTypeVersion == DATA:
            if told.SendSeqNum == following(link.taken):
                link.taken = told.SendSeqNum
                said = AlarmAck(behind[:told.VarPartLen])
                if link.alarm and (said.SlotNumber, said.AlarmSpecifier) == (link.alarm.slot, link.alarm.specifier):
                    link.alarm = None
            return [pdu(DEVICE, ACK if told.SendSeqNum == link.taken else NACK, link.sent, link.taken)], "done"
        if told.PDUTypeVersion == ACK and link.raised and told.AckSeqNum == link.sent:
            if link.alarm:
                link.alarm.waits = False
            return [], "done"
        return [], "filter"


class Controller:
    """What a controller does with frames of the device, as Scapy reads them."""

    def __init__(self, counter):
        self.counter, self.value = counter, bytes(2)
        self.came, self.input, self.taken_alarms = None, None, []
        self.sent, self.taken, self.acknowledges, self.since, self.repeats = NONE_SENT, NONE_TAKEN, None, 0, 0
        self.is_first = True

    def cyclic(self, rng):
        """The frame of the next interval, with a value of its own."""
        self.counter, self.value, self.is_good = (self.counter + INTERVAL) % 65536, rng.randbytes(2), rng.random() > 0.05
        return self.newest()

    def newest(self, **bent):
        return outputs(self.value, self.counter, self.is_good, **bent)

    def again(self):
        """The AlarmAck again, where its time has come."""
        if self.acknowledges is None:
            return []
        self.since += INTERVAL
        if self.since < AGAIN:
            return []
        self.since, self.repeats = 0, self.repeats + 1
        return [self.acknowledged()]

    def acknowledged(self):
        return pdu(TOOL, DATA, self.sent, self.taken, self.acknowledges)

    def hear(self, came):
        """Takes a frame, and gives those that answer it."""
        packet = Ether(came)
        if packet[ProfinetIO].frameID == INPUT_ID:
            body = packet[PNIORealTimeCyclicPDU]
            if self.came is None or 1 <= (body.cycleCounter - self.came) % 65536 <= 61440:
                self.came, self.input = body.cycleCounter, raw(body.data[3])
                same("IOPS and IOCS", [item.dataState for place, item in enumerate(body.data) if place != 3], 5 * [1])
            return []
        told = Alarm_High(came[20:])
        if told.PDUTypeVersion == ACK and told.AckSeqNum == self.sent:
            self.acknowledges = None
        if told.PDUTypeVersion != DATA:
            return []
        answers = []
        if told.SendSeqNum == following(self.taken):
            self.taken = told.SendSeqNum
            block = AlarmNotification_High(came[32:32 + told.VarPartLen])
            same("the alarm's numbers", (block.AlarmType, block.API, block.SubslotNumber), (2, 0, 1))
            self.taken_alarms.append(came[32 + 28:32 + told.VarPartLen])
            self.sent, self.is_first = (NONE_SENT, False) if self.is_first else (following(self.sent), False)
            self.acknowledges = AlarmAck(SlotNumber=block.SlotNumber, SubslotNumber=1, AlarmSpecifier=block.AlarmSpecifier)
            self.since, self.repeats = 0, 0
            answers = [self.acknowledged()]
        is_last = told.SendSeqNum == self.taken
        return [pdu(TOOL, ACK if is_last else NACK, self.sent, self.taken)] + answers


class Network:
    """Brings frames to both ends: some never, some twice, some later."""

    def __init__(self, rng):
        self.rng, self.left, self.counts = rng, [], dict.fromkeys(("lost", "repeated", "later"), 0)

    def send(self, end, packet, now, is_sure=False):
        times = 1 if is_sure else self.rng.choices((0, 1, 2), (12, 76, 12))[0]
        self.counts["lost"] += times == 0
        self.counts["repeated"] += times == 2
        for _ in range(times):
            later = self.rng.choices((0, 1, 2, 3), (70, 12, 10, 8))[0]
            self.counts["later"] += later > 0
            self.left.append((now + later, end, packet))

    def due(self, end, now):
        """What comes to an end now, in any order."""
        found = [packet for when, to, packet in self.left if to == end and when <= now]
        self.left = [entry for entry in self.left if entry[1] != end or entry[0] > now]
        self.rng.shuffle(found)
        return found


class Talk:
    """All lines, each with its comment and what judges that which is printed for it."""

    def __init__(self):
        self.parts, self.station, self.sent = [], Station(), []

    def add(self, comment, line, judge):
        self.parts.append((comment, line, judge))

    def call(self, comment, packet, judge, note="done"):
        """A frame that is judged by what Scapy reads of the answer."""
        def judged(printed, _):
            same("the note", printed[-1], f"note {note}")
            judge(Ether(raw(packet)), sent_in(printed))
        self.add(comment, f"frame {raw(packet).hex()}", judged)

    def wanted(self, comment, line, packets, note):
        """A line for which these packets are sent. They are kept, as they are printed, for the controller."""
        octets, first = [raw(packet) for packet in packets], len(self.sent)
        self.sent += octets

        def judged(printed, came):
            same("frames sent", [sent.hex() for sent in sent_in(printed)], [sent.hex() for sent in octets])
            same("the note", printed[-1], f"note {note}")
            for number, sent in enumerate(sent_in(printed)):
                is_read(sent, packets[number])
                came[first + number] = sent
        self.add(comment, line, judged)
        return list(range(first, len(self.sent)))

    def tick(self, units, comment=None):
        sent = [packet for _ in range(units) for packet in self.station.tick()]
        return self.wanted(comment, f"tick {units}", sent, "done")

    def hand(self, octets, comment=None):
        """A cyclic or alarm frame of the controller."""
        sent, note = self.station.hear(Ether(octets))
        return self.wanted(comment, f"frame {octets.hex()}", sent, note)

    def give(self, slot, subslot, value, comment=None):
        return self.wanted(comment, f"input {slot} {subslot} {value.hex()}", [], self.station.give(slot, subslot, value))

    def raises(self, slot, octets, comment=None):
        sent, note = self.station.raises(slot, octets)
        return self.wanted(comment, f"alarm {slot} 1 {octets.hex()}", sent, note)

    def show(self, comment=None):
        link = self.station.link
        phase = "none" if link is None else "started" if link.hold is None else "exchanging"
        wanted = (f"phase {phase}", f"output 2 1 {(bytes(2) if link is None else link.output).hex()}")
        self.add(comment, "show", lambda printed, _: has_lines(*wanted)("show", printed))

    def made(self, sequence, endian, ar, modules, difference=None):
        """Makes a relation up to its exchange. `sequence` is that of its Connect."""
        self.call("Connect: what is expected in each slot, and where each octet stands in the cyclic frames.",
                  relation.connect(ACTIVITY, sequence, endian, ar, modules), frames(is_connected(difference)))
        self.station.link = Relation(difference is not None)
        date, text = raw(IM2Block(IMDate=DATE)), raw(IM3Block(IMDescriptor=54 * b"="))
        self.call("Write of I&M2, the date of installation.", relation.write(ACTIVITY, sequence + 1, date, endian, ar), frames(is_written))
        self.call("Write of I&M3, the descriptor.", relation.write(ACTIVITY, sequence + 2, text, endian, ar, index=0xAFF3),
                  frames(is_written))
        self.call("PrmEnd: its answer, then the device's ApplicationReady.", relation.control(ACTIVITY, sequence + 3, PRM_END, endian, ar),
                  frames(is_controlled, lambda _, came: is_ready(came, ar)))
        self.call("The answer to ApplicationReady: data is exchanged from here on.",
                  relation.ready_answer(relation.the_ready(ar), endian), frames())
        self.station.link.hold = HOLD

    def released(self, sequence, endian, ar):
        self.call("Release.", relation.control(ACTIVITY, sequence, ENDS, endian, ar), frames(is_controlled))
        self.station.link = None


def is_read(came, wanted):
    """Asserts what Scapy reads of a cyclic frame or of the header of an alarm PDU, beside that its octets are those that it builds."""
    packet = Ether(came)
    same("the tag", (packet[Dot1Q].prio, packet[Dot1Q].vlan), (wanted[Dot1Q].prio, 0))
    if wanted[ProfinetIO].frameID == INPUT_ID:
        fields(packet, PNIORealTimeCyclicPDU, {"cycleCounter": wanted.cycleCounter, "dataStatus": VALID, "transferStatus": 0})
    else:
        layer = Alarm_Low if Alarm_Low in wanted else Alarm_High
        fields(packet, layer, {name: wanted[layer].getfieldval(name) for name in
                               ("AlarmDstEndpoint", "AlarmSrcEndpoint", "PDUTypeType", "PDUTypeVersion", "AddFlags", "SendSeqNum",
                                "AckSeqNum", "VarPartLen")})


def is_found(name):
    """Reads the answer to Identify: this name, the maker, and no address yet."""
    def judge(_, came):
        blocks = {(block.option, block.sub_option): block for block in Ether(came)[ProfinetDCP].dcp_blocks}
        same("the name", blocks[2, 2].name_of_station, name)
        same("vendor and device", (blocks[2, 3].vendor_id, blocks[2, 3].device_id), (0x0123, 0x0456))
        same("the address", blocks[1, 2].ip, "0.0.0.0")
    return judge


def identify(xid, **block):
    """An Identify request with one block, to all stations."""
    return Ether(dst="01:0e:cf:00:00:00", src=TOOL) / ProfinetIO(frameID=0xFEFE) / ProfinetDCP(
        service_id=5, service_type=0, xid=xid, reserved=1, **block)


def is_named(_, came):
    block = Ether(came)[ProfinetDCP].dcp_blocks[0]
    same("the answered block", (block.option, block.sub_option, block.block_error), (5, 4, 0))


def started(talk):
    """The example: a whole start-up, cyclic frames, an alarm and a release."""
    naming = relation.dcp(9, option=2, sub_option=2, dcp_block_length=8, dcp_data_length=12, block_qualifier=1, name_of_station="pump-1")
    everyone = identify(8, option=0xFF, sub_option=0xFF, dcp_block_length=0, dcp_data_length=4)
    asked = identify(1, option=2, sub_option=2, dcp_block_length=6, dcp_data_length=10, name_of_station="pump-1")
    talk.call("DCP Identify: which stations are there? One without a name.", everyone, frames(is_found(b"")))
    talk.call("The station gets its name, once: DCP Set, permanent.", naming, frames(is_named))
    talk.call("DCP Identify: who is pump-1?", asked, frames(is_found(b"pump-1")))
    talk.call("DCP Set, permanent: the IP suite.", SUITE, frames(read_set))
    talk.made(0, LITTLE, AR, relation.STATION)
    controller = Controller(0)
    controller.value, controller.is_good, controller.counter = bytes.fromhex("aa55"), True, INTERVAL
    talk.give(1, 1, bytes.fromhex("1234"), "The application gives an input of two octets.")
    talk.tick(INTERVAL, "The first interval is over: a cyclic frame of the device.")
    talk.hand(raw(controller.newest()), "A cyclic frame of the controller, with an output of two octets.")
    talk.show("The output is shown.")
    controller.counter += INTERVAL
    talk.tick(INTERVAL, "The second interval.")
    talk.hand(raw(controller.newest()))
    sent, = talk.raises(1, bytes.fromhex("aabb"), "The application raises a process alarm.")
    answers = controller.hear(talk.sent[sent])
    talk.hand(raw(answers[0]), "The controller's ACK.")
    talk.raises(1, b"\xcc", "A second alarm: the first one still stands.")
    talk.hand(raw(answers[1]), "The AlarmAck of the controller's application, and the device's ACK.")
    talk.released(4, LITTLE, AR)
    talk.show("The relation is over, and its output with it.")


def bent(rng, controller):
    """A frame that does not belong to the exchange, though its values are new."""
    elsewhere, strange = controller.newest(), controller.newest()
    elsewhere[Ether].dst, strange[Ether].src = "02:00:00:00:00:03", "02:00:00:00:00:04"
    return rng.choice([
        raw(elsewhere), raw(strange), raw(controller.newest(frame_id=0xC002)), raw(controller.newest())[:-rng.randrange(1, 20)],
        raw(controller.newest(status=0x31)), raw(controller.newest(transfer=1)), raw(pdu(TOOL, ACK, 0, 0, endpoint=2)),
        raw(pdu(TOOL, ACK, 0, 0x7FFF)), raw(pdu(TOOL, NACK, 0, 0))])


class Exchange:
    """The intervals of a relation over such a network."""

    def __init__(self, talk, seed, is_clean):
        self.talk, self.rng, self.is_clean = talk, random.Random(seed), is_clean
        self.network, self.controller = Network(self.rng), Controller(64_000)
        self.brought, self.link, self.values, self.forced = [], talk.station.link, {}, 0

    def put(self, numbers, now):
        """What the device sent goes to the network. The last repeat of an alarm arrives, and so does the ACK of the controller's."""
        for number in numbers:
            alarm = self.link.alarm
            is_sure = (alarm is not None and alarm.repeats == MOST_AGAIN) or self.controller.repeats >= 2
            self.network.send("controller", number, now, is_sure)

    def tick(self, units, now):
        """Time goes by. A frame of the controller arrives before the device would take it for silent."""
        if units == 0:
            return
        if self.link.hold <= units:
            self.forced += 1
            self.hand(raw(self.controller.newest()), now)
        self.values.update({(self.talk.station.units + unit) % 65536: self.link.value for unit in range(1, units + 1)})
        self.put(self.talk.tick(units), now)

    def hand(self, octets, now):
        if octets is not None:
            self.put(self.talk.hand(octets), now)

    def interval(self, now):
        rng, talk, controller = self.rng, self.talk, self.controller
        if rng.random() < 0.3:
            slot = rng.choices((1, 2), (9, 1))[0]
            talk.give(slot, 1, rng.randbytes(2 if rng.random() < 0.9 else 3))
        if rng.random() < 0.15:
            self.put(talk.raises(rng.randrange(1, 4), rng.randbytes(rng.choice((1, 2, 31, 32, 32, 33)))), now)
        self.network.send("device", raw(controller.cyclic(rng)), now)
        for packet in controller.again():
            self.network.send("device", raw(packet), now, controller.repeats >= 2)
        came = self.network.due("device", now)
        if rng.random() < 0.15:
            place, foreign = rng.randrange(len(came) + 1), bent(rng, controller)
            came.insert(place, None if self.is_clean else foreign)
        part, first = rng.randrange(len(came) + 1), rng.randrange(INTERVAL)
        for octets in came[:part]:
            self.hand(octets, now)
        self.tick(first, now)
        for octets in came[part:]:
            self.hand(octets, now)
        self.tick(INTERVAL - first, now)
        if rng.random() < 0.05:
            talk.show()
        for number in self.network.due("controller", now):
            self.brought.append((len(talk.parts), number))
            alarm = self.link.alarm
            for packet in controller.hear(talk.sent[number]):
                self.network.send("device", raw(packet), now + 1, alarm is not None and alarm.repeats >= 2)

    def judge(self, came):
        """Hands what the device printed to a controller, in the order in which the network brought it."""
        reader = Controller(0)
        for _, number in self.brought:
            reader.hear(came[number])
            if reader.came is not None:
                same("the input", reader.input, self.values[reader.came])
        raised = self.link.raised
        same("the alarms that were taken", reader.taken_alarms, raised[:len(reader.taken_alarms)])
        same("alarms that are not taken yet", len(raised) - len(reader.taken_alarms) <= 1, True)
        return len(reader.taken_alarms)


def conversation(seed, is_clean=False):
    """The example, the exchange of this seed, the silence after it, and a relation in which modules differ. If it is clean each frame
    that does not belong to the exchange is drawn and left out, so that all else is the same."""
    talk = Talk()
    started(talk)
    example = len(talk.parts)
    talk.made(5, BIG, OTHER_AR, relation.STATION)
    exchange = Exchange(talk, seed, is_clean)
    for now in range(INTERVALS):
        exchange.interval(now)
    link = talk.station.link
    same("the exchange is up", link.hold is not None and link.since, INTERVALS * INTERVAL)
    talk.tick(link.hold - 1)
    talk.show()
    talk.tick(1)
    talk.show()
    talk.hand(raw(exchange.controller.newest()))
    talk.give(1, 1, bytes(2))
    talk.raises(1, b"\0")
    talk.made(10, LITTLE, AR, ANOTHER, DIFFERENCE)
    talk.give(1, 1, bytes.fromhex("5678"))
    talk.tick(2 * INTERVAL)
    talk.call(None, relation.read(ACTIVITY, 14, 0xAFF3), frames(has_record({**IM3, "IMDescriptor": 54 * b"="})))
    talk.call(None, relation.read(ACTIVITY, 15, 0xAFF2), frames(has_record({**IM2, "IMDate": DATE})))
    talk.released(16, LITTLE, AR)
    talk.tick(INTERVAL)
    talk.show()
    return talk, exchange, example


def script(parts):
    """The example: each line after its comment."""
    lines = ["# Starts a station up as a controller does, exchanges cyclic data and an alarm with it, and ends the relation.",
             "# `tests/interoperation/scapy_exchange.py --script` printed this: the frames are those that Scapy builds."]
    for comment, line, _ in parts:
        lines += ([f"# {comment}"] if comment else []) + [line]
    return "\n".join(lines) + "\n"


def talk_to(seed, text=None):
    """Judges all lines of a seed, as the program prints them or as they were printed before."""
    talk, exchange, example = conversation(seed)
    with open(EXAMPLE, encoding="ascii") as file:
        same("examples/exchange.txt (--script prints it)", file.read(), script(talk.parts[:example]))
    lines = [line for _, line, _ in talk.parts]
    if text is None:
        ran = subprocess.run([os.path.join(TOP, "pnscript"), "run"], input="\n".join(lines).encode(), stdout=subprocess.PIPE, check=True)
        text = ran.stdout.decode()
    wrong, came = 0, {}
    for number, ((comment, line, judge), printed) in enumerate(zip(talk.parts, parted(lines, text)), 1):
        try:
            judge(printed, came)
        except Exception as error:
            wrong += 1
            print(f"WRONG: {number} {comment or line[:60]} {type(error).__name__}: {error}")
    taken = 0
    try:
        taken = exchange.judge(came)
    except Exception as error:
        wrong += 1
        print(f"WRONG: what the controller read: {type(error).__name__}: {error}")
    print(f"seed {seed}: {INTERVALS} intervals, {', '.join(f'{count} frames {what}' for what, count in exchange.network.counts.items())}, "
          f"{exchange.forced} brought in time, {len(came)} sent by the device, {len(exchange.brought)} brought to the controller, "
          f"{taken} of {len(exchange.link.raised)} alarms taken in order")
    print(f"{len(lines)} lines, {calls.asserted} assertions, {wrong} lines wrong")
    return 1 if wrong else 0


def main(words):
    if words == ["--script"]:
        talk = Talk()
        started(talk)
        print(script(talk.parts), end="")
        return 0
    if len(words) == 2 and words[0] in ("--script", "--clean") and words[1].isdecimal():
        print("\n".join(line for _, line, _ in conversation(int(words[1]), words[0] == "--clean")[0].parts))
        return 0
    if len(words) in (2, 3) and words[0] == "--output":
        with open(words[1], encoding="ascii") as file:
            return talk_to(int(words[2]) if len(words) == 3 else SEED, file.read())
    if words and not (len(words) == 1 and words[0].isdecimal()):
        return refuse(words)
    return talk_to(int(words[0]) if words else SEED)


if __name__ == "__main__":
    sys.exit(main(sys.argv[1:]))
