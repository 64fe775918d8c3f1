#!/usr/bin/python3
"""Makes a relation with the program as another maker's controller would: Scapy's own layers of DCP, DCE/RPC and PROFINET set an
address, connect, write and read records, end the parameters, answer ApplicationReady and release. No encoder of this repository
takes part. Calls are in little endian but where a part says otherwise.

    tests/interoperation/scapy_relation.py                 runs the lines by ./pnscript and says what was asserted; status 1 where one differs
    tests/interoperation/scapy_relation.py --script        prints examples/relation.txt, whose lines these are
    tests/interoperation/scapy_relation.py --script --bent prints the lines that no tool sends too
    tests/interoperation/scapy_relation.py --output FILE   judges what was printed for all of them somewhere else
    tests/interoperation/scapy_relation.py --recorded FOLDER
                                            judges scripts (NAME) and what was printed for them (NAME.stdout) that others made:
                                            each call that is answered positively is built again by the functions of this page, from
                                            the few values that a tool chooses, and is compared octet by octet; each answer is read

Needs Scapy (Debian: apt-get install python3-scapy; 2.5.0 was used) and a program, or `rt` to run the sources with.
"""

import contextlib
import io
import os
import struct
import subprocess
import sys
import uuid

sys.path.insert(0, os.path.join(os.path.dirname(os.path.realpath(__file__)), "..", "..", "ci"))
from program import answer_help, refuse

if __name__ == "__main__":
    answer_help(__doc__, sys.argv[1:])  # which needs no Scapy

import scapy_calls as calls
from scapy_calls import (
    BIG, DEVICE, DEVICE_INTERFACE, DEVICE_IP, IM2, LITTLE, MOST, NO_API, NO_AR, NO_INDEX, OBJECT, PORT, TOOL, TOOL_IP, TOP, fields,
    has_record, has_status, read_response, read_set, recomputed, same)
from scapy.compat import raw
from scapy.contrib.pnio import ProfinetIO
from scapy.contrib.pnio_dcp import ProfinetDCP
from scapy.contrib.pnio_rpc import (
    AlarmCRBlockReq, AlarmCRBlockRes, ARBlockReq, ARBlockRes, Block, ExpectedSubmodule, ExpectedSubmoduleAPI, ExpectedSubmoduleBlockReq,
    ExpectedSubmoduleDataDescription, IM2Block, IOCRAPI, IOCRAPIObject, IOCRBlockReq, IOCRBlockRes, IODControlReq, IODControlRes,
    IODReadReq, IODReadRes, IODWriteReq, IODWriteRes, PNIOServiceReqPDU, PNIOServiceResPDU)
from scapy.layers.dcerpc import DceRpc4
from scapy.layers.inet import IP, UDP
from scapy.layers.l2 import Ether
from scapy.packet import Raw

CONTROLLER_INTERFACE = uuid.UUID("dea00002-6c97-11d1-8271-00a02442df7d")
# The controller's own object: its instance is 1, vendor and device are 0.
INITIATOR = uuid.UUID("dea00000-6c97-11d1-8271-000100000000")
ACTIVITY = uuid.UUID("66666666-7777-8888-9999-aaaaaaaaaaaa")
OTHER_ACTIVITY = uuid.UUID("66666666-7777-8888-9999-aaaaaaaaaaab")
AR = uuid.UUID("11111111-2222-3333-4444-555555555555")
OTHER_AR = uuid.UUID("11111111-2222-3333-4444-555555555556")
DATE = b"2024-05-06 07:08"
EXAMPLE = os.path.join(TOP, "examples", "relation.txt")

CONNECT, RELEASE, READ, WRITE, CONTROL = range(5)
PRM_END, READY, ENDS = 0x0110, 0x0112, 0x0114
# The bit of ControlCommand that each control block sets.
COMMANDS = {PRM_END: "ControlCommand_PrmEnd", READY: "ControlCommand_ApplicationReady", ENDS: "ControlCommand_Release"}

# PNIOStatus: a relation of that ARUUID, of another; no such relation; not in this phase; lengths.
SAME_AR, OTHER = 0xDB814006, 0xDB814004
NO_RELATION = {RELEASE: 0xDC814005, CONTROL: 0xDD814005, READ: 0xDE814005, WRITE: 0xDF814005}
OUT_OF_PHASE, WRONG_COMMAND, WRITE_API, WRITE_INDEX, READ_ONLY, LENGTH = (
    0xDD814006, 0xDC814006, 0xDF80B400, 0xDF80B000, 0xDF80B600, 0xDF80B100)

# What is expected of the demo device: slot, ident of the module, and of each submodule subslot, ident, octets in and out.
STATION = [(0, 1, [(1, 1, 0, 0), (0x8000, 2, 0, 0), (0x8001, 3, 0, 0)]), (1, 16, [(1, 16, 2, 0)]), (2, 32, [(1, 32, 0, 2)])]
# The same with another module in slot 2, and one in the empty slot 3.
ANOTHER = STATION[:2] + [(2, 33, [(1, 33, 0, 2)]), (3, 48, [(1, 48, 0, 0)])]
# The ModuleDiffBlock of that, after its header: ident 33 where 32 is, and nothing in slot 3.
DIFFERENCE = bytes.fromhex(
    "0001000000000002" "000200000020000100010001000000209000" "000300000000000000010001000000009800")


def rpc(activity, sequence, operation, endian, port=PORT, target=OBJECT, address=TOOL_IP):
    """The layers of a call to the device, up to its blocks."""
    packet = IP(src=address, dst=DEVICE_IP, id=0, flags="DF") / UDP(sport=port, dport=PORT)
    return Ether(dst=DEVICE, src=TOOL) / packet / DceRpc4(
        ptype=0, flags1=0x20, endian=endian, object=target, if_id=DEVICE_INTERFACE, act_id=activity, seqnum=sequence, opnum=operation)


def body(blocks):
    """The arguments of a call."""
    return PNIOServiceReqPDU(args_max=MOST, max_count=MOST, blocks=blocks)


def places(modules, wanted):
    """Slot and subslot of each submodule that an IOCR holds data or a status of, by the octets that it takes."""
    return [(slot, subslot, wanted(came, sent)) for slot, _, submodules in modules for subslot, _, came, sent in submodules
            if wanted(came, sent)]


def iocr(kind, modules, frame_id):
    """The block of an IOCR (1 input, 2 output): data with its status first, then the status of what goes the other way."""
    takes_in, takes_out = (lambda came, sent: came + 1 if came or not sent else 0), (lambda came, sent: sent + 1 if sent else 0)
    data, status = (takes_in, takes_out) if kind == 1 else (takes_out, takes_in)
    lists, offset = [], 0
    for wanted, length_of in ((data, lambda length: length), (status, lambda _: 1)):
        found = []
        for slot, subslot, length in places(modules, wanted):
            found.append(IOCRAPIObject(SlotNumber=slot, SubslotNumber=subslot, FrameOffset=offset))
            offset += length_of(length)
        lists.append(found)
    return IOCRBlockReq(
        IOCRType=kind, IOCRReference=kind, DataLength=max(40, offset), FrameID=frame_id, SendClockFactor=32, ReductionRatio=1,
        WatchdogFactor=3, DataHoldFactor=3, IOCRMulticastMACAdd="00:00:00:00:00:00", IOCRProperties_RTClass=1,
        APIs=[IOCRAPI(API=0, IODataObjects=lists[0], IOCSs=lists[1])])


def expected(slot, ident, submodules):
    """The block of the module that is expected in a slot."""
    listed = []
    for subslot, number, came, sent in submodules:
        kind = 2 if sent else 1 if came else 0
        described = ExpectedSubmoduleDataDescription(
            DataDescription=kind or 1, SubmoduleDataLength=came + sent, LengthIOCS=1, LengthIOPS=1)
        listed.append(ExpectedSubmodule(
            SubslotNumber=subslot, SubmoduleIdentNumber=number, SubmoduleProperties_Type=kind, DataDescription=[described]))
    return ExpectedSubmoduleBlockReq(APIs=[ExpectedSubmoduleAPI(SlotNumber=slot, ModuleIdentNumber=ident, Submodules=listed)])


def connect(activity, sequence, endian=LITTLE, ar=AR, modules=None, factor=600, udp_port=0x8892, **lower):
    """A Connect: what is expected, where each octet is, and how long the controller may be silent."""
    modules = modules or STATION
    relation = ARBlockReq(
        ARUUID=ar, SessionKey=1, CMInitiatorMacAdd=TOOL, CMInitiatorObjectUUID=INITIATOR, ARProperties_ParametrizationServer=1,
        CMInitiatorActivityTimeoutFactor=factor, CMInitiatorUDPRTPort=udp_port, CMInitiatorStationName=b"plc")
    alarm = AlarmCRBlockReq(LocalAlarmReference=1)
    blocks = [relation, iocr(1, modules, 0xC001), iocr(2, modules, 0xFFFF), alarm, *(expected(*module) for module in modules)]
    return rpc(activity, sequence, CONNECT, endian, **lower) / body(blocks)


def write(activity, sequence, record, endian=LITTLE, ar=AR, index=0xAFF2, slot=0, subslot=1, api=0, number=None, **lower):
    """A Write of a record. SeqNumber is the call's unless it is given."""
    block = IODWriteReq(seqNum=sequence if number is None else number, ARUUID=ar, API=api, slotNumber=slot, subslotNumber=subslot,
                        index=index, recordDataLength=len(record)) / Raw(record)
    return rpc(activity, sequence, WRITE, endian, **lower) / body([block])


def read(activity, sequence, index, endian=LITTLE, ar=AR, most=4096, slot=0, subslot=1, api=0, operation=READ, number=None, **lower):
    """A Read of a record in a relation."""
    block = IODReadReq(seqNum=sequence if number is None else number, ARUUID=ar, API=api, slotNumber=slot, subslotNumber=subslot,
                       index=index, recordDataLength=most)
    return rpc(activity, sequence, operation, endian, **lower) / body([block])


def control(activity, sequence, kind, endian=LITTLE, ar=AR, session=1, command=None, properties=0, **lower):
    """PrmEnd or Release."""
    block = IODControlReq(block_type=kind, ARUUID=ar, SessionKey=session, ControlBlockProperties=properties,
                          **{command or COMMANDS[kind]: 1})
    return rpc(activity, sequence, RELEASE if kind == ENDS else CONTROL, endian, **lower) / body([block])


def ready_answer(ready, endian=LITTLE, status=0, sequence=0, **lower):
    """The answer to the device's ApplicationReady, from the call as Scapy read it. A negative one has no blocks."""
    asked, block = ready[DceRpc4], ready[PNIOServiceReqPDU].blocks[0]
    packet = rpc(asked.act_id, sequence, CONTROL, endian, target=asked.object, **lower)
    for name, value in (("ptype", 2), ("flags1", 0x0A), ("if_id", CONTROLLER_INTERFACE)):
        packet[DceRpc4].setfieldval(name, value)
    done = IODControlRes(block_type=block.block_type + 0x8000, ARUUID=block.ARUUID, SessionKey=block.SessionKey)
    return packet / PNIOServiceResPDU(status=status, max_count=ready[PNIOServiceReqPDU].args_max, blocks=[] if status else [done])


def the_ready(ar=AR, session=1, initiator=INITIATOR):
    """ApplicationReady as the device has to call it."""
    block = IODControlReq(block_type=READY, ARUUID=ar, SessionKey=session, ControlCommand_ApplicationReady=1)
    packet = rpc(ar, 0, CONTROL, BIG, target=initiator) / body([block])
    packet[Ether].src, packet[Ether].dst = DEVICE, TOOL
    packet[IP].src, packet[IP].dst = DEVICE_IP, TOOL_IP
    packet[DceRpc4].if_id = CONTROLLER_INTERFACE
    return packet


def is_connected(difference=None):
    """Reads the answer to a Connect: an answer to each block, and the ModuleDiffBlock where something differs."""
    def judge(frame, came):
        asked = frame[PNIOServiceReqPDU].blocks
        blocks = read_response(frame, came, 0)
        iocrs = [block for block in asked if isinstance(block, IOCRBlockReq)]
        wanted = [ARBlockRes, IOCRBlockRes, IOCRBlockRes, AlarmCRBlockRes] + ([] if difference is None else [Block])
        same("the kinds of blocks", [type(block) for block in blocks], wanted)
        fields(blocks[0], ARBlockRes, {
            "block_type": 0x8101, "block_length": 30, "block_version_high": 1, "block_version_low": 0, "ARType": 1,
            "ARUUID": asked[0].ARUUID, "SessionKey": asked[0].SessionKey, "CMResponderMacAdd": DEVICE, "CMResponderUDPRTPort": 0x8892})
        for block, of in zip(blocks[1:3], iocrs):
            given = of.FrameID if of.FrameID != 0xFFFF else 0xC000 if of.IOCRProperties_RTClass == 1 else 0x8000
            fields(block, IOCRBlockRes, {"block_type": 0x8102, "block_length": 8, "block_version_high": 1, "block_version_low": 0,
                                         "IOCRType": of.IOCRType, "IOCRReference": of.IOCRReference, "FrameID": given})
        fields(blocks[3], AlarmCRBlockRes, {"block_type": 0x8103, "block_length": 8, "block_version_high": 1, "block_version_low": 0,
                                            "AlarmCRType": 1, "LocalAlarmReference": 1, "MaxAlarmDataLength": 200})
        if difference is not None:
            fields(blocks[4], Block, {"block_type": 0x8104, "block_length": len(difference) + 2, "block_version_high": 1,
                                      "block_version_low": 0, "load": difference})
        same("the answer's length", len(came), 142 + 70 + (0 if difference is None else 6 + len(difference)))
    return judge


REPEATED = ("seqNum", "ARUUID", "API", "slotNumber", "subslotNumber", "index", "padding")


def is_written(frame, came):
    """Reads the positive answer to a Write."""
    asked = frame[PNIOServiceReqPDU].blocks[0]
    block, = read_response(frame, came, 0)
    fields(block, IODWriteRes, {
        "block_type": 0x8008, "block_length": 60, "block_version_high": 1, "block_version_low": 0, "additionalValue1": 0,
        "additionalValue2": 0, "status": 0, "RWPadding": bytes(16), "recordDataLength": asked.recordDataLength, "padding": bytes(2),
        **{name: asked.getfieldval(name) for name in REPEATED if name != "padding"}})
    same("the answer's length", len(came), 206)


def is_empty(frame, came):
    """Reads an answer that holds a record of no octets: no module differs."""
    asked = frame[PNIOServiceReqPDU].blocks[0]
    block, = read_response(frame, came, 0)
    fields(block, IODReadRes, {
        "block_type": 0x8009, "block_length": 60, "block_version_high": 1, "block_version_low": 0, "additionalValue1": 0,
        "additionalValue2": 0, "RWPadding": bytes(20), "recordDataLength": 0, "padding": bytes(2),
        **{name: asked.getfieldval(name) for name in REPEATED if name != "padding"}})
    same("the answer's length", len(came), 206)


def is_controlled(frame, came):
    """Reads the positive answer to PrmEnd or Release: the command 'done', all else repeated."""
    asked = frame[PNIOServiceReqPDU].blocks[0]
    block, = read_response(frame, came, 0)
    fields(block, IODControlRes, {
        "block_type": asked.block_type + 0x8000, "block_length": 28, "block_version_high": 1, "block_version_low": 0,
        "padding": bytes(2), "ARUUID": asked.ARUUID, "SessionKey": asked.SessionKey, "AlarmSequenceNumber": 0,
        "ControlCommand_reserved": 0, "ControlCommand_Done": 1, "ControlCommand_PrmEnd": 0, "ControlCommand_ApplicationReady": 0,
        "ControlCommand_Release": 0, "ControlBlockProperties": asked.ControlBlockProperties})
    same("the answer's length", len(came), 174)


def is_ready(came, ar=AR, session=1, initiator=INITIATOR):
    """Reads the device's own call: what Scapy builds of it, octet by octet, and its fields."""
    same("ApplicationReady as Scapy builds it", came, raw(the_ready(ar, session, initiator)))
    ready = Ether(came)
    same("its lengths and checksums", came, recomputed(ready))
    fields(ready, DceRpc4, {"ptype": 0, "flags1": 0x20, "if_id": CONTROLLER_INTERFACE, "object": initiator, "act_id": ar, "seqnum": 0,
                            "opnum": CONTROL, "endian": BIG})
    fields(ready[PNIOServiceReqPDU].blocks[0], IODControlReq, {
        "block_type": READY, "block_length": 28, "ARUUID": ar, "SessionKey": session, "AlarmSequenceNumber": 0,
        "ControlCommand_ApplicationReady": 1, "ControlCommand_Done": 0, "ControlBlockProperties": 0})


def set_refused(error):
    """Reads the answer to a Set that is refused."""
    def judge(_, came):
        block = Ether(came)[ProfinetDCP].dcp_blocks[0]
        same("the answered block", (block.option, block.sub_option, block.block_error), (5, 4, error))
    return judge


def dcp(xid, **block):
    """A Set of one block."""
    return Ether(dst=DEVICE, src=TOOL) / ProfinetIO(frameID=0xFEFD) / ProfinetDCP(service_id=4, service_type=0, xid=xid, **block)


SUITE = dcp(1, option=1, sub_option=2, dcp_block_length=14, dcp_data_length=18, block_qualifier=1, ip=DEVICE_IP,
            netmask="255.255.255.0", gateway="0.0.0.0")
NAME = dcp(2, option=2, sub_option=2, dcp_block_length=8, dcp_data_length=12, block_qualifier=1, name_of_station="pump-9")


def frames(*readers):
    """A frame sent for each reader, in this order."""
    def judge(frame, sent):
        same("frames sent", len(sent), len(readers))
        for reader, came in zip(readers, sent):
            reader(frame, came)
    return judge


def again(sent_before):
    """What was sent before is sent again, octet by octet; cyclic frames are left out."""
    def judge(_, sent):
        same("what is sent again", [came for came in sent if came[12:18] != bytes.fromhex("8100c0008892")], sent_before())
    return judge


def has_lines(*wanted):
    """These lines are shown."""
    return lambda _, lines: same("lines shown", [line for line in wanted if line not in lines], [])


def conversation():
    """What is said: a comment, a frame or another line, and what judges that which comes of it."""
    date = raw(IM2Block(IMDate=DATE))
    has_date = has_record({**IM2, "IMDate": DATE})
    first, ended = connect(ACTIVITY, 0), control(ACTIVITY, 4, PRM_END)
    written, release = write(ACTIVITY, 1, date), control(ACTIVITY, 5, ENDS)
    status = lambda number: frames(has_status(number))
    ready = lambda _, came: is_ready(came)
    kept = {}

    def keep(name, judge):
        def judged(frame, sent):
            kept[name] = sent
            judge(frame, sent)
        return judged

    return [
        ("DCP Set, permanent: the IP suite.", SUITE, frames(read_set)),
        ("Connect: three modules, as they are plugged.", first, keep("connect", frames(is_connected()))),
        ("The same call again: the answer that was kept.", first, again(lambda: kept["connect"])),
        ("Connect of the same relation, in a new call.", connect(OTHER_ACTIVITY, 0), status(SAME_AR)),
        ("Connect of another relation, in big endian.", connect(OTHER_ACTIVITY, 1, BIG, OTHER_AR), status(OTHER)),
        ("What is started is shown.", "show", has_lines("phase started")),
        ("No module differs: the record has no octet.", read(OTHER_ACTIVITY, 2, 0xE002), frames(is_empty)),
        ("Write of I&M2.", written, keep("write", frames(is_written))),
        ("The same Write again: one command.", written, again(lambda: kept["write"])),
        ("Read of I&M2 in the relation.", read(ACTIVITY, 2, 0xAFF2), frames(has_date)),
        ("Read in another relation.", read(OTHER_ACTIVITY, 8, 0xAFF2, ar=OTHER_AR), status(NO_RELATION[READ])),
        ("A record that there is not.", read(OTHER_ACTIVITY, 9, 0xAFF5, BIG), status(NO_INDEX)),
        ("A record of another API.", read(OTHER_ACTIVITY, 10, 0xAFF2, api=1), status(NO_API)),
        ("PrmEnd with another SessionKey.", control(ACTIVITY, 3, PRM_END, session=2), status(NO_RELATION[CONTROL])),
        ("PrmEnd: its answer, then the device's ApplicationReady.", ended,
         keep("end", frames(is_controlled, keep_second(kept, ready)))),
        ("PrmEnd in a new call.", control(OTHER_ACTIVITY, 11, PRM_END), status(OUT_OF_PHASE)),
        ("What waits for the answer is shown.", "show", has_lines("phase awaiting")),
        ("ApplicationReady is called again after a second.", "tick 32000", again(lambda: kept["ready"])),
        ("The answer to it.", ready_answer(the_ready()), frames()),
        ("Data is exchanged from here on.", "show", has_lines("phase exchanging", "im2 " + DATE.hex())),
        ("No name is set in a relation.", NAME, frames(set_refused(6))),
        ("Release with another SessionKey.", control(OTHER_ACTIVITY, 12, ENDS, session=7), status(NO_RELATION[RELEASE])),
        ("Release with another command.", control(OTHER_ACTIVITY, 13, ENDS, command=COMMANDS[PRM_END]), status(WRONG_COMMAND)),
        ("Release.", release, keep("release", frames(is_controlled))),
        ("The same Release again.", release, again(lambda: kept["release"])),
        ("The relation is over.", "show", has_lines("phase none")),
        ("Read in a relation that there was.", read(OTHER_ACTIVITY, 14, 0xAFF2), status(NO_RELATION[READ])),
        ("Connect of other modules, in big endian: two differ.", connect(ACTIVITY, 6, BIG, OTHER_AR, ANOTHER),
         frames(is_connected(DIFFERENCE))),
        ("PrmEnd is all the same.", control(ACTIVITY, 7, PRM_END, BIG, OTHER_AR), frames(is_controlled, lambda _, came: is_ready(came, OTHER_AR))),
        ("A negative answer to ApplicationReady ends the relation by an ERR frame.", ready_answer(the_ready(OTHER_AR), status=0xDD814006),
         is_aborted),
        ("It is over.", "show", has_lines("phase none")),
        ("The device starts again.", "restart", has_lines("boot ok")),
        ("I&M2 is stored: Read Implicit.", read(ACTIVITY, 0, 0xAFF2, ar=NO_AR, operation=5), frames(has_date)),
    ]


def bent():
    """Calls that no tool makes, in one more relation."""
    date = raw(IM2Block(IMDate=DATE))
    status = lambda number: frames(has_status(number))
    cut = write(ACTIVITY, 5, date)
    cut[PNIOServiceReqPDU].args_length = cut[PNIOServiceReqPDU].actual_count = 85
    return [
        ("Connect.", connect(ACTIVITY, 1, BIG), frames(is_connected())),
        ("I&M2 of another API.", write(OTHER_ACTIVITY, 4, date, api=1), status(WRITE_API)),
        ("Write in another relation.", write(OTHER_ACTIVITY, 7, date, ar=OTHER_AR), status(NO_RELATION[WRITE])),
        ("I&M2 with a date of fifteen octets.", write(ACTIVITY, 2, date[:-1]), status(LENGTH)),
        ("I&M0 is not written.", write(ACTIVITY, 3, date, index=0xAFF0), status(READ_ONLY)),
        ("I&M1 of a module.", write(ACTIVITY, 4, date, index=0xAFF1, slot=1), status(WRITE_INDEX)),
        ("A record that is not whole.", cut, status(LENGTH)),
        ("PrmEnd in the place of a Write.", other_operation(control(ACTIVITY, 6, PRM_END), WRITE), status(0xDF814001)),
        ("A Read in the place of a Connect.", other_operation(read(ACTIVITY, 7, 0xAFF2), CONNECT), status(0xDB814001)),
        ("PrmEnd with the command of a Release.", control(ACTIVITY, 8, PRM_END, command=COMMANDS[ENDS]), status(OUT_OF_PHASE)),
        ("I&M2 as it was.", read(ACTIVITY, 9, 0xAFF2), frames(has_record({**IM2, "IMDate": DATE}))),
        ("Release.", control(ACTIVITY, 10, ENDS, BIG), frames(is_controlled)),
        ("Nothing is left of it.", "show", has_lines("phase none", "im2 " + DATE.hex())),
    ]


def other_operation(packet, operation):
    """The same call by the number of another operation."""
    packet[DceRpc4].opnum = operation
    return packet


def keep_second(kept, judge):
    """ApplicationReady, which must come again."""
    def judged(frame, came):
        kept["ready"] = [came]
        judge(frame, came)
    return judged


def is_aborted(_, sent):
    """An alarm frame of high nibble ERR: PNIOStatus CF 81 FD 0D."""
    same("the ERR frame", [came.hex() for came in sent],
         ["0200000000020200000000018100a0008892fe01000100011401fffffffe0004cf81fd0d" + 24 * "00"])


def line_of(said):
    return said if isinstance(said, str) else f"frame {raw(said).hex()}"


def script():
    """The example: each line after its comment."""
    lines = ["# Makes a relation as a controller does, writes and reads records in it, and ends it.",
             "# `tests/interoperation/scapy_relation.py --script` printed this: the frames are those that Scapy builds."]
    for comment, said, _ in conversation():
        lines += [f"# {comment}", line_of(said)]
    return "\n".join(lines) + "\n"


def parted(lines, text):
    """What was printed for each line: the frames sent, or the lines."""
    left = text.splitlines()
    same("the first line", left.pop(0), "boot ok")
    found = []
    for line in lines:
        word, printed = line.split()[0], []
        while left and word not in ("cut", "fault"):
            if word == "show" and printed and (left[0].split()[0] in ("out", "note", "boot", "power", "off", "name")):
                break
            printed.append(left.pop(0))
            if word != "show" and not printed[-1].startswith("out "):
                break
        found.append(printed)
    same("lines left over", left, [])
    return found


def sent_in(printed):
    return [bytes.fromhex(line[4:]) for line in printed if line.startswith("out ")]


def talk(text=None):
    """Judges the whole conversation, as the program prints it or as it was printed before."""
    parts = conversation() + bent()
    lines = [line_of(said) for _, said, _ in parts]
    with open(EXAMPLE, encoding="ascii") as file:
        same("examples/relation.txt (--script prints it)", file.read(), script())
    if text is None:
        ran = subprocess.run([os.path.join(TOP, "pnscript"), "run"], input="\n".join(lines).encode(), stdout=subprocess.PIPE, check=True)
        text = ran.stdout.decode()
    wrong = 0
    for (comment, said, judge), printed in zip(parts, parted(lines, text)):
        try:
            if isinstance(said, str):
                judge(said, sent_in(printed) if said.startswith("tick") else printed)
            else:
                same("the note", printed[-1], "note done")
                judge(Ether(raw(said)), sent_in(printed))
        except Exception as error:
            wrong += 1
            print(f"WRONG: {comment} {type(error).__name__}: {error}")
    print(f"{len(parts)} lines, {calls.asserted} assertions, {wrong} lines wrong")
    return 1 if wrong else 0


class Recorded:
    """What others recorded of a device: the calls in it are built again, and the answers are read."""

    def __init__(self):
        self.counts = dict.fromkeys(("calls built alike", "calls with other values", "answers read", "answers given again", "frames that Scapy does not read"), 0)
        self.start()

    def start(self):
        self.kept, self.relation = {}, None

    def built(self, packet):
        """The same call by the functions of this page, or None where a tool would not send such a call."""
        rpc_head, sent = packet[DceRpc4], packet[PNIOServiceReqPDU].blocks
        base = {"endian": rpc_head.endian, "port": packet[UDP].sport, "target": rpc_head.object, "address": packet[IP].src}
        key, block = (rpc_head.act_id, rpc_head.seqnum), sent[0]
        if isinstance(block, ARBlockReq):
            return connect(*key, ar=block.ARUUID, factor=block.CMInitiatorActivityTimeoutFactor, udp_port=block.CMInitiatorUDPRTPort, **base)
        if isinstance(block, IODControlReq):
            return control(*key, block.block_type, ar=block.ARUUID, session=block.SessionKey, properties=block.ControlBlockProperties,
                           **base)
        place = {"slot": block.slotNumber, "subslot": block.subslotNumber, "api": block.API, "ar": block.ARUUID, "index": block.index,
                 "number": block.seqNum}
        if isinstance(block, IODWriteReq):
            return write(*key, raw(block.payload)[:block.recordDataLength], **place, **base)
        return read(*key, most=block.recordDataLength, operation=rpc_head.opnum, **place, **base)

    def compare(self, packet, ours):
        """Counts whether the frame of this page is the recorded one. A tool may leave the UDP checksum out."""
        if packet[UDP].chksum == 0:
            ours[UDP].chksum = 0
        is_same = raw(ours) == raw(packet)[:packet[IP].len + 14]
        self.counts["calls built alike" if is_same else "calls with other values"] += 1

    def call(self, packet, sent):
        """A call that is answered."""
        pair = (packet[DceRpc4].act_id, packet[DceRpc4].seqnum)
        if self.kept.get(pair) == sent[0]:
            self.counts["answers given again"] += 1
            return
        status, block = Ether(sent[0])[PNIOServiceResPDU].status, packet[PNIOServiceReqPDU].blocks[0]
        judges = [has_status(status)]
        if status == 0:
            judges = [self.judge(packet, block)]
            if isinstance(block, ARBlockReq):
                self.relation = (block.ARUUID, block.SessionKey, block.CMInitiatorObjectUUID)
            if len(sent) == 2:
                judges.append(lambda _, came: is_ready(came, *self.relation))
            self.compare(packet, self.built(packet))
        frames(*judges)(packet, sent)
        self.counts["answers read"] += len(sent)
        if packet[PNIOServiceReqPDU].args_length == packet[PNIOServiceReqPDU].actual_count:
            self.kept[pair] = sent[0]

    def judge(self, packet, block):
        if isinstance(block, ARBlockReq):
            return lambda frame, came: is_connected(raw(Ether(came)[PNIOServiceResPDU].blocks[4].load) if len(came) > 212 else None)(frame, came)
        if isinstance(block, IODControlReq):
            return is_controlled
        if isinstance(block, IODWriteReq):
            return is_written
        return self.is_read

    def is_read(self, frame, came):
        """A record that is not known here: what is around it."""
        head, asked = read_response(frame, came, 0)[0], frame[PNIOServiceReqPDU].blocks[0]
        fields(head, IODReadRes, {"block_type": 0x8009, "block_length": 60, "recordDataLength": len(came) - 206, "RWPadding": bytes(20),
                                  **{name: asked.getfieldval(name) for name in REPEATED if name != "padding"}})
        same("no more than asked for", len(came) - 206 <= asked.recordDataLength, True)

    def line(self, line, printed):
        if line == "restart":
            self.start()
        if not line.startswith("frame "):
            return
        try:
            # Scapy prints a word where a call has no body that it knows.
            with contextlib.redirect_stdout(io.StringIO()):
                packet = Ether(bytes.fromhex(line[6:]))
        except struct.error:
            self.counts["frames that Scapy does not read"] += 1
            return
        if DceRpc4 not in packet:
            return
        sent = sent_in(printed)
        if packet[DceRpc4].ptype == 2 and printed[-1] == "note done" and PNIOServiceResPDU in packet and self.relation:
            ours = ready_answer(the_ready(*self.relation), packet[DceRpc4].endian, packet[PNIOServiceResPDU].status,
                                port=packet[UDP].sport, address=packet[IP].src)
            self.compare(packet, ours)
        elif sent and PNIOServiceReqPDU in packet and packet[PNIOServiceReqPDU].blocks:
            self.call(packet, sent)


def recorded(folder):
    """Judges each script of a folder with what was printed for it."""
    judge, wrong = Recorded(), 0
    names = sorted(name for name in os.listdir(folder) if os.path.exists(os.path.join(folder, name + ".stdout")))
    for name in names:
        judge.start()
        with open(os.path.join(folder, name), encoding="ascii") as script, open(os.path.join(folder, name + ".stdout"), encoding="ascii") as out:
            lines = [line for line in script.read().splitlines() if line and not line.startswith("#")]
            for number, (line, printed) in enumerate(zip(lines, parted(lines, out.read())), 1):
                try:
                    judge.line(line, printed)
                except Exception as error:
                    wrong += 1
                    print(f"WRONG: {name} {number} {type(error).__name__}: {error}")
    print(f"{len(names)} scripts, {', '.join(f'{count} {what}' for what, count in judge.counts.items())}, {calls.asserted} assertions, "
          f"{wrong} lines wrong")
    return 1 if wrong else 0


def main(words):
    if words == ["--script"]:
        print(script(), end="")
        return 0
    if words == ["--script", "--bent"]:
        print("\n".join(line_of(said) for _, said, _ in conversation() + bent()))
        return 0
    if len(words) == 2 and words[0] == "--output":
        with open(words[1], encoding="ascii") as file:
            return talk(file.read())
    if len(words) == 2 and words[0] == "--recorded":
        return recorded(words[1])
    return refuse(words) if words else talk()


if __name__ == "__main__":
    sys.exit(main(sys.argv[1:]))
