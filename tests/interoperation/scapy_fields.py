#!/usr/bin/python3
"""Blocks, alarms and an announcement of LLDP of which each field has a value of its own, so that two fields that are exchanged show: Scapy's own layers
build them from the names of the fields, and no encoder of this repository takes part. Where Scapy has no layer (ModuleDiffBlock, I&M0FilterData,
AlarmAck, records that list modules or have cyclic data), the octets are put together here by the fields of IEC 61158-6-10; tshark's names and values of
the same fields are in tests/interoperation/fields.txt.

    tests/interoperation/scapy_fields.py            prints tests/interoperation/named.txt: a name and its octets a line
    tests/interoperation/scapy_fields.py --check    status 1 where that file differs

Needs Scapy (Debian: apt-get install python3-scapy; 2.5.0 was used).
"""

import os
import struct
import sys
import uuid

sys.path.insert(0, os.path.join(os.path.dirname(os.path.realpath(__file__)), "..", "..", "ci"))
from program import answer_help, refuse

if __name__ == "__main__":
    answer_help(__doc__, sys.argv[1:])  # which needs no Scapy

from scapy.compat import raw
from scapy.contrib.lldp import (
    LLDPDU, LLDPDUChassisID, LLDPDUEndOfLLDPDU, LLDPDUGenericOrganisationSpecific, LLDPDUManagementAddress, LLDPDUPortID, LLDPDUTimeToLive)
from scapy.contrib.pnio_rpc import (
    Alarm_High, Alarm_Low, AlarmCRBlockReq, AlarmCRBlockRes, AlarmItem, AlarmNotification_High, AlarmNotification_Low, ARBlockReq, ARBlockRes,
    DiagnosisItem, ExpectedSubmodule, ExpectedSubmoduleAPI, ExpectedSubmoduleBlockReq, ExpectedSubmoduleDataDescription, IM0Block, IM1Block,
    IM2Block, IM3Block, IM4Block, IOCRAPI, IOCRAPIObject, IOCRBlockReq, IOCRBlockRes, IODControlReq, IODReadReq, IODWriteReq)
from scapy.layers.l2 import Ether
from scapy.packet import Raw

WANTED = os.path.join(os.path.dirname(os.path.realpath(__file__)), "named.txt")
AR = uuid.UUID("11111111-2222-3333-4444-555555555555")
OBJECT = uuid.UUID("dea00000-6c97-11d1-8271-000100560123")
DEVICE = "02:00:00:00:00:01"


def described(kind, size):
    """A DataDescription: 1 of an input, 2 of an output."""
    return ExpectedSubmoduleDataDescription(DataDescription=kind, SubmoduleDataLength=size, LengthIOCS=1, LengthIOPS=1)


def part(subslot, ident, kind, *descriptions):
    """A submodule of this type: 0 without data, 1 with inputs, 2 with outputs, 3 with both."""
    return ExpectedSubmodule(SubslotNumber=subslot, SubmoduleIdentNumber=ident, SubmoduleProperties_Type=kind, DataDescription=list(descriptions))


def places(*objects):
    """Places in a frame: slot, subslot and offset of each."""
    return [IOCRAPIObject(SlotNumber=slot, SubslotNumber=subslot, FrameOffset=offset) for slot, subslot, offset in objects]


def block(kind, octets, version=0x0100):
    """A block of any type and version."""
    return struct.pack(">HHH", kind, len(octets) + 2, version) + octets


def difference(*modules):
    """A ModuleDiffBlock: slot, ident, state of each module, and subslot, ident, state of its submodules."""
    octets = struct.pack(">HIH", 1, 0, len(modules))
    for slot, ident, state, submodules in modules:
        octets += struct.pack(">HIHH", slot, ident, state, len(submodules))
        octets += b"".join(struct.pack(">HIH", *submodule) for submodule in submodules)
    return block(0x8104, octets)


def listing(kind, version, *modules):
    """I&M0FilterData, or the identification of modules: slot and ident of each module, and subslot and ident of its submodules."""
    octets = struct.pack(">HIH", 1, 0, len(modules))
    for slot, ident, submodules in modules:
        octets += struct.pack(">HIH", slot, ident, len(submodules))
        octets += b"".join(struct.pack(">HI", *submodule) for submodule in submodules)
    return block(kind, octets, version)


def pdu(of, body, kind=1, flags=0x11):
    """An alarm PDU with these endpoints and numbers. Scapy 2.5.0 has PDUType.Type in the upper half of its octet, where the standard has the version."""
    return raw(of(AlarmDstEndpoint=3, AlarmSrcEndpoint=5, PDUTypeType=1, PDUTypeVersion=kind, AddFlags=flags, SendSeqNum=7, AckSeqNum=9,
                  VarPartLen=len(raw(body)), RTA_SDU=body))


def notification(of, kind, specifier, *payload):
    """An alarm of slot 2, subslot 4."""
    return of(AlarmType=kind, API=0, SlotNumber=2, SubslotNumber=4, ModuleIdentNumber=0x01020304, SubmoduleIdentNUmber=0x05060708,
              AlarmSpecifier=specifier, AlarmPayload=list(payload))


def connects():
    yield "AR_BLOCK_REQ", ARBlockReq(
        ARUUID=AR, SessionKey=0x1234, CMInitiatorMacAdd="02:03:04:05:06:07", CMInitiatorObjectUUID=OBJECT,
        ARProperties_PullModuleAlarmAllowed=1, ARProperties_ParametrizationServer=1, ARProperties_State=1,
        CMInitiatorActivityTimeoutFactor=601, CMInitiatorUDPRTPort=0x8893, CMInitiatorStationName="plc-7")
    yield "IOCR_BLOCK_REQ", IOCRBlockReq(
        IOCRType=2, IOCRReference=7, IOCRProperties_RTClass=2, DataLength=44, FrameID=0x8123, SendClockFactor=33, ReductionRatio=5, Phase=2,
        Sequence=3, FrameSendOffset=0x01020304, WatchdogFactor=6, DataHoldFactor=9, IOCRTagHeader_IOUserPriority=6,
        IOCRTagHeader_IOCRVLANID=0x123, IOCRMulticastMACAdd="03:04:05:06:07:08",
        APIs=[IOCRAPI(API=0, IODataObjects=places((1, 2, 3), (4, 5, 6)), IOCSs=places((7, 8, 9)))])
    # Priority is bit 0 of AlarmCRProperties; Scapy 2.5.0 names bit 31 so.
    yield "ALARM_CR_BLOCK_REQ", AlarmCRBlockReq(
        AlarmCRProperties_Reserved2=1, RTATimeoutFactor=2, RTARetries=4, LocalAlarmReference=5, MaxAlarmDataLength=201,
        AlarmCRTagHeaderHigh=0xC001, AlarmCRTagHeaderLow=0xA002)
    yield "EXPECTED", ExpectedSubmoduleBlockReq(APIs=[ExpectedSubmoduleAPI(
        SlotNumber=1, ModuleIdentNumber=0x01020304, ModuleProperties=0, Submodules=[
            part(2, 0x11, 1, described(1, 3)), part(4, 0x22, 2, described(2, 5)), part(6, 0x33, 3, described(1, 7), described(2, 8)),
            part(9, 0x44, 0, described(1, 0))])])
    yield "AR_BLOCK_RES", ARBlockRes(ARUUID=AR, SessionKey=0x1234, CMResponderMacAdd="02:03:04:05:06:08", CMResponderUDPRTPort=0x8892)
    yield "IOCR_BLOCK_RES", IOCRBlockRes(IOCRType=2, IOCRReference=7, FrameID=0x8123)
    yield "ALARM_CR_BLOCK_RES", AlarmCRBlockRes(LocalAlarmReference=1, MaxAlarmDataLength=200)
    yield "MODULE_DIFF", difference((1, 0x11, 1, [(2, 0x22, 0x9000), (3, 0x33, 0x9800)]), (4, 0, 0, [(5, 0, 0x9800)]))


def records():
    yield "PRM_END", IODControlReq(block_type=0x0110, ARUUID=AR, SessionKey=0x1234, ControlCommand_PrmEnd=1)
    yield "WRITE_REQ", IODWriteReq(seqNum=2, ARUUID=AR, API=0, slotNumber=3, subslotNumber=4, index=5, recordDataLength=6)
    yield "READ_REQ", IODReadReq(seqNum=2, ARUUID=AR, API=0, slotNumber=3, subslotNumber=4, index=5, recordDataLength=6)
    yield "IM0", IM0Block(
        VendorIDHigh=1, VendorIDLow=0x23, OrderID=b"ORDER-7".ljust(20), IMSerialNumber=b"SERIAL-8".ljust(16), IMHardwareRevision=0x0405,
        IMSWRevisionPrefix="R", IMSWRevisionFunctionalEnhancement=6, IMSWRevisionBugFix=7, IMSWRevisionInternalChange=8, IMProfileID=0x0A0B,
        IMProfileSpecificType=0x0C0D, IMSupported=0x001E)
    yield "IM1", IM1Block(IMTagFunction=b"function".ljust(32), IMTagLocation=b"location".ljust(22))
    yield "IM2", IM2Block(IMDate=b"2024-05-06 07:08")
    yield "IM3", IM3Block(IMDescriptor=b"descriptor".ljust(54))
    yield "IM4", IM4Block(IMSignature=b"signature".ljust(54))
    yield "FILTER_SUBMODULE", listing(0x0030, 0x0100, (1, 0x11, [(2, 0x22), (3, 0x33)]), (4, 0x44, [(5, 0x55)]))
    yield "FILTER_DEVICE", listing(0x0032, 0x0100, (0, 0x11, [(1, 0x22)]))
    yield "REAL_IDENTIFICATION", listing(0x0013, 0x0101, (1, 0x11, [(2, 0x22), (3, 0x33)]), (4, 0x44, [(5, 0x55)]))
    yield "RECORD_INPUT", block(0x0015, struct.pack(">BBBBH", 1, 0x60, 1, 0x80, 3) + bytes((0xA1, 0xA2, 0xA3)))
    substitute = block(0x0014, struct.pack(">HB", 0, 0x60) + bytes(3) + b"\x80")
    yield "RECORD_OUTPUT", block(0x0016, struct.pack(">HBBHB", 0, 1, 1, 3, 0x60) + bytes((0xB1, 0xB2, 0xB3)) + b"\x80" + substitute)


def alarms():
    diagnosis = DiagnosisItem(UserStructureIdentifier=0x8000, ChannelNumber=0x0102, ChannelProperties=0x0800, ChannelErrorType=0x0304)
    yield "DIAGNOSIS", pdu(Alarm_Low, notification(AlarmNotification_Low, 1, 0xA80B, diagnosis))
    gone = DiagnosisItem(UserStructureIdentifier=0x8000, ChannelNumber=0x0102, ChannelProperties=0x1000, ChannelErrorType=0x0304)
    yield "DIAGNOSIS_GONE", pdu(Alarm_Low, notification(AlarmNotification_Low, 12, 0x000C, gone))
    yield "PULL", pdu(Alarm_Low, notification(AlarmNotification_Low, 3, 0x000D))
    yield "PLUG", pdu(Alarm_Low, notification(AlarmNotification_Low, 4, 0x000E))
    yield "PLUG_WRONG", pdu(Alarm_Low, notification(AlarmNotification_Low, 10, 0x000F))
    yield "PULL_MODULE", pdu(Alarm_Low, notification(AlarmNotification_Low, 31, 0x0010))
    process = AlarmItem(UserStructureIdentifier=1, load=Raw(bytes((0xDE, 0xAD, 0xBE))))
    yield "PROCESS", pdu(Alarm_High, notification(AlarmNotification_High, 2, 0x0011, process))
    ack = struct.pack(">HIHHHI", 2, 0, 3, 4, 5, 0x01020304)
    yield "ALARM_ACK", pdu(Alarm_High, Raw(block(0x8001, ack)))
    yield "ALARM_ACK_LOW", pdu(Alarm_Low, Raw(block(0x8002, ack)))
    yield "ACK", pdu(Alarm_High, Raw(), 3, 1)
    yield "NACK", pdu(Alarm_High, Raw(), 2, 1)


def told(subtype, octets, organization=0x000ECF):
    """A TLV of an organization; of PROFINET if none is named."""
    return LLDPDUGenericOrganisationSpecific(org_code=organization, subtype=subtype, data=octets)


def announcements():
    head = Ether(dst="01:80:c2:00:00:0e", src=DEVICE, type=0x88CC)
    mac = bytes.fromhex(DEVICE.replace(":", ""))
    of_profinet = told(2, bytes(4)) / told(5, mac)
    rest = LLDPDUPortID(subtype=7, id=b"port-001") / LLDPDUTimeToLive(ttl=20) / of_profinet
    address = LLDPDUManagementAddress(
        management_address_subtype=1, management_address=bytes((192, 168, 0, 2)), interface_numbering_subtype=2, interface_number=1, object_id=b"")
    link = told(1, bytes((3, 0x80, 0x36, 0, 16)), 0x00120F)
    named = head / LLDPDUChassisID(subtype=7, id=b"pump-1") / rest / link / address / LLDPDUEndOfLLDPDU()
    yield "ANNOUNCEMENT", named
    nameless = head / LLDPDUChassisID(subtype=4, id=DEVICE) / rest / LLDPDUEndOfLLDPDU()
    yield "ANNOUNCEMENT_WITHOUT_A_NAME", raw(nameless) + bytes(max(0, 60 - len(raw(nameless))))


def text():
    lines = ["# Blocks, alarms and announcements in which each field has a value of its own.",
             "# `tests/interoperation/scapy_fields.py` printed this."]
    for rows in (connects, records, alarms, announcements):
        lines += [f"{name} {raw(packet).hex()}" for name, packet in rows()]
    return "\n".join(lines) + "\n"


def main(words):
    if words not in ([], ["--check"]):
        return refuse(words)
    if words:
        with open(WANTED, encoding="utf-8") as file:
            return 0 if file.read() == text() else 1
    print(text(), end="")
    return 0


if __name__ == "__main__":
    sys.exit(main(sys.argv[1:]))
