#!/usr/bin/python3
"""Talks to the program as another maker's engineering tool would: Scapy's own layers of ARP, IPv4, UDP, DCE/RPC and PROFINET
build the frames and read the answers. No encoder of this repository takes part.

    tests/interoperation/scapy_calls.py            runs the frames by ./pnscript and says what was asserted; status 1 where something differs
    tests/interoperation/scapy_calls.py --script   prints examples/calls.txt, whose frames these are

Needs Scapy (Debian: apt-get install python3-scapy; 2.5.0 was used) and a program, or `rt` to run the sources with.
"""

import os
import subprocess
import sys
import uuid

sys.path.insert(0, os.path.join(os.path.dirname(os.path.realpath(__file__)), "..", "..", "ci"))
from program import answer_help, refuse

if __name__ == "__main__":
    answer_help(__doc__, sys.argv[1:])  # which needs no Scapy

try:
    from scapy.compat import raw
    from scapy.contrib.pnio import ProfinetIO
    from scapy.contrib.pnio_dcp import ProfinetDCP
    from scapy.contrib.pnio_rpc import IODReadReq, IODReadRes, PNIOServiceReqPDU, PNIOServiceResPDU
    from scapy.layers.dcerpc import DceRpc4
    from scapy.layers.dns import DNS, DNSQR
    from scapy.layers.inet import IP, UDP
    from scapy.layers.l2 import ARP, Dot1Q, Ether
    from scapy.packet import Padding, bind_layers
except ImportError as missing:
    sys.exit(f"Scapy is wanted (Debian: apt-get install python3-scapy): {missing}")

TOP = os.path.dirname(os.path.dirname(os.path.dirname(os.path.realpath(__file__))))
EXAMPLE = os.path.join(TOP, "examples", "calls.txt")

DEVICE, TOOL = "02:00:00:00:00:01", "02:00:00:00:00:02"
DEVICE_IP, TOOL_IP = "192.168.0.2", "192.168.0.1"
PORT = 34964
BIG, LITTLE = 0, 1
DEVICE_INTERFACE = uuid.UUID("dea00001-6c97-11d1-8271-00a02442df7d")
OBJECT = uuid.UUID("dea00000-6c97-11d1-8271-000104560123")
FIRST = uuid.UUID("11111111-2222-3333-4444-555555555555")
SECOND = uuid.UUID("66666666-7777-8888-9999-aaaaaaaaaaaa")
NO_AR = uuid.UUID(int=0)
MOST = 1372

# PNIOStatus of a Read: wrong counts, another API, no such subslot, no such Index.
WRONG, NO_API, NO_SUBSLOT, NO_INDEX = 0xDE814000, 0xDE80B400, 0xDE80B200, 0xDE80B000

IM0 = {
    "block_type": 0x0020, "block_length": 56, "block_version_high": 1, "block_version_low": 0,
    "VendorIDHigh": 0x01, "VendorIDLow": 0x23, "OrderID": 20 * b" ", "IMSerialNumber": 16 * b" ",
    "IMHardwareRevision": 0, "IMSWRevisionPrefix": b"V", "IMSWRevisionFunctionalEnhancement": 0,
    "IMSWRevisionBugFix": 0, "IMSWRevisionInternalChange": 0, "IMRevisionCounter": 0, "IMProfileID": 0,
    "IMProfileSpecificType": 0, "IMVersionMajor": 1, "IMVersionMinor": 1, "IMSupported": 0x001E,
}
IM1 = {"block_type": 0x0021, "block_length": 56, "IMTagFunction": 32 * b" ", "IMTagLocation": 22 * b" "}
IM2 = {"block_type": 0x0022, "block_length": 18, "IMDate": 16 * b" "}
IM3 = {"block_type": 0x0023, "block_length": 56, "IMDescriptor": 54 * b" "}
IM4 = {"block_type": 0x0024, "block_length": 56, "IMSignature": bytes(54)}

bind_layers(UDP, DceRpc4, dport=PORT)
bind_layers(UDP, DceRpc4, sport=PORT)

# The part that tells whether the station has I&M4.
SIGNATURE = "I&M4"

asserted = 0


def same(what, came, wanted):
    """Asserts that two values are equal."""
    global asserted
    asserted += 1
    if came != wanted:
        raise AssertionError(f"{what}: {came!r}, wanted {wanted!r}")


def fields(packet, layer, wanted):
    """Asserts fields of a layer, as Scapy reads them."""
    for name, value in wanted.items():
        same(f"{layer.__name__}.{name}", packet[layer].getfieldval(name), value)


def call(activity, sequence, index, endian=BIG, slot=0, subslot=1, api=0, most=4096, port=PORT, **bent):
    """A Read Implicit. `bent` has fields of lower layers with other values than Scapy computes."""
    block = IODReadReq(seqNum=sequence, ARUUID=NO_AR, API=api, slotNumber=slot, subslotNumber=subslot, index=index,
                       recordDataLength=most)
    packet = IP(src=TOOL_IP, dst=DEVICE_IP, id=0, flags="DF") / UDP(sport=port, dport=PORT)
    packet /= DceRpc4(ptype=0, flags1=0x20, endian=endian, object=OBJECT, act_id=activity, seqnum=sequence, opnum=5)
    packet /= PNIOServiceReqPDU(args_max=MOST, max_count=MOST, blocks=[block])
    for name, value in bent.items():
        layer = next(layer for layer in (UDP, DceRpc4, PNIOServiceReqPDU) if name in packet[layer].default_fields)
        packet[layer].setfieldval(name, value)
    return Ether(dst=DEVICE, src=TOOL) / packet


def read_set(frame, came):
    """A Set's answer: the suite was accepted."""
    answer = Ether(came)
    fields(answer, Ether, {"dst": TOOL, "src": DEVICE, "type": 0x8892})
    fields(answer, ProfinetIO, {"frameID": 0xFEFD})
    fields(answer, ProfinetDCP, {"service_id": 4, "service_type": 1, "xid": frame[ProfinetDCP].xid, "dcp_data_length": 8})
    block = answer[ProfinetDCP].dcp_blocks[0]
    same("the answered block", (block.option, block.sub_option, block.response, block.response_sub_option, block.block_error),
         (5, 4, 1, 2, 0))


def read_reply(_, came):
    """A reply of ARP, filled up to 60 octets."""
    reply = Ether(came)
    fields(reply, Ether, {"dst": TOOL, "src": DEVICE, "type": 0x0806})
    fields(reply, ARP, {"hwtype": 1, "ptype": 0x0800, "hwlen": 6, "plen": 4, "op": 2, "hwsrc": DEVICE, "psrc": DEVICE_IP,
                        "hwdst": TOOL, "pdst": TOOL_IP})
    same("padding", raw(reply[Padding]), bytes(18))


def recomputed(answer):
    """The same packet with each length and each checksum as Scapy computes it."""
    packet = answer[IP].copy()
    for layer, name in ((IP, "len"), (IP, "chksum"), (UDP, "len"), (UDP, "chksum")):
        packet[layer].delfieldval(name)
    return raw(Ether(dst=answer.dst, src=answer.src) / packet)


def read_response(frame, came, status):
    """The layers of a response to a call, and its blocks."""
    answer, asked = Ether(came), frame[DceRpc4]
    fields(answer, Ether, {"dst": frame[Ether].src, "src": DEVICE, "type": 0x0800})
    fields(answer, IP, {"version": 4, "ihl": 5, "tos": 0, "len": len(came) - 14, "id": 0, "flags": "DF", "frag": 0, "ttl": 64,
                        "proto": 17, "src": frame[IP].dst, "dst": frame[IP].src})
    fields(answer, UDP, {"sport": PORT, "dport": frame[UDP].sport, "len": len(came) - 34})
    same("lengths and checksums as Scapy computes them", came, recomputed(answer))
    fields(answer, DceRpc4, {
        "rpc_vers": 4, "ptype": 2, "flags1": 0x0A, "flags2": 0, "endian": BIG, "encoding": 0, "float": 0, "serial_hi": 0,
        "object": asked.object, "if_id": DEVICE_INTERFACE, "act_id": asked.act_id, "server_boot": 0, "if_vers": 1,
        "seqnum": asked.seqnum, "opnum": asked.opnum, "ihint": 0xFFFF, "ahint": 0xFFFF, "len": len(came) - 122, "fragnum": 0,
        "auth_proto": 0, "serial_lo": 0})
    carried = len(came) - 142
    fields(answer, PNIOServiceResPDU, {"status": status, "args_length": carried, "offset": 0, "actual_count": carried,
                                       "max_count": frame[PNIOServiceReqPDU].args_max})
    return answer[PNIOServiceResPDU].blocks


def has_record(record):
    """Reads an answer that holds this record."""
    def read(frame, came):
        head, block = read_response(frame, came, 0)
        asked = frame[PNIOServiceReqPDU].blocks[0]
        repeated = {name: asked.getfieldval(name) for name in ("seqNum", "ARUUID", "API", "slotNumber", "subslotNumber", "index")}
        length = record["block_length"] + 4
        fields(head, IODReadRes, {"block_length": 60, **repeated, "recordDataLength": length, "additionalValue1": 0,
                                  "additionalValue2": 0, "RWPadding": bytes(20)})
        same("the answer's length", len(came), 142 + 64 + length)
        fields(block, type(block), record)
    return read


def is_cut(frame, came):
    """The first ten octets of I&M0: its header and VendorID, then two of OrderID."""
    read_response(frame, came, 0)
    same("the answer's length", len(came), 216)
    same("the record", came[-10:], bytes.fromhex("00200038010001232020"))


def has_status(status):
    """Reads an answer without blocks."""
    return lambda frame, came: same("blocks", read_response(frame, came, status), [])


def conversation():
    """What the example says: a comment, a frame, its note, and what reads its answer."""
    suite = ProfinetDCP(service_id=4, service_type=0, xid=1, option=1, sub_option=2, dcp_block_length=14, dcp_data_length=18,
                        block_qualifier=1, ip=DEVICE_IP, netmask="255.255.255.0", gateway="0.0.0.0")
    unknown = call(FIRST, 4, 0xAFF5)
    question = IP(src=TOOL_IP, dst=DEVICE_IP, id=0, flags="DF") / UDP(sport=50000) / DNS(id=1, qd=DNSQR(qname="pump-1"))
    return [
        ("DCP Set, permanent: the IP suite 192.168.0.2 255.255.255.0, no gateway.",
         Ether(dst=DEVICE, src=TOOL) / ProfinetIO(frameID=0xFEFD) / suite, "done", read_set),
        ("ARP: who has 192.168.0.2?",
         Ether(dst="ff:ff:ff:ff:ff:ff", src=TOOL) / ARP(hwsrc=TOOL, psrc=TOOL_IP, pdst=DEVICE_IP), "done", read_reply),
        ("Read Implicit of I&M0 at slot 0, subslot 1: a call of DCE/RPC with the sequence number 0.",
         call(FIRST, 0, 0xAFF0), "done", has_record(IM0)),
        ("I&M1, with the sequence number 1: function and location.", call(FIRST, 1, 0xAFF1), "done", has_record(IM1)),
        ("I&M2: the date of installation.", call(FIRST, 2, 0xAFF2), "done", has_record(IM2)),
        ("I&M3: the descriptor.", call(FIRST, 3, 0xAFF3), "done", has_record(IM3)),
        ("A record that the station does not have: PNIOStatus DE 80 B0 00, invalid index.", unknown, "done", has_status(NO_INDEX)),
        ("The same call again: the station sends the answer that it kept.", unknown, "done", has_status(NO_INDEX)),
        ("An old call, with the sequence number 0 again: no answer.", call(FIRST, 0, 0xAFF0), "old-call", None),
        ("I&M0 asked by another tool, in little endian and from another port.",
         call(SECOND, 7, 0xAFF0, LITTLE, port=50000), "done", has_record(IM0)),
        ("A datagram for another port, a question of DNS: it is not for the station's ports.",
         Ether(dst=DEVICE, src=TOOL) / question, "not-mine", None),
    ]


def bent():
    """More calls, and frames that no tool sends."""
    tagged = call(SECOND, 12, 0xAFF2, LITTLE)
    tagged[Ether].payload = Dot1Q(prio=6, vlan=0) / tagged[IP]
    response = call(SECOND, 20, 0xAFF0, ptype=2)
    elsewhere = call(SECOND, 21, 0xAFF0)
    elsewhere[Ether].dst = "02:00:00:00:00:03"
    reply = Ether(dst=DEVICE, src=TOOL) / ARP(op=2, hwsrc=TOOL, psrc=TOOL_IP, hwdst=DEVICE, pdst=DEVICE_IP)
    other = Ether(dst="ff:ff:ff:ff:ff:ff", src=TOOL) / ARP(hwsrc=TOOL, psrc=TOOL_IP, pdst="192.168.0.3")
    return [
        (SIGNATURE, call(FIRST, 5, 0xAFF4), "done", has_status(NO_INDEX)),
        ("the first octets of I&M0", call(FIRST, 6, 0xAFF0, most=10), "done", is_cut),
        ("an empty slot", call(FIRST, 7, 0xAFF0, slot=3), "done", has_status(NO_SUBSLOT)),
        ("another API", call(FIRST, 8, 0xAFF0, api=1), "done", has_status(NO_API)),
        ("I&M1 of a module", call(FIRST, 9, 0xAFF1, slot=1), "done", has_status(NO_INDEX)),
        ("I&M0 of a module, in little endian", call(SECOND, 8, 0xAFF0, LITTLE, slot=2), "done", has_record(IM0)),
        ("counts that differ", call(SECOND, 9, 0xAFF0, args_length=63), "done", has_status(WRONG)),
        ("an Offset, in little endian", call(SECOND, 9, 0xAFF0, LITTLE, offset=1), "done", has_status(WRONG)),
        ("that sequence number is new", call(SECOND, 9, 0xAFF3), "done", has_record(IM3)),
        ("no checksum", call(SECOND, 10, 0xAFF1, chksum=0), "done", has_record(IM1)),
        ("with a VLAN tag", tagged, "done", has_record(IM2)),
        ("a wrong checksum", call(SECOND, 13, 0xAFF0, chksum=1), "fault", None),
        ("a wrong length", call(SECOND, 13, 0xAFF0, len=7), "fault", None),
        ("another version of RPC", call(SECOND, 13, 0xAFF0, rpc_vers=5), "fault", None),
        ("a fragment", call(SECOND, 13, 0xAFF0, fragnum=1), "fault", None),
        ("another interface", call(SECOND, 13, 0xAFF0, if_id=OBJECT), "fault", None),
        ("an operation that there is not", call(SECOND, 13, 0xAFF0, opnum=6), "fault", None),
        ("a response that nothing waits for", response, "no-relation", None),
        ("for another station", elsewhere, "not-mine", None),
        ("a reply of ARP", reply, "not-mine", None),
        ("ARP for another address", other, "not-mine", None),
        ("a call that is still new", call(SECOND, 13, 0xAFF0), "done", has_record(IM0)),
    ]


def script(parts):
    """A script of these frames, each after its comment."""
    lines = ["# Reads what a station says of itself, over the network: ARP, then calls of DCE/RPC.",
             "# `tests/interoperation/scapy_calls.py --script` printed this: the frames are those that Scapy builds."]
    for comment, frame, _, _ in parts:
        lines += [f"# {comment}", f"frame {raw(frame).hex()}"]
    return "\n".join(lines) + "\n"


def printed(text):
    """Runs a script. Gives for each of its frames the frames sent and the note."""
    ran = subprocess.run([os.path.join(TOP, "pnscript"), "run"], input=text.encode(), stdout=subprocess.PIPE, check=True)
    lines = ran.stdout.decode().splitlines()
    same("the first line", lines[0], "boot ok")
    sent, steps = [], []
    for line in lines[1:]:
        if line.startswith("out "):
            sent.append(bytes.fromhex(line[4:]))
        else:
            steps.append((sent, line))
            sent = []
    return steps


def judge(part, sent, line, before):
    """Asserts what became of a frame. Where the station has I&M4, I&M0 says so (IM_Supported) in each answer before and after."""
    name, frame, note, read = part
    if name == SIGNATURE and IM0["IMSupported"] == 0x001E:
        read = has_record(IM4)
    same("the note", line, f"note {note}")
    same("frames sent", len(sent), 0 if read is None else 1)
    if read is not None:
        read(Ether(raw(frame)), sent[0])
    if before is not None and raw(before[0]) == raw(frame) and read is not None:
        same("the answer to the same call", sent, before[1])


def main(words):
    if words not in ([], ["--script"]):
        return refuse(words)
    said = conversation()
    if words:
        print(script(said), end="")
        return 0
    parts = said + bent()
    with open(EXAMPLE, encoding="ascii") as file:
        same("examples/calls.txt (--script prints it)", file.read(), script(said))
    steps = printed(script(parts))
    same("lines of frames", len(steps), len(parts))
    wrong, before = 0, None
    answer = next(sent for part, (sent, _) in zip(parts, steps) if part[0] == SIGNATURE)
    if answer and Ether(answer[0])[PNIOServiceResPDU].status == 0:
        IM0["IMSupported"] = 0x001E
    for part, (sent, line) in zip(parts, steps):
        try:
            judge(part, sent, line, before)
        except Exception as error:
            wrong += 1
            print(f"WRONG: {part[0]} {type(error).__name__}: {error}")
        before = (part[1], sent)
    print(f"{len(parts)} frames that Scapy built, {sum(len(sent) for sent, _ in steps)} answers that it read, "
          f"{asserted} assertions, {wrong} frames wrong")
    return 1 if wrong else 0


if __name__ == "__main__":
    sys.exit(main(sys.argv[1:]))
