#!/usr/bin/env python3
"""Reads records and answers of the device with tshark, field by field, and compares what it reads with what is kept.

The records are those of tests/interoperation/records.txt, each in the answer to a Read. Beside them are an acknowledgement of a fragment (fack), nocall, the
rejects, and the answers of the endpoint mapper, with its entry and without one, as they are in tests/interoperation/answers.txt; and the blocks, alarms and
announcements of tests/interoperation/named.txt, in which each field has a value of its own. The tests of the repository compare the same octets
with what both ends write. tests/interoperation/fields.txt has each field that tshark finds in them, with its name and its value.
Needs Debian's package `tshark`. Its status is 1 where a field has another name or value, or a frame is dissected as malformed.
Use: tests/interoperation/fields_in_tshark.py [--write]
"""
import pathlib
import struct
import subprocess
import sys
import tempfile
import xml.etree.ElementTree

from blocks_in_tshark import HERE, answer_help, frame_of, need, read_records, record_frame, refuse

# What tshark computes of a frame, and what the frame around a record says.
LEFT_OUT = ("dcerpc.time", "dcerpc.request_in", "dcerpc.response_in")
PROTOCOLS = ("pn_io", "pn_io_device", "epm", "dcerpc", "lldp")
# The indices of records in named.txt that have no block of the codec, by BlockType; and what follows the header of a block that counts it.
INDICES = {0x0013: 0xF000, 0x0015: 0x8028, 0x0016: 0x8029}
FOLLOWS = {0x0008: bytes(6)}


def answers():
    """The name and the octets of each answer of RPC."""
    for line in (HERE / "answers.txt").read_text().splitlines():
        if not line.startswith("#"):
            name, octets = line.split()
            yield name, bytes.fromhex(octets)


def named_frame(number, name, octets):
    """A frame that carries this line of named.txt, and where its octets begin."""
    if name.startswith("ANNOUNCEMENT"):
        return octets, 14
    head = bytes.fromhex("0200000000010200000000028892")
    if octets[4] in (0x11, 0x12, 0x13) and octets[:2] == b"\0\3":
        is_high = name in ("PROCESS", "ALARM_ACK", "ACK", "NACK")
        return head + (b"\xfc\x01" if is_high else b"\xfe\x01") + octets + bytes(max(0, 44 - len(octets))), 16
    kind = int.from_bytes(octets[:2], "big")
    frame = record_frame(number, INDICES[kind], octets) if kind in INDICES else frame_of(number, kind, octets, FOLLOWS)
    return frame, frame.index(octets)


def named():
    """The name of each line of named.txt, a frame with its octets, and where they begin."""
    for number, line in enumerate((HERE / "named.txt").read_text().splitlines()):
        if not line.startswith("#"):
            name, octets = line.split()
            yield (f"named {name}", *named_frame(number, name, bytes.fromhex(octets)))


def datagram(body):
    """A frame that carries this datagram of RPC."""
    udp = struct.pack(">HHHH", 34964, 34964, 8 + len(body), 0) + body
    ip = bytearray(struct.pack(">BBHHHBBH", 0x45, 0, 20 + len(udp), 0, 0x4000, 64, 17, 0) + bytes([192, 168, 0, 2, 192, 168, 0, 1]))
    total = sum(struct.unpack(">10H", ip))
    total = (total & 0xFFFF) + (total >> 16)
    ip[10:12] = struct.pack(">H", 0xFFFF - ((total & 0xFFFF) + (total >> 16)))
    return bytes.fromhex("020000000002020000000001") + b"\x08\x00" + bytes(ip) + udp


def dissected(frames):
    """What tshark makes of each frame, as trees."""
    with tempfile.TemporaryDirectory() as folder:
        path = pathlib.Path(folder) / "frames.pcap"
        with path.open("wb") as out:
            out.write(struct.pack("<IHHiIII", 0xA1B2C3D4, 2, 4, 0, 0, 65535, 1))
            for frame in frames:
                out.write(struct.pack("<IIII", 0, 0, len(frame), len(frame)) + frame)
        text = subprocess.run(["tshark", "-r", str(path), "-T", "pdml"], capture_output=True, text=True, check=True).stdout
    return list(xml.etree.ElementTree.fromstring(text))


def fields_of(tree, start):
    """Name and value of each field of a frame from this octet on, in their order."""
    for protocol in tree:
        if protocol.get("name") not in PROTOCOLS:
            continue
        for field in protocol.iter("field"):
            name, size = field.get("name"), int(field.get("size") or 0)
            if name and size and int(field.get("pos")) >= start and name not in LEFT_OUT and field.get("show"):
                yield f"{name} {field.get('show')}"


def table():
    """All fields of all of them; and whether a frame is malformed."""
    records, others = list(read_records()), list(answers())
    frames = [record_frame(number, index, octets) for number, (_, index, octets) in enumerate(records)] + [datagram(octets) for _, octets in others]
    starts = [len(frame) - len(octets) for frame, (_, _, octets) in zip(frames, records)] + [42 for _ in others]
    rows = list(named())
    frames += [frame for _, frame, _ in rows]
    starts += [start for _, _, start in rows]
    lines, is_malformed = [], False
    for name, frame, start, tree in zip([row[0] for row in records + others + rows], frames, starts, dissected(frames)):
        lines += [f"# {name}", *fields_of(tree, start)]
        is_malformed |= any(protocol.get("name") == "_ws.malformed" for protocol in tree.iter())
    return lines, is_malformed


def main(words):
    answer_help(__doc__, words)
    if words not in ([], ["--write"]):
        return refuse(words)
    need("tshark")
    kept = HERE / "fields.txt"
    found, is_malformed = table()
    if words:
        kept.write_text("".join(line + "\n" for line in found), encoding="utf-8")
    wanted = kept.read_text(encoding="utf-8").splitlines()
    differing = [f"{number + 1}: {have} in the place of {want}" for number, (have, want) in enumerate(zip(found, wanted)) if have != want]
    print("\n".join(differing[:10] + [f"{len(found)} fields, {len(wanted)} kept, {len(differing)} differ" + (", malformed" if is_malformed else "")]))
    return 1 if differing or is_malformed or len(found) != len(wanted) else 0


if __name__ == "__main__":
    sys.exit(main(sys.argv[1:]))
