#!/usr/bin/env python3
"""Puts one block of each kind into a frame of its own, and the blocks of a Connect into one, and prints tshark's line for it.

The blocks are those of tests/interoperation/blocks.txt and those that bench/figures/blocks.py measures. The program of
tests/table_block has to read each and write exactly it again. Records that a device writes and nothing of this repository reads are in
tests/interoperation/records.txt: each is put into the answer to a Read.
Needs Debian's package `tshark`. Its status is 1 where a block is written otherwise or a frame is dissected as malformed.
Use: tests/interoperation/blocks_in_tshark.py
"""
import os
import pathlib
import re
import struct
import subprocess
import sys
import tempfile

for folder in (("bench", "figures"), ("ci",)):
    sys.path.insert(0, os.path.join(os.path.dirname(os.path.realpath(__file__)), "..", "..", *folder))
from blocks import connect
from program import answer_help, bench, need, refuse

HERE = pathlib.Path(__file__).resolve().parent
DEVICE = bytes.fromhex("dea000016c9711d1827100a02442df7d")
CONTROLLER = bytes.fromhex("dea000026c9711d1827100a02442df7d")
OBJECT = bytes.fromhex("dea000006c9711d18271000104560123")
# operation numbers of the calls: Connect, Release, Read, Write, Control
OPERATION = {0x0101: 0, 0x0102: 0, 0x0103: 0, 0x0104: 0, 0x0114: 1, 0x0009: 2, 0x0008: 3, 0x0110: 4, 0x0112: 4}


def blocks():
    """The name and the octets of each block of the list."""
    for line in (HERE / "blocks.txt").read_text().splitlines():
        if not line.startswith("#"):
            name, octets = line.split()
            yield name, bytes.fromhex(octets)


def read_records():
    """The name, the index and the octets of each record of the list."""
    for line in (HERE / "records.txt").read_text().splitlines():
        if not line.startswith("#"):
            name, index, octets = line.split()
            yield name, int(index, 16), bytes.fromhex(octets)


def written_otherwise(found):
    """The names of the blocks that the program does not read, or writes otherwise than they came."""
    lines = "".join(block.hex() + "\n" for _, block in found)
    printed = subprocess.run([bench("table_block", "table_block")], input=lines, capture_output=True, text=True, check=True).stdout
    rows = [line for line in printed.splitlines() if line.startswith(("block ", "fault "))]
    wanted = [f"block {block[:2].hex()} rest 0 written {block.hex()}" for _, block in found]
    return [name for (name, _), row, is_wanted in zip(found, rows, wanted) if row != is_wanted]


def frame_of(number, kind, block, records):
    """A frame that carries the block, and after a header the record that it counts."""
    block += records.get(kind, b"")
    if kind in (0x0001, 0x8001):
        pdu = struct.pack(">HHHBBHHH", 0xFC01, 1, 1, 0x11, 0x11, 0xFFFF, 0xFFFE, len(block)) + block
        return bytes.fromhex("020000000001020000000002") + b"\x88\x92" + pdu
    if kind < 0x0100 and kind not in (0x0008, 0x0009):
        index = 0xF840 if kind in (0x30, 0x32) else 0xAFF0 + kind - 0x20
        return record_frame(number, index, block)
    interface = CONTROLLER if kind in (0x0112, 0x8112) else DEVICE
    return call_frame(number, interface, OPERATION[kind & 0x7FFF], kind >= 0x8000, block)


def record_frame(number, index, octets):
    """A frame that carries the answer to a Read of the record with this index."""
    header = bytes.fromhex("8009003c01000002") + bytes(16) + bytes(4) + bytes.fromhex("000000010000")
    return call_frame(number, DEVICE, 2, True, header + struct.pack(">HI", index, len(octets)) + bytes(24) + octets)


def call_frame(number, interface, operation, answer, block):
    """A frame that carries a call of this operation, or the answer to one, with these blocks."""
    activity = bytes(15) + bytes([number])
    if answer:
        body = bytes(4) + struct.pack(">IIII", len(block), 4096, 0, len(block)) + block
    else:
        body = struct.pack(">IIIII", 4096, len(block), 4096, 0, len(block)) + block
    rpc = struct.pack(">BBBB", 4, 2 if answer else 0, 0x0A if answer else 0x20, 0) + bytes(4)
    rpc += OBJECT + interface + activity + struct.pack(">IIIHHHHHBB", 0, 1, 0, operation, 0xFFFF, 0xFFFF, len(body), 0, 0, 0)
    udp = struct.pack(">HHHH", 34964, 34964, 8 + len(rpc) + len(body), 0) + rpc + body
    ip = bytearray(struct.pack(">BBHHHBBH", 0x45, 0, 20 + len(udp), 0, 0x4000, 64, 17, 0) + bytes([192, 168, 0, 1, 192, 168, 0, 2]))
    total = sum(struct.unpack(">10H", ip))
    total = (total & 0xFFFF) + (total >> 16)
    ip[10:12] = struct.pack(">H", 0xFFFF - ((total & 0xFFFF) + (total >> 16)))
    return bytes.fromhex("020000000001020000000002") + b"\x08\x00" + bytes(ip) + udp


def main(words):
    answer_help(__doc__, words)
    if words:
        return refuse(words)
    need("tshark")
    found = list(blocks())
    otherwise = written_otherwise(found)
    for name in otherwise:
        print(f"{name}: written otherwise")
    found.append(("CONNECT", connect()))
    named = dict(found)
    records = {0x8009: named["IM0"], 0x0008: named["IM2"]}
    with tempfile.TemporaryDirectory() as folder:
        path = pathlib.Path(folder) / "blocks.pcap"
        with path.open("wb") as out:
            out.write(struct.pack("<IHHiIII", 0xA1B2C3D4, 2, 4, 0, 0, 65535, 1))
            frames = [frame_of(number, int.from_bytes(block[:2], "big"), block, records) for number, (_, block) in enumerate(found)]
            for name, index, octets in read_records():
                frames.append(record_frame(len(found), index, octets))
                found.append((name, octets))
            for frame in frames:
                frame = frame.ljust(60, b"\0")
                out.write(struct.pack("<IIII", 0, 0, len(frame), len(frame)) + frame)
        lines = subprocess.run(["tshark", "-r", str(path)], capture_output=True, text=True, check=True).stdout.splitlines()
        trees = subprocess.run(["tshark", "-r", str(path), "-V"], capture_output=True, text=True, check=True).stdout.split("\nFrame ")
    bad = 0
    for (name, block), line, tree in zip(found, lines, trees):
        malformed = "Malformed" in tree
        bad += malformed
        print(f"{block[:2].hex()} {name}: {line.strip()}{'  MALFORMED' if malformed else ''}")
    print(f"{len(found)} frames, {bad} malformed")
    return 1 if bad or otherwise or len(lines) != len(found) else 0


if __name__ == "__main__":
    sys.exit(main(sys.argv[1:]))
