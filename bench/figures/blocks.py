#!/usr/bin/env python3
"""Counts the instructions of reading and of writing the blocks of a Connect and a PrmEnd, and the room that a block takes on
the stack. Its status is 1 where a figure passes its bound.

The blocks are made here from the tables of IEC 61158-6-10, 5.2, and not by the writer that is measured: the Connect to a
station whose access point has three submodules, with a module of two octets of input and one of two octets of output.
Needs python3, valgrind, objdump and the program bench_block of tests/benches, built by rustc; `blocks.py --octets` prints the octets in
hex, and needs nothing.

On some processors glibc clears 2 KiB and more by `rep stosb`, which is one instruction to them, and one for each octet to
callgrind: the counts of a Connect are then up to three times the lists of an ExpectedSubmoduleBlockReq, 7 KiB each time, higher
than they are on others.
Use: bench/figures/blocks.py [--octets]
"""
import os
import re
import struct
import subprocess
import sys

sys.path.insert(0, os.path.join(os.path.dirname(os.path.realpath(__file__)), "..", "..", "ci"))
from program import answer_help, bench, need, refuse

# how the names of functions begin that read or write blocks
CRATES_OF_BLOCKS = "(?:block_codec|connect_blocks|wire|connect_blocks|record_blocks)::"
MOST_INSTRUCTIONS = 60_000
# of a block without lists, which needs no room
MOST_OF_ONE = 2_000
MOST_ON_THE_STACK = 16 * 1024
TURNS = 100

AR_UUID = bytes.fromhex("11111111111111111111111111111122")
OBJECT = bytes.fromhex("dea000006c9711d18271000100000000")
MAC = bytes.fromhex("020000000002")
# slot, ident number, and its submodules: subslot, ident number, octets of input and of output
MODULES = (
    (0, 1, ((1, 1, 0, 0), (0x8000, 2, 0, 0), (0x8001, 3, 0, 0))),
    (1, 16, ((1, 16, 2, 0),)),
    (2, 32, ((1, 32, 0, 2),)),
)
CYCLIC = 0x8892


def block(kind, *fields):
    """A block of this type: its length counts the version 1.0 and the fields."""
    body = b"\1\0" + b"".join(fields)
    return struct.pack(">HH", kind, len(body)) + body


def ar_block():
    """ARType 1, ARProperties 0x11, a timeout factor of 600."""
    return block(0x0101, struct.pack(">H16sH6s16sIHHH", 1, AR_UUID, 1, MAC, OBJECT, 0x11, 600, CYCLIC, 3), b"plc")


def places(entries, first):
    """A count and the places of entries (slot, subslot, octets), packed from the first octet on; and the place after them."""
    out = struct.pack(">H", len(entries))
    for slot, subslot, size in entries:
        out += struct.pack(">HHH", slot, subslot, first)
        first += size
    return out, first


def iocr_block(kind, reference, frame_id, objects, statuses):
    """The data objects, each followed by its provider status, and then the consumer statuses."""
    data, behind = places([(slot, subslot, size + 1) for slot, subslot, size in objects], 0)
    status, end = places([(slot, subslot, 1) for slot, subslot, _ in statuses], behind)
    head = struct.pack(">HHHIHH", kind, reference, CYCLIC, 1, max(40, end), frame_id)
    times = struct.pack(">HHHHIHH", 32, 1, 1, 0, 0xFFFFFFFF, 3, 3)
    return block(0x0102, head, times, struct.pack(">H6sHI", 0xC000, bytes(6), 1, 0), data, status)


def alarm_block():
    """Reference 1, 200 octets of alarm data."""
    return block(0x0103, struct.pack(">HHIHHHHHH", 1, CYCLIC, 0, 1, 3, 1, 200, 0xC000, 0xA000))


def expected_block(slot, ident, submodules):
    """One API with one module."""
    out = struct.pack(">HIHIHH", 1, 0, slot, ident, 0, len(submodules))
    for subslot, part, ingoing, outgoing in submodules:
        properties = (1 if ingoing else 0) + (2 if outgoing else 0)
        out += struct.pack(">HIH", subslot, part, properties)
        out += struct.pack(">HHBB", 2 if outgoing else 1, ingoing or outgoing, 1, 1)
    return block(0x0104, out)


def connect():
    """ARBlockReq, the input's and the output's IOCRBlockReq, AlarmCRBlockReq, and an ExpectedSubmoduleBlockReq a slot."""
    parts = [(slot, *part) for slot, _, submodules in MODULES for part in submodules]
    inputs = [(slot, subslot, ingoing) for slot, subslot, _, ingoing, outgoing in parts if not outgoing]
    outputs = [(slot, subslot, outgoing) for slot, subslot, _, _, outgoing in parts if outgoing]
    blocks = [ar_block(), iocr_block(1, 1, 0xC001, inputs, outputs), iocr_block(2, 2, 0xFFFF, outputs, inputs), alarm_block()]
    return b"".join(blocks + [expected_block(*module) for module in MODULES])


def prm_end():
    """A block without lists: SessionKey 1, ControlCommand PrmEnd."""
    return block(0x0110, struct.pack(">H16sHHHH", 0, AR_UUID, 1, 0, 1, 0))


def instructions(program, first, second, octets=b""):
    """The instructions of a run of a program that does each of two things a number of times, over these octets."""
    ran = subprocess.run(
        ["valgrind", "--tool=callgrind", "--callgrind-out-file=/dev/null", program, str(first), str(second)],
        input=octets, capture_output=True, check=True)
    return int(re.search(rb"Collected : (\d+)", ran.stderr)[1])


def each(program, octets, reads, writes):
    """The instructions of one turn: what twice as many take beyond what half of them take."""
    once, twice = (instructions(program, 1 + reads * n * TURNS, 1 + writes * n * TURNS, octets) for n in (1, 2))
    return (twice - once) / TURNS


def frame(body):
    """The octets of a function's frame, by the instructions at its head: a large one is reserved in parts, each of which
    is probed, or in a loop down to what r11 holds."""
    head = "\n".join(body.split("\n")[:60])
    looped = [int(size, 16) for pair in re.findall(r"(?:lea +-0x([0-9a-f]+)\(%rsp\)|sub +\$0x([0-9a-f]+)),%r11", head) for size in pair if size]
    straight = re.sub(r"%r11.*?jne", "", head, flags=re.DOTALL)
    return sum(looped) + sum(int(size, 16) for size in re.findall(r"sub +\$0x([0-9a-f]+),%rsp", straight))


def largest_frame(program, names):
    """The octets of the largest frame of a function whose name begins so, as the program was built, and its name."""
    listing = subprocess.run(["objdump", "-d", "-C", "--no-show-raw-insn", program], capture_output=True, text=True, check=True).stdout
    functions = re.findall(rf"<((?:{names})[^\n]*)>:\n(.*?)\n\n", listing, re.DOTALL)
    if not functions:
        sys.exit(f"{program} has no function whose name begins so: {names}")
    return max((frame(body), name) for name, body in functions)


def main(words):
    answer_help(__doc__, words)
    if words == ["--octets"]:
        print(connect().hex())
        return
    if words:
        sys.exit(refuse(words))
    need("valgrind", "objdump")
    program = bench("bench_block")
    measured = []
    for what, octets, bound in (("the blocks of a Connect", connect(), MOST_INSTRUCTIONS), ("a PrmEnd, which has no lists", prm_end(), MOST_OF_ONE)):
        for verb, turns in (("read", (1, 0)), ("write", (0, 1))):
            measured.append((f"instructions to {verb} {what}, {len(octets)} octets", round(each(program, octets, *turns)), bound))
    said = subprocess.run([program, "1", "1"], input=connect(), capture_output=True, check=True).stdout.decode()
    if "as they came: true" not in said:
        sys.exit(f"the blocks are not written as they came: {said}")
    measured.append(("octets of a block in memory", int(re.search(r"a block (\d+) octets", said)[1]), MOST_ON_THE_STACK))
    octets, name = largest_frame(program, CRATES_OF_BLOCKS)
    measured.append((f"octets of the largest frame on the stack, of {name}", octets, MOST_ON_THE_STACK))
    for what, figure, bound in measured:
        print(f"{figure} {what} (at most {bound}){'' if figure <= bound else ': over its bound'}")
    sys.exit(1 if any(figure > bound for _, figure, bound in measured) else 0)


if __name__ == "__main__":
    main(sys.argv[1:])
