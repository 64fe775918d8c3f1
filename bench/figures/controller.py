#!/usr/bin/env python3
"""Counts the instructions of a step of the controller in an exchange, side by side with those of the same work in plain Rust
(bench/figures/controller.rs): both take the same lines, and both have to print the same. Then those of a start-up, all its steps, and
how large a controller and the largest frame on its stack are. Its status is 1 where a figure passes its bound or where they do not print
the same.

The frames are made here from IEC 61158-6-10, and not by what is measured.

    bench/figures/controller.py                     measures the program of crates/table_controller, which
                                                    `ci/prove-program table_controller` makes
    bench/figures/controller.py --tried FILE        measures this program in its place
    bench/figures/controller.py --lines KIND COUNT  prints the lines of a measurement

Needs rustc, valgrind, objdump and the program bench_device of tests/benches, built: the size in memory is that of the plain Rust edition.
"""

import json
import os
import pathlib
import re
import struct
import subprocess
import sys

sys.path.insert(0, os.path.join(os.path.dirname(os.path.realpath(__file__)), "..", "..", "ci"))
import blocks
import calls
from exchange import numbered
from program import answer_help, bench, launcher, need, refuse

ROOT = pathlib.Path(__file__).resolve().parent.parent.parent
PROGRAM = ROOT / "crates/table_controller/out/table_controller"
PLAIN = ROOT / "bench/figures/build/controller"

# Octets of a controller in memory, and of a frame on its stack; instructions of a start-up.
MOST_IN_MEMORY, MOST_ON_THE_STACK, MOST_TO_START = 40 * 1024, 16 * 1024, 200_000

# SendClockFactor, ReductionRatio and DataHoldFactor: an interval of one unit, and of the most there are.
SHORT, LONG = (1, 1, 7680), (128, 512, 7680)

AR, ACTIVITY = "11111111-2222-3333-4444-555555555555", "66666666-7777-8888-9999-aaaaaaaaaaaa"
CONTROLLER_INTERFACE = bytes.fromhex("dea000026c9711d1827100a02442df7d")
INITIATOR = bytes.fromhex("dea000006c9711d18271000100000000")
TAG = bytes.fromhex("8100c0008892")
CYCLIC, ALARM = TAG + b"\xc0\x01", TAG + b"\xfc\x01\0\x01\0\x01"


def octets_of(text):
    return bytes.fromhex(text.replace("-", ""))


def catalogue(octets, timing):
    """An access point, an input and an output, each of whose frames has this many octets of data and statuses."""
    part = {"DataType": "OctetString", "Length": octets - 3}
    used = [(1, "IN", 16, {"Input": [part]}), (2, "OUT", 32, {"Output": [part]})]
    point = {"ModuleIdentNumber": 1, "PhysicalSlots": [0, 1, 2], "DNS_CompatibleName": "pn-demo", "MinDeviceInterval": 1,
             "VirtualSubmoduleItem": [{"Subslot": 1, "SubmoduleIdentNumber": 1}],
             "ModuleItemRef": [{"ModuleItemTarget": name, "AllowedInSlots": [slot]} for slot, name, _, _ in used]}
    modules = [{"ID": name, "ModuleIdentNumber": ident, "VirtualSubmoduleItem": [
        {"Subslot": 1, "SubmoduleIdentNumber": ident, "IOData": data}]} for _, name, ident, data in used]
    return with_project({"DeviceIdentity": {"VendorID": 0x0123, "DeviceID": 0x0456}, "DeviceAccessPointItem": point, "ModuleItem": modules},
                        timing, [{"Slot": slot, "ModuleItemTarget": name} for slot, name, _, _ in used])


def with_project(whole, timing, slots):
    controller = {"NameOfStation": "plc", "MAC": "02-00-00-00-00-02", "IPAddress": "192.168.0.1"}
    whole["Project"] = {
        "NameOfStation": "pump-1", "IPAddress": "192.168.0.2", "SubnetMask": "255.255.255.0", "Gateway": "0.0.0.0", "Controller": controller,
        "SendClockFactor": timing[0], "ReductionRatio": timing[1], "DataHoldFactor": timing[2], "Slots": slots}
    return json.dumps(whole, separators=(",", ":"))


def demo():
    """The catalogue of the demo station, with two octets of input and two of output at an interval of 1 ms."""
    data = [{"DataType": "Unsigned16"}]
    used = [(1, "IN2", 16, {"Input": data}), (2, "OUT2", 32, {"Output": data})]
    point = {"ModuleIdentNumber": 1, "PhysicalSlots": [0, 1, 2, 3], "DNS_CompatibleName": "pn-demo", "MinDeviceInterval": 32,
             "VirtualSubmoduleItem": [{"Subslot": subslot, "SubmoduleIdentNumber": ident}
                                      for subslot, ident in ((1, 1), (0x8000, 2), (0x8001, 3))],
             "ModuleItemRef": [{"ModuleItemTarget": name, "AllowedInSlots": [1, 2, 3]} for _, name, _, _ in used]}
    modules = [{"ID": name, "ModuleIdentNumber": ident, "VirtualSubmoduleItem": [
        {"Subslot": 1, "SubmoduleIdentNumber": ident, "IOData": io}]} for _, name, ident, io in used]
    return with_project({"DeviceIdentity": {"VendorID": 0x0123, "DeviceID": 0x0456}, "DeviceAccessPointItem": point, "ModuleItem": modules},
                        (32, 1, 3), [{"Slot": slot, "ModuleItemTarget": name} for slot, name, _, _ in used])


# ---- what a station answers

def frame(octets):
    return f"frame {octets.ljust(60, bytes(1)).hex()}\n"


def dcp(frame_id, service, xid, data):
    head = struct.pack(">HBBIHH", frame_id, service, 1, xid, 0, len(data))
    return frame(calls.TOOL + calls.DEVICE + b"\x88\x92" + head + data)


def block(option, suboption, octets):
    return bytes((option, suboption)) + struct.pack(">H", len(octets)) + octets + bytes(len(octets) % 2)


def datagram(body):
    """A frame of the station to the controller, with both checksums."""
    length = 8 + len(body)
    sum_of = calls.DEVICE_IP + calls.TOOL_IP + struct.pack(">HHHHHH", 17, length, calls.RPC_PORT, calls.RPC_PORT, length, 0) + body
    segment = struct.pack(">HHHH", calls.RPC_PORT, calls.RPC_PORT, length, calls.checksum(sum_of) or 0xFFFF) + body
    front, behind = struct.pack(">HHHHBB", 0x4500, 20 + length, 0, 0x4000, 64, 17), calls.DEVICE_IP + calls.TOOL_IP
    return frame(calls.TOOL + calls.DEVICE + b"\x08\0" + front + struct.pack(">H", calls.checksum(front + behind)) + behind + segment)


def pdu(kind, target, interface, activity, sequence, operation, first, given):
    body = struct.pack(">5I", first, len(given), 1372, 0, len(given)) + given
    head = struct.pack(">BBBB4x16s16s16sIIIHHHHHBB", 4, kind, 0x0A if kind else 0x20, 0, target, interface, activity, 0, 1, sequence,
                       operation, 0xFFFF, 0xFFFF, len(body), 0, 0, 0)
    return datagram(head + body)


def response(sequence, operation, given):
    return pdu(2, calls.OBJECT, calls.DEVICE_INTERFACE, octets_of(ACTIVITY), sequence, operation, 0, given)


def controlled(kind, command):
    return calls.block(kind, struct.pack(">2x16sH2xHH", octets_of(AR), 1, command, 0))


def started(text):
    """The lines from a start to the exchange of data."""
    found = block(2, 1, b"\0\0pn-demo") + block(2, 2, b"\0\0pump-1") + block(2, 3, struct.pack(">HHH", 0, 0x0123, 0x0456))
    found += block(1, 2, bytes(14))
    connected = calls.block(0x8101, struct.pack(">H16sH6sH", 1, octets_of(AR), 1, calls.DEVICE, 0x8892))
    connected += calls.block(0x8102, struct.pack(">HHH", 1, 1, 0xC001)) + calls.block(0x8102, struct.pack(">HHH", 2, 2, 0xC000))
    connected += calls.block(0x8103, struct.pack(">HHH", 1, 1, 200))
    ready = pdu(0, INITIATOR, CONTROLLER_INTERFACE, octets_of(AR), 0, 4, 1372, controlled(0x0112, 2))
    return f"start {AR} {ACTIVITY} {text}\n" + dcp(0xFEFF, 5, 1, found) + dcp(0xFEFD, 4, 2, block(5, 4, b"\1\2\0")) + response(
        0, 0, connected) + response(1, 4, controlled(0x8110, 8)) + ready


def given(octets):
    return f"give 2 1 {bytes(1 + place % 251 for place in range(octets - 3)).hex()}\n"


def cyclic(octets):
    """Gives the cyclic frame of each number."""
    def line(number):
        value = bytes((number + place) % 256 for place in range(octets - 3))
        data = b"\x80" + value + b"\x80\x80" + struct.pack(">HBB", (32 * number + 32) % 65536, 0x35, 0)
        return frame(calls.TOOL + calls.DEVICE + CYCLIC + data)
    return line


def alarm(number):
    """An alarm of 32 octets, and the ACK of its AlarmAck: two steps."""
    last = numbered(number - 1) if number > 0 else 0xFFFE
    notice = struct.pack(">HHBBHIHHIIHH", 1, 56, 1, 0, 2, 0, 1, 1, 16, 16, number % 2048, 1) + 32 * b"\x5a"
    data = struct.pack(">BBHHH", 0x11, 0x11, numbered(number), last, len(notice)) + notice
    ack = struct.pack(">BBHHH", 0x13, 1, numbered(number), numbered(number), 0)
    return "".join(frame(calls.TOOL + calls.DEVICE + ALARM + body) for body in (data, ack))


# What is counted: the lines before it, the line of each number, the steps of a line, how many lines, the octets of data, and how many
# instructions a step may take.
KINDS = {
    "a tick that sends nothing": (LONG, lambda _: "tick 100\n", 100, 10, 40, 60),
    "a tick that sends 40 octets": (SHORT, lambda _: "tick 100\n", 100, 10, 40, 160),
    "a tick that sends 1,440 octets": (SHORT, lambda _: "tick 100\n", 100, 10, 1440, 4000),
    "a cyclic frame of 40 octets": (LONG, cyclic(40), 1, 1000, 40, 200),
    "a cyclic frame of 1,440 octets": (LONG, cyclic(1440), 1, 1000, 1440, 4000),
    "an alarm, and the ACK of its AlarmAck": (LONG, alarm, 2, 300, 40, 5000),
}
START = "a start-up"


def front(kind):
    """The lines up to the exchange."""
    timing, _, _, _, octets, _ = KINDS[kind]
    return started(catalogue(octets, timing))


def body(kind, count):
    """The lines of the exchange."""
    _, line, _, _, octets, _ = KINDS[kind]
    return given(octets) + "".join(line(number) for number in range(count)) + "value 1 1\n"


def words(kind):
    """The arguments of the plain program."""
    timing, _, _, _, octets, _ = KINDS[kind]
    return [str(octets), str(timing[0] * timing[1]), str(timing[2])]


def counted(command, text, name):
    """The instructions of all steps, and what the program printed."""
    file = PLAIN.parent / "callgrind.controller"
    ran = subprocess.run(["valgrind", "--tool=callgrind", f"--callgrind-out-file={file}", *command], input=text.encode(),
                         stdout=subprocess.PIPE, stderr=subprocess.DEVNULL, check=True)
    listing = subprocess.run(["callgrind_annotate", "--inclusive=yes", "--threshold=100", str(file)], capture_output=True, text=True,
                             check=True).stdout
    found = re.findall(r"^\s*([\d,]+) .*\b" + name + r"(?:::<|\s|$)", listing, re.MULTILINE)
    if not found:
        raise SystemExit(f"callgrind names no {name} of {command[0]}")
    return max(int(line.replace(",", "")) for line in found), ran.stdout.decode()


OURS, THEIRS = r"(?:table_controller::)?line::turn", r"controller::turn"


def each(command, kind, name, before):
    """Instructions a step: what twice as many lines take beyond what half of them take. And what was printed for the exchange."""
    _, _, steps, count, _, _ = KINDS[kind]
    (once, _), (twice, said) = (counted(command, before + body(kind, times * count), name) for times in (1, 2))
    return (twice - once) / (steps * count), said


def exchanged(said):
    """What is printed after the start-up."""
    return said.split("state exchanging\n", 1)[1]


def keeps(name, figure, bound):
    if figure > bound:
        print(f"PASSES ITS BOUND: {name}: {figure:.4g}, at most {bound}")
    return figure <= bound


def measure(program, kind):
    """Prints the figures of a kind. Says whether they keep their bounds."""
    bound = KINDS[kind][-1]
    ours, said = each([program], kind, OURS, front(kind))
    plain, plain_said = each([str(PLAIN), *words(kind)], kind, THEIRS, "")
    times = ours / plain
    print(f"{kind}: {ours:.0f} instructions (at most {bound}); in plain Rust {plain:.0f}: {times:.2f} times")
    is_same = exchanged(said) == plain_said
    if not is_same:
        print(f"NOT THE SAME: {kind}")
    return keeps(kind, ours, bound) and is_same


def measure_start(program):
    """Prints the figure of a start-up of the demo station."""
    (once, _), (twice, said) = (counted([program], times * started(demo()), OURS) for times in (5, 10))
    figure = (twice - once) / 5
    print(f"{START} of the demo station, its five steps: {figure:.0f} instructions (at most {MOST_TO_START})")
    states = re.findall(r"state (\w+)", said)
    is_started = states == 10 * ["looking", "addressing", "connecting", "ending", "waiting", "exchanging"]
    if not is_started:
        print(f"NOT STARTED: {states[:6]}")
    return keeps(START, figure, MOST_TO_START) and is_started


def measure_room(program):
    """Prints how large a controller is, and the largest frame on the stack of the crates below it."""
    said = subprocess.run([bench("bench_device")], capture_output=True, text=True, check=True).stdout
    size = int(re.search(r"a controller (\d+)", said)[1])
    listed = re.findall(r"^(\w+)[^:#\n]*:(.*)$", (ROOT / "crates.txt").read_text(encoding="utf-8"), re.MULTILINE)
    below = "|".join(launcher().stands_on("controller_core", {name: words.split() for name, words in listed}, []))
    octets, name = blocks.largest_frame(program, rf"(?:{below})::|table_controller::line::turn")
    print(f"a controller in memory: {size} octets (at most {MOST_IN_MEMORY})")
    print(f"the largest frame on its stack: {octets} octets, of {name} (at most {MOST_ON_THE_STACK})")
    return all([keeps("a controller in memory", size, MOST_IN_MEMORY), keeps("the largest frame", octets, MOST_ON_THE_STACK)])


def main(arguments):
    answer_help(__doc__, arguments)
    if len(arguments) == 3 and arguments[0] == "--lines" and arguments[1] in (*KINDS, START) and arguments[2].isdecimal():
        kind, count = arguments[1], int(arguments[2])
        print(count * started(demo()) if kind == START else front(kind) + body(kind, count), end="")
        return 0
    if arguments and (len(arguments) != 2 or arguments[0] != "--tried"):
        return refuse(arguments)
    program = arguments[1] if arguments else str(PROGRAM)
    need("rustc", "valgrind", "objdump")
    bench("bench_device")
    if not os.path.exists(program):
        print(f"controller.py: the program {program} does not exist: ci/prove-program table_controller makes it", file=sys.stderr)
        return 1
    os.makedirs(PLAIN.parent, exist_ok=True)
    subprocess.run(["rustc", "-O", "-g", "-o", str(PLAIN), str(ROOT / "bench/figures/controller.rs")], check=True)
    kept = [measure(program, kind) for kind in KINDS]
    return 0 if all([*kept, measure_start(program), measure_room(program)]) else 1


if __name__ == "__main__":
    sys.exit(main(sys.argv[1:]))
