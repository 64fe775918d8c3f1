#!/usr/bin/env python3
"""Counts the instructions of a step of a device that exchanges cyclic data and alarms, side by side with those of the same work in
plain Rust (bench/figures/exchange.rs): both take the same lines, and both have to send the same octets. Its status is 1 where a figure passes
its bound or where they do not send the same. Of a figure that passes its bound it says how many of its instructions are of each crate: for that it
builds the program once more, with the numbers of its lines.

The frames are made here from IEC 61158-6-10, and not by what is measured. Needs rustc, valgrind and the program bench_exchange of
tests/benches, built: both programs are made by rustc.
    bench/figures/exchange.py --lines KIND COUNT prints the lines of a measurement; --tried COMMAND has the device's counted steps done by this
                                         command, and compares only what is sent.
"""

import collections
import os
import pathlib
import re
import struct
import subprocess
import sys

sys.path.insert(0, os.path.join(os.path.dirname(os.path.realpath(__file__)), "..", "..", "ci"))
import calls
from program import answer_help, bench, need, refuse

ROOT = pathlib.Path(__file__).resolve().parent.parent.parent
PLAIN = ROOT / "bench/figures/build/exchange"
# Where programs are built with the numbers of their lines.
LINES = ROOT / "bench/figures/build/lines"

# How many times the instructions of the plain program a step may take, beside its own bound.
MOST_TIMES = 1.5

# SendClockFactor, ReductionRatio and DataHoldFactor: an interval of one unit, and of the most there are.
SHORT, LONG = (1, 1, 7680), (128, 512, 7680)

TAG = bytes.fromhex("8100c0008892")
CYCLIC, ALARM = TAG + b"\xc0\x00", TAG + b"\xfc\x01\0\x01\0\x01"


def modules(octets):
    """An access point, an input and an output, each of whose frames has this many octets of data and statuses."""
    return [(0, 1, [(1, 1, 0, 0)]), (1, 16, [(1, 16, octets - 3, 0)]), (2, 32, [(1, 32, 0, octets - 3)])]


def front(octets, timing):
    """The lines up to the exchange, and the first input."""
    connect = calls.connect(0, modules(octets), timing)
    given = bytes(1 + place % 251 for place in range(octets - 3))
    return calls.SET_SUITE + connect + calls.control(1, 0x0110, 1) + calls.ready() + f"input 1 {given.hex()}\n"


def cyclic(octets):
    """Gives the cyclic frame of each number."""
    def line(number):
        value = bytes((number + place) % 256 for place in range(octets - 3))
        data = value + b"\x80\x80\x80" + struct.pack(">HBB", (32 * number + 32) % 65536, 0x35, 0)
        return f"frame {(calls.DEVICE + calls.TOOL + CYCLIC + data).hex()}\n"
    return line


def numbered(count):
    """The number of the data after this many others."""
    return 0xFFFF if count == 0 else (count - 1) % 0x8000


def alarm(number):
    """An alarm of 32 octets, its ACK and its AlarmAck: three steps."""
    last = numbered(number - 1) if number > 0 else 0xFFFE
    ack = struct.pack(">BBHHH", 0x13, 1, last if number > 0 else 0xFFFF, numbered(number), 0)
    data = struct.pack(">BBHHH", 0x11, 0x11, numbered(number), numbered(number), 22)
    block = struct.pack(">HHBBHIHHHI", 0x8001, 18, 1, 0, 2, 0, 1, 1, number % 2048, 0)
    frames = [(calls.DEVICE + calls.TOOL + ALARM + body).hex() for body in (ack, data + block)]
    return f"alarm 1 {32 * '5a'}\n" + "".join(f"frame {frame}\n" for frame in frames)


# What is counted: the lines before it, the line of each number, the steps of a line, how many lines, the octets of data, the units of
# an interval, and how many instructions a step may take.
KINDS = {
    "a tick in an exchange that sends nothing": (LONG, lambda _: "tick 100\n", 100, 10, 40, 200),
    "a tick that sends 40 octets": (SHORT, lambda _: "tick 100\n", 100, 10, 40, 1500),
    "a tick that sends 1,440 octets": (SHORT, lambda _: "tick 100\n", 100, 10, 1440, 4000),
    "a cyclic frame of 40 octets": (LONG, cyclic(40), 1, 1000, 40, 1500),
    "a cyclic frame of 1,440 octets": (LONG, cyclic(1440), 1, 1000, 1440, 4000),
    "an alarm, its ACK and its AlarmAck": (LONG, alarm, 1, 300, 40, 5000),
}


def lines(kind, count):
    timing, line, _, _, octets, _ = KINDS[kind]
    return front(octets, timing) + "".join(line(number) for number in range(count))


def words(kind):
    """The arguments of the plain program."""
    timing, _, _, _, octets, _ = KINDS[kind]
    return [str(octets), str(timing[0] * timing[1]), str(timing[2])]


def printed(command, text):
    return subprocess.run(command, input=text.encode(), stdout=subprocess.PIPE, check=True).stdout.decode().strip().splitlines()[-1]


def counted(command, text, name):
    """The instructions of all steps, and what the program printed."""
    file = ROOT / "bench/figures/build/callgrind.exchange"
    ran = subprocess.run(["valgrind", "--tool=callgrind", f"--callgrind-out-file={file}", *command], input=text.encode(),
                         stdout=subprocess.PIPE, stderr=subprocess.DEVNULL, check=True)
    listing = subprocess.run(["callgrind_annotate", "--inclusive=yes", "--threshold=100", str(file)], capture_output=True, text=True,
                             check=True).stdout
    found = re.findall(r"^\s*([\d,]+) .*\b" + name + r"(?:::<|\s|$)", listing, re.MULTILINE)
    if not found:
        raise SystemExit(f"callgrind names no {name} of {command[0]}")
    return max(int(line.replace(",", "")) for line in found), ran.stdout


def each(command, kind, name):
    """Instructions a step: what twice as many lines take beyond what half of them take."""
    _, _, steps, count, _, _ = KINDS[kind]
    (once, _), (twice, said) = (counted(command, lines(kind, times * count), name) for times in (1, 2))
    return (twice - once) / (steps * count), said


def with_lines(package):
    """Builds a package of the plain Rust edition with the numbers of its lines, by which callgrind names the source of each instruction. Returns the folder."""
    environment = {**os.environ, "CARGO_PROFILE_RELEASE_DEBUG": "line-tables-only", "CARGO_TARGET_DIR": str(LINES)}
    subprocess.run(["cargo", "build", "--release", "--quiet", "-p", package], cwd=ROOT / "out/plain-rust", env=environment, check=True)
    return LINES / "release"


def of_crates(kept):
    """The instructions of each crate in what callgrind has kept, by the files of their lines."""
    names, found, file, is_call = {}, collections.Counter(), "", False
    for line in kept.splitlines():
        named = re.match(r"(c?f[lie])=\((\d+)\)(?: (.*))?$", line)
        if named:
            names.setdefault(named[2], named[3])
            file = file if named[1].startswith("c") else names[named[2]]
        elif line.startswith("calls="):
            is_call = True  # the next line has what the call took, which is counted where it is
        elif cost := re.match(r"[-+*\d]\S* (\d+)$", line):
            crate = re.search(r"/crates/(\w+)/src/", file)
            found[crate[1] if crate else "others"] += 0 if is_call else int(cost[1])
            is_call = False
    return found


def shares(once, twice, turns):
    """How many instructions of a turn are of each crate, most first, by what callgrind has kept of some turns and of as many more."""
    before, after = of_crates(once), of_crates(twice)
    each_has = {crate: (after[crate] - before[crate]) / turns for crate in after}
    return ", ".join(f"{crate} {count:.0f}" for crate, count in sorted(each_has.items(), key=lambda pair: (pair[0] == "others", -pair[1])) if count >= 0.5)


def says_where(kind):
    """Prints of which crates the instructions of a step are."""
    program, name = str(with_lines("test_benches") / "bench_exchange"), "test_benches::exchange::turn"
    kept = []
    for times in (1, 2):
        file = ROOT / "bench/figures/build/callgrind.lines"
        subprocess.run(["valgrind", "--tool=callgrind", "--collect-atstart=no", f"--toggle-collect={name}", f"--callgrind-out-file={file}", program],
                       input=lines(kind, times * KINDS[kind][3]).encode(), stdout=subprocess.DEVNULL, stderr=subprocess.DEVNULL, check=True)
        kept.append(file.read_text())
    print(f"    of these: {shares(*kept, KINDS[kind][2] * KINDS[kind][3])}")


def measure(kind):
    """Prints the figures of a kind. Says whether they keep their bounds."""
    bound = KINDS[kind][-1]
    (ours, said), (plain, plain_said) = (
        each([bench("bench_exchange")], kind, r"test_benches::exchange::turn"), each([str(PLAIN), *words(kind)], kind, r"exchange::turn"))
    times = ours / plain
    print(f"{kind}: {ours:.0f} instructions (at most {bound}); in plain Rust {plain:.0f}: {times:.2f} times (at most {MOST_TIMES})")
    if said != plain_said:
        print(f"NOT THE SAME WORK: {said!r}, in plain Rust {plain_said!r}")
        return False
    for name, figure, most in (("", ours, bound), (", beside plain Rust", times, MOST_TIMES)):
        if figure > most:
            print(f"PASSES ITS BOUND: {kind}{name}: {figure:.4g}, at most {most}")
    if ours > bound or times > MOST_TIMES:
        says_where(kind)
    return ours <= bound and times <= MOST_TIMES


def build():
    os.makedirs(PLAIN.parent, exist_ok=True)
    subprocess.run(["rustc", "-O", "-g", "-o", str(PLAIN), str(ROOT / "bench/figures/exchange.rs")], check=True)


def main(arguments):
    answer_help(__doc__, arguments)
    if len(arguments) == 3 and arguments[0] == "--lines" and arguments[1] in KINDS and arguments[2].isdecimal():
        print(lines(arguments[1], int(arguments[2])), end="")
        return 0
    if arguments and not (len(arguments) >= 2 and arguments[0] == "--tried"):
        return refuse(arguments)
    need("rustc", "valgrind")
    build()
    if arguments:
        same = True
        for kind in KINDS:
            text = lines(kind, KINDS[kind][3] // 5)
            ours, plain = printed(arguments[1:], text), printed([str(PLAIN), *words(kind)], text)
            print(f"{kind}: {ours}" + ("" if ours == plain else f"; in plain Rust {plain}"))
            same = same and ours == plain
        return 0 if same else 1
    return 0 if all([measure(kind) for kind in KINDS]) else 1


if __name__ == "__main__":
    sys.exit(main(sys.argv[1:]))
