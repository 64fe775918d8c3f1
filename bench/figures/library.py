#!/usr/bin/env python3
"""Measures the library for C through its header: its size, the symbols that it wants, and the instructions of each turn of an exchange of 40
octets, beside those of the same work in plain C behind the same calls (bench/figures/library_plain.c), which remembers what is due and takes quiet units at once. Then the
instructions of frames to a device without a relation, and of the turns of a controller (bench/figures/library_controller.c). Its status is 1
where a turn takes more instructions than its bound, or where both do not send as many frames, and 2 where one takes more than it did, or the
millisecond of a controller more than its bound. Of a figure of the device that passes its bound it says how many of its instructions are of each
crate. bench/figures/chip measures the stack.

Needs cc and valgrind. Use: bench/figures/library.py [ARCHIVE [CONTROLLER]]   (those of the plain Rust edition if left out, which
tools/release/library-check builds)
"""

import os
import re
import subprocess
import sys
import tempfile

sys.path.insert(0, os.path.join(os.path.dirname(os.path.realpath(__file__)), "..", "..", "ci"))
import calls
import exchange
from program import TOP, answer_help, need, refuse

EDITION = os.path.join(TOP, "out", "plain-rust")
ARCHIVE, CONTROLLER = (os.path.join(EDITION, "target", "release", f"lib{name}.a") for name in ("nandutable", "nandutable_controller"))
CALLS = ("pn_judge", "pn_put", "pn_step", "pn_fetch")
TURNS = 1_000
OCTETS = 40

# What is counted: its title, the units of an interval (SendClockFactor times ReductionRatio; none without a relation, which the plain
# program does not count), and how many instructions a turn may take.
KINDS = {
    "unit": ("a pn_tick of one unit with which nothing is due", (128, 512), 70),
    "alone": ("the same of a device without a relation", None, 90),
    "addressed": ("the same in the first two seconds of an address", None, 90),
    "leap": ("a pn_tick of 32 units with which nothing is due", (128, 512), 150),
    "second": ("a second of a device without a relation, with its LLDP", None, 1_000),
    "cyclic": ("a pn_frame of a cyclic frame of 40 octets", (128, 512), 170),
    "sent": ("a pn_tick of one unit that sends 40 octets, and its pn_next", (1, 1), 200),
    "cycle": ("a millisecond: 32 units, a frame in, a frame out", (32, 1), 500),
    "values": ("a millisecond with an output read and an input set", (32, 1), 700),
}

# Above these a turn takes more than it did. A body that lets no units pass by what is known of an exchange (`DevicePort::glide`, `send`, `is_steady`, `sends`),
# or that always looks for a place or a mark (`Plugs::is_whole`, `DataExchange::may_await`), keeps each clause and costs only time. Each of these passes one
# of these numbers.
MOST_TODAY = {"unit": 46, "alone": 39, "addressed": 39, "leap": 46, "second": 420, "cyclic": 145, "sent": 189, "cycle": 380, "values": 592}
# Services that read a dropped frame more than once pass one of these, and so do those that read what the device answered.
MOST_TODAY |= {"foreign": 1_450, "foreign_long": 3_600, "foreign_mac": 2_050, "echo": 1_450, "lookup": 4_100, "identify": 780, "read": 3_450}

# Frames to a device without a relation, which has an address: the title, whether it is the same again or a call with the next sequence
# number, the line, and how many instructions a turn may take. The device drops the first five; of these the services beside it answer the
# echo request and the lookup.
FRAMES = {
    "foreign": ("a pn_frame of a datagram of 172 octets for another port", "again", calls.read_implicit(1, 161), 1_800),
    "foreign_long": ("the same of 1,442 octets", "again", f"frame {calls.datagram(161, bytes(range(239)) * 6).hex()}\n", 11_000),
    "foreign_mac": ("the same to another MAC address", "again", f"frame 020000000009{calls.datagram(161, bytes(range(239)) * 6).hex()[12:]}\n", 6_000),
    "echo": ("a pn_frame of an echo request with 32 octets, and its pn_next", "again", calls.echo(bytes(range(32))), 3_000),
    "lookup": ("a pn_frame of a lookup at the endpoint mapper, and its pn_next", "again", calls.lookup(), 6_000),
    "identify": ("a pn_frame of an Identify, and its pn_next", "again", calls.IDENTIFY, 700),
    "read": ("a pn_frame of a Read Implicit of I&M0, and its pn_next", "call", calls.read_implicit(1), 3_500),
}

# The frames of a kind without a relation: LLDP each five seconds.
SENT_ALONE = {"second": 2 * TURNS // 5}

# The same of a controller, without an interval: the program knows it.
CONTROLLER_KINDS = {
    "unit": ("a pn_controller_tick of one unit with which nothing is due", 100),
    "looking": ("the same while the controller looks for its station", 100),
    "leap": ("a pn_controller_tick of 32 units with which nothing is due", 100),
    "cyclic": ("a pn_controller_frame of a cyclic frame of 40 octets", 300),
    "sent": ("a pn_controller_tick of one unit that sends 40 octets, and its pn_controller_next", 600),
    "cycle": ("a millisecond: 32 units, a cyclic frame in, a cyclic frame out", 650),
    "values": ("a millisecond with a value read and one given", 850),
}

# Those that send, and those whose bound is one that they must not pass again: above it the status is 2.
CONTROLLER_SENDS = ("sent", "cycle", "values")
CONTROLLER_MOST = ("cycle", "values")


def run(words, given=b"", folder=None):
    ran = subprocess.run(words, input=given, capture_output=True, cwd=folder)
    if ran.returncode != 0:
        sys.exit(f"library: {' '.join(words[:2])} ..: status {ran.returncode} {ran.stderr.decode()[-300:]}")
    return ran.stdout.decode()


def instructions(words, given, folder, collected):
    """The instructions within these functions, and nothing of the program that calls them; and how many frames were sent."""
    kept = os.path.join(folder, "callgrind")
    said = run(["valgrind", "--tool=callgrind", "--quiet", "--collect-atstart=no", *(f"--toggle-collect={name}" for name in collected), f"--callgrind-out-file={kept}", *words], given)
    with open(kept) as file:
        return int(re.search(r"^(?:summary|totals): (\d+)", file.read(), re.MULTILINE).group(1)), int(said)


def each(words, given, folder, collected):
    """The instructions of a turn: what twice as many turns take beyond what half of them take. And how many frames were sent."""
    (once, _), (twice, sent) = (instructions([*words[:2], str(turns), *words[2:]], given, folder, collected) for turns in (TURNS, 2 * TURNS))
    return (twice - once) / TURNS, sent


def words_of(kind):
    """The words of the program for a kind, and its lines."""
    (clock, ratio) = KINDS[kind][1] or (1, 1)
    lines = exchange.front(OCTETS, (clock, ratio, 7680)) + exchange.cyclic(OCTETS)(0) if KINDS[kind][1] else calls.SET_SUITE
    return [kind, str(clock * ratio), str(OCTETS)], lines.encode()


def of_device(program, folder, kind):
    words, lines = words_of(kind)
    return each([program, *words], lines, folder, ("pn_step", "pn_fetch"))


def keeps(title, ours, bound, words=None, given=b""):
    """Whether a figure keeps its bound. If one of the device does not, it says of which crates its instructions are."""
    if ours > bound:
        print(f"PASSES ITS BOUND: {title}: {ours:.0f}, at most {bound}")
        if words is not None:
            says_where(words, given)
    return ours <= bound


def says_where(words, given):
    """Prints of which crates the instructions of a turn are, by an archive with the numbers of its lines."""
    archive, kept = str(exchange.with_lines("nandutable") / "libnandutable.a"), []
    with tempfile.TemporaryDirectory() as folder:
        program = os.path.join(folder, "lines")
        run(["cc", "-std=gnu11", "-O2", "-I" + os.path.join(TOP, "include"), os.path.join(TOP, "bench", "figures", "library.c"), archive, "-o", program])
        for turns in (TURNS, 2 * TURNS):
            file = os.path.join(folder, "callgrind")
            run(["valgrind", "--tool=callgrind", "--quiet", "--collect-atstart=no", "--toggle-collect=pn_step", "--toggle-collect=pn_fetch", f"--callgrind-out-file={file}", program, words[0], str(turns), *words[1:]], given)
            with open(file, encoding="utf-8") as opened:
                kept.append(opened.read())
    print(f"    of these: {exchange.shares(*kept, TURNS)}")


def slower(kind, title, ours):
    """Whether a turn takes more than it did."""
    most = MOST_TODAY.get(kind, ours)
    if ours > most:
        print(f"TAKES MORE THAN IT DID: {title}: {ours:.0f}, at most {most}")
    return ours > most


def counted(program, plain, folder):
    """Prints the instructions of each kind of turn. Says whether they keep their bounds, and whether none takes more than it did."""
    is_kept, is_slower = True, False
    for kind, (title, interval, bound) in KINDS.items():
        ours, sent = of_device(program, folder, kind)
        theirs, plain_sent = of_device(plain, folder, kind) if interval else (None, SENT_ALONE.get(kind, 0))
        print(f"{title}: {ours:.0f} instructions (at most {bound}){f'; in plain C {theirs:.0f}' if interval else ''}")
        if sent != plain_sent:
            print(f"NOT THE SAME WORK: {title}: {sent} frames, in plain C {plain_sent}")
        is_kept = keeps(title, ours, bound, *words_of(kind)) and is_kept and sent == plain_sent
        is_slower = slower(kind, title, ours) or is_slower
    return is_kept, is_slower


def counted_frames(program, folder):
    """The same of frames to a device without a relation. Each is answered each time, or never."""
    is_kept, is_slower = True, False
    for kind, (title, words, line, bound) in FRAMES.items():
        given = (calls.SET_SUITE + line.replace("frame", "turn")).encode()
        ours, sent = each([program, words, "1", str(OCTETS)], given, folder, ("pn_step", "pn_fetch"))
        print(f"{title}: {ours:.0f} instructions (at most {bound})")
        if sent != (0 if kind.startswith("foreign") else 2 * TURNS):
            print(f"NOT THE WORK: {title}: {sent} frames")
            is_kept = False
        is_kept = keeps(title, ours, bound, [words, "1", str(OCTETS)], given) and is_kept
        is_slower = slower(kind, title, ours) or is_slower
    return is_kept, is_slower


def counted_controller(program, folder):
    """The same of a controller, which the program in plain C has not. A quiet turn sends nothing."""
    is_kept, is_slower = True, False
    for kind, (title, bound) in CONTROLLER_KINDS.items():
        ours, sent = each([program, kind], b"", folder, ("pn_controller_step",))
        print(f"{title}: {ours:.0f} instructions (at most {bound})")
        is_in_bound = keeps(title, ours, bound)
        is_kept = is_in_bound and is_kept
        is_slower = is_slower or (kind in CONTROLLER_MOST and not is_in_bound)
        if sent < 2 * TURNS if kind in CONTROLLER_SENDS else sent != 0:
            print(f"NOT THE WORK: {title}: {sent} frames")
            is_kept = False
    return is_kept, is_slower


def main(words):
    answer_help(__doc__, words)
    if len(words) > 2 or not all(os.path.exists(word) for word in words):
        return refuse(words)
    archive, controller = [*words, ARCHIVE, CONTROLLER][:2] if len(words) != 1 else (words[0], CONTROLLER)
    need("cc", "cargo", "valgrind", "ld", "nm", "size")
    for needed in (archive, controller):
        if not os.path.exists(needed):
            sys.exit(f"library: {needed} is not built: tools/release/library-check builds it")
    with tempfile.TemporaryDirectory() as folder:
        whole, program = os.path.join(folder, "whole.o"), os.path.join(folder, "figures")
        run(["ld", "-r", "--gc-sections", *(word for call in CALLS for word in ("-u", call)), "-e", CALLS[2], "-o", whole, archive])
        text, data, bss = run(["size", whole]).splitlines()[1].split()[:3]
        print(f"octets: code and tables {text}, data {data}, bss {bss}")
        wanted = sorted(line.split()[-1] for line in run(["nm", "-u", whole]).splitlines() if line.split()[0] == "U")
        print(f"symbols that it wants: {' '.join(wanted)}")
        here, plain, of_controller = os.path.join(TOP, "bench", "figures"), os.path.join(folder, "plain"), os.path.join(folder, "controller")
        cc = ["cc", "-std=gnu11", "-O2", "-I" + os.path.join(TOP, "include")]
        run([*cc, os.path.join(here, "library.c"), archive, "-o", program])
        run([*cc, os.path.join(here, "library.c"), os.path.join(here, "library_plain.c"), "-o", plain])
        run([*cc, os.path.join(here, "library_controller.c"), controller, archive, "-o", of_controller])
        counts = [counted(program, plain, folder), counted_frames(program, folder), counted_controller(of_controller, folder)]
        is_kept, is_slower = all(kept for kept, _ in counts), any(slow for _, slow in counts)
    return 2 if is_slower else 0 if is_kept else 1


if __name__ == "__main__":
    sys.exit(main(sys.argv[1:]))
