#!/usr/bin/env python3
"""Times, peak memory and instruction counts of the program, beside a plain Rust program on the same scripts.

Prints a line for each figure, with the bound that it must keep. The status is 1 if one passes its bound. bench/figures/run makes
what it asks for.
Use: bench/figures/measure.py PROGRAM ECHO PEAK DEVICE_BENCH JOURNAL_BENCH BUILD
"""

import os
import re
import subprocess
import sys
import time

sys.path.insert(0, os.path.join(os.path.dirname(os.path.realpath(__file__)), "..", "..", "ci"))
import blocks
import calls
from program import answer_help, launcher, need, refuse

IDENTIFY = "frame 010ecf0000000200000000028892fefe05000000000100010004ffff0000\n"
IDENTIFY_OTHER = "frame 010ecf0000000200000000028892fefe0500000000010001000a0202000670756d702d39\n"
SET_REFUSED = "frame 0200000000010200000000028892fefd0400000000020000000802020004000161ff\n"
GET_16 = "frame 0200000000010200000000028892fefd03000000000300000020" + "0101010202010202020302040205020705030504" + "050505060301040106020909" + "\n"
TICK = "tick 100\n"

# Lines that make a relation, end its parameters and release it, by calls of the sequence numbers from three times this number on.
CONNECT = lambda number, modules=calls.THREE: calls.connect(3 * number, modules)
PRM_END = lambda number: calls.control(3 * number + 1, 0x0110, 1)
RELEASE = lambda number: calls.control(3 * number + 2, 0x0114, 4)

# The head of a frame for another station.
NOT_MINE = "frame 0200000000030200000000028892fefd"

# A Set of a name of 240 bytes.
SET_LONGEST = "frame 0200000000010200000000028892fefd040000000002000000f6020200f20001" + ".".join(
    n * 63 for n in "abc").encode().hex() + "2e" + 48 * "64" + "\n"

# Of the program's run on a script, beside the plain program's: times as long, and peak memory in MiB.
MOST_TIMES = 3
MOST_MEMORY = 24

# Instructions for each byte of a line: to read its hex, and to print it.
MOST_TO_READ = 6
MOST_TO_PRINT = 6

# What a step is measured on: the script in front, what gives the line of each number, how many steps a line makes, and how
# many instructions a step may take.
STEPS = (
    ("a tick", "", lambda _: TICK, 100, 200),
    ("an Identify", "", lambda _: IDENTIFY, 1, 6000),
    ("an Identify that does not match", "", lambda _: IDENTIFY_OTHER, 1, 8000),
    ("a Set that is refused", "", lambda _: SET_REFUSED, 1, 8000),
    ("a Get of 16 pairs", "", lambda _: GET_16, 1, 8000),
    ("an ARP request", calls.SET_SUITE, lambda _: calls.ARP, 1, 2500),
    ("a Read Implicit of I&M0", calls.SET_SUITE, calls.read_implicit, 1, 12000),
    ("the same call again", calls.SET_SUITE + calls.read_implicit(0), lambda _: calls.read_implicit(0), 1, 6000),
    ("a datagram of 172 octets for another port", calls.SET_SUITE, lambda number: calls.read_implicit(number, 161), 1, 3500),
    ("a Connect of 3 modules and its Release", calls.SET_SUITE, lambda number: CONNECT(number) + RELEASE(number), 1, 150_000),
    ("a Connect of 64 modules and its Release", calls.SET_SUITE,
     lambda number: CONNECT(number, calls.SIXTY_FOUR) + RELEASE(number), 1, 400_000),
    ("a Write of I&M2, with the flash", calls.SET_SUITE + CONNECT(0), lambda number: calls.write_date(number + 1), 1, 20_000),
)

# The same of a line beyond what another one makes.
BEYOND = ("a PrmEnd", calls.SET_SUITE, lambda number: CONNECT(number) + PRM_END(number) + RELEASE(number),
          lambda number: CONNECT(number) + RELEASE(number), 15_000)

# Instructions of a commit into a slot beside the flash's own bytes, and of a start over a sector with fourteen open slots;
# and how many starts are counted.
MOST_TO_COMMIT = 3000
MOST_TO_START = 60000
SLOTS = 14
STARTS = 10

# Octets of a device in memory without the two sectors of its flash, and of the largest frame on the stack of a step.
MOST_IN_MEMORY = 40 * 1024
# Octets of the plan of a station.
MOST_OF_A_PLAN = 8 * 1024
MOST_ON_THE_STACK = 16 * 1024
SECTORS = 2 * 4096

# In a listing of callgrind: the device's step, and the script's, which also prints the frames that were sent. It is used
# if the compiler made one function of both.
DEVICE_STEP = r"device_core::\S*\bstep"
SCRIPT_STEP = r"script_session::power::\S*\bstep"


def keeps(name, figure, bound):
    """Whether a figure keeps its bound. Says so where it does not."""
    if figure <= bound:
        return True
    print(f"PASSES ITS BOUND: {name}: {figure:.4g}, at most {bound}")
    return False


def run(program, words, script):
    """The time of one run."""
    with open(script, "rb") as stdin:
        before = time.monotonic()
        subprocess.run([program, *words], stdin=stdin, stdout=subprocess.DEVNULL, check=True)
        return time.monotonic() - before


def side_by_side(program, echo, script):
    """The least times of both programs, which run in turn, so that both meet the machine as busy as it is."""
    pairs = [(run(program, ["run"], script), run(echo, [], script)) for _ in range(9)]
    return [min(times) for times in zip(*pairs)]


def peak(helper, program, script):
    """The peak memory of the program itself, in MiB."""
    with open(script, "rb") as stdin:
        ran = subprocess.run([helper, program, "run"], stdin=stdin, stdout=subprocess.DEVNULL,
                             stderr=subprocess.PIPE, check=True)
    return int(ran.stderr) / 1024


def print_script(program, echo, helper, name, script):
    """Time and memory of one script. Says whether both keep their bounds."""
    ours, plain = side_by_side(program, echo, script)
    memory = peak(helper, program, script)
    print(f"{name}: {ours:.3f} s, a plain program {plain:.3f} s: {ours / plain:.2f} times (at most {MOST_TIMES}); "
          f"peak {memory:.1f} MiB (at most {MOST_MEMORY})")
    is_fast = keeps(f"the time of {name}", ours / plain, MOST_TIMES)
    return keeps(f"the memory of {name}", memory, MOST_MEMORY) and is_fast


def inclusive(listing, name):
    """The instructions of the function of this name and of all that it calls, or None where there is no such function."""
    lines = re.findall(r"^\s*([\d,]+) .*\b" + name + r"(?:::<|\s|$)", listing, re.MULTILINE)
    return max((int(line.replace(",", "")) for line in lines), default=None)


def listed(program, script, file):
    """Callgrind's listing of a run of this script: each function, with all that it calls."""
    subprocess.run(
        ["valgrind", "--tool=callgrind", "--callgrind-out-file=" + file, program, "run"],
        input=script.encode(), stdout=subprocess.DEVNULL, stderr=subprocess.DEVNULL, check=True)
    return subprocess.run(
        ["callgrind_annotate", "--inclusive=yes", "--threshold=100", file],
        capture_output=True, text=True, check=True).stdout


def instructions(program, script, file):
    """Instructions of a run of this script: of the device's steps, of the steps with the printing of their frames, and of
    the whole run. The first is None where the compiler left no such function, and so is the second."""
    listing = listed(program, script, file)
    return inclusive(listing, DEVICE_STEP), inclusive(listing, SCRIPT_STEP), inclusive(listing, "PROGRAM TOTALS")


def each(program, front, line, steps, file):
    """The same for one step: what twice as many lines take beyond what half of them take."""
    count = 1000 // steps
    lines = [line(number) for number in range(2 * count)]
    once = instructions(program, front + "".join(lines[:count]), file)
    twice = instructions(program, front + "".join(lines), file)
    return [None if a is None or b is None else (b - a) / (count * steps) for a, b in zip(once, twice)]


def sent(program, script):
    """How many bytes the device sends in this script."""
    printed = subprocess.run([program, "run"], input=script.encode(), capture_output=True, check=True).stdout
    return sum(len(out) // 2 - 2 for out in printed.split(b"\n") if out.startswith(b"out "))


def printing(program, file):
    """The instructions of the printing of a byte, by two Identify answers that differ by 240 bytes. None where the
    compiler made no function of a step and its printing."""
    longer, shorter = (each(program, front, lambda _: IDENTIFY, 1, file)[1] for front in (SET_LONGEST, ""))
    return None if longer is None or shorter is None else (longer - shorter) / 240


def reading(program, file):
    """The instructions of the reading of a byte, by two frames for another station that differ by 1,000 bytes."""
    longer, shorter = (each(program, "", lambda _: NOT_MINE + octets * "5a" + "\n", 1, file)[2] for octets in (1400, 400))
    return (longer - shorter) / 1000


def print_hex(program, file):
    """What hex takes. Says whether it keeps its bounds."""
    read, printed = reading(program, file), printing(program, file)
    print(f"a byte of a frame's line: {read:.1f} instructions to read it (at most {MOST_TO_READ})")
    is_kept = keeps("the reading of a byte", read, MOST_TO_READ)
    if printed is None:
        return is_kept
    print(f"a byte of a frame that is sent: {printed:.1f} instructions to make and print it (at most {MOST_TO_PRINT})")
    return keeps("the printing of a byte", printed, MOST_TO_PRINT) and is_kept


def print_step(program, file, name, front, line, steps, bound):
    """The instructions of a step. If it is not a function of its own, the printing of its bytes is subtracted. Says whether
    they keep the bound."""
    step, printing_too, whole = each(program, front, line, steps, file)
    if step is not None:
        print(f"{name}: {step:.0f} instructions a step (at most {bound}); {whole:.0f} with all of its line")
        return keeps(name, step, bound)
    if printing_too is None:
        print(f"{name}: {whole:.0f} instructions with all of its line (a step: at most {bound})")
        return keeps(name, whole, bound)
    octets = sent(program, front + line(0)) - sent(program, front)
    step = printing_too - octets * printing(program, file)
    print(f"{name}: about {step:.0f} instructions a step (at most {bound}); {printing_too:.0f} with the printing of "
          f"{octets} bytes, {whole:.0f} with all of its line")
    return keeps(name, step, bound)


def print_beyond(program, file, name, front, line, without, bound):
    """The instructions of the step by which one line is longer than another, the printing of its frames subtracted. Says whether
    they keep the bound."""
    (step, printing_too, whole), (step_less, printing_less, whole_less) = (
        each(program, front, made, 1, file) for made in (line, without))
    if step is not None and step_less is not None:
        print(f"{name}: {step - step_less:.0f} instructions a step (at most {bound})")
        return keeps(name, step - step_less, bound)
    if printing_too is None or printing_less is None:
        print(f"{name}: {whole - whole_less:.0f} instructions with all of its line (a step: at most {bound})")
        return keeps(name, whole - whole_less, bound)
    octets = sent(program, front + line(0)) - sent(program, front + without(0))
    step = printing_too - printing_less - octets * printing(program, file)
    print(f"{name}: about {step:.0f} instructions a step (at most {bound}); with the printing of {octets} bytes "
          f"{printing_too - printing_less:.0f}")
    return keeps(name, step, bound)


def print_journal(bench):
    """The instructions of a commit into a slot, the flash's own counted too, and of a start over a full sector. Says whether
    they keep their bounds. The first commit over a blank flash writes a base, and the others go into its slots."""
    based, full, once, often = (blocks.instructions(bench, *turns) for turns in (
        (1, 0), (1 + SLOTS, 0), (1 + SLOTS, 1), (1 + SLOTS, 1 + STARTS)))
    commit, start = (full - based) / SLOTS, (often - once) / STARTS
    print(f"a commit into a slot: {commit:.0f} instructions with the flash's own (at most {MOST_TO_COMMIT} beside them)")
    print(f"a start over {SLOTS} open slots: {start:.0f} instructions (at most {MOST_TO_START})")
    is_quick = keeps("a commit into a slot", commit, MOST_TO_COMMIT)
    return keeps("a start over open slots", start, MOST_TO_START) and is_quick


def print_room(program, bench):
    """How large a device is, and a plan, and the largest frame on the stack of a step. Says whether they keep their bounds."""
    said = subprocess.run([bench], capture_output=True, text=True, check=True).stdout
    device, flash, plan, _ = map(int, re.findall(r"\d+", said))
    print(f"a device in memory: {device} octets, of which {SECTORS} are the sectors of its flash and {flash - SECTORS} else of it: "
          f"{device - SECTORS} (at most {MOST_IN_MEMORY})")
    print(f"a plan in memory: {plan} octets (at most {MOST_OF_A_PLAN})")
    known = launcher()
    below = "|".join(known.stands_on("device_core", known.crates(), []))
    octets, name = blocks.largest_frame(program, rf"\S*(?:{below})::|{SCRIPT_STEP}")
    print(f"the largest frame on the stack of a step: {octets} octets, of {name} (at most {MOST_ON_THE_STACK})")
    is_small = keeps("a device in memory", device - SECTORS, MOST_IN_MEMORY)
    is_small = keeps("a plan in memory", plan, MOST_OF_A_PLAN) and is_small
    return keeps("the largest frame", octets, MOST_ON_THE_STACK) and is_small


def main(words):
    answer_help(__doc__, words)
    if len(words) != 6:
        return refuse(words or ["no words"])
    need("valgrind", "objdump")
    program, echo, helper, device, journal, build = words
    scripts = {"200,000 Identify frames": IDENTIFY * 200_000, "16 MiB of empty lines": "\n" * 16_777_216}
    kept = []
    for number, (name, text) in enumerate(scripts.items()):
        script = os.path.join(build, f"script{number}.txt")
        with open(script, "w", encoding="ascii") as out:
            out.write(text)
        kept.append(print_script(program, echo, helper, name, script))
    file = os.path.join(build, "callgrind.out")
    kept.append(print_hex(program, file))
    kept += [print_step(program, file, *step) for step in STEPS]
    kept.append(print_beyond(program, file, *BEYOND))
    kept.append(print_journal(journal))
    kept.append(print_room(program, device))
    return 0 if all(kept) else 1


sys.exit(main(sys.argv[1:]))
