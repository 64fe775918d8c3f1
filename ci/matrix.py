#!/usr/bin/env python3
"""Each flash call of forty Sets fails in turn, by the program itself: a script for each call, each mask, and each order,
with power lost in that call (`cut`) or there (`fault`).

Each script arms the order, sets the names n1 to n40 (permanent, one commit each: three flash calls for a base, and two for
each of the fourteen slots after it, 83 in all), takes the power away and gives it back, and asks what the name is. It must
be that of the last Set answered 'done' or of the one that was struck; and the new one exactly where the mask lets the
last call of the commit open the gate, whose one byte goes from FF to 00: where the mask's first byte is FF. After a fault
each Set is answered with error 5.

Use: ci/matrix.py [PROGRAM]   (the proved one if left out). Prints how many runs are right; its status is 1 if one is not.
"""

import subprocess
import sys

from program import answer_help, proved, refuse

SETS = 40
BASE = 3  # calls of a commit: erase the sector that does not count, write it, open its gate
SLOT = 2  # calls of a commit into a slot: write it, open its gate
SLOTS = 14  # after a base
MASKS = ("00", "55", "ff", "0f0f", "00000000ffff0000")

HEAD = "out 0200000000020200000000018892fefd04010000000200000008"
DONE = [HEAD + "0504000302020000" + 52 * "0", "note done"]
REFUSED = [HEAD + "0504000302020500" + 52 * "0", "note done"]
# what is printed of the Set whose call an order strikes, and of each one after it
ORDERS = {"cut": (["power lost"], ["off"]), "fault": (REFUSED, REFUSED)}
SUITE = "0.0.0.0 0.0.0.0 0.0.0.0"


def set_name(name):
    """The line of a Set of this name, permanent."""
    block = bytes([2, 2]) + (2 + len(name)).to_bytes(2, "big") + bytes([0, 1]) + name.encode()
    block += bytes(len(block) % 2)
    head = bytes.fromhex("020000000001 020000000002 8892 fefd 0400 00000002 0000")
    return "frame " + (head + len(block).to_bytes(2, "big") + block).hex()


def name(number):
    """The name of the Set of this number; it is empty before the first."""
    return f"n{number}" if number else "-"


def calls_of(number):
    """How many flash calls the commit of the Set of this number makes."""
    return BASE if number % (SLOTS + 1) == 1 else SLOT


ALL_CALLS = sum(calls_of(number) for number in range(1, SETS + 1))


def met(calls):
    """How many Sets are answered before this many calls passed, and whether the next call opens a gate."""
    answered = 0
    while calls >= calls_of(answered + 1):
        answered += 1
        calls -= calls_of(answered)
    return answered, calls == calls_of(answered + 1) - 1


def script_of(order, calls, mask):
    sets = [set_name(name(number)) for number in range(1, SETS + 1)]
    return "\n".join([f"{order} {calls} {mask}", *sets, "restart", "show", ""])


def front_of(order, answered):
    """What is printed up to the restart, if this many Sets are answered 'done'."""
    struck, behind = ORDERS[order]
    return ["boot ok", *DONE * answered, *struck, *behind * (SETS - answered - 1), "boot ok"]


def is_right(lines, order, calls, mask):
    answered, at_gate = met(calls)
    left = name(answered + 1) if at_gate and mask.startswith("ff") else name(answered)
    wanted = front_of(order, answered) + [f"name {left}", f"ip {SUITE}", f"stored-name {left}", f"stored-ip {SUITE}"]
    texts = ["im1 " + 54 * "20", "im2 " + 16 * "20", "im3 " + 54 * "20", "im4 " + 54 * "00", "phase none", "lamp 0", "output 2 1 0000"]
    return lines == wanted + texts


def main(words):
    answer_help(__doc__, words)
    if len(words) > 1:
        return refuse(words)
    program = words[0] if words else proved()
    runs, right = 0, 0
    for order in ORDERS:
        for mask in MASKS:
            for calls in range(ALL_CALLS):
                script = script_of(order, calls, mask)
                run = subprocess.run([program, "run"], input=script, capture_output=True, text=True)
                runs += 1
                if run.returncode == 0 and is_right(run.stdout.split("\n")[:-1], order, calls, mask):
                    right += 1
                else:
                    print(f"{order} {calls} {mask}: wrong (status {run.returncode})")
    print(f"{runs} runs, {right} right")
    return 0 if right == runs else 1


sys.exit(main(sys.argv[1:]))
