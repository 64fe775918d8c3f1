#!/usr/bin/env python3
"""What `table_world` must print of schedules of both ends. Of every schedule of a small world: how many there are, and at the end of how
many of them both ends exchange data, from the rules of a start-up alone: calls by their numbers, kept answers, phases and states. Of a
schedule from a seed: each frame that changes something, and how far both ends are after it, by `world_model.py`. Neither has octets, nor
shares a line with the program.

    ci/worlds.py --lines       prints these lines, for the lines of tests/table_world/stdin that ask for them
    ci/worlds.py --check       compares them with tests/table_world/stdout
    ci/worlds.py --seeds PROGRAM FIRST LAST MOVES      compares the ladders of these seeds with those that a built program prints
"""

import json
import os
import subprocess
import sys

import world_model
from program import TOP, answer_help, refuse

TABLE = os.path.join(TOP, "tests", "table_world")
SEARCHES = ("starts", "exchanges", "outputs", "alarms")
CONNECT = 0


class Device:
    """Its phase, how many records it took, and the last call with its answer."""

    def __init__(self, phase="none", taken=0, kept=None):
        self.phase, self.taken, self.kept = phase, taken, kept

    def hears(self, what, records):
        """The device after a frame, and what it sends."""
        if what == ("confirm",):
            return Device("exchanging" if self.phase == "awaiting" else self.phase, self.taken, self.kept), []
        if what[0] != "call":
            return self, []
        number, asked = what[1], what[2]
        if self.kept and number < self.kept[1]:
            return self, []
        if self.kept and number == self.kept[1]:
            return self, [self.kept]
        return self.serves(number, asked, records)

    def serves(self, number, asked, records):
        """A new call: its answer is kept."""
        phase, taken, more = self.phase, self.taken, []
        is_done = (phase == "none") == (asked == "connect")
        if is_done and asked == "connect":
            phase = "started"
        elif is_done and asked == "write":
            taken += 1
        elif is_done and asked == "end":
            is_done = phase == "started"
            if is_done:
                phase, more = "awaiting", [("ready",)]
        elif is_done:
            phase, taken = "none", 0
        answer = ("answer", number, is_done)
        return Device(phase, taken, answer), [answer, *more]


class Controller:
    """Its state, and the number of the open call."""

    def __init__(self, state="connecting", number=CONNECT):
        self.state, self.number = state, number

    def hears(self, what, records):
        """The controller after a frame, and what it sends."""
        if what == ("ready",):
            if self.state in ("ending", "waiting", "exchanging"):
                return Controller("exchanging", self.number), [("confirm",)]
            return self, []
        is_asked = self.state in ("connecting", "writing", "ending")
        if what[0] != "answer" or not is_asked or what[1] != self.number:
            return self, []
        if not what[2]:
            return Controller("ended", self.number), []
        if self.state == "ending":
            return Controller("waiting", self.number), []
        number = self.number + 1
        if number <= records:
            return Controller("writing", number), [("call", number, "write")]
        return Controller("ending", number), [("call", number, "end")]

    def stops(self):
        if self.state == "ended":
            return self, []
        return Controller("ended", self.number), [("call", self.number + 1, "release")]


def starts(records, moves, device=None, controller=None, sent=(("call", CONNECT, "connect"),)):
    """How many schedules there are from the Connect on, and after how many of them both exchange data. Each frame comes to the end that did
    not send it: calls and the answer to ApplicationReady to the device."""
    device, controller = device or Device(), controller or Controller()
    if moves == 0:
        return 1, int(device.phase == "exchanging" and controller.state == "exchanging")
    schedules = exchanging = 0
    for what in [*sent, None]:
        ends, more = (device, controller), []
        if what is None:
            stopped, more = controller.stops()
            ends = (device, stopped)
        elif what[0] in ("call", "confirm"):
            served, more = device.hears(what, records)
            ends = (served, controller)
        else:
            heard, more = controller.hears(what, records)
            ends = (device, heard)
        found = starts(records, moves - 1, *ends, (*sent, *more))
        schedules, exchanging = schedules + found[0], exchanging + found[1]
    return schedules, exchanging


def counts(word, moves, records):
    """How many schedules a line asks for, and how many of them end with both exchanging."""
    if word == "starts":
        return starts(records, moves)
    if word == "exchanges":
        # Of eight choices one is a stop; else nothing ends an exchange in so few units.
        return 8 ** moves, 7 ** moves
    return 4 ** moves, 4 ** moves


def computed():
    """The lines that must be printed, one list for each line of stdin that is computed, each of the plan before it."""
    plan = None
    with open(os.path.join(TABLE, "stdin"), encoding="ascii") as file:
        for line in file:
            word, _, rest = line.strip().partition(" ")
            if word == "plan":
                plan = world_model.Plan.of(json.loads(rest)["Project"])
            elif word == "ladder":
                yield list(world_model.ladder(plan, *map(int, rest.split())))
            elif word == "moves":
                how, tally = list(world_model.ladder(plan, *map(int, rest.split())))[-2:]
                yield [f"moves {rest}: {how}", tally]
            elif word in SEARCHES:
                schedules, exchanging = counts(word, int(rest), plan.records)
                yield [f"{word}: all laws hold at each point of {schedules} schedules of {rest} moves; "
                       f"{exchanging} of them end with both exchanging"]


def check():
    """Whether all of them are in stdout, each after the one before it."""
    with open(os.path.join(TABLE, "stdout"), encoding="ascii") as file:
        printed = file.read().splitlines()
    place, wrong, lists = 0, 0, list(computed())
    for wanted in lists:
        at = next((at for at in range(place, len(printed)) if printed[at:at + len(wanted)] == wanted), None)
        if at is None:
            wrong += 1
            print(f"not as computed: {wanted[0]} .. {wanted[-1]}")
        else:
            place = at + len(wanted)
    print(f"{len(lists)} lines of schedules of both ends, {sum(map(len, lists))} lines of output, {wrong} not as computed")
    return int(wrong != 0 or not lists)


def compare(program, first, last, moves):
    """The same of a program's ladders: for each of these seeds what it prints is what is computed."""
    with open(os.path.join(TABLE, "stdin"), encoding="ascii") as file:
        line = file.readline()
    plan, wrong, rungs = world_model.Plan.of(json.loads(line.partition(" ")[2])["Project"]), 0, 0
    for seed in range(first, last + 1):
        text = f"{line}ladder {seed} {moves}\n"
        printed = subprocess.run([program], input=text, stdout=subprocess.PIPE, text=True).stdout.splitlines()
        wanted = list(world_model.ladder(plan, seed, moves))
        rungs += len(wanted)
        if printed != wanted:
            wrong += 1
            print(f"seed {seed}: not as computed")
    print(f"{last + 1 - first} schedules of {moves} moves, {rungs} lines, {wrong} schedules not as computed")
    return int(wrong != 0)


def main(words):
    answer_help(__doc__, words)
    if words == ["--lines"]:
        print("\n".join(line for lines in computed() for line in lines))
        return 0
    if words[:1] == ["--seeds"] and len(words) == 5 and all(word.isdigit() for word in words[2:]):
        return compare(words[1], *map(int, words[2:]))
    if words != ["--check"]:
        return refuse(words or ["no words"])
    return check()


if __name__ == "__main__":
    sys.exit(main(sys.argv[1:]))
