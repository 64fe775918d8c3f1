#!/usr/bin/python3
"""Random schedules for the controller: 300 conversations, each with a station of Scapy's layers that answers, refuses, repeats and is
silent as a seed says, among frames that do not belong there, and with an application that gives outputs and may stop it. What the
controller must do is computed as in tests/interoperation/scapy_station.py.

    tests/interoperation/scapy_schedules.py [SEED [COUNT]]                asks the program, which `rt run` in crates/table_controller
                                                                          makes, judges what it prints, and counts what was reached;
                                                                          status 1 where a line differs
    tests/interoperation/scapy_schedules.py --tried FILE [SEED [COUNT]]   asks this program in its place
    tests/interoperation/scapy_schedules.py --output FILE [SEED [COUNT]]  judges what was printed somewhere else
    tests/interoperation/scapy_schedules.py --script [SEED [COUNT]]       prints all lines for table_controller
    tests/interoperation/scapy_schedules.py --wanted [SEED [COUNT]]       prints what the controller has to print for them

Needs Scapy (Debian: apt-get install python3-scapy; 2.5.0 was used).
"""

import collections
import os
import random
import sys

sys.path.insert(0, os.path.join(os.path.dirname(os.path.realpath(__file__)), "..", "..", "ci"))
from program import answer_help, refuse

if __name__ == "__main__":
    answer_help(__doc__, sys.argv[1:])  # which needs no Scapy

import scapy_exchange as exchange
import scapy_relation as relation
import scapy_station as station
from scapy_calls import DEVICE
from scapy_exchange import ACK, AGAIN, DATA, ERR, NACK, NONE_SENT, NONE_TAKEN, following, inputs, pdu
from scapy_station import (
    RECORDS, RESEND, Plan, Script, Talk, addressed, answered, bent_answers, identified, once, padded, ready_answer, release, response, the_ready)
from scapy.compat import raw
from scapy.contrib.pnio_rpc import Block
from scapy.packet import Raw

SEED, COUNT, STEPS = 14, 300, 60
SUITE = bytes((192, 168, 0, 2, 255, 255, 255, 0, 0, 0, 0, 0))
CALLS = station.requests()
# Plans of short and of long intervals, and of no record, one and two.
PLANS = [Plan(*times, RECORDS[:count]) for times in ((32, 1, 3), (128, 8, 16)) for count in range(len(RECORDS) + 1)]
IN_CALLS = ("connecting", "writing", "ending")
STRANGE = Raw(raw(exchange.cyclic(DEVICE, [Raw(bytes(40))], 7, frame_id=0xC002)))


@once
def differs():
    """The answer to a Connect in which modules differ."""
    return response(CALLS[0], station.connected() + [Block(block_type=0x8104, load=relation.DIFFERENCE)])


@once
def refusal(asked, status):
    """A response without blocks."""
    return response(Raw(asked), [], status=status)


class Walk:
    """One schedule."""

    def __init__(self, script, rng, reached):
        self.plan, self.rng, self.reached = rng.choice(PLANS), rng, reached
        self.talk, self.calls = Talk(script, self.plan), station.requests(self.plan)
        self.number, self.release, self.counter = 0, None, rng.randrange(65536)
        self.sent, self.specifier = NONE_SENT, 0

    def count(self, what):
        self.reached[what] += 1

    @property
    def expected(self):
        return self.talk.expected

    def standing(self):
        """The open call."""
        if self.release is not None:
            return self.release
        return self.calls[min(self.number, len(self.calls) - 1)]

    # ---- what the station does

    def right(self):
        """What the controller waits for."""
        state, rng = self.expected.state, self.rng
        if state == "looking":
            if rng.random() < 0.2:
                self.count("address is there already")
                return self.talk.answer(identified(suite=SUITE), self.calls[0], "connecting")
            return self.talk.answer(identified(), station.address(), "addressing")
        if state == "addressing":
            return self.talk.answer(addressed(), self.calls[0], "connecting")
        if state in IN_CALLS:
            asked = self.calls[self.number]
            self.count(f"{state}: answered")
            if self.number == 0:
                self.expected.link = True
            self.number += 1
            if self.number < len(self.calls):
                behind = "ending" if self.number > len(self.plan.records) else "writing"
                return self.talk.answer(answered(asked, rng.randrange(2)), self.calls[self.number], behind)
            return self.talk.answer(answered(asked, rng.randrange(2)), None, "waiting")
        return self.ready()

    def ready(self):
        """ApplicationReady, at whatever time."""
        ready, state = the_ready(), self.expected.state
        if state not in ("ending", "waiting", "exchanging"):
            return self.talk.drops(ready)
        if state != "exchanging":
            self.count(f"ready in {state}")
            self.expected.state, self.expected.asked, self.expected.hold = "exchanging", None, self.expected.most
        else:
            self.count("ready again")
        return self.talk.frame(ready, [ready_answer()])

    def refused(self):
        """The station refuses, is another one, or ends."""
        state, rng = self.expected.state, self.rng
        if state == "looking":
            self.expected.over(1)
            return self.talk.drops(identified(vendor=0x0200))
        if state == "addressing":
            self.expected.over(2)
            return self.talk.drops(rng.choice([addressed(error=3), addressed(kind=5)]))
        if state == "connecting" and rng.random() < 0.5:
            self.release = release(1)
            self.expected.over(3)
            return self.talk.answer(differs(), self.release, "ended 3")
        if state in IN_CALLS and rng.random() < 0.5:
            asked = self.standing()
            self.expected.over(2)
            return self.talk.drops(refusal(raw(asked), rng.choice([0xDB814004, 1, 0x01000000])))
        if self.expected.link:
            self.expected.over(5)
        return self.talk.drops(pdu(DEVICE, ERR, self.sent, NONE_TAKEN, Raw(b"\xCF\x81\xFD\x0D")))

    def noise(self):
        """What does not belong there."""
        choices = [identified(xid=7), identified(name=b"pump-2"), addressed(xid=9), the_ready(relation.OTHER_AR), CALLS[0],
                   the_ready(session=3), STRANGE]
        choices += self.rng.sample(bent_answers(self.standing())[:6], 2)
        if self.expected.state != "looking":
            choices.append(identified())
        if self.expected.state != "addressing":
            choices.append(addressed())
        self.talk.drops(self.rng.choice(choices))

    def cyclic(self):
        """A cyclic frame: of the next counter, of an older one, or far ahead."""
        self.counter = (self.counter + self.rng.choice((1, 32, 32, 32, 61440, 61441, 0, 65535))) % 65536
        octets = bytearray(raw(inputs(self.rng.randbytes(2), self.counter)))
        if self.rng.random() < 0.1:
            octets[25] = self.rng.choice((0, 0x60))
        before = self.expected.came
        self.expected.hear_cyclic(bytes(octets))
        self.count("a frame is taken" if self.expected.came != before else "a frame is not taken")
        self.talk.octets(bytes(octets), [])

    def alarm(self):
        """Data: of the next number, of the last again, or another; or an ACK, or a NACK."""
        rng, expected = self.rng, self.expected
        kind = rng.choice((DATA, DATA, DATA, ACK, ACK, NACK))
        if kind == DATA:
            number = following(expected.taken) if rng.random() < 0.6 else rng.choice((expected.taken, rng.randrange(0x8000)))
            if number in (NONE_TAKEN,):
                number = 5
            self.specifier += 1
            octets = padded(pdu(DEVICE, DATA, number, expected.sent, exchange.notification(
                rng.randrange(1, 3), 16, self.specifier % 2048, rng.randbytes(rng.choice((1, 5, 32, 200))))))
        else:
            octets = padded(pdu(DEVICE, kind, 0, expected.sent if rng.random() < 0.7 else 17))
        wanted = expected.hear_alarm(octets)
        self.count({DATA: ("data is dropped", "data gets ACK again or NACK", "data gets ACK and AlarmAck"), ACK: ("an ACK comes",),
                    NACK: ("a NACK comes",)}[kind][len(wanted)])
        self.talk.octets(octets, wanted)

    def again(self):
        """An answer to the Release."""
        if self.release is None or self.expected.asked is None:
            return self.noise()
        self.expected.asked = None
        self.count("a Release is answered")
        return self.talk.drops(refusal(raw(self.release), self.rng.choice((0, 0xDC814005))))

    # ---- time and the application

    def tick(self):
        rng, expected = self.rng, self.expected
        if expected.link and expected.hold is None:
            units = rng.choice((1, expected.interval - 1, expected.interval, expected.interval + 1, 100, 64, AGAIN))
        elif expected.link:
            units = min(rng.choice((1, 10, 32, expected.interval, expected.most, 90, AGAIN - 1, AGAIN, 4 * AGAIN)), expected.hold - 1) or 1
            if rng.random() < 0.03:
                units = expected.hold
        else:
            units = rng.choice((1, 100, RESEND - 1, RESEND, RESEND - expected.waited or 1, RESEND + 1))
        before, state, repeats = expected.asked and expected.waited, expected.state, expected.repeats
        self.talk.tick(units)
        self.reached["an AlarmAck is sent again"] += expected.repeats - repeats
        if before is not None and expected.asked is not None and not expected.link and before + units >= RESEND:
            self.count("a request is sent again")
        if state != expected.state:
            self.count(f"time ends it: {expected.state}")

    def give(self):
        slot, subslot, size = self.rng.choice(((2, 1, 2), (2, 1, 2), (2, 1, 3), (1, 1, 2), (9, 1, 2), (2, 2, 2)))
        self.talk.give(slot, subslot, self.rng.randbytes(size))
        self.count("an output is given" if (slot, subslot, size) == (2, 1, 2) else "what is given has no such place")

    def stop(self):
        state = self.expected.state
        if state.startswith("ended"):
            return self.talk.stop()
        self.count(f"stop in {state}")
        self.expected.over(7)
        if state in ("looking", "addressing"):
            return self.talk.stop()
        number = {"connecting": 1, "writing": self.number + 1}.get(state, len(self.plan.records) + 2)
        self.release = release(number)
        return self.talk.stop(self.expected.ask(self.release, "ended 7"))

    def step(self):
        state, rng = self.expected.state, self.rng
        ways = [(self.tick, 6), (self.noise, 4), (self.give, 2), (self.stop, 0.15), (self.refused, 0.2), (self.talk.show, 1)]
        if state == "exchanging":
            ways += [(self.cyclic, 8), (self.alarm, 4), (self.ready, 0.5)]
        elif state.startswith("ended"):
            ways = [(self.tick, 3), (self.noise, 3), (self.give, 1), (self.stop, 1), (self.talk.show, 1), (self.again, 1), (self.cyclic, 1),
                    (self.ready, 1)]
        else:
            ways += [(self.right, 5), (self.ready, 0.7), (self.cyclic, 0.7), (self.alarm, 0.7)]
        rng.choices([way for way, _ in ways], [weight for _, weight in ways])[0]()

    def run(self):
        for _ in range(STEPS):
            self.step()
        self.talk.show()
        self.count(f"in the end {self.expected.state}")


def main(words):
    asked = station.words_of(words, 2)
    if asked is None:
        return refuse(words)
    flag, what, numbers = asked
    seed, count = (numbers + [SEED, COUNT][len(numbers):])
    script, rng, reached = Script(), random.Random(seed), collections.Counter()
    for _ in range(count):
        Walk(script, rng, reached).run()
    lines = [f"{times:6} {kind}" for kind, times in sorted(reached.items())]
    lines.append(f"{count} schedules, {len(script.said)} lines, {script.frames} frames of the controller as Scapy builds them")
    return station.done(script, flag, what, "\n".join(lines))


if __name__ == "__main__":
    sys.exit(main(sys.argv[1:]))
