"""Tests that a stranger who calls Read Implicit without pause keeps no plant from its start: `host/test/run stored asked_first`."""

import math
import os
import re
import struct
import threading
import time

from peer import BLOCKS_AT, CONNECT, PRM_END, RPC_AT, WRITE, Opener, arguments, block_of
from returns_tests import HOLD, RATIO, Middle
from wire import awaited, drain

# The plan's controller and station are those with the number 2: the station has the address that strangers call.
CONTROLLER, STRANGER = bytes.fromhex("020000000202"), bytes.fromhex("020000000077")
A_SECOND = 1000  # its calls
BOUND = 2.0      # seconds from `state looking` to `state exchanging`. The controller sends a request again after one second
PREPARING = 1.2  # seconds from PrmEnd until the application is ready: the controller has sent it again then
RESPONSE, READ_IMPLICIT = 2, 5

# The answers that are lost: of which call, and of a Write the index. The plan has two records.
ANSWERS = ((CONNECT, None), (WRITE, 3), (WRITE, 4), (PRM_END, None))
WRITES = [index for kind, index in ANSWERS if kind == WRITE]


class Lossy(Middle):
    """A cable on which the answers `losing` are lost once each. `calls`: how many calls of the stranger the device got, and `answers` how many answers it
    sent, which end here."""

    def __init__(self, tag):
        super().__init__(tag)
        self.losing, self.calls, self.answers = set(), 0, 0

    def passes(self, octets):
        if octets[:6] == STRANGER:
            self.answers += 1
            return False
        self.calls += octets[6:12] == STRANGER
        if octets[:6] == CONTROLLER and octets[12:14] == b"\x08\0" and octets[RPC_AT + 1] == RESPONSE:
            kind, index = int.from_bytes(octets[BLOCKS_AT:BLOCKS_AT + 2], "big") & 0x7FFF, int.from_bytes(octets[BLOCKS_AT + 34:BLOCKS_AT + 36], "big")
            answer = (kind, index if kind == WRITE else None)
            if answer in self.losing:
                self.losing.remove(answer)
                return False
        return super().passes(octets)


class Stranger(Opener, threading.Thread):
    """Reads the record with this index at slot 1, subslot 1 without a relation, each time by another activity."""

    def __init__(self, wire, index):
        Opener.__init__(self, wire, STRANGER, "192.168.0.77")
        threading.Thread.__init__(self, daemon=True)
        self.body = arguments(block_of(9, struct.pack(">H16sIHHHHI24s", 1, bytes(16), 0, 1, 1, 0, index, 4096, bytes(24))), 4096)
        self.is_over = False

    def __enter__(self):
        self.start()
        return self

    def __exit__(self, *_):
        self.is_over = True
        self.join()
        self.close()

    def run(self):
        begins, sent = time.monotonic(), 0
        while not self.is_over:
            while sent < (time.monotonic() - begins) * A_SECOND:
                self.activity, sent = os.urandom(16), sent + 1
                self.send(READ_IMPLICIT, self.body)
            drain(self.link)
            time.sleep(0.001)


class Application(threading.Thread):
    """Answers each Write that a device asks it, and each Read if `reads`; with --ready-by-application it is ready some time after PrmEnd.
    `written`: the indices of the Writes that it was asked."""

    def __init__(self, device, reads=True):
        super().__init__(daemon=True)
        self.device, self.reads, self.written, self.is_over = device, reads, [], False

    def __enter__(self):
        self.start()
        return self

    def __exit__(self, *_):
        self.is_over = True
        self.join()

    def run(self):
        at, ready_at = 0, math.inf
        while not self.is_over:
            while at < len(self.device.lines):
                asked = re.match("asked ([0-9]+) 1 1 ([0-9]+) (read|write) ", self.device.lines[at][1])
                at += 1
                if asked and asked[3] == "write":
                    self.written.append(int(asked[2]))
                    self.device.say(f"answer {asked[1]}")
                elif asked and self.reads:
                    self.device.say(f"answer {asked[1]} 00")
                elif self.device.lines[at - 1][1] == "parameters end":
                    ready_at = time.monotonic() + PREPARING
            if time.monotonic() > ready_at:
                self.device.say("ready")
                ready_at = math.inf
            time.sleep(0.0005)


class StrangerTests:
    """The tests that `host/test/run` takes over."""

    def begun(self, wire, path, flash, reads, *words):
        """Starts a device whose application answers the two records of the plan, and a controller. Returns why this is no start, or None."""
        records = [word for index, length in ((3, 4), (4, 1)) for word in ("--record", "1", "1", str(index), str(length), "both")]
        device = self.addressed(wire, flash + self.kind, *records, *words, name="pump-2")
        wire.answers = 0
        with Application(device, reads) as application:
            awaited("answers to the stranger", lambda: wire.answers > 10)
            why = self.starts(wire, path, application)
        device.end()
        return why

    def starts(self, wire, path, application):
        """Starts a controller: data must be exchanged in time, and each Write asked once."""
        wire.calls, wire.answers, begins = 0, 0, time.monotonic()
        controller = self.controller(wire, path)
        controller.expect("state looking$")
        looking = controller.lines[controller.seen - 1][0]
        while time.time() < looking + BOUND and not controller.has("state exchanging|ended"):
            time.sleep(0.005)
        has_begun, took = controller.has("state exchanging"), time.monotonic() - begins
        text, lost, calls = controller.text(), sorted(wire.losing, key=str), wire.calls
        wire.losing.clear()
        if has_begun:
            controller.say("stop")
        controller.end()
        if not has_begun:
            return f"no exchange within {BOUND} s:\n{text}"
        if application.written != WRITES:
            return f"the application is asked of {application.written}"
        if lost:
            return f"these answers were not there to be lost: {lost}"
        if calls < took * A_SECOND / 2 or wire.answers == 0:
            return f"{calls} calls of the stranger in {took:.2f} s, {wire.answers} answers"
        return None

    def stored(self, _):
        """A stranger reads I&M0 a thousand times a second, while the answers to the Connect, to each Write and to PrmEnd are lost once each: data is exchanged
        within two seconds, and each Write is asked once. With --keep-reads neither of them is so."""
        path = self.with_records(self.peers_plan(2, ratio=RATIO, hold=HOLD))
        with Lossy("s") as wire, Stranger(wire, 0xAFF0):
            for words, is_kept in (((), False), (("--keep-reads",), True)):
                for lost in ANSWERS:
                    wire.losing = {lost}
                    later = ("--ready-by-application",) if lost[0] == PRM_END else ()  # else ApplicationReady is sent before PrmEnd is sent again
                    why = self.begun(wire, path, "stored", True, *later, *words)
                    if (why is not None) != is_kept:
                        raise AssertionError(f"{' '.join(words) or 'by default'}, the answer {lost} is lost: {why or 'a start'}")

    def asked_first(self, _):
        """A stranger reads a record of the application a thousand times a second, answered or not: a plant that writes this record starts. With --ask-in-order
        the Write is refused."""
        path = self.with_records(self.peers_plan(2, ratio=RATIO, hold=HOLD))
        with Lossy("a") as wire, Stranger(wire, WRITES[0]):
            for words, reads, is_busy in (*5 * (((), True, False), ((), False, False)), (("--ask-in-order",), False, True)):
                why = self.begun(wire, path, "asked", reads, *words)
                if (why is not None) != is_busy:
                    raise AssertionError(f"{' '.join(words) or 'by default'}, Reads {'answered' if reads else 'not answered'}: {why or 'a start'}")
