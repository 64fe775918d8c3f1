"""Tests that both ends exchange data again, by themselves: `host/test/run returns`. At a random place of the start-up or of the exchange the device or the
controller is killed and started again, or the cable is pulled and plugged again."""

import contextlib
import os
import random
import select
import signal
import socket
import statistics
import threading
import time

from wire import DEVICE, TOOL, Final, Wire, command

PATIENCE, RETRY = 2, 1  # seconds: the options --patience and --retry of the controllers
HOLD, RATIO, WRITES = 125, 16, 2  # the data hold time is 2 seconds; the plan has two records
# Seconds: CMInitiatorActivityTimeoutFactor of the Connect; how often a request is sent again; how long two programs take until they run.
ACTIVITY, REPEAT, BEGINNING = 60, 1, 2
UNITS_A_SECOND = 32000
KINDS = ("device", "controller", "cable")
# The frames of a start-up at which something dies: up to the Connect, from it to PrmEnd, and in the wait for ApplicationReady, which is long if the application
# is ready later. The last phase is the exchange, in which a time is drawn.
PHASES = ((1, 8), (8, 16), (16, 22), None)
OUTGOING = 4


def bound(patience):
    """Within how many seconds both ends exchange data again. What can lie before that, one after the other: a request that is not sent again yet; each of the
    four limited states of a start-up (address, Connect, Writes, PrmEnd) and the wait for ApplicationReady, up to the patience; the rest of a relation at
    the device, up to its activity timer or the data hold time, and the data hold time of the controller; two pauses before the controller begins again; the
    start-up with its Writes, and some units of time at the ends of these. Besides, the programs take a while until they run."""
    units = WRITES + 5 + 14
    return REPEAT + 4 * patience + patience + ACTIVITY + 2 * HOLD * RATIO / 1000 + 2 * RETRY + units / UNITS_A_SECOND + BEGINNING


class Middle(Wire):
    """A cable with somebody in its middle, who hands each frame on, in its order, and can do something at the n-th one."""

    def __init__(self, tag):
        super().__init__(tag)
        self.middle = f"{self.device[:-2]}-m"
        self.act, self.left, self.is_pulled, self.is_over = None, 0, False, False
        self.thread = threading.Thread(target=self.hand_on, daemon=True)

    def plug(self):
        command("ip", "netns", "add", self.middle)
        self.made.append(self.middle)
        self.within(self.middle, "sh", "-c", "echo 1 > /proc/sys/net/ipv6/conf/default/disable_ipv6; :")
        for name, interface, inner, mac in ((self.device, "d0", "m0", DEVICE), (self.controller, "c0", "m1", TOOL)):
            command("ip", "link", "add", interface, "netns", name, "type", "veth", "peer", "name", inner, "netns", self.middle)
            command("ip", "-n", name, "link", "set", interface, "address", mac.hex(":"), "up")
            command("ip", "-n", self.middle, "link", "set", inner, "up")
        self.ends = [self.inner(inner) for inner in ("m0", "m1")]
        self.thread.start()

    def inner(self, interface):
        made = self.opened_in(self.middle, socket.AF_PACKET, socket.SOCK_RAW, socket.htons(3))
        made.bind((interface, 3))
        made.setblocking(False)
        return made

    def at_frame(self, number, act):
        """At the n-th frame from now on, which is handed on if `act` returns True. The frames of LLDP do not count."""
        self.act, self.left = act, number

    def hand_on(self):
        while not self.is_over:
            for came in select.select(self.ends, [], [], 0.1)[0]:
                try:
                    octets, address = came.recvfrom(2048)
                except OSError:
                    continue
                if address[2] != OUTGOING and self.passes(octets):
                    self.send(self.ends[1 - self.ends.index(came)], octets)

    def passes(self, octets):
        if self.left and octets[12:14] != b"\x88\xcc":
            self.left -= 1
            if self.left == 0:
                return self.act() and not self.is_pulled
        return not self.is_pulled

    @staticmethod
    def send(end, octets):
        try:
            end.send(octets)
        except OSError:
            pass  # the link is down, or its queue is full: the frame is lost

    def __exit__(self, *words):
        self.is_over = True
        if self.thread.is_alive():
            self.thread.join()
            for end in self.ends:
                end.close()
        super().__exit__(*words)


class Place:
    """Where something dies, and what."""

    def __init__(self, seed, number):
        rng = random.Random(f"{seed} {number}")
        self.number, self.rng = number, rng
        self.kind, phase = KINDS[number % 3], number // 3 % len(PHASES)
        self.is_new = rng.random() < 0.3  # the device has no address yet
        self.is_slow = phase == 2 or rng.random() < 0.3  # its application says later that it is ready
        self.frame = rng.randint(*PHASES[phase]) if PHASES[phase] else None
        self.after = rng.random() if self.frame is None else rng.random() * 0.0005  # seconds, from the exchange or from that frame
        self.is_lost = rng.random() < 0.5  # this frame
        self.pause = rng.random() * rng.choice((0.02, 0.5, 4))  # until it is there again
        self.way = rng.choice(("d0", "c0", "between"))  # where the cable is pulled: with or without a carrier at an end

    def __str__(self):
        where = f"{self.after * 1000:.0f} ms after the exchange began" if self.frame is None else \
            f"at frame {self.frame} of the start-up, which {'is lost' if self.is_lost else f'arrives, {self.after * 1e6:.0f} us later'}"
        return f"place {self.number}: the {self.kind}{f' at {self.way}' if self.kind == 'cable' else ''} {where}, for {self.pause:.2f} s" + \
            (", device without an address" if self.is_new else "") + (", application that is ready later" if self.is_slow else "")


class World:
    """A device and a controller at a cable, and the application of the device."""

    def __init__(self, tests, wire, plan, place, flash, patience):
        self.tests, self.wire, self.plan, self.place, self.flash = tests, wire, plan, place, flash
        self.words = ("--retry", str(RETRY), "--patience", str(patience))
        self.device = self.controller = None
        self.answered = 0
        self.has_begun, self.has_died = threading.Event(), threading.Event()

    def begin_device(self):
        more = ("--ready-by-application",) if self.place.is_slow else ()
        self.device, self.answered = self.tests.device(self.wire, self.flash, "--station", self.plan, *more), 0

    def begin_controller(self):
        self.controller = self.tests.controller(self.wire, self.plan, *self.words)
        self.has_begun.set()

    def turn(self):
        """The application of the device: it is ready some milliseconds after its parameters."""
        if self.place.is_slow:
            lines = sum(line == "parameters end" for _, line in self.device.lines)
            if lines > self.answered:
                self.answered = lines
                time.sleep(self.place.rng.random() * 0.05)
                with contextlib.suppress(OSError):  # it may have died
                    self.device.say("ready")
        time.sleep(0.005)

    def die(self):
        """The end of what dies. Returns whether the frame is handed on at which it dies."""
        place = self.place
        self.has_begun.wait(60)  # its first frame may be here before it is known to this program
        if not place.is_lost and place.frame is not None:
            # It arrives first; the thread that hands on may not wait, so another one counts the time.
            threading.Timer(place.after, self.strike).start()
            return True
        self.strike()
        return False

    def strike(self):
        if self.place.kind != "cable":
            (self.device if self.place.kind == "device" else self.controller).process.kill()
        elif self.place.way == "between":
            self.wire.is_pulled = True
        else:
            self.wire.link(self.place.way, "set", self.place.way, "down")
        self.has_died.set()

    def come_back(self):
        """What died is there again."""
        time.sleep(self.place.pause)
        if self.place.kind == "device":
            self.device.end(signal.SIGKILL)
            self.begin_device()
        elif self.place.kind == "controller":
            self.controller.end(signal.SIGKILL)
            self.begin_controller()
        elif self.place.way == "between":
            self.wire.is_pulled = False
        else:
            self.wire.link(self.place.way, "set", self.place.way, "up")

    def forgotten(self):
        """The seconds that both programs have not counted, because this machine was late. One that does not answer is not late."""
        units = 0
        for program in (self.device, self.controller):
            with contextlib.suppress(AssertionError):
                units += int(program.ask("statistics", "time units [0-9]* forgotten ([0-9]*)")[1])
        return units / UNITS_A_SECOND

    def exchanges(self, seconds):
        """Waits until both ends have data of the other one that were given now. Returns the seconds."""
        begins, value = time.monotonic(), f"{self.place.number % 0xFFFF + 1:04x}"
        self.device.say(f"input 1 1 {value}")
        self.controller.say(f"give 2 1 {value}")
        late, told = 0.0, ""
        while not (self.controller.has(f"input 1 1 {value}$") and self.device.has(f"output 2 1 {value}$")):
            self.turn()
            if time.monotonic() - begins > seconds + late:
                told = told or self.told()
                late = self.forgotten()
                if time.monotonic() - begins > seconds + late:
                    raise Final(f"{self.place}: no exchange within {seconds:.0f} s{told}")
                time.sleep(1)
        return time.monotonic() - begins

    def told(self):
        return f"\nthe device:\n{self.device.text()}\nthe controller:\n{self.controller.text()}"

    def run(self, seconds):
        """Lets it die at its place. Returns the seconds from its return to the exchange."""
        self.begin_device()
        if self.place.frame is not None:
            self.wire.at_frame(self.place.frame, self.die)
        self.begin_controller()
        begins = time.monotonic()
        while not self.has_died.is_set():
            if self.place.frame is None and self.controller.has("state exchanging") and self.device.has("phase exchanging"):
                time.sleep(self.place.after)
                self.strike()
            if time.monotonic() - begins > 60:
                raise AssertionError(f"{self.place}: it is not reached{self.told()}")
            self.turn()
        self.come_back()
        took = self.exchanges(seconds)
        self.controller.end()
        self.device.end()
        return took


class ReturnTests:
    """The tests that `host/test/run` takes over."""

    def returns(self, _):
        """N times something dies at a random place and comes back: both ends exchange data again within a bound, by themselves. Twelve worlds at once."""
        count = self.asked.places or (12 if self.asked.short else 200)
        seed = self.asked.seed if self.asked.seed is not None else random.SystemRandom().randrange(1 << 32)
        patience = PATIENCE if self.asked.patience is None else self.asked.patience
        print(f"returns: seed {seed}", flush=True)
        seconds, numbers, told, faults = bound(PATIENCE), iter(range(count)), [], []
        path = self.with_records(self.peers_plan(1, ratio=RATIO, hold=HOLD))

        def lane(number):
            try:
                with Middle(f"r{number}") as wire:
                    while not faults and (at := next(numbers, None)) is not None:
                        told.append(self.returned(wire, path, Place(seed, at), number, seconds, patience))
            except Exception as fault:
                faults.append(fault)
        lanes = [threading.Thread(target=lane, args=(number,)) for number in range(min(count, 12))]
        for one in lanes:
            one.start()
        for one in lanes:
            one.join()
        if faults:
            raise type(faults[0])(f"seed {seed}, {faults[0]}")
        words = []
        for kind in KINDS:
            times = [took for place, took in told if place.kind == kind]
            words.append(f"{kind} {len(times)} times: median {statistics.median(times):.1f} s, longest {max(times):.1f} s")
        return f"{len(told)} places, {'; '.join(words)}; bound {seconds:.0f} s"

    def returned(self, wire, path, place, lane, seconds, patience):
        """One place. Returns it, and the seconds."""
        flash = f"returns-{lane}"
        if place.is_new and os.path.exists(self.path(flash)):
            os.remove(self.path(flash))
        return place, World(self, wire, path, place, flash, patience).run(seconds)
