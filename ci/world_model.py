"""A reference model of both ends over a schedule from a seed: what `table_world` has to print of a line `ladder SEED MOVES`. Frames are what
they mean, with numbers and values and no octets; it is made from the rules of the standard alone, and shares no line with the program.

A schedule is so short that no timer runs out but the interval and the data hold time, which the model sees to.
"""

from dataclasses import dataclass, field

TO_DEVICE = {"Identify", "Set", "Connect", "Write", "PrmEnd", "its answer", "outputs", "AlarmAck"}
CYCLIC = ("inputs", "outputs")
ZEROS = ((0, 0), (0, 0))
RESEND = 3_200


@dataclass
class Frame:
    """What a frame says, and which end sent it."""
    what: str
    of_device: bool
    number: int = 0
    value: object = None


class Draws:
    """Numbers from a seed: xorshift, by Marsaglia."""

    def __init__(self, seed):
        self.state = (seed * 0x9E3779B97F4A7C15) % 2 ** 64 | 1

    def draw(self):
        state = self.state
        state ^= state << 13 & 2 ** 64 - 1
        state ^= state >> 7
        state ^= state << 17 & 2 ** 64 - 1
        self.state = state
        return state

    def below(self, limit):
        drawn = self.draw() >> 16
        return drawn % limit if limit else 0

    def value(self):
        drawn = self.draw()
        return drawn >> 48 & 255, drawn >> 40 & 255

    def at_device(self):
        return self.below(2) == 0

    def delivery(self, count):
        drawn = self.below(50)
        if drawn == 0:
            number = count + self.below(4)
        elif drawn < 40:
            number = max(0, count - 1 - self.below(6))
        else:
            number = self.below(count)
        return "deliver", self.at_device(), number

    def move(self, count):
        drawn = self.below(100)
        if drawn < 30:
            return "tick", self.at_device(), None
        if drawn < 92:
            return self.delivery(count)
        if drawn < 97:
            return "give", False, (2 if drawn < 95 else 3, self.value())
        if drawn == 97:
            self.value()
            return "input", True, None
        return "alarm", True, None


@dataclass
class Cyclic:
    """One end of cyclic data: when it sends, which counters it takes, and how long it waited."""
    interval: int
    hold: int
    elapsed: int = 0
    last: int = None
    waited: int = 0
    begun: bool = False

    def begin(self):
        self.begun, self.waited = True, 0

    def takes(self, counter):
        is_newer = self.last is None or 1 <= (counter - self.last) % 65_536 <= 61_440
        if is_newer:
            self.last, self.waited = counter, 0
        return is_newer

    def is_over(self):
        self.waited += self.begun
        return self.begun and self.waited == self.hold

    def is_due(self):
        self.elapsed = (self.elapsed + 1) % self.interval
        return self.elapsed == 0


@dataclass
class Alarms:
    """One end of the alarms of a relation: the numbers of data that was sent and accepted. Data is numbered 0xFFFF, 0, 1 and so on."""
    sent: int = -2
    taken: int = -2

    def next(self):
        self.sent = self.sent + 1 if self.sent != -2 else -1
        return self.sent

    def takes(self, number):
        """New, again or refused."""
        expected = self.taken + 1 if self.taken != -2 else -1
        if number == expected:
            self.taken = number
            return "new"
        return "again" if number == self.taken else "refused"


@dataclass
class Device:
    plan: object
    units: int = 0
    phase: str = "none"
    records: list = field(default_factory=list)
    kept: Frame = None
    cyclic: Cyclic = None
    alarms: Alarms = None
    standing: bool = False
    shows: tuple = ZEROS

    def end(self):
        self.phase, self.records, self.shows, self.standing = "none", [], ZEROS, False

    def answers(self, frame):
        """A call: a repeat of the last has its answer again, one before it has none."""
        if self.kept and frame.number <= self.kept.number:
            return [self.kept] if frame.number == self.kept.number else []
        is_done, more = False, []
        if frame.what == "Connect" and self.phase == "none":
            is_done, self.phase = True, "started"
            self.cyclic, self.alarms = Cyclic(self.plan.interval, self.plan.hold), Alarms()
        elif frame.what == "Write" and self.phase != "none":
            is_done = True
            self.records.append(frame.value)
        elif frame.what == "PrmEnd" and self.phase == "started":
            is_done, self.phase, more = True, "awaiting", [Frame("ApplicationReady", True)]
        self.kept = Frame("positive answer" if is_done else "negative answer", True, frame.number)
        return [self.kept, *more]

    def hears(self, frame):
        if frame.of_device:
            return []
        if frame.what == "Identify":
            return [Frame("answer to Identify", True)]
        if frame.what == "Set":
            return [Frame("answer to Set", True, value=self.phase == "none")]
        if frame.what in ("Connect", "Write", "PrmEnd"):
            return self.answers(frame)
        return [] if self.phase == "none" else self.hears_within(frame)

    def hears_within(self, frame):
        """What comes in a relation."""
        if frame.what == "its answer" and self.phase == "awaiting":
            self.phase = "exchanging"
            self.cyclic.begin()
        elif frame.what == "outputs" and self.cyclic.takes(frame.number):
            self.shows = frame.value
        elif frame.what == "ERR":
            self.end()
        elif frame.what == "AlarmAck":
            taken = self.alarms.takes(frame.number)
            self.standing = self.standing and taken != "new"
            return [Frame("NACK" if taken == "refused" else "ACK", True)]
        return []

    def ticks(self):
        self.units += 1
        if self.phase == "none":
            return []
        if self.cyclic.is_over():
            self.end()
            return [Frame("ERR", True)]
        return [Frame("inputs", True, self.units % 65_536)] if self.cyclic.is_due() else []

    def raises(self, value):
        if self.phase != "exchanging" or self.standing:
            return []
        self.standing = True
        return [Frame("alarm", True, self.alarms.next(), value)]


@dataclass
class Controller:
    plan: object
    units: int = 0
    state: str = "looking"
    asked: int = None
    stands: bool = False
    gives: tuple = ZEROS
    cyclic: Cyclic = None
    alarms: Alarms = field(default_factory=Alarms)
    alarm: int = None

    def asks(self, number):
        """The call of this number: the Connect, a record, or the end of the parameters."""
        self.asked = number
        if number == 0:
            self.state = "connecting"
            return [Frame("Connect", False, number)]
        if number <= self.plan.records:
            self.state = "writing"
            return [Frame("Write", False, number, number)]
        self.state = "ending"
        return [Frame("PrmEnd", False, number)]

    def end(self, state):
        self.state, self.asked, self.stands = state, None, False

    def hears(self, frame):
        if not frame.of_device:
            return []
        if frame.what == "answer to Identify" and self.state == "looking":
            self.state = "addressing"
            return [Frame("Set", False)]
        if frame.what == "answer to Set" and self.state == "addressing":
            if not frame.value:
                self.end("ended")
                return []
            return self.asks(0)
        if frame.what in ("positive answer", "negative answer") and frame.number == self.asked:
            return self.is_answered(frame.what == "positive answer")
        if frame.what == "ApplicationReady" and self.state in ("ending", "waiting", "exchanging"):
            if self.state != "exchanging":
                self.state, self.asked = "exchanging", None
                self.cyclic.begin()
            return [Frame("its answer", False)]
        return self.hears_within(frame) if self.stands else []

    def is_answered(self, is_done):
        if not is_done:
            self.end("ended")
            return []
        if self.state == "ending":
            self.state, self.asked = "waiting", None
            return []
        if self.asked == 0:
            self.stands, self.cyclic = True, Cyclic(self.plan.interval, self.plan.hold)
        return self.asks(self.asked + 1)

    def hears_within(self, frame):
        """What comes while the relation is active."""
        if frame.what == "inputs":
            self.cyclic.takes(frame.number)
        elif frame.what == "ERR":
            self.end("ended")
        elif frame.what == "alarm":
            taken = self.alarms.takes(frame.number)
            reply = Frame("NACK" if taken == "refused" else "ACK", False)
            if taken == "new":
                self.alarm = frame.value
                return [reply, Frame("AlarmAck", False, self.alarms.next())]
            return [reply]
        return []

    def ticks(self):
        self.units += 1
        if not self.stands:
            return []
        if self.cyclic.is_over():
            self.end("ended by data hold")
            return [Frame("ERR", False)]
        return [Frame("outputs", False, self.units % 65_536, self.gives)] if self.cyclic.is_due() else []

    def given(self, slot, value):
        second, third = self.gives
        self.gives = (value, third) if slot == 2 else (second, value)


@dataclass
class Plan:
    """What a model has to know of a catalogue's project: how many records it writes, its interval and its data hold time."""
    records: int
    interval: int
    hold: int

    @classmethod
    def of(cls, project):
        interval = project["SendClockFactor"] * project["ReductionRatio"]
        return cls(sum(len(slot.get("Records", [])) for slot in project["Slots"]), interval, project["DataHoldFactor"] * interval)


class World:
    def __init__(self, plan):
        self.device, self.controller = Device(plan), Controller(plan)
        self.sent = [Frame("Identify", False)]
        self.raised = 0
        self.tally = dict(exchanging=0, shown=0, alarmed=0, skipped=0)

    def told(self):
        device, controller = self.device, self.controller
        return device.phase, tuple(device.records), device.shows, controller.state, controller.alarm

    def is_skipped(self, at_device, number):
        if number >= len(self.sent):
            return True
        has_left = self.device.phase == "none" if at_device else self.controller.state.startswith("ended")
        return self.sent[number].what in CYCLIC and has_left

    def make(self, what, at_device, told):
        """The frames that a move sends."""
        end = self.device if at_device else self.controller
        if what == "tick":
            return end.ticks()
        if what == "give":
            self.controller.given(*told)
        if what == "alarm":
            frames = self.device.raises(self.raised)
            self.raised += len(frames)
            return frames
        if what != "deliver":
            return []
        if self.is_skipped(at_device, told):
            self.tally["skipped"] += 1
            return []
        return end.hears(self.sent[told])

    def move(self, what, at_device, told):
        """Makes a move. Whether something changed or was sent."""
        before = self.told()
        frames = self.make(what, at_device, told)
        self.sent += frames
        self.tally["exchanging"] += (self.device.phase, self.controller.state) == ("exchanging", "exchanging")
        self.tally["shown"] += self.device.shows != ZEROS
        self.tally["alarmed"] += self.controller.alarm is not None
        return bool(frames) or self.told() != before


def ladder(plan, seed, moves):
    """The lines of a ladder."""
    world, draws = World(plan), Draws(seed)
    for _ in range(moves):
        what, at_device, told = draws.move(len(world.sent))
        is_rung = world.move(what, at_device, told)
        if is_rung and what == "alarm":
            yield "     an alarm is raised"
        elif is_rung and what == "deliver":
            end = "device" if at_device else "controller"
            device, controller = world.device, world.controller
            yield (f"{told:>4} {world.sent[told].what} to the {end}: device {device.phase}, {len(device.records)} records, "
                   f"controller {controller.state}")
    if max(world.device.units, world.controller.units) >= RESEND:
        raise SystemExit(f"a schedule of {moves} moves is too long for this model: what is not answered would be sent again")
    tally = world.tally
    is_full = all(tally.values())
    yield ("all laws hold behind each move" + ("; data was exchanged, outputs came, alarms were taken, moves were skipped" if is_full else ""))
    yield (f"{len(world.sent)} frames; both ends exchanged data behind {tally['exchanging']} moves, an output was not zeros behind "
           f"{tally['shown']}, an alarm had been taken behind {tally['alarmed']}, {tally['skipped']} were skipped")
