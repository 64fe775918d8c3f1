"""Tests of the Python module: `host/test/run python_lines python_bounds python_typed python_types python_plant python_several python_words python_ends
python_fill stations`."""

import contextlib
import dataclasses
import doctest
import io
import json
import os
import random
import shutil
import signal
import struct
import subprocess
import sys
import threading
import time

from signal_tests import rows, same
from wire import BUILD, HOST, TOP, Plant, Program, awaited, device_of, talk_to

PYTHON = os.path.join(HOST, "python")
sys.path.insert(0, PYTHON)
sys.path.insert(0, os.path.join(TOP, "tools"))
sys.path.insert(0, os.path.join(HOST, "demo"))
import nandutable  # noqa: E402: the module's folder is not on the path before
from nandutable import __main__ as program  # noqa: E402
from nandutable import lines, process, state, values  # noqa: E402
from nandutable.ports import Peer, Port, read_ports  # noqa: E402
from planning import types  # noqa: E402
from tank import Tank  # noqa: E402

# Lines that the controller prints, the class of each, and its fields after text and station.
LINES = (
    ("pump-1.level = 12 good", lines.Signal, "pump-1", ("pump-1.level", "12", True, None)),
    ("hall.7.text = \"a = \\\"b\\\" good\" bad 1795858105.250000", lines.Signal, "hall.7", ("hall.7.text", "\"a = \\\"b\\\" good\"", False, 1795858105.25)),
    ("ok set pump-1.speed", lines.SetDone, "pump-1", ("pump-1.speed",)),
    ("refused set speed: Unsigned8 takes 0 to 255", lines.SetRefused, None, ("speed", "Unsigned8 takes 0 to 255")),
    ("refused set pump-1.level: it is an input", lines.SetRefused, "pump-1", ("pump-1.level", "it is an input")),
    ("refused get x.y: there is no such signal; names lists them", lines.GetRefused, "x", ("x.y", "there is no such signal; names lists them")),
    ("name pump-1.level input Unsigned16 2 1 1 0 - \"mm\" \"Level \\\"A\\\" \\\\\"", lines.Name, "pump-1",
     ("pump-1.level", "input", "Unsigned16", 2, 1, 1, 0, None, "mm", "Level \"A\" \\")),
    ("name a.b output Boolean 1 2 1 3 7 \"\" \"\"", lines.Name, "a", ("a.b", "output", "Boolean", 1, 2, 1, 3, 7, "", "")),
    ("name a.t input TimeOfDay_without_date_indication 4 1 1 0 - \"\" \"\"", lines.Name, "a", ("a.t", "input", "TimeOfDay without date indication", 4, 1, 1, 0, None, "", "")),
    ("name a.s input Unsigned8_S 1 1 1 0 - \"\" \"\"", lines.Name, "a", ("a.s", "input", "Unsigned8_S", 1, 1, 1, 0, None, "", "")),
    ('module pump-1 2 - "Flow \\"A\\" meter"', lines.Module, "pump-1", (2, None, 'Flow "A" meter')), ('module pump-1 3 1 "Display"', lines.Module, "pump-1", (3, 1, "Display")),
    ("modules 12", lines.Modules, None, (12,)), ("names 2000", lines.Names, None, (2000,)), ("got 3", lines.Got, None, (3,)),
    ("pump-1 controller 02:00:00:00:00:02 on c0, for the station 'pump-1', interval 1000 us", lines.Introduced, "pump-1", ("02:00:00:00:00:02", "c0", 1000)),
    ("station pump-1 02:00:00:00:00:01 192.168.0.2 1000 exchanging", lines.Station, "pump-1", ("02:00:00:00:00:01", "192.168.0.2", 1000, "exchanging", None)),
    ("station pump.2 - 0.0.0.0 31 ended 4", lines.Station, "pump.2", (None, "0.0.0.0", 31, "ended", 4)),
    ("stations 64", lines.Stations, None, (64,)),
    ("pump-1 state exchanging", lines.State, "pump-1", ("exchanging",)), ("state ended", lines.State, None, ("ended",)),
    ("pump.2 ended 4: no cyclic frame of the device came within the data hold time", lines.Ended, "pump.2", (4, "no cyclic frame of the device came within the data hold time")),
    ("input 1 1 00ff", lines.Octets, None, ("input", 1, 1, b"\0\xff")), ("pump-1 give 2 1 ", lines.Octets, "pump-1", ("give", 2, 1, b"")),
    ("provider 1 1 80 run", lines.Provider, None, (1, 1, 128, True)), ("a provider 65535 32768 00 stop", lines.Provider, "a", (65535, 32768, 0, False)),
    ("submodule 1 1 gone", lines.Submodule, None, (1, 1, "gone")), ("a submodule 15 32768 refused", lines.Submodule, "a", (15, 32768, "refused")),
    ("alarm 2 1 1 0 c0ffee (high priority, process, USI 0001)", lines.Alarm, None, (2, 1, 1, 0, b"\xc0\xff\xee", "high", "process, USI 0001")),
    ("alarm 3 1 1 0 - (low priority, pull, no USI)", lines.Alarm, None, (3, 1, 1, 0, b"", "low", "pull, no USI")),
    ("refused record 1 2 3: Write of the record, PNIOStatus DF 80 B0 00: x", lines.RecordRefused, None, (1, 2, 3, "Write of the record, PNIOStatus DF 80 B0 00: x")),
    ("diagnosis 1 2 0 6 (wire break)", lines.Diagnosis, None, (1, 2, 0, 6, "wire break")), ("pump-1 diagnosis -", lines.NoDiagnosis, "pump-1", ()),
    ("diagnosis left out 7: the list has room for 256", lines.DiagnosisLeftOut, None, (7,)),
    ("diagnosis only in the record: 1 1 32768 1 (short circuit, the submodule)", lines.DiagnosisOnly, None, ("record", 1, 1, 32768, 1, "short circuit, the submodule")),
    ("diagnosis 0xE00C the same: 1 by alarms, 1 in the record", lines.DiagnosisCompared, None, (0xE00C, True, 1, 1, 0)),
    ("diagnosis 0xF80C different: 1 by alarms, 0 in the record, 2 of another structure", lines.DiagnosisCompared, None, (0xF80C, False, 1, 0, 2)),
    ("diagnosis 0xE00C refused: PNIOStatus DE", lines.DiagnosisRefused, None, (0xE00C, "PNIOStatus DE")),
    ("diagnosis 0xE00C not compared: its blocks are not whole", lines.DiagnosisRefused, None, (0xE00C, "its blocks are not whole")),
    ("read 0 1 45040 0020", lines.Record, None, (0, 1, 45040, b"\0\x20")), ("pump-1 read 0 1 40 -", lines.Record, "pump-1", (0, 1, 40, b"")),
    ("read 1 1 40 refused: PNIOStatus DE 80 B0 00: access", lines.AccessRefused, None, ("read", 1, 1, 40, "PNIOStatus DE 80 B0 00: access")),
    ("write 1 1 40 dropped: the relation has ended", lines.AccessRefused, None, ("write", 1, 1, 40, "the relation has ended")),
    ("write 1 1 11 done", lines.Written, None, (1, 1, 11)),
    ("link up", lines.Link, None, (True, "")), ("link down (no carrier: no cable)", lines.Link, None, (False, "no carrier: no cable")),
    ("neighbour -", lines.Neighbour, None, (None, None, None)), ("neighbour 02:00:00:00:00:01 port 'port-002' of 'switch-1'", lines.Neighbour, None, ("02:00:00:00:00:01", "port-002", "switch-1")),
    ("pump-1 waiting 5 s: no station 'pump-1' answers Identify", lines.Waiting, "pump-1", (5, "no station 'pump-1' answers Identify")),
    ("warning: two stations 'pump-1': a, b", lines.Warned, None, ("two stations 'pump-1': a, b",)), ("stall: 1 units", lines.Stalled, None, ("1 units",)),
    ("wrong: no such line; `help` lists them", lines.Wrong, None, ("no such line; `help` lists them",)),
    ("statistics seconds 7", lines.Seconds, None, (7,)), ("frames received 1 sent 2 not-sent 3 missed 4", lines.Frames, None, (1, 2, 3, 4)),
    ("frames for no station 9", lines.Count, None, ("frames for no station", 9)), ("pump-1 cyclic received 10 lost 0", lines.Cyclic, "pump-1", (10, 0)),
    ("interval count 9 p50 1000 p99 1010 max 2000 us", lines.Interval, None, (9, 1000, 1010, 2000)), ("jitter p50 1 p99 2 max 3 us", lines.Jitter, None, (1, 2, 3)),
    ("time units 1 forgotten 2 stalls 3 most-at-once 4", lines.Times, None, (1, 2, 3, 4)), ("wakes 5", lines.Count, None, ("wakes", 5)),
    ("neighbours not reported 0", lines.Count, None, ("neighbours not reported", 0)), ("lines lost 0", lines.Count, None, ("lines lost", 0)),
    ("status exchanging pump-1 | 3 frames | lost 0", lines.Status, None, ("exchanging pump-1 | 3 frames | lost 0",)),
    # Stations whose names are words of lines.
    ("state state looking", lines.State, "state", ("looking",)), ("link link down (x)", lines.Link, "link", (False, "x")), ("read read 1 1 2 -", lines.Record, "read", (1, 1, 2, b"")),
    # Others.
    ("", lines.Unknown, None, ()), ("state", lines.Unknown, None, ()), ("state busy", lines.Unknown, None, ()), ("pump-1 colour red", lines.Unknown, None, ()),
    ("read 1 1 40 abc", lines.Unknown, None, ()), ("a.b = 1", lines.Unknown, None, ()), ("a.b = 1 fair", lines.Unknown, None, ()), ("\x00\xff", lines.Unknown, None, ()))


def fields(line):
    return tuple(getattr(line, field.name) for field in dataclasses.fields(line) if field.name not in ("text", "station"))


def refusal(kind, text, call, *words, **more):
    """The call must raise this exception with this text in it."""
    try:
        call(*words, **more)
    except kind as fault:
        same(f"{type(fault).__name__}: '{text}' in '{fault}'", text in str(fault) and type(fault) in (kind if isinstance(kind, tuple) else (kind,)), True)
        return fault
    raise AssertionError(f"no {kind} with '{text}'")


def written(script, **more):
    """A connection to a program of Python in place of the controller."""
    return process.Process([sys.executable, "-u", "-c", script], **more)


def is_soon(what, find, seconds=20):
    awaited(what, find, seconds)


def wanted_value(kind, octets, text):
    """The value of a row of values.txt, as Python has it: by the octets or the printed number, and not by the module."""
    octets = bytes.fromhex(octets)
    if kind == "Boolean":
        return text == "true"
    if kind in ("Float32", "Float64"):
        return struct.unpack(">f" if kind == "Float32" else ">d", octets)[0]
    if kind.startswith("Float32+"):
        return nandutable.WithStatus(struct.unpack(">f", octets[:4])[0], octets[4])
    if kind == "Unsigned8+Unsigned8":
        return nandutable.WithStatus(octets[0], octets[1])
    if kind == "OctetString2+Unsigned8":
        return nandutable.WithStatus(octets[:2], octets[2])
    if kind in ("VisibleString", "UnicodeString8") and text.startswith('"'):
        return octets.rstrip(b"\0").decode()
    return int(text) if text.lstrip("-").isdecimal() and kind not in OF_OCTETS else octets


OF_OCTETS = {kind for kind, *_ in rows("values.txt") if kind not in types.LENGTHS} | {
    kind for kind in types.LENGTHS if kind.startswith(("Date", "Time", "Network", "F_", "V2", "L2")) or kind.endswith("_S")}


def is_same_value(kind, came, wanted):
    """A Float32 is compared in its octets: the line has the shortest number that is read back as the same."""
    if isinstance(wanted, nandutable.WithStatus):
        return isinstance(came, nandutable.WithStatus) and came.status == wanted.status and is_same_value(kind[:7], came.value, wanted.value)
    if isinstance(wanted, float):
        form = ">f" if kind.startswith("Float32") else ">d"
        return type(came) is float and (struct.pack(form, came) == struct.pack(form, wanted) or (came != came and wanted != wanted))
    return type(came) is type(wanted) and came == wanted


class PythonTests:
    """The tests that `host/test/run` takes over."""

    # ---- without a wire

    def python_lines(self):
        """Each line of the controller, as a value; and the picture that lines make."""
        for text, kind, station, wanted in LINES:
            line = lines.Reader().read(text)
            same(text, (type(line), line.text, line.station, fields(line)), (kind, text, station, wanted))
        classes = {kind for _, kind, *_ in LINES}
        every = {kind for kind in vars(lines).values() if isinstance(kind, type) and issubclass(kind, lines.Line) and kind is not lines.Line}
        same("each class has a row", every - classes, set())
        reader = lines.Reader()
        reader.read("controller 02:00:00:00:00:02 on c0, for the station 'pump-1', interval 1000 us")
        same("the only station", reader.read("state looking").station, "pump-1")
        same("a line of the interface", reader.read("link up").station, None)
        reader = lines.Reader()
        same("not known yet", reader.read("cyclic received 1 lost 0").station, None)
        reader.read("station pump-1 - 192.168.0.2 1000 looking")
        reader.read("stations 1")
        same("the only station of a socket", reader.read("cyclic received 1 lost 0").station, "pump-1")
        for text in ("station pump-1 - 192.168.0.2 1000 looking", "station pump-2 - 192.168.0.3 1000 looking", "stations 2"):
            reader.read(text)
        same("one of two", reader.read("pump-2 cyclic received 1 lost 0").station, "pump-2")
        self.check_ports()
        self.check_picture()
        self.check_broken_lines()
        same("the example in the module", doctest.testmod(lines).failed, 0)
        return f"{len(LINES)} lines"

    def check_broken_lines(self):
        """Lines that are broken at random, and very long ones: each is a value, and the picture takes it."""
        rng, picture = random.Random(7), state.PlantState(most=10)
        reader, texts = lines.Reader(), [text for text, *_ in LINES]
        for _ in range(5000):
            text = rng.choice(texts)
            for _ in range(rng.randrange(1, 4)):
                at = rng.randrange(len(text) + 1)
                text = rng.choice((text[:at], text[:at] + rng.choice("09 =.:'\"\\-az\0\u20ac") + text[at:], text[:at] + text[at + 1:], text + " " + rng.choice(texts)))
            picture.take(reader.read(text))
        for text in ("names " + "9" * 60000, "a.b = " + "9" * 60000 + " good", "pump-1 read 1 1 1 " + "00" * 30000, 'name a.b input Unsigned16 2 1 1 0 - "" ""', "a.b = " + "8" * 60000 + " bad"):
            picture.take(reader.read(text))
        json.dumps(picture.snapshot(), allow_nan=False)

    def check_ports(self):
        """The ports of a record of the standard: PDPortDataReal alone, and within PDRealData; cut off at each place."""
        def block(kind, body):
            return struct.pack(">HHBB", kind, len(body) + 2, 1, 0) + body

        def padded(octets, front):
            return octets + bytes(-(len(octets) + front) % 4)
        peer = padded(b"\x08port-003\x08switch-a", 0)
        one = padded(struct.pack(">HHH", 0, 0, 0x8001) + b"\x08port-001\x01", 6)
        port = block(0x020F, padded(one + peer, 6) + bytes(4) + bytes.fromhex("020000000009") + bytes(2) + bytes(16))
        alone = block(0x020F, struct.pack(">HHH", 0, 0, 0x8002) + b"\x08port-002\x00" + bytes(2) + bytes(16))
        record = block(0x0400, struct.pack(">HIHH", 0, 0, 0, 0x8001) + port) + block(0x0400, struct.pack(">HIHH", 0, 0, 0, 0x8002) + alone)
        wanted = [Port(0, 0x8001, "port-001", (Peer("port-003", "switch-a", "02:00:00:00:00:09"),)), Port(0, 0x8002, "port-002", ())]
        same("the ports", (read_ports(record), read_ports(port), read_ports(b"")), (wanted, wanted[:1], []))
        for length in range(6, len(port)):
            refusal(ValueError, "not whole", read_ports, port[:length])

    def check_picture(self):
        """A recorded session: what the snapshot and the changes have; nothing in it grows with the number of lines."""
        now = [100.0]
        picture, reader = state.PlantState(most=10, clock=lambda: now[0]), lines.Reader()
        changes = picture.subscribe(most=5)

        def take(*texts):
            for text in texts:
                picture.take(reader.read(text))
        take("controller 02:00:00:00:00:02 on c0, for the station 'pump-1', interval 1000 us", "state looking", "waiting 5 s: no station",
             'name pump-1.level input Unsigned16 2 1 1 0 - "mm" "Level"', 'name pump-1.full input Boolean 1 1 1 0 7 "" ""')
        same("it waits", (picture.station("pump-1")["waiting"], picture.signal("pump-1.level")["good"]), ("no station", False))
        now[0] = 200.0
        take("state exchanging", "pump-1.level = 7 good 150.500000", "pump-1.full = true good", "station pump-1 02:00:00:00:00:01 192.168.0.2 1000 exchanging",
             "cyclic received 9 lost 1", "interval count 9 p50 1000 p99 1010 max 2000 us", "link down (x)", "lines lost 3",
             "neighbour 02:00:00:00:00:01 port 'port-001' of 'pump-1'")
        station, shot = picture.station("pump-1"), picture.snapshot()
        same("the station", (station["state"], station["since"], station["mac"], station["address"], station["lost"], station["interval"], station["waiting"]),
             ("exchanging", 200.0, "02:00:00:00:00:01", "192.168.0.2", 1, {"p50": 1000, "p99": 1010, "max": 2000}, None))
        same("the signals", [(one["value"], one["raw"], one["good"], one["time"], one["unit"]) for one in shot["signals"].values()],
             [(7, "7", True, 150.5, "mm"), (True, "true", True, 200.0, "")])
        same("the controller", (shot["controller"]["link"], shot["controller"]["lines_lost"], shot["controller"]["neighbour"]["port"]), (False, 3, "port-001"))
        shot["stations"]["pump-1"]["state"] = "x"
        same("a snapshot is a copy", picture.station("pump-1")["state"], "exchanging")
        take("diagnosis 1 1 0 6 (wire break)")
        picture.diagnosis_listed("pump-1")
        same("the diagnosis", picture.station("pump-1")["diagnosis"], [{"slot": 1, "subslot": 1, "channel": 0, "error": 6, "text": "wire break"}])
        changes.take()
        broken = picture.subscribe(most=5, notify=lambda: 1 / 0)
        for number in range(1000):
            take(f"alarm 2 1 1 {number} c0ffee (high priority, process, USI 0001)", f"warning: {number}", f"pump-1.level = {number} good")
        shot = picture.snapshot()
        same("bounded", (len(shot["alarms"]), shot["alarms"][-1]["specifier"], shot["alarms_dropped"], len(shot["messages"])), (10, 999, 990, 10))
        taken = changes.take()
        same("a subscriber that is slow", ([(one.kind, one.key) for one in taken if one.kind == "signal"], taken[0].data["value"], len(taken), changes.dropped),
             ([("signal", "pump-1.level")], 999, 6, 1995))
        same("one whose notice fails", len(broken.take()), 6)
        picture.unsubscribe(broken)
        take(*(f"diagnosis 1 1 {number} 6 (wire break)" for number in range(2000)))
        picture.diagnosis_listed("pump-1")
        same("a list that does not end", len(picture.station("pump-1")["diagnosis"]), 1000)
        take("ended 4: no cyclic frame")
        same("its end", (picture.station("pump-1")["cause"]["text"], picture.station("pump-1")["diagnosis"]), ("no cyclic frame", []))
        picture.end("it was killed")
        shot = picture.snapshot()
        same("the end", (shot["controller"]["running"], shot["controller"]["ended"], [one["good"] for one in shot["signals"].values()]), (False, "it was killed", [False, False]))
        json.dumps(shot, allow_nan=False)
        for text, wanted in (("nan", "nan"), ("inf", "inf"), ("-inf", "-inf"), ("1e+16", 1e16)):
            same(text, values.plain(values.decode("Float32", text)), wanted)

    def python_bounds(self):
        """A controller that prints faster than it is read, that does not read, that prints what is no line, and that dies; nothing waits for it."""
        flood = written("import sys\nfor n in range(10000):\n    print(f'a.b = {n} good')\n    print('line', n)\nprint('a.c = 1 good')", most=100)
        is_soon("its end", lambda: flood.gone, 60)
        taken = list(flood)
        same("what was kept", (len(taken), taken[-1], [line for line in taken if line.startswith("a.b")], flood.queue.dropped, flood.queue.merged),
             (102, "a.c = 1 good", ["a.b = 9999 good"], 9900, 9999))
        flood.close()
        deaf = written("import time\nprint('here')\ntime.sleep(60)")
        same("it runs", deaf.get(60), "here")
        begins = time.monotonic()
        fault = refusal(nandutable.Busy, "does not read", lambda: [deaf.send("x" * 4000) for _ in range(100)])
        same(f"at once: {fault}", time.monotonic() - begins < 10, True)
        same("no line", deaf.get(0.01), None)
        deaf.close(0.5)
        same("it is killed if it does not end", (deaf.status, deaf.gone), (-15, True))
        refusal(nandutable.Gone, "was ended by signal 15", deaf.send, "x")
        odd = written("import os,time\nos.write(1, b'half'); time.sleep(0.2); os.write(1, b' line\\n\\xff\\xfe\\n\\n' + b'y' * 300000 + b'\\nlast')")
        texts = list(odd)
        same("lines in parts, octets that are no text, a long line", (texts[0], texts[1], texts[2], set(texts[3]), len(texts)), ("half line", "\ufffd\ufffd", "", {"y"}, 4))
        odd.close()
        dead = written("import sys,os\nprint('state looking')\nsys.stderr.write('nandutable-controller: no interface eth9\\n')\nsys.stdout.flush()\nos._exit(66)")
        list(dead)
        same("its end", (dead.status, dead.reason()), (66, "nandutable-controller: no interface eth9"))
        dead.close()
        refusal(ValueError, "no line feed", dead.send, "a\nb")
        refusal(nandutable.NotStarted, "No such file", nandutable.plant, "x.json", interface="eth0", controller="/no/such/program")
        refusal(nandutable.NotStarted, "no controller listens at /no/such/socket: No such file", nandutable.plant, socket="/no/such/socket")
        refusal(ValueError, "name plans and an interface", nandutable.plant, "x.json")
        controller = os.path.join(BUILD, self.kind, "nandutable-controller")
        fault = refusal(nandutable.NotStarted, "/no/such.json", nandutable.plant, "/no/such.json", interface="lo", controller=controller)
        same("its status", fault.status, 66)
        left = [thread.name for thread in threading.enumerate() if thread.name.startswith("nandutable")]
        is_soon(f"the threads have ended: {left}", lambda: not [thread for thread in threading.enumerate() if thread.name.startswith("nandutable")])

    def python_typed(self):
        """mypy --strict and pyflakes find nothing, and the package says that it has types."""
        same("py.typed", os.path.exists(os.path.join(PYTHON, "nandutable", "py.typed")), True)
        told = []
        for words in (("mypy", "--strict", "--cache-dir", os.devnull, "nandutable"), ("pyflakes3", "nandutable", os.path.join(HOST, "demo"))):
            if shutil.which(words[0]) is None:
                told.append(f"without {words[0]}")
                continue
            ran = subprocess.run(words, cwd=PYTHON, capture_output=True, text=True, timeout=300)
            same(ran.stdout + ran.stderr, ran.returncode, 0)
            told.append(words[0])
        return ", ".join(told)

    # ---- on a wire

    def python(self, wire, *plans, **more):
        """A plant whose controller is at the end c0."""
        return nandutable.plant(*plans, interface="c0", controller=os.path.join(BUILD, self.kind, "nandutable-controller"),
                                prefix=("ip", "netns", "exec", wire.controller), **more)

    def octets_plan(self, table, length):
        """A station with as many octets of input and output, and a signal in each direction for each type, length and bit of the table."""
        with open(self.signal_plan("pump-1"), encoding="utf-8") as file:
            catalogue = json.load(file)
        for module, way in zip(catalogue["ModuleItem"], ("Input", "Output")):
            module["VirtualSubmoduleItem"][0]["IOData"][way] = [{"DataType": "OctetString", "Length": length}]
        signals = []
        for number, (kind, octets, at, bit) in enumerate(table):
            for way, slot in (("Input", 1), ("Output", 2)):
                signals.append({"Name": f"{way.lower()}_{number}", "Direction": way, "Slot": slot, "Subslot": 1, "Octet": at, "Type": kind,
                                "Unit": f"u{number}", "Text": f'{kind} "{number}"',
                                **({"Bit": bit} if bit is not None else {"Length": octets} if kind in types.SIZED else {})})
        catalogue["Project"]["Signals"] = signals
        path = self.path("octets.json")
        with open(path, "w", encoding="utf-8") as file:
            json.dump(catalogue, file)
        return path

    def stations(self, wire):
        """The line `stations` with two plans and with one, and a controller that ends with its input."""
        device, plans = self.device(wire, "stations"), (self.signal_plan("pump-1"), self.signal_plan("pump.2", None, "192.168.0.3"))
        controller = self.controller(wire, *plans)
        controller.expect("pump-1 state exchanging", 60)
        wanted = ["pump-1 controller 02:00:00:00:00:02 on c0, for the station 'pump-1', interval 1000 us", "pump.2 controller 02:00:00:00:00:02 on c0, for the station 'pump.2', interval 1000 us",
                  "link up", "station pump-1 02:00:00:00:00:01 192.168.0.2 1000 exchanging", "station pump.2 - 192.168.0.3 1000 looking", "stations 2"]
        same("of two plans", self.answer_to_stations(controller), wanted)
        controller.ask("pump-1 stop", "pump-1 ended 7")
        same("one that was stopped", self.answer_to_stations(controller)[3], "station pump-1 02:00:00:00:00:01 192.168.0.2 1000 ended 7")
        controller.ask("stations pump-1", "wrong: stations ")
        controller.process.stdin.close()
        time.sleep(0.5)
        same("it goes on without its input", controller.process.poll(), None)
        same("its status", controller.end(), 7)
        controller = self.controller(wire, plans[0], "--end-with-input")
        controller.expect("state exchanging", 60)
        same("of one plan", self.answer_to_stations(controller), ["controller 02:00:00:00:00:02 on c0, for the station 'pump-1', interval 1000 us", "link up",
                                                                  "station pump-1 02:00:00:00:00:01 192.168.0.2 1000 exchanging", "stations 1"])
        device.expect("phase exchanging")
        controller.process.stdin.close()
        same("it ends with its input", controller.wait(), 7)
        same("and says so", controller.has("ended 7: stopped"), True)
        device.expect("phase none")
        device.end()

    def answer_to_stations(self, controller):
        """The lines of the answer, but for the neighbour, who may be heard or not."""
        begins = len(controller.lines)
        controller.ask("stations", "stations ")
        told = [line for _, line in controller.lines[begins:]]
        return [line for line in told[:next(at for at, line in enumerate(told) if line.startswith("stations ")) + 1]
                if " controller " in f" {line}" or line.split()[0] in ("link", "station", "stations")]

    def python_types(self, wire):
        """Each type and bit of the tables from the octets at the device to a value of Python, and from the value to the octets."""
        if lacks := self.has_no_signals():
            return lacks
        table, bits = rows("values.txt"), rows("bits.txt")
        kinds = sorted({(kind, len(octets) // 2, 0, None) for kind, octets, *_ in table}) + sorted(
            {("Boolean", 1, *types.place_of_bit(kind, len(octets) // 2, int(number))) for kind, number, octets, *_ in bits})
        length = max(size for _, size, *_ in kinds)
        path = self.octets_plan(kinds, length)
        device = self.device(wire, "python-types", "--station", path)
        with self.python(wire, path) as plant:
            station = plant["pump-1"]
            for number, (kind, size, at, bit) in enumerate(kinds):
                found = plant.state.signal(f"pump-1.input_{number}")
                same(f"the signal {number}", tuple(found[key] for key in ("type", "length", "octet", "bit", "unit", "text", "direction", "slot")),
                     (kind, size, at, bit, f"u{number}", f'{kind} "{number}"', "input", 1))
            for kind, octets, text, source in table:
                number = kinds.index((kind, len(octets) // 2, 0, None))
                wanted = wanted_value(kind, octets, text)
                device.ask(f"input 1 1 {octets.ljust(2 * length, '0')}", "note done")
                is_there = plant.state.signal
                raw = text
                is_soon(f"{kind} {octets} is {raw}", lambda: is_there(f"pump-1.input_{number}")["raw"] == raw)
                came = station[f"input_{number}"]
                same(f"{kind} {octets} is {came!r}, and should be {wanted!r} ({source})", is_same_value(kind, came, wanted), True)
                self.set_back(device, station, f"output_{number}", wanted, "01" if kind == "Boolean" and wanted else octets)
            for kind, place, octets, text, source in bits:
                at, bit = types.place_of_bit(kind, len(octets) // 2, int(place))
                number = kinds.index(("Boolean", 1, at, bit))
                device.ask(f"input 1 1 {octets.ljust(2 * length, '0')}", "note done")
                is_soon(f"bit {place} of {kind} {octets} is {text} ({source})", lambda: station[f"input_{number}"] is (text == "true"))
        same("its end", plant.connection.status, 7)
        device.end()
        return f"{len(table)} values in both directions, {len(bits)} bits"

    def set_back(self, device, station, name, value, octets):
        """Sets an output, and looks for its octets at the device. A value that it has already is not printed again."""
        device.seen = len(device.lines)
        station[name] = 1 if isinstance(value, int) and not isinstance(value, bool) and value == 0 else value
        if isinstance(value, float) and value != value:
            octets = "7fc00000" if len(octets) == 8 else "7ff8000000000000"
        if isinstance(value, int) and value == 0:
            station[name] = value
        begins = device.seen

        def has_come():
            told = [line for _, line in device.lines[:] if line.startswith("output 2 1 ")]
            return told and told[-1][len("output 2 1 "):].startswith(octets)
        is_soon(f"{name} = {value!r} is {octets} at the device: {device.lines[begins:]}", has_come)

    def flow_plan(self):
        return self.from_gsdml("examples/gsdml/*FlowStation*.xml", "flow-7", "--slot", "2=FLOW4", "--slot", "3=CARRIER", "--submodule", "3:1=TEXT16")

    def python_plant(self, wire):
        """The flow station by the documents: values, setting, waits, alarms, diagnosis, records, a restart, and the end of the device."""
        if lacks := self.has_no_signals():
            return lacks
        path = self.flow_plan()
        refusal(nandutable.TimedOut, "flow-7 does not exchange data within 0.5 s: the state is looking", self.python, wire, path, ready=0.5)
        device = self.device(wire, "python", "--station", path, name="flow-7")
        unknown = []
        with self.python(wire, path) as plant:
            hear = plant._follower._on_line
            plant._follower._on_line = lambda line: (hear(line), unknown.append(line.text) if isinstance(line, lines.Unknown) else None)
            flow = plant["flow-7"]
            same("the stations", ([station.name for station in plant], "flow-7" in plant, len(plant), flow.state, repr(flow)), (["flow-7"], True, 1, "exchanging", "<station 'flow-7', exchanging>"))
            self.check_values(device, flow)
            self.check_refusals(plant, flow)
            self.check_waits(device, plant, flow)
            self.check_records(device, plant, flow)
            info = flow.info
            same("the station", (info["mac"], info["address"], info["interval_us"], info["lost"]), ("02:00:00:00:00:01", "192.168.0.2", 1000, 0))
            # The ports are read each ten seconds, and the device hears of its neighbour each five.
            is_soon("its port, and its neighbour", lambda: [(port["name"], [(peer["port"], peer["station"]) for peer in port["peers"]]) for port in flow.info["ports"]] ==
                    [("port-001", [("port-001", "plc")])], 40)
            device.end(signal.SIGKILL)
            refusal((nandutable.Lost, nandutable.Gone), "no cyclic frame of the device came within the data hold time", flow.wait_change, "slot2_flow", 20)
            is_soon("its end", lambda: not plant.running)
            fault = refusal(nandutable.Gone, "no cyclic frame of the device came within the data hold time", flow.wait_change, "slot2_flow", 20)
            same(f"its status: {fault}", fault.status, 4)
            refusal(nandutable.BadQuality, "flow-7.slot2_flow is not good", lambda: flow.slot2_flow)
            refusal(nandutable.Gone, "has ended", setattr, flow, "slot3_sub3_lamp", 1)
        same("each line is known", unknown, [])

    def check_values(self, device, flow):
        device.ask("input 2 1 414800000000002a01", "note done")
        same("a change", flow.wait_until("slot2_flow", lambda value: value == 12.5, 20), 12.5)
        is_soon("the others of its frame", lambda: (flow.slot2_flow, flow["slot2_total"], flow.slot2_pipe_full, flow.slot2_state) == (12.5, 42, True, 1))
        reading = flow.signal("slot2_flow")
        same("a reading", (str(reading), reading.good, reading.unit, reading.type, reading.direction, abs(reading.time - time.time()) < 30),
             ("flow-7.slot2_flow = 12.5 l/s", True, "l/s", "Float32", "input", True))
        flow.slot3_sub1_display = 'Hello, "pump" 1'
        flow.slot4_valve_3 = True
        flow["slot3_sub3_lamp"] = 255
        device.expect("output 3 1 " + b'Hello, "pump" 1'.ljust(16, bytes(1)).hex())
        flow.slot4_valves = nandutable.Raw("0x0f")
        device.expect("output 4 1 0f")
        is_soon("the outputs have their values", lambda: (flow.slot3_sub1_display, flow.slot4_valve_4, flow.slot4_valves) == ('Hello, "pump" 1', True, 15))
        same("each signal", [reading.name for reading in flow][:3], ["flow-7.slot2_flow", "flow-7.slot2_total", "flow-7.slot2_state"])

    def check_refusals(self, plant, flow):
        refusal(nandutable.Refused, "Unsigned8 takes 0 to 255", setattr, flow, "slot3_sub3_lamp", 256)
        refusal(nandutable.Refused, "Unsigned8 takes 0 to 255", setattr, flow, "slot3_sub3_lamp", 1.5)
        refusal(nandutable.Refused, "VisibleString takes at most 16", setattr, flow, "slot3_sub1_display", "seventeen letters")
        refusal(nandutable.Refused, "it is an input", setattr, flow, "slot2_flow", 1.0)
        refusal(nandutable.NoSuchName, "has no signal 'depth'", setattr, flow, "depth", 1)
        refusal(nandutable.Refused, "has no blanks", plant.commands.set, "flow-7.slot3_sub3_lamp 1", 1)
        refusal(ValueError, "no line feed", setattr, flow, "slot3_sub1_display", "a\nstop")
        refusal(nandutable.NoSuchName, "flow-7 has no signal 'depth'; there are slot2_flow, slot2_total", lambda: flow.depth)
        refusal(nandutable.NoSuchName, "there is no station 'pump-9'; there are flow-7", lambda: plant["pump-9"])
        same("hasattr", (hasattr(flow, "depth"), hasattr(flow, "slot2_flow")), (False, True))
        refusal(nandutable.TimedOut, "flow-7.slot2_flow is 12.5 (within 0.05 s)", flow.wait_until, "slot2_flow", lambda value: value > 13, 0.05)
        refusal(nandutable.TimedOut, "flow-7 sends no alarm", flow.wait_alarm, 0.05)

    def check_waits(self, device, plant, flow):
        later = threading.Timer(1, lambda: device.say("input 2 1 415800000000002b00"))  # when this program waits
        later.start()
        same("the next value", flow.wait_change("slot2_flow", 20), 13.5)
        device.ask("status 2 1 bad", "note done")
        is_soon("the quality", lambda: not flow.signal("slot2_flow").good)
        refusal(nandutable.BadQuality, "flow-7.slot2_flow is not good: the device says that its data are bad", lambda: flow.slot2_flow)
        device.ask("status 2 1 good", "note done")
        same("good again", flow.wait_until("slot2_flow", lambda _: True, 20), 13.5)
        for number in range(3):
            device.ask(f"alarm 2 1 c0ffe{number}", "note done")
            is_soon("an alarm", lambda: len(plant.state.snapshot()["alarms"]) == number + 1)
        alarms = [flow.wait_alarm(5) for _ in range(2)] + [plant.wait_alarm(5)]
        same("alarms in order", [(alarm.octets.hex(), alarm.slot, alarm.priority) for alarm in alarms], [(f"c0ffe{number}", 2, "high") for number in range(3)])
        later = threading.Timer(1, lambda: device.say("diagnosis 2 1 0 6 appears"))
        later.start()
        same("a diagnosis", flow.wait_diagnosis(20), [nandutable.Diagnosis(2, 1, 0, 6, "wire break")])
        device.ask("diagnosis 2 1 0 6 disappears", "note done")
        is_soon("it disappears", lambda: flow.diagnosis == [])

    def check_records(self, device, plant, flow):
        same("I&M0", flow.read(0, 1, 0xAFF0)[:6].hex(), "002000380100")
        flow.write(0, 1, 0xAFF1, bytes.fromhex("0021003801006162") + b" " * 52)
        same("I&M1", flow.read(0, 1, 0xAFF1)[6:8], b"ab")
        refusal(nandutable.Refused, "PNIOStatus DE 80 B0 00: access: invalid index", flow.read, 0, 1, 40)
        refusal(nandutable.Refused, "write SLOT SUBSLOT INDEX HEX", flow.write, 0, 1, 0xAFF1, bytes(1309))
        told = []
        threads = [threading.Thread(target=lambda: told.append(flow.read(0, 1, 0xAFF0)[:4].hex())) for _ in range(5)]
        for thread in threads:
            thread.start()
        for thread in threads:
            thread.join(20)
        same("several readers at once", told, ["00200038"] * 5)
        flow.restart(20)
        same("it exchanges again", flow.state, "exchanging")
        same("the outputs are set again", flow.wait_until("slot3_sub3_lamp", lambda lamp: lamp == 255, 20), 255)
        same("the inputs come again", flow.wait_until("slot2_flow", lambda value: value == 13.5, 20), 13.5)

    def python_several(self, _):
        """Three stations of one controller: names, a station that is not there, one that ends and comes back."""
        if lacks := self.has_no_signals():
            return lacks
        with Plant(2, "y") as wire:
            paths = [self.signal_plan(f"pump.{number}", self.TANK, f"192.168.0.{10 + number}") for number in (1, 2, 3)]
            devices = {}
            for number, place in wire.places.items():
                devices[number] = Program(place, "d0", "d0", "--flash", self.path(f"python-{number}"), kind=self.kind)
                devices[number].expect("boot ok")
                self.named_at(wire, number)
            with self.python(wire, *paths, ready=None, retry=1) as plant:
                one, two, three = (plant[f"pump.{number}"] for number in (1, 2, 3))
                one.wait_state("exchanging", 30)
                two.wait_state("exchanging", 30)
                for number, station in ((1, one), (2, two)):
                    devices[number].ask(f"input 1 1 000{number}", "note done")
                    same(f"pump.{number}", station.wait_until("level", lambda level: level == number, 20), number)
                    station.speed = -number
                    devices[number].expect(f"output 2 1 {65536 - number:04x}")
                    same(f"the record of pump.{number}", station.read(0, 1, 0xAFF0)[:4].hex(), "00200038")
                refusal(nandutable.NotExchanging, "no data is exchanged, the state is looking", setattr, three, "speed", 1)
                refusal(nandutable.NotExchanging, "no data is exchanged, the state is looking", three.read, 0, 1, 0xAFF0)
                refusal(nandutable.BadQuality, "pump.3.level is not good: no data is exchanged, the state is looking", lambda: three.level)
                for number in (2, 1, 2):
                    devices[number].ask("alarm 1 1 c0ffee", "note done")
                    is_soon("the alarm", lambda: plant.state.snapshot()["alarms"][-1:] and plant.state.snapshot()["alarms"][-1]["station"] == f"pump.{number}")
                same("their stations", [plant.wait_alarm(5).station for _ in range(3)], ["pump.2", "pump.1", "pump.2"])
                plant.commands.stop("pump.1")
                one.wait_state("ended", 20)
                same("the other goes on", (two.state, two.level), ("exchanging", 2))
                one.restart(30)
                same("the first again", one.wait_until("level", lambda level: level == 1, 20), 1)
                is_soon("neither has lost a frame that the other one's end explains", lambda: two.info["received"] > 100)
            for device in devices.values():
                device.end()

    TANK = [{"Name": "level", "Direction": "Input", "Slot": 1, "Subslot": 1, "Octet": 0, "Type": "Unsigned16", "Unit": "mm"},
            {"Name": "speed", "Direction": "Output", "Slot": 2, "Subslot": 1, "Octet": 0, "Type": "Integer16"}]

    def named_at(self, wire, number):
        """Names the station at a place, by a tool of Python at the controller's end."""
        from wire import answer, set_name
        link = wire.socket("c0")
        came = answer(link, set_name(f"pump.{number}", 7, target=device_of(number)), 0xFEFD)
        link.close()
        same("the name is set", came is not None, True)

    def module_prints(self, *words, status=0):
        """What `nandutable` prints with these words, in this process."""
        printed, told = io.StringIO(), io.StringIO()
        with contextlib.redirect_stdout(printed), contextlib.redirect_stderr(told):
            try:
                came = program.main(words)
            except SystemExit as end:
                came = end.code
        same(f"{words}: {printed.getvalue()}{told.getvalue()}", came, status)
        return printed.getvalue() if status == 0 else told.getvalue()

    def python_words(self, wire):
        """`python3 -m nandutable`: each of its commands, over the socket of a controller that runs already, and with one of its own."""
        if lacks := self.has_no_signals():
            return lacks
        path, plan = self.path("words-lines"), self.signal_plan("pump-1", self.TANK)
        self.module_prints(status=64)
        for words in (("--socket", path, "--interface", "x"), ("--socket", path, plan), ("--interface", "x"), ("--socket", path, "colour"), ("--socket", path, "set", "a"),
                      ("--sock", path), ("--socket", path, "--assign", "02:00:00:00:00:01")):
            same("it says what it takes", "--help says" in self.module_prints(*words, status=64), True)
        device = self.device(wire, "python-words")
        within = ["ip", "netns", "exec", wire.controller]
        environment = {**os.environ, "PYTHONPATH": PYTHON, "NANDUTABLE_CONTROLLER": os.path.join(BUILD, self.kind, "nandutable-controller")}
        ran = subprocess.run([*within, sys.executable, "-m", "nandutable", "--interface", "c0", plan], capture_output=True, text=True, timeout=60, env=environment)
        same(f"its own controller: {ran.stderr}", (ran.returncode, ran.stdout), (0, "pump-1.level = 0 mm\npump-1.speed = 0\n"))
        self.sets_alone(device, [*within, sys.executable, "-m", "nandutable", "--interface", "c0"], environment)
        controller = self.controller(wire, plan, "--signals", "--times", "--socket", path)
        device.say("input 1 1 0102")
        same("names", [line.split()[:4] for line in self.module_prints("--socket", path, "names").splitlines()],
             [["pump-1.level", "input", "Unsigned16", "mm"], ["pump-1.speed", "output", "Integer16"]])
        same("set", self.module_prints("--socket", path, "set", "speed", "-5"), "")
        device.expect("output 2 1 fffb")
        is_soon("values", lambda: self.module_prints("--socket", path) == "pump-1.level = 258 mm\npump-1.speed = -5\n")
        one = json.loads(self.module_prints("--socket", path, "--json", "values", "pump-1.level"))
        same("as JSON", (one["name"], one["value"], one["good"]), ("pump-1.level", 258, True))
        same("refused", "Integer16 takes -32768 to 32767" in self.module_prints("--socket", path, "set", "pump-1.speed", "40000", status=1), True)
        same("no such name", "has no signal 'depth'" in self.module_prints("--socket", path, "values", "depth", status=66), True)
        same("the nearest name", "has no signal 'spead'; the nearest: speed" in self.module_prints("--socket", path, "values", "spead", status=66), True)
        same("of a set", "has no signal 'spead'; the nearest: speed" in self.module_prints("--socket", path, "set", "spead", "1", status=66), True)
        same("of a get", "has no signal 'spead'; the nearest: speed" in self.module_prints("--socket", path, "get", "spead", status=66), True)
        same("of another station", "there is no signal 'pump-2.speed'; the nearest: pump-1.speed" in self.module_prints("--socket", path, "get", "pump-2.speed", status=66), True)
        same("a get", self.module_prints("--socket", path, "get", "speed"), "pump-1.speed = -5\n")
        same("no such command", "no command 'gett'; did you mean get?" in self.module_prints("--socket", path, "gett", "speed", status=64), True)
        same("nor a plan", "no command 'valuse'; did you mean values? There is no plan of this name either" in self.module_prints("--interface", "c0", plan, "valuse", status=64), True)
        same("after --", self.module_prints("--socket", path, "--", "values", "speed"), "pump-1.speed = -5\n")
        same("a record", self.module_prints("--socket", path, "read", "pump-1", "0", "1", "0xAFF0")[:8], "00200038")
        same("a refused one", "invalid index" in self.module_prints("--socket", path, "read", "pump-1", "0", "1", "40", status=1), True)
        self.module_prints("--socket", path, "write", "pump-1", "0", "1", "0xAFF1", "002100380100" + "20" * 54)
        # The device hears of its neighbour each five seconds.
        is_soon("its neighbour", lambda: "port 'port-001' to 'port-001' of 'plc'" in self.module_prints("--socket", path, "stations"))
        told = self.module_prints("--socket", path, "stations")
        same(told, told.startswith("pump-1  exchanging  02:00:00:00:00:01  192.168.0.2  "), True)
        shot = json.loads(self.module_prints("--socket", path, "snapshot"))
        same("the snapshot", (shot["stations"]["pump-1"]["state"], shot["signals"]["pump-1.level"]["value"]), ("exchanging", 258))
        with subprocess.Popen([sys.executable, "-m", "nandutable", "--socket", path, "watch", "level"], stdout=subprocess.PIPE, text=True,
                              env={**os.environ, "PYTHONPATH": PYTHON}) as watching:
            same("watch", watching.stdout.readline(), "pump-1.level = 258 mm\n")
            device.say("input 1 1 0203")
            is_soon("a change", lambda: watching.stdout.readline() == "pump-1.level = 515 mm\n")
            watching.send_signal(signal.SIGINT)
            same("its end", watching.wait(10), 0)
        same("its status", controller.end(), 7)
        # A controller that has no signals: stations, records and diagnoses.
        controller = self.controller(wire, plan, "--socket", path)
        with nandutable.plant(socket=path) as plant:
            station = plant["pump-1"]
            same("a record without signals", station.read(0, 1, 0xAFF0)[:4].hex(), "00200038")
            same("no diagnosis", (plant.commands.diagnosis("pump-1"), station.signals, station.info["state"]), ([], [], "exchanging"))
            refusal(nandutable.NoSuchName, "pump-1 has no signal 'level'; it has none (the controller takes --signals)", lambda: station.level)
            device.ask("diagnosis 1 1 3 6 appears", "note done")
            is_soon("its diagnosis", lambda: [one.channel for one in station.diagnosis] == [3])
        controller.end()
        same("no controller", "no controller listens at" in self.module_prints("--socket", path, status=2), True)
        device.end()

    def sets_alone(self, device, words, environment):
        """`set` with a controller that ends with it: each value is at the device before, also if the next frame is far away."""
        slow = self.signal_plan("pump-1", self.TANK)
        with open(slow, encoding="utf-8") as file:
            catalogue = json.load(file)
        catalogue["Project"].update(SendClockFactor=32, ReductionRatio=128, DataHoldFactor=60)
        with open(slow, "w", encoding="utf-8") as file:
            json.dump(catalogue, file)
        for number in (7, 8, 9):
            ran = subprocess.run([*words, slow, "set", "speed", str(number)], capture_output=True, text=True, timeout=90, env=environment)
            same(f"set alone: {ran.stderr}", (ran.returncode, ran.stdout), (0, "pump-1.speed was sent. The relation ends with this command, and the output is 0 again; a controller with --socket keeps it\n"))
            device.expect(f"output 2 1 {number:04x}$")
            device.expect("phase none")
        ran = subprocess.run([*words, slow, "get", "spead"], capture_output=True, text=True, timeout=90, env=environment)
        same(f"no such name: {ran.stderr}", (ran.returncode, "pump-1 has no signal 'spead'; the nearest: speed" in ran.stderr), (66, True))

    def python_letters(self, wire):
        """`watch` where the output lacks a letter of a unit: it is written by its number, and the program goes on."""
        if lacks := self.has_no_signals():
            return lacks
        path, plan = self.path("letters-lines"), self.signal_plan("pump-1", [{**self.TANK[0], "Unit": "\u00b0C"}])
        device = self.device(wire, "python-letters")
        controller = self.controller(wire, plan, "--signals", "--socket", path)
        with nandutable.plant(socket=path):
            pass
        for number, encoding, wanted in ((7, "ascii", "\\xb0C"), (8, "utf-8", "\u00b0C")):
            with subprocess.Popen([sys.executable, "-m", "nandutable", "--socket", path, "watch", "level"], stdout=subprocess.PIPE, stderr=subprocess.PIPE, encoding="utf-8",
                                  env={**os.environ, "PYTHONPATH": PYTHON, "PYTHONIOENCODING": encoding}) as watching:
                same(encoding, watching.stdout.readline().split()[-1], wanted)
                device.say(f"input 1 1 {number:04x}")
                is_soon("a change", lambda: watching.stdout.readline().split()[-2:] == [str(number), wanted])
                watching.send_signal(signal.SIGINT)
                same("its end", watching.wait(10), 0)
        controller.end()
        device.end()

    def counted(self, plant):
        """The cyclic frames that were received and lost."""
        plant.commands.statistics()
        info = next(iter(plant)).info
        return info["received"], info["lost"]

    def python_ends(self, wire):
        """Programs of Python that are killed, stopped and started again: their controllers release, the exchange of one that runs alone loses no frame."""
        if lacks := self.has_no_signals():
            return lacks
        path, plan = self.path("ends-lines"), self.signal_plan("pump-1", self.TANK)
        device = self.device(wire, "python-ends")
        text = ("import nandutable, sys, time\n"
                  "with nandutable.plant(sys.argv[1], interface='c0', controller=sys.argv[2], prefix=sys.argv[3:]) as plant:\n"
                  "    print(plant.connection.pid, flush=True)\n    time.sleep(60)\n")
        words = [sys.executable, "-c", text, plan, os.path.join(BUILD, self.kind, "nandutable-controller"), "ip", "netns", "exec", wire.controller]
        for number in (signal.SIGKILL, signal.SIGINT):
            with subprocess.Popen(words, stdout=subprocess.PIPE, stderr=subprocess.DEVNULL, env={**os.environ, "PYTHONPATH": PYTHON}, text=True) as script:
                pid = int(script.stdout.readline())
                script.send_signal(number)
                script.wait(60)
            is_soon("its controller ends", lambda: not self.runs(pid))
        # The device is free at once: a controller that was not released would be refused for a minute.
        controller = self.controller(wire, plan, "--signals", "--times", "--socket", path)
        with nandutable.plant(socket=path, ready=20) as plant:
            before = self.counted(plant)
            self.killed_readers(device, path)
            received, lost = self.counted(plant)
            same(f"frames lost, {before[0]} and {received} received", (lost, before[1], received > before[0]), (0, 0, True))
            same("the newest value", plant["pump-1"].wait_until("level", lambda level: level == 0xFFFF, 10), 0xFFFF)
            controller.process.kill()
            refusal(nandutable.Gone, "has closed its socket", plant["pump-1"].wait_change, "level", 10)
        controller.wait()
        device.end()
        return f"{received} frames received, {lost} lost"

    def python_fill(self, wire):
        """The script of README fills the tank of the demo, and stops the pump."""
        if lacks := self.has_no_signals():
            return lacks
        device, top = self.device(wire, "python-fill"), self.path("top")
        os.makedirs(os.path.join(top, "host", "build"))
        controller = self.controller(wire, os.path.join(HOST, "demo", "pump.json"), "--signals", "--times", "--retry", "1", "--socket", os.path.join(top, "host/build/demo.lines"))
        talk_to(os.path.join(top, "host/build/demo.lines"), 60).close()  # the controller listens
        tank = Tank(device, level=150.0)
        ran = subprocess.run([sys.executable, os.path.join(HOST, "demo", "fill.py")], cwd=top, env={**os.environ, "PYTHONPATH": PYTHON}, capture_output=True, text=True, timeout=60)
        told = [line.split() for line in ran.stdout.splitlines()]
        same(f"the script: {ran.stdout}{ran.stderr}", (ran.returncode, [words[0] for words in told]), (0, ["level"] * 5 + ["full"]))
        same(f"the marks: {told}", all(int(words[1]) >= mark for words, mark in zip(told[1:5], (200, 300, 400, 500))), True)
        device.expect("output 2 1 05dc")
        device.expect("output 2 1 0000")
        is_soon("the level does not rise any more", lambda: tank.speed == 0 and tank.level < 700)
        tank.close()
        controller.end()
        device.end()
        return f"to {told[4][1]} mm"

    def runs(self, pid):
        """Whether a process runs; one that has ended and was not waited for does not."""
        try:
            with open(f"/proc/{pid}/stat", encoding="ascii") as file:
                return file.read().rpartition(")")[2].split()[0] != "Z"
        except OSError:
            return False

    def killed_readers(self, device, path):
        """While values change: programs on the socket that are killed and started again, and one that never reads."""
        asleep = talk_to(path)
        asleep.sendall(b"names\nget *\n" * 20)
        watcher = [sys.executable, "-m", "nandutable", "--socket", path, "watch"]
        environment = {**os.environ, "PYTHONPATH": PYTHON}
        for end in (signal.SIGKILL, signal.SIGSTOP, signal.SIGKILL):
            watching = subprocess.Popen(watcher, stdout=subprocess.DEVNULL, stderr=subprocess.DEVNULL, env=environment)
            for number in range(60):
                device.ask(f"input 1 1 {number * 257:04x}", "note done")
                time.sleep(0.01)
            watching.send_signal(end)
            for number in range(20):
                device.ask(f"input 1 1 {number * 257 + 1:04x}", "note done")
                time.sleep(0.01)
            watching.kill()
            watching.wait(10)
        device.ask("input 1 1 ffff", "note done")
        asleep.close()
