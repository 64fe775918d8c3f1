"""Tests of signals: `host/test/run values signal_faults signals signals_of_several signals_slow`."""

import json
import os
import random
import re
import shutil
import struct
import subprocess
import sys
import tempfile
import time

import dce
import peer
from wire import BUILD, HERE, TOP, Program, awaited, talk_to

sys.path.insert(0, os.path.join(TOP, "tools"))
from planning import signals as launcher, types  # noqa: E402: the top of the repository is not on the path before

SCAPY_PYTHON = "/usr/bin/python3"
# The formats of PROFIdrive's parameters (base mode parameter access) by the DataType, and the octets that fill them up to four.
FORMATS = {"Integer8": 2, "Integer16": 3, "Integer32": 4, "Unsigned8": 5, "Unsigned16": 6, "Unsigned32": 7, "Float32": 8}


def same(what, came, wanted):
    if came != wanted:
        raise AssertionError(f"{what}: {came!r}, and should be {wanted!r}")


def rows(name):
    with open(os.path.join(HERE, name), encoding="utf-8") as file:
        return [line.rstrip("\n").split("\t") for line in file if not line.startswith("#")]


def asked(lines):
    """What the program for values answers."""
    ran = subprocess.run([os.path.join(BUILD, "values")], input="".join(f"{line}\n" for line in lines), capture_output=True, text=True, timeout=120)
    same("values", (ran.returncode, ran.stderr), (0, ""))
    return ran.stdout.splitlines()


# ---- Readings by other programs

def by_scapy(wanted):
    """The numbers that fields of Scapy read: of each pair, a field and octets in hex."""
    script = ("import sys\nfrom scapy.fields import *\n"
              "for line in sys.stdin:\n    name, octets = line.split()\n"
              "    field = StrFixedLenField('x', b'', len(octets) // 2) if name == 'StrFixedLenField' else globals()[name]('x', 0)\n"
              "    rest, value = field.getfield(None, bytes.fromhex(octets))\n    print(repr(value) if not isinstance(value, bytes) else value.hex())\n")
    ran = subprocess.run([SCAPY_PYTHON, "-c", script], input="".join(f"{field} {octets}\n" for field, octets in wanted), capture_output=True, text=True, timeout=120)
    return ran.stdout.splitlines() if ran.returncode == 0 else None


def drive_frame(kind, octets):
    """A Write of record 0xB02E: a change of a parameter of PROFIdrive, with a value of a DataType."""
    request = struct.pack(">BBBB BBHH BB", 1, 2, 0, 1, 0x10, 1, 1, 0, FORMATS[kind], 1) + octets.ljust(4, b"\0")
    block = struct.pack(">HHBBH16sIHHHHI24s", 0x0008, 60, 1, 0, 1, bytes(16), 0, 2, 1, 0, 0xB02E, len(request), bytes(24)) + request
    call = dce.packet(dce.REQUEST, dce.DEVICE_INTERFACE, 1, 0, 3, struct.pack(">IIIII", *[len(block)] * 3, 0, len(block)) + block, is_little=False)
    return bytes.fromhex("0200000000010200000000020800") + peer.internet(peer.address_of("192.168.0.1"), peer.address_of("192.168.0.2"), call)


def cyclic_frame(status):
    return bytes.fromhex("0200000000010200000000028892c001") + bytes(40) + struct.pack(">HBB", 0, status, 0)


def alarm_frame(specifier):
    """An alarm of high priority: RTA-PDU, and an AlarmNotification without octets of its own."""
    block = struct.pack(">HHBBHIHHIIH", 1, 24, 1, 0, 1, 0, 1, 1, 1, 1, specifier)
    return bytes.fromhex("0200000000010200000000028892fc01") + struct.pack(">HHBBHHH", 1, 1, 0x11, 0x11, 0xFFFF, 0xFFFE, len(block)) + block


def by_tshark(wanted):
    """Of each pair, a frame and a field: the value of the field, as tshark prints it."""
    fields = sorted({field for _, field in wanted})
    with tempfile.NamedTemporaryFile(suffix=".pcap") as file:
        file.write(struct.pack("<IHHiIII", 0xA1B2C3D4, 2, 4, 0, 0, 65535, 1))
        for number, (frame, _) in enumerate(wanted):
            frame = frame.ljust(60, b"\0")
            file.write(struct.pack("<IIII", number, 0, len(frame), len(frame)) + frame)
        file.flush()
        words = [word for field in fields for word in ("-e", field)]
        ran = subprocess.run(["tshark", "-n", "-r", file.name, "-T", "fields", "-E", "separator=|", *words], capture_output=True, text=True, timeout=120)
    return [line.split("|")[fields.index(field)] for line, (_, field) in zip(ran.stdout.splitlines(), wanted)]


def is_number(text, value, kind):
    """Whether a printed value is the number that another program read. A float of 32 bits is compared in its octets."""
    if not kind.startswith("Float"):
        return int(text) == value
    form = ">f" if kind.startswith("Float32") else ">d"
    return struct.pack(form, float(text)) == struct.pack(form, value) or (text == "nan" and value != value)


def compare_with_scapy(table):
    wanted = []
    for kind, octets, value, source in table:
        fields = re.findall(r"\b\w+Field\b", source)
        at = 0
        for field in fields:
            length = len(octets) // 2 if field == "StrFixedLenField" and len(fields) == 1 else 2 if field == "StrFixedLenField" else \
                {"B": 1, "S": 2, "I": 4, "L": 8}.get(field.replace("Signed", "")[0], 8)
            length = 4 if field == "IEEEFloatField" else 8 if field == "IEEEDoubleField" else length
            wanted.append((kind, field, octets[2 * at:2 * (at + length)], value.rsplit("+", 1)[at != 0] if "+" in kind else value))
            at += length
    came = by_scapy([(field, octets) for _, field, octets, _ in wanted])
    if came is None:
        return "without Scapy"
    same("readings of Scapy", len(came), len(wanted))
    for (kind, field, octets, value), read in zip(wanted, came):
        if field == "StrFixedLenField":
            is_same = value == read or value == f'"{bytes.fromhex(read).decode("ascii", "replace")}"'
        else:
            is_same = is_number(value, float(read) if "IEEE" in field else int(read), "Float32" if field == "IEEEFloatField" else "Float64" if "IEEE" in field else kind)
        same(f"{kind} {octets} is {value}, and {read} by {field} of Scapy", is_same, True)
    return f"{len(wanted)} by Scapy"


def compare_with_tshark(table, bits):
    if shutil.which("tshark") is None:
        return "without tshark"
    values = [(kind, octets, value, source.split()[1]) for kind, octets, value, source in table if source.startswith("Wireshark ")]
    wanted = [(drive_frame(kind, bytes.fromhex(octets)), field) for kind, octets, _, field in values]
    named = [(number, octets, value, source.split()[1]) for _, number, octets, value, source in bits if source.startswith("Wireshark ")]
    wanted += [((cyclic_frame if len(octets) == 2 else alarm_frame)(int(octets, 16)), field) for _, octets, _, field in named]
    read = by_tshark(wanted)
    same("readings of tshark", len(read), len(wanted))
    for (kind, octets, value, field), text in zip(values, read):
        # tshark prints a float with six digits.
        is_same = abs(float(text) - float(value)) < 1e-4 if "float" in field else int(text, 16) == int(value) % (1 << 4 * len(octets))
        same(f"{kind} {octets} is {value}, and '{text}' in {field} of tshark", is_same, True)
    for (number, octets, value, field), text in zip(named, read[len(values):]):
        same(f"bit {number} of {octets} is {value}, and '{text}' in {field} of tshark", bool(int(text, 16)), value == "true")
    return f"{len(read)} by tshark"


# ---- What is compared with the rules alone

def check_lengths():
    """The lengths of the page, of the converter and of the program are the same."""
    with open(os.path.join(TOP, "docs", "PLANS.md"), encoding="utf-8") as file:
        page = file.read()
    table = page[page.index("| Type | octets |"):].split("\n\n")[0]
    told = {}
    for line in table.splitlines()[2:]:
        names, lengths = (cell.strip().split(", ") for cell in line.strip("| ").split(" | ")[:2])
        for number, name in enumerate(names):
            told[name] = lengths[number if len(lengths) > 1 else 0]
    wanted = {**{name: str(length) for name, length in types.LENGTHS.items()}, **{name: "Length" for name in types.SIZED}}
    same("the table of docs/PLANS.md", told, wanted)
    came = asked([f"length\t{name}" for name in wanted])
    same("the lengths of the program", dict(zip(wanted, came)), {name: "0" if length == "Length" else length for name, length in wanted.items()})
    same("another type", asked(["length\tFloat16"]), ["no type"])


def check_floats():
    """Floats at random: each is read back as itself, none that is shorter is, and Float64 has the digits of Python's repr."""
    rng = random.Random(69)
    singles = [rng.randbytes(4) for _ in range(4000)] + [struct.pack(">f", rng.randrange(-10000, 10000) / 100) for _ in range(1000)]
    doubles = [rng.randbytes(8) for _ in range(4000)] + [struct.pack(">d", rng.randrange(-10000, 10000) / 100) for _ in range(1000)]
    for form, kind, octets in ((">f", "Float32", singles), (">d", "Float64", doubles)):
        texts = asked([f"print\t{kind}\t{one.hex()}" for one in octets])
        back = asked([f"parse\t{kind}\t{len(octets[0])}\t{text}" for text in texts])
        for one, text, again in zip(octets, texts, back):
            value, = struct.unpack(form, one)
            if value != value:
                same(f"{one.hex()}", text, "nan")
                continue
            same(f"{kind} {one.hex()} '{text}' read by Python, by the program", (struct.pack(form, float(text)), again), (one, one.hex()))
            check_shortest(form, text, value, one)
    return len(singles) + len(doubles)


def digits_of(text):
    return re.sub(r"e.*|[-.]", "", text).strip("0")


def check_shortest(form, text, value, octets):
    """No decimal number with fewer digits is this value, and the digits of a Float64 are those of repr."""
    if value in (float("inf"), float("-inf"), 0.0):
        return
    count = len(digits_of(text))
    if form == ">d":
        same(f"the digits of {text}", digits_of(text), digits_of(repr(value)))
    elif count > 1:
        same(f"a shorter {text}", struct.pack(form, float(f"{value:.{count - 2}e}")) == octets, False)
    exponent = int(f"{value:e}".partition("e")[2]) if form == ">d" else int(f"{float(text):e}".partition("e")[2])
    same(f"the form of {text}", "e" in text, not -4 <= exponent < 16)


def check_refusals():
    """Values that do not fit, with the range of their type; and other forms that are accepted."""
    cases = (
        ("Unsigned8", 1, "Unsigned8 takes 0 to 255", ("256", "-1", "+1", "1.0", "", "a", " 1", "1 ", "0x", "0x100", "99999999999999999999", "1e1")),
        ("Unsigned64", 8, "Unsigned64 takes 0 to 18446744073709551615", ("18446744073709551616", "0x10000000000000000")),
        ("Integer8", 1, "Integer8 takes -128 to 127", ("128", "-129", "0x10", "--1", "-", "1-")),
        ("Integer64", 8, "Integer64 takes -9223372036854775808 to 9223372036854775807", ("9223372036854775808", "-9223372036854775809")),
        ("Float32", 4, "Float32 takes -3.4028235e+38 to 3.4028235e+38, nan, inf or -inf", ("1e39", "-1e39", "1,5", "0x1p3", "NaN", "infinity", "1e", ".", "", "1.5 ", "e5", "nan(1)")),
        ("Float64", 8, "Float64 takes -1.7976931348623157e+308 to 1.7976931348623157e+308, nan, inf or -inf", ("1e309", "x")),
        ("Boolean", 1, "Boolean takes true or false", ("2", "TRUE", "on", "")),
        ("N2", 2, "N2 takes -32768 to 32767", ("32768",)), ("T4", 4, "T4 takes 0 to 4294967295", ("4294967296",)),
        ("VisibleString", 3, "VisibleString takes at most 3 printable letters of ASCII in quotes, or 6 hex digits",
         ('"abcd"', '"a', '"a"b', 'abc', '"ä"', '"\\n"', '"a\\"', "0a0b", "0a0b0c0d")),
        ("UnicodeString8", 3, "UnicodeString8 takes at most 3 octets of UTF-8 in quotes, or 6 hex digits", ('"ää"', '"😀"')),
        ("OctetString", 2, "OctetString takes 4 hex digits", ("00", "000000", "0x00", "zz00", '"ab"', "")),
        ("Date", 7, "Date takes 14 hex digits", ("00",)),
        ("Float32+Unsigned8", 5, "Float32+Unsigned8 takes -3.4028235e+38 to 3.4028235e+38, +, and 0 to 255", ("12.5", "12.5+256", "+1", "12.5+", "1e39+1", "1" * 80 + "+1")),
        ("Unsigned8+Unsigned8", 2, "Unsigned8+Unsigned8 takes 0 to 255, +, and 0 to 255", ("1", "256+1", "1+256")),
        ("OctetString2+Unsigned8", 3, "OctetString2+Unsigned8 takes 4 hex digits, +, and 0 to 255", ("0a1b", "0a+1", "0a1b+256")))
    lines = [(f"parse\t{kind}\t{length}\t{value}", range_) for kind, length, range_, values in cases for value in values]
    for (line, wanted), came in zip(lines, asked([line for line, _ in lines])):
        same(line, came, wanted)
    others = (("Unsigned16", 2, "0xFf", "00ff"), ("Integer16", 2, "+7", "0007"), ("Integer16", 2, "-0", "0000"), ("Unsigned8", 1, "007", "07"), ("Float32", 4, "1.", "3f800000"),
              ("Float32", 4, ".5", "3f000000"), ("Float32", 4, "+1E1", "41200000"), ("Float32", 4, "1e-60", "00000000"), ("Boolean", 1, "1", "01"), ("Boolean", 1, "0", "00"),
              ("VisibleString", 4, '"a"', "61000000"), ("VisibleString", 3, '""', "000000"), ("VisibleString", 2, "00FF", "00ff"), ("OctetString", 2, "aBcD", "abcd"),
              ("Float32+Unsigned8", 5, "-1e+16+7", "da0e1bca07"))
    came = asked([f"parse\t{kind}\t{length}\t{value}" for kind, length, value, _ in others])
    same("other forms", came, [octets for *_, octets in others])
    return len(lines) + len(others)


class SignalTests:
    """The tests that `host/test/run` takes over."""

    def values(self):
        """Types, bit order and lengths, by a table whose values come from the standard, Scapy and Wireshark; and texts of values at random."""
        table, bits = rows("values.txt"), rows("bits.txt")
        check_lengths()
        came = asked([f"print\t{kind}\t{octets}" for kind, octets, *_ in table])
        for (kind, octets, value, source), text in zip(table, came):
            same(f"{kind} {octets} ({source})", text, value)
        # Each value is read as the octets that it was printed from, but that another TRUE than 0x01 is 0x01, and that a nan has one form.
        back = asked([f"parse\t{kind}\t{len(octets) // 2}\t{value}" for kind, octets, value, _ in table])
        for (kind, octets, value, _), again in zip(table, back):
            same(f"{kind} {value} read", again, "01" if value == "true" else octets)
        for kind, number, octets, value, source in bits:
            at, bit = types.place_of_bit(kind, len(octets) // 2, int(number))
            same(f"bit {number} of {kind} {octets} ({source})", bool(bytes.fromhex(octets)[at] >> bit & 1), value == "true")
        kinds = {kind for kind, *_ in table}
        same("each type is in the table", kinds, {*types.LENGTHS, *types.SIZED})
        return f"{len(table)} values, {len(bits)} bits; {compare_with_scapy(table)}, {compare_with_tshark(table, bits)}; {check_floats()} floats, {check_refusals()} values read"

    def has_no_signals(self):
        """Why the program has no signals, if it was built without jansson."""
        ran = subprocess.run([os.path.join(BUILD, self.kind, "nandutable-controller"), "no-such-if", self.signal_plan("pump-1"), "--signals"], capture_output=True, text=True)
        return "NOT TRIED: the program was built without jansson (Debian: libjansson-dev, pkg-config)" if "without jansson" in ran.stderr else None

    def signal_plan(self, name, signals=None, address="192.168.0.2"):
        """The plan of the demo station, with signals."""
        with open(os.path.join(HERE, "..", "demo", "pump.json"), encoding="utf-8") as file:
            catalogue = json.load(file)
        catalogue["Project"].update(NameOfStation=name, IPAddress=address, DataHoldFactor=2000)
        catalogue["Project"].pop("Signals", None)
        if signals is not None:
            catalogue["Project"]["Signals"] = signals
        path = self.path(f"signals-{len(os.listdir(self.folder))}.json")
        with open(path, "w", encoding="utf-8") as file:
            json.dump(catalogue, file)
        return path

    def signal_faults(self):
        """Signals that do not fit: the program and the launcher refuse the same ones, and nothing is started."""
        if lacks := self.has_no_signals():
            return lacks
        good = {"Name": "level", "Direction": "Input", "Slot": 1, "Subslot": 1, "Octet": 0, "Type": "Unsigned16"}

        def fault(signals, words, *options, is_launchers=True):
            path = self.signal_plan("pump-1", signals)
            ran = subprocess.run([os.path.join(BUILD, self.kind, "nandutable-controller"), "no-such-if", path, "--signals", *options], capture_output=True, text=True, timeout=60)
            same(f"{signals} {options}: {ran.stderr}", (ran.returncode, words in ran.stderr), (64 if options else 65, True))
            if is_launchers:
                told = []
                with open(path, "rb") as file:
                    status = launcher.run(file.read(), False, told.append)
                same(f"{signals} by the launcher: {told}", (status, words in told[0].replace(",", "")), (65, True))
        fault({}, "Project.Signals is no list")
        fault([good, 1], "Project.Signals[1]: it is no object")
        for name in ("", "Level", "1level", "_level", "a.b", "a-b", "a" * 65, "ä", 1, None, "a b"):
            fault([{**good, "Name": name}], "Project.Signals[0]: Name is 1 to 64 letters a to z")
        fault([good, {**good, "Name": "other"}, good], "Project.Signals[2]: Name 'level' is that of another signal")
        for way in ("input", "In", 1, None):
            fault([{**good, "Direction": way}], "Direction is Input or Output")
        for key in ("Slot", "Subslot", "Octet"):
            for value in (-1, 65536, "1", 1.5, None, True):
                fault([{**good, key: value}], f"{key} is a number from 0 to 65535")
        for kind in ("Float16", "", 1, None, "float32", "unsigned8"):
            fault([{**good, "Type": kind}], "Type is not a DataType of GSDML")
        fault([{**good, "Length": 1}], "Length of Unsigned16 is 2")
        for length in (0, 1441, "2", None):
            fault([{**good, "Type": "OctetString", "Length": length}], "Length is a number from 1 to 1440")
        fault([{**good, "Type": "OctetString"}], "Length is a number from 1 to 1440")
        for bit in (-1, 8, "1", True):
            fault([{**good, "Type": "Boolean", "Bit": bit}], "Bit is a number from 0 to 7")
        fault([{**good, "Bit": 1}], "Bit takes the Type Boolean")
        fault([{**good, "Slot": 2}], "slot 2 subslot 1 has no input")
        fault([{**good, "Slot": 3}], "slot 3 subslot 1 has no input")
        fault([{**good, "Subslot": 2}], "slot 1 subslot 2 has no input")
        fault([{**good, "Direction": "Output"}], "slot 1 subslot 1 has no output")
        fault([{**good, "Octet": 1}], "octets 1 to 2 are not in the 2 octets of input of slot 1 subslot 1")
        fault([{**good, "Type": "Float32"}], "octets 0 to 3 are not in the 2 octets of input of slot 1 subslot 1")
        fault([{**good, "Octet": 65535}], "octets 65535 to 65536 are not in the 2 octets")
        for key, most in (("Unit", 80), ("Text", 320)):
            for text in ("a" * (most + 1), "a\nb", "\x7f", 1, None, "a\0b"):
                fault([{**good, key: text}], f"{key} is a text of at most {most} octets without control characters")
        for words, text in ((("--deadband", "level"), "--deadband takes NAME=NUMBER"), (("--deadband", "level=0"), "greater than 0"), (("--deadband", "level=-1"), "greater than 0"),
                            (("--deadband", "level=nan"), "takes NAME=NUMBER"), (("--deadband", "depth=1"), "there is no such signal: depth=1"), (("--every", "0"), "1 to 60000"),
                            (("--every", "60001"), "1 to 60000"), (("--deadband", "level=1", "--deadband", "pump-1.level=2"), "given twice"),
                            (("--signals=all",), "--signals=only: all"), (("--list",), "take no --signals")):
            fault([good], text, *words, is_launchers=False)
        fault([{**good, "Type": "V2"}], "the signal is no number: level=1", "--deadband", "level=1", is_launchers=False)
        ran = subprocess.run([os.path.join(BUILD, self.kind, "nandutable-controller"), "no-such-if", self.signal_plan("pump-1"), "--every", "5"], capture_output=True, text=True)
        same("--every alone", (ran.returncode, "take --signals" in ran.stderr), (64, True))

    KINDS = (("*ValveIsland*.xml", ("--slot", "2=SENSORS"), 1), ("*RemoteIO*.xml", ("--slot", "1=DI16", "--slot", "2=AI8", "--slot", "3=TC4", "--slot", "4=DO16", "--slot", "5=CNT2"), 1),
             ("*Drive-*.xml", (), 1), ("*Encoder*.xml", ("--slot", "1=MULTI"), 1), ("*IOLink*.xml", ("--submodule", "1:2=IOL_IN4", "--submodule", "1:3=IOL_IO8"), 1),
             ("*Gateway*.xml", ("--slot", "1=ALL_IN", "--slot", "2=ALL_OUT", "--slot", "3=TEXT"), 2))

    def signal_names(self, wire):
        """The program lists the same signals as the launcher, of a GSDML file of each kind of device."""
        if lacks := self.has_no_signals():
            return lacks
        told = 0
        for number, (pattern, words, interval) in enumerate(self.KINDS):
            path = self.from_gsdml(f"host/test/gsdml/{pattern}", f"kind-{number}.hall", *words, interval=interval)
            with open(path, "rb") as file:
                listed = json.loads(subprocess.run([os.path.join(TOP, "pnscript"), "signals", "--json"], stdin=file, capture_output=True).stdout)
            wanted = ["name {}.{} {} {} {} {} {} {} {} {} {}".format(
                listed["Station"], one["Name"], one["Direction"].lower(), one["Type"].replace(" ", "_"), one["Length"], one["Slot"], one["Subslot"], one["Octet"],
                "-" if one["Bit"] is None else one["Bit"], *(f'"{one[key]}"' for key in ("Unit", "Text"))) for one in listed["Signals"]]
            controller = self.controller(wire, path, "--signals")
            controller.ask("names", f"names {len(wanted)}$")
            same(f"the names of {pattern}", [line for _, line in controller.lines if line.startswith("name ")], wanted)
            controller.ask("get *", f"got {len(wanted)}$")
            controller.end()
            told += len(wanted)
        return f"{told} signals of {len(self.KINDS)} kinds of devices"

    def signals(self, wire):
        """The flow station by its names: changes, quality, set and get, and the octets that arrive at the device."""
        if lacks := self.has_no_signals():
            return lacks
        path = self.from_gsdml("examples/gsdml/*FlowStation*.xml", "flow-7", "--slot", "2=FLOW4", "--slot", "3=CARRIER", "--submodule", "3:1=TEXT16")
        controller = self.controller(wire, path, "--signals")
        controller.ask("set slot4_valves 1", "refused set slot4_valves: no data is exchanged, the state is looking$")
        controller.ask("get slot2_flow", r"flow-7\.slot2_flow = 0 bad$")
        controller.end()
        device = self.device(wire, "signals", "--station", path, name=None)
        controller = self.controller(wire, path, "--signals", "--deadband", "slot2_flow=0.5", "--deadband", "flow-7.slot2_total=10", "--assign", "02:00:00:00:00:01", "--retry", "1")
        controller.expect("state exchanging", 60)
        # Outputs are good at once, inputs with the next frame that says so.
        controller.expect_each(r"flow-7\.slot2_flow = 0 good$", r"flow-7\.slot4_valve_8 = false good$")
        # The lines of today stay; those of the signals come too.
        device.ask("input 2 1 40490fdb0000002a01", "note done")
        controller.expect("input 2 1 40490fdb0000002a01$")
        for line in (r"slot2_flow = 3\.1415927", "slot2_total = 42", "slot2_state = 1", "slot2_pipe_full = true"):
            controller.expect(rf"flow-7\.{line} good$")
        # Within the deadbands nothing is printed; `get` tells the present value.
        device.ask("input 2 1 405000000000003301", "note done")
        controller.expect("input 2 1 405000000000003301$")
        controller.ask("get flow-7.slot2_flow", r"flow-7\.slot2_flow = 3\.25 good$")
        same("within the deadband", controller.has(r"flow-7\.slot2_total = 51"), False)
        device.ask("input 2 1 406924930000003400", "note done")
        for line in (r"slot2_flow = 3\.6428573", "slot2_total = 52", "slot2_state = 0", "slot2_pipe_full = false"):
            controller.expect(rf"flow-7\.{line} good$")
        # The quality.
        device.ask("status 2 1 bad", "note done")
        controller.expect(r"flow-7\.slot2_flow = 0 bad$")
        device.ask("status 2 1 good", "note done")
        controller.expect(r"flow-7\.slot2_flow = 3\.6428573 good$")
        # Outputs by their names. Each leaves the others as they are.
        for line, octets in (("set slot4_valve_3 true", "4 1 04"), ("set flow-7.slot4_valve_8 1", "4 1 84"), ("set slot4_valve_3 false", "4 1 80"), ("set slot4_valves 0x0f", "4 1 0f"),
                             ('set slot3_sub1_display "Hello, \\"pump\\" 1"', "3 1 48656c6c6f2c202270756d702220310000"[:36]), ("set slot3_sub3_lamp 255", "3 3 ff")):
            controller.ask(line, f"ok set flow-7.{line.split()[1].removeprefix('flow-7.')}$")
            device.expect(f"output {octets}")
        controller.expect(r'flow-7\.slot3_sub3_lamp = 255 good$')
        same("the text", controller.has(r'flow-7\.slot3_sub1_display = "Hello, \\"pump\\" 1" good$'), True)
        controller.ask("give 4 1 80", "state exchanging")
        controller.expect(r"flow-7\.slot4_valves = 128 good$")
        controller.ask("status 4 1 bad", "state exchanging")
        controller.expect(r"flow-7\.slot4_valves = 128 bad$")
        controller.ask("status 4 1 good", "state exchanging")
        controller.expect(r"flow-7\.slot4_valves = 128 good$")
        for line, answer in (("set slot3_sub3_lamp 256", "refused set slot3_sub3_lamp: Unsigned8 takes 0 to 255"), ("set slot2_flow 1", "refused set slot2_flow: it is an input"),
                             ("set nothing 1", "refused set nothing: there is no such signal; names lists them"), ("get x.flow", "refused get x.flow: there is no such signal"),
                             ("set slot3_sub3_lamp", "wrong: set NAME VALUE"), ("get", r"wrong: get NAME, or get \*"), ("names x", "wrong: names"), ("get slot2_flow slot2_total", "wrong: get NAME"),
                             ("settle slot3_sub3_lamp 1", "wrong: no such line"), ("set slot4_valve_3 2", "refused set slot4_valve_3: Boolean takes true or false")):
            controller.ask(line, f"{answer}$" if line.startswith("set") and "wrong" not in answer else answer)
        controller.ask("get slot3_sub3_lamp", r"flow-7\.slot3_sub3_lamp = 255 good$")
        controller.ask("  set \t slot3_sub3_lamp   7  ", r"ok set flow-7\.slot3_sub3_lamp$")
        device.expect("output 3 3 07")
        # The end and a new begin: each signal is printed, and the outputs are set again.
        controller.say("restart")
        controller.expect("ended 7")
        for line in (r"slot2_flow = 3\.6428573", "slot4_valves = 128"):
            controller.expect(rf"flow-7\.{line} bad$")
        controller.expect("state exchanging", 60)
        controller.expect_each(r"flow-7\.slot2_flow = .* good$", r"flow-7\.slot3_sub3_lamp = 7 good$")
        device.expect("output 3 3 07")
        controller.end()
        device.end()

    def signals_of_several(self, wire):
        """Two plans on one controller, one of which has no station; times; a least time between two lines; nothing in octets."""
        if lacks := self.has_no_signals():
            return lacks
        signals = [{"Name": "level", "Direction": "Input", "Slot": 1, "Subslot": 1, "Octet": 0, "Type": "Unsigned16", "Unit": "mm"},
                   {"Name": "full", "Direction": "Input", "Slot": 1, "Subslot": 1, "Octet": 0, "Bit": 7, "Type": "Boolean"},
                   {"Name": "speed", "Direction": "Output", "Slot": 2, "Subslot": 1, "Octet": 0, "Type": "Integer16"}]
        plans = self.signal_plan("pump-1", signals), self.signal_plan("pump.2", None, "192.168.0.3")
        device = self.device(wire, "several")
        controller = self.controller(wire, *plans, "--signals=only", "--times", "--every", "400")
        controller.expect("pump-1 state exchanging", 60)
        found = controller.expect(r"pump-1\.level = 0 good ([0-9]+\.[0-9]{6})$")
        same("the time is now", abs(float(found[1]) - time.time()) < 30, True)
        controller.ask("names", "names 5$")
        names = [line for _, line in controller.lines if line.startswith("name ")]
        same("the second station has none of its own", names[3:], ['name pump.2.slot1_sub1_in input OctetString 2 1 1 0 - "" ""', 'name pump.2.slot2_sub1_out output OctetString 2 2 1 0 - "" ""'])
        controller.ask("set speed 1", "refused set speed: there is no such signal")
        controller.ask("set pump-1.speed -2", r"ok set pump-1\.speed$")
        device.expect("output 2 1 fffe")
        controller.ask("set pump.2.slot2_sub1_out 00ff", r"refused set pump\.2\.slot2_sub1_out: no data is exchanged, the state is looking$")
        controller.ask("pump-1 give 2 1 0003", "pump-1 state exchanging")
        controller.expect(r"pump-1\.speed = 3 good [0-9.]+$")
        # Fifty changes, on an idle machine within half a second: one line in 0.4 seconds, and the last one has the last value.
        time.sleep(0.5)
        before, begins = len(controller.lines), time.monotonic()
        for number in range(1, 51):
            device.ask(f"input 1 1 {number:04x}", "note done")
            time.sleep(0.01)
        controller.sees(r"pump-1\.level = 50 good")
        took = time.monotonic() - begins
        lines = [line for _, line in controller.lines[before:] if line.startswith("pump-1.level")]
        gaps = [float(later.split()[-1]) - float(one.split()[-1]) for one, later in zip(lines, lines[1:])]
        same(f"few lines in {took:.2f} s: {lines}", len(lines) <= took / 0.4 + 1, True)
        same(f"times rise: {gaps}", all(gap > 0 for gap in gaps), True)
        device.ask("input 1 1 8000", "note done")
        controller.expect(r"pump-1\.full = true good")
        # Nothing in octets.
        same("the lines input and provider", controller.has("pump-1 (input|provider) "), False)
        # The cable is gone: the signals are bad.
        device.end(9)
        controller.expect("pump-1 ended ", 20)
        controller.expect(r"pump-1\.level = 32768 bad [0-9.]+$")
        controller.end()

    def signals_slow(self, wire):
        """2,000 signals and a program that never reads: its place takes no memory, the other one gets each newest value, and the exchange goes on."""
        if lacks := self.has_no_signals():
            return lacks
        count, path, lines = 2000, self.path("slow-lines"), []
        signals = [{"Name": f"bit_{number}", "Direction": "Input" if number % 2 else "Output", "Slot": 1 + (number + 1) % 2, "Subslot": 1, "Octet": number % 4 // 2, "Bit": number % 8,
                    "Type": "Boolean", "Text": "x" * 100} for number in range(count)]
        device = self.device(wire, "slow")
        controller = self.controller(wire, self.signal_plan("pump-1", signals), "--signals", "--socket", path)
        asleep, awake = talk_to(path), talk_to(path)
        awake.settimeout(60)
        text = b""

        def read_until(pattern):
            nonlocal text
            while not re.search(pattern, text):
                text += awake.recv(65536)
            found, _, text = text.rpartition(b"\n")
            lines.extend(found.decode().splitlines())
            text = b""
        # The exchange may have begun before this program was there to read of it.
        while not re.search(rb"pump-1\.bit_1 = (true|false) good\n", text):
            awake.sendall(b"get bit_1\n")
            text += awake.recv(65536)
            time.sleep(0.02)
        text = b""
        asleep.sendall(b"names\nget *\n" * 20)
        for number in range(1, 200):
            device.ask(f"input 1 1 {number * 257 & 0xFFFF:04x}", "note done")
        device.ask("input 1 1 ffff", "note done")
        awake.sendall(b"names\n")
        read_until(rb"names 2000\n")
        same("each name once", len([line for line in lines if line.startswith("name ")]), count)

        def inputs():
            """The newest value of each input, after all were asked for."""
            awake.sendall(b"get *\n")
            read_until(rb"got 2000\n")
            found = {one[1]: one[2] for line in lines if (one := re.match(r"pump-1\.(bit_[0-9]+) = (true|false) good$", line))}
            return {found.get(f"bit_{number}") for number in range(1, count, 2)}
        awaited("each input is true", lambda: inputs() == {"true"})
        awake.sendall(b"get bit_1\nset bit_0 true\n")

        def counted():
            """Frames received and lost."""
            awake.sendall(b"statistics\n")
            read_until(rb"lines lost [0-9]+\n")
            return [re.match(r"cyclic received ([0-9]+) lost ([0-9]+)", line) for line in lines if line.startswith("cyclic")][-1]
        awaited("frames are received", lambda: int(counted()[1]) > 100)
        with open(f"/proc/{controller.process.pid}/statm", encoding="ascii") as file:
            before = int(file.read().split()[1])
        for number in range(200):
            device.ask(f"input 1 1 {number * 257 & 0xFFFF:04x}", "note done")
        with open(f"/proc/{controller.process.pid}/statm", encoding="ascii") as file:
            after = int(file.read().split()[1])
        same(f"its memory does not grow: {before} pages, {after} pages", after - before <= 16, True)
        # A new program in the place of the one that slept gets nothing of what that one did not read.
        asleep.close()
        other = talk_to(path)
        other.sendall(b"get bit_2\n")
        came = b""
        while came.count(b"\n") < 1:
            came += other.recv(4096)
        same("its answer alone", b"name " in came, False)
        other.close()
        cyclic = counted()
        awake.close()
        controller.end()
        device.end()
        return f"{cyclic[1]} frames received, {cyclic[2]} lost"
