"""A controller that is made up: it listens on a unix socket, speaks the lines of nandutable-controller --signals, and has no wire. So the page
can be tried with plants that no test machine has: many stations, rings, switches, names that are meant to break it."""

import contextlib
import os
import socket
import struct
import threading
import time

CONTROLLER = "02:00:00:00:00:02"


def mac_of(number):
    return f"02:00:00:00:03:{number:02x}"


def port_block(number, name, peers):
    """PDPortDataReal of a port of slot 0, with its neighbours: their port, name and MAC address. Fields are aligned from the block's beginning."""
    def aligned(octets):
        return octets + bytes(-len(octets) % 4)

    def text(word):
        return bytes((len(word),)) + word.encode()
    block = aligned(bytes(8) + struct.pack(">HH", 0, 0x8000 + number) + text(name) + bytes((len(peers),)))
    for port, station, mac in peers:
        block = aligned(block + text(port) + text(station)) + bytes(4) + bytes.fromhex(mac.replace(":", "")) + bytes(2)
    block += struct.pack(">HHIIHHI", 16, 0, 0, 0, 1, 0, 4)
    return struct.pack(">HHBB", 0x020F, len(block) - 4, 1, 0) + block[6:]


class MadeUp:
    """A plant: stations in their order, each with its state, ports and signals."""

    def __init__(self, path):
        self.path, self.stations, self.values, self.talkers = path, {}, {}, []
        self.lock = threading.Lock()
        self.is_silent = False  # to sets
        self.neighbour = None
        self.listener = socket.socket(socket.AF_UNIX)
        if os.path.exists(path):
            os.remove(path)
        self.listener.bind(path)
        self.listener.listen(8)
        threading.Thread(target=self.let_in, daemon=True).start()

    def add(self, name, signals, ports=(), state="exchanging", address=None):
        """A station. A signal is (name, direction, type, value, unit, text[, slot, subslot, octet, bit]); a port (name, [(port, station, mac)])."""
        number = len(self.stations) + 1
        self.stations[name] = {"mac": mac_of(number), "address": address or f"192.168.0.{number + 1}", "state": state, "ports": ports, "diagnosis": [], "received": 0, "lost": 0, "modules": []}
        for signal, direction, kind, value, unit, text, *place in signals:
            self.values[f"{name}.{signal}"] = [direction, kind, value, unit, text, "good" if state == "exchanging" else "bad", *(place or (1, 1, 0, "-"))]

    def close(self):
        """The controller ends."""
        self.listener.shutdown(socket.SHUT_RDWR)
        self.listener.close()
        for talker in list(self.talkers):
            talker.shutdown(socket.SHUT_RDWR)

    def let_in(self):
        while True:
            try:
                talker = self.listener.accept()[0]
            except OSError:
                return
            with self.lock:
                self.talkers.append(talker)
            threading.Thread(target=self.serve, args=(talker,), daemon=True).start()

    def serve(self, talker):
        for name in self.stations:
            self.send(talker, f"{self.front(name)}controller {CONTROLLER} on eth2, for the station '{name}', interval 1000 us")
        if self.neighbour:
            self.send(talker, self.neighbour)
        with contextlib.suppress(ConnectionError), talker.makefile("r") as lines:
            for line in lines:
                for answer in self.answers(line.rstrip("\n")):
                    self.send(talker, answer)

    def send(self, talker, line):
        try:
            talker.sendall(line.encode() + b"\n")
        except OSError:
            with self.lock:
                if talker in self.talkers:
                    self.talkers.remove(talker)

    def tell(self, line):
        for talker in list(self.talkers):
            self.send(talker, line)

    def line_of(self, name):
        value = self.values[name]
        return f"{name} = {value[2]} {value[5]} {time.time():.6f}"

    def change(self, name, value=None, quality=None):
        old = self.values[name]
        old[2], old[5] = value if value is not None else old[2], quality or old[5]
        self.tell(self.line_of(name))

    def front(self, name):
        return f"{name} " if len(self.stations) > 1 else ""

    def state(self, name, state):
        self.stations[name]["state"] = state
        self.tell(f"{self.front(name)}state {state}")

    def answers(self, line):
        first, _, rest = line.partition(" ")
        station = next(iter(self.stations))
        if first in self.stations:
            station, (first, _, rest) = first, rest.partition(" ")
        answer = getattr(self, f"answer_{first}", None)
        yield from answer(station, rest) if answer else [f"wrong: no such line: {first}"]

    def answer_stations(self, *_):
        for name, station in self.stations.items():
            yield f"station {name} {station['mac']} {station['address']} 1000 {station['state']}" + (" 4" if station["state"] == "ended" else "")
        yield f"stations {len(self.stations)}"

    def answer_names(self, *_):
        for name, (direction, kind, _, unit, text, _, slot, subslot, octet, bit) in self.values.items():
            yield f'name {name} {direction} {kind.replace(" ", "_")} 2 {slot} {subslot} {octet} {bit} "{unit}" "{text}"'
        yield f"names {len(self.values)}"

    def answer_modules(self, *_):
        lines = [f'module {name} {slot} {subslot} "{text}"' for name, station in self.stations.items() for slot, subslot, text in station["modules"]]
        yield from lines
        yield f"modules {len(lines)}"

    def answer_get(self, _, name):
        if name == "*":
            yield from map(self.line_of, self.values)
            yield f"got {len(self.values)}"
        else:
            yield self.line_of(name) if name in self.values else f"refused get {name}: there is no such signal; names lists them"

    def answer_set(self, _, rest):
        name, _, value = rest.partition(" ")
        if self.is_silent:
            return
        full = name if "." in name else f"{next(iter(self.stations))}.{name}"
        found = self.values.get(full)
        # It shows a name that is not of ASCII as nandutable-controller does.
        name = full if found else "".join(letter if " " <= letter <= "~" else "?" * len(letter.encode()) for letter in name)
        if found is None or found[0] == "input":
            yield f"refused set {name}: " + ("it is an input" if found else "there is no such signal; names lists them")
        elif found[1] == "Unsigned16" and not (value.isdecimal() and len(value) < 6 and int(value) < 65536):
            yield f"refused set {name}: Unsigned16 takes 0 to 65535"
        else:
            yield f"ok set {name}"
            found[2] = value
            self.tell(self.line_of(name))

    def answer_statistics(self, *_):
        yield "statistics seconds 100"
        for name, station in self.stations.items():
            station["received"] += 1000
            for line in (f"cyclic received {station['received']} lost {station['lost']}", f"interval count {station['received']} p50 1000 p99 1021 max 1400 us", "jitter p50 2 p99 20 max 400 us"):
                yield self.front(name) + line
        yield "lines lost 0"

    def answer_diagnosis(self, station, _):
        found = self.stations[station]["diagnosis"]
        for place in found or ["-"]:
            yield f"{self.front(station)}diagnosis {place}"

    def answer_read(self, station, rest):
        yield f"{self.front(station)}state {self.stations[station]['state']}"
        ports = b"".join(port_block(number, name, peers) for number, (name, peers) in enumerate(self.stations[station]["ports"], 1))
        head = struct.pack(">HHBBHIHH", 0x0400, 12 + len(ports), 1, 0, 0, 0, 0, 0x8001)
        yield f"{self.front(station)}read {rest} {(head + ports).hex()}"


def line_of_stations(plant, count, signals):
    """Stations with two ports in a line after the controller."""
    for number in range(1, count + 1):
        ports = [("port-001", [("port-001", "plc", CONTROLLER) if number == 1 else ("port-002", f"drive-{number - 1}", mac_of(number - 1))])]
        if number < count:
            ports.append(("port-002", [("port-001", f"drive-{number + 1}", mac_of(number + 1))]))
        plant.add(f"drive-{number}", signals(number), ports)
    plant.neighbour = f"neighbour {mac_of(1)} port 'port-001' of 'drive-1'"


def modules_of(number):
    """The modules of a station as remote inputs and outputs have them, and their signals: 32 signals in six slots, with bits, values and texts."""
    modules = [(0, "-", "Head module 4.0"), (1, "-", "8 digital inputs"), (2, "-", "8 digital outputs"), (3, "-", "4 analog inputs, 4 to 20 mA"), (4, "-", "Flow meter"),
               (5, "-", "Carrier for submodules"), (5, 1, "Display"), (5, 3, "Lamp")]
    words = ("limit_switch_left", "limit_switch_right", "door_is_closed", "emergency_stop_released", "filter_is_clean", "level_high", "level_low", "key_switch")
    signals = [(word, "input", "Boolean", "true" if (number + at) % 3 else "false", "", word.replace("_", " ").capitalize(), 1, 1, 0, at) for at, word in enumerate(words)]
    signals += [(f"valve_{at + 1}", "output", "Boolean", "true" if (number * at) % 4 == 1 else "false", "", f"Valve {at + 1}", 2, 1, 0, at) for at in range(8)]
    signals += [(name, "input", "Float32", value, unit, text, 3, 1, 4 * at, "-") for at, (name, value, unit, text) in enumerate((
        ("temperature_of_the_bearing_at_the_drive_end", "61.5", "\u00b0C", "Temperature of the bearing at the drive end"), ("pressure_before_filter", "2.875", "bar", "Pressure before the filter"),
        ("pressure_after_filter", "2.5", "bar", "Pressure after the filter"), ("current", "-0.0625", "A", "")))]
    signals += [("flow", "input", "Float32", "12.5", "l/s", "Flow", 4, 1, 0, "-"), ("total", "input", "Unsigned32", str(4000000000 + number), "l", "Total since the last reset", 4, 1, 4, "-"),
                ("slot4_state", "input", "Unsigned8", "1", "", "State of the meter", 4, 1, 8, "-"),
                *((name, "input", "Boolean", value, "", text, 4, 1, 8, at) for at, (name, value, text) in enumerate((("pipe_full", "true", "Pipe is full"), ("reverse_flow", "false", "Reverse flow"), ("simulation", "false", "Simulation"))))]
    signals += [("display", "output", "VisibleString", '"Hello, world! 16"', "", "Text of the display", 5, 1, 0, "-"), ("lamp", "output", "Unsigned8", "7", "", "Colour of the lamp", 5, 3, 0, "-"),
                ("speed", "output", "Integer16", "-1500", "rpm", "Speed of the pump", 5, 3, 1, "-"), ("serial", "input", "OctetString", "00ff00ff00ff00ff00ff00ff00ff00ff", "", "Octets of the reader", 5, 2, 0, "-")]
    return modules, signals


def plant_of_modules(plant, count):
    """Stations in a line with 30 signals each, and two that are not well."""
    line_of_stations(plant, count, lambda number: modules_of(number)[1])
    for number, station in enumerate(plant.stations.values(), 1):
        station["modules"] = modules_of(number)[0]
    for name in list(plant.stations)[2:3]:
        plant.stations[name]["diagnosis"] = ["4 1 3 256 (Measuring tube is coated)", "3 1 2 6 (wire break)", "1 1 32768 257 (Supply of the sensors is overloaded, the submodule)"]
    for name in list(plant.stations)[4:5]:
        plant.stations[name]["state"] = "connecting"
        for signal in [one for one in plant.values if one.startswith(f"{name}.")]:
            plant.values[signal][5] = "bad"


def happen(plant):
    """What a plant says now and then."""
    first, third = list(plant.stations)[0], list(plant.stations)[min(2, len(plant.stations) - 1)]
    for number in range(1, 4):
        plant.tell(f"stall: {64000 * number} units of time were forgotten since the start, in {number} stalls")
    plant.tell(f"{plant.front(third)}alarm 1 4 1 43008 800008000100 (low priority, diagnosis, USI 8000 channel diagnosis: channel 3 error 256 (Measuring tube is coated) appears)")
    plant.tell(f"{plant.front(first)}waiting 5 s: no station answers to Identify")
    plant.tell(f"{plant.front(first)}ended 4: no cyclic frame of the device came within the data hold time")
