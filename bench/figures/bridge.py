#!/usr/bin/env python3
"""Measures the bridge to MQTT: one controller, many stations, some changes a second, Debian's mosquitto and a subscriber of everything.

    bench/figures/bridge.py [--stations N] [--signals N] [--changes N] [--seconds N] [--interval MS] [--bridges 0|1]

64 stations with 2,000 signals in all, at an interval of 8 ms (MS: 1 to 512, a power of two), 100 changes of a signal a second, for 60 seconds.
Each station is a nandutable-device in a network namespace of its own, at one bridge. It prints the time from a frame to the topic, which is from
the controller's own time of the frame with the change (--times) to the subscriber's time of the message (p50, p99, max); the share of a processor
of the bridge, the controller and the broker; the memory of the bridge; and received and lost frames. The load of the machine is printed too: on a
busy machine these are figures of the load. With `--bridges 0` there is neither a bridge nor a broker, only the controller and the changes.

It needs root, iproute2, `make -C host`, and Debian's mosquitto, mosquitto-clients and python3-paho-mqtt. The status is 1 if a frame or a change is lost.
"""

import importlib.machinery
import importlib.util
import json
import os
import random
import re
import socket
import sys
import tempfile
import time

TOP = os.path.dirname(os.path.dirname(os.path.dirname(os.path.realpath(__file__))))
TEST = os.path.join(TOP, "host", "test")
sys.path.insert(0, TEST)

from wire import NoWire, Plant, Program, refuse, talk_to  # noqa: E402: the folder of the tests is not on the path before

BRIDGE = os.path.join(TOP, "host", "bridge", "nandutable-bridge")
BITS = 16  # of the demo station, in each direction
STARTS = 300  # seconds


def load_measure():
    """The program that measures the ends, as a module."""
    loader = importlib.machinery.SourceFileLoader("measure", os.path.join(TEST, "measure"))
    module = importlib.util.module_from_spec(importlib.util.spec_from_loader("measure", loader))
    loader.exec_module(module)
    return module


def signals_of(count):
    """So many bits of a station, those of its input first."""
    return [{"Name": f"{'in' if number < BITS else 'out'}_{number % BITS}", "Direction": "Input" if number < BITS else "Output", "Slot": 1 if number < BITS else 2,
             "Subslot": 1, "Octet": number % BITS // 8, "Bit": number % 8, "Type": "Boolean"} for number in range(count)]


class Changes:
    """Changes of single bits of the stations' inputs, each once in random order and then again, spread evenly over time."""

    def __init__(self, devices, rate):
        self.devices, self.rate = devices, rate
        self.values, self.number = [0] * len(devices), 0
        self.order = [(station, bit) for station in range(len(devices)) for bit in range(BITS)]
        random.Random(69).shuffle(self.order)

    def make(self, seconds):
        """Returns how many were made."""
        made, begins = 0, time.monotonic()
        while (passed := time.monotonic() - begins) < seconds:
            while made < passed * self.rate:
                station, bit = self.order[self.number % len(self.order)]
                self.number += 1
                self.values[station] ^= 1 << bit
                self.devices[station].say(f"input 1 1 {self.values[station]:04x}")
                made += 1
            time.sleep(0.002)
        return made


class Subscriber(Program):
    """mosquitto_sub, whose lines have the time of each message."""

    def __init__(self, wire):
        super().__init__(wire, "c0", "-t", "plant/#", "-F", "%U %t %p", name="/usr/bin/mosquitto_sub")

    def latencies(self, begins):
        """Milliseconds from the frame to the topic, of each value of an input whose time is after the begin."""
        found = []
        with self.news:
            lines = [line for _, line in self.lines]
        for line in lines:
            came, topic, payload = line.split(" ", 2)
            if re.fullmatch(r"plant/pump-\d+/in_\d+", topic):
                at = json.loads(payload)["time"]
                if at > begins:
                    found.append((float(came) - at) * 1000)
        return sorted(found)


def memory_of(program):
    with open(f"/proc/{program.process.pid}/status", encoding="ascii") as file:
        return int(re.search(r"VmRSS:\s+(\d+) kB", file.read())[1]) / 1024


def lost_of(path, count):
    """Received and lost frames of all stations, by the controller's count."""
    talker, text = talk_to(path, 20), b""
    talker.settimeout(60)
    talker.sendall(b"statistics\n")
    while len(found := re.findall(rb"cyclic received ([0-9]+) lost ([0-9]+)\n", text)) < count:
        text += talker.recv(65536)
    talker.close()
    return sum(int(received) for received, _ in found), sum(int(lost) for _, lost in found)


def start_broker(wire, folder):
    wire.link("c0", "set", "lo", "up")
    path = os.path.join(folder, "mosquitto.conf")
    with open(path, "w", encoding="ascii") as file:
        file.write("listener 1883 127.0.0.1\nallow_anonymous true\nuser root\npersistence false\nset_tcp_nodelay true\nmax_queued_messages 0\n")
    broker = Program(wire, "c0", "-c", path, name="/usr/sbin/mosquitto")
    for _ in range(1000):
        link = wire.opened("c0", socket.AF_INET, socket.SOCK_STREAM, 0)
        try:
            link.connect(("127.0.0.1", 1883))
            return broker
        except ConnectionRefusedError:
            time.sleep(0.02)
        finally:
            link.close()
    raise NoWire(f"mosquitto does not start: {broker.text()}")


def wait_for_exchange(path, count):
    """Waits until all stations exchange data."""
    ends = time.monotonic() + STARTS
    talker, text = talk_to(path, 20), b""
    talker.settimeout(60)
    while len(re.findall(rb"station \S+ \S+ \S+ \d+ exchanging\n", text)) < count:
        if time.monotonic() > ends:
            raise NoWire("not all stations exchange data")
        time.sleep(0.2)
        talker.sendall(b"stations\n")
        text = b""
        while b"\nstations " not in text:
            text += talker.recv(65536)
    talker.close()


def measured(folder, stations, signals, rate, seconds, interval, bridges):
    measure = load_measure()
    with Plant(stations) as wire:
        devices = measure.Devices(wire, folder)
        each = [signals // stations + (number <= signals % stations) for number in wire.places]
        paths = [measure.plan(folder, 32, 16000 // interval, f"pump-{number}", ReductionRatio=interval, IPAddress=f"192.168.0.{10 + number}", Signals=signals_of(count))
                 for number, count in zip(wire.places, each)]
        lines = os.path.join(folder, "lines")
        programs = {"controller": Program(wire, "c0", "c0", *paths, "--signals=only", "--times", "--retry", "1", "--socket", lines)}
        wait_for_exchange(lines, stations)
        everything = None
        if bridges:
            programs["broker"] = start_broker(wire, folder)
            everything = Subscriber(wire)
            programs["bridge"] = Program(wire, "c0", BRIDGE, "--socket", lines, "--prefix", "plant", name="/usr/bin/python3")
            everything.sees(r'[0-9.]+ plant/_bridge \{"state": "online"', STARTS)
        changes = Changes(devices.programs, rate)
        changes.make(3)
        time.sleep(1)
        print(f"{stations} stations at {interval} ms, {signals} signals, {rate} changes a second, ", end="")
        return told(stations, changes, programs, everything, lines, seconds)


def told(stations, changes, programs, everything, lines, seconds):
    """Measures for so long, and prints the figures. Returns whether nothing was lost."""
    before, used, began = lost_of(lines, stations), {name: program.processor_seconds() for name, program in programs.items()}, time.time()
    load, begins = os.getloadavg()[0], time.monotonic()
    made = changes.make(seconds)
    passed = time.monotonic() - begins
    shares = {name: 100 * (program.processor_seconds() - used[name]) / passed for name, program in programs.items()}
    time.sleep(2)
    after = lost_of(lines, stations)
    received, lost = (now - was for now, was in zip(after, before))
    print(f"{passed:.0f} s, load {load:.1f} on {os.cpu_count()} processors")
    is_whole = everything is None or tell_latencies(everything.latencies(began), made)
    print("  processor  " + "  ".join(f"{name} {share:.1f} %" for name, share in shares.items()))
    if "bridge" in programs:
        print(f"  memory of the bridge {memory_of(programs['bridge']):.0f} MiB")
    print(f"  frames     received {received}, lost {lost}", flush=True)
    return lost == 0 and is_whole


def tell_latencies(found, made):
    """Prints the times of the changes. Returns whether each one came."""
    at = lambda part: found[min(len(found) - 1, int(len(found) * part))] if found else float("nan")
    print(f"  from the frame to the topic: p50 {at(0.5):.2f}  p99 {at(0.99):.2f}  max {at(1):.2f} ms ({len(found)} of {made} changes)")
    return len(found) == made


def main(words):
    if words[:1] in (["-h"], ["--help"]):
        print(__doc__, end="")
        return 0
    asked = {"--stations": 64, "--signals": 2000, "--changes": 100, "--seconds": 60, "--interval": 8, "--bridges": 1}
    while words:
        if len(words) < 2 or words[0] not in asked or not words[1].isdecimal() or int(words[1]) < (words[0] != "--bridges"):
            return refuse("bridge", f"it has no use for '{' '.join(words)}'; bench/figures/bridge.py --help tells what it takes")
        asked[words[0]] = int(words[1])
        words = words[2:]
    if asked["--stations"] > 200 or asked["--signals"] > 2 * BITS * asked["--stations"] or asked["--signals"] < BITS * asked["--stations"]:
        return refuse("bridge", "--stations takes 1 to 200, and --signals 16 to 32 for each of them")
    if asked["--interval"] not in [1 << bit for bit in range(10)]:
        return refuse("bridge", "--interval takes a power of two from 1 to 512")
    try:
        with tempfile.TemporaryDirectory() as folder:
            return 0 if measured(folder, *asked.values()) else 1
    except NoWire as fault:
        print(f"bridge: no wire between network namespaces can be made here: {fault}", file=sys.stderr)
        return 77


if __name__ == "__main__":
    sys.exit(main(sys.argv[1:]))
