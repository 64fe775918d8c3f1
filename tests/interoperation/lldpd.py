#!/usr/bin/env python3
"""Debian's lldpd as the neighbour of the demo station, on a wire between two network namespaces.

    tests/interoperation/lldpd.py PROGRAM [FOLDER]

PROGRAM is `station_on_lines` of tests/benches; FOLDER keeps the captures. It takes root, ip, lldpd, lldpcli and tshark. The station
runs in real time until lldpd lists it and it knows lldpd: `lldpcli show neighbors` must have the station's name, port, time to live and
address; the station must tell lldpd's port and chassis by DCP (AliasName), and answer an Identify by that name. Then 30 minutes of units
pass at once, in which it must announce itself each 5 seconds and forget lldpd. tshark must call no frame malformed.
"""

import json
import os
import select
import socket
import struct
import subprocess
import sys
import tempfile
import time

sys.path.insert(0, os.path.join(os.path.dirname(os.path.realpath(__file__)), "..", "..", "ci"))
from program import answer_help, need, refuse

STATION = bytes.fromhex("020000000001")
ASKER = bytes.fromhex("020000000002")
SET_NAME = "0200000000010200000000028892fefd0400000000020000000c02020008000170756d702d31"
SET_ADDRESS = "0200000000010200000000028892fefd040000000002000000120102000e0001c0a80002ffffff0000000000"
GET_ALIAS = "0200000000010200000000028892fefd030000000003000000020206"
NEAREST = bytes.fromhex("0180c200000e")
UNITS = 32000  # in a second
NAMESPACE = "nandutable-lldpd"
OURS, THEIRS = "nandu-ours", "nandu-theirs"


class Station:
    """The program, and what it sent."""

    def __init__(self, program):
        self.process = subprocess.Popen([program], stdin=subprocess.PIPE, stdout=subprocess.PIPE, text=True, bufsize=1)
        self.sent = []

    def says(self, line):
        self.process.stdin.write(line + "\n")
        self.process.stdin.flush()
        frames = []
        for answer in self.process.stdout:
            if answer == "done\n":
                break
            frames.append(bytes.fromhex(answer.split()[1]))
        self.sent += frames
        return frames


def ip(*words):
    subprocess.run(["ip", *words], check=True)


def lay_cable():
    take_away()
    ip("netns", "add", NAMESPACE)
    ip("link", "add", OURS, "type", "veth", "peer", "name", THEIRS)
    ip("link", "set", THEIRS, "netns", NAMESPACE)
    ip("link", "set", OURS, "up")
    ip("-n", NAMESPACE, "link", "set", "lo", "up")
    ip("-n", NAMESPACE, "link", "set", THEIRS, "up")


def take_away():
    subprocess.run(["ip", "link", "del", OURS], stderr=subprocess.DEVNULL)
    subprocess.run(["ip", "netns", "del", NAMESPACE], stderr=subprocess.DEVNULL)


def listed(control):
    """What lldpd tells of its neighbours, as JSON; None while it has none."""
    ran = subprocess.run(["lldpcli", "-u", control, "-f", "json0", "show", "neighbors", "details"], capture_output=True, text=True)
    if ran.returncode != 0 or not ran.stdout.strip():
        return None
    interfaces = json.loads(ran.stdout)["lldp"][0].get("interface")
    return interfaces[0] if interfaces else None


def live(station, wire, until, heard):
    """The station runs in real time, until this many seconds are over or `until` holds."""
    begun = time.monotonic()
    passed, asked = 0, 0.0
    while time.monotonic() - begun < 60:
        now = int((time.monotonic() - begun) * UNITS)
        if now > passed:
            for frame in station.says(f"tick {now - passed}"):
                wire.send(frame)
            passed = now
        ready, _, _ = select.select([wire], [], [], 0.01)
        if ready:
            frame = wire.recv(2048)
            if frame[6:12] != STATION:
                heard.append(frame)
                for answer in station.says("frame " + frame.hex()):
                    wire.send(answer)
        if time.monotonic() - asked > 0.5:
            asked = time.monotonic()
            if until():
                return True
    return False


def capture(frames, path):
    with open(path, "wb") as out:
        out.write(struct.pack("<IHHiIII", 0xA1B2C3D4, 2, 4, 0, 0, 65535, 1))
        for number, frame in enumerate(frames):
            out.write(struct.pack("<IIII", number, 0, len(frame), len(frame)) + frame)


def malformed(path):
    ran = subprocess.run(["tshark", "-r", path, "-Y", "_ws.malformed || _ws.expert.severity == error"], capture_output=True, text=True, check=True)
    return ran.stdout.splitlines()


def alias_of(frames):
    """The AliasName in the answer to a Get."""
    for frame in frames:
        if frame[12:16] == bytes.fromhex("8892fefd") and frame[26:28] == bytes([2, 6]):
            size = int.from_bytes(frame[28:30], "big")
            return frame[32 : 30 + size].decode()
    return None


def identify_by(alias):
    text = alias.encode()
    block = bytes([2, 6]) + len(text).to_bytes(2, "big") + text + b"\0" * (len(text) % 2)
    return "010ecf0000000200000000028892fefe05000000000900010000"[:48] + len(block).to_bytes(2, "big").hex() + block.hex()


def check(text, holds):
    print(("ok    " if holds else "WRONG ") + text)
    return bool(holds)


def run(program, folder):
    control = os.path.join(folder, "lldpd.socket")
    station = Station(program)
    wire = socket.socket(socket.AF_PACKET, socket.SOCK_RAW, socket.htons(3))
    wire.bind((OURS, 0))
    daemon = subprocess.Popen(
        ["ip", "netns", "exec", NAMESPACE, "lldpd", "-d", "-u", control, "-I", THEIRS, "-S", "nandutable test", "-H", "0"],
        stdout=subprocess.DEVNULL, stderr=subprocess.DEVNULL,
    )
    try:
        for _ in range(100):
            if os.path.exists(control):
                break
            time.sleep(0.1)
        for words in (["configure", "lldp", "tx-interval", "2"], ["configure", "lldp", "portidsubtype", "ifname"]):
            subprocess.run(["lldpcli", "-u", control, *words], stdout=subprocess.DEVNULL, check=True)
        station.says("frame " + SET_NAME)
        station.says("frame " + SET_ADDRESS)
        heard, alias = [], []

        def both_know():
            found = alias_of(station.says("frame " + GET_ALIAS))
            alias[:] = [found] if found else []
            return listed(control) is not None and bool(alias)

        good = check("each knows the other", live(station, wire, both_know, heard))
        told = json.dumps(listed(control))
        for text, word in (("its name", '"pump-1"'), ("its port", '"port-001"'), ("its time to live", '"20"'), ("its address", '"192.168.0.2"')):
            good &= check(f"lldpd lists {text}: {word}", word in told)
        good &= check(f"the station's alias is lldpd's port and chassis: {alias}", alias and alias[0].startswith(THEIRS + "."))
        answers = station.says("frame " + identify_by(alias[0])) if alias else []
        good &= check("it answers an Identify by its alias", any(frame[12:16] == bytes.fromhex("8892feff") for frame in answers))
        good &= check("and none by another", not station.says("frame " + identify_by("other.alias")))
        before = len(station.sent)
        for _ in range(1800):
            station.says(f"tick {UNITS}")
        announced = [frame for frame in station.sent[before:] if frame[:6] == NEAREST]
        good &= check(f"in 30 minutes of units it announced itself {len(announced)} times", len(announced) == 360)
        good &= check("and forgot its neighbour", alias_of(station.says("frame " + GET_ALIAS)) is None)
        for name, frames in (("sent", station.sent), ("heard", heard)):
            path = os.path.join(folder, f"lldp-{name}.pcap")
            capture(frames, path)
            good &= check(f"tshark calls none of the {len(frames)} frames {name} malformed", not malformed(path))
        return good
    finally:
        daemon.terminate()
        daemon.wait()
        station.process.stdin.close()


def main(words):
    answer_help(__doc__, words)
    if not 1 <= len(words) <= 2 or not os.access(words[0], os.X_OK):
        return refuse(words)
    need("ip", "lldpd", "lldpcli", "tshark")
    with tempfile.TemporaryDirectory() as temporary:
        os.chmod(temporary, 0o755)  # lldpcli runs as another user
        folder = words[1] if len(words) > 1 else temporary
        lay_cable()
        try:
            return 0 if run(words[0], folder) else 1
        finally:
            take_away()


if __name__ == "__main__":
    sys.exit(main(sys.argv[1:]))
