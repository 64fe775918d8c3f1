#!/usr/bin/python3
"""What a broker and its clients may send to nandutable-bridge: run by the test bridge_fuzz, with the Python that has paho.

    bridge_fuzz.py messages PORT COUNT SEED     COUNT messages of a client by the broker at this port of 127.0.0.1, by MQTT 5 and by MQTT 3.1.1
    bridge_fuzz.py connections COUNT SEED       as many connections to a broker that sends what it may not send
    bridge_fuzz.py long PORT MEGABYTES          a retained message of this length, by MQTT 3.1.1

The bridge runs in this process over a picture of a plant that is made up, with a controller that answers at once. It prints what was found as JSON.
"""

import json
import os
import random
import socket
import string
import struct
import sys
import threading
import time

HOST = os.path.dirname(os.path.dirname(os.path.realpath(__file__)))
sys.path[:0] = [os.path.join(HOST, "bridge"), os.path.join(HOST, "python")]

from nandutable import lines  # noqa: E402: the folders are not on the path before
from nandutable.errors import Refused  # noqa: E402
from nandutable.state import PlantState  # noqa: E402
from nandutable_bridge import bridge as module, broker as link  # noqa: E402
from nandutable_bridge.inlet import length_octets  # noqa: E402
from nandutable_bridge.topics import Topics  # noqa: E402

KINDS = ("Unsigned8", "Float32", "Boolean", "VisibleString", "UnicodeString8", "OctetString", "Float32+Unsigned8", "OctetString2+Unsigned8", "Unsigned8+Unsigned8", "N2", "Date")


class Controller:
    """Commands that answer as the controller does, without one: a name that it does not show as it is would have no answer."""

    def __init__(self):
        self.done = 0

    def set(self, name, value):
        line = f"set {name} {value.text}"
        if not line.encode() or "\n" in line or "\0" in line or not name.isascii():
            raise AssertionError(f"the bridge sends {line!r}")
        self.done += 1
        if len(line) > 4095 or "9" in value.text:
            raise Refused("the type takes another value")


def plant():
    state = PlantState()
    for number, kind in enumerate(KINDS):
        for direction in ("input", "output"):
            name = f"pump-1.{direction}_{number}"
            state.take(lines.Name("", "pump-1", name, direction, kind, 4, 1, 1, 0, None, "", ""))
            state.take(lines.Signal("", "pump-1", name, "1", True, None))
    return state


def resident():
    """KiB of memory that this process has now, and had at most."""
    with open("/proc/self/status", encoding="ascii") as file:
        found = {line.split(":")[0]: line.split()[1] for line in file if line.startswith(("VmRSS", "VmHWM"))}
    return int(found["VmRSS"]), int(found["VmHWM"])


class Bridge:
    """A bridge to a port of this machine, with what is found of it."""

    def __init__(self, port, is_five, pause=None):
        if pause is not None:
            link.LEAST_PAUSE = link.MOST_PAUSE = pause
        self.controller, self.said = Controller(), []
        self.bridge = module.Bridge(plant(), lambda: self.controller, link.Address("127.0.0.1", port, 20, "", is_five), Topics("plant"), 10000, on_state=self.said.append)
        self.bridge.start()

    def until(self, what, condition, seconds):
        ends = time.monotonic() + seconds
        while not condition():
            if time.monotonic() > ends or self.bridge.ended.is_set():
                raise AssertionError(f"{what}: {self.found()} {self.said[-3:]}")
            time.sleep(0.01)

    def found(self):
        bridge = self.bridge
        return {"has_ended": bridge.ended.is_set(), "fault": repr(bridge.fault), "faults": bridge.faults, "connections": bridge.broker.connections, "sets": bridge.sets,
                "refused": bridge.refused, "done": self.controller.done, "waits": bridge.broker.waits, "said": self.said[-3:]}


# ---- clients

VALUES = ('7', '{"value": 7, "id": "\\ud800"}', '{"value": {"x": 1}}', '{"value": 12.5, "status": 128, "id": 4}', '{"value": {"value": 1, "status": 2}}', 'true', 'null', '[]', '{}', '"\\udfff"',
          '"text"', '{"value": {"x": 1}, "status": {}}', '{"value": 1, "status": {"value": 1, "status": 1}}', '1e999999', '-0', '"00ff"', '{"id": {}}', '{"value": "nan", "id": 7}', '"a\\u0000b"', '"\\u2028"',
          '{"value": true, "status": 1}', '{"value": [1], "status": 2}', '0x7', 'NaN', '"' + 3000 * "9" + '"', 5000 * "1", '{"value": 7, "id": "' + 128 * "\\u00e4" + '"}', "[" * 5000, '{"a":' * 2000)


def payload_of(rng):
    """A payload of a set: one of those above, one that is bent, or any octets."""
    octets = bytearray(rng.choice(VALUES).encode())
    for _ in range(rng.choice((0, 0, 1, 1, 2, 5))):
        at = rng.randrange(len(octets) + 1)
        rng.choice((lambda: octets.insert(at, rng.randrange(256)), lambda: octets.__delitem__(slice(at, at + rng.randrange(4))), lambda: octets.__setitem__(slice(at, at), rng.choice(VALUES).encode()),
                    lambda: octets.__setitem__(slice(at, at), rng.choice((b'"', b"{", b"}", b"\\u", b"\\ud83d", b":", b",", b"\xff", b"\xed\xa0\x80")))))()
    return bytes(octets) if rng.random() < 0.9 else rng.randbytes(rng.randrange(200))


def topic_of(rng):
    signal = f"{rng.choice(('input', 'output', 'output'))}_{rng.randrange(len(KINDS) + 1)}"
    odd = "".join(rng.choice(string.printable[:90] + "äß€") for _ in range(rng.randrange(1, 30))).replace("+", "-").replace("#", "-")
    return rng.choice((f"plant/pump-1/{signal}/set",) * 6 + (f"plant/pump-1/{odd}/set", f"plant/{odd}/{signal}/set", f"plant/pump/1.{signal}/set", f"plant/{odd}"))


def messages(port, count, seed):
    """Half of the messages by each version. Returns what was found."""
    from paho.mqtt import client as mqtt
    told = []
    for is_five in (True, False):
        rng = random.Random(seed + is_five)
        made = Bridge(port, is_five)
        made.until("a connection", lambda: made.bridge.broker.is_connected, 20)
        form = {} if not hasattr(mqtt, "CallbackAPIVersion") else {"callback_api_version": mqtt.CallbackAPIVersion.VERSION1}
        client = mqtt.Client(client_id="", protocol=mqtt.MQTTv311, **form)
        client.connect("127.0.0.1", port, 60)
        client.loop_start()
        begins = resident()[0]
        for number in range(count // 2):
            client.publish(topic_of(rng), payload_of(rng), qos=rng.choice((0, 1)), retain=rng.random() < 0.02)
            while len(client._out_messages) > 100 or client.want_write():
                time.sleep(0.001)
            if number == 500:
                begins = resident()[0]
        before = made.bridge.sets
        client.publish("plant/pump-1/output_0/set", "7", qos=1).wait_for_publish()
        made.until("the last set", lambda: made.bridge.sets > before, 60)
        time.sleep(0.5)
        told.append({**made.found(), "grown": resident()[0] - begins})
        client.disconnect()
        client.loop_stop()
        made.bridge.stop()
    return told


def long(port, megabytes):
    """A retained message that is too long, which comes at the start, and sets after it."""
    from paho.mqtt import publish
    begins = resident()
    made = Bridge(port, is_five=False)
    made.until("a connection", lambda: made.bridge.broker.is_connected, 20)
    made.until("the long set", lambda: made.bridge.refused >= 1, 300)
    publish.single("plant/pump-1/output_0/set", "7", qos=1, port=port, hostname="127.0.0.1")
    made.until("a set", lambda: made.controller.done >= 1, 60)
    told = {**made.found(), "grown": resident()[1] - begins[0], "megabytes": megabytes}
    made.bridge.stop()
    return told


# ---- a broker

def packet(first, body):
    return bytes((first,)) + length_octets(len(body)) + body


def publish_of(rng, is_five):
    topic = topic_of(rng).encode("utf-8", "replace")[:200]
    qos = rng.choice((0, 0, 1))
    front = struct.pack(">H", len(topic)) + topic + (struct.pack(">H", rng.randrange(65536)) if qos else b"")
    return packet(0x30 | qos << 1 | rng.choice((0, 1, 8, 9)), front + (b"\0" if is_five else b"") + payload_of(rng))


def bent(rng, octets):
    octets = bytearray(octets)
    for _ in range(rng.randrange(1, 6)):
        if octets:
            octets[rng.randrange(len(octets))] = rng.randrange(256)
    return bytes(octets[:rng.randrange(len(octets) + 1)] if rng.random() < 0.3 else octets)


def sendings(rng, is_five):
    """What a broker sends after a CONNECT. A None is a pause."""
    accepted = packet(0x20, b"\0\0\0" if is_five else b"\0\0")
    some = [publish_of(rng, is_five) for _ in range(rng.randrange(1, 8))]
    kind = rng.randrange(12)
    if kind == 0:
        return [rng.randbytes(rng.randrange(200))]
    if kind == 1:
        return [bent(rng, accepted)]
    if kind == 2:
        return [accepted, *(bent(rng, one) for one in some)]
    if kind == 3:  # a length that never comes
        return [accepted, bytes((rng.choice((0x30, 0x32, 0x90, 0x40)),)) + length_octets(rng.randrange(1, 268435456)) + rng.randbytes(rng.randrange(3000))]
    if kind == 4:  # a long message, which is whole
        length = rng.randrange(90000, 400000)
        return [accepted, packet(0x30, b"\0\x16plant/pump-1/x/set1234" + (b"\0" if is_five else b"") + bytes(length)), *some]
    if kind == 5:  # QoS 2, and what belongs to it
        return [accepted, *some, packet(rng.choice((0x34, 0x36, 0x50, 0x62, 0x70)), rng.randbytes(rng.randrange(20)))]
    if kind == 6:  # packets that only a client sends
        return [accepted, packet(rng.choice((0x10, 0x82, 0xA2, 0xC0, 0xE0, 0x00, 0xF0)), rng.randbytes(rng.randrange(40))), *some]
    if kind == 7:  # answers to nothing, and pings that are answered
        return [accepted, *(rng.choice((b"\xd0\0", b"\xc0\0", packet(0x40, rng.randbytes(2)), packet(0x90, rng.randbytes(3)))) for _ in range(200)), *some]
    if kind == 8:
        return [accepted, *some, packet(0xE0, rng.randbytes(rng.randrange(30)))]
    if kind == 9:  # properties
        return [packet(0x20, b"\0\0" + length_octets(40) + rng.randbytes(40)), *some]
    if kind == 10:
        return [accepted, *[octets for one in some for octets in (one[:3], None, one[3:])]]
    return [accepted, *some, None]


def connections(count, seed):
    door = socket.socket()
    door.bind(("127.0.0.1", 0))
    door.listen()
    door.settimeout(60)
    told = []
    for is_five in (True, False):
        rng = random.Random(seed + is_five)
        made = Bridge(door.getsockname()[1], is_five, pause=0.0)
        before = most = 0
        for number in range(count // 2):
            serve(door, rng, is_five)
            if made.bridge.ended.is_set():
                break
            if number == min(100, count // 8):
                before = resident()[0]
            if number % 50 == 0:
                most = max(most, resident()[0])
        # And one that is well: all is published, and a set is done.
        with accepted(door) as one:
            one.sendall(packet(0x20, b"\0\0\0" if is_five else b"\0\0"))
            done = made.controller.done
            one.sendall(packet(0x30, b"\0\x19plant/pump-1/output_0/set" + (b"\0" if is_five else b"") + b"7"))
            made.until("the last set", lambda: made.controller.done > done, 60)
            told.append({**made.found(), "grown": max(most, resident()[0]) - before})
        made.bridge.stop()
    return told


def accepted(door):
    one = door.accept()[0]
    one.settimeout(10)
    if one.recv(65536)[:1] != b"\x10":
        raise AssertionError("it does not speak MQTT")
    return one


def serve(door, rng, is_five):
    with accepted(door) as one:
        reads = threading.Thread(target=swallow, args=(one,), daemon=True)
        if rng.random() < 0.8:  # some brokers never read
            reads.start()
        try:
            for octets in sendings(rng, is_five):
                if octets is None:
                    time.sleep(0.01)
                else:
                    one.sendall(octets)
            one.shutdown(socket.SHUT_WR)
        except OSError:
            pass
        if reads.ident is not None:
            reads.join(0.05)


def swallow(one):
    try:
        while one.recv(65536):
            pass
    except OSError:
        pass


if __name__ == "__main__":
    act = {"messages": messages, "connections": connections, "long": long}[sys.argv[1]]
    print(json.dumps(act(*map(int, sys.argv[2:]))))
