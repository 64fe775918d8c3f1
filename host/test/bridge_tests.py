"""Tests of the bridge to MQTT: `host/test/run topics bridge_words bridge_bounds bridge_fuzz bridge bridge_own bridge_stuck bridge_hostile bridge_tls`. They
take Debian's mosquitto, mosquitto-clients and python3-paho-mqtt."""

import contextlib
import json
import os
import random
import re
import shutil
import signal
import socket
import subprocess
import sys
import time

from wire import HERE, TOP, Program, awaited, talk_to

BRIDGE = os.path.join(TOP, "host", "bridge", "nandutable-bridge")
PYTHON = "/usr/bin/python3"  # the one that has Debian's modules
BROKER = "/usr/sbin/mosquitto"
LATE = 90
PLACES = [os.path.join(TOP, "host", "bridge"), os.path.join(TOP, "host", "python")]
sys.path[:0] = PLACES


BOUNDS = """
import json, resource, socket, sys, threading, time
sys.path[:0] = sys.argv[1:]
from nandutable import lines
from nandutable.state import PlantState
from nandutable_bridge.bridge import Bridge
from nandutable_bridge.broker import Address
from nandutable_bridge.topics import Topics

door = socket.socket()
door.setsockopt(socket.SOL_SOCKET, socket.SO_RCVBUF, 4096)
door.bind(("127.0.0.1", 0))
door.listen()
state = PlantState()
bridge = Bridge(state, lambda: None, Address("127.0.0.1", door.getsockname()[1], 3600), Topics("plant"))
bridge.start()
link, _ = door.accept()
link.recv(4096)
link.sendall(bytes.fromhex("2003000000"))


def change(number):
    raw = '"%s"' % (str(number) * 1024)[:1024]
    state.take(lines.Signal("", "a", f"a.x{number % 100}", raw, True, None))


def resident():
    with open("/proc/self/status") as file:
        return next(int(line.split()[1]) for line in file if line.startswith("VmRSS"))


for number in range(2000):
    change(number)
    time.sleep(0.0005)
before = resident()
for number in range(30000):
    change(number)
    if number % 15 == 0:
        state.take(lines.Alarm("", "a", 1, 1, 1, 0, b"", "low", "diagnosis"))
        time.sleep(0.0005)
time.sleep(1)
found = [bridge.broker.waits, bridge.broker.dropped + bridge.changes.dropped, resident() - before]
begins = time.monotonic()
bridge.stop()
print(json.dumps([*found, time.monotonic() - begins]))
"""

# Brokers that end a connection after its TLS handshake, before CONNECT is written: so does one that wants a certificate. What is logged of each.
ENDED = """
import json, socket, ssl, struct, sys, threading, time
certificate, key, *places = sys.argv[1:]
sys.path[:0] = places
from nandutable_bridge.broker import Address, Broker


class Late(ssl.SSLSocket):
    def do_handshake(self, *words):
        super().do_handshake(*words)
        time.sleep(0.5)


def end(door, is_reset):
    made = theirs.wrap_socket(door.accept()[0], server_side=True)
    if is_reset:
        made.setsockopt(socket.SOL_SOCKET, socket.SO_LINGER, struct.pack("ii", 1, 0))
    made.close()


said = []
theirs, ours = ssl.SSLContext(ssl.PROTOCOL_TLS_SERVER), ssl.create_default_context(cafile=certificate)
theirs.load_cert_chain(certificate, key)
ours.sslsocket_class = Late
for is_reset in (True, False):
    door = socket.create_server(("127.0.0.1", 0))
    threading.Thread(target=end, args=(door, is_reset), daemon=True).start()
    address = Address("localhost", door.getsockname()[1], context=ours)
    broker, before = Broker(address, ("plant/_bridge", b"{}"), None, lambda *_: None, said.append), len(said)
    while len(said) == before:
        broker.turn(0.1)
print(json.dumps(said))
"""


def same(what, came, wanted):
    if came != wanted:
        raise AssertionError(f"{what}: {came!r}, and should be {wanted!r}")


def lacking():
    """What the tests with a broker take and is not installed, or None."""
    missing = [tool for tool in (BROKER, "mosquitto_sub", "mosquitto_pub") if shutil.which(tool) is None]
    if subprocess.run([PYTHON, "-c", "import paho.mqtt.client"], capture_output=True).returncode != 0:
        missing.append("python3-paho-mqtt")
    return f"NOT TRIED: {', '.join(missing)} is not installed (Debian: mosquitto, mosquitto-clients, python3-paho-mqtt)" if missing else None


def fuzz(*words):
    """Runs bridge_fuzz.py. Returns what it found."""
    ran = subprocess.run([PYTHON, os.path.join(HERE, "bridge_fuzz.py"), *map(str, words)], capture_output=True, text=True, timeout=3600)
    same(f"bridge_fuzz.py {words}: {ran.stderr[-2000:]}", ran.returncode, 0)
    return json.loads(ran.stdout)


def publish(port, topic, *words):
    """Publishes by a broker of this machine. Returns whether it did."""
    return subprocess.run(["mosquitto_pub", "-p", str(port), "-t", topic, *words], capture_output=True).returncode == 0


class Local(Program):
    """A program at the end of the controller."""

    def __init__(self, wire, *words, **more):
        super().__init__(wire, "c0", *words[1:], name=words[0], **more)


class Subscriber(Local):
    """What mosquitto_sub prints: of each topic the payloads, with whether they were retained."""

    def __init__(self, wire, *words):
        super().__init__(wire, "/usr/bin/mosquitto_sub", *words, "-F", "%r %t %p")

    def messages(self, topic):
        with self.news:
            lines = [line for _, line in self.lines]
        found = [line.split(" ", 2) for line in lines]
        return [(retained == "1", json.loads(payload)) for retained, name, payload in (one for one in found if len(one) == 3) if name == topic]

    def until(self, topic, seconds=20, is_newest=True, **wanted):
        """Waits until the newest payload of the topic, or any one, has these entries. Returns it."""
        ends = time.monotonic() + seconds
        while True:
            found = self.messages(topic)
            for _, payload in found[-1:] if is_newest else found:
                if all(key in payload and payload[key] == value for key, value in wanted.items()):
                    return payload
            if time.monotonic() > ends:
                raise AssertionError(f"{topic} with {wanted}: {found[-3:]}\n{self.text()[-3000:]}")
            time.sleep(0.02)


class BridgeTests:
    """The tests that `host/test/run` takes over."""

    # ---- without a broker

    def topics(self):
        """What a payload of `set` may be, and what the controller gets for it."""
        from nandutable_bridge import topics
        for text, value, told in (("12.5", "12.5", None), ("true", True, None), ('"a"', "a", None), ('{"value": 7, "id": "x"}', "7", "x"), ('{"value": -1, "id": 5}', "-1", 5),
                                  ('{"value": 12.5, "status": 128}', {"value": "12.5", "status": "128"}, None), (' {"value" : false } ', False, None), ("1e400", "1e400", None)):
            same(f"a set of {text}", topics.read_set(text.encode()), (value, told))
        for text, words in (("", "not JSON"), ("on", "not JSON"), ("{", "not JSON"), ("NaN", "in quotes"), ('{"value": NaN}', "in quotes"), ("{}", "key value"), ('{"val": 1}', "key value"),
                            ('{"value": 1, "more": 2}', "no other"), ('{"value": 1, "value": 2}', "twice"), ('{"value": 1, "id": [1]}', "id is"), ('{"value": 1, "id": 1.5}', "id is"),
                            ('{"value": 1, "id": "%s"}' % ("x" * 129), "id is"), ("[" * 4000, "not JSON"), ("1" * 9000, "more than 8192"),
                            ('{"value": 7, "id": "\\ud800"}', "half of a surrogate")):
            self.refuses(topics.BadValue, words, topics.read_set, text.encode())
        self.refuses(topics.BadValue, "not JSON", topics.read_set, b"\xff")
        number = topics.Number
        for kind, value, text in (("Float32", number("12.5"), "12.5"), ("Float32", number("1e400"), "1e400"), ("Float32", "nan", "nan"), ("Unsigned8", number("5.0"), "5"), ("Unsigned8", number("5.5"), "5.5"),
                                  ("Integer16", number("-3.000"), "-3"), ("Unsigned8", "0xff", "0xff"), ("Boolean", True, "true"), ("Boolean", number("1"), "1"), ("VisibleString", 'a "b" \\', '"a \\"b\\" \\\\"'),
                                  ("UnicodeString8", "ä", '"ä"'), ("VisibleString", "", '""'), ("OctetString", "00fF", "00fF"), ("Date", "00" * 7, "00" * 7), ("N2", number("4.0"), "4"),
                                  ("Float32+Unsigned8", {"value": number("1.5"), "status": number("128")}, "1.5+128"), ("OctetString2+Unsigned8", {"value": "0a1b", "status": number("1")}, "0a1b+1"),
                                  ("Unsigned8+Unsigned8", "1+2", "1+2")):
            same(f"{value!r} for {kind}", topics.text_of(kind, value), text)
        for kind, value in (("Unsigned8", True), ("Unsigned8", None), ("Unsigned8", [1]), ("Unsigned8", "1 2"), ("Unsigned8", "1\nset x 1"), ("Unsigned8", ""), ("VisibleString", number("1")),
                            ("VisibleString", "a\nb"), ("VisibleString", "\ud800"), ("OctetString", number("12")), ("OctetString", "0a 0b"), ("Unsigned8", {"value": number("1"), "status": number("2")}),
                            ("Float32+Unsigned8", {"value": {"value": 1, "status": 2}, "status": number("1")}), ("Float32+Unsigned8", {"x": number("1")}),
                            ("Float32+Unsigned8", {"value": {"x": number("1")}, "status": number("1")})):
            self.refuses(topics.BadValue, "", topics.text_of, kind, value)
        for prefix in ("", "/", "a/", "/a", "a//b", "a+", "a/#", "$SYS", "a\n", "x" * 201):
            self.refuses(topics.BadPrefix, "", topics.Topics, prefix)
        made = topics.Topics("plant/hall-1")
        same("topics", (made.signal("pump.2.level"), made.signal("pump.2.level", "about"), made.station("pump.2", "state"), made.station(None, "controller")),
             ("plant/hall-1/pump.2/level", "plant/hall-1/pump.2/level/about", "plant/hall-1/pump.2/_state", "plant/hall-1/_controller"))
        for topic, name in (("plant/hall-1/pump.2/level/set", "pump.2.level"), ("plant/hall-1/pump.2/level", None), ("plant/hall-1/a/b/c/set", None), ("plant/hall-2/a/b/set", None),
                            ("plant/hall-1//b/set", None), ("plant/hall-1/a/" + "b" * 500 + "/set", None),
                            ("plant/hall-1/pump/2.level/set", None), ("plant/hall-1/+/b/set", None), ("plant/hall-1/a/#/set", None), ("plant/hall-1/\u00e4/b/set", None), ("plant/hall-1/a/b\n/set", None)):
            same(topic, made.name_of_set(topic), name)
        same("half of a surrogate pair", topics.payload({"id": "\ud800"}), b'{"id": "?"}')
        same("what is no number is text", topics.payload({"value": "nan"}), b'{"value": "nan"}')

    def refuses(self, kind, words, call, *given):
        try:
            came = call(*given)
        except kind as fault:
            same(f"{given}: {fault}", words in str(fault), True)
        else:
            raise AssertionError(f"{given} is accepted as {came!r}")

    def bridge_words(self):
        """What the program refuses, and that it says so."""
        if lacks := lacking():
            return lacks
        path = self.path("password")
        with open(path, "w", encoding="ascii") as file:
            file.write("secret\n")
        os.chmod(path, 0o644)
        cases = ((64, "name an interface"), (64, "name an interface", "eth2", "--socket", "x"), (64, "name the plan", "eth2"), (64, "it runs already", "--socket", "x", "--", "--retry", "5"),
                 (64, "--prefix: a prefix is", "--socket", "x", "--prefix", "a/#"), (64, "it takes 1 to 65535", "--socket", "x", "--port", "0"),
                 (64, "unrecognized arguments: --hos", "--socket", "x", "--hos", "y"), (64, "--password-file takes --username", "--socket", "x", "--password-file", "y"),
                 (64, "--cert and --key take --cafile", "--socket", "x", "--cert", "y"), (66, "No such file", "--socket", "x", "--cafile", "/nonexistent"),
                 (66, "--password-file", "--socket", "x", "--username", "u", "--password-file", "/nonexistent"),
                 (77, "every user may read", "--socket", "x", "--username", "u", "--password-file", path), (0, "", "--help"), (0, "", "--version"))
        # One process for all: a start takes long on a busy machine.
        script = ("import contextlib, io, json, sys\nsys.path[:0] = json.loads(sys.argv[1])\nfrom nandutable_bridge.program import main\n"
                  "for words in json.loads(sys.argv[2]):\n    told = io.StringIO()\n    with contextlib.redirect_stderr(told), contextlib.redirect_stdout(io.StringIO()):\n"
                  "        try:\n            status = main(words)\n        except SystemExit as end:\n            status = end.code\n    print(json.dumps([status, told.getvalue()]))\n")
        ran = subprocess.run([PYTHON, "-c", script, json.dumps(PLACES), json.dumps([case[2:] for case in cases])], capture_output=True, text=True, timeout=120)
        came = [json.loads(line) for line in ran.stdout.splitlines()]
        same(f"answers: {ran.stderr}", len(came), len(cases))
        for (status, words, *line), (ended, told) in zip(cases, came):
            same(f"{line}: {told}", (ended, words in told), (status, True))
        ran = subprocess.run([PYTHON, BRIDGE, "eth2"], capture_output=True, text=True, timeout=60)
        same("the program", (ran.returncode, ran.stderr), (64, "nandutable-bridge: name the plan of each station after the interface (nandutable-bridge --help)\n"))

    def bridge_bounds(self):
        """A broker that accepts the connection and then reads nothing, 30,000 changes with a KiB each and 2,000 alarms: what waits is bounded."""
        if lacks := lacking():
            return lacks
        ran = subprocess.run([PYTHON, "-c", BOUNDS, *PLACES], capture_output=True, text=True, timeout=300)
        same(f"its end: {ran.stderr}", ran.returncode, 0)
        waits, dropped, grown, seconds = json.loads(ran.stdout)
        same(f"{waits} payloads wait, {dropped} events are dropped", (waits <= 100 + 256 + 20 + 2, dropped >= 2000 - 256 - 20), (True, True))
        same(f"the memory grows by {grown} KiB", grown < 6000, True)
        same(f"it ends after {seconds} s", seconds < 10, True)
        return f"{waits} payloads wait, the memory grows by {grown} KiB"

    def bridge_fuzz(self):
        """What clients and brokers may send: no end, no connection lost by what a client sends, bounded memory; a retained message that is too long."""
        if lacks := lacking():
            return lacks
        count = self.asked.fuzz or (1500 if self.asked.short else 10000)
        with socket.socket() as free:
            free.bind(("127.0.0.1", 0))
            port = free.getsockname()[1]
        path, store = self.path("fuzz.conf"), self.path("long")
        with open(path, "w", encoding="ascii") as file:
            file.write(f"listener {port} 127.0.0.1\nallow_anonymous true\npersistence false\nuser root\nset_tcp_nodelay true\n")
        with subprocess.Popen([BROKER, "-c", path], stdout=subprocess.DEVNULL, stderr=subprocess.DEVNULL) as broker:
            try:
                awaited("the broker", lambda: publish(port, "plant/x", "-m", "7"))
                for found in fuzz("messages", port, count, self.asked.seed or 1):
                    same(f"{found}", (found["has_ended"], found["faults"], found["connections"], [one for one in found["said"] if "connected" not in one]), (False, 0, 1, []))
                    same(f"its memory: {found}", found["grown"] < 8192, True)
                megabytes = 200 if self.asked.fuzz else 20
                with open(store, "wb") as file:
                    file.truncate(megabytes << 20)
                same("the long message is kept", publish(port, "plant/pump-1/output_0/set", "-r", "-f", store, "-V", "mqttv311"), True)
                found = fuzz("long", port, megabytes)
                same(f"{found}", (found["has_ended"], found["connections"], found["grown"] < 8192), (False, 1, True))
            finally:
                broker.terminate()
        links = count // 20
        for one in fuzz("connections", links, self.asked.seed or 1):
            same(f"{one}", (one["has_ended"], one["faults"], one["grown"] < 8192), (False, 0, True))
        return f"{count} messages, {links} connections; a message of {megabytes} MB takes {found['grown']} KiB"

    # ---- a broker, a bridge and a station

    def broker(self, wire, *lines, port=1883):
        """Debian's mosquitto, which keeps nothing over its end."""
        if not hasattr(wire, "has_loopback"):
            wire.has_loopback = wire.link("c0", "set", "lo", "up")
        path = self.path("mosquitto.conf")
        with open(path, "w", encoding="ascii") as file:
            file.write("\n".join((f"listener {port} 127.0.0.1", "user root", "persistence false", "set_tcp_nodelay true", *(lines or ("allow_anonymous true",)), "")))
        made = Local(wire, BROKER, "-c", path)
        ends = time.monotonic() + 20
        while True:
            link = wire.opened("c0", socket.AF_INET, socket.SOCK_STREAM, 0)
            try:
                link.connect(("127.0.0.1", port))
                return made
            except ConnectionRefusedError:
                if time.monotonic() > ends:
                    raise
                time.sleep(0.02)
            finally:
                link.close()

    def bridge_program(self, wire, *words, prefix="plant", log="2>&1"):
        """A bridge, whose log is among its lines."""
        return Local(wire, "/bin/sh", "-c", f'exec "$0" "$@" {log}', PYTHON, BRIDGE, "--prefix", prefix, *words)

    def publish(self, wire, topic, text, *words):
        wire.within(wire.controller, "mosquitto_pub", "-t", topic, "-m", text, *words)

    def flow(self, wire, *options):
        """The flow station and its controller, which listens at a socket."""
        path = self.from_gsdml("examples/gsdml/*FlowStation*.xml", "flow-7", "--slot", "2=FLOW4", "--slot", "3=CARRIER", "--submodule", "3:1=TEXT16", interval=2)
        device = self.device(wire, f"flow-{len(os.listdir(self.folder))}", "--station", path, name=None)
        lines = self.path("flow-lines")
        controller = self.flow_controller(wire, path, "--assign", "02:00:00:00:00:01", *options)
        return path, device, controller, lines

    def flow_controller(self, wire, path, *options):
        return self.controller(wire, path, "--signals=only", "--times", "--retry", "1", "--socket", self.path("flow-lines"), *options)

    def exchanged(self, lines):
        """Frames received and lost, by the controller's own count."""
        talker, text = talk_to(lines, 20), b""
        talker.settimeout(20)
        talker.sendall(b"statistics\n")
        while not (found := re.search(rb"^cyclic received ([0-9]+) lost ([0-9]+)$", text, re.MULTILINE)):
            text += talker.recv(65536)
        talker.close()
        return int(found[1]), int(found[2])

    def bridge(self, wire):
        """Values, sets, states, alarms and diagnosis over a real broker; the broker, the bridge and the controller are killed and come back."""
        if lacks := lacking() or self.has_no_signals():
            return lacks
        broker = self.broker(wire)
        path, device, controller, lines = self.flow(wire)
        everything = Subscriber(wire, "-t", "plant/#")
        bridge = self.bridge_program(wire, "--socket", lines)
        everything.until("plant/_bridge", state="online")
        self.bridge_values(everything, device)
        told = self.bridge_sets(wire, everything, device)
        self.bridge_events(everything, device)
        first = self.exchanged(lines)
        # The broker is gone for a while. What changes then is there when it is back, also what never changed.
        broker.end(9)
        for number in range(20):
            device.ask(f"input 2 1 {number:08x}0000000000", "note done")
        device.ask("input 2 1 4048f5c30000007700", "note done")
        time.sleep(2 if self.asked.short else 60)
        broker = self.broker(wire)
        everything.end(9)
        everything = Subscriber(wire, "-t", "plant/#")
        everything.until("plant/_bridge", state="online")
        everything.until("plant/flow-7/slot2_flow", value=3.14, quality="good")
        everything.until("plant/flow-7/slot2_total", value=0x77)
        everything.until("plant/flow-7/slot3_sub3_lamp/about", type="Unsigned8", direction="output")
        everything.until("plant/flow-7/_state", state="exchanging")
        # The bridge is killed: the broker says so. Another one brings all up to date.
        bridge.end(9)
        everything.until("plant/_bridge", state="offline")
        device.ask("input 2 1 3f8000000000000100", "note done")
        bridge = self.bridge_program(wire, "--socket", lines)
        everything.until("plant/_bridge", state="online")
        everything.until("plant/flow-7/slot2_flow", value=1.0, quality="good")
        second = self.exchanged(lines)
        same(f"frames lost while the broker and the bridge were killed, of {second[0] - first[0]}", (second[1] - first[1], second[0] > first[0] + 500), (0, True))
        # The controller is killed.
        controller.end(9)
        everything.until("plant/_controller", running=False)
        everything.until("plant/flow-7/_state", state="ended")
        everything.until("plant/flow-7/slot2_flow", value=1.0, quality="bad")
        self.publish(wire, "plant/flow-7/slot3_sub3_lamp/set", "9")
        everything.until("plant/flow-7/slot3_sub3_lamp/answer", ok=False, code="no_controller")
        os.remove(lines)
        controller = self.flow_controller(wire, path)
        everything.until("plant/_controller", 30, running=True)
        everything.until("plant/flow-7/_state", LATE, state="exchanging")
        everything.until("plant/flow-7/slot2_flow", value=1.0, quality="good")
        # An orderly end says that the bridge is offline, and the exchange goes on.
        same("the end of the bridge", bridge.end(), 0)
        everything.until("plant/_bridge", state="offline")
        received, lost = self.exchanged(lines)
        same("frames lost by the second controller", lost, 0)
        controller.end()
        device.end()
        broker.end()
        return f"{told} sets; {second[0] - first[0]} frames received and 0 lost while the broker and the bridge were killed"

    def bridge_own(self, wire):
        """A bridge that starts the controller. It ends it in order. If the bridge is killed, the exchange goes on and loses no frame, and the same command
        uses the controller again; another plan is refused. If the controller ends, so does the bridge, and publishes it."""
        if lacks := lacking() or self.has_no_signals():
            return lacks
        broker = self.broker(wire)
        path = self.from_gsdml("examples/gsdml/*FlowStation*.xml", "flow-7", "--slot", "2=FLOW4", "--slot", "3=CARRIER", "--submodule", "3:1=TEXT16", interval=2)
        device = self.device(wire, "bridge-own", "--station", path, name=None)
        everything = Subscriber(wire, "-t", "plant/#")

        def begins(*more):
            bridge = self.bridge_program(wire, "c0", path, *more)
            everything.until("plant/flow-7/_state", LATE, state="exchanging")
            everything.until("plant/_bridge", state="online")
            everything.until("plant/flow-7/slot2_flow", quality="good")
            everything.until("plant/_controller", running=True, link=True, interface="c0", mac="02:00:00:00:00:02")
            return bridge
        bridge = begins("--", "--assign", "02:00:00:00:00:01")
        number, _ = controller_of(bridge)
        same("its end", bridge.end(), 0)
        device.expect("phase none", 20)
        same("the controller has ended too", os.path.exists(f"/proc/{number}"), False)
        everything.until("plant/_bridge", state="offline")
        everything.until("plant/flow-7/_state", state="ended")
        everything.until("plant/flow-7/slot2_flow", quality="bad")
        bridge = begins("--view", "8893")
        same("the page", self.page_at(wire, 8893)[:15], b"HTTP/1.1 200 OK")
        told = self.goes_on(wire, everything, device, bridge, begins, path)
        bridge = begins()
        os.kill(int(controller_of(bridge)[0]), 9)
        status = bridge.wait(20)
        same(f"its status after the controller's: {bridge.text()}", (status, bridge.has("nandutable-bridge: the controller was ended by signal 9")), (137, True))
        everything.until("plant/_controller", running=False)
        everything.until("plant/flow-7/slot2_flow", quality="bad")
        everything.until("plant/_bridge", state="offline")
        bridge = self.bridge_program(wire, "no-such-if", path)
        same(f"its status without an interface: {bridge.text()}", (bridge.wait(20), "no-such-if" in bridge.text()), (66, True))
        device.end()
        broker.end()
        return told

    def goes_on(self, wire, everything, device, bridge, begins, path):
        """Kills a bridge that has started its controller, and starts it again."""
        number, place = controller_of(bridge)
        self.publish(wire, "plant/flow-7/slot3_sub3_lamp/set", "7")
        device.expect("output 3 3 07")
        ends = [line for _, line in device.lines].count("phase none")
        first = self.exchanged(place)
        bridge.end(9)
        everything.until("plant/_bridge", state="offline")
        time.sleep(1)
        second = self.exchanged(place)
        same(f"frames lost of {second[0] - first[0]} while nobody is there", (second[1] - first[1], second[0] > first[0] + 100), (0, True))
        other = self.signal_plan("pump-1", [])
        refused = self.bridge_program(wire, "c0", other)
        same(f"another plan: {refused.text()}", (refused.wait(30), f"End it by `kill {number}`, or use it by --socket {place}" in refused.text()), (75, True))
        bridge = begins()
        same("the same controller", (controller_of(bridge), bridge.has("nandutable-bridge: uses the controller that runs already")), ((number, place), True))
        everything.until("plant/flow-7/slot3_sub3_lamp", value=7, quality="good")
        self.publish(wire, "plant/flow-7/slot3_sub3_lamp/set", "8")
        device.expect("output 3 3 08")
        third = self.exchanged(place)
        same(f"frames lost of {third[0] - first[0]}, and relations that ended", (third[1] - first[1], [line for _, line in device.lines].count("phase none")), (0, ends))
        same("its end in order", bridge.end(), 0)
        device.expect("phase none", 20)
        awaited("the end of the controller", lambda: not os.path.exists(f"/proc/{number}"))
        everything.until("plant/_bridge", state="offline")
        return f"{third[0] - first[0]} frames and 0 lost while the bridge was killed and started again"

    def page_at(self, wire, port):
        """What the page's server answers."""
        with wire.opened("c0", socket.AF_INET, socket.SOCK_STREAM, 0) as link:
            link.settimeout(20)
            link.connect(("127.0.0.1", port))
            link.sendall(b"GET / HTTP/1.0\r\nHost: localhost\r\n\r\n")
            came = b""
            while more := link.recv(65536):
                came += more
            return came

    def bridge_stuck(self, wire):
        """A broker that is stopped, a subscriber that never reads, a log on a full disk and one that nobody reads: the exchange loses no frame, the
        bridge does not grow, and the newest values are there when the broker goes on."""
        if lacks := lacking() or self.has_no_signals():
            return lacks
        broker = self.broker(wire, "allow_anonymous true", "max_queued_messages 100")
        _, device, controller, lines = self.flow(wire)
        everything = Subscriber(wire, "-t", "plant/#")
        asleep = self.never_reads(wire)
        ours, theirs = os.pipe()
        os.set_blocking(theirs, False)
        with contextlib.suppress(BlockingIOError):
            while os.write(theirs, 65536 * b"x"):
                pass
        os.set_blocking(theirs, True)
        bridges = [self.bridge_program(wire, "--socket", lines, "--keepalive", "5"),
                   self.bridge_program(wire, "--socket", lines, prefix="full", log=">/dev/full 2>/dev/full"),
                   self.bridge_program(wire, "--socket", lines, prefix="unread", log=f"2>/proc/{os.getpid()}/fd/{theirs}")]
        others = {prefix: Subscriber(wire, "-t", f"{prefix}/#") for prefix in ("full", "unread")}
        everything.until("plant/_bridge", LATE, state="online")
        for prefix, other in others.items():
            other.until(f"{prefix}/_bridge", LATE, state="online")
        # Each of them has all that it will keep.
        for prefix, other in {"plant": everything, **others}.items():
            for topic in ("slot2_flow", "_ports", "_statistics"):
                other.until(f"{prefix}/flow-7/{topic}", LATE)
        first, before = self.exchanged(lines), [resident(bridge) for bridge in bridges]
        broker.process.send_signal(signal.SIGSTOP)
        ends, number = time.monotonic() + (8 if self.asked.short else 60), 0
        while time.monotonic() < ends:
            number += 1
            device.ask(f"input 2 1 {number % 1000 + 0x40000000:08x}{number:08x}00", "note done")
            time.sleep(0.004)
        broker.process.send_signal(signal.SIGCONT)
        device.ask("input 2 1 4048f5c30000007700", "note done")
        everything.until("plant/flow-7/slot2_flow", 60, value=3.14)
        everything.until("plant/flow-7/slot2_total", 60, value=0x77)
        for prefix, other in others.items():
            other.until(f"{prefix}/flow-7/slot2_flow", 60, value=3.14)
        everything.until("plant/_bridge", 60, state="online")
        second, after = self.exchanged(lines), [resident(bridge) for bridge in bridges]
        same(f"frames lost of {second[0] - first[0]}", (second[1] - first[1], second[0] > first[0] + 1000), (0, True))
        same(f"pages before {before} and after {after}", all(now - was < 512 for was, now in zip(before, after)), True)
        for bridge in bridges:
            same("its end", bridge.end(), 0)
        asleep.close()
        os.close(ours)
        os.close(theirs)
        controller.end()
        device.end()
        broker.end()
        return f"{number} changes while the broker was stopped, {second[0] - first[0]} frames received and 0 lost"

    def never_reads(self, wire):
        """A subscriber of everything that reads nothing, by MQTT 3.1.1."""
        link = wire.opened("c0", socket.AF_INET, socket.SOCK_STREAM, 0)
        link.setsockopt(socket.SOL_SOCKET, socket.SO_RCVBUF, 2048)
        link.connect(("127.0.0.1", 1883))
        link.sendall(bytes.fromhex("100f00044d5154540402000000036e6576"))
        link.sendall(bytes.fromhex("8206000100012300"))
        return link

    def bridge_hostile(self, wire):
        """In place of a broker: one that closes, one that is silent, one that sends what is not MQTT, and one that accepts the connection and then
        sends that. The bridge goes on, and with a real broker all topics are there; a message that is too long does not come."""
        if lacks := lacking() or self.has_no_signals():
            return lacks
        _, device, controller, lines = self.flow(wire)
        wire.link("c0", "set", "lo", "up")
        door = wire.opened("c0", socket.AF_INET, socket.SOCK_STREAM, 0)
        door.setsockopt(socket.SOL_SOCKET, socket.SO_REUSEADDR, 1)
        door.bind(("127.0.0.1", 1883))
        door.listen()
        door.settimeout(60)
        bridge = self.bridge_program(wire, "--socket", lines)
        rng, accepted = random.Random(69), bytes.fromhex("2003000000")
        publishes = (bytes.fromhex("30050003ff61ff"), bytes.fromhex("300800066100622f2f2f"), bytes.fromhex("3003ffff61"), bytes.fromhex("40020001"), bytes.fromhex("ffffffffff"), bytes.fromhex("62020007"))
        sent = [b"", *(rng.randbytes(rng.randrange(1, 200)) for _ in range(2)), *(accepted + rng.randbytes(rng.randrange(1, 200)) for _ in range(4)), *(accepted + one for one in publishes)]
        if not self.asked.short:
            sent += [accepted + rng.randbytes(rng.randrange(1, 200)) for _ in range(30)]
        for octets in sent:
            link, _ = door.accept()
            link.settimeout(20)
            same("it speaks MQTT", link.recv(65536)[:1], b"\x10")
            with contextlib.suppress(OSError):
                link.sendall(octets)
                time.sleep(0.1)
            link.close()
            same(f"it goes on after {octets.hex()}: {bridge.text()}", bridge.process.poll(), None)
        door.close()
        broker = self.broker(wire)
        everything = Subscriber(wire, "-t", "plant/#")
        everything.until("plant/_bridge", 60, state="online")
        everything.until("plant/flow-7/slot2_flow", quality="good")
        before = resident(bridge)
        path = self.path("long")
        with open(path, "wb") as file:
            file.write(b'"' + 20_000_000 * b"x" + b'"')
        wire.within(wire.controller, "mosquitto_pub", "-t", "plant/flow-7/slot3_sub3_lamp/set", "-f", path)
        self.publish(wire, "plant/flow-7/slot3_sub3_lamp/set", "5")
        everything.until("plant/flow-7/slot3_sub3_lamp/answer", 60, ok=True)
        same("its memory after a message of 20 MB", resident(bridge) - before < 1024, True)
        same("frames lost", self.exchanged(lines)[1], 0)
        same("its end", bridge.end(), 0)
        controller.end()
        device.end()
        broker.end()
        return f"{len(sent)} connections"

    def bridge_tls(self, wire):
        """TLS with a certificate of each end, name and password; and what is refused without them."""
        if lacks := lacking():
            return lacks
        if shutil.which("openssl") is None:
            return "NOT TRIED: openssl is not installed"
        for name, subject in (("ca", "ours"), ("other", "another")):
            self.openssl("req", "-x509", "-newkey", "ec", "-pkeyopt", "ec_paramgen_curve:P-256", "-nodes", "-days", "2", "-subj", f"/CN={subject}", "-keyout", f"{name}.key", "-out", f"{name}.crt")
        for name, more in (("broker", ["-addext", "subjectAltName=DNS:localhost"]), ("client", [])):
            self.openssl("req", "-newkey", "ec", "-pkeyopt", "ec_paramgen_curve:P-256", "-nodes", "-subj", f"/CN={name}", "-keyout", f"{name}.key", "-out", f"{name}.csr", *more)
            self.openssl("x509", "-req", "-in", f"{name}.csr", "-CA", "ca.crt", "-CAkey", "ca.key", "-days", "2", "-copy_extensions", "copy", "-out", f"{name}.crt")
        for name, text in (("good", "secret\n"), ("wrong", "guess\n"), ("users", "bridge:secret\n")):
            with open(os.open(self.path(name), os.O_WRONLY | os.O_CREAT, 0o600), "w", encoding="ascii") as file:
                file.write(text)
        subprocess.run(["mosquitto_passwd", "-U", self.path("users")], check=True)
        broker = self.broker(wire, f"cafile {self.path('ca.crt')}", f"certfile {self.path('broker.crt')}", f"keyfile {self.path('broker.key')}", "require_certificate true",
                             f"password_file {self.path('users')}", "allow_anonymous false", port=8883)
        tls = ["--cafile", self.path("ca.crt"), "--cert", self.path("client.crt"), "--key", self.path("client.key")]
        user = ["--username", "bridge", "--password-file", self.path("good")]
        everything = Subscriber(wire, "-h", "localhost", "-p", "8883", *tls, "-u", "bridge", "-P", "secret", "-t", "#")
        for number, more in enumerate(([], ["--protocol-version", "mqttv311"])):
            bridge = self.bridge_program(wire, "--socket", "/nonexistent", *tls, *user, *more, prefix=f"plant-{number}")
            everything.until(f"plant-{number}/_controller", running=False)
            everything.until(f"plant-{number}/_bridge", state="starting")
            same("its end", bridge.end(), 0)
            everything.until(f"plant-{number}/_bridge", state="offline")
        for words, text in ((tls + ["--username", "bridge", "--password-file", self.path("wrong")], "[Nn]ot authori[sz]ed"), (tls, "[Nn]ot authori[sz]ed"),
                            (["--cafile", self.path("other.crt"), *tls[2:], *user], "certificate verify failed"), ([*tls, *user, "--host", "127.0.0.1"], "certificate verify failed"),
                            (tls[:2] + user, "connection is lost|connection has ended|certificate required"), (user + ["--port", "8883"], "connection is lost|connection has ended|not answer")):
            bridge = self.bridge_program(wire, "--socket", "/nonexistent", *words, prefix="refused")
            bridge.expect(f"nandutable-bridge: no connection to the broker .*({text})", 60)
            bridge.end()
        same("what was refused has published nothing", everything.messages("refused/_bridge"), [])
        broker.end()
        self.ended_after_handshake()
        return None

    def ended_after_handshake(self):
        """Whenever a broker ends a connection that was made, the log says that it is lost."""
        self.openssl("req", "-x509", "-newkey", "ec", "-pkeyopt", "ec_paramgen_curve:P-256", "-nodes", "-days", "2", "-subj", "/CN=localhost", "-addext", "subjectAltName=DNS:localhost",
                     "-keyout", "alone.key", "-out", "alone.crt")
        ran = subprocess.run([PYTHON, "-c", ENDED, self.path("alone.crt"), self.path("alone.key"), *PLACES], capture_output=True, text=True, timeout=120)
        same(f"its status: {ran.stderr}", ran.returncode, 0)
        same(f"what is logged: {ran.stdout}", [": the connection is lost" in text for text in json.loads(ran.stdout)], [True, True])

    def openssl(self, *words):
        subprocess.run(["openssl", *words], cwd=self.folder, check=True, capture_output=True)

    def bridge_values(self, everything, device):
        flow = everything.until("plant/flow-7/slot2_flow", value=0.0, quality="good")
        same("the time is now", abs(flow["time"] - time.time()) < 30, True)
        same("what the signal is", everything.until("plant/flow-7/slot2_flow/about"), {
            "direction": "input", "type": "Float32", "unit": flow_unit(everything), "text": everything.until("plant/flow-7/slot2_flow/about")["text"], "slot": 2, "subslot": 1, "octet": 0,
            "bit": None, "length": 4})
        device.ask("input 2 1 40490fdb0000002a01", "note done")
        for name, value in (("slot2_flow", 3.1415927), ("slot2_total", 42), ("slot2_state", 1), ("slot2_pipe_full", True)):
            everything.until(f"plant/flow-7/{name}", value=value, quality="good")
        device.ask("input 2 1 7fc000000000002a01", "note done")
        everything.until("plant/flow-7/slot2_flow", value="nan")
        device.ask("status 2 1 bad", "note done")
        everything.until("plant/flow-7/slot2_flow", quality="bad")
        device.ask("status 2 1 good", "note done")
        everything.until("plant/flow-7/slot2_flow", quality="good")
        everything.until("plant/flow-7/_state", state="exchanging", address="192.168.0.2", mac="02:00:00:00:00:01")
        everything.until("plant/_controller", running=True, link=True, interface="c0", mac="02:00:00:00:00:02")

    def bridge_sets(self, wire, everything, device):
        """Sets that are done, and one for each reason to refuse it."""
        answers = 0

        def asked(name, text, *words, **wanted):
            nonlocal answers
            answers += 1
            self.publish(wire, f"plant/flow-7/{name}/set", text, *words)
            topic = f"plant/flow-7/{name}/answer"
            ends = time.monotonic() + 20
            before = asked.seen.get(topic, 0)
            while len(everything.messages(topic)) <= before and time.monotonic() < ends:
                time.sleep(0.02)
            asked.seen[topic] = before + 1
            found = everything.messages(topic)
            if len(found) <= before:
                raise AssertionError(f"no answer to {name} {text}: {everything.text()[-2000:]}")
            retained, answer = found[before]
            same(f"the answer to {name} {text}: {answer}", (retained, {key: answer.get(key) for key in wanted}), (False, wanted))
            return answer
        asked.seen = {}
        asked("slot3_sub3_lamp", "255", ok=True)
        device.expect("output 3 3 ff")
        everything.until("plant/flow-7/slot3_sub3_lamp", value=255, quality="good")
        asked("slot3_sub3_lamp", '{"value": 7.0, "id": "first"}', ok=True, id="first")
        device.expect("output 3 3 07")
        asked("slot4_valve_3", "true", ok=True)
        device.expect("output 4 1 04")
        asked("slot3_sub1_display", '{"value": "Hello, \\"pump\\" 1", "id": 2}', ok=True, id=2)
        device.expect("output 3 1 " + b'Hello, "pump" 1'.hex())
        everything.until("plant/flow-7/slot3_sub1_display", value='Hello, "pump" 1')
        asked("slot3_sub3_lamp", "256", ok=False, code="value", reason="Unsigned8 takes 0 to 255")
        asked("slot3_sub3_lamp", '"a b"', ok=False, code="value")
        asked("slot3_sub3_lamp", "on", ok=False, code="value")
        asked("slot2_flow", "1.5", ok=False, code="input")
        asked("nothing", "1", ok=False, code="unknown")
        # A retained set is ignored, when it comes and at each start of a bridge.
        asked("slot3_sub3_lamp", "99", "-r", ok=False, code="retained")
        same("the lamp", everything.until("plant/flow-7/slot3_sub3_lamp")["value"], 7)
        self.publish(wire, "plant/flow-7/slot3_sub3_lamp/set", "", "-r")
        # Without a relation it is refused, and not kept.
        device.end(9)
        everything.until("plant/flow-7/_state", LATE, state="looking")
        everything.until("plant/flow-7/slot3_sub3_lamp", quality="bad")
        asked("slot3_sub3_lamp", "77", ok=False, code="no_relation", reason="no data is exchanged, the state is looking")
        again = self.device_again(wire, device)
        everything.until("plant/flow-7/_state", LATE, state="exchanging")
        again.expect("output 3 3 07", 20)
        everything.until("plant/flow-7/slot3_sub3_lamp", quality="good", value=7)
        same("what was refused is not done later", again.has("output 3 3 4d"), False)
        return answers

    def device_again(self, wire, device):
        """The killed device again: its lines go on in the same object."""
        again = Program(wire, "d0", *device.words[5:], kind=self.kind)
        again.expect("boot ok")
        device.__dict__.update(again.__dict__)
        return device

    def bridge_events(self, everything, device):
        device.ask("diagnosis 2 1 3 6 appears", "note done")
        alarm = everything.until("plant/flow-7/_alarm", type=1)
        same("an alarm", (alarm["slot"], alarm["subslot"], alarm["priority"], "wire break" in alarm["text"]), (2, 1, "low", True))
        everything.until("plant/flow-7/_diagnosis", diagnosis=[{"slot": 2, "subslot": 1, "channel": 3, "error": 6, "text": "wire break"}])
        device.ask("diagnosis 2 1 3 6 disappears", "note done")
        everything.until("plant/flow-7/_diagnosis", diagnosis=[])
        awaited("both alarms", lambda: len(everything.messages("plant/flow-7/_alarm")) >= 2)
        same("an alarm is not retained", [retained for retained, _ in everything.messages("plant/flow-7/_alarm")], [False, False])
        everything.until("plant/flow-7/_ports")
        everything.until("plant/flow-7/_statistics", 30)


def controller_of(bridge):
    """The number of the process of the controller that a bridge has started or found, and the path of its socket."""
    bridge.sees("nandutable-bridge: .* controller.*, process ([0-9]+), at ", 30)
    return re.search(r"controller.*, process ([0-9]+), at (\S+)", bridge.text()).groups()


def resident(program):
    """The pages of memory that a program has."""
    with open(f"/proc/{program.process.pid}/statm", encoding="ascii") as file:
        return int(file.read().split()[1])


def flow_unit(everything):
    return everything.until("plant/flow-7/slot2_flow/about")["unit"]
