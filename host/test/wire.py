"""A wire between two network namespaces, programs on it whose lines are read as they arrive, and frames without any library."""

import contextlib
import ctypes
import os
import re
import socket
import struct
import subprocess
import sys
import threading
import time

HERE = os.path.dirname(os.path.realpath(__file__))
HOST = os.path.dirname(HERE)
TOP = os.path.dirname(HOST)
BUILD = os.path.join(HOST, "build")

DEVICE = bytes.fromhex("020000000001")
TOOL = bytes.fromhex("020000000002")
GROUP = bytes.fromhex("010ecf000000")
CLONE_NEWNET = 0x40000000
SO_RCVBUFFORCE = 33
# Seconds for what a test waits for and does not measure: on a machine with other work a program may get no processor for some of them.
PATIENT = 30


def device_of(number):
    """The MAC address of a station of a plant."""
    return bytes((2, 0, 0, 0, 3, number))


class NoWire(Exception):
    """Namespaces or a wire between them cannot be made here."""


class Final(AssertionError):
    """What no late machine explains, such as a setting that was lost: the test is not tried again."""


def awaited(what, find, seconds=PATIENT):
    """Waits until `find` returns something that counts as true, and returns it."""
    ends = time.monotonic() + seconds
    while not (found := find()):
        if time.monotonic() > ends:
            raise AssertionError(f"{what}: not within {seconds} s, but {found!r}")
        time.sleep(0.01)
    return found


def command(*words, environment=None):
    try:
        ran = subprocess.run(words, capture_output=True, text=True, env=environment)
    except FileNotFoundError:
        raise NoWire(f"{words[0]} is not installed" + (" (Debian: apt-get install iproute2)" if words[0] == "ip" else "")) from None
    if ran.returncode != 0:
        raise NoWire(f"{' '.join(words)}: {ran.stderr.strip() or ran.returncode}")
    return ran.stdout


class Wire:
    """Two namespaces, `device` with the interface d0 and `controller` with c0, and a cable between them."""

    def __init__(self, tag=""):
        self.device, self.controller = (f"nandutable-{os.getpid()}{tag}-{end}" for end in ("d", "c"))
        self.made, self.programs = [], []

    def __enter__(self):
        try:
            if os.geteuid() != 0:
                raise NoWire("this takes root")
            for name in (self.device, self.controller):
                command("ip", "netns", "add", name)
                self.made.append(name)
                # Otherwise the kernel's own IPv6 packets are on the wire too.
                self.within(name, "sh", "-c", "echo 1 > /proc/sys/net/ipv6/conf/default/disable_ipv6; :")
            self.plug()
        except (NoWire, OSError) as fault:
            self.__exit__()
            raise NoWire(str(fault)) from None
        return self

    def plug(self):
        command("ip", "link", "add", "d0", "netns", self.device, "type", "veth", "peer", "name", "c0", "netns", self.controller)
        for name, interface, mac in ((self.device, "d0", DEVICE), (self.controller, "c0", TOOL)):
            command("ip", "-n", name, "link", "set", interface, "address", mac.hex(":"), "up")
        time.sleep(0.05)

    def within(self, name, *words):
        return command("ip", "netns", "exec", name, *words)

    def link(self, end, *words):
        command("ip", "-n", self.device if end == "d0" else self.controller, "link", *words)

    def __exit__(self, *_):
        # Programs that a failed test left running.
        for program in self.programs:
            if program.process.poll() is None:
                program.process.kill()
                program.process.wait()
        for name in self.made:
            # And those that outlive the program that started them.
            for number in subprocess.run(["ip", "netns", "pids", name], capture_output=True, text=True).stdout.split():
                with contextlib.suppress(ProcessLookupError):
                    os.kill(int(number), 9)
            subprocess.run(["ip", "netns", "del", name], capture_output=True)
        self.made = []

    def socket(self, end="c0"):
        """A packet socket at an end."""
        made = self.opened(end, socket.AF_PACKET, socket.SOCK_RAW, socket.htons(3))
        made.setsockopt(socket.SOL_SOCKET, SO_RCVBUFFORCE, 4 << 20)
        made.bind((end, 3))
        return made

    def datagrams(self, end="c0"):
        """A socket for UDP of the kernel at an end, which has to have an address."""
        return self.opened(end, socket.AF_INET, socket.SOCK_DGRAM, 0)

    def opened(self, end, *kind):
        """A socket of this kind at an end."""
        return self.opened_in(self.device if end == "d0" else self.controller, *kind)

    @staticmethod
    def opened_in(name, *kind):
        """A socket of this kind in a namespace."""
        libc = ctypes.CDLL(None, use_errno=True)
        with open("/proc/thread-self/ns/net", "rb") as home, open(f"/run/netns/{name}", "rb") as there:
            if libc.setns(there.fileno(), CLONE_NEWNET) != 0:
                raise NoWire(f"setns: {os.strerror(ctypes.get_errno())}")
            try:
                return socket.socket(*kind)
            finally:
                libc.setns(home.fileno(), CLONE_NEWNET)


class Place(Wire):
    """The end d0 of one station of a plant, in a namespace of its own."""

    def __init__(self, plant, number):
        self.device, self.controller, self.programs = f"{plant.device}{number}", plant.controller, plant.programs


class Plant(Wire):
    """A bridge to which stations 1 to `count` and a controller are plugged: each station has a namespace with the interface d0, the controller
    has c0."""

    def __init__(self, count, tag="p"):
        super().__init__(tag)
        self.places = {number: Place(self, number) for number in range(1, count + 1)}

    def plug(self):
        bridge = self.device
        command("ip", "-n", bridge, "link", "add", "b0", "type", "bridge", "forward_delay", "0", "mcast_snooping", "0")
        command("ip", "-n", bridge, "link", "set", "b0", "up")
        self.plug_one("e0", self.controller, "c0", TOOL)
        for number, place in self.places.items():
            command("ip", "netns", "add", place.device)
            self.made.append(place.device)
            self.within(place.device, "sh", "-c", "echo 1 > /proc/sys/net/ipv6/conf/default/disable_ipv6; :")
            self.plug_one(f"e{number}", place.device, "d0", device_of(number))
        time.sleep(0.05)

    def plug_one(self, port, name, interface, mac):
        bridge = self.device
        command("ip", "link", "add", port, "netns", bridge, "type", "veth", "peer", "name", interface, "netns", name)
        command("ip", "-n", bridge, "link", "set", port, "master", "b0", "up")
        command("ip", "-n", name, "link", "set", interface, "address", mac.hex(":"), "up")


class Program:
    """A program in a namespace. Its lines are kept with their times of arrival."""

    def __init__(self, wire, end, *words, name=None, environment=None, kind=""):
        program = name or ("nandutable-device" if end == "d0" else "nandutable-controller")
        place = wire.device if end == "d0" else wire.controller
        path = program if os.sep in program else os.path.join(BUILD, kind, program)
        self.words = ["ip", "netns", "exec", place, path, *words]
        self.lines, self.seen, self.is_open = [], 0, True
        self.news = threading.Condition()
        self.process = subprocess.Popen(self.words, stdin=subprocess.PIPE, stdout=subprocess.PIPE, stderr=subprocess.PIPE,
                                        env={**os.environ, **(environment or {})})
        wire.programs.append(self)
        self.fault = b""
        self.readers = [threading.Thread(target=self.read, daemon=True), threading.Thread(target=self.read_fault, daemon=True)]
        for reader in self.readers:
            reader.start()

    def read(self):
        for line in self.process.stdout:
            with self.news:
                self.lines.append((time.time(), line.decode().rstrip("\n")))
                self.news.notify_all()
        with self.news:
            self.is_open = False
            self.news.notify_all()

    def read_fault(self):
        self.fault = self.process.stderr.read()

    def text(self):
        return "\n".join(line for _, line in self.lines) + self.fault.decode(errors="replace")

    def expect(self, pattern, seconds=PATIENT):
        """The next line whose beginning matches the pattern, after the lines that were expected before."""
        ends = time.monotonic() + seconds
        with self.news:
            while True:
                while self.seen < len(self.lines):
                    self.seen += 1
                    found = re.match(pattern, self.lines[self.seen - 1][1])
                    if found:
                        return found
                left = ends - time.monotonic()
                if left <= 0 or not self.is_open:
                    break
                self.news.wait(left)
        raise AssertionError(f"no line '{pattern}' of {os.path.basename(self.words[4])}:\n{self.text()}")

    def expect_each(self, *patterns, seconds=PATIENT):
        """Lines that match these patterns, in any order, after the lines that were expected before. The next ones come after the last of them."""
        first, last = self.seen, self.seen
        for pattern in patterns:
            self.seen = first
            self.expect(pattern, seconds)
            last = max(last, self.seen)
        self.seen = last

    def has(self, pattern):
        """Whether the beginning of some line matches."""
        with self.news:
            return any(re.match(pattern, line) for _, line in self.lines)

    def sees(self, pattern, seconds=PATIENT):
        """Waits until the beginning of some line matches."""
        ends = time.monotonic() + seconds
        while not self.has(pattern):
            if time.monotonic() > ends or not self.is_open:
                raise AssertionError(f"no line '{pattern}' of {os.path.basename(self.words[4])}:\n{self.text()}")
            time.sleep(0.01)

    def say(self, line):
        self.process.stdin.write(line.encode() + b"\n")
        self.process.stdin.flush()

    def ask(self, line, pattern, seconds=PATIENT):
        self.say(line)
        return self.expect(pattern, seconds)

    def end(self, number=15, seconds=PATIENT):
        """Sends a signal and waits. Returns the status."""
        if self.process.poll() is None:
            self.process.send_signal(number)
        return self.wait(seconds)

    def wait(self, seconds=PATIENT):
        try:
            status = self.process.wait(seconds)
        except subprocess.TimeoutExpired:
            self.process.kill()
            raise AssertionError(f"{os.path.basename(self.words[4])} does not end:\n{self.text()}") from None
        for reader in self.readers:
            reader.join(5)
        for stream in (self.process.stdin, self.process.stdout, self.process.stderr):
            try:
                stream.close()
            except OSError:
                pass
        return status

    def processor_seconds(self):
        with open(f"/proc/{self.process.pid}/stat", encoding="ascii") as file:
            fields = file.read().rpartition(")")[2].split()
        return (int(fields[11]) + int(fields[12])) / os.sysconf("SC_CLK_TCK")


class Tap(Program):
    """A capture of an end, to a file."""

    def __init__(self, wire, end, path):
        super().__init__(wire, end, end, path, name=os.path.join(BUILD, "tap"))
        self.path = path
        self.expect("ready")

    def close(self):
        time.sleep(0.15)
        return self.end()


def talk_to(path, seconds=PATIENT):
    """The socket over which a program receives lines, once it listens there."""
    talker = socket.socket(socket.AF_UNIX)
    talker.settimeout(seconds)
    ends = time.monotonic() + seconds
    while True:
        try:
            talker.connect(path)
            return talker
        except OSError:
            if time.monotonic() > ends:
                raise
            time.sleep(0.02)


def read_capture(path):
    """The frames of a capture: seconds, octets."""
    with open(path, "rb") as file:
        octets = file.read()
    at, frames = 24, []
    while at + 16 <= len(octets):
        seconds, nanoseconds, length, _ = struct.unpack_from("<4I", octets, at)
        frames.append((seconds + nanoseconds / 1e9, octets[at + 16:at + 16 + length]))
        at += 16 + length
    return frames


# ---- frames

def dcp(frame_id, service, xid, blocks, target=DEVICE, kind=0, source=TOOL):
    head = target + source + struct.pack(">HHBBIHH", 0x8892, frame_id, service, kind, xid, 1, len(blocks))
    return (head + blocks).ljust(60, b"\0")


def block(option, suboption, octets):
    return bytes((option, suboption)) + struct.pack(">H", len(octets)) + octets + bytes(len(octets) % 2)


def set_name(name, xid, qualifier=1, target=DEVICE):
    return dcp(0xFEFD, 4, xid, block(2, 2, struct.pack(">H", qualifier) + name.encode()), target)


def set_address(address, xid, qualifier=1, target=DEVICE):
    """A Set of an IP address with the mask 255.255.255.0 and no gateway."""
    return dcp(0xFEFD, 4, xid, block(1, 2, struct.pack(">H", qualifier) + socket.inet_aton(address) + b"\xff\xff\xff\0" + bytes(4)), target)


def identify(name, xid):
    return dcp(0xFEFE, 5, xid, block(2, 2, name.encode()), GROUP)


def identify_all(xid):
    return dcp(0xFEFE, 5, xid, block(255, 255, b""), GROUP)


def answer(link, frame, frame_id, seconds=PATIENT):
    """Sends a DCP request, and returns the answer with its Xid; None without an answer."""
    link.send(frame)
    ends = time.monotonic() + seconds
    while (left := ends - time.monotonic()) > 0:
        link.settimeout(left)
        try:
            came = link.recv(2048)
        except TimeoutError:
            return None
        if came[12:16] == b"\x88\x92" + struct.pack(">H", frame_id) and came[17] != 0 and came[18:22] == frame[18:22]:
            return came
    return None


def drain(link):
    """Drops what arrived and was not read."""
    link.settimeout(0)
    found = []
    while True:
        try:
            found.append(link.recv(2048))
        except BlockingIOError:
            return found


def blocks_of(came):
    """The blocks of a DCP answer, by option and suboption."""
    at, found = 26, {}
    ends = 26 + struct.unpack_from(">H", came, 24)[0]
    while at + 4 <= ends:
        option, suboption, length = struct.unpack_from(">BBH", came, at)
        found[option, suboption] = came[at + 4:at + 4 + length]
        at += 4 + length + length % 2
    return found


def refuse(program, text):
    print(f"{program}: {text}", file=sys.stderr)
    return 64
