"""A board under QEMU: its flash is a file, its cable a pair of datagram sockets, and a debugger can stop it. It needs no root."""

import os
import re
import select
import signal
import socket
import struct
import subprocess
import time

DEVICE, TOOL = bytes.fromhex("020000000001"), bytes.fromhex("020000000002")
# Octets of the flash of a vexpress-a9, and of a block of its two chips. The device has the last two blocks.
FLASH, BLOCK, SECTOR = 64 << 20, 256 << 10, 4096


def make_flash(path):
    """A flash whose last two blocks are erased. The rest of the file are zeros that take no room on the disk."""
    with open(path, "wb") as file:
        file.truncate(FLASH)
        file.seek(FLASH - 2 * BLOCK)
        file.write(b"\xff" * (2 * BLOCK))


def sectors_of(path):
    """What the two sectors of a flash contain."""
    with open(path, "rb") as file:
        file.seek(FLASH - 2 * BLOCK)
        both = file.read(2 * BLOCK)
    return both[:SECTOR], both[BLOCK:BLOCK + SECTOR]


def symbols_of(path):
    """The addresses of the functions of a program (ELF of 32 bits, little endian)."""
    with open(path, "rb") as file:
        octets = file.read()
    offset, = struct.unpack_from("<I", octets, 32)
    size, count = struct.unpack_from("<HH", octets, 46)
    sections = [struct.unpack_from("<10I", octets, offset + number * size) for number in range(count)]
    found = {}
    for section in sections:
        if section[1] != 2:
            continue
        names = sections[section[6]][4]
        for at in range(section[4], section[4] + section[5], 16):
            name, value, _, kind = struct.unpack_from("<IIIB", octets, at)
            if kind & 15 == 2:
                found[octets[names + name:octets.index(b"\0", names + name)].decode()] = value
    return found


class Board:
    """QEMU with a program. `folder` is its own: sockets, and what its console says."""

    def __init__(self, folder, program, flash, has_debugger=False, is_read_only=False):
        self.folder = folder
        for name in ("here", "there", "debugger"):
            if os.path.exists(self.path(name)):
                os.unlink(self.path(name))
        self.wire = socket.socket(socket.AF_UNIX, socket.SOCK_DGRAM)
        self.wire.bind(self.path("here"))
        self.wire.setsockopt(socket.SOL_SOCKET, socket.SO_RCVBUF, 1 << 20)
        words = ["qemu-system-arm", "-M", "vexpress-a9", "-display", "none", "-monitor", "none", "-serial", f"file:{self.path('console')}",
                 "-drive", f"if=pflash,format=raw,file={flash}{',readonly=on' if is_read_only else ''}", "-kernel", program,
                 "-netdev", f"dgram,id=cable,local.type=unix,local.path={self.path('there')},remote.type=unix,remote.path={self.path('here')}",
                 "-net", "nic,netdev=cable,macaddr=02:00:00:00:00:01"]
        if has_debugger:
            words += ["-chardev", f"socket,id=debugger,path={self.path('debugger')},server=on,wait=off", "-gdb", "chardev:debugger"]
        # Without this QEMU looks for a sound card, which takes longer than all else.
        self.process = subprocess.Popen(words, stdin=subprocess.DEVNULL, stdout=subprocess.DEVNULL, stderr=subprocess.PIPE, env={**os.environ, "QEMU_AUDIO_DRV": "none"})

    def path(self, name):
        return os.path.join(self.folder, name)

    def console(self):
        with open(self.path("console"), "rb") as file:
            return file.read().decode(errors="replace")

    def send(self, frame):
        """Returns whether QEMU took the frame: before it has begun it has no socket."""
        try:
            self.wire.sendto(frame, self.path("there"))
            return True
        except OSError:
            return False

    def receive(self, seconds):
        """The next frame, or None."""
        if not select.select([self.wire], [], [], seconds)[0]:
            return None
        return self.wire.recv(2048)

    def ask(self, frame, is_answer, seconds=300, again=0.1):
        """Sends a frame, again after a while, until there is an answer."""
        ends, next_time = time.monotonic() + seconds, 0
        while time.monotonic() < ends:
            if time.monotonic() >= next_time:
                next_time = time.monotonic() + (again if self.send(frame) else 0.005)
            came = self.receive(max(0, min(next_time, ends) - time.monotonic()))
            if came is not None and is_answer(came):
                return came
            if self.process.poll() is not None:
                raise AssertionError(f"QEMU ended: {self.process.stderr.read().decode(errors='replace')}")
        raise AssertionError(f"no answer; the console: {self.console()}")

    def kill(self):
        """Cuts the power: the process ends in whatever it does, and what it sent before can still be received."""
        if self.process.poll() is None:
            os.kill(self.process.pid, signal.SIGKILL)
        self.process.wait()
        self.process.stderr.close()

    def close(self):
        self.kill()
        self.wire.close()


class Debugger:
    """The remote protocol of gdb, as far as it is needed: breakpoints, steps, registers and memory."""

    def __init__(self, board):
        self.socket = socket.socket(socket.AF_UNIX, socket.SOCK_STREAM)
        ends = time.monotonic() + 300
        while True:
            try:
                self.socket.connect(board.path("debugger"))
                break
            except OSError:
                if time.monotonic() > ends:
                    raise
                time.sleep(0.01)
        self.socket.settimeout(300)
        self.buffer = b""
        # The connection stopped the program, which may be said too.
        self.asked("qAttached")

    def fileno(self):
        return self.socket.fileno()

    def say(self, text):
        self.socket.sendall(f"${text}#{sum(text.encode()) % 256:02x}".encode())

    def take(self):
        """A packet that has come, or None."""
        found = re.search(rb"\$([^#]*)#..", self.buffer)
        if found is None:
            return None
        self.buffer = self.buffer[found.end():]
        self.socket.sendall(b"+")
        return found[1].decode()

    def hear(self):
        came = self.socket.recv(4096)
        if not came:
            raise AssertionError("the debugger is gone")
        self.buffer += came

    def answer(self):
        """The next packet."""
        while (packet := self.take()) is None:
            self.hear()
        return packet

    def asked(self, text):
        """The answer to a request, without what says that the program is stopped."""
        self.say(text)
        while (answer := self.answer()).startswith("T"):
            pass
        return answer

    def stop_at(self, address, is_on=True):
        """A breakpoint at a function; its address is odd if it is Thumb code."""
        answer = self.asked(f"{'Z' if is_on else 'z'}0,{address & ~1:x},{2 if address & 1 else 4}")
        if answer != "OK":
            raise AssertionError(f"breakpoint: {answer}")

    def go(self):
        """Lets the program run. The next packet says that it stopped."""
        self.say("c")

    def step(self):
        self.say("s")
        self.answer()

    def registers(self):
        """The first two arguments of a function that was just called."""
        return struct.unpack("<II", bytes.fromhex(self.asked("g")[:16]))

    def go_to(self, address):
        """Lets the program run until it calls this function, and takes the breakpoint away."""
        self.stop_at(address)
        self.go()
        self.answer()
        self.stop_at(address, False)

    def interrupt(self):
        """Stops the program."""
        self.socket.sendall(b"\x03")
        self.answer()

    def return_from(self, value):
        """The function that was just called returns this number, and does nothing."""
        registers = bytearray.fromhex(self.asked("g"))
        link, = struct.unpack_from("<I", registers, 14 * 4)
        struct.pack_into("<I", registers, 0, value)
        struct.pack_into("<I", registers, 15 * 4, link & ~1)
        if self.asked("G" + registers.hex()) != "OK":
            raise AssertionError("the debugger writes no registers")

    def word_at(self, address):
        return struct.unpack("<I", bytes.fromhex(self.asked(f"m{address:x},4")))[0]

    def put_word(self, address, word):
        if self.asked(f"M{address:x},4:{struct.pack('<I', word).hex()}") != "OK" or self.word_at(address) != word:
            raise AssertionError("the debugger writes no memory")

    def close(self):
        self.socket.close()
