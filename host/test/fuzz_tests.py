"""Lines that nobody would write, to both programs while they exchange data: `host/test/run fuzzed_lines`."""

import os
import random
import re
import threading
import time

from wire import BUILD, Program, talk_to

SHORT, WHOLE = 20_000, 1_000_000  # lines, of both programs together
AT_ONCE = 200
GROWTH = 24 << 20  # octets that a program may grow by, with the bookkeeping of the sanitizers

SEEDS = {
    "device": ["input 1 1 0102", "input 1 1 -", "alarm 1 1 c0ffee", "status 1 1 good", "status 2 1 bad", "diagnosis 1 1 3 6 appears", "diagnosis 1 1 3 6 disappears", "application run",
               "pull 1 1", "pull 1", "plug 1 1 16 16 2 0", "plug 3 1 32 32 0 2 1 4", "plug 4 1 32 32 1440 2 1 4 2 64", "ready", "ready 1 1", "expected", "asked", "answer 1", "answer 1 00ff",
               "refuse 1 160 0", "show", "statistics", "help"],
    "controller": ["give 2 1 beef", "status 2 1 bad", "status 2 1 good", "read 0 1 0xaff0", "write 0 1 0xaff1 00", "write 1 1 8192 00000001", "diagnosis reported", "diagnosis relation",
                   "diagnosis device", "show", "stations", "statistics", "values", "names", "set level 7", "set speed -5", "set speed 1e9", "set pump-1.speed \"x\"", "signals", "restart", "help"]}
PIECES = ["", " ", "\t", "-", "--", "0", "1", "65535", "65536", "4294967295", "4294967296", "-1", "99999999999999999999", "0x", "0xffff", "0x10000", "1e400", "nan", "\u00b0".encode().decode("latin-1"), "\0", "\r",
          "%s%n", "\x7f", "\xff\xfe", "good", "appears", "pump-1", "pump-1.", "ff" * 720, "ff" * 2000, "a" * 700, "\"", "\\", "{", "[" * 300, "1 " * 40]
ENDING = re.compile(r"(\S+\s+)?(quit|stop)\b|application")


def line(rng, seeds):
    """A line: of a command, with words that are changed, left out, doubled or cut, or of any octets."""
    kind = rng.random()
    if kind < 0.15:
        return rng.randbytes(rng.randrange(rng.choice((4, 40, 3000)))).decode("latin-1")
    words = rng.choice(seeds).split(" ")
    for _ in range(rng.choice((0, 1, 1, 2, 4))):
        at = rng.randrange(len(words))
        change = rng.randrange(6)
        if change == 0:
            words[at] = rng.choice(PIECES)
        elif change == 1:
            words.insert(at, rng.choice(PIECES))
        elif change == 2 and len(words) > 1:
            del words[at]
        elif change == 3 and words[at]:
            place = rng.randrange(len(words[at]))
            words[at] = words[at][:place] + chr(rng.randrange(256)) + words[at][place + 1:]
        elif change == 4:
            words[at] = words[at] * rng.choice((2, 3, 50))
        else:
            words[at] = str(rng.randrange(1 << rng.choice((3, 8, 17, 33))))
    return " ".join(words)


def octets(rng, seeds):
    """Some lines that end no program."""
    found = []
    while len(found) < AT_ONCE:
        made = line(rng, seeds).replace("\n", "")
        if not ENDING.match(made.strip()) or made.startswith("application r"):
            found.append(made)
    return "".join(f"{made}\n" for made in found).encode("latin-1")


def resident(program):
    with open(f"/proc/{program.process.pid}/statm", encoding="ascii") as file:
        return int(file.read().split()[1]) * os.sysconf("SC_PAGE_SIZE")


class Talker:
    """Somebody who sends such lines over the socket of a program, and reads what comes."""

    def __init__(self, path, seed, seeds, count):
        self.socket, self.rng, self.seeds, self.count = talk_to(path, 20), random.Random(seed), seeds, count
        self.sent, self.wrong, self.is_over, self.fault = 0, 0, False, None
        self.threads = [threading.Thread(target=self.send, daemon=True), threading.Thread(target=self.read, daemon=True)]
        self.socket.settimeout(60)
        for thread in self.threads:
            thread.start()

    def send(self):
        try:
            while self.sent < self.count:
                self.socket.sendall(octets(self.rng, self.seeds))
                self.sent += AT_ONCE
        except OSError as fault:  # also one that the program does not read from in a minute
            self.fault = fault

    def read(self):
        while not self.is_over:
            try:
                self.wrong += self.socket.recv(65536).count(b"wrong: ")
            except (TimeoutError, OSError):
                return

    def end(self):
        self.threads[0].join()
        time.sleep(0.2)
        self.is_over = True
        self.socket.close()


class FuzzTests:
    def fuzzed_lines(self, wire):
        """Changed lines, over two sockets at once: no program ends, none grows, and each answers afterwards."""
        kind = "sanitized" if os.path.exists(os.path.join(BUILD, "sanitized", "nandutable-device")) else ""
        count, before, self.kind = SHORT if self.asked.short else WHOLE, self.kind, kind
        calm = {"ASAN_OPTIONS": "quarantine_size_mb=1:exitcode=99", "UBSAN_OPTIONS": "exitcode=99"}
        try:
            return self.fuzz_both(wire, count, calm)
        finally:
            self.kind = before

    def fuzz_both(self, wire, count, calm):
        self.device(wire, "fuzzed").end()
        paths = {"device": self.path("fuzzed-device"), "controller": self.path("fuzzed-controller")}
        plan = self.signal_plan("pump-1", None if self.has_no_signals() else self.TANK)
        words = () if self.has_no_signals() else ("--signals",)
        programs = {"device": Program(wire, "d0", "d0", "--flash", self.path("fuzzed"), "--record", "1", "1", "0x2000", "64", "both", "--socket", paths["device"], kind=self.kind, environment=calm),
                    "controller": Program(wire, "c0", "c0", plan, *words, "--retry", "1", "--socket", paths["controller"], kind=self.kind, environment=calm)}
        begins, first = time.monotonic(), {}
        for round_of in range(2):  # what is allocated once is there after the first round
            part = count // 10 if round_of == 0 else count - count // 10
            talkers = [Talker(paths[name], f"{name} {number} {round_of}", SEEDS[name], part // 4) for name in programs for number in range(2)]
            for talker in talkers:
                talker.end()
            for name, program in programs.items():
                if program.process.poll() is not None:
                    program.wait()
                    raise AssertionError(f"{name}: it ended with the status {program.process.returncode}:\n{program.text()[-3000:]}")
                grown = resident(program) - first.setdefault(name, resident(program))
                if grown > GROWTH:
                    raise AssertionError(f"{name}: it grew by {grown >> 20} MB")
            if faults := [talker.fault for talker in talkers if talker.fault]:
                raise AssertionError(f"lines that were not read: {faults}")
            if not all(talker.wrong for talker in talkers):
                raise AssertionError(f"'wrong:' came {[talker.wrong for talker in talkers]} times")
        for name, program in programs.items():
            talker = talk_to(paths[name], 10)
            talker.settimeout(10)
            talker.sendall(b"\nshow\n")
            text = b""
            while b"phase " not in text and b"status " not in text:
                text += talker.recv(65536)
            talker.close()
        statuses = {name: program.end() for name, program in programs.items()}
        # A controller that is ended between two starts has the cause of the last end.
        if statuses["device"] != 0 or statuses["controller"] not in range(9):
            raise AssertionError(f"the statuses are {statuses}:\n{[program.text()[-2000:] for program in programs.values()]}")
        return f"{count} lines{', sanitized' if self.kind else ''}, {count / (time.monotonic() - begins):.0f} a second"
