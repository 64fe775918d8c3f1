"""The deepest stack that a function can reach, by the calls of a linked program and the stack frame of each function.

The frames are those of LLVM (-Zemit-stack-sizes), the calls those of the disassembly. A tail call frees the frame before it. What
is called through a pointer is not seen: the libraries for C call nothing so but memcpy and its like, whose frames are small.
"""

import os
import re
import subprocess
import sys

# A function that has none: what is called through a table of the linker.
UNKNOWN = 0


class Machine:
    """The tools of a machine, the octets of a return address on its stack, and those of an address."""

    def __init__(self, prefix, returned, address, calls, jumps):
        self.prefix, self.returned, self.address = prefix, returned, address
        self.calls, self.jumps = re.compile(calls), re.compile(jumps)


X86_64 = Machine("", 8, 8, r"call[a-z]*$", r"j[a-z]+$")
CORTEX_M = Machine("arm-none-eabi-", 0, 4, r"blx?$", r"b(?:eq|ne|cs|cc|mi|pl|hi|ls|ge|lt|gt|le)?(?:\.[wn])?$")


def must(words):
    ran = subprocess.run(words, capture_output=True)
    if ran.returncode != 0:
        sys.exit(f"{words[0]}: status {ran.returncode}\n{ran.stderr.decode()}")
    return ran.stdout


class Program:
    """The functions that some exported functions reach."""

    def __init__(self, machine, archive, exported, folder):
        self.machine = machine
        path = os.path.join(folder, "whole")
        # Without the C library: what the archive needs of it stays unresolved.
        must([machine.prefix + "ld", "--gc-sections", "--unresolved-symbols=ignore-all", "--no-warn-rwx-segments", "-e", exported[0], "-o", path,
              *(word for name in exported for word in ("-u", name)), archive])
        self.names, self.calls, self.tails = {}, {}, {}
        self.read_code(must([machine.prefix + "objdump", "-d", "--no-show-raw-insn", path]).decode())
        self.frames = self.read_frames(path, folder)
        if not self.frames:
            sys.exit(f"{archive} has no stack sizes")
        self.plain = self.demangled()
        self.known = {}

    def read_code(self, text):
        at = None
        for line in text.splitlines():
            head = re.match(r"([0-9a-f]+) <(.*)>:$", line)
            if head:
                at = int(head.group(1), 16)
                self.names[at], self.calls[at], self.tails[at] = head.group(2), set(), set()
                continue
            parts = line.split("\t", 1)
            words = parts[1].split(None, 1) if len(parts) == 2 else []
            if at is None or len(words) < 2:
                continue
            place = re.match(r"(?:0x)?([0-9a-f]+) <[^>+]*(\+0x[0-9a-f]+)?>", words[1].strip())
            if place is None:
                continue
            begin = int(place.group(1), 16) - int(place.group(2) or "0", 16)
            if self.machine.calls.match(words[0]):
                self.calls[at].add(begin)
            elif self.machine.jumps.match(words[0]) and begin != at:
                self.tails[at].add(begin)

    def read_frames(self, path, folder):
        """The section .stack_sizes: an address, and a LEB128 number."""
        part = os.path.join(folder, "stack_sizes")
        must([self.machine.prefix + "objcopy", "-O", "binary", "--only-section=.stack_sizes", "--set-section-flags", ".stack_sizes=alloc", path, part])
        with open(part, "rb") as file:
            octets = file.read()
        frames, at, size = {}, 0, self.machine.address
        while at + size < len(octets):
            address, frame, shift = int.from_bytes(octets[at:at + size], "little"), 0, 0
            at += size
            while True:
                frame |= (octets[at] & 0x7F) << shift
                shift, at = shift + 7, at + 1
                if octets[at - 1] < 0x80:
                    break
            frames[address & ~1 if size == 4 else address] = frame
        return frames

    def demangled(self):
        """The path of each function, without the hashes of its crates and without its parameters of type."""
        names = "\n".join(self.names.values())
        ran = subprocess.run([self.machine.prefix + "c++filt"], input=names.encode(), capture_output=True, check=True)
        plain = (re.sub(r"\[[0-9a-f]+\]", "", name) for name in ran.stdout.decode().splitlines())
        return dict(zip(self.names, plain))

    def depth(self, name, apart):
        """The deepest way from the function with this name: its octets, and each function on it with its frame. No way has two functions of a
        pair of `apart` in this order: of such a pair the second one is not reached from the first one."""
        found = [at for at, other in self.names.items() if other == name]
        return self.below(found[0], apart, frozenset()) if found else (0, [])

    def below(self, at, apart, banned, above=()):
        """`banned` are the places of pairs whose first function is above."""
        key = (at, banned)
        if key in self.known:
            return self.known[key]
        if at in above:
            sys.exit(f"{self.plain[at]} calls itself")
        path, frame = self.plain.get(at, "?"), self.frames.get(at, UNKNOWN)
        barred = banned | {number for number, (first, _) in enumerate(apart) if re.search(first, path)}
        best = (frame, [(frame, path)])
        for calls, own, returned in ((self.calls, frame, self.machine.returned), (self.tails, 0, 0)):
            for called in calls.get(at, ()):
                if called not in self.names or any(re.search(apart[number][1], self.plain[called]) for number in barred):
                    continue
                octets, way = self.below(called, apart, barred, (*above, at))
                if own + returned + octets > best[0]:
                    best = (own + returned + octets, [(own, path), *way])
        self.known[key] = best
        return best
