#!/usr/bin/env python3
"""What must become of a Connect, computed by offsets in its octets from the rules alone (IEC 61158-6-10, 5.2.3 and 5.2.6): the
status that its answer carries, or that it is accepted. It shares no line with the program.

    ci/connect_table.py --lines         prints the table: a Connect a line, as edits of the first one
    ci/connect_table.py --statuses      prints what has to become of each: a status, or 'ok'
    ci/connect_table.py --check         compares both with the table of tests/tables/connects
    ci/connect_table.py --recorded FOLDER
                                           compares the rules with the Connects of scripts (NAME) and what was printed for them
                                           (NAME.stdout)
"""

import os
import struct
import sys

from program import TOP, answer_help, refuse

AR, IOCR, ALARM, EXPECTED = 0x0101, 0x0102, 0x0103, 0x0104
# ErrorCode1 of a fault in a field of each kind: the alarm block's follows that of Expected.
CODES = {AR: 1, IOCR: 2, EXPECTED: 3, ALARM: 4}
# What is expected: slot and ident of each module, and of each of its submodules subslot, ident, properties, octets in and out.
STATION = [
    (0, 1, [(1, 1, 0, 0, 0), (0x8000, 2, 0, 0, 0), (0x8001, 3, 0, 0, 0)]), (1, 16, [(1, 16, 1, 2, 0)]), (2, 32, [(1, 32, 2, 0, 2)])]
# One with a submodule that has both.
MIXED = [(0, 1, [(1, 1, 0, 0, 0)]), (1, 16, [(1, 16, 3, 2, 4), (2, 17, 1, 5, 0)]), (9, 32, [(1, 32, 2, 0, 3), (7, 33, 0, 0, 0)])]


# The Connect.

def block(kind, body):
    return struct.pack(">HHBB", kind, len(body) + 2, 1, 0) + body


def ar_block(uuid=bytes.fromhex("11111111222233334444555555555555"), name=b"plc"):
    return block(AR, struct.pack(">H16sH6s16sIHHH", 1, uuid, 1, bytes.fromhex("020000000002"),
                                 bytes.fromhex("dea000006c9711d18271000100000000"), 0x11, 600, 0x8892, len(name)) + name)


def iocr_block(kind, modules):
    takes = {1: (lambda p, i, o: i + 1 if p != 2 else 0, lambda p, i, o: 1 if p & 2 else 0),
             2: (lambda p, i, o: o + 1 if p & 2 else 0, lambda p, i, o: 1 if p != 2 else 0)}[kind]
    offset, lists = 0, b""
    for length in takes:
        found = []
        for slot, _, submodules in modules:
            for subslot, _, properties, came, sent in submodules:
                size = length(properties, came, sent)
                if size:
                    found.append(struct.pack(">HHH", slot, subslot, offset))
                    offset += size
        lists += struct.pack(">H", len(found)) + b"".join(found)
    head = struct.pack(">HHHIHHHHHHIHHH6sHI", kind, kind, 0x8892, 1, max(40, offset), 0xC001 if kind == 1 else 0xFFFF, 32, 1, 1, 0,
                       0xFFFFFFFF, 3, 3, 0xC000, bytes(6), 1, 0)
    return block(IOCR, head + lists)


def alarm_block():
    return block(ALARM, struct.pack(">HHIHHHHHH", 1, 0x8892, 0, 1, 3, 1, 200, 0xC000, 0xA000))


def expected_block(*modules):
    body = struct.pack(">H", len(modules))
    for slot, ident, submodules in modules:
        body += struct.pack(">IHIHH", 0, slot, ident, 0, len(submodules))
        for subslot, number, properties, came, sent in submodules:
            body += struct.pack(">HIH", subslot, number, properties)
            for way, length in {0: [(1, 0)], 1: [(1, came)], 2: [(2, sent)], 3: [(1, came), (2, sent)]}[properties]:
                body += struct.pack(">HHBB", way, length, 1, 1)
    return block(EXPECTED, body)


def connect(modules, split=True):
    """The blocks of a Connect: a module an Expected block, or all in one."""
    listed = [expected_block(module) for module in modules] if split else [expected_block(*modules)]
    return [ar_block(), iocr_block(1, modules), iocr_block(2, modules), alarm_block(), *listed]


# The rules.

class Fault(Exception):
    """The first fault of a block: the number of the field, 1 where the length is wrong."""


class Cursor:
    def __init__(self, octets):
        self.octets, self.place = octets, 0

    def take(self, size):
        if self.place + size > len(self.octets):
            raise Fault(1)
        self.place += size
        return self.octets[self.place - size:self.place]

    def number(self, size):
        return int.from_bytes(self.take(size), "big")

    def asked(self, size, field, accepts):
        number = self.number(size)
        if not accepts(number):
            raise Fault(field)
        return number

    def end(self):
        if self.place != len(self.octets):
            raise Fault(1)


def within(least, most):
    return lambda number: least <= number <= most


def is_cyclic(number):
    return 0x8000 <= number <= 0xBBFF or 0xC000 <= number <= 0xF7FF


def opened(octets):
    """The fields of a block whose header counts no more octets than there are, after its version."""
    length = int.from_bytes(octets[2:4], "big")
    if len(octets) < 4 + length:
        raise Fault(1)
    cursor = Cursor(octets[4:4 + length])
    cursor.asked(1, 2, lambda version: version == 1)
    cursor.asked(1, 3, lambda version: version == 0)
    return cursor


def read_ar(octets):
    cursor = opened(octets)
    cursor.asked(2, 4, lambda kind: kind == 1)
    uuid = cursor.asked(16, 5, lambda number: number != 0)
    cursor.take(2)
    cursor.asked(6, 7, lambda mac: mac >> 40 & 1 == 0)
    cursor.take(16 + 4)
    cursor.asked(2, 10, within(1, 1000))
    cursor.take(2)
    cursor.take(cursor.asked(2, 12, within(0, 240)))
    cursor.end()
    return uuid


def read_iocr(octets):
    """Kind, DataLength, and the lists of data objects and of IOCS."""
    cursor = opened(octets)
    kind = cursor.asked(2, 4, within(1, 2))
    cursor.take(2)
    cursor.asked(2, 6, lambda lt: lt == 0x8892)
    cursor.asked(4, 7, lambda properties: properties % 16 in (1, 2))
    length = cursor.asked(2, 8, within(40, 1440))
    cursor.asked(2, 9, lambda number: is_cyclic(number) or kind == 2 and number == 0xFFFF)
    cursor.asked(2, 10, within(1, 128))
    cursor.asked(2, 11, within(1, 512))
    cursor.take(2 + 2 + 4 + 2)
    cursor.asked(2, 16, within(1, 7680))
    cursor.take(2 + 6)
    cursor.asked(2, 19, lambda count: count == 1)
    cursor.asked(4, 20, lambda api: api == 0)
    lists = []
    for _ in range(2):
        lists.append([(cursor.number(2), cursor.number(2), cursor.number(2)) for _ in range(cursor.number(2))])
    cursor.end()
    return kind, length, *lists


def read_alarm(octets):
    cursor = opened(octets)
    cursor.asked(2, 4, lambda kind: kind == 1)
    cursor.asked(2, 5, lambda lt: lt == 0x8892)
    cursor.take(4)
    cursor.asked(2, 7, lambda factor: factor >= 1)
    cursor.asked(2, 8, within(1, 15))
    cursor.take(2)
    cursor.asked(2, 10, within(200, 1432))
    cursor.take(4)
    cursor.end()


def read_expected(octets):
    """Slot and submodules (subslot, input, output octets or None) of each module."""
    cursor, modules = opened(octets), []
    for _ in range(cursor.number(2)):
        cursor.asked(4, 5, lambda api: api == 0)
        slot = cursor.asked(2, 6, lambda number: number not in [slot for slot, _ in modules])
        cursor.take(4 + 2)
        submodules = []
        for _ in range(cursor.number(2)):
            subslot = cursor.asked(2, 10, lambda number: number not in [subslot for subslot, _, _ in submodules])
            cursor.take(4)
            properties = cursor.number(2) % 4
            lengths = {}
            for way in {0: [1], 1: [1], 2: [2], 3: [1, 2]}[properties]:
                cursor.asked(2, 13, lambda number: number % 4 == way)
                lengths[way] = cursor.asked(2, 14, within(0, 1440 if properties else 0))
                cursor.asked(1, 15, lambda length: length == 1)
                cursor.asked(1, 16, lambda length: length == 1)
            submodules.append((subslot, lengths.get(1), lengths.get(2)))
        modules.append((slot, submodules))
    cursor.end()
    return modules


def layout_fault(iocr, modules):
    """The first fault of a layout as the field that reports it, or None: 24 outside or overlapping, 23 not expected there or
    listed twice, 21 missing."""
    kind, data_length, data, status = iocr
    wanted_data, wanted_status = {}, set()
    for slot, submodules in modules:
        for subslot, came, sent in submodules:
            here, there = (came, sent) if kind == 1 else (sent, came)
            if here is not None:
                wanted_data[slot, subslot] = here + 1
            if there is not None:
                wanted_status.add((slot, subslot))
    ranges = [(place, wanted_data.get((slot, subslot), 1)) for slot, subslot, place in data]
    ranges += [(place, 1) for _, _, place in status]
    if any(place + length > data_length for place, length in ranges):
        return 24
    covered = [0] * data_length
    for place, length in ranges:
        for octet in range(place, place + length):
            covered[octet] += 1
    if any(count > 1 for count in covered):
        return 24
    keys, status_keys = [(slot, subslot) for slot, subslot, _ in data], [(slot, subslot) for slot, subslot, _ in status]
    for listed, wanted in ((keys, wanted_data), (status_keys, wanted_status)):
        if any(key not in wanted or listed.count(key) > 1 for key in listed):
            return 23
    if any(key not in keys for key in wanted_data) or any(key not in status_keys for key in wanted_status):
        return 21
    return None


def judged_block(octets, state, standing):
    """One block of a Connect: the status of its first fault, or the octets after it."""
    if len(octets) < 4:
        return "db814000"
    kind = int.from_bytes(octets[:2], "big")
    if kind not in (AR, IOCR, ALARM, EXPECTED) or (kind == AR) != state["first"]:
        return "db814001"
    state["first"] = False
    if kind == ALARM and state["alarm"]:
        return "db814003"
    try:
        if kind == AR:
            uuid = read_ar(octets)
            if standing is not None:
                return "db814006" if standing == uuid else "db814004"
        elif kind == IOCR:
            iocr = read_iocr(octets)
            if iocr[0] in [came[0] for came in state["iocrs"]]:
                raise Fault(4)
            state["iocrs"].append(iocr)
        elif kind == ALARM:
            read_alarm(octets)
            state["alarm"] = True
        else:
            modules = read_expected(octets)
            if any(slot == other for slot, _ in modules for other, _ in state["modules"]):
                raise Fault(6)
            state["modules"] += modules
            state["expected"] = True
            if len(state["modules"]) > 64 or sum(len(submodules) for _, submodules in state["modules"]) > 64:
                return "db814004"
    except Fault as fault:
        return f"db81{CODES[kind]:02x}{fault.args[0]:02x}"
    return octets[4 + int.from_bytes(octets[2:4], "big"):]


def status_of(octets, standing=None):
    """What has to become of a Connect with these blocks: 'ok' or a status. `standing` is the ARUUID of a relation that there is."""
    state = {"first": True, "alarm": False, "iocrs": [], "modules": [], "expected": False}
    if not octets:
        return "db814001"
    while octets:
        octets = judged_block(octets, state, standing)
        if isinstance(octets, str):
            return octets
    if not state["expected"]:
        return "db814001"
    if len(state["iocrs"]) < 2:
        return "db814002"
    if not state["alarm"]:
        return "db814003"
    for iocr in state["iocrs"]:
        fault = layout_fault(iocr, state["modules"])
        if fault:
            return f"db8102{fault:02x}"
    return "ok"


# The table.

# Fields of each kind after BlockType: place in the block, octets, and values beside those that each field gets anyhow (0, 1, its
# own beside it, its greatest): the least and the greatest that are accepted, with one below and above.
HEADER = [(0, 2, [0x0101, 0x0102, 0x0103, 0x0104, 0x0105, 0x8101, 0x0110]), (2, 2, []), (4, 1, []), (5, 1, [])]
FIELDS = {
    AR: [(6, 2, [2]), (8, 16, []), (24, 2, []), (26, 6, [0x030000000002]), (32, 16, []), (48, 4, []), (52, 2, [1000, 1001]),
         (54, 2, []), (56, 2, [240, 241])],
    IOCR: [(6, 2, [2, 3]), (8, 2, []), (10, 2, [0x8891, 0x8893]), (12, 4, [2, 3, 4, 0xFFFFFFF1]), (16, 2, [39, 40, 41, 1440, 1441]),
           (18, 2, [0x7FFF, 0x8000, 0xBBFF, 0xBC00, 0xBFFF, 0xC000, 0xF7FF, 0xF800]), (20, 2, [128, 129]), (22, 2, [512, 513]),
           (24, 2, []), (26, 2, []), (28, 4, []), (32, 2, []), (34, 2, [7680, 7681]), (36, 2, []), (38, 6, []), (44, 2, [2]),
           (46, 4, [0x01000000])],
    ALARM: [(6, 2, [2]), (8, 2, [0x0800]), (10, 4, []), (14, 2, []), (16, 2, [15, 16]), (18, 2, []),
            (20, 2, [199, 200, 1432, 1433]), (22, 2, []), (24, 2, [])],
    EXPECTED: [(6, 2, [2])],
}


def fields_of(octets):
    """Place, octets and values of each field of a block, the lists' too."""
    kind = int.from_bytes(octets[:2], "big")
    found = HEADER + FIELDS[kind]
    if kind == IOCR:
        place = 50
        for _ in range(2):
            count = int.from_bytes(octets[place:place + 2], "big")
            found.append((place, 2, [2, 3, 4, 5, 6, 255, 256, 257]))
            place += 2
            for _ in range(count):
                found += [(place, 2, [2, 3, 9]), (place + 2, 2, [2, 7, 0x8000, 0x8001]),
                          (place + 4, 2, [*range(16), 38, 39, 40, 1439, 1440])]
                place += 6
    if kind == EXPECTED:
        place = 8
        for _ in range(int.from_bytes(octets[6:8], "big")):
            found += [(place, 4, [0x01000000]), (place + 4, 2, [2, 3, 9]), (place + 6, 4, []), (place + 10, 2, []),
                      (place + 12, 2, [2, 3, 256, 257])]
            count, place = int.from_bytes(octets[place + 12:place + 14], "big"), place + 14
            for _ in range(count):
                found += [(place, 2, [2, 7, 0x8000, 0x8001]), (place + 2, 4, []), (place + 6, 2, [2, 3, 4, 5, 0x7FFC])]
                ways, place = 2 if octets[place + 7] % 4 == 3 else 1, place + 8
                for _ in range(ways):
                    found += [(place, 2, [2, 3, 5, 6]), (place + 2, 2, [2, 3, 4, 5, 6, 1440, 1441]), (place + 4, 1, [2]),
                              (place + 5, 1, [2])]
                    place += 6
    return found


def edits_of(blocks):
    """Edits of a Connect: from where, up to where, and what is there. Each field with each value; each block missing, twice, at
    each other place; each block, and the whole, cut at each length."""
    starts = [sum(map(len, blocks[:index])) for index in range(len(blocks) + 1)]
    whole = starts[-1]
    for start, octets in zip(starts, blocks):
        for place, size, values in fields_of(octets):
            own = int.from_bytes(octets[place:place + size], "big")
            greatest = 256 ** size - 1
            for value in sorted({0, 1, greatest, *values, max(0, own - 1), min(greatest, own + 1)} - {own}):
                if value <= greatest:
                    yield start + place, start + place + size, value.to_bytes(size, "big")
    for index, octets in enumerate(blocks):
        yield starts[index], starts[index + 1], b""
        for place in starts:
            yield place, place, octets
        for other in range(index):
            moved = blocks[other:index + 1]
            yield starts[other], starts[index + 1], b"".join(moved[-1:] + moved[:-1])
            yield starts[other], starts[index + 1], b"".join(moved[1:] + moved[:1])
            yield starts[other], starts[index + 1], b""
    for index, octets in enumerate(blocks):
        for length in range(4, len(octets)):
            yield starts[index], starts[index + 1], octets[:2] + (length - 4).to_bytes(2, "big") + octets[4:length]
        yield starts[index], starts[index + 1], octets[:2] + (len(octets) - 3).to_bytes(2, "big") + octets[4:] + b"\0"
    for length in range(whole):
        yield length, whole, b""
    for digits in "00 0104 000000 00000000 01040000 01010000 01030000 01020000 0103ffff 0102ffff 0104ffff 0105ffff".split():
        more = bytes.fromhex(digits)
        for place in starts:
            yield place, place, more
            yield place, whole, more


def pairs_of(blocks):
    """Edits of two blocks at once: what is in the first of them decides."""
    starts = [sum(map(len, blocks[:index])) for index in range(len(blocks) + 1)]
    broken = []
    for start, octets in zip(starts, blocks):
        kind = int.from_bytes(octets[:2], "big")
        place = {AR: 52, IOCR: 16, ALARM: 16, EXPECTED: 8}[kind]
        broken.append((start + place, octets[place:place + 2], b"\xff\xff"))
    for first in range(len(broken)):
        for second in range(first + 1, len(broken)):
            octets = b"".join(blocks)
            start, end = broken[first][0], broken[second][0] + 2
            inside = bytearray(octets[start:end])
            inside[:2], inside[-2:] = broken[first][2], broken[second][2]
            yield start, end, bytes(inside)


def many(count, submodules=1):
    """A Connect of this many modules without data, in one Expected block."""
    return [(slot, 1, [(subslot, 1, 0, 0, 0) for subslot in range(1, submodules + 1)]) for slot in range(count)]


def table():
    """The Connects: octets of one from which the edits after it start, or an edit."""
    for modules, split in ((STATION, True), (MIXED, False)):
        blocks = connect(modules, split)
        yield b"".join(blocks)
        seen = set()
        for edit in [*edits_of(blocks), *pairs_of(blocks)]:
            if edit not in seen:
                seen.add(edit)
                yield edit
    for modules in (many(1, 64), many(1, 65)):
        yield b"".join(connect(modules, False))


def line_of(row):
    return row.hex() if isinstance(row, bytes) else f"{row[0]} {row[1]} {row[2].hex() or '-'}"


def statuses_of(rows):
    """What has to become of each: without a relation, with one of the same ARUUID as the first Connect's, and with another."""
    base = b""
    for row in rows:
        if isinstance(row, bytes):
            octets = base = row
        else:
            octets = base[:row[0]] + row[2] + base[row[1]:]
        uuid = int.from_bytes(base[8:24], "big")
        yield [status_of(octets), status_of(octets, uuid), status_of(octets, 0)]


# What others recorded.

def read_call(frame):
    """Of a frame with a call: its operation, activity and sequence, and its blocks, or None where the counts are wrong."""
    octets = frame[:12] + frame[16:] if frame[12:14] == b"\x81\0" else frame
    if octets[12:14] != b"\x08\0" or len(octets) < 142 or octets[43] != 0:
        return None
    order = "little" if octets[46] >> 4 else "big"
    word = lambda place, size=4: int.from_bytes(octets[place:place + size], order)
    length, offset, actual = word(126), word(134), word(138)
    blocks = octets[142:142 + length] if length == actual and not offset and length <= word(116, 2) - 20 else None
    activity = word(82).to_bytes(4, "big") + word(86, 2).to_bytes(2, "big") + word(88, 2).to_bytes(2, "big") + octets[90:98]
    return word(110, 2), (activity, word(106)), blocks


def recorded(folder):
    """Compares the rules with each Connect that was answered and was no repetition."""
    alike, wrong = 0, 0
    for name in sorted(name for name in os.listdir(folder) if os.path.exists(os.path.join(folder, name + ".stdout"))):
        with open(os.path.join(folder, name), encoding="ascii") as file:
            lines = [line for line in file.read().splitlines() if line and not line.startswith("#")]
        with open(os.path.join(folder, name + ".stdout"), encoding="ascii") as file:
            left = file.read().splitlines()[1:]
        standing, kept = None, {}
        for line in lines:
            word, printed = line.split()[0], []
            while left and word not in ("cut", "fault"):
                if word == "show" and printed and left[0].split()[0] in ("out", "note", "boot", "power", "off", "name"):
                    break
                printed.append(left.pop(0))
                if word != "show" and not printed[-1].startswith("out "):
                    break
            if word == "restart":
                kept = {}
            if word == "restart" or any("cf81fd" in out or out == "phase none" for out in printed):
                standing = None
            found = read_call(bytes.fromhex(line[6:])) if word == "frame" else None
            answers = [bytes.fromhex(out[4:]) for out in printed if out.startswith("out ")]
            if found is None or not answers:
                continue
            operation, pair, blocks = found
            status = answers[0][122:126].hex()
            is_again = kept.get(pair) == answers[0]
            if operation == 1 and status == "00000000" and not is_again:
                standing = None
            if operation == 0 and not is_again:
                wanted = "db814000" if blocks is None else status_of(blocks, standing)
                came = "ok" if status == "00000000" else status
                alike += wanted == came
                if wanted != came:
                    wrong += 1
                    print(f"{name}: {came}, wanted {wanted}")
                if came == "ok":
                    standing = int.from_bytes(blocks[8:24], "big")
            if blocks is not None:
                kept[pair] = answers[0]
    print(f"{alike} Connects alike, {wrong} not")
    return 1 if wrong else 0


def check():
    """Whether the table of the tests has these Connects, and what must become of each."""
    rows = list(table())
    wanted = {"stdin": "\n".join(map(line_of, rows)) + "\n", "stdout": "\n".join(" ".join(three) for three in statuses_of(rows)) + "\n"}
    other = []
    for name, text in wanted.items():
        with open(os.path.join(TOP, "tests", "tables", "connects", name), encoding="ascii") as file:
            if file.read() != text:
                other.append(name)
    for name in other:
        print(f"tests/tables/connects/{name} is not what the rules give")
    print(f"{len(rows)} Connects, {'other than the rules give' if other else 'as the rules give'}")
    return 1 if other else 0


def main(words):
    answer_help(__doc__, words)
    if words == ["--lines"]:
        print("\n".join(map(line_of, table())))
    elif words == ["--statuses"]:
        print("\n".join(" ".join(three) for three in statuses_of(table())))
    elif words == ["--check"]:
        return check()
    elif len(words) == 2 and words[0] == "--recorded":
        return recorded(words[1])
    else:
        return refuse(words or ["no words"])
    return 0


if __name__ == "__main__":
    sys.exit(main(sys.argv[1:]))
