#!/usr/bin/env python3
"""Has tshark read the calls for records that the application of a device answers, and compares each with what was given.

The programs of host/ run on a wire between two network namespaces: `nandutable-device --record`, whose application is this tool, a controller
that reads and writes records, and another reader without a relation. The application answers with octets, takes what is written, refuses with
each ErrorCode1 that it may, and says nothing for two seconds (ErrorCode1 0xA7). While it is asked, the other reader is refused (0xC2). tshark must
show these calls and no others, in order: the operation, slot, subslot, index and octets of each call, and of its response the PNIOStatus and the
octets. It may find no wrong checksum, and call no frame malformed but the response to a refused Write, which has no block.

    tests/interoperation/asked_in_tshark.py              takes root, ip, tshark (4.0.17 was used), and `make -C host all build/tap`
    tests/interoperation/asked_in_tshark.py FILE.pcap    leaves the frames in this file

Its status is 1 where something differs.
"""

import json
import os
import random
import subprocess
import sys
import tempfile

TOP = os.path.dirname(os.path.dirname(os.path.dirname(os.path.realpath(__file__))))
sys.path[:0] = [os.path.join(TOP, "ci"), os.path.join(TOP, "host", "test")]
from program import answer_help, need, refuse
from wire import BUILD, NoWire, Program, Tap, Wire, answer, blocks_of, set_name

READ, WRITE, READ_IMPLICIT = 2, 3, 5
REQUEST, RESPONSE = 0, 2
RECORDS = ("1 1 8192 1308 both", "1 1 8193 4 both", "2 1 8192 4 read", "2 1 8193 4 write")
FIELDS = {"kind": "dcerpc.pkt_type", "operation": "dcerpc.opnum", "activity": "dcerpc.dg_act_id", "sequence": "dcerpc.dg_seqnum", "slot": "pn_io.slot_nr",
          "subslot": "pn_io.subslot_nr", "index": "pn_io.index", "length": "pn_io.record_data_length", "code": "pn_io.error_code",
          "decode": "pn_io.error_decode", "code1": "pn_io.error_code1", "code2": "pn_io.error_code2", "octets": "udp.payload",
          "malformed": "_ws.malformed", "ip": "ip.checksum.status", "udp": "udp.checksum.status"}
BAD = "0"
BEFORE = 80 + 20 + 64  # octets of a datagram before those of a record: the header of the call, that of its arguments, and the block


def status_of(octets, code1, code2=0):
    """The PNIOStatus by which a Read, or a Write of these octets, is refused."""
    return bytes((0xDE if octets is None else 0xDF, 0x80, code1, code2))


class Played:
    """A controller and a device on a wire, and what was given: operation, slot, subslot, index and octets of each call, and of its response the
    PNIOStatus and the octets, in the order of the responses."""

    def __init__(self, wire, folder):
        with open(os.path.join(TOP, "host", "demo", "pump.json"), encoding="utf-8") as file:
            catalogue = json.load(file)
        catalogue["Project"].update(ReductionRatio=512, DataHoldFactor=7)  # few cyclic frames
        self.wire, self.plan, self.given, self.asked = wire, os.path.join(folder, "plan.json"), [], 0
        with open(self.plan, "w", encoding="utf-8") as file:
            json.dump(catalogue, file)
        words = [word for record in RECORDS for word in ("--record", *record.split())]
        self.device = Program(wire, "d0", "d0", "--flash", os.path.join(folder, "flash"), *words)
        self.device.expect("ip ")
        link = wire.socket()
        came = answer(link, set_name(catalogue["Project"]["NameOfStation"], 7), 0xFEFD)
        link.close()
        if came is None or blocks_of(came)[5, 4][2] != 0:
            raise AssertionError("the device does not take its name")
        self.controller = Program(wire, "c0", "c0", self.plan)
        self.controller.expect("state exchanging", 30)

    def call(self, place, octets):
        """The controller reads a record, or writes these octets."""
        self.controller.say(f"read {place}" if octets is None else f"write {place} {octets.hex() or '-'}")

    def application(self, line=None):
        """The application is asked, and gives this line."""
        self.asked += 1
        self.device.expect(f"asked {self.asked} ")
        if line is not None:
            self.device.ask(line.replace("NUMBER", str(self.asked)), "note done$")

    def answered(self, place, octets, status=bytes(4), came=b""):
        """The controller has its answer."""
        word, end = ("read", f"{came.hex() or '-'}$") if octets is None else ("write", "done$")
        if any(status):
            end = f"refused: PNIOStatus {status.hex(' ').upper()}: "
        self.controller.expect(f"{word} {place} {end}")
        self.given.append((READ if octets is None else WRITE, *map(int, place.split()), octets or b"", status, came))

    def read(self, place, came):
        self.call(place, None)
        self.application(f"answer NUMBER {came.hex() or '-'}")
        self.answered(place, None, came=came)

    def write(self, place, octets):
        self.call(place, octets)
        self.application("answer NUMBER")
        self.answered(place, octets)

    def refused(self, place, octets, code1, code2):
        """The application refuses."""
        self.call(place, octets)
        self.application(f"refuse NUMBER {code1} {code2}")
        self.answered(place, octets, status_of(octets, code1, code2))

    def silent(self, place, octets):
        """The application says nothing."""
        self.call(place, octets)
        self.application()
        self.answered(place, octets, status_of(octets, 0xA7))

    def refused_at_once(self, place, octets, code1):
        """The device refuses, and asks nothing."""
        self.call(place, octets)
        self.answered(place, octets, status_of(octets, code1))

    def other_reads(self, place, status=bytes(4), came=b""):
        """The other reader; it is refused with this status, or the application answers."""
        other = Program(self.wire, "c0", "c0", self.plan, "--read", *place.split())
        if not any(status):
            self.application(f"answer NUMBER {came.hex()}")
        if other.wait(20) != (2 if any(status) else 0):
            raise AssertionError(f"the other reader: {other.text()}")
        self.given.append((READ_IMPLICIT, *map(int, place.split()), b"", status, came))

    def busy(self, place, other):
        """The other reader comes while a Read of the controller is asked."""
        self.call(place, None)
        self.application()
        self.other_reads(other, status_of(None, 0xC2))
        self.device.ask(f"answer {self.asked} 00", "note done$")
        self.answered(place, None, came=b"\0")


def play(wire, folder):
    """Some hundred calls. Returns what was given."""
    chance, played = random.Random(7), Played(wire, folder)
    for length in (0, 1, 3, 4, 63, 255, 1307, 1308):
        played.read("1 1 8192", chance.randbytes(length))
        played.write("1 1 8192", chance.randbytes(length))
    for code1 in range(0xA0, 0xB0):
        for code2 in (0, chance.randrange(1, 255), 255):
            played.refused("1 1 8192", None, code1, code2)
            played.refused("1 1 8193", chance.randbytes(chance.randrange(5)), code1, code2)
    for place, octets, code1 in (("1 1 8194", None, 0xB0), ("1 1 8193", bytes(5), 0xB1), ("3 1 8192", None, 0xB2), ("3 1 8192", b"\1", 0xB2),
                                 ("2 1 8192", b"\1", 0xB6), ("2 1 8193", None, 0xB6)):
        played.refused_at_once(place, octets, code1)
    for _ in range(4):
        played.busy("2 1 8192", "1 1 8192")
        played.other_reads("1 1 8193", came=chance.randbytes(4))
    played.silent("1 1 8192", None)
    played.silent("1 1 8192", b"\1\2")
    if (played.controller.end(), played.device.end()) != (7, 0):
        raise AssertionError("a program ends with another status")
    return played.given


def frames_in(path):
    """What tshark shows of each frame, by the names of FIELDS; of a field that is there several times the first one."""
    words = [word for field in FIELDS.values() for word in ("-e", field)]
    checked = ("-o", "ip.check_checksum:TRUE", "-o", "udp.check_checksum:TRUE")
    ran = subprocess.run(["tshark", "-n", "-r", path, *checked, "-T", "fields", "-E", "separator=|", *words], capture_output=True, text=True, check=True)
    return [dict(zip(FIELDS, (field.split(",")[0] for field in line.split("|")))) for line in ran.stdout.splitlines()]


def numbers(frame, *names):
    """These fields, as numbers."""
    return tuple(int(frame[name], 0) for name in names)


def calls_in(frames):
    """The calls that tshark shows, in the order of their responses, as they are given; whether one was refused; and the frame of its response."""
    asked, answered, found = {}, set(), []
    for frame in frames:
        if not frame["operation"] or numbers(frame, "operation")[0] not in (READ, WRITE, READ_IMPLICIT):
            continue
        name, octets = (frame["activity"], frame["sequence"]), bytes.fromhex(frame["octets"])[BEFORE:]
        if name in answered:
            continue  # a repeat that came after the response
        if numbers(frame, "kind") == (REQUEST,):
            asked[name] = (*numbers(frame, "operation", "slot", "subslot", "index"), octets)
            length = len(octets)
        else:
            status, call = bytes(numbers(frame, "code", "decode", "code1", "code2")), asked.pop(name)
            answered.add(name)
            found.append(((*call, status, octets), frame))
            length = len(octets) or len(call[4])
            if not any(status) and numbers(frame, "slot", "subslot", "index") != call[1:4]:
                raise AssertionError(f"another record is answered: {frame}")
        # RecordDataLength of a Read says how many octets are wanted; a refusal has none.
        if frame["length"] and numbers(frame, "length") != (length,) and (numbers(frame, "kind") == (RESPONSE,) or octets):
            raise AssertionError(f"RecordDataLength is not {length}: {frame}")
    if asked:
        raise AssertionError(f"no response: {asked}")
    return found


def compare(given, path):
    """Whether tshark shows what was given."""
    frames = frames_in(path)
    found = calls_in(frames)
    wrong = [(call, shown) for call, (shown, _) in zip(given, found) if call != shown]
    for call, shown in wrong[:5]:
        print(f"given {call}, and tshark shows {shown}")
    refused = [(call, frame) for call, frame in found if any(call[5])]
    of_writes = [frame for call, frame in refused if call[0] == WRITE]
    malformed, of_these = sum(frame["malformed"] != "" for frame in frames), sum(frame["malformed"] != "" for frame in of_writes)
    bad = sum(BAD in (frame["ip"], frame["udp"]) for frame in frames)
    print(f"{len(frames)} frames, {bad} with a wrong checksum; {len(given)} calls, and tshark shows {len(found)}, {len(wrong)} of them otherwise; "
          f"{len(refused)} are refused, by {len({call[5] for call, _ in refused})} statuses;\nmalformed: {of_these} responses to {len(of_writes)} "
          f"refused Writes, {malformed - of_these} other frames")
    return not wrong and len(given) == len(found) and malformed == of_these and bad == 0


def main(words):
    answer_help(__doc__, words)
    if len(words) > 1 or words and words[0].startswith("-"):
        return refuse(words)
    need("ip", "tshark")
    lacking = [name for name in ("nandutable-device", "nandutable-controller", "tap") if not os.path.exists(os.path.join(BUILD, name))]
    if lacking:
        raise SystemExit(f"asked_in_tshark.py: {', '.join(lacking)} is not built: make -C host all build/tap")
    with tempfile.TemporaryDirectory() as folder:
        path = words[0] if words else os.path.join(folder, "asked.pcap")
        try:
            with Wire() as wire:
                tap = Tap(wire, "c0", path)
                given = play(wire, folder)
                tap.close()
        except NoWire as fault:
            raise SystemExit(f"asked_in_tshark.py: {fault}") from None
        return 0 if compare(given, path) else 1


if __name__ == "__main__":
    sys.exit(main(sys.argv[1:]))
