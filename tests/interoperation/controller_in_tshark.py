#!/usr/bin/env python3
"""Has tshark read each frame that the controller sends in the conversation of crates/table_controller, and compares the fields that its
PROFINET dissectors name with what the plan of the station says: none may be malformed, or have a wrong checksum.

What the plan says is computed here from the catalogue by the rules of IEC 61158-6-10 alone: who is asked for, the IP suite, each place
of the Connect, each record, the numbers of the calls, the value and the statuses of each cyclic frame, and which alarm is acknowledged.

    tests/interoperation/controller_in_tshark.py                   asks the program, which `rt run` in crates/table_controller makes
    tests/interoperation/controller_in_tshark.py --tried COMMAND   asks this command in its place
    tests/interoperation/controller_in_tshark.py --output FILE     takes what was printed for crates/table_controller/stdin
    tests/interoperation/controller_in_tshark.py --capture FILE    leaves the frames of both ends in this capture file, beside the first

Its status is 1 where a field differs. Needs Debian's package `tshark` (4.0.17 was used).
"""
import collections
import json
import os
import pathlib
import struct
import subprocess
import sys
import tempfile
import xml.etree.ElementTree

sys.path.insert(0, os.path.join(os.path.dirname(os.path.realpath(__file__)), "..", "..", "ci"))
from program import answer_help, need, refuse

CRATE = pathlib.Path(__file__).resolve().parent.parent.parent / "crates/table_controller"
STATION, EVERYONE = "02:00:00:00:00:01", "01:0e:cf:00:00:00"
PORT, MOST = 34964, 1372
OBJECTS, DEVICE_INTERFACE = "dea00000-6c97-11d1-8271-", "dea00001-6c97-11d1-8271-00a02442df7d"
CONTROLLER_INTERFACE = "dea00002-6c97-11d1-8271-00a02442df7d"
OCTETS = {"Unsigned8": 1, "Integer8": 1, "Unsigned16": 2, "Integer16": 2, "Unsigned32": 4, "Integer32": 4, "Float32": 4}
INPUT, OUTPUT = 1, 2
DATA, NACK, ACK, ERR = 1, 2, 3, 4
REASONS = {5: "data hold", 13: "another end"}
# Fields that tshark shows in words alone, and which are compared by their octets; and a PNIOStatus of 0.
BARE = {"pn.user_data", "pn_io.artype_req"}
DONE = {f"pn_io.error_{part}": [0] for part in ("code", "decode", "code1", "code2")}


class Plan:
    """What a catalogue plans for its station."""

    def __init__(self, ar, activity, catalogue):
        self.ar, self.activity, self.project = ar, activity, catalogue["Project"]
        identity, point = catalogue["DeviceIdentity"], catalogue["DeviceAccessPointItem"]
        self.vendor, self.device = identity["VendorID"], identity["DeviceID"]
        modules = {module["ID"]: module for module in catalogue["ModuleItem"]}
        used = [(0, point)] + [(slot["Slot"], modules[slot["ModuleItemTarget"]]) for slot in self.project["Slots"]]
        self.modules = [(slot, module["ModuleIdentNumber"], submodules(module)) for slot, module in sorted(used, key=lambda pair: pair[0])]
        self.records = [(slot["Slot"], record["Subslot"], record["Index"], record["Data"].lower())
                        for slot in self.project["Slots"] for record in slot.get("Records", [])]

    def places(self, direction):
        """Slot, subslot and place of each data object, those of each IOCS, and DataLength."""
        data, statuses, place = [], [], 0
        for is_data, listed in ((True, data), (False, statuses)):
            for slot, _, found in self.modules:
                for subslot, _, came, sent in found:
                    provides = sent > 0 if direction == OUTPUT else came > 0 or sent == 0
                    takes = sent > 0 if direction == INPUT else came > 0 or sent == 0
                    if provides if is_data else takes:
                        listed.append((slot, subslot, place))
                        place += 1 + (sent if direction == OUTPUT else came) if is_data else 1
        return data, statuses, max(40, place)

    def is_output(self, slot, subslot, octets):
        return any((slot, subslot, octets) == (at, number, sent) and sent for at, _, found in self.modules for number, _, _, sent in found)


def submodules(module):
    """Subslot, ident number, and the octets of input and output."""
    listed = []
    for item in module["VirtualSubmoduleItem"]:
        data = item.get("IOData", {})
        came, sent = (sum(OCTETS.get(part["DataType"]) or part["Length"] for part in data.get(way, [])) for way in ("Input", "Output"))
        listed.append((item["Subslot"], item["SubmoduleIdentNumber"], came, sent))
    return sorted(listed)


class Sent:
    """A frame of the controller, and what stood when it was sent."""

    def __init__(self, plan, values, alarms):
        self.plan, self.values, self.alarms = plan, dict(values), alarms


def conversation(lines, printed):
    """The frames of both ends in their order, each with None or with what stood."""
    frames, plan, values, alarms, rest = [], None, {}, None, iter(printed)
    for line in lines:
        word, _, behind = line.partition(" ")
        if word == "start":
            ar, activity, catalogue = behind.split(" ", 2)
            plan, values, alarms = Plan(ar, activity, json.loads(catalogue)), {}, set()
        elif word == "give":
            slot, subslot, value = behind.split(" ")
            if plan.is_output(int(slot), int(subslot), len(value) // 2):
                values[int(slot), int(subslot)] = value
        elif word == "frame":
            frames.append((bytes.fromhex(behind), alarms))
        for answer in rest:
            if not answer.startswith("out "):
                break
            frames.append((bytes.fromhex(answer[4:]), Sent(plan, values, alarms)))
    return frames


def write_capture(path, frames):
    with open(path, "wb") as out:
        out.write(struct.pack("<IHHiIII", 0xA1B2C3D4, 2, 4, 0, 0, 65535, 1))
        for number, (frame, _) in enumerate(frames):
            out.write(struct.pack("<IIII", number // 1000, 1000 * (number % 1000), len(frame), len(frame)) + frame)


def read_by_tshark(path):
    """For each frame, its fields by their names."""
    words = ["tshark", "-n", "-r", path, "-T", "pdml", "-o", "ip.check_checksum:TRUE", "-o", "udp.check_checksum:TRUE"]
    with subprocess.Popen(words, stdout=subprocess.PIPE, stderr=subprocess.DEVNULL) as ran:
        for _, packet in xml.etree.ElementTree.iterparse(ran.stdout):
            if packet.tag == "packet":
                fields = collections.defaultdict(list)
                for proto in packet.iter("proto"):
                    fields["protocols"].append(proto.get("name"))
                for field in packet.iter("field"):
                    fields[field.get("name")].append(field.get("value" if field.get("name") in BARE else "show"))
                yield fields
                packet.clear()


# ---- what the plan says of each kind

def dcp(plan, service, xid):
    return {"pn_rt.frame_id": [0xFEFE if service == 5 else 0xFEFD], "pn_dcp.service_id": [service], "pn_dcp.service_type": [0],
            "pn_dcp.xid": [xid]}


def identify(sent, _):
    name = sent.plan.project["NameOfStation"]
    return {**dcp(sent.plan, 5, 1), "eth.dst": [EVERYONE], "pn_dcp.reserved16": [], "pn_dcp.response_delay": [1], "pn_dcp.option": [2],
            "pn_dcp.suboption_device": [2], "pn_dcp.suboption_device_nameofstation": [name]}


def address(sent, _):
    project = sent.plan.project
    return {**dcp(sent.plan, 4, 2), "pn_dcp.option": [1], "pn_dcp.suboption_ip": [2], "pn_dcp.block_qualifier": [0],
            "pn_dcp.suboption_ip_ip": [project["IPAddress"]], "pn_dcp.suboption_ip_subnetmask": [project["SubnetMask"]],
            "pn_dcp.suboption_ip_standard_gateway": [project["Gateway"]]}


def call(plan, sequence, operation, blocks):
    """The header of a call, and which blocks it has."""
    target = f"{OBJECTS}0001{plan.device:04x}{plan.vendor:04x}"
    return {"eth.type": [0x0800], "ip.src": [plan.project["Controller"]["IPAddress"]], "ip.dst": [plan.project["IPAddress"]],
            "ip.ttl": [64], "ip.checksum.status": [1], "udp.checksum.status": [1], "udp.dstport": [PORT], "dcerpc.pkt_type": [0],
            "dcerpc.obj_id": [target], "dcerpc.dg_if_id": [DEVICE_INTERFACE], "dcerpc.dg_act_id": [plan.activity],
            "dcerpc.dg_seqnum": [sequence], "pn_io.opnum": [operation], "pn_io.args_max": [MOST], "pn_io.block_type": blocks}


def listed(plan, key):
    """A value of each submodule of the plan."""
    return [key(slot, *submodule) for slot, _, found in plan.modules for submodule in found]


def connect(sent, _):
    plan, times = sent.plan, sent.plan.project
    (inputs, out_of, came), (outputs, into, went) = plan.places(INPUT), plan.places(OUTPUT)
    directions = listed(plan, lambda slot, subslot, ident, came, sent: [1] * (came > 0 or not sent) + [2] * (sent > 0))
    lengths = listed(plan, lambda slot, subslot, ident, came, sent: [came] * (came > 0 or not sent) + [sent] * (sent > 0))
    return {
        **call(plan, 0, 0, [0x0101, 0x0102, 0x0102, 0x0103] + len(plan.modules) * [0x0104]),
        "pn_io.artype_req": ["0001"], "pn_io.session_key": [1], "pn_io.cminitiator_uuid": [OBJECTS + "000100000000"],
        "pn_io.ar_properties": [0x11], "pn_io.cminitiator_activitytimeoutfactor": [600], "pn_io.cminitiator_udprtport": [0x8892],
        "pn_io.cminitiator_station_name": [plan.project["Controller"]["NameOfStation"]],
        "pn_io.iocr_type": [INPUT, OUTPUT], "pn_io.iocr_reference": [1, 2], "pn_io.lt": 3 * [0x8892], "pn_io.iocr_properties": 2 * [1],
        "pn_io.data_length": [came, went], "pn_io.send_clock_factor": 2 * [times["SendClockFactor"]],
        "pn_io.reduction_ratio": 2 * [times["ReductionRatio"]], "pn_io.phase": [1, 1], "pn_io.sequence": [0, 0],
        "pn_io.frame_send_offset": 2 * [0xFFFFFFFF], "pn_io.watchdog_factor": 2 * [times["DataHoldFactor"]],
        "pn_io.data_hold_factor": 2 * [times["DataHoldFactor"]], "pn_io.iocr_tag_header": 2 * [0xC000],
        "pn_io.number_of_io_data_objects": [len(inputs), len(outputs)], "pn_io.number_of_iocs": [len(out_of), len(into)],
        "pn_io.io_data_object.frame_offset": [place for _, _, place in inputs + outputs],
        "pn_io.iocs_frame_offset": [place for _, _, place in out_of + into],
        "pn_io.slot_nr": [slot for slot, _, _ in inputs + out_of + outputs + into] + [slot for slot, _, _ in plan.modules],
        "pn_io.subslot_nr": [subslot for _, subslot, _ in inputs + out_of + outputs + into] + listed(plan, lambda slot, subslot, *_: subslot),
        "pn_io.alarmcr_type": [1], "pn_io.rta_timeoutfactor": [1], "pn_io.rta_retries": [3], "pn_io.maxalarmdatalength": [200],
        "pn_io.alarmcr_tagheaderhigh": [0xC000], "pn_io.alarmcr_tagheaderlow": [0xA000],
        "pn_io.module_ident_number": [ident for _, ident, _ in plan.modules],
        "pn_io.submodule_ident_number": listed(plan, lambda slot, subslot, ident, *_: ident),
        "pn_io.submodule_properties.type": listed(plan, lambda slot, subslot, ident, came, sent: (came > 0) + 2 * (sent > 0)),
        "pn_io.data_description": sum(directions, []), "pn_io.submodule_data_length": sum(lengths, []),
    }


def write(sent, fields):
    plan, number = sent.plan, int(fields["dcerpc.dg_seqnum"][0], 0)
    slot, subslot, index, octets = plan.records[number - 1]
    return {**call(plan, number, 3, [0x0008]), "pn_io.seq_number": [number], "pn_io.slot_nr": [slot], "pn_io.subslot_nr": [subslot],
            "pn_io.index": [index], "pn_io.record_data_length": [len(octets) // 2], "pn.user_data": [octets]}


def prm_end(sent, _):
    return {**call(sent.plan, len(sent.plan.records) + 1, 4, [0x0110]), "pn_io.session_key": [1], "pn_io.control_command": [1]}


def release(sent, fields):
    number = int(fields["dcerpc.dg_seqnum"][0], 0)
    is_next = 1 <= number <= len(sent.plan.records) + 2
    return {**call(sent.plan, number if is_next else -1, 1, [0x0114]), "pn_io.session_key": [1], "pn_io.control_command": [4]}


def ready(sent, _):
    plan = sent.plan
    return {**call(plan, 0, 4, [0x8112]), "pn_io.args_max": [], "dcerpc.pkt_type": [2], "dcerpc.dg_act_id": [plan.ar],
            "dcerpc.obj_id": [OBJECTS + "000100000000"], "dcerpc.dg_if_id": [CONTROLLER_INTERFACE], **DONE,
            "pn_io.session_key": [1], "pn_io.control_command": [8]}


def cyclic(sent, _):
    plan = sent.plan
    data, statuses, _ = plan.places(OUTPUT)
    octets = {(slot, subslot): sent for slot, _, found in plan.modules for subslot, _, _, sent in found}
    values = [sent.values.get(place[:2], 2 * octets[place[:2]] * "0") for place in data]
    status = [0x80 if place[:2] in sent.values else 0 for place in data]
    return {"pn_rt.frame_id": [0xC000], "vlan.priority": [6], "pn_rt.ds": [0x35], "pn_rt.transfer_status": [0],
            "pn_io.ioxs": status + len(statuses) * [0x80], "values": values}


def alarm(kind):
    """The header of a PDU between the two."""
    return {"vlan.priority": [5 if kind == ERR else 6], "pn_rt.frame_id": [0xFE01 if kind == ERR else 0xFC01],
            "pn_io.alarm_dst_endpoint": [1], "pn_io.alarm_src_endpoint": [1], "pn_io.pdu_type.type": [kind], "pn_io.pdu_type.version": [1],
            "pn_io.window_size": [1], "pn_io.tack": [int(kind == DATA)]}


def alarm_ack(sent, fields):
    """The alarm that it acknowledges is one that came."""
    kind = 0x8001 if named(fields) in sent.alarms else "that of an alarm that came"
    return {**alarm(DATA), "pn_io.var_part_len": [22], "pn_io.block_type": [kind], "pn_io.alarm_type": [2], "pn_io.api": [0], **DONE}


def named(fields):
    """Slot, subslot and number of an alarm."""
    return tuple(fields[name][0] for name in ("pn_io.slot_nr", "pn_io.subslot_nr", "pn_io.alarm_specifier.sequence"))


def reply(kind):
    return lambda *_: {**alarm(kind), "pn_io.var_part_len": [0], "pn_io.block_type": []}


def err(sent, fields):
    reason = int(fields["pn_io.error_code2"][0], 0)
    return {**alarm(ERR), "pn_io.var_part_len": [4], "pn_io.error_code": [0xCF], "pn_io.error_decode": [0x81], "pn_io.error_code1": [0xFD],
            "pn_io.error_code2": [reason if reason in REASONS else -1]}


def kind_of(fields):
    """What tshark takes a frame for, and what it must contain."""
    def first(name):
        return int(fields[name][0], 0) if fields[name] else None
    if fields["pn_dcp.service_id"]:
        return ("Identify", identify) if first("pn_dcp.service_id") == 5 else ("Set of the IP suite", address)
    if fields["pn_rt.cycle_counter"]:
        return "cyclic frame", cyclic
    if fields["pn_io.pdu_type.type"]:
        kind = first("pn_io.pdu_type.type")
        return {DATA: ("AlarmAck", alarm_ack), ACK: ("ACK", reply(ACK)), NACK: ("NACK", reply(NACK)), ERR: ("ERR", err)}[kind]
    kinds = {0x0101: ("Connect", connect), 0x0008: ("Write", write), 0x0110: ("PrmEnd", prm_end), 0x0114: ("Release", release),
             0x8112: ("answer to ApplicationReady", ready)}
    return kinds.get(first("pn_io.block_type"), ("nothing that is known", None))


def as_shown(name, shown, wanted):
    """A field as it is compared: a number where one is wanted."""
    return int(shown, 0) if isinstance(wanted, int) and shown[:1].isdigit() else shown


def differing(fields, wanted):
    """The fields that are not as the plan says."""
    wanted = dict(wanted)
    if "values" in wanted:
        values = wanted.pop("values")
        wanted["pn.user_data"] = values + fields["pn.user_data"][len(values):]
    for name, values in wanted.items():
        came = fields[name]
        shown = [as_shown(name, one, value) for one, value in zip(came, values)]
        if len(came) != len(values) or shown != values:
            yield f"{name} is {came}, and has to be {values}"


def judged(frames, read):
    """Counts the frames of the controller by kind, the fields that were compared, and prints what differs."""
    counts, compared, wrong, number = collections.Counter(), 0, 0, 0
    for number, ((octets, stood), fields) in enumerate(zip(frames, read), 1):
        if not isinstance(stood, Sent):
            if stood is not None and fields["pn_io.alarm_specifier.sequence"]:
                stood.add(named(fields))
            continue
        kind, says = kind_of(fields)
        faults = ["it is malformed"] if "_ws.malformed" in fields["protocols"] + list(fields) else []
        if says is None:
            faults.append("tshark does not know it")
        else:
            wanted = {"eth.src": [stood.plan.project["Controller"]["MAC"].replace("-", ":").lower()], "eth.dst": [STATION],
                      **says(stood, fields)}
            faults += differing(fields, wanted)
            compared += sum(len(values) for values in wanted.values())
        counts[kind] += 1
        wrong += bool(faults)
        for fault in faults:
            print(f"frame {number}, {kind}: {fault}")
    if number != len(frames):
        print(f"tshark gives {number} frames of {len(frames)}")
        wrong += 1
    return counts, compared, wrong


def printed_by(words):
    with open(CRATE / "stdin", "rb") as given:
        return subprocess.run(words, stdin=given, stdout=subprocess.PIPE, check=True).stdout.decode().splitlines()


def main(words):
    answer_help(__doc__, words)
    capture = None
    if len(words) >= 2 and words[0] == "--capture":
        capture, words = words[1], words[2:]
    if words and not (len(words) >= 2 and words[0] == "--tried" or len(words) == 2 and words[0] == "--output"):
        return refuse(words)
    need("tshark")
    if words[:1] == ["--output"]:
        printed = pathlib.Path(words[1]).read_text(encoding="ascii").splitlines()
    else:
        program = words[1:] or [str(CRATE / "out/table_controller")]
        if not words and not os.path.exists(program[0]):
            print("controller_in_tshark.py: no program table_controller: `rt run` in crates/table_controller makes it", file=sys.stderr)
            return 1
        printed = printed_by(program)
    frames = conversation((CRATE / "stdin").read_text(encoding="ascii").splitlines(), printed)
    with tempfile.TemporaryDirectory() as folder:
        path = capture or os.path.join(folder, "controller.pcap")
        write_capture(path, frames)
        counts, compared, wrong = judged(frames, read_by_tshark(path))
    for kind, times in sorted(counts.items()):
        print(f"{times:6} {kind}")
    print(f"{sum(counts.values())} frames of the controller, {compared} fields compared, {wrong} frames wrong")
    return 1 if wrong or not counts else 0


if __name__ == "__main__":
    sys.exit(main(sys.argv[1:]))
