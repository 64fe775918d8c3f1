#!/usr/bin/env python3
"""What the plan of a catalogue must be, computed from its JSON by the rules alone (docs/PLANS.md; IEC 61158-6-10, 5.2.3 and 5.2.4): the
layouts of its cyclic frames, the blocks of its Connect and its records. It shares no line with the program, and judges no catalogue.

    ci/catalogues.py --lines FILE       prints the layouts of a catalogue, as `pnscript plan` does
    ci/catalogues.py --table FILE       prints what must come of a file of catalogues, one a line, in the table tests/tables/catalogues
                                                whose fault is given by --faults FILE: a line for each, `-` or the fault
    ci/catalogues.py --bounds           writes the last rows of that table: catalogues at each bound of the rules and one past it
    ci/catalogues.py --check            compares: each example with its layouts, the table with what is there, and the Connect of
                                                the demo station with the one that Scapy built in examples/exchange.txt
"""

import glob
import json
import os
import struct
import sys

import catalogue_bounds
from program import TOP, answer_help, refuse

OCTETS = {"Unsigned8": 1, "Integer8": 1, "Unsigned16": 2, "Integer16": 2, "Unsigned32": 4, "Integer32": 4, "Float32": 4}
EXAMPLES = os.path.join(TOP, "examples", "catalogue")
TABLE = os.path.join(TOP, "tests", "tables", "catalogues")
AR = bytes.fromhex("11111111222233334444555555555555")


def octets_of(items):
    return sum(item["Length"] if item["DataType"] == "OctetString" else OCTETS[item["DataType"]] for item in items)


def parts_of(item):
    """The submodules of an item by their subslots: subslot, ident number, octets of input and of output."""
    found = []
    for part in item.get("VirtualSubmoduleItem", []):
        data = part.get("IOData", {})
        found.append((part["Subslot"], part["SubmoduleIdentNumber"], octets_of(data.get("Input", [])), octets_of(data.get("Output", []))))
    return sorted(found)


def modules_of(catalogue):
    """What is plugged, by slots: slot, ident number and submodules."""
    point = catalogue["DeviceAccessPointItem"]
    items = {item["ID"]: item for item in catalogue.get("ModuleItem", [])}
    used = {slot: reference["ModuleItemTarget"] for reference in point.get("ModuleItemRef", []) for slot in reference.get("FixedInSlots", [])}
    used.update({entry["Slot"]: entry["ModuleItemTarget"] for entry in catalogue["Project"].get("Slots", [])})
    plugged = [(slot, items[name]["ModuleIdentNumber"], parts_of(items[name])) for slot, name in sorted(used.items())]
    return [(0, point["ModuleIdentNumber"], parts_of(point)), *plugged]


def places_of(modules, is_input):
    """The places of a direction: the data objects, and then the IOCS. Kind, slot, subslot, offset and octets of each."""
    places, offset = [], 0
    for kind in ("data", "iocs"):
        for slot, _, parts in modules:
            for subslot, _, came, sent in parts:
                comes, goes = came > 0 or sent == 0, sent > 0
                is_there = (comes if is_input else goes) if kind == "data" else (goes if is_input else comes)
                if is_there:
                    octets = 1 if kind == "iocs" else 1 + (came if is_input else sent)
                    places.append((kind, slot, subslot, offset, octets))
                    offset += octets
    return places, max(40, offset)


def layouts_of(modules):
    """The lines of both layouts."""
    lines = []
    for word, is_input in (("input", True), ("output", False)):
        places, length = places_of(modules, is_input)
        lines.append(f"{word} {length}")
        for kind, slot, subslot, offset, octets in places:
            lines.append(f"{kind} {slot} {subslot} {offset}" + (f" {octets}" if kind == "data" else ""))
    return lines


def block(kind, fields):
    return struct.pack(">HHBB", kind, len(fields) + 2, 1, 0) + fields


def relation(controller):
    """ARBlockReq."""
    name = controller["NameOfStation"].encode()
    mac = bytes.fromhex(controller["MAC"].replace("-", ""))
    there = bytes.fromhex("dea000006c9711d18271000100000000")
    return block(0x0101, struct.pack(">H16sH6s16sIHHH", 1, AR, 1, mac, there, 0x11, 600, 0x8892, len(name)) + name)


def communication(project, modules, is_input):
    """IOCRBlockReq."""
    places, length = places_of(modules, is_input)
    number, frame_id, hold = (1, 0xC001, project["DataHoldFactor"]) if is_input else (2, 0xFFFF, project["DataHoldFactor"])
    fields = struct.pack(">HHHIHHHHHHIHHH6sHI", number, number, 0x8892, 1, length, frame_id, project["SendClockFactor"],
                         project["ReductionRatio"], 1, 0, 0xFFFFFFFF, hold, hold, 0xC000, bytes(6), 1, 0)
    for kind in ("data", "iocs"):
        found = [place for place in places if place[0] == kind]
        fields += struct.pack(">H", len(found))
        for _, slot, subslot, offset, _ in found:
            fields += struct.pack(">HHH", slot, subslot, offset)
    return block(0x0102, fields)


def expected(slot, ident, parts):
    """ExpectedSubmoduleBlockReq of a module."""
    fields = struct.pack(">HIHIHH", 1, 0, slot, ident, 0, len(parts))
    for subslot, number, came, sent in parts:
        fields += struct.pack(">HIH", subslot, number, (1 if came else 0) + (2 if sent else 0))
        for way, octets in ([(1, came)] if came or not sent else []) + ([(2, sent)] if sent else []):
            fields += struct.pack(">HHBB", way, octets, 1, 1)
    return block(0x0104, fields)


def connect_of(catalogue, modules):
    """The blocks of the Connect."""
    project = catalogue["Project"]
    blocks = relation(project["Controller"]) + communication(project, modules, True) + communication(project, modules, False)
    blocks += block(0x0103, struct.pack(">HHIHHHHHH", 1, 0x8892, 0, 1, 3, 1, 200, 0xC000, 0xA000))
    return blocks + b"".join(expected(*module) for module in modules)


def records_of(catalogue):
    """The lines of the records, in the order of the text."""
    for entry in catalogue["Project"].get("Slots", []):
        for record in entry.get("Records", []):
            yield f"record {entry['Slot']} {record['Subslot']} {record['Index']} {record['Data'].lower()}"


def told_of(catalogue):
    """What must come of a catalogue that has a plan."""
    modules = modules_of(catalogue)
    goes_on = ["continue"] if catalogue["Project"].get("ContinueOnRefusedRecord", False) else []
    releases = ["release"] if catalogue["Project"].get("ReleaseOnRefusedRecord", False) else []
    lists = ["lists"] if catalogue["DeviceAccessPointItem"].get("MultipleWriteSupported", False) else []
    parameters = ["parameters"] if catalogue["Project"].get("ParametersAfterPlug", False) else []
    persistent = ["persistent"] if catalogue["Project"].get("PersistentStart", False) else []
    own = catalogue["Project"]["Controller"].get("Identity")
    identity = [f"identity {own['VendorID']} {own['DeviceID']} {own['DNS_CompatibleName'].encode().hex()}"] if own else []
    said = [*goes_on, *releases, *lists, *parameters, *persistent, *identity]
    return [*layouts_of(modules), f"connect {connect_of(catalogue, modules).hex()}", *records_of(catalogue), *said]


def read(path):
    with open(path, encoding="utf-8") as file:
        return file.read()


def table(catalogues, faults):
    """The whole of what it has to print."""
    lines = []
    for text, fault in zip(catalogues, faults):
        lines += [fault] if fault != "-" else told_of(json.loads(text))
    return "".join(line + "\n" for line in lines)


def faults_in(printed):
    """What a table says of each catalogue: a fault, or `-`."""
    for line in printed:
        if line.startswith(("config ", "input ")):
            yield line if line.startswith("config ") else "-"


def bounded(catalogues, faults):
    """The table with the rows at the bounds as its last: catalogues, faults and the keys of these rows."""
    rows = catalogue_bounds.rows()
    texts = {text for text, _, _ in rows}
    others = [(text, fault) for text, fault in zip(catalogues, faults) if text not in texts]
    keys = "".join(where + "\n" for _, _, where in rows)
    return [text for text, _ in others] + [text for text, _, _ in rows], [fault for _, fault in others] + [fault for _, fault, _ in rows], keys


def write_bounds():
    """Writes the rows at the bounds again."""
    catalogues, printed = read(os.path.join(TABLE, "stdin")).splitlines(), read(os.path.join(TABLE, "stdout"))
    catalogues, faults, keys = bounded(catalogues, list(faults_in(printed.splitlines())))
    for name, text in (("stdin", "".join(line + "\n" for line in catalogues)), ("stdout", table(catalogues, faults)), ("places", keys)):
        with open(os.path.join(TABLE, name), "w", encoding="utf-8") as file:
            file.write(text)


def check():
    """Compares. Gives how many things differ."""
    wrong = 0
    catalogues, printed = read(os.path.join(TABLE, "stdin")).splitlines(), read(os.path.join(TABLE, "stdout"))
    faults = list(faults_in(printed.splitlines()))
    if len(faults) != len(catalogues) or table(catalogues, faults) != printed:
        print("tests/tables/catalogues: stdout is not what is computed of stdin")
        wrong += 1
    if bounded(catalogues, faults) != (catalogues, faults, read(os.path.join(TABLE, "places"))):
        print("tests/tables/catalogues: its last rows are not those at the bounds (catalogues.py --bounds)")
        wrong += 1
    whole = [json.loads(text) for text, fault in zip(catalogues, faults) if fault == "-"]
    examples = sorted(glob.glob(os.path.join(EXAMPLES, "*.json")))
    for path in examples:
        catalogue = json.loads(read(path))
        if read(path[:-len("json")] + "layouts").splitlines() != layouts_of(modules_of(catalogue)):
            print(f"{os.path.relpath(path, TOP)}: its layouts are others")
            wrong += 1
        if catalogue not in whole:
            print(f"{os.path.relpath(path, TOP)}: not a line of tests/tables/catalogues/stdin")
            wrong += 1
    pump = json.loads(read(os.path.join(EXAMPLES, "pump.json")))
    # Behind its ARUUID.
    if connect_of(pump, modules_of(pump))[24:].hex() not in read(os.path.join(TOP, "examples", "exchange.txt")):
        print("examples/exchange.txt: Scapy's Connect is another")
        wrong += 1
    print(f"{len(catalogues)} catalogues and {len(examples)} examples, {wrong or 'no'} faults")
    return 1 if wrong else 0


def main(words):
    answer_help(__doc__, words)
    if words == ["--check"]:
        return check()
    if words == ["--bounds"]:
        write_bounds()
        return 0
    if len(words) == 2 and words[0] == "--lines":
        print("\n".join(layouts_of(modules_of(json.loads(read(words[1]))))))
        return 0
    if len(words) == 4 and words[0] == "--table" and words[2] == "--faults":
        print(table(read(words[1]).splitlines(), read(words[3]).splitlines()), end="")
        return 0
    return refuse(words)


if __name__ == "__main__":
    sys.exit(main(sys.argv[1:]))
