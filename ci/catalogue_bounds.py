#!/usr/bin/env python3
"""Catalogues at each bound of the catalogue's rules (docs/PLANS.md) and one past it, with the fault that the rules give each and the key
at which it is reported. They are written from the rules alone and share no line with the program. `catalogues.py` makes the last rows of the table
tests/tables/catalogues of them, and the keys in its file `places`.
"""

import copy
import json
import os

from program import TOP

NONE = "-"
MISSING, KIND, NUMBER, ALLOWED, MANY, FRAME, NAME, ADDRESS = (f"config {number}" for number in (2, 3, 4, 5, 6, 7, 9, 10))

# These are faults of one key; the others are judged over the whole.
AT_A_KEY = (MISSING, KIND, NUMBER, NAME)

# Where the first submodule of the wide module, its first record and the record that is written to it are.
PART = "ModuleItem[2].VirtualSubmoduleItem[0]"
PARAMETER = f"{PART}.ParameterRecordDataItem[0]"
RECORD = "Project.Slots[2].Records[0]"

# A module beside the others: two submodules with data of both directions, two records of either.
WIDE = {
    "ID": "WIDE", "ModuleIdentNumber": 48, "VirtualSubmoduleItem": [
        {"Subslot": 1, "SubmoduleIdentNumber": 49, "IOData": {"Input": [{"DataType": "Unsigned8"}], "Output": [{"DataType": "Unsigned8"}]},
         "ParameterRecordDataItem": [{"Index": 1, "Length": 2}, {"Index": 7, "Length": 1}]},
        {"Subslot": 2, "SubmoduleIdentNumber": 50}]}


def base():
    """The pump, and the wide module in slot 3."""
    with open(os.path.join(TOP, "examples", "catalogue", "pump.json"), encoding="utf-8") as file:
        catalogue = json.load(file)
    catalogue["ModuleItem"].append(copy.deepcopy(WIDE))
    point(catalogue)["ModuleItemRef"].append({"ModuleItemTarget": "WIDE", "AllowedInSlots": [3, 15, 16]})
    catalogue["Project"]["Slots"].append({"Slot": 3, "ModuleItemTarget": "WIDE", "Records": [{"Subslot": 1, "Index": 1, "Data": "0aF0"}]})
    return catalogue


def point(catalogue):
    return catalogue["DeviceAccessPointItem"]


def wide(catalogue):
    return catalogue["ModuleItem"][2]


def part(catalogue):
    return wide(catalogue)["VirtualSubmoduleItem"][0]


def parameter(catalogue):
    return part(catalogue)["ParameterRecordDataItem"][0]


def entry(catalogue):
    return catalogue["Project"]["Slots"][2]


def record(catalogue):
    return entry(catalogue)["Records"][0]


def changed(change):
    catalogue = base()
    change(catalogue)
    return catalogue


def set_at(place, key, number):
    def change(catalogue):
        place(catalogue)[key] = number
    return change


def number_rows():
    """Each number at its bounds and one past them. A bound that another rule judges alike is left out."""
    project = lambda catalogue: catalogue["Project"]
    identity = lambda catalogue: catalogue["DeviceIdentity"]
    for place, key, least, greatest, where in (
        (identity, "VendorID", 0, 65_535, "DeviceIdentity.VendorID"), (identity, "DeviceID", 0, 65_535, "DeviceIdentity.DeviceID"),
        (point, "ModuleIdentNumber", 1, 4_294_967_295, "DeviceAccessPointItem.ModuleIdentNumber"),
        (wide, "ModuleIdentNumber", 1, 4_294_967_295, "ModuleItem[2].ModuleIdentNumber"),
        (part, "SubmoduleIdentNumber", 0, 4_294_967_295, f"{PART}.SubmoduleIdentNumber"),
        (project, "DataHoldFactor", 1, 7680, "Project.DataHoldFactor"),
    ):
        for number, fault in ((least, NONE), (greatest, NONE), (greatest + 1, NUMBER), *([(least - 1, NUMBER)] if least else [])):
            yield changed(set_at(place, key, number)), fault, where
    for number, fault in ((0, NONE), (32_767, NONE), (32_768, NUMBER)):
        yield changed(lambda catalogue: point(catalogue)["PhysicalSlots"].append(number)), fault, "DeviceAccessPointItem.PhysicalSlots[4]"
    clock_at, ratio_at, least_at = "Project.SendClockFactor", "Project.ReductionRatio", "DeviceAccessPointItem.MinDeviceInterval"
    for clock, ratio, least, fault, where in (
        (1, 1, 1, NONE, ""), (128, 512, 65_536, NONE, ""), (128, 512, 65_537, NUMBER, least_at), (129, 512, 32, NUMBER, clock_at),
        (128, 513, 32, NUMBER, ratio_at), (0, 1, 1, NUMBER, clock_at), (1, 0, 1, NUMBER, ratio_at), (1, 1, 0, NUMBER, least_at),
        (1, 1, 2, NUMBER, ratio_at), (2, 1, 2, NONE, ""), (1, 2, 2, NONE, ""),
    ):
        yield changed(lambda catalogue: (project(catalogue).update(SendClockFactor=clock, ReductionRatio=ratio),
                                         point(catalogue).update(MinDeviceInterval=least))), fault, where


def long_list_rows():
    """Faults late in a list, and kinds before ranges."""
    numbers = [0, 1, 2, 3] * 400
    for index in (9, 10, 99, 100, 999, 1000, 1234):
        yield changed(lambda catalogue: point(catalogue).update(PhysicalSlots=numbers[:index] + [99_999] + numbers[index:])), NUMBER, \
            f"DeviceAccessPointItem.PhysicalSlots[{index}]"
    yield changed(lambda catalogue: point(catalogue).update(PhysicalSlots=[99_999, "x"])), KIND, "DeviceAccessPointItem.PhysicalSlots[1]"
    yield changed(lambda catalogue: point(catalogue).update(PhysicalSlots="x")), KIND, "DeviceAccessPointItem.PhysicalSlots"
    yield changed(lambda catalogue: catalogue.update(Project=[])), KIND, "Project"
    yield changed(lambda catalogue: catalogue["ModuleItem"].append({"ID": "IN2", "ModuleIdentNumber": 1})), NUMBER, "ModuleItem[3].ID"
    yield changed(lambda catalogue: catalogue["ModuleItem"].append("IN2")), KIND, "ModuleItem[3]"
    # The last of 150 modules, submodules and parameter records has the name of an earlier one.
    yield changed(lambda catalogue: catalogue["ModuleItem"].extend({"ID": f"M{i % 149}", "ModuleIdentNumber": 1} for i in range(150))), NUMBER, "ModuleItem[152].ID"
    yield changed(lambda catalogue: wide(catalogue)["VirtualSubmoduleItem"].extend(
        {"Subslot": 3 + i % 149, "SubmoduleIdentNumber": 51} for i in range(150))), NUMBER, "ModuleItem[2].VirtualSubmoduleItem[151].Subslot"
    yield changed(lambda catalogue: part(catalogue)["ParameterRecordDataItem"].extend(
        {"Index": 100 + i % 149, "Length": 1} for i in range(150))), NUMBER, f"{PART}.ParameterRecordDataItem[151].Index"


def submodule_rows():
    """Subslots, data and parameter records."""
    for subslot, fault in ((1, NONE), (36_863, NONE)):
        yield changed(lambda catalogue: (part(catalogue).update(Subslot=subslot), record(catalogue).update(Subslot=subslot))), fault, ""
    for subslot in (0, 36_864):
        yield changed(lambda catalogue: (part(catalogue).update(Subslot=subslot), entry(catalogue).pop("Records"))), NUMBER, f"{PART}.Subslot"
        yield changed(lambda catalogue: record(catalogue).update(Subslot=subslot)), NUMBER, f"{RECORD}.Subslot"
    yield changed(lambda catalogue: wide(catalogue)["VirtualSubmoduleItem"][1].update(Subslot=1)), NUMBER, "ModuleItem[2].VirtualSubmoduleItem[1].Subslot"
    for index, fault in ((0, NONE), (32_767, NONE)):
        yield changed(lambda catalogue: (parameter(catalogue).update(Index=index), record(catalogue).update(Index=index))), fault, ""
    yield changed(lambda catalogue: (parameter(catalogue).update(Index=32_768), entry(catalogue).pop("Records"))), NUMBER, f"{PARAMETER}.Index"
    yield changed(lambda catalogue: parameter(catalogue).update(Index=7)), NUMBER, f"{PART}.ParameterRecordDataItem[1].Index"
    for index in (2, 32_768):
        yield changed(lambda catalogue: record(catalogue).update(Index=index)), NUMBER, f"{RECORD}.Index"
    for octets, fault in ((1, NONE), (64, NONE), (65, NUMBER), (0, NUMBER)):
        yield changed(lambda catalogue: (parameter(catalogue).update(Length=octets),
                                         record(catalogue).update(Data="5a" * octets))), fault, f"{PARAMETER}.Length"
    for text, fault in (("0aF", KIND), ("0aFg", KIND), ("0a", NUMBER), ("0aF011", NUMBER), (7, KIND)):
        yield changed(lambda catalogue: record(catalogue).update(Data=text)), fault, f"{RECORD}.Data"
    for octets, fault in ((1, NONE), (1420, NONE), (1440, FRAME), (1441, NUMBER), (0, NUMBER)):
        yield changed(lambda catalogue: part(catalogue)["IOData"].update(Output=[{"DataType": "OctetString", "Length": octets}])), fault, \
            f"{PART}.IOData.Output[0].Length" if fault == NUMBER else ""
    for kind in ("Unsigned8", "Integer8", "Unsigned16", "Integer16", "Unsigned32", "Integer32", "Float32"):
        yield changed(lambda catalogue: part(catalogue)["IOData"].update(Input=[{"DataType": kind}], Output=[{"DataType": kind}] * 3)), NONE, ""
    byte = {"DataType": "Unsigned8"}
    yield changed(lambda catalogue: part(catalogue)["IOData"].update(Input=[byte] * 20 + [{"DataType": "Boolean"}])), KIND, \
        f"{PART}.IOData.Input[20].DataType"
    # As many octets as 16 bits count, and more: both are too long for a frame.
    for times in (45, 46):
        yield changed(lambda catalogue: part(catalogue)["IOData"].update(Input=[{"DataType": "OctetString", "Length": 1440}] * times)), FRAME, ""
    # Data of a module that is in no slot may be longer than a frame.
    yield changed(lambda catalogue: (catalogue["Project"]["Slots"].pop(),
                                     part(catalogue)["IOData"].update(Input=[{"DataType": "OctetString", "Length": 1440}] * 46))), NONE, ""


def count_rows():
    """What there may be few of, and which slots there are."""
    for count, fault in ((2, NONE), (3, MANY)):
        items = [{"Index": index, "Length": 2} for index in range(1, count + 1)]
        yield changed(lambda catalogue: part(catalogue).update(ParameterRecordDataItem=items)), fault, ""
    for count, fault in ((4, NONE), (5, MANY)):
        yield changed(lambda catalogue: wide(catalogue)["VirtualSubmoduleItem"].extend(
            {"Subslot": subslot, "SubmoduleIdentNumber": subslot} for subslot in range(3, count + 1))), fault, ""
    for count, fault in ((32, NONE), (33, MANY)):
        yield changed(lambda catalogue: entry(catalogue).update(Records=[{"Subslot": 1, "Index": 7, "Data": f"{n:02x}"} for n in range(count)])), fault, ""
    for slot, fault in ((15, NONE), (16, MANY)):
        yield changed(lambda catalogue: (point(catalogue)["PhysicalSlots"].extend([15, 16]), entry(catalogue).update(Slot=slot))), fault, ""
        yield changed(lambda catalogue: (point(catalogue)["PhysicalSlots"].extend([15, 16]), catalogue["Project"]["Slots"].pop(),
                                         point(catalogue)["ModuleItemRef"][2].update(AllowedInSlots=[], FixedInSlots=[slot]))), fault, ""
    # Each slot that a device has, one after another.
    for slot in range(1, 16):
        yield changed(lambda catalogue: (point(catalogue).update(PhysicalSlots=list(range(16))), catalogue["Project"].update(Slots=[]),
                                         point(catalogue)["ModuleItemRef"][2].update(FixedInSlots=[slot]))), NONE, ""
    yield changed(lambda catalogue: (point(catalogue)["ModuleItemRef"][2]["AllowedInSlots"].append(0), entry(catalogue).update(Slot=0))), ALLOWED, ""
    yield changed(lambda catalogue: catalogue["Project"]["Slots"].append(dict(entry(catalogue), Records=[]))), ALLOWED, ""


def address_rows():
    """Names and addresses."""
    controller = lambda catalogue: catalogue["Project"]["Controller"]
    for octet, fault in ((0, ADDRESS), (1, NONE), (126, NONE), (127, ADDRESS), (128, NONE), (223, NONE), (224, ADDRESS), (255, ADDRESS)):
        yield changed(lambda catalogue: controller(catalogue).update(IPAddress=f"{octet}.1.2.3")), fault, ""
    for mac, fault in (("00-11-22-33-44-55", NONE), ("01-11-22-33-44-55", ADDRESS), ("fE-DC-BA-98-76-54", NONE), ("02-00-00-00-00-0", ADDRESS),
                       ("02-00-00-00-00-021", ADDRESS), ("02-00-00-00-00-0g", ADDRESS), *((broken, ADDRESS) for broken in broken_macs())):
        yield changed(lambda catalogue: controller(catalogue).update(MAC=mac)), fault, ""
    yield from identity_rows(controller)
    yield changed(lambda catalogue: catalogue["Project"].update(NameOfStation="-")), NAME, "Project.NameOfStation"
    yield changed(lambda catalogue: controller(catalogue).update(NameOfStation="-")), NAME, "Project.Controller.NameOfStation"
    yield changed(lambda catalogue: (catalogue["Project"].update(NameOfStation=""), controller(catalogue).update(NameOfStation=""))), NAME, \
        "Project.NameOfStation"


def identity_rows(controller):
    """What the controller says of itself to tools: the last key of Controller, with three keys of its own."""
    where = "Project.Controller.Identity"
    own = {"VendorID": 291, "DeviceID": 1110, "DNS_CompatibleName": "pn-plc"}
    yield changed(lambda catalogue: controller(catalogue).update(Identity=own)), NONE, ""
    for value in (None, True, 7, "pn-plc", []):
        yield changed(lambda catalogue: controller(catalogue).update(Identity=value)), KIND, where
    yield changed(lambda catalogue: controller(catalogue).update(Identity={})), MISSING, where + ".VendorID"
    for key in own:
        yield changed(lambda catalogue: controller(catalogue).update(Identity={other: own[other] for other in own if other != key})), MISSING, f"{where}.{key}"
        yield changed(lambda catalogue: controller(catalogue).update(Identity=dict(own, **{key: []}))), KIND, f"{where}.{key}"
    for key in ("VendorID", "DeviceID"):
        for value, fault in ((0, NONE), (65_535, NONE), (65_536, NUMBER), (-1, KIND), ("7", KIND)):
            yield changed(lambda catalogue: controller(catalogue).update(Identity=dict(own, **{key: value}))), fault, f"{where}.{key}" if fault != NONE else ""
    for text, fault in (("a", NONE), (" ", NONE), ("~", NONE), ("x" * 25, NONE), ("", NUMBER), ("x" * 26, NUMBER), ("\x1f", NUMBER), ("\x7f", NUMBER), ("pn\u00e4", NUMBER)):
        yield changed(lambda catalogue: controller(catalogue).update(Identity=dict(own, DNS_CompatibleName=text))), fault, \
            f"{where}.DNS_CompatibleName" if fault != NONE else ""
    # It is read after the address of the controller, and before the times; the addresses are judged after all is read.
    yield changed(lambda catalogue: (controller(catalogue).update(Identity=[]), controller(catalogue).pop("IPAddress"))), MISSING, "Project.Controller.IPAddress"
    yield changed(lambda catalogue: (controller(catalogue).update(Identity=[], IPAddress="x"))), KIND, where
    yield changed(lambda catalogue: (controller(catalogue).update(Identity=[]), catalogue["Project"].update(SendClockFactor=0))), KIND, where
    # Only the controller has this key; elsewhere it is one of the keys that are ignored.
    yield changed(lambda catalogue: (catalogue.update(Identity=1), catalogue["Project"].update(Identity=1))), NONE, ""


def broken_macs():
    """One hyphen is another character."""
    for place in (2, 5, 8, 11, 14):
        yield "02-00-00-00-00-02"[:place] + ":" + "02-00-00-00-00-02"[place + 1:]


def flag_rows():
    """Whether a refused record ends the start-up: a Boolean, read after all other keys of its object and before the whole is judged."""
    project = lambda catalogue: catalogue["Project"]
    where = "Project.ContinueOnRefusedRecord"
    for value, fault in ((True, NONE), (False, NONE), (None, KIND), (0, KIND), (1, KIND), ("true", KIND), ([], KIND), ({}, KIND)):
        yield changed(lambda catalogue: project(catalogue).update(ContinueOnRefusedRecord=value)), fault, where
    yield changed(lambda catalogue: (project(catalogue).update(ContinueOnRefusedRecord=1), entry(catalogue).update(Slot="x"))), KIND, "Project.Slots[2].Slot"
    yield changed(lambda catalogue: project(catalogue).update(ContinueOnRefusedRecord=1, NameOfStation="-")), KIND, where
    # Only the project has this key; elsewhere it is one of the keys that are ignored.
    yield changed(lambda catalogue: catalogue.update(ContinueOnRefusedRecord=1)), NONE, ""
    # Whether the controller releases the relation then: the key after it.
    where = "Project.ReleaseOnRefusedRecord"
    for value, fault in ((True, NONE), (False, NONE), (None, KIND), (0, KIND), (1, KIND), ("true", KIND), ([], KIND), ({}, KIND)):
        yield changed(lambda catalogue: project(catalogue).update(ReleaseOnRefusedRecord=value)), fault, where
    yield changed(lambda catalogue: project(catalogue).update(ReleaseOnRefusedRecord=True, ContinueOnRefusedRecord=True)), NONE, ""
    yield changed(lambda catalogue: project(catalogue).update(ReleaseOnRefusedRecord=1, ContinueOnRefusedRecord=1)), KIND, "Project.ContinueOnRefusedRecord"
    yield changed(lambda catalogue: (project(catalogue).update(ReleaseOnRefusedRecord=1), entry(catalogue).update(Slot="x"))), KIND, "Project.Slots[2].Slot"
    yield changed(lambda catalogue: project(catalogue).update(ReleaseOnRefusedRecord=1, NameOfStation="-")), KIND, where
    yield changed(lambda catalogue: (catalogue.update(ReleaseOnRefusedRecord=1), point(catalogue).update(ReleaseOnRefusedRecord=1))), NONE, ""
    # Whether the controller writes the records again after a plug: the key after it.
    where = "Project.ParametersAfterPlug"
    for value, fault in ((True, NONE), (False, NONE), (None, KIND), (0, KIND), (1, KIND), ("true", KIND), ([], KIND), ({}, KIND)):
        yield changed(lambda catalogue: project(catalogue).update(ParametersAfterPlug=value)), fault, where
    yield changed(lambda catalogue: project(catalogue).update(ParametersAfterPlug=1, ReleaseOnRefusedRecord=1)), KIND, "Project.ReleaseOnRefusedRecord"
    yield changed(lambda catalogue: project(catalogue).update(ParametersAfterPlug=1, NameOfStation="-")), KIND, where
    yield changed(lambda catalogue: (catalogue.update(ParametersAfterPlug=1), point(catalogue).update(ParametersAfterPlug=1))), NONE, ""
    # Whether the controller releases a relation that the device holds already: the last key of the project.
    where = "Project.PersistentStart"
    for value, fault in ((True, NONE), (False, NONE), (None, KIND), (0, KIND), (1, KIND), ("true", KIND), ([], KIND), ({}, KIND)):
        yield changed(lambda catalogue: project(catalogue).update(PersistentStart=value)), fault, where
    yield changed(lambda catalogue: project(catalogue).update(PersistentStart=1, ParametersAfterPlug=1)), KIND, "Project.ParametersAfterPlug"
    yield changed(lambda catalogue: project(catalogue).update(PersistentStart=1, NameOfStation="-")), KIND, where
    yield changed(lambda catalogue: (catalogue.update(PersistentStart=1), point(catalogue).update(PersistentStart=1))), NONE, ""
    # Whether one Write can carry several records: the last key of the access point.
    where = "DeviceAccessPointItem.MultipleWriteSupported"
    for value, fault in ((True, NONE), (False, NONE), (None, KIND), (0, KIND), (1, KIND), ("true", KIND), ([], KIND), ({}, KIND)):
        yield changed(lambda catalogue: point(catalogue).update(MultipleWriteSupported=value)), fault, where
    yield changed(lambda catalogue: point(catalogue).update(MultipleWriteSupported=1, ModuleItemRef="x")), KIND, "DeviceAccessPointItem.ModuleItemRef"
    yield changed(lambda catalogue: (point(catalogue).update(MultipleWriteSupported=1), catalogue.update(ModuleItem="x"))), KIND, where
    yield changed(lambda catalogue: (project(catalogue).update(MultipleWriteSupported=1), catalogue.update(MultipleWriteSupported=1))), NONE, ""


def key_rows():
    """Each key that must be there is missing, or of another kind; each list may be missing."""
    whole = base()
    point(whole)["ModuleItemRef"][2]["FixedInSlots"] = [3]
    part(whole)["IOData"]["Input"] = [{"DataType": "OctetString", "Length": 3}]
    for path in paths_of(whole):
        without, other = copy.deepcopy(whole), copy.deepcopy(whole)
        del holder_in(without, path)[path[-1]]
        yield without, fault_without(path), NOT_THERE.get(path, where_of(path))
        holder_in(other, path)[path[-1]] = None
        # IOData is looked into for its lists.
        yield other, KIND, where_of(path)


def holder_in(tree, path):
    """The object that has the key at the end of a path."""
    for step in path[:-1]:
        tree = tree[step]
    return tree


def where_of(path):
    """A path as it is printed."""
    return "".join(f"[{step}]" if isinstance(step, int) else f".{step}" for step in path)[1:]


# A list or IOData that is absent is empty.
EMPTY = ("PhysicalSlots", "VirtualSubmoduleItem", "ModuleItemRef", "AllowedInSlots", "FixedInSlots", "ModuleItem", "IOData", "Input", "Output",
         "ParameterRecordDataItem", "Slots", "Records")


# Without these what a record names does not exist: the key at which that is reported.
NOT_THERE = {
    ("ModuleItem",): f"{RECORD}.Subslot", ("ModuleItem", 2, "VirtualSubmoduleItem"): f"{RECORD}.Subslot",
    ("ModuleItem", 2, "VirtualSubmoduleItem", 0, "ParameterRecordDataItem"): f"{RECORD}.Index",
}


def fault_without(path):
    """The fault of the whole catalogue without a key."""
    if path[-1] not in EMPTY:
        return MISSING
    # Modules are let into no slot.
    if path[-1] in ("PhysicalSlots", "ModuleItemRef") or path[-1] == "AllowedInSlots" and path[2] < 2:
        return ALLOWED
    return NUMBER if path in NOT_THERE else NONE


def paths_of(tree, path=()):
    """The ways to all keys."""
    if isinstance(tree, dict):
        for key, value in tree.items():
            yield (*path, key)
            yield from paths_of(value, (*path, key))
    elif isinstance(tree, list):
        for index, value in enumerate(tree):
            yield from paths_of(value, (*path, index))


def rows():
    """All of them, each once: the text of a catalogue, `-` or its fault, and the key of the fault, if it is that of one key."""
    found = {}
    for catalogue, fault, where in (*number_rows(), *long_list_rows(), *submodule_rows(), *count_rows(), *address_rows(), *flag_rows(), *key_rows()):
        found.setdefault(json.dumps(catalogue, separators=(",", ":")), (fault, where if fault in AT_A_KEY else ""))
    return [(text, *told) for text, told in found.items()]
