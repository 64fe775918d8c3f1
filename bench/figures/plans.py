#!/usr/bin/env python3
"""Counts the instructions of making the plan of a catalogue, for each octet of its text, at three sizes and kinds of text that are long in
one thing each: modules as a maker writes them, modules of two keys, submodules of one module, parameter records of one submodule, the lists
by which modules are let into slots, what is put into slots with its records, and what nobody reads. Kinds that have all numbers of their
range, as all subslots of a module, are also counted at 2 MiB, where they have them. What the program does at an empty text is subtracted. The
status is 1 if a figure is greater than its bound.

Needs valgrind. Use: bench/figures/plans.py [PROGRAM] [OCTETS]   (the proved program if left out; OCTETS: one size in place of all, as
16777216, the longest text that the program reads: minutes a kind)
"""

import json
import os
import re
import subprocess
import sys

sys.path.insert(0, os.path.join(os.path.dirname(os.path.realpath(__file__)), "..", "..", "ci"))
from program import TOP, answer_help, need, proved, refuse

SIZES = (4_096, 16_384, 65_536)
# A text of this length has room for each number of a range: subslots, indexes, slots.
FULL = 2_097_152
SUBSLOTS, INDEXES, SLOTS = 36_863, 32_768, 32_768
# Instructions an octet.
BOUND = 600


def whole_module(number):
    return {
        "ID": f"module-{number}", "ModuleIdentNumber": 256 + number,
        "VirtualSubmoduleItem": [
            {"Subslot": 1, "SubmoduleIdentNumber": number, "IOData": {"Input": [{"DataType": "Unsigned16"}, {"DataType": "Float32"}]},
             "ParameterRecordDataItem": [{"Index": 1, "Length": 4}, {"Index": 2, "Length": 16}]},
            {"Subslot": 2, "SubmoduleIdentNumber": number, "IOData": {"Output": [{"DataType": "OctetString", "Length": 12}]}},
        ],
    }


def short_module(number):
    return {"ID": f"{number:04}", "ModuleIdentNumber": 1}


def with_modules(module):
    def add(catalogue, number):
        catalogue["ModuleItem"].append(module(number))
    return add


def reference(catalogue, number):
    return catalogue["DeviceAccessPointItem"]["ModuleItemRef"][number]


def with_parameters(catalogue, number):
    """As many in a submodule as there are indexes, and then in another one; of a module that is in no slot: so they are not too many."""
    index = number % INDEXES
    if index == 0:
        part = {"Subslot": 1, "SubmoduleIdentNumber": 1, "ParameterRecordDataItem": []}
        catalogue["ModuleItem"].append({"ID": f"LONG{number}", "ModuleIdentNumber": 1, "VirtualSubmoduleItem": [part]})
    catalogue["ModuleItem"][-1]["VirtualSubmoduleItem"][0]["ParameterRecordDataItem"].append({"Index": index, "Length": 1})


def with_submodules(catalogue, number):
    """As many in a module as there are subslots, and then in another one; the modules are in no slot."""
    subslot = number % SUBSLOTS
    if subslot == 0:
        catalogue["ModuleItem"].append({"ID": f"WIDE{number}", "ModuleIdentNumber": 1, "VirtualSubmoduleItem": []})
    catalogue["ModuleItem"][-1]["VirtualSubmoduleItem"].append({"Subslot": subslot + 1, "SubmoduleIdentNumber": 1})


def with_slots(catalogue, number):
    reference(catalogue, 0)["AllowedInSlots"].append(number % 32_768)


def with_physical(catalogue, number):
    catalogue["DeviceAccessPointItem"]["PhysicalSlots"].insert(0, 0)
    reference(catalogue, 0).setdefault("FixedInSlots", []).append(1)


def with_fixed(catalogue, number):
    reference(catalogue, 0).setdefault("FixedInSlots", []).append(1)
    reference(catalogue, 1).setdefault("FixedInSlots", []).append(2)


def with_references(catalogue, number):
    catalogue["DeviceAccessPointItem"]["ModuleItemRef"].insert(0, {"ModuleItemTarget": "IN3"})
    for _ in range(10):
        reference(catalogue, -2).setdefault("FixedInSlots", []).append(1)


def with_entries(catalogue, number):
    """As many slots as entries: there are too many. Past the last slot that there is, entries name that again."""
    slot = min(number + 3, SLOTS - 1)
    if slot == number + 3:
        catalogue["DeviceAccessPointItem"]["PhysicalSlots"].append(slot)
        reference(catalogue, 0)["AllowedInSlots"].append(slot)
    catalogue["Project"]["Slots"].append({"Slot": slot, "ModuleItemTarget": "IN2"})


def with_long_list(catalogue, number):
    catalogue["DeviceAccessPointItem"]["PhysicalSlots"].append(number % 32_768)


def with_records(catalogue, number):
    """Modules of their own in as many slots, and a record for each: in slots that the device does not have."""
    parameters = [{"Index": 1, "Length": 1}]
    part = {"Subslot": 1, "SubmoduleIdentNumber": 1, "ParameterRecordDataItem": parameters}
    catalogue["ModuleItem"].append({"ID": f"m{number}", "ModuleIdentNumber": 1, "VirtualSubmoduleItem": [part]})
    catalogue["Project"]["Slots"].append({"Slot": number + 3, "ModuleItemTarget": f"m{number}", "Records": [{"Subslot": 1, "Index": 1, "Data": "00"}]})


def with_submodule_records(catalogue, number):
    """Submodules of one module and records, as many as submodules, each of the submodule before it; past the last subslot, of that."""
    subslot = min(number + 1, SUBSLOTS)
    if number == 0:
        catalogue["ModuleItem"].append({"ID": "WIDE", "ModuleIdentNumber": 1, "VirtualSubmoduleItem": []})
        catalogue["Project"]["Slots"].append({"Slot": 3, "ModuleItemTarget": "WIDE", "Records": []})
    if subslot == number + 1:
        parameters = [{"Index": 1, "Length": 1}]
        catalogue["ModuleItem"][-1]["VirtualSubmoduleItem"].append({"Subslot": subslot, "SubmoduleIdentNumber": 1, "ParameterRecordDataItem": parameters})
    catalogue["Project"]["Slots"][-1]["Records"].append({"Subslot": subslot, "Index": 1, "Data": "00"})


def with_parameter_records(catalogue, number):
    """The same of the parameter records of one submodule."""
    index = min(number, INDEXES - 1)
    if number == 0:
        part = {"Subslot": 1, "SubmoduleIdentNumber": 1, "ParameterRecordDataItem": []}
        catalogue["ModuleItem"].append({"ID": "LONG", "ModuleIdentNumber": 1, "VirtualSubmoduleItem": [part]})
        catalogue["Project"]["Slots"].append({"Slot": 3, "ModuleItemTarget": "LONG", "Records": []})
    if index == number:
        catalogue["ModuleItem"][-1]["VirtualSubmoduleItem"][0]["ParameterRecordDataItem"].append({"Index": index, "Length": 1})
    catalogue["Project"]["Slots"][-1]["Records"].append({"Subslot": 1, "Index": index, "Data": "00"})


def with_words(catalogue, number):
    catalogue[f"Text-{number}"] = "what a tool may keep of a device \u2014 and nobody reads"


def with_keys(catalogue, number):
    catalogue[f"{number}"] = 0


# What each is long in, the status, and whether it is counted at the full length too.
KINDS = [("modules of a maker", with_modules(whole_module), 0, False), ("modules of two keys", with_modules(short_module), 0, False),
         ("submodules of a module", with_submodules, 0, True), ("parameter records of a submodule", with_parameters, 0, True),
         ("slots in a list", with_slots, 0, False), ("fixed slots of many", with_physical, 0, False),
         ("fixed slots of two", with_fixed, 0, False), ("references", with_references, 0, False), ("slots that are used", with_entries, 5, True),
         ("physical slots", with_long_list, 0, False), ("records of many slots", with_records, 5, False),
         ("records of many submodules", with_submodule_records, 5, True), ("records of many parameter records", with_parameter_records, 5, True),
         ("other keys", with_words, 0, False), ("short keys", with_keys, 0, False)]


def text_of(add, size):
    """A catalogue of that many octets, blanks at its end: at most a fiftieth of it."""
    with open(os.path.join(TOP, "examples", "catalogue", "pump.json"), encoding="utf-8") as file:
        catalogue = json.load(file)
    last, count = json.dumps(catalogue, separators=(",", ":")), 0
    while True:
        # As many as surely fit, by what those before took; then one by one.
        left = size - len(last)
        more = max(1, min(count, left * count // (2 * len(last))) if left > size // 50 else 1)
        for _ in range(more):
            add(catalogue, count)
            count += 1
        text = json.dumps(catalogue, separators=(",", ":"))
        if len(text) > size or size > 1_000_000 and len(text) > size - size // 50:
            return (last if len(text) > size else text).ljust(size).encode()
        last = text


def total(program, text, wanted):
    """The instructions of the program at this text."""
    ran = subprocess.run(["valgrind", "--tool=callgrind", "--callgrind-out-file=/dev/null", program, "plan"], input=text, capture_output=True)
    if ran.returncode != wanted:
        raise SystemExit(f"status {ran.returncode}: {ran.stderr[-200:]!r}")
    return int(re.search(rb"Collected : (\d+)", ran.stderr)[1])


def main(words):
    answer_help(__doc__, words)
    if len(words) > 2 or len(words) == 2 and not words[1].isdigit():
        return refuse(words)
    need("valgrind")
    program = words[0] if words else proved()
    sizes = (int(words[1]),) if len(words) == 2 else SIZES
    nothing, wrong = total(program, b"", 5), 0
    for name, add, status, is_full in KINDS:
        for size in (*sizes, FULL) if is_full and len(sizes) > 1 else sizes:
            figure = (total(program, text_of(add, size), status) - nothing) / size
            wrong += figure > BOUND
            print(f"plan, {name}, {size:,} octets: {figure:.0f} instructions an octet (at most {BOUND})")
    return 1 if wrong else 0


if __name__ == "__main__":
    sys.exit(main(sys.argv[1:]))
