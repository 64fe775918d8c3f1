"""The keys of a catalogue, by the object that has them, and what their values must be. Each object is named by the key at which it, or the list
that it is in, is; the whole catalogue has no name. ci/keys compares this table with the sources and with host/src/keys.c, which
nandutable-controller uses.
"""

from planning.ignored import IGNORED

OBJECT, OBJECTS, TEXT, NUMBERS, FLAG = "an object", "a list of objects", "a string", "a list of whole numbers", "true or false"
WORD, LONG = "a whole number from 0 to 65,535", "a whole number from 1 to 4,294,967,295"
ITEM = {"DataType": "Unsigned8, Integer8, Unsigned16, Integer16, Unsigned32, Integer32, Float32 or OctetString", "Length": "a whole number from 1 to 1,440"}
WANTS = {
    "": {"DeviceIdentity": OBJECT, "DeviceAccessPointItem": OBJECT, "ModuleItem": OBJECTS, "Project": OBJECT},
    "DeviceIdentity": {"VendorID": WORD, "DeviceID": WORD},
    "DeviceAccessPointItem": {
        "ModuleIdentNumber": LONG, "PhysicalSlots": "a list of whole numbers from 0 to 32,767", "DNS_CompatibleName": TEXT,
        "MinDeviceInterval": "a whole number from 1 to 65,536", "VirtualSubmoduleItem": OBJECTS, "ModuleItemRef": OBJECTS, "MultipleWriteSupported": FLAG},
    "ModuleItemRef": {"ModuleItemTarget": TEXT, "AllowedInSlots": NUMBERS, "FixedInSlots": NUMBERS},
    "ModuleItem": {"ID": "a string, each once", "ModuleIdentNumber": LONG, "VirtualSubmoduleItem": OBJECTS},
    "VirtualSubmoduleItem": {
        "Subslot": "a whole number from 1 to 36,863, each once in its list", "SubmoduleIdentNumber": "a whole number from 0 to 4,294,967,295", "IOData": OBJECT,
        "ParameterRecordDataItem": OBJECTS},
    "IOData": {"Input": OBJECTS, "Output": OBJECTS},
    "Input": ITEM,
    "Output": ITEM,
    "ParameterRecordDataItem": {"Index": "a whole number from 0 to 32,767, each once in its list", "Length": "a whole number from 1 to 64"},
    "Project": {
        "NameOfStation": TEXT, "IPAddress": TEXT, "SubnetMask": TEXT, "Gateway": TEXT, "Controller": OBJECT,
        "SendClockFactor": "a whole number from 1 to 128",
        "ReductionRatio": "a whole number from 1 to 512, with SendClockFactor times ReductionRatio at least MinDeviceInterval",
        "DataHoldFactor": "a whole number from 1 to 7,680", "Slots": OBJECTS, "ContinueOnRefusedRecord": FLAG, "ReleaseOnRefusedRecord": FLAG,
        "ParametersAfterPlug": FLAG, "PersistentStart": FLAG},
    "Controller": {"NameOfStation": TEXT, "MAC": TEXT, "IPAddress": TEXT, "Identity": OBJECT},
    "Identity": {"VendorID": WORD, "DeviceID": WORD, "DNS_CompatibleName": "a string of 1 to 25 characters from space to ~"},
    "Slots": {"Slot": "a whole number", "ModuleItemTarget": TEXT, "Records": OBJECTS},
    "Records": {"Subslot": "a whole number from 1 to 36,863", "Index": "a whole number from 0 to 32,767", "Data": "a string of two hex digits for each octet"}}
# More keys than these are only counted.
MOST = 16
# A key is near another one if one begins with the other, from this many letters on.
BEGINNING = 4


def wants(steps):
    """What the value at the end of these keys and numbers of entries must be."""
    names = ["", *(step for step in steps if isinstance(step, str))]
    if len(names) < 2:
        return OBJECT
    wanted = WANTS[names[-2]][names[-1]]
    return wanted if isinstance(steps[-1], str) else wanted.replace("a list of objects", "an object").replace("a list of whole numbers", "a whole number")


def keys_of(kind):
    """The keys of an object: those of the program, and those that it ignores and others read."""
    return [*WANTS[kind], *sorted({path[-1] for path in IGNORED if (path[-2] if len(path) > 1 else "") == kind})]


def distance(one, other):
    """How many letters must be added, left out or replaced; two neighbours that changed places count as one."""
    before, last = [], list(range(len(other) + 1))
    for place, letter in enumerate(one, 1):
        row = [place]
        for index, its in enumerate(other, 1):
            row.append(min(last[index] + 1, row[index - 1] + 1, last[index - 1] + (letter != its)))
            if place > 1 and index > 1 and letter == other[index - 2] and one[place - 2] == its:
                row[index] = min(row[index], before[index - 2] + 1)
        before, last = last, row
    return last[-1]


def is_beginning(one, other):
    return len(one) >= BEGINNING and other.startswith(one)


def is_near(one, other):
    """Whether at most each third letter differs, or one is the beginning of the other."""
    return 3 * distance(one, other) <= len(one) or is_beginning(one, other) or is_beginning(other, one)


def nearest(key, known):
    """The key that is meant, if one is near. Capitals do not count. Of two that are as near it is the first."""
    low = key.lower()
    near = [other for other in known if is_near(low, other.lower())]
    return min(near, key=lambda other: distance(low, other.lower()), default=None)


def advice(kind, key):
    """What is said of a key that an object does not have."""
    meant = nearest(key, keys_of(kind))
    others = [] if meant else [other for other in WANTS if key in keys_of(other)]
    if others:
        return f"is ignored: {key} is a key of {others[0] or 'the whole catalogue'}"
    meant = meant or nearest(key, [other for holder in WANTS for other in keys_of(holder)])
    return f"is not a key of a catalogue; did you mean {meant}?" if meant else "is not a key of a catalogue, and is ignored"


def entries_of(value, where):
    """The objects at a key, with their places."""
    if isinstance(value, dict):
        return [(value, where)]
    return [(entry, f"{where}[{index}]") for index, entry in enumerate(value) if isinstance(entry, dict)] if isinstance(value, list) else []


def unknown(tree, kind="", place=""):
    """Each key that an object does not have, with its object and its place."""
    for key, value in tree.items():
        where = f"{place}.{key}" if place else key
        if key not in keys_of(kind):
            yield kind, key, where
        elif key in WANTS:
            for entry, at in entries_of(value, where):
                yield from unknown(entry, key, at)


def warnings(tree):
    """A line for each unknown key of an object, and of a list the first place that has it."""
    found = {}
    for kind, key, where in unknown(tree) if isinstance(tree, dict) else ():
        found.setdefault((kind, key), where)
    lines = [(where, advice(kind, key)) for (kind, key), where in found.items()]
    yield from lines[:MOST]
    if len(lines) > MOST:
        yield "further keys", "are not keys of a catalogue, and are ignored"
