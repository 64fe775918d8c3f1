"""The signals of a catalogue: the values in the data of a station, by name. They are checked and printed."""

import json
import re

from . import judge, types

LONGEST_TEXT = 80
MOST_SIGNALS = 32_768
NAME = re.compile(r"[a-z][a-z0-9_]{0,63}")
KEYS = {"Name", "Direction", "Slot", "Subslot", "Octet", "Type", "Length", "Bit", "Unit", "Text"}
WAYS = ("Input", "Output")
WRONG_CATALOGUE, WRONG_FILE = 5, 65
LONGEST = 16_777_216


class Refused(Exception):
    """What is wrong with the signals of a catalogue."""


def default(plugged):
    """The signals of a catalogue that names none: the data of each submodule in each direction."""
    for slot, parts in sorted(plugged.items()):
        for part in sorted(parts, key=lambda part: part["subslot"]):
            for way, short in zip(WAYS, ("in", "out")):
                length = part[way.lower()]
                if length:
                    yield {"Name": f"slot{slot}_sub{part['subslot']}_{short}", "Direction": way, "Slot": slot, "Subslot": part["subslot"], "Octet": 0,
                           "Type": types.OCTET_STRING, "Length": length, "Bit": None, "Unit": "", "Text": ""}


def number(tree, key, least, most, default=None):
    value = tree.get(key, default)
    if not isinstance(value, int) or isinstance(value, bool) or not least <= value <= most:
        raise Refused(f"{key} is a number from {least} to {most:,}")
    return value


def text(tree, key, most):
    value = tree.get(key, "")
    if not isinstance(value, str) or len(value.encode()) > most or any(ord(letter) < 32 or ord(letter) == 127 for letter in value):
        raise Refused(f"{key} is a text of at most {most} octets without control characters")
    return value


def length_of(tree, kind):
    """The octets of a signal. A type of a fixed length needs no key for it."""
    if kind in types.SIZED:
        return number(tree, "Length", 1, types.MOST)
    length = types.LENGTHS[kind]
    if number(tree, "Length", 1, types.MOST, length) != length:
        raise Refused(f"Length of {kind} is {length}")
    return length


def judged(tree, names, places):
    """An entry of Signals, with all its keys, if it has a place in the data. `places` has the length of the data by slot, subslot and direction."""
    if not isinstance(tree, dict):
        raise Refused("it is no object")
    name, way, kind = (tree.get(key) for key in ("Name", "Direction", "Type"))
    if not isinstance(name, str) or not NAME.fullmatch(name):
        raise Refused("Name is 1 to 64 letters a to z, digits and '_', and begins with a letter")
    if name in names:
        raise Refused(f"Name '{name}' is that of another signal")
    if way not in WAYS:
        raise Refused("Direction is Input or Output")
    slot, subslot, octet = (number(tree, key, 0, 65_535) for key in ("Slot", "Subslot", "Octet"))
    if not isinstance(kind, str) or not types.is_known(kind):
        raise Refused("Type is not a DataType of GSDML")
    length, bit = length_of(tree, kind), tree.get("Bit")
    if bit is not None and (number(tree, "Bit", 0, 7) is None or kind != types.BOOLEAN):
        raise Refused("Bit takes the Type Boolean")
    whole = places.get((slot, subslot, way), 0)
    if whole == 0:
        raise Refused(f"slot {slot} subslot {subslot} has no {way.lower()}")
    if octet + length > whole:
        raise Refused(f"octets {octet} to {octet + length - 1} are not in the {whole} octets of {way.lower()} of slot {slot} subslot {subslot}")
    return {"Name": name, "Direction": way, "Slot": slot, "Subslot": subslot, "Octet": octet, "Type": kind, "Length": length, "Bit": bit,
            "Unit": text(tree, "Unit", LONGEST_TEXT), "Text": text(tree, "Text", 4 * LONGEST_TEXT)}


def of_catalogue(octets):
    """The station of a catalogue and its signals, each with all keys."""
    plugged = judge.judge(octets)
    project = judge.tree_of(octets)["Project"]
    if "Signals" not in project:
        return project["NameOfStation"], list(default(plugged))
    if not isinstance(project["Signals"], list):
        raise Refused("Project.Signals is no list")
    if len(project["Signals"]) > MOST_SIGNALS:
        raise Refused(f"Project.Signals has more than {MOST_SIGNALS:,} signals")
    places = {(slot, part["subslot"], way): part[way.lower()] for slot, parts in plugged.items() for part in parts for way in WAYS}
    found, names = [], set()
    for index, tree in enumerate(project["Signals"]):
        try:
            found.append(judged(tree, names, places))
        except Refused as fault:
            raise Refused(f"Project.Signals[{index}]: {fault}") from None
        names.add(found[-1]["Name"])
    return project["NameOfStation"], found


def lines(station, signals):
    """The table as text, in columns."""
    rows = [("name", "direction", "slot", "subslot", "octet", "bit", "length", "type", "unit")]
    for signal in signals:
        rows.append((f"{station}.{signal['Name']}", signal["Direction"].lower(), *(str(signal[key]) for key in ("Slot", "Subslot", "Octet")),
                     "-" if signal["Bit"] is None else str(signal["Bit"]), str(signal["Length"]), signal["Type"], signal["Unit"] or "-"))
    widths = [max(len(row[column]) for row in rows) for column in range(len(rows[0]))]
    return ["  ".join(word.ljust(width) for word, width in zip(row, widths)).rstrip() for row in rows]


def run(octets, is_json, say):
    """Prints the signals of a catalogue. Gives the status."""
    try:
        if len(octets) > LONGEST:
            raise Refused(f"a catalogue has at most {LONGEST:,} octets")
        station, signals = of_catalogue(octets)
    except judge.Fault as fault:
        say(f"signals: {fault.said()}")
        return WRONG_CATALOGUE
    except (Refused, RecursionError) as fault:
        say(f"signals: {fault}")
        return WRONG_FILE
    print(json.dumps({"Station": station, "Signals": signals}, indent=1, ensure_ascii=False) if is_json else "\n".join(lines(station, signals)))
    return 0
