"""The signals that a GSDML file gives a station, and their names.

A name depends on the file and on the place of its submodule alone, and not on what else is plugged: a plan that gets a further module keeps the
names that it has. A module that can be in several slots has its slot in front of its names, a submodule that can be in several subslots
has both; and so has a text that is in several places of the file that can be in one plan.
"""

import contextlib
import functools
import itertools
import re
import unicodedata

from . import types
from .device import MOST_SUBSLOT
from .elements import Refused
from .values import Numbers

LONGEST_NAME = 64
LONGEST_SLUG = 40
LONGEST_UNIT = 16
# A unit at the end of a text, such as 'Flow [l/min]': it has a letter, or a sign of percent or degrees.
UNIT = re.compile(r"(.*\S)\s*\[\s*([^\[\]]*[^\W\d_%°][^\[\]]*|%|°)\s*\]\s*")
WAYS = ("Input", "Output")
# How long a name is: without a place in front, with its slot, with its slot and subslot.
ALONE, SLOT, SUBSLOT = 0, 1, 2
LOOKS_LIKE_A_PLACE = re.compile("(slot|sub)[0-9]")
SUBSLOTS = Numbers([(1, MOST_SUBSLOT)])


def slug(text):
    """The letters and digits of a text in lower case, without accents, with `_` between its words; empty if it has none."""
    plain = unicodedata.normalize("NFKD", text.casefold()).encode("ascii", "ignore").decode()
    return "_".join(re.findall(r"[a-z0-9]+", plain))[:LONGEST_SLUG].rstrip("_")


def parted(text):
    """A text without the unit at its end, and the unit; nothing if it has none."""
    found = UNIT.fullmatch(text)
    return (found[1], found[2].strip()) if found and len(found[2].strip()) <= LONGEST_UNIT else (text, "")


class Named:
    """A signal that gets a name: its entry in the catalogue, and the names that it may have, the shortest one first. `family` is what it has in
    common with the signals whose names are as long as its own: the bits of an item, and items whose texts differ in numbers alone."""

    def __init__(self, entry, word, slot, subslot, item, family=None):
        place = f"slot{slot}_sub{subslot}"
        way = "in" if entry["Direction"] == "Input" else "out"
        whole = f"{item}_{word}" if item else word
        alone = f"n_{word}" if word[0].isdigit() else word
        # A text that looks like a place has its own place in front.
        self.entry, self.level, self.family = entry, SUBSLOT if LOOKS_LIKE_A_PLACE.match(alone) else ALONE, family
        self.names = [name[:LONGEST_NAME].rstrip("_") for name in (alone, f"slot{slot}_{word}", f"{place}_{word}", f"{place}_{whole}", f"{place}_{way}_{whole}")]

    def name(self):
        return self.names[self.level]


def by_name(signals):
    found = {}
    for signal in signals:
        found.setdefault(signal.name(), []).append(signal)
    return found


def numbered(signals):
    """Gives the signals whose longest names are the same numbers, from the second one on."""
    groups, names = by_name(signals), {}
    for name, group in groups.items():
        number = 1
        for signal in group:
            wanted = name if number == 1 else f"{name[:LONGEST_NAME - 6]}_{number}"
            while wanted in names or (number > 1 and wanted in groups):
                number += 1
                wanted = f"{name[:LONGEST_NAME - 6]}_{number}"
            names[wanted] = signal
            number += 1
    for name, signal in names.items():
        signal.entry["Name"] = name


def count_repeats(signals):
    """Gives each name of the signals that no place tells apart a number at its end: items of one submodule with the same text, and their bits."""
    groups = {}
    for signal in signals:
        groups.setdefault(signal.names[-1], []).append(signal)
    for longest, group in groups.items():
        number = 0
        for signal in group if len(group) > 1 else ():
            number += 1
            while f"{longest}_{number}" in groups:
                number += 1
            signal.names = [f"{name[:LONGEST_NAME - 6].rstrip('_')}_{number}" for name in signal.names]


def tell_apart(signals):
    """Lengthens the names that several signals have. If a text repeats, each of its signals has its slot in front, then the subslot, the item, the
    direction; and so has its family."""
    count_repeats(signals)
    while True:
        crowded = [signal for group in by_name(signals).values() if len(group) > 1 for signal in group if signal.level + 1 < len(signal.names)]
        if not crowded:
            break
        families, alone = {signal.family for signal in crowded} - {None}, {id(signal) for signal in crowded}
        for signal in signals:
            if id(signal) in alone or signal.family in families:
                signal.level += 1


def give_names(signals):
    """Gives each signal its name: the shortest of its own that no other has."""
    tell_apart(signals)
    numbered(signals)


def lengthen(signals, level, words=None):
    """Lengthens the names of a submodule's signals, or of those with one of these words and of their families, to this length at least."""
    wanted = [signal for signal in signals if words is None or signal.names[0] in words]
    families, alone = {signal.family for signal in wanted} - {None}, {id(signal) for signal in wanted}
    for signal in signals:
        if id(signal) in alone or signal.family in families:
            signal.level = max(signal.level, level)


def entry_of(way, slot, subslot, octet, kind, length, text, bit=None):
    text, unit = parted(text)
    entry = {"Name": "", "Direction": way, "Slot": slot, "Subslot": subslot, "Octet": octet}
    if bit is not None:
        entry["Bit"] = bit
    entry["Type"] = kind
    if kind in types.SIZED:
        entry["Length"] = length
    return {**entry, **({"Unit": unit} if unit else {}), **({"Text": text} if text else {})}


def signals_of_item(item, way, slot, subslot, octet, words):
    """The signals of a data item: itself, and its bits."""
    word = slug(parted(item.text)[0]) or next(filter(None, map(slug, words)), "input" if way == "Input" else "output")
    numbered_text = re.sub("[0-9]+", "0", word)
    yield Named(entry_of(way, slot, subslot, octet, item.kind, item.length, item.text), word, slot, subslot, "",
                (slot, subslot, way, numbered_text) if numbered_text != re.sub("[0-9]", "", word) else None)
    for number, text in item.bits:
        at, bit = types.place_of_bit(item.kind, item.length, number)
        of_bit = slug(parted(text)[0]) or f"{word}_bit{number}"
        yield Named(entry_of(way, slot, subslot, octet + at, types.BOOLEAN, 1, text, bit), of_bit, slot, subslot, word, (slot, subslot, way, octet))


def signals_of_part(part, slot, subslot, module):
    """The signals of a submodule, named as if there was no other. `module` is the name of its module."""
    found = []
    for way in WAYS:
        octet = 0
        for item in part.items(way):
            found += signals_of_item(item, way, slot, subslot, octet, (part.name, module))
            octet += item.length
    tell_apart(found)
    return found


def repeated(pairs):
    """The words that are at more than one place, of pairs of a word and its place."""
    first, found = {}, set()
    for word, place in pairs:
        if first.setdefault(word, place) != place:
            found.add(word)
    return found


class Places:
    """Which places the file leaves open to the modules and submodules of an access point, and which words are at several places whatever is plugged."""

    def __init__(self, station):
        self.file, self.point, self.references = station.file, station.point, station.references
        self.words = {}

    def slots_of(self, reference):
        """The slots that a module can be in; of several the first two."""
        return reference.first_two(self.point.physical(), self.point.own_slots())

    def lasting(self, item):
        """The submodules of a module that have one subslot each, with it. One that cannot be read is in no plan."""
        with contextlib.suppress(Refused):
            yield from item.built_in()
        with contextlib.suppress(Refused):
            for reference in item.pluggable():
                subslots = reference.first_two(SUBSLOTS)
                if len(subslots) == 1:
                    with contextlib.suppress(Refused):
                        yield subslots[0], self.file.submodule(reference.target, reference.line)

    def words_of(self, item):
        """The words that are in several subslots of a module, and all of its words."""
        if item.element not in self.words:
            parts = []
            for subslot, part in self.lasting(item):
                with contextlib.suppress(Refused):
                    parts.append((subslot, signals_of_part(part, 0, subslot, module_name(self.point, item))))
            pairs = [(signal.names[0], subslot) for subslot, signals in parts for signal in signals]
            self.words[item.element] = repeated(pairs), {word for word, _ in pairs}
        return self.words[item.element]

    @functools.cached_property
    def in_several_slots(self):
        """The words that are in several slots, of the access point and the modules that have one slot each."""
        pairs = [(word, 0) for word in self.words_of(self.point)[1]]
        for reference in self.references.values():
            slots = self.slots_of(reference)
            if len(slots) == 1:
                with contextlib.suppress(Refused):
                    pairs += [(word, slots[0]) for word in self.words_of(self.file.module(reference.target, reference.line))[1]]
        return repeated(pairs)

    def signals_of(self, slot, item, subslot, part, plugged):
        """The signals of a submodule in a plan. `plugged` is what allows it in its subslot, if it is not built in."""
        signals = signals_of_part(part, slot, subslot, module_name(self.point, item))
        if plugged is not None and len(plugged.first_two(SUBSLOTS)) > 1:
            lengthen(signals, SUBSLOT)
            return signals
        lengthen(signals, SUBSLOT, self.words_of(item)[0])
        if item is self.point or len(self.slots_of(self.references[item.id])) == 1:
            lengthen(signals, SLOT, self.in_several_slots)
        else:
            lengthen(signals, SLOT)
        return signals


def module_name(point, item):
    return "" if item is point else item.name


def place_of(entry):
    """What makes a signal of two catalogues the same one."""
    length = entry.get("Length") or types.LENGTHS[entry["Type"]]
    return (*(entry.get(key) for key in ("Slot", "Subslot", "Direction", "Octet", "Bit", "Type")), length, entry.get("Text", ""))


def keep_names(signals, entries):
    """Gives each signal the name that it has among these entries. One that has none there gets a longer name if its own is among them."""
    kept, names, new = {}, set(), []
    for entry in entries:
        kept.setdefault(place_of(entry), entry["Name"])
    for signal in signals:
        name = kept.get(place_of(signal.entry))
        if name is None:
            new.append(signal)
        else:
            signal.entry["Name"] = name
            names.add(name)
    for signal in new:
        longer = (f"{signal.names[-1][:LONGEST_NAME - 6]}_{number}" for number in itertools.count(2))
        wanted = itertools.chain([signal.entry["Name"]], signal.names[signal.level + 1:], longer)
        signal.entry["Name"] = next(name for name in wanted if name not in names)
        names.add(signal.entry["Name"])


def of_station(station):
    """The entries of Signals of a station."""
    places, named = Places(station), []
    for slot, parts in sorted(station.parts.items()):
        item = station.modules.get(slot, station.point)
        for subslot, part in parts:
            named += places.signals_of(slot, item, subslot, part, station.plugged_parts.get((slot, subslot)))
    give_names(named)
    keep_names(named, station.choice.kept_signals)
    return [signal.entry for signal in named]
