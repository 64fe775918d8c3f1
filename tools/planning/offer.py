"""What a GSDML file offers, as text: access points, slots, modules, submodules and their records."""

from .elements import Refused
from .values import number, shown

UNIT = 0.03125  # milliseconds: 31.25 microseconds
MOST_OCTETS = 64  # of a record in a catalogue
MOST_SLOT = 15  # of a catalogue


def milliseconds(units):
    return f"{units * UNIT:g} ms"


def counted(octets):
    return f"{octets} octet" if octets == 1 else f"{octets} octets"


def octets_of(part):
    both = [f"{counted(part.octets(way))} of {word}" for way, word in (("Input", "input"), ("Output", "output")) if part.octets(way)]
    return " and ".join(both) or "no data"


def titled(name):
    return f" '{name}'" if name else ""


def part_lines(head, part, margin):
    """A submodule and its records. What no catalogue can hold is marked, with its line."""
    try:
        part.judge()
        lines = [f"{margin}{head}{titled(part.name)}, ident 0x{part.ident:08x}: {octets_of(part)}"]
        return lines + [f"{margin}    {record_line(record)}" for record in part.records()]
    except Refused as fault:
        return [f"{margin}{head}{titled(part.name)}: not for a catalogue, line {fault.line}: {fault.what}"]


def record_line(record):
    said = f"record {record.index}, {counted(record.length)}"
    if record.length > MOST_OCTETS:
        return f"{said}: not for a catalogue, line {record.line}: it has more than {MOST_OCTETS} octets"
    try:
        return f"{said}, by default {record.data().hex()}"
    except Refused as fault:
        return f"{said}: not for a catalogue, line {fault.line}: {fault.what}"


def item_lines(file, item, margin):
    lines = []
    for subslot, part in sorted(item.built_in(), key=lambda pair: pair[0]):
        lines += part_lines(f"subslot {subslot}", part, margin)
    for reference in item.pluggable():
        part = file.submodule(reference.target, reference.line)
        lines += part_lines(f"submodule {shown(reference.target)}, {places_of(reference, 'subslots')},", part, margin)
    return lines


def slots_of(numbers, why=""):
    """The slots that a catalogue has of these, and all of them if it has not all."""
    some = numbers.up_to(MOST_SLOT)
    return str(some) if len(some) == len(numbers) else f"{some} (of {numbers}{why})"


def places_of(reference, word):
    said, shows = [], slots_of if word == "slots" else str
    if reference.fixed:
        said.append(f"fixed in {shows(reference.fixed)}")
    if reference.used:
        said.append(f"used in {shows(reference.used)}")
    if reference.allowed:
        said.append(f"allowed in {shows(reference.allowed)}")
    return f"{word} {', '.join(said)}" if said else f"{word} not restricted"


def point_lines(file, point):
    _, clocks, ratios = point.clocks()
    yield f"access point {shown(point.id)}{titled(point.name)}, ident 0x{point.ident:08x}, type of station {shown(point.station_type())}"
    yield f"    slots {slots_of(point.physical(), f'; a catalogue ends with slot {MOST_SLOT}')}, itself in {point.own_slots()}"
    yield f"    interval at least {milliseconds(point.least_interval())}; send clock {clocks}, reduction {ratios}"
    try:
        point.judge()
    except Refused as fault:
        yield f"    not for a catalogue, line {fault.line}: {fault.what}"
    yield from item_lines(file, point, "    ")
    for reference in point.modules():
        module = file.module(reference.target, reference.line)
        yield f"    module {shown(module.id)}{titled(module.name)}, ident 0x{module.ident:08x}, {places_of(reference, 'slots')}"
        yield from item_lines(file, module, "        ")


def error_line(file, element, head):
    try:
        return f"{head} {number(element, 'ErrorType', 0, 65_535)}{titled(file.error_name(element))}"
    except Refused as fault:
        return f"{head} unknown, line {fault.line}: {fault.what}"


def error_lines(file):
    """What the maker calls the errors in the alarms of a channel."""
    for element, extended in file.errors():
        yield error_line(file, element, "channel error")
        for other in extended:
            yield error_line(file, other, "    extended error")


def lines(file, wanted=None):
    """All that a file offers, or what one access point does."""
    yield f"vendor 0x{file.vendor:04x}{titled(file.vendor_name())}, device 0x{file.device:04x}"
    for name in [wanted] if wanted is not None else list(file.points):
        yield from point_lines(file, file.point(name))
    yield from error_lines(file)
