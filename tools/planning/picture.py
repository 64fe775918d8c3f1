"""./pnscript picture: both cyclic frames of a plan as SVG, octet by octet, of the lines that `plan` prints."""

import colorsys
import json
import re
from html import escape

ROW = 32  # octets in a row
CELL, LINE = 26, 22  # width and height of an octet
LEFT, TOP, WIDTH = 70, 40, 1040
FONT = "font-family=\"DejaVu Sans, Verdana, Helvetica, sans-serif\""
LIGHT, DARK, OUTLINE, GAP = "light", "dark", "outline", "gap"
# The columns of the table: where they begin, and what they are.
COLUMNS = ((0, "slot"), (90, "subslot"), (160, "module"), (430, "data"), (520, "IOPS"), (580, "IOCS"), (700, "data"), (790, "IOPS"), (850, "IOCS"))


class NoPlan(Exception):
    pass


class Frame:
    """The octets of one direction: for each, whose it is and what it is; None for a gap."""

    def __init__(self, length):
        self.length, self.octets, self.places = length, [None] * length, {}

    def put(self, place, kind, offset, length):
        if offset + length > self.length or any(self.octets[offset:offset + length]):
            raise NoPlan(f"the place {offset} of {kind} {place[0]} {place[1]} is in use, or after the frame's end")
        if kind == "iocs":
            self.octets[offset] = (place, OUTLINE)
        else:
            self.octets[offset:offset + length] = [(place, LIGHT)] * (length - 1) + [(place, DARK)]
        self.places[place, kind] = (offset, length)

    def used(self):
        return sum(octet is not None for octet in self.octets)


def frames_of(text):
    """The frames of a plan, by its printed lines."""
    frames, now = {}, None
    for line in text.splitlines():
        found = re.fullmatch(r"(input|output) ([0-9]{1,4})|data ([0-9]{1,5}) ([0-9]{1,5}) ([0-9]{1,4}) ([0-9]{1,4})|iocs ([0-9]{1,5}) ([0-9]{1,5}) ([0-9]{1,4})", line)
        if not found or now is None and not found[1]:
            raise NoPlan(f"'{line[:60]}' is no line of a plan")
        if found[1]:
            now = frames[found[1]] = Frame(int(found[2]))
        elif found[3]:
            slot, subslot, offset, length = map(int, found.groups()[2:6])
            now.put((slot, subslot), "data", offset, max(1, length))
        else:
            slot, subslot, offset = map(int, found.groups()[6:9])
            now.put((slot, subslot), "iocs", offset, 1)
    if set(frames) != {"input", "output"}:
        raise NoPlan("a plan has an input and an output frame")
    return frames


def names_of(catalogue):
    """The name of the station, and the module of each slot, as far as the catalogue says them. A plan needs neither."""
    try:
        project, point = catalogue["Project"], catalogue["DeviceAccessPointItem"]
        names = {slot: reference["ModuleItemTarget"] for reference in point.get("ModuleItemRef", []) for slot in reference.get("FixedInSlots", [])}
        names.update({entry["Slot"]: entry["ModuleItemTarget"] for entry in project.get("Slots", [])})
        return str(project["NameOfStation"]), {0: "access point", **names}
    except (KeyError, TypeError, AttributeError):
        return "", {}


def colour(number, kind):
    """The colour of a submodule: hues that lie far apart, one after another."""
    if kind == GAP:
        return "#e8e8e8"
    lightness, saturation = {LIGHT: (0.80, 0.75), DARK: (0.36, 0.65), OUTLINE: (0.36, 0.65)}[kind]
    red, green, blue = colorsys.hls_to_rgb(number * 0.618034 % 1, lightness, saturation)
    return "#" + "".join(f"{round(part * 255):02x}" for part in (red, green, blue))


def text_at(x, y, text, size=11, more=""):
    # A name may have letters that XML has not.
    text = "".join(letter if letter.isprintable() else "?" for letter in str(text))
    return f'<text x="{x}" y="{y}" font-size="{size}" {more}>{escape(text)}</text>'


def octet_at(x, y, octet, keys):
    """One octet: filled for data, dark for IOPS, outlined for IOCS, grey for a gap. It carries the number of its submodule."""
    if octet is None:
        return f'<rect x="{x}" y="{y}" width="{CELL}" height="{LINE}" fill="{colour(0, GAP)}" stroke="#bbbbbb"/>'
    place, kind = octet
    number, middle = keys[place], f'text-anchor="middle" fill="{"white" if kind == DARK else "black"}"'
    if kind == OUTLINE:
        shape = (f'<rect x="{x}" y="{y}" width="{CELL}" height="{LINE}" fill="white" stroke="#bbbbbb"/>'
                 f'<rect x="{x + 2.5}" y="{y + 2.5}" width="{CELL - 5}" height="{LINE - 5}" fill="none" stroke="{colour(number, kind)}" stroke-width="2"/>')
    else:
        shape = f'<rect x="{x}" y="{y}" width="{CELL}" height="{LINE}" fill="{colour(number, kind)}" stroke="#bbbbbb"/>'
    return shape + text_at(x + CELL / 2, y + 15, number, 11, middle)


def frame_at(y, title, frame, keys):
    """A frame with its title and the numbers of its octets. Gives the lines, and where the next thing begins."""
    lines = [text_at(LEFT, y, title, 14, 'font-weight="bold"')]
    gap = frame.length - frame.used()
    lines.append(text_at(LEFT, y + 18, f"DataLength {frame.length} octets: {frame.used()} used, {gap or 'none'} in gaps"))
    y += 42
    for column in range(min(ROW, frame.length)):
        lines.append(text_at(LEFT + column * CELL + CELL / 2, y - 5, column, 9, 'text-anchor="middle" fill="#666666"'))
    for offset in range(0, frame.length, ROW):
        lines.append(text_at(LEFT - 8, y + 15, offset, 9, 'text-anchor="end" fill="#666666"'))
        for column, octet in enumerate(frame.octets[offset:offset + ROW]):
            lines.append(octet_at(LEFT + column * CELL, y, octet, keys))
        y += LINE
    return lines, y + 36


def legend_at(y):
    """What the shapes mean."""
    lines, x = [], LEFT
    for kind, said in ((LIGHT, "data"), (DARK, "IOPS"), (OUTLINE, "IOCS"), (None, "gap")):
        lines.append(octet_at(x, y, None if kind is None else ((0, 0), kind), {(0, 0): 1}))
        lines.append(text_at(x + CELL + 8, y + 15, said))
        x += 110
    lines.append(text_at(x, y + 15, "The number is that of the submodule in the table."))
    y += LINE + 22
    lines.append(text_at(LEFT, y, "On the wire FrameID (2 octets) comes before them; CycleCounter (2), DataStatus (1) and TransferStatus (1) follow."))
    return lines, y + 38


def octets_said(frame, place, kind):
    """The cells of the table for a place: octets of data, that of IOPS."""
    offset, length = frame.places.get((place, kind), (None, 0))
    if offset is None:
        return ("", "") if kind == "data" else ("",)
    if kind == "iocs":
        return (str(offset),)
    data = "no data" if length == 1 else str(offset) if length == 2 else f"{offset} to {offset + length - 2}"
    return data, str(offset + length - 1)


def table_at(y, frames, keys, names):
    """A row for each submodule: where it is, and its octets in both frames."""
    lines = [text_at(LEFT + 430, y, "input frame, octets", 11, 'font-weight="bold"'), text_at(LEFT + 700, y, "output frame, octets", 11, 'font-weight="bold"')]
    y += 17
    lines += [text_at(LEFT + CELL + 14 + x if x == 0 else LEFT + x, y, said, 11, 'fill="#666666"') for x, said in COLUMNS]
    y += 8
    for place, number in keys.items():
        slot, subslot = place
        lines.append(octet_at(LEFT, y, (place, LIGHT), keys))
        name = str(names.get(slot, ""))
        cells = [slot, subslot, name if len(name) <= 34 else name[:33] + "…"]
        for word in ("input", "output"):
            cells += [*octets_said(frames[word], place, "data"), *octets_said(frames[word], place, "iocs")]
        lines += [text_at(LEFT + x + (CELL + 14 if x == 0 else 0), y + 15, cell) for (x, _), cell in zip(COLUMNS, cells) if cell != ""]
        y += LINE + 2
    return lines, y + 20


def draw(text, catalogue=None):
    """The SVG of a plan."""
    frames = frames_of(text)
    station, names = names_of(catalogue)
    places = sorted({place for frame in frames.values() for place, _ in frame.places})
    keys = {place: number for number, place in enumerate(places, 1)}
    lines = [text_at(LEFT, TOP, f"Cyclic frames of {station}" if station else "Cyclic frames of a plan", 18, 'font-weight="bold"')]
    y = TOP + 24
    for part in (lambda y: legend_at(y),
                 lambda y: frame_at(y, "Input frame: from the device to the controller", frames["input"], keys),
                 lambda y: frame_at(y, "Output frame: from the controller to the device", frames["output"], keys),
                 lambda y: table_at(y, frames, keys, names)):
        more, y = part(y)
        lines += more
    head = f'<svg xmlns="http://www.w3.org/2000/svg" width="{WIDTH}" height="{y}" viewBox="0 0 {WIDTH} {y}" {FONT}>'
    return "\n".join([head, f'<rect width="{WIDTH}" height="{y}" fill="white"/>', *lines, "</svg>"]) + "\n"


def json_of(octets):
    try:
        return json.loads(octets)
    except (ValueError, RecursionError):
        return None
