"""What a GSDML file says of a device: its access points, modules and submodules, as far as a catalogue can hold them."""

import difflib
import itertools

from .elements import Refused
from . import types
from .values import Numbers, bits, ident, number, octets, parameter, shown, values

MOST_SUBSLOT = 36_863
MOST_SLOT = 32_767
MOST_INDEX = 32_767
MOST_RECORD = 65_535  # octets of a record as GSDML may say them; a catalogue holds fewer
MOST_DATA = 1_440
MOST_PARTS = 256  # submodules of a module; a catalogue holds fewer
VIRTUAL, PORT = "VirtualSubmoduleItem", "PortSubmoduleItem"
PLUGGABLE = ("SubmoduleItem", PORT)


MOST_MEANT = 5


def meant(wanted, known):
    """Which of the known words may be meant by another one: the nearest, whether in capitals or not, and those that are as near."""
    lower = wanted.lower()
    near = {word: difflib.SequenceMatcher(None, word.lower(), lower).ratio() for word in known}
    best = max(near.values(), default=0.0)
    words = [shown(word) for word, ratio in near.items() if ratio == best and ratio >= 0.6]
    if not words:
        return ""
    if len(words) > MOST_MEANT:
        return f"; {', '.join(words[:MOST_MEANT])} or {len(words) - MOST_MEANT} others are meant?"
    return f"; {' or '.join(part for part in (', '.join(words[:-1]), words[-1]) if part)} is meant?"


class Record:
    """A parameter record: its index, the place in the order of writing, and its octets by default."""

    def __init__(self, element):
        self.line, self.element = element.line, element
        self.index = number(element, "Index", 0, MOST_INDEX)
        self.length = number(element, "Length", 1, MOST_RECORD)
        self.order = number(element, "TransferSequence", 0, 65_535, 0)

    def data(self):
        """The octets: those of each Const, and over them the default of each Ref."""
        data = bytearray(self.length)
        for const in self.element.all("Const"):
            self.put(data, const, octets(const, "Data"))
        for reference in self.element.all("Ref"):
            if reference.text("DataType") in ("Bit", "BitArea"):
                self.put_bits(data, reference)
            else:
                self.put(data, reference, parameter(reference))
        return bytes(data)

    def place(self, element, length):
        """The place of some octets, which lie in the record."""
        offset = number(element, "ByteOffset", 0, MOST_RECORD, 0)
        if offset + length > self.length:
            raise Refused(element.line, f"octets {offset} to {offset + length - 1} are after the record's Length of {self.length}")
        return offset

    def put(self, data, element, content):
        offset = self.place(element, len(content))
        data[offset:offset + len(content)] = content

    def put_bits(self, data, reference):
        offset = self.place(reference, 1)
        first, length, value = bits(reference, reference.text("DataType"), reference.text("DefaultValue"))
        data[offset] = data[offset] & ~(((1 << length) - 1) << first) | value << first


class DataItem:
    """A value in the data of a submodule: its DataType, its number of octets, its text, and its bits that have one, each with its number."""

    def __init__(self, file, element):
        self.kind = element.text("DataType")
        if not types.is_known(self.kind):
            raise Refused(element.line, f"a DataItem of DataType {shown(self.kind)} is not one of GSDML with a length{meant(self.kind, [*types.LENGTHS, *types.SIZED])}")
        self.length = self.length_of(element)
        self.text = file.text(element)
        self.bits = self.bits_of(file, element)

    def length_of(self, element):
        """Its octets, as its DataType says, or else its Length."""
        if self.kind in types.SIZED:
            return number(element, "Length", 1, MOST_DATA)
        length = types.LENGTHS[self.kind]
        if number(element, "Length", 0, 65_535, length) != length:
            raise Refused(element.line, f"Length of {self.kind} is {length}, and '{shown(element.get('Length'))}' is not")
        return length

    def bits_of(self, file, element):
        found = {}
        for bit in element.all("BitDataItem"):
            if not types.has_bits(self.kind):
                raise Refused(bit.line, f"a DataItem of DataType {self.kind} has no bits")
            place = number(bit, "BitOffset", 0, 8 * self.length - 1)
            if place in found:
                raise Refused(bit.line, f"the bit {place} is named twice")
            found[place] = file.text(bit)
        return sorted(found.items())


class Submodule:
    """A submodule, built in or to be plugged."""

    def __init__(self, file, element):
        self.file, self.element, self.line = file, element, element.line
        self.ident = ident(element, "SubmoduleIdentNumber")
        self.name = file.name(element)

    def subslots(self):
        """Where it is: one that is built in says it itself, 1 where it says nothing; an interface and a port by their number."""
        if self.element.name == VIRTUAL:
            found = values(self.element, "FixedInSubslots", 65_535, (1,))
        else:
            default = None if self.element.name == PORT else 32_768
            found = [number(self.element, "SubslotNumber", 0, 65_535, default)]
        for subslot in found:
            if not 1 <= subslot <= MOST_SUBSLOT:
                raise Refused(self.line, f"subslot {subslot} is not one of 1 to {MOST_SUBSLOT:,}")
        if len(found) > MOST_PARTS:
            raise Refused(self.line, f"it is in {len(found):,} subslots, and {MOST_PARTS} is the most")
        return found

    def items(self, way):
        """The items of Input or of Output."""
        return [DataItem(self.file, element) for element in self.element.all(f"IOData/{way}/DataItem")]

    def data(self, way):
        """The same as a catalogue has them."""
        return [types.in_catalogue(item.kind, item.length) for item in self.items(way)]

    def octets(self, way):
        return sum(item.length for item in self.items(way))

    def judge(self):
        """Refuses what no catalogue can say: another API than 0, IOPS or IOCS of another length than 1, safe or isochronous data."""
        if number(self.element, "API", 0, 4_294_967_295, 0) != 0:
            raise Refused(self.line, f"it is in API {shown(self.element.get('API'))}, and only API 0 is served")
        for data in self.element.all("IOData"):
            for length in ("IOPS_Length", "IOCS_Length"):
                if number(data, length, 0, 255, 1) != 1:
                    raise Refused(data.line, f"{length} is {shown(data.get(length))}, and only 1 is served")
        safe = self.element.first("RecordDataList/F_ParameterRecordDataItem")
        if safe is not None:
            raise Refused(safe.line, "it wants parameters of PROFIsafe, which no catalogue has")
        clocked = self.element.first("IsochroneMode")
        if clocked is not None and clocked.get("IsochroneModeRequired") == "true":
            raise Refused(clocked.line, "it works in isochronous mode alone, which the controller does not do")

    def records(self):
        """Its parameter records, in the order in which they are written."""
        found, seen = [Record(item) for item in self.element.all("RecordDataList/ParameterRecordDataItem")], set()
        for record in found:
            if record.index in seen:
                raise Refused(record.line, f"its submodule has two records of index {record.index}")
            seen.add(record.index)
        return sorted(found, key=lambda record: record.order)


class Reference:
    """What an item allows to be put into its places: a module in slots, or a submodule in subslots."""

    def __init__(self, element, places):
        self.line, self.target = element.line, element.text(f"{'Module' if places == 'Slots' else 'Submodule'}ItemTarget")
        self.fixed, self.used, self.allowed = (values(element, f"{word}In{places}", 65_535) for word in ("Fixed", "Used", "Allowed"))
        self.is_free = not any(f"{word}In{places}" in element.attributes for word in ("Fixed", "Used", "Allowed"))

    def takes(self, place):
        """Whether a place is open to it. Where nothing is said of places, each one is."""
        return self.is_free or any(place in places for places in (self.allowed, self.used, self.fixed))

    def first_two(self, places, own=()):
        """The first two of some places that are open to it, without the access point's own; or the only one, or none."""
        mine = Numbers([*self.allowed.pairs, *self.used.pairs, *self.fixed.pairs])
        found = (place for place in (places if self.is_free else mine.both(places)) if place not in own)
        return list(itertools.islice(found, 2))


class Item:
    """A module, or an access point, with what is built into it."""

    def __init__(self, file, element):
        self.file, self.element, self.line = file, element, element.line
        self.id, self.ident = element.text("ID"), ident(element, "ModuleIdentNumber")
        self.name = file.name(element)
        if self.ident == 0:
            raise Refused(self.line, "ModuleIdentNumber is 0, which no module has")

    def built_in(self):
        """The submodules that are always there, each with its subslot, by subslots."""
        elements = self.element.all(f"VirtualSubmoduleList/{VIRTUAL}")
        for name in ("InterfaceSubmoduleItem", PORT):
            elements += self.element.all(f"SystemDefinedSubmoduleList/{name}")
        if len(elements) > MOST_PARTS:
            raise Refused(self.line, f"it has {len(elements):,} submodules built in, and {MOST_PARTS} is the most")
        parts = [Submodule(self.file, element) for element in elements]
        return [(subslot, part) for part in parts for subslot in part.subslots()]

    def pluggable(self):
        """The submodules that can be put into its subslots."""
        return [Reference(element, "Subslots") for element in self.element.all("UseableSubmodules/SubmoduleItemRef")]


class AccessPoint(Item):
    """A DeviceAccessPointItem."""

    def physical(self):
        return values(self.element, "PhysicalSlots", MOST_SLOT)

    def own_slots(self):
        return values(self.element, "FixedInSlots", MOST_SLOT, (0,))

    def least_interval(self):
        return number(self.element, "MinDeviceInterval", 1, 65_536)

    def station_type(self):
        return self.element.text("DNS_CompatibleName")

    def takes_lists(self):
        """Whether one Write can carry several records."""
        return self.element.get("MultipleWriteSupported", "false") in ("true", "1")

    def modules(self):
        return [Reference(element, "Slots") for element in self.element.all("UseableModules/ModuleItemRef")]

    def judge(self):
        """Refuses a device that does not speak as the controller does: in RT_CLASS_1, and without the advanced start-up."""
        interface = self.element.first("SystemDefinedSubmoduleList/InterfaceSubmoduleItem")
        if interface is None:
            return
        classes = interface.get("SupportedRT_Classes", "RT_CLASS_1")
        if "RT_CLASS_1" not in classes.split(";"):
            raise Refused(interface.line, f"its SupportedRT_Classes are {shown(classes)}, and the controller speaks RT_CLASS_1")
        relations = interface.first("ApplicationRelations")
        modes = relations.get("StartupMode", "Legacy") if relations is not None else "Legacy"
        if "Legacy" not in modes.split(";"):
            raise Refused(relations.line, f"its StartupMode is {shown(modes)}, and the controller starts up as Legacy alone")

    def limits(self):
        """The element that says how long the frames of the device may be, and its numbers by name."""
        element = self.element.first("IOConfigData")
        if element is None:
            return self.element, {}
        return element, {name: number(element, name, 0, 65_535) for name in ("MaxInputLength", "MaxOutputLength", "MaxDataLength") if name in element.attributes}

    def clocks(self):
        """The element that says the send clocks and reduction ratios, and both lists."""
        for path in ("SystemDefinedSubmoduleList/InterfaceSubmoduleItem/ApplicationRelations/TimingProperties", "ApplicationRelations/TimingProperties"):
            element = self.element.first(path)
            if element is not None:
                break
        else:
            element = self.element
        return element, values(element, "SendClock", 65_535, (32,)), values(element, "ReductionRatio", 65_535, [1 << power for power in range(10)])


class File:
    """A GSDML file."""

    def __init__(self, root):
        if root.name != "ISO15745Profile":
            raise Refused(root.line, f"its root is {shown(root.name.split('}')[-1])}, and that of a GSDML file is ISO15745Profile in GSDML's namespace")
        self.root = root
        self.identity = root.need("ProfileBody/DeviceIdentity")
        self.process = root.need("ProfileBody/ApplicationProcess")
        self.texts = {text.get("TextId"): text.get("Value", "") for text in self.process.all("ExternalTextList/PrimaryLanguage/Text")}
        self.vendor, self.device = ident(self.identity, "VendorID", 4), ident(self.identity, "DeviceID", 4)
        self.point_list = self.process.need("DeviceAccessPointList")
        self.points = self.by_id([*self.point_list.all("DeviceAccessPointItem")])
        self.module_elements = self.by_id(self.process.all("ModuleList/ModuleItem"))
        self.submodule_elements = self.by_id([child for kind in PLUGGABLE for child in self.process.all(f"SubmoduleList/{kind}")])
        if not self.points:
            raise Refused(self.point_list.line, "it has no DeviceAccessPointItem")

    @staticmethod
    def by_id(elements):
        found = {}
        for element in elements:
            name = element.text("ID")
            if not name or len(name.split()) != 1:
                raise Refused(element.line, f"'{shown(name)}' is no ID")
            if name in found:
                raise Refused(element.line, f"the ID {shown(name)} is that of line {found[name].line} already")
            found[name] = element
        return found

    def name(self, element):
        """The name of an item in the primary language, or nothing."""
        said = element.first("ModuleInfo/Name")
        text = said.get("TextId") if said is not None else element.get("TextId")
        return shown(self.texts.get(text, ""))

    def text(self, element):
        """The text that an element names by its TextId, or nothing."""
        return shown(" ".join(self.texts.get(element.get("TextId"), "").split()))

    def errors(self):
        """The errors of channels that the maker names: each element, and those of its extended errors."""
        found = [element for kind in ("ChannelDiagItem", "SystemDefinedChannelDiagItem") for element in self.process.all(f"ChannelDiagList/{kind}")]
        return [(element, element.all("ExtChannelDiagList/ExtChannelDiagItem")) for element in found]

    def error_name(self, element):
        said = element.first("Name")
        return shown(self.texts.get(said.get("TextId"), "")) if said is not None else ""

    def error_text(self, element):
        """The same in one line, as the file has it."""
        said = element.first("Name")
        return " ".join(self.texts.get(said.get("TextId"), "").split()) if said is not None else ""

    def vendor_name(self):
        said = self.identity.first("VendorName")
        return shown(said.get("Value", "")) if said is not None else ""

    def point(self, wanted):
        """The access point of an ID, or the only one."""
        if wanted is None and len(self.points) > 1:
            raise Refused(self.point_list.line, f"it has {len(self.points)} access points; --access-point names one: {', '.join(map(shown, self.points))}")
        return AccessPoint(self, self.found(self.points, wanted or next(iter(self.points)), self.point_list.line, "DeviceAccessPointItem"))

    def module(self, wanted, line):
        return Item(self, self.found(self.module_elements, wanted, line, "ModuleItem"))

    def submodule(self, wanted, line):
        return Submodule(self, self.found(self.submodule_elements, wanted, line, "SubmoduleItem"))

    @staticmethod
    def found(elements, wanted, line, kind):
        if wanted not in elements:
            raise Refused(line, f"there is no {kind} with the ID {shown(wanted)}{meant(wanted, elements)}")
        return elements[wanted]
