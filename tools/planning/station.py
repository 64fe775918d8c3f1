"""The catalogue of a station, of what a GSDML file says and what was chosen. What a catalogue cannot hold is refused with a line of the file."""

from . import names as naming
from .elements import Refused
from .offer import MOST_OCTETS, MOST_SLOT, milliseconds
from .values import number, shown

MOST_PARTS = 4
MOST_RECORDS = 2
MOST_ALL_RECORDS = 32
MOST_DATA = 1_440
MOST_CONNECT = 1_372
MOST_SHOWN = 64  # options in a message
# The data hold time without a choice: 100 ms, in units of 31.25 microseconds, and at least this many intervals.
USUAL_HOLD, LEAST_HOLDS = 3_200, 3


def named(item):
    """The name of a module or submodule for people, which the program ignores."""
    return {"Name": item.name} if item.name else {}


class Station:
    """An access point with what is put into its slots and subslots. `choice` has the words of the command line."""

    def __init__(self, file, choice):
        self.file, self.choice = file, choice
        self.point = file.point(choice.access_point)
        self.references = self.references_of_point()
        # The subslots that a choice was made for and that are there, by slot.
        self.known_places = set()
        if 0 not in self.point.own_slots():
            raise Refused(self.point.line, f"its access point is in slot {self.point.own_slots()}, and only slot 0 is served")
        self.point.judge()
        self.modules = self.plugged()
        # What allows a submodule that is plugged in its subslot, by slot and subslot.
        self.plugged_parts = {}
        # By slot: subslot and submodule, subslots ascending.
        self.parts = {slot: self.parts_of(slot, item) for slot, item in [(0, self.point), *self.modules.items()]}
        chosen = set(choice.submodules) - self.known_places
        if chosen:
            slot, subslot = min(chosen)
            raise Refused(self.point.line, f"nothing that takes a submodule in subslot {subslot} is in slot {slot}")
        self.judge_lengths()
        self.records = {slot: self.records_of(slot) for slot in self.parts}
        self.judge_records()
        self.judge_interval()

    def references_of_point(self):
        found = {}
        for reference in self.point.modules():
            if reference.target in found:
                raise Refused(reference.line, f"{shown(reference.target)} is named in line {found[reference.target].line} already")
            found[reference.target] = reference
        return found

    def fixed_modules(self):
        """What is fixed in a slot, and what is there unless another choice is made, each with its reference."""
        for reference in self.references.values():
            for slot in reference.fixed:
                yield slot, reference, True
            for slot in reference.used:
                if slot not in self.choice.slots:
                    yield slot, reference, False

    def plugged(self):
        """The modules by slots, ascending: those that are fixed, those that were chosen, and those that are there without a choice."""
        found, is_fixed = {}, {}
        for slot, reference, fixed in self.fixed_modules():
            if len(found) > MOST_SLOT and slot not in found:
                raise Refused(reference.line, f"it has more modules than slots 1 to {MOST_SLOT} hold")
            if slot not in found or fixed:
                found[slot], is_fixed[slot] = reference, fixed
        for slot, wanted in self.choice.slots.items():
            reference = self.reference(wanted) if wanted else None
            if is_fixed.get(slot) and found[slot] is not reference:
                raise Refused(found[slot].line, f"slot {slot} has {shown(found[slot].target)} fixed in it")
            found[slot] = reference
        for slot, reference in found.items():
            if reference is not None:
                self.judge_slot(slot, reference)
        return {slot: self.file.module(found[slot].target, found[slot].line) for slot in sorted(found) if found[slot] is not None}

    def reference(self, wanted):
        if wanted not in self.references:
            self.file.module(wanted, self.point.line)
            raise Refused(self.point.line, f"the access point {shown(self.point.id)} takes no module {shown(wanted)}")
        return self.references[wanted]

    def judge_slot(self, slot, reference):
        if slot in self.point.own_slots():
            raise Refused(self.point.line, f"slot {slot} is the access point's own")
        if slot not in self.point.physical():
            raise Refused(self.point.line, f"slot {slot} is not one of its PhysicalSlots {self.point.physical()}")
        if not reference.takes(slot):
            raise Refused(reference.line, f"{shown(reference.target)} is not allowed in slot {slot}")
        if slot > MOST_SLOT:
            way_out = f"; --slot {slot}= leaves it empty" if slot in reference.used and slot not in self.choice.slots else ""
            raise Refused(reference.line, f"slot {slot} is above {MOST_SLOT}, the last that a catalogue has{way_out}")

    def parts_of(self, slot, item):
        """The submodules of a slot: those built in, and those that are fixed, used or chosen."""
        found = {}
        for subslot, part in item.built_in():
            if subslot in found:
                raise Refused(part.line, f"subslot {subslot} has a submodule already, that of line {found[subslot].line}")
            found[subslot] = part
        for subslot, reference in self.pluggable_of(slot, item).items():
            if subslot in found:
                raise Refused(reference.line, f"subslot {subslot} has a submodule already, that of line {found[subslot].line}")
            found[subslot] = self.file.submodule(reference.target, reference.line)
            self.plugged_parts[slot, subslot] = reference
        if len(found) > MOST_PARTS:
            raise Refused(item.line, f"in slot {slot} it has {len(found)} submodules, and a catalogue has at most {MOST_PARTS}")
        for subslot, part in found.items():
            part.judge()
        return sorted(found.items())

    def pluggable_of(self, slot, item):
        """What is put into the subslots of a slot, by its reference."""
        found, references = {}, item.pluggable()
        for reference in references:
            for places in (reference.used, reference.fixed):
                for subslot in places:
                    found[subslot] = reference
                    if len(found) > MOST_PARTS:
                        raise Refused(reference.line, f"in slot {slot} it has more than {MOST_PARTS} submodules, the most that a catalogue has")
        for (at, subslot), wanted in self.choice.submodules.items():
            if at != slot or not references:
                continue
            self.known_places.add((at, subslot))
            self.choose(found, subslot, wanted, item, references)
        return {subslot: reference for subslot, reference in found.items() if reference is not None}

    def choose(self, found, subslot, wanted, item, references):
        """Puts a submodule into a subslot, or nothing."""
        reference = next((reference for reference in references if reference.target == wanted), None)
        if wanted and reference is None:
            raise Refused(item.line, f"{shown(item.id)} takes no submodule {shown(wanted)}")
        if reference is not None and not reference.takes(subslot):
            raise Refused(reference.line, f"{shown(wanted)} is not allowed in subslot {subslot}")
        if subslot in found and subslot in found[subslot].fixed and found[subslot] is not reference:
            raise Refused(found[subslot].line, f"subslot {subslot} has {shown(found[subslot].target)} fixed in it")
        found[subslot] = reference

    def judge_lengths(self):
        """The frames of both directions, and the blocks of the Connect: ARBlockReq, two IOCRBlockReq, AlarmCRBlockReq and one of each module."""
        frames, connect = {"Input": 0, "Output": 0}, 58 + len(self.choice.controller_name) + 2 * 54 + 26
        for parts in self.parts.values():
            connect += 22
            for _, part in parts:
                came, sent = part.octets("Input"), part.octets("Output")
                # An IODataObject with its IOPS in one direction, its IOCS in the other.
                frames["Input"] += (came + 1 if came or not sent else 0) + (1 if sent else 0)
                frames["Output"] += (sent + 1 if sent else 0) + (1 if came or not sent else 0)
                # The submodule with a description of each direction, and its place in each of both IOCRBlockReq.
                connect += 8 + (6 + 12) * (2 if came and sent else 1)
                for way, who in (("Input", "device"), ("Output", "controller")):
                    if frames[way] > MOST_DATA:
                        raise Refused(part.line, f"with it a frame of the {who} has {frames[way]:,} octets, and {MOST_DATA:,} is the most")
                if connect > MOST_CONNECT:
                    raise Refused(part.line, f"with it the blocks of the Connect have {connect:,} octets, and {MOST_CONNECT:,} is the most")
        self.frames, self.connect = frames, connect
        self.judge_limits()

    def judge_limits(self):
        """What the device says of its frames. Our reading of these lengths: data, IOPS and IOCS, as they are in a frame."""
        element, limits = self.point.limits()
        for name, length in (("MaxInputLength", self.frames["Input"]), ("MaxOutputLength", self.frames["Output"]), ("MaxDataLength", sum(self.frames.values()))):
            if name in limits and length > limits[name]:
                raise Refused(element.line, f"{name} is {limits[name]:,}, and what is plugged has {length:,} octets with IOPS and IOCS")

    def records_of(self, slot):
        """The records of a slot that are not left out: subslot, record and octets, in the order in which they are written."""
        found = []
        for subslot, part in self.parts[slot]:
            kept = [record for record in part.records() if (slot, subslot, record.index) not in self.choice.without]
            if len(kept) > MOST_RECORDS:
                raise Refused(kept[MOST_RECORDS].line, f"slot {slot}, subslot {subslot} has {len(kept)} records, and a catalogue has at most "
                              f"{MOST_RECORDS} of a submodule; {self.way_out(slot, subslot, kept[MOST_RECORDS])}")
            found += [(subslot, record, self.data_of(slot, subslot, record)) for record in kept]
        return found

    def data_of(self, slot, subslot, record):
        if record.length > MOST_OCTETS:
            raise Refused(record.line, f"the record has {record.length:,} octets, and a catalogue has at most {MOST_OCTETS}; {self.way_out(slot, subslot, record)}")
        given = self.choice.records.get((slot, subslot, record.index))
        if given is not None and len(given) != record.length:
            raise Refused(record.line, f"the record has {record.length} octets, and {len(given)} were given")
        if given is not None:
            return given
        try:
            return record.data()
        except Refused as fault:
            way = f"--without {slot}:{subslot}:{record.index}"
            raise Refused(fault.line, f"{fault.what}; {way} leaves the record out, --record {way[10:]}=HEX gives its octets") from None

    def way_out(self, slot, subslot, record):
        """The option that leaves a record out, and those that leave out all records that a catalogue cannot hold."""
        said, places = f"--without {slot}:{subslot}:{record.index} leaves it out", self.too_many()
        if not 1 < len(places) <= MOST_SHOWN:
            return said
        return f"{said}; all that must go: {' '.join('--without {}:{}:{}'.format(*place) for place in places)}"

    def too_many(self):
        """The records that do not fit beside those before them: each one of the access point, long ones, the third of a submodule, the 33rd of all."""
        found, kept = [], 0
        for slot, subslot, part in ((slot, subslot, part) for slot, parts in self.parts.items() for subslot, part in parts):
            held = 0
            for record in part.records():
                if (slot, subslot, record.index) in self.choice.without:
                    continue
                if slot == 0 or record.length > MOST_OCTETS or held == MOST_RECORDS or kept == MOST_ALL_RECORDS:
                    found.append((slot, subslot, record.index))
                else:
                    held, kept = held + 1, kept + 1
        return found

    def judge_records(self):
        total = 0
        for slot, records in self.records.items():
            for subslot, record, _ in records:
                total += 1
                if slot == 0:
                    raise Refused(record.line, f"it is a record of the access point, and a catalogue writes none in slot 0; {self.way_out(slot, subslot, record)}")
                if total > MOST_ALL_RECORDS:
                    raise Refused(record.line, f"it is one record more than the {MOST_ALL_RECORDS} of a catalogue; {self.way_out(slot, subslot, record)}")
        there = {(slot, subslot, record.index) for slot, parts in self.parts.items() for subslot, part in parts for record in part.records()}
        for place in sorted(set(self.choice.records) | self.choice.without - there):
            if place not in there:
                raise Refused(self.point.line, "no record {2} is in slot {0}, subslot {1}".format(*place))
            if place in self.choice.without:
                raise Refused(self.point.line, "record {2} of slot {0}, subslot {1} is left out, and cannot be given octets too".format(*place))

    def judge_interval(self):
        """The send clock and the reduction ratio, chosen of those that the device offers."""
        element, clocks, ratios = self.point.clocks()
        clock, ratio, wanted = self.choice.send_clock, self.choice.reduction, self.choice.interval
        least = self.point.least_interval()
        pairs = [(one, other) for one in clocks if one <= 128 and clock in (None, one) for other in ratios if other <= 512 and ratio in (None, other)]
        # 1 ms, the clock that each device has, first; then the smallest ratio.
        pairs.sort(key=lambda pair: (pair[0] != 32, pair[1], pair[0]))
        for one, other in pairs:
            if one * other >= least and wanted in (None, one * other):
                self.send_clock, self.ratio = one, other
                return
        asked = milliseconds(wanted) if wanted else f"send clock {clock or 'any'} and reduction {ratio or 'any'}"
        raise Refused(element.line, f"{asked} is not offered: send clock {clocks}, reduction {ratios}, at least {milliseconds(least)}")

    def catalogue(self):
        """The catalogue, its keys in the order in which they are read."""
        point, names = self.point, self.module_names()
        items = {names[slot]: {"ID": names[slot], **named(item), "ModuleIdentNumber": item.ident, "VirtualSubmoduleItem": self.parts_said(slot)}
                 for slot, item in self.modules.items()}
        references = {names[slot]: {"ModuleItemTarget": names[slot], **self.places_of(slot, names)} for slot in self.modules}
        return {
            "DeviceIdentity": {"VendorID": self.file.vendor, "DeviceID": self.file.device},
            "DeviceAccessPointItem": {
                **named(point), "ModuleIdentNumber": point.ident, "PhysicalSlots": list(point.physical()), "DNS_CompatibleName": point.station_type(),
                "MinDeviceInterval": point.least_interval(), "VirtualSubmoduleItem": self.parts_said(0), "ModuleItemRef": list(references.values()),
                **({"MultipleWriteSupported": True} if point.takes_lists() else {})},
            "ModuleItem": list(items.values()),
            **({"ChannelDiagList": self.errors()} if self.errors() else {}),
            "Project": self.project(names)}

    def errors(self):
        """What the maker calls the errors of channels. One without a number or a name is left out."""
        found = []
        for element, extended in self.file.errors():
            entry = self.error(element)
            more = [other for other in map(self.error, extended) if other]
            if entry:
                found.append({**entry, **({"ExtChannelDiagList": more} if more else {})})
        return found

    def error(self, element):
        name = self.file.error_text(element)
        try:
            return {"ErrorType": number(element, "ErrorType", 0, 65_535), "Name": name} if name else None
        except Refused:
            return None

    def module_names(self):
        """The ID of each module in the catalogue. One that takes submodules, or of which other records are left out, has its own in a slot."""
        names, said = {}, {}
        for slot, item in self.modules.items():
            is_same = not item.pluggable() and said.setdefault(item.id, self.parts_said(slot)) == self.parts_said(slot)
            names[slot] = item.id if is_same else f"{item.id} in slot {slot}"
        return names

    def places_of(self, slot, names):
        """In which slots a module may be, as the catalogue says it. Of the slots up to 15 alone: the others take nothing."""
        target = self.modules[slot].id
        reference = self.references[target]
        open_slots = [at for at in self.point.physical() if at <= MOST_SLOT and at not in self.point.own_slots() and reference.takes(at)]
        if names[slot] != target:
            open_slots = [slot]
        fixed = [at for at in open_slots if at in reference.fixed and names.get(at) == names[slot]]
        allowed = [at for at in open_slots if at not in reference.fixed]
        return {**({"AllowedInSlots": allowed} if allowed else {}), **({"FixedInSlots": fixed} if fixed else {})}

    def parts_said(self, slot):
        said = []
        for subslot, part in self.parts[slot]:
            entry = {"Subslot": subslot, **named(part), "SubmoduleIdentNumber": part.ident}
            data = {way: part.data(way) for way in ("Input", "Output") if part.data(way)}
            if data:
                entry["IOData"] = data
            records = sorted((record.index, record.length) for at, record, _ in self.records[slot] if at == subslot)
            if records:
                entry["ParameterRecordDataItem"] = [{"Index": index, "Length": length} for index, length in records]
            said.append(entry)
        return said

    def data_hold(self):
        """After how many intervals without a frame a relation ends. A controller or a device that is no machine of its own is late by some
        milliseconds now and then."""
        return self.choice.data_hold or max(LEAST_HOLDS, -(-USUAL_HOLD // (self.send_clock * self.ratio)))

    def project(self, names):
        choice = self.choice
        slots = []
        for slot, name in names.items():
            entry = {"Slot": slot, "ModuleItemTarget": name}
            if self.records[slot]:
                entry["Records"] = [{"Subslot": subslot, "Index": record.index, "Data": data.hex()} for subslot, record, data in self.records[slot]]
            slots.append(entry)
        said = {
            "NameOfStation": choice.name, "IPAddress": choice.address, "SubnetMask": choice.mask, "Gateway": choice.gateway,
            "Controller": {"NameOfStation": choice.controller_name, "MAC": choice.controller_mac, "IPAddress": choice.controller_address},
            "SendClockFactor": self.send_clock, "ReductionRatio": self.ratio, "DataHoldFactor": self.data_hold(), "Slots": slots}
        key = {"continue": "ContinueOnRefusedRecord", "release": "ReleaseOnRefusedRecord"}.get(choice.refused)
        after_plug = {"ParametersAfterPlug": True} if choice.after_plug == "parameters" else {}
        start = {"PersistentStart": True} if choice.start == "persistent" else {}
        return {**said, **({key: True} if key else {}), **after_plug, **start, "Signals": naming.of_station(self)}
