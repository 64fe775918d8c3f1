"""Which fault a catalogue has, and at which key, by the rules of docs/PLANS.md. The program judges by itself and prints only the number of
the fault; this says the rest, for a message. It needs no program, and shares no line with one.
"""

import json
import re

from planning.keys import wants

JSON, MISSING, KIND, NUMBER, ALLOWED, MANY, FRAME, CONNECT, NAME, ADDRESS = range(1, 11)
WORDS = {
    JSON: "it is no JSON",
    MISSING: "a key is missing",
    ALLOWED: "a module is not allowed in its slot",
    NAME: "it is not a station name (letters a to z, digits and hyphens; labels of at most 63 joined by dots, 240 in all)",
    ADDRESS: "an address is not valid",
}
OCTETS = {"Unsigned8": 1, "Integer8": 1, "Unsigned16": 2, "Integer16": 2, "Unsigned32": 4, "Integer32": 4, "Float32": 4}
MOST_U64 = 2**64 - 1
LAST_SLOT, MOST_SUBMODULES, MOST_PARAMETERS, MOST_RECORDS = 15, 4, 2, 32
MOST_DATA, MOST_BLOCKS = 1_440, 1_372


class Fault(Exception):
    """A fault: its number, and the steps to the key, the last one first."""

    def __init__(self, number, *place, where="", text=None):
        super().__init__(number)
        self.number, self.steps, self.where, self.text = number, list(place), where, text

    def further(self, step):
        self.steps.append(step)
        return self

    def place(self):
        """The key, as `Project.Slots[1].Slot`; empty if the fault is not that of one key."""
        return "".join(f"[{step}]" if isinstance(step, int) else f".{step}" for step in reversed(self.steps)).removeprefix(".")

    def said(self):
        """The fault in words, with its place."""
        place = self.place()
        text = self.text or WORDS.get(self.number) or f"it must be {wants(self.steps[::-1])}"
        return (f"at {place}: " if place else "") + text + (f" ({self.where})" if self.where else "")


class NoWhole:
    """A number that is not a whole one from 0 to 2^64 - 1."""


def whole_of(text):
    number = int(text) if not text.startswith("-") and len(text) <= 20 else MOST_U64 + 1
    return number if number <= MOST_U64 else NoWhole()


def real_of(text):
    if abs(float(text)) == float("inf"):
        raise ValueError("a number is too large")
    return NoWhole()


def no_constant(text):
    raise ValueError(f"{text} is no JSON")


def tree_of(octets):
    """What the JSON is."""
    try:
        text = octets.decode("utf-8")
        tree = json.loads(text, parse_int=whole_of, parse_float=real_of, parse_constant=no_constant)
        # Half of a pair of surrogates is no character.
        json.dumps(tree, ensure_ascii=False, default=lambda _: 0).encode("utf-8")
        return tree
    except json.JSONDecodeError as fault:
        raise Fault(JSON, where=f"line {fault.lineno}, column {fault.colno}: {fault.msg}") from None
    except ValueError:
        raise Fault(JSON) from None


def member(tree, key):
    if not isinstance(tree, dict):
        raise Fault(KIND)
    if key not in tree:
        raise Fault(MISSING, key)
    return tree[key]


def whole(value):
    if not isinstance(value, int) or isinstance(value, bool):
        raise Fault(KIND)
    return value


def number(value, least, most):
    if not least <= whole(value) <= most:
        raise Fault(NUMBER)
    return value


def at(step, judge, *given):
    """What is judged one step further in."""
    try:
        return judge(*given)
    except Fault as fault:
        raise fault.further(step) from None


def number_at(tree, key, least, most):
    return at(key, number, member(tree, key), least, most)


def text_at(tree, key):
    value = member(tree, key)
    if not isinstance(value, str):
        raise Fault(KIND, key)
    return value


def items_at(tree, key):
    if not isinstance(tree, dict):
        raise Fault(KIND)
    value = tree.get(key, [])
    if not isinstance(value, list):
        raise Fault(KIND, key)
    return value


def flag_at(tree, key):
    value = tree.get(key, False)
    if not isinstance(value, bool):
        raise Fault(KIND, key)
    return value


def each(judge, trees):
    """The entries of a list, each judged after those before it."""
    found = []
    for index, tree in enumerate(trees):
        found.append(at(index, judge, found, tree))
    return found


def list_at(tree, key, judge):
    return at(key, each, judge, items_at(tree, key))


def data_item(_, tree):
    kind = text_at(tree, "DataType")
    if kind == "OctetString":
        return number_at(tree, "Length", 1, 1_440)
    if kind not in OCTETS:
        raise Fault(KIND, "DataType")
    return OCTETS[kind]


def io_data(tree):
    return sum(list_at(tree, "Input", data_item)), sum(list_at(tree, "Output", data_item))


def parameter(before, tree):
    index = number_at(tree, "Index", 0, 32_767)
    if any(index == other for other, _ in before):
        raise Fault(NUMBER, "Index", text=f"{index} is listed twice")
    return index, number_at(tree, "Length", 1, 64)


def submodule(before, tree):
    subslot = number_at(tree, "Subslot", 1, 36_863)
    if any(subslot == other["subslot"] for other in before):
        raise Fault(NUMBER, "Subslot", text=f"{subslot} is listed twice")
    number_at(tree, "SubmoduleIdentNumber", 0, 0xFFFFFFFF)
    came, sent = at("IOData", io_data, tree["IOData"]) if "IOData" in tree else (0, 0)
    return {"subslot": subslot, "input": came, "output": sent, "parameters": list_at(tree, "ParameterRecordDataItem", parameter)}


def reference(_, tree):
    slots = lambda key: list_at(tree, key, lambda _, value: whole(value))
    return {"target": text_at(tree, "ModuleItemTarget"), "allowed": slots("AllowedInSlots"), "fixed": slots("FixedInSlots")}


def access_point(tree):
    number_at(tree, "ModuleIdentNumber", 1, 0xFFFFFFFF)
    # First each is a whole number, then each is in its range.
    list_at(tree, "PhysicalSlots", lambda _, value: whole(value))
    physical = list_at(tree, "PhysicalSlots", lambda _, value: number(value, 0, 32_767))
    text_at(tree, "DNS_CompatibleName")
    least = number_at(tree, "MinDeviceInterval", 1, 65_536)
    submodules = list_at(tree, "VirtualSubmoduleItem", submodule)
    references = list_at(tree, "ModuleItemRef", reference)
    flag_at(tree, "MultipleWriteSupported")
    return {"physical": physical, "least": least, "submodules": submodules, "references": references}


def module(before, tree):
    name = text_at(tree, "ID")
    if any(name == other["id"] for other in before):
        raise Fault(NUMBER, "ID", text=f"'{shown(name)}' is listed twice")
    number_at(tree, "ModuleIdentNumber", 1, 0xFFFFFFFF)
    return {"id": name, "submodules": list_at(tree, "VirtualSubmoduleItem", submodule)}


def shown(text):
    """A text of the catalogue on one line, not too long."""
    text = "".join(letter if letter.isprintable() else "?" for letter in text)
    return text if len(text) <= 80 else f"{text[:77]}..."


def record(target, submodules, tree):
    subslot = number_at(tree, "Subslot", 1, 36_863)
    if submodules is None:
        raise Fault(NUMBER, "Subslot", text=f"there is no ModuleItem with the ID '{shown(target)}', which ModuleItemTarget names")
    parameters = next((part["parameters"] for part in submodules if part["subslot"] == subslot), None)
    if parameters is None:
        raise Fault(NUMBER, "Subslot", text=f"'{shown(target)}' has no submodule in subslot {subslot}")
    index = number_at(tree, "Index", 0, 32_767)
    length = dict(parameters).get(index)
    if length is None:
        raise Fault(NUMBER, "Index", text=f"subslot {subslot} of '{shown(target)}' has no record with the index {index} (ParameterRecordDataItem)")
    data = text_at(tree, "Data")
    if not re.fullmatch(r"([0-9A-Fa-f]{2})*", data):
        raise Fault(KIND, "Data")
    if len(data) != 2 * length:
        raise Fault(NUMBER, "Data", text=f"the record has {length} octets, and Data has {len(data) // 2}")


def slot(modules, tree):
    place = at("Slot", whole, member(tree, "Slot"))
    target = text_at(tree, "ModuleItemTarget")
    submodules = next((item["submodules"] for item in modules if item["id"] == target), None)
    records = list_at(tree, "Records", lambda _, entry: record(target, submodules, entry))
    return {"slot": place, "target": target, "records": len(records)}


def told(tree):
    """What a controller says of itself to tools."""
    identity(tree)
    if not re.fullmatch("[ -~]{1,25}", text_at(tree, "DNS_CompatibleName")):
        raise Fault(NUMBER, "DNS_CompatibleName")


def controller_of(tree):
    texts = {key: text_at(tree, key) for key in ("NameOfStation", "MAC", "IPAddress")}
    if "Identity" in tree:
        at("Identity", told, tree["Identity"])
    return texts


def project(tree, least, modules):
    texts = {key: text_at(tree, key) for key in ("NameOfStation", "IPAddress", "SubnetMask", "Gateway")}
    controller = member(tree, "Controller")
    texts["Controller"] = at("Controller", lambda: controller_of(controller))
    clock = number_at(tree, "SendClockFactor", 1, 128)
    ratio = number_at(tree, "ReductionRatio", 1, 512)
    if clock * ratio < least:
        raise Fault(NUMBER, "ReductionRatio", text=f"SendClockFactor {clock} times ReductionRatio {ratio} is {clock * ratio}, less than MinDeviceInterval {least}")
    number_at(tree, "DataHoldFactor", 1, 7_680)
    slots = list_at(tree, "Slots", lambda _, entry: slot(modules, entry))
    flag_at(tree, "ContinueOnRefusedRecord")
    flag_at(tree, "ReleaseOnRefusedRecord")
    flag_at(tree, "ParametersAfterPlug")
    flag_at(tree, "PersistentStart")
    return texts, slots


def identity(tree):
    number_at(tree, "VendorID", 0, 0xFFFF)
    number_at(tree, "DeviceID", 0, 0xFFFF)


def is_name(text):
    """A station name (IEC 61158-6-10, 4.3.1.4.15)."""
    labels = text.split(".")
    is_made = len(text) <= 240 and all(re.fullmatch(r"[a-z0-9]([a-z0-9-]{0,61}[a-z0-9])?", label) for label in labels)
    looks_else = re.fullmatch(r"([0-9]{1,3}\.){3}[0-9]{1,3}", text) or any(re.fullmatch(r"port-[0-9]{3}(-[0-9]{5})?", label) for label in labels[:1])
    return bool(is_made) and not looks_else


def octets_in(text):
    """The octets of an address in dotted decimal, without leading zeros, or None."""
    if not re.fullmatch(r"(0|[1-9][0-9]{0,2})(\.(0|[1-9][0-9]{0,2})){3}", text):
        return None
    octets = [int(part) for part in text.split(".")]
    return octets if max(octets) <= 255 else None


def is_host(octets):
    return 1 <= octets[0] <= 126 or 128 <= octets[0] <= 223


def is_suite(address, mask, gateway):
    """Whether these are the IP suite of a station: the mask is ones and then zeros, and all are zero or the address is that of a host."""
    if None in (address, mask, gateway):
        return False
    bits = int.from_bytes(bytes(mask), "big")
    holes = ~bits & 0xFFFFFFFF
    is_none = not any(address + mask + gateway)
    return is_none or bits != 0 and holes & holes + 1 == 0 and is_host(address)


def judge_names(texts):
    if not is_name(texts["NameOfStation"]):
        raise Fault(NAME, "NameOfStation", "Project")
    if not is_name(texts["Controller"]["NameOfStation"]):
        raise Fault(NAME, "NameOfStation", "Controller", "Project")


def judge_addresses(texts):
    controller, address = texts["Controller"], octets_in(texts["Controller"]["IPAddress"])
    is_mac = re.fullmatch(r"[0-9A-Fa-f]{2}(-[0-9A-Fa-f]{2}){5}", controller["MAC"]) and int(controller["MAC"][:2], 16) % 2 == 0
    suite = (octets_in(texts[key]) for key in ("IPAddress", "SubnetMask", "Gateway"))
    if not is_suite(*suite):
        raise Fault(ADDRESS, where=f"Project: IPAddress '{shown(texts['IPAddress'])}', SubnetMask '{shown(texts['SubnetMask'])}' and Gateway "
                    f"'{shown(texts['Gateway'])}' are no IP suite of a station")
    if not is_mac:
        raise Fault(ADDRESS, where=f"Project.Controller: MAC '{shown(controller['MAC'])}' is not that of one station, as 02-00-00-00-00-02")
    if address is None or not is_host(address):
        raise Fault(ADDRESS, where=f"Project.Controller: IPAddress '{shown(controller['IPAddress'])}' is not that of a host")


class Station:
    """What is plugged in the slots of a station."""

    def __init__(self, point, modules, slots):
        self.point, self.slots = point, slots
        self.modules = {item["id"]: item["submodules"] for item in modules}

    def why_not(self, place, target):
        """Why a module may not be in a slot, or nothing if it may."""
        takes = any(target == item["target"] and place in item["allowed"] + item["fixed"] for item in self.point["references"])
        other = next((item["target"] for item in self.point["references"] if target != item["target"] and place in item["fixed"]), None)
        if target not in self.modules:
            return f"slot {place}: there is no ModuleItem with the ID '{shown(target)}'"
        if place == 0:
            return "slot 0 is that of the access point"
        if place not in self.point["physical"]:
            return f"slot {place} is not one of PhysicalSlots"
        if other is not None:
            return f"slot {place} has '{shown(other)}' fixed in it (FixedInSlots), and not '{shown(target)}'"
        return "" if takes else f"slot {place} is in neither AllowedInSlots nor FixedInSlots of '{shown(target)}'"

    def used(self):
        """Each slot that is used with its module: those that modules are put into, and those that they are fixed in."""
        put = [(entry["slot"], entry["target"]) for entry in self.slots]
        return put, [(place, item["target"]) for item in self.point["references"] for place in item["fixed"]]

    def plugged(self):
        """The submodules in each slot that is used, that of the access point first."""
        put, fixed = self.used()
        found = {place: self.modules[target] for place, target in [*reversed(fixed), *reversed(put)] if target in self.modules}
        return {0: self.point["submodules"], **found}

    def judge(self):
        put, fixed = self.used()
        places = [place for place, _ in put]
        reason = next((reason for one in put + fixed if (reason := self.why_not(*one))), "")
        twice = next((place for index, place in enumerate(places) if place in places[:index]), None)
        if reason or twice is not None:
            raise Fault(ALLOWED, where=reason or f"slot {twice} is in Slots twice")
        too_many = next(self.too_many([place for place, _ in put + fixed]), None)
        if too_many:
            raise Fault(MANY, text=too_many)
        return self.plugged()

    def too_many(self, used):
        """What there is more of than a plan can have."""
        yield from (f"slot {place} is used, and {LAST_SLOT} is the last one" for place in used if place > LAST_SLOT)
        for place, parts in sorted(self.plugged().items()):
            if len(parts) > MOST_SUBMODULES:
                yield f"slot {place} has {len(parts)} submodules, and {MOST_SUBMODULES} is the most"
            yield from (f"slot {place} subslot {part['subslot']} has {len(part['parameters'])} of ParameterRecordDataItem, and {MOST_PARAMETERS} is the most"
                        for part in parts if len(part["parameters"]) > MOST_PARAMETERS)
        records = sum(entry["records"] for entry in self.slots)
        if records > MOST_RECORDS:
            yield f"there are {records} Records, and {MOST_RECORDS} is the most"


def judge_lengths(plugged, controller):
    """Whether the cyclic frames and the Connect fit."""
    parts = [part for submodules in plugged.values() for part in submodules]
    frames, places, descriptions = [0, 0], 0, 0
    for part in parts:
        came, sent = part["input"], part["output"]
        comes, goes = came > 0 or sent == 0, sent > 0
        # Data with its IOPS one way, and an IOCS the other.
        frames[0] += (comes and came + 1) + goes
        frames[1] += (goes and sent + 1) + comes
        places += 2 * (comes + goes)
        descriptions += comes + goes
    for octets, sender in zip(frames, ("device", "controller")):
        if octets > MOST_DATA:
            raise Fault(FRAME, text=f"the cyclic frames of the {sender} would have {octets:,} octets, and {MOST_DATA:,} is the most")
    # ARBlockReq, both IOCRBlockReq with their places, AlarmCRBlockReq, and an ExpectedSubmoduleBlockReq for each slot.
    blocks = 58 + len(controller["NameOfStation"]) + 2 * 54 + 6 * places + 26 + 22 * len(plugged) + 8 * len(parts) + 6 * descriptions
    if blocks > MOST_BLOCKS:
        raise Fault(CONNECT, text=f"the blocks of the Connect would have {blocks:,} octets, and {MOST_BLOCKS:,} is the most")


def judge(octets):
    """The submodules in each slot. Raises the first fault of a catalogue, if it has one."""
    tree = tree_of(octets)
    at("DeviceIdentity", identity, member(tree, "DeviceIdentity"))
    point = at("DeviceAccessPointItem", access_point, member(tree, "DeviceAccessPointItem"))
    modules = list_at(tree, "ModuleItem", module)
    texts, slots = at("Project", project, member(tree, "Project"), point["least"], modules)
    judge_names(texts)
    judge_addresses(texts)
    plugged = Station(point, modules, slots).judge()
    judge_lengths(plugged, texts["Controller"])
    return plugged


def fault_of(octets):
    """The first fault of a catalogue, or None: it has a plan, or is nested too deep to say."""
    try:
        judge(octets)
        return None
    except Fault as fault:
        return fault
    except RecursionError:
        return None
