"""./pnscript catalogue: what a GSDML file offers, or the catalogue of a station of it."""

import difflib
import ipaddress
import json
import re

from . import judge, offer, signals
from .device import File
from .elements import LONGEST, Refused, read
from .station import Station
from .values import shown

USAGE = """\
./pnscript catalogue GSDML [--access-point ID]

prints what the file offers: its access points, their slots, modules and
submodules. With more words it prints the catalogue of a station:

    --access-point ID             which access point; not needed if there is one
    --slot SLOT=MODULE            puts a module into a slot; '--slot SLOT='
                                  leaves one empty that is used without a choice
    --submodule SLOT:SUBSLOT=ID   the same of a submodule that can be plugged
    --name NAME                   the name of the station        (must be given)
    --address ADDRESS             its IP address                 (must be given)
    --mask MASK                   255.255.255.0 without it
    --gateway ADDRESS             0.0.0.0 without it: none
    --controller-name NAME        the name of the controller     (must be given)
    --controller-mac MAC          its MAC address                (must be given)
    --controller-address ADDRESS  its IP address                 (must be given)
    --interval-ms MS              the interval of cyclic frames; without it the
                                  shortest that the device offers at a send
                                  clock of 1 ms
    --send-clock N                the send clock in units of 31.25 microseconds
    --reduction N                 the reduction ratio
    --data-hold N                 after how many intervals without a frame a
                                  relation ends; without it as many as 100 ms
                                  have, and at least 3
    --on-refused-record WHAT      what the controller does if the device refuses
                                  a record: 'end' (without it), 'release' (it
                                  ends, and releases the relation) or 'continue'
    --after-plug WHAT             what the controller does after a submodule was
                                  plugged: 'parameters' (it writes the records
                                  again) or 'nothing' (without it)
    --start WHAT                  what the controller does if the device holds
                                  its relation already, or is busy: 'persistent'
                                  (it releases the relation, so that the next
                                  start succeeds, and asks again each second)
                                  or 'plain' (it ends; without it)
    --record SLOT:SUBSLOT:INDEX=HEX
                                  the octets of a parameter record, in place of
                                  those by default
    --without SLOT:SUBSLOT:INDEX  leaves a parameter record out
    --names-of CATALOGUE          signals keep the names that they have in this
                                  catalogue

A file or a choice that a catalogue cannot hold is refused, with the line of the
element: status 65. docs/PLANS.md has a walk.
"""

WRONG_WORDS, WRONG_FILE, NO_FILE = 64, 65, 1
TEXTS = {"--access-point": "access_point", "--name": "name", "--address": "address", "--mask": "mask", "--gateway": "gateway",
         "--controller-name": "controller_name", "--controller-mac": "controller_mac", "--controller-address": "controller_address",
         "--interval-ms": "interval", "--send-clock": "send_clock", "--reduction": "reduction", "--data-hold": "data_hold",
         "--on-refused-record": "refused", "--after-plug": "after_plug", "--start": "start", "--names-of": "names_of"}
LISTS = {"--slot": "slots", "--submodule": "submodules", "--record": "records", "--without": "without"}
NEEDED = ("--name", "--address", "--controller-name", "--controller-mac", "--controller-address")


class WrongWords(Exception):
    pass


class Choice:
    """What was chosen: each word's value, judged by itself."""

    def __init__(self, words):
        self.access_point = self.name = self.address = self.controller_name = self.controller_mac = self.controller_address = None
        self.mask, self.gateway, self.data_hold = "255.255.255.0", "0.0.0.0", None
        self.interval = self.send_clock = self.reduction = None
        self.refused, self.after_plug, self.start = "end", "nothing", "plain"
        self.names_of, self.kept_signals = None, []
        self.slots, self.submodules, self.records, self.without = {}, {}, {}, set()
        self.named = set()
        if len(words) % 2:
            raise WrongWords(f"'{words[-1]}' lacks its value")
        for word, value in zip(words[::2], words[1::2]):
            self.take(word, value)

    def take(self, word, value):
        if word in TEXTS:
            if word in self.named:
                raise WrongWords(f"{word} is given twice")
            setattr(self, TEXTS[word], self.judged(word, value))
        elif word in LISTS:
            self.put(word, value)
        else:
            near = difflib.get_close_matches(word, [*TEXTS, *LISTS], 1)
            raise WrongWords(f"there is no '{word}'" + (f"; did you mean {near[0]}?" if near else ""))
        self.named.add(word)

    @staticmethod
    def judged(word, value):
        if word.endswith("address") or word in ("--mask", "--gateway"):
            return address(word, value)
        if word == "--controller-mac":
            return mac(word, value)
        if word.endswith("name"):
            return name(word, value)
        if word == "--interval-ms":
            return interval(word, value)
        if word in ("--access-point", "--names-of"):
            return value
        if word == "--on-refused-record":
            if value not in ("end", "release", "continue"):
                raise WrongWords(f"{word} is 'end', 'release' or 'continue', and '{shown(value)}' is not")
            return value
        if word == "--after-plug":
            if value not in ("parameters", "nothing"):
                raise WrongWords(f"{word} is 'parameters' or 'nothing', and '{shown(value)}' is not")
            return value
        if word == "--start":
            if value not in ("persistent", "plain"):
                raise WrongWords(f"{word} is 'persistent' or 'plain', and '{shown(value)}' is not")
            return value
        return number(word, value, 1, {"--send-clock": 128, "--reduction": 512, "--data-hold": 7_680}[word])

    def put(self, word, value):
        """A choice of which there may be many: its place, and what is put there."""
        place, is_given, what = value.partition("=")
        parts = {"--slot": ("slot",), "--submodule": ("slot", "subslot")}.get(word, ("slot", "subslot", "index"))
        if not re.fullmatch(":".join(["[0-9]{1,5}"] * len(parts)), place) or bool(is_given) == (word == "--without"):
            raise WrongWords(f"it is '{word} {':'.join(parts).upper()}{'' if word == '--without' else '=VALUE'}', and '{value}' is not")
        place = tuple(map(int, place.split(":")))
        place = place[0] if len(place) == 1 else place
        kept = getattr(self, LISTS[word])
        if place in kept:
            raise WrongWords(f"{word} {value.partition('=')[0]} is given twice")
        if word == "--without":
            kept.add(place)
        elif word == "--record":
            if not re.fullmatch(r"([0-9A-Fa-f]{2}){1,64}", what):
                raise WrongWords(f"a record is 1 to 64 octets in hex, and '{shown(what)}' is not")
            kept[place] = bytes.fromhex(what)
        else:
            kept[place] = what

    def needs(self):
        return [word for word in NEEDED if word not in self.named]

    def judge(self):
        """What two words say together."""
        lacking = self.needs()
        if lacking:
            raise WrongWords(f"a station needs {', '.join(lacking)}")
        if self.interval and (self.send_clock or self.reduction):
            raise WrongWords("--interval-ms says both --send-clock and --reduction")
        if self.address == "0.0.0.0":
            self.mask = self.mask if "--mask" in self.named else "0.0.0.0"
        mask = int(ipaddress.IPv4Address(self.mask))
        is_mask = (mask | mask - 1) == 0xFFFFFFFF if mask else True
        is_suite = is_host(self.address) or (self.address, self.mask, self.gateway) == ("0.0.0.0",) * 3
        if not is_mask or not is_suite:
            raise WrongWords(f"address {self.address}, mask {self.mask} and gateway {self.gateway} are no IP suite of a station")
        if not is_host(self.controller_address):
            raise WrongWords(f"--controller-address {self.controller_address} is no address of a host")
        for word, given in (("--address", self.address), ("--controller-address", self.controller_address)):
            self.judge_subnet(word, int(ipaddress.IPv4Address(given)), mask)

    def read_names(self):
        """Reads the signals whose names are kept."""
        if self.names_of is not None:
            with open(self.names_of, "rb") as file:
                octets = file.read(signals.LONGEST + 1)
            if len(octets) > signals.LONGEST:
                raise signals.Refused(f"a catalogue has at most {signals.LONGEST:,} octets")
            _, self.kept_signals = signals.of_catalogue(octets)

    def judge_subnet(self, word, given, mask):
        """An address of the subnet is one of a host there, not that of all of its hosts or of the subnet itself."""
        hosts = mask ^ 0xFFFFFFFF
        is_inside = given & mask == int(ipaddress.IPv4Address(self.address)) & mask
        if self.address != "0.0.0.0" and hosts > 1 and is_inside and given & hosts in (0, hosts):
            which = "the broadcast address" if given & hosts else "the address"
            raise WrongWords(f"{word} {ipaddress.IPv4Address(given)} is {which} of its subnet, with the mask {self.mask}")


def is_host(text):
    first = int(text.split(".")[0])
    return 1 <= first <= 126 or 128 <= first <= 223


def address(word, value):
    try:
        return str(ipaddress.IPv4Address(value))
    except ValueError:
        raise WrongWords(f"{word} is an IPv4 address, and '{value}' is not") from None


def mac(word, value):
    is_made = re.fullmatch(r"[0-9A-Fa-f]{2}([:-])[0-9A-Fa-f]{2}(\1[0-9A-Fa-f]{2}){4}", value)
    if not is_made or int(value[:2], 16) % 2 or not value.strip("0:-"):
        raise WrongWords(f"{word} is the MAC address of one station, as 02-00-00-00-00-02, and '{value}' is not")
    return value.replace(":", "-")


def name(word, value):
    """A station name (IEC 61158-6-10, 4.3.1.4.15)."""
    labels = value.split(".")
    is_name = len(value) <= 240 and all(re.fullmatch(r"[a-z0-9]([a-z0-9-]{0,61}[a-z0-9])?", label) for label in labels)
    looks_else = re.fullmatch(r"([0-9]{1,3}\.){3}[0-9]{1,3}", value) or re.fullmatch(r"port-[0-9]{3}(-[0-9]{5})?", labels[0])
    if not is_name or looks_else:
        raise WrongWords(f"{word} is a station name, labels of a to z, 0 to 9 and '-' joined by '.', and '{shown(value)}' is not")
    return value


def number(word, value, least, most):
    if not re.fullmatch("[0-9]{1,6}", value) or not least <= int(value) <= most:
        raise WrongWords(f"{word} is a number from {least} to {most:,}, and '{value}' is not")
    return int(value)


def interval(word, value):
    """An interval in units of 31.25 microseconds."""
    if re.fullmatch(r"[0-9]{1,4}(\.[0-9]{1,5})?", value):
        units = round(float(value) * 32 * 100_000) / 100_000
        if units == int(units) and 1 <= units <= 65_536:
            return int(units)
    raise WrongWords(f"{word} is a multiple of 0.03125 up to 2048, and '{value}' is not")


def text_of(catalogue):
    """The catalogue as JSON, with each list of numbers on one line, and each signal."""
    project = catalogue["Project"]
    text = json.dumps({**catalogue, "Project": {**project, "Signals": []}}, indent=2)
    entries = ",\n".join(f"      {json.dumps(entry, ensure_ascii=False)}" for entry in project["Signals"])
    if entries:
        text = text.replace('"Signals": []', f'"Signals": [\n{entries}\n    ]')
    return re.sub(r"\[\n\s*([0-9]+(?:,\n\s*[0-9]+)*)\n\s*\]", lambda found: "[" + re.sub(r",\s+", ", ", found[1]) + "]", text)


def run(words, say):
    """Does what the words ask for. Gives its status."""
    if words in (["--help"], ["-h"]):
        print(USAGE, end="")
        return 0
    try:
        if not words or words[0].startswith("-"):
            raise WrongWords("the first word is the GSDML file")
        choice = Choice(words[1:])
        asks_for_offer = not choice.named - {"--access-point"}
        if not asks_for_offer:
            choice.judge()
            choice.read_names()
        with open(words[0], "rb") as file:
            octets = file.read(LONGEST + 1)
        found = File(read(octets))
        if asks_for_offer:
            print("\n".join(offer.lines(found, choice.access_point)))
        else:
            print(text_of(Station(found, choice).catalogue()))
        return 0
    except WrongWords as fault:
        say(f"catalogue: {fault}; ./pnscript catalogue --help has the words")
        return WRONG_WORDS
    except OSError as fault:
        say(f"{fault.filename}: {fault.strerror}")
        return NO_FILE
    except judge.Fault as fault:
        say(f"{choice.names_of}: {fault.said()}")
        return WRONG_FILE
    except (signals.Refused, RecursionError) as fault:
        say(f"{choice.names_of}: {fault}")
        return WRONG_FILE
    except Refused as fault:
        say(f"{words[0]}:{fault.line}: {fault.what}")
        return WRONG_FILE
