"""The values of GSDML's attributes: numbers, lists of numbers, octets, and what a parameter is by default."""

import math
import re
import struct

from .elements import Refused

OCTET_STRING = "OctetString"
# The types of a parameter (Ref), whose octets alone reach the device. A list says the form of struct.
NUMBERS = {"Unsigned8": ">B", "Unsigned16": ">H", "Unsigned32": ">I", "Unsigned64": ">Q",
           "Integer8": ">b", "Integer16": ">h", "Integer32": ">i", "Integer64": ">q"}
FLOATS = {"Float32": ">f", "Float64": ">d"}


def shown(text):
    """A text of the file on one line, not too long."""
    text = "".join(letter if letter.isprintable() else "?" for letter in text)
    return text if len(text) <= 80 else f"{text[:77]}..."


def number(element, name, least, most, default=None):
    """An attribute of decimal digits. Without a default it must be there."""
    text = element.text(name) if default is None else element.get(name, str(default))
    if not re.fullmatch(r"\s*[0-9]{1,10}\s*", text) or not least <= int(text) <= most:
        raise Refused(element.line, f"{name} is a number from {least:,} to {most:,}, and '{shown(text)}' is not")
    return int(text)


def ident(element, name, digits=8):
    """An attribute in hex, as GSDML writes ident numbers: 0x00000001."""
    text = element.text(name)
    if not re.fullmatch(rf"\s*0[xX][0-9A-Fa-f]{{1,{digits}}}\s*", text):
        raise Refused(element.line, f"{name} is 0x and at most {digits} hex digits, and '{shown(text)}' is not")
    return int(text, 16)


class Numbers:
    """Some numbers, kept as ranges: a hostile file could name very many."""

    def __init__(self, pairs):
        self.pairs = []
        for first, last in sorted(pairs):
            if self.pairs and first <= self.pairs[-1][1] + 1:
                self.pairs[-1][1] = max(last, self.pairs[-1][1])
            else:
                self.pairs.append([first, last])

    def up_to(self, most):
        """Those of them up to a number."""
        return Numbers((first, min(last, most)) for first, last in self.pairs if first <= most)

    def __contains__(self, wanted):
        return any(first <= wanted <= last for first, last in self.pairs)

    def __iter__(self):
        return (number for first, last in self.pairs for number in range(first, last + 1))

    def both(self, other):
        """The numbers that are in another list too, ascending."""
        mine, theirs = iter(self.pairs), iter(other.pairs)
        one, two = next(mine, None), next(theirs, None)
        while one and two:
            yield from range(max(one[0], two[0]), min(one[1], two[1]) + 1)
            if one[1] < two[1]:
                one = next(mine, None)
            else:
                two = next(theirs, None)

    def __len__(self):
        return sum(last - first + 1 for first, last in self.pairs)

    def __str__(self):
        return " ".join(str(first) if first == last else f"{first}{' ' if first + 1 == last else '..'}{last}" for first, last in self.pairs) or "none"


def values(element, name, most, default=()):
    """An attribute that lists numbers and ranges, as in '0..3 7'. Without it, the default."""
    pairs = []
    for word in element.get(name, "").split():
        parts = re.fullmatch(r"([0-9]{1,10})(?:\.\.([0-9]{1,10}))?", word)
        first, last = (int(parts[1]), int(parts[2] or parts[1])) if parts else (1, 0)
        if not first <= last <= most:
            raise Refused(element.line, f"{name} lists numbers up to {most:,} and ranges of them, as '0..3 7', and '{shown(word)}' is not one")
        pairs.append((first, last))
    return Numbers(pairs if name in element.attributes else [(number, number) for number in default])


def octets(element, name):
    """An attribute of octets in hex, parted by commas."""
    words = [word.strip() for word in element.text(name).split(",")]
    if not all(re.fullmatch(r"0[xX][0-9A-Fa-f]{1,2}", word) for word in words):
        raise Refused(element.line, f"{name} is octets as 0x01,0x02, and '{shown(element.get(name))}' is not")
    return bytes(int(word, 16) for word in words)


def whole(reference, text):
    if not re.fullmatch(r"\s*[-+]?[0-9]{1,20}\s*", text):
        raise Refused(reference.line, f"DefaultValue is a whole number, and '{shown(text)}' is not")
    return int(text)


def bits(reference, kind, text):
    """The place and the value of a bit or of a bit area: the number of its first bit, how many it has, and its value."""
    first = number(reference, "BitOffset", 0, 7, 0)
    length = 1 if kind == "Bit" else number(reference, "BitLength", 1, 16, 1)
    if first + length > 8:
        raise Refused(reference.line, f"a BitArea of {length} bits from bit {first} on reaches into a second octet, which is not read")
    value = whole(reference, text)
    if not 0 <= value < 1 << length:
        raise Refused(reference.line, f"DefaultValue {value} does not fit {length} bits")
    return first, length, value


def real(reference, kind, text):
    try:
        value = float(text)
        packed = struct.pack(FLOATS[kind], value)
    except (ValueError, OverflowError):
        value = math.nan
    if not math.isfinite(value):
        raise Refused(reference.line, f"DefaultValue is a {kind}, and '{shown(text)}' is not")
    return packed


def padded(reference, content):
    """Octets or letters, with zeros up to the Length that is given."""
    length = number(reference, "Length", 1, 1440, max(1, len(content)))
    if len(content) > length:
        raise Refused(reference.line, f"DefaultValue has {len(content)} octets, and its Length is {length}")
    return content + bytes(length - len(content))


def parameter(reference):
    """The octets of a parameter that is no bit, as its default value says."""
    kind, text = reference.text("DataType"), reference.text("DefaultValue")
    if kind in NUMBERS:
        value = whole(reference, text)
        try:
            return struct.pack(NUMBERS[kind], value)
        except struct.error:
            raise Refused(reference.line, f"DefaultValue {value} does not fit {kind}") from None
    if kind in FLOATS:
        return real(reference, kind, text)
    if kind == OCTET_STRING:
        return padded(reference, octets(reference, "DefaultValue"))
    if kind == "VisibleString" and text.isascii():
        return padded(reference, text.encode())
    raise Refused(reference.line, f"a parameter of DataType {shown(kind)} is not read")
