"""The DataTypes of GSDML: how many octets each has (IEC 61158-5-10 and IEC 61158-6-10, data types of process data), and how a catalogue holds it."""

# Types of a fixed length.
LENGTHS = {
    "Boolean": 1,
    "Integer8": 1, "Integer16": 2, "Integer32": 4, "Integer64": 8,
    "Unsigned8": 1, "Unsigned16": 2, "Unsigned32": 4, "Unsigned64": 8,
    "Float32": 4, "Float64": 8,
    "Date": 7,
    "TimeOfDay with date indication": 6, "TimeOfDay without date indication": 4,
    "TimeDifference with date indication": 6, "TimeDifference without date indication": 4,
    "NetworkTime": 8, "NetworkTimeDifference": 8,
    "TimeStamp": 12, "TimeStampDifference": 12, "TimeStampDifferenceShort": 8,
    "Unsigned8+Unsigned8": 2, "Float32+Unsigned8": 5, "Float32+Status8": 5, "OctetString2+Unsigned8": 3,
    "Unsigned8_S": 1, "Unsigned16_S": 2, "Integer16_S": 2,
    "F_MessageTrailer4Byte": 4, "F_MessageTrailer5Byte": 5,
    "N2": 2, "N4": 4, "V2": 2, "L2": 2, "R2": 2, "T2": 2, "T4": 4, "D2": 2, "E2": 2, "C4": 4, "X2": 2, "X4": 4, "Unipolar2.16": 2,
}
# Types whose length the file says.
SIZED = ("OctetString", "VisibleString", "UnicodeString8", "61131_STRING", "61131_WSTRING", "OctetString_S")
# Those of a catalogue, by which the program computes lengths. Each other type is there an OctetString of its length.
OCTET_STRING = "OctetString"
OF_CATALOGUE = ("Unsigned8", "Integer8", "Unsigned16", "Integer16", "Unsigned32", "Integer32", "Float32", OCTET_STRING)
BOOLEAN = "Boolean"
MOST = 1_440

# Types whose bits have numbers. Those of a number count from its lowest bit, which is in the last octet; those of octets from the lowest bit of
# the first octet.
NUMBERS = ("Boolean", "Unsigned8", "Unsigned16", "Unsigned32", "Unsigned64", "Integer8", "Integer16", "Integer32", "Integer64", "V2")


def is_known(kind):
    return kind in LENGTHS or kind in SIZED


def has_bits(kind):
    return kind in NUMBERS or kind == OCTET_STRING


def place_of_bit(kind, length, bit):
    """The octet of a bit within its item, and its number there: 0 is the lowest."""
    return (bit // 8 if kind == OCTET_STRING else length - 1 - bit // 8), bit % 8


def in_catalogue(kind, length):
    """A data item as a catalogue has it."""
    if kind in OF_CATALOGUE and kind != OCTET_STRING:
        return {"DataType": kind}
    return {"DataType": OCTET_STRING, "Length": length}
