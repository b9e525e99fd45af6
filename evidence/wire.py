"""Tells the bits of a line of the base form apart: the field that each belongs to, and which are stuff bits."""
from collections import namedtuple

Bit = namedtuple("Bit", "place value stuff")
Field = namedtuple("Field", "name kind bits")

HEADER = (("start", 1), ("identifier", 11), ("RTR", 1), ("IDE", 1), ("r0", 1), ("DLC", 4))
TAIL = (("CRC delimiter", 1), ("ACK slot", 1), ("ACK delimiter", 1), ("end", 7))
NEVER_STUFFED = sum(size for _, size in TAIL)


def stuff_bits(row):
    """Whether each bit of a row is a stuff bit: it follows five equal ones."""
    run, before = 0, None
    for bit in row:
        yield run == 5
        run = run + 1 if bit == before else 1
        before = bit


def data_layout(payload, coded):
    if not coded:
        return [(f"byte {byte:02X}", "data", 8) for byte in payload]
    if not payload:
        return []
    padding = 8 * (len(payload) + 1) - 1 - 9 * len(payload)
    words = [(f"word of {byte:02X}", "data", 9) for byte in payload]
    return [("break bit", "first", 1)] + words + [("padding", "rest", padding)] * (padding > 0)


def layout(payload, coded):
    """Name, kind and bits of each field, stuff bits not counted."""
    header = [(name, name.lower() if name in ("identifier", "DLC") else "fixed", size) for name, size in HEADER]
    tail = [(name, "fixed", size) for name, size in TAIL]
    return header + data_layout(payload, coded) + [("CRC", "crc", 15)] + tail


def fields(line, payload, coded):
    """The fields of a line; a stuff bit belongs to the field of the bit that it follows."""
    stuff = [*stuff_bits(line[:-NEVER_STUFFED])] + [False] * NEVER_STUFFED
    bits = [Bit(place, int(value), raised) for place, (value, raised) in enumerate(zip(line, stuff))]
    for name, kind, size in layout(payload, coded):
        taken = 0
        while taken < len(bits) and (bits[taken].stuff or size > 0):
            size -= not bits[taken].stuff
            taken += 1
        yield Field(name, kind, bits[:taken])
        bits = bits[taken:]
