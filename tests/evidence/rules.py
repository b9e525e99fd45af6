"""Document 01 once more, for the checks: words, field, frame of the base form, and the reading of its line."""
from itertools import groupby

POLYNOMIAL = 0x4599


def words():
    """The words that carry bytes, by the ordering rule; the escapes are not among them."""
    kept = []
    for number in range(512):
        bits = f"{number:09b}"
        longest = max(len(list(run)) for _, run in groupby(bits))
        if longest < 5 and len(set(bits[:3])) > 1 and len(set(bits[-3:])) > 1:
            kept.append(bits)
    return kept[1:-1]


WORDS = words()
ESCAPES = ("001000010", "110111101")


def field_bytes(size):
    return size + 1 if size else 0


def field(payload):
    """The parts of a data field: break bit, words, padding."""
    if not payload:
        return []
    parts = [str(1 - field_bytes(len(payload)) % 2)] + [WORDS[byte] for byte in payload]
    padding = ("01" * 4)[:8 * (len(payload) + 1) - sum(map(len, parts))]
    return parts + [padding] * bool(padding)


def encode(payload, room):
    """The answer to a payload: the field's bits, or refusal and place."""
    if len(payload) > 7:
        return 1, 0
    return "".join(field(payload)) if room >= field_bytes(len(payload)) else (2, 0)


def decode(given, room):
    """The answer to a field: the payload, or refusal and place."""
    bits, size = "".join(f"{byte:08b}" for byte in given), max(len(given) - 1, 0)
    if len(given) == 1 or len(given) > 8:
        return 3, 0
    if room < size:
        return 2, 0
    if given and bits[0] == str(len(given) % 2):
        return 4, 0
    found = [bits[1 + 9 * at:10 + 9 * at] for at in range(size)]
    for number, word in enumerate(found):
        if word not in WORDS:
            return (5 if word in ESCAPES else 6), number
    payload = bytes(map(WORDS.index, found))
    return payload if "".join(field(payload)) == bits else (7, 0)


def header(identifier, dlc):
    """Its parts: start, identifier, RTR, IDE, reserved bit, DLC."""
    return ["0", f"{identifier:011b}", "0", "0", "0", f"{dlc:04b}"]


def crc(bits):
    register = 0
    for bit in bits:
        register = register << 1 ^ (POLYNOMIAL if (register >> 14 & 1) != int(bit) else 0)
        register &= 0x7FFF
    return f"{register:015b}"


def stuffed(parts):
    """Each part as it is sent: pairs of a bit and whether it is a stuff bit. A run goes on from part to part."""
    run, last, sent = 0, None, []
    for part in parts:
        sent.append([])
        for bit in part:
            run = run + 1 if bit == last else 1
            sent[-1].append((bit, False))
            last = bit
            if run == 5:
                last, run = str(1 - int(bit)), 1
                sent[-1].append((last, True))
    return sent


def frame(identifier, dlc, data):
    """The parts of a frame with this DLC and these parts of data, as they are sent."""
    parts = header(identifier, dlc) + data
    return stuffed(parts + [crc("".join(parts))]) + [[(bit, False) for bit in part] for part in ("1", "1", "1", "1" * 7)]


def bounds(identifier, size):
    least = 44 + 8 * field_bytes(size) + sum(raised for part in stuffed(header(identifier, field_bytes(size))) for _, raised in part)
    return least, least + 4


class Refused(Exception):
    """With the number of the refusal and its place."""


class Line:
    """A line that is read from the left."""

    def __init__(self, bits):
        self.bits, self.place, self.run, self.last, self.seen = bits, -1, 0, None, ""

    def next(self):
        self.place += 1
        if self.place == len(self.bits):
            raise Refused(11, self.place)
        return self.bits[self.place]

    def follow(self, bit):
        self.run = self.run + 1 if bit == self.last else 1
        self.last = bit

    def read(self, count, wanted=None, judge=None):
        """So many bits without the stuff bits among them. `judge` comes with the last, before a stuff bit behind it."""
        for left in range(count, 0, -1):
            bit = self.next()
            if wanted not in (None, bit):
                raise Refused(13, self.place)
            self.follow(bit)
            self.seen += bit
            if judge and left == 1:
                judge()
            if self.run == 5:
                self.read_stuff_bit()
        return self.seen[-count:]

    def read_stuff_bit(self):
        bit = self.next()
        if bit == self.last:
            raise Refused(10, self.place)
        self.follow(bit)

    def refuse(self, number, holds):
        if holds:
            raise Refused(number, self.place)


def read_line(bits):
    """The refusal of an acknowledged line and its place; (0, 0) for none. SRR and IDE both 1, the long form, are not known here."""
    line = Line(bits)
    try:
        line.read(1, "0")
        line.read(11)
        rtr_place = line.place + 1
        rtr, ide = line.read(1), line.read(1)
        if rtr == "1" or ide == "1":
            raise Refused(13, rtr_place)
        line.read(1, "0")
        dlc = line.read(4, judge=lambda: line.refuse(3, int(line.seen[-4:], 2) == 1 or int(line.seen[-4:], 2) > 8))
        line.read(8 * int(dlc, 2))
        before = line.seen
        line.read(15, judge=lambda: line.refuse(12, line.seen[len(before):] != crc(before)))
        for at, wanted in enumerate("101" + "1" * 7):
            bit = line.next()
            line.refuse(20 if at == 1 else 13, bit != wanted)
        line.place += 1
        line.refuse(11, line.place < len(bits))
    except Refused as refused:
        return refused.args
    return 0, 0
