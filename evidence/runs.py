"""What evidence/runs printed.

byte BYTE FIELD BACK                             in hex; BACK is what decoding the field gave
seed SEED                                        in hex
bounds FORM SIZE FIELD-BYTES LEAST MOST IDENTIFIERS
                                                 so many of the identifiers asked for have these two bounds
frames FORM KIND SIZE SENT REPORTED WITHIN BACK UNHEARD HEARD
                                                 of those sent, how many had the reported length, lay within their
                                                 bounds, came back from their line as it was made, were refused by the
                                                 default call for the 1 in its ACK slot, and came back with 0 there
plain FORM KIND SIZE LENGTH FRAMES               so many had this length, sent plain
coded FORM KIND SIZE LEAST LENGTH FRAMES         so many of those with this least bound had this length, in 8B9B
spread SIZE PLAIN CODED                          the most by which lengths of one identifier differed, in the base form
case KIND QUESTION... SAID GOT                   a case of document 01, KIND coding, encode, decode, bounds or frame; of a
                                                 frame GOT is its line, and SAID its CRC, its stuff bits in header and
                                                 CRC, its bits
shown IDENTIFIER PAYLOAD                         of the frame that is shown, in hex
line CODING BITS                                 its line as it is made, CODING plain or coded
flip CALL PLACE REFUSAL AT                       with that bit flipped the call gave this refusal, 0 for none, and its place
reason REFUSAL WORDS...                          what the header says of a refusal
one IDENTIFIER CODING SIZE LENGTH FRAMES         so many frames of this identifier had this length
FORM is base or long. KIND is random; in the base form equal-bits too: payloads of bytes 00 and FF only; in the long form
in-runs too: identifiers whose bits stand in runs of two or more.
"""
from collections import defaultdict, namedtuple

from reading import Missing, lines_of, require

SIZES = range(8)
PAYLOADS = ("random", "equal-bits")  # the kinds of the base form
KINDS = {"base": PAYLOADS, "long": ("random", "in-runs")}
Byte = namedtuple("Byte", "byte field back break_bit word padding")
Bounds = namedtuple("Bounds", "field_bytes least most identifiers")
Frames = namedtuple("Frames", "sent reported within back unheard heard")
Case = namedtuple("Case", "kind question said got")
Shown = namedtuple("Shown", "identifier payload")


class Runs:
    def __init__(self, path):
        self.bytes, self.seed = [], None
        self.bounds, self.frames, self.spread = defaultdict(list), {}, {}
        self.plain, self.coded = defaultdict(dict), defaultdict(lambda: defaultdict(dict))
        self.cases, self.shown, self.lines, self.flips, self.reasons = [], None, {}, defaultdict(list), {}
        self.one, self.one_identifier = defaultdict(dict), None
        for line in lines_of(path):
            name, *values = line.split()
            try:
                getattr(self, "read_" + name)(*values)
            except (AttributeError, TypeError, ValueError) as error:
                raise Missing(f"{path}: not understood: {line}") from error
        self.check(path)

    def read_byte(self, byte, field, back):
        bits = f"{int(field, 16):0{4 * len(field)}b}"
        self.bytes.append(Byte(int(byte, 16), field, int(back, 16), bits[0], bits[1:10], bits[10:]))

    def read_seed(self, seed):
        self.seed = seed

    def read_bounds(self, form, size, *numbers):
        self.bounds[form, int(size)].append(Bounds(*map(int, numbers)))

    def read_frames(self, form, kind, size, *numbers):
        self.frames[form, kind, int(size)] = Frames(*map(int, numbers))

    def read_plain(self, form, kind, size, length, frames):
        self.plain[form, kind, int(size)][int(length)] = int(frames)

    def read_coded(self, form, kind, size, least, length, frames):
        self.coded[form, kind, int(size)][int(least)][int(length)] = int(frames)

    def read_spread(self, size, plain, coded):
        self.spread[int(size)] = int(plain), int(coded)

    def read_case(self, kind, *values):
        *question, said, got = values
        self.cases.append(Case(kind, question, said, got))

    def read_shown(self, identifier, payload):
        self.shown = Shown(int(identifier, 16), bytes.fromhex(payload))

    def read_line(self, coding, bits):
        self.lines[coding] = bits

    def read_flip(self, call, place, refusal, at):
        require(int(place) == len(self.flips[call]), f"bit {place} was flipped out of order")
        self.flips[call].append((int(refusal), int(at)))

    def read_reason(self, refusal, *words):
        self.reasons[int(refusal)] = " ".join(words)

    def read_one(self, identifier, coding, size, length, frames):
        self.one_identifier = int(identifier, 16)
        self.one[coding, int(size)][int(length)] = int(frames)

    def check(self, path):
        require([row.byte for row in self.bytes] == list(range(256)), f"{path}: not each byte once, in order")
        require(all(len(row.field) == 4 for row in self.bytes), f"{path}: a field of one byte has not two bytes")
        require(self.seed, f"{path}: no seed")
        self.check_shown(path)
        for size in SIZES:
            require(size in self.spread, f"{path}: nothing of size {size}")
            for form, kinds in KINDS.items():
                require(self.bounds[form, size], f"{path}: no bounds of the {form} form, size {size}")
                for kind in kinds:
                    self.check_frames(path, form, kind, size)

    def check_shown(self, path):
        require(self.cases and self.shown and self.reasons, f"{path}: no worked case, no frame that is shown or no reasons")
        require(set(self.lines) == {"coded", "plain"}, f"{path}: not one line plain and one in 8B9B")
        require(set(self.flips) == {"read_line", "read_own_line"}, f"{path}: not the flips of both calls")
        for call, flips in self.flips.items():
            require(len(flips) == len(self.lines["coded"]), f"{path}: {call}: {len(flips)} bits were flipped")
            require(all(refusal in self.reasons for refusal, _ in flips), f"{path}: {call}: a refusal without words")
        require(set(self.one) == {(coding, size) for coding in ("plain", "coded") for size in SIZES},
                f"{path}: not all sizes of the one identifier")
        for size in SIZES:
            sent = {sum(self.one[coding, size].values()) for coding in ("plain", "coded")}
            require(len(sent) == 1, f"{path}: frames of the one identifier and size {size} are lost")

    def check_frames(self, path, form, kind, size):
        frames, where = self.frames.get((form, kind, size)), f"{kind} frames of the {form} form and size {size}"
        require(frames and frames.sent > 0, f"{path}: no {where}")
        require(len(set(frames)) == 1, f"{path}: of {frames.sent} {where}, {frames}")
        sent = [self.lengths(form, kind, size)] + ([self.plain[form, kind, size]] if form == "base" else [])
        require(all(sum(counted.values()) == frames.sent for counted in sent), f"{path}: {where} are lost")
        least = {bounds.least for bounds in self.bounds[form, size]}
        require(least.issuperset(self.coded[form, kind, size]), f"{path}: {where} have bounds that no identifier asked for has")

    def lengths(self, form, kind, size):
        """The frames in 8B9B by length."""
        counted = defaultdict(int)
        for by_length in self.coded[form, kind, size].values():
            for length, frames in by_length.items():
                counted[length] += frames
        return dict(counted)

    def total(self, name, *forms):
        """Of all frames of these forms."""
        return sum(getattr(frames, name) for (form, _, _), frames in self.frames.items() if form in forms)


def mean(counted):
    return sum(length * frames for length, frames in counted.items()) / sum(counted.values())
