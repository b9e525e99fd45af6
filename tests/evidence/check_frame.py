"""Checks the worked cases, the frame that is shown bit by bit, and its flips, by the rules of document 01."""
import re
from collections import Counter, defaultdict

from looking import check, found, numbers, text
from rules import bounds, decode, encode, field, field_bytes, frame, read_line


def spaced(data):
    return data.hex(" ").upper() or "no bytes"


def in_words(answer):
    return "refusal {}, place {}".format(*answer) if isinstance(answer, tuple) else f"done, {len(answer) // 8} bytes"


def worked_frame(identifier):
    parts = frame(identifier, 0, [])
    crc = "".join(bit for bit, raised in parts[6] if not raised)
    in_header, in_crc = (sum(raised for part in some for _, raised in part) for some in (parts[:6], parts[6:]))
    return f"CRC {int(crc, 2):X}, stuff bits: {in_header} in the header, {in_crc} in the CRC; {sum(map(len, parts))} bits"


def expected(case):
    """What the rules give for a case."""
    if asked := re.fullmatch(r"bounds, identifier (\d+) \(([0-9A-F]+) hex\), size (\d)", case):
        check(int(asked[1]) == int(asked[2], 16), f"{case}: two identifiers")
        least = "bounds {} and {}".format(*bounds(int(asked[1]), int(asked[3])))
        return least if int(asked[1]) <= 2047 else "refusal 8, place 0"
    if asked := re.fullmatch(r"frame of identifier ([0-9A-F]+), empty payload", case):
        return worked_frame(int(asked[1], 16))
    asked = re.fullmatch(r"(encode|decode) ((?:[0-9A-F]{2} ?)+|no bytes)(?:, room (\d))?", case)
    check(asked, f"a case that is not understood: {case}")
    given = bytes.fromhex(asked[2]) if asked[2] != "no bytes" else b""
    if asked[3]:
        return in_words((encode if asked[1] == "encode" else decode)(given, int(asked[3])))
    bits = encode(given, 8)
    return spaced(bytes(int(bits[at:at + 8], 2) for at in range(0, len(bits), 8)))


def check_cases(page):
    rows = page.findall(".//table[@class='cases']/tbody/tr")
    for case, *cells in ([text(cell) for cell in row] for row in rows):
        check(cells == [expected(case)] * 2 + ["same"], f"worked case: {case}: {cells}, by the rules {expected(case)}")
    starts = Counter(text(row[0]).split()[0].rstrip(",") for row in rows)
    check(starts == {"encode": 14, "decode": 5, "bounds": 4, "frame": 1}, f"document 01 has other cases: {dict(starts)}")
    check(numbers(found(page, "cases-same")) == [len(rows)], "another number of cases is said to be the same")
    return len(rows)


def frame_shown(page):
    words = re.search(r"identifier ([0-9A-F]+) hex with the payload ((?:[0-9A-F]{2} ?)+):", text(found(page, "frame")))
    check(words, "the frame that is shown is not named")
    return int(words[1], 16), bytes.fromhex(words[2])


def names(data):
    return ["start", "identifier", "RTR", "IDE", "r0", "DLC", *data, "CRC", "CRC delimiter", "ACK slot", "ACK delimiter", "end"]


def by_rules(page):
    """The fields of both lines, by their names: 8B9B, then plain."""
    identifier, payload = frame_shown(page)
    size = len(payload)
    coded = frame(identifier, field_bytes(size), field(payload))
    named = names(["break bit", *(f"word of {byte:02X}" for byte in payload), *["padding"] * (size < 7)])
    plain = frame(identifier, size, [f"{byte:08b}" for byte in payload])
    return {"coded": list(zip(named, coded)), "plain": list(zip(names(f"byte {byte:02X}" for byte in payload), plain))}


def fields_in(row):
    """The fields of a row of cells: name, place of the first bit, cells."""
    for part in row:
        place, cells, name = part
        yield text(name), int(text(place)), list(cells)


def check_frame(page):
    for coding, fields in by_rules(page).items():
        place, there = 0, list(fields_in(found(page, f"bits-{coding}")))
        check([name for name, _, _ in there] == [name for name, _ in fields], f"{coding}: the fields are others")
        for (name, bits), (_, first, cells) in zip(fields, there):
            check(first == place, f"{coding}: {name} is said to begin at {first}, by the rules at {place}")
            cells = [(text(cell), cell.get("class") == "stuff") for cell in cells]
            check(cells == bits, f"{coding}: {name} has other bits")
            place += len(bits)


def check_flips(page):
    fields = by_rules(page)["coded"]
    made = "".join(bit for _, bits in fields for bit, _ in bits)
    heard, counted, place = made[:-9] + "0" + made[-8:], defaultdict(list), 0
    for _, first, cells in fields_in(found(page, "flips")):
        check(first == place, f"a field of the flips is said to begin at {first}, by the rules at {place}")
        for cell in cells:
            flipped = heard[:place] + str(1 - int(heard[place])) + heard[place + 1:]
            refusal, at = read_line(flipped)
            check(refusal, f"bit {place} flipped: by the rules the line is right")
            check(text(cell) == str(refusal) and cell.get("class").split()[0] == f"r{refusal}", f"bit {place} flipped: {text(cell)} is shown")
            check(f": refusal {refusal} at place {at}: " in cell.get("title"), f"bit {place} flipped: {cell.get('title')}, by the rules {at}")
            counted[refusal].append(at)
            place += 1
    check(place == len(heard), f"{place} flips of {len(heard)} bits")
    check_legend(found(page, "legend"), counted)
    return place


def places_in(cell):
    """0, 12, 77–84: each place that is meant."""
    ends = [[int(end) for end in part.split("–")] for part in text(cell).split(", ")]
    return [place for first, *last in ends for place in range(first, (last or [first])[0] + 1)]


def check_legend(table, counted):
    legend = {numbers(row[0])[0]: (places_in(row[2]), numbers(row[3])[0]) for row in table.findall("tbody/tr")}
    needed = {refusal: (sorted(set(places)), len(places)) for refusal, places in counted.items()}
    check(legend == needed, f"the flips are summed up as {legend}")
    check(numbers(table.find("tfoot/tr")[-1]) == [sum(map(len, counted.values()))], "the sum of the flips is another")
