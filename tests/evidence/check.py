"""Checks the evidence page, with nothing of what made it: by document 01 and by the lines of the gate's record.

Usage: check.py PAGE GATE-FOLDER DEFINITIONS, the last the page of definitions that it leads to.
"""
import sys
from pathlib import Path

from check_frame import check_cases, check_flips, check_frame
from check_pictures import check_bars, check_histogram, check_spread
from check_record import check_answers, check_gate, check_wrong_programs
from looking import check, check_commit, check_links, numbers, parsed, shown, text
from rules import words

# Where the page may lead, and the file that must be there.
PAPERS = {f"../../docs/{name}": Path("docs") / name for name in ("INSPECTION.md", "PROMISES.md")}


def check_bytes(page):
    rows = [row for table in page.findall(".//table[@class='bytes']") for row in table.findall("tbody/tr")]
    check(len(rows) == 256, f"{len(rows)} rows of bytes")
    for byte, (row, word) in enumerate(zip(rows, words())):
        name, bits, field, back = row
        parts = [text(part) for part in bits]
        where = f"byte {byte:02X}"
        check(text(name)[:2] == f"{byte:02X}", f"{where}: the row is of {text(name)}")
        check(parts == ["1", word, "010101"], f"{where}: the field is {parts}")
        check(text(field).replace(" ", "") == f"{int(''.join(parts), 2):04X}", f"{where}: {text(field)} are other bits")
        check(text(back) == f"{byte:02X}", f"{where}: {text(back)} came back")
        check((row.get("class") == "misprint") == (byte in (0x10, 0x74)), f"{where}: its mark")
    check(shown(page, "bytes-back") == "256 of 256", "not all bytes are said to have come back")
    check(len({text(row[1][1]) for row in rows}) == 256, "two bytes have one word")
    check(shown(page, "bytes-distinct") == "256", "the words are said not to differ")


def in_runs(bits):
    """How many rows of so many bits have runs of two or more equal bits alone: the last bit is in a run of two, or of more."""
    return 2 if bits in (2, 3) else in_runs(bits - 2) + in_runs(bits - 1)


# Of each form: the bits of a frame without data and stuff bits, the columns, and how many identifiers are asked for.
FORMS = {"base": (44, 5, 2048), "long": (64, 10, in_runs(29))}


def check_timetable(page, form):
    without, columns, asked = FORMS[form]
    rows = page.findall(f".//table[@id='timetable-{form}']/tbody/tr")
    check(len(rows) == 8, f"{len(rows)} sizes in the timetable of the {form} form")
    for size, row in enumerate(rows):
        field_bytes, where = size + 1 if size else 0, f"{form} form, size {size}"
        check([numbers(row[0]), numbers(row[1])] == [[size], [field_bytes]], f"{where}: the row's head")
        check(len(row) == 2 + columns + 1, f"{where}: {len(row)} cells")
        identifiers = 0
        for h, cell in enumerate(row[2:-1]):
            if cell.get("class") == "none":
                continue
            least = without + 8 * field_bytes + h
            check(numbers(cell[0]) == [least, least + 4], f"{where}, h {h}: the bounds are {text(cell[0])}")
            met = numbers(cell[2])
            check(met and least <= met[0] and met[-1] <= least + 4, f"{where}, h {h}: {text(cell[2])}")
            identifiers += numbers(cell[1])[0]
        check([identifiers] == numbers(row[-1]) == [asked], f"{where}: {identifiers} identifiers, said: {text(row[-1])}")


def check_lengths(page):
    rows = page.findall(".//table[@class='lengths']/tbody/tr")
    check(len(rows) == 8, f"{len(rows)} sizes in the table of lengths")
    for size, row in enumerate(rows):
        cells = [float(text(cell)) for cell in row[1:]]
        check(len(cells) == 14, f"size {size}: {len(cells)} lengths")
        for least, mean, most in zip(cells[0:12:3], cells[1:12:3], cells[2:12:3]):
            check(least <= mean <= most, f"size {size}: least {least}, mean {mean}, most {most}")
        check(cells[13] <= 4, f"size {size}: in 8B9B the lengths of one identifier differ by {cells[13]}")


def check_acknowledged(page):
    """Each identifier at least with every payload of bytes 00 and FF: refused while nobody heard the frame, else read."""
    sent, long_sent, unheard, heard = (int(shown(page, f"frames-{name}").replace(",", ""))
                                       for name in ("sent", "long", "unheard", "heard"))
    check(sent - long_sent >= 2048 * (2 ** 8 - 1), f"only {sent - long_sent} frames of the base form were sent")
    check(long_sent >= 8 * 50000, f"only {long_sent} frames of the long form were sent")
    check(unheard == sent, f"of {sent} frames that nobody heard, {unheard} are said to be refused")
    check(heard == sent, f"of {sent} acknowledged frames, {heard} are said to be read")


def main(path, folder, definitions):
    page = parsed(path)
    check_links(page, {**PAPERS, "definitions.html": Path(definitions)})
    check_bytes(page)
    for form in FORMS:
        check_timetable(page, form)
        check_bars(page, form, FORMS[form][0])
    check_lengths(page)
    check_histogram(page)
    check_spread(page)
    check_acknowledged(page)
    cases = check_cases(page)
    check_frame(page)
    flips = check_flips(page)
    check_gate(page, Path(folder))
    check_answers(page, Path(folder))
    check_wrong_programs(page, Path(folder))
    check_commit(page)
    print(f"tests/evidence: 256 bytes, {cases} worked cases, a frame and its {flips} flips, 8 sizes in both forms, the pictures, the frames "
          "read, the gate's numbers and the commit are as they must be; nothing from outside")


if __name__ == "__main__":
    main(*sys.argv[1:])
