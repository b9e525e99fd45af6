"""The tables of the page that show runs: the bytes, the timetable, the lengths met."""
from reading import require
from runs import KINDS, PAYLOADS, SIZES, mean

# Document 01, "Words": what 002 misprints, and the word that the ordering rule gives.
MISPRINTS = {0x10: ("001010101", "001011001"), 0x74: ("011100101", "011101001")}
NONE = '<td class="none">–</td>'

# The timetable of a form: the bits of a frame without data and without stuff bits, and the most stuff bits in a header.
WITHOUT = {"base": 44, "long": 64}
MOST_STUFFED = {"base": 4, "long": 9}


def bits(row):
    return (f'<span class="break">{row.break_bit}</span><b>{row.word}</b>'
            f'<span class="padding">{row.padding}</span>')


def byte_row(row):
    mark = "†" if row.byte in MISPRINTS else ""
    kind = ' class="misprint"' if mark else ""
    return (f'<tr{kind}><th scope="row">{row.byte:02X}<span class="mark">{mark}</span></th><td class="bits">{bits(row)}</td>'
            f"<td>{row.field[:2]} {row.field[2:]}</td><td>{row.back:02X}</td></tr>")


def byte_tables(runs):
    head = ('<thead><tr><th scope="col">byte</th><th scope="col">field, bit by bit</th>'
            '<th scope="col">field</th><th scope="col">back</th></tr></thead>')
    for first in range(0, 256, 64):
        rows = "\n".join(byte_row(row) for row in runs.bytes[first:first + 64])
        yield f'<table class="bytes">{head}<tbody>\n{rows}\n</tbody></table>'


def misprint_notes(runs):
    carried = {row.word: row.byte for row in runs.bytes}
    for byte, (printed, right) in sorted(MISPRINTS.items()):
        word = runs.bytes[byte].word
        require(printed in carried, f"no byte has the word {printed}, which 002 prints twice")
        verdict = "the word that document 01 gives" if word == right else f"not {right}, which document 01 gives"
        yield (f"Byte {byte:02X}: the run gave <b>{word}</b>, {verdict}. "
               f"002 prints {printed}, which is the word of byte {carried[printed]:02X}.")


def span(least, most):
    return f"{least}–{most}" if least < most else f"{least}"


def timetable_cell(runs, form, size, bounds):
    if bounds is None:
        return NONE
    met = [length for kind in KINDS[form] for length in runs.coded[form, kind, size].get(bounds.least, ())]
    seen = f"met {span(min(met), max(met))}" if met else "none met"
    many = "identifiers" if bounds.identifiers > 1 else "identifier"
    named = f"{bounds.identifiers:,}" if form == "long" else f"{bounds.identifiers:,} {many}"
    return (f'<td><b>{span(bounds.least, bounds.most)}</b><span class="identifiers">{named}</span>'
            f'<span class="met">{seen}</span></td>')


def by_stuff_bits(runs, form, size):
    """The bounds by h, the stuff bits in the header."""
    rows = runs.bounds[form, size]
    by_h = {bounds.least - WITHOUT[form] - 8 * bounds.field_bytes: bounds for bounds in rows}
    require(set(by_h) <= set(range(MOST_STUFFED[form] + 1)), f"{form} form, size {size}: stuff bits in a header: {sorted(by_h)}")
    return by_h


def timetable_row(runs, form, size):
    rows, by_h = runs.bounds[form, size], by_stuff_bits(runs, form, size)
    cells = "".join(timetable_cell(runs, form, size, by_h.get(h)) for h in range(MOST_STUFFED[form] + 1))
    total = sum(bounds.identifiers for bounds in rows)
    return (f'<tr><th scope="row">{size}</th><td>{rows[0].field_bytes}</td>{cells}'
            f'<td class="total">{total:,}</td></tr>')


def timetable(runs, form):
    heads = "".join(f'<th scope="col"><i>h</i> = {h}</th>' for h in range(MOST_STUFFED[form] + 1))
    rows = "\n".join(timetable_row(runs, form, size) for size in SIZES)
    return (f'<div class="wide"><table class="timetable {form}" id="timetable-{form}"><thead><tr><th scope="col">payload<br/>size</th>'
            f'<th scope="col">field bytes<br/><i>n</i></th>{heads}<th scope="col">identifiers<br/>in all</th>'
            f"</tr></thead><tbody>\n{rows}\n</tbody></table></div>")


def three(counted):
    return f'<td class="first">{min(counted)}</td><td>{mean(counted):.1f}</td><td>{max(counted)}</td>'


def lengths_row(runs, size):
    cells = "".join(three(counted("base", payloads, size)) for payloads in PAYLOADS
                    for counted in (lambda *key: runs.plain[key], runs.lengths))
    plain, coded = runs.spread[size]
    return (f'<tr><th scope="row">{size}</th>{cells}<td class="first spread">{plain}</td>'
            f'<td class="spread">{coded}</td></tr>')


def lengths_table(runs):
    kinds = '<th colspan="3" class="first" scope="colgroup">plain CAN</th><th colspan="3" class="first" scope="colgroup">8B9B</th>'
    three_heads = '<th class="first" scope="col">least</th><th scope="col">mean</th><th scope="col">most</th>'
    rows = "\n".join(lengths_row(runs, size) for size in SIZES)
    return ('<div class="wide"><table class="lengths"><thead><tr><th rowspan="3" scope="col">payload<br/>size</th>'
            '<th colspan="6" class="first" scope="colgroup">random payloads</th>'
            '<th colspan="6" class="first" scope="colgroup">bytes 00 and FF only</th>'
            '<th colspan="2" class="first" scope="colgroup">widest spread<br/>for one identifier</th></tr>'
            f'<tr>{kinds}{kinds}<th class="first" rowspan="2" scope="col">plain</th><th rowspan="2" scope="col">8B9B</th></tr>'
            f"<tr>{three_heads * 4}</tr></thead><tbody>\n{rows}\n</tbody></table></div>")
