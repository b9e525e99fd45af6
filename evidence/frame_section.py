"""The part of the page on one frame: its bits, plain and in 8B9B, and what it is refused for with each bit flipped."""
from collections import defaultdict
from html import escape

from reading import require
from tables import span
from wire import fields


def block(field, cells):
    """A field: the place of its first bit, its cells, its name."""
    return (f'<span class="field {field.kind}"><span class="place">{field.bits[0].place}</span><span class="cells">{"".join(cells)}</span>'
            f'<span class="label">{escape(field.name)}</span></span>')


def bit_cell(bit):
    return f'<i class="stuff" title="stuff bit, place {bit.place}">{bit.value}</i>' if bit.stuff else f"<i>{bit.value}</i>"


def check_stuffing(told, coding):
    """What the caption says of stuff bits among the data."""
    stuffed = any(bit.stuff for field in told if field.kind in ("first", "data", "rest") for bit in field.bits)
    require(stuffed == (coding == "plain"), f"the {coding} frame that is shown has {'' if stuffed else 'no '}stuff bits in its data")


def bits_row(runs, coding, name):
    told = list(fields(runs.lines[coding], runs.shown.payload, coding == "coded"))
    check_stuffing(told, coding)
    blocks = "\n".join(block(field, map(bit_cell, field.bits)) for field in told)
    return f"""<h3>{name}: {len(runs.lines[coding])} bits, {stuff_words(told)}</h3>
<div class="wire" id="bits-{coding}">
{blocks}
</div>"""


def stuff_words(told):
    count = sum(bit.stuff for field in told for bit in field.bits)
    return f"{count} of them {'a stuff bit' if count == 1 else 'stuff bits'}"


def flip_cell(bit, answer, reasons):
    refusal, at = answer
    words = f"refusal {refusal} at place {at}: {reasons[refusal]}" if refusal else "accepted"
    return (f'<i class="r{refusal}{" stuff" if bit.stuff else ""}" title="bit {bit.place}, {bit.value} flipped to {1 - bit.value}: '
            f'{escape(words)}">{refusal}</i>')


def flips_row(runs):
    heard = runs.lines["coded"][:-9] + "0" + runs.lines["coded"][-8:]
    flips = runs.flips["read_line"]
    told = fields(heard, runs.shown.payload, True)
    blocks = "\n".join(block(field, (flip_cell(bit, flips[bit.place], runs.reasons) for bit in field.bits)) for field in told)
    return f'<div class="wire flips" id="flips">\n{blocks}\n</div>'


def spans(numbers):
    """Numbers in order, neighbours drawn together: 0, 12, 77–84."""
    runs = []
    for number in sorted(set(numbers)):
        if runs and number == runs[-1][1] + 1:
            runs[-1][1] = number
        else:
            runs.append([number, number])
    return ", ".join(span(first, last) for first, last in runs)


def legend(runs):
    places = defaultdict(list)
    for refusal, at in runs.flips["read_line"]:
        places[refusal].append(at)
    rows = "\n".join(f'<tr><td class="wire flips"><i class="r{refusal}">{refusal}</i></td><td>{escape(runs.reasons[refusal])}</td>'
                     f"<td>{spans(at)}</td><td>{len(at)}</td></tr>" for refusal, at in sorted(places.items()))
    return f"""<table class="legend" id="legend"><thead><tr><th scope="col">no.</th><th scope="col">refusal</th>
<th scope="col">at places</th><th scope="col">flips</th></tr></thead><tbody>
{rows}
</tbody><tfoot><tr><td></td><td colspan="2">all bits of the line</td><td>{sum(map(len, places.values()))}</td></tr></tfoot></table>"""


def own_words(runs):
    """Where prushgoli_read_own_line answers otherwise."""
    pairs = enumerate(zip(runs.flips["read_line"], runs.flips["read_own_line"]))
    other = [(place, own) for place, (default, own) in pairs if default != own]
    require(other, "prushgoli_read_own_line answers all flips as prushgoli_read_line does")
    words = " and ".join(f"bit {place}, which it {f'refuses with {own[0]}' if own[0] else 'accepts'}" for place, own in other)
    return f"<code>prushgoli_read_own_line</code>, for lines that nobody may have heard, answers alike but at {words}."


def taken_words(runs):
    taken = [place for place, (refusal, _) in enumerate(runs.flips["read_line"]) if refusal == 0]
    return f"Taken were the lines with these bits flipped: {taken}." if taken else "None was taken."


def frame_section(runs):
    identifier, payload = runs.shown
    return f"""<section id="frame">
<h2>One frame, bit by bit</h2>
<p>The frame of identifier {identifier:X} hex with the payload {payload.hex(" ").upper()}: the weight {int.from_bytes(payload, "big"):,} g
that the example in C sends.</p>
<figure>
{bits_row(runs, "coded", "In 8B9B")}
{bits_row(runs, "plain", "Plain CAN")}
<figcaption>How to read it: a cell is a bit, in the order sent, from left to right and on in the next line. The name of the field stands
below its cells, the place of its first bit above. A stuff bit is raised and has a thick frame: it comes after five equal bits and belongs to
the field before it. In 8B9B a word of nine bits carries a byte; no stuff bit falls among break bit, words and padding. In plain
CAN the same bytes, sent as they are, need stuff bits as their values have it. Both lines are as a sender makes them, with 1 in the ACK slot.
Plain CAN is built by the second program.</figcaption>
</figure>
<h3>The same 8B9B frame with one bit flipped</h3>
<figure>
{flips_row(runs)}
<figcaption>How to read it: each cell stands for a line of its own: the 8B9B line above, heard, with 0 in the ACK slot, and with this one
bit flipped. The number in the cell, and its shade, is the refusal that <code>prushgoli_read_line</code> gave; pointing at a cell shows
its place, and the table has all places. {taken_words(runs)} {own_words(runs)}</figcaption>
{legend(runs)}
</figure>
</section>"""
