"""The parts of the page on runs: the bytes, the timetable, the frame lengths."""
from html import escape

from plot import plot
from reading import require
from runs import KINDS, SIZES, mean
from spread_plot import spread_plot
from tables import WITHOUT, by_stuff_bits, byte_tables, lengths_table, misprint_notes, timetable
from timetable_plot import timetable_plot

SIZE = 7  # the size that is plotted: the longest payload


def words_section(runs):
    rows = runs.bytes
    back = sum(row.byte == row.back for row in rows)
    distinct = len({row.word for row in rows})
    sample = rows[0xF0]
    notes = "".join(f"<li>{note}</li>" for note in misprint_notes(runs))
    return f"""<section id="bytes">
<h2>All {len(rows)} bytes</h2>
<p>Each byte was given to <code>prushgoli_encode</code> as a payload of one byte, and the field that came out to
<code>prushgoli_decode</code>. <b id="bytes-back">{back} of {len(rows)}</b> bytes came back. The fields hold
<b id="bytes-distinct">{distinct}</b> different words.</p>
<p class="key">How to read a row: byte {sample.byte:02X} has the field
<span class="bits"><span class="break">{sample.break_bit}</span><b>{sample.word}</b><span class="padding">{sample.padding}</span></span>:
the <span class="break">break bit</span>, the <b>word</b> (the nine bits after it), the <span class="padding">padding</span>.
As two bytes in hex the field is {sample.field[:2]} {sample.field[2:]}. Decoding it gave {sample.back:02X}.</p>
<div class="four">
{chr(10).join(byte_tables(runs))}
</div>
<div class="notes"><p>† The two bytes whose words are misprinted in document 002 (document 01, “Words”):</p><ul>{notes}</ul></div>
</section>"""


def timetable_bars(runs, form):
    return timetable_plot(runs, form, {size: by_stuff_bits(runs, form, size) for size in SIZES})


def least_bound(without):
    return f'<span class="formula">{without} + 8<i>n</i> + <i>h</i></span>'


def timetable_section(runs):
    asked = sum(bounds.identifiers for bounds in runs.bounds["long", SIZE])
    in_runs = sorted(runs.frames["long", "in-runs", size].sent for size in SIZES)
    return f"""<section id="timetable">
<h2>The timetable</h2>
<p>How long a frame can be, in bits, before its payload is known. For each payload size, <code>prushgoli_frame_bounds</code> was
asked for every identifier of the base form. It gave two bounds, least and most. With <i>n</i> the bytes of the data field and
<i>h</i> the stuff bits after header bits, the least bound is {least_bound(WITHOUT["base"])}; so <i>h</i> is worked out here from what
the call gave.</p>
<figure class="drawn">
{timetable_bars(runs, "base")}
<figcaption>How to read it: a bar goes from the least to the most length that a frame with this payload size and this <i>h</i> can
have; a dot is a length that was met among the frames of <a href="#lengths">the last part</a>. All dots lie in their bars. Numbers stand
beside the first and the last bar of a size; the table has all.</figcaption>
</figure>
<p class="key">In a cell: <b>least–most</b>, then the number of identifiers with these bounds, then the shortest and the longest frame
met. A dash: no identifier has this <i>h</i>. Of the {runs.total("sent", "base"):,} frames of the base form,
{runs.total("within", "base"):,} lay within the bounds of their own identifier.</p>
{timetable(runs, "base")}
<div class="form">
<h3>Identifiers of the long form</h3>
<p>There are too many long identifiers, of 29 bits, to ask for each. Asked for were the {asked:,} whose bits stand in runs of two or
more equal ones; among these are some with the most stuff bits. Here the least bound is {least_bound(WITHOUT["long"])}.</p>
<figure class="drawn">
{timetable_bars(runs, "long")}
<figcaption>Bars and dots as above, for the identifiers asked for.</figcaption>
</figure>
<p class="key">In a cell: as above, but the number is that of the identifiers asked for. The frames met are, for each size,
{runs.frames["long", "random", SIZE].sent:,} of random identifiers and {in_runs[0]:,} to {in_runs[-1]:,} of identifiers in runs, all with
random payloads. Of these {runs.total("sent", "long"):,} frames, {runs.total("within", "long"):,} lay within the bounds of their own
identifier.</p>
{timetable(runs, "long")}
</div>
</section>"""


def spread_of(runs, coding):
    return max(max(runs.one[coding, size]) - min(runs.one[coding, size]) for size in SIZES)


def one_identifier(runs):
    plain, coded = spread_of(runs, "plain"), spread_of(runs, "coded")
    require(plain > coded, "the runs of one identifier do not show what the page says of them")
    sent = sorted(sum(runs.one["coded", size].values()) for size in SIZES)
    return f"""<figure class="drawn">
{spread_plot(runs)}
<figcaption>Identifier {runs.one_identifier:X} hex, by payload size in bytes. How to read it: a bar goes from the shortest to the longest
frame met, the mark in it is the mean. Each size was sent with random payloads and with all payloads of the bytes 00 and FF,
{sent[0]:,} to {sent[-1]:,} frames. In plain CAN the lengths of one size differ by up to {plain} bits, in 8B9B by up to
{coded}.</figcaption>
</figure>"""


def claim(runs):
    """What the plot shows, in words. A sentence that the numbers do not bear out is an error."""
    plain, coded = runs.plain["base", "random", SIZE], runs.lengths("base", "random", SIZE)
    more = mean(coded) - mean(plain)
    moved = mean(runs.plain["base", "equal-bits", SIZE]) - mean(plain)
    stayed = abs(mean(runs.lengths("base", "equal-bits", SIZE)) - mean(coded))
    spread_plain, spread_coded = runs.spread[SIZE]
    allowed = max(bounds.most - bounds.least for bounds in runs.bounds["base", SIZE])
    require(more > 0 and moved > stayed and spread_plain > spread_coded, "the runs do not show what the page says of them")
    return f"""<p>8B9B takes one field byte more than the payload has. With random payloads its frames are longer in the mean, here by
{more:.2f} bits. That is its price. What it buys is less jitter: the length hardly hangs on the payload. With the bytes 00 and FF the mean
of plain frames moves by {moved:.2f} bits, that of 8B9B frames by {stayed:.2f}. For one identifier the lengths met differ by up to
{spread_plain} bits in plain CAN and by up to {spread_coded} in 8B9B; the bounds allow {allowed}. Between identifiers <i>h</i> differs
too.</p>"""


def lengths_section(runs):
    sent = [runs.frames["base", "random", size].sent for size in SIZES]
    require(len(set(sent)) == 1, "the sizes have different numbers of random frames")
    total, back, unheard, heard = (runs.total(name, *KINDS) for name in ("sent", "back", "unheard", "heard"))
    return f"""<section id="lengths">
<h2>Frame lengths, plain CAN beside 8B9B</h2>
<p>Every frame of the base form was sent twice with the same identifier and payload. In 8B9B: the library’s frame. Plain: the
payload’s own bytes as data field, the DLC its size, the same header, CRC and stuffing, to the last CRC bit, built by the second program
(<code>tests/second</code>).</p>
<h3>One identifier</h3>
{one_identifier(runs)}
<h3>All identifiers</h3>
<figure class="drawn">
{plot(runs, SIZE)}
<figcaption>Payloads of {SIZE} bytes. Above: random identifiers, random payloads, {sent[0]:,} frames, seed {escape(runs.seed)} hex.
Below: every identifier with every payload made of the bytes 00 and FF, {runs.frames["base", "equal-bits", SIZE].sent:,} frames.
Where few frames had a length its bar is too low to be seen; the labels name the whole range.</figcaption>
</figure>
{claim(runs)}
{lengths_table(runs)}
<p class="key">Lengths met, in bits, by payload size; the random frames are {sent[0]:,} for each size. Of all
<span id="frames-sent">{total:,}</span> frames in 8B9B, <span id="frames-long">{runs.total("sent", "long"):,}</span> of the long form among
them, {back:,} had the length that <code>prushgoli_frame_length</code> tells, counted on the line that
<code>prushgoli_make_frame</code> made; lay within the bounds of their identifier; and gave identifier and payload back to
<code>prushgoli_read_own_line</code>.</p>
<p class="key">A line as it is made has 1 in the ACK slot: nobody heard the frame. <code>prushgoli_read_line</code>, which is for lines from
a live bus, refused <span id="frames-unheard">{unheard:,}</span> of these lines at that bit, with 20. With 0 there, as a receiver leaves
it, <span id="frames-heard">{heard:,}</span> gave identifier and payload back to it.</p>
</section>"""
