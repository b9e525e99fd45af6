"""The part of the page on the cases that document 01 works by hand: what it says, what the run gave."""
from html import escape

from reading import require
from wire import fields


def spaced(digits):
    return "no bytes" if digits == "-" else " ".join(digits[at:at + 2] for at in range(0, len(digits), 2))


def answer(token):
    """refusal:NUMBER:PLACE, bounds:LEAST:MOST or length:BYTES, in words."""
    kind, *numbers = token.split(":")
    if kind == "refusal":
        return f"refusal {numbers[0]}, place {numbers[1]}"
    return f"bounds {' and '.join(numbers)}" if kind == "bounds" else f"done, {numbers[0]} bytes"


def frame_facts(line):
    """CRC, stuff bits in header and CRC, bits; of the line of an empty payload."""
    told = list(fields(line, b"", True))
    crc = next(field for field in told if field.name == "CRC")
    header = told[:told.index(crc)]
    value = int("".join(str(bit.value) for bit in crc.bits if not bit.stuff), 2)
    stuffed = [sum(bit.stuff for field in part for bit in field.bits) for part in (header, [crc])]
    return [value, *stuffed, len(line)]


def frame_words(crc, in_header, in_crc, bits):
    return f"CRC {crc:X}, stuff bits: {in_header} in the header, {in_crc} in the CRC; {bits} bits"


def in_words(case):
    """The question, what is said and what was got."""
    if case.kind == "coding":
        return f"encode {spaced(case.question[0])}", spaced(case.said), spaced(case.got)
    if case.kind == "frame":
        return (f"frame of identifier {case.question[0]}, empty payload", frame_words(*map(int, case.said.split(":"))),
                frame_words(*frame_facts(case.got)))
    if case.kind == "bounds":
        asked = f"bounds, identifier {int(case.question[0], 16)} ({case.question[0]} hex), size {case.question[1]}"
    else:
        asked = f"{case.kind} {spaced(case.question[0])}, room {case.question[1]}"
    return asked, answer(case.said), answer(case.got)


def row(asked, said, got):
    require(said == got, f"document 01's case: {asked}: said {said}, got {got}")
    return (f'<tr><th scope="row">{escape(asked)}</th><td>{escape(said)}</td><td>{escape(got)}</td>'
            f'<td>{"same" if said == got else "differs"}</td></tr>')


def cases_section(runs):
    rows = "\n".join(row(*in_words(case)) for case in runs.cases)
    return f"""<section id="cases">
<h2>Document 01’s worked cases</h2>
<p>What document 01 works by hand, beside what the archive gave for it when this page was made. Bytes are in hex. Where document 01 says
only how many bytes there are, these are of our choice. The numbers of the refusals are in words in
<a href="#comparison">the part on refusals</a>. All <b id="cases-same">{len(runs.cases)}</b> cases are the same.</p>
<table class="cases"><thead><tr><th scope="col">case</th><th scope="col">said</th><th scope="col">got</th>
<th scope="col">same?</th></tr></thead><tbody>
{rows}
</tbody></table>
</section>"""
