"""The part of the page on the comparison with the second program: how often each call gave each answer."""
from html import escape
from itertools import groupby


def heads(calls):
    """The calls; below a call that knows both forms, these."""
    upper = lower = ""
    for name, of_name in groupby(calls, key=lambda call: call.name):
        forms = [call.form for call in of_name]
        words = escape(name).replace("_", "_<wbr/>")
        upper += f'<th colspan="{len(forms)}" scope="colgroup">{words}</th>'
        lower += "".join(f'<th scope="col">{form if len(forms) > 1 else ""}</th>' for form in forms)
    return upper, lower


def row(name, words, counts):
    cells = "".join(f"<td>{count:,}</td>" if count else '<td class="none">–</td>' for count in counts)
    return f'<tr><th scope="row">{name}</th><th scope="row">{words}</th>{cells}<td class="sum">{sum(counts):,}</td></tr>'


def foot_row(name, words, columns, count):
    return (f'<tr id="{name}"><th scope="row"></th><th scope="row">{words}</th><td colspan="{columns}"></td>'
            f'<td class="sum">{count:,}</td></tr>')


def answers_table(gate, reasons):
    numbers = sorted({number for call in gate.calls for number in call.answers})
    counts = {number: [call.answers.get(number, 0) for call in gate.calls] for number in numbers}
    rows = "\n".join(row(number or "", escape(reasons[number]), counts[number]) for number in numbers)
    sums = [sum(call.answers.values()) for call in gate.calls]
    upper, lower = heads(gate.calls)
    return f"""<div class="wide"><table class="answers" id="answers"><thead>
<tr><th rowspan="2" scope="col">no.</th><th rowspan="2" scope="col">answer</th>{upper}<th rowspan="2" scope="col">sum</th></tr>
<tr>{lower}</tr></thead><tbody>
{rows}
</tbody><tfoot>
{row("", "all answers", sums)}
{foot_row("facts", "facts compared beside the calls", len(sums), gate.facts)}
{foot_row("all", "all comparisons", len(sums), sum(sums) + gate.facts)}
</tfoot></table></div>"""


def comparison_section(gate, reasons):
    return f"""<section id="comparison">
<h2>Refusals by number, as the comparison reached them</h2>
<p>The second program (<code>tests/second</code>) is written from documents 01 and 02 alone, in plain C. The archive and it were asked the
same: <b id="gate-comparisons">{gate.comparisons:,}</b> comparisons of answer, place and every byte of the buffers,
<b id="gate-differences">{gate.differences}</b> differences. The table has how often each call gave each answer, by the numbers of
documents 01 and 02; the call names lack their <code>prushgoli_</code>, and <i>long</i> is the form with an identifier of 29 bits. A dash: the
documents give the call no such answer. Facts beside the calls are, for example, that there are 258 words, and the check value of the CRC.</p>
{answers_table(gate, reasons)}
</section>"""
