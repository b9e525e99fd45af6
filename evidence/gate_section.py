"""The part of the page on the gate."""
from html import escape

from sources import rows_of

STEPS = {"total": "Every callable function", "documents": "The papers in docs/", "header": "The header for C",
         "archive": "The archive", "example": "The example in C", "programs": "The programs", "first": "The first report",
         "readme": "README"}


def crates_table(gate):
    rows = "\n".join(f'<tr><th scope="row">{crate.name}</th><td>{crate.functions}</td><td>{crate.edits}</td>'
                     f"<td>{'earlier' if crate.kept else 'now'}</td></tr>" for crate in gate.crates)
    return f"""<table class="crates"><thead><tr><th scope="col">crate</th><th scope="col">functions<br/>proved</th>
<th scope="col">wrong edits<br/>refused</th><th scope="col">proof<br/>made</th></tr></thead><tbody>
{rows}
</tbody><tfoot><tr><th scope="row"><span id="gate-crates">{len(gate.crates)}</span> crates</th>
<td id="gate-functions">{gate.functions}</td><td id="gate-edits">{gate.edits}</td><td></td></tr></tfoot></table>"""


def axioms_text(gate):
    library = f'the library for C: <span id="gate-axioms-library">{len(gate.archive_axioms)}</span>'
    return (f'{library}; the program trace: <span id="gate-axioms-program">{len(gate.program_axioms)}</span>, the contracts of '
            f'{escape(", ".join(gate.program_axioms))}, taken from the toolchain')


def gate_section(gate):
    told = [(STEPS[name], escape(line)) for name, line in gate.told.items()]
    traces = (f'<span id="gate-traces">{gate.traces:,}</span> traces, {gate.trace_lines:,} lines of report, '
              f"{gate.trace_differences} differences")
    return f"""<section id="gate">
<h2>What the gate did</h2>
<p>The gate, <code>make test</code>, proves every crate, as the parts of the program are called, from nothing; of one whose files, and
those below it, an earlier run on the same machine proved from nothing, it takes that run’s word. A crate without a function has
definitions and laws alone. The gate then tries the edits: each makes the program or a definition wrong, and the prover must refuse
it. Then it runs the comparisons. Its closing line was
“<span id="gate-last">{escape(gate.last)}</span>”.</p>
<div class="two">
{crates_table(gate)}
<table class="plain-list side"><tbody>
{rows_of([("Contracts taken without proof (axioms)", axioms_text(gate)),
          ("The program trace beside a second one", traces)] + told)}
</tbody></table>
</div>
</section>"""
