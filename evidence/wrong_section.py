"""The part of the page on wrong programs, as tests/documents found them refused."""
from html import escape


def program(wrong):
    """Document 01's five have a name, and behind it perhaps where it was tried."""
    name, colon, where = wrong.program.partition(":")
    return f"<b>{escape(name)}</b>{colon}{escape(where)}" if wrong.is_of_five else escape(wrong.program)


def code(name):
    """It may be broken behind a slash or an underscore."""
    return f"<code>{escape(name).replace('/', '/<wbr/>').replace('_', '_<wbr/>')}</code>"


def row(wrong):
    kind = ' class="five"' if wrong.is_of_five else ""
    return (f"<tr{kind}><td>{program(wrong)}</td><td>{code(wrong.edit)}</td><td>{code(wrong.law)} in {code(wrong.file)}</td>"
            f"<td>{escape(wrong.by)}</td></tr>")


def wrong_section(gate):
    rows = "\n".join(map(row, gate.wrong))
    return f"""<section id="wrong">
<h2>Wrong programs, and what refuses them</h2>
<p>Document 01 names five wrong programs that the contracts have to reject. They are in bold; some were tried at more than one
call. Then come its errors that look right, and rules that requests withdrew. Each was put into a copy of the sources as an edit,
and the prover refused it. The first error is the law or the step of a proof where the prover found the copy wrong; the last column is what
refuses it. These are {len(gate.wrong)} of the {gate.edits} edits that the gate tried; the others are in
<a href="../../docs/PROMISES.md">PROMISES</a>.</p>
<table class="wrong stack"><thead><tr><th scope="col">wrong program</th><th scope="col">edit</th>
<th scope="col">first error</th><th scope="col">refused by</th></tr></thead><tbody>
{rows}
</tbody></table>
</section>"""
