"""Writes the page of definitions to standard output: the rules of docs/FORMAT.md, each beside the definitions that say it.

Usage: definitions_page.py SOURCE-FACTS. What is missing in the sources ends it with a message, and nothing is written.
"""
import sys
from html import escape
from itertools import groupby
from pathlib import Path

from definition_blocks import Blocks
from definitions.files import lines_proper
from definitions.marks import problems
from definitions.reached import Reached, of_specs
from markup import block
from notation import NOTATION, explained
from reading import Missing, require
from shell import document
from sources import commit_rows, read_source, rows_of

ROOT = Path(__file__).resolve().parent.parent


def notation():
    rows = "\n".join(f"<div><dt><code>{escape(signs)}</code></dt><dd>{escape(meaning)}</dd></div>" for signs, meaning in NOTATION)
    return f'<h2 id="notation">How to read a definition</h2>\n<dl class="notation">\n{rows}\n</dl>'


def rule_text(rule, numbers):
    first, *others = (block(lines, numbers) for lines in rule.paragraphs)
    return f'<b class="number">{rule.number}</b>{first}' + "\n".join(others)


def rule_block(rule, blocks, numbers):
    """Rule and definitions side by side; a rule that has none takes the whole width. One with many may go on on the next page."""
    text, said = rule_text(rule, numbers), blocks.of_rule(rule)
    kind = "rule alone" if rule.excuse else "rule long" if len(said) > 3 else "rule"
    beside = f'<div class="said">{chr(10).join(said)}</div>' if said else ""
    return f'<div class="{kind}" id="rule-{rule.number}"><div class="text">{text}</div>\n{beside}</div>'


def rule_section(rules, blocks, numbers):
    """A heading stays with its first rule."""
    heading = f'<section id="section-{rules[0].section}">\n<div class="opening"><h2>{rules[0].section}. {escape(rules[0].title)}</h2>'
    first, *others = (rule_block(rule, blocks, numbers) for rule in rules)
    return "\n".join([heading, f"{first}</div>", *others, "</section>"])


def contracts_section(reached, blocks):
    said = "\n".join(blocks.contract(call) for call in reached.calls)
    return f"""<section id="contracts">
<h2>The contracts of the calls</h2>
<p>What the prover shows of each call of 7.1: that it answers, and leaves in a lent buffer, what its clauses say. <code>result</code> is
what it answers; <code>x.now</code> are the bytes of x that is read, <code>x.old</code> and <code>x.new</code> those of a lent buffer before
the call and after it. <code>&amp;[u8]</code> is a row of bytes that is read, <code>&amp;mut [u8]</code> a lent buffer.</p>
{said}
</section>"""


def between_section(reached, blocks):
    said = "\n".join(blocks.group(group) for group in blocks.groups(reached.between))
    return f"""<section id="between">
<h2>Between the crates</h2>
<p>Only calls from one part of the library to another lead to these. They say in another form what the rules named with them say. Nothing
above uses them.</p>
<div class="columns">
{said}
</div>
</section>"""


def index(reached, blocks):
    names = sorted((name.lower(), name, one) for one in reached.ruled | reached.between for name in one.names)
    entries = "\n".join(f"<li>{blocks.link(one, name)} <span>{blocks.where(one)}</span></li>" for _, name, one in names)
    return f'<section id="index">\n<h2>All names, and where they stand</h2>\n<ul class="names">\n{entries}\n</ul>\n</section>'


def counted(chosen):
    """Definitions and their lines; enums and structs and theirs."""
    for these in (of_specs(chosen), [one for one in chosen if one.folder == "src"]):
        yield sum(len(one.names) for one in these)
        yield sum(map(lines_proper, these))


def counts(reached):
    sides = (("contracts", "the contracts of document 01’s calls", reached.contracts),
             ("stated", "beside these, the statements about them", reached.stated),
             ("ours", "together", reached.ours), ("worked", "worked cases alone: evidence", reached.worked),
             ("helpers", "calls between the crates alone", reached.between))
    rows = "\n".join(f'<tr id="count-{name}"><th scope="row">{what}</th>' + "".join(f"<td>{number}</td>" for number in counted(chosen))
                     + "</tr>" for name, what, chosen in sides)
    return f"""<section id="counts">
<h2>How much there is to read</h2>
<table class="counts"><thead><tr><th scope="col">for</th><th scope="col">definitions</th><th scope="col">their lines</th>
<th scope="col">enums and structs</th><th scope="col">their lines</th></tr></thead><tbody>
{rows}
</tbody></table>
<p class="key">Lines of definition proper: no imports, comments or blank lines.</p>
</section>"""


def page(reached, source):
    blocks = Blocks(reached)
    numbers = {rule.number for rule in reached.rules}
    sections = [rule_section(list(rules), blocks, numbers) for _, rules in groupby(reached.rules, key=lambda rule: rule.section)]
    return document("Prushgoli: rules and definitions", ["base.css", "definitions.css"], f"""<header>
<h1>Prushgoli: rules and definitions</h1>
<p>What is proved of the library says that it does what these definitions say. That they say what document 01 says, only reading shows. So
each rule of docs/FORMAT.md stands here beside the definitions that say it, as the prover has them, but for their imports. A definition
with several rules stands at the first and is named at the others. Above a definition is its file, crate/File, and its own comment.</p>
<table class="plain-list"><tbody>
{rows_of(commit_rows(source))}
</tbody></table>
{notation()}
</header>
{chr(10).join(sections)}
{contracts_section(reached, blocks)}
{between_section(reached, blocks)}
{index(reached, blocks)}
{counts(reached)}""")


def main(source_path):
    reached = Reached(ROOT)
    wrong = list(problems(reached))
    require(not wrong, "; ".join(wrong[:1]) + (f"; and {len(wrong) - 1} more, which tests/documents tells" if wrong[1:] else ""))
    unknown = {word for one in reached.ruled | reached.between for word in one.words} - explained()
    require(not unknown, f"evidence/notation.py does not explain {', '.join(sorted(unknown))}")
    source = read_source(source_path)
    sys.stdout.reconfigure(encoding="utf-8")
    sys.stdout.write(page(reached, source))


if __name__ == "__main__":
    try:
        main(*sys.argv[1:])
    except Missing as missing:
        sys.exit(f"evidence/definitions_page.py: {missing}".replace(f"{ROOT}/", ""))
