"""Writes the evidence page to standard output.

Usage: page.py GATE-FOLDER SOURCE-FACTS RUNS. What is missing in them ends it with a message, and nothing is written.
"""
import re
import sys
from datetime import datetime, timezone
from html import escape

from cases_section import cases_section
from comparison_section import comparison_section
from frame_section import frame_section
from gate import Gate
from gate_section import gate_section
from reading import Missing, require
from runs import Runs
from sections import lengths_section, timetable_section, words_section
from shell import document
from sources import commit_rows, read_source, rows_of, tree
from wrong_section import wrong_section


def duration(seconds):
    return f"{seconds // 60} min {seconds % 60} s"


def identity(source, gate):
    began = datetime.fromtimestamp(int(gate.begin["time"]), timezone.utc)
    same = "the same commit" if gate.begin["commit"] == source["commit"] else f'commit {escape(gate.begin["commit"])}'
    return rows_of(commit_rows(source) + [
        ("Tree, when the gate ran", f'{same}, {tree(gate.begin["changed"])}'),
        ("Files that the gate tests", f'{escape(gate.begin["files"])}, the same in both trees; SHA-256 over all of them: '
                                      f'<code>{escape(gate.begin["sum"])}</code>'),
        ("Toolchain", f'<code id="toolchain">{escape(gate.toolchain)}</code>'),
        ("Gate", f'passed; began {began:%Y-%m-%d %H:%M} UTC, took <span id="gate-duration">{duration(gate.seconds)}</span> on '
                 f'{escape(gate.begin["machine"])}, {escape(gate.begin["cores"])} cores, without the making of this page'),
    ])


def contents(sections):
    """The parts by their headings, each a link to it."""
    found = (re.search(r'<section id="(\w+)">\n<h2>(.*)</h2>', section) for section in sections)
    items = "\n".join(f'<li><a href="#{match[1]}">{match[2]}</a></li>' for match in found)
    return f'<nav><ol>\n{items}\n</ol></nav>'


def page(gate, source, runs):
    sections = [gate_section(gate), cases_section(runs), comparison_section(gate, runs.reasons), wrong_section(gate), words_section(runs),
                frame_section(runs), timetable_section(runs), lengths_section(runs)]
    return document("Prushgoli: evidence", ["base.css", "page.css"], f"""<header>
<h1>Prushgoli: evidence</h1>
<p>Prushgoli codes payloads for a CAN bus in 8B9B, by document 01. This page shows runs of its library, the archive that C firmware
links, and what the gate found; the gate is <code>make test</code>, the run that proves and tests everything. Every number of a run was
computed when the page was made, or read from the gate’s record. The page shows cases, and cases prove nothing about others. What is proved
for all cases, and what that rests on, is in <a href="../../docs/INSPECTION.md">INSPECTION</a> and
<a href="../../docs/PROMISES.md">PROMISES</a>; the rules stand beside the definitions in <a href="definitions.html">the page of
definitions</a>.</p>
{contents(sections)}
<table class="plain-list"><tbody>
{identity(source, gate)}
</tbody></table>
</header>
""" + "\n".join(sections))


def main(gate_folder, source_path, runs_path):
    source = read_source(source_path)
    gate = Gate(gate_folder)
    require(gate.begin["sum"] == source["sum"], f"{gate_folder}: the gate ran on other sources; make test runs it on these")
    sys.stdout.reconfigure(encoding="utf-8")
    sys.stdout.write(page(gate, source, Runs(runs_path)))


if __name__ == "__main__":
    try:
        main(*sys.argv[1:])
    except Missing as missing:
        sys.exit(f"evidence/page.py: {missing}")
