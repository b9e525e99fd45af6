"""Which sources a page was made from, as evidence/source tells."""
from html import escape

from reading import fact, facts


def read_source(path):
    source = facts(path)
    for name in ("commit", "committed", "changed", "sum"):
        fact(source, name, path)
    return source


def tree(changed):
    if changed == "unknown":
        return "not known: the sources stood in no git repository"
    if changed == "0":
        return "no uncommitted changes"
    return f'<strong class="warning">{escape(changed)} files differed from the commit</strong>'


def commit_rows(source):
    return [("Commit", f'<code id="commit">{escape(source["commit"])}</code>'), ("Its date", escape(source["committed"])),
            ("Tree, when this page was made", tree(source["changed"]))]


def rows_of(pairs):
    return "\n".join(f'<tr><th scope="row">{name}</th><td>{value}</td></tr>' for name, value in pairs)
