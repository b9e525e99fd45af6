"""The text of a rule, as docs/FORMAT.md has it, for a page: paragraphs, tables, indented lines; `names` and numbers of rules."""
import re
from html import escape


def inline(text, numbers=()):
    """Words in `` are code, and a rule's number leads to it."""
    pieces = re.split(r"`([^`]*)`", escape(text, quote=False))
    return "".join(f"<code>{piece}</code>" if at % 2 else linked(piece, numbers) for at, piece in enumerate(pieces))


def linked(text, numbers):
    text = re.sub(r"\[([^]]*)\]\([^)]*\)", r"\1", text)
    return re.sub(r"(?<![\d.])\d+\.\d+(?!\d)",
                  lambda found: f'<a href="#rule-{found[0]}">{found[0]}</a>' if found[0] in numbers else found[0], text)


def table(lines, numbers):
    head, _, *rows = [[cell.strip() for cell in line.strip().strip("|").split("|")] for line in lines]
    heads = "".join(f'<th scope="col">{inline(cell, numbers)}</th>' for cell in head)
    body = "\n".join("<tr>" + "".join(f"<td>{inline(cell, numbers)}</td>" for cell in row) + "</tr>" for row in rows)
    return f"<table><thead><tr>{heads}</tr></thead><tbody>\n{body}\n</tbody></table>"


def block(lines, numbers):
    if lines[0].startswith("|"):
        return table(lines, numbers)
    if lines[0].startswith("    "):
        return "<pre>" + "\n".join(escape(line[4:], quote=False) for line in lines) + "</pre>"
    return f"<p>{inline(' '.join(line.strip() for line in lines), numbers)}</p>"
