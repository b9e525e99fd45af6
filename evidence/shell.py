"""What every page has around its text: one file, its style in it, nothing from outside."""
from html import escape
from pathlib import Path


def document(title, sheets, body):
    style = "".join((Path(__file__).parent / sheet).read_text(encoding="utf-8") for sheet in sheets)
    return f"""<!DOCTYPE html>
<html lang="en">
<head>
<meta charset="utf-8"/>
<meta name="viewport" content="width=device-width"/>
<title>{escape(title)}</title>
<style>
{style}</style>
</head>
<body>
{body}
</body>
</html>
"""
