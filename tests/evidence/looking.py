"""What every check of a page needs: to say what is wrong, and to find things in the page."""
import re
import subprocess
import sys
import xml.etree.ElementTree as tree
from collections import Counter
from pathlib import Path

OUTSIDE = ("http:", "https:", "//", "src=", "<script", "<link", "url(", "@import", "<iframe", "<object")


def check(holds, what):
    if not holds:
        sys.exit(f"tests/evidence: {what}")


def text(element):
    return "".join(element.itertext())


def numbers(element):
    return [int(number) for number in re.findall(r"\d+", text(element).replace(",", ""))]


def found(page, name):
    element = page.find(f".//*[@id='{name}']")
    check(element is not None, f"the page does not show {name}")
    return element


def shown(page, name):
    """What the page shows under a name."""
    return text(found(page, name))


def parsed(path, remarks=()):
    """The page as a tree; what may ask for something from outside is not let in, but for remarks of sources."""
    source = Path(path).read_text(encoding="utf-8")
    for outside in set(OUTSIDE) - set(remarks):
        check(outside not in source.lower(), f"the page may ask for something from outside: {outside}")
    try:
        return tree.fromstring(source)
    except tree.ParseError as error:
        check(False, f"the page is not well formed: {error}")


def check_links(page, allowed):
    """A link leads to a part of the page or to one of the files allowed, which is there."""
    there = Counter(element.get("id") for element in page.iter() if element.get("id"))
    check(max(there.values()) == 1, "two parts of the page have one name")
    links = {value for element in page.iter() for name, value in element.attrib.items() if name.endswith("href")}
    for link in sorted(links):
        check(link[1:] in there if link.startswith("#") else link in allowed, f"a link leads nowhere: {link}")
    for link, file in allowed.items():
        check(link in links, f"the page has no link to {link}")
        check(file.is_file(), f"the page leads to {link}, and there is no {file}")


def check_commit(page):
    folder = Path.cwd().resolve()
    try:
        asked = subprocess.run(["git", "-c", f"safe.directory={folder}", "rev-parse", "HEAD"],
                               stdout=subprocess.PIPE, stderr=subprocess.DEVNULL, text=True, check=True)
        commit = asked.stdout.strip()
    except (OSError, subprocess.CalledProcessError):
        commit = "unknown"
    check(shown(page, "commit") == commit, f"the commit is {commit}, on the page {shown(page, 'commit')}")
