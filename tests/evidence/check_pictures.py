"""Checks the pictures: what their bars say, by document 01, and that the bars are drawn as they say."""
import re

from looking import check, found, numbers, text
from rules import bounds, field_bytes


def picture(page, name):
    svg = found(page, name)
    check(text(svg.find("title")) and text(svg.find("desc")), f"picture {name} is not described")
    return svg


def check_widths(name, bars):
    """Bars, each with the lengths it covers, have one width for each length, but for rounding."""
    widths = [float(bar.get("width")) / lengths for bar, lengths in bars]
    check(max(widths) - min(widths) < 0.11, f"picture {name}: a bar is not drawn as it says")


def check_histogram(page):
    check(len(picture(page, "histogram").findall("rect")) > 20, "the histogram has no bars")


def check_spread(page):
    """For each size a bar of plain CAN and one of 8B9B, each with its lengths beside it."""
    svg = picture(page, "spread")
    identifier = int(re.search(r"identifier ([0-9A-F]+) hex", text(svg.find("title")))[1], 16)
    said = [numbers(label) for label in svg.findall("text") if "spread" in text(label)]
    check(len(said) == 16, f"{len(said)} bars in the picture of the spread")
    drawn = {kind: [bar for bar in svg.findall("rect") if bar.get("class") == kind][1:] for kind in ("plain", "coded")}
    bars = []
    for size in range(8):
        for kind, (*lengths, spread) in zip(drawn, said[2 * size:2 * size + 2]):
            least, most = lengths[0], lengths[-1]
            check(most - least == spread, f"spread of size {size}: {least} to {most} is said to be {spread}")
            check(44 + 8 * size <= least, f"spread of size {size}: a frame of {least} bits")
            bars.append((drawn[kind][size], spread + 1))
        low, high = bounds(identifier, size)
        check(low <= least and most <= high, f"spread of size {size}: {least} to {most} in 8B9B, bounds {low} and {high}")
    check_widths("spread", bars)


def dots(lane):
    """Which of a bar's five lengths have a dot, from 0."""
    bar = lane.find("rect")
    width = float(bar.get("width")) / 5
    return [int((float(dot.get("cx")) - float(bar.get("x"))) // width) for dot in lane.findall("circle")]


def check_bars(page, form, without):
    """A bar for each cell of the timetable, with the dots that it names."""
    lanes = [lane for lane in picture(page, f"bars-{form}").findall("g")]
    cells = [(size, h, cell) for size, row in enumerate(found(page, f"timetable-{form}").findall("tbody/tr"))
             for h, cell in enumerate(row[2:-1]) if cell.get("class") != "none"]
    check(len(lanes) == len(cells), f"{form} form: {len(lanes)} bars for {len(cells)} cells of the timetable")
    for lane, (size, h, cell) in zip(lanes, cells):
        said, least = numbers(lane.find("title")), without + 8 * field_bytes(size) + h
        met, where = said[4:], f"{form} form, size {size}, h {h}"
        check(said[:4] == [size, h, least, least + 4], f"{where}: the bar is {text(lane.find('title'))}")
        check([met[0], met[-1]] == [numbers(cell[2])[0], numbers(cell[2])[-1]], f"{where}: met are {met}, {text(cell[2])}")
        check(dots(lane) == [length - least for length in met], f"{where}: the dots are at {dots(lane)} of the bar")
    check_widths(f"bars-{form}", [(lane.find("rect"), 5) for lane in lanes])
