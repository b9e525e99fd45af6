"""Picture: the timetable of a form, a bar from the least to the most length for each payload size and each h."""
from runs import KINDS, SIZES
from svg import Axis, picture, text

WIDTH, LEFT, TOP, GAP, BOTTOM = 480, 66, 20, 8, 40
LANES = {"base": 13, "long": 9}  # height of a bar's lane, by form


def lengths_met(runs, form, size, bounds):
    return sorted({length for kind in KINDS[form] for length in runs.coded[form, kind, size].get(bounds.least, ())})


def lane(axis, y, height, h, size, bounds, met):
    left, right = axis.edges(bounds.least, bounds.most)
    named = f"size {size}, h = {h}: {bounds.least} to {bounds.most} bits; met: {', '.join(map(str, met)) or 'none'}"
    dots = "".join(f'<circle cx="{axis.x(length):.1f}" cy="{y + height / 2 - 1:.1f}" r="1.6"/>' for length in met)
    return (f'<g class="lane"><title>{named}</title><rect class="allowed" x="{left:.1f}" y="{y:.1f}" width="{right - left:.1f}" '
            f'height="{height - 2}"/>{dots}</g>')


def band(runs, form, size, by_h, axis, y):
    """All bars of one size; first and last have their numbers beside them, in the base form each its h."""
    height = LANES[form]
    yield text(14, y + 10, str(size), "middle", "name")
    for number, (h, bounds) in enumerate(sorted(by_h.items())):
        top = y + number * height
        yield lane(axis, top, height, h, size, bounds, lengths_met(runs, form, size, bounds))
        if number in (0, len(by_h) - 1) or form == "base":
            yield text(LEFT - 8, top + height - 3, f"h = {h}", "end", "small")
        if number in (0, len(by_h) - 1):
            yield text(axis.edges(bounds.least, bounds.most)[1] + 4, top + height - 3, f"{bounds.least}–{bounds.most}", "start", "small")


def timetable_plot(runs, form, by_size):
    """by_size: the bounds of each payload size by h."""
    every = [bounds for by_h in by_size.values() for bounds in by_h.values()]
    axis = Axis(min(b.least for b in every) - 1, max(b.most for b in every) + 8, LEFT, WIDTH - 4)
    heights = {size: len(by_size[size]) * LANES[form] + GAP for size in SIZES}
    bottom = TOP + sum(heights.values())
    parts, y = [*axis.grid(TOP, bottom), text(4, 12, "size", "start")], TOP + GAP / 2
    for size in SIZES:
        parts += band(runs, form, size, by_size[size], axis, y)
        y += heights[size]
    described = " ".join(f"Size {size}: from {min(b.least for b in by_size[size].values())} with the fewest stuff bits in the header "
                         f"to {max(b.most for b in by_size[size].values())} with the most." for size in SIZES)
    return picture(f"bars-{form}", WIDTH, bottom + BOTTOM, f"The timetable of the {form} form as bars", described, parts)
