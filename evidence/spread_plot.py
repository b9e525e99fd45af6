"""Picture: for one identifier, from the shortest to the longest frame met, by payload size, plain CAN beside 8B9B."""
from runs import SIZES, mean
from svg import Axis, picture, text
from tables import span

WIDTH, LEFT, RIGHT, TOP, LANE, GAP, BOTTOM = 480, 46, 92, 26, 15, 9, 40
CODINGS = {"plain": "plain CAN", "coded": "8B9B"}


def bar(axis, y, coding, counted):
    left, right = axis.edges(min(counted), max(counted))
    middle = axis.x(mean(counted))
    spread = max(counted) - min(counted)
    return [f'<rect class="{coding}" x="{left:.1f}" y="{y:.1f}" width="{right - left:.1f}" height="{LANE - 4}"/>',
            f'<path class="mean {coding}-mean" d="M{middle:.1f} {y - 1:.1f} v{LANE - 2}"/>',
            text(right + 5, y + 9, f"{span(min(counted), max(counted))}, spread {spread}", "start", "note")]


def key(axis):
    x = axis.left
    for coding, name in CODINGS.items():
        yield f'<rect class="{coding}" x="{x}" y="4" width="22" height="{LANE - 4}"/>'
        yield text(x + 27, 13, name, "start", "name")
        x += 100
    yield f'<path class="mean plain-mean" d="M{x} 3 v{LANE - 2}"/>'
    yield text(x + 6, 13, "mean", "start")


def spread_plot(runs):
    lengths = [length for counted in runs.one.values() for length in counted]
    axis = Axis(min(lengths) - 1, max(lengths) + 1, LEFT, WIDTH - RIGHT)
    bottom = TOP + len(SIZES) * (2 * LANE + GAP)
    parts = [*axis.grid(TOP, bottom), *key(axis), text(4, TOP - 4, "size", "start")]
    for size in SIZES:
        y = TOP + GAP / 2 + size * (2 * LANE + GAP)
        parts.append(text(LEFT - 22, y + LANE + 2, str(size), "middle", "name"))
        for number, coding in enumerate(CODINGS):
            parts += bar(axis, y + number * LANE, coding, runs.one[coding, size])
    described = " ".join(f"Size {size}: " + ", ".join(f"{name} {min(runs.one[coding, size])} to {max(runs.one[coding, size])}"
                                                     for coding, name in CODINGS.items()) + "." for size in SIZES)
    return picture("spread", WIDTH, bottom + BOTTOM, f"Frame lengths of identifier {runs.one_identifier:X} hex by payload size",
                   f"Lengths met, in bits. {described}", parts)
