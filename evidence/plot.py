"""The plot of frame lengths, as SVG: a panel for each kind of payload, one scale of lengths below both."""
from runs import PAYLOADS, mean
from svg import picture, text

WIDTH, LEFT, RIGHT, TOP, PANEL, GAP, BOTTOM = 480, 40, 6, 40, 120, 92, 62
TITLES = {"random": "Random payloads", "equal-bits": "Payloads of bytes 00 and FF only"}


class Scale:
    """Where a length and a share of the frames stand."""

    def __init__(self, series):
        lengths = [length for counted in series for length in counted]
        self.first, self.last = min(lengths) - 1, max(lengths) + 1
        self.step = (WIDTH - LEFT - RIGHT) / (self.last - self.first + 1)
        shares = [frames / sum(counted.values()) for counted in series for frames in counted.values()]
        self.top = -(-max(shares) * 100 // 10) * 10

    def x(self, length):
        return LEFT + (length - self.first + 0.5) * self.step

    def height(self, percent):
        return PANEL * percent / self.top


def bars(scale, counted, base, kind, side):
    """A bar for each length, left (-1) or right (1) of its place."""
    total, width = sum(counted.values()), 0.38 * scale.step
    for length, frames in sorted(counted.items()):
        height = scale.height(100 * frames / total)
        x = scale.x(length) - (width if side < 0 else 0)
        yield f'<rect class="{kind}" x="{x:.1f}" y="{base - height:.2f}" width="{width:.1f}" height="{height:.2f}"/>'


def label(counted, base, words, kind, side):
    """At the top of the panel, on its left (-1) or on its right (1), where the lengths lie; with a piece of such a bar."""
    x, y = (LEFT + 6 if side < 0 else WIDTH - 140), base - PANEL + 12
    yield f'<rect class="{kind}" x="{x}" y="{y - 8}" width="6" height="20"/>'
    yield text(x + 11, y, words, "start", "name")
    yield text(x + 11, y + 12, f"{min(counted)} to {max(counted)} bits, mean {mean(counted):.1f}", "start")


def grid(scale, base):
    for percent in range(0, int(scale.top) + 1, 10):
        y = base - scale.height(percent)
        yield f'<line class="grid" x1="{LEFT}" x2="{WIDTH - RIGHT}" y1="{y:.1f}" y2="{y:.1f}"/>'
        yield text(LEFT - 8, y + 4, f"{percent} %", "end")
    for length in range(-(-scale.first // 5) * 5, scale.last, 5):
        yield text(scale.x(length), base + 14, str(length))


def window(scale, least, most, base):
    """The lengths that the bounds allow, as a bracket below the scale."""
    left, right = scale.x(least) - 0.42 * scale.step, scale.x(most) + 0.42 * scale.step
    y = base + 19
    yield f'<path class="window" d="M{left:.1f} {y} v5 H{right:.1f} v-5"/>'
    yield text((left + right) / 2, y + 17, f"bounds of the 8B9B frames: {least} to {most} bits", kind="note")


def panel(runs, scale, payloads, size, base):
    plain, coded = runs.plain["base", payloads, size], runs.lengths("base", payloads, size)
    yield text(LEFT, base - PANEL - 20, f"{TITLES[payloads]}, {runs.frames['base', payloads, size].sent:,} frames", "start", "title")
    yield from grid(scale, base)
    yield from bars(scale, plain, base, "plain", -1)
    yield from bars(scale, coded, base, "coded", 1)
    side = 1 if mean(plain) > mean(coded) else -1
    yield from label(plain, base, f"plain CAN, {size} data bytes", "plain", side)
    bounds = runs.bounds["base", size]
    yield from label(coded, base, f"8B9B, {bounds[0].field_bytes} field bytes", "coded", -side)
    yield from window(scale, min(b.least for b in bounds), max(b.most for b in bounds), base)


def describe(runs, size):
    for payloads in PAYLOADS:
        for name, counted in (("plain CAN", runs.plain["base", payloads, size]), ("8B9B", runs.lengths("base", payloads, size))):
            yield (f"{TITLES[payloads]}, {name}: {min(counted)} to {max(counted)} bits, "
                   f"mean {mean(counted):.1f}, most often {max(counted, key=counted.get)}.")


def plot(runs, size):
    scale = Scale([counted for payloads in PAYLOADS
                   for counted in (runs.plain["base", payloads, size], runs.lengths("base", payloads, size))])
    height = TOP + 2 * PANEL + GAP + BOTTOM
    parts = []
    for number, payloads in enumerate(PAYLOADS):
        parts += panel(runs, scale, payloads, size, TOP + PANEL + number * (PANEL + GAP))
    parts.append(text(LEFT + (WIDTH - LEFT - RIGHT) / 2, height - 4, "frame length in bits"))
    parts.append(f'<text transform="translate(9 {TOP + PANEL + GAP / 2}) rotate(-90)" text-anchor="middle">share of the frames</text>')
    return picture("histogram", WIDTH, height, f"Frame lengths of payloads of {size} bytes, plain CAN and 8B9B",
                   " ".join(describe(runs, size)), parts)
