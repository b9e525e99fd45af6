"""What every picture has: its size, its title and its description, and text."""
from html import escape


def text(x, y, words, anchor="middle", kind=""):
    named = f' class="{kind}"' if kind else ""
    return f'<text{named} x="{x:.1f}" y="{y:.1f}" text-anchor="{anchor}">{escape(words)}</text>'


def picture(name, width, height, title, description, parts):
    return "\n".join([
        f'<svg id="{name}" viewBox="0 0 {width} {height:.0f}" role="img" aria-labelledby="{name}-title {name}-description">',
        f'<title id="{name}-title">{escape(title)}</title>',
        f'<desc id="{name}-description">{escape(description)}</desc>', *parts, "</svg>"])


class Axis:
    """Lengths in bits from left to right; each bit has a column of its own."""

    def __init__(self, first, last, left, right):
        self.first, self.last, self.left, self.right = first, last, left, right
        self.step = (right - left) / (last - first + 1)

    def x(self, length):
        return self.left + (length - self.first + 0.5) * self.step

    def edges(self, least, most):
        return self.x(least) - self.step / 2, self.x(most) + self.step / 2

    def grid(self, top, bottom, every=10):
        for length in range(-(-self.first // every) * every, self.last + 1, every):
            x = self.x(length)
            yield f'<line class="grid" x1="{x:.1f}" x2="{x:.1f}" y1="{top:.1f}" y2="{bottom:.1f}"/>'
            yield text(x, bottom + 13, str(length))
        yield text((self.left + self.right) / 2, bottom + 29, "frame length in bits")
