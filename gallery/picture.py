"""A picture of curves and points over two axes, as an SVG of 720 pixels, in colours for light and for dark screens."""

from dataclasses import dataclass
from math import log10

WIDTH, HEIGHT = 720, 460
LEFT, RIGHT, BOTTOM = 92, 690, 396
LEGEND_TOP, LEGEND_HEIGHT, LEGEND_PLACES = 50, 20, (LEFT, LEFT + 300)
DOT = 4
LETTER, ROW, GAP = 7, 15, 10

# where words stand beside a point, in the order of liking: to the right, to the left, above and below
SIDES = ((1, 0), (-1, 0), (0, -1), (0, 1))
SUPERSCRIPTS = str.maketrans("-0123456789", "⁻⁰¹²³⁴⁵⁶⁷⁸⁹")
MOST_SPELT = 4

# each colour on light paper and on dark paper
COLOURS = {
    "paper": ("#ffffff", "#0d1117"),
    "ink": ("#111111", "#e6e6e6"),
    "faint": ("#dddddd", "#30363d"),
    "grey": ("#666666", "#a0a0a0"),
    "blue": ("#0b3d91", "#79b0ff"),
    "red": ("#a11d1d", "#ff8d85"),
    "green": ("#1a6b3a", "#63d297"),
    "orange": ("#9a5b00", "#f0b45a"),
}


@dataclass
class Axis:
    """An axis: its title with the unit, its ends, and the marks as pairs of a value and words."""

    title: str
    low: float
    high: float
    marks: list
    is_logarithmic: bool = False

    def share(self, value):
        """How far along the axis a value stands; what is beyond an end stands there."""
        value = min(max(float(value), self.low), self.high)
        low, high = self.low, self.high
        if self.is_logarithmic:
            low, high, value = log10(low), log10(high), log10(value)
        return (value - low) / (high - low)


def logarithmic(title, first, last, step=1, margin=1):
    """An axis of powers of ten, with a mark at each, or at each so many; it goes on by a factor at both ends."""
    marks = [(10.0**power, spelt_power(power)) for power in range(first, last + 1, step)]
    return Axis(title, 10.0**first / margin, 10.0**last * margin, marks, True)


def spelt_power(power):
    return f"{10**power:,}" if 0 <= power <= MOST_SPELT else f"10{str(power).translate(SUPERSCRIPTS)}"


def linear(title, low, high, count, places=1):
    """An axis from a low to a high value in so many parts."""
    values = [low + (high - low) * part / count for part in range(count + 1)]
    return Axis(title, low, high, [(value, f"{value:.{places}f}") for value in values])


class Picture:
    """Curves and points over two axes, below a title and a legend of one or two columns."""

    def __init__(self, title, across, up, legends=4):
        self.across, self.up, self.legends, self.parts, self.taken = across, up, 0, [], []
        self.top = LEGEND_TOP + LEGEND_HEIGHT * -(-legends // 2) + 14
        self.text(LEFT, 28, title, 16)
        for value, words in across.marks:
            x, _ = self.place(value, up.low)
            self.line([(x, self.top), (x, BOTTOM)], "faint", 1)
            self.text(x, BOTTOM + 20, words, 13, "middle")
        for value, words in up.marks:
            _, y = self.place(across.low, value)
            self.line([(LEFT, y), (RIGHT, y)], "faint", 1)
            self.text(LEFT - 8, y + 4, words, 13, "end")
        self.line([(LEFT, self.top), (LEFT, BOTTOM), (RIGHT, BOTTOM)], "ink", 1)
        self.text((LEFT + RIGHT) / 2, HEIGHT - 14, across.title, 14, "middle")
        self.text(20, (self.top + BOTTOM) / 2, up.title, 14, "middle", turned=True)

    def place(self, across, up):
        x = LEFT + (RIGHT - LEFT) * self.across.share(across)
        return x, BOTTOM - (BOTTOM - self.top) * self.up.share(up)

    def text(self, x, y, words, size, anchor="start", turned=False):
        turn = f' transform="rotate(-90 {x:.1f} {y:.1f})"' if turned else ""
        place = f'x="{x:.1f}" y="{y:.1f}" font-size="{size}" text-anchor="{anchor}"{turn}'
        self.parts.append(f'<text {place} {painted(fill="ink")}>{escaped(words)}</text>')

    def line(self, places, colour, width, dashes=""):
        joined = " ".join(f"{x:.1f},{y:.1f}" for x, y in places)
        dashed = f' stroke-dasharray="{dashes}"' if dashes else ""
        stroke = f'stroke-width="{width}"{dashed} {painted(stroke=colour)}'
        self.parts.append(f'<polyline points="{joined}" fill="none" {stroke}/>')

    def next_legend(self, name):
        """Writes a name at the next place of the legend, and says where its sign stands."""
        x = LEGEND_PLACES[self.legends % 2]
        y = LEGEND_TOP + LEGEND_HEIGHT * (self.legends // 2)
        self.legends += 1
        self.text(x + 42, y + 4, name, 13)
        return x, y

    def curve(self, name, pairs, colour, dashes=""):
        self.line([self.place(*pair) for pair in pairs], colour, 2, dashes)
        x, y = self.next_legend(name)
        self.line([(x, y), (x + 34, y)], colour, 2, dashes)

    def points(self, name, pairs, colour, shape, hollow=False):
        """Points of one kind, each a circle, a square or a triangle, filled or hollow."""
        x, y = self.next_legend(name)
        for place in [(x + 17, y), *(self.place(*pair) for pair in pairs)]:
            self.sign(*place, colour, shape, hollow)

    def link(self, one, other):
        """A faint line from one point to another one above or below it."""
        (x, y), (_, end) = self.place(*one), self.place(*other)
        self.line([(x, y), (x, end)], "grey", 1, "1 3")
        self.taken.append((x - 1, min(y, end), x + 1, max(y, end)))

    def sign(self, x, y, colour, shape, hollow=False):
        self.taken.append((x - 2 * DOT, y - 2 * DOT, x + 2 * DOT, y + 2 * DOT))
        paint = f'{painted(fill="paper", stroke=colour)} stroke-width="1.6"' if hollow else painted(fill=colour)
        if shape == "circle":
            self.parts.append(f'<circle cx="{x:.1f}" cy="{y:.1f}" r="{DOT}" {paint}/>')
            return
        corners = {"square": ((-1, -1), (1, -1), (1, 1), (-1, 1)), "triangle": ((0, -1.3), (1.2, 1), (-1.2, 1))}[shape]
        joined = " ".join(f"{x + DOT * right:.1f},{y + DOT * down:.1f}" for right, down in corners)
        self.parts.append(f'<polygon points="{joined}" {paint}/>')

    def dot(self, across, up, words, anchor="start", below=False):
        """A dot on a curve with words beside it, to the right or, with the anchor `end`, to the left."""
        x, y = self.place(across, up)
        self.sign(x, y, "ink", "circle")
        self.text(x + (10 if anchor == "start" else -10), y + (18 if below else -9), words, 13, anchor)

    def words(self, across, up, words):
        """Words beside a point, on no sign, link or other words and not on the frame; none where there is no room."""
        x, y = self.place(across, up)
        width = LETTER * len(words)
        for side, level in SIDES:
            left = x + GAP if side > 0 else x - GAP - width if side < 0 else x - width / 2
            middle = y + (GAP + ROW / 2) * level
            box = (left, middle - ROW / 2, left + width, middle + ROW / 2)
            if self.is_free(*box):
                self.taken.append(box)
                self.text(left, middle + 4, words, 12)
                return

    def is_free(self, left, top, right, bottom):
        inside = LEFT < left and right < RIGHT and self.top < top and bottom < BOTTOM
        return inside and not any(
            low < right and left < high and above < bottom and top < below for low, above, high, below in self.taken
        )

    def write(self, path):
        size = f'viewBox="0 0 {WIDTH} {HEIGHT}" width="{WIDTH}" height="{HEIGHT}"'
        head = f'<svg xmlns="http://www.w3.org/2000/svg" {size} font-family="sans-serif">'
        paper = f'<rect width="{WIDTH}" height="{HEIGHT}" {painted(fill="paper")}/>'
        text = "\n".join([head, style(), paper, *self.parts, "</svg>", ""])
        path.write_text(text, encoding="ascii", errors="xmlcharrefreplace")


def painted(**colours):
    """The attributes of `fill` and `stroke`: their colours on light paper, and classes that a dark screen repaints."""
    plain = " ".join(f'{what}="{COLOURS[colour][0]}"' for what, colour in colours.items())
    return f'{plain} class="{" ".join(f"{colour}-{what}" for what, colour in colours.items())}"'


def style():
    """What a dark screen changes."""
    rules = [
        f".{name}-{what} {{ {what}: {dark}; }}" for name, (_, dark) in COLOURS.items() for what in ("fill", "stroke")
    ]
    return "\n".join(["<style>", "@media (prefers-color-scheme: dark) {", *rules, "}", "</style>"])


def escaped(words):
    return words.replace("&", "&amp;").replace("<", "&lt;")
