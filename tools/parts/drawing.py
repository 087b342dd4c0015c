"""A drawing as SVG on A3, in grey, the same bytes on every machine: coordinates have two decimals, logarithms are
decimal ones, and there is no date in it."""

from decimal import Decimal
from xml.sax.saxutils import escape, quoteattr

# A3 landscape, three units a millimetre: a text of 15 units is 5 mm high.
WIDTH, HEIGHT = 1260, 891
BLACK, DARK, MIDDLE, LIGHT, PALE, WHITE = "#000000", "#404040", "#808080", "#c8c8c8", "#ececec", "#ffffff"
TITLE, HEADING, LABEL = 30, 20, 15
DASHED, DOTTED = "9 6", "2 4"


def straight(low, high, start, end):
    """From a figure between low and high to a place between start and end."""
    return lambda figure: start + (end - start) * (figure - low) / (high - low)


def logarithmic(low, high, start, end):
    place = straight(Decimal(low).log10(), Decimal(high).log10(), Decimal(start), Decimal(end))
    return lambda figure: float(place(Decimal(figure).log10()))


def written(value):
    return value if isinstance(value, str) else f"{value:.2f}"


def attributes(named):
    return "".join(f" {name.replace('_', '-')}={quoteattr(written(value))}" for name, value in named.items())


class Drawing:
    def __init__(self, title, description):
        self.elements = [f"<title>{escape(title)}</title>", f"<desc>{escape(description)}</desc>",
                         f'<rect width="{WIDTH}" height="{HEIGHT}" fill="{WHITE}"/>']
        self.text(60, 50, title, size=TITLE, font_weight="bold")

    def add(self, name, **named):
        self.elements.append(f"<{name}{attributes(named)}/>")

    def line(self, x1, y1, x2, y2, stroke=BLACK, width=1.0, **named):
        self.add("line", x1=x1, y1=y1, x2=x2, y2=y2, stroke=stroke, stroke_width=width, **named)

    def path(self, points, width=1.5, stroke=BLACK, **named):
        places = " ".join(f"{written(x)},{written(y)}" for x, y in points)
        self.add("polyline", points=places, fill="none", stroke=stroke, stroke_width=width, **named)

    def shape(self, points, fill=BLACK, **named):
        places = " ".join(f"{written(x)},{written(y)}" for x, y in points)
        self.add("polygon", points=places, fill=fill, **named)

    def box(self, x1, y1, x2, y2, fill="none", **named):
        self.add("rect", x=min(x1, x2), y=min(y1, y2), width=abs(x2 - x1), height=abs(y2 - y1), fill=fill, **named)

    def dot(self, x, y, radius, fill=BLACK, **named):
        self.add("circle", cx=x, cy=y, r=radius, fill=fill, **named)

    def text(self, x, y, words, size=LABEL, anchor="start", fill=BLACK, **named):
        head = attributes(dict(x=x, y=y, font_size=size, text_anchor=anchor, fill=fill, **named))
        self.elements.append(f"<text{head}>{escape(words)}</text>")

    def label(self, x, y, lines, size=LABEL, anchor="start", ground=WHITE):
        """Lines of text on a ground of their own, so that nothing drawn before goes through them. A letter is taken to
        be 0.53 times as wide as the text is high, as in wide letters."""
        wide, below = 0.53 * size * max(map(len, lines)), y + 1.4 * size * (len(lines) - 1)
        start = {"start": x, "end": x - wide}[anchor]
        self.box(start - 4, y - size, start + wide + 4, below + 0.35 * size, fill=ground)
        for number, words in enumerate(lines):
            self.text(x, y + 1.4 * size * number, words, size, anchor)

    def content(self):
        head = (f'<svg xmlns="http://www.w3.org/2000/svg" width="420mm" height="297mm" viewBox="0 0 {WIDTH} {HEIGHT}" '
                'font-family="sans-serif">')
        return "\n".join([head, *self.elements, "</svg>", ""]).encode()
