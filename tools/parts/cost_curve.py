"""The first picture for the wall: the cost of a byte against share, and the supplier's clamp."""

from parts import drawing
from parts.drawing import BLACK, DARK, DASHED, DOTTED, LIGHT, PALE, WHITE
from parts.programs import picks

CLAMP = 65_535
CAMERA, LOGGER = 700, 5
LEFT, RIGHT, TOP, BOTTOM = 150, 1200, 130, 790
LEAST_COST, MOST_COST = 500, 1_000_000
WORDS = 18


def costs(program):
    """The cost of each share from 1 to 1,000, from runs of the program. The shares of a table sum to at most 1,000, so
    a run has two of them, or one."""
    found = {}
    for share in range(1, 501):
        table = [share, 1000 - share] if share < 500 else [share]
        found.update(zip(table, tags_of_one_byte(program, table)))
    found[1000], = tags_of_one_byte(program, [1000])
    return found


def tags_of_one_byte(program, shares):
    """The tags of packets of one byte that come at clock 0: each is what a byte of its flow costs."""
    flows = range(len(shares))
    calls = [f"f {share} 1" for share in shares] + ["o"] + [f"a {flow} 1 0" for flow in flows] + ["p" for _ in flows]
    return [pick.tag for pick in sorted(picks(program, "\n".join(calls).encode()))]


class Curve:
    def __init__(self, cost):
        self.cost = cost
        self.clamped = [share for share in sorted(cost) if cost[share] > CLAMP]
        self.drawing = drawing.Drawing(
            "The cost of a byte: 720,000 ticks / share, rounded up",
            "Ticks per byte against share, both axes logarithmic; the supplier's clamp at 65,535 and the shares 1 to "
            "10 that it made one; the camera's share of 700 and a logger's of 5.")
        self.across = drawing.logarithmic(1, 1000, LEFT, RIGHT)
        self.up = drawing.logarithmic(LEAST_COST, MOST_COST, BOTTOM, TOP)

    def place(self, share):
        return self.across(share), self.up(self.cost[share])

    def content(self):
        """What is drawn later lies over what is drawn before: the band, the grid, words, lines."""
        self.drawing.box(LEFT, TOP, self.edge_of_band(), BOTTOM, fill=PALE)
        self.draw_axes()
        self.draw_words()
        self.draw_clamp()
        self.draw_costs()
        return self.drawing.content()

    def edge_of_band(self):
        """Where the shares that the clamp made one end."""
        last = self.clamped[-1]
        return (self.across(last) + self.across(last + 1)) / 2

    def draw_axes(self):
        steps = [digit * 10**power for power in range(6) for digit in (1, 2, 5)] + [MOST_COST]
        for share in (step for step in steps if step <= 1000):
            self.drawing.line(self.across(share), TOP, self.across(share), BOTTOM, stroke=LIGHT)
            self.drawing.text(self.across(share), BOTTOM + 24, f"{share:,}", anchor="middle")
        for ticks in (step for step in steps if step >= LEAST_COST):
            self.drawing.line(LEFT, self.up(ticks), RIGHT, self.up(ticks), stroke=LIGHT)
            self.drawing.text(LEFT - 10, self.up(ticks) + 5, f"{ticks:,}", anchor="end")
        self.drawing.box(LEFT, TOP, RIGHT, BOTTOM, stroke=BLACK)
        words = "share of the link, in thousandths (logarithmic)"
        self.drawing.text((LEFT + RIGHT) / 2, BOTTOM + 60, words, WORDS, "middle")
        self.drawing.text(60, TOP - 24, "cost of a byte, in ticks (logarithmic)", WORDS)

    def draw_words(self):
        clamp, last = self.up(CLAMP), self.clamped[-1]
        words = f"the supplier's clamp: no cost above {CLAMP:,}, the most that 16 bits hold"
        self.drawing.label(RIGHT - 14, clamp - 14, [words], WORDS, "end")
        lines = [f"shares {self.clamped[0]} to {last} under the clamp:", f"{CLAMP:,} for each, so all of",
                 "them drew alike, as if", f"each had booked {720_000 / CLAMP:.2f}"]
        self.drawing.label(LEFT + 20, clamp + 42, lines, WORDS, ground=PALE)
        x, y = self.place(60)
        lines = ["the costs, as our program tells them:", "a dot for each share from 1 to 1,000"]
        self.drawing.label(x + 30, y - 20, lines, WORDS)
        x, y = self.place(LOGGER)
        beside = self.edge_of_band() + 12
        self.drawing.line(x, y, beside - 4, y)
        self.drawing.label(beside, y + 6, [f"a logger: share {LOGGER}, cost {self.cost[LOGGER]:,}"], WORDS)
        x, y = self.place(CAMERA)
        self.drawing.label(x - 22, y + 12, [f"the camera: share {CAMERA}, cost {self.cost[CAMERA]:,}"], WORDS, "end")

    def draw_clamp(self):
        """The pencil line, and on it where the clamp put the shares that cost more."""
        clamp = self.up(CLAMP)
        self.drawing.line(LEFT, clamp, RIGHT, clamp, stroke=DARK, width=2.5, stroke_dasharray=DASHED)
        for share in self.clamped:
            x, y = self.place(share)
            self.drawing.line(x, y, x, clamp, stroke=DARK, stroke_dasharray=DOTTED)
            self.drawing.dot(x, clamp, 6, fill=WHITE, stroke=BLACK, stroke_width=2)

    def draw_costs(self):
        self.drawing.path([self.place(share) for share in sorted(self.cost)])
        for share in sorted(self.cost):
            self.drawing.dot(*self.place(share), 3)
        for share in CAMERA, LOGGER:
            self.drawing.dot(*self.place(share), 11, fill="none", stroke=BLACK, stroke_width=3)


def picture(program):
    return Curve(costs(program)).content()
