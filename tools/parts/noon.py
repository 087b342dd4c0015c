"""The second picture for the wall: the customer's table at noon, the same picks under two clocks."""

import sys

from parts import drawing
from parts.drawing import BLACK, DARK, DASHED, DOTTED, HEADING, LIGHT, MIDDLE, PALE
from parts.programs import picks

CAMERA_SHARE, FRAME = 700, 1500
LOGGERS, LOGGER_SHARE, PACKET = 60, 5, 64
# Before noon every sixth logger has eight packets waiting, and forty picks are made: these ten have the link to
# themselves and run ahead of the clock. At noon the camera's frames come, and a packet at each other logger.
EARLY = range(6, LOGGERS + 1, 6)
PACKETS_OF_EARLY, PICKS_BEFORE_NOON, FRAMES = 8, 40, 10


def script():
    rows = [f"f {CAMERA_SHARE} {FRAME}"] + [f"f {LOGGER_SHARE} {PACKET}"] * LOGGERS
    early = [f"a {flow} {PACKET} {packet}" for packet in range(PACKETS_OF_EARLY) for flow in EARLY]
    late = ([f"a 0 {FRAME} {frame}" for frame in range(FRAMES)]
            + [f"a {flow} {PACKET} 0" for flow in range(1, LOGGERS + 1) if flow not in EARLY])
    before = ["p"] * PICKS_BEFORE_NOON
    after = ["p"] * (len(early) + len(late) - PICKS_BEFORE_NOON)
    return "".join(line + "\n" for line in rows + ["o"] + early + before + late + after).encode()


# The page: two panels with their tracks, link time to the right. Heights are counted from a panel's top.
NAMES_LEFT, LEFT, RIGHT = 30, 185, 1205
PANELS_TOP, PANEL = 120, 370
NUMBERS, CAMERA, BAND, SLACK, CLOCK = (22, 46), (48, 68), (72, 160), (176, 234), (250, 322)
MOST_SLACK, MOST_CLOCK = 20_000_000, 70_000_000
# What is written in the band, and from how many bytes sent on.
REMARKS = [(2900, ["the ten that sent before noon", "are ahead of the clock, and wait"]),
           (13_500, ["the other fifty have sent", "a packet each"])]
NAMES = [(63, "camera"), (112, "loggers"), (130, "1 to 60"), (200, "tag less clock,"), (218, "million ticks"),
         (281, "own clock,"), (299, "million ticks")]


class Panel:
    """One engine's picks: who sends, how far the packet's tag is ahead of the clock, and the clock."""

    def __init__(self, page, top, picks_of_engine, leap_width):
        self.page, self.top, self.picks, self.leap_width = page, top, picks_of_engine, leap_width
        self.moments = [0]
        for pick in self.picks:
            self.moments.append(self.moments[-1] + 720 * pick.length)
        self.across = drawing.straight(0, self.moments[-1], LEFT, RIGHT)
        self.slack = drawing.straight(0, MOST_SLACK, *self.heights(SLACK))
        self.clock = drawing.straight(0, MOST_CLOCK, *self.heights(CLOCK))

    def heights(self, track):
        """The lower and the upper edge of the track."""
        upper, lower = track
        return self.top + lower, self.top + upper

    def sendings(self):
        """Each pick with the link time before and after it."""
        return zip(self.picks, self.moments, self.moments[1:])

    def draw(self, heading, what_the_clock_is):
        self.page.text(LEFT, self.top + 12, heading, HEADING, font_weight="bold")
        for height, words in NAMES:
            self.page.text(NAMES_LEFT, self.top + height, words)
        self.draw_scale(self.slack, MOST_SLACK, 10)
        self.draw_scale(self.clock, MOST_CLOCK, 20)
        self.draw_link_time()
        self.draw_senders()
        self.draw_noon_and_leaps()
        self.draw_slack()
        self.page.label(self.across(720 * 5000), self.clock(47_000_000), [what_the_clock_is])
        self.draw_clock()

    def draw_scale(self, level, most, step):
        for millions in range(0, most // 1_000_000 + 1, step):
            height = level(millions * 1_000_000)
            self.page.line(LEFT, height, RIGHT, height, stroke=LIGHT)
            self.page.text(LEFT - 8, height + 5, f"{millions}", anchor="end")
        self.page.line(LEFT, level(0), LEFT, level(most))

    def draw_link_time(self):
        lower, _ = self.heights(CLOCK)
        self.page.line(LEFT, lower, RIGHT, lower)
        for sent in range(0, self.moments[-1] // 720 + 1, 5000):
            x = self.across(720 * sent)
            self.page.line(x, lower, x, lower + 5)
            self.page.text(x, lower + 20, f"{sent:,}", anchor="middle")

    def draw_senders(self):
        """A row for the camera and a band for the loggers, logger 1 at the bottom."""
        lower, upper = self.heights(BAND)
        row = drawing.straight(1, LOGGERS, lower - 3, upper + 3)
        camera_lower, camera_upper = self.heights(CAMERA)
        self.page.box(LEFT, lower, RIGHT, upper, fill=PALE)
        self.page.box(LEFT, camera_lower, RIGHT, camera_upper, fill=PALE)
        for pick, start, end in self.sendings():
            x1, x2 = self.across(start), self.across(end)
            if pick.flow == 0:
                self.page.box(x1 + 1, camera_lower - 2, x2 - 1, camera_upper + 2, fill=MIDDLE, stroke=BLACK)
            else:
                self.page.box(x1, row(pick.flow) - 2, x2, row(pick.flow) + 2, fill=BLACK)
        for bytes_sent, lines in REMARKS:
            self.page.label(self.across(720 * bytes_sent), upper + 40, lines, ground=PALE)

    def draw_noon_and_leaps(self):
        lower, _ = self.heights(CLOCK)
        tip, upper = self.heights(NUMBERS)
        noon = self.across(self.moments[PICKS_BEFORE_NOON])
        self.page.line(noon, upper, noon, lower, width=2, stroke_dasharray=DOTTED)
        self.page.text(noon + 6, upper + 14, "noon")
        leaps = [self.across(start) for pick, start, _ in self.sendings() if pick.leapt]
        for number, x in enumerate(leaps, start=1):
            self.page.line(x, tip, x, lower, stroke=DARK, stroke_dasharray=DASHED)
            draw_leap(self.page, x, tip)
            self.page.text(x, tip - 12, f"{number}", anchor="middle")

    def draw_slack(self):
        """The tag less the clock that the pick's reply tells, for as long as the packet is sent."""
        twice = self.slack(2 * self.leap_width)
        self.page.line(LEFT, twice, RIGHT, twice, stroke=DARK, stroke_dasharray=DOTTED)
        self.page.text(RIGHT + 6, twice + 5, "2Δ")
        points = []
        for pick, start, end in self.sendings():
            height = self.slack(pick.tag - pick.clock)
            points += [(self.across(start), height), (self.across(end), height)]
        self.page.path(points, width=2)

    def draw_clock(self):
        """A packet brings the clock on by what the link takes to send it; what is left is the leap."""
        points = []
        for pick, start, end in self.sendings():
            points.append((self.across(start), self.clock(pick.clock - (end - start))))
            points.append((self.across(end), self.clock(pick.clock)))
        link_time = [(self.across(moment), self.clock(moment)) for moment in (0, self.moments[-1])]
        self.page.path(link_time, width=1.5, stroke=DARK, stroke_dasharray=DOTTED)
        self.page.path(points, width=3)


def draw_leap(page, x, y):
    page.shape([(x - 6, y - 10), (x + 6, y - 10), (x, y)])


def draw_legend(page, y, leap_width):
    page.box(60, y - 12, 96, y + 2, fill=MIDDLE, stroke=BLACK)
    page.text(104, y, "a frame of the camera")
    page.box(290, y - 7, 293, y - 3, fill=BLACK)
    page.text(302, y, "a packet of a logger")
    draw_leap(page, 480, y)
    page.text(492, y, f"a leap, numbered; Δ is {leap_width:,} ticks")
    page.line(800, y - 5, 836, y - 5, width=3)
    page.text(844, y, "clock")
    page.line(920, y - 5, 956, y - 5, width=1.5, stroke=DARK, stroke_dasharray=DOTTED)
    page.text(964, y, "link time")


def width_of_first_leap(first):
    """Δ, read off the first engine's clock: what a leap adds to it beside the ticks of the packet."""
    before, pick = next(pair for pair in zip(first, first[1:]) if pair[1].leapt)
    return pick.clock - 720 * pick.length - before.clock


def without_tag_and_clock(engine_picks):
    return [pick._replace(tag=0, clock=0) for pick in engine_picks]


def picture(first_program, plain_program):
    first, plain = picks(first_program, script()), picks(plain_program, script())
    if without_tag_and_clock(first) != without_tag_and_clock(plain):
        sys.exit("wall: the two engines do not pick alike at noon")
    page = drawing.Drawing(
        "The camera's table at noon: the same picks under two clocks",
        "The picks of the first and of the plain engine, one above the other, link time to the right: a row for the "
        "camera, a band for the sixty loggers, the tag less the clock, the engine's own clock; the leaps are marked.")
    page.text(60, 76, f"The camera has booked {CAMERA_SHARE} thousandths and sends frames of {FRAME:,} bytes; sixty "
                      f"loggers have booked {LOGGER_SHARE} each and send packets of {PACKET}.")
    leap_width = width_of_first_leap(first)
    draw_legend(page, 100, leap_width)
    Panel(page, PANELS_TOP, first, leap_width).draw("First engine, leap forward: at a leap the clock goes up by Δ",
                                                    "the clock is the link time, and Δ for each leap so far")
    Panel(page, PANELS_TOP + PANEL, plain, leap_width).draw(
        "Plain engine, leap backward: at a leap every tag goes down by Δ", "the clock is the link time")
    words = "link time, in bytes sent"
    page.text(RIGHT, PANELS_TOP + PANEL - 10, words, anchor="end")
    page.text((LEFT + RIGHT) / 2, PANELS_TOP + 2 * PANEL - 4, words + " (a byte takes 720 ticks)", HEADING - 4, "middle")
    return page.content()
