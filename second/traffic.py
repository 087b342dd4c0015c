"""Random scripts and calls for the uplink scheduler, all fixed by a seed and an index.

A kind of traffic is a table, a habit of lengths and a few phases (bursts, drains,
full queues, reopenings ...) that follow one another until the script is long enough.
Nothing here knows how the scheduler decides: only what a script may look like.
"""

import hashlib
from dataclasses import dataclass

INPUT_LIMIT = 65_536
LARGEST_NUMBER = 4_294_967_295


class Dice:
    """A random source of our own, so that a seed makes the same script under every Python."""

    def __init__(self, *names):
        digest = hashlib.sha256(repr(names).encode()).digest()
        self.state = int.from_bytes(digest[:8], "big")

    def below(self, limit):
        self.state = (self.state + 0x9E3779B97F4A7C15) % 2**64
        word = self.state
        word = (word ^ (word >> 30)) * 0xBF58476D1CE4E5B9 % 2**64
        word = (word ^ (word >> 27)) * 0x94D049BB133111EB % 2**64
        return (word ^ (word >> 31)) % limit

    def between(self, low, high):
        return low + self.below(high - low + 1)

    def one_of(self, choices):
        return choices[self.below(len(choices))]

    def chance(self, percent):
        return self.below(100) < percent


# Tables: lists of rows, a row being a share and a largest packet.

def even_table(dice):
    return [(15, dice.one_of([40, 200, 1500]))] * 64


def camera_table(dice):
    return [(700, 1500)] + [(5, dice.between(16, 200)) for _ in range(60)]


def slow_table(dice):
    """Shares 1, 10 and 11 leave most of the link unclaimed, so that leaps are frequent."""
    shares = [dice.one_of([1, 10, 11]) for _ in range(dice.between(2, 12))]
    alike = dice.chance(70)
    return [(share, 100 * share if alike else dice.between(1, 1500)) for share in shares]


def equal_table(dice):
    number_of_flows = dice.between(2, 8)
    share = dice.one_of([1, 10, 100, 125, 1000 // number_of_flows])
    return [(share, dice.one_of([10, 100]))] * number_of_flows


def alike_table(dice):
    """Flows that are all alike, with short packets: their tags are often equal."""
    number_of_flows = dice.one_of([3, 10, 64])
    return [(dice.one_of([1, 10, 1000 // number_of_flows]), dice.between(1, 3))] * number_of_flows


def half_table(dice):
    """Shares of 500 with whole packets: tags come to be exactly 2 leap widths above the clock."""
    return [(500, dice.one_of([1, 100, 1500]))] * dice.between(1, 2)


def mixed_table(dice):
    rows, rest = [], 1000
    for _ in range(dice.between(1, 64)):
        if rest > 0:
            share = dice.between(1, min(rest, dice.one_of([1, 20, 100, 1000])))
            rows.append((share, dice.between(1, dice.one_of([1, 100, 1500]))))
            rest -= share
    return rows


def single_table(dice):
    return [(dice.one_of([1, 10, 11, 500, 999, 1000]), dice.one_of([1, 2, 100, 1500]))]


def exact_table(dice):
    """Shares that sum to 999, 1,000 or 1,001."""
    shares = [share for share, _ in mixed_table(dice)][:63]
    shares_sum = dice.between(999, 1001)
    while sum(shares) >= shares_sum:
        shares.pop()
    shares.append(shares_sum - sum(shares))
    return [(share, dice.between(1, 1500)) for share in shares]


def edge_table(dice):
    """A usual table with a few rows at or beyond the edge."""
    rows = dice.one_of([equal_table, single_table, slow_table])(dice)
    for _ in range(dice.between(1, 4)):
        share = dice.one_of([0, 1, 1, 1, 10, 1000, 1001, 65_537, LARGEST_NUMBER])
        largest = dice.one_of([0, 1, 1, 100, 1500, 1501, 65_537, LARGEST_NUMBER])
        rows.insert(dice.below(len(rows) + 1), (share, largest))
    return rows


def long_table(dice):
    row = (dice.one_of([1, 15]), dice.between(1, 200))
    return [row] * dice.one_of([1, 63, 64, 64, 64, 65, 66, 70])


def empty_table(_dice):
    return []


def is_in_range(row):
    share, largest = row
    return 1 <= share <= 1000 and 1 <= largest <= 1500


# Lengths, for a flow's largest packet.

def any_length(dice, largest):
    return dice.between(1, largest)


def largest_length(_dice, largest):
    return largest


def edge_length(dice, largest):
    return dice.one_of([1, largest, largest, dice.between(1, largest)])


@dataclass(frozen=True)
class Kind:
    """A kind of traffic. The last three are percentages: of arrivals with a wrong flow or length,
    of lines with a damaged one before them, of numbers with zeros before them."""
    table: object
    length: object
    phases: str
    wrong: int = 2
    damage: int = 1
    zeros: int = 5


class Traffic:
    """The calls of one script, one after the other, as a letter and numbers."""

    def __init__(self, dice, kind):
        self.dice = dice
        self.kind = kind
        self.rows = kind.table(dice)
        self.favourites = []
        self.waiting = 0

    def calls(self):
        for row in self.rows:
            yield ("f", *row)
        yield from self.before_opening()
        yield ("o",)
        phases = self.kind.phases.split()
        while True:
            self.choose_favourites()
            yield from getattr(self, self.dice.one_of(phases))()

    def before_opening(self):
        for _ in range(self.dice.between(0, 3)):
            yield self.dice.one_of([("p",), ("a", 0, 1, 1)])

    def choose_favourites(self):
        """The flows of the next phase: all of them, or one to four."""
        everyone = range(max(1, len(self.rows)))
        some = [self.dice.one_of(everyone) for _ in range(self.dice.between(1, 4))]
        self.favourites = everyone if self.dice.chance(50) else some

    # Single calls.

    def arrival(self, flow):
        if self.dice.chance(self.kind.wrong):
            return self.wrong_arrival(flow)
        self.waiting += 1
        return ("a", flow, self.kind.length(self.dice, self.largest(flow)), self.handle())

    def wrong_arrival(self, flow):
        number, largest = len(self.rows), self.largest(flow)
        if self.dice.chance(50):
            wrong_flow = self.dice.one_of([number, number + 1, 64, 256 + flow, 65_536 + flow,
                                           LARGEST_NUMBER])
            return ("a", wrong_flow, self.dice.one_of([0, 1, largest, 1501]), self.handle())
        wrong_length = self.dice.one_of([0, largest + 1, 1501, 65_536, 65_536 + largest,
                                         LARGEST_NUMBER])
        return ("a", flow, wrong_length, self.handle())

    def largest(self, flow):
        """The flow's largest packet, kept in the range that an opening takes."""
        largest = self.rows[flow][1] if flow < len(self.rows) else 1
        return min(max(largest, 1), 1500)

    def handle(self):
        small, great = self.dice.below(1000), self.dice.below(LARGEST_NUMBER + 1)
        return self.dice.one_of([small, small, small, great, 0, LARGEST_NUMBER])

    def pick(self):
        self.waiting = max(0, self.waiting - 1)
        return ("p",)

    def favourite(self):
        return self.dice.one_of(self.favourites)

    # Phases.

    def mix(self):
        """Arrivals and picks, at random."""
        picks = self.dice.one_of([30, 45, 50, 55, 70])
        for _ in range(self.dice.between(20, 150)):
            yield self.pick() if self.dice.chance(picks) else self.arrival(self.favourite())

    def burst(self):
        for _ in range(self.dice.between(10, 150)):
            yield self.arrival(self.favourite())

    def drain(self):
        """Picks until nothing waits, and a few more."""
        most = 64 * len(self.rows)
        for _ in range(min(self.waiting, most) + self.dice.between(1, 3)):
            yield self.pick()
        self.waiting = 0

    def idle(self):
        for _ in range(self.dice.between(1, 20)):
            yield self.pick()

    def single(self):
        """A packet at a time, each picked, with an Idle now and then."""
        for _ in range(self.dice.between(5, 40)):
            yield self.arrival(self.favourite())
            yield self.pick()
            if self.dice.chance(30):
                yield self.pick()

    def meet(self):
        """A packet at each flow, from any one on, and fewer picks or as many."""
        number_of_flows = len(self.rows)
        start = self.dice.below(number_of_flows)
        for k in range(number_of_flows):
            yield self.arrival((start + k) % number_of_flows)
        for _ in range(self.dice.between(1, number_of_flows)):
            yield self.pick()

    def fill(self):
        """Arrivals at one flow until its 64 places are taken, and a few more."""
        flow = self.favourite()
        for _ in range(self.dice.between(60, 70)):
            yield self.arrival(flow)

    def top_up(self):
        """A pick now and then while arrivals keep coming at full queues."""
        for _ in range(self.dice.between(10, 40)):
            yield self.pick()
            for _ in range(self.dice.between(1, 3)):
                yield self.arrival(self.favourite())

    def wrong(self):
        for _ in range(self.dice.between(3, 15)):
            yield self.wrong_arrival(self.favourite())

    def reopen(self):
        yield ("o",)
        self.waiting = 0

    def grow(self):
        """One more row, and an opening with it, sooner or later."""
        row = self.dice.one_of(self.rows or [(1, 1)])
        if self.dice.chance(50):
            row = (self.dice.between(1, 3), self.dice.between(1, 1500))
        yield from self.add(row)
        yield from self.mix()
        yield from self.reopen()

    def insist(self):
        """Openings one after the other, with a call or two between them."""
        for _ in range(self.dice.between(5, 20)):
            yield from self.reopen()
            yield self.arrival(self.favourite())
            if self.dice.chance(50):
                yield self.pick()

    def worsen(self):
        """A step on the way from no rows over a good table to ever worse ones, with openings."""
        shares_sum = sum(share for share, _ in self.rows)
        if not self.rows:
            worse = equal_table(self.dice)
        elif shares_sum <= 1000:
            worse = [(1001 - shares_sum, 100)]
        elif all(is_in_range(row) for row in self.rows):
            worse = [self.dice.one_of([(0, 0), (0, 1), (1001, 1), (1, 0), (1, 1501), (1000, 1501)])]
        else:
            worse = [(1, 1)] * (66 - len(self.rows))
        for row in worse:
            yield from self.add(row)
        yield from self.insist()

    def add(self, row):
        self.rows = self.rows + [row]
        yield ("f", *row)


KINDS = {
    "even": Kind(even_table, any_length, "mix mix burst drain top_up"),
    "camera": Kind(camera_table, edge_length, "mix mix burst drain top_up single"),
    "leaps": Kind(slow_table, edge_length, "mix burst fill drain single"),
    "ties": Kind(equal_table, largest_length, "mix burst burst drain single"),
    "turns": Kind(alike_table, any_length, "meet meet mix single drain"),
    "halves": Kind(half_table, largest_length, "burst mix drain drain single"),
    "full": Kind(equal_table, any_length, "fill fill burst top_up top_up drain", wrong=3),
    "mixed": Kind(mixed_table, any_length, "mix burst drain fill top_up single idle"),
    "single": Kind(single_table, edge_length, "mix fill top_up drain single"),
    "exact": Kind(exact_table, edge_length, "mix burst drain reopen", wrong=10),
    "edge": Kind(edge_table, edge_length, "mix wrong idle insist", wrong=20),
    "long": Kind(long_table, any_length, "mix burst drain reopen"),
    "reopened": Kind(slow_table, edge_length, "mix fill burst reopen reopen grow"),
    "refused": Kind(empty_table, edge_length, "mix mix fill top_up drain wrong insist insist worsen",
                    wrong=10),
    "damaged": Kind(slow_table, edge_length, "mix mix fill drain reopen grow", wrong=10, damage=35),
    "idle": Kind(mixed_table, any_length, "idle idle drain single burst"),
    "numbers": Kind(mixed_table, edge_length, "mix drain wrong", wrong=20, damage=10, zeros=90),
    "bursts": Kind(mixed_table, any_length, "burst burst burst drain"),
    "limits": Kind(equal_table, edge_length, "mix drain wrong wrong single reopen", wrong=30),
}


# Writing calls as lines.

def written_number(dice, number, zeros):
    digits = str(number)
    return digits.zfill(dice.between(len(digits), 10)) if dice.chance(zeros) else digits


def written_call(dice, call, zeros):
    letter, *numbers = call
    return " ".join([letter] + [written_number(dice, number, zeros) for number in numbers]).encode()


DAMAGED_NUMBERS = [b"", b"4294967296", b"4294967295", b"9999999999", b"10000000000", b"00000000001",
                   b"00004294967295", b"18446744073709551617", b"-1", b"+1", b"1_0", b"0x1", b"1e1",
                   b"1.0", b"a", b"\xd9\xa1", b"\xef\xbc\x91", b"\xb2"]

DAMAGED_LINES = [b"f", b"a", b"o o", b"p p", b"q", b"oo", b"bad", b"p 0", b"# p",
                 b"\xef\xbb\xbfp"]

STRANGE_BYTES = b"\0\t\v\f\r\n\n \x1c\x7f\x80\x85\xa0\xff/:"


def damaged_line(dice, line):
    """The line with something wrong; now and then it is still a call, perhaps another one."""
    spot = dice.below(len(line) + 1)
    start, end = line[:spot], line[spot:]
    parts = line.split(b" ")
    part = dice.below(len(parts))
    with_other_number = b" ".join(parts[:part] + [dice.one_of(DAMAGED_NUMBERS)] + parts[part + 1:])
    return dice.one_of([
        b"", b" ", b" " + line, line + b" ", line + b"\r", line + b" 1", line.upper(), line[1:],
        line.replace(b" ", b"  ", 1), line.replace(b" ", b"\t", 1), line.replace(b" ", b"", 1),
        b" ".join(parts[:-1]), b" ".join(parts + parts[-1:]), start, end, start + end[1:],
        start + bytes([dice.one_of(STRANGE_BYTES)]) + end,
        start + bytes([dice.below(256)]) + end[1:],
        bytes(dice.below(256) for _ in range(dice.below(12))),
        dice.one_of(DAMAGED_LINES),
        with_other_number, with_other_number, with_other_number, with_other_number,
    ])


def script_of_kind(kind, dice, size):
    """A script of exactly `size` bytes, so mostly cut inside its last line."""
    text = bytearray()
    for call in Traffic(dice, kind).calls():
        line = written_call(dice, call, kind.zeros)
        if dice.chance(kind.damage):
            text += damaged_line(dice, line) + b"\n"
        text += line + b"\n"
        if len(text) >= size:
            return bytes(text[:size])


def without_cut_line(script):
    return script[:script.rfind(b"\n") + 1]


def with_end_at_limit(script, end):
    """The script with the first byte of `end` as the last byte that the program reads."""
    start = without_cut_line(script[:INPUT_LIMIT - 2])
    filler = b"0" * (INPUT_LIMIT - 2 - len(start)) + b"\n"
    return start + filler + end


ENDS_AT_LIMIT = [b"p", b"p\n", b"pp\n", b"p\np\n", b"\n", b"\np\n", b"0p\n"]


def random_size(dice):
    low, high = dice.one_of([(0, 60), (60, 600), (60, 600), (600, 3000), (600, 3000), (600, 3000),
                             (3000, 10_000), (3000, 10_000), (10_000, 30_000), (30_000, 72_000)])
    return dice.between(low, high)


def random_script(seed, index):
    dice = Dice("script", seed, index)
    kind = KINDS[dice.one_of(sorted(KINDS))]
    if dice.chance(2):
        script = script_of_kind(kind, dice, INPUT_LIMIT)
        return with_end_at_limit(script, dice.one_of(ENDS_AT_LIMIT))
    script = script_of_kind(kind, dice, random_size(dice))
    return without_cut_line(script) if dice.chance(50) else script


# Calls without a script: an opening has a header, which no script can give.

def random_header(dice):
    """A header in bytes that an opening takes."""
    return dice.one_of([0, 1, 12, 12, 64, 64, dice.between(0, 64)])


def refused_header(dice):
    return dice.one_of([65, 65, 256, 65_536, LARGEST_NUMBER])


def damaged_header(dice, header):
    """What a record's 16 bits for the header may come to hold; now and then it is no other one."""
    return dice.one_of([0, 1, 12, 63, 64, 65, 128, 255, 256, 32_768, 65_535, header + 1])


def damaged_turn(dice, turn):
    """What a record's 64 bits for the turn may come to hold; now and then it is a good one."""
    return dice.one_of([0, 1, 8, 9, 62, 63, turn + 1, dice.below(64), 64, 65, 127, 255, 256, 65_536, turn + 64, 2**32,
                        2**63, 2**64 - 64, 2**64 - 1]) % 2**64


def random_calls(seed, index):
    """Calls without an end: "o", shares, largest packets, header; "a", flow, length, handle; "p".
    Half of the openings come after one whose header is refused."""
    dice = Dice("calls", seed, index)
    kind = KINDS[dice.one_of(sorted(KINDS))]
    rows = []
    for letter, *numbers in Traffic(dice, kind).calls():
        if letter == "f":
            rows.append(numbers)
        elif letter == "o":
            table = [share for share, _ in rows], [largest for _, largest in rows]
            if dice.chance(50):
                yield ("o", *table, refused_header(dice))
            yield ("o", *table, random_header(dice))
        else:
            yield (letter, *numbers)
