"""Random records of the plain engine that were perhaps never opened, with memories and a call, for its tests: those of
this folder and the one from outside.
"""

import plain
import traffic
import uplink

# Numbers at which a sum of 64 bits, or one with a sign, can go wrong.
CORNERS = [0, 1, 2**31, 2**32, 2**61, 2**62 - 1, 2**62, 2**62 + 1, 2**62 + 1_127_206_079, 2**62 + 1_127_206_080,
           2**62 + 1_127_206_081, 2**63 - 1, 2**63, 2**63 + 1, 2**64 - 2, 2**64 - 1]


def signed(number):
    """The number as 64 bits with a sign hold it."""
    return (number + 2**63) % 2**64 - 2**63


class RecordMaker:
    """Random records and memories: well formed ones, on most of the form's edges, and then damage."""

    def __init__(self, *names):
        self.dice = traffic.Dice(*names)
        self.memories = uplink.Memories()

    def well_formed(self):
        """A well-formed record that was perhaps never opened: any clock, any sum up to it."""
        table = self.dice.one_of([traffic.equal_table, traffic.slow_table, traffic.mixed_table, traffic.single_table])
        rows = table(self.dice)
        shares, largest_packets = [row[0] for row in rows], [row[1] for row in rows]
        record = plain.opening(shares, largest_packets, traffic.random_header(self.dice), self.memories)
        clock = self.dice.one_of([0, self.dice.below(10**9), self.dice.below(2**62), 2**62 - 1 - self.dice.below(3),
                                  2**62, 2**62 + self.dice.below(1_127_206_080), 2**62 + 1_127_206_079])
        record.link_time = self.dice.one_of([0, clock, self.dice.below(clock + 1)])
        record.sum_of_widths = self.dice.one_of([0, clock, self.dice.below(clock + 1), clock - min(clock, 1)])
        record.clock = clock - record.sum_of_widths
        one_of_them = self.dice.below(record.number_of_flows)
        record.turn = self.dice.one_of([0, 63, record.number_of_flows % 64, self.dice.below(64), *[one_of_them] * 4])
        for f, flow in enumerate(record.flows):
            raised_tag = self.raised_tag(record, f, clock) if f < record.number_of_flows else 0
            flow.tag = raised_tag - record.sum_of_widths
        return record

    def raised_tag(self, record, f, clock):
        """Fills the flow's places, perhaps with nothing, and gives a tag that its form allows, the sum added."""
        flow, width = record.flows[f], record.leap_width
        flow.first = self.dice.below(64)
        flow.waiting = self.dice.one_of([0, 0, 1, 2, 64])
        for k in range(flow.waiting):
            place = uplink.place(f, flow.first, k)
            self.memories.lengths[place] = self.dice.one_of([1, flow.largest, self.dice.between(1, flow.largest)])
            self.memories.handles[place] = self.dice.below(2**32)
        if flow.waiting > 0:
            return clock + self.dice.one_of([0, 2 * width, 2 * width + 1, 3 * width, self.dice.below(3 * width + 1)])
        return self.dice.one_of([0, clock, clock + 2 * width, self.dice.below(clock + 2 * width + 1)])

    def damage(self, record):
        """One field becomes another number, mostly one that is close by or in a corner."""
        f = self.dice.below(64)
        self.dice.one_of([self.damage_sum, self.damage_sum, self.damage_tag, self.damage_tag, self.damage_tag,
                          self.damage_clocks, self.damage_turn, self.damage_the_rest,
                          self.damage_memories])(record, record.flows[f])

    def damage_sum(self, record, _flow):
        """Half the time clock and tags go with it by 64 bits: only a sum that does not wrap finds this out."""
        before = record.sum_of_widths
        record.sum_of_widths = self.dice.one_of(CORNERS + [before + 1, max(before - 1, 0), before + 2**63])
        if self.dice.chance(50):
            record.clock = (record.clock + before - record.sum_of_widths) % 2**64
            for flow in record.flows:
                flow.tag = signed(flow.tag + before - record.sum_of_widths)

    def damage_tag(self, record, flow):
        if self.dice.chance(50):
            flow = self.dice.one_of(record.table())
        clock, width, least = record.clock, record.leap_width, -record.sum_of_widths
        limits = [clock, clock + 2 * width, clock + 3 * width, least, 0, -2**63, 2**63 - 1, flow.tag]
        flow.tag = signed(self.dice.one_of(limits) + self.dice.one_of([-1, 0, 1]))

    def damage_clocks(self, record, _flow):
        name = self.dice.one_of(["clock", "link_time"])
        level = record.clock + record.sum_of_widths
        setattr(record, name, self.dice.one_of(CORNERS + [level, level + 1, level - min(level, 1)]) % 2**64)

    def damage_turn(self, record, _flow):
        record.turn = traffic.damaged_turn(self.dice, record.turn)

    def damage_the_rest(self, record, flow):
        name, numbers = self.dice.one_of([
            ("number_of_flows", [0, 1, 63, 64, 65, 65_535]), ("header", [0, 64, 65, 65_535]),
            ("leap_width", [0, record.leap_width + 1, 2**32 - 1]), ("share", [0, 1, 1001, 65_535]),
            ("largest", [0, 1, 1500, 1501, 65_535]), ("first", [0, 63, 64, 65_535]),
            ("waiting", [0, 1, 64, 65, 65_535])])
        setattr(flow if hasattr(flow, name) else record, name, self.dice.one_of(numbers))

    def damage_memories(self, _record, _flow):
        if self.dice.chance(30):
            memory = self.dice.one_of([self.memories.lengths, self.memories.handles])
            memory[4095:] = self.dice.one_of([[], [0, 0]])
        else:
            self.memories.lengths[self.dice.below(4096)] = self.dice.one_of([0, 1, 1501, 65_535])

    def call(self, record):
        if self.dice.chance(50):
            return ("p",)
        number = record.number_of_flows
        one_of_them = self.dice.below(max(number, 1))
        f = self.dice.one_of([0, one_of_them, one_of_them, number, 64, 2**32 - 1])
        largest = record.flows[f].largest if f < 64 else 1
        return ("a", f, self.dice.one_of([0, 1, largest, largest, largest + 1, 2**32 - 1]), self.dice.below(2**32))
