"""Random contents and blocks of the log card, and damage to them, for its tests: those of this folder, tools/card,
tools/damage and the one from outside.
"""

import card
import traffic
from card import Entry

# Numbers at which a field of 32 or 64 bits, or a sum of it, can go wrong.
HANDLES = [0, 1, 255, 256, 65_535, 65_536, 2**24, 2**31, 2**32 - 1]
CLOCKS = [0, 1, 255, 256, 2**16, 2**32 - 1, 2**32, 2**62 - 1, 2**62, 2**63, 2**64 - 1]
NUMBERS = [0, 1, 255, 256, 65_535, 2**31, 2**32 - 2, 2**32 - 1]
COUNTS = [1, 2, 30, 31]
# Both sides of each limit: the place of a field in a block or in an entry, its bytes, and values.
HEAD_EDGES = [(4, 1, [0, 1, 30, 31, 32, 33, 255]), *((place, 1, [0, 1]) for place in range(5, card.FIRST_ENTRY))]
ENTRY_EDGES = [(0, 1, [0, 1, 2, 3, 4, 5, 6, 7, 8, 255]), (1, 1, [0, 62, 63, 64, 65, 127, 128, 255]),
               (2, 2, [0, 1, 2, 255, 256, 257, 1499, 1500, 1501, 1502, 1791, 1792, 2048, 65_535]),
               (4, 4, [0, 1, 2**32 - 1]), (8, 8, [0, 1, 2**62, 2**64 - 1])]


def block_of(number, entries):
    """The block of a content that is not refused."""
    block = bytearray(card.BLOCK_BYTES)
    card.write_block(number, entries, block)
    return bytes(block)


def with_right_sums(block):
    data = bytes(block[:card.SUMS])
    return data + card.bytes_of_sums(data)


def with_field(block, place, size, value):
    return block[:place] + value.to_bytes(size, "little") + block[place + size:]


def with_byte(block, place, value):
    return with_field(block, place, 1, value)


# Legal blocks by the place of a stored sum that is 0, since it is 65,535 before the remainder.
# The first sum: the count 20; 19 entries of 2 + 63 + 255 + 4 + 4 x 255 + 8 x 255 = 3,384; one of 1 + 1 + 4 x 255 + 197.
# The second: 504 for the count, 496 + 494 for kind and length, 5 x 508 for the block's number, 3 x 492 + 489 for the
# handle and 122 x 488 for the clock.
BLOCKS_OF_SUM_0 = {
    508: block_of(0, [Entry(card.PICK, 63, 1279, 2**32 - 1, 2**64 - 1)] * 19
                  + [Entry(card.ARRIVAL, 0, 1, 2**32 - 1, 197)]),
    510: block_of(5, [Entry(card.ARRIVAL, 0, 1, 0x01000003, 122)])}


def with_65_535_for_0():
    """These blocks with 65,535 in the place of that 0: a wrong sum."""
    return [with_field(block, place, 2, 65_535) for place, block in BLOCKS_OF_SUM_0.items()]


def content_or_refusal(block):
    """The block's number and entries, or the refusal's number."""
    try:
        return card.read_block(block)
    except card.Refusal as refusal:
        return refusal.number


def at_edges(block, edges):
    """The block with one field after the other at each of its values, the sums put right again."""
    return [with_right_sums(with_field(block, place, size, value)) for place, size, values in edges for value in values]


class BlockMaker:
    """Random contents that are not refused, with corners of every field, and damage to their blocks."""

    def __init__(self, *names):
        self.dice = traffic.Dice("block", *names)

    def entry(self):
        return card.IDLE_ENTRY if self.dice.chance(25) else self.packet_entry()

    def packet_entry(self):
        """An arrival or a pick."""
        return Entry(self.dice.one_of([card.ARRIVAL, card.PICK, card.LEAP]),
                     self.dice.one_of([self.dice.one_of([0, 63]), self.dice.below(64)]),
                     self.dice.one_of([self.dice.one_of([1, 255, 256, 1499, 1500]), self.dice.between(1, 1500)]),
                     self.dice.one_of([self.dice.one_of(HANDLES), self.dice.below(1000), self.dice.below(2**32)]),
                     self.dice.one_of([self.dice.one_of(CLOCKS), self.dice.below(10**9), self.dice.below(2**64)]))

    def content(self):
        """A block's number and entries."""
        count = self.dice.one_of([self.dice.one_of(COUNTS), self.dice.between(1, card.MOST_ENTRIES)])
        number = self.dice.one_of([self.dice.one_of(NUMBERS), self.dice.below(2**32)])
        return number, [self.entry() for _ in range(count)]

    def block(self):
        return block_of(*self.content())

    def edge_blocks(self):
        """A block with one field after the other on either side of a limit, the sums put right again: in the head, in
        an arrival or a pick, in an Idle, in the entry behind it and in the last one; a full block so in the head."""
        number, others = self.content()
        packet = self.dice.below(min(len(others), 29) + 1)
        entries = [*others[:packet], self.packet_entry(), *others[packet:29], card.IDLE_ENTRY]
        edges = list(HEAD_EDGES)
        for entry in sorted({packet, len(entries) - 1, min(len(entries), 30), 30}):
            start = card.FIRST_ENTRY + card.ENTRY_BYTES * entry
            edges += [(start + place, size, values) for place, size, values in ENTRY_EDGES]
        full = block_of(number, [self.entry() for _ in range(card.MOST_ENTRIES)])
        return at_edges(block_of(number, entries), edges) + at_edges(full, HEAD_EDGES)

    def other_value(self, value):
        """Another value of a byte, mostly close by."""
        close = [value ^ 1, value ^ 128, (value + 1) % 256, (value - 1) % 256, 255 if value == 0 else 0]
        return self.dice.one_of([*close, (value + self.dice.between(1, 255)) % 256])

    def damaged_bytes(self, block):
        """The block with each of its 512 bytes damaged, one at a time, and nothing put right."""
        return [with_byte(block, place, self.other_value(value)) for place, value in enumerate(block)]

    def random_bytes(self, size):
        return bytes(self.dice.below(256) for _ in range(size))
