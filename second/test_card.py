"""The log card of the second program against document 02 d): a worked block, both sides of every limit, writer and
reader each undoing the other, damage, and the two programs.

Run with: python3 -m unittest discover second
"""

import itertools
import pathlib
import subprocess
import sys
from collections import Counter

import card
import examples
import plain
import test_uplink
import traffic
from blocks import (BLOCKS_OF_SUM_0, BlockMaker, block_of, content_or_refusal, with_65_535_for_0, with_byte,
                    with_right_sums)
from card import ARRIVAL, IDLE, LEAP, PICK, Entry

PROGRAM = pathlib.Path(__file__).with_name("card.py")

# Document 01's example script, as its block is worked out on paper. The first sum is 5 + (1 + 100 + 7) +
# (1 + 1 + 100 + 8) + (2 + 100 + 7 + 64 + 25 + 1) + (2 + 1 + 100 + 8 + 128 + 50 + 2) + 4 = 717 = 0x02CD. In the second a
# byte counts as often as there are running values from it on, 508 less its place: 330,157 in all, and 330,157 less
# 5 times 65,535 is 2,482 = 0x09B2.
WORKED_BLOCK = bytes.fromhex("""
    00 00 00 00  05  00 00 00 00 00 00 00
    01  00  64 00  07 00 00 00  00 00 00 00 00 00 00 00
    01  01  64 00  08 00 00 00  00 00 00 00 00 00 00 00
    02  00  64 00  07 00 00 00  40 19 01 00 00 00 00 00
    02  01  64 00  08 00 00 00  80 32 02 00 00 00 00 00
    04  00  00 00  00 00 00 00  00 00 00 00 00 00 00 00
    """ + "00" * 416 + "CD 02  B2 09")
WORKED_ENTRIES = [Entry(ARRIVAL, 0, 100, 7, 0), Entry(ARRIVAL, 1, 100, 8, 0), Entry(PICK, 0, 100, 7, 72_000),
                  Entry(PICK, 1, 100, 8, 144_000), Entry(IDLE, 0, 0, 0, 0)]
WORKED_LINES = (b"0 1 arrival 0 100 7 0\n0 2 arrival 1 100 8 0\n0 3 pick 0 100 7 72000\n0 4 pick 1 100 8 144000\n"
                b"0 5 idle 0 0 0 0\n")

# Every byte of every field in its own place. The first sum is 11 for the head, 291 for kind, flow and length, 74 for
# the handle and 292 for the clock: 668 = 0x029C; the second 5,574 + 143,818 + 36,302 + 141,516 = 327,210, less 4 times
# 65,535 it is 65,070 = 0xFE2E.
SPELLED_BLOCK = bytes.fromhex("04 03 02 01  01  00 00 00 00 00 00 00"
                              "03  3F  DC 05  14 13 12 11  28 27 26 25 24 23 22 21" + "00" * 480 + "9C 02  2E FE")
SPELLED_ENTRY = Entry(LEAP, 63, 1500, 0x11121314, 0x2122232425262728)

AN_ENTRY = Entry(ARRIVAL, 0, 1, 0, 0)
TWO_FLOWS = b"f 500 100\nf 500 100\no\n"


def sums_step_by_step(data):
    """02's words with a remainder at each step."""
    first = second = 0
    for byte in data:
        first = (first + byte) % 65_535
        second = (second + first) % 65_535
    return first, second


class Card(test_uplink.Document):
    def written(self, number, entries):
        """The block, written over bytes that were there before."""
        block = bytearray(b"\xa5" * 512)
        card.write_block(number, entries, block)
        return bytes(block)

    def write_refused(self, refusal, number, entries, size=512):
        block = bytearray(b"\xa5" * size)
        self.refused(refusal, card.write_block, number, entries, block)
        self.assertEqual(b"\xa5" * size, block)

    def read_refused(self, refusal, block):
        self.refused(refusal, card.read_block, bytes(block))

    def both_sides(self, taken, refused):
        """Contents that are taken, there and back, and contents that the writer refuses with 12."""
        for number, entries in taken:
            self.assertEqual((number, entries), card.read_block(self.written(number, entries)))
        for number, entries in refused:
            self.write_refused(12, number, entries)


class WorkedBlocks(Card):
    def test_the_example_of_document_01(self):
        self.assertEqual(512, len(WORKED_BLOCK))
        self.assertEqual(WORKED_BLOCK, self.written(0, WORKED_ENTRIES))
        self.assertEqual((0, WORKED_ENTRIES), card.read_block(WORKED_BLOCK))

    def test_every_byte_of_every_field(self):
        self.assertEqual(512, len(SPELLED_BLOCK))
        self.assertEqual(SPELLED_BLOCK, self.written(0x01020304, [SPELLED_ENTRY]))
        self.assertEqual((0x01020304, [SPELLED_ENTRY]), card.read_block(SPELLED_BLOCK))

    def test_the_last_entry(self):
        block = self.written(0, [card.IDLE_ENTRY] * 30 + [SPELLED_ENTRY])
        self.assertEqual(SPELLED_BLOCK[12:28], block[492:508])
        self.assertEqual((31, 4, 4, 3), (block[4], block[12], block[476], block[492]))

    def test_the_sums_step_by_step(self):
        maker = BlockMaker("sums")
        for data in [b"", bytes(508), b"\xff" * 508, b"\xff" * 257, *(maker.random_bytes(508) for _ in range(50))]:
            self.assertEqual(sums_step_by_step(data), card.sums(data))
        # 257 bytes of 255 are 65,535, which is 0; 508 of them 129,540, and their running values 508 x 509 / 2 x 255.
        self.assertEqual((0, 257 * 258 // 2 * 255 % 65_535), card.sums(b"\xff" * 257))
        self.assertEqual((129_540 - 65_535, 32_967_930 % 65_535), card.sums(b"\xff" * 508))


class Limits(Card):
    """Both sides of every rule, by the writer, and by the reader on bytes whose sums are right."""

    def test_sizes(self):
        for size in 0, 1, 511, 513, 1024:
            self.write_refused(1, 0, [AN_ENTRY], size)
            # 1 comes before 12 and 11.
            self.write_refused(1, 2**32, [], size)
            self.read_refused(1, bytes(size))
            self.read_refused(1, b"\x01" * size)

    def test_block_numbers(self):
        self.both_sides([(number, [AN_ENTRY]) for number in (0, 1, 255, 256, 2**32 - 1)],
                        [(number, [AN_ENTRY]) for number in (-1, 2**32, 2**64)])

    def test_counts(self):
        self.both_sides([(0, [AN_ENTRY] * count) for count in (1, 2, 30, 31)],
                        [(0, [AN_ENTRY] * count) for count in (0, 32, 33, 255, 256, 257)])
        full = self.written(0, [AN_ENTRY] * 31)
        for count in range(256):
            answer = content_or_refusal(with_right_sums(with_byte(full, 4, count)))
            self.assertEqual((0, [AN_ENTRY] * 31) if count == 31 else 12, answer)
        one = self.written(0, [AN_ENTRY])
        for count in 0, 2, 31, 32, 255:
            self.read_refused(12, with_right_sums(with_byte(one, 4, count)))

    def test_a_block_of_zeros_has_right_sums_and_no_entry(self):
        self.assertEqual(bytes(512), with_right_sums(bytes(512)))
        self.read_refused(12, bytes(512))

    def test_kinds(self):
        for kind in range(256):
            block = with_right_sums(with_byte(self.written(0, [AN_ENTRY]), 12, kind))
            if kind in (1, 2, 3):
                self.assertEqual((0, [AN_ENTRY._replace(kind=kind)]), card.read_block(block))
            else:
                self.read_refused(12, block)
                self.write_refused(12, 0, [AN_ENTRY._replace(kind=kind)])
            block = with_right_sums(with_byte(self.written(0, [card.IDLE_ENTRY]), 12, kind))
            self.assertEqual((0, [card.IDLE_ENTRY]) if kind == 4 else 12, content_or_refusal(block))
        for kind in -1, 256, 257, 2**64 + 1:
            self.write_refused(12, 0, [AN_ENTRY._replace(kind=kind)])

    def test_fields_of_arrivals_and_picks(self):
        taken = {"flow": [0, 1, 62, 63], "length": [1, 2, 255, 256, 1499, 1500], "handle": [0, 2**31, 2**32 - 1],
                 "clock": [0, 2**62, 2**63, 2**64 - 1]}
        refused = {"flow": [-1, 64, 65, 255, 256], "length": [-1, 0, 1501, 2048, 65_535, 65_537],
                   "handle": [-1, 2**32], "clock": [-1, 2**64]}
        for kind, field in itertools.product((ARRIVAL, PICK, LEAP), taken):
            entry = Entry(kind, 0, 1, 0, 0)
            self.both_sides([(0, [entry._replace(**{field: value})]) for value in taken[field]],
                            [(0, [entry._replace(**{field: value})]) for value in refused[field]])

    def test_flows_and_lengths_by_the_reader(self):
        for kind in ARRIVAL, PICK, LEAP:
            block = self.written(0, [Entry(kind, 0, 1, 0, 0)])
            for flow in range(256):
                answer = content_or_refusal(with_right_sums(with_byte(block, 13, flow)))
                self.assertEqual((0, [Entry(kind, flow, 1, 0, 0)]) if flow <= 63 else 12, answer)
            for length in 0, 1, 255, 256, 1499, 1500, 1501, 2047, 32_768, 65_535:
                answer = content_or_refusal(with_right_sums(block[:14] + length.to_bytes(2, "little") + block[16:]))
                self.assertEqual((0, [Entry(kind, 0, length, 0, 0)]) if 1 <= length <= 1500 else 12, answer)

    def test_idle_has_zeros(self):
        for field in "flow", "length", "handle", "clock":
            self.write_refused(12, 0, [card.IDLE_ENTRY._replace(**{field: 1})])
        block = self.written(0, [card.IDLE_ENTRY])
        for place, value in itertools.product(range(13, 28), (1, 128, 255)):
            self.read_refused(12, with_right_sums(with_byte(block, place, value)))

    def test_zeros_in_the_head_and_in_unused_entries(self):
        block = self.written(7, [AN_ENTRY] * 3)
        for place in [*range(5, 12), *range(60, 508)]:
            for value in 1, 4, 255:
                self.read_refused(12, with_right_sums(with_byte(block, place, value)))

    def test_a_wrong_entry_in_each_place(self):
        for place in range(31):
            entries = [AN_ENTRY] * 31
            entries[place] = AN_ENTRY._replace(flow=64)
            self.write_refused(12, 0, entries)
            block = with_byte(self.written(0, [AN_ENTRY] * 31), 12 + 16 * place, 5)
            self.read_refused(12, with_right_sums(block))

    def test_stored_sums(self):
        # A sum of 0 is written as 0 and not as 65,535, though 65,535 is 0 modulo 65,535. What the sums of these two
        # blocks are before the remainder is worked out beside them.
        first, second = (block[:508] for block in BLOCKS_OF_SUM_0.values())
        self.assertEqual((65_535, 65_535), (sum(first), sum(itertools.accumulate(second))))
        for place, block in BLOCKS_OF_SUM_0.items():
            self.assertEqual(bytes(2), block[place:place + 2])
            card.read_block(block)
            self.read_refused(11, block[:place] + b"\xff\xff" + block[place + 2:])
        self.assertEqual([11, 11], [content_or_refusal(block) for block in with_65_535_for_0()])
        for place, value in itertools.product(range(508, 512), range(256)):
            if WORKED_BLOCK[place] != value:
                self.read_refused(11, with_byte(WORKED_BLOCK, place, value))
        self.read_refused(11, WORKED_BLOCK[:508] + WORKED_BLOCK[510:] + WORKED_BLOCK[508:510])

    def test_the_order_of_refusals(self):
        wrong_fields = with_byte(WORKED_BLOCK, 12, 9)
        self.read_refused(11, wrong_fields)
        self.read_refused(12, with_right_sums(wrong_fields))
        self.read_refused(1, wrong_fields + b"\0")
        self.read_refused(1, WORKED_BLOCK[:-1])
        self.read_refused(11, b"\x01" * 512)


class ThereAndBack(Card):
    def test_random_contents(self):
        seen, maker = Counter(), BlockMaker("there")
        for _ in range(400):
            number, entries = maker.content()
            block = self.written(number, entries)
            self.assertEqual(sums_step_by_step(block[:508]),
                             (int.from_bytes(block[508:510], "little"), int.from_bytes(block[510:], "little")))
            self.assertEqual((number, entries), card.read_block(block))
            self.assertEqual(block, self.written(*card.read_block(block)))
            seen.update([f"{len(entries)} entries", *(entry.kind for entry in entries)])
            seen.update(f"length {entry.length}" for entry in entries if entry.length in (1, 1500))
        for thing in ["1 entries", "31 entries", "30 entries", ARRIVAL, PICK, LEAP, IDLE, "length 1", "length 1500"]:
            self.assertGreater(seen[thing], 10, thing)

    def test_no_two_accepted_blocks_have_one_content(self):
        """An accepted block written again is the same 512 bytes, also where it comes from damage."""
        seen, maker = Counter(), BlockMaker("again")
        for _ in range(7):
            block = maker.block()
            for damaged in map(with_right_sums, maker.damaged_bytes(block)[:508]):
                answer = content_or_refusal(damaged)
                seen["refused" if answer == 12 else "accepted"] += 1
                if answer != 12:
                    self.assertNotEqual(card.read_block(block), answer)
                    self.assertEqual(damaged, self.written(*answer))
        self.assertGreater(min(seen["refused"], seen["accepted"]), 500)


class Damage(Card):
    """What the sums find, and what they cannot."""

    def test_each_byte_and_each_other_value(self):
        block = self.written(3, [AN_ENTRY, Entry(LEAP, 63, 1500, 2**32 - 1, 2**64 - 1), card.IDLE_ENTRY])
        # the bytes of a number, of handles and of clocks may be any
        free = {*range(4), *range(16, 28), *range(32, 44)}
        for place in range(512):
            # every value for the head, an entry and the sums; a few for the rest
            values = range(256) if place < 28 or place >= 508 else [0, 1, 4, 128, 255]
            for value in values:
                if value != block[place]:
                    damaged = with_byte(block, place, value)
                    self.read_refused(11, damaged)
                    if place in free:
                        self.assertNotEqual(card.read_block(block), card.read_block(with_right_sums(damaged)))

    def test_every_bit_of_random_blocks(self):
        maker = BlockMaker("bits")
        for _ in range(5):
            block = maker.block()
            for place, bit in itertools.product(range(512), range(8)):
                self.read_refused(11, with_byte(block, place, block[place] ^ 1 << bit))

    def test_three_bits_may_go_unseen(self):
        # Bit 1 of a clock's byte from 1 to 0, and bit 0 of the bytes before and behind it from 0 to 1.
        block = self.written(0, [AN_ENTRY._replace(clock=0x00_02_00)])
        self.assertEqual(block[508:], self.written(0, [AN_ENTRY._replace(clock=0x01_00_01)])[508:])

    def test_two_bytes_go_unseen_only_257_apart_as_0_and_255(self):
        # One byte more by `change`, one `apart` behind it less by as much: no other two changes leave the first sum.
        unseen = [(change, apart) for change in range(1, 256) for apart in range(1, 508)
                  if change * apart % 65_535 == 0]
        self.assertEqual([(255, 257)], unseen)
        # A handle's byte of entry 1, and one behind it in entry 17.
        entries = [AN_ENTRY._replace(handle=255)] + [AN_ENTRY] * 30
        others = [AN_ENTRY] * 16 + [AN_ENTRY._replace(handle=255 << 8)] + [AN_ENTRY] * 14
        block, other = self.written(0, entries), self.written(0, others)
        self.assertEqual([16, 16 + 257], [place for place in range(512) if block[place] != other[place]])

    def test_a_swap_goes_unseen_exactly_where_the_bytes_sum_to_the_same(self):
        seen, maker = Counter(), BlockMaker("swap")
        for _ in range(80):
            number, entries = maker.content()
            # an entry with the bytes of its handle in another order has the same sum of bytes
            turned = entries[0]._replace(handle=int.from_bytes(entries[0].handle.to_bytes(4, "big"), "little"))
            entries = [turned, *entries][:31]
            block = self.written(number, entries)
            for first, second in itertools.combinations(range(len(entries)), 2):
                if entries[first] != entries[second]:
                    swapped = bytearray(block)
                    ends = slice(12 + 16 * first, 28 + 16 * first), slice(12 + 16 * second, 28 + 16 * second)
                    swapped[ends[0]], swapped[ends[1]] = block[ends[1]], block[ends[0]]
                    same_sum = sum(block[ends[0]]) == sum(block[ends[1]])
                    seen["unseen" if same_sum else "caught"] += 1
                    self.assertEqual(same_sum, content_or_refusal(bytes(swapped)) != 11)
        self.assertGreater(min(seen["unseen"], seen["caught"]), 50)


class Logs(Card):
    """What a call logs."""

    def entries(self, script):
        return [entry for log in card.logs_of_calls(card.calls_of_script(script)) for entry in log]

    def test_document_01_s_example(self):
        script, _ = examples.input_and_output(examples.WHOLE_EXAMPLE)
        self.assertEqual(WORKED_ENTRIES, self.entries(script))

    def test_a_leap_and_the_clock_of_an_arrival(self):
        script, _ = examples.input_and_output("f 500 100\nf 500 100\n" + examples.FOUR_PACKETS_AT_ONE_FLOW)
        arrivals = [Entry(ARRIVAL, 0, 100, handle, 0) for handle in (1, 2, 3, 4)]
        self.assertEqual([*arrivals, Entry(PICK, 0, 100, 1, 72_000), Entry(PICK, 0, 100, 2, 144_000),
                          Entry(PICK, 0, 100, 3, 216_000), Entry(LEAP, 0, 100, 4, 432_000),
                          Entry(ARRIVAL, 1, 100, 5, 432_000), Entry(ARRIVAL, 0, 100, 6, 432_000),
                          Entry(PICK, 1, 100, 5, 504_000), Entry(PICK, 0, 100, 6, 576_000), card.IDLE_ENTRY],
                         self.entries(script))

    def test_refused_calls_are_not_logged(self):
        # 2 before an opening, 3, 7, 8, and 9 behind 64 packets
        self.assertEqual([], self.entries(b"p\na 0 1 1\no\np\n"))
        self.assertEqual([], self.entries(TWO_FLOWS + b"a 2 1 1\na 0 101 1\na 0 0 1\n"))
        self.assertEqual([Entry(ARRIVAL, 1, 100, 3, 0)] * 64, self.entries(TWO_FLOWS + b"a 1 100 3\n" * 66))

    def test_refusal_10_is_not_logged(self):
        log = card.Log()
        log.call("o", [500], [100], 0)
        log.record.clock = 2**62
        log.call("a", 0, 100, 5)
        log.call("p")
        self.assertEqual([[], [Entry(ARRIVAL, 0, 100, 5, 2**62)]], log.logs)
        log.record.clock = 2**62 - 1
        log.call("p")
        self.assertEqual(Entry(PICK, 0, 100, 5, 2**62 + 71_999), log.logs[1][1])

    def test_length_is_the_packet_s_own_and_the_clock_counts_the_header(self):
        logs = card.logs_of_calls([("o", [500], [100], 12), ("a", 0, 100, 7), ("p",)])
        self.assertEqual([[], [Entry(ARRIVAL, 0, 100, 7, 0), Entry(PICK, 0, 100, 7, 112 * 720)]], logs)

    def test_both_engines_log_the_same(self):
        seen = Counter()
        for index in range(25):
            calls = list(itertools.islice(traffic.random_calls("card", index), 150))
            logs = card.logs_of_calls(calls)
            self.assertEqual(logs, card.logs_of_calls(calls, plain.PLAIN_ENGINE,
                                                      lambda record: plain.raised(record).clock))
            for entry in itertools.chain(*logs):
                self.assertTrue(card.is_entry(entry), entry)
                seen[entry.kind] += 1
            seen["logs"] += len(logs) - 1
        for thing in ARRIVAL, PICK, LEAP, IDLE, "logs":
            self.assertGreater(seen[thing], 20, thing)


class Programs(Card):
    """logwrite and logread."""

    def test_the_worked_block(self):
        script, _ = examples.input_and_output(examples.WHOLE_EXAMPLE)
        self.assertEqual(WORKED_BLOCK, card.logwrite(script))
        self.assertEqual(WORKED_LINES, card.logread(WORKED_BLOCK))
        # a last line without a line feed is a line
        self.assertEqual(WORKED_BLOCK, card.logwrite(script[:-1]))
        self.assertEqual(card.logwrite(TWO_FLOWS + b"p\np\n"), card.logwrite(TWO_FLOWS + b"p\np"))

    def test_nothing_to_log_is_no_block(self):
        for script in b"", b"\n", b"p\n", b"o\n", TWO_FLOWS, TWO_FLOWS + b"o\no\n", b"bad\nf 1 1\n":
            self.assertEqual(b"", card.logwrite(script))
        self.assertEqual(b"", card.logread(b""))

    def test_full_blocks(self):
        for picks, counts in (1, [1]), (31, [31]), (32, [31, 1]), (62, [31, 31]), (63, [31, 31, 1]):
            written = card.logwrite(TWO_FLOWS + b"p\n" * picks)
            blocks = [written[start:start + 512] for start in range(0, len(written), 512)]
            self.assertEqual([(number, [card.IDLE_ENTRY] * count) for number, count in enumerate(counts)],
                             [card.read_block(block) for block in blocks])

    def test_an_opening_that_is_done_begins_another_log(self):
        written = card.logwrite(TWO_FLOWS + b"p\n" * 33 + b"o\na 0 1 5\no\no\np\n")
        self.assertEqual([(0, [card.IDLE_ENTRY] * 31), (1, [card.IDLE_ENTRY] * 2), (0, [Entry(ARRIVAL, 0, 1, 5, 0)]),
                          (0, [card.IDLE_ENTRY])],
                         [card.read_block(written[start:start + 512]) for start in range(0, len(written), 512)])

    def test_a_refused_opening_ends_nothing(self):
        # A third row makes the sum 1,001, so every opening behind it is refused, and so is every call behind that.
        script = TWO_FLOWS + b"p\np\nf 1 1\no\np\na 0 1 1\nbad\n"
        self.assertEqual(card.logwrite(TWO_FLOWS + b"p\np\n"), card.logwrite(script))
        self.assertEqual(block_of(0, [card.IDLE_ENTRY] * 2), card.logwrite(script + b"o\np\n" * 40))
        self.assertEqual([[], [card.IDLE_ENTRY] * 2], card.logs_of_calls(card.calls_of_script(script)))

    def test_bad_lines_do_nothing(self):
        script = TWO_FLOWS + b"p\na 0 1 1\np\n"
        for bad in b"bad\n", b"\n", b" p\n", b"p \n", b"a 0 1\n", b"a 0 1 4294967296\n", b"O\n", b"p\0\n":
            self.assertEqual(card.logwrite(script), card.logwrite(bad + script.replace(b"\n", b"\n" + bad)))
        # the 66th row and those behind it are no rows
        rows = b"f 15 1500\n" * 64
        self.assertEqual(card.logwrite(rows + b"o\np\n"), card.logwrite(rows + b"o\np\n" + b"f 1 1\n" * 9 + b"o\np\n"))

    def test_a_script_of_any_length(self):
        script = TWO_FLOWS + b"p\n" * 31 + b"0" * 70_000 + b"\np"
        self.assertEqual(block_of(0, [card.IDLE_ENTRY] * 31) + block_of(1, [card.IDLE_ENTRY]), card.logwrite(script))
        script = TWO_FLOWS + b"a 0000000001 0000000100 0000000009\np\n" * 2000
        self.assertGreater(len(script), 65_536)
        # 4,000 entries are 129 blocks of 31 and one more.
        written = card.logwrite(script)
        self.assertEqual(130 * 512, len(written))
        number, (last,) = card.read_block(written[-512:])
        self.assertEqual((129, (1, 100, 9)), (number, last[1:4]))
        self.assertIn(last.kind, (PICK, LEAP))

    def test_a_rest_and_refused_blocks(self):
        one, idle = WORKED_BLOCK, block_of(9, [card.IDLE_ENTRY])
        cases = {one + b"\0": WORKED_LINES + b"1 refused 1\n", one + idle[:511]: WORKED_LINES + b"1 refused 1\n",
                 b"\0": b"0 refused 1\n", bytes(511): b"0 refused 1\n", bytes(512): b"0 refused 12\n",
                 bytes(513): b"0 refused 12\n1 refused 1\n",
                 # the place counts and not the block's own number, and reading goes on behind a refused block
                 idle * 2: b"0 1 idle 0 0 0 0\n1 1 idle 0 0 0 0\n",
                 with_byte(one, 0, 1) + idle: b"0 refused 11\n1 1 idle 0 0 0 0\n",
                 idle + with_right_sums(with_byte(one, 5, 1)) + idle: b"0 1 idle 0 0 0 0\n1 refused 12\n"
                                                                     b"2 1 idle 0 0 0 0\n",
                 # a byte that is missing puts all behind it out of place
                 idle[1:] + idle: b"0 refused 11\n1 refused 1\n"}
        for data, lines in cases.items():
            self.assertEqual(lines, card.logread(data))

    def test_every_figure_of_a_line(self):
        self.assertEqual(b"0 1 leap 63 1500 286397204 2387509390608836392\n", card.logread(SPELLED_BLOCK))
        entry = Entry(LEAP, 63, 1500, 2**32 - 1, 2**64 - 1)
        block = block_of(2**32 - 1, [entry])
        self.assertEqual(b"0 1 leap 63 1500 4294967295 18446744073709551615\n", card.logread(block))

    def run_program(self, words, data=b""):
        done = subprocess.run([sys.executable, str(PROGRAM), *words], input=data, capture_output=True)
        return done.returncode, done.stdout, done.stderr

    def test_as_a_program(self):
        script, _ = examples.input_and_output(examples.WHOLE_EXAMPLE)
        self.assertEqual((0, WORKED_BLOCK, b""), self.run_program(["write"], script))
        self.assertEqual((0, WORKED_LINES, b""), self.run_program(["read"], WORKED_BLOCK))

    def test_usage(self):
        status, output, errors = self.run_program(["--help"])
        self.assertEqual((0, b""), (status, errors))
        self.assertIn(b"second/card.py write", output)
        for words in [], ["x"], [""], ["write", "x"], ["read", "--help"]:
            status, output, errors = self.run_program(words)
            self.assertEqual((2, b"", 1), (status, output, len(errors.splitlines())), words)
