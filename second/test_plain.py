"""The plain engine of the second program against document 02 c): 01's examples in its figures, tags below zero, and
both engines side by side, on random calls from openings and on random records that were never opened.

Run with: python3 -m unittest discover second
"""

import dataclasses
import itertools
import pathlib
import unittest
from unittest import mock

import plain
import test_uplink
import traffic
import uplink
from records import CORNERS, RecordMaker, signed

PROGRAM = pathlib.Path(__file__).with_name("plain.py")


def opened(*rows, header=0):
    return test_uplink.opened(*rows, header=header, engine=plain.PLAIN_ENGINE)


def tags(record):
    return [flow.tag for flow in record.table()]


def copies(record, memories):
    flows = [dataclasses.replace(flow) for flow in record.flows]
    return (dataclasses.replace(record, flows=flows),
            uplink.Memories(list(memories.lengths), list(memories.handles)))


def sent(record, memories, flow, lengths, number_of_picks):
    """The replies of so many picks after arrivals of these lengths at the flow."""
    for handle, length in enumerate(lengths):
        plain.arrival(record, memories, flow, length, handle)
    return [plain.pick(record, memories) for _ in range(number_of_picks)]


class Examples(test_uplink.Document):
    """P1 to P8 in this engine's figures: two flows, q = 500, largest 100; cost 1,440, Δ = 144,000."""

    def setUp(self):
        self.record, self.memories = opened((500, 100), (500, 100))
        self.assertEqual((144_000, 0), (self.record.leap_width, self.record.sum_of_widths))

    def test_p1_to_p4_without_a_leap_are_the_first_engine_s(self):
        record, memories = self.record, self.memories
        plain.arrival(record, memories, 0, 100, 7)
        plain.arrival(record, memories, 1, 100, 8)
        self.assertEqual([144_000, 144_000], tags(record))
        self.assertEqual((0, 100, 7, 144_000, 0, 72_000), plain.pick(record, memories))
        self.assertEqual((1, 100, 8, 144_000, 0, 144_000), plain.pick(record, memories))
        self.assertEqual("idle", plain.pick(record, memories))
        self.assertEqual([0, 0, 0, 0, 0], [record.clock, record.link_time, record.sum_of_widths, *tags(record)])

    def test_p5_to_p8(self):
        record, memories = self.record, self.memories
        replies = sent(record, memories, 0, [100] * 4, 4)
        # P5: at the third pick 432,000 is not above 144,000 + 288,000. P6: at the fourth 576,000 is above
        # 216,000 + 288,000: the tag goes down by 144,000 to 432,000, the clock stays 216,000, and the packet's
        # 72,000 bring it to 288,000. 432,000 - 288,000 is the first engine's 576,000 - 432,000.
        self.assertEqual([(144_000, 0, 72_000), (288_000, 0, 144_000), (432_000, 0, 216_000), (432_000, 1, 288_000)],
                         [reply[3:] for reply in replies])
        self.assertEqual((288_000, 144_000), (record.link_time, record.sum_of_widths))
        # All 64 went down: flow 1, which has sent nothing, and the 62 beyond the table, from 0.
        self.assertEqual([432_000] + [-144_000] * 63, [flow.tag for flow in record.flows])
        # P7: the larger of -144,000 and the clock, 288,000, plus 144,000; the first engine's 576,000 less the sum.
        plain.arrival(record, memories, 1, 100, 5)
        self.assertEqual(432_000, record.flows[1].tag)
        # P8: the larger of 432,000 and 288,000, plus 144,000; the first engine's 720,000 less the sum.
        plain.arrival(record, memories, 0, 100, 6)
        self.assertEqual(576_000, record.flows[0].tag)
        # Two picks more and Idle: the sum stays while nothing leaps, and is 0 again with all 64 tags.
        self.assertEqual((1, 100, 5, 432_000, 0, 360_000), plain.pick(record, memories))
        self.assertEqual((0, 100, 6, 576_000, 0, 432_000), plain.pick(record, memories))
        self.assertEqual(144_000, record.sum_of_widths)
        self.assertEqual("idle", plain.pick(record, memories))
        self.assertEqual([0, 0, 0], [record.clock, record.link_time, record.sum_of_widths])
        self.assertEqual([0] * 64, [flow.tag for flow in record.flows])

    def test_the_program_writes_its_own_tags_and_clock(self):
        script = b"f 500 100\nf 500 100\no\n" + b"a 0 100 1\n" * 4 + b"p\n" * 5 + b"a 2 1 9\nbad\n"
        output = (b"o 0 0\n" + b"a 0\n" * 4 + b"p 0 0 100 1 144000 0 72000\np 0 0 100 1 288000 0 144000\n"
                  b"p 0 0 100 1 432000 0 216000\np 0 0 100 1 432000 1 288000\np idle\na 7\nbad\n")
        done = test_uplink.run(script, PROGRAM)
        self.assertEqual((output, b""), (done.stdout, done.stderr))


class BelowZero(test_uplink.Document):
    """"Idle tags may fall below zero": a tag that was picked at 144,000 goes to 0 and below by leaps of 144,000."""

    def setUp(self):
        self.record, self.memories = opened((500, 100), (500, 100))
        sent(self.record, self.memories, 1, [100], 1)
        self.assertEqual((144_000, 72_000), (self.record.flows[1].tag, self.record.clock))

    def tag_and_sum_after(self, number_of_packets):
        """Flow 1's tag and the sum after so many packets of 100 at flow 0: the k-th is picked at clock k x 72,000 and
        has tag 72,000 + k x 144,000, less what was leapt before."""
        sent(self.record, self.memories, 0, [100] * number_of_packets, number_of_packets)
        return self.record.flows[1].tag, self.record.sum_of_widths

    def test_nothing_falls_before_the_leap(self):
        # The third: 504,000 is not above 216,000 + 288,000.
        self.assertEqual((144_000, 0), self.tag_and_sum_after(3))

    def test_at_zero(self):
        # The fourth: 648,000 is above 288,000 + 288,000.
        self.assertEqual((0, 144_000), self.tag_and_sum_after(4))

    def test_below_zero_the_flow_starts_at_the_clock(self):
        # The fifth has 504,000 + 144,000, not above 360,000 + 288,000; the sixth has 792,000, above 432,000 + 288,000.
        self.assertEqual((-144_000, 288_000), self.tag_and_sum_after(6))
        self.assertEqual(504_000, self.record.clock)
        plain.arrival(self.record, self.memories, 1, 100, 9)
        self.assertEqual(504_000 + 144_000, self.record.flows[1].tag)

    def test_below_zero_even_with_the_sum_added_is_refused(self):
        self.tag_and_sum_after(6)
        for f in 1, 2, 63:
            record, memories = copies(self.record, self.memories)
            record.flows[f].tag = -288_001
            self.refused(2, plain.arrival, record, memories, 0, 1, 1)
            self.refused(2, plain.pick, record, memories)
            record.flows[f].tag = -288_000
            plain.arrival(record, memories, 0, 1, 1)


def lower_waiting_tags(record):
    """Another leap, by the report's words: the tags of "active flows" go down, the rest stay."""
    for flow in record.flows:
        flow.tag -= record.leap_width if flow.waiting > 0 else 0
    record.sum_of_widths += record.leap_width


def lower_the_table_s_tags(record):
    """Another leap: the flows beyond the number of flows keep their tag."""
    for flow in record.table():
        flow.tag -= record.leap_width
    record.sum_of_widths += record.leap_width


class OtherLeaps(test_uplink.Document):
    """"all 64 go down": an engine that lowers fewer tags is another one."""

    def run_to_the_last_pick(self):
        """Two flows, q = 100, largest 100; cost 7,200, Δ = 720,000. Eleven calls up to a pick of another flow, the
        fewest: a leap takes three packets and three picks of one flow (each brings its tag at most Δ further), what a
        tag that was left standing does takes a packet, a pick and a packet of the other, and to see another flow picked
        takes one more packet and one more pick. No two tags are equal, so that no rule for equal tags matters."""
        record, memories = opened((100, 100), (100, 100))
        first = sent(record, memories, 0, [100, 100, 50, 50], 2)
        then = sent(record, memories, 1, [100], 2)
        # The leap: at clock 216,000 flow 0 has 1,800,000, which is above 216,000 + 1,440,000. It leaves with
        # 1,080,000 at clock 252,000; its next packet has 1,080,000 + 360,000.
        self.assertEqual([(0, 100, 0, 720_000, 0, 72_000), (0, 100, 1, 1_440_000, 0, 144_000),
                          (1, 100, 0, 864_000, 0, 216_000), (0, 50, 2, 1_080_000, 1, 252_000)], first + then)
        left = tags(record)
        last, = sent(record, memories, 1, [100], 1)
        return left, last

    def test_all_64_go_down(self):
        left, last = self.run_to_the_last_pick()
        # Flow 1 starts at the clock: 252,000 + 720,000 is below 1,440,000.
        self.assertEqual(([1_440_000, 144_000], (1, 100, 0, 972_000, 0, 324_000)), (left, last))

    def test_only_waiting_tags_go_down(self):
        with mock.patch("plain.leap", lower_waiting_tags), mock.patch("plain.check_memories_and_record"):
            left, last = self.run_to_the_last_pick()
        # Flow 1 starts at the tag that stayed: 864,000 + 720,000 is above 1,440,000.
        self.assertEqual(([1_440_000, 864_000], (0, 50, 3, 1_440_000, 0, 288_000)), (left, last))

    def test_the_first_engine_picks_as_where_all_go_down(self):
        record, memories = test_uplink.opened((100, 100), (100, 100))
        replies = []
        for call in [(0, 100, 0), (0, 100, 1), (0, 50, 2), (0, 50, 3), "p", "p", (1, 100, 0), "p", "p", (1, 100, 0),
                     "p"]:
            if call == "p":
                replies.append(uplink.pick(record, memories))
            else:
                uplink.arrival(record, memories, *call)
        # The leap brings its clock from 216,000 to 936,000, the 50 bytes bring it to 972,000. At the last pick
        # 1,692,000 less 1,044,000 is 648,000, and so is 972,000 less 324,000.
        self.assertEqual([(0, 50, 2, 1_800_000, 1, 972_000), (1, 100, 0, 1_692_000, 0, 1_044_000)], replies[-2:])

    def test_p6_shows_it_in_a_tag_at_rest(self):
        for leap, tag_less_clock in (plain.leap, -432_000), (lower_waiting_tags, -288_000):
            record, memories = opened((500, 100), (500, 100))
            with mock.patch("plain.leap", leap):
                sent(record, memories, 0, [100] * 4, 4)
            self.assertEqual(tag_less_clock, record.flows[1].tag - record.clock)

    def test_the_form_finds_both_out(self):
        # The tag of a flow beyond the table, with the sum added, is then above 0.
        for leap in lower_waiting_tags, lower_the_table_s_tags:
            record, memories = opened((500, 100), (500, 100))
            with mock.patch("plain.leap", leap):
                sent(record, memories, 0, [100] * 4, 4)
            self.refused(2, plain.pick, record, memories)


def outcome(engine, record, memories, letter, numbers):
    """The record after the call, and the reply or the refusal's number and flow."""
    try:
        if letter == "o":
            return engine.opening(*numbers, memories), "done"
        if letter == "a":
            return record, engine.arrival(record, memories, *numbers) or "done"
        return record, engine.pick(record, memories)
    except uplink.Refusal as refusal:
        return engine.blank() if letter == "o" else record, (refusal.number, refusal.flow)


def is_pick_done(reply):
    return isinstance(reply, tuple) and len(reply) == 6


def with_sum_added(reply, sum_of_widths):
    """The reply, with the sum after the call added to tag and clock where a packet was picked."""
    if not is_pick_done(reply):
        return reply
    flow, length, handle, tag, leapt, clock = reply
    return flow, length, handle, tag + sum_of_widths, leapt, clock + sum_of_widths


class Comparison(test_uplink.Document):
    def compare(self, record, memories, first_record, first_memories, call):
        """Both engines on the call; the records after it, and the plain engine's reply."""
        letter, *numbers = call
        record, reply = outcome(plain.PLAIN_ENGINE, record, memories, letter, numbers)
        first_record, first_reply = outcome(uplink.FIRST_ENGINE, first_record, first_memories, letter, numbers)
        self.assertEqual(first_reply, with_sum_added(reply, record.sum_of_widths))
        self.assertEqual(first_record, plain.raised(record))
        self.assertEqual(first_memories, memories)
        return record, first_record, reply


class SideBySide(Comparison):
    """"For every script from an opening, picks, lengths, handles, leaps and refusals are equal to the first engine's,
    and every tag less the clock is the same. Its clock equals link time.\""""

    def test_random_calls_from_openings(self):
        seen = set()
        for index in range(40):
            record, memories = plain.Record(), uplink.Memories()
            first_record, first_memories = uplink.Record(), uplink.Memories()
            for call in itertools.islice(traffic.random_calls("both engines", index), 120):
                was_open = record != plain.Record()
                record, first_record, reply = self.compare(record, memories, first_record, first_memories, call)
                self.assertEqual(record.link_time, record.clock)
                self.assertEqual([flow.tag - first_record.clock for flow in first_record.flows],
                                 [flow.tag - record.clock for flow in record.flows])
                self.assertFalse(was_open and reply == (2, 0) and call[0] != "o")
                seen.update(self.things_of(call, record, reply))
        self.assertEqual({"opened", "refused 2", "refused 3", "refused 4", "refused 5", "refused 6", "refused 7",
                          "refused 8", "refused 9", "idle", "leap", "leap with a header", "tag below zero"}, seen)

    def things_of(self, call, record, reply):
        """What the call showed, of the things that have to come up."""
        things = {"tag below zero"} if any(flow.tag < 0 for flow in record.table()) else set()
        if is_pick_done(reply):
            leap = {"leap", "leap with a header"} if record.header > 0 else {"leap"}
            return things | (leap if reply[4] else set())
        if reply == "done":
            return things | ({"opened"} if call[0] == "o" else set())
        return things | {reply if reply == "idle" else f"refused {reply[0]}"}

    def test_random_scripts(self):
        for index in range(12):
            first, second = uplink.Script(), uplink.Script(plain.PLAIN_ENGINE)
            for line in uplink.lines_of_input(traffic.random_script("plain", index))[:300]:
                expected, output = first.output_of_line(line), second.output_of_line(line)
                if output is not None and output.startswith("p 0"):
                    reply = tuple(map(int, output.split()[2:]))
                    raised_reply = with_sum_added(reply, second.record.sum_of_widths)
                    output = " ".join(map(str, ["p", 0, *raised_reply]))
                self.assertEqual(expected, output)


class NeverOpened(Comparison):
    """"with that added to clock and tags, its record is judged by 01's form and refusal 10\""""

    def setUp(self):
        self.seen = set()

    def compare_on(self, record, memories, call):
        """Against the first engine on the raised record; below zero even with the sum added there is none."""
        before = copies(record, memories)
        first_record, first_memories = plain.raised(record), copies(record, memories)[1]
        if min(flow.tag for flow in first_record.flows) < 0:
            _, reply = outcome(plain.PLAIN_ENGINE, record, memories, call[0], call[1:])
            sizes_are_right = len(memories.lengths) == len(memories.handles) == 4096
            self.assertEqual((2, 0) if sizes_are_right else (1, 0), reply)
        else:
            record, _, reply = self.compare(record, memories, first_record, first_memories, call)
        if isinstance(reply, tuple) and not is_pick_done(reply):
            self.assertEqual(before, (record, memories))
            self.seen.add(reply[0])
            return
        self.seen.add("leap" if is_pick_done(reply) and reply[4] else "idle" if reply == "idle" else "done")
        self.assertTrue(0 <= record.clock < 2**64 and 0 <= record.sum_of_widths < 2**64)
        self.assertTrue(all(-2**63 <= flow.tag < 2**63 for flow in record.flows))

    def test_well_formed_records(self):
        for index in range(900):
            maker = RecordMaker("record", index)
            record = maker.well_formed()
            self.assertTrue(plain.is_well_formed(record, maker.memories))
            self.compare_on(record, maker.memories, maker.call(record))
        self.assertEqual({7, 8, 9, 10, "done", "leap", "idle"}, self.seen)

    def test_damaged_records(self):
        for index in range(1800):
            maker = RecordMaker("record", index)
            record = maker.well_formed()
            maker.damage(record)
            self.compare_on(record, maker.memories, maker.call(record))
        self.assertEqual({1, 2, 7, 8, 9, 10, "done", "leap", "idle"}, self.seen)

    def test_the_edges_of_the_form_with_a_sum(self):
        # Flow 0 waits, flow 1 does not; clock 1,000 and sum 10,000,000 make the clock that is judged 10,001,000.
        limits = {(0, 1_000): True, (0, 999): False, (0, 433_000): True, (0, 433_001): False,
                  (1, 289_000): True, (1, 289_001): False, (1, -10_000_000): True, (1, -10_000_001): False,
                  (2, -10_000_000): True, (2, -9_999_999): False, (2, 0): False, (63, -10_000_001): False}
        for (f, tag), right in limits.items():
            record, memories = opened((500, 100), (500, 100))
            plain.arrival(record, memories, 0, 100, 1)
            record.sum_of_widths, record.clock, record.link_time = 10_000_000, 1_000, 10_001_000
            for flow in record.flows[1:]:
                flow.tag = -10_000_000
            record.flows[f].tag = tag
            self.assertEqual(right, plain.is_well_formed(record, memories), (f, tag))

    def test_sums_that_wrap_are_refused(self):
        for sum_of_widths in CORNERS:
            record, memories = opened((500, 100))
            record.sum_of_widths, record.clock = sum_of_widths, -sum_of_widths % 2**64
            for flow in record.flows:
                flow.tag = signed(-sum_of_widths)
            right = sum_of_widths == 0
            self.assertEqual(right, plain.is_well_formed(record, memories), sum_of_widths)

    def test_10_by_clock_and_sum(self):
        for sum_of_widths in 0, 1, 2**61, 2**62 - 1, 2**62:
            record, memories = opened((500, 100))
            record.sum_of_widths, record.clock = sum_of_widths, 2**62 - sum_of_widths
            for flow in record.flows:
                flow.tag = -sum_of_widths
            plain.arrival(record, memories, 0, 100, 1)
            self.refused(10, plain.pick, record, memories)
            if record.clock > 0:
                record.clock -= 1
                self.assertEqual((0, 100, 1, record.clock + 144_001, 0, record.clock + 72_000),
                                 plain.pick(record, memories))


if __name__ == "__main__":
    unittest.main()
