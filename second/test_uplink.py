"""The second program against the documents: 01's tables, its examples and P1 to P12, 02's header.

Run with: python3 -m unittest discover second
"""

import itertools
import pathlib
import subprocess
import sys
import unittest

import examples
import traffic
import uplink

PROGRAM = pathlib.Path(__file__).with_name("uplink.py")


def opened(*rows, header=0, engine=uplink.FIRST_ENGINE):
    """A record and memories after an accepted opening."""
    memories = uplink.Memories()
    shares, largest_packets = [row[0] for row in rows], [row[1] for row in rows]
    return engine.opening(shares, largest_packets, header, memories), memories


def run(script, program=PROGRAM):
    command = [sys.executable, str(program)]
    return subprocess.run(command, input=script, capture_output=True, check=True)


class Document(unittest.TestCase):
    def refused(self, number, call, *arguments, flow=0, **named):
        with self.assertRaises(uplink.Refusal) as caught:
            call(*arguments, **named)
        self.assertEqual((number, flow), (caught.exception.number, caught.exception.flow))


class Cost(Document):
    def test_sample_values(self):
        samples = {1: 720_000, 3: 240_000, 7: 102_858, 10: 72_000, 11: 65_455, 500: 1_440, 999: 721,
                   1000: 720}
        for share, ticks in samples.items():
            self.assertEqual(ticks, uplink.cost(share))

    def test_rounded_up_for_every_share(self):
        for share in range(1, 1001):
            ticks = uplink.cost(share)
            self.assertTrue((ticks - 1) * share < 720_000 <= ticks * share)

    def test_leap_width_without_a_header_is_at_most_1_080_000_000(self):
        record, _ = opened((1, 1500), (999, 1500))
        self.assertEqual(1_080_000_000, record.leap_width)


class ProvedExamples(Document):
    """P1 to P12, on the calls themselves."""

    def two_flows(self):
        record, memories = opened((500, 100), (500, 100))
        self.assertEqual(144_000, record.leap_width)
        return record, memories

    def test_p1_to_p4(self):
        record, memories = self.two_flows()
        uplink.arrival(record, memories, 0, 100, 7)
        uplink.arrival(record, memories, 1, 100, 8)
        self.assertEqual([144_000, 144_000], [flow.tag for flow in record.table()])
        self.assertEqual((0, 100, 7, 144_000, 0, 72_000), uplink.pick(record, memories))
        self.assertEqual((1, 100, 8, 144_000, 0, 144_000), uplink.pick(record, memories))
        self.assertEqual("idle", uplink.pick(record, memories))
        self.assertEqual([0, 0], [record.clock, record.link_time])
        self.assertEqual([0, 0], [flow.tag for flow in record.table()])

    def test_p5_to_p8(self):
        record, memories = self.two_flows()
        for handle in range(4):
            uplink.arrival(record, memories, 0, 100, handle)
        replies = [uplink.pick(record, memories) for _ in range(4)]
        self.assertEqual([144_000, 288_000, 432_000, 576_000], [reply[3] for reply in replies])
        self.assertEqual([0, 0, 0, 1], [reply[4] for reply in replies])
        self.assertEqual([72_000, 144_000, 216_000, 432_000], [reply[5] for reply in replies])
        self.assertEqual(288_000, record.link_time)
        uplink.arrival(record, memories, 1, 100, 5)
        self.assertEqual(576_000, record.flows[1].tag)
        uplink.arrival(record, memories, 0, 100, 6)
        self.assertEqual(720_000, record.flows[0].tag)

    def test_p9_to_p12(self):
        self.assertEqual((65_455, 72_000), (uplink.cost(11), uplink.cost(10)))
        opened((600, 100), (400, 100))
        self.refused(6, opened, (600, 100), (401, 100))
        record, memories = self.two_flows()
        uplink.arrival(record, memories, 0, 100, 1)
        self.refused(8, uplink.arrival, record, memories, 0, 101, 1)


class Refusals(Document):
    """What no script can reach."""

    def test_1_comes_before_everything(self):
        record, _ = opened((500, 100))
        short = uplink.Memories(lengths=[0] * 4095)
        long = uplink.Memories(handles=[0] * 4097)
        for memories in short, long:
            self.refused(1, uplink.opening, [], [], 65, memories)
            self.refused(1, uplink.arrival, uplink.Record(), memories, 0, 1, 1)
            self.refused(1, uplink.pick, record, memories)

    def test_3_for_lists_of_different_lengths(self):
        self.refused(3, uplink.opening, [0], [0, 0], 0, uplink.Memories())

    def test_10_only_while_something_waits(self):
        record, memories = opened((500, 100))
        record.clock = 2**62
        self.assertEqual("idle", uplink.pick(record, memories))
        record.clock = 2**62
        uplink.arrival(record, memories, 0, 100, 1)
        self.refused(10, uplink.pick, record, memories)
        record.clock = 2**62 - 1
        reply = (0, 100, 1, 2**62 + 144_000, 0, 2**62 + 71_999)
        self.assertEqual(reply, uplink.pick(record, memories))

    def test_2_for_each_way_to_be_ill_formed(self):
        spoilings = [
            lambda record, memories: setattr(record, "number_of_flows", 0),
            lambda record, memories: setattr(record, "number_of_flows", 65),
            lambda record, memories: setattr(record, "leap_width", 143_999),
            lambda record, memories: setattr(record, "clock", 144_001),
            lambda record, memories: setattr(record, "link_time", 1),
            lambda record, memories: setattr(record, "turn", 64),
            lambda record, memories: setattr(record.flows[0], "share", 501),
            lambda record, memories: setattr(record.flows[0], "share", 0),
            lambda record, memories: setattr(record.flows[0], "largest", 1501),
            lambda record, memories: setattr(record.flows[0], "first", 64),
            lambda record, memories: setattr(record.flows[0], "waiting", 2),
            lambda record, memories: setattr(record.flows[0], "waiting", 65),
            lambda record, memories: setattr(record.flows[0], "tag", 432_001),
            lambda record, memories: setattr(record.flows[1], "tag", 288_001),
            lambda record, memories: setattr(record.flows[2], "tag", 1),
            lambda record, memories: memories.lengths.__setitem__(0, 101),
            lambda record, memories: memories.lengths.__setitem__(0, 0),
        ]
        for spoil in spoilings:
            record, memories = opened((500, 100), (500, 100))
            uplink.arrival(record, memories, 0, 100, 1)
            spoil(record, memories)
            self.refused(2, uplink.pick, record, memories)
            self.refused(2, uplink.arrival, record, memories, 0, 1, 1)

    def test_2_for_a_clock_at_its_end(self):
        record, memories = opened((500, 100))
        record.clock = 2**62 + 1_127_206_079
        uplink.arrival(record, memories, 0, 1, 1)
        record, memories = opened((500, 100))
        record.clock = 2**62 + 1_127_206_080
        self.refused(2, uplink.arrival, record, memories, 0, 1, 1)

    def test_a_refusal_changes_nothing(self):
        memories = uplink.Memories(lengths=[7] * 4096, handles=[8] * 4096)
        self.refused(4, uplink.opening, [5, 0], [1, 0], 0, memories, flow=1)
        self.assertEqual(uplink.Memories(lengths=[7] * 4096, handles=[8] * 4096), memories)

    def test_an_opened_record_is_never_refused_with_2(self):
        for index in range(20):
            script = uplink.Script()
            for line in uplink.lines_of_input(traffic.random_script("well formed", index)):
                was_open = script.record != uplink.Record()
                output = script.output_of_line(line)
                self.assertFalse(was_open and output in ("a 2", "p 2"))


class Header(Document):
    """02 a): "a packet's charge is length plus header"."""

    def replies(self, header, length, number_of_picks):
        """Picks of as many packets of this length at flow 0, the flows being those of P1 to P12."""
        record, memories = opened((500, 100), (500, 100), header=header)
        for handle in range(number_of_picks):
            uplink.arrival(record, memories, 0, length, handle)
        return record, [uplink.pick(record, memories) for _ in range(number_of_picks)]

    def test_p1_to_p4_with_a_header_of_20(self):
        record, memories = opened((500, 100), (500, 100), header=20)
        self.assertEqual((20, 172_800), (record.header, record.leap_width))
        uplink.arrival(record, memories, 0, 100, 7)
        uplink.arrival(record, memories, 1, 100, 8)
        self.assertEqual([172_800, 172_800], [flow.tag for flow in record.table()])
        self.assertEqual((0, 100, 7, 172_800, 0, 86_400), uplink.pick(record, memories))
        self.assertEqual((1, 100, 8, 172_800, 0, 172_800), uplink.pick(record, memories))
        self.assertEqual(172_800, record.link_time)
        self.assertEqual("idle", uplink.pick(record, memories))
        self.assertEqual([0, 0, 20, 172_800],
                         [record.clock, record.link_time, record.header, record.leap_width])

    def test_a_leap_that_the_header_alone_brings(self):
        record, replies = self.replies(header=50, length=50, number_of_picks=6)
        self.assertEqual(216_000, record.leap_width)
        self.assertEqual([50] * 6, [reply[1] for reply in replies])
        self.assertEqual([144_000, 288_000, 432_000, 576_000, 720_000, 864_000],
                         [reply[3] for reply in replies])
        # At the fifth pick 720,000 is not above 288,000 + 432,000; at the sixth 864,000 is above
        # 360,000 + 432,000.
        self.assertEqual([0, 0, 0, 0, 0, 1], [reply[4] for reply in replies])
        self.assertEqual([72_000, 144_000, 216_000, 288_000, 360_000, 648_000],
                         [reply[5] for reply in replies])
        self.assertEqual(432_000, record.link_time)
        _, replies = self.replies(header=0, length=50, number_of_picks=6)
        self.assertEqual([0] * 6, [reply[4] for reply in replies])

    def test_64_is_taken_and_65_refused(self):
        for header in 0, 1, 12, 63, 64:
            record, _ = opened((1, 1500), (999, 1500), header=header)
            self.assertEqual((header, (1500 + header) * 720_000), (record.header, record.leap_width))
        self.assertEqual(1_126_080_000, record.leap_width)
        for header in 65, 128, 256, 65_536, 2**32 - 1:
            self.refused(3, opened, (500, 100), header=header)

    def test_the_header_is_looked_at_in_the_place_of_3(self):
        tables = {4: [(500, 100), (0, 0)], 5: [(500, 100), (1, 1501)], 6: [(600, 100), (401, 100)]}
        for number, rows in tables.items():
            self.refused(number, opened, *rows, header=64, flow=0 if number == 6 else 1)
            self.refused(3, opened, *rows, header=65)
        self.refused(3, uplink.opening, [0], [0, 0], 64, uplink.Memories())
        self.refused(1, uplink.opening, [500], [100], 65, uplink.Memories(lengths=[0] * 4095))

    def test_the_limit_on_lengths_stays(self):
        record, memories = opened((500, 100), header=64)
        uplink.arrival(record, memories, 0, 100, 1)
        self.refused(8, uplink.arrival, record, memories, 0, 101, 2)
        self.refused(8, uplink.arrival, record, memories, 0, 0, 2)

    def test_2_for_a_damaged_header(self):
        for header in [0, 11, 13, 64, 65, 255, 256, 32_768, 65_535]:
            record, memories = opened((500, 100), header=12)
            uplink.arrival(record, memories, 0, 100, 1)
            record.header = header
            self.refused(2, uplink.pick, record, memories)
            self.refused(2, uplink.arrival, record, memories, 0, 1, 1)

    def test_the_form_ends_at_64_where_the_leap_width_fits(self):
        record, memories = opened((500, 100), header=12)
        uplink.arrival(record, memories, 0, 100, 1)
        record.header, record.leap_width = 65, 165 * 1_440
        self.refused(2, uplink.pick, record, memories)
        record.header, record.leap_width = 64, 164 * 1_440
        self.assertEqual((0, 100, 1, 112 * 1_440, 0, 164 * 720), uplink.pick(record, memories))

    def test_the_furthest_clock_is_well_formed(self):
        record, memories = opened((1, 1500), header=64)
        uplink.arrival(record, memories, 0, 1500, 1)
        record.clock = 2**62 - 1
        record.flows[0].tag = record.clock + 3 * record.leap_width
        *_, leapt, clock = uplink.pick(record, memories)
        self.assertEqual((1, 2**62 + 1_127_206_079), (leapt, clock))
        uplink.arrival(record, memories, 0, 1500, 2)
        self.refused(10, uplink.pick, record, memories)

    def test_random_calls_keep_the_form_and_the_clocks(self):
        for index in range(20):
            record, memories, leaps = uplink.Record(), uplink.Memories(), 0
            for letter, *numbers in itertools.islice(traffic.random_calls("header", index), 300):
                record, leaps = self.carried(record, memories, leaps, letter, numbers)
                self.assertEqual(record.clock, record.link_time + record.leap_width * leaps)

    def carried(self, record, memories, leaps, letter, numbers):
        """The record and the number of leaps after the call."""
        was_open = record != uplink.Record()
        try:
            if letter == "o":
                record = uplink.Record()
                return uplink.opening(*numbers, memories), 0
            if letter == "a":
                uplink.arrival(record, memories, *numbers)
                return record, leaps
            reply = uplink.pick(record, memories)
            return record, 0 if reply == "idle" else leaps + reply[4]
        except uplink.Refusal as refusal:
            self.assertFalse(was_open and refusal.number == 2)
            return record, 0 if letter == "o" else leaps

    def test_the_script_opens_with_0(self):
        script = uplink.Script()
        for line in b"f 500 100", b"o", b"a 0 100 7", b"p":
            output = script.output_of_line(line)
        self.assertEqual(("p 0 0 100 7 144000 0 72000", 0), (output, script.record.header))


class TheProgram(Document):
    def test_whole_example_on_standard_input_and_output(self):
        script, output = examples.input_and_output(examples.WHOLE_EXAMPLE)
        self.assertEqual((output, b""), (run(script).stdout, run(script).stderr))
        self.assertEqual(output, run(script[:-1]).stdout)

    def test_examples_and_limits(self):
        for name, text in examples.SCRIPTS.items():
            with self.subTest(name):
                script, output = examples.input_and_output(text)
                self.assertEqual(output.split(b"\n"), uplink.output_of_input(script).split(b"\n"))

    def test_lines(self):
        self.assertEqual([], uplink.lines_of_input(b""))
        self.assertEqual([b""], uplink.lines_of_input(b"\n"))
        self.assertEqual([b"p", b"", b"p"], uplink.lines_of_input(b"p\n\np"))
        self.assertEqual([b"p\r", b"\0"], uplink.lines_of_input(b"p\r\n\0\n"))

    def test_first_65_536_bytes(self):
        self.assertEqual(32_768, run(b"p\n" * 40_000).stdout.count(b"p 2\n"))
        cut = b"\n" * 65_535 + b"p"
        self.assertEqual(b"bad\n" * 65_535 + b"p 2\n", run(cut + b"p\n").stdout)

    def test_closed_output_ends_quietly(self):
        program = subprocess.Popen([sys.executable, str(PROGRAM)], stdin=subprocess.PIPE,
                                   stdout=subprocess.PIPE, stderr=subprocess.PIPE)
        program.stdout.close()
        program.stdin.write(b"p\n")
        program.stdin.close()
        self.assertEqual((b"", 0), (program.stderr.read(), program.wait()))
        program.stderr.close()


if __name__ == "__main__":
    unittest.main()
