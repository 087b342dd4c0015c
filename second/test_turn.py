"""Both engines of the second program against document 02 e), "Flow 0 always first": which flow of equal tags is picked,
where the turn stands after each call, which turns are well formed; and on random runs and records, with rules that are
not this one and have to be found out.

Run with: python3 -m unittest discover second
"""

import unittest
from unittest import mock

import plain
import test_plain
import test_uplink
import traffic
import uplink
from records import RecordMaker


def waiting_flows_of_smallest_tag(record):
    smallest = min((flow.tag for flow in record.table() if flow.waiting > 0), default=None)
    return [f for f, flow in enumerate(record.table()) if flow.waiting > 0 and flow.tag == smallest]


def first_after(last, flows):
    """"the first flow after the one picked last, counting round\""""
    f = last
    while True:
        f = 0 if f == 63 else f + 1
        if f in flows:
            return f


class Turn(test_uplink.Document):
    """The first engine; the plain engine has the same tests below."""
    engine = uplink.FIRST_ENGINE

    def opened(self, *rows):
        return test_uplink.opened(*rows, engine=self.engine)

    def packets(self, record, memories, *flows):
        """A packet of 100 bytes at each of these flows."""
        for f in flows:
            self.engine.arrival(record, memories, f, 100, f)

    def picked(self, record, memories, number_of_picks):
        """The flows of so many picks, and the turn after them."""
        return [self.engine.pick(record, memories)[0] for _ in range(number_of_picks)], record.turn

    def test_flow_9_wins_over_flow_0(self):
        # Share 100, cost 7,200: after flow 8's packet the clock is 72,000, and both tags are 72,000 + 720,000.
        record, memories = self.opened(*[(100, 100)] * 10)
        self.packets(record, memories, 8)
        self.assertEqual(([8], 9), self.picked(record, memories, 1))
        self.packets(record, memories, 0, 9)
        self.assertEqual([792_000, 792_000], [record.flows[0].tag, record.flows[9].tag])
        self.assertEqual((9, 100, 9, 792_000, 0, 144_000), self.engine.pick(record, memories))
        self.assertEqual((0, 100, 0, 792_000, 0, 216_000), self.engine.pick(record, memories))

    def test_the_flow_of_the_turn_itself_is_the_first(self):
        for turn, order in {0: [2, 5, 7], 2: [2, 5, 7], 3: [5, 7, 2], 5: [5, 7, 2], 6: [7, 2, 5], 8: [2, 5, 7]}.items():
            record, memories = self.opened(*[(100, 100)] * 10)
            record.turn = turn
            self.packets(record, memories, 2, 5, 7)
            self.assertEqual(order, self.picked(record, memories, 3)[0], turn)

    def test_a_smaller_tag_comes_before_the_turn(self):
        record, memories = self.opened(*[(100, 100)] * 10)
        record.turn = 9
        self.packets(record, memories, 9)
        self.engine.arrival(record, memories, 0, 99, 0)
        self.assertEqual(([0, 9], 10), self.picked(record, memories, 2))

    def test_round_the_corner_from_63_to_0(self):
        record, memories = self.opened(*[(15, 100)] * 64)
        self.packets(record, memories, 62)
        self.assertEqual(([62], 63), self.picked(record, memories, 1))
        self.packets(record, memories, 0, 1, 61, 63)
        self.assertEqual(([63], 0), self.picked(record, memories, 1))
        self.assertEqual(([0], 1), self.picked(record, memories, 1))
        self.assertEqual(([1, 61], 62), self.picked(record, memories, 2))

    def test_a_turn_past_the_number_of_flows(self):
        for turn in 10, 11, 13, 62, 63:
            record, memories = self.opened(*[(100, 100)] * 10)
            record.turn = turn
            self.packets(record, memories, 3, 5)
            self.assertEqual(([3, 5], 6), self.picked(record, memories, 2))
        record, memories = self.opened(*[(100, 100)] * 10)
        self.packets(record, memories, 9)
        self.assertEqual(([9], 10), self.picked(record, memories, 1))
        self.packets(record, memories, *range(9))
        self.assertEqual(([0, 1, 2], 3), self.picked(record, memories, 3))

    def test_it_moves_where_one_flow_alone_waits(self):
        record, memories = self.opened(*[(100, 100)] * 10)
        for f in 5, 2, 2, 7, 0, 9:
            self.packets(record, memories, f)
            self.assertEqual(([f], f + 1), self.picked(record, memories, 1))

    def test_equal_flows_that_all_wait_are_picked_round_and_round(self):
        record, memories = self.opened(*[(100, 100)] * 10)
        self.packets(record, memories, 3)
        self.picked(record, memories, 1)
        others = [4, 5, 6, 7, 8, 9, 0, 1, 2]
        self.packets(record, memories, *sorted(others) * 4)
        self.assertEqual((others * 4, 3), self.picked(record, memories, 36))

    def test_an_arrival_leaves_it(self):
        record, memories = self.opened(*[(100, 100)] * 10)
        record.turn = 6
        self.packets(record, memories, 7, 7, 0)
        self.assertEqual(6, record.turn)

    def test_refused_calls_leave_it(self):
        record, memories = self.opened((100, 100), (100, 100))
        record.turn = 6
        self.packets(record, memories, *[0] * 64)
        arrival, pick = self.engine.arrival, self.engine.pick
        self.refused(7, arrival, record, memories, 2, 100, 1)
        self.refused(8, arrival, record, memories, 1, 101, 1)
        self.refused(9, arrival, record, memories, 0, 100, 1)
        for call in (arrival, record, uplink.Memories([]), 1, 100, 1), (pick, record, uplink.Memories([])):
            self.refused(1, *call)
        record.clock = record.flows[0].tag = 2**62
        self.refused(10, pick, record, memories)
        record.header = 65
        self.refused(2, arrival, record, memories, 1, 100, 1)
        self.refused(2, pick, record, memories)
        self.assertEqual(6, record.turn)

    def test_0_after_an_opening_or_idle(self):
        record, memories = self.opened(*[(100, 100)] * 10)
        self.assertEqual(0, record.turn)
        self.packets(record, memories, 4)
        self.assertEqual(([4], 5), self.picked(record, memories, 1))
        self.assertEqual(("idle", 0), (self.engine.pick(record, memories), record.turn))
        self.packets(record, memories, 8, 6)
        self.assertEqual(([6, 8], 9), self.picked(record, memories, 2))
        record.turn = 63
        self.assertEqual(("idle", 0), (self.engine.pick(record, memories), record.turn))

    def test_the_script_opens_with_0_and_a_refused_opening_is_blank(self):
        script = uplink.Script(self.engine)
        turns = []
        for line in b"f 500 100", b"f 500 100", b"o", b"a 0 1 1", b"p", b"o", b"a 1 1 1", b"p", b"f 1 1", b"o":
            script.output_of_line(line)
            turns.append(script.record.turn)
        self.assertEqual([0, 0, 0, 0, 1, 0, 0, 2, 2, 0], turns)
        self.assertEqual(self.engine.blank(), script.record)

    def test_2_for_a_turn_past_63(self):
        for turn in 64, 65, 127, 128, 255, 256, 65_535, 65_536, 2**32, 2**63, 2**64 - 64, 2**64 - 1:
            for waiting in 0, 1:
                record, memories = self.opened((500, 100), (500, 100))
                self.packets(record, memories, *[0] * waiting)
                record.turn = turn
                self.refused(2, self.engine.pick, record, memories)
                self.refused(2, self.engine.arrival, record, memories, 0, 1, 1)
                self.assertEqual((turn, waiting), (record.turn, record.flows[0].waiting))

    def test_0_to_63_are_well_formed_on_one_flow(self):
        for turn in range(64):
            record, memories = self.opened((500, 100))
            record.turn = turn
            self.packets(record, memories, 0)
            self.assertEqual(([0], 1), self.picked(record, memories, 1))

    def test_any_well_formed_record(self):
        ties = 0
        for index in range(400):
            maker = RecordMaker("turn", index)
            record = self.of_this_engine(maker.well_formed())
            before, equals = record.turn, waiting_flows_of_smallest_tag(record)
            _, reply = test_plain.outcome(self.engine, record, maker.memories, "p", [])
            if reply == "idle":
                self.assertEqual(([], 0), (equals, record.turn))
            elif test_plain.is_pick_done(reply):
                expected = first_after((before - 1) % 64, equals)
                self.assertEqual((expected, (expected + 1) % 64), (reply[0], record.turn))
                ties += expected != equals[0]
            else:
                self.assertEqual(((10, 0), before), (reply, record.turn))
        self.assertGreater(ties, 10)

    def of_this_engine(self, record):
        return plain.raised(record)


class TurnOfThePlainEngine(Turn):
    engine = plain.PLAIN_ENGINE

    def of_this_engine(self, record):
        return record


def lowest_number(record, waiting_flows):
    """The rule before 02 e)."""
    return min(waiting_flows, key=lambda f: (record.flows[f].tag, f))


def the_last_one_again(record, waiting_flows):
    """Another rule: it begins at the flow picked last, and not after it."""
    return min(waiting_flows, key=lambda f: (record.flows[f].tag, (f + 1 - record.turn) % 64))


def counted_down(record, waiting_flows):
    """Another rule: it goes round the other way."""
    return min(waiting_flows, key=lambda f: (record.flows[f].tag, (record.turn - f - 1) % 64))


def idle_that_keeps_the_turn(record):
    """Another Idle: the turn stays."""
    record.clock = record.link_time = 0
    for flow in record.flows:
        flow.tag = 0
    return "idle"


def serve_that_moves_at_ties_only(serve):
    """Another pick: the turn stays where one flow alone has the smallest tag."""
    def changed(record, memories, f, leapt):
        before, equals = record.turn, waiting_flows_of_smallest_tag(record)
        reply = serve(record, memories, f, leapt)
        record.turn = record.turn if len(equals) > 1 else before
        return reply
    return changed


def few_table(dice):
    """A few flows that are all alike, with short packets: the flow picked last often has the smallest tag again."""
    number_of_flows = dice.between(2, 5)
    return [(dice.one_of([10, 1000 // number_of_flows]), dice.between(1, 4))] * number_of_flows


class RandomRuns(unittest.TestCase):
    """The flow picked last is read off the output lines, and equal tags off the record before the line."""
    kinds = [traffic.KINDS["turns"], traffic.Kind(few_table, traffic.any_length, "mix mix burst single drain")]

    def faults_of_a_run(self, engine, kind, index):
        """What is wrong at a pick of the run, and "last in a tie" where the flow picked last could have won."""
        script, last, found = uplink.Script(engine), 63, []
        for line in uplink.lines_of_input(traffic.script_of_kind(kind, traffic.Dice("turn", index), 3000)):
            equals = waiting_flows_of_smallest_tag(script.record)
            words = (script.output_of_line(line) or "").split()
            if words[:2] == ["p", "0"]:
                picked = int(words[2])
                found += ["last in a tie"] * (len(equals) > 1 and last in equals)
                found += ["the last one wins a tie"] * (len(equals) > 1 and last == picked)
                found += ["not the first after the last"] * (picked != first_after(last, equals))
                last = picked
            elif words[:2] in (["p", "idle"], ["o", "0"]):
                last = 63
        return found

    def faults(self, number_of_runs=4):
        return [fault for engine in (uplink.FIRST_ENGINE, plain.PLAIN_ENGINE) for kind in self.kinds
                for index in range(number_of_runs) for fault in self.faults_of_a_run(engine, kind, index)]

    def test_the_flow_picked_last_loses_every_tie(self):
        found = self.faults()
        self.assertEqual({"last in a tie"}, set(found))
        self.assertGreater(len(found), 50)

    def test_other_choices_are_found_out(self):
        every_kind = {"last in a tie", "the last one wins a tie", "not the first after the last"}
        for rule in lowest_number, the_last_one_again, counted_down:
            with mock.patch("uplink.smallest_tag", rule):
                self.assertEqual(every_kind, set(self.faults()), rule.__name__)

    def test_another_idle_and_another_serve_are_found_out(self):
        for name, changed in (("uplink.idle", idle_that_keeps_the_turn),
                              ("uplink.serve", serve_that_moves_at_ties_only(uplink.serve))):
            with mock.patch(name, changed):
                self.assertIn("not the first after the last", self.faults(), name)


if __name__ == "__main__":
    unittest.main()
