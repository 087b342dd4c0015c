"""Document 02 b) on random traffic: demand 3, two groups that both wait, and a front packet that leaves in time, over
every stretch of each run. A pick of the lowest flow number has every kind of fault, and costs clamped at 65,535, as the
supplier had them, have two."""
import random
import unittest
from unittest import mock

import uplink

exact_cost = uplink.cost


class Moment:
    """What is read off a record between two calls, by the exact costs."""
    def __init__(self, record, memories):
        flows = record.table()
        self.costs = [exact_cost(flow.share) for flow in flows]
        self.waits = [flow.waiting > 0 for flow in flows]
        lengths = [memories.lengths[uplink.place(f, flow.first, 0)] for f, flow in enumerate(flows)]
        self.fronts = [record.charge(length) if waits else 0 for length, waits in zip(lengths, self.waits)]
        self.starts = [flow.tag - front * cost if front else max(flow.tag, record.clock)
                       for flow, front, cost in zip(flows, self.fronts, self.costs)]
        self.link_time = record.link_time
        self.width = max(record.charge(flow.largest) * cost for flow, cost in zip(flows, self.costs))


def moments(record, memories, calls):
    """The moments round the calls, and for each call the flow and the charge that it picked, or None."""
    seen, picked = [Moment(record, memories)], []
    for call in calls:
        packet = None
        if call == "pick":
            reply = uplink.pick(record, memories)
            packet = "idle" if reply == "idle" else (reply[0], record.charge(reply[1]))
        else:
            uplink.arrival(record, memories, *call)
        picked.append(packet)
        seen.append(Moment(record, memories))
    return seen, picked


def faults_of_a_moment(now):
    spread = max(now.starts) - min(now.starts)
    return ["far ahead"] if spread > 2 * now.width else []


def faults_of_a_stretch(begin, end, sums, waited):
    """What is wrong with the sums picked over a stretch, where these flows waited at every pick."""
    width, costs, faults = begin.width, begin.costs, []
    figures = [charge * cost for charge, cost in zip(sums, costs)]
    for f in waited:
        front = end.fronts[f]
        bound = figures[f] + front * costs[f] + 2 * width
        if 720 * (sum(sums) + front) > bound or 720 * sum(sums) > figures[f] + 3 * width:
            faults.append("demand 3")
        if max(figures) > bound or max(figures) > figures[f] + 3 * width:
            faults.append("overdrawn")
        if any(abs(figures[f] - figures[g]) > 6 * width for g in waited):
            faults.append("both wait")
        if begin.waits[f] and sums[f] == 0 and end.link_time + 720 * front > begin.link_time + 3 * width:
            faults.append("left waiting")
    return faults


def faults(record, memories, calls):
    seen, picked = moments(record, memories, calls)
    found = [fault for now in seen for fault in faults_of_a_moment(now)]
    for first in range(len(calls)):
        begin, sums = seen[first], [0] * len(seen[first].costs)
        waited = list(range(len(sums)))
        for call in range(first, len(calls)):
            if picked[call] is not None:
                waited = [f for f in waited if seen[call].waits[f]]
            if isinstance(picked[call], tuple):
                flow, charge = picked[call]
                left = begin.waits[flow] and sums[flow] == 0
                sums[flow] += charge
                if left and seen[call + 1].link_time > begin.link_time + 3 * begin.width:
                    found.append("left too late")
            found += faults_of_a_stretch(begin, seen[call + 1], sums, waited)
    return found


def random_table(dice):
    """Two to four flows with a header: small shares among large ones, or shares close to each other, with a Δ that
    sixty calls go far beyond."""
    choice, most = dice.choice([([1, 5, 50, 200, 240], 9), ([200, 240, 250], 2)])
    shares = [dice.choice(choice) for _ in range(dice.randint(2, 4))]
    return shares, [dice.randint(1, most) for _ in shares], dice.randint(0, 4)


def random_calls(dice, largest):
    calls, waiting = [], [0] * len(largest)
    for _ in range(60):
        f = dice.randrange(len(largest))
        if dice.random() < 0.5 and waiting[f] < 64:
            calls.append((f, dice.randint(1, largest[f]), 0))
            waiting[f] += 1
        else:
            calls.append("pick")
    return calls


def faults_of_random_runs(number_of_runs):
    dice, found = random.Random(20261115), set()
    for _ in range(number_of_runs):
        shares, largest, header = random_table(dice)
        memories = uplink.Memories()
        record = uplink.opening(shares, largest, header, memories)
        found.update(faults(record, memories, random_calls(dice, largest)))
    return found


class TwoGroups(unittest.TestCase):
    def test_no_fault_on_random_traffic(self):
        self.assertEqual(set(), faults_of_random_runs(150))

    def test_a_pick_of_the_lowest_number_is_found_out(self):
        with mock.patch("uplink.min", lambda flows, key: flows[0], create=True), \
                mock.patch("uplink.check_memories_and_record"):
            found = faults_of_random_runs(150)
        every_kind = {"far ahead", "demand 3", "overdrawn", "both wait", "left waiting", "left too late"}
        self.assertEqual(every_kind, found)

    def test_clamped_costs_are_found_out(self):
        largest, memories = [1500, 8, 8], uplink.Memories()
        arrivals = [(f, most, 0) for f, most in enumerate(largest) for _ in range(40)]
        with mock.patch("uplink.cost", lambda share: min(exact_cost(share), 65_535)), \
                mock.patch("uplink.check_memories_and_record"):
            record = uplink.opening([700, 5, 5], largest, 0, memories)
            found = faults(record, memories, arrivals + ["pick"] * 70)
        self.assertEqual({"overdrawn", "both wait"}, set(found))


if __name__ == "__main__":
    unittest.main()
