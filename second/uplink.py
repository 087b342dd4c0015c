#!/usr/bin/env python3
"""The script program of the uplink scheduler, written from documents 01 and 02 alone.

This is the second program: it shares no code, table or helper with the crates. Here is the first
engine, leap forward, and all that it has in common with the plain engine of 02 c) (plain.py).
Words in quotation marks are document 01's, or document 02's where they follow "02".
Python's whole numbers have no upper end, so nothing here can wrap around. A call
that is done changes the record and the memories in place; a refused call raises
Refusal before anything has changed.
"""

import os
import re
import sys
from collections import namedtuple
from dataclasses import dataclass, field


class Refusal(Exception):
    # "Numbers 4 and 5 come with the flow's number, every other with 0."
    def __init__(self, number, flow=0):
        super().__init__(number, flow)
        self.number, self.flow = number, flow


@dataclass
class Memories:
    # "two lent memories of 4,096 places each, one of 16-bit lengths, one of 32-bit handles"
    lengths: list = field(default_factory=lambda: [0] * 4096)
    handles: list = field(default_factory=lambda: [0] * 4096)


@dataclass
class Flow:
    # "for each flow: share, largest packet, tag, first place (0 to 63), number waiting (0 to 64)"
    share: int = 0
    largest: int = 0
    tag: int = 0
    first: int = 0
    waiting: int = 0


@dataclass
class Record:
    # "It holds the number of flows, Δ, the clock, the link time, and for each flow: ..."
    # 02 a): "The opening takes a header size, 0 to 64, which the record keeps"
    # 02 e): "The record gains the turn, 0 to 63: one past the last flow picked, 63 to 0, and 0
    # after an opening or Idle."
    # "The blank record is all zeros": Record().
    number_of_flows: int = 0
    header: int = 0
    leap_width: int = 0
    clock: int = 0
    link_time: int = 0
    flows: list = field(default_factory=lambda: [Flow() for _ in range(64)])
    turn: int = 0

    def table(self):
        return self.flows[:self.number_of_flows]

    def charge(self, length):
        # 02 a): "a packet's charge is length plus header"
        return length + self.header


def cost(share):
    # "A byte of a flow costs the flow 720,000 / q ticks, rounded up."
    return (720_000 + share - 1) // share


def leap_width(record):
    # "the largest value, over the table's flows, of largest packet times cost"
    # 02 a): "Tags, clock, link time and Δ use the charge"
    return max(record.charge(flow.largest) * cost(flow.share) for flow in record.table())


def place(f, first, k):
    # "its k-th waiting packet, from k = 0, is at 64 × f + ((first + k) mod 64)"
    return 64 * f + (first + k) % 64


# "The record is well formed when all of these hold": one function for each bullet, and one for
# each field that 02 a) and 02 e) add: "A field that a request adds to the record later has its
# stated range as part of the form."

def table_is_well_formed(record):
    # "1 to 64 flows; shares 1 to 1,000 with sum at most 1,000; largest packets 1 to 1,500;
    # Δ as above"
    table = record.table()
    return (1 <= record.number_of_flows <= 64
            and all(1 <= flow.share <= 1000 and 1 <= flow.largest <= 1500 for flow in table)
            and sum(flow.share for flow in table) <= 1000
            and record.leap_width == leap_width(record))


def waiting_is_well_formed(record, memories):
    # "first and number waiting in range; every waiting length from 1 to the flow's largest"
    return all(0 <= flow.first <= 63 and 0 <= flow.waiting <= 64
               and all(1 <= memories.lengths[place(f, flow.first, k)] <= flow.largest
                       for k in range(flow.waiting))
               for f, flow in enumerate(record.table()))


def tags_are_well_formed(record):
    # "a waiting flow's tag is at least the clock and at most clock + 3Δ; any other flow's tag
    # is at most clock + 2Δ"
    clock, width = record.clock, record.leap_width
    return all(clock <= flow.tag <= clock + 3 * width if flow.waiting > 0
               else flow.tag <= clock + 2 * width for flow in record.table())


def clocks_are_well_formed(record):
    # "link time is at most the clock; the clock is below ..."
    # 02 a): "the record's clock limit 2^62 + 1,127,206,080"
    return record.link_time <= record.clock < 2**62 + 1_127_206_080


def the_rest_is_zero(record):
    # "all fields of flows beyond the number of flows are 0"
    return all(flow == Flow() for flow in record.flows[record.number_of_flows:])


def header_is_well_formed(record):
    # 02 a): "a header size, 0 to 64"
    return 0 <= record.header <= 64


def turn_is_well_formed(record):
    # 02 e): "the turn, 0 to 63", whatever the number of flows
    return 0 <= record.turn <= 63


def check_memories(memories):
    # 1: "a lent memory has not exactly 4,096 places"
    if len(memories.lengths) != 4096 or len(memories.handles) != 4096:
        raise Refusal(1)


def is_well_formed(record, memories):
    return (table_is_well_formed(record) and waiting_is_well_formed(record, memories)
            and tags_are_well_formed(record) and clocks_are_well_formed(record)
            and the_rest_is_zero(record) and header_is_well_formed(record)
            and turn_is_well_formed(record))


def check_memories_and_record(memories, record):
    # 2: "the record is not well formed"
    check_memories(memories)
    if not is_well_formed(record, memories):
        raise Refusal(2)


def opening(shares, largest_packets, header, memories, blank=Record):
    # "Opening: 1, 3, then flow by flow from 0, 4 before 5, then 6."
    # 02 a): "3 also when the header is over 64"
    check_memories(memories)
    if len(shares) != len(largest_packets) or not 1 <= len(shares) <= 64 or header > 64:
        raise Refusal(3)
    for f, (share, largest) in enumerate(zip(shares, largest_packets)):
        if not 1 <= share <= 1000:
            raise Refusal(4, f)
        if not 1 <= largest <= 1500:
            raise Refusal(5, f)
    if sum(shares) > 1000:
        raise Refusal(6)
    # "It gives the record with clock, link time, tags, firsts and waiting numbers 0,
    # and sets all 4,096 places of both memories to 0." 02 e): the turn is "0 after an opening".
    record = blank(number_of_flows=len(shares), header=header)
    for flow, share, largest in zip(record.flows, shares, largest_packets):
        flow.share, flow.largest = share, largest
    record.leap_width = leap_width(record)
    memories.lengths[:] = memories.handles[:] = [0] * 4096
    return record


def arrival(record, memories, f, length, handle):
    # "Arrival: 1, 2, 7, 8, 9."
    check_memories_and_record(memories, record)
    arrive(record, memories, f, length, handle)


def arrive(record, memories, f, length, handle):
    """The arrival after 1 and 2, the same in both engines of 02 c)."""
    if not f < record.number_of_flows:
        raise Refusal(7)
    flow = record.flows[f]
    if length == 0 or length > flow.largest:
        raise Refusal(8)
    if flow.waiting == 64:
        raise Refusal(9)
    # "If the flow was empty, its tag becomes the larger of tag and clock, plus n × cost.
    # Otherwise no tag changes." By 02 a) n is here the charge.
    if flow.waiting == 0:
        flow.tag = max(flow.tag, record.clock) + record.charge(length) * cost(flow.share)
    # "The packet goes behind the flow's last one."
    behind = place(f, flow.first, flow.waiting)
    memories.lengths[behind], memories.handles[behind] = length, handle
    flow.waiting += 1


def pick(record, memories):
    # "Pick: 1, 2, Idle, 10."
    check_memories_and_record(memories, record)
    waiting_flows = flows_that_wait(record)
    if not waiting_flows:
        return idle(record)
    if record.clock >= 2**62:
        raise Refusal(10)
    f = smallest_tag(record, waiting_flows)
    # 3. "If T is greater than clock + 2Δ, add Δ to the clock, once."
    leapt = 1 if is_far_ahead(record, f) else 0
    record.clock += leapt * record.leap_width
    return serve(record, memories, f, leapt)


# The steps of a pick that are the same in both engines of 02 c).

def flows_that_wait(record):
    return [f for f, flow in enumerate(record.table()) if flow.waiting > 0]


def idle(record):
    # 1. "Nothing waits: reply Idle; clock, link time and all tags become 0; all else stays."
    # 02 e): the turn too is "0 after an opening or Idle".
    record.clock = record.link_time = record.turn = 0
    for flow in record.flows:
        flow.tag = 0
    return "idle"


def smallest_tag(record, waiting_flows):
    # 2. "Take the waiting flow with the smallest tag T." 02 e): "among equals, the first flow after
    # the one picked last, counting round". The turn is one past that flow, so the distance from
    # the turn is counted, 63 being followed by 0.
    return min(waiting_flows, key=lambda g: (record.flows[g].tag, (g - record.turn) % 64))


def is_far_ahead(record, f):
    # 3. "If T is greater than clock + 2Δ": what is done then is the engine's own.
    return record.flows[f].tag > record.clock + 2 * record.leap_width


def serve(record, memories, f, leapt):
    """Steps 4 and 5, and the reply, T being the tag that the flow has after step 3."""
    flow = record.flows[f]
    tag = flow.tag
    # 4. "Add 720 × n to clock and link time": by 02 a) n is the charge. "The freed place
    # becomes 0 in both memories; first goes on by one, 63 to 0."
    front = place(f, flow.first, 0)
    length, handle = memories.lengths[front], memories.handles[front]
    record.clock += 720 * record.charge(length)
    record.link_time += 720 * record.charge(length)
    memories.lengths[front] = memories.handles[front] = 0
    flow.first = (flow.first + 1) % 64
    flow.waiting -= 1
    # 5. "If the flow still waits, its tag becomes the larger of T and clock, plus next
    # length × cost, with the clock after step 4. Otherwise its tag stays T." By 02 a) it is the
    # next charge × cost.
    if flow.waiting > 0:
        next_length = memories.lengths[place(f, flow.first, 0)]
        flow.tag = max(tag, record.clock) + record.charge(next_length) * cost(flow.share)
    # 02 e): the turn is "one past the last flow picked, 63 to 0".
    record.turn = (f + 1) % 64
    # "The reply is flow, length, handle, T, leapt or not, clock."
    return f, length, handle, tag, leapt, record.clock


# What a script needs of an engine: its blank record and "three calls: opening, arrival, pick".
Engine = namedtuple("Engine", "blank opening arrival pick")
FIRST_ENGINE = Engine(Record, opening, arrival, pick)


def call_of_line(line):
    # "Fields are parted by one space; numbers have 1 to 10 decimal digits and are at most
    # 4,294,967,295. Any other line ... writes `bad`": then there is no call.
    if not re.fullmatch(rb"f( [0-9]{1,10}){2}|o|a( [0-9]{1,10}){3}|p", line):
        return None
    letter, *fields = line.decode("ascii").split(" ")
    numbers = [int(digits) for digits in fields]
    return (letter, numbers) if all(n <= 4_294_967_295 for n in numbers) else None


class Script:
    # "Before an opening the record is blank."
    def __init__(self, engine=FIRST_ENGINE):
        self.engine = engine
        self.rows = []
        self.record = engine.blank()
        self.memories = Memories()

    def output_of_line(self, line):
        """The output line without its line feed, or None where nothing is written."""
        call = call_of_line(line)
        # "Any other line, and an `f` line after the 65th, writes `bad`."
        if call is None or (call[0] == "f" and len(self.rows) == 65):
            return "bad"
        letter, numbers = call
        # "A taken `f` line writes nothing."
        if letter == "f":
            self.rows.append(numbers)
            return None
        # "Each output line but `bad` starts with its call's letter, then its fields, parted
        # by one space."
        return " ".join([letter] + [str(answer) for answer in self.answers(letter, numbers)])

    def answers(self, letter, numbers):
        # "`o` writes number (0 for done) and flow. `a` writes the number (0 for done).
        # `p` writes `p idle`, or `p` and a refusal number, or `p 0`, flow, length, ..."
        try:
            if letter == "o":
                return self.opening()
            if letter == "a":
                self.engine.arrival(self.record, self.memories, *numbers)
                return [0]
            reply = self.engine.pick(self.record, self.memories)
            return [reply] if reply == "idle" else [0, *reply]
        except Refusal as refusal:
            return [refusal.number, refusal.flow] if letter == "o" else [refusal.number]

    def opening(self):
        # "A refusal returns the record as given (opening: the blank record)."
        self.record = self.engine.blank()
        shares = [share for share, largest in self.rows]
        largest_packets = [largest for share, largest in self.rows]
        # "The script opens with 0 for it": for a field that a request adds.
        self.record = self.engine.opening(shares, largest_packets, 0, self.memories)
        return [0, 0]


def lines_of_script(data):
    # "A line ends at a line feed, the last one also at the end of input; an empty rest after the
    # last line feed is no line."
    *lines, rest = data.split(b"\n")
    return lines + [rest] if rest else lines


def lines_of_input(data):
    # "It reads the first 65,536 bytes of standard input."
    return lines_of_script(data[:65_536])


def output_of_input(data, engine=FIRST_ENGINE):
    script = Script(engine)
    output_lines = [script.output_of_line(line) for line in lines_of_input(data)]
    return b"".join(line.encode() + b"\n" for line in output_lines if line is not None)


def main(engine=FIRST_ENGINE):
    write_output(output_of_input(sys.stdin.buffer.read(65_536) if sys.stdin else b"", engine))


def write_output(output):
    try:
        if sys.stdout:
            sys.stdout.buffer.write(output)
            sys.stdout.buffer.flush()
    except BrokenPipeError:
        # Whoever read the output has gone: end quietly, with nothing left to flush.
        os.dup2(os.open(os.devnull, os.O_WRONLY), sys.stdout.fileno())


if __name__ == "__main__":
    main()
