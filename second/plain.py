#!/usr/bin/env python3
"""The plain engine beside the fast one, leap backward, of the second program: document 02 c).

Written from documents 01 and 02 alone. A script is read, a table opened, a packet stored and freed, the smallest tag
found and its packet served as by the first engine (uplink.py), the turn of 02 e) with it. Here is what is the plain
engine's own: its record, its form, its leap and what Idle does. Words in quotation marks are 02 c)'s, or document 01's
where they follow "01".

    python3 second/plain.py < SCRIPT

writes the lines of the script program with this engine's own tags and clock.

The signed tag at and under zero: a tag of a flow with nothing waiting that is at or below the clock, negative or not,
says that the flow's next packet starts at the clock, since only the larger of tag and clock is ever used.
"""

import dataclasses
from dataclasses import dataclass

import uplink
from uplink import Refusal


@dataclass
class Record(uplink.Record):
    # "It keeps the sum of the widths leapt". 01: a field that a request adds "is 0 in the blank record, and 0 after an
    # opening". "Idle tags may fall below zero": the tags are signed.
    sum_of_widths: int = 0


def raised(record):
    """The record "with that added to clock and tags", as one of the first engine's."""
    raise_by = record.sum_of_widths
    flows = [dataclasses.replace(flow, tag=flow.tag + raise_by) for flow in record.flows]
    return uplink.Record(record.number_of_flows, record.header, record.leap_width, record.clock + raise_by,
                         record.link_time, flows, record.turn)


def is_well_formed(record, memories):
    # "with that added to clock and tags, its record is judged by 01's form". A tag of the first engine has no sign, so
    # one that is below zero even with the sum added is no tag of its form.
    judged = raised(record)
    return all(flow.tag >= 0 for flow in judged.flows) and uplink.is_well_formed(judged, memories)


def check_memories_and_record(memories, record):
    # 01, 2: "the record is not well formed"
    uplink.check_memories(memories)
    if not is_well_formed(record, memories):
        raise Refusal(2)


def opening(shares, largest_packets, header, memories):
    return uplink.opening(shares, largest_packets, header, memories, Record)


def arrival(record, memories, f, length, handle):
    # 01: "Arrival: 1, 2, 7, 8, 9."
    check_memories_and_record(memories, record)
    uplink.arrive(record, memories, f, length, handle)


def leap(record):
    # "the clock stays and every tag goes down by Δ. The report says "active flows"; all 64 go down, as in source 003."
    for flow in record.flows:
        flow.tag -= record.leap_width
    record.sum_of_widths += record.leap_width


def pick(record, memories):
    # 01: "Pick: 1, 2, Idle, 10."
    check_memories_and_record(memories, record)
    waiting_flows = uplink.flows_that_wait(record)
    if not waiting_flows:
        # "the sum of the widths leapt, 0 again at Idle"
        record.sum_of_widths = 0
        return uplink.idle(record)
    # "with that added to clock and tags, its record is judged by ... refusal 10"
    if record.clock + record.sum_of_widths >= 2**62:
        raise Refusal(10)
    f = uplink.smallest_tag(record, waiting_flows)
    leapt = 1 if uplink.is_far_ahead(record, f) else 0
    if leapt:
        leap(record)
    return uplink.serve(record, memories, f, leapt)


PLAIN_ENGINE = uplink.Engine(Record, opening, arrival, pick)

if __name__ == "__main__":
    uplink.main(PLAIN_ENGINE)
