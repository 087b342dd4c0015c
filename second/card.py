#!/usr/bin/env python3
"""The log card of the second program: document 02 d). Blocks of 512 bytes are written and read.

Written from documents 01 and 02 alone. The calls are those of uplink.py, or another engine's; here is what goes on a
card. Words in quotation marks are 02 d)'s, or document 01's where they follow "01".

    python3 second/card.py write < SCRIPT > CARD    the blocks of the script's calls
    python3 second/card.py read < CARD              a line for each entry, and for each block that is refused

A script may have any length here. The blocks of one log are numbered from 0, each has 31 entries but the last, and an
opening that is done ends the log so far and begins another.
A line of what is read has the block's place in the input, from 0, the entry's place in the block, from 1, the kind
(arrival, pick, leap, idle), flow, length, handle and clock; or the block's place, "refused" and the number.
"""

import sys
from collections import namedtuple
from itertools import accumulate

import uplink
from uplink import Refusal

BLOCK_BYTES = 512
# "31 entries of 16 bytes" behind the number, the count and the zeros
MOST_ENTRIES = 31
ENTRY_BYTES = 16
FIRST_ENTRY = 12
# "two 16-bit sums in 508 to 511"
SUMS = 508

# "An entry's first byte says its kind: 1 arrival, 2 pick without leap, 3 pick with leap, 4 Idle"
ARRIVAL, PICK, LEAP, IDLE = 1, 2, 3, 4
NAMES = {ARRIVAL: "arrival", PICK: "pick", LEAP: "leap", IDLE: "idle"}

# "then flow, length (2), handle (4), clock after the call (8)": each field of an entry and its bytes
FIELDS = {"kind": 1, "flow": 1, "length": 2, "handle": 4, "clock": 8}
Entry = namedtuple("Entry", FIELDS)
# "Idle has zeros in all these. Unused entries are zeros."
IDLE_ENTRY, UNUSED = Entry(IDLE, 0, 0, 0, 0), Entry(0, 0, 0, 0, 0)


def is_entry(entry):
    """Whether a used entry keeps the rules: 12 is "any field outside these rules, flow over 63 and length 0 or over
    1,500 included"."""
    if entry.kind in (ARRIVAL, PICK, LEAP):
        return (0 <= entry.flow <= 63 and 1 <= entry.length <= 1500 and 0 <= entry.handle < 2**32
                and 0 <= entry.clock < 2**64)
    return entry == IDLE_ENTRY


def bytes_of_entry(entry):
    # "little-endian"
    return b"".join(value.to_bytes(size, "little") for value, size in zip(entry, FIELDS.values()))


def entry_of_bytes(data):
    places = accumulate(FIELDS.values(), initial=0)
    return Entry(*(int.from_bytes(data[place:place + size], "little") for place, size in zip(places, FIELDS.values())))


def sums(data):
    # "The first is the sum of bytes 0 to 507, the second the sum of the first's running values, both modulo 65,535 and
    # starting at 0." A remainder taken at each step or at the end is the same number.
    running_values = list(accumulate(data, initial=0))
    return running_values[-1] % 65_535, sum(running_values) % 65_535


def bytes_of_sums(data):
    return b"".join(value.to_bytes(2, "little") for value in sums(data))


def check_size(block):
    # 1: "a block not of 512 bytes"
    if len(block) != BLOCK_BYTES:
        raise Refusal(1)


def check_content(number, entries):
    # 12: "any field outside these rules": "block number in 0 to 3", so of 32 bits, "entry count 1 to 31"
    if not (0 <= number < 2**32 and 1 <= len(entries) <= MOST_ENTRIES and all(map(is_entry, entries))):
        raise Refusal(12)


def write_block(number, entries, block):
    """Writes the block into the 512 bytes that are lent. "Refusals: 1 ..., then 12 ...; nothing is written on any.\""""
    check_size(block)
    check_content(number, entries)
    # "block number in 0 to 3, entry count 1 to 31 in 4, zeros in 5 to 11, then 31 entries of 16 bytes"
    head = number.to_bytes(4, "little") + bytes([len(entries)]) + bytes(7)
    unused = [UNUSED] * (MOST_ENTRIES - len(entries))
    data = head + b"".join(map(bytes_of_entry, [*entries, *unused]))
    block[:] = data + bytes_of_sums(data)


def read_block(block):
    """The block's number and its entries. "Refusals: 1 a block not of 512 bytes, 11 wrong sums, then 12 any field
    outside these rules\""""
    check_size(block)
    data = block[:SUMS]
    # A sum is below 65,535, so a 65,535 that is stored is wrong.
    if block[SUMS:] != bytes_of_sums(data):
        raise Refusal(11)
    number, count = int.from_bytes(data[:4], "little"), data[4]
    entries = [entry_of_bytes(data[place:place + ENTRY_BYTES]) for place in range(FIRST_ENTRY, SUMS, ENTRY_BYTES)]
    # "entry count 1 to 31", "zeros in 5 to 11", "Unused entries are zeros."
    if count > MOST_ENTRIES or any(data[5:FIRST_ENTRY]) or any(entry != UNUSED for entry in entries[count:]):
        raise Refusal(12)
    check_content(number, entries[:count])
    return number, entries[:count]


# What a call logs. A call is "o", shares, largest packets, header; "a", flow, length, handle; or "p".

def clock_of(record):
    return record.clock


class Log:
    """The entries of calls one after the other, by an engine. `clock` gives the "clock after the call" of a record."""

    def __init__(self, engine=uplink.FIRST_ENGINE, clock=clock_of):
        self.engine, self.clock = engine, clock
        # 01: "Before an opening the record is blank."
        self.record, self.memories = engine.blank(), uplink.Memories()
        # for each opening that was done, and before the first, the entries logged from there on
        self.logs = [[]]

    def call(self, letter, *numbers):
        """Makes the call. "Refused calls are not logged." """
        try:
            if letter == "o":
                self.opening(*numbers)
            else:
                self.logs[-1].append(self.entry(letter, numbers))
        except Refusal:
            pass

    def opening(self, shares, largest_packets, header):
        """An opening is no entry: the kinds have none for it. One that is done begins another log."""
        # 01: "A refusal returns the record as given (opening: the blank record)."
        self.record = self.engine.blank()
        self.record = self.engine.opening(shares, largest_packets, header, self.memories)
        self.logs.append([])

    def entry(self, letter, numbers):
        """The entry of a call that is done; a refused call raises Refusal."""
        if letter == "a":
            self.engine.arrival(self.record, self.memories, *numbers)
            return Entry(ARRIVAL, *numbers, self.clock(self.record))
        reply = self.engine.pick(self.record, self.memories)
        if reply == "idle":
            return IDLE_ENTRY
        flow, length, handle, _tag, leapt, _clock = reply
        return Entry(LEAP if leapt else PICK, flow, length, handle, self.clock(self.record))


def logs_of_calls(calls, engine=uplink.FIRST_ENGINE, clock=clock_of):
    """The entries of each log of the calls: those before the first opening that is done, then those from each on."""
    log = Log(engine, clock)
    for call in calls:
        log.call(*call)
    return log.logs


def blocks_of_log(entries):
    """The blocks of one log, numbered from 0, each of 31 entries but the last; without an entry there is none."""
    written = bytearray()
    for number, start in enumerate(range(0, len(entries), MOST_ENTRIES)):
        block = bytearray(BLOCK_BYTES)
        write_block(number, entries[start:start + MOST_ENTRIES], block)
        written += block
    return bytes(written)


def calls_of_script(script):
    """The calls that the lines of a script of any length say; 01's other lines do nothing here."""
    rows = []
    for line in uplink.lines_of_script(script):
        letter, numbers = uplink.call_of_line(line) or ("bad", [])
        # 01: "an `f` line after the 65th, writes `bad`"
        if letter == "f" and len(rows) < 65:
            rows.append(numbers)
        elif letter == "o":
            # 01: "The script opens with 0 for it": for a field that a request adds.
            yield "o", [share for share, _ in rows], [largest for _, largest in rows], 0
        elif letter in ("a", "p"):
            yield letter, *numbers


def logwrite(script):
    """The blocks of the script's calls."""
    return b"".join(map(blocks_of_log, logs_of_calls(calls_of_script(script))))


def lines_of_block(place, block):
    try:
        _number, entries = read_block(block)
    except Refusal as refusal:
        return [f"{place} refused {refusal.number}\n"]
    return [f"{place} {entry_place} {NAMES[entry.kind]} {entry.flow} {entry.length} {entry.handle} {entry.clock}\n"
            for entry_place, entry in enumerate(entries, start=1)]


def logread(data):
    """A line for each entry, or for a refused block; a rest of fewer than 512 bytes is a block that is too short."""
    blocks = [data[start:start + BLOCK_BYTES] for start in range(0, len(data), BLOCK_BYTES)]
    return "".join(line for place, block in enumerate(blocks) for line in lines_of_block(place, block)).encode()


PROGRAMS = {"write": logwrite, "read": logread}


def main(words):
    if words == ["--help"]:
        print(__doc__.strip())
    elif len(words) == 1 and words[0] in PROGRAMS:
        uplink.write_output(PROGRAMS[words[0]](sys.stdin.buffer.read() if sys.stdin else b""))
    else:
        print("usage: python3 second/card.py write | read | --help", file=sys.stderr)
        sys.exit(2)


if __name__ == "__main__":
    main(sys.argv[1:])
