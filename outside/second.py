"""An engine's opening, arrival and pick in its library, compared with the second program's.

    python3 outside/second.py ENGINE LIBRARY CALLS SEED

ENGINE is uplink, the first engine, or backward, the plain engine. LIBRARY is its library as a shared object.
After each call the answer, every word of the record and of the reply and every place of both memories are compared.
Stops at the first difference.

CALLS calls are random traffic with headers, from openings. One arrival or pick in ten is made on a record whose header
is damaged, half of them with a leap width that fits it again, and one in ten of the others on a record whose turn is
damaged. One call in a hundred is lent a record or a reply that is a word too long or too short. With the plain engine
half as many calls more are made on records that were perhaps never opened, half of them damaged. In ten thousand calls
or more, all that is counted has to come up.
"""

import ctypes
import itertools
import pathlib
import struct
import sys
from array import array
from collections import Counter, namedtuple

sys.dont_write_bytecode = True
sys.path.insert(0, str(pathlib.Path(__file__).resolve().parent.parent / "second"))

import plain
import traffic
import uplink
from records import RecordMaker

IDLE, REFUSED_RECORD, REFUSED_REPLY = 100, 101, 102
REPLY_BEFORE = [2**64 - 1, 0, 1, 2, 3, 4]
CALLS_OF_ONE_KIND = 200
CALLS_ON_ONE_RECORD = 2
PERCENT_DAMAGED_HEADERS, PERCENT_DAMAGED_TURNS, PERCENT_DAMAGED_RECORDS = 10, 10, 50
PERCENT_MISFITS, PERCENT_REOPENED = 1, 5
CALLS_ENOUGH = 10_000
COUNTED = ["refused headers", "refused damaged headers", "refused damaged turns", "leaps with a header",
           "ties won by a higher number", "answers 101", "answers 102"]
ANSWERS = [f"answers {number}" for number in [*range(1, 11), IDLE]]

# Tables to open in place of a record: one that is taken, and then refusals 3, 4, 5 and 6.
TABLES = [([500, 500], [100, 1500]), ([], []), ([1, 0], [1, 1]), ([1, 1], [1, 1501]), ([1000, 1], [1, 1])]

# `name` begins the names of the library's calls; `calls` are the second program's. `block` packs the record's words, in
# the order of outside/state.h, with those of `last_fields` behind them. `maker` makes records that were perhaps never
# opened; `counted` has to come up.
Engine = namedtuple("Engine", "name calls block last_fields maker counted")
FIRST = Engine("uplink", uplink.FIRST_ENGINE, struct.Struct("<HHIQQ64Q64H64H64H64HQ"), ["turn"], None, COUNTED)
PLAIN = Engine("backward", plain.PLAIN_ENGINE, struct.Struct("<HHIQQ64q64H64H64H64HQQ"), ["turn", "sum_of_widths"],
               RecordMaker, [*COUNTED, *ANSWERS, "leaps with a tag below zero"])
ENGINES = {engine.name: engine for engine in (FIRST, PLAIN)}

# Something lent that is a word too long, or too short where `longer` is not so; `number` is what the call answers.
Misfit = namedtuple("Misfit", "number longer")


def words_of(engine, record):
    fields = [[getattr(flow, name) for flow in record.flows]
              for name in ("tag", "share", "largest", "first", "waiting")]
    last = [getattr(record, name) for name in engine.last_fields]
    return array("Q", engine.block.pack(record.number_of_flows, record.header, record.leap_width, record.clock,
                                        record.link_time, *itertools.chain(*fields, last)))


def lent(*arrays):
    """For each array a pointer and a length."""
    return [word for values in arrays
            for word in (ctypes.c_void_p(values.buffer_info()[0]), ctypes.c_size_t(len(values)))]


class Library:
    """The three calls, each giving the number and the flow that comes with it."""

    def __init__(self, path, engine):
        library = ctypes.CDLL(path)
        self.opening, self.arrival, self.pick = (getattr(library, f"{engine.name}_{call}")
                                                 for call in ("opening", "arrival", "pick"))
        self.opening.restype = ctypes.c_uint64
        self.arrival.restype = self.pick.restype = ctypes.c_uint32

    def answer(self, letter, numbers, kept, reply):
        if letter == "o":
            shares, largest_packets = array("I", numbers[0]), array("I", numbers[1])
            answer = self.opening(*lent(shares, largest_packets), ctypes.c_uint32(numbers[2]), *lent(*kept))
            return answer % 2**32, answer >> 32
        if letter == "a":
            return self.arrival(*map(ctypes.c_uint32, numbers), *lent(*kept)), 0
        return self.pick(*lent(*kept, reply)), 0


class State:
    """A record and memories of the second program, and memories that the library is lent."""

    def __init__(self, engine, library, record, memories):
        self.engine, self.library = engine, library
        self.record, self.memories = record, memories
        self.lengths, self.handles = array("H", memories.lengths), array("I", memories.handles)

    def second_answer(self, letter, numbers):
        """The number and the flow that comes with it, and the words of the reply."""
        calls = self.engine.calls
        try:
            if letter == "o":
                self.record = calls.blank()
                self.record = calls.opening(*numbers, self.memories)
            elif letter == "a":
                calls.arrival(self.record, self.memories, *numbers)
            else:
                reply = calls.pick(self.record, self.memories)
                return ((IDLE, 0), REPLY_BEFORE) if reply == "idle" else ((0, 0), list(reply))
        except uplink.Refusal as refusal:
            return (refusal.number, refusal.flow), REPLY_BEFORE
        return (0, 0), REPLY_BEFORE

    def compare(self, letter, numbers, misfit):
        """The number that is answered, the words of the reply, and what differs."""
        words, reply = words_of(self.engine, self.record), array("Q", REPLY_BEFORE)
        if misfit:
            resize(words if misfit.number == REFUSED_RECORD else reply, misfit.longer)
            expected, expected_words, expected_reply = (misfit.number, 0), words.tolist(), reply.tolist()
        found = self.library.answer(letter, numbers, (words, self.lengths, self.handles), reply)
        if not misfit:
            expected, expected_reply = self.second_answer(letter, numbers)
            expected_words = words_of(self.engine, self.record)
        return expected[0], expected_reply, [
            *differences("answer", found, expected), *differences("record word", words, expected_words),
            *differences("reply word", reply, expected_reply),
            *differences("length at place", self.lengths, self.memories.lengths),
            *differences("handle at place", self.handles, self.memories.handles)]


def resize(values, longer):
    if longer:
        values.append(0)
    else:
        values.pop()


def differences(name, found, expected):
    """The first place where the library left something else than the second program."""
    found, expected = list(found), list(expected)
    if found != expected:
        place = next(i for i in range(len(expected)) if found[i] != expected[i])
        yield f"{name} {place}: expected {expected[place]}, got {found[place]}"


def damage_header(dice, record):
    """Another header, and half the time the leap width that goes with it, as far as 32 bits hold it."""
    record.header = traffic.damaged_header(dice, record.header)
    if dice.chance(50) and record.number_of_flows > 0:
        record.leap_width = uplink.leap_width(record) % 2**32


def damage(dice, record):
    """Now and then another header or another turn, and which of the two; else None."""
    if dice.chance(PERCENT_DAMAGED_HEADERS):
        damage_header(dice, record)
        return "headers"
    if dice.chance(PERCENT_DAMAGED_TURNS):
        record.turn = traffic.damaged_turn(dice, record.turn)
        return "turns"
    return None


def lowest_of_smallest_tag(record):
    """The lowest number of a waiting flow that has the smallest tag; 0 where nothing waits."""
    tags = [(flow.tag, f) for f, flow in enumerate(record.table()) if flow.waiting > 0]
    return min(tags, default=(0, 0))[1]


def random_misfit(dice, letter):
    """Seldom one, and a reply's only at a pick."""
    if dice.chance(PERCENT_MISFITS):
        return Misfit(dice.one_of([REFUSED_RECORD, REFUSED_REPLY]) if letter == "p" else REFUSED_RECORD,
                      dice.chance(50))
    return None


def things_of(letter, numbers, number, reply, record, lowest):
    """Which of the counted things the call showed, where it was no misfit; lowest is lowest_of_smallest_tag before
    it."""
    if letter == "o":
        return ["refused headers"] if number == 3 and 1 <= len(numbers[0]) <= 64 else []
    if letter == "a" or number != 0:
        return []
    things = ["ties won by a higher number"] * (reply[0] > lowest)
    if reply[4] == 0:
        return things
    below_zero = any(flow.tag < 0 for flow in record.table())
    return things + ["leaps with a header"] * (record.header > 0) + ["leaps with a tag below zero"] * below_zero


class Run:
    """Calls compared, and what they showed."""

    def __init__(self, engine, library, seed):
        self.engine, self.library, self.seed = engine, library, seed
        self.counts = Counter()

    def compare(self, state, letter, numbers, misfit=None):
        """The number that is answered. Ends the program at a difference."""
        lowest = lowest_of_smallest_tag(state.record)
        number, reply, wrong = state.compare(letter, numbers, misfit)
        self.counts["calls"] += 1
        if wrong:
            place = f"call {self.counts['calls']} of seed {self.seed}"
            sys.exit("\n".join([f"{place} differs: {letter} {numbers}", *wrong]))
        self.counts[f"answers {number}"] += 1
        self.counts.update(things_of(letter, numbers, number, reply, state.record, lowest) if misfit is None else [])
        return number

    def one_kind(self, index, most_calls):
        """Up to most_calls calls of one kind of traffic, from openings."""
        blank, dice = self.engine.calls.blank(), traffic.Dice("damage", self.seed, index)
        state = State(self.engine, self.library, blank, uplink.Memories())
        for letter, *numbers in itertools.islice(traffic.random_calls(self.seed, index), most_calls):
            good = state.record.header, state.record.leap_width, state.record.turn
            damaged = damage(dice, state.record) if letter != "o" else None
            number = self.compare(state, letter, numbers, random_misfit(dice, letter))
            if damaged and number in (2, REFUSED_RECORD, REFUSED_REPLY):
                self.counts[f"refused damaged {damaged}"] += number == 2 and state.record.number_of_flows > 0
                state.record.header, state.record.leap_width, state.record.turn = good

    def one_record(self, index, most_calls):
        """Up to most_calls calls on a record that was perhaps never opened."""
        maker = self.engine.maker("outside", self.seed, index)
        record = maker.well_formed()
        if maker.dice.chance(PERCENT_DAMAGED_RECORDS):
            maker.damage(record)
        state = State(self.engine, self.library, record, maker.memories)
        for _ in range(most_calls):
            opening = "o", *maker.dice.one_of(TABLES), traffic.random_header(maker.dice)
            letter, *numbers = opening if maker.dice.chance(PERCENT_REOPENED) else maker.call(state.record)
            self.compare(state, letter, numbers)

    def calls(self, make, number_of_calls, at_once):
        """So many calls, in parts of at_once."""
        for start in range(0, number_of_calls, at_once):
            make(start, min(at_once, number_of_calls - start))


def main():
    engine, calls, seed = ENGINES[sys.argv[1]], int(sys.argv[3]), int(sys.argv[4])
    run = Run(engine, Library(sys.argv[2], engine), seed)
    run.calls(run.one_kind, calls, CALLS_OF_ONE_KIND)
    run.calls(run.one_record, calls // 2 if engine.maker else 0, CALLS_ON_ONE_RECORD)
    print(", ".join(f"{run.counts[thing]} {thing}" for thing in engine.counted))
    if calls >= CALLS_ENOUGH and min(run.counts[thing] for thing in engine.counted) == 0:
        sys.exit("one of these did not come up")
    print(f"{engine.name}: {run.counts['calls']} calls compared with the second program, all agree; seed {seed}")


if __name__ == "__main__":
    main()
