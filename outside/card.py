"""The log card's writer and reader in their library, compared with the second program's.

    python3 outside/card.py LIBRARY BLOCKS SEED

LIBRARY is the card's library as a shared object. After each call the answer, every word of the content and every byte
of the block are compared. Stops at the first difference.

BLOCKS random contents are made. Each is written, and its block is read. Each byte of the block is damaged, one at a
time, and the sums put right again; blocks are made with a field on either side of a limit; what is then accepted is
written again. Every eighth damaged block is read with its sums left wrong. Random bytes are read, with right sums too.
A content without an entry is written, and contents with one word that is another; block and content are lent too long
and too short. With twenty blocks or more, all that is counted has to come up.
"""

import ctypes
import pathlib
import sys
from array import array
from collections import Counter

sys.dont_write_bytecode = True
sys.path.insert(0, str(pathlib.Path(__file__).resolve().parent.parent / "second"))

import card
from blocks import BLOCKS_OF_SUM_0, BlockMaker, with_65_535_for_0, with_byte, with_right_sums

REFUSED_CONTENT = 101
CONTENT_WORDS, HEAD_WORDS, ENTRY_WORDS = 157, 2, len(card.FIELDS)
BLOCK_SIZES, CONTENT_SIZES = [0, 1, 511, 513, 1024], [0, 1, 156, 158, 314]
OTHER_WORDS_PER_BLOCK = 40
# Numbers at which a field of 8, 16, 32 or 64 bits ends, or a rule does.
CORNERS = [0, 1, 2, 3, 4, 5, 31, 32, 63, 64, 255, 256, 257, 1500, 1501, 65_535, 65_536, 65_537, 2**32 - 1, 2**32,
           2**32 + 1, 2**63, 2**64 - 1]
# how many bytes of the block each word of the content has
WORD_BYTES = [4, 1, *card.MOST_ENTRIES * [*card.FIELDS.values()]]
BLOCKS_ENOUGH = 20
COUNTED = [*(f"{name} {number}" for name, numbers in (("write", (0, 1, 12, 101)), ("read", (0, 1, 11, 12, 101)))
             for number in numbers),
           "damaged blocks accepted", "damaged blocks refused", "blocks at a limit accepted",
           "blocks at a limit refused", "other words written", "other words refused",
           "words that do not fit refused", "unused entries that are not zeros refused",
           "contents without an entry refused"]


def words_of(number, entries):
    """The content as the library is lent it: number, number of entries, and five words for each of 31 entries."""
    unused = [card.UNUSED] * (card.MOST_ENTRIES - len(entries))
    return [number, len(entries), *(word for entry in [*entries, *unused] for word in entry)]


def content_of(words):
    """The number and the entries that the words say; 12 where they say more entries than there are, or where an unused
    entry is not zeros."""
    number, count, *fields = words
    if count > card.MOST_ENTRIES or any(fields[ENTRY_WORDS * count:]):
        raise card.Refusal(12)
    starts = range(0, ENTRY_WORDS * count, ENTRY_WORDS)
    return number, [card.Entry(*fields[start:start + ENTRY_WORDS]) for start in starts]


def second_write(words, block):
    """The second program's answer, and the block after it."""
    if len(words) != CONTENT_WORDS:
        return REFUSED_CONTENT, block
    written = bytearray(block)
    try:
        card.check_size(block)
        card.write_block(*content_of(words), written)
    except card.Refusal as refusal:
        return refusal.number, block
    return 0, bytes(written)


def second_read(block, words):
    """The second program's answer, and the words after it."""
    if len(words) != CONTENT_WORDS:
        return REFUSED_CONTENT, words
    try:
        return 0, words_of(*card.read_block(block))
    except card.Refusal as refusal:
        return refusal.number, words


def lent(values):
    """A pointer and a length."""
    return ctypes.c_void_p(values.buffer_info()[0]), ctypes.c_size_t(len(values))


def differences(name, found, expected):
    """The first place where the library left something else than the second program."""
    found, expected = list(found), list(expected)
    if found != expected:
        place = next(i for i in range(len(expected)) if found[i] != expected[i])
        yield f"{name} {place}: expected {expected[place]}, got {found[place]}"


class Run:
    """Calls compared, and what they showed."""

    def __init__(self, path, seed):
        library = ctypes.CDLL(path)
        self.card_write, self.card_read = library.card_write, library.card_read
        self.card_write.restype = self.card_read.restype = ctypes.c_uint32
        self.seed = seed
        self.counts = Counter()
        # what stands in the block before a write, and in the content before a read: other numbers for each block
        self.bytes_before, self.words_before = bytes(card.BLOCK_BYTES), [0] * CONTENT_WORDS

    def compare(self, call, lent_words, lent_block, answer, words, block):
        """The answer, where it, words and block are as expected. Ends the program at a difference."""
        kept_words, kept_block = array("Q", lent_words), array("B", lent_block)
        if call == "write":
            found = self.card_write(*lent(kept_words), *lent(kept_block))
        else:
            found = self.card_read(*lent(kept_block), *lent(kept_words))
        self.counts["calls"] += 1
        wrong = [*differences("answer", [found], [answer]), *differences("content word", kept_words, words),
                 *differences("block byte", kept_block, block)]
        if wrong:
            place = f"call {self.counts['calls']} of seed {self.seed}"
            sys.exit("\n".join([f"{place} differs: card_{call}", f"content: {list(lent_words)}",
                                f"block: {bytes(lent_block).hex()}", *wrong]))
        self.counts[f"{call} {answer}"] += 1
        return answer

    def write(self, words, block):
        answer, after = second_write(words, block)
        return self.compare("write", words, block, answer, words, after)

    def read(self, block, words):
        answer, after = second_read(block, words)
        return self.compare("read", words, block, answer, after, block)

    def one_block(self, index):
        maker = BlockMaker("outside", self.seed, index)
        number, entries = maker.content()
        words, block = words_of(number, entries), bytearray(card.BLOCK_BYTES)
        card.write_block(number, entries, block)
        self.bytes_before = maker.random_bytes(card.BLOCK_BYTES)
        self.words_before = [maker.dice.below(2**64) for _ in range(CONTENT_WORDS)]
        self.write(words, self.bytes_before)
        self.read(bytes(block), self.words_before)
        self.damaged(maker, bytes(block))
        for edge_block in maker.edge_blocks():
            self.read_and_write(edge_block, "blocks at a limit")
        self.random_bytes(maker)
        self.counts["contents without an entry refused"] += self.write([number] + [0] * 156, self.bytes_before) == 12
        self.misfits(words, bytes(block))
        for _ in range(OTHER_WORDS_PER_BLOCK):
            self.other_word(maker, words)

    def damaged(self, maker, block):
        for place, value in enumerate(block):
            damaged = with_byte(block, place, maker.other_value(value))
            if place % 8 == 0 or place >= card.SUMS:
                self.read(damaged, self.words_before)
            if place < card.SUMS:
                self.read_and_write(with_right_sums(damaged), "damaged blocks")

    def read_and_write(self, block, label):
        """Reads the block, and where it is accepted writes it again."""
        refused = self.read(block, self.words_before)
        self.counts[f"{label} refused" if refused else f"{label} accepted"] += 1
        if not refused:
            self.write(words_of(*card.read_block(block)), self.bytes_before)

    def sums_of_0(self):
        """Blocks with a sum of 0, and with 65,535 in the place of it."""
        for block in [*BLOCKS_OF_SUM_0.values(), *with_65_535_for_0()]:
            self.read(block, self.words_before)

    def random_bytes(self, maker):
        block = maker.random_bytes(card.BLOCK_BYTES)
        self.read(block, self.words_before)
        self.read(with_right_sums(block), self.words_before)

    def misfits(self, words, block):
        """Block and content too long and too short, one of them and both."""
        for size in BLOCK_SIZES:
            other = (block + block)[:size]
            self.write(words, other)
            self.write([0] * CONTENT_WORDS, other)
            self.read(other, self.words_before)
        for size in CONTENT_SIZES:
            other = (words + words)[:size]
            self.write(other, self.bytes_before)
            self.read(block, other)
            self.write(other, self.bytes_before[:511])
            self.read(block[:511], other)

    def other_word(self, maker, words):
        """One word of the content becomes another number, mostly one of a used entry or of the head."""
        used = HEAD_WORDS + ENTRY_WORDS * words[1]
        place = maker.dice.below(maker.dice.one_of([HEAD_WORDS, used, used, used, CONTENT_WORDS]))
        near = [words[place] + 2**width for width in (8, 16, 32)] + [words[place] + 1]
        word = maker.dice.one_of([maker.dice.one_of(CORNERS), maker.dice.one_of(near), maker.dice.below(2**64)]) % 2**64
        if word == words[place]:
            return
        refused = self.write(words[:place] + [word] + words[place + 1:], self.bytes_before)
        self.counts["other words refused" if refused else "other words written"] += 1
        self.counts["unused entries that are not zeros refused"] += refused == 12 and place >= used
        self.counts["words that do not fit refused"] += refused == 12 and word >= 2**(8 * WORD_BYTES[place])


def main():
    blocks, seed = int(sys.argv[2]), int(sys.argv[3])
    run = Run(sys.argv[1], seed)
    run.sums_of_0()
    for index in range(blocks):
        run.one_block(index)
    print(", ".join(f"{run.counts[thing]} {thing}" for thing in COUNTED))
    if blocks >= BLOCKS_ENOUGH and min(run.counts[thing] for thing in COUNTED) == 0:
        sys.exit("one of these did not come up")
    print(f"card: {run.counts['calls']} calls on {blocks} blocks compared with the second program, all agree; "
          f"seed {seed}")


if __name__ == "__main__":
    main()
