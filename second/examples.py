"""Document 01's examples and limits, as input lines with the output that the document gives, and the
crew of flow 9 in 02 e), worked out by hand.

Each script is a text of `input -> output` lines; a line without an arrow writes nothing.
Rows stay in the table once they are written, so a refused table ends its script's traffic
and the limits take several short scripts.
"""

WHOLE_EXAMPLE = """\
f 500 100
f 500 100
o -> o 0 0
a 0 100 7 -> a 0
a 1 100 8 -> a 0
p -> p 0 0 100 7 144000 0 72000
p -> p 0 1 100 8 144000 0 144000
p -> p idle
a 2 1 9 -> a 7
"""

BLANK_RECORD = """\
p -> p 2
a 0 100 7 -> a 2
o -> o 3 0
p -> p 2
"""

FOUR_PACKETS_AT_ONE_FLOW = """\
o -> o 0 0
a 0 100 1 -> a 0
a 0 100 2 -> a 0
a 0 100 3 -> a 0
a 0 100 4 -> a 0
p -> p 0 0 100 1 144000 0 72000
p -> p 0 0 100 2 288000 0 144000
p -> p 0 0 100 3 432000 0 216000
p -> p 0 0 100 4 576000 1 432000
a 1 100 5 -> a 0
a 0 100 6 -> a 0
p -> p 0 1 100 5 576000 0 504000
p -> p 0 0 100 6 720000 0 576000
p -> p idle
"""

LENGTHS_AND_FLOW_NUMBERS = """\
o -> o 0 0
a 0 100 1 -> a 0
a 0 101 1 -> a 8
a 0 1 2 -> a 0
a 0 0 2 -> a 8
a 0 4294967295 2 -> a 8
a 1 100 4294967295 -> a 0
a 2 100 3 -> a 7
a 2 0 3 -> a 7
a 4294967295 100 3 -> a 7
p -> p 0 0 100 1 144000 0 72000
p -> p 0 1 100 4294967295 144000 0 144000
p -> p 0 0 1 2 145440 0 144720
p -> p idle
"""

SIXTY_FOUR_WAITING = "o -> o 0 0\n" + "a 0 100 1 -> a 0\n" * 63 + """\
a 0 100 64 -> a 0
a 0 100 65 -> a 9
a 0 101 65 -> a 8
a 1 100 66 -> a 0
p -> p 0 0 100 1 144000 0 72000
a 0 100 67 -> a 0
a 0 100 68 -> a 9
p -> p 0 1 100 66 144000 0 144000
a 0 100 69 -> a 9
p -> p 0 0 100 1 288000 0 216000
a 0 100 70 -> a 0
a 0 100 71 -> a 9
o -> o 0 0
p -> p idle
"""

SHARE_ZERO_AFTER_TWO_FLOWS = """\
a 0 100 1 -> a 0
f 0 0
o -> o 4 2
a 0 100 1 -> a 2
p -> p 2
o -> o 4 2
"""

SHARE_ZERO = """\
f 0 0
o -> o 4 0
p -> p 2
f 1 1
o -> o 4 0
"""

SHARE_ONE_AND_OVER = """\
f 1 1
o -> o 0 0
a 0 1 1 -> a 0
a 0 2 1 -> a 8
a 0 0 1 -> a 8
p -> p 0 0 1 1 720000 0 720
f 1 1500
o -> o 0 0
a 1 1500 2 -> a 0
a 1 1501 2 -> a 8
p -> p 0 1 1500 2 1080000000 0 1080000
f 1001 1
o -> o 4 2
p -> p 2
"""

SHARE_THOUSAND = """\
f 1000 1500
o -> o 0 0
a 0 1500 1 -> a 0
a 0 1501 1 -> a 8
p -> p 0 0 1500 1 1080000 0 1080000
f 1 1
o -> o 6 0
p -> p 2
f 1 1501
o -> o 5 2
"""

LARGEST_ZERO = """\
f 1 0
o -> o 5 0
f 0 1
o -> o 5 0
"""

LARGEST_OVER = """\
f 1 1500
f 1 1
o -> o 0 0
f 1 1501
o -> o 5 2
a 0 1 1 -> a 2
"""

SUM_THOUSAND = """\
f 600 100
f 400 100
o -> o 0 0
a 0 100 1 -> a 0
a 1 100 2 -> a 0
p -> p 0 0 100 1 120000 0 72000
p -> p 0 1 100 2 180000 0 144000
f 1 1
o -> o 6 0
p -> p 2
"""

SUM_OVER = """\
f 600 100
f 401 100
o -> o 6 0
a 0 100 1 -> a 2
p -> p 2
f 0 1501
o -> o 4 2
"""

NUMBER_OF_ROWS = """\
o -> o 3 0
f 1 1
o -> o 0 0
a 0 1 1 -> a 0
a 1 1 1 -> a 7
p -> p 0 0 1 1 720000 0 720
""" + "f 1 1\n" * 63 + """\
o -> o 0 0
a 63 1 5 -> a 0
a 64 1 5 -> a 7
p -> p 0 63 1 5 720000 0 720
p -> p idle
f 0 0
o -> o 3 0
p -> p 2
f 1 1 -> bad
o -> o 3 0
"""

BAD_LINES = """\
 -> bad
  -> bad
f -> bad
f 1 -> bad
f 1 1 1 -> bad
f  1 1 -> bad
f 1 4294967296 -> bad
f 1 10000000000 -> bad
f 1 00000000001 -> bad
f 1 -1 -> bad
f 1 +1 -> bad
F 1 1 -> bad
bad -> bad
o  -> bad
 o -> bad
o 1 -> bad
p\t -> bad
p\r -> bad
p\0 -> bad
p 0 -> bad
f 1000 0000000100
o -> o 0 0
a 0 1 -> bad
a 0 1 1 1 -> bad
a 0 1\t1 -> bad
a 0 1 4294967296 -> bad
a 0 1 00000000001 -> bad
a 0 1 4294967295 -> a 0
a 0000000000 0000000001 0000000001 -> a 0
a 4294967295 1 1 -> a 7
p -> p 0 0 1 4294967295 720 0 720
p -> p 0 0 1 1 1440 0 1440
p -> p idle
"""

# 64 flows, q = 15, largest 1; cost 48,000. Flow 9 before flow 0 once flow 8 has gone, and flow 63
# before flow 1 once flow 62 has; the lower number first after Idle and after an opening.
FLOW_NINE = "f 15 1\n" * 64 + """\
o -> o 0 0
a 8 1 1 -> a 0
p -> p 0 8 1 1 48000 0 720
a 0 1 2 -> a 0
a 9 1 3 -> a 0
p -> p 0 9 1 3 48720 0 1440
p -> p 0 0 1 2 48720 0 2160
a 62 1 4 -> a 0
p -> p 0 62 1 4 50160 0 2880
a 1 1 5 -> a 0
a 61 1 6 -> a 0
a 63 1 7 -> a 0
p -> p 0 63 1 7 50880 0 3600
p -> p 0 1 1 5 50880 0 4320
p -> p 0 61 1 6 50880 0 5040
p -> p idle
a 9 1 8 -> a 0
a 3 1 9 -> a 0
p -> p 0 3 1 9 48000 0 720
o -> o 0 0
a 9 1 8 -> a 0
a 3 1 9 -> a 0
p -> p 0 3 1 9 48000 0 720
p -> p 0 9 1 8 48000 0 1440
p -> p idle
"""

SCRIPTS = {
    "examples": (BLANK_RECORD + WHOLE_EXAMPLE + FOUR_PACKETS_AT_ONE_FLOW + LENGTHS_AND_FLOW_NUMBERS
                 + SIXTY_FOUR_WAITING + SHARE_ZERO_AFTER_TWO_FLOWS),
    "share-zero": SHARE_ZERO,
    "share-one": SHARE_ONE_AND_OVER,
    "share-thousand": SHARE_THOUSAND,
    "largest-zero": LARGEST_ZERO,
    "largest-over": LARGEST_OVER,
    "sum-thousand": SUM_THOUSAND,
    "sum-over": SUM_OVER,
    "rows": NUMBER_OF_ROWS,
    "bad-lines": BAD_LINES,
    "flow-nine": FLOW_NINE,
}


def input_and_output(text):
    """The script's bytes and the output's bytes."""
    pairs = [line.partition(" -> ") for line in text.split("\n")[:-1]]
    script = "".join(given + "\n" for given, _, _ in pairs)
    output = "".join(written + "\n" for _, arrow, written in pairs if arrow)
    return script.encode(), output.encode()
