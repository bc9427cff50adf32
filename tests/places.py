"""The places, counts and limits of documents 01 and 02 for the scripts beside this one: of a record, a state and a line.

The oracle with the comparison and the second decoder have lists of their own (oracle/src/places.rs, second/places.h).
"""

LEAST, MOST = -32768, 32767

# Counts: LSPs, taps, subframes, samples, excitation history, output for voicing.
LSPS, TAPS, SUBFRAMES = 10, 5, 4
SUB = 60
FRAME = SUBFRAMES * SUB
HIST, TAIL = 146, 120
SHORTEST_LAG, LONGEST_LAG = 18, 142
# The mean LSPs, which a fresh state has; the least gap between LSPs, received and erased, and the passes that make it.
MEAN = [3131, 4721, 7690, 10806, 13872, 16495, 19752, 22260, 25484, 27718]
MINIMUM, MINIMUM_ERASED = 256, 512
PASSES = 10
# What stabilising says of candidate LSPs.
UNTOUCHED, MOVED, PREVIOUS = 0, 1, 2

# An erased record, and the kinds of the others; the last two have an index in place of the LSPs, a row of each band.
ERASED = [0]
HIGH, LOW, HIGH_INDEX, LOW_INDEX = 1, 2, 3, 4
KIND_MOST = LOW_INDEX
BANDS, ROWS = 3, 256
# The bytes of a head: the kind, and LSPs or an index.
HEAD = {HIGH: 21, LOW: 21, HIGH_INDEX: 4, LOW_INDEX: 4}
# Places after the head, and in a block. Low values stand where High flags do.
AT_LAG_A, AT_STEP_1, AT_LAG_B, AT_STEP_3, AT_BLOCKS = 0, 1, 2, 3, 4
AT_TAPS, AT_GAIN, AT_FLAGS, AT_SIGNS, AT_CODE = 0, 10, 11, 12, 13
AT_VALUES = 11
BLOCK = {HIGH: 16, LOW: 131, HIGH_INDEX: 16, LOW_INDEX: 131}
LENGTH = {kind: HEAD[kind] + AT_BLOCKS + SUBFRAMES * size for kind, size in BLOCK.items()}

LAG_CODE_MOST, STEP_MOST, GAIN_MOST, FLAGS_MOST = 127, 3, 23, 3
# The base lag of code 0, and the least one at which a train is refused.
FIRST_LAG, TRAIN_LAG = 18, 58
TRAIN = 2
PULSES = (6, 5, 6, 5)
SLOTS = 30
# Position codes from the limit on have no slots.
CODE_LIMIT = {5: 142506, 6: 593775}
LIMITS = tuple(CODE_LIMIT[n] for n in PULSES)
SIGNS_MOST = tuple((1 << n) - 1 for n in PULSES)

LAST_LAG, LAST_BASE_LAG = (17, 147), (18, 145)
GAIN, TAP_SUM, UNVOICED_GAIN = (0, 1048576), (0, 32767), (0, 13246)
# The fields of a state in their order, each with its count and the bounds that number 2 has for it.
STATE = (
    ("prev_lsp", LSPS, None),
    ("exc_hist", HIST, (LEAST, MOST)),
    ("syn_mem", LSPS, (LEAST, MOST)),
    ("num_mem", LSPS, None),
    ("den_mem", LSPS, None),
    ("tilt", 2, None),
    ("gain", 1, GAIN),
    ("last_lag", 1, LAST_LAG),
    ("last_lag2", 1, LAST_BASE_LAG),
    ("taps_sum", 1, TAP_SUM),
    ("gain_unvoiced", 1, UNVOICED_GAIN),
    ("pcm_hist", TAIL, None),
    ("erased_run", 1, None),
    ("postfilter", 1, None),
)
STATE_NUMBERS = sum(count for _, count, _ in STATE)
RUN_MOST = 2**32 - 1

LONGEST_LINE = 1098

# The number of a line that is none.
NOT_A_RECORD = 11


def lag_code(lag):
    return lag - FIRST_LAG


def is_high(kind):
    return kind in (HIGH, HIGH_INDEX)


def has_index(kind):
    return kind in (HIGH_INDEX, LOW_INDEX)


def field_place(kind, place):
    """Where in a record a place after the head is."""
    return HEAD[kind] + place


def lag_place(kind, s):
    """Where the base lag code of a subframe stands."""
    return field_place(kind, (AT_LAG_A, AT_LAG_B)[s // 2])


def block_place(kind, s, place=0):
    """Where the block of a subframe begins, or a place in it."""
    return field_place(kind, AT_BLOCKS + s * BLOCK[kind] + place)
