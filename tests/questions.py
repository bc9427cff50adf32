#!/usr/bin/env python3
"""Prints the questions of program answers, a line each, in a fixed order.

Operators of two operands: all pairs of edge values and a spread of others; l_mac a selection of them. Roots: at squares and
beside them. Pairs of words: products, multiples, shifts, orders and quotients at edges and over a spread. LSPs: by classes of
vectors, by the passes that stabilising them takes, by its outcome, and from an index at every row. Pulses: codes at their
limits, at each change of the first slot and at each weight, lists of slots that have a code and such as are turned away, and
descriptions by lag, gain, signs and pulses that meet.
Excitation, synthesis and postfilters: signals.py. Voicing and the noise word: voicing.py.

With --counts it prints instead how many vectors of LSPs and how many indices each class has, with --codes every position code
of both counts.
"""
import math
import random
import sys

import signals
import voicing
from places import BANDS, CODE_LIMIT, FIRST_LAG, GAIN_MOST, LAST_BASE_LAG, LEAST, LONGEST_LAG, LSPS, MEAN, MINIMUM, MINIMUM_ERASED, MOST, MOVED, PASSES, PREVIOUS, ROWS, SLOTS, SUB, TRAIN_LAG, UNTOUCHED

EDGES16 = [LEAST, LEAST + 1, -16385, -16384, -16383, -257, -256, -2, -1, 0, 1, 2, 255, 256, 16383, 16384, 16385, MOST - 1, MOST]
EDGES32 = [-2147483648, -2147483647, -1073741825, -1073741824, -65537, -65536, -32769, -32768, -1, 0, 1, 32767, 32768, 65535, 65536, 1073741823, 1073741824, 2147450879, 2147450880, 2147483646, 2147483647]
EDGES64 = [-(2**63), -(2**63) + 1, -(2**32), -(2**31) - 1, -(2**31), -1, 0, 1, 2**31 - 1, 2**31, 2**32, 2**63 - 1]
# The least count is left out: the Rust overflows there (docs/DIFFERENCES.md).
COUNTS = [-2147483647, -65536, -33, -32, -31, -17, -16, -15, -14, -13, -8, -1, 0, 1, 8, 13, 14, 15, 16, 17, 31, 32, 33, 65536, 2147483647]
WORDS = [0, 1, 2, 2**31, 2**32 - 1, 2**32, 2**32 + 1, 2**63 - 1, 2**63, 2**64 - 2, 2**64 - 1]
PAIRS = [0, 1, 2**32 - 1, 2**32, 2**63, 2**64 - 1, 2**64, 2**64 + 1, 2**96 - 1, 2**96, 2**127, 2**127 + 2**63, 2**128 - 2**64, 2**128 - 1]
MINIMA = [MINIMUM, MINIMUM_ERASED]
# What no frame asks for, and the functions take.
OTHER_MINIMA = [LEAST, -257, -1, 0, 1, MINIMUM - 1, MINIMUM + 1, 4000, MOST]
NEGATIVE_MINIMUM = -5
# Codes that a field of fewer bits would take for small ones.
LONG_CODES = [2**k + c for k in (18, 20, 24, 31) for c in (0, 5)] + [2**24 - 1, 2**32 - 1]
SHIFTS = [0, 1, 2, 3, 24, 30, 31, 32, 33, 63, 64, 65, 96, 127, 128, 129, 4294967295]


ASKED = set()


def ask(name, *numbers):
    """Prints a question, unless it was asked before."""
    question = (name, *numbers)
    if question not in ASKED:
        ASKED.add(question)
        print(*question)


def two(n):
    """A number below 2^128 as its two words."""
    return n >> 64, n % 2**64


def spread16(rng):
    return rng.randrange(LEAST, MOST + 1)


def sized(rng, bits):
    """A number of at most that many bits, of any size."""
    return rng.randrange(2 ** rng.randrange(1, bits + 1))


def signed(rng, bits):
    return rng.choice((1, -1)) * sized(rng, bits)


def operators(rng):
    pairs = [(a, b) for a in EDGES16 for b in EDGES16] + [(spread16(rng), spread16(rng)) for _ in range(150)]
    for name in ("add", "sub", "mult", "l_mult"):
        for a, b in pairs:
            ask(name, a, b)
    for name in ("shl", "shr"):
        for a in EDGES16:
            for n in COUNTS:
                ask(name, a, n)
        for _ in range(150):
            ask(name, spread16(rng), rng.randrange(-20, 21))
    for a, b in [(a, b) for a in EDGES32 for b in EDGES32] + [(signed(rng, 31), signed(rng, 31)) for _ in range(150)]:
        ask("l_add", a, b)
    for acc in EDGES32[::2]:
        for a in EDGES16[::3]:
            for b in EDGES16[::3]:
                ask("l_mac", acc, a, b)
    for _ in range(150):
        ask("l_mac", signed(rng, 31), spread16(rng), spread16(rng))
    for name in ("saturate", "extract_h", "round16"):
        for a in EDGES32 + [signed(rng, 31) for _ in range(100)]:
            ask(name, a)
    for a in EDGES64 + [signed(rng, 63) for _ in range(100)]:
        ask("sat32", a)


def roots(rng):
    bases = [0, 1, 2, 3, 4, 255, 256, 65535, 65536, 2**31 - 1, 2**31, 2**32 - 2, 2**32 - 1] + [sized(rng, 32) for _ in range(100)]
    for r in bases:
        for v in (r * r - 1, r * r, r * r + 1, r * r + 2 * r):
            if 0 <= v < 2**64:
                ask("isqrt64", v)
    ask("isqrt64", 2**64 - 1)


def wide(rng):
    for a, b in [(a, b) for a in WORDS for b in WORDS] + [(sized(rng, 64), sized(rng, 64)) for _ in range(150)]:
        ask("wide_product", a, b)
    for a, b in [(a, b) for a in PAIRS for b in WORDS] + [(sized(rng, 128), sized(rng, 64)) for _ in range(150)]:
        ask("wide_times", *two(a), b)
    for a, n in [(a, n) for a in PAIRS for n in SHIFTS] + [(sized(rng, 128), rng.randrange(130)) for _ in range(100)]:
        ask("wide_shift", *two(a), n)
    for a, b in [(a, b) for a in PAIRS for b in PAIRS] + [(sized(rng, 128), sized(rng, 128)) for _ in range(100)]:
        ask("wide_less", *two(a), *two(b))
    for n, d in [(n, d) for n in PAIRS for d in PAIRS]:
        ask("wide_divide", *two(n), *two(d))
    for _ in range(400):
        ask("wide_divide", *two(sized(rng, 128)), *two(sized(rng, 128)))
    # A quotient's last digit decides at multiples of the divisor and beside them.
    for _ in range(100):
        d = sized(rng, 100) + 1
        q = sized(rng, 128 - d.bit_length())
        for n in (q * d - 1, q * d, q * d + d - 1):
            if 0 <= n < 2**128:
                ask("wide_divide", *two(n), *two(d))


def limit16(x):
    return min(max(x, LEAST), MOST)


def stabilised(lsps, minimum):
    """How many of ten passes move something, whether every gap is then met, and the LSPs: to choose by, never to answer."""
    p, half = list(lsps), int(minimum / 2)
    for n in range(PASSES):
        moved = False
        for j in range(LSPS - 1):
            if p[j + 1] - p[j] < minimum:
                average = (p[j] + p[j + 1]) // 2
                p[j], p[j + 1] = limit16(average - half), limit16(average + half)
                moved = True
        if not moved:
            return n, True, p
    return PASSES, all(p[j + 1] - p[j] >= minimum for j in range(LSPS - 1)), p


def passes(lsps, minimum):
    """How many passes LSPs need, and whether every gap is then met."""
    return stabilised(lsps, minimum)[:2]


def outcome(lsps, minimum):
    """What stabilising says of LSPs."""
    needed, met = passes(lsps, minimum)
    if not met:
        return PREVIOUS
    return MOVED if needed > 0 else UNTOUCHED


def at_edge(rng, minimum):
    """LSPs whose gaps are all near the minimum."""
    start = rng.randrange(-2000, 30000)
    return [min(start + i * minimum + rng.randrange(-20, 20), MOST) for i in range(LSPS)]


def by_passes(rng, minimum, wanted, count):
    """Vectors that take so many passes with moves, and pass or not."""
    found = []
    while len(found) < count:
        p = at_edge(rng, minimum)
        if passes(p, minimum) == wanted:
            found.append(p)
    return found


def ordered(rng):
    return sorted(rng.randrange(MOST + 1) for _ in range(LSPS))


def near_means(rng):
    return [mean + rng.randrange(-1500, 1500) for mean in MEAN]


def close(rng):
    """All within a few hundred."""
    start = rng.randrange(LEAST, 32000)
    return [start + rng.randrange(700) for _ in range(LSPS)]


def swapped(rng):
    p = ordered(rng)
    i = rng.randrange(LSPS - 1)
    p[i], p[i + 1] = p[i + 1], p[i]
    return p


EXTREME = [
    [LEAST] * LSPS,
    [MOST] * LSPS,
    [LEAST, MOST] * 5,
    [MOST, LEAST] * 5,
    [LEAST] * 5 + [MOST] * 5,
    [MOST] * 5 + [LEAST] * 5,
    [LEAST] * 9 + [MOST],
    [MOST] + [LEAST] * 9,
    [0] * LSPS,
    [-1] * LSPS,
    [-5, 0] * 5,
]


# Where a floor decides a coefficient, as few vectors do: five by the halved sum, four by a product.
FLOORED = [
    [329, 1254, 1662, 1829, 6041, 11689, 14969, 20992, 23362, 26581],
    [143, 4954, 5107, 7171, 8631, 14129, 17912, 25368, 28853, 29346],
    [3880, 4425, 10869, 16867, 18371, 18847, 24024, 30070, 30199, 30312],
    [1498, 1862, 4077, 5522, 7805, 14076, 15127, 16872, 27657, 28406],
    [3263, 8326, 12719, 15325, 20811, 25840, 26002, 26434, 29537, 31729],
    [156, 4843, 5040, 8082, 11090, 18776, 23816, 24980, 29993, 30791],
    [1081, 4646, 7157, 11186, 15048, 19310, 25769, 27951, 28857, 31481],
    [1185, 2982, 8139, 9096, 11469, 27684, 28207, 29241, 29646, 31632],
    [553, 1604, 5277, 5938, 9706, 14046, 19526, 22462, 29020, 31269],
]


# Document 01's value to check against, of which one pass moves the first pair.
STARRED = [1000, 1100] + list(range(2000, 10000, 1000))
# The case that document 02, E2, names: at 256 all ten passes move some, and the gaps are met then.
TEN_PASSES = [5053, 6614, 7004, 9275, 9801, 15491, 15507, 15573, 15920, 21501]


def classes(rng):
    """Vectors of LSPs by class; those by passes are for one minimum each."""
    found = {
        "random": [[spread16(rng) for _ in range(LSPS)] for _ in range(60)],
        "ordered": [ordered(rng) for _ in range(60)],
        "near the means": [near_means(rng) for _ in range(40)] + [MEAN],
        "swapped": [swapped(rng) for _ in range(40)],
        "equal": [[v] * LSPS for v in EDGES16],
        "descending": [ordered(rng)[::-1] for _ in range(20)] + [list(range(9000, -1000, -1000))],
        "close": [close(rng) for _ in range(20)],
        "extreme": EXTREME,
        "starred": [STARRED],
    }
    by_turns = {
        "moved by one to eight passes": [(n, True) for n in range(1, PASSES - 1)],
        "moved by nine, so that the tenth finds none": [(PASSES - 1, True)],
        "moved by all ten, and passed": [(PASSES, True)],
        "moved by all ten, and failed": [(PASSES, False)],
    }
    for minimum in MINIMA:
        for name, kinds in by_turns.items():
            each = 5 if len(kinds) > 1 else 25
            found[f"{name}, at {minimum}"] = [p for kind in kinds for p in by_passes(rng, minimum, kind, each)]
    return found


def spaced(rng, minimum, more):
    """LSPs whose gaps are the minimum, or more by less than so much."""
    gaps = [minimum + rng.randrange(more) for _ in range(LSPS - 1)]
    start = rng.randrange(-2000, 20000)
    return [start + sum(gaps[:i]) for i in range(LSPS)]


def unmoved(rng):
    """LSPs that no pass moves, from the least number and to the greatest as well."""
    found = {}
    for minimum in MINIMA:
        ends = [[LEAST + minimum * i for i in range(LSPS)], [MOST - minimum * i for i in reversed(range(LSPS))]]
        found[f"moved by none, at {minimum}"] = ends + [spaced(rng, minimum, more) for more in (1, 1, 2, 20)]
    return found


def own_minimum(name):
    """The minimum of a class by passes."""
    return int(name.rsplit(" ", 1)[1])


def by_outcome(vectors, minimum, each):
    """Of each outcome that some of the vectors have at a minimum, the first ones."""
    found = {UNTOUCHED: [], MOVED: [], PREVIOUS: []}
    for p in vectors:
        found[outcome(p, minimum)].append(p)
    return [p for some in found.values() for p in some[:each]]


def more_stabilising(still, plain):
    """LSPs that no pass moves, also with a gap one short of the minimum, those of E2, and an odd minimum below 0."""
    for name, found in still.items():
        for p in found:
            ask("lsp_stability", own_minimum(name), *p)
            ask("lsp_stability", own_minimum(name), *p[:-1], p[-1] - 1)
    for minimum in MINIMA:
        ask("lsp_stability", minimum, *TEN_PASSES)
    for p in by_outcome(EXTREME, NEGATIVE_MINIMUM, 2) + by_outcome(plain, NEGATIVE_MINIMUM, 2):
        ask("lsp_stability", NEGATIVE_MINIMUM, *p)


def choices(rng, own, plain):
    """The choice between candidates and previous LSPs: by passes, each class at its own minimum; at the ends of 16 bits; with
    previous LSPs that are the candidates themselves, or what these become; and by outcome at other minima."""
    for name, found in own.items():
        minimum = own_minimum(name)
        for p in found[::5]:
            ask("lsp_check_or_previous", minimum, *p, *rng.choice(plain))
        for p in found[1::10]:
            ask("lsp_check_or_previous", minimum, *p, *p)
    for minimum in MINIMA:
        for p in by_outcome(EXTREME, minimum, 3) + [TEN_PASSES]:
            ask("lsp_check_or_previous", minimum, *p, *rng.choice(plain))
        ask("lsp_check_or_previous", minimum, *EXTREME[0], *EXTREME[0])
    for p in (STARRED, TEN_PASSES):
        ask("lsp_check_or_previous", MINIMUM, *p, *stabilised(p, MINIMUM)[2])
    for minimum in OTHER_MINIMA + [NEGATIVE_MINIMUM]:
        for p in by_outcome(EXTREME, minimum, 1) + by_outcome(plain, minimum, 1):
            ask("lsp_check_or_previous", minimum, *p, *rng.choice(plain))


def lsps(rng):
    for f in [LEAST, LEAST + 1, -129, -128, -127, -5, -1] + [128 * i + r for i in range(256) for r in (0, 1, 64, 127)]:
        ask("cos_q14", f)
    by_class = classes(rng)
    vectors = [p for found in by_class.values() for p in found]
    plain = [p for name, found in by_class.items() if ", at" not in name for p in found]
    for p in vectors:
        for minimum in MINIMA:
            ask("lsp_stability", minimum, *p)
    for p in plain[::5] + EXTREME:
        for minimum in OTHER_MINIMA:
            ask("lsp_stability", minimum, *p)
    # A start of their own, so that what is drawn after them stays.
    others = random.Random(7231)
    still = unmoved(others)
    more_stabilising(still, plain)
    for p in vectors[::2]:
        ask("lsp_check_or_previous", rng.choice(MINIMA), *p, *rng.choice(plain))
    choices(others, {**still, **{name: found for name, found in by_class.items() if ", at" in name}}, plain)
    for p in plain:
        ask("lsp_extrapolate", *p)
        ask("lsp_to_lpc_q13", *p)
    for p in FLOORED + [ordered(rng) for _ in range(200)]:
        ask("lsp_to_lpc_q13", *p)
    pairs = [(a, b) for a in EXTREME for b in EXTREME] + [(rng.choice(plain), rng.choice(plain)) for _ in range(150)]
    for a, b in pairs:
        ask("frame_lpc_q13", *a, *b)
    for a, b in pairs[::2]:
        for k in (0, 1, 2, 3):
            ask("lsp_interpolate", k, *a, *b)
    for k in (4, 5, MOST):
        ask("lsp_interpolate", k, *plain[0], *plain[1])


# Previous LSPs of an index: at the ends of 16 bits, and beside the means and where the distance from them begins to saturate.
AT_ENDS = [[LEAST] * LSPS, [LEAST + 1] * LSPS, [MOST] * LSPS]
FROM_MEANS = [[mean + distance for mean in MEAN] for distance in (1, -1, LEAST, LEAST - 1)]


def index_rows(rng):
    return [rng.randrange(ROWS) for _ in range(BANDS)]


def indices(rng):
    """Rows and previous LSPs by class."""
    ends = AT_ENDS + FROM_MEANS
    mixed = [[rng.choice(column) for column in zip(*ends)] for _ in range(12)]
    return {
        "index: every row, from the means": [([k] * BANDS, MEAN) for k in range(ROWS)],
        "index: random": [(index_rows(rng), [spread16(rng) for _ in range(LSPS)]) for _ in range(100)],
        "index: previous LSPs at ends, and near and far from the means": [(index_rows(rng), p) for p in ends * 4 + mixed],
    }


def indexed(rng):
    for found in indices(rng).values():
        for rows, previous in found:
            ask("lsp_decode", *rows, *previous)


def code_of(slots):
    """The code of ascending slots, to choose questions by."""
    code, start = 0, 0
    for k, slot in enumerate(slots):
        code += sum(math.comb(SLOTS - 1 - i, len(slots) - 1 - k) for i in range(start, slot))
        start = slot + 1
    return code


def codes(rng):
    for n, limit in CODE_LIMIT.items():
        # The first code of each first slot, and the limit.
        changes = [limit - math.comb(SLOTS - first, n) for first in range(SLOTS + 1 - n)] + [limit]
        for c in [c + near for c in changes for near in (-1, 0, 1)] + LONG_CODES:
            if c >= 0:
                ask("fcbk_unpk_positions", c, n)
        # At each weight that a code can meet, the last code below it and the first that is not: n - r slots, then slot i.
        for r in range(1, n + 1):
            for i in range(n - r, SLOTS + 1 - r):
                c = code_of(list(range(n - r)) + [i] + list(range(SLOTS + 1 - r, SLOTS)))
                ask("fcbk_unpk_positions", c, n)
                ask("fcbk_unpk_positions", c + 1, n)
        for _ in range(300):
            ask("fcbk_unpk_positions", rng.randrange(limit), n)


# Lists of slots are asked about in a row of eight numbers, of which a count says how many are the list.
ROW = 8
# What takes a slot's place in a list: none is a slot, and some are one in fewer bits.
NO_SLOTS = [SLOTS, SLOTS + 1, 2**31, 2**32 - 1, 2**32, 2**63 - 1, 2**63, 2**64 - 1]
FEWER_BITS = [2**8, 2**16, 2**31, 2**32, 2**63]


def ask_packed(slots, rest=SLOTS):
    ask("fcbk_pack_positions", len(slots), *slots, *[rest] * (ROW - len(slots)))


def disordered(p):
    """p with two neighbours made equal or swapped, or with one slot replaced by what is none: each in turn."""
    for k in range(len(p) - 1):
        before, after = p[:k], p[k + 2:]
        yield before + [p[k], p[k]] + after
        yield before + [p[k + 1], p[k + 1]] + after
        yield before + [p[k + 1], p[k]] + after
    for k, slot in enumerate(p):
        for other in NO_SLOTS + [slot + more for more in FEWER_BITS]:
            yield p[:k] + [other] + p[k + 1:]


def packings(rng):
    # What is no part of the list is not read.
    for rest in (0, SLOTS - 1, SLOTS):
        for n in CODE_LIMIT:
            ask_packed(list(range(n)), rest)
    ask_packed([0, 1, 2, 3, 4, SLOTS - 1])
    for n in range(ROW + 1):
        lists = [list(range(n)), list(range(1, n + 1)), list(range(SLOTS - n, SLOTS)), sorted(rng.sample(range(SLOTS), n))]
        for p in lists:
            ask_packed(p)
            # Where the count is wrong too, it is 12.
            for q in disordered(p):
                if n in CODE_LIMIT or rng.randrange(8) == 0:
                    ask_packed(q)
        ask_packed([SLOTS - 1] * n)
        ask_packed([2**64 - 1] * n)
        ask_packed(list(range(n))[::-1])
    for n in CODE_LIMIT:
        for first in range(SLOTS + 1 - n):
            ask_packed([first] + list(range(SLOTS + 1 - n, SLOTS)))
        # Up to where all are above 29.
        for first in range(SLOTS + 1):
            ask_packed(list(range(first, first + n)))
        for _ in range(150):
            ask_packed(sorted(rng.sample(range(SLOTS), n)))


# Slots of which four stand one, two and three lags of 18 apart, so that their pulses add up.
MEETING = {5: [0, 9, 18, 20, 27], 6: [0, 9, 18, 27, 28, 29]}


def description(rng, n):
    """Code, signs, grid, count and gain index of an accepted description."""
    return rng.randrange(CODE_LIMIT[n]), rng.randrange(2**n), rng.randrange(2), n, rng.randrange(GAIN_MOST + 1)


def descriptions(rng):
    def vector(code, signs, grid, n, gain, train, lag):
        ask("mpmlq_fixed_vector", code, signs, grid, n, gain, train, lag)

    vector(0, 0, 0, 5, 0, 1, FIRST_LAG)
    for n, limit in CODE_LIMIT.items():
        meeting = code_of(MEETING[n])
        for lag in range(FIRST_LAG, TRAIN_LAG):
            for grid in (0, 1):
                vector(rng.randrange(limit), rng.randrange(2**n), grid, n, rng.randrange(GAIN_MOST + 1), 1, lag)
                vector(meeting, rng.randrange(2**n), grid, n, GAIN_MOST, 1, lag)
        # No sum is limited to 16 bits.
        for signs in (0, 2**n - 1):
            vector(meeting, signs, 0, n, GAIN_MOST, 1, FIRST_LAG)
        # Lags with a train that no accepted description has.
        longer = [TRAIN_LAG, TRAIN_LAG + 1, SUB, SUB + 1, 2 * SUB - 1, LONGEST_LAG, LAST_BASE_LAG[1], 256 + FIRST_LAG, 2**16 + FIRST_LAG, 2**31 - 1]
        for lag in list(range(FIRST_LAG)) + longer:
            vector(*description(rng, n), 1, lag)
            for grid in (0, 1):
                vector(meeting, 0, grid, n, GAIN_MOST, 1, lag)
        # Every sign byte; no accepted description has bits at the count and above.
        for signs in range(256):
            vector(meeting, signs, 0, n, 11, 0, 60)
        untrained = (FIRST_LAG, TRAIN_LAG - 1, TRAIN_LAG, LAST_BASE_LAG[1])
        for gain in range(GAIN_MOST + 1):
            for grid in (0, 1):
                vector(rng.randrange(limit), rng.randrange(2**n), grid, n, gain, 0, rng.choice(untrained))
        for code in [0, limit - 1, limit, limit + 1] + LONG_CODES:
            for train in (0, 1):
                vector(code, 2**n - 1, 1, n, 5, train, 20)
        for _ in range(150):
            vector(*description(rng, n), rng.randrange(2), rng.randrange(FIRST_LAG, TRAIN_LAG))


def main():
    rng = random.Random(7231)
    if "--codes" in sys.argv[1:]:
        for n, limit in CODE_LIMIT.items():
            for c in range(limit):
                ask("fcbk_unpk_positions", c, n)
        return
    if "--counts" in sys.argv[1:]:
        counted = [classes(random.Random(7231)), unmoved(random.Random(7231)), indices(random.Random(7231))]
        for name, found in [item for some in counted for item in some.items()]:
            print(f"{len(found):4} {name}")
        return
    operators(rng)
    roots(rng)
    wide(rng)
    # Starts of their own, so that --counts lists what is asked about, and that what follows packings stays.
    lsps(random.Random(7231))
    indexed(random.Random(7231))
    codes(rng)
    packings(random.Random(7231))
    descriptions(rng)
    signals.excitation(ask, rng)
    signals.synthesis(ask, rng)
    signals.pitch(ask, rng)
    signals.formant(ask, rng)
    voicing.voicing(ask, rng)


if __name__ == "__main__":
    main()
