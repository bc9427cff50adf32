#!/usr/bin/env python3
"""Prints the lines of program calls: whole calls, and single records from given states.

Calls are High, Low and mixed, with losses of 1 to 6 frames after voiced and unvoiced speech, silence, saturation, unstable
LSPs, extreme taps and lags at both ends, with the postfilter on and off. Every number is asked alone, with each lower one and
with all lower ones true as well, and states at each bound of number 2 and one beyond. Then come states in which one step of
voicing or gain decides, and LSPs of which a floor does; then records with an index: calls of them among the others, previous
LSPs at their ends, and the numbers 4 to 10. Last, each outcome of stabilising for each kind, with refusals between them.
"""
import math
import random

from places import *
from questions import AT_ENDS, FLOORED, FROM_MEANS, STARRED, TEN_PASSES, at_edge, index_rows, limit16, outcome, passes, spaced, stabilised
from signals import bits16, noise, periodic
from voicing import EXACT, at_gate, level, ranked_otherwise, searched

MARK = 7
NO_TAPS = [0] * TAPS


# ---- records


def word(x):
    return [x >> 8 & 255, x & 255]


def words(xs):
    return [b for x in xs for b in word(x)]


def head(kind, lsps):
    """Ten LSPs, or the three rows of an index."""
    return [kind, *(lsps if has_index(kind) else words(lsps))]


def with_lsps(record, lsps):
    """The record with other LSPs, or with another index."""
    return head(record[0], lsps) + record[HEAD[record[0]] :]


def with_lags(record, *lags):
    """The record with other lags and steps."""
    return record[: HEAD[record[0]]] + [*lags] + record[block_place(record[0], 0) :]


def high(lsps, lags, blocks, kind=HIGH):
    """Lag A, step 1, lag B and step 3; blocks of taps, gain index, flags, signs and position code."""
    out = [*head(kind, lsps), *lags]
    for taps, gain, flags, signs, code in blocks:
        out += words(taps) + [gain, flags, signs, code >> 16, code >> 8 & 255, code & 255]
    return out


def low(lsps, lags, blocks, kind=LOW):
    """Blocks of taps, gain index and sixty values."""
    out = [*head(kind, lsps), *lags]
    for taps, gain, values in blocks:
        out += words(taps) + [gain] + words(values)
    return out


def near_mean(rng, size=500):
    return [m + rng.randrange(-size, size + 1) for m in MEAN]


def speech(rng, kind, lag, tap, gain, size=300):
    """A frame around a lag, with a strong middle tap or none."""
    code, steps = lag_code(lag), STEP_MOST + 1
    lags = (code, rng.randrange(steps), min(code + rng.randrange(3), LAG_CODE_MOST), rng.randrange(steps))
    blocks = []
    for s in range(SUBFRAMES):
        taps = [rng.randrange(-200, 200), tap // 6, tap, tap // 6, rng.randrange(-200, 200)]
        index = min(GAIN_MOST, max(0, gain + rng.randrange(-1, 2)))
        if is_high(kind):
            train = TRAIN * rng.randrange(2) if lags[s // 2 * 2] < lag_code(TRAIN_LAG) else 0
            blocks.append((taps, index, train + rng.randrange(2), rng.randrange(SIGNS_MOST[s] + 1), rng.randrange(LIMITS[s])))
        else:
            values = [0] * SUB
            for _ in range(4):
                values[rng.randrange(SUB)] = rng.randrange(-size, size + 1)
            blocks.append((taps, index, values))
    lsps = index_rows(rng) if has_index(kind) else near_mean(rng)
    return (high if is_high(kind) else low)(lsps, lags, blocks, kind)


def voiced(rng, kind=HIGH):
    return speech(rng, kind, rng.randrange(38, 44), 13000, 11)


def unvoiced(rng, kind=HIGH):
    return speech(rng, kind, rng.randrange(SHORTEST_LAG, 140), 600, 13)


def silent(kind):
    lsps = [0] * BANDS if has_index(kind) else MEAN
    if is_high(kind):
        return high(lsps, (42, 1, 42, 1), [(NO_TAPS, 0, 0, 0, 0xFFFFFF)] * SUBFRAMES, kind)
    return low(lsps, (42, 1, 42, 1), [(NO_TAPS, 0, [0] * SUB)] * SUBFRAMES, kind)


# ---- calls


def line(letter, first, second, data):
    print(f"{letter}{first:04X}{second & 0xFFFF:04X}{len(data):04X}{bytes(data).hex().upper()}")


def fresh(on=1):
    line("F", on, 0, [])


def state(f):
    numbers = [x for name, _, _ in STATE for x in f[name]]
    assert len(numbers) == STATE_NUMBERS
    line("S", 0, 0, [b for x in numbers for b in (x & 0xFFFFFFFF).to_bytes(4, "big")])


def decode(record, length=FRAME, mark=MARK):
    line("D", length, mark, record)


def main():
    rng = random.Random(7231)

    def losses(make, counts, between=2):
        for k in counts:
            for _ in range(between):
                decode(make(rng))
            for _ in range(k):
                decode(ERASED)
        decode(make(rng))

    for on in (1, 0):
        for kind in (HIGH, LOW):
            for make in (voiced, unvoiced):
                fresh(on)
                losses(lambda r: make(r, kind), range(1, 7), 3 - kind)
        fresh(on)
        for _ in range(40):
            losses(lambda r: (voiced, unvoiced)[r.randrange(2)](r, r.choice((HIGH, LOW))), (rng.randrange(3),), 1)
    fresh()
    for record in (ERASED, silent(HIGH), ERASED, silent(LOW), ERASED, ERASED, ERASED, ERASED):
        decode(record)
    extremes(rng)
    given(rng)
    numbers(rng)
    narrow(rng)
    loudest()
    floored()
    floors_decide(rng)
    gate_decides(rng)
    index_calls(rng)
    index_numbers()
    outcomes(rng)
    outcomes_from_states(rng)


def extremes(rng):
    """Saturation, unstable LSPs, extreme taps, codes without slots, and lags at both ends."""
    for on in (1, 0):
        fresh(on)
        for tap in (MOST, LEAST):
            blocks = [([tap] * TAPS, GAIN_MOST, TRAIN * (s % 2) + 1, SIGNS_MOST[s], 0) for s in range(SUBFRAMES)]
            decode(high(near_mean(rng, 2000), (0, 0, 0, STEP_MOST), blocks))
        values = [(MOST, LEAST)[i % 2] for i in range(SUB)]
        decode(low(near_mean(rng), (5, 0, 5, STEP_MOST), [([MOST, LEAST, MOST, LEAST, MOST], GAIN_MOST, values)] * SUBFRAMES))
        decode(ERASED)
    fresh()
    decode(voiced(rng))
    for lsps in ([0] * LSPS, list(reversed(MEAN)), [LEAST] * LSPS, [MOST] * LSPS, bits16(rng, LSPS), STARRED, sorted(bits16(rng, LSPS))):
        decode(with_lsps(voiced(rng), lsps))
    decode(ERASED)
    # Codes at both ends, and of lags at the longest one, at that of a train and where the voicing search leaves its tail.
    ends = [(0, LAG_CODE_MOST), (LAG_CODE_MOST, 0), (1, LAG_CODE_MOST - 1)]
    for a, b in ends + [(lag_code(lag), lag_code(lag + 1)) for lag in (LONGEST_LAG, TRAIN_LAG - 1, TAIL - 1)]:
        record = speech(rng, HIGH, 60, 9000, 15)
        step1, step3 = rng.choice(((0, STEP_MOST), (STEP_MOST, 0)))
        record = with_lags(record, a, step1, b, step3)
        for s in range(SUBFRAMES):
            record[block_place(HIGH, s, AT_FLAGS)] &= 1
        decode(record)
        decode(ERASED)
    # The largest 24-bit code, the limit, and below it.
    found = (0xFFFFFF, LIMITS[1], LIMITS[2] - 1, LIMITS[3] - 1)
    decode(high(near_mean(rng), (20, 1, 30, 2), [(NO_TAPS, 20, 1, 5, code) for code in found]))


# ---- given states


def fields(rng=None, size=0, on=1):
    """A state as its fields; random within number 2's bounds where there is rng."""
    small = (lambda n: noise(rng, n, size)) if rng else (lambda n: [0] * n)
    one = (lambda lo, hi, plain: rng.choice((lo, hi, rng.randrange(lo, hi + 1)))) if rng else (lambda lo, hi, plain: plain)
    return {
        "prev_lsp": sorted(bits16(rng, LSPS)) if rng else list(MEAN),
        "exc_hist": small(HIST),
        "syn_mem": small(LSPS),
        "num_mem": small(LSPS),
        "den_mem": small(LSPS),
        "tilt": [one(LEAST, MOST, 0), one(LEAST, MOST, 0)],
        "gain": [one(*GAIN, 4096)],
        "last_lag": [one(*LAST_LAG, 60)],
        "last_lag2": [one(*LAST_BASE_LAG, 60)],
        "taps_sum": [one(*TAP_SUM, 0)],
        "gain_unvoiced": [one(*UNVOICED_GAIN, 0)],
        "pcm_hist": small(TAIL),
        "erased_run": [one(0, 5, 0)],
        "postfilter": [on],
    }


def given(rng):
    # At each bound of number 2, and one beyond.
    for name, (lo, hi) in [(name, bounds) for name, _, bounds in STATE if bounds]:
        for value in (lo - 1, lo, hi, hi + 1):
            f = fields()
            f[name][rng.choice((0, -1))] = value
            state(f)
            decode(ERASED)
    # The run stays at its greatest.
    for run in (2, 3, RUN_MOST - 1, RUN_MOST):
        f = fields()
        f["erased_run"], f["gain_unvoiced"] = [run], [UNVOICED_GAIN[1]]
        state(f)
        decode(ERASED)
        decode(ERASED)
    # LSPs whose extrapolated gaps lie between both minima: 512 moves them.
    for gap in (450, 600, 700):
        f = fields()
        f["prev_lsp"][1] = MEAN[0] - (MEAN[1] - MEAN[0]) * 23 // 9 + gap
        f["prev_lsp"][5] = f["prev_lsp"][4] + gap
        f["gain_unvoiced"] = [5000]
        state(f)
        decode(ERASED)
    # The stored lag of subframe 3 is not heard.
    for lag in LAST_LAG:
        f = fields()
        f["pcm_hist"] = [((i % 30) - 15) * 100 for i in range(TAIL)]
        f["exc_hist"] = [((i % 30) - 15) * 50 for i in range(HIST)]
        f["last_lag"], f["last_lag2"], f["taps_sum"], f["gain_unvoiced"] = [lag], [30], [30000], [100]
        state(f)
        decode(ERASED)
        decode(voiced(rng))
    for size in (40, 900, MOST):
        for on in (1, 0):
            state(fields(rng, size, on))
            decode(ERASED)
            decode((voiced, unvoiced)[on](rng, (HIGH, LOW)[size == 40]))


# ---- the ten numbers


def wrong(number, record):
    """The record with the fault of a number, from 6 on in a late subframe."""
    r = list(record)
    if number == 3:
        return []
    if number == 4:
        return [KIND_MOST + 1] + r[1:]
    if number == 5:
        return r + [0]
    if number == 6:
        place, most = field_place(r[0], AT_LAG_B), LAG_CODE_MOST
    elif number == 7:
        place, most = field_place(r[0], AT_STEP_3), STEP_MOST
    else:
        place, most = block_limit(r[0], number, {8: 3, 9: 2, 10: 0}[number])
    r[place] = most + 1
    return r


def block_limit(kind, number, s):
    """Where a subframe's block has what number 8, 9 or 10 tests, and the most that is accepted."""
    place, most = {8: (AT_GAIN, GAIN_MOST), 9: (AT_FLAGS, FLAGS_MOST), 10: (AT_SIGNS, SIGNS_MOST[s])}[number]
    return block_place(kind, s, place), most


def at_once(numbers, record):
    """The record with the faults of several numbers, with a sample too few where 1 is one of them."""
    for n in sorted(numbers, reverse=True):
        if n > 2:
            record = wrong(n, record)
    decode(record, FRAME - 1 if 1 in numbers else FRAME)


def lower(number):
    """The lower numbers whose faults a record can have as well. One without a byte has no others, one of no kind no length."""
    return [m for m in range(1, number) if m != 3 and (m, number) != (4, 5)]


def put(record, place, value):
    return record[:place] + [value] + record[place + 1 :]


def limits(plain, quiet):
    """A High and a Low record at the limits of codes and steps, of gains, flags and signs, and beyond."""
    kind = plain[0]
    for field, most, *far in ((AT_LAG_A, LAG_CODE_MOST, 255), (AT_LAG_B, LAG_CODE_MOST), (AT_STEP_1, STEP_MOST, 255), (AT_STEP_3, STEP_MOST)):
        for value in (most, most + 1, *far):
            decode(put(plain, field_place(kind, field), value))
    for s in range(SUBFRAMES):
        for n, near in ((8, (1,)), (9, (1,)), (10, (0, 1))):
            place, most = block_limit(kind, n, s)
            for more in near:
                decode(put(plain, place, most + more))
        # A train at the longest base lag that can have one, and at the next.
        for lag in (TRAIN_LAG - 1, TRAIN_LAG):
            record = put(plain, lag_place(kind, s), lag_code(lag))
            decode(put(record, block_place(kind, s, AT_FLAGS), TRAIN))
        place, most = block_limit(quiet[0], 8, s)
        decode(put(quiet, place, most + 1))


def numbers(rng):
    fresh()
    good = voiced(rng)
    plain, quiet = silent(HIGH), silent(LOW)
    # Alone, with each lower one, and with all lower ones: first from a state in bounds, then from one that is not.
    cases = dict.fromkeys(frozenset([n, *more]) for n in range(1, 11) for more in ([], *([m] for m in lower(n)), lower(n)))
    for n in (6, 7, 8):
        at_once({n}, quiet)
    for case in cases:
        if 2 not in case:
            at_once(case, plain)
    decode(good)
    f = fields()
    f["last_lag"] = [LAST_LAG[1] + 1]
    state(f)
    for case in cases:
        if 2 in case:
            at_once(case, plain)
    decode(plain)
    decode(ERASED)
    fresh()
    # Two faults, the lower number in the later subframe.
    for s, t, first, second in ((0, 3, 9, 8), (0, 3, 10, 9), (0, 3, 10, 8), (1, 2, 9, 8)):
        r = list(plain)
        for k, n in ((s, first), (t, second)):
            place, most = block_limit(HIGH, n, k)
            r[place] = most + 1
        decode(r)
    limits(plain, quiet)
    # No byte, kinds, lengths, and the length of the samples.
    for record in ([], [KIND_MOST + 1], [255], [9] * LENGTH[HIGH], [0, 0], [HIGH], [LOW], plain[:-1], plain + [0], [LOW] + plain[1:], [HIGH] * LENGTH[LOW], quiet[:-1], quiet + [0]):
        decode(record)
    for length in (0, 1, FRAME - 1, FRAME + 1, 300):
        decode(plain, length, -3)
        decode([], length)
    decode(good)


# ---- what one step decides


def lost(rng, lag, tail):
    """An erased frame after a tail, heard otherwise at each lag and as noise."""
    f = fields()
    f["pcm_hist"], f["exc_hist"], f["last_lag2"] = tail, noise(rng, HIST, 900), [lag]
    f["taps_sum"], f["gain_unvoiced"] = [30000], [300]
    state(f)
    decode(ERASED)


def narrow(rng):
    # A period below the shortest lag.
    lost(rng, SHORTEST_LAG, periodic(rng, TAIL, 16, 900, 9))
    # 8 c² = e t.
    lost(rng, 60, [500 if i == 10 or 70 <= i < 78 else 0 for i in range(TAIL)])
    # Ranks so close that their scale decides.
    for step, bits in ((60, 24), (3, 36)):
        lost(rng, *searched(rng, level(30000, step), ranked_otherwise(bits)))


def alternating(rng, lag):
    """A level whose sign changes from sample to sample, so that odd lags have c below 0."""
    return [(-1) ** i * (21000 + rng.randrange(-2, 3)) for i in range(TAIL)]


def pulses(rng, lag):
    """A pulse, and two of equal size about a lag after it, so that two lags rank almost alike; small samples decide."""
    tail = [rng.choice((-1, 0, 0, 0, 0, 0, 0, 1)) for _ in range(TAIL)]
    first, size = rng.randrange(TAIL - lag - 3), rng.randrange(25000, MOST)
    tail[first] = rng.randrange(25000, MOST)
    tail[first + lag - rng.randrange(1, 4)] = tail[first + lag + rng.randrange(1, 4)] = size
    return tail


def floors_decide(rng):
    """Where exact quotients rank another lag first than their floors, at short and long lags."""
    for made, lags in ((level(-27000, 4), (24, 40)), (pulses, (44, 58)), (alternating, (64, 100))):
        lost(rng, *searched(rng, made, ranked_otherwise(EXACT), lags))


def few(*sizes):
    """A few samples of given sizes."""
    return lambda rng, lag: [rng.choice((-1, 1)) * rng.choice(sizes) if rng.random() < 0.08 else 0 for _ in range(TAIL)]


def gate_decides(rng):
    """Where 8 c² = e t, at short and long lags, the last with products of more than 64 bits."""
    for made, lags, least in ((few(1, 2), (24, 45), 1), (few(300, 900), (65, 85), 1), (few(30000), (30, 55), 2**64)):
        lost(rng, *searched(rng, made, at_gate(least), lags))


def coefficients(lsps):
    """The coefficients of LSPs, as fractions: to choose a record by, never to answer."""
    both = []
    for first in (0, 1):
        p = [1.0] + [0.0] * LSPS
        for lsp in lsps[first::2]:
            c = 2 * math.cos(math.pi * lsp / 32768)
            p = [p[i] - c * (p[i - 1] if i > 0 else 0) + (p[i - 2] if i > 1 else 0) for i in range(LSPS + 1)]
        both.append(p)
    p, q = both
    return [-(p[j] + p[j - 1] + q[j] - q[j - 1]) / 2 for j in range(1, LSPS + 1)]


def loudest():
    """A subframe that the formant filter's zeros cancel, so that the gain's target is at its limit."""
    a = coefficients(MEAN)
    past = [10000 if x > 0 else -10000 for x in a]
    f = fields()
    f["syn_mem"], f["num_mem"] = list(past), list(past)
    values = []
    for _ in range(SUB):
        y = round(sum(x * 0.65 ** (j + 1) * past[j] for j, x in enumerate(a)))
        values.append(y - round(sum(x * past[j] for j, x in enumerate(a))))
        past = [y] + past[:-1]
    state(f)
    code = lag_code(LONGEST_LAG)
    decode(low(MEAN, (code, 1, code, 1), [(NO_TAPS, 0, part) for part in (values, *[[0] * SUB] * (SUBFRAMES - 1))]))


def floored():
    """LSPs that no pass moves and of which a floor decides a coefficient in subframe 3, which loud pulses make heard."""
    fresh()
    for lsps in FLOORED:
        if passes(lsps, MINIMUM) == (0, True):
            decode(high(lsps, (60, 1, 60, 1), [(NO_TAPS, 21, 0, 9, 1000)] * SUBFRAMES))


# ---- records with an index

# From the mean LSPs, rows whose candidates one pass moves, nine and all ten, and rows that give way to the previous LSPs.
MOVED_ROWS = ((69, 253, 111), (0, 236, 78), (0, 250, 78))
GIVEN_WAY = (0, 255, 78)
# Kinds in an order in which an index of either rate comes after each, after one loss and after more.
IN_TURN = (3, 3, 4, 4, 3, 1, 4, 2, 3, 0, 4, 0, 0, 3, 2, 4, 1, 3, 0, 0, 0, 0, 3)


def at_rows(rng, rows, kind=HIGH_INDEX):
    """Speech with given rows."""
    return with_lsps(voiced(rng, kind), rows)


def in_turn(rng):
    """A call of all kinds."""
    for turn, kind in enumerate(IN_TURN):
        yield (voiced, unvoiced)[turn % 2](rng, kind) if kind else ERASED


def index_calls(rng):
    """An index adds to the LSPs that the frame before used: its own, moved, previous or erased ones."""
    for on in (1, 0):
        fresh(on)
        # The first and the last row of each band.
        for rows in ((0, 0, 0), (255, 0, 0), (0, 255, 0), (0, 0, 255), (255, 255, 255)):
            decode(at_rows(rng, rows))
        for rows in (*MOVED_ROWS, GIVEN_WAY):
            fresh(on)
            decode(at_rows(rng, rows))
            decode(voiced(rng, HIGH_INDEX))
        # The previous LSPs are other than the means.
        fresh(on)
        for record in (voiced(rng), at_rows(rng, GIVEN_WAY), voiced(rng, HIGH_INDEX), ERASED, at_rows(rng, GIVEN_WAY, LOW_INDEX)):
            decode(record)
        for record in in_turn(rng):
            decode(record)
    fresh()
    for previous in FROM_MEANS:
        decode(with_lsps(voiced(rng), previous))
        decode(voiced(rng, HIGH_INDEX))
    for previous in AT_ENDS:
        f = fields()
        f["prev_lsp"] = previous
        state(f)
        for record in (voiced(rng, HIGH_INDEX), ERASED, voiced(rng, HIGH_INDEX)):
            decode(record)


def index_numbers():
    """Each of the numbers 6 to 10 and every two of them, each limit, and kinds and lengths."""
    fresh()
    plain, quiet = silent(HIGH_INDEX), silent(LOW_INDEX)
    for record, most in ((plain, 10), (quiet, 8)):
        for n in range(6, most + 1):
            for m in range(6, n + 1):
                at_once({m, n}, record)
    limits(plain, quiet)
    # Low values are no flags and no signs.
    for place in (AT_FLAGS, AT_SIGNS):
        decode(put(quiet, block_place(LOW_INDEX, 1, place), 255))
    for kind in (KIND_MOST + 1, 255):
        for record in (plain, quiet, ERASED):
            decode([kind] + record[1:])
    for record in (plain, quiet):
        for other in (record[:-1], record + [0], record[:1]):
            decode(other)
    for kind, record in ((HIGH_INDEX, quiet), (HIGH_INDEX, silent(HIGH)), (LOW_INDEX, plain), (LOW_INDEX, silent(LOW)), (HIGH, plain), (LOW, quiet)):
        decode([kind] + record[1:])
    decode(plain)
    decode(quiet)


# ---- what stabilising says

# In 32768ths, the share of the previous LSPs' distance from the means that the candidates of a loss keep, and those of an index
# whose rows are zeros, as row 0 of each band is.
SHARE = {ERASED[0]: 23552, HIGH_INDEX: 12288, LOW_INDEX: 12288}
ROWS_OF_ZEROS = [0] * BANDS


def candidates(record, previous):
    """The candidates of a record after these previous LSPs, and their minimum: to choose by, never to answer."""
    if record == ERASED or has_index(record[0]):
        assert record == ERASED or record[1 : HEAD[record[0]]] == ROWS_OF_ZEROS
        lsps = [mean + (max(p - mean, LEAST) * SHARE[record[0]] >> 15) for p, mean in zip(previous, MEAN)]
    else:
        lsps = [int.from_bytes(record[i : i + 2], "big", signed=True) for i in range(1, HEAD[record[0]], 2)]
    return lsps, MINIMUM_ERASED if record == ERASED else MINIMUM


def said(wanted, record, previous):
    """A record that is chosen for its outcome after these previous LSPs; the LSPs that it uses."""
    lsps, minimum = candidates(record, previous)
    assert outcome(lsps, minimum) == wanted
    decode(record)
    return previous if wanted == PREVIOUS else stabilised(lsps, minimum)[2]


def refused():
    decode([KIND_MOST + 1])


def from_previous(lsps):
    """A state with these previous LSPs, from which a loss is heard."""
    f = fields()
    f["prev_lsp"], f["gain_unvoiced"] = lsps, [5000]
    state(f)


def mended(rng, record, needed):
    """Previous LSPs after which the candidates of a loss or of rows of zeros need so many passes and then have their gaps."""
    _, minimum = candidates(record, MEAN)
    while True:
        near = at_edge(rng, minimum)
        previous = [limit16(mean + (lsp - mean) * 32768 // SHARE[record[0]]) for lsp, mean in zip(near, MEAN)]
        if passes(*candidates(record, previous)) == (needed, True):
            return previous


def unmended(rng, records):
    """Previous LSPs to which the candidates of each record give way, and would do as candidates themselves."""
    while True:
        previous = bits16(rng, LSPS)
        tried = [candidates(record, previous) for record in records] + [(previous, MINIMUM)]
        if all(outcome(*one) == PREVIOUS for one in tried):
            return previous


def outcomes(rng):
    """Each outcome of the kinds with LSPs, and after each a refusal, which has none."""
    for kind in (HIGH, LOW):
        fresh()
        lsps = MEAN
        for wanted, other in ((UNTOUCHED, near_mean(rng)), (MOVED, STARRED), (PREVIOUS, [0] * LSPS)):
            lsps = said(wanted, with_lsps(voiced(rng, kind), other), lsps)
            refused()
    # Moved to where the previous LSPs are, moved by all ten passes, and with every gap at the minimum.
    again = said(MOVED, with_lsps(voiced(rng), STARRED), lsps)
    assert again == lsps
    lsps = said(MOVED, with_lsps(voiced(rng), TEN_PASSES), again)
    said(UNTOUCHED, with_lsps(voiced(rng), spaced(rng, MINIMUM, 1)), lsps)


def outcomes_from_states(rng):
    """Each outcome of a loss and of rows of zeros: moved or previous only after LSPs without their gaps, as a given state has."""
    by_index = [at_rows(rng, ROWS_OF_ZEROS, kind) for kind in (HIGH_INDEX, LOW_INDEX)]
    for record, needed in ((ERASED, 1), (ERASED, PASSES), (by_index[0], 1), (by_index[1], PASSES)):
        previous = mended(rng, record, needed)
        from_previous(previous)
        previous = said(MOVED, record, previous)
        refused()
        said(UNTOUCHED, record, previous)
    # The previous LSPs stay, and are the candidates at last.
    previous = unmended(rng, [ERASED, *by_index])
    from_previous(previous)
    for record in (ERASED, *by_index, with_lsps(voiced(rng), previous)):
        said(PREVIOUS, record, previous)
        refused()
    said(UNTOUCHED, voiced(rng), previous)


if __name__ == "__main__":
    main()
