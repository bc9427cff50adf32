#!/usr/bin/env python3
"""Writes the input of a program that reads records as lines.

    tests/frames.py NAME     for NAME see PROGRAMS below

Whatever is refused stands between frames whose samples depend on the state, so that a refusal that changes it is heard.
"""
import math
import random
import sys

# A cache of the modules beside this script would be left in the repository.
sys.dont_write_bytecode = True
import signals
from calls import GIVEN_WAY, MOVED_ROWS, NO_TAPS, at_rows, block_limit, high, low, near_mean, put, silent, speech, unvoiced, voiced, with_lags, with_lsps, words, wrong
from places import *
from questions import at_edge
from signals import ALL, bits16

# Just outside the three ranges of digits.
BESIDE = b"/:@G`g"


def text(record):
    return bytes(record).hex().upper().encode()


def mixed_case(line):
    return bytes(pair[i % 3 % 2] for i, pair in enumerate(zip(line.upper(), line.lower())))


def probes(rng):
    """Frames that are heard otherwise if the state was changed before them: erased ones at most thrice in a row."""
    while True:
        yield text(voiced(rng))
        yield b"00"
        yield b"00"
        yield text(unvoiced(rng, HIGH_INDEX))
        yield b"00"


def between(rng, groups):
    """The groups of lines, with a probe before each and after the last."""
    probe = probes(rng)
    lines = [next(probe)]
    for group in groups:
        lines += [*group, next(probe)]
    return lines


# ---- what is no record


def beside_digits(good):
    """A character that is no digit at the ends of a record and of a pair, and in the middle."""
    middle = len(good) // 2
    for c in BESIDE:
        bad = bytes([c])
        spoilt = [good[:i] + bad + good[i + 1 :] for i in (0, 1, middle - 1, middle, len(good) - 2, len(good) - 1)]
        yield [*spoilt, bad, bad + bad, good + bad, bad + good]


def every_byte():
    """Each byte but the newline as either digit of a pair; those of an erased frame are left to other lines."""
    for places in (b"%c0", b"0%c"):
        yield [places % c for c in range(256) if c not in b"\n0"]


def spaced(good):
    """White space and a carriage return around digits, with odd and with even counts."""
    yield [good + b"\r", b"00\r", good[:-1] + b"\r", b"0\r", b"\r", b"\r\r", b"\r" + good, b"\r00"]
    for c in b" \t\0":
        blank = bytes([c])
        inside = good[:40] + blank * 2 + good[40:]
        yield [good + blank, blank + good, good + blank * 2, blank * 2 + good, inside, blank, blank * 2]
    yield [b"0x" + good, b"0X00", good + b",", good + good, b"+0", b"-0", b"\xef\xbb\xbf" + good, b"\xff\xfe"]


def long_lines(rng):
    """Lines around the longest, and far longer ones: a record that is accepted, and what stands after it."""
    record = text(unvoiced(rng, LOW))
    yield [record]
    yield [record[:-2], record[:-1], record + b"0", record + b"00", record + b"\r", record[:-1] + b"g"]
    others = [text([kind]) + record[2:] for kind in (KIND_MOST + 1, HIGH, 0)]
    yield [*others, b"01" * LENGTH[LOW] + b"0", b"01" * (LENGTH[LOW] + 1)]
    # One that a length of sixteen bits would take for a High record.
    yield [(text(voiced(rng)) * 400)[: 65536 + 2 * LENGTH[HIGH]]]
    yield [record + b"0" * (100_000 - LONGEST_LINE)]


def index_lines(rng):
    """A record with an index in either case, and what is none."""
    record = text(voiced(rng, HIGH_INDEX))
    yield [mixed_case(record), record.lower()]
    yield [record[:-1], record[:-2], record + b"0", record + b"00", record + b"\r", record[:-1] + b"g", record + b" "]


def frames_text(rng):
    good = text(voiced(rng))
    other = text(unvoiced(rng))
    groups = [
        [good.lower(), good, mixed_case(good)],
        [mixed_case(other), other.lower()],
        [b"", b"", b""],
        [b"0", b"000", good[:-1], good[1:], good + b"0", b"A", b"f"],
        *beside_digits(good),
        *every_byte(),
        *spaced(good),
        *long_lines(rng),
        *index_lines(rng),
    ]
    return between(rng, groups)


# ---- what is refused by a number


def in_field(record, place, value):
    return put(record, field_place(record[0], place), value)


def in_block(record, s, place, value):
    return put(record, block_place(record[0], s, place), value)


def trained(record, code, s):
    """The record with one train, at a base lag code."""
    for k in range(SUBFRAMES):
        record = in_block(record, k, AT_FLAGS, 0)
    return in_block(put(record, lag_place(record[0], s), code), s, AT_FLAGS, TRAIN)


def alone(good, quiet):
    """Each number alone in a High or a Low record: of 6 to 10 each at every place that can have it."""
    yield [[], [KIND_MOST + 1], put(good, 0, KIND_MOST + 1), put(good, 0, 255), good + [0], good[:-1]]
    yield [in_field(good, place, value) for place in (AT_LAG_A, AT_LAG_B) for value in (LAG_CODE_MOST + 1, 255)]
    yield [in_field(good, place, value) for place in (AT_STEP_1, AT_STEP_3) for value in (STEP_MOST + 1, 255)]
    for place, most in ((AT_GAIN, GAIN_MOST), (AT_FLAGS, FLAGS_MOST)):
        yield [in_block(good, s, place, v) for s in range(SUBFRAMES) for v in (most + 1, 255)]
    # The two bits above the pulses.
    yield [in_block(good, s, AT_SIGNS, bit * (SIGNS_MOST[s] + 1)) for s in range(SUBFRAMES) for bit in (1, 2)]
    yield [trained(good, lag_code(TRAIN_LAG), s) for s in range(SUBFRAMES)]
    yield [in_field(quiet, AT_LAG_B, LAG_CODE_MOST + 1), in_field(quiet, AT_STEP_1, STEP_MOST + 1), in_block(quiet, 3, AT_GAIN, GAIN_MOST + 1)]


def lowest(good):
    """Several numbers at once: every two of them, all from one on, and the lower one in the later subframe."""
    for n in range(4, 10):
        record = good
        for m in range(10, n - 1, -1):
            pair = wrong(n, wrong(m, good))
            record = wrong(m, record)
            yield pair
        yield record
    for n, m in ((8, 9), (8, 10), (9, 10)):
        record = good
        for s, number in ((3, n), (0, m)):
            place, most = block_limit(good[0], number, s)
            record = put(record, place, most + 1)
        yield record


def on_both_sides(rng):
    """At each limit, the last that is accepted and the first that is not."""
    good = voiced(rng)
    # The train stands in a subframe of the other code.
    for place, s in ((AT_LAG_A, 2), (AT_LAG_B, 0)):
        plain = trained(good, 20, s)
        yield [in_field(plain, place, code) for code in (LAG_CODE_MOST, LAG_CODE_MOST + 1)]
    for place in (AT_STEP_1, AT_STEP_3):
        yield [in_field(good, place, step) for step in (STEP_MOST, STEP_MOST + 1)]
    for s in range(SUBFRAMES):
        yield [in_block(good, s, AT_GAIN, gain) for gain in (GAIN_MOST, GAIN_MOST + 1)]
        yield [in_block(trained(good, 20, s), s, AT_FLAGS, flags) for flags in (FLAGS_MOST, FLAGS_MOST + 1)]
        yield [trained(good, lag_code(lag), s) for lag in (TRAIN_LAG - 1, TRAIN_LAG)]
        first = SIGNS_MOST[s] + 1
        yield [in_block(good, s, AT_SIGNS, signs) for signs in (first - 1, first)]
        # Bit n - 1 alone, and bit n alone with those below.
        yield [in_block(good, s, AT_SIGNS, signs) for signs in (first // 2, 2 * first - 1)]


def lengths(rng):
    """Lengths beside those of the kinds, and kinds that do not exist. One more byte than a Low record has is too long a line."""
    rate_high, rate_low = voiced(rng), unvoiced(rng, LOW)
    yield [rate_high[:-1], rate_high, rate_high + [0], [LOW] + rate_high[1:], ERASED + rate_high[1:], [HIGH_INDEX] + rate_high[1:]]
    yield [rate_low[:-1], rate_low, rate_low + [0], [HIGH] + rate_low[1:], ERASED + rate_low[1:], [LOW_INDEX] + rate_low[1:]]
    yield [ERASED, [0, 0], [HIGH], [LOW], [KIND_MOST + 1], [255], [HIGH] * 2, [KIND_MOST + 1] * LENGTH[HIGH], [255] * LENGTH[LOW]]


def index_lengths(rng):
    """Lengths and kinds beside those of records with an index."""
    rate_high, rate_low = voiced(rng, HIGH_INDEX), unvoiced(rng, LOW_INDEX)
    yield [rate_high[:-1], rate_high, rate_high + [0], *[[kind] + rate_high[1:] for kind in (0, HIGH, LOW_INDEX, KIND_MOST + 1)]]
    yield [rate_low[:-1], rate_low, rate_low + [0], *[[kind] + rate_low[1:] for kind in (LOW, HIGH_INDEX, KIND_MOST + 1)]]
    yield [[HIGH_INDEX], [LOW_INDEX], [KIND_MOST + 1] * 2, [HIGH_INDEX] * HEAD[HIGH_INDEX]]


def in_a_run(rng):
    """Each number in a run of erased frames."""
    good = voiced(rng)
    return [good, ERASED, *[wrong(n, good) for n in range(3, 11)], ERASED]


def frames_refused(rng):
    first = [text(record) for record in in_a_run(rng)]
    groups = [*alone(voiced(rng), silent(LOW)), list(lowest(voiced(rng))), *on_both_sides(rng), *lengths(rng)]
    good = voiced(rng, HIGH_INDEX)
    groups += [*alone(good, silent(LOW_INDEX)), list(lowest(good)), *index_lengths(rng)]
    return first + between(rng, [[text(record) for record in group] for group in groups])


# ---- calls


def lossy(rng, make, kind, before, lost, after=1):
    """Frames, as many lost ones, and frames again."""
    return [make(rng, kind) for _ in range(before)] + [ERASED] * lost + [make(rng, kind) for _ in range(after)]


# Kinds, base lags and steps near both limits, and where the voicing search leaves its tail.
ENDS = [
    (HIGH, *LAST_BASE_LAG, (0, STEP_MOST)),
    (LOW, LAST_BASE_LAG[1], LONGEST_LAG, (STEP_MOST, 0)),
    (LOW, LONGEST_LAG - 1, LONGEST_LAG + 1, (2, 1)),
    (HIGH, TAIL - 4, TAIL - 2, (1, 2)),
]


def at_lag(rng, kind, lag_a, lag_b, steps):
    """Speech whose base lags and steps are given."""
    return with_lags(speech(rng, kind, 60, 9000, 14), lag_code(lag_a), steps[0], lag_code(lag_b), steps[1])


def train(rng, lag_a, lag_b, codes, gain=12):
    """A train in every subframe, on either grid."""
    blocks = [([0, 0, 6000, 0, 0], gain, TRAIN + (s + codes[0]) % 2, rng.randrange(SIGNS_MOST[s] + 1), codes[s]) for s in range(SUBFRAMES)]
    steps = STEP_MOST + 1
    return high(near_mean(rng), (lag_code(lag_a), rng.randrange(steps), lag_code(lag_b), rng.randrange(steps)), blocks)


def trains(rng):
    """Base lags at both ends and between; pulses that meet those of other multiples, and codes at the limits."""
    for lag_a, lag_b in ((FIRST_LAG, TRAIN_LAG - 1), (20, FIRST_LAG + 1), (29, 30), (TRAIN_LAG - 2, 24)):
        yield train(rng, lag_a, lag_b, [rng.randrange(limit) for limit in LIMITS])
    # 118755 codes of six have their first pulse in slot 0.
    yield train(rng, FIRST_LAG, 20, [0, 0, 118754, LIMITS[3] - 1])
    yield train(rng, 22, FIRST_LAG, [118755, 1, LIMITS[2] - 1, 0], GAIN_MOST)


def codes(rng):
    """Position codes at the limit, on both sides of it and far above."""
    six, five = LIMITS[:2]
    for found in ((six - 1, five - 1, six, five), (six + 1, five + 1, 0xFFFFFF, 0xFFFFFF), (0, 0, 1 << 20, 1 << 18)):
        yield high(near_mean(rng), (30, 0, 90, STEP_MOST), [(NO_TAPS, 15 + s, s % 2, (41, 19)[s % 2], found[s]) for s in range(SUBFRAMES)])


def turns(lsps):
    """How many passes move a pair, at most two more than there are: to choose LSPs by."""
    p, n = list(lsps), 0
    while n < PASSES + 2 and any(b - a < MINIMUM for a, b in zip(p, p[1:])):
        for j in range(LSPS - 1):
            if p[j + 1] - p[j] < MINIMUM:
                middle = (p[j] + p[j + 1]) // 2
                p[j], p[j + 1] = max(middle - MINIMUM // 2, LEAST), min(middle + MINIMUM // 2, MOST)
        n += 1
    return n


def by_turns(rng, wanted):
    return next(p for p in iter(lambda: at_edge(rng, MINIMUM), None) if turns(p) == wanted)


def unstable(rng):
    """LSPs that are moved apart, also by the last pass or at the ends, and those that give way to the previous ones."""
    close = [m - m % 2000 // 3 * (i % 2) for i, m in enumerate(MEAN)]
    near = list(MEAN)
    near[4] = near[3] + 300
    ladder = [8000 + (MINIMUM - 1) * i for i in range(LSPS)]
    rows = [list(reversed(MEAN)), [LEAST] * LSPS, close, [MOST] * LSPS, ladder, near]
    rows += [bits16(rng, LSPS), sorted(bits16(rng, LSPS)), [1000, 1100, *range(2000, 10000, 1000)]]
    rows += [by_turns(rng, PASSES), by_turns(rng, PASSES + 1), [LEAST, LEAST + 248, *MEAN[2:]], [*MEAN[:8], MOST - 167, MOST]]
    for lsps in rows:
        yield with_lsps(voiced(rng), lsps)
    yield from (ERASED, ERASED, voiced(rng))


def code_of(slots):
    """The position code of slots in their order."""
    code, wanted = 0, len(slots)
    for slot in range(slots[-1]):
        if slot in slots:
            wanted -= 1
        else:
            code += math.comb(SLOTS - 1 - slot, wanted - 1)
    return code


def met(rng):
    """Four pulses that a train brings to one sample, past 16 bits, on an adaptive part below 0."""
    yield low(MEAN, (42, 1, 42, 1), [(NO_TAPS, 9, [-12000] * SUB)] * SUBFRAMES)
    pulses = [(0, 9, 18, 27, 28, 29), (0, 9, 18, 27, 29)]
    yield high(MEAN, (0, 1, 0, 1), [([0, 0, 16384, 0, 0], GAIN_MOST, TRAIN, 0, code_of(pulses[s % 2])) for s in range(SUBFRAMES)])


def saturated(rng):
    """Taps, gains and values at their ends, and what is lost and received after them."""
    for tap in (MOST, LEAST):
        blocks = [([tap] * TAPS, GAIN_MOST, TRAIN * (s % 2) + 1, SIGNS_MOST[s], 0) for s in range(SUBFRAMES)]
        yield high(near_mean(rng, 2000), (0, 0, 0, STEP_MOST), blocks)
    rails = [(MOST, LEAST)[i // 7 % 2] for i in range(SUB)]
    yield low(near_mean(rng), (5, 0, 5, STEP_MOST), [([MOST, LEAST, MOST, LEAST, MOST], GAIN_MOST, rails)] * SUBFRAMES)
    yield low(near_mean(rng), (60, 1, 60, 1), [([0, 0, 16384, 0, 0], GAIN_MOST, rails)] * SUBFRAMES)
    yield from (ERASED, ERASED)
    yield from (voiced(rng), voiced(rng), ERASED)


def wild(rng):
    """Every free field at random over its whole range."""
    gains, codes = GAIN_MOST + 1, LAG_CODE_MOST + 1
    for _ in range(2):
        pulses = [(bits16(rng, TAPS), rng.randrange(gains), s % 2, rng.randrange(SIGNS_MOST[1] + 1), rng.randrange(1 << 24) >> 4 * s) for s in range(SUBFRAMES)]
        yield high(bits16(rng, LSPS), (rng.randrange(codes), 0, rng.randrange(codes), STEP_MOST), pulses)
        values = [(bits16(rng, TAPS), rng.randrange(gains), bits16(rng, SUB)) for _ in range(SUBFRAMES)]
        yield low(sorted(bits16(rng, LSPS)), (rng.randrange(codes), 2, rng.randrange(codes), 0), values)
        yield ERASED


def given_excitation(x, lag):
    """Two Low frames whose excitation ends in a signal of history and frame, the second at a base lag."""
    values = [0] * (FRAME - HIST) + x
    frames = [values[:FRAME], values[FRAME:]]
    for code, part in zip((42, lag_code(lag)), frames):
        yield low(MEAN, (code, 1, code, 1), [(NO_TAPS, 9, part[s * SUB :][:SUB]) for s in range(SUBFRAMES)])


def tie_is_heard(x, p, lag):
    """Floored quotients tie, and the samples at the two lags are below 0, where a small part counts, at other places."""
    if not signals.floors_tie_within(x, p, lag):
        return False
    best = signals.best(x, p, lag, False)
    quotient = best[1] ** 2 // best[2]
    first = next(a for a in signals.candidates(x, p, lag, False) if a[1] ** 2 // a[2] == quotient)
    return any((x[p + n - best[0]] < 0) != (x[p + n - first[0]] < 0) for n in range(SUB))


def placed(p, *places):
    """Samples of 1000 around a place, and none else."""
    x = [0] * ALL
    for place in places:
        x[p + place] = 1000
    return x


def ties(rng):
    """Excitation where lags tie by floored quotients alone, within a direction and between both, and exactly."""
    for test, made in ((tie_is_heard, signals.sparse), (signals.floors_tie_between, signals.repeating)):
        for _, lag, x in signals.searched(rng, test, made, 1):
            yield from given_excitation(x, lag)
    # Lags 62 and 64 have equal sums of samples at other places.
    yield from given_excitation(placed(HIST + SUB, 20, -42, -44), 63)


def gated(rng):
    """At the gate, at a period that a search with one more lag would find, and with a result of less energy."""
    # c and d are a sample's square, the energy four times it.
    yield from given_excitation(placed(HIST + SUB, 10, 20, 30, 40, -52), 63)
    yield from given_excitation(signals.periodic(rng, ALL, LONGEST_LAG + 4, 30, 6), LAST_BASE_LAG[1])
    x = [0] * ALL
    x[HIST : HIST + 7] = [100] + [10] * 6
    x[HIST - SUB : HIST - SUB + 7] = [3] + [-1] * 6
    yield from given_excitation(x, 60)


def off_centre(rng):
    """Losses after a period that is within three of subframe 2's lag, 48, and not of subframe 3's, 50."""
    x = signals.periodic(rng, ALL, 45, 900, 9)
    start, lag = HIST + 3 * SUB, 50
    first, second = given_excitation(x, 48)
    # With a tap in subframe 3, so that the loss is heard; the values make up for it.
    taken = [(12000 * x[start - lag + n % lag] + 8192) // 16384 for n in range(SUB)]
    second[field_place(LOW, AT_STEP_3)] = STEP_MOST
    second[block_place(LOW, 3) :] = words([0, 0, 12000, 0, 0]) + [9] + words(v - a for v, a in zip(x[start:], taken))
    return [first, second, ERASED, ERASED]


def indexed(rng):
    """An index after each kind, a loss, an index that was moved and one that gave way to the previous LSPs."""
    yield from (ERASED, voiced(rng, HIGH_INDEX), voiced(rng, HIGH_INDEX), ERASED, ERASED, voiced(rng, LOW_INDEX), voiced(rng, HIGH_INDEX))
    for rows in (MOVED_ROWS[0], GIVEN_WAY, (255, 255, 255), (0, 0, 0)):
        yield at_rows(rng, rows)
    yield from (voiced(rng), unvoiced(rng, HIGH_INDEX), ERASED)


def frames_calls(rng):
    records = [
        *[ERASED, silent(HIGH)],
        *lossy(rng, voiced, HIGH, 5, 5, 2),
        *lossy(rng, unvoiced, HIGH, 3, 4, 2),
        *lossy(rng, voiced, LOW, 3, 4, 1),
        *lossy(rng, unvoiced, LOW, 3, 2, 1),
        *[make(rng, kind) for make, kind in zip((voiced, unvoiced, voiced, voiced) * 2, (HIGH, LOW) * 4)],
        *trains(rng),
        *codes(rng),
        *unstable(rng),
        *[at_lag(rng, *lags) for lags in ENDS],
        *[ERASED, ERASED],
        *saturated(rng),
        *wild(rng),
        *lossy(rng, unvoiced, HIGH, 2, 1),
        *met(rng),
        *ties(rng),
        *gated(rng),
        *off_centre(rng),
        *[ERASED, silent(LOW), ERASED],
        *indexed(rng),
    ]
    return [text(record) for record in records]


# ---- the programs


def ended(make):
    return lambda rng: b"".join(line + b"\n" for line in make(rng))


def last_too_long(lines):
    """The last line has no newline, and a character too many."""
    return lambda rng: b"\n".join([*lines(rng), text(unvoiced(rng, LOW)) + b"0"])


def refused_as(number, record):
    """A line that gets a number, 3 to 11."""
    return b"0" if number == NOT_A_RECORD else text(wrong(number, record))


def frames_unended(rng):
    """Each number once, in descending order, and then a last line without a newline."""
    first, second, last = voiced(rng), voiced(rng), voiced(rng)
    refused = [refused_as(n, first) for n in range(NOT_A_RECORD, 2, -1)]
    return b"\n".join([text(first), text(second), b"00", *refused, text(last)])


PROGRAMS = {
    "frames": lambda rng: b"00\n09\n\n",
    "frames_empty": lambda rng: b"",
    "frames_unended": frames_unended,
    "frames_text": last_too_long(frames_text),
    "frames_refused": ended(frames_refused),
    "frames_calls": ended(frames_calls),
}


def main():
    sys.stdout.buffer.write(PROGRAMS[sys.argv[1]](random.Random(7231)))


if __name__ == "__main__":
    main()
