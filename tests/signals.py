"""Signals and questions for excitation, synthesis and the two postfilters (tests/questions.py prints them).

Signals are random at several sizes, silent, saturated, and periodic at lags near both limits. The pitch postfilter is also
asked where lags tie exactly, where they tie by floored quotients alone, within a direction and between both, at its gate, and
where the best lag lies in the history, across its edge and after the subframe.
"""
from places import FRAME, GAIN, GAIN_MOST, HIGH, HIST, LAST_BASE_LAG, LAST_LAG, LEAST, LONGEST_LAG, LOW, LSPS, MOST, SHORTEST_LAG, SUB, SUBFRAMES, TAPS, TRAIN_LAG

ALL = HIST + FRAME
# The formant memory, and the tilt's two numbers.
MEMORY = 2 * LSPS + 2
# Lags beyond both limits, and at them.
LAGS = [-(2**31), -1, 0, SHORTEST_LAG - 1, SHORTEST_LAG, SHORTEST_LAG + 1, 20, TRAIN_LAG - 1, SUB - 1, SUB, SUB + 1, 62, 63]
LAGS += [2 * SUB - 1, LONGEST_LAG - 1, LONGEST_LAG, LONGEST_LAG + 1, LAST_BASE_LAG[1], LAST_LAG[1], 2**31 - 1]
NEAR = list(range(SHORTEST_LAG - 2, SHORTEST_LAG + 6)) + list(range(LONGEST_LAG - 5, LONGEST_LAG + 4))


def noise(rng, n, size):
    return [rng.randrange(-size, size + 1) for _ in range(n)]


def bits16(rng, n):
    return [rng.randrange(LEAST, MOST + 1) for _ in range(n)]


def periodic(rng, n, lag, size, error=0):
    """Noise that repeats after a lag, with an error in each sample."""
    one = noise(rng, lag, size)
    return [max(LEAST, min(MOST, one[i % lag] + rng.randrange(-error, error + 1))) for i in range(n)]


def rails(rng, n):
    """The least, the most, both in turn, and both at random."""
    return [[LEAST] * n, [MOST] * n, [(LEAST, MOST)[i % 2] for i in range(n)], [rng.choice((LEAST, MOST)) for _ in range(n)]]


def excitation(ask, rng):
    taps = [[0] * TAPS, [16384, 0, 0, 0, 0], [0, 0, 16384, 0, 0], [0, 0, 0, 0, 16384], [1, -1, 1, -1, 1], *rails(rng, TAPS)]
    numbered = list(range(1, HIST + 1))
    for lag in LAGS + NEAR:
        ask("acb_contribution", lag, *rng.choice(taps[1:4]), *numbered)
        ask("acb_contribution", lag, *bits16(rng, TAPS), *bits16(rng, HIST))
    for t in taps:
        ask("acb_contribution", SHORTEST_LAG, *t, *numbered)
        for hist in rails(rng, HIST):
            ask("acb_contribution", rng.choice(NEAR), *t, *hist)
    ask("acb_contribution", 60, *taps[4], *[0] * HIST)
    # At halves, above and below 0.
    for near in (8191, 8192, 8193, -8191, -8192, -8193):
        ask("acb_contribution", SHORTEST_LAG, 0, 0, near, 0, 0, *[1] * HIST)
        ask("acb_contribution", LONGEST_LAG + 1, near, 0, 0, 0, 0, *[(i % 3) - 1 for i in range(HIST)])
    for _ in range(30):
        ask("acb_contribution", rng.randrange(SHORTEST_LAG - 1, LONGEST_LAG + 2), *noise(rng, TAPS, 20000), *noise(rng, HIST, 300))
    wide = [2**31 - 1, -(2**31), 40000, -40000, MOST + 1, LEAST - 1]
    for s in range(SUBFRAMES):
        for lag in (SHORTEST_LAG, 60, LONGEST_LAG) + tuple(rng.sample(NEAR, 2)):
            ask("excitation_subframe", s, lag, *noise(rng, TAPS, 9000), *noise(rng, SUB, 3000), *noise(rng, HIST, 900))
        ask("excitation_subframe", s, 40, *noise(rng, TAPS, 9000), *[rng.choice(wide) for _ in range(SUB)], *bits16(rng, HIST))
        ask("excitation_subframe", s, SHORTEST_LAG, *rails(rng, TAPS)[s], *[(MOST, LEAST)[s % 2]] * SUB, *rails(rng, HIST)[3])
        ask("excitation_subframe", s, 60, *[0] * TAPS, *[0] * SUB, *numbered)
    gains = GAIN_MOST + 1
    for t in taps + [bits16(rng, TAPS) for _ in range(20)] + [[8191, 8192, 0, 0, 0], [8192, 8192, 0, 0, 0], [-1, 0, 0, 0, 0], [1, 0, 0, 0, 0]]:
        ask("record_last_frame", *t, rng.randrange(gains), rng.randrange(gains))
    for i in range(gains):
        ask("record_last_frame", *[0] * TAPS, i, GAIN_MOST - i)


def synthesis(ask, rng):
    rest = [0] * (LSPS - 1)
    a = [[0] * LSPS, [8191] + rest, [-8192] + rest, rest + [8192], *rails(rng, LSPS)]
    for c in a:
        for mem in [[0] * LSPS, list(range(1, LSPS + 1)), rails(rng, LSPS)[3]]:
            ask("synthesis_subframe", *c, *noise(rng, SUB, 400), *mem)
    for x in [[0] * SUB, [2**31 - 1] * SUB, [-(2**31)] * SUB, [40960, -40961] * 30, *rails(rng, SUB)]:
        ask("synthesis_subframe", *noise(rng, LSPS, 9000), *x, *bits16(rng, LSPS))
        ask("synthesis_subframe", *[0] * LSPS, *x, *bits16(rng, LSPS))
    # At halves, above and below 0.
    for near in (4095, 4096, 4097, -4095, -4096, -4097):
        ask("synthesis_subframe", 0, near, *[0] * (LSPS - 2), *[1] + [0] * (SUB - 1), *[1] * LSPS)
    for k in range(LSPS):
        ask("synthesis_subframe", *[8192 if j == k else 0 for j in range(LSPS)], *[0] * SUB, *list(range(101, 101 + LSPS)))
    for _ in range(60):
        ask("synthesis_subframe", *noise(rng, LSPS, rng.choice((900, 4000, 12000))), *noise(rng, SUB, 2000), *noise(rng, LSPS, 8000))
    for _ in range(20):
        ask("synthesis_subframe", *bits16(rng, LSPS), *noise(rng, SUB, 2**17), *bits16(rng, LSPS))


def formant(ask, rng):
    fresh = [0] * MEMORY + [4096]
    gains = [0, 1, 15, 16, 17, 4095, 4096, 4097, 65536, GAIN[1] - 1, GAIN[1]]

    def memory(size):
        return noise(rng, MEMORY, size) + [rng.choice(gains)]

    for y in [[0] * SUB, *rails(rng, SUB), [1] * SUB, [(1, -1)[i % 2] for i in range(SUB)], [1] + [0] * (SUB - 1), [0] * (SUB - 1) + [1]]:
        for a in ([0] * LSPS, noise(rng, LSPS, 9000)):
            ask("formant_agc_subframe", *a, *y, *fresh)
            ask("formant_agc_subframe", *a, *y, *memory(20000))
    for g in gains:
        ask("formant_agc_subframe", *[0] * LSPS, *noise(rng, SUB, 3), *[0] * MEMORY, g)
        ask("formant_agc_subframe", *noise(rng, LSPS, 3000), *noise(rng, SUB, 900), *noise(rng, MEMORY, 900), g)
    # Coefficients and memories at their ends, and gains outside number 2's bounds.
    for a in rails(rng, LSPS):
        ask("formant_agc_subframe", *a, *bits16(rng, SUB), *bits16(rng, MEMORY), 4096)
    for g in (-1, -16, -(2**30), GAIN[1] - (2**31 - 1), GAIN[1] + 1, 2**31 - 1):
        ask("formant_agc_subframe", *noise(rng, LSPS, 3000), *noise(rng, SUB, 900), *noise(rng, MEMORY, 900), g)
    # A first coefficient whose zero cancels a constant: the filter's energy is 1, and the target at its limit.
    for end in (MOST - 2, MOST - 1, MOST):
        for g in (0, 4096, GAIN[1]):
            ask("formant_agc_subframe", 12604, *[0] * (LSPS - 1), *[MOST] * (SUB - 1), end, *[MOST] * LSPS, *[0] * (MEMORY - LSPS), g)
    # Tilts below 0 whose quotient and shifts have a rest.
    for k1 in (LEAST, -3, -2, -1, 0, 1, 2, 3, MOST):
        for prev in (-7, 7):
            ask("formant_agc_subframe", *[0] * LSPS, *noise(rng, SUB, 4), *[0] * (2 * LSPS), prev, k1, 4096)
            ask("formant_agc_subframe", *[0] * LSPS, *[rng.choice((-1, 1)) * 100 for _ in range(SUB)], *[0] * (2 * LSPS), prev, k1, 4096)
    for _ in range(50):
        size = rng.choice((30, 900, 9000))
        ask("formant_agc_subframe", *noise(rng, LSPS, rng.choice((900, 6000))), *noise(rng, SUB, size), *memory(size))
    for _ in range(10):
        ask("formant_agc_subframe", *bits16(rng, LSPS), *bits16(rng, SUB), *bits16(rng, MEMORY), rng.randrange(GAIN[1] + 1))


# ---- the pitch postfilter


def sums(x, p, m, forward):
    """Correlation and energy of a lag, or none where its samples leave the frame."""
    q = p + m if forward else p - m
    if q + SUB > ALL:
        return None
    return sum(x[p + n] * x[q + n] for n in range(SUB)), sum(x[q + n] ** 2 for n in range(SUB))


def candidates(x, p, lag, forward):
    """Lags that count with their sums, in their order."""
    centre = max(SHORTEST_LAG, min(LONGEST_LAG, lag))
    found = [(m, sums(x, p, m, forward)) for m in range(centre - 3, centre + 4)]
    return [(m, *s) for m, s in found if s and s[0] > 0 and s[1] > 0]


def best(x, p, lag, forward):
    """The first lag that none exceeds."""
    found = candidates(x, p, lag, forward)
    return next((a for a in found if not any(b[1] ** 2 * a[2] > a[1] ** 2 * b[2] for b in found)), None)


def passes_gate(x, p, found):
    return 4 * found[1] ** 2 >= found[2] * sum(v * v for v in x[p : p + SUB])


def floors_tie_within(x, p, lag):
    """In the direction that wins, an earlier lag has the best one's floored quotient."""
    b, f = best(x, p, lag, False), best(x, p, lag, True)
    if not b or (f and f[1] ** 2 // f[2] >= b[1] ** 2 // b[2]) or not passes_gate(x, p, b):
        return False
    first = next(a for a in candidates(x, p, lag, False) if a[1] ** 2 // a[2] == b[1] ** 2 // b[2])
    return first[0] != b[0]


def floors_tie_between(x, p, lag):
    """The backward lag is better, but not by floored quotients."""
    b, f = best(x, p, lag, False), best(x, p, lag, True)
    if not b or not f or not passes_gate(x, p, f) or not passes_gate(x, p, b):
        return False
    return b[1] ** 2 * f[2] > f[1] ** 2 * b[2] and b[1] ** 2 // b[2] == f[1] ** 2 // f[2]


def impulses(p, first, second, edge, forward):
    """A subframe of one sample, which the lags 62 and 64 meet with those two; `edge` adds to the energy of the first alone."""
    x = [0] * ALL
    here = p + SUB - 1 if forward else p
    to = 1 if forward else -1
    for place, size in ((0, 1), (62, first), (64, second), (62 - SUB + 1, edge)):
        x[here + to * place] = 1000 * size
    return x


def at_gate(x, p, lag):
    """The chosen lag meets the gate exactly."""
    b, f = best(x, p, lag, False), best(x, p, lag, True)
    found = f if f and (not b or f[1] ** 2 // f[2] >= b[1] ** 2 // b[2]) else b
    return found and 4 * found[1] ** 2 == found[2] * sum(v * v for v in x[p : p + SUB])


def sparse(rng, lag):
    """A few small samples, so that quotients are small."""
    part = rng.choice((0.05, 0.1, 0.2))
    return [rng.choice((1, 1, 1, 2, -1)) if rng.random() < part else 0 for _ in range(ALL)]


def repeating(rng, lag):
    return periodic(rng, ALL, lag, 2, 1)


def searched(rng, test, made, count):
    """Places, lags and signals that meet a test."""
    found = []
    while len(found) < count:
        s, lag = rng.randrange(SUBFRAMES - 1), rng.choice((SHORTEST_LAG, SHORTEST_LAG + 1, 25, 40, TRAIN_LAG - 1, 60))
        x = made(rng, lag)
        if test(x, HIST + s * SUB, lag):
            found.append((s, lag, x))
    return found


def pitch(ask, rng):
    def at(s, lag, x, kind=None):
        ask("pitch_postfilter", kind or rng.choice((HIGH, LOW)), s * SUB, lag, *x)

    # Random, silent and saturated.
    for lag in LAGS:
        at(rng.randrange(SUBFRAMES), lag, noise(rng, ALL, 500))
    for s in range(SUBFRAMES):
        at(s, 60, [0] * ALL)
        at(s, 60, [0 if HIST + s * SUB <= i < HIST + s * SUB + SUB else 5 for i in range(ALL)])
        at(s, 60, [5 if HIST + s * SUB <= i < HIST + s * SUB + SUB else 0 for i in range(ALL)])
        for x in rails(rng, ALL):
            at(s, rng.choice((SHORTEST_LAG, 60, LONGEST_LAG)), x)
        at(s, rng.choice(LAGS), bits16(rng, ALL))
    # Periodic at every lag near both limits, asked at the lag, and at three before or after it; both kinds.
    for lag in NEAR:
        for s in (0, 3):
            at(s, lag, periodic(rng, ALL, lag, 9, 2), (HIGH, LOW)[s % 2])
        at(rng.randrange(SUBFRAMES), lag + rng.choice((-3, 3)), periodic(rng, ALL, lag, 9, 2))
        at(rng.randrange(SUBFRAMES), lag, periodic(rng, ALL, lag, 3000, 500))
    # The best lag in the history, across its edge, and after the subframe.
    for s, lag in ((0, 60), (0, 100), (0, LONGEST_LAG), (1, 2 * SUB + 1), (0, 30), (1, 62), (1, 2 * SUB - 1), (2, 140), (0, SHORTEST_LAG), (1, SUB - 1), (2, 20), (2, SUB), (2, 57)):
        at(s, lag, periodic(rng, ALL, lag, 60, 12))
        x = periodic(rng, ALL, lag, 60, 12)
        p = HIST + s * SUB
        at(s, lag, [v if i < p + SUB else 0 for i, v in enumerate(x)])
        at(s, lag, [v if i >= p else 0 for i, v in enumerate(x)])
    # A lag after the subframe alone: the last that stays in the frame, and the first that leaves it.
    for s, lag in ((1, 2 * SUB), (1, 2 * SUB + 1), (2, SUB), (2, SUB + 1)):
        p = HIST + s * SUB
        for centre in (lag - 3, lag, lag + 3):
            x = periodic(rng, ALL, lag, 900, 90)
            at(s, centre, [v if i >= p else 0 for i, v in enumerate(x)])
    # Equal candidates: constant, and of periods that two lags of seven share.
    for period in (1, 2, 3, 4, 5, 6):
        one = [rng.randrange(1, 9) for _ in range(period)]
        for s in (0, 2, 3):
            at(s, rng.choice((SHORTEST_LAG, 60, 90)), [one[i % period] for i in range(ALL)])
    # Equal both ways: mirrored at the subframe's middle.
    for s in (1, 2):
        middle = 2 * (HIST + s * SUB) + SUB - 1
        for lag in (SHORTEST_LAG, 40, 57):
            x = periodic(rng, ALL, lag, 7, 1)
            at(s, lag, [x[middle - i] if 0 <= middle - i < i else v for i, v in enumerate(x)])
    cases = [(floors_tie_within, sparse), (floors_tie_between, repeating), (at_gate, sparse)]
    for test, made in cases:
        for s, lag, x in searched(rng, test, made, 6):
            at(s, lag, x, HIGH)
            at(s, lag, x, LOW)
    # Two lags with equal c²/d and other sums, and one with a larger c that loses.
    for first, second, edge in ((2, 4, 1), (2, 1, 4), (6, 12, 3), (1, 2, 0)):
        for forward in (False, True):
            at(1, 63, impulses(HIST + SUB, first, second, edge, forward), HIGH)
            at(1, 63, impulses(HIST + SUB, first, second, edge, forward), LOW)
    # Periods that a search with one more lag would find, beyond both limits, and those at the ends of this one.
    for period in (SHORTEST_LAG - 4, SHORTEST_LAG - 3, SHORTEST_LAG + 3, SHORTEST_LAG + 4, LONGEST_LAG + 3, LONGEST_LAG + 4):
        for lag in (0, SHORTEST_LAG - 1, SHORTEST_LAG) if period < 60 else (LONGEST_LAG, LONGEST_LAG + 1, LAST_BASE_LAG[1], LAST_LAG[1]):
            at(0, lag, periodic(rng, ALL, period, 30, 6))
    # Results of less energy than the subframe, and past 16 bits.
    for loud, quiet, first, rest in ((100, 10, 3, -1), (3000, 300, 90, -30), (30000, 3000, 900, -300)):
        x = [0] * ALL
        x[HIST : HIST + 7] = [loud] + [quiet] * 6
        x[HIST - SUB : HIST - SUB + 7] = [first] + [rest] * 6
        at(0, 60, x, HIGH)
        at(0, 60, x, LOW)
    for size in (MOST, -MOST):
        x = [0] * ALL
        x[HIST : HIST + 4] = [size, size, -size, size]
        x[HIST - SUB] = size
        at(0, 60, x, HIGH)
        at(0, 60, x, LOW)
    # A lag whose samples are larger or smaller than the subframe: the gain at its limit, and below it.
    for scale, s in ((1, 1), (2, 1), (3, 1), (1, 2), (1, 3)):
        x = periodic(rng, ALL, 40, 8)
        p = HIST + SUB
        at(1, 40, [v * (scale if p <= i < p + SUB else s) for i, v in enumerate(x)])
