"""Questions on voicing and on the noise word (tests/questions.py prints them)."""
from places import LAST_BASE_LAG, LONGEST_LAG, RUN_MOST, SHORTEST_LAG, TAIL
from signals import bits16, periodic, rails

# Ranks are in parts of 2^30. In parts of 2^150 their order is exact: their denominators are below 2^74.
RANKED, EXACT = 30, 150


# ---- to choose questions by; the answers are the oracle's


def sums(pcm, lag):
    """c, e and t of a lag: the products, and the squares of the earlier and of the later samples."""
    pairs = list(zip(pcm[lag:], pcm))
    return sum(x * y for x, y in pairs), sum(y * y for _, y in pairs), sum(x * x for x, _ in pairs)


def leader(pcm, centre, bits):
    """The lag that ranks first in parts of 2^bits."""
    best, found = -1, None
    for d in range(-3, 4):
        lag = min(max(centre + d, SHORTEST_LAG), LONGEST_LAG)
        c, e, t = sums(pcm, lag)
        if c > 0 and (c * c << bits) // (e * t) > best:
            best, found = (c * c << bits) // (e * t), lag
    return found


def ranked_otherwise(bits):
    """Ranks in parts of 2^bits have another leader."""
    return lambda pcm, centre: leader(pcm, centre, bits) != leader(pcm, centre, RANKED)


def at_gate(least):
    """The leader has 8 c² = e t, and not below a least."""

    def test(pcm, centre):
        c, e, t = sums(pcm, leader(pcm, centre, RANKED) or TAIL)
        return c > 0 and 8 * c * c == e * t >= least

    return test


def level(size, step):
    """A level with small steps."""
    return lambda rng, centre: [size + rng.randrange(-step, step + 1) for _ in range(TAIL)]


def searched(rng, made, test, centres=(SHORTEST_LAG + 3, 100)):
    """A centre of a range, and a signal made for it, that meet a test."""
    while True:
        centre = rng.randrange(*centres)
        pcm = made(rng, centre)
        if test(pcm, centre):
            return centre, pcm


# ---- the questions


def voicing(ask, rng):
    """Centres inside and outside their bounds; signals with and without a period, ties of the rank, and the gate itself."""

    def classify(centre, pcm):
        ask("classify_erasure_voicing", centre, *pcm)

    # Lags from TAIL on have no product.
    least = [0, SHORTEST_LAG - 3, SHORTEST_LAG - 1, SHORTEST_LAG, 20, SHORTEST_LAG + 3, SHORTEST_LAG + 4, 60, 100]
    most = [LONGEST_LAG - 3, LONGEST_LAG, LAST_BASE_LAG[1], 200, 255]
    for centre in least + [TAIL + off for off in (-5, -4, -3, -1, 0, 2, 3)] + most:
        classify(centre, bits16(rng, TAIL))
        classify(centre, periodic(rng, TAIL, min(max(centre, SHORTEST_LAG), TAIL - 1), 5000, 300))
    for lag in (SHORTEST_LAG, SHORTEST_LAG + 1, 25, 40, 57, 60, 61, 90, TAIL - 4, TAIL - 3, TAIL - 2, TAIL - 1):
        for off in (-4, -3, 0, 3, 4):
            classify(lag + off, periodic(rng, TAIL, lag, 900, 40))
    for pcm in rails(rng, TAIL) + [[0] * TAIL, [1] * TAIL, [0] * (TAIL - 1) + [9], [5] + [0] * (TAIL - 1)]:
        classify(rng.choice((SHORTEST_LAG, 40, 60, TAIL - 1)), pcm)
    # A period of 1 or 2 ranks lags alike: the first of equals wins.
    for centre in (SHORTEST_LAG, SHORTEST_LAG + 1, 50, TAIL - 2, LONGEST_LAG):
        classify(centre, [3, -3] * (TAIL // 2))
        classify(centre, [3] * TAIL)
    # One product: c² is e t times a rank that other lags share, and at 8 c² = e t and around it.
    for extra in (6, 7, 8, 9, 10):
        pcm = [0] * TAIL
        pcm[10], pcm[70] = 1, 1
        for k in range(extra - 1):
            pcm[71 + k] = 1
        classify(60, pcm)
    for _ in range(12):
        pcm = [0] * TAIL
        for _ in range(rng.randrange(2, 9)):
            pcm[rng.randrange(TAIL)] = rng.randrange(-3, 4)
        classify(rng.randrange(SHORTEST_LAG, TAIL), pcm)
    # Ranks so close that their scale decides.
    for step, bits in ((60, 24), (60, 28), (3, 34), (3, 40)):
        for _ in range(3):
            classify(*searched(rng, level(30000, step), ranked_otherwise(bits)))
    for run in (0, 1, 2, 3, 4, 2**31, RUN_MOST - 1, RUN_MOST):
        ask("noise_start", run)
