/*
 * A decoder to be compared with the others. It is separate code, in another arrangement; its arithmetic is that of
 * documents 01 and 02 and, where these only name a function, of the Rust, so that a mistake in the Rust is repeated
 * here. All numbers are wide integers; a limit is applied where a document or the Rust has one that can act. Signals
 * are arrays over time: the past that the state holds, then the frame.
 */
#include "choose.h"
#include "decoder.h"
#include "tables.h"

typedef __int128 wide;

/* One frame: signals over time, the numbers of the state that it reads or changes, and the outcome of its LSPs. */
struct frame {
    int64_t old_lsp[LSPS];
    int64_t lsp[LSPS];
    int64_t lpc[SUBFRAMES][LSPS];
    int64_t excitation[PAST + FRAME];
    int64_t drive[FRAME];
    int64_t synthesis[LSPS + FRAME];
    int64_t zeros[LSPS + FRAME];
    int64_t poles[LSPS + FRAME];
    int64_t untilted[1 + FRAME];
    int64_t tilted[FRAME];
    int64_t output[FRAME];
    int64_t tail[TAIL];
    int64_t tilt;
    int64_t gain;
    int64_t lag;
    int64_t base_lag;
    int64_t tap_sum;
    int64_t unvoiced_gain;
    int64_t run;
    int64_t postfilter;
    int outcome;
};

/* A lag and its two sums; distance 0 is no lag. */
struct match {
    int64_t distance;
    int64_t c;
    int64_t d;
};

/* "Operators": the nearest number of lo..hi. */
static int64_t limit(int64_t lo, int64_t hi, int64_t x)
{
    if (x < lo)
        return lo;
    if (x > hi)
        return hi;
    return x;
}

/* "Operators": the limit of 16 bits. */
static int64_t limit16(int64_t x)
{
    return limit(LEAST, MOST, x);
}

/* "Operators": the floor of a quotient, for a divisor above 0. */
static inline int64_t floor_div(int64_t x, int64_t by)
{
    int64_t truncated = x / by;
    return x % by < 0 ? truncated - 1 : truncated;
}

/* "Operators": the floor of the root, for x below 2^62. */
static int64_t root(int64_t x)
{
    int64_t r = 0;
    for (int64_t step = 1LL << 30; step > 0; step /= 2)
        if ((r + step) * (r + step) <= x)
            r += step;
    return r;
}

/* "The record": a 16-bit value, two's complement. */
static int64_t word(const unsigned char *bytes)
{
    int64_t value = bytes[0] * 256 + bytes[1];
    return value < 32768 ? value : value - 65536;
}

/* Document 02, E1: kind 3 is kind 1, which is High. */
static int is_high(int kind)
{
    return kind == HIGH || kind == HIGH_INDEX;
}

/* Document 02, E1: kinds 3 and 4 have an index in place of the LSPs. */
static int has_index(int kind)
{
    return kind == HIGH_INDEX || kind == LOW_INDEX;
}

/* "The record" and document 02, E1: the length of a head. */
static int64_t head_length(int kind)
{
    return has_index(kind) ? INDEX_HEAD : LSP_HEAD;
}

/* "The record": the length of a block. */
static int64_t block_length(int kind)
{
    return is_high(kind) ? HIGH_BLOCK : LOW_BLOCK;
}

/* "The record": the length of a record. */
static size_t record_length(int kind)
{
    if (kind == ERASED)
        return 1;
    return (size_t)(head_length(kind) + FIELD_BLOCKS + SUBFRAMES * block_length(kind));
}

/* "The record" and document 02, E1: lags, steps and blocks, which stand alike after either head. */
static const unsigned char *fields_of(const unsigned char *record)
{
    return record + head_length(record[0]);
}

/* "The record": the block of a subframe. */
static const unsigned char *block_of(const unsigned char *record, int s)
{
    return fields_of(record) + FIELD_BLOCKS + s * block_length(record[0]);
}

/* "The record": the base lag of a subframe. */
static int64_t base_lag_of(const unsigned char *record, int s)
{
    int code_at = s < 2 ? FIELD_LAG_A : FIELD_LAG_B;
    return fields_of(record)[code_at] + FIRST_LAG;
}

/* "The record": a subframe's own lag. */
static int64_t lag_of(const unsigned char *record, int s)
{
    if (s == 1)
        return base_lag_of(record, s) + STEP[fields_of(record)[FIELD_STEP_1]];
    if (s == 3)
        return base_lag_of(record, s) + STEP[fields_of(record)[FIELD_STEP_3]];
    return base_lag_of(record, s);
}

/* "The ten numbers", 2: whether so many numbers of the state are in lo..hi. */
static int within(const int64_t *state, int at, int count, int64_t lo, int64_t hi)
{
    for (int i = at; i < at + count; i++)
        if (state[i] < lo || state[i] > hi)
            return 0;
    return 1;
}

/* "The ten numbers", 2: the bounds of the state. */
static int state_in_bounds(const int64_t *state)
{
    int good = 1;
    good &= within(state, AT_EXCITATION, PAST, LEAST, MOST);
    good &= within(state, AT_SYNTHESIS, LSPS, LEAST, MOST);
    good &= within(state, AT_GAIN, 1, 0, MOST_GAIN);
    good &= within(state, AT_LAG, 1, LEAST_LAST_LAG, MOST_LAST_LAG);
    good &= within(state, AT_BASE_LAG, 1, LEAST_BASE_LAG, MOST_BASE_LAG);
    good &= within(state, AT_TAP_SUM, 1, 0, MOST_TAP_SUM);
    good &= within(state, AT_UNVOICED_GAIN, 1, 0, MOST_UNVOICED_GAIN);
    return good;
}

/* "The ten numbers", 8: a gain index that has no gain. */
static int gain_refused(const unsigned char *record, int s)
{
    return block_of(record, s)[BLOCK_GAIN] > MOST_GAIN_INDEX;
}

/* "The ten numbers", 9: flags that do not exist, or train with a long base lag. */
static int flags_refused(const unsigned char *record, int s)
{
    int flags = block_of(record, s)[BLOCK_FLAGS];
    if (flags > MOST_FLAGS)
        return 1;
    return flags >= 2 && base_lag_of(record, s) >= LONG_BASE_LAG;
}

/* "The ten numbers", 10: a sign without a pulse. */
static int signs_refused(const unsigned char *record, int s)
{
    return block_of(record, s)[BLOCK_SIGNS] >= 1 << PULSES[s];
}

/* "The ten numbers": a number is tested over all subframes. */
static int any_subframe(const unsigned char *record, int (*refused)(const unsigned char *, int))
{
    for (int s = 0; s < SUBFRAMES; s++)
        if (refused(record, s))
            return 1;
    return 0;
}

/* "The ten numbers", 6 to 10: those of a received record of the right length. */
static int received_refusal(const unsigned char *record)
{
    const unsigned char *fields = fields_of(record);
    if (fields[FIELD_LAG_A] > MOST_LAG_CODE || fields[FIELD_LAG_B] > MOST_LAG_CODE)
        return 6;
    if (fields[FIELD_STEP_1] > MOST_STEP || fields[FIELD_STEP_3] > MOST_STEP)
        return 7;
    if (any_subframe(record, gain_refused))
        return 8;
    if (!is_high(record[0]))
        return 0;
    if (any_subframe(record, flags_refused))
        return 9;
    if (any_subframe(record, signs_refused))
        return 10;
    return 0;
}

/* "The ten numbers": the first that applies, or 0. */
static int refusal(const int64_t *state, const unsigned char *record, size_t length, size_t count)
{
    if (count != FRAME)
        return 1;
    if (!state_in_bounds(state))
        return 2;
    if (length == 0)
        return 3;
    if (record[0] > MOST_KIND)
        return 4;
    if (length != record_length(record[0]))
        return 5;
    return record[0] == ERASED ? 0 : received_refusal(record);
}

/* "LSPs": one pass over the pairs; whether one moved. */
static int spread_pairs(int64_t lsp[LSPS], int64_t minimum)
{
    int moved = 0;
    for (int i = 0; i + 1 < LSPS; i++) {
        if (lsp[i + 1] - lsp[i] >= minimum)
            continue;
        int64_t middle = floor_div(lsp[i] + lsp[i + 1], 2);
        lsp[i] = limit16(middle - minimum / 2);
        lsp[i + 1] = limit16(middle + minimum / 2);
        moved = 1;
    }
    return moved;
}

/* "LSPs": all gaps are tested after the passes. */
static int gaps_kept(const int64_t lsp[LSPS], int64_t minimum)
{
    for (int i = 1; i < LSPS; i++)
        if (lsp[i] - lsp[i - 1] < minimum)
            return 0;
    return 1;
}

/*
 * "LSPs" and document 02, E2: the candidates in f->lsp are stabilised, or give way to the previous LSPs. They are
 * untouched where the first pass moves nothing.
 */
static void settle_lsps(struct frame *f, int64_t minimum)
{
    int pass = 0;
    while (pass < PASSES && spread_pairs(f->lsp, minimum))
        pass++;
    f->outcome = pass == 0 ? UNTOUCHED : MOVED;
    if (gaps_kept(f->lsp, minimum))
        return;
    f->outcome = PREVIOUS;
    for (int i = 0; i < LSPS; i++)
        f->lsp[i] = f->old_lsp[i];
}

/* "LSPs": cos_q14. */
static int64_t cosine(int64_t frequency)
{
    int64_t angle = frequency < 0 ? 0 : frequency;
    int64_t from = COSINE[angle / 128];
    int64_t to = COSINE[angle / 128 + 1];
    return from + floor_div((to - from) * (angle % 128), 128);
}

/* "LSPs", frame_lpc_q13: the product over every second LSP of 1 - 2 cos z + z^2, in 2^24ths, each product floored. */
static void expand(const int64_t lsp[LSPS], int first, int64_t product[LSPS + 1])
{
    for (int i = 0; i <= LSPS; i++)
        product[i] = i == 0 ? 1 << 24 : 0;
    for (int k = first; k < LSPS; k += 2) {
        int64_t c = cosine(lsp[k]);
        int64_t before[LSPS + 3] = {0};
        for (int i = 0; i <= LSPS; i++)
            before[i + 2] = product[i];
        for (int i = 0; i <= LSPS; i++)
            product[i] = before[i + 2] - floor_div(before[i + 1] * c, 8192) + before[i];
    }
}

/* "LSPs", frame_lpc_q13: the ten coefficients of one subframe. */
static void lsp_to_lpc(const int64_t lsp[LSPS], int64_t lpc[LSPS])
{
    int64_t p[LSPS + 1];
    int64_t q[LSPS + 1];
    expand(lsp, 0, p);
    expand(lsp, 1, q);
    for (int j = 1; j <= LSPS; j++) {
        int64_t twice = p[j] + p[j - 1] + q[j] - q[j - 1];
        int64_t negated = -floor_div(twice, 2);
        lpc[j - 1] = limit16(floor_div(negated + 1024, 2048));
    }
}

/* "LSPs": the interpolated LSPs of the four subframes, as coefficients. */
static void interpolate(struct frame *f)
{
    for (int s = 0; s < SUBFRAMES; s++) {
        int64_t lsp[LSPS];
        for (int i = 0; i < LSPS; i++) {
            int64_t quarters = PREVIOUS_QUARTERS[s] * f->old_lsp[i] + CURRENT_QUARTERS[s] * f->lsp[i];
            lsp[i] = floor_div(quarters + 2, 4);
        }
        lsp_to_lpc(lsp, f->lpc[s]);
    }
}

/* "LSPs" and document 02, E1: the mean, and a share of the previous LSP's distance from it, which is limited first. */
static int64_t predicted(const struct frame *f, int i, int64_t share)
{
    int64_t distance = limit16(f->old_lsp[i] - MEAN_LSP[i]);
    return MEAN_LSP[i] + floor_div(distance * share, 32768);
}

/* "LSPs", lsp_extrapolate: the candidates of an erased frame. */
static void extrapolate(struct frame *f)
{
    for (int i = 0; i < LSPS; i++)
        f->lsp[i] = predicted(f, i, 23552);
}

/* Document 02, E1: an LSP's entry in the rows that the three bytes of an index pick. */
static int64_t entry(const unsigned char *index, int i)
{
    if (i < BAND_0)
        return CODEBOOK_0[index[0]][i];
    if (i < BAND_0 + BAND_1)
        return CODEBOOK_1[index[1]][i - BAND_0];
    return CODEBOOK_2[index[2]][i - BAND_0 - BAND_1];
}

/* "The record" and, from an index by lsp_decode, document 02, E1: the candidates of a received frame. */
static void take_candidates(struct frame *f, const unsigned char *record)
{
    for (int i = 0; i < LSPS; i++) {
        if (has_index(record[0]))
            f->lsp[i] = predicted(f, i, 12288) + entry(record + BYTE_INDEX, i);
        else
            f->lsp[i] = word(record + BYTE_LSP + 2 * i);
    }
}

/* "Pulses": the slots of a code; 0 if it has none. */
static int unpack_slots(int64_t code, int64_t pulses, int64_t slots[MOST_PULSES])
{
    int64_t codes = pulses == MOST_PULSES ? CODES_OF_SIX : CODES_OF_FIVE;
    if (code >= codes)
        return 0;
    int64_t wanted = pulses;
    for (int64_t slot = 0; slot < SLOTS && wanted > 0; slot++) {
        int64_t weight = choose(SLOTS - 1 - slot, wanted - 1);
        if (code < weight) {
            slots[pulses - wanted] = slot;
            wanted--;
        } else {
            code -= weight;
        }
    }
    return 1;
}

/* "Pulses": a gain index as the doubled gain. */
static int64_t doubled_gain(const unsigned char *block)
{
    return 2 * FIXED_GAIN[block[BLOCK_GAIN]];
}

/* "Pulses": the vector of a High block, summed over pulses and multiples of the base lag. */
static void pulse_vector(const unsigned char *block, int64_t pulses, int64_t base_lag, int64_t vector[SUBFRAME])
{
    int64_t slots[MOST_PULSES] = {0};
    int64_t code = block[BLOCK_CODE] * 65536 + block[BLOCK_CODE + 1] * 256 + block[BLOCK_CODE + 2];
    if (!unpack_slots(code, pulses, slots))
        return;
    int64_t grid = block[BLOCK_FLAGS] % 2;
    int64_t train = block[BLOCK_FLAGS] / 2;
    int64_t last_multiple = train ? (SUBFRAME - 1) / base_lag : 0;
    for (int64_t multiple = 0; multiple <= last_multiple; multiple++) {
        for (int64_t k = 0; k < pulses; k++) {
            int64_t sample = 2 * slots[k] + grid + multiple * base_lag;
            int negative = block[BLOCK_SIGNS] >> (pulses - 1 - k) & 1;
            if (sample < SUBFRAME)
                vector[sample] += negative ? -doubled_gain(block) : doubled_gain(block);
        }
    }
}

/* "The record": the fixed vector of a block of either kind. */
static void fixed_vector(const unsigned char *record, int s, int64_t vector[SUBFRAME])
{
    const unsigned char *block = block_of(record, s);
    for (int n = 0; n < SUBFRAME; n++)
        vector[n] = 0;
    if (is_high(record[0]))
        pulse_vector(block, PULSES[s], base_lag_of(record, s), vector);
    else
        for (int n = 0; n < SUBFRAME; n++)
            vector[n] = word(block + BLOCK_VALUES + 2 * n);
}

/* "Adaptive part", acb_contribution: the sample k after the subframe's start, of the past repeated at the lag. */
static int64_t repeated(const int64_t *start, int64_t lag, int64_t k)
{
    return k < lag ? start[k - lag] : start[k % lag - lag];
}

/* "Adaptive part": taps on the repeated past, rounded, and the fixed vector, limited to 16 bits. */
static void excite(struct frame *f, const unsigned char *record, int s)
{
    const unsigned char *block = block_of(record, s);
    int64_t *start = f->excitation + PAST + s * SUBFRAME;
    int64_t lag = limit(SHORTEST_LAG, LONGEST_LAG, lag_of(record, s));
    int64_t fixed[SUBFRAME];
    fixed_vector(record, s, fixed);
    int64_t around[SUBFRAME + TAPS - 1];
    for (int m = 0; m < SUBFRAME + TAPS - 1; m++)
        around[m] = repeated(start, lag, m - 2);
    for (int n = 0; n < SUBFRAME; n++) {
        int64_t adaptive = 0;
        for (int j = 0; j < TAPS; j++)
            adaptive += word(block + BLOCK_TAPS + 2 * j) * around[n + j];
        start[n] = limit16(floor_div(adaptive + 8192, 16384) + fixed[n]);
    }
}

/* "Pitch postfilter": c and d at a distance, below 0 for backward. */
static struct match correlate(const int64_t *start, int64_t distance)
{
    struct match found = {distance, 0, 0};
    for (int n = 0; n < SUBFRAME; n++) {
        found.c += start[n] * start[n + distance];
        found.d += start[n + distance] * start[n + distance];
    }
    return found;
}

/* "Pitch postfilter": within a direction, a greater c^2/d by exact products; a first one is always taken. */
static int exceeds(struct match found, struct match best)
{
    if (best.distance == 0)
        return 1;
    return (wide)found.c * found.c * best.d > (wide)best.c * best.c * found.d;
}

/* "Pitch postfilter": the best lag of one direction; d is above 0 where c is. */
static struct match search(const int64_t *start, int64_t base_lag, int64_t direction, int64_t room)
{
    struct match best = {0, 0, 0};
    int64_t centre = limit(SHORTEST_LAG, LONGEST_LAG, base_lag);
    for (int64_t lag = centre - 3; lag <= centre + 3; lag++) {
        if (direction > 0 && lag > room)
            continue;
        struct match found = correlate(start, direction * lag);
        if (found.c > 0 && exceeds(found, best))
            best = found;
    }
    return best;
}

/* "Pitch postfilter": between directions the floored c^2/d, forward on ties. */
static struct match choose_direction(struct match forward, struct match backward)
{
    if (forward.distance == 0)
        return backward;
    if (backward.distance == 0)
        return forward;
    wide forward_rank = (wide)forward.c * forward.c / forward.d;
    wide backward_rank = (wide)backward.c * backward.c / backward.d;
    return forward_rank >= backward_rank ? forward : backward;
}

/* "Pitch postfilter": the sum of squares of a subframe. */
static int64_t energy(const int64_t *samples)
{
    int64_t sum = 0;
    for (int n = 0; n < SUBFRAME; n++)
        sum += samples[n] * samples[n];
    return sum;
}

/* "Pitch postfilter": the weight in 32768ths by which the lagged sample is added. */
static int64_t pitch_weight(struct match best, int kind)
{
    int64_t share = is_high(kind) ? 6144 : 8192;
    int64_t ratio = best.c >= best.d ? 32767 : best.c * 32768 / best.d;
    return ratio * share / 32768;
}

/* "Pitch postfilter": a louder result is brought to the input's energy. */
static void match_energy(int64_t drive[SUBFRAME], int64_t wanted)
{
    int64_t had = energy(drive);
    if (had < wanted)
        return;
    int64_t factor = root((int64_t)((wide)wanted * (1 << 30) / had));
    for (int n = 0; n < SUBFRAME; n++)
        drive[n] = floor_div(drive[n] * factor + 16384, 32768);
}

/* "Pitch postfilter": one subframe; the input itself where the document says unchanged. */
static void pitch_postfilter(struct frame *f, const unsigned char *record, int s)
{
    const int64_t *start = f->excitation + PAST + s * SUBFRAME;
    int64_t *drive = f->drive + s * SUBFRAME;
    int64_t room = FRAME - (s + 1) * SUBFRAME;
    int64_t input_energy = energy(start);
    struct match forward = search(start, base_lag_of(record, s), 1, room);
    struct match backward = search(start, base_lag_of(record, s), -1, room);
    struct match chosen = choose_direction(forward, backward);
    if (input_energy == 0)
        return;
    if (chosen.distance == 0)
        return;
    if (4 * (wide)chosen.c * chosen.c < (wide)chosen.d * input_energy)
        return;
    int64_t weight = pitch_weight(chosen, record[0]);
    for (int n = 0; n < SUBFRAME; n++)
        drive[n] = start[n] + floor_div(weight * start[n + chosen.distance], 32768);
    match_energy(drive, input_energy);
}

/* "Synthesis": synthesis_subframe over the frame, its memory clamped. */
static void synthesise(struct frame *f)
{
    for (int t = 0; t < FRAME; t++) {
        int64_t *now = f->synthesis + LSPS + t;
        int64_t sum = f->drive[t] * 8192;
        for (int j = 1; j <= LSPS; j++)
            sum += f->lpc[t / SUBFRAME][j - 1] * now[-j];
        *now = limit16(floor_div(sum + 4096, 8192));
    }
}

/* "Formant, tilt, gain": the formant filter of one subframe. */
static void formant(struct frame *f, int s)
{
    int64_t zero[LSPS];
    int64_t pole[LSPS];
    for (int j = 0; j < LSPS; j++) {
        zero[j] = floor_div(f->lpc[s][j] * ZERO_WEIGHT[j], 32768);
        pole[j] = floor_div(f->lpc[s][j] * POLE_WEIGHT[j], 32768);
    }
    for (int t = s * SUBFRAME; t < (s + 1) * SUBFRAME; t++) {
        int64_t *in = f->zeros + LSPS + t;
        int64_t *out = f->poles + LSPS + t;
        *in = f->synthesis[LSPS + t];
        int64_t sum = *in * 8192;
        for (int j = 1; j <= LSPS; j++) {
            sum -= zero[j - 1] * in[-j];
            sum += pole[j - 1] * out[-j];
        }
        *out = limit16(floor_div(sum + 4096, 8192));
        f->untilted[1 + t] = *out;
    }
}

/* "Formant, tilt, gain": the quotient truncates, as C's does; it is within 16 bits because r1 is within r0. */
static int64_t tilt_quotient(const int64_t *synthesis)
{
    int64_t r0 = energy(synthesis);
    int64_t r1 = 0;
    for (int n = 1; n < SUBFRAME; n++)
        r1 += synthesis[n] * synthesis[n - 1];
    return r0 > 0 ? r1 * 32768 / r0 : 0;
}

/* "Formant, tilt, gain": the tilt of one subframe; its shifts floor. */
static void tilt(struct frame *f, int s)
{
    int64_t quotient = tilt_quotient(f->synthesis + LSPS + s * SUBFRAME);
    f->tilt = floor_div(3 * f->tilt + quotient + 2, 4);
    int64_t share = floor_div(f->tilt, 4);
    for (int t = s * SUBFRAME; t < (s + 1) * SUBFRAME; t++)
        f->tilted[t] = limit16(f->untilted[1 + t] - floor_div(share * f->untilted[t], 32768));
}

/* "Formant, tilt, gain": where the gain moves, in 4096ths. */
static int64_t gain_target(int64_t energy_in, int64_t energy_out)
{
    if (energy_out == 0)
        return 4096;
    return limit(0, MOST_GAIN, root((int64_t)((wide)energy_in * (1 << 24) / energy_out)));
}

/* "Formant, tilt, gain": the gain of one subframe moves by the floored sixteenth at each sample. */
static void scale(struct frame *f, int s)
{
    int64_t energy_in = energy(f->synthesis + LSPS + s * SUBFRAME);
    int64_t energy_out = energy(f->tilted + s * SUBFRAME);
    int64_t target = gain_target(energy_in, energy_out);
    for (int t = s * SUBFRAME; t < (s + 1) * SUBFRAME; t++) {
        f->gain += floor_div(target - f->gain, 16);
        f->output[t] = limit16(floor_div(f->tilted[t] * f->gain * 17 + 32768, 65536));
    }
}

/* "Frame": from drive to output, for received and erased frames. */
static void speak(struct frame *f)
{
    interpolate(f);
    synthesise(f);
    for (int t = 0; t < FRAME; t++)
        f->output[t] = f->synthesis[LSPS + t];
    for (int s = 0; s < SUBFRAMES && f->postfilter; s++) {
        formant(f, s);
        tilt(f, s);
        scale(f, s);
    }
}

/* "Frame": the drive of the synthesis before any pitch postfilter. */
static void drive_by_excitation(struct frame *f)
{
    for (int t = 0; t < FRAME; t++)
        f->drive[t] = f->excitation[PAST + t];
}

/* "Adaptive part": what a received frame stores for erased ones. */
static void remember(struct frame *f, const unsigned char *record)
{
    int64_t taps = 0;
    for (int j = 0; j < TAPS; j++)
        taps += word(block_of(record, 3) + BLOCK_TAPS + 2 * j);
    f->tap_sum = limit(0, MOST_TAP_SUM, 2 * taps);
    f->unvoiced_gain = (doubled_gain(block_of(record, 2)) + doubled_gain(block_of(record, 3))) / 2;
    f->lag = lag_of(record, 3);
    f->base_lag = lag_of(record, 2);
    f->run = 0;
}

/* "Frame": a received frame. */
static void received_frame(struct frame *f, const unsigned char *record)
{
    take_candidates(f, record);
    settle_lsps(f, 256);
    for (int s = 0; s < SUBFRAMES; s++)
        excite(f, record, s);
    drive_by_excitation(f);
    for (int s = 0; s < SUBFRAMES && f->postfilter; s++)
        pitch_postfilter(f, record, s);
    remember(f, record);
    speak(f);
}

/* "Erasure": the rank of a lag in the tail, floor(2^30 c^2 / (e t)), or -1; *voiced is the test 8 c^2 >= e t. */
static wide voicing_rank(const int64_t tail[TAIL], int64_t lag, int *voiced)
{
    int64_t c = 0;
    int64_t e = 0;
    int64_t t = 0;
    for (int64_t k = lag; k < TAIL; k++) {
        c += tail[k] * tail[k - lag];
        e += tail[k - lag] * tail[k - lag];
        t += tail[k] * tail[k];
    }
    if (c <= 0)
        return -1;
    *voiced = 8 * (wide)c * c >= (wide)e * t;
    return (wide)c * c * (1 << 30) / ((wide)e * t);
}

/* "Erasure": the voicing search around the last base lag; the lag of a voiced frame, 0 for an unvoiced one. */
static int64_t voicing_lag(const struct frame *f)
{
    wide best = -1;
    int64_t found = 0;
    for (int64_t step = -3; step <= 3; step++) {
        int64_t lag = limit(SHORTEST_LAG, LONGEST_LAG, f->base_lag + step);
        if (lag >= TAIL)
            continue;
        int voiced = 0;
        wide rank = voicing_rank(f->tail, lag, &voiced);
        if (rank > best) {
            best = rank;
            found = voiced ? lag : 0;
        }
    }
    return found;
}

/* "Erasure": a voiced frame repeats the excitation at the lag; each subframe reads what the one before pushed. */
static void replay(struct frame *f, int64_t lag, int64_t gain)
{
    for (int t = 0; t < FRAME; t++) {
        int64_t n = t % SUBFRAME;
        int64_t source = PAST + t - n - lag + n % lag;
        f->excitation[PAST + t] = floor_div(f->excitation[source] * gain, 32768);
    }
}

/* "Erasure": an unvoiced frame is noise; the word starts anew each frame and goes on over its subframes. */
static void make_noise(struct frame *f, int64_t gain)
{
    const int64_t modulus = 1LL << 32;
    int64_t noise = (int64_t)((0xDEADBEEF + (wide)f->run * 0x9E3779B9) % modulus);
    for (int t = 0; t < FRAME; t++) {
        noise = (noise * 1664525 + 1013904223) % modulus;
        int64_t value = noise / 256 % 65536 - 32768;
        f->excitation[PAST + t] = floor_div(gain * value, 32768);
    }
}

/* "Erasure": an erased frame. */
static void erased_frame(struct frame *f)
{
    f->run = limit(0, 4294967295LL, f->run + 1);
    int64_t attenuation = f->run > MUTE_AFTER ? 0 : ATTENUATION[f->run - 1];
    int64_t lag = voicing_lag(f);
    if (lag != 0)
        replay(f, lag, f->tap_sum * attenuation / 32768);
    else
        make_noise(f, f->unvoiced_gain * attenuation / 32768);
    extrapolate(f);
    settle_lsps(f, 512);
    drive_by_excitation(f);
    speak(f);
}

/* "Frame": between an array over time and the state, which holds the newest first. */
static void reversed(int64_t to[LSPS], const int64_t from[LSPS])
{
    for (int i = 0; i < LSPS; i++)
        to[LSPS - 1 - i] = from[i];
}

/* "Frame": so many numbers in the same order. */
static void copy(int64_t *to, const int64_t *from, int count)
{
    for (int i = 0; i < count; i++)
        to[i] = from[i];
}

/* "Frame": the past of a frame, from the state. */
static void open_frame(struct frame *f, const int64_t *state)
{
    copy(f->old_lsp, state + AT_LSP, LSPS);
    copy(f->excitation, state + AT_EXCITATION, PAST);
    reversed(f->synthesis, state + AT_SYNTHESIS);
    reversed(f->zeros, state + AT_ZEROS);
    reversed(f->poles, state + AT_POLES);
    copy(f->tail, state + AT_TAIL, TAIL);
    f->untilted[0] = state[AT_TILT_BEFORE];
    f->tilt = state[AT_TILT];
    f->gain = state[AT_GAIN];
    f->lag = state[AT_LAG];
    f->base_lag = state[AT_BASE_LAG];
    f->tap_sum = state[AT_TAP_SUM];
    f->unvoiced_gain = state[AT_UNVOICED_GAIN];
    f->run = state[AT_RUN];
    f->postfilter = state[AT_POSTFILTER];
}

/* "Frame": the formant, tilt and gain memory after a frame; without the postfilter it keeps its values. */
static void keep_postfilter(const struct frame *f, int64_t *state)
{
    if (!f->postfilter)
        return;
    reversed(state + AT_ZEROS, f->zeros + FRAME);
    reversed(state + AT_POLES, f->poles + FRAME);
    state[AT_TILT_BEFORE] = f->untilted[FRAME];
    state[AT_TILT] = f->tilt;
    state[AT_GAIN] = f->gain;
}

/* "Frame": the next state. */
static void close_frame(const struct frame *f, int64_t *state)
{
    copy(state + AT_LSP, f->lsp, LSPS);
    copy(state + AT_EXCITATION, f->excitation + FRAME, PAST);
    reversed(state + AT_SYNTHESIS, f->synthesis + FRAME);
    keep_postfilter(f, state);
    state[AT_LAG] = f->lag;
    state[AT_BASE_LAG] = f->base_lag;
    state[AT_TAP_SUM] = f->tap_sum;
    state[AT_UNVOICED_GAIN] = f->unvoiced_gain;
    copy(state + AT_TAIL, f->output + FRAME - TAIL, TAIL);
    state[AT_RUN] = f->run;
}

/* "Frame": a fresh state. */
void second_fresh(int64_t state[STATE_NUMBERS], int postfilter)
{
    for (int i = 0; i < STATE_NUMBERS; i++)
        state[i] = 0;
    copy(state + AT_LSP, MEAN_LSP, LSPS);
    state[AT_GAIN] = 4096;
    state[AT_LAG] = 60;
    state[AT_BASE_LAG] = 60;
    state[AT_POSTFILTER] = postfilter;
}

/* "Frame", "The ten numbers" and document 02, E2: of state and samples nothing is written before the last check. */
int second_decode(int64_t state[STATE_NUMBERS], const unsigned char *record, size_t length, int64_t *samples,
                  size_t count, int *outcome)
{
    struct frame f;
    int number = refusal(state, record, length, count);
    *outcome = NO_OUTCOME;
    if (number != 0)
        return number;
    open_frame(&f, state);
    if (record[0] == ERASED)
        erased_frame(&f);
    else
        received_frame(&f, record);
    close_frame(&f, state);
    copy(samples, f.output, FRAME);
    *outcome = f.outcome;
    return 0;
}
