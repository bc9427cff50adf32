"""Wrong readings of documents 01 and 02, each as a change to the second decoder or the second packing (tests/mutations tries them).

A reading has a name, a file, a fragment that stands there exactly once, what takes its place, and what it says; where it
takes several changes, a list of fragments with their replacements. Readings that come to the same samples, states, outcomes
and text as the right one are not listed.
"""
import collections

Reading = collections.namedtuple("Reading", "name file changes says")

OPERATORS = [
    ("floor-truncates", "return x % by < 0 ? truncated - 1 : truncated;", "return truncated;", "every floor truncates"),
    ("least-16-bits", "return limit(LEAST, MOST, x);", "return limit(LEAST + 1, MOST, x);", "16 bits end at -32767"),
    ("root-below", "if ((r + step) * (r + step) <= x)", "if ((r + step) * (r + step) < x)", "the root of a square is one less"),
]

RECORD = [
    ("little-endian", "bytes[0] * 256 + bytes[1]", "bytes[1] * 256 + bytes[0]", "16-bit values are little-endian"),
    ("no-sign", "return value < 32768 ? value : value - 65536;", "return value;", "16-bit values have no sign"),
    ("lag-code-17", "[code_at] + FIRST_LAG;", "[code_at] + FIRST_LAG - 1;", "base lag is code + 17"),
    ("lag-a-thrice", "s < 2 ? FIELD_LAG_A : FIELD_LAG_B", "s < 3 ? FIELD_LAG_A : FIELD_LAG_B", "A serves subframe 2 too"),
    ("lags-in-turn", "s < 2 ? FIELD_LAG_A : FIELD_LAG_B", "s % 2 == 0 ? FIELD_LAG_A : FIELD_LAG_B", "A serves 0 and 2"),
    ("step-1-is-3", "STEP[fields_of(record)[FIELD_STEP_1]]", "STEP[fields_of(record)[FIELD_STEP_3]]", "one step code serves both"),
    ("step-3-is-1", "STEP[fields_of(record)[FIELD_STEP_3]]", "STEP[fields_of(record)[FIELD_STEP_1]]", "one step code serves both"),
    ("base-for-1", "    if (s == 1)\n", "    if (s == 9)\n", "subframe 1 has the base lag"),
]

NUMBERS = [
    ("bound-excitation", "AT_EXCITATION, PAST, LEAST, MOST", "AT_EXCITATION, PAST, LEAST + 1, MOST", "excitation from -32767"),
    ("bound-history", "AT_EXCITATION, PAST, LEAST", "AT_EXCITATION, PAST - 1, LEAST", "the newest excitation is not tested"),
    ("bound-synthesis", "AT_SYNTHESIS, LSPS, LEAST, MOST", "AT_SYNTHESIS, LSPS, LEAST, MOST + 1", "synthesis to 32768"),
    ("bound-gain", "AT_GAIN, 1, 0, MOST_GAIN", "AT_GAIN, 1, 0, MOST_GAIN - 1", "gain below 1,048,576"),
    ("bound-gain-least", "AT_GAIN, 1, 0, MOST_GAIN", "AT_GAIN, 1, 1, MOST_GAIN", "gain from 1"),
    ("bound-lag", "AT_LAG, 1, LEAST_LAST_LAG, MOST_LAST_LAG", "AT_LAG, 1, SHORTEST_LAG, MOST_LAST_LAG", "last lag from 18"),
    ("bound-lag-most", "AT_LAG, 1, LEAST_LAST_LAG, MOST_LAST_LAG", "AT_LAG, 1, LEAST_LAST_LAG, MOST_BASE_LAG", "last lag to 145"),
    ("bound-base-lag", "AT_BASE_LAG, 1, LEAST_BASE_LAG, MOST_BASE_LAG", "AT_BASE_LAG, 1, LEAST_BASE_LAG, LONGEST_LAG", "last base lag to 142"),
    ("bound-tap-sum", "AT_TAP_SUM, 1, 0, MOST_TAP_SUM", "AT_TAP_SUM, 1, -1, MOST_TAP_SUM", "tap sum from -1"),
    ("bound-unvoiced", "AT_UNVOICED_GAIN, 1, 0, MOST_UNVOICED_GAIN", "AT_UNVOICED_GAIN, 1, 0, MOST_UNVOICED_GAIN + 1", "unvoiced gain to 13247"),
    ("kind-5", "if (record[0] > MOST_KIND)", "if (record[0] > MOST_KIND + 1)", "kind 5 exists"),
    (
        "erased-long",
        "if (length != record_length(record[0]))",
        "if (record[0] != ERASED && length != record_length(record[0]))",
        "an erased record may be longer",
    ),
    ("longer", "if (length != record_length(record[0]))", "if (length < record_length(record[0]))", "longer records are cut"),
    (
        "code-a-alone",
        "fields[FIELD_LAG_A] > MOST_LAG_CODE || fields[FIELD_LAG_B] > MOST_LAG_CODE",
        "fields[FIELD_LAG_A] > MOST_LAG_CODE",
        "6 asks A alone",
    ),
    (
        "code-b-alone",
        "fields[FIELD_LAG_A] > MOST_LAG_CODE || fields[FIELD_LAG_B] > MOST_LAG_CODE",
        "fields[FIELD_LAG_B] > MOST_LAG_CODE",
        "6 asks B alone",
    ),
    ("code-127", "fields[FIELD_LAG_A] > MOST_LAG_CODE ||", "fields[FIELD_LAG_A] > MOST_LAG_CODE - 1 ||", "code 127 gives 6"),
    ("code-lag-142", "fields[FIELD_LAG_B] > MOST_LAG_CODE", "fields[FIELD_LAG_B] > LONGEST_LAG - FIRST_LAG", "6 past the longest lag"),
    ("step-3-refused", "fields[FIELD_STEP_1] > MOST_STEP ||", "fields[FIELD_STEP_1] > MOST_STEP - 1 ||", "step 3 gives 7"),
    ("gain-23", "[BLOCK_GAIN] > MOST_GAIN_INDEX", "[BLOCK_GAIN] > MOST_GAIN_INDEX - 1", "gain index 23 gives 8"),
    ("flags-7", "if (flags > MOST_FLAGS)", "if (flags > 7)", "9 from flags 8 on"),
    ("flags-2", "if (flags > MOST_FLAGS)", "if (flags > MOST_FLAGS - 1)", "flags 3 give 9"),
    ("train-57", "base_lag_of(record, s) >= LONG_BASE_LAG", "base_lag_of(record, s) >= LONG_BASE_LAG - 1", "a train at 57 gives 9"),
    ("train-59", "base_lag_of(record, s) >= LONG_BASE_LAG", "base_lag_of(record, s) >= LONG_BASE_LAG + 1", "a train at 58 is accepted"),
    ("train-own-lag", "flags >= 2 && base_lag_of(record, s)", "flags >= 2 && lag_of(record, s)", "9 asks the subframe's own lag"),
    ("signs-above", "[BLOCK_SIGNS] >= 1 << PULSES[s]", "[BLOCK_SIGNS] > 1 << PULSES[s]", "the sign bit at the count alone is accepted"),
    ("signs-six", "[BLOCK_SIGNS] >= 1 << PULSES[s]", "[BLOCK_SIGNS] >= 1 << 6", "six signs in every subframe"),
    ("low-has-flags", "    if (!is_high(record[0]))\n", "    if (record[0] == LOW_INDEX)\n", "9 and 10 read the Low values of kind 2"),
    ("order-1-2", "    if (count != FRAME)\n", "    if (!state_in_bounds(state)) return 2;\n    if (count != FRAME)\n", "2 before 1"),
    ("order-2-3", "    if (!state_in_bounds(state))\n", "    if (length == 0) return 3;\n    if (!state_in_bounds(state))\n", "3 before 2"),
    ("order-4-5", "    if (record[0] > MOST_KIND)\n", "    if (length != record_length(record[0])) return 5;\n    if (record[0] > MOST_KIND)\n", "5 before 4"),
    (
        "order-6-7",
        "    if (fields[FIELD_LAG_A] > MOST_LAG_CODE",
        "    if (fields[FIELD_STEP_1] > MOST_STEP || fields[FIELD_STEP_3] > MOST_STEP) return 7;\n    if (fields[FIELD_LAG_A] > MOST_LAG_CODE",
        "7 before 6",
    ),
    (
        "order-7-8",
        "    if (fields[FIELD_STEP_1] > MOST_STEP",
        "    if (any_subframe(record, gain_refused)) return 8;\n    if (fields[FIELD_STEP_1] > MOST_STEP",
        "8 before 7",
    ),
    (
        "order-8-9",
        "    if (any_subframe(record, gain_refused))",
        "    if (is_high(record[0]) && any_subframe(record, flags_refused)) return 9;\n    if (any_subframe(record, gain_refused))",
        "9 before 8",
    ),
    (
        "order-9-10",
        "    if (any_subframe(record, flags_refused))",
        "    if (any_subframe(record, signs_refused)) return 10;\n    if (any_subframe(record, flags_refused))",
        "10 before 9",
    ),
    (
        "by-subframes",
        "    if (any_subframe(record, flags_refused))",
        "    for (int s = 0; s < SUBFRAMES; s++) { if (flags_refused(record, s)) return 9; if (signs_refused(record, s)) return 10; }\n    if (any_subframe(record, flags_refused))",
        "9 and 10 subframe by subframe",
    ),
    (
        "early-samples",
        "    if (number != 0)\n",
        "    if (number == 10) samples[0] = 0;\n    if (number != 0)\n",
        "samples are written before the last check",
    ),
    (
        "early-state",
        "    if (number != 0)\n",
        "    if (number == 10) state[AT_RUN] = 0;\n    if (number != 0)\n",
        "a refused frame ends the run of erased ones",
    ),
    ("refuses-all", "    if (number != 0)\n", "    if (number == 0) number = 5;\n    if (number != 0)\n", "each record is refused"),
]

LSPS = [
    ("average-truncated", "floor_div(lsp[i] + lsp[i + 1], 2)", "(lsp[i] + lsp[i + 1]) / 2", "the average truncates"),
    ("one-moves", "lsp[i] = limit16(middle - minimum / 2);", "", "only the upper LSP of a pair moves"),
    ("moves-wrap", "lsp[i] = limit16(middle - minimum / 2);", "lsp[i] = (int16_t)(middle - minimum / 2);", "the lower LSP wraps"),
    ("moves-wrap-up", "lsp[i + 1] = limit16(middle + minimum / 2);", "lsp[i + 1] = (int16_t)(middle + minimum / 2);", "the upper LSP wraps"),
    ("high-to-low", "for (int i = 0; i + 1 < LSPS; i++) {", "for (int i = LSPS - 2; i >= 0; i--) {", "pairs from high to low"),
    ("last-pass-decides", "if (gaps_kept(f->lsp, minimum))", "if (pass < PASSES)", "ten passes with moves give way without a test"),
    ("no-previous", "if (gaps_kept(f->lsp, minimum))", "if (1)", "never the previous LSPs"),
    ("mean-for-previous", "        f->lsp[i] = f->old_lsp[i];", "        f->lsp[i] = MEAN_LSP[i];", "the mean LSPs where the previous ones are due"),
    ("gap-at-minimum", "if (lsp[i] - lsp[i - 1] < minimum)", "if (lsp[i] - lsp[i - 1] <= minimum)", "a gap at the minimum is short"),
    ("received-512", "settle_lsps(f, 256);", "settle_lsps(f, 512);", "minimum 512 received"),
    ("erased-256", "settle_lsps(f, 512);", "settle_lsps(f, 256);", "minimum 256 erased"),
    ("cosine-even", "frequency < 0 ? 0 : frequency", "frequency < 0 ? -frequency : frequency", "a negative frequency counts by its size"),
    ("cosine-steps", "return from + floor_div((to - from) * (angle % 128), 128);", "return from;", "cosines are not interpolated"),
    ("cosine-truncated", "floor_div((to - from) * (angle % 128), 128)", "(to - from) * (angle % 128) / 128", "the cosine's part truncates"),
    ("product-truncated", "floor_div(before[i + 1] * c, 8192)", "before[i + 1] * c / 8192", "products of polynomials truncate"),
    ("odd-even", "p[j] + p[j - 1] + q[j] - q[j - 1]", "p[j] - p[j - 1] + q[j] + q[j - 1]", "sum and difference polynomial swapped"),
    ("half-truncated", "-floor_div(twice, 2)", "-(twice / 2)", "the halved sum truncates"),
    ("lpc-cut", "floor_div(negated + 1024, 2048)", "floor_div(negated, 2048)", "coefficients are cut, not rounded"),
    (
        "lpc-unlimited",
        "lpc[j - 1] = limit16(floor_div(negated + 1024, 2048));",
        "lpc[j - 1] = floor_div(negated + 1024, 2048);",
        "coefficients past 16 bits",
    ),
    (
        "weights-reversed",
        "PREVIOUS_QUARTERS[s] * f->old_lsp[i] + CURRENT_QUARTERS[s] * f->lsp[i]",
        "PREVIOUS_QUARTERS[s] * f->lsp[i] + CURRENT_QUARTERS[s] * f->old_lsp[i]",
        "previous and current swapped",
    ),
    ("interpolation-cut", "floor_div(quarters + 2, 4)", "floor_div(quarters, 4)", "interpolated LSPs are cut"),
    (
        "distance-unlimited",
        "predicted(f, i, 23552)",
        "MEAN_LSP[i] + floor_div((f->old_lsp[i] - MEAN_LSP[i]) * 23552, 32768)",
        "the distance from the mean is not limited",
    ),
    (
        "extrapolation-truncated",
        "predicted(f, i, 23552)",
        "MEAN_LSP[i] + limit16(f->old_lsp[i] - MEAN_LSP[i]) * 23552 / 32768",
        "the extrapolated distance truncates",
    ),
    ("extrapolated-12", "predicted(f, i, 23552)", "predicted(f, i, 12288)", "12 of 32 when erased, as when received"),
    ("no-extrapolation", "    extrapolate(f);", "    for (int i = 0; i < LSPS; i++) f->lsp[i] = f->old_lsp[i];", "an erased frame keeps the LSPs"),
]

# Document 02, E1.
INDEX = [
    ("index-kind-3-low", "return kind == HIGH || kind == HIGH_INDEX;", "return kind == HIGH;", "kind 3 is Low"),
    ("index-rates-swapped", "return kind == HIGH || kind == HIGH_INDEX;", "return kind == HIGH || kind == LOW_INDEX;", "kind 3 is Low and 4 is High"),
    ("index-share", "is_high(kind) ? 6144 : 8192", "kind == HIGH ? 6144 : 8192", "the pitch postfilter takes kind 3 for Low"),
    ("index-length", "(size_t)(head_length(kind) +", "(size_t)(LSP_HEAD +", "kinds 3 and 4 have 89 and 549 bytes"),
    ("index-length-531", "(size_t)(head_length(kind) +", "(size_t)(head_length(kind) - (kind == LOW_INDEX) +", "kind 4 has 531 bytes"),
    (
        "index-6-at-21",
        "fields[FIELD_LAG_A] > MOST_LAG_CODE || fields[FIELD_LAG_B]",
        "record[LSP_HEAD + FIELD_LAG_A] > MOST_LAG_CODE || record[LSP_HEAD + FIELD_LAG_B]",
        "6 asks bytes 21 and 23 of every kind",
    ),
    (
        "index-7-at-22",
        "fields[FIELD_STEP_1] > MOST_STEP || fields[FIELD_STEP_3]",
        "record[LSP_HEAD + FIELD_STEP_1] > MOST_STEP || record[LSP_HEAD + FIELD_STEP_3]",
        "7 asks bytes 22 and 24 of every kind",
    ),
    ("index-lags-at-21", "return fields_of(record)[code_at]", "return record[LSP_HEAD + code_at]", "lag codes at 21 and 23 of every kind"),
    (
        "index-step-at-22",
        "STEP[fields_of(record)[FIELD_STEP_1]]",
        "STEP[record[LSP_HEAD + FIELD_STEP_1] % (MOST_STEP + 1)]",
        "the step code of subframe 1 at 22 of every kind",
    ),
    ("index-blocks-at-25", "return fields_of(record) + FIELD_BLOCKS", "return record + LSP_HEAD + FIELD_BLOCKS", "blocks from 25 in every kind"),
    ("index-low-has-flags", "    if (!is_high(record[0]))\n", "    if (record[0] == LOW)\n", "9 and 10 read the Low values of kind 4"),
    ("index-high-unasked", "    if (!is_high(record[0]))\n", "    if (record[0] != HIGH)\n", "9 and 10 are not asked of kind 3"),
    (
        "index-little-endian",
        "entry(record + BYTE_INDEX, i)",
        "entry((const unsigned char[]){record[3], record[2], record[1]}, i)",
        "the first byte picks the row of band 2, the third that of band 0",
    ),
    (
        "index-one-row",
        "entry(record + BYTE_INDEX, i)",
        "entry((const unsigned char[]){record[1], record[1], record[1]}, i)",
        "one row of ten",
    ),
    (
        "index-rows-from-1",
        "entry(record + BYTE_INDEX, i)",
        "entry((const unsigned char[]){record[1] - 1, record[2] - 1, record[3] - 1}, i)",
        "rows are counted from 1, and 0 is the last",
    ),
    ("index-last-row-0", "CODEBOOK_0[index[0]]", "CODEBOOK_0[index[0] % (ROWS - 1)]", "band 0 has 255 rows"),
    ("index-last-row-1", "CODEBOOK_1[index[1]]", "CODEBOOK_1[index[1] % (ROWS - 1)]", "band 1 has 255 rows"),
    ("index-last-row-2", "CODEBOOK_2[index[2]]", "CODEBOOK_2[index[2] % (ROWS - 1)]", "band 2 has 255 rows"),
    (
        "index-rows-of-four",
        "CODEBOOK_1[index[1]][i - BAND_0]",
        "CODEBOOK_1[(4 * index[1] + i - BAND_0) / BAND_1 % ROWS][(4 * index[1] + i - BAND_0) % BAND_1]",
        "rows of four in band 1",
    ),
    (
        "index-rows-of-three",
        "CODEBOOK_2[index[2]][i - BAND_0 - BAND_1]",
        "CODEBOOK_2[(3 * index[2] + i - BAND_0 - BAND_1) / BAND_2][(3 * index[2] + i - BAND_0 - BAND_1) % BAND_2]",
        "rows of three in band 2",
    ),
    ("index-entries-scaled", "+ entry(record", "+ 4 * entry(record", "entries are 8192ths, as the Rust's name of the table says"),
    ("index-23", "predicted(f, i, 12288)", "predicted(f, i, 23552)", "23 of 32 from an index, as when erased"),
    ("index-from-means", "predicted(f, i, 12288)", "MEAN_LSP[i]", "an index adds to the mean LSPs"),
    ("index-from-previous", "predicted(f, i, 12288)", "f->old_lsp[i]", "an index adds to the previous LSPs as they are"),
    (
        "index-mean-less-previous",
        "predicted(f, i, 12288)",
        "MEAN_LSP[i] + floor_div(limit16(MEAN_LSP[i] - f->old_lsp[i]) * 12288, 32768)",
        "the mean's distance from the previous LSP",
    ),
    (
        "index-unlimited",
        "predicted(f, i, 12288)",
        "MEAN_LSP[i] + floor_div((f->old_lsp[i] - MEAN_LSP[i]) * 12288, 32768)",
        "the distance from the mean is not limited",
    ),
    (
        "index-truncated",
        "predicted(f, i, 12288)",
        "MEAN_LSP[i] + limit16(f->old_lsp[i] - MEAN_LSP[i]) * 12288 / 32768",
        "the share of the distance truncates",
    ),
    ("index-512", "settle_lsps(f, 256);", "settle_lsps(f, has_index(record[0]) ? 512 : 256);", "minimum 512 from an index"),
    (
        "index-unsettled",
        "    settle_lsps(f, 256);",
        "    f->outcome = UNTOUCHED;\n    if (!has_index(record[0])) settle_lsps(f, 256);",
        "candidates from an index are not stabilised",
    ),
    (
        "index-from-candidates",
        "    take_candidates(f, record);\n    settle_lsps(f, 256);",
        "    static int64_t old[LSPS], made[LSPS], used[LSPS];\n    for (int i = 0; i < LSPS; i++) { old[i] = f->old_lsp[i]; if (old[i] == used[i]) f->old_lsp[i] = made[i]; }\n    take_candidates(f, record);\n    for (int i = 0; i < LSPS; i++) { made[i] = f->lsp[i]; f->old_lsp[i] = old[i]; }\n    settle_lsps(f, 256);\n    for (int i = 0; i < LSPS; i++) used[i] = f->lsp[i];",
        "an index adds to the last candidates, not to the LSPs that were used",
    ),
    (
        "index-from-received",
        "    take_candidates(f, record);\n    settle_lsps(f, 256);",
        "    static int64_t old[LSPS], heard[LSPS];\n    for (int i = 0; i < LSPS; i++) { old[i] = f->old_lsp[i]; if (f->run > 0) f->old_lsp[i] = heard[i]; }\n    take_candidates(f, record);\n    for (int i = 0; i < LSPS; i++) f->old_lsp[i] = old[i];\n    settle_lsps(f, 256);\n    for (int i = 0; i < LSPS; i++) heard[i] = f->lsp[i];",
        "after a loss an index adds to the LSPs of the last received frame",
    ),
]

# Document 02, E2. Most of them leave samples and states as they are.
OUTCOME = [
    ("outcome-0", "    *outcome = f.outcome;", "    *outcome = UNTOUCHED;", "always untouched"),
    ("outcome-1", "    *outcome = f.outcome;", "    *outcome = MOVED;", "always moved"),
    ("outcome-2", "    *outcome = f.outcome;", "    *outcome = PREVIOUS;", "always the previous LSPs"),
    ("outcome-0-1", "pass == 0 ? UNTOUCHED : MOVED", "pass == 0 ? MOVED : UNTOUCHED", "untouched and moved swapped"),
    (
        "outcome-1-2",
        "    *outcome = f.outcome;",
        "    *outcome = f.outcome == MOVED ? PREVIOUS : f.outcome == PREVIOUS ? MOVED : UNTOUCHED;",
        "moved and previous swapped",
    ),
    ("outcome-previous-moved", "    f->outcome = PREVIOUS;\n", "", "LSPs that were moved and gave way are moved"),
    ("outcome-previous-untouched", "    f->outcome = PREVIOUS;", "    f->outcome = UNTOUCHED;", "the previous LSPs are untouched ones"),
    ("outcome-ten-untouched", "pass == 0 ? UNTOUCHED", "pass % PASSES == 0 ? UNTOUCHED", "moved by all ten passes and met is untouched"),
    ("outcome-ten-previous", "UNTOUCHED : MOVED;", "UNTOUCHED : pass < PASSES ? MOVED : PREVIOUS;", "moved by all ten passes and met is previous"),
    ("outcome-ten-alone", "pass == 0 ? UNTOUCHED", "pass < PASSES ? UNTOUCHED", "the last pass decides: a still one says untouched"),
    ("outcome-second-pass", "pass == 0 ? UNTOUCHED", "pass <= 1 ? UNTOUCHED", "untouched where the second pass is still"),
    (
        "outcome-at-minimum",
        "if (lsp[i + 1] - lsp[i] >= minimum)",
        "if (lsp[i + 1] - lsp[i] > minimum)",
        "a pair at the minimum is moved, to where it was",
    ),
    (
        "outcome-from-previous",
        "    f->outcome = pass == 0 ? UNTOUCHED : MOVED;",
        "    f->outcome = UNTOUCHED;\n    for (int i = 0; i < LSPS; i++) if (f->lsp[i] != f->old_lsp[i]) f->outcome = MOVED;",
        "moved are LSPs that differ from the previous ones",
    ),
    (
        "outcome-moved-unlike-previous",
        "    f->outcome = pass == 0 ? UNTOUCHED : MOVED;",
        "    int alike = 1;\n    for (int i = 0; i < LSPS; i++) alike &= f->lsp[i] == f->old_lsp[i];\n    f->outcome = pass == 0 || alike ? UNTOUCHED : MOVED;",
        "LSPs that are moved to where the previous ones were are untouched",
    ),
    (
        "outcome-like-previous",
        "    f->outcome = pass == 0 ? UNTOUCHED : MOVED;",
        "    f->outcome = pass == 0 ? UNTOUCHED : MOVED;\n    int alike = 1;\n    for (int i = 0; i < LSPS; i++) alike &= f->lsp[i] == f->old_lsp[i];\n    if (alike) f->outcome = PREVIOUS;",
        "LSPs that equal the previous ones are taken for these",
    ),
    (
        "outcome-candidate-untouched",
        "    settle_lsps(f, 256);",
        "    int alike = 1;\n    for (int i = 0; i < LSPS; i++) alike &= f->lsp[i] == f->old_lsp[i];\n    settle_lsps(f, 256);\n    if (alike && f->outcome == PREVIOUS) f->outcome = UNTOUCHED;",
        "previous LSPs that equal the candidate are untouched",
    ),
    (
        "outcome-candidate-moved",
        "    settle_lsps(f, 256);",
        "    int alike = 1;\n    for (int i = 0; i < LSPS; i++) alike &= f->lsp[i] == f->old_lsp[i];\n    settle_lsps(f, 256);\n    if (alike && f->outcome == PREVIOUS) f->outcome = MOVED;",
        "previous LSPs that equal the candidate are moved ones",
    ),
    ("outcome-erased-0", "    settle_lsps(f, 512);", "    settle_lsps(f, 512);\n    f->outcome = UNTOUCHED;", "an erased frame is always untouched"),
    ("outcome-erased-2", "    settle_lsps(f, 512);", "    settle_lsps(f, 512);\n    f->outcome = PREVIOUS;", "an erased frame always has the previous LSPs"),
    ("outcome-erased-none", "    settle_lsps(f, 512);", "    settle_lsps(f, 512);\n    f->outcome = NO_OUTCOME;", "an erased frame has no outcome"),
    (
        "outcome-erased-256",
        "    settle_lsps(f, 512);",
        "    struct frame other = *f;\n    settle_lsps(&other, 256);\n    settle_lsps(f, 512);\n    f->outcome = other.outcome;",
        "the outcome of an erased frame by the minimum of received ones",
    ),
    (
        "outcome-erased-before",
        "    *outcome = f.outcome;",
        "    static int before;\n    if (record[0] != ERASED) before = f.outcome;\n    *outcome = before;",
        "an erased frame has the outcome of the last received one",
    ),
    (
        "outcome-index-0",
        "    settle_lsps(f, 256);",
        "    settle_lsps(f, 256);\n    if (has_index(record[0])) f->outcome = UNTOUCHED;",
        "candidates from an index are always untouched",
    ),
    (
        "outcome-kept",
        "    *outcome = f.outcome;",
        "    static int before;\n    if (f.outcome != UNTOUCHED) before = f.outcome;\n    *outcome = before;",
        "an untouched frame has the outcome of the frame before",
    ),
    ("outcome-refused-0", "    *outcome = NO_OUTCOME;", "    *outcome = UNTOUCHED;", "a refused record is untouched"),
    ("outcome-refused-2", "    *outcome = NO_OUTCOME;", "    *outcome = PREVIOUS;", "a refused record has the previous LSPs"),
    (
        "outcome-refused-before",
        "    struct frame f;\n    int number = refusal(state, record, length, count);\n    *outcome = NO_OUTCOME;",
        "    static struct frame f = {.outcome = NO_OUTCOME};\n    int number = refusal(state, record, length, count);\n    *outcome = f.outcome;",
        "a refused record has the outcome of the frame before",
    ),
]

PULSES = [
    ("limit-accepted", "if (code >= codes)", "if (code > codes)", "the code at the limit has slots"),
    ("no-slots-early", "if (code >= codes)", "if (code >= codes - 1)", "no slots just below the limit"),
    ("limit-of-six", "? CODES_OF_SIX : CODES_OF_FIVE", "? CODES_OF_SIX : CODES_OF_SIX", "one limit for five and six"),
    ("weight-r", "choose(SLOTS - 1 - slot, wanted - 1)", "choose(SLOTS - 1 - slot, wanted)", "the weight chooses r"),
    ("weight-reached", "if (code < weight)", "if (code <= weight)", "a code at the weight puts a pulse"),
    (
        "code-reversed",
        "block[BLOCK_CODE] * 65536 + block[BLOCK_CODE + 1] * 256 + block[BLOCK_CODE + 2]",
        "block[BLOCK_CODE] + block[BLOCK_CODE + 1] * 256 + block[BLOCK_CODE + 2] * 65536",
        "the code is little-endian",
    ),
    ("grid-ignored", "2 * slots[k] + grid + multiple * base_lag", "2 * slots[k] + multiple * base_lag", "the grid is ignored"),
    (
        "grid-first-alone",
        "2 * slots[k] + grid + multiple * base_lag",
        "2 * slots[k] + (multiple == 0 ? grid : 0) + multiple * base_lag",
        "repeated pulses stand on grid 0",
    ),
    ("signs-from-low", "block[BLOCK_SIGNS] >> (pulses - 1 - k) & 1", "block[BLOCK_SIGNS] >> k & 1", "the first slot has bit 0"),
    ("signs-from-5", "block[BLOCK_SIGNS] >> (pulses - 1 - k) & 1", "block[BLOCK_SIGNS] >> (5 - k) & 1", "five pulses have bits 5 to 1"),
    (
        "set-is-positive",
        "negative ? -doubled_gain(block) : doubled_gain(block)",
        "negative ? doubled_gain(block) : -doubled_gain(block)",
        "a set bit is positive",
    ),
    ("train-sets", "vector[sample] += negative", "vector[sample] = negative", "a train sets, not adds"),
    ("train-once", "train ? (SUBFRAME - 1) / base_lag : 0", "train ? 1 : 0", "a train repeats once"),
    ("train-ignored", "train ? (SUBFRAME - 1) / base_lag : 0", "0", "no trains"),
    (
        "train-at-own-lag",
        "pulse_vector(block, PULSES[s], base_lag_of(record, s), vector)",
        "pulse_vector(block, PULSES[s], lag_of(record, s), vector)",
        "a train repeats at the subframe's own lag",
    ),
    ("grid-bit-1", "int64_t grid = block[BLOCK_FLAGS] % 2;", "int64_t grid = block[BLOCK_FLAGS] / 2;", "grid is bit 1"),
    ("train-bit-0", "int64_t train = block[BLOCK_FLAGS] / 2;", "int64_t train = block[BLOCK_FLAGS] % 2;", "train is bit 0"),
    ("not-doubled", "return 2 * FIXED_GAIN[", "return FIXED_GAIN[", "gains are not doubled"),
    (
        "low-doubled",
        "vector[n] = word(block + BLOCK_VALUES + 2 * n);",
        "vector[n] = 2 * word(block + BLOCK_VALUES + 2 * n);",
        "Low values are doubled",
    ),
]

ADAPTIVE = [
    (
        "excited-at-base",
        "limit(SHORTEST_LAG, LONGEST_LAG, lag_of(record, s))",
        "limit(SHORTEST_LAG, LONGEST_LAG, base_lag_of(record, s))",
        "odd subframes use the base lag",
    ),
    ("taps-reversed", "* around[n + j];", "* around[n + TAPS - 1 - j];", "taps in the other order"),
    ("taps-late", "repeated(start, lag, m - 2)", "repeated(start, lag, m - 1)", "taps one sample later"),
    ("taps-in-32768ths", "floor_div(adaptive + 8192, 16384)", "floor_div(adaptive + 16384, 32768)", "taps are 32768ths"),
    ("adaptive-cut", "floor_div(adaptive + 8192, 16384)", "floor_div(adaptive, 16384)", "the adaptive part is cut"),
    ("adaptive-truncated", "floor_div(adaptive + 8192, 16384)", "(adaptive + 8192) / 16384", "the adaptive part truncates"),
    (
        "adaptive-limited",
        "limit16(floor_div(adaptive + 8192, 16384) + fixed[n])",
        "limit16(limit16(floor_div(adaptive + 8192, 16384)) + fixed[n])",
        "the adaptive part is limited alone",
    ),
    ("pulses-limited", "+ fixed[n]);", "+ limit16(fixed[n]));", "the fixed vector is limited alone"),
    (
        "sum-wraps",
        "start[n] = limit16(floor_div(adaptive + 8192, 16384) + fixed[n]);",
        "start[n] = (int16_t)(floor_div(adaptive + 8192, 16384) + fixed[n]);",
        "the sum wraps",
    ),
    ("no-repetition", "start[k % lag - lag]", "0", "past the lag nothing is read"),
    ("tap-sum-of-2", "taps += word(block_of(record, 3)", "taps += word(block_of(record, 2)", "the tap sum is subframe 2's"),
    ("tap-sum-plain", "limit(0, MOST_TAP_SUM, 2 * taps)", "limit(0, MOST_TAP_SUM, taps)", "the tap sum is not doubled"),
    ("tap-sum-16384ths", "limit(0, MOST_TAP_SUM, 2 * taps)", "2 * limit(0, MOST_TAP_SUM / 2, taps)", "the tap sum is limited before it is doubled"),
    ("tap-sum-unlimited", "limit(0, MOST_TAP_SUM, 2 * taps)", "limit(0, 65535, 2 * taps)", "the tap sum has no upper limit"),
    ("tap-sum-signed", "limit(0, MOST_TAP_SUM, 2 * taps)", "limit(LEAST, MOST_TAP_SUM, 2 * taps)", "the tap sum may be negative"),
    (
        "unvoiced-3-alone",
        "(doubled_gain(block_of(record, 2)) + doubled_gain(block_of(record, 3))) / 2",
        "doubled_gain(block_of(record, 3))",
        "the unvoiced gain is subframe 3's",
    ),
    (
        "unvoiced-sum",
        "+ doubled_gain(block_of(record, 3))) / 2",
        "+ doubled_gain(block_of(record, 3))) / 4",
        "the unvoiced gain from gains that are not doubled",
    ),
]

PITCH = [
    ("search-short", "lag <= centre + 3; lag++", "lag <= centre + 2; lag++", "six lags, the last left out"),
    ("search-late", "lag = centre - 3; lag <= centre", "lag = centre - 2; lag <= centre", "six lags, the first left out"),
    (
        "search-own-lag",
        "search(start, base_lag_of(record, s), -1, room)",
        "search(start, lag_of(record, s), -1, room)",
        "backward around the subframe's own lag",
    ),
    (
        "centre-free",
        "int64_t centre = limit(SHORTEST_LAG, LONGEST_LAG, base_lag);",
        "int64_t centre = limit(SHORTEST_LAG, LONGEST_LAG + 1, base_lag);",
        "the search's centre goes on to 143",
    ),
    ("forward-short", "direction > 0 && lag > room", "direction > 0 && lag >= room", "the last forward lag in the frame is skipped"),
    ("no-forward", "direction > 0 && lag > room", "direction > 0", "backward lags alone"),
    ("c-at-0", "if (found.c > 0 && exceeds(found, best))", "if (found.c >= 0 && exceeds(found, best))", "c of 0 counts"),
    (
        "floored-within",
        "return (wide)found.c * found.c * best.d > (wide)best.c * best.c * found.d;",
        "return (wide)found.c * found.c / found.d > (wide)best.c * best.c / best.d;",
        "floored quotients inside a direction",
    ),
    (
        "last-of-equals",
        "return (wide)found.c * found.c * best.d > (wide)best.c * best.c * found.d;",
        "return (wide)found.c * found.c * best.d >= (wide)best.c * best.c * found.d;",
        "the last of equal lags wins",
    ),
    (
        "by-c-alone",
        "return (wide)found.c * found.c * best.d > (wide)best.c * best.c * found.d;",
        "return found.c > best.c;",
        "lags are compared by c",
    ),
    (
        "exact-between",
        "return forward_rank >= backward_rank ? forward : backward;",
        "return (wide)forward.c * forward.c * backward.d >= (wide)backward.c * backward.c * forward.d ? forward : backward;",
        "exact products between directions",
    ),
    (
        "backward-on-ties",
        "return forward_rank >= backward_rank ? forward : backward;",
        "return forward_rank > backward_rank ? forward : backward;",
        "backward wins ties",
    ),
    ("gate-closed", "< (wide)chosen.d * input_energy)", "<= (wide)chosen.d * input_energy)", "the gate is closed at equality"),
    ("no-gate", "if (4 * (wide)chosen.c * chosen.c < (wide)chosen.d * input_energy)", "if (0)", "no gate"),
    ("shares-swapped", "is_high(kind) ? 6144 : 8192", "is_high(kind) ? 8192 : 6144", "the kinds' shares are swapped"),
    (
        "ratio-32768",
        "best.c >= best.d ? 32767 : best.c * 32768 / best.d",
        "best.c >= best.d ? 32768 : best.c * 32768 / best.d",
        "the ratio goes to 32768",
    ),
    ("ratio-unlimited", "best.c >= best.d ? 32767 : best.c * 32768 / best.d", "best.c * 32768 / best.d", "the ratio is not limited"),
    ("brought-up", "if (had < wanted)", "if (had == 0)", "a quieter result is brought up too"),
    ("not-brought-down", "if (had < wanted)", "if (1)", "a louder result stays louder"),
    ("scaled-cut", "floor_div(drive[n] * factor + 16384, 32768)", "floor_div(drive[n] * factor, 32768)", "the scaled result is cut"),
    (
        "lagged-truncated",
        "floor_div(weight * start[n + chosen.distance], 32768)",
        "weight * start[n + chosen.distance] / 32768",
        "the lagged part truncates",
    ),
    (
        "history-filtered",
        "    match_energy(drive, input_energy);",
        "    match_energy(drive, input_energy); for (int n = 0; n < SUBFRAME; n++) f->excitation[PAST + s * SUBFRAME + n] = drive[n];",
        "the history holds what the pitch postfilter made",
    ),
    (
        "pitch-off",
        "for (int s = 0; s < SUBFRAMES && f->postfilter; s++)\n        pitch_postfilter(",
        "for (int s = 0; s < SUBFRAMES; s++)\n        pitch_postfilter(",
        "the pitch postfilter runs though off",
    ),
    (
        "pitch-erased",
        "    settle_lsps(f, 512);",
        "    settle_lsps(f, 512); drive_by_excitation(f); { unsigned char r[LSP_HEAD + FIELD_BLOCKS] = {HIGH}; r[LSP_HEAD + FIELD_LAG_A] = r[LSP_HEAD + FIELD_LAG_B] = (unsigned char)(f->base_lag - FIRST_LAG); for (int s = 0; s < SUBFRAMES && f->postfilter; s++) pitch_postfilter(f, r, s); } speak(f); return;",
        "the pitch postfilter runs on erased frames",
    ),
]

SYNTHESIS = [
    ("synthesis-cut", "*now = limit16(floor_div(sum + 4096, 8192));", "*now = limit16(floor_div(sum, 8192));", "synthesis is cut"),
    ("synthesis-truncated", "*now = limit16(floor_div(sum + 4096, 8192));", "*now = limit16((sum + 4096) / 8192);", "synthesis truncates"),
    ("synthesis-wraps", "*now = limit16(floor_div(sum + 4096, 8192));", "*now = (int16_t)floor_div(sum + 4096, 8192);", "synthesis wraps"),
    (
        "synthesis-subtracts",
        "sum += f->lpc[t / SUBFRAME][j - 1] * now[-j];",
        "sum -= f->lpc[t / SUBFRAME][j - 1] * now[-j];",
        "coefficients with the other sign",
    ),
    (
        "synthesis-by-history",
        "int64_t sum = f->drive[t] * 8192;",
        "int64_t sum = f->excitation[PAST + t] * 8192;",
        "synthesis of the excitation without pitch postfilter",
    ),
    ("one-lpc-set", "f->lpc[t / SUBFRAME][j - 1]", "f->lpc[3][j - 1]", "the last set of coefficients for all subframes"),
]

FORMANT = [
    ("zeros-as-poles", "f->lpc[s][j] * ZERO_WEIGHT[j]", "f->lpc[s][j] * POLE_WEIGHT[j]", "zeros have the poles' weights"),
    (
        "weights-truncated",
        "floor_div(f->lpc[s][j] * POLE_WEIGHT[j], 32768)",
        "f->lpc[s][j] * POLE_WEIGHT[j] / 32768",
        "the poles' weighted coefficients truncate",
    ),
    ("formant-cut", "*out = limit16(floor_div(sum + 4096, 8192));", "*out = limit16(floor_div(sum, 8192));", "the formant filter is cut"),
    ("formant-wraps", "*out = limit16(floor_div(sum + 4096, 8192));", "*out = (int16_t)floor_div(sum + 4096, 8192);", "the formant filter wraps"),
    (
        "zero-weights-truncated",
        "floor_div(f->lpc[s][j] * ZERO_WEIGHT[j], 32768)",
        "f->lpc[s][j] * ZERO_WEIGHT[j] / 32768",
        "the zeros' weighted coefficients truncate",
    ),
    ("formant-truncated", "*out = limit16(floor_div(sum + 4096, 8192));", "*out = limit16((sum + 4096) / 8192);", "the formant filter truncates"),
    ("tilt-floored", "r1 * 32768 / r0", "floor_div(r1 * 32768, r0)", "the tilt is divided with a floor"),
    ("smoothing-truncated", "floor_div(3 * f->tilt + quotient + 2, 4)", "(3 * f->tilt + quotient + 2) / 4", "the smoothing shift truncates"),
    ("smoothing-cut", "floor_div(3 * f->tilt + quotient + 2, 4)", "floor_div(3 * f->tilt + quotient, 4)", "the smoothed tilt is cut"),
    ("share-truncated", "int64_t share = floor_div(f->tilt, 4);", "int64_t share = f->tilt / 4;", "the tilt's shift truncates"),
    ("tilt-part-truncated", "floor_div(share * f->untilted[t], 32768)", "share * f->untilted[t] / 32768", "the tilt's part truncates"),
    (
        "tilt-unlimited",
        "limit16(f->untilted[1 + t] - floor_div(share * f->untilted[t], 32768))",
        "f->untilted[1 + t] - floor_div(share * f->untilted[t], 32768)",
        "the tilted sample is not limited",
    ),
    (
        "tilt-of-formant",
        "tilt_quotient(f->synthesis + LSPS + s * SUBFRAME)",
        "tilt_quotient(f->untilted + 1 + s * SUBFRAME)",
        "the tilt is the formant filter's",
    ),
    ("tilt-from-before", "for (int n = 1; n < SUBFRAME; n++)", "for (int n = 0; n < SUBFRAME; n++)", "the tilt reaches into the subframe before"),
    ("tilt-recursive", "share * f->untilted[t], 32768", "share * (t > 0 ? f->tilted[t - 1] : f->untilted[0]), 32768", "the tilt reads what it made"),
    ("silent-tilt", "return r0 > 0 ? r1 * 32768 / r0 : 0;", "return r0 > 0 ? r1 * 32768 / r0 : 32767;", "silence has a tilt"),
    ("silent-target", "        return 4096;\n", "        return 0;\n", "silence pulls the gain to 0"),
    (
        "target-unlimited",
        "limit(0, MOST_GAIN, root((int64_t)((wide)energy_in * (1 << 24) / energy_out)))",
        "limit(0, 1 << 30, root((int64_t)((wide)energy_in * (1 << 24) / energy_out)))",
        "the gain's target is not limited",
    ),
    ("gain-truncated", "floor_div(target - f->gain, 16)", "(target - f->gain) / 16", "the gain's step truncates"),
    ("gain-by-subframes", "f->gain += floor_div", "if (t % SUBFRAME == 0) f->gain += floor_div", "the gain moves once a subframe"),
    (
        "gain-late",
        "f->gain += floor_div(target - f->gain, 16);\n        f->output[t] = limit16(floor_div(f->tilted[t] * f->gain * 17 + 32768, 65536));",
        "f->output[t] = limit16(floor_div(f->tilted[t] * f->gain * 17 + 32768, 65536));\n        f->gain += floor_div(target - f->gain, 16);",
        "the gain moves after its sample",
    ),
    ("gain-sixteen", "f->gain * 17 + 32768", "f->gain * 16 + 32768", "the output without its sixteenth"),
    ("output-cut", "f->gain * 17 + 32768, 65536", "f->gain * 17, 65536", "the output is cut"),
    ("output-wraps", "f->output[t] = limit16(floor_div(f->tilted[t]", "f->output[t] = (int16_t)(floor_div(f->tilted[t]", "the output wraps"),
    ("energies-swapped", "gain_target(energy_in, energy_out);", "gain_target(energy_out, energy_in);", "the gain's ratio upside down"),
]

ERASURE = [
    ("centred-on-3", "f->base_lag + step)", "f->lag + step)", "voicing centred on subframe 3's lag"),
    ("stored-lag-3", "f->base_lag = lag_of(record, 2);", "f->base_lag = lag_of(record, 3);", "subframe 3's lag is stored for voicing"),
    ("stored-lag-a", "f->base_lag = lag_of(record, 2);", "f->base_lag = lag_of(record, 0);", "base lag A is stored for voicing"),
    ("last-lag-base", "f->lag = lag_of(record, 3);", "f->lag = base_lag_of(record, 3);", "the stored lag of subframe 3 is its base lag"),
    ("last-lag-limited", "f->lag = lag_of(record, 3);", "f->lag = limit(SHORTEST_LAG, LONGEST_LAG, lag_of(record, 3));", "the stored lag is limited"),
    ("run-goes-on", "    f->run = 0;\n", "", "a received frame does not end the run"),
    ("voiced-gate", "8 * (wide)c * c >= (wide)e * t", "8 * (wide)c * c > (wide)e * t", "at the gate the frame is unvoiced"),
    ("voiced-half", "8 * (wide)c * c >= (wide)e * t", "4 * (wide)c * c >= (wide)e * t", "the pitch postfilter's gate for voicing"),
    ("voicing-of-0", "    if (c <= 0)\n", "    if (c < 0)\n", "c of 0 has a rank"),
    ("voicing-last", "if (rank > best)", "if (rank >= best)", "the last of equal ranks wins"),
    ("voicing-by-c", "return (wide)c * c * (1 << 30) / ((wide)e * t);", "return c;", "ranks by c alone"),
    ("rank-24-bits", "return (wide)c * c * (1 << 30) / ((wide)e * t);", "return (wide)c * c * (1 << 24) / ((wide)e * t);", "ranks in 2^24ths"),
    ("rank-36-bits", "return (wide)c * c * (1 << 30) / ((wide)e * t);", "return (wide)c * c * (1LL << 36) / ((wide)e * t);", "ranks in 2^36ths"),
    (
        "rank-exact",
        "return (wide)c * c * (1 << 30) / ((wide)e * t);",
        "wide rest = (wide)c * c, parts = 0; for (int i = 0; i < 4; i++) { parts = parts * (1 << 30) + rest * (1 << 30) / ((wide)e * t); rest = rest * (1 << 30) % ((wide)e * t); } return parts;",
        "ranks by quotients of 120 bits, as good as exact",
    ),
    (
        "rank-without-t",
        "return (wide)c * c * (1 << 30) / ((wide)e * t);",
        "return (wide)c * c * (1 << 30) / e;",
        "ranks by the energy of the lagged part alone",
    ),
    ("voicing-short-tail", "if (lag >= TAIL)", "if (lag >= TAIL - 1)", "a lag of 119 does not count"),
    ("voicing-unlimited", "limit(SHORTEST_LAG, LONGEST_LAG, f->base_lag + step)", "f->base_lag + step", "voicing lags below 18"),
    ("voicing-from-2", "int64_t step = -3; step <= 3; step++", "int64_t step = -2; step <= 3; step++", "voicing leaves out the first lag"),
    ("voicing-to-2", "int64_t step = -3; step <= 3; step++", "int64_t step = -3; step <= 2; step++", "voicing leaves out the last lag"),
    ("replay-at-base", "found = voiced ? lag : 0;", "found = voiced ? f->base_lag : 0;", "the stored lag is replayed, not the one found"),
    ("replay-runs-on", "PAST + t - n - lag + n % lag", "PAST + t - lag", "the replay reads what it made within a subframe"),
    ("replay-whole", "PAST + t - n - lag + n % lag", "PAST - lag + t % lag", "the replay reads the history before the frame alone"),
    (
        "replay-full",
        "replay(f, lag, f->tap_sum * attenuation / 32768);",
        "replay(f, lag, f->run > MUTE_AFTER ? 0 : f->tap_sum);",
        "a voiced frame is not attenuated",
    ),
    ("replay-no-taps", "replay(f, lag, f->tap_sum * attenuation / 32768);", "replay(f, lag, attenuation);", "the tap sum plays no part"),
    ("replay-truncated", "floor_div(f->excitation[source] * gain, 32768)", "f->excitation[source] * gain / 32768", "the replay truncates"),
    ("replay-gain-rounded", "f->tap_sum * attenuation / 32768", "(f->tap_sum * attenuation + 16384) / 32768", "the replay's gain is rounded"),
    ("attenuation-stored", "f->tap_sum * attenuation / 32768", "(f->tap_sum = f->tap_sum * attenuation / 32768)", "the attenuated tap sum is stored"),
    (
        "noise-gain-rounded",
        "f->unvoiced_gain * attenuation / 32768",
        "(f->unvoiced_gain * attenuation + 16384) / 32768",
        "the noise's gain is rounded",
    ),
    (
        "noise-full",
        "make_noise(f, f->unvoiced_gain * attenuation / 32768);",
        "make_noise(f, f->run > MUTE_AFTER ? 0 : f->unvoiced_gain);",
        "an unvoiced frame is not attenuated",
    ),
    (
        "noise-by-subframes",
        "        noise = (noise * 1664525 + 1013904223) % modulus;",
        "        if (t % SUBFRAME == 0) noise = (int64_t)((0xDEADBEEF + (wide)f->run * 0x9E3779B9) % modulus);\n        noise = (noise * 1664525 + 1013904223) % modulus;",
        "the noise word starts anew every subframe",
    ),
    ("noise-alike", "(wide)f->run * 0x9E3779B9", "(wide)1 * 0x9E3779B9", "every erased frame has the same noise"),
    ("noise-run-before", "(wide)f->run * 0x9E3779B9", "(wide)(f->run - 1) * 0x9E3779B9", "the noise word starts at the run before"),
    (
        "noise-goes-on",
        "int64_t noise = (int64_t)((0xDEADBEEF + (wide)f->run * 0x9E3779B9) % modulus);",
        "static int64_t noise; noise = f->run > 1 ? noise : (int64_t)((0xDEADBEEF + (wide)f->run * 0x9E3779B9) % modulus);",
        "the noise word goes on over a run",
    ),
    (
        "noise-start-heard",
        "        noise = (noise * 1664525 + 1013904223) % modulus;\n        int64_t value = noise / 256 % 65536 - 32768;",
        "        int64_t value = noise / 256 % 65536 - 32768;\n        noise = (noise * 1664525 + 1013904223) % modulus;",
        "the start word is the first noise",
    ),
    ("noise-top-bits", "noise / 256 % 65536 - 32768", "noise / 65536 - 32768", "noise from the top bits"),
    ("noise-truncated", "floor_div(gain * value, 32768)", "gain * value / 32768", "the noise truncates"),
    ("run-wraps", "limit(0, 4294967295LL, f->run + 1)", "(f->run + 1) % 4294967296LL", "the run wraps"),
    ("run-stops-at-4", "limit(0, 4294967295LL, f->run + 1)", "limit(0, MUTE_AFTER + 1, f->run + 1)", "the run is counted to the muting alone"),
    ("mute-after-2", "f->run > MUTE_AFTER ? 0", "f->run > 2 ? 0", "mute after 2"),
    ("mute-after-4", "f->run > MUTE_AFTER ? 0", "f->run > 4 ? 0 : f->run == 4 ? 10368", "mute after 4"),
    ("first-unattenuated", "ATTENUATION[f->run - 1]", "(f->run == 1 ? 32768 : ATTENUATION[f->run - 2])", "the first erased frame is not attenuated"),
    ("attenuated-alike", "ATTENUATION[f->run - 1]", "ATTENUATION[0]", "every erased frame is attenuated alike"),
    ("found-lag-stored", "    if (lag != 0)\n", "    if (lag != 0 && (f->base_lag = lag))\n", "the replayed lag is stored"),
]

FRAME = [
    ("formant-off", "s < SUBFRAMES && f->postfilter; s++) {", "s < SUBFRAMES; s++) {", "formant, tilt and gain run though off"),
    (
        "memory-off-gain",
        "    if (!f->postfilter)\n",
        "    if (!f->postfilter) state[AT_GAIN] = 4096;\n    if (!f->postfilter)\n",
        "off, the gain starts anew",
    ),
    (
        "memory-off-zeros",
        "    if (!f->postfilter)\n",
        "    if (!f->postfilter) reversed(state + AT_ZEROS, f->synthesis + FRAME);\n    if (!f->postfilter)\n",
        "off, the zeros' memory follows the synthesis",
    ),
    (
        "formant-not-erased",
        "s < SUBFRAMES && f->postfilter; s++) {",
        "s < SUBFRAMES && f->postfilter && f->run == 0; s++) {",
        "erased frames skip formant, tilt and gain",
    ),
    ("tail-of-synthesis", "f->output + FRAME - TAIL, TAIL", "f->synthesis + LSPS + FRAME - TAIL, TAIL", "voicing reads the synthesis"),
    ("tail-received-alone", "    copy(state + AT_TAIL,", "    if (f->run == 0) copy(state + AT_TAIL,", "erased frames leave the tail"),
    (
        "lsps-received-alone",
        "    copy(state + AT_LSP, f->lsp, LSPS);",
        "    if (f->run == 0) copy(state + AT_LSP, f->lsp, LSPS);",
        "erased frames leave the LSPs",
    ),
    (
        "history-received-alone",
        "    copy(state + AT_EXCITATION,",
        "    if (f->run == 0) copy(state + AT_EXCITATION,",
        "erased frames leave the excitation",
    ),
    ("fresh-gain-0", "    state[AT_GAIN] = 4096;\n    state[AT_LAG]", "    state[AT_GAIN] = 0;\n    state[AT_LAG]", "a fresh gain is 0"),
    ("fresh-lag-18", "state[AT_BASE_LAG] = 60;", "state[AT_BASE_LAG] = 18;", "a fresh base lag is 18"),
    ("fresh-lsps-0", "    copy(state + AT_LSP, MEAN_LSP, LSPS);", "", "fresh LSPs are 0"),
    ("constant-frame", "copy(samples, f.output, FRAME);", "for (int n = 0; n < FRAME; n++) samples[n] = 0;", "one constant frame"),
    ("state-untouched", "    close_frame(&f, state);", "", "the state is handed back as it was"),
    (
        "subframe-0-copied",
        "copy(samples, f.output, FRAME);",
        "for (int n = 0; n < FRAME; n++) samples[n] = f.output[n % SUBFRAME];",
        "subframe 0 is copied on",
    ),
]

TABLES = [
    ("steps-from-0", "    -1, 0, 1, 2\n", "    0, 1, 2, 3\n", "steps add 0 to 3"),
    ("six-six-five-five", "    6, 5, 6, 5\n", "    6, 6, 5, 5\n", "pulses 6, 6, 5, 5"),
    ("five-six", "    6, 5, 6, 5\n", "    5, 6, 5, 6\n", "pulses 5, 6, 5, 6"),
    ("attenuation-order", "    24576, 18432, 13824\n", "    13824, 18432, 24576\n", "attenuation in the other order"),
    (
        "previous-4-3-2-1",
        "    3, 2, 1, 0\n};\n\n/* Document 01, \"LSPs\": quarters of the current LSPs in each subframe. */\nstatic const int64_t CURRENT_QUARTERS[SUBFRAMES] = {\n    1, 2, 3, 4\n",
        "    4, 3, 2, 1\n};\n\nstatic const int64_t CURRENT_QUARTERS[SUBFRAMES] = {\n    0, 1, 2, 3\n",
        "the weights of the subframe before",
    ),
]

PLACES = [
    ("nine-passes", "PASSES = 10,", "PASSES = 9,", "nine passes"),
    ("eleven-passes", "PASSES = 10,", "PASSES = 11,", "eleven passes"),
    ("longest-143", "LONGEST_LAG = 142,", "LONGEST_LAG = 143,", "the longest lag is 143"),
    ("longest-141", "LONGEST_LAG = 142,", "LONGEST_LAG = 141,", "the longest lag is 141"),
    ("shortest-17", "SHORTEST_LAG = 18,", "SHORTEST_LAG = 17,", "the shortest lag is 17"),
    ("shortest-20", "SHORTEST_LAG = 18,", "SHORTEST_LAG = 20,", "the shortest lag is 20"),
    ("longest-1096", "LONGEST_LINE = 1098,", "LONGEST_LINE = 1096,", "1,098 characters are too long"),
    ("longest-1100", "LONGEST_LINE = 1098,", "LONGEST_LINE = 1100,", "1,100 characters are not too long"),
]

# The loop over the numbers seen. The wrong orders of counts go up to 999, which no stored count exceeds.
NUMBERS_UP = "for (int number = 1; number < NUMBERS; number++)"
SEEN_UP = NUMBERS_UP + "\n        if (seen[number] > 0)\n"

PROGRAM = [
    ("long-lines-cut", "LONGEST_LINE + 1 - line->length", "LONGEST_LINE - line->length", "an over-long line is cut"),
    (
        "long-is-5",
        "    if (read_pairs(line, record))",
        "    if (line->length > LONGEST_LINE) number = 5; else if (read_pairs(line, record))",
        "an over-long line has a wrong length, 5",
    ),
    (
        "odd-digit-dropped",
        "    if (read_pairs(line, record))",
        "    line->length -= line->length % 2;\n    if (read_pairs(line, record))",
        "an odd digit, and the 1,099th, is dropped",
    ),
    ("odd-is-5", "int number = NOT_A_RECORD;", "int number = line->length % 2 != 0 ? 5 : NOT_A_RECORD;", "an odd digit gives 5"),
    ("no-lower-case", "lower = \"0123456789abcdef\"", "lower = \"0123456789ABCDEF\"", "lower-case digits are none"),
    ("no-upper-case", "digit_value[(unsigned char)upper[i]] = (signed char)i;", "", "upper-case digits are none"),
    ("prints-lower-case", "pair_text[i][0] = upper[i / 16];", "pair_text[i][0] = lower[i / 16];", "samples in lower case"),
    ("high-unasked", "if (high < 0 || low < 0)", "if (low < 0)", "the first of a pair may be no digit"),
    ("low-unasked", "if (high < 0 || low < 0)", "if (high < 0)", "the second of a pair may be no digit"),
    ("seven-bits", "int low = digit_value[line->text[i + 1]];", "int low = digit_value[line->text[i + 1] & 127];", "bytes of seven bits"),
    ("case-folded", "int high = digit_value[line->text[i]];", "int high = digit_value[line->text[i] | 32];", "case folded by setting a bit"),
    ("pairs-swapped", "(unsigned char)(high * 16 + low)", "(unsigned char)(low * 16 + high)", "the low digit first"),
    (
        "cr-dropped",
        "    if (read_pairs(line, record))",
        "    if (line->length > 0 && line->length <= LONGEST_LINE && line->text[line->length - 1] == '\\r') line->length--;\n    if (read_pairs(line, record))",
        "a carriage return ends a line too",
    ),
    (
        "blanks-dropped",
        "    if (read_pairs(line, record))",
        "    while (line->length > 0 && line->length <= LONGEST_LINE && line->text[line->length - 1] == ' ') line->length--;\n    if (read_pairs(line, record))",
        "blanks at the end are dropped",
    ),
    ("empty-skipped", "            answer(line);", "            if (line->length > 0) answer(line);", "an empty line is none"),
    (
        "empty-is-11",
        "    if (line->length > LONGEST_LINE)\n        return 0;",
        "    if (line->length > LONGEST_LINE || line->length == 0)\n        return 0;",
        "an empty line gives 11",
    ),
    ("unended-ignored", "    if (line.length > 0)\n", "    if (0)\n", "the last line needs a newline"),
    ("nothing-answered", "    if (line.length > 0)\n", "    if (1)\n", "nothing after the last newline is a line"),
    (
        "read-ends-line",
        "        take(&line, input, (size_t)count);",
        "        { take(&line, input, (size_t)count); if (line.length > 0) answer(&line); }",
        "a read that ends within a line ends it",
    ),
    (
        "nul-cuts",
        "extend(line, bytes, (size_t)(stop - bytes));",
        "extend(line, bytes, strnlen((const char *)bytes, (size_t)(stop - bytes)));",
        "what stands after a NUL is not read",
    ),
    ("r11-uncounted", "    seen[number]++;", "    if (number != NOT_A_RECORD) seen[number]++;", "R11 is not counted"),
    ("one-of-each", "    seen[number]++;", "    seen[number] = 1;", "a number seen is counted once"),
    ("unseen-printed", "if (seen[number] > 0)", "if (1)", "numbers not seen are printed with 0"),
    ("counts-descend", NUMBERS_UP, "for (int number = NUMBERS - 1; number > 0; number--)", "counts in descending number"),
    (
        "counts-rarest-first",
        SEEN_UP,
        "for (unsigned long long count = 1; count < 1000; count++) " + NUMBERS_UP + " if (seen[number] == count)\n",
        "counts by count, the least first",
    ),
    (
        "counts-rarest-last",
        SEEN_UP,
        "for (unsigned long long count = 999; count > 0; count--) " + NUMBERS_UP + " if (seen[number] == count)\n",
        "counts by count, the greatest first",
    ),
    (
        "counts-by-text",
        SEEN_UP,
        # 1, 10, 100, 101 and so on: three digits, or fewer with zeros after them.
        "for (unsigned long long k = 100; k < 1000; k++) for (int by = 100; by > 0; by /= 10) " + NUMBERS_UP + " if (seen[number] * by == k)\n",
        "counts by the text of the count",
    ),
    (
        "counts-as-met",
        [
            ("static unsigned long long seen[NUMBERS];", "static unsigned long long seen[NUMBERS];\nstatic int met[NUMBERS], turns;"),
            ("    seen[number]++;", "    if (seen[number]++ == 0) met[turns++] = number;"),
            (SEEN_UP, "for (int i = 0, number; i < turns && (number = met[i]); i++)\n"),
        ],
        "counts in the order in which the numbers were met",
    ),
    ("counts-twice", SEEN_UP, NUMBERS_UP + " for (int i = 0; i < 2 && seen[number] > 0; i++)\n", "a number has two lines"),
    (
        "samples-counted",
        [("        print_samples(samples);\n", "        { seen[0]++; print_samples(samples); }\n"), (NUMBERS_UP, "for (int number = 0; number < NUMBERS; number++)")],
        "lines with samples are counted as number 0",
    ),
    ("count-of-two", "\"N%02d %llu\\n\"", "\"N%02d %02llu\\n\"", "counts of two digits"),
    ("n-unpadded", "\"N%02d %llu\\n\"", "\"N%d %llu\\n\"", "N without a leading 0"),
    ("r-unpadded", "\"R%02d\\n\"", "\"R%d\\n\"", "R without a leading 0"),
    (
        "samples-swapped",
        "memcpy(at, pair_text[bits / 256], 2);\n        memcpy(at + 2, pair_text[bits % 256], 2);",
        "memcpy(at, pair_text[bits % 256], 2);\n        memcpy(at + 2, pair_text[bits / 256], 2);",
        "samples are little-endian",
    ),
    (
        "outcome-printed",
        "        print_samples(samples);\n",
        "    {\n        char text[8];\n        print_samples(samples);\n        print(text, snprintf(text, sizeof text, \"%d\\n\", outcome));\n    }\n",
        "the outcome is printed after the samples",
    ),
    ("no-postfilter", "second_fresh(state, 1);", "second_fresh(state, 0);", "without postfilter"),
    (
        "r11-new-call",
        "    if (number == 0)\n",
        "    if (number == NOT_A_RECORD) second_fresh(state, 1);\n    if (number == 0)\n",
        "a line that is no record begins a call",
    ),
    (
        "r11-erased",
        "    if (number == 0)\n",
        "    if (number == NOT_A_RECORD) second_decode(state, (const unsigned char *)\"\", 1, samples, FRAME, &outcome);\n    if (number == 0)\n",
        "a line that is no record changes the state like an erased frame",
    ),
    (
        "refused-erased",
        "    if (number == 0)\n",
        "    if (number > 0 && number < NOT_A_RECORD) second_decode(state, (const unsigned char *)\"\", 1, samples, FRAME, &outcome);\n    if (number == 0)\n",
        "a refused record changes the state like an erased frame",
    ),
]

# What is printed of a code, and the two tests before it.
CODE = "(long long)(choose(SLOTS, n) - 1 - sets_after(slots, n))"
COUNT_TEST = "if (n != MOST_PULSES - 1 && n != MOST_PULSES)"
COUNT_SAID = '\n        printf("%d\\n", WRONG_COUNT);'
SLOT_TEST = "if (has_wrong_slot(slots, n))"
SLOT_SAID = '\n        printf("%d\\n", WRONG_SLOT);'
# Where a function of the reading's own is put.
BEFORE_ANSWER = "/* Answers a list of slots. */\n"


def own_code(sum_of_slot, code="(long long)own(slots, n)"):
    """The code by a sum over the slots, the k-th of which is s; c is the slot after the one before."""
    own = f"""
static int64_t own(const uint64_t *slots, int n)
{{
    int64_t sum = 0, c = 0;
    for (int64_t k = 0; k < n; k++) {{
        int64_t s = (int64_t)slots[k];
        {sum_of_slot}
        c = s + 1;
    }}
    return sum;
}}

"""
    return [(BEFORE_ANSWER, own + BEFORE_ANSWER), (CODE, code)]


def summed(term):
    """The code as a sum of this term over the slots."""
    return own_code(f"sum += {term};")


def skipped(term):
    """The code as a sum of this term over the slots c that are passed over before the k-th; choose(SLOTS - 1 - c, n - 1 - k) is right."""
    return own_code(f"for (; c < s; c++) sum += {term};")


SORTED = """static void answer(const uint64_t *given, int n)
{
    uint64_t slots[ROW];
    for (int k = 0; k < n; k++) {
        int i = k;
        for (; i > 0 && slots[i - 1] > given[k]; i--)
            slots[i] = slots[i - 1];
        slots[i] = given[k];
    }
"""
NO_TWINS = """static void answer(const uint64_t *given, int n)
{
    uint64_t slots[ROW];
    int count = 0;
    for (int k = 0; k < n; k++)
        if (k == 0 || given[k] != given[k - 1])
            slots[count++] = given[k];
    n = count;
"""
ANSWER = "static void answer(const uint64_t *slots, int n)\n{\n"
SLOT_LIMIT = "slots[k] > SLOTS - 1"
SLOT_BEFORE = "slots[k] <= slots[k - 1]"
ROW_SLOT = "row[k] = slot;"

PACKING = [
    ("pack-bits", summed("1LL << s"), "the slots as bits"),
    ("pack-slots-summed", summed("s"), "the sum of the slots"),
    ("pack-from-last", summed("choose(s, k + 1)"), "in the order of the last slot"),
    (
        "pack-from-last-down",
        own_code("sum += choose(s, k + 1);", "(long long)(choose(SLOTS, n) - 1 - own(slots, n))"),
        "in the order of the last slot, from the last set down",
    ),
    ("pack-descending", CODE, "(long long)sets_after(slots, n)", "from the last set down"),
    ("pack-from-1", CODE, CODE.replace(" - 1", ""), "the first code is 1"),
    ("pack-five-after-six", CODE, "(n == 5 ? 593775LL : 0) + " + CODE, "codes of five come after those of six"),
    ("pack-weight-of-pulse", summed("choose(SLOTS - 1 - s, n - 1 - k)"), "the weights of the slots that have pulses"),
    (
        "pack-weight-here-too",
        own_code("for (; c <= s; c++) sum += choose(SLOTS - 1 - c, n - 1 - k);"),
        "the weights of the slots that have pulses are added too",
    ),
    ("pack-next-row", skipped("choose(SLOTS - 1 - c, n - 2 - k)"), "the weights of the next row"),
    ("pack-row-before", skipped("choose(SLOTS - 1 - c, n - k)"), "the weights of the row before"),
    ("pack-five-as-six", skipped("choose(SLOTS - 1 - c, MOST_PULSES - 1 - k)"), "five slots by the weights of six"),
    ("pack-slot-counted", skipped("choose(SLOTS - c, n - 1 - k)"), "a slot is later than itself"),
    ("pack-sorts", ANSWER, SORTED, "the slots are sorted first"),
    ("pack-twins", ANSWER, NO_TWINS, "equal slots count once"),
    ("pack-slot-30", SLOT_LIMIT, "slots[k] > SLOTS", "slot 30 exists"),
    ("pack-slot-29", SLOT_LIMIT, "slots[k] > SLOTS - 2", "slot 29 does not exist"),
    ("pack-sample-59", SLOT_LIMIT, "slots[k] > 2 * SLOTS - 1", "slots may go to 59, as samples do"),
    ("pack-slots-above", SLOT_LIMIT + " || ", "", "a slot may be above 29"),
    ("pack-first-slot-below", SLOT_LIMIT, "(k == 0 && slots[k] > SLOTS - 1)", "the first slot alone may not be above 29"),
    ("pack-slots-from-1", ROW_SLOT, "row[k] = slot - 1;", "slots are numbered from 1"),
    ("pack-slot-0", "(k > 0 && slots[k] <= slots[k - 1])", "slots[k] <= (k > 0 ? slots[k - 1] : 0)", "slot 0 does not exist"),
    ("pack-equal", SLOT_BEFORE, "slots[k] < slots[k - 1]", "equal slots are packed"),
    ("pack-unequal", SLOT_BEFORE, "slots[k] == slots[k - 1]", "descending slots are packed"),
    ("pack-first-pair", "(k > 0 && slots[k]", "(k == 1 && slots[k]", "the first two alone are compared"),
    ("pack-last-pair", "(k > 0 && slots[k]", "(k == n - 1 && slots[k]", "the last two alone are compared"),
    (
        "pack-two-before",
        "(k > 0 && slots[k] <= slots[k - 1])",
        "(k > 1 && slots[k] <= slots[k - 2])",
        "slots are compared with those two places before",
    ),
    (
        "pack-signed",
        [(SLOT_LIMIT, "(int64_t)slots[k] > SLOTS - 1"), (SLOT_BEFORE, "(int64_t)slots[k] <= (int64_t)slots[k - 1]")],
        "slots have a sign",
    ),
    ("pack-8-bits", ROW_SLOT, "row[k] = (uint8_t)slot;", "slots of 8 bits"),
    ("pack-16-bits", ROW_SLOT, "row[k] = (uint16_t)slot;", "slots of 16 bits"),
    ("pack-32-bits", ROW_SLOT, "row[k] = (uint32_t)slot;", "slots of 32 bits"),
    ("pack-63-bits", ROW_SLOT, "row[k] = slot & INT64_MAX;", "slots without the highest bit"),
    ("pack-four", COUNT_TEST, "if (n < MOST_PULSES - 2 || n > MOST_PULSES)", "four slots are packed"),
    ("pack-seven", COUNT_TEST, "if (n < MOST_PULSES - 1 || n > MOST_PULSES + 1)", "seven slots are packed"),
    ("pack-fewer", COUNT_TEST, "if (n > MOST_PULSES)", "all lists of up to six are packed"),
    ("pack-six-alone", COUNT_TEST, "if (n != MOST_PULSES)", "five slots are turned away"),
    ("pack-more-cut", COUNT_TEST, "if (n > MOST_PULSES) n = MOST_PULSES;\n    " + COUNT_TEST, "more than six slots are cut"),
    ("pack-row", "answer(row, n)", "answer(row, ROW)", "the whole row is the list"),
    (
        "pack-slot-first",
        COUNT_TEST + COUNT_SAID + "\n    else " + SLOT_TEST + SLOT_SAID,
        SLOT_TEST + SLOT_SAID + "\n    else " + COUNT_TEST + COUNT_SAID,
        "13 before 12",
    ),
    ("pack-12-alone", "WRONG_SLOT = 13", "WRONG_SLOT = 12", "12 for wrong slots too"),
    ("pack-13-12", "WRONG_COUNT = 12, WRONG_SLOT = 13", "WRONG_COUNT = 13, WRONG_SLOT = 12", "12 and 13 swapped"),
    ("pack-bare", 'printf("0 %lld', 'printf("%lld', "the code without a number before it"),
]

DECODER = OPERATORS + RECORD + NUMBERS + LSPS + INDEX + OUTCOME + PULSES + ADAPTIVE + PITCH + SYNTHESIS + FORMANT + ERASURE + FRAME
FILES = {"decoder.c": DECODER, "tables.h": TABLES, "places.h": PLACES, "frames.c": PROGRAM, "packing.c": PACKING}


def reading(file, name, *row):
    """A row of either form."""
    *change, says = row
    return Reading(name, file, change[0] if len(change) == 1 else [tuple(change)], says)


READINGS = [reading(file, *row) for file, rows in FILES.items() for row in rows]
