#ifndef SECOND_PLACES_H
#define SECOND_PLACES_H

/* Counts, places and limits of documents 01 and 02, for the decoder and the programs. */

enum { LEAST = -32768, MOST = 32767 };

enum {
    LSPS = 10,
    SUBFRAMES = 4,
    SUBFRAME = 60,
    FRAME = SUBFRAMES * SUBFRAME,
    PAST = 146,
    TAIL = 120,
    TAPS = 5,
    SLOTS = 30,
    MOST_PULSES = 6,
    SHORTEST_LAG = 18,
    LONGEST_LAG = 142,
    PASSES = 10,
    MUTE_AFTER = 3
};

/* Kinds; the last two have an index in place of the LSPs. */
enum { ERASED = 0, HIGH = 1, LOW = 2, HIGH_INDEX = 3, LOW_INDEX = 4, MOST_KIND = LOW_INDEX };

/* The LSPs of each band of an index, and the rows of its codebook. */
enum { BAND_0 = 3, BAND_1 = 3, BAND_2 = 4, ROWS = 256 };

/* The head of a received record, the kind and LSPs or an index: where they stand, and its bytes. */
enum {
    BYTE_LSP = 1,
    BYTE_INDEX = 1,
    LSP_HEAD = 21,
    INDEX_HEAD = 4
};

/* Places after the head. */
enum {
    FIELD_LAG_A = 0,
    FIELD_STEP_1 = 1,
    FIELD_LAG_B = 2,
    FIELD_STEP_3 = 3,
    FIELD_BLOCKS = 4
};

/* Places in a block, and its bytes. */
enum {
    BLOCK_TAPS = 0,
    BLOCK_GAIN = 10,
    BLOCK_FLAGS = 11,
    BLOCK_SIGNS = 12,
    BLOCK_CODE = 13,
    BLOCK_VALUES = 11,
    HIGH_BLOCK = 16,
    LOW_BLOCK = 131
};

/* The limits of a record. */
enum {
    MOST_LAG_CODE = 127,
    MOST_STEP = 3,
    MOST_GAIN_INDEX = 23,
    MOST_FLAGS = 3,
    FIRST_LAG = 18,
    LONG_BASE_LAG = 58,
    CODES_OF_SIX = 593775,
    CODES_OF_FIVE = 142506
};

/* Places in the state, and how many numbers it is. */
enum {
    AT_LSP = 0,
    AT_EXCITATION = AT_LSP + LSPS,
    AT_SYNTHESIS = AT_EXCITATION + PAST,
    AT_ZEROS = AT_SYNTHESIS + LSPS,
    AT_POLES = AT_ZEROS + LSPS,
    AT_TILT_BEFORE = AT_POLES + LSPS,
    AT_TILT = AT_TILT_BEFORE + 1,
    AT_GAIN = AT_TILT + 1,
    AT_LAG = AT_GAIN + 1,
    AT_BASE_LAG = AT_LAG + 1,
    AT_TAP_SUM = AT_BASE_LAG + 1,
    AT_UNVOICED_GAIN = AT_TAP_SUM + 1,
    AT_TAIL = AT_UNVOICED_GAIN + 1,
    AT_RUN = AT_TAIL + TAIL,
    AT_POSTFILTER = AT_RUN + 1,
    STATE_NUMBERS = AT_POSTFILTER + 1
};

/* What stabilising says of a frame's candidate LSPs; the last stands where no frame was decoded. */
enum { UNTOUCHED = 0, MOVED = 1, PREVIOUS = 2, NO_OUTCOME = 3 };

/* The bounds of number 2 that are not those of 16 bits. */
enum {
    MOST_GAIN = 1048576,
    LEAST_LAST_LAG = 17,
    MOST_LAST_LAG = 147,
    LEAST_BASE_LAG = 18,
    MOST_BASE_LAG = 145,
    MOST_TAP_SUM = 32767,
    MOST_UNVOICED_GAIN = 13246
};

/* Of program frames: the longest line that can be a record, and the number of a line that is none. */
enum { LONGEST_LINE = 1098, NOT_A_RECORD = 11 };

#endif
