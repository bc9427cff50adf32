#ifndef SECOND_DECODER_H
#define SECOND_DECODER_H

#include <stddef.h>
#include <stdint.h>

#include "places.h"

/*
 * The numbers of a state, in the order of their places: previous LSPs, excitation history (oldest first), synthesis
 * memory, formant zeros, formant poles (these three newest first), tilt's previous sample, tilt, gain, last lag,
 * last base lag, tap sum, unvoiced gain, output tail (oldest first), erased run, postfilter.
 *
 * Number 2 tests some of them. The others have to fit their field: 0 to 2^32 - 1 for the erased run,
 * 0 or 1 for the postfilter, 16 bits for the rest.
 */

/* A fresh state, with the postfilter (1) or without (0). */
void second_fresh(int64_t state[STATE_NUMBERS], int postfilter);

/*
 * 0 with the samples and the next state written, or a number of 1 to 10 with both as they were. The outcome is always
 * written: what stabilising says of the frame's LSPs, 0 to 2, and 3 where the record is refused.
 */
int second_decode(int64_t state[STATE_NUMBERS], const unsigned char *record, size_t length, int64_t *samples,
                  size_t count, int *outcome);

#endif
