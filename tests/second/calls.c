/*
 * Program `calls` over the decoder beside it: it answers the lines of crates/calls/stdin as `oracle calls` does, so that
 * answers from given states bind this decoder too. A line has a letter, three fields of four hexadecimal digits, and as
 * many bytes as the third field says:
 *
 *   F   a fresh state, with the postfilter if the first field is 1
 *   S   a state: its numbers, four bytes each
 *   D   a record: the first field is the length of the samples, each of which is the second field before
 *
 * The answer is a number, the outcome, 3 where no frame was decoded, and the checksums of the samples and of the state.
 * At a line that is none it ends with `?`.
 */
#include <stdint.h>
#include <stdio.h>

#include "decoder.h"

enum { LONGEST = 1 << 16 };

/* What a line holds, with all the bytes that its third field can ask for. */
struct line {
    int letter;
    unsigned first;
    unsigned second;
    unsigned count;
    unsigned char bytes[LONGEST];
};

static struct line line;
static int64_t state[STATE_NUMBERS];
static int64_t samples[LONGEST];

/* A polynomial in 1000003 modulo the prime 2^43 - 57, so that each number and its place count. */
static int64_t checksum(const int64_t *list, size_t count)
{
    const int64_t prime = (1LL << 43) - 57;
    int64_t sum = 0;
    for (size_t i = 0; i < count; i++)
        sum = (int64_t)(((__int128)sum * 1000003 + list[i] + (1LL << 31)) % prime);
    return sum;
}

/* The next line; 0 at the end of the input, -1 for what is no line. */
static int read_line(void)
{
    char letter;
    int found = scanf(" %c%4x%4x%4x", &letter, &line.first, &line.second, &line.count);
    if (found == EOF)
        return 0;
    if (found != 4)
        return -1;
    line.letter = letter;
    for (unsigned i = 0; i < line.count; i++)
        if (scanf("%2hhx", &line.bytes[i]) != 1)
            return -1;
    return 1;
}

/* A number of the state; the erased run is the one without a sign. */
static int64_t number_at(int k)
{
    const unsigned char *b = line.bytes + 4 * k;
    int64_t bits = ((b[0] * 256LL + b[1]) * 256 + b[2]) * 256 + b[3];
    return k == AT_RUN || bits < 1LL << 31 ? bits : bits - (1LL << 32);
}

/* The number and the outcome of a record, whose samples all hold a mark before. */
static int decode(int *outcome)
{
    for (unsigned i = 0; i < line.first; i++)
        samples[i] = line.second < 32768 ? line.second : line.second - 65536LL;
    return second_decode(state, line.bytes, line.count, samples, line.first, outcome);
}

/* Answers a line; 0 if it is none. */
static int answer(void)
{
    int number = 0;
    int outcome = NO_OUTCOME;
    size_t length = 0;
    if (line.letter == 'F') {
        second_fresh(state, line.first == 1);
    } else if (line.letter == 'S' && line.count == 4 * STATE_NUMBERS) {
        for (int k = 0; k < STATE_NUMBERS; k++)
            state[k] = number_at(k);
    } else if (line.letter == 'D') {
        number = decode(&outcome);
        length = line.first;
    } else {
        return 0;
    }
    printf("%d %d ", number, outcome);
    printf("%lld %lld\n", (long long)checksum(samples, length), (long long)checksum(state, STATE_NUMBERS));
    return 1;
}

int main(void)
{
    int found;
    second_fresh(state, 1);
    while ((found = read_line()) > 0 && answer())
        ;
    if (found != 0)
        puts("?");
    return found != 0;
}
