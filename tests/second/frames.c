/* Program `frames` of document 01, over the decoder beside it. */
#include <signal.h>
#include <stdint.h>
#include <stdio.h>
#include <stdlib.h>
#include <string.h>
#include <unistd.h>

#include "decoder.h"

enum {
    NUMBERS = NOT_A_RECORD + 1,
    INPUT = 1 << 16,
    OUTPUT = 1 << 16
};

/* A line: of an over-long one only the length counts, which stops one above the longest. */
struct line {
    size_t length;
    unsigned char text[LONGEST_LINE];
};

static unsigned char output[OUTPUT];
static size_t output_used;
static char pair_text[256][2];
static signed char digit_value[256];
static int64_t state[STATE_NUMBERS];
static unsigned long long seen[NUMBERS];

/* Writes what is held back; a failing write is a quiet end. */
static void flush(void)
{
    size_t done = 0;
    while (done < output_used) {
        ssize_t count = write(STDOUT_FILENO, output + done, output_used - done);
        if (count <= 0)
            exit(0);
        done += (size_t)count;
    }
    output_used = 0;
}

/* Room for so many bytes of output. */
static unsigned char *room(size_t count)
{
    if (output_used + count > OUTPUT)
        flush();
    unsigned char *at = output + output_used;
    output_used += count;
    return at;
}

/* Prints text. */
static void print(const char *text, int length)
{
    memcpy(room((size_t)length), text, (size_t)length);
}

/* The digits of a byte, and the value of a digit of either case or -1. */
static void make_tables(void)
{
    const char *upper = "0123456789ABCDEF";
    const char *lower = "0123456789abcdef";
    memset(digit_value, -1, sizeof digit_value);
    for (int i = 0; i < 16; i++) {
        digit_value[(unsigned char)upper[i]] = (signed char)i;
        digit_value[(unsigned char)lower[i]] = (signed char)i;
    }
    for (int i = 0; i < 256; i++) {
        pair_text[i][0] = upper[i / 16];
        pair_text[i][1] = upper[i % 16];
    }
}

/* The bytes of a line; 0 if it is too long or not digit pairs. */
static int read_pairs(const struct line *line, unsigned char *record)
{
    if (line->length > LONGEST_LINE)
        return 0;
    if (line->length % 2 != 0)
        return 0;
    for (size_t i = 0; i < line->length; i += 2) {
        int high = digit_value[line->text[i]];
        int low = digit_value[line->text[i + 1]];
        if (high < 0 || low < 0)
            return 0;
        record[i / 2] = (unsigned char)(high * 16 + low);
    }
    return 1;
}

/* Prints the samples, four digits each. */
static void print_samples(const int64_t *samples)
{
    unsigned char *at = room(FRAME * 4 + 1);
    for (int n = 0; n < FRAME; n++) {
        unsigned bits = (unsigned)(samples[n] & 65535);
        memcpy(at, pair_text[bits / 256], 2);
        memcpy(at + 2, pair_text[bits % 256], 2);
        at += 4;
    }
    *at = '\n';
}

/* Prints a number and counts it. */
static void print_number(int number)
{
    char text[16];
    seen[number]++;
    print(text, snprintf(text, sizeof text, "R%02d\n", number));
}

/* Answers a line and makes room for the next. */
static void answer(struct line *line)
{
    unsigned char record[LONGEST_LINE / 2];
    int64_t samples[FRAME];
    int outcome;
    int number = NOT_A_RECORD;
    if (read_pairs(line, record))
        number = second_decode(state, record, line->length / 2, samples, FRAME, &outcome);
    if (number == 0)
        print_samples(samples);
    else
        print_number(number);
    line->length = 0;
}

/* Adds bytes without a newline to the line. */
static void extend(struct line *line, const unsigned char *bytes, size_t count)
{
    size_t left = LONGEST_LINE + 1 - line->length;
    size_t more = count < left ? count : left;
    if (line->length + more <= LONGEST_LINE)
        memcpy(line->text + line->length, bytes, more);
    line->length += more;
}

/* Takes in bytes; a newline ends a line. */
static void take(struct line *line, const unsigned char *bytes, size_t count)
{
    const unsigned char *end = bytes + count;
    while (bytes < end) {
        const unsigned char *newline = memchr(bytes, '\n', (size_t)(end - bytes));
        const unsigned char *stop = newline != NULL ? newline : end;
        extend(line, bytes, (size_t)(stop - bytes));
        bytes = stop;
        if (newline != NULL) {
            answer(line);
            bytes++;
        }
    }
}

/* Prints the numbers seen, ascending. */
static void print_counts(void)
{
    char text[40];
    for (int number = 1; number < NUMBERS; number++)
        if (seen[number] > 0)
            print(text, snprintf(text, sizeof text, "N%02d %llu\n", number, seen[number]));
}

/* Reads to the end of the input; a read that fails is the end. */
int main(void)
{
    static unsigned char input[INPUT];
    static struct line line;
    ssize_t count;
    signal(SIGPIPE, SIG_IGN);
    make_tables();
    second_fresh(state, 1);
    while ((count = read(STDIN_FILENO, input, INPUT)) > 0)
        take(&line, input, (size_t)count);
    if (line.length > 0)
        answer(&line);
    print_counts();
    flush();
    return 0;
}
