/*
 * Program `packing`: it answers the questions fcbk_pack_positions of crates/answers/stdin as `oracle layers` does. A line has the
 * name, how many slots the list has and a row of eight numbers, which begins with them. The answer is 0 and the code, or the number
 * of document 02, E4.
 *
 * Nothing is walked here. The codes number the sets of slots in the order of their first difference, so that a set's code is
 * what is left of all codes without the sets after it.
 */
#include <stdint.h>
#include <stdio.h>

#include "choose.h"
#include "places.h"

enum { ROW = 8, WRONG_COUNT = 12, WRONG_SLOT = 13 };

/* Whether a slot is above 29, or not greater than the one before. */
static int has_wrong_slot(const uint64_t *slots, int n)
{
    for (int k = 0; k < n; k++)
        if (slots[k] > SLOTS - 1 || (k > 0 && slots[k] <= slots[k - 1]))
            return 1;
    return 0;
}

/* The sets after that of the slots: equal to it before its k-th slot, and greater there. */
static int64_t sets_after(const uint64_t *slots, int n)
{
    int64_t sets = 0;
    for (int k = 0; k < n; k++)
        sets += choose(SLOTS - 1 - (int64_t)slots[k], n - k);
    return sets;
}

/* Answers a list of slots. */
static void answer(const uint64_t *slots, int n)
{
    if (n != MOST_PULSES - 1 && n != MOST_PULSES)
        printf("%d\n", WRONG_COUNT);
    else if (has_wrong_slot(slots, n))
        printf("%d\n", WRONG_SLOT);
    else
        printf("0 %lld\n", (long long)(choose(SLOTS, n) - 1 - sets_after(slots, n)));
}

int main(void)
{
    int n;
    int found;
    while ((found = scanf(" fcbk_pack_positions %d", &n)) == 1 && n >= 0 && n <= ROW) {
        uint64_t row[ROW];
        for (int k = 0; k < ROW; k++) {
            unsigned long long slot;
            if (scanf("%llu", &slot) != 1)
                return 1;
            row[k] = slot;
        }
        answer(row, n);
    }
    return found != EOF;
}
