// How many plans of a length are allowed, unfinished and hopeless, in plain C: letter by letter, how many plans lead from the start to each state. A step for
// each letter of the length, each state that is reached and each column.
#include "plain.h"
#include <string.h>

enum { MOST_LETTERS = 4096, PAST_COUNTING = 31 };

// Whether m to the power k is a number of 64 bits.
static int countable(uint64_t m, size_t k) {
    uint64_t power = 1;
    if (k > MOST_LETTERS) return 0;
    if (m < 2) return 1;
    for (; k > 0; k--)
        if (__builtin_mul_overflow(power, m, &power)) return 0;
    return 1;
}

void plain_count(const uint8_t *card, size_t length, size_t letters, uint64_t out[4]) {
    plain_load(card, length, out);
    const size_t m = out[1], n = out[2];
    out[1] = out[2] = out[3] = 0;
    if (out[0]) return;
    if (!countable(m, letters)) {
        out[0] = PAST_COUNTING;
        return;
    }
    const uint8_t *marks = card + 12 + m, *moves = marks + n;
    uint64_t one[MOST_STATES] = {1}, two[MOST_STATES], *plans = one, *next = two;
    for (; letters > 0; letters--) {
        memset(next, 0, n * sizeof *next);
        for (size_t p = 0; p < n; p++) {
            if (!plans[p]) continue;
            for (size_t i = 0; i < m; i++) next[moves[p * m + i]] += plans[p];
        }
        uint64_t *swap = plans;
        plans = next, next = swap;
    }
    for (size_t p = 0; p < n; p++) out[marks[p] == 1 ? 1 : marks[p] == 0 ? 2 : 3] += plans[p];
}
