// A plan's shortest forbidden factor in plain C: the shortest stretch that lies inside no allowed plan. One pass from right to left, a step for each letter and
// state.
#include "plain.h"
#include <string.h>

static const size_t never = SIZE_MAX; // no plan has as many letters, nor as many less a place

// Over known letters, on a card that allows something: `ends` has for each state the least place up to which the letters from i on lead it to the dead state.
// So the shortest factor from i that lies inside no allowed plan ends at the greatest of them; of equally long ones the last found is the leftmost. A card has
// one dead state or none; where it has none, the entry `dead` is one that no state is led to.
static void pass(size_t m, size_t n, const uint8_t *marks, const uint8_t *column, const uint8_t *plan, size_t letters, uint64_t out[4]) {
    const uint8_t *moves = marks + n;
    size_t one[MOST_STATES + 1], two[MOST_STATES + 1], *ends = one, *fresh = two, dead = 0, start = never, best = letters;
    while (dead < n && marks[dead] != 2) dead++;
    for (size_t q = 0; q < n; q++) ends[q] = never;
    ends[dead] = letters;
    for (size_t i = letters; i-- > 0;) {
        const uint8_t *move = moves + column[plan[i]];
        size_t last = 0, *swap = ends;
        for (size_t q = 0; q < n; q++) {
            size_t end = ends[move[q * m]];
            fresh[q] = end;
            if (end > last) last = end;
        }
        fresh[dead] = i;
        ends = fresh, fresh = swap;
        start = last - i <= best ? i : start;
        best = last - i < best ? last - i : best;
    }
    if (start != never) out[1] = 1, out[2] = start, out[3] = best;
}

void plain_shortest(const uint8_t *card, size_t length, const uint8_t *plan, size_t letters, uint64_t out[4]) {
    plain_load(card, length, out);
    const size_t m = out[1], n = out[2];
    out[1] = out[2] = out[3] = 0;
    if (out[0]) return;
    const uint8_t *names = card + 12, *marks = names + m;
    uint8_t column[256];
    memset(column, (int)m, sizeof column);
    for (size_t i = 0; i < m; i++) column[names[i]] = (uint8_t)i;
    for (size_t k = 0; k < letters; k++)
        if (column[plan[k]] >= m) {
            out[0] = 27, out[2] = k;
            return;
        }
    if (marks[0] == 2) out[1] = 1;
    else pass(m, n, marks, column, plan, letters, out);
}
