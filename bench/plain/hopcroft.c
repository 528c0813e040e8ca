// Partition refinement after Hopcroft: a class and a column are taken from the work list, the classes that only partly lead there are split, and the
// smaller part is put on the list. Quick where classes come apart one by one; the lists of predecessors cost twice the table.
#include "plain.h"
#include <string.h>

enum { MOST = MOST_SETS, MOVES = MOST_SETS * MOST_COLUMNS };

static struct {
    uint16_t before[MOVES], at[MOVES + 1];              // predecessors by column and state
    uint16_t state[MOST], place[MOST], class[MOST];     // states in the order of their classes
    uint16_t first[MOST], end[MOST], touched[MOST];     // of each class
    uint16_t hit[MOST];                                 // classes with touched states
    uint16_t waiting[MOVES];                            // class * columns + column
    uint8_t waits[MOVES];
} h;

static void swap_to(int p, int place) {
    int other = h.state[place], old = h.place[p];
    h.state[place] = (uint16_t)p, h.place[p] = (uint16_t)place;
    h.state[old] = (uint16_t)other, h.place[other] = (uint16_t)old;
}

static int wait_for(int c, int column, int k, int waiting) {
    int w = c * k + column;
    if (!h.waits[w]) h.waits[w] = 1, h.waiting[waiting++] = (uint16_t)w;
    return waiting;
}

// Predecessors of each state by each column: counted, then laid out.
#define LAY_OUT(type)                                                                                                                                          \
    do {                                                                                                                                                       \
        const type *move = next;                                                                                                                               \
        for (int p = 0; p < n; p++)                                                                                                                            \
            for (int c = 0; c < k; c++) h.at[c * n + move[p * k + c] + 1]++;                                                                                   \
        for (int q = 0; q < n * k; q++) h.at[q + 1] = (uint16_t)(h.at[q + 1] + h.at[q]);                                                                       \
        for (int p = n; p-- > 0;)                                                                                                                              \
            for (int c = 0; c < k; c++) h.before[--h.at[c * n + move[p * k + c] + 1]] = (uint16_t)p;                                                           \
    } while (0)

int plain_hopcroft(int n, int k, const void *next, int wide, const uint8_t *accepting, int most, uint16_t *class) {
    memset(h.at, 0, sizeof *h.at * (size_t)(n * k + 1));
    if (wide) LAY_OUT(uint16_t);
    else LAY_OUT(uint8_t);
    // at[q + 1] is now where q's predecessors begin, and the next entry where they end
    memmove(h.at, h.at + 1, sizeof *h.at * (size_t)(n * k));
    h.at[n * k] = (uint16_t)(n * k);

    int yes = 0;
    for (int p = 0; p < n; p++) yes += accepting[p] == 1;
    for (int p = 0, a = 0, b = yes; p < n; p++) {
        int place = accepting[p] == 1 ? a++ : b++;
        h.state[place] = (uint16_t)p, h.place[p] = (uint16_t)place;
        h.class[p] = accepting[p] == 1 || yes == 0 ? 0 : 1;
    }
    int count = yes > 0 && yes < n ? 2 : 1, waiting = 0;
    h.first[0] = 0, h.end[0] = (uint16_t)(count == 2 ? yes : n), h.touched[0] = 0;
    h.first[1] = (uint16_t)yes, h.end[1] = (uint16_t)n, h.touched[1] = 0;
    memset(h.waits, 0, (size_t)((n < most ? n : most + 1) * k));
    for (int c = 0; count == 2 && c < k; c++) waiting = wait_for(2 * yes <= n ? 0 : 1, c, k, waiting);

    uint16_t members[MOST];
    while (waiting > 0 && count < n) {
        int w = h.waiting[--waiting], c = w % k, b = w / k, size = h.end[b] - h.first[b], hits = 0;
        h.waits[w] = 0;
        memcpy(members, h.state + h.first[b], sizeof *members * (size_t)size);
        for (int i = 0; i < size; i++) {
            int q = c * n + members[i];
            for (int j = h.at[q]; j < h.at[q + 1]; j++) {
                int p = h.before[j], d = h.class[p];
                if (!h.touched[d]) h.hit[hits++] = (uint16_t)d;
                swap_to(p, h.first[d] + h.touched[d]++);
            }
        }
        for (int i = 0; i < hits; i++) {
            int d = h.hit[i], part = h.touched[d];
            h.touched[d] = 0;
            if (part == h.end[d] - h.first[d]) continue;
            if (count == most) return most + 1;
            int fresh = count++, begin = h.first[d];
            h.first[fresh] = (uint16_t)begin, h.end[fresh] = (uint16_t)(begin + part), h.touched[fresh] = 0;
            h.first[d] = (uint16_t)(begin + part);
            for (int j = begin; j < begin + part; j++) h.class[h.state[j]] = (uint16_t)fresh;
            int smaller = part <= h.end[d] - h.first[d] ? fresh : d;
            for (int e = 0; e < k; e++) waiting = wait_for(h.waits[d * k + e] ? fresh : smaller, e, k, waiting);
        }
    }
    for (int p = 0; class && p < n; p++) class[p] = h.class[p];
    return count;
}
