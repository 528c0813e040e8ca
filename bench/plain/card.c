// A book's machine becomes the card: without the mark, without states that no plan reaches, numbered by first arrival over the letters.
#include "plain.h"
#include <string.h>

static void put16(uint8_t *at, size_t n) {
    at[0] = (uint8_t)n;
    at[1] = (uint8_t)(n >> 8);
}

// Marks 0 become 2 where no state that may end is ahead: rounds back along the moves, downward and upward in turn.
static void mark_dead(uint8_t *marks, const uint8_t *moves, int n, int m) {
    uint8_t live[MOST_STATES];
    for (int p = 0; p < n; p++) live[p] = marks[p];
    for (int changed = 1, up = 0; changed; up = !up) {
        changed = 0;
        for (int turn = 0; turn < n; turn++) {
            int p = up ? turn : n - 1 - turn;
            if (live[p]) continue;
            for (int i = 0; i < m; i++)
                if (live[moves[p * m + i]]) {
                    live[p] = 1;
                    changed = 1;
                    break;
                }
        }
    }
    for (int p = 0; p < n; p++)
        if (!live[p]) marks[p] = 2;
}

size_t plain_card(const Machine *book, const uint8_t *letters, int m, uint8_t *card, size_t room) {
    int k = m + 1, n = 1;
    uint8_t order[MOST_STATES] = {0}, number[MOST_STATES], moves[MOST_STATES * 26];
    memset(number, 255, sizeof number);
    number[0] = 0;
    for (int i = 0; i < n; i++)
        for (int c = 0; c < m; c++) {
            int q = book->next[order[i] * k + c];
            if (number[q] == 255) {
                order[n] = (uint8_t)q;
                number[q] = (uint8_t)n++;
            }
            moves[i * m + c] = number[q];
        }
    size_t length = 12 + (size_t)(m + n + n * m);
    if (length > room) return 0;
    size_t at[4] = {12, 12 + (size_t)m, 12 + (size_t)(m + n), length};
    for (int i = 0; i < 3; i++) {
        put16(card + 4 * i, at[i]);
        put16(card + 4 * i + 2, at[i + 1] - at[i]);
    }
    memcpy(card + at[0], letters, (size_t)m);
    for (int i = 0; i < n; i++) card[at[1] + (size_t)i] = book->accepting[order[i]];
    memcpy(card + at[2], moves, (size_t)(n * m));
    mark_dead(card + at[1], card + at[2], n, m);
    return length;
}
