// The smallest machine of a table. Partition refinement after Moore, or after Hopcroft (hopcroft.c): in each of Moore's rounds a state's signature is its own class and those that its columns lead to, laid out as a row of words;
// equal rows are found by hashing. States alone in their class are left as they are. The classes are then numbered by first arrival.
#include "plain.h"
#include <string.h>

enum { SLOTS = 1024, WORDS = 7 }; // a signature: 28 classes of 16 bits

typedef struct {
    int n, k, words;
    const uint16_t *next;
    uint16_t class[MOST_SETS], fresh[MOST_SETS], size[MOST_SETS], leader[MOST_SETS];
    uint64_t row[MOST_SETS][WORDS];
    uint16_t slots[SLOTS];
    uint16_t used[MOST_SETS];
} Refinement;

static const uint64_t weight[WORDS] = {0x9E3779B97F4A7C15, 0xC2B2AE3D27D4EB4F, 0x165667B19E3779F9, 0xD6E8FEB86659FD93,
                                       0xA0761D6478BD642F, 0xE7037ED1A0B428DB, 0x8EBC6AF09C88C6E3};

// Four classes a word, put together in a register: a word that is stored in parts and read whole would wait for the stores.
static unsigned signature(Refinement *r, int p) {
    const uint16_t *move = &r->next[p * r->k], *class = r->class;
    uint64_t *row = r->row[p], h = 0, word = class[p];
    int w = 0, shift = 16;
    for (int c = 0; c < r->k; c++) {
        word |= (uint64_t)class[move[c]] << shift;
        shift += 16;
        if (shift == 64) {
            row[w] = word;
            h += (word ^ word >> 29) * weight[w++];
            word = 0;
            shift = 0;
        }
    }
    if (shift) {
        row[w] = word;
        h += (word ^ word >> 29) * weight[w];
    }
    return (unsigned)((h ^ h >> 31) * weight[0] >> 54);
}

static int alike(const Refinement *r, int p, int q) {
    for (int w = 0; w < r->words; w++)
        if (r->row[p][w] != r->row[q][w]) return 0;
    return 1;
}

// One round: how many classes there are then.
static int part(Refinement *r) {
    int count = 0, used = 0;
    for (int p = 0; p < r->n; p++) {
        if (r->size[r->class[p]] == 1) {
            r->leader[count] = (uint16_t)p;
            r->fresh[p] = (uint16_t)count++;
            continue;
        }
        unsigned h = signature(r, p);
        while (r->slots[h] && !alike(r, r->leader[r->slots[h] - 1], p)) h = (h + 1) % SLOTS;
        if (!r->slots[h]) {
            r->used[used++] = (uint16_t)h;
            r->leader[count] = (uint16_t)p;
            r->slots[h] = (uint16_t)++count;
        }
        r->fresh[p] = (uint16_t)(r->slots[h] - 1);
    }
    while (used) r->slots[r->used[--used]] = 0;
    return count;
}

static void adopt(Refinement *r, int count) {
    memset(r->size, 0, sizeof *r->size * (size_t)count);
    for (int p = 0; p < r->n; p++) {
        r->class[p] = r->fresh[p];
        r->size[r->class[p]]++;
    }
}

int plain_method = ROUNDS;

// Rounds until one finds no more classes; false where there are over 120.
static int rounds(Refinement *r, const uint8_t *accepting, int *classes) {
    int n = r->n;
    r->words = (r->k + 4) / 4;
    for (int p = 0; p < n; p++) r->fresh[p] = accepting[p];
    adopt(r, 2);
    int count = 0;
    for (int parts; (parts = part(r)) != count; count = parts) {
        if (parts > MOST_STATES) return 0; // classes only grow in number
        adopt(r, parts);
    }
    *classes = count;
    return 1;
}

// Hopcroft's classes, numbered by their first states.
static int partition(Refinement *r, const uint8_t *accepting, int *classes) {
    int count = 0;
    if (plain_hopcroft(r->n, r->k, r->next, 1, accepting, MOST_STATES, r->fresh) > MOST_STATES) return 0;
    memset(r->size, 0, sizeof *r->size * (size_t)r->n);
    for (int p = 0; p < r->n; p++) {
        uint16_t *number = &r->size[r->fresh[p]]; // one more than the class's number
        if (!*number) {
            r->leader[count] = (uint16_t)p;
            *number = (uint16_t)++count;
        }
        r->class[p] = (uint16_t)(*number - 1);
    }
    *classes = count;
    return 1;
}

int plain_minimise(int n, int k, const uint16_t *next, const uint8_t *accepting, Machine *out) {
    static Refinement refinement;
    Refinement *r = &refinement;
    int count;
    r->n = n;
    r->k = k;
    r->next = next;
    if (!(plain_method == HOPCROFT ? partition : rounds)(r, accepting, &count)) return 0;
    // A table's states are numbered by first arrival, so its classes are too, each by its first state.
    for (int d = 0; d < count; d++) {
        int p = r->leader[d];
        out->accepting[d] = accepting[p];
        for (int c = 0; c < k; c++) out->next[d * k + c] = (uint8_t)r->class[next[p * k + c]];
    }
    out->n = count;
    return 1;
}
