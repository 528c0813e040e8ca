// One stage: the sets that an operation reaches, in order of arrival. Pairs are found in a table over both operands' states, sets of states are bits in
// two words and found by hashing.
#include "plain.h"
#include <string.h>

// A set: A's one state (joins only) and the bits of the other machine's states. Star's extra state is bit 120.
typedef struct {
    uint64_t bits[2];
    uint64_t state;
} Set;

enum { SLOTS = 1024 };

static void add(Set *s, unsigned i) { s->bits[i >> 6] |= 1ull << (i & 63); }

static const Set empty;

static uint16_t next[MOST_SETS * MOST_COLUMNS];
static uint8_t accepting[MOST_SETS];
static Set sets[MOST_SETS];
static uint16_t slots[SLOTS];

static Set accepting_of(const Machine *m) {
    Set s = empty;
    for (int i = 0; i < m->n; i++)
        if (m->accepting[i]) add(&s, i);
    return s;
}

static int meets(const Set *a, const Set *b) { return ((a->bits[0] & b->bits[0]) | (a->bits[1] & b->bits[1])) != 0; }

static unsigned hash(const Set *s) {
    uint64_t h = s->bits[0] * 0x9E3779B97F4A7C15ull ^ (s->bits[1] + s->state) * 0xC2B2AE3D27D4EB4Full;
    h ^= h >> 32;
    return (unsigned)(h * 0x9E3779B97F4A7C15ull >> 54);
}

// The set's number; a new one's is the count so far.
static int find(const Set *s, int *count) {
    unsigned h = hash(s);
    for (; slots[h]; h = (h + 1) % SLOTS) {
        const Set *t = &sets[slots[h] - 1];
        if (t->bits[0] == s->bits[0] && t->bits[1] == s->bits[1] && t->state == s->state) return slots[h] - 1;
    }
    if (*count == MOST_SETS) return -1;
    sets[*count] = *s;
    slots[h] = (uint16_t)(*count + 1);
    return (*count)++;
}

// Of each column the states that a set's members lead to: row by row, so that the table is read in its own order.
static void lead(const Machine *m, int k, const Set *from, Set *to) {
    for (int w = 0; w < 2; w++)
        for (uint64_t bits = from->bits[w]; bits; bits &= bits - 1) {
            int q = 64 * w + __builtin_ctzll(bits);
            if (q >= m->n) return; // star's extra state has no moves
            const uint8_t *row = &m->next[q * k];
            for (int c = 0; c < k; c++) add(&to[c], row[c]);
        }
}

static int pairs(int op, int k, const Machine *a, const Machine *b) {
    static uint16_t number[MOST_STATES * MOST_STATES];
    static uint16_t pair[MOST_SETS];
    const int nb = b->n;
    memset(number, 0, sizeof *number * (size_t)(a->n * nb));
    int count = 1;
    pair[0] = 0;
    number[0] = 1;
    for (int i = 0; i < count; i++) {
        int p = pair[i] / nb, q = pair[i] % nb;
        int x = a->accepting[p], y = b->accepting[q];
        accepting[i] = (uint8_t)(op == EITHER ? x | y : op == BOTH ? x & y : x & !y);
        for (int c = 0; c < k; c++) {
            int to = a->next[p * k + c] * nb + b->next[q * k + c];
            if (!number[to]) {
                if (count == MOST_SETS) return -8;
                pair[count] = (uint16_t)to;
                number[to] = (uint16_t)++count;
            }
            next[i * k + c] = (uint16_t)(number[to] - 1);
        }
    }
    return count;
}

// Enters the k sets that set i leads to.
static int enter(int i, int k, const Set *to, int *count) {
    for (int c = 0; c < k; c++) {
        int j = find(&to[c], count);
        if (j < 0) return 0;
        next[i * k + c] = (uint16_t)j;
    }
    return 1;
}

static int join(int k, const Machine *a, const Machine *b) {
    Set to[MOST_COLUMNS];
    const Set final = accepting_of(b);
    Set start = empty;
    int count = 0;
    if (a->accepting[0]) add(&start, 0);
    find(&start, &count);
    for (int i = 0; i < count; i++) {
        memset(to, 0, sizeof *to * (size_t)k);
        lead(b, k, &sets[i], to);
        for (int c = 0; c < k; c++) {
            unsigned p = a->next[sets[i].state * k + c];
            to[c].state = p;
            to[c].bits[0] |= a->accepting[p];
        }
        accepting[i] = (uint8_t)meets(&sets[i], &final);
        if (!enter(i, k, to, &count)) return -8;
    }
    return count;
}

static int star(int k, const Machine *a) {
    Set to[MOST_COLUMNS];
    const Set final = accepting_of(a);
    Set extra = empty;
    int count = 0;
    add(&extra, 0);
    add(&extra, MOST_STATES);
    find(&extra, &count);
    for (int i = 0; i < count; i++) {
        memset(to, 0, sizeof *to * (size_t)k);
        lead(a, k, &sets[i], to);
        for (int c = 0; c < k; c++)
            if (meets(&to[c], &final)) {
                to[c].bits[0] |= extra.bits[0];
                to[c].bits[1] |= extra.bits[1];
            }
        accepting[i] = (uint8_t)((sets[i].bits[1] & extra.bits[1]) != 0);
        if (!enter(i, k, to, &count)) return -8;
    }
    return count;
}

// What each state reaches by one mark or more, itself included.
static void closures(int k, const Machine *a, Set *closure) {
    for (int p = 0; p < a->n; p++) {
        Set s = empty, before;
        add(&s, p);
        for (int q = p;;) {
            q = a->next[q * k + k - 1];
            before = s;
            add(&s, q);
            if (s.bits[0] == before.bits[0] && s.bits[1] == before.bits[1]) break;
        }
        closure[p] = s;
    }
}

static int erase(int k, const Machine *a) {
    Set to[MOST_COLUMNS];
    static Set closure[MOST_STATES];
    const Set final = accepting_of(a);
    int count = 0;
    closures(k, a, closure);
    find(&closure[0], &count);
    for (int i = 0; i < count; i++) {
        memset(to, 0, sizeof *to * (size_t)k);
        for (int w = 0; w < 2; w++)
            for (uint64_t bits = sets[i].bits[w]; bits; bits &= bits - 1) {
                const uint8_t *row = &a->next[(64 * w + __builtin_ctzll(bits)) * k];
                for (int c = 0; c + 1 < k; c++) {
                    to[c].bits[0] |= closure[row[c]].bits[0];
                    to[c].bits[1] |= closure[row[c]].bits[1];
                }
            }
        accepting[i] = (uint8_t)meets(&sets[i], &final);
        if (!enter(i, k, to, &count)) return -8;
    }
    return count;
}

int plain_stage(int op, int k, const Machine *a, const Machine *b, Machine *out) {
    int count;
    if (op >= JOIN) memset(slots, 0, sizeof slots);
    switch (op) {
    case JOIN: count = join(k, a, b); break;
    case STAR: count = star(k, a); break;
    case ERASE: count = erase(k, a); break;
    default: count = pairs(op, k, a, b);
    }
    if (count < 0) return count;
    return plain_minimise(count, k, next, accepting, out) ? count : -9;
}
