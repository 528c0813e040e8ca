// The board in plain C: a card's tests, 21 to 26 in order, the walk of a plan, one step, and the fewest letters that a state is away from where a plan may end:
// by a breadth-first search from that state, or for all states at once by one from the ends. No work buffer is lent.
#include "plain.h"
#include <string.h>

typedef struct {
    int m, n;
    const uint8_t *letters, *marks, *moves;
} Card;

static size_t get16(const uint8_t *at) { return at[0] + 256u * at[1]; }

static Card view(const uint8_t *card) {
    Card c = {(int)get16(card + 2), (int)get16(card + 6), card + 12, 0, 0};
    c.marks = c.letters + c.m;
    c.moves = c.marks + c.n;
    return c;
}

static int contents(const uint8_t *card, size_t length) {
    if (length < 12) return 0;
    size_t m = get16(card + 2), n = get16(card + 6);
    return m <= 26 && n >= 1 && n <= 120 && get16(card) == 12 && get16(card + 4) == 12 + m && get16(card + 8) == 12 + m + n
        && get16(card + 10) == n * m && length == 12 + m + n + n * m;
}

static int rising(const Card *c) {
    uint8_t last = 'a' - 1;
    for (int i = 0; i < c->m; i++) {
        if (c->letters[i] <= last || c->letters[i] > 'z') return 0;
        last = c->letters[i];
    }
    return 1;
}

// Without an exit in the loop, so that the compiler may take many moves at once.
static int inside(const Card *c) {
    uint8_t most = 0;
    for (int i = 0; i < c->n * c->m; i++)
        if (c->moves[i] > most) most = c->moves[i];
    return most < c->n;
}

static int numbered(const Card *c) {
    int seen = 1;
    const uint8_t *move = c->moves;
    for (int p = 0; p < c->n; p++) {
        if (p >= seen) return 0;
        for (int i = 0; i < c->m; i++, move++) {
            if (*move > seen) return 0;
            seen += *move == seen;
        }
    }
    return seen == c->n;
}

static int marked(const Card *c) {
    uint8_t live[MOST_STATES];
    for (int p = 0; p < c->n; p++) live[p] = c->marks[p] == 1;
    // Downward and upward in turn: states that are far from the end may lie on either side.
    for (int changed = 1, up = 0; changed; up = !up) {
        changed = 0;
        for (int turn = 0; turn < c->n; turn++) {
            int p = up ? turn : c->n - 1 - turn;
            if (live[p]) continue;
            const uint8_t *row = &c->moves[p * c->m];
            for (int i = 0; i < c->m; i++)
                if (live[row[i]]) {
                    live[p] = 1;
                    changed = 1;
                    break;
                }
        }
    }
    for (int p = 0; p < c->n; p++)
        if (c->marks[p] != 1 && c->marks[p] != (live[p] ? 0 : 2)) return 0;
    return 1;
}

// Splits classes by a key of each state. A class goes by its least state; the classes that one falls into are linked, least states first.
static int split(int n, const uint8_t *class, const uint8_t *key, uint8_t *fresh) {
    uint8_t link[MOST_STATES];
    int count = 0;
    memset(link, 0, (size_t)n);
    for (int p = 0; p < n; p++) {
        int r = class[p];
        while (key[r] != key[p] && link[r]) r = link[r];
        if (key[r] == key[p] && r != p) {
            fresh[p] = (uint8_t)r;
            continue;
        }
        if (r != p) link[r] = (uint8_t)p;
        fresh[p] = (uint8_t)p;
        count++;
    }
    return count;
}

// Partition refinement, one column at a time, each as long as it splits, until every state is alone or no column splits.
static int reduced(const Card *c) {
    if (plain_method == HOPCROFT) return plain_hopcroft(c->n, c->m, c->moves, 0, c->marks, c->n, 0) == c->n;
    uint8_t one[MOST_STATES] = {0}, two[MOST_STATES], key[MOST_STATES], *class = one, *fresh = two;
    for (int p = 0; p < c->n; p++) key[p] = c->marks[p] == 1;
    int count = split(c->n, class, key, fresh);
    class = two, fresh = one;
    for (int i = 0, idle = 0; count < c->n && idle < c->m;) {
        for (int p = 0; p < c->n; p++) key[p] = class[c->moves[p * c->m + i]];
        int parts = split(c->n, class, key, fresh);
        uint8_t *swap = class;
        class = fresh, fresh = swap;
        if (parts == count) {
            idle++;
            i = i + 1 == c->m ? 0 : i + 1;
        } else {
            idle = 0;
            count = parts;
        }
    }
    return count == c->n;
}

static int tested(const uint8_t *card, size_t length) {
    if (!contents(card, length)) return 21;
    Card c = view(card);
    return !rising(&c) ? 22 : !inside(&c) ? 23 : !numbered(&c) ? 24 : !marked(&c) ? 25 : !reduced(&c) ? 26 : 0;
}

static void answer(uint64_t out[3], uint64_t a, uint64_t b, uint64_t c) {
    out[0] = a;
    out[1] = b;
    out[2] = c;
}

void plain_load(const uint8_t *card, size_t length, uint64_t out[3]) {
    int number = tested(card, length);
    if (number) answer(out, (uint64_t)number, 0, 0);
    else answer(out, 0, get16(card + 2), get16(card + 6));
}

// Forward, level by level, until the first state where a plan may end. The state has marks 0, so there is one.
static uint64_t fewest(const Card *c, int state) {
    uint8_t queue[MOST_STATES], seen[MOST_STATES] = {0};
    int head = 0, tail = 1;
    queue[0] = (uint8_t)state;
    seen[state] = 1;
    for (uint64_t k = 1; head < tail; k++)
        for (int end = tail; head < end; head++) {
            const uint8_t *row = &c->moves[queue[head] * c->m];
            for (int i = 0; i < c->m; i++) {
                const int q = row[i];
                if (seen[q]) continue;
                if (c->marks[q] == 1) return k;
                seen[q] = 1;
                queue[tail++] = (uint8_t)q;
            }
        }
    return 0;
}

// Backward, from all states where a plan may end at once. The states that lead to one stand together in `from`, those of state q between at[q] and at[q + 1].
void plain_owed(const uint8_t *card, uint8_t owed[MOST_STATES]) {
    const Card c = view(card);
    uint16_t at[MOST_STATES + 2] = {0};
    uint8_t from[MOST_STATES * 26], queue[MOST_STATES];
    int head = 0, tail = 0;
    for (int i = 0; i < c.n * c.m; i++) at[c.moves[i] + 2]++;
    for (int q = 2; q <= c.n; q++) at[q] = (uint16_t)(at[q] + at[q - 1]);
    for (int p = 0, i = 0; p < c.n; p++)
        for (int column = 0; column < c.m; column++, i++) from[at[c.moves[i] + 1]++] = (uint8_t)p;
    for (int p = 0; p < c.n; p++) {
        owed[p] = c.marks[p] == 1 ? 0 : 255;
        if (c.marks[p] == 1) queue[tail++] = (uint8_t)p;
    }
    for (; head < tail; head++)
        for (int q = queue[head], i = at[q]; i < at[q + 1]; i++)
            if (owed[from[i]] == 255) {
                owed[from[i]] = (uint8_t)(owed[q] + 1);
                queue[tail++] = from[i];
            }
}

void plain_walk(const uint8_t *card, const uint8_t *owed, const uint8_t *plan, size_t letters, uint64_t out[3]) {
    Card c = view(card);
    uint8_t column[256];
    memset(column, c.m, sizeof column);
    for (int i = c.m; i-- > 0;) column[c.letters[i]] = (uint8_t)i;
    size_t s = 0, k = 0, dead = 0;
    const size_t m = (size_t)c.m;
    int hopeless = c.marks[0] == 2;
    while (k < letters && !hopeless) {
        size_t i = column[plan[k]];
        if (i >= m) {
            answer(out, 27, 0, k);
            return;
        }
        s = c.moves[s * m + i];
        k++;
        if (c.marks[s] == 2) {
            hopeless = 1;
            dead = k;
        }
    }
    for (; k < letters; k++)
        if (column[plan[k]] >= m) {
            answer(out, 27, 0, k);
            return;
        }
    if (hopeless) answer(out, 0, 2, dead);
    else if (c.marks[s] == 1) answer(out, 0, 1, 0);
    else answer(out, 0, 0, owed ? owed[s] : fewest(&c, (int)s));
}

void plain_judge(const uint8_t *card, size_t length, const uint8_t *plan, size_t letters, uint64_t out[3]) {
    int number = tested(card, length);
    if (number) answer(out, (uint64_t)number, 0, 0);
    else plain_walk(card, 0, plan, letters, out);
}

void plain_step(const uint8_t *card, size_t length, size_t state, uint8_t letter, uint64_t out[4]) {
    int number = tested(card, length), i = 0;
    answer(out + 1, 0, 0, 0);
    out[0] = (uint64_t)number;
    if (number) return;
    Card c = view(card);
    while (i < c.m && c.letters[i] != letter) i++;
    out[0] = i == c.m ? 27 : state >= (size_t)c.n ? 28 : 0;
    if (out[0]) return;
    const int q = c.moves[(int)state * c.m + i];
    answer(out + 1, (uint64_t)q, c.marks[q], c.marks[q] ? 0 : fewest(&c, q));
}
