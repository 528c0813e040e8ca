// Books and cards made from a seed, so that nothing is tuned to one text: listed words, complements in brackets, random rows of letters, words that
// collapse, rules of the three kinds; counters that go up and down, random machines that are already smallest, machines with few classes.
#include "bench.h"
#include <stdio.h>
#include <stdlib.h>
#include <string.h>

#define ALPHABET "abcdefghijklmnopqrstuvwxyz"

static uint32_t state;

void begin_seed(uint32_t salt) {
    const char *given = getenv("PIER_SEED");
    state = 2463534242u ^ (given ? (uint32_t)strtoul(given, 0, 10) * 2654435761u : 0) ^ salt * 40503u;
    if (!state) state = 1;
}

int below(int n) {
    state ^= state << 13, state ^= state >> 17, state ^= state << 5;
    return (int)((state >> 8) % (uint32_t)n);
}

static char letter(int m) { return (char)('a' + below(m)); }

// So many different words of three letters, each with a first letter of its own.
static void words(char *out) {
    char w[8];
    *out = 0;
    for (int i = 0; i < 26; i++) {
        snprintf(w, sizeof w, "%s%c%c%c", i ? "|" : "", 'a' + i, letter(26), letter(26));
        strcat(out, w);
    }
}

static void listed_words(char *out, int size) {
    char first[128], second[128];
    (void)size;
    words(first);
    words(second);
    sprintf(out, ":" ALPHABET "\n>%s\n>%s / .*%c _ .*\n", first, second, letter(26));
}

static void complements(char *out, int size) {
    out += sprintf(out, ":abcdef\n");
    for (int i = 0; i < 3; i++) {
        char a = letter(size), b = letter(size), c = letter(size), d = letter(size), e = letter(size);
        out += sprintf(out, ">(%c%c|%c(!(.*%c.*)&..)%c) / (!(.*%c%c.*)) _ (!(%c.*))\n", a, b, b, c, d, c, e, d);
    }
}

static void row(char *out, int size) {
    out += sprintf(out, ":" ALPHABET "\n>");
    for (int i = 0; i < size; i++) *out++ = letter(26);
    strcpy(out, "\n");
}

// All words of three letters out of so many, in some order: three letters in a row are too many.
static void collapsing(char *out, int size) {
    int word[216], count = size * size * size;
    for (int i = 0; i < count; i++) word[i] = i;
    out += sprintf(out, ":%.*s\n>", size, ALPHABET);
    for (int i = count; i-- > 0;) {
        int j = below(i + 1), w = word[j];
        word[j] = word[i];
        out += sprintf(out, "%c%c%c%s", 'a' + w % size, 'a' + w / size % size, 'a' + w / size / size, i ? "|" : "\n");
    }
}

// Three rules, one of each kind: a word needs one letter or another ahead of it; a letter and a word are forbidden from a letter to the next of another, in up
// to four contexts; what lies between two letters, if anything, holds one of two others.
static void three_kinds(char *out, int size) {
    char c[24];
    for (int i = 0; i < 24; i++) c[i] = letter(size);
    out += sprintf(out, ":%.*s\n>%c%c / .*%c _ .* / .*%c _ .*\n<%c|%c%c", size, ALPHABET, c[0], c[1], c[2], c[3], c[4], c[5], c[6]);
    for (int i = 1 + below(4); i > 0; i--) out += sprintf(out, " / .*%c(.-%c)* _ .*", c[6 + 2 * i], c[7 + 2 * i]);
    sprintf(out, "\n^@|.*(%c|%c).* / .*%c _ %c.* / .*%c%c _ @\n", c[16], c[17], c[18], c[19], c[20], c[21]);
}

typedef struct {
    const char *name;
    void (*make)(char *out, int size);
    int size;
} Shape;

static const Shape shapes[] = {
    {"listed-words-26", listed_words, 0}, {"complements-6", complements, 6}, {"row-10", row, 10},      {"row-40", row, 40},
    {"row-110", row, 110},                {"collapsing-3", collapsing, 3},   {"collapsing-5", collapsing, 5},
    {"three-kinds-6", three_kinds, 6},    {"three-kinds-26", three_kinds, 26},
};

// The first of the seed's texts that is accepted.
Texts seeded_texts(void) {
    static uint8_t card[CARD];
    Texts out = {0, calloc(sizeof shapes / sizeof *shapes, sizeof(Text))};
    for (size_t i = 0; i < sizeof shapes / sizeof *shapes; i++) {
        Text *t = &out.text[out.count++];
        snprintf(t->name, sizeof t->name, "%s", shapes[i].name);
        begin_seed((uint32_t)i);
        do {
            shapes[i].make((char *)t->text, shapes[i].size);
            t->length = strlen((char *)t->text);
        } while (plain_compile(t->text, t->length, card, CARD).number);
    }
    return out;
}

// ---- random lines

static char *text(char *out, const char *s) { return out + sprintf(out, "%s", s); }

static char *sign(char *out, const char *of) {
    *out = of[below((int)strlen(of))];
    return out + 1;
}

// Operations nest so deep at most.
static char *expression(char *out, int m, int depth) {
    static const char *const atoms[] = {".", "@", ".*", "(..)*", ".*a", "!a"};
    const int form = below(depth ? 8 : 3);
    if (form < 2) return out + sprintf(out, "%c", letter(m));
    if (form == 2) return text(out, atoms[below(6)]);
    out = text(expression(text(out, form == 3 ? "!(" : "("), m, depth - 1), ")");
    if (form == 3) return out;
    if (form == 4) return sign(out, "*+?");
    if (form == 5) out = sign(out, "|&-");
    return text(expression(text(out, "("), m, depth - 1), ")");
}

// Up to three rules of any kind; a few `<` and `^` have no context.
static void random_rules(char *out, int m) {
    out += sprintf(out, ":%.*s\n", m, ALPHABET);
    for (int rules = 1 + below(3); rules > 0; rules--) {
        out = sign(out, "><^");
        const int least = out[-1] != RESTRICTS && below(16) ? 1 : 0;
        out = expression(out, m, 2);
        for (int i = least + below(5 - least); i > 0; i--) {
            out = expression(text(out, " / "), m, 2);
            out = expression(text(out, " _ "), m, 2);
        }
        out = text(out, "\n");
    }
}

Texts random_texts(void) {
    enum { COUNT = 400 };
    static const char signs[] = "<^>=/_|&-!*+?().@ abA\n";
    Texts out = {0, calloc(COUNT, sizeof(Text))};
    for (int i = 0; i < COUNT; i++) {
        Text *t = &out.text[out.count++];
        begin_seed(1000 + (uint32_t)i);
        random_rules((char *)t->text, 1 + below(4));
        t->length = strlen((char *)t->text);
        if (i % 4 == 0) t->text[below((int)t->length)] = (uint8_t)signs[below((int)sizeof signs - 1)];
        snprintf(t->name, sizeof t->name, "random-%d", i);
    }
    return out;
}

// ---- cards

typedef struct {
    int n, m;
    uint8_t accepting[MOST_SETS];
    uint16_t next[MOST_SETS * 26];
} Table;

// The table's states that are reached, numbered by first arrival; the mark's column repeats the first one.
static int arrivals(const Table *t, uint16_t *next, uint8_t *accepting) {
    static uint16_t order[MOST_SETS], number[MOST_SETS];
    int n = 1, k = t->m + 1;
    memset(number, 255, sizeof number);
    order[0] = number[0] = 0;
    for (int i = 0; i < n; i++) {
        accepting[i] = t->accepting[order[i]];
        for (int c = 0; c < t->m; c++) {
            int q = t->next[order[i] * t->m + c];
            if (number[q] == 65535) order[n] = (uint16_t)q, number[q] = (uint16_t)n++;
            next[i * k + c] = number[q];
        }
        next[i * k + t->m] = next[i * k];
    }
    return n;
}

// The card of the table's machine, its smallest one or the machine as it is.
static int card_of(const Table *t, int smallest, Judging *j) {
    static uint16_t next[MOST_SETS * MOST_COLUMNS];
    static uint8_t accepting[MOST_SETS];
    static Machine machine;
    int n = arrivals(t, next, accepting), k = t->m + 1;
    if (!smallest && n <= MOST_STATES) {
        machine.n = n;
        memcpy(machine.accepting, accepting, (size_t)n);
        for (int i = 0; i < n * k; i++) machine.next[i] = (uint8_t)next[i];
    } else if (!plain_minimise(n, k, next, accepting, &machine)) {
        return 0;
    }
    j->length = plain_card(&machine, (const uint8_t *)ALPHABET, t->m, j->card, CARD);
    return machine.n;
}

// By a one up, by b one down, the other letters stay; the day may end where it began.
static void up_and_down(Table *t, int n) {
    t->n = n;
    for (int p = 0; p < n; p++) {
        t->accepting[p] = p == 0;
        for (int c = 0; c < t->m; c++) t->next[p * t->m + c] = (uint16_t)(c == 0 ? (p + 1 < n ? p + 1 : p) : c == 1 ? (p ? p - 1 : 0) : p);
    }
}

static void random_table(Table *t, int n) {
    t->n = n;
    for (int p = 0; p < n; p++) {
        t->accepting[p] = (uint8_t)below(2);
        for (int c = 0; c < t->m; c++) t->next[p * t->m + c] = (uint16_t)below(n);
    }
}

// A random machine of five states, each of them many times over.
static void few_classes(Table *t, int n) {
    int lead[5 * 26], many = n / 5;
    for (int i = 0; i < 5 * t->m; i++) lead[i] = below(5);
    t->n = 5 * many;
    for (int p = 0; p < t->n; p++) {
        t->accepting[p] = p % 5 == 0;
        for (int c = 0; c < t->m; c++) t->next[p * t->m + c] = (uint16_t)(lead[p % 5 * t->m + c] + 5 * below(many));
    }
}

typedef struct {
    const char *name;
    void (*make)(Table *t, int n);
    int letters, states, smallest;
} CardShape;

static const CardShape cards[] = {
    {"up and down", up_and_down, 2, 30, 1},     {"up and down", up_and_down, 26, 119, 1},   {"random smallest", random_table, 2, 3, 1},
    {"random smallest", random_table, 26, 10, 1}, {"random smallest", random_table, 6, 30, 1}, {"random smallest", random_table, 2, 60, 1},
    {"random smallest", random_table, 26, 90, 1}, {"random smallest", random_table, 6, 120, 1}, {"few classes", few_classes, 3, 40, 0},
    {"few classes", few_classes, 26, 120, 0},
};

int seeded_cards(void) { return (int)(sizeof cards / sizeof *cards); }

// Random machines until one has so many states; those with few classes need not have all.
void seeded_card(int i, Judging *j) {
    static Table t;
    const CardShape *s = &cards[i];
    begin_seed(100 + (uint32_t)i);
    t.m = s->letters;
    j->name = s->name;
    for (int got = 0; s->smallest ? got != s->states : got == 0;) {
        s->make(&t, s->make == random_table ? s->states + below(1 + s->states / 2) : s->states);
        got = card_of(&t, s->smallest, j);
    }
}

void far_card(int letters, int states, Judging *j) {
    static Table t;
    t.m = letters;
    t.n = states;
    for (int p = 0; p < states; p++) {
        t.accepting[p] = p == states - 1;
        for (int c = 0; c < letters; c++) t.next[p * letters + c] = (uint16_t)(c == 0 && p + 1 < states ? p + 1 : 0);
    }
    j->name = "a row";
    card_of(&t, 1, j);
}

void one_end_card(int letters, int states, Judging *j) {
    static Table t;
    t.m = letters;
    j->name = "random, one end";
    do {
        random_table(&t, states);
        memset(t.accepting, 0, sizeof t.accepting);
        t.accepting[states - 1] = 1;
    } while (card_of(&t, 1, j) != states);
}

void bare_card(int states, int marks, Judging *j) {
    const uint8_t contents[] = {12, 0, 0, 0, 12, 0, (uint8_t)states, 0, (uint8_t)(12 + states), 0, 0, 0};
    memcpy(j->card, contents, sizeof contents);
    memset(j->card + sizeof contents, marks, (size_t)states);
    j->length = sizeof contents + (size_t)states;
    j->name = "no letters";
}

int trap_card(int letters, int states, Judging *j) {
    static Table t;
    t.m = letters;
    random_table(&t, states);
    t.accepting[states - 1] = 0;
    for (int c = 0; c < letters; c++) t.next[(states - 1) * letters + c] = (uint16_t)(states - 1);
    j->name = "random with a trap";
    return card_of(&t, 1, j);
}
