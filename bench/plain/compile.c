// A book's lines in order, their stages in the paper's order, and the card.
#include "plain.h"
#include <string.h>

enum { HEIGHT = 24 };

typedef struct {
    int m, k;
    uint8_t letters[26], column[256], defined[26];
    int peak, number;
    Machine names[26], all, mark, book, pattern, left, marked, rest;
    Machine made[HEIGHT];          // the machines that a line makes
    const Machine *stack[HEIGHT];  // made ones, or a name's without a copy
} Book;

// The letter of a column, or all letters: 0, then accepting or dead by first arrival.
static void one(Machine *out, int k, int from, int to) {
    int yes = from == 0 ? 1 : 2, no = 3 - yes;
    out->n = 3;
    out->accepting[0] = out->accepting[no] = 0;
    out->accepting[yes] = 1;
    memset(out->next + k, no, 2 * (size_t)k);
    memset(out->next + yes * k, no, (size_t)k);
    for (int c = 0; c < k; c++) out->next[c] = (uint8_t)(c >= from && c < to ? yes : no);
}

// The empty plan, or all plans.
static void two(Machine *out, int k, int loops) {
    out->n = 2;
    out->accepting[0] = 1;
    out->accepting[1] = 0;
    memset(out->next, 1, 2 * (size_t)k);
    if (loops) memset(out->next, 0, (size_t)k - 1);
}

static int stage(Book *b, int op, const Machine *x, const Machine *y, Machine *out) {
    int sets = plain_stage(op, b->k, x, y, out);
    if (sets < 0) {
        b->number = -sets;
        return 0;
    }
    if (sets > b->peak) b->peak = sets;
    return 1;
}

// The machine of a postfix expression; a null pointer where a stage refuses.
static const Machine *evaluate(Book *b, const uint8_t *code, const uint8_t *end) {
    int h = 0;
    for (; code < end; code++) {
        int c = *code, op = -1;
        Machine *top = &b->made[h > 0 ? h - 1 : 0];
        Machine given;
        switch (c) {
        case '.': one(&b->made[h], b->k, 0, b->m); b->stack[h] = &b->made[h]; h++; continue;
        case '@': two(&b->made[h], b->k, 0); b->stack[h] = &b->made[h]; h++; continue;
        case '*':
            if (!stage(b, STAR, b->stack[h - 1], 0, top)) return 0;
            b->stack[h - 1] = top;
            continue;
        case '+':
            if (!stage(b, STAR, b->stack[h - 1], 0, &b->made[h]) || !stage(b, JOIN, b->stack[h - 1], &b->made[h], top)) return 0;
            b->stack[h - 1] = top;
            continue;
        case '?':
            two(&given, b->k, 0);
            if (!stage(b, EITHER, &given, b->stack[h - 1], top)) return 0;
            b->stack[h - 1] = top;
            continue;
        case '!':
            if (!stage(b, WITHOUT, &b->all, b->stack[h - 1], top)) return 0;
            b->stack[h - 1] = top;
            continue;
        case '|': op = EITHER; break;
        case '&': op = BOTH; break;
        case '-': op = WITHOUT; break;
        case JOINED: op = JOIN; break;
        default:
            if (c >= 'a') {
                one(&b->made[h], b->k, b->column[c], b->column[c] + 1);
                b->stack[h] = &b->made[h];
            } else b->stack[h] = &b->names[c - 'A'];
            h++;
            continue;
        }
        h--;
        if (!stage(b, op, b->stack[h - 1], b->stack[h], &b->made[h - 1])) return 0;
        b->stack[h - 1] = &b->made[h - 1];
    }
    return b->stack[0];
}

// Only the states in use are copied.
static void copy(Machine *to, const Machine *from, int k) {
    to->n = from->n;
    memcpy(to->accepting, from->accepting, (size_t)from->n);
    memcpy(to->next, from->next, (size_t)(from->n * k));
}

// l M p M r, joined left to right.
static int marked(Book *b, const Machine *l, const Machine *r, Machine *out) {
    return stage(b, JOIN, l, &b->mark, out) && stage(b, JOIN, out, &b->pattern, out) && stage(b, JOIN, out, &b->mark, out)
        && stage(b, JOIN, out, r, out);
}

// p; of `^` the plans that are not in it.
static int pattern(Book *b, const Line *line) {
    const Machine *m = evaluate(b, line->code, line->code + line->ends[0]);
    if (!m) return 0;
    if (line->kind == OBLIGES) return stage(b, WITHOUT, &b->all, m, &b->pattern);
    copy(&b->pattern, m, b->k);
    return 1;
}

// Context i: l, r, then l M p M r.
static int context(Book *b, const Line *line, int i, Machine *out) {
    const uint8_t *code = line->code;
    const size_t *end = &line->ends[2 * i];
    const Machine *m = evaluate(b, code + end[0], code + end[1]);
    if (!m) return 0;
    copy(&b->left, m, b->k);
    m = evaluate(b, code + end[1], code + end[2]);
    return m && marked(b, &b->left, m, out);
}

// The cuts that a rule rules out: of `>` those with p in the middle, less each context; of `<` and `^` the first context's, and each further one's.
static int rule(Book *b, const Line *line) {
    const int less = line->kind == RESTRICTS, contexts = line->parts / 2;
    if (!pattern(b, line)) return 0;
    if (!(less ? marked(b, &b->all, &b->all, &b->rest) : context(b, line, 0, &b->rest))) return 0;
    for (int i = less ? 0 : 1; i < contexts; i++)
        if (!context(b, line, i, &b->marked) || !stage(b, less ? WITHOUT : EITHER, &b->rest, &b->marked, &b->rest)) return 0;
    return stage(b, ERASE, &b->rest, 0, &b->rest) && stage(b, WITHOUT, &b->all, &b->rest, &b->rest)
        && stage(b, BOTH, &b->book, &b->rest, &b->book);
}

static int define(Book *b, const Line *line) {
    const Machine *m = evaluate(b, line->code, line->code + line->ends[0]);
    if (!m) return 0;
    copy(&b->names[line->name - 'A'], m, b->k);
    b->defined[line->name - 'A'] = 1;
    return 1;
}

// Line 1: the refusal's number, or 0.
static int head(Book *b, const uint8_t *line, size_t length, int ended) {
    int depth = 0, sides = 0;
    for (size_t i = 0; i < length; i++) {
        depth += (line[i] == '(') - (line[i] == ')');
        if (depth > 4) return 3;
        sides += line[i] == '_';
    }
    if (sides > 4) return 4;
    if (!ended || length < 2 || line[0] != ':') return 5;
    uint8_t last = 'a' - 1;
    for (size_t i = 1; i < length; i++) {
        if (line[i] <= last || line[i] > 'z') return 5;
        last = line[i];
        b->letters[i - 1] = last;
        b->column[last] = (uint8_t)(i - 1);
    }
    b->m = (int)length - 1;
    b->k = b->m + 1;
    return 0;
}

static Compiled refused(int number, int line) { return (Compiled){number, line, 0, 0}; }

Compiled plain_compile(const uint8_t *text, size_t length, uint8_t *card, size_t room) {
    static Book book;
    static Line line;
    Book *b = &book;
    if (length > MOST_TEXT) return refused(1, 0);
    memset(b->defined, 0, sizeof b->defined);
    b->peak = b->number = 0;
    b->m = 0, b->k = 1; // a text of no bytes has no letters
    two(&b->book, b->k, 1);
    int number = 0;
    const uint8_t *end = text + length;
    for (const uint8_t *at = text; at < end;) {
        const uint8_t *stop = memchr(at, '\n', (size_t)(end - at));
        int ended = stop != 0;
        if (!ended) stop = end;
        number++;
        if (number == 1) {
            int refusal = head(b, at, (size_t)(stop - at), ended);
            if (refusal) return refused(refusal, 1);
            two(&b->all, b->k, 1);
            two(&b->book, b->k, 1);
            one(&b->mark, b->k, b->m, b->k);
        } else {
            plain_read(at, (size_t)(stop - at), ended, b->letters, b->m, b->defined, &line);
            if (line.number) return refused(line.number, number);
            if (!(line.name ? define(b, &line) : rule(b, &line))) return refused(b->number, number);
        }
        at = stop + 1;
    }
    size_t n = plain_card(&b->book, b->letters, b->m, card, room);
    if (!n) return refused(11, 0);
    return (Compiled){0, 0, n, b->peak};
}
