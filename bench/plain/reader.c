// One line behind line 1: tests 3 to 7, and its expressions in postfix.
#include "plain.h"

typedef struct {
    const uint8_t *at, *end;
    uint8_t *code;
    size_t length;
    int spoiled, stranger;
    uint8_t known[128]; // letters of line 1, names defined above
} Reader;

static int peek(Reader *r) {
    while (r->at < r->end && *r->at == ' ') r->at++;
    return r->at < r->end ? *r->at : -1;
}

static void put(Reader *r, int code) { r->code[r->length++] = (uint8_t)code; }

static void choice(Reader *r);

static int begins_item(int c) {
    return (c >= 'a' && c <= 'z') || (c >= 'A' && c <= 'Z') || c == '.' || c == '@' || c == '(' || c == '!';
}

static void atom(Reader *r) {
    int c = peek(r);
    if (c == '(') {
        r->at++;
        choice(r);
        if (peek(r) != ')') r->spoiled = 1;
        else r->at++;
        return;
    }
    if (c == '!' || !begins_item(c)) {
        r->spoiled = 1;
        return;
    }
    r->at++;
    if (!r->known[c]) r->stranger = 1;
    put(r, c);
}

// `!` are counted, not recursed into: a text may hold 16,000 of them.
static void item(Reader *r) {
    size_t bangs = 0;
    while (peek(r) == '!') {
        r->at++;
        bangs++;
    }
    atom(r);
    for (int c = peek(r); c == '*' || c == '+' || c == '?'; c = peek(r)) {
        r->at++;
        put(r, c);
    }
    while (bangs--) put(r, '!');
}

static void chain(Reader *r) {
    item(r);
    while (!r->spoiled && begins_item(peek(r))) {
        item(r);
        put(r, JOINED);
    }
}

static void blend(Reader *r) {
    chain(r);
    for (int c = peek(r); !r->spoiled && (c == '&' || c == '-'); c = peek(r)) {
        r->at++;
        chain(r);
        put(r, c);
    }
}

static void choice(Reader *r) {
    blend(r);
    while (!r->spoiled && peek(r) == '|') {
        r->at++;
        blend(r);
        put(r, '|');
    }
}

static void part(Reader *r, Line *out) {
    choice(r);
    out->ends[out->parts++] = r->length;
}

static int sign(Reader *r, int c) {
    if (r->spoiled || peek(r) != c) return 0;
    r->at++;
    return 1;
}

// `<` and `^` need a context.
static void rule(Reader *r, Line *out, int kind) {
    out->kind = kind;
    part(r, out);
    while (sign(r, '/')) {
        part(r, out);
        if (!sign(r, '_')) r->spoiled = 1;
        else part(r, out);
    }
    if (kind != RESTRICTS && out->parts == 1) r->spoiled = 1;
}

static void definition(Reader *r, Line *out) {
    int c = peek(r);
    if (c < 'A' || c > 'Z') {
        r->spoiled = 1;
        return;
    }
    r->at++;
    out->name = c;
    part(r, out);
}

// Tests 3 and 4, along the whole line.
static int counts(const uint8_t *line, size_t length) {
    int depth = 0, deep = 0, sides = 0;
    for (size_t i = 0; i < length; i++) {
        depth += (line[i] == '(') - (line[i] == ')');
        deep |= depth > 4;
        sides += line[i] == '_';
    }
    return deep ? 3 : sides > 4 ? 4 : 0;
}

void plain_read(const uint8_t *line, size_t length, int ended, const uint8_t *letters, int m, const uint8_t *defined, Line *out) {
    out->name = out->kind = out->parts = 0;
    out->number = counts(line, length);
    if (out->number) return;
    Reader r = {.at = line + 1, .end = line + length, .code = out->code};
    for (int i = 0; i < m; i++) r.known[letters[i]] = 1;
    for (int i = 0; i < 26; i++) r.known['A' + i] = defined[i];
    r.known['.'] = r.known['@'] = 1;
    if (!ended || length == 0) r.spoiled = 1;
    else if (line[0] == '=') definition(&r, out);
    else if (line[0] == RESTRICTS || line[0] == FORBIDS || line[0] == OBLIGES) rule(&r, out, line[0]);
    else r.spoiled = 1;
    if (r.spoiled || peek(&r) != -1) out->number = 5;
    else if (r.stranger) out->number = 6;
    else if (out->name && defined[out->name - 'A']) out->number = 7;
}
