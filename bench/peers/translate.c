// Names are written NameA to NameZ, the letters Sigma, all plans All, the mark MM. What `<` and `^` rule out in the middle is defined ahead of each such rule,
// as Name0, since each context has it. Brackets stand only where they are needed, because foma's parser has a deepest nesting.
#include "translate.h"
#include <stdio.h>
#include <stdlib.h>
#include <string.h>

typedef struct {
    char *text;
    size_t length, room;
} Buffer;

static void put(Buffer *b, const char *s) {
    size_t n = strlen(s);
    if (b->length + n + 1 > b->room) {
        b->room = 2 * (b->room + n + 1);
        b->text = realloc(b->text, b->room);
    }
    memcpy(b->text + b->length, s, n + 1);
    b->length += n;
}

typedef struct {
    int code, left, right;
} Node;

static void write_node(Buffer *b, const Node *node, int i);

static int leaf(int c) { return (c >= 'a' && c <= 'z') || (c >= 'A' && c <= 'Z') || c == '.' || c == '@'; }

static void inner(Buffer *b, const Node *node, int i) {
    if (leaf(node[i].code)) {
        write_node(b, node, i);
        return;
    }
    put(b, "[");
    write_node(b, node, i);
    put(b, "]");
}

static void repeated(Buffer *b, const Node *node, int i) {
    if (node[i].code == '*' || node[i].code == '+') write_node(b, node, i);
    else inner(b, node, i);
}

// A left operand with the same sign needs no brackets: all signs here are taken left to right.
static void binary(Buffer *b, const Node *node, int i, const char *sign) {
    int l = node[i].left;
    if (node[l].code == node[i].code) write_node(b, node, l);
    else inner(b, node, l);
    put(b, sign);
    inner(b, node, node[i].right);
}

static void write_node(Buffer *b, const Node *node, int i) {
    int c = node[i].code, l = node[i].left;
    char name[8];
    switch (c) {
    case '.': put(b, "Sigma"); return;
    case '@': put(b, "0"); return;
    case '*': repeated(b, node, l); put(b, "*"); return;
    case '+': repeated(b, node, l); put(b, "+"); return;
    case '?': put(b, "("); write_node(b, node, l); put(b, ")"); return;
    case '!': put(b, "All - "); inner(b, node, l); return;
    case '|': binary(b, node, i, " | "); return;
    case '&': binary(b, node, i, " & "); return;
    case '-': binary(b, node, i, " - "); return;
    case JOINED: binary(b, node, i, " "); return;
    }
    if (c >= 'a') snprintf(name, sizeof name, "%c", c);
    else snprintf(name, sizeof name, "Name%c", c);
    put(b, name);
}

// One part of a line, in brackets, from postfix.
static char *part(const Line *line, int i) {
    size_t from = i ? line->ends[i - 1] : 0, to = line->ends[i];
    Node *node = malloc((to - from) * sizeof *node);
    int *stack = malloc((to - from) * sizeof *stack), count = 0, h = 0;
    for (size_t j = from; j < to; j++) {
        int c = line->code[j];
        node[count] = (Node){c, 0, 0};
        if (c == '|' || c == '&' || c == '-' || c == JOINED) {
            node[count].right = stack[--h];
            node[count].left = stack[--h];
        } else if (c == '*' || c == '+' || c == '?' || c == '!') node[count].left = stack[--h];
        stack[h++] = count++;
    }
    Buffer b = {0};
    put(&b, "[");
    write_node(&b, node, stack[0]);
    put(&b, "]");
    free(node);
    free(stack);
    return b.text;
}

static void put_all(Buffer *b, const char *const *piece, int count) {
    for (int i = 0; i < count; i++) put(b, piece[i]);
}

// The contexts of a restriction, which reach both ends of the day.
static void restriction(Buffer *b, char *const *p, int parts) {
    put_all(b, (const char *[]){"All & [", p[0], " =>"}, 3);
    for (int i = 1; i < parts; i += 2) put_all(b, (const char *[]){i > 1 ? ", .#. " : " .#. ", p[i], " _ ", p[i + 1], " .#."}, 5);
    put(b, "]");
}

static char *middle(const Line *line) {
    Buffer b = {0};
    char *p = part(line, 0);
    if (line->kind == OBLIGES) put(&b, "All - ");
    put(&b, p);
    free(p);
    return b.text;
}

// The cuts that a rule rules out, the sign at each side of the middle: of `>` those with p there, less each context; of `<` and `^` those of all contexts.
static void cuts(Buffer *b, int kind, char *const *p, int parts, const char *side) {
    const char *x = kind == RESTRICTS ? p[0] : "Name0";
    if (kind == RESTRICTS) put_all(b, (const char *[]){"All", side, x, side, "All"}, 5);
    for (int i = 1; i < parts; i += 2)
        put_all(b, (const char *[]){kind == RESTRICTS ? " - " : i > 1 ? " | " : "", p[i], side, x, side, p[i + 1]}, 6);
}

static char *rule(const Line *line, int form) {
    char *p[MOST_PARTS];
    const int contexts = line->parts > 1, parts = line->parts;
    Buffer b = {0};
    for (int i = 0; i < parts; i++) p[i] = part(line, i);
    if (form == RESTRICTION && line->kind == RESTRICTS && contexts) restriction(&b, p, parts);
    else if (form == RESTRICTION || !contexts) {
        put(&b, "All - [");
        cuts(&b, line->kind, p, parts, " ");
        put(&b, "]");
    } else {
        put(&b, form == TWO_MARKS ? "All - `[[" : "All - [[[");
        cuts(&b, line->kind, p, parts, " MM ");
        put(&b, form == TWO_MARKS ? "], MM, 0]" : "] .o. [MM:0 | Sigma]*].l]");
    }
    for (int i = 0; i < parts; i++) free(p[i]);
    return b.text;
}

// As many spaces behind the line as it has: they are to be read by all.
static char *spaced(char *regex, const uint8_t *at, const uint8_t *stop) {
    Buffer b = {regex, strlen(regex), strlen(regex) + 1};
    for (; at < stop; at++)
        if (*at == ' ') put(&b, " ");
    return b.text;
}

int translate(const Text *text, int form, Script *out) {
    static Line line;
    uint8_t defined[26] = {0}, letters[26];
    int m = 0;
    const uint8_t *at = text->text, *end = at + text->length, *stop = memchr(at, '\n', text->length);
    if (!stop || at[0] != ':') return 0;
    out->sigma[0] = 0;
    for (const uint8_t *c = at + 1; c < stop; c++) {
        letters[m++] = *c;
        sprintf(out->sigma + strlen(out->sigma), "%s%c", m > 1 ? " | " : "", *c);
    }
    out->count = 0;
    out->line = malloc(sizeof *out->line * MOST_TEXT);
    for (at = stop + 1; at < end; at = stop + 1) {
        stop = memchr(at, '\n', (size_t)(end - at));
        if (!stop) return 0;
        plain_read(at, (size_t)(stop - at), 1, letters, m, defined, &line);
        if (line.number) return 0;
        if (line.kind == FORBIDS || line.kind == OBLIGES) out->line[out->count++] = (Regex){'0', middle(&line)};
        Regex *r = &out->line[out->count++];
        r->name = line.name;
        r->regex = spaced(line.name ? part(&line, 0) : rule(&line, form), at, stop);
        if (line.name) defined[line.name - 'A'] = 1;
    }
    return 1;
}

void free_script(Script *s) {
    for (int i = 0; i < s->count; i++) free(s->line[i].regex);
    free(s->line);
}
