// The books: those of the folder, large texts made here, each as long as a text may be, texts without rules, and lines of the three kinds of rules.
#define _GNU_SOURCE
#include "bench.h"
#include <dirent.h>
#include <stdio.h>
#include <stdlib.h>
#include <string.h>

static int by_name(const void *a, const void *b) { return strcmp(((const Text *)a)->name, ((const Text *)b)->name); }

Texts read_texts(const char *folder) {
    Texts out = {0, calloc(256, sizeof(Text))};
    DIR *d = opendir(folder);
    for (struct dirent *e; d && (e = readdir(d)) && out.count < 256;) {
        Text *t = &out.text[out.count];
        char path[4096], *dot = strstr(e->d_name, ".book");
        if (!dot || dot == e->d_name) continue;
        snprintf(path, sizeof path, "%s/%s", folder, e->d_name);
        snprintf(t->name, sizeof t->name, "%.*s", (int)(dot - e->d_name), e->d_name);
        FILE *f = fopen(path, "rb");
        if (!f) continue;
        t->length = fread(t->text, 1, sizeof t->text, f);
        fclose(f);
        out.count++;
    }
    if (d) closedir(d);
    qsort(out.text, (size_t)out.count, sizeof *out.text, by_name);
    return out;
}

static Text *begin(Texts *out, const char *name) {
    Text *t = &out->text[out->count++];
    snprintf(t->name, sizeof t->name, "%s", name);
    return t;
}

static void put(Text *t, const char *s) {
    size_t n = strlen(s);
    memcpy(t->text + t->length, s, n);
    t->length += n;
}

// The string over and over while it and the tail fit, then the tail.
static void fill(Text *t, const char *s, const char *tail) {
    while (t->length + strlen(s) + strlen(tail) <= MOST_TEXT) put(t, s);
    put(t, tail);
}

#define ALPHABET "abcdefghijklmnopqrstuvwxyz"

// Some 580 rules: each forbids a pair of letters but at the start of the day.
static void short_rules(Text *t) {
    char rule[64];
    put(t, ":" ALPHABET "\n");
    for (int i = 0;; i++) {
        int a = i % 26, b = (i / 26 + i) % 26, c = (7 * i + 3) % 26, d = (c + 1) % 26;
        snprintf(rule, sizeof rule, ">%c%c / @ _ .* / @ _ (%c|%c|%c)*\n", 'a' + a, 'a' + b, 'a' + b, 'a' + c, 'a' + d);
        if (t->length + strlen(rule) > MOST_TEXT) break;
        put(t, rule);
    }
}

// Some 560 rules, `<` and `^` in turns: each rules out a pair of letters that no other does, as a letter forbidden behind another, or by what may follow one.
static void sister_rules(Text *t) {
    char rule[64];
    put(t, ":" ALPHABET "\n");
    for (int i = 0;; i++) {
        const char a = (char)('a' + i % 26), b = (char)('a' + (i / 26 + i) % 26), c = (char)('a' + (i + 1) % 26);
        snprintf(rule, sizeof rule, i % 2 ? "^@|(.-%c).* / .*%c _ .* / .*%c _ .*\n" : "<%c / .*%c _ .* / .*%c _ .*\n", b, a, c);
        if (t->length + strlen(rule) > MOST_TEXT) break;
        put(t, rule);
    }
}

#define DOTS13 "............."
#define DOTS17 "................."

// A head, a part over and over, a tail.
typedef struct {
    const char *name, *head, *part, *tail;
} Recipe;

#define PAIRS "=A (" DOTS13 ")*a\n=B (" DOTS17 ")*b\n>a"

// A* makes 504 sets, of 3 columns or of 27; A&B makes 251 pairs, or 252, and holds no plan.
static const Recipe recipes[] = {
    {"16k-stars-2", ":ab\n=A ((.a|ba)(a.)*bb.(a|b)|((b.b|b.a)|(.|.)))..\n>A", "|A*", "\n"},
    {"16k-stars-26",
     ":" ALPHABET "\n=L a|b|c|d|e|f|g|h|i|j|k|l|m\n=N n|o|p|q|r|s|t|u|v|w|x|y|z\n=A ((.L|NL)(L.)*NN.(L|N)|((N.N|N.L)|(.|.)))..\n>A", "|A*", "\n"},
    {"16k-meets-2", ":ab\n" PAIRS, "|A&B", "\n"},
    {"16k-meets-26", ":" ALPHABET "\n" PAIRS, "|A&B", "\n"},
    {"16k-bangs", ":a\n>", "!", "a\n"},
    {"16k-brackets", ":ab\n>b", "|((((a|b))))", "\n"},
    {"16k-pluses", ":ab\n>a", "+", "\n"},
    {"16k-spaces", ":ab\n>a", " ", "\n"},
};

Texts large_texts(void) {
    Texts out = {0, calloc(16, sizeof(Text))};
    short_rules(begin(&out, "16k-short-rules"));
    sister_rules(begin(&out, "16k-sister-rules"));
    for (size_t i = 0; i < sizeof recipes / sizeof *recipes; i++) {
        const Recipe *r = &recipes[i];
        Text *t = begin(&out, r->name);
        put(t, r->head);
        fill(t, r->part, r->tail);
    }
    return out;
}

typedef const char *const Named[2]; // a name and a text

static Texts named_texts(const Named *named, size_t count) {
    Texts out = {0, calloc(count, sizeof(Text))};
    for (size_t i = 0; i < count; i++) put(begin(&out, named[i][0]), named[i][1]);
    return out;
}

// Accepted ones first: by the definitions alone peaks of 0, 3, 4, 5 and 512. Then those that stop at a line.
static Named ruleless[] = {
    {"no-bytes", ""},
    {"no-rule-2", ":ab\n"},
    {"no-rule-26", ":" ALPHABET "\n"},
    {"no-rule-letter", ":ab\n=A(a)\n"},
    {"no-rule-complement", ":ab\n=A!@\n"},
    {"no-rule-star", ":ab\n=A.*\n"},
    {"no-rule-plus", ":ab\n=Aa+\n=B!@\n"},
    {"no-rule-512-sets", ":ab\n=A (a!(aaaa)(aaabb)*)*bbbbb....\n=B A*\n"},
    {"colon-without-end", ":"},
    {"colon", ":\n"},
    {"line-end", "\n"},
    {"no-rule-without-end", ":ab\n=Aa"},
    {"no-rule-taken", ":ab\n=Aa\n=Ab\n"},
};

Texts ruleless_texts(void) { return named_texts(ruleless, sizeof ruleless / sizeof *ruleless); }

#define A10 "aaaaaaaaaa"
#define A23 A10 A10 "aaa"
#define A24 A23 "a"
#define A60 A10 A10 A10 A10 A10 A10
#define A117 A60 A24 A23 A10
#define CROWD "(" A23 ")*&(" A24 ")*"

// Accepted ones first. Then lines that are spoiled, deep, crowded with contexts, have a stranger or a byte from 0x80 up; then 8 or 9, by the order of stages.
static Named kinds[] = {
    {"forbids", ":ab\n<b / .*a _ .*\n"},
    {"obliges", ":ab\n^b / .*a _ .*\n"},
    {"obliges-at-the-start", ":ab\n^b / a _ .*\n"},
    {"forbids-two-contexts", ":ab\n<a/a_b/b_a\n"},
    {"obliges-two-contexts", ":ab\n^a/a_b/b_a\n"},
    {"forbids-a-gap", ":ab\n<@ / a _ b\n"},
    {"obliges-the-day", ":ab\n^(ab)* / @ _ @\n"},
    {"obliges-nothing", ":ab\n^a&b / .* _ .*\n"},
    {"forbids-everything", ":ab\n<.* / .* _ .*\n"},
    {"forbids-nothing", ":ab\n<a&b / .* _ .*\n"},
    {"obliges-anything", ":ab\n^.* / .* _ .*\n"},
    {"three-kinds", ":abc\n=A .*a\n>b / A _ .*\n< c / A _ .* / @_ .*\n^ @|.*b.* / A _ @\n"},
    {"kinds-by-names", ":abc\n=A a|b\n=B A*c\n<A / B _ B / .*A _ @\n^!B / A _ .*\n>AB\n"},
    {"kinds-with-spaces", ":ab\n<  a / a _ b  \n^ b|a a/ a _b / b_ a\n"},
    {"kinds-four-contexts", ":ab\n<a/a_a/b_b/a_b/b_a\n^a|b/a_a/b_b/a_b/b_a\n"},
    {"kinds-four-brackets", ":ab\n<((((a))))/((((a))))_((((b))))\n^((((a))))/((((a))))_((((b))))\n"},
    {"forbids-without-context", ":ab\n<a\n"},
    {"obliges-without-context", ":ab\n>a\n^a\n"},
    {"forbids-no-pattern", ":ab\n<\n"},
    {"obliges-no-pattern", ":ab\n^/a_b\n"},
    {"spoiled-before-stranger", ":ab\n<c\n"},
    {"forbids-half-a-context", ":ab\n<a/a\n"},
    {"obliges-half-a-context", ":ab\n^a/a_\n"},
    {"forbids-two-sides", ":ab\n<a/a_b_b\n"},
    {"forbids-twice", ":ab\n<<a/a_b\n"},
    {"obliges-twice", ":ab\n^^a/a_b\n"},
    {"forbids-inside", ":ab\n>a<b/a_b\n"},
    {"obliges-inside", ":ab\n<a^b/a_b\n"},
    {"forbids-at-a-side", ":ab\n^a/<a_b\n"},
    {"obliges-at-the-end", ":ab\n<a/a_b^\n"},
    {"forbids-in-brackets", ":ab\n<a/(<a)_b\n"},
    {"forbids-in-a-definition", ":ab\n=A<a\n"},
    {"obliges-as-a-name", ":ab\n=^a\n"},
    {"obliges-in-a-definition", ":ab\n=A a^b\n"},
    {"forbids-behind-a-space", ":ab\n <a/a_b\n"},
    {"forbids-in-line-1", ":a<b\n"},
    {"forbids-as-line-1", "<a/a_b\n"},
    {"forbids-without-end", ":ab\n<a/a_b"},
    {"obliges-without-end", ":ab\n^c/a_b"},
    {"forbids-deep", ":ab\n<(((((a)))))/a_b\n"},
    {"forbids-deep-and-spoiled", ":ab\n<^(((((\n"},
    {"forbids-five-contexts", ":ab\n<a/a_a/b_b/a_b/b_a/a_a\n"},
    {"obliges-five-sides", ":ab\n^_____\n"},
    {"forbids-a-stranger", ":ab\n<c/a_b\n"},
    {"obliges-a-stranger", ":ab\n^a/a_A\n"},
    {"forbids-beside-a-stranger", ":ab\n<a/c_b\n"},
    {"eighth-bit-letter", ":ab\n>\341\n"},
    {"eighth-bit-name", ":ab\n=\301 a\n"},
    {"eighth-bit-space", ":ab\n>a\240\n"},
    {"eighth-bit-line-end", ":ab\212>a\n"},
    {"eighth-bit-first", ":ab\n\276a\n"},
    {"eighth-bit-in-line-1", ":a\342\n>a\n"},
    {"eighth-bit-and-deep", ":ab\n>\377(((((\n"},
    {"pattern-over-120-states", ":a\n<" A117 "aa/" CROWD "_a\n"},
    {"pattern-crowded", ":a\n^" CROWD "/" A117 "aa_a\n"},
    {"complement-over-120-states", ":a\n^" A117 "a/" CROWD "_a\n"},
    {"complement-of-120-states", ":a\n^" A117 "/" CROWD "_a\n"},
    {"left-over-120-states", ":a\n<a/" A117 "aa_" CROWD "\n"},
    {"left-crowded", ":a\n^a/" CROWD "_" A117 "aa\n"},
    {"right-before-joins", ":a\n<" A60 "/" A60 "_" CROWD "\n"},
    {"joins-before-next-context", ":a\n<" A60 "/" A60 "_a/" CROWD "_a\n"},
    {"complement-joined", ":a\n^" A60 "/" A60 "_a/" CROWD "_a\n"},
    {"union-crowded", ":a\n<a/(" A23 ")*_@/(" A24 ")*_@/" A117 "aa_a\n"},
    {"union-before-next-context", ":a\n^a/(" A23 ")*_@/(" A24 ")*_@/" A117 "aa_a\n"},
    {"first-context-alone", ":a\n<a/(" A23 ")*_@/" A117 "aa_@/(" A24 ")*_@\n"},
};

Texts kind_texts(void) { return named_texts(kinds, sizeof kinds / sizeof *kinds); }

Texts find_text(const char *folder, const char *name) {
    Texts sets[3] = {read_texts(folder), large_texts(), seeded_texts()};
    for (int s = 0; s < 3; s++)
        for (int i = 0; i < sets[s].count; i++)
            if (strcmp(sets[s].text[i].name, name) == 0) return (Texts){1, &sets[s].text[i]};
    return (Texts){0, 0};
}
