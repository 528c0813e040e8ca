// One stage alone: a book with the stage's line twenty times over, less the same book without it, divided by twenty.
#include "bench.h"
#include <stdio.h>
#include <string.h>

static uint8_t card[CARD];

static void put(Text *t, const char *s) {
    memcpy(t->text + t->length, s, strlen(s));
    t->length += strlen(s);
}

// Line 1 with m letters, the first half named L, the others N: a stage makes the same sets over any number of letters.
static void put_letters(Text *t, int m) {
    char line[64];
    put(t, ":");
    for (int i = 0; i < m; i++) t->text[t->length++] = (uint8_t)('a' + i);
    for (int half = 0; half < 2; half++) {
        put(t, half ? "\n=N " : "\n=L ");
        for (int i = half ? m / 2 : 0; i < (half ? m : m / 2); i++) {
            snprintf(line, sizeof line, "%s%c", i == (half ? m / 2 : 0) ? "" : "|", 'a' + i);
            put(t, line);
        }
    }
    put(t, "\n");
}

enum { LINES = 20 };

static void make(Text *t, int m, const char *definitions, const char *stage, int lines) {
    static const char names[] = "CDEFGHIJKMOPQRSTUVWXYZ";
    char line[64];
    t->length = 0;
    put_letters(t, m);
    put(t, definitions);
    for (int i = 0; i < lines; i++) {
        snprintf(line, sizeof line, "=%c %s\n", names[i], stage);
        put(t, line);
    }
    put(t, ">a\n");
}

Stage time_stage(int m, const char *definitions, const char *stage, double seconds) {
    static Text with, without;
    make(&with, m, definitions, stage, LINES);
    make(&without, m, definitions, stage, 0);
    Compiled c = twin_compile(&with, card);
    if (c.number) return (Stage){0, 0, 0, 0, 0};
    Times x = time_compile(&with, seconds, 501), y = time_compile(&without, seconds, 501);
    return (Stage){c.peak, (x.first.median - y.first.median) / LINES, (x.second.median - y.second.median) / LINES, x.samples, x.runs};
}

void counters(char *out, size_t room, int i, int j) {
    char dots[64];
    memset(dots, '.', sizeof dots);
    snprintf(out, room, "=A (%.*s)*L\n=B (%.*s)*N\n", i, dots, j, dots);
}

// Pairs that hold no plan: sets and one round. Stars: sets, and 100, 115 and 108 states kept.
void stage_times(double seconds) {
    static const int pairs[][2] = {{2, 39}, {9, 29}, {15, 31}};
    static const char *stars[] = {"=A ..((N|.)N|L)L(((.|.)|..)N.LN)*\n", "=A ((.N..|NL(L|L))L|(NNL.L|(L)*NN.))(.(L|N)(.|L)|.)LL\n",
                                  "=A (((L(L|L))*|N(L)*)|(.N|((NN|NL))*))(NL|..)N.NL(.|.).\n"};
    char definitions[256];
    for (int star = 0; star < 2; star++)
        for (int i = 0; i < 3; i++)
            for (int m = 2; m <= 26; m += 24) {
                counters(definitions, sizeof definitions, pairs[i][0], pairs[i][1]);
                Stage s = time_stage(m, star ? stars[i] : definitions, star ? "A*" : "A&B", seconds);
                printf("stage\t%s\t%d\t%d\t%.0f\t%.0f\t%.3f\t%d x %ld\n", star ? "star, sets and refinement" : "pairs, sets", m, s.sets, s.product, s.twin,
                       s.product / s.twin, s.samples, s.runs);
                fflush(stdout);
            }
}
