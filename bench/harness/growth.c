// How times grow: with the text's bytes, a stage's sets, the letters, a card's states, a plan's letters. A table, and a picture.
#include "bench.h"
#include "svg.h"
#include <stdio.h>
#include <stdlib.h>
#include <string.h>

static void point(Panel *p, double x, double product, double twin) {
    printf("growth\t%s\t%.0f\t%.0f\t%.0f\t%.3f\n", p->title, x, product, twin, product / twin);
    fflush(stdout);
    if (p->count < MOST_POINTS) p->point[p->count++] = (Point){x, product, twin};
}

// The first lines of a large text that has many.
static void over_bytes(Panel *p, const Text *large, double seconds) {
    static Text t;
    for (size_t most = 512; most <= MOST_TEXT; most *= 2) {
        t = *large;
        t.length = most < large->length ? most : large->length;
        while (t.text[t.length - 1] != '\n') t.length--;
        Times x = time_compile(&t, seconds, 501);
        point(p, (double)t.length, x.first.median, x.second.median);
    }
}

// One line, cut to a length.
static void over_line(Panel *p, const Text *large, const char *tail, double seconds) {
    static Text t;
    for (size_t most = 512; most <= MOST_TEXT; most *= 2) {
        t = *large;
        t.length = most;
        memcpy(t.text + most - strlen(tail), tail, strlen(tail));
        Times x = time_compile(&t, seconds, 501);
        point(p, (double)t.length, x.first.median, x.second.median);
    }
}

static void over_sets(Panel *p, int m, double seconds) {
    static const int pairs[][2] = {{3, 15}, {2, 21}, {2, 39}, {18, 26}, {15, 31}};
    char definitions[256];
    for (int i = 0; i < 5; i++) {
        counters(definitions, sizeof definitions, pairs[i][0], pairs[i][1]);
        Stage s = time_stage(m, definitions, "A&B", seconds);
        point(p, s.sets, s.product, s.twin);
    }
}

static void over_letters(Panel *p, double seconds) {
    static const int letters[] = {2, 4, 8, 13, 20, 26};
    for (int i = 0; i < 6; i++) {
        Stage s = time_stage(letters[i], "=A (((L(L|L))*|N(L)*)|(.N|((NN|NL))*))(NL|..)N.NL(.|.).\n", "A*", seconds);
        point(p, letters[i], s.product, s.twin);
    }
}

// So many letters a in a row may never occur: that many states and the dead one.
static int row_card(Judging *j, int m, int row) {
    char text[256] = ":";
    for (int i = 0; i < m; i++) sprintf(text + strlen(text), "%c", 'a' + i);
    strcat(text, "\n>");
    for (int i = 0; i < row; i++) strcat(text, "a");
    strcat(text, "\n");
    Compiled c = plain_compile((const uint8_t *)text, strlen(text), j->card, CARD);
    j->length = c.length;
    return c.number == 0;
}

static void over_states(Panel *p, int m, double seconds) {
    static const int rows[] = {2, 7, 15, 31, 63, 115};
    static Judging j;
    for (int i = 0; i < 6; i++)
        if (row_card(&j, m, rows[i])) {
            Times x = time_load(&j, seconds, 501);
            point(p, rows[i] + 1, x.first.median, x.second.median);
        }
}

static void over_plan(Panel *p, double seconds) {
    static uint8_t plan[1000000];
    static Judging j;
    if (!row_card(&j, 26, 79)) return;
    for (size_t k = 0; k < sizeof plan; k++) plan[k] = (uint8_t)('a' + (k * 7 + k / 11) % 26);
    j.plan = plan;
    for (j.letters = 10; j.letters <= sizeof plan; j.letters *= 10) {
        Times x = time_judge(&j, seconds, 501);
        point(p, (double)j.letters, x.first.median, x.second.median);
    }
}

int growth(const char *folder, double seconds, const char *svg) {
    static const char *title[] = {"rules: text bytes", "one line of !: text bytes", "one pair stage, 26 letters: sets", "one star stage, 512 sets: letters",
                                  "card test, 26 letters: states", "judging, 80 states: plan letters"};
    static Panel panel[6];
    for (int i = 0; i < 6; i++) panel[i].title = title[i];
    Texts rules = find_text(folder, "16k-short-rules"), bangs = find_text(folder, "16k-bangs");
    over_bytes(&panel[0], rules.text, seconds);
    over_line(&panel[1], bangs.text, "a\n", seconds);
    over_sets(&panel[2], 26, seconds);
    over_letters(&panel[3], seconds);
    over_states(&panel[4], 26, seconds);
    over_plan(&panel[5], seconds);
    return write_svg(svg, panel, 6);
}
