// Loading and judging: cards of 3 to 120 states over 2 to 26 letters, plans of 10, 1,000 and 1,000,000 letters, by the board and by the same tests and walk in plain C.
#include "bench.h"
#include "product.h"
#include <stdio.h>
#include <stdlib.h>
#include <string.h>

static void load_product(void *v) {
    Judging *j = v;
    j->out[0] = pier_load(j->card, j->length, j->out + 1);
}
static void load_twin(void *v) {
    Judging *j = v;
    plain_load(j->card, j->length, j->out);
    j->out[3] = 0;
}
static void judge_product(void *v) {
    Judging *j = v;
    j->out[0] = pier_judge(j->card, j->length, j->plan, j->letters, j->out + 1);
}
static void judge_twin(void *v) {
    Judging *j = v;
    plain_judge(j->card, j->length, j->plan, j->letters, j->out);
    j->out[3] = 0;
}
#ifdef WITH_SECOND
static void load_second(void *v) {
    Judging *j = v;
    second_load(j->card, j->length, j->out);
    j->out[3] = 0;
}
static void judge_second(void *v) {
    Judging *j = v;
    second_judge(j->card, j->length, j->plan, j->letters, j->out);
    j->out[3] = 0;
}
#endif

Times time_load(Judging *j, double seconds, int most) { return time_both(load_product, load_twin, IF_SECOND(load_second), j, seconds, most); }
Times time_judge(Judging *j, double seconds, int most) { return time_both(judge_product, judge_twin, IF_SECOND(judge_second), j, seconds, most); }

// A random plan that never turns hopeless: each letter is one of those that lead to a live state. The card has letters.
void live_plan(const Judging *j, uint8_t *plan, size_t letters) {
    size_t m = j->card[2], n = j->card[6], s = 0;
    const uint8_t *names = j->card + 12, *marks = names + m, *moves = marks + n;
    uint32_t seed = 2463534242u;
    for (size_t k = 0; k < letters; k++) {
        size_t i;
        do {
            seed ^= seed << 13, seed ^= seed >> 17, seed ^= seed << 5;
            i = seed % m;
        } while (marks[moves[s * m + i]] == 2);
        plan[k] = names[i];
        s = moves[s * m + i];
    }
}

static void line(const char *what, const Judging *j, size_t letters, Times x) {
    printf("%s\t%s\t%d\t%d\t%zu\t%.1f\t%.1f\t%.3f\t%.3f\t%d x %ld\n", what, j->name, j->card[2], j->card[6], letters, x.first.median, x.second.median,
           x.first.median / x.second.median, x.first.best / x.second.best, x.samples, x.runs);
    fflush(stdout);
}

static int same_load(Judging *j) { return same_answer(j, load_product, load_twin, IF_SECOND(load_second)); }
int same_judge(Judging *j) { return same_answer(j, judge_product, judge_twin, IF_SECOND(judge_second)); }

// Loading alone.
static int load_only(Judging *j, double seconds) {
    int differ = !same_load(j);
    if (seconds > 0) line("load", j, 0, time_load(j, seconds, 2001));
    return differ;
}

static int one_card(Judging *j, double seconds) {
    static uint8_t plan[1000000];
    static const size_t lengths[] = {10, 1000, 1000000};
    int differ = 0;
    live_plan(j, plan, sizeof plan);
    j->plan = plan;
    differ += load_only(j, seconds);
    for (int i = 0; i < 3; i++) {
        j->letters = lengths[i];
        differ += !same_judge(j);
        if (seconds > 0) line("judge", j, lengths[i], time_judge(j, seconds, 2001));
    }
    return differ;
}

#define ALPHABET "abcdefghijklmnopqrstuvwxyz"
#define DOTS59 "..........................................................."

// Small cards and the largest: in the last two the places of two letters are counted by 2 and by 59.
static const struct {
    const char *name, *text;
} cards[] = {
    {"one rule", ":ab\n>b / .*a _ .*\n"},
    {"one rule", ":" ALPHABET "\n>b / .*a _ .*\n"},
    {"two counters", ":abc\n>a / (..)* _ .*\n>b / (" DOTS59 ")* _ .*\n"},
    {"two counters", ":" ALPHABET "\n>a / (..)* _ .*\n>b / (" DOTS59 ")* _ .*\n"},
};

int text_card(const Text *text, Judging *j) {
    Compiled c = plain_compile(text->text, text->length, j->card, CARD);
    j->name = text->name;
    j->length = c.length;
    return c.number == 0;
}

int board_card(const char *folder, int i, Judging *j) {
    static const char *names[] = {"05-harbour-day-26", "08-counters-110", "06-window-6-26", "20-exactly-120-states", "19-exactly-512-sets"};
    enum { TEXTS = sizeof cards / sizeof *cards };
    static Text made;
    if (i >= TEXTS) {
        Texts t = find_text(folder, names[i - TEXTS]);
        return t.count && text_card(t.text, j);
    }
    snprintf(made.name, sizeof made.name, "%s", cards[i].name);
    made.length = strlen(cards[i].text);
    memcpy(made.text, cards[i].text, made.length);
    return text_card(&made, j);
}

// Loading, and the empty plan and one letter.
static int short_plans(Judging *j, int *compared) {
    int differ = !same_load(j);
    j->plan = (const uint8_t *)"a";
    for (j->letters = 0; j->letters <= 1; j->letters++) differ += !same_judge(j);
    *compared += 3;
    return differ;
}

int same_ruleless(int *compared) {
    static Judging j;
    int differ = 0;
    Texts texts = ruleless_texts();
    for (int i = 0; i < texts.count; i++)
        if (text_card(&texts.text[i], &j)) differ += short_plans(&j, compared);
    for (int states = 0; states <= 3; states++)
        for (int marks = 0; marks <= 3; marks++) {
            bare_card(states, marks, &j);
            differ += short_plans(&j, compared);
        }
    return differ;
}

int board_both(const char *folder, double seconds, int *compared) {
    int differ = 0;
    static Judging j;
    for (int i = 0; i < BOARD_CARDS; i++)
        if (board_card(folder, i, &j)) differ += one_card(&j, seconds), *compared += 4;
    Texts seeded = seeded_texts();
    for (int i = 0; i < seeded.count; i++)
        if (text_card(&seeded.text[i], &j)) differ += load_only(&j, seconds), *compared += 1;
    for (int i = 0; i < seeded_cards(); i++) {
        seeded_card(i, &j);
        differ += load_only(&j, seconds), *compared += 1;
    }
    return differ;
}
