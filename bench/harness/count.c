// How many plans of a length are allowed, unfinished and hopeless: the product's figures held against plain C on many cards and lengths, and times on the
// books' cards and on the largest ones.
#include "bench.h"
#include "product.h"
#include <stdio.h>
#include <stdlib.h>

void count_product(void *v) {
    Judging *j = v;
    j->out[0] = pier_count(j->card, j->length, j->letters, j->out + 1);
}
static void count_twin(void *v) {
    Judging *j = v;
    plain_count(j->card, j->length, j->letters, j->out);
}
#ifdef WITH_SECOND
static void count_second(void *v) {
    Judging *j = v;
    second_count(j->card, j->length, j->letters, j->out);
}
#endif

static int differs(Judging *j) {
    if (same_answer(j, count_product, count_twin, IF_SECOND(count_second))) return 0;
    printf("  of all plans of %zu letters\n", j->letters);
    return 1;
}

// ---- the comparison

static int ask(Judging *j, size_t letters, int *compared) {
    j->letters = letters;
    *compared += 1;
    return differs(j);
}

static const size_t lengths[] = {0, 1, 2, 3, 4, 5, 12, 13, 14, 40, 41, 63, 64, 4096, 4097, (size_t)1 << 32, SIZE_MAX};
enum { LENGTHS = sizeof lengths / sizeof *lengths };

// The greatest length whose plans over so many letters can be counted.
static size_t longest(uint64_t m) {
    size_t k = 0;
    for (uint64_t plans = 1; k < 4096 && (m < 2 || plans <= UINT64_MAX / m); k++) plans *= m;
    return k;
}

static int any_length(Judging *j, int *compared) { return ask(j, lengths[below(LENGTHS)], compared); }

// Cards that are refused too.
static int all_lengths(Judging *j, int *compared) {
    const size_t most = longest(j->card[2]);
    int differ = ask(j, most, compared) + ask(j, most + 1, compared);
    for (int i = 0; i < LENGTHS; i++) differ += ask(j, lengths[i], compared);
    return differ + on_damaged(j, 60, any_length, compared);
}

int same_counts(const char *folder, int *compared) {
    static Judging j;
    int differ = on_cards(folder, all_lengths, compared), cases;
    Texts random = random_texts();
    for (int i = 0; i < random.count; i++)
        if (text_card(&random.text[i], &j)) differ += all_lengths(&j, compared);
    Judging *timed = count_cases(folder, &cases);
    for (int i = 0; i < cases; i++) differ += all_lengths(&timed[i], compared);
    for (int m = 1; m <= 26; m++) {
        begin_seed(800 + (uint32_t)m);
        far_card(m, 1 + below(120), &j), differ += all_lengths(&j, compared);
        trap_card(m, 2 + below(119), &j), differ += all_lengths(&j, compared);
    }
    return differ;
}

// ---- times

static Judging *begin(Judging **next, size_t letters) {
    (*next)->letters = letters;
    return (*next)++;
}

// Every book's card, with the longest day that can be counted over 26 letters; then for 1, 2 and 26 letters a card of 120 states and the longest day; and no
// letters at all.
Judging *count_cases(const char *folder, int *count) {
    enum { DAY = 13, MORE = 4 };
    Texts books = read_texts(folder);
    Judging *cases = calloc((size_t)books.count + MORE, sizeof *cases), *next = cases;
    for (int i = 0; i < books.count; i++)
        if (text_card(&books.text[i], next)) begin(&next, DAY);
    far_card(1, MOST_STATES, next);
    begin(&next, longest(1))->name = "a cycle";
    begin_seed(900);
    for (int m = 2; m <= 26; m += 24) {
        while (trap_card(m, MOST_STATES + below(MOST_STATES / 2), next) != MOST_STATES) {}
        begin(&next, longest((uint64_t)m));
    }
    *next = next[-1];
    begin(&next, 0);
    *count = (int)(next - cases);
    return cases;
}

// What comes on top of the load, where it is enough to be told from it.
static void beyond(Times count, Times load) {
    const double product = count.first.median - load.first.median, twin = count.second.median - load.second.median, enough = 0.05;
    if (product < enough * load.first.median || twin < enough * load.second.median) printf("\t-\n");
    else printf("\t%.3f\n", product / twin);
}

static int one_case(Judging *j, double seconds) {
    if (differs(j)) return 1;
    Times count = time_both(count_product, count_twin, IF_SECOND(count_second), j, seconds, 2001), load = time_load(j, seconds, 2001);
    printf("count\t%s\t%d\t%d\t%zu\t%.1f\t%.1f\t%.3f\t%.3f\t%d x %ld\t%.1f\t%.1f", j->name, j->card[2], j->card[6], j->letters, count.first.median,
           count.second.median, count.first.median / count.second.median, count.first.best / count.second.best, count.samples, count.runs, load.first.median,
           load.second.median);
    beyond(count, load);
    fflush(stdout);
    return 0;
}

int count_times(const char *folder, double seconds) {
    int differ = 0, cases;
    Judging *timed = count_cases(folder, &cases);
    for (int i = 0; i < cases; i++) differ += one_case(&timed[i], seconds);
    return differ;
}
