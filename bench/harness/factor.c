// The shortest stretch that lies inside no allowed plan: the product's answers held against plain C on many cards and plans, and times on cards of 3, 80 and
// 120 states for plans of 10, 1,000 and 1,000,000 letters.
#include "bench.h"
#include "product.h"
#include <stdio.h>
#include <string.h>

static void shortest_product(void *v) {
    Judging *j = v;
    j->out[0] = pier_shortest(j->card, j->length, j->plan, j->letters, j->out + 1);
}
static void shortest_twin(void *v) {
    Judging *j = v;
    plain_shortest(j->card, j->length, j->plan, j->letters, j->out);
}
#ifdef WITH_SECOND
static void shortest_second(void *v) {
    Judging *j = v;
    second_shortest(j->card, j->length, j->plan, j->letters, j->out);
}
#endif

static int differs(Judging *j) { return !same_answer(j, shortest_product, shortest_twin, IF_SECOND(shortest_second)); }

// ---- plans

enum { LONGEST = 1000000 };
static uint8_t plan[LONGEST];

// Any letters where the card has none.
static void random_plan(const Judging *j, size_t letters) {
    const int m = j->card[2];
    for (size_t k = 0; k < letters; k++) plan[k] = m ? j->card[12 + below(m)] : (uint8_t)('a' + below(26));
}

// From the middle on, at the first state that has such a letter, one that leads to the dead state; before it and behind it the plan is live.
static void hopeless_plan(const Judging *j, size_t letters) {
    const size_t m = j->card[2], n = j->card[6];
    const uint8_t *names = j->card + 12, *marks = names + m, *moves = marks + n;
    live_plan(j, plan, letters);
    for (size_t k = 0, s = 0; k < letters; k++) {
        for (size_t i = 0; i < m && k >= letters / 2; i++)
            if (marks[moves[s * m + i]] == 2) {
                plan[k] = names[i];
                live_plan(j, plan + k + 1, letters - k - 1);
                return;
            }
        s = moves[s * m + (size_t)((const uint8_t *)memchr(names, plan[k], m) - names)];
    }
}

// ---- the comparison

static int ask(Judging *j, size_t letters, int *compared) {
    j->plan = plan;
    j->letters = letters;
    *compared += 1;
    return differs(j);
}

static int random_plans(Judging *j, int count, int *compared) {
    int differ = 0;
    for (int i = 0; i < count; i++) {
        size_t letters = (size_t)below(i < count / 2 ? 12 : 400);
        random_plan(j, letters);
        differ += ask(j, letters, compared);
    }
    return differ;
}

static int one_letter(Judging *j, int *compared) {
    int differ = 0;
    for (int i = 0; i < j->card[2]; i++) {
        memset(plan, j->card[12 + i], 300);
        differ += ask(j, 300, compared);
    }
    return differ;
}

// A byte that is no letter of the card: first, in the middle, last, and twice.
static int unknown_letters(Judging *j, int *compared) {
    static const uint8_t foreign[] = {0, '\n', ' ', 'A', 'a' - 1, 'z' + 1, 128, 255};
    int differ = 0;
    for (size_t i = 0; i < sizeof foreign; i++) {
        const size_t places[] = {0, 20, 39};
        for (int p = 0; p < 3; p++) {
            random_plan(j, 40);
            plan[places[p]] = foreign[i];
            differ += ask(j, 40, compared);
        }
        plan[25] = foreign[i];
        differ += ask(j, 40, compared);
    }
    for (int c = 'a'; c <= 'z'; c++) { // unknown where the card does not have it
        random_plan(j, 40);
        plan[30] = (uint8_t)c;
        differ += ask(j, 40, compared);
    }
    return differ;
}

// One byte altered, the length one less, one more: mostly refused, and ahead of an unknown letter.
static int damaged(Judging *j, int count, int *compared) {
    int differ = 0;
    const size_t length = j->length;
    random_plan(j, 20);
    for (int i = 0; i < count; i++) {
        if (i == count / 2) plan[10] = '?';
        size_t at = (size_t)below(i % 3 ? (int)length : 12 + j->card[2] + j->card[6]);
        uint8_t kept = j->card[at];
        j->card[at] = (uint8_t)(i % 2 ? below(4) : below(256));
        differ += ask(j, 20, compared);
        j->card[at] = kept;
    }
    j->length = length - 1, differ += ask(j, 20, compared);
    if (length < CARD) j->card[length] = 0, j->length = length + 1, differ += ask(j, 20, compared);
    j->length = length;
    return differ;
}

// Whether a live plan may be as long as one likes, wherever it is: each live state has a letter that leads to one.
static int goes_on(const Judging *j) {
    const int m = j->card[2], n = j->card[6];
    const uint8_t *marks = j->card + 12 + m, *moves = marks + n;
    for (int p = 0; p < n; p++) {
        int live = 0;
        for (int i = 0; i < m; i++) live |= marks[moves[p * m + i]] != 2;
        if (marks[p] != 2 && !live) return 0;
    }
    return marks[0] != 2;
}

// Cards that are refused too.
static int all_plans(Judging *j, int *compared) {
    int differ = ask(j, 0, compared) + random_plans(j, 30, compared) + one_letter(j, compared) + unknown_letters(j, compared);
    if (goes_on(j)) {
        live_plan(j, plan, 1000);
        differ += ask(j, 1000, compared);
        hopeless_plan(j, 1000);
        differ += ask(j, 1000, compared);
    }
    return differ + damaged(j, 60, compared);
}

// One dead state over the first letters of the alphabet.
static void nothing_card(int m, Judging *j) {
    const uint8_t contents[] = {12, 0, (uint8_t)m, 0, (uint8_t)(12 + m), 0, 1, 0, (uint8_t)(13 + m), 0, (uint8_t)m, 0};
    memset(j->card, 0, CARD);
    memcpy(j->card, contents, sizeof contents);
    for (int i = 0; i < m; i++) j->card[12 + i] = (uint8_t)('a' + i);
    j->card[12 + m] = 2;
    j->length = (size_t)(13 + 2 * m);
    j->name = "nothing";
}

int same_factors(const char *folder, int *compared) {
    static Judging j;
    int differ = 0;
    Texts sets[] = {read_texts(folder), seeded_texts(), ruleless_texts(), kind_texts()};
    begin_seed(200);
    for (int s = 0; s < 4; s++)
        for (int i = 0; i < sets[s].count; i++)
            if (text_card(&sets[s].text[i], &j)) differ += all_plans(&j, compared);
    for (int m = 1; m <= 26; m += 5) nothing_card(m, &j), differ += all_plans(&j, compared);
    for (int states = 1; states <= 2; states++)
        for (int marks = 0; marks <= 3; marks++) bare_card(states, marks, &j), differ += all_plans(&j, compared);
    for (int i = 0; i < 100; i++) {
        begin_seed(300 + (uint32_t)i);
        trap_card(1 + below(4), 2 + below(8), &j);
        differ += all_plans(&j, compared);
    }
    for (int i = 0; i < seeded_cards(); i++) seeded_card(i, &j), differ += all_plans(&j, compared);
    return differ;
}

// ---- times

static void line(const Judging *j, const char *kind, Times x) {
    char found[64] = "none";
    if (j->out[1]) snprintf(found, sizeof found, "%lu %lu", j->out[2], j->out[3]);
    printf("stretch\t%s\t%d\t%d\t%s\t%zu\t%s\t%.1f\t%.1f\t%.3f\t%.3f\t%d x %ld\n", j->name, j->card[2], j->card[6], kind, j->letters, found, x.first.median,
           x.second.median, x.first.median / x.second.median, x.first.best / x.second.best, x.samples, x.runs);
    fflush(stdout);
}

static int one_plan(Judging *j, int kind, size_t letters, double seconds) {
    static const char *names[] = {"live", "hopeless", "random"};
    begin_seed(400);
    if (kind == 0) live_plan(j, plan, letters);
    else if (kind == 1) hopeless_plan(j, letters);
    else random_plan(j, letters);
    j->plan = plan;
    j->letters = letters;
    if (differs(j)) return 1;
    line(j, names[kind], time_both(shortest_product, shortest_twin, IF_SECOND(shortest_second), j, seconds, 2001));
    return 0;
}

int factor_times(const char *folder, double seconds) {
    static const size_t lengths[] = {10, 1000, LONGEST};
    static Judging j;
    int differ = 0;
    for (int i = 0; i < BOARD_CARDS; i++) {
        if (!board_card(folder, i, &j)) continue;
        const int n = j.card[6];
        if (n != 3 && n != 80 && n != 120) continue;
        for (int kind = 0; kind < 3; kind++)
            for (int l = 0; l < 3; l++) differ += one_plan(&j, kind, lengths[l], seconds);
    }
    return differ;
}
