// How many letters are owed: the product's unfinished replies and steps held against plain C on many cards, for one plan and for many at once, and times on
// cards where few are owed and where over a hundred are.
#include "bench.h"
#include "product.h"
#include <stdio.h>
#include <string.h>

static void step_product(void *v) {
    Judging *j = v;
    j->out[0] = pier_step(j->card, j->length, j->state, j->letter, j->out + 1);
}
static void step_twin(void *v) {
    Judging *j = v;
    plain_step(j->card, j->length, j->state, j->letter, j->out);
}
#ifdef WITH_SECOND
static void step_second(void *v) {
    Judging *j = v;
    second_step(j->card, j->length, j->state, j->letter, j->out);
}
#endif

static int step_differs(Judging *j, size_t state, int letter, int *compared) {
    j->state = state;
    j->letter = (uint8_t)letter;
    *compared += 1;
    return !same_answer(j, step_product, step_twin, IF_SECOND(step_second));
}

static int judge_differs(Judging *j, const uint8_t *plan, size_t letters, int *compared) {
    j->plan = plan;
    j->letters = letters;
    *compared += 1;
    return !same_judge(j);
}

// ---- ways

// For each state of a card that loads the state before it and the letter, on a shortest way from the start.
typedef struct {
    int m, n;
    uint8_t before[MOST_STATES], letter[MOST_STATES], depth[MOST_STATES];
} Ways;

static Ways ways(const Judging *j) {
    Ways w = {.m = j->card[2], .n = j->card[6]};
    const uint8_t *names = j->card + 12, *moves = names + w.m + w.n;
    uint8_t order[MOST_STATES] = {0}, seen[MOST_STATES] = {1};
    for (int i = 0, tail = 1; i < tail; i++)
        for (int c = 0, p = order[i]; c < w.m; c++) {
            const int q = moves[p * w.m + c];
            if (seen[q]) continue;
            seen[q] = 1;
            w.before[q] = (uint8_t)p, w.letter[q] = names[c], w.depth[q] = (uint8_t)(w.depth[p] + 1);
            order[tail++] = (uint8_t)q;
        }
    return w;
}

static size_t way_to(const Ways *w, int state, uint8_t plan[MOST_STATES]) {
    const size_t letters = w->depth[state];
    for (size_t k = letters; k-- > 0; state = w->before[state]) plan[k] = w->letter[state];
    return letters;
}

// ---- the comparison

typedef void (*Owed)(const uint8_t *card, uint8_t *owed);
typedef void (*Walk)(const uint8_t *card, const uint8_t *owed, const uint8_t *plan, size_t letters, uint64_t *out);

enum { LINES = MOST_STATES * (MOST_STATES + 1) };

// The plan to each state, one a line, by the product in one call and by plain C's walk with its table.
static int lines_differ(Judging *j, const Ways *w, Owed owed, Walk walk) {
    static uint8_t lines[LINES], plan[MOST_STATES], table[MOST_STATES];
    static uint64_t replies[3 * MOST_STATES];
    uint64_t out[3];
    size_t length = 0;
    int differ = 0;
    for (int q = 0; q < w->n; q++) {
        length += way_to(w, q, lines + length);
        lines[length++] = '\n';
    }
    memset(replies, 0xA5, sizeof replies);
    uint64_t number = pier_judge_lines(j->card, j->length, lines, length, replies, 3 * (size_t)w->n, out);
    if (number || out[0] != (uint64_t)w->n || out[1] != length || out[2]) {
        printf("differs: %s: many plans: %lu %lu %lu %lu\n", j->name, number, out[0], out[1], out[2]);
        return 1;
    }
    owed(j->card, table);
    for (int q = 0; q < w->n; q++) {
        const uint64_t *reply = replies + 3 * q;
        walk(j->card, table, plan, way_to(w, q, plan), out);
        if (memcmp(reply, out, sizeof out) == 0) continue;
        printf("differs: %s: plan to state %d among many: product %lu %lu %lu; C %lu %lu %lu\n", j->name, q, reply[0], reply[1], reply[2], out[0], out[1],
               out[2]);
        differ++;
    }
    return differ;
}

// Every state: judged, landed on by every letter or by some, and among many plans.
static int all_states(Judging *j, int *compared) {
    static uint8_t plan[MOST_STATES];
    const Ways w = ways(j);
    const uint8_t *names = j->card + 12;
    int differ = 0, some = w.m > 3 && w.n > 12;
    for (int q = 0; q < w.n; q++) {
        differ += judge_differs(j, plan, way_to(&w, q, plan), compared);
        for (int i = 0; i < (some ? 3 : w.m); i++) differ += step_differs(j, (size_t)q, names[some ? below(w.m) : i], compared);
        differ += step_differs(j, (size_t)q, '?', compared);
    }
    *compared += w.n;
    differ += lines_differ(j, &w, plain_owed, plain_walk);
#ifdef WITH_SECOND
    differ += lines_differ(j, &w, second_owed, second_walk);
#endif
    return differ;
}

// States and letters that are not there, the letter first; the card before both.
static int refused_steps(Judging *j, int *compared) {
    static const size_t states[] = {0, 1, 120, 255, 256, 65536, SIZE_MAX};
    const int n = j->card[6], known = j->card[2] ? j->card[12] : 'a';
    int differ = 0;
    for (size_t i = 0; i < sizeof states / sizeof *states; i++)
        for (int letter = 0; letter < 256; letter += 51) differ += step_differs(j, states[i], letter, compared) + step_differs(j, states[i], known, compared);
    return differ + step_differs(j, (size_t)n, known, compared) + step_differs(j, (size_t)n, '?', compared);
}

static int damaged_steps(Judging *j, int count, int *compared) {
    int differ = 0;
    const size_t length = j->length;
    for (int i = 0; i < count; i++) {
        const size_t at = (size_t)below(i % 3 ? (int)length : 12 + j->card[2] + j->card[6]);
        const uint8_t kept = j->card[at], known = j->card[2] ? j->card[12] : 'a';
        j->card[at] = (uint8_t)(i % 2 ? below(4) : below(256));
        differ += step_differs(j, (size_t)below(i % 5 ? 3 : 300), i % 7 ? known : '?', compared);
        j->card[at] = kept;
    }
    j->length = length - 1, differ += step_differs(j, 0, 'a', compared);
    j->length = length;
    return differ;
}

static int all_of(Judging *j, int *compared) {
    uint64_t loaded[3];
    int differ = refused_steps(j, compared) + damaged_steps(j, 60, compared);
    plain_load(j->card, j->length, loaded);
    return loaded[0] ? differ : differ + all_states(j, compared);
}

int same_owed(const char *folder, int *compared) {
    static Judging j;
    int differ = 0;
    Texts sets[] = {read_texts(folder), seeded_texts(), ruleless_texts(), kind_texts()};
    begin_seed(500);
    for (int s = 0; s < 4; s++)
        for (int i = 0; i < sets[s].count; i++)
            if (text_card(&sets[s].text[i], &j)) differ += all_of(&j, compared);
    for (int states = 1; states <= 2; states++)
        for (int marks = 0; marks <= 3; marks++) bare_card(states, marks, &j), differ += all_of(&j, compared);
    for (int states = 1; states <= 120; states += 17) far_card(1 + states % 3, states, &j), differ += all_of(&j, compared);
    for (int i = 0; i < 60; i++) {
        begin_seed(600 + (uint32_t)i);
        const int letters = 2 + below(3), states = 2 + below(30);
        if (i % 2) trap_card(letters, states, &j);
        else one_end_card(letters, states, &j);
        differ += all_of(&j, compared);
    }
    for (int i = 0; i < seeded_cards(); i++) seeded_card(i, &j), differ += all_of(&j, compared);
    return differ;
}

// ---- times

static void line(const char *what, const Judging *j, int owed, Times x) {
    printf("%s\t%s\t%d\t%d\t%d\t%.1f\t%.1f\t%.3f\t%.3f\t%d x %ld\n", what, j->name, j->card[2], j->card[6], owed, x.first.median, x.second.median,
           x.first.median / x.second.median, x.first.best / x.second.best, x.samples, x.runs);
    fflush(stdout);
}

// The walk and the search alone, where they are enough of the whole to be told from it.
static void beyond(const Judging *j, int owed, Times judge, Times load) {
    const double product = judge.first.median - load.first.median, twin = judge.second.median - load.second.median, enough = 0.05;
    if (product < enough * load.first.median || twin < enough * load.second.median) return;
    printf("search\t%s\t%d\t%d\t%d\t%.1f\t%.1f\t%.3f\t%.3f\tjudge less load\n", j->name, j->card[2], j->card[6], owed, product, twin, product / twin,
           product / twin);
}

// The state that owes most, by its plan and by a step to it.
static int one_card(Judging *j, double seconds) {
    static uint8_t owed[MOST_STATES], plan[MOST_STATES];
    const Ways w = ways(j);
    const uint8_t *moves = j->card + 12 + w.m + w.n;
    int most = 0, differ = 0, compared = 0, from = 0;
    plain_owed(j->card, owed);
    for (int q = 0; q < w.n; q++)
        if (owed[q] != 255 && owed[q] > owed[most]) most = q;
    if (!owed[most]) return 0;
    while (from < w.n * w.m && moves[from] != most) from++;
    differ += judge_differs(j, plan, way_to(&w, most, plan), &compared);
    Times load = time_load(j, seconds, 2001), judge = time_judge(j, seconds, 2001);
    line("load", j, owed[most], load);
    line("judge", j, owed[most], judge);
    beyond(j, owed[most], judge, load);
    if (from == w.n * w.m) return differ;
    differ += step_differs(j, (size_t)(from / w.m), j->card[12 + from % w.m], &compared);
    line("step", j, owed[most], time_both(step_product, step_twin, IF_SECOND(step_second), j, seconds, 2001));
    return differ;
}

int owed_times(const char *folder, double seconds) {
    static const char *books[] = {"13-obligations", "05-harbour-day-26", "20-exactly-120-states"};
    static Judging j;
    int differ = 0;
    for (int i = 0; i < 3; i++) {
        Texts t = find_text(folder, books[i]);
        if (t.count && text_card(t.text, &j)) differ += one_card(&j, seconds);
    }
    begin_seed(700);
    one_end_card(26, 120, &j), differ += one_card(&j, seconds);
    far_card(2, 120, &j), differ += one_card(&j, seconds);
    far_card(26, 120, &j), differ += one_card(&j, seconds);
    return differ;
}
