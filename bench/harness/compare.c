// Answers held against each other, the product's and plain C's; the cards that every comparison is made on, and cards of which a byte was altered.
#include "bench.h"
#include <stdio.h>
#include <string.h>

// What an answer held before alters nothing.
static void answer(Judging *j, Action act, uint64_t out[4]) {
    memset(j->out, 0xA5, sizeof j->out);
    act(j);
    memcpy(out, j->out, sizeof j->out);
}

static int same_by(Judging *j, Action product, Action twin, int method) {
    uint64_t p[4], c[4];
    answer(j, product, p);
    refine_by(method);
    answer(j, twin, c);
    refine_by(ROUNDS);
    if (memcmp(p, c, sizeof p) == 0) return 1;
    printf("differs: %s: product %lu %lu %lu %lu; C %lu %lu %lu %lu\n", j->name, p[0], p[1], p[2], p[3], c[0], c[1], c[2], c[3]);
    return 0;
}

int same_answer(Judging *j, Action product, Action twin, Action second) {
    int same = 1;
    for (int method = ROUNDS; method <= HOPCROFT; method++) {
        same &= same_by(j, product, twin, method);
        if (second) same &= same_by(j, product, second, method);
    }
    return same;
}

int on_cards(const char *folder, Compare compare, int *compared) {
    static Judging j;
    int differ = 0;
    Texts sets[] = {read_texts(folder), seeded_texts(), ruleless_texts(), kind_texts()};
    begin_seed(200);
    for (size_t s = 0; s < sizeof sets / sizeof *sets; s++)
        for (int i = 0; i < sets[s].count; i++)
            if (text_card(&sets[s].text[i], &j)) differ += compare(&j, compared);
    for (int states = 1; states <= 2; states++)
        for (int marks = 0; marks <= 3; marks++) bare_card(states, marks, &j), differ += compare(&j, compared);
    for (int i = 0; i < seeded_cards(); i++) seeded_card(i, &j), differ += compare(&j, compared);
    return differ;
}

int on_damaged(Judging *j, int count, Compare compare, int *compared) {
    int differ = 0;
    const size_t length = j->length;
    for (int i = 0; i < count; i++) {
        const size_t at = (size_t)below(i % 3 ? (int)length : 12 + j->card[2] + j->card[6]);
        const uint8_t kept = j->card[at];
        j->card[at] = (uint8_t)(i % 2 ? below(4) : below(256));
        differ += compare(j, compared);
        j->card[at] = kept;
    }
    j->length = length - 1, differ += compare(j, compared);
    if (length < CARD) j->card[length] = 0, j->length = length + 1, differ += compare(j, compared);
    j->length = length;
    return differ;
}
