// bench WHAT FOLDER [NAME | SECONDS]: one part of the benchmark.
#include "bench.h"
#include <stdio.h>
#include <stdlib.h>
#include <string.h>

enum { SETS = 3 };

static int check(const char *folder) {
    Texts sets[] = {read_texts(folder), large_texts(), seeded_texts(), ruleless_texts(), kind_texts(), random_texts()};
    int differ = 0, all = 0;
    for (int s = 0; s < (int)(sizeof sets / sizeof *sets); s++) {
        differ += same_cards(&sets[s]);
        all += sets[s].count;
    }
    differ += board_both(folder, 0, &all);
    differ += same_ruleless(&all);
    differ += same_factors(folder, &all);
    differ += same_owed(folder, &all);
    differ += same_counts(folder, &all);
    printf("%d passed, %d failed\n", all - differ, differ);
    return differ != 0;
}

static int compile_all(const char *folder, double seconds) {
    Texts sets[SETS] = {read_texts(folder), seeded_texts(), large_texts()};
    for (int s = 0; s < SETS; s++) {
        if (same_cards(&sets[s])) return 1;
        compile_times(&sets[s], seconds);
    }
    return 0;
}

// The same book over and over, for a profiler.
static int loop(const char *folder, const char *name, const char *who) {
    Texts t = find_text(folder, name);
    static uint8_t card[CARD];
    if (!t.count) return 1;
    for (double end = now() + 3e9; now() < end;) {
        if (*who == 'c') twin_compile(t.text, card);
        else product_compile(t.text, card);
    }
    return 0;
}

// The states from which a plan may still be allowed; other tools keep no others. One at least.
static int live(const char *folder, const char *name) {
    Texts t = find_text(folder, name);
    static uint8_t card[CARD];
    int states = 0;
    if (!t.count || twin_compile(t.text, card).number) return 1;
    for (int p = 0; p < card[6]; p++) states += card[12 + card[2] + p] != 2;
    printf("%d\n", states ? states : 1);
    return 0;
}

int main(int argc, char **argv) {
    if (argc < 3) return 2;
    double seconds = argc > 3 ? atof(argv[3]) : 1;
    int compared = 0;
    spoil_buffers();
    if (!strcmp(argv[1], "check")) return check(argv[2]);
    if (!strcmp(argv[1], "compile")) return compile_all(argv[2], seconds);
    if (!strcmp(argv[1], "board")) return board_both(argv[2], seconds, &compared) != 0;
    if (!strcmp(argv[1], "factor")) return factor_times(argv[2], seconds) != 0;
    if (!strcmp(argv[1], "owed")) return owed_times(argv[2], seconds) != 0;
    if (!strcmp(argv[1], "count")) return count_times(argv[2], seconds) != 0;
    if (!strcmp(argv[1], "stages")) return stage_times(seconds), 0;
    if (!strcmp(argv[1], "growth") && argc > 4) return growth(argv[2], seconds, argv[4]);
    if (!strcmp(argv[1], "memory")) return memory(argv[2]), 0;
    if (!strcmp(argv[1], "live") && argc > 3) return live(argv[2], argv[3]);
    if (!strcmp(argv[1], "loop") && argc > 3) return loop(argv[2], argv[3], argc > 4 ? argv[4] : "product");
    if (!strcmp(argv[1], "one") && argc > 3) {
        Texts t = find_text(argv[2], argv[3]);
        if (same_cards(&t)) return 1;
        compile_times(&t, argc > 4 ? atof(argv[4]) : 1);
        return 0;
    }
    return 2;
}
