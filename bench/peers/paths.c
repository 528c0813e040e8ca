// foma counts the plans of a length in the same process: a card's machine, met with all plans of that length, has as many paths. Once for the allowed plans,
// once with an end in every live state; what is left of all plans is hopeless. The machines and all plans are made beforehand; the product and foma take turns.
#include "../harness/bench.h"
#include <fomalib.h>
#include <stdio.h>
#include <stdlib.h>

typedef struct {
    Judging judging; // comes first, as the product's action takes it
    struct fsm *allowed, *live, *all;
    long long count[2]; // negative where foma has no count
} Job;

static void arc(struct fsm_construct_handle *h, int from, int to, uint8_t letter) {
    char symbol[2] = {(char)letter, 0};
    fsm_construct_add_arc(h, from, to, symbol, symbol);
}

// The card's machine without its dead state.
static struct fsm *machine(const Judging *j, int ends_everywhere) {
    const int m = j->card[2], n = j->card[6];
    const uint8_t *letters = j->card + 12, *marks = letters + m, *moves = marks + n;
    if (marks[0] == 2) return fsm_empty_set();
    struct fsm_construct_handle *h = fsm_construct_init("card");
    for (int p = 0; p < n; p++) {
        if (marks[p] == 2) continue;
        if (marks[p] == 1 || ends_everywhere) fsm_construct_set_final(h, p);
        for (int i = 0; i < m; i++)
            if (marks[moves[p * m + i]] != 2) arc(h, p, moves[p * m + i], letters[i]);
    }
    fsm_construct_set_initial(h, 0);
    return fsm_minimize(fsm_construct_done(h));
}

static struct fsm *all_plans(const Judging *j) {
    struct fsm_construct_handle *h = fsm_construct_init("all");
    const int k = (int)j->letters;
    for (int p = 0; p < k; p++)
        for (int i = 0; i < j->card[2]; i++) arc(h, p, p + 1, j->card[12 + i]);
    fsm_construct_set_initial(h, 0);
    fsm_construct_set_final(h, k);
    return fsm_minimize(fsm_construct_done(h));
}

static long long paths(struct fsm *of, struct fsm *all) {
    struct fsm *met = fsm_topsort(fsm_intersect(fsm_copy(of), fsm_copy(all)));
    const long long count = met->pathcount;
    fsm_destroy(met);
    return count;
}

static void with_foma(void *v) {
    Job *job = v;
    job->count[0] = paths(job->allowed, job->all);
    job->count[1] = paths(job->live, job->all);
}

static const char *compared(Job *job) {
    const uint64_t *out = job->judging.out;
    count_product(job);
    with_foma(job);
    if (job->count[0] == PATHCOUNT_OVERFLOW || job->count[1] == PATHCOUNT_OVERFLOW) return "too many paths";
    return (uint64_t)job->count[0] == out[1] && (uint64_t)job->count[1] == out[1] + out[2] ? "same" : "another count";
}

int main(int argc, char **argv) {
    int count;
    if (argc < 3) return 2;
    Judging *cases = count_cases(argv[1], &count);
    for (int i = 0; i < count; i++) {
        const Judging *j = &cases[i];
        Job job = {*j, machine(j, 0), machine(j, 1), all_plans(j), {0, 0}};
        const char *verdict = compared(&job);
        Times x = time_both(count_product, with_foma, 0, &job, atof(argv[2]), 2001);
        printf("paths\t%s\t%d\t%d\t%zu\t%.0f\t%.0f\t%.4f\t%s\t%d x %ld\n", j->name, j->card[2], j->card[6], j->letters, x.first.median, x.second.median,
               x.first.median / x.second.median, verdict, x.samples, x.runs);
        fflush(stdout);
    }
    return 0;
}
