// foma in the same process: each book compiled by the product and by foma in turns, foma from strings made beforehand. Two ways of saying a rule, and the
// better one counts. foma's machine is first held against the card.
#include "translate.h"
#include <fomalib.h>
#include <stdio.h>
#include <stdlib.h>
#include <string.h>

typedef struct {
    const Text *text;
    Script script;
    int failed;
} Job;

static struct fsm *parse(struct defined_networks *defined, const char *regex, int *failed) {
    char *copy = strdup(regex); // foma's parser may write into it
    struct fsm *net = fsm_parse_regex(copy, defined, 0);
    free(copy);
    if (!net) *failed = 1;
    return net;
}

static void define(struct defined_networks *defined, const char *name, const char *regex, int *failed) {
    struct fsm *net = parse(defined, regex, failed);
    char copy[8];
    snprintf(copy, sizeof copy, "%s", name);
    if (net) add_defined(defined, net, copy);
}

static struct fsm *book_net(Job *j) {
    struct defined_networks *defined = defined_networks_init();
    struct fsm *book = 0;
    char name[8];
    j->failed = 0;
    define(defined, "Sigma", j->script.sigma, &j->failed);
    define(defined, "All", "Sigma*", &j->failed);
    for (int i = 0; i < j->script.count && !j->failed; i++) {
        const Regex *r = &j->script.line[i];
        if (r->name) {
            snprintf(name, sizeof name, "Name%c", r->name);
            define(defined, name, r->regex, &j->failed);
            continue;
        }
        struct fsm *net = parse(defined, r->regex, &j->failed);
        if (net) book = book ? fsm_minimize(fsm_intersect(book, net)) : net;
    }
    for (struct defined_networks *d = defined, *next; d; d = next) {
        next = d->next;
        if (d->net) fsm_destroy(d->net);
        free(d->name);
        free(d);
    }
    return book;
}

static void with_foma(void *job) {
    struct fsm *net = book_net(job);
    if (net) fsm_destroy(net);
}

static uint8_t card[CARD];
static void with_product(void *job) { product_compile(((Job *)job)->text, card); }

// Whether the two machines are the same: states in pairs from the starts, a missing move of foma's being the dead state.
static int same_language(struct fsm *net) {
    enum { MOST = 4096 };
    static int to[MOST][26];
    static char final[MOST], known[MOST];
    static int pair[MOST];
    int m = card[2], n = card[6], start = 0, column[256], waiting[MOST], count = 0;
    const uint8_t *letters = card + 12, *marks = letters + m, *moves = marks + n;
    if (net->statecount >= MOST) return 0;
    memset(to, 255, sizeof to);
    memset(final, 0, sizeof final);
    memset(known, 0, sizeof known);
    memset(column, 255, sizeof column);
    for (struct sigma *s = net->sigma; s; s = s->next)
        for (int i = 0; i < m; i++)
            if (s->number >= 0 && s->number < 256 && s->symbol[0] == letters[i] && !s->symbol[1]) column[s->number] = i;
    for (struct fsm_state *s = net->states; s->state_no != -1; s++) {
        final[s->state_no] = s->final_state == 1;
        if (s->start_state == 1) start = s->state_no;
        if (s->target == -1) continue;
        if (s->in < 0 || s->in > 255 || column[s->in] < 0) return 0;
        to[s->state_no][column[s->in]] = s->target;
    }
    pair[start] = 0;
    known[start] = 1;
    waiting[count++] = start;
    while (count) {
        int s = waiting[--count], p = pair[s];
        if (final[s] != (marks[p] == 1)) return 0;
        for (int i = 0; i < m; i++) {
            int t = to[s][i], q = moves[p * m + i];
            if (t < 0) {
                if (marks[q] != 2) return 0;
            } else if (known[t]) {
                if (pair[t] != q) return 0;
            } else {
                known[t] = 1;
                pair[t] = q;
                waiting[count++] = t;
            }
        }
    }
    return 1;
}

static int live_states(void) {
    int m = card[2], n = card[6], live = 0;
    for (int p = 0; p < n; p++) live += card[12 + m + p] != 2;
    return live ? live : 1; // foma's machine without plans has one state
}

static void one_book(const Text *text, double seconds) {
    static const char *form[] = {"=>", "two marks"};
    for (int f = 0; f < 2; f++) {
        Job j = {.text = text};
        if (!translate(text, f, &j.script)) continue;
        product_compile(text, card);
        double before = now();
        struct fsm *net = book_net(&j);
        double once = now() - before;
        const char *verdict = j.failed || !net ? "not parsed" : !same_language(net) ? "another language" : net->statecount != live_states() ? "other states" : "same";
        if (net) fsm_destroy(net);
        if (strcmp(verdict, "same")) {
            printf("foma\t%s\t%s\t-\t-\t-\t%s\n", text->name, form[f], verdict);
        } else if (once > 3e9) { // too long to repeat
            before = now();
            product_compile(text, card);
            double product = now() - before;
            printf("foma\t%s\t%s\t%.0f\t%.0f\t%.4f\t%s\t1 x 1\n", text->name, form[f], product, once, product / once, verdict);
        } else {
            Times x = time_both(with_product, with_foma, 0, &j, seconds, 2001);
            printf("foma\t%s\t%s\t%.0f\t%.0f\t%.4f\t%s\t%d x %ld\n", text->name, form[f], x.first.median, x.second.median, x.first.median / x.second.median,
                   verdict, x.samples, x.runs);
        }
        fflush(stdout);
        free_script(&j.script);
    }
}

int main(int argc, char **argv) {
    if (argc < 3) return 2;
    double seconds = atof(argv[2]);
    Texts sets[2] = {read_texts(argv[1]), large_texts()};
    for (int s = 0; s < 2; s++)
        for (int i = 0; i < sets[s].count; i++)
            if (argc < 4 ? s == 0 : !strcmp(argv[3], sets[s].text[i].name)) one_book(&sets[s].text[i], seconds);
    return 0;
}
