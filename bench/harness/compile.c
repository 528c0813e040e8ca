// Compiling: each book by the product and by plain C, in turns.
#include "bench.h"
#include <stdio.h>

static uint8_t card[CARD];
static void product(void *text) { product_compile(text, card); }
static void twin(void *text) { twin_compile(text, card); }
#ifdef WITH_SECOND
static void second(void *text) { second_twin(text, card); }
#endif

Times time_compile(Text *text, double seconds, int most) { return time_both(product, twin, IF_SECOND(second), text, seconds, most); }

void compile_times(const Texts *texts, double seconds) {
    for (int i = 0; i < texts->count; i++) {
        Text *t = &texts->text[i];
        Compiled c = twin_compile(t, card);
        Times x = time_compile(t, seconds, 2001);
        printf("compile\t%s\t%zu\t%d\t%d\t%.0f\t%.0f\t%.3f\t%.3f\t%d x %ld\n", t->name, t->length, c.peak, c.number ? 0 : card[6], x.first.median,
               x.second.median, x.first.median / x.second.median, x.first.best / x.second.best, x.samples, x.runs);
        fflush(stdout);
    }
}
