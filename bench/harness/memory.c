// How deep the stack goes: an entry runs on a stack of its own that is painted first. What an empty call takes there is subtracted.
#define _GNU_SOURCE
#include "bench.h"
#include "product.h"
#include <stdio.h>
#include <stdlib.h>
#include <string.h>
#include <sys/mman.h>
#include <ucontext.h>

enum { ROOM = 64 << 20, PAINT = 0xA7 };

static ucontext_t here, there;
static Action action;
static void *with;

static void enter(void) { action(with); }

static size_t depth(Action act, void *job) {
    uint8_t *stack = mmap(0, ROOM, PROT_READ | PROT_WRITE, MAP_PRIVATE | MAP_ANONYMOUS, -1, 0);
    memset(stack, PAINT, ROOM);
    action = act;
    with = job;
    getcontext(&there);
    there.uc_stack.ss_sp = stack;
    there.uc_stack.ss_size = ROOM;
    there.uc_link = &here;
    makecontext(&there, enter, 0);
    swapcontext(&here, &there);
    size_t untouched = 0;
    while (untouched < ROOM && stack[untouched] == PAINT) untouched++;
    munmap(stack, ROOM);
    return ROOM - untouched;
}

typedef struct {
    Text *text;
    uint8_t card[CARD];
    size_t length;
    const uint8_t *plan;
    size_t letters;
    uint64_t out[3];
} Job;

static void nothing(void *j) { (void)j; }
static void do_compile(void *v) { product_compile(((Job *)v)->text, ((Job *)v)->card); }
static void do_load(void *v) { pier_load(((Job *)v)->card, ((Job *)v)->length, ((Job *)v)->out); }
static void do_step(void *v) { pier_step(((Job *)v)->card, ((Job *)v)->length, 0, 'j', ((Job *)v)->out); }
static void do_judge(void *v) { pier_judge(((Job *)v)->card, ((Job *)v)->length, ((Job *)v)->plan, ((Job *)v)->letters, ((Job *)v)->out); }
static void do_shortest(void *v) { pier_shortest(((Job *)v)->card, ((Job *)v)->length, ((Job *)v)->plan, ((Job *)v)->letters, ((Job *)v)->out); }
static void do_count(void *v) { pier_count(((Job *)v)->card, ((Job *)v)->length, 13, ((Job *)v)->out); }

void memory(const char *folder) {
    static Job j;
    static uint8_t plan[1000000];
    const size_t base = depth(nothing, 0);
    static const char *deep[] = {"01-paper-crane", "20-exactly-120-states", "16k-stars-26", "16k-bangs", "16k-brackets"};
    Texts t = find_text(folder, "05-harbour-day-26");
    j.length = plain_compile(t.text->text, t.text->length, j.card, CARD).length;
    memset(plan, 'z', sizeof plan);
    plan[sizeof plan - 1] = 'j'; // a k is owed
    j.plan = plan;
    j.letters = sizeof plan;
    printf("stack\tpier_load\tcard of 80 states, 26 letters\t%zu\n", depth(do_load, &j) - base);
    printf("stack\tpier_step\tthe same card\t%zu\n", depth(do_step, &j) - base);
    printf("stack\tpier_judge\tthe same card, 1,000,000 letters\t%zu\n", depth(do_judge, &j) - base);
    printf("stack\tpier_shortest\tthe same card and plan\t%zu\n", depth(do_shortest, &j) - base);
    printf("stack\tpier_count\tthe same card, plans of 13 letters\t%zu\n", depth(do_count, &j) - base);
    for (size_t i = 0; i < sizeof deep / sizeof *deep; i++) {
        Texts b = find_text(folder, deep[i]);
        j.text = b.text;
        printf("stack\tpier_compile\t%s\t%zu\n", deep[i], depth(do_compile, &j) - base);
    }
    printf("lent\tlow, high\tbytes each\t%d\nlent\tregisters\tbytes\t%d\nlent\tstack\tbytes\t%d\nlent\trows\tbytes\t%d\n", NAMES, REGISTERS, STACK, ROWS);
    printf("lent\ttable\tbytes\t%d\nlent\twork\tbytes\t%d\nlent\tcode\tbytes\t%d\nlent\tall eight\tbytes\t%d\n", 2 * TABLE, 2 * WORK, CODE,
           2 * NAMES + REGISTERS + STACK + ROWS + 2 * TABLE + 2 * WORK + CODE);
}
