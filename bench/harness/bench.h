// What the parts of the benchmark share: texts, the two compilers behind one face, timing.
#ifndef BENCH_H
#define BENCH_H

#include <stddef.h>
#include <stdint.h>

#include "../plain/plain.h"

Compiled second_compile(const uint8_t *text, size_t length, uint8_t *card, size_t room);
void second_load(const uint8_t *card, size_t length, uint64_t out[3]);
void second_judge(const uint8_t *card, size_t length, const uint8_t *plan, size_t letters, uint64_t out[3]);
void second_step(const uint8_t *card, size_t length, size_t state, uint8_t letter, uint64_t out[4]);
void second_owed(const uint8_t *card, uint8_t owed[MOST_STATES]);
void second_walk(const uint8_t *card, const uint8_t *owed, const uint8_t *plan, size_t letters, uint64_t out[3]);
void second_shortest(const uint8_t *card, size_t length, const uint8_t *plan, size_t letters, uint64_t out[4]);
void second_count(const uint8_t *card, size_t length, size_t letters, uint64_t out[4]);

enum { CARD = 3278 };

// A book of the set: from bench/books, or made here.
typedef struct {
    char name[64];
    size_t length;
    uint8_t text[MOST_TEXT + 1];
} Text;

typedef struct {
    int count;
    Text *text;
} Texts;

Texts read_texts(const char *folder); // the books of a folder, by name
Texts large_texts(void);              // those made here, as long as a text may be
Texts seeded_texts(void);             // those made here from a seed
Texts ruleless_texts(void);           // those without rules or without bytes; compared, not timed
Texts kind_texts(void);               // small ones of the three kinds of rules, and lines of theirs that are refused; likewise
Texts random_texts(void);             // many small ones from a seed, a byte of some altered; likewise
void refine_by(int method);           // how plain C refines classes from now on
Texts find_text(const char *folder, const char *name);

Compiled product_compile(const Text *text, uint8_t *card);
Compiled twin_compile(const Text *text, uint8_t *card);   // plain C
Compiled second_twin(const Text *text, uint8_t *card);    // plain C by another compiler
void spoil_buffers(void); // puts garbage into the product's work buffers

// Things to time, one after the other in each round, so that all meet the same machine.
typedef void (*Action)(void *);

#ifdef WITH_SECOND
#define IF_SECOND(act) act
#else
#define IF_SECOND(act) 0
#endif

typedef struct {
    double median, best;
} Time; // nanoseconds for one run

enum { MOST_ACTIONS = 5 };

typedef struct {
    Time time[MOST_ACTIONS];
    Time first, second; // the product, and the quickest of the others
    int samples;
    long runs; // in each sample
} Times;

Times time_both(Action product, Action twin, Action second, void *with, double seconds, int most);
double now(void);

// A card, a plan or only its length, or a state and a letter, and the answer: a number and three values.
typedef struct {
    const char *name;
    size_t length;
    uint8_t card[CARD];
    const uint8_t *plan;
    size_t letters;
    size_t state;
    uint8_t letter;
    uint64_t out[4];
} Judging;

void begin_seed(uint32_t salt); // random numbers from now on, by PIER_SEED and the salt
int below(int n);

int seeded_cards(void); // how many there are
void seeded_card(int i, Judging *j);
int trap_card(int letters, int states, Judging *j); // the smallest card of a random machine, one of its states dead; its states, 0 where they are over 120
void far_card(int letters, int states, Judging *j);     // one letter leads on, the others back to the start; a plan may end in the last state only
void one_end_card(int letters, int states, Judging *j); // the smallest card of a random machine, of so many states, in one of which a plan may end
void bare_card(int states, int marks, Judging *j);   // no letters; every state has these marks. It loads with one state, marks 1 or 2

enum { BOARD_CARDS = 9 };
int board_card(const char *folder, int i, Judging *j); // the cards for plans, by number; false where the book is not there
int text_card(const Text *text, Judging *j);           // false where it is refused
void live_plan(const Judging *j, uint8_t *plan, size_t letters);

// Whether plain C of each compiler, by each way to refine, answers as the product does; second is 0 where there is one compiler. Prints what differs.
int same_answer(Judging *j, Action product, Action twin, Action second);

typedef int (*Compare)(Judging *j, int *compared);                     // how many answers on a card differ, of so many
int on_cards(const char *folder, Compare compare, int *compared);      // cards of the books and of small texts, without letters, made from a seed
int on_damaged(Judging *j, int count, Compare compare, int *compared); // so often one byte altered; the length one less, one more: mostly refused

Times time_load(Judging *j, double seconds, int most);
Times time_judge(Judging *j, double seconds, int most);
int same_judge(Judging *j);

int same_cards(const Texts *texts); // how many books differ; prints each
Times time_compile(Text *text, double seconds, int most);
void compile_times(const Texts *texts, double seconds);
int board_both(const char *folder, double seconds, int *compared); // how many answers differ, of so many; seconds 0 only compares
int same_ruleless(int *compared);                                  // likewise, on cards of texts without rules and on cards without letters
int same_factors(const char *folder, int *compared);               // likewise
int factor_times(const char *folder, double seconds);              // how many answers differ
int same_owed(const char *folder, int *compared);                  // likewise, of judging, of steps and of many plans at once
int owed_times(const char *folder, double seconds);                // how many answers differ
int same_counts(const char *folder, int *compared);                // likewise
int count_times(const char *folder, double seconds);               // how many answers differ
Judging *count_cases(const char *folder, int *count);              // the cards and lengths that are timed
void count_product(void *judging);

// One stage: its sets, and nanoseconds by each.
typedef struct {
    int sets;
    double product, twin;
    int samples;
    long runs;
} Stage;

Stage time_stage(int m, const char *definitions, const char *stage, double seconds);
void counters(char *out, size_t room, int i, int j); // A and B whose pairs hold no plan
void stage_times(double seconds);
int growth(const char *folder, double seconds, const char *svg);
void memory(const char *folder);

#endif
