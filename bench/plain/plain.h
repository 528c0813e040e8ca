// The same construction in plain C: what a book's text becomes, and what a card answers. The benchmark's measure; nothing of the product is used.
#ifndef PLAIN_H
#define PLAIN_H

#include <stddef.h>
#include <stdint.h>

// Built a second time by another compiler, its names begin with second_.
#ifdef SECOND
#define plain_compile second_compile
#define plain_stage second_stage
#define plain_minimise second_minimise
#define plain_card second_card
#define plain_read second_read
#define plain_load second_load
#define plain_judge second_judge
#define plain_owed second_owed
#define plain_step second_step
#define plain_walk second_walk
#define plain_shortest second_shortest
#define plain_count second_count
#define plain_hopcroft second_hopcroft
#define plain_method second_method
#endif

enum { MOST_TEXT = 16384, MOST_SETS = 512, MOST_STATES = 120, MOST_COLUMNS = 27 };

// A complete deterministic machine over the letters and, as the last column, the mark. Its rows stand k apart, k being the number of columns.
typedef struct {
    int n;
    uint8_t accepting[MOST_STATES];
    uint8_t next[MOST_STATES * MOST_COLUMNS];
} Machine;

enum { EITHER, BOTH, WITHOUT, JOIN, STAR, ERASE };

// The number of a refusal and its line, or 0, 0, the card's length and the peak.
typedef struct {
    int number;
    int line;
    size_t length;
    int peak;
} Compiled;

Compiled plain_compile(const uint8_t *text, size_t length, uint8_t *card, size_t room);

// One stage: the sets of the operation on a and b, then the smallest machine in out, which may be a or b. Star and erase take a. The number of sets, or
// -8 or -9.
int plain_stage(int op, int k, const Machine *a, const Machine *b, Machine *out);

// The smallest machine of a table of n states, k columns, numbered by first arrival; false where it has over 120 states.
int plain_minimise(int n, int k, const uint16_t *next, const uint8_t *accepting, Machine *out);

// How classes are refined, in minimising and in the card's test: by rounds over all states, or after Hopcroft. The benchmark times both.
enum { ROUNDS, HOPCROFT };
extern int plain_method;

// The classes of equivalent states, of a table of bytes or of 16-bit numbers; a state accepts where its byte is 1. The number of classes, or most + 1 as soon
// as there are more. class may be 0.
int plain_hopcroft(int n, int k, const void *next, int wide, const uint8_t *accepting, int most, uint16_t *class);

// The card of a book's machine; 0 where the room is too short.
size_t plain_card(const Machine *book, const uint8_t *letters, int m, uint8_t *card, size_t room);

// A line in postfix. Codes are the text's own bytes: letters, names, `.`, `@`, `*`, `+`, `?`, `!`, `|`, `&`, `-`, and JOINED for a join. A rule's
// expressions stand one after another; ends holds where each ends. A rule's kind is its line's first byte.
enum { JOINED = ' ', MOST_PARTS = 10 };
enum { RESTRICTS = '>', FORBIDS = '<', OBLIGES = '^' };

typedef struct {
    int number; // 0, or 3 to 7
    int name;   // of a definition, else 0
    int kind;   // of a rule, else 0
    int parts;
    size_t ends[MOST_PARTS];
    uint8_t code[2 * MOST_TEXT];
} Line;

void plain_read(const uint8_t *line, size_t length, int ended, const uint8_t *letters, int m, const uint8_t *defined, Line *out);

// Loading: 0, letters, states; or 21 to 26. Judging: 0, 1 allowed, 0 unfinished or 2 hopeless, the fewest letters that are owed or the place; or 21 to 26; or
// 27, 0, the place. A step: 0, the next state, its marks byte, the fewest letters that are owed there where that byte is 0, else 0; or 21 to 28 and zeros.
void plain_load(const uint8_t *card, size_t length, uint64_t out[3]);
void plain_judge(const uint8_t *card, size_t length, const uint8_t *plan, size_t letters, uint64_t out[3]);
void plain_step(const uint8_t *card, size_t length, size_t state, uint8_t letter, uint64_t out[4]);

// On a card that was tested: the fewest letters that are owed in each state, 0 where a plan may end, 255 where none will; and the walk alone, with that table,
// or, where it is 0, with a search.
void plain_owed(const uint8_t *card, uint8_t owed[MOST_STATES]);
void plain_walk(const uint8_t *card, const uint8_t *owed, const uint8_t *plan, size_t letters, uint64_t out[3]);

// The shortest stretch of the plan that lies inside no allowed plan, of equal ones the leftmost: 0, 1, its start, its length; 0, 0, 0, 0 where the whole plan
// lies inside one; or 21 to 26; or 27, 0, the letters before the first unknown one, 0.
void plain_shortest(const uint8_t *card, size_t length, const uint8_t *plan, size_t letters, uint64_t out[4]);

// Of all plans of so many letters: 0, how many are allowed, unfinished, hopeless; or 21 to 26, or 31, and zeros.
void plain_count(const uint8_t *card, size_t length, size_t letters, uint64_t out[4]);

#endif
