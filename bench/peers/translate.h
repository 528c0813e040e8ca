// A book in the syntax of xfst, which foma and hfst read.
#ifndef TRANSLATE_H
#define TRANSLATE_H

#include "../harness/bench.h"

// A rule as it is best said: `>` as a restriction with contexts that reach both ends of the day, `<` and `^` as all plans less the joins of l, p, r, or of
// l, what is not in p, r. Or the two-mark construction written out, the marks erased by foma's substitution, or by a composition, since hfst-xfst does not
// read the other.
enum { RESTRICTION, TWO_MARKS, TWO_MARKS_COMPOSED };

typedef struct {
    int name;    // of a definition, A to Z, or 0 as a digit; else 0
    char *regex; // without the closing `;`
} Regex;

typedef struct {
    char sigma[128]; // the letters
    int count;
    Regex *line;
} Script;

int translate(const Text *text, int form, Script *out); // 0 where the book is refused by its form
void free_script(Script *s);

#endif
