// script FOLDER BOOK FORM TIMES: a book as a script for hfst-xfst, so many times over; the last machine is left on its stack. FORM is => or two-marks.
// A script of the empty book, `-`, is the start alone.
#include "translate.h"
#include <stdio.h>
#include <stdlib.h>
#include <string.h>

static void once(const Script *s) {
    int rules = 0;
    printf("clear stack\ndefine Sigma [%s];\ndefine All Sigma*;\n", s->sigma);
    for (int i = 0; i < s->count; i++)
        if (s->line[i].name) printf("define Name%c %s;\n", s->line[i].name, s->line[i].regex);
        else printf("define Rule%d %s;\n", ++rules, s->line[i].regex);
    printf("regex Rule1");
    for (int i = 2; i <= rules; i++) printf(" & Rule%d", i);
    printf(";\n");
}

int main(int argc, char **argv) {
    if (argc < 5) return 2;
    if (!strcmp(argv[2], "-")) return printf("clear stack\n") < 0;
    Texts t = find_text(argv[1], argv[2]);
    Script s;
    if (!t.count || !translate(t.text, strcmp(argv[3], "=>") ? TWO_MARKS_COMPOSED : RESTRICTION, &s)) return 1;
    for (int i = atoi(argv[4]); i > 0; i--) once(&s);
    return 0;
}
