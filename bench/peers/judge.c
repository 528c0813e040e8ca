// The judging program in plain C: board.bin is tested once, and how many letters each state owes is worked out once; plans are the lines of standard input,
// answers the lines of standard output.
#define _GNU_SOURCE
#include "../plain/plain.h"
#include <stdio.h>
#include <stdlib.h>

int main(void) {
    static uint8_t card[4096], owed[MOST_STATES];
    uint64_t loaded[3], out[3];
    FILE *f = fopen("board.bin", "rb");
    size_t length = f ? fread(card, 1, sizeof card, f) : 0, room = 0;
    char *line = 0;
    plain_load(card, length, loaded);
    if (!loaded[0]) plain_owed(card, owed);
    for (ssize_t n; (n = getline(&line, &room, stdin)) > 0;) {
        if (line[n - 1] == '\n') n--;
        if (loaded[0]) {
            printf("refused %lu\n", loaded[0]);
            continue;
        }
        plain_walk(card, owed, (const uint8_t *)line, (size_t)n, out);
        if (out[0]) printf("refused %lu\n", out[0]);
        else if (out[1] == 2) printf("hopeless %lu\n", out[2]);
        else if (out[1] == 0) printf("unfinished %lu\n", out[2]);
        else fputs("allowed\n", stdout);
    }
    free(line);
    return 0;
}
