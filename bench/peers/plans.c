// plans CARD LENGTH COUNT: random plans, one a line, none of which turns hopeless on the card while there is another way.
#include <stdint.h>
#include <stdio.h>
#include <stdlib.h>

static uint8_t card[4096];

int main(int argc, char **argv) {
    FILE *f = argc > 3 ? fopen(argv[1], "rb") : 0;
    if (!f || fread(card, 1, sizeof card, f) < 15 || !card[2]) return 2; // without letters there are no such plans
    size_t m = card[2], n = card[6];
    const uint8_t *letters = card + 12, *marks = letters + m, *moves = marks + n;
    uint32_t seed = 2463534242u;
    for (long i = atol(argv[3]); i > 0; i--) {
        size_t s = 0;
        for (long k = atol(argv[2]); k > 0; k--) {
            size_t c = 0;
            for (int tries = 0; tries < 1000; tries++) {
                seed ^= seed << 13, seed ^= seed >> 17, seed ^= seed << 5;
                c = seed % m;
                if (marks[moves[s * m + c]] != 2) break;
            }
            putchar(letters[c]);
            s = moves[s * m + c];
        }
        putchar('\n');
    }
    return 0;
}
