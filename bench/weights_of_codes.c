/* Counts the words of each weight in translates of a code.

       cc -O3 -march=native -o weights_of_codes weights_of_codes.c
       weights_of_codes N COUNT SECONDS < WORDS

   WORDS are COUNT numbers below 2^N, a line each. For each weight a line follows: the weight, the greatest number of words of that weight that
   was seen in a translate, and the digits of the word that was added. All words of weight up to 2 are tried, and then others by chance. */

#include <stdint.h>
#include <stdio.h>
#include <stdlib.h>
#include <time.h>

static uint32_t *words;
static int n, count;
static int best[33];
static uint32_t with[33];

static void try_word(uint32_t by) {
    int of[33] = {0};
    for (int i = 0; i < count; i++) of[__builtin_popcount(words[i] ^ by)]++;
    for (int w = 0; w <= n; w++)
        if (of[w] > best[w]) best[w] = of[w], with[w] = by;
}

int main(int given, char **text) {
    if (given != 4) return 2;
    n = atoi(text[1]), count = atoi(text[2]);
    clock_t until = clock() + (clock_t)(atof(text[3]) * CLOCKS_PER_SEC);
    words = malloc(sizeof *words * (size_t)count);
    for (int i = 0; i < count; i++)
        if (scanf("%u", &words[i]) != 1) return 1;
    try_word(0);
    for (int i = 0; i < n; i++) {
        try_word(1u << i);
        for (int j = 0; j < i; j++) try_word(1u << i | 1u << j);
    }
    uint64_t state = 88172645463325252ull;
    while (clock() < until) {
        uint32_t by = 0;
        for (int ones = 3; ones > 0 || (state >> 50 & 3); ones--) {
            state ^= state << 13, state ^= state >> 7, state ^= state << 17;
            by |= 1u << (state >> 20) % (unsigned)n;
        }
        try_word(by);
    }
    for (int w = 0; w <= n; w++) {
        printf("%d %d ", w, best[w]);
        for (int i = n - 1; i >= 0; i--) putchar(with[w] >> i & 1 ? '1' : '0');
        putchar('\n');
    }
    return 0;
}
