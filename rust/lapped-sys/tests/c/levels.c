/* Quantises and restores planes by the three step indices that it is given, and prints all that comes of it, for the
 * test beside it: C99 and C++ both. */
#include <lapped.h>
#include <stdio.h>
#include <stdlib.h>

enum { W = 2, H = 1, N = W * H }; /* macroblocks */
static int32_t dc[N], low[15 * N], high[240 * N];
static int32_t dc_levels[N], low_levels[15 * N], high_levels[240 * N];

/* Numbers of both signs, further and further from zero. */
static void fill(int32_t *plane, int32_t len) {
    for (int32_t i = 0; i < len; i++) plane[i] = i % 2 == 0 ? 1001 * i : -1001 * i;
}

static void print_plane(const char *name, const int32_t *plane, size_t len) {
    printf("%s:", name);
    for (size_t i = 0; i < len; i++) printf(" %ld", (long)plane[i]);
    printf("\n");
}

static uint32_t quantise(lapped_size size, lapped_steps steps) {
    return lapped_quantise(LAPPED_BOTH_LEVELS, size, steps, dc, N, low, 15 * N, high, 240 * N,
                           dc_levels, N, low_levels, 15 * N, high_levels, 240 * N);
}

static uint32_t restore(lapped_size size, lapped_steps steps) {
    return lapped_restore(LAPPED_BOTH_LEVELS, size, steps, dc_levels, N, low_levels, 15 * N,
                          high_levels, 240 * N, dc, N, low, 15 * N, high, 240 * N);
}

static void refuse(lapped_size size, lapped_steps steps) {
    lapped_steps wrong[] = {steps, steps, steps};
    wrong[0].dc = wrong[1].low = wrong[2].high = 256;
    for (int i = 0; i < 3; i++)
        printf("refused: %u %u\n", (unsigned)quantise(size, wrong[i]),
               (unsigned)restore(size, wrong[i]));
    high_levels[240 * N - 1] = INT32_MAX;
    printf("refused: %u\n", (unsigned)restore(size, steps));
}

int main(int count, char **words) {
    if (count != 4) return 2;
    const lapped_size size = {W, H};
    const lapped_steps steps = {(uint32_t)atoi(words[1]), (uint32_t)atoi(words[2]),
                                (uint32_t)atoi(words[3])};
    printf("steps: %u %u %u\n", (unsigned)lapped_step(steps.dc), (unsigned)lapped_step(steps.low),
           (unsigned)lapped_step(steps.high));
    fill(dc, N);
    fill(low, 15 * N);
    fill(high, 240 * N);
    printf("quantise: %u\n", (unsigned)quantise(size, steps));
    print_plane("DC", dc_levels, N);
    print_plane("low-pass", low_levels, 15 * N);
    print_plane("high-pass", high_levels, 240 * N);
    printf("restore: %u\n", (unsigned)restore(size, steps));
    print_plane("DC", dc, N);
    print_plane("low-pass", low, 15 * N);
    print_plane("high-pass", high, 240 * N);
    refuse(size, steps);
    return 0;
}
