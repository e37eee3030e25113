/* Finds a step for the mode and the tolerance that it is given, and prints all that comes of it, for the test beside
 * it: C99 and C++ both. */
#include <lapped.h>
#include <stdio.h>
#include <stdlib.h>

enum { W = 2, H = 1, N = W * H }; /* macroblocks */
static int32_t samples[256 * N], second[256 * N], dc[N], low[15 * N], high[240 * N];

static void print_numbers(const char *name, const int32_t *numbers, size_t len) {
    printf("%s:", name);
    for (size_t i = 0; i < len; i++) printf(" %ld", (long)numbers[i]);
    printf("\n");
}

/* With so many second samples, and so many numbers of the high-pass plane. */
static lapped_found find(uint32_t mode, uint32_t tolerance, size_t second_len, size_t high_len) {
    const lapped_size size = {W, H};
    return lapped_find_step(mode, size, tolerance, samples, 256 * N, dc, N, low, 15 * N,
                            high, high_len, second, second_len);
}

static void refuse(uint32_t mode, uint32_t tolerance, size_t second_len, size_t high_len) {
    const lapped_found found = find(mode, tolerance, second_len, high_len);
    printf("refused: %u %u\n", (unsigned)found.number, (unsigned)found.index);
}

int main(int count, char **words) {
    if (count != 3) return 2;
    const uint32_t mode = (uint32_t)strtoul(words[1], NULL, 10);
    const uint32_t tolerance = (uint32_t)strtoul(words[2], NULL, 10);
    for (int i = 0; i < 256 * N; i++) samples[i] = i * i / 7 % 256;

    refuse(3, tolerance, 256 * N, 240 * N);
    refuse(mode, tolerance, 256 * N - 1, 240 * N - 1);
    refuse(mode, tolerance, 256 * N, 240 * N - 1);
    const lapped_found found = find(mode, tolerance, 256 * N, 240 * N);
    printf("found: %u %u\n", (unsigned)found.number, (unsigned)found.index);
    print_numbers("DC", dc, N);
    print_numbers("low-pass", low, 15 * N);
    print_numbers("high-pass", high, 240 * N);
    print_numbers("samples", samples, 256 * N);
    print_numbers("second samples", second, 256 * N);
    return 0;
}
