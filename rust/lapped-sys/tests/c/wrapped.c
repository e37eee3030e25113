/* Calls inverse, quarter view and forward on one macroblock whose DC number it is given, in the mode that it is given,
 * and refuses each once, and prints what they answer, for the test beside it: C99 and C++ both. */
#include <lapped.h>
#include <stdio.h>
#include <stdlib.h>

static int32_t dc[1], low[15], high[240], samples[256], view[16];

static void print_answer(const char *call, lapped_answer answer) {
    printf("%s: %u, %s\n", call, (unsigned)answer.number, answer.wrapped ? "wrapped" : "not wrapped");
}

int main(int count, char **words) {
    if (count != 3) return 2;
    const uint32_t mode = (uint32_t)strtoul(words[1], NULL, 10);
    const lapped_size size = {1, 1};
    dc[0] = (int32_t)strtol(words[2], NULL, 10);
    print_answer("inverse", lapped_inverse(mode, size, dc, 1, low, 15, high, 240, samples, 256));
    print_answer("quarter", lapped_quarter(mode, size, dc, 1, low, 15, view, 16));
    print_answer("refused inverse", lapped_inverse(mode, size, dc, 1, low, 15, high, 240, samples, 255));
    print_answer("refused quarter", lapped_quarter(mode, size, dc, 1, low, 15, view, 17));
    print_answer("refused forward", lapped_forward(mode, size, samples, 256, dc, 0, low, 15, high, 240));
    print_answer("forward", lapped_forward(mode, size, samples, 256, dc, 1, low, 15, high, 240));
    return 0;
}
