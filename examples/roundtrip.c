/* Samples to coefficient planes and back: what comes back is what went in. */
#include <lapped.h>
#include <stdio.h>
#include <string.h>

enum { W = 2, H = 3, N = W * H }; /* macroblocks of 16 x 16 samples */
static int32_t samples[256 * N], back[256 * N], dc[N], low[15 * N], high[240 * N];

int main(void) {
    const lapped_size size = {W, H};
    for (int i = 0; i < 256 * N; i++) samples[i] = i * i / 7 % 256;

    lapped_answer answer = lapped_forward(LAPPED_BOTH_LEVELS, size, samples, 256 * N,
                                          dc, N, low, 15 * N, high, 240 * N);
    if (answer.number == LAPPED_DONE) {
        printf("DC of the first macroblock: %d\n", (int)dc[0]);
        answer = lapped_inverse(LAPPED_BOTH_LEVELS, size, dc, N, low, 15 * N, high, 240 * N,
                                back, 256 * N);
    }
    if (answer.number != LAPPED_DONE) {
        fprintf(stderr, "%s\n", lapped_message(answer.number));
        return 1;
    }
    if (memcmp(back, samples, sizeof back) != 0) return 1;
    printf("all %d samples came back, %s\n", 256 * N,
           answer.wrapped ? "a sum wrapped" : "no sum wrapped");
    return 0;
}
