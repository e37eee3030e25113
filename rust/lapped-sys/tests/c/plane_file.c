/* Calls header, load and save on the sound plane file that it is given and on broken ones, and prints all that they
 * give, for the test beside it: C99 and C++ both. */
#include <lapped.h>
#include <stdio.h>
#include <string.h>

enum { MOST = 8 }; /* macroblocks */
static uint8_t bytes[32 + 1024 * MOST + 1], saved[sizeof bytes];
static int32_t dc[MOST], low[15 * MOST], high[240 * MOST];

static void print_header(const char *call, lapped_header header) {
    printf("%s: %u, mode %u, %u x %u\n", call, (unsigned)header.number, (unsigned)header.mode,
           (unsigned)header.size.width, (unsigned)header.size.height);
}

static void print_plane(const char *name, const int32_t *plane, size_t len) {
    printf("%s:", name);
    for (size_t i = 0; i < len; i++) printf(" %ld", (long)plane[i]);
    printf("\n");
}

static void load_and_save(size_t len) {
    const lapped_header header = lapped_read_header(bytes, len);
    print_header("header", header);
    const lapped_size size = header.size;
    const size_t n = lapped_plane_len(size, LAPPED_DC);
    const size_t n_low = lapped_plane_len(size, LAPPED_LOW_PASS);
    const size_t n_high = lapped_plane_len(size, LAPPED_HIGH_PASS);

    print_header("load", lapped_load(bytes, len, dc, n, low, n_low, high, n_high));
    print_plane("DC", dc, n);
    print_plane("low-pass", low, n_low);
    print_plane("high-pass", high, n_high);
    print_header("load, a number short", lapped_load(bytes, len, dc, n, low, n_low, high, n_high - 1));

    uint32_t number = lapped_save(header.mode, size, dc, n, low, n_low, high, n_high, saved, len);
    printf("save: %u, %s\n", (unsigned)number, memcmp(saved, bytes, len) == 0 ? "same" : "other");
    number = lapped_save(header.mode, size, dc, n, low, n_low, high, n_high, saved, len - 1);
    printf("save, a byte short: %u\n", (unsigned)number);
}

static void refuse(size_t len) {
    print_header("header, a byte short", lapped_read_header(bytes, len - 1));
    print_header("header, a byte long", lapped_read_header(bytes, len + 1));
    bytes[28] = 1; /* in the header's last word */
    print_header("header, last word 1", lapped_read_header(bytes, len));
    print_header("load, last word 1", lapped_load(bytes, len, dc, 0, low, 0, high, 0));
}

int main(int count, char **words) {
    FILE *file = count == 2 ? fopen(words[1], "rb") : NULL;
    if (file == NULL) return 2;
    const size_t len = fread(bytes, 1, sizeof bytes - 1, file);
    fclose(file);
    load_and_save(len);
    refuse(len);
    return 0;
}
