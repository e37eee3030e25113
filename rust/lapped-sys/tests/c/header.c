/* Prints every value of lapped.h, for the test beside it: C99 and C++ both. */
#include <lapped.h>
#include <stdio.h>

static void print_version(void) {
    printf("version %d.%d.%d is %d\n", LAPPED_VERSION_MAJOR, LAPPED_VERSION_MINOR,
           LAPPED_VERSION_PATCH, LAPPED_VERSION);
}

static void print_layout(void) {
    printf("size %u: %u %u\n", (unsigned)sizeof(lapped_size),
           (unsigned)offsetof(lapped_size, width), (unsigned)offsetof(lapped_size, height));
    printf("steps %u: %u %u %u\n", (unsigned)sizeof(lapped_steps),
           (unsigned)offsetof(lapped_steps, dc), (unsigned)offsetof(lapped_steps, low),
           (unsigned)offsetof(lapped_steps, high));
    printf("answer %u: %u %u\n", (unsigned)sizeof(lapped_answer),
           (unsigned)offsetof(lapped_answer, number), (unsigned)offsetof(lapped_answer, wrapped));
    printf("header %u: %u %u %u\n", (unsigned)sizeof(lapped_header),
           (unsigned)offsetof(lapped_header, number), (unsigned)offsetof(lapped_header, mode),
           (unsigned)offsetof(lapped_header, size));
    printf("found %u: %u %u\n", (unsigned)sizeof(lapped_found),
           (unsigned)offsetof(lapped_found, number), (unsigned)offsetof(lapped_found, index));
    printf("work %u: %u %u %u %u %u %u\n", (unsigned)sizeof(lapped_work),
           (unsigned)offsetof(lapped_work, number), (unsigned)offsetof(lapped_work, cores),
           (unsigned)offsetof(lapped_work, square_filters),
           (unsigned)offsetof(lapped_work, four_filters),
           (unsigned)offsetof(lapped_work, plane_bytes),
           (unsigned)offsetof(lapped_work, sample_bytes));
}

static void print_modes(void) {
    const lapped_mode modes[] = {LAPPED_UNFILTERED, LAPPED_SAMPLE_LEVEL, LAPPED_BOTH_LEVELS};
    printf("modes %d %d %d\n", modes[0], modes[1], modes[2]);
}

static void print_numbers(void) {
    const lapped_number numbers[] = {LAPPED_DONE,
                                     LAPPED_REFUSED_MODE,
                                     LAPPED_REFUSED_WIDTH,
                                     LAPPED_REFUSED_HEIGHT,
                                     LAPPED_REFUSED_DC_LENGTH,
                                     LAPPED_REFUSED_LOW_PASS_LENGTH,
                                     LAPPED_REFUSED_HIGH_PASS_LENGTH,
                                     LAPPED_REFUSED_SAMPLES_LENGTH,
                                     LAPPED_REFUSED_VIEW_LENGTH,
                                     LAPPED_REFUSED_FILE_TOO_SHORT,
                                     LAPPED_REFUSED_LAST_WORD,
                                     LAPPED_REFUSED_OFFSETS,
                                     LAPPED_REFUSED_FILE_LENGTH,
                                     LAPPED_REFUSED_TOO_MANY_MACROBLOCKS,
                                     LAPPED_REFUSED_STEP_INDEX,
                                     LAPPED_REFUSED_PRODUCT};
    for (size_t i = 0; i < sizeof numbers / sizeof *numbers; i++)
        printf("number %d: %s\n", numbers[i], lapped_message((uint32_t)numbers[i]));
    printf("16: %s\n4294967295: %s\n", lapped_message(16), lapped_message(UINT32_MAX));
}

static void print_lengths(void) {
    const lapped_size sizes[] = {{1, 1}, {3, 2}, {525, 413}};
    for (size_t i = 0; i < sizeof sizes / sizeof *sizes; i++) {
        const lapped_size size = sizes[i];
        printf("lengths %lu: %lu %lu %lu, %lu, %lu, %lu\n", (unsigned long)lapped_macroblocks(size),
               (unsigned long)lapped_plane_len(size, LAPPED_DC),
               (unsigned long)lapped_plane_len(size, LAPPED_LOW_PASS),
               (unsigned long)lapped_plane_len(size, LAPPED_HIGH_PASS),
               (unsigned long)lapped_samples_len(size), (unsigned long)lapped_view_len(size),
               (unsigned long)lapped_file_len(size));
    }
}

int main(void) {
    print_version();
    print_layout();
    print_modes();
    print_numbers();
    print_lengths();
    return 0;
}
