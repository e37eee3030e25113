/* Loads a plane file and shows its quarter view, a row of numbers on each line: quarter FILE */
#include <lapped.h>
#include <stdio.h>
#include <stdlib.h>

/* All bytes of a file, to be freed; a null pointer where there is no such file. */
static uint8_t *read_file(const char *path, size_t *len) {
    FILE *file = fopen(path, "rb");
    if (file == NULL) return NULL;
    uint8_t *bytes = NULL;
    long end = fseek(file, 0, SEEK_END) == 0 ? ftell(file) : -1;
    if (end >= 0) {
        rewind(file);
        bytes = malloc((size_t)end + 1); /* one more, since malloc(0) may be null */
        if (bytes != NULL) *len = fread(bytes, 1, (size_t)end, file);
    }
    fclose(file);
    return bytes;
}

static void print_rows(lapped_size size, const int32_t *view) {
    const size_t across = 4 * (size_t)size.width;
    for (size_t i = 0; i < lapped_view_len(size); i++)
        printf("%d%c", (int)view[i], i % across == across - 1 ? '\n' : ' ');
}

/* Shows the quarter view of a plane file; gives the answer of the first call that refuses. */
static uint32_t show(const uint8_t *bytes, size_t len) {
    lapped_header header = lapped_read_header(bytes, len);
    if (header.number != LAPPED_DONE) return header.number;

    const size_t dc_len = lapped_plane_len(header.size, LAPPED_DC);
    const size_t low_len = lapped_plane_len(header.size, LAPPED_LOW_PASS);
    const size_t high_len = lapped_plane_len(header.size, LAPPED_HIGH_PASS);
    const size_t view_len = lapped_view_len(header.size);
    int32_t *dc = calloc(dc_len + low_len + high_len + view_len, sizeof *dc);
    if (dc == NULL) abort();
    int32_t *low = dc + dc_len, *high = low + low_len, *view = high + high_len;

    header = lapped_load(bytes, len, dc, dc_len, low, low_len, high, high_len);
    uint32_t number = header.number;
    if (number == LAPPED_DONE) {
        const lapped_answer answer =
            lapped_quarter(header.mode, header.size, dc, dc_len, low, low_len, view, view_len);
        number = answer.number;
        if (answer.wrapped) fprintf(stderr, "a sum wrapped: the file has extreme values\n");
    }
    if (number == LAPPED_DONE) print_rows(header.size, view);
    free(dc);
    return number;
}

int main(int count, char **words) {
    size_t len = 0;
    uint8_t *bytes = count == 2 ? read_file(words[1], &len) : NULL;
    if (bytes == NULL) {
        fprintf(stderr, "usage: quarter FILE\n");
        return 2;
    }
    uint32_t number = show(bytes, len);
    if (number != LAPPED_DONE) fprintf(stderr, "%s: %s\n", words[1], lapped_message(number));
    free(bytes);
    return number == LAPPED_DONE ? 0 : 1;
}
