/* lapped.h: the C interface of liblapped.a, the proved lapped transform of JPEG XR (x86-64 Linux).
 *
 * A picture is width x height macroblocks and n is their product. A macroblock is 4 x 4 blocks, a
 * block is 4 x 4 samples. All numbers are signed 32-bit, any value:
 *
 *   DC plane         n numbers, macroblocks in raster order (left to right, then down)
 *   low-pass plane   15 n, for each macroblock its coefficients 1 to 15
 *   high-pass plane  240 n, for each macroblock its 16 blocks in raster order, each with
 *                    coefficients 1 to 15
 *   samples          256 n, raster order over the whole picture
 *   quarter view     16 n, raster order
 *
 * Every length is in elements of its pointer (numbers, or bytes). A pointer is not null and is
 * aligned for its type, even where its length is 0; what is written overlaps nothing else that
 * is lent.
 *
 * Each call makes the checks whose numbers stand beside it, in that order, and answers the first
 * that fails, or 0. A call that refuses has changed nothing. The library is stateless: calls may run
 * concurrently if no call writes memory that another uses.
 */
#ifndef LAPPED_H
#define LAPPED_H

#ifndef __cplusplus
#include <stdbool.h>
#endif
#include <stddef.h>
#include <stdint.h>

#define LAPPED_VERSION_MAJOR 0
#define LAPPED_VERSION_MINOR 2
#define LAPPED_VERSION_PATCH 0
/* One number that grows, for #if: 200 is version 0.2.0. */
#define LAPPED_VERSION \
    (10000 * LAPPED_VERSION_MAJOR + 100 * LAPPED_VERSION_MINOR + LAPPED_VERSION_PATCH)

#ifdef __cplusplus
extern "C" {
#endif

/* The modes: which levels of the transform run the filters that smooth the seams between blocks. */
typedef enum {
    LAPPED_UNFILTERED = 0,   /* none; each macroblock stands alone */
    LAPPED_SAMPLE_LEVEL = 1, /* the level of the samples */
    LAPPED_BOTH_LEVELS = 2   /* that one, and the level of the DC and low-pass planes */
} lapped_mode;

/* The numbers that calls answer. lapped_message, below, has them in words. */
typedef enum {
    LAPPED_DONE = 0,
    LAPPED_REFUSED_MODE = 1,
    LAPPED_REFUSED_WIDTH = 2,
    LAPPED_REFUSED_HEIGHT = 3,
    LAPPED_REFUSED_DC_LENGTH = 4,
    LAPPED_REFUSED_LOW_PASS_LENGTH = 5,
    LAPPED_REFUSED_HIGH_PASS_LENGTH = 6,
    LAPPED_REFUSED_SAMPLES_LENGTH = 7,
    LAPPED_REFUSED_VIEW_LENGTH = 8,
    LAPPED_REFUSED_FILE_TOO_SHORT = 9,
    LAPPED_REFUSED_LAST_WORD = 10,
    LAPPED_REFUSED_OFFSETS = 11,
    LAPPED_REFUSED_FILE_LENGTH = 12,
    LAPPED_REFUSED_TOO_MANY_MACROBLOCKS = 13, /* only the program `samples` answers this */
    LAPPED_REFUSED_STEP_INDEX = 14,
    LAPPED_REFUSED_PRODUCT = 15
} lapped_number;

/* The size of a picture, in macroblocks: 1 to 525 across and 1 to 413 down. */
typedef struct {
    uint32_t width, height;
} lapped_size;

/* The planes, each with how many coefficients of a macroblock it holds. */
typedef enum {
    LAPPED_DC = 1,
    LAPPED_LOW_PASS = 15,
    LAPPED_HIGH_PASS = 240
} lapped_plane;

/* The step indices of the bands, 0 to 255 each; lapped_step has the steps. */
typedef struct {
    uint32_t dc, low, high;
} lapped_steps;

/* What the transform answers: the number and, if it is 0, whether a sum wrapped; else false.
 *
 * Every sum, difference, negation and multiple of 3 in the lines of the transform's operators is
 * reduced to 32 bits. A sum wrapped if and only if one of these reductions changed a number, each
 * step taken on the numbers that the steps before it left. What wrapped is exact all the same:
 * lapped_forward and lapped_inverse undo each other, and of one picture they tell the same. */
typedef struct {
    uint32_t number;
    bool wrapped;
} lapped_answer;

/* What reading a plane file gives: the answer and, if it is 0, the mode and the size; else zeros. */
typedef struct {
    uint32_t number, mode;
    lapped_size size;
} lapped_header;

/* What finding a step gives: the answer and, if it is 0, the step index; else zeros. */
typedef struct {
    uint32_t number, index;
} lapped_found;

/* How much work the inverse of a picture is: the answer and, if it is 0, how often each operator
 * runs, at both levels together, and the bytes of the planes and of the samples; else zeros. All
 * fit 32 bits: there are at most 216825 macroblocks, each with 1024 bytes of planes, 1024 of
 * samples, and at most 32 uses of an operator. */
typedef struct {
    uint32_t number;
    uint32_t cores;          /* core transforms of 4 x 4 numbers */
    uint32_t square_filters; /* overlap filters of 4 x 4 numbers */
    uint32_t four_filters;   /* overlap filters of four numbers, along the edges and at the corners */
    uint32_t plane_bytes, sample_bytes;
} lapped_work;

/* From coefficient planes to samples. Checks 1, 2, 3, 4, 5, 6, 7. */
lapped_answer lapped_inverse(uint32_t mode, lapped_size size,
                             const int32_t *dc, size_t dc_len,
                             const int32_t *low, size_t low_len,
                             const int32_t *high, size_t high_len,
                             int32_t *samples, size_t samples_len);

/* The quarter-size view, from the DC and low-pass planes alone. It is made by the first of the
 * transform's two levels, and of that one it tells whether a sum wrapped.
 *
 * Its numbers are larger than the samples: for a flat picture 4 times in mode 0, and in modes 1 and
 * 2, where the level of the samples is filtered, 2821/1024 = 2.755 times, with 10 percent more along
 * the edges and 15 percent more at the corners, where less is filtered.
 * Checks 1, 2, 3, 4, 5, 8. */
lapped_answer lapped_quarter(uint32_t mode, lapped_size size,
                             const int32_t *dc, size_t dc_len,
                             const int32_t *low, size_t low_len,
                             int32_t *view, size_t view_len);

/* From samples to coefficient planes; undoes lapped_inverse exactly, and is undone by it.
 * Checks 1, 2, 3, 7, 4, 5, 6. */
lapped_answer lapped_forward(uint32_t mode, lapped_size size,
                             const int32_t *samples, size_t samples_len,
                             int32_t *dc, size_t dc_len,
                             int32_t *low, size_t low_len,
                             int32_t *high, size_t high_len);

/* The work of a picture, from its mode and size alone. Checks 1, 2, 3. */
lapped_work lapped_forecast(uint32_t mode, lapped_size size);

/* A level says how many steps a coefficient is, to the nearest: a smaller number, for a smaller
 * archive. Levels lie in planes as their coefficients do. Each band has one step, chosen by its
 * index; the caller keeps the indices, for a plane file does not hold them. */

/* The step of an index: 1 for index 0, the index itself for 1 to 15, and above that
 * (16 + index mod 16) * 2^(index div 16 - 1). 0 for an index above 255. */
uint32_t lapped_step(uint32_t index);

/* From coefficients to levels: the coefficient's sign with magnitude
 * (magnitude + step div 2) div step. Step 1 changes nothing.
 * Checks 1, 2, 3, 14, then 4, 5, 6 of the planes read, then 4, 5, 6 of those written. */
uint32_t lapped_quantise(uint32_t mode, lapped_size size, lapped_steps steps,
                         const int32_t *dc, size_t dc_len,
                         const int32_t *low, size_t low_len,
                         const int32_t *high, size_t high_len,
                         int32_t *dc_levels, size_t dc_levels_len,
                         int32_t *low_levels, size_t low_levels_len,
                         int32_t *high_levels, size_t high_levels_len);

/* From levels to coefficients: level * step, at most step div 2 from what was quantised. A
 * coefficient near an end of the range can have a level whose product is beyond that end: 15.
 * Checks 1, 2, 3, 14, then 4, 5, 6 of the planes read, then 4, 5, 6 of those written, then 15. */
uint32_t lapped_restore(uint32_t mode, lapped_size size, lapped_steps steps,
                        const int32_t *dc_levels, size_t dc_levels_len,
                        const int32_t *low_levels, size_t low_levels_len,
                        const int32_t *high_levels, size_t high_levels_len,
                        int32_t *dc, size_t dc_len,
                        int32_t *low, size_t low_len,
                        int32_t *high, size_t high_len);

/* Finds an index that, used for all bands, keeps a tolerance: forward, quantise, restore and inverse
 * leave every sample within it, the difference being exact (of the ends of the range it is
 * 4294967295), and no product leaves the range. The answer is an index from 2 to 255 that passes,
 * any of them, or 0, with which nothing changes, where none of those passes. Then the planes hold
 * the restored coefficients of that index, and second holds their samples. Each index that is tried
 * takes about the time of the four calls; there are up to 254 tries.
 * Checks 1, 2, 3, then 7 of the samples, then 7 of the second ones, then 4, 5, 6. */
lapped_found lapped_find_step(uint32_t mode, lapped_size size, uint32_t tolerance,
                              const int32_t *samples, size_t samples_len,
                              int32_t *dc, size_t dc_len,
                              int32_t *low, size_t low_len,
                              int32_t *high, size_t high_len,
                              int32_t *second, size_t second_len);

/* A plane file is little-endian: eight unsigned 32-bit words (mode, width, height, the offsets in
 * bytes of the DC, low-pass and high-pass planes: 32, 32 + 4 n, 32 + 64 n, the total length in
 * bytes: 32 + 1024 n, and a zero), then the three planes in two's complement. */

/* The mode and the size of a plane file that is lent whole. Checks 9, 1, 2, 3, 10, 11, 12. */
lapped_header lapped_read_header(const uint8_t *bytes, size_t len);

/* Fills the planes from a plane file. Checks 9, 1, 2, 3, 10, 11, 12, 4, 5, 6. */
lapped_header lapped_load(const uint8_t *bytes, size_t len,
                          int32_t *dc, size_t dc_len,
                          int32_t *low, size_t low_len,
                          int32_t *high, size_t high_len);

/* Writes a plane file. Checks 1, 2, 3, 4, 5, 6, 12. */
uint32_t lapped_save(uint32_t mode, lapped_size size,
                     const int32_t *dc, size_t dc_len,
                     const int32_t *low, size_t low_len,
                     const int32_t *high, size_t high_len,
                     uint8_t *bytes, size_t len);

/* The lengths that the calls ask for. A size outside the limits has some length here, which may
 * have wrapped; every call refuses the size before it looks at a length. */

static inline size_t lapped_macroblocks(lapped_size size) {
    return (size_t)size.width * size.height;
}

static inline size_t lapped_plane_len(lapped_size size, lapped_plane plane) {
    return (size_t)plane * lapped_macroblocks(size);
}

static inline size_t lapped_samples_len(lapped_size size) {
    return 256 * lapped_macroblocks(size);
}

static inline size_t lapped_view_len(lapped_size size) {
    return 16 * lapped_macroblocks(size);
}

/* In bytes. */
static inline size_t lapped_file_len(lapped_size size) {
    return 32 + 1024 * lapped_macroblocks(size);
}

/* The number of an answer in words; never null. */
static inline const char *lapped_message(uint32_t number) {
    switch (number) {
    case LAPPED_DONE: return "done";
    case LAPPED_REFUSED_MODE: return "the mode is above 2";
    case LAPPED_REFUSED_WIDTH: return "the width is not 1 to 525 macroblocks";
    case LAPPED_REFUSED_HEIGHT: return "the height is not 1 to 413 macroblocks";
    case LAPPED_REFUSED_DC_LENGTH: return "the DC plane is not n long";
    case LAPPED_REFUSED_LOW_PASS_LENGTH: return "the low-pass plane is not 15 n long";
    case LAPPED_REFUSED_HIGH_PASS_LENGTH: return "the high-pass plane is not 240 n long";
    case LAPPED_REFUSED_SAMPLES_LENGTH: return "the samples are not 256 n long";
    case LAPPED_REFUSED_VIEW_LENGTH: return "the view is not 16 n long";
    case LAPPED_REFUSED_FILE_TOO_SHORT: return "the file has fewer than 32 bytes";
    case LAPPED_REFUSED_LAST_WORD: return "the last word of the file's header is not zero";
    case LAPPED_REFUSED_OFFSETS:
        return "an offset or the total in the header is not as laid down";
    case LAPPED_REFUSED_FILE_LENGTH: return "the bytes are not as many as the file's total";
    case LAPPED_REFUSED_TOO_MANY_MACROBLOCKS: return "the picture has more than 16 macroblocks";
    case LAPPED_REFUSED_STEP_INDEX: return "a step index is above 255";
    case LAPPED_REFUSED_PRODUCT:
        return "a product of level and step is outside the signed 32-bit range";
    default: return "a number that this header does not list";
    }
}

#ifdef __cplusplus
}
#endif

#endif
