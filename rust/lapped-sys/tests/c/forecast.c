/* Prints the forecast of the mode, the width and the height that it is given, for the test beside it: C99 and C++ both. */
#include <lapped.h>
#include <stdio.h>
#include <stdlib.h>

int main(int count, char **words) {
    if (count != 4) return 2;
    const lapped_size size = {(uint32_t)atoi(words[2]), (uint32_t)atoi(words[3])};
    const lapped_work work = lapped_forecast((uint32_t)atoi(words[1]), size);
    printf("%u: %u cores, %u square filters, %u four filters, %u bytes of planes, %u of samples\n",
           (unsigned)work.number, (unsigned)work.cores, (unsigned)work.square_filters,
           (unsigned)work.four_filters, (unsigned)work.plane_bytes, (unsigned)work.sample_bytes);
    return 0;
}
