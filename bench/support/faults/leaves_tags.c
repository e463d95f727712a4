/* The complaint's fault, put before a proved library to see that the bench tells it: a step-back that restores the bits
 * of a cell and leaves its tag. faulty.sh makes a copy of the library with it. */
#include "sam.h"

#include <string.h>

enum { MOST_TAGS = 65536 }; /* more than a script can lend */

/* The library's own, renamed in the copy. */
uint32_t proved_step_back(const uint64_t *table, size_t places, uint64_t length, uint64_t *registers,
                          size_t registers_len, uint32_t *bits, size_t n, uint8_t *tags, size_t tags_len,
                          uint64_t *history, size_t h, uint8_t *output, size_t output_len);

uint32_t sam_step_back(const uint64_t *table, size_t places, uint64_t length, uint64_t *registers,
                       size_t registers_len, uint32_t *bits, size_t n, uint8_t *tags, size_t tags_len,
                       uint64_t *history, size_t h, uint8_t *output, size_t output_len) {
    static uint8_t left[MOST_TAGS];
    size_t count = tags_len < MOST_TAGS ? tags_len : MOST_TAGS;
    memcpy(left, tags, count);
    uint32_t number = proved_step_back(table, places, length, registers, registers_len, bits, n, tags, tags_len,
                                       history, h, output, output_len);
    memcpy(tags, left, count);
    return number;
}
