/* What a replay needs of a machine besides its calls: see machine.h. */
#include "machine.h"

#include "bytes.h"

#include <inttypes.h>
#include <stdlib.h>
#include <string.h>

enum { LENT_FILL = 0xAA }; /* not zero, so that a reset that forgets to clear a part is seen */

/* Exactly so many bytes, so that a checker of memory sees a call that leaves them. */
static void *newly_lent(size_t bytes) {
    return bytes == 0 ? NULL : memset(not_null(malloc(bytes)), LENT_FILL, bytes);
}

void lend_anew(sam_session *s, size_t cells, size_t places, size_t output_len) {
    sam_session_lend(s, newly_lent(cells * sizeof *s->bits), newly_lent(cells * sizeof *s->tags), cells,
                     newly_lent(places * sizeof *s->history), places, newly_lent(output_len), output_len);
}

/* Where a count is 0 the session has a pointer of its own, which is not ours to free. */
void free_lent(sam_session *s) {
    if (s->cells > 0) free(s->bits);
    if (s->cells > 0) free(s->tags);
    if (s->places > 0) free(s->history);
    if (s->output_len > 0) free(s->output);
}

void copy_session(sam_session *copy, const sam_session *s) {
    *copy = *s;
    lend_anew(copy, s->cells, s->places, s->output_len);
    memcpy(copy->bits, s->bits, s->cells * sizeof *s->bits);
    memcpy(copy->tags, s->tags, s->cells * sizeof *s->tags);
    memcpy(copy->history, s->history, s->places * sizeof *s->history);
    memcpy(copy->output, s->output, s->output_len);
}

size_t at_most(uint64_t count, size_t there) {
    return count < there ? (size_t)count : there;
}

size_t live_cells(const sam_session *s) {
    return at_most(s->registers[SAM_SP], s->cells);
}

/* By their numbers; there is nothing between. */
static const char *const MEANINGS[] = {
    [0] = "done",
    [1] = "the machine has halted",
    [2] = "the program has ended",
    [3] = "too few values",
    [4] = "a value has a tag that is not taken",
    [5] = "no number for it",
    [6] = "address or cell out of range",
    [7] = "no room on the stack",
    [8] = "no room in the history",
    [9] = "no step to take back",
    [10] = "broken state or table",
    [11] = "size or limit out of range",
    [12] = "the output is full",
    [14] = "more steps than are kept",
    [21] = "too many bytes",
    [22] = "forbidden byte",
    [23] = "no instruction or label here",
    [24] = "operand missing",
    [25] = "operand out of range",
    [26] = "label twice",
    [27] = "label unknown",
    [28] = "too many instructions",
    [29] = "too many labels",
    [30] = "label too long",
    [31] = "lent output not of its length",
    [33] = "operand of wrong form",
    [41] = "the image ends early",
    [42] = "too many instructions in the image",
    [43] = "no such instruction in the image",
    [44] = "operand out of range in the image",
    [45] = "padding not zero or bytes left over",
    [50] = "limit reached",
    [60] = "the machine has not halted",
    [61] = "the stack is empty",
    [62] = "cell 0 is neither INT nor FLOAT",
    [63] = "cell 0 is a NaN",
    [64] = "depth list of another length",
    [65] = "forbidden instruction",
    [66] = "a depth rule fails",
    [67] = "lent memory of other sizes",
    [70] = "forbidden byte in the formula",
    [71] = "the formula cannot go on or end here",
    [72] = "number too large",
    [73] = "nested too deep",
};

const char *meaning(uint32_t number) {
    bool known = number < sizeof MEANINGS / sizeof *MEANINGS && MEANINGS[number];
    return known ? MEANINGS[number] : "no such number";
}

/* The number that 32 bits are with a sign. */
static int64_t with_sign(uint64_t bits) {
    return bits > INT32_MAX ? (int64_t)bits - UINT32_MAX - 1 : (int64_t)bits;
}

/* Tags and bits that no cell can hold are written as the numbers that they are. */
void describe(uint64_t tag, uint64_t bits, char described[VALUE_BYTES]) {
    static const char *const TAGS[] = {"INT", "FLOAT", "MA", "PA", "CH"};
    bool in_a_cell = bits <= UINT32_MAX;
    if (tag > SAM_CH)
        snprintf(described, VALUE_BYTES, "TAG%" PRIu64 " %" PRIu64, tag, bits);
    else if (in_a_cell && tag == SAM_FLOAT)
        snprintf(described, VALUE_BYTES, "FLOAT #%08" PRIX64, bits);
    else if (in_a_cell && (tag == SAM_INT || tag == SAM_MA))
        snprintf(described, VALUE_BYTES, "%s %" PRId64, TAGS[tag], with_sign(bits));
    else
        snprintf(described, VALUE_BYTES, "%s %" PRIu64, TAGS[tag], bits);
}

void describe_cell(const sam_session *s, size_t cell, char described[VALUE_BYTES]) {
    describe(s->tags[cell], s->bits[cell], described);
}
