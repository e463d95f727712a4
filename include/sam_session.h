/* A program and a machine in one struct, and a function over it for each call of sam.h, in C99 and C++.
 *
 * A call of sam.h has up to seventeen parameters, most of them pointers and the counts behind them, which nobody can
 * check for the caller. Here they are said once, where the session begins; the table, the registers and what a call
 * writes or tells have the right length by their type. Nothing else is done here: every function is the one call that it
 * is named after, and gives its number. What the numbers mean, and what a refusal leaves, stands in sam.h.
 *
 *     static uint32_t bits[16];
 *     static uint8_t tags[16];
 *     static uint64_t history[64];
 *     static uint8_t output[32];
 *     static sam_session s;
 *
 *     SAM_SESSION_BEGIN(&s, bits, tags, history, output);
 *     sam_session_assemble(&s, source, strlen(source), NULL);
 *     sam_session_reset(&s);
 *     sam_session_run(&s, 1000, &steps);
 *
 * Registers are read as s.registers[SAM_SP]. A pointer to what is told may be NULL where nobody asks for it. A session
 * has some 8,300 bytes and a listing 20,500: a board with a small stack keeps them static.
 */
#ifndef SAM_SESSION_H
#define SAM_SESSION_H

#include "sam.h"

#include <string.h>

#ifdef __cplusplus
extern "C" {
#endif

/* The program and the registers are the session's own; cells, tags, history and output are lent to it, and stay where
 * they are as long as it is used. The program is that of the latest assemble, translate or unpack. */
typedef struct {
    uint64_t table[SAM_TABLE_PLACES];
    uint64_t length;
    uint64_t registers[SAM_REGISTERS];
    uint32_t *bits;
    uint8_t *tags;
    size_t cells;
    uint64_t *history;
    size_t places;
    uint8_t *output;
    size_t output_len;
} sam_session;

/* Where a source is refused; zeros where it is not. */
typedef struct {
    uint64_t place, line, column;
} sam_fault;

/* The step that wrote a cell, as sam_why tells it; zeros where none is found. */
typedef struct {
    uint64_t found, steps_back, pc, instruction, old_tag, old_bits;
} sam_cause;

/* What list, pack and save write: the first `length` bytes are the text, the image or the saved state. */
typedef struct {
    uint8_t bytes[SAM_TEXT_BYTES];
    uint64_t length;
} sam_text;

typedef struct {
    uint8_t bytes[SAM_IMAGE_BYTES];
    uint64_t length;
} sam_image;

typedef struct {
    uint8_t bytes[SAM_STATE_BYTES];
    uint64_t length;
} sam_saved;

/* Lends other memory to a session: `cells` cells with as many tags, `places` history places and `output_len` bytes of
 * output. A pointer may be NULL where its count is 0; the session then has another in its place, so a caller who frees
 * memory keeps the pointers that it got. Until a reset or a load the registers are those of before. */
static inline void sam_session_lend(sam_session *s, uint32_t *bits, uint8_t *tags, size_t cells, uint64_t *history,
                                    size_t places, uint8_t *output, size_t output_len) {
    static uint64_t nothing; /* a pointer of sam.h is never null */
    s->bits = cells ? bits : (uint32_t *)(void *)&nothing;
    s->tags = cells ? tags : (uint8_t *)&nothing;
    s->cells = cells;
    s->history = places ? history : &nothing;
    s->places = places;
    s->output = output_len ? output : (uint8_t *)&nothing;
    s->output_len = output_len;
}

/* Begins a session over this memory, with the empty program and zero registers: no machine until a reset or a load. */
static inline void sam_session_begin(sam_session *s, uint32_t *bits, uint8_t *tags, size_t cells, uint64_t *history,
                                     size_t places, uint8_t *output, size_t output_len) {
    memset(s, 0, sizeof *s);
    sam_session_lend(s, bits, tags, cells, history, places, output, output_len);
}

/* The same over four arrays, whose lengths are read off them, with as many tags as cells. The compiler tells of what is
 * no array of its type. Without a history or an output it is sam_session_begin, with NULL and 0. */
#define SAM_SESSION_BEGIN(s, bits, tags, history, output)                                                              \
    ((void)sizeof(char[SAM_SESSION_COUNT(bits) == SAM_SESSION_COUNT(tags) ? 1 : -1]),                                  \
     sam_session_begin(s, SAM_SESSION_ARRAY(uint32_t, bits), SAM_SESSION_ARRAY(uint8_t, tags),                         \
                       SAM_SESSION_COUNT(bits), SAM_SESSION_ARRAY(uint64_t, history), SAM_SESSION_COUNT(history),      \
                       SAM_SESSION_ARRAY(uint8_t, output), SAM_SESSION_COUNT(output)))
#define SAM_SESSION_COUNT(array) (sizeof(array) / sizeof *(array))
#define SAM_SESSION_ARRAY(type, array) (*(1 ? &(array) : (type(*)[SAM_SESSION_COUNT(array)])0))

/* The parameters that are the same in every call. */
#define SAM_SESSION_PROGRAM(s) (s)->table, SAM_TABLE_PLACES, (s)->length
#define SAM_SESSION_MACHINE(s)                                                                                         \
    (s)->registers, SAM_REGISTERS, (s)->bits, (s)->cells, (s)->tags, (s)->cells, (s)->history, (s)->places,            \
        (s)->output, (s)->output_len

/* ---- the program */

static inline uint32_t sam_session_assemble(sam_session *s, const char *source, size_t source_len, sam_fault *fault) {
    uint64_t told[SAM_ASSEMBLE_TOLD] = {0};
    uint32_t number = sam_assemble((const uint8_t *)(source_len ? source : ""), source_len, s->table, SAM_TABLE_PLACES,
                                   told, SAM_ASSEMBLE_TOLD);
    s->length = told[SAM_LENGTH];
    if (fault) {
        fault->place = told[SAM_PLACE];
        fault->line = told[SAM_LINE];
        fault->column = told[SAM_COLUMN];
    }
    return number;
}

static inline uint32_t sam_session_translate(sam_session *s, const char *formula, size_t formula_len,
                                             uint64_t *depth) {
    uint64_t told[SAM_TRANSLATE_TOLD] = {0};
    uint32_t number = sam_translate((const uint8_t *)(formula_len ? formula : ""), formula_len, s->table,
                                    SAM_TABLE_PLACES, told, SAM_TRANSLATE_TOLD);
    s->length = told[SAM_PROGRAM_LENGTH];
    if (depth) *depth = told[SAM_PROGRAM_DEPTH];
    return number;
}

static inline uint32_t sam_session_unpack(sam_session *s, const uint8_t *image, size_t image_len) {
    return sam_unpack(image_len ? image : (const uint8_t *)"", image_len, s->table, SAM_TABLE_PLACES, &s->length, 1);
}

static inline uint32_t sam_session_list(const sam_session *s, sam_text *text) {
    return sam_list(SAM_SESSION_PROGRAM(s), text->bytes, SAM_TEXT_BYTES, &text->length, 1);
}

static inline uint32_t sam_session_pack(const sam_session *s, sam_image *image) {
    return sam_pack(SAM_SESSION_PROGRAM(s), image->bytes, SAM_IMAGE_BYTES, &image->length, 1);
}

/* For a machine of n cells, which need not be this one. */
static inline uint32_t sam_session_depths(const sam_session *s, uint64_t n, const uint16_t *depths, size_t depths_len,
                                          uint64_t *place) {
    static const uint16_t none[1] = {0};
    uint64_t told = 0;
    uint32_t number = sam_depths(SAM_SESSION_PROGRAM(s), n, depths_len ? depths : none, depths_len, &told, 1);
    if (place) *place = told;
    return number;
}

/* ---- the machine */

static inline uint32_t sam_session_reset(sam_session *s) {
    return sam_reset(SAM_SESSION_PROGRAM(s), SAM_SESSION_MACHINE(s));
}

static inline uint32_t sam_session_step(sam_session *s) {
    return sam_step(SAM_SESSION_PROGRAM(s), SAM_SESSION_MACHINE(s));
}

static inline uint32_t sam_session_step_back(sam_session *s) {
    return sam_step_back(SAM_SESSION_PROGRAM(s), SAM_SESSION_MACHINE(s));
}

static inline uint32_t sam_session_forget(sam_session *s, uint64_t k) {
    return sam_forget(SAM_SESSION_PROGRAM(s), k, SAM_SESSION_MACHINE(s));
}

static inline uint32_t sam_session_run(sam_session *s, uint64_t limit, uint64_t *steps) {
    uint64_t told = 0;
    uint32_t number = sam_run(SAM_SESSION_PROGRAM(s), limit, SAM_SESSION_MACHINE(s), &told, 1);
    if (steps) *steps = told;
    return number;
}

static inline uint32_t sam_session_dwell(const sam_session *s, uint64_t *tenths) {
    uint64_t told = 0;
    uint32_t number = sam_dwell(SAM_SESSION_PROGRAM(s), SAM_SESSION_MACHINE(s), &told, 1);
    if (tenths) *tenths = told;
    return number;
}

static inline uint32_t sam_session_why(const sam_session *s, uint64_t cell, sam_cause *cause) {
    uint64_t told[SAM_WHY_TOLD] = {0};
    uint32_t number = sam_why(SAM_SESSION_PROGRAM(s), cell, SAM_SESSION_MACHINE(s), told, SAM_WHY_TOLD);
    if (cause) {
        cause->found = told[SAM_FOUND];
        cause->steps_back = told[SAM_STEPS_BACK];
        cause->pc = told[SAM_STEP_PC];
        cause->instruction = told[SAM_INSTRUCTION];
        cause->old_tag = told[SAM_OLD_TAG];
        cause->old_bits = told[SAM_OLD_BITS];
    }
    return number;
}

static inline uint32_t sam_session_save(const sam_session *s, sam_saved *saved) {
    return sam_save(SAM_SESSION_PROGRAM(s), SAM_SESSION_MACHINE(s), saved->bytes, SAM_STATE_BYTES, &saved->length, 1);
}

static inline uint32_t sam_session_load(sam_session *s, const uint8_t *image, size_t image_len) {
    return sam_load(image_len ? image : (const uint8_t *)"", image_len, SAM_SESSION_PROGRAM(s), SAM_SESSION_MACHINE(s));
}

#undef SAM_SESSION_PROGRAM
#undef SAM_SESSION_MACHINE

#ifdef __cplusplus
}
#endif

#endif
