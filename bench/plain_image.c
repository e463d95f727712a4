/* A direct C packer and unpacker of document 01 with requests e and h of document 02, as one would write them for
 * speed: bits gather in a word of 64, and whole bytes leave or enter it. The proved ones are measured against them. */
#include <string.h>

#include "plain.h"
#include "plain_table.h"
#include "sam.h"

enum { COUNT_WIDTH = 11, CODE_WIDTH = 6 };
enum { WORD_WIDTH = 32, OFFSET_WIDTH = 11, OFFSET_SIGN = 1 << 10, TARGET_WIDTH = 11, CHARACTER_WIDTH = 7 };

static inline bool is_offset(uint64_t code) { return code == ADDSP || code == PUSHOFF || code == STOREOFF; }

static inline unsigned operand_width(uint64_t code) {
    switch (code) {
    case PUSHIMM: case PUSHIMMF: return WORD_WIDTH;
    case ADDSP: case PUSHOFF: case STOREOFF: return OFFSET_WIDTH;
    case JUMP: case JUMPC: case JSR: case PUSHIMMPA: return TARGET_WIDTH;
    case PUSHIMMCH: return CHARACTER_WIDTH;
    default: return 0;
    }
}

static inline uint64_t low_bits(uint64_t word, unsigned width) { return word & ((UINT64_C(1) << width) - 1); }

/* ---- pack */

/* The low `count` bits of `word` are those that are not yet a byte. */
struct writer {
    uint8_t *at;
    uint64_t word;
    unsigned count;
};

static inline void put(struct writer *w, unsigned width, uint64_t value) {
    w->word = w->word << width | low_bits(value, width);
    w->count += width;
    while (w->count >= 8) {
        w->count -= 8;
        *w->at++ = (uint8_t)(w->word >> w->count);
    }
}

static size_t write_image(const uint64_t *table, uint64_t length, uint8_t *image) {
    struct writer w = {image, 0, 0};
    put(&w, COUNT_WIDTH, length);
    for (uint64_t i = 0; i < length; i++) {
        uint64_t code = table[i] >> 32;
        unsigned width = operand_width(code);
        put(&w, CODE_WIDTH + width, code << width | low_bits(table[i], width));
    }
    if (w.count > 0) put(&w, 8 - w.count, 0);
    return (size_t)(w.at - image);
}

uint32_t plain_pack(const uint64_t *table, size_t places, uint64_t length, uint8_t *image, size_t image_len,
                    uint64_t *told, size_t told_len) {
    if (told_len == 1) told[0] = 0;
    if (image_len != SAM_IMAGE_BYTES) return 31;
    memset(image, 0, image_len);
    if (told_len != 1) return 31; /* a refused writer too, which zeroes an output of right length */
    if (!table_sound(table, places, length)) return 10;
    told[0] = write_image(table, length, image);
    return 0;
}

/* ---- unpack */

/* The low `count` bits of `word` were read and not yet taken. */
struct reader {
    const uint8_t *at, *end;
    uint64_t word;
    unsigned count;
};

static inline bool take(struct reader *r, unsigned width, uint64_t *value) {
    while (r->count < width) {
        if (r->at == r->end) return false;
        r->word = r->word << 8 | *r->at++;
        r->count += 8;
    }
    r->count -= width;
    *value = low_bits(r->word >> r->count, width);
    return true;
}

static inline uint32_t take_place(struct reader *r, uint64_t length, uint64_t *place) {
    uint64_t code, operand;
    if (!take(r, CODE_WIDTH, &code)) return 41;
    if (code >= CODES) return 43;
    if (!take(r, operand_width(code), &operand)) return 41;
    if (is_offset(code) && operand >= OFFSET_SIGN) operand |= UINT32_MAX << OFFSET_WIDTH;
    if (!operand_sound(code, (uint32_t)operand, length)) return 44;
    *place = code << 32 | operand;
    return 0;
}

static uint32_t read_image(const uint8_t *image, size_t image_len, uint64_t *table, uint64_t *length) {
    struct reader r = {image, image + image_len, 0, 0};
    if (!take(&r, COUNT_WIDTH, length)) return 41;
    if (*length > SAM_TABLE_PLACES) return 42;
    for (uint64_t i = 0; i < *length; i++) {
        uint32_t refusal = take_place(&r, *length, &table[i]);
        if (refusal != 0) return refusal;
    }
    return r.at != r.end || low_bits(r.word, r.count) != 0 ? 45 : 0;
}

uint32_t plain_unpack(const uint8_t *image, size_t image_len, uint64_t *table, size_t places, uint64_t *told,
                      size_t told_len) {
    uint64_t length;
    if (told_len == 1) told[0] = 0;
    if (places != SAM_TABLE_PLACES) return 31;
    memset(table, 0, places * sizeof *table);
    if (told_len != 1) return 31; /* a refused writer too, which zeroes an output of right length */
    uint32_t number = read_image(image, image_len, table, &length);
    if (number == 0) told[0] = length;
    else memset(table, 0, places * sizeof *table);
    return number;
}
