/* Sound tables, for the direct run and the direct packer and unpacker. */
#ifndef PLAIN_TABLE_H
#define PLAIN_TABLE_H

#include <stdbool.h>
#include <stddef.h>
#include <stdint.h>

#include "sam.h"

enum code {
    STOP, PUSHIMM, PUSHIMMF, DUP, SWAP, ADD, SUB, TIMES, DIV, MOD, ADDF, SUBF, TIMESF, DIVF, AND, OR, NAND, NOR, XOR,
    NOT, BITAND, BITOR, BITNAND, BITNOR, BITXOR, BITNOT, CMP, CMPF, GREATER, LESS, EQUAL, ISNIL, ISPOS, ISNEG, PUSHSP,
    POPSP, PUSHFBR, POPFBR, LINK, ADDSP, PUSHIND, STOREIND, PUSHOFF, STOREOFF, JUMP, JUMPC, JUMPIND, JSR, JSRIND,
    PUSHIMMPA, ITOF, FTOI, PUSHIMMCH, WRITECH, CODES
};

enum { LAST_CHARACTER = 127 };

static inline bool operand_sound(uint64_t code, uint32_t operand, uint64_t length) {
    int32_t number = (int32_t)operand;
    switch (code) {
    case PUSHIMM: case PUSHIMMF: return true;
    case ADDSP: case PUSHOFF: case STOREOFF: return number >= -999 && number <= 999;
    case JUMP: case JUMPC: case JSR: case PUSHIMMPA: return operand <= length;
    case PUSHIMMCH: return operand <= LAST_CHARACTER;
    default: return operand == 0;
    }
}

static inline bool table_sound(const uint64_t *table, size_t places, uint64_t length) {
    if (places != SAM_TABLE_PLACES || length > SAM_TABLE_PLACES) return false;
    for (uint64_t i = 0; i < length; i++) {
        if (table[i] >> 32 >= CODES || !operand_sound(table[i] >> 32, (uint32_t)table[i], length)) return false;
    }
    for (uint64_t i = length; i < SAM_TABLE_PLACES; i++) {
        if (table[i] != 0) return false;
    }
    return true;
}

#endif
