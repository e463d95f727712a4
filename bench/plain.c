/* A direct C interpreter of document 01 with requests b, d, e, g and h of document 02, as one would write it for
 * speed: soundness is judged once, then a loop over one switch whose cases test, record and write their cells
 * themselves. The proved run is measured against it. */
#include "plain.h"

#include <stdbool.h>
#include <string.h>

#include "plain_table.h"
#include "sam.h"

struct machine {
    const uint64_t *table;
    uint32_t *bits;
    uint8_t *tags;
    uint64_t *history;
    uint8_t *output;
    uint64_t length, output_len, n, h, pc, sp, fbr, halt, used, kept, written;
};

struct cell { uint32_t bits; uint8_t tag; };

/* ---- 10 */

static bool registers_sound(const struct machine *m) {
    return m->n >= 1 && m->n <= SAM_CELL_LIMIT && m->h <= SAM_HISTORY_LIMIT && m->sp < m->n && m->fbr < m->n &&
           m->pc <= m->length && m->halt <= 1 && m->used <= m->h && m->kept <= m->used &&
           (m->kept > 0 || m->used == 0) && m->output_len <= SAM_OUTPUT_LIMIT && m->written <= m->output_len;
}

static bool cells_sound(const struct machine *m) {
    for (uint64_t i = 0; i < m->n; i++) {
        if (m->tags[i] <= SAM_MA) continue;
        if (m->tags[i] > SAM_CH || m->bits[i] > (m->tags[i] == SAM_PA ? m->length : LAST_CHARACTER)) return false;
    }
    return true;
}

/* ---- values */

/* An operand that may be negative, for sums with a register. */
static inline uint64_t widened(uint32_t operand) { return (uint64_t)(int32_t)operand; }

static inline struct cell cell(uint32_t bits, uint8_t tag) { return (struct cell){bits, tag}; }

static inline struct cell integer(uint32_t bits) { return cell(bits, SAM_INT); }

static inline struct cell address(uint64_t number) { return cell((uint32_t)number, SAM_MA); }

static inline struct cell program_address(uint64_t number) { return cell((uint32_t)number, SAM_PA); }

static inline float as_float(uint32_t bits) {
    float value;
    memcpy(&value, &bits, sizeof value);
    return value;
}

static inline struct cell rounded(float value) {
    uint32_t bits;
    memcpy(&bits, &value, sizeof bits);
    return cell(value != value ? 0x7FC00000u : bits, SAM_FLOAT);
}

static inline uint32_t divided(uint32_t below, uint32_t top) {
    return top == UINT32_MAX ? 0 - below : (uint32_t)((int32_t)below / (int32_t)top);
}

static inline uint32_t remainder_of(uint32_t below, uint32_t top) {
    return top == UINT32_MAX ? 0 : (uint32_t)((int32_t)below % (int32_t)top);
}

static inline struct cell compared(bool less, bool greater) { return integer((uint32_t)less - (uint32_t)greater); }

/* C's == of two floats is the comparison of IEEE 754. */
static inline bool equal(struct cell below, struct cell top) {
    if (below.tag != top.tag) return false;
    return below.tag == SAM_FLOAT ? as_float(below.bits) == as_float(top.bits) : below.bits == top.bits;
}

/* All bits are zero, save the sign of a FLOAT. */
static inline bool nil(struct cell value) {
    return (value.tag == SAM_FLOAT ? value.bits & 0x7FFFFFFFu : value.bits) == 0;
}

/* Whether a conversion to int32_t, which cuts toward zero, is defined; it is of no NaN. */
static inline bool within_integers(float value) { return value >= -0x1p31f && value < 0x1p31f; }

/* ---- history places */

static inline uint64_t cell_place(uint64_t at, struct cell old) {
    return at << 53 | (uint64_t)old.tag << 50 | (uint64_t)old.bits << 18;
}

static inline uint64_t step_place(uint64_t pc, uint64_t sp, uint64_t fbr, uint64_t written) {
    return UINT64_C(1) << 63 | pc << 52 | sp << 42 | fbr << 32 | written << 22;
}

/* ---- the run: the registers are its variables, which these read and write */

#define CELL(at) ((struct cell){bits[at], tags[at]})
#define SET(at, value) do { struct cell made = (value); bits[at] = made.bits; tags[at] = made.tag; } while (0)

/* The run ends with this number. */
#define END(given) do { number = (given); goto end; } while (0)

/* 3, then 4: the values that an instruction takes. */
#define ONE if (sp < 1) END(3); vt = CELL(sp - 1)
#define TWO if (sp < 2) END(3); vb = CELL(sp - 2); vt = CELL(sp - 1)
#define TAKE(condition) if (!(condition)) END(4)
#define ONE_TAGGED(tagged) ONE; TAKE(vt.tag == (tagged))
#define TWO_TAGGED(tagged) TWO; TAKE(vb.tag == (tagged) && vt.tag == (tagged))

/* 8, or the record of a step that writes `count` cells: "its cell places by rising address, then its step place". */
#define KEEP(count, cell_places) \
    do { \
        if (h > 0) { \
            if (h - used < (count) + 1) END(8); \
            cell_places; \
            history[used++] = step_place(pc, sp, fbr, (count)); \
        } \
    } while (0)
#define KEEP_CELL(at) history[used++] = cell_place((at), CELL(at))

/* How instructions end: 7 where SP rises, the record, the cells written, the new SP. */
#define WRITE(at, value, new_sp) do { KEEP(1, KEEP_CELL(at)); SET(at, value); sp = (new_sp); } while (0)
#define PUSH(value) do { if (sp + 1 >= n) END(7); WRITE(sp, value, sp + 1); } while (0)
#define RESULT_OF_ONE(value) WRITE(sp - 1, value, sp)
#define RESULT_OF_TWO(value) WRITE(sp - 2, value, sp - 1)
#define POP do { KEEP(0, ); sp--; } while (0)
#define FILL(from, new_sp) \
    do { \
        const uint64_t low = (from), high = (new_sp), count = high > low ? high - low : 0; \
        if (high >= n) END(7); \
        KEEP(count, for (uint64_t i = low; i < high; i++) KEEP_CELL(i)); \
        for (uint64_t i = low; i < high; i++) SET(i, integer(0)); \
        sp = high; \
    } while (0)

/* Two INTs, whose tag is 0, wrap and pay for no test more; an MA and an INT are 6 where the result leaves 32 bits. */
#define SUM(operation, overflows) \
    TWO; \
    if ((vb.tag | vt.tag) == SAM_INT) { \
        RESULT_OF_TWO(integer(vb.bits operation vt.bits)); \
    } else { \
        int32_t moved; \
        TAKE(vb.tag == SAM_MA && vt.tag == SAM_INT); \
        if (overflows((int32_t)vb.bits, (int32_t)vt.bits, &moved)) END(6); \
        RESULT_OF_TWO(address((uint32_t)moved)); \
    }

/* Steps of a sound state: the number that ends them, and how many were made. A negative address or offset, taken as
 * unsigned, is above every SP and N. The output and its count stay in the machine: WRITECH alone has a use for them. */
static uint32_t repeat(struct machine *m, uint64_t limit, uint64_t *made) {
    const uint64_t *const table = m->table;
    uint32_t *const bits = m->bits;
    uint8_t *const tags = m->tags;
    uint64_t *const history = m->history;
    const uint64_t length = m->length, n = m->n, h = m->h;
    uint64_t pc = m->pc, sp = m->sp, fbr = m->fbr, halt = m->halt, used = m->used, left = limit;
    uint32_t number;
    if (halt == 1) END(0);
    for (;; left--) {
        if (left == 0) END(50);
        if (pc == length) END(2);
        const uint64_t place = table[pc];
        const uint32_t operand = (uint32_t)place;
        uint64_t next = pc + 1, at;
        struct cell vt, vb;
        switch (place >> 32) {
        case STOP: KEEP(0, ); halt = 1; left--; END(0);
        case PUSHIMM: PUSH(integer(operand)); break;
        case PUSHIMMF: PUSH(cell(operand, SAM_FLOAT)); break;
        case PUSHIMMPA: PUSH(program_address(operand)); break;
        case PUSHIMMCH: PUSH(cell(operand, SAM_CH)); break;
        case DUP: ONE; PUSH(vt); break;
        case SWAP: TWO; KEEP(2, KEEP_CELL(sp - 2); KEEP_CELL(sp - 1)); SET(sp - 2, vt); SET(sp - 1, vb); break;
        case ADD: SUM(+, __builtin_add_overflow); break;
        case SUB: SUM(-, __builtin_sub_overflow); break;
        case TIMES: TWO_TAGGED(SAM_INT); RESULT_OF_TWO(integer(vb.bits * vt.bits)); break;
        case DIV:
            TWO_TAGGED(SAM_INT);
            if (vt.bits == 0) END(5);
            RESULT_OF_TWO(integer(divided(vb.bits, vt.bits)));
            break;
        case MOD:
            TWO_TAGGED(SAM_INT);
            if (vt.bits == 0) END(5);
            RESULT_OF_TWO(integer(remainder_of(vb.bits, vt.bits)));
            break;
        case ADDF: TWO_TAGGED(SAM_FLOAT); RESULT_OF_TWO(rounded(as_float(vb.bits) + as_float(vt.bits))); break;
        case SUBF: TWO_TAGGED(SAM_FLOAT); RESULT_OF_TWO(rounded(as_float(vb.bits) - as_float(vt.bits))); break;
        case TIMESF: TWO_TAGGED(SAM_FLOAT); RESULT_OF_TWO(rounded(as_float(vb.bits) * as_float(vt.bits))); break;
        case DIVF: TWO_TAGGED(SAM_FLOAT); RESULT_OF_TWO(rounded(as_float(vb.bits) / as_float(vt.bits))); break;
        case AND: TWO_TAGGED(SAM_INT); RESULT_OF_TWO(integer(vb.bits && vt.bits)); break;
        case OR: TWO_TAGGED(SAM_INT); RESULT_OF_TWO(integer(vb.bits || vt.bits)); break;
        case NAND: TWO_TAGGED(SAM_INT); RESULT_OF_TWO(integer(!(vb.bits && vt.bits))); break;
        case NOR: TWO_TAGGED(SAM_INT); RESULT_OF_TWO(integer(!(vb.bits || vt.bits))); break;
        case XOR: TWO_TAGGED(SAM_INT); RESULT_OF_TWO(integer(!vb.bits != !vt.bits)); break;
        case NOT: ONE_TAGGED(SAM_INT); RESULT_OF_ONE(integer(!vt.bits)); break;
        case BITAND: TWO_TAGGED(SAM_INT); RESULT_OF_TWO(integer(vb.bits & vt.bits)); break;
        case BITOR: TWO_TAGGED(SAM_INT); RESULT_OF_TWO(integer(vb.bits | vt.bits)); break;
        case BITNAND: TWO_TAGGED(SAM_INT); RESULT_OF_TWO(integer(~(vb.bits & vt.bits))); break;
        case BITNOR: TWO_TAGGED(SAM_INT); RESULT_OF_TWO(integer(~(vb.bits | vt.bits))); break;
        case BITXOR: TWO_TAGGED(SAM_INT); RESULT_OF_TWO(integer(vb.bits ^ vt.bits)); break;
        case BITNOT: ONE_TAGGED(SAM_INT); RESULT_OF_ONE(integer(~vt.bits)); break;
        case CMP:
            TWO_TAGGED(SAM_INT);
            RESULT_OF_TWO(compared((int32_t)vb.bits < (int32_t)vt.bits, (int32_t)vb.bits > (int32_t)vt.bits));
            break;
        case CMPF: {
            TWO_TAGGED(SAM_FLOAT);
            float below = as_float(vb.bits), top = as_float(vt.bits);
            if (below != below || top != top) END(5);
            RESULT_OF_TWO(compared(below < top, below > top));
            break;
        }
        case GREATER: TWO_TAGGED(SAM_INT); RESULT_OF_TWO(integer((int32_t)vb.bits > (int32_t)vt.bits)); break;
        case LESS: TWO_TAGGED(SAM_INT); RESULT_OF_TWO(integer((int32_t)vb.bits < (int32_t)vt.bits)); break;
        case EQUAL: TWO; RESULT_OF_TWO(integer(equal(vb, vt))); break;
        case ISNIL: ONE; RESULT_OF_ONE(integer(nil(vt))); break;
        case ISPOS: ONE_TAGGED(SAM_INT); RESULT_OF_ONE(integer((int32_t)vt.bits > 0)); break;
        case ISNEG: ONE_TAGGED(SAM_INT); RESULT_OF_ONE(integer((int32_t)vt.bits < 0)); break;
        case PUSHSP: PUSH(address(sp)); break;
        case PUSHFBR: PUSH(address(fbr)); break;
        case LINK: PUSH(address(fbr)); fbr = sp - 1; break;
        case POPFBR:
            ONE_TAGGED(SAM_MA);
            if (vt.bits >= n) END(6);
            POP;
            fbr = vt.bits;
            break;
        case POPSP: ONE_TAGGED(SAM_MA); if (vt.bits >= n) END(6); FILL(sp - 1, vt.bits); break;
        case ADDSP: if ((int64_t)(sp + widened(operand)) < 0) END(3); FILL(sp, sp + widened(operand)); break;
        case PUSHIND: ONE_TAGGED(SAM_MA); if (vt.bits >= sp - 1) END(6); RESULT_OF_ONE(CELL(vt.bits)); break;
        case STOREIND: TWO; TAKE(vb.tag == SAM_MA); if (vb.bits >= sp - 2) END(6); WRITE(vb.bits, vt, sp - 2); break;
        case PUSHOFF: at = fbr + widened(operand); if (at >= sp) END(6); PUSH(CELL(at)); break;
        case STOREOFF: ONE; at = fbr + widened(operand); if (at >= sp - 1) END(6); WRITE(at, vt, sp - 1); break;
        case JUMP: KEEP(0, ); next = operand; break;
        case JUMPC: ONE_TAGGED(SAM_INT); POP; if (vt.bits) next = operand; break;
        case JUMPIND: ONE_TAGGED(SAM_PA); POP; next = vt.bits; break;
        case JSR: PUSH(program_address(next)); next = operand; break;
        case JSRIND: ONE_TAGGED(SAM_PA); RESULT_OF_ONE(program_address(next)); next = vt.bits; break;
        case ITOF: ONE_TAGGED(SAM_INT); RESULT_OF_ONE(rounded((float)(int32_t)vt.bits)); break;
        case FTOI:
            ONE_TAGGED(SAM_FLOAT);
            if (!within_integers(as_float(vt.bits))) END(5);
            RESULT_OF_ONE(integer((uint32_t)(int32_t)as_float(vt.bits)));
            break;
        case WRITECH:
            ONE_TAGGED(SAM_CH);
            if (m->written == m->output_len) END(12);
            POP;
            m->output[m->written++] = (uint8_t)vt.bits;
            break;
        default: END(10); /* no sound table has another code */
        }
        pc = next;
    }
end:
    m->pc = pc;
    m->sp = sp;
    m->fbr = fbr;
    m->halt = halt;
    m->used = used;
    *made = limit - left;
    if (h > 0) m->kept += *made; /* every step made is recorded */
    return number;
}

uint32_t plain_run(const uint64_t *table, size_t places, uint64_t length, uint64_t limit, uint64_t *registers,
                   size_t registers_len, uint32_t *bits, size_t n, uint8_t *tags, size_t tags_len, uint64_t *history,
                   size_t h, uint8_t *output, size_t output_len, uint64_t *told, size_t told_len) {
    if (told_len != 1) return 31;
    told[0] = 0;
    if (limit > SAM_RUN_LIMIT) return 11;
    if (registers_len != SAM_REGISTERS) return 10;
    struct machine m = {
        table, bits, tags, history, output, length, output_len, registers[SAM_N], registers[SAM_H_PLACES],
        registers[SAM_PC], registers[SAM_SP], registers[SAM_FBR], registers[SAM_HALT], registers[SAM_U],
        registers[SAM_KEPT], registers[SAM_WRITTEN],
    };
    if (!table_sound(table, places, length) || m.n != n || m.n != tags_len || m.h != h) return 10;
    if (!registers_sound(&m) || !cells_sound(&m)) return 10;
    uint64_t steps = 0;
    uint32_t number = repeat(&m, limit, &steps);
    registers[SAM_PC] = m.pc;
    registers[SAM_SP] = m.sp;
    registers[SAM_FBR] = m.fbr;
    registers[SAM_HALT] = m.halt;
    registers[SAM_U] = m.used;
    registers[SAM_KEPT] = m.kept;
    registers[SAM_WRITTEN] = m.written;
    told[0] = steps;
    return number;
}
