/* The bytes of stack that each call of sam.h uses, for an empty program and for one of 1,024 instructions.
 *
 * A function that makes the call and nothing else is run on a stack of its own that was painted before, and the lowest
 * byte that lost its paint tells how far down it went. What an empty function takes there is not counted; the call's
 * arguments on the stack and its return address are. It fails where a call uses more than sam.h says, and where
 * sam_pack uses more for the long program than for the empty one. */
#define _XOPEN_SOURCE 600
#include <stdbool.h>
#include <stdio.h>
#include <stdlib.h>
#include <string.h>
#include <ucontext.h>

#include "sam.h"

static void die(const char *why) {
    fprintf(stderr, "stack: cannot be measured: %s\n", why);
    exit(1);
}

/* ---- what is lent to the calls */

enum { PAIRS = SAM_TABLE_PLACES / 16, STEPS = 1000, FORGOTTEN = 3 };

static char source[SAM_SOURCE_LIMIT];
static size_t source_len, image_len, state_len;
static uint8_t text[SAM_TEXT_BYTES], image[SAM_IMAGE_BYTES], state[SAM_STATE_BYTES];
static uint64_t table[SAM_TABLE_PLACES], length, told[SAM_WHY_TOLD];
static uint64_t registers[SAM_REGISTERS], history[SAM_HISTORY_LIMIT];
static uint32_t bits[SAM_CELL_LIMIT];
static uint8_t tags[SAM_CELL_LIMIT], output[SAM_OUTPUT_LIMIT];
static uint16_t depths[SAM_TABLE_PLACES];

static uint64_t asked; /* the cell of a why */

static char formula[SAM_SOURCE_LIMIT];
static size_t formula_len;

static uint32_t number; /* what the last call gave */

static void assemble(void) {
    number = sam_assemble((const uint8_t *)source, source_len, table, SAM_TABLE_PLACES, told, SAM_ASSEMBLE_TOLD);
}

static void list(void) { number = sam_list(table, SAM_TABLE_PLACES, length, text, SAM_TEXT_BYTES, told, 1); }

static void pack(void) { number = sam_pack(table, SAM_TABLE_PLACES, length, image, SAM_IMAGE_BYTES, told, 1); }

static void unpack(void) { number = sam_unpack(image, image_len, table, SAM_TABLE_PLACES, told, 1); }

static void reset(void) {
    number = sam_reset(table, SAM_TABLE_PLACES, length, registers, SAM_REGISTERS, bits, SAM_CELL_LIMIT, tags,
                       SAM_CELL_LIMIT, history, SAM_HISTORY_LIMIT, output, SAM_OUTPUT_LIMIT);
}

static void step(void) {
    number = sam_step(table, SAM_TABLE_PLACES, length, registers, SAM_REGISTERS, bits, SAM_CELL_LIMIT, tags,
                      SAM_CELL_LIMIT, history, SAM_HISTORY_LIMIT, output, SAM_OUTPUT_LIMIT);
}

static void step_back(void) {
    number = sam_step_back(table, SAM_TABLE_PLACES, length, registers, SAM_REGISTERS, bits, SAM_CELL_LIMIT, tags,
                           SAM_CELL_LIMIT, history, SAM_HISTORY_LIMIT, output, SAM_OUTPUT_LIMIT);
}

static void forget(void) {
    number = sam_forget(table, SAM_TABLE_PLACES, length, FORGOTTEN, registers, SAM_REGISTERS, bits, SAM_CELL_LIMIT,
                        tags, SAM_CELL_LIMIT, history, SAM_HISTORY_LIMIT, output, SAM_OUTPUT_LIMIT);
}

static void run(void) {
    number = sam_run(table, SAM_TABLE_PLACES, length, STEPS, registers, SAM_REGISTERS, bits, SAM_CELL_LIMIT, tags,
                     SAM_CELL_LIMIT, history, SAM_HISTORY_LIMIT, output, SAM_OUTPUT_LIMIT, told, 1);
}

static void dwell(void) {
    number = sam_dwell(table, SAM_TABLE_PLACES, length, registers, SAM_REGISTERS, bits, SAM_CELL_LIMIT, tags,
                       SAM_CELL_LIMIT, history, SAM_HISTORY_LIMIT, output, SAM_OUTPUT_LIMIT, told, 1);
}

static void why(void) {
    number = sam_why(table, SAM_TABLE_PLACES, length, asked, registers, SAM_REGISTERS, bits, SAM_CELL_LIMIT, tags,
                     SAM_CELL_LIMIT, history, SAM_HISTORY_LIMIT, output, SAM_OUTPUT_LIMIT, told, SAM_WHY_TOLD);
}

static void save(void) {
    number = sam_save(table, SAM_TABLE_PLACES, length, registers, SAM_REGISTERS, bits, SAM_CELL_LIMIT, tags,
                      SAM_CELL_LIMIT, history, SAM_HISTORY_LIMIT, output, SAM_OUTPUT_LIMIT, state, SAM_STATE_BYTES,
                      told, 1);
}

static void load(void) {
    number = sam_load(state, state_len, table, SAM_TABLE_PLACES, length, registers, SAM_REGISTERS, bits,
                      SAM_CELL_LIMIT, tags, SAM_CELL_LIMIT, history, SAM_HISTORY_LIMIT, output, SAM_OUTPUT_LIMIT);
}

static void judge(void) {
    number = sam_depths(table, SAM_TABLE_PLACES, length, SAM_CELL_LIMIT, depths, length, told, 1);
}

static void translate(void) {
    number = sam_translate((const uint8_t *)formula, formula_len, table, SAM_TABLE_PLACES, told, SAM_TRANSLATE_TOLD);
}

/* A packer with a copy of the image, to see that the measurement finds it. */
static void pack_by_a_copy(void) {
    uint8_t copy[SAM_IMAGE_BYTES];
    number = sam_pack(table, SAM_TABLE_PLACES, length, copy, sizeof copy, told, 1);
    memcpy(image, copy, sizeof copy);
}

/* All 256 labels, every form of operand, the longest number and decimal, both conversions, a character; for ever in its
 * first sixteen instructions, so that the output is not full after STEPS or MANY_STEPS. */
static void write_full_source(void) {
    for (int i = 0; i < PAIRS; i++) {
        source_len += (size_t)sprintf(source + source_len,
                                      "a%d: PUSHIMM -2147483648 ITOF PUSHIMMF -99999999.9 JUMP b%d\n"
                                      "b%d: FTOI PUSHIMMF #FFFFFFFF ADDSP -3 JUMP c%d\n"
                                      "c%d: PUSHIMMCH 127 WRITECH PUSHIMMF 2.5 JUMP d%d\n"
                                      "d%d: FTOI PUSHIMMF #00000000 ADDSP -2 JUMP a%d\n", i, i, i, i, i, i, i, i);
    }
}

enum { TO_ITOF = 1, TO_WRITECH = 9, MANY_STEPS = 4000 }; /* steps before these, and such as fill most of the history */

/* Cell 0 of a halted machine: 40 tenths, 2.5 seconds, the least FLOAT and the greatest. */
static const struct cell {
    uint8_t tag;
    uint32_t value;
} TENTHS = {SAM_INT, 40}, SECONDS = {SAM_FLOAT, 0x40200000}, LEAST = {SAM_FLOAT, 1}, GREATEST = {SAM_FLOAT, 0x7F7FFFFF};

static void halt_at(const struct cell *cell) {
    registers[SAM_HALT] = 1;
    registers[SAM_SP] = 1;
    tags[0] = cell->tag;
    bits[0] = cell->value;
}

/* The depths of those sixteen instructions, also where nothing leads to them. */
static void list_depths(void) {
    static const uint16_t sixteen[] = {0, 1, 1, 2, 2, 2, 3, 0, 0, 1, 0, 1, 1, 1, 2, 0};
    for (size_t i = 0; i < SAM_TABLE_PLACES; i++) depths[i] = sixteen[i % 16];
}

enum { LAST = SAM_TABLE_PLACES - 1 };
enum { POPSP = 35, JUMP = 44, JUMPC = 45, JUMPIND = 46, JSR = 47, JSRIND = 48, CODES = 54 };

static uint64_t place_of(uint64_t code, uint64_t operand) { return code << 32 | operand; }

static void forbid_last(void) { table[LAST] = place_of(JSRIND, 0); }

static void end_at_last(void) { table[LAST] = place_of(JUMP, SAM_TABLE_PLACES); }

static void break_last(void) { table[LAST] = place_of(CODES, 0); }

static void cut_state(void) { state_len--; }

static void lengthen_state(void) { state_len++; }

static void announce_fewer_cells(void) { state[0]--; }

static void ask_unwritten(void) { asked = SAM_CELL_LIMIT - 1; }

static void ask_beyond(void) { asked = SAM_CELL_LIMIT; }

static void break_oldest(void) { history[0] |= 1; }

static void write_formula(const char *piece, size_t count) {
    size_t size = strlen(piece);
    for (size_t i = 0; i < count; i++, formula_len += size) memcpy(formula + formula_len, piece, size);
}

/* As deep as may be, by brackets, by signs and by both in turn, each with operators of either rank before it, and of
 * brackets behind it too. */
static void open_brackets(void) { write_formula("a+b*(", SAM_NESTING_LIMIT); }

static void nest_brackets(void) {
    open_brackets();
    write_formula("a+b*c-d", 1);
    write_formula(")/e-f", SAM_NESTING_LIMIT);
}

static void nest_signs(void) {
    write_formula("a+b*", 1);
    write_formula("-", SAM_NESTING_LIMIT);
    write_formula("c/d-e", 1);
}

static void nest_both(void) {
    write_formula("a+b*-(", SAM_NESTING_LIMIT / 2);
    write_formula("a+b*c-d", 1);
    write_formula(")/e-f", SAM_NESTING_LIMIT / 2);
}

/* A sum of 1,024 instructions with STOP, and one that fills what the deepest bracket leaves of them: four for each. */
static void write_long_sum(void) {
    write_formula("a", 1);
    write_formula("+a", SAM_TABLE_PLACES / 2 - 1);
}

static void nest_long_sum(void) {
    open_brackets();
    write_formula("a", 1);
    write_formula("+a", SAM_TABLE_PLACES / 2 - 1 - 2 * SAM_NESTING_LIMIT);
    write_formula(")", SAM_NESTING_LIMIT);
}

/* As many digits as there can be, in the deepest bracket. */
static void nest_many_digits(void) {
    open_brackets();
    write_formula("0", SAM_SOURCE_LIMIT - formula_len - SAM_NESTING_LIMIT);
    write_formula(")", SAM_NESTING_LIMIT);
}

/* Each refusal in the deepest bracket. */
static void refuse_deep(const char *last) {
    open_brackets();
    write_formula(last, 1);
}

static void refuse_byte(void) { refuse_deep("a+b*$"); }

static void refuse_end(void) { refuse_deep("a+b*"); }

static void refuse_number(void) { refuse_deep("a+b*2147483648"); }

static void refuse_nesting(void) { refuse_deep("a+b*("); }

static void refuse_cost(void) {
    open_brackets();
    write_formula("a+", SAM_TABLE_PLACES);
}

/* By how much each code moves SP. */
static const signed char MOVES[CODES] = {
    0, 1, 1, 1, 0, -1, -1, -1, -1, -1, -1, -1, -1, -1, -1, -1, -1, -1, -1, 0, -1, -1, -1, -1, -1, 0, -1,
    -1, -1, -1, -1, 0, 0, 0, 1, 0, 1, -1, 1, 0, 0, -2, 1, -1, 0, -1, 0, 0, 0, 1, 0, 0, 1, -1,
};

static bool is_forbidden(uint64_t code) { return code == POPSP || code == JUMPIND || code == JSR || code == JSRIND; }

/* Every instruction in turn at depth 5, with a STOP behind it; a JUMP goes to itself, a JUMPC to that STOP. */
static void list_every_instruction(void) {
    memset(table, 0, sizeof table);
    memset(depths, 0, sizeof depths);
    uint64_t code = 0;
    for (size_t i = 1; i + 1 < SAM_TABLE_PLACES; i += 2) {
        while (is_forbidden(code)) code = (code + 1) % CODES;
        table[i] = place_of(code, code == JUMP ? i : code == JUMPC ? i + 1 : 0);
        depths[i] = 5;
        depths[i + 1] = (uint16_t)(5 + MOVES[code]);
        code = (code + 1) % CODES;
    }
}

/* What a call is measured with. */
struct row {
    const char *name;
    void (*call)(void);
    int steps;               /* that the machine has made before, where there are some to make */
    const struct cell *cell; /* where the machine is halted, or none */
    size_t most;             /* bytes, by sam.h */
    uint32_t empty, full;    /* the numbers that the call gives */
    void (*change)(void);    /* of the long program, its list, machine or saved state, the cell, the formula, or none */
};

/* A program, its image, a machine as the row has it, and its state saved. */
static void prepare(bool is_full, const struct row *row) {
    source_len = 0;
    if (is_full) write_full_source();
    assemble();
    length = told[SAM_LENGTH];
    if (number != 0 || length != (is_full ? SAM_TABLE_PLACES : 0)) die("the source was not assembled");
    pack();
    image_len = told[0];
    reset();
    for (int i = 0; i < row->steps; i++) step();
    if (row->cell != NULL) halt_at(row->cell);
    asked = 0;
    save();
    state_len = told[0];
    list_depths();
    formula_len = 0;
    if (is_full && row->change != NULL) row->change();
}

/* ---- the painted stack */

enum { STACK_BYTES = 65536 };

static unsigned char stack[STACK_BYTES];
static unsigned char paint;
static size_t untouched; /* bytes that kept their paint, from the stack's end */
static void (*volatile made)(void);
static ucontext_t outside, inside;

/* Looks as soon as the call is made, before anything else uses the stack. */
static void make_and_look(void) {
    made();
    untouched = 0;
    while (untouched < STACK_BYTES && stack[untouched] == paint) untouched++;
}

static size_t depth_in(unsigned char colour, void (*call)(void)) {
    paint = colour;
    made = call;
    memset(stack, paint, sizeof stack);
    if (getcontext(&inside) != 0) die("no context");
    inside.uc_stack.ss_sp = stack;
    inside.uc_stack.ss_size = sizeof stack;
    inside.uc_link = &outside;
    makecontext(&inside, make_and_look, 0);
    if (swapcontext(&outside, &inside) != 0) die("no context");
    if (untouched == 0) die("a call needs more stack than there is");
    return STACK_BYTES - untouched;
}

/* In two colours, since a call may write the paint's own byte. The first time the linker may look up memset there. */
static size_t depth(bool is_full, const struct row *row, void (*call)(void)) {
    static const unsigned char colours[] = {0xA5, 0xA5, 0x5A};
    size_t deepest = 0;
    for (size_t i = 0; i < sizeof colours; i++) {
        prepare(is_full, row);
        size_t now = depth_in(colours[i], call);
        if (i > 0 && now > deepest) deepest = now;
    }
    return deepest;
}

static void nothing(void) {}

/* `number` is then the call's. */
static size_t used(bool is_full, const struct row *row) {
    size_t without = depth(is_full, row, nothing);
    return depth(is_full, row, row->call) - without;
}

/* ---- the table */

static const struct row ROWS[] = {
    {"assemble", assemble, 0, NULL, SAM_ASSEMBLE_STACK, 0, 0, NULL},
    {"list", list, 0, NULL, SAM_LIST_STACK, 0, 0, NULL},
    {"pack", pack, 0, NULL, SAM_PACK_STACK, 0, 0, NULL},
    {"unpack", unpack, 0, NULL, SAM_UNPACK_STACK, 0, 0, NULL},
    {"reset", reset, TO_WRITECH + 1, NULL, SAM_RESET_STACK, 0, 0, NULL},
    {"step ITOF", step, TO_ITOF, NULL, SAM_STEP_STACK, 2, 0, NULL},
    {"step WRITECH", step, TO_WRITECH, NULL, SAM_STEP_STACK, 2, 0, NULL},
    {"back ITOF", step_back, TO_ITOF + 1, NULL, SAM_STEP_BACK_STACK, 9, 0, NULL},
    {"back WRITECH", step_back, TO_WRITECH + 1, NULL, SAM_STEP_BACK_STACK, 9, 0, NULL},
    {"forget", forget, TO_WRITECH + 1, NULL, SAM_FORGET_STACK, 14, 0, NULL},
    {"run", run, 0, NULL, SAM_RUN_STACK, 2, 50, NULL},
    {"dwell INT", dwell, 1, &TENTHS, SAM_DWELL_STACK, 0, 0, NULL},
    {"dwell FLOAT", dwell, 1, &SECONDS, SAM_DWELL_STACK, 0, 0, NULL},
    {"dwell least", dwell, 1, &LEAST, SAM_DWELL_STACK, 0, 0, NULL},
    {"dwell most", dwell, 1, &GREATEST, SAM_DWELL_STACK, 0, 0, NULL},
    {"why", why, MANY_STEPS, NULL, SAM_WHY_STACK, 0, 0, NULL},
    {"why none", why, MANY_STEPS, NULL, SAM_WHY_STACK, 0, 0, ask_unwritten},
    {"why 6", why, MANY_STEPS, NULL, SAM_WHY_STACK, 0, 6, ask_beyond},
    {"why 10", why, MANY_STEPS, NULL, SAM_WHY_STACK, 0, 10, break_oldest},
    {"depths", judge, 0, NULL, SAM_DEPTHS_STACK, 66, 0, NULL},
    {"depths every", judge, 0, NULL, SAM_DEPTHS_STACK, 66, 0, list_every_instruction},
    {"depths 66", judge, 0, NULL, SAM_DEPTHS_STACK, 66, 66, end_at_last},
    {"depths 65", judge, 0, NULL, SAM_DEPTHS_STACK, 66, 65, forbid_last},
    {"depths 10", judge, 0, NULL, SAM_DEPTHS_STACK, 66, 10, break_last},
    {"save", save, TO_WRITECH + 1, NULL, SAM_SAVE_STACK, 0, 0, NULL},
    {"save 10", save, TO_WRITECH + 1, NULL, SAM_SAVE_STACK, 0, 10, break_last},
    {"load", load, TO_WRITECH + 1, NULL, SAM_LOAD_STACK, 0, 0, NULL},
    {"load 41", load, TO_WRITECH + 1, NULL, SAM_LOAD_STACK, 0, 41, cut_state},
    {"load 67", load, TO_WRITECH + 1, NULL, SAM_LOAD_STACK, 0, 67, announce_fewer_cells},
    {"load 10", load, TO_WRITECH + 1, NULL, SAM_LOAD_STACK, 0, 10, break_last},
    {"load 45", load, TO_WRITECH + 1, NULL, SAM_LOAD_STACK, 0, 45, lengthen_state},
    {"translate (", translate, 0, NULL, SAM_TRANSLATE_STACK, 71, 0, nest_brackets},
    {"translate -", translate, 0, NULL, SAM_TRANSLATE_STACK, 71, 0, nest_signs},
    {"translate -(", translate, 0, NULL, SAM_TRANSLATE_STACK, 71, 0, nest_both},
    {"translate +", translate, 0, NULL, SAM_TRANSLATE_STACK, 71, 0, write_long_sum},
    {"translate (+", translate, 0, NULL, SAM_TRANSLATE_STACK, 71, 0, nest_long_sum},
    {"translate (0", translate, 0, NULL, SAM_TRANSLATE_STACK, 71, 0, nest_many_digits},
    {"translate 70", translate, 0, NULL, SAM_TRANSLATE_STACK, 71, 70, refuse_byte},
    {"translate 71", translate, 0, NULL, SAM_TRANSLATE_STACK, 71, 71, refuse_end},
    {"translate 72", translate, 0, NULL, SAM_TRANSLATE_STACK, 71, 72, refuse_number},
    {"translate 73", translate, 0, NULL, SAM_TRANSLATE_STACK, 71, 73, refuse_nesting},
    {"translate 28", translate, 0, NULL, SAM_TRANSLATE_STACK, 71, 28, refuse_cost},
};

/* What request c forbids. */
static const struct row COPY = {"copy", pack_by_a_copy, 0, NULL, SAM_IMAGE_BYTES, 0, 0, NULL};

/* The bytes of a call, which must give this number. */
static size_t measured(const struct row *row, bool is_full, uint32_t expected) {
    size_t bytes = used(is_full, row);
    if (number != expected) die(row->name);
    return bytes;
}

static bool is_within(const struct row *row) {
    size_t empty = measured(row, false, row->empty), full = measured(row, true, row->full);
    bool within = empty <= row->most && full <= row->most && (row->call != pack || full <= empty);
    printf("%-12s %6zu %6zu %9zu%s\n", row->name, empty, full, row->most, within ? "" : "   TOO MUCH");
    return within;
}

int main(void) {
    bool within = true;
    printf("stack         empty  1,024   at most\n");
    for (size_t i = 0; i < sizeof ROWS / sizeof ROWS[0]; i++) within = is_within(&ROWS[i]) && within;
    if (used(true, &COPY) < SAM_IMAGE_BYTES) die("a copy of the image was not seen");
    return within ? 0 : 1;
}
