/* Tests of the C library through sam.h: the complaint of document 01, those of requests b and d, requests e to n, and
 * samples of every refusal. One line for each check. */
#include <stdbool.h>
#include <stdio.h>
#include <string.h>

#include "sam.h"

static unsigned checks, failed;

/* On one line, also where the name is a source of several. */
static void print_name(const char *name) {
    for (; *name != '\0'; name++) {
        if (*name == '\n') fputs("\\n", stdout);
        else if (*name == '\r') fputs("\\r", stdout);
        else putchar(*name);
    }
}

static void check(const char *name, uint64_t expected, uint64_t answered) {
    bool right = expected == answered;
    checks++;
    failed += !right;
    fputs(right ? "ok   " : "FAIL ", stdout);
    print_name(name);
    printf(": %llu", (unsigned long long)answered);
    if (!right) printf(", should be %llu", (unsigned long long)expected);
    putchar('\n');
}

/* ---- a program and a machine to call with */

enum { MOST_TOLD = SAM_WHY_TOLD + 2 }; /* more than any call tells */

static uint64_t table[SAM_TABLE_PLACES + 1], told[MOST_TOLD];
static uint64_t length;
static uint8_t text[SAM_TEXT_BYTES + 1], image[SAM_IMAGE_BYTES + 1];

enum { MOST_CELLS = 1030, MOST_OUTPUT = 512 }; /* more than a machine may have */

static uint64_t registers[SAM_REGISTERS + 1];
static uint32_t bits[MOST_CELLS];
static uint8_t tags[MOST_CELLS];
static uint64_t history[SAM_HISTORY_LIMIT + 1];
static uint8_t output[MOST_OUTPUT];
static size_t n, h, output_len = SAM_OUTPUT_LIMIT;

enum { MARK = 77 }; /* in lent memory, where a write is to be seen */

static void mark_told(void) {
    for (size_t i = 0; i < MOST_TOLD; i++) told[i] = MARK;
}

static void check_told_marked(size_t from) {
    for (size_t i = from; i < MOST_TOLD; i++) check("  told unchanged", MARK, told[i]);
}

static void check_told(uint64_t made, uint64_t place, uint64_t line, uint64_t column) {
    check("  length", made, told[SAM_LENGTH]);
    check("  place", place, told[SAM_PLACE]);
    check("  line", line, told[SAM_LINE]);
    check("  column", column, told[SAM_COLUMN]);
    check_told_marked(SAM_ASSEMBLE_TOLD);
}

static uint32_t assemble_bytes(const char *source, size_t size) {
    mark_told();
    uint32_t number = sam_assemble((const uint8_t *)source, size, table, SAM_TABLE_PLACES, told, SAM_ASSEMBLE_TOLD);
    length = told[SAM_LENGTH];
    return number;
}

static uint32_t assemble(const char *source) { return assemble_bytes(source, strlen(source)); }

static uint32_t reset(size_t cells, size_t places) {
    n = cells;
    h = places;
    return sam_reset(table, SAM_TABLE_PLACES, length, registers, SAM_REGISTERS, bits, n, tags, n, history, h, output,
                     output_len);
}

static uint32_t step(void) {
    return sam_step(table, SAM_TABLE_PLACES, length, registers, SAM_REGISTERS, bits, n, tags, n, history, h, output,
                    output_len);
}

static uint32_t step_back(void) {
    return sam_step_back(table, SAM_TABLE_PLACES, length, registers, SAM_REGISTERS, bits, n, tags, n, history, h,
                         output, output_len);
}

static uint32_t forget(uint64_t k) {
    return sam_forget(table, SAM_TABLE_PLACES, length, k, registers, SAM_REGISTERS, bits, n, tags, n, history, h,
                      output, output_len);
}

static uint32_t run(uint64_t limit) {
    return sam_run(table, SAM_TABLE_PLACES, length, limit, registers, SAM_REGISTERS, bits, n, tags, n, history, h,
                   output, output_len, told, 1);
}

static void begin(const char *source, size_t cells, size_t places) {
    check("  assemble", 0, assemble(source));
    check("  reset", 0, reset(cells, places));
}

static void check_cell(const char *name, size_t address, uint8_t tag, uint32_t value) {
    check(name, tag, tags[address]);
    check(name, value, bits[address]);
}

/* ---- the complaint */

static void test_complaint(void) {
    puts("the complaint: a trial over a dwell of 40 tenths, then one step-back");
    begin("PUSHIMM 40 PUSHIMMF #40200000 STOREOFF 0", 16, 6);
    check("  kept", 0, registers[SAM_KEPT]);
    check("  step", 0, step());
    check("  kept", 1, registers[SAM_KEPT]);
    check_cell("  before the trial", 0, SAM_INT, 40);
    check("  step", 0, step());
    check("  step", 0, step());
    check("  kept", 3, registers[SAM_KEPT]);
    check_cell("  after the trial", 0, SAM_FLOAT, 0x40200000);
    check("  cell place", UINT64_C(0x0000000000A00000), history[4]);
    check("  step place", UINT64_C(0x8020080000400000), history[5]);
    check("  step-back", 0, step_back());
    check_cell("  after the step-back", 0, SAM_INT, 40);
    check("  freed place", 0, history[4]);
    check("  freed place", 0, history[5]);
    check("  PC", 2, registers[SAM_PC]);
    check("  SP", 2, registers[SAM_SP]);
    check("  U", 4, registers[SAM_U]);
    check("  kept", 2, registers[SAM_KEPT]);
    check("  step-back", 0, step_back());
    check("  step-back", 0, step_back());
    check("  kept", 0, registers[SAM_KEPT]);
    check("  step-back with U = 0", 9, step_back());
    check("  kept", 0, registers[SAM_KEPT]);
}

/* ---- request b: a program got minus zero and took the wrong branch */

/* A FLOAT by arithmetic, the test of it, and the branches: 1 where it is not zero, 2 where it is. */
#define BRANCHES " JUMPC zero PUSHIMM 1 STOP zero: PUSHIMM 2 STOP"
#define EQUAL_ZERO " PUSHIMMF #00000000 EQUAL" BRANCHES
#define ZERO_EQUAL " PUSHIMMF #00000000 SWAP EQUAL" BRANCHES
#define IS_NIL " ISNIL" BRANCHES
#define MINUS_ONE_TIMES_ZERO "PUSHIMMF #BF800000 PUSHIMMF #00000000 TIMESF"
#define ZERO_BY_MINUS_ONE "PUSHIMMF #00000000 PUSHIMMF #BF800000 DIVF"
#define MINUS_ONE_TIMES_ONE "PUSHIMMF #BF800000 PUSHIMMF #3F800000 TIMESF"
#define LEAST_TIMES_MINUS_ONE "PUSHIMMF #00000001 PUSHIMMF #BF800000 TIMESF"
#define ZERO_BY_ZERO "PUSHIMMF #00000000 PUSHIMMF #80000000 DIVF"

enum { ARITHMETIC_STEPS = 3, NOT_ZERO = 1, ZERO = 2 };

static const struct { const char *source; uint32_t computed, taken; } float_branches[] = {
    {MINUS_ONE_TIMES_ZERO EQUAL_ZERO, 0x80000000, ZERO},
    {MINUS_ONE_TIMES_ZERO ZERO_EQUAL, 0x80000000, ZERO},
    {MINUS_ONE_TIMES_ZERO IS_NIL, 0x80000000, ZERO},
    {ZERO_BY_MINUS_ONE EQUAL_ZERO, 0x80000000, ZERO},
    {ZERO_BY_MINUS_ONE IS_NIL, 0x80000000, ZERO},
    {MINUS_ONE_TIMES_ONE EQUAL_ZERO, 0xBF800000, NOT_ZERO},
    {MINUS_ONE_TIMES_ONE IS_NIL, 0xBF800000, NOT_ZERO},
    {LEAST_TIMES_MINUS_ONE EQUAL_ZERO, 0x80000001, NOT_ZERO},
    {LEAST_TIMES_MINUS_ONE IS_NIL, 0x80000001, NOT_ZERO},
    {ZERO_BY_ZERO EQUAL_ZERO, 0x7FC00000, NOT_ZERO},
    {ZERO_BY_ZERO IS_NIL, 0x7FC00000, NOT_ZERO},
};

/* Runs to the end, where one INT is left. */
static void check_left(const char *name, uint32_t value) {
    check("  run", 0, run(100));
    check("  SP", 1, registers[SAM_SP]);
    check_cell(name, 0, SAM_INT, value);
}

static void test_float_branches(void) {
    for (size_t i = 0; i < sizeof float_branches / sizeof float_branches[0]; i++) {
        printf("%s\n", float_branches[i].source);
        begin(float_branches[i].source, 16, 0);
        check("  run to the float", 50, run(ARITHMETIC_STEPS));
        check_cell("  the float", 0, SAM_FLOAT, float_branches[i].computed);
        check_left("  the branch taken", float_branches[i].taken);
    }
}

/* One test of what a program pushes, and the INT that it leaves. */
static const struct { const char *source; uint32_t answer; } single_tests[] = {
    {"PUSHIMMF #00000000 PUSHIMMF #80000000 EQUAL STOP", 1},
    {"PUSHIMMF #80000000 PUSHIMMF #00000000 EQUAL STOP", 1},
    {"PUSHIMMF #80000000 PUSHIMMF #80000000 EQUAL STOP", 1},
    {"PUSHIMMF #7FC00000 PUSHIMMF #7FC00000 EQUAL STOP", 0},
    {"PUSHIMMF #7F800001 PUSHIMMF #7F800001 EQUAL STOP", 0},
    {"PUSHIMMF #FFFFFFFF PUSHIMMF #FFFFFFFF EQUAL STOP", 0},
    {"PUSHIMMF #FFC00000 PUSHIMMF #7F800000 EQUAL STOP", 0},
    {"PUSHIMMF #7F800000 PUSHIMMF #7F800000 EQUAL STOP", 1},
    {"PUSHIMMF #FF800000 PUSHIMMF #FF800000 EQUAL STOP", 1},
    {"PUSHIMMF #7F800000 PUSHIMMF #FF800000 EQUAL STOP", 0},
    {"PUSHIMMF #80000001 PUSHIMMF #80000001 EQUAL STOP", 1},
    {"PUSHIMMF #80000001 PUSHIMMF #00000001 EQUAL STOP", 0},
    {"PUSHIMMF #00000001 PUSHIMMF #80000000 EQUAL STOP", 0},
    {"PUSHIMMF #40200000 PUSHIMMF #40200000 EQUAL STOP", 1},
    {"PUSHIMMF #40200000 PUSHIMMF #C0200000 EQUAL STOP", 0},
    {"PUSHIMM 0 PUSHIMMF #00000000 EQUAL STOP", 0},
    {"PUSHIMMF #80000000 PUSHIMM -2147483648 EQUAL STOP", 0},
    {"PUSHFBR PUSHIMMF #80000000 EQUAL STOP", 0},
    {"PUSHIMMF #00000000 PUSHIMMPA 0 EQUAL STOP", 0},
    {"PUSHIMM -2147483648 PUSHIMM 0 EQUAL STOP", 0},
    {"PUSHIMM 2143289344 PUSHIMM 2143289344 EQUAL STOP", 1}, /* the bits #7FC00000 */
    {"PUSHFBR PUSHFBR EQUAL STOP", 1},
    {"PUSHIMMPA 1 PUSHIMMPA 1 EQUAL STOP", 1},
    {"PUSHIMMF #00000000 ISNIL STOP", 1},
    {"PUSHIMMF #80000000 ISNIL STOP", 1},
    {"PUSHIMMF #00000001 ISNIL STOP", 0},
    {"PUSHIMMF #80000001 ISNIL STOP", 0},
    {"PUSHIMMF #BF800000 ISNIL STOP", 0},
    {"PUSHIMMF #FF800000 ISNIL STOP", 0},
    {"PUSHIMMF #7FC00000 ISNIL STOP", 0},
    {"PUSHIMMF #FF800001 ISNIL STOP", 0},
    {"PUSHIMM 0 ISNIL STOP", 1},
    {"PUSHIMM -2147483648 ISNIL STOP", 0},
    {"PUSHFBR ISNIL STOP", 1},
    {"PUSHSP PUSHIMM -2147483648 ADD ISNIL STOP", 0},
    {"PUSHIMMPA 0 ISNIL STOP", 1},
    {"PUSHIMMPA 1 ISNIL STOP", 0},
};

static void test_single_tests(void) {
    for (size_t i = 0; i < sizeof single_tests / sizeof single_tests[0]; i++) {
        printf("%s\n", single_tests[i].source);
        begin(single_tests[i].source, 16, 0);
        check_left("  the answer", single_tests[i].answer);
    }
}

static void test_equal_back(void) {
    puts("EQUAL of minus zero and zero, then one step-back");
    begin("PUSHIMMF #80000000 PUSHIMMF #00000000 EQUAL", 16, 6);
    check("  run", 50, run(3));
    check_cell("  after EQUAL", 0, SAM_INT, 1);
    check("  cell place", UINT64_C(0x0006000000000000), history[4]);
    check("  step place", UINT64_C(0x8020080000400000), history[5]);
    check("  step-back", 0, step_back());
    check_cell("  Vb after the step-back", 0, SAM_FLOAT, 0x80000000);
    check_cell("  Vt after the step-back", 1, SAM_FLOAT, 0x00000000);
    check("  PC", 2, registers[SAM_PC]);
    check("  SP", 2, registers[SAM_SP]);
    check("  U", 4, registers[SAM_U]);
}

/* ---- request d: an address went past 32 bits and came round to a legal cell */

/* Cell 0 holds INT 5. An address of 0 goes past an end of 32 bits and comes round to 0, where it would be used; but the
 * ADD or SUB that goes past is refused, after these steps. */
static const struct { const char *source; uint64_t steps; } wrapping_addresses[] = {
    {"PUSHIMM 5 PUSHFBR PUSHIMM -2147483648 ADD PUSHIMM -2147483648 ADD PUSHIND", 5},
    {"PUSHIMM 5 PUSHFBR PUSHIMM 2147483647 ADD PUSHIMM 2147483647 ADD PUSHIMM 2 ADD PUSHIND", 5},
    {"PUSHIMM 5 PUSHFBR PUSHIMM -2147483648 ADD PUSHIMM -2147483648 ADD PUSHIMM 9 STOREIND", 5},
    {"PUSHIMM 5 PUSHFBR PUSHIMM -2147483648 ADD PUSHIMM -2147483648 ADD POPFBR", 5},
    {"PUSHIMM 5 PUSHFBR PUSHIMM -2147483648 ADD PUSHIMM -2147483648 ADD POPSP", 5},
    {"PUSHIMM 5 PUSHFBR PUSHIMM 2147483647 SUB PUSHIMM 2147483647 SUB PUSHIMM 2 SUB PUSHIND", 5},
    {"PUSHIMM 5 PUSHFBR PUSHIMM -2147483648 SUB PUSHIMM -2147483648 SUB PUSHIND", 3},
    {"PUSHIMM 5 PUSHFBR PUSHIMM -2147483648 SUB PUSHIMM -2147483648 SUB PUSHIMM 9 STOREIND", 3},
};

/* All that a call may change, as it was. */
static struct machine {
    uint64_t registers[SAM_REGISTERS], history[SAM_HISTORY_LIMIT + 1];
    uint32_t bits[MOST_CELLS];
    uint8_t tags[MOST_CELLS], output[MOST_OUTPUT];
} before;

static void remember(void) {
    memcpy(before.registers, registers, sizeof before.registers);
    memcpy(before.history, history, sizeof before.history);
    memcpy(before.bits, bits, sizeof before.bits);
    memcpy(before.tags, tags, sizeof before.tags);
    memcpy(before.output, output, sizeof before.output);
}

static void check_memory_unchanged(const char *name) {
    check(name, 0, (uint64_t)(memcmp(before.history, history, sizeof before.history) != 0));
    check(name, 0, (uint64_t)(memcmp(before.bits, bits, sizeof before.bits) != 0));
    check(name, 0, (uint64_t)(memcmp(before.tags, tags, sizeof before.tags) != 0));
    check(name, 0, (uint64_t)(memcmp(before.output, output, sizeof before.output) != 0));
}

static void check_unchanged(const char *name) {
    check(name, 0, (uint64_t)(memcmp(before.registers, registers, sizeof before.registers) != 0));
    check_memory_unchanged(name);
}

/* After a refused step: it is refused again, alone and in a run, and nothing changes. */
static void check_refused_again(uint32_t number) {
    remember();
    check("  step", number, step());
    check("  run", number, run(100));
    check("  steps of that run", 0, told[0]);
    check_unchanged("  nothing changed");
}

/* Where a step is refused at an ADD or SUB: nothing changes, however it is asked for. */
static void check_sum_refused(uint64_t steps) {
    check_refused_again(6);
    check("  PC", steps, registers[SAM_PC]);
    check("  SP", 3, registers[SAM_SP]);
    check_cell("  cell 0", 0, SAM_INT, 5);
    check("  tag of the address", SAM_MA, tags[1]);
}

/* The step before, which pushed an INT, is taken back and made again. */
static void check_back_and_again(uint64_t steps) {
    uint64_t used = registers[SAM_U];
    check("  step-back", 0, step_back());
    check("  PC", steps - 1, registers[SAM_PC]);
    check("  SP", 2, registers[SAM_SP]);
    check("  U", used - 2, registers[SAM_U]);
    check("  freed place", 0, history[used - 1]);
    check("  step", 0, step());
    check("  step", 6, step());
    check_unchanged("  as before the step-back");
}

static void test_wrapping_addresses(void) {
    for (size_t i = 0; i < sizeof wrapping_addresses / sizeof wrapping_addresses[0]; i++) {
        uint64_t steps = wrapping_addresses[i].steps;
        for (size_t places = 0; places <= 64; places += 64) {
            printf("%s, H = %zu\n", wrapping_addresses[i].source, places);
            begin(wrapping_addresses[i].source, 16, places);
            check("  run", 6, run(100));
            check("  steps", steps, told[0]);
            check_sum_refused(steps);
            if (places > 0) check_back_and_again(steps);
            else check("  step-back with H = 0", 9, step_back());
        }
    }
}

/* FBR is 0, so these are the MAs at both ends and below 0; then the INT, and what the sum or difference leaves. */
#define GREATEST "PUSHFBR PUSHIMM 2147483647 ADD "
#define LEAST "PUSHFBR PUSHIMM -2147483648 ADD "
#define BELOW_ZERO "PUSHFBR PUSHIMM 1 SUB "
#define NEXT_BELOW "PUSHFBR PUSHIMM 2 SUB "

static const struct { const char *source; uint32_t number; uint8_t tag; uint32_t left; } sums[] = {
    {GREATEST "PUSHIMM 0 ADD STOP", 0, SAM_MA, 0x7FFFFFFF},
    {GREATEST "PUSHIMM 1 ADD STOP", 6, SAM_MA, 0x7FFFFFFF},
    {GREATEST "PUSHIMM -2147483648 ADD STOP", 0, SAM_MA, 0xFFFFFFFF},
    {GREATEST "PUSHIMM 0 SUB STOP", 0, SAM_MA, 0x7FFFFFFF},
    {GREATEST "PUSHIMM -1 SUB STOP", 6, SAM_MA, 0x7FFFFFFF},
    {GREATEST "PUSHIMM 2147483647 SUB STOP", 0, SAM_MA, 0},
    {LEAST "PUSHIMM 0 ADD STOP", 0, SAM_MA, 0x80000000},
    {LEAST "PUSHIMM -1 ADD STOP", 6, SAM_MA, 0x80000000},
    {LEAST "PUSHIMM 2147483647 ADD STOP", 0, SAM_MA, 0xFFFFFFFF},
    {LEAST "PUSHIMM 0 SUB STOP", 0, SAM_MA, 0x80000000},
    {LEAST "PUSHIMM 1 SUB STOP", 6, SAM_MA, 0x80000000},
    {LEAST "PUSHIMM -2147483648 SUB STOP", 0, SAM_MA, 0},
    {BELOW_ZERO "PUSHIMM -2147483647 ADD STOP", 0, SAM_MA, 0x80000000},
    {BELOW_ZERO "PUSHIMM -2147483648 ADD STOP", 6, SAM_MA, 0xFFFFFFFF},
    {BELOW_ZERO "PUSHIMM 2147483647 SUB STOP", 0, SAM_MA, 0x80000000},
    {BELOW_ZERO "PUSHIMM -2147483648 SUB STOP", 0, SAM_MA, 0x7FFFFFFF},
    {NEXT_BELOW "PUSHIMM 2147483647 SUB STOP", 6, SAM_MA, 0xFFFFFFFE},
    {"PUSHFBR PUSHIMM 2147483647 ADD STOP", 0, SAM_MA, 0x7FFFFFFF},
    {"PUSHFBR PUSHIMM -2147483648 ADD STOP", 0, SAM_MA, 0x80000000},
    {"PUSHFBR PUSHIMM -2147483647 SUB STOP", 0, SAM_MA, 0x7FFFFFFF},
    {"PUSHFBR PUSHIMM -2147483648 SUB STOP", 6, SAM_MA, 0},
    {"PUSHIMM 2147483647 PUSHIMM 1 ADD STOP", 0, SAM_INT, 0x80000000}, /* two INTs wrap */
    {"PUSHIMM -2147483648 PUSHIMM -1 ADD STOP", 0, SAM_INT, 0x7FFFFFFF},
    {"PUSHIMM -2147483648 PUSHIMM -2147483648 ADD STOP", 0, SAM_INT, 0},
    {"PUSHIMM -2147483648 PUSHIMM 1 SUB STOP", 0, SAM_INT, 0x7FFFFFFF},
    {"PUSHIMM 2147483647 PUSHIMM -1 SUB STOP", 0, SAM_INT, 0x80000000},
    {"PUSHIMM 0 PUSHIMM -2147483648 SUB STOP", 0, SAM_INT, 0x80000000},
};

static void test_sums(void) {
    for (size_t i = 0; i < sizeof sums / sizeof sums[0]; i++) {
        printf("%s\n", sums[i].source);
        begin(sums[i].source, 16, 0);
        check("  run", sums[i].number, run(100));
        check_cell("  cell 0", 0, sums[i].tag, sums[i].left);
    }
}

/* ---- request e: decimals, ITOF and FTOI */

/* A decimal and the bits that it becomes. */
static const struct { const char *decimal; uint32_t made; } decimals[] = {
    {"2.5", 0x40200000},
    {"-2.5", 0xC0200000},
    {"000002.50", 0x40200000},
    {"0.0", 0x00000000},
    {"-0.0", 0x80000000},
    {"-0.00000000", 0x80000000},
    {"1.0", 0x3F800000},
    {"10.0", 0x41200000},
    {"40.0", 0x42200000},
    {"1000000.0", 0x49742400},
    {"0.1", 0x3DCCCCCD},
    {"0.01", 0x3C23D70A},
    {"0.00000001", 0x322BCC77},
    {"0.00390625", 0x3B800000}, /* 2^-8 */
    {"3.14159265", 0x40490FDB},
    {"0.33333333", 0x3EAAAAAB},
    {"0.99999997", 0x3F7FFFFF},
    {"0.99999998", 0x3F800000},
    {"4194304.24", 0x4A800000}, /* from 2^22 half a unit from one to the next */
    {"4194304.25", 0x4A800000},
    {"4194304.26", 0x4A800001},
    {"4194304.74", 0x4A800001},
    {"4194304.75", 0x4A800002},
    {"8388607.75", 0x4B000000},
    {"8388608.5", 0x4B000000}, /* from 2^23 a whole one */
    {"8388608.51", 0x4B000001},
    {"8388609.49", 0x4B000001},
    {"8388609.5", 0x4B000002},
    {"16777215.5", 0x4B800000},
    {"16777216.9", 0x4B800000}, /* from 2^24 two */
    {"16777217.0", 0x4B800000},
    {"16777217.1", 0x4B800001},
    {"16777218.9", 0x4B800001},
    {"16777219.0", 0x4B800002},
    {"-16777217.0", 0xCB800000},
    {"-16777217.1", 0xCB800001},
    {"33554431.0", 0x4C000000},
    {"33554434.0", 0x4C000000}, /* from 2^25 four */
    {"33554438.0", 0x4C000002},
    {"67108868.0", 0x4C800000}, /* from 2^26 eight */
    {"67108876.0", 0x4C800002},
    {"99999999.9", 0x4CBEBC20}, /* 10^8 */
    {"1.00325948", 0x3F806ACF}, /* above a tie by less than 2^-40 */
    {"1.00064677", 0x3F801531}, /* as little below one */
};

static void test_decimals(void) {
    char source[64];
    puts("decimals, and the bits that they become");
    for (size_t i = 0; i < sizeof decimals / sizeof decimals[0]; i++) {
        sprintf(source, "PUSHIMMF %s", decimals[i].decimal);
        check(source, 0, assemble(source));
        check_told(1, 0, 0, 0);
        check("  place 0", UINT64_C(2) << 32 | decimals[i].made, table[0]);
        check("  reset", 0, reset(2, 0));
        check("  step", 0, step());
        check_cell("  cell 0", 0, SAM_FLOAT, decimals[i].made);
    }
}

static uint32_t list(void) { return sam_list(table, SAM_TABLE_PLACES, length, text, SAM_TEXT_BYTES, told, 1); }

static void test_decimals_listed(void) {
    static uint64_t first[SAM_TABLE_PLACES];
    const char *listing = "PUSHIMMF #40200000\nPUSHIMMF #80000000\nPUSHIMMF #4B800000\nITOF\nFTOI\n";
    puts("listings write bits");
    check("  assemble", 0, assemble("PUSHIMMF 2.5 PUSHIMMF -0.0 PUSHIMMF 16777217.0 ITOF FTOI"));
    check("  code of ITOF", UINT64_C(50) << 32, table[3]);
    check("  code of FTOI", UINT64_C(51) << 32, table[4]);
    memcpy(first, table, sizeof first);
    check("  list", 0, list());
    check("  length", strlen(listing), told[0]);
    check("  the text", 0, (uint64_t)(memcmp(text, listing, strlen(listing)) != 0));
    check("  the rest zero", 0, text[strlen(listing)]);
    check("  assemble again", 0, assemble_bytes((const char *)text, strlen(listing)));
    check("  length", 5, length);
    check("  the same table", 0, (uint64_t)(memcmp(first, table, sizeof first) != 0));
}

/* What ITOF or FTOI makes of the value that the source pushes. */
static const struct { const char *source; uint8_t tag; uint32_t made; } conversions[] = {
    {"PUSHIMM 0 ITOF", SAM_FLOAT, 0x00000000},
    {"PUSHIMM 1 ITOF", SAM_FLOAT, 0x3F800000},
    {"PUSHIMM -1 ITOF", SAM_FLOAT, 0xBF800000},
    {"PUSHIMM 40 ITOF", SAM_FLOAT, 0x42200000},
    {"PUSHIMM 16777216 ITOF", SAM_FLOAT, 0x4B800000},
    {"PUSHIMM 16777217 ITOF", SAM_FLOAT, 0x4B800000}, /* ties */
    {"PUSHIMM 16777219 ITOF", SAM_FLOAT, 0x4B800002},
    {"PUSHIMM -16777219 ITOF", SAM_FLOAT, 0xCB800002},
    {"PUSHIMM 33554431 ITOF", SAM_FLOAT, 0x4C000000},
    {"PUSHIMM 1073741888 ITOF", SAM_FLOAT, 0x4E800000},
    {"PUSHIMM 1073741889 ITOF", SAM_FLOAT, 0x4E800001},
    {"PUSHIMM 2147483583 ITOF", SAM_FLOAT, 0x4EFFFFFF},
    {"PUSHIMM 2147483584 ITOF", SAM_FLOAT, 0x4F000000}, /* a tie, up to 2^31 */
    {"PUSHIMM 2147483647 ITOF", SAM_FLOAT, 0x4F000000},
    {"PUSHIMM -2147483648 ITOF", SAM_FLOAT, 0xCF000000},
    {"PUSHIMMF 0.0 FTOI", SAM_INT, 0},
    {"PUSHIMMF -0.0 FTOI", SAM_INT, 0},
    {"PUSHIMMF 0.5 FTOI", SAM_INT, 0},
    {"PUSHIMMF -0.5 FTOI", SAM_INT, 0},
    {"PUSHIMMF 0.9999999 FTOI", SAM_INT, 0},
    {"PUSHIMMF -0.9999999 FTOI", SAM_INT, 0},
    {"PUSHIMMF #00000001 FTOI", SAM_INT, 0},
    {"PUSHIMMF 1.5 FTOI", SAM_INT, 1},
    {"PUSHIMMF 2.5 FTOI", SAM_INT, 2},
    {"PUSHIMMF 2.75 FTOI", SAM_INT, 2},
    {"PUSHIMMF -1.5 FTOI", SAM_INT, 0xFFFFFFFF},
    {"PUSHIMMF -2.75 FTOI", SAM_INT, 0xFFFFFFFE},
    {"PUSHIMMF 8388607.5 FTOI", SAM_INT, 8388607},
    {"PUSHIMMF #4B800001 FTOI", SAM_INT, 16777218},
    {"PUSHIMMF #4EFFFFFF FTOI", SAM_INT, 2147483520}, /* the last within INT */
    {"PUSHIMMF #CEFFFFFF FTOI", SAM_INT, 0x80000080},
    {"PUSHIMMF #CF000000 FTOI", SAM_INT, 0x80000000},
    {"PUSHIMM 16777217 ITOF FTOI", SAM_INT, 16777216},
    {"PUSHIMM -2147483648 ITOF FTOI", SAM_INT, 0x80000000},
};

static void test_conversions(void) {
    for (size_t i = 0; i < sizeof conversions / sizeof conversions[0]; i++) {
        printf("%s\n", conversions[i].source);
        begin(conversions[i].source, 2, 0);
        check("  run to the end", 2, run(100));
        check("  SP", 1, registers[SAM_SP]);
        check_cell("  cell 0", 0, conversions[i].tag, conversions[i].made);
    }
}

/* Refused at the last instruction, after these steps. */
static const struct { const char *source; uint32_t number; uint64_t steps; } refused_conversions[] = {
    {"PUSHIMMF #4F000000 FTOI", 5, 1}, /* 2147483648.0 */
    {"PUSHIMMF #CF000001 FTOI", 5, 1}, /* the first below -2147483648.0 */
    {"PUSHIMM 2147483647 ITOF FTOI", 5, 2},
    {"PUSHIMMF #7F7FFFFF FTOI", 5, 1},
    {"PUSHIMMF #7F800000 FTOI", 5, 1},
    {"PUSHIMMF #FF800000 FTOI", 5, 1},
    {"PUSHIMMF #7FC00000 FTOI", 5, 1},
    {"PUSHIMMF #7F800001 FTOI", 5, 1},
    {"PUSHIMMF #FFFFFFFF FTOI", 5, 1},
    {"ITOF", 3, 0},
    {"FTOI", 3, 0},
    {"PUSHIMMF 2.5 ITOF", 4, 1},
    {"PUSHSP ITOF", 4, 1},
    {"PUSHIMMPA 0 ITOF", 4, 1},
    {"PUSHIMM 1 FTOI", 4, 1},
    {"PUSHIMM 2143289344 FTOI", 4, 1}, /* the bits #7FC00000: 4 before 5 */
    {"PUSHSP FTOI", 4, 1},
    {"PUSHIMMPA 0 FTOI", 4, 1},
};

static void test_refused_conversions(void) {
    for (size_t i = 0; i < sizeof refused_conversions / sizeof refused_conversions[0]; i++) {
        for (size_t places = 0; places <= 5; places += 5) {
            printf("%s, H = %zu\n", refused_conversions[i].source, places);
            begin(refused_conversions[i].source, 16, places);
            check("  run", refused_conversions[i].number, run(100));
            check("  steps", refused_conversions[i].steps, told[0]);
            check("  PC", refused_conversions[i].steps, registers[SAM_PC]);
            check_refused_again(refused_conversions[i].number);
        }
    }
    puts("room for one place, where two are needed");
    begin("PUSHIMM 1 ITOF", 16, 3);
    check("  run", 8, run(100));
    begin("PUSHIMMF 2.5 FTOI", 16, 3);
    check("  run", 8, run(100));
    begin("PUSHIMMF #7FC00000 FTOI", 16, 3);
    check("  5 before 8", 5, run(100));
}

static void test_conversions_back(void) {
    puts("16777217 to FLOAT and back to INT, then two step-backs");
    begin("PUSHIMM 16777217 ITOF FTOI", 16, 6);
    check("  run", 50, run(3));
    check_cell("  after FTOI", 0, SAM_INT, 16777216);
    check("  cell place of ITOF", UINT64_C(0x0000040000040000), history[2]);
    check("  step place of ITOF", UINT64_C(0x8010040000400000), history[3]);
    check("  cell place of FTOI", UINT64_C(0x00052E0000000000), history[4]);
    check("  step place of FTOI", UINT64_C(0x8020040000400000), history[5]);
    check("  step-back", 0, step_back());
    check_cell("  before FTOI", 0, SAM_FLOAT, 0x4B800000);
    check("  step-back", 0, step_back());
    check_cell("  before ITOF", 0, SAM_INT, 16777217);
    check("  PC", 1, registers[SAM_PC]);
    check("  SP", 1, registers[SAM_SP]);
    check("  U", 2, registers[SAM_U]);
    check("  freed place", 0, history[2]);
    check("  freed place", 0, history[5]);
    check("  run again", 50, run(2));
    check_cell("  after FTOI", 0, SAM_INT, 16777216);
}

/* ---- request f: the dwell reader of the door board */

static uint32_t dwell(void) {
    return sam_dwell(table, SAM_TABLE_PLACES, length, registers, SAM_REGISTERS, bits, n, tags, n, history, h, output,
                     output_len, told, 1);
}

/* The number and the tenths, and that nothing else is written. */
static void check_dwell(const char *name, uint32_t number, uint64_t tenths) {
    static uint64_t table_before[SAM_TABLE_PLACES];
    remember();
    memcpy(table_before, table, sizeof table_before);
    mark_told();
    check(name, number, dwell());
    check("  tenths", tenths, told[0]);
    check_told_marked(1);
    check_unchanged("  nothing written");
    check("  nothing written", 0, (uint64_t)(memcmp(table_before, table, sizeof table_before) != 0));
}

/* How many of these bytes have another value. */
static uint64_t others(const uint8_t *bytes, size_t count, uint8_t value) {
    uint64_t found = 0;
    for (size_t i = 0; i < count; i++) found += bytes[i] != value;
    return found;
}

static uint8_t state[SAM_STATE_BYTES + 1]; /* where states are saved */

/* A save with these lengths, into an image where a write is seen. */
static uint32_t save_with(size_t registers_len, size_t image_len, size_t told_len) {
    remember();
    mark_told();
    memset(state, MARK, sizeof state);
    return sam_save(table, SAM_TABLE_PLACES, length, registers, registers_len, bits, n, tags, n, history, h, output,
                    output_len, state, image_len, told, told_len);
}

/* "Refused writers leave an output of wrong length untouched, zero one of right length and tell length 0." */
static void check_not_saved(const char *name, size_t registers_len, size_t image_len, size_t told_len,
                            uint32_t number) {
    size_t zeroed = image_len == SAM_STATE_BYTES ? SAM_STATE_BYTES : 0;
    check(name, number, save_with(registers_len, image_len, told_len));
    if (told_len == 1) check("  length", 0, told[0]);
    check_told_marked(told_len == 1);
    check("  bytes not zero where the image's length is right", 0, others(state, zeroed, 0));
    check("  bytes changed elsewhere", 0, others(state + zeroed, sizeof state - zeroed, MARK));
    check_unchanged("  nothing else written");
}

static uint32_t why_with(uint64_t cell, size_t registers_len, size_t told_len) {
    return sam_why(table, SAM_TABLE_PLACES, length, cell, registers, registers_len, bits, n, tags, n, history, h,
                   output, output_len, told, told_len);
}

/* What a why tells. */
struct wrote {
    uint64_t found, steps_back, pc, place, tag, value;
};

static const struct wrote NONE_WROTE = {0, 0, 0, 0, 0, 0};

static void check_wrote(struct wrote expected) {
    check("  found", expected.found, told[SAM_FOUND]);
    check("  steps back", expected.steps_back, told[SAM_STEPS_BACK]);
    check("  its PC", expected.pc, told[SAM_STEP_PC]);
    check("  the instruction", expected.place, told[SAM_INSTRUCTION]);
    check("  the tag before", expected.tag, told[SAM_OLD_TAG]);
    check("  the bits before", expected.value, told[SAM_OLD_BITS]);
    check_told_marked(SAM_WHY_TOLD);
}

/* The number and what is told, and that nothing else is written. */
static void check_why(const char *name, uint64_t cell, uint32_t number, struct wrote expected) {
    static uint64_t table_before[SAM_TABLE_PLACES];
    remember();
    memcpy(table_before, table, sizeof table_before);
    mark_told();
    check(name, number, why_with(cell, SAM_REGISTERS, SAM_WHY_TOLD));
    check_wrote(expected);
    check_unchanged("  nothing written");
    check("  nothing written", 0, (uint64_t)(memcmp(table_before, table, sizeof table_before) != 0));
}

/* A program, and the tenths read where it has halted. */
static const struct { const char *source; uint64_t tenths; } dwells[] = {
    {"PUSHIMM 40 STOP", 40},
    {"PUSHIMM 10 STOP", 10},
    {"PUSHIMM 11 STOP", 11},
    {"PUSHIMM 299 STOP", 299},
    {"PUSHIMM 300 STOP", 300},
    {"PUSHIMM 9 STOP", 10}, /* held at the ends */
    {"PUSHIMM 0 STOP", 10},
    {"PUSHIMM -1 STOP", 10},
    {"PUSHIMM -40 STOP", 10},
    {"PUSHIMM -2147483648 STOP", 10},
    {"PUSHIMM 301 STOP", 300},
    {"PUSHIMM 65576 STOP", 300},
    {"PUSHIMM 2147483647 STOP", 300},
    {"PUSHIMM 2143289344 STOP", 300}, /* the bits #7FC00000: no NaN, but an INT */
    {"PUSHIMM -4194304 STOP", 10},    /* #FFC00000 */
    {"PUSHIMMF 2.5 STOP", 25},
    {"PUSHIMMF 2.3 STOP", 22}, /* binary32's 2.3 lies below it, */
    {"PUSHIMMF 2.4 STOP", 24}, /* and its 2.4 above */
    {"PUSHIMMF #40133334 STOP", 23},
    {"PUSHIMMF 4.0 STOP", 40},
    {"PUSHIMM 4 ITOF STOP", 40},
    {"PUSHIMMF 1.0 STOP", 10},
    {"PUSHIMMF #3F8CCCCC STOP", 10}, /* the last below 1.1, and the first above */
    {"PUSHIMMF #3F8CCCCD STOP", 11},
    {"PUSHIMMF #417FFFFF STOP", 159}, /* the last below 16.0 */
    {"PUSHIMMF 16.0 STOP", 160},
    {"PUSHIMMF 29.9 STOP", 298},
    {"PUSHIMMF #41EFFFFF STOP", 299}, /* the last below 30.0 */
    {"PUSHIMMF 30.0 STOP", 300},
    {"PUSHIMMF #3F7FFFFF STOP", 10}, /* held at the ends */
    {"PUSHIMMF 0.9 STOP", 10},
    {"PUSHIMMF #00000001 STOP", 10},
    {"PUSHIMMF 0.0 STOP", 10},
    {"PUSHIMMF -0.0 STOP", 10},
    {"PUSHIMMF #80000001 STOP", 10},
    {"PUSHIMMF -2.5 STOP", 10},
    {"PUSHIMMF #FF7FFFFF STOP", 10},
    {"PUSHIMMF #41F00001 STOP", 300},
    {"PUSHIMMF 30.1 STOP", 300},
    {"PUSHIMMF #4DCCCCCD STOP", 300}, /* 2^32 tenths */
    {"PUSHIMMF #7F7FFFFF STOP", 300},
    {"PUSHIMMF #7F800000 STOP", 300}, /* infinities */
    {"PUSHIMMF #FF800000 STOP", 10},
    {"PUSHIMMF #00000028 STOP", 10}, /* the bits of INT 40 */
    {"PUSHIMM 40 PUSHIMM 70 STOP", 40}, /* cell 0, not the top, */
    {"PUSHIMM 40 LINK PUSHIMM 70 STOP", 40}, /* nor where FBR is */
    {"PUSHIMM 40 PUSHIMMF #7FC00000 STOP", 40},
};

static void test_dwells(void) {
    puts("the ends of a dwell");
    check("  shortest", 10, SAM_DWELL_SHORTEST);
    check("  longest", 300, SAM_DWELL_LONGEST);
    for (size_t i = 0; i < sizeof dwells / sizeof dwells[0]; i++) {
        for (size_t places = 0; places <= 16; places += 16) {
            printf("%s, H = %zu\n", dwells[i].source, places);
            begin(dwells[i].source, 16, places);
            check("  run", 0, run(100));
            check_dwell("  dwell", 0, dwells[i].tenths);
        }
    }
}

/* A program, the number that ends its run, and the refusal of the reader there. */
static const struct { const char *source; uint32_t ending, number; } refused_dwells[] = {
    {"PUSHIMM 40", 2, 60}, /* off the end, where HALT is 0 */
    {"", 2, 60},
    {"PUSHIMM 40 ADD STOP", 3, 60},
    {"PUSHIMM 40 a: JUMP a", 50, 60},
    {"PUSHIMMF #7FC00000 PUSHSP ADD STOP", 4, 60},
    {"STOP", 0, 61},
    {"PUSHIMM 40 ADDSP -1 STOP", 0, 61}, /* the popped value is there, but no longer live */
    {"PUSHSP POPSP STOP", 0, 61},
    {"PUSHSP STOP", 0, 62},
    {"LINK STOP", 0, 62},
    {"PUSHIMMPA 0 STOP", 0, 62},
    {"JSR 1 STOP", 0, 62},
    {"PUSHSP PUSHIMM 40 STOP", 0, 62},
    {"PUSHIMMCH 40 STOP", 0, 62},
    {"PUSHIMMF #7FC00000 STOP", 0, 63},
    {"PUSHIMMF #7F800001 STOP", 0, 63},
    {"PUSHIMMF #7FFFFFFF STOP", 0, 63},
    {"PUSHIMMF #FF800001 STOP", 0, 63},
    {"PUSHIMMF #FFC00000 STOP", 0, 63},
    {"PUSHIMMF #FFFFFFFF STOP", 0, 63},
    {"PUSHIMMF 0.0 PUSHIMMF 0.0 DIVF STOP", 0, 63},
};

static void test_refused_dwells(void) {
    for (size_t i = 0; i < sizeof refused_dwells / sizeof refused_dwells[0]; i++) {
        printf("%s\n", refused_dwells[i].source);
        begin(refused_dwells[i].source, 16, 0);
        check("  run", refused_dwells[i].ending, run(100));
        check_dwell("  dwell", refused_dwells[i].number, 0);
    }
}

/* What the reader looks at after 10: HALT, SP and cell 0; then its number and the tenths. */
static const struct {
    const char *name;
    uint64_t halt, sp;
    uint8_t tag;
    uint32_t value, number;
    uint64_t tenths;
} orders[] = {
    {"  60 before 61 and 62", 0, 0, SAM_MA, 0x7FC00000, 60, 0},
    {"  60 before 61 and 63", 0, 0, SAM_FLOAT, 0x7FC00000, 60, 0},
    {"  60 before 62", 0, 1, SAM_MA, 0x7FC00000, 60, 0},
    {"  60 before 63", 0, 1, SAM_FLOAT, 0x7FC00000, 60, 0},
    {"  61 before 62", 1, 0, SAM_MA, 0x7FC00000, 61, 0},
    {"  61 before 63", 1, 0, SAM_FLOAT, 0x7FC00000, 61, 0},
    {"  62 before 63", 1, 1, SAM_MA, 0x7FC00000, 62, 0},
    {"  63", 1, 1, SAM_FLOAT, 0x7FC00000, 63, 0},
    {"  read", 1, 1, SAM_FLOAT, 0x40200000, 0, 25},
};

/* Each as it is, and with 10 by a tag above SP. */
static void test_order_of_dwell(void) {
    puts("10, then 60, 61, 62 and 63 of a dwell");
    begin("PUSHIMM 40 STOP", 4, 8);
    for (size_t i = 0; i < sizeof orders / sizeof orders[0]; i++) {
        registers[SAM_HALT] = orders[i].halt;
        registers[SAM_SP] = orders[i].sp;
        tags[0] = orders[i].tag;
        bits[0] = orders[i].value;
        check_dwell(orders[i].name, orders[i].number, orders[i].tenths);
        tags[3] = 5;
        check_dwell("  10 before that", 10, 0);
        tags[3] = SAM_INT;
    }
}

/* Only the length of the history and U are judged, as for a step. */
static void test_dwell_with_any_history(void) {
    puts("a dwell with a history that a step-back refuses");
    begin("PUSHIMM 40 STOP", 4, 8);
    check("  run", 0, run(100));
    memset(history, 0xFF, 8 * sizeof history[0]);
    registers[SAM_KEPT] = 1;
    for (uint64_t used = 1; used <= 8; used++) {
        registers[SAM_U] = used;
        check("  step-back", 10, step_back());
        check("  step", 1, step());
        check_dwell("  dwell", 0, 40);
    }
    registers[SAM_U] = 9;
    check_dwell("  U above H", 10, 0);
    registers[SAM_U] = 8;
    for (uint64_t pc = 0; pc <= 2; pc++) {
        registers[SAM_PC] = pc;
        check_dwell("  PC anywhere", 0, 40);
    }
    registers[SAM_PC] = 3;
    check_dwell("  PC above the length", 10, 0);
}

static uint32_t dwell_with(size_t registers_len, size_t tags_len, size_t places, size_t told_len) {
    return sam_dwell(table, places, length, registers, registers_len, bits, n, tags, tags_len, history, h, output,
                     output_len, told, told_len);
}

static void test_lengths_of_dwell(void) {
    puts("a dwell with told, registers, tags and table of another length");
    begin("PUSHIMM 40 STOP", 4, 8);
    check("  run", 0, run(100));
    mark_told();
    remember();
    for (size_t told_len = 0; told_len <= SAM_ASSEMBLE_TOLD + 1; told_len++) {
        if (told_len == 1) continue;
        check("  told", 31, dwell_with(SAM_REGISTERS, n, SAM_TABLE_PLACES, told_len));
        check("  31 before 10", 31, dwell_with(6, n, SAM_TABLE_PLACES, told_len));
        check("  31 before 10", 31, dwell_with(SAM_REGISTERS, n - 1, 0, told_len));
    }
    check_told_marked(0);
    for (size_t registers_len = 0; registers_len <= SAM_REGISTERS + 1; registers_len++) {
        if (registers_len == SAM_REGISTERS) continue;
        mark_told();
        check("  registers", 10, dwell_with(registers_len, n, SAM_TABLE_PLACES, 1));
        check("  tenths", 0, told[0]);
        check_told_marked(1);
    }
    mark_told();
    check("  one tag too few", 10, dwell_with(SAM_REGISTERS, n - 1, SAM_TABLE_PLACES, 1));
    check("  tenths", 0, told[0]);
    mark_told();
    check("  1,023 places", 10, dwell_with(SAM_REGISTERS, n, SAM_TABLE_PLACES - 1, 1));
    check("  tenths", 0, told[0]);
    check_unchanged("  nothing written");
    check_dwell("  all of the right length", 0, 40);
}

#define DOORS "PUSHIMM 40 STOP"
#define TRIAL "PUSHIMM 40 PUSHIMMF 2.5 STOREOFF 0 STOP"

/* The trial's three steps, newest first: STOP, STOREOFF and PUSHIMMF. */
static void take_trial_back(void) {
    check("  STOP taken back", 0, step_back());
    check_cell("  cell 0", 0, SAM_FLOAT, 0x40200000);
    check_dwell("  not halted", 60, 0);
    check("  STOREOFF taken back", 0, step_back());
    check_cell("  cell 0", 0, SAM_INT, 40);
    check_dwell("  not halted", 60, 0);
    check("  PUSHIMMF taken back", 0, step_back());
    check("  kept", 1, registers[SAM_KEPT]);
    check_cell("  cell 0", 0, SAM_INT, 40);
    check_cell("  cell 1", 1, SAM_INT, 0);
    check_dwell("  not halted", 60, 0);
}

/* The machine in use before left the tag of the trial over the bits of 40: a FLOAT near zero, and doors closed. */
static void test_complaint_at_the_doors(void) {
    static struct machine first;
    puts("the complaint at the doors: 40 tenths, a trial of 2.5 seconds, and back");
    begin(DOORS, 16, 16);
    check("  run", 0, run(100));
    check("  kept", 2, registers[SAM_KEPT]);
    check_dwell("  read", 0, 40);
    remember();
    first = before;
    check("  STOP taken back", 0, step_back());
    check_dwell("  not halted", 60, 0);
    check("  assemble the trial", 0, assemble(TRIAL));
    check("  run the trial", 0, run(100));
    check("  steps", 3, told[0]);
    check("  kept", 4, registers[SAM_KEPT]);
    check_cell("  cell 0", 0, SAM_FLOAT, 0x40200000);
    check_dwell("  read", 0, 25);
    take_trial_back();
    check("  assemble the program", 0, assemble(DOORS));
    check("  run", 0, run(100));
    check("  steps", 1, told[0]);
    before = first;
    check_unchanged("  as the first time");
    check_dwell("  read", 0, 40);
    tags[0] = SAM_FLOAT;
    check_dwell("  what the machine before left", 0, 10);
}

/* ---- request g: how many steps can be taken back */

static void check_count(const char *name, uint64_t kept, uint64_t used) {
    check(name, kept, registers[SAM_KEPT]);
    check("  U", used, registers[SAM_U]);
}

/* Seven steps, whose records are of 2, 2, 3, 2, 1, 3 and 1 places; and U after so many of them. */
#define SEVEN_STEPS "PUSHIMM 1 DUP SWAP ADD JUMP 5 ADDSP 2 STOP"

static const uint64_t used_after[] = {0, 2, 4, 7, 9, 10, 13, 14};

static void test_kept_of_steps(void) {
    puts("the kept number after a reset, each step, and each step-back");
    begin(SEVEN_STEPS, 16, 14);
    check_count("  kept", 0, 0);
    for (uint64_t kept = 1; kept <= 7; kept++) {
        check("  step", 0, step());
        check_count("  kept", kept, used_after[kept]);
    }
    check("  step with HALT 1", 1, step());
    check_count("  kept", 7, 14);
    for (uint64_t kept = 7; kept-- > 0;) {
        check("  step-back", 0, step_back());
        check_count("  kept", kept, used_after[kept]);
    }
    check("  step-back with U = 0", 9, step_back());
    check_count("  kept", 0, 0);
}

static void test_kept_without_history(void) {
    puts("the kept number with H = 0");
    begin(SEVEN_STEPS, 16, 0);
    for (uint64_t steps = 1; steps <= 3; steps++) {
        check("  step", 0, step());
        check_count("  kept", 0, 0);
    }
    check("  run", 0, run(100));
    check("  steps", 4, told[0]);
    check_count("  kept", 0, 0);
    check("  step-back", 9, step_back());
    check_count("  kept", 0, 0);
}

/* A run, the number that ends it, its steps, and what is kept then, on the same machine. */
static const struct { uint64_t limit; uint32_t number; uint64_t steps, kept; } counted_runs[] = {
    {0, 50, 0, 0}, {3, 50, 3, 3}, {0, 50, 0, 3}, {1, 50, 1, 4}, {1000001, 11, 0, 4}, {100, 0, 3, 7}, {100, 0, 0, 7},
};

/* A run of a source that is refused, with its number and its steps: those that are kept with a history. */
static const struct { const char *source; size_t cells; uint32_t number; uint64_t steps; } refused_runs[] = {
    {"PUSHIMM 1 PUSHIMM 2", 16, 2, 2},
    {"PUSHIMM 1 ADD", 16, 3, 1},
    {"PUSHIMM 1 PUSHSP ADD", 16, 4, 2},
    {"PUSHIMM 1 PUSHIMM 0 DIV", 16, 5, 2},
    {"PUSHSP PUSHIND", 16, 6, 1},
    {"PUSHIMM 1 PUSHIMM 1 PUSHIMM 1", 3, 7, 2},
    {"JUMP 1 PUSHIMM 1 PUSHIMM 1 PUSHIMM 1", 16, 8, 3}, /* records of 1, 2 and 2 places, and one of 2 over */
    {"ADD", 16, 3, 0},
};

static void test_kept_of_runs(void) {
    puts("the kept number after runs");
    begin(SEVEN_STEPS, 16, 14);
    for (size_t i = 0; i < sizeof counted_runs / sizeof counted_runs[0]; i++) {
        check("  run", counted_runs[i].number, run(counted_runs[i].limit));
        check("  steps", counted_runs[i].steps, told[0]);
        check_count("  kept", counted_runs[i].kept, used_after[counted_runs[i].kept]);
    }
    for (size_t i = 0; i < sizeof refused_runs / sizeof refused_runs[0]; i++) {
        printf("%s\n", refused_runs[i].source);
        begin(refused_runs[i].source, refused_runs[i].cells, 6);
        check("  run", refused_runs[i].number, run(100));
        check("  steps", refused_runs[i].steps, told[0]);
        check("  kept", refused_runs[i].steps, registers[SAM_KEPT]);
        check_refused_again(refused_runs[i].number);
    }
}

/* The step places among the first U: those with mark 1. */
static uint64_t step_places(void) {
    uint64_t count = 0;
    for (uint64_t i = 0; i < registers[SAM_U]; i++) count += history[i] >> 63;
    return count;
}

/* A series of calls from a reset, as a screen makes them by its keys: S and B are kept beside. */
static void test_kept_of_series(void) {
    uint64_t steps = 0, backs = 0;
    puts("the kept number is S minus B, the count of step places, and that of the step-backs that are accepted");
    begin("a: PUSHIMM 1 PUSHIMM 2 SWAP ADDSP -2 JUMP a", 16, 40);
    for (unsigned i = 0; i < 60; i++) {
        if (i % 7 == 3) {
            run(i % 5);
            steps += told[0];
        } else if (i % 3 == 2) {
            backs += step_back() == 0;
        } else {
            steps += step() == 0;
        }
        check("  S minus B", steps - backs, registers[SAM_KEPT]);
        check("  step places", step_places(), registers[SAM_KEPT]);
    }
    for (uint64_t kept = steps - backs; kept-- > 0;) check("  step-back", 0, step_back());
    check("  step-back", 9, step_back());
    check_count("  kept", 0, 0);
}

/* Records made by hand, of a step with SP 1: one that wrote no cell, and one that wrote cell 0, where INT 40 stood. */
#define STEP_PLACE (UINT64_C(1) << 63 | UINT64_C(1) << 42)
static const uint64_t short_record[] = {STEP_PLACE}, long_record[] = {UINT64_C(40) << 18, STEP_PLACE | 1 << 22};

/* A machine with such records from the top of its places in use down, and any kept number. */
static void make_by_hand(size_t places, uint64_t used, uint64_t kept, const uint64_t *record, uint64_t size) {
    begin("JUMP 1 STOP", 4, places);
    for (uint64_t i = 1; i <= used; i++) history[used - i] = record[size - 1 - (i - 1) % size];
    registers[SAM_SP] = 1;
    registers[SAM_U] = used;
    registers[SAM_KEPT] = kept;
}

/* 10 from every call that asks for a sound state, and nothing changed. */
static void check_all_refused(void) {
    remember();
    check("  step", 10, step());
    check("  step-back", 10, step_back());
    check("  forget", 10, forget(0));
    check("  10 before 14", 10, forget(UINT64_MAX));
    for (uint64_t limit = 0; limit <= 9; limit += 9) {
        mark_told();
        check("  run", 10, run(limit));
        check("  steps", 0, told[0]);
        check_told_marked(1);
    }
    check("  11 before 10", 11, run(1000001));
    check_unchanged("  nothing changed");
    check_dwell("  dwell", 10, 0);
    check_why("  why", 0, 10, NONE_WROTE);
    check_why("  10 before 6", UINT64_MAX, 10, NONE_WROTE);
    check_not_saved("  save", SAM_REGISTERS, SAM_STATE_BYTES, 1, 10);
}

/* H, U and a kept number above U, or 0 with U above 0. */
static const struct { size_t places; uint64_t used, kept; } broken_counts[] = {
    {0, 0, 1}, {0, 0, UINT64_C(1) << 63}, {0, 0, UINT64_MAX}, {8, 0, 1}, {8, 0, 8}, {8, 0, UINT64_MAX}, {8, 1, 0},
    {8, 1, 2}, {8, 4, 0}, {8, 4, 5}, {8, 4, 8}, {8, 4, 9}, {8, 4, UINT64_C(1) << 63}, {8, 4, UINT64_MAX},
    {8, 4, (UINT64_C(1) << 32) + 4}, {8, 8, 0}, {8, 8, 9}, {8192, 8192, 0}, {8192, 8192, 8193},
};

static void test_broken_counts(void) {
    for (size_t i = 0; i < sizeof broken_counts / sizeof broken_counts[0]; i++) {
        printf("H = %zu, U = %llu, kept %llu\n", broken_counts[i].places, (unsigned long long)broken_counts[i].used,
               (unsigned long long)broken_counts[i].kept);
        for (uint64_t halt = 0; halt <= 1; halt++) {
            make_by_hand(broken_counts[i].places, broken_counts[i].used, broken_counts[i].kept, short_record, 1);
            registers[SAM_HALT] = halt;
            check_all_refused();
        }
    }
}

/* U and a kept number that is allowed, though most are not the count of the records, of so many places; what one
 * step-back leaves, and whether that is a broken state. */
static const struct { uint64_t used, kept, size, used_left, kept_left; bool broken; } counts_by_hand[] = {
    {1, 1, 1, 0, 0, false}, {2, 1, 1, 1, 0, true}, {4, 1, 1, 3, 0, true}, {4, 2, 1, 3, 1, false},
    {4, 3, 1, 3, 2, false}, {4, 4, 1, 3, 3, false}, {2, 1, 2, 0, 0, false}, {2, 2, 2, 0, 1, true},
    {4, 1, 2, 2, 0, true}, {4, 2, 2, 2, 1, false}, {4, 3, 2, 2, 2, false}, {4, 4, 2, 2, 3, true},
    {8, 1, 1, 7, 0, true}, {8, 8, 1, 7, 7, false}, {8, 8, 2, 6, 7, true},
};

static void test_counts_by_hand(void) {
    puts("a kept number that is allowed, and what a step-back leaves of it");
    for (size_t i = 0; i < sizeof counts_by_hand / sizeof counts_by_hand[0]; i++) {
        uint64_t used = counts_by_hand[i].used, kept = counts_by_hand[i].kept, size = counts_by_hand[i].size;
        const uint64_t *record = size == 1 ? short_record : long_record;
        make_by_hand(16, used, kept, record, size);
        check_dwell("  dwell", 60, 0);
        check("  step", 0, step());
        check_count("  kept", kept + 1, used + 1);
        check("  run", 0, run(9));
        check_count("  kept", kept + 2, used + 2);
        make_by_hand(16, used, kept, record, size);
        check("  step-back", 0, step_back());
        check_count("  kept", counts_by_hand[i].kept_left, counts_by_hand[i].used_left);
        if (counts_by_hand[i].broken) check_all_refused();
        else check("  step", 0, step());
    }
}

/* ---- told and registers of another length */

/* What the writers below are given besides the program in `table`, and where they write. */
static const uint8_t stop[] = {'S', 'T', 'O', 'P'}, packed_stop[] = {0x00, 0x20, 0x00};
static const uint8_t over_limit[SAM_SOURCE_LIMIT + 1]; /* of a source and of a formula */
static uint64_t made_table[SAM_TABLE_PLACES + 1];

static uint32_t assemble_done(size_t places, size_t told_len) {
    return sam_assemble(stop, 4, made_table, places, told, told_len);
}

static uint32_t assemble_fault(size_t places, size_t told_len) {
    return sam_assemble(stop, 3, made_table, places, told, told_len);
}

static uint32_t assemble_too_long(size_t places, size_t told_len) {
    return sam_assemble(over_limit, sizeof over_limit, made_table, places, told, told_len);
}

static uint32_t translate_done(size_t places, size_t told_len) {
    return sam_translate((const uint8_t *)"-a", 2, made_table, places, told, told_len);
}

static uint32_t translate_fault(size_t places, size_t told_len) {
    return sam_translate((const uint8_t *)"a+", 2, made_table, places, told, told_len);
}

static uint32_t translate_too_long(size_t places, size_t told_len) {
    return sam_translate(over_limit, sizeof over_limit, made_table, places, told, told_len);
}

static uint32_t unpack_done(size_t places, size_t told_len) {
    return sam_unpack(packed_stop, 3, made_table, places, told, told_len);
}

static uint32_t unpack_early(size_t places, size_t told_len) {
    return sam_unpack(packed_stop, 2, made_table, places, told, told_len);
}

static uint32_t list_done(size_t text_len, size_t told_len) {
    return sam_list(table, SAM_TABLE_PLACES, length, text, text_len, told, told_len);
}

static uint32_t list_broken(size_t text_len, size_t told_len) {
    return sam_list(table, SAM_TABLE_PLACES - 1, length, text, text_len, told, told_len);
}

static uint32_t pack_done(size_t image_len, size_t told_len) {
    return sam_pack(table, SAM_TABLE_PLACES, length, image, image_len, told, told_len);
}

static uint32_t pack_broken(size_t image_len, size_t told_len) {
    return sam_pack(table, SAM_TABLE_PLACES - 1, length, image, image_len, told, told_len);
}

static uint32_t save_done(size_t image_len, size_t told_len) {
    return sam_save(table, SAM_TABLE_PLACES, length, registers, SAM_REGISTERS, bits, n, tags, n, history, h, output,
                    output_len, state, image_len, told, told_len);
}

static uint32_t save_broken(size_t image_len, size_t told_len) {
    return sam_save(table, SAM_TABLE_PLACES - 1, length, registers, SAM_REGISTERS, bits, n, tags, n, history, h, output,
                    output_len, state, image_len, told, told_len);
}


/* A call, its number where all lengths are right, these lengths, and its output with the bytes of an element. */
static const struct writer {
    const char *name;
    uint32_t (*call)(size_t output_len, size_t told_len);
    uint32_t number;
    size_t output_len, told_len;
    void *output;
    size_t width;
} writers[] = {
    {"assemble", assemble_done, 0, SAM_TABLE_PLACES, SAM_ASSEMBLE_TOLD, made_table, sizeof made_table[0]},
    {"assemble a fault", assemble_fault, 23, SAM_TABLE_PLACES, SAM_ASSEMBLE_TOLD, made_table, sizeof made_table[0]},
    {"assemble too long", assemble_too_long, 21, SAM_TABLE_PLACES, SAM_ASSEMBLE_TOLD, made_table, sizeof made_table[0]},
    {"translate", translate_done, 0, SAM_TABLE_PLACES, SAM_TRANSLATE_TOLD, made_table, sizeof made_table[0]},
    {"translate a fault", translate_fault, 71, SAM_TABLE_PLACES, SAM_TRANSLATE_TOLD, made_table,
     sizeof made_table[0]},
    {"translate too long", translate_too_long, 21, SAM_TABLE_PLACES, SAM_TRANSLATE_TOLD, made_table,
     sizeof made_table[0]},
    {"unpack", unpack_done, 0, SAM_TABLE_PLACES, 1, made_table, sizeof made_table[0]},
    {"unpack an image that ends early", unpack_early, 41, SAM_TABLE_PLACES, 1, made_table, sizeof made_table[0]},
    {"list", list_done, 0, SAM_TEXT_BYTES, 1, text, sizeof text[0]},
    {"list a broken table", list_broken, 10, SAM_TEXT_BYTES, 1, text, sizeof text[0]},
    {"pack", pack_done, 0, SAM_IMAGE_BYTES, 1, image, sizeof image[0]},
    {"pack a broken table", pack_broken, 10, SAM_IMAGE_BYTES, 1, image, sizeof image[0]},
    {"save", save_done, 0, SAM_STATE_BYTES, 1, state, sizeof state[0]},
    {"save a broken table", save_broken, 10, SAM_STATE_BYTES, 1, state, sizeof state[0]},
};

/* 31 for a told of this length; an output of right length is zero then, and one of another length as it was. */
static void check_wrong_told(const struct writer *writer, size_t output_len, size_t told_len) {
    const uint8_t *output = writer->output;
    size_t size = writer->output_len * writer->width, zeroed = output_len == writer->output_len ? size : 0;
    memset(writer->output, MARK, size + writer->width);
    mark_told();
    check("  a told of another length", 31, writer->call(output_len, told_len));
    check_told_marked(0);
    check("  bytes not zero where its length is right", 0, others(output, zeroed, 0));
    check("  bytes changed elsewhere", 0, others(output + zeroed, size + writer->width - zeroed, MARK));
}

/* "Refused writers leave an output of wrong length untouched, zero one of right length" */
static void test_told_of_writers(void) {
    begin("PUSHIMM 1 STOP", 4, 8);
    for (size_t i = 0; i < sizeof writers / sizeof writers[0]; i++) {
        size_t right = writers[i].output_len, lengths[] = {0, right - 1, right, right + 1};
        puts(writers[i].name);
        for (size_t told_len = 0; told_len <= SAM_ASSEMBLE_TOLD + 1; told_len++) {
            if (told_len == writers[i].told_len) continue;
            for (size_t j = 0; j < sizeof lengths / sizeof lengths[0]; j++) {
                check_wrong_told(&writers[i], lengths[j], told_len);
            }
        }
        check("  all of the right length", writers[i].number, writers[i].call(right, writers[i].told_len));
    }
}

static uint32_t run_with(uint64_t limit, size_t registers_len, size_t told_len) {
    return sam_run(table, SAM_TABLE_PLACES, length, limit, registers, registers_len, bits, n, tags, n, history, h,
                   output, output_len, told, told_len);
}

static const uint64_t limits[] = {0, 9, SAM_RUN_LIMIT, SAM_RUN_LIMIT + 1, UINT64_MAX};

/* 31 before 11, and 11 before 10. */
static void check_run_with(uint64_t limit, size_t registers_len, size_t told_len) {
    mark_told();
    if (told_len != 1) {
        check("  31 of a run", 31, run_with(limit, registers_len, told_len));
        check_told_marked(0);
    } else {
        check("  11 or 10 of a run", limit > SAM_RUN_LIMIT ? 11 : 10, run_with(limit, registers_len, told_len));
        check("  steps", 0, told[0]);
        check_told_marked(1);
    }
}

/* A told of every length with these registers, where not all are of the right length. */
static void check_runs_with(size_t registers_len) {
    for (size_t i = 0; i < sizeof limits / sizeof limits[0]; i++) {
        for (size_t told_len = 0; told_len <= SAM_ASSEMBLE_TOLD + 1; told_len++) {
            if (registers_len != SAM_REGISTERS || told_len != 1) check_run_with(limits[i], registers_len, told_len);
        }
    }
}

static uint32_t reset_with(size_t places, size_t registers_len, size_t cells, size_t tag_count, size_t history_len,
                           size_t size) {
    return sam_reset(table, places, length, registers, registers_len, bits, cells, tags, tag_count, history,
                     history_len, output, size);
}

/* Cells, tags, history places and output, and the number of a reset that has them, but not nine registers. */
static const struct { size_t cells, tag_count, history_len, size; uint32_t number; } reset_sizes[] = {
    {0, 0, 0, 0, 11}, {0, 0, 8, 1, 11}, {1001, 1001, 0, 8, 11}, {4, 3, 8, 256, 11}, {4, 5, 8, 0, 11},
    {4, 4, 8193, 8, 11}, {4, 4, 8, 257, 11}, {1, 1, 0, 257, 11},
    {1, 1, 0, 0, 10}, {4, 4, 8, 1, 10}, {1000, 1000, 8192, 256, 10},
};

/* With a table, and without one, which is 10 too. */
static void check_resets_with(size_t registers_len) {
    for (size_t i = 0; i < sizeof reset_sizes / sizeof reset_sizes[0]; i++) {
        for (size_t places = 0; places <= SAM_TABLE_PLACES; places += SAM_TABLE_PLACES) {
            check("  11 or 10 of a reset", reset_sizes[i].number,
                  reset_with(places, registers_len, reset_sizes[i].cells, reset_sizes[i].tag_count,
                             reset_sizes[i].history_len, reset_sizes[i].size));
        }
    }
}

static void check_steps_with(size_t len) {
    check("  step", 10, sam_step(table, SAM_TABLE_PLACES, length, registers, len, bits, n, tags, n, history, h, output,
                                 output_len));
    check("  back", 10, sam_step_back(table, SAM_TABLE_PLACES, length, registers, len, bits, n, tags, n, history, h,
                                      output, output_len));
    for (uint64_t k = 0; k <= 2; k++) { /* one step is kept */
        check("  forget", 10, sam_forget(table, SAM_TABLE_PLACES, length, k, registers, len, bits, n, tags, n, history,
                                         h, output, output_len));
    }
}

/* 31 before 10, and 10 before 6; the machine has four cells. */
static void check_whys_with(size_t registers_len) {
    for (uint64_t cell = 0; cell <= 4; cell += 4) {
        for (size_t told_len = 0; told_len < MOST_TOLD; told_len++) {
            if (registers_len == SAM_REGISTERS && told_len == SAM_WHY_TOLD) continue;
            mark_told();
            check("  31 or 10 of a why", told_len == SAM_WHY_TOLD ? 10 : 31, why_with(cell, registers_len, told_len));
            if (told_len == SAM_WHY_TOLD) check_wrote(NONE_WROTE);
            else check_told_marked(0);
        }
    }
}

/* 31 before 10. */
static void check_saves_with(size_t registers_len) {
    for (size_t told_len = 0; told_len <= SAM_ASSEMBLE_TOLD + 1; told_len++) {
        check_not_saved("  31 or 10 of a save", registers_len, SAM_STATE_BYTES, told_len, told_len == 1 ? 10 : 31);
        check_not_saved("  31 of a save", registers_len, SAM_STATE_BYTES + 1, told_len, 31);
    }
}

static uint32_t load_with(const uint8_t *saved, size_t saved_len, size_t places, size_t registers_len, size_t cells,
                          size_t tag_count, size_t history_len, size_t size) {
    return sam_load(saved, saved_len, table, places, length, registers, registers_len, bits, cells, tags, tag_count,
                    history, history_len, output, size);
}

static const uint8_t four_zeros[25] = {0x01}; /* a state of four cells INT 0, in 24 bytes, and one byte more */

/* 41 and 67 before 10, and 10 before 45. */
static void check_loads_with(size_t registers_len) {
    for (size_t places = 0; places <= SAM_TABLE_PLACES; places += SAM_TABLE_PLACES) {
        check("  41 of a load", 41, load_with(four_zeros, 23, places, registers_len, 4, 4, 8, 256));
        check("  41 of a load", 41, load_with(four_zeros, 23, places, registers_len, 4, 3, 8, 256));
        check("  67 of a load", 67, load_with(four_zeros, 24, places, registers_len, 4, 3, 8, 256));
        check("  67 of a load", 67, load_with(four_zeros, 25, places, registers_len, 4, 4, 8193, 256));
        check("  67 of a load", 67, load_with(four_zeros, 25, places, registers_len, 4, 4, 8, 257));
        check("  10 of a load", 10, load_with(four_zeros, 24, places, registers_len, 4, 4, 8, 256));
        check("  10 of a load", 10, load_with(four_zeros, 25, places, registers_len, 4, 4, 8, 256));
    }
}

/* With nine registers, a told of its length and nothing beyond its sizes each call would be done. */
static void test_lengths_of_machine_calls(void) {
    begin("PUSHIMMF 2.5 STOP", 4, 8);
    check("  step", 0, step());
    registers[SAM_REGISTERS] = MARK;
    remember();
    for (size_t len = 0; len <= SAM_REGISTERS + 1; len++) {
        printf("%zu registers\n", len);
        check_runs_with(len);
        check_whys_with(len);
        if (len != SAM_REGISTERS) {
            check_resets_with(len);
            check_steps_with(len);
            check_saves_with(len);
            check_loads_with(len);
        }
        check_unchanged("  nothing changed");
        check("  the tenth", MARK, registers[SAM_REGISTERS]);
    }
    check("  step", 0, step());
}

/* ---- the machine's refusals */

/* Runs a source on few cells and checks the number that ends it and the steps made before. */
static void ends(const char *source, size_t cells, size_t places, uint32_t number, uint64_t steps) {
    printf("%s\n", source);
    begin(source, cells, places);
    check("  run", number, run(100));
    check("  steps", steps, told[0]);
}

static void test_steps(void) {
    ends("PUSHIMM 6 PUSHIMM 4 CMP STOP", 16, 0, 0, 4);
    check_cell("  CMP", 0, SAM_INT, UINT32_MAX);
    check("  step with HALT 1", 1, step());
    check("  run with HALT 1 and limit 0", 0, run(0));
    ends("PUSHIMM 1", 16, 0, 2, 1);
    ends("PUSHIMM 1 ADD", 16, 0, 3, 1);
    ends("ADDSP -1", 16, 0, 3, 0);
    ends("PUSHIMM 1 PUSHSP ADD", 16, 0, 4, 2);
    ends("PUSHIMM 1 PUSHIMM 0 DIV", 16, 0, 5, 2);
    ends("PUSHIMMF #7F800001 DUP CMPF", 16, 0, 5, 2);
    ends("PUSHSP PUSHIND", 16, 0, 6, 1);
    ends(GREATEST "ADD", 16, 0, 3, 3);
    ends("PUSHIMM 2147483647 " GREATEST "ADD", 16, 0, 4, 4);
    ends(GREATEST "PUSHIMM 0 ADD", 16, 9, 8, 4);
    ends(GREATEST "PUSHIMM 1 ADD", 16, 9, 6, 4);
    ends(LEAST "PUSHIMM 0 SUB", 16, 9, 8, 4);
    ends(LEAST "PUSHIMM 1 SUB", 16, 9, 6, 4);
    ends("PUSHIMM 1 PUSHIMM 1", 2, 0, 7, 1);
    ends("ADDSP 4", 4, 0, 7, 0);
    ends("PUSHIMM 1 PUSHIMM 2", 16, 3, 8, 1);
    ends("a: JUMP a", 16, 0, 50, 100);
    check("  step-back with H = 0", 9, step_back());
    check("  limit above 1,000,000", 11, run(1000001));
    check("  steps", 0, told[0]);
}

static void test_reset(void) {
    puts("reset: sizes");
    check("  assemble", 0, assemble("STOP"));
    bits[0] = 5;
    check("  no cells", 11, reset(0, 0));
    check("  1,001 cells", 11, reset(1001, 0));
    check("  8,193 places", 11, reset(1, 8193));
    for (size_t i = 0; i < SAM_REGISTERS; i++) registers[i] = 9;
    check("  one tag too few", 11, reset_with(SAM_TABLE_PLACES, SAM_REGISTERS, 4, 3, 0, 1));
    for (size_t i = 0; i < SAM_REGISTERS; i++) check("  zero", 0, registers[i]);
    check("  cell 0", 5, bits[0]);
    check("  11 before 10", 11, reset_with(0, SAM_REGISTERS, 0, 0, 0, 0));
    registers[SAM_KEPT] = 9;
    check("  no table", 10, reset_with(0, SAM_REGISTERS, 4, 4, 0, 1));
    check("  kept", 0, registers[SAM_KEPT]);
    registers[SAM_KEPT] = 9;
    check("  largest", 0, reset(1000, 8192));
    check("  N", 1000, registers[SAM_N]);
    check("  H", 8192, registers[SAM_H_PLACES]);
    check("  kept", 0, registers[SAM_KEPT]);
    check("  cell 0", 0, bits[0]);
    puts("reset: the output");
    memset(output, MARK, sizeof output);
    registers[SAM_WRITTEN] = 9;
    check("  257 bytes", 11, reset_with(SAM_TABLE_PLACES, SAM_REGISTERS, 4, 4, 8, 257));
    check("  written", 0, registers[SAM_WRITTEN]);
    check("  11 before 10", 11, reset_with(0, SAM_REGISTERS, 4, 4, 8, 257));
    check("  no table", 10, reset_with(0, SAM_REGISTERS, 4, 4, 8, 256));
    check("  bytes changed", 0, others(output, sizeof output, MARK));
    for (size_t size = 0; size <= SAM_OUTPUT_LIMIT; size += 128) {
        memset(output, MARK, sizeof output);
        registers[SAM_WRITTEN] = 9;
        check("  done", 0, reset_with(SAM_TABLE_PLACES, SAM_REGISTERS, 4, 4, 8, size));
        check("  written", 0, registers[SAM_WRITTEN]);
        check("  bytes not zero", 0, others(output, size, 0));
        check("  bytes changed elsewhere", 0, others(output + size, sizeof output - size, MARK));
    }
}

/* One value broken, the call, and the value set right again. */
static void broken(const char *name, uint64_t *value, uint64_t wrong) {
    uint64_t right = *value;
    *value = wrong;
    check(name, 10, step());
    check(name, 10, step_back());
    check(name, 10, forget(0));
    check(name, 10, forget(UINT64_MAX));
    check(name, 10, run(1));
    check_dwell(name, 10, 0);
    check_why(name, 0, 10, NONE_WROTE);
    check_why(name, UINT64_MAX, 10, NONE_WROTE);
    check_not_saved(name, SAM_REGISTERS, SAM_STATE_BYTES, 1, 10);
    check_not_saved("  31 before 10", SAM_REGISTERS, SAM_STATE_BYTES - 1, 1, 31);
    check(name, wrong, *value);
    *value = right;
}

static void test_broken(void) {
    puts("10: broken state or table");
    begin("PUSHIMM 1 STOP", 4, 8);
    check("  step", 0, step());
    broken("  N", &registers[SAM_N], 5);
    broken("  H", &registers[SAM_H_PLACES], 7);
    broken("  PC", &registers[SAM_PC], 3);
    broken("  SP", &registers[SAM_SP], 4);
    broken("  FBR", &registers[SAM_FBR], 4);
    broken("  HALT", &registers[SAM_HALT], 2);
    broken("  U", &registers[SAM_U], 9);
    broken("  U below the kept number", &registers[SAM_U], 0);
    broken("  kept above U", &registers[SAM_KEPT], 3);
    broken("  kept 0 with U above 0", &registers[SAM_KEPT], 0);
    broken("  length", &length, 1025);
    broken("  written above the output", &registers[SAM_WRITTEN], SAM_OUTPUT_LIMIT + 1);
    broken("  code", &table[0], UINT64_C(54) << 32);
    broken("  ITOF with an operand", &table[0], UINT64_C(50) << 32 | 1);
    broken("  FTOI with an operand", &table[0], UINT64_C(51) << 32 | 1);
    broken("  PUSHIMMCH 128", &table[0], UINT64_C(52) << 32 | 128);
    broken("  WRITECH with an operand", &table[0], UINT64_C(53) << 32 | 1);
    broken("  unused place", &table[1023], 1);
    tags[3] = 5;
    check("  tag 5", 10, step());
    check_dwell("  tag 5", 10, 0);
    check_why("  tag 5", 0, 10, NONE_WROTE);
    tags[3] = SAM_CH, bits[3] = 128;
    check("  CH above 127", 10, step());
    check_dwell("  CH above 127", 10, 0);
    check_why("  CH above 127", 0, 10, NONE_WROTE);
    tags[3] = SAM_PA, bits[3] = 3;
    check("  PA above length", 10, step());
    check_dwell("  PA above length", 10, 0);
    check_why("  PA above length", 0, 10, NONE_WROTE);
    tags[3] = SAM_INT, bits[3] = 0;
    history[1] |= 1;
    check("  top record", 10, step_back());
    check("  top record", 10, forget(1));
    check_why("  top record", 0, 10, NONE_WROTE);
    check_dwell("  top record", 60, 0);
    history[1] &= ~UINT64_C(1);
    check("  all set right", 0, step_back());
}

/* ---- the assembler's refusals */

/* `name` is the source, or stands for one too large to be printed. */
static void refused_as(const char *name, const char *source, uint32_t number, uint64_t place, uint64_t line,
                       uint64_t column) {
    table[0] = 9;
    check(name, number, assemble(source));
    check_told(0, place, line, column);
    check("  table zeroed", 0, table[0]);
}

static void refused(const char *source, uint32_t number, uint64_t place, uint64_t line, uint64_t column) {
    refused_as(source, source, number, place, line, column);
}

static char large[SAM_SOURCE_LIMIT + 2];

/* A piece of text, repeated. */
static const char *repeated(const char *piece, size_t count) {
    large[0] = '\0';
    for (size_t i = 0, at = 0; i < count; i++, at += strlen(piece)) strcpy(large + at, piece);
    return large;
}

/* Labels of five bytes, with this gap behind each. */
static const char *labels(unsigned count, const char *gap) {
    size_t at = 0;
    for (unsigned i = 0; i < count; i++) at += (size_t)sprintf(large + at, "a%03u:%s", i, gap);
    return large;
}

static void test_without_line(void) {
    puts("31, 21 and done: place 0, line 0, column 0");
    mark_told();
    check("  table of 1,023 places", 31, sam_assemble(stop, 4, table, 1023, told, SAM_ASSEMBLE_TOLD));
    check_told(0, 0, 0, 0);
    memset(large, '\n', sizeof large);
    check("  65,537 bytes", 21, assemble_bytes(large, SAM_SOURCE_LIMIT + 1));
    check_told(0, 0, 0, 0);
    check("  65,536 bytes", 0, assemble_bytes(large, SAM_SOURCE_LIMIT));
    check_told(0, 0, 0, 0);
    check("  three lines", 0, assemble("// dwell\r\nPUSHIMM 40\r\nSTOP\r\n"));
    check_told(2, 0, 0, 0);
}

static void test_refused_sources(void) {
    puts("refused sources of one line");
    refused("STOP FOO@", 22, 8, 1, 9);
    refused("STOP FOO", 23, 5, 1, 6);
    refused("PUSHIMM", 24, 7, 1, 8);
    refused("JUMP a: STOP", 33, 5, 1, 6);
    refused("PUSHIMM ADD", 33, 8, 1, 9);
    refused("PUSHIMM 5:", 33, 8, 1, 9);
    refused("PUSHIMM 2147483648", 25, 8, 1, 9);
    refused("STOP JUMP 3", 25, 10, 1, 11);
    refused("a: a:", 26, 3, 1, 4);
    refused("JUMP ADD", 27, 5, 1, 6);
    refused("xxxxxxxxxxxxxxxxxxxxxxxxxxxxxxxxx:", 30, 0, 1, 1);
    puts("1,025 instructions, then 257 labels");
    refused_as("  28", repeated("STOP ", 1025), 28, 5120, 1, 5121);
    refused_as("  29", labels(257, ""), 29, 1280, 1, 1281);
}

static void test_refused_lines(void) {
    puts("refused sources of several lines");
    refused("STOP FOO\nSTOP\n", 23, 5, 1, 6);
    refused("STOP\rFOO\n", 23, 5, 1, 6);
    refused("STOP\r\n\r\n\tFOO\r\n", 23, 9, 3, 2);
    refused("// dwell @ 40\nPUSHIMM 40\n\n  STOP@\n", 22, 32, 4, 7);
    refused("PUSHIMM\n", 24, 8, 2, 1);
    refused("PUSHIMM 1 // one\r\nPUSHIMM\r\n", 24, 27, 3, 1);
    refused("PUSHIMM 1\nPUSHIMM // 2", 24, 22, 2, 13);
    refused("PUSHIMM\nADD\n", 33, 8, 2, 1);
    refused("PUSHIMM 40\r\nPUSHIMMF #4020000G\r\n", 33, 21, 2, 10);
    refused("STOP\nADDSP\t1000\n", 25, 11, 2, 7);
    refused("a:\r\nSTOP\r\n a:\r\n", 26, 11, 3, 2);
    refused("JUMP\nxxxxxxxxxxxxxxxxxxxxxxxxxxxxxxxxx\n", 30, 5, 2, 1);
    puts("found after the last token");
    refused("STOP\r\nJUMP gone\r\nSTOP\r\n", 27, 11, 2, 6);
    refused("STOP\n\nJUMP 4\nSTOP", 25, 11, 3, 6);
    refused("JUMP gone\nJUMP 9\nPUSHIMM\n", 24, 25, 4, 1);
    puts("1,025 instructions, then 257 labels, one a line");
    refused_as("  28", repeated("STOP\n", 1025), 28, 5120, 1025, 1);
    refused_as("  29", labels(257, "\r\n"), 29, 1792, 257, 1);
}

static const char *const ill_formed[] = {
    "5", "5.", ".5", "-.5", "-5.", ".", "-", "-.", "..", "1.2.3", "1..2", "--1.0", "1.-5", "1234567890", "1234567890.",
    ".1234567890", "2.5:", "12345678.90:", "#", "#2.5", "#4020000.", "2.5e3", "a.b",
};

static const char *const too_long[] = {
    "12345678.90", "1.234567890", "123456789.0", "-123456789.0", "0.000000000", "000000002.5", "2.500000000",
};

/* The place of the operand is 14, in line 2 and column 10. */
static void refused_operands(const char *const *operands, size_t count, uint32_t number) {
    char source[64];
    for (size_t i = 0; i < count; i++) {
        sprintf(source, "STOP\nPUSHIMMF %s\nFOO", operands[i]);
        refused(source, number, 14, 2, 10);
    }
}

static void test_refused_decimals(void) {
    puts("decimals of wrong form, and of ten and more digits");
    refused_operands(ill_formed, sizeof ill_formed / sizeof ill_formed[0], 33);
    refused_operands(too_long, sizeof too_long / sizeof too_long[0], 25);
    puts("the point elsewhere");
    refused("ADD.", 23, 0, 1, 1);
    refused("STOP\n.", 23, 5, 2, 1);
    refused("2.5", 23, 0, 1, 1);
    refused("a.b:", 23, 0, 1, 1);
    refused("STOP\r\n A.@", 22, 9, 2, 4);
    refused("JUMP a.b", 33, 5, 1, 6);
    refused("JUMP 0.0", 33, 5, 1, 6);
    refused("PUSHIMM 1.5", 33, 8, 1, 9);
    refused("ADDSP 1.0", 33, 6, 1, 7);
    refused("PUSHIMMF 2,5", 22, 10, 1, 11);
    refused("PUSHIMMF 2./5", 22, 11, 1, 12);
    refused("PUSHIMMF // 2.5", 24, 15, 1, 16);
    check("  in a comment", 0, assemble("PUSHIMMF 2.5//.5 . ADD.\n"));
    check_told(1, 0, 0, 0);
}

/* ---- request h: characters for the landing panel */

static void check_output(const char *name, const char *bytes, size_t count) {
    check(name, count, registers[SAM_WRITTEN]);
    check(name, 0, (uint64_t)(memcmp(output, bytes, count) != 0));
}

#define LOBBY \
    "PUSHIMM 40 PUSHIMMCH 76 WRITECH PUSHIMMCH 79 WRITECH PUSHIMMCH 66 DUP WRITECH WRITECH PUSHIMMCH 89 WRITECH STOP"

/* A word over a dwell; then every step is taken back, and each WRITECH takes its byte with it. */
static void test_word(void) {
    static const uint64_t written_after[] = {0, 0, 0, 1, 1, 2, 2, 2, 3, 4, 4, 5, 5}; /* so many steps */
    puts("the word LOBBY on the panel, and all of it taken back");
    output_len = 8;
    begin(LOBBY, 4, 64);
    check("  tag of a character", 4, SAM_CH);
    for (uint64_t steps = 0; steps < 12; steps++) {
        check_output("  written", "LOBBY", written_after[steps]);
        check("  step", 0, step());
    }
    check_output("  written", "LOBBY", 5);
    check_dwell("  read", 0, 40);
    for (uint64_t steps = 12; steps-- > 0;) {
        check("  step-back", 0, step_back());
        check_output("  written", "LOBBY", written_after[steps]);
        check("  the rest zero", 0, others(output + written_after[steps], 8 - written_after[steps], 0));
    }
    check("  step-back with U = 0", 9, step_back());
    check("  run", 0, run(100));
    check("  steps", 12, told[0]);
    check_output("  written", "LOBBY", 5);
}

/* The record of WRITECH has one place, and popped cells keep their contents. */
static void test_record_of_writing(void) {
    puts("the records of PUSHIMMCH and WRITECH");
    output_len = 2;
    begin("PUSHIMMCH 72 WRITECH PUSHIMMCH 73", 4, 5);
    check("  run", 50, run(3));
    check("  cell place of the first", 0, history[0]);
    check("  its step place", UINT64_C(0x8000000000400000), history[1]);
    check("  step place of WRITECH", UINT64_C(0x8010040000000000), history[2]);
    check("  cell place of the second", UINT64_C(0x0010000001200000), history[3]); /* tag 4, bits 72 */
    check("  its step place", UINT64_C(0x8020000000400000), history[4]);
    check_cell("  cell 0", 0, SAM_CH, 73);
    check("  step-back", 0, step_back());
    check_cell("  cell 0", 0, SAM_CH, 72);
}

/* WRITECH STOP with one value, live or not, an output, and H with U of records of one place: the number of a step. */
static const struct {
    uint8_t tag;
    uint64_t sp;
    size_t size;
    uint64_t written;
    size_t places;
    uint64_t used;
    uint32_t number;
} writings[] = {
    {SAM_CH, 0, 1, 1, 8, 8, 3}, {SAM_CH, 0, 1, 1, 0, 0, 3}, {SAM_CH, 0, 1, 0, 8, 8, 3}, {SAM_INT, 0, 0, 0, 0, 0, 3},
    {SAM_INT, 1, 1, 1, 8, 8, 4}, {SAM_FLOAT, 1, 1, 1, 8, 8, 4}, {SAM_MA, 1, 0, 0, 0, 0, 4}, {SAM_PA, 1, 1, 1, 0, 0, 4},
    {SAM_INT, 1, 1, 0, 8, 8, 4}, {SAM_INT, 1, 1, 0, 8, 0, 4},
    {SAM_CH, 1, 1, 1, 8, 8, 12}, {SAM_CH, 1, 1, 1, 8, 0, 12}, {SAM_CH, 1, 1, 1, 0, 0, 12},
    {SAM_CH, 1, 0, 0, 8, 8, 12}, {SAM_CH, 1, 0, 0, 0, 0, 12}, {SAM_CH, 1, 256, 256, 8, 8, 12},
    {SAM_CH, 1, 1, 0, 8, 8, 8}, {SAM_CH, 1, 256, 255, 1, 1, 8},
    {SAM_CH, 1, 1, 0, 8, 7, 0}, {SAM_CH, 1, 256, 0, 0, 0, 0}, {SAM_CH, 1, 256, 255, 1, 0, 0},
};

static void test_writings(void) {
    puts("3, 4, 12 and 8 of WRITECH");
    for (size_t i = 0; i < sizeof writings / sizeof writings[0]; i++) {
        output_len = writings[i].size;
        begin("WRITECH STOP", 4, writings[i].places);
        memset(output, MARK, sizeof output);
        tags[0] = writings[i].tag, bits[0] = 2;
        for (uint64_t j = 0; j < writings[i].used; j++) history[j] = STEP_PLACE;
        registers[SAM_SP] = writings[i].sp;
        registers[SAM_WRITTEN] = writings[i].written;
        registers[SAM_U] = registers[SAM_KEPT] = writings[i].used;
        if (writings[i].number != 0) {
            check_refused_again(writings[i].number);
            continue;
        }
        check("  step", 0, step());
        check("  written", writings[i].written + 1, registers[SAM_WRITTEN]);
        check("  the byte", 2, output[writings[i].written]);
        check("  other bytes", 1, others(output, sizeof output, MARK));
        check("  U", writings[i].used + (writings[i].places > 0), registers[SAM_U]);
    }
}

/* A source, the bytes of output lent, the number that ends its run, its steps and what is written then. */
static const struct {
    const char *source;
    size_t size;
    uint32_t number;
    uint64_t steps;
    const char *written;
} shown[] = {
    {"PUSHIMMCH 72 WRITECH PUSHIMMCH 73 WRITECH STOP", 256, 0, 5, "HI"},
    {"PUSHIMMCH 73 PUSHIMMCH 72 WRITECH WRITECH STOP", 2, 0, 5, "HI"},
    {"PUSHIMMCH 72 WRITECH PUSHIMMCH 73 WRITECH STOP", 1, 12, 3, "H"},
    {"PUSHIMMCH 72 WRITECH", 0, 12, 1, ""},
    {"PUSHIMMCH 72 a: DUP WRITECH JUMP a", 3, 12, 11, "HHH"},
    {"PUSHIMMCH 72 WRITECH WRITECH", 9, 3, 2, "H"},
    {"PUSHIMMCH 72 WRITECH PUSHIMM 73 WRITECH", 9, 4, 3, "H"},
    {"PUSHIMMCH 127 DUP ISNIL JUMPC 0 WRITECH", 9, 2, 5, "\x7F"},
    {"PUSHIMMCH 72 PUSHIMMCH 72 EQUAL JUMPC yes STOP yes: PUSHIMMCH 89 WRITECH STOP", 9, 0, 7, "Y"},
    {"PUSHIMMCH 1 PUSHIMM 1 EQUAL JUMPC yes STOP yes: PUSHIMMCH 89 WRITECH STOP", 9, 0, 5, ""},
    {"PUSHIMMCH 0 ISNIL JUMPC yes STOP yes: PUSHIMMCH 89 WRITECH STOP", 9, 0, 6, "Y"},
    {"PUSHIMM 5 PUSHIMMCH 72 STOREOFF 0 PUSHOFF 0 WRITECH WRITECH STOP", 9, 0, 7, "HH"},
    {"PUSHIMMCH 1 PUSHIMMCH 1 ADD", 9, 4, 2, ""},
    {"PUSHIMMCH 1 ITOF", 9, 4, 1, ""},
};

static void test_shown(void) {
    for (size_t i = 0; i < sizeof shown / sizeof shown[0]; i++) {
        for (size_t places = 0; places <= 64; places += 64) {
            printf("%s, H = %zu\n", shown[i].source, places);
            output_len = shown[i].size;
            memset(output, MARK, sizeof output);
            begin(shown[i].source, 16, places);
            check("  output zeroed", 0, others(output, output_len, 0));
            check("  run", shown[i].number, run(100));
            check("  steps", shown[i].steps, told[0]);
            check_output("  written", shown[i].written, strlen(shown[i].written));
            check("  beyond the output", 0, others(output + output_len, sizeof output - output_len, MARK));
        }
    }
}

/* Bytes of the output and a written count that are refused: too long, or a count above the length. */
static const struct { size_t size; uint64_t written; } broken_outputs[] = {
    {257, 0}, {257, 257}, {0, 1}, {0, 256}, {0, UINT64_MAX}, {1, 2}, {1, 257}, {1, (UINT64_C(1) << 32) + 1},
    {255, 256}, {256, 257}, {256, 512}, {256, UINT64_C(1) << 63},
};

static void test_broken_outputs(void) {
    for (size_t i = 0; i < sizeof broken_outputs / sizeof broken_outputs[0]; i++) {
        printf("an output of %zu bytes, %llu written\n", broken_outputs[i].size,
               (unsigned long long)broken_outputs[i].written);
        output_len = 8;
        begin("JUMP 1 STOP", 4, 8);
        check("  step", 0, step());
        output_len = broken_outputs[i].size;
        registers[SAM_WRITTEN] = broken_outputs[i].written;
        check_all_refused();
    }
    puts("any bytes, and any count up to the length");
    for (output_len = 0; output_len <= SAM_OUTPUT_LIMIT; output_len += 128) {
        for (uint64_t written = 0; written <= output_len; written += 64) {
            begin("JUMP 1 STOP", 4, 8);
            memset(output, 0xFF, output_len);
            registers[SAM_WRITTEN] = written;
            check("  step", 0, step());
            check("  step-back", 0, step_back());
            check("  run", 0, run(9));
            check("  written", written, registers[SAM_WRITTEN]);
            check("  the bytes", 0, others(output, output_len, 0xFF));
        }
    }
    output_len = SAM_OUTPUT_LIMIT;
}

/* Tags and bits of a cell: 10 or done, live and dead. */
static const struct { uint8_t tag; uint32_t value, number; } odd_cells[] = {
    {SAM_CH, 0, 0}, {SAM_CH, 127, 0}, {SAM_CH, 128, 10}, {SAM_CH, 255, 10}, {SAM_CH, 256, 10},
    {SAM_CH, UINT32_MAX, 10}, {5, 0, 10}, {5, 76, 10}, {7, 0, 10}, {255, 0, 10},
};

static void test_odd_cells(void) {
    for (size_t i = 0; i < sizeof odd_cells / sizeof odd_cells[0]; i++) {
        for (uint64_t sp = 0; sp <= 1; sp++) {
            printf("tag %u, bits %lu, SP %llu\n", odd_cells[i].tag, (unsigned long)odd_cells[i].value,
                   (unsigned long long)sp);
            begin("JUMP 1 STOP", 4, 8);
            check("  step", 0, step());
            tags[0] = odd_cells[i].tag, bits[0] = odd_cells[i].value;
            registers[SAM_SP] = sp;
            if (odd_cells[i].number == 10) check_all_refused();
            else check("  run", 0, run(9));
            if (odd_cells[i].number == 0) check_dwell("  dwell", sp == 0 ? 61 : 62, 0);
        }
    }
}

/* A record made by hand of a step at this PC of WRITECH STOP, where one byte is written or none; it restores cell 1
 * with this tag and these bits, or no cell. */
static const struct { uint64_t pc, cells; uint64_t tag, value, written; uint32_t number; } records[] = {
    {0, 0, 0, 0, 1, 0}, {0, 0, 0, 0, 0, 10}, {1, 0, 0, 0, 1, 0}, {1, 0, 0, 0, 0, 0},
    {0, 1, SAM_FLOAT, 5, 1, 0}, {0, 1, SAM_FLOAT, 5, 0, 10}, {1, 1, SAM_FLOAT, 5, 0, 0},
    {0, 1, SAM_CH, 127, 1, 0}, {0, 1, SAM_CH, 128, 1, 10}, {1, 1, SAM_CH, 127, 1, 0}, {1, 1, SAM_CH, 128, 1, 10},
    {1, 1, SAM_CH, UINT32_MAX, 1, 10}, {1, 1, 5, 0, 1, 10}, {1, 1, 7, 0, 1, 10}, {0, 1, 5, 0, 1, 10},
};

static void make_record(size_t i) {
    begin("WRITECH STOP", 4, 8);
    memset(output, MARK, sizeof output);
    if (records[i].cells == 1) history[0] = UINT64_C(1) << 53 | records[i].tag << 50 | records[i].value << 18;
    history[records[i].cells] = STEP_PLACE | records[i].pc << 52 | records[i].cells << 22;
    registers[SAM_WRITTEN] = records[i].written;
    registers[SAM_U] = records[i].cells + 1;
    registers[SAM_KEPT] = 1;
}

static void test_records_of_writing(void) {
    puts("step-backs of records made by hand");
    output_len = 4;
    for (size_t i = 0; i < sizeof records / sizeof records[0]; i++) {
        bool is_dropped = records[i].number == 0 && records[i].pc == 0;
        make_record(i);
        remember();
        check("  step-back", records[i].number, step_back());
        if (records[i].number != 0) {
            check_unchanged("  nothing changed");
            continue;
        }
        check("  written", records[i].written - is_dropped, registers[SAM_WRITTEN]);
        check("  bytes zeroed", is_dropped, others(output, sizeof output, MARK));
        if (is_dropped) check("  the last", 0, output[0]);
        if (records[i].cells == 1) check_cell("  restored", 1, (uint8_t)records[i].tag, (uint32_t)records[i].value);
    }
    for (int bit = 0; bit < 18; bit++) {
        make_record(4);
        history[0] |= UINT64_C(1) << bit;
        check("  a zero of the cell place", 10, step_back());
    }
    output_len = SAM_OUTPUT_LIMIT;
}

/* An operand of PUSHIMMCH, and what becomes of it; the place of the operand is 15, in line 2 and column 11. */
static const struct { const char *operand; uint32_t number; uint64_t made; } character_operands[] = {
    {"0", 0, 0}, {"127", 0, 127}, {"-0", 0, 0}, {"007", 0, 7}, {"0000000127", 0, 127},
    {"128", 25, 0}, {"-1", 25, 0}, {"256", 25, 0}, {"4294967296", 25, 0}, {"00000000076", 25, 0},
    {"-00000000000", 25, 0},
    {"L", 33, 0}, {"#4C", 33, 0}, {"7.6", 33, 0}, {"-", 33, 0}, {"76:", 33, 0}, {"128:", 33, 0}, {"76x", 33, 0},
};

static void test_characters(void) {
    static const char *listing = "PUSHIMMCH 7\nPUSHIMMCH 0\nPUSHIMMCH 127\nWRITECH\n";
    char source[64];
    puts("PUSHIMMCH and WRITECH as text, table and image");
    for (size_t i = 0; i < sizeof character_operands / sizeof character_operands[0]; i++) {
        sprintf(source, "STOP\nPUSHIMMCH %s", character_operands[i].operand);
        if (character_operands[i].number != 0) {
            refused(source, character_operands[i].number, 15, 2, 11);
            continue;
        }
        check(source, 0, assemble(source));
        check("  the place", UINT64_C(52) << 32 | character_operands[i].made, table[1]);
    }
    refused("PUSHIMMCH", 24, 9, 1, 10);
    refused("WRITECH 76", 23, 8, 1, 9);
    check("  assemble", 0, assemble("PUSHIMMCH 007 PUSHIMMCH -0 PUSHIMMCH 127 WRITECH"));
    check("  code of WRITECH", UINT64_C(53) << 32, table[3]);
    check("  list", 0, list());
    check("  length", strlen(listing), told[0]);
    check("  the text", 0, (uint64_t)(memcmp(text, listing, strlen(listing) + 1) != 0));
    check("  assemble", 0, assemble("PUSHIMMCH 127 WRITECH"));
    check("  pack", 0, sam_pack(table, SAM_TABLE_PLACES, length, image, SAM_IMAGE_BYTES, told, 1));
    check("  length", 4, told[0]);
    check("  seven bits", 0, (uint64_t)(memcmp(image, "\x00\x5A\x7F\xD4", 5) != 0));
    check("  unpack", 0, sam_unpack(image, 4, made_table, SAM_TABLE_PLACES, told, 1));
    check("  the same table", 0, (uint64_t)(memcmp(made_table, table, sizeof table - sizeof table[0]) != 0));
    check("  ends early", 41, sam_unpack(image, 3, made_table, SAM_TABLE_PLACES, told, 1));
    table[0]++;
    check("  operand 128", 10, sam_pack(table, SAM_TABLE_PLACES, length, image, SAM_IMAGE_BYTES, told, 1));
    check("  operand 128", 10, list());
}

/* ---- request i: forget the oldest trials */

/* Fields of a history place, at their bits. */
#define AT(bit, value) ((uint64_t)(value) << (bit))
#define PLACE_OF_CELL(address, tag, value) (AT(53, address) | AT(50, tag) | AT(18, value))
#define PLACE_OF_STEP(pc, sp, fbr, cells) (AT(63, 1) | AT(52, pc) | AT(42, sp) | AT(32, fbr) | AT(22, cells))

/* The records of SEVEN_STEPS, worked out by hand. */
static const uint64_t seven_records[] = {
    PLACE_OF_CELL(0, SAM_INT, 0), PLACE_OF_STEP(0, 0, 0, 1),                                /* PUSHIMM */
    PLACE_OF_CELL(1, SAM_INT, 0), PLACE_OF_STEP(1, 1, 0, 1),                                /* DUP */
    PLACE_OF_CELL(0, SAM_INT, 1), PLACE_OF_CELL(1, SAM_INT, 1), PLACE_OF_STEP(2, 2, 0, 2),  /* SWAP */
    PLACE_OF_CELL(0, SAM_INT, 1), PLACE_OF_STEP(3, 2, 0, 1),                                /* ADD */
    PLACE_OF_STEP(4, 1, 0, 0),                                                              /* JUMP */
    PLACE_OF_CELL(1, SAM_INT, 1), PLACE_OF_CELL(2, SAM_INT, 0), PLACE_OF_STEP(5, 1, 0, 2),  /* ADDSP */
    PLACE_OF_STEP(6, 3, 0, 0),                                                              /* STOP */
};

/* Numbers of steps that are never kept, some with an allowed number in their lower half. */
static const uint64_t too_many[] = {
    UINT64_C(1) << 32, (UINT64_C(1) << 32) + 1, (UINT64_C(1) << 32) + 7, UINT64_C(1) << 63, UINT64_MAX,
};

/* Something in every place above U, and in all memory behind what is lent. */
static void mark_unused(void) {
    for (size_t i = registers[SAM_U]; i <= SAM_HISTORY_LIMIT; i++) history[i] = MARK;
    for (size_t i = n; i <= SAM_CELL_LIMIT; i++) bits[i] = tags[i] = MARK;
    memset(output + output_len, MARK, sizeof output - output_len);
    registers[SAM_REGISTERS] = MARK;
}

static void check_ends_marked(void) {
    check("  behind the registers", MARK, registers[SAM_REGISTERS]);
    check("  behind the history", MARK, history[SAM_HISTORY_LIMIT]);
}

/* The oldest k go, which have so many places: the rest is moved down, the room is zero, and nothing else changes. */
static void check_forgotten(uint64_t k, uint64_t places) {
    uint64_t left = registers[SAM_U] - places;
    remember();
    check("  forget", 0, forget(k));
    memmove(before.history, before.history + places, left * sizeof history[0]);
    memset(before.history + left, 0, places * sizeof history[0]);
    before.registers[SAM_U] = left;
    before.registers[SAM_KEPT] -= k;
    check_unchanged("  as worked out");
    check_ends_marked();
}

static void check_forget_refused(uint64_t k, uint32_t number) {
    remember();
    check("  forget", number, forget(k));
    check_unchanged("  nothing changed");
    check_ends_marked();
}

static void test_forget(void) {
    for (uint64_t k = 0; k <= 7; k++) {
        printf("%llu of seven steps forgotten, and the rest taken back\n", (unsigned long long)k);
        begin(SEVEN_STEPS, 16, 20);
        check("  run", 0, run(100));
        check("  the records", 0, (uint64_t)(memcmp(history, seven_records, sizeof seven_records) != 0));
        mark_unused();
        check_forget_refused(8, 14);
        for (size_t i = 0; i < sizeof too_many / sizeof too_many[0]; i++) check_forget_refused(too_many[i], 14);
        check_forgotten(k, used_after[k]);
        check_forget_refused(8 - k, 14);
        for (uint64_t kept = 7 - k; kept-- > 0;) {
            check("  step-back", 0, step_back());
            check_count("  kept", kept, used_after[kept + k] - used_after[k]);
        }
        check("  PC of the oldest that is kept", k < 7 ? k : 6, registers[SAM_PC]);
        check("  step-back", 9, step_back());
        check_forgotten(0, 0);
        check_forget_refused(1, 14);
    }
}

static void test_forget_without_history(void) {
    puts("a forget with H = 0");
    begin(SEVEN_STEPS, 16, 0);
    check("  run", 50, run(3));
    mark_unused();
    check_forgotten(0, 0);
    check_forget_refused(1, 14);
    for (size_t i = 0; i < sizeof too_many / sizeof too_many[0]; i++) check_forget_refused(too_many[i], 14);
    registers[SAM_KEPT] = 1;
    check_forget_refused(0, 10);
    check_forget_refused(2, 10);
}

/* Records for JUMP 1 WRITECH STOP and four cells: two cell places, of a FLOAT and of a CH, and a step place. */
#define FIRST_PLACE PLACE_OF_CELL(0, SAM_FLOAT, 5)
#define SECOND_PLACE PLACE_OF_CELL(2, SAM_CH, 127)
#define LAST_PLACE PLACE_OF_STEP(2, 3, 3, 2)
#define TOP_BIT (UINT64_C(1) << 63)

enum { RECORD_PLACES = 3, RECORDS = 5 };

static const uint64_t formed[RECORD_PLACES] = {FIRST_PLACE, SECOND_PLACE, LAST_PLACE};

static const struct { const char *name; uint64_t places[RECORD_PLACES]; } ill_formed_records[] = {
    {"the step place without its mark", {FIRST_PLACE, SECOND_PLACE, LAST_PLACE & ~TOP_BIT}},
    {"a cell place with a mark", {FIRST_PLACE, SECOND_PLACE | TOP_BIT, LAST_PLACE}},
    {"the lowest cell place with a mark", {FIRST_PLACE | TOP_BIT, SECOND_PLACE, LAST_PLACE}},
    {"PC at the length", {FIRST_PLACE, SECOND_PLACE, PLACE_OF_STEP(3, 3, 3, 2)}},
    {"PC 2,047", {FIRST_PLACE, SECOND_PLACE, PLACE_OF_STEP(2047, 3, 3, 2)}},
    {"SP at N", {FIRST_PLACE, SECOND_PLACE, PLACE_OF_STEP(2, 4, 3, 2)}},
    {"FBR at N", {FIRST_PLACE, SECOND_PLACE, PLACE_OF_STEP(2, 3, 4, 2)}},
    {"an address at N", {FIRST_PLACE, PLACE_OF_CELL(4, SAM_INT, 0), LAST_PLACE}},
    {"the same address", {FIRST_PLACE, PLACE_OF_CELL(0, SAM_INT, 0), LAST_PLACE}},
    {"falling addresses", {SECOND_PLACE, FIRST_PLACE, LAST_PLACE}},
    {"tag 5", {PLACE_OF_CELL(0, 5, 0), SECOND_PLACE, LAST_PLACE}},
    {"tag 7", {FIRST_PLACE, PLACE_OF_CELL(2, 7, 0), LAST_PLACE}},
    {"CH 128", {FIRST_PLACE, PLACE_OF_CELL(2, SAM_CH, 128), LAST_PLACE}},
    {"PA above the length", {PLACE_OF_CELL(0, SAM_PA, 4), SECOND_PLACE, LAST_PLACE}},
    {"a cell that is not there", {FIRST_PLACE, SECOND_PLACE, PLACE_OF_STEP(2, 3, 3, 3)}},
    {"1,023 cells", {FIRST_PLACE, SECOND_PLACE, PLACE_OF_STEP(2, 3, 3, 1023)}},
    {"a cell place left over", {FIRST_PLACE, SECOND_PLACE, PLACE_OF_STEP(2, 3, 3, 1)}},
    {"two cell places left over", {FIRST_PLACE, SECOND_PLACE, PLACE_OF_STEP(2, 3, 3, 0)}},
    {"zeros", {0, 0, 0}},
    {"ones", {UINT64_MAX, UINT64_MAX, UINT64_MAX}},
};

/* Five records, of which that at this depth from place 0 is another. */
static void make_records(size_t depth, const uint64_t *odd) {
    begin("JUMP 1 WRITECH STOP", 4, RECORDS * RECORD_PLACES + 2);
    for (size_t i = 0; i < RECORDS; i++) {
        memcpy(history + i * RECORD_PLACES, i == depth ? odd : formed, sizeof formed);
    }
    registers[SAM_U] = RECORDS * RECORD_PLACES;
    registers[SAM_KEPT] = RECORDS;
    mark_unused();
}

/* 10, whatever k is, and whatever the cell of a why. */
static void check_records_refused(void) {
    static const uint64_t numbers[] = {0, 1, RECORDS, RECORDS + 1, UINT64_MAX};
    for (size_t i = 0; i < sizeof numbers / sizeof numbers[0]; i++) {
        check_forget_refused(numbers[i], 10);
        check_why("  why", numbers[i], 10, NONE_WROTE);
    }
}

/* Each zero of the record's places is another. */
static void check_zeros(size_t depth) {
    static const int zeros[RECORD_PLACES] = {18, 18, 22};
    for (size_t place = 0; place < RECORD_PLACES; place++) {
        for (int bit = 0; bit < zeros[place]; bit++) {
            uint64_t odd[RECORD_PLACES] = {FIRST_PLACE, SECOND_PLACE, LAST_PLACE};
            odd[place] |= UINT64_C(1) << bit;
            make_records(depth, odd);
            check_forget_refused(1, 10);
            check_why("  why", 2, 10, NONE_WROTE);
        }
    }
}

static void test_forget_records(void) {
    for (size_t depth = 0; depth < RECORDS; depth++) {
        printf("records that are ill-formed, with %zu below and %zu above\n", depth, RECORDS - 1 - depth);
        for (size_t i = 0; i < sizeof ill_formed_records / sizeof ill_formed_records[0]; i++) {
            printf("  %s\n", ill_formed_records[i].name);
            make_records(depth, ill_formed_records[i].places);
            check_records_refused();
            if (depth < RECORDS - 1) check("  step-back of the top record", 0, step_back());
        }
        check_zeros(depth);
        make_records(depth, formed);
        check_forgotten(depth, depth * RECORD_PLACES);
    }
}

/* Places in use that are records but for what is left over below, or for a record that reaches below place 0. */
static const struct { uint64_t used, kept, places[4]; } left_over[] = {
    {1, 1, {0}},
    {1, 1, {PLACE_OF_STEP(0, 0, 0, 1)}},
    {2, 1, {0, PLACE_OF_STEP(0, 0, 0, 0)}},
    {2, 2, {0, PLACE_OF_STEP(0, 0, 0, 0)}},
    {2, 1, {FIRST_PLACE, PLACE_OF_STEP(0, 0, 0, 0)}},
    {2, 1, {UINT64_MAX, PLACE_OF_STEP(0, 0, 0, 0)}},
    {2, 1, {FIRST_PLACE, PLACE_OF_STEP(0, 0, 0, 2)}},
    {2, 2, {PLACE_OF_STEP(0, 0, 0, 1), PLACE_OF_STEP(0, 0, 0, 0)}},
    {4, 2, {PLACE_OF_STEP(0, 0, 0, 1), FIRST_PLACE, SECOND_PLACE, PLACE_OF_STEP(0, 0, 0, 2)}},
    {4, 1, {0, 0, FIRST_PLACE, PLACE_OF_STEP(0, 0, 0, 1)}},
    {4, 2, {FIRST_PLACE, FIRST_PLACE, PLACE_OF_STEP(0, 0, 0, 1), PLACE_OF_STEP(0, 0, 0, 0)}},
};

static void test_forget_left_over(void) {
    puts("places left over below the records, and records that reach below place 0");
    for (size_t i = 0; i < sizeof left_over / sizeof left_over[0]; i++) {
        begin("JUMP 1 WRITECH STOP", 4, 8);
        memcpy(history, left_over[i].places, sizeof left_over[i].places);
        registers[SAM_U] = left_over[i].used;
        registers[SAM_KEPT] = left_over[i].kept;
        mark_unused();
        check_records_refused();
    }
}

static void test_forget_kept_numbers(void) {
    puts("kept numbers that are not that of the records, of three and of one place");
    for (uint64_t kept = 0; kept <= RECORDS * RECORD_PLACES + 1; kept++) {
        make_records(0, formed);
        registers[SAM_KEPT] = kept;
        if (kept == RECORDS) check_forgotten(RECORDS, RECORDS * RECORD_PLACES);
        else check_records_refused();
    }
    for (uint64_t kept = 0; kept <= 9; kept++) {
        make_by_hand(8, 8, kept, short_record, 1);
        mark_unused();
        if (kept == 8) check_forgotten(3, 3);
        else check_records_refused();
    }
    make_records(0, formed);
    registers[SAM_KEPT] = RECORDS - 1;
    check("  a step takes it", 0, step());
}

static void test_forget_unwritten(void) {
    static const uint64_t writing[RECORD_PLACES] = {FIRST_PLACE, SECOND_PLACE, PLACE_OF_STEP(1, 3, 3, 2)};
    puts("a WRITECH's record with nothing written");
    for (size_t depth = 0; depth < RECORDS; depth++) {
        make_records(depth, writing);
        remember();
        check("  step-back", depth == RECORDS - 1 ? 10 : 0, step_back());
        if (depth == RECORDS - 1) check_unchanged("  nothing changed");
        make_records(depth, writing);
        check_forgotten(2, 2 * RECORD_PLACES);
    }
}

/* Neither 1 nor 2 is asked, and 10 comes before 14. */
static void test_order_of_forget(void) {
    puts("a forget of a halted machine, and at the end of the program");
    make_records(0, formed);
    registers[SAM_HALT] = 1;
    check_forgotten(1, RECORD_PLACES);
    registers[SAM_PC] = length;
    check_forgotten(1, RECORD_PLACES);
    check_forget_refused(RECORDS, 14);
    puts("10 before 14");
    tags[3] = 5;
    check_records_refused();
    tags[3] = SAM_INT;
    registers[SAM_WRITTEN] = output_len + 1;
    check_records_refused();
    registers[SAM_WRITTEN] = 0;
    length = SAM_TABLE_PLACES + 1;
    check_records_refused();
    length = 3;
    check_forget_refused(RECORDS, 14);
    check_forgotten(3, 3 * RECORD_PLACES);
}

/* Five places: records of two, one and two fill them. */
static void test_forget_gains_room(void) {
    puts("8, a forget, and the room used");
    begin("a: PUSHIMM 1 JUMP a", 16, 5);
    mark_unused();
    check("  run", 8, run(100));
    check_count("  kept", 3, 5);
    check_refused_again(8);
    check_forgotten(1, 2);
    check("  JUMP", 0, step());
    check("  PUSHIMM, where one place is free", 8, step());
    check_forgotten(1, 1);
    check("  PUSHIMM", 0, step());
    check_refused_again(8);
    check("  oldest", PLACE_OF_STEP(0, 1, 0, 1), history[1]);
    check("  newest", PLACE_OF_STEP(0, 2, 0, 1), history[4]);
    check_forgotten(3, 5);
    check("  run", 8, run(100));
    check("  steps", 3, told[0]);
    check_count("  kept", 3, 4);
    check_ends_marked();
}

/* Steps that are forgotten whenever the history is full: more than it has places in all. */
static void test_long_session(void) {
    static const uint64_t forgotten[] = {1, 5000, SAM_HISTORY_LIMIT, 4096, 1};
    puts("a long session in 8,192 places");
    begin("a: JUMP a", 1, SAM_HISTORY_LIMIT);
    check("  run", 8, run(SAM_RUN_LIMIT));
    check("  steps", SAM_HISTORY_LIMIT, told[0]);
    mark_unused();
    for (size_t i = 0; i < sizeof forgotten / sizeof forgotten[0]; i++) {
        history[0] |= 1;
        check_forget_refused(1, 10);
        history[0] &= ~UINT64_C(1);
        check_forget_refused(SAM_HISTORY_LIMIT + 1, 14);
        check_forgotten(forgotten[i], forgotten[i]);
        check("  run", 8, run(SAM_RUN_LIMIT));
        check("  steps", forgotten[i], told[0]);
        check_count("  kept", SAM_HISTORY_LIMIT, SAM_HISTORY_LIMIT);
    }
}

/* Two of three characters belong to steps that are forgotten: they stay. */
static void test_forget_leaves_output(void) {
    puts("characters of steps that are forgotten");
    output_len = 4;
    begin("a: PUSHIMMCH 72 WRITECH JUMP a", 4, 16);
    check("  run", 50, run(9));
    mark_unused();
    check_forgotten(5, 7);
    check_output("  written", "HHH", 3);
    for (int i = 0; i < 4; i++) check("  step-back", 0, step_back());
    check("  step-back", 9, step_back());
    check_output("  written", "HH", 2);
    check("  dropped byte", 0, output[2]);
    check("  run", 50, run(6));
    check_forgotten(6, 8);
    check_output("  written", "HHHH", 4);
    output_len = SAM_OUTPUT_LIMIT;
}

/* The complaint of document 01, and at the doors: what is older than the trial's last step is forgotten first. */
static void test_complaint_after_forget(void) {
    puts("the complaint, after the steps before the trial were forgotten");
    begin("PUSHIMM 40 PUSHIMMF #40200000 STOREOFF 0", 16, 6);
    check("  run", 50, run(3));
    mark_unused();
    check_forgotten(2, 4);
    check_cell("  the trial", 0, SAM_FLOAT, 0x40200000);
    check("  cell place", UINT64_C(0x0000000000A00000), history[0]);
    check("  step place", UINT64_C(0x8020080000400000), history[1]);
    check("  step-back", 0, step_back());
    check_cell("  tag and bits", 0, SAM_INT, 40);
    check_count("  kept", 0, 0);
    check("  PC", 2, registers[SAM_PC]);
    check("  SP", 2, registers[SAM_SP]);
    for (size_t i = 0; i < 6; i++) check("  freed place", 0, history[i]);
    check("  step-back", 9, step_back());
    puts("the complaint at the doors, with all but the trial's last steps forgotten");
    begin(TRIAL, 16, 16);
    check("  run", 0, run(100));
    check_dwell("  read", 0, 25);
    mark_unused();
    check_forgotten(2, 4);
    check_dwell("  read", 0, 25);
    check("  STOP taken back", 0, step_back());
    check_dwell("  not halted", 60, 0);
    check("  STOREOFF taken back", 0, step_back());
    check_cell("  tag and bits", 0, SAM_INT, 40);
    check("  step-back", 9, step_back());
    check("  assemble the program", 0, assemble(DOORS));
    registers[SAM_PC] = 1;
    registers[SAM_SP] = 1;
    check("  STOP", 0, step());
    check_dwell("  read", 0, 40);
}

/* ---- request l: why does this cell hold that? */

/* Places of a table. */
#define PUSHIMM(n) (AT(32, 1) | (n))
#define SECONDS (AT(32, 2) | 0x40200000)
#define DUP AT(32, 3)
#define SWAP AT(32, 4)
#define ADD AT(32, 5)
#define SUB AT(32, 6)
#define POPSP AT(32, 35)
#define PUSHFBR AT(32, 36)
#define ADDSP(n) (AT(32, 39) | (n))
#define STOREIND AT(32, 41)
#define STOREOFF_0 AT(32, 43)
#define PUSHIMMPA(t) (AT(32, 49) | (t))
#define WRITECH AT(32, 53)

#define WROTE(steps_back, pc, place, tag, value) {1, steps_back, pc, place, tag, value}

static void check_named(const char *name, uint64_t cell, uint64_t steps_back, uint64_t pc, uint64_t place, uint64_t tag,
                        uint64_t value) {
    struct wrote expected = WROTE(steps_back, pc, place, tag, value);
    check_why(name, cell, 0, expected);
}

/* The complaint of document 01: whose is the dwell in cell 0? */
static void test_complaint_asked(void) {
    puts("the complaint: why does cell 0 hold that?");
    begin("PUSHIMM 40 PUSHIMMF #40200000 STOREOFF 0", 16, 6);
    check_why("  no step yet", 0, 0, NONE_WROTE);
    check("  run", 50, run(3));
    check_cell("  after the trial", 0, SAM_FLOAT, 0x40200000);
    check_named("  the trial, and the 40 tenths before it", 0, 1, 2, STOREOFF_0, SAM_INT, 40);
    check_named("  the seconds that it stored", 1, 2, 1, SECONDS, SAM_INT, 0);
    check_why("  never written", 2, 0, NONE_WROTE);
    check("  step-back", 0, step_back());
    check_cell("  after the step-back", 0, SAM_INT, 40);
    check_named("  the PUSHIMM, and what was before it", 0, 2, 0, PUSHIMM(40), SAM_INT, 0);
    check_named("  the seconds", 1, 1, 1, SECONDS, SAM_INT, 0);
    check("  the trial again", 0, step());
    check("  forget all before it", 0, forget(2));
    check_named("  the trial, and the 40 tenths before it", 0, 1, 2, STOREOFF_0, SAM_INT, 40);
    check_why("  forgotten", 1, 0, NONE_WROTE);
    check("  step-back", 0, step_back());
    check_cell("  after the step-back", 0, SAM_INT, 40);
    check_why("  no step is kept that wrote it", 0, 0, NONE_WROTE);
}

enum { ASKED = 3 };

/* After so many of SEVEN_STEPS: what is told of cells 0, 1 and 2. */
static const struct wrote seven_whys[8][ASKED] = {
    {{0}},
    {WROTE(1, 0, PUSHIMM(1), SAM_INT, 0)},
    {WROTE(2, 0, PUSHIMM(1), SAM_INT, 0), WROTE(1, 1, DUP, SAM_INT, 0)},
    {WROTE(1, 2, SWAP, SAM_INT, 1), WROTE(1, 2, SWAP, SAM_INT, 1)}, /* of two equal values */
    {WROTE(1, 3, ADD, SAM_INT, 1), WROTE(2, 2, SWAP, SAM_INT, 1)},
    {WROTE(2, 3, ADD, SAM_INT, 1), WROTE(3, 2, SWAP, SAM_INT, 1)}, /* a JUMP writes no cell */
    {WROTE(3, 3, ADD, SAM_INT, 1), WROTE(1, 5, ADDSP(2), SAM_INT, 1), WROTE(1, 5, ADDSP(2), SAM_INT, 0)},
    {WROTE(4, 3, ADD, SAM_INT, 1), WROTE(2, 5, ADDSP(2), SAM_INT, 1), WROTE(2, 5, ADDSP(2), SAM_INT, 0)},
};

/* The other cells were not written, the last and one above SP among them. */
static void check_asked(const struct wrote *expected) {
    for (size_t cell = 0; cell < ASKED; cell++) check_why("  why", cell, 0, expected[cell]);
    check_why("  not written", ASKED, 0, NONE_WROTE);
    check_why("  the last", n - 1, 0, NONE_WROTE);
    check_why("  no cell", n, 6, NONE_WROTE);
}

static void test_why_of_steps(void) {
    puts("why, after each of seven steps and each step-back");
    begin(SEVEN_STEPS, 16, 14);
    check_asked(seven_whys[0]);
    for (size_t steps = 1; steps <= 7; steps++) {
        check("  step", 0, step());
        check_asked(seven_whys[steps]);
    }
    for (size_t steps = 7; steps-- > 0;) {
        check("  step-back", 0, step_back());
        check_asked(seven_whys[steps]);
    }
}

/* The ADD is the fourth of the seven, the ADDSP the sixth. */
static void test_why_of_forgotten(void) {
    for (uint64_t k = 0; k <= 7; k++) {
        printf("why, with %llu of seven steps forgotten\n", (unsigned long long)k);
        begin(SEVEN_STEPS, 16, 20);
        check("  run", 0, run(100));
        check("  forget", 0, forget(k));
        check_why("  ADD", 0, 0, k < 4 ? seven_whys[7][0] : NONE_WROTE);
        check_why("  ADDSP", 1, 0, k < 6 ? seven_whys[7][1] : NONE_WROTE);
        check_why("  ADDSP", 2, 0, k < 6 ? seven_whys[7][2] : NONE_WROTE);
        check_why("  no cell", 16, 6, NONE_WROTE);
    }
}

enum { FEW = 5 };

/* A program, the steps it makes, and what is told of cells 0 to 4. */
static const struct { const char *source; uint64_t steps; struct wrote told[FEW]; } asked_programs[] = {
    {"PUSHIMM 7 PUSHIMM 8 ADDSP -1 ADDSP 3", 4, /* a fill over an 8 that was taken off */
     {WROTE(4, 0, PUSHIMM(7), SAM_INT, 0), WROTE(1, 3, ADDSP(3), SAM_INT, 8), WROTE(1, 3, ADDSP(3), SAM_INT, 0),
      WROTE(1, 3, ADDSP(3), SAM_INT, 0)}},
    {"PUSHIMM 7 PUSHSP PUSHIMM 3 ADD POPSP", 5, /* and over the MA that POPSP took */
     {WROTE(5, 0, PUSHIMM(7), SAM_INT, 0), WROTE(1, 4, POPSP, SAM_MA, 4), WROTE(1, 4, POPSP, SAM_INT, 3),
      WROTE(1, 4, POPSP, SAM_INT, 0)}},
    {"PUSHIMM 7 PUSHIMMCH 65 SWAP", 3, {WROTE(1, 2, SWAP, SAM_INT, 7), WROTE(1, 2, SWAP, SAM_CH, 65)}},
    {"PUSHIMMPA 1 LINK PUSHFBR PUSHIMMF 2.5 STOREIND", 5,
     {WROTE(5, 0, PUSHIMMPA(1), SAM_INT, 0), WROTE(1, 4, STOREIND, SAM_MA, 0), WROTE(3, 2, PUSHFBR, SAM_INT, 0),
      WROTE(2, 3, SECONDS, SAM_INT, 0)}},
    {"PUSHIMM 7 DUP STOREOFF 0", 3, /* with what it held */
     {WROTE(1, 2, STOREOFF_0, SAM_INT, 7), WROTE(2, 1, DUP, SAM_INT, 0)}},
    {"PUSHIMM 7 PUSHIMM 8 ADDSP -2", 3, /* at SP and above */
     {WROTE(3, 0, PUSHIMM(7), SAM_INT, 0), WROTE(2, 1, PUSHIMM(8), SAM_INT, 0)}},
    {"PUSHIMM 3 a: PUSHIMM 1 SUB DUP JUMPC a STOP", 14, /* again and again */
     {WROTE(4, 2, SUB, SAM_INT, 1), WROTE(3, 3, DUP, SAM_INT, 1)}},
    {"PUSHIMMPA 1 ADDSP -1 PUSHIMMCH 9", 3, {WROTE(1, 2, AT(32, 52) | 9, SAM_PA, 1)}},
    {"PUSHIMMF #FFFFFFFF PUSHIMM 0 STOREOFF 0", 3,
     {WROTE(1, 2, STOREOFF_0, SAM_FLOAT, UINT32_MAX), WROTE(2, 1, PUSHIMM(0), SAM_INT, 0)}},
    {"JUMP 1 ADDSP 0 STOP", 3, {{0}}},
};

static void test_why_of_programs(void) {
    for (size_t i = 0; i < sizeof asked_programs / sizeof asked_programs[0]; i++) {
        printf("why: %s\n", asked_programs[i].source);
        for (size_t places = 0; places <= 64; places += 64) {
            begin(asked_programs[i].source, 8, places);
            run(asked_programs[i].steps);
            check("  steps", asked_programs[i].steps, told[0]);
            for (size_t cell = 0; cell < FEW; cell++) {
                check_why("  why", cell, 0, places == 0 ? NONE_WROTE : asked_programs[i].told[cell]);
            }
            check_why("  no cell", 8, 6, NONE_WROTE);
        }
    }
}

/* Not below N = 4, some with the number of a cell in their lowest bits. */
static const uint64_t beyond_cells[] = {
    4, 5, 256, 258, 1000, 1023, 1024, 1026, 65536, 65538, UINT64_C(1) << 32, (UINT64_C(1) << 32) + 1,
    (UINT64_C(1) << 32) + 2, UINT64_C(1) << 63, (UINT64_C(1) << 63) + 2, UINT64_MAX - 1, UINT64_MAX,
};

static void check_beyond(uint32_t number) {
    for (size_t i = 0; i < sizeof beyond_cells / sizeof beyond_cells[0]; i++) {
        check_why("  no cell", beyond_cells[i], number, NONE_WROTE);
    }
}

/* Five records that wrote cells 0 and 2, of which that at this depth is a WRITECH's that wrote 1 and 3. */
static const uint64_t other_cells[RECORD_PLACES] = {
    PLACE_OF_CELL(1, SAM_MA, UINT32_MAX), PLACE_OF_CELL(3, SAM_PA, 3), PLACE_OF_STEP(1, 0, 0, 2),
};

static void check_why_at_depth(size_t depth) {
    uint64_t newest = depth == RECORDS - 1 ? 2 : 1;
    check_named("  cell 0", 0, newest, 2, 0, SAM_FLOAT, 5);
    check_named("  cell 1", 1, RECORDS - depth, 1, WRITECH, SAM_MA, UINT32_MAX);
    check_named("  cell 2", 2, newest, 2, 0, SAM_CH, 127);
    check_named("  cell 3", 3, RECORDS - depth, 1, WRITECH, SAM_PA, 3);
}

/* PCs up to the last of a full program, whose places are each unlike the others. */
static void test_why_of_places(void) {
    static const uint64_t pcs[] = {0, 1, 255, 256, 511, 512, 1000, 1023};
    puts("why, in a program of 1,024 instructions");
    begin("STOP", 4, 8);
    for (uint64_t i = 0; i < SAM_TABLE_PLACES; i++) table[i] = PUSHIMM(UINT32_MAX - i);
    length = SAM_TABLE_PLACES;
    registers[SAM_U] = 2;
    registers[SAM_KEPT] = 1;
    for (size_t i = 0; i < sizeof pcs / sizeof pcs[0]; i++) {
        history[0] = PLACE_OF_CELL(3, SAM_MA, 9);
        history[1] = PLACE_OF_STEP(pcs[i], 0, 0, 1);
        check_named("  why", 3, 1, pcs[i], PUSHIMM(UINT32_MAX - pcs[i]), SAM_MA, 9);
    }
}

/* Neither HALT nor PC nor SP nor what is written is looked at, and 10 comes before 6. */
static void test_order_of_why(void) {
    for (size_t depth = 0; depth < RECORDS; depth++) {
        printf("why, with %zu records below the one that wrote the cell\n", depth);
        make_records(depth, other_cells);
        memset(output, MARK, sizeof output);
        check_why_at_depth(depth);
        check_beyond(6);
        registers[SAM_HALT] = 1;
        registers[SAM_SP] = 3;
        check_why_at_depth(depth);
        registers[SAM_PC] = length;
        check_why_at_depth(depth);
        check_ends_marked();
        registers[SAM_KEPT]--;
        check_beyond(10);
        registers[SAM_KEPT]++;
        tags[3] = 5;
        check_beyond(10);
        tags[3] = SAM_INT;
        length = SAM_TABLE_PLACES + 1;
        check_beyond(10);
        length = 3;
        check_why_at_depth(depth);
    }
}

static void test_why_of_many(void) {
    puts("why: a cell written long ago");
    begin("PUSHIMM 40 a: JUMP a", 2, SAM_HISTORY_LIMIT);
    check("  run", 8, run(SAM_RUN_LIMIT));
    check("  steps", SAM_HISTORY_LIMIT - 1, told[0]);
    check_named("  the oldest", 0, SAM_HISTORY_LIMIT - 1, 0, PUSHIMM(40), SAM_INT, 0);
    check_why("  not written", 1, 0, NONE_WROTE);
    check_why("  no cell", 2, 6, NONE_WROTE);
    history[0] |= 1;
    check_why("  ill-formed", 0, 10, NONE_WROTE);
    history[0] &= ~UINT64_C(1);
    check("  forget", 0, forget(1));
    check_why("  forgotten", 0, 0, NONE_WROTE);
    puts("why: many cells written at once");
    begin("ADDSP 999", SAM_CELL_LIMIT, SAM_CELL_LIMIT);
    check("  step", 0, step());
    for (uint64_t cell = 0; cell < 999; cell++) check_named("  filled", cell, 1, 0, ADDSP(999), SAM_INT, 0);
    check_why("  not written", 999, 0, NONE_WROTE);
    for (uint64_t cell = 1000; cell <= 1030; cell++) check_why("  no cell", cell, 6, NONE_WROTE);
}

/* What was done before a reset or a load is not kept; a refused load leaves zeros for registers. */
static void test_why_of_new_origin(void) {
    puts("why, after a reset and after a load");
    begin("PUSHIMM 7 STOP", 4, 8);
    check("  run", 0, run(100));
    check_named("  pushed", 0, 2, 0, PUSHIMM(7), SAM_INT, 0);
    check("  reset", 0, reset(4, 8));
    check_why("  no step", 0, 0, NONE_WROTE);
    check("  run", 0, run(100));
    check("  load", 0, load_with(four_zeros, 24, SAM_TABLE_PLACES, SAM_REGISTERS, 4, 4, 8, output_len));
    check_why("  no step", 0, 0, NONE_WROTE);
    check("  run", 0, run(100));
    check_named("  pushed", 0, 2, 0, PUSHIMM(7), SAM_INT, 0);
    check("  a load that is refused", 41, load_with(four_zeros, 23, SAM_TABLE_PLACES, SAM_REGISTERS, 4, 4, 8,
                                                    output_len));
    check_why("  no registers", 0, 10, NONE_WROTE);
}

static void test_why_unwritten(void) {
    static const uint64_t writing[RECORD_PLACES] = {FIRST_PLACE, SECOND_PLACE, PLACE_OF_STEP(1, 3, 3, 2)};
    puts("why, by a WRITECH's record with nothing written");
    for (size_t depth = 0; depth < RECORDS; depth++) {
        bool is_newest = depth == RECORDS - 1;
        make_records(depth, writing);
        check_named("  why", 2, 1, is_newest ? 1 : 2, is_newest ? WRITECH : 0, SAM_CH, 127);
    }
}

/* Of slices of another length; told and registers are in test_lengths_of_machine_calls. */
static void test_lengths_of_why(void) {
    puts("why, with a table, cells, tags, a history and an output of another length");
    make_records(0, formed);
    for (size_t i = 0; i < 6; i++) {
        size_t places = SAM_TABLE_PLACES - (i == 0), cells = n - (i == 1), tag_count = n + (i == 2);
        size_t history_len = h - (i == 3) + (i == 4), size = i == 5 ? SAM_OUTPUT_LIMIT + 1 : output_len;
        mark_told();
        remember();
        check("  10", 10, sam_why(table, places, length, 0, registers, SAM_REGISTERS, bits, cells, tags, tag_count,
                                  history, history_len, output, size, told, SAM_WHY_TOLD));
        check_wrote(NONE_WROTE);
        check_unchanged("  nothing written");
    }
    check_named("  all of the right length", 0, 1, 2, 0, SAM_FLOAT, 5);
}

/* ---- request j: a depth list with each delivered program */

enum { MANY = 65536 }; /* more than a length, by a number whose lowest sixteen bits are 0 */

static uint16_t depths[MANY + SAM_TABLE_PLACES], depths_before[MANY + SAM_TABLE_PLACES];
static uint64_t table_before[SAM_TABLE_PLACES + 1];
static size_t depths_len;

/* A list as words: a number, or `-` for a place that is not reached. */
static void read_depths(const char *words) {
    depths_len = 0;
    while (*words != '\0') {
        unsigned depth = SAM_NOT_REACHED;
        int width = 1;
        if (*words != '-') sscanf(words, "%u%n", &depth, &width);
        depths[depths_len++] = (uint16_t)depth;
        words += width;
        while (*words == ' ') words++;
    }
}

static uint32_t judge(size_t places, uint64_t program_length, uint64_t cells, size_t count, size_t told_len) {
    mark_told();
    memcpy(depths_before, depths, sizeof depths);
    memcpy(table_before, table, sizeof table);
    return sam_depths(table, places, program_length, cells, depths, count, told, told_len);
}

/* Nothing is written but told. */
static void check_only_told(size_t told_from) {
    check("  list unchanged", 0, (uint64_t)(memcmp(depths, depths_before, sizeof depths) != 0));
    check("  table unchanged", 0, (uint64_t)(memcmp(table, table_before, sizeof table) != 0));
    check_told_marked(told_from);
}

/* The number and the place for the program in `table` and this many of `depths`. */
static void check_judged(const char *name, uint64_t cells, size_t count, uint32_t number, uint64_t place) {
    check(name, number, judge(SAM_TABLE_PLACES, length, cells, count, 1));
    check("  place", place, told[0]);
    check_only_told(1);
}

/* A program, N, its list, and the answer. */
static const struct { const char *source; uint64_t cells; const char *words; uint32_t number; uint64_t place; }
lists[] = {
    {"STOP", 1, "0", 0, 0},
    {"PUSHIMM 6 PUSHIMM 4 CMP STOP", 3, "0 1 2 1", 0, 0},
    {"PUSHIMM 3 a: PUSHIMM 1 SUB DUP JUMPC a STOP", 3, "0 1 2 1 2 1", 0, 0},
    {"JUMP 2 ADD STOP", 1, "0 - 0", 0, 0},
    {"JUMP 0", 1, "0", 0, 0},
    {"STOP PUSHIMM 1", 1, "0 -", 0, 0},
    {"STOP ADD STOP", 16, "0 2 1", 0, 0}, /* nothing leads to place 1 */
    /* README's example: two ways to one STOP */
    {"PUSHIMM 1 JUMPC 4 PUSHIMM 20 JUMP 5 PUSHIMM 40 STOP", 2, "0 1 0 1 0 1", 0, 0},
    {"PUSHIMM 1 JUMPC 4 PUSHIMM 20 JUMP 5 PUSHIMM 40 STOP", 1, "0 1 0 1 0 1", 66, 0},
    {"PUSHIMM 1 JUMPC 4 PUSHIMM 20 JUMP 5 PUSHIMM 40 STOP", 2, "0 1 0 1 0 2", 66, 3},
    /* "place 0 has depth 0" */
    {"STOP", 16, "1", 66, 0},
    {"STOP", 16, "-", 66, 0},
    {"STOP", 16, "65534", 66, 0},
    {"STOP STOP", 16, "- 0", 66, 0},
    /* "every place with a depth has enough values for its instruction" */
    {"ADD STOP", 16, "0 0", 66, 0},
    {"PUSHIMM 1 ADD STOP", 16, "0 1 0", 66, 1},
    {"DUP STOP", 16, "0 1", 66, 0},
    {"STOP DUP STOP", 16, "0 1 2", 0, 0},
    {"STOP SWAP STOP", 16, "0 1 1", 66, 1},
    {"STOP SWAP STOP", 16, "0 2 2", 0, 0},
    {"STOP STOREIND STOP", 16, "0 1 0", 66, 1},
    {"STOP STOREIND STOP", 16, "0 2 0", 0, 0},
    {"STOREOFF 0 STOP", 16, "0 0", 66, 0},
    {"PUSHOFF 0 STOP", 16, "0 1", 0, 0}, /* a run meets 6 */
    {"STOP PUSHIND STOP", 16, "0 0 0", 66, 1},
    {"STOP PUSHIND STOP", 16, "0 1 1", 0, 0},
    {"WRITECH STOP", 16, "0 0", 66, 0},
    {"JUMPC 1 STOP", 16, "0 0", 66, 0},
    {"ADDSP -1 STOP", 16, "0 0", 66, 0},
    {"STOP ADDSP -3 STOP", 16, "0 2 0", 66, 1},
    {"STOP ADDSP -3 STOP", 16, "0 3 0", 0, 0},
    {"ADDSP 3 ADDSP -3 STOP", 4, "0 3 0", 0, 0},
    {"LINK POPFBR STOP", 2, "0 1 0", 0, 0},
    {"PUSHSP PUSHFBR PUSHIMMPA 0 PUSHIMMF 2.5 PUSHIMMCH 65 WRITECH FTOI ITOF STOP", 6, "0 1 2 3 4 5 4 4 4", 0, 0},
    /* "its depth after is below N" */
    {"PUSHIMM 1 STOP", 1, "0 1", 66, 0},
    {"PUSHIMM 1 STOP", 2, "0 1", 0, 0},
    {"ADDSP 4 STOP", 4, "0 4", 66, 0},
    {"ADDSP 3 STOP", 4, "0 3", 0, 0},
    {"STOP STOP", 16, "0 15", 0, 0},
    {"STOP STOP", 16, "0 16", 66, 1},
    {"STOP STOP", 1000, "0 999", 0, 0},
    {"STOP STOP", 1000, "0 1000", 66, 1},
    {"STOP STOP", 1000, "0 65534", 66, 1},
    {"STOP WRITECH STOP", 4, "0 4 3", 0, 0},
    {"STOP WRITECH STOP", 4, "0 5 4", 66, 1},
    {"STOP ADDSP -999 STOP", 1000, "0 1998 999", 0, 0},
    {"STOP ADDSP -999 STOP", 1000, "0 1999 1000", 66, 1},
    {"STOP ADDSP 2 STOP", 1000, "0 65534 0", 66, 1}, /* the sum is exact */
    {"STOP ADDSP 999 STOP", 1000, "0 65534 997", 66, 1},
    {"STOP PUSHIMM 1 STOP", 1000, "0 65534 -", 66, 1},
    /* "each place that may follow has that same depth"; "Both ways of JUMPC count" */
    {"PUSHIMM 1 STOP", 16, "0 0", 66, 0},
    {"PUSHIMM 1 STOP", 16, "0 2", 66, 0},
    {"PUSHIMM 1 STOP", 16, "0 -", 66, 0},
    {"JUMP 2 STOP STOP", 16, "0 0 1", 66, 0},
    {"JUMP 2 STOP STOP", 16, "0 0 -", 66, 0},
    {"JUMP 2 STOP STOP", 16, "0 9 0", 0, 0},
    {"PUSHIMM 1 JUMPC 3 STOP STOP", 16, "0 1 0 0", 0, 0},
    {"PUSHIMM 1 JUMPC 3 STOP STOP", 16, "0 1 1 0", 66, 1},
    {"PUSHIMM 1 JUMPC 3 STOP STOP", 16, "0 1 0 1", 66, 1},
    {"PUSHIMM 1 JUMPC 3 STOP STOP", 16, "0 1 - 0", 66, 1},
    {"PUSHIMM 1 JUMPC 3 STOP STOP", 16, "0 1 0 -", 66, 1},
    {"PUSHIMM 1 JUMPC 0 STOP", 16, "0 1 0", 0, 0},
    {"PUSHIMM 1 JUMPC 1 STOP", 16, "0 1 0", 66, 1},
    {"PUSHIMM 1 JUMPC 2 STOP", 16, "0 1 0", 0, 0},
    {"STOP JUMP 0 STOP", 16, "0 - 7", 0, 0}, /* a place that is not reached has no rule */
    {"STOP JUMP 0 STOP", 16, "0 1 7", 66, 1},
    /* "the program's end may never follow" */
    {"PUSHIMM 1", 16, "0", 66, 0},
    {"STOP ADDSP 0", 16, "0 0", 66, 1},
    {"JUMP 1", 16, "0", 66, 0},
    {"JUMP 2 STOP", 16, "0 0", 66, 0},
    {"PUSHIMM 1 JUMPC 3 STOP", 16, "0 1 0", 66, 1},
    {"PUSHIMM 1 JUMPC 0", 16, "0 1", 66, 1},
    {"STOP JUMP 2", 16, "0 -", 0, 0},
    /* "both with their first place" */
    {"PUSHIMM 1 STOP ADD STOP", 16, "0 2 0 0", 66, 0},
    {"STOP STOP STOP JUMP 1", 16, "0 5 0 4", 66, 3},
    {"STOP JSR 0 STOP", 16, "0 0 0", 65, 1},
    {"STOP JSRIND STOP", 16, "0 - 0", 65, 1},
    {"STOP STOP JUMPIND", 16, "0 0 -", 65, 2},
    {"POPSP STOP STOP", 16, "0 0 0", 65, 0},
    {"STOP POPSP JUMPIND", 16, "0 - -", 65, 1},
    /* 65 before 66, wherever; 64 before both, and 11 before all three */
    {"ADD STOP JSRIND", 16, "0 0 -", 65, 2},
    {"ADD STOP JSRIND", 16, "- - -", 65, 2},
    {"ADD STOP JSRIND", 16, "0 0", 64, 0},
    {"ADD STOP JSRIND", 16, "0 0 - 0", 64, 0},
    {"ADD STOP JSRIND", 16, "", 64, 0},
    {"ADD STOP JSRIND", 0, "0 0", 11, 0},
    {"ADD STOP JSRIND", 0, "0 0 -", 11, 0},
    {"ADD STOP JSRIND", 1001, "", 11, 0},
    {"ADD STOP STOP", 16, "0 0", 64, 0},
    {"ADD STOP STOP", 0, "0 0 0", 11, 0},
    {"STOP", 16, "0 0", 64, 0},
    {"STOP", 16, "", 64, 0},
    {"STOP", 0, "0 0", 11, 0},
    /* "an empty program is 66 at 0" */
    {"", 16, "", 66, 0},
    {"", 1, "", 66, 0},
    {"", 16, "0", 64, 0},
    {"", 16, "-", 64, 0},
    {"", 0, "", 11, 0},
    {"", 0, "0", 11, 0},
};

static void test_depth_lists(void) {
    puts("depth lists");
    for (size_t i = 0; i < sizeof lists / sizeof lists[0]; i++) {
        printf("%s\n", lists[i].source);
        check("  assemble", 0, assemble(lists[i].source));
        read_depths(lists[i].words);
        check_judged(lists[i].words, lists[i].cells, depths_len, lists[i].number, lists[i].place);
    }
}

static const uint64_t no_cells[] = {
    0, 1001, 1002, 65536, 65540, UINT64_C(1) << 32, (UINT64_C(1) << 32) + 1, (UINT64_C(1) << 32) + 1000,
    UINT64_C(1) << 63, UINT64_MAX,
};

static void test_cells_of_depths(void) {
    puts("depth lists: N, and a list that is much too long");
    check("  assemble", 0, assemble("PUSHIMM 6 PUSHIMM 4 CMP STOP"));
    read_depths("0 1 2 1");
    for (size_t i = 0; i < sizeof no_cells / sizeof no_cells[0]; i++) {
        check_judged("  N outside", no_cells[i], 4, 11, 0);
        check_judged("  and a list too short", no_cells[i], 3, 11, 0);
    }
    check_judged("  N 1", 1, 4, 66, 0);
    check_judged("  N 2", 2, 4, 66, 1);
    for (uint64_t cells = 3; cells <= SAM_CELL_LIMIT; cells += 1 + cells / 3) check_judged("  N", cells, 4, 0, 0);
    check_judged("  N 1,000", SAM_CELL_LIMIT, 4, 0, 0);
    check_judged("  a list of 65,540", SAM_CELL_LIMIT, 4 + MANY, 64, 0);
}

/* 10 before all else but 31, with a list that is accepted, 66, 64 and for an N of 0. */
static void check_broken_depths(const char *name, size_t places, uint64_t program_length) {
    static const struct { uint64_t cells; size_t count; uint16_t first; } behind[] = {
        {16, 4, 0}, {16, 4, 1}, {16, 3, 0}, {0, 4, 0}, {0, 0, 1},
    };
    for (size_t i = 0; i < sizeof behind / sizeof behind[0]; i++) {
        depths[0] = behind[i].first;
        check(name, 10, judge(places, program_length, behind[i].cells, behind[i].count, 1));
        check("  place", 0, told[0]);
        check_only_told(1);
        check("  31", 31, judge(places, program_length, behind[i].cells, behind[i].count, 0));
        check_only_told(0);
    }
}

static void test_broken_tables_of_depths(void) {
    puts("depth lists: broken tables");
    check("  assemble", 0, assemble("PUSHIMM 6 PUSHIMM 4 CMP STOP"));
    read_depths("0 1 2 1");
    check_broken_depths("  1,023 places", SAM_TABLE_PLACES - 1, length);
    check_broken_depths("  1,025 places", SAM_TABLE_PLACES + 1, length);
    check_broken_depths("  no place", 0, length);
    check_broken_depths("  length 1,025", SAM_TABLE_PLACES, SAM_TABLE_PLACES + 1);
    check_broken_depths("  length 2^32 + 4", SAM_TABLE_PLACES, (UINT64_C(1) << 32) + length);
    check_broken_depths("  a place unused that is not zero", SAM_TABLE_PLACES, 2);
    table[2] = UINT64_C(54) << 32;
    check_broken_depths("  code 54", SAM_TABLE_PLACES, length);
    table[2] = UINT64_C(47) << 32 | 5; /* JSR, which is 65, but with a target above the length */
    check_broken_depths("  JSR 5", SAM_TABLE_PLACES, length);
}

/* "31 before anything else": with a list that is accepted, and with each refusal. */
static void test_told_of_depths(void) {
    static const struct { const char *source; uint64_t cells; size_t count; uint32_t number; } kinds[] = {
        {"STOP STOP", 16, 2, 0}, {"STOP STOP", 0, 2, 11}, {"STOP STOP", 16, 1, 64}, {"STOP JSRIND", 16, 2, 65},
        {"DUP STOP", 16, 2, 66}, {"", 16, 0, 66},
    };
    puts("depth lists: a told of another length");
    read_depths("0 0");
    for (size_t i = 0; i < sizeof kinds / sizeof kinds[0]; i++) {
        check("  assemble", 0, assemble(kinds[i].source));
        check("  a told of one", kinds[i].number, judge(SAM_TABLE_PLACES, length, kinds[i].cells, kinds[i].count, 1));
        for (size_t told_len = 0; told_len <= SAM_ASSEMBLE_TOLD + 1; told_len++) {
            if (told_len == 1) continue;
            check("  31", 31, judge(SAM_TABLE_PLACES, length, kinds[i].cells, kinds[i].count, told_len));
            check_only_told(0);
        }
    }
}

/* 1,024 places: pushes and what takes them off in turns, and at the end two that lead to place 0. */
static void test_full_depths(void) {
    puts("depth lists: 1,024 places");
    for (size_t i = 0; i < SAM_TABLE_PLACES; i++) {
        table[i] = i % 2 == 0 ? UINT64_C(1) << 32 : UINT64_C(39) << 32 | UINT32_MAX; /* PUSHIMM 0, ADDSP -1 */
        depths[i] = i % 2;
    }
    length = SAM_TABLE_PLACES;
    table[1022] = UINT64_C(44) << 32 | 1023; /* JUMP 1023 */
    table[1023] = UINT64_C(44) << 32;        /* JUMP 0 */
    depths[1023] = 0;
    check_judged("  a loop", 2, 1024, 0, 0);
    check_judged("  one cell", 1, 1024, 66, 0);
    check_judged("  a list of 1,023", 2, 1023, 64, 0);
    check_judged("  a list of 1,025", 2, 1025, 64, 0);
    check_judged("  a list of 66,560", 2, 1024 + MANY, 64, 0);
    check_judged("  no list", 2, 0, 64, 0);
    table[1023] = UINT64_C(44) << 32 | 1024;
    check_judged("  the end follows", 2, 1024, 66, 1023);
    table[1023] = UINT64_C(39) << 32;
    check_judged("  the end follows ADDSP 0", 2, 1024, 66, 1023);
    table[1023] = UINT64_C(46) << 32;
    check_judged("  JUMPIND", 2, 1024, 65, 1023);
    depths[1] = 2;
    check_judged("  and a failed rule before", 2, 1024, 65, 1023);
    table[1023] = 0;
    check_judged("  the failed rule", 2, 1024, 66, 0);
}

/* A program, the least N its list is accepted for, the list, and the numbers of the last step and of a run. */
static const struct { const char *source; size_t cells; const char *words; uint32_t last, ending; } played[] = {
    {"STOP", 1, "0", 1, 0},
    {"PUSHIMM 3 a: PUSHIMM 1 SUB DUP JUMPC a STOP", 3, "0 1 2 1 2 1", 1, 0},
    {"PUSHIMM 5 DUP ISPOS JUMPC a PUSHIMM -1 TIMES a: STOP", 3, "0 1 2 2 1 2 1", 1, 0},
    {"PUSHIMM 1 PUSHFBR ADD STOP", 3, "0 1 2 1", 4, 4},
    {"PUSHIMM 1 PUSHIMM 0 DIV STOP", 3, "0 1 2 1", 5, 5},
    {"PUSHOFF 0 STOP", 2, "0 1", 6, 6},
    {"a: ADDSP 3 SWAP ADDSP -3 JUMP a", 4, "0 3 3 0", 0, 50},
};

enum { MOST_STEPS = 40 };

/* "no run of an accepted program meets 2, 3 or 7. Each place such a run reaches has SP as its listed depth." */
static void test_played_depths(void) {
    puts("depth lists: runs of accepted programs");
    for (size_t i = 0; i < sizeof played / sizeof played[0]; i++) {
        printf("%s\n", played[i].source);
        begin(played[i].source, played[i].cells, 0);
        read_depths(played[i].words);
        check_judged("  accepted", n, depths_len, 0, 0);
        check("  one cell less", n == 1 ? 11 : 66, judge(SAM_TABLE_PLACES, length, n - 1, depths_len, 1));
        uint32_t number = 0;
        for (int steps = 0; number == 0 && steps < MOST_STEPS; steps++) {
            check("  SP as listed", depths[registers[SAM_PC]], registers[SAM_SP]);
            number = step();
        }
        check("  the last step", played[i].last, number);
        check("  SP as listed", depths[registers[SAM_PC]], registers[SAM_SP]);
        check("  reset", 0, reset(n, h));
        check("  run", played[i].ending, run(MOST_STEPS));
        check("  SP as listed", depths[registers[SAM_PC]], registers[SAM_SP]);
    }
}

/* ---- request k: carry a session to the spare controller */

/* A save of the machine as it is: these bytes, the rest zero, their number told, and nothing else written. */
static void check_saved(const char *name, const uint8_t *bytes, size_t size) {
    memcpy(table_before, table, sizeof table);
    check(name, 0, save_with(SAM_REGISTERS, SAM_STATE_BYTES, 1));
    check("  length", size, told[0]);
    check_told_marked(1);
    check("  its bytes", 0, (uint64_t)(memcmp(state, bytes, size) != 0));
    check("  the rest zero", 0, others(state + size, SAM_STATE_BYTES - size, 0));
    check("  bytes changed behind it", 0, others(state + SAM_STATE_BYTES, 1, MARK));
    check_unchanged("  nothing else written");
    check("  nothing else written", 0, (uint64_t)(memcmp(table_before, table, sizeof table) != 0));
}

/* All lent memory holds what no machine does. */
static void wipe(void) {
    memset(registers, MARK, sizeof registers);
    memset(bits, MARK, sizeof bits);
    memset(tags, MARK, sizeof tags);
    memset(history, MARK, sizeof history);
    memset(output, MARK, sizeof output);
}

/* What is lent to a load. */
struct lent {
    size_t registers, cells, tags, places, bytes;
};

static uint32_t load(const uint8_t *saved, size_t saved_len, struct lent lent) {
    return load_with(saved, saved_len, SAM_TABLE_PLACES, lent.registers, lent.cells, lent.tags, lent.places,
                     lent.bytes);
}

enum { LONGEST_SAVED = 65536 + 17 }; /* that a load is tried with */

/* "A refused load does as a refused reset": zero registers, and nothing else changes. */
static void check_not_loaded(const char *name, const uint8_t *saved, size_t saved_len, size_t places, struct lent lent,
                             uint32_t number) {
    static uint8_t saved_before[LONGEST_SAVED];
    wipe();
    remember();
    memcpy(saved_before, saved, saved_len);
    check(name, number, load_with(saved, saved_len, places, lent.registers, lent.cells, lent.tags, lent.places,
                                  lent.bytes));
    for (size_t i = 0; i < SAM_REGISTERS; i++) {
        check("  registers", lent.registers == SAM_REGISTERS ? 0 : before.registers[i], registers[i]);
    }
    check("  the tenth", before.registers[0], registers[SAM_REGISTERS]);
    check_memory_unchanged("  nothing else changed");
    check("  nor the image", 0, (uint64_t)(memcmp(saved_before, saved, saved_len) != 0));
}

/* What an accepted load leaves besides cells, tags, written output, PC, SP, FBR and HALT: H is the lent history's, U
 * and the kept number are 0, history and the output's rest are zero; and nothing is written outside. */
static void check_origin(size_t cells, size_t places, size_t bytes) {
    check("  N", cells, registers[SAM_N]);
    check("  H", places, registers[SAM_H_PLACES]);
    check_count("  kept", 0, 0);
    uint64_t used = 0;
    for (size_t i = 0; i < places; i++) used += history[i] != 0;
    check("  history not zero", 0, used);
    check("  the output's rest", 0, others(output + registers[SAM_WRITTEN], bytes - registers[SAM_WRITTEN], 0));
    check("  outside", before.registers[0], registers[SAM_REGISTERS]);
    check("  outside", before.bits[cells], bits[cells]);
    check("  outside", before.tags[cells], tags[cells]);
    check("  outside", before.history[places], history[places]);
    check("  outside", before.output[bytes], output[bytes]);
}

/* The spare controller: the same cells and output, wiped before, and a history of its own. */
static void load_spare(const uint8_t *saved, size_t saved_len, size_t places) {
    wipe();
    remember();
    h = places;
    check("  load", 0, load(saved, saved_len, (struct lent){SAM_REGISTERS, n, n, h, output_len}));
    check_origin(n, h, output_len);
}

/* What is alike at both controllers. */
static void check_as_original(const char *name, const struct machine *original) {
    static const int carried[] = {SAM_N, SAM_PC, SAM_SP, SAM_FBR, SAM_HALT, SAM_WRITTEN};
    for (size_t i = 0; i < sizeof carried / sizeof carried[0]; i++) {
        check(name, original->registers[carried[i]], registers[carried[i]]);
    }
    check(name, 0, (uint64_t)(memcmp(original->bits, bits, n * sizeof bits[0]) != 0));
    check(name, 0, (uint64_t)(memcmp(original->tags, tags, n) != 0));
    check(name, 0, (uint64_t)(memcmp(original->output, output, output_len) != 0));
}

enum { CARRIED_STEPS = 8 };

/* The session goes on at the first controller until a step is refused, is saved before, and goes on at the spare one in
 * the same way. The number of steps made. */
static size_t carry_on(size_t places, uint32_t last) {
    static struct machine after[CARRIED_STEPS];
    static uint8_t carried[SAM_STATE_BYTES];
    uint32_t numbers[CARRIED_STEPS];
    size_t count = 0;
    check("  save", 0, save_with(SAM_REGISTERS, SAM_STATE_BYTES, 1));
    size_t carried_len = told[0];
    memcpy(carried, state, sizeof carried);
    do {
        numbers[count] = step();
        remember();
        after[count] = before;
    } while (numbers[count++] == 0 && count < CARRIED_STEPS);
    check("  the last step", last, numbers[count - 1]);
    load_spare(carried, carried_len, places);
    for (size_t i = 0; i < count; i++) {
        check("  the same answer", numbers[i], step());
        check_as_original("  the same machine", &after[i]);
    }
    return count - 1;
}

/* Four cells, PC 1, SP 1, and INT 40 in the first. */
static const uint8_t before_trial[24] = {0x01, 0x00, 0x08, 0x02, 0, 0, 0, 0, 0, 0, 0xA0};

/* A technician saves a session before a trial, and goes on at the spare controller. */
static void test_carried_trial(void) {
    static struct machine loaded;
    puts("a trial carried to the spare controller");
    output_len = 4;
    begin(TRIAL, 4, 16);
    check("  PUSHIMM 40", 0, step());
    check_saved("  save", before_trial, sizeof before_trial);
    check("  kept at the first controller", 1, registers[SAM_KEPT]);
    load_spare(before_trial, sizeof before_trial, 9);
    check_cell("  cell 0", 0, SAM_INT, 40);
    remember();
    loaded = before;
    check("  what was before is not taken back", 9, step_back());
    check("  nor forgotten", 14, forget(1));
    check_unchanged("  nothing changed");
    check_saved("  saved again", before_trial, sizeof before_trial);
    check("  the trial", 0, step());
    check("  the trial", 0, step());
    check_cell("  cell 0", 0, SAM_FLOAT, 0x40200000);
    check("  STOP", 0, step());
    check_dwell("  read", 0, 25);
    check("  kept", 3, registers[SAM_KEPT]);
    for (int i = 0; i < 3; i++) check("  step-back", 0, step_back());
    check("  step-back", 9, step_back());
    check_cell("  tag and bits", 0, SAM_INT, 40);
    before = loaded;
    check_unchanged("  as it was loaded");
    puts("step by step with the original");
    begin(TRIAL, 4, 16);
    check("  PUSHIMM 40", 0, step());
    check("  steps", 3, carry_on(7, 1));
    check_dwell("  read at the spare controller", 0, 25);
    puts("the dwell of 40 tenths, carried");
    begin(DOORS, 4, 0);
    check("  run", 0, run(100));
    check_dwell("  read", 0, 40);
    check("  steps", 0, carry_on(3, 1));
    check_dwell("  read at the spare controller", 0, 40);
    output_len = SAM_OUTPUT_LIMIT;
}

/* A program, cells, output and steps before the save; how many are made after it, and the number of the last. */
static const struct {
    const char *source;
    size_t cells, bytes;
    uint64_t steps;
    uint32_t last;
    size_t made;
} sessions[] = {
    {"PUSHIMM 2 a: PUSHIMM 1 SUB DUP JUMPC a STOP", 4, 0, 6, 1, 4},
    {"JSR f STOP f: PUSHIMM 7 SWAP JUMPIND", 3, 0, 2, 1, 3},
    {"PUSHIMM 1 PUSHIMM 2 ADD ADD", 4, 0, 1, 3, 2},
    {"LINK PUSHIMM 5 POPFBR", 4, 0, 1, 4, 1},
    {"PUSHIMM 1 PUSHIMM 0 DIV", 4, 0, 2, 5, 0},
    {"PUSHIMM 1 PUSHSP PUSHIND", 4, 0, 1, 6, 1},
    {"a: PUSHIMM 1 JUMP a", 3, 0, 2, 7, 2},
    {"a: PUSHIMMCH 72 WRITECH JUMP a", 3, 3, 5, 12, 5},
    {"PUSHIMM 1 PUSHIMM 2", 4, 0, 0, 2, 2},
};

static void test_carried_sessions(void) {
    static const size_t rooms[] = {0, 64};
    for (size_t i = 0; i < sizeof sessions / sizeof sessions[0]; i++) {
        for (size_t pair = 0; pair < 4; pair++) {
            printf("%s, H = %zu, carried to H = %zu\n", sessions[i].source, rooms[pair / 2], rooms[pair % 2]);
            output_len = sessions[i].bytes;
            begin(sessions[i].source, sessions[i].cells, rooms[pair / 2]);
            check("  run", sessions[i].steps > 0 ? 50 : 2, run(sessions[i].steps > 0 ? sessions[i].steps : 9));
            if (sessions[i].steps == 0) check("  reset", 0, reset(n, h));
            check("  steps", sessions[i].made, carry_on(rooms[pair % 2], sessions[i].last));
        }
    }
    output_len = SAM_OUTPUT_LIMIT;
}

/* Two cells, CH 65 and FLOAT 2.5; PC 5, SP 1, FBR 1, HALT 1, and one byte of output, 72. In bits: 0000000010
 * 00000000101 0000000001 0000000001 1 000000001, 100 and 65, 001 and 2.5, 01001000, and seven zeros. */
enum { BY_HAND = 17 };
static const uint8_t by_hand[BY_HAND] = {
    0x00, 0x80, 0x28, 0x02, 0x00, 0xC0, 0x30, 0x00, 0x00, 0x01, 0x04, 0xA0, 0x10, 0x00, 0x00, 0x24, 0x00,
};
static const struct lent FIT = {SAM_REGISTERS, 2, 2, 3, 4};

/* Six STOPs, and that state. */
static void make_state(void) {
    begin("STOP STOP STOP STOP STOP STOP", 2, 3);
    registers[SAM_PC] = 5;
    registers[SAM_SP] = registers[SAM_FBR] = registers[SAM_HALT] = registers[SAM_WRITTEN] = 1;
    tags[0] = SAM_CH, bits[0] = 65;
    tags[1] = SAM_FLOAT, bits[1] = 0x40200000;
    output[0] = 72;
}

static void test_saved_by_hand(void) {
    puts("a state by hand");
    output_len = 4;
    make_state();
    check_saved("  save", by_hand, BY_HAND);
    memset(output + 1, 0xEE, 3);
    memset(history, 0x6E, 3 * sizeof history[0]); /* no record */
    registers[SAM_U] = 3, registers[SAM_KEPT] = 2;
    check_saved("  with any history and output behind", by_hand, BY_HAND);
    static const size_t lengths[] = {0, BY_HAND, SAM_STATE_BYTES - 1, SAM_STATE_BYTES + 1};
    for (size_t i = 0; i < sizeof lengths / sizeof lengths[0]; i++) {
        check_not_saved("  an image of another length", SAM_REGISTERS, lengths[i], 1, 31);
    }
    wipe();
    remember();
    check("  load", 0, load(by_hand, BY_HAND, FIT));
    check_origin(2, 3, 4);
    check_cell("  cell 0", 0, SAM_CH, 65);
    check_cell("  cell 1", 1, SAM_FLOAT, 0x40200000);
    check("  PC", 5, registers[SAM_PC]);
    check("  SP", 1, registers[SAM_SP]);
    check("  FBR", 1, registers[SAM_FBR]);
    check("  HALT", 1, registers[SAM_HALT]);
    check_output("  written", "H", 1);
    n = 2, h = 3;
    check_saved("  saved again", by_hand, BY_HAND);
    check("  step", 1, step());
    output_len = SAM_OUTPUT_LIMIT;
}

/* A byte of that image that is another, what is lent, and the number. */
static const struct {
    const char *name;
    size_t at;
    uint8_t byte;
    struct lent lent;
    uint32_t number;
} changed_states[] = {
    {"  as it is", 0, 0x00, {9, 2, 2, 3, 4}, 0},
    {"  PC at the length", 2, 0x30, {9, 2, 2, 3, 4}, 0},
    {"  HALT 0", 5, 0x80, {9, 2, 2, 3, 4}, 0},
    {"  FBR 0", 5, 0x40, {9, 2, 2, 3, 4}, 0},
    {"  an MA", 6, 0x28, {9, 2, 2, 3, 4}, 0},
    {"  CH 127", 9, 0x01, {9, 2, 2, 3, 4}, 0},
    {"  any byte", 15, 0x7F, {9, 2, 2, 3, 4}, 0},
    {"  no room for more output", 0, 0x00, {9, 2, 2, 3, 1}, 0},
    {"  no history", 0, 0x00, {9, 2, 2, 0, 4}, 0},
    {"  all there can be", 0, 0x00, {9, 2, 2, 8192, 256}, 0},
    {"  three cells announced", 1, 0xC0, {9, 2, 2, 3, 4}, 41},
    {"  three cells announced and lent", 1, 0xC0, {9, 3, 3, 3, 4}, 41},
    {"  five bytes announced", 6, 0xB0, {9, 2, 2, 3, 8}, 41},
    {"  1,022 cells announced", 0, 0xFF, {9, 1022, 1022, 3, 4}, 41},
    {"  one cell announced", 1, 0x40, {9, 2, 2, 3, 4}, 67},
    {"  one cell lent", 0, 0x00, {9, 1, 1, 3, 4}, 67},
    {"  three cells lent", 0, 0x00, {9, 3, 3, 3, 4}, 67},
    {"  three tags", 0, 0x00, {9, 2, 3, 3, 4}, 67},
    {"  no tag", 0, 0x00, {9, 2, 0, 3, 4}, 67},
    {"  1,026 cells lent", 0, 0x00, {9, 1026, 1026, 3, 4}, 67},
    {"  8,193 places", 0, 0x00, {9, 2, 2, 8193, 4}, 67},
    {"  257 bytes", 0, 0x00, {9, 2, 2, 3, 257}, 67},
    {"  PC above the length", 2, 0x38, {9, 2, 2, 3, 4}, 10},
    {"  PC far above", 1, 0xBF, {9, 2, 2, 3, 4}, 10},
    {"  SP at N", 3, 0x04, {9, 2, 2, 3, 4}, 10},
    {"  FBR above N", 4, 0x01, {9, 2, 2, 3, 4}, 10},
    {"  tag 5", 6, 0x34, {9, 2, 2, 3, 4}, 10},
    {"  tag 7", 6, 0x3C, {9, 2, 2, 3, 4}, 10},
    {"  tag 5 above SP", 10, 0x06, {9, 2, 2, 3, 4}, 10},
    {"  PA 65", 6, 0x2C, {9, 2, 2, 3, 4}, 10},
    {"  CH 193", 9, 0x03, {9, 2, 2, 3, 4}, 10},
    {"  less output lent than is written", 0, 0x00, {9, 2, 2, 3, 0}, 10},
    {"  eight registers", 0, 0x00, {8, 2, 2, 3, 4}, 10},
    {"  ten registers", 0, 0x00, {10, 2, 2, 3, 4}, 10},
    {"  no registers", 0, 0x00, {0, 2, 2, 3, 4}, 10},
    {"  the last bit of padding", 16, 0x01, {9, 2, 2, 3, 4}, 45},
    {"  the first bit of padding", 16, 0x40, {9, 2, 2, 3, 4}, 45},
    /* 67 before 10 and 45, and 10 before 45 */
    {"  SP at N, three cells lent", 3, 0x04, {9, 3, 3, 3, 4}, 67},
    {"  tag 5, 257 bytes", 6, 0x34, {9, 2, 2, 3, 257}, 67},
    {"  eight registers, 8,193 places", 0, 0x00, {8, 2, 2, 8193, 4}, 67},
    {"  padding, one tag", 16, 0x01, {9, 2, 1, 3, 4}, 67},
    {"  padding, no output lent", 16, 0x01, {9, 2, 2, 3, 0}, 10},
    {"  padding, ten registers", 16, 0x01, {10, 2, 2, 3, 4}, 10},
};

static void test_changed_states(void) {
    puts("loads of that state with a byte changed");
    make_state();
    for (size_t i = 0; i < sizeof changed_states / sizeof changed_states[0]; i++) {
        uint8_t changed[BY_HAND];
        struct lent lent = changed_states[i].lent;
        uint32_t number = changed_states[i].number;
        memcpy(changed, by_hand, BY_HAND);
        changed[changed_states[i].at] = changed_states[i].byte;
        if (number == 0) {
            wipe();
            remember();
            check(changed_states[i].name, 0, load(changed, BY_HAND, lent));
            check_origin(lent.cells, lent.places, lent.bytes);
        } else {
            check_not_loaded(changed_states[i].name, changed, BY_HAND, SAM_TABLE_PLACES, lent, number);
            check_not_loaded("  10 of the table, in its place", changed, BY_HAND, SAM_TABLE_PLACES - 1, lent,
                             number == 45 ? 10 : number);
            check_not_loaded("  41 first", changed, 6, 0, lent, 41);
        }
    }
}

/* "Only the told length is loaded again": cut at every byte, and with more behind it. */
static void test_state_lengths(void) {
    static uint8_t longer[LONGEST_SAVED];
    static const struct lent three = {SAM_REGISTERS, 3, 3, 3, 4};
    puts("loads of less and of more than was told");
    make_state();
    memcpy(longer, by_hand, BY_HAND);
    for (size_t size = 0; size < BY_HAND; size++) {
        check_not_loaded("  ends early", longer, size, SAM_TABLE_PLACES, FIT, 41);
        check_not_loaded("  41 before 67", longer, size, SAM_TABLE_PLACES, three, 41);
        check_not_loaded("  41 before 10", longer, size, 0, FIT, 41);
    }
    static const size_t sizes[] = {
        BY_HAND + 1, BY_HAND + 2, SAM_STATE_BYTES, SAM_STATE_BYTES + 1, 8192, 65536 + BY_HAND,
    };
    for (size_t i = 0; i < sizeof sizes / sizeof sizes[0]; i++) {
        check_not_loaded("  left over", longer, sizes[i], SAM_TABLE_PLACES, FIT, 45);
        check_not_loaded("  67 before 45", longer, sizes[i], SAM_TABLE_PLACES, three, 67);
        check_not_loaded("  10 before 45", longer, sizes[i], 0, FIT, 10);
    }
}

/* N, an output count, the bytes that they announce, and the number where as much is lent: no state has more than 1,000
 * cells or 256 bytes, but an image may say so. */
static const struct { size_t cells, count, size; uint32_t number; } announced[] = {
    {0, 0, 7, 10}, {0, 1, 8, 10}, {1, 0, 11, 0}, {7, 0, 37, 0}, {999, 0, 4377, 0}, {999, 256, 4633, 0},
    {1000, 0, 4382, 0}, {1000, 256, 4638, 0}, {1000, 257, 4639, 10}, {1000, 511, 4893, 10}, {1001, 0, 4386, 10},
    {1001, 256, 4642, 10}, {1023, 0, 4482, 10}, {1023, 511, 4993, 10}, {1, 256, 267, 0}, {1, 257, 268, 10},
    {1, 511, 522, 10}, {0, 511, 518, 10},
};

static void test_announced(void) {
    puts("N and output counts that an image announces");
    check("  assemble", 0, assemble(""));
    for (size_t i = 0; i < sizeof announced / sizeof announced[0]; i++) {
        static uint8_t saved[2 * SAM_STATE_BYTES];
        size_t cells = announced[i].cells, count = announced[i].count, size = announced[i].size;
        struct lent lent = {SAM_REGISTERS, cells, cells, 1, 256};
        struct lent one_more = {SAM_REGISTERS, cells + 1, cells + 1, 1, 256};
        memset(saved, 0, sizeof saved);
        saved[0] = (uint8_t)(cells >> 2);
        saved[1] = (uint8_t)(cells << 6);
        saved[5] = (uint8_t)(count >> 3);
        saved[6] = (uint8_t)(count << 5);
        printf("N = %zu, %zu written\n", cells, count);
        check_not_loaded("  one byte less", saved, size - 1, SAM_TABLE_PLACES, lent, 41);
        check_not_loaded("  one cell more lent", saved, size, SAM_TABLE_PLACES, one_more, 67);
        check_not_loaded("  one byte more", saved, size + 1, SAM_TABLE_PLACES, lent, announced[i].number ? 10 : 45);
        if (announced[i].number != 0) {
            check_not_loaded("  all of it", saved, size, SAM_TABLE_PLACES, lent, announced[i].number);
        } else {
            wipe();
            remember();
            check("  all of it", 0, load(saved, size, lent));
            check_origin(cells, 1, 256);
            n = cells, h = 1;
            check_saved("  saved again", saved, size);
        }
    }
}

/* 1,000 cells, 1,024 instructions and 256 bytes: every field as high as it goes. */
static void test_greatest_state(void) {
    static const uint8_t header[] = {0xFA, 0x20, 0x07, 0xCF, 0xF3, 0xE0};
    static uint8_t saved[SAM_STATE_BYTES];
    puts("the greatest state");
    memset(table, 0, sizeof table);
    length = SAM_TABLE_PLACES;
    check("  reset", 0, reset(1000, 8192));
    registers[SAM_PC] = 1024;
    registers[SAM_SP] = registers[SAM_FBR] = 999;
    registers[SAM_HALT] = 1;
    registers[SAM_WRITTEN] = 256;
    tags[999] = SAM_CH, bits[999] = 127; /* bits 35016 to 35050 */
    output[255] = 0xFF;                  /* bits 37091 to 37098 */
    memcpy(saved, header, sizeof header);
    saved[4377] = 0x80, saved[4380] = 0x0F, saved[4381] = 0xE0;
    saved[4636] = 0x1F, saved[4637] = 0xE0;
    check_saved("  save", saved, sizeof saved);
    remember();
    static struct machine original;
    original = before;
    load_spare(saved, sizeof saved, 8192);
    check_as_original("  loaded", &original);
    check_saved("  saved again", saved, sizeof saved);
    length = 1023;
    check_not_loaded("  PC above another program's length", saved, sizeof saved, SAM_TABLE_PLACES,
                     (struct lent){SAM_REGISTERS, 1000, 1000, 8192, 256}, 10);
}

/* JSR leaves PA 1 and PC 3; the spare controller has another program of so many instructions. */
static void test_other_programs(void) {
    static uint8_t saved[SAM_STATE_BYTES];
    puts("a session loaded under another program");
    begin("JSR 3 STOP STOP STOP PUSHIMM 1", 4, 9);
    check("  JSR", 0, step());
    bits[0] = 5; /* the greatest PA of this program */
    check("  save", 0, save_with(SAM_REGISTERS, SAM_STATE_BYTES, 1));
    size_t size = told[0];
    memcpy(saved, state, sizeof saved);
    for (uint64_t other = 0; other <= 7; other++) {
        static const struct lent lent = {SAM_REGISTERS, 4, 4, 9, 256};
        memset(table, 0, sizeof table);
        length = other;
        if (other < 5) {
            check_not_loaded("  PA or PC above its length", saved, size, SAM_TABLE_PLACES, lent, 10);
            continue;
        }
        load_spare(saved, size, 9);
        check_cell("  cell 0", 0, SAM_PA, 5);
        check("  STOP", 0, step());
        check("  PC", 3, registers[SAM_PC]);
    }
}

/* ---- formulas */

static uint32_t translate_bytes(const char *formula, size_t size) {
    mark_told();
    memset(table, MARK, sizeof table);
    uint32_t number = sam_translate((const uint8_t *)formula, size, table, SAM_TABLE_PLACES, told, SAM_TRANSLATE_TOLD);
    length = told[SAM_PROGRAM_LENGTH];
    check_told_marked(SAM_TRANSLATE_TOLD);
    return number;
}

/* Just the table of this source, with this depth. */
static void check_formula(const char *formula, const char *source, uint64_t depth) {
    static uint64_t expected[SAM_TABLE_PLACES];
    check("  assemble", 0, assemble(source));
    uint64_t assembled = length;
    memcpy(expected, table, sizeof expected);
    check(formula, 0, translate_bytes(formula, strlen(formula)));
    check("  length", assembled, told[SAM_PROGRAM_LENGTH]);
    check("  depth", depth, told[SAM_PROGRAM_DEPTH]);
    check("  another table", 0, (uint64_t)(memcmp(expected, table, sizeof expected) != 0));
}

/* "a refusal tells zeros and zeroes a table of right length" */
static void check_no_formula(const char *name, const char *formula, size_t size, uint32_t number) {
    check(name, number, translate_bytes(formula, size));
    check("  length", 0, told[SAM_PROGRAM_LENGTH]);
    check("  depth", 0, told[SAM_PROGRAM_DEPTH]);
    check("  table not zeroed", 0, others((const uint8_t *)table, SAM_TABLE_PLACES * sizeof table[0], 0));
    check("  written behind", 1, (uint64_t)(table[SAM_TABLE_PLACES] != 0));
}

static const struct { const char *formula, *source; uint64_t depth; } formulas[] = {
    {"2 + 3 * (a - 1)", "PUSHIMM 2 PUSHIMM 3 PUSHOFF 0 PUSHIMM 1 SUB TIMES ADD STOP", 4},
    {"7", "PUSHIMM 7 STOP", 1},
    {" 007 ", "PUSHIMM 7 STOP", 1},
    {"2147483647", "PUSHIMM 2147483647 STOP", 1},
    {"00000000000000002147483647", "PUSHIMM 2147483647 STOP", 1},
    {"h", "PUSHOFF 7 STOP", 1},
    {"a-b-c", "PUSHOFF 0 PUSHOFF 1 SUB PUSHOFF 2 SUB STOP", 2},
    {"a-(b-c)", "PUSHOFF 0 PUSHOFF 1 PUSHOFF 2 SUB SUB STOP", 3},
    {"d/e*f", "PUSHOFF 3 PUSHOFF 4 DIV PUSHOFF 5 TIMES STOP", 2},
    {"d*(e/f)", "PUSHOFF 3 PUSHOFF 4 PUSHOFF 5 DIV TIMES STOP", 3},
    {"a+b*c-g", "PUSHOFF 0 PUSHOFF 1 PUSHOFF 2 TIMES ADD PUSHOFF 6 SUB STOP", 3},
    {"(a+b)*c", "PUSHOFF 0 PUSHOFF 1 ADD PUSHOFF 2 TIMES STOP", 2},
    {"-a*b", "PUSHOFF 0 PUSHIMM -1 TIMES PUSHOFF 1 TIMES STOP", 2},
    {"-(a*b)", "PUSHOFF 0 PUSHOFF 1 TIMES PUSHIMM -1 TIMES STOP", 2},
    {"2*-3", "PUSHIMM 2 PUSHIMM 3 PUSHIMM -1 TIMES TIMES STOP", 3},
    {"a--b", "PUSHOFF 0 PUSHOFF 1 PUSHIMM -1 TIMES SUB STOP", 3},
    {"--a", "PUSHOFF 0 PUSHIMM -1 TIMES PUSHIMM -1 TIMES STOP", 2},
    {"1/0+(2+(3+4))", "PUSHIMM 1 PUSHIMM 0 DIV PUSHIMM 2 PUSHIMM 3 PUSHIMM 4 ADD ADD ADD STOP", 4},
};

static void test_formulas(void) {
    puts("formulas and their programs");
    for (size_t i = 0; i < sizeof formulas / sizeof formulas[0]; i++) {
        check_formula(formulas[i].formula, formulas[i].source, formulas[i].depth);
    }
}

/* A machine with what a to h hold below SP, just so many cells and places, and one byte written. */
static void begin_formula(const int32_t *values, size_t cells, size_t places) {
    check("  reset", 0, reset(cells, places));
    for (size_t i = 0; i < SAM_NAMES; i++) bits[i] = (uint32_t)values[i];
    registers[SAM_SP] = SAM_NAMES;
    registers[SAM_WRITTEN] = 1;
    output[0] = MARK;
}

static void check_names(const int32_t *values) {
    for (size_t i = 0; i < SAM_NAMES; i++) check_cell("  a to h", i, SAM_INT, (uint32_t)values[i]);
    check("  output", MARK, output[0]);
    check("  written", 1, registers[SAM_WRITTEN]);
}

static void test_formula_run(void) {
    static const int32_t values[SAM_NAMES] = {4, 0, -1, 7, 0, 0, 0, INT32_MIN};
    const char *formula = "2 + 3 * (a - 1)";
    puts("2 + 3 * (a - 1) with a = 4, in just the room that it needs");
    check("  translate", 0, translate_bytes(formula, strlen(formula)));
    check("  length", 8, told[SAM_PROGRAM_LENGTH]);
    check("  depth", 4, told[SAM_PROGRAM_DEPTH]);
    for (size_t places = 0; places <= 15; places += 15) {
        begin_formula(values, SAM_NAMES + 4 + 1, places);
        check("  run", 0, run(8));
        check("  steps", 8, told[0]);
        check("  SP", SAM_NAMES + 1, registers[SAM_SP]);
        check_cell("  the number", SAM_NAMES, SAM_INT, 11);
        check_names(values);
    }
    puts("and with one cell, history place or step less");
    begin_formula(values, SAM_NAMES + 4, 15);
    check("  run", 7, run(8));
    check_names(values);
    begin_formula(values, SAM_NAMES + 4 + 1, 14);
    check("  run", 8, run(8));
    check_names(values);
    begin_formula(values, SAM_NAMES + 4 + 1, 15);
    check("  run", 50, run(7));
    check_cell("  the number", SAM_NAMES, SAM_INT, 11);
}

static const struct { const char *formula; int32_t values[SAM_NAMES]; uint32_t number; int32_t value; } worked[] = {
    {"a-b-c", {10, 3, 2}, 0, 5},
    {"a-(b-c)", {10, 3, 2}, 0, 9},
    {"a/b*c", {7, 2, 3}, 0, 9},
    {"a+b*c", {2, 3, 4}, 0, 14},
    {"-a*b", {9, 6}, 0, -54},
    {"-7/2", {0}, 0, -3},
    {"7/-2", {0}, 0, -3},
    {"2147483647+1", {0}, 0, INT32_MIN},
    {"(-2147483647-1)/-1", {0}, 0, INT32_MIN},
    {"a*a", {65536}, 0, 0},
    {"h-g*f/e+d*(c-b)-a", {1, 2, 5, 4, 3, 7, 6, 100}, 0, 97},
    {"1/0", {0}, 5, 0},
    {"0*(1/0)", {0}, 5, 0},
    {"1/0+(2+(3+4))", {0}, 5, 0},
    {"a/(b-c)", {1, 5, 5}, 5, 0},
};

static void test_worked_formulas(void) {
    puts("numbers of formulas");
    for (size_t i = 0; i < sizeof worked / sizeof worked[0]; i++) {
        check(worked[i].formula, 0, translate_bytes(worked[i].formula, strlen(worked[i].formula)));
        begin_formula(worked[i].values, SAM_NAMES + (size_t)told[SAM_PROGRAM_DEPTH] + 1, 2 * (size_t)length - 1);
        check("  run", worked[i].number, run(length));
        if (worked[i].number == 0) check_cell("  the number", SAM_NAMES, SAM_INT, (uint32_t)worked[i].value);
        check_names(worked[i].values);
    }
}

/* Tokens that meet one or more refusals: the first counts, in the order 70, 71, 72, 73, 28. */
static const struct { const char *formula; uint32_t number; } no_formulas[] = {
    {"$", 70}, {"i", 70}, {"A", 70}, {"a\t", 70}, {"a\n", 70}, {"a\r", 70}, {"a%b", 70}, {"a$", 70},
    {"a+$", 70}, {"1.5", 70}, {"\xe1", 70},
    {"", 71}, {" ", 71}, {"a+", 71}, {"(a", 71}, {"a)", 71}, {"()", 71}, {"ab", 71}, {"2a", 71}, {"1 2", 71},
    {"a(b)", 71}, {"+a", 71}, {"a*/b", 71}, {"-", 71}, {"a 2147483648", 71}, {"a b$", 71}, {"a+)$", 71},
    {"2147483648", 72}, {"2147483648$", 72}, {"00000000002147483648", 72}, {"-2147483648", 72}, {"4294967296", 72},
    {"18446744073709551616", 72}, {"18446744073709551617 a", 72},
    {"(((((((((((((((((", 73}, {"-----------------", 73}, {"-(-(-(-(-(-(-(-(-", 73}, {"(((((((((((((((( (a$", 73},
    {"((((((((((((((((($", 73}, {"((((((((((((((((a(", 71}, {"((((((((((((((((2147483648", 72},
    {"((((((((((((((((-2147483648", 73},
    {"((((((((((((((((a)+-a+(a+((", 73},
};

static void test_refused_formulas(void) {
    puts("refused formulas");
    for (size_t i = 0; i < sizeof no_formulas / sizeof no_formulas[0]; i++) {
        const char *formula = no_formulas[i].formula;
        check_no_formula(formula, formula, strlen(formula), no_formulas[i].number);
    }
    check_no_formula("a byte 0", "a\0", 2, 70);
    check_no_formula("a byte 0 first", "\0a", 2, 70);
}

/* `a` and so many times `+a`, with this behind. */
static const char *sum_of(size_t more, const char *behind) {
    size_t at = 0;
    large[at++] = 'a';
    for (size_t i = 0; i < more; i++, at += 2) memcpy(large + at, "+a", 2);
    strcpy(large + at, behind);
    return large;
}

static void check_sum(const char *name, size_t more, const char *behind, uint32_t number) {
    const char *formula = sum_of(more, behind);
    if (number != 0) {
        check_no_formula(name, formula, strlen(formula), number);
        return;
    }
    check(name, 0, translate_bytes(formula, strlen(formula)));
    check("  length", SAM_TABLE_PLACES, told[SAM_PROGRAM_LENGTH]);
    check("  STOP", 0, table[SAM_TABLE_PLACES - 1]);
}

static void test_long_formulas(void) {
    puts("1,024 instructions with STOP");
    check_sum("  a and 511 times +a", 511, "", 0);
    check_sum("  a space behind", 511, " ", 0);
    check_sum("  the last in brackets", 510, "+((a))", 0);
    check_sum("  a sign last", 509, "+-a", 0);
    check_sum("  one more operator", 511, "+", 28);
    check_sum("  a sign that does not fit", 510, "+-", 28);
    check_sum("  a sign that does not fit, too deep", 510, "+((((((((((((((((-", 73);
    check_sum("  one more operand", 511, "a", 71);
    check_sum("  one more operand, too large", 511, "2147483648", 71);
    check_sum("  a forbidden byte", 511, "$", 70);
    check_sum("  an operator, then a forbidden byte", 511, "+$", 28);
    check_sum("  nothing behind the last operator", 510, "+", 71);
    puts("sixteen deep and 65,536 bytes");
    check("  16 brackets", 0, translate_bytes("((((((((((((((((a))))))))))))))))", 33));
    check("  16 signs", 0, translate_bytes("----------------a", 17));
    check("  16 brackets behind others", 0, translate_bytes("(a)*((((((((((((((((a))))))))))))))))", 37));
    check("  16 brackets behind a sum", 0, translate_bytes("a+((((((((((((((((a))))))))))))))))", 35));
    check("  8 of each", 0, translate_bytes("-(-(-(-(-(-(-(-(a))))))))", 25));
    check("  20 signs, one after another", 0,
          translate_bytes("-a+-a+-a+-a+-a+-a+-a+-a+-a+-a+-a+-a+-a+-a+-a+-a+-a+-a+-a+-a", 59));
    check("  length", 80, told[SAM_PROGRAM_LENGTH]);
    check("  depth", 3, told[SAM_PROGRAM_DEPTH]);
    repeated("a+b*(", 16);
    check("  the deepest", 0, translate_bytes(large, strlen(strcat(large, "a+b*c))))))))))))))))"))));
    check("  length", 70, told[SAM_PROGRAM_LENGTH]);
    check("  depth", 35, told[SAM_PROGRAM_DEPTH]);
    memset(large, ' ', sizeof large);
    large[0] = 'a';
    check("  65,536 bytes", 0, translate_bytes(large, SAM_SOURCE_LIMIT));
    check("  length", 2, told[SAM_PROGRAM_LENGTH]);
    check_no_formula("  65,537 bytes", large, SAM_SOURCE_LIMIT + 1, 21);
    large[0] = '$';
    check_no_formula("  65,537 bytes, the first forbidden", large, SAM_SOURCE_LIMIT + 1, 21);
    check_no_formula("  65,536 bytes, the first forbidden", large, SAM_SOURCE_LIMIT, 70);
    memset(large, '0', sizeof large);
    large[SAM_SOURCE_LIMIT - 1] = '9';
    check("  65,535 zeros and a nine", 0, translate_bytes(large, SAM_SOURCE_LIMIT));
    check("  PUSHIMM 9", UINT64_C(1) << 32 | 9, table[0]);
}

/* 31 before 21 and the rest: a table of another length stays as it is, and zeros are told. */
static void test_lengths_of_formulas(void) {
    static const size_t lengths[] = {0, 1, SAM_TABLE_PLACES - 1, SAM_TABLE_PLACES + 1};
    static const struct { const char *name, *formula; size_t size; } given[] = {
        {"a", "a", 1}, {"$", "$", 1}, {"65,537 bytes", (const char *)over_limit, sizeof over_limit},
    };
    puts("formulas with a table of another length");
    for (size_t i = 0; i < sizeof given / sizeof given[0]; i++) {
        for (size_t j = 0; j < sizeof lengths / sizeof lengths[0]; j++) {
            memset(made_table, MARK, sizeof made_table);
            mark_told();
            check(given[i].name, 31,
                  sam_translate((const uint8_t *)given[i].formula, given[i].size, made_table, lengths[j], told,
                                SAM_TRANSLATE_TOLD));
            check("  length", 0, told[SAM_PROGRAM_LENGTH]);
            check("  depth", 0, told[SAM_PROGRAM_DEPTH]);
            check_told_marked(SAM_TRANSLATE_TOLD);
            check("  bytes changed", 0, others((const uint8_t *)made_table, sizeof made_table, MARK));
        }
    }
}

/* ---- more room and larger limits */

enum { EVENING_STEPS = 8 };

/* A program, cells and output; the steps that it makes, the history places that they take, and the number behind. */
static const struct {
    const char *source;
    size_t cells, bytes, steps, places;
    uint32_t last;
} evenings[] = {
    {"PUSHIMM 7 PUSHIMM 8 PUSHIMM 9", 4, 0, 3, 6, 2},
    {"PUSHIMM 3 PUSHIMM 4 SWAP STOP", 4, 0, 4, 8, 1},
    {"PUSHIMM 1 PUSHIMM 2 ADD ADD", 4, 0, 3, 6, 3},
    {"LINK PUSHIMM 5 POPFBR", 4, 0, 2, 4, 4},
    {"PUSHIMM 1 PUSHIMM 0 DIV", 4, 0, 2, 4, 5},
    {"PUSHSP PUSHIND", 4, 0, 1, 2, 6},
    {"PUSHIMM 1 ADDSP 3", 4, 0, 1, 2, 7},
    {"a: PUSHIMMCH 65 WRITECH JUMP a", 3, 1, 4, 6, 12},
};

/* The session without a history, step by step, the last refused; after[0] is its start. */
static size_t play_evening(size_t cells, struct machine *after, uint32_t *numbers) {
    size_t count = 0;
    check("  reset", 0, reset(cells, 0));
    do {
        remember();
        after[count] = before;
        numbers[count] = step();
    } while (numbers[count++] == 0 && count < EVENING_STEPS);
    return count - 1;
}

/* The same session in this room: alike for as many steps as both accept, which are told, and then 8 at most. */
static size_t play_again(size_t cells, size_t places, const struct machine *after, const uint32_t *numbers,
                         size_t steps) {
    check("  reset", 0, reset(cells, places));
    for (size_t i = 0; i <= steps; i++) {
        check_as_original("  the same machine", &after[i]);
        uint32_t number = step();
        if (number == 8) {
            check_as_original("  left by 8", &after[i]);
            return i;
        }
        check("  the same answer", numbers[i], number);
    }
    check_as_original("  left by the last", &after[steps]);
    return steps + 1;
}

/* Just enough room, in which 8 would come behind the last refusal, and all there can be; then ever less of it. */
static void test_rooms(void) {
    static struct machine after[EVENING_STEPS];
    uint32_t numbers[EVENING_STEPS];
    for (size_t i = 0; i < sizeof evenings / sizeof evenings[0]; i++) {
        size_t cells = evenings[i].cells, enough = evenings[i].places, made = evenings[i].steps + 1;
        printf("%s, in every room\n", evenings[i].source);
        output_len = evenings[i].bytes;
        check("  assemble", 0, assemble(evenings[i].source));
        size_t steps = play_evening(cells, after, numbers);
        check("  steps", evenings[i].steps, steps);
        check("  the last", evenings[i].last, numbers[steps]);
        check("  all", made, play_again(cells, SAM_HISTORY_LIMIT, after, numbers, steps));
        check("  just enough", made, play_again(cells, enough, after, numbers, steps));
        check("  one less", steps - 1, play_again(cells, enough - 1, after, numbers, steps));
        for (size_t places = enough - 1; places > 1; places--) {
            size_t more = play_again(cells, places, after, numbers, steps);
            check("  no more in less", 1, play_again(cells, places - 1, after, numbers, steps) <= more);
        }
    }
    output_len = SAM_OUTPUT_LIMIT;
}

/* A count down takes four steps and seven places a turn, besides a push before it and an instruction behind. */
#define COUNT_DOWN "PUSHIMM 249999 a: PUSHIMM 1 SUB DUP JUMPC a "

/* A program, history places, and the number and the steps of its run. */
static const struct {
    const char *source;
    size_t places;
    uint32_t number;
    uint64_t steps;
} long_runs[] = {
    {COUNT_DOWN "STOP", 0, 0, 999998},
    {COUNT_DOWN "ADD", 0, 3, 999997},
    {"PUSHIMM 0 ADDSP -1 " COUNT_DOWN "STOP", 0, 0, SAM_RUN_LIMIT},
    {"PUSHIMM 0 ADDSP -1 " COUNT_DOWN "ADD", 0, 3, SAM_RUN_LIMIT - 1},
    {COUNT_DOWN "STOP", SAM_HISTORY_LIMIT, 8, 4681},     /* 2 + 1170 * 7 places: the next push finds none */
    {COUNT_DOWN "STOP", SAM_HISTORY_LIMIT - 1, 8, 4680}, /* the last JUMPC finds none */
};

/* Runs from a reset with limits up to the greatest: too small a one by one, just enough, and larger ones. */
static void test_larger_limits(void) {
    for (size_t i = 0; i < sizeof long_runs / sizeof long_runs[0]; i++) {
        uint64_t steps = long_runs[i].steps, enough = steps + (long_runs[i].number != 0);
        printf("%s, H = %zu, with larger limits\n", long_runs[i].source, long_runs[i].places);
        begin(long_runs[i].source, 4, long_runs[i].places);
        check("  one less", 50, run(enough - 1));
        check("  steps", enough - 1, told[0]);
        check("  reset", 0, reset(n, h));
        check("  just enough", long_runs[i].number, run(enough));
        check("  steps", steps, told[0]);
        remember();
        const uint64_t larger[] = {enough + 1, enough + 2, (enough + SAM_RUN_LIMIT) / 2, SAM_RUN_LIMIT};
        for (size_t j = 0; j < sizeof larger / sizeof larger[0]; j++) {
            if (larger[j] > SAM_RUN_LIMIT) continue;
            check("  reset", 0, reset(n, h));
            check("  larger", long_runs[i].number, run(larger[j]));
            check("  steps", steps, told[0]);
            check_unchanged("  the same machine");
        }
    }
}

/* A run that finds HALT 1 needs no limit. */
static void test_limits_of_halted(void) {
    static const uint64_t limits[] = {0, 1, 2, SAM_RUN_LIMIT};
    puts("a halted machine, with larger limits");
    begin("STOP", 2, 4);
    check("  step", 0, step());
    remember();
    for (size_t i = 0; i < sizeof limits / sizeof limits[0]; i++) {
        check("  run", 0, run(limits[i]));
        check("  steps", 0, told[0]);
        check_unchanged("  unchanged");
    }
}

/* ---- lists and images */

static void test_list(void) {
    const char *source = "PUSHIMM -5\nPUSHIMMF #0000ABCD\nJUMP 0\nSTOP\n";
    puts("list");
    check("  assemble", 0, assemble(source));
    check("  text too short", 31, sam_list(table, SAM_TABLE_PLACES, length, text, SAM_TEXT_BYTES - 1, told, 1));
    check("  list", 0, sam_list(table, SAM_TABLE_PLACES, length, text, SAM_TEXT_BYTES, told, 1));
    check("  length", strlen(source), told[0]);
    check("  the same text", 0, (uint64_t)(memcmp(text, source, strlen(source)) != 0));
    check("  the rest zero", 0, text[strlen(source)]);
    check("  broken table", 10, sam_list(table, SAM_TABLE_PLACES, 2, text, SAM_TEXT_BYTES, told, 1));
    check("  length", 0, told[0]);
    check("  zeroed", 0, text[0]);
}

static uint32_t unpack(const char *packed, size_t size) {
    return sam_unpack((const uint8_t *)packed, size, table, SAM_TABLE_PLACES, told, 1);
}

static void test_images(void) {
    puts("pack and unpack");
    check("  assemble", 0, assemble("PUSHIMM 5 STOP"));
    check("  image too long", 31, sam_pack(table, SAM_TABLE_PLACES, length, image, SAM_IMAGE_BYTES + 1, told, 1));
    check("  pack", 0, sam_pack(table, SAM_TABLE_PLACES, length, image, SAM_IMAGE_BYTES, told, 1));
    check("  length", 7, told[0]);
    check("  P10", 0, (uint64_t)(memcmp(image, "\x00\x40\x80\x00\x00\x02\x80", 8) != 0));
    check("  unpack", 0, unpack("\x00\x40\x80\x00\x00\x02\x80", 7));
    check("  length", 2, told[0]);
    check("  place 0", UINT64_C(1) << 32 | 5, table[0]);
    check("  table of 1,025 places", 31, sam_unpack(image, 7, table, SAM_TABLE_PLACES + 1, told, 1));
    check("  ends early", 41, unpack("\x00\x40\x80\x00\x00\x02", 6));
    check("  zeroed", 0, table[0]);
    check("  length", 0, told[0]);
    check("  count 2,047", 42, unpack("\xFF\xE0", 2));
    check("  code 50", 0, unpack("\x00\x39\x00", 3));
    check("  ITOF", UINT64_C(50) << 32, table[0]);
    check("  code 51", 0, unpack("\x00\x39\x80", 3));
    check("  FTOI", UINT64_C(51) << 32, table[0]);
    check("  code 52", 0, unpack("\x00\x3A\x48", 3));
    check("  PUSHIMMCH 72", UINT64_C(52) << 32 | 72, table[0]);
    check("  code 53", 0, unpack("\x00\x3A\x80", 3));
    check("  WRITECH", UINT64_C(53) << 32, table[0]);
    check("  code 54", 43, unpack("\x00\x3B\x00", 3));
    check("  code 63", 43, unpack("\x00\x3F\x80", 3));
    check("  ADDSP 1000", 44, unpack("\x00\x33\xBE\x80", 4));
    check("  padding", 45, unpack("\x00\x01", 2));
    check("  a byte left over", 45, unpack("\x00\x40\x80\x00\x00\x02\x80\x00", 8));
    check("  P11", 0, unpack("\x00\x33\xFF\xE0", 4));
    check("  ADDSP -2", UINT64_C(39) << 32 | UINT32_C(0xFFFFFFFE), table[0]);
}

int main(void) {
    test_complaint();
    test_float_branches();
    test_single_tests();
    test_equal_back();
    test_wrapping_addresses();
    test_sums();
    test_decimals();
    test_decimals_listed();
    test_conversions();
    test_refused_conversions();
    test_conversions_back();
    test_dwells();
    test_refused_dwells();
    test_order_of_dwell();
    test_dwell_with_any_history();
    test_lengths_of_dwell();
    test_complaint_at_the_doors();
    test_kept_of_steps();
    test_kept_without_history();
    test_kept_of_runs();
    test_kept_of_series();
    test_broken_counts();
    test_counts_by_hand();
    test_told_of_writers();
    test_lengths_of_machine_calls();
    test_steps();
    test_reset();
    test_broken();
    test_without_line();
    test_refused_sources();
    test_refused_lines();
    test_refused_decimals();
    test_word();
    test_record_of_writing();
    test_writings();
    test_shown();
    test_broken_outputs();
    test_odd_cells();
    test_records_of_writing();
    test_characters();
    test_forget();
    test_forget_without_history();
    test_forget_records();
    test_forget_left_over();
    test_forget_kept_numbers();
    test_forget_unwritten();
    test_order_of_forget();
    test_forget_gains_room();
    test_long_session();
    test_forget_leaves_output();
    test_complaint_after_forget();
    test_complaint_asked();
    test_why_of_steps();
    test_why_of_forgotten();
    test_why_of_programs();
    test_why_of_places();
    test_order_of_why();
    test_why_of_many();
    test_why_of_new_origin();
    test_why_unwritten();
    test_lengths_of_why();
    test_depth_lists();
    test_cells_of_depths();
    test_broken_tables_of_depths();
    test_told_of_depths();
    test_full_depths();
    test_played_depths();
    test_carried_trial();
    test_carried_sessions();
    test_saved_by_hand();
    test_changed_states();
    test_state_lengths();
    test_announced();
    test_greatest_state();
    test_other_programs();
    test_formulas();
    test_formula_run();
    test_worked_formulas();
    test_refused_formulas();
    test_long_formulas();
    test_lengths_of_formulas();
    test_rooms();
    test_larger_limits();
    test_limits_of_halted();
    test_list();
    test_images();
    printf("%u checks, %u failed\n", checks, failed);
    return failed != 0;
}
