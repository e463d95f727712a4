/* What a decimal costs beside a pattern: the proved assembler on full sources of PUSHIMMF, each 1,024 instructions.
 *
 *   text_speed              nanoseconds for each instruction of the program
 *   text_speed names        the sources' names, one a line; the first is what the others are set beside
 *   text_speed NAME CALLS   that many calls, so that their instructions can be counted
 */
#define _POSIX_C_SOURCE 200809L
#include <stdio.h>
#include <stdlib.h>
#include <string.h>
#include <time.h>

#include "sam.h"

enum { ROUNDS = 31, CALLS = 100, PLACES = SAM_TABLE_PLACES, DIGITS = 9, OPERAND_BYTES = 32 };

#define SPREAD UINT64_C(2654435761)       /* a multiplier that makes operands which look random */
#define DIGITS_BOUND UINT64_C(1000000000) /* numbers of nine digits are below it */

/* What one call reads and writes. */
static char source[SAM_SOURCE_LIMIT + 1];
static size_t source_len;
static uint64_t table[PLACES], told[SAM_ASSEMBLE_TOLD];

static void die(const char *why) {
    fprintf(stderr, "text_speed: %s\n", why);
    exit(1);
}

/* ---- the sources */

static void write_pattern(char *operand, uint64_t i) { sprintf(operand, "#%08X", (unsigned)(i * SPREAD & UINT32_MAX)); }

/* Nine digits, the point in turn after each of the first eight. */
static void write_decimal(char *operand, uint64_t i) {
    char digits[OPERAND_BYTES];
    int point = (int)(i % (DIGITS - 1)) + 1;
    sprintf(digits, "%09u", (unsigned)(i * SPREAD % DIGITS_BOUND));
    sprintf(operand, "%.*s.%s", point, digits, digits + point);
}

/* Above and below a tie, by less than 2^-40 of the number. */
static void write_hard(char *operand, uint64_t i) { strcpy(operand, i % 2 == 0 ? "1.00325948" : "1.00064677"); }

/* A digit on each side. */
static void write_short(char *operand, uint64_t i) { sprintf(operand, "%u.5", (unsigned)(i % 10)); }

static const struct text {
    const char *name;
    void (*write_operand)(char *operand, uint64_t i);
} TEXTS[] = {
    {"patterns", write_pattern},
    {"decimals", write_decimal},
    {"hard decimals", write_hard},
    {"short decimals", write_short},
};

enum { TEXTS_COUNT = sizeof TEXTS / sizeof TEXTS[0] };

static void prepare(const struct text *text) {
    source_len = 0;
    for (uint64_t i = 0; i < PLACES; i++) {
        char operand[OPERAND_BYTES];
        text->write_operand(operand, i);
        source_len += (size_t)sprintf(source + source_len, "PUSHIMMF %s\n", operand);
    }
}

static void assemble(void) {
    uint32_t number = sam_assemble((const uint8_t *)source, source_len, table, PLACES, told, SAM_ASSEMBLE_TOLD);
    if (number != 0 || told[SAM_LENGTH] != PLACES) die("a source was not assembled");
}

/* ---- the speeds */

static double seconds(void) {
    struct timespec now;
    clock_gettime(CLOCK_MONOTONIC, &now);
    return (double)now.tv_sec + (double)now.tv_nsec * 1e-9;
}

static double nanoseconds(const struct text *text) {
    prepare(text);
    double start = seconds();
    for (int i = 0; i < CALLS; i++) assemble();
    return (seconds() - start) * 1e9 / CALLS / PLACES;
}

/* The sources take turns, and the best of many short rounds counts: what else the computer does can only slow one. */
static void measure(void) {
    double best[TEXTS_COUNT];
    for (int i = 0; i < TEXTS_COUNT; i++) best[i] = 1e9;
    for (int round = 0; round < ROUNDS; round++) {
        for (int i = 0; i < TEXTS_COUNT; i++) {
            double now = nanoseconds(&TEXTS[i]);
            best[i] = now < best[i] ? now : best[i];
        }
    }
    for (int i = 0; i < TEXTS_COUNT; i++) {
        printf("%-16s sam %8.1f   to %s %.2f\n", TEXTS[i].name, best[i], TEXTS[0].name, best[i] / best[0]);
    }
}

static void call(const char *name, int calls) {
    for (int i = 0; i < TEXTS_COUNT; i++) {
        if (strcmp(TEXTS[i].name, name) != 0) continue;
        prepare(&TEXTS[i]);
        for (int n = 0; n < calls; n++) assemble();
        return;
    }
    die("no such source");
}

int main(int count, char **words) {
    if (count == 3) {
        call(words[1], atoi(words[2]));
    } else if (count == 2 && strcmp(words[1], "names") == 0) {
        for (int i = 0; i < TEXTS_COUNT; i++) puts(TEXTS[i].name);
    } else {
        printf("nanoseconds an instruction assembled, best of %d rounds of %d calls\n", ROUNDS, CALLS);
        measure();
    }
    return 0;
}
