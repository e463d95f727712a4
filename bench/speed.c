/* The proved run (sam_run) beside the direct one of plain.c (plain_run), on the same programs and in the same process.
 *
 *   speed [STEPS]                   millions of steps a second of both; only the runs are timed
 *   speed names                     the programs' names, one a line
 *   speed sam|plain NAME H LIMIT    a few runs of one side and nothing else, so that its instructions can be counted
 */
#define _POSIX_C_SOURCE 200809L
#include <stdio.h>
#include <stdlib.h>
#include <string.h>
#include <time.h>

#include "plain.h"
#include "sam.h"

enum { CELLS = 1000, ROUNDS = 31, STEPS = 1000000, COUNTED_RUNS = 10 };

struct machine {
    uint64_t registers[SAM_REGISTERS];
    uint32_t bits[CELLS];
    uint8_t tags[CELLS];
    uint64_t history[SAM_HISTORY_LIMIT];
    uint8_t output[SAM_OUTPUT_LIMIT];
};

struct work {
    const char *name, *source;
};

/* Each runs for ever; a run ends at its limit, or with 8 where the history is full. */
static const struct work WORKS[] = {
    {"counting loop", "PUSHIMM 0 a: PUSHIMM 1 ADD JUMP a"},
    {"memory",
     "PUSHIMM 0 PUSHIMM 7 PUSHIMM 9 a: PUSHOFF 1 PUSHOFF 2 ADD STOREOFF 0 PUSHFBR PUSHIND DUP STOREOFF 1"
     " PUSHFBR PUSHIMM 2 ADD SWAP STOREIND PUSHOFF 0 PUSHOFF 1 SWAP SUB STOREOFF 2 JUMP a"},
    {"floats",
     "PUSHIMMF #3F800000 a: PUSHIMMF #3F8CCCCD TIMESF PUSHIMMF #3F000000 ADDF PUSHIMMF #3FC00000 DIVF JUMP a"},
    {"calls", "a: PUSHIMM 0 PUSHIMM 5 LINK JSR f POPFBR ADDSP -1 ADDSP -1 JUMP a"
              " f: PUSHOFF -1 PUSHIMM 3 TIMES STOREOFF -2 JUMPIND"},
    {"tests and jumps", "PUSHIMM 1000000 a: PUSHIMM 1 SUB DUP ISPOS JUMPC a ADDSP -1 PUSHIMM 1000000 JUMP a"},
};

enum { WORKS_COUNT = sizeof WORKS / sizeof WORKS[0] };

static uint64_t table[SAM_TABLE_PLACES], length;

static void die(const char *why) {
    fprintf(stderr, "speed: %s\n", why);
    exit(1);
}

static double seconds(void) {
    struct timespec now;
    clock_gettime(CLOCK_MONOTONIC, &now);
    return (double)now.tv_sec + (double)now.tv_nsec * 1e-9;
}

static void assemble(const struct work *work) {
    uint64_t told[SAM_ASSEMBLE_TOLD];
    const uint8_t *source = (const uint8_t *)work->source;
    if (sam_assemble(source, strlen(work->source), table, SAM_TABLE_PLACES, told, SAM_ASSEMBLE_TOLD) != 0) {
        die("a source was refused");
    }
    length = told[0];
}

static void reset(struct machine *m, size_t h) {
    if (sam_reset(table, SAM_TABLE_PLACES, length, m->registers, SAM_REGISTERS, m->bits, CELLS, m->tags, CELLS,
                  m->history, h, m->output, SAM_OUTPUT_LIMIT) != 0) {
        die("a reset was refused");
    }
}

/* The steps of one run, which must end with this number. */
static uint64_t run(run_call *call, struct machine *m, size_t h, uint64_t limit, uint32_t number) {
    uint64_t told[1];
    if (call(table, SAM_TABLE_PLACES, length, limit, m->registers, SAM_REGISTERS, m->bits, CELLS, m->tags, CELLS,
             m->history, h, m->output, SAM_OUTPUT_LIMIT, told, 1) != number) {
        die("a run ended otherwise than it should");
    }
    return told[0];
}

/* ---- steps a second */

/* Millions of steps a second over about `steps` steps, each run from a reset. */
static double rate(run_call *call, struct machine *m, size_t h, uint64_t steps) {
    double took = 0;
    uint64_t made = 0;
    while (made < steps) {
        reset(m, h);
        double start = seconds();
        made += run(call, m, h, SAM_RUN_LIMIT, h > 0 ? 8 : 50);
        took += seconds() - start;
    }
    return (double)made / took * 1e-6;
}

/* The two sides take turns, and the best of many short rounds counts: what else the computer does can only slow one. */
static void measure(const struct work *work, size_t h, uint64_t steps) {
    static struct machine proved, plain;
    double sam = 0, other = 0;
    assemble(work);
    for (int i = 0; i < ROUNDS; i++) {
        double sam_now = rate(sam_run, &proved, h, steps), other_now = rate(plain_run, &plain, h, steps);
        sam = sam_now > sam ? sam_now : sam;
        other = other_now > other ? other_now : other;
    }
    if (memcmp(&proved, &plain, sizeof proved) != 0) die("the two runs left different memory");
    printf("%-16s H %4zu   sam %8.1f   plain %8.1f   sam/plain %.2f\n", work->name, h, sam, other, sam / other);
    fflush(stdout);
}

static void measure_all(uint64_t steps) {
    printf("millions of steps a second, best of %d rounds of %llu steps\n", ROUNDS, (unsigned long long)steps);
    for (int i = 0; i < WORKS_COUNT; i++) measure(&WORKS[i], 0, steps);
    for (int i = 0; i < WORKS_COUNT; i++) measure(&WORKS[i], SAM_HISTORY_LIMIT, steps);
}

/* ---- one side alone */

static const struct work *work_named(const char *name) {
    for (int i = 0; i < WORKS_COUNT; i++) {
        if (strcmp(WORKS[i].name, name) == 0) return &WORKS[i];
    }
    die("no such program");
    return NULL;
}

static void run_side(const char *side, const char *name, size_t h, uint64_t limit) {
    static struct machine m;
    assemble(work_named(name));
    for (int i = 0; i < COUNTED_RUNS; i++) {
        reset(&m, h);
        run(strcmp(side, "sam") == 0 ? sam_run : plain_run, &m, h, limit, 50);
    }
}

int main(int count, char **words) {
    if (count == 5) {
        run_side(words[1], words[2], strtoul(words[3], NULL, 10), strtoull(words[4], NULL, 10));
    } else if (count == 2 && strcmp(words[1], "names") == 0) {
        for (int i = 0; i < WORKS_COUNT; i++) puts(WORKS[i].name);
    } else {
        measure_all(count > 1 ? strtoull(words[1], NULL, 10) : STEPS);
    }
    return 0;
}
