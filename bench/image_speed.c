/* The proved packer and unpacker beside the direct ones of plain_image.c, on full programs and in the same process.
 *
 *   image_speed                        nanoseconds for each instruction of the program, by both sides
 *   image_speed names                  the works' names, one a line
 *   image_speed sam|plain NAME CALLS   that many calls of one side, so that its instructions can be counted
 */
#define _POSIX_C_SOURCE 200809L
#include <stdio.h>
#include <stdlib.h>
#include <string.h>
#include <time.h>

#include "plain.h"
#include "plain_table.h"
#include "sam.h"

enum { ROUNDS = 31, CALLS = 200, PLACES = SAM_TABLE_PLACES };

#define SPREAD UINT64_C(2654435761) /* a multiplier that makes operands which look random */

struct side {
    writing_call *pack;
    reading_call *unpack;
};

static const struct side SAM = {sam_pack, sam_unpack}, PLAIN = {plain_pack, plain_unpack};

/* What one call reads and writes. */
static uint64_t table[PLACES], told[1];
static uint8_t image[SAM_IMAGE_BYTES];
static size_t image_len;

static void die(const char *why) {
    fprintf(stderr, "image_speed: %s\n", why);
    exit(1);
}

static void pack(const struct side *side) {
    if (side->pack(table, PLACES, PLACES, image, SAM_IMAGE_BYTES, told, 1) != 0) die("a program was not packed");
}

static void unpack(const struct side *side) {
    if (side->unpack(image, image_len, table, PLACES, told, 1) != 0) die("an image was not unpacked");
}

/* Each program is these four instructions again and again, with operands that vary. */
static const struct work {
    const char *name;
    enum code codes[4];
    void (*call)(const struct side *);
} WORKS[] = {
    {"pack 32 bits", {PUSHIMM, PUSHIMMF, PUSHIMM, PUSHIMMF}, pack},
    {"pack mixed", {PUSHIMM, ADD, PUSHOFF, JUMP}, pack},
    {"unpack 32 bits", {PUSHIMM, PUSHIMMF, PUSHIMM, PUSHIMMF}, unpack},
    {"unpack mixed", {PUSHIMM, ADD, PUSHOFF, JUMP}, unpack},
};

enum { WORKS_COUNT = sizeof WORKS / sizeof WORKS[0] };

static uint64_t operand(enum code code, uint64_t i) {
    switch (code) {
    case PUSHIMM: case PUSHIMMF: return i * SPREAD & UINT32_MAX;
    case PUSHOFF: return i % 1000;
    case JUMP: return i;
    default: return 0;
    }
}

static void prepare(const struct work *work) {
    for (uint64_t i = 0; i < PLACES; i++) {
        enum code code = work->codes[i % 4];
        table[i] = (uint64_t)code << 32 | operand(code, i);
    }
    pack(&PLAIN);
    image_len = told[0];
}

static double seconds(void) {
    struct timespec now;
    clock_gettime(CLOCK_MONOTONIC, &now);
    return (double)now.tv_sec + (double)now.tv_nsec * 1e-9;
}

static double nanoseconds(const struct work *work, const struct side *side) {
    double start = seconds();
    for (int i = 0; i < CALLS; i++) work->call(side);
    return (seconds() - start) * 1e9 / CALLS / PLACES;
}

/* Whether the two sides leave the same memory. */
static void compare(const struct work *work) {
    static uint64_t first_table[PLACES];
    static uint8_t first_image[SAM_IMAGE_BYTES];
    work->call(&SAM);
    memcpy(first_table, table, sizeof table);
    memcpy(first_image, image, sizeof image);
    work->call(&PLAIN);
    if (memcmp(first_table, table, sizeof table) != 0 || memcmp(first_image, image, sizeof image) != 0) {
        die("the two sides left different memory");
    }
}

/* The two sides take turns, and the best of many short rounds counts: what else the computer does can only slow one. */
static void measure(const struct work *work) {
    double sam = 1e9, plain = 1e9;
    prepare(work);
    compare(work);
    for (int i = 0; i < ROUNDS; i++) {
        double sam_now = nanoseconds(work, &SAM), plain_now = nanoseconds(work, &PLAIN);
        sam = sam_now < sam ? sam_now : sam;
        plain = plain_now < plain ? plain_now : plain;
    }
    printf("%-16s sam %8.1f   plain %8.1f   plain/sam %.2f\n", work->name, sam, plain, plain / sam);
}

static void call_side(const char *side, const char *name, int calls) {
    for (int i = 0; i < WORKS_COUNT; i++) {
        if (strcmp(WORKS[i].name, name) != 0) continue;
        prepare(&WORKS[i]);
        for (int n = 0; n < calls; n++) WORKS[i].call(strcmp(side, "sam") == 0 ? &SAM : &PLAIN);
        return;
    }
    die("no such work");
}

int main(int count, char **words) {
    if (count == 4) {
        call_side(words[1], words[2], atoi(words[3]));
    } else if (count == 2 && strcmp(words[1], "names") == 0) {
        for (int i = 0; i < WORKS_COUNT; i++) puts(WORKS[i].name);
    } else {
        printf("nanoseconds an instruction of a full program, best of %d rounds of %d calls\n", ROUNDS, CALLS);
        for (int i = 0; i < WORKS_COUNT; i++) measure(&WORKS[i]);
    }
    return 0;
}
