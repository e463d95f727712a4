/* A door controller: run a program, read the dwell, try another, step it back, read again. */
#include <stdio.h>
#include <stdlib.h>

#include "sam_session.h"

static uint32_t bits[16];
static uint8_t tags[16], panel[32];
static uint64_t history[64];
static sam_session door;

/* Every call gives a number; 0 is done, and what the others mean stands in sam.h. */
static void must(const char *what, uint32_t number) {
    if (number == 0) return;
    fprintf(stderr, "%s: refused with %u\n", what, (unsigned)number);
    exit(1);
}

static void assemble(const char *source) { must(source, sam_session_assemble(&door, source, strlen(source), NULL)); }

/* Runs until the program stops, and prints what the door board reads then. */
static void run_and_read(const char *when) {
    uint64_t tenths;
    must("run", sam_session_run(&door, 1000, NULL));
    must("dwell", sam_session_dwell(&door, &tenths));
    printf("%s: %u tenths\n", when, (unsigned)tenths);
}

int main(void) {
    SAM_SESSION_BEGIN(&door, bits, tags, history, panel);
    assemble("PUSHIMM 40 STOP");
    must("reset", sam_session_reset(&door));
    run_and_read("as it stands");
    must("step back", sam_session_step_back(&door)); /* the STOP: a program that begins alike goes on from here */
    assemble("PUSHIMM 40 PUSHIMMF 2.5 STOREOFF 0 STOP");
    run_and_read("the trial");
    while (door.registers[SAM_KEPT] > 1) must("step back", sam_session_step_back(&door)); /* to behind PUSHIMM 40 */
    assemble("PUSHIMM 40 STOP");
    run_and_read("stepped back");
    return 0;
}
