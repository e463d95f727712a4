/* The counting loop by the proved run or by the direct one: count sam|plain FILE LIMIT ROUNDS assembles FILE and makes
 * so many runs of it, each from a reset; a run must have counted to 150,000. */
#include <stdio.h>
#include <stdlib.h>
#include <string.h>

#include "plain.h"
#include "sam.h"

enum { CELLS = 1000, TURNS = 150000 };

static void die(const char *why) {
    fprintf(stderr, "count: %s\n", why);
    exit(1);
}

static size_t read_file(const char *path, uint8_t *source, size_t room) {
    FILE *file = fopen(path, "rb");
    if (file == NULL) die("no such file");
    size_t size = fread(source, 1, room, file);
    fclose(file);
    return size;
}

int main(int count, char **words) {
    static uint8_t source[SAM_SOURCE_LIMIT], tags[CELLS];
    static uint32_t bits[CELLS];
    static uint64_t table[SAM_TABLE_PLACES], registers[SAM_REGISTERS], history[1], told[SAM_ASSEMBLE_TOLD];
    static uint8_t output[1];
    if (count != 5) die("count sam|plain FILE LIMIT ROUNDS");
    size_t size = read_file(words[2], source, sizeof source);
    if (sam_assemble(source, size, table, SAM_TABLE_PLACES, told, SAM_ASSEMBLE_TOLD) != 0) {
        die("the source was refused");
    }
    const uint64_t length = told[0], limit = strtoull(words[3], NULL, 10);
    run_call *run = strcmp(words[1], "sam") == 0 ? sam_run : plain_run;
    for (long rounds = strtol(words[4], NULL, 10); rounds > 0; rounds--) {
        sam_reset(table, SAM_TABLE_PLACES, length, registers, SAM_REGISTERS, bits, CELLS, tags, CELLS, history, 0,
                  output, 0);
        run(table, SAM_TABLE_PLACES, length, limit, registers, SAM_REGISTERS, bits, CELLS, tags, CELLS, history, 0,
            output, 0, told, 1);
        if (bits[0] != TURNS) die("a run counted otherwise");
    }
    return 0;
}
