/* Makes the calls of sam.h that it reads on standard input and prints each answer with all of the lent memory.
 * The lines it reads and prints are described in README.md, "The driver's lines". */
#define _POSIX_C_SOURCE 200809L
#include <inttypes.h>
#include <stdbool.h>
#include <stdio.h>
#include <stdlib.h>
#include <string.h>

#include "calls.h"
#include "plain.h"
#include "sam.h"

static void die(const char *why, const char *what) {
    fprintf(stderr, "driver: %s: %s\n", why, what);
    exit(2);
}

/* ---- lent memory, with a guard on either side that no call may touch */

enum { GUARD = 64, GUARD_BYTE = 0xA5 };

struct lent {
    size_t width, count; /* bytes of an element, and elements */
    unsigned char *block;
};

static size_t size_of(const struct lent *lent) { return lent->width * lent->count; }

static void *data(const struct lent *lent) { return lent->block + GUARD; }

static void lend(struct lent *lent, size_t count) {
    free(lent->block);
    lent->count = count;
    lent->block = malloc(size_of(lent) + 2 * GUARD);
    if (lent->block == NULL) die("no memory", "lend");
    memset(lent->block, GUARD_BYTE, size_of(lent) + 2 * GUARD);
}

static void check_guards(const struct lent *lent, const char *name) {
    const unsigned char *after = lent->block + GUARD + size_of(lent);
    for (size_t i = 0; i < GUARD; i++) {
        if (lent->block[i] != GUARD_BYTE || after[i] != GUARD_BYTE) die("a call wrote outside its lent memory", name);
    }
}

static uint64_t get(const struct lent *lent, size_t index) {
    switch (lent->width) {
    case 1: return ((const uint8_t *)data(lent))[index];
    case 2: return ((const uint16_t *)data(lent))[index];
    case 4: return ((const uint32_t *)data(lent))[index];
    default: return ((const uint64_t *)data(lent))[index];
    }
}

static void set(const struct lent *lent, size_t index, uint64_t value) {
    switch (lent->width) {
    case 1: ((uint8_t *)data(lent))[index] = (uint8_t)value; break;
    case 2: ((uint16_t *)data(lent))[index] = (uint16_t)value; break;
    case 4: ((uint32_t *)data(lent))[index] = (uint32_t)value; break;
    default: ((uint64_t *)data(lent))[index] = value; break;
    }
}

/* ---- reading */

static char *next_word(void) {
    char *word = strtok(NULL, " \n");
    if (word == NULL) die("a word is missing", "line");
    return word;
}

static uint64_t read_number(void) { return strtoull(next_word(), NULL, 10); }

static int hex_digit(char c) { return c <= '9' ? c - '0' : c - 'a' + 10; }

/* A byte string: two hex digits for each byte, `-` for none. */
static void read_bytes(struct lent *lent) {
    const char *word = next_word();
    size_t count = word[0] == '-' ? 0 : strlen(word) / 2;
    lend(lent, count);
    for (size_t i = 0; i < count; i++) {
        set(lent, i, (uint64_t)(hex_digit(word[2 * i]) * 16 + hex_digit(word[2 * i + 1])));
    }
}

/* The next item of a list, `value` or `value*count`; false at the list's end. */
static bool read_item(char **at, uint64_t *value, uint64_t *count) {
    if (**at == '\0' || **at == '-') return false;
    *value = strtoull(*at, at, 10);
    *count = 1;
    if (**at == '*') *count = strtoull(*at + 1, at, 10);
    if (**at == ',') ++*at;
    return true;
}

/* A list of numbers: items with a comma between, `-` for none. */
static void read_list(struct lent *lent) {
    char *word = next_word(), *at = word;
    uint64_t value, count, total = 0, index = 0;
    while (read_item(&at, &value, &count)) total += count;
    lend(lent, total);
    for (at = word; read_item(&at, &value, &count);) {
        for (uint64_t i = 0; i < count; i++) set(lent, index++, value);
    }
}

/* ---- printing */

static void print_list(const char *name, const struct lent *lent) {
    printf(" %s %s", name, lent->count == 0 ? "-" : "");
    for (size_t i = 0, next; i < lent->count; i = next) {
        uint64_t value = get(lent, i);
        for (next = i + 1; next < lent->count && get(lent, next) == value;) next++;
        printf(i == 0 ? "%" PRIu64 : ",%" PRIu64, value);
        if (next - i > 1) printf("*%zu", next - i);
    }
}

/* Bytes up to the last that is not zero, as hex, then `+` and the count of zeros behind them. */
static void print_bytes(const char *name, const struct lent *lent) {
    size_t end = lent->count;
    while (end > 0 && get(lent, end - 1) == 0) end--;
    printf(" %s ", name);
    for (size_t i = 0; i < end; i++) printf("%02x", (unsigned)get(lent, i));
    printf("+%zu", lent->count - end);
}

/* ---- the calls */

static struct lent source = {.width = 1}, written = {.width = 1}, told = {.width = 8};
static struct lent table = {.width = 8}, registers = {.width = 8}, history = {.width = 8};
static struct lent bits = {.width = 4}, tags = {.width = 1}, output = {.width = 1}, depths = {.width = 2};
static uint64_t length;

static void print_end(void) {
    putchar('\n');
    check_guards(&told, "told");
    check_guards(&table, "table");
}

/* Bytes to a table: assemble, unpack and translate. */
static void call_reading(reading_call *call) {
    struct lent made = {.width = 8};
    lend(&made, read_number());
    lend(&told, read_number());
    read_bytes(&source);
    printf("%" PRIu32, call(data(&source), source.count, data(&made), made.count, data(&told), told.count));
    print_list("told", &told);
    print_list("table", &made);
    check_guards(&made, "made");
    free(made.block);
    print_end();
}

/* A table to bytes: list and pack. */
static void call_writing(writing_call *call) {
    lend(&written, read_number());
    lend(&told, read_number());
    printf("%" PRIu32, call(data(&table), table.count, length, data(&written), written.count, data(&told), told.count));
    print_list("told", &told);
    print_bytes("bytes", &written);
    check_guards(&written, "written");
    print_end();
}

/* Without the line's end. */
static void print_memory(uint32_t number) {
    printf("%" PRIu32, number);
    print_list("told", &told);
    print_list("registers", &registers);
    print_list("bits", &bits);
    print_list("tags", &tags);
    print_list("history", &history);
    print_list("output", &output);
    check_guards(&registers, "registers");
    check_guards(&bits, "bits");
    check_guards(&tags, "tags");
    check_guards(&history, "history");
    check_guards(&output, "output");
}

static void print_machine(uint32_t number) {
    print_memory(number);
    print_end();
}

static void call_machine(machine_call *call) {
    lend(&told, 0);
    print_machine(call(data(&table), table.count, length, data(&registers), registers.count, data(&bits), bits.count,
                       data(&tags), tags.count, data(&history), history.count, data(&output), output.count));
}

static void call_run(run_call *call) {
    uint64_t limit = read_number();
    lend(&told, read_number());
    print_machine(call(data(&table), table.count, length, limit, data(&registers), registers.count, data(&bits),
                       bits.count, data(&tags), tags.count, data(&history), history.count, data(&output), output.count,
                       data(&told), told.count));
}

static void call_forget(void) {
    uint64_t k = read_number();
    lend(&told, 0);
    print_machine(sam_forget(data(&table), table.count, length, k, data(&registers), registers.count, data(&bits),
                             bits.count, data(&tags), tags.count, data(&history), history.count, data(&output),
                             output.count));
}

static void call_dwell(void) {
    lend(&told, read_number());
    print_machine(sam_dwell(data(&table), table.count, length, data(&registers), registers.count, data(&bits),
                            bits.count, data(&tags), tags.count, data(&history), history.count, data(&output),
                            output.count, data(&told), told.count));
}

static void call_why(void) {
    uint64_t cell = read_number();
    lend(&told, read_number());
    print_machine(sam_why(data(&table), table.count, length, cell, data(&registers), registers.count, data(&bits),
                          bits.count, data(&tags), tags.count, data(&history), history.count, data(&output),
                          output.count, data(&told), told.count));
}

static void call_save(void) {
    lend(&written, read_number());
    lend(&told, read_number());
    print_memory(sam_save(data(&table), table.count, length, data(&registers), registers.count, data(&bits), bits.count,
                          data(&tags), tags.count, data(&history), history.count, data(&output), output.count,
                          data(&written), written.count, data(&told), told.count));
    print_bytes("bytes", &written);
    check_guards(&written, "written");
    print_end();
}

/* The image is read alone, and must be as it was. */
static void call_load(void) {
    read_bytes(&source);
    lend(&written, source.count);
    memcpy(data(&written), data(&source), source.count);
    lend(&told, 0);
    print_machine(sam_load(data(&source), source.count, data(&table), table.count, length, data(&registers),
                           registers.count, data(&bits), bits.count, data(&tags), tags.count, data(&history),
                           history.count, data(&output), output.count));
    if (memcmp(data(&written), data(&source), source.count) != 0) die("a call changed", "the image that it read");
    check_guards(&source, "image");
}

static void call_depths(void) {
    uint64_t n = read_number();
    lend(&told, read_number());
    read_list(&depths);
    printf("%" PRIu32, sam_depths(data(&table), table.count, length, n, data(&depths), depths.count, data(&told),
                                  told.count));
    print_list("told", &told);
    print_list("depths", &depths);
    print_list("table", &table);
    check_guards(&depths, "depths");
    print_end();
}

static void obey(const char *word) {
    if (strcmp(word, "assemble") == 0) call_reading(sam_assemble);
    else if (strcmp(word, "unpack") == 0) call_reading(sam_unpack);
    else if (strcmp(word, "translate") == 0) call_reading(sam_translate);
    else if (strcmp(word, "list") == 0) call_writing(sam_list);
    else if (strcmp(word, "pack") == 0) call_writing(sam_pack);
    else if (strcmp(word, "program") == 0) length = read_number(), read_list(&table);
    else if (strcmp(word, "registers") == 0) read_list(&registers);
    else if (strcmp(word, "bits") == 0) read_list(&bits);
    else if (strcmp(word, "tags") == 0) read_list(&tags);
    else if (strcmp(word, "history") == 0) read_list(&history);
    else if (strcmp(word, "output") == 0) read_list(&output);
    else if (strcmp(word, "reset") == 0) call_machine(sam_reset);
    else if (strcmp(word, "step") == 0) call_machine(sam_step);
    else if (strcmp(word, "back") == 0) call_machine(sam_step_back);
    else if (strcmp(word, "forget") == 0) call_forget();
    else if (strcmp(word, "run") == 0) call_run(sam_run);
    else if (strcmp(word, "dwell") == 0) call_dwell();
    else if (strcmp(word, "why") == 0) call_why();
    else if (strcmp(word, "depths") == 0) call_depths();
    else if (strcmp(word, "save") == 0) call_save();
    else if (strcmp(word, "load") == 0) call_load();
    else if (strcmp(word, "plain") == 0) call_run(plain_run);
    else if (strcmp(word, "plain_pack") == 0) call_writing(plain_pack);
    else if (strcmp(word, "plain_unpack") == 0) call_reading(plain_unpack);
    else die("no such word", word);
}

int main(void) {
    struct lent *all[] = {&source, &written, &told, &table, &registers, &history, &bits, &tags, &output, &depths};
    for (size_t i = 0; i < sizeof all / sizeof all[0]; i++) lend(all[i], 0);
    char *line = NULL;
    size_t room = 0;
    while (getline(&line, &room, stdin) > 0) {
        char *word = strtok(line, " \n");
        if (word != NULL) obey(word);
    }
    free(line);
    return 0;
}
