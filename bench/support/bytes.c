/* Bytes of our own: see bytes.h. */
#include "bytes.h"

#include <stdlib.h>
#include <string.h>

enum {
    NO_MEMORY_STATUS = 2,
    SMALLEST_ROOM = 256, /* of bytes that grow */
    CHUNK_BYTES = 4096   /* of a file, read at once */
};

void *not_null(void *memory) {
    if (memory) return memory;
    fflush(stdout);
    fprintf(stderr, "replay: there is no memory left\n");
    exit(NO_MEMORY_STATUS);
}

void append(growing *bytes, const void *more, size_t length) {
    if (length > bytes->room - bytes->length) {
        bytes->room = 2 * bytes->room + length + SMALLEST_ROOM;
        bytes->at = not_null(realloc(bytes->at, bytes->room));
    }
    if (length > 0) memcpy(bytes->at + bytes->length, more, length);
    bytes->length += length;
}

text text_in(const growing *bytes) {
    text t = {bytes->length > 0 ? bytes->at : "", bytes->length};
    return t;
}

bool read_all(FILE *file, growing *bytes) {
    char chunk[CHUNK_BYTES];
    size_t length;
    while ((length = fread(chunk, 1, sizeof chunk, file)) > 0) append(bytes, chunk, length);
    return !ferror(file);
}

bool read_path(const char *path, growing *bytes) {
    FILE *file = fopen(path, "rb");
    if (!file) return false;
    bool is_read = read_all(file, bytes);
    fclose(file);
    return is_read;
}

const kept *find_kept(const kept *first, const name *wanted) {
    while (first && strcmp(first->name.letters, wanted->letters) != 0) first = first->next;
    return first;
}

static void keep_anew(kept **first, const name *as, const void *bytes, size_t length) {
    kept *newest = not_null(calloc(1, sizeof *newest));
    newest->name = *as;
    newest->next = *first;
    append(&newest->bytes, bytes, length);
    *first = newest;
}

void keep(kept **first, const name *as, const void *bytes, size_t length) {
    kept *place = *first;
    while (place && strcmp(place->name.letters, as->letters) != 0) place = place->next;
    if (!place) {
        keep_anew(first, as, bytes, length);
    } else {
        place->bytes.length = 0;
        append(&place->bytes, bytes, length);
    }
}

void free_kept(kept *first) {
    while (first) {
        kept *next = first->next;
        free(first->bytes.at);
        free(first);
        first = next;
    }
}
