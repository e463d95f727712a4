/* Bytes of our own: memory that grows, files that are read, and what a script keeps under a NAME. */
#ifndef BYTES_H
#define BYTES_H

#include "words.h"

#include <stdio.h>

/* All zero it is empty; `at` is to be freed. */
typedef struct {
    char *at;
    size_t length, room;
} growing;

/* A list, the newest first; NULL is the empty one. */
typedef struct kept {
    name name;
    growing bytes;
    struct kept *next;
} kept;

/* Ends the program with one line on standard error where there is no memory. */
void *not_null(void *memory);
void append(growing *bytes, const void *more, size_t length);
text text_in(const growing *bytes);

/* False where the file cannot be read to its end. */
bool read_all(FILE *file, growing *bytes);
bool read_path(const char *path, growing *bytes);

/* NULL where nothing is kept under the name. */
const kept *find_kept(const kept *first, const name *wanted);
void keep(kept **first, const name *as, const void *bytes, size_t length);
void free_kept(kept *first);

#endif
