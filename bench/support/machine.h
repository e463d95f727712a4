/* What a replay needs of a machine besides its calls: memory to lend it, and words for what it holds and answers. */
#ifndef MACHINE_H
#define MACHINE_H

#include "sam_session.h"

enum { VALUE_BYTES = 64 }; /* enough for a tag and a value, each with a number of 20 digits */

/* Lends a session exactly so much new memory. What was lent before is freed by free_lent, and not here. */
void lend_anew(sam_session *s, size_t cells, size_t places, size_t output_len);
void free_lent(sam_session *s);

/* A machine in the same state, with memory of its own. */
void copy_session(sam_session *copy, const sam_session *s);

/* A count that the library told, held to what is there. */
size_t at_most(uint64_t count, size_t there);
size_t live_cells(const sam_session *s);

/* What a number of sam.h means. */
const char *meaning(uint32_t number);

/* What a cell holds, as its tag and its value. */
void describe(uint64_t tag, uint64_t bits, char described[VALUE_BYTES]);
void describe_cell(const sam_session *s, size_t cell, char described[VALUE_BYTES]);

#endif
