/* The text of a script: its lines, and the words, numbers and names in them. NUL is a byte like any other. */
#ifndef WORDS_H
#define WORDS_H

#include <stdbool.h>
#include <stddef.h>
#include <stdint.h>

enum { NAME_LETTERS = 32, NUMBER_DIGITS = 20 };

/* A part of a script or a file, which somebody else holds. */
typedef struct {
    const char *at;
    size_t length;
} text;

typedef struct {
    char letters[NAME_LETTERS + 1];
} name;

text text_of(const char *string);
bool same(text a, text b);

/* A byte outside 32 to 126 as a `.`. */
char printable(int byte);

/* Takes a line off the text, without its LF or CR LF; false where no byte is left. */
bool take_line(text *left, text *line);
text without_comment(text line);
text without_blanks_around(text line);

/* Whether `end` is the line's only word before any comment. */
bool is_end(text line);

/* What follows is of a line without its comment. Takes the first word off it; false where there is none. */
bool take_word(text *left, text *word);
bool no_word_in(text left);

/* The word, the first word, or the only word, is a number, and not above `most`. */
bool read_number(text word, uint64_t most, uint64_t *number);
bool take_number(text *left, uint64_t most, uint64_t *number);
bool is_only_number(text left, uint64_t *number);

/* The first word, or the only word, is a name. */
bool take_name(text *left, name *taken);
bool is_only_name(text left, name *taken);

/* The word is a byte, of two hex digits. */
bool read_byte(text word, uint8_t *byte);

#endif
