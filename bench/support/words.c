/* The text of a script, read byte by byte: see words.h. */
#include "words.h"

#include <string.h>

enum { DECIMAL = 10, HEX = 16 };

text text_of(const char *string) {
    text t = {string, strlen(string)};
    return t;
}

static text without_first(text t, size_t length) {
    text rest = {t.at + length, t.length - length};
    return rest;
}

bool same(text a, text b) {
    return a.length == b.length && memcmp(a.at, b.at, a.length) == 0;
}

static bool is_blank(char c) {
    return c == ' ' || c == '\t';
}

static bool is_digit(char c) {
    return c >= '0' && c <= '9';
}

static bool is_letter(char c) {
    return (c >= 'a' && c <= 'z') || (c >= 'A' && c <= 'Z');
}

char printable(int byte) {
    return byte >= ' ' && byte <= '~' ? (char)byte : '.';
}

bool take_line(text *left, text *line) {
    if (left->length == 0) return false;
    const char *lf = memchr(left->at, '\n', left->length);
    size_t length = lf ? (size_t)(lf - left->at) : left->length;
    bool cr_lf = lf && length > 0 && lf[-1] == '\r';
    line->at = left->at;
    line->length = cr_lf ? length - 1 : length;
    *left = without_first(*left, lf ? length + 1 : length);
    return true;
}

text without_comment(text line) {
    size_t length = 0;
    while (length < line.length && (line.length - length < 2 || memcmp(line.at + length, "//", 2) != 0)) length++;
    line.length = length;
    return line;
}

text without_blanks_around(text line) {
    while (line.length > 0 && is_blank(line.at[0])) line = without_first(line, 1);
    while (line.length > 0 && is_blank(line.at[line.length - 1])) line.length--;
    return line;
}

bool is_end(text line) {
    return same(without_blanks_around(without_comment(line)), text_of("end"));
}

bool take_word(text *left, text *word) {
    text rest = without_blanks_around(*left);
    word->at = rest.at;
    word->length = 0;
    while (word->length < rest.length && !is_blank(rest.at[word->length])) word->length++;
    *left = without_first(rest, word->length);
    return word->length > 0;
}

bool no_word_in(text left) {
    text word;
    return !take_word(&left, &word);
}

bool read_number(text word, uint64_t most, uint64_t *number) {
    *number = 0;
    for (size_t i = 0; i < word.length; i++) {
        if (!is_digit(word.at[i])) return false;
        uint64_t ones = (uint64_t)(word.at[i] - '0');
        if (*number > (UINT64_MAX - ones) / DECIMAL) return false;
        *number = *number * DECIMAL + ones;
    }
    return word.length > 0 && word.length <= NUMBER_DIGITS && *number <= most;
}

bool take_number(text *left, uint64_t most, uint64_t *number) {
    text word;
    return take_word(left, &word) && read_number(word, most, number);
}

bool is_only_number(text left, uint64_t *number) {
    return take_number(&left, UINT64_MAX, number) && no_word_in(left);
}

bool take_name(text *left, name *taken) {
    text word;
    if (!take_word(left, &word) || word.length > NAME_LETTERS || !is_letter(word.at[0])) return false;
    for (size_t i = 0; i < word.length; i++) {
        if (!is_letter(word.at[i]) && !is_digit(word.at[i]) && word.at[i] != '_') return false;
    }
    memcpy(taken->letters, word.at, word.length);
    taken->letters[word.length] = '\0';
    return true;
}

bool is_only_name(text left, name *taken) {
    return take_name(&left, taken) && no_word_in(left);
}

/* A digit's number, or -1. */
static int hex_digit(char c) {
    static const char DIGITS[] = "0123456789ABCDEF0123456789abcdef";
    const char *found = memchr(DIGITS, c, sizeof DIGITS - 1);
    return found ? (int)(found - DIGITS) % HEX : -1;
}

bool read_byte(text word, uint8_t *byte) {
    if (word.length != 2) return false;
    int high = hex_digit(word.at[0]), low = hex_digit(word.at[1]);
    if (high < 0 || low < 0) return false;
    *byte = (uint8_t)(HEX * high + low);
    return true;
}
