"""The letters of a page: how any text is written there, and how much room it takes. Rests on nothing of the bench."""

import unicodedata
from html import escape

# Sizes of letters in a picture, as the style in forms.py has them.
TEXT, SMALL, TINY = 12, 11, 10.5
STRONG = 1.12  # how much wider bold letters are

# How wide letters are, as a part of their size, in one of the wider fonts
SLIM_LETTERS, SLIM = "iljtfr", 0.37
BROAD_LETTERS, BROAD = "mw×≠→←…", 0.9
DIGIT, CAPITAL, LETTER, SIGN = 0.64, 0.69, 0.61, 0.36

# Characters that are told by others
SPACE, DELETE = 0x20, 0x7F
CONTROL_PICTURES, DELETE_PICTURE = 0x2400, "\u2421"
UNSEEN = ("Cc", "Cf", "Cs", "Zl", "Zp")
NONCHARACTERS = (0xFFFE, 0xFFFF)


def visible(words):
    """A text with what has no form of its own told: control characters, marks of direction and lone surrogates."""
    if words.isascii() and words.isprintable():
        return words
    return "".join(visible_character(character) for character in words)


def visible_character(character):
    code = ord(character)
    if code < SPACE:
        return chr(CONTROL_PICTURES + code)
    if code == DELETE:
        return DELETE_PICTURE
    if unicodedata.category(character) in UNSEEN or code in NONCHARACTERS:
        return f"\\u{code:04X}"
    return character


def written(words):
    """A text as a page has it, whatever it holds."""
    return escape(visible(words))


def letter_breadth(letter):
    if letter in SLIM_LETTERS:
        return SLIM
    if letter in BROAD_LETTERS:
        return BROAD
    if letter.isdigit():
        return DIGIT
    if letter.isupper():
        return CAPITAL
    return LETTER if letter.isalpha() else SIGN


def breadth(words, size):
    return size * sum(letter_breadth(letter) for letter in words)
