"""The assembler and the lister: document 01, "Text, table, image", and requests a, e and h of document 02."""

import re
from dataclasses import dataclass
from fractions import Fraction

from . import floats
from .table import (CHARACTER, CODES, INTEGER, KINDS, LAST_CHARACTER, NAMES, NO_OPERAND, OFFSET, PATTERN,
                    PROGRAM_LIMIT, TARGET, WORD, make_place, signed, table_sound)

SOURCE_LIMIT = 65536  # "Source 0 to 65,536 bytes"
LABEL_COUNT_LIMIT = 256
LABEL_SIZE_LIMIT = 32
DECIMAL_DIGIT_LIMIT = 9  # "two to nine digits in all"; "ten or more digits 25"
TEXT_SIZE = 20480  # "Listing: 20,480 bytes"

SEPARATORS = b" \t\r\n"
ALLOWED = frozenset(b"abcdefghijklmnopqrstuvwxyzABCDEFGHIJKLMNOPQRSTUVWXYZ0123456789_-#:.")
WORD_FORM = re.compile(rb"[A-Za-z][A-Za-z0-9_]*\Z")  # "a letter, then letters, digits or `_`"
NUMBER_FORM = re.compile(rb"-?[0-9]+\Z")  # "optional `-`, digits"
PATTERN_FORM = re.compile(rb"#[0-9A-Fa-f]{8}\Z")  # "`#` and eight hex digits of either case"
DECIMAL_FORM = re.compile(rb"(-?)([0-9]+)\.([0-9]+)\Z")  # "a point with digits on both sides, and an optional minus"


class Fault(Exception):
    """A refusal of the assembler: its number and its place."""

    def __init__(self, number, place):
        super().__init__(number, place)
        self.number, self.place = number, place


@dataclass
class Token:
    place: int  # "the token's first byte"
    body: bytes  # without the colon
    colon: bool
    end: int  # the place after its last byte

    def refuse(self, number):
        raise Fault(number, self.place)


@dataclass
class Target:
    """An operand that only the whole program can settle: a label, or a number of 0..length."""

    token: Token


# ---- tokens


def read_token(source, place):
    """The token that begins here: to a separator, a comment or the source's end; "the colon ends the token"."""
    end = place
    while end < len(source) and source[end] not in SEPARATORS and not source.startswith(b"//", end):
        if source[end] == ord(":"):
            return Token(place, source[place:end], True, end + 1)
        end += 1
    return Token(place, source[place:end], False, end)


def tokens(source):
    place = 0
    while place < len(source):
        if source[place] in SEPARATORS:
            place += 1
        elif source.startswith(b"//", place):  # "`//` starts a comment to LF"
            line_end = source.find(b"\n", place)
            place = len(source) if line_end < 0 else line_end
        else:
            token = read_token(source, place)
            check_bytes(token)
            yield token
            place = token.end


def check_bytes(token):
    """22, whose place is "the byte itself"; it comes before all else at a token."""
    for index, byte in enumerate(token.body):
        if byte not in ALLOWED:
            raise Fault(22, token.place + index)


# ---- what a token may be


def add_label(labels, token, address):
    """30, 26, 29, in this order."""
    if len(token.body) > LABEL_SIZE_LIMIT:
        token.refuse(30)
    if token.body in labels:
        token.refuse(26)
    if len(labels) == LABEL_COUNT_LIMIT:
        token.refuse(29)
    labels[token.body] = address


def small_number(token, low, high):
    """A number of low..high: 33 by its form, then 25, also for "more than 10 digits"."""
    if not NUMBER_FORM.match(token.body):
        token.refuse(33)
    if len(token.body.lstrip(b"-")) > 10 or not low <= int(token.body) <= high:
        token.refuse(25)
    return int(token.body)


def pattern(token):
    """The bits of PUSHIMMF's operand: "an ill-formed decimal is 33", and whatever else is no pattern."""
    if PATTERN_FORM.match(token.body):
        return int(token.body[1:], 16)
    parts = DECIMAL_FORM.match(token.body)
    if not parts:
        token.refuse(33)
    minus, whole, fraction = parts.groups()
    if len(whole + fraction) > DECIMAL_DIGIT_LIMIT:
        token.refuse(25)
    return decimal_bits(minus, whole, fraction)


def decimal_bits(minus, whole, fraction):
    """ "the binary32 nearest the exact decimal, ties to even. Minus zero keeps its sign." """
    exact = Fraction(int(whole + fraction), 10 ** len(fraction))
    return floats.rounded(exact, floats.SIGN if minus else 0)


def target(token):
    """A label or a number; which number, and whether the label is known, is judged after the last token.
    "A label operand above 32 bytes is 30 too." """
    if NUMBER_FORM.match(token.body):
        return Target(token)
    if not WORD_FORM.match(token.body):
        token.refuse(33)
    if len(token.body) > LABEL_SIZE_LIMIT:
        token.refuse(30)
    return Target(token)


def read_operand(kind, stream, source_length):
    if kind == NO_OPERAND:
        return 0
    token = next(stream, None)
    if token is None:  # "24 is now only "missing""; "an operand missing at the end is at the source length"
        raise Fault(24, source_length)
    if token.colon:  # "A colon against an operand" is of wrong form
        token.refuse(33)
    if kind == INTEGER:
        return small_number(token, -(2**31), 2**31 - 1)
    if kind == PATTERN:
        return pattern(token)
    if kind == OFFSET:
        return small_number(token, -999, 999)
    if kind == CHARACTER:
        return small_number(token, 0, LAST_CHARACTER)
    return target(token)


# ---- the program


def read_program(source):
    """Every token from the left: the instructions as (code, operand), and the labels."""
    labels, instructions = {}, []
    stream = tokens(source)
    for token in stream:
        if token.colon and WORD_FORM.match(token.body):
            add_label(labels, token, len(instructions))
            continue
        if token.colon or token.body.decode() not in CODES:
            token.refuse(23)
        if len(instructions) == PROGRAM_LIMIT:
            token.refuse(28)
        code = CODES[token.body.decode()]
        instructions.append((code, read_operand(KINDS[code], stream, len(source))))
    return instructions, labels


def settle(operand, labels, length):
    """27, and 25 for number targets."""
    if not isinstance(operand, Target):
        return operand
    token = operand.token
    if WORD_FORM.match(token.body):
        return labels[token.body] if token.body in labels else token.refuse(27)
    if len(token.body.lstrip(b"-")) > 10 or not 0 <= int(token.body) <= length:
        token.refuse(25)
    return int(token.body)


def line_and_column(source, place):
    """ "both from 1; a column counts bytes since the last LF", or since the start where there is none."""
    before = source[:place]
    line_start = before.rfind(b"\n") + 1
    return before.count(b"\n") + 1, place - line_start + 1


def assemble(source, table):
    """(number, length, place, line, column); the table is written, or zeroed where the source is refused."""
    if len(table) != PROGRAM_LIMIT:
        return 31, 0, 0, 0, 0
    table[:] = [0] * PROGRAM_LIMIT
    if len(source) > SOURCE_LIMIT:
        return 21, 0, 0, 0, 0
    try:
        instructions, labels = read_program(source)
        places = [make_place(code, settle(operand, labels, len(instructions))) for code, operand in instructions]
    except Fault as fault:
        return fault.number, 0, fault.place, *line_and_column(source, fault.place)
    table[: len(places)] = places
    return 0, len(places), 0, 0, 0


def line_of(place):
    """ "name, then only if it has an operand a space and the operand" """
    code, operand = place >> 32, place % WORD
    if KINDS[code] == NO_OPERAND:
        return f"{NAMES[code]}\n"
    if KINDS[code] == PATTERN:
        return f"{NAMES[code]} #{operand:08X}\n"
    if KINDS[code] in (TARGET, CHARACTER):
        return f"{NAMES[code]} {operand}\n"
    return f"{NAMES[code]} {signed(operand)}\n"


def list_program(table, length, text):
    """(number, length of the listing). "Pack and list give 31 before 10" """
    if len(text) != TEXT_SIZE:
        return 31, 0
    text[:] = bytes(TEXT_SIZE)
    if not table_sound(table, length):
        return 10, 0
    listing = "".join(line_of(place) for place in table[:length]).encode()
    text[: len(listing)] = listing
    return 0, len(listing)
