"""The answers of a transcript of docs/SUPPORT.md, as lines and as the words that an `expect` is held to: for replay.py
alone."""

import re
from dataclasses import dataclass
from typing import Optional

import sam
from sam.text import line_of

BYTES_TO_A_LINE = 32
OUTSIDE_TEXT = re.compile(rb"[^ -~]")  # "a byte outside 32 to 126"

MEANINGS = {
    0: "done",
    1: "the machine has halted",
    2: "the program has ended",
    3: "too few values",
    4: "a value has a tag that is not taken",
    5: "no number for it",
    6: "address or cell out of range",
    7: "no room on the stack",
    8: "no room in the history",
    9: "no step to take back",
    10: "broken state or table",
    11: "size or limit out of range",
    12: "the output is full",
    14: "more steps than are kept",
    21: "too many bytes",
    22: "forbidden byte",
    23: "no instruction or label here",
    24: "operand missing",
    25: "operand out of range",
    26: "label twice",
    27: "label unknown",
    28: "too many instructions",
    29: "too many labels",
    30: "label too long",
    31: "lent output not of its length",
    33: "operand of wrong form",
    41: "the image ends early",
    42: "too many instructions in the image",
    43: "no such instruction in the image",
    44: "operand out of range in the image",
    45: "padding not zero or bytes left over",
    50: "limit reached",
    60: "the machine has not halted",
    61: "the stack is empty",
    62: "cell 0 is neither INT nor FLOAT",
    63: "cell 0 is a NaN",
    64: "depth list of another length",
    65: "forbidden instruction",
    66: "a depth rule fails",
    67: "lent memory of other sizes",
    70: "forbidden byte in the formula",
    71: "the formula cannot go on or end here",
    72: "number too large",
    73: "nested too deep",
}


@dataclass
class Answer:
    """What stands below a command, and the words that an `expect` is held to: nothing where it is no answer."""

    lines: list
    words: Optional[list] = None


def call_line(number, told=""):
    """ "its number, the number's meaning, and behind `; ` what was told" """
    return f"{number} {MEANINGS[number]}; {told}" if told else f"{number} {MEANINGS[number]}"


def answer(number, told="", *words, below=()):
    """To one call; the words stand behind the number."""
    return Answer([call_line(number, told), *below], [number, *words])


def steps_text(count):
    """ "It is `1 step`, and `K steps` for every other K." """
    return "1 step" if count == 1 else f"{count} steps"


def instruction_text(place):
    """ "An instruction is written as its line of the listing" """
    return line_of(place).rstrip("\n")


def cell_text(tag, bits):
    """TAG and VALUE, as the console's line has them behind the cell: no PA or CH of a machine is 2^31 or more."""
    _, tag_and_value = sam.cell_line(0, tag, bits).rstrip("\n").split(" ", 1)
    return tag_and_value


def hex_text(data):
    """ "two hex capitals each with a space between" """
    return data.hex(" ").upper()


def hex_lines(data):
    return [hex_text(data[start : start + BYTES_TO_A_LINE]) for start in range(0, len(data), BYTES_TO_A_LINE)]


def output_lines(written):
    """ "where a byte is written: each byte as two hex capitals, and all as text in quotes" """
    text = OUTSIDE_TEXT.sub(b".", written).decode("ascii")
    return [f'out {hex_text(written)} "{text}"'] if written else []
