"""How counts, times and what a cell holds are told in words. Rests on nothing of the bench."""

import math
import re
import struct

TENTHS = 10  # in a second
BINARY32 = re.compile("#[0-9A-F]{8}")  # as the trace has a FLOAT
DECIMAL_DIGITS = 9  # enough for any binary32
NO_SECONDS = ("NaN", "inf", "-inf")

# What stands for a tag besides those of the machine
NO_CELL = "-"  # of cell 0 where SP is 0
SEVERAL = "several"  # of cells that are taken together


def counted(count, what):
    return f"{count} {what}" if count == 1 else f"{count} {what}s"


def seconds(tenths):
    return f"{tenths // TENTHS}.{tenths % TENTHS} s"


def decimal(bits):
    """A binary32 as the shortest decimal that is read as it."""
    pattern = struct.pack(">I", bits)
    (value,) = struct.unpack(">f", pattern)
    if math.isnan(value):
        return "NaN"
    numbers = (float(f"{value:.{digits}g}") for digits in range(1, DECIMAL_DIGITS + 1))
    return str(next(number for number in numbers if struct.pack(">f", number) == pattern))


def cell_value(tag, value):
    """An INT is tenths of a second for a door, a FLOAT seconds; no value is one that changes."""
    if value is None:
        return "changes"
    if tag == "INT":
        return f"{value} tenths"
    if tag == "FLOAT" and BINARY32.fullmatch(value):
        number = decimal(int(value[1:], 16))
        return number if number in NO_SECONDS else f"{number} s"
    return value


def cell_texts(tag, value):
    """What a cell holds, from the longest words to the shortest."""
    if tag == SEVERAL:
        return ["several tags", "several"]
    full = f"{tag} {cell_value(tag, value)}"
    return [full, re.sub(" (tenths|s)$", "", full), tag]
