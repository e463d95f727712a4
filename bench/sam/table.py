"""The fifty-four instructions and the table of a program: what a place holds, and which tables are sound.

Written from document 01, "Instructions" and "Text, table, image", and requests e and h of document 02.
"""

PROGRAM_LIMIT = 1024  # "program 0 to 1,024 instructions"; a table has as many places
WORD = 1 << 32

# Kinds of operand.
NO_OPERAND = "none"
INTEGER = "integer"  # PUSHIMM: -2^31..2^31-1
PATTERN = "pattern"  # PUSHIMMF: # and eight hex digits, or a decimal
OFFSET = "offset"  # ADDSP, PUSHOFF, STOREOFF: -999..999
TARGET = "target"  # a label or 0..length
CHARACTER = "character"  # PUSHIMMCH: 0..127

LAST_CHARACTER = 127  # "codes 0 to 127"

# "Codes in order from 0"; "ITOF (code 50)", "FTOI (code 51)", "PUSHIMMCH n (code 52 [...])", "WRITECH (code 53)"
NAMES = """
    STOP PUSHIMM PUSHIMMF DUP SWAP ADD SUB TIMES DIV MOD ADDF SUBF TIMESF DIVF
    AND OR NAND NOR XOR NOT BITAND BITOR BITNAND BITNOR BITXOR BITNOT
    CMP CMPF GREATER LESS EQUAL ISNIL ISPOS ISNEG
    PUSHSP POPSP PUSHFBR POPFBR LINK ADDSP PUSHIND STOREIND PUSHOFF STOREOFF
    JUMP JUMPC JUMPIND JSR JSRIND PUSHIMMPA ITOF FTOI PUSHIMMCH WRITECH
""".split()

CODES = {name: code for code, name in enumerate(NAMES)}

KIND_BY_NAME = {
    "PUSHIMM": INTEGER,
    "PUSHIMMF": PATTERN,
    "ADDSP": OFFSET,
    "PUSHOFF": OFFSET,
    "STOREOFF": OFFSET,
    "JUMP": TARGET,
    "JUMPC": TARGET,
    "JSR": TARGET,
    "PUSHIMMPA": TARGET,
    "PUSHIMMCH": CHARACTER,
}

KINDS = [KIND_BY_NAME.get(name, NO_OPERAND) for name in NAMES]


def signed(bits, width=32):
    """The number that `width` bits stand for in two's complement."""
    return bits - (1 << width) if bits >> (width - 1) else bits


def make_place(code, operand):
    """ "26 zeros, code 6, operand 32 (two's complement, 0 where there is none)" """
    return code << 32 | operand % WORD


def operand_in_range(kind, operand, length):
    """Whether `operand`, the 32 bits of a place, may stand in a program of this length."""
    if kind == NO_OPERAND:
        return operand == 0
    if kind == OFFSET:
        return -999 <= signed(operand) <= 999
    if kind == TARGET:
        return operand <= length
    if kind == CHARACTER:
        return operand <= LAST_CHARACTER
    return True


def place_sound(place, length):
    """Whether some source assembles to this place: else it is "a table place that cannot be assembled"."""
    code, operand = place >> 32, place % WORD
    return code < len(NAMES) and operand_in_range(KINDS[code], operand, length)


def table_sound(table, length):
    """The table's part of 10: "a table place that cannot be assembled; program length above 1,024;
    a table not of 1,024 places, or an unused place not zero"."""
    if len(table) != PROGRAM_LIMIT or length > PROGRAM_LIMIT:
        return False
    used, unused = table[:length], table[length:]
    return not any(unused) and all(place_sound(place, length) for place in used)
