#!/usr/bin/env python3
"""Compares every call of the C library, and the console program, with the interpreter in sam/, byte for byte.

    compare.py [--seed S] [--cases C] [--only FAMILY,..] [--console COMMAND] [--formula-console COMMAND] [--save FILE]
        DRIVER

DRIVER and COMMAND are commands: a program, or an emulator and a program. Exit status 1 where anything differs, a
number of the documents was never given back, a fault of a source was never in a first line or never in a later one, a
test of FLOATs that request b speaks of, a sum at the ends of 32 bits that request d speaks of or a conversion that
request e speaks of was never made, a step or a run was never refused at such a sum or conversion, a kind of decimal or
a code at the end of the codes was never read, a dwell that request f speaks of was never read or never refused, a kept
number that request g speaks of was never given to a call or its steps never all taken back, an output, a character, a
record or a WRITECH that request h speaks of was never met, a forget that request i speaks of was never made or never
refused or the room it gained never used, a depth list that request j speaks of was never accepted or never refused or a
program with a list never played, a state that request k speaks of was never saved, never loaded or never refused or a
session never carried on, a cell that request l speaks of was never asked, never told of or never refused, a formula
that request m speaks of was never translated, never run or never refused, sessions in two rooms that request n speaks
of were never made or their answers are not as it says, or a told or registers of another length were never given to a
call that would be done or refused besides.
"""

import argparse
import random
import shlex
import subprocess
import sys
from collections import Counter
from itertools import combinations, permutations, product

import depths
import forgets
import formulas
import panel
import rooms
import sam
import saves
import teaching
import whys
from calls import REGISTERS, STATE_BYTES, WHY_TOLD, Script
from cases import ALLOWED_KEPT, ALLOWED_SIZES, BROKEN_KEPT, CALLS, CORNERS, FAMILIES, OTHER_LENGTHS, REFUSED_SIZES
from cases import BREAKS, DOUBLE_WORD, JUDGED_STATES, any_formula, break_record, made_record, other_tolds, wrong_tolds
from decimals import ALL_MARKS, ILL_FORMED, TOO_LONG
from dwells import KINDS_OF_CELLS, LONGEST, REFUSED_CELLS, SHORTEST, first_of
from programs import CONVERSIONS, FTOI_ENDS, GREATEST, INFINITIES, INTEGER_TIES, LEAST, MINUS_ZERO, NANS, SUMS, ZEROS
from programs import ONE_INTEGER, TWO_FLOATS, TWO_INTEGERS
from sam.actions import CH, FLOAT, INT, MA, PA
from sam.machine import HISTORY_LIMIT, OUTPUT_LIMIT, RUN_LIMIT
from sam.table import NAMES, WORD
from sources import any_source, every_refusal

ALL_NUMBERS = [*range(0, 13), 14, *range(21, 32), 33, *range(41, 46), 50, *range(60, 68), *range(70, 74)]
FAULTS = [*range(22, 31), 33]  # refusals of a source that have a line
FLOAT_TESTS = [  # what request b changed
    *[("EQUAL", ((FLOAT, zero), (FLOAT, other)), 0) for zero, other in permutations(ZEROS)],
    *[("EQUAL", ((FLOAT, nan), (FLOAT, nan)), 0) for nan in NANS],
    ("ISNIL", ((FLOAT, MINUS_ZERO),), 0),
]
ADDRESS_ENDS = [  # what request d changed: an MA and an INT, the last accepted and the first refused
    ("ADD", (GREATEST, 0), (GREATEST, 1)),
    ("ADD", (LEAST, 0), (LEAST, -1)),
    ("ADD", (0, LEAST), (-1, LEAST)),
    ("SUB", (LEAST, 0), (LEAST, 1)),
    ("SUB", (GREATEST, 0), (GREATEST, -1)),
    ("SUB", (-1, LEAST), (0, LEAST)),
]
CONVERSION_TESTS = [  # what request e added: done, with no room for the record 8, of another tag 4, without a value 3
    *[("ITOF", ((INT, (tie + by) % WORD),), 0) for tie in INTEGER_TIES for by in (-1, 0, 1)],
    *[("ITOF", ((INT, value % WORD),), 0) for value in (0, 1, -1, LEAST, GREATEST)],
    *[("FTOI", ((FLOAT, bits),), 0) for bits in [*ZEROS, *[last for last, _ in FTOI_ENDS]]],
    *[("FTOI", ((FLOAT, bits),), 5) for bits in [*NANS, *INFINITIES, *[first for _, first in FTOI_ENDS]]],
    ("ITOF", ((INT, 1),), 8),
    *[("FTOI", ((FLOAT, last),), 8) for last, _ in FTOI_ENDS],
    *[("ITOF", ((tag, 0),), 4) for tag in (FLOAT, MA, PA, CH)],
    *[("FTOI", ((tag, 0),), 4) for tag in (INT, MA, PA, CH)],
    *[(name, (), 3) for name in CONVERSIONS],
]
DECIMALS = [*ALL_MARKS, *[(33, word) for word in ILL_FORMED], *[(25, word) for word in TOO_LONG]]
LAST_CODES = [(49, 0), (50, 0), (51, 0), (52, 0), (53, 0), (54, 43), (63, 43)]
HELD = [  # tag, end, and numbers or bits that are held there
    (INT, SHORTEST, (LEAST, -1, 0, SHORTEST - 1, SHORTEST)),
    (INT, LONGEST, (LONGEST, LONGEST + 1, GREATEST)),
    (FLOAT, SHORTEST, (0xFF800000, 0xFF7FFFFF, *ZEROS, 0x00000001, first_of(SHORTEST) - 1)),
    (FLOAT, LONGEST, (first_of(LONGEST + 1), 0x7F7FFFFF, 0x7F800000)),
]
DWELLS_READ = [  # what request f added: cell 0 and its tenths, from the first FLOAT that has them to the last
    *[((FLOAT, first_of(tenths)), tenths) for tenths in range(SHORTEST, LONGEST + 1)],
    *[((FLOAT, first_of(tenths + 1) - 1), tenths) for tenths in range(SHORTEST, LONGEST + 1)],
    *[((INT, tenths), tenths) for tenths in (SHORTEST + 1, LONGEST - 1)],
    *[((tag, value % WORD), end) for tag, end, values in HELD for value in values],
]
# The call before a dwell, and the number.
DWELLS_AFTER = [
    *[(word, 60) for word in ("reset", "step", "back", "forget", "load")],
    *[(word, 0) for word in ("step", "run", "forget", "load")],
]
# What request g added: H, U and the kept number that a step-back of a machine made by hand leaves, refused and not.
BROKEN_BY_BACK = [(8, 3, 0), (8, 2, 0), (8, 2, 3), (8192, 7999, 0)]
ALLOWED_BY_BACK = [(8, 3, 1), (8, 3, 3), (8, 2, 1), (8, 2, 2), (8192, 7999, 7999)]
# The numbers that the input of each writer is given where every length is right.
INPUT_NUMBERS = {
    "assemble": [0, 21, *FAULTS],
    "translate": list(formulas.JUDGED),
    **dict.fromkeys(["list", "pack", "save", "plain_pack"], [0, 10]),
    **dict.fromkeys(["unpack", "plain_unpack"], [0, *range(41, 46)]),
}
# What request h added: tests of characters, with each other and with other tags of the same bits.
CHARACTER_TESTS = [
    *[("EQUAL", ((CH, below), (CH, top)), 0) for below, top in product((0, 1), repeat=2)],
    *[("EQUAL", pair, 0) for tag in (INT, FLOAT, MA, PA) for pair in permutations([(CH, 0), (tag, 0)])],
    *[("ISNIL", ((CH, bits),), 0) for bits in (0, 1)],
]
# Instructions that are 4 on characters alone, and such as take them.
NO_CHARACTERS = [
    *TWO_INTEGERS, *TWO_FLOATS, "CMPF", *ONE_INTEGER, *CONVERSIONS, "POPSP", "POPFBR", "PUSHIND", "STOREIND", "JUMPC",
    "JUMPIND", "JSRIND",
]  # fmt: skip
CHARACTERS_TAKEN = ["DUP", "SWAP", "EQUAL", "ISNIL", "PUSHOFF", "STOREOFF", "WRITECH"]
# The numbers that operands of PUSHIMMCH are given.
CHARACTER_OPERANDS = [
    *[(0, word) for word in panel.TAKEN],
    *[(25, word) for word in panel.OUT_OF_RANGE],
    *[(33, word) for word in panel.WRONG_FORM],
]
# By how much a call changed the written count, with a history (True) and without; a run writes several characters.
WRITTEN_MOVES = [
    *product(("run", "plain"), (False, True), (1, 2, 3)),
    *[("step", has_history, 1) for has_history in (False, True)],
    ("back", True, -1),
]
# Whether there is a history, steps (2 is for more), and whether steps before them were forgotten.
TAKEN_BACK = [(False, 0, False), *[(True, steps, forgotten) for steps in (0, 1, 2) for forgotten in (False, True)]]
# What request i added: in a series, whether there is a history, what is forgotten, and the number.
SERIES_FORGETS = [
    (False, "none", 0),
    *[(True, what, 0) for what in ("none", "some", "all")],
    *[(has_history, what, 14) for has_history in (False, True) for what in ("more", "a lot more")],
]
# A call on what a forget left, and its numbers.
AFTER_FORGETS = {
    "step": [0, 1, 8],
    "back": [0, 9],
    "run": [0, 8, 50],
    "plain": [0],
    "dwell": [0, 60],
    "forget": [0, 14],
    "why": [0, 6],
    "save": [0],
    "reset": [0],
}
# Sign of the places free after a forget less those that a step needs, where it met 8 before, and its number.
ROOM_GAINED = {"step": [(-1, 8), (0, 0), (1, 0)], "run": [(-1, 8), (0, 50), (1, 50)]}
# What request j added: instructions that need no value, so that none are too few for them.
NEEDLESS = [
    "STOP", "PUSHIMM", "PUSHIMMF", "PUSHSP", "PUSHFBR", "LINK", "PUSHOFF", "JUMP", "PUSHIMMPA", "PUSHIMMCH",
]  # fmt: skip
# An instruction where nothing leads to, its depth, and the number with every N: its depth after is below N or is not.
DEEP = [
    *[("STOP", depth, number) for depth, number in [("N-1", 0), ("N", 66), ("N+1", 66), ("65533", 66), ("65534", 66)]],
    *[("JUMP 2", depth, number) for depth, number in [("N-1", 0), ("N", 66), ("65534", 66)]],
    *[("JUMPC 2", depth, number) for depth, number in [("N", 0), ("N+1", 66), ("65534", 66)]],
    *[("WRITECH", depth, number) for depth, number in [("N", 0), ("N+1", 66), ("65534", 66)]],
    *[("PUSHIMM 1", depth, 66) for depth in ("N-1", "N", "65533", "65534")],  # 65,534 and 65,535 after
    *[("ADDSP -1", depth, number) for depth, number in [("N", 0), ("N+1", 66), ("65534", 66)]],
    *[("ADDSP -999", depth, number) for depth, number in [("N+998", 0), ("N+999", 66), ("65534", 66)]],
    *[("ADDSP 1", depth, 66) for depth in ("N-1", "N", "65534")],
    *[("ADDSP 2", "65534", 66), ("ADDSP 3", "65533", 66), ("ADDSP 3", "65534", 66)],  # 0, 0 and 1 in sixteen bits
    *[("ADDSP 999", depth, 66) for depth in ("N-1", "65533", "65534")],
]
# What was damaged in a list that was right, and the numbers it led to.
DAMAGED = {
    "one more": [66],
    "one less": [66],
    "N-1": [66, 0],
    "N": [66],
    "deepest": [66],
    "not reached": [66, 0],
    "moved": [66, 0],
    "length": [64],
    "N smaller": [66, 11],
    "N larger": [0, 11],
    "table": [10],
}
# A call on a machine whose program has a list, and its numbers: all there are but 2, 3 and 7.
LISTED_CALLS = {
    "reset": [0],
    "step": [0, 1, 4, 5, 6, 8, 12],
    "run": [0, 4, 5, 6, 8, 12, 50],
    "back": [0, 9],
    "forget": [0, 14],
}
# What request k added: the number that each bit of a small image leads to where it is another, and as much is lent as
# before. N, PC, SP, FBR, HALT and the output count are at 0, 10, 21, 31, 41 and 42; cells follow at 51, 86, 121, ..
FOUR_CELLS = [
    *[(range(51, 86), 0)],  # INT 40
    *[([87, 88], 10), (range(89, 114), 10), ([86, *range(114, 121)], 0)],  # CH 76: tags 6 and 5; above 127; else
    *[([121, 123], 10), ([122, *range(124, 156)], 0)],  # MA -1: tag 6 and a PA
    *[([156, *range(159, 189)], 10), ([157, 158, 189, 190], 0)],  # PA 3: tag 7; above the length; else
]
ANOTHER_BIT = {
    "one cell": [  # N 1, all registers 0, no output; INT 40
        *[(range(0, 9), 41), ([9], 67)],  # more cells; none
        *[(range(10, 19), 10), ([19, 20, 41], 0)],  # PC 4 and above; 2 and 1, HALT 1
        *[(range(21, 41), 10), (range(42, 51), 41)],  # SP and FBR not below 1; more output
        *[(range(51, 86), 0), ([86, 87], 45)],  # any INT, a FLOAT, an MA and a CH 40; padding
    ],
    "four cells": [  # N 4, PC 1, SP 2, FBR 1, HALT 0, two bytes
        *[([0, 1, 2, 3, 4, 5, 6, 8, 9], 41), ([7], 67)],  # more cells; none
        *[(range(10, 19), 10), ([19, 20], 0)],  # PC 5 and above; 3 and 0
        *[(range(21, 29), 10), ([29, 30], 0)],  # SP 6 and above; 0 and 3
        *[(range(31, 39), 10), ([39, 40, 41], 0)],  # FBR 5 and above; 3 and 0, HALT 1
        *[([*range(42, 49), 50], 41), ([49], 45)],  # more output; none
        *FOUR_CELLS,
        *[(range(191, 207), 0), ([207], 45)],  # bytes; padding
    ],
    "no padding": [  # N 7, PC 0, SP 6, FBR 0, HALT 1, three bytes
        *[(range(0, 7), 41), ([7, 8, 9], 67)],  # more cells; 3, 5 and 6
        *[(range(10, 19), 10), ([19, 20, 41], 0)],
        *[([*range(21, 28), 30], 10), ([28, 29], 0)],  # SP 14 and above, 7; 2 and 4
        *[(range(31, 38), 10), ([38, 39, 40], 0)],  # FBR 8 and above; 4, 2 and 1
        *[(range(42, 49), 41), ([49, 50], 45)],  # more output; less
        *FOUR_CELLS,
        *[([191, 192], 10), (range(193, 226), 0)],  # FLOAT #7FC00000: tag 5 and a PA
        *[([226], 10), (range(227, 261), 0)],  # INT -1: a CH
        *[([262, 263, *range(264, 289)], 10), ([261, *range(289, 296)], 0)],  # CH 0: tags 6 and 5; above 127; else
        *[(range(296, 320), 0)],  # bytes
    ],
}
# A change to an image that was saved, or made of fields near their ends, and the numbers it led to.
CHANGED_IMAGES = {
    "nothing": [0, 10, 67],
    "any bit": [0, 10, 41],
    "a bit of the header": [0, 10, 41, 67],
    "the last bit": [10, 45, 67],
    "cut": [41],
    "longer": [10, 45, 67],
    "all of a save": [10, 45, 67],
}
# A call on what a load left, and its numbers.
AFTER_LOADS = {
    "step": [0, 1, 2, 3, 4, 5, 6, 7, 8],
    "back": [9],
    "run": [0, 2, 8],
    "plain": [0, 2, 8],
    "dwell": [0, 60],
    "forget": [0],
    "why": [0],
    "save": [0],
    "load": [0],
    "reset": [0],
}
SESSION_NUMBERS = [0, 1, 2, 3, 4, 5, 6, 7, 12]  # of the last step of a session that was carried on
# Whether the first controller and the spare one have a history, who was refused first, and the number.
CARRIED = [
    *[(*histories, "both", number) for histories in product((False, True), repeat=2) for number in SESSION_NUMBERS],
    *[(True, has_history, "original", 8) for has_history in (False, True)],
    *[(has_history, True, "spare", 8) for has_history in (False, True)],
    (True, True, "both", 8),
]
# Whether there is a history, a call in a series from a load, and its number.
LOADED_CALLS = [
    *product((False, True), ("step",), (0, 1, 2, 3, 4, 5, 6, 7, 12)),
    *product((False, True), ("run",), (0, 2, 3, 4, 5, 6, 7, 12, 50)),
    *[(True, "step", 8), (True, "run", 8), (True, "back", 0), (True, "back", 9), (False, "back", 9)],
    *product((False, True), ("forget",), (0, 14)),
]
# Whether there is a history, and whether anything was taken back and forgotten in such a series.
FRESH_LOADS = [(False, False, False), *[(True, *was) for was in product((False, True), repeat=2)]]
# What request l added: the places of the table that the records of whys.py are asked under; and of each cell that the
# first four of forgets.WELL_FORMED wrote, all five, and other records of whys.py, how many steps back, PC, the table's
# place, old tag and old bits, by hand.
JUMP, WRITECH, STOP = 44 << 32 | 1, 53 << 32, 0
BY_FOUR = {0: (3, 2, STOP, INT, 40), 2: (3, 2, STOP, CH, 127), 3: (1, 0, JUMP, PA, 3)}
BY_FIVE = {
    0: (1, 0, JUMP, FLOAT, 0x40200000),
    1: (1, 0, JUMP, MA, WORD - 1),
    2: (1, 0, JUMP, CH, 0),
    3: (1, 0, JUMP, INT, 0),
}
FEWER = {
    0: (1, 0, JUMP, FLOAT, 48),
    1: (2, 2, STOP, FLOAT, 33),
    2: (3, 1, WRITECH, FLOAT, 18),
    3: (4, 0, JUMP, FLOAT, 3),
}
FEWER_BACK = {
    0: (1, 2, STOP, FLOAT, 32),
    1: (1, 2, STOP, FLOAT, 33),
    2: (2, 1, WRITECH, FLOAT, 18),
    3: (3, 0, JUMP, FLOAT, 3),
}
FROM_END = {
    0: (4, 1, WRITECH, MA, 0),
    1: (3, 2, STOP, MA, 17),
    2: (2, 0, JUMP, MA, 34),
    3: (1, 1, WRITECH, MA, 51),
}
FROM_END_BACK = {
    0: (3, 1, WRITECH, MA, 0),
    1: (2, 2, STOP, MA, 17),
    2: (1, 0, JUMP, MA, 34),
    3: (1, 0, JUMP, MA, 35),
}
AT_ENDS = {
    0: (1, 0, JUMP, INT, WORD - 1),
    1: (1, 0, JUMP, FLOAT, WORD - 1),
    2: (1, 0, JUMP, PA, 3),
    3: (1, 0, JUMP, CH, 127),
}
AS_HELD = {
    0: (1, 1, WRITECH, INT, 40),
    1: (1, 1, WRITECH, CH, 76),
    2: (1, 1, WRITECH, MA, 0),
    3: (1, 1, WRITECH, PA, 3),
}


def of_cells(told, *cells):
    return {cell: told[cell] for cell in cells}


# The same by the records, and the steps forgotten and taken back.
WHO_WROTE = {
    ("none", 0, 0): {},
    ("1 of five", 0, 0): {},
    ("1 of five", 1, 0): {},
    ("2 of five", 0, 0): {0: (1, 2, STOP, INT, 40), 2: (1, 2, STOP, CH, 127)},
    ("2 of five", 1, 0): {0: (1, 2, STOP, INT, 40), 2: (1, 2, STOP, CH, 127)},
    ("2 of five", 2, 0): {},
    ("3 of five", 0, 0): {0: (2, 2, STOP, INT, 40), 2: (2, 2, STOP, CH, 127)},
    ("4 of five", 0, 0): BY_FOUR,
    **{("5 of five", forgotten, 0): BY_FIVE for forgotten in range(5)},
    ("5 of five", 0, 1): BY_FOUR,
    ("5 of five", 1, 1): BY_FOUR,
    ("5 of five", 2, 1): of_cells(BY_FOUR, 3),
    **{("again and again", forgotten, 0): {0: (1, 0, JUMP, INT, 6)} for forgotten in range(5)},
    **{("again and again", forgotten, 1): {0: (1, 2, STOP, INT, 5)} for forgotten in range(3)},
    ("again and again", 0, 2): {0: (1, 1, WRITECH, INT, 4)},
    **{("fewer each time", forgotten, 0): of_cells(FEWER, *range(4 - forgotten)) for forgotten in range(5)},
    ("fewer each time", 0, 1): FEWER_BACK,
    ("fewer each time", 1, 1): of_cells(FEWER_BACK, 0, 1, 2),
    ("fewer each time", 2, 1): of_cells(FEWER_BACK, 0, 1),
    **{("from the end", forgotten, 0): of_cells(FROM_END, *range(forgotten, 4)) for forgotten in range(5)},
    ("from the end", 0, 1): FROM_END_BACK,
    ("from the end", 1, 1): of_cells(FROM_END_BACK, 1, 2, 3),
    ("from the end", 2, 1): of_cells(FROM_END_BACK, 2, 3),
    ("at the ends", 0, 0): AT_ENDS,
    ("at the ends", 1, 0): {},
    ("what it held", 0, 0): AS_HELD,
    ("what it held", 0, 1): {},
}
# Records below a WRITECH's with nothing written, and above, and how many steps back cell 0 was written.
UNWRITTEN = {(0, 0): None, (0, 4): 3, (1, 3): 3, (2, 2): 4, (3, 1): 4, (4, 0): 4}
# Records, U, and what is told of cells 0 and 3 where the kept number is theirs.
KEPT_TOLD = {
    (2, 4): {0: (1, 2, STOP, INT, 40)},
    (3, 5): {0: (2, 2, STOP, INT, 40)},
    (3, 15): of_cells(BY_FIVE, 0, 3),
}
# A call on five records, HALT, and its number, and what a why of cell 0 then gives.
NEWEST = BY_FIVE[0][1:]
WHYS_AFTER = [
    ("step", 0, 0, 0, 1, 2, *NEWEST),
    ("step", 1, 1, 0, 1, 1, *NEWEST),
    *[("back", halt, 0, 0, 1, *BY_FOUR[0]) for halt in (0, 1)],
    *[(word, 0, 0, 0, 1, 4, *NEWEST) for word in ("run", "plain")],
    *[(word, 1, 0, 0, 1, 1, *NEWEST) for word in ("run", "plain")],
    *[("dwell", halt, number, 0, 1, 1, *NEWEST) for halt, number in [(0, 60), (1, 0)]],
    *[(word, halt, 0, 0, 1, 1, *NEWEST) for word in ("why", "save") for halt in (0, 1)],
    *[(word, halt, 0, 0, *whys.NONE_WROTE) for word in ("forget", "reset", "load") for halt in (0, 1)],
    *[("load cut", halt, 41, 10, *whys.NONE_WROTE) for halt in (0, 1)],
]
# Instructions that write one cell, and those that wrote what it held.
ONE_CELL = [
    *TWO_INTEGERS, "EQUAL", *TWO_FLOATS, "CMPF", *ONE_INTEGER, "ISNIL", *CONVERSIONS,
    "PUSHIMM", "PUSHIMMF", "PUSHIMMPA", "PUSHIMMCH", "DUP", "PUSHSP", "PUSHFBR", "LINK", "PUSHOFF", "PUSHIND", "JSR",
    "JSRIND", "STOREOFF", "STOREIND", "ADDSP", "POPSP",
]  # fmt: skip
HELD_ALREADY = [
    *SUMS, "PUSHIMM", "PUSHIMMF", "PUSHIMMPA", "PUSHIMMCH", "DUP", "PUSHSP", "PUSHFBR", "LINK", "PUSHOFF", "JSR",
    "JSRIND", "STOREOFF", "STOREIND", "ADDSP",
]  # fmt: skip
# An instruction, which of the cells that it wrote, and whether the cell held that: where a POPSP writes first is an MA.
NAMED_STEPS = [
    *[(name, "only", False) for name in ONE_CELL],
    *[(name, "only", True) for name in HELD_ALREADY],
    *product(["SWAP"], ("first", "last"), (False, True)),
    *product(["ADDSP"], ("first", "between", "last"), (False, True)),
    ("POPSP", "first", False),
    *product(["POPSP"], ("between", "last"), (False, True)),
]
# HALT, where the cell lies, and how many kept steps wrote it.
ASKED_CELLS = list(product((0, 1), ("below SP", "at SP", "above SP"), (0, 1, 2)))
# Steps back of a step that was named and taken back, and whether the cell held another thing before.
BACK_TO_NAMED = list(product((1, 2, 3), (False, True)))
WHY_NUMBERS = [(0, 1), (0, 0), (6, 0), (10, 0)]  # number and found
# What request m added: what a run of a formula was short of, whether there is a history, whether values lie between
# the eight cells and SP, and the number.
FORMULA_RUNS = [
    *product(["nothing"], (False, True), (False, True), (0, 5)),
    *product(["cells"], (False, True), (False, True), (7,)),
    *product(["steps"], (False, True), (False, True), (50,)),
    *product(["places"], (True,), (False, True), (8,)),
    *[(short_of, True, True, 5) for short_of in ("cells", "places", "steps")],
]
# A kind of formula that was drawn, and its numbers.
DRAWN_FORMULAS = {
    "tree": [0, 31],
    "more brackets": [0, 31],
    "walked": [0, 31, 70, 71, 72, 73],
    "damaged": [0, 31, 70, 71, 72],
    "long": [0, 28],
    "long and damaged": [28, 71],
    "wide": [0],
}
# What request n added: the kinds of two rooms for a history, none, some places and all there can be; and those of which
# one is full at the first step.
TWO_ROOMS = [("none", "some"), ("none", "all"), ("some", "some"), ("some", "all")]
ONE_IS_FULL = [kinds for kinds in TWO_ROOMS if "some" in kinds]
BOTH_ARE_FULL = [kinds for kinds in TWO_ROOMS if "none" not in kinds]
STARTS = ("reset", "load")
# A start, the kinds of two rooms, who met 8 first, and when; or both, and the number of the last step.
ROOM_STEPS = [
    *product(STARTS, TWO_ROOMS, ["both"], SESSION_NUMBERS),
    *product(STARTS, BOTH_ARE_FULL, ["both"], [8]),
    *product(STARTS, ONE_IS_FULL, ("first", "second"), ("at once", "later")),
    *[(start, ("none", "all"), who, "later") for start, who in [("reset", "first"), ("load", "second")]],
]
# A start, the kinds of two rooms, and of two runs the number that both or one of them ended with; the other's is 8.
RUN_NUMBERS = [0, 2, 3, 4, 5, 6, 7, 12, 50]
ROOM_RUNS = [
    *product(STARTS, TWO_ROOMS, ["both"], RUN_NUMBERS),
    *product(STARTS, BOTH_ARE_FULL, ("both", "apart"), [8]),
    *product(STARTS, ONE_IS_FULL, ["one"], RUN_NUMBERS),
    *product(STARTS, [("none", "all")], ["one"], [50]),
]
# The number that a run ends with, whether there is a history, whether it makes a step, its limit, and what that gives.
ROOM_LIMITS = [
    (number, has_history, *limit)
    for number, has_history in [*product(RUN_NUMBERS[:-1], (False, True)), (8, True)]
    for limit in [
        *product((False, True), ("just enough", "one more", "some more", "the most"), [number]),
        *product((False, True) if number else [True], ["one less"], [50]),
    ]
]
# An instruction from a saved state, a history of as many places as it writes cells and of one more, and the number.
NARROW_ROOMS = [
    *[(name, *of) for name, of in product(ONE_CELL, [(1, 8), (2, 0)])],
    *[("SWAP", 2, 8), ("SWAP", 3, 0)],
    *[(name, 1, 0) for name in ("STOP", "JUMP", "JUMPC", "JUMPIND", "POPFBR", "WRITECH", "ADDSP", "POPSP")],
]
CUT = 400  # characters of a line that a difference shows


def make_script(seed, cases, families):
    chooser = random.Random(seed)
    script = Script()
    for name in families:
        if name in CORNERS:
            CORNERS[name](script)
    made = [FAMILIES[name][0] for name in families]
    shares = [FAMILIES[name][1] for name in families]
    for case in chooser.choices(made, shares, k=cases):
        case(chooser, script)
    return script


def ask(command, text):
    """What the command prints for this input."""
    answer = subprocess.run(shlex.split(command), input=text, stdout=subprocess.PIPE, check=False)
    return answer.stdout, answer.returncode


def shown(line, at):
    """A line around the first byte that differs."""
    start = max(0, at - CUT // 2)
    return ("..." if start else "") + line[start : start + CUT] + ("..." if len(line) > start + CUT else "")


def first_difference(one, other):
    return next((i for i, (a, b) in enumerate(zip(one, other)) if a != b), min(len(one), len(other)))


def report(title, setting, expected, answered):
    at = first_difference(expected, answered)
    print(f"DIFFERENT: {title}")
    for line in setting:
        print(f"  given    {shown(line, 0)}")
    print(f"  document {shown(expected, at)}")
    print(f"  library  {shown(answered, at)}")


def setting_of(lines, index):
    """The lines that lead to this call: since the last `program`, which begins a machine, or the call alone."""
    start = index
    if not lines[index][0].startswith(("assemble ", "unpack ", "translate ")):
        while start > 0 and not lines[start][0].startswith("program "):
            start -= 1
    return [line for line, _ in lines[start : index + 1]]


def save(path, setting):
    """The lines whole, to give to the driver again."""
    with open(path, "w", encoding="ascii") as file:
        file.writelines(line + "\n" for line in setting)
    print(f"  these lines, whole: {path}")


def driver_answers(command, script):
    """What the driver answers to each line that makes a call, none where it ended before, and its exit status."""
    text = "".join(line + "\n" for line, _ in script.lines).encode()
    output, status = ask(command, text)
    answers = iter(output.decode().splitlines())
    return [None if expected is None else next(answers, None) for _, expected in script.lines], status


def compare_driver(script, answers, status, path):
    for index, ((line, expected), answered) in enumerate(zip(script.lines, answers)):
        if answered != expected:
            answered = answered or f"(nothing: the driver ended with status {status})"
            setting = setting_of(script.lines, index)
            report(line.split(" ", 1)[0], setting, expected, answered)
            if path:
                save(path, setting)
            return False
    if status != 0:
        print(f"DIFFERENT: the driver ended with status {status}")
    return status == 0


def hold(script, lines, who, path):
    """What request n says of two sessions, and of limits, judged by these answers alone."""
    answers = rooms.Answers(lines)
    faults = (judge(answers, *handed) for judge, *handed in script.held)
    fault = next(filter(None, faults), None)
    if fault:
        setting = [line for index in fault.lines for line in setting_of(script.lines, index)]
        print(f"NOT HELD by {who}: {fault.what}")
        for line in setting:
            print(f"  given    {shown(line, 0)}")
        for index in fault.lines:
            print(f"  answered {shown(lines[index], 0)}")
        if path:
            save(path, setting)
    return not fault


def hold_both(script, answers, path):
    """The interpreter's answers; and the library's, where it gave one to each line."""
    expected = [line for _, line in script.lines]
    sides = [(expected, "the interpreter"), (answers, "the library")]
    return all([hold(script, lines, *who, path) for lines, *who in sides if lines.count(None) == expected.count(None)])


def console_sources(seed, count):
    """One for each refusal of a source, those that show something, and drawn ones."""
    chooser = random.Random(seed)
    chosen = [*every_refusal(), *panel.SHOWN.values()]
    return [source.encode() for source in chosen] + [any_source(chooser) for _ in range(count)]


def compare_console(command, seed, count):
    endings = Counter()
    sources = console_sources(seed, count)
    for source in sources:
        expected = sam.console(source)
        answered = ask(command, source)[0].decode("latin-1")
        endings[expected.split(" ", 2)[0]] += 1
        endings["out"] += "\nout " in expected
        if answered != expected:
            report("console", [repr(source)], expected, answered)
            return False
    print(
        f"console: {len(sources)} sources alike, {endings['end']} run, {endings['out']} of them with output, and "
        f"{endings['refused']} refused"
    )
    return True


def pushes(values):
    """The first line that the console of formulas reads: a source that pushes what a to h hold."""
    return "".join(f"PUSHIMM {value} " for value in values).encode() + b"STOP\n"


def console_formulas(seed, count):
    """Formulas by hand, of each refusal some, and drawn ones, with what a to h hold."""
    chooser = random.Random(seed)
    worked = [(text, formulas.filled(values)) for text, values, _ in formulas.WORKED]
    refused = [text for texts in formulas.REFUSED.values() for text in texts[:12]]
    accepted = [*formulas.ACCEPTED, *formulas.LONG_ACCEPTED]
    texts = [*accepted, *refused, *formulas.UNENDED, *formulas.JUDGED.values()]
    chosen = worked + [(text, formulas.any_values(chooser)) for text in texts]
    drawn = [(any_formula(chooser)[1], formulas.any_values(chooser)) for _ in range(count)]
    return [(text.encode("latin-1"), values) for text, values in chosen] + drawn


def compare_formula_console(command, seed, count):
    """Also with the evaluator's number."""
    endings, given = Counter(), console_formulas(seed, count)
    for formula, values in given:
        read = pushes(values) + formula
        expected = sam.formula_console(read)
        answered = ask(command, read)[0].decode("latin-1")
        endings[expected.splitlines()[-1].split(" ", 1)[0]] += 1
        if not expected.startswith("refused "):
            number = sam.evaluate(formula, values)
            last = "end 5: the formula divides by zero" if number is None else f"number {number}"
            assert expected.splitlines()[-1] == last, (formula, values)
        if answered != expected:
            report("console of formulas", [repr(read)], expected, answered)
            return False
    print(
        f"console of formulas: {len(given)} alike, {endings['number']} with a number, {endings['end']} with 5, and "
        f"{endings['refused']} refused"
    )
    return True


def all_in(counter, wanted, what):
    missing = [item for item in wanted if item not in counter]
    if missing:
        print(f"MISSING: {what}: {missing}")
    return not missing


def sum_tests():
    """At each end: done, with no room for the record 8, beyond it 6, and two INTs there done."""
    for name, accepted, refused in ADDRESS_ENDS:
        for tag, values, number in [(MA, accepted, 0), (MA, accepted, 8), (MA, refused, 6), (INT, refused, 0)]:
            below, top = (value % WORD for value in values)
            yield name, ((tag, below), (INT, top)), number


def dwell_tests():
    """(HALT, whether SP is above 0, cell 0, number, tenths): what is read, and each refusal before those behind it."""
    for cell, tenths in DWELLS_READ:
        yield 1, True, cell, 0, tenths
    for halt, has_value, cell in product((0, 1), (False, True), KINDS_OF_CELLS):
        yield halt, has_value, cell, 10, 0
        if halt == 0 or not has_value:
            yield halt, has_value, cell, 60 if halt == 0 else 61, 0
    for tag, bits in REFUSED_CELLS:
        yield 1, True, (tag, bits), 63 if tag == FLOAT else 62, 0


def kept_tests():
    """(The call that left the registers, or none; the call; H, U and kept number; number): refused by every call that
    asks for a sound state, or done by each but a forget and a why, which ask for the records too; and so where a
    step-back left them, of which a dwell tells most."""
    asking = [word for word in CALLS if word != "reset"]
    for word, kept in product(asking, BROKEN_KEPT):
        yield None, word, *kept, 10
    for word, kept in product([word for word in asking if word not in ("forget", "why")], ALLOWED_KEPT):
        yield None, word, *kept, 0
    for word, kept in product(asking, BROKEN_BY_BACK):
        yield "back", word, *kept, 10
    for kept in ALLOWED_BY_BACK:
        yield "back", "dwell", *kept, 60


def output_tests():
    """(Call, length of the output, written count, number): 10 of every call but a reset, which is 11 where the output
    is too long and reads no count; then done."""
    for word in CALLS:
        reset = word == "reset"
        yield from ((word, *output, 11 if reset else 10) for output in panel.TOO_LONG)
        yield from ((word, *output, 0 if reset else 10) for output in panel.BROKEN_OUTPUTS)
        yield from ((word, *output, 0) for output in panel.ALLOWED_OUTPUTS)


def cell_tests():
    """(Call, whether it is live, cell, number), of the one cell with a CH or a higher tag."""
    for word, is_live in product([word for word in CALLS if word not in ("reset", "back")], (False, True)):
        yield from ((word, is_live, cell, 10) for cell in panel.BROKEN_CELLS)
        if word != "dwell" or not is_live:  # a live one is cell 0
            yield from ((word, is_live, cell, 0) for cell in panel.ALLOWED_CELLS)
    yield from (("back", is_live, cell, 10) for cell in panel.BROKEN_CELLS for is_live in (False, True))


def writing_tests():
    """(Call, whether there is a history, refusals met, number) of a WRITECH: the first of them in their order. A run
    that finds HALT 1 ends with 0."""
    values_and_outputs = [(), (3,), (4,), (12,), (3, 12), (4, 12)]
    meeting = [(False, met) for met in values_and_outputs]
    meeting += [(True, (*met, *full)) for met, full in product(values_and_outputs, [(), (8,)])]
    for word, (has_history, met) in product(("step", "run", "plain"), meeting):
        yield word, has_history, met, met[0] if met else 0
        yield word, has_history, (1, *met), 1 if word == "step" else 0


def restored_tests():
    """(Whether at a WRITECH, cells restored, written count, number) of a step-back."""
    sizes = [0, 1, OUTPUT_LIMIT]
    for cells in panel.RECORDED_CELLS:
        restored = tuple((tag, bits) for _, tag, bits in cells)
        yield from ((True, restored, written, 0 if written else 10) for written in sizes)
        yield from ((False, restored, written, 0) for written in sizes)
    for is_writing, cell in product((False, True), panel.ALLOWED_CELLS):
        yield is_writing, (cell,), 1, 0
    for is_writing, cell in product((False, True), panel.BROKEN_RESTORED):
        yield is_writing, (cell,), 1, 10


def flipped_tests():
    """(Cell place 0 or step place 1, bit, number): the marks and the zeros are judged."""
    return [(place, bit, 10) for place, bit in panel.JUDGED_BITS]


def forget_tests():
    """(Whether there is a history, kept number, k, number) of well-formed records, of which that many are kept."""
    for kept in range(forgets.MOST_RECORDS + 1):
        yield from ((True, kept, k, 14 if k > kept else 0) for k in forgets.numbers_to_forget(kept))
    yield from ((False, 0, k, 14 if k > 0 else 0) for k in forgets.numbers_to_forget(0))


def odd_record_tests():
    """(What is odd, records below it and above, kept number, k, number): 10 at every depth, before 14."""
    for below, above, kept in forgets.odd_depths():
        for name, k in product(forgets.ILL_FORMED, forgets.numbers_to_forget(kept)):
            yield name, below, above, kept, k, 10
        for bit, k in product(forgets.JUDGED_BITS, forgets.one_more_and_one(kept)):
            yield bit, below, above, kept, k, 10


def unwritten_tests():
    """(Call, records below a WRITECH's and above, number) with nothing written: a step-back asks of the top alone."""
    for below, above in forgets.DEPTHS:
        yield "forget", below, above, 0
        yield "back", below, above, 10 if above == 0 else 0


def kept_record_tests():
    """(Records, U, kept number, k, number): 10 unless the kept number is theirs."""
    for records, kept, k in forgets.kept_cases():
        count, used = len(records), sum(map(len, records))
        yield count, used, kept, k, 10 if kept != count else 14 if k > kept else 0


def full_tests():
    """(Place of an ill-formed record or none, kept number, k, number) with as many records as there can be."""
    for k in forgets.NUMBERS_OF_FULL:
        for at in forgets.ODD_PLACES:
            yield at, forgets.HISTORY_LIMIT, k, 10
            yield at, forgets.HISTORY_LIMIT - 1, k, 10
        yield None, forgets.HISTORY_LIMIT - 1, k, 10
        yield None, forgets.HISTORY_LIMIT, k, 14 if k > forgets.HISTORY_LIMIT else 0


def fill_tests():
    """(Source, H, how often, number): 8 each time, once a forget has gained room and it is used."""
    for (source, _, h), times in product(forgets.FILLERS, range(1, forgets.FILLS + 1)):
        yield source, h, times, 8


def told_why(told, cell, number):
    """(Cell, number, *told) where these are told of each cell that was written."""
    is_told = number == 0 and cell in told
    return cell, number, *((1, *told[cell]) if is_told else whys.NONE_WROTE)


def record_whys():
    """Of records made by hand: every cell, and 6 for those beyond, with a history and without."""
    beyond = whys.cells_beyond(forgets.N)
    for key, told in WHO_WROTE.items():
        yield from (("records", *key, *told_why(told, cell, 0)) for cell in range(forgets.N))
        if key[1:] == (0, 0):
            yield from (("records", *key, *told_why({}, cell, 6)) for cell in beyond)
    yield from (("no history", *told_why({}, cell, 0)) for cell in range(forgets.N))
    yield from (("no history", *told_why({}, cell, 6)) for cell in beyond)
    for halt, pc, sp, cell in product((0, 1), range(4), range(forgets.N), range(forgets.N)):
        yield "anywhere", halt, pc, sp, *told_why(FEWER, cell, 0)
    for pc in whys.FULL_PCS:
        yield "place", pc, *told_why({1: (1, pc, 1 << 32 | (pc - 512) % WORD, INT, 40)}, 1, 0)
    for (below, above), steps_back in UNWRITTEN.items():
        told = {} if steps_back is None else {0: (steps_back, 2, STOP, INT, 40)}
        yield "unwritten", below, above, *told_why(told, 0, 0)


def refused_whys():
    """10 for a record that is ill-formed at any depth, for a broken table and for a kept number that is not that of the
    records, before 6."""
    for (below, above, kept), cell in product(forgets.odd_depths(), whys.ODD_ASKED):
        for name in (*forgets.ILL_FORMED, *forgets.JUDGED_BITS):
            yield "odd", name, below, above, kept, *told_why({}, cell, 10)
    for place, cell in product(range(1, len(saves.BROKEN_PROGRAMS) + 1), whys.ODD_ASKED):
        yield "table", place, *told_why({}, cell, 10)
    for records in forgets.KEPT_RECORDS:
        key = len(records), sum(map(len, records))
        for kept, cell in product(forgets.kept_numbers(records), whys.KEPT_ASKED):
            number = 10 if kept != len(records) else 6 if cell >= forgets.N else 0
            yield "kept", *key, kept, *told_why(KEPT_TOLD.get(key, {}), cell, number)
    most = forgets.HISTORY_LIMIT
    for at, kept, cell in product((None, *forgets.ODD_PLACES), (most, most - 1), whys.FULL_ASKED):
        is_broken = at is not None or kept != most
        yield "full", at, kept, *told_why({}, cell, 10 if is_broken else 6 if cell >= forgets.N else 0)


def session_whys():
    """Cells filled by one step; a cell written long ago; and the complaint, at the trial and after the step-back."""
    for n in whys.FILLED_SIZES:
        filled = dict.fromkeys(range(n - 1), (1, 0, 39 << 32 | n - 1, INT, 0))
        yield from (("filled", n, *told_why(filled, cell, 0)) for cell in whys.cells_below(n))
        yield from (("filled", n, *told_why({}, cell, 6)) for cell in whys.cells_beyond(n))
    pushed = {0: (8191, 0, 1 << 32 | 40, INT, 0)}
    for cell, number in [(0, 0), (1, 0), (2, 6)]:
        yield "long ago", 0, *told_why(pushed, cell, number)
        yield "long ago", 1, *told_why({}, cell, number)
    complaint, *_ = whys.SESSIONS[0]
    seconds = (1, 2 << 32 | 0x40200000, INT, 0)
    trial = {0: (1, 2, 43 << 32, INT, 40), 1: (2, *seconds)}
    back = {0: (2, 0, 1 << 32 | 40, INT, 0), 1: (1, *seconds)}
    for (call, told), cell in product([(2, trial), (3, back)], range(4)):
        yield "session", complaint, 64, call, *told_why(told, cell, 0)


def why_tests():
    """(What is tried, .., cell, number, *told) of a why."""
    for tests in (record_whys, refused_whys, session_whys):
        yield from tests()


def character_steps():
    """(Call, name, number) on characters alone: 4 of an instruction that does not take them."""
    for word in ("step", "plain"):
        yield from ((word, name, 4) for name in NO_CHARACTERS)
        yield from ((word, name, 0) for name in CHARACTERS_TAKEN)


def packed_tests():
    """(Call, operand of PUSHIMMCH, number): an image has no other, and 41 where one of its seven bits is not there."""
    for pack, unpack in [("pack", "unpack"), ("plain_pack", "plain_unpack")]:
        yield from ((pack, operand, 0) for operand in panel.TABLE_OPERANDS)
        yield from ((pack, operand, 10) for operand in panel.NO_TABLE_OPERANDS)
        yield from ((unpack, operand, number) for operand in panel.TABLE_OPERANDS for number in (0, 41))


def told_tests():
    """(Writer, length of told, length of the output, number of the input alone): all that a wrong told comes before."""
    for word, numbers in INPUT_NUMBERS.items():
        for (size, told_length), number in product(wrong_tolds(word), numbers):
            yield word, told_length, size, number


def run_tests(word, length):
    """(Line, number with nine registers, length, number): 10 in its place behind 31 and 11."""
    for limit, done in [(0, 50), (RUN_LIMIT, 0)]:
        yield f"{word} {limit} 1", done, length, 10
        yield f"{word} {limit} 1", 10, length, 10
    for limit in (RUN_LIMIT + 1, DOUBLE_WORD - 1):
        yield f"{word} {limit} 1", 11, length, 11
    for limit, told_length in product((RUN_LIMIT, RUN_LIMIT + 1), other_tolds(1)):
        yield f"{word} {limit} {told_length}", 31, length, 31


def length_tests():
    """The same for every call."""
    for length in OTHER_LENGTHS:
        for line, done in product(("reset", "step", "back", "forget 1", "dwell 1", f"save {STATE_BYTES} 1"), (0, 10)):
            yield line, done, length, 10
        yield "forget 2", 14, length, 10
        for cell, number in [(0, 0), (0, 10), (2, 6), (2, 10)]:
            yield f"why {cell} {WHY_TOLD}", number, length, 10
        for cell, told_length in product(whys.LENGTHS_ASKED, other_tolds(WHY_TOLD)):
            yield f"why {cell} {told_length}", 31, length, 31
        yield "reset", 11, length, 11
        for told_length in other_tolds(1):
            yield f"dwell {told_length}", 31, length, 31
            yield f"save {STATE_BYTES} {told_length}", 31, length, 31
        yield f"save {STATE_BYTES - 1} 1", 31, length, 31
        for number, image in JUDGED_STATES.items():  # after 41 and 67, before 45
            yield f"load {image.hex()}", number, length, number if number in (41, 67) else 10
        for word in ("run", "plain"):
            yield from run_tests(word, length)


def reset_tests():
    """(Length of the registers; cells, tags, history places and output; number): 11 with any registers, then 10, then
    done."""
    for length in (*OTHER_LENGTHS, REGISTERS):
        yield from ((length, *sizes, 11) for sizes in REFUSED_SIZES)
        yield from ((length, *sizes, 10) for sizes in ALLOWED_SIZES)
    yield from ((REGISTERS, *sizes, 0) for sizes in ALLOWED_SIZES)


def instruction_lists():
    """An instruction at place 1: "enough values for its instruction, its depth after is below N"; a forbidden one is 65
    there, with a depth or without."""
    for text in depths.TRIED:
        name, *operand = text.split()
        if name not in NEEDLESS and not (name == "ADDSP" and int(*operand) >= 0):
            yield "instruction", text, depths.FEW, depths.ROOM, 66, 1
            yield "instruction", text, depths.FEW, depths.WIDE, 66, 1
        yield "instruction", text, depths.ENOUGH, depths.ROOM, 0, 0
        yield "instruction", text, depths.ENOUGH, depths.WIDE, 0, 0
        yield "instruction", text, depths.MORE, depths.FULL, 66, 1
    for text, has_depth in product(depths.TRIED_FORBIDDEN, (False, True)):
        yield "forbidden", text, has_depth, 65, 1


def wrong_follower(text, follower):
    """ "each place that may follow has that same depth": 66 at place 2 for each other that a follower has, or at the
    follower where it is before and fails by itself; where place 2 is not reached nothing is asked of it."""
    for what in ("one more", "one less", "zero", "N-1", "N", "deepest", "not reached"):
        fails = what in ("N", "deepest")
        yield "follower", text, follower, what, 66, min(follower, depths.AT) if fails else depths.AT
        yield "follower", text, follower, "unasked " + what, *((66, follower) if fails else (0, 0))


def follower_lists():
    """Of four values where nothing leads to: place 0, the place itself, where a JUMP stays and a JUMPC takes one off,
    the places around, and the end."""
    for text in depths.FOLLOWED:
        yield "follower", text, None, "right", 0, 0
        if text != "STOP":
            yield from wrong_follower(text, depths.AT + 1)
    for name, target in product(depths.JUMPS, (1, 3, 4)):
        yield "follower", f"{name} {target}", None, "right", 0, 0
        yield from wrong_follower(f"{name} {target}", target)
    for target in (1, 4):
        yield from wrong_follower(f"JUMPC {target}", depths.AT + 1)  # the other way
    yield "follower", "JUMP 2", None, "right", 0, 0
    for text in ("JUMPC 2", "JUMP 0", "JUMPC 0", "JUMP 5", "JUMPC 5"):
        yield "follower", text, None, "right", 66, depths.AT


def end_lists():
    """ "the program's end may never follow" """
    for length in depths.END_LENGTHS:
        last = length - 1
        ends = [text for text in depths.FOLLOWED if text != "STOP"] + ["JUMPC 1", f"JUMP {length}"]
        yield from (("end", text, length, True, 66, last) for text in ends)
        yield from (("end", text, length, False, 0, 0) for text in [*ends, "STOP", f"JUMP {last}"])
        yield from (("end", text, length, True, 0, 0) for text in ("STOP", f"JUMP {last}"))


def deep_lists():
    for (text, depth, number), n in product(DEEP, depths.DEEP_SIZES):
        yield "deep", text, depth, n, number, 1 if number else 0


def size_lists():
    """N, and lengths of a list for so many STOPs."""
    yield from (("size", n, 0, 0) for n in depths.ALLOWED_SIZES)
    yield from (("size", n, 66, place) for n, place in depths.SMALL_SIZES.items())
    yield from (("size", n, 11, 0) for n in depths.OUTER_SIZES)
    for length in depths.PROGRAM_LENGTHS:
        yield "length", length, length, 0 if length else 66, 0
        others = [length + 1, length + 256, *[length - 1, 0] * (length > 0)]
        yield from (("length", length, count, 64, 0) for count in others)


def meeting_lists():
    """(Refusals met, number, place) of every set of them: the first in the order, 65 and 66 at each place where the
    cases have one."""
    for count in range(len(depths.ORDER) + 1):
        for met in combinations(depths.ORDER, count):
            number = met[0] if met else 0
            for place in {65: (3, 4), 66: (0, 1, 4)}.get(number, (0,)):
                yield "meeting", met, number, place


def depth_tests():
    """(What is tried, .., number, place) of a depth list."""
    for tests in (instruction_lists, follower_lists, end_lists, deep_lists, size_lists, meeting_lists):
        yield from tests()
    yield from (("teaching", name, 0, 0) for name in teaching.LISTED)
    yield "teaching", "complaint", 66, 2
    yield from (("right", is_full, 0, 0) for is_full in (False, True))
    yield from (("small", *answer) for answer in [(0, 0), *product((65, 66), (0, 1, 2))])


def state_tests():
    """(What is tried, .., length of the image) of what is saved and loaded again."""
    for n, count in product(saves.SMALL_SIZES, saves.SMALL_COUNTS):
        yield "size", n, count, (51 + 35 * n + 8 * count + 7) // 8
    yield from [("size", 999, 0, 4377), ("size", 1000, 255, 4637), ("size", 1000, 256, 4638), ("ends", 1000, 4382)]
    for (n, size), length, halt in product(((1, 11), (4, 24)), (0, 1, 3, 1023, 1024), (0, 1)):
        yield from (("ends", n, length, pc, sp, fbr, halt, size) for pc in {0, length} for sp in {0, n - 1}
                    for fbr in {0, n - 1})  # fmt: skip
    for address, cell in product(range(saves.N), saves.ALLOWED_CELLS):
        yield "cell", address, cell, 26
    yield from (("bytes", first, 40) for first in range(0, 256, 16))


def save_tests():
    """(What is tried, .., number, length of the image): whatever the history is, and the records in it. Of a fault that
    was drawn (none: of the table) the number alone."""
    yield from ((*tried, 0, size) for *tried, size in state_tests())
    yield from (("history", *kept, 0, 26) for kept in ALLOWED_KEPT)
    for fault in (None, *BREAKS):
        yield "fault", fault, 0 if fault in (break_record, made_record) else 10


def announced_number(n, count, what):
    """Lent so many cells, and 256 bytes of output."""
    if what == "cut" or (what == "header" and (n, count) != (0, 0)):
        return 41
    if not 1 <= n <= 1000 or count > 256:
        return 10
    return 45 if what == "more" else 0


def image_tests():
    """An image cut at every byte, with every bit another, with every N and output count that it may announce, with
    every bit of padding, and with more behind it."""
    for name, saved in saves.SMALL.items():
        size = len(saved.image())
        yield from (("cut", name, cut, 41 if cut < size else 0) for cut in range(size + 1))
        yield from (("bit", name, bit, number) for bits, number in ANOTHER_BIT[name] for bit in bits)
    for n, count in product(saves.SIZES, saves.COUNTS):
        for what in ("whole", "cut", "more", "header"):
            yield "announced", n, count, what, announced_number(n, count, what)
        yield "one more cell", n, count, "whole", 67
        yield "one more cell", n, count, "cut", 41
    yield from (("padding", *padding, 45) for padding in saves.paddings())
    yield from (("left over", n, what, 45) for n, what in product(range(1, 9), saves.LEFT_OVER))


def meeting_tests():
    """(Refusals met, number) of every set of them; what ends early has nothing left over."""
    for count in range(len(saves.ORDER) + 1):
        for met in combinations(saves.ORDER, count):
            if not {41, 45} <= set(met):
                yield "meeting", met, met[0] if met else 0


def load_tests():
    """(What is tried, .., number) of a load."""
    yield from ((*tried, 0) for *tried, _ in state_tests())
    yield from image_tests()
    yield from (("cell", address, cell, 10) for address, cell in product(range(saves.N), saves.BROKEN_CELLS))
    for names, number in [(saves.ALLOWED_REGISTERS, 0), (saves.BROKEN_REGISTERS, 10)]:
        yield from (("registers", name, number) for name in names)
    for outputs, number in [(saves.ALLOWED_OUTPUTS, 0), (saves.BROKEN_OUTPUTS, 10), (saves.OUTER_OUTPUTS, 67)]:
        yield from (("output", *output, number) for output in outputs)
    for (name, (_, _, least)), length in product(saves.CARRIED_STATES.items(), saves.LENGTHS):
        yield "carried", name, length, 0 if length >= least else 10
    yield from (("lent", *sizes, 0) for sizes in saves.ALLOWED_LENT)
    yield from (("lent", *sizes, 67) for sizes in saves.REFUSED_LENT)
    yield from meeting_tests()
    yield from (("table", number) for number in (0, 10, 67))
    yield from (("another program", number) for number in (0, 10))
    yield from (("change", what, number) for what, numbers in CHANGED_IMAGES.items() for number in numbers)


def formula_tests():
    """(What is tried, formula, number, length, depth), by hand."""
    label = formulas.label
    accepted = {**formulas.ACCEPTED, **formulas.LONG_ACCEPTED}
    yield from (("accepted", label(text), 0, *told) for text, told in accepted.items())
    yield from (("refused", label(text), number, 0, 0) for text, number in formulas.refused_texts())
    yield from (("unended", label(text), 71, 0, 0) for text in formulas.UNENDED)
    yield from ((met, label(text), met[0], 0, 0) for met, texts in formulas.MEETING.items() for text in texts)
    for byte, (before, behind) in product(formulas.FORBIDDEN_BYTES, formulas.AROUND):
        yield "byte", before + chr(byte) + behind, 70, 0, 0
    yield from (("too long", label(text), 21, 0, 0) for text in formulas.TOO_LONG)


def all_met(script):
    """Whether the cases led to every number, to every fault of a source in its first line and in a later one, to every
    test of FLOATs, sum and conversion by the proved step and by the direct run, to sums and conversions refused with
    and without a history, to every kind of decimal, to the last codes, to every dwell, to every kept number, to every
    output, character, record and WRITECH that request h speaks of, to every forget and its room, to every depth list
    and every call with one, to every state saved and image loaded and every session carried on, to every why, to every
    formula and its runs, to every kind of two rooms and of limits, and to a told and registers of another length
    wherever they are refused."""
    lines = product(FAULTS, (1, 2))
    single_tests = [*FLOAT_TESTS, *sum_tests(), *CONVERSION_TESTS, *CHARACTER_TESTS]
    tests = [(word, *test) for word in ("step", "plain") for test in single_tests]
    refused = [*[(name, 6) for name in SUMS], ("FTOI", 5), ("WRITECH", 12)]
    steps = [(word, *of, h) for word, of, h in product(("step", "run", "plain"), refused, (False, True))]
    codes = [(word, *code) for word, code in product(("unpack", "plain_unpack"), LAST_CODES)]
    after_forgets = [("forget", word, number) for word, numbers in AFTER_FORGETS.items() for number in numbers]
    after_loads = [("load", word, number) for word, numbers in AFTER_LOADS.items() for number in numbers]
    room = [(word, *gained) for word, all_gained in ROOM_GAINED.items() for gained in all_gained]
    damaged = [(what, number) for what, numbers in DAMAGED.items() for number in numbers]
    listed_calls = [(word, number) for word, numbers in LISTED_CALLS.items() for number in numbers]
    depth_tolds = product(other_tolds(1), (0, *depths.ORDER[1:]))
    why_tolds = [(told_length, *of) for told_length, of in product(other_tolds(WHY_TOLD), WHY_NUMBERS)]
    drawn_formulas = [(kind, number) for kind, numbers in DRAWN_FORMULAS.items() for number in numbers]
    formula_tables = product(formulas.OTHER_PLACES, formulas.JUDGED)
    room_starts = [("reset", 0), *[("load", number) for number in SESSION_NUMBERS]]
    room_instructions = [*product(NAMES, (0, HISTORY_LIMIT), [0]), *NARROW_ROOMS]
    taught_rooms = product(teaching.PROGRAMS, STARTS, TWO_ROOMS, ("step", "run"))
    taught_limits = [(name, number) for name in teaching.PROGRAMS for number in (8, 2 if name == "complaint" else 0)]
    complete = [
        all_in(script.numbers, ALL_NUMBERS, "never given back"),
        all_in(script.fault_lines, lines, "faults never in the first line (1) or never in a later one (2)"),
        all_in(script.tests, tests, "tests never made"),
        all_in(script.refused_steps, steps, "never refused without (False) or with (True) a history"),
        all_in(script.decimals, DECIMALS, "decimals never read, or (33, 25) never refused"),
        all_in(script.codes, codes, "codes never unpacked, with their numbers"),
        all_in(script.dwells, dwell_tests(), "dwells (HALT, any value, cell 0, number, tenths) never read or refused"),
        all_in(script.dwells_after, DWELLS_AFTER, "dwells never given back after such a call"),
        all_in(script.kept_numbers, kept_tests(), "kept numbers (left by, call, H, U, kept, number) never met"),
        all_in(script.outputs, output_tests(), "outputs (call, length, written, number) never met"),
        all_in(script.odd_cells, cell_tests(), "cells (call, live, cell, number) never met"),
        all_in(script.writes, writing_tests(), "WRITECHs (call, any history, refusals met, number) never met"),
        all_in(script.restored, restored_tests(), "step-backs (at a WRITECH, cells, written, number) never made"),
        all_in(script.flipped_bits, flipped_tests(), "bits (0 cell place, 1 step place; bit, number) never another"),
        all_in(script.character_steps, character_steps(), "instructions (call, name, number) never on characters"),
        all_in(script.characters, CHARACTER_OPERANDS, "operands of PUSHIMMCH never assembled (0) or refused"),
        all_in(script.packed_characters, packed_tests(), "PUSHIMMCH (call, operand, number) never packed or unpacked"),
        all_in(script.written_moves, WRITTEN_MOVES, "written counts (call, any history, change) never changed so"),
        all_in(script.taken_back, TAKEN_BACK, "series (any history, steps, any forgotten) never all taken back"),
        all_in(script.forgets, forget_tests(), "forgets (any history, kept, k, number) never made"),
        all_in(script.odd_records, odd_record_tests(), "forgets (odd, below, above, kept, k, number) never refused"),
        all_in(script.unwritten, unwritten_tests(), "WRITECH's records (call, below, above, number) never met"),
        all_in(script.kept_records, kept_record_tests(), "forgets (records, U, kept, k, number) never made"),
        all_in(script.full_histories, full_tests(), "full histories (odd place, kept, k, number) never forgotten"),
        all_in(script.series_forgets, SERIES_FORGETS, "series (any history, what is forgotten, number) never met"),
        all_in(script.calls_after, after_forgets, "calls (left by, call, number) never made on what a forget left"),
        all_in(script.fills, fill_tests(), "histories (source, H, how often, number) never filled again"),
        all_in(script.room_gained, room, "room (call, sign of free less needed, number) never gained"),
        all_in(script.depth_lists, depth_tests(), "depth lists (what is tried, .., number, place) never judged"),
        all_in(script.damaged_lists, damaged, "depth lists (damage, number) never judged"),
        all_in(script.listed_calls, listed_calls, "calls (call, number) never made with a depth list"),
        all_in(script.depth_tolds, depth_tolds, "depth lists (told's length, number of the list) never refused"),
        all_in(script.saves, save_tests(), "states (what is tried, .., number, length of the image) never saved"),
        all_in(script.loads, load_tests(), "images (what is tried, .., number) never loaded"),
        all_in(script.calls_after, after_loads, "calls (left by, call, number) never made on what a load left"),
        all_in(script.carried, CARRIED, "sessions (histories, who was refused first, number) never carried on"),
        all_in(script.loaded_calls, LOADED_CALLS, "calls (any history, call, number) never made from a load"),
        all_in(script.fresh_loads, FRESH_LOADS, "series from a load (any history, back, forgotten) never made"),
        all_in(script.whys, why_tests(), "whys (what is tried, .., cell, number, *told) never asked"),
        all_in(script.whys_after, WHYS_AFTER, "whys (call before, HALT, its number, number, *told) never asked"),
        all_in(script.named_steps, NAMED_STEPS, "steps (name, which of its cells, held already) never named"),
        all_in(script.asked_cells, ASKED_CELLS, "cells (HALT, where, how many wrote it) never asked"),
        all_in(script.back_to_named, BACK_TO_NAMED, "steps (steps back, changed) never named and taken back"),
        all_in(script.why_tolds, why_tolds, "whys (told's length, number alone, found) never refused"),
        all_in(script.formulas, formula_tests(), "formulas (tried, formula, number, length, depth) never translated"),
        all_in(script.drawn_formulas, drawn_formulas, "formulas (kind, number) never drawn"),
        all_in(script.formula_tables, formula_tables, "formulas (places, number with 1,024) never refused"),
        all_in(script.formula_runs, FORMULA_RUNS, "formulas (short of, any history, any between, number) never run"),
        all_in(script.room_steps, ROOM_STEPS, "sessions (start, rooms, who met 8, when or number) never made"),
        all_in(script.room_runs, ROOM_RUNS, "runs (start, rooms, who ended with 8, number) never made"),
        all_in(script.room_starts, room_starts, "sessions (start, number of the first step) never made"),
        all_in(script.room_instructions, room_instructions, "instructions (name, H, number) never made in such a room"),
        all_in(script.room_outputs, product(STARTS, TWO_ROOMS), "sessions (start, rooms) that never wrote"),
        all_in(script.room_limits, ROOM_LIMITS, "runs (number, any history, any step, limit, its number) never made"),
        all_in(script.taught_rooms, taught_rooms, "programs (name, start, rooms, call) never made"),
        all_in(script.taught_limits, taught_limits, "programs (name, number) never run with larger limits"),
        all_in(script.wrong_tolds, told_tests(), "writers (told's, output's length, number of input) never refused"),
        all_in(script.register_lengths, length_tests(), "calls (number with nine, length, number) never refused"),
        all_in(script.resets, reset_tests(), "resets (registers, cells, tags, history, output, number) never made"),
    ]
    return all(complete)


def print_summary(script, seed, cases):
    calls = " ".join(f"{name} {count}" for name, count in sorted(script.calls.items()))
    numbers = " ".join(f"{number}:{script.numbers[number]}" for number in sorted(script.numbers))
    print(f"calls: {calls}")
    print(f"alike: seed {seed} cases {cases} calls {sum(script.numbers.values())} numbers {numbers}")
    held = Counter(judge.__name__.removeprefix("judge_") for judge, *_ in script.held)
    print("held on both sides: " + " ".join(f"{name} {count}" for name, count in sorted(held.items())))


def main():
    parser = argparse.ArgumentParser(description=__doc__, formatter_class=argparse.RawDescriptionHelpFormatter)
    parser.add_argument("driver")
    parser.add_argument("--seed", type=int, default=1)
    parser.add_argument("--cases", type=int, default=20000)
    parser.add_argument("--only", default=",".join(FAMILIES), help="families of cases: " + ", ".join(FAMILIES))
    parser.add_argument("--console", help="the console program, compared as well")
    parser.add_argument("--formula-console", help="the console program for formulas, compared as well")
    parser.add_argument("--sources", type=int, default=200, help="sources for the console, and formulas for theirs")
    parser.add_argument("--save", help="a file for the driver's lines that led to the first difference")
    words = parser.parse_args()
    families = words.only.split(",")
    script = make_script(words.seed, words.cases, families)
    answers, status = driver_answers(words.driver, script)
    alike = compare_driver(script, answers, status, words.save)
    alike = hold_both(script, answers, words.save if alike else None) and alike
    if alike:
        print_summary(script, words.seed, words.cases)
    if set(families) == set(FAMILIES):
        alike = all_met(script) and alike
    if words.console:
        alike = compare_console(words.console, words.seed, words.sources) and alike
    if words.formula_console:
        alike = compare_formula_console(words.formula_console, words.seed, words.sources) and alike
    return 0 if alike else 1


if __name__ == "__main__":
    sys.exit(main())
