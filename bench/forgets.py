"""Histories for the forget, request i: records made by hand, well formed and ill-formed at every depth, kept numbers
that are theirs and that are not, numbers of steps to forget, and programs that fill a history again and again."""

from itertools import cycle, islice, product

import sam
from machines import single
from sam.actions import CH, FLOAT, INT, MA, PA
from sam.machine import HISTORY_LIMIT, cell_place, decide, step_place
from sam.table import LAST_CHARACTER, WORD

DOUBLE_WORD = 1 << 64
JUNK = DOUBLE_WORD - 1  # no well-formed history place: what stands above U is not looked at
GREATEST = DOUBLE_WORD - 1  # of a number that a call is handed


# ---- records of a machine of four cells and a program of three instructions, the second a WRITECH

PROGRAM = single("JUMP 1 WRITECH")
LENGTH = PROGRAM.length
N = 4
WRITING = 1  # the place of WRITECH


def record(*cells, pc=0, sp=1, fbr=0, count=None):
    """The places of a step that wrote these (address, tag, bits); or whose step place has another count of them."""
    places = [cell_place(*cell) for cell in cells]
    return places + [step_place(pc, sp, fbr, len(cells) if count is None else count)]


CELLS = [(0, INT, 40), (2, CH, LAST_CHARACTER)]
WRITING_RECORD = record(pc=WRITING, sp=2)
WELL_FORMED = [  # fields at their ends among them, each of another length than the next
    record(pc=LENGTH - 1),
    record(*CELLS, pc=LENGTH - 1, sp=N - 1, fbr=N - 1),
    WRITING_RECORD,
    record((N - 1, PA, LENGTH)),
    record((0, FLOAT, 0x40200000), (1, MA, WORD - 1), (2, CH, 0), (3, INT, 0)),
]
ILL_FORMED = {
    "PC at the length": record(*CELLS, pc=LENGTH),
    "PC far above": record(*CELLS, pc=2047),
    "SP at N": record(*CELLS, sp=N),
    "SP far above": record(*CELLS, sp=1023),
    "FBR at N": record(*CELLS, fbr=N),
    "FBR far above": record(*CELLS, fbr=1023),
    "address at N": record(CELLS[0], (N, INT, 0)),
    "address far above": record(CELLS[0], (1023, INT, 0)),
    "the same address": record(CELLS[0], CELLS[0]),
    "falling addresses": record(*CELLS[::-1]),
    "tag above CH": record((0, CH + 1, 0), CELLS[1]),
    "last tag": record(CELLS[0], (2, 7, 0)),
    "CH above 127": record(CELLS[0], (2, CH, LAST_CHARACTER + 1)),
    "PA above the length": record((0, PA, LENGTH + 1), CELLS[1]),
    "a cell too few": record(*CELLS, count=3),
    "far too few cells": record(*CELLS, count=1023),
    "a cell too many": record(*CELLS, count=1),
    "no cell counted": record(*CELLS, count=0),
    "a cell place alone": [cell_place(*CELLS[0])],
    "a zero": [0],
    "zeros": [0, 0, 0],
    "ones": [JUNK, JUNK],
}
# (Place, bit) of the record of CELLS that is judged by itself: its marks, and the zeros of two cell places and a step
# place.
JUDGED_BITS = [(place, bit) for place, zeros in enumerate((18, 18, 22)) for bit in (*range(zeros), 63)]
MOST_RECORDS = 5
# How many records lie below an odd one, and above it: none, or all four others in every way.
DEPTHS = [(0, 0), *[(below, MOST_RECORDS - 1 - below) for below in range(MOST_RECORDS)]]


def flipped(place, bit):
    """The record of CELLS with one bit of a place another."""
    places = record(*CELLS)
    places[place] ^= 1 << bit
    return places


def well_formed(count):
    return list(islice(cycle(WELL_FORMED), count))


def among(odd, below, above):
    """This record, with so many well-formed ones below and above."""
    others = well_formed(below + above)
    return [*others[:below], odd, *others[below:]]


def machine(records, kept=None, written=1, unused=3):
    """A machine with these records, as many kept or another number, and junk above U."""
    places = [place for one in records for place in one]
    history = places + [JUNK] * unused
    kept = len(records) if kept is None else kept
    r = sam.Registers(N, len(history), sp=2, used=len(places), kept=kept, written=written)
    return sam.State([40, 76, 0, LENGTH], [INT, CH, MA, PA], history, bytearray(b"\x41\xa5\x00\xff"), r)


def bare_machine():
    """One without a history."""
    return machine([], unused=0)


def odd_depths():
    """(Records below, records above, kept number) of an odd record at every depth, it counted and not."""
    for (below, above), is_counted in product(DEPTHS, (True, False)):
        kept = below + above + is_counted
        if kept > 0:
            yield below, above, kept


# ---- numbers of steps to forget, and kept numbers


def numbers_to_forget(kept):
    """None, some, all, one more and a lot more; also with an allowed number in the lower half."""
    allowed = {0, min(1, kept), kept // 2, max(kept - 1, 0), kept}
    highest_bit = DOUBLE_WORD >> 1
    beyond = {kept + 1, kept + 2, WORD, WORD + 1, WORD + kept, highest_bit, highest_bit + kept, GREATEST}
    return sorted(allowed | beyond)


def one_more_and_one(kept):
    """10 before 14, and 10 alone."""
    return kept + 1, 1


def what_is_forgotten(k, kept):
    """How k lies to the kept number, by name."""
    if k > kept:
        return "more" if k < WORD else "a lot more"
    return "none" if k == 0 else "all" if k == kept else "some"


def any_number(chooser, kept):
    """Most often one that is allowed. The kept number may be any, of a broken state."""
    allowed = [0, min(1, kept), min(1, kept), kept // 2, kept, chooser.randrange(kept + 1)]
    return chooser.choice(allowed * 3 + [kept + 1, WORD + kept, GREATEST]) % DOUBLE_WORD


KEPT_RECORDS = [well_formed(count) for count in range(4)] + [[WELL_FORMED[0]] * 6, [WELL_FORMED[4]] * 3]


def kept_numbers(records):
    """All that a step takes, one above, and a lot above with the right one in the lower half."""
    used = sum(map(len, records))
    return [*range(used + 2), WORD + len(records), GREATEST]


def kept_cases():
    """(Records, kept number, k): the number of the records, and every other."""
    for records in KEPT_RECORDS:
        for kept in kept_numbers(records):
            for k in sorted({0, 1, len(records), len(records) + 1, kept}):
                yield records, kept, k


# Of a history with as many records as there can be: places of an ill-formed one, and steps to forget.
ODD_PLACES = [0, 1, 4000, HISTORY_LIMIT - 1]
NUMBERS_OF_FULL = [HISTORY_LIMIT + 1, 0, HISTORY_LIMIT - 2, 1]


# ---- histories that fill, are forgotten and fill again

FILLS = 4
# A program that goes on for ever, cells, and history places, which every record of it fits in: records of one place, of
# a few and of many.
FILLERS = [
    *[("a: JUMP a", 1, h) for h in (1, 2, 64, HISTORY_LIMIT)],
    *[("a: PUSHIMM 7 ADDSP -1 JUMP a", 4, h) for h in (2, 5, 64, HISTORY_LIMIT)],
    *[("a: ADDSP 3 SWAP ADDSP -3 JUMP a", 5, h) for h in (4, 5, 6, 7, 12, 64)],
    *[("a: PUSHIMMCH 65 WRITECH JUMP a", 4, h) for h in (2, 5, 64)],
    ("a: ADDSP 900 ADDSP -900 JUMP a", 1000, HISTORY_LIMIT),
]


def places_needed(program, state):
    """ "cells written + 1" of the next step, which meets nothing before 8."""
    return len(decide(program, state).writes) + 1


def places_free(state):
    return state.registers.h - state.registers.used
