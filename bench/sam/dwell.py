"""The dwell reader of the door board: request f of document 02."""

from . import floats
from .actions import FLOAT, INT
from .machine import sound
from .table import signed

SHORTEST, LONGEST = 10, 300  # "held between 10 and 300 tenths"


def whole_tenths(bits):
    """ "the largest whole tenth not above the exact ten times that number", which `//` gives below 0 too."""
    exact = 10 * floats.value(bits)
    return exact.numerator // exact.denominator


def float_tenths(bits):
    """ "FLOAT is seconds"; "infinities go to the nearer end" """
    if floats.is_infinite(bits):
        return SHORTEST if bits & floats.SIGN else LONGEST
    return whole_tenths(bits)


def held(tenths):
    """ "The result is held between 10 and 300 tenths" """
    return min(max(tenths, SHORTEST), LONGEST)


def dwell(program, state):
    """(number, tenths), of a machine that stays as it is. "Refusals: 10 as for step, then 60 not halted, 61 SP is 0,
    62 tag neither INT nor FLOAT, 63 NaN; each returns 0 tenths." """
    if not sound(program, state):
        return 10, 0
    if state.registers.halt != 1:
        return 60, 0
    if state.registers.sp == 0:
        return 61, 0
    tag, bits = state.cell(0)
    if tag not in (INT, FLOAT):
        return 62, 0
    if tag == FLOAT and floats.is_nan(bits):
        return 63, 0
    return 0, held(signed(bits) if tag == INT else float_tenths(bits))
