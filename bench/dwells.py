"""Cells for the dwell reader, request f: FLOATs at each tenth of a second and beside it, edges, and drawn ones."""

from fractions import Fraction
from itertools import product

from programs import FLOAT_EDGES, FTOI_EDGES, INTEGER_EDGES, NANS, ZEROS, any_integer, any_pattern
from sam import floats
from sam.actions import CH, FLOAT, INT, MA, PA
from sam.table import LAST_CHARACTER, WORD

SHORTEST, LONGEST = 10, 300  # tenths of a dwell
TENTHS = range(SHORTEST - 1, LONGEST + 2)  # 0.9 s to 30.1 s
SIGNS = ZEROS  # the bit alone


def first_of(tenths):
    """The least FLOAT not below so many tenths of a second: the first that gives them."""
    exact = Fraction(tenths, 10)
    nearest = floats.rounded(exact, 0)
    return nearest if floats.value(nearest) >= exact else nearest + 1


def last_of(tenths):
    """The greatest FLOAT not above them, which is the same where there is one at them."""
    first = first_of(tenths)
    return first if floats.value(first) == Fraction(tenths, 10) else first - 1


def beside(tenths):
    """Those two, and one step to either side."""
    return range(last_of(tenths) - 1, first_of(tenths) + 2)


BESIDE_TENTHS = sorted({bits for tenths in TENTHS for bits in beside(tenths)})
BELOW_ZERO = [bits | floats.SIGN for tenths in TENTHS[::10] for bits in beside(tenths)]
# Of every size: the least and the greatest of each exponent, of both signs.
SIZES = [sign | exponent << 23 | end for sign, exponent, end in product(SIGNS, range(255), (0, 0x7FFFFF))]
DWELL_INTEGERS = sorted({end + by for end in (SHORTEST, LONGEST, -SHORTEST, -LONGEST) for by in (-1, 0, 1)})

# What is read, and what is refused by its tag. In a program of two instructions a PA of 3 is above the length, and 10,
# as a CH above 127 is in any.
FLOAT_CELLS = [(FLOAT, bits) for bits in [*BESIDE_TENTHS, *BELOW_ZERO, *SIZES, *FTOI_EDGES]]
INTEGER_CELLS = [(INT, number % WORD) for number in [*DWELL_INTEGERS, *INTEGER_EDGES, *FLOAT_EDGES]]
ADDRESS_CELLS = [(MA, bits % WORD) for bits in [*FLOAT_EDGES, *DWELL_INTEGERS]] + [(PA, bits) for bits in range(4)]
CHARACTER_CELLS = [(CH, bits) for bits in (0, 1, SHORTEST, 40, LAST_CHARACTER, LAST_CHARACTER + 1, LONGEST)]

# One of each kind, to be read off machines of every kind: 4 s and 2.5 s, then 62, then 63.
PLAIN_CELLS = [(INT, 40), (FLOAT, 0x40200000)]
REFUSED_CELLS = [(MA, 0), (PA, 0), (CH, 0), (CH, 40), *[(MA, nan) for nan in NANS], *[(FLOAT, nan) for nan in NANS]]
KINDS_OF_CELLS = PLAIN_CELLS + REFUSED_CELLS


def any_seconds(chooser):
    """A FLOAT from half a second to a minute, or next to a tenth, seldom below 0."""
    drawn = chooser.randrange(126, 133) << 23 | chooser.randrange(1 << 23)
    return chooser.choice([drawn, chooser.choice(BESIDE_TENTHS)]) | chooser.choice([0, 0, 0, 0, floats.SIGN])


def any_cell(chooser, length):
    """Most often one that is read."""
    kind = chooser.randrange(10)
    if kind < 3:
        return FLOAT, any_seconds(chooser)
    if kind < 5:
        return FLOAT, any_pattern(chooser)
    if kind < 7:
        return INT, chooser.randrange(-20, 320) % WORD
    if kind < 8:
        return INT, any_integer(chooser) % WORD
    if kind < 9:
        address, character = chooser.randrange(length + 1), chooser.randrange(LAST_CHARACTER + 1)
        return chooser.choice([(MA, any_pattern(chooser)), (PA, address), (CH, character)])
    return chooser.choice(REFUSED_CELLS)
