"""binary32 by whole numbers alone: no float of the host takes part.

"An exact finite value [...] is a whole number over a whole number above 0", which is Python's Fraction.
"""

from fractions import Fraction

SIGN = 1 << 31
INFINITY = 0x7F800000
NAN = 0x7FC00000  # "A NaN result is #7FC00000."


def is_nan(bits):
    return bits & ~SIGN > INFINITY


def is_infinite(bits):
    return bits & ~SIGN == INFINITY


def is_zero(bits):
    return bits & ~SIGN == 0


def negated(bits):
    return bits ^ SIGN


def value(bits):
    """The exact value of a finite pattern."""
    exponent, fraction = bits >> 23 & 0xFF, bits & 0x7FFFFF
    significand = fraction + (1 << 23) if exponent else fraction
    magnitude = Fraction(significand) * Fraction(2) ** (max(exponent, 1) - 150)
    return -magnitude if bits & SIGN else magnitude


def floor_log2(magnitude):
    """The e with 2^e <= magnitude < 2^(e+1)."""
    guess = magnitude.numerator.bit_length() - magnitude.denominator.bit_length()
    return guess if Fraction(2) ** guess <= magnitude else guess - 1


def rounded(exact, sign):
    """The nearest pattern to an exact value, ties to even; `sign` is the sign bit of the result, zero too."""
    magnitude = abs(exact)
    if magnitude == 0:
        return sign
    exponent = max(floor_log2(magnitude), -126)
    scaled = magnitude / Fraction(2) ** (exponent - 23)
    units = scaled.numerator // scaled.denominator
    twice_rest = 2 * (scaled - units)
    if twice_rest > 1 or (twice_rest == 1 and units % 2 == 1):
        units += 1
    # A carry out of the fraction moves into the exponent, as it should, and above the largest number is infinity.
    return sign | min(((exponent + 126) << 23) + units, INFINITY)


def sign_of(exact):
    return SIGN if exact < 0 else 0


def of_integer(number):
    """ITOF: the nearest pattern to a whole number; 0 gives plus zero."""
    return rounded(Fraction(number), sign_of(number))


def cut(bits):
    """FTOI: the whole number that a finite pattern is cut to "toward zero"."""
    exact = value(bits)
    whole = abs(exact.numerator) // exact.denominator
    return -whole if exact < 0 else whole


def add(below, top):
    if is_nan(below) or is_nan(top):
        return NAN
    if is_infinite(below) or is_infinite(top):
        if is_infinite(below) and is_infinite(top) and below != top:
            return NAN
        return below if is_infinite(below) else top
    if is_zero(below) and is_zero(top):
        return below & top  # minus zero only where both are
    exact = value(below) + value(top)
    return rounded(exact, sign_of(exact))


def subtract(below, top):
    return NAN if is_nan(top) else add(below, negated(top))


def multiply(below, top):
    if is_nan(below) or is_nan(top):
        return NAN
    sign = (below ^ top) & SIGN
    if is_infinite(below) or is_infinite(top):
        return NAN if is_zero(below) or is_zero(top) else sign | INFINITY
    return rounded(value(below) * value(top), sign)


def divide(below, top):
    if is_nan(below) or is_nan(top):
        return NAN
    sign = (below ^ top) & SIGN
    if is_infinite(below):
        return NAN if is_infinite(top) else sign | INFINITY
    if is_infinite(top):
        return sign
    if is_zero(top):
        return NAN if is_zero(below) else sign | INFINITY
    return rounded(value(below) / value(top), sign)


def ordinal(bits):
    """A whole number that orders the patterns that are no NaN as their values; both zeros are 0."""
    return -(bits & ~SIGN) if bits & SIGN else bits


def equal(below, top):
    """ "EQUAL of two FLOATs shall follow IEEE 754 comparison: both zeros equal, a NaN equal to nothing." """
    if is_nan(below) or is_nan(top):
        return False
    if is_infinite(below) or is_infinite(top):
        return below == top
    return value(below) == value(top)


def compare(below, top):
    """ "CMP and CMPF give 1 if Vb < Vt, 0 if equal, -1 if Vb > Vt." """
    return (ordinal(below) < ordinal(top)) - (ordinal(below) > ordinal(top))
