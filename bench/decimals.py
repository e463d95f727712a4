"""Decimals for PUSHIMMF, request e: at ties of binary32 and beside them, of every length, and of wrong form.

A tie is an odd number of halves of the last of 24 bits. From 2^e to 2^(e+1) it is M / 2^(24-e) with M odd.
"""

import re
from fractions import Fraction

from sam.floats import floor_log2

MOST_DIGITS = 9
MOST_PLACES = MOST_DIGITS - 1  # digits behind the point, one being before it
EXPONENTS = range(-27, 27)  # of 0.00000001 to 99999999.9
BITS = 24  # of a binary32's significand
JUST = Fraction(1, 1 << 40)  # as a share of the number: nearer to a tie than this is just off it

WELL_FORMED = re.compile(r"(-?)([0-9]+)\.([0-9]+)\Z")

# Operands that are 33, and those that are 25.
ILL_FORMED = """
    5 -5 5. .5 -.5 -5. . -. .. - -- --1.0 -1.-0 1-.5 1.-5 1.5- 1.2.3 1..2 .1.2 1.2. 1234567890 1234567890. .1234567890
    1234567890.1.2 12345678901234567890 1.5e3 1e3 0x1.0 #1.5 #.0000000 #4020000. 1.5# 2.5: 12345678.90: 5.: .: a.b a1.5
    1.5a 1_0.5 # #402 inf nan -inf
""".split()
TOO_LONG = """
    12345678.90 1.234567890 123456789.0 0.000000000 00000000.00 -000000000.5 0.0000000001 99999999.99 16777217.00
    8388608.500 -4194304.2500 1234567890.1234567890 000000000000000000000000000002.5 2.5000000000000000000000000000000
""".split()


def written(numerator, places):
    """numerator / 10^places, with no more zeros than it needs."""
    digits = str(numerator).zfill(places + 1)
    return f"{digits[:-places]}.{digits[-places:]}"


def beside_ties(places, exponent, off):
    """Every m of at most nine digits with m / 10^places at least 2^exponent and below twice that, and by `off` of the
    smallest steps above a tie; 0 is at it. The step is 1 / (5^places 2^s), where s is the larger of places and
    24 - exponent."""
    low, high = (-(-(10**places) * numerator // denominator) for numerator, denominator in bounds(exponent))
    fives, twos = 5**places, BITS - exponent - places
    if twos >= 1:  # m 2^twos = M 5^places + off, and M is odd where off is
        if off % 2 == 0:
            return range(0)
        first, step = off * pow(2, -twos, fives), fives
    else:  # m = M 5^places 2^-twos + off
        first, step = (fives << -twos) + off, 2 * fives << -twos
    return range(low + (first - low) % step, min(high, 10**MOST_DIGITS), step)


def bounds(exponent):
    return ((Fraction(2) ** bound).as_integer_ratio() for bound in (exponent, exponent + 1))


def grounds(*offs):
    """(places, range of m) for each point and size that has decimals so far off a tie."""
    made = [
        (places, beside_ties(places, exponent, off))
        for off in offs
        for places in range(1, MOST_PLACES + 1)
        for exponent in EXPONENTS
    ]
    return [(places, numerators) for places, numerators in made if numerators]


TIES = grounds(0)
BESIDE_TIES = grounds(-3, -1, 1, 3)
# Nearest to a tie that would be taken the wrong way: by one step there are none, where 24 - exponent is at least two
# above places, since M is then 3 modulo 4 above a tie and 1 below it.
HARDEST = [(places, numerators) for places, numerators in grounds(-3, 3) if places >= MOST_PLACES - 1]
POWERS = [
    *[(2**i * 10, 1) for i in range(27)],
    *[(5**i, i) for i in range(1, MOST_PLACES + 1)],  # 2^-i
    *[(10**i, 1) for i in range(1, MOST_DIGITS)],
    *[(1, i) for i in range(1, MOST_PLACES + 1)],
]


def edges():
    """Ties, what is beside them by a step or by one in the last digit, powers of two and ten and what is beside them,
    and a few digits with the point anywhere."""
    for places, numerators in TIES + BESIDE_TIES + HARDEST:
        for m in sorted({numerators[i * (len(numerators) - 1) // 4] for i in range(5)}):
            yield from (written(near, places) for near in (m - 1, m, m + 1) if near < 10**MOST_DIGITS)
    for m, places in POWERS:
        yield from (written(near, places) for near in (m - 1, m, m + 1))
    for length in range(2, MOST_DIGITS + 1):
        for digits in ("000000000", "000000001", "111111111", "123456789", "499999999", "500000000", "999999999"):
            for point in range(1, length):
                yield f"{digits[-length:][:point]}.{digits[-length:][point:]}"


# ---- drawn ones


def any_digits(chooser):
    """Of any length, the point anywhere."""
    length = chooser.randrange(2, MOST_DIGITS + 1)
    bag = chooser.choice(["0123456789", "0123456789", "09", "01"])
    point = chooser.randrange(1, length)
    return "".join("." * (i == point) + chooser.choice(bag) for i in range(length))


def any_of_ground(chooser, found):
    places, numerators = chooser.choice(found)
    near = chooser.choice(numerators) + chooser.choice([0, 0, 0, 0, -1, 1])
    return written(min(near, 10**MOST_DIGITS - 1), places)


def any_power(chooser):
    m, places = chooser.choice(POWERS)
    return written(m + chooser.choice([0, 0, -1, 1]), places)


def with_zeros(chooser, text):
    """With zeros before or behind, to nine digits at most."""
    for _ in range(chooser.randrange(MOST_DIGITS + 2 - len(text))):
        text = chooser.choice(["0" + text, text + "0"])
    return text


def any_decimal(chooser):
    """A well-formed one."""
    kind = chooser.randrange(8)
    if kind < 4:
        text = any_digits(chooser)
    elif kind < 7:
        text = any_of_ground(chooser, [TIES, BESIDE_TIES, HARDEST][kind - 4])
    else:
        text = any_power(chooser)
    if chooser.randrange(4) == 0:
        text = with_zeros(chooser, text)
    return chooser.choice(["", "", "-"]) + text


def damaged_decimal(chooser):
    """One with something put in or taken out, or too long; by chance still good."""
    text = any_decimal(chooser)
    kind = chooser.randrange(5)
    if kind == 0:
        return chooser.choice(ILL_FORMED + TOO_LONG)
    if kind == 1:
        more = "".join(chooser.choice("0123456789") for _ in range(chooser.choice([1, 2, 8, 9, 20])))
        return chooser.choice([text + more, text.replace(".", more + ".")])
    if kind == 2:
        return chooser.choice([text.replace(".", ""), text.partition(".")[0] + ".", "." + text.partition(".")[2]])
    at = chooser.randrange(len(text) + 1)
    return text[:at] + chooser.choice([".", "-", "#", ":", "_", "e", "A", " ", "//", "@"]) + text[at + kind % 2 :]


# ---- what was drawn


def marks(text):
    """What is to be seen in a well-formed decimal: its length, minus zero, a tie, and next to a tie whichever way the
    wrong rule would take it."""
    minus, whole, fraction = WELL_FORMED.match(text).groups()
    numerator, scale = int(whole + fraction), 10 ** len(fraction)
    yield f"{len(whole + fraction)} digits"
    if numerator == 0:
        yield "minus zero" if minus else "zero"
        return
    off, is_even_below = off_tie(Fraction(numerator, scale))
    if off == 0:
        yield "tie that goes down" if is_even_below else "tie that goes up"
    if is_even_below and 0 < off <= JUST:
        yield "just above a tie that goes down"
    if not is_even_below and -JUST <= off < 0:
        yield "just below a tie that goes up"
    if numerator > 1 and off_tie(Fraction(numerator - 1, scale)) == (0, True):
        yield "one in the last digit above a tie that goes down"
    if off_tie(Fraction(numerator + 1, scale)) == (0, False):
        yield "one in the last digit below a tie that goes up"


def off_tie(exact):
    """How far above the tie between its neighbours, as a share of the number; and whether the lower one is even."""
    unit = Fraction(2) ** (floor_log2(exact) + 1 - BITS)
    below = exact // unit
    return (exact - (below + Fraction(1, 2)) * unit) / exact, below % 2 == 0


ALL_MARKS = [
    *[f"{length} digits" for length in range(2, MOST_DIGITS + 1)],
    "zero",
    "minus zero",
    "tie that goes down",
    "tie that goes up",
    "just above a tie that goes down",
    "just below a tie that goes up",
    "one in the last digit above a tie that goes down",
    "one in the last digit below a tie that goes up",
]
