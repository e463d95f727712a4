"""Random programs as source text: mostly well typed, with loops, calls and frames, so that they run for long.

A Builder knows the tags of the values that the program made so far will have on the stack (with FBR 0 at the outer
level) and picks instructions that take them. At a small rate it puts in any instruction at all.
"""

from decimals import any_decimal
from sam.actions import CH, FLOAT, INT, MA, PA
from sam.table import CHARACTER, INTEGER, KINDS, LAST_CHARACTER, NAMES, OFFSET, PATTERN, TARGET

LEAST, GREATEST = -(2**31), 2**31 - 1  # of an INT, and of an MA
INTEGER_EDGES = [
    0, 1, -1, 2, -2, 3, 7, 40, 255, 65535, 65536, 2**30, -(2**30), GREATEST, GREATEST - 1, LEAST, LEAST + 1,
]  # fmt: skip
# INTs at a tie of binary32, which go down and up: halfway between numbers that are 2, 4 and 128 apart.
INTEGER_TIES = [
    2**24 + 1, 2**24 + 3, 2**25 - 1, 2**25 + 2, 2**25 + 6, 2**30 + 64, 2**30 + 192, 2**31 - 64, 2**31 - 192,
    -(2**24) - 1, -(2**24) - 3, 64 - 2**31, 192 - 2**31,
]  # fmt: skip
BESIDE_INTEGERS = {edge + by for edge in [*INTEGER_TIES, *INTEGER_EDGES] for by in (-1, 0, 1)}
ITOF_EDGES = sorted(edge for edge in BESIDE_INTEGERS if LEAST <= edge <= GREATEST)
MINUS_ZERO = 0x80000000
ZEROS = [0x00000000, MINUS_ZERO]
INFINITIES = [0x7F800000, 0xFF800000]
NANS = [0x7F800001, 0x7FC00000, 0x7FFFFFFF, 0xFF800001, 0xFFC00000, 0xFFFFFFFF]  # signalling and quiet
FLOAT_EDGES = [
    *ZEROS, 0x00000001, 0x80000001, 0x007FFFFF, 0x807FFFFF, 0x00800000, 0x80800000, 0x00800001, 0x3F800000, 0xBF800000,
    0x3F800001, 0x3F7FFFFF, 0x40200000, 0x40490FDB, 0x33800000, 0x34000000, 0x4B800000, 0x7F7FFFFF, 0xFF7FFFFF,
    *INFINITIES, *NANS,
]  # fmt: skip
# FLOATs at the ends of INT: the last that FTOI takes and the first that it refuses, above 0 and below.
FTOI_ENDS = [(0x4EFFFFFF, 0x4F000000), (0xCF000000, 0xCF000001)]
# Besides those and the edges above: 0.5, 1.5, 2.75, 8388607.5 and numbers next to 1 and to 2^24, of both signs.
FTOI_EDGES = [
    *FLOAT_EDGES, *[end for ends in FTOI_ENDS for end in ends],
    *[bits | sign for sign in ZEROS
      for bits in (0x3F000000, 0x3FC00000, 0x40300000, 0x4AFFFFFF, 0x3F800001, 0x4B7FFFFF, 0x4B800001)],
]  # fmt: skip

TWO_INTEGERS = """
    ADD SUB TIMES DIV MOD AND OR NAND NOR XOR BITAND BITOR BITNAND BITNOR BITXOR CMP GREATER LESS
""".split()
SUMS = ["ADD", "SUB"]  # of two INTs, or of an MA and an INT
# From 0 to an end of an address's range, or next to it, and back: there, back, by how much.
FAR_TRIPS = [("ADD", "SUB", LEAST), ("ADD", "SUB", GREATEST), ("SUB", "ADD", GREATEST), ("SUB", "ADD", -GREATEST)]
ONE_INTEGER = ["NOT", "BITNOT", "ISPOS", "ISNEG"]
CONVERSIONS = ["ITOF", "FTOI"]
TWO_FLOATS = ["ADDF", "SUBF", "TIMESF", "DIVF"]
LONGEST_WORD = 5  # characters that a program shows at once


def any_integer(chooser):
    return chooser.choice(
        [
            chooser.choice(INTEGER_EDGES),
            chooser.choice(ITOF_EDGES),
            chooser.randrange(-20, 21),
            chooser.randrange(-(2**31), 2**31),
        ]
    )


def any_pattern(chooser):
    """Edges; patterns near one in size, so that sums round and cancel; small and large ones, whose products and
    quotients leave the range; those of an INT's size; short fractions, whose results are ties."""
    fraction = chooser.choice([chooser.randrange(1 << 23), chooser.randrange(1 << 12) << 11, chooser.randrange(1 << 8)])
    exponents = chooser.choice([range(120, 135), range(50, 80), range(180, 200), range(126, 160)])
    sized = chooser.randrange(2) << 31 | chooser.choice(exponents) << 23 | fraction
    return chooser.choice([chooser.choice(FTOI_EDGES), sized, sized, chooser.randrange(1 << 32)])


def any_float_operand(chooser):
    """PUSHIMMF's: a decimal or bits."""
    return any_decimal(chooser) if chooser.randrange(3) == 0 else f"#{any_pattern(chooser):08X}"


def any_character(chooser):
    return chooser.choice([0, LAST_CHARACTER, chooser.randrange(LAST_CHARACTER + 1)])


def any_operand(chooser, kind, length):
    if kind == INTEGER:
        return f" {any_integer(chooser)}"
    if kind == PATTERN:
        return f" {any_float_operand(chooser)}"
    if kind == OFFSET:
        return f" {chooser.choice([chooser.randrange(-3, 8), chooser.randrange(-999, 1000)])}"
    if kind == TARGET:
        return f" {chooser.randrange(length + 1)}"
    if kind == CHARACTER:
        return f" {any_character(chooser)}"
    return ""


def any_instruction(chooser, length):
    code = chooser.randrange(len(NAMES))
    return NAMES[code] + any_operand(chooser, KINDS[code], length)


def careless(chooser, length):
    """A program of any instructions at all."""
    return "\n".join(any_instruction(chooser, length) for _ in range(length))


class Builder:
    DEEPEST = 12  # values that the outer level keeps

    def __init__(self, chooser, slip=0.0):
        self.chooser, self.slip = chooser, slip
        self.lines, self.functions = [], []
        self.tags = []
        self.labels = 0

    def put(self, *lines):
        self.lines += lines

    def label(self):
        self.labels += 1
        return f"L{self.labels}"

    # ---- one instruction, by the tags on top

    def push_something(self):
        chooser = self.chooser
        kind = chooser.randrange(9)
        if kind < 3:
            self.put(f"PUSHIMM {any_integer(chooser)}")
            self.tags.append(INT)
        elif kind < 6:
            self.put(f"PUSHIMMF {any_float_operand(chooser)}")
            self.tags.append(FLOAT)
        elif kind == 6:
            self.put(chooser.choice(["PUSHSP", "PUSHFBR"]))
            self.tags.append(MA)
        elif kind == 7:
            self.put(f"PUSHIMMCH {any_character(chooser)}")
            self.tags.append(CH)
        else:
            self.put("PUSHIMMPA 0")
            self.tags.append(PA)

    def push_dwell(self):
        """Tenths as an INT, or the same in seconds, within the range of a dwell or little beyond."""
        tenths = self.chooser.randrange(5, 320)
        line, tag = self.chooser.choice([(f"PUSHIMM {tenths}", INT), (f"PUSHIMMF {tenths // 10}.{tenths % 10}", FLOAT)])
        self.put(line)
        self.tags.append(tag)

    def work(self):
        """An instruction that takes the values on top, and what it leaves there."""
        chooser, top = self.chooser, self.tags[-2:]
        choices = [("ISNIL", 1, INT), ("DUP", 0, top[-1])]
        if top == [INT, INT]:
            choices += [(name, 2, INT) for name in TWO_INTEGERS]
        if top == [FLOAT, FLOAT]:
            choices += [(name, 2, FLOAT) for name in TWO_FLOATS * 3] + [("CMPF", 2, INT)] * 2
        if top[-1] == INT:
            choices += [(name, 1, INT) for name in ONE_INTEGER] + [("ITOF", 1, FLOAT)]
        if top[-1] == FLOAT and chooser.randrange(3) == 0:  # seldom, since of any FLOAT it is often refused
            choices.append(("FTOI", 1, INT))
        if top == [MA, INT]:
            choices += [(name, 2, MA) for name in SUMS]
        if len(top) == 2:
            choices.append(("EQUAL", 2, INT))
        name, pops, leaves = chooser.choice(choices)
        if name in ("DIV", "MOD") and chooser.randrange(8):
            self.put("PUSHIMM 3", "BITOR")  # seldom by zero
        self.put(name)
        self.tags[len(self.tags) - pops :] = [leaves]

    def convert(self):
        """There, and half the time back: decimals are within INT, and so is what ITOF makes, save near the greatest."""
        chooser = self.chooser
        start, there, back, tags = chooser.choice(
            [
                (f"PUSHIMMF {any_decimal(chooser)}", "FTOI", "ITOF", [INT, FLOAT]),
                (f"PUSHIMM {any_integer(chooser)}", "ITOF", "FTOI", [FLOAT, INT]),
            ]
        )
        is_back = chooser.randrange(2)
        self.put(start, there, *[back] * is_back)
        self.tags.append(tags[is_back])

    def show(self):
        """A short word, one character after the other or all from the stack, where the last was pushed first."""
        word = [any_character(self.chooser) for _ in range(self.chooser.randrange(1, LONGEST_WORD + 1))]
        if self.chooser.randrange(2):
            for character in word:
                self.put(f"PUSHIMMCH {character}", "WRITECH")
        else:
            self.put(*[f"PUSHIMMCH {character}" for character in reversed(word)], *["WRITECH"] * len(word))

    def show_top(self):
        if self.tags[-1] == CH:
            self.put("WRITECH")
            self.tags.pop()

    def swap(self):
        if len(self.tags) >= 2:
            self.put("SWAP")
            self.tags[-2:] = self.tags[:-3:-1]

    # ---- memory, by offset and by address

    def copy_up(self):
        at = self.chooser.randrange(len(self.tags))
        if self.chooser.randrange(2):
            self.put(f"PUSHOFF {at}")
        else:
            self.put("PUSHFBR", f"PUSHIMM {at}", "ADD", "PUSHIND")
        self.tags.append(self.tags[at])

    def copy_by_far_address(self):
        """By an address that goes to an end of its range and returns; or seldom goes on and comes round, which is 6."""
        chooser = self.chooser
        at = chooser.randrange(len(self.tags))
        there, back, far = chooser.choice(FAR_TRIPS)
        onward = chooser.choice([there, back, back, back])
        self.put("PUSHFBR", f"PUSHIMM {far}", there, f"PUSHIMM {far}", onward, f"PUSHIMM {at}", "ADD", "PUSHIND")
        self.tags.append(self.tags[at])

    def store_top(self):
        if len(self.tags) < 2:
            return
        at = self.chooser.randrange(len(self.tags) - 1)
        if self.chooser.randrange(2):
            self.put(f"STOREOFF {at}")
        else:
            self.put("PUSHFBR", f"PUSHIMM {at}", "ADD", "SWAP", "STOREIND")
        self.tags[at] = self.tags.pop()

    def move_sp(self):
        """ADDSP or POPSP, up or down."""
        by = self.chooser.randrange(-len(self.tags), 4)
        if self.chooser.randrange(2):
            self.put(f"ADDSP {by}")
        else:
            self.put("PUSHSP", f"PUSHIMM {by}", "ADD", "POPSP")
        self.tags = self.tags[:by] if by < 0 else self.tags + [INT] * by

    # ---- control: each leaves the tags as it says

    def loop(self):
        """Counts down to zero around a body that leaves the stack as it was."""
        label = self.label()
        self.put(f"PUSHIMM {self.chooser.randrange(1, 9)}", f"{label}:")
        for _ in range(self.chooser.randrange(1, 4)):
            self.put(f"PUSHIMM {any_integer(self.chooser)}", f"PUSHIMM {any_integer(self.chooser)}")
            self.put(self.chooser.choice(["BITXOR", "TIMES", "SUB", "EQUAL"]), "ADDSP -1")
        if self.chooser.randrange(3) == 0:
            self.show()
        self.put("PUSHIMM 1", "SUB", "DUP", f"JUMPC {label}")
        self.tags.append(INT)

    def condition(self):
        """Leaves an INT 0 or 1: pushed, or by a test of zeros and NaNs."""
        chooser = self.chooser
        one, other = (f"PUSHIMMF #{chooser.choice(ZEROS + NANS):08X}" for _ in range(2))
        self.put(*chooser.choice([[f"PUSHIMM {chooser.randrange(2)}"], [one, other, "EQUAL"], [one, "ISNIL"]]))

    def branch(self):
        other, end = self.label(), self.label()
        self.condition()
        self.put(f"JUMPC {other}", "PUSHIMM 1", f"JUMP {end}")
        self.put(f"{other}:", "PUSHIMM 2", f"{end}:")
        self.tags.append(INT)

    def call(self):
        """A function that stores its result below its frame, called by its name or by its address."""
        name = self.label()
        self.put("PUSHIMM 0", "LINK")
        self.put(*self.chooser.choice([[f"JSR {name}"], [f"PUSHIMMPA {name}", "JSRIND"]]))
        self.put("POPFBR")
        self.functions.append([f"{name}:", f"PUSHIMM {any_integer(self.chooser)}", "STOREOFF -1", "JUMPIND"])
        self.tags.append(INT)

    def piece(self):
        chooser = self.chooser
        if chooser.random() < self.slip:
            self.put(any_instruction(chooser, len(self.lines)))
        elif not self.tags:
            self.push_something()
        elif len(self.tags) >= self.DEEPEST:
            chooser.choice([self.store_top, self.move_sp, self.work, self.show_top])()
        else:
            most = [self.push_something] * 6 + [self.work] * 10
            some = [self.swap, self.copy_up, self.store_top, self.move_sp, self.loop, self.branch, self.call]
            chooser.choice(most + some + [self.convert, self.copy_by_far_address, self.show, self.show_top])()

    def source(self, pieces):
        """Often with a dwell at the bottom, where the door board reads it."""
        if self.chooser.randrange(2):
            self.push_dwell()
        for _ in range(pieces):
            self.piece()
        lines = self.lines + ["STOP"]
        for function in self.functions:
            lines += function
        return "\n".join(lines)


def any_program(chooser):
    """Long and sound, or with slips, or of any instructions at all."""
    kind = chooser.randrange(10)
    if kind == 0:
        return careless(chooser, chooser.randrange(0, 12))
    slip = chooser.choice([0.0, 0.0, 0.02, 0.1])
    return Builder(chooser, slip).source(chooser.randrange(1, 40))
