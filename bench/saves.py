"""Images of saved states, request k: made by hand with every field at its ends and beyond, with all that an image can
announce, with what may be lent to a load of it, with refusals that meet; and sessions to be carried on."""

from dataclasses import dataclass, replace
from itertools import product

import sam
from depths import stops
from machines import single
from sam.actions import CH, FLOAT, INT, MA, PA
from sam.machine import CELL_LIMIT, HISTORY_LIMIT, OUTPUT_LIMIT
from sam.table import LAST_CHARACTER, NAMES, PROGRAM_LIMIT, WORD

STATE_BYTES = 4638
HEADER_BITS, CELL_BITS = 51, 35
HEADER_BYTES = 7  # that hold the header
COUNT_LIMIT = 511  # of the bytes that nine bits announce
CARRY = 1024  # what ten bits do not hold


def image_of(bits):
    """These bits, as a string of 0 and 1, with zeros to a byte."""
    bits += "0" * (-len(bits) % 8)
    return int(bits, 2).to_bytes(len(bits) // 8, "big")


@dataclass
class Saved:
    """What an image says, in range or not: "N 10 bits, PC 11, SP 10, FBR 10, HALT 1, output count 9, then each of the N
    cells as tag 3 and bits 32, then the written output bytes, zeros to a byte" """

    cells: list  # (tag, bits)
    shown: bytes = b""
    pc: int = 0
    sp: int = 0
    fbr: int = 0
    halt: int = 0

    def bits(self):
        n, count = len(self.cells), len(self.shown)
        header = f"{n:010b}{self.pc:011b}{self.sp:010b}{self.fbr:010b}{self.halt:b}{count:09b}"
        cells = "".join(f"{tag:03b}{bits:032b}" for tag, bits in self.cells)
        return header + cells + "".join(f"{byte:08b}" for byte in self.shown)

    def image(self):
        return image_of(self.bits())

    def with_cell(self, address, tag, bits):
        return replace(self, cells=[*self.cells[:address], (tag, bits), *self.cells[address + 1 :]])


def machine(saved, h=0, size=None, **registers):
    """A machine in that state, with an output of the bytes shown or of more, and junk in what is not saved."""
    tags, bits = ([cell[part] for cell in saved.cells] for part in (0, 1))
    count = len(saved.shown)
    output = bytearray(saved.shown) + bytearray([0xEE] * ((count if size is None else size) - count))
    r = sam.Registers(len(bits), h, saved.pc, saved.sp, saved.fbr, saved.halt, written=count)
    history = [0 if place % 2 else WORD * WORD - 1 for place in range(h)]
    return sam.State(bits, tags, history, output, replace(r, **registers))


# ---- a machine of four cells at a WRITECH, in a program of three instructions

PROGRAM = single("JUMP 1 WRITECH")
LENGTH = PROGRAM.length
LETTER = 76
N = 4
BASE = Saved([(INT, 40), (CH, LETTER), (MA, WORD - 1), (PA, LENGTH)], b"\x41\xff", pc=1, sp=2, fbr=1)
SMALL = {  # with two bits of padding, one and none
    "one cell": Saved([(INT, 40)]),
    "four cells": BASE,
    "no padding": Saved(BASE.cells + [(FLOAT, 0x7FC00000), (INT, WORD - 1), (CH, 0)], b"\0\x80\x7f", halt=1, sp=6),
}


def flipped(image, bit):
    """With this bit, from the left, another."""
    changed = bytearray(image)
    changed[bit // 8] ^= 0x80 >> bit % 8
    return bytes(changed)


def announced_by(image):
    """(N, output count) of an image that has a header."""
    header = int.from_bytes(image[:HEADER_BYTES], "big") >> (8 * HEADER_BYTES - HEADER_BITS)
    return header >> (HEADER_BITS - 10), header % (COUNT_LIMIT + 1)


# ---- N and output counts

SIZES = [0, 1, 2, 7, 8, CELL_LIMIT - 1, CELL_LIMIT, CELL_LIMIT + 1, CARRY - 1]
COUNTS = [0, 1, OUTPUT_LIMIT - 1, OUTPUT_LIMIT, OUTPUT_LIMIT + 1, COUNT_LIMIT]
SMALL_SIZES, SMALL_COUNTS = range(1, 10), (0, 1, 2, 3, OUTPUT_LIMIT)  # every way in which cells and bytes meet bytes


def patterned(n, count):
    """So many cells and bytes, each unlike its neighbours."""
    cells = [((INT, FLOAT, MA)[i % 3], (i + 1) * 0x9E3779B9 % WORD) for i in range(n)]
    return Saved(cells, bytes((7 + 37 * i) % 256 for i in range(count)))


def around(image):
    """The image whole, cut by a byte, and with a byte more; its header alone."""
    return {"whole": image, "cut": image[:-1], "more": image + b"\0", "header": image[:HEADER_BYTES]}


# ---- values at their ends and beyond


def ends(n):
    """(Program, state): n cells with all registers at their ends, under programs of several lengths."""
    for length, halt in product((0, 1, LENGTH, PROGRAM_LIMIT - 1, PROGRAM_LIMIT), (0, 1)):
        for pc, sp, fbr in product({0, length}, {0, n - 1}, {0, n - 1}):
            yield stops(length), replace(patterned(n, 0), pc=pc, sp=sp, fbr=fbr, halt=halt)


ALLOWED_CELLS = [
    *[(tag, bits) for tag in (INT, FLOAT, MA) for bits in (0, 1, WORD >> 1, WORD - 1, 0x12345678)],
    *[(PA, bits) for bits in (0, 1, LENGTH)],
    *[(CH, bits) for bits in (0, LETTER, LAST_CHARACTER)],
]
BROKEN_CELLS = [
    *[(PA, bits) for bits in (LENGTH + 1, LENGTH + 256, WORD >> 1, WORD - 1)],
    *[(CH, bits) for bits in (LAST_CHARACTER + 1, 255, 256 + LETTER, WORD >> 1, WORD - 1)],
    *[(tag, bits) for tag in (5, 6, 7) for bits in (0, LETTER, WORD - 1)],
]
ALLOWED_REGISTERS = {
    "PC 0": {"pc": 0},
    "PC at the length": {"pc": LENGTH},
    "SP 0": {"sp": 0},
    "SP at N-1": {"sp": N - 1},
    "FBR 0": {"fbr": 0},
    "FBR at N-1": {"fbr": N - 1},
    "HALT 1": {"halt": 1},
    "HALT 1 at the length": {"halt": 1, "pc": LENGTH},
}
BROKEN_REGISTERS = {
    "PC above the length": {"pc": LENGTH + 1},
    "PC far above": {"pc": 2047},
    "SP at N": {"sp": N},
    "SP far above": {"sp": CARRY - 1},
    "FBR at N": {"fbr": N},
    "FBR far above": {"fbr": CARRY - 1},
}
# An output count and the lent output.
ALLOWED_OUTPUTS = [(0, 0), (0, 1), (1, 1), (1, 2), (0, OUTPUT_LIMIT), (255, 255), (255, 256), (256, 256)]
BROKEN_OUTPUTS = [(1, 0), (2, 1), (256, 0), (256, 255), (257, 0), (257, 255), (257, 256), (511, 255), (511, 256)]
OUTER_OUTPUTS = [(0, 257), (256, 257), (257, 257), (258, 257), (511, 257), (511, 511), (0, 512), (2, WORD >> 16)]


# ---- programs that a state of PC 1 and PA 3 is carried to, by their length

LENGTHS = [0, 1, 2, LENGTH, LENGTH + 1, PROGRAM_LIMIT - 1, PROGRAM_LIMIT]
CARRIED_STATES = {  # PC, the PA of the last cell, and the least length
    "PC and PA": (1, LENGTH, LENGTH),
    "PA alone": (0, LENGTH, LENGTH),
    "PC alone": (LENGTH, 0, LENGTH),
    "neither": (0, 0, 0),
    "the greatest PA": (0, PROGRAM_LIMIT, PROGRAM_LIMIT),
    "the greatest PC": (PROGRAM_LIMIT, 0, PROGRAM_LIMIT),
}


def carried_state(name):
    pc, address, _ = CARRIED_STATES[name]
    return replace(BASE, pc=pc).with_cell(N - 1, PA, address)


# ---- memory lent to a load of BASE: cells, tags, history places and output

ALLOWED_LENT = [(N, N, 0, 2), (N, N, 1, 3), (N, N, 8, OUTPUT_LIMIT), (N, N, HISTORY_LIMIT, OUTPUT_LIMIT)]
REFUSED_LENT = [
    *[(N + by, N + by, 8, 8) for by in (-N, -1, 1, CARRY, 1 << 16)],
    *[(N, N + by, 8, 8) for by in (-N, -1, 1, CARRY, 1 << 16)],
    *[(N + by, N, 8, 8) for by in (-N, -1, 1, CARRY, 1 << 16)],
    *[(N, N, h, 8) for h in (HISTORY_LIMIT + 1, 2 * HISTORY_LIMIT, 1 << 16)],
    *[(N, N, 8, size) for size in (OUTPUT_LIMIT + 1, 2 * OUTPUT_LIMIT, 1 << 16)],
    (N, N, HISTORY_LIMIT + 1, OUTPUT_LIMIT + 1),
    (N - 1, N + 1, HISTORY_LIMIT + 1, OUTPUT_LIMIT + 1),
    (CELL_LIMIT, CELL_LIMIT, HISTORY_LIMIT, OUTPUT_LIMIT),
]


# ---- padding and what is left over


def padded(n, bit):
    """An image of n cells with this bit of its padding, from the left, another."""
    return flipped(patterned(n, 0).image(), HEADER_BITS + CELL_BITS * n + bit)


def paddings():
    """(N, bit): of 1 to 8 cells, behind which 2, 7, 4, 1, 6, 3, 0 and 5 bits are left."""
    return [(n, bit) for n in range(1, 9) for bit in range(-(HEADER_BITS + CELL_BITS * n) % 8)]


LEFT_OVER = {  # behind an image
    "a zero": lambda image: image + b"\0",
    "a bit": lambda image: image + b"\x80",
    "ones": lambda image: image + b"\xff",
    "two zeros": lambda image: image + b"\0\0",
    "itself": lambda image: image * 2,
    "all of a save": lambda image: image.ljust(STATE_BYTES, b"\0"),
    "more than a save": lambda image: image.ljust(STATE_BYTES + 1, b"\0"),
    "up to 2^16 bits": lambda image: image.ljust(1 << 13, b"\0"),
    "2^16 bytes": lambda image: image + bytes(1 << 16),
}


# ---- refusals that meet: of BASE, in every set; an image that ends early has nothing left over

ORDER = (41, 67, 10, 45)
EARLY = [lambda image: image[:-1], lambda image: image[:HEADER_BYTES], lambda image: image[:6], lambda image: b""]
OVER = [lambda image: flipped(image, 8 * len(image) - 1), lambda image: image + b"\0", LEFT_OVER["all of a save"]]
UNFIT = [(1, 1, 0, 0), (-1, -1, 0, 0), (0, 1, 0, 0), (-1, 0, 0, 0), (0, 0, HISTORY_LIMIT, 0), (0, 0, 0, OUTPUT_LIMIT)]
MEETING_SIZES = (N, N, 1, 2)  # that BASE fits
BROKEN_SAVED = [
    *[replace(BASE, **changed) for changed in BROKEN_REGISTERS.values()],
    BASE.with_cell(0, 7, 0),
    BASE.with_cell(N - 1, PA, LENGTH + 1),
    BASE.with_cell(N - 1, CH, LAST_CHARACTER + 1),
    replace(BASE, shown=bytes(OUTPUT_LIMIT + 3)),
]
BROKEN_PROGRAMS = [
    sam.Program(PROGRAM.table[:-1], LENGTH),
    sam.Program(PROGRAM.table, PROGRAM_LIMIT + 1),
    sam.Program(PROGRAM.table[:-1] + [1], LENGTH),
    sam.Program([len(NAMES) << 32, *PROGRAM.table[1:]], LENGTH),
]


def meeting_loads(nine, others):
    """(Refusals met, program, image, lent sizes, length of the registers, number): a broken state is one by the image,
    by the table or by the registers' length, one of these others."""
    broken = [(BASE, PROGRAM, nine), *[(saved, PROGRAM, nine) for saved in BROKEN_SAVED]]
    broken += [(BASE, program, nine) for program in BROKEN_PROGRAMS] + [(BASE, PROGRAM, other) for other in others]
    changes = [(41, early) for early in EARLY] + [(45, over) for over in OVER] + [(0, bytes)]
    for unfit, (index, (saved, program, length)), (at, change) in product([None, *UNFIT], enumerate(broken), changes):
        faults = (at == 41, unfit is not None, index > 0, at == 45)
        met = tuple(number for number, is_met in zip(ORDER, faults) if is_met)
        sizes = tuple(size + by for size, by in zip(MEETING_SIZES, unfit or (0, 0, 0, 0)))
        yield met, program, change(saved.image()), sizes, length, met[0] if met else 0


# ---- sessions to be carried on: a program, N and the length of the output; each ends in its own way

SESSIONS = [
    ("PUSHIMM 3 a: PUSHIMM 1 SUB DUP JUMPC a STOP", 4, 0),  # 1
    ("JSR f STOP f: PUSHIMM 7 SWAP JUMPIND", 3, 1),  # 1, with a PA on the way
    ("PUSHIMM 40 PUSHIMMF #40200000 STOREOFF 0", 4, 0),  # 2
    ("PUSHIMM 1 PUSHIMM 2 ADD ADD", 4, 0),  # 3
    ("LINK PUSHIMM 5 POPFBR", 4, 0),  # 4
    ("PUSHIMM 1 PUSHIMM 0 DUP DIV", 4, 0),  # 5
    ("PUSHIMM 1 PUSHSP PUSHIND", 4, 0),  # 6
    ("a: PUSHIMM 1 JUMP a", 3, 0),  # 7
    ("a: PUSHIMMCH 65 WRITECH JUMP a", 3, 3),  # 12
    ("a: ADDSP 2 SWAP ADDSP -2 JUMP a", 4, 0),  # never, or 8
]
SESSION_ROOMS = (0, 1, 5, 64)  # of history
SAVED_AFTER = (0, 1, 3, 4)  # steps
CARRIED_STEPS = 12
# A series from a load: some of it is taken back, some forgotten, and more than there is.
LOADED_CALLS = [
    ("back",), ("forget", 0), ("forget", 1), ("step",), ("step",), ("back",), ("run", 2), ("forget", 1), ("run", 20),
    ("step",), ("back",), ("back",), ("forget", WORD), ("run", 3),
]  # fmt: skip
