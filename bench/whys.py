"""Cells to ask why they hold what they hold, request l: records made by hand, single steps and sessions in which none,
one or many wrote a cell, alone or with others; and what is asked beyond the cells."""

import sam
from forgets import GREATEST, LENGTH, N, WRITING, record, well_formed
from machines import copied
from programs import ONE_INTEGER, TWO_FLOATS, TWO_INTEGERS
from sam.actions import CH, FLOAT, INT, MA, PA
from sam.machine import used_records
from sam.table import CODES, LAST_CHARACTER, NAMES, PROGRAM_LIMIT, WORD, make_place

NONE_WROTE = (0,) * 6  # what is told then, and where it is refused


# ---- cells to ask

CARRIES = [1 << bits for bits in (8, 10, 16, 32, 63)]


def cells_beyond(n):
    """N and above, also with the number of a cell in the lowest 8, 10, 16, 32 or 63 bits."""
    cells = [n, n + 1, n + 2, 1023, GREATEST - 1, GREATEST]
    cells += [carry + cell for carry in CARRIES for cell in (0, 1, n // 2, n - 1, n)]
    return sorted({cell for cell in cells if cell >= n})


def cells_below(n):
    """All of a small machine, or such as lie at its ends and in the middle."""
    return range(n) if n <= 8 else [0, 1, n // 2, n - 3, n - 2, n - 1]


def any_asked(chooser, state):
    """Most often a cell, and often one that was written not long ago, of a machine that may be broken."""
    n, used = len(state.bits), min(state.registers.used, len(state.history))
    below = [0, max(n - 1, 0), *[chooser.randrange(n + 1)] * 2]
    below += [place >> 53 for place in state.history[max(used - 8, 0) : used] if place < 1 << 63] * 2
    return chooser.choice(below * 4 + [n, n + 1, WORD + chooser.choice(below), GREATEST])


# ---- what is seen of a why that is done


def writers(program, state, cell):
    """The records of the kept steps which wrote this cell, the newest first."""
    records = used_records(program, state)
    return [one for one in records if any(address == cell for address, _, _ in one.cells)]


def where_asked(state, cell, count):
    """(HALT, where the cell lies, how many kept steps wrote it); 2 is for more."""
    sp = state.registers.sp
    side = "below SP" if cell < sp else "at SP" if cell == sp else "above SP"
    return state.registers.halt, side, min(count, 2)


def how_written(program, state, cell, one):
    """(Instruction, which of the cells that it wrote, whether the cell held that already) of the newest."""
    addresses = [address for address, _, _ in one.cells]
    at, last = addresses.index(cell), len(addresses) - 1
    which = "only" if last == 0 else "first" if at == 0 else "last" if at == last else "between"
    return NAMES[program.table[one.pc] >> 32], which, state.cell(cell) == one.cells[at][1:]


# ---- records of the machine of forgets.py, which has JUMP 1, WRITECH and STOP, and four cells

RECORDS = {
    "none": [],
    **{f"{count} of five": well_formed(count) for count in range(1, 6)},
    "again and again": [record((0, INT, value), pc=value % LENGTH) for value in range(1, 7)],
    "fewer each time": [
        record(*[(address, FLOAT, 16 * i + address) for address in range(N - i)], pc=i % LENGTH) for i in range(N)
    ],
    "from the end": [
        record(*[(address, MA, 16 * i + address) for address in range(i, N)], pc=(i + 1) % LENGTH) for i in range(N)
    ],
    "at the ends": [record((0, INT, WORD - 1), (1, FLOAT, WORD - 1), (2, PA, LENGTH), (3, CH, LAST_CHARACTER))],
    "what it held": [record((0, INT, 40), (1, CH, 76), (2, MA, 0), (3, PA, LENGTH), pc=WRITING)],
}
# Places of a full program, each unlike the others, and the PCs of a record that wrote one cell.
FULL_PROGRAM = sam.Program([make_place(CODES["PUSHIMM"], place - 512) for place in range(PROGRAM_LIMIT)], PROGRAM_LIMIT)
FULL_PCS = sorted({0, *[1 << bit for bit in range(10)], *[(1 << bit) - 1 for bit in range(1, 11)]})
# Steps forgotten and steps taken back before it is asked.
BEFORE_ASKED = [(0, 0), (1, 0), (2, 0), (3, 0), (4, 0), (0, 1), (0, 2), (1, 1), (2, 1)]
ODD_ASKED = (0, 2, N, GREATEST)  # of a machine with an odd record, which may have written 0 and 2
KEPT_ASKED = (0, 3, N, WORD)
FULL_ASKED = (0, N - 1, N, GREATEST)
LENGTHS_ASKED = (0, 1, N)  # of two records: one wrote it, none did, and 6


# ---- single steps: an instruction, its stack, and the cells that it writes, worked out by hand

CELLS = 6
FIVE, SIX, SEVEN, LETTER = (INT, 5), (INT, 6), (INT, 7), (CH, 65)
SECONDS, MORE_SECONDS = (FLOAT, 0x40200000), (FLOAT, 0x40800000)  # 2.5 and 4
PUSHES = [
    "PUSHIMM 40", "PUSHIMMF 2.5", "PUSHIMMPA 1", "PUSHIMMCH 65", "DUP", "PUSHSP", "PUSHFBR", "LINK", "PUSHOFF 0",
    "JSR 1",
]  # fmt: skip
SINGLE_STEPS = [
    *[(name, [FIVE, (INT, 3)], [0]) for name in [*TWO_INTEGERS, "EQUAL"]],
    *[(name, [SECONDS, MORE_SECONDS], [0]) for name in [*TWO_FLOATS, "CMPF"]],
    *[(name, [SEVEN, SIX], [1]) for name in [*ONE_INTEGER, "ISNIL", "ITOF"]],
    ("FTOI", [SIX, SECONDS], [1]),
    *[(text, [SIX], [1]) for text in PUSHES],
    ("JSRIND", [SIX, (PA, 0)], [1]),
    ("JSRIND", [SIX, (PA, 1)], [1]),
    ("PUSHIND", [SIX, (MA, 0)], [1]),
    ("STOREIND", [SIX, SEVEN, (MA, 1), LETTER], [1]),
    ("STOREIND", [SIX, SEVEN, (MA, 1), SEVEN], [1]),
    ("STOREOFF 1", [SIX, SEVEN, LETTER], [1]),
    ("STOREOFF 0", [SIX, SEVEN, SIX], [0]),
    ("SWAP", [SIX, SEVEN, LETTER], [1, 2]),
    ("SWAP", [SIX, SIX], [0, 1]),
    ("ADDSP 1", [SIX], [1]),
    ("ADDSP 4", [SIX], [1, 2, 3, 4]),
    ("ADDSP 5", [], [0, 1, 2, 3, 4]),
    ("POPSP", [SIX, (MA, 2)], [1]),
    ("POPSP", [SIX, (MA, 5)], [1, 2, 3, 4]),
    ("ADD", [SIX, (INT, 0)], [0]),
    ("SUB", [(MA, 3), (INT, 0)], [0]),
    ("STOP", [SIX], []),
    ("JUMP 0", [SIX], []),
    ("JUMPC 0", [SIX], []),
    ("JUMPIND", [SIX, (PA, 0)], []),
    ("POPFBR", [SIX, (MA, 0)], []),
    ("WRITECH", [SIX, LETTER], []),
    ("ADDSP 0", [SIX], []),
    ("ADDSP -1", [SIX, SEVEN], []),
    ("POPSP", [SIX, (MA, 1)], []),
    ("POPSP", [SIX, SEVEN, (MA, 0)], []),
]


def single_machine(stack, dead, h):
    """This stack below cells that all hold this, and room for a record of every cell, or none."""
    cells = stack + [dead] * (CELLS - len(stack))
    registers = sam.Registers(CELLS, h, sp=len(stack), written=1)
    tags, bits = ([cell[part] for cell in cells] for part in (0, 1))
    return sam.State(bits, tags, [0] * h, bytearray(b"\x41\0\xff"), registers)


def already_written(program, state):
    """The same machine, with the cells from SP on as the step would leave them: it writes what they hold."""
    after, before = copied(state), copied(state)
    assert sam.step(program, after) == 0
    for address in range(before.registers.sp, CELLS):
        before.set_cell(address, *after.cell(address))
    return before


# ---- sessions: a program, N and the length of the output, and calls after each of which every cell is asked

SESSIONS = [
    ("PUSHIMM 40 PUSHIMMF #40200000 STOREOFF 0", 4, 0),  # the complaint
    ("PUSHIMM 3 a: PUSHIMM 1 SUB DUP JUMPC a STOP", 4, 0),
    ("JSR f STOP f: PUSHIMM 7 SWAP JUMPIND", 3, 1),
    ("PUSHIMM 1 a: DUP STOREOFF 0 JUMP a", 3, 0),  # again and again, with what it held
    ("a: ADDSP 3 SWAP ADDSP -3 JUMP a", 5, 0),
    ("a: PUSHSP PUSHIMM 3 ADD POPSP ADDSP -3 JUMP a", 4, 0),
    ("LINK PUSHIMM 5 PUSHFBR PUSHIMMCH 9 STOREIND POPFBR", 5, 0),
    ("a: PUSHIMMCH 65 WRITECH JUMP a", 3, 3),
]
SESSION_ROOMS = (0, 5, 12, 64)
SESSION_CALLS = [
    ("step",), ("step",), ("step",), ("back",), ("run", 4), ("forget", 1), ("run", 3), ("back",), ("back",),
    ("forget", 2), ("run", 20), ("forget", 3), ("step",), ("back",),
]  # fmt: skip

FILLED_SIZES = [1, 2, 9, 999, 1000]  # N, of a machine in which one step filled all cells but the last
LONG_AGO = "PUSHIMM 40 a: JUMP a"  # cell 0 is written once, and then a history fills with records of one place
