"""Machines and operands for the landing panel, request h: outputs of every size, WRITECH before each of its refusals,
cells and records with tags and characters at their ends, and what may stand behind PUSHIMMCH."""

from dataclasses import replace
from itertools import product

import sam
from machines import single, stacked
from sam.actions import CH, FLOAT, INT, MA, PA
from sam.machine import OUTPUT_LIMIT, cell_place, record_ending, step_place
from sam.table import CODES, LAST_CHARACTER, PROGRAM_LIMIT, WORD, make_place

DOUBLE_WORD = 1 << 64
LETTER = 76

# ---- operands of PUSHIMMCH

TAKEN = ["0", "127", "-0", "65", "007", "0000000127", "-0000000000"]
OUT_OF_RANGE = [
    "128", "-1", "-127", "-128", "255", "256", "383", "2147483647", "2147483648", "-2147483648", "4294967295",
    "4294967296", "9999999999",
    "00000000000", "-00000000000", "00000000065", "12345678901",  # eleven digits
]  # fmt: skip
WRONG_FORM = [
    "A", "a", "x65", "65x", "0x41", "#41", "#00000041", "#", "6.5", "65.", ".65", "65.0", "-", "--1", "6-5", "65-", "_",
    "65:", "0:", "128:", ":", "A:", "WRITECH", "12345678901x",
]  # fmt: skip
TABLE_OPERANDS = [0, 1, 64, LAST_CHARACTER]  # of a table
NO_TABLE_OPERANDS = [LAST_CHARACTER + 1, 255, 256, 1 << 31, WORD - LAST_CHARACTER, WORD - 1]


def table_of(operand):
    """A program of one PUSHIMMCH with this operand, which may be out of range."""
    return sam.Program([make_place(CODES["PUSHIMMCH"], operand)] + [0] * (PROGRAM_LIMIT - 1), 1)


# ---- outputs: bytes, and how many of them are written

SIZES = (0, 1, OUTPUT_LIMIT)
ALLOWED_OUTPUTS = [(size, written) for size in SIZES for written in sorted({0, size // 2, max(size - 1, 0), size})]
TOO_LONG = [(size, written) for size in (OUTPUT_LIMIT + 1, 1000) for written in (0, 1, OUTPUT_LIMIT, size)]
# Above the length by one, by more and by a lot; also with an allowed number in the lowest byte or word.
BROKEN_OUTPUTS = [
    (size, written)
    for size in SIZES
    for written in sorted({size + by for by in (1, 2, 256, 1000, 1 << 16, WORD, 1 << 63)} | {DOUBLE_WORD - 1})
]


def filled(size):
    """Bytes of every kind, zeros and characters among them: what they are is not judged."""
    return bytes((97 + 59 * i) % 256 for i in range(size))


# ---- WRITECH: what it would pop, its output, and H with U

VALUES = [(CH, 0), (CH, LETTER), (CH, LAST_CHARACTER), (INT, LETTER), (FLOAT, LETTER), (MA, 0), (PA, 0)]
HISTORIES = [(0, 0), (1, 0), (1, 1), (8, 0), (8, 7), (8, 8)]
ORDER = (1, 3, 4, 12, 8)  # "12 [...] after 7 and before 8"; it lowers SP, so it meets no 7


def history_of(h, used):
    """Records of one place as far as it is used, of steps at the program's second place."""
    return [step_place(1, 0, 0, 0)] * used + [0] * (h - used)


def writing_machine(value, sp, output, history, **registers):
    """At a WRITECH, with this value live (SP 1) or dead (SP 0)."""
    (size, written), (h, used) = output, history
    state = stacked(value, h=h, output=filled(size), written=written)
    state.history[:] = history_of(h, used)
    state.registers = replace(state.registers, sp=sp, used=used, kept=used, **registers)
    return state


def writing_machines():
    for value, sp, output, history, halt in product(VALUES, (0, 1), ALLOWED_OUTPUTS, HISTORIES, (0, 1)):
        yield writing_machine(value, sp, output, history, halt=halt)


def holds_writing(program, pc):
    return pc < min(program.length, len(program.table)) and program.table[pc] >> 32 == CODES["WRITECH"]


def is_before_writing(program, state):
    """Whether PC is at a WRITECH, in a state that may be broken."""
    r = state.registers
    return r.sp <= len(state.tags) and holds_writing(program, r.pc)


def refusals_met(state):
    """Every number of ORDER that a WRITECH would be given if the others were not."""
    r = state.registers
    top_tag = state.tags[r.sp - 1] if r.sp else CH
    met = {
        1: r.halt == 1,
        3: r.sp == 0,
        4: top_tag != CH,
        12: r.written == len(state.output),
        8: r.h > 0 and r.used == r.h,
    }
    return tuple(number for number in ORDER if met[number])


# ---- cells, live and dead, and restored ones

ALLOWED_CELLS = [(CH, 0), (CH, LETTER), (CH, LAST_CHARACTER)]
BROKEN_CELLS = [
    *[(tag, bits) for tag in (CH + 1, 6, 7, 8, 128, 255) for bits in (0, LETTER)],
    *[(CH, bits) for bits in (LAST_CHARACTER + 1, 255, 256, 256 + LETTER, WORD >> 1, WORD - 1)],
]
RESTORED_TAGS = 8  # a place has three bits for a tag
BROKEN_RESTORED = [cell for cell in BROKEN_CELLS if cell[0] < RESTORED_TAGS]


def only_odd_cell(state):
    """(Whether it is live, cell) of the one cell that has a CH or a higher tag, or nothing where there are more."""
    odd = [address for address, tag in enumerate(state.tags[: len(state.bits)]) if tag >= CH]
    return [(address < state.registers.sp, state.cell(address)) for address in odd] if len(odd) == 1 else []


def cell_machine(cell, is_live, halt):
    """This cell as the only value, or above an INT that is."""
    state = stacked(cell) if is_live else stacked((INT, 40))
    if not is_live:
        state.set_cell(1, *cell)
    state.registers.halt = halt
    return state


# ---- records made by hand, of a step at a WRITECH (PC 0) or at a STOP (PC 1)

WRITER = single("WRITECH")
WORD_WRITER = single("PUSHIMMCH 72 WRITECH PUSHIMMCH 0 WRITECH PUSHIMMCH 127 WRITECH")
LATE_WRITER = single("JUMP 1 WRITECH")  # the same step places name other instructions
RECORD_SPACE = 8


def record_machine(pc, cells, output, old_sp=1):
    """A machine whose only record is of a step at this PC that wrote these cells, as (address, tag, bits)."""
    size, written = output
    state = stacked((INT, 40), (CH, LETTER), h=RECORD_SPACE, output=filled(size), written=written)
    record = [cell_place(*cell) for cell in cells] + [step_place(pc, old_sp, 0, len(cells))]
    state.history[: len(record)] = record
    state.registers = replace(state.registers, pc=1, used=len(record), kept=1)
    return state


RECORDED_CELLS = [
    [],
    [(0, CH, LETTER)],
    [(1, FLOAT, 0x40200000)],
    [(0, INT, 7), (2, CH, LAST_CHARACTER)],
]


def record_machines():
    """With cells and without, with each output, at a WRITECH and at another instruction."""
    for pc, cells, output in product((0, 1), RECORDED_CELLS, [*ALLOWED_OUTPUTS, *TOO_LONG, *BROKEN_OUTPUTS]):
        yield record_machine(pc, cells, output)


def restoring_machines():
    """One cell of every kind restored, by a WRITECH and by another instruction."""
    for pc, cell in product((0, 1), [*ALLOWED_CELLS, *BROKEN_RESTORED]):
        yield record_machine(pc, [(1, *cell)], (2, 1))


def flipped_machines():
    """(Place of the record, bit, machine): each bit of a cell place (0) and of a step place (1) that is another."""
    for place, bit in product((0, 1), range(64)):
        state = record_machine(0, [(1, INT, 40)], (2, 1))
        state.history[place] ^= 1 << bit
        yield place, bit, state


# The mark, and the zeros: 18 of a cell place, 22 of a step place.
JUDGED_BITS = [(place, bit) for place, zeros in ((0, 18), (1, 22)) for bit in (*range(zeros), 63)]


def restored_by(program, state):
    """(Whether at a WRITECH, the cells restored, the written count) of the top record, if there is one."""
    r = state.registers
    record = record_ending(state.history, r.used) if 0 < r.used <= len(state.history) else None
    if record is None:
        return []
    cells = tuple((tag, bits) for _, tag, bits in record.cells)
    return [(holds_writing(program, record.pc), cells, r.written)]


# ---- sources that show something, for the console

SHOWN = {
    "a word": "PUSHIMMCH 72 WRITECH PUSHIMMCH 73 WRITECH STOP",
    "every character": "".join(f"PUSHIMMCH {code} WRITECH\n" for code in range(LAST_CHARACTER + 1)) + "STOP",
    "characters left": "PUSHIMMCH 0 PUSHIMMCH 127 PUSHIMMCH 10 WRITECH STOP",
    "nothing": "PUSHIMMCH 65 PUSHIMM 65 STOP",
    "a full output": "PUSHIMMCH 65 a: DUP WRITECH JUMP a",
    "just full": "PUSHIMM 256 a: PUSHIMMCH 7 WRITECH PUSHIMM 1 SUB DUP JUMPC a STOP",
    "then no end": "PUSHIMMCH 65 WRITECH a: JUMP a",
    "then the end": "PUSHIMMCH 65 WRITECH",
    "then no value": "PUSHIMMCH 65 WRITECH WRITECH STOP",
    "then another tag": "PUSHIMMCH 65 WRITECH PUSHIMM 65 WRITECH",
}
