"""Saved states, to carry a session to another controller: request k of document 02."""

from .image import BitReader, Damaged, field, write_fields
from .machine import HISTORY_LIMIT, OUTPUT_LIMIT, Registers, State, sound

STATE_SIZE = 4638  # "the lent output is 4,638 bytes, rest zero, length told"

# "N 10 bits, PC 11, SP 10, FBR 10, HALT 1, output count 9, then each of the N cells as tag 3 and bits 32, then the
# written output bytes"
HEADER_WIDTHS = (10, 11, 10, 10, 1, 9)
TAG_WIDTH, BITS_WIDTH, BYTE_WIDTH = 3, 32, 8


def state_fields(state):
    r = state.registers
    for value, width in zip((r.n, r.pc, r.sp, r.fbr, r.halt, r.written), HEADER_WIDTHS):
        yield field(value, width)
    for tag, bits in zip(state.tags, state.bits):
        yield field(tag, TAG_WIDTH) + field(bits, BITS_WIDTH)
    for byte in state.output[: r.written]:
        yield field(byte, BYTE_WIDTH)


def save(program, state, image):
    """(number, length of the image), of a machine that stays as it is. "Refusals for save: 31, then 10." """
    if len(image) != STATE_SIZE:
        return 31, 0
    image[:] = bytes(STATE_SIZE)
    if not sound(program, state):
        return 10, 0
    return 0, write_fields(state_fields(state), image)


def read_state(reader):
    """The registers, the cells and the written bytes, as the image has them: 41 where it ends before all that its own N
    and output count announce."""
    n, pc, sp, fbr, halt, written = (reader.take(width) for width in HEADER_WIDTHS)
    cells = [(reader.take(TAG_WIDTH), reader.take(BITS_WIDTH)) for _ in range(n)]
    shown = bytes(reader.take(BYTE_WIDTH) for _ in range(written))
    return Registers(n=n, pc=pc, sp=sp, fbr=fbr, halt=halt, written=written), cells, shown


def fits(n, lent):
    """Not 67: "N not that of the lent cells and tags, or a lent history or output outside its range" """
    if len(lent.bits) != n or len(lent.tags) != n:
        return False
    return len(lent.history) <= HISTORY_LIMIT and len(lent.output) <= OUTPUT_LIMIT


def loaded(program, image, lent):
    """What an accepted load makes of the lent memory. U and the kept number are 0, H is the lent history's; history and
    "the output's rest" are zero."""
    reader = BitReader(image)
    registers, cells, shown = read_state(reader)
    if not fits(registers.n, lent):
        raise Damaged(67)
    tags, bits = [tag for tag, _ in cells], [word for _, word in cells]
    registers.h, size = len(lent.history), len(lent.output)
    state = State(bits, tags, [0] * registers.h, bytearray(shown[:size].ljust(size, b"\0")), registers)
    if not sound(program, state):  # "10 for the ranges of step, an output count above the lent output among them"
        raise Damaged(10)
    reader.check_end()  # 45
    return state


def load(program, state, image):
    """The number. "A refused load does as a refused reset": the registers are zero, and nothing else changes."""
    state.registers = Registers()
    try:
        made = loaded(program, image, state)
    except Damaged as damage:
        return damage.args[0]
    state.bits[:], state.tags[:], state.history[:], state.output[:] = made.bits, made.tags, made.history, made.output
    state.registers = made.registers
    return 0
