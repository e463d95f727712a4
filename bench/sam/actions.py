"""What each instruction does: document 01, "Instructions", and requests b, d, e and h of document 02.

An action works on a Move: it takes values off, puts results on, and notes the cells and the character that it would
write. Nothing of the machine changes until the whole step is accepted, so an action may refuse at any point.
"""

from . import floats
from .table import NAMES, WORD, signed

# "Tags: INT 0, FLOAT 1, MA (memory address) 2, PA (program address) 3."; "tag CH (4)"
INT, FLOAT, MA, PA, CH = range(5)
ANY = (INT, FLOAT, MA, PA, CH)


class Refusal(Exception):
    """A refusal of the machine: its number."""


class Move:
    """One step in the making: the new registers, the cells written as (address, tag, bits), and the characters
    appended to the output, of which there is at most one."""

    def __init__(self, state, operand):
        old = state.registers
        self.state = state
        self.operand = operand
        self.old_pc = old.pc
        self.pc, self.sp, self.fbr, self.halt = old.pc + 1, old.sp, old.fbr, old.halt
        self.writes = []
        self.appended = []

    def pop(self, *takes):
        """Takes one value off for each entry, which has the tags that it may have; the last is Vt.
        3 where there are too few, then 4."""
        low = self.sp - len(takes)
        if low < 0:
            raise Refusal(3)
        cells = self.state.cells(low, self.sp)
        for (tag, _), tags in zip(cells, takes):
            if tag not in tags:
                raise Refusal(4)
        self.sp = low
        return cells

    def push(self, tag, bits):
        self.write(self.sp, tag, bits)
        self.sp += 1

    def write(self, address, tag, bits):
        self.writes.append((address, tag, bits % WORD))

    def fill_to(self, new_sp):
        """ "writes INT 0 in each cell from the SP after popping to just below the new SP" """
        for address in range(self.sp, new_sp):
            self.write(address, INT, 0)
        self.sp = new_sp


def check_address(address, limit):
    if not 0 <= address < limit:
        raise Refusal(6)
    return address


def check_moved_address(exact):
    """ "refused when the exact result [...] is not within -2^31 to 2^31-1"; "6 now covers this case" """
    if not -(2**31) <= exact <= 2**31 - 1:
        raise Refusal(6)
    return exact


# ---- results of values


def integer_result(operation):
    """Vb op Vt on INTs, the result INT and "modulo 2^32"."""

    def action(move):
        (_, below), (_, top) = move.pop((INT,), (INT,))
        move.push(INT, operation(signed(below), signed(top)))

    return action


def integer_test(operation):
    """A test of one INT."""

    def action(move):
        ((_, top),) = move.pop((INT,))
        move.push(INT, operation(signed(top)))

    return action


def sum_result(operation):
    """ "ADD and SUB also take Vb MA with Vt INT and give MA." "Two INTs still wrap." """

    def action(move):
        (tag, below), (_, top) = move.pop((INT, MA), (INT,))
        exact = operation(signed(below), signed(top))
        move.push(tag, check_moved_address(exact) if tag == MA else exact)

    return action


def float_result(operation):
    def action(move):
        (_, below), (_, top) = move.pop((FLOAT,), (FLOAT,))
        move.push(FLOAT, operation(below, top))

    return action


def divide(dividend, divisor):
    """ "DIV rounds toward zero" """
    if divisor == 0:
        raise Refusal(5)
    quotient = abs(dividend) // abs(divisor)
    return quotient if (dividend < 0) == (divisor < 0) else -quotient


def remainder(dividend, divisor):
    """ "MOD has the dividend's sign" """
    return dividend - divisor * divide(dividend, divisor)


def compare(below, top):
    """ "1 if Vb < Vt, 0 if equal, -1 if Vb > Vt" """
    return (below < top) - (below > top)


def compare_floats(move):
    (_, below), (_, top) = move.pop((FLOAT,), (FLOAT,))
    if floats.is_nan(below) or floats.is_nan(top):
        raise Refusal(5)
    move.push(INT, floats.compare(below, top))


def cells_equal(below, top):
    """Two FLOATs by request b; otherwise "1 if tags and all 32 bits agree"."""
    (below_tag, below_bits), (top_tag, top_bits) = below, top
    if below_tag == FLOAT and top_tag == FLOAT:
        return floats.equal(below_bits, top_bits)
    return below == top


def equal(move):
    """ "EQUAL of two FLOATs shall follow IEEE 754 comparison: both zeros equal, a NaN equal to nothing. [...] Other
    tags stay, and unlike tags still give 0." """
    move.push(INT, cells_equal(*move.pop(ANY, ANY)))


def is_nil(move):
    """ "ISNIL of a FLOAT is 1 for both zeros. Other tags stay": "1 if all bits are zero"."""
    ((tag, top),) = move.pop(ANY)
    move.push(INT, floats.is_zero(top) if tag == FLOAT else top == 0)


def integer_to_float(move):
    """ "ITOF (code 50) rounds an INT the same way" as a decimal."""
    ((_, top),) = move.pop((INT,))
    move.push(FLOAT, floats.of_integer(signed(top)))


def float_to_integer(move):
    """ "FTOI (code 51) cuts toward zero." "5 also for FTOI of a NaN or a result outside INT" """
    ((_, top),) = move.pop((FLOAT,))
    if floats.is_nan(top) or floats.is_infinite(top):
        raise Refusal(5)
    whole = floats.cut(top)
    if not -(2**31) <= whole <= 2**31 - 1:
        raise Refusal(5)
    move.push(INT, whole)


# ---- the stack and the registers


def push_integer(move):
    move.push(INT, move.operand)


def push_pattern(move):
    move.push(FLOAT, move.operand)


def push_program_address(move):
    move.push(PA, move.operand)


def push_character(move):
    move.push(CH, move.operand)


def duplicate(move):
    """ "DUP 1 (the copy)": the value below the copy is not written."""
    ((tag, bits),) = move.pop(ANY)
    move.sp += 1
    move.push(tag, bits)


def swap(move):
    below, top = move.pop(ANY, ANY)
    move.push(*top)
    move.push(*below)


def push_sp(move):
    move.push(MA, move.sp)


def push_fbr(move):
    move.push(MA, move.fbr)


def link(move):
    """ "LINK then sets FBR to the old SP." """
    old_sp = move.sp
    move.push(MA, move.fbr)
    move.fbr = old_sp


def pop_fbr(move):
    """ "POPSP and POPFBR take an MA in 0..N-1." """
    ((_, bits),) = move.pop((MA,))
    move.fbr = check_address(signed(bits), move.state.registers.n)


def pop_sp(move):
    ((_, bits),) = move.pop((MA,))
    move.fill_to(check_address(signed(bits), move.state.registers.n))


def add_sp(move):
    new_sp = move.sp + signed(move.operand)
    if new_sp < 0:  # "ADDSP below 0"
        raise Refusal(3)
    move.fill_to(new_sp)


# ---- memory


def push_indirect(move):
    """ "PUSHIND takes an MA at least 0 and below SP-1" """
    ((_, bits),) = move.pop((MA,))
    address = check_address(signed(bits), move.sp)  # SP-1 before the pop is SP after it
    move.push(*move.state.cell(address))


def store_indirect(move):
    """ "STOREIND stores Vt at the MA in Vb, at least 0 and below SP-2" """
    (_, bits), (tag, value) = move.pop((MA,), ANY)
    move.write(check_address(signed(bits), move.sp), tag, value)


def push_offset(move):
    """ "PUSHOFF needs 0 <= FBR+n < SP" """
    address = check_address(move.fbr + signed(move.operand), move.sp)
    move.push(*move.state.cell(address))


def store_offset(move):
    """ "STOREOFF 0 <= FBR+n < SP-1" """
    ((tag, bits),) = move.pop(ANY)
    move.write(check_address(move.fbr + signed(move.operand), move.sp), tag, bits)


# ---- the output


def write_character(move):
    """ "pops a CH and appends it to a lent output"; "WRITECH writes no cell" """
    ((_, character),) = move.pop((CH,))
    move.appended.append(character)


# ---- control


def stop(move):
    """ "STOP sets HALT and leaves PC." """
    move.halt = 1
    move.pc = move.old_pc


def jump(move):
    move.pc = move.operand


def jump_if(move):
    """ "Nonzero is true." """
    ((_, top),) = move.pop((INT,))
    if top:
        move.pc = move.operand


def jump_indirect(move):
    ((_, address),) = move.pop((PA,))
    move.pc = address


def call(move):
    """ "JSR and JSRIND push PA PC+1" """
    move.push(PA, move.old_pc + 1)
    move.pc = move.operand


def call_indirect(move):
    """ "JSRIND pops its PA first (004 forgets)." """
    ((_, address),) = move.pop((PA,))
    move.push(PA, move.old_pc + 1)
    move.pc = address


ACTION_BY_NAME = {
    "STOP": stop,
    "PUSHIMM": push_integer,
    "PUSHIMMF": push_pattern,
    "DUP": duplicate,
    "SWAP": swap,
    "ADD": sum_result(lambda below, top: below + top),
    "SUB": sum_result(lambda below, top: below - top),
    "TIMES": integer_result(lambda below, top: below * top),
    "DIV": integer_result(divide),
    "MOD": integer_result(remainder),
    "ADDF": float_result(floats.add),
    "SUBF": float_result(floats.subtract),
    "TIMESF": float_result(floats.multiply),
    "DIVF": float_result(floats.divide),
    "AND": integer_result(lambda below, top: below != 0 and top != 0),
    "OR": integer_result(lambda below, top: below != 0 or top != 0),
    "NAND": integer_result(lambda below, top: not (below != 0 and top != 0)),
    "NOR": integer_result(lambda below, top: not (below != 0 or top != 0)),
    "XOR": integer_result(lambda below, top: (below != 0) != (top != 0)),
    "NOT": integer_test(lambda top: top == 0),
    "BITAND": integer_result(lambda below, top: below & top),
    "BITOR": integer_result(lambda below, top: below | top),
    "BITNAND": integer_result(lambda below, top: ~(below & top)),  # "BITAND then BITNOT"
    "BITNOR": integer_result(lambda below, top: ~(below | top)),
    "BITXOR": integer_result(lambda below, top: below ^ top),
    "BITNOT": integer_test(lambda top: ~top),
    "CMP": integer_result(compare),
    "CMPF": compare_floats,
    "GREATER": integer_result(lambda below, top: below > top),
    "LESS": integer_result(lambda below, top: below < top),
    "EQUAL": equal,
    "ISNIL": is_nil,
    "ISPOS": integer_test(lambda top: top > 0),
    "ISNEG": integer_test(lambda top: top < 0),
    "PUSHSP": push_sp,
    "POPSP": pop_sp,
    "PUSHFBR": push_fbr,
    "POPFBR": pop_fbr,
    "LINK": link,
    "ADDSP": add_sp,
    "PUSHIND": push_indirect,
    "STOREIND": store_indirect,
    "PUSHOFF": push_offset,
    "STOREOFF": store_offset,
    "JUMP": jump,
    "JUMPC": jump_if,
    "JUMPIND": jump_indirect,
    "JSR": call,
    "JSRIND": call_indirect,
    "PUSHIMMPA": push_program_address,
    "ITOF": integer_to_float,
    "FTOI": float_to_integer,
    "PUSHIMMCH": push_character,
    "WRITECH": write_character,
}

ACTIONS = [ACTION_BY_NAME[name] for name in NAMES]
