"""What the console programs print: for a source, document 01, after "Small examples", and requests a and h of document
02; for a formula, request m."""

from .actions import FLOAT
from .formula import translate
from .machine import Program, State, reset, run
from .table import PROGRAM_LIMIT, signed
from .text import TEXT_SIZE, assemble, list_program

CELLS = 1000
OUTPUT_SIZE = 256  # "The console lends 256 bytes"
LIMIT = 100000
TAG_NAMES = ("INT", "FLOAT", "MA", "PA", "CH")


def cell_line(address, tag, bits):
    """ "each live cell as place, tag, number (INT and MA signed; FLOAT as # and eight hex digits in capitals)",
    and "a live CH as a number" """
    number = f"#{bits:08X}" if tag == FLOAT else str(signed(bits))
    return f"{address} {TAG_NAMES[tag]} {number}\n"


def output_lines(output):
    """ "if output was written, ends with a line `out`, each byte as a space and two hex capitals" """
    return ["out" + "".join(f" {byte:02X}" for byte in output) + "\n"] if output else []


def console(source):
    table = [0] * PROGRAM_LIMIT
    number, length, place, line, column = assemble(source, table)
    if number:  # "The console's refused line gains line and column after the place."
        return f"refused {number} {place} {line} {column}\n"
    program = Program(table, length)
    state = State(bits=[0] * CELLS, tags=[0] * CELLS, history=[], output=bytearray(OUTPUT_SIZE))
    reset(program, state)
    number, steps = run(program, state, LIMIT)
    r = state.registers
    lines = [f"end {number} steps {steps}\n", f"PC {r.pc} SP {r.sp} FBR {r.fbr}\n"]
    lines += [cell_line(address, *state.cell(address)) for address in range(r.sp)]
    lines += output_lines(state.output[: r.written])
    return "".join(lines)


# ---- a formula

REFUSED_FORMULAS = {
    21: "more than 65,536 bytes",
    28: "more than 1,024 instructions",
    70: "forbidden byte",
    71: "the formula cannot go on or end here",
    72: "number too large",
    73: "nested too deep",
}


def pushed_cells(source):
    """A machine that has run a source which pushes what a to h hold."""
    table = [0] * PROGRAM_LIMIT
    number, length, *_ = assemble(source, table)
    assert number == 0
    state = State(bits=[0] * CELLS, tags=[0] * CELLS, history=[])
    reset(Program(table, length), state)
    assert run(Program(table, length), state, LIMIT)[0] == 0
    return state


def last_line(program, state):
    """The number that the program of a formula leaves on top of such a machine."""
    state.registers.pc = state.registers.halt = 0
    number, _ = run(program, state, LIMIT)
    if number == 5:
        return "end 5: the formula divides by zero\n"
    assert number == 0
    return f"number {signed(state.bits[state.registers.sp - 1])}\n"


def formula_console(given):
    """The first line is a source that pushes eight INTs and stops; all bytes behind its LF are the formula."""
    source, _, formula = given.partition(b"\n")
    table = [0] * PROGRAM_LIMIT
    number, length, depth = translate(formula, table)
    if number:
        return f"refused {number}: {REFUSED_FORMULAS[number]}\n"
    listing = bytearray(TEXT_SIZE)
    _, size = list_program(table, length, listing)
    return listing[:size].decode("ascii") + f"depth {depth}\n" + last_line(Program(table, length), pushed_cells(source))
