"""Small machines made by hand: one instruction, and a few values on the stack."""

from dataclasses import replace

import sam
from sam.actions import INT
from sam.table import PROGRAM_LIMIT

OUTPUT = b"\x41\xa5\x00\xff"  # one byte written, then any bytes


def single(instruction):
    """The program of this instruction alone, and a STOP."""
    table = [0] * PROGRAM_LIMIT
    number, length, *_ = sam.assemble((instruction + " STOP").encode(), table)
    assert number == 0
    return sam.Program(table, length)


def stacked(*cells, h=2, output=OUTPUT, written=1):
    """These (tag, bits) on the stack, with room to record one result or with other room, and with this output."""
    tags, bits = map(list, zip(*cells, (INT, 0)))
    registers = sam.Registers(n=len(bits), h=h, sp=len(cells), written=written)
    return sam.State(bits, tags, [0] * h, bytearray(output), registers)


def halted(cell, h=0, **registers):
    """This (tag, bits) as the only value of a machine with HALT 1, or with other registers."""
    state = stacked(cell, h=h)
    state.registers = replace(state.registers, **{"halt": 1, **registers})
    return state


def copied(state):
    return sam.State(
        list(state.bits), list(state.tags), list(state.history), bytearray(state.output), replace(state.registers)
    )
