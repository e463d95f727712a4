"""Why a cell holds what it holds: request l of document 02."""

from .machine import kept_records

NOTHING_TOLD = (0,) * 6  # "a refusal tells zeros", and so it is where "no kept step wrote the cell"


def step_that_wrote(records, cell):
    """ "the newest kept step which wrote it": (how many steps back, PC, old tag, old bits), or nothing. "An unchanged
    cell that is written counts." """
    for steps_back, record in enumerate(records, start=1):  # "newest 1"
        for address, tag, bits in record.cells:
            if address == cell:
                return steps_back, record.pc, tag, bits
    return None


def why(program, state, cell):
    """(number, found, steps back, PC, the table's place there, old tag, old bits), of a machine that stays as it is.
    "Refusals: 10 as in i), then 6 for a cell not below N" """
    records = kept_records(program, state)
    if records is None:
        return 10, *NOTHING_TOLD
    if cell >= state.registers.n:
        return 6, *NOTHING_TOLD
    named = step_that_wrote(records, cell)
    if named is None:
        return 0, *NOTHING_TOLD
    steps_back, pc, tag, bits = named
    return 0, 1, steps_back, pc, program.table[pc], tag, bits
