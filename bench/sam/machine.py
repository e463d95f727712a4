"""Reset, step, step-back, run and forget: document 01, "Numbers given back" and "History places", and requests g, h and
i of document 02."""

from dataclasses import dataclass, field, replace

from .actions import ACTIONS, CH, INT, PA, Move, Refusal
from .table import CODES, LAST_CHARACTER, WORD, table_sound

CELL_LIMIT = 1000  # "N cells, 1 to 1,000"
HISTORY_LIMIT = 8192  # "History of H places, 0 to 8,192"
OUTPUT_LIMIT = 256  # "a lent output of 0 to 256 bytes"
RUN_LIMIT = 1000000  # "Run limit 0 to 1,000,000"


@dataclass
class Registers:
    n: int = 0
    h: int = 0
    pc: int = 0
    sp: int = 0
    fbr: int = 0
    halt: int = 0
    used: int = 0
    kept: int = 0  # how many steps can be taken back
    written: int = 0  # bytes of the output in use


@dataclass
class Program:
    table: list
    length: int


@dataclass
class State:
    """A machine: its registers and what is lent to it, an output of 0 bytes where no other is. Calls change it in
    place."""

    bits: list
    tags: list
    history: list
    output: bytearray = field(default_factory=bytearray)
    registers: Registers = field(default_factory=Registers)

    def cell(self, address):
        return self.tags[address], self.bits[address]

    def cells(self, low, high):
        return [self.cell(address) for address in range(low, high)]

    def set_cell(self, address, tag, bits):
        self.tags[address], self.bits[address] = tag, bits


def sizes_allowed(n, h, output_size):
    return 1 <= n <= CELL_LIMIT and 0 <= h <= HISTORY_LIMIT and output_size <= OUTPUT_LIMIT


# ---- 10


def registers_sound(registers, length):
    """ "SP or FBR not below N; PC above length; HALT not 0 or 1; U above H" """
    r = registers
    return r.sp < r.n and r.fbr < r.n and r.pc <= length and r.halt in (0, 1) and r.used <= r.h


def kept_sound(registers):
    """Request g: "10 also when the kept number is above U, or is 0 with U above 0" """
    used, kept = registers.used, registers.kept
    return kept <= used and not (kept == 0 and used > 0)


def slices_sound(state):
    """ "a kept N or H outside "Sizes", or a lent slice not of its N or H"; request h: "10 elsewhere, for an output
    above 256", whose length is kept nowhere"""
    n, h = state.registers.n, state.registers.h
    if not sizes_allowed(n, h, len(state.output)):
        return False
    return len(state.bits) == n and len(state.tags) == n and len(state.history) == h


def written_sound(state):
    """Request h: "10 for a used count above its length"; what the bytes are is not judged."""
    return state.registers.written <= len(state.output)


def cell_sound(tag, bits, length):
    """ "a PA cell above length"; request h: "a cell's or restored tag above 4 or CH above 127" """
    if tag == PA:
        return bits <= length
    if tag == CH:
        return bits <= LAST_CHARACTER
    return tag < CH


def sound(program, state):
    """Not 10: the table, then the state, of which all N cells are read and no history."""
    return (
        table_sound(program.table, program.length)
        and slices_sound(state)
        and registers_sound(state.registers, program.length)
        and kept_sound(state.registers)
        and written_sound(state)
        and all(cell_sound(tag, bits, program.length) for tag, bits in zip(state.tags, state.bits))
    )


# ---- history places: "Fields are packed most significant bit first into 64 bits."


def cell_place(address, tag, bits):
    """ "0, address 10, old tag 2, old bits 32, 19 zeros"; request h: the tag "becomes 3 bits and its zeros 18" """
    return address << 53 | tag << 50 | bits << 18


def step_place(pc, sp, fbr, written):
    """ "1, old PC 11, old SP 10, old FBR 10, cells written 10, 22 zeros" """
    return 1 << 63 | pc << 52 | sp << 42 | fbr << 32 | written << 22


def split_cell_place(place):
    return place >> 53 & 0x3FF, place >> 50 & 7, place >> 18 & 0xFFFFFFFF


def split_step_place(place):
    return place >> 52 & 0x7FF, place >> 42 & 0x3FF, place >> 32 & 0x3FF, place >> 22 & 0x3FF


@dataclass
class Record:
    """What one step wrote to the history."""

    start: int  # its lowest place
    pc: int
    sp: int
    fbr: int
    cells: list  # (address, old tag, old bits)


def record_ending(history, end):
    """The record whose step place is the last below this end, or nothing where its marks and zeros are wrong or it does
    not lie within the places below."""
    last = history[end - 1]
    pc, sp, fbr, written = split_step_place(last)
    if last != step_place(pc, sp, fbr, written) or written + 1 > end:
        return None
    start = end - 1 - written
    places = history[start : end - 1]
    cells = [split_cell_place(place) for place in places]
    if any(place != cell_place(*cell) for place, cell in zip(places, cells)):
        return None
    return Record(start, pc, sp, fbr, cells)


def fields_sound(record, n, length):
    """ "old PC below length, SP, FBR and addresses below N, addresses rising strictly, restored PAs at most length";
    request h: no "restored tag above 4 or CH above 127" """
    addresses = [address for address, _, _ in record.cells]
    return (
        record.pc < length
        and record.sp < n
        and record.fbr < n
        and all(address < n for address in addresses)
        and all(low < high for low, high in zip(addresses, addresses[1:]))
        and all(cell_sound(tag, bits, length) for _, tag, bits in record.cells)
    )


def well_formed_record(program, state, end):
    """The record that ends there, or nothing where it is ill-formed: of the top one a step-back asks it, of every used
    one a forget and a why."""
    record = record_ending(state.history, end)
    is_formed = record is not None and fields_sound(record, state.registers.n, program.length)
    return record if is_formed else None


def used_records(program, state):
    """The records in use, the newest first, or nothing where one is ill-formed. Each lies below the one above it, down
    to place 0: what is left there and is no record is an ill-formed one."""
    records, end = [], state.registers.used
    while end > 0:
        record = well_formed_record(program, state, end)
        if record is None:
            return None
        records.append(record)
        end = record.start
    return records


def kept_records(program, state):
    """The records of the kept steps, the newest first, or nothing where it is 10 by request i: "10 first, also when any
    used record is ill-formed or the kept number differs from the records in use". Whether something is written is a
    step-back's question alone."""
    records = used_records(program, state) if sound(program, state) else None
    return records if records is not None and len(records) == state.registers.kept else None


def is_of_writing(record, program):
    """Whether the instruction at its old PC, in the program as it is handed now, is a WRITECH."""
    return program.table[record.pc] >> 32 == CODES["WRITECH"]


# ---- the calls


def reset(program, state):
    """The number; the registers are zero where it is a refusal. "Reset: 11 before 10." """
    state.registers = Registers()
    n, h = len(state.bits), len(state.history)
    if not sizes_allowed(n, h, len(state.output)) or len(state.tags) != n:
        return 11
    if not table_sound(program.table, program.length):
        return 10
    state.bits[:] = [0] * n
    state.tags[:] = [INT] * n
    state.history[:] = [0] * h
    state.output[:] = bytes(len(state.output))  # "Reset zeroes that output and its used count."
    state.registers = Registers(n=n, h=h)
    return 0


def decide(program, state):
    """1 to 7 in order, then 12, or the move that the step makes."""
    registers = state.registers
    if registers.halt:
        raise Refusal(1)
    if registers.pc == program.length:
        raise Refusal(2)
    place = program.table[registers.pc]
    move = Move(state, place % WORD)
    ACTIONS[place >> 32](move)
    if move.sp >= registers.n:
        raise Refusal(7)
    if registers.written + len(move.appended) > len(state.output):  # "12 when the output is full"
        raise Refusal(12)
    return move


def record_of(move, state):
    """The places a step adds: "its cell places by rising address, then its step place"."""
    old = state.registers
    addresses = sorted(address for address, _, _ in move.writes)
    places = [cell_place(address, *state.cell(address)) for address in addresses]
    return places + [step_place(old.pc, old.sp, old.fbr, len(addresses))]


def plain_step(program, state):
    """A step of a sound state: 1 to 7 in order, 12, 8."""
    try:
        move = decide(program, state)
    except Refusal as refusal:
        return refusal.args[0]
    registers = state.registers
    used, kept = registers.used, registers.kept
    if registers.h > 0:
        if registers.h - used < len(move.writes) + 1:
            return 8
        record = record_of(move, state)
        state.history[used : used + len(record)] = record
        used += len(record)
        kept += 1
    for write in move.writes:
        state.set_cell(*write)
    written = registers.written + len(move.appended)
    state.output[registers.written : written] = bytes(move.appended)
    made = replace(registers, pc=move.pc, sp=move.sp, fbr=move.fbr, halt=move.halt)
    state.registers = replace(made, used=used, kept=kept, written=written)
    return 0


def step(program, state):
    """ "Step: 10, then 1 to 8 in order.", with 12 "after 7 and before 8" """
    return plain_step(program, state) if sound(program, state) else 10


def run(program, state, limit):
    """(number, steps made). "Run: 11, then 10." Accepted steps keep a sound state sound, so 10 is judged once."""
    if limit > RUN_LIMIT:
        return 11, 0
    if not sound(program, state):
        return 10, 0
    steps = 0
    while not state.registers.halt:
        if steps == limit:
            return 50, steps
        number = plain_step(program, state)
        if number:
            return number, steps
        steps += 1
    return 0, steps


def step_back(program, state):
    """ "Step-back: 10, then 9." In a sound state with U above 0 the kept number is above 0, and is lowered whatever it
    was: it is not held to the history. So is the used count, at a WRITECH."""
    if not sound(program, state):
        return 10
    registers = state.registers
    if registers.used == 0:
        return 9
    record = well_formed_record(program, state, registers.used)
    if record is None:
        return 10
    written = registers.written
    if is_of_writing(record, program):
        if written == 0:  # "a top record at a WRITECH with nothing written"
            return 10
        written -= 1
        state.output[written] = 0  # "its step-back drops and zeroes the last byte"
    for cell in record.cells:
        state.set_cell(*cell)
    state.history[record.start : registers.used] = [0] * (len(record.cells) + 1)
    back = replace(registers, pc=record.pc, sp=record.sp, fbr=record.fbr, halt=0)
    state.registers = replace(back, used=record.start, kept=registers.kept - 1, written=written)
    return 0


def forget(program, state, k):
    """Request i: "10 first [...] then 14 when k is above the kept number" """
    records, registers = kept_records(program, state), state.registers
    if records is None:
        return 10
    if k > registers.kept:
        return 14
    staying = records[: registers.kept - k]
    gained = staying[-1].start if staying else registers.used  # the places of the k oldest
    rest = state.history[gained : registers.used]
    state.history[: registers.used] = rest + [0] * gained  # "moves the rest down, and zeroes the room gained"
    state.registers = replace(registers, used=len(rest), kept=len(staying))
    return 0
