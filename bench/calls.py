"""The calls of include/sam.h as sam/ answers them, beside the driver's lines that make them.

A Script collects the lines and, for each line that makes a call, the answer line that the driver must print.
"""

from collections import Counter, defaultdict
from dataclasses import replace
from itertools import groupby

import sam
from decimals import WELL_FORMED, marks
from machines import copied
from panel import is_before_writing, only_odd_cell, refusals_met, restored_by
from sam.table import NAMES
from sam.text import read_token, tokens
from whys import how_written, where_asked, writers

MARK = 0xA5  # the byte that lent memory holds before a call
PLACES = 1024
TEXT_BYTES = 20480
IMAGE_BYTES = 4866
STATE_BYTES = 4638
ASSEMBLE_TOLD = 4  # values that assemble tells: length, place, line, column
TRANSLATE_TOLD = 2  # values that translate tells: length, depth
WHY_TOLD = 6  # values that why tells: found, steps back, PC, the table's place, old tag, old bits
# The calls that write an output: its length, and that of told.
WRITERS = {
    "assemble": (PLACES, ASSEMBLE_TOLD),
    "translate": (PLACES, TRANSLATE_TOLD),
    "unpack": (PLACES, 1),
    "list": (TEXT_BYTES, 1),
    "pack": (IMAGE_BYTES, 1),
    "save": (STATE_BYTES, 1),
    "plain_unpack": (PLACES, 1),
    "plain_pack": (IMAGE_BYTES, 1),
}
COUNTED_REFUSALS = (5, 6, 12)  # of a step or a run, of which the instruction is counted


def marked(count, width):
    """Lent memory that nothing was written to."""
    return [int.from_bytes(bytes([MARK] * width), "big")] * count


def list_word(values):
    """A list as one word of a line: items `value` or `value*count`, a comma between; `-` for none."""
    items = []
    for value, group in groupby(values):
        count = len(list(group))
        items.append(f"{value}*{count}" if count > 1 else str(value))
    return ",".join(items) or "-"


class SaidList:
    """A list that is said again and again: its word is made anew only where it is another than before."""

    def __init__(self):
        self.values, self.said = None, None

    def word(self, values):
        if self.values != values:
            self.values, self.said = values[:], list_word(values)
        return self.said


def bytes_word(data):
    return bytes(data).hex() or "-"


def output_word(data):
    """Bytes up to the last that is not zero, then `+` and the count of zeros behind them."""
    kept = bytes(data).rstrip(b"\0")
    return f"{kept.hex()}+{len(data) - len(kept)}"


def operands_of(source, name):
    """What stands behind this name in a source that was assembled."""
    words = [token.body.decode() for token in tokens(source)]
    return [word for before, word in zip(words, words[1:]) if before == name]


def refused_operand(source, place, name):
    """What stands at this place of a source, where the name stands before it."""
    if not source[:place].rstrip().endswith(name.encode()):
        return []
    return [source[place : read_token(source, place).end].decode()]


class Script:
    def __init__(self):
        self.lines = []  # (line, the answer or None)
        self.table = SaidList()
        self.numbers = Counter()  # of each call's answers
        self.calls = Counter()
        self.fault_lines = Counter()  # (number, line) of assemble; 2 stands for every later line
        self.tests = Counter()  # (word, name, cells, number) of each instruction of TESTED (cases.py) made alone
        self.character_steps = Counter()  # (word, name, number) of each instruction made alone on characters alone
        self.refused_steps = Counter()  # (word, name, number, whether there is a history) of each 5, 6 and 12
        self.codes = Counter()  # (word, code, number) of each image of one instruction
        self.decimals = Counter()  # marks of those assembled, and (number, operand) of PUSHIMMF's refused
        self.characters = Counter()  # (number, operand) of PUSHIMMCH, assembled (0) and refused
        self.packed_characters = Counter()  # (word, operand of PUSHIMMCH, number) of each table or image of one
        self.dwells = Counter()  # (HALT, whether SP is above 0, cell 0, number, tenths) of each dwell
        self.dwells_after = Counter()  # (word of the call before on that machine, number) of each dwell
        self.kept_numbers = Counter()  # (word of the call that left them, word, H, U, kept number, number) of each call
        self.outputs = Counter()  # (word, length of the output, written count, number) of each call
        self.odd_cells = Counter()  # (word, whether it is live, cell, number) where one cell has a CH or a higher tag
        self.writes = Counter()  # (word, whether there is a history, refusals met, number) at each WRITECH
        self.restored = Counter()  # (whether at a WRITECH, tags and bits restored, written, number) of each step-back
        self.flipped_bits = Counter()  # (place of a record, bit, number) of each step-back with that bit another
        self.written_moves = Counter()  # (word, whether there is a history, change of the written count) of each call
        self.calls_after = Counter()  # (word of the call that left the registers, word, number) of each call
        self.forgets = Counter()  # (whether there is a history, kept number, k, number) of each forget
        self.odd_records = Counter()  # (what is odd, records below and above, kept number, k, number) of each forget
        self.unwritten = Counter()  # (word, records below and above, number) with a WRITECH's and nothing written
        self.kept_records = Counter()  # (records, U, kept number, k, number) of each forget of well-formed records
        self.series_forgets = Counter()  # (whether there is a history, what k is, number) of each forget in a series
        self.full_histories = Counter()  # (odd place or none, kept number, k, number) of each with 8,192 records
        self.fills = Counter()  # (source, H, how often, number) of each history that was forgotten and filled again
        self.room_gained = Counter()  # (word, sign of the places free less those needed, number) after a forget
        # (Whether there is a history, steps, whether any were forgotten) of each series all taken back; 2 is for more.
        self.taken_back = Counter()
        self.depth_lists = Counter()  # (what is tried, .., number, place) of each depth list
        self.damaged_lists = Counter()  # (what was damaged, number) of each list that was right before
        self.depth_tolds = Counter()  # (told's length, number of the list alone) of each depth list with another told
        self.listed_calls = Counter()  # (word, number) of each call on a machine whose program has a list
        self.saves = Counter()  # (what is tried, .., number, length of the image) of each save
        self.loads = Counter()  # (what is tried, .., number) of each load
        self.carried = Counter()  # (whether there are histories, who ended first, number) of each session carried on
        self.loaded_calls = Counter()  # (whether there is a history, word, number) of each call in a series from a load
        self.fresh_loads = Counter()  # (whether there is a history, any taken back, any forgotten) of each such series
        self.whys = Counter()  # (what is tried, .., cell, number, *told) of each why
        self.whys_after = Counter()  # (word of the call before, HALT, its number, number, *told) of each why of cell 0
        self.named_steps = Counter()  # (name, which of the cells that it wrote, whether it held that) of each named
        self.asked_cells = Counter()  # (HALT, where it lies, how many kept steps wrote it) of each why that is done
        self.back_to_named = Counter()  # (steps back, whether the cell changed) of each named step that was taken back
        self.why_tolds = Counter()  # (told's length, number and found of the why alone) of each why with another told
        self.formulas = Counter()  # (what is tried, .., number, length, depth) of each formula
        self.drawn_formulas = Counter()  # (kind, number) of each formula that was drawn
        self.formula_tables = Counter()  # (places, number with 1,024) of each formula with another table
        self.formula_runs = Counter()  # (what is short, whether there is a history, values between, number) of each run
        self.room_steps = Counter()  # (start, kinds of two rooms, who met 8 first or both, when or number) of sessions
        self.room_runs = Counter()  # (start, kinds of two rooms, who ended with 8, number) of each two runs
        self.room_starts = Counter()  # (start, number of the first step) of each session of steps
        self.room_instructions = Counter()  # (name, H, number) of each instruction made alone from a saved state
        self.room_outputs = Counter()  # (start, kinds of two rooms) of each two sessions that both wrote output
        self.taught_rooms = Counter()  # (program, start, kinds of two rooms, word) of the published programs' sessions
        self.room_limits = Counter()  # (number, whether there is a history, any steps, limit, its number) of each run
        self.taught_limits = Counter()  # (program, number) of each run of theirs that was made with larger limits
        self.held = []  # (judge, *what it is handed besides the answers): what request n says of these lines
        self.wrong_tolds = Counter()  # (word, told's length, output's length, number of the input alone) of writers
        self.register_lengths = Counter()  # (line, number with nine, length, number) of each with another length
        self.resets = Counter()  # (length of the registers, cells, tags, history places, output, number) of each reset

    def say(self, line):
        self.lines.append((line, None))

    def call(self, line, number, parts):
        """A line that makes a call, and its answer: the number, then names and words."""
        self.numbers[number] += 1
        self.calls[line.split(" ", 1)[0]] += 1
        self.lines.append((line, " ".join([str(number)] + [f"{name} {word}" for name, word in parts])))

    def last_line(self):
        """The number of the line that made the last call."""
        return len(self.lines) - 1

    def hold(self, judge, *lines):
        """The answers to these lines, those of either side, are to be judged."""
        self.held.append((judge, *lines))

    def write(self, word, writer, output, told_length):
        """(number, told) of a call that writes an output. A told of another length is 31 before anything else and stays
        as it is. "Refused writers leave an output of wrong length untouched, zero one of right length" """
        size, told_due = WRITERS[word]
        if told_length == told_due:
            number, *told = writer(output)
            return number, told
        self.wrong_tolds[word, told_length, len(output), writer([0] * size)[0]] += 1
        if len(output) == size:
            output[:] = [0] * size
        return 31, marked(told_length, 8)

    # ---- bytes to a table

    def assemble(self, source, places=PLACES, told_length=ASSEMBLE_TOLD):
        table = marked(places, 8)
        number, told = self.write("assemble", lambda output: sam.assemble(source, output), table, told_length)
        if told_length == ASSEMBLE_TOLD:
            _, place, line, _ = told
            self.fault_lines[number, min(line, 2)] += 1
            self.count_operands(source, number, place)
        self.call_reading("assemble", source, table, told, number)
        return number, table, told

    def count_operands(self, source, number, place):
        if number == 0 and b"." in source:
            for decimal in filter(WELL_FORMED.match, operands_of(source, "PUSHIMMF")):
                self.decimals.update(marks(decimal))
        if number == 0 and b"PUSHIMMCH" in source:
            self.characters.update((0, operand) for operand in operands_of(source, "PUSHIMMCH"))
        if number in (25, 33):
            for name, counter in (("PUSHIMMF", self.decimals), ("PUSHIMMCH", self.characters)):
                counter.update((number, operand) for operand in refused_operand(source, place, name))

    def unpack(self, image, places=PLACES, told_length=1, word="unpack"):
        table = marked(places, 8)
        number, told = self.write(word, lambda output: sam.unpack(image, output), table, told_length)
        self.call_reading(word, image, table, told, number)
        return number, table, told

    def translate(self, formula, places=PLACES, told_length=TRANSLATE_TOLD):
        table = marked(places, 8)
        number, told = self.write("translate", lambda output: sam.translate(formula, output), table, told_length)
        if places != PLACES and told_length == TRANSLATE_TOLD:
            self.formula_tables[places, sam.translate(formula, [0] * PLACES)[0]] += 1
        self.call_reading("translate", formula, table, told, number)
        return number, table, told

    def call_reading(self, name, data, table, told, number):
        line = f"{name} {len(table)} {len(told)} {bytes_word(data)}"
        self.call(line, number, [("told", list_word(told)), ("table", list_word(table))])

    # ---- a table to bytes

    def program(self, program):
        self.say(f"program {program.length} {self.table.word(program.table)}")

    def list(self, program, size=TEXT_BYTES, told_length=1):
        return self.call_writing("list", sam.list_program, program, size, told_length)

    def pack(self, program, size=IMAGE_BYTES, told_length=1, word="pack"):
        return self.call_writing(word, sam.pack, program, size, told_length)

    def call_writing(self, name, writer, program, size, told_length):
        written = bytearray([MARK] * size)
        judged = lambda output: writer(program.table, program.length, output)
        number, told = self.write(name, judged, written, told_length)
        line = f"{name} {size} {told_length}"
        self.call(line, number, [("told", list_word(told)), ("bytes", output_word(written))])
        return bytes(written[: told[0]]) if number == 0 else b""

    # ---- a depth list

    def depths(self, program, n, depths, told_length=1):
        """(number, place) of a list for the program that was said last. A told of another length is 31 before anything
        else and stays as it is; the table and the list always do."""
        number, place = sam.check_depths(program, n, depths)
        told = [place]
        if told_length != 1:
            self.depth_tolds[told_length, number] += 1
            number, place, told = 31, 0, marked(told_length, 8)
        parts = [("told", list_word(told)), ("depths", list_word(depths)), ("table", list_word(program.table))]
        self.call(f"depths {n} {told_length} {list_word(depths)}", number, parts)
        return number, place


def in_order(registers):
    """The registers as include/sam.h has them."""
    r = registers
    return [r.n, r.h, r.pc, r.sp, r.fbr, r.halt, r.used, r.kept, r.written]


REGISTERS = len(in_order(sam.Registers()))


class LentMachine:
    """A machine of the driver and the same machine in sam/."""

    def __init__(self, script, program, state, registers_length=REGISTERS):
        self.script, self.program, self.state = script, program, state
        self.registers_length = registers_length
        self.last_word = None  # of the last call that may change it
        self.left_by = None  # word of the call that left the registers as they are; none, where they were made by hand
        self.registers_before = state.registers  # those before the next call
        self.told = []  # by the last call
        self.image = b""  # as the last save left it
        self.slices = defaultdict(SaidList)  # by their names
        script.program(program)
        self.lend()

    def registers_word(self):
        """The registers as lent: all, or another count where the case is about that."""
        values = in_order(self.state.registers) + marked(self.registers_length, 8)
        return list_word(values[: self.registers_length])

    def memory_words(self):
        """(Name, word) of the registers and of each lent slice."""
        slices = [(name, getattr(self.state, name)) for name in ("bits", "tags", "history", "output")]
        return [("registers", self.registers_word()), *[(name, self.slices[name].word(of)) for name, of in slices]]

    def lend(self):
        """Gives the driver the state as it stands here."""
        for name, word in self.memory_words():
            self.script.say(f"{name} {word}")

    def count_refusal(self, word, number):
        """At a 5, 6 or 12 the PC is that of the refused instruction."""
        registers = self.state.registers
        name = NAMES[self.program.table[registers.pc] >> 32]
        self.script.refused_steps[word, name, number, registers.h > 0] += 1

    def count_kept(self, word, number):
        """By the registers that the call was given."""
        before, after = self.registers_before, self.state.registers
        self.script.kept_numbers[self.left_by, word, before.h, before.used, before.kept, number] += 1
        self.script.calls_after[self.left_by, word, number] += 1
        if after != before:
            self.left_by, self.registers_before = word, after

    def answer(self, line, number, told):
        word = line.split(" ", 1)[0]
        if number in COUNTED_REFUSALS and word != "why":
            self.count_refusal(word, number)
        if self.registers_length == REGISTERS:
            self.count_written(word)
            self.count_kept(word, number)
        if word not in ("dwell", "save", "why"):
            self.last_word = word
        self.told = told
        written = [("bytes", output_word(self.image))] if word == "save" else []
        self.script.call(line, number, [("told", list_word(told)), *self.memory_words(), *written])
        return number

    def copy(self, registers):
        state = copied(self.state)
        state.registers = replace(registers)
        return state

    def made(self, line, call):
        """(number, *told) of call(state). Registers of another length are a broken state, 10 in 10's place, and nothing
        changes: "Run: 11, then 10. Reset: 11 before 10." Zeros stand for them, whose N is 10 wherever registers are
        read; a reset and a load read none, but cannot be done, nor come to what stands behind 10."""
        if self.registers_length == REGISTERS:
            return call(self.state)
        with_nine, *_ = call(self.copy(self.state.registers))
        number, *told = call(self.copy(sam.Registers()))
        number = 10 if number in (0, 45) else number
        self.script.register_lengths[line, with_nine, self.registers_length, number] += 1
        return number, *told

    def machine_call(self, line, call):
        word = line.split(" ", 1)[0]
        keys = self.keys_by_state(word) if self.registers_length == REGISTERS else []
        number, *told = self.made(line, call)
        for counter, key in keys:
            counter[(*key, number)] += 1
        return self.answer(line, number, told)

    def keys_by_state(self, word):
        """(Counter, key but for the number) of what request h speaks of, by the state that the call is given."""
        script, state = self.script, self.state
        keys = [(script.outputs, (word, len(state.output), state.registers.written))]
        keys += [(script.odd_cells, (word, *cell)) for cell in only_odd_cell(state)]
        if word == "back":
            keys += [(script.restored, key) for key in restored_by(self.program, state)]
        elif is_before_writing(self.program, state):
            keys.append((script.writes, (word, state.registers.h > 0, refusals_met(state))))
        return keys

    def count_written(self, word):
        """By how much the call changed the written count, if at all."""
        change = self.state.registers.written - self.registers_before.written
        if change:
            self.script.written_moves[word, self.state.registers.h > 0, change] += 1

    def reset(self):
        number = self.machine_call("reset", lambda state: [sam.reset(self.program, state)])
        sizes = map(len, (self.state.bits, self.state.tags, self.state.history, self.state.output))
        self.script.resets[(self.registers_length, *sizes, number)] += 1
        return number

    def step(self):
        return self.machine_call("step", lambda state: [sam.step(self.program, state)])

    def back(self):
        return self.machine_call("back", lambda state: [sam.step_back(self.program, state)])

    def forget(self, k):
        before = self.state.registers  # a call replaces them
        number = self.machine_call(f"forget {k}", lambda state: [sam.forget(self.program, state, k)])
        if self.registers_length == REGISTERS:
            self.script.forgets[before.h > 0, before.kept, k, number] += 1
        return number

    def telling_call(self, words, call, told_length, told_due=1):
        """A call that tells something, and writes no output: a told of another length is 31 before anything else, and
        nothing changes."""
        if told_length != told_due:
            call = lambda state: [31, *marked(told_length, 8)]
        return self.machine_call(f"{words} {told_length}", call)

    def run(self, limit, told_length=1, word="run"):
        return self.telling_call(f"{word} {limit}", lambda state: sam.run(self.program, state, limit), told_length)

    def dwell(self, told_length=1):
        number = self.telling_call("dwell", lambda state: sam.dwell(self.program, state), told_length)
        if told_length == 1 and self.registers_length == REGISTERS:
            self.count_dwell(number, *self.told)
        return number

    def count_dwell(self, number, tenths):
        state, registers = self.state, self.state.registers
        cell = state.cell(0) if state.bits and state.tags else None
        self.script.dwells[registers.halt, registers.sp > 0, cell, number, tenths] += 1
        self.script.dwells_after[self.last_word, number] += 1

    def why(self, cell, told_length=WHY_TOLD):
        call = lambda state: sam.why(self.program, state, cell)
        number = self.telling_call(f"why {cell}", call, told_length, WHY_TOLD)
        if self.registers_length == REGISTERS:
            self.count_why(cell, number, told_length)
        return number

    def count_why(self, cell, number, told_length):
        script, state = self.script, self.state
        if told_length != WHY_TOLD:
            alone, is_found, *_ = sam.why(self.program, state, cell)
            script.why_tolds[told_length, alone, is_found] += 1
        elif number == 0:
            wrote = writers(self.program, state, cell)
            script.asked_cells[where_asked(state, cell, len(wrote))] += 1
            script.named_steps.update(how_written(self.program, state, cell, newest) for newest in wrote[:1])

    def save(self, size=STATE_BYTES, told_length=1):
        """Into an image that is kept as it is left; nothing else changes."""

        def call(state):
            self.image = bytearray([MARK] * size)
            writer = lambda image: sam.save(self.program, state, image)
            number, told = self.script.write("save", writer, self.image, told_length)
            return number, *told

        return self.machine_call(f"save {size} {told_length}", call)

    def saved(self):
        """The bytes of an accepted save that are loaded again: "only that much"."""
        (length,) = self.told
        return bytes(self.image[:length])

    def load(self, image):
        return self.machine_call(f"load {bytes_word(image)}", lambda state: [sam.load(self.program, state, image)])
