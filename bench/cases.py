"""The families of cases that compare.py draws from: each adds calls to a script."""

from dataclasses import dataclass, replace
from itertools import chain, combinations, product

import depths
import forgets
import formulas
import panel
import rooms
import sam
import saves
import teaching
import whys
from calls import ASSEMBLE_TOLD, IMAGE_BYTES, PLACES, REGISTERS, STATE_BYTES, TEXT_BYTES, TRANSLATE_TOLD, WHY_TOLD
from calls import WRITERS, LentMachine
from dwells import ADDRESS_CELLS, CHARACTER_CELLS, FLOAT_CELLS, INTEGER_CELLS, KINDS_OF_CELLS, PLAIN_CELLS, any_cell
from machines import copied, halted, single, stacked
from programs import CONVERSIONS, FLOAT_EDGES, FTOI_EDGES, INTEGER_EDGES, ITOF_EDGES, LEAST, SUMS, TWO_FLOATS
from programs import TWO_INTEGERS, any_character, any_integer, any_operand, any_pattern, any_program
from sam.actions import CH, FLOAT, INT, MA, PA
from sam.image import CODE_WIDTH, COUNT_WIDTH, OPERAND_WIDTH
from sam.machine import CELL_LIMIT, HISTORY_LIMIT, OUTPUT_LIMIT, RUN_LIMIT, cell_place, cell_sound, step_place
from sam.table import KINDS, LAST_CHARACTER, NAMES, NO_OPERAND, PATTERN
from saves import image_of
from sources import any_source, corner_sources, every_refusal

WORD = 1 << 32
DOUBLE_WORD = 1 << 64
TAGS = (INT, FLOAT, MA, PA, CH)
OTHER_LENGTHS = [0, 1, REGISTERS - 2, REGISTERS - 1, REGISTERS + 1, 2 * REGISTERS]  # of lent registers


# ---- lengths of outputs and of told


def other_tolds(told_due):
    """Lengths that a told may have in place of its own."""
    return [length for length in range(max(told_due, ASSEMBLE_TOLD) + 2) if length != told_due]


def wrong_tolds(word):
    """(Length of the output, length of told) for this writer: an output of its length or of another, another told."""
    size, told_due = WRITERS[word]
    return list(product([0, size - 1, size, size + 1], other_tolds(told_due)))


def any_size(chooser, size):
    """Of an output: most often its own."""
    return chooser.choice([size] * 30 + [0, size - 1, size + 1])


def any_told(chooser, told_due=1):
    return chooser.choice([told_due] * 50 + other_tolds(told_due))


# ---- sources


def assemble_tolds(script):
    """Sources that are done and that are refused, each with every wrong told."""
    for source, lengths in product(["", "PUSHIMM 40 STOP", *every_refusal()], wrong_tolds("assemble")):
        script.assemble(source.encode(), *lengths)


def list_again(script, table, length, size=TEXT_BYTES, told_length=1):
    """The listing of a program, and what it is assembled to."""
    program = sam.Program(table, length)
    script.program(program)
    listing = script.list(program, size, told_length)
    if listing:
        script.assemble(listing)


def text_corners(script):
    """Those with decimals are listed too, "Listings still write bits.", and those with characters."""
    for source in corner_sources():
        number, table, told = script.assemble(source.encode("latin-1"))
        if number == 0 and ("." in source or "PUSHIMMCH" in source):
            list_again(script, table, told[0])
    assemble_tolds(script)


def text_case(chooser, script):
    """Assemble; where it is done, list and assemble again."""
    places, told_length = any_size(chooser, PLACES), any_told(chooser, ASSEMBLE_TOLD)
    number, table, told = script.assemble(any_source(chooser), places, told_length)
    if number == 0:
        list_again(script, table, told[0], any_size(chooser, TEXT_BYTES), any_told(chooser))


# ---- tables and images


def made_program(chooser):
    """The program of a random source that assembles."""
    while True:
        table = [0] * PLACES
        number, length, *_ = sam.assemble(any_program(chooser).encode(), table)
        if number == 0:
            return sam.Program(table, length)


def full_program(chooser):
    """1,024 places, each with the largest operand of its kind."""
    widest = [1 << 32 | 1 << 31, 2 << 32 | WORD - 1, 39 << 32 | WORD - 999, 42 << 32 | 999, 44 << 32 | 1024, 0]
    widest.append(52 << 32 | LAST_CHARACTER)
    return sam.Program([chooser.choice(widest) for _ in range(PLACES)], PLACES)


def any_place(chooser):
    operand = chooser.choice([0, 1, 127, 128, 999, 1000, WORD - 999, WORD - 1000, chooser.randrange(WORD)])
    return chooser.randrange(64) << 32 | operand


def damaged_program(chooser, program):
    """A table with one fault, or with none by chance."""
    table, length = list(program.table), program.length
    kind = chooser.randrange(6)
    if kind == 0:
        table[chooser.randrange(PLACES)] = any_place(chooser)
    elif kind == 1 and length:
        table[chooser.randrange(length)] ^= 1 << chooser.randrange(64)
    elif kind == 2 and length:
        table[chooser.randrange(length)] = any_place(chooser)
    elif kind == 3:
        length = chooser.choice([0, max(length - 1, 0), length + 1, 1024, 1025, 1 << 32, DOUBLE_WORD - 1])
    elif kind == 4:
        table = table[: chooser.choice([0, 1, 1023])]
    else:
        table.append(0)
    return sam.Program(table, length)


def damaged_image(chooser, image):
    image = bytearray(image)
    kind = chooser.randrange(5)
    if kind == 0:
        return bytes(image[: chooser.randrange(len(image) + 1)])
    if kind == 1:
        return bytes(image) + bytes(chooser.choice([1, 2, 5000]))
    if kind == 2:
        return bytes(chooser.randrange(256) for _ in range(chooser.randrange(12)))
    for _ in range(chooser.randrange(1, 3)):
        if image:
            at = chooser.choice([chooser.randrange(len(image)), len(image) - 1, min(1, len(image) - 1)])
            image[at] ^= 1 << chooser.randrange(8)
    return bytes(image)


def packed_program(chooser):
    """A program to be packed, sometimes full, sometimes damaged."""
    program = full_program(chooser) if chooser.randrange(40) == 0 else made_program(chooser)
    return damaged_program(chooser, program) if chooser.randrange(4) == 0 else program


def there_and_back(chooser, script, program, pack="pack", unpack="unpack"):
    """Pack, unpack, and unpack a damaged image."""
    image = script.pack(program, any_size(chooser, IMAGE_BYTES), any_told(chooser), pack)
    script.unpack(image, any_size(chooser, PLACES), any_told(chooser), unpack)
    for _ in range(3):
        script.unpack(damaged_image(chooser, image), any_size(chooser, PLACES), any_told(chooser), unpack)


def coded(code):
    """An image and a program of one instruction with this code, which may be too high, and zeros for its operand."""
    kind = KINDS[code] if code < len(KINDS) else NO_OPERAND
    bits = f"{1:0{COUNT_WIDTH}b}{code:0{CODE_WIDTH}b}" + "0" * OPERAND_WIDTH[kind]
    return image_of(bits), sam.Program([code << 32] + [0] * (PLACES - 1), 1)


def every_code(script, pack="pack", unpack="unpack"):
    """Every code there can be in six bits: 43 in an image, 10 in a table, or done."""
    for code in range(1 << CODE_WIDTH):
        image, program = coded(code)
        number, _, _ = script.unpack(image, word=unpack)
        script.codes[unpack, code, number] += 1
        script.program(program)
        script.pack(program, word=pack)


def every_character(script, pack="pack", unpack="unpack"):
    """PUSHIMMCH's seven bits, behind nothing and behind a STOP, whole and cut; and operands that no image can have."""
    for operand in panel.TABLE_OPERANDS:
        written = f"{52:06b}{operand:07b}"
        for image in (image_of(f"{1:011b}{written}"), image_of(f"{2:011b}{0:06b}{written}")):
            for size in (len(image), len(image) - 1):
                number, _, _ = script.unpack(image[:size], word=unpack)
                script.packed_characters[unpack, operand, number] += 1
    for operand in panel.TABLE_OPERANDS + panel.NO_TABLE_OPERANDS:
        program = panel.table_of(operand)
        script.program(program)
        number = 0 if script.pack(program, word=pack) else 10
        script.packed_characters[pack, operand, number] += 1


# Images that are done, then those that are 41, 42, 43, 44 and 45.
JUDGED_IMAGES = [
    bytes.fromhex(image)
    for image in "0000 00408000000280 003A7F 00 004080000002 FFE0 003F80 0033BE80 0001 0040800000028000".split()
]


def judged_programs():
    """Tables that are done, then one for each fault that a table may have."""
    sound = single("JUMP 1")
    yield sam.Program([0] * PLACES, 0)
    yield sound
    yield coded(len(NAMES))[1]  # "a table place that cannot be assembled"
    yield sam.Program(sound.table, PLACES + 1)
    yield sam.Program(sound.table[:-1], sound.length)
    yield sam.Program(sound.table + [0], sound.length)
    yield sam.Program(sound.table[:-1] + [1], sound.length)


def unpack_tolds(script, word="unpack"):
    """Such images, each with every wrong told."""
    for image, lengths in product(JUDGED_IMAGES, wrong_tolds(word)):
        script.unpack(image, *lengths, word)


def pack_tolds(script, word="pack"):
    """Such tables, each with every wrong told."""
    for program in judged_programs():
        script.program(program)
        for lengths in wrong_tolds(word):
            script.pack(program, *lengths, word)


def list_tolds(script):
    """The same tables listed."""
    for program in judged_programs():
        script.program(program)
        for lengths in wrong_tolds("list"):
            script.list(program, *lengths)


def image_corners(script):
    """Packed, unpacked and listed."""
    for corners in (unpack_tolds, pack_tolds, list_tolds):
        corners(script)
    every_code(script)
    every_character(script)
    operands = panel.TABLE_OPERANDS + panel.NO_TABLE_OPERANDS
    programs = [coded(code)[1] for code in range(1 << CODE_WIDTH)] + [panel.table_of(operand) for operand in operands]
    for program in programs:
        script.program(program)
        script.list(program)


def image_case(chooser, script):
    """The same table listed, packed and unpacked."""
    program = packed_program(chooser)
    script.program(program)
    script.list(program, any_size(chooser, TEXT_BYTES), any_told(chooser))
    there_and_back(chooser, script, program)


# ---- series of calls


def any_output(chooser):
    """Any bytes; most often there is room for some characters."""
    sizes = [0, 1, chooser.randrange(2, 8), chooser.randrange(8, OUTPUT_LIMIT), OUTPUT_LIMIT, OUTPUT_LIMIT]
    return bytearray(chooser.randrange(256) for _ in range(chooser.choice(sizes)))


def fresh_state(chooser):
    """Memory as it may be lent to a reset: any content."""
    n = chooser.choice([chooser.randrange(1, 8), chooser.randrange(8, 40), 16, chooser.choice([999, 1000])])
    h = chooser.choice([0, chooser.randrange(1, 12), chooser.randrange(12, 200), chooser.randrange(12, 200), 8192])
    return sam.State(
        bits=[chooser.randrange(WORD)] * n,
        tags=[chooser.randrange(256)] * n,
        history=[chooser.randrange(DOUBLE_WORD)] * h,
        output=any_output(chooser),
        registers=sam.Registers(*[chooser.randrange(9) for _ in range(REGISTERS)]),
    )


@dataclass
class Counts:
    """Of a series since its reset or its load: S minus B, the steps accepted less the step-backs accepted, and F, the
    steps that were forgotten."""

    net_steps: int = 0
    forgotten: int = 0


def series_step(lent, counts):
    number = lent.step()
    counts.net_steps += number == 0
    return number


def series_back(lent, counts):
    """ "step-back is now refused exactly when S minus B equals F (or H = 0)" """
    number = lent.back()
    assert number == (9 if counts.net_steps == counts.forgotten or lent.state.registers.h == 0 else 0), counts
    counts.net_steps -= number == 0
    return number


def series_forget(script, lent, k, counts):
    """Refused "when k is above the kept number" alone."""
    kept, has_history = lent.state.registers.kept, lent.state.registers.h > 0
    number = lent.forget(k)
    assert number == (14 if k > kept else 0), (k, kept)
    script.series_forgets[has_history, forgets.what_is_forgotten(k, kept), number] += 1
    counts.forgotten += k if number == 0 else 0
    return number


def series_run(lent, limit, counts):
    number = lent.run(limit)
    steps, *_ = lent.told
    counts.net_steps += steps
    return number


def called(script, lent, counts, word, *words):
    """The number of this call in a series."""
    if word == "step":
        return series_step(lent, counts)
    if word == "back":
        return series_back(lent, counts)
    if word == "forget":
        return series_forget(script, lent, *words, counts)
    return series_run(lent, *words, counts)


def any_series_call(chooser, lent):
    kind = chooser.randrange(14)
    if kind < 6:
        return ("step",)
    if kind < 9:
        return ("back",)
    if kind < 11:
        return "forget", forgets.any_number(chooser, lent.state.registers.kept)
    return "run", chooser.randrange(1, 8) if kind == 11 else chooser.choice([0, 20, 200, 1000])


def check_kept(state, counts):
    """Request g: "the number of step places in use"; request i: "with H above 0, is now S minus B minus F" """
    r = state.registers
    assert r.kept == sum(place >> 63 for place in state.history[: r.used]), r
    assert r.kept == (counts.net_steps - counts.forgotten if r.h > 0 else 0), (r, counts)


def check_unused(state):
    """ "the other places are zero" """
    assert not any(state.history[state.registers.used :]), state.registers


def check_output(state):
    """Since the reset or the load, what is not written is zero."""
    assert not any(state.output[state.registers.written :]), state.output


def check_series(state, counts):
    """After each call of a series."""
    check_kept(state, counts)
    check_unused(state)
    check_output(state)


def take_all_back(script, lent, forgotten=0, written=0):
    """As many step-backs as the kept number says are accepted, and the next is refused; where no step was forgotten, no
    output is left but what was written at the start."""
    kept, h = lent.state.registers.kept, lent.state.registers.h
    numbers = [lent.back() for _ in range(kept + 1)]
    assert numbers == [0] * kept + [9], numbers
    assert h == 0 or forgotten > 0 or lent.state.registers.written == written, lent.state.registers
    script.taken_back[h > 0, min(kept, 2), forgotten > 0] += 1


def series_case(chooser, script):
    """A reset, then steps, runs, step-backs and forgets; now and then cell 0 is read, or all is taken back."""
    lent = LentMachine(script, made_program(chooser), fresh_state(chooser))
    lent.reset()
    counts = Counts()
    check_kept(lent.state, counts)
    for _ in range(chooser.randrange(4, 30)):
        if chooser.randrange(6) == 0:
            lent.dwell()
        if chooser.randrange(3) == 0:
            lent.why(whys.any_asked(chooser, lent.state))
        called(script, lent, counts, *any_series_call(chooser, lent))
        check_series(lent.state, counts)
    lent.dwell()
    if chooser.randrange(4) == 0 and lent.state.registers.used <= 100:
        take_all_back(script, lent, counts.forgotten)


# Cells, tags, history places and output of a reset: outside their sizes or of unequal count, and such as are allowed.
REFUSED_SIZES = [
    (0, 0, 0, 0), (0, 0, 8, 8), (1001, 1001, 0, 1), (4, 3, 8, 256), (4, 5, 8, 0), (0, 4, 0, 8), (4, 0, 0, 1),
    (4, 4, 8193, 8), (1001, 1000, 8193, 256), (4, 4, 8, 257), (1, 1, 0, 257), (1000, 1000, 8192, 1000),
    (1001, 1000, 8193, 257),
]  # fmt: skip
ALLOWED_SIZES = [(1, 1, 0, 0), (4, 4, 8, 1), (4, 4, 0, 256), (1000, 1000, 8192, 256)]


def marked_state(n, tags, h, size):
    """Memory and registers in which every write of a reset is seen."""
    registers = sam.Registers(1, 2, 3, 4, 5, 6, 7, 8, 9)
    return sam.State([7] * n, [8] * tags, [9] * h, bytearray(panel.filled(size)), registers)


def reset_corners(script):
    """Registers of every length with all of these sizes, and with sound and broken tables."""
    lengths = [*OTHER_LENGTHS, REGISTERS]
    for program, length, sizes in product(judged_programs(), lengths, REFUSED_SIZES + ALLOWED_SIZES):
        LentMachine(script, program, marked_state(*sizes), length).reset()


def reset_case(chooser, script):
    """Sizes at and beyond their ends, broken tables, registers of another length."""
    n = chooser.choice([0, 1, 2, 1000, 1001])
    tags = chooser.choice([n] * 4 + [n + 1, max(n - 1, 0)])
    h = chooser.choice([0, 1, 8192, 8193])
    program = made_program(chooser)
    if chooser.randrange(2):
        program = damaged_program(chooser, program)
    size = chooser.choice([0, 1, 256, 257])
    state = marked_state(n, tags, h, size)
    lent = LentMachine(script, program, state, chooser.choice([REGISTERS] * 8 + OTHER_LENGTHS))
    lent.reset()
    lent.step()


# ---- states that no reset leads to


def worked_state(chooser, program):
    """The state after some steps."""
    state = fresh_state(chooser)
    sam.reset(program, state)
    sam.run(program, state, chooser.randrange(60))
    return state


def allowed_kept(chooser, used):
    """A kept number that is not 10 with this U, whatever the history."""
    return chooser.choice([1, used, chooser.randrange(1, used + 1)]) if used else 0


def break_registers(chooser, program, state):
    r = state.registers
    name = chooser.choice(["n", "h", "pc", "sp", "fbr", "halt", "used"])
    near = {"n": r.n, "h": r.h, "pc": program.length, "sp": r.n, "fbr": r.n, "halt": 2, "used": r.h}[name]
    value = chooser.choice([near - 1, near, near + 1, chooser.randrange(1100), DOUBLE_WORD - 1, WORD])
    setattr(r, name, max(value, 0))
    if name == "used" and chooser.randrange(2):
        r.kept = allowed_kept(chooser, r.used)


def break_kept(chooser, program, state):
    """Above U by one or by more, 0, or allowed whatever the records are."""
    r = state.registers
    above = chooser.choice([r.used + 1, r.used + 2, r.h + 1, WORD + r.used, DOUBLE_WORD >> 1, DOUBLE_WORD - 1])
    r.kept = chooser.choice([above, 0, allowed_kept(chooser, r.used)])


def break_cells(chooser, program, state):
    at = chooser.randrange(len(state.bits))
    state.tags[at] = chooser.choice([PA, PA, CH, CH, CH + 1, 255, chooser.randrange(CH + 1)])
    if chooser.randrange(2):
        length = program.length
        state.bits[at] = chooser.choice([length, length + 1, LAST_CHARACTER, LAST_CHARACTER + 1, WORD - 1])


def break_output(chooser, program, state):
    """Another written count, or another output: too long, or of any length, which may be below the count."""
    sizes = [0, 1, OUTPUT_LIMIT, OUTPUT_LIMIT + 1, state.registers.written]
    if chooser.randrange(2):
        state.output[:] = panel.filled(chooser.choice(sizes))
    if chooser.randrange(2):
        size = len(state.output)
        state.registers.written = chooser.choice([0, size, size + 1, size + 256, WORD + size, DOUBLE_WORD - 1])


def break_slices(chooser, program, state):
    lent = chooser.choice([state.bits, state.tags, state.history, state.output])
    if chooser.randrange(2) and lent:
        lent.pop()
    else:
        lent.append(0)


def break_record(chooser, program, state):
    used = state.registers.used
    if used:
        near_top = used - 1 - chooser.randrange(min(used, 3))
        at = chooser.choice([near_top, near_top, chooser.randrange(used)])
        state.history[at] ^= 1 << chooser.randrange(64)


def any_restored(chooser, length):
    """An old tag and old bits, most often such as a step may have recorded."""
    tag = chooser.choice([*TAGS * 6, *range(CH + 1, 8)])
    character = chooser.choice([0, LAST_CHARACTER, LAST_CHARACTER, any_character(chooser), LAST_CHARACTER + 1])
    other = chooser.choice([0, length, length, length + 1, chooser.randrange(WORD)])
    return tag, character if tag == CH else other


def made_record(chooser, program, state):
    """A record made by hand, nearly well formed, that need not fit an instruction."""
    n, h = state.registers.n, state.registers.h
    if h == 0:
        return
    count = min(chooser.choice([0, 1, 2, 3, 5, h]), h - 1, n)
    addresses = sorted(chooser.sample(range(n), count))
    if chooser.randrange(6) == 0:
        chooser.shuffle(addresses)
    length = program.length
    cells = [cell_place(address, *any_restored(chooser, length)) for address in addresses]
    writing = [pc for pc in range(length) if panel.holds_writing(program, pc)]
    last = step_place(
        min(chooser.choice([0, max(length - 1, 0), max(length - 1, 0), length, *writing[:4]]), 2047),
        chooser.choice([0, n - 1, n - 1, n]),
        chooser.choice([0, n - 1, n - 1, n]),
        chooser.choice([count] * 6 + [count + 1]),
    )
    start = chooser.randrange(h - count)
    state.history[start : start + count + 1] = cells + [last]
    state.registers.used = start + count + 1
    state.registers.kept = allowed_kept(chooser, start + count + 1)


BREAKS = [
    break_registers, break_registers, break_kept, break_cells, break_output, break_slices, break_record, made_record,
    made_record,
]  # fmt: skip


END_LIMITS = [0, RUN_LIMIT, RUN_LIMIT + 1, DOUBLE_WORD - 1]  # the ends of a run's limit and what is beyond


def any_call(chooser, lent):
    kind = chooser.randrange(9)
    if kind < 2:
        return lent.back()
    if kind < 4:
        return lent.step()
    if kind < 5:
        return lent.dwell(chooser.choice([1] * 8 + [0, 2]))
    if kind < 6:
        return lent.run(chooser.choice([1, 50, *END_LIMITS]), chooser.choice([1] * 8 + [0, 2]))
    if kind < 7:
        return lent.save(any_size(chooser, STATE_BYTES), chooser.choice([1] * 8 + [0, 2]))
    if kind < 8:
        return lent.why(whys.any_asked(chooser, lent.state), any_told(chooser, WHY_TOLD))
    return lent.forget(forgets.any_number(chooser, lent.state.registers.kept))


def broken_case(chooser, script):
    """A state or a table with a fault, or nearly so; every call on it."""
    program = made_program(chooser)
    state = worked_state(chooser, program)
    if chooser.randrange(8) == 0:
        program = damaged_program(chooser, program)
    else:
        chooser.choice(BREAKS)(chooser, program, state)
    lent = LentMachine(script, program, state, chooser.choice([REGISTERS] * 20 + OTHER_LENGTHS))
    for _ in range(5):
        any_call(chooser, lent)


# ---- the kept number of a machine made by hand

CALLS = {
    "step": LentMachine.step,
    "back": LentMachine.back,
    "run": lambda lent: lent.run(9),
    "plain": lambda lent: lent.run(9, word="plain"),
    "dwell": LentMachine.dwell,
    "why": lambda lent: lent.why(0),
    "forget": lambda lent: lent.forget(lent.state.registers.kept),
    "save": LentMachine.save,
    "reset": LentMachine.reset,
}
USED_SIZES = [(0, 0), (8, 0), (8, 1), (8, 4), (8192, 8000)]  # H and U, with room for a step and a run
# H, U and a kept number that is 10: above U by one, by more and by a lot, also with U in its lower half, or 0.
BROKEN_KEPT = [
    (h, used, kept)
    for h, used in USED_SIZES
    for kept in sorted({used + 1, used + 2, h + 1, WORD + used, DOUBLE_WORD >> 1, DOUBLE_WORD - 1} | {0} - {used})
]
# H, U and a kept number that is allowed, whatever the records are.
ALLOWED_KEPT = [
    (h, used, kept) for h, used in USED_SIZES for kept in sorted({1, 2, used - 1, used}) if 1 <= kept <= used
]
SHORT_RECORD = [step_place(0, 1, 0, 0)]
LONG_RECORD = [cell_place(0, INT, 40), step_place(0, 1, 0, 1)]
RECORDED_PLACES = 4  # at most, at the top of such a history; the rest are zero


def counted_state(h, used, kept, record, halt):
    """A machine with this kept number and records like this one, which need not be as many."""
    state = halted((INT, 40), h, halt=halt, used=used, kept=kept)
    count = min(used, RECORDED_PLACES)
    state.history[used - count : used] = (record * count)[-count:]
    return state


def kept_corners(script):
    """Each call on every such machine, and all calls on what it leaves: what a step-back leaves may be 10."""
    program = single("JUMP 1")
    kinds = product(BROKEN_KEPT + ALLOWED_KEPT, (SHORT_RECORD, LONG_RECORD), (0, 1))
    for ((h, used, kept), record, halt), first in product(kinds, ("step", "back", "run", "plain", "forget")):
        lent = LentMachine(script, program, counted_state(h, used, kept, record, halt))
        for word in (first, "dwell", *CALLS):
            CALLS[word](lent)


def length_corners(script):
    """Each call with registers of another length, on a machine where nine would be done and on a broken one, by a tag
    above SP. A dwell is done with HALT 1, the others with HALT 0. A forget is 10 also where it would be 14, a why where
    it would be 6."""
    program = single("JUMP 1")
    calls = [*CALLS.values(), lambda lent: lent.forget(2), lambda lent: lent.why(lent.state.registers.n)]
    for call, length, halt, tag in product(calls, OTHER_LENGTHS, (0, 1), (INT, CH + 1)):
        state = counted_state(8, 1, 1, SHORT_RECORD, halt)
        state.tags[1] = tag
        call(LentMachine(script, program, state, length))


def run_corners(script):
    """Registers and told of any length, limits at the ends and beyond, sound and broken, by a tag above SP."""
    program, lengths, tolds = single("JUMP 1"), [*OTHER_LENGTHS, REGISTERS], [1, *other_tolds(1)]
    for word, length, limit, told_length, tag in product(("run", "plain"), lengths, END_LIMITS, tolds, (INT, CH + 1)):
        state = halted((INT, 40), 8, halt=0)
        state.tags[1] = tag
        LentMachine(script, program, state, length).run(limit, told_length, word)


# ---- the output, characters, and records at a WRITECH


def each_call(script, program, state):
    """Each call on a copy of this machine."""
    for call in CALLS.values():
        call(LentMachine(script, program, copied(state)))


def output_corners(script):
    """Outputs of every size with every written count, at an instruction that does not write, with HALT 0 and 1."""
    outputs = panel.ALLOWED_OUTPUTS + panel.TOO_LONG + panel.BROKEN_OUTPUTS
    for (size, written), halt in product(outputs, (0, 1)):
        state = counted_state(8, 1, 1, SHORT_RECORD, halt)
        state.output[:] = panel.filled(size)
        state.registers.written = written
        each_call(script, single("JUMP 1"), state)


def cell_corners(script):
    """Tags and characters at their ends, in a live cell and in a dead one; then as operands of a table."""
    cells = panel.ALLOWED_CELLS + panel.BROKEN_CELLS
    for cell, is_live, halt in product(cells, (True, False), (0, 1)):
        each_call(script, single("JUMP 1"), panel.cell_machine(cell, is_live, halt))
    for operand in panel.TABLE_OPERANDS + panel.NO_TABLE_OPERANDS:
        each_call(script, panel.table_of(operand), stacked((INT, 40)))


def record_corners(script):
    """Step-backs and forgets of records made by hand at a WRITECH and elsewhere, and by a table that has it elsewhere;
    then step-backs with each bit of a record another."""
    for state in chain(panel.record_machines(), panel.restoring_machines()):
        for program in (panel.WRITER, panel.LATE_WRITER):
            LentMachine(script, program, copied(state)).back()
            LentMachine(script, program, copied(state)).forget(1)
    for place, bit, state in panel.flipped_machines():
        number = LentMachine(script, panel.WRITER, state).back()
        script.flipped_bits[place, bit, number] += 1


def writing_corners(script):
    """WRITECH before each of its refusals and where it is done, and what each call makes of what is left."""
    for state in panel.writing_machines():
        for word in ("step", "run", "plain"):
            lent = LentMachine(script, panel.WRITER, copied(state))
            for call in (CALLS[word], LentMachine.back, LentMachine.dwell, CALLS[word], LentMachine.back):
                call(lent)


def word_corners(script):
    """A word of three characters by runs of every length, into outputs that hold it and that do not, and all that was
    kept of it taken back."""
    for word, h, size, limit in product(("run", "plain"), (0, 64), range(5), range(8)):
        lent = LentMachine(script, panel.WORD_WRITER, marked_state(4, 4, h, size))
        lent.reset()
        lent.run(limit, word=word)
        lent.run(9, word=word)
        take_all_back(script, lent)


def broken_corners(script):
    kept_corners(script)
    length_corners(script)
    run_corners(script)
    output_corners(script)
    cell_corners(script)
    record_corners(script)
    writing_corners(script)
    word_corners(script)


# ---- forgets


def number_corners(script):
    """Records of every length, each k, and what is left: a step-back, and the next to be forgotten."""
    states = [forgets.machine(forgets.well_formed(count)) for count in range(forgets.MOST_RECORDS + 1)]
    for state in [*states, forgets.bare_machine()]:
        for k in forgets.numbers_to_forget(state.registers.kept):
            lent = LentMachine(script, forgets.PROGRAM, copied(state))
            lent.forget(k)
            lent.back()
            lent.forget(1)


def forget_odd(script, name, odd, numbers):
    """This record at every depth, by forgets of so many; a step-back asks the top record alone."""
    for below, above, kept in forgets.odd_depths():
        lent = LentMachine(script, forgets.PROGRAM, forgets.machine(forgets.among(odd, below, above), kept))
        for k in numbers(kept):
            number = lent.forget(k)
            script.odd_records[name, below, above, kept, k, number] += 1
        lent.back()


def odd_corners(script):
    """Records that are ill-formed in every way, by every k; then with each bit of a record another."""
    for name, odd in forgets.ILL_FORMED.items():
        forget_odd(script, name, odd, forgets.numbers_to_forget)
    for place, bit in product(range(len(forgets.CELLS) + 1), range(64)):
        forget_odd(script, (place, bit), forgets.flipped(place, bit), forgets.one_more_and_one)


def unwritten_corners(script):
    """A WRITECH's record at every depth with nothing written: a forget does not ask, a step-back does at the top."""
    for below, above in forgets.DEPTHS:
        state = forgets.machine(forgets.among(forgets.WRITING_RECORD, below, above), written=0)
        number = LentMachine(script, forgets.PROGRAM, copied(state)).back()
        script.unwritten["back", below, above, number] += 1
        for k in range(state.registers.kept + 1):
            number = LentMachine(script, forgets.PROGRAM, copied(state)).forget(k)
            script.unwritten["forget", below, above, number] += 1


def kept_record_corners(script):
    """Kept numbers that are those of the records, and every other."""
    for records, kept, k in forgets.kept_cases():
        number = LentMachine(script, forgets.PROGRAM, forgets.machine(records, kept)).forget(k)
        script.kept_records[len(records), sum(map(len, records)), kept, k, number] += 1


def full_machines(script):
    """As many records as there can be, all well formed or one not, with their number kept or one less."""
    all_places = [forgets.WELL_FORMED[0]] * HISTORY_LIMIT
    for at, kept in product((None, *forgets.ODD_PLACES), (HISTORY_LIMIT, HISTORY_LIMIT - 1)):
        state = forgets.machine(all_places, kept, unused=0)
        if at is not None:
            state.history[at] |= 1
        yield at, kept, LentMachine(script, forgets.PROGRAM, state)


def full_corners(script):
    for at, kept, lent in full_machines(script):
        for k in forgets.NUMBERS_OF_FULL:
            number = lent.forget(k)
            script.full_histories[at, kept, k, number] += 1


def forget_and_fill(script, lent, word, k, counts):
    """Some of a full history is forgotten, and what met 8 is tried again; then it is filled: the number of that run."""
    series_forget(script, lent, k, counts)
    free, needed = forgets.places_free(lent.state), forgets.places_needed(lent.program, lent.state)
    number = series_run(lent, 1, counts) if word == "run" else series_step(lent, counts)
    script.room_gained[word, (free > needed) - (free < needed), number] += 1
    number = series_run(lent, RUN_LIMIT, counts)
    check_kept(lent.state, counts)
    check_unused(lent.state)
    return number


def fill_corners(script):
    """Histories that fill, are forgotten and fill again, one step, some and all forgotten in turns; then what is kept
    is taken back, and once more, where nothing is."""
    for (source, n, h), word in product(forgets.FILLERS, ("step", "run")):
        lent = LentMachine(script, single(source), marked_state(n, n, h, OUTPUT_LIMIT))
        lent.reset()
        counts = Counts()
        series_run(lent, RUN_LIMIT, counts)
        for times in range(1, forgets.FILLS + 1):
            kept = lent.state.registers.kept
            number = forget_and_fill(script, lent, word, [1, max(kept // 2, 1), kept][times % 3], counts)
            script.fills[source, h, times, number] += 1
        if h < HISTORY_LIMIT:
            take_all_back(script, lent, counts.forgotten)
            take_all_back(script, lent, counts.forgotten)


def forget_corners(script):
    number_corners(script)
    odd_corners(script)
    unwritten_corners(script)
    kept_record_corners(script)
    full_corners(script)
    fill_corners(script)


def forget_state(chooser, program):
    """A machine after some steps, often with something above U, and nearly as often with a fault, by a record or a kept
    number most of all."""
    state = worked_state(chooser, program)
    if chooser.randrange(2):
        used, h = state.registers.used, state.registers.h
        state.history[used:] = [chooser.randrange(DOUBLE_WORD)] * (h - used)
    if chooser.randrange(8) == 0:
        state.registers.written = 0
    if chooser.randrange(3) == 0:
        chooser.choice([break_record, break_record, break_kept, *BREAKS])(chooser, program, state)
    return state


def forget_case(chooser, script):
    """Such a machine; forgets of any number, and other calls between them."""
    program = made_program(chooser)
    state = forget_state(chooser, program)
    lent = LentMachine(script, program, state, chooser.choice([REGISTERS] * 20 + OTHER_LENGTHS))
    for _ in range(3):
        lent.forget(forgets.any_number(chooser, lent.state.registers.kept))
        any_call(chooser, lent)


# ---- whys


def tried_why(script, key, lent, cell):
    """The number; what is tried is counted with the cell and the answer."""
    number = lent.why(cell)
    script.whys[(*key, cell, number, *lent.told)] += 1
    return number


def asked_corners(script):
    """Records made by hand, some of them forgotten or taken back: every cell, and beyond; without a history too."""
    for (name, records), before in product(whys.RECORDS.items(), whys.BEFORE_ASKED):
        forgotten, backs = before
        if forgotten + backs > len(records):
            continue
        lent = LentMachine(script, forgets.PROGRAM, forgets.machine(records))
        assert lent.forget(forgotten) == 0
        assert [lent.back() for _ in range(backs)] == [0] * backs
        for cell in [*whys.cells_below(forgets.N), *(whys.cells_beyond(forgets.N) if before == (0, 0) else [])]:
            tried_why(script, ("records", name, *before), lent, cell)
    bare = LentMachine(script, forgets.PROGRAM, forgets.bare_machine())
    for cell in [*whys.cells_below(forgets.N), *whys.cells_beyond(forgets.N)]:
        tried_why(script, ("no history",), bare, cell)


def asked_anywhere_corners(script):
    """Of a machine that is halted or at its end, with any SP: neither is looked at."""
    for halt, pc, sp, cell in product((0, 1), range(forgets.LENGTH + 1), range(forgets.N), range(forgets.N)):
        state = forgets.machine(whys.RECORDS["fewer each time"])
        state.registers = replace(state.registers, halt=halt, pc=pc, sp=sp)
        tried_why(script, ("anywhere", halt, pc, sp), LentMachine(script, forgets.PROGRAM, state), cell)


def asked_place_corners(script):
    """The PC of a step in a full program, and the table's place there."""
    for pc in whys.FULL_PCS:
        state = forgets.machine([forgets.record((1, INT, 40), pc=pc)])
        tried_why(script, ("place", pc), LentMachine(script, whys.FULL_PROGRAM, state), 1)


def asked_table_corners(script):
    """The program that the records were made under, and broken ones: 10 before 6."""
    for place, program in enumerate([forgets.PROGRAM, *saves.BROKEN_PROGRAMS]):
        lent = LentMachine(script, program, forgets.machine(forgets.well_formed(2)))
        for cell in whys.ODD_ASKED:
            tried_why(script, ("table", place), lent, cell)


def ask_odd(script, name, odd):
    """This record at every depth: 10 before 6."""
    for below, above, kept in forgets.odd_depths():
        lent = LentMachine(script, forgets.PROGRAM, forgets.machine(forgets.among(odd, below, above), kept))
        for cell in whys.ODD_ASKED:
            tried_why(script, ("odd", name, below, above, kept), lent, cell)


def asked_odd_corners(script):
    """Records that are ill-formed in every way, and with each bit of a record another; a WRITECH's with nothing
    written, which is not asked."""
    for name, odd in forgets.ILL_FORMED.items():
        ask_odd(script, name, odd)
    for place, bit in product(range(len(forgets.CELLS) + 1), range(64)):
        ask_odd(script, (place, bit), forgets.flipped(place, bit))
    for below, above in forgets.DEPTHS:
        state = forgets.machine(forgets.among(forgets.WRITING_RECORD, below, above), written=0)
        tried_why(script, ("unwritten", below, above), LentMachine(script, forgets.PROGRAM, state), 0)


def asked_kept_corners(script):
    """Kept numbers that are those of the records, and every other; then full histories."""
    for records in forgets.KEPT_RECORDS:
        for kept, cell in product(forgets.kept_numbers(records), whys.KEPT_ASKED):
            lent = LentMachine(script, forgets.PROGRAM, forgets.machine(records, kept))
            tried_why(script, ("kept", len(records), sum(map(len, records)), kept), lent, cell)
    for at, kept, lent in full_machines(script):
        for cell in whys.FULL_ASKED:
            tried_why(script, ("full", at, kept), lent, cell)


def asked_step_corners(script):
    """One step of every instruction, over cells that hold INT 0, another thing, and what it writes: each that it wrote
    by hand is told as it was, and of the others it is told that none wrote them."""
    for (text, stack, written), h in product(whys.SINGLE_STEPS, (0, whys.CELLS)):
        program = single(text)
        states = [whys.single_machine(stack, dead, h) for dead in [(INT, 0), (CH, 76)]]
        for state in [*states, whys.already_written(program, states[0])]:
            before = copied(state)
            lent = LentMachine(script, program, state)
            assert lent.step() == 0, text
            for cell in range(whys.CELLS):
                lent.why(cell)
                is_told = h > 0 and cell in written
                told = (1, 1, 0, program.table[0], *before.cell(cell)) if is_told else whys.NONE_WROTE
                assert lent.told == [*told], (text, cell, lent.told)


def asked_size_corners(script):
    """All cells but the last filled by one step, of machines of several sizes; and a cell written long ago, then
    forgotten."""
    for n in whys.FILLED_SIZES:
        lent = LentMachine(script, single(f"ADDSP {n - 1}"), marked_state(n, n, n, 0))
        lent.reset()
        assert lent.step() == 0
        for cell in [*whys.cells_below(n), *whys.cells_beyond(n)]:
            tried_why(script, ("filled", n), lent, cell)
    lent = LentMachine(script, single(whys.LONG_AGO), marked_state(2, 2, HISTORY_LIMIT, 0))
    lent.reset()
    lent.run(RUN_LIMIT)
    for forgotten in range(2):
        lent.forget(forgotten)
        for cell in range(3):
            tried_why(script, ("long ago", forgotten), lent, cell)


def back_to_named(script, program, state, cell):
    """ "the named step did write that cell and no later kept one did": those after it are taken back and the cell stays
    as it is, and with the named step it is as was told."""
    lent = LentMachine(script, program, copied(state))
    assert lent.why(cell) == 0
    is_found, steps_back, pc, place, *old = lent.told
    if not is_found:
        return
    now = lent.state.cell(cell)
    for _ in range(steps_back - 1):
        assert (lent.back(), lent.state.cell(cell)) == (0, now)
    assert (lent.back(), lent.state.cell(cell)) == (0, tuple(old))
    assert (lent.state.registers.pc, lent.program.table[pc]) == (pc, place)
    script.back_to_named[min(steps_back, 3), tuple(old) != now] += 1


def asked_session_corners(script):
    """Sessions with each call before every cell is asked; and each step that was named at the end taken back."""
    for (source, n, size), h in product(whys.SESSIONS, whys.SESSION_ROOMS):
        program = depths.program_of(source)
        lent, counts = LentMachine(script, program, marked_state(n, n, h, size)), Counts()
        lent.reset()
        for place, (word, *words) in enumerate(whys.SESSION_CALLS):
            called(script, lent, counts, word, *words)
            for cell in range(n + 1):
                tried_why(script, ("session", source, h, place), lent, cell)
        for cell in range(n):
            back_to_named(script, program, lent.state, cell)


def asked_after_corners(script):
    """Each call on records that wrote all cells, done and refused, and then a why; a refused load leaves no registers
    that are sound."""
    calls = {**CALLS, "load": lambda lent: lent.load(saves.BASE.image()), "load cut": lambda lent: lent.load(b"")}
    for (word, call), halt in product(calls.items(), (0, 1)):
        state = forgets.machine(forgets.well_formed(forgets.MOST_RECORDS))
        state.registers.halt = halt
        lent = LentMachine(script, forgets.PROGRAM, state)
        number = call(lent)
        script.whys_after[(word, halt, number, lent.why(0), *lent.told)] += 1
        lent.why(forgets.N)


def asked_length_corners(script):
    """A told and registers of any length, where one wrote the cell, where none did, and where it is 6, on a sound
    machine and on a broken one."""
    lengths, tolds = [*OTHER_LENGTHS, REGISTERS], [WHY_TOLD, *other_tolds(WHY_TOLD)]
    for cell, tag, length, told_length in product(whys.LENGTHS_ASKED, (INT, CH + 1), lengths, tolds):
        state = forgets.machine(forgets.well_formed(2))
        state.tags[0] = tag
        LentMachine(script, forgets.PROGRAM, state, length).why(cell, told_length)


def why_corners(script):
    for corners in (asked_corners, asked_anywhere_corners, asked_place_corners, asked_table_corners, asked_odd_corners,
                    asked_kept_corners, asked_step_corners, asked_size_corners, asked_session_corners,
                    asked_after_corners, asked_length_corners):  # fmt: skip
        corners(script)


def why_case(chooser, script):
    """A machine after some steps, often with a fault; any cells, and other calls between them."""
    program = made_program(chooser)
    state = forget_state(chooser, program)
    if chooser.randrange(16) == 0:
        program = damaged_program(chooser, program)
    lent = LentMachine(script, program, state, chooser.choice([REGISTERS] * 20 + OTHER_LENGTHS))
    for _ in range(3):
        for _ in range(3):
            lent.why(whys.any_asked(chooser, lent.state), any_told(chooser, WHY_TOLD))
        any_call(chooser, lent)


# ---- cell 0 of a halted machine


def dwell_values(script, program):
    """Every cell there is a word for, with nothing else to refuse it."""
    for cell in [*FLOAT_CELLS, *INTEGER_CELLS, *ADDRESS_CELLS, *CHARACTER_CELLS]:
        LentMachine(script, program, halted(cell)).dwell()


def dwell_orders(script, program):
    """Every kind of cell with HALT 0 and 1 and SP 0 and 1, sound and broken, by a tag above SP."""
    for cell, halt, sp, tag in product(KINDS_OF_CELLS, (0, 1), (0, 1), (INT, CH + 1)):
        state = halted(cell, halt=halt, sp=sp)
        state.tags[1] = tag
        LentMachine(script, program, state).dwell()


def dwell_histories(script, program):
    """Every PC, and histories used up to any place, with nothing well formed in them."""
    for cell, pc, h in product(PLAIN_CELLS, range(program.length + 2), (0, 1, 8)):
        for used in range(h + 2):
            state = halted(cell, h, pc=pc, used=used, kept=min(used, 1))
            state.history[:] = [forgets.JUNK] * h
            lent = LentMachine(script, program, state)
            lent.dwell()
            lent.step()


def dwell_lengths(script, program):
    """A told and registers of any length, also where there is another refusal."""
    lengths = [*OTHER_LENGTHS, REGISTERS]
    for cell, halt, registers_length, told_length in product(KINDS_OF_CELLS, (0, 1, 2), lengths, [1, *other_tolds(1)]):
        LentMachine(script, program, halted(cell, halt=halt), registers_length).dwell(told_length)


def dwell_corners(script):
    program = single("ADD")
    for corners in (dwell_values, dwell_orders, dwell_histories, dwell_lengths):
        corners(script, program)


def dwell_state(chooser, program):
    """A machine after some steps with a cell 0 of its own or another, most often halted there, with other registers and
    another history."""
    state = worked_state(chooser, program)
    r = state.registers
    if chooser.randrange(8):
        state.set_cell(0, *any_cell(chooser, program.length))
    r.halt = chooser.choice([0, 1, 1, 1, 1, 1, 1, 1])
    r.sp = chooser.choice([0, min(1, r.n - 1), r.n - 1, r.sp, *[chooser.randrange(r.n)] * 4])
    r.pc, r.fbr, r.used = (chooser.randrange(end + 1) for end in (program.length, r.n - 1, r.h))
    r.kept = allowed_kept(chooser, r.used)
    if chooser.randrange(2):
        state.history[:] = [chooser.randrange(DOUBLE_WORD)] * r.h
    return state


def dwell_case(chooser, script):
    """Such a machine, sometimes broken, and sometimes lent a told or registers of another length."""
    program = made_program(chooser)
    state = dwell_state(chooser, program)
    if chooser.randrange(4) == 0:
        chooser.choice(BREAKS)(chooser, program, state)
    if chooser.randrange(16) == 0:
        program = damaged_program(chooser, program)
    lent = LentMachine(script, program, state, chooser.choice([REGISTERS] * 20 + OTHER_LENGTHS))
    lent.dwell(chooser.choice([1] * 20 + [0, 2]))


# ---- states saved and loaded


def tried_save(script, key, program, state):
    """The machine after a save, which is counted by what is tried."""
    lent = LentMachine(script, program, state)
    number = lent.save()
    script.saves[(*key, number, *lent.told)] += 1
    return lent


def tried_load(script, key, program, image, sizes, registers_length=REGISTERS):
    """The same of a load into memory of these sizes that holds what no machine does."""
    lent = LentMachine(script, program, marked_state(*sizes), registers_length)
    number = lent.load(image)
    script.loads[(*key, number)] += 1
    return number, lent


def saved_again(lent, image):
    """What was loaded is saved as it was."""
    assert (lent.save(), lent.saved()) == (0, image), image.hex()


def saved_and_loaded(script, key, program, saved, h=0, size=None):
    """A machine in this state is saved, its image is as it was made by hand, and is loaded and saved again."""
    lent = tried_save(script, key, program, saves.machine(saved, h, size))
    image = saved.image()
    assert lent.saved() == image, saved
    n, size = len(saved.cells), len(lent.state.output)
    number, spare = tried_load(script, key, program, image, (n, n, h, size))
    assert number == 0, saved
    saved_again(spare, image)


def save_corners(script):
    """Every way in which cells and bytes meet bytes, the greatest sizes, registers, cells and bytes at their ends."""
    sizes = [*product(saves.SMALL_SIZES, saves.SMALL_COUNTS), (CELL_LIMIT - 1, 0), (CELL_LIMIT, 255), (CELL_LIMIT, 256)]
    for n, count in sizes:
        h = HISTORY_LIMIT if n == CELL_LIMIT else 0
        saved_and_loaded(script, ("size", n, count), depths.stops(1), saves.patterned(n, count), h)
    for n in (1, saves.N):
        for program, saved in saves.ends(n):
            key = ("ends", n, program.length, saved.pc, saved.sp, saved.fbr, saved.halt)
            saved_and_loaded(script, key, program, saved)
    program, saved = next(saves.ends(CELL_LIMIT))
    saved_and_loaded(script, ("ends", CELL_LIMIT), program, replace(saved, sp=CELL_LIMIT - 1, fbr=CELL_LIMIT - 1))
    for address, cell in product(range(saves.N), saves.ALLOWED_CELLS):
        saved_and_loaded(script, ("cell", address, cell), saves.PROGRAM, saves.BASE.with_cell(address, *cell))
    for first in range(0, 256, 16):
        saved = replace(saves.BASE, shown=bytes(range(first, first + 16)))
        saved_and_loaded(script, ("bytes", first), saves.PROGRAM, saved, size=16 + first)


def unsaved_corners(script):
    """What is not saved: histories of any room and use, and the output's rest; then outputs of another length and
    tables of every fault, with states that are sound and that are broken, and every told."""
    for h, used, kept in ALLOWED_KEPT:
        state = saves.machine(saves.BASE, h, 9, used=used, kept=kept)
        lent = tried_save(script, ("history", h, used, kept), saves.PROGRAM, state)
        assert lent.saved() == saves.BASE.image()
    tolds = [1, *other_tolds(1)]
    states = [saves.machine(saves.BASE, 1), saves.machine(replace(saves.BASE, sp=saves.N), 1)]
    for program, state in product([saves.PROGRAM, *saves.BROKEN_PROGRAMS], states):
        for size, told_length in product([0, 1, STATE_BYTES - 1, STATE_BYTES, STATE_BYTES + 1, IMAGE_BYTES], tolds):
            LentMachine(script, program, copied(state)).save(size, told_length)


def image_bit_corners(script):
    """Small images cut at every byte, and with every bit another, lent what was announced before and what is now."""
    for name, saved in saves.SMALL.items():
        image, n, count = saved.image(), len(saved.cells), len(saved.shown)
        for size in range(len(image) + 1):
            tried_load(script, ("cut", name, size), saves.PROGRAM, image[:size], (n, n, 2, count))
        for bit in range(8 * len(image)):
            changed = saves.flipped(image, bit)
            number, lent = tried_load(script, ("bit", name, bit), saves.PROGRAM, changed, (n, n, 2, count))
            if number == 0:
                saved_again(lent, changed)
            now, count_now = saves.announced_by(changed)
            if (now, count_now) != (n, count):
                sizes = (now, now, 0, min(count_now, OUTPUT_LIMIT))
                tried_load(script, ("announced bit", name, bit), saves.PROGRAM, changed, sizes)


def announced_corners(script):
    """Every N and output count, the image whole, cut and longer; lent so many cells or one more."""
    for n, count in product(saves.SIZES, saves.COUNTS):
        for what, image in saves.around(saves.patterned(n, count).image()).items():
            tried_load(script, ("announced", n, count, what), depths.stops(1), image, (n, n, 1, OUTPUT_LIMIT))
            if what in ("whole", "cut"):
                sizes = (n + 1, n + 1, 1, OUTPUT_LIMIT)
                tried_load(script, ("one more cell", n, count, what), depths.stops(1), image, sizes)


def value_corners(script):
    """Cells, registers and output counts at their ends and beyond; under programs of every length; what is lent."""
    for address, cell in product(range(saves.N), saves.BROKEN_CELLS):
        image = saves.BASE.with_cell(address, *cell).image()
        tried_load(script, ("cell", address, cell), saves.PROGRAM, image, (saves.N, saves.N, 2, 2))
    for name, registers in (saves.ALLOWED_REGISTERS | saves.BROKEN_REGISTERS).items():
        image = replace(saves.BASE, **registers).image()
        tried_load(script, ("registers", name), saves.PROGRAM, image, (saves.N, saves.N, 2, 2))
    for count, size in saves.ALLOWED_OUTPUTS + saves.BROKEN_OUTPUTS + saves.OUTER_OUTPUTS:
        image = replace(saves.BASE, shown=panel.filled(count)).image()
        tried_load(script, ("output", count, size), saves.PROGRAM, image, (saves.N, saves.N, 2, size))
    for name, length in product(saves.CARRIED_STATES, saves.LENGTHS):
        image = saves.carried_state(name).image()
        tried_load(script, ("carried", name, length), depths.stops(length), image, (saves.N, saves.N, 2, 2))
    for sizes in saves.ALLOWED_LENT + saves.REFUSED_LENT:
        tried_load(script, ("lent", *sizes), saves.PROGRAM, saves.BASE.image(), sizes)


def rest_corners(script):
    """Every bit of every padding, and bytes left over."""
    for n, bit in saves.paddings():
        tried_load(script, ("padding", n, bit), depths.stops(1), saves.padded(n, bit), (n, n, 1, 0))
    for n, (what, longer) in product(range(1, 9), saves.LEFT_OVER.items()):
        image = longer(saves.patterned(n, 0).image())
        tried_load(script, ("left over", n, what), depths.stops(1), image, (n, n, 1, 0))


def meeting_load_corners(script):
    """Every set of refusals that can meet: the first in the order is given."""
    for met, program, image, sizes, length, expected in saves.meeting_loads(REGISTERS, OTHER_LENGTHS[:2] + [8, 10]):
        number, _ = tried_load(script, ("meeting", met), program, image, sizes, length)
        assert number == expected, (met, number)
    for program, sizes in product(judged_programs(), [(1, 1, 0, 0), (1, 1, HISTORY_LIMIT + 1, 0)]):
        tried_load(script, ("table",), program, saves.SMALL["one cell"].image(), sizes)


# Images that are given each number of a load, where one cell is lent.
JUDGED_STATES = {
    0: saves.SMALL["one cell"].image(),
    41: saves.SMALL["one cell"].image()[:-1],
    67: saves.BASE.image(),
    10: replace(saves.SMALL["one cell"], sp=1).image(),
    45: saves.SMALL["one cell"].image() + b"\0",
}


def lent_length_corners(script):
    """Registers of every length, by loads of images that are given each number, and by saves, sound and broken, with an
    image and a told of every length."""
    lengths = [*OTHER_LENGTHS, REGISTERS]
    for image, length in product(JUDGED_STATES.values(), lengths):
        tried_load(script, ("length",), saves.PROGRAM, image, (1, 1, 1, 1), length)
    sizes = [STATE_BYTES - 1, STATE_BYTES]
    for length, size, told_length, sp in product(lengths, sizes, [1, *other_tolds(1)], (0, saves.N)):
        state = saves.machine(replace(saves.BASE, sp=sp))
        LentMachine(script, saves.PROGRAM, state, length).save(size, told_length)


def after_load_corners(script):
    """Each call on what a load left, and a load on what each call left: of a machine that goes on, is halted, is at the
    end or has little room."""
    calls = {**CALLS, "load": lambda lent: lent.load(saves.BASE.image())}
    for registers, h, word in product([{}, {"halt": 1}, {"pc": saves.LENGTH}, {"pc": 0}], (0, 1, 8), calls):
        image = replace(saves.BASE, **registers).image()
        lent = LentMachine(script, saves.PROGRAM, marked_state(saves.N, saves.N, h, 4))
        assert lent.load(image) == 0
        for each in (word, "back", "forget", word):
            calls[each](lent)
        assert lent.load(image) == 0


# ---- sessions carried to another controller


def visible(state):
    """What "the saved session" is: all but the history, and what is kept of it."""
    return state.bits[:], state.tags[:], bytes(state.output), replace(state.registers, h=0, used=0, kept=0)


def go_on(lent, steps):
    """(Number, what is visible) of each step until one is refused."""
    answers = []
    while len(answers) < steps and (not answers or answers[-1][0] == 0):
        answers.append((lent.step(), visible(lent.state)))
    return answers


def first_apart(answers, others):
    """(Steps before it, who was refused there, number) of the first answer that is another: "until one is 8"."""
    for steps, ((one, _), (other, _)) in enumerate(zip(answers, others)):
        if one != other:
            assert 8 in (one, other), (steps, one, other)
            return steps, "original" if one == 8 else "spare", 8
    return len(answers), "both", answers[-1][0]


def carry(script, lent, h, steps):
    """The session is saved, loaded into a machine with another history, and goes on there step by step as the original
    does. The image."""
    assert lent.save() == 0
    image, expected, original_h = lent.saved(), visible(lent.state), lent.state.registers.h
    n, size = lent.state.registers.n, len(lent.state.output)
    answers = go_on(lent, steps)
    spare = LentMachine(script, lent.program, marked_state(n, n, h, size))
    assert (spare.load(image), visible(spare.state)) == (0, expected)
    assert spare.state.registers.h == h and not any(spare.state.history)
    saved_again(spare, image)
    others = go_on(spare, steps)
    common, who, number = first_apart(answers, others)
    assert answers[:common] == others[:common]
    script.carried[original_h > 0, h > 0, who, number] += 1
    return image


def room_of(program, image, n, size, steps):
    """The history places that so many steps from a load take, or nothing where there cannot be as many."""
    state = marked_state(n, n, HISTORY_LIMIT, size)
    assert sam.load(program, state, image) == 0
    number, _ = sam.run(program, state, steps)
    return state.registers.used if number != 8 else None


def check_fresh_load(script, lent, image, counts):
    """Demand 3 from a load: all is as "a fresh load" and the steps that are left make it, in just the room they need;
    the records are the newest of these."""
    state, n, size = lent.state, lent.state.registers.n, len(lent.state.output)
    room = room_of(lent.program, image, n, size, counts.net_steps)
    fresh = LentMachine(script, lent.program, marked_state(n, n, room or 0, size))
    assert fresh.load(image) == 0
    fresh.run(counts.net_steps)
    assert fresh.told == [counts.net_steps]
    assert visible(fresh.state) == visible(state)
    used = state.registers.used
    if room is not None and state.registers.h > 0:
        assert fresh.state.history[room - used :] == state.history[:used]


def series_from_load(script, program, image, state, next_calls):
    """A load into this memory, then calls, with S, B and F counted from there; and what is left taken back. The machine
    before that."""
    lent, counts, backs = LentMachine(script, program, state), Counts(), 0
    assert lent.load(image) == 0
    written, has_history = lent.state.registers.written, lent.state.registers.h > 0
    check_series(lent.state, counts)
    for word, *words in next_calls(lent):
        number = called(script, lent, counts, word, *words)
        script.loaded_calls[has_history, word, number] += 1
        backs += word == "back" and number == 0
        check_series(lent.state, counts)
    left = copied(lent.state)
    check_fresh_load(script, lent, image, counts)
    script.fresh_loads[has_history, backs > 0, counts.forgotten > 0] += 1
    if left.registers.used <= 100:
        take_all_back(script, LentMachine(script, program, copied(left)), counts.forgotten, written)
    return left


def session_corners(script):
    """Sessions that end in every way, saved after none to four steps, with every pair of histories; and the same calls
    on each that was loaded."""
    for (source, n, size), original_h, steps in product(saves.SESSIONS, saves.SESSION_ROOMS, saves.SAVED_AFTER):
        program = depths.program_of(source)
        for h in saves.SESSION_ROOMS:
            lent = LentMachine(script, program, marked_state(n, n, original_h, size))
            lent.reset()
            lent.run(steps)
            image = carry(script, lent, h, saves.CARRIED_STEPS)
            if original_h == 0:
                series_from_load(script, program, image, marked_state(n, n, h, size), lambda _: saves.LOADED_CALLS)


def any_room(chooser):
    """For a history; there may be none."""
    return chooser.choice([0, chooser.randrange(1, 12), chooser.randrange(12, 200)])


def session_case(chooser, script):
    """A program after some calls, carried to a spare machine, a series there, and what is left of it carried on."""
    lent, counts = LentMachine(script, made_program(chooser), fresh_state(chooser)), Counts()
    lent.reset()
    series_run(lent, chooser.choice([0, 3, 8, 15, 30, 200]), counts)
    for _ in range(chooser.randrange(4)):
        called(script, lent, counts, *any_series_call(chooser, lent))
    image = carry(script, lent, any_room(chooser), chooser.randrange(1, 9))
    n, size = lent.state.registers.n, len(lent.state.output)
    sizes, count = (n, n, any_room(chooser), size), chooser.randrange(4, 16)
    any_calls = lambda lent: (any_series_call(chooser, lent) for _ in range(count))
    another = made_program(chooser)
    number, _ = tried_load(script, ("another program",), another, image, sizes)
    under = lent.program if number else chooser.choice([lent.program, another])
    left = series_from_load(script, under, image, marked_state(*sizes), any_calls)
    carry(script, LentMachine(script, under, left), any_room(chooser), chooser.randrange(1, 5))


def any_image(chooser, program, n, size):
    """Of a state made of fields near their ends, with any cells and bytes."""
    tags = chooser.choice([(INT, FLOAT, MA), (INT, FLOAT, MA, PA, CH), range(8)])
    cells = [(tag, any_bits(chooser, tag, n) if tag in TAGS else 0) for tag in chooser.choices(tags, k=n)]
    shown = bytes(chooser.randrange(256) for _ in range(chooser.choice([0, size, size // 2, size + 1])))
    pc = chooser.choice([0, program.length, program.length, chooser.randrange(program.length + 1), program.length + 1])
    sp, fbr = (chooser.choice([0, n - 1, chooser.randrange(n), chooser.randrange(n), n]) for _ in range(2))
    return saves.Saved(cells, shown, pc, sp, fbr, chooser.randrange(2)).image()


def changed_image(chooser, image, what):
    """An image damaged in this way."""
    if what == "any bit":
        return saves.flipped(image, chooser.randrange(8 * len(image)))
    if what == "a bit of the header":
        return saves.flipped(image, chooser.randrange(saves.HEADER_BITS))
    if what == "the last bit":
        return saves.flipped(image, 8 * len(image) - 1)
    if what == "cut":
        return image[: chooser.choice([len(image) - 1, chooser.randrange(len(image))])]
    if what == "longer":
        return image + bytes(chooser.choice([1, 1, 2, 4638]))
    return image.ljust(STATE_BYTES, b"\0") if what == "all of a save" else image


def any_lent_sizes(chooser, n, size):
    """Cells, tags, history places and output: most often such as fit."""
    by = chooser.choice([(0, 0)] * 30 + [(1, 1), (-1, -1), (0, 1), (1, 0)])
    h = chooser.choice([any_room(chooser)] * 30 + [HISTORY_LIMIT, HISTORY_LIMIT + 1])
    size = chooser.choice([size] * 12 + [OUTPUT_LIMIT] * 12 + [max(size - 1, 0), OUTPUT_LIMIT + 1])
    return n + by[0], n + by[1], h, size


def any_table(chooser, program):
    """Most often this program's, sometimes another's, sometimes a broken one."""
    kind = chooser.randrange(8)
    return made_program(chooser) if kind == 0 else damaged_program(chooser, program) if kind == 1 else program


CHANGES = ["nothing", "any bit", "a bit of the header", "the last bit", "cut", "longer", "all of a save"]


def load_case(chooser, script):
    """The image of a session or one of any fields, whole and damaged, under its program, another and a broken one, into
    memory that fits and that does not; and calls on what was loaded."""
    program = made_program(chooser)
    state = worked_state(chooser, program)
    n, size, written = state.registers.n, len(state.output), bytearray(STATE_BYTES)
    _, length = sam.save(program, state, written)
    for _ in range(3):
        image = written[:length] if chooser.randrange(3) else any_image(chooser, program, n, size)
        what = chooser.choice(CHANGES)
        changed = changed_image(chooser, bytes(image), what)
        sizes, length_lent = any_lent_sizes(chooser, n, size), chooser.choice([REGISTERS] * 30 + OTHER_LENGTHS)
        number, lent = tried_load(script, ("change", what), any_table(chooser, program), changed, sizes, length_lent)
        if number == 0:
            any_call(chooser, lent)
            any_call(chooser, lent)


def broken_save_case(chooser, script):
    """States and tables with a fault, or nearly so."""
    for fault in chooser.sample([None, *BREAKS], 3):
        program = made_program(chooser)
        state = worked_state(chooser, program)
        if fault is None:
            program = damaged_program(chooser, program)
        else:
            fault(chooser, program, state)
        lent = LentMachine(script, program, state, chooser.choice([REGISTERS] * 20 + OTHER_LENGTHS))
        number = lent.save(any_size(chooser, STATE_BYTES), any_told(chooser))
        script.saves["fault", fault, number] += 1


def save_case(chooser, script):
    chooser.choice([session_case, load_case, load_case, broken_save_case])(chooser, script)


def saving_corners(script):
    for corners in (save_corners, unsaved_corners, image_bit_corners, announced_corners, value_corners, rest_corners,
                    meeting_load_corners, lent_length_corners, after_load_corners, session_corners):  # fmt: skip
        corners(script)


# ---- depth lists


def judge(script, key, program, n, listed, told_length=1):
    """(number, place) of this list, which is counted by what is tried."""
    script.program(program)
    answer = script.depths(program, n, listed, told_length)
    script.depth_lists[(*key, *answer)] += 1
    return answer


def tried_corners(script):
    """Every instruction with too few values, just enough and more, in machines that are just too small and that are
    not; what follows it; and the ends of a program."""
    for text, values, room, program, listed, n in depths.tried_lists():
        judge(script, ("instruction", text, values, room), program, n, listed)
    for text, has_depth, program, listed in depths.forbidden_lists():
        judge(script, ("forbidden", text, has_depth), program, CELL_LIMIT, listed)
    for text, follower, what, program, listed in depths.followed_lists():
        judge(script, ("follower", text, follower, what), program, depths.ROOMY, listed)
    for text, length, has_depth, program, listed in depths.end_lists():
        judge(script, ("end", text, length, has_depth), program, depths.ROOMY, listed)


def deep_corners(script):
    for text, what, n, program, listed in depths.deep_lists():
        judge(script, ("deep", text, what, n), program, n, listed)


def size_corners(script):
    """Every N, and lists of every length, by one and by more off."""
    for n in [*depths.ALLOWED_SIZES, *depths.SMALL_SIZES, *depths.OUTER_SIZES]:
        judge(script, ("size", n), depths.SIZED, n, depths.SIZED_DEPTHS)
    for length in depths.PROGRAM_LENGTHS:
        for count in depths.list_lengths(length):
            judge(script, ("length", length, count), depths.stops(length), 1, [0] * count)


def meeting_corners(script):
    """Every set of refusals that can meet: the first in the order is given."""
    for met, program, n, listed, told_length, *expected in chain(depths.meeting_lists(), depths.empty_lists()):
        answer = judge(script, ("meeting", met), program, n, listed, told_length)
        assert list(answer) == expected, (met, answer, expected)
    for program, told_length in product(judged_programs(), [1, *other_tolds(1)]):
        length = program.length if program.length <= PLACES else 2
        judge(script, ("table",), program, 1, [0] * length, told_length)


def told_corners(script):
    """Each number of a list with every told."""
    for met, program, n, listed, told_length, *_ in depths.meeting_lists():
        if len(met) <= 1 and told_length == 1:
            for other in other_tolds(1):
                judge(script, ("told",), program, n, listed, other)


def small_corners(script):
    for program, n, listed in depths.small_lists():
        judge(script, ("small",), program, n, listed)


def check_listed(script, lent, listed, word, number):
    """ "no run of an accepted program meets 2, 3 or 7. Each place such a run reaches has SP as its listed depth." """
    registers = lent.state.registers
    assert number not in (2, 3, 7), (word, number)
    assert listed[registers.pc] == registers.sp, registers
    script.listed_calls[word, number] += 1


def listed_machine(script, program, listed, n, h, size):
    """A machine of the N that the list was accepted for, after its reset."""
    lent = LentMachine(script, program, marked_state(n, n, h, size))
    assert script.depths(program, n, listed) == (0, 0)
    check_listed(script, lent, listed, "reset", lent.reset())
    return lent


def play(script, lent, listed, word, *words):
    number = {"step": lent.step, "run": lent.run, "back": lent.back, "forget": lent.forget}[word](*words)
    check_listed(script, lent, listed, word, number)
    return number


PLAYED_STEPS = 30  # more than the short programs make


def played_corners(script):
    """Programs with lists by hand, in as few cells as they are accepted for, with a history and without: steps to the
    end and beyond, a run, all taken back, and made again with some forgotten."""
    for (source, listed), h in product(depths.PLAYED, (0, 7, 64)):
        program = depths.program_of(source)
        lent = listed_machine(script, program, listed, depths.least_size(program, listed), h, 2)
        for _ in range(PLAYED_STEPS):
            play(script, lent, listed, "step")
        play(script, lent, listed, "run", PLAYED_STEPS)
        while play(script, lent, listed, "back") == 0:
            pass
        for word, *words in [("run", 5), ("forget", 1), ("forget", PLAYED_STEPS), ("run", PLAYED_STEPS), ("back",)]:
            play(script, lent, listed, word, *words)


def teaching_corners(script):
    """The lists beside the published programs, and a run of each."""
    for name in teaching.LISTED:
        program, listed = teaching.program_of(name), teaching.depths_of(name)
        judge(script, ("teaching", name), program, CELL_LIMIT, listed)
        lent = listed_machine(script, program, listed, CELL_LIMIT, 64, OUTPUT_LIMIT)
        while play(script, lent, listed, "step") == 0:
            pass
        lent = listed_machine(script, program, listed, CELL_LIMIT, 0, OUTPUT_LIMIT)
        play(script, lent, listed, "run", RUN_LIMIT)
    program = teaching.program_of("complaint")
    judge(script, ("teaching", "complaint"), program, CELL_LIMIT, list(range(program.length)))


def depth_corners(script):
    for corners in (tried_corners, deep_corners, size_corners, meeting_corners, told_corners, small_corners,
                    played_corners, teaching_corners):  # fmt: skip
        corners(script)


def damaged_depths(chooser, program, listed, n):
    """(What was damaged, program, N, list)."""
    what = chooser.choice([*depths.DAMAGES, *depths.DAMAGES, "moved", "length", "N smaller", "N larger", "table"])
    if what in depths.DAMAGES:
        return what, program, n, depths.damaged_at(chooser, listed, n, what)
    if what == "moved":
        return what, program, n, depths.moved(chooser, listed)
    if what == "length":
        return what, program, n, depths.any_length(chooser, listed)
    if what == "N smaller":
        return what, program, chooser.choice([n - 1, n - 1, chooser.randrange(n)]), listed
    if what == "N larger":
        return what, program, n + chooser.choice([1, chooser.randrange(1, CELL_LIMIT)]), listed
    return what, damaged_program(chooser, program), n, listed


def play_any(chooser, script, program, listed, n):
    """Steps, runs, step-backs and forgets from a reset."""
    h = chooser.choice([0, chooser.randrange(1, 12), chooser.randrange(12, 200)])
    lent = listed_machine(script, program, listed, n, h, chooser.choice([0, 2, OUTPUT_LIMIT]))
    for _ in range(chooser.randrange(4, 20)):
        kept = lent.state.registers.kept
        words = [("step",), ("step",), ("run", chooser.randrange(1, 8)), ("run", 200), ("back",),
                 ("forget", forgets.any_number(chooser, kept))]  # fmt: skip
        play(script, lent, listed, *chooser.choice(words))


def depth_case(chooser, script):
    """A right list, accepted for the least N and above; damaged in every way; and played."""
    program, listed = depths.full_pair(chooser) if chooser.randrange(100) == 0 else depths.any_pair(chooser)
    least = depths.least_size(program, listed)
    n = chooser.choice([least, least, min(least + 1, CELL_LIMIT), CELL_LIMIT])
    assert judge(script, ("right", program.length == PLACES), program, n, listed) == (0, 0)
    for _ in range(4):
        what, *damaged = damaged_depths(chooser, program, listed, n)
        number, _ = judge(script, ("damage", what), *damaged, any_told(chooser))
        script.damaged_lists[what, number] += 1
    play_any(chooser, script, program, listed, n)
    program = made_program(chooser)  # with any instruction at all
    judge(script, ("any",), program, n, [depths.any_depth(chooser, n) for _ in range(program.length)])


# ---- one instruction at a time

# Instructions that do another thing with another tag: how many values each takes, and the edges it is tried with.
TESTED = {
    "EQUAL": (2, FLOAT_EDGES),
    "ISNIL": (1, FLOAT_EDGES),
    **{name: (2, INTEGER_EDGES) for name in SUMS},
    **{name: (1, ITOF_EDGES + FTOI_EDGES) for name in CONVERSIONS},
}


def any_bits(chooser, tag, n):
    if tag == INT:
        return any_integer(chooser) % WORD
    if tag == FLOAT:
        return any_pattern(chooser)
    if tag == MA:
        near = [0, 1, n - 1, n, WORD - 1, chooser.randrange(n), chooser.randrange(n)]
        return chooser.choice(near + [any_integer(chooser) % WORD] * 3)
    if tag == CH:
        return any_character(chooser)
    return chooser.randrange(3)


def any_small_state(chooser):
    """A few cells, most of them of one tag."""
    n, h = chooser.randrange(1, 10), chooser.choice([0, 0, 1, 2, 3, 9])
    tag = chooser.choice([INT, INT, FLOAT, MA, PA, CH])
    tags = [chooser.choice([tag, tag, tag, chooser.choice(TAGS)]) for _ in range(n)]
    output = bytearray(chooser.randrange(256) for _ in range(chooser.randrange(4)))
    registers = sam.Registers(n, h, sp=chooser.choice([n - 1, chooser.randrange(n)]), fbr=chooser.randrange(n))
    registers.written = chooser.randrange(len(output) + 1)
    return sam.State([any_bits(chooser, tag, n) for tag in tags], tags, [0] * h, output, registers)


def step_number(program, state):
    """What a step would give."""
    return sam.step(program, copied(state))


def edge_pairs():
    """Each instruction of two INTs or two FLOATs with each pair of edge values."""
    for names, tag, edges in [(TWO_INTEGERS, INT, INTEGER_EDGES), ([*TWO_FLOATS, "CMPF"], FLOAT, FLOAT_EDGES)]:
        for program, below, top in product(map(single, names), edges, edges):
            yield program, stacked((tag, below % WORD), (tag, top % WORD))


def edge_tests():
    """Each instruction of TESTED with every edge, or every two of them, each under every tag that may have it."""
    for name, (count, edges) in TESTED.items():
        program = single(name)
        patterns = [edge % WORD for edge in edges]
        cells = [cell for cell in product(TAGS, patterns) if cell_sound(*cell, program.length)]
        for values in product(cells, repeat=count):
            yield program, stacked(*values)


def edge_addresses():
    """The sums of an MA and an INT without a history, and with one that has no room for the record."""
    for program, below, top, h in product(map(single, SUMS), INTEGER_EDGES, INTEGER_EDGES, (0, 1)):
        yield program, stacked((MA, below % WORD), (INT, top % WORD), h=h)


def edge_conversions():
    """ITOF and FTOI without a history, with one that has no room for the record, and without a value."""
    for name, tag in zip(CONVERSIONS, (INT, FLOAT)):
        program = single(name)
        for edge, h in product(TESTED[name][1], (0, 1)):
            yield program, stacked((tag, edge % WORD), h=h)
        yield program, stacked()


def edge_characters():
    """Every instruction on a stack of characters alone."""
    for name, kind in zip(NAMES, KINDS):
        operand = "" if kind == NO_OPERAND else " #00000000" if kind == PATTERN else " 0"
        for h in (0, 3):
            state = stacked((CH, 0), (CH, 1), (CH, LAST_CHARACTER), (CH, 1), h=h)
            state.registers.sp = 3  # with room for one more
            yield single(name + operand), state


def edge_states():
    return chain(edge_pairs(), edge_tests(), edge_addresses(), edge_conversions(), edge_characters())


def lend_single(script, word, program, state):
    """A machine for one instruction. What a test is made of, and what it gives, is counted, by the call (`word`) that
    follows."""
    name = NAMES[program.table[0] >> 32]
    if name in TESTED:
        (count, _), sp = TESTED[name], state.registers.sp
        values = tuple(state.cells(max(sp - count, 0), sp))
        script.tests[word, name, values, step_number(program, state)] += 1
    if set(state.tags[: state.registers.sp]) == {CH}:
        script.character_steps[word, name, step_number(program, state)] += 1
    return LentMachine(script, program, state)


def step_and_back(script, program, state):
    lent = lend_single(script, "step", program, state)
    lent.step()
    lent.back()


def instruction_corners(script):
    """Steps, and runs too where an end refuses."""
    for program, state in edge_states():
        step_and_back(script, program, state)
    for program, state in chain(edge_addresses(), edge_conversions()):
        lend_single(script, "run", program, state).run(1)


def any_single(chooser):
    """One instruction and a small stack: most often one that it takes, so that its results are compared."""
    code = chooser.randrange(len(NAMES))
    program = single(NAMES[code] + any_operand(chooser, KINDS[code], 1))
    state = any_small_state(chooser)
    for _ in range(chooser.choice([0, 6, 30])):
        if step_number(program, state) not in (3, 4):
            break
        state = any_small_state(chooser)
    return program, state


def instruction_case(chooser, script):
    step_and_back(script, *any_single(chooser))


# ---- the direct run, packer and unpacker in C, which the speeds are measured against


def plain_single(script, program, state):
    lend_single(script, "plain", program, state).run(1, word="plain")


def plain_corners(script):
    unpack_tolds(script, "plain_unpack")
    pack_tolds(script, "plain_pack")
    every_code(script, "plain_pack", "plain_unpack")
    every_character(script, "plain_pack", "plain_unpack")
    for program, state in edge_states():
        plain_single(script, program, state)


def plain_series(chooser, script):
    """Runs of a program, from a state that may be broken."""
    program = made_program(chooser)
    state = worked_state(chooser, program)
    if chooser.randrange(3) == 0:
        chooser.choice(BREAKS)(chooser, program, state)
    lent = LentMachine(script, program, state)
    for _ in range(6):
        lent.run(chooser.choice([0, 1, 2, 5, 200, 1000, 1000001]), chooser.choice([1] * 20 + [2]), word="plain")


def plain_image(chooser, script):
    program = packed_program(chooser)
    script.program(program)
    there_and_back(chooser, script, program, "plain_pack", "plain_unpack")


def plain_case(chooser, script):
    """Such runs, as often a single instruction, and sometimes an image."""
    kind = chooser.randrange(5)
    if kind < 2:
        plain_series(chooser, script)
    elif kind < 4:
        plain_single(script, *any_single(chooser))
    else:
        plain_image(chooser, script)


# ---- formulas


def tried_formula(script, what, text):
    """(formula, number, table, told); what is tried is counted with the answer."""
    formula = text.encode("latin-1")
    number, table, told = script.translate(formula)
    script.formulas[(what, formulas.label(text), number, *told)] += 1
    return formula, number, table, told


def formula_machine(script, program, depth, cells, h, is_tight):
    """These cells below SP and an output that was written to, with room for this depth, or for one less."""
    sp = len(cells)
    n = sp + depth + (not is_tight)
    lent = LentMachine(script, program, marked_state(n, n, h, 3))
    assert lent.reset() == 0
    for address, cell in enumerate(cells):
        lent.state.set_cell(address, *cell)
    lent.state.output[:2] = b"\x41\xff"
    lent.state.registers = replace(lent.state.registers, sp=sp, written=2)
    lent.lend()
    return lent


# What a run has one too few of, and the number that it meets then, or 5 before it.
SHORT_OF = {"nothing": 0, "cells": 7, "places": 8, "steps": 50}


def run_formula(script, formula, table, told, values, between=(), has_history=False, short_of="nothing"):
    """Just so much room, history and limit as it needs, or one less of one of them. The number on top is held to the
    evaluator's, and the cells below to what they were."""
    length, depth = told
    cells = [*[(INT, value % WORD) for value in values], *between]
    h = (2 * length - 1 - (short_of == "places")) * has_history
    lent = formula_machine(script, sam.Program(table, length), depth, cells, h, short_of == "cells")
    number = lent.run(length - (short_of == "steps"))
    value = sam.evaluate(formula, values)
    allowed = {SHORT_OF[short_of]} if value is not None else {5} if short_of == "nothing" else {5, SHORT_OF[short_of]}
    assert number in allowed, (formula, values, short_of, number)
    assert lent.state.cells(0, len(cells)) == cells, formula
    if number == 0:
        assert lent.state.registers.sp == len(cells) + 1
        assert lent.state.cell(len(cells)) == (INT, value % WORD), (formula, values, value)
    script.formula_runs[short_of, has_history, bool(between), number] += 1


def accepted_corners(script):
    """Each is run with every kind of room, the long ones with enough of it."""
    values = [7, 2, -3, 40, LEAST, 5, -1, 11]
    between = [(FLOAT, 0x40200000), (CH, 127), (MA, WORD - 1)]
    for text in formulas.ACCEPTED:
        formula, _, table, told = tried_formula(script, "accepted", text)
        for short_of, has_history in product(SHORT_OF, (False, True)):
            if short_of != "places" or has_history:
                run_formula(script, formula, table, told, values, between, has_history, short_of)
    for text, has_history in product(formulas.LONG_ACCEPTED, (False, True)):
        formula, _, table, told = tried_formula(script, "accepted", text)
        run_formula(script, formula, table, told, values, (), has_history)


def worked_corners(script):
    """The numbers by hand."""
    for text, values, value in formulas.WORKED:
        formula, _, table, told = tried_formula(script, "worked", text)
        assert sam.evaluate(formula, formulas.filled(values)) == value, text
        run_formula(script, formula, table, told, formulas.filled(values))
        run_formula(script, formula, table, told, formulas.filled(values), [(PA, told[0])], True)


def refused_formula_corners(script):
    """At a token, whatever is behind it; at the end; refusals that meet; and every forbidden byte."""
    for text, _ in formulas.refused_texts():
        tried_formula(script, "refused", text)
    for text in formulas.UNENDED:
        tried_formula(script, "unended", text)
    for met, texts in formulas.MEETING.items():
        for text in texts:
            tried_formula(script, met, text)
    for byte, (before, behind) in product(formulas.FORBIDDEN_BYTES, formulas.AROUND):
        tried_formula(script, "byte", before + chr(byte) + behind)
    for text in formulas.TOO_LONG:
        tried_formula(script, "too long", text)


def short_corners(script):
    """Every one of a few bytes."""
    for text in formulas.SHORT_TEXTS:
        formula, number, table, told = tried_formula(script, "short", text)
        if number == 0:
            run_formula(script, formula, table, told, [5] * len(formulas.NAMES))


def formula_length_corners(script):
    """A table and a told of another length, with a formula that is done and with each refusal: 31 before them all."""
    for text in formulas.JUDGED.values():
        for places in formulas.OTHER_PLACES:
            script.translate(text.encode(), places)
        for lengths in wrong_tolds("translate"):
            script.translate(text.encode(), *lengths)


def formula_corners(script):
    for corners in (accepted_corners, worked_corners, refused_formula_corners, short_corners, formula_length_corners):
        corners(script)


def any_formula(chooser):
    """What kind it is, and the formula."""
    tree = formulas.any_tree(chooser, chooser.randrange(1, 8))
    kind = chooser.randrange(40)
    if kind < 9:
        return "tree", formulas.text_of(chooser, tree)
    if kind < 16:
        return "more brackets", formulas.text_of(chooser, tree, chooser.choice([0.1, 0.3, 0.7]))
    if kind < 26:
        return "walked", formulas.walked(chooser, chooser.choice([3, 8, 20, 60, 200]))
    if kind < 34:
        whole = formulas.text_of(chooser, tree) if chooser.randrange(2) else formulas.walked(chooser, 30)
        return "damaged", formulas.damaged(chooser, whole)
    if kind < 37:
        return "long", formulas.long_text(chooser)
    if kind < 39:
        return "long and damaged", formulas.damaged(chooser, formulas.long_text(chooser))
    return "wide", formulas.wide_text(chooser)


def formula_case(chooser, script):
    """Translated, and run where it is accepted, with any values and most often just the room it needs."""
    kind, formula = any_formula(chooser)
    number, table, told = script.translate(formula, any_size(chooser, PLACES), any_told(chooser, TRANSLATE_TOLD))
    script.drawn_formulas[kind, number] += 1
    if number == 0:
        has_history = chooser.randrange(2) == 0
        short_of = chooser.choice(["nothing"] * 6 + ["cells", "steps", "places" if has_history else "cells"])
        between = formulas.any_between(chooser, told[0])
        run_formula(script, formula, table, told, formulas.any_values(chooser), between, has_history, short_of)


# ---- more room, the same evening


def begun(script, start, h):
    """A machine with so many history places after its start."""
    lent = LentMachine(script, start.program, marked_state(start.n, start.n, h, start.size))
    number = lent.reset() if start.image is None else lent.load(start.image)
    assert number == 0
    return lent


def saved_start(script, start, h, steps):
    """One saved state: that of a session from there with so many places, after so many steps."""
    lent = begun(script, start, h)
    lent.run(steps)
    assert lent.save() == 0
    return replace(start, image=lent.saved())


def steps_and_places(start, most):
    """The steps that a session makes, so many at most, and the places that they take where there is room."""
    state = marked_state(start.n, start.n, HISTORY_LIMIT, start.size)
    number = sam.reset(start.program, state) if start.image is None else sam.load(start.program, state, start.image)
    assert number == 0
    _, steps = sam.run(start.program, state, most)
    return steps, state.registers.used


def step_session(script, start, h, most):
    """(Numbers, bytes of output that were written, lines) of a start and its steps, until one is refused and refused
    again."""
    lent = begun(script, start, h)
    written, numbers, lines = lent.state.registers.written, [], [script.last_line()]
    while len(numbers) < most and not any(numbers[:-1]):
        numbers.append(lent.step())
        lines.append(script.last_line())
    return numbers, lent.state.registers.written - written, lines


def held_steps(script, start, room_list, most, name=None):
    """A session with each of these rooms, all with the same start, and each two of them held to request n."""
    sessions = [(h, *step_session(script, start, h, most)) for h in room_list]
    for (h, numbers, wrote, lines), (other_h, others, other_wrote, other_lines) in combinations(sessions, 2):
        script.hold(rooms.judge_steps, lines, other_lines)
        kinds = rooms.kinds_of(h, other_h)
        script.room_steps[(start.word(), kinds, *rooms.end_of_steps(numbers, others))] += 1
        if wrote > 0 and other_wrote > 0:
            script.room_outputs[start.word(), kinds] += 1
        script.taught_rooms[name, start.word(), kinds, "step"] += 1
    script.room_starts.update((start.word(), numbers[0]) for _, numbers, _, _ in sessions)
    return [numbers for _, numbers, _, _ in sessions]


def run_session(script, start, h, limits):
    """((Number, steps) of each, lines) of a start and runs with these limits."""
    lent = begun(script, start, h)
    runs, lines = [], [script.last_line()]
    for limit in limits:
        runs.append((lent.run(limit), *lent.told))
        lines.append(script.last_line())
    return runs, lines


def held_runs(script, start, room_list, limits, name=None):
    """The same of sessions of runs."""
    sessions = [(h, *run_session(script, start, h, limits)) for h in room_list]
    for (h, runs, lines), (other_h, others, other_lines) in combinations(sessions, 2):
        script.hold(rooms.judge_runs, lines, other_lines)
        kinds = rooms.kinds_of(h, other_h)
        for run, other in zip(runs, others):
            end = rooms.end_of_runs(run, other)
            script.room_runs[(start.word(), kinds, *end)] += 1
            if end[0] != "both":
                break
        script.taught_rooms[name, start.word(), kinds, "run"] += 1


def held_limits(script, program, state, most, name=None):
    """Runs of one state, each on a copy of it, with the limits around what it needs and up to the greatest; nothing
    where it does not end within so many steps."""
    number, steps = sam.run(program, copied(state), most)
    if number == 50:
        return
    lines = []
    for what, limit in rooms.limits_around(number, steps, RUN_LIMIT).items():
        given = LentMachine(script, program, copied(state)).run(limit)
        lines.append(script.last_line())
        script.room_limits[number, state.registers.h > 0, steps > 0, what, given] += 1
    script.hold(rooms.judge_limits, *lines)
    script.taught_limits[name, number] += 1


def limits_on_the_way(script, start, h, most, name=None):
    """Of the states at the start, after half of the steps, and at the end, where the next ends at once."""
    lent, states = begun(script, start, h), []
    _, steps = sam.run(start.program, copied(lent.state), most)
    for limit in (0, steps // 2, most):
        lent.run(limit)
        states.append(copied(lent.state))
    for state in states:
        held_limits(script, start.program, state, most, name)


def room_starts(script, program, n, size):
    """A reset; and states that were saved on the way without a history, and at the end with one."""
    start = rooms.Start(program, n, size)
    yield start
    for steps, h in zip(rooms.SAVED_AFTER, (0, HISTORY_LIMIT)):
        yield saved_start(script, start, h, steps)


def room_session_corners(script):
    """Sessions that end in every way, with output and without, in rooms around what they take."""
    for (source, n, size, number), shown in product(rooms.SESSIONS, ("", rooms.SHOWING)):
        program = depths.program_of(shown + source)
        for start in room_starts(script, program, n, size + bool(shown)):
            _, enough = steps_and_places(start, rooms.MOST_STEPS)
            room_list = rooms.rooms_around(enough)[:: -1 if shown else 1]
            sessions = held_steps(script, start, room_list, rooms.MOST_STEPS)
            assert sessions[room_list.index(0)][-1] == number, shown + source
            for limits in rooms.LIMITS:
                held_runs(script, start, room_list, limits)
            for h in (0, *rooms.LIMITED_ROOMS):
                limits_on_the_way(script, start, h, rooms.MOST_STEPS)


def room_instruction_corners(script):
    """One step of every instruction from a saved state, over cells that hold another thing, with just enough room and
    with one place less."""
    for text, stack, written in whys.SINGLE_STEPS:
        lent = LentMachine(script, single(text), whys.single_machine(stack, (CH, 76), 0))
        assert lent.save() == 0
        start = rooms.Start(lent.program, whys.CELLS, len(lent.state.output), lent.saved())
        cells = len(written)
        room_list = list(dict.fromkeys([cells, 0, HISTORY_LIMIT, cells + 1]))
        for h, numbers in zip(room_list, held_steps(script, start, room_list, 1)):
            assert numbers == [8 if h == cells > 0 else 0], (text, h)
            script.room_instructions[text.split(" ")[0], h, *numbers] += 1


def room_filling_corners(script):
    """Sessions that fill all there can be: with a little less room they end at the same step."""
    start = rooms.Start(depths.program_of(rooms.FILLING), rooms.FILLING_CELLS, 0)
    for start, room_list in [
        (start, rooms.FILLING_ROOMS),
        (saved_start(script, start, 0, 3), rooms.FILLING_ROOMS[::-1]),
    ]:
        sessions = held_steps(script, start, room_list, rooms.MOST_STEPS)
        assert {h: len(numbers) - 2 for h, numbers in zip(room_list, sessions)} == rooms.FILLED_AFTER, sessions
        held_runs(script, start, room_list, (rooms.MOST_STEPS,))
    limits_on_the_way(script, start, HISTORY_LIMIT, rooms.MOST_STEPS)


def room_teaching_corners(script):
    """The published programs, the panel and the complaint: to their ends by steps and by runs, and saved half way."""
    for name in teaching.PROGRAMS:
        start = rooms.Start(teaching.program_of(name), rooms.TEACHING_CELLS, rooms.TEACHING_OUTPUT)
        half = steps_and_places(start, rooms.TEACHING_STEPS)[0] // 2
        for start in (start, saved_start(script, start, 0, half)):
            steps, enough = steps_and_places(start, rooms.TEACHING_STEPS)
            room_list = list(dict.fromkeys([enough - 1, 0, HISTORY_LIMIT, enough, rooms.TEACHING_SMALL]))
            held_steps(script, start, room_list, steps + 2, name)
            held_runs(script, start, room_list, (RUN_LIMIT,), name)
            for h in room_list:
                limits_on_the_way(script, start, h, steps + 1, name)


def room_corners(script):
    for corners in (room_session_corners, room_instruction_corners, room_filling_corners, room_teaching_corners):
        corners(script)


def any_start(chooser, script):
    """A reset of any sizes, or a state that was saved after any steps, with any history."""
    state = fresh_state(chooser)
    start = rooms.Start(made_program(chooser), len(state.bits), len(state.output))
    if chooser.randrange(2):
        return start
    return saved_start(script, start, any_room(chooser), chooser.choice([0, 1, 3, 8, 15, 30, 200]))


def room_case(chooser, script):
    """Sessions of steps or of runs from one start in some rooms, and larger limits in one of them."""
    start, most = any_start(chooser, script), chooser.choice([3, 8, 12, 12, 40])
    _, enough = steps_and_places(start, most)
    room_list = list(dict.fromkeys(rooms.any_room(chooser, enough) for _ in range(4)))
    if chooser.randrange(3):
        held_steps(script, start, room_list, most)
    else:
        held_runs(script, start, room_list, [chooser.choice([0, 1, 2, 5, most, 200]) for _ in range(3)])
    if chooser.randrange(2):
        limits_on_the_way(script, start, chooser.choice(room_list), chooser.choice([most, 300]))


# What a family has before its cases are drawn.
CORNERS = {
    "text": text_corners,
    "image": image_corners,
    "reset": reset_corners,
    "broken": broken_corners,
    "forget": forget_corners,
    "why": why_corners,
    "dwell": dwell_corners,
    "save": saving_corners,
    "room": room_corners,
    "depths": depth_corners,
    "formula": formula_corners,
    "instruction": instruction_corners,
    "plain": plain_corners,
}

# Each family with its share of the cases.
FAMILIES = {
    "text": (text_case, 4),
    "image": (image_case, 2),
    "series": (series_case, 3),
    "reset": (reset_case, 1),
    "instruction": (instruction_case, 40),
    "broken": (broken_case, 5),
    "forget": (forget_case, 3),
    "why": (why_case, 2),
    "dwell": (dwell_case, 6),
    "save": (save_case, 3),
    "room": (room_case, 2),
    "depths": (depth_case, 3),
    "formula": (formula_case, 4),
    "plain": (plain_case, 4),
}
