"""Programs and depth lists for the checker, request j: every instruction at depths around what it needs, in machines
around what it leaves; followers and ends; refusals that meet; and programs that were made for their lists."""

from itertools import product

import sam
from depth_list import NoList, assembled, proposed
from programs import Builder, any_instruction, any_operand
from sam.depths import NOT_REACHED, effect
from sam.machine import CELL_LIMIT
from sam.table import CODES, KINDS, NAMES, OFFSET, PROGRAM_LIMIT, TARGET, WORD

DOUBLE_WORD = 1 << 64
DEEPEST = NOT_REACHED - 1  # of a list
HALF_WORD = NOT_REACHED + 1  # a sum modulo this would be another
LAST_OFFSET = 999
FORBIDDEN = ["JSR", "JSRIND", "JUMPIND", "POPSP"]
ALLOWED = [name for name in NAMES if name not in FORBIDDEN]
JUMPS = ["JUMP", "JUMPC"]


def program_of(*instructions):
    return assembled(" ".join(instructions).encode())


def effect_at(program, place):
    return effect(program.table[place], place)


# ---- one instruction, at place 1 behind a STOP, where nothing leads to it


def operands(name, target):
    """Of a few kinds, where an instruction has one."""
    kind = KINDS[CODES[name]]
    if name == "ADDSP":
        return [f" {by}" for by in (-LAST_OFFSET, -3, -2, -1, 0, 1, 2, LAST_OFFSET)]
    if kind == OFFSET:
        return [f" {by}" for by in (-LAST_OFFSET, 0, LAST_OFFSET)]
    if kind == TARGET:
        return [f" {target}"]
    return {"PUSHIMM": [" 1"], "PUSHIMMF": [" 2.5"], "PUSHIMMCH": [" 76"]}.get(name, [""])


def with_operands(names, target):
    return [name + operand for name in names for operand in operands(name, target)]


TRIED = with_operands(ALLOWED, 2)
TRIED_FORBIDDEN = with_operands(FORBIDDEN, 2)
FEW, ENOUGH, MORE = "too few values", "just enough", "more"
FULL, ROOM, WIDE = "after at N", "after at N-1", "much room"


def tried_at(text, depth):
    """A program and its list with this instruction at this depth. What follows goes down at once, so that only the
    instruction's own rule can fail."""
    after = max(depth + effect_at(program_of("STOP", text, "STOP"), 1).change, 0)
    down = min(after, LAST_OFFSET)
    return program_of("STOP", text, f"ADDSP -{down}", "STOP"), [0, depth, after, after - down]


def tried_lists():
    """(Instruction, how its values are, how its room is, program, list, N)."""
    for text in TRIED:
        of = effect_at(program_of("STOP", text, "STOP"), 1)
        for depth in range(max(of.needed - 2, 0), of.needed + 3):
            values = FEW if depth < of.needed else ENOUGH if depth == of.needed else MORE
            after = max(depth + of.change, 0)
            for room, n in [(FULL, after), (ROOM, after + 1), (WIDE, CELL_LIMIT)]:
                if 1 <= n <= CELL_LIMIT and (room != WIDE or after < CELL_LIMIT):
                    yield text, values, room, *tried_at(text, depth), n


def forbidden_lists():
    """(Instruction, whether its place has a depth, program, list): its place is 1."""
    for text, depth in product(TRIED_FORBIDDEN, (0, 1, 2, NOT_REACHED)):
        yield text, depth != NOT_REACHED, program_of("STOP", text, "STOP"), [0, depth, 1]


# ---- what follows an instruction, at place 2 of five

AT, LENGTH, PLENTY, ROOMY = 2, 5, 4, 16  # its place, the program's length, the depth there, N
FOLLOWED = [text for text in with_operands([name for name in ALLOWED if name not in JUMPS], AT) if "999" not in text]
JUMPING = [f"{name} {target}" for name, target in product(JUMPS, range(LENGTH + 1))]
# What a follower has in place of the depth after.
OTHER_DEPTHS = {
    "one more": lambda after: after + 1,
    "one less": lambda after: after - 1,
    "the depth before": lambda after: PLENTY,
    "zero": lambda after: 0,
    "N-1": lambda after: ROOMY - 1,
    "N": lambda after: ROOMY,
    "deepest": lambda after: DEEPEST,
    "not reached": lambda after: NOT_REACHED,
}


def followed_by(text):
    """A program with this instruction at its place; all else is STOP."""
    return program_of("STOP", "STOP", text, "STOP", "STOP")


def right_list(program):
    """With the depth after wherever it can be: place 0 keeps 0, its own place its depth; the end has none."""
    of = effect_at(program, AT)
    depths = [0, NOT_REACHED, PLENTY, NOT_REACHED, NOT_REACHED]
    for follower in of.followers:
        if follower not in (0, AT, LENGTH):
            depths[follower] = PLENTY + of.change
    return depths


def followed_lists():
    """(Instruction, follower or none, what it has, program, list): as right as can be, and with another depth at a
    follower, where the instruction has a depth and where it has none."""
    for text in FOLLOWED + JUMPING:
        program = followed_by(text)
        of = effect_at(program, AT)
        depths = right_list(program)
        yield text, None, "right", program, depths
        for follower, (what, depth_for) in product(sorted(of.followers - {0, AT, LENGTH}), OTHER_DEPTHS.items()):
            other = list(depths)
            other[follower] = depth_for(PLENTY + of.change)
            yield text, follower, what, program, other
            other = list(other)
            other[AT] = NOT_REACHED
            yield text, follower, "unasked " + what, program, other


# ---- ends: an instruction at the last place, and jumps to the end

END_LENGTHS = (2, 3, PROGRAM_LIMIT)


def ended_with(text, length):
    return program_of(*["STOP"] * (length - 1), text)


def end_lists():
    """(Instruction, length, whether its place has a depth, program, list): the program's end may follow it, unless it
    is STOP or a JUMP to itself."""
    for length, depth in product(END_LENGTHS, (PLENTY, NOT_REACHED)):
        for text in [*FOLLOWED, "JUMPC 1", f"JUMP {length}", f"JUMP {length - 1}"]:
            depths = [0] + [PLENTY - 1] * (length - 2) + [depth]
            yield text, length, depth != NOT_REACHED, ended_with(text, length), depths


# ---- depths as deep as may be, where nothing leads to

DEEP_SIZES = [1, 2, ROOMY, LAST_OFFSET, CELL_LIMIT]
DEEP_DEPTHS = {
    "N-1": lambda n: n - 1,
    "N": lambda n: n,
    "N+1": lambda n: n + 1,
    "N+998": lambda n: n + LAST_OFFSET - 1,
    "N+999": lambda n: n + LAST_OFFSET,
    "65534": lambda n: DEEPEST,
    "65533": lambda n: DEEPEST - 1,
}
DEEP = ["STOP", "JUMP 2", "JUMPC 2", "PUSHIMM 1", "DUP", "SWAP", "ADD", "STOREIND", "WRITECH",
        *[f"ADDSP {by}" for by in (-LAST_OFFSET, -1, 0, 1, 2, 3, LAST_OFFSET)]]  # fmt: skip


def deep_lists():
    """(Instruction, depth, N, program, list): behind it the depth after, or its lowest sixteen bits, at a STOP or at an
    ADDSP that goes down."""
    for text, (what, depth_for), n in product(DEEP, DEEP_DEPTHS.items(), DEEP_SIZES):
        depth = depth_for(n)
        after = depth + effect_at(program_of("STOP", text, "STOP"), 1).change
        if not 0 <= after < 2 * HALF_WORD:
            continue
        behind = after % HALF_WORD
        down = min(behind, LAST_OFFSET) if behind != NOT_REACHED else 0
        for last in ("STOP", f"ADDSP -{down}"):
            depths = [0, depth, behind, behind if last == "STOP" else max(behind - down, 0)]
            yield text, what, n, program_of("STOP", text, last, "STOP"), depths


# ---- N, and lengths of the list

SIZED = program_of("PUSHIMM 1", "PUSHIMM 2", "ADD", "STOP")
SIZED_DEPTHS = [0, 1, 2, 1]
ALLOWED_SIZES = [3, 4, ROOMY, 255, 256, LAST_OFFSET, CELL_LIMIT]
SMALL_SIZES = {1: 0, 2: 1}  # N, and the place that leaves too many values there
OUTER_SIZES = [
    0, CELL_LIMIT + 1, CELL_LIMIT + 2, HALF_WORD, HALF_WORD + ROOMY, WORD, WORD + 1, WORD + ROOMY, WORD + CELL_LIMIT,
    DOUBLE_WORD >> 1, (DOUBLE_WORD >> 1) + ROOMY, DOUBLE_WORD - 1,
]  # fmt: skip
PROGRAM_LENGTHS = [0, 1, 2, 3, PROGRAM_LIMIT - 1, PROGRAM_LIMIT]


def list_lengths(length):
    """The right one, by one and by more off, and with the right one in the lowest sixteen bits."""
    near = {length, length - 1, length + 1, 0, 1, length + 256, 2 * length, PROGRAM_LIMIT, PROGRAM_LIMIT + 1}
    return sorted(count for count in near | {HALF_WORD + length} if count >= 0)


def stops(length):
    return sam.Program([0] * PROGRAM_LIMIT, length)  # the code of STOP is 0


# ---- refusals that meet

ORDER = (31, 10, 11, 64, 65, 66)
MEETING = ["PUSHIMM 1", "JUMPC 4", "JUMP 0", "STOP", "PUSHIMM 2", "STOP"]
MEETING_DEPTHS = [0, 1, 0, NOT_REACHED, 0, 1]
MEETING_CELLS = 4
MEETING_FORBIDDEN = ["JSR 0", "JSRIND", "JUMPIND", "POPSP"]
BROKEN_TABLES = [
    lambda table: table[:-1],
    lambda table: table + [0],
    lambda table: table[:-1] + [1],
    lambda table: table[:3] + [len(NAMES) << 32] + table[4:],
]
# A place and another depth there, and the place whose rule fails then: before a forbidden instruction and behind it.
FAILED_RULES = [(0, 1, 0), (0, NOT_REACHED, 0), (2, 1, 1), (5, 0, 4)]
NO_SIZES = [0, CELL_LIMIT + 1, WORD + MEETING_CELLS]
WRONG_TOLDS = [0, 2]
WRONG_LISTS = [lambda depths: depths[:-1], lambda depths: depths + [0], lambda depths: []]


def faulty_program(forbidden):
    """With this (instruction, place), if any."""
    instructions = list(MEETING)
    if forbidden:
        text, place = forbidden
        instructions[place] = text
    return program_of(*instructions)


def faulty_list(failed):
    depths = list(MEETING_DEPTHS)
    if failed:
        place, depth, _ = failed
        depths[place] = depth
    return depths


def expected_of(met, forbidden, failed):
    """(number, place): "10, then 11 [...], 64 [...], 65 [...], 66 [...], both with their first place, others tell 0",
    and 31 before all."""
    number = min(met, key=ORDER.index, default=0)
    return number, {65: forbidden and forbidden[1], 66: failed and failed[2]}.get(number, 0)


def meeting_lists():
    """(Refusals met, program, N, list, length of told, number, place), in every set."""
    for told, broken, n, wrong, forbidden, failed in product(
        [None, *WRONG_TOLDS],
        [None, *BROKEN_TABLES],
        [None, *NO_SIZES],
        [None, *WRONG_LISTS],
        [None, *product(MEETING_FORBIDDEN, (3, 4))],
        [None, *FAILED_RULES],
    ):
        faults = (told, broken, n, wrong, forbidden, failed)
        met = tuple(number for number, fault in zip(ORDER, faults) if fault is not None)
        program = faulty_program(forbidden)
        if broken:
            program = sam.Program(broken(program.table), program.length)
        depths = faulty_list(failed)
        depths = wrong(depths) if wrong else depths
        size, told_length = MEETING_CELLS if n is None else n, 1 if told is None else told
        yield met, program, size, depths, told_length, *expected_of(met, forbidden, failed)


def empty_lists():
    """The same of an empty program, which is 66 by itself, or 64 with a list."""
    for told, n, broken, depths in product([1, *WRONG_TOLDS], [1, *NO_SIZES], [None, *BROKEN_TABLES[:3]], [[], [0]]):
        faults = (told != 1, broken is not None, n != 1, depths != [], False, True)
        met = tuple(number for number, is_met in zip(ORDER, faults) if is_met)
        program = stops(0)
        if broken:
            program = sam.Program(broken(program.table), 0)
        yield met, program, n, depths, told, *expected_of(met, None, (0, 0, 0))


# ---- every program of two places, or of two behind a push, of a few instructions, with every list of small depths


def small_instructions(length):
    jumps = [f"{name} {target}" for name in JUMPS for target in range(length + 1)]
    return ["STOP", "PUSHIMM 1", "DUP", "SWAP", "ADDSP -1", "ADDSP 1", "JSR 0", *jumps]


def small_lists():
    """(Program, N, list)."""
    for pair in product(small_instructions(2), repeat=2):
        program = program_of(*pair)
        for n, *listed in product((1, 2, 3), (0, 1, NOT_REACHED), (0, 1, 2, NOT_REACHED)):
            yield program, n, listed
    for pair in product(small_instructions(3), repeat=2):
        program = program_of("PUSHIMM 1", *pair)
        for n, last in product((2, 3), (0, 1, 2, 3, NOT_REACHED)):
            yield program, n, [0, 1, last]


# ---- drawn programs


class FlatBuilder(Builder):
    """Programs without the four instructions, unless by a slip."""

    def move_sp(self):
        by = self.chooser.randrange(-len(self.tags), 4)
        self.put(f"ADDSP {by}")
        self.tags = self.tags[:by] if by < 0 else self.tags + [0] * by

    def call(self):
        """In its place a jump over something that nothing leads to."""
        label = self.label()
        self.put(f"JUMP {label}", any_instruction(self.chooser, 0), f"{label}:")

    def end(self):
        """A STOP; or all is dropped and made again, for ever."""
        return self.chooser.choice([["STOP"], ["STOP"], [f"ADDSP {-len(self.tags)}", "JUMP 0"]])

    def source(self, pieces):
        for _ in range(pieces):
            self.piece()
        return "\n".join(self.lines + self.end())


def any_flat_program(chooser):
    """One that a list may be proposed for, but with slips need not."""
    while True:
        builder = FlatBuilder(chooser, chooser.choice([0.0, 0.0, 0.0, 0.02]))
        try:
            return program_of(builder.source(chooser.randrange(1, 30)))
        except NoList:
            pass


def any_allowed(chooser, depth, n):
    """(Instruction, depth after) with values enough and room at this depth; a jump's target is settled later."""
    assert depth >= 0, depth
    while True:
        name = chooser.choice(ALLOWED)
        text = name + any_operand(chooser, KINDS[CODES[name]], 0)
        of = effect_at(program_of(text), 0)
        if depth >= of.needed and depth + of.change < n:
            return text, depth + of.change


def settled(chooser, text, after, depths):
    """A jump goes to a place of the depth after."""
    name = text.split()[0]
    if name in JUMPS:
        return f"{name} {chooser.choice([place for place, depth in enumerate(depths) if depth == after])}"
    return text


def any_flat_instruction(chooser, length):
    while True:
        text = any_instruction(chooser, length)
        if text.split()[0] in ALLOWED:
            return text


def any_depth(chooser, n):
    """Where nothing falls through to."""
    return chooser.choice([NOT_REACHED, 0, n - 1, chooser.randrange(n), chooser.randrange(n)])


def goes_on(text):
    """Whether the next place may follow."""
    return text.split()[0] not in ("STOP", "JUMP")


def any_listed_program(chooser, length, n):
    """(Program, list) that is right for it: the depths come first, and a jump goes where its own is."""
    depths, made = [0], []
    for place in range(length):
        depth = depths[place]
        text, after = any_allowed(chooser, depth, n) if depth != NOT_REACHED else ("STOP", depth)
        if place == length - 1 and goes_on(text):
            text, after = chooser.choice(["STOP", "JUMP 0"]), depth
        made.append((text, after))
        depths.append(after if goes_on(text) else any_depth(chooser, n))
    depths.pop()
    lines = [settled(chooser, text, after, depths) for text, after in made]
    for place, depth in enumerate(depths):
        if depth == NOT_REACHED:
            lines[place] = any_flat_instruction(chooser, length)
    return program_of(*lines), depths


def least_size(program, depths):
    """The smallest N that the list is accepted for."""
    places = [place for place, depth in enumerate(depths) if depth != NOT_REACHED]
    return max(depths[place] + effect_at(program, place).change for place in places) + 1


def any_proposed(chooser):
    """(Program, list) of a program that a list was proposed for."""
    while True:
        program = any_flat_program(chooser)
        try:
            return program, proposed(program)
        except NoList:
            pass


def any_pair(chooser):
    """(Program, list), which is right."""
    if chooser.randrange(2):
        return any_proposed(chooser)
    length, n = chooser.choice([chooser.randrange(1, 6), chooser.randrange(6, 40)]), chooser.choice([2, 5, 16, 1000])
    return any_listed_program(chooser, length, n)


def full_pair(chooser):
    """(Program, list) of all 1,024 places."""
    return any_listed_program(chooser, PROGRAM_LIMIT, chooser.choice([3, CELL_LIMIT]))


# ---- programs to be played, with their lists by hand: loops, and runs that meet all that a list does not speak of

PLAYED = [
    ("STOP", [0]),
    ("PUSHIMM 3 a: PUSHIMM 1 SUB DUP JUMPC a STOP", [0, 1, 2, 1, 2, 1]),
    ("PUSHIMM 1 PUSHFBR ADD STOP", [0, 1, 2, 1]),  # 4
    ("PUSHIMM 1 PUSHIMM 0 DIV STOP", [0, 1, 2, 1]),  # 5
    ("PUSHSP PUSHIND STOP", [0, 1, 1]),  # 6
    ("PUSHOFF 0 STOP", [0, 1]),  # 6
    ("a: PUSHIMMCH 65 WRITECH JUMP a", [0, 1, 0]),  # 12
    ("a: ADDSP 3 SWAP ADDSP -3 JUMP a STOP", [0, 3, 3, 0, NOT_REACHED]),
]


# ---- damage to a list that was right

DAMAGES = {
    "one more": lambda depth, n: depth + 1,
    "one less": lambda depth, n: depth - 1,
    "N-1": lambda depth, n: n - 1,
    "N": lambda depth, n: n,
    "deepest": lambda depth, n: DEEPEST,
    "not reached": lambda depth, n: NOT_REACHED,
}


def damaged_at(chooser, depths, n, what):
    """With another depth at one place."""
    place = chooser.randrange(len(depths))
    changed = DAMAGES[what](depths[place] if depths[place] != NOT_REACHED else chooser.randrange(n), n)
    return depths[:place] + [max(changed, 0)] + depths[place + 1 :]


def moved(chooser, depths):
    """With the depth of one place at another."""
    depths = list(depths)
    depth = depths.pop(chooser.randrange(len(depths)))
    depths.insert(chooser.randrange(len(depths) + 1), depth)
    return depths


def any_length(chooser, depths):
    return chooser.choice([depths[:-1], depths + [0], depths + [NOT_REACHED], [], depths[1:], depths * 2])
