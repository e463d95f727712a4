"""The checker of depth lists: request j of document 02.

How many values an instruction needs, by how much it moves SP and what may follow it is found by trying its action on
machines made for that, so that there is no second list of instructions.
"""

from dataclasses import dataclass
from functools import lru_cache
from itertools import count, product

from .actions import ACTIONS, ANY, Move, Refusal
from .machine import CELL_LIMIT, Registers, State
from .table import CODES, WORD, table_sound

NOT_REACHED = 65535  # the mark "not reached"; a depth is 0 to 65,534
FORBIDDEN = frozenset(CODES[name] for name in ("JSR", "JSRIND", "JUMPIND", "POPSP"))

# A machine to try an instruction on: more values below SP and more cells above than any operand moves or asks for, the
# same from FBR, and one value in all cells, which is of each tag, and true, false, no divisor and a good address.
CELLS, MIDDLE, FRAME = 4096, 2048, 1024
MEMORIES = [([bits] * CELLS, [tag] * CELLS) for tag, bits in product(ANY, (0, 1))]


@dataclass(frozen=True)
class Effect:
    needed: int  # values
    change: int  # of SP
    followers: frozenset  # places that may follow


def tried(place, pc, sp, memory):
    """The move that the instruction makes there."""
    bits, tags = memory
    move = Move(State(bits, tags, [], registers=Registers(CELLS, pc=pc, sp=sp, fbr=FRAME)), place % WORD)
    ACTIONS[place >> 32](move)
    return move


def number_at(place, sp):
    """The first refusal there, or 0: 3 comes before those that look at a value."""
    try:
        tried(place, 0, sp, MEMORIES[0])
    except Refusal as refusal:
        return refusal.args[0]
    return 0


def all_moves(place, pc):
    """What the instruction does with the values that it takes."""
    for memory in MEMORIES:
        try:
            yield tried(place, pc, MIDDLE, memory)
        except Refusal:
            pass


@lru_cache(maxsize=1 << 16)
def needed(place):
    """ "enough values for its instruction": the least SP at which it is not 3."""
    return next(sp for sp in count() if number_at(place, sp) != 3)


@lru_cache(maxsize=1 << 16)
def effect(place, pc):
    """ "Both ways of JUMPC count, STOP has no follower" """
    moves = list(all_moves(place, pc))
    (change,) = {move.sp - MIDDLE for move in moves}  # one for all: POPSP is forbidden
    return Effect(needed(place), change, frozenset(move.pc for move in moves if not move.halt))


def is_forbidden(place):
    return place >> 32 in FORBIDDEN


def rule_holds(program, n, depths, place):
    """ "place 0 has depth 0, every place with a depth has enough values for its instruction, its depth after is below
    N, and each place that may follow has that same depth"; "the program's end may never follow" """
    depth = depths[place]
    if place == 0 and depth != 0:
        return False
    if depth == NOT_REACHED:
        return True
    of = effect(program.table[place], place)
    after = depth + of.change
    is_followed = all(follower < program.length and depths[follower] == after for follower in of.followers)
    return depth >= of.needed and after < n and is_followed


def check_depths(program, n, depths):
    """(number, place). "Refusals: 10, then 11 for N outside its range, 64 list not of the program's length, 65 a
    forbidden instruction, 66 a failed depth rule, both with their first place, others tell 0; an empty program is 66 at
    0." """
    if not table_sound(program.table, program.length):
        return 10, 0
    if not 1 <= n <= CELL_LIMIT:
        return 11, 0
    if len(depths) != program.length:
        return 64, 0
    places = range(program.length)
    forbidden = [place for place in places if is_forbidden(program.table[place])]
    if forbidden:
        return 65, forbidden[0]
    failed = [place for place in places if not rule_holds(program, n, depths, place)]
    if failed or program.length == 0:
        return 66, failed[0] if failed else 0
    return 0, 0
