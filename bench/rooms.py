"""Sessions with more room and with less, request n: programs that end in every way, rooms for their histories, and the
request's sentences, to which the answers are held, whoever gave them."""

from dataclasses import dataclass

import sam
from sam.machine import HISTORY_LIMIT

# ---- programs: N, bytes of output, and the number that ends a session of steps with room enough, 0 where nothing does

SESSIONS = [
    ("PUSHIMM 3 a: PUSHIMM 1 SUB DUP JUMPC a STOP", 4, 0, 1),
    ("JSR f STOP f: PUSHIMM 7 SWAP JUMPIND", 3, 1, 1),
    ("PUSHIMM 40 PUSHIMMF #40200000 STOREOFF 0", 4, 0, 2),
    ("PUSHIMM 1 PUSHIMM 2 ADD ADD", 4, 0, 3),
    ("ADDSP 2 ADDSP -3", 4, 0, 3),
    ("LINK PUSHIMM 5 POPFBR", 4, 0, 4),
    ("PUSHIMM 1 PUSHIMM 0 DUP DIV", 4, 0, 5),
    ("PUSHIMM 1 PUSHSP PUSHIND", 4, 0, 6),
    ("a: PUSHIMM 1 JUMP a", 3, 0, 7),
    ("PUSHIMM 1 ADDSP 3", 4, 0, 7),
    ("a: PUSHIMMCH 65 WRITECH JUMP a", 3, 3, 12),
    ("a: ADDSP 2 SWAP ADDSP -2 JUMP a", 4, 0, 0),
]
SHOWING = "PUSHIMMCH 76 WRITECH "  # before each of them, with a byte more: the same end with output written
FILLING = "a: ADDSP 999 ADDSP -999 JUMP a"  # 1,000 places, one and one: the ninth ADDSP 999 finds 176 of 8,192 left
FILLING_CELLS = 1000
MOST_STEPS = 30  # more than any of them makes, but for those without an end
# Of each room, the steps before 8: those from 8,016 places on are all full there.
FILLED_AFTER = {8192: 24, 8100: 24, 0: MOST_STEPS - 2, 3: 0, 8016: 24, 1002: 3, 8015: 23, 1001: 2}
FILLING_ROOMS = list(FILLED_AFTER)
# Runs of a session with these limits, one after the other.
LIMITS = [(MOST_STEPS,), (0, 2, 1, MOST_STEPS)]
SAVED_AFTER = (1, MOST_STEPS)  # steps: on its way, and at its end
LIMITED_ROOMS = (3, 64, HISTORY_LIMIT)  # in which runs are made again with larger limits
TEACHING_CELLS, TEACHING_OUTPUT = 60, 5  # of the published programs and the panel: just enough
TEACHING_STEPS = 1000  # more than any of them makes
TEACHING_SMALL = 5  # a room that is full soon


@dataclass
class Start:
    """ "the same program, N, output length and start (a reset or one saved state)" """

    program: sam.Program
    n: int
    size: int
    image: bytes = None

    def word(self):
        return "reset" if self.image is None else "load"


# ---- rooms

SMALL = 20  # places of a small room, at most


def kind_of(h):
    return {0: "none", HISTORY_LIMIT: "all"}.get(h, "some")


def kinds_of(h, other):
    """The kinds of two rooms, the smaller first."""
    return tuple(kind_of(room) for room in sorted((h, other)))


def rooms_around(enough):
    """None, all there can be, small ones, just enough and one less, in an order in which the smaller stands first and
    second."""
    return list(dict.fromkeys([5, 0, HISTORY_LIMIT, 1, 3, 2, enough, 9, max(enough - 1, 0), SMALL]))


def any_room(chooser, enough):
    """For a session that takes so many places: 8 is met at once, on the way, at the end or not at all."""
    within = chooser.randrange(1, enough + 1) if enough else 1
    least = [enough, max(enough - 1, 0), min(enough + 1, HISTORY_LIMIT)]
    return chooser.choice([0, 0, HISTORY_LIMIT, chooser.randrange(1, SMALL + 1), within, within, *least])


def end_of_steps(numbers, others):
    """("both", number) where two sessions give the same numbers to the end; or who met 8, at once or later."""
    for step, (one, other) in enumerate(zip(numbers, others)):
        if one != other:
            return "first" if one == 8 else "second", "later" if step else "at once"
    return "both", numbers[-1]


def end_of_runs(run, other):
    """Of two runs, as (number, steps): both the same; one with 8 and the other's number; or both with 8, apart."""
    if run == other:
        return "both", run[0]
    if run[0] == other[0]:
        return "apart", run[0]
    return "one", other[0] if run[0] == 8 else run[0]


# ---- limits

ENDINGS = (0, 1, 2, 3, 4, 5, 6, 7, 12, 8)  # "ended with 0 or a step's refusal"; a run finds HALT 1 before a step's 1
MORE = 7


def limits_around(number, steps, greatest):
    """Limits for a run that ends so, by their names, rising: a refusal is met by the step after those that are told."""
    enough = steps + (number != 0)
    limits = {"just enough": enough, "one more": enough + 1, "some more": enough + MORE, "the most": greatest}
    return {**({"one less": enough - 1} if enough else {}), **limits}


# ---- the sentences, of answer lines: of the interpreter's and of the driver's


@dataclass
class Answer:
    number: int
    told: list
    h: int
    visible: tuple  # N, PC, SP, FBR, HALT and the output's count; bits, tags and output


@dataclass
class Fault:
    what: str
    lines: tuple  # numbers of those whose answers do not fit together


def numbers_of(word):
    """The numbers of a list that is one word of a line."""
    items = [item.partition("*") for item in word.split(",") if item != "-"]
    return [int(value) for value, _, count in items for _ in range(int(count or 1))]


def read_answer(line):
    number, *words = line.split(" ")
    part = dict(zip(words[::2], words[1::2]))
    n, h, pc, sp, fbr, halt, _, _, written = numbers_of(part["registers"])
    visible = n, pc, sp, fbr, halt, written, part["bits"], part["tags"], part["output"]
    return Answer(int(number), numbers_of(part["told"]), h, visible)


class Answers:
    """Answer lines by their numbers, each read where it is first asked for."""

    def __init__(self, lines):
        self.lines, self.read = lines, {}

    def __getitem__(self, line):
        if line not in self.read:
            self.read[line] = read_answer(self.lines[line])
        return self.read[line]


def may_be_full(h, other):
    """Whether this room may be full where the other is not: both took the same records."""
    return 0 < h and (other == 0 or h < other)


def step_apart(answer, other, before):
    """What is wrong where the answers of two sessions first differ: one of them is 8 and the other is done."""
    if {answer.number, other.number} != {0, 8}:
        return f"the first answers that differ are {answer.number} and {other.number}"
    refused, done = (answer, other) if answer.number == 8 else (other, answer)
    if refused.visible != before.visible:
        return "an 8 changed something"
    if not may_be_full(refused.h, done.h):
        return f"8 with {refused.h} places, and done with {done.h}"
    return None


def judge_steps(answers, session, other_session):
    """ "make the same cells, tags, output, PC, SP, FBR and HALT for as many steps as both accept, and [...] their
    answers differ first only by an 8": of two sessions, each as the lines of its start and of its steps. The first
    fault, or nothing."""
    before = None
    for lines in zip(session, other_session):
        answer, other = answers[lines[0]], answers[lines[1]]
        if before is None and (answer.number, other.number) != (0, 0):
            return Fault("a start was refused", lines)
        if answer.number != other.number:
            what = step_apart(answer, other, before)
            return Fault(what, lines) if what else None
        if answer.visible != other.visible:
            return Fault("after the same answers the states are not the same", lines)
        before = answer
    return None


def run_apart(answer, other):
    """What is wrong with two runs that differ: the one that met 8 first made fewer steps than the other, which accepted
    the next."""
    numbers = answer.number, other.number
    if 8 not in numbers:
        return f"neither of the runs that differ ended with 8: {numbers[0]} and {numbers[1]}"
    refused, longer = sorted((answer, other), key=lambda run: (run.number != 8, run.told))
    if refused.told >= longer.told:
        return f"8 after {refused.told} steps, and {longer.number} after {longer.told}"
    if not may_be_full(refused.h, longer.h):
        return f"8 first with {refused.h} places, and not with {longer.h}"
    return None


def judge_runs(answers, session, other_session):
    """The same of runs with the same limits, which differ in number, steps or what is visible "only where one ended
    with 8": of two sessions, each as the lines of its start and of its runs."""
    for lines in zip(session, other_session):
        answer, other = answers[lines[0]], answers[lines[1]]
        alike = (answer.number, answer.told, answer.visible) == (other.number, other.told, other.visible)
        if not alike:
            what = run_apart(answer, other)
            return Fault(what, lines) if what else None
    return None


def judge_limits(answers, *lines):
    """ "Where a run ended with 0 or a step's refusal, any larger limit in range gives the same answer, step count and
    final state": of the lines of runs from one state, by rising limits."""
    for pair in zip(lines, lines[1:]):
        line, larger = pair
        if answers[line].number in ENDINGS and answers.lines[line] != answers.lines[larger]:
            return Fault("a larger limit changed what a run gives", pair)
    return None
