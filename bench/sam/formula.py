"""Dwell formulas as ordinary arithmetic: request m of document 02.

The translator goes over the tokens once, from the left, and keeps what is open or waits for its second side on a stack.
The evaluator shares nothing with it: it reads a formula by Python's own grammar, which groups these alike.
"""

import ast
import operator
import re

from .table import CODES, PROGRAM_LIMIT, WORD, make_place, signed

FORMULA_LIMIT = 65536  # bytes, as of a source: 21
GREATEST = 2147483647  # "integers 0 to 2147483647"
NESTING_LIMIT = 16  # "Expressions nest up to 16 deep, from 0"
NAMES = b"abcdefgh"  # "names a to h", "read by PUSHOFF 0 to 7"
INSTRUCTIONS = {b"+": "ADD", b"-": "SUB", b"*": "TIMES", b"/": "DIV"}
RANKS = {b"+": 1, b"-": 1, b"*": 2, b"/": 2}  # "* and / before + and -"

# Kinds of tokens, and what each costs: "Each number, name and two-sided operator costs one instruction, unary minus
# two".
NUMBER, NAME, OPERATOR, MINUS, OPENING, CLOSING = "number", "name", "operator", "unary minus", "(", ")"
COSTS = {NUMBER: 1, NAME: 1, OPERATOR: 1, MINUS: 2, OPENING: 0, CLOSING: 0}


class Refused(Exception):
    """With its number."""


def tokens(formula):
    """Runs of digits and single bytes; "spaces are allowed" around each."""
    return [token for token in re.findall(rb"[0-9]+|[^0-9]", formula) if token != b" "]


def is_too_large(digits):
    """The value counts, whatever zeros lead it."""
    significant = digits.lstrip(b"0")
    return len(significant) > 10 or int(significant or b"0") > GREATEST


class Reading:
    """A formula as far as it is read."""

    def __init__(self):
        self.code = []  # places of the table
        self.waiting = []  # brackets and signs that are open, and operators before their second side
        self.follows_operand = False  # whether the next token stands behind an operand
        self.cost = 1  # of the tokens so far, with STOP

    # ---- may this token stand here?

    def kind_of(self, token):
        """Nothing for a forbidden byte. A minus sign is unary wherever an operand may stand."""
        if token.isdigit():
            return NUMBER
        if token in (b"(", b")"):
            return token.decode()
        if token in INSTRUCTIONS:
            return MINUS if token == b"-" and not self.follows_operand else OPERATOR
        return NAME if token in NAMES else None

    def goes_on_with(self, kind):
        """An operand, its sign or its bracket stand where none is yet; operators and closing brackets behind one."""
        if kind == CLOSING and OPENING not in self.waiting:
            return False
        return self.follows_operand == (kind in (OPERATOR, CLOSING))

    def nesting(self):
        return sum(kind in (MINUS, OPENING) for kind in self.waiting)

    def judge(self, token, kind):
        """ "Refusals, first from the left, then in this order" """
        if kind is None:
            raise Refused(70)
        if not self.goes_on_with(kind):
            raise Refused(71)
        if kind == NUMBER and is_too_large(token):
            raise Refused(72)
        if kind in (MINUS, OPENING) and self.nesting() == NESTING_LIMIT:
            raise Refused(73)
        if self.cost + COSTS[kind] > PROGRAM_LIMIT:
            raise Refused(28)

    # ---- its code

    def emit(self, name, operand=0):
        self.code.append(make_place(CODES[name], operand))

    def end_operand(self):
        """The signs before it end with it: "unary minus before them all"."""
        while self.waiting and self.waiting[-1] == MINUS:
            self.waiting.pop()
            self.emit("PUSHIMM", -1)
            self.emit("TIMES")
        self.follows_operand = True

    def end_sides(self, rank):
        """The operators that have their second side now, of this rank or above: "all four grouping to the left"."""
        while self.waiting and RANKS.get(self.waiting[-1], 0) >= rank:
            self.emit(INSTRUCTIONS[self.waiting.pop()])

    def take(self, token, kind):
        """A token that is allowed."""
        self.cost += COSTS[kind]
        if kind == NUMBER:
            self.emit("PUSHIMM", int(token.lstrip(b"0") or b"0"))
            self.end_operand()
        elif kind == NAME:
            self.emit("PUSHOFF", NAMES.index(token))
            self.end_operand()
        elif kind == CLOSING:
            self.end_sides(1)
            self.waiting.pop()
            self.end_operand()
        elif kind == OPERATOR:
            self.end_sides(RANKS[token])
            self.waiting.append(token)
            self.follows_operand = False
        else:
            self.waiting.append(kind)

    def end(self):
        """A formula ends behind an operand, with every bracket closed."""
        if not self.follows_operand or OPENING in self.waiting:
            raise Refused(71)
        self.end_sides(1)
        self.emit("STOP")


def code_of(formula):
    reading = Reading()
    for token in tokens(formula):
        kind = reading.kind_of(token)
        reading.judge(token, kind)
        reading.take(token, kind)
    reading.end()
    return reading.code


def depth_of(code):
    """ "the most values it ever holds above the SP it began with", over the code as it stands."""
    held, most = 0, 0
    for place in code[:-1]:
        held += 1 if place >> 32 in (CODES["PUSHIMM"], CODES["PUSHOFF"]) else -1
        most = max(most, held)
    return most


def translate(formula, table):
    """(number, length, depth). "31 comes first and 21 next; a refusal tells zeros and zeroes a table of right
    length" """
    if len(table) != PROGRAM_LIMIT:
        return 31, 0, 0
    table[:] = [0] * PROGRAM_LIMIT
    if len(formula) > FORMULA_LIMIT:
        return 21, 0, 0
    try:
        code = code_of(formula)
    except Refused as refusal:
        return refusal.args[0], 0, 0
    table[: len(code)] = code
    return 0, len(code), depth_of(code)


# ---- the number of a formula that is accepted


def divided(below, top):
    """ "DIV rounds toward zero"; by zero it raises ZeroDivisionError."""
    quotient = abs(below) // abs(top)
    return quotient if (below < 0) == (top < 0) else -quotient


MEANINGS = {ast.Add: operator.add, ast.Sub: operator.sub, ast.Mult: operator.mul, ast.Div: divided}


def wrapped(number):
    """Modulo 2^32, as a signed number; the quotient of -2^31 and -1 is -2^31 so."""
    return signed(number % WORD)


def meaning(node, values):
    """Of a node of Python's tree. The left sides are gone down one by one, since there may be hundreds."""
    chain = []
    while isinstance(node, ast.BinOp):
        chain.append(node)
        node = node.left
    if isinstance(node, ast.UnaryOp):
        number = wrapped(-meaning(node.operand, values))
    else:
        number = node.value if isinstance(node, ast.Constant) else values[ord(node.id) - ord("a")]
    for above in reversed(chain):
        number = wrapped(MEANINGS[type(above.op)](number, meaning(above.right, values)))
    return number


def evaluate(formula, values):
    """The number of an accepted formula where a to h have these, signed, or nothing where it divides by zero, needed or
    not."""
    text = re.sub("[0-9]+", lambda digits: digits[0].lstrip("0") or "0", formula.decode("ascii"))
    try:
        return meaning(ast.parse(text.strip(), mode="eval").body, values)
    except ZeroDivisionError:
        return None
