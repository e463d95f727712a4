"""Formulas for the translator, request m: trees and their texts, texts that go far, damaged and long ones, the edges of
each refusal, refusals that meet at one token, and what a to h hold."""

from fractions import Fraction
from itertools import product
from math import trunc

from sam.actions import CH, FLOAT, INT, MA, PA
from sam.table import CODES, WORD, make_place, signed

NAMES = "abcdefgh"
OPERATORS = "+-*/"
FORMULA_LIMIT = 65536
ALLOWED_BYTES = b" 0123456789abcdefgh+-*/()"
FORBIDDEN_BYTES = [byte for byte in range(256) if byte not in ALLOWED_BYTES]
GREATEST, LEAST = 2147483647, -2147483648


# ---- trees: a number, a name, (sign, operand) or (operator, left, right); their codes, depths and values

RANKS = {"+": 1, "-": 1, "*": 2, "/": 2}
SIGN_RANK, LEAF_RANK = 3, 4
CODE_NAMES = {"+": "ADD", "-": "SUB", "*": "TIMES", "/": "DIV"}
NUMBERS = [0, 0, 1, 1, 2, 3, 7, 10, 40, 46340, 46341, 65535, 65536, GREATEST - 1, GREATEST]


def any_leaf(chooser):
    if chooser.randrange(2):
        return chooser.choice(NAMES)
    return chooser.choice([chooser.choice(NUMBERS), chooser.randrange(20), chooser.randrange(GREATEST + 1)])


def any_tree(chooser, height):
    kind = chooser.randrange(10) if height else 0
    if kind < 2:
        return any_leaf(chooser)
    if kind < 4:
        return "-", any_tree(chooser, height - 1)
    return chooser.choice(OPERATORS), any_tree(chooser, height - 1), any_tree(chooser, height - 1)


def place(name, operand=0):
    return make_place(CODES[name], operand)


def leaf_place(leaf):
    return place("PUSHIMM", leaf) if isinstance(leaf, int) else place("PUSHOFF", NAMES.index(leaf))


def tree_code(tree):
    """ "a number is PUSHIMM, a name PUSHOFF [...], an operator [...] after its two sides, unary minus PUSHIMM -1 and
    TIMES after its operand"; without STOP."""
    if not isinstance(tree, tuple):
        return [leaf_place(tree)]
    sign, *sides = tree
    last = [place("PUSHIMM", -1), place("TIMES")] if len(sides) == 1 else [place(CODE_NAMES[sign])]
    return [*(one for side in sides for one in tree_code(side)), *last]


def tree_depth(tree):
    """The second side is above the first one's value, as is the -1 of a sign."""
    if not isinstance(tree, tuple):
        return 1
    _, first, *second = tree
    return max(tree_depth(first), 1 + (tree_depth(second[0]) if second else 1))


def tree_value(tree, values):
    """Signed; nothing where it divides by zero."""
    if not isinstance(tree, tuple):
        return tree if isinstance(tree, int) else values[NAMES.index(tree)]
    sides = [tree_value(side, values) for side in tree[1:]]
    if None in sides or (tree[0] == "/" and sides[1] == 0):
        return None
    if len(sides) == 1:
        return signed(-sides[0] % WORD)
    below, top = sides
    if tree[0] == "/":
        return signed(trunc(Fraction(below, top)) % WORD)
    return signed({"+": below + top, "-": below - top, "*": below * top}[tree[0]] % WORD)


# ---- their texts


def rank(tree):
    if not isinstance(tree, tuple):
        return LEAF_RANK
    return SIGN_RANK if len(tree) == 2 else RANKS[tree[0]]


def leaf_text(chooser, leaf):
    """A number now and then with zeros before it."""
    zeros = "0" * chooser.randrange(1, 12) if isinstance(leaf, int) and chooser.randrange(6) == 0 else ""
    return zeros + str(leaf)


def tokens_of(chooser, tree, least, more):
    """Where only what has at least this rank may stand: brackets where they are needed, and more of them by chance."""
    bare = bare_tokens(chooser, tree, more)
    return ["(", *bare, ")"] if rank(tree) < least or chooser.random() < more else bare


def bare_tokens(chooser, tree, more):
    if not isinstance(tree, tuple):
        return [leaf_text(chooser, tree)]
    sign, *sides = tree
    if len(sides) == 1:
        return [sign, *tokens_of(chooser, sides[0], SIGN_RANK, more)]
    left, right = sides  # "all four grouping to the left"
    return [*tokens_of(chooser, left, RANKS[sign], more), sign, *tokens_of(chooser, right, RANKS[sign] + 1, more)]


def spaced(chooser, tokens):
    """With spaces before, between and behind, or without."""
    gaps = chooser.choice([[""], ["", "", " "], [" "], ["", " ", "   "]])
    return "".join(chooser.choice(gaps) + token for token in tokens) + chooser.choice(gaps)


def text_of(chooser, tree, more=0):
    """With as few brackets as may be, or with more."""
    return spaced(chooser, tokens_of(chooser, tree, 1, more)).encode()


# ---- texts that were no tree before

TOO_LARGE = ["2147483648", "4294967296", "9999999999", "18446744073709551617"]
ODD_TOKENS = [*ALLOWED_BYTES.decode(), *"ijzAH$_.,:;%^=<>[]{}#&|!~`@\\\t\n\r\0\x7f\x80\xe1\xff", *TOO_LARGE * 2]


def any_operand_token(chooser, is_deep):
    """Seldom a number that is too large, or a sign or bracket that is too deep."""
    if chooser.randrange(400) == 0:
        return chooser.choice(TOO_LARGE)
    opening = ["-", "(", "("] if not is_deep or chooser.randrange(60) == 0 else []
    return chooser.choice([str(any_leaf(chooser)), chooser.choice(NAMES), chooser.choice(NAMES), *opening])


def walked(chooser, count):
    """About so many tokens that may stand where they do, now and then with one that may not; most often whole."""
    tokens, brackets, signs, follows = [], 0, 0, False
    odd_rate = chooser.choice([0, 0, 1 / (4 * count), 1 / 12])
    while len(tokens) < count or not follows:
        if chooser.random() < odd_rate:
            tokens.append(chooser.choice(ODD_TOKENS))
        elif not follows:
            tokens.append(any_operand_token(chooser, brackets + signs >= 15))
            signs += tokens[-1] == "-"
            brackets += tokens[-1] == "("
            follows = tokens[-1] not in "-("
        elif brackets and chooser.randrange(3) == 0:
            tokens.append(")")
            brackets -= 1
        else:
            tokens.append(chooser.choice(OPERATORS))
            follows = False
        signs = 0 if follows else signs
    closing = brackets + chooser.choice([0] * 12 + [-1, 1])
    return spaced(chooser, tokens + [")"] * closing).encode("latin-1")


def damaged(chooser, text):
    """One byte another, gone, doubled or moved, or one more."""
    at = chooser.randrange(len(text))
    other = chooser.choice(ODD_TOKENS).encode("latin-1")
    return text[:at] + chooser.choice(
        [other + text[at + 1 :], text[at + 1 :], text[at : at + 1] + text[at:], text[at + 1 :] + text[at : at + 1],
         other + text[at:]]
    )  # fmt: skip


def long_text(chooser):
    """Near 1,024 instructions: operands, some with signs and brackets, joined until their cost is near that."""
    target = chooser.choice([1024, 1024, 1025, 1026, chooser.randrange(900, 1040)])
    tokens, cost = [], 1  # STOP
    while cost < target:
        signs = chooser.choice([0] * 8 + [1, 2])
        tokens += [chooser.choice(OPERATORS)] * (cost > 1) + ["-"] * signs
        tokens += chooser.choice([[chooser.choice(NAMES)], [str(chooser.choice(NUMBERS))], ["(", "a", ")"]])
        cost += 1 + 2 * signs + (cost > 1)
    return spaced(chooser, tokens).encode()


def wide_text(chooser):
    """Near 65,536 bytes by spaces or by leading zeros."""
    size = chooser.choice([FORMULA_LIMIT, FORMULA_LIMIT, FORMULA_LIMIT + 1, FORMULA_LIMIT - chooser.randrange(1, 9)])
    text = text_of(chooser, any_tree(chooser, 3))
    more = size - len(text)
    return chooser.choice(
        [b" " * more + text, text + b" " * more, b" " * (more // 2) + text + b" " * (more - more // 2),
         b"0" * (more - 2) + b"1+" + text, text + b"*" + b"0" * (more - 2) + b"2"]
    )  # fmt: skip


# ---- what a to h hold

VALUES = [0, 0, 1, -1, 2, -2, 3, 7, -7, 40, 46341, 65536, -65536, GREATEST, GREATEST - 1, LEAST, LEAST + 1]


def any_values(chooser):
    return [chooser.choice([chooser.choice(VALUES), chooser.randrange(LEAST, GREATEST + 1)]) for _ in NAMES]


def any_between(chooser, length):
    """Cells between those eight and SP, of any tag."""
    cells = [(INT, 7), (FLOAT, WORD - 1), (MA, WORD - 5), (PA, length), (CH, 127)]
    return [chooser.choice(cells) for _ in range(chooser.choice([0, 0, 0, 1, 2, 5]))]


# ---- formulas by hand: text, length and depth


def label(text):
    """A text, or what a long one looks like."""
    return text if len(text) <= 48 else f"{text[:20]}..{len(text)}..{text[-20:]}"


ACCEPTED = {
    "0": (2, 1),
    "a": (2, 1),
    "h": (2, 1),
    "  a  ": (2, 1),
    "007": (2, 1),
    "00000000000": (2, 1),
    "2147483647": (2, 1),
    "00000000002147483647": (2, 1),
    "(a)": (2, 1),
    "( ( a ) )": (2, 1),
    "-a": (4, 2),
    "- a": (4, 2),
    "--a": (6, 2),
    "-(a)": (4, 2),
    "(-a)": (4, 2),
    "-2147483647": (4, 2),
    "-2147483647-1": (6, 2),
    "a+b": (4, 2),
    "a-b-c": (6, 2),
    "a-(b-c)": (6, 3),
    "a+b-c": (6, 2),
    "a-b+c": (6, 2),
    "a-(b+c)": (6, 3),
    "a/b/c": (6, 2),
    "a/(b/c)": (6, 3),
    "a/b*c": (6, 2),
    "a/(b*c)": (6, 3),
    "a*b/c": (6, 2),
    "a*(b/c)": (6, 3),
    "a+b*c": (6, 3),
    "(a+b)*c": (6, 2),
    "a*b+c": (6, 2),
    "a*(b+c)": (6, 3),
    "a-b/c": (6, 3),
    "(a-b)/c": (6, 2),
    "a/b-c": (6, 2),
    "a/(b-c)": (6, 3),
    "a+b*c-d": (8, 3),
    "a*b+c*d": (8, 3),
    "(a+b)*(c+d)": (8, 3),
    "-a*b": (6, 2),
    "-(a*b)": (6, 2),
    "-a+b": (6, 2),
    "-(a+b)": (6, 2),
    "-a/b": (6, 2),
    "-(a/b)": (6, 2),
    "a*-b": (6, 3),
    "2*-3": (6, 3),
    "a--b": (6, 3),
    "a+-b": (6, 3),
    "a---b": (8, 3),
    "a-(-b)": (6, 3),
    "-a--b": (8, 3),
    "2 + 3 * (a - 1)": (8, 4),
    "1/0+(2+(3+4))": (10, 4),
    "0*(1/0)": (6, 3),
    "a+b+c+d+e+f+g+h": (16, 2),
    "a+(b+(c+(d+(e+(f+(g+h))))))": (16, 8),
    "h-g*f/e+d*(c-b)-a": (16, 4),
}


def joined(count, operand="a", sign="+"):
    return sign.join([operand] * count)


LONG_ACCEPTED = {
    # Sixteen brackets and signs: of one kind, of both, and behind others that ended.
    "(" * 16 + "a" + ")" * 16: (2, 1),
    "-" * 16 + "a": (34, 2),
    "-(" * 8 + "a" + ")" * 8: (18, 2),
    "(-" * 8 + "a" + ")" * 8: (18, 2),
    "-" * 8 + "(" * 8 + "a" + ")" * 8: (18, 2),
    "(" * 8 + "-" * 8 + "a" + ")" * 8: (18, 2),
    "(" * 15 + "-a" + ")" * 15: (4, 2),
    "-" * 15 + "(a)": (32, 2),
    "a+(" * 16 + "b" + ")" * 16: (34, 17),
    "b+" + "(" * 16 + "a" + ")" * 16: (4, 2),
    "(a)*" + "(" * 16 + "a" + ")" * 16: (4, 2),
    "-a+" + "-" * 16 + "a": (38, 3),
    "-(-(a))/" + "(-" * 8 + "a" + ")" * 8: (24, 3),
    "-" * 16 + "a-" + "-" * 16 + "b": (68, 3),
    # More than sixteen, of which no more are open at once; then the deepest.
    joined(20, "-a"): (80, 3),
    joined(20, "(a)"): (40, 2),
    "-a+(" * 16 + "b" + ")" * 16: (66, 17),
    "a+b*(" * 16 + "a+b*c" + ")" * 16: (70, 35),
    "a+b*-(" * 8 + "a+b*c" + ")" * 8: (54, 19),
    # 1,024 instructions, and 1,022.
    joined(512): (1024, 2),
    joined(512, "7", "*"): (1024, 2),
    "(" + joined(512) + ")": (1024, 2),
    joined(511) + "+(((a)))": (1024, 2),
    "-" + joined(511): (1024, 2),
    joined(510) + "+-a": (1024, 3),
    joined(256, "-a", "-"): (1024, 3),
    "-" * 16 + "a+" + joined(495): (1024, 2),
    "a+(" * 16 + joined(496) + ")" * 16: (1024, 18),
    joined(511): (1022, 2),
    # 65,536 bytes, and 65,535.
    "a".ljust(FORMULA_LIMIT): (2, 1),
    "a".rjust(FORMULA_LIMIT): (2, 1),
    "a" + " " * (FORMULA_LIMIT - 3) + "+b": (4, 2),
    "0" * FORMULA_LIMIT: (2, 1),
    "2147483647".zfill(FORMULA_LIMIT): (2, 1),
    "a".ljust(FORMULA_LIMIT - 1): (2, 1),
}

FULL = joined(512)  # 1,024 with STOP
NEARLY = joined(511) + "+"  # 1,023 with STOP, before an operand
DEEP = "(" * 16

# Formulas that are refused at a token, whatever follows, by their number.
REFUSED = {
    70: [
        *["$", "i", "A", "H", "a$", "a $", "(i", "1.5", "1,5", "a\t", "\ta", "a\n", "\na", "a\r", "\0", "a\0", "a+$"],
        *["-$", "a^b", "a%b", "[a]", "a=4", "_", "`", "a/:", "2\t2", "a+b+c;", "\xe1", "\x80", "\xff", DEEP + "$"],
        *[FULL + "$", NEARLY + "$", "a+" + DEEP + "a$", " " * 65535 + "$"],
    ],
    71: [
        *["+", "*", "/", ")", "+a", "*a", "/a", ")a", " )", "ab", "a b", "2a", "a2", "1 2", "a 2", "a(", "2(", "a (b)"],
        *["()", "( )", "(+", "(*", "(a(", "(a b", "(a)(", "(a)b", "(a)2", "(a) 2", "a)", "a )", "(a))", "((a)))"],
        *["a++", "a+*", "a+/", "a+)", "a**", "a//", "a*+", "a-+", "a-*", "a-)", "-+", "-*", "-/", "-)", "--)", "-(+"],
        *["(a+)", "(-)", "a+b c", "1 000", "2147483647 1", "214748364 8", FULL + "b", FULL + "(", FULL + "2"],
        *[FULL + ")", NEARLY + "+", NEARLY + "*", NEARLY + ")", DEEP + ")", DEEP + "+", DEEP + "a(", DEEP + "ab"],
        *["-" * 16 + "a(", "-" * 16 + "+", DEEP + "a" + ")" * 17, "(" * 16 + "a" + ")" * 16 + "("],
    ],
    72: [
        *["2147483648", "2147483649", "2147483650", "2147483657", "3000000000", "4294967295", "4294967296"],
        *["4294967297", "6442450943", "9999999999", "10000000000", "21474836470", "9223372036854775808"],
        *["18446744073709551615", "18446744073709551616", "18446744073709551617", "1" + "0" * 40],
        *["340282366920938463463374607431768211457", "0002147483648", "00000000000000000000000000004294967296"],
        *["-2147483648", "a+2147483648", "(2147483648"],
        *["a*(b-2147483648", "2147483648 ", DEEP + "2147483648", "-" * 16 + "2147483648", NEARLY + "2147483648"],
        *["9" * FORMULA_LIMIT, "2147483648".zfill(FORMULA_LIMIT), "1" + "0" * (FORMULA_LIMIT - 1)],
    ],
    73: [
        *["(" * 17, "-" * 17, "-(" * 8 + "-", "-(" * 8 + "(", "(-" * 8 + "(", "(-" * 8 + "-", "-" * 16 + "("],
        *[DEEP + "-", "(" * 15 + "-(", "(" * 15 + "--", "-" * 15 + "((", "-" * 15 + "(-", "a+(" * 16 + "-"],
        *["a+(" * 16 + "(", "a*-(" * 8 + "a-(", "-a+(" * 16 + "-", "-a+(" * 16 + "a+(", "-a+(" * 15 + "--"],
        *["b+" + "(" * 17, "-a+" + "-" * 17, "(a)*" + "(" * 17, DEEP + "a+-", DEEP + "a+(", DEEP + "a)+(("],
        *["((a)+" + "-" * 16, " ( " * 17, " - " * 17, "(" * 17 + "a" + ")" * 17, "(" * FORMULA_LIMIT],
        *["-" * FORMULA_LIMIT, joined(500) + "+" + "(" * 17, joined(480) + "-" + "-" * 17],
    ],
    28: [
        *[FULL + "+", FULL + "-", FULL + "*", FULL + "/", "(" + FULL + ")+", FULL + " +", joined(513), joined(600)],
        *[NEARLY + "-", NEARLY + " -", NEARLY + "(-", NEARLY + "((((-", joined(510) + "+--", joined(510) + "+-(-"],
        *["-" + joined(511) + "+", joined(510) + "*-a+", joined(256, "-a", "-") + "-", joined(257, "-a")],
        *[DEEP + FULL + "-", "-" * 16 + "a+" + joined(495) + "*", NEARLY + "(" * 15 + "-", joined(20000)],
        *["a+(" * 16 + joined(497)],
    ],
}  # fmt: skip

# Formulas that are refused at their end, as 71: with more they may go on.
UNENDED = [
    *["", " ", "   ", " " * FORMULA_LIMIT, "(", "((", "-", "--", " - ", "-(", "a+", "a-", "a*", "a/ ", "a+b*", "(a"],
    *["(a ", "((a)", "(a)+", "(a+b", "-(a", "a--", "a*-", "a*(b", "2+3*(a-1", DEEP, "-" * 16, DEEP + "a" + ")" * 15],
    *[NEARLY, "(" + FULL, joined(510) + "+-", NEARLY + "(", "a+".ljust(FORMULA_LIMIT), "(a".rjust(FORMULA_LIMIT)],
]  # fmt: skip

# More behind a formula that was refused at a token: it stays refused as it is.
BEHIND = ["", " ", " $", " ab", " 2147483648", " " + "(" * 17, " " + "-" * 17, " " + joined(600), ")", " )", "+a"]


def refused_texts():
    """(Text, number) of each that is refused at a token, with all that may stand behind it but for long ones."""
    for number, texts in REFUSED.items():
        for text, behind in product(texts, BEHIND):
            if len(text) <= 3000 or behind == "":
                yield text + behind, number


# Texts that are too long, whatever they are: 21, also where their length is small in its lowest 16 or 17 bits.
TOO_LONG = [
    *["a".ljust(FORMULA_LIMIT + more) for more in (1, 2, 5, FORMULA_LIMIT, FORMULA_LIMIT + 1)],
    *[letter * (FORMULA_LIMIT + 1) for letter in " 0(-$a+"],
    *["$" + FULL.ljust(FORMULA_LIMIT), "2147483648".zfill(FORMULA_LIMIT + 1), "a+b".rjust(FORMULA_LIMIT + 1)],
]

# A formula for each number that it has where all lengths are right, and tables of another length.
JUDGED = {0: "a+2", 21: " " * (FORMULA_LIMIT + 1), 28: FULL + "+", 70: "a$", 71: "a+", 72: "2147483648", 73: "(" * 17}
OTHER_PLACES = [0, 1, 2, 1023, 1025, 2048, 1024 + 65536]

# Places of a formula that every forbidden byte is put in: first, behind an operand, behind a sign, within a number,
# within a bracket, between spaces, last.
AROUND = [("", "a"), ("a", "+b"), ("-", "a"), ("1", "2"), ("(", "a)"), (" ", " a"), ("a+b", "")]

# Refusals that one token meets, the first in the order of the request: a forbidden byte where nothing could go on or
# where the formula may not end; a second operand that is too large, a bracket too deep or too much; a sign that is too
# deep and too much. An operand alone is never too much: before it the cost, with STOP, is odd, and so below 1,024.
MEETING = {
    (70, 71): ["$", "a$", "a+$", "a $", "($", "(a$", "(a)$", DEEP + "a$", FULL + "$", NEARLY + "$"],
    (71, 72): ["a2147483648", "1 2147483648", "(a) 4294967296", "2 " + "9" * 40, DEEP + "a 2147483648"],
    (71, 73): [DEEP + "a(", "-" * 15 + "(a(", "(-" * 7 + "((a(", "a+(" * 16 + "b (", DEEP + "2("],
    (71, 28): [FULL + "a", FULL + " 2", FULL + "h", "(" + FULL + ")a", "(" + FULL + "a", joined(510) + "+-a a"],
    (73, 28): [NEARLY + DEEP + "-", "a+(" * 16 + joined(495) + "+-", joined(510) + "+-" + "(" * 15 + "-"],
    (71, 72, 28): [FULL + " 2147483648", FULL + "2147483648", "(" + FULL + ")2147483648"],
}

# Formulas, what a to h hold from a on, and the number by hand; nothing where it divides by zero.
WORKED = [
    ("2 + 3 * (a - 1)", [4], 11),
    ("a-b-c", [10, 3, 2], 5),
    ("a-(b-c)", [10, 3, 2], 9),
    ("a/b/c", [100, 5, 2], 10),
    ("a/(b/c)", [100, 5, 2], 50),
    ("a/b*c", [7, 2, 3], 9),
    ("a/(b*c)", [7, 2, 3], 1),
    ("a*b/c", [7, 2, 3], 4),
    ("a*(b/c)", [7, 2, 3], 0),
    ("a+b*c", [2, 3, 4], 14),
    ("(a+b)*c", [2, 3, 4], 20),
    ("a-b/c", [9, 6, 3], 7),
    ("(a-b)/c", [9, 6, 3], 1),
    ("a-b+c", [9, 6, 3], 6),
    ("a-(b+c)", [9, 6, 3], 0),
    ("-a+b", [9, 6], -3),
    ("-(a+b)", [9, 6], -15),
    ("-a*b", [9, 6], -54),
    ("a--b", [9, 6], 15),
    ("a---b", [9, 6], 3),
    ("2*-3", [], -6),
    ("--a", [9], 9),
    ("7/2", [], 3),
    ("-7/2", [], -3),
    ("7/-2", [], -3),
    ("-7/-2", [], 3),
    ("-(7/2)", [], -3),
    ("-1/2", [], 0),
    ("2147483647+1", [], LEAST),
    ("-2147483647-1", [], LEAST),
    ("-2147483647-2", [], GREATEST),
    ("(-2147483647-1)/-1", [], LEAST),
    ("a/b", [LEAST, -1], LEAST),
    ("a/b", [LEAST, 1], LEAST),
    ("a/b", [LEAST, LEAST], 1),
    ("a/b", [LEAST + 1, -1], GREATEST),
    ("-a", [LEAST], LEAST),
    ("-a", [LEAST + 1], GREATEST),
    ("a*a", [65536], 0),
    ("a*a", [46341], -2147479015),
    ("a*b", [GREATEST, GREATEST], 1),
    ("a*b", [LEAST, -1], LEAST),
    ("a-b", [LEAST, 1], GREATEST),
    ("h-g*f/e+d*(c-b)-a", [1, 2, 5, 4, 3, 7, 6, 100], 97),
    *[(name, [10, 11, 12, 13, 14, 15, 16, 17], 10 + i) for i, name in enumerate(NAMES)],
    ("1/0", [], None),
    ("0/0", [], None),
    ("a/b", [5, 0], None),
    ("0*(1/0)", [], None),
    ("1/0+(2+(3+4))", [], None),
    ("a+b/(c-d)", [1, 2, 3, 3], None),
    ("(a/b)*0", [1, 0], None),
    ("1/(1/2)", [], None),
    ("0/1", [], 0),
    ("a/(b+c)", [1, LEAST, LEAST], None),
    ("-(1/-0)", [], None),
]


def filled(values):
    """Zeros for the names that have none."""
    return [*values, *[0] * (len(NAMES) - len(values))]


# ---- every short text


def short_texts():
    """Every one of up to five bytes of some, and of up to three of more."""
    for letters, most in [("a-*()", 5), ("a1 +/()-$", 3)]:
        yield from ("".join(text) for size in range(most + 1) for text in product(letters, repeat=size))


SHORT_TEXTS = sorted(set(short_texts()))
