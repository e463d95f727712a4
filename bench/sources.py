"""Sources for the assembler, most of several lines: good, odd, damaged and as large as may be."""

from itertools import product

import decimals
import panel
from decimals import any_decimal, damaged_decimal
from programs import any_program

GOOD_TOKENS = ["STOP", "ADD", "PUSHIMM 5", "PUSHIMM -2147483648", "PUSHIMMF #7fC0abcd", "ADDSP -999", "PUSHOFF 999",
               "JUMP 0", "JUMP -0", "JUMPC a", "a:", "b:", "JSR b", "PUSHIMMPA end", "end:", "ADD:", "JUMP ADD",
               "//", "// any @ bytes\n", "\n", "\t", "\r", "JUMP 0000000001", "PUSHIMM 0000000001",
               "PUSHIMMF 2.5", "PUSHIMMF -0.0", "PUSHIMMF 16777217.1", "PUSHIMMF 0.3//0.3\n",
               "ITOF", "FTOI", "ITOF:",
               "PUSHIMMCH 65", "PUSHIMMCH -0", "PUSHIMMCH 0000000127", "WRITECH", "WRITECH:"]  # fmt: skip
ODD_TOKENS = ["FOO", "stop", "5", "-", "#", ":", "::", "_a", "a-b", "5:", "a::", "/", "a/b", "@", "\x00", "\xff",
              "PUSHIMM", "PUSHIMM x", "PUSHIMM 5:", "PUSHIMM 2147483648", "PUSHIMM 00000000001", "PUSHIMM -",
              "PUSHIMM - 5", "PUSHIMMF #123", "PUSHIMMF #1234567G", "PUSHIMMF 5", "ADDSP 1000", "STOREOFF -1000",
              "JUMP 99", "JUMP -1",
              "JUMP 12345678901", "JUMP #00000000", "JUMP missing", "JUMP a:", "JUMP " + "x" * 33, "x" * 33 + ":",
              "x" * 32 + ":", "JUMP", "STOP//", "ADD/STOP", "a:STOP", "a:b:", "PUSHIMM 5//5",
              ".", "..", "2.5", "2.5:", ".:", "ADD.", ".ADD", "A.DD", "a.b:", "a.:", ".a:", "JUMP a.b", "JUMP .",
              "JUMP 1.0", "PUSHIMM 1.5", "PUSHIMM 5.", "PUSHIMM 12345678901.5", "ADDSP -1.0", "PUSHIMMF",
              "PUSHIMMF .5", "PUSHIMMF 5.", "PUSHIMMF 2.5:", "PUSHIMMF 12345678.90", "PUSHIMMF 12345678.90:",
              "PUSHIMMF - 2.5", "PUSHIMMF 2 .5", "PUSHIMMF 2./5", "PUSHIMMF +2.5", "PUSHIMMF 2,5",
              "ITOF 5", "FTOI 2.5", "itof", "FTOI.",
              "PUSHIMMCH", "PUSHIMMCH 128", "PUSHIMMCH -1", "PUSHIMMCH 00000000065", "PUSHIMMCH A", "PUSHIMMCH 65:",
              "PUSHIMMCH 'A'", "PUSHIMMCH #41", "PUSHIMMCH 6.5", "WRITECH 65", "writech", "WRITECHS", "PUSHIMMC 65",
              "JUMP " + "x" * 32 + ".", "x" * 33 + ".:"]  # fmt: skip

LINE_ENDS = ["\n", "\n", "\r\n", "\n\n", "\r\n \r\n", " // any @ bytes\n", "//\r\n", "\r\r\n"]
SOURCE_ENDS = ["", "\n", "\r\n", "\n\n  ", " // no LF behind", "// an LF behind\n"]
SIZE_LIMIT = 65536
EDGES_OF_ONE = 256  # decimals of one source


def joined(chooser, pieces, gaps):
    """The pieces, one of the gaps behind each but the last; behind that an end with or without LF."""
    inner = "".join(piece + chooser.choice(gaps) for piece in pieces[:-1])
    return (inner + pieces[-1] + chooser.choice(SOURCE_ENDS)).encode("latin-1")


def in_lines(chooser, lines):
    """The lines, all with the same end or each with its own."""
    return joined(chooser, lines, chooser.choice([["\n"], ["\r\n"], LINE_ENDS]))


def good_source(chooser):
    return in_lines(chooser, any_program(chooser).split("\n"))


def faulty_source(chooser):
    """A good program with something odd in its first line, at its end or anywhere."""
    lines = any_program(chooser).split("\n")
    at = chooser.choice([0, len(lines), chooser.randrange(len(lines) + 1)])
    lines.insert(at, chooser.choice(["", "  ", "\t", "STOP "]) + chooser.choice(ODD_TOKENS))
    return in_lines(chooser, lines)


def cut_source(chooser):
    """A good program that ends early, often where an operand is due; an operand may be lines below its name."""
    words = any_program(chooser).split() or [""]
    return joined(chooser, words[: chooser.randrange(1, len(words) + 1)], [" ", " ", *LINE_ENDS])


def token_source(chooser):
    """Tokens side by side, most of them good."""
    odd = chooser.choice([0.0, 0.05, 0.3])
    bags = [ODD_TOKENS if chooser.random() < odd else GOOD_TOKENS for _ in range(chooser.randrange(1, 25))]
    words = [chooser.choice(bag) for bag in bags]
    return joined(chooser, words, chooser.choice([[" "], ["\n"], [" \r\n"], [" ", "  ", *LINE_ENDS]]))


def damaged_source(chooser):
    """A good source with a few bytes changed, put in or taken out."""
    source = bytearray(good_source(chooser))
    for _ in range(chooser.randrange(1, 4)):
        at = chooser.randrange(len(source) + 1)
        byte = chooser.choice(list(b" \n\r:#-_./aZ09@\x00\xff") + [chooser.randrange(256)])
        source[at : at + chooser.randrange(2)] = bytes([byte] * chooser.randrange(2))
    return bytes(source)


def random_bytes_source(chooser):
    letters = b"ADSTOPJUMPC \n\n\r:/#-_..0123456789ab@"
    start = chooser.choice([b"", b"STOP\n", b"ADD // one\r\n\r\n"])
    return start + bytes(chooser.choice(letters) for _ in range(chooser.randrange(40)))


def decimal_source(chooser):
    """Decimals, and in some sources one that is most often of wrong form or too long."""
    words = [any_decimal(chooser) for _ in range(chooser.randrange(1, 12))]
    if chooser.randrange(3) == 0:
        words[chooser.randrange(len(words))] = damaged_decimal(chooser)
    gap = chooser.choice([" ", " ", "\t", "\n", "\r\n  ", " // 2.5\n"])
    return in_lines(chooser, [f"PUSHIMMF{gap}{word}" for word in words])


def decimal_corners():
    """Every edge, of both signs; then what is refused, alone and behind other lines, each of them a source."""
    edges = list(dict.fromkeys(decimals.edges()))
    edges += ["-" + edge for edge in edges]
    for start in range(0, len(edges), EDGES_OF_ONE):
        yield "".join(f"PUSHIMMF {edge}\n" for edge in edges[start : start + EDGES_OF_ONE])
    for before, word in product(("", "STOP\n\t"), decimals.ILL_FORMED + decimals.TOO_LONG):
        yield f"{before}PUSHIMMF {word}"


def character_corners():
    """What PUSHIMMCH takes and what it refuses, alone and behind other lines."""
    words = panel.TAKEN + panel.OUT_OF_RANGE + panel.WRONG_FORM
    for before, word in product(("", "STOP\n\t"), words):
        yield f"{before}PUSHIMMCH {word}"


def many_labels(count, gap):
    return "".join(f"l{i}:{gap}" for i in range(count))


def full_sources():
    """About as many instructions, labels or bytes as there may be."""
    for count in (1023, 1024, 1025):
        for tail in ("", "end:", "FOO", "PUSHIMM x", "@"):
            yield "STOP\n" * count + tail
        yield "JUMP end " * count + "end:"
        yield "PUSHIMM -2147483648\n" * count
        yield "PUSHIMMF -99999999.9\n" * count
        yield "PUSHIMMCH 127\n" * count
    for count, gap in product((255, 256, 257), (" ", "\n", "\r\n")):
        for tail in ("", "l7:", "x:", "l7: x:", "x" * 33 + ":"):
            yield many_labels(count, gap) + tail
    for count, filler in product((SIZE_LIMIT - 1, SIZE_LIMIT, SIZE_LIMIT + 1), (" ", "\n", "\r")):
        yield filler * count
        yield "//" + "x" * (count - 3) + filler
        for token in ("STOP", "FOO", "PUSHIMM", "JUMP 9"):
            yield filler * (count - len(token)) + token
            yield token + filler * (count - len(token))


def every_refusal():
    """Each refusal of a source, 21 to 30 and 33, in a later line where it has one."""
    yield "\n" * (SIZE_LIMIT + 1)
    yield "STOP\r\n\tADD@"
    yield "STOP\n\n FOO"
    yield "STOP // one\nPUSHIMM\n"
    yield "STOP\nADDSP 1000"
    yield "a:\r\n a:"
    yield "STOP\n JUMP missing\nSTOP\n"
    yield "STOP\n" * 1025
    yield many_labels(257, "\r\n")
    yield "STOP\nJUMP\n" + "x" * 33
    yield "STOP\nPUSHIMM\n ADD"
    yield "STOP\nADD."
    yield "STOP\nPUSHIMMF 2."
    yield "STOP\nPUSHIMMF 12345678.90"
    yield "STOP\nPUSHIMMCH\n A"
    yield "STOP\nPUSHIMMCH\n128"


def line_corners():
    """Everything odd in the first line and in later ones, at the end and before more lines."""
    starts = ("", "  ", "\n", "STOP\n", "STOP\r\n\t", "\r", "\r\n\r\n", "// any @ bytes\n ", "STOP//\r\nJUMP gone ")
    for start, token, end in product(starts, ODD_TOKENS, [*SOURCE_ENDS, "\nSTOP", "\r\n\r\nJUMP 9\r\n"]):
        yield start + token + end


def corner_sources():
    """Every token there is a word for above: alone, behind another, and where an operand is due."""
    for token in GOOD_TOKENS + ODD_TOKENS:
        for before in ("", "STOP ", "PUSHIMM ", "PUSHIMMF ", "PUSHIMMCH ", "ADDSP ", "JUMP ", "a:"):
            for after in ("", ":", " a:"):
                yield before + token + after
    yield from line_corners()
    yield from decimal_corners()
    yield from character_corners()
    yield from full_sources()
    yield from every_refusal()


def any_source(chooser):
    kind = chooser.randrange(20)
    if kind < 4:
        return token_source(chooser)
    if kind < 7:
        return faulty_source(chooser)
    if kind < 8:
        return cut_source(chooser)
    if kind < 12:
        return damaged_source(chooser)
    if kind < 13:
        return random_bytes_source(chooser)
    if kind < 17:
        return decimal_source(chooser)
    return good_source(chooser)
