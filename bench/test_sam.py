#!/usr/bin/env python3
"""Tests of the interpreter in sam/: the twelve P examples of document 01, its sentences, requests a, b and d to n, and
the settled readings.

Every expected value is read off the documents or worked out by hand; none is copied from an output.
"""

import ctypes
import random
import struct
import unittest
from collections import Counter
from dataclasses import fields, replace
from fractions import Fraction
from itertools import product

import decimals
import depth_list
import depths as depth_cases
import formulas
import programs
import sam
import teaching
from machines import copied
from sam import floats
from sam.actions import CH, FLOAT, INT, MA, PA
from sam.machine import plain_step
from sam.table import NAMES, make_place

PLACES = 1024
WORD = 1 << 32
DOUBLE_WORD = 1 << 64
NOT_REACHED = 65535  # the mark of a depth list


def assembled(text):
    """(number, length, place, line, column) and the table."""
    source = text if isinstance(text, bytes) else text.encode()
    table = [7] * PLACES
    return sam.assemble(source, table), table


def program(text):
    (number, length, *_), table = assembled(text)
    assert number == 0, (number, text)
    return sam.Program(table, length)


def started(text, n=16, h=0, output=0):
    made = program(text)
    state = sam.State(bits=[9] * n, tags=[1] * n, history=[9] * h, output=bytearray([9] * output))
    assert sam.reset(made, state) == 0
    return made, state


def stepped(text, n=16, h=0, output=0):
    """The numbers of steps until one is refused or HALT is set, and the state."""
    made, state = started(text, n, h, output)
    numbers = []
    while not state.registers.halt:
        numbers.append(sam.step(made, state))
        if numbers[-1]:
            break
    return numbers, state


def live(state):
    return state.cells(0, state.registers.sp)


def stacked(*cells, h=0, output=b"", written=0):
    """A machine with these (tag, bits) on its stack, in as few cells as hold them, and with this output."""
    tags, bits = map(list, zip(*cells, (INT, 0)))
    registers = sam.Registers(n=len(bits), h=h, sp=len(cells), written=written)
    return sam.State(bits, tags, [0] * h, bytearray(output), registers)


def contents(state):
    """All that a call may change."""
    return list(state.bits), list(state.tags), list(state.history), bytes(state.output), replace(state.registers)


def cell_place(address, tag=INT, bits=0):
    """ "0, address 10, old tag [3], old bits 32, [18] zeros" """
    return address << 53 | tag << 50 | bits << 18


def step_place(pc=0, sp=0, fbr=0, written=1):
    """ "1, old PC 11, old SP 10, old FBR 10, cells written 10, 22 zeros" """
    return 1 << 63 | pc << 52 | sp << 42 | fbr << 32 | written << 22


def joined(records):
    """The places of these records, the oldest first."""
    return [place for record in records for place in record]


def drawn_program(chooser):
    while True:
        answer, table = assembled(programs.any_program(chooser))
        if answer[0] == 0:
            return sam.Program(table, answer[1])


class PExamples(unittest.TestCase):
    def top(self, text):
        numbers, state = stepped(text + " STOP")
        self.assertEqual(set(numbers), {0})
        return live(state)[-1]

    def test_values(self):
        for text, number in [
            ("PUSHIMM 6 PUSHIMM 4 CMP", -1),  # P1
            ("PUSHIMM 6 PUSHIMM 4 GREATER", 1),
            ("PUSHIMM 2 PUSHIMM 3 SUB", -1),  # P2
            ("PUSHIMM 2147483647 PUSHIMM 1 ADD", -2147483648),  # P3
            ("PUSHIMM -7 PUSHIMM 2 DIV", -3),  # P4
            ("PUSHIMM -7 PUSHIMM 2 MOD", -1),
            ("PUSHIMM 65536 PUSHIMM 65536 TIMES", 0),  # P5
            ("PUSHIMM 6 PUSHIMM 5 BITNAND", -5),  # P6
            ("PUSHIMM -2147483648 PUSHIMM -1 DIV", -2147483648),
            ("PUSHIMM -2147483648 PUSHIMM -1 MOD", 0),
        ]:
            self.assertEqual(self.top(text), (INT, number % WORD), text)

    def test_p7(self):
        self.assertEqual(stepped("PUSHIMM 1 PUSHIMM 1", n=2)[0], [0, 7])
        self.assertEqual(stepped("PUSHIMM 1", n=1)[0], [7])

    def test_p8(self):
        self.assertEqual(stepped("PUSHSP PUSHIND")[0], [0, 6])

    def test_p9(self):
        self.assertEqual(stepped("ADDSP -1")[0], [3])
        self.assertEqual(stepped("ADDSP 3", n=4)[0], [0, 2])
        self.assertEqual(stepped("ADDSP 4", n=4)[0], [7])

    def packed(self, text):
        made = program(text)
        image = bytearray(4866)
        number, length = sam.pack(made.table, made.length, image)
        self.assertEqual((number, any(image[length:])), (0, False))
        return image[:length].hex(" ").upper()

    def test_p10_p11(self):
        self.assertEqual(self.packed("PUSHIMM 5 STOP"), "00 40 80 00 00 02 80")
        self.assertEqual(self.packed("ADDSP -2"), "00 33 FF E0")

    def test_p12(self):
        made, state = started("PUSHIMM 40 PUSHIMMF #40200000 STOREOFF 0", h=6)
        self.assertEqual([sam.step(made, state) for _ in range(3)], [0, 0, 0])
        self.assertEqual(state.history[4:], [0x0000000000A00000, 0x8020080000400000])
        self.assertEqual(state.cell(0), (FLOAT, 0x40200000))
        self.assertEqual(sam.step_back(made, state), 0)
        self.assertEqual(state.cell(0), (INT, 40))
        self.assertEqual(state.history[4:], [0, 0])
        self.assertEqual(state.registers, sam.Registers(n=16, h=6, pc=2, sp=2, fbr=0, halt=0, used=4, kept=2))


class Text(unittest.TestCase):
    def refused(self, text, number, place, line, column):
        answer, table = assembled(text)
        self.assertEqual(answer, (number, 0, place, line, column), text[-99:])
        self.assertFalse(any(table))

    def test_places(self):
        """Sources with no LF before the place: line 1, and "a column counts bytes", from 1."""
        for text, number, place in [
            ("FOO@", 22, 3),
            ("STOP / STOP", 22, 5),
            ("a/b", 22, 1),
            ("STOP \x01", 22, 5),
            ("5:$", 23, 0),
            ("a::", 23, 2),
            (":", 23, 0),
            ("PUSHIMM :", 33, 8),
            ("PUSHIMM 5:", 33, 8),
            ("PUSHIMM 00000000001:", 33, 8),  # 33 before 25
            ("PUSHIMM @:", 22, 8),
            ("PUSHIMM x@", 22, 9),  # 22 before 33
            ("JUMP a: STOP", 33, 5),
            ("FOO", 23, 0),
            ("stop", 23, 0),
            ("STOP 5", 23, 5),
            ("_a:", 23, 0),
            ("a-b:", 23, 0),
            ("PUSHIMM", 24, 7),
            ("PUSHIMM ", 24, 8),
            ("PUSHIMM // 5", 24, 12),
            ("PUSHIMM\r", 24, 8),
            ("JUMP", 24, 4),
            ("JUMP x PUSHIMM", 24, 14),  # 27 comes later still
            ("PUSHIMM ADD", 33, 8),
            ("PUSHIMM -", 33, 8),
            ("PUSHIMM --1", 33, 8),
            ("PUSHIMM #00000000", 33, 8),
            ("PUSHIMMF 5", 33, 9),
            ("PUSHIMMF #4020000", 33, 9),
            ("PUSHIMMF #402000000", 33, 9),
            ("PUSHIMMF #4020000G", 33, 9),
            ("JUMP #00000000", 33, 5),
            ("JUMP -", 33, 5),
            ("PUSHIMM 2147483648", 25, 8),
            ("PUSHIMM -2147483649", 25, 8),
            ("PUSHIMM 00000000001", 25, 8),
            ("ADDSP 1000", 25, 6),
            ("PUSHOFF -1000", 25, 8),
            ("JUMP 2", 25, 5),
            ("JUMP -1", 25, 5),
            ("JUMP 00000000001", 25, 5),
            ("JUMP 9 FOO", 23, 7),
            ("JUMP x JUMP 9", 27, 5),
            ("JUMP 9 JUMP x", 25, 5),
            ("a: STOP a:", 26, 8),
            ("JUMP ADD", 27, 5),
            ("x" * 33 + ":", 30, 0),
            ("JUMP " + "x" * 33, 30, 5),
            ("JUMP " + "x" * 33 + ":", 33, 5),  # 33 before 30
            ("x" * 33, 23, 0),
            ("STOP " * 1025, 28, 5120),
            ("STOP " * 1024 + "PUSHIMM x", 28, 5120),
            ("STOP " * 1024 + "PUSHIMM", 28, 5120),
            ("STOP " * 1024 + "FOO", 23, 5120),
            ("".join(f"a{i}:" for i in range(100, 356)) + "b:", 29, 256 * 5),
            ("".join(f"a{i}:" for i in range(100, 356)) + "a100:", 26, 256 * 5),
            ("STOP\rFOO", 23, 5),  # CR is a byte like any other
            ("STOP FOO\n\n", 23, 5),
            ("JUMP gone\nSTOP\nSTOP\n", 27, 5),  # found after the last token, told where it stands
            ("JUMP 9\r\nSTOP\r\n", 25, 5),
            (" " * 65533 + "FOO", 23, 65533),
        ]:
            self.refused(text, number, place, 1, place + 1)

    def test_lines(self):
        for text, number, place, line, column in [
            ("PUSHIMM\n", 24, 8, 2, 1),
            ("PUSHIMM\r\n", 24, 9, 2, 1),
            ("PUSHIMM // 5\n", 24, 13, 2, 1),
            ("STOP\nPUSHIMM \n\n  ", 24, 17, 4, 3),
            ("JUMP gone\nJUMP 9\nPUSHIMM\n", 24, 25, 4, 1),
            ("PUSHIMM\nADD", 33, 8, 2, 1),
            ("PUSHIMM\r\n\t5:", 33, 10, 2, 2),
            ("STOP\nFOO", 23, 5, 2, 1),
            ("STOP\r\n  FOO\r\n", 23, 8, 2, 3),
            ("\n\n\tFOO", 23, 3, 3, 2),
            ("// a @ comment\nFOO", 23, 15, 2, 1),
            ("STOP // one\n// two\nSTOP @", 22, 24, 3, 6),
            ("STOP//x\n@", 22, 8, 2, 1),
            ("STOP\nab@c:", 22, 7, 2, 3),
            ("PUSHIMM 1\nADDSP 1000\n", 25, 16, 2, 7),
            ("STOP\nJUMP 9\nSTOP\n", 25, 10, 2, 6),
            ("JUMP 0\nJUMP gone\nJUMP 9", 27, 12, 2, 6),
            ("a:\r\nSTOP\r\na:\r\n", 26, 10, 3, 1),
            ("STOP\n JUMP " + "x" * 33, 30, 11, 2, 7),
            ("STOP\n" * 1025, 28, 5120, 1025, 1),
            ("".join(f"a{i}:\n" for i in range(100, 356)) + " b:", 29, 256 * 6 + 1, 257, 2),
            ("\n" * 65533 + "FOO", 23, 65533, 65534, 1),
            ("\n" * 65537, 21, 0, 0, 0),
        ]:
            self.refused(text, number, place, line, column)

    def test_accepted(self):
        for text, length in [
            ("", 0),
            ("//\xff anything @", 0),
            ("STOP//x\nSTOP//", 2),
            ("ADD: JUMP ADD", 1),
            ("a:b:c:STOP JUMP end end:", 2),
            ("JUMP -0", 1),
            ("JUMP 0000000001", 1),
            ("PUSHIMMF #aBcDeF09", 1),
            ("x" * 32 + ": JUMP " + "x" * 32, 1),
            (" " * 65536, 0),
            ("STOP\r\tSTOP", 2),
            ("\n// two\r\nSTOP\r\n", 1),
            ("PUSHIMM // the operand is below\n5", 1),
            ("ADDSP -0", 1),
        ]:
            answer, _ = assembled(text.encode("latin-1"))
            self.assertEqual(answer, (0, length, 0, 0, 0), text)

    def test_labels_settle(self):
        made = program("JUMP end a: PUSHIMMPA a end:")
        self.assertEqual(made.table[:3], [44 << 32 | 2, 49 << 32 | 1, 0])

    def test_wrong_length(self):
        table = [7] * 1023
        self.assertEqual(sam.assemble(b" " * 65537, table), (31, 0, 0, 0, 0))
        self.assertEqual(table, [7] * 1023)

    def test_listing(self):
        made = program("x: PUSHIMM -05 PUSHIMMF #0000abcd JUMP x ADDSP -2 STOP")
        text = bytearray(b"?" * 20480)
        number, length = sam.list_program(made.table, made.length, text)
        self.assertEqual(number, 0)
        self.assertEqual(text[:length], b"PUSHIMM -5\nPUSHIMMF #0000ABCD\nJUMP 0\nADDSP -2\nSTOP\n")
        self.assertFalse(any(text[length:]))
        again, table = assembled(bytes(text[:length]))
        self.assertEqual((again, table), ((0, 5, 0, 0, 0), made.table))

    def test_listing_refused(self):
        text = bytearray(b"?" * 20479)
        self.assertEqual(sam.list_program([], 0, text), (31, 0))
        self.assertEqual(text, b"?" * 20479)
        text = bytearray(b"?" * 20480)
        self.assertEqual(sam.list_program([0] * 1023, 0, text), (10, 0))
        self.assertFalse(any(text))


class Tables(unittest.TestCase):
    def test_unsound(self):
        def table(*places):
            return list(places) + [0] * (PLACES - len(places))

        listing = lambda places, length: sam.list_program(places, length, bytearray(20480))[0]
        self.assertEqual(listing(table(), 1024), 0)
        for places, length in [
            (table(), 1025),
            (table(1), 1),  # STOP with an operand
            (table(54 << 32), 1),
            (table(63 << 32), 1),
            (table(50 << 32 | 1), 1),  # ITOF with an operand
            (table(51 << 32 | 1), 1),
            (table(53 << 32 | 1), 1),  # WRITECH with an operand
            (table(1 << 38), 1),
            (table(0, 5 << 32), 1),  # an unused place not zero
            (table(39 << 32 | 1000), 1),
            (table(42 << 32 | (1 << 32) - 1000), 1),
            (table(44 << 32 | 2), 1),
        ]:
            self.assertEqual(listing(places, length), 10)


class Images(unittest.TestCase):
    def unpacked(self, bits):
        bits += "0" * (-len(bits) % 8)
        table = [7] * PLACES
        answer = sam.unpack(int("1" + bits, 2).to_bytes(len(bits) // 8 + 1, "big")[1:], table)
        return answer, table

    def test_refusals(self):
        count = lambda value: format(value, "011b")
        code = lambda value: format(value, "06b")
        for bits, number in [
            ("", 41),
            ("00000000", 41),
            (count(1), 41),  # five bits are left for a code of six
            (count(3) + code(0), 41),  # the padding is one more code, not two
            (count(1) + code(1) + "0" * 16, 41),
            (count(1025), 42),
            (count(2047), 42),
            (count(1) + code(54), 43),
            (count(2) + code(53) + code(54), 43),
            (count(1) + code(63), 43),
            (count(1) + code(39) + format(1000, "011b"), 44),
            (count(1) + code(43) + format(2048 - 1000, "011b"), 44),
            (count(1) + code(44) + format(2, "011b"), 44),
            (count(0) + "00001", 45),
            (count(0) + "0" * 13, 45),
            (count(1) + code(0) + "0000001", 45),
        ]:
            answer, table = self.unpacked(bits)
            self.assertEqual(answer, (number, 0), bits)
            self.assertFalse(any(table))

    def test_accepted(self):
        answer, table = self.unpacked(format(1, "011b") + format(39, "06b") + format(2048 - 999, "011b"))
        self.assertEqual((answer, table[0]), ((0, 1), 39 << 32 | (1 << 32) - 999))

    def test_wrong_length(self):
        table = [7] * 1025
        self.assertEqual(sam.unpack(b"", table), (31, 0))
        self.assertEqual(table, [7] * 1025)


class Steps(unittest.TestCase):
    def numbers(self, text, **sizes):
        return stepped(text, **sizes)[0]

    def cells(self, text, **sizes):
        numbers, state = stepped(text + " STOP", **sizes)
        self.assertEqual(set(numbers), {0}, text)
        return live(state)

    def test_addresses(self):
        self.assertEqual(self.cells("PUSHIMM 4 PUSHSP PUSHIMM 1 SUB PUSHIND"), [(INT, 4), (INT, 4)])
        self.assertEqual(self.cells("PUSHIMM 4 PUSHFBR PUSHIMM 9 STOREIND"), [(INT, 9)])
        self.assertEqual(self.numbers("PUSHFBR PUSHIMM 9 STOREIND"), [0, 0, 6])
        self.assertEqual(self.numbers("PUSHIMM 9 STOREOFF 0"), [0, 6])
        self.assertEqual(self.numbers("PUSHOFF 0"), [6])
        self.assertEqual(self.numbers("PUSHIMM 1 PUSHOFF -1"), [0, 6])
        self.assertEqual(self.numbers("PUSHFBR PUSHIMM 16 ADD POPFBR"), [0, 0, 0, 6])
        self.assertEqual(self.numbers("PUSHFBR PUSHIMM 1 SUB POPSP"), [0, 0, 0, 6])
        self.assertEqual(self.numbers("PUSHFBR PUSHIMM 15 ADD POPFBR"), [0, 0, 0, 0, 2])

    def test_tags(self):
        for text in [
            "PUSHIMM 1 PUSHSP ADD",
            "PUSHSP PUSHSP SUB",
            "PUSHSP PUSHIMM 1 TIMES",
            "PUSHIMM 1 PUSHIMM 1 ADDF",
            "PUSHIMM 1 PUSHIMM 1 CMPF",
            "PUSHIMM 1 PUSHIMMPA 0 AND",
            "PUSHIMM 1 PUSHIMMF #00000000 CMP",
        ]:
            self.assertEqual(self.numbers(text), [0, 0, 4], text)
        for text in ["PUSHSP JUMPIND", "PUSHSP JSRIND", "PUSHIMMPA 0 PUSHIND", "PUSHIMMPA 0 POPFBR", "PUSHSP JUMPC 0"]:
            self.assertEqual(self.numbers(text), [0, 4], text)
        self.assertEqual(self.numbers("PUSHSP ADD"), [0, 3])  # 3 before 4
        self.assertEqual(self.numbers("PUSHSP PUSHIMM 0 DIV"), [0, 0, 4])  # 4 before 5
        self.assertEqual(self.numbers("PUSHIMM 1 PUSHIMM 0 MOD"), [0, 0, 5])
        self.assertEqual(self.numbers("PUSHIMMF #7F800001 PUSHIMMF #00000000 CMPF"), [0, 0, 5])

    def test_link_and_calls(self):
        numbers, state = stepped("PUSHIMM 7 LINK LINK STOP")
        self.assertEqual((live(state), state.registers.fbr), ([(INT, 7), (MA, 0), (MA, 1)], 2))
        self.assertEqual(self.cells("PUSHIMMPA f JSRIND f:"), [(PA, 2)])
        self.assertEqual(self.cells("JSR f f:"), [(PA, 1)])
        self.assertEqual(self.numbers("JSR 1"), [0, 2])  # PC rests at the length
        self.assertEqual(self.cells("PUSHIMM 0 JUMPC 0 PUSHIMM 8 JUMPC e PUSHIMM 1 e:"), [])

    def test_fills(self):
        made, state = started("PUSHIMM 1 PUSHIMM 2 ADDSP -2 ADDSP 2 PUSHSP PUSHIMM 3 ADD POPSP STOP", h=64)
        for _ in range(3):
            self.assertEqual(sam.step(made, state), 0)
        self.assertEqual(state.bits[:2], [1, 2])  # "Popped cells otherwise keep their contents."
        for _ in range(5):
            self.assertEqual(sam.step(made, state), 0)
        self.assertEqual(live(state), [(INT, 0)] * 5)
        self.assertEqual(state.history[state.registers.used - 1] >> 22 & 0x3FF, 3)

    def test_order_of_seven_and_eight(self):
        self.assertEqual(self.numbers("PUSHIMM 1", n=1, h=1), [7])
        self.assertEqual(self.numbers("PUSHIMM 1", n=2, h=1), [8])
        self.assertEqual(self.numbers("JUMP 1 STOP", h=1), [0, 8])
        self.assertEqual(self.numbers("ADDSP 0 STOP", h=2), [0, 0])

    def test_halt(self):
        made, state = started("STOP", h=1)
        self.assertEqual(sam.run(made, state, 0), (50, 0))
        self.assertEqual(sam.run(made, state, 9), (0, 1))
        self.assertEqual(sam.run(made, state, 0), (0, 0))
        self.assertEqual(sam.step(made, state), 1)
        state.registers.pc = 1
        self.assertEqual(sam.step(made, state), 1)
        self.assertEqual(sam.step_back(made, state), 0)
        self.assertEqual((state.registers.halt, state.registers.pc), (0, 0))
        self.assertEqual(sam.step_back(made, state), 9)

    def test_run(self):
        made, state = started("a: JUMP a")
        self.assertEqual(sam.run(made, state, 1000001), (11, 0))
        self.assertEqual(sam.run(made, state, 1000), (50, 1000))
        made, state = started("PUSHIMM 1 ADD")
        self.assertEqual(sam.run(made, state, 5), (3, 1))

    def test_reset_sizes(self):
        made = program("STOP")
        refused = [(0, 0, 0, 11), (1001, 1001, 0, 11), (5, 4, 0, 11), (5, 5, 8193, 11)]
        for n, tags, h, number in refused + [(1, 1, 8192, 0)]:
            state = sam.State(bits=[9] * n, tags=[9] * tags, history=[9] * h)
            self.assertEqual(sam.reset(made, state), number)
            if number:
                self.assertEqual(state.registers, sam.Registers())
                self.assertEqual(set(state.bits) | set(state.tags) | set(state.history) | {9}, {9})
        state = sam.State(bits=[9], tags=[9], history=[])
        self.assertEqual(sam.reset(sam.Program(made.table, 1025), state), 10)


class EqualAndNil(unittest.TestCase):
    """Request b, and what it leaves of document 01."""

    ZERO, MINUS_ZERO = 0x00000000, 0x80000000
    ZEROS = [ZERO, MINUS_ZERO]
    # Numbers that are not zero, no two of them equal: the least and the greatest denormal, the least normal number, 1,
    # the greatest number and infinity, of both signs.
    OTHERS = [0x00000001, 0x007FFFFF, 0x00800000, 0x3F800000, 0x7F7FFFFF, 0x7F800000]
    OTHERS += [0x80000001, 0x807FFFFF, 0x80800000, 0xBF800000, 0xFF7FFFFF, 0xFF800000]
    # The least and the greatest of the signalling and of the quiet ones, of both signs.
    NANS = [0x7F800001, 0x7FBFFFFF, 0x7FC00000, 0x7FFFFFFF, 0xFF800001, 0xFFBFFFFF, 0xFFC00000, 0xFFFFFFFF]
    PATTERNS = ZEROS + OTHERS + NANS
    PROGRAM_ADDRESSES = [0, 1]  # "a PA cell above length" is 10, and the programs here have one instruction

    def holds(self, name, *cells):
        """Whether the instruction, on these cells alone, leaves INT 1; otherwise it leaves INT 0."""
        state = stacked(*cells)
        self.assertEqual(sam.step(program(name), state), 0, cells)
        self.assertIn(live(state), ([(INT, 0)], [(INT, 1)]), cells)
        return live(state) == [(INT, 1)]

    def floats_equal(self, below, top):
        return self.holds("EQUAL", (FLOAT, below), (FLOAT, top))

    def test_zeros(self):
        """ "both zeros equal", and no other number equal to either."""
        for zero, other in product(self.ZEROS, self.ZEROS):
            self.assertTrue(self.floats_equal(zero, other), (zero, other))
        for zero, other in product(self.ZEROS, self.OTHERS):
            self.assertFalse(self.floats_equal(zero, other), (zero, hex(other)))
            self.assertFalse(self.floats_equal(other, zero), (hex(other), zero))

    def test_nans(self):
        """ "a NaN equal to nothing", itself included."""
        for nan, other in product(self.NANS, self.PATTERNS):
            self.assertFalse(self.floats_equal(nan, other), (hex(nan), hex(other)))
            self.assertFalse(self.floats_equal(other, nan), (hex(other), hex(nan)))

    def test_numbers(self):
        for below, top in product(self.OTHERS, self.OTHERS):
            self.assertEqual(self.floats_equal(below, top), below == top, (hex(below), hex(top)))

    def test_other_tags(self):
        """ "Other tags stay": "1 if tags and all 32 bits agree"."""
        for tag, patterns in [(INT, self.PATTERNS), (MA, self.PATTERNS), (PA, self.PROGRAM_ADDRESSES)]:
            for below, top in product(patterns, patterns):
                self.assertEqual(self.holds("EQUAL", (tag, below), (tag, top)), below == top, (tag, below, top))

    def test_unlike_tags(self):
        """ "unlike tags still give 0", with equal bits too."""
        cells = [*product([INT, FLOAT, MA], self.PATTERNS), *product([PA], self.PROGRAM_ADDRESSES)]
        for (below_tag, below), (top_tag, top) in product(cells, cells):
            if below_tag != top_tag:
                self.assertFalse(self.holds("EQUAL", (below_tag, below), (top_tag, top)), (below, top))

    def test_nil(self):
        """ "ISNIL of a FLOAT is 1 for both zeros." Of other tags "1 if all bits are zero"."""
        for zero in self.ZEROS:
            self.assertTrue(self.holds("ISNIL", (FLOAT, zero)), zero)
        for tag in (INT, MA, PA):
            self.assertTrue(self.holds("ISNIL", (tag, 0)), tag)
        not_nil = list(product([FLOAT, INT, MA], self.OTHERS + self.NANS))
        for cell in not_nil + [(INT, self.MINUS_ZERO), (MA, self.MINUS_ZERO), (PA, 1)]:
            self.assertFalse(self.holds("ISNIL", cell), cell)

    def branch(self, text):
        """Whether a program jumps on the INT that the text leaves on top; the text's other values are below."""
        numbers, state = stepped(text + " JUMPC yes PUSHIMM 7 STOP yes: PUSHIMM 8 STOP")
        self.assertEqual(set(numbers), {0}, text)
        return {(INT, 7): False, (INT, 8): True}[live(state)[-1]]

    def test_complaint(self):
        """ "A program got minus zero and took the wrong branch." """
        for text in [
            "PUSHIMMF #BF800000 PUSHIMMF #00000000 TIMESF",  # -1 times 0
            "PUSHIMMF #00000000 PUSHIMMF #C0000000 TIMESF",  # 0 times -2
            "PUSHIMMF #00000000 PUSHIMMF #BF800000 DIVF",  # 0 by -1
            "PUSHIMMF #3F800000 PUSHIMMF #FF800000 DIVF",  # 1 by minus infinity
            "PUSHIMMF #80000001 PUSHIMMF #3F000000 TIMESF",  # half the least, a tie to even
            "PUSHIMMF #80000000 PUSHIMMF #00000000 SUBF",  # -0 less 0
        ]:
            numbers, state = stepped(text)
            self.assertEqual((numbers, live(state)), ([0, 0, 0, 2], [(FLOAT, self.MINUS_ZERO)]), text)
            self.assertTrue(self.branch(text + " PUSHIMMF #00000000 EQUAL"), text)
            self.assertTrue(self.branch("PUSHIMMF #00000000 " + text + " EQUAL"), text)
            self.assertTrue(self.branch(text + " DUP EQUAL"), text)
            self.assertTrue(self.branch(text + " ISNIL"), text)
            self.assertFalse(self.branch(text + " PUSHIMMF #80000001 EQUAL"), text)
            self.assertFalse(self.branch(text + " PUSHIMM 0 EQUAL"), text)  # unlike tags

    def test_nan_by_arithmetic(self):
        zero_by_zero = "PUSHIMMF #00000000 DUP DIVF"
        self.assertFalse(self.branch(zero_by_zero + " DUP EQUAL"))
        self.assertFalse(self.branch(zero_by_zero + " ISNIL"))

    def test_numbers_given_back(self):
        """3, 8 and nothing else: neither a tag nor a NaN is refused."""
        self.assertEqual(stepped("PUSHIMMF #80000000 EQUAL")[0], [0, 3])
        self.assertEqual(stepped("ISNIL")[0], [3])
        self.assertEqual(stepped("PUSHIMMF #7F800001 DUP EQUAL", h=6)[0], [0, 0, 0, 2])
        self.assertEqual(stepped("PUSHIMMF #7F800001 DUP EQUAL", h=5)[0], [0, 0, 8])
        self.assertEqual(stepped("PUSHIMMF #7F800001 DUP CMPF", h=6)[0], [0, 0, 5])
        self.assertEqual(stepped("PUSHIMMF #80000000 PUSHIMMF #00000000 CMPF")[0], [0, 0, 0, 2])

    def test_step_back(self):
        made, state = started("PUSHIMMF #80000000 PUSHIMMF #00000000 EQUAL", h=6)
        self.assertEqual([sam.step(made, state) for _ in range(3)], [0, 0, 0])
        self.assertEqual(live(state), [(INT, 1)])
        self.assertEqual(state.history[4:], [0x0006000000000000, 0x8020080000400000])
        self.assertEqual(sam.step_back(made, state), 0)
        self.assertEqual(live(state), [(FLOAT, self.MINUS_ZERO), (FLOAT, self.ZERO)])
        self.assertEqual(state.registers, sam.Registers(n=16, h=6, pc=2, sp=2, used=4, kept=2))


class AddressSums(unittest.TestCase):
    """Request d: ADD and SUB of an MA and an INT."""

    LEAST, GREATEST = -2147483648, 2147483647  # -2^31 and 2^31-1

    # MA, INT and the exact result: the last accepted at an end, then the first refused beyond it.
    ENDS = {
        "ADD": [
            ((2147483647, 0, 2147483647), (2147483647, 1, 2147483648)),
            ((2147483646, 1, 2147483647), (2147483646, 2, 2147483648)),
            ((0, 2147483647, 2147483647), (1, 2147483647, 2147483648)),
            ((1073741824, 1073741823, 2147483647), (1073741824, 1073741824, 2147483648)),
            ((-2147483648, 0, -2147483648), (-2147483648, -1, -2147483649)),
            ((-2147483647, -1, -2147483648), (-2147483647, -2, -2147483649)),
            ((0, -2147483648, -2147483648), (-1, -2147483648, -2147483649)),
            ((-1, -2147483647, -2147483648), (-2, -2147483647, -2147483649)),
            ((-1073741824, -1073741824, -2147483648), (-1073741824, -1073741825, -2147483649)),
        ],
        "SUB": [
            ((-2147483648, 0, -2147483648), (-2147483648, 1, -2147483649)),
            ((-2147483647, 1, -2147483648), (-2147483647, 2, -2147483649)),
            ((-1, 2147483647, -2147483648), (-2, 2147483647, -2147483649)),
            ((-1073741824, 1073741824, -2147483648), (-1073741824, 1073741825, -2147483649)),
            ((2147483647, 0, 2147483647), (2147483647, -1, 2147483648)),
            ((2147483646, -1, 2147483647), (2147483646, -2, 2147483648)),
            ((0, -2147483647, 2147483647), (0, -2147483648, 2147483648)),
            ((-1, -2147483648, 2147483647), (0, -2147483648, 2147483648)),
            ((1073741824, -1073741823, 2147483647), (1073741824, -1073741824, 2147483648)),
        ],
    }
    # MA and INT with the exact results farthest beyond, which came round to 0, -2, 1 and -1.
    FAR = {
        "ADD": [(-2147483648, -2147483648), (2147483647, 2147483647)],
        "SUB": [(-2147483648, 2147483647), (2147483647, -2147483648)],
    }

    # Programs whose address went past 32 bits and came round to a legal cell, which the last instruction uses. With
    # each, the place of the ADD or SUB that went past. SP is 1 and cell 0 INT 5 before what each adds.
    ROUND = [
        # 0 - 2^31 - 2^31 is -2^32, which comes round to 0.
        ("PUSHFBR PUSHIMM -2147483648 ADD PUSHIMM -2147483648 ADD PUSHIND", 5),
        # 0 + 2147483647 + 2147483647 + 2 is 2^32; the second sum is past the end, the third would be back.
        ("PUSHFBR PUSHIMM 2147483647 ADD PUSHIMM 2147483647 ADD PUSHIMM 2 ADD PUSHIND", 5),
        # 1 + 2147483647 is 2^31, which comes round to -2^31; less 2^31 that is 0 again.
        ("PUSHSP PUSHIMM 2147483647 ADD PUSHIMM -2147483648 ADD PUSHIND", 3),
        # 0 - 2147483647 - 2147483647 - 2 is -2^32.
        ("PUSHFBR PUSHIMM 2147483647 SUB PUSHIMM 2147483647 SUB PUSHIMM 2 SUB PUSHIND", 5),
        # 0 + 2^31 + 2^31, by SUB of -2^31 twice.
        ("PUSHFBR PUSHIMM -2147483648 SUB PUSHIMM -2147483648 SUB PUSHIND", 3),
        # The same cell stored to, and the same number for SP and FBR.
        ("PUSHFBR PUSHIMM -2147483648 ADD PUSHIMM -2147483648 ADD PUSHIMM 9 STOREIND", 5),
        ("PUSHFBR PUSHIMM -2147483648 ADD PUSHIMM -2147483648 ADD POPFBR", 5),
        ("PUSHFBR PUSHIMM -2147483648 ADD PUSHIMM -2147483648 ADD POPSP", 5),
    ]

    def computed(self, name, below, top, tag=MA, h=0):
        """The number of the instruction on a value of this tag and an INT, and the state; a refused one changes
        nothing."""
        state = stacked((tag, below % WORD), (INT, top % WORD), h=h)
        before = contents(state)
        number = sam.step(program(name), state)
        if number:
            self.assertEqual(contents(state), before, (name, below, top))
        return number, state

    def refused(self):
        for name, ends in self.ENDS.items():
            for _, (below, top, exact) in ends:
                self.assertFalse(self.LEAST <= exact <= self.GREATEST)
                yield name, below, top
            for below, top in self.FAR[name]:
                yield name, below, top

    def accepted(self):
        for name, ends in self.ENDS.items():
            for (below, top, exact), _ in ends:
                self.assertIn(exact, (self.LEAST, self.GREATEST))
                yield name, below, top, exact

    def test_refused(self):
        for name, below, top in self.refused():
            for h in (0, 2):
                self.assertEqual(self.computed(name, below, top, h=h)[0], 6, (name, below, top))

    def test_accepted(self):
        """The last ones, and one beside each: they "give MA"."""
        for name, below, top, exact in self.accepted():
            inward = -1 if exact == self.GREATEST else 1
            moved = top + inward if name == "ADD" else top - inward
            for operand, result in [(top, exact), (moved, exact + inward)]:
                number, state = self.computed(name, below, operand)
                self.assertEqual((number, live(state)), (0, [(MA, result % WORD)]), (name, below, operand))

    def test_below_zero(self):
        """The range of an MA's sum is that of 32 bits, not of the cells: only its use asks for a cell."""
        for text, result in [
            ("PUSHFBR PUSHIMM 1 SUB", -1),
            ("PUSHFBR PUSHIMM -1 ADD", -1),
            ("PUSHFBR PUSHIMM 1000 ADD", 1000),
            ("PUSHFBR PUSHIMM -5 ADD PUSHIMM 3 ADD", -2),
            ("PUSHFBR PUSHIMM -5 ADD PUSHIMM -3 SUB", -2),
            ("PUSHFBR PUSHIMM -5 ADD PUSHIMM 5 ADD", 0),
            ("PUSHFBR PUSHIMM -2147483648 ADD PUSHIMM 2147483647 ADD", -1),
            ("PUSHFBR PUSHIMM -2147483648 ADD PUSHIMM -2147483648 SUB", 0),
            ("PUSHFBR PUSHIMM 2147483647 ADD PUSHIMM 2147483647 SUB", 0),
            ("PUSHFBR PUSHIMM 2147483647 ADD PUSHIMM -2147483648 ADD", -1),
        ]:
            numbers, state = stepped(text + " STOP")
            self.assertEqual((set(numbers), live(state)), ({0}, [(MA, result % WORD)]), text)

    def test_two_integers(self):
        """ "Two INTs still wrap." """
        for name, below, top, result in [
            ("ADD", 2147483647, 1, -2147483648),
            ("ADD", 1, 2147483647, -2147483648),
            ("ADD", 2147483647, 2147483647, -2),
            ("ADD", -2147483648, -1, 2147483647),
            ("ADD", -2147483648, -2147483648, 0),
            ("SUB", -2147483648, 1, 2147483647),
            ("SUB", -2147483648, 2147483647, 1),
            ("SUB", 2147483647, -1, -2147483648),
            ("SUB", 2147483647, -2147483648, -1),
            ("SUB", 0, -2147483648, -2147483648),
        ]:
            number, state = self.computed(name, below, top, INT)
            self.assertEqual((number, live(state)), (0, [(INT, result % WORD)]), (name, below, top))

    def test_tags_before(self):
        """An MA above an INT is no MA and INT to add: 4 as ever, and 4 before 6."""
        for name, below, top in self.refused():
            for below_tag, top_tag in [(INT, MA), (MA, MA), (FLOAT, MA), (MA, FLOAT), (FLOAT, INT), (INT, FLOAT)]:
                state = stacked((below_tag, below % WORD), (top_tag, top % WORD))
                self.assertEqual(sam.step(program(name), state), 4, (name, below_tag, top_tag))
        for name in self.ENDS:  # a PA may only be 0 or 1 here: "a PA cell above length" is 10
            for cells in [((PA, 1), (INT, 2147483647)), ((MA, 2147483647), (PA, 1))]:
                self.assertEqual(sam.step(program(name), stacked(*cells)), 4, (name, cells))

    def test_too_few_before(self):
        """3 before 6: with SP 1 the popped cell above is no value."""
        for name, below, top in self.refused():
            state = stacked((MA, below % WORD), (INT, top % WORD))
            state.registers.sp = 1
            self.assertEqual(sam.step(program(name), state), 3, (name, below, top))

    def test_halt_and_soundness_before(self):
        for name, below, top in self.refused():
            state = stacked((MA, below % WORD), (INT, top % WORD))
            state.registers.halt = 1
            self.assertEqual(sam.step(program(name), state), 1)
            state.tags[2] = 5
            self.assertEqual(sam.step(program(name), state), 10)

    def test_before_history(self):
        """6 before 8: the record of ADD or SUB needs two places."""
        for name, below, top, _ in self.accepted():
            self.assertEqual(self.computed(name, below, top, h=1)[0], 8, (name, below, top))
            self.assertEqual(self.computed(name, below, top, h=2)[0], 0, (name, below, top))
        for name, below, top in self.refused():
            self.assertEqual(self.computed(name, below, top, h=1)[0], 6, (name, below, top))

    def test_least_cells(self):
        """N = 3 is the least in which two values can stand; SP goes down, so 7 is not met."""
        self.assertEqual(stepped("PUSHFBR PUSHIMM -2147483648 ADD PUSHIMM -1 ADD", n=3)[0], [0, 0, 0, 0, 6])
        self.assertEqual(stepped("PUSHFBR PUSHIMM -2147483648 ADD PUSHIMM 0 ADD", n=3)[0], [0, 0, 0, 0, 0, 2])

    def test_complaint(self):
        """ "An address went past 32 bits and came round to a legal cell." Steps before the refused one stand."""
        for added, at in self.ROUND:
            for h in (0, 64):
                made, state = started("PUSHIMM 5 " + added, h=h)
                self.assertEqual(sam.run(made, state, 100), (6, at), added)
                self.assertEqual((state.registers.pc, state.registers.sp), (at, 3), added)
                self.assertEqual((state.cell(0), state.tags[1]), ((INT, 5), MA), added)
                before = contents(state)
                self.assertEqual(sam.step(made, state), 6, added)
                self.assertEqual(sam.run(made, state, 100), (6, 0), added)
                self.assertEqual(contents(state), before, added)

    def test_step_back(self):
        """The step-back after a refused one takes back the step before it."""
        made, state = started("PUSHFBR PUSHIMM -2147483648 ADD PUSHIMM -1 ADD STOP", h=9)
        self.assertEqual(sam.run(made, state, 3), (50, 3))
        before = contents(state)
        self.assertEqual(live(state), [(MA, 1 << 31)])
        # PUSHIMM -1 wrote cell 1, in which the popped INT -2147483648 stood, at PC 3 with SP 1.
        pushed = [1 << 53 | 1 << 49, 1 << 63 | 3 << 52 | 1 << 42 | 1 << 22]
        self.assertEqual((sam.step(made, state), sam.step(made, state)), (0, 6))
        self.assertEqual(state.history[6:], pushed + [0])
        self.assertEqual(sam.step_back(made, state), 0)
        self.assertEqual(contents(state), before)
        self.assertEqual(sam.run(made, state, 9), (6, 1))

    def test_console(self):
        self.assertEqual(
            sam.console(b"PUSHFBR PUSHIMM 2147483647 ADD PUSHIMM 1 ADD STOP"),
            "end 6 steps 4\nPC 4 SP 2 FBR 0\n0 MA 2147483647\n1 INT 1\n",
        )
        self.assertEqual(
            sam.console(b"PUSHFBR PUSHIMM -2147483648 ADD STOP"),
            "end 0 steps 4\nPC 3 SP 1 FBR 0\n0 MA -2147483648\n",
        )


class Decimals(unittest.TestCase):
    """Request e: PUSHIMMF of a decimal."""

    # Each tie with its lower and its upper neighbour, as decimals, and the bits of the even one.
    TIES = [
        # From 2^22 a binary32 is half a unit from the next.
        ("4194304.25", "4194304.0", "4194304.5", 0x4A800000),
        ("4194304.75", "4194304.5", "4194305.0", 0x4A800002),
        ("5000000.25", "5000000.0", "5000000.5", 0x4A989680),
        ("8388607.25", "8388607.0", "8388607.5", 0x4AFFFFFE),
        ("8388607.75", "8388607.5", "8388608.0", 0x4B000000),  # up to a power of two
        # From 2^23 a whole one.
        ("8388608.5", "8388608.0", "8388609.0", 0x4B000000),
        ("8388609.5", "8388609.0", "8388610.0", 0x4B000002),
        ("8388608.50", "8388608.0", "8388609.0", 0x4B000000),
        ("10000001.5", "10000001.0", "10000002.0", 0x4B189682),
        ("16777214.5", "16777214.0", "16777215.0", 0x4B7FFFFE),
        ("16777215.5", "16777215.0", "16777216.0", 0x4B800000),
        # From 2^24 two, from 2^25 four, from 2^26 eight.
        ("16777217.0", "16777216.0", "16777218.0", 0x4B800000),
        ("16777219.0", "16777218.0", "16777220.0", 0x4B800002),
        ("33554431.0", "33554430.0", "33554432.0", 0x4C000000),
        ("33554434.0", "33554432.0", "33554436.0", 0x4C000000),
        ("33554438.0", "33554436.0", "33554440.0", 0x4C000002),
        ("67108862.0", "67108860.0", "67108864.0", 0x4C800000),
        ("67108868.0", "67108864.0", "67108872.0", 0x4C800000),
        ("67108876.0", "67108872.0", "67108880.0", 0x4C800002),
        ("99999996.0", "99999992.0", "99999999.9", 0x4CBEBC20),
    ]

    # 10^i is 5^i 2^i; the rest are the patterns nearest to 10^-i.
    POWERS_OF_TEN = [
        ("1.0", 0x3F800000), ("10.0", 0x41200000), ("100.0", 0x42C80000), ("1000.0", 0x447A0000),
        ("10000.0", 0x461C4000), ("100000.0", 0x47C35000), ("1000000.0", 0x49742400), ("10000000.0", 0x4B189680),
        ("0.1", 0x3DCCCCCD), ("0.01", 0x3C23D70A), ("0.001", 0x3A83126F), ("0.0001", 0x38D1B717),
        ("0.00001", 0x3727C5AC), ("0.000001", 0x358637BD), ("0.0000001", 0x33D6BF95), ("0.00000001", 0x322BCC77),
    ]  # fmt: skip

    def bits(self, text):
        answer, table = assembled(f"PUSHIMMF {text}")
        self.assertEqual(answer, (0, 1, 0, 0, 0), text)
        self.assertEqual(table[0] >> 32, 2, text)
        return table[0] % WORD

    def exact(self, text):
        whole, _, fraction = text.partition(".")
        return Fraction(int(whole + fraction), 10 ** len(fraction))

    def host_value(self, bits):
        """The host's reading of the bits, which is exact."""
        return Fraction(struct.unpack("<f", struct.pack("<I", bits))[0])

    def check_nearest(self, text):
        """The distances to the neighbours, by cross products; where two are alike, the last bit is 0. Minus beside."""
        bits, exact = self.bits(text), self.exact(text)
        distance = abs(self.host_value(bits) - exact)
        for other in (bits - 1, bits + 1):
            beside = abs(self.host_value(other) - exact) if other >= 0 else None
            if beside is not None:
                self.assertTrue(distance < beside or (distance == beside and bits % 2 == 0), text)
        self.assertEqual(self.bits("-" + text), bits | 1 << 31, text)

    def test_examples(self):
        for text, bits in [
            ("2.5", 0x40200000),
            ("02.50", 0x40200000),
            ("000002.50", 0x40200000),
            ("2.5000000", 0x40200000),
            ("-2.5", 0xC0200000),
            ("40.0", 0x42200000),
            ("0.5", 0x3F000000),
            ("0.00390625", 0x3B800000),  # 2^-8
            ("67108864.0", 0x4C800000),  # 2^26
            ("3.14159265", 0x40490FDB),
            ("99999999.9", 0x4CBEBC20),  # 10^8 is 12500000 times 8
            ("-99999999.9", 0xCCBEBC20),
            ("0.99999997", 0x3F7FFFFF),  # 3 from 1 where half a unit is 2.98
            ("0.99999998", 0x3F800000),  # 2 from 1
            ("1.99999994", 0x3FFFFFFF),  # 6 from 2 where half a unit is 5.96
            ("1.99999995", 0x40000000),
            ("33554433.0", 0x4C000000),  # a quarter of the way from 2^25
            ("33554435.0", 0x4C000001),
            ("0.33333333", 0x3EAAAAAB),
            ("0.66666667", 0x3F2AAAAB),
        ]:
            self.assertEqual(self.bits(text), bits, text)

    def test_zeros(self):
        """ "Minus zero keeps its sign." """
        for length in range(2, 10):
            for point in range(1, length):
                text = "0" * point + "." + "0" * (length - point)
                self.assertEqual((self.bits(text), self.bits("-" + text)), (0x00000000, 0x80000000), text)

    def test_powers(self):
        for text, bits in self.POWERS_OF_TEN:
            self.assertEqual((self.bits(text), self.bits("-" + text)), (bits, bits | 1 << 31), text)
            self.check_nearest(text)
        for i in range(27):  # 2^i: exponent i, fraction 0
            self.assertEqual(self.bits(f"{2**i}.0"), (127 + i) << 23)
        for i in range(1, 9):  # 2^-i is 5^i / 10^i
            self.assertEqual(self.bits("0." + str(5**i).zfill(i)), (127 - i) << 23)

    def test_ties(self):
        """ "ties to even", and one in the last digit off a tie to the nearer one."""
        for text, below, above, even in self.TIES:
            self.assertEqual(self.bits(text), even, text)
            self.assertEqual(self.bits("-" + text), even | 1 << 31, text)
            self.assertIn(even, (self.bits(below), self.bits(above)), text)
            self.assertEqual(self.bits(below) + 1, self.bits(above), text)
            for last, nearer in [(-1, below), (1, above)]:
                places = len(text.partition(".")[2])
                digits = str(int(text.replace(".", "")) + last)
                self.assertEqual(self.bits(f"{digits[:-places]}.{digits[-places:]}"), self.bits(nearer), (text, last))

    def test_hard(self):
        """As near to a tie as nine digits come: 65536 times 100325948 is 390625 times 16831901 and 3, so 1.00325948 is
        16831901 halves of 2^-23 and 3 / 390625 of one; so on below."""
        for text, halves, rest, bits in [
            ("1.00325948", 16831901, 3, 0x3F806ACF),  # 8415950 and a half, 3 above; even below
            ("1.00064677", 16788067, -3, 0x3F801531),  # 8394033 and a half, 3 below; even above
            ("1.00369066", 16839135, 1, 0x3F8078F0),  # 8419567 and a half, 1 above
            ("1.00021559", 16780833, -1, 0x3F800710),  # 8390416 and a half, 1 below
        ]:
            self.assertEqual(65536 * int(text.replace(".", "")), 390625 * halves + rest, text)
            self.assertEqual(self.bits(text), 0x3F800000 + (halves + (rest > 0)) // 2 - 8388608, text)
            self.assertEqual(self.bits(text), bits, text)
            self.check_nearest(text)

    def test_whole_part_first(self):
        """Right only where whole and fraction are rounded together, and once."""
        self.assertEqual(self.bits("16777217.1"), 0x4B800001)  # 16777217 by itself goes to 16777216
        self.assertEqual(self.bits("16777218.9"), 0x4B800001)  # to 16777219 by itself, and on to 16777220
        self.assertEqual(self.bits("33554434.1"), 0x4C000001)
        self.assertEqual(self.bits("67108868.1"), 0x4C800001)
        self.assertEqual(self.bits("8388608.51"), 0x4B000001)  # 8388608.5 by itself goes to 8388608
        self.assertEqual(self.bits("8388609.49"), 0x4B000001)  # to 8388609.5, then to 8388610

    def test_every_length_and_point(self):
        for length in range(2, 10):
            for digits in ("123456789", "987654321", "999999999", "100000001", "000000001", "499999999", "500000000"):
                for point in range(1, length):
                    self.check_nearest(digits[-length:][:point] + "." + digits[-length:][point:])

    def test_nearest(self):
        """Ties, what is beside them, and drawn ones; the host agrees, which rounds twice. That is as good as once here:
        a decimal of nine digits that is no tie is at least 1 / (2^25 5^8) of itself off one, more than 2^-44, and a
        binary64 is within 2^-53."""
        chooser = random.Random(3)
        drawn = [decimals.any_decimal(chooser).lstrip("-") for _ in range(3000)]
        for text in {*decimals.edges(), *drawn}:
            self.check_nearest(text)
            host = struct.unpack("<I", bytes(ctypes.c_float(float(text))))[0]
            self.assertEqual(self.bits(text), host, text)

    def test_distance_to_ties(self):
        """What test_nearest says, for those that decimals.py has as the nearest."""
        offs = [
            abs(decimals.off_tie(Fraction(m, 10**places))[0])
            for places, numerators in decimals.BESIDE_TIES
            for m in (numerators[0], numerators[-1])
        ]
        self.assertTrue(Fraction(1, 1 << 44) < min(offs) < Fraction(1, 1 << 43))

    def refused(self, text, number, place):
        answer, table = assembled(text)
        self.assertEqual(answer, (number, 0, place, 1, place + 1), text)
        self.assertFalse(any(table))

    def test_ill_formed(self):
        """ "an ill-formed decimal is 33", so is whatever else is no pattern and no decimal."""
        for word in """
            5 -5 0 5. .5 . - -. -.5 -5. .. 1..5 1.2.3 .1.2 1.2. --1.0 -1.-0 1-.5 1.-5 1.5- 1234567890 1234567890.
            .1234567890 1234567890.1.2 2.5: 12345678.90: .: # #2.5 #4020000. -#40200000 2.5# 1e5 1.0e5 a.b 1.5a a1.5
            _1.5 2.5f PUSHIMMF ITOF
        """.split():
            self.refused(f"PUSHIMMF {word}", 33, 9)
            self.refused(f"STOP PUSHIMMF {word} FOO", 33, 14)

    def test_too_long(self):
        """ "ten or more digits 25": zeros are digits too, and the minus is none."""
        for word in """
            12345678.90 1.234567890 123456789.0 -123456789.0 0.000000000 -0.000000000 000000002.5 2.500000000
            123456789012345678901234567890.5 0.123456789012345678901234567890
        """.split():
            self.refused(f"PUSHIMMF {word}", 25, 9)
        for word in ["-12345678.9", "-1.23456789", "-00000002.5", "-2.50000000", "-0.00000000"]:
            self.bits(word)

    def test_point_elsewhere(self):
        """ "the point becomes an allowed byte", of no word, number or pattern."""
        for text, number, place in [
            ("ADD.", 23, 0),
            (".ADD", 23, 0),
            (".", 23, 0),
            ("STOP .", 23, 5),
            ("2.5", 23, 0),
            ("2.5:", 23, 0),
            ("a.b:", 23, 0),
            ("a.:", 23, 0),
            (".:", 23, 0),
            ("x" * 33 + ".:", 23, 0),  # no label, so not too long for one
            ("FOO.@", 22, 4),
            (".@", 22, 1),
            ("JUMP a.b", 33, 5),
            ("JUMP a.b:", 33, 5),
            ("JUMP 1.0", 33, 5),
            ("JUMP 0.", 33, 5),
            ("JUMP " + "x" * 33 + ".", 33, 5),
            ("PUSHIMM 1.5", 33, 8),
            ("PUSHIMM 1.0", 33, 8),
            ("PUSHIMM 12345678901.0", 33, 8),
            ("PUSHIMM .", 33, 8),
            ("ADDSP 1.0", 33, 6),
            ("PUSHOFF -1.0", 33, 8),
            ("PUSHIMMF 2,5", 22, 10),
            ("PUSHIMMF +2.5", 22, 9),
            ("PUSHIMMF 2./5", 22, 11),
            ("PUSHIMMF .@5", 22, 10),
            ("PUSHIMMF 2 .5", 33, 9),
            ("PUSHIMMF - 2.5", 33, 9),
            ("PUSHIMMF", 24, 8),
            ("PUSHIMMF //2.5", 24, 14),
            ("PUSHIMMF 2.5 2.5", 23, 13),
            ("STOP " * 1024 + "PUSHIMMF .", 28, 5120),
            ("JUMP gone PUSHIMMF .5", 33, 19),
            ("JUMP 9 PUSHIMMF 12345678.90", 25, 16),
        ]:
            self.refused(text, number, place)

    def test_tokens(self):
        for text in ["PUSHIMMF 2.5//.5", "PUSHIMMF\n\t2.5\r\n", "PUSHIMMF // 7.5 .\n2.5", "// 1.5 ADD.\nPUSHIMMF 2.5"]:
            answer, table = assembled(text)
            self.assertEqual((answer, table[0]), ((0, 1, 0, 0, 0), 2 << 32 | 0x40200000), text)

    def test_lines(self):
        answer, _ = assembled("PUSHIMMF 2.5\r\n\tPUSHIMMF 2.\r\n")
        self.assertEqual(answer, (33, 0, 24, 2, 11))
        answer, _ = assembled("PUSHIMMF 2.5\nPUSHIMMF\n  12345678.90")
        self.assertEqual(answer, (25, 0, 24, 3, 3))

    def test_listing(self):
        """ "Listings still write bits." """
        made = program("PUSHIMMF 2.5 PUSHIMMF -0.0 PUSHIMMF 0.1 ITOF FTOI")
        text = bytearray(b"?" * 20480)
        number, length = sam.list_program(made.table, made.length, text)
        self.assertEqual(number, 0)
        self.assertEqual(text[:length], b"PUSHIMMF #40200000\nPUSHIMMF #80000000\nPUSHIMMF #3DCCCCCD\nITOF\nFTOI\n")
        self.assertEqual(assembled(bytes(text[:length])), ((0, 5, 0, 0, 0), made.table))

    def test_full(self):
        answer, table = assembled("PUSHIMMF -99999999.9\n" * 1024)
        self.assertEqual((answer, set(table)), ((0, 1024, 0, 0, 0), {2 << 32 | 0xCCBEBC20}))


class Conversions(unittest.TestCase):
    """Request e: ITOF and FTOI."""

    LEAST, GREATEST = -2147483648, 2147483647

    # INTs and the bits that ITOF makes of them.
    FLOATS = [
        (0, 0x00000000),
        (1, 0x3F800000),
        (-1, 0xBF800000),
        (2, 0x40000000),
        (40, 0x42200000),
        (-40, 0xC2200000),
        (16777215, 0x4B7FFFFF),
        (16777216, 0x4B800000),
        (16777217, 0x4B800000),  # a tie; 16777216 is even
        (16777218, 0x4B800001),
        (16777219, 0x4B800002),  # a tie; 16777220 is even
        (-16777217, 0xCB800000),
        (-16777219, 0xCB800002),
        (33554431, 0x4C000000),  # a tie, up to 2^25
        (33554433, 0x4C000000),
        (33554434, 0x4C000000),  # a tie
        (33554435, 0x4C000001),
        (33554438, 0x4C000002),  # a tie
        (1073741824, 0x4E800000),
        (1073741888, 0x4E800000),  # 2^30 and 64, a tie
        (1073741889, 0x4E800001),
        (1073742015, 0x4E800001),
        (1073742016, 0x4E800002),  # 2^30 and 192, a tie
        (2147483520, 0x4EFFFFFF),  # 2^31 less 128
        (2147483583, 0x4EFFFFFF),
        (2147483584, 0x4F000000),  # 2^31 less 64, a tie
        (2147483647, 0x4F000000),
        (-2147483583, 0xCEFFFFFF),
        (-2147483584, 0xCF000000),
        (-2147483647, 0xCF000000),
        (-2147483648, 0xCF000000),
    ]

    # Bits and the INTs that FTOI makes of them.
    INTEGERS = [
        (0x00000000, 0),
        (0x80000000, 0),  # minus zero
        (0x00000001, 0),  # the least there is
        (0x80000001, 0),
        (0x3EFFFFFF, 0),
        (0x3F000000, 0),  # 0.5
        (0xBF000000, 0),
        (0x3F7FFFFF, 0),  # the last below 1
        (0xBF7FFFFF, 0),
        (0x3F800000, 1),
        (0xBF800000, -1),
        (0x3FC00000, 1),  # 1.5
        (0xBFC00000, -1),
        (0x3FFFFFFF, 1),  # the last below 2
        (0xBFFFFFFF, -1),
        (0x40200000, 2),  # 2.5
        (0xC0200000, -2),
        (0x40300000, 2),  # 2.75
        (0xC0300000, -2),
        (0x42200000, 40),
        (0x4AFFFFFF, 8388607),  # and a half
        (0xCAFFFFFF, -8388607),
        (0x4B7FFFFF, 16777215),
        (0x4B800001, 16777218),
        (0x4EFFFFFF, 2147483520),  # the last within INT
        (0xCEFFFFFF, -2147483520),
        (0xCF000000, -2147483648),
    ]

    OUTSIDE = [
        0x4F000000,  # 2147483648
        0x4F000001,
        0x4F800000,
        0xCF000001,  # -2147483904, the first below
        0xCF800000,
        0x7F7FFFFF,
        0xFF7FFFFF,
        0x7F800000,  # infinities
        0xFF800000,
    ]
    NANS = [0x7F800001, 0x7FBFFFFF, 0x7FC00000, 0x7FFFFFFF, 0xFF800001, 0xFFBFFFFF, 0xFFC00000, 0xFFFFFFFF]

    def converted(self, name, tag, bits, h=0):
        """The number and the state; a refused one changes nothing."""
        state = stacked((INT, 7), (tag, bits % WORD), h=h)
        before = contents(state)
        number = sam.step(program(name), state)
        if number:
            self.assertEqual(contents(state), before, (name, hex(bits)))
        return number, state

    def test_codes(self):
        self.assertEqual(program("ITOF FTOI").table[:3], [50 << 32, 51 << 32, 0])

    def test_to_float(self):
        for number, bits in self.FLOATS:
            answer, state = self.converted("ITOF", INT, number)
            self.assertEqual((answer, live(state)), (0, [(INT, 7), (FLOAT, bits)]), number)

    def test_to_integer(self):
        for bits, number in self.INTEGERS:
            answer, state = self.converted("FTOI", FLOAT, bits)
            self.assertEqual((answer, live(state)), (0, [(INT, 7), (INT, number % WORD)]), hex(bits))

    def test_to_float_nearest(self):
        """Beside the host: an INT is exact in binary64, which is rounded once to binary32. The same for a decimal of
        that number, where it has one."""
        chooser = random.Random(4)
        drawn = [chooser.randrange(-(1 << width), 1 << width) for width in range(1, 32) for _ in range(200)]
        beside = [number + by for number, _ in self.FLOATS for by in range(-2, 3)]
        for number in drawn + [number for number in beside if self.LEAST <= number <= self.GREATEST]:
            _, state = self.converted("ITOF", INT, number)
            bits = state.bits[1]
            host = struct.unpack("<I", bytes(ctypes.c_float(float(number))))[0]
            self.assertEqual(bits, host, number)
            if number and abs(number) < 10**8:
                self.assertEqual(program(f"PUSHIMMF {number}.0").table[0] % WORD, bits, number)

    def test_to_integer_cuts(self):
        """Beside the host's int(), which cuts toward zero."""
        chooser = random.Random(5)
        for _ in range(5000):
            bits = chooser.randrange(2) << 31 | chooser.randrange(110, 162) << 23 | chooser.randrange(1 << 23)
            whole = int(struct.unpack("<f", struct.pack("<I", bits))[0])
            answer, state = self.converted("FTOI", FLOAT, bits)
            if self.LEAST <= whole <= self.GREATEST:
                self.assertEqual((answer, state.cell(1)), (0, (INT, whole % WORD)), hex(bits))
            else:
                self.assertEqual(answer, 5, hex(bits))

    def test_there_and_back(self):
        """A whole number up to 2^24 comes back; so does every FLOAT that is whole and within INT."""
        for number in [0, 1, -1, 40, 16777216, -16777216, 1073741824, -2147483648]:
            numbers, state = stepped(f"PUSHIMM {number} ITOF FTOI STOP")
            self.assertEqual((set(numbers), live(state)), ({0}, [(INT, number % WORD)]))
        self.assertEqual(live(stepped("PUSHIMM 16777217 ITOF FTOI STOP")[1]), [(INT, 16777216)])
        self.assertEqual(stepped("PUSHIMM 2147483647 ITOF FTOI STOP")[0], [0, 0, 5])
        self.assertEqual(live(stepped("PUSHIMMF -0.0 FTOI ITOF STOP")[1]), [(FLOAT, 0)])  # plus zero

    def test_refused(self):
        """ "5 also for FTOI of a NaN or a result outside INT", with room for the record and without."""
        for bits, h in product(self.OUTSIDE + self.NANS, (0, 1, 2)):
            self.assertEqual(self.converted("FTOI", FLOAT, bits, h)[0], 5, (hex(bits), h))

    def test_tags(self):
        """4, and 4 before 5."""
        patterns = self.OUTSIDE + self.NANS + [bits for bits, _ in self.INTEGERS]
        for bits in patterns:
            for name, tag in [("ITOF", FLOAT), ("ITOF", MA), ("FTOI", INT), ("FTOI", MA)]:
                self.assertEqual(self.converted(name, tag, bits)[0], 4, (name, tag, hex(bits)))
        for name, bits in product(("ITOF", "FTOI"), (0, 1)):
            self.assertEqual(self.converted(name, PA, bits)[0], 4, name)

    def test_too_few(self):
        """3 before 4 and 5: with SP 0 the cell above is no value."""
        for name, cell in [("ITOF", (INT, 1)), ("FTOI", (FLOAT, 0x7FC00000)), ("ITOF", (MA, 0)), ("FTOI", (INT, 0))]:
            state = stacked(cell)
            state.registers.sp = 0
            self.assertEqual(sam.step(program(name), state), 3, name)

    def test_least_cells(self):
        """N = 2 holds one value, and SP does not rise: never 7."""
        self.assertEqual(stepped("PUSHIMM 3 ITOF FTOI STOP", n=2)[0], [0, 0, 0, 0])

    def test_history(self):
        """One cell written: two places, else 8, also where the cell keeps its bits."""
        for name, cell in [("ITOF", (INT, 0)), ("ITOF", (INT, 9)), ("FTOI", (FLOAT, 0)), ("FTOI", (FLOAT, 0x40200000))]:
            self.assertEqual(self.converted(name, *cell, h=1)[0], 8, name)
            self.assertEqual(self.converted(name, *cell, h=2)[0], 0, name)

    def test_step_back(self):
        """Cell 0 held INT 16777217 (#01000001), then FLOAT #4B800000."""
        made, state = started("PUSHIMM 16777217 ITOF FTOI STOP", h=9)
        self.assertEqual([sam.step(made, state) for _ in range(3)], [0, 0, 0])
        self.assertEqual(live(state), [(INT, 16777216)])
        mark = lambda pc: 1 << 63 | pc << 52 | 1 << 42 | 1 << 22
        self.assertEqual(state.history[2:7], [0x01000001 << 18, mark(1), FLOAT << 50 | 0x4B800000 << 18, mark(2), 0])
        self.assertEqual(sam.step_back(made, state), 0)
        self.assertEqual((live(state), state.registers.pc), ([(FLOAT, 0x4B800000)], 2))
        self.assertEqual(sam.step_back(made, state), 0)
        self.assertEqual((live(state), state.registers.pc), ([(INT, 16777217)], 1))
        self.assertEqual(state.history[2:], [0] * 7)
        self.assertEqual(sam.run(made, state, 9), (0, 3))

    def test_run(self):
        """A refused FTOI ends a run; the steps before stand, and the step-back takes back the last of them."""
        made, state = started("PUSHIMMF 2.5 PUSHIMMF #4F000000 FTOI STOP", h=9)
        self.assertEqual(sam.run(made, state, 9), (5, 2))
        self.assertEqual(live(state), [(FLOAT, 0x40200000), (FLOAT, 0x4F000000)])
        before = contents(state)
        self.assertEqual((sam.step(made, state), sam.run(made, state, 9)), (5, (5, 0)))
        self.assertEqual(contents(state), before)
        self.assertEqual(sam.step_back(made, state), 0)
        self.assertEqual((live(state), state.registers.pc), ([(FLOAT, 0x40200000)], 1))

    def test_image(self):
        """Codes without an operand: count 2 in 11 bits, 110010 and 110011, one zero."""
        made = program("ITOF FTOI")
        image = bytearray(4866)
        self.assertEqual(sam.pack(made.table, made.length, image), (0, 3))
        self.assertEqual(image[:3], int("00000000010" + "110010" + "110011" + "0", 2).to_bytes(3, "big"))
        table = [7] * PLACES
        self.assertEqual(sam.unpack(bytes(image[:3]), table), (0, 2))
        self.assertEqual(table, made.table)

    def test_console(self):
        self.assertEqual(
            sam.console(b"PUSHIMMF 2.5 PUSHIMMF -2.5 FTOI PUSHIMM 16777217 ITOF PUSHIMMF -0.0 STOP"),
            "end 0 steps 7\nPC 6 SP 4 FBR 0\n0 FLOAT #40200000\n1 INT -2\n2 FLOAT #4B800000\n3 FLOAT #80000000\n",
        )
        self.assertEqual(
            sam.console(b"PUSHIMMF #7FC00000 FTOI"),
            "end 5 steps 1\nPC 1 SP 1 FBR 0\n0 FLOAT #7FC00000\n",
        )
        self.assertEqual(sam.console(b"STOP\nPUSHIMMF 2."), "refused 33 14 2 10\n")
        self.assertEqual(sam.console(b"STOP\nPUSHIMMF 12345678.90"), "refused 25 14 2 10\n")
        self.assertEqual(sam.console(b"STOP\nADD."), "refused 23 5 2 1\n")


class Dwell(unittest.TestCase):
    """Request f: the dwell reader."""

    SHORTEST, LONGEST = 10, 300
    UNIT = 1 << 149  # a finite FLOAT is a whole number over this
    GREATEST_FLOAT = 0x7F7FFFFF
    NANS = [0x7F800001, 0x7FBFFFFF, 0x7FC00000, 0x7FFFFFFF, 0xFF800001, 0xFFBFFFFF, 0xFFC00000, 0xFFFFFFFF]

    # FLOATs and the tenths that they are, worked out by hand.
    FLOATS = [
        (0x3F800000, 10),  # 1 s
        (0x3F8CCCCC, 10),  # the last below 1.1 s
        (0x3F8CCCCD, 11),  # the first above it: a tenth of 2^23 is 838860.8, and 838861 is #0CCCCD
        (0x40000000, 20),
        (0x40133333, 22),  # 2.3 typed lies below 2.3: 0.15 times 2^23 is 1258291.2, and 1258291 is #133333
        (0x40133334, 23),
        (0x401FFFFF, 24),
        (0x40200000, 25),  # 2.5 s
        (0x40200001, 25),
        (0x40800000, 40),  # 4 s
        (0x417FFFFF, 159),
        (0x41800000, 160),  # 16 s
        (0x41EF3333, 298),  # 29.9 typed: 0.86875 times 2^23 is 7287603.2, and 7287603 is #6F3333
        (0x41EF3334, 299),
        (0x41EFFFFF, 299),  # the last below 30 s
        (0x41F00000, 300),
    ]
    # FLOATs that are held at the lower end and at the upper one.
    SHORT = [
        0x3F7FFFFF,  # the last below 1 s
        0x3F666666,  # 0.9 s typed
        0x3F000000,
        0x00800000,
        0x007FFFFF,
        0x00000028,  # 40 of the least: an INT's 40 tenths with a FLOAT's tag
        0x00000001,  # the least there is
        0x00000000,
        0x80000000,  # minus zero is 0
        0x80000001,
        0xBF800000,
        0xC0200000,  # -2.5 s
        0xC1F00000,  # -30 s
        0xFF7FFFFF,
        0xFF800000,  # "infinities go to the nearer end"
    ]
    LONG = [
        0x41F00001,  # the first above 30 s
        0x41F0CCCD,  # 30.1 s typed
        0x42200000,  # 40 s
        0x4D4CCCCD,  # 2^31 tenths and above, 2^32 and above
        0x4DCCCCCD,
        0x4F000000,
        0x4F800000,
        0x7F7FFFFF,
        0x7F800000,
    ]

    def read(self, cell, program_text="STOP", **registers):
        """(number, tenths) of a machine with this cell on its stack, halted where nothing else is said."""
        state = stacked(cell)
        state.registers = replace(state.registers, **{"halt": 1, **registers})
        return self.read_state(program(program_text), state)

    def read_state(self, made, state):
        """(number, tenths); the machine stays as it was, and so does the table."""
        table, before = list(made.table), contents(state)
        answer = sam.dwell(made, state)
        self.assertEqual((made.table, contents(state)), (table, before))
        return answer

    def of_program(self, text, **sizes):
        """(number, tenths) where the program halts or is refused."""
        made, state = started(text, **sizes)
        sam.run(made, state, 1000)
        return self.read_state(made, state)

    def over_unit(self, bits):
        """The whole number over 2^149 that a finite FLOAT is, read off its bits."""
        exponent, fraction = bits >> 23 & 0xFF, bits & 0x7FFFFF
        magnitude = (fraction + (1 << 23)) << (exponent - 1) if exponent else fraction
        return -magnitude if bits >> 31 else magnitude

    def check_float(self, bits):
        """By cross products: "the largest whole tenth not above the exact ten times that number", held."""
        number, tenths = self.read((FLOAT, bits))
        self.assertEqual(number, 0, hex(bits))
        self.assertTrue(self.SHORTEST <= tenths <= self.LONGEST, hex(bits))
        ten_times = 10 * self.over_unit(bits)
        self.assertTrue(tenths == self.SHORTEST or tenths * self.UNIT <= ten_times, (hex(bits), tenths))
        self.assertTrue(tenths == self.LONGEST or ten_times < (tenths + 1) * self.UNIT, (hex(bits), tenths))

    def first_of(self, tenths):
        """The first FLOAT that is not below so many tenths: FLOATs above 0 rise with their bits."""
        low, high = 0, self.GREATEST_FLOAT
        while low < high:
            middle = (low + high) // 2
            if 10 * self.over_unit(middle) >= tenths * self.UNIT:
                high = middle
            else:
                low = middle + 1
        return low

    # ---- what is read

    def test_integers(self):
        """ "INT is tenths of a second" """
        for number in range(self.SHORTEST, self.LONGEST + 1):
            self.assertEqual(self.read((INT, number)), (0, number))

    def test_integers_held(self):
        """ "The result is held between 10 and 300 tenths" """
        for number in [9, 1, 0, -1, -9, -10, -40, -300, -2147483647, -2147483648]:
            self.assertEqual(self.read((INT, number % WORD)), (0, 10), number)
        for number in [301, 302, 1000, 65536 + 40, 16777216 + 40, 2147483647]:
            self.assertEqual(self.read((INT, number)), (0, 300), number)

    def test_integer_with_bits_of_a_float(self):
        """An INT is a number whatever its bits: 2.5's, those of the infinities and of NaNs."""
        for bits in [0x40200000, 0x7F800000, *[nan for nan in self.NANS if nan < 1 << 31]]:
            self.assertEqual(self.read((INT, bits)), (0, 300), hex(bits))
        for bits in [0xC0200000, 0xFF800000, *[nan for nan in self.NANS if nan >= 1 << 31]]:
            self.assertEqual(self.read((INT, bits)), (0, 10), hex(bits))

    def test_floats(self):
        for bits, tenths in self.FLOATS:
            self.assertEqual(self.read((FLOAT, bits)), (0, tenths), hex(bits))

    def test_floats_held(self):
        for bits in self.SHORT:
            self.assertEqual(self.read((FLOAT, bits)), (0, 10), hex(bits))
        for bits in self.LONG:
            self.assertEqual(self.read((FLOAT, bits)), (0, 300), hex(bits))

    def test_every_tenth(self):
        """The first FLOAT of each tenth, and the one just below it, which has one tenth less."""
        for tenths in range(self.SHORTEST + 1, self.LONGEST + 1):
            first = self.first_of(tenths)
            self.assertEqual(self.read((FLOAT, first)), (0, tenths), tenths)
            self.assertEqual(self.read((FLOAT, first - 1)), (0, tenths - 1), tenths)
        self.assertEqual((self.first_of(10), self.first_of(300)), (0x3F800000, 0x41F00000))

    def test_beside_tenths(self):
        for tenths in range(self.SHORTEST - 1, self.LONGEST + 2):
            for bits in range(self.first_of(tenths) - 3, self.first_of(tenths) + 3):
                self.check_float(bits)
                self.check_float(bits | 1 << 31)

    def test_every_exponent(self):
        for exponent, sign in product(range(255), (0, 1)):
            for fraction in (0, 1, 0x199999, 0x19999A, 0x400000, 0x666666, 0x7FFFFF):
                self.check_float(sign << 31 | exponent << 23 | fraction)

    def test_drawn(self):
        chooser = random.Random(6)
        for _ in range(3000):
            self.check_float(chooser.randrange(126, 133) << 23 | chooser.randrange(1 << 23))

    def test_typed(self):
        """A decimal of one place is its own tenths, or one less where its nearest FLOAT lies below it."""
        for tenths in range(self.SHORTEST, self.LONGEST + 1):
            text = f"PUSHIMMF {tenths // 10}.{tenths % 10} STOP"
            bits = program(text).table[0] % WORD
            is_below = 10 * self.over_unit(bits) < tenths * self.UNIT
            self.assertEqual(self.of_program(text), (0, tenths - is_below), text)

    def test_programs(self):
        for text, tenths in [
            ("PUSHIMM 40 STOP", 40),
            ("PUSHIMMF 2.5 STOP", 25),
            ("PUSHIMMF 2.3 STOP", 22),
            ("PUSHIMMF 2.4 STOP", 24),  # 0.2 times 2^23 is 1677721.6: the nearest lies above
            ("PUSHIMM 4 ITOF STOP", 40),
            ("PUSHIMMF 4.0 FTOI STOP", 10),  # INT 4 is 4 tenths
            ("PUSHIMMF 2.5 PUSHIMMF 2.0 TIMESF STOP", 50),
            ("PUSHIMMF 0.0 PUSHIMMF -1.0 TIMESF STOP", 10),  # minus zero
            ("PUSHIMMF 1.0 PUSHIMMF 0.0 DIVF STOP", 300),
            ("PUSHIMMF -1.0 PUSHIMMF 0.0 DIVF STOP", 10),
            ("PUSHIMM 2147483647 PUSHIMM 1 ADD STOP", 10),  # it wraps
            ("PUSHIMM 40 PUSHIMM 70 STOP", 40),  # cell 0, not the top
            ("PUSHIMM 40 PUSHSP STOP", 40),
            ("PUSHIMM 40 PUSHIMMF #7FC00000 STOP", 40),
            ("PUSHIMM 40 LINK PUSHIMM 70 STOP", 40),  # nor where FBR is
            ("PUSHIMM 40 PUSHIMMF 2.5 STOREOFF 0 STOP", 25),
            ("JUMP end PUSHIMM 50 STOP end: PUSHIMM 60 STOP", 60),
        ]:
            for h in (0, 64):
                self.assertEqual(self.of_program(text, h=h), (0, tenths), text)

    # ---- refusals

    def test_not_halted(self):
        for text in [
            "PUSHIMM 40",  # off the end: PC is the length and HALT 0
            "",
            "PUSHIMM 40 ADD",  # ended by 3
            "PUSHIMM 40 a: JUMP a",  # by the limit
            "PUSHIMMF #7FC00000",
            "PUSHSP",
        ]:
            self.assertEqual(self.of_program(text), (60, 0), text)
        made, state = started("PUSHIMM 40 STOP")
        self.assertEqual(self.read_state(made, state), (60, 0))  # before the first step

    def test_no_value(self):
        """61 also where cell 0 has a value that was popped."""
        for text in ["STOP", "PUSHIMM 40 ADDSP -1 STOP", "PUSHSP POPSP STOP", "PUSHIMM 1 JUMPC 2 STOP"]:
            self.assertEqual(self.of_program(text), (61, 0), text)

    def test_tags(self):
        for text in ["PUSHSP STOP", "PUSHFBR STOP", "LINK STOP", "PUSHIMMPA 0 STOP", "JSR 1 STOP"]:
            self.assertEqual(self.of_program(text), (62, 0), text)
        for bits in [0, 40, 0x40200000, 0x7F800000, *self.NANS]:
            self.assertEqual(self.read((MA, bits)), (62, 0), hex(bits))
        self.assertEqual(self.read((PA, 1)), (62, 0))

    def test_nans(self):
        """Any NaN of either sign is refused, and none is held."""
        for bits in self.NANS:
            self.assertEqual(self.read((FLOAT, bits)), (63, 0), hex(bits))
        self.assertEqual(self.of_program("PUSHIMMF 0.0 PUSHIMMF 0.0 DIVF STOP"), (63, 0))
        self.assertEqual(self.of_program("PUSHIMMF #7F800000 PUSHIMMF #FF800000 ADDF STOP"), (63, 0))

    def test_order(self):
        """ "10 as for step, then 60 not halted, 61 SP is 0, 62 tag neither INT nor FLOAT, 63 NaN": each before those
        behind it."""
        nan, address, number = (FLOAT, 0x7FC00000), (MA, 0x7FC00000), (INT, 40)
        for cell in (nan, address, number):
            self.assertEqual(self.read(cell, halt=0), (60, 0))
            self.assertEqual(self.read(cell, halt=0, sp=0), (60, 0))
            self.assertEqual(self.read(cell, sp=0), (61, 0))
        self.assertEqual(self.read(address), (62, 0))  # 62 before 63: its bits are a NaN's
        self.assertEqual(self.read(nan), (63, 0))
        for cell, halt, sp in product((nan, address, number), (0, 1), (0, 1)):
            self.assertEqual(self.read(cell, halt=halt, sp=sp, fbr=2), (10, 0), (cell, halt, sp))

    # ---- 10 as for step

    def halted(self, n=4, h=8):
        """A machine with 40 tenths in cell 0, to be broken."""
        made, state = started("PUSHIMM 40 STOP", n=n, h=h)
        sam.run(made, state, 9)
        return made, state

    def check_broken(self, made, state):
        self.assertEqual(sam.step(made, state), 10)
        self.assertEqual(self.read_state(made, state), (10, 0))

    def test_broken_registers(self):
        for name, value in [
            ("n", 0), ("n", 3), ("n", 5), ("h", 7), ("h", 9), ("pc", 3), ("pc", 1 << 63), ("sp", 4), ("sp", 1 << 63),
            ("fbr", 4), ("fbr", 1 << 63), ("halt", 2), ("halt", 1 << 63), ("used", 9), ("used", 1 << 63),
            ("kept", 0), ("kept", 4), ("kept", 1 << 63),  # U is 3
        ]:  # fmt: skip
            made, state = self.halted()
            setattr(state.registers, name, value)
            self.check_broken(made, state)

    def test_broken_cells(self):
        """All N cells are judged, live or not."""
        for address, tag, bits in [(0, 5, 40), (3, 5, 0), (3, 255, 0), (0, PA, 3), (3, PA, 3), (3, PA, WORD - 1)]:
            made, state = self.halted()
            state.set_cell(address, tag, bits)
            self.check_broken(made, state)

    def test_broken_slices(self):
        for name in ("bits", "tags", "history"):
            made, state = self.halted()
            getattr(state, name).append(0)
            self.check_broken(made, state)
            del getattr(state, name)[-2:]
            self.check_broken(made, state)

    def test_broken_sizes(self):
        made, state = self.halted(n=1000, h=8192)
        self.assertEqual(self.read_state(made, state), (0, 40))
        state.history.append(0)
        state.registers.h += 1
        self.check_broken(made, state)
        made, state = self.halted(n=1000)
        state.bits.append(0)
        state.tags.append(INT)
        state.registers.n += 1
        self.check_broken(made, state)

    def test_broken_table(self):
        made, state = self.halted()
        for table, length in [
            (made.table, 1025),
            (made.table[:1023], 2),
            (made.table + [0], 2),
            ([54 << 32] + made.table[1:], 2),
            (made.table[:1023] + [1], 2),
        ]:
            self.check_broken(sam.Program(table, length), state)

    def test_at_the_ends_of_sound(self):
        """Not broken: the largest registers, a PA at the length, the least machines."""
        made, state = self.halted()
        state.registers = sam.Registers(n=4, h=8, pc=2, sp=3, fbr=3, halt=1, used=8, kept=8)
        state.set_cell(3, PA, 2)
        self.assertEqual(self.read_state(made, state), (0, 40))
        self.assertEqual(self.of_program("PUSHIMM 40 STOP", n=2), (0, 40))
        self.assertEqual(self.of_program("STOP", n=1), (61, 0))  # N = 1 has never a value

    def test_history_is_not_looked_at(self):
        """Only its length and U: a top record that a step-back refuses is no 10 here, as it is none for a step."""
        made, state = self.halted(h=8)
        for used in range(9):
            state.registers.used, state.registers.kept = used, min(used, 1)
            state.history[:] = [~0 % (1 << 64)] * 8
            self.assertEqual(self.read_state(made, state), (0, 40), used)
            self.assertEqual(sam.step(made, state), 1, used)
            self.assertEqual(sam.step_back(made, state), 10 if used else 9, used)

    def test_program_is_only_judged(self):
        """PC may be anywhere: what stands there plays no part."""
        for pc in range(4):
            self.assertEqual(self.read((INT, 40), program_text="PUSHIMM 7 ADD STOP", pc=pc), (0, 40), pc)

    # ---- the complaint

    def test_complaint(self):
        """40 tenths, a trial with 2.5 s over them, the trial taken back, and 40 tenths again: not the FLOAT near 0 that
        the bits of 40 are where the tag is left."""
        made, state = started("PUSHIMM 40 STOP", h=16)
        trial = program("PUSHIMM 40 PUSHIMMF 2.5 STOREOFF 0 STOP")
        self.assertEqual(sam.run(made, state, 9), (0, 2))
        self.assertEqual(self.read_state(made, state), (0, 40))
        first = contents(state)
        self.assertEqual(sam.step_back(made, state), 0)
        self.assertEqual(self.read_state(made, state), (60, 0))
        self.assertEqual(sam.run(trial, state, 9), (0, 3))
        self.assertEqual(self.read_state(trial, state), (0, 25))
        for cell in [(FLOAT, 0x40200000), (INT, 40), (INT, 40)]:
            self.assertEqual(sam.step_back(trial, state), 0)
            self.assertEqual(state.cell(0), cell)
            self.assertEqual(self.read_state(trial, state), (60, 0))
        self.assertEqual(sam.run(made, state, 9), (0, 1))
        self.assertEqual(contents(state), first)
        self.assertEqual(self.read_state(made, state), (0, 40))
        state.tags[0] = FLOAT  # as the machine in use before left it
        self.assertEqual(self.read_state(made, state), (0, 10))


class KeptNumber(unittest.TestCase):
    """Request g: how many steps can be taken back."""

    # Seven steps; a record has one place for the step and one for each cell written.
    PROGRAM = "PUSHIMM 1 DUP SWAP ADD JUMP 5 ADDSP 2 STOP"
    USED = [0, 2, 4, 7, 9, 10, 13, 14]  # U after so many steps

    # H, U and a kept number "above U", or "0 with U above 0".
    BROKEN = [
        (0, 0, 1), (0, 0, 1 << 32), (0, 0, 1 << 63), (0, 0, (1 << 64) - 1),
        (8, 0, 1), (8, 0, 8), (8, 0, 1 << 63), (8, 0, (1 << 64) - 1),
        (8, 1, 0), (8, 1, 2), (8, 4, 0), (8, 4, 5), (8, 4, 8), (8, 4, 9), (8, 4, 1 << 63), (8, 4, (1 << 64) - 1),
        (8, 4, (1 << 32) + 4),  # U in its lower half
        (8, 8, 0), (8, 8, 9), (8192, 8192, 0), (8192, 8192, 8193), (8192, 8192, 1 << 63),
    ]  # fmt: skip
    # H, U and a kept number that is neither.
    ALLOWED = [
        (0, 0, 0), (8, 0, 0), (8, 1, 1), (8, 4, 1), (8, 4, 2), (8, 4, 3), (8, 4, 4), (8, 6, 1), (8, 6, 6),
        (8192, 8000, 1), (8192, 8000, 8000),
    ]  # fmt: skip

    ONE_PLACE = [1 << 63 | 1 << 42]  # a record of a step at PC 0 with SP 1 that wrote no cell,
    TWO_PLACES = [40 << 18, 1 << 63 | 1 << 42 | 1 << 22]  # and of one that wrote cell 0, where INT 40 stood

    def by_hand(self, h, used, kept, record=ONE_PLACE, **registers):
        """A machine with INT 40 in cell 0, at a JUMP before a STOP, its places in use full of this record."""
        state = stacked((INT, 40), h=h)
        state.history[:used] = (record * used)[-used:]
        state.registers = replace(state.registers, used=used, kept=kept, **registers)
        return program("JUMP 1 STOP"), state

    def walked(self, state):
        """ "The screen walks the history for this": from the top, a record at a time."""
        records, at = 0, state.registers.used
        while at > 0:
            at -= 1 + (state.history[at - 1] >> 22 & 0x3FF)
            records += 1
        self.assertEqual(at, 0)
        return records

    def check_broken(self, made, state):
        """10 from each call that asks for a sound state, and nothing changed."""
        before = contents(state)
        self.assertEqual(sam.step(made, state), 10, before)
        self.assertEqual(sam.step_back(made, state), 10, before)
        self.assertEqual([sam.forget(made, state, k) for k in (0, 1, DOUBLE_WORD - 1)], [10] * 3, before)
        self.assertEqual([sam.why(made, state, cell)[0] for cell in (0, DOUBLE_WORD - 1)], [10] * 2, before)
        self.assertEqual([sam.run(made, state, limit) for limit in (0, 1, 9)], [(10, 0)] * 3, before)
        self.assertEqual(sam.dwell(made, state), (10, 0), before)
        self.assertEqual(contents(state), before)

    # ---- what each call does with it

    def test_eighth_register(self):
        names = ["n", "h", "pc", "sp", "fbr", "halt", "used", "kept"]
        self.assertEqual([field.name for field in fields(sam.Registers)][:8], names)

    def test_reset(self):
        made = program("STOP")
        for h in (0, 8):
            state = sam.State([9] * 4, [9] * 4, [9] * h, registers=sam.Registers(1, 2, 3, 4, 5, 6, 7, 8))
            self.assertEqual(sam.reset(made, state), 0)
            self.assertEqual(state.registers, sam.Registers(n=4, h=h))
            self.assertEqual(state.registers.kept, 0)

    def test_refused_reset(self):
        """ "A refused reset returns zero registers." """
        made = program("STOP")
        for refused, tags, number in [(made, 3, 11), (sam.Program(made.table, 1025), 4, 10)]:
            state = sam.State([9] * 4, [9] * tags, [9] * 8, registers=sam.Registers(1, 2, 3, 4, 5, 6, 7, 8))
            self.assertEqual(sam.reset(refused, state), number)
            self.assertEqual((state.registers, state.registers.kept), (sam.Registers(), 0))

    def test_steps_and_back(self):
        """One more with each step, one less with each step-back, however many places a record has."""
        made, state = started(self.PROGRAM, h=14)
        for steps in range(1, 8):
            self.assertEqual(sam.step(made, state), 0)
            self.assertEqual((state.registers.kept, state.registers.used), (steps, self.USED[steps]))
        self.assertEqual((sam.step(made, state), state.registers.kept), (1, 7))
        for steps in range(6, -1, -1):
            self.assertEqual(sam.step_back(made, state), 0)
            self.assertEqual((state.registers.kept, state.registers.used), (steps, self.USED[steps]))
        self.assertEqual((sam.step_back(made, state), state.registers.kept), (9, 0))

    def test_no_history(self):
        """ "with H = 0 it is 0" """
        made, state = started(self.PROGRAM)
        for _ in range(7):
            self.assertEqual((sam.step(made, state), state.registers.kept), (0, 0))
        self.assertEqual((sam.step_back(made, state), state.registers.kept), (9, 0))
        made, state = started(self.PROGRAM)
        self.assertEqual((sam.run(made, state, 9), state.registers.kept), ((0, 7), 0))

    def test_run(self):
        made, state = started(self.PROGRAM, h=14)
        for limit, answer, kept in [(0, (50, 0), 0), (3, (50, 3), 3), (0, (50, 0), 3), (9, (0, 4), 7), (9, (0, 0), 7)]:
            self.assertEqual(sam.run(made, state, limit), answer)
            self.assertEqual((state.registers.kept, state.registers.used), (kept, self.USED[kept]))
        self.assertEqual((sam.step_back(made, state), sam.step_back(made, state), state.registers.kept), (0, 0, 5))
        self.assertEqual((sam.run(made, state, 1), state.registers.kept), ((50, 1), 6))

    def test_run_that_is_refused(self):
        """ "Steps made before a refusal stand", and are counted with a history alone."""
        for text, n, number, steps in [
            ("PUSHIMM 1 PUSHIMM 2", 16, 2, 2),
            ("PUSHIMM 1 ADD", 16, 3, 1),
            ("PUSHIMM 1 PUSHSP ADD", 16, 4, 2),
            ("PUSHIMM 1 PUSHIMM 0 DIV", 16, 5, 2),
            ("PUSHSP PUSHIND", 16, 6, 1),
            ("PUSHIMM 1 PUSHIMM 1 PUSHIMM 1", 3, 7, 2),
            ("ADD", 16, 3, 0),
        ]:
            for h in (0, 64):
                made, state = started(text, n=n, h=h)
                for made_now in (steps, 0):
                    self.assertEqual(sam.run(made, state, 9), (number, made_now), text)
                    self.assertEqual(state.registers.kept, steps if h else 0, text)

    def test_full_history(self):
        """8 leaves it too: five places hold three steps of two, one and two places, or five of one."""
        made, state = started("a: PUSHIMM 1 JUMP a", h=5)
        self.assertEqual((sam.run(made, state, 99), state.registers.kept), ((8, 3), 3))
        made, state = started("a: JUMP a", h=5)
        self.assertEqual((sam.run(made, state, 99), state.registers.kept), ((8, 5), 5))
        self.assertEqual((sam.step(made, state), state.registers.kept), (8, 5))
        self.assertEqual((sam.step_back(made, state), state.registers.kept), (0, 4))
        self.assertEqual((sam.run(made, state, 99), state.registers.kept), ((8, 1), 5))

    def test_refused_calls_leave_it(self):
        """Each number of a step, of a step-back and of a run's entry."""
        for number, h, used, kept, registers in [
            (1, 8, 4, 2, {"halt": 1}),
            (2, 8, 4, 2, {"pc": 2}),
            (8, 8, 8, 3, {}),
            (10, 8, 4, 2, {"fbr": 2}),
        ]:
            made, state = self.by_hand(h, used, kept, **registers)
            before = contents(state)
            self.assertEqual(sam.step(made, state), number)
            self.assertEqual(sam.run(made, state, 1000001), (11, 0))
            self.assertEqual(contents(state), before, number)
        made, state = self.by_hand(8, 4, 2, record=[0])  # no well-formed record
        before = contents(state)
        self.assertEqual(sam.step_back(made, state), 10)
        self.assertEqual(contents(state), before)

    # ---- 10

    def test_broken(self):
        for (h, used, kept), record, halt in product(self.BROKEN, (self.ONE_PLACE, self.TWO_PLACES, [0]), (0, 1)):
            self.check_broken(*self.by_hand(h, used, kept, record, halt=halt))

    def test_allowed(self):
        """Whatever the records are, and where there is none: no call looks at the history for this."""
        for (h, used, kept), record in product(self.ALLOWED, (self.ONE_PLACE, self.TWO_PLACES, [0], [(1 << 64) - 1])):
            made, state = self.by_hand(h, used, kept, record)
            self.assertEqual(sam.dwell(made, state), (60, 0))
            self.assertEqual((sam.step(made, state), state.registers.kept), (0, kept + 1 if h else 0))
            self.assertEqual((sam.run(made, state, 9), state.registers.kept), ((0, 1), kept + 2 if h else 0))
            self.assertEqual(sam.dwell(made, state), (0, 40))

    def test_order(self):
        """10 before 1, 2, 8, 9 and 60, and after 11 of a run."""
        for used, kept, registers in [(4, 0, {"halt": 1}), (4, 5, {"pc": 2}), (8, 9, {}), (8, 0, {}), (0, 1, {})]:
            made, state = self.by_hand(8, used, kept, **registers)
            self.check_broken(made, state)
            self.assertEqual(sam.run(made, state, 1000001), (11, 0))

    # ---- machines made by hand

    def back_by_hand(self, used, kept, record):
        """The machine after one accepted step-back."""
        made, state = self.by_hand(8, used, kept, record)
        self.assertEqual(sam.step_back(made, state), 0)
        return made, state

    def test_lowered_whatever_it_was(self):
        for used, kept in [(4, 1), (4, 2), (4, 3), (4, 4), (1, 1)]:
            _, state = self.back_by_hand(used, kept, self.ONE_PLACE)
            self.assertEqual((state.registers.used, state.registers.kept), (used - 1, kept - 1))
        for used, kept in [(4, 1), (4, 2), (4, 3), (4, 4), (2, 1), (2, 2)]:
            _, state = self.back_by_hand(used, kept, self.TWO_PLACES)
            self.assertEqual((state.registers.used, state.registers.kept), (used - 2, kept - 1))

    def test_back_to_a_broken_state(self):
        """What a step-back leaves of a number that was allowed, but not the count of the records."""
        self.check_broken(*self.back_by_hand(2, 1, self.ONE_PLACE))  # leaves 0 with U 1
        self.check_broken(*self.back_by_hand(4, 1, self.ONE_PLACE))  # 0 with U 3
        self.check_broken(*self.back_by_hand(4, 1, self.TWO_PLACES))  # 0 with U 2
        self.check_broken(*self.back_by_hand(4, 4, self.TWO_PLACES))  # 3 with U 2
        self.check_broken(*self.back_by_hand(2, 2, self.TWO_PLACES))  # 1 with U 0

    def test_back_to_a_sound_state(self):
        made, state = self.back_by_hand(4, 3, self.TWO_PLACES)  # leaves 2 with U 2,
        self.assertEqual((sam.step_back(made, state), state.registers.kept), (0, 1))  # then 1 with U 0
        self.check_broken(made, state)
        made, state = self.back_by_hand(4, 3, self.ONE_PLACE)  # 2 with U 3
        self.assertEqual((sam.step_back(made, state), state.registers.kept), (0, 1))
        self.assertEqual((sam.step(made, state), state.registers.kept), (0, 2))
        made, state = self.back_by_hand(4, 4, self.ONE_PLACE)
        self.assertEqual([sam.step_back(made, state) for _ in range(4)], [0, 0, 0, 9])

    # ---- demand 3

    def check_demand(self, made, state, net_steps):
        """As a fresh reset and S minus B steps leave it, "the number of step places in use", and S minus B."""
        n, h, kept = state.registers.n, state.registers.h, state.registers.kept
        fresh = sam.State([9] * n, [9] * n, [9] * h, bytearray([9] * len(state.output)), sam.Registers(kept=5))
        self.assertEqual(sam.reset(made, fresh), 0)
        for _ in range(net_steps):
            self.assertEqual(sam.step(made, fresh), 0)
        self.assertEqual(contents(state), contents(fresh))
        self.assertEqual(kept, sum(place >> 63 for place in state.history[: state.registers.used]))
        self.assertEqual(kept, self.walked(state))
        self.assertEqual(kept, net_steps if h else 0)

    def any_call(self, chooser, made, state):
        """By how much an accepted call changes S minus B."""
        kind = chooser.randrange(5)
        if kind < 2:
            return 1 if sam.step(made, state) == 0 else 0
        if kind < 4:
            return -1 if sam.step_back(made, state) == 0 else 0
        _, steps = sam.run(made, state, chooser.randrange(12))
        return steps

    def test_demand(self):
        """ "every state reached under demand 3's premise", and from the last as many step-backs as it says."""
        chooser = random.Random(7)
        for h in [0, 1, 2, 5, 12, 40, 200] * 12:
            made, n = drawn_program(chooser), chooser.choice([1, 2, 5, 16, 40])
            state = sam.State([9] * n, [9] * n, [9] * h, bytearray([9] * chooser.choice([0, 1, 4, 256])))
            self.assertEqual(sam.reset(made, state), 0)
            net_steps = 0
            for _ in range(12):
                net_steps += self.any_call(chooser, made, state)
                self.check_demand(made, state, net_steps)
            kept = state.registers.kept
            self.assertEqual([sam.step_back(made, state) for _ in range(kept + 1)], [0] * kept + [9])
            self.check_demand(made, state, 0 if h else net_steps)

    def test_complaint(self):
        """P12 and on: three trials can be taken back, then two, one and none."""
        made, state = started("PUSHIMM 40 PUSHIMMF #40200000 STOREOFF 0", h=6)
        self.assertEqual((sam.run(made, state, 3), state.registers.kept), ((50, 3), 3))
        for kept in (2, 1, 0):
            self.assertEqual((sam.step_back(made, state), state.registers.kept), (0, kept))
        self.assertEqual((sam.step_back(made, state), state.registers.kept), (9, 0))


class Characters(unittest.TestCase):
    """Request h: characters for the landing panel."""

    LETTER = (CH, 76)
    OTHERS = [(INT, 76), (FLOAT, 76), (MA, 0), (PA, 0)]
    # Bytes of an output and a written count that is not above them.
    ALLOWED = [(0, 0), (1, 0), (1, 1), (2, 1), (255, 255), (256, 0), (256, 255), (256, 256)]
    # An output that is too long, or a count above its length.
    BROKEN = [(257, 0), (257, 1), (257, 257), (1000, 0), (0, 1), (0, 256), (0, 1 << 32), (0, (1 << 64) - 1), (1, 2),
              (1, 257), (1, (1 << 32) + 1), (255, 256), (256, 257), (256, 512), (256, 1 << 63)]  # fmt: skip
    BROKEN_CELLS = [(5, 0), (5, 76), (6, 0), (7, 0), (8, 0), (255, 0), (CH, 128), (CH, 255), (CH, 256), (CH, 1 << 31),
                    (CH, WORD - 1)]  # fmt: skip

    def filled(self, size):
        """Bytes that no WRITECH writes: what they are is not judged."""
        return bytes((200 + i) % 256 for i in range(size))

    def by_hand(self, text="WRITECH STOP", cell=LETTER, size=4, written=1, h=8, **registers):
        """A machine with one value, before the first instruction, whose output has any bytes."""
        state = stacked(cell, h=h, output=self.filled(size), written=written)
        state.registers = replace(state.registers, **registers)
        return program(text), state

    def check_broken(self, made, state):
        """10 from each call that asks for a sound state, and nothing changed."""
        before = contents(state)
        for number in (sam.step(made, state), sam.step_back(made, state), sam.forget(made, state, 0)):
            self.assertEqual(number, 10, before)
        self.assertEqual([sam.run(made, state, limit) for limit in (0, 9)], [(10, 0)] * 2, before)
        self.assertEqual(sam.run(made, state, 1000001), (11, 0))
        self.assertEqual(sam.dwell(made, state), (10, 0), before)
        self.assertEqual(contents(state), before)

    # ---- text, table and image

    def test_codes(self):
        self.assertEqual(program("PUSHIMMCH 127 WRITECH").table[:2], [52 << 32 | 127, 53 << 32])

    def test_operands(self):
        for word, code in [("0", 0), ("127", 127), ("-0", 0), ("76", 76), ("007", 7), ("0000000127", 127),
                           ("-0000000000", 0)]:  # fmt: skip
            self.assertEqual(program("PUSHIMMCH " + word).table[0], 52 << 32 | code, word)

    def test_refused_operands(self):
        for word, number in [
            ("128", 25), ("-1", 25), ("255", 25), ("256", 25), ("4294967296", 25), ("9999999999", 25),
            ("00000000000", 25), ("-00000000000", 25), ("00000000076", 25),  # "more than 10 digits is 25"
            ("A", 33), ("L", 33), ("x76", 33), ("76x", 33), ("#4C", 33), ("#0000004C", 33), ("7.6", 33), ("-", 33),
            ("--1", 33), ("76:", 33), ("128:", 33), (":", 33), ("00000000076x", 33), ("WRITECH", 33),
        ]:  # fmt: skip
            answer, table = assembled("STOP\nPUSHIMMCH " + word)
            self.assertEqual((answer, any(table)), ((number, 0, 15, 2, 11), False), word)
        for text, number, place in [
            ("PUSHIMMCH", 24, 9),
            ("PUSHIMMCH // 76", 24, 15),
            ("PUSHIMMCH 'L'", 22, 10),
            ("WRITECH 76", 23, 8),
            ("writech", 23, 0),
            ("PUSHIMMCH 76 76", 23, 13),
        ]:
            self.assertEqual(assembled(text)[0], (number, 0, place, 1, place + 1), text)

    def test_listing(self):
        made, text = program("PUSHIMMCH 007 PUSHIMMCH -0 PUSHIMMCH 127 WRITECH"), bytearray(20480)
        listing = b"PUSHIMMCH 7\nPUSHIMMCH 0\nPUSHIMMCH 127\nWRITECH\n"
        self.assertEqual(sam.list_program(made.table, made.length, text), (0, len(listing)))
        self.assertEqual(text.rstrip(b"\0"), listing)

    def test_table(self):
        for operand, number in [(0, 0), (127, 0), (128, 10), (255, 10), (1 << 31, 10), (WORD - 1, 10)]:
            table = [52 << 32 | operand] + [0] * (PLACES - 1)
            self.assertEqual(sam.pack(table, 1, bytearray(4866))[0], number, operand)
            self.assertEqual(sam.list_program(table, 1, bytearray(20480))[0], number, operand)
            self.assertEqual(sam.step(sam.Program(table, 1), stacked((INT, 0), (INT, 0))), 10 if number else 7, operand)

    def test_image(self):
        """Count 11 bits, code 6 and operand 7: 24 bits of one PUSHIMMCH."""
        for text, packed in [
            ("PUSHIMMCH 72", "00 3A 48"),  # 00000000 001 11010 0 1001000
            ("PUSHIMMCH 127 WRITECH", "00 5A 7F D4"),  # 00000000 010 11010 0 1111111 110101 00
            ("STOP PUSHIMMCH 72", "00 40 69 20"),  # 00000000 010 00000 0 110100 1 001000 00
        ]:
            made, image, table = program(text), bytearray(4866), [7] * PLACES
            number, length = sam.pack(made.table, made.length, image)
            self.assertEqual((number, image[:length].hex(" ").upper()), (0, packed))
            self.assertEqual(sam.unpack(bytes(image[:length]), table), (0, made.length))
            self.assertEqual(table, made.table)
            self.assertEqual(sam.unpack(bytes(image[: length - 1]), table), (41, 0))
        self.assertEqual(sam.unpack(bytes.fromhex("003B00"), [7] * PLACES), (43, 0))  # code 54

    # ---- WRITECH

    def test_word(self):
        """ "HI": each push has a record of two places, each WRITECH one of one place, and popped cells keep theirs."""
        made, state = started("PUSHIMMCH 72 WRITECH PUSHIMMCH 73 WRITECH STOP", n=2, h=6, output=3)
        self.assertEqual(sam.run(made, state, 4), (50, 4))
        self.assertEqual((bytes(state.output), state.registers.written), (b"HI\0", 2))
        self.assertEqual((state.registers.sp, state.cell(0)), (0, (CH, 73)))
        mark = lambda pc, sp, written: 1 << 63 | pc << 52 | sp << 42 | written << 22
        places = [0, mark(0, 0, 1), mark(1, 1, 0), CH << 50 | 72 << 18, mark(2, 0, 1), mark(3, 1, 0)]
        self.assertEqual(state.history, places)
        self.assertEqual((sam.step(made, state), state.registers.kept), (8, 4))

    def test_last_register(self):
        self.assertEqual([field.name for field in fields(sam.Registers)][8:], ["written"])

    def test_order(self):
        """3, 4, 12 and 8, each before those behind it, by a step and by a run."""
        full, room = (1, 1), (2, 1)
        for cell, sp, (size, written), (h, used), number in [
            (self.LETTER, 0, full, (8, 8), 3),
            (self.LETTER, 0, full, (8, 0), 3),
            (self.LETTER, 0, room, (8, 8), 3),
            (self.LETTER, 0, room, (0, 0), 3),
            *[(other, 1, full, (8, 8), 4) for other in self.OTHERS],
            *[(other, 1, full, (0, 0), 4) for other in self.OTHERS],
            *[(other, 1, room, (8, 8), 4) for other in self.OTHERS],
            *[(other, 1, room, (8, 0), 4) for other in self.OTHERS],
            (self.LETTER, 1, full, (8, 8), 12),
            (self.LETTER, 1, full, (8, 7), 12),
            (self.LETTER, 1, full, (0, 0), 12),
            (self.LETTER, 1, (0, 0), (8, 0), 12),  # "an output of 0 bytes is full"
            (self.LETTER, 1, (0, 0), (8, 8), 12),
            (self.LETTER, 1, (256, 256), (0, 0), 12),
            (self.LETTER, 1, room, (8, 8), 8),
            (self.LETTER, 1, (256, 255), (1, 1), 8),
        ]:
            made, state = self.by_hand(cell=cell, size=size, written=written, h=h, sp=sp, used=used, kept=used)
            before = contents(state)
            self.assertEqual(sam.step(made, state), number, before)
            self.assertEqual(sam.run(made, state, 9), (number, 0), before)
            self.assertEqual(contents(state), before)

    def test_before_all(self):
        """10, 1 and 2 before them."""
        for number, changes in [(1, {"halt": 1}), (2, {"pc": 2}), (10, {"fbr": 2}), (10, {"written": 5})]:
            made, state = self.by_hand(size=4, written=4)
            state.registers = replace(state.registers, **changes)
            self.assertEqual(sam.step(made, state), number)

    def test_last_room(self):
        """One byte left and one place left."""
        for size, h in product((1, 2, 255, 256), (0, 1, 8)):
            made, state = self.by_hand(size=size, written=size - 1, h=h, used=max(h - 1, 0), kept=max(h - 1, 0))
            self.assertEqual(sam.step(made, state), 0)
            self.assertEqual(bytes(state.output), self.filled(size)[:-1] + b"L")
            self.assertEqual((state.registers.written, state.registers.used), (size, h))

    def test_bytes_behind_stay(self):
        made, state = self.by_hand(size=4, written=1)
        self.assertEqual(sam.run(made, state, 9), (0, 2))
        self.assertEqual(bytes(state.output), bytes([200, 76, 202, 203]))

    def test_every_character(self):
        for code in range(128):
            made, state = started(f"PUSHIMMCH {code} DUP WRITECH STOP", output=1)
            self.assertEqual(sam.run(made, state, 9), (0, 4))
            self.assertEqual((live(state), state.output[0]), ([(CH, code)], code))

    def test_run_until_full(self):
        """ "Steps made before a refusal stand": one, three for each character written, and the DUP before the refused
        one; with H = 8 records of 2, 2, 1, 1 and 2 places leave no room for a second."""
        for h, size, answer, written in [
            (0, 256, (12, 770), 256),
            (0, 3, (12, 11), 3),
            (0, 0, (12, 2), 0),
            (64, 3, (12, 11), 3),
            (8, 3, (8, 5), 1),
        ]:
            made, state = started("PUSHIMMCH 65 a: DUP WRITECH JUMP a", h=h, output=size)
            self.assertEqual(sam.run(made, state, 9999), answer)
            self.assertEqual(bytes(state.output), b"A" * written + bytes(size - written))
            self.assertEqual(state.registers.written, written)

    # ---- step-back

    def test_back(self):
        """ "its step-back drops and zeroes the last byte", and the bytes behind stay."""
        made, state = self.by_hand(size=4, written=2)
        before = contents(state)
        self.assertEqual(sam.step(made, state), 0)
        self.assertEqual(sam.step_back(made, state), 0)
        bits, tags, history, output, registers = contents(state)
        self.assertEqual((bits, tags, history, registers), (*before[:3], before[4]))
        self.assertEqual(output, bytes([200, 201, 0, 203]))

    def test_back_of_others(self):
        made, state = self.by_hand("DUP STOP", size=4, written=2)
        state.bits.append(0)
        state.tags.append(INT)
        state.registers.n = 3
        self.assertEqual((sam.step(made, state), sam.step_back(made, state)), (0, 0))
        self.assertEqual((bytes(state.output), state.registers.written), (self.filled(4), 2))

    def recorded(self, cells, size, written, text="WRITECH STOP", pc=0):
        """A machine with one record made by hand, of a step at this PC that wrote these (address, tag, bits)."""
        made, state = self.by_hand(text, (INT, 40), size, written, pc=1)
        places = [address << 53 | tag << 50 | bits << 18 for address, tag, bits in cells]
        state.history[: len(cells) + 1] = places + [1 << 63 | pc << 52 | 1 << 42 | len(cells) << 22]
        state.registers = replace(state.registers, used=len(cells) + 1, kept=1)
        return made, state

    def test_nothing_written(self):
        """ "10 [...] at step-back [for] a top record at a WRITECH with nothing written"; with U = 0 it is 9."""
        for cells, size in product([[], [(0, CH, 76)]], (0, 1, 256)):
            made, state = self.recorded(cells, size, 0)
            before = contents(state)
            self.assertEqual(sam.step_back(made, state), 10)
            self.assertEqual(contents(state), before)
            self.assertEqual(sam.dwell(made, state), (60, 0))  # no other call looks at it
            self.assertEqual(sam.step(made, state), 0)
        for written in (0, 1):
            made, state = self.by_hand(written=written)
            self.assertEqual(sam.step_back(made, state), 9)

    def test_record_with_cells(self):
        """Made by hand: the cells are restored, and the byte is dropped."""
        made, state = self.recorded([(0, CH, 127), (1, FLOAT, 5)], 3, 2)
        self.assertEqual(sam.step_back(made, state), 0)
        self.assertEqual((state.cells(0, 2), bytes(state.output)), ([(CH, 127), (FLOAT, 5)], bytes([200, 0, 202])))
        self.assertEqual(state.registers, sam.Registers(n=2, h=8, sp=1, written=1))
        self.assertFalse(any(state.history))

    def test_program_handed(self):
        """The instruction at the old PC is that of the program handed to the step-back."""
        made, state = self.recorded([], 3, 2, "JUMP 1 WRITECH STOP", pc=0)
        self.assertEqual((sam.step_back(made, state), state.registers.written), (0, 2))
        made, state = self.recorded([], 3, 2, "JUMP 1 WRITECH STOP", pc=1)
        self.assertEqual((sam.step_back(made, state), state.registers.written), (0, 1))

    def test_restored(self):
        for cell in [(CH, 0), (CH, 76), (CH, 127)]:
            made, state = self.recorded([(1, *cell)], 2, 1)
            self.assertEqual((sam.step_back(made, state), state.cell(1)), (0, cell))
        for tag, bits in self.BROKEN_CELLS:
            if tag < 8:  # three bits
                made, state = self.recorded([(1, tag, bits)], 2, 1)
                before = contents(state)
                self.assertEqual(sam.step_back(made, state), 10, (tag, bits))
                self.assertEqual(contents(state), before)

    # ---- reset and 10

    def test_reset(self):
        made = program("STOP")
        for size, number in [(0, 0), (1, 0), (256, 0), (257, 11), (1000, 11)]:
            state = sam.State([9] * 4, [9] * 4, [9] * 8, bytearray(self.filled(size)), sam.Registers(*range(1, 10)))
            self.assertEqual(sam.reset(made, state), number)
            if number == 0:
                self.assertEqual((bytes(state.output), state.registers), (bytes(size), sam.Registers(n=4, h=8)))
            else:
                self.assertEqual((bytes(state.output), state.registers), (self.filled(size), sam.Registers()))
        state = sam.State([9], [9], [], bytearray(257))
        self.assertEqual(sam.reset(sam.Program(made.table, 1025), state), 11)  # 11 before 10
        state = sam.State([9], [9], [], bytearray(b"\x09"))
        self.assertEqual(sam.reset(sam.Program(made.table, 1025), state), 10)
        self.assertEqual(state.output, b"\x09")

    def test_broken_outputs(self):
        for (size, written), halt in product(self.BROKEN, (0, 1)):
            self.check_broken(*self.by_hand("JUMP 1 STOP", size=size, written=written, halt=halt))

    def test_allowed_outputs(self):
        for size, written in self.ALLOWED:
            made, state = self.by_hand("JUMP 1 STOP", (INT, 40), size, written)
            self.assertEqual((sam.step(made, state), sam.step_back(made, state)), (0, 0))
            self.assertEqual((sam.run(made, state, 9), sam.dwell(made, state)), ((0, 2), (0, 40)))
            self.assertEqual((bytes(state.output), state.registers.written), (self.filled(size), written))

    def test_cells(self):
        """Live and dead."""
        for cell, sp in product(self.BROKEN_CELLS, (0, 1)):
            self.check_broken(*self.by_hand("JUMP 1 STOP", cell, sp=sp))
        for code, sp in product((0, 76, 127), (0, 1)):
            made, state = self.by_hand("JUMP 1 STOP", (CH, code), sp=sp)
            self.assertEqual(sam.run(made, state, 9), (0, 2))

    # ---- other instructions

    def test_equal_and_nil(self):
        """They "take CH as any tag": by its bits."""
        cells = [(CH, 0), (CH, 1), (CH, 127), (INT, 0), (FLOAT, 0), (MA, 0), (PA, 0), (INT, 127), (FLOAT, 127)]
        for below, top in product(cells, cells):
            state = stacked(below, top)
            self.assertEqual((sam.step(program("EQUAL"), state), live(state)), (0, [(INT, int(below == top))]))
        for code in (0, 1, 127):
            state = stacked((CH, code))
            self.assertEqual((sam.step(program("ISNIL"), state), live(state)), (0, [(INT, int(code == 0))]))

    def test_not_taken(self):
        two = "ADD SUB TIMES DIV MOD AND OR NAND NOR XOR BITAND BITOR BITNAND BITNOR BITXOR CMP GREATER LESS"
        for name in (two + " ADDF SUBF TIMESF DIVF CMPF STOREIND").split():
            for below, top in [((CH, 1), (CH, 1)), ((INT, 1), (CH, 1)), ((CH, 1), (INT, 1)), ((CH, 1), (MA, 1))]:
                self.assertEqual(sam.step(program(name), stacked(below, top)), 4, name)
        one = "NOT BITNOT ISPOS ISNEG ITOF FTOI POPSP POPFBR PUSHIND JUMPIND JSRIND"
        for name in one.split() + ["JUMPC 0"]:
            self.assertEqual(sam.step(program(name), stacked((CH, 0))), 4, name)

    def test_copies_carry_the_tag(self):
        for text, cells in [
            ("PUSHIMMCH 5 DUP", [(CH, 5), (CH, 5)]),
            ("PUSHIMMCH 5 PUSHIMM 6 SWAP", [(INT, 6), (CH, 5)]),
            ("PUSHIMMCH 5 PUSHOFF 0", [(CH, 5), (CH, 5)]),
            ("PUSHIMM 6 PUSHIMMCH 5 STOREOFF 0", [(CH, 5)]),
            ("PUSHIMMCH 5 PUSHFBR PUSHIND", [(CH, 5), (CH, 5)]),
            ("PUSHIMM 6 PUSHFBR PUSHIMMCH 5 STOREIND", [(CH, 5)]),
        ]:
            numbers, state = stepped(text + " STOP")
            self.assertEqual((set(numbers), live(state)), ({0}, cells), text)

    def test_dwell(self):
        for code in (0, 10, 40, 127):
            made, state = self.by_hand("STOP", (CH, code), halt=1)
            self.assertEqual(sam.dwell(made, state), (62, 0))

    # ---- demand 3

    def test_demand(self):
        """ "Demand 3 now includes output bytes and their count": as a fresh reset and S minus B steps leave them."""
        chooser = random.Random(8)
        made = program("a: PUSHIMMCH 72 WRITECH PUSHIMMCH 73 DUP WRITECH WRITECH JUMP a")
        for size, h in product((0, 1, 3, 40, 256), (1, 12, 300)):
            state = sam.State([9] * 4, [9] * 4, [9] * h, bytearray(self.filled(size)))
            sam.reset(made, state)
            net_steps = 0
            for _ in range(40):
                kind = chooser.randrange(3)
                if kind == 0:
                    net_steps += sam.run(made, state, chooser.randrange(20))[1]
                else:
                    number = sam.step(made, state) if kind == 1 else sam.step_back(made, state)
                    net_steps += (1 if kind == 1 else -1) if number == 0 else 0
                fresh = sam.State([7] * 4, [7] * 4, [7] * h, bytearray(self.filled(size)))
                sam.reset(made, fresh)
                self.assertEqual([sam.step(made, fresh) for _ in range(net_steps)], [0] * net_steps)
                self.assertEqual(contents(state), contents(fresh))
            while state.registers.kept:
                self.assertEqual(sam.step_back(made, state), 0)
            self.assertEqual((bytes(state.output), state.registers.written), (bytes(size), 0))

    # ---- the console

    def test_console(self):
        for text, printed in [
            ("PUSHIMMCH 72 WRITECH PUSHIMMCH 73 WRITECH STOP", "end 0 steps 5\nPC 4 SP 0 FBR 0\nout 48 49\n"),
            ("PUSHIMMCH 72 PUSHIMMCH 0 STOP", "end 0 steps 3\nPC 2 SP 2 FBR 0\n0 CH 72\n1 CH 0\n"),
            ("PUSHIMMCH 127 DUP WRITECH ADD", "end 3 steps 3\nPC 3 SP 1 FBR 0\n0 CH 127\nout 7F\n"),
            ("PUSHIMMCH 10 WRITECH", "end 2 steps 2\nPC 2 SP 0 FBR 0\nout 0A\n"),
            ("WRITECH", "end 3 steps 0\nPC 0 SP 0 FBR 0\n"),
            ("PUSHIMMCH 65 a: DUP WRITECH JUMP a",
             "end 12 steps 770\nPC 2 SP 2 FBR 0\n0 CH 65\n1 CH 65\nout" + " 41" * 256 + "\n"),
        ]:  # fmt: skip
            self.assertEqual(sam.console(text.encode()), printed, text)


# Records made by hand for a machine of four cells and a program of four instructions.
CELL_PLACES = [cell_place(0, FLOAT, 7), cell_place(2, CH, 127)]
LAST_PLACE = step_place(3, 3, 3, 2)  # of a step that wrote those two
WELL_FORMED = [
    [step_place(0, 0, 0, 0)],
    [*CELL_PLACES, LAST_PLACE],
    [cell_place(3, PA, 4), step_place(2, 1, 0, 1)],
    [cell_place(0), cell_place(1, MA, WORD - 1), cell_place(2, CH, 0), cell_place(3), step_place(0, 0, 0, 4)],
]
ILL_FORMED = [
    # marks
    [*CELL_PLACES, LAST_PLACE - (1 << 63)],
    [CELL_PLACES[0] | 1 << 63, CELL_PLACES[1], LAST_PLACE],
    [CELL_PLACES[0], CELL_PLACES[1] | 1 << 63, LAST_PLACE],
    # zeros
    *[[*CELL_PLACES, LAST_PLACE | 1 << bit] for bit in range(22)],
    *[[CELL_PLACES[0] | 1 << bit, CELL_PLACES[1], LAST_PLACE] for bit in range(18)],
    *[[CELL_PLACES[0], CELL_PLACES[1] | 1 << bit, LAST_PLACE] for bit in range(18)],
    # old PC not below the length, SP, FBR and addresses not below N
    *[[*CELL_PLACES, step_place(pc, 3, 3, 2)] for pc in (4, 2047)],
    *[[*CELL_PLACES, step_place(3, sp, 3, 2)] for sp in (4, 1023)],
    *[[*CELL_PLACES, step_place(3, 3, fbr, 2)] for fbr in (4, 1023)],
    *[[CELL_PLACES[0], cell_place(address), LAST_PLACE] for address in (4, 1023)],
    # addresses that do not rise
    [CELL_PLACES[0], cell_place(0), LAST_PLACE],
    [CELL_PLACES[1], CELL_PLACES[0], LAST_PLACE],
    [CELL_PLACES[1], CELL_PLACES[1], LAST_PLACE],
    # what would be restored
    *[[cell_place(0, PA, bits), CELL_PLACES[1], LAST_PLACE] for bits in (5, WORD - 1)],
    *[[cell_place(0, CH, bits), CELL_PLACES[1], LAST_PLACE] for bits in (128, WORD - 1)],
    *[[CELL_PLACES[0], cell_place(2, tag), LAST_PLACE] for tag in (5, 6, 7)],
    # a count that reaches below the record, or leaves cell places over
    *[[*CELL_PLACES, step_place(3, 3, 3, written)] for written in (3, 1023, 1, 0)],
    # no record at all
    [0, 0, 0],
    [DOUBLE_WORD - 1] * 3,
]


HANDED = "JUMP 1 WRITECH PUSHIMM 2 STOP"  # with records made by hand
JUNK = DOUBLE_WORD - 1  # no history place: what stands above U is not looked at


def recorded(records, text=HANDED, **registers):
    """A machine with these records, something above U, and two bytes of output written."""
    places = joined(records)
    history = places + [JUNK, 5]
    r = sam.Registers(n=4, h=len(history), used=len(places), kept=len(records), written=2)
    output = bytearray(b"\xc8\xc9\xca")
    state = sam.State([40, 76, 3, 4], [INT, CH, MA, PA], history, output, replace(r, **registers))
    return program(text), state


class Forget(unittest.TestCase):
    """Request i: forget the oldest trials."""

    # Seven steps; the records that they leave, worked out by hand; PC, SP and cells 0 to 2 after so many of them.
    PROGRAM = "PUSHIMM 1 DUP SWAP ADD JUMP 5 ADDSP 2 STOP"
    RECORDS = [
        [cell_place(0), step_place(0, 0, 0, 1)],  # PUSHIMM
        [cell_place(1), step_place(1, 1, 0, 1)],  # DUP
        [cell_place(0, INT, 1), cell_place(1, INT, 1), step_place(2, 2, 0, 2)],  # SWAP
        [cell_place(0, INT, 1), step_place(3, 2, 0, 1)],  # ADD
        [step_place(4, 1, 0, 0)],  # JUMP
        [cell_place(1, INT, 1), cell_place(2), step_place(5, 1, 0, 2)],  # ADDSP, over a popped cell that kept its 1
        [step_place(6, 3, 0, 0)],  # STOP
    ]
    AFTER = [
        (0, 0, [0, 0, 0]), (1, 1, [1, 0, 0]), (2, 2, [1, 1, 0]), (3, 2, [1, 1, 0]), (4, 1, [2, 1, 0]),
        (5, 1, [2, 1, 0]), (6, 3, [2, 0, 0]), (6, 3, [2, 0, 0]),
    ]  # fmt: skip

    MANY = [1 << 32, (1 << 32) + 1, (1 << 32) + 3, 1 << 63, (1 << 63) + 3, DOUBLE_WORD - 1]  # steps to forget

    def check_refused(self, made, state, k, number):
        """ "a refusal changes nothing" """
        before = contents(state)
        self.assertEqual(sam.forget(made, state, k), number, (k, before))
        self.assertEqual(contents(state), before)

    def check_broken(self, made, state):
        """10 whatever k is: "10 first [...] then 14"."""
        kept = state.registers.kept
        for k in (0, 1, kept, (kept + 1) % DOUBLE_WORD, *self.MANY):
            self.check_refused(made, state, k, 10)

    def check_done(self, made, state, k, records):
        """The oldest k of these records go, "the rest [move] down", "the room gained" is zero, U and the kept number
        fall, and nothing else changes."""
        bits, tags, history, output, registers = contents(state)
        gone, left = joined(records[:k]), joined(records[k:])
        self.assertEqual(sam.forget(made, state, k), 0)
        history[: registers.used] = left + [0] * len(gone)
        registers = replace(registers, used=len(left), kept=len(records) - k)
        self.assertEqual(contents(state), (bits, tags, history, output, registers))

    # ---- what is forgotten

    def worked(self, h=14):
        """After all seven steps."""
        made, state = started(self.PROGRAM, h=h)
        self.assertEqual((sam.run(made, state, 9), state.history[:14]), ((0, 7), joined(self.RECORDS)))
        return made, state

    def test_each_number(self):
        for k in range(8):
            made, state = self.worked()
            self.check_done(made, state, k, self.RECORDS)

    def test_little_by_little(self):
        """ "the k oldest kept steps": of those that are still kept."""
        made, state = self.worked(h=20)
        self.check_done(made, state, 2, self.RECORDS)
        self.check_done(made, state, 0, self.RECORDS[2:])
        self.check_done(made, state, 1, self.RECORDS[2:])
        self.check_refused(made, state, 5, 14)
        self.check_done(made, state, 3, self.RECORDS[3:])
        self.check_done(made, state, 1, self.RECORDS[6:])
        self.check_refused(made, state, 1, 14)
        self.check_done(made, state, 0, [])

    def test_back_after_it(self):
        """The newest can be taken back as ever, down to what the oldest of them found."""
        for k in range(8):
            made, state = self.worked()
            sam.forget(made, state, k)
            for steps in range(6, k - 1, -1):
                self.assertEqual(sam.step_back(made, state), 0)
                r, (pc, sp, cells) = state.registers, self.AFTER[steps]
                self.assertEqual((r.pc, r.sp, r.halt, r.kept, state.bits[:3]), (pc, sp, 0, steps - k, cells))
            self.assertEqual((sam.step_back(made, state), any(state.history)), (9, False))

    def test_records_made_by_hand(self):
        for records, k in product([[], WELL_FORMED, WELL_FORMED[::-1], WELL_FORMED * 3], range(13)):
            made, state = recorded(records)
            if k <= len(records):
                self.check_done(made, state, k, records)
            else:
                self.check_refused(made, state, k, 14)

    def test_any_machine_that_is_sound(self):
        """After 10 there is 14 alone: neither 1 nor 2 nor what the instruction would meet."""
        for registers in [{"halt": 1}, {"pc": 4}, {"sp": 0, "pc": 1}, {"sp": 3, "fbr": 3}, {"written": 0},
                          {"written": 3}]:  # fmt: skip
            self.check_done(*recorded(WELL_FORMED, **registers), 2, WELL_FORMED)

    def test_nothing_written(self):
        """ "at step-back a top record at a WRITECH with nothing written", and not at a forget, wherever it stands."""
        writing = [step_place(1, 2, 0, 0)]
        for records in ([writing], [writing, *WELL_FORMED], [*WELL_FORMED, writing], [writing] * 3):
            for k in range(len(records) + 1):
                made, state = recorded(records, written=0)
                if records[-1] == writing:
                    self.assertEqual(sam.step_back(made, state), 10)
                self.check_done(made, state, k, records)

    def test_program_handed(self):
        """The records are judged by the program that the forget is handed."""
        for text, number in [("STOP STOP STOP STOP", 0), ("STOP STOP STOP", 10), ("STOP STOP STOP STOP STOP", 0)]:
            made, state = recorded(WELL_FORMED[:2], text, pc=0)
            state.set_cell(3, INT, 0)
            self.assertEqual(sam.forget(made, state, 1), number)  # of a step at PC 3
        made, state = recorded([[cell_place(0, PA, 4), step_place()]] * 2, "STOP STOP STOP", pc=0)
        state.set_cell(3, INT, 0)
        self.check_broken(made, state)

    # ---- 14

    def test_above_the_kept_number(self):
        for count in range(5):
            made, state = recorded(WELL_FORMED[:count])
            for k in (count + 1, count + 2, (1 << 32) + count, *self.MANY):
                self.check_refused(made, state, k, 14)
            self.check_done(made, state, count, WELL_FORMED[:count])

    def test_no_history(self):
        made, state = started(self.PROGRAM)
        self.assertEqual(sam.run(made, state, 3), (50, 3))
        self.check_done(made, state, 0, [])
        for k in (1, 3, *self.MANY):
            self.check_refused(made, state, k, 14)
        state.registers.kept = 1  # above U
        self.check_broken(made, state)

    # ---- 10

    def test_ill_formed(self):
        """Alone; the lowest, in the middle and at the top; with more of them."""
        good = WELL_FORMED
        for bad in ILL_FORMED:
            for records in ([bad], [bad, *good], [*good[:2], bad, *good[2:]], [*good, bad], [bad, bad]):
                self.check_broken(*recorded(records))

    def test_top_record_alone_at_a_step_back(self):
        """A step-back asks nothing of those below, and a step of none."""
        for bad in ILL_FORMED:
            made, state = recorded([bad, WELL_FORMED[1]])
            self.check_broken(made, state)
            self.assertEqual((sam.step_back(made, state), state.registers.used), (0, 3))

    def test_left_over(self):
        """A place below the records that is none, and a record that reaches below place 0."""
        one = step_place(0, 0, 0, 0)
        for places, kept in [
            ([0, one], 1),
            ([0, one], 2),
            ([cell_place(0), one], 1),
            ([JUNK, one], 1),
            ([JUNK, cell_place(0), step_place()], 1),
            ([0, 0, 0, one], 1),
            ([0], 1),
            ([step_place()], 1),  # of a cell that is not there
            ([step_place(), one], 2),
            ([cell_place(0), step_place(written=2)], 1),
            ([step_place(), cell_place(0), step_place()], 2),
            ([cell_place(0), step_place(written=2), one, one], 3),
        ]:
            made, state = recorded([])
            state.history[:] = places
            state.registers = replace(state.registers, h=len(places), used=len(places), kept=kept)
            self.check_broken(made, state)

    def test_cut_from_the_top(self):
        """By each step place's count, whatever marks stand below: a record of a cell place that has a mark is none."""
        made, state = recorded([[step_place(0, 0, 0, 0), step_place()]])
        self.check_broken(made, state)
        state.registers.kept = 2  # the step places
        self.check_broken(made, state)

    def test_kept_number(self):
        """It "differs from the records in use", though every other call takes it."""
        for records in (WELL_FORMED, WELL_FORMED[1:2], [WELL_FORMED[0]] * 5):
            used = len(joined(records))
            for kept in range(used + 3):
                made, state = recorded(records, kept=kept)
                if kept == len(records):
                    self.check_done(made, state, kept, records)
                    continue
                self.check_broken(made, state)
                self.assertEqual(sam.step(made, state), 0 if 1 <= kept <= used else 10)

    def test_records_of_an_unsound_kept_number(self):
        """As for a step: above U, or 0 with U above 0."""
        for kept in (0, 12, 1 << 32, (1 << 32) + 4, 1 << 63, DOUBLE_WORD - 1):
            self.check_broken(*recorded(WELL_FORMED, kept=kept))
        for kept in (1, 1 << 32, DOUBLE_WORD - 1):
            self.check_broken(*recorded([], kept=kept))

    def test_broken_registers(self):
        """What is 10 of a step is 10 of a forget."""
        for registers in [{"n": 3}, {"n": 5}, {"h": 12}, {"h": 14}, {"sp": 4}, {"fbr": 4}, {"pc": 5}, {"halt": 2},
                          {"used": 14}, {"used": 0}, {"written": 4}, {"n": 0}, {"used": DOUBLE_WORD - 1}]:  # fmt: skip
            self.check_broken(*recorded(WELL_FORMED, **registers))

    def test_broken_memory(self):
        for address, tag, bits in [(0, 5, 0), (3, 255, 0), (1, CH, 128), (3, PA, 5)]:
            made, state = recorded(WELL_FORMED)
            state.set_cell(address, tag, bits)
            self.check_broken(made, state)
        for name in ("bits", "tags", "history"):
            made, state = recorded(WELL_FORMED)
            getattr(state, name).append(0)
            self.check_broken(made, state)
            made, state = recorded(WELL_FORMED)
            getattr(state, name).pop()
            self.check_broken(made, state)
        made, state = recorded(WELL_FORMED)
        state.output[:] = bytes(257)
        self.check_broken(made, state)

    def test_broken_table(self):
        made, state = recorded(WELL_FORMED)
        for table, length in [(made.table, 1025), (made.table[:-1], 4), (made.table + [0], 4), (made.table, 3),
                              ([54 << 32] + made.table[1:], 4), (made.table[:-1] + [1], 4)]:  # fmt: skip
            self.check_broken(sam.Program(table, length), state)

    def test_full_history(self):
        """8,192 records: each is judged, the lowest too."""
        made, state = started("a: JUMP a", n=4, h=8192)
        self.assertEqual((sam.run(made, state, 9999), sam.step(made, state)), ((8, 8192), 8))
        one = step_place(0, 0, 0, 0)
        for at in (0, 1, 4000, 8191):
            state.history[at] |= 1
            self.check_refused(made, state, 1, 10)
            state.history[at] = one
        for k, kept in [(1, 8191), (8191, 8191), (8193, 8191)]:
            state.registers.kept = kept
            self.check_refused(made, state, k, 10)
        state.registers.kept = 8192
        self.check_refused(made, state, 8193, 14)
        self.check_done(made, state, 8000, [[one]] * 8192)
        self.check_done(made, state, 192, [[one]] * 192)

    # ---- the room gained

    def test_room_is_used(self):
        """Five places: records of 2, 1 and 2 fill them."""
        made, state = started("a: PUSHIMM 1 JUMP a", h=5)
        push = [[cell_place(address), step_place(0, address, 0, 1)] for address in range(4)]
        jump = [[step_place(1, sp, 0, 0)] for sp in range(4)]
        self.assertEqual(sam.run(made, state, 99), (8, 3))
        self.assertEqual(sam.step(made, state), 8)  # a JUMP
        self.check_done(made, state, 1, [push[0], jump[1], push[1]])
        self.assertEqual((sam.step(made, state), sam.step(made, state)), (0, 8))  # a PUSHIMM needs two, one is free
        self.check_done(made, state, 1, [jump[1], push[1], jump[2]])
        self.assertEqual((sam.step(made, state), sam.step(made, state)), (0, 8))
        self.assertEqual(state.history, joined([push[1], jump[2], push[2]]))
        self.check_done(made, state, 3, [push[1], jump[2], push[2]])
        self.assertEqual(sam.run(made, state, 99), (8, 3))
        self.assertEqual(state.history, joined([jump[3], push[3]]) + [step_place(1, 4, 0, 0), 0])

    def test_too_little_room(self):
        """Three places, two used by JUMPs; ADDSP 2 needs all three."""
        made, state = started("JUMP 1 JUMP 2 ADDSP 2", h=3)
        self.assertEqual(sam.run(made, state, 9), (8, 2))
        self.check_done(made, state, 1, [[step_place(0, 0, 0, 0)], [step_place(1, 0, 0, 0)]])
        self.assertEqual(sam.step(made, state), 8)
        self.check_done(made, state, 1, [[step_place(1, 0, 0, 0)]])
        self.assertEqual((sam.step(made, state), state.registers.used), (0, 3))
        self.assertEqual(state.history, [cell_place(0), cell_place(1), step_place(2, 0, 0, 2)])

    def test_output_stays(self):
        """What was written is not forgotten; a step-back takes back the bytes of the steps that are kept."""
        made, state = started("a: PUSHIMMCH 72 WRITECH JUMP a", h=16, output=8)
        self.assertEqual(sam.run(made, state, 9), (50, 9))
        self.assertEqual(sam.forget(made, state, 5), 0)  # two of three WRITECHs
        self.assertEqual((bytes(state.output), state.registers.written), (b"HHH" + bytes(5), 3))
        self.assertEqual([sam.step_back(made, state) for _ in range(5)], [0] * 4 + [9])
        self.assertEqual((bytes(state.output), state.registers.written), (b"HH" + bytes(6), 2))

    def test_complaint(self):
        """P12, with the trial's older steps forgotten: tag and bits come back."""
        made, state = started("PUSHIMM 40 PUSHIMMF #40200000 STOREOFF 0", h=6)
        self.assertEqual(sam.run(made, state, 3), (50, 3))
        self.assertEqual((sam.forget(made, state, 2), state.cell(0)), (0, (FLOAT, 0x40200000)))
        self.assertEqual(state.history, [0x0000000000A00000, 0x8020080000400000, 0, 0, 0, 0])
        self.assertEqual((sam.step_back(made, state), state.cell(0)), (0, (INT, 40)))
        self.assertEqual(state.registers, sam.Registers(n=16, h=6, pc=2, sp=2))
        self.assertFalse(any(state.history))
        self.assertEqual((sam.step_back(made, state), sam.step(made, state)), (9, 0))

    # ---- demand 3

    def fresh_run(self, made, state, steps):
        """After so many steps from a reset "with room for all its records, even above 8,192 (no refusal judges that
        room), its other sizes the same"; and U after each number of steps."""
        n, size = state.registers.n, len(state.output)
        room = steps * (n + 1)  # a step writes no more than all cells
        fresh = sam.State([0] * n, [INT] * n, [0] * room, bytearray(size), sam.Registers(n=n, h=room))
        used = [0]
        for _ in range(steps):
            self.assertEqual(plain_step(made, fresh), 0)
            used.append(fresh.registers.used)
        return fresh, used

    def check_demand(self, made, state, h, net_steps, forgotten):
        """ "Cells, tags, registers other than H, U and the kept number, and output equal that run's; H stays as it
        began." S minus B is `net_steps`, F `forgotten`; the places that the records of that run take."""
        fresh, used = self.fresh_run(made, state, net_steps)
        self.assertEqual((state.bits, state.tags, state.output), (fresh.bits, fresh.tags, fresh.output))
        r = state.registers
        self.assertEqual(r, replace(fresh.registers, h=h, used=r.used, kept=r.kept))
        if h == 0:  # "there is no history and U is 0"
            self.assertEqual((state.history, r.used, r.kept, forgotten), ([], 0, 0, 0))
            return used[net_steps]
        # "the first U places are exactly the newest S minus B minus F records of that run", "the other places are zero"
        newest = fresh.history[used[forgotten] : used[net_steps]]
        self.assertEqual((r.kept, r.used, len(state.history)), (net_steps - forgotten, len(newest), h))
        self.assertEqual(state.history, newest + [0] * (h - len(newest)))
        return used[net_steps]

    def check_back(self, made, state, net_steps, forgotten):
        """ "step-back is now refused exactly when S minus B equals F (or H = 0)"; whether it is accepted."""
        number = sam.step_back(made, state)
        self.assertEqual(number, 9 if net_steps == forgotten or state.registers.h == 0 else 0)
        return number == 0

    def any_call(self, chooser, made, state, net_steps, forgotten):
        """S minus B and F after a call."""
        kind, kept = chooser.randrange(8), state.registers.kept
        if kind < 2:
            return net_steps + (sam.step(made, state) == 0), forgotten
        if kind < 4:
            return net_steps - self.check_back(made, state, net_steps, forgotten), forgotten
        if kind < 6:
            _, steps = sam.run(made, state, chooser.randrange(16))
            return net_steps + steps, forgotten
        k = chooser.choice([0, 1, 1, 2, kept, kept + 1, chooser.randrange(kept + 1), (1 << 32) + kept])
        number = sam.forget(made, state, k)
        self.assertEqual(number, 14 if k > kept else 0)
        return net_steps, forgotten + (k if number == 0 else 0)

    def test_demand(self):
        """Series of steps, runs, step-backs and forgets; then all that is kept is taken back."""
        chooser = random.Random(9)
        for h in [0, 1, 2, 5, 12, 40, 200] * 12:
            made, n = drawn_program(chooser), chooser.choice([1, 2, 5, 16, 40])
            state = sam.State([9] * n, [9] * n, [9] * h, bytearray([9] * chooser.choice([0, 1, 4, 256])))
            self.assertEqual(sam.reset(made, state), 0)
            net_steps = forgotten = 0
            for _ in range(16):
                net_steps, forgotten = self.any_call(chooser, made, state, net_steps, forgotten)
                self.check_demand(made, state, h, net_steps, forgotten)
            while self.check_back(made, state, net_steps, forgotten):
                net_steps -= 1
            self.check_demand(made, state, h, net_steps, forgotten)

    def test_demand_in_a_long_session(self):
        """Each time that the history is full some of it is forgotten, so that the records of the fresh run take more
        than 8,192 places: records of 1 place, of 2 and 1, and of 31 and 1."""
        for text, h, forgets in [
            ("a: JUMP a", 8192, (5000, 8192, 1)),
            ("a: PUSHIMM 7 ADDSP -1 JUMP a", 8192, (1, 3000, 6144)),
            ("a: ADDSP 30 ADDSP -30 JUMP a", 8192, (100, 512)),
            ("a: ADDSP 30 ADDSP -30 JUMP a", 40, (1, 2, 3) * 200),
        ]:
            made, state = started(text, n=32, h=h)
            net_steps = forgotten = 0
            for k in forgets:
                _, steps = sam.run(made, state, 1000000)
                k = min(k, state.registers.kept)
                self.assertEqual(sam.forget(made, state, k), 0)
                net_steps, forgotten = net_steps + steps, forgotten + k
            self.assertGreater(self.check_demand(made, state, h, net_steps, forgotten), 8192)
            while self.check_back(made, state, net_steps, forgotten):
                net_steps -= 1
            self.check_demand(made, state, h, net_steps, forgotten)


class DepthList(unittest.TestCase):
    """Request j. Each list and each answer is worked out by hand from its sentences."""

    # Values needed, the change of SP, and the instructions, with operands: "ADDSP -n needs n".
    NEEDS = [
        (0, 0, "STOP", "ADDSP 0"),
        (0, 1, "PUSHIMM 7", "PUSHIMMF 2.5", "PUSHIMMCH 76", "PUSHIMMPA 0", "PUSHSP", "PUSHFBR", "LINK"),
        (0, 1, "PUSHOFF 0", "PUSHOFF -999", "PUSHOFF 999", "ADDSP 1"),
        (0, 999, "ADDSP 999"),
        (1, 1, "DUP"),
        (2, 0, "SWAP"),
        (2, -1, "ADD", "SUB", "TIMES", "DIV", "MOD", "ADDF", "SUBF", "TIMESF", "DIVF"),
        (2, -1, "AND", "OR", "NAND", "NOR", "XOR", "BITAND", "BITOR", "BITNAND", "BITNOR", "BITXOR"),
        (2, -1, "CMP", "CMPF", "GREATER", "LESS", "EQUAL"),
        (1, 0, "NOT", "BITNOT", "ISNIL", "ISPOS", "ISNEG", "ITOF", "FTOI", "PUSHIND"),
        (1, -1, "POPFBR", "WRITECH", "STOREOFF 0", "STOREOFF -999", "STOREOFF 999", "ADDSP -1"),
        (2, -2, "STOREIND", "ADDSP -2"),
        (999, -999, "ADDSP -999"),
        (0, 0, "JUMP 2"),
        (1, -1, "JUMPC 2"),
    ]
    FORBIDDEN = ["JSR 0", "JSR 2", "JSRIND", "JUMPIND", "POPSP"]

    def check(self, text, depths, number, place=0, n=16):
        made = program(text)
        table, listed = list(made.table), list(depths)
        self.assertEqual(sam.check_depths(made, n, listed), (number, place), (text, depths, n))
        self.assertEqual((made.table, listed), (table, list(depths)))

    def accepted(self, text, depths, n=16):
        self.check(text, depths, 0, 0, n)

    def instructions(self):
        for needed, change, *texts in self.NEEDS:
            for text in texts:
                yield text, needed, change

    def test_every_instruction_is_here(self):
        names = {text.split()[0] for text, _, _ in self.instructions()}
        self.assertEqual(len(names), 50)
        self.assertEqual(names | {text.split()[0] for text in self.FORBIDDEN}, set(NAMES))

    # ---- "place 0 has depth 0"

    def test_place_zero(self):
        self.accepted("STOP", [0])
        for depth in (1, 2, 15, 16, 65534, NOT_REACHED):
            self.check("STOP", [depth], 66, 0)
            self.check("JUMP 0", [depth], 66, 0)
            self.check("STOP STOP", [depth, 0], 66, 0)
            self.check("ADDSP -1 STOP", [depth, depth - 1], 66, 0)
        self.check("STOP ADD STOP", [NOT_REACHED, 1, 0], 66, 0)  # before the rule of place 1

    # ---- "every place with a depth has enough values for its instruction"

    def test_values(self):
        """Where nothing leads to, behind a STOP; what follows has the depth after."""
        for text, needed, change in self.instructions():
            for depth in {needed, needed + 1, needed + 2, 999 - max(change, 0)}:
                if depth + change < 1000:
                    self.accepted(f"STOP {text} ADDSP 0 STOP", [0, depth, depth + change, depth + change], 1000)
            for depth in {0, max(needed - 2, 0), needed - 1} if needed else ():
                self.check(f"STOP {text} STOP", [0, depth, max(depth + change, 0)], 66, 1, 1000)

    def test_values_at_the_start(self):
        for text, needed, change in self.instructions():
            if needed:
                self.check(f"{text} STOP STOP", [0, 0, 0], 66, 0, 1000)
            else:
                self.accepted(f"{text} STOP STOP", [0, change, change], 1000)

    def test_sums_do_not_go_round(self):
        """At depth 65,534, or with too few values, by sixteen bits the depth after would be small."""
        for text, depth, after in [("ADDSP 2", 65534, 0), ("ADDSP 3", 65533, 0), ("ADDSP 999", 65534, 997),
                                   ("ADDSP 1", 65534, NOT_REACHED), ("PUSHIMM 1", 65534, NOT_REACHED),
                                   ("DUP", 65534, NOT_REACHED), ("ADDSP -2", 1, 65534 + 1), ("ADD", 0, 65535),
                                   ("ADDSP -999", 998, 65535), ("ADDSP -999", 0, 65536 - 999),
                                   ("STOREIND", 0, 65534)]:  # fmt: skip
            self.check(f"STOP {text} JUMP 2", [0, depth, after], 66, 1, 1000)

    # ---- "its depth after is below N"

    def test_room(self):
        """N is one more than the depth after, then no more than it."""
        for text, needed, change in self.instructions():
            depth = needed + 1 if needed + change == 0 else needed
            after = depth + change
            down = f"STOP {text} ADDSP -{after} STOP"  # what follows has room
            self.accepted(down, [0, depth, after, 0], after + 1)
            self.check(down, [0, depth, after, 0], 66, 1, after)

    def test_room_counts_after(self):
        """A place may have more values than there are cells, if nothing leads to it and its instruction takes them."""
        self.accepted("STOP WRITECH STOP", [0, 4, 3], 4)
        self.check("STOP WRITECH STOP", [0, 5, 4], 66, 1, 4)
        self.accepted("STOP STOREIND STOP", [0, 5, 3], 4)
        self.check("STOP STOREIND STOP", [0, 6, 4], 66, 1, 4)
        self.accepted("STOP JUMPC 2 STOP", [0, 1, 0], 1)
        self.accepted("STOP ADDSP -999 STOP", [0, 1998, 999], 1000)
        self.check("STOP ADDSP -999 STOP", [0, 1999, 1000], 66, 1, 1000)
        self.check("STOP ADDSP -999 STOP", [0, 65534, 64535], 66, 1, 1000)

    def test_depths_around_n(self):
        for n in (1, 2, 16, 999, 1000):
            for text in ("STOP JUMP 0", "JUMP 1 JUMP 0", "ADDSP 0 JUMP 1"):
                for depth, number in [(n - 1, 0), (n, 66), (n + 1, 66), (65533, 66), (65534, 66)]:
                    behind = depth if text.startswith("ADDSP") else 0
                    self.check(f"STOP {text}", [0, depth, behind], number, 1 if number else 0, n)

    def test_stop(self):
        """ "STOP has no follower", so what stands behind it may have any depth; its depth after is its own."""
        for depth in (0, 1, 15, NOT_REACHED):
            self.accepted("STOP STOP", [0, depth])
        self.accepted("STOP DUP JUMP 0", [0, NOT_REACHED, 0])
        self.check("STOP STOP", [0, 16], 66, 1)
        self.check("STOP STOP", [0, 1], 66, 1, 1)
        self.accepted("STOP STOP", [0, 0], 1)

    def test_smallest_machines(self):
        """P7: one push needs two cells."""
        self.check("PUSHIMM 1 STOP", [0, 1], 66, 0, 1)
        self.accepted("PUSHIMM 1 STOP", [0, 1], 2)
        self.check("PUSHIMM 1 PUSHIMM 1 STOP", [0, 1, 2], 66, 1, 2)
        self.accepted("PUSHIMM 1 PUSHIMM 1 STOP", [0, 1, 2], 3)
        self.check("ADDSP 999 STOP", [0, 999], 66, 0, 999)
        self.accepted("ADDSP 999 STOP", [0, 999], 1000)

    # ---- "each place that may follow has that same depth"

    def test_next_place(self):
        for text, needed, change in self.instructions():
            if text == "STOP" or text.startswith("JUMP") or needed > 2 or change > 2:
                continue
            for wrong in (4 + change + 1, 4 + change - 1, 0 if 4 + change else 1, 15, 16, 65534, NOT_REACHED):
                self.check(f"STOP {text} STOP STOP", [0, 4, wrong, 0], 66, 1)
            if change:
                self.check(f"STOP {text} STOP STOP", [0, 4, 4, 0], 66, 1)  # the depth before
            self.accepted(f"STOP {text} STOP STOP", [0, 4, 4 + change, 0])
            self.accepted(f"STOP {text} STOP STOP", [0, NOT_REACHED, 7, 0])  # a place "not reached" has no rule

    def test_jump(self):
        """Its target alone follows."""
        self.accepted("JUMP 2 STOP STOP", [0, NOT_REACHED, 0])
        self.accepted("JUMP 2 STOP STOP", [0, 9, 0])
        self.check("JUMP 2 STOP STOP", [0, 0, NOT_REACHED], 66, 0)
        self.check("JUMP 2 STOP STOP", [0, 0, 1], 66, 0)
        self.accepted("JUMP 0", [0])
        self.accepted("PUSHIMM 1 JUMP 1", [0, 1])
        self.check("PUSHIMM 1 JUMP 0", [0, 1], 66, 1)
        self.accepted("PUSHIMM 1 ADDSP -1 JUMP 0", [0, 1, 0])
        self.accepted("JUMP 2 STOP JUMP 1", [0, 0, 0])

    def test_both_ways(self):
        """ "Both ways of JUMPC count": forward, back, to itself and to the next place."""
        forward = "PUSHIMM 1 JUMPC 3 STOP STOP"
        self.accepted(forward, [0, 1, 0, 0])
        for wrong in (1, 2, 15, 16, 65534, NOT_REACHED):
            self.check(forward, [0, 1, wrong, 0], 66, 1)
            self.check(forward, [0, 1, 0, wrong], 66, 1)
            self.check(forward, [0, 1, wrong, wrong], 66, 1)
        back = "PUSHIMM 3 PUSHIMM 1 SUB DUP JUMPC 1 STOP"
        self.accepted(back, [0, 1, 2, 1, 2, 1])
        self.check(back, [0, 1, 2, 1, 2, 2], 66, 4)
        self.check("PUSHIMM 3 PUSHIMM 1 SUB JUMPC 1 STOP", [0, 1, 2, 1, 0], 66, 3)
        self.check("PUSHIMM 1 JUMPC 1 STOP", [0, 1, 0], 66, 1)  # itself, with a value less
        self.accepted("PUSHIMM 1 JUMPC 2 STOP", [0, 1, 0])
        self.check("PUSHIMM 1 JUMPC 2 STOP", [0, 1, 1], 66, 1)

    def test_first_place(self):
        """Of two rules that fail the first place is told, and it is the one that leads on, not the one led to."""
        self.check("PUSHIMM 1 STOP ADD", [0, 2, 0], 66, 0)
        self.check("STOP JUMP 3 STOP STOP", [0, 1, 0, 2], 66, 1)
        self.check("STOP STOP STOP JUMP 1", [0, 5, 0, 4], 66, 3)
        self.check("STOP STOP STOP JUMP 1", [0, 16, 0, 16], 66, 1)
        self.check("STOP ADD SWAP DUP", [0, NOT_REACHED, 1, 0], 66, 2)

    # ---- "the program's end may never follow"

    def test_end(self):
        for text, needed, change in self.instructions():
            name = text.split()[0]
            if name not in ("STOP", "JUMP", "JUMPC"):
                self.check(f"STOP {text}", [0, needed], 66, 1, 1000)
                self.accepted(f"STOP {text}", [0, NOT_REACHED], 1000)
        self.check("PUSHIMM 1", [0], 66, 0)
        self.check("JUMP 1", [0], 66, 0)
        self.check("JUMP 2 STOP", [0, 0], 66, 0)
        self.check("PUSHIMM 1 JUMPC 3 STOP", [0, 1, 0], 66, 1)
        self.check("PUSHIMM 1 JUMPC 0", [0, 1], 66, 1)
        self.check("PUSHIMM 1 JUMPC 2", [0, 1], 66, 1)
        self.accepted("STOP JUMPC 0", [0, NOT_REACHED])
        self.accepted("STOP JUMP 2", [0, NOT_REACHED])
        self.accepted("PUSHIMM 1 JUMPC 3 JUMP 0 STOP", [0, 1, 0, 0])

    def test_end_is_no_unused_place(self):
        """The code of STOP is 0, which unused places of a table have too."""
        made = program("ADDSP 0")
        self.assertEqual(sam.check_depths(made, 16, [0]), (66, 0))
        made.length = 2
        self.assertEqual(sam.check_depths(made, 16, [0, 0]), (0, 0))
        self.assertEqual(sam.check_depths(made, 16, [0]), (64, 0))

    # ---- 1,024 places

    def test_full_programs(self):
        pushes = "PUSHIMM 1 " * 1023
        depths = list(range(1024))
        self.check(pushes + "STOP", depths, 66, 999, 1000)
        self.check(pushes + "STOP", [*depths[:1000], *[NOT_REACHED] * 24], 66, 999, 1000)
        loop = "PUSHIMM 1 ADDSP -1 " * 511
        self.accepted(loop + "ADDSP 0 STOP", [0, 1] * 511 + [0, 0], 2)
        self.check(loop + "ADDSP 0 ADDSP 0", [0, 1] * 511 + [0, 0], 66, 1023, 2)
        self.check(loop + "ADDSP 0 JUMP 1024", [0, 1] * 511 + [0, 0], 66, 1023, 2)
        self.accepted(loop + "ADDSP 0 JUMP 0", [0, 1] * 511 + [0, 0], 2)
        self.check(loop + "ADDSP 0 JUMP 1", [0, 1] * 511 + [0, 0], 66, 1023, 2)
        self.check(loop + "STOP JSRIND", [0, 1] * 511 + [0, NOT_REACHED], 65, 1023, 2)
        self.accepted("STOP " * 1024, [0] * 1024, 1)
        self.accepted("JUMP 1023 " + "ADD " * 1022 + "STOP", [0] + [NOT_REACHED] * 1022 + [0], 1)
        for count in (0, 1, 1023, 1025, 2048):
            self.check("STOP " * 1024, [0] * count, 64)

    # ---- refusals, and their order

    def test_n(self):
        for n in (0, 1001, 1002, 65535, 65536, 65537, 1 << 32, (1 << 32) + 1, (1 << 32) + 1000, 1 << 63,
                  (1 << 63) + 1, DOUBLE_WORD - 1):  # fmt: skip
            self.check("STOP", [0], 11, 0, n)
        for n in (1, 2, 999, 1000):
            self.accepted("STOP", [0], n)

    def test_length(self):
        for text, length in [("", 0), ("STOP", 1), ("STOP STOP", 2), ("STOP " * 40, 40)]:
            for count in {0, length - 1, length + 1, 2 * length, length + 256, length + 65536} - {length, -1}:
                self.check(text, [0] * count, 64)
                self.check(text, [NOT_REACHED] * count, 64)

    def test_empty_program(self):
        self.check("", [], 66, 0)
        self.check("", [], 66, 0, 1)
        self.check("", [0], 64)
        self.check("", [NOT_REACHED], 64)
        self.check("", [], 11, 0, 0)
        self.check("", [], 11, 0, 1001)

    def test_forbidden(self):
        """Anywhere, whatever its depth; the first of them."""
        for text in self.FORBIDDEN:
            for depth in (0, 1, 2, 16, 65534, NOT_REACHED):
                self.check(f"STOP {text} STOP", [0, depth, 0], 65, 1)
            self.check(f"{text} STOP STOP", [0, 0, 0], 65, 0)
            self.check(f"STOP STOP {text}", [0, NOT_REACHED, NOT_REACHED], 65, 2)
            for other in self.FORBIDDEN:
                self.check(f"STOP STOP {text} {other}", [0, 0, NOT_REACHED, NOT_REACHED], 65, 2)

    def broken_tables(self, made):
        table, length = made.table, made.length
        yield sam.Program(table[:-1], length)
        yield sam.Program(table + [0], length)
        yield sam.Program([], length)
        yield sam.Program(table[:-1] + [1], length)
        yield sam.Program([54 << 32] + table[1:], length)
        yield sam.Program([1 << 63] + table[1:], length)
        yield sam.Program(table, 1025)
        yield sam.Program(table, (1 << 32) + length)

    def test_order(self):
        """Each with all that come behind it: 10, 11, 64, 65, 66; a failed rule at 0 is before a forbidden place."""
        made = program("ADD JSRIND STOP")
        right, short, long = [0, 0, 0], [0, 0], [0, 0, 0, 0]
        for n in (0, 16, 1001):
            for depths in (right, short, long, [], [NOT_REACHED] * 3):
                for broken in self.broken_tables(made):
                    self.assertEqual(sam.check_depths(broken, n, depths), (10, 0))
                if n != 16:
                    self.assertEqual(sam.check_depths(made, n, depths), (11, 0))
        for depths in (short, long, []):
            self.assertEqual(sam.check_depths(made, 16, depths), (64, 0))
        self.assertEqual(sam.check_depths(made, 16, right), (65, 1))
        self.assertEqual(sam.check_depths(made, 16, [NOT_REACHED] * 3), (65, 1))
        self.check("ADD STOP STOP", right, 66, 0)

    def test_order_of_an_empty_program(self):
        for broken in self.broken_tables(program("")):
            self.assertEqual(sam.check_depths(broken, 0, [0]), (10, 0))
            self.assertEqual(sam.check_depths(broken, 16, []), (10, 0))
        self.check("", [0], 11, 0, 0)

    # ---- what an accepted list promises

    def held_run(self, made, n, depths, output, limit=300):
        """ "From a reset, no run of an accepted program meets 2, 3 or 7. Each place such a run reaches has SP as its
        listed depth." The number that ends it, and the places reached."""
        state = sam.State([9] * n, [9] * n, [], bytearray(output))
        self.assertEqual(sam.reset(made, state), 0)
        reached = set()
        for _ in range(limit):
            registers = state.registers
            self.assertEqual(depths[registers.pc], registers.sp)
            reached.add(registers.pc)
            number = plain_step(made, state)
            if number:
                self.assertNotIn(number, (2, 3, 7))
                return number, reached
        return 50, reached

    def pairs(self, chooser, count):
        """Programs with lists: proposed for them, or with programs made for the lists."""
        for _ in range(count):
            yield depth_cases.any_proposed(chooser)
            n = chooser.choice([2, 3, 16, 1000])
            yield depth_cases.any_listed_program(chooser, chooser.randrange(1, 30), n)

    def test_runs(self):
        """With the least N that is accepted; with one cell less the list is not."""
        endings = Counter()
        for made, depths in self.pairs(random.Random(10), 250):
            least = depth_cases.least_size(made, depths)
            self.assertEqual(sam.check_depths(made, least, depths), (0, 0))
            if least > 1:
                self.assertEqual(sam.check_depths(made, least - 1, depths)[0], 66)
            for n, output in [(least, 256), (least, 0), (1000, 2)]:
                number, _ = self.held_run(made, n, depths, output)
                endings[number] += 1
        self.assertEqual(set(endings), {1, 4, 5, 6, 12, 50})

    def test_runs_of_other_lists(self):
        """Right lists with a depth or two changed: where one is accepted still, it holds."""
        chooser, answers = random.Random(11), Counter()
        for made, depths in self.pairs(chooser, 400):
            for _ in range(chooser.randrange(1, 3)):
                depths[chooser.randrange(len(depths))] = chooser.choice([0, 1, 2, 3, 15, 16, 65534, NOT_REACHED])
            number, _ = sam.check_depths(made, 16, depths)
            answers[number] += 1
            if number == 0:
                self.held_run(made, 16, depths, 2)
        self.assertGreater(min(answers[0], answers[66]), 40)

    def test_every_small_program(self):
        """Two places: where some list is accepted the proposed one is, and it holds; where a run meets 2, 3 or 7 there
        is none."""
        texts = ["STOP", "PUSHIMM 1", "PUSHIMM 0", "DUP", "ADD", "ADDSP -1", "ADDSP 1", "JUMP 0", "JUMP 1", "JUMP 2",
                 "JUMPC 0", "JUMPC 1", "JUMPC 2"]  # fmt: skip
        for pair, n in product(product(texts, repeat=2), (1, 2, 3)):
            made = program(" ".join(pair))
            lists = product((0, 1, 2, NOT_REACHED), repeat=2)
            accepted = [list(depths) for depths in lists if sam.check_depths(made, n, depths) == (0, 0)]
            try:
                self.assertIn(depth_list.proposed(made, n), accepted)
            except depth_list.NoList:
                self.assertEqual(accepted, [])
            for depths in accepted:
                self.held_run(made, n, depths, 0, 9)
            if sam.run(*self.started(made, n), 9)[0] in (2, 3, 7):
                self.assertEqual(accepted, [])

    def started(self, made, n):
        state = sam.State([0] * n, [0] * n, [])
        self.assertEqual(sam.reset(made, state), 0)
        return made, state

    # ---- the proposing script, and its text

    def proposed(self, text, n=1000):
        try:
            return depth_list.proposed(program(text), n)
        except depth_list.NoList as why:
            return str(why)

    def test_proposed(self):
        none = NOT_REACHED
        self.assertEqual(self.proposed("PUSHIMM 3 a: PUSHIMM 1 SUB DUP JUMPC a STOP"), [0, 1, 2, 1, 2, 1])
        self.assertEqual(self.proposed("JUMP a ADD a: STOP ADD"), [0, none, 0, none])
        self.assertEqual(self.proposed("ADDSP 3 PUSHIMM 1 JUMPC a ADDSP -3 STOP a: STOP"), [0, 3, 4, 3, 0, 3])
        for text, n, place in [("", 16, "empty"), ("STOP JSRIND", 16, "place 1, JSRIND"), ("PUSHIMM 7 ADD STOP", 16,
                               "place 1, ADD"), ("PUSHIMM 7 STOP", 1, "place 0, PUSHIMM 7"), ("STOREOFF 0 STOP", 16,
                               "place 0, STOREOFF 0"), ("a: PUSHIMM 7 JUMP a", 16, "place 1, JUMP 0"),
                               ("JUMP 1", 16, "place 0, JUMP 1"), ("PUSHIMM 7", 16, "place 0, PUSHIMM 7")]:  # fmt: skip
            self.assertIn(place, self.proposed(text, n))

    def test_proposed_is_accepted(self):
        """Or there is none, and that for the most cells is refused."""
        chooser, answers = random.Random(12), Counter()
        for _ in range(400):
            made, n = depth_cases.any_flat_program(chooser), chooser.choice([2, 5, 16])
            try:
                listed, number = depth_list.proposed(made, n), 0
            except depth_list.NoList:
                listed, number = self.proposed_for_most(made), 66
            if listed:
                self.assertEqual(sam.check_depths(made, n, listed)[0], number)
                answers[number] += 1
        self.assertGreater(min(answers[0], answers[66]), 40)

    def proposed_for_most(self, made):
        try:
            return depth_list.proposed(made)
        except depth_list.NoList:
            return []

    def test_text(self):
        made = program("JUMP a ADD a: PUSHIMMF 2.5 STOP")
        listed = [0, NOT_REACHED, 0, 1]
        text = depth_list.written(made, listed)
        self.assertEqual(text.splitlines(), ["0    // 0 JUMP 2", "-    // 1 ADD", "0    // 2 PUSHIMMF #40200000",
                                             "1    // 3 STOP"])  # fmt: skip
        self.assertEqual(depth_list.read(text), listed)
        self.assertEqual(depth_list.read("// by hand\n0\n\n  - // 7\r\n 65534\n12"), [0, NOT_REACHED, 65534, 12])
        self.assertEqual(depth_list.read("0 1 - // 5\n//6\n"), [0, 1, NOT_REACHED])
        self.assertEqual(depth_list.read(""), [])
        for wrong in ("65535", "-1", "x", "1.0", "--", "0x1", "+1", "\u0663"):
            self.assertRaises(ValueError, depth_list.read, wrong)


class SavedState(unittest.TestCase):
    """Request k. Every image and every answer is worked out by hand from its sentences."""

    # A machine of two cells, CH 65 and FLOAT 2.5, at PC 5, SP 1, FBR 1, HALT 1, with one byte written, H: "N 10 bits,
    # PC 11, SP 10, FBR 10, HALT 1, output count 9, then each of the N cells as tag 3 and bits 32, then the written
    # output bytes, zeros to a byte".
    FIELDS = (
        "0000000010 00000000101 0000000001 0000000001 1 000000001 "
        "100 00000000000000000000000001000001 001 01000000001000000000000000000000 01001000 0000000"
    )
    IMAGE = bytes.fromhex("00 80 28 02 00 C0 30 00 00 01 04 A0 10 00 00 24 00")
    REGISTERS = {"n": 2, "pc": 5, "sp": 1, "fbr": 1, "halt": 1, "written": 1}
    CELLS = [(CH, 65), (FLOAT, 0x40200000)]
    BEYOND = DOUBLE_WORD - 1  # in registers that are not looked at

    def program(self, length=6):
        return sam.Program([0] * PLACES, length)  # so many STOPs

    def state(self, cells=(), h=0, output=b"H", **registers):
        """That machine, or with other cells, memory and registers."""
        tags, bits = map(list, zip(*(cells or self.CELLS)))
        made = sam.Registers(**{**self.REGISTERS, "n": len(bits), "h": h, **registers})
        return sam.State(bits, tags, [5] * h, bytearray(output), made)

    def lent(self, n=2, tags=None, h=3, output=4):
        """Memory to be loaded into, which holds what no machine does."""
        r = sam.Registers(*[self.BEYOND] * 9)
        return sam.State([9] * n, [9] * (n if tags is None else tags), [9] * h, bytearray([9] * output), r)

    def saved(self, made, state):
        """The image of an accepted save: "rest zero, length told", and nothing else is changed."""
        image, before = bytearray([0xA5] * 4638), contents(state)
        number, length = sam.save(made, state, image)
        self.assertEqual((number, any(image[length:]), len(image)), (0, False, 4638))
        self.assertEqual(contents(state), before)
        return bytes(image[:length])

    def check_not_saved(self, made, state, size, number):
        """ "zero one of right length and tell length 0", "leave an output of wrong length untouched" """
        image, before = bytearray([0xA5] * size), contents(state)
        self.assertEqual(sam.save(made, state, image), (number, 0))
        self.assertEqual(image, bytes(4638) if size == 4638 else bytes([0xA5] * size))
        self.assertEqual(contents(state), before)

    def check_refused(self, number, image, made=None, lent=None):
        """ "A refused load does as a refused reset": zero registers, and nothing else changes."""
        lent = lent or self.lent()
        bits, tags, history, output, _ = contents(lent)
        self.assertEqual(sam.load(made or self.program(), lent, bytes(image)), number)
        self.assertEqual(contents(lent), (bits, tags, history, output, sam.Registers()))

    def check_loaded(self, image, expected, made=None, h=3, output=4):
        """As expected, but for the history, which is zero, and U, the kept number and H; the output's rest is zero."""
        made, n = made or self.program(), len(expected.bits)
        lent = self.lent(n, n, h, output)
        self.assertEqual(sam.load(made, lent, bytes(image)), 0)
        shown = bytes(expected.output[: expected.registers.written])
        registers = replace(expected.registers, h=h, used=0, kept=0)
        self.assertEqual(
            contents(lent), (expected.bits, expected.tags, [0] * h, shown + bytes(output - len(shown)), registers)
        )
        return lent

    def image_of(self, n, count, cells=None, pc=0, sp=0, fbr=0, halt=0):
        """Of fields that need not be in range; cells INT 0 and bytes 0 unless given."""
        header = f"{n:010b}{pc:011b}{sp:010b}{fbr:010b}{halt:b}{count:09b}"
        body = "".join(f"{tag:03b}{bits:032b}" for tag, bits in cells) if cells else "0" * (35 * n)
        bits = header + body + "0" * (8 * count)
        bits += "0" * (-len(bits) % 8)
        return int(bits, 2).to_bytes(len(bits) // 8, "big")

    # ---- what is saved

    def test_fields(self):
        bits = self.FIELDS.replace(" ", "")
        self.assertEqual((len(bits), int(bits, 2).to_bytes(17, "big")), (136, self.IMAGE))
        self.assertEqual(self.saved(self.program(), self.state()), self.IMAGE)
        self.check_loaded(self.IMAGE, self.state())

    def test_smallest(self):
        image = bytes.fromhex("00 40 00 00 00 00 00 00 00 00 00")
        made, state = started("STOP", n=1)
        self.assertEqual(self.saved(made, state), image)
        self.check_loaded(image, state, made)

    def test_greatest_header(self):
        """1111101000 10000000000 1111100111 1111100111 1 100000000, then cells; 4,638 bytes in all."""
        made = self.program(1024)
        state = self.state([(INT, 0)] * 1000, pc=1024, sp=999, fbr=999, output=bytes(256), written=256)
        image = self.saved(made, state)
        self.assertEqual(image, bytes.fromhex("FA 20 07 CF F3 E0") + bytes(4632))
        self.check_loaded(image, state, made, output=256)
        state.set_cell(999, CH, 127)  # bits 35016 to 35050: 100, 25 zeros, 1111111
        state.output[255] = 255  # 37091 to 37098
        image = self.saved(made, state)
        self.assertEqual(image[4377:4382], bytes.fromhex("80 00 00 0F E0"))
        self.assertEqual((image[4636:], any(image[4382:4636])), (bytes.fromhex("1F E0"), False))
        self.check_loaded(image, state, made, output=256)

    def test_session(self):
        """A popped cell keeps its contents, and is saved with the others."""
        made, state = started("PUSHIMMCH 72 WRITECH PUSHIMMCH 65 PUSHIMMF 2.5 ADDSP -1 STOP", n=3, h=20, output=4)
        self.assertEqual(sam.run(made, state, 9), (0, 6))
        image = bytes.fromhex("00 C0 28 02 00 40 30 00 00 01 04 A0 10 00 00 00 00 00 00 04 80")
        self.assertEqual(self.saved(made, state), image)
        self.check_loaded(image, state, made)

    def test_each_field(self):
        """Bits of the image that are 1: each field's most and least significant one, and 8, for N 2, in each."""
        for ones, cells, output, registers in [
            ([], [], b"", {}),
            ([20], [], b"", {"pc": 1}), ([10], [], b"", {"pc": 1024}),
            ([30], [], b"", {"sp": 1}), ([40], [], b"", {"fbr": 1}), ([41], [], b"", {"halt": 1}),
            ([50], [], b"\0", {"written": 1}), ([42], [], bytes(256), {"written": 256}),
            ([51], [(CH, 0), (INT, 0)], b"", {}), ([52], [(MA, 0), (INT, 0)], b"", {}),
            ([53], [(FLOAT, 0), (INT, 0)], b"", {}), ([52, 53], [(PA, 0), (INT, 0)], b"", {}),
            ([54], [(INT, 1 << 31), (INT, 0)], b"", {}), ([85], [(INT, 1), (INT, 0)], b"", {}),
            ([86], [(INT, 0), (CH, 0)], b"", {}), ([88], [(INT, 0), (FLOAT, 0)], b"", {}),
            ([89], [(INT, 0), (INT, 1 << 31)], b"", {}), ([120], [(INT, 0), (INT, 1)], b"", {}),
            ([50, 121], [], b"\x80", {"written": 1}), ([50, 128], [], b"\x01", {"written": 1}),
            ([49, 50, 137], [], b"\0\0\x80", {"written": 3}), ([49, 50, 144], [], b"\0\0\x01", {"written": 3}),
        ]:  # fmt: skip
            made = self.program(1024)
            zeros = {"pc": 0, "sp": 0, "fbr": 0, "halt": 0, "written": 0}
            state = self.state(cells or [(INT, 0)] * 2, output=output, **{**zeros, **registers})
            image = self.saved(made, state)
            bits = "".join(f"{byte:08b}" for byte in image)
            self.assertEqual([at for at, bit in enumerate(bits) if bit == "1"], sorted([8, *ones]), registers)
            self.check_loaded(image, state, made, output=256)

    # N, output count and bytes: 51 bits, 35 for each cell and 8 for each byte, in whole bytes.
    LENGTHS = [
        (1, 0, 11), (1, 1, 12), (1, 2, 13), (2, 0, 16), (2, 1, 17), (3, 0, 20), (4, 0, 24), (4, 2, 26), (5, 0, 29),
        (6, 0, 33), (7, 0, 37), (7, 1, 38), (8, 0, 42), (16, 0, 77), (16, 256, 333), (999, 0, 4377), (999, 256, 4633),
        (1000, 0, 4382), (1000, 255, 4637), (1000, 256, 4638),
    ]  # fmt: skip

    def test_lengths(self):
        """The length told is just what is loaded again: 41 with a byte less, 45 with one more."""
        made = self.program(0)
        for n, count, size in self.LENGTHS:
            cells = [(FLOAT, (i + 1) * 0x01020304 % WORD) for i in range(n)]
            state = self.state(cells, output=bytes(range(256)), pc=0, sp=0, fbr=0, written=count)
            image = self.saved(made, state)
            self.assertEqual(len(image), size, (n, count))
            self.check_loaded(image, state, made, output=256)
            self.check_refused(41, image[:-1], made, self.lent(n, output=256))
            self.check_refused(45, image + b"\0", made, self.lent(n, output=256))

    def test_what_is_not_saved(self):
        """History, H, U, the kept number, the output's rest and the program: images are alike without them."""
        for h, used, kept in [(0, 0, 0), (1, 0, 0), (8, 4, 1), (8, 4, 4), (8, 8, 3), (8192, 8192, 8192)]:
            state = self.state(h=h, used=used, kept=kept, output=b"H\xff\x01")
            for length in (5, 6, 1024):
                self.assertEqual(self.saved(self.program(length), state), self.IMAGE)
        self.assertEqual(self.saved(program("ADD DUP MOD OR JUMP 0"), self.state()), self.IMAGE)

    def test_bytes_are_not_judged(self):
        """Any bytes may be written, of which a CH is less."""
        for byte in range(256):
            state = self.state(output=bytes([byte]))
            image = self.saved(self.program(), state)
            self.assertEqual(image, self.IMAGE[:15] + (byte << 7).to_bytes(2, "big"))
            self.check_loaded(image, state)

    # ---- "Refusals for save: 31, then 10."

    # What is 10 of a step: registers, and what stands in the cells.
    BROKEN_REGISTERS = [
        {"n": 1}, {"n": 3}, {"n": 0}, {"n": 1 << 32 | 2}, {"h": 2}, {"h": 4}, {"h": 8193}, {"pc": 7}, {"pc": BEYOND},
        {"sp": 2}, {"fbr": 2}, {"sp": 1 << 32}, {"halt": 2}, {"halt": BEYOND}, {"used": 4}, {"used": 1, "kept": 0},
        {"used": 1, "kept": 2}, {"kept": 1}, {"written": 2}, {"written": 257}, {"written": 1 << 32},
    ]  # fmt: skip
    BROKEN_CELLS = [
        (0, 5, 0), (1, 5, 0), (1, 7, 0), (1, 8, 0), (0, 255, 0), (0, PA, 7), (1, PA, 7), (1, PA, WORD - 1),
        (0, CH, 128), (1, CH, 128), (1, CH, WORD - 1),
    ]  # fmt: skip

    def broken_states(self):
        """(Program, state)."""
        for registers in self.BROKEN_REGISTERS:
            state = self.state(h=3)
            state.registers = replace(state.registers, **registers)
            yield self.program(), state
        for address, tag, bits in self.BROKEN_CELLS:
            state = self.state(h=3)
            state.set_cell(address, tag, bits)
            yield self.program(), state
        for name in ("bits", "tags", "history"):
            for change in (lambda lent: lent.append(0), lambda lent: lent.pop()):
                state = self.state(h=3)
                change(getattr(state, name))
                yield self.program(), state
        yield self.program(), self.state(output=bytes(257))
        yield self.program(), self.state(output=b"")
        yield from ((made, self.state()) for made in self.broken_programs())

    def broken_programs(self):
        table = self.program().table
        yield sam.Program(table, 1025)
        yield sam.Program(table[:-1], 6)
        yield sam.Program(table + [0], 6)
        yield sam.Program(table[:-1] + [1], 6)
        yield sam.Program([54 << 32] + table[1:], 6)
        yield sam.Program([44 << 32 | 7] + table[1:], 6)  # JUMP 7
        yield self.program(4)  # PC is above

    def test_save_of_broken_states(self):
        for made, state in self.broken_states():
            self.assertEqual(sam.step(made, state), 10)
            self.check_not_saved(made, state, 4638, 10)
            for size in (0, 17, 4637, 4639, 4866):
                self.check_not_saved(made, state, size, 31)

    def test_save_of_sound_states(self):
        """Neither 1 nor 2 nor what else a step meets; no record is looked at."""
        for registers in [{"halt": 0}, {"pc": 6}, {"pc": 0, "sp": 0}, {"used": 3, "kept": 1}, {"written": 0}]:
            state = self.state(h=3, **registers)
            self.assertEqual(len(self.saved(self.program(), state)), 16 if "written" in registers else 17)
            for size in (0, 17, 4637, 4639, 4866):
                self.check_not_saved(self.program(), state, size, 31)

    # ---- what is loaded

    def test_memory_before_is_not_judged(self):
        """Whatever the lent memory and the registers held."""
        for fill, register in product((0, 1, 5, 255), (0, 1, 2, 1 << 32, self.BEYOND)):
            r = sam.Registers(*[register] * 9)
            lent = sam.State([fill] * 2, [fill] * 2, [fill] * 3, bytearray([fill] * 2), r)
            self.assertEqual(sam.load(self.program(), lent, self.IMAGE), 0)
            self.assertEqual((lent.cells(0, 2), lent.history, lent.output), (self.CELLS, [0, 0, 0], b"H\0"))
            self.assertEqual(lent.registers, sam.Registers(2, 3, 5, 1, 1, 1, 0, 0, 1))

    def test_rooms(self):
        """ "H is the lent history's", 0 to 8,192; an output of as many bytes as are written, up to 256."""
        for h, output in product((0, 1, 2, 8191, 8192), (1, 2, 255, 256)):
            self.check_loaded(self.IMAGE, self.state(), h=h, output=output)

    def test_twice(self):
        """Saving and loading again keeps all that is saved."""
        lent = self.check_loaded(self.IMAGE, self.state())
        self.assertEqual(self.saved(self.program(), lent), self.IMAGE)
        self.check_loaded(self.saved(self.program(), lent), lent, h=0, output=1)

    def test_at_the_ends(self):
        """Registers, PAs and CHs at the last that a step takes."""
        for length, cells, registers in [
            (5, self.CELLS, {}),
            (6, self.CELLS, {"pc": 6}),
            (6, [(PA, 6), (PA, 0)], {}),
            (6, [(CH, 127), (CH, 0)], {"sp": 0, "halt": 0}),
            (1024, [(PA, 1024), (MA, WORD - 1)], {"pc": 1024}),
            (0, [(PA, 0), (INT, 1 << 31)], {"pc": 0}),
        ]:
            state = self.state(cells, **registers)
            self.check_loaded(self.saved(self.program(length), state), state, self.program(length))

    # ---- "41 ends early"

    def test_ends_early(self):
        for size in range(17):
            self.check_refused(41, self.IMAGE[:size])
        for n, count, size in [(1, 0, 11), (7, 0, 37), (7, 1, 38), (1, 256, 267), (1023, 0, 4482), (0, 511, 518),
                               (1023, 511, 4993), (0, 0, 7), (0, 1, 8)]:  # fmt: skip
            image = self.image_of(n, count)
            self.assertEqual(len(image), size)
            for cut in {0, 6, 7, size - 1} - {size}:
                self.check_refused(41, image[:cut], lent=self.lent(n, output=256))

    # ---- "67 N not that of the lent cells and tags, or a lent history or output outside its range"

    UNFIT = [
        {"n": 1}, {"n": 3}, {"n": 0}, {"tags": 1}, {"tags": 3}, {"tags": 0}, {"n": 1, "tags": 2}, {"n": 3, "tags": 1},
        {"n": 1000}, {"n": 1001}, {"n": 1026}, {"tags": 1026}, {"n": 1026, "tags": 2}, {"n": 65538}, {"h": 8193},
        {"h": 16384}, {"output": 257}, {"output": 512}, {"h": 8193, "output": 257},
    ]  # fmt: skip

    def test_does_not_fit(self):
        for sizes in self.UNFIT:
            self.check_refused(67, self.IMAGE, lent=self.lent(**sizes))
        for n, lent in [(0, 1), (1, 0), (999, 1000), (1000, 999), (1000, 1001), (1001, 1000), (1023, 1000), (0, 1024)]:
            self.check_refused(67, self.image_of(n, 0), lent=self.lent(lent))

    # ---- "10 for the ranges of step, an output count above the lent output among them"

    def test_out_of_range(self):
        for registers in [{"pc": 7}, {"pc": 2047}, {"sp": 2}, {"sp": 1023}, {"fbr": 2}, {"fbr": 1023}]:
            self.check_refused(10, self.image_of(2, 1, **registers))
        for address, tag, bits in self.BROKEN_CELLS:
            if tag < 8:
                cells = list(self.CELLS)
                cells[address] = tag, bits
                for sp in (0, 1):  # live and not
                    self.check_refused(10, self.image_of(2, 1, cells, sp=sp))
        for made in self.broken_programs():
            self.check_refused(10, self.IMAGE, made)

    def test_n_out_of_range(self):
        """It is that of the lent cells and tags, but no machine's."""
        for n, size in [(0, 7), (1001, 4386), (1023, 4482)]:
            image = self.image_of(n, 0)
            self.assertEqual(len(image), size)
            self.check_refused(10, image, lent=self.lent(n))
        for n in (1, 999, 1000):
            self.assertEqual(sam.load(self.program(), self.lent(n), self.image_of(n, 0)), 0)

    def test_output_count(self):
        """Above the lent output 10, below 257 and above; the output itself above 256 is 67, whatever the count."""
        for count, output, number in [
            (1, 0, 10), (2, 1, 10), (256, 255, 10), (257, 256, 10), (511, 256, 10), (511, 0, 10), (256, 0, 10),
            (0, 0, 0), (0, 256, 0), (1, 1, 0), (255, 256, 0), (256, 256, 0),
            (0, 257, 67), (257, 257, 67), (258, 257, 67), (511, 511, 67),
        ]:  # fmt: skip
            image = self.image_of(2, count)
            if number:
                self.check_refused(number, image, lent=self.lent(output=output))
            else:
                self.assertEqual(sam.load(self.program(), self.lent(output=output), image), 0)

    # ---- "45 padding or left-over bytes"

    def test_padding(self):
        """Behind 1 to 8 cells 2, 7, 4, 1, 6, 3, 0 and 5 bits are left; each alone, and all."""
        for n, bits in enumerate((2, 7, 4, 1, 6, 3, 0, 5), 1):
            image = self.image_of(n, 0)
            for wrong in {*[1 << bit for bit in range(bits)], (1 << bits) - 1} - {0}:
                self.check_refused(45, image[:-1] + bytes([image[-1] | wrong]), lent=self.lent(n))
            self.assertEqual(sam.load(self.program(), self.lent(n), image), 0)

    def test_left_over(self):
        """ "Only the told length is loaded again": all 4,638 bytes of a smaller image are 45."""
        for more in (b"\0", b"\x80", b"\xff", b"\0\0", bytes(4621), bytes(4622), bytes(70000), self.IMAGE):
            self.check_refused(45, self.IMAGE + more)
        image = self.image_of(1000, 256)
        self.check_refused(45, image + b"\0", lent=self.lent(1000, output=256))

    # ---- the order

    def test_order(self):
        """41, 67, 10, 45; what ends early has nothing left over."""
        early = [self.IMAGE[:16], self.IMAGE[:7], self.IMAGE[:6], b"", self.image_of(1023, 511)[:4992]]
        broken = [self.image_of(2, 1, pc=7), self.image_of(2, 1, sp=2), self.image_of(2, 1, [(7, 0), (INT, 0)]),
                  self.image_of(2, 5), self.image_of(2, 257)]  # fmt: skip
        programs = list(self.broken_programs())
        for sizes in self.UNFIT:
            for image, made in product(early, (self.program(), *programs)):
                self.check_refused(41, image, made, self.lent(**sizes))
            for image, made in product([self.IMAGE, *broken], (self.program(), *programs)):
                if image != self.IMAGE or made in programs:
                    self.check_refused(67, image, made, self.lent(**sizes))
                    self.check_refused(67, image + b"\0", made, self.lent(**sizes))
            self.check_refused(67, self.IMAGE[:-1] + b"\1", lent=self.lent(**sizes))
        for image, made in product([self.IMAGE, *broken], (self.program(), *programs)):
            self.check_refused(41, image[:-1], made)
            if image != self.IMAGE or made in programs:
                for over in (image, image + b"\0", image.ljust(4638, b"\0"), image[:-1] + bytes([image[-1] | 1])):
                    self.check_refused(10, over, made)

    def test_order_of_sizes(self):
        """N 1,001 and 1,023 are announced before they are judged; a count of 511 too."""
        for n, count in [(1001, 0), (1023, 0), (1023, 511), (4, 511), (0, 0)]:
            image = self.image_of(n, count)
            for lent, number in [(n, 10), (n + 1, 67), (1000, 67)]:
                self.check_refused(number, image, lent=self.lent(lent, output=256))
                self.check_refused(number, image + b"\0", lent=self.lent(lent, output=256))
                self.check_refused(41, image[:-1], lent=self.lent(lent, output=256))
            self.check_refused(67, image, lent=self.lent(n, output=257))
            self.check_refused(67, image, lent=self.lent(n, h=8193))

    # ---- under which program

    def test_another_program(self):
        """ "takes any sound table": a PA and a PC must lie in it, and nothing else is asked."""
        made, state = started("JSR 3 STOP STOP PUSHIMM 1 STOP", n=4, h=9)
        self.assertEqual(sam.run(made, state, 1), (50, 1))
        self.assertEqual((state.cell(0), state.registers.pc), ((PA, 1), 3))
        image = self.saved(made, state)
        for length, number in [(0, 10), (1, 10), (2, 10), (3, 0), (4, 0), (1024, 0)]:
            if number:
                self.check_refused(number, image, self.program(length), self.lent(4))
            else:
                self.check_loaded(image, state, self.program(length))
        state.set_cell(0, PA, 5)
        image = self.saved(made, state)
        for length in (3, 4):  # the PC lies in it, the PA does not
            self.check_refused(10, image, self.program(length), self.lent(4))
        lent = self.check_loaded(image, state, program("STOP STOP STOP JUMPIND STOP"))
        self.assertEqual((sam.step(program("STOP STOP STOP JUMPIND STOP"), lent), lent.registers.pc), (0, 5))

    # ---- sessions carried on

    SESSIONS = [  # a program, N, bytes of output, and the number of the last step
        ("PUSHIMM 3 a: PUSHIMM 1 SUB DUP JUMPC a STOP", 4, 0, 1),
        ("JSR f STOP f: PUSHIMM 7 SWAP JUMPIND", 3, 1, 1),
        ("PUSHIMM 40 PUSHIMMF #40200000 STOREOFF 0", 4, 0, 2),
        ("PUSHIMM 1 PUSHIMM 2 ADD ADD", 4, 0, 3),
        ("LINK PUSHIMM 5 POPFBR", 4, 0, 4),
        ("PUSHIMM 1 PUSHIMM 0 DIV", 4, 0, 5),
        ("PUSHIMM 1 PUSHSP PUSHIND", 4, 0, 6),
        ("a: PUSHIMM 1 JUMP a", 5, 0, 7),
        ("a: PUSHIMMCH 65 WRITECH JUMP a", 3, 3, 12),
    ]

    def visible(self, state):
        return contents(state)[:2], bytes(state.output), replace(state.registers, h=0, used=0, kept=0)

    def check_goes_on(self, made, original, spare, last):
        """ "same answers, cells, tags, output, PC, SP, FBR, HALT, until one is 8": whether they came to the last."""
        for _ in range(30):
            number, other = sam.step(made, original), sam.step(made, spare)
            if 8 in (number, other):
                return False
            self.assertEqual((number, self.visible(original)), (other, self.visible(spare)))
            if number:
                self.assertEqual(number, last)
                return True
        return self.fail("no end")

    def test_goes_on(self):
        """Whatever the histories, after each number of steps; both without one come to the end."""
        for text, n, output, last in self.SESSIONS:
            for steps, rooms in product(range(5), product((0, 1, 4, 64), repeat=2)):
                made, original = started(text, n, rooms[0], output)
                sam.run(made, original, steps)
                spare = self.check_loaded(self.saved(made, original), original, made, rooms[1], output)
                came = self.check_goes_on(made, original, spare, last)
                self.assertTrue(came or not {rooms[0], rooms[1]} <= {0, 64}, (text, steps, rooms))

    def test_complaint(self):
        """A trial over 40 tenths is saved and carried on: there it is taken back, and 40 tenths are read again. What
        was done before the load is not taken back."""
        made, state = started("PUSHIMM 40 PUSHIMMF #40200000 STOREOFF 0 STOP", n=3, h=9)
        self.assertEqual(sam.run(made, state, 1), (50, 1))
        spare = self.check_loaded(self.saved(made, state), state, made, h=5, output=0)
        before = contents(spare)
        self.assertEqual((sam.step_back(made, spare), sam.forget(made, spare, 1)), (9, 14))
        self.assertEqual((contents(spare), spare.registers.kept), (before, 0))
        self.assertEqual((sam.step(made, spare), sam.step(made, spare)), (0, 0))
        self.assertEqual((spare.cell(0), spare.registers.kept, sam.step(made, spare)), ((FLOAT, 0x40200000), 2, 0))
        self.assertEqual(sam.dwell(made, spare), (0, 25))
        self.assertEqual(sam.step(made, spare), 1)
        self.assertEqual([sam.step_back(made, spare) for _ in range(4)], [0, 0, 0, 9])
        self.assertEqual(contents(spare), before)
        self.assertEqual(spare.cell(0), (INT, 40))
        halted = program("PUSHIMM 40 STOP")
        self.assertEqual((sam.step(halted, spare), sam.dwell(halted, spare)), (0, (0, 40)))
        carried = self.check_loaded(self.saved(halted, spare), spare, halted, h=0, output=0)
        self.assertEqual((sam.dwell(halted, carried), sam.step(halted, carried)), ((0, 40), 1))

    # ---- demand 3, from a load

    def fresh_run(self, made, image, state, steps):
        """After "a fresh load in place of a fresh reset" and so many steps, with room for all their records; and U
        after each number of steps."""
        n, size = state.registers.n, len(state.output)
        fresh = self.lent(n, n, 0, size)
        self.assertEqual(sam.load(made, fresh, image), 0)
        fresh.history, fresh.registers.h = [0] * (steps * (n + 1)), steps * (n + 1)
        used = [0]
        for _ in range(steps):
            self.assertEqual(plain_step(made, fresh), 0)
            used.append(fresh.registers.used)
        return fresh, used

    def check_demand(self, made, image, state, counts):
        """All but the history is that run's; the first U places are "exactly the newest S minus B minus F records"."""
        (net_steps, forgotten), h = counts, len(state.history)
        fresh, used = self.fresh_run(made, image, state, net_steps)
        self.assertEqual(self.visible(state), self.visible(fresh))
        newest = fresh.history[used[forgotten] : used[net_steps]] if h else []
        kept = net_steps - forgotten if h else 0
        self.assertEqual((state.registers.h, state.registers.used, state.registers.kept), (h, len(newest), kept))
        self.assertEqual(state.history, newest + [0] * (h - len(newest)))

    def any_call(self, chooser, made, state, counts):
        """S minus B and F after a call, counted from the load. 9 exactly when they are equal, or H = 0."""
        (net_steps, forgotten), kept = counts, state.registers.kept
        kind = chooser.randrange(7)
        if kind < 2:
            return net_steps + (sam.step(made, state) == 0), forgotten
        if kind < 4:
            number = sam.step_back(made, state)
            self.assertEqual(number, 9 if net_steps == forgotten or not state.history else 0)
            return net_steps - (number == 0), forgotten
        if kind < 6:
            return net_steps + sam.run(made, state, chooser.randrange(12))[1], forgotten
        k = chooser.choice([0, 1, kept, kept + 1, chooser.randrange(kept + 1)])
        number = sam.forget(made, state, k)
        self.assertEqual(number, 14 if k > kept else 0)
        return net_steps, forgotten + (k if number == 0 else 0)

    def test_demand(self):
        """Sessions after any steps, saved, loaded into any room, and series there; saved and loaded again between."""
        chooser = random.Random(11)
        for h in [0, 1, 2, 5, 12, 40, 200] * 8:
            made, n, output = drawn_program(chooser), chooser.choice([1, 2, 5, 16, 40]), chooser.choice([0, 1, 4, 256])
            state = self.lent(n, n, 30, output)
            self.assertEqual(sam.reset(made, state), 0)
            sam.run(made, state, chooser.randrange(12))
            for _ in range(2):
                image = self.saved(made, state)
                state, counts = self.check_loaded(image, state, made, h, output), (0, 0)
                for _ in range(8):
                    counts = self.any_call(chooser, made, state, counts)
                    self.check_demand(made, image, state, counts)


class Why(unittest.TestCase):
    """Request l: why does this cell hold that? An answer is (number, found, steps back, PC, the table's place, old tag,
    old bits)."""

    NONE = (0, 0, 0, 0, 0, 0, 0)  # "no kept step wrote the cell"
    BROKEN = (10, 0, 0, 0, 0, 0, 0)  # "a refusal tells zeros"
    NO_CELL = (6, 0, 0, 0, 0, 0, 0)
    # Not below N = 4, also with the number of a cell in the lowest bits.
    BEYOND = [
        4, 5, 256, 259, 1000, 1023, 1024, 1027, 1 << 16, (1 << 16) + 3, 1 << 32, (1 << 32) + 1, (1 << 32) + 3, 1 << 63,
        (1 << 63) + 2, DOUBLE_WORD - 1,
    ]  # fmt: skip

    def ask(self, made, state, cell):
        """ "the call changes nothing" """
        before, table = contents(state), list(made.table)
        answer = sam.why(made, state, cell)
        self.assertEqual((contents(state), made.table), (before, table))
        return answer

    def check_told(self, made, state, told):
        """What is told of each of these cells; of all others that no kept step wrote them."""
        for cell in range(state.registers.n):
            answer = (0, 1, *told[cell]) if cell in told else self.NONE
            self.assertEqual(self.ask(made, state, cell), answer, cell)

    def check_broken(self, made, state):
        """10 whatever the cell is: "10 as in i), then 6"."""
        for cell in (0, 1, 3, *self.BEYOND):
            self.assertEqual(self.ask(made, state, cell), self.BROKEN, (cell, contents(state)))

    # ---- which step it was

    # Places of the table, and of seven steps (Forget.PROGRAM) what is told of cells 0 to 2 after so many of them.
    PUSHIMM_1, DUP, SWAP, ADD, ADDSP_2 = 1 << 32 | 1, 3 << 32, 4 << 32, 5 << 32, 39 << 32 | 2
    SEVEN = [
        {},
        {0: (1, 0, PUSHIMM_1, INT, 0)},
        {0: (2, 0, PUSHIMM_1, INT, 0), 1: (1, 1, DUP, INT, 0)},
        {0: (1, 2, SWAP, INT, 1), 1: (1, 2, SWAP, INT, 1)},  # of two equal values
        {0: (1, 3, ADD, INT, 1), 1: (2, 2, SWAP, INT, 1)},
        {0: (2, 3, ADD, INT, 1), 1: (3, 2, SWAP, INT, 1)},  # a JUMP writes no cell
        {0: (3, 3, ADD, INT, 1), 1: (1, 5, ADDSP_2, INT, 1), 2: (1, 5, ADDSP_2, INT, 0)},
        {0: (4, 3, ADD, INT, 1), 1: (2, 5, ADDSP_2, INT, 1), 2: (2, 5, ADDSP_2, INT, 0)},  # nor does a STOP
    ]

    def test_steps_and_back(self):
        """After each step, and again after each step-back."""
        made, state = started(Forget.PROGRAM, h=14)
        for told in self.SEVEN:
            self.check_told(made, state, told)
            sam.step(made, state)
        for told in self.SEVEN[-2::-1]:
            self.assertEqual(sam.step_back(made, state), 0)
            self.check_told(made, state, told)

    def test_forgotten(self):
        """ "the newest kept step": the ADD is the fourth, the ADDSP the sixth of seven."""
        for forgotten in range(8):
            made, state = started(Forget.PROGRAM, h=14)
            self.assertEqual((sam.run(made, state, 9), sam.forget(made, state, forgotten)), ((0, 7), 0))
            kept = [cell for cell, place in [(0, 4), (1, 6), (2, 6)] if place > forgotten]
            self.check_told(made, state, {cell: self.SEVEN[7][cell] for cell in kept})

    def test_complaint(self):
        """P12: the trial's step, with the 40 tenths before it; after the step-back the PUSHIMM of these."""
        made, state = started("PUSHIMM 40 PUSHIMMF #40200000 STOREOFF 0", h=6)
        pushed, seconds, stored = 1 << 32 | 40, 2 << 32 | 0x40200000, 43 << 32
        self.assertEqual(sam.run(made, state, 3), (50, 3))
        self.check_told(made, state, {0: (1, 2, stored, INT, 40), 1: (2, 1, seconds, INT, 0)})
        self.assertEqual(sam.step_back(made, state), 0)
        self.check_told(made, state, {0: (2, 0, pushed, INT, 0), 1: (1, 1, seconds, INT, 0)})
        self.assertEqual((sam.step(made, state), sam.forget(made, state, 2)), (0, 0))
        self.check_told(made, state, {0: (1, 2, stored, INT, 40)})
        self.assertEqual(sam.step_back(made, state), 0)
        self.check_told(made, state, {})

    def test_again_and_again(self):
        """Of many that wrote the cell the newest: a loop that counts down from 3 in cell 0."""
        made, state = started("PUSHIMM 3 a: PUSHIMM 1 SUB DUP JUMPC a STOP", n=4, h=64)
        self.assertEqual(sam.run(made, state, 99), (0, 14))
        sub, dup = (3, 2, 6 << 32, INT, 1), (2, 3, 3 << 32, INT, 1)  # 0 over 1; the copy of 0 over the 1 that was taken
        self.check_told(made, state, {0: (sub[0] + 1, *sub[1:]), 1: (dup[0] + 1, *dup[1:])})
        for _ in range(5):  # STOP, JUMPC, DUP, SUB, PUSHIMM
            self.assertEqual(sam.step_back(made, state), 0)
        self.check_told(made, state, {0: (3, 2, 6 << 32, INT, 2), 1: (2, 3, 3 << 32, INT, 1)})

    def test_fills(self):
        """Each cell that a step filled, the first, the last and those between."""
        made, state = started("PUSHIMM 7 PUSHIMM 8 ADDSP -1 ADDSP 3", n=8, h=16)
        self.assertEqual(sam.run(made, state, 4), (50, 4))
        fill = 39 << 32 | 3
        told = {0: (4, 0, 1 << 32 | 7, INT, 0), 1: (1, 3, fill, INT, 8)}
        self.check_told(made, state, {**told, 2: (1, 3, fill, INT, 0), 3: (1, 3, fill, INT, 0)})
        # POPSP to 4 takes its MA off first: it writes cell 1, where that stood, 2 and 3.
        made, state = started("PUSHIMM 7 PUSHSP PUSHIMM 3 ADD POPSP", n=8, h=16)
        self.assertEqual(sam.run(made, state, 5), (50, 5))
        self.assertEqual((state.registers.sp, live(state)), (4, [(INT, 7), (INT, 0), (INT, 0), (INT, 0)]))
        fill = 35 << 32
        told = {0: (5, 0, 1 << 32 | 7, INT, 0), 1: (1, 4, fill, MA, 4)}
        self.check_told(made, state, {**told, 2: (1, 4, fill, INT, 3), 3: (1, 4, fill, INT, 0)})

    def test_swap(self):
        """Both cells, each with what it held."""
        made, state = started("PUSHIMM 7 PUSHIMMCH 65 SWAP", n=4, h=16)
        self.assertEqual(sam.run(made, state, 3), (50, 3))
        self.check_told(made, state, {0: (1, 2, 4 << 32, INT, 7), 1: (1, 2, 4 << 32, CH, 65)})

    def test_stores(self):
        """The cell stored to, and not the one that is taken off."""
        made, state = started("PUSHIMMPA 1 LINK PUSHFBR PUSHIMMF 2.5 STOREIND PUSHIMMCH 9 STOREOFF -1", n=8, h=32)
        self.assertEqual(sam.run(made, state, 5), (50, 5))
        told = {0: (5, 0, 49 << 32 | 1, INT, 0), 2: (3, 2, 36 << 32, INT, 0), 3: (2, 3, 2 << 32 | 0x40200000, INT, 0)}
        self.check_told(made, state, {**told, 1: (1, 4, 41 << 32, MA, 0)})
        self.assertEqual(sam.run(made, state, 2), (50, 2))
        self.check_told(made, state, {
            0: (1, 6, 43 << 32 | WORD - 1, PA, 1), 1: (3, 4, 41 << 32, MA, 0), 2: (2, 5, 52 << 32 | 9, MA, 1),
            3: (4, 3, 2 << 32 | 0x40200000, INT, 0),
        })  # fmt: skip

    def test_what_it_held(self):
        """ "An unchanged cell that is written counts." """
        made, state = started("PUSHIMM 7 DUP STOREOFF 0 ADDSP 1 ADDSP -1 ADDSP 1", n=4, h=16)
        self.assertEqual(sam.run(made, state, 3), (50, 3))
        self.check_told(made, state, {0: (1, 2, 43 << 32, INT, 7), 1: (2, 1, 3 << 32, INT, 0)})
        self.assertEqual(sam.run(made, state, 3), (50, 3))
        self.check_told(made, state, {0: (4, 2, 43 << 32, INT, 7), 1: (1, 5, 39 << 32 | 1, INT, 0)})

    def test_from_sp_on(self):
        """ "Popped cells otherwise keep their contents", and may be asked: at SP and above."""
        made, state = started("PUSHIMM 7 PUSHIMM 8 ADDSP -2", n=4, h=8)
        self.assertEqual((sam.run(made, state, 3), state.registers.sp), ((50, 3), 0))
        self.check_told(made, state, {0: (3, 0, 1 << 32 | 7, INT, 0), 1: (2, 1, 1 << 32 | 8, INT, 0)})

    def test_no_history(self):
        """No step is kept."""
        made, state = started(Forget.PROGRAM, n=4)
        for _ in range(8):
            self.check_told(made, state, {})
            self.assertEqual([self.ask(made, state, cell) for cell in self.BEYOND], [self.NO_CELL] * len(self.BEYOND))
            sam.step(made, state)
        state.registers.kept = 1  # above U
        self.check_broken(made, state)

    def test_new_origin(self):
        """No step before a reset or a load is kept."""
        made, state = started(Forget.PROGRAM, n=4, h=14)
        sam.run(made, state, 9)
        image = bytearray(4638)
        _, length = sam.save(made, state, image)
        self.check_told(made, state, self.SEVEN[7])
        self.assertEqual(sam.load(made, state, image[:length]), 0)
        self.check_told(made, state, {})
        sam.reset(made, state)
        self.check_told(made, state, {})
        self.assertEqual((sam.run(made, state, 2), sam.load(made, state, b"")), ((50, 2), 41))
        self.check_broken(made, state)  # the registers are zero

    # ---- records made by hand

    HANDED_PLACES = [44 << 32 | 1, 53 << 32, 1 << 32 | 2, 0]

    def told_of(self, steps_back, pc, tag, bits):
        return steps_back, pc, self.HANDED_PLACES[pc], tag, bits

    def test_records_made_by_hand(self):
        """A record need not fit its instruction: here a STOP and a JUMP wrote cells."""
        told = self.told_of
        for records, expected in [
            ([], {}),
            (WELL_FORMED[:1], {}),
            (WELL_FORMED[:2], {0: told(1, 3, FLOAT, 7), 2: told(1, 3, CH, 127)}),
            (WELL_FORMED[:3], {0: told(2, 3, FLOAT, 7), 2: told(2, 3, CH, 127), 3: told(1, 2, PA, 4)}),
            (WELL_FORMED, {0: told(1, 0, INT, 0), 1: told(1, 0, MA, WORD - 1), 2: told(1, 0, CH, 0),
                           3: told(1, 0, INT, 0)}),
            (WELL_FORMED[::-1], {0: told(2, 3, FLOAT, 7), 1: told(4, 0, MA, WORD - 1), 2: told(2, 3, CH, 127),
                                 3: told(3, 2, PA, 4)}),
        ]:  # fmt: skip
            self.check_told(*recorded(records), expected)

    def test_each_bit(self):
        """Of the tag, of the bits and of the PC."""
        for tag, bits in [*[(INT, 1 << bit) for bit in range(32)], (FLOAT, WORD - 1), (MA, 1 << 31), (PA, 4), (CH, 0)]:
            records = [[cell_place(2, tag, bits), step_place(2)]]
            self.check_told(*recorded(records), {2: self.told_of(1, 2, tag, bits)})
        made = sam.Program([make_place(1, place) for place in range(1024)], 1024)
        for pc in [0, 1023, *[1 << bit for bit in range(10)]]:
            _, state = recorded([[cell_place(2, MA, 9), step_place(pc)]])
            self.check_told(made, state, {2: (1, pc, 1 << 32 | pc, MA, 9)})

    def test_any_machine_that_is_sound(self):
        """Neither HALT nor PC nor SP nor the instruction there is looked at, nor whether anything is written."""
        told = {0: self.told_of(2, 3, FLOAT, 7), 2: self.told_of(2, 3, CH, 127), 3: self.told_of(1, 2, PA, 4)}
        for registers in [{"halt": 1}, {"pc": 4}, {"sp": 0, "pc": 1}, {"sp": 3, "fbr": 3}, {"written": 0},
                          {"written": 3}]:  # fmt: skip
            self.check_told(*recorded(WELL_FORMED[:3], **registers), told)

    def test_nothing_written(self):
        """A WRITECH's record with nothing written is a step-back's question alone."""
        writing = [step_place(1, 2, 0, 0)]
        for records, steps_back in [([WELL_FORMED[1], writing], 2), ([writing, WELL_FORMED[1]], 1)]:
            made, state = recorded(records, written=0)
            told = [self.told_of(steps_back, 3, *cell) for cell in [(FLOAT, 7), (CH, 127)]]
            self.check_told(made, state, {0: told[0], 2: told[1]})

    def test_program_handed(self):
        """ "the instruction" is that of the program that is handed, and so are the records judged."""
        for text, place in [("STOP STOP DUP STOP", 3 << 32), ("STOP STOP PUSHIMM -1 STOP STOP", 2 * WORD - 1)]:
            made, state = recorded(WELL_FORMED[2:3], text, pc=0)
            self.check_told(made, state, {3: (1, 2, place, PA, 4)})
        made, state = recorded(WELL_FORMED[2:3], "STOP STOP STOP", pc=0)  # PA 4 is above its length
        state.set_cell(3, INT, 0)
        self.check_broken(made, state)

    def test_full_history(self):
        """8,192 places: the PUSHIMM has two of them, and 8,190 JUMPs have one each."""
        made, state = started("PUSHIMM 40 a: JUMP a", n=4, h=8192)
        self.assertEqual(sam.run(made, state, 9999), (8, 8191))
        self.check_told(made, state, {0: (8191, 0, 1 << 32 | 40, INT, 0)})
        for at in (0, 1, 2, 4000, 8191):
            kept, state.history[at] = state.history[at], state.history[at] | 1
            self.check_broken(made, state)
            state.history[at] = kept
        state.registers.kept = 8190
        self.check_broken(made, state)
        state.registers.kept = 8191
        self.assertEqual(sam.forget(made, state, 1), 0)
        self.check_told(made, state, {})
        made, state = started("ADDSP 999", n=1000, h=1000)
        self.assertEqual(sam.step(made, state), 0)
        self.check_told(made, state, dict.fromkeys(range(999), (1, 0, 39 << 32 | 999, INT, 0)))
        for cell in (1000, 1001, 1023, 1024, 1999, (1 << 16) + 5, DOUBLE_WORD - 1):
            self.assertEqual(self.ask(made, state, cell), self.NO_CELL)

    # ---- refusals

    def test_no_cell(self):
        """ "6 for a cell not below N", whoever wrote the others."""
        for count, cell in product(range(5), self.BEYOND):
            self.assertEqual(self.ask(*recorded(WELL_FORMED[:count]), cell), self.NO_CELL)

    def test_ill_formed(self):
        """At every depth, also below the step that would be named."""
        good = WELL_FORMED
        for bad in ILL_FORMED:
            for records in ([bad], [bad, *good], [*good[:2], bad, *good[2:]], [*good, bad], [bad, bad]):
                self.check_broken(*recorded(records))

    def test_kept_number(self):
        for records in (WELL_FORMED, WELL_FORMED[1:2], [WELL_FORMED[0]] * 5):
            for kept in [*range(len(joined(records)) + 3), (1 << 32) + len(records), DOUBLE_WORD - 1]:
                if kept != len(records):
                    self.check_broken(*recorded(records, kept=kept))

    def test_broken_states(self):
        """What is 10 of a step is 10 of a why."""
        for registers in [{"n": 3}, {"n": 5}, {"h": 12}, {"h": 14}, {"sp": 4}, {"fbr": 4}, {"pc": 5}, {"halt": 2},
                          {"used": 14}, {"used": 0}, {"written": 4}, {"n": 0}, {"used": DOUBLE_WORD - 1}]:  # fmt: skip
            self.check_broken(*recorded(WELL_FORMED, **registers))
        for address, tag, bits in [(0, 5, 0), (3, 255, 0), (1, CH, 128), (3, PA, 5)]:
            made, state = recorded(WELL_FORMED)
            state.set_cell(address, tag, bits)
            self.check_broken(made, state)
        for name, change in product(("bits", "tags", "history"), ("append", "pop")):
            made, state = recorded(WELL_FORMED)
            lent = getattr(state, name)
            lent.append(0) if change == "append" else lent.pop()
            self.check_broken(made, state)
        made, state = recorded(WELL_FORMED)
        for table, length in [(made.table, 1025), (made.table[:-1], 4), (made.table + [0], 4), (made.table, 3),
                              ([54 << 32] + made.table[1:], 4), (made.table[:-1] + [1], 4)]:  # fmt: skip
            self.check_broken(sam.Program(table, length), state)
        state.output[:] = bytes(257)
        self.check_broken(made, state)

    def test_as_a_forget(self):
        """ "10 as in i)": of records with any bit another it is 10 exactly where a forget of none is."""
        numbers = Counter()
        for record, (place, bit) in product(WELL_FORMED, product(range(5), range(64))):
            if place < len(record):
                odd = [*record[:place], record[place] ^ 1 << bit, *record[place + 1 :]]
                made, state = recorded([WELL_FORMED[1], odd, WELL_FORMED[2]])
                number = sam.forget(made, state, 0)
                asked = [self.ask(made, state, cell)[0] for cell in (0, 3, 4)]
                self.assertEqual(asked, [10] * 3 if number else [0, 0, 6], contents(state))
                numbers[number] += 1
        self.assertEqual(set(numbers), {0, 10})

    # ---- demand 3: held to a log of what each step did

    def cells_written(self, made, before, after):
        """Which cells a step wrote, by document 01's "Cells written" alone."""
        old, new_sp = before.registers, after.registers.sp
        place = made.table[old.pc]
        name, operand = NAMES[place >> 32], place % WORD
        if name in ("STOP", "JUMP", "JUMPC", "JUMPIND", "POPFBR", "WRITECH"):
            return []
        if name == "SWAP":
            return [old.sp - 2, old.sp - 1]
        if name == "STOREOFF":
            return [(old.fbr + operand) % WORD]
        if name == "STOREIND":
            return [before.bits[old.sp - 2]]
        if name in ("ADDSP", "POPSP"):
            return range(old.sp - (name == "POPSP"), new_sp)
        return [new_sp - 1]

    def copied(self, state):
        bits, tags, history, output, registers = contents(state)
        return sam.State(bits, tags, history, bytearray(output), registers)

    def logged_steps(self, made, state, count):
        """What so many steps of this state do: PC, the table's place, and what each cell that is written held."""
        log, state = [], self.copied(state)
        for _ in range(count):
            before = self.copied(state)
            self.assertEqual(plain_step(made, state), 0)
            held = {cell: before.cell(cell) for cell in self.cells_written(made, before, state)}
            log.append((before.registers.pc, made.table[before.registers.pc], held))
        return log

    def any_call(self, chooser, made, state, log):
        """A call, and the log of the steps that are kept after it."""
        kind, kept, before = chooser.randrange(10), state.registers.kept, self.copied(state)
        if kind < 3:
            return log + self.logged_steps(made, before, 1 if sam.step(made, state) == 0 else 0)
        if kind < 5:
            return log[:-1] if sam.step_back(made, state) == 0 else log
        if kind < 8:
            _, steps = sam.run(made, state, chooser.randrange(16))
            return log + self.logged_steps(made, before, steps)
        k = chooser.choice([0, 1, 1, 2, kept, kept + 1, chooser.randrange(kept + 1), (1 << 32) + kept])
        return log[k:] if sam.forget(made, state, k) == 0 else log

    def told_by_log(self, log, cell):
        for steps_back, (pc, place, held) in enumerate(reversed(log), start=1):
            if cell in held:
                return 0, 1, steps_back, pc, place, *held[cell]
        return self.NONE

    FILLING = "a: ADDSP 4 SWAP PUSHSP PUSHIMM 3 ADD POPSP ADDSP -7 JUMP a"

    def test_demand(self):
        """ "the named step did write that cell and no later kept one did", after each call of a series."""
        chooser, seen = random.Random(12), Counter()
        for h in [0, 1, 2, 5, 12, 40, 200] * 12:
            made, n = chooser.choice([drawn_program(chooser), program(self.FILLING)]), chooser.choice([1, 2, 5, 16, 40])
            state = sam.State([9] * n, [9] * n, [9] * h, bytearray([9] * chooser.choice([0, 1, 4, 256])))
            self.assertEqual(sam.reset(made, state), 0)
            log = []
            for _ in range(16):
                log = self.any_call(chooser, made, state, log)
                log = log if h > 0 else []
                for cell in range(n):
                    answer = self.ask(made, state, cell)
                    self.assertEqual(answer, self.told_by_log(log, cell))
                    seen[min(answer[2], 9), state.cell(cell) == answer[5:]] += 1
                self.assertEqual(self.ask(made, state, n), self.NO_CELL)
        for kind in [*product(range(1, 4), (False, True)), *[(steps_back, False) for steps_back in range(4, 10)]]:
            self.assertIn(kind, seen)

    def test_back_to_the_named(self):
        """Taken back: until the named step the cell stays, and with it the cell is as was told."""
        chooser = random.Random(13)
        for _ in range(60):
            made, (n, h) = drawn_program(chooser), chooser.choice([(5, 30), (16, 100), (40, 200)])
            state = sam.State([9] * n, [9] * n, [9] * h, bytearray(4))
            sam.reset(made, state)
            sam.run(made, state, chooser.randrange(80))
            for cell in range(n):
                _, is_found, steps_back, pc, _, *old = self.ask(made, state, cell)
                walked, now = self.copied(state), state.cell(cell)
                for _ in range(steps_back - 1 if is_found else state.registers.kept):
                    self.assertEqual((sam.step_back(made, walked), walked.cell(cell)), (0, now))
                if is_found:
                    self.assertEqual((sam.step_back(made, walked), walked.cell(cell)), (0, tuple(old)))
                    self.assertEqual(walked.registers.pc, pc)


class Formula(unittest.TestCase):
    """Request m: dwell formulas as ordinary arithmetic. An answer is (number, length, depth)."""

    def translate(self, text):
        """The answer and the table, which held other things before."""
        table = [7] * PLACES
        return sam.translate(text if isinstance(text, bytes) else text.encode("latin-1"), table), table

    def check_refused(self, text, number):
        """ "a refusal tells zeros and zeroes a table of right length" """
        answer, table = self.translate(text)
        self.assertEqual(answer, (number, 0, 0), text[:200])
        self.assertFalse(any(table))

    def check_code(self, text, source):
        """Just as if this source had been assembled, all 1,024 places."""
        (_, length, *_), expected = assembled(source)
        answer, table = self.translate(text)
        self.assertEqual(answer[:2], (0, length), text)
        self.assertTrue(table == expected, text)

    # ---- its code

    def test_code(self):
        for text, source in [
            ("2 + 3 * (a - 1)", "PUSHIMM 2 PUSHIMM 3 PUSHOFF 0 PUSHIMM 1 SUB TIMES ADD STOP"),
            ("7", "PUSHIMM 7 STOP"),
            ("0", "PUSHIMM 0 STOP"),
            ("2147483647", "PUSHIMM 2147483647 STOP"),
            ("a-b-c", "PUSHOFF 0 PUSHOFF 1 SUB PUSHOFF 2 SUB STOP"),
            ("a-(b-c)", "PUSHOFF 0 PUSHOFF 1 PUSHOFF 2 SUB SUB STOP"),
            ("d/e/f", "PUSHOFF 3 PUSHOFF 4 DIV PUSHOFF 5 DIV STOP"),
            ("d*e/f", "PUSHOFF 3 PUSHOFF 4 TIMES PUSHOFF 5 DIV STOP"),
            ("d/e*f", "PUSHOFF 3 PUSHOFF 4 DIV PUSHOFF 5 TIMES STOP"),
            ("a+b*c", "PUSHOFF 0 PUSHOFF 1 PUSHOFF 2 TIMES ADD STOP"),
            ("a*b+c", "PUSHOFF 0 PUSHOFF 1 TIMES PUSHOFF 2 ADD STOP"),
            ("a-b/c+d", "PUSHOFF 0 PUSHOFF 1 PUSHOFF 2 DIV SUB PUSHOFF 3 ADD STOP"),
            ("(a+b)*c", "PUSHOFF 0 PUSHOFF 1 ADD PUSHOFF 2 TIMES STOP"),
            ("g-h", "PUSHOFF 6 PUSHOFF 7 SUB STOP"),
            ("-a", "PUSHOFF 0 PUSHIMM -1 TIMES STOP"),
            ("-5", "PUSHIMM 5 PUSHIMM -1 TIMES STOP"),
            ("--a", "PUSHOFF 0 PUSHIMM -1 TIMES PUSHIMM -1 TIMES STOP"),
            ("-a*b", "PUSHOFF 0 PUSHIMM -1 TIMES PUSHOFF 1 TIMES STOP"),
            ("-(a*b)", "PUSHOFF 0 PUSHOFF 1 TIMES PUSHIMM -1 TIMES STOP"),
            ("-a+b", "PUSHOFF 0 PUSHIMM -1 TIMES PUSHOFF 1 ADD STOP"),
            ("2*-3", "PUSHIMM 2 PUSHIMM 3 PUSHIMM -1 TIMES TIMES STOP"),
            ("a--b", "PUSHOFF 0 PUSHOFF 1 PUSHIMM -1 TIMES SUB STOP"),
            ("a/-b*c", "PUSHOFF 0 PUSHOFF 1 PUSHIMM -1 TIMES DIV PUSHOFF 2 TIMES STOP"),
            ("((a))", "PUSHOFF 0 STOP"),
        ]:
            self.check_code(text, source)

    def test_answers(self):
        """Length and depth by hand."""
        for text, told in [*formulas.ACCEPTED.items(), *formulas.LONG_ACCEPTED.items()]:
            self.assertEqual(self.translate(text)[0], (0, *told), formulas.label(text))

    def test_same_number_other_table(self):
        """Number, length and depth do not tell these apart."""
        of_sign, of_product = self.translate("-a*b"), self.translate("-(a*b)")
        self.assertEqual((of_sign[0], of_product[0]), ((0, 6, 2), (0, 6, 2)))
        self.assertNotEqual(of_sign[1], of_product[1])
        for values in ([3, 4], [-2147483648, -1], [65536, 65536], [0, 5]):
            both = [sam.evaluate(text, formulas.filled(values)) for text in (b"-a*b", b"-(a*b)")]
            self.assertEqual(both[0], both[1])

    def test_numbers(self):
        """ "integers 0 to 2147483647", whatever zeros lead them."""
        numbers = (0, 1, 9, 10, 40, 65536, 999999999, 1000000000, 2147483646, 2147483647)
        too_large = (2147483648, 4294967295, 4294967296, 10**10, 1 << 64, (1 << 64) + 7)
        for value, zeros in product(numbers, (0, 1, 10, 40)):
            self.check_code("0" * zeros + str(value), f"PUSHIMM {value} STOP")
        for value, zeros in product(too_large, (0, 1, 10, 40)):
            self.check_refused("0" * zeros + str(value), 72)

    def test_spaces(self):
        """ "spaces are allowed" around tokens, and change nothing; within a number they end it."""
        chooser = random.Random(3)
        for _ in range(300):
            tokens = formulas.tokens_of(chooser, formulas.any_tree(chooser, 4), 1, 0.2)
            close = self.translate("".join(tokens))
            self.assertEqual(close[0][0], 0)
            for _ in range(3):
                self.assertTrue(self.translate(formulas.spaced(chooser, tokens)) == close, tokens)
        for other in "\t\n\r\v\f\0\xa0":
            for text in (f"a{other}+b", f"{other}a", f"a{other}", f"1{other}2"):
                self.check_refused(text, 70)
        self.check_refused("1 2", 71)
        self.check_refused("- 2147483 647", 71)

    # ---- refusals

    def test_single_bytes(self):
        """Each byte alone: a formula, the beginning of one or nothing that can begin one, or forbidden."""
        numbers = Counter()
        for byte in range(256):
            answer, _ = self.translate(bytes([byte]))
            numbers[answer[0]] += 1
            letter = chr(byte)
            expected = 0 if letter in "0123456789abcdefgh" else 71 if letter in " +-*/()" else 70
            self.assertEqual(answer[0], expected, byte)
        self.assertEqual(numbers, {0: 18, 71: 7, 70: 231})

    def test_forbidden_everywhere(self):
        """Wherever it stands, also as the last byte, in brackets and behind 1,024 instructions."""
        for byte in formulas.FORBIDDEN_BYTES:
            for before, behind in formulas.AROUND:
                self.check_refused(before + chr(byte) + behind, 70)
        for before in ("(" * 16, "-" * 16, formulas.FULL, formulas.NEARLY):
            self.check_refused(before + "$", 70)

    def test_refused_at_a_token(self):
        """Whatever stands behind it."""
        for text, number in formulas.refused_texts():
            self.check_refused(text, number)

    def test_refused_at_the_end(self):
        for text in formulas.UNENDED:
            self.check_refused(text, 71)
        for text in ("(", "-", "a+", "(a", "a*-", "(" * 16):
            self.check_refused(text + "$", 70)
            self.check_refused(text + " \n", 70)

    def test_prefixes(self):
        """Every prefix of a formula is one, or ends where none can."""
        chooser, numbers = random.Random(4), Counter()
        for _ in range(60):
            text = formulas.text_of(chooser, formulas.any_tree(chooser, 4), 0.2)
            for size in range(len(text) + 1):
                answer, table = self.translate(text[:size])
                numbers[answer[0]] += 1
                self.assertEqual(any(table), answer[0] == 0)
        self.assertEqual(set(numbers), {0, 71})

    def test_meeting(self):
        """ "then in this order" """
        for met, texts in formulas.MEETING.items():
            self.assertEqual(list(met), sorted(met, key=[70, 71, 72, 73, 28].index))
            for text in texts:
                self.check_refused(text, met[0])

    def test_meeting_apart(self):
        """What meets there is refused alone: the same token after something else."""
        for text, number in [
            ("$", 70), ("a b", 71), ("2147483648", 72), ("a 2147483647", 71), ("(" * 17, 73), ("(" * 16 + "-", 73),
            ("(" * 15 + "a(", 71), (formulas.NEARLY + "-", 28), (formulas.FULL + "-", 28),
            (formulas.NEARLY + "(" * 17, 73), (formulas.FULL + "(", 71),
        ]:  # fmt: skip
            self.check_refused(text, number)
        self.assertEqual(self.translate(formulas.NEARLY + "(" * 16 + "a" + ")" * 16)[0], (0, 1024, 2))

    def test_instructions(self):
        """1,024 with STOP; "this token's cost": the sign of a minus has two, and is refused where both do not fit."""
        for count in (1, 2, 100, 511, 512):
            self.assertEqual(self.translate("a" + "+a" * (count - 1))[0], (0, 2 * count, min(count, 2)))
        full = "a" + "+a" * 511
        for text in (full + "+", full + "-", full + "*a", full + "/$", full + "+)", full + " +", full + "+a"):
            self.check_refused(text, 28)
        for text, number in [("a", 71), (")", 71), ("(", 71), ("$", 70), ("2147483648", 71), (" ", 0), ("", 0)]:
            self.assertEqual(self.translate(full + text)[0][0], number, text)
        nearly = "a" + "+a" * 510 + "+"  # 1,023 with STOP
        for text, number in [("a", 0), ("7", 0), ("(a)", 0), ("-a", 28), ("-$", 28), ("-", 28), ("(-", 28), ("", 71),
                             ("(", 71), ("+", 71), ("2147483648", 72), ("$", 70), ("a+", 28), ("a)", 71)]:  # fmt: skip
            self.assertEqual(self.translate(nearly + text)[0][0], number, text)
        before = "a" + "+a" * 509 + "+"  # 1,021
        for text, number in [("-a", 0), ("a", 0), ("-", 71), ("--", 28), ("-a+", 28), ("-(a)", 0), ("a+a", 0)]:
            self.assertEqual(self.translate(before + text)[0][0], number, text)

    def test_nesting(self):
        """Sixteen are done, in any order, and the seventeenth is 73, also after others that were closed."""
        chooser = random.Random(5)
        for _ in range(400):
            opened = [chooser.choice(["-", "("]) for _ in range(16)]
            closed = ")" * opened.count("(")
            plain = chooser.choice(["", "a+", "-a*", "(a)-", "(-(b))/", "a+-(-b)*"]) + "".join(opened)
            self.assertEqual(self.translate(plain + "a" + closed)[0][0], 0)
            for more in "-(":
                self.check_refused(plain + more, 73)
                self.check_refused(plain + more + chooser.choice(["$", "a", "2147483648", ")"]), 73)
            self.check_refused(plain + "$", 70)
            self.check_refused(plain + "2147483648", 72)
            self.check_refused(plain + ")", 71)
        self.assertEqual(self.translate("+".join(["-a"] * 20))[0], (0, 80, 3))
        self.assertEqual(self.translate("*".join(["(-(a))"] * 20))[0], (0, 80, 3))
        self.assertEqual(self.translate("-a+(" * 16 + "b" + ")" * 16)[0], (0, 66, 17))  # each sign ended before
        self.check_refused("-a+(" * 16 + "-b" + ")" * 16, 73)
        self.check_refused("-(" + "a+(" * 15 + "b" + ")" * 16, 73)

    def test_lengths(self):
        """ "31 comes first and 21 next" """
        for text in ("a", "", "$", "2147483648", "a" * 65537, "(" * 65537):
            for places in (0, 1, 1023, 1025, 2048):
                table = [7] * places
                self.assertEqual(sam.translate(text.encode(), table), (31, 0, 0))
                self.assertTrue(table == [7] * places)
        for text in formulas.TOO_LONG:
            self.check_refused(text, 21)
        for size, number in [(65535, 0), (65536, 0), (65537, 21), (65538, 21), (131072, 21), (131073, 21)]:
            for text in ("a".ljust(size), "a".rjust(size), "0" * size):
                self.assertEqual(self.translate(text)[0][0], number)
        for letter, number in [("(", 73), ("-", 73), ("$", 70), ("a", 71), ("9", 72), (" ", 71), ("+", 71)]:
            self.check_refused(letter * 65536, number)
            self.check_refused(letter * 65537, 21)

    # ---- its number

    def test_evaluator(self):
        for text, values, value in formulas.WORKED:
            self.assertEqual(sam.evaluate(text.encode(), formulas.filled(values)), value, (text, values))

    def test_evaluator_of_trees(self):
        """Its number is that of the tree that the text was made of."""
        chooser, divided = random.Random(6), Counter()
        for _ in range(1500):
            tree, values = formulas.any_tree(chooser, chooser.randrange(7)), formulas.any_values(chooser)
            value = formulas.tree_value(tree, values)
            divided[value is None] += 1
            self.assertEqual(sam.evaluate(formulas.text_of(chooser, tree, chooser.choice([0, 0.3])), values), value)
        self.assertGreater(min(divided.values()), 100)

    def machine(self, depth, values, between, h, less=0):
        """Eight INTs, others between, any above; U and the output in use; room for this depth and H free places."""
        live = [*[(INT, value % WORD) for value in values], *between]
        cells = live + [(CH, 9)] * (depth + 1 - less)
        record = [cell_place(0, FLOAT, 7), step_place()] if h else []
        tags, bits = map(list, zip(*cells))
        state = sam.State(bits, tags, record + [0] * h, bytearray(b"A\xff\0"))
        state.registers = sam.Registers(len(cells), len(state.history), sp=len(live), used=len(record), written=2)
        state.registers.kept = 1 if record else 0
        return state, live

    def check_run(self, text, values, between, h_of):
        """ "a plain run leaves the formula's number on top and all eight cells as they were", and all others below; SP
        goes up to SP + depth and no further."""
        (number, length, depth), table = self.translate(text)
        self.assertEqual(number, 0, text)
        made, value = sam.Program(table, length), sam.evaluate(text, values)
        state, live_before = self.machine(depth, values, between, h_of(length))
        sp, tops = state.registers.sp, []
        stepping = sam.State(*[list(part) for part in (state.bits, state.tags, state.history)], bytearray(state.output))
        stepping.registers = replace(state.registers)
        while plain_step(made, stepping) == 0:
            tops.append(stepping.registers.sp)
        answer = sam.run(made, state, length)
        self.assertEqual(contents(state), contents(stepping))
        self.assertEqual((live(state)[:sp], state.output), (live_before, b"A\xff\0"))
        self.assertLessEqual(max(tops, default=sp), sp + depth)
        if value is None:
            self.assertEqual(answer[0], 5)
        else:
            self.assertEqual((answer, live(state)[sp:]), ((0, length), [(INT, value % WORD)]))
            self.assertEqual((max(tops), state.registers.halt), (sp + depth, 1))
        return value

    def check_short(self, text, values, between):
        """With one cell, history place or step less: 7, 8 and 50, where nothing divides by zero."""
        (_, length, depth), table = self.translate(text)
        made, room = sam.Program(table, length), 2 * length - 1
        for h, less, limit, number in [(0, 1, length, 7), (room, 1, length, 7), (room - 1, 0, length, 8),
                                       (0, 0, length - 1, 50), (room, 0, length - 1, 50)]:  # fmt: skip
            state, live_before = self.machine(depth, values, between, h, less)
            self.assertEqual(sam.run(made, state, limit)[0], number, (text, h, less, limit))
            self.assertEqual(state.cells(0, len(live_before)), live_before)

    ROOMS = [lambda length: 0, lambda length: 2 * length - 1, lambda length: 2 * length + 5]

    def test_worked(self):
        for text, values, value in formulas.WORKED:
            for between, h_of in product(([], [(FLOAT, 7), (CH, 127), (PA, 2)]), self.ROOMS):
                ran = self.check_run(text.encode(), formulas.filled(values), between, h_of)
                self.assertEqual(ran, value, (text, values))

    def test_runs_of_accepted(self):
        values = [7, 2, -3, 40, -2147483648, 5, -1, 11]
        for text in [*formulas.ACCEPTED, *formulas.LONG_ACCEPTED]:
            value = self.check_run(text.encode(), values, [], self.ROOMS[1])
            if value is not None:
                self.check_short(text.encode(), values, [(MA, 3)])

    def test_trees(self):
        """Trees as texts: code, cost and depth are the tree's, and a run leaves its number."""
        chooser, seen = random.Random(7), Counter()
        for _ in range(700):
            tree, values = formulas.any_tree(chooser, chooser.randrange(1, 8)), formulas.any_values(chooser)
            text = formulas.text_of(chooser, tree, chooser.choice([0, 0, 0.2, 0.6]))
            code = [*formulas.tree_code(tree), 0]
            answer, table = self.translate(text)
            self.assertEqual(answer, (0, len(code), formulas.tree_depth(tree)), text)
            self.assertTrue(table == code + [0] * (PLACES - len(code)), text)
            between = formulas.any_between(chooser, len(code))
            value = self.check_run(text, values, between, chooser.choice(self.ROOMS))
            self.assertEqual(value, formulas.tree_value(tree, values), text)
            if value is not None:
                self.check_short(text, values, between)
            seen[value is None, bool(between)] += 1
        self.assertEqual(len(seen), 4)

    def test_divides_by_zero(self):
        """5 exactly where a division's right side is 0, needed or not, and nothing before it is undone."""
        for text, steps in [
            ("1/0", 2), ("0*(1/0)", 3), ("1/0+(2+(3+4))", 2), ("a-b/c", 3), ("a/(b-b)", 4), ("-1/-0", 6),
        ]:  # fmt: skip
            (_, length, depth), table = self.translate(text)
            made = sam.Program(table, length)
            state, _ = self.machine(depth, [5, 6, 0, 0, 0, 0, 0, 0], [], 0)
            self.assertEqual(sam.run(made, state, length), (5, steps), text)
            self.assertIsNone(sam.evaluate(text.encode(), [5, 6, 0, 0, 0, 0, 0, 0]))

    def test_drawn_texts(self):
        """Texts that were no tree before: a run of those that are formulas leaves the evaluator's number."""
        chooser, numbers = random.Random(8), Counter()
        for _ in range(800):
            text = formulas.walked(chooser, chooser.choice([3, 8, 20, 40]))
            text = formulas.damaged(chooser, text) if chooser.randrange(3) == 0 else text
            (number, *_), table = self.translate(text)
            numbers[number] += 1
            if number == 0:
                self.check_run(text, formulas.any_values(chooser), [], chooser.choice(self.ROOMS))
            else:
                self.check_refused(text, number)
        for number in (0, 70, 71, 72, 73):
            self.assertIn(number, numbers)

    # ---- the console of formulas

    EIGHT = b"PUSHIMM 4 PUSHIMM -9 PUSHIMM 0 PUSHIMM 0 PUSHIMM 0 PUSHIMM 0 PUSHIMM 0 PUSHIMM -2147483648 STOP\n"

    def test_console(self):
        listed = "PUSHIMM 2\nPUSHIMM 3\nPUSHOFF 0\nPUSHIMM 1\nSUB\nTIMES\nADD\nSTOP\n"
        for text, printed in [
            ("2 + 3 * (a - 1)", listed + "depth 4\nnumber 11\n"),
            ("b", "PUSHOFF 1\nSTOP\ndepth 1\nnumber -9\n"),
            ("-h", "PUSHOFF 7\nPUSHIMM -1\nTIMES\nSTOP\ndepth 2\nnumber -2147483648\n"),
            ("a/c", "PUSHOFF 0\nPUSHOFF 2\nDIV\nSTOP\ndepth 2\nend 5: the formula divides by zero\n"),
            ("", "refused 71: the formula cannot go on or end here\n"),
            ("a b", "refused 71: the formula cannot go on or end here\n"),
            ("a\n", "refused 70: forbidden byte\n"),
            ("2147483648", "refused 72: number too large\n"),
            ("(" * 17, "refused 73: nested too deep\n"),
            (formulas.FULL + "+", "refused 28: more than 1,024 instructions\n"),
            (" " * 65537, "refused 21: more than 65,536 bytes\n"),
        ]:
            self.assertEqual(sam.formula_console(self.EIGHT + text.encode()), printed, text[:20])


class Rooms(unittest.TestCase):
    """Request n: more room, the same evening."""

    def started_in(self, made, n, h, output, image=None):
        """A machine with this room after a reset, or after a load of this image."""
        state = sam.State([9] * n, [1] * n, [9] * h, bytearray([9] * output))
        self.assertEqual(sam.reset(made, state) if image is None else sam.load(made, state, image), 0)
        return state

    def saved(self, made, state):
        image = bytearray(4638)
        number, length = sam.save(made, state, image)
        self.assertEqual(number, 0)
        return bytes(image[:length])

    def visible(self, state):
        """ "cells, tags, output, PC, SP, FBR and HALT", and the output's count and N"""
        r = state.registers
        return state.bits, state.tags, state.output, r.pc, r.sp, r.fbr, r.halt, r.written, r.n

    def check_steps(self, made, state, other, most):
        """Whether the answers came to differ, by an 8, which changes nothing."""
        self.assertEqual(self.visible(state), self.visible(other))
        for _ in range(most):
            before = contents(state), contents(other)
            number, other_number = sam.step(made, state), sam.step(made, other)
            if number != other_number:
                self.assertEqual({number, other_number}, {0, 8})
                refused, was = (state, before[0]) if number == 8 else (other, before[1])
                self.assertEqual(contents(refused), was)
                return True
            self.assertEqual(self.visible(state), self.visible(other))
            if number:
                return False
        return False

    def check_runs(self, made, state, other, limit):
        """The two numbers, as a set."""
        run, other_run = sam.run(made, state, limit), sam.run(made, other, limit)
        if (run, self.visible(state)) != (other_run, self.visible(other)):
            self.assertIn(8, (run[0], other_run[0]))
        return {run[0], other_run[0]}

    def check_limits(self, made, state, most):
        """The number of a run, which larger limits do not change where it ends, nor its steps and what it leaves."""
        number, steps = sam.run(made, copied(state), most)
        if number == 50:
            return number
        enough, least = steps + (number != 0), copied(state)
        self.assertEqual(sam.run(made, least, enough), (number, steps))
        for limit in (*range(enough + 1, enough + 10), most, 1000000):
            again = copied(state)
            self.assertEqual(sam.run(made, again, limit), (number, steps))
            self.assertEqual(contents(again), contents(least))
        if enough:
            self.assertEqual(sam.run(made, copied(state), enough - 1), (50, enough - 1))
        return number

    # ---- by hand

    def test_three_pushes(self):
        """Each takes two places, and the end is 2: with three places the second is 8, where more room or none goes
        on."""
        for h, numbers in [
            (0, [0, 0, 0, 2]), (1, [8]), (2, [0, 8]), (3, [0, 8]), (4, [0, 0, 8]), (5, [0, 0, 8]), (6, [0, 0, 0, 2]),
            (7, [0, 0, 0, 2]), (8192, [0, 0, 0, 2]),
        ]:  # fmt: skip
            self.assertEqual(stepped("PUSHIMM 7 PUSHIMM 8 PUSHIMM 9", n=4, h=h)[0], numbers, h)
        made = program("PUSHIMM 7 PUSHIMM 8 PUSHIMM 9")
        state, other = self.started_in(made, 4, 3, 0), self.started_in(made, 4, 0, 0)
        self.assertEqual((sam.step(made, state), sam.step(made, other)), (0, 0))
        self.assertEqual((live(state), state.registers.pc), ([(INT, 7)], 1))
        self.assertEqual(self.visible(state), self.visible(other))
        self.assertEqual((sam.step(made, state), sam.step(made, other)), (8, 0))
        self.assertEqual((live(state), state.registers.pc), ([(INT, 7)], 1))
        self.assertEqual((live(other), other.registers.pc), ([(INT, 7), (INT, 8)], 2))

    # A program, N, bytes of output, the places of each accepted step, and the number behind them.
    ENDS = [
        ("STOP", 1, 0, [1], 1),
        ("JUMP 1", 1, 0, [1], 2),
        ("", 1, 0, [], 2),
        ("PUSHIMM 1 PUSHIMM 2 ADD ADD", 4, 0, [2, 2, 2], 3),
        ("ADDSP 2 ADDSP -3", 4, 0, [3], 3),
        ("LINK PUSHIMM 5 POPFBR", 4, 0, [2, 2], 4),
        ("PUSHIMM 1 PUSHIMM 0 DIV", 4, 0, [2, 2], 5),
        ("PUSHSP PUSHIND", 4, 0, [2], 6),
        ("PUSHIMM 1 ADDSP 3", 4, 0, [2], 7),
        ("a: PUSHIMMCH 65 WRITECH JUMP a", 3, 1, [2, 1, 1, 2], 12),
        ("PUSHIMM 3 PUSHIMM 4 SWAP STOP", 4, 0, [2, 2, 3, 1], 1),
    ]

    def test_just_enough(self):
        """The refusal is the same where no place is left, since 8 comes last; with one place less the last step that is
        accepted otherwise is 8."""
        for text, n, output, places, last in self.ENDS:
            made, enough = program(text), sum(places)
            for h in (0, enough, enough + 1, 8192):
                state = self.started_in(made, n, h, output)
                numbers = [sam.step(made, state) for _ in range(len(places) + 2)]
                self.assertEqual(numbers, [0] * len(places) + [last, last], (text, h))
                self.assertEqual(state.registers.used, enough if h else 0)
            if enough > 1:
                state = self.started_in(made, n, enough - 1, output)
                numbers = [sam.step(made, state) for _ in range(len(places) + 1)]
                self.assertEqual(numbers, [0] * (len(places) - 1) + [8, 8], text)

    def test_limits_by_hand(self):
        """A refusal is met by the step after those that are told, HALT 1 by none."""
        for text, h, answers in [
            ("PUSHIMM 1 STOP", 0, [(50, 0), (50, 1), (0, 2), (0, 2), (0, 2)]),
            ("PUSHIMM 1 STOP", 3, [(50, 0), (50, 1), (0, 2), (0, 2), (0, 2)]),
            ("PUSHIMM 1 STOP", 2, [(50, 0), (50, 1), (8, 1), (8, 1), (8, 1)]),
            ("PUSHIMM 1 STOP", 1, [(50, 0), (8, 0), (8, 0), (8, 0), (8, 0)]),
            ("PUSHIMM 1 ADD", 0, [(50, 0), (50, 1), (3, 1), (3, 1), (3, 1)]),
            ("PUSHIMM 1 ADD", 2, [(50, 0), (50, 1), (3, 1), (3, 1), (3, 1)]),
            ("", 0, [(50, 0), (2, 0), (2, 0), (2, 0), (2, 0)]),
        ]:
            for limit, answer in zip((0, 1, 2, 3, 1000000), answers):
                made, state = started(text, n=4, h=h)
                self.assertEqual(sam.run(made, state, limit), answer, (text, h, limit))

    def test_halted(self):
        """ "HALT 1 ends with 0", before the limit: 0 is enough, and more changes nothing."""
        made, state = started("STOP", n=2, h=4)
        self.assertEqual(sam.step(made, state), 0)
        before = contents(state)
        for limit in (0, 1, 2, 1000000):
            self.assertEqual((sam.run(made, state, limit), contents(state)), ((0, 0), before))

    def test_entry(self):
        """No step's refusal: 10 whatever the limit is within its range, and 11 beyond it."""
        made, state = started("PUSHIMM 1 STOP", n=2, h=4)
        state.tags[1] = 5
        before = contents(state)
        for limit, number in [(0, 10), (1, 10), (2, 10), (1000000, 10), (1000001, 11)]:
            self.assertEqual((sam.run(made, state, limit), contents(state)), ((number, 0), before))

    # ---- programs

    def drawn(self, chooser):
        """A program, N and bytes of output."""
        made = program(chooser.choice(self.ENDS)[0]) if chooser.randrange(8) == 0 else drawn_program(chooser)
        return made, chooser.choice([1, 2, 5, 16, 60]), chooser.choice([0, 1, 4, 256])

    def check_all(self, made, n, output, image, most, chooser, seen):
        """Steps and runs in rooms around what they take, and larger limits in each."""
        whole = self.started_in(made, n, 8192, output, image)
        sam.run(made, whole, most)
        enough = whole.registers.used
        rooms = [0, chooser.randrange(1, 20), max(enough - 1, 0), enough, 8192]
        for h, other_h in [chooser.sample(rooms, 2), chooser.sample(rooms, 2)]:
            two = [self.started_in(made, n, room, output, image) for room in (h, other_h)]
            seen["apart" if self.check_steps(made, *two, most) else "alike"] += 1
            two = [self.started_in(made, n, room, output, image) for room in (h, other_h)]
            numbers = self.check_runs(made, *two, chooser.choice([most, most // 2, 1000]))
            seen[8 in numbers, len(numbers)] += 1
            seen[self.check_limits(made, self.started_in(made, n, h, output, image), 2000)] += 1

    def test_published(self):
        """The programs of document 004, the panel and the complaint: from a reset, and saved half way."""
        chooser, seen = random.Random(14), Counter()
        for name in teaching.PROGRAMS:
            made = teaching.program_of(name)
            _, steps = sam.run(made, self.started_in(made, 60, 0, 5), 1000)
            half = self.started_in(made, 60, 0, 5)
            sam.run(made, half, steps // 2)
            for image in (None, self.saved(made, half)):
                self.check_all(made, 60, 5, image, steps + 1, chooser, seen)
        self.assertEqual({2 if name == "complaint" else 0 for name in teaching.PROGRAMS} - set(seen), set())
        self.assertGreater(min(seen["apart"], seen["alike"], seen[8]), 5)

    def test_drawn(self):
        """Any program and sizes, from a reset and from a state that was saved after some steps."""
        chooser, seen = random.Random(15), Counter()
        for _ in range(150):
            made, n, output = self.drawn(chooser)
            worked = self.started_in(made, n, 40, output)
            sam.run(made, worked, chooser.randrange(30))
            image = chooser.choice([None, self.saved(made, worked)])
            self.check_all(made, n, output, image, chooser.randrange(1, 40), chooser, seen)
        self.assertEqual({0, 2, 3, 4, 5, 6, 7, 8, 12} - set(seen), set())
        self.assertGreater(min(seen["apart"], seen["alike"]), 20)


class Soundness(unittest.TestCase):
    def broken(self, **changes):
        """The numbers of step and step-back on a state with one fault."""
        made, state = started("PUSHIMM 1 PUSHIMM 2 ADD STOP", n=4, h=8)
        sam.step(made, state)
        for name, value in changes.items():
            if name in ("bits", "tags"):
                address, new = value
                getattr(state, name)[address] = new
            elif name == "history":
                state.history[:2] = value
            else:
                setattr(state.registers, name, value)
        before = contents(state)
        number = sam.step_back(made, state)
        if number:
            self.assertEqual(contents(state), before)
        return number

    def test_registers(self):
        wrong = [("n", 3), ("n", 5), ("h", 7), ("h", 9), ("sp", 4), ("fbr", 4), ("pc", 5), ("halt", 2), ("used", 9)]
        for name, value in wrong + [("used", 0), ("kept", 0), ("kept", 3)]:  # U is 2 and the kept number 1
            self.assertEqual(self.broken(**{name: value}), 10, name)
        self.assertEqual(self.broken(halt=1), 0)
        self.assertEqual(self.broken(tags=(3, 5)), 10)
        self.assertEqual(self.broken(written=1), 10)  # of an output of 0 bytes
        self.assertEqual(self.broken(used=0, kept=0), 9)

    def test_program_addresses(self):
        made, state = started("STOP", n=4)
        state.tags[3], state.bits[3] = PA, 2
        self.assertEqual(sam.step(made, state), 10)
        state.bits[3] = 1
        self.assertEqual(sam.step(made, state), 0)

    def test_records(self):
        for places, number in [
            ([cell_place(0), step_place()], 0),
            ([cell_place(3, PA, 4), step_place(pc=3, sp=3, fbr=3)], 0),
            ([cell_place(3, PA, 5), step_place()], 10),
            ([cell_place(3, CH, 127), step_place()], 0),
            ([cell_place(3, CH, 128), step_place()], 10),
            ([cell_place(3, CH, WORD - 1), step_place()], 10),
            ([cell_place(3, 5), step_place()], 10),
            ([cell_place(3, 7), step_place()], 10),
            ([cell_place(4), step_place()], 10),
            ([cell_place(0) | 1, step_place()], 10),
            ([cell_place(0) | 1 << 17, step_place()], 10),
            ([cell_place(0, INT, 1), step_place()], 0),
            ([step_place(), step_place()], 10),
            ([cell_place(0), step_place() | 1], 10),
            ([cell_place(0), step_place() - (1 << 63)], 10),
            ([cell_place(0), step_place(pc=4)], 10),
            ([cell_place(0), step_place(sp=4)], 10),
            ([cell_place(0), step_place(fbr=4)], 10),
            ([cell_place(0), step_place(written=2)], 10),
            ([~0 % (1 << 64), step_place(written=0)], 0),
        ]:
            self.assertEqual(self.broken(history=places), number, places)

    def test_rising(self):
        made, state = started("STOP", n=4, h=3)
        state.registers.used, state.registers.kept = 3, 1
        for first, second, number in [(1, 1, 10), (2, 1, 10), (1, 3, 0)]:
            state.history[:] = [first << 53, second << 53, 1 << 63 | 2 << 22]
            self.assertEqual(sam.step_back(made, state), number)


class Floats(unittest.TestCase):
    """Against the host: a sum, difference, product or quotient of binary32 values taken in binary64 and rounded again
    is rounded as if once, since 53 is at least 2 * 24 + 2. Equality of binary32 values is the same in binary64."""

    OPERATIONS = [
        (floats.add, lambda a, b: a + b),
        (floats.subtract, lambda a, b: a - b),
        (floats.multiply, lambda a, b: a * b),
        (floats.divide, lambda a, b: a / b),
    ]

    EDGES = [0, 1, 0x7FFFFF, 0x800000, 0x3F800000, 0x3F800001, 0x7F7FFFFF, 0x7F800000, 0x7F800001, 0x7FC00000]
    EDGES += [bits | 1 << 31 for bits in EDGES]

    def host_value(self, bits):
        return struct.unpack("<f", struct.pack("<I", bits))[0]

    def host(self, operation, below, top):
        try:
            result = operation(self.host_value(below), self.host_value(top))
        except ZeroDivisionError:
            return None
        if result != result:
            return floats.NAN
        return struct.unpack("<I", bytes(ctypes.c_float(result)))[0]

    def patterns(self, chooser):
        while True:
            near = chooser.choice(self.EDGES) + chooser.randrange(-3, 4)
            base = chooser.randrange(1 << 32)
            alike = base & 0xFF800000 | chooser.randrange(1 << 23)
            yield chooser.choice([near % (1 << 32), base, alike]), chooser.choice([chooser.choice(self.EDGES), base])

    def test_against_host(self):
        for (below, top), _ in zip(self.patterns(random.Random(1)), range(20000)):
            for ours, theirs in self.OPERATIONS:
                expected = self.host(theirs, below, top)
                if expected is not None:
                    self.assertEqual(ours(below, top), expected, (ours.__name__, hex(below), hex(top)))

    def test_division_by_zero(self):
        one, zero, minus = 0x3F800000, 0, 1 << 31
        self.assertEqual(floats.divide(one, zero), 0x7F800000)
        self.assertEqual(floats.divide(one, minus), 0xFF800000)
        self.assertEqual(floats.divide(zero, minus), floats.NAN)
        self.assertEqual(floats.divide(0x7F800000, minus), 0xFF800000)
        self.assertEqual(floats.divide(floats.NAN, zero), floats.NAN)

    def test_equal_against_host(self):
        drawn = [pair for pair, _ in zip(self.patterns(random.Random(2)), range(5000))]
        for below, top in [*product(self.EDGES, self.EDGES), *drawn]:
            expected = self.host_value(below) == self.host_value(top)
            self.assertEqual(floats.equal(below, top), expected, (hex(below), hex(top)))

    def test_compare(self):
        self.assertEqual(floats.compare(0x3F800000, 0x40000000), 1)
        self.assertEqual(floats.compare(0xBF800000, 0xC0000000), -1)
        self.assertEqual(floats.compare(0xFF800000, 0x7F800000), 1)
        self.assertEqual(floats.compare(0, 1 << 31), 0)


class Console(unittest.TestCase):
    def test_example(self):
        self.assertEqual(sam.console(b"PUSHIMM 6 PUSHIMM 4 CMP STOP"), "end 0 steps 4\nPC 3 SP 1 FBR 0\n0 INT -1\n")

    def test_lines(self):
        printed = sam.console(b"PUSHIMMF #c0200000 PUSHSP PUSHIMM 5 SUB PUSHIMMPA 3 a: JUMP a")
        self.assertEqual(
            printed,
            "end 50 steps 100000\nPC 5 SP 3 FBR 0\n0 FLOAT #C0200000\n1 MA -4\n2 PA 3\n",
        )
        self.assertEqual(sam.console(b""), "end 2 steps 0\nPC 0 SP 0 FBR 0\n")

    def test_refused(self):
        self.assertEqual(sam.console(b"STOP FOO"), "refused 23 5 1 6\n")
        self.assertEqual(sam.console(b"STOP\r\nPUSHIMM\n"), "refused 24 14 3 1\n")
        self.assertEqual(sam.console(b"STOP\nPUSHIMM\tADD\n"), "refused 33 13 2 9\n")
        self.assertEqual(sam.console(b"\n" * 65537), "refused 21 0 0 0\n")


if __name__ == "__main__":
    unittest.main()
