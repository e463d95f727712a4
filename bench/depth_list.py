#!/usr/bin/env python3
"""Proposes a depth list for a source, request j, as text that people can read and edit: the format is in README.md.

    depth_list.py [--cells N] FILE

The list is not proved to be right: the proved checker judges it. Where there is none that it would accept on a machine
of N cells, 1,000 unless given, standard error says at which place and why, and nothing is printed.
"""

import argparse
import sys
from pathlib import Path

import sam
from sam.depths import NOT_REACHED, effect, is_forbidden
from sam.machine import CELL_LIMIT
from sam.table import PROGRAM_LIMIT
from sam.text import line_of

COMMENT = "//"
NO_DEPTH = "-"  # "not reached"


class NoList(Exception):
    """Why there is no list for a program, with the place."""


# ---- a list for a program


def instruction_at(program, place):
    return line_of(program.table[place]).rstrip("\n")


def refuse(program, place, why):
    raise NoList(f"place {place}, {instruction_at(program, place)}: {why}")


def check_allowed(program):
    if program.length == 0:
        raise NoList("an empty program has no list")
    for place in range(program.length):
        if is_forbidden(program.table[place]):
            refuse(program, place, "a program with this instruction has no list")


def depth_after(program, n, place, depth):
    of = effect(program.table[place], place)
    if depth < of.needed:
        refuse(program, place, f"its depth is {depth}, and it needs {of.needed}")
    if depth + of.change >= n:
        refuse(program, place, f"its depth after is {depth + of.change}, which is not below {n}")
    return depth + of.change


def lead_on(program, place, after, depths):
    """The places that follow and had no depth yet, which they are given."""
    for follower in sorted(effect(program.table[place], place).followers):
        if follower == program.length:
            refuse(program, place, "the program's end may follow")
        if depths[follower] == NOT_REACHED:
            depths[follower] = after
            yield follower
        elif depths[follower] != after:
            refuse(program, place, f"two depths meet at place {follower}, {after} from here and {depths[follower]}")


def proposed(program, n=CELL_LIMIT):
    """From place 0 on, each place that may follow."""
    check_allowed(program)
    depths = [0] + [NOT_REACHED] * (program.length - 1)
    places = [0]
    while places:
        place = places.pop()
        after = depth_after(program, n, place, depths[place])
        places += lead_on(program, place, after, depths)
    return depths


# ---- as text


def written(program, depths):
    """A line for each place: the depth or the mark, and as a comment the place and its instruction."""
    words = [NO_DEPTH if depth == NOT_REACHED else str(depth) for depth in depths]
    return "".join(f"{word:4} {COMMENT} {at} {instruction_at(program, at)}\n" for at, word in enumerate(words))


def depth_of(word):
    if word == NO_DEPTH:
        return NOT_REACHED
    if not word.isdecimal() or not word.isascii() or int(word) >= NOT_REACHED:
        raise ValueError(f"neither a depth of 0 to {NOT_REACHED - 1} nor {NO_DEPTH}: {word}")
    return int(word)


def read(text):
    """The list of such a text: its words, in order, without the comments."""
    lines = [line.split(COMMENT, 1)[0] for line in text.splitlines()]
    return [depth_of(word) for line in lines for word in line.split()]


# ---- the script


def assembled(source):
    table = [0] * PROGRAM_LIMIT
    number, length, place, line, column = sam.assemble(source, table)
    if number:
        raise NoList(f"the source is refused: {number} at {place}, line {line} column {column}")
    return sam.Program(table, length)


def main():
    parser = argparse.ArgumentParser(description=__doc__, formatter_class=argparse.RawDescriptionHelpFormatter)
    parser.add_argument("file", type=Path)
    parser.add_argument("--cells", type=int, default=CELL_LIMIT, help="N, 1 to 1,000")
    words = parser.parse_args()
    if not 1 <= words.cells <= CELL_LIMIT:
        parser.error(f"N is 1 to {CELL_LIMIT}, not {words.cells}")
    try:
        program = assembled(words.file.read_bytes())
        sys.stdout.write(written(program, proposed(program, words.cells)))
    except NoList as why:
        print(f"{words.file}: {why}", file=sys.stderr)
        return 1
    return 0


if __name__ == "__main__":
    sys.exit(main())
