#!/usr/bin/env python3
"""Replays a script of docs/SUPPORT.md by the independent interpreter, sam/, and prints its transcript.

    replay.py [--trace FILE] SCRIPT

`-` for SCRIPT is standard input. The status is 0, 1 where an `expect` failed, and 2 where a line is no command: that is
told on standard error as `SCRIPT:LINE: ..`. Written from that page, whose words are quoted here and in
replay_words.py and replay_answers.py, and not from replay.c, with which its transcripts and traces are compared.
"""

import os
import sys
from contextlib import nullcontext
from copy import deepcopy
from dataclasses import dataclass
from pathlib import Path
from typing import Callable

sys.dont_write_bytecode = True  # no file is written but the trace
sys.path.insert(0, str(Path(__file__).resolve().parent.parent))

import sam
from replay_answers import Answer, answer, call_line, cell_text, hex_lines, instruction_text, output_lines, steps_text
from replay_words import (BYTE_FORM, NoCommand, command_of, depth_list, file_of, is_depth, lines_of, name_of, number_of,
                          shown, sizes_of, words_of)
from sam.image import IMAGE_SIZE
from sam.saved import STATE_SIZE
from sam.table import PROGRAM_LIMIT
from sam.text import TEXT_SIZE

CALLED_AS = "replay.py [--trace FILE] SCRIPT"
STANDARD_INPUT = "-"
FAILED, NO_COMMAND = 1, 2  # the status

STEPS_LIMIT = 10000  # of `step` and `back`: "up to K steps, 1 to 10,000"
TRACED_STEPS = 1000  # of a run: "the first 1,000 steps that it made"
BLOCK_END = b"end"
WITH_PLACE = (65, 66)  # of `depths`: "with 65 and 66 `place P`, else nothing"

# What lent memory holds before a call: never zero, so that what a reset or a load forgot to clear is seen.
MARKED_BITS, MARKED_TAG, MARKED_PLACE, MARKED_BYTE = 0xAAAAAAAA, 0xAA, 0xAAAAAAAAAAAAAAAA, 0xAA


# ---- the session


def lent(n, h, output):
    """Memory of just these sizes, and registers that are 0."""
    return sam.State([MARKED_BITS] * n, [MARKED_TAG] * n, [MARKED_PLACE] * h, bytearray([MARKED_BYTE]) * output)


class Session:
    """ "Before the first of them the program is empty, and before the first reset or load there is no cell, no history,
    no output, and every register is 0" """

    def __init__(self, script, folder, transcript, trace):
        self.lines = self.repeated(lines_of(script))  # those to come: a block takes its own
        self.line = 0  # the number of the latest
        self.begun = 0  # and of that which the command begins at
        self.folder = folder  # of its FILEs
        self.transcript, self.trace = transcript, trace
        self.program = sam.Program([0] * PROGRAM_LIMIT, 0)
        self.state = lent(0, 0, 0)
        self.kept = {}  # bytes, by their NAMEs
        self.answered = None  # the words of the latest answer
        self.has_failed = False  # an `expect`

    # ---- the script and the transcript

    def repeated(self, lines):
        """ "A transcript has every line of the script, without its end" """
        for self.line, line in enumerate(lines, start=1):
            self.transcript.write(line + b"\n")
            yield line

    def block(self):
        """The lines up to the first "whose only word, before any `//`, is `end`"."""
        for line in self.lines:
            if words_of(line) == [BLOCK_END]:
                return
            yield line
        raise NoCommand("the block that begins here has no 'end'")

    def replay(self):
        for line in self.lines:
            if words_of(line):
                self.begun = self.line
                self.tell(self.made(*command_of(line)))

    def made(self, name, words):
        command = COMMANDS.get(name)
        if command is None:
            raise NoCommand(f"there is no command {shown(name)}")
        if len(words) not in command.counts:
            raise NoCommand(command.form)
        return command.act(self, *words)

    def tell(self, told):
        for line in told.lines:
            self.transcript.write(f"= {line}\n".encode("ascii"))
        if told.words is not None:
            self.answered = [str(word) for word in told.words]

    # ---- what commands ask for

    def file(self, word):
        """ "a path from the script's folder" """
        return file_of(word, os.path.join(self.folder, word))

    def bytes_of(self, name):
        if name_of(name) not in self.kept:
            raise NoCommand(f"no bytes are kept as {shown(name)}")
        return self.kept[name]

    def make_program(self, call, data):
        """What was told. "The program is the latest [...]; a refused one leaves the empty program" """
        table = [MARKED_PLACE] * PROGRAM_LIMIT
        number, length, *told = call(data, table)
        self.program = sam.Program(table, length)
        return number, length, *told

    def coming(self):
        """PC and the instruction there, "and as `the end` where PC is the program's length or more"."""
        pc = self.state.registers.pc
        is_there = pc < self.program.length
        return f"PC {pc} {instruction_text(self.program.table[pc]) if is_there else 'the end'}"

    # ---- the trace

    def traced(self, word, number, told=0, state=None):
        """The number of a call that the trace has a line of, once that is written."""
        if self.trace:
            state = state or self.state
            r = state.registers
            cell = cell_text(*state.cell(0)) if r.sp > 0 else "- -"
            line = f"{self.begun} {word} {number} {r.pc} {r.sp} {r.halt} {r.kept} {cell} {told}\n"
            self.trace.write(line.encode("ascii"))
        return number

    def trace_steps(self, copy, count):
        """Those of a run, "from a copy of the machine that makes them one by one"."""
        for _ in range(count):
            self.traced("step", sam.step(self.program, copy), state=copy)


# ---- the commands on programs


def program(session, *file):
    source = session.file(*file) if file else b"".join(line + b"\n" for line in session.block())
    number, length, *where = session.make_program(sam.assemble, source)
    if number:
        place, line, column = where
        return answer(number, f"place {place}, line {line}, column {column}", *where)
    return answer(0, f"length {length}", length)


def formula(session, text):
    number, length, depth = session.make_program(sam.translate, text)
    return answer(number) if number else answer(0, f"length {length}, depth {depth}", length, depth)


def unpack(session, name):
    number, length = session.make_program(sam.unpack, session.bytes_of(name))
    return answer(number) if number else answer(0, f"length {length}", length)


def list_program(session):
    text = bytearray([MARKED_BYTE]) * TEXT_SIZE
    number, size = sam.list_program(session.program.table, session.program.length, text)
    if number:
        return answer(number)
    return answer(0, f"{size} bytes", size, below=text[:size].decode("ascii").splitlines())


def keep(session, name, number, data):
    """The answer of a call that wrote these bytes. "A refused `save` or `pack` leaves NAME as it was." """
    if number:
        return answer(number)
    if name:
        session.kept[name] = data
    return answer(0, f"{len(data)} bytes", len(data), below=hex_lines(data))


def pack(session, name=None):
    if name is not None:
        name_of(name)
    image = bytearray([MARKED_BYTE]) * IMAGE_SIZE
    number, size = sam.pack(session.program.table, session.program.length, image)
    return keep(session, name, number, bytes(image[:size]))


def depths(session, n, *words):
    """ "One word that is neither is a FILE" """
    n = number_of(n, "N")
    if len(words) == 1 and not is_depth(words[0]):
        in_file = [word for line in lines_of(session.file(words[0])) for word in words_of(line)]
        judged = depth_list(in_file, f" in the file {shown(words[0])}")
    else:
        judged = depth_list(words)
    number, place = sam.check_depths(session.program, n, judged)
    return answer(number, f"place {place}", place) if number in WITH_PLACE else answer(number)


# ---- the commands on the machine


def reset(session, *sizes):
    session.state = lent(*sizes_of(sizes))
    return answer(session.traced("reset", sam.reset(session.program, session.state)))


def until_refused(make_one, count):
    """A line for each; its words are "the number of the last one, and how many were done"."""
    number, lines, done = 0, [], 0
    while number == 0 and len(lines) < count:
        number, told = make_one()
        lines.append(call_line(number, told))
        done += number == 0
    return Answer(lines, [number, done])


def step(session, count=b"1"):
    """ "with PC and the instruction there before it [...] refused too" """

    def make_one():
        before = session.coming()
        return session.traced("step", sam.step(session.program, session.state)), before

    return until_refused(make_one, number_of(count, "K", 1, STEPS_LIMIT))


def back(session, count=b"1"):
    """ "with PC and the instruction there after it; refused nothing" """

    def make_one():
        number = session.traced("back", sam.step_back(session.program, session.state))
        return number, session.coming() if number == 0 else ""

    return until_refused(make_one, number_of(count, "K", 1, STEPS_LIMIT))


def run(session, limit):
    limit = number_of(limit, "LIMIT")
    copy = deepcopy(session.state) if session.trace else None
    number, steps = sam.run(session.program, session.state, limit)
    if session.trace:
        session.trace_steps(copy, min(steps, TRACED_STEPS))
    return answer(session.traced("run", number, steps), steps_text(steps), steps)


def forget(session, k):
    k = number_of(k, "K")
    return answer(session.traced("forget", sam.forget(session.program, session.state, k)))


def dwell(session):
    number, tenths = sam.dwell(session.program, session.state)
    return answer(session.traced("dwell", number, tenths), f"{tenths} tenths", tenths)


def why(session, cell):
    number, is_found, steps_back, pc, place, *old = sam.why(session.program, session.state, number_of(cell, "CELL"))
    if number:
        return answer(number)
    if not is_found:
        return answer(0, "no kept step wrote it", "none")
    held = cell_text(*old)
    told = f"{steps_text(steps_back)} back, PC {pc} {instruction_text(place)}, before it {held}"
    return answer(0, told, steps_back, pc, *held.split())


def save(session, name):
    name_of(name)
    image = bytearray([MARKED_BYTE]) * STATE_SIZE
    number, size = sam.save(session.program, session.state, image)
    return keep(session, name, number, bytes(image[:size]))


def load(session, name, *sizes):
    """ "into memory that is lent anew where sizes are given [...] else into what is lent" """
    image = session.bytes_of(name)
    if sizes:
        session.state = lent(*sizes_of(sizes))
    return answer(session.traced("load", sam.load(session.program, session.state, image)))


# ---- the commands that are no calls


def keep_image(session, name):
    name_of(name)
    made = bytearray()
    for line in session.block():
        for word in words_of(line):
            if not BYTE_FORM.match(word):
                raise NoCommand(f"a byte is two hex digits, and not {shown(word)}", session.line)
            made.append(int(word, 16))
    session.kept[name] = bytes(made)
    return Answer([])


def show_cell(session, cell):
    """ "of any cell below N, or `none` in place of tag and value" """
    is_there = cell < session.state.registers.n
    held = cell_text(*session.state.cell(cell)) if is_there else "none"
    return Answer([f"{cell} {held}"], [cell, *held.split()])


def show(session, *cell):
    if cell:
        return show_cell(session, number_of(*cell, "CELL"))
    r = session.state.registers
    lines = [f"PC {r.pc} SP {r.sp} FBR {r.fbr} HALT {r.halt}"]
    lines.append(f"N {r.n} H {r.h} U {r.used} kept {r.kept} written {r.written}")
    lines += [f"{live} {cell_text(*session.state.cell(live))}" for live in range(r.sp)]
    return Answer(lines + output_lines(bytes(session.state.output[: r.written])))


def expect(session, *words):
    """ "Its words are compared, as they are written, with the first words of that answer" """
    number_of(words[0], "the NUMBER that is expected")
    if session.answered is None:
        raise NoCommand("there is no answer above this expect")
    if [word.encode("ascii") for word in session.answered[: len(words)]] == list(words):
        return Answer(["as expected"])
    session.has_failed = True
    return Answer([f"NOT as expected: it was {' '.join(session.answered)}"])


@dataclass(frozen=True)
class Command:
    act: Callable
    counts: range  # how many words may stand behind its name
    form: str  # what is told where it is another count


NONE, ONE, THREE, AT_MOST_ONE, ONE_OR_MORE = range(1), range(1, 2), range(3, 4), range(2), range(1, sys.maxsize)
ONE_OR_FOUR = range(1, 5, 3)

COMMANDS = {
    b"program": Command(program, AT_MOST_ONE, "program takes one FILE, or none and the lines below it up to 'end'"),
    b"formula": Command(formula, ONE, "formula takes the rest of the line"),
    b"list": Command(list_program, NONE, "list takes no word"),
    b"pack": Command(pack, AT_MOST_ONE, "pack takes one NAME, or none"),
    b"unpack": Command(unpack, ONE, "unpack takes one NAME"),
    b"depths": Command(depths, ONE_OR_MORE, "depths takes a number, N, then the depths or one FILE"),
    b"reset": Command(reset, THREE, "reset takes three numbers, N H OUTPUT"),
    b"step": Command(step, AT_MOST_ONE, "step takes one number, K, or none"),
    b"back": Command(back, AT_MOST_ONE, "back takes one number, K, or none"),
    b"run": Command(run, ONE, "run takes one number, LIMIT"),
    b"forget": Command(forget, ONE, "forget takes one number, K"),
    b"dwell": Command(dwell, NONE, "dwell takes no word"),
    b"why": Command(why, ONE, "why takes one number, CELL"),
    b"save": Command(save, ONE, "save takes one NAME"),
    b"load": Command(load, ONE_OR_FOUR, "load takes one NAME, and then three numbers, N H OUTPUT, or none"),
    b"image": Command(keep_image, ONE, "image takes one NAME, and the lines below it up to 'end'"),
    b"show": Command(show, AT_MOST_ONE, "show takes one number, CELL, or none"),
    b"expect": Command(expect, ONE_OR_MORE, "expect takes a number, then words of the answer"),
}


# ---- the script


class NotReplayed(Exception):
    """There is no script, and why."""


def arguments_of(words):
    """(FILE of the trace or nothing, SCRIPT)."""
    if len(words) == 3 and words[0] == "--trace":
        return words[1], words[2]
    if len(words) == 1 and not words[0].startswith("--"):
        return None, words[0]
    raise NotReplayed(f"it is called as {CALLED_AS}")


def script_and_folder(script):
    """Its bytes, and where its FILEs are: of standard input from the folder that this was called in."""
    if script == STANDARD_INPUT:
        return sys.stdin.buffer.read(), b""
    path = os.fsencode(script)
    try:
        return file_of(path, path), os.path.dirname(path)
    except NoCommand as reason:
        raise NotReplayed(reason) from None


def status_of(session, script):
    """Of the whole replay. The transcript is out before anything is told on standard error."""
    try:
        session.replay()
    except NoCommand as reason:
        session.transcript.flush()
        print(f"{script}:{reason.line or session.begun}: {reason}", file=sys.stderr)
        return NO_COMMAND
    session.transcript.flush()
    return FAILED if session.has_failed else 0


def replayed(trace_name, script):
    lines, folder = script_and_folder(script)
    with nullcontext() if trace_name is None else open(trace_name, "wb") as trace:
        return status_of(Session(lines, folder, sys.stdout.buffer, trace), script)


def main():
    try:
        return replayed(*arguments_of(sys.argv[1:]))
    except (NotReplayed, OSError) as reason:  # or the trace cannot be written
        print(f"replay: {reason}", file=sys.stderr)
        return NO_COMMAND


if __name__ == "__main__":
    sys.exit(main())
