#!/usr/bin/env python3
"""Holds README.md to what its examples print.

    readme.py DOOR_PRINTED [README]

A command line has four spaces before `./sam --formula`, and is the last of its indented block; the next indented block
is what it prints, with status 0. Each is run by a shell in the folder of README, with nothing to read. One block is
examples/door.c, and the next is what it prints, which the file DOOR_PRINTED has. Exit status 1 where one is otherwise,
or where there is none.
"""

import subprocess
import sys
from pathlib import Path

INDENT = "    "
COMMAND = "./sam --formula"
DOOR = "examples/door.c"


def indented_blocks(text):
    """(Line, lines) of each block: lines that follow each other with four spaces before them, which are taken off, and
    the number of the first. Empty lines between such lines are the block's."""
    began, block, empty = 0, [], []
    for number, line in enumerate([*text.split("\n"), "."], 1):
        if line.startswith(INDENT):
            began = began if block else number
            block += [*empty, line[len(INDENT) :]]
            empty = []
        elif block and line == "":
            empty.append("")
        else:
            if block:
                yield began, block
            block, empty = [], []


def examples(text):
    """(Command, the block behind it or nothing) of each; a block with a command that is not its last is no example."""
    blocks = [block for _, block in indented_blocks(text)]
    for block, behind in zip(blocks, [*blocks[1:], None]):
        commands = [line for line in block if line.startswith(COMMAND)]
        if commands:
            yield commands[0], behind if commands == block[-1:] else None


def printed(command, folder):
    answer = subprocess.run(
        command, shell=True, cwd=folder, stdin=subprocess.DEVNULL, stdout=subprocess.PIPE, check=False
    )
    status = "" if answer.returncode == 0 else f"status {answer.returncode}\n"
    return answer.stdout.decode("utf-8", "replace") + status


def is_as_written(command, behind, folder):
    if behind is None:
        print(f"README: no block behind the line that says what it prints: {command}")
        return False
    expected, answered = "\n".join(behind) + "\n", printed(command, folder)
    if answered != expected:
        print(f"README: {command}\n  written {expected!r}\n  printed {answered!r}")
    return answered == expected


def door_is_shown(text, folder, printed_by_door):
    """Whether the example in C stands there as it is, and behind it what it printed."""
    blocks = ["\n".join(block) + "\n" for _, block in indented_blocks(text)]
    door = (folder / DOOR).read_text(encoding="utf-8")
    shown = (door, Path(printed_by_door).read_text(encoding="utf-8")) in zip(blocks, blocks[1:])
    if not shown:
        print(f"README: {DOOR}, or what it prints, does not stand there as it is")
    return shown


def main():
    if len(sys.argv) < 2:
        sys.exit(__doc__)
    path = Path(sys.argv[2]) if len(sys.argv) > 2 else Path(__file__).resolve().parent.parent / "README.md"
    text = path.read_text(encoding="utf-8")
    tried = [is_as_written(*example, path.parent) for example in examples(text)]
    if not tried:
        print(f"README: there is no line that begins with {COMMAND}")
    if not door_is_shown(text, path.parent, sys.argv[1]) or not tried or not all(tried):
        return 1
    print(f"README: {len(tried)} formulas print what is written there, and {DOOR} is shown with what it prints")
    return 0


if __name__ == "__main__":
    sys.exit(main())
