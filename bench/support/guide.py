#!/usr/bin/env python3
"""Holds the examples of docs/GUIDE.md to the transcripts of their scripts.

    guide.py [GUIDE]

An example is a block of lines with four spaces before them, behind a line that names its script as
`sessions/NAME.txt`. Its lines stand in the transcript of that script as they are, one after the other, where the
`expect` lines and their answers are left out; the first example of a script begins with its first command, so that who
types it in has the same. Every script whose name begins with `guide` is named. Exit status 1 where something is otherwise. The transcripts are the
interpreter's; ./support holds the library's to them.
"""

import re
import subprocess
import sys
from itertools import dropwhile
from pathlib import Path

sys.path.insert(0, str(Path(__file__).resolve().parent.parent))  # for readme.py

from readme import indented_blocks
from replays import INTERPRETER

ROOT = Path(__file__).resolve().parent.parent.parent
NAMED = re.compile(r"`(sessions/\w+\.txt)`")


def examples(text):
    """(Line, script, block) of each: the number of its first line, the script named last before it, and its lines."""
    for number, block in indented_blocks(text):
        named = NAMED.findall("\n".join(text.split("\n")[: number - 1]))
        yield number, named[-1] if named else None, block


def without_expects(lines):
    """An `expect` and the answer below it are for the bench, and not for the reader."""
    kept, skip = [], False
    for line in lines:
        answer = skip and line.startswith("= ")
        skip = line.startswith("expect ")
        if not skip and not answer:
            kept.append(line)
    return kept


def transcript(script):
    """What stands behind the comments at the script's top."""
    answer = subprocess.run([*INTERPRETER, str(ROOT / script)], stdout=subprocess.PIPE, check=False)
    lines = without_expects(answer.stdout.decode("utf-8", "replace").split("\n"))
    return list(dropwhile(lambda line: line == "" or line.startswith("//"), lines))


def stands_in(block, lines):
    return any(lines[at : at + len(block)] == block for at in range(len(lines)))


def fault_of(script, block, is_first):
    """What is wrong with an example, or None."""
    if script is None:
        return "no script is named before this example"
    if not (ROOT / script).is_file():
        return f"there is no {script}"
    lines = transcript(script)
    if not stands_in(block, lines):
        return f"this example does not stand so in the transcript of {script}"
    if is_first and lines[: len(block)] != block:
        return f"this first example of {script} does not begin with its first command"
    return None


def faults(text):
    named = set()
    for line, script, block in examples(text):
        fault = fault_of(script, block, script not in named)
        named.add(script)
        if fault:
            yield f"{line}: {fault}"
    for path in sorted((ROOT / "sessions").glob("guide*.txt")):
        if f"sessions/{path.name}" not in named:
            yield f" no example is of sessions/{path.name}"


def main():
    path = Path(sys.argv[1]) if len(sys.argv) > 1 else ROOT / "docs" / "GUIDE.md"
    text = path.read_text(encoding="utf-8")
    told = list(faults(text))
    for fault in told:
        print(f"{path.name}:{fault}")
    if told:
        return 1
    print(f"{path.name}: {len(list(examples(text)))} examples stand in their scripts' transcripts")
    return 0


if __name__ == "__main__":
    sys.exit(main())
