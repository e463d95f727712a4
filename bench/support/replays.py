"""Replays a script by the proved library and by the independent interpreter, and compares what they print: transcripts,
traces and statuses."""

import subprocess
import sys
import tempfile
from dataclasses import dataclass
from pathlib import Path
from typing import Optional

HERE = Path(__file__).resolve().parent
INPUT = "-"
INTERPRETER = [sys.executable, str(HERE / "replay.py")]

DONE, EXPECT_FAILED, NO_COMMAND = 0, 1, 2  # statuses of a replayer
SECONDS = 300  # of one replay: far more than any script takes
NOT_EXPECTED = b"= NOT as expected"
ANSWER = b"= "


@dataclass
class Side:
    """What one replayer printed."""

    status: int
    transcript: list  # of lines, as bytes without their ends
    trace: list
    errors: str  # what it said on standard error


@dataclass
class Remark:
    """Something to tell of a script: the line, from 1, and what is wrong there."""

    line: int
    text: str


@dataclass
class Replay:
    name: str
    path: Path
    title: str
    shows: str
    library: Side
    interpreter: Side
    difference: Optional[Remark]  # where the two differ
    failure: Optional[Remark]  # where an expect failed, or a line is no command


def split_lines(text):
    lines = text.split(b"\n")
    return lines[:-1] if lines[-1] == b"" else lines


def described(text):
    """The title and what is shown: the comment lines at the top of a script."""
    comments = []
    for line in text.decode("utf-8", "replace").splitlines():
        if not line.strip().startswith("//"):
            break
        comments.append(line.strip()[2:].strip())
    return (comments[0] if comments else ""), " ".join(comments[1:])


def asked(command, given):
    """(Status, what was printed, what was said on standard error); one that does not end is ended."""
    with subprocess.Popen(command, stdin=subprocess.PIPE, stdout=subprocess.PIPE, stderr=subprocess.PIPE) as process:
        try:
            printed, said = process.communicate(given, timeout=SECONDS)
        except subprocess.TimeoutExpired:
            process.kill()
            printed, _ = process.communicate()
            said = f"the replay did not end within {SECONDS} seconds".encode()
    return process.returncode, printed, said


def side(command, path, script):
    """What the replayer `command` makes of the script at a path, or of standard input, where it is handed over."""
    with tempfile.TemporaryDirectory() as folder:
        trace = Path(folder) / "trace"
        status, printed, said = asked([*command, "--trace", str(trace), str(path)], script)
        traced = split_lines(trace.read_bytes()) if trace.exists() else []
    return Side(status, split_lines(printed), traced, said.decode("utf-8", "replace").strip())


def script_lines(script, transcript):
    """For each line of a transcript the line of the script, from 1, that it repeats or answers."""
    lines = [line[:-1] if line.endswith(b"\r") else line for line in split_lines(script)]
    numbers, repeated = [], 0
    for line in transcript:
        if repeated < len(lines) and line == lines[repeated]:
            repeated += 1
        numbers.append(repeated)
    return numbers


def shown(lines, at):
    return lines[at].decode("utf-8", "replace") if at < len(lines) else "nothing more"


def first_other(left, right):
    """The first index at which two lists differ, or None where they are the same."""
    for at, (one, other) in enumerate(zip(left, right)):
        if one != other:
            return at
    return None if len(left) == len(right) else min(len(left), len(right))


def line_at(script, transcript, at):
    """The script's line of a line of a transcript, or of its last where there are fewer."""
    numbers = script_lines(script, transcript)
    return numbers[min(at, len(numbers) - 1)] if numbers else 1


def both_say(library, interpreter):
    return f"the library says '{library}', the interpreter '{interpreter}'"


def difference(script, library, interpreter):
    at = first_other(library.transcript, interpreter.transcript)
    if at is not None:
        longer = max(library.transcript, interpreter.transcript, key=len)
        text = both_say(shown(library.transcript, at), shown(interpreter.transcript, at))
        return Remark(line_at(script, longer, at), text)
    if library.status != interpreter.status:
        text = f"the library's replay ends with status {library.status}, the interpreter's with {interpreter.status}"
        return Remark(line_at(script, library.transcript, len(library.transcript)), text)
    at = first_other(library.trace, interpreter.trace)
    if at is not None:
        text = "in the trace " + both_say(shown(library.trace, at), shown(interpreter.trace, at))
        return Remark(traced_line(interpreter.trace[at : at + 1] or library.trace[at:]), text)
    return None


def traced_line(trace):
    """The script's line that a trace begins with, or 1 where it is garbled."""
    word = trace[0].split(b" ")[0]
    return int(word) if word.isdigit() else 1


def failure(path, script, library):
    """Of the library's replay: of the two it is the one that a site receives."""
    if library.status == DONE:
        return None
    if library.status == EXPECT_FAILED:
        at = next((at for at, line in enumerate(library.transcript) if line.startswith(NOT_EXPECTED)), 0)
        return Remark(line_at(script, library.transcript, at), shown(library.transcript, at)[len(ANSWER) :])
    said = library.errors.split("\n")[-1] or f"the replay ended with status {library.status}"
    line, text = told_place(path, said)
    return Remark(line or line_at(script, library.transcript, len(library.transcript)), text)


def told_place(path, said):
    """(Line, text) of what a replayer said as `SCRIPT:LINE: TEXT`; no line where it said something else."""
    rest = said[len(f"{path}:") :] if said.startswith(f"{path}:") else ""
    line, behind, text = rest.partition(": ")
    return (int(line), text) if behind and line.isdigit() else (None, said)


def replay(path, library_replayer):
    """`library_replayer` is the command, as words, that replays by the library; the path `-` is standard input."""
    script = sys.stdin.buffer.read() if str(path) == INPUT else Path(path).read_bytes()
    title, shows = described(script)
    library, interpreter = side(library_replayer, path, script), side(INTERPRETER, path, script)
    return Replay(
        name=Path(path).stem,
        path=Path(path),
        title=title or Path(path).stem,
        shows=shows,
        library=library,
        interpreter=interpreter,
        difference=difference(script, library, interpreter),
        failure=failure(path, script, library),
    )
