#!/usr/bin/env python3
"""Replays scripts by both replayers: one, and prints its transcript; or all of sessions/, and writes the sheet.

    support.py --replayer FILE --run-by WORDS --library LIBRARY --folder FOLDER [SCRIPT]

FILE replays by the proved library LIBRARY, with WORDS before it where it needs an emulator; the sheet goes to FOLDER.
Called by ./support, which builds both."""

import argparse
import hashlib
import os
import shutil
import subprocess
import sys
from datetime import datetime
from pathlib import Path

from replays import DONE, NO_COMMAND, replay
from sheet import Facts, is_well, sheet, summary

ROOT = Path(__file__).resolve().parent.parent.parent
SESSIONS = ROOT / "sessions"
BUILT = ROOT / "target" / "staticlib" / "libsam_c.a"
GATE_LOG = ROOT / "target" / "gate.log"
NOT_WELL = 1
INTERRUPTED = 130  # as a shell has it of Ctrl-C
TIME = "%Y-%m-%d %H:%M"


def say(text):
    print(f"./support: {text}", file=sys.stderr, flush=True)


def tell(text):
    """A line of progress: on a terminal it takes the place of the one before."""
    if sys.stderr.isatty():
        print(f"\r\x1b[K./support: {text}", end="", file=sys.stderr, flush=True)
    else:
        say(text)


def near(path):
    """A path as a person in this folder would type it."""
    try:
        return str(Path(path).resolve().relative_to(Path.cwd()))
    except ValueError:
        return str(path)


# ---- one script


def print_transcript(lines):
    sys.stdout.buffer.write(b"".join(line + b"\n" for line in lines))
    sys.stdout.buffer.flush()


def tell_remarks(name, replayed):
    """What differs comes first: it is what no script can excuse."""
    for remark in (replayed.difference, replayed.failure):
        if remark is not None:
            print(f"{name}:{remark.line}: {remark.text}", file=sys.stderr)


def status_of(replayed):
    if replayed.difference is None and replayed.failure is None:
        return DONE
    return NO_COMMAND if replayed.library.status == replayed.interpreter.status == NO_COMMAND else NOT_WELL


def replay_one(script, replayer):
    replayed = replay(script, replayer)
    print_transcript(replayed.library.transcript)
    tell_remarks(script, replayed)
    return status_of(replayed)


# ---- all of them


def first_line_of(command):
    """What a command prints, or nothing where it is missing or fails."""
    try:
        return subprocess.run(command, cwd=ROOT, capture_output=True, text=True, check=True).stdout.split("\n")[0]
    except (OSError, subprocess.CalledProcessError):
        return ""


def commit():
    changed = first_line_of(["git", "status", "--porcelain"])
    return first_line_of(["git", "rev-parse", "HEAD"]) + (" with changes that are not committed" if changed else "")


def gate():
    """The last line of the gate's log and when it was written, where that is of the library as it is now."""
    try:
        written = GATE_LOG.stat().st_mtime
        lines = GATE_LOG.read_text(encoding="utf-8", errors="replace").strip().split("\n")
    except OSError:
        return "", ""
    if written < BUILT.stat().st_mtime:
        return "", ""
    return lines[-1], datetime.fromtimestamp(written).strftime(TIME)


def facts(library):
    is_other = library != BUILT
    last, when = ("", "") if is_other else gate()
    return Facts(
        library=near(library),
        sha256=hashlib.sha256(library.read_bytes()).hexdigest(),
        kit=first_line_of(["rt", "version"]) if shutil.which("rt") else "",
        gate=last,
        gate_date=when,
        commit=commit(),
        date=datetime.now().astimezone().strftime(TIME + " %Z"),
        is_other_library=is_other,
    )


def replay_all(replayer):
    scripts = sorted(SESSIONS.glob("*.txt"))
    if not scripts:
        say(f"there is no script in {near(SESSIONS)}")
    replays = []
    for count, script in enumerate(scripts, 1):
        tell(f"replaying {count} of {len(scripts)}: {script.stem}")
        replays.append(replay(script, replayer))
    if sys.stderr.isatty():
        print(file=sys.stderr)
    return replays


def replay_and_write(replayer, library, folder):
    replays = replay_all(replayer)
    for replayed in replays:
        tell_remarks(near(replayed.path), replayed)
    page = folder / "sheet.html"
    page.write_text(sheet(facts(library), replays), encoding="utf-8")
    say(f"the sheet is {near(page)}")
    print(summary(replays))
    return DONE if is_well(replays) else NOT_WELL


def main():
    parser = argparse.ArgumentParser(add_help=False)
    parser.add_argument("--replayer", required=True)
    parser.add_argument("--run-by", default="")
    parser.add_argument("--library", type=Path, required=True)
    parser.add_argument("--folder", type=Path, required=True)
    parser.add_argument("script", nargs="?")
    words = parser.parse_args()
    replayer = [*words.run_by.split(), words.replayer]
    if words.script is None:
        return replay_and_write(replayer, words.library, words.folder)
    return replay_one(words.script, replayer)


if __name__ == "__main__":
    try:
        sys.exit(main())
    except KeyboardInterrupt:
        sys.exit(INTERRUPTED)
    except OSError as error:
        os.dup2(os.open(os.devnull, os.O_WRONLY), sys.stdout.fileno())  # nothing more is written there
        if not isinstance(error, BrokenPipeError):  # else who reads the transcript has seen enough
            say(error)
        sys.exit(NOT_WELL)
