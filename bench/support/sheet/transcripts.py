"""Transcripts on the sheet: what each line is, one transcript as HTML, and two side by side with every difference
marked. Rests on docs/SUPPORT.md for what a transcript is, and on lettering.py, wording.py and replays.py."""

import re
from dataclasses import dataclass
from difflib import SequenceMatcher
from itertools import groupby, zip_longest

from .lettering import written
from replays import first_other
from .wording import counted

ANSWERS_WITH_NUMBER = "program formula list pack unpack depths reset step back run forget dwell why save load".split()
EVERY_ANSWER = ("step", "back")  # of these each answer has a number, of the others the first
AS_EXPECTED, NOT_EXPECTED = "= as expected", "= NOT as expected"
NUMBERED = re.compile(r"= ([0-9]+)(?: ([^;]*))?")

SIDE_SIGNS = {"refusal": "✗", "expected": "✓", "unexpected": "✗"}
SIDE_WORDS = {"refusal": "refused", "unexpected": "not expected"}

ALIKE_AROUND = 4  # lines shown before and behind those that differ
ALIKE_FOLDED = 6  # so many more alike are folded away
ALIGNED_LIMIT = 4_000  # lines between the first difference and the last that are aligned; more are set side by side


# ---- what the lines are


@dataclass
class Line:
    """A line of a transcript: its kind, and for one of the script its number there, else 0."""

    kind: str  # comment, command, source, answer, refusal, expected or unexpected
    text: str
    number: int = 0
    refusal: int = 0
    meaning: str = ""


def answer_line(text, command, is_first):
    if text.startswith(NOT_EXPECTED):
        return Line("unexpected", text)
    if text == AS_EXPECTED:
        return Line("expected", text)
    found = NUMBERED.match(text)
    if found and command in ANSWERS_WITH_NUMBER and (is_first or command in EVERY_ANSWER) and int(found.group(1)):
        return Line("refusal", text, refusal=int(found.group(1)), meaning=found.group(2) or "")
    return Line("answer", text)


def words_of(text):
    """The words of a script's line, without its comment."""
    return text.split("//", 1)[0].split()


def opens_block(words):
    return words == ["program"] or (words[:1] == ["image"] and len(words) == 2)


def lines_of(transcript):
    """The lines of a transcript, which is handed over as bytes."""
    lines, number, command, is_first, in_block = [], 0, "", False, False
    for text in (line.decode("utf-8", "replace") for line in transcript):
        words = words_of(text)
        if text.startswith("= ") and not in_block:
            lines.append(answer_line(text, command, is_first))
            is_first = False
            continue
        number += 1
        if in_block and words != ["end"]:
            lines.append(Line("source", text, number))
            continue
        if words and not in_block:
            command, is_first = words[0], True
        in_block = not in_block and opens_block(words)
        lines.append(Line("command" if words else "comment", text, number))
    return lines


def meanings(lines):
    """The words of the numbers that a transcript tells."""
    return {line.refusal: line.meaning for line in lines if line.kind == "refusal" and line.meaning}


# ---- one transcript


def line_html(line, mark=""):
    """A line with its number or a symbol at its left; `mark` stands there in its place."""
    sign = mark or SIDE_SIGNS.get(line.kind) or (str(line.number) if line.number else "")
    word = SIDE_WORDS.get(line.kind)
    title = f' title="{word}"' if word else ""
    return f'<span class="l {line.kind}"{title}><i>{sign}</i><code>{written(line.text) or " "}</code></span>'


def transcript_html(lines):
    return '<pre class="transcript">' + "".join(line_html(line) for line in lines) + "</pre>"


# ---- two transcripts side by side


def aligned(left, right):
    """Pairs of indices of two lists of lines: of lines that are the same, and of what stands in the place of what; None
    where there is nothing in the other."""
    first = first_other(left, right)
    if first is None:
        return [(at, at) for at in range(len(left))]
    pairs = [(at, at) for at in range(first)]
    if max(len(left), len(right)) - first > ALIGNED_LIMIT:
        return pairs + beside(first, len(left), first, len(right))
    matcher = SequenceMatcher(None, left[first:], right[first:], autojunk=False)
    for _, left_from, left_to, right_from, right_to in matcher.get_opcodes():
        pairs += beside(first + left_from, first + left_to, first + right_from, first + right_to)
    return pairs


def beside(left_from, left_to, right_from, right_to):
    """Two ranges of indices as pairs, None behind the end of the shorter one."""
    return list(zip_longest(range(left_from, left_to), range(right_from, right_to)))


def side_html(who, line):
    shown = line_html(line, "≠") if line else '<span class="l none"><i>≠</i><code>(no line)</code></span>'
    return f'<div class="side"><span class="who">{who}</span>{shown}</div>'


def same_html(left, right):
    """A line that both have; on a phone it stands once."""
    return f'<div class="pair">{line_html(left)}<div class="again">{line_html(right)}</div></div>'


def apart_html(left, right, anchor):
    """What differs; on a phone the two stand below each other. The first of a script has an anchor."""
    first = f'<p class="first" id="{anchor}">≠ the first difference</p>' if anchor else ""
    return f'{first}<div class="pair apart">{side_html("library", left)}{side_html("interpreter", right)}</div>'


def folded(parts):
    """The pairs, with those that are alike and far from any difference folded away. `parts` are (whether it is the
    same, the page's text)."""
    runs = [(is_same, [html for _, html in run]) for is_same, run in groupby(parts, key=lambda part: part[0])]
    shown = []
    for at, (is_same, run) in enumerate(runs):
        before = ALIKE_AROUND if at > 0 else 0
        behind = ALIKE_AROUND if at < len(runs) - 1 else 0
        middle = run[before : len(run) - behind]
        if not is_same or len(middle) < ALIKE_FOLDED:
            shown += run
            continue
        name = f"<summary>{counted(len(middle), 'line')} alike</summary>"
        fold = f'<details class="alike">{name}{"".join(middle)}</details>'
        shown += [*run[:before], fold, *run[len(run) - behind :]]
    return shown


def side_by_side(left, right, left_bytes, right_bytes, anchor):
    """Two lists of Lines. They are compared as bytes: what is shown of bytes that are no UTF-8 may be alike."""
    parts = []
    for left_at, right_at in aligned(left_bytes, right_bytes):
        one = left[left_at] if left_at is not None else None
        other = right[right_at] if right_at is not None else None
        if one and other and left_bytes[left_at] == right_bytes[right_at]:
            parts.append((True, same_html(one, other)))
        else:
            parts.append((False, apart_html(one, other, anchor)))
            anchor = ""
    heads = '<div class="heads"><span>the library</span><span>the interpreter</span></div>'
    return f'<div class="both">{heads}{"".join(folded(parts))}</div>'
