"""Draws the picture of a session from its trace (docs/SUPPORT.md, "The two replayers"): inline SVG, for the sheet.

From left to right stand the steps in effect: those made less those taken back, since the reset or load. Downwards goes
the time: a stretch for each turn, so that step-backs go back to the left below what they take back. A stretch has SP as
bars and, where the session reads a dwell or two replays differ, tag and value of cell 0; below stand dwells, refusals
and forgets. Rests on stretches.py for what is told, on scale.py and plan.py for where it stands, and on arrows.py,
bars.py, band.py and marks.py for the parts of a stretch.
"""

from .arrows import track
from .band import BAND, drawn_band
from .bars import drawn_bars
from .forms import opening, path, short, text
from .lettering import TINY, breadth, written
from .marks import drawn_marks
from .plan import plan_of
from .scale import WIDTH, tick_numbers
from .stretches import BACK, FORWARD, Mark, stretches_of
from .wording import NO_CELL, cell_texts, counted

BYTES_LIMIT = 60_000
GRAINS = (2, 4, 8, 16, 32, 64)  # areas narrower are taken together: more where a picture is too large
STRETCHES_FIRST, STRETCHES_LAST = 8, 3  # drawn of a session with more of them
DESCRIBED_LIMIT = 1_500  # characters for those who hear the picture

LEFT = 2  # of words in the gutter
AXIS = 24
AXIS_FOOT, GRID_TOP = AXIS - 10, AXIS - 5
RULE_SPACE = 2  # below the line above a stretch
GUTTER_LINE, GUTTER_FOOT = 14, 13  # from one to the next; from the top to the foot of the first
TRACK = 9  # from the stretch's top to the middle of its arrow
WALL_TOP = 2
BARS_TOP = 16
NUMBER = 11  # for the number on the highest bar
BAND_TOP = 3
MARKS_TOP = 2
STRETCH_END = 9
LEFT_OUT, LEFT_OUT_FOOT = 26, 17  # the words that stretches are left out: their line, and their foot from its top


# ---- a stretch


def direction_words(stretch):
    if stretch.direction == FORWARD:
        return "→ " + counted(stretch.made, "step")
    return f"← back {stretch.made}" if stretch.direction == BACK else ""


def line_words(stretch):
    if stretch.first_line == stretch.last_line:
        return f"line {stretch.first_line}"
    return f"lines {stretch.first_line}–{stretch.last_line}"


def gutter_words(stretch):
    return [words for words in (stretch.begun_by, direction_words(stretch)) if words] or ["no reset yet"]


def gutter(stretch, y):
    lines = [(words, "t b") for words in gutter_words(stretch)] + [(line_words(stretch), "s g")]
    return [text(LEFT, y + GUTTER_FOOT + GUTTER_LINE * at, *line) for at, line in enumerate(lines)]


def wall(stretch, scale, y, base):
    """Where the oldest kept step begins, after the last forget of a step that is drawn."""
    known = [scale.left[steps] for steps in stretch.walls if steps in scale.left]
    return [path("wall", f"M{short(x)} {short(y)}V{short(base)}") for x in known[-1:]]


def bars_base(stretch, plan, y):
    """The foot of the bars, below their room and that of the words in the gutter."""
    lines = len(gutter_words(stretch)) + 2  # with the one of line_words, and a free one
    return y + max(BARS_TOP + NUMBER + plan.unit * plan.highest, GUTTER_LINE * lines)


def cell_mark(state):
    """What cell 0 holds, where the band has no room to tell it."""
    return Mark(state.steps, "", "cell", "", "cell 0 " + cell_texts(state.tag, state.value)[0])


def drawn_stretch(stretch, plan, y):
    """The parts of a stretch and the y where it ends."""
    base = bars_base(stretch, plan, y)
    parts = gutter(stretch, y) + wall(stretch, plan.scale, y + WALL_TOP, base)
    parts += track(stretch, plan.scale, y + TRACK) + drawn_bars(stretch, plan, base)
    bottom, marks = base, stretch.marks
    if plan.has_band:
        band, is_told = drawn_band(stretch, plan, base + BAND_TOP)
        parts += band
        bottom = base + BAND_TOP + BAND
        marks = marks if is_told else [*marks, cell_mark(stretch.states[-1])]
    below, bottom = drawn_marks(marks, plan.scale, bottom + MARKS_TOP)
    return parts + below, bottom + STRETCH_END


# ---- a picture


def axis(scale, bottom):
    drawn = [text(LEFT, AXIS_FOOT, "steps in effect", "s g")]
    for number in tick_numbers(scale):
        x = scale.middle(number)
        half = breadth(str(number), TINY) / 2
        drawn.append(text(min(x, WIDTH - half), AXIS_FOOT, str(number), "n g m"))
        drawn.append(path("grid", f"M{short(x)} {GRID_TOP}V{short(bottom)}"))
    return drawn


def chosen(stretches):
    """Those to draw, with nothing in the place of those left out, and how many are left out."""
    left_out = len(stretches) - STRETCHES_FIRST - STRETCHES_LAST
    if left_out <= 1:
        return stretches, 0
    return [*stretches[:STRETCHES_FIRST], None, *stretches[-STRETCHES_LAST:]], left_out


def drawn_stretches(stretches, plan):
    """The parts of all and the y where they end."""
    rows, left_out = chosen(stretches)
    parts, y = [], AXIS
    for stretch in rows:
        parts.append(path("rule", f"M0 {short(y)}H{WIDTH}"))
        if stretch is None:
            parts.append(text(LEFT, y + LEFT_OUT_FOOT, f"… {left_out} more turns, in the transcript", "t g"))
            y += LEFT_OUT
        else:
            drawn, y = drawn_stretch(stretch, plan, y + RULE_SPACE)
            parts += drawn
    return parts, y


def drawing(stretches, heading, grain):
    plan = plan_of(stretches, grain)
    parts, bottom = drawn_stretches(stretches, plan)
    names = f"<title>{written(heading)}</title><desc>{written(described(stretches))}</desc>"
    return "\n".join([opening(WIDTH, bottom, 'role="img"'), names, *axis(plan.scale, bottom), *parts, "</svg>"])


def picture(trace_lines, title, meanings=None, other_at=None):
    """The picture of a session, or nothing where its trace has nothing to draw. `meanings` are the words of numbers, as
    the transcript has them; `other_at` is the line of the trace, from 0, where it is no longer the other replayer's."""
    stretches = stretches_of(trace_lines, meanings or {}, other_at)
    if not stretches:
        return ""
    for grain in GRAINS:
        drawn = drawing(stretches, f"The session of: {title}", grain)
        if len(drawn.encode()) <= BYTES_LIMIT:
            break
    return drawn


# ---- for those who hear it


def described_stretch(stretch):
    said = [stretch.begun_by] if stretch.begun_by else []
    if stretch.direction == FORWARD:
        said.append(counted(stretch.made, "step"))
    elif stretch.direction == BACK:
        said.append(counted(stretch.made, "step") + " back")
    last = stretch.states[-1]
    said.append(f"then SP {last.sp}")
    said += [f"cell 0 {cell_texts(last.tag, last.value)[0]}"] if last.tag != NO_CELL else []
    said += [("refused " if mark.form == "no" else "") + mark.text() for mark in stretch.marks]
    return ", ".join(said)


def described(stretches):
    words = "; ".join(described_stretch(stretch) for stretch in stretches) + "."
    return words if len(words) <= DESCRIBED_LIMIT else words[:DESCRIBED_LIMIT] + " …"
