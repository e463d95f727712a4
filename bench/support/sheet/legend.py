"""The legend of the pictures: their forms, each alone in a small picture, and what they mean. Rests on the files that
draw those forms."""

from .arrows import head, shaft
from .band import BAND, label, tag_area
from .bars import GAP_SIGN
from .forms import STOP_SIDE, opening, path, stop, symbol, text
from .stretches import BACK, FORWARD

WIDTH, HEIGHT = 64, 24
CENTRE, MIDDLE = WIDTH / 2, HEIGHT / 2
ARROW_LEFT, ARROW_RIGHT = 8, WIDTH - 12
BAND_TOP = (HEIGHT - BAND) / 2
BAND_LEFT, BAND_RIGHT = 2, WIDTH - 2
BAND_WORD = 42  # its width
BARS = f"M8 {HEIGHT - 2}V14H24V6H40V14H56V{HEIGHT - 2}"
WALL = f"M{CENTRE} 3V{HEIGHT - 3}"
GAP_SIGN_BELOW = 4  # the middle
HIDDEN = 'aria-hidden="true"'  # the words beside it say it all


def mark_form(form):
    return [symbol(form, CENTRE, MIDDLE)]


def arrow_form(direction):
    start, end = (ARROW_LEFT, ARROW_RIGHT) if direction == FORWARD else (ARROW_RIGHT, ARROW_LEFT)
    return [shaft(direction, start, end, MIDDLE), head(direction, end, MIDDLE)]


def tag_form(tag):
    area = tag_area(tag, BAND_LEFT, BAND_RIGHT, BAND_TOP)
    return [*area, *label(tag, tag, BAND_LEFT, BAND_RIGHT, BAND_TOP, BAND_WORD)]


def small_picture(parts):
    return f'{opening(WIDTH, HEIGHT, HIDDEN)}{"".join(parts)}</svg>'


def legend():
    """A list of (picture, words): what the forms in the pictures mean."""
    entries = [
        (arrow_form(FORWARD), "steps made, to the right"),
        (arrow_form(BACK), "steps taken back, to the left"),
        ([stop(CENTRE - STOP_SIDE / 2, MIDDLE)], "the machine has halted"),
        ([path("bar", BARS)], "SP: how many values are on the stack"),
        ([path("bar gone", BARS)], "dashed: what was taken back"),
        (tag_form("INT"), "cell 0 is an INT: tenths of a second"),
        (tag_form("FLOAT"), "cell 0 is a FLOAT: seconds"),
        (tag_form("CH"), "cell 0 has another tag: MA, PA or CH"),
        (mark_form("cell"), "what cell 0 holds there, where its area is too narrow for words"),
        (mark_form("dwell"), "the dwell that the door board reads"),
        (mark_form("no"), "a number other than 0: refused, or the run's limit reached"),
        (mark_form("kept"), "a forget, and how many steps are kept"),
        ([path("wall", WALL)], "the oldest kept step, after a forget"),
        ([text(CENTRE, MIDDLE + GAP_SIGN_BELOW, GAP_SIGN, "t m")], "steps of a long run that are not drawn"),
        (mark_form("apart"), "from here on the two replays differ"),
    ]
    return [(small_picture(parts), words) for parts, words in entries]
