"""The arrow of a stretch, from the step that it begins at to the one that it ends at. Rests on forms.py, and on a Scale
for where the steps stand."""

from .forms import path, short, stop
from .stretches import BACK, FORWARD, STILL

SHORTEST_ARROW = 14
HEADS_APART = 30
HEAD_LENGTH, HEAD_HALF_HEIGHT = 7, 4.5
SHAFT_LESS = 5  # than the arrow: its last head is the rest
DOT_RADIUS = 3.5
STOP_BEHIND = 2


def shaft(direction, start, end, y):
    return path("on" if direction == FORWARD else "off", f"M{short(start)} {short(y)}H{short(end)}")


def head(direction, x, y):
    """A triangle whose tip is at x."""
    classes = "onhead" if direction == FORWARD else "offhead"
    side = f"l{-HEAD_LENGTH * direction} -{HEAD_HALF_HEIGHT}"
    return path(classes, f"M{short(x)} {short(y)}{side}v{short(2 * HEAD_HALF_HEIGHT)}z")


def tips(stretch, start, end):
    """Where the arrow has its heads: forward at its end, back at each step, or as many as there is room for."""
    if stretch.direction == FORWARD:
        return [end]
    every = max((start - end) / stretch.made, HEADS_APART)
    more = int(max(start - end - SHORTEST_ARROW, 0) // every)
    return [end + every * at for at in range(more + 1)]


def arrow(stretch, start, end, y):
    direction = stretch.direction
    start = min(start, end - SHORTEST_ARROW) if direction == FORWARD else max(start, end + SHORTEST_ARROW)
    heads = [head(direction, tip, y) for tip in tips(stretch, start, end)]
    return [shaft(direction, start, end - SHAFT_LESS * direction, y), *heads]


def track(stretch, scale, y):
    """The arrow, or a dot where no step was made; a square behind it where the machine has halted."""
    first, last = stretch.states[0], stretch.states[-1]
    end = scale.middle(last.steps)
    if stretch.direction == STILL:
        drawn = [f'<circle class="onhead" cx="{short(end)}" cy="{short(y)}" r="{DOT_RADIUS}"/>']
    else:
        drawn = arrow(stretch, scale.middle(first.steps), end, y)
    if last.halted and stretch.direction != BACK:
        drawn.append(stop(end + STOP_BEHIND, y))
    return drawn
