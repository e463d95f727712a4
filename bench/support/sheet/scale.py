"""Where the steps of a session stand in its picture, from left to right. Rests on lettering.py, for the room that a
number takes. All lengths of pictures are in units of the picture; a phone shows one as 0.8 pixels, a desk as 1.3."""

from .lettering import TINY, breadth

WIDTH = 440
GUTTER = 98  # for the words at the left
NAME_END = GUTTER - 6  # of the name of what is drawn beside the gutter
RIGHT_MARGIN = 12
LANE = WIDTH - GUTTER - RIGHT_MARGIN
COLUMN_LIMIT = 62
WIDE_COLUMN = 18
WIDE_SHARE = 0.5  # of the lane for wide columns, at most
SHORT_STRETCH = 12  # states of a stretch whose columns are made wide
GAP = 26  # for steps of a run that the trace leaves out
GAPS_SHARE = 0.4  # of the lane for all of them, at most
ROUND = (1, 2, 5)
POWERS = 20  # of ten: more than any number of steps has


class Scale:
    """The columns of the numbers of steps that were in effect. Numbers that never were are a gap, and where the columns
    are narrow those of short stretches are wider, so that a few step-backs are seen in a long session."""

    def __init__(self, stretches):
        self.numbers = sorted({state.steps for stretch in stretches for state in stretch.states})
        self.gaps = {after for before, after in zip(self.numbers, self.numbers[1:]) if after > before + 1}
        self.gap = min(GAP, LANE * GAPS_SHARE / max(len(self.gaps), 1))
        room = LANE - self.gap * len(self.gaps)
        self.column = min(COLUMN_LIMIT, room / len(self.numbers))
        self.wide, self.wide_column = set(), 0
        if self.column < WIDE_COLUMN:
            self.widen(stretches, room)
        self.left = self.placed()

    def widen(self, stretches, room):
        short_ones = [stretch.states for stretch in stretches if 2 <= len(stretch.states) <= SHORT_STRETCH]
        wide = {state.steps for states in short_ones for state in states}
        narrow = len(self.numbers) - len(wide)
        wide_column = min(WIDE_COLUMN, room * WIDE_SHARE / max(len(wide), 1))
        if narrow and wide_column > self.column:
            self.wide, self.wide_column = wide, wide_column
            self.column = (room - wide_column * len(wide)) / narrow

    def placed(self):
        """The left of each number's column."""
        left, x = {}, GUTTER
        for number in self.numbers:
            x += self.gap if number in self.gaps else 0
            left[number] = x
            x += self.width(number)
        return left

    def width(self, number):
        return self.wide_column if number in self.wide else self.column

    def middle(self, number):
        return self.left[number] + self.width(number) / 2

    def right(self, number):
        return self.left[number] + self.width(number)


def round_number(least):
    """The first of 1, 2, 5, 10, 20, 50, .. that is as much."""
    return next(step * 10**power for power in range(POWERS) for step in ROUND if step * 10**power >= least)


def tick_numbers(scale):
    """The last number and the first, then those of wide columns and round ones, as many as there is room for."""
    room = breadth(str(scale.numbers[-1]), TINY) + TINY
    every = round_number(room / scale.column)
    wanted = [scale.numbers[-1], scale.numbers[0], *sorted(scale.wide, reverse=True)]
    ticks = []
    for number in [*wanted, *(number for number in scale.numbers if number % every == 0)]:
        if all(abs(scale.middle(number) - scale.middle(tick)) >= room for tick in ticks):
            ticks.append(number)
    return ticks
