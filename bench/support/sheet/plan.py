"""How all the stretches of a picture are drawn: how high, with cell 0 or without, and which areas are taken together
because they are too narrow. Rests on scale.py, and on the stretches that it is made of."""

from dataclasses import dataclass

from .scale import Scale

HIGHEST_BAR = 34
UNIT_LIMIT = 9
CLOSE = 0.01  # areas with no more between them touch


@dataclass
class Area:
    """A part of the lane, and what is told there."""

    left: float
    right: float
    told: object

    def touches(self, left):
        """Whether another that begins there is beside it."""
        return self.right >= left - CLOSE


@dataclass
class Plan:
    scale: Scale
    highest: int  # SP
    has_band: bool  # for cell 0
    grain: float  # narrower areas are taken together

    @property
    def unit(self):
        """The height of one value of SP."""
        return min(UNIT_LIMIT, HIGHEST_BAR / max(self.highest, 1))

    def pieces(self, states, told_of):
        """The areas of states that stand from left to right, each with a list of what is told: of more than one state
        where areas are taken together."""
        pieces = []
        for state in states:
            left, right = self.scale.left[state.steps], self.scale.right(state.steps)
            if pieces and pieces[-1].touches(left) and right - pieces[-1].left <= self.grain:
                pieces[-1].right = right
                pieces[-1].told.append(told_of(state))
            else:
                pieces.append(Area(left, right, [told_of(state)]))
        return pieces

    def areas(self, states, told_of, one_of):
        """The same with one thing told, which `one_of` makes of several; neighbours that tell the same are one area."""
        areas = []
        for piece in self.pieces(states, told_of):
            told = one_of(piece.told)
            if areas and areas[-1].told == told and areas[-1].touches(piece.left):
                areas[-1].right = piece.right
            else:
                areas.append(Area(piece.left, piece.right, told))
        return areas


def plan_of(stretches, grain):
    """Cell 0 is drawn where a dwell is read, and where two replays differ: it may be what differs."""
    marks = [mark for stretch in stretches for mark in stretch.marks]
    has_band = any(mark.call == "dwell" or mark.form == "apart" for mark in marks)
    highest = max(state.sp for stretch in stretches for state in stretch.states)
    return Plan(Scale(stretches), highest, has_band, grain)
