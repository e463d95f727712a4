"""The marks below a stretch, of dwells, refusals and forgets: each has its symbol below its step and its words beside
that, on a line where they do not stand on those of others. Rests on forms.py and lettering.py, and on a Scale for where
the steps stand."""

from typing import NamedTuple

from .forms import HALF_SYMBOL, path, short, symbol, text
from .lettering import STRONG, TEXT, breadth, written
from .scale import GUTTER, WIDTH
from .wording import counted

LINES_LIMIT = 12
LINE_HEIGHT = 16
FOOT = 12  # from a line's top to the foot of its words
LEAD_SPACE = 1  # beside the line from a stretch to a symbol
BESIDE = HALF_SYMBOL + 4  # from a symbol's middle to its words
SPACE_BEHIND = 4  # words
ORDER = {"apart": 0, "cell": 2}  # of forms at one place
ORDER_OF_OTHERS = 1


# ---- the rows of a mark's words


def row_breadth(mark, at, row):
    """Of a row of its words; the words in bold are in the first."""
    strong = mark.strong if at == 0 else ""
    return breadth(strong, TEXT) * STRONG + breadth(f" {row}" if strong and row else row, TEXT)


def widest(mark, rows):
    return max(row_breadth(mark, at, row) for at, row in enumerate(rows))


def rows_of(mark, room):
    """The words behind those in bold, in rows that are not wider than the room where a word is not."""
    rows = [""]
    for word in mark.behind().split():
        longer = f"{rows[-1]} {word}".strip()
        if row_breadth(mark, len(rows) - 1, longer) <= room or not (rows[-1] or mark.strong):
            rows[-1] = longer
        else:
            rows.append(word)
    return rows


# ---- where they stand


class Taken(NamedTuple):
    """A part of a line that a mark takes, and the place of its symbol."""

    left: float
    right: float
    place: float


class Lines:
    """The lines below a stretch, and what of them is taken."""

    def __init__(self):
        self.taken = [[] for _ in range(LINES_LIMIT)]

    def is_free(self, line, left, right):
        return line < LINES_LIMIT and all(right < taken.left or left > taken.right for taken in self.taken[line])

    def is_way_down(self, line, x):
        """Whether nothing but marks of the same place is above."""
        above = [taken for taken_line in self.taken[:line] for taken in taken_line]
        return all(x + LEAD_SPACE < taken.left or x - LEAD_SPACE > taken.right or taken.place == x for taken in above)

    def line_for(self, x, left, right, rows, may_cross):
        """The first line with room for so many rows, below the earlier marks of the same place; nothing where there is
        none."""
        earlier = [line for line in range(LINES_LIMIT) for taken in self.taken[line] if taken.place == x]
        for line in range(max(earlier, default=-1) + 1, LINES_LIMIT):
            is_free = all(self.is_free(line + at, left, right) for at in range(rows))
            if is_free and (may_cross or self.is_way_down(line, x)):
                return line
        return None

    def take(self, line, x, left, right, rows=1):
        for at in range(rows):
            self.taken[line + at].append(Taken(left, right, x))

    def count(self):
        return max((line + 1 for line in range(LINES_LIMIT) if self.taken[line]), default=0)


def sides(mark, x, is_leftmost):
    """Where the words of a mark may stand, as (whether left of its symbol, their rows): in one row at the right; in two
    there, where words at the left would be in the way of marks at the left; in one at the left; in more."""
    right, left = WIDTH - x - BESIDE, x - BESIDE
    at_right, at_left = rows_of(mark, right), rows_of(mark, left)
    if len(at_right) <= (1 if is_leftmost else 2) and widest(mark, at_right) <= right:
        yield False, at_right
    if len(at_left) == 1 and widest(mark, at_left) <= left:
        yield True, at_left
    yield left > right, at_left if left > right else at_right


def placed(mark, x, is_leftmost, lines):
    """The line of a mark, whether its words are at the left, and their rows; nothing where there is no room. The line
    to the symbol goes behind other words only where it must."""
    for may_cross in (False, True):
        for is_left, rows in sides(mark, x, is_leftmost):
            wide = BESIDE + widest(mark, rows) + SPACE_BEHIND
            left, right = (x - wide, x + HALF_SYMBOL) if is_left else (x - HALF_SYMBOL, x + wide)
            line = lines.line_for(x, left, right, len(rows), may_cross)
            if line is not None:
                lines.take(line, x, left, right, len(rows))
                return line, is_left, rows
    return None


def placing_order(mark):
    """From right to left, so that words at the right of their symbols are not in the way of those below."""
    return -mark.steps, ORDER.get(mark.form, ORDER_OF_OTHERS)


# ---- drawing them


def mark_words(mark, x, y, is_left, rows):
    """The words of a mark beside its symbol; y is the top of its line."""
    at, classes = (x - BESIDE, "t e") if is_left else (x + BESIDE, "t")
    strong = f'<tspan class="b">{written(mark.strong)}</tspan>' if mark.strong else ""
    for count, row in enumerate(rows):
        first = strong + (" " if strong and row else "") if count == 0 else ""
        place = f'x="{short(at)}" y="{short(y + LINE_HEIGHT * count + FOOT)}"'
        yield f'<text {place} class="{classes}">{first}{written(row)}</text>'


def symbols_alone(marks_alone, lines, y):
    """On the first line, where that is free."""
    for mark, x in marks_alone:
        if lines.is_free(0, x - HALF_SYMBOL, x + HALF_SYMBOL):
            lines.take(0, x, x - HALF_SYMBOL, x + HALF_SYMBOL)
            yield symbol(mark.form, x, y + LINE_HEIGHT / 2)


def drawn_marks(marks, scale, y):
    """The marks below y, and the y where they end. Where words have no room the symbol stands alone."""
    leads, drawn, lines, alone = [], [], Lines(), []
    leftmost = min((mark.steps for mark in marks), default=0)
    for mark in sorted(marks, key=placing_order):
        x = scale.middle(mark.steps)
        place = placed(mark, x, mark.steps == leftmost, lines)
        if place is None:
            alone.append((mark, x))
            continue
        line, is_left, rows = place
        top = y + LINE_HEIGHT * line
        middle = top + LINE_HEIGHT / 2
        leads += [path("lead", f"M{short(x)} {short(y)}V{short(middle - HALF_SYMBOL)}")] if line else []
        drawn += [symbol(mark.form, x, middle), *mark_words(mark, x, top, is_left, rows)]
    drawn += symbols_alone(alone, lines, y)
    bottom = y + LINE_HEIGHT * lines.count()
    if alone:
        words = f"… {counted(len(alone), 'more mark')}, in the transcript"
        drawn.append(text(GUTTER, bottom + FOOT, words, "t g"))
        bottom += LINE_HEIGHT
    return leads + drawn, bottom
