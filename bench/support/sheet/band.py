"""Cell 0 over the steps of a stretch, as a band: its tag as a form, and words where there is room. Rests on forms.py
and wording.py, and on a Plan for where the areas stand."""

from .forms import path, rectangle, short, text
from .lettering import SMALL, breadth
from .plan import Area
from .scale import NAME_END
from .stretches import State
from .wording import NO_CELL, SEVERAL, cell_texts

BAND = 18
FOOT = 5  # from the foot of the words to that of the band
ROOM_BESIDE = 6  # words, at least, on both sides
PLATE_INSET, PLATE_BESIDE = 3, 1  # of the plate behind words: from the band's edges, and on each side of the words
WORD_ROOM = 24  # for the shortest
TAGS_WITH_A_STYLE = ("INT", "FLOAT")
HATCH_APART = 6
DOTS_APART, DOTS_INSET, DOTS_MARGINS = 7, 3, 5  # from one to the next; from the edges; at both sides together
DOTS_DOWN = BAND - 8  # to the second row
DOT = "h1.6v1.6h-1.6z"


def one_cell(cells):
    """What stands for several contents of cell 0 that are too close to be drawn one by one."""
    held = {cell for cell in cells if cell[0] != NO_CELL} or set(cells)
    if len(held) == 1:
        return held.pop()
    tags = {tag for tag, _ in held}
    return (tags.pop() if len(tags) == 1 else SEVERAL), None


def readable(areas):
    """Areas of cell 0 with neighbours of one tag made one where none of them has room for a word."""
    made, is_narrow = [], False
    for area in areas:
        was_narrow, is_narrow = is_narrow, area.right - area.left < WORD_ROOM
        tag, _ = area.told
        if was_narrow and is_narrow and made[-1].told[0] == tag and made[-1].touches(area.left):
            made[-1] = Area(made[-1].left, area.right, (tag, None))
        else:
            made.append(area)
    return made


def places(start, room, apart):
    """As many as there is room for."""
    return [start + apart * at for at in range(int(max(room, -1) // apart) + 1)]


def hatching(left, right, y, gone):
    lines = [f"M{short(x)} {short(y + BAND)}l{BAND} -{BAND}" for x in places(left, right - left - BAND, HATCH_APART)]
    return [path("hatch" + gone, "".join(lines))] if lines else []


def dotting(left, right, y):
    across = places(left + DOTS_INSET, right - left - DOTS_MARGINS, DOTS_APART)
    dots = [f"M{short(x)} {short(y + DOTS_INSET)}{DOT}m0 {DOTS_DOWN}{DOT}" for x in across]
    return [path("dots", "".join(dots))] if dots else []


def tag_area(tag, left, right, y, gone=""):
    """Plain for INT, hatched for FLOAT, dotted for any other."""
    classes = (tag.lower() if tag in TAGS_WITH_A_STYLE else "other") + gone
    area = rectangle(classes, left, y, right - left, BAND)
    if tag == "INT":
        return [area]
    return [area, *(hatching(left, right, y, gone) if tag == "FLOAT" else dotting(left, right, y))]


def label(tag, words, left, right, y, wide):
    """Words in the middle of a tag's area, on a plate where that is not plain."""
    x, plate_wide = (left + right - wide) / 2 - PLATE_BESIDE, wide + 2 * PLATE_BESIDE
    plate = rectangle("plate", x, y + PLATE_INSET, plate_wide, BAND - 2 * PLATE_INSET)
    told = text((left + right) / 2, y + BAND - FOOT, words, "s m")
    return [told] if tag == "INT" else [plate, told]


def longest_label(tag, value, left, right, y):
    """The longest words that there is room for, and whether they tell the value."""
    for words in cell_texts(tag, value):
        wide = breadth(words, SMALL)
        if wide + ROOM_BESIDE <= right - left:
            return label(tag, words, left, right, y, wide), words != tag and value is not None
    return [], False


def band(states, plan, y, gone=""):
    """Cell 0, and whether what it holds in the end, at the right, is told there."""
    drawn, is_told = [], True
    for area in readable(plan.areas(states, State.cell, one_cell)):
        left, right, (tag, value) = area.left, area.right, area.told
        if tag == NO_CELL:
            drawn.append(path("rule", f"M{short(left)} {short(y + BAND)}H{short(right)}"))
            is_told = True
        else:
            words, is_told = longest_label(tag, value, left, right, y)
            drawn += tag_area(tag, left, right, y, gone) + words
    return drawn, is_told


def drawn_band(stretch, plan, y):
    """The same of a stretch, with what it took back and the band's name."""
    here, gone = stretch.landing()
    drawn, is_told = band(here, plan, y)
    drawn_gone, _ = band(gone, plan, y, " gone")
    return [*drawn_gone, *drawn, text(NAME_END, y + BAND - FOOT, "cell 0", "n g e")], is_told
