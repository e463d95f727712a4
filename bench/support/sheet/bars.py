"""SP over the steps of a stretch, as bars. Rests on forms.py, and on a Plan for where the bars stand."""

from .forms import path, short, text
from .lettering import TINY, breadth
from .scale import GAP, NAME_END
from .stretches import FORWARD

OUTLINED_FROM = 6  # a column so wide has an outline of its own
NUMBER_SPACE = 3  # beside the number on a bar, at least
NUMBER_ABOVE = 2  # the bar
GAP_SIGN = "· · ·"  # its first character alone where there is less room
SIGN_ABOVE = 3  # the foot of the bars


def outline(areas, plan, base):
    """Along the tops of areas that touch, and down to the base between those that do not."""
    data, before = "", None
    for area in areas:
        if before is None or not before.touches(area.left):
            data += f"V{short(base)}" if before else ""
            data += f"M{short(area.left)} {short(base)}"
        data += f"V{short(base - area.told * plan.unit)}H{short(area.right)}"
        before = area
    return f"{data}V{short(base)}"


def bars(states, plan, base, gone=""):
    if not states:
        return []
    is_outlined = all(plan.scale.width(state.steps) >= OUTLINED_FROM for state in states)
    areas = plan.areas(states, lambda state: state.sp, max)
    return [path(("bar" if is_outlined else "close") + gone, outline(areas, plan, base))]


def has_number(state, scale):
    return scale.width(state.steps) >= breadth(str(state.sp), TINY) + NUMBER_SPACE


def bar_number(state, plan, base):
    y = base - state.sp * plan.unit - NUMBER_ABOVE
    return text(plan.scale.middle(state.steps), y, str(state.sp), "n m")


def gap_signs(stretch, scale, base):
    """Where a run made steps that the trace leaves out."""
    numbers = [state.steps for state in stretch.states if stretch.direction == FORWARD]
    crossed = [number for before, number in zip(numbers, numbers[1:]) if number > before + 1 and number in scale.gaps]
    sign = GAP_SIGN if scale.gap == GAP else GAP_SIGN[0]
    return [text(scale.left[number] - scale.gap / 2, base - SIGN_ABOVE, sign, "t m") for number in crossed]


def drawn_bars(stretch, plan, base):
    """The name tells the highest where there is no room for the number on each."""
    here, gone = stretch.landing()
    numbered = [state for state in stretch.states if has_number(state, plan.scale)]
    name = "SP" if len(numbered) == len(stretch.states) else f"SP ≤ {plan.highest}"
    parts = bars(gone, plan, base, " gone") + bars(here, plan, base) + gap_signs(stretch, plan.scale, base)
    parts += [bar_number(state, plan, base) for state in numbered]
    return [*parts, text(NAME_END, base, name, "n g e")]
