"""The forms that pictures are drawn with, as SVG, and their style. Rests on lettering.py."""

from .lettering import written

NAMESPACE = 'xmlns="http://www.w3.org/2000/svg"'
HALF_SYMBOL = 4.5
STOP_SIDE = 8

# Okabe and Ito's colours, and lighter ones of them for areas; every one has a form or a word of its own besides.
STYLE = """
svg.session text{font-family:system-ui,"Segoe UI",Roboto,Helvetica,Arial,sans-serif;fill:#111}
svg.session .t{font-size:12px;paint-order:stroke;stroke:#fff;stroke-width:3px;stroke-linejoin:round}
svg.session .s{font-size:11px}svg.session .n{font-size:10.5px}svg.session .b{font-weight:700}
svg.session .g{fill:#555}svg.session .e{text-anchor:end}svg.session .m{text-anchor:middle}
svg.session .grid{stroke:#e2e2e2;stroke-width:1;fill:none}svg.session .rule{stroke:#bbb;stroke-width:1;fill:none}
svg.session .bar{fill:#c9ccd1;stroke:#555}svg.session .close{fill:#9fa4ac}
svg.session .gone{fill-opacity:.3;stroke-dasharray:3 2}svg.session .bar.gone{stroke:#888;fill:#fff}
svg.session .on{stroke:#0072b2;fill:none;stroke-width:2}svg.session .onhead{fill:#0072b2}
svg.session .off{stroke:#b84a00;fill:none;stroke-width:2;stroke-dasharray:5 3}svg.session .offhead{fill:#b84a00}
svg.session .int{fill:#d6ebf8;stroke:#0072b2}svg.session .float{fill:#fdebc8;stroke:#9a6a00}
svg.session .other{fill:#f4f4f4;stroke:#555}svg.session .hatch{stroke:#e69f00;stroke-width:1.4;fill:none}
svg.session .gone.hatch{stroke:#f3d59a}svg.session .dots{fill:#888}svg.session .plate{fill:#fff;fill-opacity:.88}
svg.session .dwell{fill:#00694e}svg.session .no{stroke:#b8003a;stroke-width:2.4;fill:none}
svg.session .kept{fill:#fff;stroke:#7a3e68;stroke-width:1.8}svg.session .wall{stroke:#7a3e68;stroke-width:3;fill:none}
svg.session .cell{fill:#fff;stroke:#555;stroke-width:1.5}svg.session .lead{stroke:#777;stroke-width:1;fill:none}
svg.session .apart{fill:#ffe27a;stroke:#111;stroke-width:1.5}
"""


def short(number):
    """A length, to a tenth."""
    return f"{number:.1f}".rstrip("0").rstrip(".")


def opening(width, height, attribute):
    return f'<svg class="session" viewBox="0 0 {short(width)} {short(height)}" {attribute} {NAMESPACE}>'


def text(x, y, words, classes):
    return f'<text x="{short(x)}" y="{short(y)}" class="{classes}">{written(words)}</text>'


def path(classes, data):
    return f'<path class="{classes}" d="{data}"/>'


def rectangle(classes, x, y, width, height):
    place = f'x="{short(x)}" y="{short(y)}"'
    return f'<rect class="{classes}" {place} width="{short(width)}" height="{short(height)}"/>'


def symbol(form, x, y):
    """The form of a mark, around a point."""
    s = HALF_SYMBOL
    at = f"M{short(x)} {short(y)}"
    if form == "no":
        return path("no", f"{at}m-{s} -{s}l{2 * s} {2 * s}m0 -{2 * s}l-{2 * s} {2 * s}")
    if form == "dwell":
        return path("dwell", f"{at}m0 -{s + 1}l{s + 1} {s + 1}l-{s + 1} {s + 1}l-{s + 1} -{s + 1}z")
    if form == "kept":
        return path("kept", f"{at}m-{s} -{s}h{2 * s}l-{s} {2 * s}z")
    if form == "apart":
        return path("apart", f"{at}m0 -{s + 1}l{s + 1} {2 * s + 1}h-{2 * s + 2}z")
    return rectangle(form, x - s + 1, y - s + 1, 2 * s - 2, 2 * s - 2)


def stop(left, y):
    """The square of a machine that has halted, with y in its middle."""
    return rectangle("stop", left, y - STOP_SIDE / 2, STOP_SIDE, STOP_SIDE)
