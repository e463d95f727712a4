"""The sheet that two people look at and sign before a site receives the library: one HTML page with nothing outside it.

What a script holds is shown as it is: text is escaped, and characters without a form of their own are told. Nothing is
said by colour alone: symbols and words stand beside it. Rests on article.py for each script, on legend.py, on
verdicts.py and on style.py.
"""

import re
from dataclasses import dataclass

from .article import article
from .legend import legend
from .lettering import written
from .style import style
from .verdicts import FAILED, SAME, is_well, summary, verdicts_of

POLICY = "default-src 'none'; style-src 'unsafe-inline'"
HEADING = "Support sheet"
PURPOSE = "the proved dwell machine, before a site receives it"
GROUPS = {  # by the part of a script's name before the first `_`, in this order; then any others
    "complaint": "The complaint",
    "guide": "The guide",
    "request": "The requests",
    "teaching": "The teaching programs",
}
SIGNERS = 2

WELL_MEANS = (
    "Every script was replayed by the library and by the independent interpreter: both printed the same, byte for "
    "byte, and gave every answer that the scripts expect."
)
NOT_WELL_MEANS = (
    "The library and the independent interpreter do not agree, or a script was not answered as it expects: nothing "
    "goes to a site before that is explained."
)
NO_SCRIPT_MEANS = "No script was replayed: this sheet says nothing about the library."
HOW_TO_READ = (
    "From left to right stand the steps in effect, those made less those taken back, since the reset or load; "
    "downwards goes the time. In a long session the steps around a turn are drawn wider. The numbers of lines are "
    "those of the script."
)


@dataclass
class Facts:
    """What is replayed, and what is known of it."""

    library: str
    sha256: str
    kit: str  # nothing where it is not known
    gate: str  # the last line of the gate's log, nothing where that is not at hand
    gate_date: str
    commit: str
    date: str
    is_other_library: bool  # than the one that is built here


# ---- the head


def meaning(replays):
    if not replays:
        return NO_SCRIPT_MEANS
    return WELL_MEANS if is_well(replays) else NOT_WELL_MEANS


def verdict_html(replays):
    verdict = SAME if is_well(replays) else FAILED
    symbol = f'<span class="symbol">{verdict.symbol}</span>'
    return (
        f'<div class="verdict {verdict.kind}"><p class="result">{symbol} {summary(replays)}</p>'
        f"<p>{meaning(replays)}</p></div>"
    )


def fact(name, value):
    return f"<div><dt>{name}</dt><dd>{value}</dd></div>"


def gate_html(facts):
    if not facts.gate:
        return "the gate's log is not at hand"
    when = f", {written(facts.gate_date)}" if facts.gate_date else ""
    is_passed = re.search(r"\b0 failed\s*$", facts.gate) is not None
    return ("" if is_passed else "✗ not passed: ") + f"<code>{written(facts.gate)}</code>{when}"


def facts_html(facts):
    other = '<p class="other"><strong>! Another library</strong> than the one that is built here.</p>'
    entries = [
        fact("library", written(facts.library)),
        fact("sha256", f"<code>{written(facts.sha256)}</code>"),
        fact("kit", written(facts.kit) or "not known"),
        fact("gate", gate_html(facts)),
        fact("commit", f"<code>{written(facts.commit)}</code>" if facts.commit else "not known"),
        fact("replayed", written(facts.date)),
    ]
    return f'{other if facts.is_other_library else ""}<dl class="facts">{"".join(entries)}</dl>'


def signatures_html():
    line = '<div class="sign"><span>Name</span><span>Signature</span><span>Date</span></div>'
    return f'<section class="signs"><h2>Looked at and signed by two people</h2>{line * SIGNERS}</section>'


def legend_html():
    entries = "".join(f"<li>{drawn}<span>{words}</span></li>" for drawn, words in legend())
    return f'<section class="legend"><h2>How to read the pictures</h2><p>{HOW_TO_READ}</p><ul>{entries}</ul></section>'


# ---- the scripts, in groups


def anchor_of(at):
    return f"script-{at + 1}"


def group_of(replay):
    return replay.name.split("_", 1)[0]


def group_order(group):
    """That of GROUPS, then by the name."""
    known = list(GROUPS)
    return known.index(group) if group in known else len(known), group


def grouped(replays):
    """(Name of a group, list of (anchor, replay)) of each."""
    for group in sorted({group_of(replay) for replay in replays}, key=group_order):
        members = [(anchor_of(at), replay) for at, replay in enumerate(replays) if group_of(replay) == group]
        yield GROUPS.get(group, group), members


def badges_html(replay):
    verdicts = verdicts_of(replay)
    return " ".join(f'<span class="badge {one.kind}">{one.symbol} {one.word}</span>' for one in verdicts)


def contents_html(replays):
    parts = []
    for name, members in grouped(replays):
        entries = "".join(
            f'<li>{badges_html(replay)} <a href="#{anchor}">{written(replay.title)}</a></li>'
            for anchor, replay in members
        )
        parts.append(f"<section><h3>{written(name)}</h3><ul>{entries}</ul></section>")
    return f'<nav class="contents"><h2>The scripts</h2><div>{"".join(parts)}</div></nav>'


def scripts_html(replays):
    parts = []
    for name, members in grouped(replays):
        articles = "".join(article(replay, anchor) for anchor, replay in members)
        parts.append(f"<section><h2>{written(name)}</h2>{articles}</section>")
    return "".join(parts)


# ---- the page


def sheet(facts, replays):
    """The page. `replays` are those of replays.py, in the order that they are shown within their groups."""
    return (
        f'<!DOCTYPE html>\n<html lang="en">\n<head>\n<meta charset="utf-8">\n'
        f'<meta http-equiv="Content-Security-Policy" content="{POLICY}">\n'
        f'<meta name="viewport" content="width=device-width, initial-scale=1">\n'
        f"<title>{HEADING}: {summary(replays)}</title>\n<style>{style(facts.sha256)}</style>\n</head>\n<body>\n"
        f"<header><h1>{HEADING}: {PURPOSE}</h1>{verdict_html(replays)}{facts_html(facts)}</header>\n"
        f"{signatures_html()}\n{contents_html(replays)}\n{legend_html()}\n"
        f"<main>{scripts_html(replays)}</main>\n</body>\n</html>\n"
    )
