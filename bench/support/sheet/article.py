"""What the sheet shows of one script: its title, the verdict in words, its picture and its transcript; both pictures
and both transcripts where the two replays differ. Rests on picture.py, transcripts.py, verdicts.py and replays.py."""

from .lettering import written
from .picture import picture
from replays import first_other
from .transcripts import ALIKE_AROUND, Line, lines_of, meanings, side_by_side, transcript_html
from .verdicts import DIFFERS, FAILED, SAME
from .wording import counted

TRACE_LINES_SHOWN = 40  # from the first that differs on


def transcripts_differ(replay):
    return replay.library.transcript != replay.interpreter.transcript


# ---- the verdict in words


def named(verdict):
    return f"<strong>{verdict.symbol} {verdict.word}</strong>"


def remark_html(verdict, remark, anchor=""):
    link = f' <a href="#{anchor}">to the first difference</a>' if anchor else ""
    return f'<p class="remark {verdict.kind}">{named(verdict)} at line {remark.line}: {written(remark.text)}{link}</p>'


def other_errors(replay):
    """What the replayers said on standard error besides the remark, with its place before it or without."""
    failure = replay.failure
    remarked = (failure.text, f"{replay.path}:{failure.line}: {failure.text}")
    said = []
    for who, side in (("library", replay.library), ("interpreter", replay.interpreter)):
        if side.errors and side.errors not in remarked:
            said.append(f"The {who}'s replayer said: {side.errors}")
    return said


def same_remark_html(replay):
    lines = lines_of(replay.library.transcript)
    met = sum(line.kind == "expected" for line in lines)
    expected = f"; {counted(met, 'answer')} as expected" if met else ""
    return f'<p class="remark {SAME.kind}">{named(SAME)}: {counted(len(lines), "line")} alike{expected}</p>'


def remarks_html(replay, difference_anchor):
    said = []
    if replay.difference is not None:
        anchor = difference_anchor if transcripts_differ(replay) else ""
        said.append(remark_html(DIFFERS, replay.difference, anchor))
    if replay.failure is not None:
        said.append(remark_html(FAILED, replay.failure))
        said += [f'<p class="said">{written(words)}</p>' for words in other_errors(replay)]
    return "".join(said) or same_remark_html(replay)


# ---- pictures


def figure(drawn, caption):
    if not drawn:
        return '<p class="nothing">It makes no session: there is nothing to draw.</p>'
    words = f"<figcaption>{caption}</figcaption>" if caption else ""
    return f"<figure>{words}{drawn}</figure>"


def side_picture(side, title, other_at):
    return picture(side.trace, title, meanings(lines_of(side.transcript)), other_at)


def pictures_html(replay):
    if replay.difference is None:
        return figure(side_picture(replay.library, replay.title, None), "")
    other_at = first_other(replay.library.trace, replay.interpreter.trace)
    drawn = [
        figure(side_picture(side, replay.title, other_at), caption)
        for side, caption in ((replay.library, "by the library"), (replay.interpreter, "by the interpreter"))
    ]
    return f'<div class="two">{"".join(drawn)}</div>'


# ---- transcripts, and traces where they are all that differs


def trace_lines(trace):
    return [Line("answer", line.decode("utf-8", "replace")) for line in trace]


def traces_html(replay):
    """Around the first difference; nothing where there is none."""
    first = first_other(replay.library.trace, replay.interpreter.trace)
    if first is None:
        return ""
    part = slice(max(first - ALIKE_AROUND, 0), first + TRACE_LINES_SHOWN)
    left, right = replay.library.trace[part], replay.interpreter.trace[part]
    both = side_by_side(trace_lines(left), trace_lines(right), left, right, "")
    return f"<details open><summary>The traces, around the first difference</summary>{both}</details>"


def both_transcripts_html(replay, difference_anchor):
    left, right = replay.library.transcript, replay.interpreter.transcript
    both = side_by_side(lines_of(left), lines_of(right), left, right, difference_anchor)
    return f"<details open><summary>Both transcripts</summary>{both}</details>"


def one_transcript_html(replay):
    lines = lines_of(replay.library.transcript)
    is_open = " open" if replay.difference is not None or replay.failure is not None else ""
    name = f"Transcript, {counted(len(lines), 'line')}"
    return f"<details{is_open}><summary>{name}</summary>{transcript_html(lines)}</details>"


def transcripts_html(replay, difference_anchor):
    if transcripts_differ(replay):
        return both_transcripts_html(replay, difference_anchor)
    return traces_html(replay) + one_transcript_html(replay)


# ---- all of it


def article(replay, anchor):
    wide = "" if replay.difference is None else " wide"
    shows = f"<p>{written(replay.shows)}</p>" if replay.shows else ""
    difference_anchor = f"{anchor}-difference"
    return (
        f'<article id="{anchor}"><div class="top{wide}"><div class="about">'
        f"<h3>{written(replay.title)}</h3>"
        f'<p class="file">{written(replay.path.name)}</p>{shows}{remarks_html(replay, difference_anchor)}</div>'
        f"{pictures_html(replay)}</div>{transcripts_html(replay, difference_anchor)}</article>"
    )
