"""The stretches of a session, from the lines of its trace (docs/SUPPORT.md, "The two replayers"): a stretch is what was
done in one direction, with the marks of dwells, refusals and forgets. Rests on wording.py."""

from dataclasses import dataclass, field

from .wording import seconds

DONE = 0  # the number of a call that was accepted
FORWARD, STILL, BACK = 1, 0, -1
BEGINNINGS = ("reset", "load")


@dataclass
class Event:
    """A line of the trace."""

    line: int
    call: str
    number: int
    sp: int
    halted: bool
    kept: int
    tag: str
    value: str
    told: int


def event_of(words):
    """The event that a line's ten words tell; nothing where they are none."""
    try:
        line, call, number, _pc, sp, halt, kept, tag, value, told = words
        return Event(int(line), call, int(number), int(sp), int(halt) != 0, int(kept), tag, value, int(told))
    except ValueError:
        return None


def events_of(trace_lines):
    """For each line its event, or nothing where it is none."""
    return [event_of(line.decode("utf-8", "replace").split()) for line in trace_lines]


@dataclass
class State:
    """The machine with so many steps in effect."""

    steps: int
    sp: int
    tag: str
    value: str
    halted: bool

    def cell(self):
        return self.tag, self.value


@dataclass
class Mark:
    """Something to tell at a place: the call, the mark's form, the words in bold and those behind them."""

    steps: int
    call: str
    form: str  # dwell, no, kept, apart or cell
    strong: str
    words: str = ""
    times: int = 1

    def tells_the_same(self, other):
        return (self.steps, self.strong, self.words) == (other.steps, other.strong, other.words)

    def behind(self):
        """The words behind those in bold."""
        return self.words + (f" ×{self.times}" if self.times > 1 else "")

    def text(self):
        return f"{self.strong} {self.behind()}".strip()


@dataclass
class Stretch:
    """What was done in one direction. Its first state is the one that it begins at."""

    begun_by: str  # reset or load; nothing where it goes on from the stretch before
    states: list
    first_line: int
    last_line: int
    direction: int = STILL
    made: int = 0
    marks: list = field(default_factory=list)
    walls: list = field(default_factory=list)  # the oldest places that can be gone back to, after forgets

    def landing(self):
        """The states from left to right: those that are in effect in its end, and those that it took back."""
        if self.direction != BACK:
            return self.states, []
        return self.states[-1:], self.states[-2::-1]


class Session:
    """The stretches that the events make, one event after the other."""

    def __init__(self, meanings):
        self.meanings = meanings
        self.stretches = []
        self.traced_steps = {}  # by the script's line
        self.steps = 0

    def take(self, event):
        self.go(event)
        self.latest(event).last_line = event.line
        self.tell(event)

    def go(self, event):
        """To where an event leads."""
        done = event.number == DONE
        if done and event.call in BEGINNINGS:
            self.steps = 0
            self.begin(event.call, event)
        elif done and event.call == "step":
            self.traced_steps[event.line] = self.traced_steps.get(event.line, 0) + 1
            self.move(FORWARD, 1, event)
        elif done and event.call == "back":
            self.move(BACK, 1, event)
        elif event.call == "run":
            self.move(FORWARD, event.told - self.traced_steps.get(event.line, 0), event)

    def state(self, event):
        return State(self.steps, event.sp, event.tag, event.value, event.halted)

    def begin(self, call, event):
        self.stretches.append(Stretch(call, [self.state(event)], event.line, event.line))

    def latest(self, event):
        if not self.stretches:
            self.begin("", event)
        return self.stretches[-1]

    def move(self, direction, count, event):
        if count <= 0:
            return
        stretch = self.latest(event)
        if stretch.direction == -direction:
            stretch = Stretch("", [stretch.states[-1]], event.line, event.line)
            self.stretches.append(stretch)
        self.steps = max(self.steps + direction * count, 0)
        stretch.direction = direction
        stretch.made += count
        stretch.states.append(self.state(event))

    def tell(self, event):
        """The mark of an event that has one."""
        if event.number != DONE:
            self.mark(event.call, "no", f"{event.call}: {event.number}", self.meanings.get(event.number, ""))
        elif event.call == "dwell":
            self.mark(event.call, "dwell", f"dwell {event.told} tenths", f"= {seconds(event.told)}")
        elif event.call == "forget":
            self.mark(event.call, "kept", "", f"forget: {event.kept} kept")
            self.stretches[-1].walls.append(max(self.steps - event.kept, 0))

    def mark(self, *told):
        marks = self.stretches[-1].marks
        mark = Mark(self.steps, *told)
        if marks and marks[-1].tells_the_same(mark):
            marks[-1].times += 1
        else:
            marks.append(mark)


def stretches_of(trace_lines, meanings, other_at):
    """The stretches of a trace, with a mark at line `other_at`, from 0, where it is no longer the other replayer's.
    `meanings` are the words of numbers."""
    session = Session(meanings)
    for at, event in enumerate(events_of(trace_lines)):
        if event is not None:
            session.take(event)
        if at == other_at and session.stretches:
            session.mark("", "apart", "≠ differs from here on")
    if other_at == len(trace_lines) and session.stretches:
        session.mark("", "apart", "≠ the other goes on")
    return session.stretches
