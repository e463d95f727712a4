"""The verdicts on replayed scripts, on each and on all. Rests on nothing but the Replays of replays.py, which it is
handed."""

from typing import NamedTuple


class Verdict(NamedTuple):
    symbol: str
    word: str
    kind: str  # its class in the page


SAME = Verdict("✓", "same", "well")
DIFFERS = Verdict("≠", "DIFFERS", "differs")
FAILED = Verdict("✗", "FAILED", "failed")


def verdicts_of(replay):
    """On one script: it may differ and fail."""
    differs = [DIFFERS] if replay.difference is not None else []
    failed = [FAILED] if replay.failure is not None else []
    return differs + failed or [SAME]


def counts(replays):
    """How many differ and how many failed."""
    differ = sum(replay.difference is not None for replay in replays)
    failed = sum(replay.failure is not None for replay in replays)
    return differ, failed


def is_well(replays):
    return bool(replays) and counts(replays) == (0, 0)


def summary(replays):
    """The line that ./support ends with."""
    differ, failed = counts(replays)
    return f"{len(replays)} scripts, {differ} differ, {failed} failed"
