"""The sheet: `page` puts it together of a head and an `article` for each script, whose session `picture` draws."""

from .page import Facts, sheet
from .verdicts import is_well, summary

__all__ = ["Facts", "is_well", "sheet", "summary"]
