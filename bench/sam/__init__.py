"""An interpreter of document 01 with requests a, b and d to n of document 02, written from the documents and their
settled readings, to compare the proved one with."""

from .console import cell_line, console, formula_console
from .depths import NOT_REACHED, check_depths
from .dwell import dwell
from .formula import evaluate, translate
from .image import pack, unpack
from .machine import Program, Registers, State, forget, reset, run, sound, step, step_back
from .saved import load, save
from .text import assemble, list_program
from .why import why

__all__ = [
    "NOT_REACHED",
    "Program",
    "Registers",
    "State",
    "assemble",
    "cell_line",
    "check_depths",
    "console",
    "dwell",
    "evaluate",
    "forget",
    "formula_console",
    "list_program",
    "load",
    "pack",
    "reset",
    "run",
    "save",
    "sound",
    "step",
    "step_back",
    "translate",
    "unpack",
    "why",
]
