"""The consoles, started in bench/: `python3 -m sam < source`, and with `--formula` that of formulas."""

import sys

from . import console, formula_console

printed = formula_console if sys.argv[1:] == ["--formula"] else console
sys.stdout.write(printed(sys.stdin.buffer.read()))
