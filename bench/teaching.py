#!/usr/bin/env python3
"""Prints what the published programs of document 004 do, the landing panel and the complaint: the format is in
README.md. With --sources it prints the programs instead, as crates/teaching reads them. The depth lists beside them are
judged, and the runs held to them."""

import sys
from pathlib import Path

import depth_list
import sam
from sam.machine import CELL_LIMIT, OUTPUT_LIMIT

FOLDER = Path(__file__).parent / "teaching"

# In the order of the slides; then the panel and the complaint.
PROGRAMS = """
    sum product xy_first xy_addsp xy_link addsp abs_number abs_label abs_jump conditional loop loop_better
    call abs_call factorial power panel complaint
""".split()

# Those that have a depth list beside them. The others have an instruction that no list is for, save the complaint: its
# end follows its last place.
LISTED = """
    sum product xy_first xy_addsp xy_link abs_number abs_label abs_jump conditional loop loop_better panel
""".split()

COMPLAINT_CELLS = 16
COMPLAINT_PLACES = 6
TRIAL_STEPS = 2

# By hand: twelve instructions, each made once, of which the last is at 11; the dwell stays; L, O, B, B, Y in ASCII.
PANEL_PRINTED = "end 0 steps 12\nPC 11 SP 1 FBR 0\n0 INT 40\nout 4C 4F 42 42 59\n"


def source_of(name):
    return (FOLDER / f"{name}.sam").read_bytes()


def cell_zero(state):
    return sam.cell_line(0, *state.cell(0))


def take_steps(program, state, count):
    for _ in range(count):
        assert sam.step(program, state) == 0


def program_of(name):
    return depth_list.assembled(source_of(name))


def depths_of(name):
    return depth_list.read((FOLDER / f"{name}.depths").read_text(encoding="ascii"))


def complaint():
    """Cell 0 before the trial, after it, and after the technician's one step-back."""
    program = program_of("complaint")
    state = sam.State(bits=[0] * COMPLAINT_CELLS, tags=[0] * COMPLAINT_CELLS, history=[0] * COMPLAINT_PLACES)
    assert sam.reset(program, state) == 0
    take_steps(program, state, 1)
    lines = ["before " + cell_zero(state)]
    take_steps(program, state, TRIAL_STEPS)
    lines.append("trial " + cell_zero(state))
    assert sam.step_back(program, state) == 0
    lines.append("back " + cell_zero(state))
    return "".join(lines)


def check_panel():
    assert sam.console(source_of("panel")) == PANEL_PRINTED


def check_run(program, depths):
    """Every state from a reset to the end has SP as the listed depth of its PC."""
    state = sam.State([0] * CELL_LIMIT, [0] * CELL_LIMIT, [], bytearray(OUTPUT_LIMIT))
    assert sam.reset(program, state) == 0
    while not state.registers.halt:
        assert depths[state.registers.pc] == state.registers.sp
        take_steps(program, state, 1)
    assert depths[state.registers.pc] == state.registers.sp


def has_proposal(program):
    try:
        return bool(depth_list.proposed(program))
    except depth_list.NoList:
        return False


def check_lists():
    """Each is accepted and right for the run; the other programs have none."""
    for name in LISTED:
        program, depths = program_of(name), depths_of(name)
        assert sam.check_depths(program, CELL_LIMIT, depths) == (0, 0), name
        check_run(program, depths)
    assert [name for name in PROGRAMS if has_proposal(program_of(name))] == LISTED


def sources():
    """Each program but the complaint, with a line of `~` and its name behind it."""
    return b"".join(source_of(name) + f"~{name}\n".encode() for name in PROGRAMS if name != "complaint")


def main():
    if "--sources" in sys.argv[1:]:
        sys.stdout.buffer.write(sources())
        return
    check_panel()
    check_lists()
    for name in PROGRAMS:
        sys.stdout.write(f"program {name}\n{sam.console(source_of(name))}")
    sys.stdout.write(complaint())


if __name__ == "__main__":
    main()
