"""The complaint's transcript and trace, written by hand from docs/SUPPORT.md, for the tests of the sheet and its
pictures. Rests on nothing of the bench."""

import re

COMPLAINT = """\
// The complaint
// Four seconds, a trial, stepped back.
program
PUSHIMM 40
PUSHIMMF 2.5
STOREOFF 0
STOP
end
= 0 done; length 4
reset 16 16 0
= 0 done
run 100
= 0 done; 4 steps
dwell
= 0 done; 25 tenths
expect 0 25
= as expected
back 3
= 0 done; PC 3 STOP
= 0 done; PC 2 STOREOFF 0
= 0 done; PC 1 PUSHIMMF #40200000
show 0
= 0 INT 40
dwell
= 60 the machine has not halted; 0 tenths
"""
COMPLAINT_TRACE = """\
9 reset 0 0 0 0 0 - - 0
10 step 0 1 1 0 1 INT 40 0
10 step 0 2 2 0 2 INT 40 0
10 step 0 3 1 0 3 FLOAT #40200000 0
10 step 0 3 1 1 4 FLOAT #40200000 0
10 run 0 3 1 1 4 FLOAT #40200000 4
11 dwell 0 3 1 1 4 FLOAT #40200000 25
13 back 0 3 1 0 3 FLOAT #40200000 0
13 back 0 2 2 0 2 INT 40 0
13 back 0 1 1 0 1 INT 40 0
15 dwell 60 1 1 0 1 INT 40 0
"""
# By a library whose step-back leaves tags
FAULTY = COMPLAINT.replace("= 0 INT 40", "= 0 FLOAT #00000028")
FAULTY_TRACE = re.sub("(?m)^(13 back 0 [21].*|15.*)INT 40", r"\1FLOAT #00000028", COMPLAINT_TRACE)


def lines(text):
    """As the replayers' output is handed over."""
    return text.encode().splitlines()
