#!/usr/bin/env python3
"""Tests of the pictures of sessions, which need no browser. The complaint's trace is that of complaint.py."""

import random
import unittest
import xml.etree.ElementTree as ElementTree

from complaint import COMPLAINT_TRACE, FAULTY_TRACE, lines
from sheet.legend import legend
from sheet.lettering import SMALL, STRONG, TEXT, TINY, breadth
from sheet.picture import picture
from sheet.scale import WIDE_COLUMN, WIDTH, Scale
from sheet.stretches import stretches_of
from sheet.wording import cell_texts

SVG = "{http://www.w3.org/2000/svg}"
BYTES_LIMIT = 60_000  # of one picture
MEANINGS = {9: "no step to take back", 60: "the machine has not halted"}


def drawn(trace, meanings=MEANINGS, other_at=None):
    return ElementTree.fromstring(picture(lines(trace), "a title", meanings, other_at))


def words_of(drawing):
    return ["".join(one.itertext()) for one in drawing.iter(f"{SVG}text")]


def box_of(one):
    """Where a text stands: left, right, top and bottom."""
    classes = one.get("class").split()
    size = TEXT if "t" in classes else SMALL if "s" in classes else TINY
    strong = "".join(part.text or "" for part in one.iter(f"{SVG}tspan"))
    behind = "".join(one.itertext())[len(strong) :]
    wide = breadth(strong, size) * STRONG + breadth(behind, size)
    x, y = float(one.get("x")), float(one.get("y"))
    left = x - wide if "e" in classes else x - wide / 2 if "m" in classes else x
    return left, left + wide, y - size * 0.7, y


def overlapping(drawing):
    """Pairs of texts of which one stands on the other."""
    texts = [(box_of(one), "".join(one.itertext())) for one in drawing.iter(f"{SVG}text")]
    for at, (one, words) in enumerate(texts):
        for other, other_words in texts[at + 1 :]:
            if one[0] < other[1] - 1 and other[0] < one[1] - 1 and one[2] < other[3] - 1 and other[2] < one[3] - 1:
                yield words, other_words


def long_trace(steps, changes=True):
    """A session of so many steps whose cell 0 changes at each."""
    made = [f"3 step 0 {at % 7} {1 + at % 5} 0 {at} INT {at if changes else 7} 0" for at in range(1, steps + 1)]
    return "\n".join(["2 reset 0 0 0 0 0 - - 0", *made, "4 dwell 60 0 1 0 9 INT 7 0"])


def random_trace(seed):
    """Calls in any order, accepted and refused."""
    chooser = random.Random(seed)
    calls = chooser.choices(("reset", "load", "step", "run", "back", "forget", "dwell"), (1, 1, 20, 3, 10, 2, 5), k=90)
    trace, steps = [], 0
    for line, call in enumerate(calls, 1):
        for _ in range(chooser.choice((1, 1, 1, 3, 40)) if call in ("step", "back") else 1):
            number = chooser.choice((0, 0, 0, 0, 0, 60, 9)) if call != "back" or steps else 9
            done = number == 0
            steps = 0 if done and call in ("reset", "load") else steps + done * {"step": 1, "back": -1}.get(call, 0)
            cell = chooser.choice(("- -", "INT 40", "INT -2147483648", "FLOAT #40200000", "FLOAT #7FC00000", "CH 65"))
            told = chooser.choice((0, 3, 300, 100000)) if call in ("run", "dwell") else 0
            trace.append(f"{line} {call} {number} 0 {chooser.choice((0, 1, 2, 12))} 0 {line} {cell} {told}")
    return "\n".join(trace)


class Pictures(unittest.TestCase):
    def test_complaint_is_seen(self):
        words = words_of(drawn(COMPLAINT_TRACE))
        for told in (
            "reset",
            "→ 4 steps",
            "← back 3",
            "INT 40 tenths",
            "FLOAT 2.5 s",
            "INT 40",
            "dwell 25 tenths = 2.5 s",
            "dwell: 60 the machine has not halted",
        ):
            self.assertIn(told, words)

    def test_tags_have_forms_besides_colours(self):
        classes = [one.get("class") for one in drawn(COMPLAINT_TRACE).iter() if one.get("class")]
        for form in ("int", "float", "hatch", "dwell", "no", "on", "off", "float gone"):
            self.assertIn(form, classes)

    def test_it_is_told_to_those_who_hear_it(self):
        drawing = drawn(COMPLAINT_TRACE)
        self.assertEqual(drawing.get("role"), "img")
        self.assertEqual(drawing.find(f"{SVG}title").text, "The session of: a title")
        for words in ("4 steps, then SP 1, cell 0 FLOAT 2.5 s, dwell 25 tenths", "3 steps back", "refused dwell: 60"):
            self.assertIn(words, drawing.find(f"{SVG}desc").text)

    def test_nothing_to_draw(self):
        self.assertEqual(picture([], "a title"), "")
        self.assertEqual(picture([b"no event", b"\xff\xfe", b"1 2 3"], "a title"), "")

    def test_lines_that_are_no_event_are_left_out(self):
        self.assertEqual(words_of(drawn("broken\n" + COMPLAINT_TRACE)), words_of(drawn(COMPLAINT_TRACE)))

    def test_title_is_escaped(self):
        text = picture(lines(COMPLAINT_TRACE), "<b>&\x00\ufffe")
        self.assertIn("<b>&\u2400", ElementTree.fromstring(text).find(f"{SVG}title").text)

    def test_no_band_without_a_dwell(self):
        words = words_of(drawn("\n".join(line for line in COMPLAINT_TRACE.splitlines() if "dwell" not in line)))
        self.assertNotIn("cell 0", words)

    def test_band_where_two_replays_differ(self):
        trace = "\n".join(line for line in FAULTY_TRACE.splitlines() if "dwell" not in line)
        words = words_of(drawn(trace, other_at=7))
        self.assertIn("cell 0", words)
        self.assertIn("cell 0 FLOAT 5.6e-44 s", words)

    def test_every_refusal_has_its_number(self):
        trace = "1 step 10 0 0 0 0 - - 0\n2 reset 11 0 0 0 0 - - 0\n3 reset 0 0 0 0 0 - - 0\n4 back 9 0 0 0 0 - - 0\n"
        trace += "5 forget 14 0 0 0 0 - - 0\n6 run 50 0 1 0 1 INT 1 1\n7 load 67 0 1 0 1 INT 1 0\n"
        drawing = drawn(trace)
        words = words_of(drawing)
        for told in ("step: 10", "reset: 11", "back: 9 no step to take back", "forget: 14", "run: 50", "load: 67"):
            self.assertIn(told, words)
        self.assertEqual(sum(one.get("class") == "no" for one in drawing.iter()), 6)

    def test_repeated_refusals_are_counted(self):
        self.assertIn("back: 9 no step to take back ×3", words_of(drawn("2 back 9 0 0 0 0 - - 0\n" * 3)))

    def test_forget_tells_what_is_kept(self):
        trace = COMPLAINT_TRACE.split("11 dwell")[0] + "12 forget 0 3 1 1 2 FLOAT #40200000 0"
        self.assertIn("forget: 2 kept", words_of(drawn(trace)))

    def test_steps_that_the_trace_leaves_out_are_counted(self):
        trace = long_trace(1000).rsplit("\n", 1)[0] + "\n3 run 50 0 1 0 9 INT 7 100000"
        words = words_of(drawn(trace))
        self.assertIn("→ 100000 steps", words)
        self.assertIn("100000", words)

    def test_values_of_cells(self):
        told = {"FLOAT #40200000": "FLOAT 2.5 s", "FLOAT #3DCCCCCD": "FLOAT 0.1 s", "FLOAT #80000000": "FLOAT -0.0 s"}
        told.update({"FLOAT #7FC00000": "FLOAT NaN", "FLOAT #FF800000": "FLOAT -inf"})
        told.update({"CH 65": "CH 65", "INT -3": "INT -3 tenths"})
        for cell, words in told.items():
            self.assertEqual(cell_texts(*cell.split())[0], words)

    def test_many_turns_are_left_out(self):
        turns = "".join(f"{at} step 0 1 1 0 1 INT 1 0\n{at} back 0 0 0 0 0 - - 0\n" for at in range(2, 22))
        words = words_of(drawn("1 reset 0 0 0 0 0 - - 0\n" + turns))
        self.assertIn("… 29 more turns, in the transcript", words)
        self.assertEqual(sum(word.startswith(("→", "←")) for word in words), 11)

    def test_long_sessions_stay_small(self):
        for steps in (192, 1000, 8000):
            for changes in (True, False):
                text = picture(lines(long_trace(steps, changes)), "a title", MEANINGS)
                ElementTree.fromstring(text)
                self.assertLess(len(text), BYTES_LIMIT)
                self.assertIn(f"→ {steps} steps", text)

    def test_long_session_that_changes_tags_stays_small(self):
        turn = "".join(f"3 step 0 1 1 0 1 {('INT 1', 'FLOAT #40200000')[at % 2]} 0\n" for at in range(400))
        back = "".join(f"4 back 0 1 1 0 1 {('INT 1', 'FLOAT #40200000')[at % 2]} 0\n" for at in range(400))
        text = picture(lines((turn + back) * 6 + "5 dwell 0 0 1 1 1 INT 1 10"), "a title")
        ElementTree.fromstring(text)
        self.assertLess(len(text), BYTES_LIMIT)

    def test_few_steps_back_in_a_long_session_are_wide(self):
        trace = long_trace(500) + "\n5 back 0 1 1 0 1 INT 1 0" * 2
        scale = Scale(stretches_of(lines(trace), {}, None))
        self.assertGreaterEqual(scale.width(499), WIDE_COLUMN)
        self.assertLess(scale.width(200), 1)

    def test_many_gaps(self):
        trace = "1 reset 0 0 0 0 0 - - 0\n" + "".join(f"{at} run 50 0 1 0 1 INT 1 5000\n" for at in range(2, 60))
        scale = Scale(stretches_of(lines(trace), {}, None))
        self.assertGreater(scale.column, 0)
        self.assertLessEqual(max(map(scale.right, scale.numbers)), WIDTH)

    def test_shorter_trace_is_marked_at_its_end(self):
        trace = COMPLAINT_TRACE.split("13 back")[0]
        self.assertIn("≠ the other goes on", words_of(drawn(trace, other_at=len(lines(trace)))))

    def test_labels_do_not_stand_on_each_other(self):
        self.assertEqual(list(overlapping(drawn(COMPLAINT_TRACE))), [])
        self.assertEqual(list(overlapping(drawn(FAULTY_TRACE, other_at=8))), [])
        self.assertEqual(list(overlapping(drawn(long_trace(192)))), [])

    def test_random_sessions(self):
        for seed in range(60):
            with self.subTest(seed=seed):
                trace = random_trace(seed)
                self.assertLess(len(picture(lines(trace), "a title", MEANINGS)), BYTES_LIMIT)
                drawing = drawn(trace)
                self.assertEqual(list(overlapping(drawing)), [])
                for one in drawing.iter(f"{SVG}text"):
                    left, right, _, _ = box_of(one)
                    self.assertTrue(-1 <= left and right <= WIDTH + 1, "".join(one.itertext()))

    def test_legend_is_well_formed(self):
        for drawing, words in legend():
            ElementTree.fromstring(drawing)
            self.assertTrue(words)


if __name__ == "__main__":
    unittest.main()
