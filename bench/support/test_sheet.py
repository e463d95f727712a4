#!/usr/bin/env python3
"""Tests of the sheet that need no browser. The complaint's replay is that of complaint.py."""

import re
import unittest
from html.parser import HTMLParser
from pathlib import Path

import look
import replays
import sheet
from complaint import COMPLAINT, COMPLAINT_TRACE, FAULTY, FAULTY_TRACE, lines
from sheet import transcripts

VOID = {"meta", "br", "hr", "img", "input", "link"}
LOADING = {"script", "link", "img", "iframe", "object", "embed", "image", "use", "base", "form", "video", "audio"}
DIGITS = "9f86d081884c7d659a2feaa0c55ad015a3bf4f1b2b0b822cd15d6c15b0f00a08"


def replayed(name, library=COMPLAINT, library_trace=COMPLAINT_TRACE, interpreter=None, interpreter_trace=None, **words):
    """A replay by hand; without an interpreter's side both are the same."""
    path = Path("sessions") / f"{name}.txt"
    script = "\n".join(line for line in library.splitlines() if not line.startswith("= ")).encode()
    status = words.get("status", replays.DONE)
    left = replays.Side(status, lines(library), lines(library_trace), words.get("errors", ""))
    right = replays.Side(
        words.get("other_status", status),
        lines(library if interpreter is None else interpreter),
        lines(library_trace if interpreter_trace is None else interpreter_trace),
        words.get("errors", ""),
    )
    return replays.Replay(
        name=name,
        path=path,
        title=words.get("title", f"The title of {name}"),
        shows=words.get("shows", f"What {name} shows"),
        library=left,
        interpreter=right,
        difference=replays.difference(script, left, right),
        failure=replays.failure(path, script, left),
    )


def facts(**words):
    known = dict(library="libsam_c.a", sha256=DIGITS, kit="kit 1", gate="9 passed, 0 failed", gate_date="yesterday")
    return sheet.Facts(**{**known, "commit": "f026ee4", "date": "today", "is_other_library": False, **words})


def faulty():
    return replayed("complaint", FAULTY, FAULTY_TRACE, COMPLAINT, COMPLAINT_TRACE)


def unexpected():
    text = COMPLAINT.replace("= as expected", "= NOT as expected: it was 0 26")
    return replayed("guide_first", text, status=replays.EXPECT_FAILED)


class Page(HTMLParser):
    """The elements of a page, its text, and whether its tags are closed in order."""

    def __init__(self, text):
        super().__init__()
        self.elements, self.open, self.texts, self.style = [], [], [], ""
        self.feed(text)
        assert not self.open, self.open

    def handle_starttag(self, tag, attrs):
        self.elements.append((tag, dict(attrs)))
        if tag not in VOID:
            self.open.append(tag)

    def handle_startendtag(self, tag, attrs):
        self.elements.append((tag, dict(attrs)))

    def handle_endtag(self, tag):
        assert self.open.pop() == tag, tag

    def handle_data(self, data):
        if self.open and self.open[-1] == "style":
            self.style += data
        else:
            self.texts.append(data)

    @property
    def text(self):
        return " ".join("".join(self.texts).split())

    def of_class(self, name, tag=None):
        return [
            attrs for one, attrs in self.elements if name in (attrs.get("class") or "").split() and tag in (None, one)
        ]

    def tags(self, name):
        return [attrs for tag, attrs in self.elements if tag == name]


def page_of(*replayed_scripts, **words):
    return Page(sheet.sheet(facts(**words), list(replayed_scripts)))


class NothingOutside(unittest.TestCase):
    def setUp(self):
        self.text = sheet.sheet(facts(), [faulty(), unexpected(), replayed("teaching_sum")])
        self.page = Page(self.text)

    def test_no_element_loads_or_runs_anything(self):
        self.assertEqual([tag for tag, _ in self.page.elements if tag in LOADING], [])
        for _, attrs in self.page.elements:
            self.assertFalse([name for name in attrs if name.startswith("on") or name in ("src", "srcset", "style")])

    def test_links_lead_to_places_of_the_page(self):
        places = [attrs["id"] for _, attrs in self.page.elements if "id" in attrs]
        self.assertEqual(len(places), len(set(places)))
        for _, attrs in self.page.elements:
            if "href" in attrs:
                self.assertEqual(attrs["href"][0], "#")
                self.assertIn(attrs["href"][1:], places)

    def test_style_loads_nothing(self):
        for word in ("url(", "@import", "@font-face", "expression("):
            self.assertNotIn(word, self.page.style)
        self.assertNotIn("url(", self.text)

    def test_addresses_are_only_the_name_of_svg(self):
        self.assertEqual(set(re.findall("https?:[^\"' <]*", self.text)), {"http://www.w3.org/2000/svg"})

    def test_policy_forbids_all_loading(self):
        policies = [attrs["content"] for attrs in self.page.tags("meta") if "http-equiv" in attrs]
        self.assertEqual(policies, ["default-src 'none'; style-src 'unsafe-inline'"])


class Head(unittest.TestCase):
    def test_verdict_of_scripts_that_are_well(self):
        page = page_of(replayed("complaint"), replayed("teaching_sum"))
        self.assertIn("✓ 2 scripts, 0 differ, 0 failed", page.text)
        self.assertEqual(len(page.of_class("verdict")), 1)
        self.assertTrue(page.of_class("well"))

    def test_verdict_of_scripts_that_are_not(self):
        page = page_of(faulty(), unexpected(), replayed("teaching_sum"))
        self.assertIn("✗ 3 scripts, 1 differ, 1 failed", page.text)

    def test_no_script_is_not_well(self):
        page = page_of()
        self.assertIn("✗ 0 scripts", page.text)

    def test_facts(self):
        page = page_of(replayed("complaint"))
        for words in (DIGITS, "kit 1", "9 passed, 0 failed", "yesterday", "f026ee4", "today", "libsam_c.a"):
            self.assertIn(words, page.text)
        self.assertFalse(page.of_class("other", "p"))

    def test_another_library_is_told(self):
        self.assertIn("Another library", page_of(replayed("complaint"), is_other_library=True).text)

    def test_gate(self):
        self.assertIn("the gate's log is not at hand", page_of(replayed("complaint"), gate="", gate_date="").text)
        self.assertIn("not passed", page_of(replayed("complaint"), gate="8 passed, 10 failed").text)
        self.assertNotIn("not passed", page_of(replayed("complaint"), gate="8 passed, 0 failed").text)

    def test_two_people_sign(self):
        page = page_of(replayed("complaint"))
        self.assertEqual([page.text.count(word) for word in ("Name", "Signature")], [2, 2])

    def test_contents_have_every_script_in_its_group(self):
        names = ("teaching_sum", "odd", "complaint", "request_a_line", "complaint_damage", "guide_first")
        page = page_of(*(replayed(name) for name in names))
        order = ["The complaint", "The guide", "The requests", "The teaching programs", "odd"]
        places = [page.text.index(name) for name in order]
        self.assertEqual(places, sorted(places))
        links = [attrs["href"] for attrs in page.tags("a")]
        self.assertEqual(len(set(links)), len(names))
        for name in names:
            self.assertIn(f"The title of {name}", page.text)

    def test_what_look_asks_of_the_page(self):
        promise = look.Promised()
        promise.feed(sheet.sheet(facts(), [faulty(), replayed("teaching_sum", title="<b>&")]))
        self.assertEqual(promise.verdict, "✗ 2 scripts, 1 differ, 0 failed")
        self.assertEqual(promise.titles, ["The title of complaint", "<b>&"])
        self.assertEqual(list(look.check_promised(promise)), [])


class Escaped(unittest.TestCase):
    WORDS = "<b>&\"'</b></script><!--"

    def test_everything(self):
        transcript = COMPLAINT.replace("Four seconds", self.WORDS).replace("= 60 the machine", f"= 60 {self.WORDS}")
        one = replayed(f"odd{self.WORDS.replace('/', '')}_x", transcript, title=self.WORDS, shows=self.WORDS)
        other = replayed(
            "complaint", transcript, interpreter=COMPLAINT, title=self.WORDS, status=1, errors=self.WORDS
        )
        names = ("library", "sha256", "kit", "gate", "gate_date", "commit", "date")
        page = page_of(one, other, **{name: f"{name} {self.WORDS}" for name in names})
        self.assertEqual(page.tags("b") + page.tags("script"), [])
        self.assertGreaterEqual(page.text.count(self.WORDS), 2 * 3 + 4 + len(names))

    def test_characters_without_a_form_are_told(self):
        transcript = [b"// \x00\x1b[31m\x7f\t\xff\xe2\x80\xae\xc2\x85", b"show", b"= \x08"]
        one = replayed("complaint", title="a\x07b\u202ec\udc80")
        one.library.transcript = one.interpreter.transcript = transcript
        text = sheet.sheet(facts(), [one])
        text.encode("utf-8")
        self.assertIn("\u2400\u241b[31m\u2421\u2409\ufffd\\u202E\\u0085", text)
        self.assertIn("a\u2407b\\u202Ec\\uDC80", text)
        self.assertEqual(re.findall("[\x00-\x09\x0b-\x1f\x7f-\x9f\u202e]", text), [])


class Scripts(unittest.TestCase):
    def test_well(self):
        page = page_of(replayed("complaint"))
        self.assertEqual(["open" in attrs for attrs in page.tags("details")], [False])
        self.assertIn("✓ same: 25 lines alike; 1 answer as expected", page.text)
        self.assertEqual(len(page.tags("figure")), 1)
        for words in ("The title of complaint", "What complaint shows", "complaint.txt", "PUSHIMMF 2.5"):
            self.assertIn(words, page.text)

    def test_no_session(self):
        page = page_of(replayed("complaint", "list\n= 0 done; 0 bytes\n", ""))
        self.assertIn("nothing to draw", page.text)

    def test_failed(self):
        page = page_of(unexpected())
        self.assertEqual(["open" in attrs for attrs in page.tags("details")], [True])
        self.assertIn("✗ FAILED at line 12: NOT as expected: it was 0 26", page.text)
        self.assertEqual(len(page.of_class("unexpected")), 1)

    def test_no_command_has_its_place_once(self):
        told = replayed("odd", "step\n", "", status=replays.NO_COMMAND, errors="sessions/odd.txt:1: no command")
        page = page_of(told)
        self.assertIn("✗ FAILED at line 1: no command", page.text)
        self.assertNotIn("replayer said", page.text)

    def test_different(self):
        page = page_of(faulty())
        self.assertIn("the library says '= 0 FLOAT #00000028', the interpreter '= 0 INT 40'", page.text)
        self.assertEqual(len(page.of_class("apart", "div")), 1)
        self.assertEqual(page.text.count("≠ the first difference"), 1)
        self.assertEqual([attrs["class"] for attrs in page.of_class("first")], ["first"])
        self.assertTrue(any("open" in attrs for attrs in page.tags("details")))

    def test_both_pictures_stand_where_they_differ(self):
        page = page_of(faulty())
        self.assertEqual(len(page.tags("figure")), 2)
        for words in ("by the library", "by the interpreter", "≠ differs from here on", "FLOAT 5.6e-44 s"):
            self.assertIn(words, page.text)

    def test_every_difference_is_marked(self):
        other = COMPLAINT.replace("25 tenths", "24 tenths").replace("= 0 done; PC 2 STOREOFF 0\n", "")
        page = page_of(replayed("complaint", COMPLAINT, interpreter=other))
        self.assertEqual(len(page.of_class("apart", "div")), 2)
        self.assertEqual(len(page.of_class("none")), 1)
        self.assertEqual(len(page.of_class("first")), 1)

    def test_both_transcripts_are_whole(self):
        replay = faulty()
        left, right = replay.library.transcript, replay.interpreter.transcript
        pairs = transcripts.aligned(left, right)
        self.assertEqual([at for at, _ in pairs if at is not None], list(range(len(left))))
        self.assertEqual([at for _, at in pairs if at is not None], list(range(len(right))))

    def test_lines_alike_far_from_a_difference_are_folded(self):
        page = page_of(faulty())
        self.assertIn("18 lines alike", page.text)

    def test_only_the_traces_differ(self):
        page = page_of(replayed("complaint", library_trace=FAULTY_TRACE, interpreter_trace=COMPLAINT_TRACE))
        self.assertIn("DIFFERS", page.text)
        self.assertIn("in the trace the library says", page.text)
        self.assertEqual(len(page.of_class("apart", "div")), 3)

    def test_only_the_statuses_differ(self):
        page = page_of(replayed("complaint", other_status=1))
        self.assertIn("the library's replay ends with status 0, the interpreter's with 1", page.text)
        self.assertEqual(len(page.tags("figure")), 2)


class Lines(unittest.TestCase):
    def kinds(self, text):
        return [line.kind for line in transcripts.lines_of(lines(text))]

    def test_of_each_kind(self):
        self.assertEqual(
            self.kinds(COMPLAINT),
            ["comment"] * 2
            + ["command"]
            + ["source"] * 4
            + ["command", "answer"] * 4
            + ["command", "expected", "command"]
            + ["answer"] * 3
            + ["command", "answer", "command", "refusal"],
        )

    def test_numbers_are_those_of_the_script(self):
        told = [line.number for line in transcripts.lines_of(lines(COMPLAINT)) if line.number]
        self.assertEqual(told, list(range(1, 16)))

    def test_what_only_looks_like_a_refusal(self):
        self.assertEqual(self.kinds("show 5\n= 5 INT 40"), ["command", "answer"])
        self.assertEqual(self.kinds("pack p\n= 0 done; 2 bytes\n= 42 80"), ["command", "answer", "answer"])
        self.assertEqual(self.kinds("program\n= 5 x\nend // so\n= 23 no"), ["command", "source", "command", "refusal"])
        self.assertEqual(self.kinds("image q\n00 01\nend\ndwell\n= 61 x")[-1], "refusal")

    def test_refusals_have_a_symbol_and_their_words(self):
        page = page_of(replayed("complaint"))
        self.assertEqual([attrs["title"] for attrs in page.of_class("refusal")], ["refused"])
        self.assertIn("✗= 60 the machine has not halted", "".join(page.texts))
        told = transcripts.meanings(transcripts.lines_of(lines(COMPLAINT)))
        self.assertEqual(told, {60: "the machine has not halted"})


if __name__ == "__main__":
    unittest.main()
