#!/usr/bin/env python3
"""Tests of ./support as people call it: its words, statuses and lines; the fault of the complaint; the two replayers on
scripts that are drawn; and what docs/SUPPORT.md and docs/GUIDE.md say of the numbers.

The library and target/support/replay have to be there; bench/run.sh calls ./support before."""

import os
import pty
import random
import re
import select
import subprocess
import sys
import tempfile
import time
import unittest
from pathlib import Path

sys.path.insert(0, str(Path(__file__).resolve().parent.parent))  # for sam/

import drawn
from replay_answers import MEANINGS
from replays import DONE, EXPECT_FAILED, NO_COMMAND, described, replay
from sam.table import NAMES

HERE = Path(__file__).resolve().parent
ROOT = HERE.parent.parent
PAGE = ROOT / "docs" / "SUPPORT.md"
GUIDE = ROOT / "docs" / "GUIDE.md"
LAST_LINE = re.compile(r"^\d+ scripts, (\d+) differ, (\d+) failed$")
DRAWN_SCRIPTS = 60
DRAWN_COMMANDS = 60
COMMON_NUMBERS = {0, 1, 2, 4, 5, 6, 7, 8, 9, 10, 11, 14, 22, 24, 27, 41, 42, 43, 45, 50, 60, 64, 66, 67, 70, 71, 72}
SECONDS = 60  # for an answer at the prompt


def support(*words, given=None, folder=ROOT):
    answer = subprocess.run(
        [str(ROOT / "support"), *words], cwd=folder, input=given or b"", capture_output=True, check=False
    )
    return answer.returncode, answer.stdout.decode(), answer.stderr.decode()


def replayer():
    """The command that ./support has built, as words."""
    shell = ". bench/toolchain.sh && printf %s \"$RUN\""
    run = subprocess.run(["bash", "-c", shell], cwd=ROOT, capture_output=True, text=True, check=True).stdout
    return [*run.split(), str(ROOT / "target" / "support" / "replay")]


def given_back(transcript):
    """The numbers that calls gave back, each told with its meaning."""
    answers = {line.split(b";")[0] for line in transcript}
    return {number for number, words in MEANINGS.items() if f"= {number} {words}".encode() in answers}


class Folder(unittest.TestCase):
    """With a folder for scripts, away from the repository."""

    def setUp(self):
        folder = tempfile.TemporaryDirectory()
        self.addCleanup(folder.cleanup)
        self.folder = Path(folder.name)

    def script(self, text, name="script.txt"):
        path = self.folder / name
        path.write_bytes(text if isinstance(text, bytes) else text.encode())
        return path


class Words(Folder):
    def check_refused(self, status, *words, says):
        answered, printed, errors = support(*words, folder=self.folder)
        self.assertEqual((answered, printed), (status, ""), words)
        self.assertEqual(errors.count("\n"), 1, errors)
        self.assertIn(says, errors)

    def test_bad_words(self):
        self.check_refused(2, "--nothing", says="no option '--nothing'")
        self.check_refused(2, "-", "more", says="stands alone")
        self.check_refused(2, "one", "two", says="one file at a time")
        self.check_refused(2, "", says="a file has a name")
        self.check_refused(2, "--library", says="takes one file")
        self.check_refused(2, "--help", "more", says="stands alone")

    def test_files_that_are_not_there(self):
        self.check_refused(2, "nowhere.txt", says="there is no file 'nowhere.txt'")
        self.check_refused(2, ".", says="'.' is a folder")
        self.check_refused(2, "--library", "nowhere.a", says="there is no file 'nowhere.a'")

    def test_help_names_every_command(self):
        status, printed, errors = support("--help")
        self.assertEqual((status, errors), (0, ""))
        commands = set(re.findall(r"^\| `(\w+)", PAGE.read_text(encoding="utf-8"), re.MULTILINE))
        self.assertEqual(len(commands), 18)
        self.assertLessEqual(commands, set(re.findall(r"\w+", printed)))


class OneScript(Folder):
    def check(self, text, status, last, error=None):
        path = self.script(text)
        answered, printed, errors = support(path.name, folder=self.folder)
        self.assertEqual((answered, printed.split("\n")[-2:]), (status, [last, ""]))
        self.assertEqual(errors, "" if error is None else f"{path.name}:{error}\n")

    def test_a_line_that_is_no_command(self):
        self.check("reset 4 0 0\nstpe 3\nstep\n", 2, "stpe 3", "2: there is no command 'stpe'")
        self.check("// words\n\nreset 4 0\n", 2, "reset 4 0", "3: reset takes three numbers up to 65535, N H OUTPUT")

    def test_a_block_without_its_end(self):
        self.check("reset 4 0 0\nprogram\nSTOP\n", 2, "STOP", "2: the block that begins here has no line `end`")

    def test_an_expect_that_fails(self):
        told = "NOT as expected: it was 10 0"
        self.check("step\nexpect 10 0\nexpect 0\n", 1, f"= {told}", f"3: {told}")

    def test_a_file_beside_the_script(self):
        inner = self.folder / "inner"
        inner.mkdir()
        (inner / "door.sam").write_text("PUSHIMM 40\nSTOP\n")
        (inner / "script.txt").write_text("program door.sam\nexpect 0 2\nprogram ../inner/none.sam\n")
        status, printed, errors = support("inner/script.txt", folder=self.folder)
        self.assertEqual(status, 2)
        self.assertIn("= 0 done; length 2\nexpect 0 2\n= as expected\n", printed)
        self.assertEqual(errors, "inner/script.txt:3: there is no file '../inner/none.sam' that can be read\n")

    def test_a_pipe_is_a_script(self):
        pipe = self.folder / "pipe"
        os.mkfifo(pipe)
        with subprocess.Popen(["sh", "-c", f"echo step >'{pipe}'"]):
            answered = support(str(pipe))
        self.assertEqual(answered, (0, "step\n= 10 broken state or table; PC 0 the end\n", ""))

    def test_standard_input_is_a_script(self):
        (self.folder / "door.sam").write_text("PUSHIMM 40\nSTOP\n")
        status, printed, errors = support("-", given=b"program door.sam\nstep", folder=self.folder)
        self.assertEqual((status, errors), (0, ""))
        self.assertEqual(
            printed, "program door.sam\n= 0 done; length 2\nstep\n= 10 broken state or table; PC 0 PUSHIMM 40\n"
        )

    def test_the_page(self):
        """The transcripts of docs/SUPPORT.md come out as they are written there."""
        blocks = re.findall(r"(?:^    .*\n)+", PAGE.read_text(encoding="utf-8"), re.MULTILINE)
        blocks = ["".join(line[4:] for line in block.splitlines(True)) for block in blocks]
        (whole,) = [block for block in blocks if block.startswith("program\n")]
        script = "".join(line for line in whole.splitlines(True) if not line.startswith("= "))
        self.assertEqual(support(str(self.script(script)))[:2], (0, whole))
        (shown,) = [block for block in blocks if block.startswith("show\n")]
        (self.folder / "panel.sam").write_bytes((ROOT / "bench" / "teaching" / "panel.sam").read_bytes())
        panel = "program panel.sam\nreset 16 64 256\nrun 100\nshow\nshow 0\nshow 16\n"
        self.assertTrue(support(str(self.script(panel)))[1].endswith(shown))


class ByHand(unittest.TestCase):
    def test_prompt(self):
        """At a terminal: the prompt shows PC and the instruction that comes, and a wrong line ends nothing."""
        controller, terminal = pty.openpty()
        with subprocess.Popen(
            [str(ROOT / "support"), "-"], stdin=terminal, stdout=terminal, stderr=terminal, close_fds=True
        ) as process:
            os.close(terminal)
            try:
                seen = self.read_until(controller, "> ")
                for line, prompt in (
                    ("program", "| "),
                    ("PUSHIMM 40", "| "),
                    ("STOP", "| "),
                    ("end", "> "),
                    ("reset 4 4 0", "PC 0 PUSHIMM 40 > "),
                    ("sptep", "PC 0 PUSHIMM 40 > "),
                    ("step 2", "PC 1 STOP (halted) > "),
                ):
                    os.write(controller, line.encode() + b"\n")
                    seen = self.read_until(controller, prompt)
                    if line == "sptep":
                        self.assertIn("-:6: there is no command 'sptep'", seen)
                os.write(controller, b"\x04")  # Ctrl-D
                self.assertEqual(process.wait(SECONDS), 0)
            finally:
                process.kill()
                os.close(controller)

    def read_until(self, controller, prompt):
        seen, limit = "", time.monotonic() + SECONDS
        while not seen.endswith(prompt):
            ready, _, _ = select.select([controller], [], [], max(limit - time.monotonic(), 0))
            self.assertTrue(ready, f"no prompt '{prompt}' behind {seen!r}")
            seen += os.read(controller, 4096).decode()
        return seen


class Fault(unittest.TestCase):
    """A step-back that leaves tags, put into a copy of the library, is told by the complaint's script and marked on the
    sheet."""

    def test_step_back_that_leaves_tags(self):
        with tempfile.TemporaryDirectory() as folder:
            library = Path(folder) / "libsam_c.a"
            subprocess.run([str(HERE / "faults" / "faulty.sh"), str(library)], check=True)
            status, printed, errors = support("--library", str(library))
        differ, failed = map(int, LAST_LINE.match(printed.split("\n")[-2]).groups())
        self.assertEqual(status, 1)
        self.assertGreater(min(differ, failed), 0)
        told = [line for line in errors.split("\n") if line.startswith("sessions/complaint.txt:")]
        self.assertIn("the library says '= 0 FLOAT #00000028', the interpreter '= 0 INT 40'", told[0])
        self.assertIn("NOT as expected: it was 0 FLOAT #00000028", told[1])
        page = (ROOT / "target" / "support" / "other" / "sheet.html").read_text(encoding="utf-8")
        complaint = page[page.index('id="script-1"') : page.index('id="script-2"')]  # the first in the alphabet
        self.assertIn("complaint.txt", complaint)
        self.assertIn("DIFFERS", complaint)
        self.assertIn("#00000028", complaint)
        self.assertNotIn("0 differ, 0 failed", page)


class Sessions(unittest.TestCase):
    """What sessions/ has to have: a script for each teaching program, and the story of each request from a to n."""

    def names(self, group):
        return sorted(path.stem[len(group) :] for path in (ROOT / "sessions").glob(f"{group}*.txt"))

    def test_every_teaching_program(self):
        programs = sorted(path.stem for path in (ROOT / "bench" / "teaching").glob("*.sam"))
        self.assertEqual(self.names("teaching_"), programs)

    def test_every_request(self):
        self.assertEqual([name[:2] for name in self.names("request_")], [f"{letter}_" for letter in "abcdefghijklmn"])

    def test_every_script_says_what_it_shows_and_expects_something(self):
        for path in (ROOT / "sessions").iterdir():
            script = path.read_bytes()
            self.assertTrue(all(described(script)), path)
            self.assertIn(b"\nexpect ", script, path)


class Replayers(Folder):
    def test_drawn_scripts(self):
        """Both are alike on scripts that nobody wrote; each status comes, and each of the most common numbers."""
        statuses, numbers = set(), set()
        chooser, by_library = random.Random(37), replayer()
        for count in range(DRAWN_SCRIPTS):
            path = self.script(drawn.script(chooser, DRAWN_COMMANDS), f"{count}.txt")
            replayed = replay(path, by_library)
            self.assertIsNone(replayed.difference, path.read_bytes())
            statuses.add(replayed.library.status)
            numbers.update(given_back(replayed.library.transcript))
        self.assertEqual(statuses, {DONE, EXPECT_FAILED, NO_COMMAND})
        self.assertGreaterEqual(numbers, COMMON_NUMBERS)


class Numbers(unittest.TestCase):
    def test_meanings_of_the_page(self):
        """The table of docs/SUPPORT.md, two columns of numbers, is the one that answers are made with."""
        table = {}
        for line in PAGE.read_text(encoding="utf-8").split("\n"):
            cells = [cell.strip() for cell in line.strip("|").split("|")]
            if len(cells) == 4 and cells[0].isdigit():
                table.update({int(number): words for number, words in (cells[:2], cells[2:]) if number})
        self.assertEqual(table, MEANINGS)
        in_c = re.findall(r'\[(\d+)\] = "(.*?)"', (HERE / "machine.c").read_text(encoding="utf-8"))
        self.assertEqual({int(number): words for number, words in in_c}, MEANINGS)

    def test_guide_has_every_instruction(self):
        words = set(re.findall(r"[A-Z]+", GUIDE.read_text(encoding="utf-8")))
        self.assertLessEqual(set(NAMES), words)

    def test_guide_has_every_number(self):
        rows = re.findall(r"^\| ([\d, ]+) \|", GUIDE.read_text(encoding="utf-8"), re.MULTILINE)
        self.assertEqual(sorted(int(number) for row in rows for number in row.split(",")), sorted(MEANINGS))


if __name__ == "__main__":
    unittest.main()
