#!/usr/bin/env python3
"""Looks at the sheet in a real browser, Debian's chromium without a window, as wide as a desk and as a phone.

    look.py SHEET PICTURES_FOLDER

Checks that nothing is fetched but the page, that the verdict and every script's title are to be read, that nothing
scrolls sideways, with the transcripts folded and opened, that the browser has nothing to complain of and that it prints
on A4; and saves pictures for people to look at. Exit status 0 where all is well, 1 with a line for each check that
failed, 3 where no browser is installed. The browser is spoken to by its DevTools protocol over two pipes.
"""

import base64
import contextlib
import fcntl
import json
import os
import re
import select
import shutil
import signal
import subprocess
import sys
import tempfile
import time
from dataclasses import dataclass
from html.parser import HTMLParser
from pathlib import Path

BROWSERS = ("chromium", "chromium-browser")
NO_BROWSER = 3

# Seconds: far more than a quiet machine takes.
ANSWER_LIMIT = 120
LOAD_LIMIT = 120
END_LIMIT = 20
ATTEMPTS = 2  # a browser that ends or does not answer is tried again

READ_SIZE = 1 << 16
FIRST_FREE = 10  # file descriptors from here on are in nobody's way
LINK_LIMIT = 200  # characters of an address in a line

PIXELS_PER_MILLIMETRE = 96 / 25.4
A4_POINTS = (595.3, 841.9)
POINTS_NEAR = 2
PRINTED_WIDTH = int((210 - 2 * 13) * PIXELS_PER_MILLIMETRE)  # between the margins that the sheet has
PICTURE_LIMIT = 7_500  # pixels of the page in one picture, which a browser can draw in any scale here


@dataclass
class Width:
    """A screen to look at the sheet on."""

    name: str
    width: int
    height: int
    scale: int
    is_mobile: bool


DESK = Width("desk", 1280, 900, 1, False)
PHONE = Width("phone", 390, 844, 2, True)
SCREENS_SHOWN = 4


class BrowserGone(Exception):
    """The browser ended, or did not answer in time."""


# ---- the browser


def found_browser():
    return next((path for path in map(shutil.which, BROWSERS) if path), None)


# Puts the two pipes where the browser looks for them, 3 to read and 4 to write, and becomes the browser.
LAUNCHER = """
import os, sys
os.dup2(int(sys.argv[1]), 3)
os.dup2(int(sys.argv[2]), 4)
os.execv(sys.argv[3], sys.argv[3:])
"""

OPTIONS = """
    --headless --remote-debugging-pipe --disable-gpu --disable-dev-shm-usage --no-first-run --no-default-browser-check
    --disable-extensions --disable-background-networking --disable-component-update --disable-sync --disable-breakpad
    --disable-crash-reporter --hide-scrollbars --mute-audio --use-mock-keychain --password-store=basic
""".split()


def out_of_the_way(descriptor):
    """The same file with a higher number."""
    higher = fcntl.fcntl(descriptor, fcntl.F_DUPFD_CLOEXEC, FIRST_FREE)
    os.close(descriptor)
    return higher


class Browser:
    """A browser with one page. `events` are what it told besides answers, since they were last taken."""

    def __init__(self, program, folder):
        theirs_read, self.writing = map(out_of_the_way, os.pipe())
        self.reading, theirs_write = map(out_of_the_way, os.pipe())
        options = [*OPTIONS, f"--user-data-dir={folder}/profile"]
        options += ["--no-sandbox"] if os.geteuid() == 0 else []
        homes = {name: folder for name in ("HOME", "XDG_CONFIG_HOME", "XDG_CACHE_HOME")}
        try:
            self.process = subprocess.Popen(
                [sys.executable, "-c", LAUNCHER, str(theirs_read), str(theirs_write), program, *options, "about:blank"],
                stdin=subprocess.DEVNULL,
                stdout=subprocess.DEVNULL,
                stderr=subprocess.DEVNULL,
                pass_fds=(theirs_read, theirs_write),
                env={**os.environ, **homes},
                start_new_session=True,
            )
        finally:
            os.close(theirs_read)
            os.close(theirs_write)
        self.received, self.messages, self.events = b"", [], []
        self.asked, self.session = 0, None

    def open_page(self):
        target = self.ask("Target.createTarget", url="about:blank")["targetId"]
        self.session = self.ask("Target.attachToTarget", targetId=target, flatten=True)["sessionId"]
        for domain in ("Page", "Network", "Runtime", "Log"):
            self.ask(f"{domain}.enable")

    def send(self, message):
        try:
            os.write(self.writing, json.dumps(message).encode() + b"\0")
        except OSError as why:
            raise BrowserGone("the browser ended") from why

    def receive(self, deadline):
        """The next message."""
        while not self.messages:
            left = deadline - time.monotonic()
            if left <= 0 or not select.select([self.reading], [], [], left)[0]:
                raise BrowserGone("the browser did not answer in time")
            read = os.read(self.reading, READ_SIZE)
            if not read:
                raise BrowserGone("the browser ended")
            *whole, self.received = (self.received + read).split(b"\0") if b"\0" in read else [self.received + read]
            self.messages += whole
        return json.loads(self.messages.pop(0))

    def ask(self, method, **words):
        """What the browser answers to a command."""
        self.asked += 1
        message = {"id": self.asked, "method": method, "params": words}
        self.send({**message, "sessionId": self.session} if self.session else message)
        deadline = time.monotonic() + ANSWER_LIMIT
        while True:
            told = self.receive(deadline)
            if told.get("id") == self.asked:
                if "error" in told:
                    raise BrowserGone(f"{method}: {told['error'].get('message')}")
                return told["result"]
            self.events.append(told)

    def wait_for(self, method):
        deadline = time.monotonic() + LOAD_LIMIT
        while not any(event.get("method") == method for event in self.events):
            self.events.append(self.receive(deadline))

    def take_events(self):
        events, self.events = self.events, []
        return events

    def value(self, expression):
        """What an expression of JavaScript is, in the page."""
        answer = self.ask("Runtime.evaluate", expression=expression, returnByValue=True, awaitPromise=True)
        if "exceptionDetails" in answer:
            raise BrowserGone(f"in the page: {answer['exceptionDetails'].get('text')}")
        return answer["result"].get("value")

    def end(self):
        """Asks it to close, and ends it with all that it started where it does not."""
        with contextlib.suppress(BrowserGone):
            self.session = None
            self.send({"id": self.asked + 1, "method": "Browser.close"})
        os.close(self.writing)
        with contextlib.suppress(subprocess.TimeoutExpired):
            self.process.wait(END_LIMIT)
        with contextlib.suppress(ProcessLookupError, PermissionError):
            os.killpg(self.process.pid, signal.SIGKILL)
        self.process.wait()
        os.close(self.reading)


@contextlib.contextmanager
def browser_with_page(program):
    folder = tempfile.mkdtemp(prefix="look-")
    browser = None
    try:
        browser = Browser(program, folder)
        browser.open_page()
        yield browser
    finally:
        if browser is not None:
            browser.end()
        shutil.rmtree(folder, ignore_errors=True)


# ---- what should stand in the page


class Promised(HTMLParser):
    """The verdict and the scripts' titles, from the sheet's text."""

    def __init__(self):
        super().__init__()
        self.verdict, self.titles = "", []
        self.collected, self.in_article = None, False

    def handle_starttag(self, tag, attrs):
        classes = (dict(attrs).get("class") or "").split()
        self.in_article = self.in_article or tag == "article"
        if (tag == "p" and "result" in classes) or (tag == "h3" and self.in_article):
            self.collected = []

    def handle_data(self, data):
        if self.collected is not None:
            self.collected.append(data)

    def handle_endtag(self, tag):
        if tag == "article":
            self.in_article = False
        if self.collected is not None and tag in ("p", "h3"):
            words, self.collected = spaced("".join(self.collected)), None
            if tag == "p":
                self.verdict = words
            else:
                self.titles.append(words)


def spaced(text):
    return " ".join(text.split())


def promised(sheet):
    parser = Promised()
    parser.feed(sheet.read_text(encoding="utf-8"))
    return parser


def check_promised(promise):
    """That the sheet has a verdict that counts as many scripts as there are."""
    count = re.search("([0-9]+) scripts", promise.verdict)
    if not count:
        yield "the sheet has no verdict"
    elif int(count.group(1)) != len(promise.titles):
        yield f"the verdict counts {count.group(1)} scripts, and the sheet has {len(promise.titles)}"


# ---- checks of the page as it is shown


def load(browser, sheet, width):
    """Opens the sheet on a screen."""
    browser.ask(
        "Emulation.setDeviceMetricsOverride",
        width=width.width,
        height=width.height,
        deviceScaleFactor=width.scale,
        mobile=width.is_mobile,
    )
    browser.take_events()
    address = sheet.resolve().as_uri()
    answer = browser.ask("Page.navigate", url=address)
    if answer.get("errorText"):
        raise BrowserGone(f"the sheet cannot be opened: {answer['errorText']}")
    browser.wait_for("Page.loadEventFired")


def check_events(events, sheet):
    """That nothing but the page was asked for, and that nothing was complained of."""
    page = sheet.resolve().as_uri()
    for event in events:
        method, words = event.get("method"), event.get("params", {})
        if method == "Network.requestWillBeSent" and words["request"]["url"] != page:
            yield f"it fetches {words['request']['url'][:LINK_LIMIT]}"
        elif method == "Log.entryAdded" and words["entry"]["level"] == "error":
            yield f"the browser complains: {spaced(words['entry']['text'])}"
        elif method == "Runtime.exceptionThrown":
            yield "a script of the page fails"
        elif method == "Runtime.consoleAPICalled" and words["type"] in ("error", "assert"):
            yield "the page writes an error to the console"


# The texts of the verdict and of the titles that can be seen.
SEEN = """
[...document.querySelectorAll('.result, article h3')].filter(e => {
  const box = e.getBoundingClientRect(), style = getComputedStyle(e);
  return box.width > 1 && box.height > 1 && style.visibility === 'visible' && style.opacity > 0.5;
}).map(e => e.innerText)
"""


def check_text(browser, promise):
    """That the verdict and the titles are to be read."""
    shown = [spaced(words) for words in browser.value(SEEN)]
    for words in [promise.verdict, *promise.titles]:
        if words not in shown:
            yield f"not to be read in the page: {words}"


# The page's width as it can be scrolled, and the first element that sticks out at the right.
SIDEWAYS = """
(() => {
  const wide = document.scrollingElement.scrollWidth, seen = %d;
  const out = [...document.body.querySelectorAll('*')].find(e => e.getBoundingClientRect().right > seen + 1);
  return {wide, out: out ? out.tagName + '.' + (out.getAttribute('class') || '') + ' in ' +
    (out.closest('article')?.querySelector('h3')?.textContent || 'the head') : ''};
})()
"""


def check_sideways(browser, seen, when):
    answer = browser.value(SIDEWAYS % seen)
    if answer["wide"] > seen or answer["out"]:
        yield f"it scrolls sideways {when}: {answer['wide']} of {seen} pixels {spaced(answer['out'])}".rstrip()


def open_all(browser):
    browser.value("document.querySelectorAll('details').forEach(one => { one.open = true; }); 0")


# ---- pictures


def screenshot(browser, path, top, bottom, width):
    height = max(min(bottom - top, PICTURE_LIMIT), 1)
    clip = {"x": 0, "y": top, "width": width.width, "height": height, "scale": 1}
    answer = browser.ask("Page.captureScreenshot", format="png", captureBeyondViewport=True, clip=clip)
    path.write_bytes(base64.b64decode(answer["data"]))


# The top and the bottom of the script to show, with its transcript opened: the first that is not well, else the first.
ONE_SCRIPT = """
(() => {
  const bad = document.querySelector('article .remark:not(.well)');
  const one = bad ? bad.closest('article') : document.querySelector('article');
  if (!one) return null;
  one.querySelectorAll('details:not(.alike)').forEach(part => { part.open = true; });
  const box = one.getBoundingClientRect();
  return [box.top + scrollY, box.bottom + scrollY];
})()
"""


def save_pictures(browser, folder, width):
    tall = browser.value("document.documentElement.scrollHeight")
    screenshot(browser, folder / f"{width.name}.png", 0, min(tall, SCREENS_SHOWN * width.height), width)
    place = browser.value(ONE_SCRIPT)
    if place:
        screenshot(browser, folder / f"{width.name}-script.png", *place, width)


# ---- paper


def check_paper(printed):
    """That every page is A4."""
    boxes = re.findall(rb"/MediaBox ?\[([-0-9. ]+)\]", printed)
    if not printed.startswith(b"%PDF") or not boxes:
        yield "it does not print"
    for box in boxes:
        left, bottom, right, top = map(float, box.split())
        sizes = right - left, top - bottom
        if any(abs(size - wanted) > POINTS_NEAR for size, wanted in zip(sizes, A4_POINTS)):
            yield f"a page is not A4 but {sizes[0]:.0f} by {sizes[1]:.0f} points"
            return


def check_print(browser, sheet, folder):
    load(browser, sheet, Width("paper", PRINTED_WIDTH, DESK.height, 1, False))
    browser.ask("Emulation.setEmulatedMedia", media="print")
    yield from check_sideways(browser, PRINTED_WIDTH, "on paper")
    browser.ask("Emulation.setEmulatedMedia", media="")
    answer = browser.ask("Page.printToPDF", preferCSSPageSize=True, printBackground=True)
    printed = base64.b64decode(answer["data"])
    (folder / "sheet.pdf").write_bytes(printed)
    yield from check_paper(printed)


# ---- all of it


def check_width(browser, sheet, promise, width, folder):
    load(browser, sheet, width)
    yield from check_text(browser, promise)
    yield from check_sideways(browser, width.width, "with transcripts folded")
    save_pictures(browser, folder, width)
    open_all(browser)
    yield from check_sideways(browser, width.width, "with transcripts opened")
    yield from check_events(browser.take_events(), sheet)


def looked_at(program, sheet, folder):
    """The lines of the checks that failed."""
    promise = promised(sheet)
    failed = list(check_promised(promise))
    with browser_with_page(program) as browser:
        for width in (DESK, PHONE):
            failed += [f"{width.name}: {line}" for line in check_width(browser, sheet, promise, width, folder)]
        failed += [f"paper: {line}" for line in check_print(browser, sheet, folder)]
        failed += [f"paper: {line}" for line in check_events(browser.take_events(), sheet)]
    return failed


def look(program, sheet, folder):
    for attempt in range(ATTEMPTS):
        try:
            return looked_at(program, sheet, folder)
        except BrowserGone as why:
            reason = f"{why}, in {attempt + 1} of {ATTEMPTS} attempts"
    return [reason]


def main():
    if len(sys.argv) != 3:
        print(f"usage: {sys.argv[0]} SHEET PICTURES_FOLDER", file=sys.stderr)
        return 2
    sheet, folder = Path(sys.argv[1]), Path(sys.argv[2])
    program = found_browser()
    if program is None:
        print(f"look: no browser is installed: {' or '.join(BROWSERS)}")
        return NO_BROWSER
    if not sheet.is_file():
        print(f"look: there is no sheet {sheet}")
        return 1
    folder.mkdir(parents=True, exist_ok=True)
    failed = look(program, sheet, folder)
    for line in failed:
        print(f"look: {line}")
    if failed:
        return 1
    print(f"look: {sheet} was looked at as wide as a desk, as a phone and on paper; pictures are in {folder}")
    return 0


if __name__ == "__main__":
    sys.exit(main())
