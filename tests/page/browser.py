#!/usr/bin/env python3
"""browser.py SHOTS LIST..: opens the page of each list in Chromium, headless, and does there what a person does.

Each call of a list (of a long one 60, the first and the last among them) is pointed at, and what the page then shows has to be what its
data says of the call, and nothing else; then a click, the arrow keys, the Tab key and a link of the summary. No part may be fetched, and
the page may report no error. SHOTS is a folder for pictures of each page: as it opens, with a call pointed at, the same without colours,
and its print as PDF. Prints a line for each list with the times that it took, and ends with status 1 if something is wrong.

This needs chromedriver and chromium (Debian: chromium-driver) and what `bash replay --page` needs. It is no part of the gate, which
checks pages without a browser (tests/run-page)."""
import base64
import json
import re
import subprocess
import sys
import time
import urllib.request
from pathlib import Path

ROOT = Path(__file__).resolve().parent.parent.parent
ELEMENT = "element-6066-11e4-a52e-4f735466cecf"
# the keys' code points in WebDriver
LEFT, RIGHT, TAB = "\ue012", "\ue014", "\ue004"
OPTIONS = {"args": ["--headless=new", "--no-sandbox", "--window-size=1280,900", "--hide-scrollbars"]}
# the panel: its head, what the call carries and put out, the store's rows, and the lines
PANEL = """
const text = (from, name) => Array.from(from.querySelectorAll(name), (e) => e.textContent);
const rows = (table) => Array.from(table.rows, (row) => Array.from(row.cells, (cell) => cell.textContent));
const panel = document.getElementById("panel"), tables = panel.querySelectorAll("table");
return {head: text(panel, "h2 span, h2 b"), carries: rows(tables[0]), put: text(panel, ".parts p"),
        store: rows(tables[1]), lines: rows(tables[2]).slice(1)};
"""
# whether the selected call is in view, above the panel
IN_VIEW = """
const box = document.querySelector(".call.selected").getBoundingClientRect();
return box.top >= 0 && box.bottom <= document.getElementById("panel").getBoundingClientRect().top;
"""


class Wrong(Exception):
    pass


def expect(holds, what):
    if not holds:
        raise Wrong(what)


class Browser:
    """A session of Chromium, by the WebDriver protocol."""

    def __init__(self):
        self.driver = subprocess.Popen(["chromedriver", "--port=0"], stdout=subprocess.PIPE, text=True)
        for line in self.driver.stdout:
            started = re.search(r"started successfully on port (\d+)", line)
            if started:
                break
        self.at = f"http://127.0.0.1:{started[1]}/session"
        always = {"goog:chromeOptions": OPTIONS, "goog:loggingPrefs": {"browser": "ALL"}}
        self.at += "/" + self.ask("", {"capabilities": {"alwaysMatch": always}})["sessionId"]

    def ask(self, path, body=None, method="POST"):
        data = None if method != "POST" else json.dumps(body or {}).encode()
        asked = urllib.request.Request(self.at + path, data, {"Content-Type": "application/json"}, method=method)
        with urllib.request.urlopen(asked, timeout=300) as answer:
            return json.load(answer)["value"]

    def run(self, script, *arguments):
        return self.ask("/execute/sync", {"script": script, "args": list(arguments)})

    def find(self, selector):
        return self.ask("/element", {"using": "css selector", "value": selector})

    def point(self, selector):
        """Moves the pointer over an element, as near the middle of the window as it goes."""
        element = self.find(selector)
        self.run("arguments[0].scrollIntoView({block: 'center'})", element)
        away = {"type": "pointerMove", "duration": 0, "x": 1, "y": 1}
        move = {"type": "pointerMove", "duration": 0, "x": 0, "y": 0, "origin": element}
        self.ask("/actions", {"actions": [{"type": "pointer", "id": "mouse", "actions": [away, move]}]})

    def click(self, selector):
        self.point(selector)
        presses = [{"type": kind, "button": 0} for kind in ("pointerDown", "pointerUp")]
        self.ask("/actions", {"actions": [{"type": "pointer", "id": "mouse", "actions": presses}]})

    def press(self, key):
        presses = [{"type": kind, "value": key} for kind in ("keyDown", "keyUp")]
        self.ask("/actions", {"actions": [{"type": "key", "id": "keys", "actions": presses}]})

    def shot(self, path):
        path.write_bytes(base64.b64decode(self.ask("/screenshot", method="GET")))

    def close(self):
        self.ask("", method="DELETE")
        self.driver.terminate()


def shown(browser, data, number, how):
    """The panel holds what the page's data says of the call."""
    call = data["calls"][number - 1]
    panel = browser.run(PANEL)
    why = f": {call['why']}" if call["why"] else ""
    at = f"call {number}, {how}"
    expect(panel["head"] == [f"Call {number}: {call['call']}", call["answer"] + why], f"{at}: the panel is of {panel['head']}")
    expect(panel["carries"] == call["carries"], f"{at} carries {panel['carries']}")
    expect(panel["put"] == (call["put"] or ["nothing"]), f"{at} put out {panel['put']}")
    expect(panel["store"] == call["store"], f"{at}: the store {panel['store']}")
    expect(panel["lines"] == [data["lines"][place] for place in call["lines"]], f"{at}: the lines {panel['lines']}")


def selected(browser):
    """The call that is kept in the panel, by its box and by the address; 0 is none."""
    boxes = browser.run("return Array.from(document.querySelectorAll('.call.selected'), (box) => box.id)")
    address = browser.run("return location.hash.slice(1)")
    expect(boxes == ([address] if address else []), f"{boxes} are selected, and the address is of {address}")
    return int(address[5:]) if address else 0


def keys(browser, data):
    """A click keeps a call, the arrow keys go on from it, a second click lets it go; Tab goes from call to call too."""
    last = len(data["calls"])
    browser.click("#call-1")
    expect(selected(browser) == 1, "a click keeps no call")
    for key, number in ((RIGHT, 2), (RIGHT, 3), (LEFT, 2)):
        browser.press(key)
        expect(selected(browser) == min(number, last), f"an arrow key goes to {selected(browser)}")
        shown(browser, data, min(number, last), "by an arrow key")
    browser.click(f"#call-{last}")
    expect(selected(browser) == last, "a click on another call keeps that")
    browser.press(RIGHT)
    expect(selected(browser) == last, "an arrow key goes past the last call")
    browser.click(f"#call-{last}")
    expect(selected(browser) == 0, "a second click lets no call go")
    browser.run("document.getElementById('call-1').focus()")
    shown(browser, data, 1, "with the focus")
    browser.press(TAB)
    following = int(browser.run("return document.activeElement.id")[5:])
    shown(browser, data, following, "with the focus by Tab")


def summary(browser, data):
    """The links of the summary go to the first call of each answer."""
    answers = list(dict.fromkeys(call["answer"] for call in data["calls"]))
    for place, answer in enumerate(answers, 1):
        browser.click(f".answers li:nth-child({place}) a")
        first = next(number for number, call in enumerate(data["calls"], 1) if call["answer"] == answer)
        expect(selected(browser) == first, f"the link of {answer} goes to {selected(browser)}")
        shown(browser, data, first, f"by the link of {answer}")
        expect(browser.run(IN_VIEW), f"the link of {answer} goes to a call out of view")


def pictures(browser, shots, name, number):
    browser.point(f"#call-{number}")
    browser.shot(shots / f"{name}-call-{number}.png")
    browser.run("document.documentElement.style.filter = 'grayscale(1)'")
    browser.shot(shots / f"{name}-grey.png")
    browser.run("document.documentElement.style.filter = ''")


def look(browser, page, shots, name):
    start = time.monotonic()
    browser.ask("/url", {"url": page.as_uri()})
    opened = time.monotonic() - start
    browser.shot(shots / f"{name}.png")
    data = json.loads(browser.run("return document.getElementById('data').textContent"))
    count = len(data["calls"])
    pointed = sorted({1, count} | set(range(1, count + 1, max(1, count // 60))))
    start = time.monotonic()
    for number in pointed:
        browser.point(f"#call-{number}")
        shown(browser, data, number, "pointed at")
    each = (time.monotonic() - start) / len(pointed)
    pictures(browser, shots, name, (count + 1) // 2)
    keys(browser, data)
    summary(browser, data)
    expect(browser.run("return performance.getEntriesByType('resource').length") == 0, "a part was fetched")
    errors = [entry["message"] for entry in browser.ask("/se/log", {"type": "browser"})]
    expect(not errors, f"the page reports {errors}")
    print(f"{name}: {count} calls, {page.stat().st_size} bytes; opened in {opened:.1f} s; {len(pointed)} calls pointed at, {each:.2f} s each")


def printed(page, shots, name):
    """The print, which for 10,000 calls has a thousand pages."""
    start = time.monotonic()
    to = shots / f"{name}.pdf"
    command = ["chromium", "--headless=new", "--no-sandbox", f"--print-to-pdf={to}", page.as_uri()]
    subprocess.run(command, stdout=subprocess.DEVNULL, stderr=subprocess.DEVNULL, timeout=600, check=True)
    expect(to.is_file(), "nothing was printed")
    print(f"{name}: printed in {time.monotonic() - start:.0f} s, {to.stat().st_size} bytes")


def main():
    if len(sys.argv) < 3:
        sys.exit(__doc__)
    shots = Path(sys.argv[1]).resolve()
    shots.mkdir(parents=True, exist_ok=True)
    browser = Browser()
    wrong = 0
    try:
        for given in sys.argv[2:]:
            name = Path(given).stem
            page = shots / f"{name}.html"
            page.write_bytes(subprocess.run(["bash", ROOT / "replay", "--page", given], stdout=subprocess.PIPE, check=True).stdout)
            try:
                look(browser, page, shots, name)
                printed(page, shots, name)
            except Wrong as e:
                wrong = 1
                print(f"{name}: {e}")
    finally:
        browser.close()
    sys.exit(wrong)


main()
