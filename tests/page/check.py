#!/usr/bin/env python3
"""check.py PAGE LIST ANSWERS READINGS: whether a page holds every call, record and kind of a line, without a browser.

LIST has the calls, one a line; ANSWERS is what the replay program writes for them, READINGS what host/examples/readings does. The page is
parsed as HTML by itself: no code of support/ has a part in it. Prints what is wrong, and ends with status 1 if something is."""
import json
import re
import sys
from html.parser import HTMLParser
from pathlib import Path

EMPTY = {"meta"}
CLASSES = {"Waiting": "kind-waiting", "Pending": "kind-pending", "In line": "kind-in-line", "Failed": "kind-failed", "none": "kind-none"}
ANSWER = re.compile(r"(done|apply|duplicate|held|ignored|diverged|failed|kept|gone|rebuild|refused [0-9]+)")
KINDS = {"s": "snapshot", "b": "book", "p": "print"}
# answers and reports that are marked
SIGNS = {"refused": "✗ ", "diverged": "≠ ", "failed": "! "}


class Element:
    def __init__(self, name, given):
        self.name = name
        self.given = dict(given)
        self.inside = []

    def text(self):
        return "".join(part if isinstance(part, str) else f" {part.text()} " for part in self.inside)

    def words(self):
        return " ".join(self.text().split())

    def find(self, name, kind=None):
        for part in self.inside:
            if isinstance(part, Element):
                if part.name == name and (kind is None or kind in part.given.get("class", "").split()):
                    yield part
                yield from part.find(name, kind)

    def children(self):
        return [part for part in self.inside if isinstance(part, Element)]


class Tree(HTMLParser):
    """The elements of a page; every one but those of EMPTY has to be closed, in order."""

    def __init__(self, text):
        super().__init__()
        self.open = [Element("page", [])]
        self.ids = []
        self.feed(text)
        self.close()
        expect(len(self.open) == 1, f"{self.open[-1].name} is not closed")

    def handle_starttag(self, name, given):
        made = Element(name, given)
        self.open[-1].inside.append(made)
        if "id" in made.given:
            self.ids.append(made.given["id"])
        if name not in EMPTY:
            self.open.append(made)

    def handle_endtag(self, name):
        expect(self.open[-1].name == name, f"</{name}> closes {self.open[-1].name}")
        self.open.pop()

    def handle_data(self, text):
        self.open[-1].inside.append(text)


class Wrong(Exception):
    pass


def expect(holds, what):
    if not holds:
        raise Wrong(what)


def alone(page, tree):
    """Nothing is fetched: every link goes to a call of the page."""
    ids = set(tree.ids)
    expect(len(ids) == len(tree.ids), "an id stands twice")
    for name in ("link", "img", "iframe", "object", "embed", "base"):
        expect(not list(page.find(name)), f"there is an element {name}")
    for script in page.find("script"):
        expect("src" not in script.given, "a script is fetched")
    for style in page.find("style"):
        expect("url(" not in style.text() and "@import" not in style.text(), "a style is fetched")
    for link in page.find("a"):
        expect(link.given["href"][1:] in ids and link.given["href"][0] == "#", f"a link to {link.given['href']}")


def blocks(answers):
    found = []
    for line in answers.splitlines():
        if ANSWER.fullmatch(line):
            found.append([line])
        elif not line.startswith("bad record "):
            found[-1].append(line)
    return found


def record_words(line):
    """A record or report as the page has it."""
    if not line.startswith("put "):
        word, conn = line.split()
        return f"{SIGNS.get(word, '')}{word}: connection {conn}"
    _, conn, kind, number, key0, key1, message, times = line.split()
    head = {"s": "snapshot", "b": number, "p": f"print ×{times}"}[kind]
    key = "" if kind == "s" else f" {key0} {key1}"
    return f"{head} from {conn}{key} message {message}"


def list_words(line):
    """A record or report in the words of a list, as the panel has it."""
    if not line.startswith("put "):
        return line
    _, conn, kind, number, key0, key1, message, times = line.split()
    key, rest = {"s": ("", ""), "b": (f" {key0} {key1}", f" number {number}"), "p": (f" {key0} {key1}", f" times {times}")}[kind]
    return f"put {KINDS[kind]} {conn}{key} message {message}{rest}"


def columns(page):
    """For each call its number's head, its box with the row that it stands in, the lanes' classes by connection, and its records."""
    found = []
    for strip in page.find("section", "strip"):
        rows = list(strip.find("tr"))
        count = len(rows[0].children()) - 1
        for place in range(1, count + 1):
            cells = [(row, row.children()[place]) for row in rows]
            if cells[0][1].name == "th":
                found.append(cells)
    return found


def one_call(number, call, block, reading, cells):
    words = call.split()
    at = f"call {number}"
    expect(cells[0][1].words() == f"{number} at {words[-1]}", f"{at}: the head is '{cells[0][1].words()}'")
    boxes = [(row, box) for row, cell in cells for box in cell.find("a", "call")]
    expect(len(boxes) == 1, f"{at} stands {len(boxes)} times in its column")
    row, box = boxes[0]
    alike = words[0] in ("promote", "reset", "tick")
    head = "market" if alike else f"connection {words[1]}"
    expect(row.children()[0].words() == head, f"{at} stands in the lane '{row.children()[0].words()}' and not '{head}'")
    expect(box.given["id"] == f"call-{number}", f"{at} has the id {box.given['id']}")
    carried = " ".join([words[0]] + (words[1:-2] if alike else words[2:-2]))
    answer = block[0].split()[0]
    expect(box.words() == f"{carried} {SIGNS.get(answer, '')}{block[0]}", f"{at} shows '{box.words()}'")
    expect(box.given["class"] == f"call {answer}", f"{at} has the class {box.given['class']}")
    lines = {str(line["conn"]): line["kind"] for line in reading["lines"]}
    lanes = {row.children()[0].words().split()[1]: cell for row, cell in cells if row.given["class"] == "lane"}
    expect(lines.keys() <= lanes.keys(), f"{at}: a lane is absent")
    for conn, cell in lanes.items():
        kind = lines.get(conn, "none")
        kinds = [name for name in cell.given["class"].split() if name.startswith("kind-")]
        expect(kinds == [CLASSES[kind]], f"{at}: connection {conn} is {kind}, and its lane {kinds}")
        word = next(cell.find("i")).words()
        expect(word in ("", kind), f"{at}: the lane of connection {conn} says {word}")
        expect(word or "changed" not in cell.given["class"], f"{at}: a change of connection {conn} without its word")
    puts = [put.words() for put in cells[-1][1].find("p")]
    expect(puts == [record_words(line) for line in block[1:]], f"{at} put out {block[1:]}, and the page has {puts}")


def carried(call):
    """What a call carries, as the panel has it."""
    word, *rest = call.split()
    named = dict(zip(rest, rest[1:]))
    pairs = [] if word in ("promote", "reset", "tick") else [["connection", rest[0]]]
    if word in ("book", "print"):
        pairs.append(["key", f"{rest[1]} {rest[2]}"])
    for name, shown in (("token", "token"), ("view", "view answer of all lines"), ("message", "message"), ("at", "time")):
        if name in named:
            pairs.append([shown, named[name]])
    return pairs


def store(call, reading):
    base, end, counts = reading["base"], reading["end"], reading["counts"]
    last = "never" if reading["last"] is None else f"at {reading['last']}"
    rows = [
        ["log", f"base {base}, end {end}, events {end - base}; last applied {last}"],
        ["print tables", f"keys {reading['keys']}, counts {reading['pairs']}"],
    ]
    if counts:
        delivered = ", ".join(f"{count} by connection {conn}" for conn, count in counts["delivered"]) or "none"
        rows.append(["counts of its key", f"applied {counts['applied']}; delivered {delivered}; touched at {counts['touched']}"])
    elif call.startswith("print "):
        rows.append(["counts of its key", "none"])
    return rows


def held(entries):
    """Held items, of four numbers or three and null, or prints, of three numbers."""
    rows = []
    for *front, message in entries:
        token, *key = front if len(front) == 3 else (None, *front)
        what = " ".join(map(str, key)) if token is None else f"snapshot {token}"
        rows.append(f"{what} message {message}")
    return "\n".join([str(len(rows)), *rows])


def line_row(line):
    due = {0: "none", 1: "token ", 2: "tokens "}[len(line["due"])] + " and ".join(map(str, line["due"]))
    rest = [f"limit {line['limit']}"]
    rest += [f"{name} {line[of]}" for name, of in (("since", "since"), ("snapshot at", "snapshot")) if line[of] is not None]
    following = ["", ""] if line["next"] is None else [str(line["next"]), due]
    return [str(line["conn"]), line["kind"], *following, held(line["items"]), held(line["prints"]), ", ".join(rest)]


def pointed_at(number, call, block, reading, data):
    """What is shown of a call that is pointed at."""
    entry = data["calls"][number - 1]
    at = f"call {number}, pointed at"
    expect(entry["call"] == call and entry["answer"] == block[0], f"{at}: {entry['call']}, {entry['answer']}")
    expect(bool(entry["why"]) == block[0].startswith("refused "), f"{at}: {entry['answer']}: {entry['why']}")
    expect(entry["carries"] == carried(call), f"{at} carries {entry['carries']}")
    expect(entry["put"] == [list_words(line) for line in block[1:]], f"{at}: {entry['put']}")
    expect(entry["store"] == store(call, reading), f"{at}: the store {entry['store']}")
    rows = [data["lines"][place] for place in entry["lines"]]
    expect(rows == [line_row(line) for line in reading["lines"]], f"{at}: the lines {rows}")


def marks(answers):
    """The refusals, divergences and failures, those of a tick's lines among them, as the picture names them, and their classes."""
    for number, block in enumerate(answers, 1):
        failed = [line for line in block[1:] if line.startswith("failed ")]
        word = "failed" if failed else block[0].split()[0]
        if word in SIGNS:
            yield f"call {number}: {', '.join(failed) or block[0]}", f"mark {word}"


def overview(page, calls, answers, readings):
    """The picture of all calls: a lane for each connection with the kind of its line after each call, and the marks."""
    drawn, marked = {}, []
    names = [name.words() for part in page.find("section", "overview") for name in part.find("li")]
    conns = {int(call.split()[1]) for call in calls if call.split()[0] not in ("promote", "reset", "tick")}
    conns |= {line["conn"] for reading in readings for line in reading["lines"]}
    expect(names[1:] == [f"connection {conn}" for conn in sorted(conns)], f"the picture has the lanes {names}")
    for rect in (rect for part in page.find("section", "overview") for rect in part.find("rect")):
        said = re.fullmatch("connection ([0-9]+): (.*) after calls ([0-9]+) to ([0-9]+)", rect.words())
        if said:
            conn, kind, first, last = said.groups()
            expect(rect.given["class"] == CLASSES[kind], f"the picture draws {rect.words()} as {rect.given['class']}")
            place = (float(rect.given["x"]), float(rect.given["width"]))
            expect(place == (int(first) - 1, int(last) - int(first) + 1), f"the picture draws {rect.words()} at {place}")
            drawn.update({(number, conn): kind for number in range(int(first), int(last) + 1)})
        else:
            marked.append((rect.words(), rect.given["class"]))
    kinds = {(number, str(line["conn"])): line["kind"] for number, reading in enumerate(readings, 1) for line in reading["lines"]}
    expect(drawn == kinds, "the picture has other kinds than the readings")
    expect(marked == list(marks(answers)), f"the picture marks {marked}")


def check(text, calls, answers, readings):
    tree = Tree(text)
    page = tree.open[0]
    alone(page, tree)
    found = columns(page)
    expect(len(calls) == len(answers) == len(readings), f"{len(calls)} calls, {len(answers)} answers, {len(readings)} readings")
    expect(len(found) == len(calls), f"{len(calls)} calls, and the page has {len(found)}")
    data = json.loads(next(part for part in page.find("script") if part.given.get("id") == "data").text())
    expect(len(data["calls"]) == len(calls), f"{len(calls)} calls, and the data has {len(data['calls'])}")
    if len(calls) > 10:
        overview(page, calls, answers, readings)
    for number, parts in enumerate(zip(calls, answers, readings), 1):
        one_call(number, *parts, found[number - 1])
        pointed_at(number, *parts, data)


def main():
    page, calls, answers, readings = (Path(name).read_text() for name in sys.argv[1:])
    try:
        check(page, calls.splitlines(), blocks(answers), [json.loads(line) for line in readings.splitlines()])
    except Wrong as e:
        sys.exit(f"{sys.argv[1]}: {e}")


main()
