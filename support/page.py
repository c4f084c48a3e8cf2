"""An HTML page of a list: one file without outside parts. Calls run from left to right in strips of ten, a lane for each connection,
and below the lanes what each call put out. What the page shows of a call when it is pointed at stands in its data."""
from html import escape
from pathlib import Path

import answers
import calls
import data
import overview

STRIP = 10
# the class of each kind of a line
CLASSES = {"Waiting": "kind-waiting", "Pending": "kind-pending", "In line": "kind-in-line", "Failed": "kind-failed", "none": "kind-none"}
# answers that are marked, with their signs
SIGNS = {"refused": "✗", "diverged": "≠", "failed": "!"}


class Shown:
    """A call with its answer and the reading after it."""

    def __init__(self, number, record, block, reading):
        self.number = number
        self.fields = calls.fields(record)
        self.line = calls.line(record)
        self.carried = dict(self.fields)
        self.conn = self.carried.get("CONN")
        self.answer = block[0]
        self.word = self.answer.split()[0]
        self.block = block[1:]
        self.reading = reading
        self.kinds = {line["conn"]: line["kind"] for line in reading["lines"]}

    def kind(self, conn):
        return self.kinds.get(conn, "none")

    def key(self):
        """The key that it carries, or None."""
        return (self.carried["KEY0"], self.carried["KEY1"]) if "KEY0" in self.carried else None


class Keys:
    """A number for each key, so that a page can show where the same one stands."""

    def __init__(self):
        self.numbers = {}

    def mark(self, key):
        return f' data-key="{self.numbers.setdefault(key, len(self.numbers))}"' if key else ""


def call_box(call, keys):
    """A call as it stands in its lane: name, key or token, message, answer."""
    carried = call.carried
    said = [f"<b>{carried['CALL']}</b>"]
    if call.key():
        said.append(f"<span>{carried['KEY0']} {carried['KEY1']}</span>")
    if "TOKEN" in carried:
        said.append(f"<span>token {carried['TOKEN']}</span>")
    if "ANSWER" in carried:
        said.append(f"<span>view {carried['ANSWER']}</span>")
    if "MESSAGE" in carried:
        said.append(f'<span class="message">message {carried["MESSAGE"]}</span>')
    sign = SIGNS.get(call.word)
    said.append(f"<em>{sign + ' ' if sign else ''}{call.answer}</em>")
    name = f"call-{call.number}"
    return f'<a class="call {call.word}" id="{name}" href="#{name}"{keys.mark(call.key())}>{"".join(said)}</a>'


def lane_cell(call, before, conn, first, keys):
    """A lane at a call: the kind of its line after the call, in words where it begins, and the call where it is the lane's own."""
    kind = call.kind(conn)
    own = call.conn == conn
    changed = kind != (before.kind(conn) if before else "none")
    word = f"<i>{kind}</i>" if own or first or changed else "<i></i>"
    box = call_box(call, keys) if own else ""
    return f'<td class="{CLASSES[kind]}{" changed" if changed else ""}">{box}{word}</td>'


def put_text(line, keys):
    """A record of the put-out book, or the report that stands above a tick's records."""
    if not line.startswith("put "):
        word, conn = line.split()
        sign = f"{SIGNS[word]} " if word in SIGNS else ""
        return f'<p class="report {word}">{sign}{word}: connection {conn}</p>'
    _, conn, kind, number, key0, key1, message, times = line.split()
    head = {"s": "snapshot", "b": f"{number}", "p": f"print ×{times}"}[kind]
    key = "" if kind == "s" else f"<span>{key0} {key1}</span>"
    mark = "" if kind == "s" else keys.mark((int(key0), int(key1)))
    return f'<p class="put {answers.KINDS[kind]}"{mark}><b>{head}</b> from {conn}{key}<span class="message">message {message}</span></p>'


def row(head, cells, name):
    return f'<tr class="{name}"><th scope="row">{head}</th>{"".join(cells)}</tr>\n'


def lanes_of(strip, before):
    """The connections that a strip shows: those that have a line in it or are called."""
    shown = set(before.kinds) if before else set()
    for call in strip:
        shown.update(call.kinds)
        if call.conn is not None:
            shown.add(call.conn)
    return sorted(shown)


def strip_rows(strip, before, keys):
    pairs = list(zip([before] + strip, strip))
    empty = "<td></td>" * (STRIP - len(strip))
    heads = [f'<th scope="col">{call.number}<small>at {call.carried["TIME"]}</small></th>' for call in strip]
    yield f'<tr class="numbers"><th>call</th>{"".join(heads)}{empty}</tr>\n'
    if any(call.conn is None for call in strip):
        cells = [f'<td>{call_box(call, keys) if call.conn is None else ""}</td>' for call in strip]
        yield row("market", cells + [empty], "market")
    for conn in lanes_of(strip, before):
        cells = [lane_cell(call, old, conn, call is strip[0], keys) for old, call in pairs]
        yield row(f"connection <b>{conn}</b>", cells + [empty], "lane")
    puts = [f'<td>{"".join(put_text(line, keys) for line in call.block)}</td>' for call in strip]
    yield row("put out", puts + [empty], "book")


def strips(shown):
    """The calls, in strips of ten."""
    keys = Keys()
    for start in range(0, len(shown), STRIP):
        strip = shown[start : start + STRIP]
        before = shown[start - 1] if start else None
        head = f"calls {strip[0].number} to {strip[-1].number}"
        rows = "".join(strip_rows(strip, before, keys))
        yield f'<section class="strip" aria-label="{head}"><table>\n{rows}</table></section>\n'


def legend():
    kinds = "".join(f'<li class="{name}"><i>{kind}</i></li>' for kind, name in CLASSES.items())
    return (
        f'<ul class="legend" aria-label="kinds of a line after a call">{kinds}</ul>\n'
        "<p>A lane shows the kind of its connection's line after each call, → where that changed. ✗ is a refusal, ≠ a divergence, ! a line that "
        "failed. Below the lanes stands what each call put out: book events by number, prints with how often they count, snapshots, and the "
        "connection whose message it is.</p>\n"
    )


def page(name, records, blocks, readings, wrong):
    """The page of a list's records, with the answer and the reading of each; and what is wrong with the record behind them, or None."""
    size = calls.RECORD.size
    parts = (records[start : start + size] for start in range(0, len(records), size))
    shown = [Shown(number, *parts) for number, parts in enumerate(zip(parts, blocks, readings), 1)]
    beside = Path(__file__).resolve().parent
    title = escape(name)
    bad = f'<p class="wrong">The list ends here: {escape(wrong)}</p>' if wrong else ""
    return "".join(
        [
            f'<!DOCTYPE html>\n<html lang="en">\n<head>\n<meta charset="utf-8">\n<title>{title}</title>\n',
            '<meta name="viewport" content="width=device-width">\n',
            f"<style>\n{(beside / 'page.css').read_text(encoding='utf-8')}</style>\n<style id=\"same\"></style>\n</head>\n<body>\n",
            f"<header>\n<h1>{title}</h1>\n{overview.summary(shown)}{legend()}\n</header>\n",
            overview.picture(shown, CLASSES) if len(shown) > STRIP else "",
            f"<main>\n{''.join(strips(shown))}{bad}</main>\n",
            '<aside id="panel" aria-live="polite"></aside>\n',
            f'<script type="application/json" id="data">{data.text(shown)}</script>\n',
            f"<script>\n{(beside / 'page.js').read_text(encoding='utf-8')}</script>\n</body>\n</html>\n",
        ]
    )
