"""The top of a page: what the list holds, and all its calls in one picture."""
from collections import Counter

import answers

# how high a lane's bar is, so that kinds are told apart without colours
HEIGHTS = {"In line": 12, "Pending": 8, "Waiting": 4, "Failed": 2}
LANE = 16
# what is marked above the lanes, and how far down in the row of marks
MARKS = {"refused": 0, "diverged": 5, "failed": 10}


def many(count, one, more):
    return f"{count} {one if count == 1 else more}"


def summary(shown):
    """How many calls and records there are, and how often each answer came, with the first call that got it."""
    conns = {conn for call in shown for conn in call.kinds} | {call.conn for call in shown if call.conn is not None}
    times = {call.carried["TIME"] for call in shown}
    when = f", at times {min(times)} to {max(times)}" if len(times) > 1 else "".join(f", all at {time}" for time in times)
    puts = [line.split() for call in shown for line in call.block if line.startswith("put ")]
    kinds = Counter(put[2] for put in puts)
    copies = sum(int(put[7]) for put in puts if put[2] == "p")
    books = many(kinds["b"], "book event", "book events")
    prints = f"{many(kinds['p'], 'print', 'prints')} ({many(copies, 'copy', 'copies')})"
    text = (
        f"<p>{many(len(shown), 'call', 'calls')} of {many(len(conns), 'connection', 'connections')}{when}. "
        f"Put out: {many(kinds['s'], 'snapshot', 'snapshots')}, {books}, {prints}.</p>\n"
    )
    return text + (answer_list(shown) if shown else "")


def answer_list(shown):
    counts = Counter(call.answer for call in shown)
    first = {}
    for call in shown:
        first.setdefault(call.answer, call.number)
    items = []
    for answer, count in sorted(counts.items(), key=lambda pair: first[pair[0]]):
        why = f": {answers.REFUSALS[answer]}" if answer in answers.REFUSALS else ""
        at = first[answer]
        link = f'<a href="#call-{at}">{answer}</a>{why}'
        items.append(f'<li class="{answer.split()[0]}">{link} <small>{many(count, "call", "calls")}, first {at}</small></li>')
    return f'<ul class="answers">{"".join([*items, *report_list(shown)])}</ul>\n'


def report_list(shown):
    """How many lines ticks reported of each kind, with the first tick that did."""
    found = {}
    for call in shown:
        for line in call.block:
            if not line.startswith("put "):
                found.setdefault(line.split()[0], []).append(call.number)
    for word, numbers in found.items():
        at = f'<a href="#call-{numbers[0]}">{word} by a tick</a>'
        yield f'<li class="{word}">{at} <small>{many(len(numbers), "line", "lines")}, first {numbers[0]}</small></li>'


def runs(shown):
    """For each connection: first call, call behind the last, and kind of each run of one kind."""
    found, under_way = {call.conn: [] for call in shown if call.conn is not None}, {}
    for place, call in enumerate(shown):
        for conn in under_way.keys() | call.kinds.keys():
            start, kind = under_way.get(conn, (place, None))
            if kind != call.kinds.get(conn):
                if kind is not None:
                    found[conn].append((start, place, kind))
                under_way.pop(conn, None)
                if conn in call.kinds:
                    found.setdefault(conn, [])
                    under_way[conn] = (place, call.kinds[conn])
    for conn, (start, kind) in under_way.items():
        found[conn].append((start, len(shown), kind))
    return found


def bar(x, y, width, height, name, said):
    return f'<rect class="{name}" x="{x}" y="{y}" width="{width}" height="{height}"><title>{said}</title></rect>'


def lane(conn, found, y, classes):
    for start, end, kind in found:
        height = HEIGHTS[kind]
        said = f"connection {conn}: {kind} after calls {start + 1} to {end}"
        box = bar(start, y + LANE - 2 - height, end - start, height, classes[kind], said)
        yield link(start + 1, box)


def link(number, box):
    """A part of the picture that goes to a call. The Tab key passes it by, since it would stop at hundreds."""
    return f'<a href="#call-{number}" tabindex="-1">{box}</a>'


def marked(call):
    """What is marked of a call, and in what words: its answer, or the lines that its tick failed."""
    failed = [line for line in call.block if line.startswith("failed ")]
    return ("failed", ", ".join(failed)) if failed else (call.word, call.answer)


def marks(shown):
    width = max(1, len(shown) / 500)
    for call in shown:
        word, said = marked(call)
        if word in MARKS:
            yield link(call.number, bar(call.number - 1, MARKS[word], width, 4, f"mark {word}", f"call {call.number}: {said}"))


def picture(shown, classes):
    """All calls side by side: the refusals, divergences and failures, and below them a lane for each connection."""
    lanes = sorted(runs(shown).items())
    parts, names = list(marks(shown)), []
    for place, (conn, found) in enumerate(lanes, 1):
        parts += lane(conn, found, LANE * place, classes)
        names.append(f"<li>connection {conn}</li>")
    height = LANE * (len(lanes) + 1)
    view = f'viewBox="0 0 {len(shown)} {height}" preserveAspectRatio="none" style="height:{height}px"'
    return (
        '<section class="overview" aria-label="all calls">\n'
        f'<ul><li class="marks">✗ ≠ !</li>{"".join(names)}</ul>\n<svg {view} role="img">{"".join(parts)}</svg>\n</section>\n'
    )
