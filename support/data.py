"""What a page shows of a call that is pointed at, as text: numbers above 2^53 would not be exact in a browser."""
import json

import answers

NAMES = {
    "CONN": "connection",
    "TOKEN": "token",
    "KEY0": "key",
    "MESSAGE": "message",
    "TIME": "time",
    "ANSWER": "view answer of all lines",
}


def carried(call):
    """Pairs of a name and a value, all that the call carries."""
    pairs = []
    for name, value in call.fields[1:]:
        if name == "KEY1":
            pairs[-1][1] += f" {value}"
        else:
            pairs.append([NAMES[name], str(value)])
    return pairs


def item(entry):
    token, key0, key1, message = entry
    what = f"{key0} {key1}" if token is None else f"snapshot {token}"
    return f"{what} message {message}"


def listed(entries):
    """How many there are, and each on a line of its own."""
    return "\n".join([str(len(entries)), *entries])


def due(tokens):
    return f"token{'s' if len(tokens) > 1 else ''} {' and '.join(map(str, tokens))}" if tokens else "none"


def line(reading):
    """A line's reading: connection, kind, next, due, held items and prints, the rest."""
    in_line = reading["kind"] == "In line"
    rest = [f"limit {reading['limit']}"]
    if reading["since"] is not None:
        rest.append(f"since {reading['since']}")
    if reading["snapshot"] is not None:
        rest.append(f"snapshot at {reading['snapshot']}")
    prints = [f"{key0} {key1} message {message}" for key0, key1, message in reading["prints"]]
    return [
        str(reading["conn"]),
        reading["kind"],
        str(reading["next"]) if in_line else "",
        due(reading["due"]) if in_line else "",
        listed([item(entry) for entry in reading["items"]]),
        listed(prints),
        ", ".join(rest),
    ]


def log(reading):
    """Rows of the log and the print tables, each a name and what it holds."""
    base, end, last = reading["base"], reading["end"], reading["last"]
    applied = "never" if last is None else f"at {last}"
    return [
        ["log", f"base {base}, end {end}, events {end - base}; last applied {applied}"],
        ["print tables", f"keys {reading['keys']}, counts {reading['pairs']}"],
    ]


def counts(call):
    """A row of the counts of a print's key. No other call has one."""
    found = call.reading["counts"]
    if call.carried["CALL"] != "print":
        return []
    if found is None:
        return [["counts of its key", "none"]]
    delivered = ", ".join(f"{count} by connection {conn}" for conn, count in found["delivered"]) or "none"
    return [["counts of its key", f"applied {found['applied']}; delivered {delivered}; touched at {found['touched']}"]]


class Lines:
    """The readings of lines, each different one once."""

    def __init__(self):
        self.places = {}
        self.rows = []

    def place(self, reading):
        row = line(reading)
        key = tuple(row)
        if key not in self.places:
            self.places[key] = len(self.rows)
            self.rows.append(row)
        return self.places[key]


def text(shown):
    """The data of all calls, as JSON that may stand in a script element."""
    lines = Lines()
    entries = []
    for call in shown:
        entries.append(
            {
                "call": call.line,
                "carries": carried(call),
                "answer": call.answer,
                "why": answers.REFUSALS.get(call.answer, ""),
                "put": [answers.words(line) for line in call.block],
                "store": log(call.reading) + counts(call),
                "lines": [lines.place(reading) for reading in call.reading["lines"]],
            }
        )
    found = json.dumps({"calls": entries, "lines": lines.rows}, ensure_ascii=False, separators=(",", ":"))
    return found.replace("<", "\\u003c")
