"""What the replay program writes, and the readings beside it: one answer for each call, with its records and reports."""
import json
import re

ANSWER = re.compile(r"done|apply|duplicate|held|ignored|diverged|failed|kept|gone|rebuild|refused [0-9]+")
# a record or a report under an answer
UNDER = re.compile(r"put [0-9]+ [sbp]( [0-9]+){5}|(aligned|rebuild|failed) [0-9]+")
KINDS = {"s": "snapshot", "b": "book", "p": "print"}
REPORTS = ["aligned", "rebuild", "failed"]

# document 01's refusals, as the replay program meets them
REFUSALS = {
    "refused 4": "a new connection, and all 4 lines are taken, failed ones included",
    "refused 5": "the log and all held items are at 128",
    "refused 6": "a snapshot of a waiting line that holds 40 items",
    "refused 7": "a print needs a key row or a count row, and all 32 or 128 are in use",
    "refused 8": "one connection delivered this print 2^32 - 1 times",
    "refused 9": "the next number and the held items are at 2^64 - 1",
    "refused 10": "a snapshot's token is above 1",
    "refused 11": "a tick's view answer is above 1, and there are lines",
}


class Differs(Exception):
    """The program writes what it should not."""

    status = 3


def blocks(text):
    """The answers of a program's output, each a list of its lines: the answer, and its records and reports. A bad record has none."""
    found = []
    for line in text.splitlines():
        if ANSWER.fullmatch(line):
            found.append([line])
        elif found and UNDER.fullmatch(line):
            found[-1].append(line)
        elif not re.fullmatch("bad record [0-9]+", line):
            raise Differs(f"the program writes '{line[:60]}', which is no answer and no part of one")
    return found


def words(line):
    """A record in the words of a list, or a tick's report."""
    if not line.startswith("put "):
        return line
    _, conn, kind, number, key0, key1, message, times = line.split()
    said = {"s": "", "b": f" number {number}", "p": f" times {times}"}[kind]
    key = "" if kind == "s" else f" {key0} {key1}"
    return f"put {KINDS[kind]} {conn}{key} message {message}{said}"


def listing(lines, answered):
    """Each call with its answer under it."""
    text = []
    for number, (line, block) in enumerate(zip(lines, answered), 1):
        why = REFUSALS.get(block[0])
        answer = f"{block[0]}: {why}" if why else block[0]
        text.append(f"{line}\n    # {number}: {answer}\n")
        text += [f"    #     {words(line)}\n" for line in block[1:]]
    return "".join(text)


def put(record):
    conn, kind, *rest = record
    return " ".join(["put", str(conn), "sbp"[kind], *map(str, rest)])


def block_of(reading):
    """The lines that the replay program writes for the call of a reading."""
    lines = [reading["answer"]]
    records = iter(map(put, reading["records"]))
    for kind, conn, count in reading["reports"]:
        lines.append(f"{REPORTS[kind]} {conn}")
        lines += [next(records) for _ in range(count)]
    return lines + list(records)


def readings(wrote, answered):
    """The reading after each call, which has to come with the answer that the replay program gave."""
    found = [json.loads(line) for line in wrote.splitlines()]
    for number, (reading, block) in enumerate(zip(found, answered), 1):
        if block_of(reading) != block:
            raise Differs(f"call {number}: the program answers {block}, and the host crate {block_of(reading)}")
    if len(found) != len(answered):
        raise Differs(f"the program answers {len(answered)} calls, and the host crate {len(found)}")
    return found
