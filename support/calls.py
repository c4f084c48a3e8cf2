#!/usr/bin/env python3
"""Call lists as text, and as the records that the replay program reads.

    calls.py encode < LIST.calls > RECORDS
    calls.py decode < RECORDS > LIST.calls

A list has one call a line; '#' starts a comment, and empty lines are allowed:

    subscribe CONN at TIME
    snapshot CONN token TOKEN message MESSAGE at TIME
    book CONN KEY KEY message MESSAGE at TIME
    print CONN KEY KEY message MESSAGE at TIME
    drop CONN at TIME
    promote at TIME
    reset at TIME
    tick view ANSWER at TIME

Numbers are decimal and below 2^64; a token and a view answer are below 256. A record has 44 bytes, little-endian: the mark
4D 47 (hexadecimal), the call's number from 1 in the order above, connection, key, message, time, and one byte for the token
or the view answer. A field that a call does not use is 0 where a list is encoded, and may be anything where records are read.
"""
import re
import struct
import sys

# each call's words; a name in capitals stands for a number
CALLS = [
    "subscribe CONN at TIME",
    "snapshot CONN token TOKEN message MESSAGE at TIME",
    "book CONN KEY0 KEY1 message MESSAGE at TIME",
    "print CONN KEY0 KEY1 message MESSAGE at TIME",
    "drop CONN at TIME",
    "promote at TIME",
    "reset at TIME",
    "tick view ANSWER at TIME",
]
# the fields of a record behind its call byte; a token or a view answer is its last byte
FIELDS = ["CONN", "KEY0", "KEY1", "MESSAGE", "TIME", "INDEX"]
INDEX = ("TOKEN", "ANSWER")
RECORD = struct.Struct("<2sBQQQQQB")
MARK = b"MG"
# no text has these bytes, and every record has one: its call byte. Terminals and old systems leave 1A and 1B in a text
NO_TEXT = re.compile(rb"[\x00-\x08\x0e-\x19\x1c-\x1f]")
# what begins a text in UTF-16
WIDE = (b"\xff\xfe", b"\xfe\xff")


class Wrong(Exception):
    """What is wrong with a list, and where."""


def text_of(data):
    """A list's text. A mark at its start that says how it is encoded is none of it, nor is one that ends it."""
    return data.decode("utf-16" if data.startswith(WIDE) else "utf-8-sig", errors="replace").removesuffix("\x1a")


def is_records(data):
    """Whether these bytes are meant as records; else they are a text. A text shows in what would be its first record."""
    text = text_of(data[: RECORD.size]).encode() if data.startswith(WIDE) else data
    return data.startswith(MARK) or data == MARK[:1] or NO_TEXT.search(text[: RECORD.size]) is not None


def told(word):
    """A word of a list in a message: not all of a very long one, and what a terminal does not show by its number."""
    shown = word if len(word) <= 60 else word[:60] + "…"
    return "".join(char if char.isprintable() else f"\\x{ord(char):02X}" for char in shown)


def number(word, name, form):
    if not (word.isascii() and word.isdigit()):
        raise Wrong(f"'{told(word)}' stands where {name} is due, and is no decimal number: a call is '{form}'")
    limit, said = (256, "256") if name in INDEX else (2**64, "2^64")
    digits = word.lstrip("0") or "0"
    if len(digits) > 20 or int(digits) >= limit:
        raise Wrong(f"{told(word)} stands where {name} is due, and is not below {said}")
    return int(digits)


def encode_line(words):
    for call, form in enumerate(CALLS, 1):
        names = form.split()
        if names[0] != words[0]:
            continue
        if len(names) != len(words):
            raise Wrong(f"{len(words)} words stand where {len(names)} are due: a call is '{form}'")
        values = dict.fromkeys(FIELDS, 0)
        for name, word in zip(names, words):
            if name.isupper():
                values["INDEX" if name in INDEX else name] = number(word, name, form)
            elif name != word:
                raise Wrong(f"'{told(word)}' stands where '{name}' is due: a call is '{form}'")
        return RECORD.pack(MARK, call, *values.values())
    names = ", ".join(form.split()[0] for form in CALLS)
    raise Wrong(f"there is no call '{told(words[0])}': a line begins with {names} or #")


def encode(text):
    """The records of a list."""
    records = []
    for place, line in enumerate(re.split("\r\n|\r|\n", text), 1):
        words = line.split("#")[0].split()
        if words:
            try:
                records.append(encode_line(words))
            except Wrong as e:
                raise Wrong(f"line {place}: {e}") from None
    return b"".join(records)


def shown(some):
    return some.hex(" ").upper()


def fault(record):
    """What is wrong with these bytes as a record, or None."""
    if len(record) < RECORD.size:
        return f"its length is {len(record)}, and a record has {RECORD.size} bytes"
    if record[:2] != MARK:
        return f"its mark is {shown(record[:2])}, and {shown(MARK)} was expected"
    if not 1 <= record[2] <= len(CALLS):
        return f"its call byte, the third, is {record[2]:02X}, and 01 to {len(CALLS):02X} was expected"
    return None


def split(data):
    """The records before the first bad one, and what is wrong with that, or None."""
    for start in range(0, len(data), RECORD.size):
        record = data[start : start + RECORD.size]
        what = fault(record)
        if what:
            last = start + len(record) - 1
            where = f"record {start // RECORD.size + 1}, bytes {start} to {last} counted from 0"
            return data[:start], f"{where}: {what}. The bytes are {shown(record)}"
    return data, None


def fields(record):
    """The call of a record as pairs of a name and what it carries; the first is the call's name."""
    _, call, *values = RECORD.unpack(record)
    form = CALLS[call - 1].split()
    values = dict(zip(FIELDS, values))
    names = [name for name in form if name.isupper()]
    return [("CALL", form[0])] + [(name, values["INDEX" if name in INDEX else name]) for name in names]


def line(record):
    """The call of a record, as a line of a list."""
    carried = dict(fields(record))
    return " ".join(str(carried.get(word, word)) for word in CALLS[record[2] - 1].split())


def lines(data):
    return [line(data[start : start + RECORD.size]) for start in range(0, len(data), RECORD.size)]


def decode(data):
    """The list of these records."""
    good, what = split(data)
    if what:
        raise Wrong(what)
    return "".join(line + "\n" for line in lines(good))


def main():
    try:
        if sys.argv[1:] == ["encode"]:
            sys.stdout.buffer.write(encode(text_of(sys.stdin.buffer.read())))
        elif sys.argv[1:] == ["decode"]:
            sys.stdout.write(decode(sys.stdin.buffer.read()))
        else:
            sys.exit(__doc__)
    except Wrong as e:
        sys.exit(f"calls.py: {e}")


if __name__ == "__main__":
    main()
