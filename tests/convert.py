#!/usr/bin/env python3
"""Call lists as text, and as the records that the replay program reads.

    convert.py encode < LIST.calls > RECORDS
    convert.py decode < RECORDS > LIST.calls

A list has one call a line; '#' starts a comment, and empty lines are allowed:

    subscribe CONN at TIME
    snapshot CONN token TOKEN message MESSAGE at TIME
    book CONN KEY KEY message MESSAGE at TIME
    print CONN KEY KEY message MESSAGE at TIME
    drop CONN at TIME
    promote at TIME
    reset at TIME
    tick view ANSWER at TIME

Numbers are decimal and below 2^64; a token and a view answer are below 256. A record has 44 bytes, little-endian: the mark
4D 47 (hexadecimal), the call's number from 1 in the order above, connection, key, message, time, and one byte for the token
or the view answer. A field that a call does not use is 0.
"""
# as support/calls.py, which knows their form, with what is wrong said shorter
import sys
from pathlib import Path

sys.path.insert(0, str(Path(__file__).resolve().parent.parent / "support"))
import calls  # noqa: E402


class Wrong(Exception):
    pass


def test_number(word, name):
    if not (word.isascii() and word.isdigit()):
        raise Wrong(f"'{word}' is not a decimal number")
    limit = 256 if name in calls.INDEX else 2**64
    if int(word) >= limit:
        raise Wrong(f"{int(word)} is not below {limit}")


def test_line(words):
    for form in calls.CALLS:
        names = form.split()
        if names[0] != words[0]:
            continue
        said = " ".join("INDEX" if name in calls.INDEX else name for name in names)
        if len(names) != len(words):
            raise Wrong(f"a call is '{said}'")
        for name, word in zip(names, words):
            if name.isupper():
                test_number(word, name)
            elif name != word:
                raise Wrong(f"'{word}' stands where '{name}' is due: a call is '{said}'")
        return
    raise Wrong(f"there is no call '{words[0]}'")


def encode(text):
    records = []
    for place, line in enumerate(text.split("\n"), 1):
        words = line.split("#")[0].split()
        if words:
            try:
                test_line(words)
            except Wrong as e:
                raise Wrong(f"line {place}: {e}") from None
            records.append(calls.encode_line(words))
    return b"".join(records)


def decode(data):
    lines = []
    for start in range(0, len(data), calls.RECORD.size):
        record, place = data[start : start + calls.RECORD.size], start // calls.RECORD.size + 1
        if len(record) < calls.RECORD.size:
            raise Wrong(f"record {place} has {len(record)} bytes and not {calls.RECORD.size}")
        if record[:2] != calls.MARK:
            raise Wrong(f"record {place} begins {record[:2].hex(' ')} and not {calls.MARK.hex(' ')}")
        if not 1 <= record[2] <= len(calls.CALLS):
            raise Wrong(f"record {place} has the call byte {record[2]}, which is not 1 to {len(calls.CALLS)}")
        lines.append(calls.line(record))
    return "".join(line + "\n" for line in lines)


def main():
    try:
        if sys.argv[1:] == ["encode"]:
            sys.stdout.buffer.write(encode(sys.stdin.read()))
        elif sys.argv[1:] == ["decode"]:
            sys.stdout.write(decode(sys.stdin.buffer.read()))
        else:
            sys.exit(__doc__)
    except Wrong as e:
        sys.exit(f"convert.py: {e}")


main()
