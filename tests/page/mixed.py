#!/usr/bin/env python3
"""mixed.py CALLS SEED > LIST.calls: calls of every kind in any order, of few connections and keys, now and then with any number."""
import random
import sys

# each kind of a call, and how often it comes
FORMS = {
    "subscribe CONN at TIME": 4,
    "snapshot CONN token TOKEN message NUMBER at TIME": 6,
    "book CONN KEY KEY message NUMBER at TIME": 20,
    "print CONN KEY KEY message NUMBER at TIME": 12,
    "drop CONN at TIME": 1,
    "promote at TIME": 1,
    "reset at TIME": 1,
    "tick view ANSWER at TIME": 4,
}
# the numbers that mostly stand for a name
USUAL = {"CONN": range(4), "KEY": range(3), "NUMBER": range(1000), "TIME": range(0, 60_000, 500)}
# those that a record has one byte for
BYTES = {"TOKEN": [0, 0, 0, 1, 1, 1, 2, 255], "ANSWER": [0, 1, 1, 1, 2]}


def number(name, chance):
    if name in BYTES:
        return chance.choice(BYTES[name])
    if chance.random() < 0.9:
        return chance.choice(USUAL[name])
    return chance.choice([2**64 - 1, chance.randrange(2**64)])


def main():
    count, seed = map(int, sys.argv[1:])
    chance = random.Random(seed)
    for form in chance.choices(list(FORMS), FORMS.values(), k=count):
        print(*(number(word, chance) if word.isupper() else word for word in form.split()))


main()
