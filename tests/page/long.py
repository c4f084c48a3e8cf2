#!/usr/bin/env python3
"""long.py CALLS SEED > LIST.calls: a list of so many calls as a busy market has them, for the pages of long lists.

Four connections deliver one list of book events, some behind the others, and prints, a tick comes each second. Now and then a connection
is dropped and subscribes again with its snapshots and the events since them, two disagree and the market is reset, or a host makes a
mistake."""
import random
import sys


class Feed:
    def __init__(self, seed):
        self.random = random.Random(seed)
        self.time = 0
        self.message = 100
        self.end = 0  # events that the venue sent
        self.at = {}  # each connection's next event of the venue's list
        self.waiting = {}  # connections that get their snapshots next

    def call(self, text, message=False):
        if message:
            self.message += 1
            text += f" message {self.message}"
        return f"{text} at {self.time}"

    def subscribe(self, conn):
        self.at[conn] = self.end
        self.waiting[conn] = 2
        return self.call(f"subscribe {conn}")

    def event(self, conn):
        number = self.at[conn]
        self.at[conn] += 1
        self.end = max(self.end, self.at[conn])
        return self.call(f"book {conn} {1000 + number % 977} {7919 * number % 100003}", message=True)

    def disagree(self):
        conn = self.random.choice(sorted(self.at))
        yield self.call(f"book {conn} 5 {self.message}", message=True)
        yield self.call("reset")
        for conn in sorted(self.at):
            yield self.subscribe(conn)

    def mistake(self):
        yield self.random.choice([self.call("subscribe 9"), self.call("snapshot 1 token 2", message=True), self.call("tick view 7")])

    def some(self):
        """The next few calls."""
        self.time += self.random.randrange(0, 40)
        what = self.random.random()
        if what < 0.03:
            yield self.call("tick view 1")
            self.time += 900
        elif what < 0.036:
            conn = self.random.choice(sorted(self.at))
            yield self.call(f"drop {conn}")
            yield self.subscribe(conn)
            if what < 0.032:
                del self.waiting[conn]  # the venue sends it no snapshot, and it fails in time
        elif what < 0.038:
            yield from self.disagree()
        elif what < 0.042:
            yield from self.mistake()
        elif self.waiting:
            conn = self.random.choice(sorted(self.waiting))
            self.waiting[conn] -= 1
            yield self.call(f"snapshot {conn} token {self.waiting[conn]}", message=True)
            if not self.waiting[conn]:
                del self.waiting[conn]
        elif what < 0.2:
            conn = self.random.choice(sorted(self.at))
            yield self.call(f"print {conn} 77 {self.time // 3000}", message=True)
        else:
            behind = [conn for conn in self.at if self.at[conn] < self.end]
            yield self.event(self.random.choice(behind if behind and what < 0.8 else sorted(self.at)))


def calls(seed):
    feed = Feed(seed)
    for conn in (1, 2, 3, 4):
        yield feed.subscribe(conn)
    while True:
        yield from feed.some()


def main():
    count, seed = map(int, sys.argv[1:])
    made = calls(seed)
    for _ in range(count):
        print(next(made))


main()
