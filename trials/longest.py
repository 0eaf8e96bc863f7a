#!/usr/bin/env python3
"""Feeds of 65,536 bytes or just below, to see how long the program auction takes: `longest.py NAME` writes one to standard output.

docs/FEED.md has the times.
"""
import sys

LONGEST = 65_536
OPENING = b"O 1 10000000\n"


def repeated(start, round_of):
    """The start, and rounds behind it as long as there is room for a whole one."""
    feed, n = [start], 0
    length = len(start)
    while length + len(round_of(n)) <= LONGEST:
        feed.append(round_of(n))
        length += len(feed[-1])
        n += 1
    return b"".join(feed)


def resting(buys, sells):
    """Buys at low limits and sells at high ones, which do not trade."""
    return b"".join([b"E B 1 %d\n" % (i + 1) for i in range(buys)] + [b"E S 1 %d\n" % (i + 1_000) for i in range(sells)])


FEEDS = {
    "empty": lambda: b"\n" * LONGEST,
    "digits": lambda: b"W " + b"1" * (LONGEST - 2),
    "out-of-turn": lambda: b"U\n" * (LONGEST // 2),
    "idle": lambda: repeated(OPENING + resting(128, 128), lambda n: b"U\n"),
    "pairs": lambda: repeated(OPENING + resting(127, 127), lambda n: b"E B 1 9999999\nE S 1 1\nU\n"),
    "nibbles": lambda: repeated(OPENING + b"".join(b"E B 6858 %d\n" % (i + 1) for i in range(255)), lambda n: b"E S 1 1\nU\n"),
    "places": lambda: repeated(OPENING + b"E B 1 1\n" * 255, lambda n: b"E B 1 1\nW %d\n" % (n + 256)),
    "crowds": lambda: repeated(OPENING, lambda n: b"E B 2 9\n" * 128 + b"E S 2 9\n" * 128 + b"U\n"),
}

sys.stdout.buffer.write(FEEDS[sys.argv[1]]())
