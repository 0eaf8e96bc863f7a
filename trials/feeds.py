#!/usr/bin/env python3
"""What the program auction must print for the feed on standard input.

Written from docs/FEED.md alone; the rules of the auction are those of `auction.py`.
"""
import re
import sys

from auction import Book, Refused

LONGEST, PLACES, REGISTER = 65_536, 256, 255
NUMBER = rb"(0|[1-9][0-9]{0,8})"
FORMS = {
    "O": re.compile(rb"O " + NUMBER + rb" " + NUMBER + rb"\n"),
    "E": re.compile(rb"E ([BS]) " + NUMBER + rb" " + NUMBER + rb"\n"),
    "C": re.compile(rb"C " + NUMBER + rb" " + NUMBER + rb"\n"),
    "W": re.compile(rb"W " + NUMBER + rb"\n"),
    "U": re.compile(rb"U\n"),
}
SHORTEST = [b"O 1 1\n", b"E B 1 1\n", b"C 1 1\n", b"W 1\n", b"U\n"]
ENDINGS = {line[start:] for line in SHORTEST for start in range(len(line) + 1)}


class Fault(Exception):
    """A line is refused: cause, layer and byte."""

    def __init__(self, cause, place):
        self.cause, self.place = cause, place
        self.layer = "read" if cause <= 2 else "book" if 7 <= cause <= 10 else "session"


def can_go_on(beginning):
    """Whether some bytes complete a beginning to a line."""
    return any(form.fullmatch(beginning + ending) for form in FORMS.values() for ending in ENDINGS)


def lines_of(feed):
    """Each line with its first byte; the last may have no end."""
    start = 0
    while start < len(feed):
        end = feed.find(b"\n", start)
        end = len(feed) if end < 0 else end + 1
        yield start, feed[start:end]
        start = end


def read(start, line):
    """The letter of a line, and its fields: each with its place."""
    for letter, form in FORMS.items():
        found = form.fullmatch(line)
        if found:
            return letter, [(found.group(i), start + found.start(i)) for i in range(1, form.groups + 1)]
    taken = next((n for n in range(len(line)) if not can_go_on(line[: n + 1])), len(line))
    raise Fault(1, start + taken)


def opened(fields, start):
    (tick, tick_place), (scarcity, scarcity_place) = fields
    if not 1 <= int(tick) <= 1_000:
        raise Fault(3, tick_place)
    if not 1 <= int(scarcity) <= 10_000_000:
        raise Fault(3, scarcity_place)
    return Book(int(tick), int(scarcity), PLACES, REGISTER)


def carried_out(book, letter, fields):
    """The lines of a call's answer."""
    numbers = [int(text) for text, _ in fields if text.isdigit()]
    if letter == "E":
        return [str(book.entry("buy" if fields[0][0] == b"B" else "sell", *numbers))]
    if letter == "U":
        told, trades = book.uncrossing()
        return [" ".join(map(str, line)) for line in [told, *trades]]
    (book.cut if letter == "C" else book.withdrawal)(*numbers)
    return ["ok"]


def blamed(letter, why, fields, start):
    """The byte at fault where a call is refused."""
    names = {"E": ["side", "quantity", "price"], "C": ["number", "quantity"], "W": ["number"], "U": []}[letter]
    places = {name: place for name, (_, place) in zip(names, fields)}
    return places.get({4: "quantity", 5: "price", 6: "price", 7: "number", 8: "quantity"}.get(why), start)


def answered(book, start, line):
    """The session's book after a line, and the lines of its answer."""
    letter, fields = read(start, line)
    if (letter == "O") == (book is not None):
        raise Fault(2, start)
    if letter == "O":
        return opened(fields, start), ["ok"]
    try:
        return book, carried_out(book, letter, fields)
    except Refused as why:
        raise Fault(why.number, blamed(letter, why.number, fields, start))


def main():
    feed, book = sys.stdin.buffer.read(), None
    if len(feed) > LONGEST:
        print("refused 1 read 0", LONGEST)
        return
    for number, (start, line) in enumerate(lines_of(feed), 1):
        try:
            book, answer = answered(book, start, line)
        except Fault as why:
            answer = [f"refused {why.cause} {why.layer} {number} {why.place}"]
        print("\n".join(answer))


main()
