#!/usr/bin/env python3
"""What the program engine_trials must print for its generated lists of calls.

The rules are those of `auction.py`; of the program it has nothing but its generator of numbers and the order in which a list is drawn. Run it to get the first lines of crates/engine_trials/stdout.
"""
from collections import Counter

from auction import Book, Refused

SEED, LISTS, CALLS = 18_112_026, 2_000, 30
state = SEED


def below(bound):
    global state
    state = (state * 6_364_136_223_846_793_005 + 1_442_695_040_888_963_407) % 2**64
    return (state >> 33) % bound


def draw_call():
    kind = below(16)
    if kind <= 8:
        side, quantity = ("buy" if below(2) == 0 else "sell"), below(6)
        return ("entry", side, quantity, 10_000_001 if below(40) == 0 else below(25))
    if kind <= 10:
        return ("cut", below(12), below(5))
    if kind == 11:
        return ("withdrawal", below(12))
    return ("indication",) if kind <= 13 else ("uncrossing",)


NAMES = {"entry": "entered", "cut": "cut", "withdrawal": "withdrawn", "indication": "indicated", "uncrossing": "uncrossed"}
counts, trades = Counter(), 0
for _ in range(LISTS):
    tick, scarcity = below(3) + 1, below(30) + 1
    book = Book(tick, scarcity, below(7) + 2, below(5))
    for name, *given in [draw_call() for _ in range(CALLS)]:
        try:
            answer = getattr(book, name)(*given)
        except Refused as why:
            counts[why.number] += 1
            continue
        counts[NAMES[name]] += 1
        if name == "uncrossing":
            trades += len(answer[1])
print("lists", LISTS)
for name in NAMES.values():
    print(name, counts[name])
print("trades", trades)
for number in range(16):
    if counts[number]:
        print("refused", number, counts[number])
print("table differs 0")
print("ladder differs 0")
