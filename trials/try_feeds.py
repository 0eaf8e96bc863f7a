#!/usr/bin/env python3
"""Plays generated feeds on the program auction and by `feeds.py`, and prints how many differ: `try_feeds.py SEED COUNT`.

A feed that differs is left as `differs-N.feed`. The program has to be built before, by `rt run` in crates/auction.
"""
import random
import subprocess
import sys
from pathlib import Path

HERE = Path(__file__).resolve().parent
PROGRAM = HERE.parent / "crates" / "auction" / "out" / "auction"
draw = random.Random(int(sys.argv[1]))


def number(most):
    return str(draw.randint(0, most))


def entry():
    price = draw.choice([number(40), str(10 * draw.randint(1, 40)), "10000010", "100000000"])
    return f"E {draw.choice('BS')} {number(20)} {price}"


def line():
    kind = draw.random()
    if kind < 0.05:
        return f"O {number(12)} {number(400)}\n".encode()
    if kind < 0.60:
        return (entry() + "\n").encode()
    if kind < 0.72:
        return f"C {number(30)} {number(8)}\n".encode()
    return f"W {number(40)}\n".encode() if kind < 0.80 else b"U\n"


def spoiled(text):
    """The line with a byte taken out, put in or changed."""
    text = bytearray(text)
    place, way = draw.randrange(len(text)), draw.random()
    if way < 0.4:
        del text[place]
    elif way < 0.8:
        text.insert(place, draw.choice(b"OECWUBS 0123456789\n\r\0\xff-+x"))
    else:
        text[place] = draw.randrange(256)
    return bytes(text)


def feed():
    lines = [f"O {draw.choice([1, 2, 5, 10])} {draw.randint(1, 400)}\n".encode()] if draw.random() < 0.9 else []
    lines += [spoiled(line()) if draw.random() < 0.06 else line() for _ in range(draw.randint(0, 60))]
    whole = b"".join(lines)
    return whole[:-1] if draw.random() < 0.1 else whole


def printed(command, given):
    return subprocess.run(command, input=given, capture_output=True, check=True).stdout


differ, count = 0, int(sys.argv[2])
for n in range(count):
    given = feed()
    if printed([PROGRAM], given) != printed([sys.executable, HERE / "feeds.py"], given):
        differ += 1
        Path(f"differs-{n}.feed").write_bytes(given)
print(f"feeds {count}, of which {differ} differ")
