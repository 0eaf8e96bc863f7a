#!/usr/bin/env python3
"""What the program price_trials must print for its generated books.

Written from docs/RULES.md alone, with nothing of the program but its generator of numbers and the order in which a book is drawn. Run it
to get the first lines of crates/price_trials/stdout.
"""
from auction import ending, rows_of

SEED, BOOKS = 20_261_118, 20_000
DRAWS = {"thin": (12, 9, 4), "crowded": (4, 16, 1)}
state = SEED


def below(bound):
    global state
    state = (state * 6_364_136_223_846_793_005 + 1_442_695_040_888_963_407) % 2**64
    return (state >> 33) % bound


def draw(prices, most, contracts):
    orders = []
    for _ in range(below(most + 1)):
        quantity, limit = below(contracts) + 1, below(prices) + 1
        orders.append({"side": "buy" if below(2) == 0 else "sell", "quantity": quantity, "limit": limit})
    return orders, below(3) + 1, below(4 * prices) + 1


NAMES = ["nothing trades", "all imbalances positive", "all imbalances negative", "both signs", "all imbalances zero"]
for words, kind in DRAWS.items():
    state = SEED
    counts, capped = dict.fromkeys(NAMES, 0), 0
    for _ in range(BOOKS):
        orders, tick, scarcity = draw(*kind)
        for order in orders:
            order["price"] = order["limit"] * tick
        name, price = ending(rows_of(orders, tick, scarcity), tick)
        counts[name] += 1
        capped += price == scarcity // tick * tick and price is not None
    print(f"generated books, {words} {BOOKS}")
    for name in NAMES:
        print(name, counts[name])
    print("price at the highest admissible", capped)
    print("a make and the calculator differ 0")
