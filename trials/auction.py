"""The auction in the plainest way: every admissible price is tried, and trades are paired order by order.

Written from docs/RULES.md and docs/ENGINE.md alone, with exact fractions; the scripts beside it use it.
"""
from fractions import Fraction
from math import floor


class Refused(Exception):
    """A call is refused with a number."""

    def __init__(self, number):
        self.number = number


def rows_of(orders, tick, scarcity):
    """Each admissible price in centavos, with its volume and imbalance."""
    rows = []
    for price in range(tick, scarcity + 1, tick):
        bought = sum(o["quantity"] for o in orders if o["side"] == "buy" and o["price"] >= price)
        sold = sum(o["quantity"] for o in orders if o["side"] == "sell" and o["price"] <= price)
        rows.append((price, min(bought, sold), bought - sold))
    return rows


def ending(rows, tick):
    """How the rule ends, and the price that it gives."""
    volume = max((v for _, v, _ in rows), default=0)
    if volume == 0:
        return "nothing trades", None
    rows = [row for row in rows if row[1] == volume]
    least = min(abs(i) for _, _, i in rows)
    kept = [(p, i) for p, _, i in rows if abs(i) == least]
    positive = [p for p, i in kept if i > 0]
    negative = [p for p, i in kept if i < 0]
    if positive and negative:
        return "both signs", nearest(max(positive), min(negative), tick)
    if positive:
        return "all imbalances positive", max(positive)
    if negative:
        return "all imbalances negative", min(negative)
    prices = [p for p, _ in kept]
    return "all imbalances zero", nearest(min(prices), max(prices), tick)


def equilibrium(orders, tick, scarcity):
    """The price in centavos with its volume and imbalance, or nothing."""
    rows = rows_of(orders, tick, scarcity)
    price = ending(rows, tick)[1]
    return next((row for row in rows if row[0] == price), None)


def nearest(a, b, tick):
    return floor(Fraction(a + b, 2) / tick + Fraction(1, 2)) * tick


def fills(orders, side, volume):
    """Each order of the side in rank, with what it trades of the volume."""
    ranked = sorted((o for o in orders if o["side"] == side), key=lambda o: (-o["price"] if side == "buy" else o["price"], o["number"]))
    filled = []
    for order in ranked:
        quantity = min(volume, order["quantity"])
        volume -= quantity
        if quantity:
            filled.append([order["number"], quantity])
    return filled


def pair(buys, sells):
    trades = []
    while buys and sells:
        quantity = min(buys[0][1], sells[0][1])
        trades.append((buys[0][0], sells[0][0], quantity))
        for front in (buys, sells):
            front[0][1] -= quantity
            if front[0][1] == 0:
                front.pop(0)
    return trades


class Book:
    """A book of so many places, in a session, with a register of so many places."""

    def __init__(self, tick, scarcity, places, room):
        self.tick, self.scarcity, self.places, self.room = tick, scarcity, places, room
        self.orders, self.last = [], 0

    def find(self, number):
        for order in self.orders:
            if order["number"] == number:
                return order
        raise Refused(7)

    def take(self, order, quantity):
        order["quantity"] -= quantity
        if order["quantity"] == 0:
            self.orders.remove(order)

    def entry(self, side, quantity, price):
        if not 1 <= quantity <= 6_858:
            raise Refused(4)
        if not 1 <= price <= 10_000_000:
            raise Refused(5)
        if price % self.tick:
            raise Refused(6)
        if len(self.orders) == self.places:
            raise Refused(9)
        if self.last == 60_000:
            raise Refused(10)
        self.last += 1
        self.orders.append({"number": self.last, "side": side, "price": price, "quantity": quantity})
        return self.last

    def cut(self, number, quantity):
        order = self.find(number)
        if not 1 <= quantity <= order["quantity"]:
            raise Refused(8)
        self.take(order, quantity)

    def withdrawal(self, number):
        order = self.find(number)
        self.take(order, order["quantity"])

    def indication(self):
        """Price, volume and imbalance."""
        found = equilibrium(self.orders, self.tick, self.scarcity)
        if found is None:
            raise Refused(11)
        return found

    def uncrossing(self):
        """The same, and the trades."""
        found = self.indication()
        trades = pair(fills(self.orders, "buy", found[1]), fills(self.orders, "sell", found[1]))
        if len(trades) > self.room:
            raise Refused(12)
        for buy, sell, quantity in trades:
            self.take(self.find(buy), quantity)
            self.take(self.find(sell), quantity)
        return found, trades
