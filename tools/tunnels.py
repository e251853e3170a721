#!/usr/bin/env python3
"""A second implementation of the tunnels of docs/RULES.md, with exact fractions and whole lists of trades.

    tunnels.py script             a script of many tunnels and questions, for the program `ranges`
    tunnels.py answers < SCRIPT   what the program `ranges` answers to it
"""

import random
import sys
from fractions import Fraction
from math import ceil, floor

GREATEST_PRICE = 10_000_000
GREATEST_SECOND = 100_000
GREATEST_QUANTITY = 10_000
GREATEST_TICK = 1_000
GREATEST_BAND = 1_000_000
GREATEST_TALLY = 100_000_000_000
PERIOD = 15
NO_PRICE = (1, 0)
EVERY_PRICE = (1, GREATEST_PRICE)


class Refused(Exception):
    pass


def check(condition):
    if not condition:
        raise Refused


def down(tick, price):
    return floor(Fraction(price) / tick) * tick


def up(tick, price):
    return ceil(Fraction(price) / tick) * tick


class Tunnel:
    """What all kinds share: the tally, the trades of the day, and the limits of questions."""

    def __init__(self):
        self.start()

    def start(self):
        self.trades = []

    @property
    def tally(self):
        return sum(quantity for _, quantity, _ in self.trades)

    def tell(self, price, quantity, second):
        if 1 <= price <= GREATEST_PRICE and 1 <= quantity <= GREATEST_QUANTITY and second <= GREATEST_SECOND:
            if self.tally + quantity <= GREATEST_TALLY:
                self.trades.append((price, quantity, second))

    def ask(self, base, second):
        if not (1 <= base <= GREATEST_PRICE and second <= GREATEST_SECOND):
            return (NO_PRICE,) * 3
        return self.ranges(base, second)


class Band(Tunnel):
    def __init__(self, tick, *bands):
        check(1 <= tick <= GREATEST_TICK)
        for low, high in zip(bands[0::2], bands[1::2]):
            check(-GREATEST_BAND <= low <= 0 <= high <= GREATEST_BAND)
        super().__init__()
        self.tick = tick
        self.bands = list(zip(bands[0::2], bands[1::2]))

    def ranges(self, base, second):
        return tuple((down(self.tick, base + low), up(self.tick, base + high)) for low, high in self.bands)


class Mean(Tunnel):
    def __init__(self, tick, half_width, settlement):
        check(1 <= tick <= GREATEST_TICK and 1 <= half_width <= GREATEST_BAND and 1 <= settlement <= GREATEST_PRICE)
        super().__init__()
        self.tick, self.half_width, self.settlement = tick, half_width, settlement

    def centre(self, second):
        dated = []
        latest = 0
        for price, quantity, told in self.trades:
            latest = max(latest, told // PERIOD)
            dated.append((latest, price, quantity))
        period = max(latest, second // PERIOD)
        before = [(price, quantity) for when, price, quantity in dated if when == period - 1]
        if before:
            return Fraction(sum(p * q for p, q in before), sum(q for _, q in before))
        earlier = [price for when, price, _ in dated if when < period]
        return Fraction(earlier[-1] if earlier else self.settlement)

    def ranges(self, base, second):
        centre = self.centre(second)
        auction = (down(self.tick, centre - self.half_width) + 1, up(self.tick, centre + self.half_width) - 1)
        return (EVERY_PRICE, EVERY_PRICE, auction)


class Last(Tunnel):
    """The outside maker's tunnel of the program `ranges`: the price last told, on an earlier day too."""

    def __init__(self, width, first):
        super().__init__()
        self.width, self.last = width, first

    def tell(self, price, quantity, second):
        before = len(self.trades)
        super().tell(price, quantity, second)
        if len(self.trades) > before:
            self.last = price

    def ranges(self, base, second):
        return (EVERY_PRICE, EVERY_PRICE, (self.last - self.width, self.last + self.width))


class Limits:
    def __init__(self, low, high, below):
        check(1 <= low <= high <= GREATEST_PRICE)
        self.low, self.high, self.below = low, high, below
        self.start, self.tell = below.start, below.tell

    @property
    def tally(self):
        return self.below.tally

    def ask(self, base, second):
        buy, sell, auction = self.below.ask(base, second)
        if not (1 <= base <= GREATEST_PRICE and second <= GREATEST_SECOND):
            return (buy, sell, auction)
        narrowed = [(max(self.low, low), min(self.high, high)) for low, high in (buy, sell)]
        return (*narrowed, auction)


KINDS = {"band": Band, "mean": Mean, "last": Last}


def answers(script):
    for block in script.rstrip("\n").split("\n\n"):
        lines = [line.split() for line in block.split("\n")]
        kind, *numbers = lines[0]
        try:
            tunnel = KINDS[kind](*map(int, numbers))
        except Refused:
            yield "refused 3"
            continue
        for word, *numbers in lines[1:]:
            if word == "limits":
                try:
                    tunnel = Limits(*map(int, numbers), tunnel)
                except Refused:
                    yield "refused 3"
        for word, *numbers in lines[1:]:
            numbers = list(map(int, numbers))
            if word == "start":
                tunnel.start()
            elif word == "tell":
                tunnel.tell(*numbers)
            elif word == "ask":
                buy, sell, auction = tunnel.ask(*numbers)
                yield "buy %d %d sell %d %d auction %d %d tally %d" % (*buy, *sell, *auction, tunnel.tally)


WORKED = """band 1 -150 50 -50 150 -20 20
ask 1000 0
ask 1 0
ask 10000000 100000

band 7 -150 50 -50 150 -20 20
ask 1000 0
ask 1 0
ask 10000000 100000

band 1000 -1000000 1000000 0 0 -1 1
ask 1 0
ask 1000 0
ask 1001 0
ask 9999999 0
ask 10000000 0

mean 1 14 900
ask 1000 0
tell 1000 3 3
tell 1010 1 14
ask 1000 14
ask 1000 15
ask 1000 29
ask 1000 30
ask 1000 31
ask 0 31
ask 10000001 31
ask 1000 100001
tell 1020 5 16
ask 1000 3
ask 1000 16
ask 1000 30
tell 2000 5 2
ask 1000 16
ask 1000 30
ask 1000 45
start
ask 1000 16
ask 1000 45

mean 1000 1 1
ask 1 0
tell 1 10000 0
tell 10000000 1 1
ask 1 15
ask 1 100000

mean 7 1000000 10000000
limits 900 1100
limits 800 1050
ask 1000 0
tell 0 1 0
tell 10000001 1 0
tell 5 0 0
tell 5 10001 0
tell 5 1 100001
ask 1000 0
ask 1000 15
ask 1000 30
tell 5 1 0
ask 1000 0
ask 1000 15
ask 1000 30
ask 0 0
start
ask 1000 0

last 5 100
limits 50 60
ask 1 1
tell 55 2 1
start
ask 1 1"""

ODD = [0, 1, 2, 4_294_967_295]


def near(rng, greatest):
    return rng.choice([rng.randint(0, greatest), rng.randint(0, greatest), greatest, greatest + 1, rng.choice(ODD)])


def random_tunnel(rng):
    tick = rng.choice([1, 1, 2, 5, 7, 10, 1000, rng.randint(1, 1000), rng.randint(1, 1000)])
    if rng.random() < 0.04:
        tick = rng.choice([0, 1001, 4_294_967_295])
    kind = rng.randrange(5)
    if kind < 2:
        width = rng.choice([30, 1000, GREATEST_BAND])
        bands = [sign * rng.randint(0, width) for _ in range(3) for sign in (-1, 1)]
        if rng.random() < 0.1:
            bands[rng.randrange(6)] = rng.choice([-1, 1, -GREATEST_BAND - 1, GREATEST_BAND + 1, -(2**31), 2**31 - 1])
        return "band %d %s" % (tick, " ".join(map(str, bands)))
    if kind < 4:
        half_width = rng.choice([1, 14, 22, 31, 45, GREATEST_BAND, rng.randint(1, 2000)])
        settlement = rng.choice([rng.randint(1, 2000), 1000, GREATEST_PRICE])
        if rng.random() < 0.04:
            half_width = rng.choice([0, GREATEST_BAND + 1, 4_294_967_295])
        if rng.random() < 0.04:
            settlement = rng.choice([0, GREATEST_PRICE + 1, 4_294_967_295])
        return "mean %d %d %d" % (tick, half_width, settlement)
    return "last %d %d" % (rng.randint(0, 50), rng.randint(1, 2000))


def random_block(rng):
    lines = [random_tunnel(rng)]
    for _ in range(rng.choice([0, 0, 1, 2])):
        low = rng.choice([rng.randint(0, 1200), 1])
        lines.append("limits %d %d" % (low, rng.choice([low, low + rng.randint(-1, 1000), GREATEST_PRICE, GREATEST_PRICE + 1])))
    second = 0
    for _ in range(rng.randint(1, 25)):
        what = rng.random()
        second = min(GREATEST_SECOND, second + rng.choice([0, 0, 1, 3, 14, 15, 16, 40, 200]))
        when = rng.choice([second, second, second, max(0, second - rng.randint(1, 40)), near(rng, GREATEST_SECOND)])
        if what < 0.05:
            lines.append("start")
            second = rng.choice([0, second])
        elif what < 0.5:
            price = rng.choice([rng.randint(900, 1100), rng.randint(1, 30), near(rng, GREATEST_PRICE)])
            quantity = rng.choice([rng.randint(1, 20), rng.randint(1, 10_000), near(rng, GREATEST_QUANTITY)])
            lines.append("tell %d %d %d" % (price, quantity, when))
        else:
            base = rng.choice([rng.randint(900, 1100), rng.randint(1, 30), near(rng, GREATEST_PRICE)])
            lines.append("ask %d %d" % (base, when))
    return "\n".join(lines)


def script():
    rng = random.Random(20110420)
    return "\n\n".join([WORKED] + [random_block(rng) for _ in range(400)]) + "\n"


def main():
    if sys.argv[1:] == ["script"]:
        sys.stdout.write(script())
    elif sys.argv[1:] == ["answers"]:
        for line in answers(sys.stdin.read()):
            print(line)
    else:
        sys.exit(__doc__)


main()
