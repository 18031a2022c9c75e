"""The cases of the test program `vectors`, and the answers that tools/reference.py gives for them.

    python3 tools/vectors.py            writes crates/vectors/stdin and crates/vectors/stdout
    python3 tools/vectors.py --check    exits 1 if the two files are not what it would write

A case is a line: a call and its numbers. The answers come from tools/reference.py, which shares
nothing with the Rattle code. Each list of totals is also held against demand 3's tally.

    open L T.. FIRST LAST                           number; the days are 0 and 0 for a head without dates
    add TIMES CLASS VEHICLES KM SHARES.. SPEEDS..   number of the last add, record count
    set FIELD INDEX VALUE                           nothing; a field of the run changed by hand (0 L, 1 X, 2 count, 3 kilometres,
                                                    4 grams and 5 rest of a sum, 6 grams and 7 rest of a stored total)
    total FUEL QUANTITY                             number, grams
    kind FUEL QUANTITY KIND                         number, grams
    balance FUEL QUANTITY S                         number, k, digits worked, grams
    report BYTES                                    number, length; then the buffer, full of dots before
    list                                            number and grams of the four kinds and the total of each fuel and quantity
    fields                                          every field of the run; grams and rest of each sum, then of each stored total
"""
import datetime
import itertools
import math
import os
import random
import sys
from fractions import Fraction

import reference as ref
import tight_list

MAX = 2**64 - 1
TRIP, X, COUNT, KM, GRAMS, REST, TOTAL, TOTAL_REST = range(8)
PLACES = [(f, q, k) for f in ref.FUELS for q in ref.QUANTITIES for k in ref.KINDS]
TOTALS = [(f, q) for f in ref.FUELS for q in ref.QUANTITIES]
MILD = [100] * 12
# No two months alike, so that X tells which of them weigh.
YEAR = [-50, -20, 10, 60, 110, 150, 180, 175, 130, 80, 30, -10]
EXAMPLE = (2, 1000, 10000, (40, 40, 20), (20, 60, 100))


class Cases:
    """The lines of standard input, answered as they are said, so that a case can go by what was answered."""

    def __init__(self, answers):
        self.lines, self.answers, self.answered = [], answers, []

    def say(self, *words, number=None):
        """A line; where the case was made for a number, the first of its answer is held to it."""
        self.lines.append(" ".join(str(w) for w in words))
        self.answered.append(self.answers.line(self.lines[-1]))
        assert number is None or self.answered[-1].split(" = ")[1].split()[0] == str(number), self.answered[-1]

    def open(self, trip, temps, first=0, last=0):
        self.say("open", trip, *temps, first, last)

    def add(self, record, times=1, number=None):
        cls, vehicles, km, shares, speeds = record
        self.say("add", times, cls, vehicles, km, *shares, *speeds, number=number)

    def set(self, field, index, value):
        self.say("set", field, index, value)

    def settle(self):
        """The stored totals follow their kinds, which were changed by hand."""
        for change in unsettled(self.answers.run):
            self.set(*change)

    def set_total(self, index, grams, rest):
        self.set(TOTAL, index, grams)
        self.set(TOTAL_REST, index, rest)

    def ask_all(self):
        """Every call that is handed a run; the add comes last, since it may change it."""
        self.say("total", 1, 1)
        self.say("kind", 1, 5, 3)
        self.say("balance", 1, 1, 1000)
        self.say("report", 400)
        self.add(EXAMPLE)


def unsettled(run):
    """The stored totals that are not the sum of their four kinds: field, index, and what it has to be."""
    changes = []
    for i, place in enumerate(TOTALS):
        grams, rest = divmod(run.exact_total(*place), 10**9)
        # cut to 64 bits: a run with more is out of order by its kinds
        for field, held, value in ((TOTAL, run.total_grams, grams % 2**64), (TOTAL_REST, run.total_rests, rest)):
            if held[place] != value:
                changes.append((field, i, value))
    return changes


def broken(run, place):
    """Grams and rest of a stored total that is broken in each way: one gram more and less, one billionth more and less, one gram
    in the rest, so that this is not below its limit; the carry of the four rests lost, or all of it in the rest; and what is as many
    billionths where these wrap at 2^64 (10^9 is 2^9 times an odd number)."""
    exact = run.exact_total(*place)
    grams, rest = divmod(exact, 10**9)
    alone, rests = (sum(part[(*place, kind)] for kind in ref.KINDS) for part in (run.grams, run.rests))
    ways = [divmod(exact + change, 10**9) for change in (10**9, -10**9, 1, -1)]
    ways += [(grams - 1, rest + 10**9), (alone, rest), (alone, rests), (grams + 2**55, rest)]
    return [way for way in dict.fromkeys(ways) if way != (grams, rest) and way[0] >= 0]


def example(c):
    """The specification's fleet, its report, its balance, and the same fleet without cold CO."""
    c.open(120, MILD)
    c.say("fields")
    c.say("report", 0)
    c.say("balance", 1, 1, 1000)
    c.add(EXAMPLE)
    c.say("fields")
    c.say("list")
    for size in (388, 387, 389, 0, 1, 96, 97, 400, 1600):
        c.say("report", size)
    for sold in (1000, 481, 482, 1443, 1444, 0, 1, 999999999, 1000000000, MAX):
        for q in ref.QUANTITIES:
            c.say("balance", 1, q, sold)
    c.say("balance", 2, 5, 1000)
    c.open(120, [300] * 12)
    c.add(EXAMPLE)
    c.say("total", 1, 1)
    c.say("list")


def grounds(c):
    """The example of each number of the table whose call exists."""
    c.open(9, MILD)
    c.say("fields")
    c.open(120, [401] + MILD[1:])
    c.say("fields")
    c.open(120, MILD)
    cls, vehicles, km, shares, speeds = EXAMPLE
    c.add((0, vehicles, km, shares, speeds))
    c.add((cls, 0, km, shares, speeds))
    c.add((cls, vehicles, 0, shares, speeds))
    c.add((cls, 100001, 10000, shares, speeds))
    c.add((cls, vehicles, km, (40, 40, 19), speeds))
    c.add((cls, vehicles, km, shares, (20, 60, 131)))
    c.say("total", 4, 1)
    c.say("balance", 1, 1, 1000)
    c.say("fields")
    c.add(EXAMPLE)
    c.say("balance", 1, 1, 481)
    c.say("report", 387)
    c.set(TRIP, 0, 0)
    c.ask_all()
    c.say("fields")


def head_limits(c):
    """L and T from both sides, in the first, a middle and the last month; 1 before 2."""
    for trip in (0, 9, 10, 11, 199, 200, 201, MAX):
        c.open(trip, MILD)
        c.say("fields")
    for month in (0, 5, 11):
        for t in (-2**63, -302, -301, -300, -299, -1, 0, 1, 399, 400, 401, 402, 2**63 - 1):
            temps = list(MILD)
            temps[month] = t
            c.open(120, temps)
            c.say("fields")
    c.open(9, [401] * 12)
    c.open(201, [-301] * 12)
    c.open(MAX, [2**63 - 1] * 12)
    c.open(10, [401] * 12)


def record_limits(c):
    """Each field of a record from both sides, into one run that takes some and refuses others."""
    c.open(77, [-50, -20, 10, 60, 110, 150, 180, 175, 130, 80, 30, -10])
    cls, vehicles, km, shares, speeds = EXAMPLE
    for n in (0, 1, 2, 3, 4, 5, 6, 7, 8, 9, MAX):
        c.add((n, vehicles, km, shares, speeds))
    for n in (0, 1, 2, 999999, 1000000, 1000001, MAX):
        c.add((cls, n, 1, shares, speeds))
        c.add((cls, n, 1000, shares, speeds))
    for n in (0, 1, 2, 999998, 999999, 1000000, MAX):
        c.add((cls, 1, n, shares, speeds))
        c.add((cls, 1000, n, shares, speeds))
    # K at its limit, one above it, and far above.
    for v, k in ((1000000, 1000), (2000, 500000), (1001, 999000), (1001, 999001), (999001, 1001), (1000000, 1001),
                 (1001, 999999), (1000, 999999), (100001, 10000), (1000000, 999999)):
        c.add((cls, v, k, shares, speeds))
    for s in ((100, 0, 0), (0, 100, 0), (0, 0, 100), (50, 50, 0), (33, 33, 34), (1, 1, 98), (33, 33, 33), (34, 33, 34),
              (40, 40, 19), (40, 40, 21), (101, 0, 0), (0, 101, 0), (0, 0, 101), (99, 0, 0), (0, 0, 0), (100, 100, 100),
              (101, MAX, 0), (MAX, 101, 0), (0, MAX, 101), (2**63, 2**63, 100), (100, 2**63, 2**63), (MAX, 1, 100),
              (MAX, MAX, 102), (MAX, MAX, MAX)):
        c.add((cls, vehicles, km, s, speeds))
    for n in (0, 9, 10, 11, 129, 130, 131, MAX):
        for road in range(3):
            v = [60, 60, 60]
            v[road] = n
            without = [50, 50, 50]
            without[road] = 0
            c.add((cls, vehicles, km, shares, v))
            c.add((cls, vehicles, km, tuple(without), v))
            c.add((5, vehicles, km, shares, v))
            c.add((5, vehicles, km, tuple(without), v))
    c.say("fields")
    c.say("list")


def several_wrong(c):
    """Refusals in their order: every choice of wrong fields, on a run in order, a full one and one out of order."""
    def records():
        for wrong in range(64):
            cls = 8 if wrong & 1 else 4
            vehicles = 1000001 if wrong & 2 else (999001 if wrong & 8 else 1000)
            km = 1000000 if wrong & 4 else 1001
            shares = (40, 40, 19) if wrong & 16 else (40, 40, 20)
            speeds = (20, 131, 100) if wrong & 32 else (20, 60, 100)
            yield cls, vehicles, km, shares, speeds
    for count, trip in ((1, 120), (5000, 120), (1, 9)):
        c.open(120, MILD)
        c.add(EXAMPLE)
        c.set(COUNT, 0, count)
        c.set(TRIP, 0, trip)
        for record in records():
            c.add(record)
    c.say("fields")


def questions(c):
    """Fuel and quantity from both sides, on a run in order and on one that is not; the order of 16, 11, 12, 13."""
    c.open(120, MILD)
    c.add(EXAMPLE)
    c.add((6, 1000, 10000, (40, 40, 20), (20, 60, 100)))
    for trip in (120, 201):
        c.set(TRIP, 0, trip)
        for fuel in (0, 1, 2, 3, 4, MAX):
            for quantity in (0, 1, 5, 6, MAX):
                c.say("total", fuel, quantity)
                c.say("kind", fuel, quantity, 0)
                c.say("kind", fuel, quantity, 3)
                for sold in (1000, 1000000000):
                    c.say("balance", fuel, quantity, sold)
    c.say("report", 0)
    c.say("report", 1600)


def classes(c):
    """Every class, quantity and road at several speeds, then at every speed."""
    roads = ((100, 0, 0), (0, 100, 0), (0, 0, 100), (31, 28, 41))
    for cls in range(1, 8):
        c.open(63, [-120, -75, -9, 38, 101, 143, 207, 234, 181, 92, 14, -66])
        for shares in roads:
            for v in ((10, 11, 12), (37, 64, 91), (128, 129, 130), (130, 10, 70)):
                c.add((cls, 1234, 567, shares, v))
            c.say("list")
        c.say("fields")
        c.say("report", 1600)
    for cls in range(1, 8):
        c.open(101, [-210, -75, -9, 38, 101, 143, 207, 394, 181, 92, 14, -66])
        for v in range(10, 131):
            c.add((cls, 1000 + v, 77777 + 13 * v, (v % 50, 99 - v % 50, 1), (v, 140 - v, 10 + (7 * v) % 121)))
        c.say("fields")
        c.say("list")


def warm(c):
    """Months where Q is cut to 0, alone and mixed with cold ones."""
    steps = (-300, -35, -34, -33, -32, 205, 206, 207, 208, 209, 210, 211, 229, 230, 231, 232, 233, 234, 235, 294, 295, 296,
             299, 300, 301, 350, 399, 400)
    for t in steps:
        for trip in (10, 120, 200):
            c.open(trip, [t] * 12)
            c.say("fields")
    for t in steps:
        c.open(120, [t] * 6 + [-100] * 6)
        c.add(EXAMPLE)
        c.add((4, 1000, 10000, (40, 40, 20), (20, 60, 100)))
        c.add((6, 1000, 10000, (40, 40, 20), (20, 60, 100)))
        c.say("list")


def balances(c):
    """k and S at their edges: F is set by hand, so that S × 10^12 / F falls where it is wanted."""
    def fuel_used(count, f, others):
        c.open(120, MILD)
        c.set(COUNT, 0, count)
        c.set(GRAMS, PLACES.index((3, 5, "rural")), f)
        for kind in ref.KINDS:
            c.set(GRAMS, PLACES.index((3, 1, kind)), others)
        c.settle()

    # F 0 comes before S over its limit.
    fuel_used(1, 0, 5)
    for sold in (0, 1, 999999999, 1000000000, MAX):
        c.say("balance", 3, 1, sold)
    # F below half a gram prints as 0; at half a gram as 1, and k is then far above 64 bits.
    c.set(REST, PLACES.index((3, 5, "rural")), 499999999)
    c.settle()
    c.say("balance", 3, 1, 999999999)
    c.set(REST, PLACES.index((3, 5, "rural")), 500000000)
    c.settle()
    for sold in (0, 1, 18446744, 999999999, 1000000000):
        c.say("balance", 3, 1, sold)
    # F of 2 × 10^12: k is 499,999.5 (up to 500,000) and 1,500,000.5 (up to 1,500,001), and the steps beside them.
    fuel_used(3, 2 * 10**12, 999999999999)
    for sold in (999998, 999999, 1000000, 1000001, 2999999, 3000000, 3000001, 3000002):
        for q in (1, 5):
            c.say("balance", 3, q, sold)
    # S of 1: the grams around k of 500,000 and of 1,500,000.
    for f in (2000000, 2000001, 2000002, 2000003, 666665, 666666, 666667, 666668):
        fuel_used(1, f, 123456789012)
        c.say("balance", 3, 1, 1)
    # The largest S, products and totals.
    for f in (2000002000001999, 2000001999999999, 2000001999999998, 2 * 10**15, 10**15, 999999998999999,
              666666666000000, 666666665333334, 666666665333333, 666666443777778, 666666443777777, 666666443777776):
        fuel_used(5000, f, 5 * 10**15)
        for sold in (999999999, 999999998, 1000000000):
            c.say("balance", 3, 1, sold)
            c.say("balance", 3, 5, sold)
    # A balanced total exactly at a half.
    for grams in (0, 1, 2, 3, 499999, 500001):
        fuel_used(1, 1000000, 0)
        c.set(GRAMS, PLACES.index((3, 2, "cold")), grams)
        for f in (2000000, 1000000, 800000):
            c.set(GRAMS, PLACES.index((3, 5, "rural")), f)
            c.settle()
            c.say("balance", 3, 2, 1)


def digits(c):
    """The digits worked: F is set by hand, so that S/F ends at the digit that is wanted, or does not end."""
    c.open(120, MILD)
    c.set(COUNT, 0, 5000)
    # a total of its own for each fuel and quantity but FC
    for i, (_, quantity, kind) in enumerate(PLACES):
        if kind == "cold" and quantity != ref.FC:
            c.set(GRAMS, i, 1234567890123 + 71 * i)
    places = itertools.cycle((fuel, quantity) for quantity in ref.QUANTITIES for fuel in ref.FUELS)

    def ask(f, *solds):
        for sold in solds:
            fuel, quantity = next(places)
            c.set(GRAMS, PLACES.index((fuel, ref.FC, "rural")), f)
            c.settle()
            c.say("balance", fuel, quantity, sold)

    def fuel_used(fuel, grams, rests):
        for kind, rest in zip(ref.KINDS, rests):
            c.set(GRAMS, PLACES.index((fuel, ref.FC, kind)), grams)
            c.set(REST, PLACES.index((fuel, ref.FC, kind)), rest)
        c.settle()

    # F with factors 2 and 5 only, of which the higher power tells the digits. An end behind the twelfth is none; with 2^13 the
    # remainder is then half of F, and k is rounded up.
    ends = ((6, 10**6, 1), (7, 2**7 * 5**6, 1), (7, 2**4 * 5**7, 1), (8, 2**8 * 5**5, 1), (8, 2 * 5**8, 1), (9, 2**9 * 5**5, 1), (9, 5**9, 1),
            (10, 2**10 * 5**5, 3), (10, 5**10, 7), (11, 2**11 * 5**4, 1), (11, 5**11, 49), (12, 2**12 * 5**4, 3), (12, 5**12, 244),
            (13, 2**13 * 5**3, 1), (13, 2**13 * 5**4, 3), (13, 5**13, 1221), (13, 10**13, 7654321),
            (15, 2**15 * 5**2, 1), (20, 2**20, 1), (40, 2**40, 1099511), (50, 2**50, 999999999), (21, 5**21, 476837159))
    for n, f, sold in ends:
        assert ref.digits_worked(sold, f) == min(n, 12) and sold * 10**n % f == 0 != sold * 10**(n - 1) % f
        ask(f, sold)
    # S and F with a common factor, of other primes, of 2 or 5, of both: what is left of F tells the digits. In S + 1 and S - 1
    # the factor is not there, and stays in F.
    for factor in (3, 7, 999, 123457, 2**9, 5**9, 2**3 * 5**4 * 7, 3141592):
        for n, f, sold in ends:
            if factor * f <= 5 * 10**15 and factor * sold <= 999999999:
                assert ref.digits_worked(factor * sold, factor * f) == min(n, 12)
                ask(factor * f, factor * sold)
        ask(factor * 10**6, factor - 1, factor + 1)
    ask(7 * 2**13 * 5**4, 2 * 3 * 7, 3 * 7)
    # F prime, 2 and 5 aside: no end, unless S is a multiple of it.
    for f, sold in ((666667, 1), (999983, 1), (1000003, 1), (1999993, 1), (999999937, 1000), (999999999989, 1000000),
                    (999999999999989, 999999999), (1999999999999943, 999999999), (2000001999999989, 999999999)):
        ask(f, sold)
    for f in (2, 3, 5, 7, 999983, 999999937):
        ask(f, f - 1, f)
    # S a multiple of F, 0 too: no digit is worked, and k is out of range.
    for f in (1, 2, 1000, 999983, 333333333):
        ask(f, 0, f, 2 * f, 3 * f)
    ask(1, 10**6, 999999999)
    ask(10**6, 0), ask(10**15, 0)
    # An end before the sixth digit is of a k that is too large; k may be too small behind any.
    for n in (1, 2, 3, 4, 5, 7, 8, 9, 10, 11, 12):
        ask(10**n, 1, 3)
    # k found without rounding, at its limits and beyond them: the noughts that it ends in are the digits that were not worked.
    for k in (500000, 500001, 500010, 500100, 501000, 510000, 600000, 1000000, 1400000, 1490000, 1499000, 1499900, 1499990, 1499999, 1500000,
              499999, 499990, 499900, 499000, 490000, 400000, 1500001, 1500010, 1500100, 1501000, 1510000, 1600000, 2000000):
        ask(10**12, k)
        ask(7 * 10**12, 7 * k)
    # The limits by rounding, of a thirteenth digit.
    ask(10**13, 4999994, 4999995, 4999999, 15000001, 15000004, 15000005)
    # The largest S, and F beside it.
    for f in (999999999 * 10**6, 999999999 * 2 * 10**6, 999999999 * 800000, 666666666 * 10**6, 2000001999999998, 2000001999999999, 5 * 10**15):
        ask(f, 999999998, 999999999, 1000000000)
    ask(10**15, 10**9, MAX)
    # At random: the digit of the end, up to two behind the twelfth, and a common factor.
    rng = random.Random(12)
    for _ in range(150):
        n = rng.randint(6, 14)
        parts = rng.randint(10**n // 2000000, 3 * 10**n // 2000000)
        shared = math.gcd(parts, 10**n)
        factor = int(10 ** rng.uniform(0, math.log10(999999999 * shared / max(parts, 1))))
        ask(factor * 10**n // shared, factor * parts // shared)
    # F is the printed total, which is 1,000,000 or beside it, whatever its kinds print.
    for grams, rests in ((250000, (0,) * 4), (250000, (250000000,) * 4), (250000, (249999999, 0, 250000000, 0)), (249999, (500000000,) * 4),
                         (249999, (999999999,) * 4), (249999, (875000000,) * 4), (249999, (875000000, 875000000, 875000000, 874999999)),
                         (250000, (125000000,) * 4), (250000, (125000000, 125000000, 125000000, 124999999))):
        fuel_used(2, grams, rests)
        c.say("balance", 2, 1, 1)
        c.say("balance", 2, ref.FC, 1)
    # The largest F and none, and numbers that come before any digit.
    for grams in (5 * 10**15, 0):
        fuel_used(3, grams, (0,) * 4)
        for sold in (0, 1, 999999999):
            c.say("balance", 3, 1, sold)
    fuel_used(1, 250000, (0,) * 4)
    for fuel, quantity in ((1, 1), (0, 1), (4, 1), (1, 0), (1, 6)):
        c.say("balance", fuel, quantity, 1)
    c.set(TRIP, 0, 9)
    c.say("balance", 1, 1, 1)


def rounding(c):
    """Printed kinds and totals at the half gram, and kinds that miss the total by 2 g."""
    c.open(120, MILD)
    c.set(COUNT, 0, 1)
    for rests in ((0, 0, 0, 0), (499999999,) * 4, (500000000,) * 4, (999999999,) * 4, (125000000,) * 4, (124999999,) * 4,
                  (500000000, 0, 0, 0), (499999999, 0, 0, 0), (250000000, 250000000, 0, 0), (1, 499999999, 0, 0)):
        for kind, rest in zip(ref.KINDS, rests):
            c.set(REST, PLACES.index((2, 4, kind)), rest)
        for grams in (0, 7):
            c.set(GRAMS, PLACES.index((2, 4, "rural")), grams)
            c.settle()
            for kind in range(4):
                c.say("kind", 2, 4, kind)
            c.say("total", 2, 4)
            c.say("report", 100)


def below_half(c):
    """A cold factor one unit below a half: class 3 NOX at 53 km/h, E × X ends in 499,999,999; K shows it as 100 g."""
    c.open(50, [11] * 9 + [-160, 194, 78])
    c.add((3, 1000000, 1000, (100, 0, 0), (53, 60, 100)))
    c.say("kind", 1, 2, 3)
    c.say("fields")


def class_3(c):
    """CO of class 3 by its own X, beside class 2: under cold, warm and mixed heads, at the roundings of X, and X set by hand."""
    def both(urban):
        for cls in (3, 2):
            c.add((cls, 1000000, 1000, (40, 40, 20), (urban, 60, 100)))
            c.say("list")

    # Q of gasoline CO is 0 from T 300 on: in no month, in some, in all. 72/100 of the rounded X would be one more at T -297 and
    # one less at L 11, where X is exactly at a half; the speeds there are such that the cold factor shows it.
    for trip, temps, urban in ((120, MILD, 20), (10, [-300] * 12, 130), (10, [-297] * 12, 76), (11, [-75] * 12, 129), (200, [299] * 12, 10),
                               (120, [300] * 11 + [299], 20), (120, [-100] * 6 + [350] * 6, 20), (31, [-300] + [400] * 11, 97),
                               (120, [300] * 12, 20), (10, [301] * 12, 20), (200, [400] * 12, 130)):
        c.open(trip, temps)
        both(urban)
        c.say("fields")
    # Only CO of class 3 changes with the last X.
    for x in (0, 1, 383356799, 10**9, 4900000000):
        c.open(120, MILD)
        c.set(X, 15, x)
        both(20)
    # One X alone, or all but one: which class and quantity use it; an X of 10^9 makes the cold grams those of the whole distance.
    for own, others in ((10**9, 0), (0, 10**9)):
        for cls in range(1, 8):
            c.open(120, MILD)
            for i in range(16):
                c.set(X, i, own if i == 15 else others)
            c.add((cls, 1000, 10000, (100, 0, 0), (20, 60, 100)))
            c.say("list")


def order(c):
    """Each condition of `in order` but that of the totals at its limit and one step over, asked through every call."""
    def probe(field, index, values, after):
        for value in values:
            c.open(120, MILD)
            c.add(EXAMPLE, 3)
            c.set(field, index, value)
            for extra in after:
                c.set(*extra)
            c.settle()
            c.ask_all()
    probe(TRIP, 0, (0, 9, 10, 200, 201, MAX), ())
    for i in (0, 7, 14, 15):
        probe(X, i, (4900000000, 4900000001, MAX), ())
    probe(COUNT, 0, (0, 1, 4999, 5000, 5001, MAX), ())
    for i in (0, 1, 2):
        probe(KM, i, (3 * 10**9, 3 * 10**9 + 1, MAX), ())
    for i in (0, 17, 33, 59):
        probe(REST, i, (999999999, 1000000000, MAX), ())
        probe(GRAMS, i, (3 * 10**12,), [(REST, i, 0)])
        probe(GRAMS, i, (3 * 10**12,), [(REST, i, 1)])
        probe(GRAMS, i, (3 * 10**12 - 1,), [(REST, i, 999999999)])
        probe(GRAMS, i, (3 * 10**12 + 1, MAX), [(REST, i, 0)])
    # The count decides the limits: the same sums and kilometres under a lower count.
    probe(GRAMS, 20, (3 * 10**12,), [(COUNT, 0, 2)])
    probe(KM, 1, (3 * 10**9,), [(COUNT, 0, 2)])
    c.say("fields")
    # Every sum and the kilometres at the limits of a full run: the longest report.
    c.open(10, [-300] * 12)
    c.set(COUNT, 0, 5000)
    for i in range(60):
        c.set(GRAMS, i, 5 * 10**15)
    for i in range(3):
        c.set(KM, i, 5 * 10**12)
    c.settle()
    c.say("list")
    for size in (1454, 1455, 1456):
        c.say("report", size)
    c.add(EXAMPLE)
    # The same sums one record earlier, where one more is still taken.
    c.set(COUNT, 0, 4999)
    c.say("total", 1, 1)
    for i in range(60):
        c.set(GRAMS, i, 4999 * 10**12)
    for i in range(3):
        c.set(KM, i, 4999 * 10**9)
    c.settle()
    c.add((6, 1000000, 1000, (100, 0, 0), (130, 130, 130)))
    c.say("fields")
    c.say("list")


# Four rests whose sum is of whole grams, 0 to 3 of them; then with a rest beside these, 0, 1, 999,999,999 or one between.
WHOLE_GRAMS = ((0, 0, 0, 0), (100000000, 200000000, 300000000, 400000000), (500000000,) * 4, (999999999, 999999999, 999999999, 3))
WITH_REST = ((1, 2, 3, 4), (123456789, 234567890, 345678901, 456789012), (999999999, 999999999, 1, 2), (999999999,) * 4,
             (249999999, 250000000, 250000000, 250000000), (0, 0, 0, 1))


def with_sums(c, rests):
    """A run by hand with grams of its own in every place, and these rests, four for a total."""
    c.open(120, MILD)
    c.set(COUNT, 0, 3)
    for i in range(60):
        c.set(GRAMS, i, 10**11 + 71 * i)
        c.set(REST, i, rests[i // 4 % len(rests)][i % 4])
    c.settle()


def totals(c):
    """Stored totals: each broken in every way, and asked through every call."""
    def refused(place):
        for call in (("total", *place), ("total", 1, 1), ("kind", *place, 3), ("balance", *place, 400000), ("report", 20)):
            c.say(*call, number=16)
        c.add(EXAMPLE, number=16)

    for rests in (WHOLE_GRAMS, WITH_REST):
        with_sums(c, rests)
        c.say("fields")
        c.say("list")
        for i, place in enumerate(TOTALS):
            for way in broken(c.answers.run, place):
                c.set_total(i, *way)
                refused(place)
            # the run is given back as it came, its broken total too
            if i % 7 == 0:
                c.say("fields")
            c.settle()
            c.say("total", *place, number=0)
            c.say("balance", *place, 400000, number=0)
    # far off, and rests that would be right if they wrapped at 2^64 or at 2^32
    for i, place in enumerate(TOTALS):
        grams, rest = divmod(c.answers.run.exact_total(*place), 10**9)
        for way in ((grams + 2**32, rest), (2**63, rest), (MAX, rest), (0, 0), (grams, rest + 2**32), (grams, rest + 2**63), (grams, MAX),
                    (MAX, MAX), (grams + 1, rest - 10**9 + 2**64), (grams - 5, rest + 5 * 10**9)):
            c.set_total(i, *way)
            c.say("total", *place, number=16)
        c.settle()


def kinds_of_totals(c):
    """Kinds that changed without their total, and totals that are those of other kinds; what is in order though kinds changed."""
    # each of the four counts
    with_sums(c, WITH_REST)
    for i, place in enumerate(PLACES):
        for field, now in ((GRAMS, c.answers.run.grams[place]), (REST, c.answers.run.rests[place])):
            for value in (now + 1, now - 1):
                if 0 <= value < 10**9 or field == GRAMS:
                    c.set(field, i, value)
                    c.say("total", *place[:2], number=16)
            c.set(field, i, now)
    c.say("total", 1, 1, number=0)
    # totals exchanged, one as much above as another below, none at all
    sums = [(c.answers.run.total_grams[place], c.answers.run.total_rests[place]) for place in TOTALS]
    for i in range(15):
        other = (i + 1 + i % 5) % 15
        c.set_total(i, *sums[other])
        c.set_total(other, *sums[i])
        c.say("total", 1, 1, number=16)
        c.settle()
        c.set(TOTAL, i, sums[i][0] + 1)
        c.set(TOTAL, other, sums[other][0] - 1)
        c.say("total", 1, 1, number=16)
        c.settle()
    for i in range(15):
        c.set_total(i, 0, 0)
    c.say("total", 1, 1, number=16)
    c.settle()
    # in order: a gram from one kind to another, the grams of two exchanged, the rests of two
    for i, (fuel, quantity) in enumerate(TOTALS):
        run, at = c.answers.run, 4 * i
        grams, rests = ([part[place] for place in PLACES[at:at + 4]] for part in (run.grams, run.rests))
        for changes in ({(GRAMS, 0): grams[0] + 1, (GRAMS, 3): grams[3] - 1}, {(GRAMS, 1): grams[2], (GRAMS, 2): grams[1]},
                        {(REST, 0): rests[3], (REST, 3): rests[0]}):
            for (field, kind), value in changes.items():
                c.set(field, at + kind, value)
            c.say("total", fuel, quantity, number=0)
            c.say("kind", fuel, quantity, 0, number=0)
    # and a gram of one in the rests of the others
    with_sums(c, WHOLE_GRAMS)
    for at in range(0, 60, 16):
        c.set(GRAMS, at + 1, c.answers.run.grams[PLACES[at + 1]] - 1)
        for kind, rest in ((0, 600000000), (2, 399999999), (3, 1)):
            c.set(REST, at + kind, rest)
        c.say("total", *PLACES[at][:2], number=0)
        c.say("list")


def totals_of_records(c):
    """Totals without a record, where nothing but 0 fits, and of records, which leave some at 0; adds that bring the rest of a total to a
    gram and not that of a kind, and the other way round; totals at their limits."""
    c.open(120, MILD)
    for i in range(15):
        for way in ((1, 0), (0, 1), (0, 10**9), (MAX, 10**9), (0, MAX)):
            c.set_total(i, *way)
            c.say("total", *TOTALS[i], number=16)
        c.set_total(i, 0, 0)
    for cls in range(1, 8):
        c.add((cls, 1234, 5678, (31, 28, 41), (37, 64, 91)), number=0)
    c.say("fields")
    for i, place in enumerate(TOTALS):
        for way in broken(c.answers.run, place):
            c.set_total(i, *way)
            c.say("total", *place, number=16)
            c.add(EXAMPLE, number=16)
        c.settle()
    c.say("fields")
    for rests in (WHOLE_GRAMS, WITH_REST, ((0, 0, 0, 999999999),), ((249999999,) * 3 + (250000001,),), ((999999999, 0, 0, 0),)):
        with_sums(c, rests)
        for cls in range(1, 8):
            c.add((cls, 1, 1, (40, 40, 20), (20 + cls, 60, 100)), number=0)
            c.say("fields")
        c.say("list")
    # one billionth below the limit in every sum, and what is beside the largest total there is
    c.open(10, [-300] * 12)
    c.set(COUNT, 0, 5000)
    for grams, rest in ((5 * 10**15 - 1, 999999999), (5 * 10**15, 0)):
        for i in range(60):
            c.set(GRAMS, i, grams)
            c.set(REST, i, rest)
        c.settle()
        c.say("fields")
        c.say("list")
        c.say("report", 1455)
        for i, place in enumerate(TOTALS):
            for way in broken(c.answers.run, place):
                c.set_total(i, *way)
                c.say("total", *place, number=16)
            c.settle()


def full_runs(c):
    """Runs filled to 5,000 records, the 5,001st refused, large K."""
    c.open(10, [-300] * 12)
    c.add((6, 1000000, 1000, (100, 0, 0), (130, 130, 130)), 5000)
    c.say("fields")
    c.add((6, 1000000, 1000, (100, 0, 0), (130, 130, 130)))
    c.say("fields")
    c.say("list")
    # The tight list.
    c.open(*tight_list.HEAD)
    c.add(tight_list.RECORD, 2)
    c.say("list")
    c.add(tight_list.RECORD, 4999)
    c.say("fields")
    c.say("list")
    # All fuels, with refused records between.
    c.open(58, [-41, -12, 33, 97, 148, 171, 203, 188, 140, 99, 47, -7])
    c.add((1, 999983, 1000, (37, 41, 22), (19, 67, 113)), 900)
    c.add((1, 999983, 1000, (37, 41, 21), (19, 67, 113)), 7)
    c.add((2, 31, 31622777, (37, 41, 22), (19, 67, 113)), 3)
    c.add((2, 999001, 1000, (37, 41, 22), (21, 69, 111)), 900)
    c.add((3, 1001, 998999, (11, 13, 76), (23, 71, 109)), 800)
    c.add((4, 99991, 9999, (59, 40, 1), (29, 73, 107)), 800)
    c.add((5, 7, 142857, (3, 5, 92), (10, 130, 131)), 5)
    c.add((5, 7001, 142819, (3, 5, 92), (10, 130, 130)), 600)
    c.add((6, 1000, 999999, (90, 9, 1), (130, 131, 10)))
    c.add((6, 1000, 999999, (90, 9, 1), (130, 13, 10)), 500)
    c.add((7, 1, 1, (33, 33, 34), (31, 79, 103)), 499)
    c.say("fields")
    c.say("list")
    c.add((7, 1000000, 1000, (33, 33, 34), (31, 79, 103)))
    c.say("fields")
    c.add((7, 1000000, 1000, (33, 33, 34), (31, 79, 103)))
    c.add((7, 1000000, 1001, (33, 33, 34), (31, 79, 103)))
    c.say("fields")
    c.say("list")
    c.say("report", 1600)
    for fuel in ref.FUELS:
        for quantity in ref.QUANTITIES:
            c.say("balance", fuel, quantity, (270000000, 90000000, 39999999)[fuel - 1])


# What is no day: years, months and days beside those of the calendar, too few and too many digits, and numbers of which a part is
# a day.
NO_DAYS = (1, 31, 131, 1231, 10101, 1980, 198001, 1980101, 202605, 2026515, 202605150, 120260515, 19790101, 19791231, 21010101,
           21011231, 99991231, 19000228, 22000101, 20260015, 20261315, 20260500, 20260532, 20260599, 20260431, 20260631, 20260931,
           20261131, 20269999, 999999999, 10**9 + 20260515, 2**32 + 20260515, 2**33 + 20260515, 2**63 + 20260515,
           2**64 - 2**32 + 20260515, 2**63 - 1, MAX)


def one_day(c):
    """Periods of one day at the ends of every month, and beside them; leap years, and years that are none."""
    for year in (1980, 1996, 1997, 2000, 2096, 2100):
        for month in range(14):
            for day in (0, 1, 28, 29, 30, 31, 32, 99):
                date = year * 10000 + month * 100 + day
                c.open(120, YEAR, date, date)
                if year in (1997, 2000) and date in ref.PLACE:
                    c.say("fields")
    for year in range(1980, 2101):
        c.open(120, YEAR, year * 10000 + 229, year * 10000 + 229)
    # one day is all that weighs: the X of its month
    for month in range(1, 13):
        t = YEAR[month - 1]
        assert ref.open_run((120, YEAR, 20260001 + 100 * month, 20260001 + 100 * month))[1].x == ref.open_run((120, [t] * 12))[1].x


def no_days(c):
    """19 as the first, as the last, as both. Days 0 and 0 are none, so that head is taken; a 0 beside another number is 19."""
    for day in (0, *NO_DAYS):
        for days in ((day, 20260515), (20260515, day), (day, day), (day, 0), (0, day)):
            c.open(120, YEAR, *days)
    c.open(120, YEAR, 0, 0)
    c.say("fields")
    c.open(120, YEAR, 20260515, 0)
    c.say("fields")
    # the first and the last day there is
    for days in ((19800101, 19800101), (19800101, 19801231), (21000101, 21001231), (21001231, 21001231), (19791231, 19800101),
                 (21001231, 21010101)):
        c.open(120, YEAR, *days)
        c.say("fields")


def day_order(c):
    """20 and what is beside it; 19 before 20; 1 and 2 before both, also for a T of a month that has no day of the period."""
    wrong = ((20260516, 20260515), (20260601, 20260531), (20261231, 20260101), (20000229, 20000228), (20000301, 20000229),
             (20261231, 20270101), (20260515, 20270515), (20260515, 20270516), (20270515, 20260515), (20260515, 20250516),
             (19991231, 20000101), (19800101, 21001231), (21001231, 19800101))
    for days in wrong:
        assert ref.head_number((120, YEAR, *days)) == 20
        c.open(120, YEAR, *days)
        c.say("fields")
    for days in ((20260515, 20260515), (20260515, 20260516), (20260531, 20260601), (20260101, 20261231), (20000228, 20000229),
                 (20000229, 20000301)):
        assert ref.head_number((120, YEAR, *days)) == 0
        c.open(120, YEAR, *days)
        c.say("fields")
    for days in ((20260631, 20260515), (20260516, 20260500), (20270229, 20260101), (20260515, 20270229), (21010101, 20260101),
                 (20260101, 19791231), (20261301, 20260101), (MAX, 1), (MAX, 20260515), (1, MAX)):
        assert ref.head_number((120, YEAR, *days)) == 19
        c.open(120, YEAR, *days)
    for trip in (9, 120, 201):
        for temps in (YEAR, [401] + YEAR[1:], YEAR[:5] + [-301] + YEAR[6:], YEAR[:11] + [401]):
            for days in ((0, 0), (20260515, 20260620), (20260515, 20260631), (20260620, 20260515), (0, 20260515), (MAX, MAX)):
                c.open(trip, temps, *days)


def periods(c):
    """X by the days of each month: every pair of months, parts of one, February, whole years, and T alike in all months."""
    for first_month in range(1, 13):
        for last_month in range(first_month, 13):
            year = (1996, 1997, 2026, 2100)[(first_month + last_month) % 4]
            c.open(77, YEAR, year * 10000 + first_month * 100 + 3 + 2 * last_month, year * 10000 + last_month * 100 + 28)
            c.say("fields")
    february = [(year * 10000 + first, year * 10000 + last) for year in (1996, 1997, 2000, 2100)
                for first, last in ((201, 228), (201, 301), (228, 301), (131, 301), (101, 301), (228, 1231))]
    leap = [(year * 10000 + first, year * 10000 + last) for year in (1996, 2000)
            for first, last in ((201, 229), (229, 229), (228, 229), (229, 301))]
    parts = [(20260501, 20260531), (20260510, 20260520), (20260501, 20260502), (20260530, 20260531), (20260430, 20260601),
             (20260402, 20260430)]
    for days in parts + february + leap:
        c.open(41, YEAR, *days)
        c.say("fields")
    # a whole year by dates is not a head without dates, and 366 days are not 365
    seen = []
    for days in ((), (19970101, 19971231), (20260101, 20261231), (21000101, 21001231), (19800101, 19801231), (20000101, 20001231)):
        c.open(120, YEAR, *days)
        c.say("fields")
        seen.append(list(ref.open_run((120, YEAR, *days))[1].x.values()))
    assert seen[1] == seen[2] == seen[3] and seen[4] == seen[5] and len({seen[i][0] for i in (0, 1, 4)}) == 3
    # alike in all months, the period does not matter; the largest X and the smallest
    for trip, t in ((120, 100), (10, -300), (200, 400), (10, 300), (11, -75)):
        for days in ((), (20260704, 20260704), (20260515, 20261020), (19960101, 19961231)):
            c.open(trip, [t] * 12, *days)
            c.say("fields")
            assert ref.open_run((trip, [t] * 12, *days))[1].x == ref.open_run((trip, [t] * 12))[1].x
    # cold where the road is open and warm where it is closed, and the other way round
    for inside, outside in ((-300, 400), (400, -300)):
        head = 10, [outside] * 4 + [inside] * 6 + [outside] * 2, 20260515, 20261020
        c.open(*head)
        c.say("fields")
        assert ref.open_run(head)[1].x == ref.open_run((10, [inside] * 12))[1].x


# Dated heads by what their X of gasoline CO shows: the sum exactly at a half; that of class 3 exactly at a half; 72/100 of the
# rounded X one more than the X of class 3; one less.
AT_A_HALF = [
    (90, (-65, 9, 50, 46, 93, 135, 189, 173, 92, 86, 43, -29), 20260704, 20260704),
    (135, (-62, -11, 18, 61, 107, 184, 176, 215, 93, 41, 26, 1), 20260515, 20261020),
    (170, (-67, -48, 25, 83, 84, 132, 142, 205, 103, 100, 23, -15), 19960101, 19961231),
    (90, (-16, 4, -5, 79, 148, 174, 146, 158, 122, 54, -3, -28), 19970101, 19971231),
    (28, (-28, -48, 49, 64, 105, 162, 167, 195, 157, 90, 1, -41), 20000229, 20000301),
]
CLASS_3_AT_A_HALF = [
    (105, (-41, 0, -11, 90, 102, 124, 175, 155, 126, 70, -6, 11), 20260704, 20260704),
    (115, (-11, -19, 44, 40, 128, 186, 187, 168, 145, 41, 57, -33), 20260515, 20261020),
    (115, (-65, -19, -15, 96, 78, 148, 186, 176, 147, 77, 65, -2), 19960101, 19961231),
    (115, (-86, -27, -7, 31, 142, 137, 183, 198, 107, 101, 63, -26), 19970101, 19971231),
]
TWICE_IS_MORE = [
    (90, (-65, 9, 50, 46, 93, 135, 189, 173, 92, 86, 43, -29), 20260704, 20260704),
    (99, (-78, -51, 0, 82, 81, 170, 146, 166, 96, 103, 40, -43), 20260515, 20261020),
    (98, (-56, -54, 37, 59, 77, 149, 141, 207, 104, 70, -2, -34), 19960101, 19961231),
]
TWICE_IS_LESS = [
    (128, (-46, 5, 15, 87, 102, 169, 153, 210, 137, 77, -6, 5), 20260704, 20260704),
    (151, (-76, -43, 9, 81, 81, 143, 191, 175, 106, 56, 58, -40), 20260515, 20261020),
    (52, (-50, -46, 16, 79, 95, 120, 155, 152, 157, 55, 9, 5), 19970101, 19971231),
]


def dated_rounding(c):
    """X and the X of CO of class 3 at their halves under dated heads, each rounded once; classes 3 and 2 beside each other."""
    for head in AT_A_HALF:
        assert ref.unrounded_x(head)[1, ref.CO] % 1 == Fraction(1, 2)
    for head in CLASS_3_AT_A_HALF:
        assert ref.unrounded_x(head)[ref.CLASS_3_CO] % 1 == Fraction(1, 2)
    for heads, missed in ((TWICE_IS_MORE, 1), (TWICE_IS_LESS, -1)):
        for head in heads:
            x = ref.open_run(head)[1].x
            assert ref.half_up(Fraction(x[1, ref.CO] * 72, 100)) == x[ref.CLASS_3_CO] + missed
    for head in AT_A_HALF + CLASS_3_AT_A_HALF + TWICE_IS_MORE + TWICE_IS_LESS:
        c.open(*head)
        c.say("fields")
        for cls in (3, 2):
            # K at its limit and the largest E of CO of both classes, so that cold grams show the last digit of X
            c.add((cls, 1000000, 1000, (40, 40, 20), (130, 60, 100)))
            c.say("list")
    c.open(*tight_list.DATED_HEAD)
    c.add(tight_list.RECORD, 2)
    c.say("list")
    c.add(tight_list.RECORD, 4999)
    c.say("fields")
    c.say("list")


def some_days(rng):
    """The first and the last day of a period within the limits."""
    days = rng.choice(ref.CALENDAR), rng.choice(ref.CALENDAR)
    year = days[0] // 10000 * 10000
    if rng.random() < 0.3:
        return year + 101, year + 1231
    # both in one year: 29 February is none of every year
    return tuple(sorted(day if day in ref.PLACE else day - 1 for day in (days[0], year + days[1] % 10000)))


def any_period(c):
    """Dated heads and records at random within the limits, all classes among them; then a full run."""
    rng = random.Random(2100)
    for _ in range(60):
        c.open(rng.randint(10, 200), [rng.randint(-300, 400) for _ in range(12)], *some_days(rng))
        for _ in range(rng.randint(1, 12)):
            c.add(some_record(rng), rng.choice((1, 1, 2, 5)))
        c.say("fields")
        c.say("list")
    c.open(58, YEAR, 20260515, 20261020)
    for cls in range(1, 8):
        c.add((cls, 1000 + cls, 9876, (38, 41, 21), (19 + cls, 67, 113)), 715)
    c.say("fields")
    c.say("list")
    c.say("report", 1600)
    c.say("balance", 1, 1, 10)


def any_order(c):
    """The same records in two orders, refused ones between: the same report."""
    rng = random.Random(8)
    head = 44, [-90, -61, -3, 41, 88, 133, 171, 166, 121, 67, 22, -48]
    records = [some_record(rng) for _ in range(30)]
    for _ in range(2):
        c.open(*head)
        for record in records:
            c.add(record)
        c.say("fields")
        c.say("report", 1600)
        rng.shuffle(records)
        records.insert(7, (8, 1, 1, (100, 0, 0), (10, 10, 10)))


def some_record(rng):
    """A record within the limits."""
    vehicles = int(10 ** rng.uniform(0, 6))
    km = rng.randint(1, min(999999, 10**9 // vehicles))
    urban = rng.randint(0, 100)
    rural = rng.randint(0, 100 - urban)
    return (rng.randint(1, 7), vehicles, km, (urban, rural, 100 - urban - rural),
            tuple(rng.randint(10, 130) for _ in range(3)))


def anything(c):
    """Heads and records at random within the limits."""
    rng = random.Random(1997)
    for _ in range(60):
        c.open(rng.randint(10, 200), [rng.randint(-300, 400) for _ in range(12)])
        for _ in range(rng.randint(1, 12)):
            c.add(some_record(rng), rng.choice((1, 1, 2, 5)))
        c.say("fields")
        c.say("list")


def cases():
    """Every line of standard input, and what each is answered."""
    c = Cases(Answers())
    for part in (example, grounds, head_limits, record_limits, several_wrong, questions, classes, warm, balances, digits,
                 rounding, below_half, class_3, order, full_runs, any_order, anything,
                 one_day, no_days, day_order, periods, dated_rounding, any_period, totals, kinds_of_totals, totals_of_records):
        part(c)
    return c


def distance(head, records, run):
    """Demand 3 of one list: the count, the kilometres, and each total within its distance of the exact sum."""
    count, km, sums = ref.tally(head, records)
    assert (count, km) == (run.count, run.km)
    for (fuel, quantity), exact in sums.items():
        allowed = Fraction(1, 2) + Fraction(3, 2) * km[fuel] / 10**7
        assert abs(ref.total(run, fuel, quantity)[1] - exact) <= allowed


def fields(run):
    """Every field of a run; grams and rest of each sum, then of each stored total."""
    sums = [n for place in PLACES for n in (run.grams[place], run.rests[place])]
    stored = [n for place in TOTALS for n in (run.total_grams[place], run.total_rests[place])]
    return [run.trip, *run.x.values(), run.count, *run.km.values(), *sums, *stored]


class Answers:
    """What each line is answered, by the reference."""

    def __init__(self):
        self.run = ref.Run()
        # The list since the last taken opening, or None where the run was changed by hand.
        self.head, self.records = None, []
        # The digits worked of taken balances, and whether the division ends there.
        self.worked = set()

    def open(self, trip, *rest):
        head = ref.lent_head(trip, rest[:12], *rest[12:])
        number, self.run = ref.open_run(head)
        self.head, self.records = (head if number == 0 else None), []
        return [number]

    def add(self, times, cls, vehicles, km, *rest):
        record = cls, vehicles, km, rest[:3], rest[3:]
        number = 0
        for _ in range(times):
            number, self.run = ref.add(self.run, record)
            self.records.append(record)
        return [number, self.run.count]

    def set(self, field, index, value):
        run = self.run = self.run.copy()
        self.head = None
        if field == TRIP:
            run.trip = value
        elif field == COUNT:
            run.count = value
        elif field == X:
            run.x[ref.X_NAMES[index]] = value
        elif field == KM:
            run.km[ref.FUELS[index]] = value
        elif field in (TOTAL, TOTAL_REST):
            (run.total_grams if field == TOTAL else run.total_rests)[TOTALS[index]] = value
        else:
            (run.grams if field == GRAMS else run.rests)[PLACES[index]] = value
        return []

    def total(self, fuel, quantity):
        return ref.total(self.run, fuel, quantity)

    def kind(self, fuel, quantity, kind):
        return ref.kind_total(self.run, fuel, quantity, ref.KINDS[kind])

    def balance(self, fuel, quantity, sold):
        number, _, worked, _ = answer = ref.balance(self.run, fuel, quantity, sold)
        if number == 0:
            self.worked.add((worked, sold * 10**worked % ref.total(self.run, fuel, ref.FC)[1] == 0))
        return answer

    def report(self, size):
        number, length, buffer = ref.write_report(self.run, b"." * size)
        return [number, str(length) + "\n" + buffer.decode()]

    def list(self):
        if self.head is not None:
            distance(self.head, self.records, self.run)
        out = []
        for f in ref.FUELS:
            for q in ref.QUANTITIES:
                out += ["\n ", f, q]
                for kind in ref.KINDS:
                    out += ref.kind_total(self.run, f, q, kind)
                out += ref.total(self.run, f, q)
        return out

    def fields(self):
        return fields(self.run)

    def line(self, text):
        call, *numbers = text.split(" ")
        answer = getattr(self, call)(*[int(n) for n in numbers])
        return text + " =" + "".join(" %s" % a for a in answer).replace(" \n", "\n") + "\n"


def write(program, stdin, stdout):
    """The two files of a test program, or with --check whether they are as they stand."""
    folder = os.path.join(os.path.dirname(os.path.abspath(__file__)), "..", "crates", program)
    for name, data in (("stdin", stdin), ("stdout", stdout)):
        path = os.path.join(folder, name)
        if sys.argv[1:] == ["--check"]:
            with open(path, "rb") as file:
                if file.read() != data:
                    sys.exit("%s is not what tools/%s.py writes" % (path, program))
        else:
            with open(path, "wb") as file:
                file.write(data)


def write_cases(program, cases):
    """The same of cases."""
    write(program, "".join(line + "\n" for line in cases.lines).encode(), "".join(cases.answered).encode())


def same_calendar():
    """The reference's calendar is that of Python's library, and so are the days of each month in periods at random."""
    day, days = datetime.date(1980, 1, 1), []
    while day <= datetime.date(2100, 12, 31):
        days.append(day)
        day += datetime.timedelta(1)
    assert ref.CALENDAR == [int(day.strftime("%Y%m%d")) for day in days]
    rng = random.Random(19)
    for _ in range(2000):
        first, last = some_days(rng)
        begin, end = (datetime.datetime.strptime(str(day), "%Y%m%d").date() for day in (first, last))
        weights, whole = ref.month_weights((first, last))
        assert begin <= end and begin.year == end.year and whole == (end - begin).days + 1 == sum(weights)
        for month, weight in enumerate(weights, 1):
            # from the month's first day on, less from the next month's first day on
            starts = datetime.date(begin.year, month, 1), datetime.date(begin.year + month // 12, month % 12 + 1, 1)
            from_on = [max(0, (end - max(begin, start)).days + 1) for start in starts]
            assert weight == from_on[0] - from_on[1]


def main():
    same_calendar()
    c = cases()
    write_cases("vectors", c)
    # no case of the digits is lost: 6 to 12, and 12 where there is none
    assert c.answers.worked == {(n, True) for n in range(6, 13)} | {(12, False)}


if __name__ == "__main__":
    main()
