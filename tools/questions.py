"""The cases of the test program `questions`, and the answers that tools/reference.py gives for them.

    python3 tools/questions.py            writes crates/questions/stdin and crates/questions/stdout
    python3 tools/questions.py --check    exits 1 if the two files are not what it would write

    open L T.. FIRST LAST                           number; the days are 0 and 0 for a head without dates
    add TIMES CLASS VEHICLES KM SHARES.. SPEEDS..   number of the last add, record count
    put FIELD INDEX VALUE                           nothing; a field of the run changed by hand, fields as in tools/vectors.py
    co2 FUEL R                                      number, grams
    so2 FUEL S                                      number, grams
    lead FUEL L                                     number, grams
    row FUEL QUANTITY                               number and the four floats, or the number alone
    figure FUEL QUANTITY KIND                       number and the float or `not given`, or the number alone
"""
import random

import reference as ref
import vectors
from vectors import COUNT, EXAMPLE, GRAMS, KM, MAX, MILD, PLACES, REST, TOTALS, TRIP, WHOLE_GRAMS, WITH_REST, X, YEAR

# R, s and l at their ends, the values that the specification prints, and beside them.
HYDROGEN = (0, 1, 1800, 1999, 3999, 4000, 4001, MAX)
SULPHUR = (0, 1, 9999, 10000, 10001, MAX)
LEAD = (0, 1, 2, 999, 1000, 1001, MAX)
FLEET = [(cls, 1000 * cls + 7, 12345 - 6 * cls, (40 - cls, 35 + cls, 25), (15 + cls, 55 + 2 * cls, 95 + 3 * cls))
         for cls in range(1, 8)]


class Cases(vectors.Cases):
    """The lines of standard input."""

    def set(self, field, index, value):
        self.say("put", field, index, value)

    def contents(self, fuel):
        """CO2, SO2 and lead at every content."""
        for call, contents in (("co2", HYDROGEN), ("so2", SULPHUR), ("lead", LEAD)):
            for content in contents:
                self.say(call, fuel, content)

    def map(self, fuels=ref.FUELS, quantities=ref.QUANTITIES):
        """Rows and figures of every fuel, quantity and kind."""
        for fuel in fuels:
            for quantity in quantities:
                self.say("row", fuel, quantity)
                for kind in range(4):
                    self.say("figure", fuel, quantity, kind)

    def fuel_used(self, fuel, grams, rest=0, count=5000):
        """A run by hand with F in its rural sum."""
        self.open(120, MILD)
        self.set(COUNT, 0, count)
        self.set(GRAMS, PLACES.index((fuel, ref.FC, "rural")), grams)
        self.set(REST, PLACES.index((fuel, ref.FC, "rural")), rest)
        self.settle()


def example(c):
    """The specification's fleet and figures; fuels on both sides of their limits; an F of 0."""
    c.open(120, MILD)
    c.contents(1)
    c.map()
    c.add(EXAMPLE)
    for fuel in (0, 1, 2, 3, 4, MAX):
        c.contents(fuel)
    c.map((0, 1, 2, 3, 4, MAX), (0, 1, 2, 3, 4, 5, 6, MAX))
    c.fuel_used(1, 13825400)
    c.say("co2", 1, 1800)
    c.fuel_used(1, 1000000)
    c.say("lead", 1, 2)
    for fuel in ref.FUELS:
        c.fuel_used(fuel, 13825400)
        for asked in ref.FUELS:
            c.contents(asked)


def fleet(c):
    """All seven classes."""
    c.open(87, [-55, -30, 12, 70, 118, 149, 182, 177, 131, 84, 27, -18])
    for record in FLEET:
        c.add(record)
    for fuel in ref.FUELS:
        c.contents(fuel)
    c.map()


def order(c):
    """16 before 11 before 15, each run out of order in another way."""
    for field, index, value in ((TRIP, 0, 0), (TRIP, 0, 201), (X, 15, 4900000001), (COUNT, 0, 5001), (REST, 59, 10**9), (GRAMS, 3, 10**13),
                                (KM, 2, MAX)):
        c.open(120, MILD)
        c.add(EXAMPLE)
        c.set(field, index, value)
        c.settle()
        for fuel in (1, 4):
            c.contents(fuel)
            c.say("row", fuel, 1)
            c.say("row", fuel, 6)
            for kind in range(4):
                c.say("figure", fuel, 4, kind)
                c.say("figure", fuel, 6, kind)


def totals(c):
    """16 where a stored total is broken, whichever it is and whatever is asked."""
    for rests in (WHOLE_GRAMS, WITH_REST):
        vectors.with_sums(c, rests)
        for i, place in enumerate(TOTALS):
            for way in vectors.broken(c.answers.run, place):
                c.set_total(i, *way)
                for call in (("co2", place[0], 1800), ("so2", place[0], 10), ("lead", place[0], 5), ("row", *place), ("row", 1, 1)):
                    c.say(*call, number=16)
                for kind in range(4):
                    c.say("figure", *place, kind, number=16)
            c.settle()
            c.say("co2", place[0], 1800, number=0)
            c.say("row", *place, number=0)
        c.map()
    # before 11 and 15, and for a figure that is not given
    c.set_total(9, 0, 0)
    for call in (("co2", 4, 1800), ("so2", 1, 10001), ("lead", 0, MAX), ("row", 4, 1), ("row", 1, 6), ("figure", 1, 4, 3), ("figure", 0, 0, 0)):
        c.say(*call, number=16)


def halves(c):
    """Grams at and beside a half; F itself below a half, and at it."""
    for grams in (1, 2, 249999, 250000, 250001, 666666, 666667, 749999, 750000, 1999999, 2000000, 2000001):
        c.fuel_used(2, grams)
        for content in (1, 2, 3):
            c.say("so2", 2, content)
            c.say("lead", 2, content)
    # CO2 is never at a half; these come nearest on either side.
    near = []
    for hydrogen in (0, 1, 1800, 2001, 4000):
        below = 12011000 + 1008 * hydrogen
        distance = {f: abs(2 * 44011000 * f % (2 * below) - below) for f in range(1, 20000)}
        near += [(f, hydrogen) for f in sorted(distance, key=distance.get)[:4]]
    for f, hydrogen in near:
        c.fuel_used(3, f)
        c.say("co2", 3, hydrogen)
    for rest in (499999999, 500000000):
        c.fuel_used(1, 0, rest)
        for hydrogen in (0, 1800, 4000):
            c.say("co2", 1, hydrogen)
        c.say("so2", 1, 10000)
        c.say("lead", 1, 1000)


def large(c):
    """F and the sums up to their limits on full runs."""
    rng = random.Random(44)
    for grams, rest in ((5 * 10**15, 0), (5 * 10**15 - 1, 999999999), (5 * 10**15 - 1, 500000000), (5 * 10**15 - 1, 499999999),
                        (5 * 10**15 - 2, 500000000), (2**52 + 1, 0), (2**52 - 1, 499999999), (2**52 - 1, 500000000)):
        c.open(10, [-300] * 12)
        c.set(COUNT, 0, 5000)
        for i in range(60):
            c.set(GRAMS, i, grams)
            c.set(REST, i, rest)
        c.settle()
        c.contents(2)
        c.map((1, 2, 3), (1, 4, 5))
    # Another sum in every place.
    for i in range(60):
        c.set(GRAMS, i, rng.randrange(5 * 10**15))
        c.set(REST, i, rng.randrange(10**9))
    c.settle()
    for fuel in ref.FUELS:
        c.contents(fuel)
    c.map()
    for _ in range(60):
        c.fuel_used(3, int(10 ** rng.uniform(0, 15.69)), rng.randrange(10**9))
        c.say("co2", 3, rng.randint(0, 4000))
        c.say("so2", 3, rng.randint(0, 10000))
        c.say("lead", 3, rng.randint(0, 1000))


def full_runs(c):
    """Runs filled to 5,000 records by adds."""
    c.open(10, [-300] * 12)
    c.add((6, 1000000, 1000, (100, 0, 0), (130, 130, 130)), 5000)
    c.contents(2)
    c.map()
    c.open(58, [-41, -12, 33, 97, 148, 171, 203, 188, 140, 99, 47, -7])
    for record, times in zip(FLEET, (700, 700, 700, 800, 700, 700, 700)):
        c.add(record, times)
    c.add(EXAMPLE)
    for fuel in ref.FUELS:
        c.contents(fuel)
    c.map()


def dated(c):
    """Questions of runs under dated heads, and of the run of zeros that a refused one gives."""
    for days in ((20000229, 20000229), (20260515, 20261020), (20260101, 20261231)):
        c.open(87, YEAR, *days)
        for record in FLEET:
            c.add(record)
        for fuel in ref.FUELS:
            c.say("co2", fuel, 1800)
            c.say("so2", fuel, 10)
            c.say("lead", fuel, 5)
        c.map()
    for days in ((20260515, 0), (20260516, 20260515)):
        c.open(87, YEAR, *days)
        c.add(EXAMPLE)
        c.say("co2", 1, 1800)
        c.say("row", 1, 1)
        c.say("figure", 1, 4, 3)


class Answers(vectors.Answers):
    """What each line is answered, by the reference."""

    put = vectors.Answers.set

    def co2(self, fuel, hydrogen):
        return ref.co2(self.run, fuel, hydrogen)

    def so2(self, fuel, sulphur):
        return ref.so2(self.run, fuel, sulphur)

    def lead(self, fuel, content):
        return ref.lead(self.run, fuel, content)

    def row(self, fuel, quantity):
        number, floats = ref.row(self.run, fuel, quantity)
        return [number, *map(int, floats)]

    def figure(self, fuel, quantity, kind):
        number, floats = ref.figure(self.run, fuel, quantity, ref.KINDS[kind])
        return [number, *("not given" if x is None else int(x) for x in floats)]


def main():
    c = Cases(Answers())
    for part in (example, fleet, order, halves, large, full_runs, dated, totals):
        part(c)
    vectors.write_cases("questions", c)


if __name__ == "__main__":
    main()
