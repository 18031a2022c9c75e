"""The cases of the test program `join_vectors`, and the answers that tools/reference.py gives for them.

    python3 tools/join_vectors.py            writes crates/join_vectors/stdin and crates/join_vectors/stdout
    python3 tools/join_vectors.py --check    exits 1 if the two files are not what it would write

The program keeps eight runs, 0 to 7, and one set of areas, all zeros at first. Where a run comes from a history (opened, added
to, joined, taken from opened areas, and not changed by hand since), the tally of that history decides by itself which adds and
joins are taken, and count, kilometres and totals are held against it.

    open R L T.. FIRST LAST                                number; run R is what opening gave (zeros where refused)
    add R TIMES CLASS VEHICLES KM SHARES.. SPEEDS..        number of the last add (0 for none), record count of run R
    set R FIELD INDEX VALUE                                nothing; a field of run R changed by hand, fields as in tools/vectors.py
    join R A B                                             number; run R is what joining A and then B gave back
    divide L T.. FIRST LAST                                number; areas opened
    inside AREA TIMES CLASS VEHICLES KM SHARES.. SPEEDS..  number of the last add to the area (0 for none)
    take R AREA                                            number; run R is the run of the area (zeros where refused)
    fields R                                               every field of the run; grams and rest of each sum, then of each total
    grams R FUEL QUANTITY                                  number, grams of the total
    balance R FUEL QUANTITY S                              number, k, digits worked, grams
    row R FUEL QUANTITY                                    number and the four floats, or the number alone
    print R BYTES                                          number, length; then the buffer, full of dots before
"""
import random
from collections import Counter
from fractions import Fraction

import reference as ref
import tight_list
import vectors
from area_vectors import BAD, COLD, FLEET, MOST
from vectors import (COUNT, EXAMPLE, GRAMS, KM, MAX, MILD, PLACES, REST, TOTAL, TOTAL_REST, TOTALS, TRIP, WHOLE_GRAMS, WITH_REST, X, YEAR,
                     some_days, some_record)

RUNS = range(8)
LPG_NOX = 3, ref.NOX
# K at its limit and the largest E of NOX, so that the exact sums show a small difference of X.
LPG = (4, 1000000, 1000, (100, 0, 0), (130, 130, 130))
LIMIT_X = 4900000000


def in_long_months(temps):
    """Four T in months of 31 days, all others 100."""
    year = list(MILD)
    for month, t in zip((0, 2, 4, 6), temps):
        year[month] = t
    return tuple(year)


# Pairs of heads with the same L and X, but another sum behind X of LPG NOX: months that weigh alike have the same T and squares of T
# in sum, and another part of them is below -33, where Q of LPG NOX is not cut off. Without dates, two whole years, and a period of 90
# days, of three months alike, with a head without dates.
COLDER, MILDER = (-121, -101, -30, 72), (-168, -46, 15, 19)
PAIRS = [
    ((200, (*COLDER, *[100] * 8)), (200, (*MILDER, *[100] * 8))),
    ((200, in_long_months(COLDER), 20260101, 20261231), (200, in_long_months(MILDER), 20260101, 20261231)),
    ((200, in_long_months(MILDER), 20000101, 20001231), (200, in_long_months(COLDER), 19960101, 19961231)),
    ((200, (100, 100, 100, 100, -100, 0, 190, 100, 100, 100, 100, 100), 20260502, 20260730),
     (200, (-157, -116, -72, -47, -23, -19, -11, 83, 158, 186, 189, 189))),
]


def winter(*three):
    return 120, (*three, 10, 60, 110, 130, 150, 130, 80, 30, 0)


def summer(*three):
    return 120, (-20, -10, 10, 60, 110, *three, 130, 80, 30, 0)


# Pairs of heads by the X in which they differ. Three T with the same sum and squares, on both sides of where one Q is cut off and of
# no other; from 300 on only FC is left. CO and VOC of gasoline, CO of diesel and that of class 3 are cut off together, so are NOX of
# gasoline and VOC of diesel; FC of gasoline and LPG are always the same; PM of gasoline and LPG is always 0.
APART = [
    ([(3, ref.NOX)], winter(-36, -32, -31), winter(-35, -34, -30)),
    ([(3, ref.VOC)], summer(204, 208, 209), summer(205, 206, 210)),
    ([(2, ref.PM)], summer(207, 211, 212), summer(208, 209, 213)),
    ([(2, ref.NOX)], summer(227, 231, 232), summer(228, 229, 233)),
    ([(3, ref.CO)], summer(293, 297, 298), summer(294, 295, 299)),
    ([(2, ref.FC)], (200, (301, 310, 340, 340, 349, 350, 350, 350, 360, 360, 390, 399)),
     (200, (300, 300, 300, 301, 340, 350, 360, 390, 390, 390, 399, 400))),
    ([(1, ref.NOX), (2, ref.VOC)], summer(231, 235, 236), summer(232, 233, 237)),
    ([(1, ref.FC), (3, ref.FC)], (200, (300, 302, 310, 310, 340, 350, 350, 351, 354, 360, 398, 400)),
     (200, (300, 300, 301, 302, 310, 335, 340, 369, 390, 398, 398, 399))),
    ([(1, ref.CO), (1, ref.VOC), (2, ref.CO), ref.CLASS_3_CO], summer(297, 301, 302), summer(298, 299, 303)),
    # by the days of two years: CO of class 3 is rounded by itself
    ([ref.CLASS_3_CO], (161, (100, 70, 104, 81, 58, 74, 75, 56, 100, 32, 25, 65), 20260101, 20261231),
     (161, (76, 70, 109, 102, 87, 34, 68, 64, 54, 61, 90, 25), 20000101, 20001231)),
]
# Two heads that differ in L alone: all X are the same.
OTHER_TRIP = ((96, (302, 313, 339, 367, 374, 387, 393, 393, 394, 399, 399, 400)),
              (98, (360, 362, 364, 365, 368, 368, 368, 368, 368, 370, 374, 382)))


def differing(one, other, x_of):
    """The names of the X in which two heads differ, by rounded or unrounded values."""
    return [name for name in ref.X_NAMES if x_of(one)[name] != x_of(other)[name]]


def allowed(km):
    """How far a printed total may lie from the exact sum."""
    return Fraction(1, 2) + Fraction(3, 2) * km / 10**7


class Answers:
    """What each line is answered, by the reference."""

    def __init__(self):
        self.runs, self.areas = [ref.Run() for _ in RUNS], ref.Areas()
        # The tallies of histories, or None for what is none.
        self.tallies, self.area_tallies = [None for _ in RUNS], None
        # Joins by number, those of histories by number, totals that were held against a tally.
        self.joins, self.of_histories, self.near = Counter(), Counter(), 0

    def open(self, r, trip, *rest):
        head = ref.lent_head(trip, rest[:12], *rest[12:])
        number, self.runs[r] = ref.open_run(head)
        self.tallies[r] = ref.Tally(head) if number == 0 else None
        return [number]

    def add(self, r, times, cls, vehicles, km, *rest):
        record, number = (cls, vehicles, km, rest[:3], rest[3:]), 0
        if times > 0:
            number, self.runs[r] = ref.add(self.runs[r], record, times)
            if self.tallies[r]:
                paper = self.tallies[r] = self.tallies[r].copy()
                before = paper.count
                for _ in range(times):
                    paper.feed(record, paper.count < 5000)
                assert number == (ref.record_number(record) or (0 if paper.count == before + times else 9))
        return [number, self.runs[r].count]

    def set(self, r, field, index, value):
        one = vectors.Answers()
        one.run = self.runs[r]
        one.set(field, index, value)
        self.runs[r], self.tallies[r] = one.run, None
        return []

    def join(self, r, a, b):
        number, run = ref.join(self.runs[a], self.runs[b])
        paper = None
        if self.tallies[a] and self.tallies[b]:
            told, paper = self.tallies[a].joined(self.tallies[b])
            assert told == number
            self.of_histories[number] += 1
        self.runs[r], self.tallies[r] = run, paper
        self.joins[number] += 1
        return [number]

    def divide(self, trip, *rest):
        head = ref.lent_head(trip, rest[:12], *rest[12:])
        number, self.areas = ref.open_areas(head)
        self.area_tallies = ref.AreaTallies(head) if number == 0 else None
        return [number]

    def inside(self, area, times, cls, vehicles, km, *rest):
        record, number = (cls, vehicles, km, rest[:3], rest[3:]), 0
        if times > 0:
            number, self.areas = ref.add_area(self.areas, area, record, times)
            for _ in range(times if self.area_tallies else 0):
                self.area_tallies.feed(area, record)
        return [number]

    def take(self, r, area):
        number, self.runs[r] = ref.area_run(self.areas, area)
        self.tallies[r] = self.area_tallies.areas[area].copy() if self.area_tallies and area in ref.AREAS else None
        return [number]

    def held(self, r, places):
        """The run of a history against its tally: order, count, kilometres, and the totals of these fuels and quantities."""
        run, paper = self.runs[r], self.tallies[r]
        if paper:
            assert ref.in_order(run) and (run.count, run.km) == (paper.count, paper.km)
            for fuel, quantity in places:
                self.near += 1
                number, grams = ref.total(run, fuel, quantity)
                assert number == 0 and abs(grams - paper.sums[fuel, quantity]) <= allowed(paper.km[fuel])

    def fields(self, r):
        self.held(r, ref.X_NAMES[:15])
        return vectors.fields(self.runs[r])

    def grams(self, r, fuel, quantity):
        self.held(r, [(fuel, quantity)] if (fuel, quantity) in ref.X_NAMES else [])
        return ref.total(self.runs[r], fuel, quantity)

    def balance(self, r, fuel, quantity, sold):
        return ref.balance(self.runs[r], fuel, quantity, sold)

    def row(self, r, fuel, quantity):
        number, floats = ref.row(self.runs[r], fuel, quantity)
        return [number, *map(int, floats)]

    def print(self, r, size):
        number, length, buffer = ref.write_report(self.runs[r], b"." * size)
        return [number, str(length) + "\n" + buffer.decode()]

    line = vectors.Answers.line


class Cases(vectors.Cases):
    """The lines of standard input."""

    def run(self, r):
        return self.answers.runs[r]

    def tally(self, r):
        return self.answers.tallies[r]

    def open(self, r, head, number=0):
        trip, temps, *days = head
        self.say("open", r, trip, *temps, *(days or (0, 0)), number=number)

    def divide(self, head, number=0):
        trip, temps, *days = head
        self.say("divide", trip, *temps, *(days or (0, 0)), number=number)

    def add(self, r, record, times=1, number=None):
        cls, vehicles, km, shares, speeds = record
        self.say("add", r, times, cls, vehicles, km, *shares, *speeds, number=number)

    def inside(self, area, record, times=1, number=None):
        cls, vehicles, km, shares, speeds = record
        self.say("inside", area, times, cls, vehicles, km, *shares, *speeds, number=number)

    def opened(self, r, head, record=EXAMPLE, times=1):
        """A run under a head with a record so many times."""
        self.open(r, head)
        self.add(r, record, times)

    def zeros(self, r):
        """A run of zeros, as a refused opening gives it."""
        self.open(r, (9, MILD), 1)

    def set(self, r, field, index, value):
        self.say("set", r, field, index, value)

    def settle(self, *runs):
        """The stored totals of these runs follow their kinds, which were changed by hand."""
        for r in runs:
            for change in vectors.unsettled(self.run(r)):
                self.set(r, *change)

    def set_total(self, r, index, grams, rest):
        self.set(r, TOTAL, index, grams)
        self.set(r, TOTAL_REST, index, rest)

    def take(self, r, area, number=0):
        self.say("take", r, area, number=number)

    def join(self, r, a, b, number=0):
        """A join; a refused one gives back the first run."""
        first = self.run(a)
        self.say("join", r, a, b, number=number)
        assert number == 0 or vars(self.run(r)) == vars(first)

    def fields(self, *runs):
        for r in runs:
            self.say("fields", r)

    def same(self, *runs):
        """Runs that are the same in every field."""
        self.fields(*runs)
        assert all(vars(self.run(r)) == vars(self.run(runs[0])) for r in runs)

    def totals(self, *runs):
        for r in runs:
            for fuel in ref.FUELS:
                for quantity in ref.QUANTITIES:
                    self.say("grams", r, fuel, quantity)

    def measured_by(self, r, head):
        """From here on the adds to a run are measured by this head. Nothing is said: an add goes by the run's own L and X."""
        self.answers.tallies[r] = self.tally(r).measured_by(head)

    def both_ways(self, r, a, b, number=0):
        """Two joins with the runs exchanged, into r and r + 1: where taken, the same run."""
        self.join(r, a, b, number)
        self.join(r + 1, b, a, number)
        assert number != 0 or vars(self.run(r)) == vars(self.run(r + 1))

    def by_hand(self, r, changes, asked):
        """Fields (field, index) changed by hand, the totals with them, something asked, and all put back."""
        fields = {TRIP: lambda run, i: run.trip, X: lambda run, i: run.x[ref.X_NAMES[i]], COUNT: lambda run, i: run.count,
                  KM: lambda run, i: run.km[ref.FUELS[i]], GRAMS: lambda run, i: run.grams[PLACES[i]], REST: lambda run, i: run.rests[PLACES[i]]}
        before = {place: fields[place[0]](self.run(r), place[1]) for place in changes}
        for (field, index), value in changes.items():
            self.set(r, field, index, value)
        self.settle(r)
        asked()
        for (field, index), value in before.items():
            self.set(r, field, index, value)
        self.settle(r)


def two_crews(c):
    """Runs that were never opened; then two crews that key in halves of one town: the joined run is that of all records."""
    c.join(3, 4, 5, 16)
    c.fields(3)
    head = 87, YEAR
    for r in (0, 1, 2):
        c.open(r, head)
    c.join(3, 0, 4, 16)
    c.join(3, 4, 0, 16)
    c.fields(3)
    for i, record in enumerate(FLEET):
        c.add(i % 2, record, number=0)
        c.add(2, record, number=0)
    c.both_ways(3, 0, 1)
    c.same(2, 3, 4)
    c.totals(0, 1, 3)
    # the runs that were joined are as they were
    c.fields(0, 1)
    for size in (1261, 1260, 1455):
        c.say("print", 3, size)


def own_heads(c):
    """Heads with the same L and X whose exact sums differ: each record is measured by the head that it was added under."""
    for one, other in PAIRS:
        assert differing(one, other, ref.rounded_x) == [] and differing(one, other, ref.unrounded_x) == [LPG_NOX]
        for times in (1, 2500):
            c.opened(0, one, LPG, times)
            c.opened(1, other, LPG, times)
            c.both_ways(2, 0, 1)
            # measured by one of the two heads alone it would be another number
            for head in (one, other):
                alone = ref.tally(head, [LPG] * (2 * times))[2]
                assert [place for place in alone if alone[place] != c.tally(2).sums[place]] == [LPG_NOX]
            assert c.tally(2).sums == c.tally(3).sums
            c.same(2, 3)
            c.totals(2)
    # three lists, of which the first two are by one head
    one, other = PAIRS[0]
    for r, head, record in ((0, one, LPG), (1, one, FLEET[3]), (2, other, LPG)):
        c.opened(r, head, record, 700)
    c.join(3, 0, 1)
    c.join(3, 3, 2)
    c.join(4, 1, 2)
    c.join(4, 4, 0)
    c.same(3, 4)
    c.totals(3)


def months_exchanged(c):
    """Heads whose months are exchanged: another head with the same X and the same exact sums."""
    heads = [(77, YEAR), (77, YEAR[::-1]), (77, YEAR[5:] + YEAR[:5]), (77, sorted(YEAR))]
    for r, head in enumerate(heads):
        assert differing(heads[0], head, ref.unrounded_x) == []
        c.opened(r, head, FLEET[r], 3 + r)
    c.join(4, 0, 1)
    c.join(4, 4, 2)
    c.join(4, 4, 3)
    c.join(5, 3, 2)
    c.join(6, 1, 0)
    c.join(5, 5, 6)
    c.same(4, 5)
    c.totals(4)
    # by dates the months of 31 days may be exchanged, and years whose days are alike; January and February may not
    season = 20260101, 20261231
    swapped = list(YEAR)
    swapped[0], swapped[6] = YEAR[6], YEAR[0]
    wrong = list(YEAR)
    wrong[0], wrong[1] = YEAR[1], YEAR[0]
    for r, head in enumerate(((77, YEAR, *season), (77, swapped, *season), (77, YEAR, 19970101, 19971231), (77, wrong, *season))):
        c.opened(r, head, FLEET[r + 4])
    c.both_ways(4, 0, 1)
    c.both_ways(5, 1, 2)
    c.same(5, 6)
    c.both_ways(6, 0, 3, 21)


def dated_and_not(c):
    """Twelve equal T: without dates and in periods of 28, 365, 366 days and of one the same X, of other sums and weights."""
    periods = [(), (20260201, 20260228), (20260101, 20261231), (20000101, 20001231), (20000229, 20000229)]
    for trip, t in ((120, 100), (10, -300), (11, -75), (200, 299)):
        heads = [(trip, [t] * 12, *days) for days in periods]
        assert all(differing(heads[0], head, ref.rounded_x) == [] for head in heads)
        for r, head in enumerate(heads):
            c.opened(r, head, FLEET[(3 * r + trip) % 16], 5 + r)
        c.both_ways(5, 0, 1)
        c.fields(5, 6)
        for r in (2, 3, 4):
            c.join(5, 5, r)
        for r in (2, 3, 4):
            c.join(6, r, 6)
        c.same(5, 6)
        c.totals(5)
    # T of months without a day of the period do not show
    c.opened(0, (120, [400] * 4 + YEAR[4:10] + [-300] * 2, 20260515, 20261020), LPG, 9)
    c.opened(1, (120, YEAR, 20260515, 20261020), LPG, 9)
    c.both_ways(2, 0, 1)
    # a whole year by dates is not a head without dates
    c.opened(4, (120, YEAR), LPG, 9)
    c.opened(5, (120, YEAR, 20260101, 20261231), LPG, 9)
    c.both_ways(6, 4, 5, 21)
    c.totals(2)
    # class 3 has 72/100 in each
    for r, head in enumerate(heads[:3]):
        c.opened(r, head, (3, *MOST[1:]), 1600)
    c.join(3, 0, 1)
    c.join(3, 3, 2)
    c.fields(3)
    c.totals(3)


def heads_differ(c):
    """21: L, or an X in one place, by heads and by hand; the first run is given back whichever it is."""
    for places, one, other in APART:
        assert differing(one, other, ref.rounded_x) == places and one[0] == other[0]
        c.opened(0, one, EXAMPLE, 2)
        c.opened(1, other, FLEET[5], 3)
        c.both_ways(2, 0, 1, 21)
        c.fields(2, 3)
        # without records too
        c.open(1, other)
        c.both_ways(2, 0, 1, 21)
        c.open(0, one)
        c.both_ways(2, 0, 1, 21)
    one, other = OTHER_TRIP
    assert differing(one, other, ref.rounded_x) == [] and one[0] != other[0]
    c.opened(0, one)
    c.opened(1, other)
    c.both_ways(2, 0, 1, 21)
    for other in ((121, MILD), (119, MILD), (10, MILD), (200, MILD), (120, [100] * 11 + [101])):
        c.opened(0, (120, MILD))
        c.opened(1, other)
        c.both_ways(2, 0, 1, 21)
    # L alone, then each X alone
    c.open(0, (120, MILD))
    c.opened(1, (120, MILD), FLEET[6], 4)
    for trip in (10, 119, 121, 200):
        c.by_hand(1, {(TRIP, 0): trip}, lambda: c.both_ways(2, 0, 1, 21))
    x = list(c.run(0).x.values())
    for i in range(16):
        for value in (x[i] + 1, x[i] - 1 if x[i] else LIMIT_X, LIMIT_X, 0):
            if value != x[i]:
                c.by_hand(1, {(X, i): value}, lambda: c.both_ways(2, 0, 1, 21))
        # put back it is taken
        c.join(2, 0, 1)
    c.by_hand(1, {(X, 0): x[15], (X, 15): x[0]}, lambda: c.both_ways(2, 0, 1, 21))
    c.by_hand(1, {(X, 4): x[0], (X, 0): x[4]}, lambda: c.both_ways(2, 0, 1, 21))
    # all but one alike, and all others
    for i in range(16):
        c.by_hand(1, {(X, j): x[j] + 7 for j in range(16) if j != i}, lambda: c.join(2, 1, 0, 21))
    c.fields(2)


def grounds(c):
    """16, then 21, then 22: every choice of them, 16 by the first run, by the second and by both."""
    c.open(0, (120, MILD))
    c.add(0, FLEET[0], 3)
    c.open(1, (120, MILD))
    c.add(1, FLEET[6], 2)
    c.set(0, COUNT, 0, 3000)
    broken, apart, many = {(REST, 59): 10**9}, {(X, 15): 5}, {(COUNT, 0): 2001}
    for wrong in range(16):
        second = {(COUNT, 0): 2000}
        for bit, changes in ((1, broken), (2, apart), (4, many)):
            if wrong & bit:
                second |= changes
        number = 16 if wrong & 9 else 21 if wrong & 2 else 22 if wrong & 4 else 0
        c.by_hand(0, broken if wrong & 8 else {}, lambda: c.by_hand(1, second, lambda: c.both_ways(2, 0, 1, number)))
        c.fields(2, 3)
    # L apart, and a run of zeros, which has no L
    c.by_hand(1, {(TRIP, 0): 121, (COUNT, 0): 2001}, lambda: c.both_ways(2, 0, 1, 21))
    c.by_hand(1, {(TRIP, 0): 201, (COUNT, 0): 2001}, lambda: c.both_ways(2, 0, 1, 16))
    c.zeros(7)
    c.both_ways(2, 0, 7, 16)
    c.fields(2, 3)


def out_of_order(c):
    """Every field beyond its limit, in the first run, in the second, in both: 16, and the first run is given back."""
    c.opened(0, (120, MILD), FLEET[0], 3)
    c.opened(1, (120, MILD), FLEET[6], 3)
    places = [(TRIP, 0, value) for value in (0, 9, 201, MAX)] + [(COUNT, 0, value) for value in (0, 2, 5001, 2**63, MAX)]
    places += [(X, i, value) for i in range(16) for value in (LIMIT_X + 1, MAX)]
    places += [(KM, i, value) for i in range(3) for value in (3 * 10**9 + 1, MAX)]
    for i in range(60):
        places += [(REST, i, (10**9, 2**32, 2**63, MAX)[i % 4]), (GRAMS, i, (3 * 10**12 + 1, 2**63, MAX)[i % 3]), (REST, i, 10**9)]
    for n, (field, index, value) in enumerate(places):
        if (field, value) == (COUNT, 2):
            # in order still: two records have room for these sums
            c.by_hand(1, {(COUNT, 0): 2}, lambda: c.both_ways(2, 0, 1))
            continue

        def asked():
            c.both_ways(2, 0, 1, 16)
            c.join(4, 1, 1, 16)
            if n % 9 == 0:
                c.fields(2, 3, 4)
        c.by_hand(1, {(field, index): value}, asked)
    # a sum at its limit with a rest, and one record fewer than kilometres or a sum need
    for i in range(60):
        c.by_hand(1, {(GRAMS, i): 3 * 10**12, (REST, i): 1}, lambda: c.both_ways(2, 0, 1, 16))
    c.by_hand(1, {(GRAMS, 7): 3 * 10**12, (REST, 7): 0}, lambda: c.both_ways(2, 0, 1))
    c.by_hand(1, {(GRAMS, 7): 3 * 10**12, (REST, 7): 0, (COUNT, 0): 2}, lambda: c.both_ways(2, 0, 1, 16))
    c.by_hand(1, {(KM, 1): 3 * 10**9}, lambda: c.both_ways(2, 0, 1))
    c.by_hand(1, {(KM, 1): 3 * 10**9, (COUNT, 0): 2}, lambda: c.both_ways(2, 0, 1, 16))
    # counts whose sum would fit if it wrapped
    c.by_hand(1, {(COUNT, 0): MAX - 1}, lambda: c.both_ways(2, 0, 1, 16))
    c.by_hand(0, {(COUNT, 0): 2**63}, lambda: c.by_hand(1, {(COUNT, 0): 2**63}, lambda: c.both_ways(2, 0, 1, 16)))
    # both damaged in other places
    c.by_hand(0, {(REST, 3): MAX}, lambda: c.by_hand(1, {(GRAMS, 3): MAX}, lambda: c.both_ways(2, 0, 1, 16)))
    c.both_ways(2, 0, 1)
    c.fields(2)


def totals(c):
    """Stored totals: each broken in every way, in the first run, in the second, in both; totals added up with and without a carry."""
    def with_sums(r, rests):
        """A run by hand with grams of its own in every place, and these rests, four for a total."""
        c.open(r, (120, MILD))
        c.set(r, COUNT, 0, 3 + r)
        for i in range(60):
            c.set(r, GRAMS, i, 10**11 + (71 + r) * i)
            c.set(r, REST, i, rests[i // 4 % len(rests)][i % 4])
        c.settle(r)

    with_sums(0, WITH_REST)
    for rests in (WHOLE_GRAMS, WITH_REST):
        with_sums(1, rests)
        c.both_ways(2, 0, 1)
        c.same(2, 3)
        c.totals(2)
        for i, place in enumerate(TOTALS):
            for way in vectors.broken(c.run(1), place):
                c.set_total(1, i, *way)
                c.both_ways(2, 0, 1, 16)
                c.join(4, 1, 1, 16)
                for call in (("grams", 1, *place), ("grams", 1, 1, 1), ("balance", 1, *place, 400000), ("row", 1, *place), ("print", 1, 20)):
                    c.say(*call, number=16)
            # the first run is given back as it came, its broken total too
            if i % 7 == 0:
                c.fields(2, 3, 4)
            c.settle(1)
            c.join(2, 0, 1)
    # broken in both, so that together it would be right; then 16 before 21 and 22
    c.set(0, TOTAL, 0, c.run(0).total_grams[1, ref.CO] + 1)
    c.set(1, TOTAL, 0, c.run(1).total_grams[1, ref.CO] - 1)
    c.both_ways(2, 0, 1, 16)
    c.settle(0)
    for changes in ({(X, 0): 5}, {(COUNT, 0): 5000}, {(TRIP, 0): 121, (COUNT, 0): 5000}):
        for (field, index), value in changes.items():
            c.set(0, field, index, value)
        c.both_ways(2, 0, 1, 16)
    # totals of the other run
    with_sums(0, WHOLE_GRAMS)
    c.settle(1)
    stored = [[(run.total_grams[place], run.total_rests[place]) for place in TOTALS] for run in (c.run(0), c.run(1))]
    for i in range(15):
        c.set_total(0, i, *stored[1][i])
        c.set_total(1, i, *stored[0][i])
    c.both_ways(2, 0, 1, 16)
    c.settle(0, 1)
    c.both_ways(2, 0, 1)
    # rests of totals that reach a gram together where those of no kind do, and the other way round
    pairs = [((250000000,) * 3 + (249999999,), (0, 0, 0, 1)), ((0, 0, 0, 999999999), (1, 0, 0, 0)), ((999999999, 0, 0, 0), (1, 0, 0, 0)),
             ((999999999,) * 4, (1, 1, 1, 1)), ((999999999,) * 4, (999999999,) * 4), ((500000000, 499999999, 0, 0), (0, 0, 0, 0)),
             ((600000000, 600000000, 0, 0), (600000000, 100000000, 100000000, 0))]
    for turn in range(len(pairs)):
        with_sums(0, [one for one, _ in pairs[turn:] + pairs[:turn]])
        with_sums(1, [other for _, other in pairs[turn:] + pairs[:turn]])
        c.both_ways(2, 0, 1)
        c.same(2, 3)
        c.totals(2)
        c.join(2, 2, 2)
        c.fields(2)


def five_thousand(c):
    """22: 5,000 records together are taken, one more is not; also beside a run without records, and by counts set by hand."""
    head = 63, YEAR
    for one, other in ((5000, 0), (0, 5000), (5000, 1), (4999, 1), (4999, 2), (2500, 2500), (2500, 2501), (3000, 2000), (3000, 2001), (2, 4999),
                       (5000, 5000), (1, 4998)):
        for r, times, record in ((0, one, FLEET[1]), (1, other, FLEET[3])):
            c.open(r, head)
            c.add(r, record, times)
        c.both_ways(2, 0, 1, 0 if one + other <= 5000 else 22)
        c.fields(2, 3)
        # 9 where there are 5,000, and one more is taken below that
        c.add(2, EXAMPLE, number=9 if c.run(2).count == 5000 else 0)
        c.totals(2)
    c.open(0, head)
    c.open(1, head)
    for one in (0, 1, 2499, 2500, 4999, 5000):
        for other in (0, 1, 2, 2500, 2501, 4999, 5000):
            c.set(0, COUNT, 0, one)
            c.set(1, COUNT, 0, other)
            c.join(2, 0, 1, 0 if one + other <= 5000 else 22)
            assert c.run(2).count == (one + other if one + other <= 5000 else one)
            c.add(2, EXAMPLE, 0)


def carries(c):
    """Rests whose sum reaches a gram, at each place: alone, beside places without one, and with whole grams."""
    pairs = [(999999999, 1), (999999999, 999999999), (0, 999999999), (999999999, 0), (500000000, 500000000), (500000000, 499999999),
             (999999998, 1), (1, 999999998), (2, 999999998), (0, 0), (73741824, 926258175), (73741824, 926258176)]
    for r in (0, 1):
        c.open(r, (120, MILD))
        c.set(r, COUNT, 0, 1)
    for i in range(60):
        for one, other in pairs[:3]:
            c.set(0, REST, i, one)
            c.set(1, REST, i, other)
            c.settle(0, 1)
            c.both_ways(2, 0, 1)
            c.say("grams", 2, i // 20 + 1, i // 4 % 5 + 1)
        # no other place has anything
        c.set(0, REST, i, 999999999)
        c.settle(0)
        c.join(2, 0, 1)
        c.fields(2)
        c.set(0, REST, i, 0)
        c.set(1, REST, i, 0)
        c.settle(0, 1)
    # all places at once, each with another pair than its neighbours
    for turn in range(0, len(pairs), 2):
        for i in range(60):
            one, other = pairs[(i + turn) % len(pairs)]
            for r, rest, grams in ((0, one, 71 * i), (1, other, 10**9 + 13 * i)):
                c.set(r, REST, i, rest)
                c.set(r, GRAMS, i, grams)
        c.settle(0, 1)
        c.both_ways(2, 0, 1)
        c.same(2, 3)
        c.totals(2)


def limits(c):
    """Every sum, the kilometres of each fuel, X and L at their limits: the joined run is at the limit of its count."""
    for one, other, trip in ((1, 1, 10), (4999, 1, 200), (2500, 2500, 10), (3000, 2000, 77)):
        for r, count in ((0, one), (1, other)):
            c.open(r, (10, COLD))
            c.set(r, TRIP, 0, trip)
            c.set(r, COUNT, 0, count)
            for i in range(16):
                c.set(r, X, i, LIMIT_X)
            for i in range(60):
                c.set(r, GRAMS, i, count * 10**12)
            for i in range(3):
                c.set(r, KM, i, count * 10**9)
            c.settle(r)
        c.both_ways(2, 0, 1)
        c.same(2, 3)
        c.totals(2)
        for size in (1455, 1454):
            c.say("print", 2, size)
        c.say("row", 2, 1, 1)
        c.say("row", 2, 3, 5)
        # a full one takes no more, another takes one and is in order
        c.add(2, MOST, number=9 if one + other == 5000 else 0)
        c.fields(2)
    # one billionth below the limit in both: two below together, with a carry; at the limit in one
    for i in range(60):
        for r, count in ((0, 3000), (1, 2000)):
            if i % 3 != r:
                c.set(r, GRAMS, i, count * 10**12 - 1)
                c.set(r, REST, i, 999999999)
    c.settle(0, 1)
    c.both_ways(2, 0, 1)
    c.same(2, 3)
    c.totals(2)
    # the kilometres of one fuel alone
    for r in (0, 1):
        c.open(r, (120, MILD))
        c.set(r, COUNT, 0, 2500)
    for i in range(3):
        for value in (1, 2500 * 10**9):
            c.set(0, KM, i, value)
            c.set(1, KM, i, 2500 * 10**9)
            c.both_ways(2, 0, 1)
            assert c.run(2).km == {fuel: value + 2500 * 10**9 if fuel == i + 1 else 0 for fuel in ref.FUELS}
            c.fields(2)
        c.set(0, KM, i, 0)
        c.set(1, KM, i, 0)


def shapes(c):
    """Joins of joins in every shape and order: the same run where no join is refused, and refused alike where the inner ones are not."""
    one, other = PAIRS[3]
    for r, head, record, times in ((0, one, LPG, 3), (1, other, FLEET[6], 7), (2, (200, tuple(sorted(other[1], reverse=True))), EXAMPLE, 11),
                                   (3, one, FLEET[10], 1)):
        c.opened(r, head, record, times)
    # (0 1) 2 and 0 (1 2)
    c.join(4, 0, 1)
    c.join(4, 4, 2)
    c.join(5, 1, 2)
    c.join(5, 0, 5)
    c.same(4, 5)
    assert c.tally(4).sums == c.tally(5).sums
    c.totals(4)
    # ((0 1) 2) 3, 0 (1 (2 3)), (0 1) (2 3), ((3 1) 2) 0, (2 0) (3 1)
    c.join(4, 4, 3)
    c.join(5, 2, 3)
    c.join(5, 1, 5)
    c.join(5, 0, 5)
    c.join(6, 0, 1)
    c.join(7, 2, 3)
    c.join(6, 6, 7)
    c.same(4, 5, 6)
    c.join(5, 3, 1)
    c.join(5, 5, 2)
    c.join(5, 5, 0)
    c.join(6, 2, 0)
    c.join(7, 3, 1)
    c.join(6, 6, 7)
    c.same(4, 5, 6)
    c.totals(6)
    # 22 outside in both shapes, and in neither
    for counts, number in (((2000, 2000, 1001), 22), ((2000, 2000, 1000), 0), ((4998, 1, 1), 0), ((1, 4998, 2), 22), ((0, 5000, 0), 0)):
        for r, times in enumerate(counts):
            c.open(r, (63, YEAR))
            c.add(r, FLEET[r], times)
        c.join(4, 0, 1)
        c.join(5, 4, 2, number)
        c.join(6, 1, 2)
        c.join(7, 0, 6, number)
        c.fields(5, 7)
        assert number != 0 or vars(c.run(5)) == vars(c.run(7))
    # an inner one refused counts as its first: then the shapes differ
    for r, times in enumerate((3000, 2001, 1999)):
        c.open(r, (63, YEAR))
        c.add(r, FLEET[r], times)
    c.join(4, 0, 1, 22)
    c.join(4, 4, 2)
    c.join(5, 1, 2)
    c.join(5, 0, 5, 22)
    c.fields(4, 5)
    c.totals(4, 5)


def itself(c):
    """A run joined with itself, into itself: every number doubles, until the records are too many."""
    c.opened(0, (41, YEAR), FLEET[2])
    while c.run(0).count < 4096:
        before = c.run(0)
        c.join(0, 0, 0)
        assert all(c.run(0).sum(*place) == 2 * before.sum(*place) for place in PLACES) and c.run(0).count == 2 * before.count
        c.say("grams", 0, 1, 1)
    c.fields(0)
    c.totals(0)
    c.join(0, 0, 0, 22)
    c.join(1, 0, 0, 22)
    c.same(0, 1)
    # into the second, and into a third
    c.opened(2, (41, YEAR), FLEET[3], 5)
    c.join(2, 0, 2)
    c.join(3, 0, 2, 22)
    c.same(0, 3)
    c.totals(2)


def fresh_runs(c):
    """A fresh run of the same head, or of one with its L and X, changes nothing on either side; one of another head is 21."""
    one, other = PAIRS[0]
    c.opened(0, one, LPG, 4999)
    c.add(0, FLEET[5], number=0)
    for head in (one, other, (200, one[1][::-1])):
        c.open(1, head)
        c.both_ways(2, 0, 1)
        c.same(0, 2, 3)
        assert c.tally(2).sums == c.tally(3).sums == c.tally(0).sums
        c.join(4, 1, 1)
        c.same(1, 4)
    for head in ((199, one[1]), (200, MILD), (200, one[1], 20260101, 20261231)):
        c.open(1, head)
        c.both_ways(2, 0, 1, 21)
        c.fields(3)
    # many of them
    c.open(1, one)
    c.open(2, other)
    for _ in range(9):
        c.join(2, 1, 2)
        c.join(2, 2, 1)
    c.add(2, LPG, 4999)
    c.join(2, 1, 2)
    c.add(2, FLEET[5], number=0)
    c.same(0, 2)
    c.totals(2)
    # a refused opening is no fresh run
    c.zeros(3)
    c.both_ways(4, 0, 3, 16)
    c.same(0, 4)
    c.fields(5)


def refused_between(c):
    """Refused joins between taken ones leave the first run: the end is that of the taken ones alone."""
    head, stranger = (58, YEAR), (59, YEAR)
    c.opened(1, stranger, FLEET[0], 20)
    c.opened(2, head, FLEET[6], 3000)
    c.open(0, head)
    c.open(3, head)
    c.zeros(7)
    for turn, times in enumerate((1, 40, 900, 1500, 0, 700)):
        c.open(4, head)
        c.add(4, FLEET[turn + 7], times)
        c.join(3, 3, 4)
        c.join(0, 0, 1, 21)
        c.join(0, 0, 4)
        c.join(0, 0, 1, 21)
        c.join(6, 0, 7, 16)
        # one too many, from where on there are 2,001 records
        c.join(5, 0, 2, 0 if c.run(0).count <= 2000 else 22)
        c.say("grams", 0, 1, 1)
        c.same(0, 3)
    c.totals(3)
    # into itself, with what was refused in between added to and joined again
    for _ in range(3):
        c.join(5, 0, 2, 22)
        c.add(5, BAD[2], number=5)
        c.add(5, EXAMPLE, number=0)
        c.join(5, 5, 1, 21)
        c.join(5, 5, 4, 0)
        c.totals(5)
    c.fields(5)


def further_adds(c):
    """Adds to joined runs go by the run's own L and X; they are measured by any head that has these."""
    for one, other in (PAIRS[0], PAIRS[3]):
        c.opened(0, one, LPG, 2)
        c.opened(1, other, LPG, 3)
        c.opened(4, one, LPG, 2)
        for heads in ((one, one), (other, other), (one, other), ((200, tuple(sorted(other[1]))), one)):
            c.join(2, 0, 1)
            for head, record in zip(heads, (LPG, (4, *FLEET[3][1:]))):
                c.measured_by(2, head)
                for bad in BAD:
                    c.add(2, bad, number=ref.record_number(bad))
                c.add(2, record, 5, number=0)
                c.totals(2)
            c.fields(2)
        # the same run where the records were added before the join, to the first or to the second
        c.add(4, LPG, 5)
        c.add(4, (4, *FLEET[3][1:]), 5)
        c.join(5, 4, 1)
        c.join(6, 1, 4)
        c.same(2, 5, 6)
        # measured by the second's head it is another sum, and the same run
        c.join(3, 0, 1)
        c.measured_by(3, other)
        c.add(3, LPG, 50)
        c.join(7, 0, 1)
        c.add(7, LPG, 50)
        assert c.tally(3).sums != c.tally(7).sums
        c.same(3, 7)
        c.totals(3, 7)
    # up to 5,000, and a refused one behind that; then joined with what has no records
    c.add(3, LPG, 4944, number=0)
    c.add(3, LPG, 4, number=9)
    c.add(3, BAD[5], number=8)
    c.open(0, one)
    c.both_ways(4, 3, 0)
    c.same(3, 4)
    c.totals(4)
    # every class, to a joined run whose X were set by hand: each X is the run's own
    for r in (0, 1):
        c.open(r, (120, MILD))
        for i in range(16):
            c.set(r, X, i, 10**9 + 10**7 * i)
    c.join(2, 0, 1)
    for cls in range(1, 8):
        c.add(2, (cls, *EXAMPLE[1:]), number=0)
    c.fields(2)
    # so many adds of one record are the same as one add so many times, up to where 9 comes and behind it
    for times in ([1] * 9, [9], [2, 0, 7]):
        c.set(2, COUNT, 0, 4995)
        c.join(3, 2, 0)
        for n in times:
            c.add(3, FLEET[0], n)
        c.fields(3)


def areas(c):
    """The runs of sixteen areas joined one after the other, with all 5,000 records: no join is refused."""
    head = 63, YEAR
    c.divide(head)
    for area in ref.AREAS:
        c.inside(area, FLEET[area], 300, number=0)
    for area in ref.AREAS:
        c.inside(area, EXAMPLE, 13 if area < 8 else 12, number=0)
    c.inside(3, EXAMPLE, number=18)
    c.take(0, 0)
    c.take(1, 15)
    for area in range(1, 16):
        c.take(2, area)
        c.join(0, 0, 2)
        c.take(2, 15 - area)
        c.join(1, 2, 1)
    assert c.run(0).count == 5000
    c.same(0, 1)
    c.totals(0)
    c.say("print", 0, 1261)
    c.say("print", 0, 1260)
    # it belongs to no area: it is full by 9, and beside it 22; the areas are as they were
    c.add(0, EXAMPLE, number=9)
    c.take(2, 5)
    c.both_ways(3, 0, 2, 22)
    c.same(0, 3)
    c.fields(2, 4)
    c.inside(5, EXAMPLE, number=18)
    # a single run of all these records is the same run
    c.open(3, head)
    for area in ref.AREAS:
        c.add(3, FLEET[area], 300)
    c.add(3, EXAMPLE, 200)
    c.same(0, 3)
    # an area's run with a single one, also of another head with this X
    c.opened(4, head, FLEET[9], 40)
    c.opened(5, (63, YEAR[::-1]), LPG, 4000)
    c.both_ways(6, 2, 4)
    c.same(6, 7)
    c.both_ways(6, 5, 2)
    c.add(6, LPG, 688, number=9)
    c.totals(6)
    # one more than 300 is the area's alone: the joined run takes records up to 5,000
    c.join(6, 2, 4)
    c.add(6, EXAMPLE, 4700, number=9)
    c.fields(6)
    # no area, areas that were refused: a run of zeros, which is not in order
    c.take(6, 16, 17)
    c.both_ways(2, 0, 6, 16)
    c.divide((9, YEAR), 1)
    c.take(6, 0, 16)
    c.both_ways(2, 6, 0, 16)
    c.fields(2, 3)


def other_areas(c):
    """Areas of which one has 500 and others none, areas of two heads, dated ones, and fresh ones."""
    one, other = PAIRS[3]
    c.divide(one)
    c.inside(7, LPG, 501, number=18)
    for area in (0, 3, 15):
        c.inside(area, FLEET[area], 300, number=0)
    c.inside(16, EXAMPLE, number=17)
    c.inside(3, EXAMPLE, number=18)
    c.inside(4, BAD[0], 3, number=3)
    c.take(0, 0)
    for area in range(1, 16):
        c.take(1, area)
        c.join(0, 0, 1)
    c.fields(0)
    c.totals(0)
    # with the areas of another head that has these X, and of one that has not
    c.divide(other)
    for area in ref.AREAS:
        c.inside(area, LPG, 200 + area, number=0)
        c.take(2, area)
        c.join(0, 0, 2)
        c.say("grams", 0, *LPG_NOX)
    c.fields(0)
    c.totals(0)
    c.divide((200, MILD))
    c.inside(8, LPG, 3)
    c.take(3, 8)
    c.both_ways(4, 0, 3, 21)
    # without a record
    c.divide(tight_list.DATED_HEAD)
    c.open(5, tight_list.DATED_HEAD)
    for area in (0, 9, 15):
        c.take(6, area)
        c.join(5, 5, 6)
        c.same(5, 6)
    c.inside(9, tight_list.RECORD, 500, number=0)
    c.take(4, 9)
    c.add(5, tight_list.RECORD, 4500)
    c.both_ways(6, 4, 5)
    c.same(6, 7)
    c.totals(6)


def tight(c):
    """The list that misses its exact sum most, in halves, and joined with itself."""
    for head in (tight_list.HEAD, tight_list.DATED_HEAD):
        c.opened(0, head, tight_list.RECORD, 2500)
        c.join(1, 0, 0)
        c.opened(2, head, tight_list.RECORD, 5000)
        c.same(1, 2)
        c.totals(1)
        fuel = tight_list.FUEL, ref.FC
        printed, exact, km = ref.total(c.run(1), *fuel)[1], c.tally(1).sums[fuel], c.tally(1).km[tight_list.FUEL]
        assert tight_list.LOW < (abs(printed - exact) - Fraction(1, 2)) * 10**7 / km <= tight_list.HIGH
    # the head without dates joined with that of the period is 21
    c.opened(0, tight_list.HEAD, tight_list.RECORD)
    c.opened(1, tight_list.DATED_HEAD, tight_list.RECORD)
    c.both_ways(2, 0, 1, 21)


def questions(c):
    """A joined run balanced, mapped and reported, as a run of all its records is."""
    c.open(0, (87, YEAR))
    c.open(1, (87, YEAR))
    for i, record in enumerate(FLEET):
        c.add(i % 2, record, 1 + i)
    c.join(2, 0, 1)
    size = len(ref.report_text(c.run(2)))
    for bytes_ in (size, size - 1, size + 5, 0, 97):
        c.say("print", 2, bytes_)
    for fuel in ref.FUELS:
        used = ref.total(c.run(2), fuel, ref.FC)[1] // 10**6
        for quantity in ref.QUANTITIES:
            c.say("row", 2, fuel, quantity)
            for sold in (used, used // 2, used * 3 // 2, used * 3 // 2 + 1, 0, 10**9):
                c.say("balance", 2, fuel, quantity, sold)
    for fuel, quantity in ((0, 1), (4, 1), (1, 0), (1, 6), (MAX, MAX)):
        c.say("grams", 2, fuel, quantity)
        c.say("row", 2, fuel, quantity)
        c.say("balance", 2, fuel, quantity, 1000)
    # one fuel alone in each half: the report has the lines of both
    c.opened(0, (87, YEAR), LPG)
    c.opened(1, (87, YEAR), MOST)
    c.join(2, 0, 1)
    size = len(ref.report_text(c.run(2)))
    assert size == len(ref.report_text(c.run(0))) + len(ref.report_text(c.run(1)))
    for bytes_ in (size, size - 1):
        c.say("print", 2, bytes_)
    # a total below half a gram in each of two runs, printed together
    for r in (0, 1):
        c.open(r, (120, MILD))
        c.set(r, COUNT, 0, 1)
        c.set(r, REST, 3, 250000000)
    for rest, length in ((250000000, 97), (249999999, 0)):
        c.set(1, REST, 3, rest)
        c.settle(0, 1)
        c.join(2, 0, 1)
        assert len(ref.report_text(c.run(2))) == length and ref.report_text(c.run(0)) == b""
        c.say("print", 2, 97)
        c.say("grams", 2, 1, 1)
    # F of 10^6 g from two halves: k in six digits
    for r in (0, 1):
        c.set(r, GRAMS, PLACES.index((1, ref.FC, "rural")), 499999)
        c.set(r, REST, PLACES.index((1, ref.FC, "rural")), 999999999)
    c.settle(0, 1)
    c.join(2, 0, 1)
    for sold in (1, 0, 2):
        c.say("balance", 2, 1, ref.FC, sold)
        c.say("balance", 0, 1, ref.FC, sold)
    # the largest sums that adds can give, from two halves
    for r in (0, 1):
        c.opened(r, (10, COLD), MOST, 2500)
    c.both_ways(2, 0, 1)
    c.same(2, 3)
    c.totals(2)
    for quantity in ref.QUANTITIES:
        c.say("row", 2, 2, quantity)
        c.say("balance", 2, 2, quantity, ref.total(c.run(2), 2, ref.FC)[1] // 10**6)
    for bytes_ in (485, 484):
        c.say("print", 2, bytes_)
    # a run out of order, as the first is given back
    c.set(2, TRIP, 0, 0)
    c.join(4, 2, 3, 16)
    c.say("grams", 4, 1, 1)
    c.say("row", 4, 1, 1)
    c.say("balance", 4, 1, 1, 1000)
    c.say("print", 4, 20)


def anything(c):
    """Histories at random: heads with the same X and others, lists with damaged records, areas, joins of all of them."""
    rng = random.Random(14)
    for turn in range(40):
        if turn % 3 == 0:
            heads = list(PAIRS[turn // 3 % 4]) + [PAIRS[0][0]]
        elif turn % 3 == 1:
            trip, t = rng.randint(10, 200), rng.randint(-300, 400)
            heads = [(trip, [t] * 12)] + [(trip, [t] * 12, *some_days(rng)) for _ in range(3)]
        else:
            trip, temps = rng.randint(10, 200), [rng.randint(-300, 400) for _ in range(12)]
            heads = [(trip, temps), (trip, rng.sample(temps, 12)), (trip, temps[::-1]), (trip, temps, *some_days(rng))]
        c.divide(heads[0])
        for r in range(5):
            c.open(r, rng.choice(heads))
        for _ in range(25):
            r, record = rng.choice(RUNS), rng.choice(BAD) if rng.random() < 0.1 else some_record(rng)
            times = rng.choice((1, 1, 2, 7, 40, 900, 2500) if turn % 4 == 0 else (1, 1, 2, 7, 40))
            choice = rng.random()
            if choice < 0.5:
                c.add(r, record, times)
            elif choice < 0.6:
                c.inside(rng.randrange(17), record, times)
            elif choice < 0.7:
                c.say("take", r, rng.randrange(16))
            else:
                c.say("join", r, rng.choice(RUNS), rng.choice(RUNS))
        for r in rng.sample(RUNS, 2):
            c.fields(r)
            c.say("grams", r, rng.choice(ref.FUELS), rng.choice(ref.QUANTITIES))


def main():
    c = Cases(Answers())
    for part in (two_crews, own_heads, months_exchanged, dated_and_not, heads_differ, grounds, out_of_order, totals, five_thousand, carries, limits,
                 shapes, itself, fresh_runs, refused_between, further_adds, areas, other_areas, tight, questions, anything):
        part(c)
    # each number was met, also by histories where it can be
    assert set(c.answers.joins) == {0, 16, 21, 22} and set(c.answers.of_histories) == {0, 21, 22} and c.answers.near > 1000
    vectors.write_cases("join_vectors", c)


if __name__ == "__main__":
    main()
