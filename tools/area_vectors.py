"""The cases of the test program `area_vectors`, and the answers that tools/reference.py gives for them.

    python3 tools/area_vectors.py            writes crates/area_vectors/stdin and crates/area_vectors/stdout
    python3 tools/area_vectors.py --check    exits 1 if the two files are not what it would write

The program keeps 2,880 numbers, all 0 at first, of which it lends the first 2,737. Where areas were opened and not changed
by hand since, each run and each total is also held against the tally of its area.

    lend N                                               nothing; from now on the first N numbers are lent
    open L T.. FIRST LAST                                number; the days are 0 and 0 for a head without dates
    add AREA TIMES CLASS VEHICLES KM SHARES.. SPEEDS..   number of the last add (0 for none), common use
    put PLACE VALUE                                      nothing; one of the numbers changed by hand
    run AREA                                             number; then every number of the run
    total AREA FUEL QUANTITY                             number of the run of the area; number and grams of its total, or 0 0
    all                                                  every one of the 2,880 numbers
"""
import random
from fractions import Fraction

import reference as ref
import tight_list
import vectors
from vectors import EXAMPLE, MAX, MILD, PLACES, TOTALS, YEAR, some_days, some_record

NUMBERS = 2880
LENT = 2737
COMMON = 2736

# What stands where in the 171 numbers of a run: the field, and the key where it has several.
WORDS = ([("trip",)] + [("x", name) for name in ref.X_NAMES] + [("count",)] + [("km", fuel) for fuel in ref.FUELS]
         + [(field, place) for field in ("grams", "rests") for place in PLACES]
         + [(field, place) for field in ("total_grams", "total_rests") for place in TOTALS])
TRIP, X, COUNT, KM, GRAMS, RESTS, TOTAL_GRAMS, TOTAL_RESTS = 0, 1, 17, 18, 21, 81, 141, 156

MOST = (6, 1000000, 1000, (100, 0, 0), (130, 130, 130))
COLD = [-300] * 12
# A record of its own for each area, all classes among them.
FLEET = [(i % 7 + 1, 1000 + 37 * i, 9000 - 11 * i, (40 - i, 40, 20 + i), (15 + i, 60 + 2 * i, 100 + i)) for i in ref.AREAS]
# One record for each of 3 to 8, and some that several of them fit.
BAD = [(0, *EXAMPLE[1:]), (2, 0, *EXAMPLE[2:]), (2, 1000, 1000000, *EXAMPLE[3:]), (2, 100001, *EXAMPLE[2:]),
       (*EXAMPLE[:3], (40, 40, 19), EXAMPLE[4]), (*EXAMPLE[:4], (20, 60, 131)),
       (8, 1000001, 1000000, (40, 40, 19), (20, 60, 131)), (2, 999001, 1001, (101, 0, 0), (9, 60, 100)), (2, 1000, 10000, (100, 1, 0), (131, 9, 0))]


class Answers:
    """What each line is answered, by the reference."""

    def __init__(self):
        self.areas, self.behind, self.lent = ref.Areas(), [0] * (NUMBERS - LENT), LENT
        # The tallies since the last taken opening, or None where a number was changed by hand.
        self.tallies = None

    def is_lent_whole(self):
        """Another length than that of areas is 16 in every call, and no number changes."""
        return self.lent == LENT

    def lend(self, length):
        self.lent = length
        return []

    def open(self, trip, *rest):
        if not self.is_lent_whole():
            return [16]
        head = ref.lent_head(trip, rest[:12], *rest[12:])
        number, self.areas = ref.open_areas(head)
        self.tallies = ref.AreaTallies(head) if number == 0 else None
        return [number]

    def add(self, area, times, cls, vehicles, km, *rest):
        record, number = (cls, vehicles, km, rest[:3], rest[3:]), 0
        if times > 0 and not self.is_lent_whole():
            number = 16
        elif times > 0:
            number, self.areas = ref.add_area(self.areas, area, record, times)
            for _ in range(times if self.tallies else 0):
                self.tallies.feed(area, record)
        return [number, self.areas.common]

    def put(self, place, value):
        if place >= LENT:
            self.behind[place - LENT] = value
            return []
        self.tallies = None
        if place == COMMON:
            self.areas = ref.Areas(self.areas.runs, value)
        else:
            area, word = divmod(place, len(WORDS))
            run, (field, *key) = self.areas.runs[area].copy(), WORDS[word]
            if key:
                getattr(run, field)[key[0]] = value
            else:
                setattr(run, field, value)
            self.areas = self.areas.with_run(area, run, self.areas.common)
        return []

    def area_run(self, area):
        number, run = ref.area_run(self.areas, area) if self.is_lent_whole() else (16, ref.Run())
        if self.tallies and self.is_lent_whole():
            assert number == (0 if area in ref.AREAS else 17)
            if number == 0:
                paper = self.tallies.areas[area]
                assert (paper.count, paper.km) == (run.count, run.km)
        return number, run

    def run(self, area):
        number, run = self.area_run(area)
        return [number, *ref.run_numbers(run)]

    def total(self, area, fuel, quantity):
        number, run = self.area_run(area)
        asked, grams = (0, 0) if number else ref.total(run, fuel, quantity)
        if self.tallies and number == asked == 0:
            paper = self.tallies.areas[area]
            allowed = Fraction(1, 2) + Fraction(3, 2) * paper.km[fuel] / 10**7
            assert abs(grams - paper.sums[fuel, quantity]) <= allowed
        return [number, asked, grams]

    def all(self):
        return ref.areas_numbers(self.areas) + self.behind

    line = vectors.Answers.line


class Cases(vectors.Cases):
    """The lines of standard input; numbers changed by hand can be put back."""

    def open(self, trip, temps, first=0, last=0, number=0):
        self.say("open", trip, *temps, first, last, number=number)

    def add(self, area, record, times=1, number=None):
        cls, vehicles, km, shares, speeds = record
        self.say("add", area, times, cls, vehicles, km, *shares, *speeds, number=number)

    def total(self, area, fuel=1, quantity=1, number=None):
        self.say("total", area, fuel, quantity, number=number)

    def put(self, changes):
        for place, value in changes.items():
            self.say("put", place, value)

    def settle(self):
        """The stored totals follow their kinds, which were changed by hand: the numbers put for that."""
        word = {vectors.TOTAL: TOTAL_GRAMS, vectors.TOTAL_REST: TOTAL_RESTS}
        changes = {at(area, word[field] + i): value for area, run in enumerate(self.answers.areas.runs)
                   for field, i, value in vectors.unsettled(run)}
        self.put(changes)
        return changes

    def runs(self, areas=ref.AREAS):
        for area in areas:
            self.say("run", area)

    def totals(self, areas=ref.AREAS):
        """Every total of these areas."""
        for area in areas:
            for fuel in ref.FUELS:
                for quantity in ref.QUANTITIES:
                    self.total(area, fuel, quantity)

    def fill(self, times=300, areas=ref.AREAS):
        """Each of these areas with its own record so many times."""
        for area in areas:
            self.add(area, FLEET[area], times)

    def full(self):
        """18 in every area."""
        for area in ref.AREAS:
            self.add(area, EXAMPLE, number=18)

    def changed(self, number, changes, area=5, settle=True):
        """Numbers changed by hand, the totals with them, asked about, and put back; 16 fits them, or none does (number 0)."""
        before = self.answers.all()
        self.put(changes)
        if settle:
            changes = changes | self.settle()
        self.total(area, number=number)
        # Where an add would be taken, one that 3 fits leaves the areas as they are.
        self.add(area, EXAMPLE if number else BAD[0], number=number or 3)
        self.put({place: before[place] for place in changes})
        self.total(area, number=0)


def at(area, word):
    """The place of a run's number."""
    return len(WORDS) * area + word


def alike(word, value):
    """The same number in all sixteen areas."""
    return {at(area, word): value for area in ref.AREAS}


def begun(c):
    """Areas below, at and beyond 300, some without a record: 15 of the common 200 are used."""
    c.open(77, YEAR)
    for area, times in ((0, 310), (1, 1), (2, 300), (3, 299), (5, 20), (7, 3), (12, 2), (15, 305)):
        c.add(area, FLEET[area], times)


def example(c):
    """Areas that were never opened; then the specification's fleet in one area, and nothing in the others."""
    c.add(0, EXAMPLE, number=16)
    c.total(0, number=16)
    c.say("run", 15, number=16)
    c.open(120, MILD)
    c.add(9, EXAMPLE)
    c.runs((8, 9))
    c.totals((9, 10))
    for fuel, quantity in ((0, 1), (4, 1), (1, 0), (1, 6), (MAX, MAX)):
        c.total(9, fuel, quantity)
    c.say("all")


def one_filled(c):
    """An area to 299, 300, 301 and 500; the others then have 300 each."""
    c.open(120, MILD)
    for times in (299, 1, 1, 199):
        c.add(3, FLEET[3], times, number=0)
        c.say("run", 3)
        c.totals((3,))
    c.add(3, FLEET[3], number=18)
    c.add(3, EXAMPLE, 7, number=18)
    c.say("run", 3)
    for area in ref.AREAS:
        if area != 3:
            c.add(area, FLEET[area], 299, number=0)
            c.add(area, EXAMPLE, number=0)
            c.add(area, EXAMPLE, number=18)
    c.full()
    c.totals((0, 3, 15))
    c.say("all")


def common_used(c):
    """Sixteen areas at 300, and the common 200 used by one, by two, by all."""
    for shares in ({15: 200}, {4: 120, 9: 80}, {area: 13 if area < 8 else 12 for area in ref.AREAS}):
        c.open(63, YEAR)
        c.fill()
        for area, times in shares.items():
            c.add(area, EXAMPLE, times, number=0)
        c.full()
        c.runs((4, 9, 15))
        c.totals((0, 4, 15))
    # More than is left: the last of them is refused, those before it are taken.
    c.open(63, YEAR)
    c.fill()
    c.add(7, EXAMPLE, 150, number=0)
    c.add(8, EXAMPLE, 51, number=18)
    c.add(8, EXAMPLE, 51, number=18)
    c.runs((7, 8))
    c.full()


def own_kept(c):
    """With all 200 used by others an area at 299 takes one more, and one without records takes 300."""
    c.open(41, COLD)
    c.fill(299, (6,))
    c.fill(500, (1,))
    c.add(6, EXAMPLE, number=0)
    c.add(6, EXAMPLE, number=18)
    c.add(11, MOST, 301, number=18)
    c.add(6, FLEET[6], number=18)
    c.runs((1, 6, 11))
    c.totals((1, 6, 11))
    # The same where the use comes between: 17 before, 183 after.
    c.open(41, COLD)
    for area, times in ((2, 317), (6, 299), (3, 483)):
        c.add(area, FLEET[area], times, number=0)
    c.add(6, EXAMPLE, number=0)
    for area in (2, 3, 6):
        c.add(area, EXAMPLE, number=18)
    c.totals((2, 3, 6))


def no_area(c):
    """17 before the record, after 16; no record goes to another area instead."""
    wrong = (16, 17, 31, 256, 259, 2**32, 2**32 + 3, 2**63, 2**64 - 16, MAX)
    begun(c)
    for area in wrong:
        for record in (EXAMPLE, BAD[0], BAD[5], BAD[6]):
            c.add(area, record, number=17)
        c.add(area, EXAMPLE, 400, number=17)
        c.add(area, EXAMPLE, 0, number=0)
        c.total(area, number=17)
    c.runs((0, 3, 15, 16, MAX))
    # A full area beside it, and one out of order.
    c.add(3, EXAMPLE, 186)
    for broken in (0, 1):
        c.put({COMMON: 200 + broken})
        for area in wrong:
            c.add(area, EXAMPLE, number=17 - broken)
            c.add(area, BAD[3], number=17 - broken)
            c.total(area, number=17 - broken)
        c.runs((16, MAX))


def grounds(c):
    """3 to 8 before 18: in an area that takes, in one at its 300 with and without common records left, and in a full one."""
    c.open(88, YEAR)
    for times in (299, 1, 199, 1):
        c.add(2, FLEET[2], times, number=0)
        for record in BAD:
            for area, often in ((2, 1), (2, 3), (14, 1)):
                c.add(area, record, often, number=ref.record_number(record))
    c.add(2, EXAMPLE, number=18)
    c.runs((2, 14))
    # A refused add, then one that is taken, and the other way round.
    for record in BAD:
        c.add(5, record)
        c.add(5, EXAMPLE, number=0)
        c.add(2, record)
        c.add(2, EXAMPLE, number=18)
    c.runs((2, 5))
    c.totals((2, 5))
    # Out of order, whatever the record and the area.
    c.put({at(9, TRIP): 89})
    for record in (EXAMPLE, *BAD):
        for area in (2, 5, 16):
            c.add(area, record, number=16)
    c.runs((2, 5))


def several_wrong(c):
    """Every choice of wrong fields, in a full area and in one that takes."""
    begun(c)
    c.add(3, EXAMPLE, 186)
    for wrong in range(64):
        cls = 8 if wrong & 1 else 4
        vehicles = 1000001 if wrong & 2 else (999001 if wrong & 8 else 1000)
        km = 1000000 if wrong & 4 else 1001
        shares = (40, 40, 19) if wrong & 16 else (40, 40, 20)
        speeds = (20, 131, 100) if wrong & 32 else (20, 60, 100)
        for area in (3, 4):
            c.add(area, (cls, vehicles, km, shares, speeds))
    c.runs((3, 4))


def openings(c):
    """1, then 2; refused, every number is 0, also where areas were in use, and then 16 from every call."""
    for number, trip, temps in ((1, 9, MILD), (2, 120, [401] + MILD[1:]), (1, 201, MILD), (2, 120, MILD[1:] + [-301]), (1, 9, [401] * 12),
                                (1, 0, [0] * 12), (1, MAX, COLD)):
        begun(c)
        c.open(trip, temps, number=number)
        c.runs((0, 15))
        for area in (0, 7, 15, 16):
            c.add(area, EXAMPLE, number=16)
            c.add(area, BAD[0], number=16)
        c.total(0, number=16)
        # Zeros, and what a hand wrote into them is gone after the next.
        if trip in (9, 120):
            c.put({at(4, GRAMS + 7): 5, at(15, RESTS + 59): MAX, COMMON: 3})
            c.open(trip, temps, number=number)
            c.say("all")
    # Limits that are met, each over areas in use.
    for trip, temps in ((10, MILD), (200, COLD), (120, [400] * 12), (11, [-300] + [400] * 11)):
        c.open(trip, temps)
        c.runs((0, 15))
        c.fill(17)
        c.totals((0, 3, 12))
        c.put({at(i, RESTS + 3 * i): MAX - i for i in ref.AREAS})
    c.open(120, MILD)
    c.say("all")


def lengths(c):
    """Another length than 2,737: 16 first in every call, and no number changes, neither lent nor behind."""
    begun(c)
    c.put({LENT: 4711, LENT + 1: MAX, NUMBERS - 1: 1815})
    c.say("all")
    for length in (0, 1, 171, 2257, LENT - 1, LENT + 1, NUMBERS):
        c.say("lend", length)
        c.open(120, MILD, number=16)
        c.open(9, [401] * 12, number=16)
        for area in (0, 4, 15, 16, MAX):
            c.add(area, EXAMPLE, number=16)
            c.add(area, BAD[0], 2, number=16)
            c.total(area, number=16)
        c.add(4, EXAMPLE, 0, number=0)
        c.runs((4, 16))
        # Lent whole between, the areas are in order and take a record.
        c.say("lend", LENT)
        c.total(4, number=0)
        c.add(4, EXAMPLE, number=0)
    c.say("all")
    # Areas out of order, and of zeros.
    c.put({COMMON: 0})
    c.say("lend", LENT - 1)
    c.open(9, MILD, number=16)
    c.add(16, BAD[0], number=16)
    c.total(16, number=16)
    c.say("lend", LENT)
    c.open(9, MILD, number=1)
    c.say("lend", LENT + 1)
    c.open(120, MILD, number=16)
    c.add(0, EXAMPLE, number=16)
    c.total(0, number=16)
    c.say("lend", LENT)
    c.say("all")


def heads(c):
    """One head for all: L or an X of one area another, and ranges where all are alike."""
    begun(c)
    x = [c.answers.all()[at(0, X + i)] for i in range(16)]
    for area in (0, 1, 7, 14, 15):
        for trip in (0, 10, 76, 78, 200, MAX):
            c.changed(16, {at(area, TRIP): trip})
    for area in (0, 4, 15):
        for i in range(16):
            c.changed(16, {at(area, X + i): x[i] + 1})
    for i in range(16):
        area = (5 * i + 3) % 16
        c.changed(16, {at(area, X + i): x[i] - 1 if x[i] else MAX})
        # All but one alike.
        c.changed(16, {place: x[i] + 1 for place in alike(X + i, 0) if place != at(area, X + i)})
    # Two values exchanged within an area, and between two.
    c.changed(16, {at(6, X + 2): x[4], at(6, X + 4): x[2]})
    c.changed(16, {at(6, X + 15): x[0], at(13, X): x[15]})
    for trip in (0, 9, 201, MAX):
        c.changed(16, alike(TRIP, trip))
    for trip in (10, 200):
        c.changed(0, alike(TRIP, trip))
    for i in (0, 3, 15):
        c.changed(16, alike(X + i, 4900000001))
        c.changed(0, alike(X + i, 4900000000))
    c.changed(16, alike(X + 15, MAX))
    # In order by hand, then an add: the X that was put is used.
    c.put({**alike(X, 4900000000), **alike(X + 15, 0), **alike(TRIP, 200)})
    for record in ((2, *EXAMPLE[1:]), (3, *EXAMPLE[1:])):
        c.add(8, record, number=0)
        c.say("run", 8)


def counts(c):
    """Counts and the common use: what is beyond 300 in all is the common use, and at most 200."""
    begun(c)
    # Below 300 a count is free, as long as the sums fit it.
    for area, count in ((4, 1), (4, 300), (1, 2), (1, 299), (3, 300), (5, 19)):
        c.changed(0, {at(area, COUNT): count}, area)
    for area, count in ((4, 301), (3, 301), (0, 309), (0, 311), (2, 301), (1, 0), (15, 304), (15, 0)):
        c.changed(16, {at(area, COUNT): count}, area)
    for common in (0, 14, 16, 200, 201, 2**32 + 15, 2**63, MAX):
        c.changed(16, {COMMON: common})
    # Both changed so that they fit, and not.
    for area, count, common in ((4, 301, 16), (0, 311, 16), (2, 485, 200), (4, 485, 200), (15, 490, 200), (3, 400, 115)):
        c.changed(0, {at(area, COUNT): count, COMMON: common}, area)
    for area, count, common in ((2, 486, 201), (15, 491, 201), (4, 486, 200), (4, 301, 15), (4, 301, 17), (4, 5000, 4715), (4, 5001, 4716),
                                (4, 5001, 15), (4, MAX, (MAX - 300 + 15) % 2**64), (4, 2**32, 2**32 - 300 + 15)):
        c.changed(16, {at(area, COUNT): count, COMMON: common}, area)
    # 201 in several areas, and what would fit if it wrapped at 2^64 or 2^32.
    c.changed(16, {at(area, COUNT): 313 for area in ref.AREAS} | {COMMON: 208})
    c.changed(0, {at(area, COUNT): 312 for area in ref.AREAS} | {COMMON: 192})
    c.changed(0, {at(area, COUNT): 313 if area < 8 else 312 for area in ref.AREAS} | {COMMON: 200})
    c.changed(16, {at(area, COUNT): 313 if area < 9 else 312 for area in ref.AREAS} | {COMMON: 201})
    c.changed(16, {at(area, COUNT): 313 if area < 9 else 312 for area in ref.AREAS} | {COMMON: 200})
    for half in (2**63, 2**31):
        c.changed(16, {at(4, COUNT): half + 300, at(6, COUNT): half + 300})
    # By hand to 200 and 199 in use: the next add is refused, or taken and the last.
    begun(c)
    c.put({at(6, COUNT): 485, COMMON: 200})
    for area, number in ((6, 18), (2, 18), (3, 0), (4, 0), (3, 18)):
        c.add(area, EXAMPLE, number=number)
    c.put({at(6, COUNT): 484, COMMON: 199})
    for area, number in ((2, 0), (2, 18), (6, 18)):
        c.add(area, EXAMPLE, number=number)
    c.runs((2, 3, 6))
    # So many adds of one record are the same as one add so many times, up to where 18 comes and behind it.
    c.put({at(6, COUNT): 480, COMMON: 196, at(9, COUNT): 297})
    runs = []
    for times in ([1] * 9, [9], [2, 0, 7]):
        c.put({at(8, word): value for word, value in enumerate(c.answers.all()[at(9, TRIP):at(10, TRIP)])} | {COMMON: 196})
        for n in times:
            c.add(8, FLEET[0], n)
        runs.append(ref.run_numbers(c.answers.areas.runs[8]))
    assert runs[0] == runs[1] == runs[2]
    c.say("run", 8)


def sums(c):
    """Kilometres, grams and rests of one area at their limits and over; in an area without records nothing but 0 fits."""
    begun(c)
    for area in (0, 5, 15):
        count = c.answers.all()[at(area, COUNT)]
        for i in range(3):
            c.changed(0, {at(area, KM + i): count * 10**9}, area)
            for value in (count * 10**9 + 1, 2**63, MAX):
                c.changed(16, {at(area, KM + i): value}, area)
        for i in (0, 19, 33, 59):
            grams, rest = at(area, GRAMS + i), at(area, RESTS + i)
            c.changed(0, {rest: 999999999}, area)
            c.changed(0, {grams: count * 10**12, rest: 0}, area)
            c.changed(0, {grams: count * 10**12 - 1, rest: 999999999}, area)
            c.changed(16, {grams: count * 10**12, rest: 1}, area)
            for value in (count * 10**12 + 1, 2**63, MAX):
                c.changed(16, {grams: value, rest: 0}, area)
            for value in (10**9, 2**30, 2**32, 2**63, MAX - 73741823, MAX):
                c.changed(16, {rest: value}, area)
    # Every place once, in one area after the other.
    for i in range(60):
        area = i % 16
        count = c.answers.all()[at(area, COUNT)]
        c.changed(16, {at(area, RESTS + i): 10**9}, area)
        c.changed(16, {at(area, GRAMS + i): count * 10**12 + 1}, area)
    # Several at once, whose sum would wrap at 2^64 or fit the limit of the area.
    for value in (2**63, 2**62, 2**64 - 10**9):
        c.changed(16, {at(5, GRAMS + i): value for i in range(0, 60, 15)})
        c.changed(16, {at(5, RESTS + i): value for i in range(0, 60, 15)})
    c.changed(0, {at(5, word): 20 * 10**12 if word < RESTS else 0 for word in range(GRAMS, RESTS + 60)})
    # Areas without records.
    for area in (4, 14):
        for word in (KM, KM + 1, KM + 2, GRAMS, GRAMS + 1, GRAMS + 38, GRAMS + 59, RESTS, RESTS + 21, RESTS + 59):
            for value in (1, MAX):
                c.changed(16, {at(area, word): value}, area)
        c.changed(16, {at(area, GRAMS + 8): 2**63, at(area, RESTS + 8): 2**63}, area)
    # A record less than its sums need.
    c.put({at(2, KM + i): 300 * 10**9 for i in range(3)})
    c.changed(16, {at(2, COUNT): 299}, 2)
    c.say("all")
    # At its limits an area takes one more and is still in order.
    c.put({at(5, word): 20 * 10**12 if word < RESTS else 0 for word in range(GRAMS, RESTS + 60)})
    c.put({at(5, KM + i): 20 * 10**9 for i in range(3)})
    c.settle()
    for cls in (6, 1, 4):
        c.add(5, (cls, *MOST[1:]), number=0)
    c.runs((5, 16))


def totals(c):
    """A stored total of one area broken, whichever area is asked: each total in every way, and in each of the sixteen areas."""
    begun(c)
    # an area with grams and rests in every place, PM of gasoline and LPG too
    for rests in (vectors.WHOLE_GRAMS, vectors.WITH_REST):
        c.put({at(5, GRAMS + i): 10**11 + 71 * i for i in range(60)})
        c.put({at(5, RESTS + i): rests[i // 4 % len(rests)][i % 4] for i in range(60)})
        c.settle()
        c.say("run", 5, number=0)
        for i, place in enumerate(TOTALS):
            for grams, rest in vectors.broken(c.answers.areas.runs[5], place):
                c.changed(16, {at(5, TOTAL_GRAMS + i): grams, at(5, TOTAL_RESTS + i): rest}, (5, 0, 4)[i % 3], settle=False)
    c.totals((5,))
    # every area, also those without a record, whose totals are 0
    for area in ref.AREAS:
        for i in range(area % 3, 15, 3):
            now = [c.answers.all()[at(area, word + i)] for word in (TOTAL_GRAMS, TOTAL_RESTS)]
            for word, value in ((TOTAL_GRAMS, now[0] + 1), (TOTAL_RESTS, now[1] + 1)):
                c.changed(16, {at(area, word + i): value}, (area + 9 * i) % 16, settle=False)
    for area in (4, 7, 15):
        for i in (0, 3, 14):
            for value in (10**9, 2**32, 2**63, MAX):
                c.changed(16, {at(area, TOTAL_RESTS + i): value}, settle=False)
                c.changed(16, {at(area, TOTAL_GRAMS + i): value}, settle=False)
    # totals of two areas exchanged, and one as much above as the other below
    for one, other in ((0, 15), (2, 3)):
        all_numbers = c.answers.all()
        exchanged = {at(a, word + i): all_numbers[at(b, word + i)] for a, b in ((one, other), (other, one))
                     for word in (TOTAL_GRAMS, TOTAL_RESTS) for i in range(15)}
        c.changed(16, exchanged, settle=False)
        for i in (0, 5, 10):
            c.changed(16, {at(one, TOTAL_GRAMS + i): all_numbers[at(one, TOTAL_GRAMS + i)] + 1,
                           at(other, TOTAL_GRAMS + i): (all_numbers[at(other, TOTAL_GRAMS + i)] - 1) % 2**64}, settle=False)
    # 16 before 17, before the record and before 18; then put back, and the totals rise with the next records
    c.put({at(9, TOTAL_RESTS + 7): 1})
    for area in (2, 9, 16, MAX):
        for record in (EXAMPLE, BAD[0], BAD[5]):
            c.add(area, record, number=16)
        c.say("run", area, number=16)
    c.settle()
    for cls in range(1, 8):
        c.add(5, (cls, 1, 1, (40, 40, 20), (20 + cls, 60, 100)), number=0)
        c.say("run", 5, number=0)
    c.totals((5, 9))


def largest(c):
    """The largest sums that adds can give: 500 records in one area, 300 in the others; and the tight list in one of them."""
    c.open(10, COLD)
    c.add(12, MOST, 500, number=0)
    for area in ref.AREAS:
        if area != 12:
            c.add(area, (area % 7 + 1, *MOST[1:]), 300, number=0)
    c.full()
    c.runs((4, 12))
    c.totals((0, 3, 5, 12))
    c.open(*tight_list.HEAD)
    for area, times in ((0, 1), (7, 2), (15, 500), (1, 300)):
        c.add(area, tight_list.RECORD, times, number=0)
    c.totals((0, 1, 7, 15))


def loops(c):
    """Loops over all sixteen areas, one record at a time and several, taken and refused ones between."""
    c.open(58, YEAR)
    for turn in range(3):
        for area in range(18):
            c.add(area, FLEET[(area + turn) % 16])
    for times in (2, 3, 5, 90, 0, 195, 13, 4):
        for area in reversed(ref.AREAS):
            c.add(area, FLEET[(area * times) % 16], times)
            c.add(area, BAD[times % 9], times)
    c.full()
    c.runs((0, 2, 3, 4, 15))
    c.totals((0, 1, 2, 13, 14, 15))


def anything(c):
    """Heads, areas and records at random, damaged ones among them, some until no area takes any more."""
    rng = random.Random(2025)
    for turn in range(8):
        c.open(rng.randint(10, 200), [rng.randint(-300, 400) for _ in range(12)])
        few = rng.sample(ref.AREAS, 4)
        for _ in range(60):
            area = rng.choice(few) if turn % 2 else rng.randrange(18)
            record = rng.choice(BAD) if rng.random() < 0.1 else some_record(rng)
            c.add(area, record, rng.choice((1, 1, 2, 7, 40, 150) if turn > 4 else (1, 1, 2)))
        c.runs(rng.sample(ref.AREAS, 2))
        c.totals((rng.choice(few), rng.randrange(16)))
    c.say("all")


def dated(c):
    """Areas under dated heads: 16 for another length, 1, 2, 19, 20, and zeros where refused; one day, a season, whole years."""
    refused = [(19, 120, YEAR, 20260515, 20260631), (19, 120, YEAR, 0, 20260515), (19, 120, YEAR, 20260515, 0), (19, 120, YEAR, MAX, 1),
               (19, 120, YEAR, 21000229, 21000301), (19, 120, YEAR, 19791231, 19800101), (20, 120, YEAR, 20260516, 20260515),
               (20, 120, YEAR, 20261231, 20270101), (1, 9, YEAR, 20260631, 0), (2, 120, [401] + YEAR[1:], 20260631, 20260515),
               (2, 120, YEAR[1:] + [-301], 20260516, 20260515)]
    for number, trip, temps, first, last in refused:
        begun(c)
        c.open(trip, temps, first, last, number=number)
        c.runs((0, 15))
        c.add(7, EXAMPLE, number=16)
        c.total(7, number=16)
    begun(c)
    c.say("lend", LENT - 1)
    for first, last in ((20260515, 20261020), (20260515, 0), (20260516, 20260515)):
        c.open(120, YEAR, first, last, number=16)
    c.say("lend", LENT)
    c.say("run", 2, number=0)
    for first, last in ((20000229, 20000229), (20260515, 20261020), (20260101, 20261231), (20000101, 20001231), (0, 0)):
        c.open(120, YEAR, first, last)
        c.fill(17)
        c.add(6, FLEET[6], 283)
        c.runs((2, 6))
        c.totals((0, 2, 6))
    c.add(6, EXAMPLE, 201, number=18)
    # an X by the days and not by twelfths is another head's
    x = [ref.open_run((120, YEAR, *days))[1].x[1, ref.CO] for days in ((), (20260101, 20261231))]
    assert x[0] != x[1]
    c.changed(16, {at(4, X): x[1]})
    c.changed(0, alike(X, x[1]))
    # 72/100 once, under a dated head; and the tight list
    for head in (vectors.TWICE_IS_MORE[1], vectors.TWICE_IS_LESS[1], tight_list.DATED_HEAD):
        c.open(*head)
        for area, cls in ((3, 3), (2, 2), (6, 6)):
            c.add(area, (cls, *MOST[1:]), 300, number=0)
        c.runs((3,))
        c.totals((2, 3, 6))
    rng = random.Random(2027)
    for _ in range(4):
        c.open(rng.randint(10, 200), [rng.randint(-300, 400) for _ in range(12)], *some_days(rng))
        for _ in range(40):
            c.add(rng.randrange(17), rng.choice(BAD) if rng.random() < 0.1 else some_record(rng), rng.choice((1, 1, 2, 7)))
        area = rng.randrange(16)
        c.runs((area,))
        c.totals((area, (area + 3) % 16))


def cases():
    """Every line of standard input, and what each is answered."""
    c = Cases(Answers())
    for part in (example, one_filled, common_used, own_kept, no_area, grounds, several_wrong, openings, lengths, heads, counts, sums,
                 largest, loops, anything, dated, totals):
        part(c)
    return c


def main():
    vectors.write_cases("area_vectors", cases())


if __name__ == "__main__":
    main()
