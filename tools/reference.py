"""The inventory in exact whole numbers, written from the customer's request alone: "COPERT II inventory core", its
document 01, and the jobs of its document 02 that have landed (1 to 7), of which docs/SPECIFICATION.md says the same in our
own words. Nothing here comes from the Rattle code. Lists of records, and the number and line beside a text, are from
SPECIFICATION, "Lists of records" and "Report"; the order of the numbers of lent areas is from that page too.

Each call is one function, and a refusal is its number in the table of refusals, 0 for none. The tallies at the end have
the exact, never rounded sums that SPECIFICATION, "Accuracy", measures against.

A head is (L, twelve T), and with dates (L, twelve T, first day, last day), the days as they are written: 15 May 2026 is
20260515.
"""
import re
from collections import Counter
from fractions import Fraction

FUELS = (1, 2, 3)
QUANTITIES = (1, 2, 3, 4, 5)
NAMES = {1: "CO", 2: "NOX", 3: "VOC", 4: "PM", 5: "FC"}
KINDS = ("urban", "rural", "highway", "cold")
CO, NOX, VOC, PM, FC = QUANTITIES

# The fuel of each class.
FUEL = {1: 1, 2: 1, 3: 1, 4: 3, 5: 1, 6: 2, 7: 2}

# a, b, c of each curve, by class and quantity, as the request prints them. FC of classes 6 and 7:
# Table V.1.6-1 of source document 002, "0,02330V^2 - 2,5646V + 136,22" and
# "0,01530V^2 - 2,1810V + 152,74", times 10,000,000.
CURVES = {
    (1, CO): (110400, -15132000, 577890000),
    (1, NOX): (900, -79000, 19391000),
    (1, VOC): (6770, -1170000, 54734000),
    (1, FC): (187000, -26974000, 1567700000),
    (2, CO): (6000, -475000, 22195000),
    (2, NOX): (575, -54800, 4880000),
    (2, VOC): (700, -67000, 2406000),
    (2, FC): (187000, -26974000, 1567700000),
    (4, CO): (11000, -1165000, 42098000),
    (4, NOX): (400, -63000, 5278000),
    (4, VOC): (1000, -166000, 7431000),
    (4, FC): (72000, -9250000, 746250000),
    (6, CO): (2000, -256000, 18281000),
    (6, NOX): (1400, -159200, 14921000),
    (6, VOC): (660, -113000, 6024000),
    (6, PM): (125, -5770, 2880000),
    (6, FC): (233000, -25646000, 1362200000),
    (7, CO): (2000, -313000, 17838000),
    (7, NOX): (1270, -167400, 9037000),
    (7, VOC): (281, -65000, 4505000),
    (7, PM): (400, -55000, 2687000),
    (7, FC): (153000, -21810000, 1527400000),
}

# Class 3 is class 2 in these hundredths.
CLASS_3 = {CO: 70, NOX: 44, VOC: 44, PM: 100, FC: 100}

# Class 5 by road: urban, rural, highway, at any speed.
CLASS_5 = {
    CO: (207000000, 75000000, 87000000),
    NOX: (3000000, 10000000, 7500000),
    VOC: (154000000, 72000000, 59000000),
    PM: (0, 0, 0),
    FC: (1115000000, 660000000, 569000000),
}

# p and q of the ratio cold to hot, by fuel and quantity; no entry is "none".
RATIOS = {
    (1, CO): (37000, 90), (1, NOX): (11400, 6), (1, VOC): (28000, 60), (1, FC): (14700, 9),
    (2, CO): (19000, 30), (2, NOX): (13000, 13), (2, VOC): (31000, 90), (2, PM): (31000, 100),
    (2, FC): (13400, 8),
    (3, CO): (36600, 90), (3, NOX): (9800, 6), (3, VOC): (22400, 60), (3, FC): (14700, 9),
}

# The values X of a run in their order: one by fuel and quantity, and behind these fifteen that of CO of class 3.
CLASS_3_CO = "CO of class 3"
X_NAMES = [(f, q) for f in FUELS for q in QUANTITIES] + [CLASS_3_CO]


class Run:
    """L, X by X_NAMES, the count, kilometres by fuel, grams and rests by (fuel, quantity, kind), and since job 7 those of the
    totals by (fuel, quantity)."""

    def __init__(self):
        self.trip = 0
        self.x = {name: 0 for name in X_NAMES}
        self.count = 0
        self.km = {f: 0 for f in FUELS}
        self.grams = {(f, q, k): 0 for f in FUELS for q in QUANTITIES for k in KINDS}
        self.rests = dict(self.grams)
        self.total_grams = {(f, q): 0 for f in FUELS for q in QUANTITIES}
        self.total_rests = dict(self.total_grams)

    def copy(self):
        """The same run in a place of its own."""
        other = Run()
        other.trip, other.x, other.count = self.trip, dict(self.x), self.count
        other.km, other.grams, other.rests = dict(self.km), dict(self.grams), dict(self.rests)
        other.total_grams, other.total_rests = dict(self.total_grams), dict(self.total_rests)
        return other

    def sum(self, fuel, quantity, kind):
        """A sum in billionths of a gram."""
        return self.grams[fuel, quantity, kind] * 10**9 + self.rests[fuel, quantity, kind]

    def exact_total(self, fuel, quantity):
        """The four kinds together in billionths of a gram."""
        return sum(self.sum(fuel, quantity, kind) for kind in KINDS)

    def stored_total(self, fuel, quantity):
        """What the run stores as their total, in billionths of a gram."""
        return self.total_grams[fuel, quantity] * 10**9 + self.total_rests[fuel, quantity]


# Job 3: areas 0 to 15, records that each has for itself, and records for whoever comes first.
AREAS = range(16)
OWN_RECORDS = 300
COMMON_RECORDS = 200


class Areas:
    """The runs of the areas, and the common use: the records beyond 300 of all of them together."""

    def __init__(self, runs=None, common=0):
        self.runs = runs or [Run() for _ in AREAS]
        self.common = common

    def with_run(self, area, run, common):
        """The same areas but for one run and the common use."""
        return Areas([*self.runs[:area], run, *self.runs[area + 1:]], common)


# Job 5: the years of dated heads.
YEARS = range(1980, 2101)


def leap_days(year):
    """The 29ths of February up to the end of a year of the Gregorian calendar: every fourth year has one, of the hundredth ones
    only every fourth."""
    return year // 4 - year // 100 + year // 400


def all_days():
    """Every day of these years as it is written, one after the other."""
    for year in YEARS:
        february = 28 + leap_days(year) - leap_days(year - 1)
        for month, length in enumerate((31, february, 31, 30, 31, 30, 31, 31, 30, 31, 30, 31), 1):
            yield from (year * 10000 + month * 100 + day for day in range(1, length + 1))


CALENDAR = list(all_days())
# The place of each day in the calendar; what is not in it is no day.
PLACE = {day: place for place, day in enumerate(CALENDAR)}


def month_weights(days):
    """The weight of each month and their sum: alike without dates, else the days of the period in each, counted one by one."""
    if not days:
        return [1] * 12, 12
    period = CALENDAR[PLACE[days[0]]:PLACE[days[1]] + 1]
    in_month = Counter(day // 100 % 100 for day in period)
    return [in_month[month] for month in range(1, 13)], len(period)


def lent_head(trip, temps, first_day, last_day):
    """A head as C and the test programs hand it in: days 0 and 0 are none, anything else is dated."""
    return (trip, temps) if (first_day, last_day) == (0, 0) else (trip, temps, first_day, last_day)


def half_up(value):
    """A Fraction (not negative) to whole numbers, half up."""
    return (2 * value.numerator + value.denominator) // (2 * value.denominator)


def hot_factor(cls, quantity, road, speed):
    """E in units of 0.0000001 g/km; road is 0 urban, 1 rural, 2 highway."""
    if cls == 5:
        return CLASS_5[quantity][road]
    if cls == 3:
        e = Fraction(hot_factor(2, quantity, road, speed) * CLASS_3[quantity], 100)
        assert e.denominator == 1
        return e.numerator
    a, b, c = CURVES.get((cls, quantity), (0, 0, 0))
    return a * speed**2 + b * speed + c


def cold_share(trip, t):
    """B."""
    return 64700000 - 250000 * trip - (97400 - 385 * trip) * t


def cold_excess(fuel, quantity, t):
    """Q."""
    if (fuel, quantity) not in RATIOS:
        return 0
    p, q = RATIOS[fuel, quantity]
    return max(0, p - q * t - 10000)


def x_name(cls, quantity):
    """Which X a class and a quantity use."""
    return CLASS_3_CO if (cls, quantity) == (3, CO) else (FUEL[cls], quantity)


def unrounded_x(head):
    """The values X of a head before their rounding, by X_NAMES."""
    trip, temps, *days = head
    weights, whole = month_weights(days)
    months = list(zip(weights, temps))
    sums = {(f, q): sum(w * cold_share(trip, t) * cold_excess(f, q, t) for w, t in months) for f in FUELS for q in QUANTITIES}
    x = {place: Fraction(s, 1000 * whole) for place, s in sums.items()}
    x[CLASS_3_CO] = Fraction(sums[FUEL[3], CO] * 72, 100000 * whole)
    return x


def rounded_x(head):
    """The values X of a head, by X_NAMES."""
    return {name: half_up(x) for name, x in unrounded_x(head).items()}


def cold_factor(e, x):
    """The cold factor of E(urban speed) and X."""
    return half_up(Fraction(e * x, 10**9))


def in_order(run):
    """Whether a run is in order."""
    return (10 <= run.trip <= 200
            and all(x <= 4900000000 for x in run.x.values())
            and run.count <= 5000
            and all(rest < 10**9 for rest in run.rests.values())
            and all(run.sum(*place) <= 10**12 * 10**9 * run.count for place in run.grams)
            and all(km <= 10**9 * run.count for km in run.km.values())
            and all(rest < 10**9 for rest in run.total_rests.values())
            and all(run.stored_total(*place) == run.exact_total(*place) for place in run.total_grams))


def first(grounds):
    """The first number whose condition fits, else 0."""
    return next((number for number, fits in grounds if fits), 0)


def head_number(head):
    """1, 2, and of a dated head 19, 20. Days as they are written are in the order of the calendar."""
    trip, temps, *days = head
    return first([(1, not 10 <= trip <= 200),
                  (2, any(not -300 <= t <= 400 for t in temps)),
                  (19, any(day not in PLACE for day in days)),
                  (20, days != sorted(days) or len({day // 10000 for day in days}) > 1)])


def open_run(head):
    """The number and the run (of zeros where refused)."""
    number, run = head_number(head), Run()
    if number == 0:
        run.trip = head[0]
        run.x = rounded_x(head)
    return number, run


def record_number(record):
    """3 to 8, of a record = (class, vehicles, km, shares, speeds)."""
    cls, vehicles, km, shares, speeds = record
    return first([(3, not 1 <= cls <= 7),
                  (4, not 1 <= vehicles <= 1000000),
                  (5, not 1 <= km <= 999999),
                  (6, vehicles * km > 10**9),
                  (7, any(s > 100 for s in shares) or sum(shares) != 100),
                  (8, any(not 10 <= v <= 130 for v in speeds))])


def add(run, record, times=1):
    """The number of the last of so many adds of one record, at least one, and the run after them, as it came where all are
    refused. A refused add changes nothing, so the next is refused alike."""
    number = first([(16, not in_order(run)), (record_number(record), record_number(record) != 0),
                    (9, run.count >= 5000)])
    if number != 0:
        return number, run
    taken = min(times, 5000 - run.count)
    after = with_record(run, record, taken)
    # Sums and limits rise evenly, so a run in order at both ends was so before each add between them: 16 fitted none.
    assert times == 1 or in_order(after)
    return 0 if taken == times else 9, after


def with_record(run, record, times):
    """The run with a record that is taken so many times; each time adds the same to its sums."""
    cls, vehicles, km, shares, speeds = record
    fuel, k, new = FUEL[cls], vehicles * km, run.copy()
    for q in QUANTITIES:
        e = [hot_factor(cls, q, road, speeds[road]) for road in range(3)]
        cold = 0 if cls == 5 else cold_factor(e[0], run.x[x_name(cls, q)])
        parts = [k * shares[road] * e[road] for road in range(3)] + [k * cold * 100]
        for kind, part in zip(KINDS, parts):
            place = fuel, q, kind
            new.grams[place], new.rests[place] = divmod(run.sum(*place) + times * part, 10**9)
        place = fuel, q
        new.total_grams[place], new.total_rests[place] = divmod(run.stored_total(*place) + times * sum(parts), 10**9)
    new.km[fuel] += times * k
    new.count += times
    return new


def add_list(head, numbers):
    """The number (10 where the numbers are not nine a record, then the head's), how many records were taken, the place (from 1) and
    the number of the first refused one (0 and 0 for none), and the run."""
    if len(numbers) % 9 != 0:
        return 10, 0, 0, 0, Run()
    number, run = open_run(head)
    if number != 0:
        return number, 0, 0, 0, run
    taken, first_refused = 0, (0, 0)
    for place in range(1, len(numbers) // 9 + 1):
        cls, vehicles, km, *roads = numbers[9 * place - 9:9 * place]
        number, run = add(run, (cls, vehicles, km, tuple(roads[:3]), tuple(roads[3:])))
        if number == 0:
            taken += 1
        elif first_refused == (0, 0):
            first_refused = place, number
    return 0, taken, *first_refused, run


def same_head(run, other):
    """Whether two runs agree in all that a run has of its head: L and every X."""
    return (run.trip, run.x) == (other.trip, other.x)


def join(run, other):
    """The number and the run of both together, or the first as it came where refused."""
    number = first([(16, not (in_order(run) and in_order(other))), (21, not same_head(run, other)),
                    (22, run.count + other.count > 5000)])
    if number != 0:
        return number, run
    new = run.copy()
    new.count += other.count
    for fuel in FUELS:
        new.km[fuel] += other.km[fuel]
    for place in new.grams:
        new.grams[place], new.rests[place] = divmod(run.sum(*place) + other.sum(*place), 10**9)
    for place in new.total_grams:
        new.total_grams[place], new.total_rests[place] = divmod(run.stored_total(*place) + other.stored_total(*place), 10**9)
    return 0, new


def beyond_own(counts):
    """The records beyond 300, summed over the areas."""
    return sum(max(0, count - OWN_RECORDS) for count in counts)


def is_full(count, common):
    """18: an area with this count, where so many of the common records are used."""
    return count >= OWN_RECORDS and common >= COMMON_RECORDS


def areas_in_order(areas):
    """Whether areas are in order: every run, one head, and the common use."""
    return (all(in_order(run) for run in areas.runs)
            and all(same_head(run, areas.runs[0]) for run in areas.runs)
            and areas.common == beyond_own(run.count for run in areas.runs)
            and areas.common <= COMMON_RECORDS)


def open_areas(head):
    """The number and sixteen fresh areas under one head (of zeros where refused)."""
    number, run = open_run(head)
    return number, Areas([run.copy() for _ in AREAS])


def add_area(areas, area, record, times=1):
    """The number of the last of so many adds of one record to an area, at least one, and the areas after them. A refused add
    changes nothing, so the next is refused alike."""
    number = first([(16, not areas_in_order(areas)), (17, area not in AREAS), (record_number(record), record_number(record) != 0)])
    if number != 0:
        return number, areas
    run, common, taken = areas.runs[area], areas.common, 0
    while taken < times and not is_full(run.count + taken, common):
        common += run.count + taken >= OWN_RECORDS
        taken += 1
    after = areas.with_run(area, with_record(run, record, taken), common)
    # Sums and limits rise evenly, so areas in order at both ends were so before each add between them: 16 fitted none.
    assert times == 1 or areas_in_order(after)
    return 0 if taken == times else 18, after


def area_run(areas, area):
    """The number and the run of an area (of zeros where refused)."""
    number = first([(16, not areas_in_order(areas)), (17, area not in AREAS)])
    return number, Run() if number else areas.runs[area]


def run_numbers(run):
    """The 171 numbers of a run as it is lent: L, the values X, the count, kilometres, grams, rests, grams and rests of totals."""
    return [run.trip, *run.x.values(), run.count, *run.km.values(), *run.grams.values(), *run.rests.values(),
            *run.total_grams.values(), *run.total_rests.values()]


def areas_numbers(areas):
    """The 2,737 numbers of areas as they are lent: run by run, then the common use."""
    return [n for run in areas.runs for n in run_numbers(run)] + [areas.common]


def question_number(run, fuel, quantity):
    """16, then 11."""
    return first([(16, not in_order(run)), (11, fuel not in FUELS or quantity not in QUANTITIES)])


def kind_total(run, fuel, quantity, kind):
    """The number and a printed kind."""
    number = question_number(run, fuel, quantity)
    return (number, 0) if number else (0, half_up(Fraction(run.sum(fuel, quantity, kind), 10**9)))


def total(run, fuel, quantity):
    """The number and a printed total."""
    number = question_number(run, fuel, quantity)
    if number:
        return number, 0
    return 0, half_up(Fraction(run.exact_total(fuel, quantity), 10**9))


def digits_worked(sold, f):
    """The least n from 0 to 12 with S × 10^n a multiple of F, or 12 if there is none."""
    return next((n for n in range(13) if sold * 10**n % f == 0), 12)


def balance(run, fuel, quantity, sold):
    """The number, k, the digits worked and the balanced total; sold is S in tonnes."""
    number = question_number(run, fuel, quantity)
    if number:
        return number, 0, 0, 0
    f = total(run, fuel, FC)[1]
    if f == 0:
        return 12, 0, 0, 0
    k = half_up(Fraction(sold * 10**12, f))
    if sold > 999999999 or not 500000 <= k <= 1500000:
        return 13, 0, 0, 0
    return 0, k, digits_worked(sold, f), half_up(Fraction(total(run, fuel, quantity)[1] * k, 10**6))


def report_text(run):
    """The report of a run in order."""
    lines = []
    for f in FUELS:
        for q in QUANTITIES:
            grams = [kind_total(run, f, q, kind)[1] for kind in KINDS] + [total(run, f, q)[1]]
            if grams[-1] != 0:
                lines.append("%2d%4s" % (f, NAMES[q]) + "".join("%18d" % g for g in grams) + "\n")
    return "".join(lines).encode()


def write_report(run, buffer):
    """The number, the length in bytes, and the buffer afterwards."""
    if not in_order(run):
        return 16, 0, buffer
    text = report_text(run)
    if len(buffer) < len(text):
        return 14, 0, buffer
    return 0, len(text), text + buffer[len(text):]


def from_fuel(run, fuel, content, most, grams):
    """The number and whole grams; `grams` gives the exact ones of F, the printed FC total."""
    number = first([(16, not in_order(run)), (11, fuel not in FUELS), (15, content > most)])
    return (number, 0) if number else (0, half_up(grams(total(run, fuel, FC)[1])))


def co2(run, fuel, hydrogen):
    """CO2; hydrogen is R, per carbon in thousandths."""
    return from_fuel(run, fuel, hydrogen, 4000, lambda f: Fraction(44011000 * f, 12011000 + 1008 * hydrogen))


def so2(run, fuel, sulphur):
    """SO2; sulphur is s, in ppm by mass."""
    return from_fuel(run, fuel, sulphur, 10000, lambda f: Fraction(2 * f * sulphur, 10**6))


def lead(run, fuel, content):
    """Lead; content is l, in ppm by mass."""
    return from_fuel(run, fuel, content, 1000, lambda f: Fraction(3 * f * content, 4 * 10**6))


def exact_float(grams):
    """The float that is exactly the whole grams."""
    x = float(grams)
    assert x == grams
    return x


def row(run, fuel, quantity):
    """The number and the map's row of four floats, no float where refused."""
    number = question_number(run, fuel, quantity)
    return number, [] if number else [exact_float(kind_total(run, fuel, quantity, kind)[1]) for kind in KINDS]


def figure(run, fuel, quantity, kind):
    """The number and one figure for the map: [float], or [None] where it is not given; [] where refused."""
    number, floats = row(run, fuel, quantity)
    if number == 0:
        floats = [None if quantity == PM and fuel in (1, 3) else floats[KINDS.index(kind)]]
    return number, floats


# The widths of the numbers of line 1 (L, then T; where it is dated the two days too), and of the others (class, vehicles, km,
# shares, speeds).
HEAD_WIDTHS = (5,) * 13
DATED_WIDTHS = HEAD_WIDTHS + (9, 9)
RECORD_WIDTHS = (2, 7, 7) + (4,) * 6

# A number right-justified with spaces, without leading zeros; T may have a minus, not before zero.
PLAIN = re.compile(rb" *(0|[1-9][0-9]*)")
SIGNED = re.compile(rb" *(0|-?[1-9][0-9]*)")


def head_line(head):
    """Line 1 of a sheet."""
    trip, temps, *days = head
    return b"".join(b"%*d" % cell for cell in zip(DATED_WIDTHS, (trip, *temps, *days))) + b"\n"


def record_line(record):
    """The line of a record."""
    cls, vehicles, km, shares, speeds = record
    return b"".join(b"%*d" % cell for cell in zip(RECORD_WIDTHS, (cls, vehicles, km, *shares, *speeds))) + b"\n"


def line_numbers(line, widths, signed):
    """The numbers of a line without its LF, or None where its shape is wrong; `signed` are the places of T."""
    if len(line) != sum(widths):
        return None
    numbers, at = [], 0
    for place, width in enumerate(widths):
        match = (SIGNED if place in signed else PLAIN).fullmatch(line, at, at + width)
        if match is None:
            return None
        numbers.append(int(match.group(1)))
        at += width
    return numbers


def read_line(run, at, line):
    """The number of one line, counted from 1, and the run behind it."""
    if at == 1:
        numbers = line_numbers(line, HEAD_WIDTHS, range(1, 13)) or line_numbers(line, DATED_WIDTHS, range(1, 13))
        return (10, run) if numbers is None else open_run((numbers[0], numbers[1:13], *numbers[13:]))
    numbers = line_numbers(line, RECORD_WIDTHS, ())
    return (10, run) if numbers is None else add(run, (*numbers[:3], numbers[3:6], numbers[6:]))


def read_sheet(text):
    """The number, the line (0 where taken) and the run (of zeros where refused) of a sheet's bytes."""
    *lines, rest = text.split(b"\n")
    run = Run()
    for at, line in enumerate(lines, 1):
        number, run = read_line(run, at, line)
        if number:
            return number, at, Run()
    # Bytes behind the last LF are a line of wrong shape, and so is a sheet without a head.
    if rest or not lines:
        return 10, len(lines) + 1, Run()
    return 0, 0, run


def refused_line(number, line):
    """What the program prints for a refused sheet."""
    return b"REFUSED%3d%6d\n" % (number, line)


def sheet_text(text):
    """The number, the line (0 and 0 where the sheet is taken) and the text, report or line REFUSED, of a sheet's bytes; more
    than 65,536 are a shape fault at line 1."""
    number, line, run = read_sheet(text) if len(text) <= 65536 else (10, 1, Run())
    return number, line, refused_line(number, line) if number else report_text(run)


def program_text(text):
    """What the program `report` prints for the bytes of standard input."""
    return sheet_text(text)[2]


class Tally:
    """Demand 3's tally on paper: count, kilometres by fuel, exact sums by (fuel, quantity). Since job 6 it is that of a history: a list
    of adds under a head that opening takes, two histories joined, or further adds to a history's run. Each record is measured by the
    head that it was added under."""

    def __init__(self, head):
        self.count, self.km = 0, {f: 0 for f in FUELS}
        self.sums = {(f, q): Fraction(0) for f in FUELS for q in QUANTITIES}
        # L and the rounded X of the first head: all that decides whether heads agree.
        self.head = head[0], rounded_x(head)
        self.x, self.gain = unrounded_x(head), {}

    def copy(self):
        """The same tally in a place of its own."""
        other = Tally.__new__(Tally)
        other.count, other.km, other.sums = self.count, dict(self.km), dict(self.sums)
        other.head, other.x, other.gain = self.head, self.x, self.gain
        return other

    def feed(self, record, room):
        """The record of the next add, and whether there is room for it."""
        if record_number(record) != 0 or not room:
            return
        cls, vehicles, km, shares, speeds = record
        fuel, k = FUEL[cls], vehicles * km
        if record not in self.gain:
            self.gain[record] = [exact_grams(record, q, self.x[x_name(cls, q)]) for q in QUANTITIES]
        self.count += 1
        self.km[fuel] += k
        for q in QUANTITIES:
            self.sums[fuel, q] += self.gain[record][q - 1]

    def measured_by(self, head):
        """The same history; its further adds are measured by this head, which opening takes, with the L and the X of the first."""
        assert head_number(head) == 0 and self.head == (head[0], rounded_x(head))
        other = self.copy()
        other.x, other.gain = unrounded_x(head), {}
        return other

    def joined(self, other):
        """The number and the history of two joined; refused, it is this one. Told from their heads and counts, never from a run."""
        number = first([(21, self.head != other.head), (22, self.count + other.count > 5000)])
        both = self.copy()
        if number == 0:
            both.count += other.count
            both.km = {f: self.km[f] + other.km[f] for f in FUELS}
            both.sums = {place: self.sums[place] + other.sums[place] for place in self.sums}
        return number, both


def tally(head, records):
    """The tally of a run: count, kilometres by fuel, exact sums by (fuel, quantity)."""
    paper = Tally(head)
    for record in records:
        paper.feed(record, paper.count < 5000)
    return paper.count, paper.km, paper.sums


class AreaTallies:
    """The tally of each area. 18 is told from the counts of them all."""

    def __init__(self, head):
        self.areas = [Tally(head) for _ in AREAS]

    def feed(self, area, record):
        """The area and the record of the next add; one to another area changes nothing."""
        if area in AREAS:
            paper = self.areas[area]
            paper.feed(record, not is_full(paper.count, beyond_own(other.count for other in self.areas)))


def exact_grams(record, quantity, x):
    """One record's exact grams, x the unrounded X."""
    cls, vehicles, km, shares, speeds = record
    k = vehicles * km
    e = [hot_factor(cls, quantity, road, speeds[road]) for road in range(3)]
    hot = sum(Fraction(k * shares[road] * e[road], 10**9) for road in range(3))
    return hot if cls == 5 else hot + k * e[0] * x / 10**16
