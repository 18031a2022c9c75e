"""examples/haldurap.py: every call of the header against the independent calculation (tools/reference.py), every refusal with
its number and text, and ValueError with the argument's name for what is no argument.

    python3 tests/python.py

Needs the shared object (tests/archive.sh). Prints `N compared, M wrong`, and exits 1 where one is wrong.
"""
import copy
import os
import pickle
import random
import re
import subprocess
import sys
import tempfile

ROOT = os.path.normpath(os.path.join(os.path.dirname(os.path.abspath(__file__)), ".."))
for folder in ("examples", "tools"):
    sys.path.insert(0, os.path.join(ROOT, folder))
import haldurap as h  # noqa: E402
import reference as ref  # noqa: E402
import sheets  # noqa: E402
import vectors  # noqa: E402

done = failed = 0


def same(found, wanted, what):
    global done, failed
    done += 1
    if found != wanted:
        failed += 1
        print("%s:\n  found  %r\n  wanted %r" % (what, found, wanted))


def outcome(function, *arguments):
    """What a call gives, or the refusal's number and line, or the text of its ValueError or AttributeError."""
    try:
        return function(*arguments)
    except h.Refused as refused:
        same(str(refused).startswith("refused with %d" % refused.number) and h.MEANINGS[refused.number] in str(refused), True, "text of %r" % refused)
        return "refused", refused.number, refused.line
    except (ValueError, AttributeError) as error:
        return "%s: %s" % (type(error).__name__, error)


def refused(number, line=None):
    return "refused", number, line


# ---- The same values on both sides

def head_of(head):
    return h.head(*head)


def record_of(record):
    return h.record(*record)


def numbers_of(records):
    return [n for cls, vehicles, km, shares, speeds in records for n in (cls, vehicles, km, *shares, *speeds)]


def run_of(run):
    """A run of the reference as a struct."""
    made = h.Run()
    made.trip, made.count = run.trip, run.count
    made.x, made.km = run.x.values(), run.km.values()
    made.grams, made.rests = [run.grams[place] for place in vectors.PLACES], [run.rests[place] for place in vectors.PLACES]
    made.total_grams = [run.total_grams[place] for place in vectors.TOTALS]
    made.total_rests = [run.total_rests[place] for place in vectors.TOTALS]
    return made


def settle(run):
    """The stored totals of a run of the reference follow its kinds, which were changed by hand."""
    for place in vectors.TOTALS:
        run.total_grams[place], run.total_rests[place] = divmod(run.exact_total(*place), 10**9)


def words(run):
    return [run.trip, *run.x, run.count, *run.km, *run.grams, *run.rests, *run.total_grams, *run.total_rests]


def same_run(found, wanted, what):
    same(words(found), words(run_of(wanted)), what)


def same_areas(found, wanted, what):
    same([words(run) for run in found.runs] + [found.common], [words(run_of(run)) for run in wanted.runs] + [wanted.common], what)


# ---- Values

def either(number, value):
    return refused(number) if number else value


def questions(run, wanted, rng):
    """Every question of a run."""
    same(h.in_order(run), ref.in_order(wanted), "in_order")
    for fuel in (0, 1, 2, 3, 4, 2**64 - 1):
        for quantity in (0, 1, 2, 3, 4, 5, 6, 2**64 - 1):
            where = "of fuel %d, quantity %d" % (fuel, quantity)
            same(outcome(h.total, run, fuel, quantity), either(*ref.total(wanted, fuel, quantity)), "total " + where)
            kinds = []
            for kind in ref.KINDS:
                number, grams = ref.kind_total(wanted, fuel, quantity, kind)
                kinds.append(grams)
                same(outcome(getattr(h, kind), run, fuel, quantity), either(number, grams), kind + " " + where)
                number, floats = ref.figure(wanted, fuel, quantity, kind)
                figure = either(number, floats and floats[0])
                same(outcome(h.figure, run, fuel, quantity, kind), figure, "figure %s %s" % (kind, where))
                same(outcome(getattr(h, "figure_" + kind), run, fuel, quantity), figure, "figure_%s %s" % (kind, where))
            same(outcome(h.kinds, run, fuel, quantity), either(number, tuple(kinds)), "kinds " + where)
            number, floats = ref.row(wanted, fuel, quantity)
            same(outcome(h.map_row, run, fuel, quantity), either(number, tuple(floats)), "map_row " + where)
            used = ref.total(wanted, fuel, 5)[1] // 10**6
            for sold in (0, used, rng.randrange(used // 2, 2 * used + 2), 10**9, 2**64 - 1):
                number, *balance = ref.balance(wanted, fuel, quantity, sold)
                same(outcome(h.balance, run, fuel, quantity, sold), either(number, tuple(balance)), "balance %s, %d sold" % (where, sold))
        for name in ("co2", "so2", "lead"):
            for content in (0, 1, 1000, 1001, 1800, 4000, 4001, 10000, 10001, 2**64 - 1):
                number, grams = getattr(ref, name)(wanted, fuel, content)
                same(outcome(getattr(h, name), run, fuel, content), either(number, grams), "%s of fuel %d with %d" % (name, fuel, content))
    number, length, buffer = ref.write_report(wanted, b"\0" * h.REPORT_BYTES)
    same(outcome(h.report, run), either(number, buffer[:length]), "report")


# Heads that are refused, by 1, 2, 19 and 20, and by the first of several.
WRONG_HEADS = [(9, [100] * 12), (201, [401] * 12), (120, [100] * 11 + [401]), (2**64 - 1, [-2**63] * 12), (9, [401] * 12, 1, 0),
               (120, [100] * 11 + [401], 20260431, 20260430), (120, [100] * 12, 20260431, 20260430), (120, [100] * 12, 21000229, 21000301),
               (120, [100] * 12, 20260515, 0), (120, [100] * 12, 2**64 - 1, 2**32 + 20260515), (120, [100] * 12, 19791231, 19800101),
               (120, [100] * 12, 20260516, 20260515), (120, [100] * 12, 20261231, 20270101)]


def runs(rng):
    """Runs of opening, adding and lists, and runs out of order."""
    same(h.layout(), (h.LAYOUT, 1368), "layout")
    fleet = [vectors.some_record(rng) for _ in range(30)]
    fleet[7:7] = [(8, 1, 1, (100, 0, 0), (10, 10, 10)), (2, 10**6, 1001, (40, 40, 20), (20, 60, 100))]
    head = sheets.some_head(rng)
    number, wanted = ref.open_run(head)
    run = h.open_run(head_of(head))
    same_run(run, wanted, "open_run")
    questions(run, wanted, rng)
    for record in fleet:
        before = bytes(run)
        number, wanted = ref.add(wanted, record)
        after = outcome(h.add, run, record_of(record))
        same(bytes(run), before, "the run handed in")
        if number:
            same(after, refused(number), "add %s" % (record,))
        else:
            run = after
            same_run(run, wanted, "add %s" % (record,))
    questions(run, wanted, rng)
    for field, value in (("trip", 9), ("count", 5001), ("count", 0), ("x", [0] * 15 + [4900000001])):
        bad, bad_wanted = h.Run.from_buffer_copy(run), wanted.copy()
        setattr(bad, field, value)
        setattr(bad_wanted, field, dict(zip(ref.X_NAMES, value)) if field == "x" else value)
        questions(bad, bad_wanted, rng)
        same(outcome(h.add, bad, record_of(fleet[0])), refused(16), "add to a run out of order")
    totals(run, wanted, rng)
    for bad in WRONG_HEADS:
        number, _ = ref.open_run(bad)
        same(outcome(h.open_run, head_of(bad)), refused(number), "open_run of %s" % (bad,))
        same(outcome(h.add_list, head_of(bad), []), refused(number), "add_list of %s" % (bad,))
        same(outcome(h.add_list, head_of(bad), [1]), refused(10), "add_list of %s, one number" % (bad,))

    def listed(records, numbers, what):
        number, taken, place, why, wanted = ref.add_list(head, numbers)
        found = outcome(h.add_list, head_of(head), records)
        if number:
            same(found, refused(number), what)
        else:
            same((found.taken, found.place, found.refused), (taken, place, why), what)
            same_run(found.run, wanted, what)

    numbers = numbers_of(fleet)
    listed([record_of(record) for record in fleet], numbers, "add_list of records")
    listed(numbers, numbers, "add_list of numbers")
    listed(iter(map(record_of, fleet)), numbers, "add_list of an iterator")
    for length in range(20):
        listed(numbers[:length], numbers[:length], "add_list of %d numbers" % length)
    full = numbers_of([vectors.EXAMPLE]) * 5001
    listed(full, full, "add_list of 5,001 records")
    number, run = 0, h.add_list(head_of(head), full).run
    same(outcome(h.add, run, record_of(vectors.EXAMPLE)), refused(9), "add to a full run")


def totals(run, wanted, rng):
    """Each stored total of a run is that of its four kinds; broken in every way it is 16 from every call."""
    record = record_of(vectors.EXAMPLE)
    for i, place in enumerate(vectors.TOTALS):
        same(run.total_grams[i] * 10**9 + run.total_rests[i], wanted.exact_total(*place), "the total of fuel %d, quantity %d" % place)
        for grams, rest in vectors.broken(wanted, place):
            bad, bad_wanted, what = h.Run.from_buffer_copy(run), wanted.copy(), "a run whose total of %d, %d is %d and %d" % (*place, grams, rest)
            bad.total_grams[i], bad.total_rests[i] = bad_wanted.total_grams[place], bad_wanted.total_rests[place] = grams, rest
            same((h.in_order(bad), ref.in_order(bad_wanted)), (False, False), what)
            for call in (lambda: h.total(bad, *place), lambda: h.kinds(bad, *place), lambda: h.balance(bad, *place, 1000), lambda: h.report(bad),
                         lambda: h.co2(bad, place[0], 1800), lambda: h.so2(bad, 1, 10), lambda: h.lead(bad, 1, 5), lambda: h.map_row(bad, *place),
                         lambda: h.figure(bad, *place, "cold"), lambda: h.add(bad, record), lambda: h.join(bad, run), lambda: h.join(run, bad)):
                same(outcome(call), refused(16), what)
        if i % 7 == 0:
            questions(bad, bad_wanted, rng)
    moved = h.Run.from_buffer_copy(run)
    moved.grams[0], moved.grams[1] = run.grams[1], run.grams[0]
    same(h.in_order(moved), True, "two kinds of one total exchanged")
    moved.grams[1], moved.grams[4] = run.grams[4], run.grams[1]
    same(h.in_order(moved), False, "kinds of two totals exchanged")


def joins(rng):
    """Runs joined, as the reference has them: halves of a list, runs of areas, fresh runs, and each refusal with its number."""
    head = sheets.some_head(rng)
    fleet = [vectors.some_record(rng) for _ in range(12)]

    def listed(records, a_head=head):
        """A run of both sides."""
        return h.add_list(head_of(a_head), numbers_of(records)).run, ref.add_list(a_head, numbers_of(records))[-1]

    def joined(first, second, what):
        """A join of two runs of both sides: the joined run of both, or the first where it is refused."""
        before = bytes(first[0]), bytes(second[0])
        number, wanted = ref.join(first[1], second[1])
        found = outcome(h.join, first[0], second[0])
        same((bytes(first[0]), bytes(second[0])), before, what + ", the runs handed in")
        if number or not isinstance(found, h.Run):
            same(found, refused(number) if number else "a run", what)
            return first
        same_run(found, wanted, what)
        return found, wanted

    whole, fresh = listed(fleet), listed([])
    for cut in (0, 1, 5, 11, 12):
        halves = listed(fleet[:cut]), listed(fleet[cut:])
        for first, second in (halves, halves[::-1]):
            both = joined(first, second, "join of %d and %d" % (first[0].count, second[0].count))
            same(words(both[0]), words(whole[0]), "the halves joined")
    for first, second in ((whole, fresh), (fresh, whole)):
        same(bytes(joined(first, second, "join with a fresh run")[0]), bytes(whole[0]), "a fresh run")
    a, b, c = (listed(fleet[i:i + 4]) for i in (0, 4, 8))
    same(bytes(h.join(h.join(a[0], b[0]), c[0])), bytes(h.join(a[0], h.join(b[0], c[0]))), "joins in two shapes")
    same(bytes(h.join(a[0], h.join(b[0], c[0]))), bytes(whole[0]), "three parts joined")
    twice = joined(whole, whole, "join of a run with itself")
    same(twice[0].count, 24, "a run joined with itself")
    questions(*twice, rng)
    same_run(h.add(twice[0], record_of(fleet[0])), ref.add(twice[1], fleet[0])[1], "an add to a joined run")
    # months exchanged are another head with the same X; another L, T or period is not
    same(words(joined(whole, listed(fleet, (head[0], head[1][::-1])), "months exchanged")[0]), words(twice[0]), "months exchanged")
    trip, temps = 120, vectors.YEAR
    mild = listed(fleet, (trip, temps))
    for other in ((121, temps), (trip, [*temps[:11], temps[11] + 1]), (trip, temps, 20260515, 20261020), (trip, temps, 20260101, 20261231)):
        for first, second in ((mild, listed(fleet, other)), (listed(fleet, other), mild), (mild, listed([], other))):
            same(outcome(h.join, first[0], second[0]), refused(21), "join of other heads")
            joined(first, second, "join of other heads %s" % (other,))
    for i in range(17):
        changed = h.Run.from_buffer_copy(mild[0])
        if i < 16:
            changed.x[i] += 1
        else:
            changed.trip += 1
        # before 22 as well
        for changed.count in (12, 4989):
            same(outcome(h.join, mild[0], changed), refused(21), "join with word %d of another head" % i)
    # 5,000 together, and one more
    for one, other, number in ((5000, 0, 0), (4999, 1, 0), (2500, 2500, 0), (5000, 1, 22), (1, 5000, 22), (2501, 2500, 22)):
        first, second = (listed([vectors.EXAMPLE] * n) for n in (one, other))
        both = joined(first, second, "join of %d and %d" % (one, other))
        same(both[0].count, one if number else 5000, "records of %d and %d" % (one, other))
        same(outcome(h.add, both[0], record_of(vectors.EXAMPLE)) == refused(9), both[0].count == 5000, "an add behind %d and %d" % (one, other))
    # 16 before 21 and 22, in either run
    full, bad = listed([vectors.EXAMPLE] * 5000), h.Run.from_buffer_copy(whole[0])
    bad.rests[59], bad.trip = 10**9, 201
    for first, second in ((full[0], bad), (bad, full[0]), (bad, bad), (h.Run(), full[0]), (full[0], h.Run())):
        same(outcome(h.join, first, second), refused(16), "join with a run out of order")
    # sixteen areas one after the other, then with a single run; the areas stay
    lent, wanted, both = h.open_areas(head_of(head)), ref.open_areas(head)[1], fresh
    for turn in range(40):
        area, record = turn * 7 % 16, vectors.some_record(rng)
        h.add_area(lent, area, record_of(record))
        wanted = ref.add_area(wanted, area, record)[1]
    before = bytes(lent)
    for area in range(16):
        both = joined(both, (h.area_run(lent, area), ref.area_run(wanted, area)[1]), "join of area %d" % area)
        # the areas' own run may be handed in too
        same(words(h.join(fresh[0], lent.runs[area])), words(h.area_run(lent, area)), "join of an area's own run")
    same((both[0].count, bytes(lent) == before), (40, True), "areas joined")
    questions(*joined(both, whole, "join of areas and a run"), rng)
    # each message says what is wrong and what to do
    for first, second, number, said in ((mild[0], whole[0], 21, "same head"), (full[0], whole[0], 22, "keep them apart")):
        try:
            h.join(first, second)
            text = "taken"
        except h.Refused as error:
            text = str(error)
        same((text.startswith("refused with %d: " % number), said in text), (True, True), "what is said of %d: %s" % (number, text))


def days(rng):
    """Dated heads: the run, a list, areas and a sheet as the reference has them; 0 and 0 are no dates but in a sheet."""
    record = record_of(vectors.EXAMPLE)
    periods = [(20000229, 20000229), (20260515, 20261020), (20260101, 20261231), (20000101, 20001231), (19800101, 19800131), (21001231, 21001231)]
    for days in periods + [vectors.some_days(rng) for _ in range(40)]:
        head = (*sheets.some_head(rng), *days)
        number, wanted = ref.open_run(head)
        same(number, 0, "days %d to %d" % days)
        same_run(outcome(h.open_run, head_of(head)), wanted, "open_run of %s" % (head,))
        same_run(h.open_run(h.head(*head[:2], last=days[1], first=days[0])), wanted, "days by name")
        _, wanted = ref.add(wanted, vectors.EXAMPLE)
        same_run(h.add_list(head_of(head), [record]).run, wanted, "add_list of %s" % (head,))
        same_run(h.area_run(h.add_area(h.open_areas(head_of(head)), 4, record), 4), wanted, "an area of %s" % (head,))
        same_run(h.sheet(ref.head_line(head) + sheets.RECORD), wanted, "a sheet of %s" % (head,))
    head = sheets.some_head(rng)
    for made in (h.head(*head), h.head(*head, 0, 0), h.head(*head, first=0), h.Head(*head)):
        same((made.first, made.last), (0, 0), "a head without dates")
        same_run(h.open_run(made), ref.open_run(head)[1], "a head without dates")
    for first, last in ((20260515, 0), (0, 20260515)):
        same(outcome(h.open_run, h.head(*head, first, last)), refused(19), "one day alone")
    same(outcome(h.sheet, ref.head_line((*head, 0, 0))), refused(19, 1), "days 0 and 0 in a sheet")
    # each message says what is wrong and what to do
    for days, number, said in (((20260431, 20260501), 19, "20260515"), ((20260501, 20260430), 20, "two runs")):
        try:
            h.open_run(h.head(*head, *days))
            text = "taken"
        except h.Refused as error:
            text = str(error)
        same((text.startswith("refused with %d: " % number), said in text), (True, True), "what is said of %d: %s" % (number, text))


def digits():
    """Balances by the digits worked, FC of diesel set by hand: 6 to 12, 12 without an end, and S a multiple of it."""
    wanted = ref.open_run((120, vectors.MILD))[1]
    wanted.count, wanted.grams[2, 1, "cold"] = 1, 987654321  # its total follows below
    for worked, f, sold in ((6, 10**6, 1), (7, 1250000, 1), (8, 800000, 1), (9, 1953125, 1), (10, 3200000, 3), (11, 1280000, 1), (12, 2560000, 3),
                            (12, 1024000, 1), (12, 999983, 1), (None, 1000, 1000), (None, 1000, 0)):
        wanted.grams[2, 5, "rural"] = f
        settle(wanted)
        number, *balance = ref.balance(wanted, 2, 1, sold)
        found = outcome(h.balance, run_of(wanted), 2, 1, sold)
        same(found, either(number, tuple(balance)), "balance of %d t and %d g" % (sold, f))
        same(getattr(found, "digits", None), worked, "digits of %d t and %d g" % (sold, f))
    same(h.Balance._fields, ("k", "digits", "grams"), "balance's fields")


def areas(rng):
    """Areas opened, added to, asked and refused, as the reference has them."""
    head = sheets.some_head(rng)
    lent, (number, wanted) = h.open_areas(head_of(head)), ref.open_areas(head)
    same_areas(lent, wanted, "open_areas")
    for bad in WRONG_HEADS:
        same(outcome(h.open_areas, head_of(bad)), refused(ref.open_areas(bad)[0]), "open_areas of %s" % (bad,))
    cls, vehicles, km, shares, speeds = vectors.EXAMPLE
    bad = [(0, vehicles, km, shares, speeds), (cls, 0, km, shares, speeds), (cls, vehicles, 0, shares, speeds), (cls, 100001, 10000, shares, speeds),
           (cls, vehicles, km, (40, 40, 19), speeds), (cls, vehicles, km, shares, (20, 60, 131)), (0, 0, 0, (0, 0, 0), (0, 0, 0))]
    wrong = iter([(area, record) for area in (3, 16, 2**32 + 3) for record in (*bad, vectors.EXAMPLE)])
    for turn in range(60):
        area, record = (turn * 7 % 16, vectors.some_record(rng)) if turn % 2 else next(wrong, (15, vectors.EXAMPLE))
        what, before = "add_area %d %s" % (area, record), bytes(lent)
        number, wanted = ref.add_area(wanted, area, record)
        found = outcome(h.add_area, lent, area, record_of(record))
        same(found if number else found is lent, refused(number) if number else True, what)
        same(bytes(lent) == before, number != 0, what + ", the areas")
        same_areas(lent, wanted, what)
    before = bytes(lent)
    for area in (*range(16), 16, 17, 2**32, 2**64 - 1):
        number, run = ref.area_run(wanted, area)
        found = outcome(h.area_run, lent, area)
        same(found if number else words(found), refused(number) if number else words(run_of(run)), "area_run %d" % area)
    questions(h.area_run(lent, 7), ref.area_run(wanted, 7)[1], rng)
    same(bytes(lent) == before, True, "areas that were asked")


def shared_records():
    """300 records for each area, 200 more for whoever comes first, 5,000 in all; figures of document 02, job 3."""
    head, record = h.head(120, vectors.MILD), record_of(vectors.EXAMPLE)
    fast = h.record(2, 1000, 10000, (40, 40, 20), (20, 60, 131))
    lent, wanted = h.open_areas(head), ref.open_areas((120, vectors.MILD))[1]

    def added(area, times):
        """The last outcome of so many adds to an area, its count and the common use."""
        nonlocal wanted
        for _ in range(times):
            last = outcome(h.add_area, lent, area, record)
        number, wanted = ref.add_area(wanted, area, vectors.EXAMPLE, times)
        same(last if number else last is lent, refused(number) if number else True, "%d adds to area %d" % (times, area))
        same_areas(lent, wanted, "%d adds to area %d" % (times, area))
        return "taken" if last is lent else last, lent.runs[area].count, lent.common

    same(added(5, 300), ("taken", 300, 0), "300 records in area 5")
    same(added(5, 1), ("taken", 301, 1), "one more")
    same(added(5, 99), ("taken", 400, 100), "99 more")
    same(added(0, 300), ("taken", 300, 100), "300 records in area 0")
    same(added(0, 1), ("taken", 301, 101), "one more")
    same(added(3, 299), ("taken", 299, 101), "299 records in area 3")
    same(added(5, 99), ("taken", 499, 200), "all common records used")
    before = bytes(lent)
    for area in (5, 0):
        same(added(area, 3)[0], refused(18), "area %d without room" % area)
        same(outcome(h.add_area, lent, area, fast), refused(8), "8 before 18")
    same(outcome(h.add_area, lent, 16, fast), refused(17), "17 before 8")
    same(bytes(lent) == before, True, "areas after refused records")
    same(added(3, 1), ("taken", 300, 200), "area 3 below 300, all common records used")
    same(added(3, 1), (refused(18), 300, 200), "area 3 with 300")
    for area in sorted(set(range(16)) - {0, 3, 5}):
        same(added(area, 301), (refused(18), 300, 200), "area %d up to 300" % area)
    same(sum(run.count for run in lent.runs), 5000, "records in all")
    # the run of an area is a single run: it takes 5,000 records, and then the number is 9
    run = h.area_run(lent, 5)
    same(words(run), words(h.add_list(head, [record] * 499).run), "the run of area 5")
    while run.count < 5000:
        run = h.add(run, record)
    same(outcome(h.add, run, record), refused(9), "a single run that was an area's")
    same(lent.runs[5].count, 499, "area 5 after that")
    # one area alone takes 500
    lent, wanted = h.open_areas(head), ref.open_areas((120, vectors.MILD))[1]
    same(added(15, 500), ("taken", 500, 200), "500 records in area 15")
    same(added(15, 1), (refused(18), 500, 200), "501 records in area 15")
    same(words(h.area_run(lent, 15)), words(h.add_list(head, [record] * 500).run), "the run of area 15")


def areas_out_of_order():
    """16 from adding and asking, whichever area is meant, and the areas stay as they were."""
    head, record = h.head(120, vectors.MILD), record_of(vectors.EXAMPLE)
    good = h.add_area(h.open_areas(head), 2, record)
    other = h.add(h.open_run(h.head(121, vectors.MILD)), record)
    warmer = h.open_run(h.head(120, [100] * 11 + [101]))

    def damaged(change):
        lent = copy.copy(good)
        change(lent)
        return lent

    def of_class_3(lent):
        lent.runs[4].x[15] += 1

    def off_by_one(area, field, place):
        return lambda lent: getattr(lent.runs[area], field).__setitem__(place, getattr(lent.runs[area], field)[place] ^ 1)

    def setting(area, field, value, common=0):
        return lambda lent: (setattr(lent.runs[area], field, value), setattr(lent, "common", common))

    cases = [h.Areas(), damaged(lambda lent: setattr(lent, "common", 1)), damaged(lambda lent: setattr(lent, "common", 2**64 - 1)),
             damaged(setting(4, "trip", 9)), damaged(setting(4, "trip", 121)), damaged(setting(2, "count", 0)), damaged(setting(4, "count", 301)),
             damaged(setting(4, "count", 301, 2)), damaged(setting(4, "count", 501, 201)), damaged(setting(4, "count", 5001, 4701)),
             damaged(of_class_3), damaged(lambda lent: lent.runs.__setitem__(0, other)), damaged(lambda lent: lent.runs.__setitem__(15, warmer)),
             h.Areas([other] + [h.open_run(head)] * 15, 0), h.Areas([h.Run()] * 16, 0)]
    cases += [damaged(off_by_one(area, field, place)) for area in (2, 9) for field in ("total_grams", "total_rests") for place in (0, 3, 14)]
    for place, lent in enumerate(cases):
        before = bytes(lent)
        for area in (0, 4, 15, 16):
            same(outcome(h.add_area, lent, area, record), refused(16), "add_area, areas out of order %d" % place)
            same(outcome(h.add_area, lent, area, h.record(0, 0, 0, (0, 0, 0), (0, 0, 0))), refused(16), "add_area, areas out of order %d" % place)
            same(outcome(h.area_run, lent, area), refused(16), "area_run, areas out of order %d" % place)
        same(bytes(lent) == before, True, "areas out of order %d" % place)
    for lent in (damaged(setting(4, "count", 300)), damaged(setting(4, "count", 301, 1)), damaged(setting(4, "count", 500, 200)), h.Areas([other] * 16, 0)):
        same(isinstance(outcome(h.area_run, lent, 9), h.Run), True, "areas in order")


def copies():
    """What is a copy, and what is the areas themselves."""
    head, record = h.head(120, vectors.MILD), record_of(vectors.EXAMPLE)
    lent = h.open_areas(head)
    same(h.add_area(lent, 3, record) is lent, True, "add_area gives the same areas back")
    run, whole = h.area_run(lent, 3), bytes(lent)
    made = [copy.copy(lent), copy.deepcopy(lent), pickle.loads(pickle.dumps(lent)), h.Areas.from_buffer_copy(lent), h.Areas(lent.runs, lent.common)]
    h.add(run, record)
    run.count = 7
    same(bytes(lent) == whole, True, "areas whose run was changed")
    h.add_area(lent, 3, record)
    same((run.count, lent.runs[3].count), (7, 2), "a run asked before the add")
    for place, other in enumerate(made):
        same((type(other), bytes(other) == whole), (h.Areas, True), "copy %d of areas" % place)
        same(words(h.area_run(h.add_area(other, 3, record), 3)), words(h.area_run(lent, 3)), "an add to copy %d" % place)
    for other in (copy.copy(run), copy.deepcopy(run), pickle.loads(pickle.dumps(run)), copy.copy(lent.runs[3])):
        same(type(other), h.Run, "copy of a run")
        before = bytes(lent)
        other.count = 9
        same((run.count, bytes(lent) == before), (7, True), "what a copy of a run leaves")
    lent.runs[3].count = 1
    same(h.area_run(lent, 3).count, 1, "runs are the areas' own")
    same(h.in_order(lent.runs[3]), True, "a question of an area's own run")


def texts(rng):
    """Sheets that are taken and refused: the run, or number and line; the text with number and line."""
    cases = [sheets.some_sheet(rng, n, head) for n in (0, 1, 5, 40) for head in (sheets.some_head, sheets.some_dated_head)]
    cases += [sheets.HEAD + sheets.RECORD + line for line in sheets.BAD.values()]
    cases += [b"", b"\n", sheets.HEAD[:-1], sheets.HEAD + sheets.RECORD * 1597, sheets.HEAD + sheets.RECORD * 5001, b" " * 65537]
    cases += [sheets.edited(rng, head + sheets.RECORD) for _ in range(100) for head in (sheets.HEAD, sheets.DATED)]
    cases += [ref.head_line((120, [100] * 12, *days)) for days in ((0, 0), (20260431, 20260501), (20260501, 20260430))]
    for text in cases:
        what = "sheet %r" % text[:200]
        number, line, wanted = ref.read_sheet(text)
        for data in (text, bytearray(text), memoryview(text)):
            found = outcome(h.sheet, data)
            if number:
                same(found, refused(number, line), what)
            else:
                same_run(found, wanted, what)
            number_of_text, line_of_text, written = ref.sheet_text(text)
            same(outcome(h.report_sheet, data), (written, number_of_text, line_of_text), "report_sheet, " + what)
            same(h.report_sheet(data)._fields, ("text", "number", "line"), "report_sheet's fields")


# ---- What is no argument

# Values where a whole number of 64 bits is wanted, and what is said of them behind the argument's name.
NOT_NUMBERS = [
    (True, "a whole number is wanted, True given"),
    (1.0, "a whole number is wanted, 1.0 given"),
    (1.5, "a whole number is wanted, 1.5 given"),
    ("1", "a whole number is wanted, '1' given"),
    (b"1", "a whole number is wanted, b'1' given"),
    (None, "a whole number is wanted, None given"),
    ([1], "a whole number is wanted, [1] given"),
    (2**64, "18446744073709551616 is not a 64-bit number"),
    (2**64 + 1000, "18446744073709552616 is not a 64-bit number"),
    (-1, "-1 is negative, and a number from 0 is wanted"),
    (-2**63, "-9223372036854775808 is negative, and a number from 0 is wanted"),
]
NOT_TEMPERATURES = NOT_NUMBERS[:7] + [
    (2**63, "9223372036854775808 is not a 64-bit number"),
    (-2**63 - 1, "-9223372036854775809 is not a 64-bit number"),
    (2**64 + 100, "18446744073709551716 is not a 64-bit number"),
]


class Index:
    """A whole number of another type, as numpy's are."""

    def __init__(self, value):
        self.value = value

    def __index__(self):
        return self.value


def wrong_arguments():
    def error(name, said):
        return "ValueError: %s: %s" % (name, said)

    temps, shares, speeds = [100] * 12, (40, 40, 20), (20, 60, 100)
    run = h.add(h.open_run(h.head(120, temps)), h.record(2, 1000, 10000, shares, speeds))
    # heads
    for make in (h.head, h.Head):
        for count in (0, 1, 11, 13, 24):
            same(outcome(make, 120, [100] * count), error("temps", "twelve temperatures are wanted, %d given" % count), "%d temperatures" % count)
        for value in (100, "100", b"abcdefghijkl", None):
            same(outcome(make, 120, value), error("temps", "twelve temperatures are wanted, %r given" % (value,)), "temperatures %r" % (value,))
        for value, said in NOT_NUMBERS:
            same(outcome(make, value, temps), error("trip", said), "trip %r" % (value,))
        for value, said in NOT_TEMPERATURES:
            for month in range(12):
                same(outcome(make, 120, [*temps[:month], value, *temps[month + 1:]]), error("temps", said), "temperature %r" % (value,))
        for value, said in NOT_NUMBERS:
            same(outcome(make, 120, temps, value, 20261020), error("first", said), "first day %r" % (value,))
            same(outcome(make, 120, temps, 20260515, value), error("last", said), "last day %r" % (value,))
    # records
    for make in (h.record, h.Record):
        for name, place in (("shares", 3), ("speeds", 4)):
            for several in ((), (100,), (40, 60), (40, 40, 20, 0)):
                values = [2, 1000, 10000, shares, speeds]
                values[place] = several
                same(outcome(make, *values), error(name, "three (urban, rural, highway) are wanted, %d given" % len(several)), "%s %s" % (name, several))
            for value, said in NOT_NUMBERS:
                for road in range(3):
                    several = [40, 40, 20]
                    several[road] = value
                    values = [2, 1000, 10000, shares, speeds]
                    values[place] = several
                    same(outcome(make, *values), error(name, said), "%s %s" % (name, several))
        for place, name in enumerate(("vehicle_class", "vehicles", "km")):
            for value, said in NOT_NUMBERS:
                values = [2, 1000, 10000, shares, speeds]
                values[place] = value
                same(outcome(make, *values), error(name, said), "%s %r" % (name, value))
    same(h.record(Index(2), Index(1000), 10000, shares, speeds).numbers(), [2, 1000, 10000, 40, 40, 20, 20, 60, 100], "numbers of another type")
    # a struct's field, later
    for struct, name in ((h.head(120, temps), "trip"), (h.head(120, temps), "first"), (h.head(120, temps), "last"),
                         (h.record(2, 1, 1, shares, speeds), "vehicles"), (h.Run(), "count")):
        for value, said in NOT_NUMBERS:
            same(outcome(setattr, struct, name, value), error(name, said), "%s set to %r" % (name, value))
    head = h.head(120, temps)
    for value, said in NOT_TEMPERATURES:
        same(outcome(head.temps.__setitem__, 3, value), error("temps", said), "a temperature set to %r" % (value,))
    same(list(head.temps), temps, "temperatures after refused changes")
    # an array of ctypes, a tuple and a generator hold numbers as a list does
    for made in (head.temps, tuple(temps), (t for t in temps)):
        same(list(h.head(120, made).temps), temps, "temperatures from %s" % type(made).__name__)
    other = h.Run()
    other.x = run.x
    same(list(other.x), list(run.x), "values X from another run")
    row = (h.c_uint64 * 9)(2, 1000, 10000, *shares, *speeds)
    same(words(h.add_list(head, row).run), words(run), "a list from an array")
    for name in ("grams", "rests", "total_grams", "total_rests"):
        same(outcome(getattr(h.Run(), name).__setitem__, 3, 2**64), error(name, "18446744073709551616 is not a 64-bit number"), name + " set to 2^64")
    for count in (14, 16):
        same(outcome(setattr, h.Run(), "total_rests", [0] * count), error("total_rests", "15 numbers are wanted, %d given" % count), "%d totals" % count)
    # questions
    asked = {"total": ("fuel", "quantity"), "kinds": ("fuel", "quantity"), "balance": ("fuel", "quantity", "sold"), "co2": ("fuel", "hydrogen"),
             "so2": ("fuel", "sulphur"), "lead": ("fuel", "content"), "map_row": ("fuel", "quantity")}
    for kind in ref.KINDS:
        asked[kind] = asked["figure_" + kind] = ("fuel", "quantity")
    for call, names in asked.items():
        function = getattr(h, call)
        for place, name in enumerate(names):
            for value, said in NOT_NUMBERS:
                values = [1] * len(names)
                values[place] = value
                same(outcome(function, run, *values), error(name, said), "%s with %s %r" % (call, name, value))
        for value in (None, 5, bytes(1368), head):
            same(outcome(function, value, *[1] * len(names)), error("run", "a Run is wanted, %r given" % (value,)), "%s of %r" % (call, value))
    for place, name in ((0, "fuel"), (1, "quantity")):
        for value, said in NOT_NUMBERS:
            values = [1, 1, "cold"]
            values[place] = value
            same(outcome(h.figure, run, *values), error(name, said), "figure with %s %r" % (name, value))
    for kind in ("", "hot", 3, None, "Urban"):
        same(outcome(h.figure, run, 1, 1, kind), error("kind", "one of urban, rural, highway, cold is wanted, %r given" % (kind,)), "figure %r" % (kind,))
    # areas
    part, lent = h.record(2, 1, 1, shares, speeds), h.open_areas(head)
    whole = bytes(lent)
    for value in (None, 5, bytes(21896), run, [run] * 16):
        same(outcome(h.add_area, value, 3, part), error("areas", "an Areas is wanted, %r given" % (value,)), "add_area to %r" % (value,))
        same(outcome(h.area_run, value, 3), error("areas", "an Areas is wanted, %r given" % (value,)), "area_run of %r" % (value,))
    for value, said in NOT_NUMBERS:
        same(outcome(h.add_area, lent, value, part), error("area", said), "add_area to area %r" % (value,))
        same(outcome(h.area_run, lent, value), error("area", said), "area_run of area %r" % (value,))
        same(outcome(setattr, lent, "common", value), error("common", said), "common set to %r" % (value,))
    for value in (5, None, "0123456789abcdef", bytes(16), run):
        for call in (lambda: setattr(lent, "runs", value), lambda: lent.runs.__setitem__(slice(0, 16), value), lambda: h.Areas(value)):
            same(outcome(call), error("runs", "sixteen runs are wanted, %r given" % (value,)), "runs set to %r" % (value,))
    for count in (0, 1, 15, 17):
        same(outcome(setattr, lent, "runs", [run] * count), error("runs", "sixteen runs are wanted, %d given" % count), "%d runs" % count)
        same(outcome(h.Areas, [run] * count), error("runs", "sixteen runs are wanted, %d given" % count), "%d runs" % count)
    for value in (5, None, [0] * 171, bytes(1368), head, lent):
        for call in (lambda: setattr(lent, "runs", [run] * 15 + [value]), lambda: lent.runs.__setitem__(3, value),
                     lambda: lent.runs.__setitem__(slice(0, 2), [run, value])):
            same(outcome(call), error("runs", "a Run is wanted, %r given" % (value,)), "a run set to %r" % (value,))
    for value, fields in ((lent, "runs, common"), (h.Run(), "trip, x, count, km, grams, rests, total_grams, total_rests"),
                          (h.Head(120, [100] * 12), "trip, temps, first, last")):
        name = type(value).__name__
        same(outcome(setattr, value, "comon", 3), "AttributeError: %s has no field comon; its fields are %s" % (name, fields), "a misspelt field of %s" % name)
    same(bytes(lent) == whole, True, "areas after refused changes")
    same(h.add_area(lent, Index(3), part).runs[3].count, 1, "an area's number of another type")
    # joins
    for value in (None, 5, bytes(1368), head, part, lent, [run], (run, run)):
        same(outcome(h.join, value, run), error("first", "a Run is wanted, %r given" % (value,)), "join of %r and a run" % (value,))
        same(outcome(h.join, run, value), error("second", "a Run is wanted, %r given" % (value,)), "join of a run and %r" % (value,))
    # the rest
    for call, arguments, name, wanted in ((h.open_run, (run,), "a_head", "a Head"), (h.add, (head, part), "run", "a Run"), (h.add, (run, head), "a_record", "a Record"),
                                          (h.add_list, (run, []), "a_head", "a Head"), (h.in_order, (head,), "run", "a Run"), (h.report, (head,), "run", "a Run"),
                                          (h.open_areas, (run,), "a_head", "a Head"), (h.add_area, (lent, 3, head), "a_record", "a Record"),
                                          (h.total, (lent, 1, 1), "run", "a Run")):
        found = outcome(call, *arguments)
        same(str(found).startswith("ValueError: %s: %s is wanted, <" % (name, wanted)), True, "%s with a wrong %s: %s" % (call.__name__, name, found))
    for value, said in NOT_NUMBERS:
        same(outcome(h.add_list, head, [2, value]), error("records", said), "add_list with %r" % (value,))
    for value in (5, None, "222222222", b"222222222"):
        same(outcome(h.add_list, head, value), error("records", "records are wanted, %r given" % (value,)), "add_list of %r" % (value,))
    for call in (h.sheet, h.report_sheet):
        for value in ("text", 5, None, [32] * 66):
            same(outcome(call, value), error("text", "bytes are wanted, %s given" % type(value).__name__), "%s of %r" % (call.__name__, value))


def whole_module():
    """Every call of the header has its function, every number its text."""
    with open(os.path.join(ROOT, "include", "haldurap.h"), encoding="utf-8") as file:
        calls = sorted(set(re.findall(r"^HALDURAP_ANSWER \w+ haldurap_(\w+)\(", file.read(), re.M)))
    same(len(calls), 26, "calls of the header")
    names = {"open": "open_run"}
    same([name for name in calls if not callable(getattr(h, names.get(name, name), None))], [], "calls without a function")
    for number in range(1, 23):
        for line in (None, 7):
            error = h.Refused(number, line)
            where = "" if line is None else " at line 7"
            same(str(error), "refused with %d%s: %s" % (number, where, h.MEANINGS[number]), "text of Refused")
            again = pickle.loads(pickle.dumps(error))
            same((again.number, again.line, str(again)), (number, line, str(error)), "Refused, stored")
    same(len(set(h.MEANINGS.values())), 22, "meanings")


def other_libraries():
    """A library of another layout, and one of this layout without a call that the module has, are told at import."""
    calls = ["haldurap_" + name for name in h._CALLS if name != "layout"]
    with tempfile.TemporaryDirectory() as folder:
        for version, there, taken in ((h.LAYOUT, calls, True), (h.LAYOUT - 1, calls, False),
                                      (h.LAYOUT, [call for call in calls if call != "haldurap_join"], False), (h.LAYOUT, [], False)):
            source, library = os.path.join(folder, "other.c"), os.path.join(folder, "other.so")
            with open(source, "w", encoding="utf-8") as file:
                file.write("struct layout { unsigned long version, size; };\n")
                file.write("struct layout haldurap_layout(void) { return (struct layout){%d, 1368}; }\n" % version)
                file.write("".join("void %s(void) {}\n" % call for call in there))
            subprocess.run(["gcc", "-shared", "-fPIC", "-o", library, source], check=True)
            ended = subprocess.run([sys.executable, "-c", "import haldurap"], cwd=os.path.join(ROOT, "examples"), capture_output=True, text=True,
                                   env={**os.environ, "HALDURAP": library})
            said = ended.stderr.splitlines()[-1:] or [""]
            wanted = (True, False) if taken else (False, True)
            same((ended.returncode == 0, said[0].startswith("ImportError: %s is of another version than haldurap.py" % library)), wanted,
                 "a library of layout %d with %d calls: %s" % (version, len(there), said[0]))


def main():
    rng = random.Random(1997)
    whole_module()
    other_libraries()
    wrong_arguments()
    runs(rng)
    days(rng)
    digits()
    areas(rng)
    shared_records()
    areas_out_of_order()
    copies()
    texts(rng)
    joins(rng)
    print("%d compared, %d wrong" % (done, failed))
    sys.exit(1 if failed else 0)


if __name__ == "__main__":
    main()
