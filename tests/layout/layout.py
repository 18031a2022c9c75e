"""Compares size and offsets of every struct of examples/haldurap.py with what the archive itself reads and writes; see
layout.c for how. The shared object is the one that HALDURAP names, else target/libhaldurap.so."""
import ctypes
import os
import platform
import sys
from ctypes import c_uint8, c_uint64, c_void_p, sizeof

ROOT = os.path.join(os.path.dirname(os.path.abspath(__file__)), "..", "..")
sys.path.insert(0, os.path.join(ROOT, "examples"))
import haldurap as h  # noqa: E402

done = failed = 0


def same(found, wanted, what):
    global done, failed
    done += 1
    if found != wanted:
        print("layout.py: %s is %s, not %s" % (what, found, wanted))
        failed += 1


# The sizes and offsets that haldurap.h documents.
DOCUMENTED = {
    h.Head: (120, {"trip": 0, "temps": 8, "first": 104, "last": 112}),
    h.Shares: (24, {"urban": 0, "rural": 8, "highway": 16}),
    h.Speeds: (24, {"urban": 0, "rural": 8, "highway": 16}),
    h.Record: (72, {"vehicle_class": 0, "vehicles": 8, "km": 16, "shares": 24, "speeds": 48}),
    h.Run: (1368, {"trip": 0, "x": 8, "count": 136, "km": 144, "grams": 168, "rests": 648, "total_grams": 1128, "total_rests": 1248}),
    h.Areas: (21896, {"runs": 0, "common": 21888}),
    h.RunAnswer: (1376, {"number": 0, "run": 8}),
    h.GramsAnswer: (16, {"number": 0, "grams": 8}),
    h.BalanceAnswer: (32, {"number": 0, "k": 8, "digits": 16, "grams": 24}),
    h.LengthAnswer: (16, {"number": 0, "bytes": 8}),
    h.TextAnswer: (32, {"number": 0, "bytes": 8, "sheet_number": 16, "sheet_line": 24}),
    h.ListAnswer: (1400, {"number": 0, "taken": 8, "place": 16, "refused": 24, "run": 32}),
    h.MapRowAnswer: (40, {"number": 0, "urban": 8, "rural": 16, "highway": 24, "cold": 32}),
    h.FigureAnswer: (24, {"number": 0, "given": 8, "grams": 16}),
    h.SheetAnswer: (1384, {"number": 0, "line": 8, "run": 16}),
    h.LayoutAnswer: (16, {"version": 0, "size": 8}),
}


def as_documented():
    for struct, (size, offsets) in DOCUMENTED.items():
        same(sizeof(struct), size, "size of " + struct.__name__)
        same({name: getattr(struct, name).offset for name, _ in struct._fields_}, offsets, struct.__name__)
        same(sum(getattr(struct, name).size for name, _ in struct._fields_), size, "fields of " + struct.__name__)
    same(sizeof(h.Areas), 8 * h.AREAS_NUMBERS, "AREAS_NUMBERS")


def head():
    return h.head(120, [100] * 12)


def record(vehicle_class=2, vehicles=1000, km=10000, shares=(40, 40, 20), speeds=(20, 60, 100)):
    return h.record(vehicle_class, vehicles, km, shares, speeds)


def changed(run, **fields):
    """A copy of a run with other fields; an array's entry is name=(place, value)."""
    run = h.Run.from_buffer_copy(run)
    for name, value in fields.items():
        if isinstance(value, tuple):
            getattr(run, name)[value[0]] = value[1]
        else:
            setattr(run, name, value)
    return run


def settled(run):
    """A copy of a run with each total made the sum of its four kinds, so that nothing but its other values is tried."""
    run = h.Run.from_buffer_copy(run)
    for i in range(15):
        carry, run.total_rests[i] = divmod(sum(run.rests[4 * i:4 * i + 4]), 10**9)
        run.total_grams[i] = sum(run.grams[4 * i:4 * i + 4]) + carry
    return run


def sizes_written(run):
    """The place of an answer of more than 16 bytes is a first, hidden argument: handed in openly, twice with other bytes
    beforehand, it shows which bytes the archive writes."""
    if platform.machine() != "x86_64" or os.name != "posix":
        return
    values = {"open": (head(),), "add": (run, record()), "join": (run, run), "balance": (run, 1, 1, 1000), "sheet": ((c_uint8 * 1)(120), 1),
              "report_sheet": ((c_uint8 * 1)(120), 1, (c_uint8 * 17)(), 17), "add_list": (head(), (c_uint64 * 9)(*record().numbers()), 9),
              "area_run": (h.open_areas(head()), h.AREAS_NUMBERS, 15)}
    for name in ("open", "add", "join", "balance", "map_row", "figure_urban", "figure_rural", "figure_highway", "figure_cold", "sheet", "report_sheet",
                 "add_list", "area_run"):
        parameters, answer = h._CALLS[name]
        raw = ctypes.CFUNCTYPE(c_void_p, c_void_p, *parameters)(("haldurap_" + name, h._lib))
        places = [(c_uint8 * 4096)(*[byte] * 4096) for byte in (0, 255)]
        for place in places:
            raw(ctypes.addressof(place), *values.get(name, (run, 1, 1)))
        same([i for i in range(4096) if places[0][i] == places[1][i]], list(range(sizeof(answer))), "bytes that %s writes" % name)


def inputs(run):
    """Each field of a head and a record: a bad value is refused with its own number, a good one has its own effect."""
    high = 1 << 32  # beyond the lower half of a word
    for trip in (9, high + 120):
        same(h._call("open")(h.head(trip, [100] * 12)).number, 1, "Head.trip")
    for i in range(12):
        for t in (-301, high + 100):
            same(h._call("open")(h.head(120, [100] * i + [t] + [100] * (11 - i))).number, 2, "Head.temps")
    add = h._call("add")
    for number, fields in ((3, {"vehicle_class": 0}), (4, {"vehicles": 0}), (5, {"km": 0}),
                           (3, {"vehicle_class": high + 2}), (4, {"vehicles": high + 1000}), (5, {"km": high + 10000}),
                           (7, {"shares": (41, 40, 20)}), (7, {"shares": (40, 41, 20)}), (7, {"shares": (40, 40, 21)}),
                           (7, {"shares": (high + 40, 40, 20)}), (7, {"shares": (40, high + 40, 20)}), (7, {"shares": (40, 40, high + 20)}),
                           (8, {"speeds": (9, 60, 100)}), (8, {"speeds": (20, 9, 100)}), (8, {"speeds": (20, 60, 9)}),
                           (8, {"speeds": (high + 20, 60, 100)}), (8, {"speeds": (20, high + 60, 100)}), (8, {"speeds": (20, 60, high + 100)})):
        same(add(run, record(**fields)).number, number, "Record, %s" % fields)
    # the whole distance on one road: CO of class 2 at 20, 60 and 100 km/h
    for road, grams in enumerate((15095000, 15295000, 34695000)):
        same(add(run, record(shares=[100 if i == road else 0 for i in range(3)])).run.grams[road], grams, "grams of one road")


def runs(fresh):
    """Each word of a run: its limit tells the field, and its effect tells the place in it."""
    total, add = h._call("total"), h._call("add")
    fresh = changed(fresh, count=3)

    def limit(name, most, places=None):
        for i in range(places or 1):
            for value, number in ((most, 0), (most + 1, 16)):
                run = settled(changed(fresh, **{name: (i, value) if places else value}))
                same(total(run, 1, 1).number, number, "Run.%s" % name)

    limit("trip", 200)
    limit("count", 5000)
    limit("x", 4900000000, 16)
    limit("km", 3000000000, 3)
    limit("grams", 3000000000000, 60)
    limit("rests", 999999999, 60)
    kinds = [h._call(kind) for kind in ("urban", "rural", "highway", "cold")]
    for i in range(60):
        # a sum alone in the run is printed at its fuel, quantity and kind, and nowhere else
        run = settled(changed(fresh, grams=(i, 1000 + i), rests=(i, 500000000)))
        printed = [kinds[j % 4](run, j // 20 + 1, j // 4 % 5 + 1).grams for j in range(60)]
        same(printed, [1001 + i if i == j else 0 for j in range(60)], "Run.grams, Run.rests")
    for i in range(15):
        # a total goes with the four kinds of its place and with no other, to the gram and to the billionth, its rest below 10^9
        place = i // 5 + 1, i % 5 + 1
        for j in range(60):
            run = changed(fresh, grams=(j, 7), rests=(j, 5), total_grams=(i, 7), total_rests=(i, 5))
            same(fields(total(run, *place)), (0, 7) if j // 4 == i else (16, 0), "Run.total_grams, Run.total_rests")
        for rest, total_rest in ((300000000, 200000000), (250000000, 0)):
            good = changed(fresh, total_grams=(i, 4001), total_rests=(i, total_rest))
            good.grams[4 * i:4 * i + 4], good.rests[4 * i:4 * i + 4] = [1000] * 4, [rest] * 4
            same((h.in_order(good), total(good, *place).number), (True, 0), "Run.total_grams, Run.total_rests")
            for grams, rest_of in ((4002, total_rest), (4000, total_rest), (4001, total_rest + 1), (4000, total_rest + 10**9 - 1),
                                   (4000, total_rest + 10**9), (4001, (total_rest - 1) % 2**64)):
                bad = changed(good, total_grams=(i, grams), total_rests=(i, rest_of))
                same((h.in_order(bad), total(bad, *place).number), (False, 16), "a total that is broken")
    fuels = {1: 0, 2: 0, 3: 0, 4: 2, 5: 0, 6: 1, 7: 1}
    for i in range(16):
        # X of 1: the cold factor is E, so the cold grams are those of the whole distance at the urban speed, of each class and
        # quantity whose X this is; the last is that of CO of class 3 and of nothing else, class 5 has none
        run = changed(fresh)
        run.x[:] = [1000000000 if i == j else 0 for j in range(16)]
        for vehicle_class, fuel in fuels.items():
            after = add(run, record(vehicle_class=vehicle_class, shares=(100, 0, 0))).run
            for q in range(5):
                at = fuel * 20 + q * 4
                place = None if vehicle_class == 5 else 15 if (vehicle_class, q) == (3, 0) else fuel * 5 + q
                same(after.grams[at + 3], after.grams[at] if place == i else 0, "Run.x")
    for vehicle_class in (2, 6, 4):
        fuel = fuels[vehicle_class]
        run = changed(fresh, count=7)
        run.km[:] = [1, 2, 3]
        after = add(run, record(vehicle_class=vehicle_class)).run
        same((after.count, list(after.km)), (8, [g + 1 + (10000000 if g == fuel else 0) for g in range(3)]), "Run.count, Run.km")


def fields(answer):
    return tuple(getattr(answer, name) for name, _ in answer._fields_)


def answers(run):
    a = h._call("open")(head())
    same((a.number, a.run.trip, a.run.count, a.run.x[:5]), (0, 120, 0, [532440000, 23664000, 354960000, 0, 112404000]), "RunAnswer")
    same(a.run.x[15], 383356800, "RunAnswer")
    same((a.run.total_grams[:], a.run.total_rests[:]), ([0] * 15, [0] * 15), "RunAnswer")
    same((run.total_grams[:], run.total_rests[:]), ([27132182, 4195387, 1919776, 0, 962235860] + [0] * 10, [0] * 15), "RunAnswer")
    same(fields(h._call("total")(run, 1, 1)), (0, 27132182), "GramsAnswer")
    same(fields(h._call("total")(run, 4, 1)), (11, 0), "GramsAnswer")
    same(fields(h._call("balance")(run, 1, 1, 1000)), (0, 1039246, 12, 28197012), "BalanceAnswer")
    same(fields(h._call("balance")(run, 1, 1, 481)), (13, 0, 0, 0), "BalanceAnswer")
    few = h.Run.from_buffer_copy(run)
    few.grams[16:20], few.rests[16:20] = [0, 1250000, 0, 0], [0] * 4
    # 1 t over 1.25 t: the seventh digit is the last
    same(fields(h._call("balance")(settled(few), 1, 1, 1)), (0, 800000, 7, 21705746), "BalanceAnswer")
    buffer = (c_uint8 * 400)()
    same(fields(h._call("report")(run, buffer, 400)), (0, 388), "LengthAnswer")
    same(fields(h._call("report")(run, buffer, 387)), (14, 0), "LengthAnswer")
    same(fields(h._call("map_row")(run, 1, 1)), (0, 6038000.0, 6118000.0, 6939000.0, 8037182.0), "MapRowAnswer")
    same(fields(h._call("map_row")(run, 0, 1)), (11, 0.0, 0.0, 0.0, 0.0), "MapRowAnswer")
    same(fields(h._call("figure_cold")(run, 1, 1)), (0, 1, 8037182.0), "FigureAnswer")
    same(fields(h._call("figure_cold")(run, 1, 4)), (0, 0, 0.0), "FigureAnswer")
    same(fields(h._call("figure_cold")(run, 1, 6)), (11, 0, 0.0), "FigureAnswer")
    same(fields(h._call("layout")()), (h.LAYOUT, sizeof(h.Run)), "LayoutAnswer")
    text = (b"  120" + b"  100" * 12 + b"\n 2   1000  10000  40  40  20  20  60 100\n"
            b" 0   1000  10000  40  40  20  20  60 100\n")
    a = h._call("sheet")(h._bytes("text", text)[0], 107)
    same((a.number, a.line, bytes(a.run)), (0, 0, bytes(run)), "SheetAnswer")
    a = h._call("sheet")(*h._bytes("text", text))
    same((a.number, a.line, bytes(a.run)), (3, 3, bytes(1368)), "SheetAnswer")
    same(h.report_sheet(text), (b"REFUSED  3     3\n", 3, 3), "report_sheet")
    for length, room, wanted in ((107, 388, (0, 388, 0, 0)), (107, 387, (14, 0, 0, 0)), (148, 17, (0, 17, 3, 3)), (148, 16, (14, 0, 3, 3)),
                                 (0, 17, (0, 17, 10, 1)), (66, 0, (0, 0, 0, 0))):
        same(fields(h._call("report_sheet")(h._bytes("text", text)[0], length, (c_uint8 * 400)(), room)), wanted, "TextAnswer")


def lists(fresh, run):
    """A list: each value of the answer by itself, and the numbers of a record in the order of its fields."""
    def added(numbers, a_head=None):
        a = h._call("add_list")(a_head or head(), (c_uint64 * max(len(numbers), 1))(*numbers), len(numbers))
        return (a.number, a.taken, a.place, a.refused, bytes(a.run))

    numbers = record().numbers()
    same(numbers, [2, 1000, 10000, 40, 40, 20, 20, 60, 100], "Record.numbers")
    same(added(numbers), (0, 1, 0, 0, bytes(run)), "ListAnswer")
    same(added([]), (0, 0, 0, 0, bytes(fresh)), "ListAnswer")
    for length in range(1, 9):
        for a_head in (head(), h.head(9, [100] * 12)):
            same(added(numbers[:length], a_head), (10, 0, 0, 0, bytes(1368)), "ListAnswer")
    same(added(numbers, h.head(9, [100] * 12)), (1, 0, 0, 0, bytes(1368)), "ListAnswer")
    same(added(numbers, h.head(120, [401] * 12)), (2, 0, 0, 0, bytes(1368)), "ListAnswer")
    four = h._call("add_list")(head(), (c_uint64 * 36)(*numbers * 4), 36).run
    for i, why in enumerate((3, 4, 5, 7, 7, 7, 8, 8, 8)):
        # a number beyond its limit, in each of the nine places of the third record
        wrong = numbers * 5
        wrong[18 + i] += 1 << 32
        same(added(wrong), (0, 4, 3, why, bytes(four)), "ListAnswer")


def orders(fresh, run):
    """In order, and each word out of it."""
    same((h.in_order(fresh), h.in_order(run), h.in_order(h.Run())), (True, True, False), "in_order")
    for i in range(171):
        data = bytearray(run)
        data[8 * i + 7] |= 128
        same(h._call("in_order")(h.Run.from_buffer_copy(data)), 0, "in_order of a damaged word")


def joins(fresh, run):
    """Joining: each word of the first and of the second run has its effect at its place; refused, the first comes back."""
    join = h._call("join")

    def joined(first, second, number, wanted, what):
        a = join(first, second)
        same((a.number, bytes(a.run)), (number, bytes(wanted)), what)

    def with_word(run, i, change):
        words = (c_uint64 * 171).from_buffer_copy(run)
        words[i] = change(words[i])
        return h.Run.from_buffer_copy(words)

    first, second, both = changed(fresh, count=3), changed(fresh, count=4), changed(fresh, count=7)
    for i in range(3):
        first.km[i], second.km[i], both.km[i] = 10 + i, 200 + 7 * i, 210 + 8 * i
    for i in range(60):
        # every other place with a carry
        more = i % 2
        first.grams[i], second.grams[i], both.grams[i] = 1000 + i, 50000 + 7 * i, 51000 + 8 * i + more
        first.rests[i], second.rests[i], both.rests[i] = 600000000 + i, 100000000 + more * 300000000, 700000000 + i - more * 700000000
    first, second, both = settled(first), settled(second), settled(both)
    joined(first, second, 0, both, "join")
    joined(second, first, 0, both, "join")
    for one in (first, second, both, fresh):
        joined(one, fresh, 0, one, "join with a fresh run")
        joined(fresh, one, 0, one, "join with a fresh run")
    joined(run, run, 0, h.add(run, record()), "join of two records")
    for i in range(17):
        # L and each X, good by themselves, but another head's
        other = with_word(second, i, lambda n: n + 1)
        joined(first, other, 21, first, "join of other heads")
        joined(other, first, 21, other, "join of other heads")
    for i in range(171):
        # each word out of its range, in either run: before the others
        bad = with_word(changed(second, count=4998, x=(15, second.x[15] + 1)), i, lambda n: n | 2**63)
        joined(first, bad, 16, first, "join with a damaged word")
        joined(bad, first, 16, bad, "join with a damaged word")
        joined(bad, bad, 16, bad, "join with a damaged word")
    for one, other in ((5000, 0), (0, 5000), (4999, 1), (2500, 2500), (5000, 1), (1, 5000), (2500, 2501), (5000, 5000)):
        # 5,000 records together, and one more; other heads come before that
        first, second = changed(fresh, count=one), changed(fresh, count=other)
        if one + other <= 5000:
            joined(first, second, 0, changed(fresh, count=one + other), "join of 5,000 records")
        else:
            joined(first, second, 22, first, "join of 5,000 records")
        joined(first, changed(second, x=(0, second.x[0] + 1)), 21, first, "join of 5,000 records")


def numbers_of(lent):
    return (c_uint64 * h.AREAS_NUMBERS).from_buffer_copy(lent)


def tried(lent, area, adding, asking, what):
    """Adding to an area and asking for its run give these numbers; a refused add leaves every number, a refused run is zeros."""
    before = bytes(lent)
    a = h._call("area_run")(lent, h.AREAS_NUMBERS, area)
    run = bytes(1368) if asking else before[1368 * area:1368 * area + 1368]
    same((a.number, bytes(a.run) == run, bytes(lent) == before), (asking, True, True), what)
    lent = h.Areas.from_buffer_copy(before)
    same((h._call("add_area")(lent, h.AREAS_NUMBERS, area, record()), bytes(lent) == before), (adding, adding != 0), what)


def areas(fresh):
    """Areas: every run and the common use by calls, as runs are tried above."""
    open_areas, add_area, area_run, size = h._call("open_areas"), h._call("add_area"), h._call("area_run"), h.AREAS_NUMBERS
    cold, opened = h.head(9, [100] * 12), bytes(fresh) * 16 + bytes(8)
    for area in (0, 16):
        tried(h.Areas(), area, 16, 16, "areas of zeros")
    for a_head, number, wanted in ((head(), 0, opened), (cold, 1, bytes(21896)), (h.head(120, [401] * 12, 1), 2, bytes(21896)),
                                   (h.head(120, [100] * 12, 20260516, 20260500), 19, bytes(21896)),
                                   (h.head(120, [100] * 12, 20260516, 20260515), 20, bytes(21896))):
        # opened over ones, with more behind: every number of the areas is written, and no other
        lent = (c_uint64 * (2 * size))(*[2**64 - 1] * (2 * size))
        same(open_areas(ctypes.cast(lent, h._AREAS), size, a_head), number, "open_areas")
        same(bytes(lent) == wanted + b"\xff" * 21896, True, "areas after open_areas")
    # another length, 16 before all else, and every number stays
    lent = (c_uint64 * (2 * size)).from_buffer_copy(opened * 2)
    place = ctypes.cast(lent, h._AREAS)
    for length in (0, 1, 171, 2257, size - 1, size + 1, 2 * size):
        same([open_areas(place, length, head()), open_areas(place, length, cold)], [16, 16], "another length")
        same([add_area(place, length, 3, record()), add_area(place, length, 16, record(vehicle_class=0))], [16, 16], "another length")
        for area in (3, 16):
            a = area_run(place, length, area)
            same((a.number, bytes(a.run)), (16, bytes(1368)), "another length")
        same(bytes(lent) == opened * 2, True, "areas of another length")
    # no such area, before the record's own numbers; no cut to the lower half of a word
    good = h.Areas.from_buffer_copy(opened)
    for area in (16, 17, 2**32, 2**32 + 3, 2**64 - 1):
        same([add_area(good, size, area, record()), add_area(good, size, area, record(vehicle_class=0))], [17, 17], "no such area")
        a = area_run(good, size, area)
        same((a.number, bytes(a.run), bytes(good) == opened), (17, bytes(1368), True), "no such area")
    # a record of its own in each area: its run is that of the single add, and nothing else changes
    wanted = h.Areas.from_buffer_copy(opened)
    for i in range(16):
        own = record(vehicle_class=i % 7 + 1, vehicles=1000 + i)
        wanted.runs[i] = h.add(fresh, own)
        same((add_area(good, size, i, own), bytes(good) == bytes(wanted)), (0, True), "add_area")
    for i in range(16):
        a = area_run(good, size, i)
        same((a.number, bytes(a.run)), (0, bytes(good)[1368 * i:1368 * i + 1368]), "area_run")
    # joined one after the other: a run with the sixteen records
    joined = single = fresh
    for i in range(16):
        single = h.add(single, record(vehicle_class=i % 7 + 1, vehicles=1000 + i))
        a = h._call("join")(joined, area_run(good, size, i).run)
        same((a.number, bytes(a.run)), (0, bytes(single)), "join of areas")
        joined = a.run
    same((good.common, bytes(good.runs)), (0, bytes(good)[:21888]), "Areas")
    # each field of a record is refused with its own number, as in the single add
    for i, why in enumerate((3, 4, 5, 7, 7, 7, 8, 8, 8)):
        numbers, lent = record().numbers(), h.Areas.from_buffer_copy(good)
        numbers[i] += 1 << 32
        wrong = h.Record.from_buffer_copy((c_uint64 * 9)(*numbers))
        same((add_area(lent, size, 3, wrong), bytes(lent) == bytes(good)), (why, True), "a record in add_area")
    # each number out of its range, whichever area is asked
    for i in range(size):
        numbers = numbers_of(good)
        numbers[i] |= 2**63
        tried(h.Areas.from_buffer_copy(numbers), i % 17, 16, 16, "areas with number %d damaged" % i)
    for i in range(16):
        other = (i + 5) % 16
        for name, most, places in (("km", 3000000000, 3), ("grams", 3000000000000, 60), ("rests", 999999999, 60)):
            # each limit of a run, in each area: the last good value is taken, the next is not
            for j in range(places):
                for value, number in ((most, 0), (most + 1, 16)):
                    lent = h.Areas.from_buffer_copy(good)
                    lent.runs[i] = settled(changed(fresh, count=3, **{name: (j, value)}))
                    tried(lent, other, number, number, "Areas.runs.%s at its limit and over it" % name)
        for name in ("total_grams", "total_rests"):
            # each total off by one gram and by one billionth
            for j in range(15):
                lent = h.Areas.from_buffer_copy(good)
                getattr(lent.runs[i], name)[j] ^= 1
                tried(lent, other, 16, 16, "Areas.runs.%s" % name)
        for name, most, places in (("trip", 200, [None]), ("x", 4900000000, range(16))):
            # L and each X, good by themselves, but another head's; the same in all, up to their limits
            for j in places:
                lent = h.Areas.from_buffer_copy(good)
                lent.runs[i] = changed(lent.runs[i], trip=121) if j is None else changed(lent.runs[i], x=(j, lent.runs[i].x[j] + 1))
                tried(lent, other, 16, 16, "Areas.runs.%s of another head" % name)
                for value, number in ((most, 0), (most + 1, 16)):
                    lent.runs = [changed(run, **{name: value if j is None else (j, value)}) for run in good.runs]
                    tried(lent, i, number, number, "Areas.runs.%s of one head" % name)
        # common is what the areas have beyond 300, and never less for one below: taken, full (18), not in order (16)
        for count, others, common, adding in (
                (299, 1, 0, 0), (300, 1, 0, 0), (301, 1, 1, 0), (301, 299, 1, 0), (499, 1, 199, 0), (299, 500, 200, 0), (400, 399, 199, 0),
                (500, 1, 200, 18), (300, 500, 200, 18), (301, 499, 200, 18), (400, 400, 200, 18),
                (299, 1, 1, 16), (300, 1, 1, 16), (301, 1, 0, 16), (301, 1, 2, 16), (301, 299, 0, 16), (500, 1, 199, 16), (500, 1, 201, 16),
                (501, 1, 201, 16), (501, 1, 200, 16), (401, 400, 201, 16), (400, 400, 100, 16), (5000, 1, 4700, 16), (5001, 1, 4701, 16)):
            lent = h.Areas.from_buffer_copy(good)
            lent.runs[i].count, lent.runs[other].count, lent.common = count, others, common
            tried(lent, i, adding, 16 if adding == 16 else 0, "Areas.runs.count, Areas.common")
            if adding == 0:
                wanted = h.Areas.from_buffer_copy(lent)
                wanted.runs[i], wanted.common = h.add(lent.runs[i], record()), common + (1 if count >= 300 else 0)
                same((add_area(lent, size, i, record()), bytes(lent) == bytes(wanted)), (0, True), "areas with one more")
            if adding == 18:
                # after the record's own numbers
                same(add_area(lent, size, i, record(speeds=(20, 60, 131))), 8, "a full area")


def days():
    """The days of a head, in each call that takes one and in a sheet."""
    temps, high, zeros = [-50, -20, 10, 60, 110, 150, 180, 175, 130, 80, 30, -10], 1 << 32, bytes(1368)
    for first, last, number in ((20260515, 20261020, 0), (20260515, 20260515, 0), (20261020, 20260515, 20), (20260515, 20270515, 20),
                                (20260515, 0, 19), (0, 20260515, 19), (high + 20260515, 20261020, 19), (20260515, high + 20261020, 19),
                                (2**64 - 1, 2**64 - 1, 19), (0, 0, 0)):
        a_head = h.head(120, temps, first, last)
        a = h._call("open")(a_head)
        same((a.number, bytes(a.run) == zeros), (number, number != 0), "days in open")
        listed = h._call("add_list")(a_head, (c_uint64 * 1)(), 0)
        same((listed.number, bytes(listed.run)), (number, bytes(a.run)), "days in add_list")
        lent = h.Areas()
        same(h._call("open_areas")(lent, h.AREAS_NUMBERS, a_head), number, "days in open_areas")
        same(bytes(lent) == bytes(a.run) * 16 + bytes(8), True, "areas of days")
        line = b"".join(b"%5d" % n for n in (120, *temps))
        same(len(line) + 1, h.HEAD_BYTES, "HEAD_BYTES")
        if max(first, last) < 10**9:
            line += b"%9d%9d\n" % (first, last)
            same(len(line), h.DATED_HEAD_BYTES, "DATED_HEAD_BYTES")
            # a line of 15 numbers is dated, also by days 0 and 0
            number = 19 if (first, last) == (0, 0) else number
            s = h._call("sheet")(*h._bytes("text", line))
            same((s.number, s.line, bytes(s.run)), (number, 1 if number else 0, zeros if number else bytes(a.run)), "days in a sheet")
    for month in range(12):
        # a day of each month has the X of its month's T, and of no other
        day, mixed = 20260101 + 100 * month, [100] * 12
        mixed[month] = 50
        same(h.open_run(h.head(120, mixed, day, day)).x[:], h.open_run(h.head(120, [50] * 12)).x[:], "X of one day")


def main():
    fresh = h.open_run(head())
    run = h.add(fresh, record())
    as_documented()
    sizes_written(run)
    inputs(fresh)
    runs(fresh)
    answers(run)
    lists(fresh, run)
    orders(fresh, run)
    joins(fresh, run)
    areas(fresh)
    days()
    print("Python: %d sizes, offsets and values compared, %s" % (done, "SOME DIFFER" if failed else "all the same"))
    sys.exit(1 if failed else 0)


main()
