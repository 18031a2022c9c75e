"""What the three programs print, from the independent calculation: python3 examples/expected.py > examples/expected.txt."""
import os
import sys

sys.path.insert(0, os.path.join(os.path.dirname(os.path.abspath(__file__)), "..", "tools"))
import reference  # noqa: E402

HEAD = (120, (100,) * 12)
FLEET = [
    (2, 1000, 10000, (40, 40, 20), (20, 60, 100)),
    (6, 2500, 18000, (30, 45, 25), (25, 70, 110)),
    (4, 300, 12000, (55, 30, 15), (30, 65, 95)),
]
PASS = (186, (-78, -75, -48, -14, 36, 72, 98, 95, 61, 22, -34, -65))
WRONG = [FLEET[0], (6, 2500, 18000, (30, 45, 25), (25, 70, 131)), FLEET[2]]


def sheet(fleet):
    return reference.head_line(HEAD) + b"".join(reference.record_line(record) for record in fleet)


def numbers(fleet):
    return [n for cls, vehicles, km, shares, speeds in fleet for n in (cls, vehicles, km, *shares, *speeds)]


number, run = reference.open_run(HEAD)
for record in FLEET:
    number, run = reference.add(run, record)
    assert number == 0
print("records:", run.count)
sys.stdout.write(reference.report_text(run).decode("ascii"))
assert reference.sheet_text(sheet(FLEET)) == (0, 0, reference.report_text(run))
print("from a sheet: the same")
number, taken, place, refused, listed = reference.add_list(HEAD, numbers(FLEET))
assert (number, place, refused) == (0, 0, 0) and vars(listed) == vars(run)
print("from a list: %d taken, the same" % taken)
one, others = (reference.add_list(HEAD, numbers(fleet))[-1] for fleet in (FLEET[:1], FLEET[1:]))
number, joined = reference.join(one, others)
assert number == 0 and vars(joined) == vars(run)
print("from two crews: %d and %d records, joined the same" % (one.count, others.count))
for fuel, sold in ((1, 1000), (2, 4400), (3, 210)):
    for quantity in reference.QUANTITIES:
        number, k, digits, grams = reference.balance(run, fuel, quantity, sold)
        assert number == 0, (fuel, reference.total(run, fuel, reference.FC))
        if quantity == reference.CO:
            print("fuel %d: %d t sold, k %d in %d digits" % (fuel, sold, k, digits))
        print("  %s %d g" % (reference.NAMES[quantity], grams))
print("CO2 of gasoline: %d g" % reference.co2(run, 1, 1800)[1])
for label, head in (("15 May to 20 October 2026", (*PASS, 20260515, 20261020)), ("without dates", PASS)):
    number, taken, _, _, listed = reference.add_list(head, numbers(FLEET))
    assert (number, taken) == (0, 3)
    print("CO from cold starts, %s: %d g" % (label, reference.kind_total(listed, 1, reference.CO, "cold")[1]))
number, run = reference.add(run, WRONG[1])
print("131 km/h, added: refused with %d, records: %d" % (number, run.count))
number, taken, place, refused, listed = reference.add_list(HEAD, numbers(WRONG))
assert number == 0
print("131 km/h in a list: %d taken, the first refused at place %d with %d" % (taken, place, refused))
print("131 km/h in a sheet: refused with %d at line %d" % reference.sheet_text(sheet(WRONG))[:2])
number, joined = reference.join(run, reference.open_run(PASS)[1])
print("joined with a run of the pass: refused with %d, records: %d" % (number, joined.count))
