"""Opens a run, adds a fleet, prints the report, the same from a sheet, from a list and from two halves joined, balances it against
sold fuel, and asks for a part of a year: python3 examples/fleet.py."""
import sys

import haldurap

HEAD = haldurap.head(120, [100] * 12)
FLEET = [
    # class, vehicles, km, shares, speeds
    haldurap.record(2, 1000, 10000, (40, 40, 20), (20, 60, 100)),
    haldurap.record(6, 2500, 18000, (30, 45, 25), (25, 70, 110)),
    haldurap.record(4, 300, 12000, (55, 30, 15), (30, 65, 95)),
]
NAMES = ("CO", "NOX", "VOC", "PM", "FC")

# Tonnes sold of each fuel.
SOLD = {haldurap.GASOLINE: 1000, haldurap.DIESEL: 4400, haldurap.LPG: 210}


def sheet(fleet):
    """The head and a fleet as the text of a sheet."""
    text = "%5d" % HEAD.trip + "".join("%5d" % t for t in HEAD.temps) + "\n"
    for r in fleet:
        vehicle_class, vehicles, km, *roads = r.numbers()
        text += "%2d%7d%7d" % (vehicle_class, vehicles, km) + "".join("%4d" % n for n in roads) + "\n"
    return text.encode("ascii")


def cold_co(head):
    """CO of gasoline from cold starts, grams, of the fleet under a head."""
    return haldurap.cold(haldurap.add_list(head, FLEET).run, haldurap.GASOLINE, haldurap.CO)


def main():
    run = haldurap.open_run(HEAD)
    for part in FLEET:
        run = haldurap.add(run, part)
    print("records:", run.count)
    sys.stdout.write(haldurap.report(run).decode("ascii"))
    # The same head and fleet as the text of a sheet give the same report. Whether the sheet was taken is its own number.
    read = haldurap.report_sheet(sheet(FLEET))
    same = read.number == haldurap.TAKEN and read.text == haldurap.report(run)
    print("from a sheet:", "the same" if same else "another report")
    # And as a list.
    listed = haldurap.add_list(HEAD, FLEET)
    print("from a list: %d taken, %s" % (listed.taken, "the same" if bytes(listed.run) == bytes(run) else "another run"))
    # And by two crews, each with its own run under the same head: the first has one record, the second the others.
    one, others = haldurap.add_list(HEAD, FLEET[:1]).run, haldurap.add_list(HEAD, FLEET[1:]).run
    same = bytes(haldurap.join(one, others)) == bytes(run)
    print("from two crews: %d and %d records, joined %s" % (one.count, others.count, "the same" if same else "another run"))
    for fuel, sold in SOLD.items():
        for name, quantity in zip(NAMES, haldurap.QUANTITIES):
            b = haldurap.balance(run, fuel, quantity, sold)
            if quantity == haldurap.CO:
                print("fuel %d: %d t sold, k %d in %d digits" % (fuel, sold, b.k, b.digits))
            print("  %s %d g" % (name, b.grams))
    # 1.8 hydrogen per carbon.
    print("CO2 of gasoline: %d g" % haldurap.co2(run, haldurap.GASOLINE, 1800))
    # A mountain pass that is open from 15 May to 20 October 2026: cold starts go by the temperatures of these days, and without
    # dates by those of all months.
    temps = [-78, -75, -48, -14, 36, 72, 98, 95, 61, 22, -34, -65]
    print("CO from cold starts, 15 May to 20 October 2026: %d g" % cold_co(haldurap.head(186, temps, 20260515, 20261020)))
    mountain_pass = haldurap.head(186, temps)
    print("CO from cold starts, without dates: %d g" % cold_co(mountain_pass))
    # A refused add raises Refused and leaves the run as it was, a list passes the record over, a sheet is sent back.
    wrong = [FLEET[0], haldurap.record(6, 2500, 18000, (30, 45, 25), (25, 70, 131)), FLEET[2]]
    try:
        haldurap.add(run, wrong[1])
    except haldurap.Refused as refused:
        print("131 km/h, added: refused with %d, records: %d" % (refused.number, run.count))
    listed = haldurap.add_list(HEAD, wrong)
    print("131 km/h in a list: %d taken, the first refused at place %d with %d" % (listed.taken, listed.place, listed.refused))
    read = haldurap.report_sheet(sheet(wrong))
    if read.number != haldurap.TAKEN:
        print("131 km/h in a sheet: refused with %d at line %d" % (read.number, read.line))
    # Runs of other trip lengths or temperatures are not joined.
    try:
        haldurap.join(run, haldurap.open_run(mountain_pass))
    except haldurap.Refused as refused:
        print("joined with a run of the pass: refused with %d, records: %d" % (refused.number, run.count))


if __name__ == "__main__":
    main()
