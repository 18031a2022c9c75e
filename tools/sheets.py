"""The cases of the test program `sheets`, and the answers that tools/reference.py gives for them.

    python3 tools/sheets.py            writes crates/sheets/stdin and crates/sheets/stdout
    python3 tools/sheets.py --check    exits 1 if the two files are not what it would write

A case is a label and the parts of a sheet, each with the number of times it stands there. The answer
is the number, the line, and the run: `zeros`, or all its fields, the stored totals last, and its printed totals.
"""
import random

import reference as ref
import vectors

HEAD = ref.head_line((120, [100] * 12))
SEASON = (20260515, 20261020)
DATED = ref.head_line((120, vectors.YEAR, *SEASON))
RECORD = ref.record_line((2, 1000, 10000, (40, 40, 20), (20, 60, 100)))
OTHER = ref.record_line((6, 987654, 1000, (33, 33, 34), (35, 75, 115)))
COLD_HEAD = ref.head_line((10, [-300] * 12))
MOST = ref.record_line((6, 1000000, 1000, (100, 0, 0), (130, 130, 130)))
FIELDS = ["class", "vehicles", "km", "urban share", "rural share", "highway share", "urban speed", "rural speed", "highway speed"]

# One line for each number of a record line that the line itself decides.
BAD = {
    3: ref.record_line((8, 1000, 10000, (40, 40, 20), (20, 60, 100))),
    4: ref.record_line((2, 1000001, 10000, (40, 40, 20), (20, 60, 100))),
    5: ref.record_line((2, 1000, 1000000, (40, 40, 20), (20, 60, 100))),
    6: ref.record_line((2, 100001, 10000, (40, 40, 20), (20, 60, 100))),
    7: ref.record_line((2, 1000, 10000, (40, 40, 19), (20, 60, 100))),
    8: ref.record_line((2, 1000, 10000, (40, 40, 20), (20, 60, 131))),
    10: b" " + RECORD,
}


class Cases:
    """Labels, and the parts of each sheet as (times, bytes)."""

    def __init__(self):
        self.list = []

    def say(self, label, *parts):
        self.list.append((label, [part if isinstance(part, tuple) else (1, part) for part in parts]))


def replaced(line, widths, place, field):
    """A line with another field in a place."""
    at = sum(widths[:place])
    return line[:at] + field + line[at + widths[place]:]


def lines(c):
    """Sheets without a line, with a head alone, empty lines, cut-off lines, CR LF, a byte more or less."""
    c.say("empty sheet")
    c.say("LF only", b"\n")
    c.say("LF LF", b"\n\n")
    c.say("head alone", HEAD)
    c.say("head and record", HEAD, RECORD)
    c.say("three records", HEAD, RECORD, OTHER, RECORD)
    c.say("record alone", RECORD)
    c.say("record before head", RECORD, HEAD)
    c.say("head twice", HEAD, HEAD)
    c.say("LF before head", b"\n", HEAD)
    c.say("LF behind head", HEAD, b"\n")
    c.say("LF between", HEAD, RECORD, b"\n", RECORD)
    c.say("LF at the end", HEAD, RECORD, b"\n")
    c.say("CR LF head", HEAD[:-1] + b"\r\n")
    c.say("CR LF record", HEAD, RECORD[:-1] + b"\r\n")
    c.say("CR LF all", (HEAD + RECORD).replace(b"\n", b"\r\n"))
    c.say("CR for LF", (HEAD + RECORD).replace(b"\n", b"\r"))
    c.say("LF CR", HEAD[:-1] + b"\n\r" + RECORD)
    for last in (b" ", b"\x00", b"\r", b"\x1a", b"\xff", b"0", RECORD[:-1], HEAD[:-1], RECORD[:-1] + b" "):
        c.say("behind the head's LF %r" % last, HEAD, last)
        c.say("behind the last LF %r" % last, HEAD, RECORD, last)
    for n in range(len(HEAD)):
        c.say("head cut to %d" % n, HEAD[:n])
        c.say("head cut to %d, LF" % n, HEAD[:n] + b"\n", RECORD)
    for n in range(len(RECORD)):
        c.say("record cut to %d" % n, HEAD, RECORD[:n])
        c.say("record cut to %d, LF" % n, HEAD, RECORD[:n] + b"\n", RECORD)
    for n in range(len(HEAD)):
        c.say("head, a space more at %d" % n, HEAD[:n] + b" " + HEAD[n:], RECORD)
        c.say("head, a byte less at %d" % n, HEAD[:n] + HEAD[n + 1:], RECORD)
    for n in range(len(RECORD)):
        c.say("record, a space more at %d" % n, HEAD, RECORD[:n] + b" " + RECORD[n:])
        c.say("record, a byte less at %d" % n, HEAD, RECORD[:n] + RECORD[n + 1:])


def head_fields(c):
    """L and every T at and beside their limits."""
    for trip in (0, 1, 9, 10, 11, 199, 200, 201, 1000, 99999):
        c.say("L %d" % trip, ref.head_line((trip, [100] * 12)), RECORD)
    for month in range(12):
        values = (-301, -300, 400, 401)
        if month in (0, 6, 11):
            values += (-9999, -1000, -302, -299, -10, -1, 0, 1, 399, 402, 9999, 10000, 99999)
        for t in values:
            temps = [100] * 12
            temps[month] = t
            c.say("T%d %d" % (month + 1, t), ref.head_line((120, temps)), RECORD)
    for trip in (0, 9, 10, 200, 201):
        for temps in ([401] * 12, [-300] * 12, [100] * 11 + [-301], [100] * 11 + [-9999]):
            c.say("L %d, T1 %d, T12 %d" % (trip, temps[0], temps[11]), ref.head_line((trip, temps)), RECORD)
    # A T of every sign and width.
    c.say("all T", ref.head_line((55, [-300, -299, -100, -99, -10, -9, -1, 0, 1, 9, 99, 400])), RECORD, OTHER)


def record_fields(c):
    """Every number of a record at and beside its limits."""
    def say(label, cls=2, vehicles=1000, km=10000, shares=(40, 40, 20), speeds=(20, 60, 100)):
        c.say(label, HEAD, RECORD, ref.record_line((cls, vehicles, km, shares, speeds)), OTHER)
    for cls in (0, 1, 2, 3, 4, 5, 6, 7, 8, 9, 10, 99):
        say("class %d" % cls, cls=cls)
    for n in (0, 1, 999999, 1000000, 1000001, 9999999):
        say("vehicles %d" % n, vehicles=n, km=1000)
        say("km %d" % n, vehicles=1000, km=n)
        say("km %d of 1" % n, vehicles=1, km=n)
    for vehicles, km in ((1000000, 1000), (1000000, 1001), (100000, 10000), (100001, 10000), (1001, 999000), (1001, 999001),
                         (31623, 31622), (31623, 31623), (1000000, 999999), (9999999, 9999999)):
        say("K %d x %d" % (vehicles, km), vehicles=vehicles, km=km)
    for shares in ((100, 0, 0), (0, 100, 0), (0, 0, 100), (101, 0, 0), (0, 101, 0), (0, 0, 101), (40, 40, 19), (40, 40, 21),
                   (39, 40, 20), (40, 41, 20), (0, 0, 0), (100, 100, 100), (9999, 0, 0), (0, 9999, 0), (0, 0, 9999), (9999,) * 3,
                   (99, 1, 0), (33, 33, 34), (1, 1, 98)):
        say("shares %d %d %d" % shares, shares=shares)
    for road in range(3):
        for speed in (0, 1, 9, 10, 11, 129, 130, 131, 1000, 9999):
            speeds = [60] * 3
            speeds[road] = speed
            without = [50] * 3
            without[road] = 0
            say("speed %d at road %d" % (speed, road), speeds=speeds)
            say("speed %d at road %d without share" % (speed, road), speeds=speeds, shares=without)
            say("speed %d at road %d of class 5" % (speed, road), cls=5, speeds=speeds)


def forms(width):
    """Fields of every wrong form, and a few right ones."""
    for text in (b"", b"0", b"00", b"5", b"05", b"005", b"0100", b"-", b"-0", b"-00", b"-5", b"-05", b"- 5", b"--5", b"5-", b"+5",
                 b"+0", b"5 ", b"5  ", b"0 ", b"1 5", b"1\t5", b"\t5", b"\x005", b"5\x00", b"\x0b5", b"\x7f5", b"\x805", b"\xa05",
                 b"\xff", b"/", b":", b"5:", b"/5", b"a", b"1a", b"1.", b".5", b"1e1", b"0x5", b"1,5", b"_5", b"\r5", b"5\r", b"\n5",
                 b"5\n", b"\n", b"'5", b"-\xb2", b"\xb2"):
        if len(text) <= width:
            yield text.rjust(width)
    yield b"0" * width
    yield b"9" * width
    yield b"5".rjust(width, b"0")
    yield b"5".ljust(width)
    yield b"-" + b"5".rjust(width - 1)
    yield b"-" + b"5".rjust(width - 1, b"0")
    yield b"-" + b"0" * (width - 1)
    yield b"-" + b"9" * (width - 1)
    yield b"-" * width
    yield b"\x00" * width
    yield b"\n" * width


def field_forms(c):
    """Each form in each field; a T in the first, a middle and the last month."""
    for place, name in ((0, "L"), (1, "T1"), (7, "T7"), (12, "T12")):
        for form in forms(5):
            c.say("%s %r" % (name, form), replaced(HEAD, ref.HEAD_WIDTHS, place, form), RECORD)
    for place, name in enumerate(FIELDS):
        for form in forms(ref.RECORD_WIDTHS[place]):
            c.say("%s %r" % (name, form), HEAD, replaced(RECORD, ref.RECORD_WIDTHS, place, form))


def bytes_anywhere(c):
    """Every byte value in the last and the first byte of a field, in the head and in a record."""
    for byte in range(256):
        one = bytes([byte])
        c.say("byte %d ends T3" % byte, replaced(HEAD, ref.HEAD_WIDTHS, 3, b"  10" + one))
        c.say("byte %d before km" % byte, HEAD, replaced(RECORD, ref.RECORD_WIDTHS, 2, one + b" 10000"))


def grounds(c):
    """Every number at several lines, the first bad line, and the order within a line."""
    for number, line in BAD.items():
        c.say("%d at 2" % number, HEAD, line)
        c.say("%d at 3" % number, HEAD, RECORD, line, RECORD)
        c.say("%d at 11" % number, HEAD, (9, OTHER), line)
        c.say("%d behind a bad head" % number, ref.head_line((9, [100] * 12)), line)
        c.say("%d before a cut-off line" % number, HEAD, RECORD, line, b" 2")
        for later, other in BAD.items():
            c.say("%d before %d" % (number, later), HEAD, line, RECORD, other)
    for wrong in range(128):
        cls = 8 if wrong & 1 else 4
        vehicles = 1000001 if wrong & 2 else (999001 if wrong & 8 else 1000)
        km = 1000000 if wrong & 4 else 1001
        shares = (40, 40, 19) if wrong & 16 else (40, 40, 20)
        speeds = (20, 131, 100) if wrong & 32 else (20, 60, 100)
        line = ref.record_line((cls, vehicles, km, shares, speeds))
        c.say("wrong fields %d" % wrong, HEAD, line.replace(b"\n", b" \n") if wrong & 64 else line)
    for trip, t in ((b"    9", b"  401"), (b"  201", b"-9999"), (b"  - 9", b"  401"), (b"    9", b"   -0"), (b"   -9", b"  100")):
        c.say("head with L %r, T %r" % (trip, t), trip + t * 12 + b"\n", BAD[3])


def sizes(c):
    """The fullest sheet of 65,536 bytes, that size and one more, and runs filled through the sheet call."""
    for n in (1595, 1596, 1597):
        c.say("%d records" % n, HEAD, (n, RECORD))
    c.say("65536 bytes", HEAD, (1596, RECORD), (34, b" "))
    c.say("65536 bytes, LF", HEAD, (1596, RECORD), (33, b" "), b"\n")
    c.say("65537 bytes", HEAD, (1596, RECORD), (35, b" "))
    c.say("65537 bytes, LF", HEAD, (1596, RECORD), (34, b" "), b"\n")
    c.say("200000 spaces", (200000, b" "))
    c.say("200000 LF", (200000, b"\n"))
    c.say("head, 4000 LF", HEAD, (4000, b"\n"))
    mixed = b"".join(ref.record_line((cls, 100000 + cls, 9876, (cls, 90, 10 - cls), (10 + cls, 60, 130 - cls))) for cls in range(1, 8))
    for label, head, parts in (("example's", HEAD, [(4999, RECORD)]), ("largest", COLD_HEAD, [(4999, MOST)]),
                               ("mixed", HEAD, [(714, mixed), RECORD])):
        c.say("4999 %s records" % label, head, *parts)
        c.say("5000 %s records" % label, head, *parts, OTHER)
        c.say("5001 %s records" % label, head, *parts, OTHER, OTHER)
    c.say("5002 records", HEAD, (5002, RECORD))
    for number, line in BAD.items():
        c.say("%d behind 5000 records" % number, HEAD, (5000, RECORD), line)
    c.say("cut-off line behind 5000 records", HEAD, (5000, RECORD), RECORD[:-1])
    c.say("LF behind 5000 records", HEAD, (5000, RECORD), b"\n")
    c.say("bytes behind 5001 records", HEAD, (5001, RECORD), b" ")
    c.say("7 in the middle of 5000", HEAD, (2499, RECORD), BAD[7], (2500, RECORD))
    c.say("8 at the end of 5000", HEAD, (4999, RECORD), BAD[8])


def some_head(rng):
    """A head within the limits."""
    return rng.randint(10, 200), [rng.randint(-300, 400) for _ in range(12)]


def some_dated_head(rng):
    """The same with dates."""
    return *some_head(rng), *vectors.some_days(rng)


def some_sheet(rng, records, head=some_head):
    """A sheet that is taken."""
    return ref.head_line(head(rng)) + b"".join(ref.record_line(vectors.some_record(rng)) for _ in range(records))


def edited(rng, sheet):
    """A sheet with one byte, field or line changed."""
    edit = rng.randrange(8)
    at = rng.randrange(len(sheet))
    byte = bytes([rng.choice(b"0123456789 -\n\r") if rng.random() < 0.8 else rng.randrange(256)])
    if edit == 0:
        return sheet[:at] + byte + sheet[at:]
    if edit == 1:
        return sheet[:at] + sheet[at + 1:]
    if edit == 2:
        return sheet[:at]
    if edit == 3:
        parts = sheet.splitlines(True)
        parts.insert(rng.randrange(len(parts) + 1), parts.pop(rng.randrange(len(parts))))
        return b"".join(parts)
    if edit == 4:
        other = (at + rng.randint(1, 3)) % len(sheet)
        low, high = sorted((at, other))
        return sheet[:low] + sheet[high:high + 1] + sheet[low + 1:high] + sheet[low:low + 1] + sheet[high + 1:]
    # A digit for a digit, else any byte for any byte.
    if edit < 7:
        places = [i for i, b in enumerate(sheet) if b in b"0123456789"]
        at, byte = rng.choice(places), bytes([rng.choice(b"0123456789")])
    return sheet[:at] + byte + sheet[at + 1:]


def at_random(c):
    """Sheets that are taken, edits of one, and bytes without any form."""
    rng = random.Random(65536)
    for n in range(40):
        c.say("any sheet %d" % n, some_sheet(rng, rng.randint(0, 6)))
    for n in range(400):
        sheet = some_sheet(rng, rng.randint(1, 3)) if n % 2 else HEAD + RECORD
        for _ in range(rng.choice((1, 1, 1, 2))):
            sheet = edited(rng, sheet) or b"\n"
        c.say("edit %d" % n, sheet)
    for n in range(40):
        size = rng.randint(1, 120)
        c.say("any bytes %d" % n, bytes(rng.choice(b"0123456789 -\n") if n % 2 else rng.randrange(256) for _ in range(size)))


def dated_lines(c):
    """Line 1 with 15 numbers: cut, with a byte more or less, with LF and CR inside; 12, 14 and 16 numbers; days of other widths."""
    head, first, last = DATED[:65], DATED[65:74], DATED[74:83]
    c.say("dated head alone", DATED)
    c.say("dated head and record", DATED, RECORD)
    c.say("dated head, three records", DATED, RECORD, OTHER, RECORD)
    c.say("dated head without its days", head + b"\n", RECORD, OTHER)
    c.say("dated head twice", DATED, DATED)
    c.say("dated head behind a head", HEAD, DATED)
    c.say("head behind a dated head", DATED, HEAD)
    c.say("days alone", first + last + b"\n", RECORD)
    c.say("days in a line of their own", HEAD, first + last + b"\n")
    c.say("84 bytes, LF at 66", HEAD, first[:8] + last + b"\n", RECORD)
    shapes = {
        "12 numbers": head[:60],
        "14 numbers": head + first,
        "16 numbers": head + first + last + last,
        "16 numbers, the last of width 5": head + first + last + b"  100",
        "14 temperatures": head + b"  100  100",
        "days of width 5": head + b"    0    0",
        "days of width 8": head + first[1:] + last[1:],
        "days of width 8 and 10": head + first[1:] + b" " + last,
        "days of width 10 and 8": head + b" " + first + last[1:],
        "days of width 10": head + b" " + first + b" " + last,
        "days before L": first + last + head,
        "days before the temperatures": head[:5] + first + last + head[5:],
        "days as blanks": head + b" " * 18,
        "first day as blanks": head + b" " * 9 + last,
        "last day as blanks": head + first + b" " * 9,
        "days left-justified": head + b"20260515 20261020 ",
        "days joined": head + b"  2026051520261020",
        "days with points": head + b"2026.05.12026.10.2",
        "days with noughts in front": head + b"020260515020261020",
        "days 0 and 0": head + b"        0        0",
        "days 00 and 0": head + b"       00        0",
    }
    for label, line in shapes.items():
        c.say(label, line + b"\n", RECORD)
    for n in (0, 1, 5, 30, *range(59, len(DATED))):
        c.say("dated head cut to %d" % n, DATED[:n])
        c.say("dated head cut to %d, LF" % n, DATED[:n] + b"\n", RECORD)
        c.say("dated head, a space more at %d" % n, DATED[:n] + b" " + DATED[n:], RECORD)
        c.say("dated head, a byte less at %d" % n, DATED[:n] + DATED[n + 1:], RECORD)
        c.say("dated head, LF at %d" % (n + 1), DATED[:n] + b"\n" + DATED[n + 1:], RECORD)
    c.say("dated head, CR LF", DATED[:-1] + b"\r\n", RECORD)
    for one in (b"\r", b" ", b"0", b"\x00"):
        c.say("dated head, %r for its LF" % one, DATED[:-1] + one, RECORD)
    c.say("dated head, CR at 66", DATED[:65] + b"\r" + DATED[66:], RECORD)
    c.say("dated head, CR LF at 66", DATED[:65] + b"\r\n" + DATED[67:], RECORD)
    for byte in range(256):
        one = bytes([byte])
        c.say("byte %d at 66" % byte, DATED[:65] + one + DATED[66:], RECORD)
        c.say("byte %d ends the first day" % byte, replaced(DATED, ref.DATED_WIDTHS, 13, b" 2026051" + one))
        c.say("byte %d before the last day" % byte, replaced(DATED, ref.DATED_WIDTHS, 14, one + b"20261020"))
    for place, name in ((13, "first day"), (14, "last day"), (12, "T12 of a dated head")):
        for form in forms(ref.DATED_WIDTHS[place]):
            c.say("%s %r" % (name, form), replaced(DATED, ref.DATED_WIDTHS, place, form), RECORD)


def days(c):
    """Days that are none, in an order that is none, in both places; 10, 1, 2, 19, 20 in this order; days that are taken."""
    def say(first, last, trip=120, temps=vectors.YEAR):
        head = trip, temps, first, last
        c.say("L %d, T1 %d, T12 %d, days %d %d" % (trip, temps[0], temps[11], first, last), ref.head_line(head), RECORD)
        return ref.head_number(head)

    for day in (0, *(day for day in vectors.NO_DAYS if day < 10**9)):
        for pair in ((day, SEASON[1]), (SEASON[0], day), (day, day)):
            assert say(*pair) == 19
    for year in (1980, 1996, 1997, 2000, 2099, 2100):
        for month_day in (101, 131, 201, 228, 229, 230, 301, 430, 431, 1231, 1232):
            say(year * 10000 + month_day, year * 10000 + month_day)
            say(year * 10000 + 101, year * 10000 + month_day)
            say(year * 10000 + month_day, year * 10000 + 1231)
    for pair in ((20260516, 20260515), (20261231, 20260101), (20261231, 20270101), (20260515, 20270515), (20270515, 20260515)):
        assert say(*pair) == 20
    hot, icy = [401] + vectors.YEAR[1:], vectors.YEAR[:11] + [-301]
    for number, first, last, trip, temps in ((1, 0, 0, 9, [401] * 12), (1, 20260516, 20260515, 201, vectors.YEAR), (2, 0, 0, 120, hot),
                                             (2, 20260516, 20260515, 120, icy), (19, 20260631, 20260515, 120, vectors.YEAR),
                                             (19, 20260516, 20250229, 120, vectors.YEAR), (20, 20260516, 20260515, 120, vectors.YEAR)):
        assert say(first, last, trip, temps) == number
        line = ref.head_line((trip, temps, first, last))
        # the shape comes before all, the head before its records
        c.say("%d behind a wrong shape" % number, line[:-2] + b" \n", RECORD)
        c.say("%d behind a wrong L" % number, b"  012" + line[5:], RECORD)
        c.say("%d before a bad record" % number, line, BAD[3])
        c.say("%d before a line of wrong shape" % number, line, BAD[10])
    for number, line in BAD.items():
        c.say("%d behind a dated head" % number, DATED, RECORD, line)
    for n in (1596, 1597):
        c.say("dated head, %d records" % n, DATED, (n, RECORD))
    c.say("dated head, 65536 bytes", DATED, (1596, RECORD), (16, b" "))
    rng = random.Random(1231)
    for n in range(40):
        c.say("any dated sheet %d" % n, some_sheet(rng, rng.randint(0, 6), some_dated_head))
    for n in range(300):
        sheet = some_sheet(rng, rng.randint(1, 2), some_dated_head)
        for _ in range(rng.choice((1, 1, 1, 2))):
            # in line 1 more often than elsewhere
            sheet = edited(rng, sheet[:84]) + sheet[84:] if n % 3 else edited(rng, sheet)
        c.say("edit of a dated sheet %d" % n, sheet or b"\n")


def cases():
    """Every label with the parts of its sheet."""
    c = Cases()
    for part in (lines, head_fields, record_fields, field_forms, bytes_anywhere, grounds, sizes, at_random, dated_lines, days):
        part(c)
    return c.list


def whole(parts):
    """The bytes of a sheet."""
    return b"".join(data * times for times, data in parts)


def answer(text):
    """The answer for a sheet."""
    number, line, run = ref.read_sheet(text)
    if number:
        return b" %d %d zeros" % (number, line)
    printed = [ref.total(run, *place)[1] for place in vectors.TOTALS]
    return b"".join(b" %d" % n for n in (0, line, *vectors.fields(run), *printed))


def main():
    stdin, stdout = [], []
    for label, parts in cases():
        for times, data in parts:
            stdin.append(b"+ %d %d\n%s\n" % (times, len(data), data))
        stdin.append(b"= %s\n" % label.encode())
        stdout.append(label.encode() + b" =" + answer(whole(parts)) + b"\n")
    vectors.write("sheets", b"".join(stdin), b"".join(stdout))


if __name__ == "__main__":
    main()
