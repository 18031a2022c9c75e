"""The emission factors of a class in g/km, looked up in the factor book: speeds down, quantities across.

    python3 tools/factors.py CLASS        CLASS is 1, 2, 3, 4, 6 or 7

The figures are those of crates/factorbook/stdout, with all of their seven decimals; nothing is computed here. Exits 2 where the
table is not printed whole, and says why.
"""
import sys

import book

VEHICLES = {
    1: "gasoline van, conventional",
    2: "gasoline van, 93/59",
    3: "gasoline van, 96/69",
    4: "LPG vehicle, 91/441",
    6: "diesel van, conventional",
    7: "diesel van, 93/59",
}


def grams(e):
    """E, in units of 0.0000001 g/km, as g/km."""
    return "%d.%07d" % divmod(e, 10**7)


def table(cls):
    lines = ["class %d, %s: hot factors in g/km" % (cls, VEHICLES[cls])]
    lines.append("km/h" + "".join("%13s" % name for name in book.QUANTITIES))
    entries = book.book()
    for v in book.SPEEDS:
        lines.append("%4d" % v + "".join("%13s" % grams(entries[cls, name, v]) for name in book.QUANTITIES))
    return "\n".join(lines) + "\n"


def refused(why):
    print("tools/factors.py: %s" % why, file=sys.stderr)
    sys.exit(2)


def main():
    if sys.argv[1:] in (["-h"], ["--help"]):
        print(__doc__.strip())
        return
    if len(sys.argv) != 2:
        refused("give one class: python3 tools/factors.py 6")
    if sys.argv[1] == "5":
        refused("class 5 has no factors by speed; its figures by road are in docs/SPECIFICATION.md, \"Hot factors\"")
    if sys.argv[1] not in map(str, VEHICLES):
        refused("the factor book has no class %r; its classes are 1, 2, 3, 4, 6 and 7" % sys.argv[1])
    try:
        text = table(int(sys.argv[1]))
    except book.BookError as error:
        refused(error)
    if sys.stdout is None:
        refused("standard output is closed")
    try:
        sys.stdout.write(text)
        sys.stdout.flush()
    except OSError as error:
        # what is left in the buffer must not be tried again at the end
        sys.stdout = None
        refused("the table is not printed whole: %s" % error.strerror)


if __name__ == "__main__":
    main()
