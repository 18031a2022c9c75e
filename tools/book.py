"""The factor book as Rattle source, from the stored output of the program `factorbook`.

    python3 tools/book.py            writes crates/book/src/entries.rt and crates/book_pages/src/lib.rt
    python3 tools/book.py --check    exits 1 if one of them is not what it would write

The entries are the lines of crates/factorbook/stdout. The arms are the pages of the book but the last, each with its pair of
classes and its speed; no number of the book is in them.
"""
import os
import re
import sys

ROOT = os.path.normpath(os.path.join(os.path.dirname(os.path.abspath(__file__)), ".."))
BOOK = os.path.join(ROOT, "crates", "factorbook", "stdout")
CLASSES, QUANTITIES, SPEEDS = (1, 2, 3, 4, 6, 7), ("CO", "NOX", "VOC", "PM", "FC"), range(10, 131)
WRITTEN = "// Written by tools/book.py from crates/factorbook/stdout: change nothing here.\n"

ENTRIES = """// The factor book in units of 0.0000001 g/km: every class but 5, every quantity, every whole speed from 10 to 130 km/h.
pub const BOOK: [u64; {count}] = [
{entries}];
"""

PAGES = """// Page n of a lent table in the order of the factor book, each arm reading it at constant places, so that the compiler puts a
// constant that is lent here into read-only memory. For that `page_at` must have one caller (docs/PERFORMANCE.md).
#![tactic(auto)]

ghost use Rattle.std.specs.Prelude.{{◌≡◌, ◌<◌}};
ghost use Rattle.book_lines.specs.Lines.{{page_of}};

use book_lines::{{page_from, page_last}};

pub fn page_at(t: &[u64; {count}], n: usize) -> [[u64; 5]; 2]
    requires {{ n < {pages} }}
    ensures {{ result ≡ page_of t.now n }}
{{
    match n {{
{arms}        _ => page_last(t, n),
    }}
}}
"""


class BookError(Exception):
    """Why there is no book, and what to do."""


def book():
    """The entries, by class, quantity and speed."""
    count = len(CLASSES) * len(QUANTITIES) * len(SPEEDS)
    again = "; bring back the file of the repository, or write it anew: tools/program.sh factorbook; target/bin/factorbook > crates/factorbook/stdout"
    try:
        with open(BOOK, "rb") as file:
            *lines, rest = file.read().split(b"\n")
    except OSError as error:
        raise BookError("crates/factorbook/stdout cannot be read: %s%s" % (error.strerror, again))
    for number, line in enumerate(lines, 1):
        if not re.fullmatch(rb"0|[1-9][0-9]*", line):
            raise BookError("crates/factorbook/stdout, line %d: %r is not a number of the book%s" % (number, line.decode("latin-1"), again))
    if len(lines) != count or rest:
        raise BookError("crates/factorbook/stdout has %d lines%s and not %d%s" % (len(lines), " and a part of one" if rest else "", count, again))
    keys = [(c, q, v) for c in CLASSES for q in QUANTITIES for v in SPEEDS]
    return dict(zip(keys, map(int, lines)))


def entries(table):
    """The entries as `rt fmt` lays them out: as many to a line as fit into 99 columns."""
    rows, row = [], ""
    for (c, q, v), e in table.items():
        word = " %d," % e
        if v == SPEEDS[0] or len("   " + row + word) > 99:
            rows.append(row)
            row = ""
        if v == SPEEDS[0]:
            rows.append(" // class %d, %s" % (c, q))
        row += word
    rows.append(row)
    return WRITTEN + ENTRIES.format(count=len(table), entries="".join("   %s\n" % row for row in rows if row))


def pages(table):
    # a page is two classes at one speed
    count = len(CLASSES) // 2 * len(SPEEDS)
    arms = ["        %d => page_from(t, n, %d, %d),\n" % (n, n // len(SPEEDS), n % len(SPEEDS)) for n in range(count - 1)]
    return WRITTEN + PAGES.format(count=len(table), pages=count, arms="".join(arms))


def main():
    if sys.argv[1:] in (["-h"], ["--help"]):
        print(__doc__.strip())
        return None
    if sys.argv[1:] not in ([], ["--check"]):
        return "tools/book.py: %s is not known; it takes --check or nothing" % " ".join(sys.argv[1:])
    try:
        table = book()
        for name, text in {"crates/book/src/entries.rt": entries(table), "crates/book_pages/src/lib.rt": pages(table)}.items():
            path = os.path.join(ROOT, name)
            if sys.argv[1:] != ["--check"]:
                with open(path, "wb") as file:
                    file.write(text.encode())
                continue
            with open(path, "rb") as file:
                if file.read() != text.encode():
                    return "tools/book.py: %s is not made of crates/factorbook/stdout; write it anew: python3 tools/book.py" % name
    except BookError as error:
        return "tools/book.py: %s" % error
    except OSError as error:
        return "tools/book.py: %s: %s" % (error.filename, error.strerror)
    return None


if __name__ == "__main__":
    sys.exit(main())
