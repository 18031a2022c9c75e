"""The factor book beside its proofs.

    python3 tests/book.py [PART...]      entries, table, callers, folded; all of them if none is named

entries   crates/factorbook/stdout against tools/reference.py, and the generated sources against it (tools/book.py --check)
table     tools/factors.py prints every factor of every class in g/km, and says what it cannot print, as of a damaged book
callers   the generator alone asks the curves, and reaches no crate of the constant, which is named once; `page_at` is called once
folded    in each object of the archive that adds, the compiler made the lookup tables of the book, 10 of 362 numbers, and in the
          others none. Where they are missing the whole book is built anew at each add: no proof sees that, only the clock does

Needs the archive. Prints a line for each part, and exits 1 where one failed.
"""
import glob
import os
import re
import shutil
import subprocess
import sys
import tempfile
from fractions import Fraction

ROOT = os.path.normpath(os.path.join(os.path.dirname(os.path.abspath(__file__)), ".."))
sys.path.insert(0, os.path.join(ROOT, "tools"))
import book
import reference as ref

QUANTITY = {name: quantity for quantity, name in ref.NAMES.items()}
# the 10 numbers of a page, for each of 362 pages, 8 bytes each; the last page is the default arm and stands in the code
TABLES, TABLE_BYTES = 10, 362 * 8
ADDING, OTHERS = ("capi_runs", "capi_lists", "capi_areas", "capi_texts"), ("capi_joins", "capi_questions", "capi_map")


def run(*words):
    return subprocess.run(words, cwd=ROOT, capture_output=True, text=True)


def factor(cls, name, speed):
    """E by the independent calculation; the road has no effect, but for class 5."""
    by_road = {ref.hot_factor(cls, QUANTITY[name], road, speed) for road in range(3)}
    assert len(by_road) == 1
    return by_road.pop()


def entries():
    wanted = [factor(cls, name, speed) for cls in (1, 2, 3, 4, 6, 7) for name in ("CO", "NOX", "VOC", "PM", "FC") for speed in range(10, 131)]
    with open(os.path.join(ROOT, "crates", "factorbook", "stdout"), "rb") as file:
        text = file.read()
    if text != "".join("%d\n" % e for e in wanted).encode():
        return "crates/factorbook/stdout is not the book of tools/reference.py"
    checked = run(sys.executable, "tools/book.py", "--check")
    return checked.stderr if checked.returncode else None


def table():
    with open(os.path.join(ROOT, "README.md"), encoding="utf-8") as file:
        vehicles = dict(re.findall(r"^\| (\d) \| ([^|]+?) \| (?:gasoline|diesel|LPG) \|$", file.read(), re.M))
    for cls in (1, 2, 3, 4, 6, 7):
        ended = run(sys.executable, "tools/factors.py", str(cls))
        if not ended.stdout.startswith("class %d, %s: hot factors in g/km\n" % (cls, vehicles[str(cls)])):
            return "class %d: its first line is %r" % (cls, ended.stdout.split("\n")[0])
        _, names, *lines = [line.split() for line in ended.stdout.splitlines()]
        if ended.returncode or ended.stderr or names != ["km/h", "CO", "NOX", "VOC", "PM", "FC"]:
            return "class %d: status %d, %r, %r" % (cls, ended.returncode, names, ended.stderr)
        found = [[int(line[0])] + [Fraction(cell) for cell in line[1:]] for line in lines]
        wanted = [[speed] + [Fraction(factor(cls, name, speed), 10**7) for name in names[1:]] for speed in range(10, 131)]
        if found != wanted:
            return "class %d: the table differs from tools/reference.py" % cls
    for words, why in ((["5"], "class 5 has no factors by speed"), (["8"], "no class '8'"), ([], "give one class"), (["1", "2"], "give one class")):
        ended = run(sys.executable, "tools/factors.py", *words)
        if (ended.returncode, ended.stdout, why in ended.stderr) != (2, "", True):
            return "%s: status %d, %r" % (words, ended.returncode, ended.stderr)
    for sink, why in ((">&-", "standard output is closed"), ("> /dev/full", "not printed whole")):
        ended = run("sh", "-c", "%s tools/factors.py 6 %s" % (sys.executable, sink))
        if (ended.returncode, why in ended.stderr) != (2, True):
            return "%s: status %d, %r" % (sink, ended.returncode, ended.stderr)
    return damaged()


def damaged():
    """A book that is cut or has another line is named, and no figure of it is printed."""
    with tempfile.TemporaryDirectory() as folder:
        os.makedirs(os.path.join(folder, "crates", "factorbook"))
        shutil.copytree(os.path.join(ROOT, "tools"), os.path.join(folder, "tools"), ignore=shutil.ignore_patterns("__pycache__"))
        stored = os.path.join(folder, "crates", "factorbook", "stdout")
        with open(os.path.join(ROOT, "crates", "factorbook", "stdout"), "rb") as file:
            whole = file.read()
        for text, why in (
            (None, "cannot be read"),
            (whole[:-1], "3629 lines and a part of one"),
            (whole + b"1\n", "3631 lines"),
            (whole.replace(b"\n", b"\r\n"), "line 1:"),
            (b"-" + whole, "line 1: '-437610000'"),
            (whole.replace(b"\n31548000\n", b"\n31_548_000\n"), "line 1816:"),
            (whole.replace(b"\n31548000\n", b"\n\xff\n"), "line 1816:"),
        ):
            if text is not None:
                with open(stored, "wb") as file:
                    file.write(text)
            for words, status in ((["tools/factors.py", "4"], 2), (["tools/book.py", "--check"], 1)):
                ended = subprocess.run([sys.executable] + words, cwd=folder, capture_output=True, text=True)
                if (ended.returncode, ended.stdout, why in ended.stderr, "Traceback" in ended.stderr) != (status, "", True, False):
                    return "%s with a damaged book (%s): status %d, %r" % (words[0], why, ended.returncode, ended.stderr)
    return None


def reached(crate):
    """The crates below a crate, by crates.txt."""
    with open(os.path.join(ROOT, "crates.txt"), encoding="utf-8") as file:
        below = {name: words.split() for name, words in re.findall(r"^(\w+)(?: staticlib)?:(.*)$", file.read(), re.M)}
    found, left = set(), [crate]
    while left:
        new = set(below.get(left.pop(), [])) - found
        found |= new
        left += new
    return found


def callers():
    sources = {}
    for path in glob.glob(os.path.join(ROOT, "crates", "*", "src", "**", "*.rt"), recursive=True):
        with open(path, encoding="utf-8") as file:
            # without comments and clauses
            sources[os.path.relpath(path, ROOT)] = re.sub(r"//.*|^ *(?:ghost use|requires|ensures)\b.*", "", file.read(), flags=re.M)

    def named(pattern):
        return sorted(path for path, text in sources.items() for _ in re.findall(pattern, text))

    for pattern, wanted in (
        (r"\bpage_at\b", ["crates/book/src/lib.rt", "crates/book_pages/src/lib.rt"]),
        (r"\bBOOK\b", ["crates/book/src/entries.rt", "crates/book/src/lib.rt"]),
        (r"\bfactor_book\b", ["crates/book/src/lib.rt"] * 2),
        (r"\bcurve_factors\b", ["crates/book_entries/src/lib.rt", "crates/factors/src/lib.rt"]),
        (r"\bcurves::", ["crates/factors/src/lib.rt"]),
        (r"\bentry_of\b", ["crates/book_entries/src/lib.rt", "crates/factorbook/src/main.rt"]),
    ):
        if named(pattern) != wanted:
            return "%s stands in %s and not in %s" % (pattern, named(pattern), wanted)
    below = reached("factorbook")
    return "factorbook reaches the constant by %s" % below if {"book", "book_pages"} & below else None


def lookup_tables():
    """The lookup tables of a `match` in each object of the archive: how many, by their size in bytes."""
    listed = run("objdump", "-h", "-w", "target/libhaldurap.a")
    if listed.returncode:
        sys.exit("objdump of target/libhaldurap.a: %s" % listed.stderr)
    tables = {}
    for name, part in re.findall(r"^(\w+)\.o: +file format (.*?)(?=^\w+\.o: |\Z)", listed.stdout, re.M | re.S):
        sizes = [int(size, 16) for section, size in re.findall(r"^ *\d+ (\S+) +([0-9a-f]+) ", part, re.M) if "switch.table" in section]
        tables[name] = {size: sizes.count(size) for size in sizes}
    return tables


def folded():
    wanted = {name: {TABLE_BYTES: TABLES} for name in ADDING} | {name: {} for name in OTHERS}
    found = lookup_tables()
    if found != wanted:
        return "the archive's lookup tables, by size, are\n%s\nand not\n%s\nsee docs/PERFORMANCE.md, \"The factor book\"" % (found, wanted)
    return None


def main():
    parts = {part.__name__: part for part in (entries, table, callers, folded)}
    for name in sys.argv[1:]:
        if name not in parts:
            sys.exit("tests/book.py: there is no part %s; the parts are: %s" % (name, ", ".join(parts)))
    failed = 0
    for name in sys.argv[1:] or parts:
        why = parts[name]()
        print("%s: %s" % (name, "ok" if why is None else "FAILED: " + why))
        failed += why is not None
    sys.exit(1 if failed else 0)


if __name__ == "__main__":
    main()
