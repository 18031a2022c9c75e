"""Holds README.md and docs/SPECIFICATION.md against what they speak of.

    python3 tests/papers.py

The tables, figures and samples of the two pages against tools/reference.py; the structs of the page against
include/haldurap.h; that every file and definition that a section names exists. Prints `N passed, M failed`, and exits 1 where one failed.
"""
import glob
import os
import re
import sys
from fractions import Fraction

ROOT = os.path.abspath(os.path.join(os.path.dirname(os.path.abspath(__file__)), ".."))
sys.path.insert(0, os.path.join(ROOT, "tools"))
import factors
import reference as ref

passed = failed = 0


def same(what, found, wanted):
    global passed, failed
    if found == wanted:
        passed += 1
    else:
        failed += 1
        print("FAILED: %s\n  found  %r\n  wanted %r" % (what, found, wanted))


def read(path):
    with open(os.path.join(ROOT, path), encoding="utf-8") as file:
        return file.read()


def rows(text):
    """The cells of each row of the tables in a text, without the lines under their heads."""
    cells = [[cell.strip() for cell in line.strip().strip("|").split("|")] for line in text.split("\n") if line.startswith("|")]
    return [row for row in cells if set(row[0]) != {"-"}]


def numbers(cell):
    return (0, 0, 0) if cell == "none" else tuple(int(n) for n in cell.split(","))


README = read("README.md")
PAGE = read("docs/SPECIFICATION.md")
SECTIONS = {part.group(1): part.group(2) for part in re.finditer(r"^## (.*?)\n(.*?)(?=^## |\Z)", PAGE, re.S | re.M)}
NAMES = {name: quantity for quantity, name in ref.NAMES.items()}


def hot_factors():
    heads, five, seen = None, False, 0
    for row in rows(SECTIONS["Hot factors"]):
        if row[0] == "Class":
            heads = row[1:]
        elif row[0] == "Class 5":
            five = True
        elif five:
            seen += 1
            same("class 5, " + row[0], tuple(0 if cell == "none" else int(cell) for cell in row[1:]), ref.CLASS_5[NAMES[row[0]]])
        else:
            for name, cell in zip(heads, row[1:]):
                a, b, c = numbers(cell)
                seen += 1
                wanted = [ref.hot_factor(int(row[0]), NAMES[name], 0, v) for v in range(10, 131)]
                same("class %s, %s" % (row[0], name), [a * v * v + b * v + c for v in range(10, 131)], wanted)
    same("hot factors: 30 curves and five rows of class 5", seen, 35)


def cold_starts():
    heads, seen = None, 0
    for row in rows(SECTIONS["Cold starts"]):
        if row[0] == "p, q":
            heads = row[1:]
            continue
        for name, cell in zip(heads, row[1:]):
            wanted = ref.RATIOS.get((int(row[0][0]), NAMES[name]))
            seen += 1
            same("%s, %s" % (row[0], name), None if cell == "none" else tuple(int(n) for n in cell.split(",")), wanted)
    same("cold starts: 15 ratios", seen, 15)
    largest = ref.open_run((10, [-300] * 12))[1].x
    same("cold starts: the largest X", re.findall(r"largest is ([\d,]+), CO of gasoline .*?; that of class 3 is ([\d,]+) there", SECTIONS["Cold starts"]),
         [("{:,}".format(largest[1, ref.CO]), "{:,}".format(largest[ref.CLASS_3_CO]))])


def figures():
    run = ref.add(ref.open_run((120, [100] * 12))[1], (2, 1000, 10000, (40, 40, 20), (20, 60, 100)))[1]
    icy = ref.open_run((10, [-297] * 12))[1]
    k, digits, balanced = ref.balance(run, 1, 1, 1000)[1:]
    co = ref.hot_factor(2, ref.CO, 0, 20)
    wanted = [ref.cold_share(120, 100)] + [run.x[ref.x_name(cls, q)] for cls in (2, 3) for q in (ref.CO, ref.NOX, ref.VOC, ref.FC)]
    wanted += [icy.x[ref.x_name(cls, ref.CO)] for cls in (2, 3)] + [ref.half_up(Fraction(icy.x[ref.x_name(2, ref.CO)] * 72, 100))]
    february = 120, [100, -100] + [100] * 10
    spans = (), (20260101, 20261231), (20000101, 20001231), (20000229, 20000229), (20260515, 20261020)
    cold = [ref.open_run(february + days)[1].x for days in spans]
    wanted += [x[ref.x_name(2, ref.CO)] for x in cold]
    wanted += [cold[1][ref.x_name(3, ref.CO)], ref.half_up(Fraction(cold[1][ref.x_name(2, ref.CO)] * 72, 100))]
    wanted += [ref.hot_factor(2, ref.CO, 0, v) for v in (20, 60, 100)] + [ref.cold_factor(co, run.x[1, ref.CO]), k, digits, balanced]
    wanted += [ref.half_up(Fraction(44011000 * 13825400, 12011000 + 1008 * 1800)), ref.half_up(Fraction(3 * 1000000 * 2, 4000000))]
    table = [row for row in rows(SECTIONS["Figures"]) if len(row) == 2][1:]
    same("the table of figures", [int(row[1].split(" ")[0].replace(",", "")) for row in table], wanted)
    for row in rows(SECTIONS["Figures"]):
        if len(row) == 6 and row[0] in NAMES:
            q = NAMES[row[0]]
            e = [ref.hot_factor(2, q, 0, v) for v in (20, 60, 100)]
            same("step by step, " + row[0], [int(cell.replace(",", "")) for cell in row[1:]],
                 e + [run.x[1, q], ref.cold_factor(e[0], run.x[1, q])])


def samples():
    example, fleet, seasonal, damaged = (read("sheets/%s.txt" % name) for name in ("example", "fleet", "seasonal", "damaged"))
    sheet, report = re.findall(r"^```\n(.*?)^```", SECTIONS["Report"], re.S | re.M)[:2]
    same("the page's sheet", sheet, example)
    same("the page's report", report, ref.program_text(example.encode()).decode())
    blocks = ["\n".join(line[4:] for line in block.split("\n")) for block in re.findall(r"(?:^    .*\n)+", README, re.M)]
    for label, text in (("example", example), ("fleet", fleet), ("seasonal road", seasonal)):
        same("README: the report of the " + label, ref.program_text(text.encode()).decode() in blocks, True)
    for label, text in (("fleet", fleet), ("seasonal road", seasonal)):
        same("README: the sheet of the " + label, any(block.endswith(text) for block in blocks), True)
    same("README: the factors of class 6", factors.table(6).startswith(next(block for block in blocks if block.startswith("class 6,"))), True)
    same("README: the damaged sheet", "prints `%s`" % ref.program_text(damaged.encode()).decode().rstrip("\n") in README, True)


def structs():
    header = read("include/haldurap.h")
    wanted = {}
    for size, body, name in re.findall(r"([\d,]+) bytes\.(?:(?!\d bytes\.).)*?typedef struct \w+ \{\n(.*?)\n\} (\w+);", header, re.S):
        fields = re.findall(r"^ +[\w ]+?(\w+(?:\[\d+\])?);\s*/\*\s+(\d+)", body, re.M)
        wanted[name] = [size, ", ".join("%s %s" % field for field in fields)]
    page = {row[0].strip("`"): row[1:] for row in rows(SECTIONS["C interface"]) if row[0].startswith("`haldurap_") and len(row) == 3 and row[1].replace(",", "").isdigit()}
    same("structs", page, wanted)
    calls = set(re.findall(r"\b(haldurap_\w+)\(", re.sub(r"/\*.*?\*/", "", header, flags=re.S)))
    said = set(re.findall(r"`(haldurap_\w+)", SECTIONS["C interface"])) - set(page)
    said |= {base + kind for base in ("haldurap", "haldurap_figure") for kind in ("_urban", "_rural", "_highway", "_cold")}
    same("calls", said, calls)


def cited():
    specs = {path: read(path) for path in (os.path.relpath(path, ROOT) for path in glob.glob(os.path.join(ROOT, "crates", "*", "specs", "*.antt")))}
    everything = "\n".join(specs.values())
    for name, text in SECTIONS.items():
        lines = [line for line in text.split("\n") if line.startswith("Carried by: ")]
        same("%s: its last line" % name, [text.rstrip("\n").split("\n")[-1]], lines)
        folder = None
        for path in re.findall(r"crates/\w+/specs(?:/\w+\.antt)?|(?<=[ (])\w+\.antt", lines[0] if lines else ""):
            if path.startswith("crates/"):
                folder = path.split("/specs")[0] + "/specs"
                there = os.path.isdir(os.path.join(ROOT, path)) if path == folder else path in specs
            else:
                there = "%s/%s" % (folder, path) in specs
            same("%s: %s is there" % (name, path), there, True)
        for word in re.findall(r"`(\w+)`", lines[0] if lines else ""):
            defined = re.search(r"^\s*(?:unfoldable |abbrev )?pub (?:record |data |abbrev )?%s\b" % word, everything, re.M)
            declared = any(re.search(r"\bpub (?:struct|enum|fn) %s\b" % word, read(os.path.relpath(path, ROOT))) for path in glob.glob(os.path.join(ROOT, "crates", "*", "src", "lib.rt")))
            same("%s: %s is defined" % (name, word), bool(defined) or declared, True)
    for path in re.findall(r"crates/\w+/specs/\w+\.antt", README):
        same("README: %s is there" % path, path in specs, True)
    for crate, function in re.findall(r"`(\w+)::(\w+)[(`]", README):
        source = os.path.join("crates", crate, "src", "lib.rt")
        there = os.path.exists(os.path.join(ROOT, source)) and bool(re.search(r"^pub fn %s[<(]" % function, read(source), re.M))
        same("README: %s::%s is there" % (crate, function), there, True)
    listed = set(re.findall(r"^(\w+)(?: staticlib)?:", read("crates.txt"), re.M))
    same("README: the table of crates", set(re.findall(r"`(\w+)`", "\n".join(row[0] for row in rows(README.split("## The repository")[1])))), listed)
    same("README: nothing is left to fill", re.findall(r"PLACEHOLDER\w*", README + PAGE), [])


def main():
    for part in (hot_factors, cold_starts, figures, samples, structs, cited):
        if sys.argv[1:] and part.__name__ not in sys.argv[1:]:
            continue
        part()
    print("%d passed, %d failed" % (passed, failed))
    sys.exit(1 if failed else 0)


if __name__ == "__main__":
    main()
