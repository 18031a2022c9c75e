"""The stored output of the program `timing`, from tools/reference.py.

    python3 tools/timing.py            writes crates/timing/stdout
    python3 tools/timing.py --check    exits 1 if the file is not what it would write

One run of the program's fleet (5,000 records, all seven classes in turn); the program fills 400 such runs and prints the last:
grams and rest of each sum, then of each stored total.
"""
import os
import sys

import reference as ref

HEAD = (120, [-50, 0, 50, 100, 150, 200, 200, 200, 150, 100, 50, 0])
STDOUT = os.path.join(os.path.dirname(__file__), "..", "crates", "timing", "stdout")


def record(i):
    return (i % 7 + 1, i % 1000 + 1, i % 10000 + 1, (40, 40, 20), (i % 121 + 10, i % 113 + 15, i % 101 + 20))


def output():
    number, run = ref.open_run(HEAD)
    assert number == 0
    for i in range(5000):
        number, run = ref.add(run, record(i))
        assert number == 0, (i, number)
    sums = [(run.grams[place], run.rests[place]) for place in run.grams]
    stored = [(run.total_grams[place], run.total_rests[place]) for place in run.total_grams]
    return "".join(f"{grams} {rest}\n" for grams, rest in sums + stored)


if __name__ == "__main__":
    text = output()
    if sys.argv[1:] == ["--check"]:
        sys.exit(0 if open(STDOUT).read() == text else "crates/timing/stdout differs")
    open(STDOUT, "w").write(text)
