"""Two programs of bench/main.rs, each linked with another archive, pass by pass in turn, and their best times side by side.

    python3 bench/against.py BEFORE AFTER [PASSES]

bench/run.sh --against builds both and calls this. Each pass is a process of its own, so that where a stack or a page
happens to lie does not stay for a whole comparison; the program that begins changes with each pass. Exits 1 where a row
took more than a twentieth longer than before, and where a balance of fewer digits took no less time.
"""
import subprocess
import sys


def load():
    with open("/proc/loadavg", encoding="ascii") as file:
        return " ".join(file.read().split()[:3])


def one_pass(program, best):
    lines = subprocess.run([program, "--rows"], check=True, stdout=subprocess.PIPE, text=True).stdout.splitlines()
    for line in lines:
        name, *times = line.split("\t")
        kept = best.setdefault(name, [float("inf")] * 3)
        best[name] = [min(pair) for pair in zip(kept, map(float, times))]


def main():
    before, after = {}, {}
    passes = int(sys.argv[3]) if len(sys.argv) > 3 else 12
    print("load before:", load())
    for turn in range(passes):
        order = [(sys.argv[1], before), (sys.argv[2], after)]
        for program, best in order if turn % 2 == 0 else reversed(order):
            one_pass(program, best)
    print("load after:", load())
    print("ns for one operation, the best of %d passes of 100 repetitions, the two archives in turn;" % passes)
    print("(a) plain reference and (b) tuned by hand, as timed beside each\n")
    print("%-30s%12s%12s%8s   %12s%12s%12s%12s" % ("", "before", "after", "ratio", "(a) before", "(a) after", "(b) before", "(b) after"))
    slower = []
    for name, (ours, plain, tuned) in after.items():
        if name not in before:
            print("%-30s%12s%12.1f%8s   %12s%12.1f%12s%12.1f  new" % (name, "-", ours, "-", "-", plain, "-", tuned))
            continue
        was, plain_was, tuned_was = before[name]
        verdict = "within a twentieth" if ours <= 1.05 * was else "SLOWER BY MORE THAN A TWENTIETH"
        if ours > 1.05 * was:
            slower.append(name)
        print("%-30s%12.1f%12.1f%8.3f   %12.1f%12.1f%12.1f%12.1f  %s" % (name, was, ours, ours / was, plain_was, plain, tuned_was, tuned, verdict))
    balances = [times[0] for name, times in after.items() if name.startswith("balance, ")]
    early = all(fewer < more for fewer, more in zip(balances, balances[1:]))
    print("\nbalances of 6, 7, 9 and 12 digits after:", "fewer digits take less time" if early else "FEWER DIGITS DO NOT TAKE LESS TIME")
    sys.exit("slower: " + ", ".join(slower) if slower else 0 if early else 1)


if __name__ == "__main__":
    main()
