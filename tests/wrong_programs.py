"""Wrong programs `report` that no stored run shows: each is made in a scratch copy of crates/report and must be caught.

    python3 tests/wrong_programs.py

A text buffer of 388 bytes, an input of 65,536 or of 4,096 bytes: `rt check` must refuse to compile it, since the call
of the library takes these sizes alone. A program that does not print a text of 17 bytes: the proof must refuse it, by what
`write_text` promises. A program that does not say that reading failed: no contract speaks of standard error, so it is proved
and built, and tests/report.py must catch it. What `rt check` kept of the libraries (tools/program.sh report) makes this
quick. Exits 1 where one is not caught.
"""
import os
import re
import shutil
import subprocess
import sys

ROOT = os.path.normpath(os.path.join(os.path.dirname(os.path.abspath(__file__)), ".."))
WRONG = os.path.join(ROOT, "target", "wrong")
TEXT, INPUT = r"\b1_?455\b", r"\b65_?537\b"
# where the writing of the text begins; a report has a multiple of 97 bytes, the line of a refusal 17
BEGIN = r"(fn write_text<W: Write>\(writer: &mut W, text: &\[u8\]\) -> io::Result<\(\)>\n(?:    ensures .*\n)*\{\n    let mut n: usize = )0;"

# where a failed read is told
TELL = r"Err\(Trouble::Reading\(e\)\) => tell\(&rt, \"reading standard input\", e\),"

failed = 0


def scratch(name):
    """A copy of the repository's crates with what a check kept of them (a gigabyte, so each goes when it was tried); only
    report is proved again."""
    folder = os.path.join(WRONG, name)
    shutil.rmtree(folder, ignore_errors=True)
    os.makedirs(folder)
    shutil.copy(os.path.join(ROOT, "crates.txt"), folder)
    program = os.path.join(ROOT, "crates", "report", "out")
    shutil.copytree(os.path.join(ROOT, "crates"), os.path.join(folder, "crates"), ignore=lambda at, names: ["out"] if os.path.join(at, "out") == program else [])
    return folder


def changed(name, pattern, replacement):
    """`rt check` in a scratch copy where every place of report's src/ that fits is replaced: its folder, status and output."""
    folder, places = scratch(name), 0
    for base, _, files in os.walk(os.path.join(folder, "crates", "report", "src")):
        for path in (os.path.join(base, file) for file in files):
            with open(path, encoding="utf-8") as file:
                text, n = re.subn(pattern, replacement, file.read())
            with open(path, "w", encoding="utf-8") as file:
                file.write(text)
            places += n
    if places == 0:
        sys.exit("%s: crates/report/src has no place that fits %r" % (name, pattern))
    ended = subprocess.run(["rt", "check"], cwd=os.path.join(folder, "crates", "report"), stdout=subprocess.PIPE, stderr=subprocess.STDOUT, text=True)
    return folder, ended.returncode, ended.stdout


def say(name, caught, how, output=""):
    global failed
    if caught:
        print("%s: caught, %s" % (name, how))
    else:
        failed += 1
        print("%s: NOT CAUGHT\n%s" % (name, output))


def does_not_compile(name, pattern, replacement):
    """The compiler itself refuses it: no proof is asked for, and no program is there."""
    folder, status, output = changed(name, pattern, replacement)
    error = re.search(r"\bsrc/\w+\.rt:\d+:\d+: error\[mismatched-types\]: .*", output)
    proved = re.search(r"^fn report::.*: proved", output, re.M)
    caught = status != 0 and error is not None and not proved
    say(name, caught, "it does not compile: %s" % (error and error.group()[:200]), output)
    shutil.rmtree(folder)


def is_refused(name, pattern, replacement, function):
    """It compiles, and the proof of the function refuses it."""
    folder, status, output = changed(name, pattern, replacement)
    refused = re.search(r"^fn report::%s: (?:not proved|no proof).*" % function, output, re.M)
    caught = status == 1 and refused is not None and "error[" not in output and re.search(r"^logic=not-proved", output, re.M)
    say(name, caught, "it is not proved: %s" % (refused and refused.group()[:200]), output)
    shutil.rmtree(folder)


def is_seen_by_the_test(name, pattern, replacement, part):
    """It is proved, and tests/report.py tells it by what it prints."""
    folder, status, output = changed(name, pattern, replacement)
    crate = os.path.join(folder, "crates", "report")
    program = os.path.join(crate, "out", "report")
    if status == 0:
        subprocess.run(["rt", "run"], cwd=crate, stdin=subprocess.DEVNULL, stdout=subprocess.DEVNULL, stderr=subprocess.DEVNULL)
    if status != 0 or not os.path.exists(program):
        sys.exit("%s: the wrong program was to be built, and was not\n%s" % (name, output))
    ended = subprocess.run([sys.executable, os.path.join(ROOT, "tests", "report.py"), program, part], stdout=subprocess.PIPE, text=True)
    caught = ended.returncode == 1 and re.search(r"^\d+ passed, [1-9]\d* failed$", ended.stdout, re.M)
    say(name, caught, "tests/report.py: %s" % ended.stdout.splitlines()[-1], ended.stdout)
    shutil.rmtree(folder)


def main():
    does_not_compile("text_of_388_bytes", TEXT, "388")
    does_not_compile("input_of_65536_bytes", INPUT, "65536")
    does_not_compile("input_of_4096_bytes", INPUT, "4096")
    is_refused("refusal_not_printed", BEGIN, r"\1text.len() % 97;", "write_text")
    is_seen_by_the_test("failed_read_not_told", TELL, "Err(Trouble::Reading(_)) => Ok(()),", "failed_reads")
    sys.exit(1 if failed else 0)


if __name__ == "__main__":
    main()
