"""The programs of README.md as a reader types them: each is written to the file that the README names, built and run by the
command that stands under it, and must print what the README says.

    python3 tests/readme.py

A program is a fenced block behind a line that names it, "`first.X`, ..", "`areas.X`, .." or "`joins.X`, .."; the next indented line is its command, and the sentence behind that,
"prints ..", names lines of its output between backticks, or "the report above". Needs the archive. Exits 1 where one differs.
"""
import os
import re
import shutil
import subprocess
import sys
import tempfile

ROOT = os.path.normpath(os.path.join(os.path.dirname(os.path.abspath(__file__)), ".."))
PROGRAM = re.compile(r"^(?:[^`\n]*\. )?`((?:first|areas|joins)\.\w+)`[^\n]*\n\n```\w+\n(.*?)^```\n\n    ([^\n]+)\n\n(prints [^\n]+?\.)(?:\s|$)", re.M | re.S)
REPORT = re.compile(r"(?:^     1 .*\n)+", re.M)


def main():
    with open(os.path.join(ROOT, "README.md"), encoding="utf-8") as file:
        readme = file.read()
    report = [line[4:] for line in REPORT.search(readme).group().splitlines()]
    programs = PROGRAM.findall(readme)
    failed = 0 if sorted(name for name, *_ in programs) == ["areas.c", "first.c", "first.py", "first.rs", "joins.c"] else 1
    with tempfile.TemporaryDirectory() as folder:
        # include/ and sheets/ as they are; a target/ of its own, so that nothing is written to ours
        for name in ("include", "sheets"):
            os.symlink(os.path.join(ROOT, name), os.path.join(folder, name))
        for name in ("examples", "target"):
            os.mkdir(os.path.join(folder, name))
        shutil.copy(os.path.join(ROOT, "examples", "haldurap.py"), os.path.join(folder, "examples"))
        os.symlink(os.path.join(ROOT, "target", "libhaldurap.a"), os.path.join(folder, "target", "libhaldurap.a"))
        for name, text, command, prints in programs:
            with open(os.path.join(folder, name), "w", encoding="utf-8") as file:
                file.write(text)
            wanted = report * ("the report above" in prints) + re.findall(r"`([^`]+)`", prints)
            ended = subprocess.run(["sh", "-c", command], cwd=folder, capture_output=True, text=True)
            if (ended.returncode, ended.stdout.splitlines(), ended.stderr) == (0, wanted, ""):
                print("%s: as the README says, %d lines" % (name, len(wanted)))
            else:
                failed = 1
                print("%s: DIFFERS\n  command %s\n  wanted %s\n  status %d, printed %s\n%s" % (name, command, wanted, ended.returncode, ended.stdout.splitlines(), ended.stderr))
    print("%d programs of README.md" % len(programs))
    sys.exit(failed)


if __name__ == "__main__":
    main()
