"""Runs the program `report` and compares what it prints with what the independent calculation says (tools/reference.py).

    python3 tests/report.py [PROGRAM [PART...]]

PROGRAM is target/bin/report where none is named; the parts are the functions at the end, all where none is named. Prints
`N passed, M failed`, and exits 1 where one failed.
"""
import ctypes
import errno
import glob
import mmap
import os
import random
import resource
import shutil
import signal
import subprocess
import sys
import tempfile
import time

ROOT = os.path.join(os.path.dirname(os.path.abspath(__file__)), "..")
sys.path.insert(0, os.path.join(ROOT, "tools"))

import reference as ref
import sheets

# What SPECIFICATION, "Report", prints for its sheet.
EXAMPLE = b"""\
 1  CO           6038000           6118000           6939000           8037182          27132182
 1 NOX           1605600           1464800           1030000             94987           4195387
 1 VOC            538400            362400            541200            477776           1919776
 1  FC         441208000         248984000         148060000         123983860         962235860
"""


# A program that takes longer hangs.
MOST_SECONDS = 60


class Test:
    """Counts what passed and what failed."""

    def __init__(self, program):
        self.program = program
        self.passed = self.failed = 0

    def compare(self, label, expected, status, output, errors):
        if (status, output, errors) == (0, expected, b""):
            self.passed += 1
            return
        self.failed += 1
        print("FAILED: %s\n  expected %r\n  printed  %r, exit status %d, %r" % (label, expected, output, status, errors))

    def says(self, label, what, reason, printed, status, output, errors):
        """One line on standard error that says what failed and why, and on standard output what was written before."""
        line = ("report: %s: %s\n" % (what, os.strerror(reason) if isinstance(reason, int) else reason)).encode()
        if (status, output, errors) == (0, printed, line):
            self.passed += 1
            return
        self.failed += 1
        print("FAILED: %s\n  expected %r and the line %r\n  printed  %r, exit status %d, %r" % (label, printed, line, output, status, errors))

    def failed_read(self, label, reason, done):
        """After a failed read nothing is printed: no figure of a part of the input."""
        self.says(label, "reading standard input", reason, b"", done.returncode, done.stdout, done.stderr)

    def failed_write(self, label, reason, done, printed=b""):
        self.says(label, "writing standard output", reason, printed, done.returncode, done.stdout or b"", done.stderr)

    def run(self, stdin, before="", behind="", **options):
        """The program with this standard input, a descriptor; a shell's words before and behind it where there are some."""
        words = ["sh", "-c", '%s exec "$0" %s' % (before, behind), self.program] if before or behind else [self.program]
        options = {"stdout": subprocess.PIPE, "stderr": subprocess.PIPE, **options}
        return subprocess.run(words, stdin=stdin, timeout=MOST_SECONDS, **options)

    def at_once(self, label, text):
        """The text in a pipe, all that it takes at a time."""
        done = subprocess.run([self.program], input=text, capture_output=True, timeout=MOST_SECONDS)
        self.compare(label, ref.program_text(text), done.returncode, done.stdout, done.stderr)

    def from_file(self, label, path, expected):
        """A file as standard input."""
        with open(path, "rb") as file:
            done = subprocess.run([self.program], stdin=file, capture_output=True, timeout=MOST_SECONDS)
        self.compare(label, expected, done.returncode, done.stdout, done.stderr)

    def in_pieces(self, label, text, sizes, pause):
        """The text in a pipe in pieces, the last size again and again, with a pause before each and before the end."""
        run = subprocess.Popen([self.program], stdin=subprocess.PIPE, stdout=subprocess.PIPE, stderr=subprocess.PIPE, bufsize=0)
        at, turn = 0, 0
        try:
            while at < len(text):
                time.sleep(pause)
                size = sizes[min(turn, len(sizes) - 1)]
                at += run.stdin.write(text[at:at + size])
                turn += 1
            time.sleep(pause)
            run.stdin.close()
        except BrokenPipeError:
            # The program may end before all of a sheet that is too long is written.
            pass
        run.stdin = None
        output, errors = run.communicate(timeout=MOST_SECONDS)
        self.compare("%s in pieces of %s" % (label, sizes), ref.program_text(text), run.returncode, output, errors)


def examples(t):
    """The sheets under sheets/, from a file and in a pipe; the specification's own against the text printed there."""
    paths = sorted(glob.glob(os.path.join(ROOT, "sheets", "*.txt")))
    assert paths
    for path in paths:
        with open(path, "rb") as file:
            text = file.read()
        name = os.path.basename(path)
        t.from_file(name + " as a file", path, ref.program_text(text))
        t.at_once(name, text)
        for sizes in ([1], [7], [40], [41], [65], [66], [67], [83], [84], [85], [65, 1, 40, 1], [65, 9, 9, 1]):
            t.in_pieces(name, text, sizes, 0.001)
    t.from_file("the specification's report", os.path.join(ROOT, "sheets", "example.txt"), EXAMPLE)
    t.from_file("no input", os.devnull, ref.refused_line(10, 1))


def sheet_cases(t):
    """Every case of the program `sheets`."""
    for label, parts in sheets.cases():
        t.at_once(label, sheets.whole(parts))


def generated(t):
    """Fleets at random, up to the largest that fit."""
    rng = random.Random(1998)
    for n in [rng.randint(0, 60) for _ in range(40)] + [400, 1000, 1595, 1596]:
        t.at_once("fleet of %d" % n, sheets.some_sheet(rng, n))
    for n in [rng.randint(0, 60) for _ in range(40)] + [1596]:
        t.at_once("fleet of %d, dated" % n, sheets.some_sheet(rng, n, sheets.some_dated_head))


def edge(t):
    """65,536 bytes are read; with one more the sheet is refused with 10 at line 1, whatever it holds."""
    rng = random.Random(65537)
    low = ref.head_line((9, [100] * 12))
    mild = ref.head_line((120, [100] * 11 + [401]))
    fill = sheets.RECORD * 1700
    texts = {
        "spaces": b" " * 70000,
        "zero bytes": b"\x00" * 70000,
        "LF": b"\n" * 70000,
        "head, LF": sheets.HEAD + b"\n" * 70000,
        "random": bytes(rng.randrange(256) for _ in range(70000)),
        "random characters of a sheet": bytes(rng.choice(b" 0123456789-\n") for _ in range(70000)),
        "records": sheets.HEAD + fill,
        "records, cut-off line of spaces": sheets.HEAD + sheets.RECORD * 1596 + b" " * 4000,
        "records, random behind them": sheets.HEAD + sheets.RECORD * 1596 + bytes(rng.randrange(256) for _ in range(4000)),
        "L 9": low + fill,
        "T 401": mild + fill,
        "dated": sheets.DATED + fill,
        "day 0": ref.head_line((120, [100] * 12, 0, 0)) + fill,
        "days out of order": ref.head_line((120, [100] * 12, 20260516, 20260515)) + fill,
    }
    for number, line in sheets.BAD.items():
        texts["%d at line 2" % number] = sheets.HEAD + line + fill
        texts["%d at line 1001" % number] = sheets.HEAD + sheets.RECORD * 999 + line + fill
    for label, text in texts.items():
        for size in (65535, 65536, 65537, 65538):
            t.at_once("%s, %d bytes" % (label, size), text[:size])
            t.at_once("%s, LF, %d bytes" % (label, size), text[:size - 1] + b"\n")
    # The fullest sheet that fits, and the same with one record more, which does not fit.
    for n in (1595, 1596, 1597, 1598, 4999, 5000, 5001):
        t.at_once("%d records" % n, sheets.HEAD + sheets.RECORD * n)
        t.at_once("%d records, dated" % n, sheets.DATED + sheets.RECORD * n)
    for size in (131072, 131073, 1000000):
        t.at_once("%d bytes" % size, (sheets.HEAD + sheets.RECORD * 25000)[:size])


def pieces(t):
    """Long input in pieces, and the last bytes late."""
    full = sheets.HEAD + sheets.RECORD * 1596
    longer = full + sheets.RECORD
    low = ref.head_line((9, [100] * 12)) + sheets.RECORD * 1700
    for sizes in ([1000], [4095], [4096], [4097], [65501, 1], [1, 65501], [32751]):
        t.in_pieces("fullest sheet", full, sizes, 0.002)
    for size in (65536, 65537, 65543):
        for sizes in ([1000], [4096], [32768], [65535, 1], [65536, 1]):
            t.in_pieces("%d bytes of records" % size, longer[:size], sizes, 0.002)
            t.in_pieces("%d bytes, L 9" % size, low[:size], sizes, 0.002)
    t.in_pieces("100000 bytes", (sheets.HEAD + sheets.RECORD * 3000)[:100000], [9999], 0.002)
    t.in_pieces("empty sheet, late", b"", [1], 0.05)
    t.in_pieces("head alone", sheets.HEAD, [13], 0.002)
    # up to where a head without dates would end, and the days late
    for sizes in ([65], [66], [65, 1], [64, 2], [66, 17, 1], [83, 1]):
        t.in_pieces("dated head and record", sheets.DATED + sheets.RECORD, sizes, 0.01)
    t.in_pieces("example, late", sheets.HEAD + sheets.RECORD, [66, 41], 0.1)


# ---- Reads and writes that fail

def fleet():
    """The sheet of several lines, its first four lines, and its report."""
    with open(os.path.join(ROOT, "sheets", "fleet.txt"), "rb") as file:
        text = file.read()
    lines = text.splitlines(True)
    assert len(lines) > 5
    return text, b"".join(lines[:4]), ref.program_text(text)


class Memory:
    """A descriptor that gives some bytes and then an I/O error: this process's memory, up to the end of a file that is
    mapped with a page too many."""

    def __init__(self, data):
        size = (len(data) // mmap.PAGESIZE + 1) * mmap.PAGESIZE
        self.file = tempfile.TemporaryFile()
        self.file.write(data.rjust(size, b"\0"))
        self.file.flush()
        map_file = ctypes.CDLL(None).mmap
        map_file.restype = ctypes.c_void_p
        map_file.argtypes = [ctypes.c_void_p, ctypes.c_size_t, ctypes.c_int, ctypes.c_int, ctypes.c_int, ctypes.c_long]
        place = map_file(None, size + mmap.PAGESIZE, mmap.PROT_READ, mmap.MAP_SHARED, self.file.fileno(), 0)
        self.descriptor = os.open("/proc/self/mem", os.O_RDONLY)
        self.start = place + size - len(data)
        # it does what its name says
        self.rewind()
        assert os.read(self.descriptor, len(data) + 1) == data
        try:
            os.read(self.descriptor, 1)
            raise AssertionError("no error behind the last byte")
        except OSError:
            self.rewind()

    def rewind(self):
        os.lseek(self.descriptor, self.start, os.SEEK_SET)


def pipe_with(data, blocking=True):
    """Both ends of a pipe that holds these bytes."""
    read, write = os.pipe()
    os.set_blocking(read, blocking)
    os.write(write, data)
    return read, write


def failed_reads(t):
    """A read that fails, at the start and at a line boundary: nothing but one line on standard error."""
    text, four, report = fleet()
    with open("/proc/self/mem", "rb", buffering=0) as memory:
        t.failed_read("I/O error", errno.EIO, t.run(memory))
    full = (sheets.HEAD + sheets.RECORD * 1700)[:65537]
    for label, data in (("four lines", four), ("head alone", sheets.HEAD), ("a whole sheet", text), ("five bytes", text[:5]), ("65,536 bytes", full[:65536])):
        t.failed_read("%s, then an I/O error" % label, errno.EIO, t.run(Memory(data).descriptor))
    # with 65,537 bytes the sheet is too long already, and nothing behind them is read
    done = t.run(Memory(full).descriptor)
    t.compare("65,537 bytes, then an I/O error", ref.refused_line(10, 1), done.returncode, done.stdout, done.stderr)
    # non-blocking: a pause is a failed read, the end is the end
    for label, data in (("four lines", four), ("nothing", b""), ("a whole sheet", text)):
        read, write = pipe_with(data, blocking=False)
        t.failed_read("non-blocking, %s, then a pause" % label, errno.EAGAIN, t.run(read))
        os.close(write)
        os.close(read)
    read, write = pipe_with(text, blocking=False)
    os.close(write)
    done = t.run(read)
    t.compare("non-blocking, all there", report, done.returncode, done.stdout, done.stderr)
    os.close(read)
    directory = os.open(ROOT, os.O_RDONLY)
    t.failed_read("a directory", errno.EISDIR, t.run(directory))
    os.close(directory)
    t.failed_read("closed input", errno.EBADF, t.run(subprocess.DEVNULL, behind="<&-"))
    t.failed_read("input opened for writing", errno.EBADF, t.run(subprocess.DEVNULL, behind="0>/dev/null"))


def failed_writes(t):
    """A write that fails or is cut short: one line on standard error, for a report and for the line of a refusal."""
    for label, text in (("report", fleet()[0]), ("refusal", b"x")):
        def stdin():
            read, write = pipe_with(text)
            os.close(write)
            return read
        with open("/dev/full", "wb") as full:
            t.failed_write("%s to /dev/full" % label, errno.ENOSPC, t.run(stdin(), stdout=full))
        t.failed_write("%s to closed output" % label, errno.EBADF, t.run(stdin(), behind=">&-"))
        t.failed_write("%s to output opened for reading" % label, errno.EBADF, t.run(stdin(), behind="1</dev/null"))
        # a pipe whose reader is gone: a failed write, whether the signal is ignored or not
        for ignored in (False, True):
            read, write = os.pipe()
            os.close(read)
            done = t.run(stdin(), stdout=write, before="trap '' PIPE;" if ignored else "")
            os.close(write)
            t.failed_write("%s without a reader%s" % (label, ", signal ignored" if ignored else ""), errno.EPIPE, done)
        # a file that may have ten bytes: the first write is cut, the next fails
        with tempfile.TemporaryFile() as file:
            def ten_bytes():
                signal.signal(signal.SIGXFSZ, signal.SIG_IGN)
                resource.setrlimit(resource.RLIMIT_FSIZE, (10, 10))
            done = t.run(stdin(), stdout=file, preexec_fn=ten_bytes)
            file.seek(0)
            done.stdout = file.read()
            t.failed_write("%s to a file of ten bytes" % label, errno.EFBIG, done, ref.program_text(text)[:10])


def interrupted(t):
    """A program that waits is stopped, continued and signalled; reads and writes are interrupted and cut short
    (tests/failing_io.c): the report comes whole."""
    text, four, report = fleet()
    run = subprocess.Popen([t.program], stdin=subprocess.PIPE, stdout=subprocess.PIPE, stderr=subprocess.PIPE, bufsize=0)
    run.stdin.write(four)
    for sent in (signal.SIGWINCH, signal.SIGSTOP, signal.SIGCONT, signal.SIGCHLD, signal.SIGURG):
        time.sleep(0.05)
        run.send_signal(sent)
    output, errors = run.communicate(text[len(four):], timeout=MOST_SECONDS)
    t.compare("stopped and signalled", report, run.returncode, output, errors)

    if shutil.which("gcc") is None:
        sys.exit("tests/report.py: gcc is not installed")
    with tempfile.TemporaryDirectory() as folder:
        shim = os.path.join(folder, "failing_io.so")
        subprocess.run(["gcc", "-shared", "-fPIC", "-O1", "-Wall", "-Werror", "-o", shim, os.path.join(ROOT, "tests", "failing_io.c")], check=True)

        def with_plan(stdin, **plans):
            return subprocess.run([t.program], input=stdin, capture_output=True, timeout=MOST_SECONDS, env={**os.environ, "LD_PRELOAD": shim, **plans})

        for reads in ("i", "iii", ".i", ".ii", "i1i1i1", "1111", "i.i", "1i" * 200, "i" * 50):
            done = with_plan(text, READS=reads)
            t.compare("reads %s" % reads[:20], report, done.returncode, done.stdout, done.stderr)
        reasons = {"e": errno.EIO, "a": errno.EAGAIN, "I": errno.EINTR}
        # the last letter fails; I: interrupted for ever, so that the tries end
        for reads in ("e", "ie", ".e", "1e", "i.ie", "a", ".a", "I", ".I"):
            t.failed_read("reads %s" % reads, reasons[reads[-1]], with_plan(text, READS=reads))
        for writes in ("1", "1111", "1" * 500, "i", "iii", "1i1i.", "i" * 50):
            done = with_plan(text, WRITES=writes)
            t.compare("writes %s" % writes[:20], report, done.returncode, done.stdout, done.stderr)
        reasons["0"] = "no byte was taken"
        for writes, printed in (("e", 0), ("1e", 1), ("111e", 3), ("I", 0), ("1I", 1), ("0", 0), ("10", 1)):
            t.failed_write("writes %s" % writes, reasons[writes[-1]], with_plan(text, WRITES=writes), report[:printed])


PARTS = (examples, sheet_cases, generated, edge, pieces, failed_reads, failed_writes, interrupted)


def main():
    program = sys.argv[1] if len(sys.argv) > 1 else os.path.join(ROOT, "target", "bin", "report")
    names = sys.argv[2:] or [part.__name__ for part in PARTS]
    t = Test(os.path.abspath(program))
    parts = {part.__name__: part for part in PARTS}
    for name in names:
        if name not in parts:
            sys.exit("tests/report.py: there is no part %s; the parts are %s" % (name, ", ".join(parts)))
    for name in names:
        parts[name](t)
    print("%d passed, %d failed" % (t.passed, t.failed))
    sys.exit(1 if t.failed else 0)


if __name__ == "__main__":
    main()
