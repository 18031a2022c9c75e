"""The header as a compiler and a linker see it, and the three declarations against each other.

    python3 tests/header.py

- include/haldurap.h compiles by itself as C11 and C99 and as C++17 and C++11, without a warning.
- Each call, with its answer dropped, is warned about in C, C++ and Rust.
- A join of anything but two runs does not compile in C, C++ and Rust.
- Calls and constants of the header, of include/haldurap.rs and of examples/haldurap.py are the same.
- A pointer is only read through in Rust exactly where it is in C; each safe function of Rust is among those that are dropped.
- The archive defines exactly the header's calls, and needs nothing but memcpy and memset.

Needs the archive and the shared object (tests/archive.sh). Exits 1 where one of these does not hold.
"""
import os
import re
import subprocess
import sys
import tempfile

ROOT = os.path.normpath(os.path.join(os.path.dirname(os.path.abspath(__file__)), ".."))
HEADER = os.path.join(ROOT, "include", "haldurap.h")
RUST = os.path.join(ROOT, "include", "haldurap.rs")
ARCHIVE = os.path.join(ROOT, "target", "libhaldurap.a")
sys.path.insert(0, os.path.join(ROOT, "examples"))

done = failed = 0


def same(found, wanted, what):
    global done, failed
    done += 1
    if found != wanted:
        failed += 1
        print("%s:\n  found  %s\n  wanted %s" % (what, found, wanted))


def run(*words):
    # the compilers' words are read, so they have to be the English ones
    ended = subprocess.run(words, capture_output=True, text=True, env={**os.environ, "LC_ALL": "C.UTF-8"})
    return ended.returncode, ended.stdout + ended.stderr


def read(path):
    with open(path, encoding="utf-8") as file:
        return file.read()


def without_comments(text):
    return re.sub(r"//[^\n]*", "", re.sub(r"/\*.*?\*/", "", text, flags=re.S))


# ---- What the three files declare

def header_calls(text):
    """Name, answer and number of parameters of each call."""
    found = re.findall(r"(\w*) ?\b(haldurap_\w+|uint64_t) (haldurap_\w+)\(([^)]*)\);", text)
    return {name: (mark, answer, 0 if parameters == "void" else parameters.count(",") + 1) for mark, answer, name, parameters in found}


def header_pointers(text):
    """Of each call, which of its pointers are only read through."""
    found = re.findall(r"\b(haldurap_\w+)\(([^)]*)\);", text)
    return {name: ["const" if "const" in one else "mut" for one in parameters.split(",") if "*" in one] for name, parameters in found}


def header_constants(text):
    """The enumerators and the limits, without the prefix."""
    found = dict(re.findall(r"\bHALDURAP_(\w+) = (\d+)", text))
    found.update(re.findall(r"^#define HALDURAP_(\w+) +(\d+)", text, re.M))
    return {name: int(value) for name, value in found.items()}


def rust_calls(text):
    found = re.findall(r"\bfn (haldurap_\w+)\(([^)]*)\)", text)
    return {name: parameters.count(":") for name, parameters in found}


def rust_pointers(text):
    return {name: re.findall(r"\*(const|mut) ", parameters) for name, parameters in re.findall(r"\bfn (haldurap_\w+)\(([^)]*)\)", text)}


def rust_constants(text):
    return {name: int(value) for name, value in re.findall(r"^pub const (\w+): \w+ = (\d+);", text, re.M)}


def declarations(calls, constants, pointers):
    import haldurap as python
    rust = without_comments(read(RUST))
    same(rust_constants(rust), constants, "constants of haldurap.rs")
    same({name: getattr(python, name, None) for name in constants}, constants, "constants of haldurap.py")
    numbers = {name: count for name, (_, _, count) in calls.items()}
    same(rust_calls(rust), numbers, "calls of haldurap.rs and their parameters")
    same(rust_pointers(rust), pointers, "pointers of haldurap.rs")
    same(sorted(re.findall(r"^pub fn (\w+)\(", rust, re.M)), sorted(call.split("(")[0] for call in WRAPPERS), "safe functions of haldurap.rs")
    same({"haldurap_" + name: len(words) for name, (words, _) in python._CALLS.items()}, numbers, "calls of haldurap.py and their parameters")
    same(sorted(python.MEANINGS), list(range(1, 23)), "meanings of haldurap.py")


# ---- The compilers

def compiled(calls, folder):
    for name, compiler, standard in (("c", "gcc", "c11"), ("c", "gcc", "c99"), ("cc", "g++", "c++17"), ("cc", "g++", "c++11")):
        words = [compiler, "-std=" + standard, "-Wall", "-Wextra", "-Wpedantic", "-Werror", "-I" + os.path.dirname(HEADER)]
        alone = os.path.join(folder, "alone." + name)
        with open(alone, "w", encoding="utf-8") as file:
            file.write("#include <haldurap.h>\n#include <haldurap.h>\n")
        same(run(*words, "-c", "-o", os.path.join(folder, "alone.o"), alone), (0, ""), "haldurap.h as %s" % standard)
        dropped = os.path.join(folder, "dropped." + name)
        with open(dropped, "w", encoding="utf-8") as file:
            file.write("#include <haldurap.h>\n%s\nint main(void) {\n" % ARGUMENTS_C)
            for call, (_, _, count) in calls.items():
                file.write("    %s(%s);\n" % (call, ", ".join(ARGUMENTS[call]) if call in ARGUMENTS else "run, 1, 1"))
            file.write("}\n")
        status, said = run(*words, "-c", "-o", os.path.join(folder, "dropped.o"), dropped)
        warned = set(re.findall(r"ignoring return value of [^\n]*?\b(haldurap_\w+)\b(?=\(|[’'])", said))
        same((status != 0, sorted(warned)), (True, sorted(calls)), "dropped answers as %s" % standard)
    dropped = os.path.join(folder, "dropped.rs")
    with open(dropped, "w", encoding="utf-8") as file:
        file.write('#[path = "%s"]\nmod haldurap;\nuse haldurap::*;\n' % RUST)
        file.write("pub fn dropped(head: Head, record: Record, run: Run, text: *mut u8, numbers: *const u64, areas: *mut u64, mut lent: Areas) {\n")
        for call in calls:
            file.write("    unsafe { %s(%s); }\n" % (call, ", ".join(ARGUMENTS[call]) if call in ARGUMENTS else "run, 1, 1"))
        for call in WRAPPERS:
            file.write("    %s;\n" % call)
        file.write("}\n")
    status, said = run("rustc", "--edition", "2024", "--crate-type", "lib", "-A", "unused_unsafe", "-D", "unused_must_use", "--emit", "metadata",
                       "-o", os.path.join(folder, "dropped.rmeta"), dropped)
    same((status != 0, said.count("that must be used")), (True, len(calls) + len(WRAPPERS)), "dropped answers in Rust")


def joined(folder):
    for name, words in (("c", ["gcc", "-std=c11"]), ("cc", ["g++", "-std=c++17"]), ("rs", ["rustc", "--edition", "2024", "--crate-type", "lib"])):
        for call, compiles in JOINS.items():
            path = os.path.join(folder, "join." + name)
            with open(path, "w", encoding="utf-8") as file:
                if name == "rs":
                    file.write('#[path = "%s"]\nmod haldurap;\nuse haldurap::*;\n' % RUST)
                    file.write("pub fn joined(head: Head, record: Record, run: Run, areas: &[Areas]) -> u64 { %s.number }\n" % call)
                else:
                    file.write("#include <haldurap.h>\n%s\nuint64_t joined(void);\nuint64_t joined(void) { return %s.number; }\n" % (ARGUMENTS_C, call))
            more = ["--emit", "metadata"] if name == "rs" else ["-c", "-I" + os.path.dirname(HEADER)]
            status, said = run(*words, *more, "-o", os.path.join(folder, "join.out"), path)
            same((status == 0, "error" in said), (compiles, not compiles), "%s in %s" % (call, name))


# Joins as they are meant, and with what is no run, or not two; the same words in all languages. Whether each compiles.
JOINS = {
    "haldurap_join(run, run)": True,
    "haldurap_join(run, haldurap_open(head).run)": True,
    "haldurap_join(areas[0].runs[3], run)": True,
    "haldurap_join(run, haldurap_open(head))": False,
    "haldurap_join(haldurap_add(run, record), run)": False,
    "haldurap_join(run, record)": False,
    "haldurap_join(head, run)": False,
    "haldurap_join(areas[0], run)": False,
    "haldurap_join(run, areas[0].runs)": False,
    "haldurap_join(run)": False,
    "haldurap_join(run, run, run)": False,
}

# What each call that is no question of fuel and quantity is handed.
ARGUMENTS = {
    "haldurap_layout": [],
    "haldurap_open": ["head"],
    "haldurap_add": ["run", "record"],
    "haldurap_join": ["run", "run"],
    "haldurap_add_list": ["head", "numbers", "0"],
    "haldurap_in_order": ["run"],
    "haldurap_open_areas": ["areas", "0", "head"],
    "haldurap_add_area": ["areas", "0", "1", "record"],
    "haldurap_area_run": ["areas", "0", "1"],
    "haldurap_balance": ["run", "1", "1", "1"],
    "haldurap_report": ["run", "text", "0"],
    "haldurap_sheet": ["text", "0"],
    "haldurap_report_sheet": ["text", "0", "text", "0"],
}
ARGUMENTS_C = """extern haldurap_head head;
extern haldurap_record record;
extern haldurap_run run;
extern uint8_t text[1];
extern uint64_t numbers[1];
extern haldurap_areas areas[1];
"""
# The safe functions of haldurap.rs.
WRAPPERS = ["in_order(run)", "add_list(head, &[])", "open_areas(&mut lent, head)", "add_area(&mut lent, 1, record)", "area_run(&lent, 1)",
            "report(run, &mut [])", "sheet(&[])", "report_sheet(&[], &mut [])"]


def linked(calls):
    status, said = run("nm", ARCHIVE)
    same(status, 0, "nm")
    symbols = [line.split()[-2:] for line in said.splitlines() if re.search(r" [A-Za-z] \S+$", line)]
    defined = {name for kind, name in symbols if kind == "T"}
    same(sorted(defined), sorted(calls), "what the archive shows")
    needed = {name for kind, name in symbols if kind == "U"} - {name for kind, name in symbols if kind != "U"}
    same(sorted(needed - {"_GLOBAL_OFFSET_TABLE_"}), sorted(needed & {"memcpy", "memset"}), "what the archive needs")
    same([name for kind, name in symbols if kind in "bBdDcC"], [], "the archive's variables")


def main():
    text = without_comments(read(HEADER))
    calls = header_calls(text)
    same(len(calls), text.count("HALDURAP_ANSWER haldurap_") + text.count("HALDURAP_ANSWER uint64_t"), "calls that are marked")
    same({mark for mark, _, _ in calls.values()}, {"HALDURAP_ANSWER"}, "the mark of every call")
    declarations(calls, header_constants(text), header_pointers(text))
    with tempfile.TemporaryDirectory() as folder:
        compiled(calls, folder)
        joined(folder)
    linked(calls)
    print("%d calls, %d comparisons, %d wrong" % (len(calls), done, failed))
    sys.exit(1 if failed else 0)


if __name__ == "__main__":
    main()
