"""Whether everything that docs/PROMISES.md names exists: definitions, claims' fields, laws, functions, edits, files.

    python3 tests/promises.py [FILE]

Prints what is named and does not exist, and exits 1 then. How names are written, so that this can be seen:

    `name`                  a definition, a law, a record or a record's field of crates/*/specs or crates/*/proofs; or a
                            function, struct, enum or constant of crates/*/src; a name of include/ or of
                            examples/haldurap.py; a crate
    `Record.field`          a field of that record
    `name` (crate/specs/File)   one of the names before it stands in that file (specs or proofs)
    `crate::function`       a function of that crate; `crate::begin_*` at least one (functions of the kit are not looked for)
    `some words`            of a formula: its camelCase, kebab-case and snake_case words are names as above
    crate/label             crates/crate/must-fail/label.edit; further labels behind it, up to the end of the cell or
                            line, are of the same crate
    crate/* (N edits)       exactly so many; crate/* at least one
    docs/X, tests/X, ..     a file or folder of the repository
    SPECIFICATION, "X"      a heading of docs/SPECIFICATION.md (also in crates/*/specs and src)

And the other way round: every edit is of a crate of crates.txt and applies; every function whose name ends in _claim is named and ensures a
claim; every claim is ensured by a function; every field of a claim is named as `Record.field`, so that a law that is taken out of
a claim is missed here.

README.md and docs/SPECIFICATION.md name much that is not of this kind; of them only `crate::function`, `NameClaim` and files are
looked for.
"""
import glob
import os
import re
import sys

ROOT = os.path.normpath(os.path.join(os.path.dirname(os.path.abspath(__file__)), ".."))
FOLDERS = r"(?:docs|tests|tools|include|examples|bench|sheets|crates|\.ci)"
# The kit's libraries, and words of languages and commands, which name nothing of this repository.
KIT = {"std", "io", "os", "libc"}
PLAIN = KIT | {"requires", "ensures", "as", "main", "u64", "f64", "i64", "u8", "usize", "bool", "true", "false", "stdin", "stdout", "stderr",
               "read", "write", "rt", "tt", "REFUSED", "ValueError", "must_use", "warn_unused_result"}


def text_of(path):
    with open(os.path.join(ROOT, path), encoding="utf-8") as file:
        return file.read()


def files(pattern):
    return sorted(os.path.relpath(path, ROOT) for path in glob.glob(os.path.join(ROOT, pattern), recursive=True) if os.path.isfile(path))


# ---- What there is

DEFINITION = re.compile(r"^(?:(?:abbrev|unfoldable|opaque|pub) )*([^\s:(){}=]+)(?: *\([^)]*\)| *\{[^}]*\})* *: ")
INNER = re.compile(r"^ +(?:(?:abbrev|unfoldable|opaque) )*pub (?:(?:abbrev|unfoldable|opaque) )*([^\s:(){}=]+) : ")
RECORD = re.compile(r"^(?:pub )?(?:record|data) ([^\s:(){}]+)")
FIELD = re.compile(r"^ +(?:pub )?([^\s:(){}=]+) : ")


# Records that claims are made of.
PARTS = ("EveryList", "EveryAreasList", "AreasAfter", "SameReport", "KindsNear", "StatedForm", "ListGives", "HistoryGives", "WithinDistance", "Both", "Associates", "Neutral")


class Names:
    def __init__(self):
        # definitions, laws and records by file; fields by record
        self.by_file, self.fields = {}, {}
        for path in files("crates/*/specs/**/*.antt") + files("crates/*/proofs/**/*.antt"):
            found, record = set(), None
            for line in text_of(path).splitlines():
                if line and not line.startswith(" "):
                    record = None
                match = RECORD.match(line)
                if match:
                    record = match.group(1)
                    found.add(record)
                    self.fields.setdefault(record, set())
                elif record is not None:
                    match = FIELD.match(line)
                    if match:
                        self.fields[record].add(match.group(1))
                else:
                    match = DEFINITION.match(line) or INNER.match(line)
                    if match and match.group(1) not in ("use", "module", "--"):
                        found.add(match.group(1))
            self.by_file[path] = found
        self.functions, self.declared = {}, set()
        for path in files("crates/*/src/**/*.rt"):
            crate, text = path.split(os.sep)[1], text_of(path)
            self.functions.setdefault(crate, set()).update(re.findall(r"\bfn ([a-z_0-9]+)", text))
            self.declared.update(re.findall(r"^(?:pub )?(?:struct|enum|const|static|type) ([A-Za-z_0-9]+)", text, re.M))
        header = text_of("include/haldurap.h")
        self.declared.update(re.findall(r"\b(?:haldurap|HALDURAP)_\w+", header))
        self.declared.update(re.findall(r"^ +(?:[a-z0-9_]+ )+\*?([a-z_0-9]+)(?:\[\d+\])?;", header, re.M))
        rust, python = text_of("include/haldurap.rs"), text_of("examples/haldurap.py")
        self.declared.update(re.findall(r"\b(?:fn|struct|const) (\w+)", rust), re.findall(r"^(?:def|class) (\w+)", python, re.M))
        self.declared.update(re.findall(r"^(\w+) = namedtuple", python, re.M))
        self.crates = [line.split(":")[0].split()[0] for line in text_of("crates.txt").splitlines() if ":" in line.split("#")[0]]
        self.edits = {}
        for path in files("crates/*/must-fail/*.edit"):
            self.edits.setdefault(path.split(os.sep)[1], set()).add(os.path.basename(path)[:-5])
        self.all = set().union(*self.by_file.values(), *self.fields.values(), *self.functions.values(), self.declared, self.crates)

    def antt(self, crate, part, name):
        """The files of crate/specs/Name or crate/proofs/Name; of a folder all in it."""
        base = "crates/%s/%s/%s" % (crate, part, name)
        return [path for path in self.by_file if path in (base, base + ".antt") or path.startswith(base + "/")]


# ---- What is named

class Paper:
    def __init__(self, path, names):
        self.path, self.names, self.wrong, self.seen = path, names, [], 0
        self.named, self.fields = set(), set()
        for number, line in enumerate(text_of(path).splitlines(), 1):
            self.number = number
            # a cell of a table or a line is one block: a crate is in force up to its end
            for block in line.split(" | ") if line.startswith("|") else [line]:
                self.block(block)

    def must(self, holds, what):
        self.seen += 1
        if not holds:
            self.wrong.append("%s:%d: %s" % (self.path, self.number, what))

    def block(self, block):
        crate, group = None, []
        token = re.compile(
            r"`(?P<code>[^`]+)`"
            r"|(?P<file>\b[a-z_]+/(?:specs|proofs|src|must-fail)\b[\w/.*-]*)"
            r"|(?P<path>(?<![\w/])" + FOLDERS + r"/[\w./*-]*[\w*])"
            r"|(?<![\w/`.-])(?P<crate>[a-z_]+)/(?P<label>\*|[a-z0-9_]+)(?: \((?P<count>[^\s)]+) edits?)?"
            r"|(?<![\w/`.:-])(?P<bare>[a-z][a-z0-9]*(?:_[a-z0-9]+)+)(?![\w/`:-])"
            r"|(?P<end>[;.](?= |$))")
        for match in token.finditer(block):
            if match["code"]:
                group.append(match["code"])
                self.code(match["code"], crate)
            elif match["file"]:
                self.file(match["file"], group)
                group = []
            elif match["path"]:
                self.must(glob.glob(os.path.join(ROOT, match["path"])), "there is no %s" % match["path"])
            elif match["crate"]:
                if match["crate"] in self.names.crates:
                    crate = match["crate"]
                    self.edit(crate, match["label"], match["count"])
                elif "_" in match["label"] or match["label"] == "*":
                    self.must(False, "%s/%s: there is no crate %s" % (match["crate"], match["label"], match["crate"]))
            elif match["bare"]:
                if crate is None:
                    self.must(False, "%s: a label without its crate, or a name without backticks" % match["bare"])
                else:
                    self.edit(crate, match["bare"], None)
            else:
                group = []

    def edit(self, crate, label, count):
        edits = self.names.edits.get(crate, set())
        if label == "*":
            self.must(edits, "%s has no edits" % crate)
            if count is not None:
                self.must(str(len(edits)) == count, "%s has %d edits, not %s" % (crate, len(edits), count))
        else:
            self.must(label in edits, "there is no edit %s/%s" % (crate, label))

    def file(self, file, group):
        crate, part, *rest = file.split("/")
        if part in ("specs", "proofs") and rest and rest[0] and "*" not in file:
            found = self.names.antt(crate, part, "/".join(rest))
            self.must(found, "there is no file crates/%s" % file)
            words = {word for code in group for word in re.split(r"[\s.]+", code)}
            if found and group:
                there = set().union(*(self.names.by_file[path] for path in found))
                self.must(words & there, "none of %s stands in crates/%s" % (", ".join(group), file))
        else:
            self.must(glob.glob(os.path.join(ROOT, "crates", file)), "there is no crates/%s" % file)

    def code(self, code, crate):
        names = self.names
        if code.startswith(("rt ", "gcc ", "rustc ")) or code in PLAIN or re.fullmatch(r"[\w-]+=\S*", code) or code.split("::")[0] in KIT:
            return
        if code.startswith(".."):
            self.must(crate and any(label.endswith(code[2:]) for label in names.edits.get(crate, ())), "no edit ends in %s" % code)
        elif re.fullmatch(r"\w+::[\w*]+", code):
            owner, function = code.split("::")
            there = names.functions.get(owner, set())
            begins = function[:-1] if function.endswith("*") else None
            self.must(any(f.startswith(begins) for f in there) if begins is not None else function in there, "there is no function %s" % code)
            self.named.add(function)
        elif re.fullmatch(r"[a-z_]+/[a-z0-9_]+", code) and code.split("/")[0] in names.crates:
            self.edit(*code.split("/"), None)
        elif re.fullmatch(r"[\w./*-]*/[\w./*-]*", code):
            self.must(glob.glob(os.path.join(ROOT, code)) or glob.glob(os.path.join(ROOT, "crates", code)), "there is no file %s" % code)
        elif re.fullmatch(r"[A-Z]\w*\.[\w-]+", code) and code.split(".")[0] in names.fields:
            record, field = code.split(".")
            self.must(field in names.fields[record], "%s has no field %s" % (record, field))
            self.fields.add((record, field))
        elif re.search(r"[\s({]", code):
            for word in re.split(r"[\s(){},;\[\]]+", code):
                if re.fullmatch(FOLDERS + r"/[\w./-]+", word):
                    self.must(os.path.exists(os.path.join(ROOT, word)), "there is no file %s (in `%s`)" % (word, code))
                    continue
                for part in word.split("."):
                    if re.fullmatch(r"[a-z][a-z0-9]*[A-Z]\w*|[A-Z][a-z0-9]+(?:[A-Z]\w*)+|[a-z][a-z0-9]*(?:[-_][a-z0-9]+)+", part):
                        self.must(part in names.all, "there is no %s (in `%s`)" % (part, code))
        else:
            self.must(code in names.all, "there is no `%s`" % code)
            self.named.add(code)


def others(names, wrong):
    """Functions, claims and files in the papers that say what is."""
    seen = 0
    for path in ("README.md", "docs/SPECIFICATION.md"):
        for number, line in enumerate(text_of(path).splitlines(), 1):
            for code in re.findall(r"`([^`]+)`", line):
                call = re.match(r"([a-z_]+)::([a-z_0-9]+)(?![\w*])", code)
                if call and call.group(1) in names.crates:
                    seen += 1
                    if call.group(2) not in names.functions.get(call.group(1), ()):
                        wrong.append("%s:%d: there is no function %s" % (path, number, call.group()))
                elif re.fullmatch(r"\w+Claim", code):
                    seen += 1
                    if not any(code in found for found in names.by_file.values()):
                        wrong.append("%s:%d: there is no claim %s" % (path, number, code))
            for file in re.findall(r"(?<![\w/])" + FOLDERS + r"/[\w./-]*[\w]", line):
                if not re.search(r"\b(?:NAME|LABEL|PART)\b", file):
                    seen += 1
                    if not os.path.exists(os.path.join(ROOT, file)):
                        wrong.append("%s:%d: there is no file %s" % (path, number, file))
    return seen


def sections(wrong):
    """Every section of docs/SPECIFICATION.md that a definition or a paper cites."""
    path = "docs/SPECIFICATION.md"
    headings = set()
    if os.path.exists(os.path.join(ROOT, path)):
        headings = {line.lstrip("#").strip() for line in text_of(path).splitlines() if line.startswith("#")}
    seen = 0
    for cited in ["README.md"] + files("docs/*.md") + files("crates/*/specs/**/*.antt") + files("crates/*/src/**/*.rt"):
        for number, line in enumerate(text_of(cited).splitlines(), 1):
            for section in re.findall(r'SPECIFICATION(?:\.md)?, "([^"]+)"', line):
                seen += 1
                if section not in headings:
                    wrong.append('%s:%d: %s has no heading "%s"' % (cited, number, path, section))
    return seen


def claims(names, paper):
    """Every claim is ensured by a function, every function *_claim ensures one, and every field of a claim is named."""
    sources = "\n".join(text_of(path) for path in files("crates/*/src/**/*.rt"))
    ensured = set(re.findall(r"\b(\w+Claim)\b", " ".join(re.findall(r"^ *ensures .*$", sources, re.M))))
    for function in re.findall(r"^pub fn (\w+_claim)\(\)(?!\n    ensures \{ \w+Claim \}\n\{\})", sources, re.M):
        paper.wrong.append("%s does not ensure a claim" % function)
    defined = {name for path, found in names.by_file.items() if "/specs/" in path for name in found if name.endswith("Claim")}
    for name in sorted(defined - ensured):
        paper.wrong.append("no function ensures %s" % name)
    seen = len(defined)
    for record in sorted(defined | set(PARTS)):
        for field in sorted(names.fields.get(record, ())):
            seen += 1
            if (record, field) not in paper.fields:
                paper.wrong.append("%s does not name `%s.%s`" % (paper.path, record, field))
    return seen


def edits(wrong):
    """Every edit applies: each old text stands exactly once in its file, as `rt ci` wants it, told here in a second."""
    seen = 0
    for path in files("crates/*/must-fail/*.edit"):
        texts, file, old = {}, None, None
        for line in text_of(path).splitlines():
            if line.startswith("file: "):
                file = os.path.join(*path.split(os.sep)[:2], line[6:])
                texts.setdefault(file, text_of(file) if os.path.exists(os.path.join(ROOT, file)) else "")
            elif line.startswith("old: "):
                old = line[5:]
            elif line.startswith("new:"):
                seen += 1
                if texts[file].count(old) != 1:
                    wrong.append("%s: its old text stands %d times in %s: %s" % (path, texts[file].count(old), file, old))
                texts[file] = texts[file].replace(old, line[4:].removeprefix(" "), 1)
    return seen


def main():
    names = Names()
    paper = Paper(sys.argv[1] if len(sys.argv) > 1 else "docs/PROMISES.md", names)
    seen = paper.seen + sections(paper.wrong) + others(names, paper.wrong) + claims(names, paper) + edits(paper.wrong)
    for crate in names.edits:
        if crate not in names.crates:
            paper.wrong.append("crates/%s has edits, and crates.txt does not list it" % crate)
    for crate, functions in names.functions.items():
        for function in sorted(functions):
            if function.endswith("_claim") and function not in paper.named:
                paper.wrong.append("%s::%s carries a claim, and %s does not name it" % (crate, function, paper.path))
    for line in paper.wrong:
        print(line)
    print("%d names looked for, %d wrong" % (seen, len(paper.wrong)))
    sys.exit(1 if paper.wrong else 0)


if __name__ == "__main__":
    main()
