#!/usr/bin/env python3
"""Counts the places of the eight points of docs/DESIGN-PASS.md.

    python3 tools/places.py [COMMIT] [--list] [--point N] [--crate NAME]

reads crates/*/src of the commit, or of the working tree where none is named (for point 8 crates/*/proofs), and prints a table
of crates and points; with --list each place too, as `POINT crate/file:line name: what`. A place is counted so:

1  an enum of two cases, or with a case named Bad, Refused, Taken, NotGiven or the like, that carries a value; a struct
   with a bool, a Verdict or a field named ok, number, verdict or given beside other fields; a constant named NO_.. and each
   comparison with one; a function that chooses a value by two or more number literals (`match` arms, or `==` on one name); once
   for each crate and name, parameters and fields named class, fuel, quantity, kind or field that are numbers.
2  functions whose tokens agree when types, constants, literals and the names of parameters and locals are left out (bodies of 12
   tokens or more); structs whose fields agree so; functions of one name in two or more test programs that agree to four fifths;
   a function that only calls another crate's function of its name with its own parameters.
   Each function or struct of such a group is a place.
3  a `while` whose body raises a name of its condition by `+=`, or any other `while`; a `for` whose body raises a number by a
   literal beside its own.
4  a function to bool that only returns true and false by cases; one that gives the less or the greater of two by `if`; a compare
   with the greatest number of a type by hand; a loop that only copies an element, or only compares two; a function that is only a
   `match` from one type's cases to values, or only a struct from another's fields; a function named print.. that takes apart a
   value of an own type.
5  a clause (with the parameters' names left out) that stands in the contracts of three or more functions; a largest group of two
   or more parameters, same names and types, that three or more functions of the repository have together. Each clause and each
   group is a place.
6  a function with a slice beside a position or length (a number named at, from, to, len, i, n, size, k, place, first or lent); a
   struct with an array and a number named len, size or at for it, or with two arrays of one length; a search that halves by hand.
7  a parameter of type bool; a function that calls one of three or more others by tests of one name against literals.
8  each answer in a proof file (`name : goal.name`), each helper lemma in proofs/*.antt; --list shows the lines for each function.
"""
import collections
import difflib
import io
import os
import re
import subprocess
import sys
import tarfile

TOP = os.path.dirname(os.path.dirname(os.path.abspath(__file__)))
TOKEN = re.compile(r"b?'(?:\\.|[^'\\])'|b?\"(?:\\.|[^\"\\])*\"|[A-Za-z_][A-Za-z_0-9]*|\d[\d_]*(?:\.\d+)?(?:[a-z]\w*)?|::|->|=>|==|!=|<=|>=|&&|\|\||\+=|-=|\.\.=?|[^\s]")
PRIMITIVE = {"u8", "u16", "u32", "u64", "u128", "usize", "i8", "i16", "i32", "i64", "i128", "isize", "f64", "bool", "char", "str"}
KEYWORD = {"as", "break", "const", "continue", "crate", "else", "enum", "extern", "false", "fn", "for", "if", "impl", "in", "let", "loop", "match", "mod", "move", "mut", "pub", "ref", "return",
           "self", "static", "struct", "trait", "true", "type", "unsafe", "use", "where", "while"}
POSITION = {"at", "from", "to", "len", "i", "n", "size", "k", "place", "first", "lent"}
MARKS = {"Bad", "Refused", "Taken", "NotGiven", "NoneLeft", "Missing", "Nothing", "None", "Unset"}


def sources(commit):
    """The files of crates/, by path."""
    files = {}
    if commit:
        packed = subprocess.run(["git", "-C", TOP, "archive", commit, "crates"], check=True, capture_output=True).stdout
        with tarfile.open(fileobj=io.BytesIO(packed)) as tar:
            for entry in tar:
                if entry.isfile() and entry.name.endswith((".rt", ".antt")):
                    files[entry.name] = tar.extractfile(entry).read().decode()
        return files
    for folder, below, names in os.walk(os.path.join(TOP, "crates")):
        below[:] = sorted(b for b in below if b != "out")
        for name in names:
            if name.endswith((".rt", ".antt")):
                path = os.path.join(folder, name)
                files[os.path.relpath(path, TOP)] = open(path).read()
    return files


def bare(text):
    """The text with its comments blank, each line where it was."""
    return re.sub(r"//[^\n]*", lambda m: " " * len(m.group()), text)


def matched(text, start, opening="{", closing="}"):
    """The place behind the bracket that closes the one at start."""
    depth = 0
    for m in re.compile(r"->|b'(?:\\.|[^'\\])'|\"(?:\\.|[^\"\\])*\"|[" + re.escape(opening + closing) + "]").finditer(text, start):
        if m.group() == opening:
            depth += 1
        elif m.group() == closing:
            depth -= 1
            if depth == 0:
                return m.end()
    return len(text)


def split(text):
    """A list's parts at the commas that stand in no bracket."""
    parts, depth, last = [], 0, 0
    for i, c in enumerate(text):
        if c in "([{<":
            depth += 1
        elif c in ")]}" or (c == ">" and text[i - 1] not in "-="):
            depth -= 1
        elif c == "," and depth == 0:
            parts.append(text[last:i])
            last = i + 1
    parts.append(text[last:])
    return [" ".join(p.split()) for p in parts if p.strip()]


class Function:
    def __init__(self, crate, file, line, name, params, result, clauses, body):
        self.crate, self.file, self.line, self.name, self.params, self.result, self.clauses, self.body = crate, file, line, name, params, result, clauses, body
        self.tokens = TOKEN.findall(body)

    def calls(self):
        return [a for a, b in zip(self.tokens, self.tokens[1:]) if b == "(" and re.match(r"[a-z_]", a) and a not in KEYWORD]

    def normal(self):
        """The tokens without types, constants, literals and the names of parameters and locals."""
        local = {}
        for name in [p.split(":")[0].replace("mut ", "").strip() for p in self.params] + re.findall(r"\blet (?:mut )?(\w+)", self.body) + re.findall(r"\bfor (\w+)", self.body):
            local.setdefault(name, "v%d" % len(local))
        out = []
        for t in TOKEN.findall(" ".join(p.split(":", 1)[-1] for p in self.params)) + ["->"] + TOKEN.findall(self.result) + ["{"] + self.tokens:
            if t in local:
                out.append(local[t])
            elif t in PRIMITIVE or re.match(r"[A-Z]", t):
                out.append("T")
            elif re.match(r"\d|b?['\"]", t):
                out.append("N")
            else:
                out.append(t)
        return tuple(out)


class Type:
    def __init__(self, crate, file, line, word, name, fields):
        self.crate, self.file, self.line, self.word, self.name, self.fields = crate, file, line, word, name, fields


def items(files):
    functions, types, constants = [], [], []
    for path, raw in sorted(files.items()):
        m = re.match(r"crates/(\w+)/(src/.*\.rt)$", path)
        if not m:
            continue
        crate, file = m.groups()
        text = bare(raw)
        line = lambda i: text.count("\n", 0, i) + 1
        for f in re.finditer(r"\bfn (\w+)", text):
            i = text.find("(", f.end())
            if "<" in text[f.end():i]:
                i = text.find("(", matched(text, text.find("<", f.end()), "<", ">"))
            end = matched(text, i, "(", ")")
            params = split(text[i + 1:end - 1])
            rest = re.compile(r"\s*(?:->\s*((?:\[[^\]]*\]|[^{}\s;]|\s(?!requires|ensures|decreases|where|with))+?))?\s*(?=\{|;|requires|ensures|decreases|where|with)").match(text, end)
            result = (rest.group(1) or "") if rest else ""
            at = rest.end() if rest else end
            clauses = []
            while True:
                c = re.compile(r"\s*(requires|ensures|decreases)\b([^{};]*)").match(text, at)
                if not c:
                    break
                stop = matched(text, c.end())
                clauses.append((c.group(1), " ".join(text[c.end() + 1:stop - 1].split())))
                at = stop
            start = text.find("{", at)
            semi = text.find(";", at)
            if start < 0 or (0 <= semi < start and not text[at:start].strip().startswith("where")):
                continue
            functions.append(Function(crate, file, line(f.start()), f.group(1), params, result, clauses, text[start + 1:matched(text, start) - 1]))
        for s in re.finditer(r"\b(struct|enum) (\w+)[^{};(]*\{", text):
            inner = text[s.end():matched(text, s.end() - 1) - 1]
            types.append(Type(crate, file, line(s.start()), s.group(1), s.group(2), split(re.sub(r"#\[[^\]]*\]", "", inner))))
        for c in re.finditer(r"\bconst (\w+)\s*:", text):
            constants.append((crate, file, line(c.start()), c.group(1)))
    return functions, types, constants


def compared(tokens):
    """How many literals each name is tested against."""
    count = collections.Counter()
    for a, op, b in zip(tokens, tokens[1:], tokens[2:]):
        if op == "==" and re.match(r"[a-z_]", a) and re.match(r"\d|b'", b):
            count[a] += 1
    return count


def places(files):
    functions, types, constants = items(files)
    found = []

    def add(point, x, what, name=None):
        found.append((point, x.crate, "%s:%d" % (x.file, x.line), name or x.name, what))

    # 1
    for t in types:
        if t.word == "enum":
            carries = [f for f in t.fields if re.search(r"[({]", f)]
            names = [re.match(r"\w+", f).group() for f in t.fields if re.match(r"\w+", f)]
            if carries and (len(t.fields) == 2 or MARKS & set(names)):
                add(1, t, "enum of the shape of Option or Result: " + ", ".join(names))
        else:
            for f in t.fields:
                name, _, kind = f.replace("pub ", "").partition(":")
                if len(t.fields) > 1 and (kind.strip() in ("bool", "Verdict") or name.strip() in ("ok", "number", "verdict", "given")):
                    add(1, t, "flag or number beside a value: " + f)
    for crate, file, at, name in constants:
        if name.startswith("NO_"):
            found.append((1, crate, "%s:%d" % (file, at), name, "sentinel"))
    for f in functions:
        for i, t in enumerate(f.tokens):
            if t.startswith("NO_"):
                add(1, f, "compared with the sentinel " + t)
        arms = sum(1 for a, b in zip(f.tokens, f.tokens[1:]) if re.match(r"\d", a) and b in ("=>", "|"))
        tests = {n: c for n, c in compared(f.tokens).items() if c >= 2}
        numbers = [n for n in tests if not re.search(r"\b%s == b'" % n, f.body)]
        if arms >= 2 or numbers:
            add(1, f, "chooses by number literals")
    numbered = collections.defaultdict(list)
    for x in functions + types:
        for p in x.params if isinstance(x, Function) else x.fields:
            m = re.match(r"(?:pub |mut )?(class|fuel|quantity|kind|field): (?:u64|usize)$", p)
            if m:
                numbered[x.crate, m.group(1)].append(x)
    for (_, name), group in numbered.items():
        add(1, group[0], "the number %s in %s" % (name, ", ".join(g.name for g in group)))
    # 2
    groups = collections.defaultdict(list)
    for f in functions:
        if len(f.tokens) >= 12:
            groups[f.normal()].append(f)
    twins = set()
    for group in groups.values():
        if len(group) > 1:
            for f in group:
                twins.add(f)
                add(2, f, "the same as " + ", ".join("%s::%s" % (g.crate, g.name) for g in group if g is not f)[:200])
    for f in functions:
        m = re.fullmatch(r"(\w+) :: (\w+) \( ((?:\w+ ?,? ?)*)\)", " ".join(f.tokens))
        if m and m.group(2) == f.name and [a for a in re.findall(r"\w+", m.group(3))] == [p.split(":")[0].replace("mut ", "").strip() for p in f.params]:
            twins.add(f)
            add(2, f, "only calls %s::%s" % m.group(1, 2))
    shapes = collections.defaultdict(list)
    for t in types:
        if t.word == "struct" and len(t.fields) > 1:
            shapes[tuple(re.sub(r"\b([A-Z]\w*|u64|usize|i64|u8)\b|\d+", "T", f.replace("pub ", "")) for f in t.fields)].append(t)
    for group in shapes.values():
        if len(group) > 1:
            for t in group:
                add(2, t, "the same fields as " + ", ".join("%s::%s" % (g.crate, g.name) for g in group if g is not t))
    named = collections.defaultdict(list)
    for f in functions:
        if f.file.endswith("main.rt"):
            named[f.name].append(f)
    for group in named.values():
        for f in group:
            close = [g for g in group if g.crate != f.crate and difflib.SequenceMatcher(None, f.normal(), g.normal(), False).ratio() >= 0.8]
            if close and f not in twins and len(f.tokens) >= 12:
                add(2, f, "repeated in " + ", ".join(g.crate for g in close))
    # 3
    for f in functions:
        for m in re.finditer(r"\b(while|for)\b([^{]*)\{", f.body):
            inner = f.body[m.end():matched(f.body, m.end() - 1)]
            raised = re.findall(r"(\w+) \+= (\w+)", inner)
            if m.group(1) == "while":
                by = [n for n, _ in raised if re.search(r"\b%s\b" % n, m.group(2))]
                add(3, f, ("while%s, counted by hand: %s" % (m.group(2).rstrip(), ", ".join(by))) if by else "while%s" % m.group(2).rstrip())
            elif [n for n, by in raised if re.match(r"\d", by)]:
                add(3, f, "for%s, and beside it %s" % (m.group(2).rstrip(), ", ".join(n for n, by in raised)))
    # 4
    own = {t.name for t in types}
    for f in functions:
        body = " ".join(f.tokens)
        if f.result == "bool" and re.fullmatch(r"(?:if [^{}]*\{ (?:return )?(?:true|false) ;? ?\} ?(?:else )?)+(?:\{ )?(?:true|false)(?: \})?", body):
            add(4, f, "boolean by cases")
        if re.fullmatch(r"if (\w+) <=? (\w+) \{ return (?:\1|\2) ; \} (?:\1|\2)", body):
            add(4, f, "the less or the greater by hand")
        if "18446744073709551615" in body or "9223372036854775807" in body:
            add(4, f, "the greatest number of a type by hand")
        if re.search(r"\{ \w+ \[ [^\]]* \] = \w+ \[ [^\]]* \] ; (?:\w+ \+= 1 ; )?\}", body):
            add(4, f, "copying loop")
        if re.search(r"if [\w.]+(?: \. \w+)? \[ [^\]]* \] != [\w. ]+(?:\[ [^\]]* \]|\( [^)]* \)) \{ return false ; \}", body):
            add(4, f, "equality by a loop")
        if re.match(r"match \w+ \{", body) and matched(body, body.index("{")) == len(body) and not f.calls() and "return" not in f.tokens:
            add(4, f, "conversion by cases")
        elif re.match(r"match \w+ \{", body) and matched(body, body.index("{")) == len(body) and set(f.calls()) <= {"refusal_number"} and "?" not in f.tokens:
            add(4, f, "conversion by cases")
        m = re.fullmatch(r"(?:let .*? ; )*(\w+) \{ (.*) \}", body)
        if m and m.group(1) in own and len(re.findall(r"\b\w+ : \w+ \. \w+ ,", m.group(2))) >= 2 and not f.calls():
            add(4, f, "conversion field by field")
        if f.name.startswith("print") and any(re.search(r"\b%s\b" % t, p) for p in f.params for t in own):
            add(4, f, "printing by hand")
    # 5
    clauses = collections.defaultdict(list)
    for f in functions:
        kinds = {}
        for p in f.params:
            name, _, kind = p.partition(":")
            kinds[name.replace("mut ", "").strip()] = kind.strip().replace("&mut ", "").replace("&", "")
        for word, text in f.clauses:
            key = re.sub(r"\b(?<![.\w])([a-z_]\w*)\b", lambda m: "‹%s›" % kinds[m.group(1)] if m.group(1) in kinds else m.group(1), text)
            if word != "decreases":
                clauses[word, key].append(f)
    for (word, key), group in clauses.items():
        if len({(f.crate, f.name) for f in group}) >= 3 and len(key) > 8:
            add(5, group[0], "%s { %s } in %d functions: %s" % (word, key, len(group), ", ".join("%s::%s" % (g.crate, g.name) for g in group)[:200]))
    sets = [(f, frozenset(p.replace("mut ", "") if not p.startswith("&") else p for p in f.params if ":" in p and not p.strip().startswith("self"))) for f in functions]
    together = set()
    for i, (_, a) in enumerate(sets):
        for _, b in sets[:i]:
            if len(a & b) >= 2:
                together.add(a & b)
    support = {s: [f for f, a in sets if s <= a] for s in together}
    support = {s: g for s, g in support.items() if len(g) >= 3}
    for s, group in support.items():
        if not any(s < other and len(support[other]) == len(group) for other in support):
            add(5, group[0], "parameters (%s) in %d functions: %s" % (", ".join(sorted(s)), len(group), ", ".join("%s::%s" % (g.crate, g.name) for g in group)[:200]))
    # 6
    for f in functions:
        slices = [p for p in f.params if re.search(r"&(mut )?\[", p)]
        near = [p for p in f.params if re.match(r"(mut )?(%s): (usize|u64)$" % "|".join(POSITION), p)]
        if slices and near:
            add(6, f, "slice and position: " + ", ".join(slices + near))
        if re.search(r"\(\s*lo\s*\+\s*hi\s*\)\s*/\s*2|lo \+ \(hi - lo\) / 2", f.body):
            add(6, f, "search that halves by hand")
    for t in types:
        if t.word == "struct":
            arrays = collections.Counter(m.group(1) for f in t.fields for m in re.finditer(r"\[[^;\]]*;\s*(\w+)\]", f))
            if arrays and any(re.match(r"(pub )?(len|size|at): (usize|u64)$", f) for f in t.fields):
                add(6, t, "array and its length")
            for size, n in arrays.items():
                if n > 1:
                    add(6, t, "%d arrays of %s" % (n, size))
    # 7
    for f in functions:
        for p in f.params:
            if p.endswith(": bool"):
                add(7, f, "a flag chooses: " + p)
        for name, n in compared(f.tokens).items():
            if n >= 3 and len(set(f.calls())) >= 3:
                add(7, f, "a step chosen by %d tests of %s" % (n, name))
    # 8
    for path, text in sorted(files.items()):
        m = re.match(r"crates/(\w+)/proofs/(?:(\w+)/)?(\w+)\.antt$", path)
        if not m or m.group(3) == "Lib":
            continue
        crate, fn, file = m.groups()
        lines = text.split("\n")
        total = sum(1 for l in lines if l.strip())
        for n, l in enumerate(lines, 1):
            a = re.match(r"\s*(?:abbrev )?pub ([^\s:]+) : goal\.", l)
            h = None if fn else re.match(r"\s*(?:abbrev )?pub ([^\s:{(]+)(?: .*)? : ", l)
            if a:
                found.append((8, crate, "proofs/%s/%s.antt:%d" % (fn, file, n), fn or file, "%s, file of %d lines" % (a.group(1), total)))
            elif h:
                found.append((8, crate, "proofs/%s.antt:%d" % (file, n), h.group(1), "helper lemma"))
    return found


def main():
    words = sys.argv[1:]
    option = lambda w: words[words.index(w) + 1] if w in words else None
    taken = {option("--point"), option("--crate")}
    commits = [w for w in words if not w.startswith("--") and w not in taken]
    found = places(sources(commits[0] if commits else None))
    if option("--point"):
        found = [p for p in found if p[0] == int(option("--point"))]
    if option("--crate"):
        found = [p for p in found if p[1] == option("--crate")]
    if "--list" in words:
        for point, crate, at, name, what in sorted(found):
            print("%d %s/%s %s: %s" % (point, crate, at, name, what))
        print()
    count = collections.Counter((p[1], p[0]) for p in found)
    print("| crate | " + " | ".join(str(n) for n in range(1, 9)) + " |")
    print("|---" * 9 + "|")
    for crate in sorted({p[1] for p in found}):
        print("| %s | " % crate + " | ".join(str(count[crate, n] or "") for n in range(1, 9)) + " |")
    print("| all | " + " | ".join(str(sum(c for (_, n), c in count.items() if n == k)) for k in range(1, 9)) + " |")


main()
