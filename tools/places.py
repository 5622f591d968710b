#!/usr/bin/env python3
"""Counts the places of the older forms in crates/*/src/*.rt: python3 tools/places.py [COMMIT] at the top of the repository.

Prints `point.rule crate/file:line: text` for each place, then a table of counts. Without COMMIT it reads the files as they stand.
The rules are textual and name more than they mean: a place printed here may be none (docs/DESIGN-PASS.md says which).

1.enum    a variant without a value named Refused, Nothing, Unknown, Cut .. (EMPTY) beside variants that hold one; a variant that holds a u8 as its refusal
1.flag    a bool field that says whether the fields beside it count (FLAGS)
1.number  a field, parameter, result or literal that gives a refusal, a stop or a kind as a number
2.twin    functions whose bodies (four lines or 13 words and more) are the same up to names, numbers and constants
3.loop    `while`, with the name that its body counts
4.hand    equality, order, copying, conversion and printing by hand (HAND); functions called same, equal, is_..; matches that give true or false for each variant
5.clause  a `requires`, or an `ensures` that bounds a result, that stands in three functions or more, the parameters' names replaced by their types
5.travel  three parameters or more (name and type) that three functions or more have in common
6.buffer  a struct with an array or slice beside a length; two array or slice parameters of one type; a slice parameter beside a length
7.switch  `match engine`, a parameter `engine`, an enum of this repository without values that one function matches to pick which function to call
"""
import collections, glob, re, subprocess, sys

EMPTY = {"Refused", "Failed", "Broken", "Cut", "Nothing", "None", "Nowhere", "Unknown", "Off", "Unset", "NotSet", "OutOfRange", "Full", "Missing", "Empty", "Ended", "End"}
FLAGS = re.compile(r"^\s*(?:pub )?(ok|good|valid|found|present|set|reads|extended|iwm|has_\w+|is_\w+|armed|refused|full|broken): bool,")
NUMBER = [
    re.compile(r"^\s*(?:pub )?(?:refusal|stop|refused|failure|error|kind|no): u(?:8|16|32),"),
    re.compile(r"\bfn (?:refus\w*|no|stop\w*|number\w*|kind\w*|code\w*|halt\w*|error\w*)\([^)]*\) -> u(?:8|16|32|size)"),
    re.compile(r"[(,] ?(?:refusal|stop|refused|number|no|kind): u8\b"),
    re.compile(r"\b(?:Refused|Broken|Failed|Unknown|refused|refuse|halt|no|failed)\((?:[^()]*, )?\d+\)"),
    re.compile(r"\b(?:refusal|stop|refused|kind|code): \d+,"),
    re.compile(r"\b(?:refusal|stop|refused|kind|code)\w*\)? (?:==|!=|=) \d+"),
    re.compile(r"^\s*return (?:[2-9]|1[01]);"),
]
HAND = [
    (re.compile(r"== .*&& .*== .*&& .*=="), "equality by hand"),
    (re.compile(r"\[\d\] == .*&.*\[\d\] =="), "equality by hand"),
    (re.compile(r"% (?:256|65536)\)? as u|/ (?:256|65536|16777216)\b|\* (?:256|65536|16777216)\b"), "bytes of a number by hand"),
    (re.compile(r"\bstd::num::\w+"), "a function for a method"),
    (re.compile(r"\w+\[\w+\] = \w+\[\w+\];|\w+\[\w+ \+ \w+\] = \w+\[\w+\];"), "copying by hand"),
    (re.compile(r"^\s*(\w+) = \1 [-+|&^*/] "), "an assignment for a compound one"),
    (re.compile(r"\b(\w+): \1,"), "a field named twice"),
]
WORD = re.compile(r"b?\"[^\"]*\"|'[^']*'|[A-Za-z_][A-Za-z0-9_]*|\d[\d_a-z]*|[^\sA-Za-z0-9_]")
KEEP = set("as bool break const continue else enum false fn for if in impl let loop match mut pub ref return self Self struct true type u8 u16 u32 u64 usize while "
           "Some None Ok Err Option Result".split())


class Function:
    """One fn: its place, name, parameters, result, clauses (kind, text) and body."""


def files_of(commit):
    """Path and text of each source file."""
    if commit is None:
        return [(p, open(p, encoding="utf8").read()) for p in sorted(glob.glob("crates/*/src/**/*.rt", recursive=True))]
    names = subprocess.run(["git", "ls-tree", "-r", "--name-only", commit, "crates"], check=True, capture_output=True, text=True).stdout.split("\n")
    names = sorted(n for n in names if re.match(r"crates/[^/]+/src/.*\.rt$", n))
    return [(n, subprocess.run(["git", "show", commit + ":" + n], check=True, capture_output=True).stdout.decode("utf8")) for n in names]


def bare(text):
    """The text without comments, ghost imports and attributes, its lines where they were."""
    kept = []
    for line in text.split("\n"):
        line = re.sub(r"//.*", "", line)
        if re.match(r"\s*(ghost use|#!?\[tactic)", line):
            line = ""
        kept.append(line)
    return "\n".join(kept)


def closing(text, at):
    """The place behind the bracket that closes the one at `at`."""
    depth = 0
    for k in range(at, len(text)):
        if text[k] in "({[":
            depth += 1
        elif text[k] in ")}]":
            depth -= 1
            if depth == 0:
                return k + 1
    return len(text)


def split(text):
    """The parts between commas outside brackets."""
    parts, depth, last = [], 0, ""
    for c in text:
        depth += (c in "([{<") - (c in ")]}>")
        if c == "," and depth == 0:
            parts.append(last)
            last = ""
        else:
            last += c
    return [" ".join(p.split()) for p in parts + [last] if p.strip()]


def functions(path, text):
    found = []
    for m in re.finditer(r"\bfn\s+(\w+)", text):
        f = Function()
        f.path, f.name, f.line = path, m.group(1), text.count("\n", 0, m.start()) + 1
        at = text.find("(", m.end())
        if at < 0:
            continue
        end = closing(text, at)
        f.parameters = split(text[at + 1:end - 1])
        f.clauses, f.body, f.body_line, result = [], "", 0, end
        f.result = ""
        while end < len(text):
            step = re.compile(r"\s*(requires|ensures|decreases|waits|aborts)\b[^{;]*|[^{;]*?(?=\b(?:requires|ensures)\b)|[^{;]*").match(text, end)
            word = step.group(1)
            if not f.result and not word:
                r = re.search(r"->\s*(.*)", step.group(0), re.S)
                f.result = " ".join(r.group(1).split()) if r else ""
            end = step.end()
            if end >= len(text) or text[end] == ";":
                break
            if word and text[end] == "{":
                shut = closing(text, end)
                f.clauses.append((word, " ".join(text[end + 1:shut - 1].split())))
                end = shut
            elif text[end] == "{":
                f.body, f.body_line = text[end:closing(text, end)], text.count("\n", 0, end) + 1
                break
        found.append(f)
    return found


def shape(body):
    """The body's words: names by the order in which they come, types, numbers and constants by their sort alone."""
    names, words = {}, []
    for w in WORD.findall(body):
        if w in KEEP or not (w[0].isalnum() or w[0] in "_\"'"):
            words.append(w)
        elif w[0].isdigit() or w[0] in "\"'" or w.startswith("b\"") or (w.isupper() and len(w) > 1):
            words.append("0")
        elif w[0].isupper():
            words.append("T")
        else:
            words.append("x%d" % names.setdefault(w, len(names)))
    return tuple(words)


def enums(path, text):
    """Name, line and variants (name, what it holds, line) of each enum."""
    for m in re.finditer(r"\benum (\w+)[^{]*\{", text):
        inner_at = m.end()
        inner = text[inner_at:closing(text, m.end() - 1) - 1]
        variants, depth = [], 0
        for v in re.finditer(r"(\w+)\s*(\([^)]*\)|\{[^}]*\})?\s*(?:=\s*\d+)?\s*,", inner):
            held = " ".join((v.group(2) or "").split())
            variants.append((v.group(1), held, text.count("\n", 0, inner_at + v.start()) + 1))
        yield m.group(1), text.count("\n", 0, m.start()) + 1, variants


def main():
    commit = sys.argv[1] if len(sys.argv) > 1 else None
    places = []

    def place(rule, path, line, what):
        places.append((rule, path.replace("crates/", "", 1).replace("/src/", "/", 1), line, " ".join(what.split())[:150]))

    everything, plain_enums = [], set()
    sources = [(path, text, bare(text)) for path, text in files_of(commit)]
    for path, text, code in sources:
        for name, line, variants in enums(path, code):
            if variants and not any(held for _, held, _ in variants):
                plain_enums.add(name)
            holds = any(held for _, held, _ in variants)
            for variant, held, at in variants:
                if holds and not held and variant in EMPTY:
                    place("1.enum", path, at, "enum %s has %s beside variants that hold a value" % (name, variant))
                elif held and variant in {"Refused", "Failed", "Broken"} and re.search(r"\bu\d+\b|usize", held):
                    place("1.enum", path, at, "enum %s has %s%s" % (name, variant, held))
        everything += functions(path, code)
        for m in re.finditer(r"\bstruct (\w+)[^{;]*\{", code):
            fields = code[m.end():closing(code, m.end() - 1) - 1]
            line = code.count("\n", 0, m.end())
            if re.search(r"\w+: (?:\[|&(?:mut )?\[)", fields) and re.search(r"\b(?:count|held|len|length|size|used|filled|at|written): (?:usize|u\d+)", fields):
                place("6.buffer", path, line + 1, "struct %s has a buffer beside a length" % m.group(1))
        for k, line in enumerate(code.split("\n"), 1):
            if re.match(r"\s*(requires|ensures)\b", line):
                continue
            if FLAGS.search(line):
                place("1.flag", path, k, line)
            if any(r.search(line) for r in NUMBER):
                place("1.number", path, k, line)
            for r, what in HAND:
                if r.search(line):
                    place("4.hand", path, k, "%s: %s" % (what, line.strip()))
                    break
            if re.search(r"\bmatch engine\b|\bengine: ", line):
                place("7.switch", path, k, line)

    shapes = collections.defaultdict(list)
    clauses = collections.defaultdict(list)
    for f in everything:
        words = shape(f.body)
        if f.body.count("\n") >= 5 or f.body.count("\n") >= 2 and len(words) >= 13:
            shapes[words].append(f)
        if re.match(r"(same|equal|eq|is_\w+|not_\w+)$", f.name) and f.result == "bool":
            place("4.hand", f.path, f.line, "fn %s -> bool" % f.name)
        arms = re.findall(r"=> (true|false),", f.body)
        if f.result == "bool" and len(arms) >= 2 and len(set(arms)) == 2:
            place("4.hand", f.path, f.line, "fn %s: a match that gives true or false for each variant" % f.name)
        for m in re.finditer(r"\bwhile\b([^{]*)\{", f.body):
            inner = f.body[m.end():closing(f.body, m.end() - 1)]
            counted = re.findall(r"^\s*(\w+) \+= |^\s*(\w+) = \2 \+ ", inner, re.M)
            names = sorted({a or b for a, b in counted})
            place("3.loop", f.path, f.body_line + f.body.count("\n", 0, m.start()), "fn %s: while %s, counts %s" % (f.name, m.group(1).strip(), ", ".join(names) or "nothing"))
        lists = [p.split(": ", 1) for p in f.parameters if re.search(r": &?(?:mut )?\[", p)]
        kinds = collections.Counter(t for _, t in lists)
        for t, n in kinds.items():
            if n > 1:
                place("6.buffer", f.path, f.line, "fn %s: %d parameters of type %s" % (f.name, n, t))
        if lists and any(re.match(r"(count|held|len|length|size|filled): usize", p) for p in f.parameters):
            place("6.buffer", f.path, f.line, "fn %s: a slice beside a length (%s)" % (f.name, ", ".join(f.parameters)))
        for m in re.finditer(r"\bmatch (\w+) \{", f.body):
            typed = [p for p in f.parameters if p.startswith(m.group(1) + ": ") and p.split(": ")[1] in plain_enums]
            inner = f.body[m.end():closing(f.body, m.end() - 1)]
            if typed and m.group(1) != "engine" and len(re.findall(r"=> [\w:.]+\(", inner)) > 1:
                place("7.switch", f.path, f.body_line + f.body.count("\n", 0, m.start()), "fn %s: match %s picks a function" % (f.name, typed[0]))
        seen = set()
        for word, text in f.clauses:
            if word == "ensures" and not re.search(r"result[.\w]* [<≤]|[<≤] result|length result", text):
                continue
            for p in f.parameters:
                if ": " in p:
                    name, kind = p.split(": ", 1)
                    text = re.sub(r"\b%s\b" % re.escape(name.replace("mut ", "")), "‹%s›" % kind, text)
            for fact in text.split(" × "):
                if word == "requires" or re.search(r"result[.\w]* [<≤]|[<≤] result|length result", fact):
                    seen.add(word + " " + fact.strip("() ") if fact.count("(") != fact.count(")") else word + " " + fact)
        for text in seen:
            clauses[text].append(f)

    for group in shapes.values():
        if len(group) > 1:
            names = ", ".join("%s in %s" % (f.name, f.path.split("/")[1]) for f in group)
            place("2.twin", group[0].path, group[0].line, "%d functions alike: %s" % (len(group), names))
    for text, group in clauses.items():
        if len(group) > 2:
            place("5.clause", group[0].path, group[0].line, "%d functions: %s (%s)" % (len(group), text, ", ".join(f.name for f in group)))
    sets = [(f, frozenset(p for p in f.parameters if ": " in p)) for f in everything]
    groups = {}
    for k, (f, a) in enumerate(sets):
        for g, b in sets[k + 1:]:
            both = a & b
            if len(both) > 2 and both not in groups:
                groups[both] = [h for h, c in sets if both <= c]
    groups = {both: fs for both, fs in groups.items() if len(fs) > 2}
    for both, fs in groups.items():
        if not any(both < other and len(groups[other]) == len(fs) for other in groups):
            place("5.travel", fs[0].path, fs[0].line, "%d functions: %s (%s)" % (len(fs), ", ".join(sorted(both)), ", ".join(h.name for h in fs)))

    places.sort(key=lambda p: (p[0], p[1], p[2]))
    for rule, path, line, what in places:
        print("%s %s:%d: %s" % (rule, path, line, what))
    counts = collections.Counter(p[0] for p in places)
    print("\n%-10s %s" % ("rule", "places"))
    for rule in sorted(set(counts) | set(re.findall(r"^(\d\.\w+)", __doc__, re.M))):
        print("%-10s %d" % (rule, counts[rule]))
    for point in "1234567":
        print("point %s: %d" % (point, sum(n for r, n in counts.items() if r[0] == point)))


main()
