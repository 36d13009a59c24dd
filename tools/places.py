#!/usr/bin/env python3
"""The places of docs/DESIGN-PASS.md, counted in src/.

    python3 tools/places.py [ROOT] [-v] [POINT ..]

For each point of that page what is counted, and how often it is found; with -v each place as well. A place that stays has a
comment line `// Stays: ..` at it or above it: those lines are counted last, for each point as far as the line names it.
The rules below are by text: they find too much rather than too little, and the page says of each what is no place.
"""

import collections
import glob
import os
import re
import sys

arguments = sys.argv[1:]
verbose = "-v" in arguments
arguments = [a for a in arguments if a != "-v"]
root = arguments[0] if arguments and os.path.isdir(arguments[0]) else "."
points = [a for a in arguments if a.isdigit()]

files = sorted(glob.glob(os.path.join(root, "crates/*/src/*.rt")))
texts = {os.path.relpath(f, root): open(f).read() for f in files}
# comments, and what is quoted, blanked
bare = {
    f: re.sub(
        r"//[^\n]*|b?\"(?:[^\"\\]|\\.)*\"|b?'(?:[^'\\]|\\.)'",
        lambda m: re.sub(r"[^\n]", " ", m.group()) if m.group().startswith("/") else '"' + " " * (len(m.group()) - 2) + '"',
        t,
    )
    for f, t in texts.items()
}


def line(f, at):
    return bare[f].count("\n", 0, at) + 1


def block(text, at):
    """The end of the braces that open at the first brace from `at` on."""
    i = text.index("{", at)
    depth = 0
    for k in range(i, len(text)):
        depth += {"{": 1, "}": -1}.get(text[k], 0)
        if depth == 0:
            return i, k + 1
    raise ValueError


CLAUSE = re.compile(r"\n\s*(requires|ensures)\b[^{\n]*\{")


def functions():
    """(file, index, name, parameters, result, clauses, body) of every function."""
    for f, t in bare.items():
        for m in re.finditer(r"(?m)^\s*(?:pub )?(?:extern \"C\" )?fn (\w+)", t):
            at = t.index("(", m.end() - 1)
            depth = 0
            for k in range(at, len(t)):
                depth += {"(": 1, ")": -1}.get(t[k], 0)
                if depth == 0:
                    break
            parameters = t[at + 1 : k]
            rest = k + 1
            clauses = []
            head = re.compile(r"[^{]*").match(t, rest)
            result = re.split(r"\b(?:requires|ensures)\b", head.group())[0].strip()
            at = rest
            while True:
                c = re.compile(r"[^{]*?\b(requires|ensures)\b[^{]*").match(t, at)
                if not c:
                    break
                begin, end = block(t, c.end() - 1)
                clauses.append((c.group(1), " ".join(t[begin + 1 : end - 1].split())))
                at = end
            begin, end = block(t, at)
            yield f, m.start(1), m.group(1), " ".join(parameters.split()), result, clauses, t[begin:end]


FUNCTIONS = list(functions())
found = collections.OrderedDict()


def place(point, what, f, at, text):
    found.setdefault((point, what), []).append((f, line(f, at), text))


def count(point, what):
    found.setdefault((point, what), [])


# ---- 1
WHAT = "enums in the shape of Option or Result: two cases of which one holds a value, a case that holds a Refusal, or a case for nothing beside ones that hold a value"
count(1, WHAT)
for f, t in bare.items():
    for m in re.finditer(r"enum (\w+)[^{]*\{", t):
        begin, end = block(t, m.start())
        cases = [c.strip() for c in re.sub(r"\([^)]*\)", lambda x: x.group().replace(",", ";"), t[begin + 1 : end - 1]).split(",")]
        cases = [c for c in cases if c]
        holds = [c for c in cases if "(" in c]
        if m.group(1) != "Refusal" and holds and (
            len(cases) == 2
            or any("(Refusal)" in c for c in cases)
            or any(re.fullmatch(r"Nothing|Nobody|Nowhere|None", c) for c in cases)
        ):
            place(1, WHAT, f, m.start(1), m.group(1))
WHAT = "structs with a flag beside other values"
count(1, WHAT)
for f, t in bare.items():
    for m in re.finditer(r"struct (\w+)[^;{]*\{", t):
        begin, end = block(t, m.start())
        if re.search(r":\s*bool\b", t[begin:end]):
            place(1, WHAT, f, m.start(1), m.group(1))
WHAT = "functions on the bytes of values (0 undefined, 1 true, 2 false), a number for a kind"
count(1, WHAT)
for f, at, name, parameters, result, clauses, body in FUNCTIONS:
    if re.search(r"\b(value|b|values\[\w+\])\s*(==|!=|<)\s*[012]\b|\b[012] < b\b|values\[\w+\] = [012]", body):
        place(1, WHAT, f, at, name)
WHAT = "functions that give 0 for none, or take it so, where the number is none of a list's"
count(1, WHAT)
for f, at, name, parameters, result, clauses, body in FUNCTIONS:
    if re.search(r"\b(only|new|mark|m|c|rounds\[\w+\]) (==|!=) 0\b", body):
        place(1, WHAT, f, at, name)

# ---- 2
WHAT = "pairs of functions with the same body but for names, types and numbers (16 tokens or more, programs and C entries left out)"
count(2, WHAT)
KEEP = set("if else while for in loop match return let mut break continue true false as fn pub self Some None Ok Err iter rev any all len".split())
groups = collections.defaultdict(list)
for f, at, name, parameters, result, clauses, body in FUNCTIONS:
    if re.match(r"crates/(run_|saucepebbly|dock|desk)", f):
        continue
    tokens = re.findall(r"\w+|[^\s\w]", re.sub(r"b?\"[^\"]*\"", "0", body))
    shape = " ".join(t if t in KEEP or not re.match(r"\w", t) else ("0" if t[0].isdigit() else "x") for t in tokens)
    if len(tokens) >= 16:
        groups[shape].append((f, at, name))
for shape, members in groups.items():
    for other in members[1:]:
        place(2, WHAT, other[0], other[1], f"{other[2]} as {members[0][2]} of {members[0][0]}")

# ---- 3
WHAT = "loops that count an index or a number by hand"
count(3, WHAT)
OTHER = "other loops by `while` and `loop`"
count(3, OTHER)
for f, at, name, parameters, result, clauses, body in FUNCTIONS:
    for m in re.finditer(r"\b(while|loop)\b([^{]*)\{", body):
        begin, end = block(body, m.start())
        test, inner = m.group(2), body[begin:end]
        counted = [v for v in re.findall(r"\b(\w+) [+-]= \d+;", inner) if re.search(rf"\b{v}\b", test)]
        place(3, WHAT if counted else OTHER, f, at, name)
WHAT = "loops by `for`, and calls of iterators' consumers"
count(3, WHAT)
for f, t in bare.items():
    for m in re.finditer(r"\bfor [^;{]* in |\.(any|all|position|find|fold|count|sum|max|min)\(", t):
        place(3, WHAT, f, m.start(), m.group().strip())

# ---- 4
WHAT = "functions that only tell which case an enum is"
count(4, WHAT)
for f, at, name, parameters, result, clauses, body in FUNCTIONS:
    arms = re.findall(r"=> (\w+),?", body)
    if result == "-> bool" and re.match(r"\{\s*match [^{]*\{", body) and arms and set(arms) <= {"true", "false"}:
        place(4, WHAT, f, at, name)
WHAT = "the greater or the lesser of two numbers, one less, by an `if`"
count(4, WHAT)
for f, at, name, parameters, result, clauses, body in FUNCTIONS:
    b = " ".join(body.split())
    if re.fullmatch(r"\{ if (\w+) <=? (\w+) \{ (return )?(\1|\2);? \} (else \{ )?(\1|\2)( \})? \}", b) or re.fullmatch(r"\{ if (\w+) == 0 \{ return 0; \} \1 - 1 \}", b):
        place(4, WHAT, f, at, name)
WHAT = "equality of slices or rows by hand"
count(4, WHAT)
for f, at, name, parameters, result, clauses, body in FUNCTIONS:
    if re.search(r"\b(\w+)\[(\w+)\] (!=|==) (\w+)\[\2\]", body):
        place(4, WHAT, f, at, name)
WHAT = "copying by hand, element for element"
count(4, WHAT)
for f, at, name, parameters, result, clauses, body in FUNCTIONS:
    if re.search(r"\b\w+\[(\w+)\] = \w+\[\1\];", body):
        place(4, WHAT, f, at, name)
WHAT = "digits read or printed by hand"
count(4, WHAT)
for f, at, name, parameters, result, clauses, body in FUNCTIONS:
    if re.search(r"[*/%] 10\b", body):
        place(4, WHAT, f, at, name)

# ---- 5
WHAT = "facts in the `requires` of three functions or more (each fact once, with how often)"
count(5, WHAT)
facts = collections.defaultdict(list)
for f, at, name, parameters, result, clauses, body in FUNCTIONS:
    for kind, text in clauses:
        if kind == "requires":
            for fact in re.split(r" × (?![^(]*\))", text):
                facts[fact.strip()].append((f, at, name))
for fact, where in sorted(facts.items(), key=lambda x: -len(x[1])):
    if len(where) >= 3:
        place(5, WHAT, where[0][0], where[0][1], f"{len(where)} {fact[:110]}")
WHAT = "pairs of parameters that stand together in five functions or more, and the first never without the second (with how often)"
count(5, WHAT)
pairs = collections.Counter()
alone = collections.Counter()
where = {}
for f, at, name, parameters, result, clauses, body in FUNCTIONS:
    ps = [p.strip() for p in re.split(r",(?![^\[<(]*[\])>])", parameters) if ":" in p]
    for p in ps:
        alone[p] += 1
        for q in ps:
            if p != q:
                pairs[p, q] += 1
                where.setdefault((p, q), (f, at))
for (p, q), n in pairs.most_common():
    if n >= 5 and n == alone[p]:
        place(5, WHAT, *where[p, q], f"{n} {p}, {q}")

# ---- 6
WHAT = "functions with an array or slice and the number of its members that count beside it"
count(6, WHAT)
for f, at, name, parameters, result, clauses, body in FUNCTIONS:
    if re.search(r"\[", parameters) and re.search(r"\b(n|many|number|count|left|held): (usize|u16|u32)", parameters):
        place(6, WHAT, f, at, name)
WHAT = "structs and functions with two arrays of one length beside each other"
count(6, WHAT)
for f, at, name, parameters, result, clauses, body in FUNCTIONS:
    lengths = re.findall(r"\[\w+; (\w+)\]", parameters)
    if any(n > 1 for n in collections.Counter(lengths).values()):
        place(6, WHAT, f, at, name)
for f, t in bare.items():
    for m in re.finditer(r"struct (\w+)[^;{]*\{", t):
        begin, end = block(t, m.start())
        lengths = re.findall(r"\[\w+; (\w+)\]", t[begin:end])
        if any(n > 1 for n in collections.Counter(lengths).values()):
            place(6, WHAT, f, m.start(1), m.group(1))

# ---- 7
WHAT = "functions with a flag as a parameter that switches between two steps"
count(7, WHAT)
for f, at, name, parameters, result, clauses, body in FUNCTIONS:
    for p in re.findall(r"\b(\w+): bool\b", parameters):
        if re.search(rf"\bif !?{p}\b[^&|]*\{{", body):
            place(7, WHAT, f, at, f"{name} ({p})")
WHAT = "tables of functions, function pointers"
count(7, WHAT)
for f, t in bare.items():
    for m in re.finditer(r"\bfn\(", t):
        place(7, WHAT, f, m.start(), "fn(")

# ---- 8
WHAT = "files of answers (and their lines)"
count(8, WHAT)
lines = 0
answers = sorted(glob.glob(os.path.join(root, "crates/*/proofs/**/Answers.antt"), recursive=True))
for a in answers:
    lines += open(a).read().count("\n")
WHAT2 = "answers with the same text as another of the crate"
same = 0
for crate in sorted({os.path.relpath(a, root).split("/")[1] for a in answers}):
    bodies = collections.Counter()
    for a in answers:
        if os.path.relpath(a, root).split("/")[1] == crate:
            for part in re.split(r"\n\s*\n", open(a).read()):
                m = re.match(r"pub (\S+) : goal\.\S+\n((?:unfolding .*\n)?)(\S+ c =)", part.strip() + "\n")
                if m:
                    body = part.strip().split("\n", 1)[1].replace(m.group(1), "_")
                    if len(body) > 60:
                        bodies[body] += 1
    same += sum(n - 1 for n in bodies.values() if n > 1)

for (point, what), places in found.items():
    if points and str(point) not in points:
        continue
    if point == 8:
        continue
    print(f"{point}. {what}: {len(places)}")
    if verbose:
        for f, n, text in places:
            print(f"     {f}:{n}: {text}")
if not points or "8" in points:
    print(f"8. {WHAT}: {len(answers)} ({lines})")
    print(f"8. {WHAT2}: {same}")
stays = sum(t.count("// Stays: ") for t in texts.values())
print(f"lines `// Stays: ..`: {stays}")
