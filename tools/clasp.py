#!/usr/bin/env python3
"""Our reading and writing of aspif, judged by clasp. Not part of the gate: needs gringo, clasp and cc.

    (cd crates/dock && rt lib) && (cd crates/desk && rt lib)
    python3 tools/clasp.py read [COUNT [SEED]]     random texts of the subset, one in ten of them from gringo
    python3 tools/clasp.py write [COUNT [SEED]]    random tables of all shapes, written as texts
    python3 tools/clasp.py night                   the night plan of examples/night.lp

Everything of ours goes through the entries of include/saucepebbly.h in these libraries. All plans of a
table are found by solving again and again, each time with one constraint more, which rules the last plan out: no answer
set contains another, so that `:- all atoms of the plan.` rules out this one alone. Tables that the solver refuses for a
cycle (8, 9), and small tables anyway, are also judged by `enumerate.py`, which tries every interpretation.

clasp gets each text with an output statement for each atom, since it names no other atoms; a text that we wrote also
as it is. Ends with status 1 at the first difference, and prints it.
"""

import ctypes
import json
import os
import random
import subprocess
import sys

import enumerate as definition

ROOT = os.path.dirname(os.path.dirname(os.path.abspath(__file__)))
MOST_WORDS = 16384


# ---- The library -----------------------------------------------------------------------------------------


def library():
    folder = os.path.join(ROOT, "target", "clasp")
    os.makedirs(folder, exist_ok=True)
    archives = [os.path.join(ROOT, "crates", name, "out", f"lib{name}.a") for name in ("dock", "desk")]
    shared = os.path.join(folder, "libsaucepebbly.so")
    subprocess.run(["cc", "-shared", "-o", shared, "-Wl,--whole-archive", *archives, "-Wl,--no-whole-archive"], check=True)
    return ctypes.CDLL(shared)


DOCK = library()
BUFFER = (ctypes.c_uint8 * (1 << 21))()
# The memory that solving works in.
LISTS = (ctypes.c_uint16 * 17922)()
CANDIDATES = (ctypes.c_uint32 * 1024)()


def array(kind, values):
    return (kind * len(values))(*values), ctypes.c_size_t(len(values))


class Refused(Exception):
    pass


def call(entry, *parts, memory=()):
    """The kind and the first number of the report."""
    report = (ctypes.c_uint32 * 2)()
    flat = [x for part in parts for x in (part if isinstance(part, tuple) else (part,))]
    kind = entry(*flat, report, ctypes.c_size_t(2), *memory)
    if kind == 3:
        raise Refused(report[0], report[1])
    return kind, report[0]


def read(text):
    words = (ctypes.c_int32 * MOST_WORDS)()
    _, count = call(DOCK.saucepebbly_read_aspif, array(ctypes.c_uint8, text.encode()), (words, ctypes.c_size_t(MOST_WORDS)))
    return words[:count]


def write(words):
    _, count = call(DOCK.saucepebbly_write_aspif, array(ctypes.c_int32, words), (BUFFER, ctypes.c_size_t(len(BUFFER))), memory=(LISTS,))
    return ctypes.string_at(BUFFER, count).decode()


def first_plan(words):
    """The first answer set, as a list of atoms, or None."""
    report = (ctypes.c_uint32 * 2)()
    plan, room = array(ctypes.c_uint8, [0] * 256)
    kind = DOCK.saucepebbly_solve(*array(ctypes.c_int32, words), 0, 4294967295, plan, room, report, ctypes.c_size_t(2), None, ctypes.c_size_t(0), LISTS, CANDIDATES)
    if kind == 3:
        raise Refused(report[0], report[1])
    return [i + 1 for i in range(words[0]) if plan[i]] if kind == 0 else None


def rules_at(words):
    """Where the number of rules stands."""
    at = 2
    for _ in range(words[1]):
        at += 4 + 2 * words[at + 3]
    return at


def all_plans(words):
    words, at, found = list(words), rules_at(words), []
    while (plan := first_plan(words)) is not None:
        found.append(plan)
        words += [0, len(plan)] + plan + [0, 0]
        words[at] += 1
    return found


# ---- clasp -----------------------------------------------------------------------------------------------


def run_clasp(text):
    done = subprocess.run(["clasp", "0", "--outf=2"], input=text.encode(), capture_output=True)
    if done.returncode not in (10, 20, 30):
        raise AssertionError("clasp does not take it: %d %s" % (done.returncode, done.stderr.decode()))
    return json.loads(done.stdout)


def named(text, atoms):
    """The text with an output statement for each atom."""
    lines = text.rstrip("\n").split("\n")
    return "\n".join(lines[:-1] + ["4 %d x%d 1 %d" % (1 + len(str(a)), a, a) for a in range(1, atoms + 1)] + lines[-1:]) + "\n"


def clasp_sets(text, atoms):
    sets = []
    for step in run_clasp(named(text, atoms))["Call"]:
        for witness in step.get("Witnesses", []):
            sets.append(sorted(int(name[1:]) for name in witness.get("Value", [])))
    return sets


def in_order(sets, atoms):
    """01's order: at the lowest atom on which two differ, the one that has it comes first."""
    return sorted(sets, key=lambda s: [a not in s for a in range(1, atoms + 1)])


def defined(words):
    """All answer sets by enumeration, also of a table with a cycle."""
    reader = definition.Words(list(words))
    atoms = reader.count(256)
    aggregates = [definition.read_aggregate(reader, atoms) for _ in range(reader.count(64))]
    rules = [definition.read_rule(reader, atoms, len(aggregates)) for _ in range(reader.count(1024))]
    return [definition.atoms_of(x) for x in definition.answer_sets(definition.Program(atoms, aggregates, rules))]


# ---- Random texts ----------------------------------------------------------------------------------------


def some(rng, atoms, most):
    """A list as it comes: not sorted, with repeats."""
    return [rng.randint(1, atoms) for _ in range(rng.choice([0, 1, 1, 1, 2, 2, 3, most]))]


def random_statement(rng, atoms):
    low = rng.randint(1, atoms)  # mostly the head lies above the positive body: few cycles
    above = low if rng.random() < 0.9 else 0
    head = [above + a for a in some(rng, atoms - above, 4)] if above < atoms else []
    if rng.random() < 0.6:
        body = [-rng.randint(1, atoms) if rng.random() < 0.3 else a for a in some(rng, low, 4)]
        return [1, 0, len(head)] + head + [0, len(body)] + body
    pairs = [(a, rng.choice([1, 1, 2, 3, 0, 7])) for a in some(rng, low, 6)]
    bound = rng.choice([0, 1, 2, 2, 3, 4, sum(w for _, w in pairs), sum(w for _, w in pairs) + 1])
    return [1, 0, len(head)] + head + [1, bound, len(pairs)] + [n for pair in pairs for n in pair]


def random_text(rng):
    atoms, lines = rng.choice([1, 2, 3, 4, 5, 6, 7, 8]), ["asp 1 0 0"]
    for _ in range(rng.randint(0, 3)):  # something to choose
        pair = rng.sample(range(1, atoms + 1), min(2, atoms))
        lines.append("1 0 %d %s 0 0" % (len(pair), " ".join(map(str, pair))))
    for _ in range(rng.randint(0, 9)):
        gap = rng.choice([" ", " ", " ", "  "])
        lines.append(rng.choice(["", "", "", " "]) + gap.join(map(str, random_statement(rng, atoms))) + rng.choice(["", "", " "]))
        if rng.random() < 0.1:
            lines.append("10 a comment")
    return "\n".join(lines + ["0"]) + rng.choice(["\n", "\n", ""])


def random_program(rng):
    """A program with variables, grounded by gringo; its output statements are left out."""
    rows = ["d(1..%d)." % rng.randint(1, 3), "e(X,Y) :- d(X), d(Y), X < Y."]
    rows += rng.sample(["a(X) ; b(X) :- d(X).", "a(X) :- not b(X), d(X).", "b(X) :- not a(X), d(X).", "c(X) ; a(X) :- d(X)."], rng.randint(1, 2))
    rows += rng.sample([
        "c(X) :- a(X), not b(Y), e(X,Y).", "c(Y) :- c(X), e(X,Y).", "b(Y) :- a(X), e(X,Y).", ":- a(X), b(Y), e(X,Y).", ":- c(X), not a(X).",
        "f :- #sum { X : a(X) } >= %d." % rng.randint(0, 5), ":- #sum { X,1 : a(X) ; 1,X,2 : b(X) } >= %d." % rng.randint(2, 6),
        "g(X) ; h(X) :- d(X), not f.", ":- f, g(X), a(X).", "f :- #count { X : b(X) } >= 2.", ":- not c(X) : d(X)."], rng.randint(0, 6))
    done = subprocess.run(["gringo", "-Wnone"], input="\n".join(rows).encode(), capture_output=True, check=True)
    return without_outputs(done.stdout.decode())


def without_outputs(text):
    return "".join(line for line in text.splitlines(True) if not line.startswith("4 "))


def judge_text(text, tally):
    words = read(text)
    atoms = words[0]
    expected = in_order(clasp_sets(text, atoms), atoms)
    try:
        found = all_plans(words)
        tally["solved"] += 1
    except Refused as refused:
        assert refused.args[0] in (8, 9), refused.args
        tally["refused %d" % refused.args[0]] += 1
        found = defined(words)
    assert found == expected, "clasp: %s\nours: %s" % (expected, found)
    tally["answer sets"] += len(expected)


# ---- Random tables ---------------------------------------------------------------------------------------


def ascending(rng, high, most):
    return sorted(rng.sample(range(1, high + 1), rng.randint(0, min(high, most))))


def listed(members):
    return [len(members)] + members


def random_aggregate(rng, atoms, most, large):
    members = ascending(rng, atoms, most)
    values = [rng.choice([0, 0, 1, 1, 2, 3, 5, 65535 if large else 7]) for _ in members]
    threshold = rng.choice([-1, 0, 1, 1, 2, 2, 3, 4, len(members), max(sum(values) - 1, -1), 4194304 if large else 5])
    return [rng.randint(0, 3), rng.randint(0, 1), min(threshold, 4194304), len(members)] + [n for pair in zip(values, members) for n in pair]


def random_rule(rng, atoms, aggregates, heads):
    literals = [rng.choice([j, -j]) for j in ascending(rng, aggregates, 3)] if rng.random() < 0.6 else []
    return listed(ascending(rng, atoms, heads)) + listed(ascending(rng, atoms, 3)) + listed(ascending(rng, atoms, 2)) + listed(literals)


def random_table(rng):
    """Small, with everything in it; or with many atoms, of which few are open."""
    if rng.random() < 0.85:
        atoms, aggregates = rng.randint(0, 7), rng.randint(0, 4)
        rules = [random_rule(rng, atoms, aggregates, rng.choice([1, 1, 2, 3])) for _ in range(rng.randint(0, 8))]
        rules += [[2] + sorted(rng.sample(range(1, atoms + 1), 2)) + [0, 0, 0] for _ in range(rng.randint(0, 3)) if atoms > 1]
        gathered = [random_aggregate(rng, atoms, 5, rng.random() < 0.3) for _ in range(aggregates)]
    else:
        atoms, aggregates = rng.choice([rng.randint(20, 60), rng.randint(200, 256)]), rng.randint(0, 8)
        low = atoms // 2  # aggregates over the lower half, in rules for the upper half: no cycle
        chosen = rng.sample(range(1, low + 1), 2 * min(5, low // 2))
        rules = [[2] + sorted(chosen[2 * i:2 * i + 2]) + [0, 0, 0] for i in range(len(chosen) // 2)]
        rules += [[1, rng.randint(1, low), 1, a, 0, 0] for a in chosen[:4]]
        for _ in range(rng.randint(0, 20)):
            literals = [rng.choice([j, -j]) for j in ascending(rng, aggregates, 8)]
            head = sorted(rng.sample(range(low + 1, atoms + 1), rng.choice([0, 1, 1, 1, 2])))
            rules.append(listed(head) + listed(ascending(rng, low, 1)) + listed(ascending(rng, low, 3)) + listed(literals))
        gathered = [random_aggregate(rng, low, min(low, 30), True) for _ in range(aggregates)]
    rng.shuffle(rules)
    return [atoms, aggregates] + [n for a in gathered for n in a] + [len(rules)] + [n for r in rules for n in r]


def accepted_table(rng, tally):
    while True:
        words = random_table(rng)
        try:
            first_plan(words)
            return words
        except Refused as refused:
            assert refused.args[0] in (8, 9), refused.args
            tally["refused %d, passed over" % refused.args[0]] += 1


def judge_table(words, tally):
    text = write(words)
    atoms = words[0]
    number = run_clasp(text)["Models"]["Number"]
    rows = [[int(n) for n in line.split(" ")] for line in text.split("\n")[1:-2]]
    last = max([atoms] + [a for row in rows for a in row[3:3 + row[2]]])
    restricted = [[a for a in found if a <= atoms] for found in clasp_sets(text, last)]
    expected = all_plans(words)
    assert number == len(expected), "clasp has %d, the table %s" % (number, expected)
    assert in_order(restricted, atoms) == expected, "clasp: %s\nours: %s" % (restricted, expected)
    if atoms <= 7:
        assert defined(words) == expected, "by enumeration: %s\nours: %s" % (defined(words), expected)
        tally["by enumeration too"] += 1
    if words[1] == 0 and (atoms == 0 or any(atoms in row[3:3 + row[2]] or atoms in map(abs, row[5 + row[2]:]) for row in rows)):
        assert read(text) == words, "read back: %s" % read(text)
        tally["read back"] += 1
    tally["with aggregates"] += last > atoms
    tally["answer sets"] += len(expected)


# ---- The night plan --------------------------------------------------------------------------------------


def night():
    path = os.path.join(ROOT, "examples", "night.lp")
    grounded = subprocess.run(["gringo", path], capture_output=True, check=True).stdout.decode()
    names = {}
    for line in grounded.splitlines():
        if line.startswith("4 "):
            _, _, name, _, atom = line.split(" ")
            names[int(atom)] = name
    text = without_outputs(grounded)
    with open(os.path.join(ROOT, "examples", "night.aspif"), encoding="ascii") as f:
        assert f.read() == text, "examples/night.aspif is not what gringo makes"
    words = read(text)
    plan = first_plan(words)
    sets = clasp_sets(text, words[0])
    assert plan == in_order(sets, words[0])[0]
    print("%d words; clasp has %d plans; the first of them is ours:" % (len(words), len(sets)))
    print(" ".join(names[a] for a in plan if a in names))


# ---- The run ---------------------------------------------------------------------------------------------


class Tally(dict):
    def __missing__(self, key):
        return 0


def main():
    mode = sys.argv[1]
    if mode == "night":
        return night()
    count = int(sys.argv[2]) if len(sys.argv) > 2 else 10000
    rng = random.Random(int(sys.argv[3]) if len(sys.argv) > 3 else 1)
    tally = Tally()
    for i in range(count):
        case = (random_program(rng) if i % 10 == 9 else random_text(rng)) if mode == "read" else accepted_table(rng, tally)
        try:
            judge_text(case, tally) if mode == "read" else judge_table(case, tally)
        except (AssertionError, Refused) as wrong:
            print("case %d:\n%s\n%s" % (i, case, wrong))
            sys.exit(1)
    print("%s: %d as clasp has them; %s" % (mode, count, ", ".join("%s %d" % pair for pair in sorted(tally.items()))))


main()
