#!/usr/bin/env python3
"""What the compiled library is given, and has to print, where head cycles are taken (request 14).

    python3 tools/head_cycles.py OUT TABLES CYCLES PLAIN LIST

TABLES is the file of crates/run_tables, which tools/cases.py makes. CYCLES, PLAIN and LIST are vectors of the requests 14, 5 and 7, one JSON object a line; those of
the old edition with `cycles` are taken. Their results are those of an implementation that shares nothing with this repository. Written are, of each what is read and
what has to be printed (.stdout):

    OUT/tables     2,400 small tables with head cycles, in the form of run_tables, by tools/enumerate.py
    OUT/old.stdout what is to be printed in this mode for TABLES, by tools/enumerate.py: the lines of the old mode but for those with 8
    OUT/solve      the calls of CYCLES that solve, as texts: the limit and the words; the line, then `why` (rounds and rules are 0 in this mode)
    OUT/passes.stdout   of the same calls, the passes in the place of the plan
    OUT/check      the calls of CYCLES that check, in the form of run_tables, printed `yes`, `no` or the refusal
    OUT/plain      PLAIN's calls, as texts
    OUT/list       LIST's calls, as tools/lists.py has them
"""
import json
import os
import random
import sys

from cases import encoded, line_of
from enumerate import Refused, read_table
from generate import Case, Program, Rule, random_aggregate, random_body, some, words_of
from lists import all_of, cases_in, line_of as list_line, texts_of as list_texts
from passes import line_of as passes_line
from plain import line_of as plain_line
from why import lines_of, text_of

SEED = 20261116
SMALL = 2400


# ---- Small tables with head cycles ------------------------------------------------------------------------------


def cyclic_program(rng, n):
    """Pairs of atoms in one head that depend on each other, then rules and constraints at random."""
    atoms = list(range(1, n + 1))
    rules = []
    for _ in range(rng.choice([1, 1, 2, 2, 3])):
        a, b = sorted(rng.sample(atoms, 2))
        rules.append(Rule(sorted({a, b, *some(rng, atoms, 2)}), some(rng, atoms, 1) if rng.random() < 0.2 else [], some(rng, atoms, 1) if rng.random() < 0.3 else [], []))
        if rng.random() < 0.8:
            rules.append(Rule([a], sorted({b, *some(rng, atoms, 1)}), [], []))
            rules.append(Rule([b], sorted({a, *(some(rng, atoms, 1) if rng.random() < 0.3 else [])}), [], []))
        else:
            c = rng.choice(atoms)
            rules += [Rule([a], [b], [], []), Rule([b], [c], [], []), Rule([c], [a], [], [])]
    for _ in range(rng.randrange(n + 2)):
        kind = rng.random()
        head = some(rng, atoms, 1) if kind < 0.4 else some(rng, atoms, 3) if kind < 0.75 else []
        rules.append(Rule(head, *random_body(rng, atoms, 0, atoms)))
    rng.shuffle(rules)
    return Program(n, [], rules)


def with_aggregates(rng, program):
    """A constraint or two over an aggregate: aggregates in constraints make no cycle."""
    aggregates = [random_aggregate(rng, range(1, program.atoms + 1)) for _ in range(rng.choice([1, 2]))]
    rules = program.rules + [Rule([], some(rng, range(1, program.atoms + 1), 1), [], [rng.choice([j, -j])]) for j in range(1, len(aggregates) + 1)]
    return Program(program.atoms, aggregates, rules)


def refusal(words, cycles):
    try:
        read_table(words, cycles)
    except Refused as refused:
        return refused.number
    return 0


def small_cases():
    """Each is refused with 8 in the old mode; a few with 9 in this one."""
    rng = random.Random(SEED)
    cases, seen, ninth = [], set(), 60
    while len(cases) < SMALL:
        n = rng.choice([2, 2, 3, 3, 3, 4, 4, 4, 5, 5, 5, 6, 6, 7])
        program = cyclic_program(rng, n)
        if rng.random() < 0.3:
            program = with_aggregates(rng, program)
        if rng.random() < 0.05 and program.aggregates:
            program.rules.append(Rule([1], [], [], [1]))
        words = words_of(program)
        if tuple(words) in seen or refusal(words, False) != 8:
            continue
        if refusal(words, True) == 9:
            if ninth == 0:
                continue
            ninth -= 1
        seen.add(tuple(words))
        cases.append(Case(words, [rng.randrange(2) for _ in range(n)]))
    return cases


def old_cases(data):
    """The cases of run_tables' file, with their plan buffers."""
    for words, room, given in cases_in(data):
        yield Case(words, given, room)


# ---- Vectors -----------------------------------------------------------------------------------------------------


def taken(path):
    with open(path, encoding="utf-8") as f:
        return [case for case in map(json.loads, f) if case.get("edition", 1) == 1 and case.get("cycles", False)]


def check_line(case):
    result = case["result"]
    return result if isinstance(result, str) else "refused {} {}".format(*result["refused"])


def framed(text):
    return len(text).to_bytes(4, "little") + text


def write(out, name, data, lines):
    if data is not None:
        with open(os.path.join(out, name), "wb") as f:
            f.write(data)
    with open(os.path.join(out, name + ".stdout"), "w", encoding="ascii") as f:
        f.writelines(line + "\n" for line in lines)


def main(out, tables, cycles, plain, listing):
    small = small_cases()
    write(out, "tables", b"".join(map(encoded, small)), [line_of(case, True)[0] for case in small])
    with open(tables, "rb") as f:
        write(out, "old", None, [line_of(case, True)[0] for case in old_cases(f.read())])
    cases = taken(cycles)
    solved = [case for case in cases if "limit" in case]
    texts = b"".join(framed(text_of(case)) for case in solved)
    write(out, "solve", texts, [line for case in solved for line in lines_of(case)])
    write(out, "passes", None, map(passes_line, solved))
    checked = [case for case in cases if "plan" in case]
    write(out, "check", b"".join(encoded(Case(case["words"], case["plan"], len(case["plan"]))) for case in checked), map(check_line, checked))
    plainly = taken(plain)
    write(out, "plain", b"".join(framed(text_of(case)) for case in plainly), [plain_line(case["result"]) for case in plainly])
    listed = taken(listing)
    write(out, "list", list_texts(listed), [line for case in listed for line in (list_line(case), all_of(case["words"], True))])
    print(f"{len(small)} tables, {len(solved)} calls that solve, {len(checked)} that check, {len(plainly)} plain, {len(listed)} listings")


if __name__ == "__main__":
    main(*sys.argv[1:])
