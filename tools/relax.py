#!/usr/bin/env python3
"""What the compiled library is given, and has to say, of giving up constraints (request 13).

    python3 tools/relax.py VECTORS TABLES OUT     writes OUT/stdin and OUT/stdout

VECTORS has one JSON object a line: `words`, `limit`, `cycles`, `places` (of the lent list) and `plan room` (in bytes) of a call, and `result`, what an implementation that
shares nothing with this repository says of it: {"refused": [number, place]}, or `end` (answer, none or limit) and, with an answer, `dropped` and `plan`. Calls of another
edition are passed over.

TABLES is what the program `run_tables` reads. Of its tables with a constraint and at most 8 atoms the answer is found by trying: which constraints are kept, by
whether tools/enumerate.py, which tries every interpretation, finds an answer set with them; without a limit.

A line of `stdin` has the numbers of a call: 1 where head cycles are taken, the limit, the places, the plan's bytes, and the words. A line of `stdout` has the end; with an
answer the numbers of the dropped rules, a colon, and the plan's true atoms; a refusal has its number and place."""
import json
import os
import sys

from enumerate import Program, Refused, answer_sets, read_table
from lists import cases_in


def line_of(result):
    if "refused" in result:
        return "refused {} {}".format(*result["refused"])
    if result["end"] != "answer":
        return result["end"]
    atoms = [i + 1 for i, bit in enumerate(result["plan"]) if bit]
    return " ".join(["answer"] + [str(k) for k in result["dropped"]] + [":"] + [str(p) for p in atoms])


def tried(words):
    """By trying, or None where there is nothing to try or too much."""
    if not words or words[0] > 8:
        return None
    try:
        program = read_table(words)
    except Refused:
        return None
    if all(rule.head for rule in program.rules):
        return None

    def plans(kept):
        rules = [rule for k, rule in enumerate(program.rules, 1) if rule.head or k in kept]
        return list(answer_sets(Program(program.atoms, program.aggregates, rules)))

    kept = set()
    found = plans(kept)
    if not found:
        return {"end": "none"}
    for k, rule in enumerate(program.rules, 1):
        if not rule.head:
            more = plans(kept | {k})
            if more:
                kept.add(k)
                found = more
    dropped = [k for k, rule in enumerate(program.rules, 1) if not rule.head and k not in kept]
    return {"end": "answer", "dropped": dropped, "plan": [found[0] >> i & 1 for i in range(program.atoms)]}


def main(vectors, tables, out):
    with open(vectors, encoding="utf-8") as f:
        cases = [case for case in map(json.loads, f) if case.get("edition", 1) == 1]
    calls = [([int(case["cycles"]), case["limit"], case["places"], case["plan room"]] + case["words"], case["result"]) for case in cases]
    with open(tables, "rb") as f:
        small = [(words, tried(words)) for words, _, _ in cases_in(f.read())]
    calls += [([0, 4294967295, 1024, 256] + words, result) for words, result in small if result]
    os.makedirs(out, exist_ok=True)
    with open(os.path.join(out, "stdin"), "w", encoding="ascii") as f:
        f.write("".join(" ".join(str(n) for n in call) + "\n" for call, _ in calls))
    with open(os.path.join(out, "stdout"), "w", encoding="ascii") as f:
        f.write("".join(line_of(result) + "\n" for _, result in calls))
    print(f"{len(cases)} calls of the vectors, {len(calls) - len(cases)} tables tried")


if __name__ == "__main__":
    main(*sys.argv[1:])
