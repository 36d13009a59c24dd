#!/usr/bin/env python3
"""What the compiled library is given, and has to print, of sessions with pins (request 10).

    python3 tools/pins.py [--without-4] OUT VECTORS ..     writes OUT/scripts, OUT/scripts.stdout, OUT/sets and OUT/sets.stdout

VECTORS have one JSON object a line. Those with a `script` are of request 10: `words`, the calls of a session (["pin", atom, value], ["unpin"], ["plan", room, limit]) and
`results`, what an implementation that shares nothing with this repository says of each: null for a pin or removal that is done, {"refused": [number, place]}, or a
plan's `end`, `choices`, `skips`, `passes`, `why` and `plan`. A table that is refused has its refusal in the place of the list. Cases of other editions are passed over. The
counts are those under request 4's reasons. While request 4 has not landed (--without-4) the reasons of tables with aggregates may be others:
there the counts are not compared, a plan that met its limit is left out, and the others are asked for with no limit in the way, which changes neither the result nor the plan.

`scripts` has a call on each line: `o` with the words, or `c` with them where head cycles are taken (request 14), `p` atom value, `u`, `l` room limit, and `L` room limit where counts are not compared. Of each, `scripts.stdout` has what
tools/dock/pins.c prints: the result, its numbers, the true atoms, a sum over the whole buffer, and each true atom's round and rule.

`sets` has small tables, `o` with the words: those of up to five atoms in all VECTORS. Of each, `sets.stdout` has a line for every set of up to three pins: the first of the answer
sets that agree with them, by tools/enumerate.py, which tries every interpretation."""
import itertools
import json
import os
import sys

import enumerate as sets

NO_LIMIT = 4294967295
UNTOUCHED = 7


def mixed(plan):
    total = 1
    for byte in plan:
        total = (total * 33 + byte + 1) % 65521
    return total


def plan_line(room, result, counted):
    buffer = [UNTOUCHED] * room
    line = result["end"]
    if counted:
        line += f" {result['choices']} {result['skips']} {result['passes']}"
    if result["end"] == "answer":
        line += ":" + "".join(f" {i}" for i, byte in enumerate(result["plan"], 1) if byte)
        buffer[:len(result["plan"])] = result["plan"]
    whys = "".join(f" {i} {r} {k}" for i, (r, k) in enumerate(result["why"], 1) if r or k)
    return f"{line} / {mixed(buffer)} / why{whys}"


def call_lines(call, result, exact):
    """The call as the program is given it, and its line; nothing of a call that is left out."""
    if call[0] == "plan":
        _, room, limit = call
        if result is not None and "refused" in result:
            number, place = result["refused"]
            return [(f"l {room} {limit}", f"refused {number} {place} 0 / {mixed([UNTOUCHED] * room)} / why")]
        if exact:
            return [(f"l {room} {limit}", plan_line(room, result, True))]
        if result["end"] == "limit":
            return []
        return [(f"L {room} {NO_LIMIT}", plan_line(room, result, False))]
    text = "u" if call[0] == "unpin" else f"p {call[1]} {int(call[2])}"
    return [(text, "done" if result is None else "refused {} {}".format(*result["refused"]))]


def script_lines(case, landed):
    letter = "c" if case.get("cycles", False) else "o"
    lines = [(letter + "".join(f" {word}" for word in case["words"]), "done")]
    if isinstance(case["results"], dict):
        return [(lines[0][0], "refused {} {}".format(*case["results"]["refused"]))]
    exact = landed or case["words"][1] == 0
    for call, result in zip(case["script"], case["results"]):
        lines += call_lines(call, result, exact)
    return lines


def pin_sets(n):
    for size in range(4):
        for atoms in itertools.combinations(range(1, n + 1), size):
            for values in itertools.product((False, True), repeat=size):
                yield list(zip(atoms, values))


def set_lines(words):
    program = sets.read_table(words)
    answers = [set(sets.atoms_of(x)) for x in sets.answer_sets(program)]
    for pins in pin_sets(program.atoms):
        agreeing = [x for x in answers if all((p in x) == v for p, v in pins)]
        yield "answer:" + "".join(f" {p}" for p in sorted(agreeing[0])) if agreeing else "none"


def is_small(words):
    if not words or not 1 <= words[0] <= 5:
        return False
    try:
        program = sets.read_table(words)
        sets.refuse_head_cycle(program)
        sets.refuse_aggregate_cycle(program)
    except sets.Refused:
        return False
    return True


def write(path, lines):
    with open(path, "w", encoding="ascii") as f:
        f.write("".join(line + "\n" for line in lines))


def main(arguments):
    landed = "--without-4" not in arguments
    out, *vectors = [a for a in arguments if a != "--without-4"]
    cases = []
    for path in vectors:
        with open(path, encoding="utf-8") as f:
            cases += [case for case in map(json.loads, f) if case.get("edition", 1) == 1]
    calls = [pair for case in cases if "script" in case for pair in script_lines(case, landed)]
    tables = sorted({tuple(case["words"]) for case in cases if not case.get("cycles", False) and is_small(case.get("words", []))}, key=lambda words: (len(words), words))[-120:]
    found = [line for words in tables for line in set_lines(list(words))]
    write(os.path.join(out, "scripts"), [call for call, _ in calls])
    write(os.path.join(out, "scripts.stdout"), [line for _, line in calls])
    write(os.path.join(out, "sets"), ["o " + " ".join(map(str, words)) for words in tables])
    write(os.path.join(out, "sets.stdout"), found)
    print(f"{len(calls)} calls; {len(tables)} tables, {len(found)} sets of pins")


if __name__ == "__main__":
    main(sys.argv[1:])
