#!/usr/bin/env python3
"""What the program `run_cycles` reads and has to print, from vectors of request 14 ("Heads that depend on each other").

    python3 tools/cycles.py VECTORS OUT       writes OUT/stdin and OUT/stdout

VECTORS has one JSON object a line, as tools/why.py says, with `cycles` true; where it has a `plan`, it is a call of the check, and `result` is "yes", "no" or a
refusal. `passes` of a result is the greatest number of passes, those of the second search left out; it is not printed.

A case of `stdin` is a text, the limit and the words in decimal, and the plan's bytes, none where the table is to be solved; each after its length in bytes, four
bytes, low byte first. Of a solved table `stdout` has the text program's line, then `why` and, for each atom that has a round or a rule, the atom, its round and its
rule (there is none in this mode); of a checked plan one line."""
import json
import os
import sys

from why import lines_of


def counted(part):
    return len(part).to_bytes(4, "little") + part


def text_of(case):
    return " ".join(str(n) for n in [case.get("limit", 0)] + case["words"]).encode()


def printed(case):
    result = case["result"]
    if isinstance(result, str):
        return [result]
    lines = lines_of(case)
    return lines[:1] if "plan" in case else lines


def main(vectors, out):
    with open(vectors, encoding="utf-8") as f:
        cases = [json.loads(line) for line in f]
    data, lines = b"", []
    cases = [c for c in cases if c.get("edition", 1) == 1 and c.get("cycles", False)]
    for case in cases:
        data += counted(text_of(case)) + counted(bytes(case.get("plan", [])))
        lines += printed(case)
    with open(os.path.join(out, "stdin"), "wb") as f:
        f.write(data)
    with open(os.path.join(out, "stdout"), "w", encoding="ascii") as f:
        f.write("".join(line + "\n" for line in lines))
    print(f"{len(cases)} cases")


if __name__ == "__main__":
    main(sys.argv[1], sys.argv[2])
