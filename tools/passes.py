#!/usr/bin/env python3
"""What the compiled library is given, and has to report, of passes (request 11: "the greatest number of passes that any one propagation took").

    python3 tools/passes.py OUT VECTORS ..     writes OUT/stdin and OUT/stdout

VECTORS have one JSON object a line, as tools/why.py tells: `result` has `passes` too. Cases of other editions, or with head cycles allowed, are passed over.
Besides there are three chains, `1 :- 2. 2 :- 3. .. N.` for N = 1, 5 and 256: each pass defines one atom and one more changes nothing, so N + 1 passes.

A text of `stdin` is as tools/why.py has it. Of each, `stdout` has a line: the result, its two numbers, and the passes, 0 of a refusal."""
import json
import os
import sys

from why import text_of


def chain(n):
    words = [n, 0, n]
    for p in range(1, n):
        words += [1, p, 1, p + 1, 0, 0]
    words += [1, n, 0, 0, 0]
    return {"limit": 0, "words": words, "result": {"end": "answer", "choices": 0, "skips": 0, "passes": n + 1}}


def line_of(case):
    result = case["result"]
    if "refused" in result:
        number, place = result["refused"]
        return f"refused {number} {place} 0"
    return f"{result['end']} {result['choices']} {result['skips']} {result['passes']}"


def main(out, vectors):
    cases = [chain(n) for n in (1, 5, 256)]
    for path in vectors:
        with open(path, encoding="utf-8") as f:
            cases += [case for case in map(json.loads, f) if case.get("edition", 1) == 1 and not case.get("cycles", False)]
    with open(os.path.join(out, "stdin"), "wb") as f:
        for case in cases:
            text = text_of(case)
            f.write(len(text).to_bytes(4, "little") + text)
    with open(os.path.join(out, "stdout"), "w", encoding="ascii") as f:
        f.write("".join(line_of(case) + "\n" for case in cases))
    print(f"{len(cases)} cases")


if __name__ == "__main__":
    main(sys.argv[1], sys.argv[2:])
